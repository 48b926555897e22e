#!/usr/bin/env python3
"""The premises of the program's proofs, in the build's own words: the block of
docs/internals/trusted.md.

    python3 tools/trusted.py LOG PROGRAM            compares the page with LOG, what `rt ci`
        printed, and with the built program
    python3 tools/trusted.py --write LOG PROGRAM    writes it into the page

The build names each library of the program's crate whose statements it took as proved, and how many
functions in C of each have contracts that it assumed. These libraries are the kit's: those of this
repository it has proved, in the same run or an earlier one. `nm` names the functions that the
linked program takes of the C library.
"""
import os
import re
import shutil
import subprocess
import sys
import textwrap

ROOT = os.path.dirname(os.path.dirname(os.path.abspath(__file__)))
PAGE = f"{ROOT}/docs/internals/trusted.md"
BLOCK = re.compile(r"(?<=```text\n).*?(?=```)", re.DOTALL)
NOT_OF_C = ("_ITM_", "__gmon_start__", "__cxa_finalize", "__libc_start_main")  # of the loader


def said_of(log):
    """The log's lines about the program's crate, or None if it was kept from an earlier run of the
    same files."""
    with open(log, encoding="utf-8", errors="replace") as file:
        lines = file.read().split("\n")
    if "rt: oaut proved" not in lines:
        return None
    said = lines[lines.index("== oaut") : lines.index("rt: oaut proved")]
    verdict = next(
        line for line in reversed(said) if line.startswith("logic=proved") and " axioms=" in line
    )
    statements = [
        found[1]
        for found in (re.match(r"statements (\w+):", line) for line in said)
        if found and not os.path.isdir(f"{ROOT}/crates/{found[1]}")
    ]
    axioms = [
        (found[1], found[2] or "0", found[3])
        for found in (
            re.match(r"axioms (\w+): .*?(?:\((\d+) of|none reached of) the (\d+) declared", line)
            for line in said
        )
        if found
    ]
    words = dict(word.split("=", 1) for word in verdict.split() if "=" in word)
    return statements, axioms, words


def taken_by(program):
    """The functions of the C library that a program takes, or None if nm is not installed."""
    if shutil.which("nm") is None:
        return None
    told = subprocess.run(
        ["nm", "-D", "--undefined-only", program], check=True, capture_output=True, text=True
    ).stdout
    return sorted(
        {
            name
            for name in re.findall(r"^ +\w (\w+)", told, re.MULTILINE)
            if not name.startswith(NOT_OF_C)
        }
    )


def row(name, words):
    return textwrap.fill(f"{name}: {', '.join(words)}", 98, subsequent_indent="    ") + "\n"


def rows_of(said):
    statements, axioms, words = said
    return [
        row("statements", statements),
        row(
            "contracts of functions in C",
            [f"{name} {reached} of {declared}" for name, reached, declared in axioms],
        ),
        row("all of these", [words["axioms"]]),
        row("target", [words["target"], words["cpu"]]),
        row("logic", [words["sum"]]),
    ]


def main(words):
    write = words[:1] == ["--write"]
    log, program = words[write:]
    said, taken = said_of(log), taken_by(program)
    rows = [] if said is None else rows_of(said)
    linked = [] if taken is None else [row("taken of the C library", taken)]
    with open(PAGE, encoding="utf-8") as file:
        page = file.read()
    if write:
        if said is None:
            sys.exit("the program is kept in this log: take that of a run which proved it")
        with open(PAGE, "w", encoding="utf-8") as file:
            file.write(BLOCK.sub(lambda _: "".join(rows + linked), page, count=1))
        return 0
    block = BLOCK.search(page)[0]
    if said is None:
        print(
            "the program is kept: what the build said of it was compared in the run that proved it"
        )
    elif rows[-1] not in block:
        print("this kit has another logic than the page: what its build says is not compared")
        rows = []
    other = [it for it in rows + linked if it not in block]
    for it in other:
        print(f"docs/internals/trusted.md does not say: {it}", end="")
    print(f"{len(rows) + len(linked) - len(other)} passed, {len(other)} failed")
    return 1 if other else 0


if __name__ == "__main__":
    sys.exit(main(sys.argv[1:]))
