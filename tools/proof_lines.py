#!/usr/bin/env python3
"""Lines of proofs have at most 160 columns.

    python3 tools/proof_lines.py --check [FILE ..]    lists longer lines
    python3 tools/proof_lines.py --write [FILE ..]    breaks them, where the parts of a term meet

Without files: all .antt files of the crates' proofs. `rattle fmt` gives the new lines their
indentation, and writes a list that is broken with an item a line. A file is written only if it has
the tokens that it had, but for the separators at the ends of such lists. No break is made inside a
text that an edit of crates/*/must-fail or crates/*/wrong-bodies replaces.
"""
import argparse
import concurrent.futures
import glob
import json
import os
import re
import subprocess
import sys
import tempfile

ROOT = os.path.dirname(os.path.dirname(os.path.abspath(__file__)))
WIDTH = 160
# a line that is begun has at least so many columns, if it can
LEAST = 40
# breaks of a line before it is given up
ROUNDS = 40
JOINS = ("∙", "→", "×")
OPERATORS = ("≡", "++", "∷", "+", "-", "*", "≤", "<", "||", "&&", "==", "↦", "▹", "⊎", "/", "%")
CLOSERS = {"(": ")", "[": "]", "{": "}"}


def proofs():
    return sorted(glob.glob(f"{ROOT}/crates/*/proofs/**/*.antt", recursive=True))


def long_lines(text):
    """The places of the lines that are too long, from 0."""
    return [at for at, line in enumerate(text.split("\n")) if len(line) > WIDTH]


def cited(path):
    """The texts of a file that edits replace."""
    crate = re.match(rf"{re.escape(ROOT)}/crates/[^/]+", path)
    if not crate:
        return []
    name, texts = os.path.relpath(path, crate[0]), []
    for edit in glob.glob(f"{crate[0]}/must-fail/*.edit") + glob.glob(
        f"{crate[0]}/wrong-bodies/*.edit"
    ):
        with open(edit, encoding="utf-8") as file:
            lines = file.read().split("\n")
        if f"file: {name}" in lines:
            texts += [it[len("old: ") :] for it in lines if it.startswith("old: ")]
    return texts


def opened_before(line):
    """For each place of a line, the brackets that are open before it; a brace counts as `r` in a
    record, and as `{` does a text."""
    stack, stacks = [], []
    for at, sign in enumerate(line):
        stacks.append(tuple(stack))
        if sign == '"':
            if stack[-1:] == ["{text"]:
                stack.pop()
            else:
                stack.append("{text")
        elif stack[-1:] == ["{text"]:
            continue
        elif sign in CLOSERS:
            stack.append("r" if sign == "{" and re.search(r"\brecord\s*$", line[:at]) else sign)
        elif sign in ")]}" and stack:
            stack.pop()
    return stacks


def cost(line, at, stack):
    """Returns the cost of a break in place of the space there, or None if there is to be none. One
    in an implicit argument costs much."""
    before, after = line[:at].split()[-1] if line[:at].split() else "", line[at + 1 :].split(" ")[0]
    if not before or not after or "{text" in stack:
        return None
    # (no break between a binder's names, or of `let` and `in` from what they begin with)
    head = line[:at]
    binder = max(head.rfind("λ "), head.rfind("∀ "))
    if (
        binder >= 0
        and not re.search(r"\.(\s|$)", head[binder:])
        or head.endswith(" λ")
        or before == "λ"
    ):
        return None
    if (
        before in ("let", "record", "elim", "use", "pub", *OPERATORS[:-1])
        or before in JOINS
        or after in ("in", "=", "where", ":", "[")
    ):
        return None
    if (
        before == ":"
        or before == "="
        and after == "record"
        or re.search(r"\(\w[\w' ]*$", head)
        and re.match(r"[\w' ]*: ", line[at + 1 :])
    ):
        return None
    if before == "in" or before == "=" and stack[-1:] != ("r",) or after in JOINS:
        kind = 0
    elif before[-1] in ",;" or after == "|":
        kind = 3
    elif after[0] == "(":
        kind = 4
    elif before[-1] == "." or after in OPERATORS or before == "↦":
        kind = 5
    else:
        kind = 8
    short = len(head.strip())
    return (
        12 * len(stack)
        + 40 * stack.count("{")
        + kind
        + 0.08 * (WIDTH - at)
        + (20 if short < LEAST and kind else 0)
    )


def broken(line, texts):
    """A line that is too long, with one break more; None if there is no place for one."""
    bare = line.lstrip()
    indent = line[: len(line) - len(bare)]
    if bare.startswith("--"):
        at = line.rfind(" ", len(indent) + 3, WIDTH)
        return None if at < 0 else f"{line[:at]}\n{indent}-- {line[at + 1 :]}"
    if bare.startswith(("use ", "pub use ")):
        return divided(line)
    spans = [(line.find(it), line.find(it) + len(it)) for it in texts if it in line]
    comment = re.search(r"\s--\s", line)
    stacks, costs = opened_before(line), {}
    for at in range(len(indent) + 1, min(WIDTH + 1, comment.start() if comment else len(line))):
        if line[at] == " " and not any(first < at < end for first, end in spans):
            it = cost(line, at, stacks[at])
            if it is not None:
                costs[at] = it
    if not costs:
        return None
    at = min(costs, key=costs.get)
    return f"{line[:at].rstrip()}\n{indent}    {line[at + 1 :].lstrip()}"


def divided(line):
    """A `use` line as two of the same module."""
    head, opened, names = line.partition(".{")
    at = names.rfind(", ", 0, WIDTH - len(head) - 3)
    return None if not opened or at < 0 else f"{head}.{{{names[:at]}}}\n{head}.{{{names[at + 2 :]}"


def formatted(text):
    """As `rattle fmt` has it."""
    with tempfile.TemporaryDirectory(prefix="proof_lines") as folder:
        path = f"{folder}/it.antt"
        with open(path, "w", encoding="utf-8") as file:
            file.write(text)
        done = subprocess.run(["rattle", "fmt", "--write", path], capture_output=True, text=True)
        if done.returncode:
            raise ValueError(done.stdout + done.stderr)
        with open(path, encoding="utf-8") as file:
            return file.read()


def tokens(text):
    """The tokens of a text, without the separators that a broken list has at its ends; lines that
    use one module count as one."""
    with tempfile.TemporaryDirectory(prefix="proof_lines") as folder:
        path = f"{folder}/it.antt"
        with open(path, "w", encoding="utf-8") as file:
            file.write(text)
        done = subprocess.run(["rattle", "fmt", "--tokens", path], capture_output=True, text=True)
    if done.returncode:
        raise ValueError(done.stdout + done.stderr)
    found = [json.loads(line.split(" ", 4)[4]) for line in done.stdout.splitlines()[1:]]
    kept = []
    for at, it in enumerate(found):
        following = found[at + 1] if at + 1 < len(found) else ""
        if it in (",", ";") and following in (")", "]", "}") or it == "|" and kept[-1:] == ["["]:
            continue
        kept.append(it)
    return re.sub(
        r"\n(use\n[^\n]+\n\.\n\{)((?:\n[^\n}]+)*)\n\}(?=\n)", one_use, "\n" + "\n".join(kept) + "\n"
    )


def one_use(line):
    return "\n" + "\n".join(
        f"{line[1]} {name}" for name in line[2].split("\n") if name not in ("", ",")
    )


def wrapped(path):
    """The text of a file with its lines broken, and the lines that could not be."""
    with open(path, encoding="utf-8") as file:
        first = text = file.read()
    texts, given_up = cited(path), set()
    for _ in range(ROUNDS):
        lines = text.split("\n")
        places = [at for at in long_lines(text) if lines[at].strip() not in given_up]
        if not places:
            break
        for at in places:
            new = broken(lines[at], texts)
            if new is None:
                given_up.add(lines[at].strip())
            else:
                lines[at] = new
        text = formatted("\n".join(lines))
    if text != first and (tokens(text) != tokens(first) or formatted(text) != text):
        raise ValueError("other tokens, or another layout")
    if any(text.count(it) != first.count(it) for it in texts):
        raise ValueError("a text that an edit replaces")
    return text


def main():
    parser = argparse.ArgumentParser(
        description=__doc__, formatter_class=argparse.RawDescriptionHelpFormatter
    )
    parser.add_argument("--check", action="store_true", help="list the lines that are too long")
    parser.add_argument("--write", action="store_true", help="break them")
    parser.add_argument("files", nargs="*", metavar="FILE")
    given = parser.parse_args()
    if given.check == given.write:
        parser.error("--check or --write")
    status = 0
    files = [os.path.abspath(it) for it in given.files] or proofs()
    with concurrent.futures.ThreadPoolExecutor(os.cpu_count()) as pool:
        for path, lines in zip(files, pool.map(one_written if given.write else one_checked, files)):
            for it in lines:
                print(f"{os.path.relpath(path, ROOT)}:{it}")
                status = 1
    return status


def one_checked(path):
    with open(path, encoding="utf-8") as file:
        text = file.read()
    return [f"{at + 1}: {len(text.split(chr(10))[at])} columns" for at in long_lines(text)]


def one_written(path):
    """Breaks the lines of a file. Returns what is left."""
    if not one_checked(path):
        return []
    try:
        text = wrapped(path)
    except ValueError as error:
        return [f" not written: {error}"]
    with open(path, "w", encoding="utf-8") as file:
        file.write(text)
    return one_checked(path)


if __name__ == "__main__":
    sys.exit(main())
