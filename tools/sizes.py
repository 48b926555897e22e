#!/usr/bin/env python3
"""Prints how large the crates are, for the table of docs/benchmarks.md: functions as the prover
counts them, lines of src/, specs/ and proofs/.

    python3 tools/sizes.py LOG       LOG is what rt ci printed, from nothing

A function is what was proved: of a file with a derive, its methods too. A line is a line of a file,
whatever is on it. The time to check a crate is not in the log, and stays as the table has it.
"""
import os
import re
import sys

ROOT = os.path.dirname(os.path.dirname(os.path.abspath(__file__)))
PAGE = f"{ROOT}/docs/benchmarks.md"


def lines_of(folder, ending):
    """How many lines the files of a folder have."""
    count = 0
    for path, _, names in os.walk(folder):
        for name in names:
            if name.endswith(ending):
                with open(os.path.join(path, name), "rb") as file:
                    count += file.read().count(b"\n")
    return count


def functions_of(log):
    """How many functions were proved of each crate: the line before 'rt: CRATE proved' says so."""
    counts, last = {}, None
    with open(log, encoding="utf-8") as file:
        for line in file:
            found = re.match(r"logic=proved functions=(\d+)", line)
            last = int(found[1]) if found else last
            crate = re.match(r"rt: (\w+) proved$", line)
            if crate and last is not None:
                counts.setdefault(crate[1], last)
                last = None
    return counts


def minutes_so_far():
    """The last column of the table as it is."""
    with open(PAGE, encoding="utf-8") as file:
        rows = (line.split("|") for line in file if line.startswith("| oa"))
        return {row[1].strip(): row[-2].strip() for row in rows if len(row) == 6}


def main():
    if len(sys.argv) != 2:
        sys.exit(__doc__)
    counts, minutes = functions_of(sys.argv[1]), minutes_so_far()
    with open(os.path.join(ROOT, "crates.txt"), encoding="utf-8") as file:
        crates = re.findall(r"^(\w+)[^:#\n]*:", file.read(), re.MULTILINE)
    for crate in crates:
        folder = os.path.join(ROOT, "crates", crate)
        sizes = (
            lines_of(os.path.join(folder, "src"), ".rt"),
            lines_of(os.path.join(folder, "specs"), ".antt"),
            lines_of(os.path.join(folder, "proofs"), ".antt"),
        )
        cells = [
            crate,
            str(counts.get(crate, "")),
            "/".join(f"{size:,}" for size in sizes),
            minutes.get(crate, ""),
        ]
        print("| " + " | ".join(cells) + " |")


if __name__ == "__main__":
    main()
