#!/usr/bin/env python3
"""Wraps the prose of docs/ and of the pages at the top at 100 columns. Code, tables, pictures and
headings stay as they are.

    python3 tools/wrap.py [PAGE ..]           wraps all pages, or some
    python3 tools/wrap.py --check [PAGE ..]   names those that are not wrapped, and ends with status
        1
"""
import argparse
import glob
import os
import re
import sys
import textwrap

ROOT = os.path.dirname(os.path.dirname(os.path.abspath(__file__)))
COLUMNS = 100
ITEM = re.compile(r"( *)([-*]|\d+\.) +")


def wrapped(text, first="", rest=""):
    """A paragraph in lines. (A line may not begin with what would make it a list or a heading.)"""
    lines = textwrap.wrap(
        " ".join(text.split()),
        COLUMNS,
        initial_indent=first,
        subsequent_indent=rest,
        break_long_words=False,
        break_on_hyphens=False,
    )
    for at in range(1, len(lines)):
        if re.match(r" *([-+*#>|]|\d+[.)])( |$)", lines[at]):
            word, lines[at] = (
                lines[at].split(None, 1) if " " in lines[at].strip() else (lines[at].strip(), "")
            )
            lines[at - 1], lines[at] = f"{lines[at - 1]} {word}", rest + lines[at]
    return [line for line in lines if line.strip()]


def page(text):
    """The page, wrapped."""
    told, lines, at = [], text.split("\n"), 0
    while at < len(lines):
        line = lines[at]
        if line.startswith("```"):
            end = next(it for it in range(at + 1, len(lines)) if lines[it].startswith("```"))
            told += lines[at : end + 1]
            at = end + 1
            continue
        if (
            not line
            or line.startswith(("    ", "\t", "#", "|", "!", "<!--", "["))
            and not line.startswith("[")
            or line.startswith("|")
        ):
            told.append(line)
            at += 1
            continue
        item = ITEM.match(line)
        rest = " " * len(item[0]) if item else ""
        end = at + 1
        while (
            end < len(lines)
            and lines[end]
            and not ITEM.match(lines[end])
            and not lines[end].startswith(("```", "#", "|", "<!--"))
        ):
            if lines[end].startswith("    ") and not item:
                break
            end += 1
        told += wrapped(
            " ".join(lines[at:end])[len(item[0]) if item else 0 :], item[0] if item else "", rest
        )
        at = end
    return "\n".join(told)


def main():
    parser = argparse.ArgumentParser(
        description=__doc__, formatter_class=argparse.RawDescriptionHelpFormatter
    )
    parser.add_argument("--check", action="store_true", help="compare, and write nothing")
    parser.add_argument("pages", metavar="PAGE", nargs="*")
    given = parser.parse_args()
    well = True
    for path in given.pages or sorted(
        glob.glob(f"{ROOT}/docs/**/*.md", recursive=True) + glob.glob(f"{ROOT}/*.md")
    ):
        with open(path, encoding="utf-8") as file:
            text = file.read()
        long = [line for line in text.split("\n") if len(line) > COLUMNS]
        if not long:
            continue
        new = page(text)
        if given.check:
            if new != text:
                print(f"{os.path.relpath(path, ROOT)}: not wrapped; python3 tools/wrap.py")
                well = False
        else:
            with open(path, "w", encoding="utf-8") as file:
                file.write(new)
    return 0 if well else 1


if __name__ == "__main__":
    sys.exit(main())
