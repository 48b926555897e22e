#!/usr/bin/env python3
"""Draws docs/internals/map.svg, the crates and what they use, and docs/internals/put.svg, the way
of a put, from crates.txt.

    python3 tools/draw.py            writes both
    python3 tools/draw.py --check    ends with status 1 if one differs from that
"""
import argparse
import os
import sys

ROOT = os.path.dirname(os.path.dirname(os.path.abspath(__file__)))
DOCS = f"{ROOT}/docs/internals"
WIDTH, BOX, HIGH, ROW = 980, 118, 26, 62
STYLE = """<style>
text { font: 12px sans-serif; fill: #222 } .box { fill: #eef3fa; stroke: #5b7aa5 } .disk { fill: \
#fdf3e3; stroke: #b58a3c }
.program { fill: #e6f4e6; stroke: #4d8a4d } .tests { fill: #f2f2f2; stroke: #999 } .note { \
font-size: 11px; fill: #555 }
path { fill: none; stroke: #8899aa; stroke-width: 1 } .way { stroke: #444; stroke-width: 1.5 }
</style>"""
STORAGE = {"oa_disk", "oa_journal", "oa_store", "oa_group_commit"}
# the way of a put: what happens, and in which crate
PUT = [
    ("oaut", "standard input: a line or a record"),
    ("oa_stream", "a buffer of bytes that were read ahead"),
    ("oa_frame", "the body of the line or record"),
    ("oa_record", "the request that the body encodes, or a refusal"),
    ("oa_wire_variant", "the values in the request's fields"),
    ("oa_typelib", "coclass, interface and member"),
    ("oa_bind", "the cell that the arguments select"),
    ("oa_coerce", "the new value, converted to the declared type"),
    ("oa_decision", "the change, if it is within the limits"),
    ("oa_image", "the bytes of its log record, kept until the commit"),
    ("oa_table", "the cell in memory gets the new value"),
    ("oa_group_commit", "the group is complete: commit"),
    ("oa_journal", "write length and log records after the commit flag; sync"),
    ("oa_disk", "set the commit flag; sync: the change survives a crash"),
    ("oa_server", "the replies of the group are written"),
    ("oaut", "standard output, before the program waits for input"),
]


def crates():
    """Of each crate of crates.txt the crates of this workspace that it uses."""
    with open(f"{ROOT}/crates.txt") as file:
        lines = [line.split(":") for line in file if ":" in line and not line.startswith("#")]
    names = {name.split()[0] for name, _ in lines}
    return {name.split()[0]: [it for it in used.split() if it in names] for name, used in lines}


def reduced(uses):
    """Returns the uses without those that another use implies: those that no other used crate
    uses."""
    below = {}

    def all_below(name):
        if name not in below:
            below[name] = set(uses[name]).union(*(all_below(it) for it in uses[name]))
        return below[name]

    return {
        name: [it for it in used if not any(it in all_below(other) for other in used)]
        for name, used in uses.items()
    }


def rows(uses):
    """The crates by level, the lowest first, each row ordered by what is below it."""
    levels = {}

    def level(name):
        if name not in levels:
            levels[name] = 1 + max((level(it) for it in uses[name]), default=-1)
        return levels[name]

    found = [[] for _ in range(1 + max(map(level, uses)))]
    for name in uses:
        found[levels[name]].append(name)
    place = {}
    for row in found:
        weight = {
            name: sum(place[it] for it in uses[name]) / len(uses[name]) if uses[name] else 0.5
            for name in row
        }
        row.sort(key=lambda name: (weight[name], name))
        place.update((name, (at + 0.5) / len(row)) for at, name in enumerate(row))
    return found


def kind(name):
    if name.endswith("_tests"):
        return "tests"
    return "program" if name == "oaut" else "disk" if name in STORAGE else "box"


def box(name, x, y):
    return (
        f'<rect class="{kind(name)}" x="{x}" y="{y}" width="{BOX}" height="{HIGH}" rx="4"/><text '
        f'x="{x + BOX / 2:.0f}" y="{y + 17}" text-anchor="middle">{name}</text>'
    )


def page(height, width, parts):
    head = (
        f'<svg xmlns="http://www.w3.org/2000/svg" viewBox="0 0 {width} {height}" width="{width}" '
        f'height="{height}">'
    )
    return "\n".join([head, STYLE, *parts, "</svg>"]) + "\n"


def map_of(uses):
    """The picture of the crates: a line leads from a crate down to each that it uses."""
    uses = reduced(uses)
    levels = rows(uses)
    height = 20 + ROW * len(levels)
    where = {}
    for depth, row in enumerate(levels):
        for at, name in enumerate(row):
            where[name] = (
                round(WIDTH * (at + 0.5) / len(row) - BOX / 2),
                height - 10 - HIGH - ROW * depth,
            )
    lines = []
    for name, used in uses.items():
        x, y = where[name]
        for it in used:
            to, down = where[it]
            start, end = (x + BOX // 2, y + HIGH), (to + BOX // 2, down)
            half = (start[1] + end[1]) // 2
            lines.append(
                f'<path d="M{start[0]} {start[1]} C{start[0]} {half} {end[0]} {half} {end[0]} '
                f'{end[1]}"/>'
            )
    return page(height, WIDTH, [*lines, *(box(name, *where[name]) for name in uses)])


def put_of(uses):
    """The picture of a put's way."""
    parts = []
    for at, (name, what) in enumerate(PUT):
        if name not in uses:
            raise SystemExit(f"draw.py: crates.txt has no crate {name}")
        y = 10 + 38 * at
        parts.append(
            box(name, 10, y) + f'<text class="note" x="{BOX + 26}" y="{y + 17}">{what}</text>'
        )
        if at:
            parts.append(f'<path class="way" d="M{10 + BOX // 2} {y - 12} v8 m-3 -4 l3 5 l3 -5"/>')
    return page(20 + 38 * len(PUT), 470, parts)


def main():
    parser = argparse.ArgumentParser(
        description=__doc__, formatter_class=argparse.RawDescriptionHelpFormatter
    )
    parser.add_argument("--check", action="store_true", help="compare, and write nothing")
    check = parser.parse_args().check
    uses, well = crates(), True
    for name, text in (("map.svg", map_of(uses)), ("put.svg", put_of(uses))):
        path = f"{DOCS}/{name}"
        if check:
            with open(path) as file:
                if file.read() != text:
                    print(
                        f"docs/internals/{name} is not drawn from crates.txt as it is: python3 "
                        "tools/draw.py"
                    )
                    well = False
        else:
            with open(path, "w") as file:
                file.write(text)
    return 0 if well else 1


if __name__ == "__main__":
    sys.exit(main())
