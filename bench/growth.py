#!/usr/bin/env python3
"""How the cost of a put, an opening and a checkpoint, and memory, grow with the number of cells.

    python3 bench/growth.py [--program PATH] [--most N] [SHAPE ..]      a line of JSON for each
        table
    python3 bench/growth.py --draw FILE                                 docs/internals/growth.svg,
        of such lines

Tables of 1,000 to N longs (1,000,000), each with a key, in one object and in as many as there are
cells, at most 65,536. They are under one property, and under 255, whose gets and puts are 511
members with a text. Prints for each shape the instructions of the whole program, by valgrind, up to
1,000,000 cells, and the CPU seconds without it, over files that have no device. They are those of
512 puts all over the table, of existing cells and of new ones between others, of an opening, and of
REPLACE LIBRARY, which is a checkpoint with another text. These two, and what is resident once the
store is open and at most until then, are less what it is without cells. Then the longest of many
groups of 1,024 new cells, of three runs the least, beside those around it.
"""
import argparse
import json
import math
import os
import pathlib
import statistics
import struct
import subprocess
import sys
import tempfile

ROOT = os.path.dirname(os.path.dirname(os.path.abspath(__file__)))
sys.path.insert(0, ROOT)
# of each shape the objects, the properties and a colour
SHAPES = {
    "one object, one property": (1, 1, "#1f5fa8"),
    "one object, 511 members": (1, 255, "#c2571a"),
    "many objects, one property": (65_536, 1, "#3a8a3a"),
    "many objects, 511 members": (65_536, 255, "#8a3a8a"),
}
parser = argparse.ArgumentParser(
    description=__doc__, formatter_class=argparse.RawDescriptionHelpFormatter
)
parser.add_argument("--program", default=f"{ROOT}/crates/oaut/out/oaut")
parser.add_argument("--most", type=int, default=1_000_000)
parser.add_argument("--draw", metavar="FILE")
parser.add_argument("shapes", nargs="*", metavar="SHAPE", default=[*SHAPES])
given = parser.parse_args()
os.environ["OAUT_PROGRAM"] = os.path.abspath(given.program)
from tools import draw
from tests.support import full, instructions, store, wire, worked
from tests.support.memory import peak_of, resident_of
from oaut import Raw
from tests.support.preloaded import fast_folder
from tests.support.running import PROGRAM
from tests.support.stores import CLASS, FACE

TIMES, GROUP, COUNTED, CELL = 512, 1_024, 1_000_000, struct.Struct("<16siHHiHi")
# of a processor, that a process has had
seconds = (
    lambda child: int(pathlib.Path(f"/proc/{child.pid}/schedstat").read_text().split()[0]) / 1e9
)
# of a bank, beside the table's image: a library, and puts without a checkpoint
SPARE = 5_242_880 + 262_144 + 131_072
# the numbers that are reported less those without cells
LESS = ("opening", "checkpoint", "opening s", "checkpoint s", "resident", "peak")
# the panels: a title, the field, and whether it is divided by the cells
PANELS = [
    ("put an existing cell: instructions", "put", False),
    ("put a new cell: instructions", "new", False),
    ("open, per cell: instructions", "opening", True),
    ("checkpoint, per cell: instructions", "checkpoint", True),
    ("resident memory, per cell: bytes", "resident", True),
    ("peak while opening, per cell: bytes", "peak", True),
]


def library(properties):
    keyed = (
        "[propget, id({0})] long P{0}(long Key); [propput, id({0})] void P{0}(long Key, long "
        "value);"
    )
    members = "".join(keyed.format(it) for it in range(1, properties + 1))
    return full.library(0, "long").replace(b"methods:", b"methods: " + members.encode())


class Table:
    """A store of so many cells in a folder. Each object has as many as the others, or one more;
    their keys are even, so that there is room between."""

    def __init__(self, room, cells, objects, properties, spare=SPARE):
        self.room, self.properties, self.objects = room, properties, min(objects, max(cells, 1))
        each, more = divmod(cells, self.objects)
        self.own = lambda number: each + (number <= more)  # how many cells an object has
        kept = subprocess.run(
            [PROGRAM, "check", "lib.idl"], cwd=room, check=True, stdout=subprocess.PIPE
        ).stdout
        parts = [struct.pack("<II", self.objects + 1, self.objects)]
        for number in range(1, self.objects + 1):
            own = self.own(number)
            parts.append(struct.pack("<I", number) + CLASS + struct.pack("<I", own))
            for at in range(min(properties, own)):
                parts += [
                    CELL.pack(FACE, at + 1, 1, wire.I4, 2 * key, wire.I4, key)
                    for key in range((own - at - 1) // properties + 1)
                ]
        image = b"".join(parts)
        self.size, bank = len(image), max(store.BANK, len(image) + len(kept) + spare)
        self.gate = store.LEAST + len(kept) + len(image)
        with open(f"{room}/it.store", "wb") as file:
            file.truncate(store.length_of(bank))
            for at, data in (
                (0, b"\1"),
                (store.HEADS[0], store.head_of(2, kept, image, bank)),
                (store.LEAST, kept + image),
            ):
                file.seek(at)
                file.write(data)

    def put(self, at, new):
        """One of the puts that are spread over the table, of an existing cell or of a new one after
        it."""
        number = at * self.objects // TIMES + 1
        place = int(at * 0.618034 % 1 * self.own(number))
        return worked.put(
            place % self.properties + 1,
            worked.i4(at),
            number,
            more=(worked.i4(2 * (place // self.properties) + new),),
        )

    def counted(self, requests):
        """The instructions of the program over the store, from its start to its end. It begins
        anew: nothing counts after its gate, nor in bank 1."""
        with open(f"{self.room}/it.store", "r+b") as file:
            for at in (store.SELECTOR, self.gate):
                file.seek(at)
                file.write(b"\0")
        return instructions.of_program(
            [PROGRAM, "serve", "it.store", "lib.idl"],
            Raw.pack(instructions.tagged(requests)),
            self.room,
        )


def measured(room, name, cells):
    table = Table(room, cells, *SHAPES[name][:2])
    requests = {
        it: [table.put(at, it == "new") for at in range(TIMES)] for it in ("put", "new") if cells
    }
    requests["checkpoint"] = [worked.replace(full.wider(library(table.properties)))]
    found = {"shape": name, "cells": cells, "image": table.size}
    with full.Serving(room) as session:
        session.ask(wire.line(1, worked.ask_ids(1, ["Last"]) if cells else worked.ask_list()))
        found["opening s"] = seconds(session.child)
        found["resident"], found["peak"] = (
            1_024 * it(session.child.pid) for it in (resident_of, peak_of)
        )
        for it, some in requests.items():
            times = []
            for request in some:
                begun = seconds(session.child)
                session.ask(wire.line(1, request))
                times.append(seconds(session.child) - begun)
            found[f"{it} s"] = statistics.median(times)
    if cells <= COUNTED:
        found["opening"] = table.counted([])
        found.update(
            {
                it: (table.counted(some) - found["opening"]) // len(some)
                for it, some in requests.items()
            }
        )
    return found


def grown(room, name, groups):
    """The seconds of each group of new cells, in an order without one: of three runs the least."""
    objects, properties, _ = SHAPES[name]
    keys, best = [at * 2_654_435_761 % (1 << 31) for at in range(groups * GROUP)], [
        math.inf
    ] * groups
    bodies = [
        worked.put(at % properties + 1, worked.i4(at), key % objects + 1, more=(worked.i4(key),))
        for at, key in enumerate(keys)
    ]
    asked = [
        Raw.pack(instructions.tagged(bodies[at : at + GROUP]))
        for at in range(0, len(bodies), GROUP)
    ]
    words = [PROGRAM, "serve", "--group", f"{GROUP}", "it.store", "lib.idl"]
    for _ in range(3):
        Table(room, objects, objects, properties, SPARE + 64 * len(bodies))
        with subprocess.Popen(
            words, cwd=room, stdin=subprocess.PIPE, stdout=subprocess.PIPE
        ) as child:
            for at, it in enumerate(asked):
                begun = seconds(child)
                child.stdin.write(it)
                child.stdin.flush()
                assert all(Raw.read(child.stdout)[4:8] == bytes(4) for _ in range(GROUP))
                best[at] = min(best[at], seconds(child) - begun)
            child.stdin.close()
    around = {
        at: best[at] / statistics.median(best[at - 4 : at + 5]) for at in range(4, groups - 4)
    }
    at = max(around, key=around.get)
    return {
        "shape": name,
        "groups": groups,
        "first s": statistics.median(best[:9]),
        "last s": statistics.median(best[-9:]),
        "at": at,
        "times": around[at],
    }


def measure():
    for name in given.shapes:
        with tempfile.TemporaryDirectory(dir=fast_folder()) as room:
            with open(f"{room}/lib.idl", "wb") as file:
                file.write(library(SHAPES[name][1]))
            nothing = measured(room, name, 0)
            for cells in (
                it * 10**power
                for power in range(3, 8)
                for it in (1, 3)
                if it * 10**power <= given.most
            ):
                found = measured(room, name, cells)
                print(
                    json.dumps(
                        {
                            it: number - nothing[it] if it in LESS else number
                            for it, number in found.items()
                        }
                    ),
                    flush=True,
                )
            print(json.dumps(grown(room, name, given.most // GROUP)), flush=True)


def panel(title, field, is_each, rows, left, top):
    """A picture of one cost by the number of cells, which grows to the right by its logarithm."""
    wide, high, left = 260, 130, left + 52
    lines = {
        name: [
            (it["cells"], it[field] / (it["cells"] if is_each else 1))
            for it in rows
            if it["shape"] == name and field in it
        ]
        for name in SHAPES
    }
    most = max(cost for line in lines.values() for _, cost in line)
    step = 10 ** math.floor(math.log10(most))
    ceiling = next(step * it for it in (1, 1.5, 2, 3, 4, 5, 7.5, 10) if step * it >= most)
    across, up = lambda cells: left + (
        math.log10(cells) - 3
    ) / 4 * wide, lambda cost: top + 22 + high * (1 - cost / ceiling)
    parts = [f'<text x="{left}" y="{top + 12}">{title}</text>']
    for it in (0, ceiling / 2, ceiling):
        parts.append(
            f'<path d="M{left} {up(it):.1f} h{wide}"/><text class="note" x="{left - 5}" '
            f'y="{up(it) + 4:.1f}" text-anchor="end">{it:,.0f}</text>'
        )
    for it in range(3, 8):
        parts.append(
            f'<text class="note" x="{across(10**it):.1f}" y="{top + high + 37}" '
            f'text-anchor="middle">{10**it:,}</text>'
        )
    for name, line in lines.items():
        points = " L".join(f"{across(cells):.1f} {up(cost):.1f}" for cells, cost in line)
        parts += [
            f'<path d="M{points}" style="stroke:{SHAPES[name][2]};stroke-width:1.5"/>'
        ] * bool(line)
    return parts


def picture(rows):
    parts = [
        it
        for at, one in enumerate(PANELS)
        for it in panel(*one, rows, 10 + at % 2 * 345, 10 + at // 2 * 190)
    ]
    for at, name in enumerate(SHAPES):
        left, top = 62 + at % 2 * 345, 592 + at // 2 * 20
        parts.append(
            f'<path d="M{left} {top} h18" style="stroke:{SHAPES[name][2]}"/><text class="note" '
            f'x="{left + 23}" y="{top + 4}">{name}</text>'
        )
    return draw.page(630, 740, parts)


if __name__ == "__main__":
    if given.draw:
        with open(given.draw) as lines, open(f"{ROOT}/docs/internals/growth.svg", "w") as out:
            out.write(picture([it for it in map(json.loads, lines) if "cells" in it]))
    else:
        measure()
