#!/usr/bin/env python3
"""Times the open of a store with many groups, and of one with half as many.

    python3 bench/opening.py [PROGRAM [GROUPS]]      Defaults: PROGRAM crates/oaut/out/oaut, GROUPS
        424,000

Groups are of three kinds: GROUPS puts of a long, of 38 bytes each; 65,536 new objects, of 26 bytes
each; and 37 puts of an array of half a megabyte. `oaut dump` opens the store, and its output is
checked for the first kind. Each time is the least of five, less that of a store without groups. The
memory is the peak of a server after it opened the store.
"""
import os
import struct
import subprocess
import sys
import tempfile
import time

ROOT = os.path.dirname(os.path.dirname(os.path.abspath(__file__)))
sys.path.insert(0, ROOT)
from command_line import words

PROGRAM, GROUPS = words(__doc__, groups=424_000)
os.environ["OAUT_PROGRAM"] = PROGRAM
from tests.support import full, store
from tests.support.running import FULL, FULL_TEXT
from tests.support.stores import CLASS, FACE, put_of, table

CREATE = b"\1" + struct.pack("<I", 1) + CLASS
CELLS = 65_536
ARRAY = (
    b"\3"
    + struct.pack("<I", 1)
    + FACE
    + struct.pack("<iHHHIi", 7, 0, store.ARRAY + store.I8, 1, CELLS, 0)
    + bytes(8 * CELLS)
)


def opened(room, groups, wanted=None):
    """The least time, and the memory, of a store of some groups."""
    with open(f"{room}/it.store", "wb") as file:
        file.write(store.add(store.formatted(FULL_TEXT), *groups))
    times = []
    for _ in range(5):
        started = time.perf_counter()
        said = subprocess.run(
            [PROGRAM, "dump", f"{room}/it.store"], check=True, stdout=subprocess.PIPE
        ).stdout
        times.append(time.perf_counter() - started)
        assert wanted is None or said.decode() == wanted, said[:200]
    return min(times), full.opening(room)[0]


with tempfile.TemporaryDirectory(dir=".") as room:
    with open(f"{room}/lib.idl", "wb") as file:
        file.write(FULL)
    empty, peak = opened(room, [CREATE], table())
    print(f"one group: {empty:.3f} s; {peak / 1024:.1f} MiB at most")
    for what, count, groups in (
        ("puts of a long", GROUPS, lambda count: [CREATE, *(put_of(it) for it in range(count))]),
        (
            "objects",
            CELLS,
            lambda count: [b"\1" + struct.pack("<I", it) + CLASS for it in range(1, count + 1)],
        ),
        ("arrays of half a megabyte", 37, lambda count: [CREATE, *[ARRAY] * count]),
    ):
        for some in (count // 2, count):
            made = groups(some)
            seconds, peak = opened(
                room, made, table(some - 1) if what == "puts of a long" else None
            )
            size = sum(5 + len(it) for it in made)
            print(
                f"{some:,} {what}, {size / 1e6:.1f} MB: {seconds - empty:.3f} s more, "
                f"{(seconds - empty) / some * 1e9:,.0f} ns a group; {peak / 1024:.1f} MiB at most",
                flush=True,
            )
