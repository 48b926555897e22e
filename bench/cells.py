#!/usr/bin/env python3
"""The resident memory of the program over tables of many small cells, as so many times the table's
image.

    python3 bench/cells.py [PROGRAM [FOLDER]]      Defaults: PROGRAM crates/oaut/out/oaut, FOLDER of
        the files the current one

Printed of each table: the MiB of its image, those that are resident of a server that has opened it,
and the peak until then. Then those that `dump` takes at most, and what is resident beyond a server
without objects, as so many times the image.
"""
import os
import sys
import tempfile

ROOT = os.path.dirname(os.path.dirname(os.path.abspath(__file__)))
sys.path.insert(0, ROOT)
if len(sys.argv) > 1:
    os.environ["OAUT_PROGRAM"] = os.path.abspath(sys.argv[1])
FOLDER = sys.argv[2] if len(sys.argv) > 2 else "."
from tests.support import full, wire
from tests.support.full import cells_by_key, keyed, objects_of, short, two_longs
from tests.support.memory import peak_of, resident_of

TABLES = (
    ("no objects", keyed("long", 0), {}),
    ("300,000 longs of three parameters", keyed("long", 3), cells_by_key(300_000, 3)),
    ("400,000 longs of one parameter", keyed("long", 1), cells_by_key(400_000, 1)),
    (
        "300,000 texts of 8 bytes, of one parameter",
        keyed("BSTR", 1),
        cells_by_key(300_000, 1, short),
    ),
    (
        "250,000 arrays of two longs, of one parameter",
        keyed("SAFEARRAY(long)", 1),
        cells_by_key(250_000, 1, two_longs),
    ),
    ("65,536 objects of three longs", keyed("long", 0), objects_of(65_536, 3)),
    ("65,536 objects of one long", keyed("long", 0), objects_of(65_536, 1)),
)

with tempfile.TemporaryDirectory(dir=FOLDER) as room:
    nothing = 0
    for what, text, objects in TABLES:
        size = full.laid_objects(room, text, objects) / 1024
        with full.Serving(room) as session:
            session.ask(wire.type_info(1, 0))
            now, most = resident_of(session.child.pid), peak_of(session.child.pid)
        dumped, _ = full.peak_of_run("dump", f"{room}/it.store")
        nothing = nothing or now
        print(
            f"{what}: image {size / 1024:.1f}, resident {now / 1024:.1f}, at most "
            f"{most / 1024:.1f}; dump at most {dumped / 1024:.1f}; {(now - nothing) / size:.1f} "
            "times the image",
            flush=True,
        )
