#!/usr/bin/env python3
"""How many instructions requests take, as valgrind counts them.

    python3 bench/instructions.py [PROGRAM]      Default of PROGRAM: crates/oaut/out/oaut

First requests in tables of 10, 1,000 and 60,000 objects, and a put of a new cell among 300,000 of
an object. Then all instructions of the program for a put or a get of a long, over lines, as records
and as frames of 16 clients. Then those for a put in groups of 1,024 over a store, and for a request
of each kind as a record in memory. They have the form of tests/tables/instructions.txt, with which
the gate compares them. Last come the bytes of each kind, with its reply, and their cost in puts of
a long: by the byte, or by the request if it has fewer bytes.
"""
import os
import sys

from command_line import words

ROOT = os.path.dirname(os.path.dirname(os.path.abspath(__file__)))
sys.path.insert(0, ROOT)
(os.environ["OAUT_PROGRAM"],) = words(__doc__)
from tests.support import instructions, kinds

if instructions.VALGRIND is None:
    sys.exit("valgrind is not there")
print("objects " + " ".join(f"{name:>8}" for name in instructions.REQUESTS))
for objects in (10, 1_000, 60_000):
    found = instructions.of_requests(objects)
    print(f"{objects:7} " + " ".join(f"{it:8,}" for it in found.values()), flush=True)
print(f"put-among-60000-objects {found['put']}")
print(f"put-among-300000-cells {instructions.of_a_new_cell(300_000)}", flush=True)
for way in instructions.LONGS:
    print(f"{way} {instructions.of_longs(way)}", flush=True)
found, lengths = kinds.of_kinds(), kinds.bytes_of_kinds()
for name, number in found.items():
    print(f"{name} {number}")
for name, times in kinds.times_a_put(found, lengths).items():
    print(f"# {name}: {lengths[name]:,} bytes, {times:.2f} times a put")
