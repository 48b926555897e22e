#!/usr/bin/env python3
"""Times elements of a large array beside those of a small one, and records beside lines.

    python3 bench/elements.py [PROGRAM [REQUESTS]]      Default of PROGRAM: crates/oaut/out/oaut

First, elements of an array of 65,536 I4 are put and read in turn, and then those of an array of 16.
An element costs its own cell, so the large array takes at most 2 times as long as the small one.
Then one session over records and over lines of digits: requests a second of each.
"""
import os
import subprocess
import sys
import tempfile
import time
import uuid

ROOT = os.path.dirname(os.path.dirname(os.path.abspath(__file__)))
sys.path.insert(0, ROOT)
from tests.support import wire
from command_line import words

PROGRAM, REQUESTS = words(__doc__, requests=200_000)
# the DISPID of SAFEARRAY(long) in examples/arrays.idl, and of its long
LONGS, COUNT = 5, 16
CLASS = uuid.UUID("11223344-5566-7788-99AA-BBCCDDEEFF03")
ask = wire.oaut


def elements(cells):
    """Creates an object with an array of so many cells, and puts and reads elements all over it in
    turn."""
    yield ask.ask_create(CLASS)
    yield ask.ask_invoke(
        1, LONGS, ask.PROPERTYPUT, [ask.NEW_VALUE], [wire.array(wire.I4, [(cells, 0)], [0] * cells)]
    )
    for turn in range(REQUESTS // 2):
        place = ask.indices_field([turn * 40_503 % cells])
        yield ask.ask_call(ask.PUTELEM, 1, LONGS, 0, [], []) + place + ask.variant_field(
            wire.scalar(wire.I4, turn)
        )
        yield ask.ask_call(ask.GETELEM, 1, LONGS, 0, [], []) + place


def longs():
    """Creates an object, and puts and gets its long in turn."""
    yield ask.ask_create(CLASS)
    for turn in range(REQUESTS // 2):
        yield ask.ask_invoke(
            1, COUNT, ask.PROPERTYPUT, [ask.NEW_VALUE], [wire.scalar(wire.I4, turn)]
        )
        yield ask.ask_invoke(1, COUNT, ask.PROPERTYGET, [], [])


def least(requests, framing):
    """Returns the least seconds of five runs of a session, whose replies must all be S_OK."""
    form = ask.FRAMINGS[framing]
    with tempfile.TemporaryDirectory() as room:
        with open(f"{room}/in", "wb") as file:
            file.write(
                form.pack([tag.to_bytes(4, "little") + body for tag, body in enumerate(requests)])
            )
        taken = []
        for _ in range(5):
            with open(f"{room}/in", "rb") as given, open(f"{room}/out", "wb") as out:
                started = time.perf_counter()
                status = subprocess.run(
                    [PROGRAM, "play", f"{ROOT}/examples/arrays.idl", *form.words],
                    stdin=given,
                    stdout=out,
                ).returncode
                taken.append(time.perf_counter() - started)
            if status:
                sys.exit(f"status {status}")
        answered = 0
        with open(f"{room}/out", "rb") as out:
            while (body := form.read(out)) is not None:
                if ask.read_reply(body).code:
                    sys.exit(f"request {answered} was refused")
                answered += 1
        if answered <= REQUESTS // 2 * 2:
            sys.exit(f"{answered} replies")
        return min(taken)


seconds = {cells: least(elements(cells), "raw") for cells in (16, 65_536)}
for cells, taken in seconds.items():
    print(
        f"{REQUESTS} elements put and read, of {cells:,} cells: {taken:.3f} s, "
        f"{taken / REQUESTS * 1e6:.2f} us each"
    )
for framing in ("raw", "lines"):
    taken = least(longs(), framing)
    print(
        f"{REQUESTS} puts and gets of a long, {framing}: {taken:.3f} s, {REQUESTS / taken:,.0f} a "
        "second"
    )
if seconds[65_536] > 2 * seconds[16]:
    sys.exit("an element of 65,536 cells takes more than 2 times as long as one of 16")
