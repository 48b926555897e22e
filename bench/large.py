#!/usr/bin/env python3
"""Times records up to their limit of 4,194,304 bytes, through both framings, and measures the
memory of a session.

    python3 bench/large.py [PROGRAM [MEGABYTES]]      Defaults: PROGRAM crates/oaut/out/oaut,
        MEGABYTES 256

First the peak resident memory of a session of short lines and of one of short records, in memory
and over a store. It is at most 5,120 KiB, since only as much of the buffers is touched as the
longest line or body needs. Then puts of arrays of four texts whose records have 65,536, 262,144,
1,048,576 and 4,194,304 bytes, MEGABYTES of each, and the same with a get of the value after each
put. Prints megabytes of records a second, the best of five runs, and those of a program that only
moves the same bytes (bench/copies.c), since caches hold short records and not long ones. Relative
to that program, the longest records are as fast as the others, within 1.2.
"""
import os
import subprocess
import sys
import tempfile
import time
import uuid

ROOT = os.path.dirname(os.path.dirname(os.path.abspath(__file__)))
sys.path.insert(0, ROOT)
from tests.support import wire
from command_line import words
from tests.support.memory import peak_of

PROGRAM, MEGABYTES = words(__doc__, megabytes=256)
SIZES = (65_536, 262_144, 1_048_576, 4_194_304)
RESIDENT = 5_120
# the DISPID of SAFEARRAY(BSTR) in examples/arrays.idl, and of the long of examples/small.idl
NAMES, COUNT = 13, 1
CLASS = uuid.UUID("11223344-5566-7788-99AA-BBCCDDEEFF03")
ask = wire.oaut


def put_of(dispid, value):
    return ask.ask_invoke(1, dispid, ask.PROPERTYPUT, [ask.NEW_VALUE], [value])


def get_of(dispid):
    return ask.ask_invoke(1, dispid, ask.PROPERTYGET, [], [])


def texts(length):
    """A put whose record has so many bytes: an array of four texts, of which the last is as long as
    is left."""
    part = (length // 4 - 64) // 8 * 8
    rest = (
        length - 4 - len(put_of(NAMES, wire.array(wire.BSTR, [(4, 0)], [bytes(part)] * 3 + [b""])))
    )
    asked = put_of(
        NAMES, wire.array(wire.BSTR, [(4, 0)], [b"a\0" * (part // 2)] * 3 + [b"a\0" * (rest // 2)])
    )
    assert len(asked) + 4 == length, len(asked) + 4
    return asked


def packed(path, form, requests):
    """Writes requests into a file in a framing, each after its tag."""
    with open(path, "wb") as file:
        for tag, asked in enumerate(requests):
            file.write(form.pack([tag.to_bytes(4, "little") + asked]))


def resident(command, form, room):
    """The peak resident memory of a session of short requests, in KiB: it is read while the program
    waits for more."""
    packed(
        f"{room}/in",
        form,
        [
            ask.ask_create(CLASS),
            *(
                it
                for number in range(100)
                for it in (put_of(COUNT, wire.scalar(wire.I4, number)), get_of(COUNT))
            ),
        ],
    )
    with open(f"{room}/in", "rb") as file:
        given = file.read()
    child = subprocess.Popen(
        [PROGRAM, *command, *form.words], cwd=room, stdin=subprocess.PIPE, stdout=subprocess.PIPE
    )
    child.stdin.write(given)
    child.stdin.flush()
    for _ in range(201):
        form.read(child.stdout)
    peak = peak_of(child.pid)
    child.stdin.close()
    if child.wait():
        sys.exit(f"status {child.returncode}")
    return peak


def best(command, room):
    """The least seconds of five runs of a command over the requests in a file."""
    taken = []
    for _ in range(5):
        with open(f"{room}/in", "rb") as given, open(f"{room}/out", "wb") as out:
            started = time.perf_counter()
            status = subprocess.run(command, stdin=given, stdout=out).returncode
            taken.append(time.perf_counter() - started)
        if status:
            sys.exit(f"status {status}")
    return min(taken)


slow = []
with tempfile.TemporaryDirectory() as room:
    with open(f"{ROOT}/examples/small.idl", "rb") as file, open(f"{room}/lib.idl", "wb") as copy:
        copy.write(file.read())
    subprocess.run(["cc", "-O3", "-o", f"{room}/copies", f"{ROOT}/bench/copies.c"], check=True)
    for name, form in ask.FRAMINGS.items():
        subprocess.run(
            [PROGRAM, "format", "it.store", "lib.idl"],
            cwd=room,
            check=True,
            stdout=subprocess.DEVNULL,
        )
        for command in (["play", "lib.idl"], ["serve", "it.store", "lib.idl"]):
            peak = resident(command, form, room)
            print(f"{command[0]}, short requests as {name}: peak {peak:,} KiB")
            if peak > RESIDENT:
                slow.append(f"{command[0]} as {name} takes {peak:,} KiB")
    for name, form in ask.FRAMINGS.items():
        for what, more in (("puts", []), ("puts and gets", [get_of(NAMES)])):
            parts = []
            for size in SIZES:
                one = texts(size)
                count = MEGABYTES * 1_000_000 // (size * (1 + len(more)))
                packed(f"{room}/in", form, [ask.ask_create(CLASS), *[one, *more] * count])
                moving = best([f"{room}/copies", name], room)
                seconds = best([PROGRAM, "play", f"{ROOT}/examples/arrays.idl", *form.words], room)
                megabytes = size * count * (1 + len(more)) / 1e6
                parts.append(moving / seconds)
                print(
                    f"{what} of {size:,} bytes as {name}: {megabytes / seconds:,.0f} MB of records "
                    f"a second, {parts[-1]:.2f} of the {megabytes / moving:,.0f} that moving them "
                    "alone does"
                )
            if max(parts) > 1.2 * parts[-1]:
                slow.append(
                    f"{what} of the longest records as {name} run at {parts[-1]:.2f} of what "
                    f"moving them does, others at {max(parts):.2f}"
                )
if slow:
    sys.exit("; ".join(slow))
