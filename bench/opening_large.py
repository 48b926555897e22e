#!/usr/bin/env python3
"""Times the open of a store of 1 GiB beside reading the same bytes of its file.

    python3 bench/opening_large.py [PROGRAM [FOLDER [MEBIBYTES]]]      Defaults: PROGRAM
        crates/oaut/out/oaut, FOLDER of the store the current one, MEBIBYTES 1,024

The snapshot fills a bank of MEBIBYTES, with texts of 1 MiB, texts of 1,000 bytes, or longs, each of
a property with one parameter. The open is the time from the start of `oaut serve` to its first
reply. Beside it `dd` reads the bank in use, by 64 KiB. Both are the least of three rounds, once
with the file in the page cache and once without it (posix_fadvise). Printed are the seconds, those
of a processor in parentheses, the ratio of both, and the server's memory.
"""
import os
import resource
import struct
import subprocess
import sys
import tempfile
import time

ROOT = os.path.dirname(os.path.dirname(os.path.abspath(__file__)))
sys.path.insert(0, ROOT)
from command_line import words

PROGRAM, FOLDER, MEBIBYTES = words(__doc__, folder=".", mebibytes=1_024)
os.environ["OAUT_PROGRAM"] = PROGRAM
from tests.support import full, wire
from tests.support.memory import peak_of
from tests.support.stores import CLASS, FACE

ROUNDS = 3
BANK, SPARE = MEBIBYTES << 20, 5_242_880
BODY = 33_562_624
KEY = len(FACE) + 4 + 2 + 2  # where the argument of a cell with one parameter is
TABLES = (
    ("texts of 1 MiB", "BSTR", 1 << 20),
    ("texts of 1,000 bytes", "BSTR", 1_000),
    ("longs", "long", 0),
)


def numbers(count):
    """The bytes of the numbers from 0 on, by their places."""
    for place in range(4):
        step = 256**place
        turn = b"".join(
            [bytes([it]) * min(step, count) for it in range(min(256, -(-count // step)))]
        )
        yield (turn * -(-count // len(turn)))[:count]


def image_of(length):
    """The snapshot of one object, whose cells fill a bank: texts of this length, or longs."""
    cell = FACE + struct.pack("<iHHi", 1, 1, wire.I4, 0)
    cell += (
        struct.pack("<HI", wire.BSTR, length) + b"x\0" * (length // 2)
        if length
        else struct.pack("<Hi", wire.I4, 7)
    )
    count = (BANK - SPARE - 32) // len(cell)
    image = bytearray(struct.pack("<IIi16sI", 2, 1, 1, CLASS, count) + cell * count)
    for place, column in enumerate(numbers(count)):
        image[32 + KEY + place :: len(cell)] = column
    return count, image


def lay(room, type, image):
    """A store whose bank 0 has this snapshot, and the bytes of the bank that are read."""
    with open(f"{room}/lib.idl", "wb") as file:
        file.write(full.keyed(type, 1))
    text = subprocess.run(
        [PROGRAM, "check", f"{room}/lib.idl"], check=True, stdout=subprocess.PIPE
    ).stdout
    with open(f"{room}/it.store", "wb") as file:
        file.truncate(BODY + 2 * BANK)
        for at, some in (
            (0, b"\1"),
            (8_192, struct.pack("<8sIIII", b"OAUTBK02", 2, len(text), len(image), BANK)),
            (BODY, text),
            (BODY + len(text), image),
        ):
            file.seek(at)
            file.write(some)
        file.flush()
        os.fsync(file.fileno())
    return len(text) + len(image) + 1


def forget(room):
    """Drops the pages of the store from the page cache."""
    with open(f"{room}/it.store", "rb") as file:
        os.posix_fadvise(file.fileno(), 0, 0, os.POSIX_FADV_DONTNEED)


def opened(room, _):
    """The seconds until a server has answered, those of a processor, and its memory in KiB."""
    begun = time.monotonic()
    with full.Serving(room) as session:
        session.ask(wire.live_objects(1))
        with open(f"/proc/{session.child.pid}/stat", encoding="ascii") as file:
            ticks = file.read().rsplit(")", 1)[1].split()[11:13]
        return (
            time.monotonic() - begun,
            sum(map(int, ticks)) / os.sysconf("SC_CLK_TCK"),
            peak_of(session.child.pid),
        )


def read(room, length):
    """The seconds in which `dd` reads the bank, and those of a processor."""
    said = [
        "dd",
        f"if={room}/it.store",
        "of=/dev/null",
        "bs=65536",
        "iflag=skip_bytes,count_bytes",
        f"skip={BODY}",
        f"count={length}",
        "status=none",
    ]
    begun, before = time.monotonic(), resource.getrusage(resource.RUSAGE_CHILDREN)
    subprocess.run(said, check=True)
    after = resource.getrusage(resource.RUSAGE_CHILDREN)
    return (
        time.monotonic() - begun,
        after.ru_utime + after.ru_stime - before.ru_utime - before.ru_stime,
    )


with tempfile.TemporaryDirectory(dir=FOLDER) as room:
    for what, type, length in TABLES:
        count, image = image_of(length)
        size = lay(room, type, image)
        del image
        for cache in ("in the page cache", "not in the page cache"):
            taken = {opened: [], read: []}
            for _ in range(ROUNDS):
                for way, found in taken.items():
                    if cache.startswith("not"):
                        forget(room)
                    found.append(way(room, size))
            least = {way: [min(it) for it in zip(*found)] for way, found in taken.items()}
            told = [
                f"{name} {least[way][0]:.2f} s ({least[way][1]:.2f})"
                for name, way in (("open", opened), ("dd", read))
            ]
            ratios = [least[opened][it] / max(least[read][it], 0.001) for it in (0, 1)]
            print(
                f"{count:,} {what}, {size / 2**20:,.0f} MiB {cache}: {', '.join(told)}; ratio "
                f"{ratios[0]:.1f} ({ratios[1]:.1f}); {least[opened][2] / 1024:,.0f} MiB",
                flush=True,
            )
