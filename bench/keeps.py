#!/usr/bin/env python3
"""Times the check that a new library is compatible: `play` gets another library, with texts up to
their limit of 262,144 bytes.

    python3 bench/keeps.py [PROGRAM [RUNS]]      Default of PROGRAM: crates/oaut/out/oaut

Each text is read, parsed and checked before what it keeps is looked at. The time of a library that
keeps all, less the time of one that loses the first interface, is that of `keeps` over all members
and coclasses, and of replacing the library. Prints the least milliseconds of processor time of some
runs of both, and their difference. The status is 1 if that is above 20 ms. It is processor time
since other programs of the machine make the time on the clock many times as long: 80 ms of one may
take half a second.
"""
import os
import struct
import subprocess
import sys
import tempfile
from command_line import words

ROOT = os.path.dirname(os.path.dirname(os.path.abspath(__file__)))
PROGRAM, RUNS = words(__doc__, runs=20)
LIMIT = 262_144
MOST_MILLISECONDS = 20
E_INVALIDARG = 0x8007_0057
# the GUID of the first interface, and one that none has
FIRST, OTHER = b"11223344-5566-7788-99aa-000000010000", b"11223344-5566-7788-99aa-0000000f0000"
HEAD = "[uuid(11223344-5566-7788-99aa-000000000000), version(0.0)]\nlibrary L {\n"


def interface(number, members):
    """An interface with so many members, a get and a put for every two, as the canonical text has
    it."""
    forms = "".join(
        f"[id({it}), propget] long M{it}(long A);\n[id({it}), propput] void M{it}(long A, long "
        "V);\n"
        for it in range(members // 2)
    )
    return (
        f"[uuid(11223344-5566-7788-99aa-00000001{number:04x})]\ndispinterface D{number} {{\n"
        f"properties:\nmethods:\n{forms}}}\n"
    )


def coclass(number, entries):
    """A coclass with the first interfaces; the first of them is its default."""
    names = "".join(f"dispinterface D{it};\n" for it in range(entries))
    return (
        f"[uuid(11223344-5566-7788-99aa-00000002{number:04x})]\ncoclass C{number} {{\n"
        f"[default] {names}}}\n"
    )


def library(interfaces, members, coclasses, entries):
    """A library by its canonical text, which has the limit at most."""
    text = (
        HEAD
        + "".join(interface(it, members) for it in range(interfaces))
        + "".join(coclass(it, entries) for it in range(coclasses))
        + "}\n"
    )
    assert len(text) <= LIMIT, len(text)
    return text.encode()


def asked(text):
    """The line that asks for a library."""
    return (
        struct.pack("<IHHII", 1, 12, 0, len(text), 0) + text + bytes(-len(text) % 8)
    ).hex().encode() + b"\n"


def processor(child):
    """The nanoseconds that a process has had of a processor."""
    with open(f"/proc/{child.pid}/schedstat") as file:
        return int(file.read().split()[0])


def least(old, new, wanted):
    """Returns the least milliseconds of processor time of the requests of a session, which must all
    have this reply."""
    with tempfile.TemporaryDirectory() as room:
        with open(f"{room}/lib.idl", "wb") as file:
            file.write(old)
        line, times = asked(new), []
        with subprocess.Popen(
            [PROGRAM, "play", "lib.idl", "--hex"],
            cwd=room,
            stdin=subprocess.PIPE,
            stdout=subprocess.PIPE,
        ) as child:
            for _ in range(RUNS):
                begun = processor(child)
                child.stdin.write(line)
                child.stdin.flush()
                reply = bytes.fromhex(child.stdout.readline().decode())
                times.append(processor(child) - begun)
                if struct.unpack_from("<I", reply, 4)[0] != wanted:
                    sys.exit(f"a reply of {reply.hex()}")
            child.stdin.close()
        return min(times) / 1_000_000


late = False
for name, text in (
    ("256 interfaces with 24 members each", library(256, 24, 1, 1)),
    ("12 interfaces with 512 members each", library(12, 512, 1, 1)),
    ("256 interfaces, 256 coclasses with 45 of them each", library(256, 0, 256, 45)),
):
    kept, lost = least(text, text, 0), least(text.replace(FIRST, OTHER), text, E_INVALIDARG)
    late = late or kept - lost > MOST_MILLISECONDS
    print(
        f"{name}, {len(text):,} bytes: kept {kept:.2f} ms, its first interface lost {lost:.2f} ms, "
        f"so {kept - lost:.2f} ms for what is kept"
    )
sys.exit(1 if late else 0)
