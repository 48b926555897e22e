#!/usr/bin/env python3
"""Times the built program on library texts up to their limit, 262,144 bytes with 256 interfaces,
parsed, checked and printed by `oaut check`.

    python3 bench/library.py [PROGRAM [RUNS]]      Default of PROGRAM: crates/oaut/out/oaut

Prints the least seconds and the greatest peak resident memory of some runs. The texts are one with
properties and methods, a quarter of the limit and the whole, one whose last interface clashes with
the first, and one with the most members in one interface. Beside them runs `cat` on the last text.
"""
import os
import subprocess
import sys
import tempfile
import time

ROOT = os.path.dirname(os.path.dirname(os.path.abspath(__file__)))
sys.path.insert(0, ROOT)
from tests.support.memory import peak_of
from command_line import words

PROGRAM, RUNS = words(__doc__, runs=5)
LIMIT = 262_144
HEAD = "[uuid(11223344-5566-7788-99aa-000000000000), version(1.0)]\nlibrary Demo {\n"
TAIL = (
    "[uuid(11223344-5566-7788-99aa-00000000ffff)]\ncoclass Item {\n[default] dispinterface D0;\n}\n"
    "}\n"
)


def interface(number, name, members):
    """An interface with properties and properties in two forms in turn, as the canonical text has
    them."""
    properties = "".join(f"[id({it})] long P{it};\n" for it in range(1, members + 1))
    forms = "".join(
        f"[id({1_000 + it})] VARIANT M{it}([in] long At, [in, optional, defaultvalue({it})] short "
        "By);\n"
        for it in range(1, members + 1)
    )
    return (
        f"[uuid(11223344-5566-7788-99aa-00000000{number + 1:04x})]\ndispinterface {name} {{\n"
        f"properties:\n{properties}methods:\n{forms}}}\n"
    )


def filled(body, size=LIMIT):
    """A library text of so many bytes: what is left is a comment."""
    text = HEAD + body + TAIL
    return text + "//" + "." * (size - len(text) - 2)


def several(last, interfaces=256):
    """Interfaces with as many members as fit 1,024 bytes each."""
    size = 1_024 * interfaces
    members = max(
        n
        for n in range(1, 20)
        if len(HEAD + TAIL) + interfaces * len(interface(255, "D255", n)) <= size - 2
    )
    body = "".join(
        interface(it, f"D{it}" if it < interfaces - 1 else last, members)
        for it in range(interfaces)
    )
    return filled(body, size), 2 * interfaces * members


def timed(words, cwd):
    """The seconds, the peak resident memory in KiB (0 if nothing was written) and the status of a
    run."""
    started = time.perf_counter()
    with subprocess.Popen(
        words, cwd=cwd, stdout=subprocess.PIPE, stderr=subprocess.DEVNULL, pipesize=4_096, bufsize=0
    ) as child:
        # It writes when all its memory is taken, and waits for a reader of what a pipe does not
        # hold.
        child.stdout.read(1)
        peak = peak_of(child.pid)
        while child.stdout.read(65_536):
            pass
    return time.perf_counter() - started, peak, child.returncode


def best(words, cwd):
    """The least seconds of some runs, the greatest peak, and the status."""
    seconds, peaks, status = zip(*(timed(words, cwd) for _ in range(RUNS)))
    return min(seconds), max(peaks), status[0]


with tempfile.TemporaryDirectory() as room:
    whole, members = several("D255")
    clash, _ = several("D000")
    clash = clash.replace("dispinterface D000 ", "dispinterface d0 ", 1) + "  "
    most = filled(interface(0, "D0", 256))
    quarter, fewer = several("D63", 64)
    for name, text, wanted in (
        (f"64 interfaces with {fewer:,} members", quarter, 0),
        (f"256 interfaces with {members:,} members", whole, 0),
        ("the same, its last interface's name repeated", clash[:LIMIT], 2),
        ("512 members in one interface", most, 0),
    ):
        with open(f"{room}/lib.idl", "w", encoding="ascii") as file:
            file.write(text)
        seconds, peak, status = best([PROGRAM, "check", "lib.idl"], room)
        if status != wanted:
            sys.exit(f"{name}: status {status}")
        print(
            f"{name}, {len(text):,} bytes: {seconds:.3f} s"
            + (f", peak {peak:,} KiB" if peak else "")
        )
    with open(f"{room}/lib.idl", "w", encoding="ascii") as file:
        file.write(whole)
    print(f"cat: {best(['cat', 'lib.idl'], room)[0]:.3f} s")
