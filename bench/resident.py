#!/usr/bin/env python3
"""The resident memory of the program over stores: as it opens one, across a checkpoint and across
REPLACE LIBRARY, and what an upgrade takes.

    python3 bench/resident.py [PROGRAM [FOLDER]]      Defaults: PROGRAM crates/oaut/out/oaut, FOLDER
        of the files the current one

Tables are full: their image has 15,728,640 bytes or somewhat less, of long texts, or of arrays
whose cells are EMPTY, which take the most memory of all. Prints MiB: those resident before a
request, at most in it, and after it. The peak of an opening and of an upgrade is that of the whole
process.
"""
import os
import subprocess
import sys
import tempfile

ROOT = os.path.dirname(os.path.dirname(os.path.abspath(__file__)))
sys.path.insert(0, ROOT)
if len(sys.argv) > 1:
    os.environ["OAUT_PROGRAM"] = os.path.abspath(sys.argv[1])
FOLDER = sys.argv[2] if len(sys.argv) > 2 else "."
from tests.support import full, store, wire
from tests.support.running import PROGRAM

STORE, LIBRARY = "it.store", "lib.idl"


def mebibytes(*some):
    return ", ".join(f"{it / 1024:.1f}" for it in some)


def small_stores(room):
    with open(f"{room}/{LIBRARY}", "wb") as file:
        file.write(full.library(1, "long"))
    for what, bank in (("the least banks", store.BANK), ("banks of 1 GiB", store.MOST_BANK)):
        with open(f"{room}/{STORE}", "wb") as file:
            file.truncate(store.length_of(bank))
        subprocess.run(
            [PROGRAM, "format", "--bank", str(bank), f"{room}/{STORE}", f"{room}/{LIBRARY}"],
            check=True,
            stdout=subprocess.DEVNULL,
        )
        peak, seconds = full.opening(room)
        print(
            f"a store without objects, {what}: an opening takes {mebibytes(peak)} at most, "
            f"{seconds:.3f} s",
            flush=True,
        )


def full_table(room, what, text, cells):
    print(f"a table of {what}, an image of {full.laid(room, text, cells):,} bytes")
    peak, seconds = full.opening(room)
    print(f"  an opening: {mebibytes(peak)} at most, {seconds:.3f} s")
    with full.Serving(room) as session:
        put, with_checkpoint = session.checkpoint()
        print(f"  a put: {mebibytes(*put)}")
        print(f"  a put with a checkpoint: {mebibytes(*with_checkpoint)}")
        print(f"  a put after it: {mebibytes(*session.put())}")
        print(
            "  REPLACE LIBRARY: "
            f"{mebibytes(*session.across(wire.replacement(1, full.wider(text))))}"
        )
        print(f"  a put after it: {mebibytes(*session.put())}", flush=True)


def upgrades(room):
    """The upgrade of a full store of format 1, into the least banks and into the largest, with the
    zeros that lengthen its file and without them."""
    for bank in (store.BANK, store.MOST_BANK):
        for made in (False, True):
            size = full.laid(room, full.library(59, "BSTR"), full.texts(14_680_064), form=1)
            if made:
                os.truncate(f"{room}/{STORE}", store.length_of(bank))
            peak, seconds = full.peak_of_run("upgrade", "--bank", str(bank), f"{room}/{STORE}")
            print(
                f"upgrade of a table of {size:,} bytes into banks of {bank:,}, "
                f"{'in a file that is long enough' if made else 'with its zeros'}: {seconds:.2f} "
                f"s, {mebibytes(peak)} at most",
                flush=True,
            )


with tempfile.TemporaryDirectory(dir=FOLDER) as room:
    small_stores(room)
    full_table(room, "texts", full.library(59, "BSTR"), full.texts())
    full_table(room, "arrays of EMPTY", full.library(250, "SAFEARRAY(VARIANT)"), full.arrays())
    upgrades(room)
