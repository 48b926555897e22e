#!/usr/bin/env python3
"""Fuzzes the program with AFL++ and coverage by breakpoints (bench/coverage.c), and compares the
result of each input that AFL++ kept with the documents.

    python3 bench/with_afl.py PART SECONDS FOLDER [PROGRAM]      PART is records, frames, libraries
        or stores; default of PROGRAM: crates/oaut/out/oaut

By hand, with afl-fuzz, cc and objdump. FOLDER keeps the queue: a second run goes on with it. An
input of `records` is what `play` reads, of `frames` what `play --shared` does, of `libraries` a
text for `check -`, of `stores` what bench/coverage.c makes a store's file of, for `dump`. The last
lines say how many inputs were tried, kept, crashed or hung, and which differ. For each input that
was kept, the replies are compared with the model's, the text is checked as in
tests/support/fuzz.py, and the store is opened by `dump`, `serve` and tests/support/store.py.
FOLDER/rows has then, as rows of tests/tables/fuzzed.txt, short inputs that between them reach what
the seeds do not.
"""
import glob
import os
import re
import shutil
import struct
import subprocess
import sys
import tempfile

ROOT = os.path.dirname(os.path.dirname(os.path.abspath(__file__)))
sys.path.insert(0, ROOT)
PART, SECONDS, FOLDER = sys.argv[1], sys.argv[2], os.path.abspath(sys.argv[3])
PROGRAM = os.environ["OAUT_PROGRAM"] = (
    os.path.abspath(sys.argv[4]) if len(sys.argv) > 4 else f"{ROOT}/crates/oaut/out/oaut"
)
from tests.support import dealt, fuzz, fuzzed, worked
from tests.support.sharing import oaut
from tests.support.model import LIBRARY
from tests.support.running import fill

JUMP = re.compile(r"^ *([0-9a-f]+):\s+(j\w+|ret\w*|call)\s*([0-9a-f]+)?")
MOST_BYTES = 1_200  # of an input that becomes a row
PLACE = re.compile(r"^ *([0-9a-f]+):\s")
FUNCTION = re.compile(r"^([0-9a-f]+) <")


def blocks():
    """The starts of the program's blocks: functions, the targets of jumps, and the places after
    jumps."""
    listing = subprocess.run(
        ["objdump", "-d", "--no-show-raw-insn", "-j", ".text", PROGRAM],
        check=True,
        stdout=subprocess.PIPE,
        text=True,
    ).stdout
    found, places, behind = set(), set(), False
    for line in listing.splitlines():
        place = PLACE.match(line)
        if place:
            places.add(int(place[1], 16))
            if behind:
                found.add(int(place[1], 16))
            jump = JUMP.match(line)
            behind = bool(jump) and jump[2] != "call"
            if jump and jump[3] and jump[2].startswith("j"):
                found.add(int(jump[3], 16))
        elif (function := FUNCTION.match(line)) is not None:
            found.add(int(function[1], 16))
    return sorted(found & places)


def seeds():
    if PART in ("records", "frames"):
        sessions = [
            worked.CREATED + it
            for it in (
                worked.SCALAR_PROPERTIES,
                worked.PARAMETERS,
                worked.ARRAYS[:24],
                worked.ARRAYS[24:],
                worked.NEVER_PUT,
                worked.NAMES,
                worked.REFUSALS,
                worked.GOES,
            )
        ]
        sessions += [
            [worked.EVERY_TYPE[0], *worked.EVERY_TYPE[at : at + 12]]
            for at in range(1, len(worked.EVERY_TYPE), 12)
        ]
        if PART == "frames":
            tagged = [
                [struct.pack("<I", tag) + it for tag, it in enumerate(them, 1)] for them in sessions
            ]
            locks = [worked.call(it, worked.GRID) for it in (worked.LOCK, worked.UNLOCK)]
            asked = [
                (1, worked.CREATED[0]),
                (1, worked.put(worked.GRID, worked.GRID_1_TO_6)),
                *((it, locks[it % 2]) for it in (2, 4, 1, 2, 3, 4)),
            ]
            owned = [(client, fuzzed.pack([it])) for client, it in asked] + [
                (2, b""),
                (4, fuzzed.pack([locks[1]])),
                (2, fuzzed.pack([locks[0]])),
                (4, b"\x10\0"),
            ]
            return [
                dealt.dealt(it, 1 + at % 3)[0] + oaut.frames.NOW for at, it in enumerate(tagged)
            ] + [oaut.frames.join(owned)]
        return [fuzzed.pack(it) for it in sessions]
    if PART == "libraries":
        return [it for it in fuzz.known_texts() if len(it) < 3_000]
    with tempfile.TemporaryDirectory() as room:
        files, _ = fuzz.known_stores(room)
        found = []
        for file, _ in files:
            file.lay()
            found.append(file.mapped(fuzzed.input_of))
        return found


def main():
    os.makedirs(f"{FOLDER}/seeds", exist_ok=True)
    library = subprocess.run(
        [
            "cc",
            "-O1",
            "-shared",
            "-fPIC",
            "-o",
            f"{FOLDER}/coverage.so",
            f"{ROOT}/bench/coverage.c",
            "-ldl",
        ]
    )
    assert library.returncode == 0
    found = blocks()
    with open(f"{FOLDER}/blocks", "wb") as file:
        file.write(struct.pack(f"<{len(found)}Q", *found))
    fill(
        FOLDER, {"lib.idl": LIBRARY, **{f"seeds/{number}": it for number, it in enumerate(seeds())}}
    )
    words = {
        "records": ["play", f"{FOLDER}/lib.idl"],
        "frames": ["play", "--shared", f"{FOLDER}/lib.idl"],
        "libraries": ["check", "-"],
        "stores": ["dump", f"{FOLDER}/it.store"],
    }[PART]
    told = {
        "AFL_PRELOAD": f"{FOLDER}/coverage.so",
        "BLOCKS": f"{FOLDER}/blocks",
        "SEEDS": f"{FOLDER}/seeds",
        "AFL_SKIP_BIN_CHECK": "1",
        "AFL_NO_AFFINITY": "1",
        "AFL_I_DONT_CARE_ABOUT_MISSING_CRASHES": "1",
    }
    told.update(
        {
            "AFL_SKIP_CPUFREQ": "1",
            "AFL_NO_UI": "1",
            "AFL_AUTORESUME": "1",
            "AFL_FORKSRV_INIT_TMOUT": "600000",
            "AFL_QUIET": "1",
        }
    )
    if PART == "stores":
        told["STORE"] = "1"
        with open(f"{FOLDER}/it.store", "wb") as file:
            file.truncate(75_505_664)
    dictionary = []
    if PART == "libraries":
        rows = [
            f'"{it}"'
            for it in "uuid( version( helpstring( library importlib( dispinterface interface "
            "coclass properties: methods: void unsigned SAFEARRAY( long short char "
            "hyper int BSTR VARIANT VARIANT_BOOL CURRENCY DECIMAL SCODE readonly "
            "propget propput in optional defaultvalue( default id( TRUE FALSE".split()
        ]
        fill(FOLDER, {"words": "\n".join(rows).encode()})
        dictionary = ["-x", f"{FOLDER}/words"]
    print(f"{len(found)} blocks", flush=True)
    log = open(f"{FOLDER}/log", "wb")
    # (afl-showmap waits for the program to begin by this time too)
    afl = lambda most, *more: subprocess.run(
        [*more, "-m", "none", "-t", most, "--", PROGRAM, *words],
        env={**os.environ, **told},
        stdout=log,
        stderr=log,
        stdin=subprocess.DEVNULL,
        cwd=FOLDER,
        check=False,
    )
    afl(
        "2000",
        "afl-fuzz",
        "-i",
        f"{FOLDER}/seeds",
        "-o",
        f"{FOLDER}/out",
        "-V",
        SECONDS,
        *dictionary,
    )
    judge()
    reached = {}
    for folder in ("seeds", "out/default/queue"):
        shutil.rmtree(f"{FOLDER}/maps", ignore_errors=True)
        afl("60000", "afl-showmap", "-q", "-i", folder, "-o", "maps")
        for name in os.listdir(f"{FOLDER}/maps"):
            with open(f"{FOLDER}/maps/{name}") as file:
                reached[f"{FOLDER}/{folder}/{name}"] = {line.split(":")[0] for line in file}
    choose(reached)


def choose(reached):
    """Writes the rows: of the inputs that reach something more, the one that reaches most beside
    what is reached, until none is left."""
    seen = set().union(*(it for path, it in reached.items() if "/seeds/" in path))
    left = {
        path: it
        for path, it in reached.items()
        if "/seeds/" not in path and os.path.getsize(path) <= MOST_BYTES
    }
    began, rows = len(seen), []
    while left:
        path = max(left, key=lambda it: (len(left[it] - seen), -os.path.getsize(it)))
        if not left[path] - seen:
            break
        seen |= left.pop(path)
        with open(path, "rb") as file:
            rows.append(f"{PART} {file.read().hex()}\n")
    with open(f"{FOLDER}/rows", "w") as file:
        file.writelines(rows)
    print(
        f"{len(rows)} rows reach {len(seen) - began} blocks that the seeds do not, of {len(seen)}",
        flush=True,
    )


def judge():
    with open(f"{FOLDER}/out/default/fuzzer_stats") as file:
        stats = dict(
            re.split(r"\s*: ", line.rstrip("\n"), maxsplit=1) for line in file if ":" in line
        )
    kept, wrong = (
        sorted(
            glob.glob(f"{FOLDER}/out/default/queue/id*")
            + glob.glob(f"{FOLDER}/out/default/crashes/id*")
            + glob.glob(f"{FOLDER}/out/default/hangs/id*")
        ),
        [],
    )
    with tempfile.TemporaryDirectory() as room:
        for path in kept:
            with open(path, "rb") as file:
                said = fuzzed.JUDGES[PART](room, file.read())
            if said:
                wrong.append((path, said))
    for path, said in wrong[:20]:
        print(f"DIFFERS {path}: {said[:600]}")
    print(
        f"{PART}: {stats['execs_done']} inputs in {stats['run_time']} s, {len(kept)} kept, "
        f"{stats['bitmap_cvg']} of the map, {stats['saved_crashes']} crashes, "
        f"{stats['saved_hangs']} hangs, {len(wrong)} differ",
        flush=True,
    )


if __name__ == "__main__":
    main()
