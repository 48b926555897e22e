#!/usr/bin/env python3
"""The instructions of a put or a get of a long, by the crates of the program and by its functions.

    python3 bench/layers.py [PROGRAM]      Default of PROGRAM: crates/oaut/out/oaut, which has
        symbols

Each of the five ways of tests/tables/instructions.txt is run twice under callgrind, with and
without the 20,000 requests that are counted, as bench/instructions.py does. Printed are, of each
way: the instructions of a request, the share of each crate in hundredths, and the ten functions
that have the most. A function that is inlined counts for the one that contains it. Then the same of
the unproved server (bench/baseline.py), by the part of its source: its lines are known, so
functions that are inlined count for themselves.
"""
import collections
import os
import re
import subprocess
import sys
import tempfile

from command_line import words

ROOT = os.path.dirname(os.path.dirname(os.path.abspath(__file__)))
sys.path.insert(0, ROOT)
(os.environ["OAUT_PROGRAM"],) = words(__doc__)
from tests.support import instructions
from tests.support.model import LIBRARY
from tests.support.preloaded import fast_folder
from tests.support.running import PROGRAM, fill

FLAGS = [
    "--edition",
    "2021",
    "-C",
    "opt-level=3",
    "-C",
    "panic=abort",
    "-C",
    "target-cpu=x86-64-v2",
    "-C",
    "debuginfo=1",
]
MOST = 10


def costs(path):
    """The counts of callgrind, by the function that was called and by the file and the line of the
    source: without what it has called."""
    found, file, name, skip = collections.Counter(), None, None, False
    with open(path, encoding="utf-8", errors="replace") as lines:
        for line in lines:
            if skip:
                skip = False
            elif line[:3] in ("fl=", "fi=", "fe="):
                file = line[3:].strip()
            elif line.startswith("fn="):
                name = line[3:].strip()
            elif line.startswith("calls="):
                skip = True
            elif line[:1].isdigit():
                at, cost = line.split()
                found[name, os.path.basename(file or ""), int(at)] += int(cost)
    return found


def counted(words, way, given, room):
    """The same of a session of a program."""
    store = ["it.store"] if "serve" in way else []
    for it in store:
        subprocess.run(
            [PROGRAM, "format", it, "lib.idl"], cwd=room, stdout=subprocess.DEVNULL, check=True
        )
    fill(room, {"given": given})
    under = [
        instructions.VALGRIND,
        "--tool=callgrind",
        "--callgrind-out-file=counted",
        "--compress-strings=no",
        "--compress-pos=no",
        "--dump-line=yes",
    ]
    with open(f"{room}/given", "rb") as stdin:
        subprocess.run(
            [*under, *words],
            cwd=room,
            stdin=stdin,
            stdout=subprocess.DEVNULL,
            stderr=subprocess.DEVNULL,
            check=True,
        )
    for it in store:
        os.remove(f"{room}/{it}")
    return costs(f"{room}/counted")


def of_request(words, name, way, room):
    """The same of one request of a way, in fractions of an instruction."""
    both = []

    def count(requests):
        both.append(
            counted(words, way, instructions.spelled(instructions.tagged(requests), way), room)
        )
        return sum(both[-1].values())

    instructions.of_longs(name, count)
    more, less = both
    return {
        key: (number - less[key]) / instructions.REPEATED
        for key, number in more.items()
        if number != less[key]
    }


def function_of(name):
    """A symbol without its hash, and the crate that it is of."""
    name = re.sub(r"'\d+$", "", name)
    crate = re.search(
        r"\b(oa_\w+|oaut|std\w*|core|memchr|hex|byteorder|uuid|indexmap|libc|io|os)(?:::|\.)", name
    )
    return crate[1] if crate else "C library", name


def part_of(source):
    """The function of a line of the unproved server, by the starts of functions in its source."""
    starts = {}
    for path in source:
        with open(path, encoding="utf-8") as file:
            starts[os.path.basename(path)] = [
                (at, it[1])
                for at, line in enumerate(file, 1)
                if (it := re.match(r"\s*(?:pub )?fn (\w+)", line))
            ]

    def part(file, line):
        before = [name for at, name in starts.get(file, ()) if at <= line]
        return before[-1] if before else None

    return part


def told(title, total, sums):
    print(
        f"  {title}: "
        + ", ".join(
            f"{name} {100 * number / total:.0f}"
            for name, number in sums.most_common()
            if number >= total / 200
        )
    )


if instructions.VALGRIND is None:
    sys.exit("valgrind is not there")
with tempfile.TemporaryDirectory(dir=fast_folder()) as room:
    server, source = f"{room}/server", [
        f"{ROOT}/bench/baseline/{it}" for it in ("server.rs", "values.rs")
    ]
    subprocess.run(["rustc", *FLAGS, source[0], "-o", server], check=True)
    fill(room, {"lib.idl": LIBRARY})
    part = part_of(source)
    for name, way in instructions.LONGS.items():
        store = ["it.store"] if "serve" in way else []
        found = of_request([PROGRAM, *way, *store, "lib.idl"], name, way, room)
        crates, functions = collections.Counter(), collections.Counter()
        for (function, _, _), number in found.items():
            crate, short = function_of(function)
            crates[crate] += number
            functions[short] += number
        total = sum(found.values())
        print(f"{name}: {total:,.0f} instructions", flush=True)
        told("crates", total, crates)
        for function, number in functions.most_common(MOST):
            print(f"  {number:7.1f} {function}")
        flags = [it for it in way if it in ("--hex", "--shared")]
        found = of_request(
            [server, *flags, *(["--store", *store] if store else [])], name, way, room
        )
        parts = collections.Counter()
        for (function, file, line), number in found.items():
            parts[part(file, line) or re.sub(r"::h[0-9a-f]{16}$", "", function)] += number
        print(f"  unproved: {sum(parts.values()):,.0f} instructions")
        told("parts", sum(parts.values()), parts)
