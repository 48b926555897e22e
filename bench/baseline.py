#!/usr/bin/env python3
"""Compares the program with an unproved server of the same protocol, tuned by hand
(bench/baseline/server.rs).

    python3 bench/baseline.py [PROGRAM]      Default of PROGRAM: crates/oaut/out/oaut

`rustc` builds the server. It knows one coclass: no library, no other types, no conversions, no
failed allocations, no limit of a table, no checkpoints. Its replies and its store have the same
bytes, which is tested first. Prints the instructions of a request of both, for each of the five
ways of tests/tables/instructions.txt. The requests are a put and a get of a long in turn, among
1,000 objects; over a store, puts alone, in groups of 1,024.

Then those of the other requests, as records in memory, over objects of the library of
tests/support/kinds.py: puts are over a value of the same length, an array has 1,000 longs. The
third number is the ratio.
"""
import contextlib
import hashlib
import os
import subprocess
import sys
import tempfile

from command_line import words

ROOT = os.path.dirname(os.path.dirname(os.path.abspath(__file__)))
sys.path.insert(0, ROOT)
(os.environ["OAUT_PROGRAM"],) = words(__doc__)
from tests.support import instructions, kinds, worked
from tests.support.model import LIBRARY
from tests.support.running import PROGRAM, fill

OBJECTS, REPEATED = 100, 1_000
BYTES = 1 << 24  # of all repeated requests of a kind, at most
TEXTS = (10, 1_000, 1_048_576)
ARRAY = kinds.array(kinds.I4, [(1_000, 0)], range(1_000))
CREATE = instructions.oaut.ask_create(kinds.ITEM)
FLAGS = [
    "--edition",
    "2021",
    "-C",
    "opt-level=3",
    "-C",
    "panic=abort",
    "-C",
    "target-cpu=x86-64-v2",
]

if instructions.VALGRIND is None:
    sys.exit("valgrind is not there")


def session(words, way, given, room):
    """The replies of a session of a program, and the store that it leaves; None in memory."""
    store = f"{room}/it.store"
    if "serve" in way:
        with contextlib.suppress(FileNotFoundError):
            os.remove(store)
        subprocess.run(
            [PROGRAM, "format", store, f"{room}/lib.idl"], stdout=subprocess.DEVNULL, check=True
        )
    done = subprocess.run(words, cwd=room, input=given, stdout=subprocess.PIPE, check=True)
    return (
        done.stdout,
        hashlib.sha256(open(store, "rb").read()).digest() if "serve" in way else None,
    )


def count(words, way, given, room):
    """The instructions of a session."""
    if "serve" in way:
        os.remove(f"{room}/it.store")
        subprocess.run(
            [PROGRAM, "format", "it.store", "lib.idl"],
            cwd=room,
            stdout=subprocess.DEVNULL,
            check=True,
        )
    return instructions.of_program(words, given, room)


def over(dispid, value, request):
    """A kind of request about objects that have a value."""
    return lambda of: worked.put(dispid, value, of), request


def others():
    """The other kinds of requests by their names: a put of the value that each object has before,
    if any, and the request, by the object."""
    found = {
        "CREATE": (None, lambda of: CREATE),
        "RELEASE": (None, lambda of: instructions.oaut.ask_release(OBJECTS + REPEATED + 1 - of)),
    }
    for length in TEXTS:
        value = worked.text(b"x\0" * (length // 2))
        found[f"put of a text of {length:,} bytes"] = over(
            kinds.NAME, value, lambda of, value=value: worked.put(kinds.NAME, value, of)
        )
        found[f"get of a text of {length:,} bytes"] = over(
            kinds.NAME, value, lambda of: worked.get(kinds.NAME, of)
        )
    return found | {
        "put of an array": over(kinds.LONGS, ARRAY, lambda of: worked.put(kinds.LONGS, ARRAY, of)),
        "get of an array": over(kinds.LONGS, ARRAY, lambda of: worked.get(kinds.LONGS, of)),
        "PUTELEM": over(
            kinds.LONGS, ARRAY, lambda of: worked.put_element(kinds.LONGS, (of,), worked.i4(of), of)
        ),
        "GETELEM": over(kinds.LONGS, ARRAY, lambda of: worked.element(kinds.LONGS, of, of=of)),
        "GETIDS": (None, lambda of: instructions.oaut.ask_ids(of, ["Two", "B"])),
    }


def sessions(name, before, request):
    """The requests of a session that makes what a kind is about, and those that follow."""
    length = max(len(before(1)) if before else 0, len(request(1)))
    objects, repeated = (min(most, max(1, BYTES // 2 // length)) for most in (OBJECTS, REPEATED))
    objects += repeated if name == "RELEASE" else 0
    front = [CREATE] * objects + [before(of) for of in range(1, objects + 1) if before]
    return front, [request(1 + at % objects) for at in range(repeated)]


# requests that show that the baseline refuses what it refuses as the program does, and what objects
# have that nothing was put into
REFUSED = [
    CREATE,
    worked.get(kinds.NAME),
    worked.get(kinds.LONGS),
    *(
        it
        for content in (None, b"")
        for it in (worked.put(kinds.NAME, worked.text(content)), worked.get(kinds.NAME))
    ),
    worked.get(kinds.NAME),
    worked.put(kinds.NAME, worked.text(b"abc")),
    worked.get(kinds.NAME),
    worked.put(kinds.NAME, worked.text(b"abc"))[:-8],
    worked.element(kinds.LONGS, 0),
    worked.put(kinds.LONGS, kinds.array(kinds.I4, [(3, -1)], (7, 8, 9))),
    worked.get(kinds.LONGS),
    *(worked.element(kinds.LONGS, it) for it in (-2, -1, 1, 2, -(2**31), 2**31 - 1)),
    worked.put_element(kinds.LONGS, (1,), worked.i4(5)),
    worked.put_element(kinds.LONGS, (2,), worked.i4(5)),
    worked.put(kinds.LONGS, kinds.array(kinds.I4, [(3, -1)], (7, 8, 9), count=4)),
    *(
        instructions.oaut.ask_ids(1, it)
        for it in (
            ["COUNT"],
            ["three", "c", "B", "a", "none"],
            ["none", "a"],
            ["nam"],
            ["one", "b"],
            ["names", "aa"],
        )
    ),
    instructions.oaut.ask_ids(2, ["Count"]),
    instructions.oaut.ask_release(1),
    *(
        it(1)
        for it in (
            instructions.oaut.ask_release,
            lambda of: worked.get(kinds.COUNT, of),
            lambda of: worked.get(kinds.NAME, of),
        )
    ),
    worked.put(kinds.COUNT, worked.i4(1)),
    worked.element(kinds.LONGS, 0),
]

with tempfile.TemporaryDirectory() as room:
    server = f"{room}/server"
    subprocess.run(["rustc", *FLAGS, f"{ROOT}/bench/baseline/server.rs", "-o", server], check=True)
    fill(room, {"lib.idl": LIBRARY})
    for name, way in instructions.LONGS.items():
        flags = [it for it in way if it in ("--hex", "--shared")]
        store = ["it.store"] if "serve" in way else []
        ours, its = [PROGRAM, *way, *store, "lib.idl"], [
            server,
            *flags,
            *(["--store", *store] if store else []),
        ]
        spelled = lambda requests: instructions.spelled(instructions.tagged(requests), way)
        front = [instructions.oaut.ask_create(instructions.worked.ITEM)]
        given = spelled(
            front
            + [instructions.REQUESTS[it](1) for it in ("get", "put", "get", *("put",) * 2_000)]
        )
        assert session(ours, way, given, room) == session(
            its, way, given, room
        ), "the baseline answers other bytes, or leaves another store"
        baseline = instructions.of_longs(
            name, lambda requests: count(its, way, spelled(requests), room)
        )
        print(f"{name}: {instructions.of_longs(name):,}, of the baseline {baseline:,}", flush=True)
    fill(room, {"lib.idl": kinds.LIBRARY})
    ours, its = [PROGRAM, "play", "lib.idl"], [server]
    spelled = lambda requests: instructions.spelled(instructions.tagged(requests), ours)
    assert session(ours, (), spelled(REFUSED), room) == session(
        its, (), spelled(REFUSED), room
    ), "the baseline refuses otherwise"
    for name, kind in others().items():
        front, more = sessions(name, *kind)
        given = spelled(front), spelled(front + more)
        assert session(ours, (), given[1], room) == session(
            its, (), given[1], room
        ), f"{name}: the baseline answers other bytes"
        found, baseline = (
            (
                instructions.of_program(it, given[1], room)
                - instructions.of_program(it, given[0], room)
            )
            // len(more)
            for it in (ours, its)
        )
        print(
            f"{name}: {found:,}, of the baseline {baseline:,}: {found / baseline:.1f}", flush=True
        )
