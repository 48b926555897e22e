#!/usr/bin/env python3
"""Times puts into a store, beside plain writes of the same bytes, and beside as many updates in
SQLite.

    python3 bench/durable.py [PROGRAM [FOLDER [SECONDS [ROUNDS]]]]

Defaults: PROGRAM crates/oaut/out/oaut, FOLDER of the files the current one, SECONDS of each
measurement 0.5, ROUNDS of each 9.
Four ways take turns on one file system, each with groups of 1, 16, 256 and 1,024 puts of a long:

- store: `oaut serve --group N`, over pipes, as fast as it replies;
- calls: for each group a frame of its bytes by `pwrite`, `fdatasync`, its gate byte by `pwrite`,
  `fdatasync`, in a file with allocated blocks: the least cost of this order of writes;
- SQLite: in a WAL with `synchronous = FULL`, one transaction of N updates of a row by its key, by
  one call of Python's module (`executemany`), so without a step of Python per update;
- each: SQLite with one call per update, as in a script whose updates come one by one.

Prints the median of the rounds, and the median ratio of the store's rate to that of each other way
in the same round, since the speed of a shared device varies. Then it prints the latency of a single
synchronous put, from the client's write to its read: the median and the 99th percentile.
"""
import fcntl
import os
import sqlite3
import statistics
import struct
import subprocess
import sys
import tempfile
import threading
import time
import uuid

ROOT = os.path.dirname(os.path.dirname(os.path.abspath(__file__)))
sys.path.insert(0, ROOT)
from tests.support import store, wire
from oaut import PROPERTYPUT, ask_create, ask_invoke
from command_line import words

PROGRAM, FOLDER, SECONDS, ROUNDS = words(__doc__, folder=".", seconds=0.5, rounds=9)
GROUPS = [
    it
    for it in (1, 16, 256, 1_024)
    if subprocess.run(
        [PROGRAM, "serve", "none", "none", "--group", str(it)], stderr=subprocess.DEVNULL
    ).returncode
    != 2
]
EVENT = 33  # the bytes of the put of a long
ITEM = bytes.fromhex("443322116655887799aabbccddeeff03")
REPLY = 20
SET_PIPE_SIZE = 1_031  # F_SETPIPE_SZ of Linux, which the module has from Python 3.10 on


def record(body):
    return struct.pack("<I", len(body)) + body


CREATE = record(struct.pack("<I", 1) + ask_create(uuid.UUID(bytes_le=ITEM)))
PUT = record(struct.pack("<I", 2) + ask_invoke(1, 1, PROPERTYPUT, [-3], [wire.scalar(wire.I4, 7)]))


class Serve:
    """A session over a store that begins anew, with one object. Its file is made once: 33 MB of
    zeros would be in the way of what is measured."""

    def __init__(self, room, group):
        path = f"{room}/it.store"
        library = f"{ROOT}/examples/small.idl"
        subprocess.run([PROGRAM, "format", path, library], check=True, stdout=subprocess.DEVNULL)
        subprocess.run(
            [PROGRAM, "serve", path, library], check=True, input=CREATE, stdout=subprocess.DEVNULL
        )
        self.child = subprocess.Popen(
            [PROGRAM, "serve", path, library, "--group", str(group)],
            stdin=subprocess.PIPE,
            stdout=subprocess.PIPE,
            bufsize=0,
        )
        for pipe in (self.child.stdin, self.child.stdout):
            # room for some groups, so that the server waits for the device and not for this script
            fcntl.fcntl(pipe, SET_PIPE_SIZE, 1 << 20)

    def __enter__(self):
        return self

    def __exit__(self, *_):
        self.child.stdin.close()
        while self.child.stdout.read(1 << 16):
            pass
        self.child.stdout.close()
        assert self.child.wait() == 0

    def hear(self, count):
        heard = b""
        while len(heard) < count:
            heard += self.child.stdout.read(count - len(heard))
        return heard

    def puts(self, group):
        """Puts a second, from the first reply on."""
        over, some = False, PUT * max(2 * group, 64)

        def feed():
            while not over:
                self.child.stdin.write(some)

        feeding = threading.Thread(target=feed)
        feeding.start()
        self.hear(REPLY)
        heard, started = 0, time.perf_counter()
        while (now := time.perf_counter()) < started + SECONDS:
            heard += len(self.child.stdout.read(1 << 20))
        over = True
        # the writing thread ends only if the rest of the output is read
        threading.Thread(
            target=lambda: [None for _ in iter(lambda: self.child.stdout.read(1 << 16), b"")],
            daemon=True,
        ).start()
        feeding.join()
        return heard / REPLY / (now - started)

    def latencies(self):
        self.child.stdin.write(PUT)
        self.hear(REPLY)
        found, until = [], time.perf_counter() + SECONDS
        while time.perf_counter() < until:
            started = time.perf_counter()
            self.child.stdin.write(PUT)
            self.hear(REPLY)
            found.append(time.perf_counter() - started)
        return found


class Calls:
    """A file of a store's length, whose bank is written as a commit does it."""

    def __init__(self, room):
        self.file = os.open(f"{room}/it.calls", os.O_RDWR | os.O_CREAT)
        if os.fstat(self.file).st_size < store.length_of(store.BANK):
            os.pwrite(self.file, bytes(store.length_of(store.BANK)), 0)
            os.fsync(self.file)
        self.at = store.LEAST

    def commit(self, group):
        body = bytes(4 + EVENT * group + 1)
        if self.at + 1 + len(body) > store.LEAST + store.BANK:
            self.at = store.LEAST
        os.pwrite(self.file, body, self.at + 1)
        os.fdatasync(self.file)
        os.pwrite(self.file, b"\1", self.at)
        os.fdatasync(self.file)
        self.at += len(body)

    def puts(self, group):
        return repeated(lambda: self.commit(group)) * group

    def latencies(self):
        return timed(lambda: self.commit(1))


class Sqlite:
    """A table of one row."""

    def __init__(self, room):
        self.base = sqlite3.connect(f"{room}/it.sqlite", isolation_level=None)
        self.base.execute("PRAGMA journal_mode = WAL")
        self.base.execute("PRAGMA synchronous = FULL")
        self.base.execute(
            "CREATE TABLE IF NOT EXISTS cells (object INTEGER, dispid INTEGER, value INTEGER, "
            "PRIMARY KEY (object, dispid)) WITHOUT ROWID"
        )
        self.base.execute("INSERT OR IGNORE INTO cells VALUES (1, 1, 0)")
        self.count = 0

    def commit(self, group, each=False):
        update, rows = "UPDATE cells SET value = ? WHERE object = 1 AND dispid = 1", [
            (self.count + it,) for it in range(group)
        ]
        self.base.execute("BEGIN IMMEDIATE")
        if each:
            for row in rows:
                self.base.execute(update, row)
        else:
            self.base.executemany(update, rows)
        self.base.execute("COMMIT")
        self.count += group

    def puts(self, group, each=False):
        return repeated(lambda: self.commit(group, each)) * group

    def latencies(self):
        return timed(lambda: self.commit(1))


def repeated(act):
    """How often a second something can be done."""
    count, started = 0, time.perf_counter()
    while (now := time.perf_counter()) < started + SECONDS:
        act()
        count += 1
    return count / (now - started)


def timed(act):
    found, until = [], time.perf_counter() + SECONDS
    while time.perf_counter() < until:
        started = time.perf_counter()
        act()
        found.append(time.perf_counter() - started)
    return found


def serve_puts(room, group):
    with Serve(room, group) as session:
        return session.puts(group)


def serve_latencies(room):
    with Serve(room, 1) as session:
        return session.latencies()


with tempfile.TemporaryDirectory(dir=FOLDER) as room:
    calls, base = Calls(room), Sqlite(room)
    print(f"puts a second on {os.path.abspath(FOLDER)}, SQLite {sqlite3.sqlite_version}")
    print(
        f"{'group':>5} {'store':>10} {'calls':>10} {'SQLite':>10} {'each':>10} {'by calls':>9} "
        f"{'by SQLite':>9} {'by each':>9}"
    )
    for group in GROUPS:
        rounds = [
            (serve_puts(room, group), calls.puts(group), base.puts(group), base.puts(group, True))
            for _ in range(ROUNDS)
        ]
        found = [statistics.median(it) for it in zip(*rounds)]
        times = [statistics.median(it[0] / it[way] for it in rounds) for way in (1, 2, 3)]
        print(f"{group:5}", *(f"{it:10,.0f}" for it in found), *(f"{it:9.2f}" for it in times))
    print("one put, in microseconds: median, 99th percentile")
    rounds = [(serve_latencies(room), calls.latencies(), base.latencies()) for _ in range(ROUNDS)]
    for name, them in zip(("store", "calls", "SQLite"), zip(*rounds)):
        found = sorted(it * 1e6 for some in them for it in some)
        print(f"{name:>6} {statistics.median(found):8,.0f} {found[len(found) * 99 // 100]:8,.0f}")
