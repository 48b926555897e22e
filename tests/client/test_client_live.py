"""Copies of a store that is written meanwhile: by a writer that makes the writes of
docs/reference/store.md between any two reads of a copy, and by the program under load.

OAUT_COPIES says how many copies are taken under load (12 where nothing is said), OAUT_SEED from
which seed.
"""
import contextlib
import itertools
import mmap
import os
import random
import struct
import subprocess
import tempfile
import threading
import time
import unittest
import uuid
from unittest import mock

from oaut import files
from oaut import store as stores
from tests.client.clients import PROGRAM, ClientCases, oaut
from tests.client.test_client_backup import TEXT, created, put, text
from tests.program import test_kills as kills
from tests.support.running import fill

COPIES = int(os.environ.get("OAUT_COPIES") or 12)
SEED = int(os.environ.get("OAUT_SEED") or int.from_bytes(os.urandom(4), "little"))
long = lambda number: (stores.I4, struct.pack("<i", number))


STORE = bytes(
    stores.add(
        stores.formatted(TEXT),
        b"".join(map(created, range(1, 6))),
        put(1, 1, long(7)),
        put(2, 1, text(b"a" * 60)),
    )
)


def read(file):
    """What a store's file holds."""
    with mmap.mmap(file, 0, access=mmap.ACCESS_READ) as data:
        return stores.read(data)


class Writer:
    """A server's writes into a store's file, one at a time, and what the store holds behind each
    of them."""

    def __init__(self, path, draw, steps):
        self.file, self.draw, self.path = os.open(path, os.O_RDWR), draw, path
        found = read(self.file)
        self.held, self.ahead, self.left = (
            [(found.library, found.next, found.objects)],
            self.writes(found),
            steps,
        )

    def step(self, count=1):
        """Makes so many writes; a store is another one once a gate or a selector was written."""
        for _ in range(min(count, self.left)):
            self.left -= 1
            place, some, counts = next(self.ahead)
            os.pwrite(self.file, some, place)
            if counts:
                self.held.append(counts)

    def writes(self, found):
        """Each write: its place, its bytes, and what the store holds once it was made, where it
        changes that."""
        library, chosen, gate, number = found.library, found.chosen, found.gate, 0
        image = stores.table_image(found.next, found.objects)
        while True:
            number += 1
            if self.draw.random() < 0.7:
                what = self.draw.choice(
                    [long(number), text(b"%d " % number + b"x" * self.draw.randrange(90))]
                )
                events = put(self.draw.randrange(1, 6), 1, what)
                table = stores.table(stores.Bytes(image))
                stores.apply(stores.Bytes(events), *table)
                image = stores.table_image(*table)
                yield gate + 1, struct.pack("<I", len(events)) + events + b"\0", None
                yield gate, b"\1", (library, *table)
                gate += 5 + len(events)
            else:
                if self.draw.random() < 0.5:
                    library = TEXT.replace(b"Demo", b"D%03d" % (number % 1_000))
                chosen = 1 - chosen
                yield stores.HEADS[chosen], stores.head_of(2, library, image, stores.BANK), None
                place, body = stores.body_of(2, chosen, stores.BANK), library + image + b"\0"
                for at in range(0, len(body), 300):
                    yield place + at, body[at : at + 300], None
                yield stores.SELECTOR, bytes([chosen]), (
                    library,
                    *stores.table(stores.Bytes(image)),
                )
                gate = place + len(body) - 1


class Between:
    """The module os, whose reads have something before them."""

    def __init__(self, before):
        self.before, self.count = before, 0

    def __getattr__(self, name):
        return getattr(os, name)

    def pread(self, *words):
        self.before(self.count)
        self.count += 1
        return os.pread(*words)


class Interleaved(ClientCases):
    def copied(self, name, before, steps=10**9, seed=0):
        """A copy of a store that is written before reads of it: it holds what the store held at
        some moment since it was begun."""
        with tempfile.TemporaryDirectory() as room:
            path = f"{room}/it.store"
            fill(room, {"it.store": STORE})
            writer = Writer(path, random.Random(seed), steps)
            writer.step(4)
            begun = len(writer.held) - 1
            shim = Between(lambda count: before(writer, count))
            with mock.patch.object(files, "os", shim), mock.patch.object(
                files, "PIECE", 128
            ), mock.patch.object(files, "WINDOW", 64), mock.patch.object(files.time, "sleep"):
                try:
                    with files.opened(path, live=True) as (file, bank):
                        found = read(file)
                    well = (found.library, found.next, found.objects) in writer.held[begun:]
                    said = f"it holds none of the {len(writer.held) - begun} states since its begin"
                except oaut.Unusable as fault:
                    well, said = False, str(fault)
            os.close(writer.file)
            self.tell(name, well, said)
            return shim.count

    def test_writes_between_reads(self):
        reads = self.copied("nothing is written", lambda *_: None)
        for place in range(reads):
            for count in (1, 2, 12):
                self.copied(
                    f"{count} writes before read {place}",
                    lambda writer, at: writer.step(count if at == place else 0),
                    seed=place,
                )

    def test_writes_before_many_reads(self):
        for seed in range(80):
            draw = random.Random(f"{SEED} {seed}")
            some = draw.choice([0.02, 0.1, 0.5])
            before = lambda writer, _: writer.step(
                draw.choice([1, 1, 2, 5, 20, 60]) if draw.random() < some else 0
            )
            self.copied(
                f"writes at random, seed {SEED} {seed}",
                before,
                steps=draw.choice([20, 200, 600]),
                seed=seed,
            )


class Requests:
    """All that was ever asked: puts, and None for each replaced library. Of the first of them,
    which `forget` names, the last put of each cell alone is kept, so that any number of them fits
    the memory of a few."""

    def __init__(self):
        self.forgotten, self.last, self.rest = 0, {}, []

    def __len__(self):
        return self.forgotten + len(self.rest)

    def forget(self, count):
        some = count - self.forgotten
        self.last.update((it[:2], it[2]) for it in self.rest[:some] if it)
        del self.rest[:some]
        self.forgotten = count

    def cut(self, count):
        del self.rest[count - self.forgotten :]


class Load:
    """A server that is fed puts and replaced libraries without an end, but while `goes` is not
    set. `asked` gets what it is asked; each has a reply of 20 bytes, of which `heard` have come."""

    def __init__(self, room, group, asked, libraries):
        self.process = subprocess.Popen(
            [PROGRAM, "serve", "it.store", "lib.idl", "--group", str(group)],
            cwd=room,
            stdin=subprocess.PIPE,
            stdout=subprocess.PIPE,
            bufsize=0,
        )
        self.libraries, self.asked, self.before = libraries, asked, len(asked)
        self.heard, self.wrong, self.over = 0, None, False
        self.goes = threading.Event()
        self.goes.set()
        self.threads = [threading.Thread(target=it, daemon=True) for it in (self.feed, self.hear)]
        for it in self.threads:
            it.start()

    def feed(self):
        number, draw = self.before, random.Random(self.before)
        try:
            while not self.over:
                self.goes.wait()
                some = []
                for _ in range(16):
                    number += 1
                    some.append(None if draw.random() < 0.02 else kills.Put(number, True))
                self.asked.rest += [it and (it.object, it.dispid, it.number) for it in some]
                bodies = (
                    it.body
                    if it
                    else struct.pack("<I", 0) + oaut.ask_replace(draw.choice(self.libraries))
                    for it in some
                )
                self.process.stdin.write(b"".join(map(kills.record, bodies)))
        except (BrokenPipeError, ValueError):
            pass

    def hear(self):
        rest = b""
        while some := self.process.stdout.read(1 << 16):
            rest += some
            whole = len(rest) // 20 * 20
            for at in range(0, whole, 20):
                if rest[at + 8 : at + 12] != bytes(4):
                    self.wrong = rest[at : at + 20].hex()
            self.heard, rest = self.heard + whole // 20, rest[whole:]

    def acknowledged(self):
        return self.before + self.heard

    def kill(self):
        self.over = True
        self.goes.set()
        self.process.kill()
        self.process.wait()
        for it in self.threads:
            it.join()
        self.process.stdin.close()
        self.process.stdout.close()


@unittest.skipUnless(os.path.exists(PROGRAM), "the program is not there")
class UnderLoad(ClientCases):
    def oaut(self, *words, **how):
        return subprocess.run(
            [PROGRAM, *words], cwd=self.room, check=True, stdout=subprocess.PIPE, **how
        ).stdout

    def setUp(self):
        room = tempfile.TemporaryDirectory()
        self.addCleanup(room.cleanup)
        self.room = room.name
        with open(f"{self.room}/lib.idl", "wb") as file:
            file.write(kills.LIBRARY)
        self.first = self.oaut("check", "lib.idl")
        self.oaut("format", "it.store", "lib.idl")
        made = (
            struct.pack("<I", it) + oaut.ask_create(uuid.UUID(bytes_le=kills.CLASS))
            for it in range(kills.OBJECTS)
        )
        self.oaut("serve", "it.store", "lib.idl", input=b"".join(map(kills.record, made)))

    def judged(self, name, path, asked, least):
        """What a store holds is what a first part of the requests has left, all that is forgotten
        of them among these; how many they are."""
        with open(path, "rb") as file:
            found = read(file.fileno())
        now = {
            (number, where[1]): value
            for number, (_, cells) in found.objects.items()
            for where, value in cells.items()
        }
        forgotten, rest = asked.forgotten, asked.rest[:]
        # (a put is its number: what it puts is made anew)
        is_there = lambda it: now.get(it[:2]) == kills.Put(it[2], True).value
        puts = (it for it in range(len(rest), 0, -1) if rest[it - 1])
        there = next((it for it in puts if is_there(rest[it - 1])), 0)
        last = {**asked.last, **{it[:2]: it[2] for it in rest[:there] if it}}
        wanted = {where: kills.Put(number, True).value for where, number in last.items()}
        behind = next((it for it in range(there, len(rest)) if rest[it]), len(rest)) + forgotten
        there += forgotten
        self.tell(
            f"{name}: a first part of what was asked",
            now == wanted and found.library in self.libraries,
            f"{there} of {forgotten + len(rest)}",
        )
        self.tell(f"{name}: all that was acknowledged", behind >= least, f"{there} of {least}")
        self.tell(
            f"{name}: the program opens it",
            self.oaut("dump", path).decode() == "".join(stores.lines(found)),
        )
        return there, found.library

    def test_copies_under_load(self):
        """Each is of a server that is fed and, now and then, killed within the copy. None is
        behind what was acknowledged before the copy began."""
        draw, asked, library = random.Random(SEED), Requests(), self.first
        self.libraries = [self.first, self.first.replace(b"version(1.0)", b"version(2.0)")]
        server, checkpoints, killed, switched, sent = None, 0, 0, None, 0
        store, copy = f"{self.room}/it.store", f"{self.room}/copy"
        for turn in range(COPIES):
            name = f"copy {turn}, seed {SEED}"
            if server is None:
                with open(f"{self.room}/lib.idl", "wb") as file:
                    file.write(library)
                server = Load(self.room, draw.choice((1, 16, 64, 1_024)), asked, self.libraries)
            server.goes.set()
            time.sleep(draw.random() * 0.2)
            dies = draw.random() < 0.2
            timer = threading.Timer(draw.random() * 0.05, server.process.kill)
            if dies:
                timer.start()
            acknowledged = server.acknowledged()
            oaut.backup(store, copy)
            timer.cancel()
            server.goes.clear()  # else it is asked more and more while the copy is looked at
            asked.forget(acknowledged)
            with self.subTest(name):
                self.judged(name, copy, asked, acknowledged)
            bank = files.info(copy)["bank"]
            checkpoints, switched = checkpoints + (switched != bank), bank
            os.unlink(copy)
            if dies:
                server.kill()
                sent += len(asked) - server.before
                there, library = self.judged(
                    f"behind kill {turn}, seed {SEED}", store, asked, server.acknowledged()
                )
                asked.cut(there)
                server, killed = None, killed + 1
        if server:
            self.same("each request was answered by S_OK", server.wrong, None)
            sent += len(asked) - server.before
            server.kill()
        print(
            f"{COPIES} copies under load, {sent} requests, {killed} kills, "
            f"{checkpoints} in another bank than the one before"
        )
