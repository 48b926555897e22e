"""Kills `oaut serve` at random moments, and looks at what is there behind it.

OAUT_KILLS says how often (300 times where nothing is said), OAUT_SEED from which seed:
`tools/cases.py kills --kills N --seed S` sets them. Each time a server is started on one store,
with groups of 1, 3, 64 or 1,024. It reads back what the store should hold, takes puts as fast as it
can, small ones and long texts, so that checkpoints fall among them, and gets the signal 9. Then the
store is read by `oaut dump` and by tests/support/store.py. It has to hold what a first part of the
puts has left, in which every acknowledged one is, and which ends where a group ends.

A kill leaves the system's cache as it is: what a loss of power may leave is shown by the proofs and
by the crates' tests alone.
"""
import os
import random
import struct
import subprocess
import tempfile
import threading
import time
import unittest
import uuid

from oaut import PROPERTYGET, PROPERTYPUT, ask_create, ask_invoke
from tests.support import calls, store, wire
from tests.support.running import PROGRAM

TIMES = int(os.environ.get("OAUT_KILLS") or 300)
SEED = int(os.environ.get("OAUT_SEED") or int.from_bytes(os.urandom(4), "little"))
GROUPS = (1, 3, 64, 1_024)
OBJECTS = 8
EARLY = 524_288  # a group ends behind the request that brings its events to so many bytes
COUNT, NAME = 1, 2
LIBRARY = b"""[uuid(11223344-5566-7788-99aa-bbccddeeff01), version(1.0)]
library Demo {
[uuid(11223344-5566-7788-99aa-bbccddeeff02)] dispinterface DItem { properties: [id(1)] long Count; \
[id(2)] BSTR Name; methods: }
[uuid(11223344-5566-7788-99aa-bbccddeeff03)] coclass Item { [default] dispinterface DItem; }
}
"""
CLASS, FACE = (bytes.fromhex("443322116655887799aabbccddeeff" + last) for last in ("03", "02"))
LONG_ZERO, NO_TEXT = (wire.I4, bytes(4)), (wire.BSTR, b"\xff" * 4)


class Put:
    """The put of a number: of itself into a Count, or now and then of a text that names it."""

    def __init__(self, number, long):
        self.number, self.object = number, number % OBJECTS + 1
        draw = random.Random(number) if long else None
        if draw and draw.random() < 0.5:
            text = b"%d:" % number + b"x" * draw.randrange(200_000)
            self.dispid, self.value, field = (
                NAME,
                (wire.BSTR, struct.pack("<I", len(text)) + text),
                wire.scalar(wire.BSTR, text),
            )
        else:
            self.dispid, self.value, field = (
                COUNT,
                (wire.I4, struct.pack("<i", number)),
                wire.scalar(wire.I4, number),
            )
        self.body = struct.pack("<I", number) + ask_invoke(
            self.object, self.dispid, PROPERTYPUT, [-3], [field]
        )
        self.event = 1 + 4 + 16 + 4 + 2 + 2 + len(self.value[1])


def record(body):
    return struct.pack("<I", len(body)) + body


def get(number, object, dispid):
    return record(struct.pack("<I", number) + ask_invoke(object, dispid, PROPERTYGET, [], []))


class Session:
    """A server that is started on the store, fed without an end and killed. `first` is the number
    of its first put, `values` what the store holds, and `puts` become those that were asked."""

    def __init__(self, program, room, group, first, values, long):
        self.process = subprocess.Popen(
            [program, "serve", "it.store", "lib.idl", "--group", str(group)],
            cwd=room,
            stdin=subprocess.PIPE,
            stdout=subprocess.PIPE,
            stderr=subprocess.PIPE,
            bufsize=0,
        )
        self.first, self.long, self.puts, self.over = first, long, [], False
        self.heard = bytearray()
        self.reads = [
            (object, dispid) for object in range(1, OBJECTS + 1) for dispid in (COUNT, NAME)
        ]
        self.wanted = b"".join(
            record(bytes.fromhex(wire.reply(0, fields=wire.field(spelled(values[it]))).decode()))
            for it in self.reads
        )
        self.feeding, self.hearing = (
            threading.Thread(target=it, daemon=True) for it in (self.feed, self.hear)
        )
        self.feeding.start()
        self.hearing.start()

    def feed(self):
        try:
            self.process.stdin.write(b"".join(get(0, *it) for it in self.reads))
            while not self.over:
                some = [
                    Put(self.first + len(self.puts) + it, self.long)
                    for it in range(4 if self.long else 64)
                ]
                self.puts += some
                self.process.stdin.write(b"".join(record(it.body) for it in some))
        except (BrokenPipeError, ValueError):
            pass

    def hear(self):
        while some := self.process.stdout.read(1 << 16):
            self.heard += some

    def kill(self):
        """Ends it, and answers how many puts were acknowledged."""
        self.process.kill()
        self.over = True
        self.process.wait()
        self.hearing.join()
        self.feeding.join()
        for pipe in (self.process.stdin, self.process.stdout):
            pipe.close()
        said = self.process.stderr.read()
        self.process.stderr.close()
        if said:
            raise Wrong(f"it says {said}")
        told = bytes(self.heard)
        if not told.startswith(self.wanted[: len(told)]):
            raise Wrong("what it reads back is not what the store held")
        done = told[len(self.wanted) :]
        count = len(done) // 20
        for it in range(count):
            if done[20 * it : 20 * it + 20] != record(
                struct.pack("<IIII", self.first + it, 0, 0xFFFF_FFFF, 0)
            ):
                raise Wrong(
                    f"the reply to the put {self.first + it} is "
                    f"{done[20 * it : 20 * it + 20].hex()}"
                )
        return count


class Wrong(Exception):
    pass


def spelled(value):
    """The field of a value of a cell."""
    vt, held = value
    if vt == wire.I4:
        return wire.scalar(vt, struct.unpack("<i", held)[0])
    return wire.scalar(vt) if held == NO_TEXT[1] else wire.scalar(vt, held[4:])


def ends_of_groups(group, reads, puts):
    """Behind which puts a group ends, in a session of so many reads and then these puts."""
    ends, count, events = {0}, reads % group, 0
    for place, put in enumerate(puts, 1):
        count, events = count + 1, events + put.event
        if count == group or events >= EARLY:
            ends.add(place)
            count, events = 0, 0
    return ends


def held(room):
    """The values of a store's cells, by the reader that shares no code with the program, and its
    dump, by both."""
    found = store.read(calls.held(room))
    if found.next != OBJECTS + 1 or sorted(found.objects) != list(range(1, OBJECTS + 1)):
        raise Wrong("the objects are others")
    values = {
        (object, dispid): zero
        for object in found.objects
        for dispid, zero in ((COUNT, LONG_ZERO), (NAME, NO_TEXT))
    }
    values.update(
        {
            (object, where[1]): value
            for object, (_, cells) in found.objects.items()
            for where, value in cells.items()
        }
    )
    return found, values, "".join(store.lines(found))


class Kills(unittest.TestCase):
    """Each kill is a case; nothing is tried behind the first where something is wrong."""

    def setUp(self):
        self.draw, self.number = random.Random(SEED), 1
        self.acknowledged = self.behind = self.switched = 0
        room = tempfile.TemporaryDirectory()
        self.addCleanup(room.cleanup)
        self.room = room.name
        with open(f"{self.room}/lib.idl", "wb") as file:
            file.write(LIBRARY)
        self.call(["format", "it.store", "lib.idl"])
        made = b"".join(
            record(struct.pack("<I", it) + ask_create(uuid.UUID(bytes_le=CLASS)))
            for it in range(OBJECTS)
        )
        self.call(["serve", "it.store", "lib.idl"], input=made)
        self.found, self.values, _ = held(self.room)

    def call(self, words, **how):
        return subprocess.run(
            [PROGRAM, *words], cwd=self.room, check=True, stdout=subprocess.PIPE, **how
        ).stdout

    def test_kills(self):
        for turn in range(TIMES):
            group, long = GROUPS[turn % len(GROUPS)], turn // len(GROUPS) % 2 == 1
            wrong = None
            with self.subTest(f"kill {turn}, groups of {group}, seed {SEED}"):
                try:
                    self.kill(group, long)
                except Wrong as it:
                    wrong = str(it)
                if wrong:
                    self.fail(wrong)
            if wrong:
                return
        print(
            f"{TIMES} kills, groups of {', '.join(map(str, GROUPS))}: {self.acknowledged} "
            f"acknowledged puts were all there, {self.behind} more with them, in whole groups; "
            f"{self.switched} sessions ended in the other bank"
        )

    def kill(self, group, long):
        """Serves, kills, and looks at what is there."""
        session = Session(PROGRAM, self.room, group, self.number, self.values, long)
        until = self.draw.random() * (200 if long else 100 + 20 * group)
        late = time.monotonic() + 20
        while (
            len(session.heard) < len(session.wanted) + 20 * until
            and time.monotonic() < late
            and self.draw.random() > 0.002
        ):
            time.sleep(0.0002)
        time.sleep(self.draw.random() * 0.003)
        count = session.kill()
        before = self.found.chosen
        self.found, now, dump = held(self.room)
        puts = session.puts
        there = next(
            (
                it
                for it in range(len(puts), 0, -1)
                if now[puts[it - 1].object, puts[it - 1].dispid] == puts[it - 1].value
            ),
            0,
        )
        for put in puts[:there]:
            self.values[put.object, put.dispid] = put.value
        if self.values != now:
            raise Wrong(f"the cells are not what {there} puts leave")
        if there < count:
            raise Wrong(f"{count} puts were acknowledged, {there} are there")
        if there not in ends_of_groups(group, len(session.reads), puts[:there]):
            raise Wrong(f"{there} puts are there, and no group ends behind them")
        if self.call(["dump", "it.store"]).decode() != dump:
            raise Wrong("`oaut dump` prints something else")
        self.acknowledged, self.behind, self.switched = (
            self.acknowledged + count,
            self.behind + there - count,
            self.switched + (self.found.chosen != before),
        )
        self.number += len(puts)
