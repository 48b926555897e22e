"""What a crash may leave of a real store's file, image by image, and what the program makes of
each.

A command runs under strace, which tells each write and sync of its store's file with the bytes, and
each write of standard output between them. At each moment of that run a crash may leave what was
there at the last sync that had ended, with any bytes in the ranges that were written since
(docs/internals/faults.md). So at each moment images are made of the writes that no sync has
followed: dropped, kept, filled with 0, 1, 7 and 0xFF, cut at many places, torn by sectors, some of
them kept and others not, in another order. One file is patched for each image, opened by `oaut
dump` and by tests/support/store.py, which share no code, and put back. What both say has to be a
state that is allowed at that moment, by the model in cli/.
"""
import collections
import itertools
import os
import random
import re
import struct
import subprocess
import zlib

from tests.support import store
from tests.support.asked import REPLACE
from tests.support.calls import STRACE
from tests.support.due import dump_of
from tests.support.preloaded import StoreFile, read, spawned
from tests.support.running import PROGRAM, TIMEOUT, fault, fill
from tests.support.wire import oaut

FILLS = (0, 1, 7, 0xFF)
SECTOR = 512
SHORT = 48  # a write of no more bytes is cut behind each of them
LARGE = 1 << 20  # of more bytes only some images are made
CALL = re.compile(
    r'^\d+ +(\w+)\((\d+)<([^>]*)>(?:, "([^"]*)"(\.{3})?)?(?:, (\d+))?(?:, (\d+))?\) += (\d+)'
)
TRACED = "trace=pwrite64,ftruncate,fsync,fdatasync,write"


PIECE = bytes(65_536)  # of zeros, of which a format writes many
PIECE_TEXT = "\\x00" * len(PIECE)


def bytes_of(text):
    """Bytes as strace writes them, each as \\x and two digits."""
    return PIECE if text == PIECE_TEXT else bytes.fromhex(text.replace("\\x", ""))


class Traced:
    """A command under strace: its status, what it said, and in `calls`, in their order, ("write",
    place, bytes), ("length", bytes) and ("sync",) of its store's file, and ("told", bytes) of its
    output. `parts` are what it is asked, each sent once the replies to those before it are there:
    bytes, and how many replies they have."""

    def __init__(self, room, words, parts=(), shown=1 << 20):
        log = f"{room}/calls"
        under = [STRACE, "-f", "-y", "-xx", "-s", str(shown), "-o", log, "-e", TRACED]
        with subprocess.Popen(
            [*under, PROGRAM, *words],
            cwd=room,
            stdin=subprocess.PIPE,
            stdout=subprocess.PIPE,
            stderr=subprocess.PIPE,
        ) as process:
            self.out = b""
            for asked, count in parts:
                process.stdin.write(asked)
                process.stdin.flush()
                for _ in range(count):
                    body = oaut.Raw.read(process.stdout)
                    if body is None:
                        break
                    self.out += oaut.Raw.pack([body])
            rest, self.err = process.communicate(timeout=TIMEOUT)
            self.out, self.status = self.out + rest, process.returncode
        with open(log) as file:
            self.calls = joined([it for it in map(call_of, file) if it])


def call_of(line):
    """A call of the log, if it is one of those that are looked at."""
    found = CALL.match(line)
    if not found:
        return None
    name, number, path, text, more, size, place, brought = found.groups()
    if name == "write" and number == "1":
        return "told", bytes_of(text)[: int(brought)]
    if not bytes_of(path).endswith(b"/it.store"):
        return None
    if name == "pwrite64":
        written = bytes_of(text)
        if more:
            # what is not shown of it is seen when the whole is compared with the file
            assert not any(written), line[:200]
            written = bytes(int(size))
        return "write", int(place), written[: int(brought)]
    return ("length", int(size)) if name == "ftruncate" else ("sync",)


def joined(calls):
    """The same with many pieces of zeros, side by side, as three writes: the first, the last, and
    all between."""
    found = []
    for is_zeros, some in itertools.groupby(calls, lambda it: it[0] == "write" and it[2] == PIECE):
        some = list(some)
        if is_zeros and len(some) > 8:
            some[1:-1] = [("write", some[1][1], PIECE * (len(some) - 2))]
        found += some
    return found


# --- what a crash may leave of some writes


def filled(call, byte):
    return (*call[:2], bytes([byte]) * len(call[2])) if call[0] == "write" else call


def cut(calls, count):
    """The calls in their order, as far as their first bytes."""
    found = []
    for call in calls:
        if call[0] == "write":
            if count <= 0:
                break
            call = (*call[:2], call[2][:count])
            count -= len(call[2])
        found.append(call)
    return found


def sectors(call, kept):
    """The parts of a write by the sectors of the device, of which some are kept."""
    _, place, data = call
    edges = [0, *range(-place % SECTOR or SECTOR, len(data), SECTOR), len(data)]
    return [
        ("write", place + start, data[start:end])
        for number, (start, end) in enumerate(zip(edges, edges[1:]))
        if kept(number)
    ]


def places_of_cuts(calls):
    lengths = [len(it[2]) for it in calls if it[0] == "write"]
    total = sum(lengths)
    if total <= SHORT:
        return range(1, total)
    edges = itertools.accumulate(lengths)
    near = (
        {at + by for at in edges for by in (-1, 0, 1)}
        | {1, 2, 5, total // 2, total - 2}
        | {SECTOR, 8 * SECTOR}
    )
    return sorted(it for it in near if 0 < it < total)


def tears(calls, dice):
    """What a crash may leave of writes that no sync has followed: a name, and the writes that
    count, in their order."""
    yield "dropped", []
    yield "kept", calls
    for byte in FILLS:
        yield f"filled with {byte}", [filled(it, byte) for it in calls]
    for count in places_of_cuts(calls):
        yield f"cut behind {count} bytes", cut(calls, count)
    if sum(len(it[2]) for it in calls if it[0] == "write") > LARGE:
        return
    if len(calls) > 1:
        yield "kept, the last one first", calls[::-1]
        subsets = (
            list(itertools.product((False, True), repeat=len(calls)))
            if len(calls) <= 5
            else [[dice.random() < 0.5 for _ in calls] for _ in range(24)]
        )
        for kept in subsets:
            yield f"kept {[place for place, it in enumerate(kept) if it]}", [
                it for it, one in zip(calls, kept) if one
            ]
    for place, it in enumerate(calls):
        if it[0] != "write":
            continue
        before, behind = calls[:place], calls[place + 1 :]
        for byte in FILLS:
            yield f"write {place} filled with {byte}, the others kept", [
                *before,
                filled(it, byte),
                *behind,
            ]
            yield f"write {place} filled with {byte}, the others dropped", [filled(it, byte)]
        half = len(it[2]) // 2
        yield f"the second half of write {place}, the others kept", [
            *before,
            ("write", it[1] + half, it[2][half:]),
            *behind,
        ]
        for odd in (0, 1):
            yield f"each second sector of write {place}, the others kept", [
                *before,
                *sectors(it, lambda number, odd=odd: number % 2 == odd),
                *behind,
            ]
    for turn in range(3):
        yield f"at random, {turn}", [torn for it in calls for torn in at_random(it, dice)]


def at_random(call, dice):
    """A write that is kept, filled, or torn byte by byte."""
    kind = dice.randrange(4)
    if call[0] != "write" or kind == 0:
        return [call]
    if kind == 1:
        return [filled(call, dice.choice(FILLS))]
    if kind == 2:
        return [
            (
                "write",
                call[1],
                bytes(it if dice.random() < 0.5 else dice.choice(FILLS) for it in call[2][:4_096])
                + call[2][4_096:],
            )
        ]
    return sectors(call, lambda _: dice.random() < 0.5)


# --- images


class State(collections.namedtuple("State", "format library dump")):
    """What a store's file holds. Where it holds none, a word stands in its place: `not a store`, or
    `damaged`."""


def state_of(model, form=2):
    return State(form, model.library.text(), dump_of(model))


class Images:
    """A store's file that is patched as a crash may leave it, and put back. `tried` counts the
    images that were opened, `wrong` says what was not allowed."""

    def __init__(self, room, data=None, most=20):
        self.room, self.path, self.most = room, f"{room}/it.store", most
        if data is not None:
            StoreFile(self.path, data).lay()
        elif not os.path.exists(self.path):
            open(self.path, "wb").close()
        self.file = os.open(self.path, os.O_RDWR)
        self.tried, self.wrong, self.moments, self.known, self.dice = 0, [], 0, {}, random.Random(1)

    def close(self):
        os.close(self.file)

    def patch(self, calls):
        for call in calls:
            if call[0] == "length":
                os.ftruncate(self.file, call[1])
            else:
                os.pwrite(self.file, call[2], call[1])

    def held(self, ranges):
        """What the file holds in some ranges."""
        return [(start, os.pread(self.file, end - start, start)) for start, end in ranges]

    def explore(self, calls, allowed, always=False):
        """Opens what a crash may leave at each moment of some calls. `allowed` tells, by what the
        output has told so far, which states there may be. The file holds then what the calls leave.
        `always` has each image looked at by `dump --library` and `serve` too, not one in eight."""
        told, pending, seen = b"", [], set()
        for place, call in enumerate((("told", b""), *calls)):
            if call[0] == "sync":
                self.patch(pending)
                pending, seen = [], set()
            elif call[0] == "told":
                told += call[1]
            else:
                pending.append(call)
            self.moments += 1
            states, ranges = allowed(told), ranges_of(pending)
            before = self.held(ranges)
            for name, left in tears(pending, self.dice):
                self.one(
                    f"{name}, {len(pending)} writes pending behind call {place}, {len(told)} "
                    "bytes told",
                    ranges,
                    before,
                    left,
                    states,
                    seen,
                    always,
                )
                if len(self.wrong) >= self.most:
                    return self
        self.patch(pending)
        return self

    def leave(self, calls, tear):
        """Leaves the file as a crash does behind some calls, by the name of the tear."""
        pending = []
        for call in calls:
            if call[0] == "sync":
                self.patch(pending)
            pending = (
                [] if call[0] == "sync" else pending + [it for it in (call,) if it[0] != "told"]
            )
        self.patch(next(left for name, left in tears(pending, self.dice) if name == tear))

    def one(self, name, ranges, before, left, states, seen, always):
        """Opens one image, unless it is one that was seen. It may differ in some ranges, of which
        `before` is what the file holds."""
        length = os.fstat(self.file).st_size
        self.patch(left)
        after = self.held(ranges)
        key = (
            tuple(
                (start, hash(data))
                for (start, data), was in zip(after, before)
                if (start, data) != was
            ),
            os.fstat(self.file).st_size,
            states,
        )
        if key not in seen:
            seen.add(key)
            self.tried += 1
            found, wrong = self.opened(always or self.tried % 8 == 0)
            if wrong is None and found not in states:
                wrong = f"{shown(found)} is none of {[shown(it) for it in states]}"
            if wrong:
                self.wrong.append(f"{name}: {wrong}")
        for start, data in before:
            os.pwrite(self.file, data, start)
        os.ftruncate(self.file, length)

    def run(self, *words):
        status, _ = spawned([PROGRAM, *words], "/dev/null", f"{self.room}/out", f"{self.room}/err")
        return status, read(f"{self.room}/out"), read(f"{self.room}/err")

    def opened(self, whole):
        """What the image holds, and what is wrong of what is said of it."""
        said = self.run("dump", self.path)
        try:
            found = StoreFile.mapped(self, store.read) if os.fstat(self.file).st_size else None
            if found is None:
                raise store.NotAStore
            state = State(found.format, found.library, "".join(store.lines(found)))
            due = 0, state.dump.encode(), b""
        except (store.NotAStore, store.Damaged) as refusal:
            state, due = str(refusal).split(" at ")[0], (3, b"", fault(str(refusal)))
        if said != due:
            return (
                state,
                (
                    f"dump says {said[0], said[1][:100], said[2]}, the other reader "
                    f"{due[0], due[1][:100], due[2]}"
                ),
            )
        if whole and isinstance(state, State):
            text = self.run("dump", "--library", self.path)
            served = self.run("serve", self.path, self.library(state.library))
            if text != (0, state.library, b"") or served != (
                (0, b"", b"") if state.format == 2 else (3, b"", fault("old format"))
            ):
                return (
                    state,
                    f"dump --library says {text[0], text[1][:100], text[2]}, serve {served}",
                )
        return state, None

    def library(self, text):
        """A file of the library."""
        if text not in self.known:
            self.known[text] = f"{self.room}/{len(self.known)}.idl"
            fill(self.room, {f"{len(self.known) - 1}.idl": text})
        return self.known[text]


def ranges_of(calls):
    """The ranges that writes touch, each once."""
    found = []
    for start, end in sorted((it[1], it[1] + len(it[2])) for it in calls if it[0] == "write"):
        if found and start < found[-1][1]:
            found[-1] = found[-1][0], max(end, found[-1][1])
        else:
            found.append((start, end))
    return found


def shown(state):
    return (
        state
        if isinstance(state, str)
        else f"format {state.format}, {len(state.library)} bytes of library, "
        f"{zlib.crc32(state.library):08x}, {state.dump[:300]!r}"
    )


# --- sessions


class Session:
    """Requests, their replies, and what a store holds behind each of them, by a model. `turns`
    yields a body, its reply, and the model behind it."""

    def __init__(self, begins, turns, size):
        self.bodies, self.replies, self.states = [], [], [begins]
        for body, reply, model in turns:
            self.bodies.append(body)
            self.replies.append(reply)
            self.states.append(state_of(model))
        self.size, self.ends = size, ends_of_groups(self.bodies, size)
        self.told = list(
            itertools.accumulate(map(len, (oaut.Raw.pack([it]) for it in self.replies)), initial=0)
        )

    def parts(self):
        """What is sent at once: a group, and what ends one that is not full."""
        start = 0
        for before, end in zip(self.ends, self.ends[1:]):
            if (
                end - before == self.size
                or is_alone(self.bodies[end - 1])
                or end == len(self.bodies)
            ):
                # the last group may end with the input alone
                count = 0 if end == len(self.bodies) else end - start
                yield oaut.Raw.pack(self.bodies[start:end]), count
                start = end

    def allowed(self, told):
        """Behind so many bytes of replies: what the groups leave of which one was told, or what the
        next one does where they were told whole."""
        count = next(
            (place - 1 for place, length in enumerate(self.told) if length > len(told)),
            len(self.bodies),
        )
        later = next((it for it in self.ends if it > count), count)
        return frozenset(
            self.states[it]
            for it in (
                {count, later} if count in self.ends and len(told) == self.told[count] else {later}
            )
        )

    def out(self):
        return oaut.Raw.pack(self.replies)


def is_alone(body):
    return len(body) >= 8 and struct.unpack_from("<H", body, 4)[0] == REPLACE


def ends_of_groups(bodies, size):
    """Behind which requests a group ends: REPLACE LIBRARY is one of its own."""
    ends, count = [0], 0
    for place, body in enumerate(bodies, 1):
        if is_alone(body):
            ends += [place - 1, place] if count else [place]
            count = 0
        else:
            count += 1
            if count == size:
                ends.append(place)
                count = 0
    return ends if ends[-1] == len(bodies) else [*ends, len(bodies)]
