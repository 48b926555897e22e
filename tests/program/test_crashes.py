"""What a crash may leave of a store's file at each moment of real sessions, of `format`, of a
replaced library and of `upgrade`: image by image (tests/support/crashes.py), each opened, and what
it holds compared with the states of the model in tests/support that are allowed there. And faults
that are planted in what was traced have to be found.

OAUT_CRASHES says how many random sessions there are among them (4 where nothing is said).
"""
import os
import struct
import tempfile
import unittest

from tests.support import drawn, store, worked
from tests.support.asked import Answering
from tests.support.calls import STRACE
from tests.support.crashes import Images, Session, State, Traced, state_of
from tests.support.model import LIBRARY, first_library
from tests.support.preloaded import StoreFile, fast_folder
from tests.support.running import FULL_TEXT, SMALL, SMALL_TEXT, Cases, fill
from tests.support.stores import (
    CREATED_1,
    DUE_ASKED,
    DUE_BEFORE,
    LONG,
    OLD,
    ONE,
    TWO,
    nearly_full,
    text_put,
)
from tests.support.wire import oaut

RANDOM = int(os.environ.get("OAUT_CRASHES") or 4)
REQUESTS = 40  # of a random session
TEXT = first_library().text()
NEW = bytes(store.formatted(TEXT))
FORMAT, UPGRADE = ["format", "it.store", "lib.idl"], ["upgrade", "it.store"]


def answered(bodies, before=()):
    """What a session begins with, and its turns, by the model."""
    answering = Answering()
    for body in before:
        answering.reply(bytes(4) + body)
    answering.forget_locks()

    def turns():
        for tag, body in enumerate(bodies, 1):
            body = struct.pack("<I", tag) + body
            yield body, answering.reply(body), answering.model

    return state_of(answering.model), turns()


def drawn_session(seed):
    session = drawn.Session(seed)
    return state_of(session.model), (
        (*session.turn(tag), session.model) for tag in range(1, REQUESTS + 1)
    )


def serve(size):
    return ["serve", "--group", str(size), "it.store", "lib.idl"]


PUTS = [
    oaut.ask_create(worked.ITEM),
    worked.put(worked.COUNT, worked.i4(7)),
    worked.get(worked.COUNT),
    worked.put(worked.NAME, worked.text(worked.HI)),
    worked.put(worked.COUNT, worked.i4(8)),
]


@unittest.skipIf(STRACE is None, "strace is not there: what a crash may leave is not explored")
class Explored(Cases):
    images = moments = 0

    def traced(self, name, words, disk, library, parts=(), out=b"", **how):
        """A command in a folder of its own, what it left, and whether that is what its calls
        leave."""
        with tempfile.TemporaryDirectory(dir=fast_folder()) as room:
            fill(room, {"lib.idl": library})
            if disk is not None:
                StoreFile(f"{room}/it.store", disk).lay()
            traced = Traced(room, words, parts, **how)
            self.tell(
                f"{name}: it ends well",
                (traced.status, traced.out, traced.err) == (0, out, b""),
                (traced.status, traced.out[:200], traced.err),
            )
            return traced.calls, StoreFile(f"{room}/it.store", b"").now()

    def explored(self, name, disk, calls, left, *parts, always=False):
        """Explores the calls, in parts that allow different states."""
        with tempfile.TemporaryDirectory(dir=fast_folder()) as room:
            images = Images(room, disk)
            self.addCleanup(images.close)
            for count, allowed in parts:
                images.explore(calls[:count], allowed, always)
                calls = calls[count:]
            self.tell(
                f"{name}: {images.tried} images",
                images.tried and not images.wrong,
                f"{len(images.wrong)} are wrong: {images.wrong[:3]}",
            )
            self.tell(
                f"{name}: the calls are what the file holds",
                bool(images.wrong) or StoreFile.now(images) == left,
                "other bytes",
            )
            Explored.images, Explored.moments = (
                Explored.images + images.tried,
                Explored.moments + images.moments,
            )
        return images

    def session(self, name, disk, begins, turns, size, always=False):
        session = Session(begins, turns, size)
        calls, left = self.traced(
            name, serve(size), disk, begins.library, session.parts(), session.out()
        )
        return self.explored(name, disk, calls, left, (len(calls), session.allowed), always=always)

    @classmethod
    def tearDownClass(cls):
        print(
            f"{cls.__name__}: {Explored.images} images of {Explored.moments} moments were opened, "
            "up to here",
            flush=True,
        )


class Sessions(Explored):
    def test_each_worked_case(self):
        for size in (1, 3):
            self.session(
                f"worked cases, groups of {size}",
                NEW,
                *answered([it for it in worked.ALL if it]),
                size,
            )

    def test_every_type_over_a_file_of_ones(self):
        # whatever stands behind the last gate reads as an open one
        ones = bytes(store.formatted(TEXT, before=b"\1"))
        self.session("every type, over a file of ones", ones, *answered(worked.EVERY_TYPE), 3)

    def test_a_checkpoint(self):
        for size in (1, 3):
            self.session(
                f"a checkpoint, groups of {size}",
                nearly_full(),
                *answered(DUE_ASKED, DUE_BEFORE),
                size,
            )

    def test_a_library_that_is_replaced(self):
        for size in (1, 3):
            self.session(
                f"a library that is replaced, groups of {size}",
                NEW,
                *answered(worked.REPLACED),
                size,
                always=True,
            )

    def test_random_sessions(self):
        for seed in range(RANDOM):
            self.session(f"random session {seed}", NEW, *drawn_session(seed), (1, 3)[seed % 2])

    def test_sessions_on_what_a_crash_has_left(self):
        begins, turns = answered(PUTS)
        session = Session(begins, turns, 1)
        calls, _ = self.traced("puts", serve(1), NEW, TEXT, session.parts(), session.out())
        frame = [place for place, it in enumerate(calls) if it[0] == "write"][4]
        for behind, tear, count in (
            [
                (frame, it, 3)
                for it in (
                    "dropped",
                    "kept",
                    "filled with 1",
                    "filled with 255",
                    "cut behind 5 bytes",
                )
            ]
            + [(frame + 2, f"filled with {it}", 3) for it in (0, 7)]
            + [(frame + 2, "kept", 4)]
        ):
            with tempfile.TemporaryDirectory(dir=fast_folder()) as room:
                images = Images(room, NEW)
                images.leave(calls[: behind + 1], tear)
                images.close()
                with open(f"{room}/it.store", "rb") as file:
                    disk = file.read()
            self.session(
                f"on a write {behind - frame} that is {tear}",
                disk,
                *answered(
                    [
                        worked.put(worked.COUNT, worked.i4(9)),
                        worked.put(worked.NAME, worked.text(b"")),
                        oaut.ask_create(worked.ITEM),
                    ],
                    PUTS[:count],
                ),
                1,
            )


class Commands(Explored):
    def formatted(self, name, disk, *begins):
        """Until the first byte is on the device there is what was there, or no store, and then no
        store or the new one."""
        new = State(2, SMALL_TEXT, "next 1\n")
        calls, left = self.traced(
            f"format of {name}", FORMAT, disk, SMALL, out=b"formatted\n", shown=1_024
        )
        first = calls.index(("sync",), calls.index(("write", 0, b"\0"))) + 1
        before, behind = frozenset(["not a store", *begins]), frozenset(["not a store", new])
        self.explored(
            f"format of {name}",
            disk or b"",
            calls,
            left,
            (first, lambda _: before),
            (len(calls), lambda told: frozenset([new]) if told else behind),
        )

    def test_format(self):
        full = bytes(store.add(store.formatted(FULL_TEXT), CREATED_1))
        self.formatted("a store", TWO, State(2, SMALL_TEXT, ONE))
        self.formatted("a store in bank 1", bytes(store.settled(TWO)), State(2, SMALL_TEXT, ONE))
        self.formatted("a store of another library", full, State(2, FULL_TEXT, store.dump(full)))
        self.formatted(
            "a store of format 1", OLD + bytes(len(TWO) - len(OLD)), State(1, SMALL_TEXT, ONE)
        )
        # zeros and ones are no store, and with another first byte they are a damaged one
        self.formatted("zeros", bytes(len(TWO)), "damaged")
        self.formatted("ones", b"\1" * len(TWO), "damaged")
        self.formatted("a new file", None, "damaged")

    def test_upgrade(self):
        many = bytes(store.add(store.formatted_before(FULL_TEXT), CREATED_1, text_put(LONG)[0]))
        for name, disk, library, dump in (
            ("a store", OLD, SMALL_TEXT, ONE),
            ("a store in bank 1", bytes(store.settled(OLD)), SMALL_TEXT, ONE),
            ("a store that is long enough", OLD + b"\1" * (len(TWO) - len(OLD)), SMALL_TEXT, ONE),
            ("a store of some pieces", many, FULL_TEXT, store.dump(many)),
        ):
            allowed = lambda told, library=library, dump=dump: frozenset(
                State(it, library, dump) for it in ((2,) if told else (1, 2))
            )
            calls, left = self.traced(
                f"upgrade of {name}", UPGRADE, disk, library, out=b"upgraded\n", shown=1 << 18
            )
            self.explored(
                f"upgrade of {name}", disk, calls, left, (len(calls), allowed), always=True
            )


def without(calls, place):
    return [*calls[:place], *calls[place + 1 :]]


def moved(calls, place, to):
    """The calls with one of them earlier."""
    return [*calls[:to], calls[place], *calls[to:place], *calls[place + 1 :]]


class Planted(Explored):
    """Traces that were spoilt, as a program with that fault would make them: some image has to be
    wrong."""

    def falls(self, name, disk, calls, allowed):
        with tempfile.TemporaryDirectory(dir=fast_folder()) as room:
            images = Images(room, disk, most=1)
            self.addCleanup(images.close)
            images.explore(calls, allowed)
            self.tell(
                f"{name} is found", images.wrong, f"{images.tried} images, none of them wrong"
            )

    def spoilt(self, name, disk, begins, turns, size, faults):
        session = Session(begins, turns, size)
        calls, _ = self.traced(
            name, serve(size), disk, begins.library, session.parts(), session.out()
        )
        for what, spoil in faults.items():
            self.falls(f"{name}: {what}", disk, spoil(calls), session.allowed)

    def test_commits(self):
        kinds = lambda calls: [it[0] for it in calls]
        frame = lambda calls: kinds(calls).index("write")
        self.spoilt(
            "a commit",
            NEW,
            *answered(PUTS),
            1,
            {
                "no sync before the gate": lambda calls: without(calls, frame(calls) + 1),
                "no sync behind the gate": lambda calls: without(calls, frame(calls) + 3),
                "the gate before the frame": lambda calls: moved(
                    calls, frame(calls) + 2, frame(calls)
                ),
                "the reply before the last sync": lambda calls: moved(
                    calls, kinds(calls).index("told"), frame(calls) + 3
                ),
                "the reply before all": lambda calls: moved(
                    calls, kinds(calls).index("told"), frame(calls)
                ),
                "the gate not written": lambda calls: without(calls, frame(calls) + 2),
                "the frame not written": lambda calls: without(calls, frame(calls)),
                "a frame of a byte less": lambda calls: [
                    (*it[:2], it[2][:-2]) if place == frame(calls) else it
                    for place, it in enumerate(calls)
                ],
            },
        )

    def test_checkpoints(self):
        head = lambda calls: next(
            place for place, it in enumerate(calls) if it[:2] == ("write", store.HEADS[1])
        )
        selector = lambda calls: next(
            place for place, it in enumerate(calls) if it[:2] == ("write", store.SELECTOR)
        )
        no_sync = {
            "no sync of the new body": lambda calls: without(calls, selector(calls) - 1),
            "the selector before that sync": lambda calls: moved(
                calls, selector(calls), selector(calls) - 1
            ),
        }
        self.spoilt(
            "a checkpoint",
            nearly_full(),
            *answered(DUE_ASKED, DUE_BEFORE),
            1,
            {
                **no_sync,
                "the last piece not written": lambda calls: without(calls, selector(calls) - 2),
            },
        )
        told = lambda calls: next(
            place for place, it in enumerate(calls) if it[0] == "told" and place > selector(calls)
        )
        self.spoilt(
            "a library that is replaced",
            NEW,
            *answered(worked.REPLACED),
            3,
            {
                **no_sync,
                "the selector before all": lambda calls: moved(calls, selector(calls), head(calls)),
                "no head": lambda calls: without(calls, head(calls)),
                "no body": lambda calls: without(calls, head(calls) + 1),
                "no selector": lambda calls: without(calls, selector(calls)),
                "no sync behind the selector": lambda calls: without(calls, selector(calls) + 1),
                "the reply before the last sync": lambda calls: moved(
                    calls, told(calls), selector(calls) + 1
                ),
                "the reply before the selector": lambda calls: moved(
                    calls, told(calls), selector(calls)
                ),
            },
        )

    def test_commands(self):
        old, new = State(2, SMALL_TEXT, ONE), State(2, SMALL_TEXT, "next 1\n")
        calls, _ = self.traced("format", FORMAT, TWO, SMALL, out=b"formatted\n")
        allowed = lambda told: frozenset([new] if told else [old, "not a store", new])
        writes = [place for place, it in enumerate(calls) if it[0] == "write"]
        for what, spoilt in (
            ("no sync of the first byte", without(calls, writes[0] + 1)),
            ("no sync of the bank", without(calls, writes[-1] - 1)),
            ("no sync at the end", without(calls, writes[-1] + 1)),
            ("it is told before the last sync", moved(calls, writes[-1] + 2, writes[-1] + 1)),
        ):
            self.falls(f"format: {what}", TWO, spoilt, allowed)
        calls, _ = self.traced("upgrade", UPGRADE, OLD, SMALL, out=b"upgraded\n", shown=1 << 18)
        allowed = lambda told: frozenset(
            State(it, SMALL_TEXT, ONE) for it in ((2,) if told else (1, 2))
        )
        selector = [place for place, it in enumerate(calls) if it[:2] == ("write", store.SELECTOR)][
            -1
        ]
        in_use = (
            lambda it: ("write", store.HEADS[0], it[2])
            if it[:2] == ("write", store.HEADS[1])
            else it
        )
        for what, spoilt in (
            ("no sync of the new body", without(calls, selector - 1)),
            ("the selector before that sync", moved(calls, selector, selector - 1)),
            ("over the bank in use", [in_use(it) for it in calls]),
            ("no sync at the end", without(calls, selector + 1)),
        ):
            self.falls(f"upgrade: {what}", OLD, spoilt, allowed)
