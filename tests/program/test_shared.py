"""Shared sessions: the records of many clients in frames, as docs/reference/shared.md has them."""
import os
import re
import select
import struct
import tempfile
import unittest

import oaut.frames
from oaut import DEFAULT, LOCK, PROPERTYGET, REDIM, UNLOCK, ask_call
from oaut.frames import ALL, FRAME_LIMIT, NOW, head, join
from tests.support import wire  # (which finds the package)
from tests.support.calls import STRACE, text_held
from tests.support.codes import (
    ARRAY_IS_LOCKED,
    BAD_STUB,
    DISCONNECTED,
    E_FAIL,
    E_UNEXPECTED,
    WRITE_FAULT,
)
from tests.support.running import (
    ARRAYS,
    CREATE,
    FULL,
    ROOT,
    SMALL,
    Cases,
    Talk,
    fault,
    fill,
    run,
    run_in,
    told,
    within,
)
from tests.support.store import BANK, length_of
from tests.support.stores import FACE, NEW, TWO, get, got, put, table

assert wire.oaut is oaut
SERVE = ["serve", "--shared", "it.store", "lib.idl"]
GROUPS = (1, 2, 3, 1_024)
BODY_LIMIT = 4_194_304
GRID = 3  # the array of shorts of examples/arrays.idl
FAR = 65_543  # a client whose number has the low half of that of client 7
STUB = wire.reply(0, BAD_STUB)
CUT, UNKNOWN = fault("frame cut"), fault("unknown frame")


def record(line):
    """A request or a reply as a record."""
    body = bytes.fromhex(line.decode())
    return struct.pack("<I", len(body)) + body


def asks(*turns):
    """The frames of some clients' requests, one each; of a client alone its end."""
    return b"".join(
        [
            join([(it, b"")]) if isinstance(it, int) else join([(it[0], record(it[1]))])
            for it in turns
        ]
    )


# the frames of their replies, and of their last ones
tells = asks


def page_of(what):
    """The bytes of the frames of docs/reference/shared.md that go in or out."""
    with open(f"{ROOT}/docs/reference/shared.md", encoding="utf-8") as page:
        rows = page.read().partition(f"\n{what}:\n\n")[2].partition("\n\n")[0]
    return bytes.fromhex("".join(re.findall(r"^    ([0-9a-f ]+)$", rows, re.MULTILINE)))


def formatted(room):
    """Makes the store of the library in a folder."""
    with open(f"{room}/it.store", "wb") as file:
        file.truncate(length_of(BANK))
    run_in(room, ["format", "it.store", "lib.idl"])


def create(tag):
    return wire.line(tag, bytes.fromhex(CREATE.decode())[4:])


def created(tag, number):
    return wire.reply(tag, fields=struct.pack("<II", number, 0))


def puts(tag, number, value):
    return wire.put(tag, number, 1, wire.scalar(wire.I4, value))


def gets(tag, number):
    return wire.get(tag, number, 1)


def grid(tag, cells):
    """A put of the array of object 1."""
    return wire.put(tag, 1, GRID, wire.array(wire.I2, [(len(cells), 0)], cells))


def array_call(tag, opcode, interface=DEFAULT, rest=b""):
    return wire.line(
        tag,
        ask_call(opcode, 1, GRID, PROPERTYGET if opcode != REDIM else 0, (), (), interface) + rest,
    )


def lock(tag, interface=DEFAULT):
    return array_call(tag, LOCK, interface)


def unlock(tag, interface=DEFAULT):
    return array_call(tag, UNLOCK, interface)


def counts(tag, count):
    """The reply of a LOCK or an UNLOCK."""
    return wire.reply(tag, fields=struct.pack("<II", count, 0))


class SharedSessions(Cases):
    def shared(self, name, given, status, out, err=b"", library=SMALL, **how):
        """A session in memory, and the same over new stores, in groups of several sizes: the frames
        are the same bytes."""
        self.case(
            f"shared: {name}",
            ["play", "--shared", "lib.idl"],
            status,
            out,
            err,
            given=given,
            files={"lib.idl": library},
            **how,
        )
        for group in GROUPS:
            with tempfile.TemporaryDirectory() as room:
                fill(room, {"lib.idl": library})
                formatted(room)
                answer = run_in(room, [*SERVE, "--group", str(group)], given=given, **how)
                self.tell(
                    f"shared: {name}: over a store, groups of {group}",
                    answer == (status, out, err),
                    told((status, out, err), answer),
                )


class Frames(SharedSessions):
    def test_the_page(self):
        self.shared(
            "the session of docs/reference/shared.md",
            page_of("Frames in"),
            0,
            page_of("Frames out"),
        )

    def test_no_frames(self):
        self.shared("no frames", b"", 0, b"")
        self.shared("now, and nothing else", NOW * 3, 0, b"")

    def test_clients_in_turn(self):
        ones = [
            [create(1), puts(2, 1, 5), gets(3, 2)],
            [create(1), puts(2, 2, 6), gets(3, 3)],
            [create(1), puts(2, 3, 7), gets(3, 1)],
        ]
        replies = [[created(1, it + 1), wire.reply(2), got(3, (6, 7, 5)[it])] for it in range(3)]
        numbers = 9, 0, ALL - 1  # (the numbers say nothing of the order)
        asked = [(numbers[it], ones[it][turn]) for turn in range(3) for it in range(3)]
        answered = [(numbers[it], replies[it][turn]) for turn in range(3) for it in range(3)]
        ends = 0, 9, ALL - 1  # (but of those who end with the input the lowest goes first)
        self.shared("three clients in turn", asks(*asked), 0, tells(*answered, *ends))
        self.shared(
            "and now behind each request",
            b"".join([asks(it) + NOW for it in asked]),
            0,
            tells(*answered, *ends),
        )
        self.shared("two, each with one frame of all its records", *self.whole(numbers, ones[:2]))
        streams = [b"".join([record(it) for it in one]) for one in ones]
        # the records of a turn have one length, so that their last bytes come in the order of the
        # clients
        for size in (1, 3, 17):
            cut = [
                join([(numbers[it], streams[it][at : at + size])])
                for at in range(0, len(streams[0]), size)
                for it in range(3)
            ]
            if size == 1:
                self.shared(
                    "three clients, a byte a frame in turn",
                    b"".join(cut),
                    0,
                    tells(*answered, *ends),
                )
            # of longer pieces those of one client that bring two ends of records bring both at once
            order = self.order(streams, size)
            self.shared(
                f"three clients, {size} bytes a frame in turn",
                b"".join(cut),
                0,
                tells(*[answered[3 * turn + it] for turn, it in order], *ends),
            )

    def whole(self, numbers, ones):
        first = [created(1, 1), wire.reply(2, DISCONNECTED), wire.reply(3, DISCONNECTED)]
        asked = [puts(2, 2, 5), gets(3, 2)]
        streams = [
            record(create(1)) + b"".join([record(it) for it in asked]),
            b"".join([record(it) for it in ones[1]]),
        ]
        second = [created(1, 2), wire.reply(2), wire.reply(3, DISCONNECTED)]
        given = join([(numbers[0], streams[0]), (numbers[1], streams[1])])
        return (
            given,
            0,
            tells(
                *[(numbers[0], it) for it in first],
                *[(numbers[1], it) for it in second],
                numbers[1],
                numbers[0],
            ),
        )

    @staticmethod
    def order(streams, size):
        """Of each body its turn and its client, in the order in which the last bytes come where
        each client's stream comes in such pieces in turn."""
        ends = []
        for it, stream in enumerate(streams):
            at = turn = 0
            while at < len(stream):
                at += 4 + struct.unpack_from("<I", stream, at)[0]
                ends.append(((at - 1) // size, it, turn))
                turn += 1
        return [(turn, it) for _, it, turn in sorted(ends)]

    def test_where_a_frame_is_cut_says_nothing(self):
        stream = b"".join([record(it) for it in (create(1), puts(2, 1, 5), gets(3, 1))])
        answered = tells((7, created(1, 1)), (7, wire.reply(2)), (7, got(3, 5)), 7)
        for at in range(1, len(stream), 13):
            self.shared(
                f"one client, cut at {at}", join([(7, stream[:at]), (7, stream[at:])]), 0, answered
            )
        self.shared(
            "one client, cut by now",
            join([(7, stream[:30])]) + NOW + join([(7, stream[30:])]),
            0,
            answered,
        )

    def test_ends_of_clients(self):
        whole = (7, create(1)), (7, created(1, 1))
        for name, more, told_ in (
            ("a length of 0", bytes(4), ()),
            ("a length of 0, and a record behind it", bytes(4) + record(create(2)), ()),
            ("a length of 0 in a record's place, byte by byte", bytes(4), ()),
            ("a record that is cut", record(create(2))[:-1], ((7, STUB),)),
            ("a length that is cut", b"\1", ((7, STUB),)),
            ("a length alone", struct.pack("<I", 8), ((7, STUB),)),
            (
                "a record that is too long, and one behind it",
                struct.pack("<I", BODY_LIMIT + 1) + record(create(2)),
                ((7, STUB),),
            ),
            ("the longest length", b"\xff" * 4, ((7, STUB),)),
        ):
            pieces = [(7, bytes([it])) for it in more] if "byte by byte" in name else [(7, more)]
            given = asks(whole[0]) + join(pieces)
            # what ends within a record is told at its client's end: behind what others have asked
            # by then; what a length ends is told at once
            at_once = not name.startswith(
                ("a record that is cut", "a length that", "a length alone")
            )
            ended = tells(*told_, 7)
            for what, last in (("its frame", asks(7)), ("the end of the input", b"")):
                others = asks((8, create(1)))
                out = tells(whole[1])
                out += (
                    ended + tells((8, created(1, 2)), 8)
                    if at_once or not last
                    else tells((8, created(1, 2))) + ended + tells(8)
                )
                if not last and not at_once:
                    out = tells(whole[1], (8, created(1, 2))) + ended + tells(8)
                self.shared(f"{name}, and {what}", given + others + last, 0, out)

    def test_numbers(self):
        self.shared("the end of a client that was never there", asks(5), 0, tells(5))
        self.shared(
            "it twice, and again with requests",
            asks(5, 5, (5, create(1))),
            0,
            tells(5, 5, (5, created(1, 1)), 5),
        )
        # a record that is not whole is the earlier client's, and so is what it sends behind a
        # length of 0
        self.shared(
            "a number used again behind a record that is cut",
            asks((5, create(1)))
            + join([(5, record(puts(2, 1, 5))[:20])])
            + asks(5, (5, gets(1, 1)), 5),
            0,
            tells((5, created(1, 1)), (5, STUB), 5, (5, got(1, 0)), 5),
        )
        self.shared(
            "a number used again behind a length of 0",
            join([(5, bytes(4) + record(create(1)))]) + asks(5, (5, create(2))),
            0,
            tells(5, (5, created(2, 1)), 5),
        )

    def test_a_record_in_parts(self):
        """It is answered once it is all there, also with a frame of another between its parts."""
        first, told_ = asks((7, create(1))), tells((7, created(1, 1)))
        body, next_ = record(puts(2, 1, 5)), record(gets(3, 1))
        for cut in (1, 3, 4, 5, len(body) - 1):
            given = (
                first
                + join([(7, body[:cut])])
                + asks((8, gets(4, 1)))
                + join([(7, body[cut:])])
                + asks((7, gets(3, 1)), (8, gets(5, 1)))
            )
            out = told_ + tells(
                (8, got(4, 0)), (7, wire.reply(2)), (7, got(3, 5)), (8, got(5, 5)), 7, 8
            )
            self.shared(
                f"a frame of another between {cut} bytes of a record and the rest of it",
                given,
                0,
                out,
            )

    def test_a_record_that_stands_whole_in_its_frame(self):
        """It is answered from where it stands, but not behind a part of another, or behind its
        client's end."""
        first, told_ = asks((7, create(1))), tells((7, created(1, 1)))
        body, next_ = record(puts(2, 1, 5)), record(gets(3, 1))
        given = (
            first
            + join([(7, body + next_), (7, body + next_[:9]), (7, next_[9:])])
            + asks((7, gets(4, 1)))
        )
        answers = (7, wire.reply(2)), (7, got(3, 5))
        self.shared(
            "two records in a frame, and a part of the second",
            given,
            0,
            told_ + tells(*answers, *answers, (7, got(4, 5)), 7),
        )
        given = first + join([(7, bytes(4)), (7, body), (8, body)]) + asks(7, (7, gets(3, 1)))
        self.shared(
            "behind a length of 0 of its own",
            given,
            0,
            told_ + tells(7, (8, wire.reply(2)), (7, got(3, 5)), 7, 8),
        )
        given = first + join([(7, bytes(3)), (7, b"\0"), (7, body), (8, body)])
        self.shared(
            "behind a length of 0 of its own in two frames",
            given,
            0,
            told_ + tells(7, (8, wire.reply(2)), 8),
        )
        given = first + asks(7) + asks((7, puts(2, 1, 5)), (7, gets(3, 1)), 7, 7, (7, gets(4, 1)))
        self.shared(
            "of a number that comes again",
            given,
            0,
            told_ + tells(7, *answers, 7, 7, (7, got(4, 5)), 7),
        )
        stub = wire.reply(1, BAD_STUB)
        for size in range(8_180, 8_197):  # (8,192 bytes are read at a time)
            long = wire.line(1, bytes(size - 16))
            given = asks((7, create(1)), (7, long), (8, create(2)), (8, long), (7, gets(3, 1)))
            out = told_ + tells((7, stub), (8, created(2, 2)), (8, stub), (7, got(3, 0)), 7, 8)
            self.shared(f"in a frame of {size} bytes", given, 0, out)

    def test_heads_that_say_nothing(self):
        ask, reply = asks((7, create(1)), (9, gets(2, 1))), tells(
            (7, created(1, 1)), (9, got(2, 0))
        )
        for what, nothing in (
            ("bytes for all clients", head(ALL, 1)),
            ("the most bytes for all clients", head(ALL, FRAME_LIMIT)),
            ("a frame that is too long", head(7, FRAME_LIMIT + 1)),
            ("a frame of the longest length", head(7, 0xFFFF_FFFF)),
            ("a frame of the longest length for all", head(ALL, 0xFFFF_FFFF)),
        ):
            self.shared(
                f"{what}: what was whole before is answered, and nothing behind it",
                ask + nothing + asks((7, create(3)), 8),
                4,
                reply + tells(7, 9),
                UNKNOWN,
            )
            self.shared(f"{what}, before all", nothing + ask, 4, b"", UNKNOWN)
            cut = join([(9, record(create(3))[:-1])])
            self.shared(
                f"{what}, within a record",
                ask + cut + nothing + create(3)[-1:],
                4,
                reply + tells(7, (9, STUB), 9),
                UNKNOWN,
            )
        stream = record(wire.line(1, bytes(8 + FRAME_LIMIT)))  # (a body of no opcode)
        given = b"".join(
            [head(7, FRAME_LIMIT) + stream[:FRAME_LIMIT], join([(7, stream[FRAME_LIMIT:])])]
        )
        self.shared("a frame of the most bytes", given, 0, tells((7, wire.reply(1, BAD_STUB)), 7))

    def test_nothing_is_waited_for_behind_such_a_head(self):
        with Talk(SMALL, ("--shared",)) as session:
            session.send(asks((7, create(1))) + head(ALL, 1))
            out = tells((7, created(1, 1)), 7)
            some = session.bytes(len(out) + 1)
            self.tell(
                "shared: a head that says nothing ends the session while its input is open",
                (some, session.status()) == (out, 4),
                some,
            )

    def test_an_input_that_ends_within_a_frame(self):
        ask, reply = asks((7, create(1))), tells((7, created(1, 1)))
        for length in range(1, 8):
            self.shared(
                f"within a head, {length} bytes",
                ask + asks((9, create(2)))[:length],
                4,
                reply + tells(7),
                CUT,
            )
        frame = head(9, 60) + record(gets(2, 1))[:59]
        self.shared("behind a head", ask + frame[:8], 4, reply + tells(7), CUT)
        self.shared("within a record", ask + frame, 4, reply + tells(7, (9, STUB), 9), CUT)
        body = record(gets(2, 1))
        self.shared(
            "behind a record that is whole",
            ask + head(9, len(body) + 1) + body,
            4,
            reply + tells((9, got(2, 0)), 7, 9),
            CUT,
        )
        self.shared(
            "within another client's, who ends too",
            ask + head(9, 2) + b"\1",
            4,
            reply + tells(7, (9, STUB), 9),
            CUT,
        )


class Held(SharedSessions):
    """When replies come."""

    def talk(self, room, *words, library=SMALL, **how):
        return Talk(library, ("--shared", *words), room=room, command=("serve", "it.store"), **how)

    def silent(self, session):
        return not select.select([session.process.stdout], [], [], 0.4)[0]

    def comes(self, session, wanted):
        some = session.bytes(len(wanted))
        return some == wanted, some

    def test_now(self):
        with tempfile.TemporaryDirectory() as room:
            fill(room, {"it.store": TWO})
            with self.talk(room, "--group", "1024") as session:
                session.send(asks((7, put(1, 8)), (9, get(1))))
                self.tell(
                    "shared: an open group is held",
                    self.silent(session) and text_held(room) == table(7),
                )
                session.send(NOW)
                well, some = self.comes(session, tells((7, wire.reply(1)), (9, got(1, 8))))
                self.tell(
                    "shared: now commits it and hands it out",
                    well and text_held(room) == table(8),
                    some,
                )
                session.send(NOW + NOW)
                self.tell(
                    "shared: now without an open group hands nothing out", self.silent(session)
                )
                session.send(asks(9, (7, get(2))))
                self.tell(
                    "shared: the end of a client takes a place in the open group",
                    self.silent(session),
                )
                session.send(NOW[:5])
                self.tell("shared: a part of now is none", self.silent(session))
                session.send(NOW[5:])
                well, some = self.comes(session, tells(9, (7, got(2, 8))))
                self.tell("shared: and is told at now", well, some)
                session.process.stdin.close()
                well, some = self.comes(session, tells(7))
                self.tell(
                    "shared: a client that is there has its end with the input",
                    well and session.status() == 0,
                    some,
                )

    def test_groups(self):
        with tempfile.TemporaryDirectory() as room:
            fill(room, {"it.store": TWO})
            with self.talk(room, "--group", "3") as session:
                session.send(asks((7, put(1, 8)), 9))
                self.tell(
                    "shared: two of a group of three are held",
                    self.silent(session) and text_held(room) == table(7),
                )
                session.send(asks((5, get(1))))
                well, some = self.comes(session, tells((7, wire.reply(1)), 9, (5, got(1, 8))))
                self.tell(
                    "shared: the third ends it, whoever asks",
                    well and text_held(room) == table(8),
                    some,
                )
        with tempfile.TemporaryDirectory() as room:
            fill(room, {"it.store": TWO})
            with self.talk(room) as session:
                for number, value in ((7, 8), (9, 9), (7, 10)):
                    session.send(asks((number, put(1, value))))
                    well, some = self.comes(session, tells((number, wire.reply(1))))
                    self.tell(
                        f"shared: with groups of one each reply comes at once, {value}",
                        well and text_held(room) == table(value),
                        some,
                    )
                session.send(asks(9))
                well, some = self.comes(session, tells(9))
                self.tell("shared: and each end", well, some)

    def test_replies_leave_before_the_program_waits(self):
        with Talk(SMALL, ("--shared",)) as session:
            whole = asks((7, create(1)), (9, create(1)))
            session.send(whole[:-1])
            well, some = self.comes(session, tells((7, created(1, 1))))
            self.tell(
                "shared: in memory a reply comes before the rest of another's record", well, some
            )
            session.send(whole[-1:])
            well, some = self.comes(session, tells((9, created(1, 2))))
            self.tell("shared: and that one's behind its last byte", well, some)

    def test_a_library_by_one_is_seen_by_all(self):
        more = SMALL.replace(b"[id(1)] long Count;", b"[id(1)] long Count; [id(2)] long More;")
        with tempfile.TemporaryDirectory() as room:
            fill(room, {"it.store": TWO})
            with self.talk(room, "--group", "1024") as session:
                session.send(
                    asks(
                        (7, put(1, 8)),
                        (9, wire.get(2, 1, 2)),
                        (7, wire.replacement(3, more)),
                        (9, wire.get(4, 1, 2)),
                    )
                )
                # the open group leaves before the library changes; then that reply, a group of its
                # own
                well, some = self.comes(
                    session,
                    tells((7, wire.reply(1)), (9, wire.reply(2, 0x8002_0003)), (7, wire.reply(3))),
                )
                self.tell(
                    "shared: a library by one ends the group of all, and is one of its own",
                    well,
                    some,
                )
                self.tell("shared: what comes behind it is held", self.silent(session))
                session.send(NOW)
                well, some = self.comes(session, tells((9, got(4, 0))))
                self.tell("shared: another client has the new library", well, some)
                session.send(asks((9, wire.replacement(5, SMALL)), (7, wire.get(6, 1, 2))) + NOW)
                lost = wire.lost(5, FACE, 2)
                well, some = self.comes(session, tells((9, lost), (7, got(6, 0))))
                self.tell("shared: and one that loses something is refused for all", well, some)

    def test_a_killed_server(self):
        for group in (1, 4):
            with tempfile.TemporaryDirectory() as room:
                fill(room, {"it.store": TWO})
                with self.talk(room, "--group", str(group)) as session:
                    session.send(
                        b"".join(
                            [
                                asks((number, put(1, value)))
                                for value, number in enumerate((7, 9, 7, 8), 8)
                            ]
                        )
                    )
                    well, some = self.comes(
                        session,
                        tells(
                            (7, wire.reply(1)),
                            (9, wire.reply(1)),
                            (7, wire.reply(1)),
                            (8, wire.reply(1)),
                        ),
                    )
                    session.send(asks((9, put(1, 99))) if group > 1 else b"")
                    held = self.silent(session)
                    session.process.kill()
                    session.process.wait()
                self.tell(
                    f"shared: what was acknowledged stands behind a kill, groups of {group}",
                    well and held and text_held(room) == table(11),
                    some,
                )
                answer = run_in(room, SERVE, given=asks((9, get(1))))
                self.tell(
                    f"shared: and is served again, groups of {group}",
                    answer == (0, tells((9, got(1, 11)), 9), b""),
                    answer,
                )


class Locks(SharedSessions):
    def played(self, name, turns, ends=()):
        """Turns of clients, each a request and its reply, or an end; behind them those that end
        with the input."""
        given = asks(*[it if isinstance(it, int) else it[:2] for it in turns])
        out = tells(*[it if isinstance(it, int) else (it[0], it[2]) for it in turns], *ends)
        self.shared(name, given, 0, out, library=ARRAYS)

    BEGIN = [(7, create(1), created(1, 1)), (7, grid(2, [1, 2, 3]), wire.reply(2))]

    def test_whose_lock_is_whose(self):
        self.played(
            "a lock is taken back by its owner alone",
            [
                *self.BEGIN,
                (7, lock(3), counts(3, 1)),
                (FAR, unlock(1), wire.reply(1, E_UNEXPECTED)),
                (FAR, lock(2), counts(2, 2)),
                (FAR, unlock(3), counts(3, 1)),
                (FAR, unlock(4), wire.reply(4, E_UNEXPECTED)),
                (7, unlock(4), counts(4, 0)),
                (7, unlock(5), wire.reply(5, E_UNEXPECTED)),
            ],
            (7, FAR),
        )
        self.played(
            "an array that another has locked is locked",
            [
                *self.BEGIN,
                (9, lock(1), counts(1, 1)),
                (7, grid(3, [4]), wire.reply(3, ARRAY_IS_LOCKED)),
                (9, grid(2, [4]), wire.reply(2, ARRAY_IS_LOCKED)),
                (
                    7,
                    array_call(4, REDIM, rest=struct.pack("<Ii", 9, 0)),
                    wire.reply(4, ARRAY_IS_LOCKED),
                ),
                (5, wire.release(1, 1), wire.reply(1, ARRAY_IS_LOCKED)),
                (9, unlock(3), counts(3, 0)),
                (5, wire.release(2, 1), wire.reply(2)),
            ],
            (5, 7, 9),
        )
        self.played(
            "two bodies that name one array name one lock",
            [
                *self.BEGIN,
                (7, lock(3, FACE), counts(3, 1)),
                (9, unlock(1), wire.reply(1, E_UNEXPECTED)),
                (7, unlock(4), counts(4, 0)),
                (7, lock(5), counts(5, 1)),
                (7, unlock(6, FACE), counts(6, 0)),
            ],
            (7, 9),
        )
        self.played(
            "a lock of what is not there is nobody's",
            [
                (7, create(1), created(1, 1)),
                (7, lock(2), wire.reply(2, E_UNEXPECTED)),
                (7, unlock(3), wire.reply(3, E_UNEXPECTED)),
            ],
            (7,),
        )

    def test_locks_end_with_their_client(self):
        self.played(
            "all locks of a client go with it, and those of others stay",
            [
                *self.BEGIN,
                (7, lock(3), counts(3, 1)),
                (7, lock(4), counts(4, 2)),
                (FAR, lock(1), counts(1, 3)),
                7,
                (8, grid(3, [4]), wire.reply(3, ARRAY_IS_LOCKED)),
                (8, unlock(4), wire.reply(4, E_UNEXPECTED)),
                (7, unlock(1), wire.reply(1, E_UNEXPECTED)),
                (FAR, lock(2), counts(2, 2)),
                FAR,
                (8, grid(5, [4]), wire.reply(5)),
            ],
            (7, 8),
        )
        given = asks((7, create(1)), (7, grid(2, [1])), (9, lock(1)))
        front = tells((7, created(1, 1)), (7, wire.reply(2)), (9, counts(1, 1)))
        for name, end, stub in (
            ("a length of 0", bytes(4), ()),
            ("a record that is too long", b"\xff" * 4, ((9, STUB),)),
        ):
            # (the client is there until its frame comes; its locks are free at once)
            self.shared(
                f"the locks of a client that ends by {name}",
                given + join([(9, end)]) + asks((7, lock(3)), 9),
                0,
                front + tells(*stub, 9, (7, counts(3, 1)), 7),
                library=ARRAYS,
            )
        self.shared(
            "the locks of a client that ends within a record",
            given + join([(9, record(lock(2))[:9])]) + asks(9, (7, lock(3))),
            0,
            front + tells((9, STUB), 9, (7, counts(3, 1)), 7),
            library=ARRAYS,
        )

    def test_a_mutex(self):
        turns, own = list(self.BEGIN), []
        for tag in range(3, 9):  # who hears 1 is in; who hears more takes its own back
            for number in (7, 9, 8):
                holds = own == [number]
                if holds:
                    turns.append((number, unlock(tag), counts(tag, 0)))
                    own = []
                elif own:
                    turns += [
                        (number, lock(tag), counts(tag, 2)),
                        (number, unlock(tag), counts(tag, 1)),
                    ]
                else:
                    turns.append((number, lock(tag), counts(tag, 1)))
                    own = [number]
        self.played("three clients at a mutex", turns, (7, 8, 9))

    def test_locks_are_no_matter_of_a_store(self):
        with tempfile.TemporaryDirectory() as room:
            fill(room, {"lib.idl": ARRAYS})
            formatted(room)
            first = run_in(room, SERVE, given=asks((7, create(1)), (7, grid(2, [1])), (7, lock(3))))
            second = run_in(room, SERVE, given=asks((9, lock(1)), (9, unlock(2)), (9, unlock(3))))
            wanted = tells(
                (9, counts(1, 1)), (9, counts(2, 0)), (9, wire.reply(3, E_UNEXPECTED)), 9
            )
            self.tell(
                "shared: a session begins without locks",
                (first[0], second) == (0, (0, wanted, b"")),
                (first, second),
            )


class Failing(SharedSessions):
    def test_streams_that_fail(self):
        with tempfile.TemporaryDirectory() as folder:
            number = os.open(folder, os.O_RDONLY)
            self.shared(
                "standard input that cannot be read",
                None,
                1,
                b"",
                fault("read fault"),
                stdin=number,
            )
            os.close(number)
        self.shared(
            "standard input is closed", b"", 1, b"", fault("read fault"), before=lambda: os.close(0)
        )
        asked = asks((7, create(1)))
        with open("/dev/full", "wb") as full:
            self.shared(
                "standard output that takes nothing",
                asked,
                1,
                None,
                fault("write fault"),
                stdout=full,
            )
            self.shared(
                "standard output that takes nothing, at now",
                asked + NOW,
                1,
                None,
                fault("write fault"),
                stdout=full,
            )
        away, gone = os.pipe()
        os.close(away)
        self.shared(
            "a pipe whose reader is gone", asked, 1, None, fault("write fault"), stdout=gone
        )
        os.close(gone)
        with tempfile.TemporaryDirectory() as room, open("/dev/full", "wb") as full:
            # (in groups of two the first one's replies fail at the wait behind them, with a request
            # more in an open group)
            for group in ("1024", "2"):
                fill(room, {"lib.idl": SMALL, "it.store": TWO})
                answer = run_in(
                    room,
                    [*SERVE, "--group", group],
                    given=asks((7, put(1, 8)), (9, put(1, 9)), (7, put(2, 10))),
                    stdout=full,
                )
                well = (answer[0], text_held(room)) == (1, table(10))
                self.tell(
                    f"shared, groups of {group}: what is held is committed though nobody hears of "
                    "it",
                    well,
                    answer,
                )

    def test_memory_is_refused(self):
        # less and less memory, until the part of a long record is refused, and then the buffers:
        # what was whole before is answered, and no client is told an end
        clients = range(9, 13)
        long = b"".join(
            [join([(it, struct.pack("<I", BODY_LIMIT) + bytes(3_000_000))]) for it in clients]
        )
        front, refused = tells((7, created(1, 1))), fault("out of memory")
        whole = (0, front + tells(7, *[turn for it in clients for turn in ((it, STUB), it)]), b"")
        part, none = (5, front, refused), (5, b"", refused)
        seen = []
        for kib in range(40_000, 0, -1_000):
            seen.append(
                run(
                    ["play", "--shared", "lib.idl"],
                    asks((7, create(1))) + long,
                    files={"lib.idl": SMALL},
                    before=within(1_024 * kib),
                )
            )
            if seen[-1] == none or seen[-1] not in (whole, part):
                break
        order = [it for place, it in enumerate(seen) if it not in seen[:place]]
        self.tell(
            "shared: memory for a part of a record is refused", order == [whole, part, none], order
        )

    @unittest.skipIf(STRACE is None, "strace is not there: no call is made to fail")
    def test_a_device_that_fails(self):
        with tempfile.TemporaryDirectory() as room:
            fill(room, {"lib.idl": ARRAYS})
            formatted(room)
            run_in(room, SERVE, given=asks((7, create(1)), (7, grid(2, [1]))))
            under = (
                STRACE,
                "-f",
                "-o",
                "/dev/null",
                "-e",
                "trace=fdatasync",
                "-e",
                "inject=fdatasync:error=EIO:when=2+",
            )
            given = (
                asks((7, lock(1)), (9, grid(2, [1])))
                + NOW
                + asks((7, wire.put(3, 1, 16, wire.scalar(wire.I4, 3))), (9, lock(4)))
                + NOW
            )
            given += asks((9, unlock(5)), 7, (8, lock(6)))
            out = tells(
                (7, counts(1, 1)),
                (9, wire.reply(2, ARRAY_IS_LOCKED)),
                (7, wire.reply(3, WRITE_FAULT)),
                (9, wire.reply(4, WRITE_FAULT)),
            )
            out += tells((9, wire.reply(5, E_FAIL)), 7, (8, wire.reply(6, E_FAIL)), 8, 9)
            answer = run_in(room, [*SERVE, "--group", "1024"], given=given, under=under)
            self.tell(
                "shared: a device that fails is told to each client of its group, and to all "
                "behind it",
                answer == (0, out, b""),
                told((0, out, b""), answer),
            )

    def test_faults_before_a_session(self):
        files = {"lib.idl": SMALL, "it.store": TWO}
        self.case(
            "shared: a library that is not there",
            ["play", "--shared", "no.idl"],
            1,
            b"",
            b"oaut: cannot read no.idl\nno.idl: No such file or directory\n",
            files=files,
        )
        for words in (["play", "--shared", "-"], ["serve", "--shared", "it.store", "-"]):
            self.case(
                f"shared: {words}",
                words,
                2,
                b"",
                fault("standard input holds the requests, so LIB cannot be -"),
                files=files,
            )
        self.case(
            "shared: the store of another library",
            ["serve", "--shared", "it.store", "lib.idl"],
            3,
            b"",
            fault("library differs"),
            files={"lib.idl": FULL, "it.store": NEW},
        )
        self.case(
            "shared: a file that is no store",
            ["serve", "--shared", "it.store", "lib.idl"],
            3,
            b"",
            fault("not a store"),
            files={"lib.idl": SMALL, "it.store": b"it"},
        )
        for words in (
            ["play", "lib.idl", "--shared", "--hex"],
            ["serve", "--hex", "--shared", "it.store", "lib.idl"],
        ):
            status, out, err = run(words, files=files)
            said = (
                err.startswith(b"error: the argument '") and b"--hex" in err and b"--shared" in err
            )
            self.tell(
                f"shared: {words} is refused",
                (status, out, said) == (2, b"", True),
                (status, out, err),
            )
