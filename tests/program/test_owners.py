"""The locks of clients: what they take of memory and of instructions, and how many an array
takes."""
import struct
import tempfile
import unittest
import uuid

from oaut import (
    DEFAULT,
    LOCK,
    NEW_VALUE,
    PROPERTYGET,
    PROPERTYPUT,
    REDIM,
    UNLOCK,
    ask_call,
    ask_create,
    ask_invoke,
)
from oaut.frames import join
from tests.support import instructions, wire
from tests.support.codes import ARRAY_IS_LOCKED, E_UNEXPECTED
from tests.support.memory import resident_of
from tests.support.running import PROGRAM, Cases, Talk, fill, run_in

LIBRARY = b"""[uuid(11223344-5566-7788-99AA-BBCCDDEEFF01), version(1.0)]
library Demo {
  [uuid(11223344-5566-7788-99AA-BBCCDDEEFF02)]
  dispinterface DSheet {
    properties:
    methods:
      [id(1), propget] SAFEARRAY(short) Row([in] BSTR Key);
      [id(1), propput] void Row([in] BSTR Key, [in] SAFEARRAY(short) Value);
  };
  [uuid(11223344-5566-7788-99AA-BBCCDDEEFF03)]
  coclass Sheet {
    [default] dispinterface DSheet;
  };
};
"""
SHEET = uuid.UUID("11223344-5566-7788-99AA-BBCCDDEEFF03")
MOST = 65_535  # locks of an array
LONG = "k" * 100_000
MIB = 1_024  # KiB
FEW, MANY, TIMES = 200, 3_000, 300


def text(some):
    return wire.scalar(wire.BSTR, some.encode("utf-16-le"))


def record(tag, request):
    """A request as a record."""
    return struct.pack("<II", 4 + len(request), tag) + request


def call(opcode, key, rest=b""):
    """A LOCK, an UNLOCK or a REDIM of the array at a key of object 1."""
    return (
        ask_call(
            opcode, 1, 1, PROPERTYGET if opcode != REDIM else PROPERTYPUT, (), (text(key),), DEFAULT
        )
        + rest
    )


def made(keys):
    """An object with an array at each key."""
    grid = wire.array(wire.I2, [(1, 0)], [5])
    return [ask_create(SHEET)] + [
        ask_invoke(1, 1, PROPERTYPUT, [NEW_VALUE], [grid, text(it)]) for it in keys
    ]


def asks(*turns):
    """The frames of requests of clients, one each; of a client alone its end."""
    return b"".join(
        [
            join([(it, b"")]) if isinstance(it, int) else join([(it[0], record(tag, it[1]))])
            for tag, it in enumerate(turns, 1)
        ]
    )


def counted(tag, count):
    """The reply of a LOCK or an UNLOCK."""
    return struct.pack("<IIIIIII", 24, tag, 0, wire.oaut.NO_INDEX, 0, count, 0)


def refused(tag, code):
    return struct.pack("<IIIII", 16, tag, code, wire.oaut.NO_INDEX, 0)


class Session(Talk):
    """A shared session in memory, in which a client takes locks."""

    def __init__(self):
        super().__init__(LIBRARY, words=("--shared",))
        self.tags = 0

    def asks(self, client, *requests):
        """The replies to the requests of a client."""
        told = []
        for at in range(0, len(requests), 1_000):
            some = requests[at : at + 1_000]
            self.send(
                b"".join(
                    join([(client, record(self.tags + tag, it))]) for tag, it in enumerate(some, 1)
                )
            )
            self.tags += len(some)
            told += [self.reply() for _ in some]
        return told

    def reply(self):
        front = self.exactly(12)
        return front[8:] + self.exactly(struct.unpack_from("<I", front, 8)[0])

    def exactly(self, count):
        """So many bytes of its output, or all where it ends before."""
        got = b""
        while len(got) < count:
            some = self.process.stdout.read(count - len(got))
            if not some:
                raise EOFError(got)
            got += some
        return got


class Memory(Cases):
    def test_locks_of_one_array(self):
        with Session() as session:
            session.asks(7, *made([LONG]))
            session.asks(7, *[call(LOCK, LONG)] * 3, *[call(UNLOCK, LONG)] * 2)
            before = resident_of(session.process.pid)
            told = session.asks(7, *[call(LOCK, LONG)] * 500)
            self.tell(
                "500 LOCKs of an array with a long key are counted",
                told[-1] == counted(session.tags, 501),
                told[-1],
            )
            more = resident_of(session.process.pid) - before
            self.tell(
                "500 LOCKs of an array with a long key take at most 2 MiB, where each has a "
                "record of 0.2",
                more <= 2 * MIB,
                more,
            )

    def test_all_locks_of_an_array(self):
        with Session() as session:
            session.asks(7, *made(["a"]))
            session.asks(7, *[call(LOCK, "a")] * 100)
            before = resident_of(session.process.pid)
            told = session.asks(7, *[call(LOCK, "a")] * (MOST - 100))
            self.tell(
                "an array takes 65,535 locks of one client",
                told[-1] == counted(session.tags, MOST),
                told[-1],
            )
            more = resident_of(session.process.pid) - before
            self.tell("65,435 LOCKs more take at most 1 MiB", more <= MIB, more)
            told = session.asks(7, call(LOCK, "a"), call(UNLOCK, "a"), call(LOCK, "a"))
            wanted = [
                refused(session.tags - 2, E_UNEXPECTED),
                counted(session.tags - 1, MOST - 1),
                counted(session.tags, MOST),
            ]
            self.tell("and no more", told == wanted, (wanted, told))
            self.tell(
                "another has none",
                session.asks(9, call(UNLOCK, "a")) == [refused(session.tags, E_UNEXPECTED)],
            )
            session.send(join([(7, b"")]))
            self.tell("its end is told", session.bytes(8) == join([(7, b"")]))
            told = session.asks(9, call(LOCK, "a"), call(UNLOCK, "a"))
            self.tell(
                "all go with it",
                told == [counted(session.tags - 1, 1), counted(session.tags, 0)],
                told,
            )


class Clients(Cases):
    def test_locks_of_many_clients(self):
        bound = struct.pack("<Ii", 9, 0)
        front = [(1, it) for it in made(["a"])]
        turns = front + [(it, call(LOCK, "a")) for it in range(1, MOST + 1)]
        turns += [
            (0, call(LOCK, "a")),
            (0, call(UNLOCK, "a")),
            (1, call(UNLOCK, "a")),
            (1, call(UNLOCK, "a")),
            2,
            (0, call(LOCK, "a")),
        ]
        turns += [*range(3, MOST + 1), (1, call(REDIM, "a", bound)), 0, (1, call(LOCK, "a"))]
        tag = len(front)
        wanted = [(it, counted(tag + it, it)) for it in range(1, MOST + 1)]
        tag += MOST
        wanted += [
            (0, refused(tag + 1, E_UNEXPECTED)),
            (0, refused(tag + 2, E_UNEXPECTED)),
            (1, counted(tag + 3, MOST - 1)),
            (1, refused(tag + 4, E_UNEXPECTED)),
        ]
        wanted += [(2, b""), (0, counted(tag + 6, MOST - 1))]
        tag += 6
        wanted += [(it, b"") for it in range(3, MOST + 1)]
        tag += MOST - 2
        wanted += [
            (1, refused(tag + 1, ARRAY_IS_LOCKED)),
            (0, b""),
            (1, counted(tag + 3, 1)),
            (1, b""),
        ]
        with tempfile.TemporaryDirectory() as room:
            fill(room, {"lib.idl": LIBRARY})
            status, out, err = run_in(room, ["play", "--shared", "lib.idl"], given=asks(*turns))
        ends = join(wanted)
        self.tell(
            "an array has 65,535 locks of as many clients, and each gives back its own",
            (status, err, out.endswith(ends)) == (0, b"", True),
            (status, err, out[-200:]),
        )


@unittest.skipUnless(instructions.VALGRIND, "valgrind is not there: no instructions are counted")
class Instructions(Cases):
    def grows_little(self, front, cases):
        """What each turn of some takes beside many locks and beside few, on the average."""
        found = {it: [] for it in cases}
        with tempfile.TemporaryDirectory() as room:
            fill(room, {"lib.idl": LIBRARY})
            of = lambda turns: instructions.of_program(
                [PROGRAM, "play", "--shared", "lib.idl"], asks(*turns), room
            )
            for locks in (FEW, MANY):
                begun = of(front(locks))
                for what, turns in cases.items():
                    found[what].append((of(front(locks) + turns) - begun) // TIMES)
        for what, (few, many) in found.items():
            self.tell(
                f"{what} beside {MANY} locks takes at most twice the instructions of one beside "
                f"{FEW}",
                0 < many <= 2 * few,
                (few, many),
            )

    def test_beside_locks_of_many_clients(self):
        ended = lambda opcode: [
            it for at in range(TIMES) for it in ((50_000 + at, call(opcode, "a")), 50_000 + at)
        ]
        self.grows_little(
            lambda locks: [(1, it) for it in made(["a"])]
            + [(9 + it, call(LOCK, "a")) for it in range(locks)],
            {
                "an UNLOCK that is refused": [(2, call(UNLOCK, "a"))] * TIMES,
                "a LOCK and an UNLOCK": [
                    (2, call(it, "a")) for it in (LOCK, UNLOCK) for _ in range(TIMES)
                ],
                "the end of a client without locks": ended(UNLOCK),
                "the end of a client with a lock": ended(LOCK),
            },
        )

    def test_beside_locks_of_one_client(self):
        self.grows_little(
            lambda locks: [(1, it) for it in made(f"{at}" for at in range(locks))]
            + [(9, call(LOCK, f"{at}")) for at in range(locks)],
            {
                "an UNLOCK that is refused": [(2, call(UNLOCK, "7"))] * TIMES,
                "a LOCK and an UNLOCK of the client with the locks": [
                    (9, call(it, "7")) for it in (LOCK, UNLOCK) for _ in range(TIMES)
                ],
            },
        )
