"""The memory of a shared session: of a client that is there no more is kept than what came of one
record, whatever its length says, and twice of that at most."""
import struct

from tests.support.running import SMALL, Cases, Talk, run
from tests.support.sharing import BODY_LIMIT, STUB, oaut

CLIENTS = 1_000
MOST = 65_536  # clients that are there at once in one session
ASKS = 5_000  # the number of who asks whether all before was read
NONE = struct.pack("<IIHH", 8, 77, 99, 0)
NO_REQUEST = struct.pack("<IIIII", 16, 77, 0x8007_06F7, oaut.NO_INDEX, 0)
MIB = 1 << 20
LITTLE, MORE = 60, 16_000  # bytes that each client sends of a record
BESIDE = 3 * MIB // 2  # what a thousand clients may take beside their records


class Session(Talk):
    """A shared session in memory."""

    def __init__(self):
        super().__init__(SMALL, words=("--shared",))

    def sends(self, frames):
        self.send(oaut.frames.join(frames))

    def answers(self):
        """Whether all before was read: a request is answered."""
        self.sends([(ASKS, NONE)])
        return self.bytes(28) == oaut.frames.join([(ASKS, NO_REQUEST)])

    def resident(self):
        with open(f"/proc/{self.process.pid}/status", encoding="ascii") as file:
            return next(1_024 * int(line.split()[1]) for line in file if line.startswith("VmRSS:"))


class SharedMemory(Cases):
    def test_a_thousand_clients_within_a_long_record(self):
        everybody = range(CLIENTS)
        begun = struct.pack("<I", BODY_LIMIT) + bytes(LITTLE)
        with Session() as session:
            self.tell("it answers", session.answers())
            before = session.resident()
            held = lambda: session.resident() - before
            for turn in ("first", "second"):
                session.sends([(it, begun) for it in everybody])
                self.tell(f"{turn}: they begin", session.answers())
                if turn == "first":
                    self.tell(
                        "a length takes no memory", held() <= CLIENTS * 2 * LITTLE + BESIDE, held()
                    )
                session.sends([(it, bytes(MORE)) for it in everybody])
                self.tell(f"{turn}: they go on", session.answers())
                self.tell(
                    f"{turn}: twice of what came at most",
                    held() <= CLIENTS * 2 * (LITTLE + MORE) + BESIDE,
                    held(),
                )
                session.sends([(it, b"") for it in everybody])
                ends = oaut.frames.join(
                    [part for it in everybody for part in ((it, STUB), (it, b""))]
                )
                self.tell(f"{turn}: each is told its end", session.bytes(len(ends)) == ends)
            most = held()
            session.sends(
                [(7, struct.pack("<I", BODY_LIMIT)), *((7, bytes(MIB)) for _ in range(4))]
            )
            session.sends([(7, NONE)])
            self.tell(
                "the longest record of one",
                session.bytes(56)
                == oaut.frames.join(
                    [(7, NO_REQUEST.replace(b"M\0\0\0", bytes(4))), (7, NO_REQUEST)]
                ),
            )
            self.tell("twice of it at most", held() <= most + 2 * BODY_LIMIT + BESIDE, held())
            for it in range(20):
                session.sends(
                    [(it, struct.pack("<I", BODY_LIMIT)), *((it, bytes(MIB)) for _ in range(4))]
                )
                session.bytes(28)
            self.tell(
                "and no more for twenty of it, each of a client that stays",
                held() <= most + 2 * BODY_LIMIT + BESIDE,
                held(),
            )
            session.process.stdin.close()
            ends = oaut.frames.join([*((it, b"") for it in range(20)), (ASKS, b"")])
            self.tell("its end", session.status() == 0 and session.process.stdout.read() == ends)

    def test_sixty_five_thousand_clients_are_there_at_once(self):
        """None of them is refused: each has sent half of its record before any has sent the other
        half."""
        everybody = range(MOST)
        given = oaut.frames.join(
            [*((it, NONE[:6]) for it in everybody), *((it, NONE[6:]) for it in everybody)]
        )
        wanted = oaut.frames.join(
            [*((it, NO_REQUEST) for it in everybody), *((it, b"") for it in everybody)]
        )
        status, out, err = run(("play", "--shared", "small.idl"), given, {"small.idl": SMALL})
        self.tell(
            "each is answered, and then told its end",
            (status, out == wanted, err) == (0, True, b""),
            (status, len(out), err[:200]),
        )
