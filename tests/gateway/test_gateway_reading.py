"""Read-only sockets: what comes by `--listen-read` changes nothing, and is refused where it might
(docs/operations/gateway.md)."""
import os
import random
import struct
import tempfile
import unittest

from tests.gateway.gateways import Gateway, bodies_of, hear, record, records, rest
from tests.gateway.histories import Guide
from tests.gateway.watched import passed, reads, refused
from tests.support import wire, worked
from tests.support.asked import Answering
from tests.support.codes import BAD_STUB, MEMBER_NOT_FOUND
from tests.support.model import LIBRARY
from tests.support.preloaded import COMPILER
from tests.support.running import Cases
from tests.support.sharing import Owned
from tests.support.wire import oaut

SOCKETS = ("listen", "listen-read", "listen-hex", "alone", "control", "metrics")
STUB = struct.pack("<IIII", 0, BAD_STUB, oaut.NO_INDEX, 0)
assert wire.oaut is oaut


def tagged(requests):
    return [struct.pack("<I", tag) + it for tag, it in enumerate(requests, 1)]


def replies(sock, bodies):
    """Of these bodies, sent at once."""
    sock.sendall(records(bodies))
    found = []
    for _ in bodies:
        (size,) = struct.unpack("<I", hear(sock, 4))
        found.append(hear(sock, size))
    return found


@unittest.skipUnless(COMPILER, "cc is not there")
class Reading(Cases):
    def setUp(self):
        self.gateway = Gateway(sockets=SOCKETS)
        self.addCleanup(lambda: self.gateway.__exit__(None, None, None))

    def library(self):
        """The path of the library that the model has."""
        folder = self.own = tempfile.TemporaryDirectory()
        self.addCleanup(folder.cleanup)
        with open(f"{folder.name}/lib.idl", "wb") as file:
            file.write(LIBRARY)
        return file.name

    def reads(self):
        return {
            "GETIDS": oaut.ask_ids(1, ["Count"]),
            "a get": worked.get(worked.COUNT),
            "a get with METHOD too": worked.get(worked.COUNT, flags=oaut.PROPERTYGET | oaut.METHOD),
            "a method": worked.get(worked.CLEAR, flags=oaut.METHOD),
            "a get of an object that is not there": worked.get(worked.COUNT, of=9),
            "GETELEM": worked.element(worked.GRID, 0, 5),
            "TYPEINFO": oaut.ask_type_info(0),
            "LIST": oaut.ask_list(),
            "END": struct.pack("<HH", 12, 0),
            "a get that is cut": worked.get(worked.COUNT)[:30],
        }

    def changes(self):
        one = oaut.ask_create(worked.ITEM)
        return {
            "CREATE": one,
            "RELEASE": oaut.ask_release(1),
            "a put": worked.put(worked.COUNT, worked.scalar(3, 8)),
            "a put with PROPERTYGET too": oaut.ask_invoke(
                1,
                worked.COUNT,
                oaut.PROPERTYPUT | oaut.PROPERTYGET,
                [oaut.NEW_VALUE],
                [worked.scalar(3, 8)],
            ),
            "PROPERTYPUTREF": oaut.ask_invoke(
                1, worked.COUNT, oaut.PROPERTYPUTREF, [oaut.NEW_VALUE], [worked.scalar(3, 8)]
            ),
            "a put of an object that is not there": worked.put(
                worked.COUNT, worked.scalar(3, 8), of=9
            ),
            "PUTELEM": worked.put_element(worked.GRID, [0, 5], worked.scalar(2, 9)),
            "REDIM": worked.redim(worked.GRID, 1, 0),
            "LOCK": worked.call(oaut.LOCK, worked.GRID),
            "UNLOCK": worked.call(oaut.UNLOCK, worked.GRID),
            "REPLACE LIBRARY": worked.replace(b"library"),
            "a CREATE that is cut": one[:10],
            "an opcode that there is none of": struct.pack("<HH", 99, 0),
            "the opcode 0 with a reserved number": struct.pack("<HH", 0, 0xFFFF),
        }

    def test_each_opcode(self):
        one = oaut.ask_create(worked.ITEM)
        begin = [
            one,
            worked.put(worked.COUNT, worked.scalar(3, 7)),
            worked.put(worked.GRID, worked.GRID_1_TO_6),
        ]
        reading, changing = self.reads(), self.changes()
        with self.gateway.dial() as writer, self.gateway.dial("listen-read") as reader:
            replies(writer, tagged(begin))
            asked = tagged(reading.values())
            wanted = replies(writer, asked)
            for name, want, got in zip(reading, wanted, replies(reader, asked)):
                self.tell(name, got == want, (got.hex(), want.hex()))
            asked = tagged(changing.values())
            for name, body, got in zip(changing, asked, replies(reader, asked)):
                self.tell(f"{name} is refused", got == refused(body), got.hex())
            again = replies(writer, tagged([*reading.values(), oaut.ask_list()]))
            self.tell(
                "nothing has changed",
                again[:-1] == wanted and again[-1][16:20] == b"\1\0\0\0",
                again[-1].hex(),
            )
            self.tell(
                "a lock is nobody's",
                replies(writer, tagged([worked.redim(worked.GRID, 2, 0)]))[0][4:8] == bytes(4),
            )
        count = self.gateway.counters()["oaut_gateway_read_only_refused_total"]
        self.tell("they are counted", count == len(changing), count)
        status, said = self.gateway.end()
        self.tell(
            "it ends well",
            status == 0 and "Sanitizer" not in said and "runtime error" not in said,
            (status, said),
        )

    def test_ends(self):
        """What comes last of a client, beside others that ask at the same time."""
        count = worked.get(worked.COUNT)
        with self.gateway.dial() as writer:
            replies(writer, tagged([oaut.ask_create(worked.ITEM)]))
        for name in ("listen-read", "listen"):
            one, put = (
                tagged([count])[0],
                tagged([worked.put(worked.COUNT, worked.scalar(3, 1))])[0],
            )
            own = (
                refused(put)
                if name == "listen-read"
                else struct.pack("<IIII", 1, 0, oaut.NO_INDEX, 0)
            )
            for what, tail, last in (
                ("nothing", b"", []),
                ("a length of 0", bytes(4), []),
                ("a length of 0 and more", bytes(4) + record(put), []),
                ("a part of a length", b"\7\0", [STUB]),
                ("a part of a record", record(put)[:50], [STUB]),
                ("a length that is too long", b"\xff\xff\xff\xff", [STUB]),
            ):
                got = bodies_of(self.gateway.ask(records([put, one, put]) + tail, name))
                self.tell(
                    f"{name}: {what}",
                    got[:1] + got[2:3] == [own] * 2 and got[3:] == last and got[1][4:8] == bytes(4),
                    [it.hex() for it in got],
                )

    def test_ends_of_many(self):
        dice = random.Random(int(os.environ.get("OAUT_SEED") or 0))
        tails = (b"", bytes(4), b"\7\0", b"\xff\xff\xff\xff", record(bytes(8))[:7])
        put = tagged([worked.put(worked.COUNT, worked.scalar(3, 1))])[0]
        wrong, socks = [], []
        for turn in range(300):
            name = dice.choice(("listen", "listen-read", "listen-hex"))
            sock, count, tail = self.gateway.dial(name), dice.randrange(4), dice.choice(tails)
            data = records([put] * count) + tail
            if name == "listen-hex":
                data, tail = b"".join(it.hex().encode() + b"\n" for it in [put] * count), b""
            sock.sendall(data)
            socks.append((sock, name, count, tail))
            if len(socks) == 40 or turn == 299:
                dice.shuffle(socks)
                for sock, name, count, tail in socks:
                    with sock:
                        if dice.random() < 0.3:
                            continue  # it goes, whatever comes
                        sock.shutdown(1)
                        got = rest(sock)
                    if name == "listen-hex":
                        continue
                    codes = [struct.unpack_from("<I", it, 4)[0] for it in bodies_of(got)]
                    due = [MEMBER_NOT_FOUND if name == "listen-read" else 0x8001_0108] * count + [
                        BAD_STUB
                    ] * (tail not in (b"", bytes(4)))
                    if codes != due:
                        wrong.append((name, count, tail, [hex(it) for it in codes]))
                socks = []
        self.tell("each gets its own replies", not wrong, wrong[:3])
        status, said = self.gateway.end()
        self.tell(
            "it ends well",
            status == 0 and "Sanitizer" not in said and "runtime error" not in said,
            (status, said),
        )

    def test_random_requests(self):
        """Requests by either socket in turns: each reply is the model's."""
        dice = random.Random(int(os.environ.get("OAUT_SEED") or 0))
        guide, answering, wrong, seen = Guide(dice.getrandbits(30)), Answering(), [], [0, 0]
        answering.model = Owned()
        guide.replacement = lambda: (oaut.ask_list(), lambda: None)
        self.gateway.__exit__(None)
        self.gateway = Gateway(sockets=SOCKETS, library=self.library()).__enter__()
        with self.gateway.dial() as writer, self.gateway.dial("listen-read") as reader:
            for turn in range(120):
                is_reader = dice.random() < 0.5
                bodies = [guide.body(turn << 8 | it) for it in range(dice.randrange(1, 30))]
                got = replies(reader if is_reader else writer, bodies)
                answering.model.client = is_reader
                for body, reply in zip(bodies, got):
                    want = answering.reply(passed(body) if is_reader else body)
                    if is_reader and not reads(body):
                        want = refused(body)
                    seen[is_reader and not reads(body)] += 1
                    if reply != want:
                        wrong.append((is_reader, body.hex(), reply.hex(), want.hex()))
        self.tell("each reply is the model's", not wrong, wrong[:2])
        self.tell("some are refused, and some are not", min(seen) > 200, seen)

    def test_more_than_one_batch(self):
        body = tagged([worked.put(worked.COUNT, worked.scalar(3, 1))])[0]
        with self.gateway.dial("listen-read") as reader:
            got = replies(reader, [body] * 5000)
        self.tell("each of many is refused", got == [refused(body)] * 5000)


@unittest.skipUnless(COMPILER, "cc is not there")
class Users(Cases):
    """Who may connect to which socket."""

    def is_served(self, gateway, name):
        body = struct.pack("<IHH", 1, 11, 0)
        with gateway.dial(name) as sock:
            try:
                sock.sendall(record(body))
                return len(hear(sock, 4)) == 4
            except ConnectionError:
                return False

    def test_users_of_sockets(self):
        own, other = str(os.getuid()), "4242"
        for name, words, due in (
            ("nobody is named", [], (True, True)),
            ("this one may read", ["--allow-user", other, "--allow-read-user", own], (False, True)),
            (
                "its group may read",
                ["--allow-user", other, "--allow-read-group", str(os.getgid())],
                (False, True),
            ),
            (
                "another one may read",
                ["--allow-user", own, "--allow-read-user", other],
                (True, True),
            ),
            ("neither", ["--allow-user", other, "--allow-read-user", other], (False, False)),
            ("readers alone are named", ["--allow-read-user", other], (True, False)),
        ):
            with Gateway(*words, sockets=("listen", "listen-read", "watch", "control")) as gateway:
                got = self.is_served(gateway, "listen"), self.is_served(gateway, "listen-read")
                with gateway.dial("watch") as sock:
                    try:
                        sock.sendall(b"watch\n")
                        watches = len(hear(sock, 1)) == 1
                    except ConnectionError:
                        watches = False
                self.tell(name, got == due and watches == due[1], (got, watches))

    def test_tcp(self):
        for words in (
            ["--listen-read", "127.0.0.1:0", "--allow-read-user", "0"],
            ["--watch", "127.0.0.1:0", "--allow-user", "0"],
            ["--watch", "10.0.0.1:80"],
        ):
            with Gateway(*words, starts=False) as gateway:
                gateway.start(waits=False)
                self.tell(" ".join(words), gateway.end(None)[0] == 2)


if __name__ == "__main__":
    unittest.main()
