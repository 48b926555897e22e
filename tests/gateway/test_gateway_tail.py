"""`oaut-gateway tail`: requests and replies as they pass (docs/operations/gateway.md)."""
import contextlib
import json
import os
import socket
import struct
import subprocess
import sys
import tempfile
import time
import unittest

from tests.gateway.gateways import SECONDS, Gateway, built, hear, record
from tests.gateway.test_gateway_reading import replies, tagged
from tests.support import wire, worked
from tests.support.preloaded import COMPILER
from tests.support.running import ROOT, Cases
from tests.support.tries import in_time
from tests.support.wire import oaut

SOCKETS = ("listen", "listen-read", "control")
assert wire.oaut is oaut


class Tail:
    """One who tails by the control socket."""

    def __init__(self, gateway):
        self.sock = gateway.dial("control")
        self.sock.sendall(b"tail\n")
        self.file = self.sock.makefile("rb")
        self.first = self.file.readline()

    def __enter__(self):
        return self

    def __exit__(self, *_):
        self.file.close()
        self.sock.close()

    def line(self):
        return json.loads(self.file.readline())


class Words(Cases):
    """Lines that are made up, in words."""

    def test_filters(self):
        from oaut.tail import Exchanges, Filter

        get, put = tagged([worked.get(worked.COUNT), worked.put(worked.COUNT, worked.scalar(3, 7))])
        good, bad = struct.pack("<IIII", 1, 0, oaut.NO_INDEX, 0), struct.pack(
            "<IIII", 2, 0x8002_000A, 0, 0
        )
        passed = [
            (1.0, 3, "request", get),
            (1.5, 4, "request", put),
            (2.0, 4, "reply", bad),
            (2.25, 3, "request", put),
            (2.5, 3, "reply", good),
            (2.75, 3, "reply", bad),
        ]
        lines = [
            json.dumps(
                {"time": at, "client": client, "bytes": len(body), what: body.hex()}
            ).encode()
            for at, client, what, body in passed
        ]
        overflow, first, last = (
            "client 4 request 2: INVOKE object 1",
            "client 3 request 1: INVOKE object 1",
            "client 3 request 2: INVOKE object 1",
        )
        for filter, due in (
            (
                Filter(),
                [
                    (overflow, "DISP_E_OVERFLOW, argument 0 (500.000 ms)"),
                    (first, "S_OK (1500.000 ms)"),
                    (last, "(500.000 ms)"),
                ],
            ),
            (Filter(client=4), [(overflow, "")]),
            (Filter(client=3, refused=True), [(last, "")]),
            (Filter(refused=True), [(overflow, ""), (last, "")]),
            (Filter(code=0), [(first, "")]),
            (Filter(code=0x8002_000A), [(overflow, ""), (last, "")]),
            (Filter(opcode=4, slow=501), [(first, "")]),
            (Filter(opcode=5), []),
        ):
            exchanges = Exchanges(filter)
            got = [it for it in map(exchanges.read, lines) if it]
            self.tell(
                f"{filter}",
                len(got) == len(due)
                and all(a in it and it.endswith(b) for it, (a, b) in zip(got, due)),
                got,
            )

    def test_what_has_no_reply(self):
        """The request of a client that has gone is left out, a reply without a request is not, and
        a long body is cut."""
        from oaut.tail import Exchanges, Filter

        line = lambda client, what, body, size=None: json.dumps(
            {"time": 1.0, "client": client, "bytes": size or len(body), what: body.hex()}
        ).encode()
        asked = tagged(
            [
                oaut.ask_list(),
                worked.get(worked.COUNT),
                worked.put(worked.NAME, worked.text(b"a\0" * 50)),
            ]
        )
        reply = lambda tag: struct.pack("<IIII", tag, 0, oaut.NO_INDEX, 0)
        exchanges = Exchanges(Filter())
        self.tell(
            "requests", [exchanges.read(line(1, "request", it)) for it in asked[:2]] == [None] * 2
        )
        self.tell(
            "the second one's", "request 2: INVOKE" in exchanges.read(line(1, "reply", reply(2)))
        )
        self.tell(
            "nobody's", "client 1 ? -> reply 1: S_OK" in exchanges.read(line(1, "reply", reply(1)))
        )
        exchanges.read(line(1, "request", asked[2][:40], len(asked[2])))
        self.tell(
            "a cut one",
            f"request 3: INVOKE of {len(asked[2])} bytes"
            in exchanges.read(line(1, "reply", reply(3))),
        )
        self.tell("lost ones", "5 lines were lost" in exchanges.read(b'{"lost":5}'))
        self.tell("the first line", exchanges.read(b"{}") is None)
        for wrong in (
            b"x",
            b"[]",
            b'{"client":1}',
            b'{"client":1,"time":2,"request":"0"}',
            b'{"lost":"x"}',
            b'{"client":1,"time":2,"bytes":1}',
        ):
            with self.subTest(wrong), self.assertRaises(oaut.ProtocolError):
                exchanges.read(wrong)


@unittest.skipUnless(COMPILER, "cc is not there")
class Tailing(Cases):
    def begun(self, *words, sockets=SOCKETS):
        gateway = Gateway(*words, sockets=sockets).__enter__()
        self.addCleanup(gateway.__exit__, None, None, None)
        return gateway

    def ended(self, gateway):
        got, said = gateway.end()
        self.tell(
            "it ends well",
            got == 0 and "Sanitizer" not in said and "runtime error" not in said,
            (got, said),
        )

    def test_lines(self):
        """Each request and each reply, with and without sockets for which requests are noted."""
        bodies = tagged(
            [
                oaut.ask_create(worked.ITEM),
                worked.put(worked.COUNT, worked.scalar(3, 7)),
                worked.get(worked.COUNT),
                worked.get(99),
                oaut.ask_list(),
            ]
        )
        for sockets in (SOCKETS, ("listen", "control"), ("listen", "watch", "control")):
            gateway = self.begun(sockets=sockets)
            with gateway.dial() as sock:
                replies(sock, bodies[:1])
                with Tail(gateway) as tail:
                    self.tell("it begins", tail.first == b"{}\n", tail.first)
                    got = replies(sock, bodies)
                    lines = [tail.line() for _ in range(2 * len(bodies))]
                    asked = [it["request"] for it in lines if "request" in it]
                    told = [it["reply"] for it in lines if "reply" in it]
                    self.tell("requests", asked == [it.hex() for it in bodies], lines)
                    self.tell("replies", told == [it.hex() for it in got], lines)
                    self.tell(
                        "one client's",
                        len({it["client"] for it in lines}) == 1
                        and all(abs(it["time"] - time.time()) < 600 for it in lines),
                        lines[0],
                    )
                replies(sock, bodies)
                with Tail(gateway) as tail:
                    replies(sock, bodies[2:3])
                    self.tell(
                        "again",
                        tail.line()["request"] == bodies[2].hex() and "reply" in tail.line(),
                    )
            self.ended(gateway)

    def test_long_ones_and_too_many(self):
        gateway = self.begun()
        with gateway.dial() as sock, contextlib.ExitStack() as stack:
            tails = [stack.enter_context(Tail(gateway)) for _ in range(4)]
            with gateway.dial("control") as fifth:
                fifth.sendall(b"tail\n")
                self.tell("a fifth one is refused", hear(fifth, 8) == b"refused\n")
            body = tagged([worked.put(worked.NAME, worked.text(b"a\0" * 100_000))])[0]
            replies(sock, tagged([oaut.ask_create(worked.ITEM)]))
            replies(sock, [body])
            for tail in tails:
                lines = [tail.line() for _ in range(4)]
                self.tell(
                    "a long one is cut",
                    lines[2]["request"] == body[:4096].hex() and lines[2]["bytes"] == len(body),
                    lines[2]["bytes"],
                )

    def test_one_that_takes_nothing(self):
        """It loses lines, and is told how many; nobody waits for it."""
        gateway, count = self.begun(), 20_000
        body = tagged([oaut.ask_list()])[0]
        with gateway.dial() as sock, Tail(gateway) as tail:
            for _ in range(count // 500):
                replies(sock, [body] * 500)
            seen, lost = 0, 0
            while True:
                line = tail.line()
                lost += line.get("lost", 0)
                seen += "lost" not in line
                if lost:
                    break
                if seen == 2 * count:
                    break
                if seen % 500 == 0:
                    replies(sock, [body])  # once there is room again it is told
            self.tell("some are lost", lost > 0 and seen > 1_000, (seen, lost))
        self.ended(gateway)

    def test_a_quiet_one(self):
        """It stays for longer than --idle and --stalled, whether it has nothing to read or reads
        nothing; others do not get its place."""
        gateway, count = self.begun("--idle", "1", "--stalled", "1"), 6_000
        body = tagged([worked.get(worked.COUNT)])[0]

        def asked(bodies):
            """Asks as a new client. One that a busy machine keeps from asking for a second is let
            go: then another one asks."""

            def answered():
                with contextlib.suppress(OSError, struct.error), gateway.dial() as sock:
                    return replies(sock, bodies)
                return None

            self.tell("a client is answered", in_time(answered))

        with Tail(gateway) as quiet, Tail(gateway) as never:
            time.sleep(4)
            with contextlib.ExitStack() as stack:
                others = [stack.enter_context(gateway.dial("control")) for _ in range(12)]
                others[-1].sendall(b"status\n")
                self.tell("others have places", b"oaut_gateway_clients" in hear(others[-1], 4_096))
            asked([body])
            self.tell(
                "it is still there",
                [list(quiet.line())[3:] for _ in range(2)] == [["request"], ["reply"]],
            )
            quiet.sock.shutdown(socket.SHUT_RDWR)
            for _ in range(count // 500):
                asked([body] * 500)
            time.sleep(4)
            seen, lost = 0, 0
            while not lost and seen < 2 * count:
                line = never.line()
                lost += line.get("lost", 0)
                seen += "lost" not in line
                if seen % 100 == 0:
                    asked([body])  # once there is room again it is told
            self.tell(
                "one that has read nothing gets the rest", lost > 0 and seen > 1_000, (seen, lost)
            )
        self.ended(gateway)

    def test_the_current_folder(self):
        """Python looks for no modules there."""
        with tempfile.TemporaryDirectory() as room:
            with open(f"{room}/python3", "w") as file:
                file.write('#!/bin/sh\necho "$PYTHONSAFEPATH $*"\n')
            os.chmod(f"{room}/python3", 0o755)
            done = subprocess.run(
                [built()[0], "tail", "/nothing", "--refused"],
                capture_output=True,
                text=True,
                env={**os.environ, "PATH": f"{room}:{os.environ['PATH']}"},
            )
            self.tell("it is told so", done.stdout == "1 -m oaut tail /nothing --refused\n", done)

    def test_in_words(self):
        gateway = self.begun()
        environment = {
            **os.environ,
            "PYTHONPATH": f"{ROOT}/clients/python",
            "PATH": f"{os.path.dirname(sys.executable)}:{os.environ['PATH']}",
        }

        def tailed(*words):
            return subprocess.Popen(
                [gateway.binary, "tail", f"{gateway.room}/control", *words],
                stdout=subprocess.PIPE,
                stderr=subprocess.PIPE,
                text=True,
                env=environment,
            )

        bodies = tagged(
            [
                oaut.ask_create(worked.ITEM),
                worked.put(worked.COUNT, worked.scalar(3, 7)),
                worked.get(worked.COUNT),
                worked.get(99),
            ]
        )
        rows = {
            (): (
                "CREATE",
                "-> reply 1: S_OK: object ",
                "PROPERTYPUT",
                "S_OK: I4(7)",
                "DISP_E_MEMBERNOTFOUND",
            ),
            ("--refused",): ("DISP_E_MEMBERNOTFOUND",),
            ("--opcode", "create"): ("CREATE",),
            ("--code", "DISP_E_MEMBERNOTFOUND"): ("reply 4: DISP_E_MEMBERNOTFOUND",),
            ("--slow", "0"): ("CREATE",),
        }
        done = {}
        for words in rows:  # (four at most may tail at once)
            # (a tail that begins within a batch has replies of it alone)
            run = tailed(*words, "--count", "8" if words in ((), ("--slow", "0")) else "1")
            with gateway.dial() as sock:
                until = time.monotonic() + SECONDS
                while run.poll() is None and time.monotonic() < until:
                    replies(sock, bodies)
                    time.sleep(0.05)
            done[words] = run.communicate(timeout=SECONDS)
        for words, due in rows.items():
            out, err = done[words]
            self.tell(
                f"{words}",
                all(it in out for it in due) and "Traceback" not in err,
                (out[:1000], err[-600:]),
            )
            if "--refused" in words:
                self.tell("nothing else", "S_OK" not in out, out[:600])

    def test_words_that_are_refused(self):
        gateway = self.begun()
        environment = {
            **os.environ,
            "PYTHONPATH": f"{ROOT}/clients/python",
            "PATH": f"{os.path.dirname(sys.executable)}:{os.environ['PATH']}",
        }
        for words, says in ((["--opcode", "none"], "no request"), (["--code", "none"], "no code")):
            done = subprocess.run(
                [gateway.binary, "tail", "/nothing", *words],
                capture_output=True,
                text=True,
                env=environment,
            )
            self.tell(f"{words}", done.returncode == 1 and says in done.stderr, done.stderr)
        done = subprocess.run(
            [gateway.binary, "tail", "/nothing"], capture_output=True, text=True, env=environment
        )
        self.tell("no gateway", done.returncode == 1 and "/nothing" in done.stderr, done.stderr)


if __name__ == "__main__":
    unittest.main()
