"""Those who watch: each acknowledged change once, in the server's order
(docs/operations/gateway.md). Histories with kills are in histories.py."""
import contextlib
import json
import os
import random
import re
import resource
import signal
import socket
import struct
import subprocess
import sys
import tempfile
import threading
import time
import unittest

from tests.gateway.gateways import SECONDS, Gateway, arrived, hear, left_out, record, rest
from tests.gateway.histories import Guide
from tests.gateway.test_gateway_reading import replies, tagged
from tests.gateway.watched import Told
from tests.support import wire, worked
from tests.support.codes import BAD_STUB
from tests.support.preloaded import COMPILER
from tests.support.running import Cases
from tests.support.tries import in_time, least
from tests.support.wire import oaut

SOCKETS = ("listen", "watch", "control")
assert wire.oaut is oaut
# A server whose batches take 12 ms each: behind its replies the next batch waits for 2 ms.
UNHURRIED = r"""#!/usr/bin/env python3
import os, struct, sys, time
if sys.argv[1] == "dump":
    sys.exit(0)
data, due = b"", []
frame = lambda client, some: struct.pack("<II", client, len(some)) + some
while some := os.read(0, 65536):
    data += some
    while len(data) >= 8 and len(data) >= 8 + (size := struct.unpack_from("<I", data, 4)[0]):
        client, given = struct.unpack_from("<I", data)[0], data[8 : 8 + size]
        data = data[8 + size :]
        if size:
            (tag,) = struct.unpack_from("<I", given, 4)
            due.append(frame(client, struct.pack("<IIIII", 16, tag, 0, 0xFFFFFFFF, 0)))
        elif client == 0xFFFFFFFE:
            time.sleep(0.012 if due else 0)
            os.write(1, b"".join(due) + frame(client, b""))
            due = []
        elif client != 0xFFFFFFFF:
            due.append(frame(client, b""))
"""


class Watch:
    """One who watches, and what it was told."""

    def __init__(self, gateway, words="values"):
        self.sock = gateway.dial("watch")
        self.sock.sendall(f"watch {words}\n".encode())
        self.file = self.sock.makefile("rb")
        self.first = self.line()

    def __enter__(self):
        return self

    def __exit__(self, *_):
        self.file.close()
        self.sock.close()

    def line(self):
        line = self.file.readline()
        return json.loads(line) if line.endswith(b"\n") else None

    def lines(self, count):
        return [self.line() for _ in range(count)]

    def all(self):
        return list(iter(self.line, None))


@unittest.skipUnless(COMPILER, "cc is not there")
class Watching(Cases):
    def begun(self, *words, sockets=SOCKETS, **how):
        gateway = Gateway(*words, sockets=sockets, **how).__enter__()
        self.addCleanup(gateway.__exit__, None, None, None)
        return gateway

    def ended(self, gateway, status=0):
        got, said = gateway.end()
        self.tell(
            "it ends well",
            got == status and "Sanitizer" not in said and "runtime error" not in said,
            (got, said),
        )

    def processor(self, gateway):
        """The seconds of a processor that the gateway has taken."""
        with open(f"/proc/{gateway.process.pid}/schedstat") as file:
            return int(file.read().split()[0]) / 1e9

    def said(self, told, requests, got):
        """The lines of requests, whose replies these are."""
        return [line for line in (told.line(0, *it) for it in zip(tagged(requests), got)) if line]

    def requests_of_each_kind(self):
        return [
            oaut.ask_create(worked.ITEM),
            oaut.ask_list(),
            worked.put(worked.COUNT, worked.scalar(3, -7)),
            worked.put(worked.COUNT, worked.scalar(3, -7), of=9),
            worked.get(worked.COUNT),
            worked.put(worked.COUNT, worked.scalar(3, 8), interface=worked.FIRST_ONE.bytes_le),
            worked.put(worked.NAME, worked.text('"Ω\\\n\x7f'.encode("utf-16-le"))),
            worked.put(worked.NAME, worked.text(b"\0\xd8odd")),
            worked.put(worked.NAME, worked.text("😀".encode("utf-16-le") + b"\0\xd8")),
            worked.put(worked.NAME, worked.text(None)),
            worked.put(worked.PRICE, worked.scalar(6, 25_000)),
            worked.put(worked.FLAG, worked.scalar(11, 0xFFFF)),
            *(
                worked.put(worked.ANY, worked.scalar(vt, content))
                for vt, content in (
                    (0, None),
                    (1, None),
                    (16, -1),
                    (17, 255),
                    (2, -2),
                    (18, 65_535),
                    (19, 1 << 31),
                )
            ),
            *(
                worked.put(worked.ANY, worked.scalar(vt, content))
                for vt, content in (
                    (20, -1 << 63),
                    (21, (1 << 64) - 1),
                    (22, -5),
                    (23, 5),
                    (10, 0x8002_0004),
                )
            ),
            worked.put(worked.GRID, worked.GRID_1_TO_6),
            worked.put(
                worked.CELL,
                worked.text(b"v\0"),
                more=[worked.text(worked.LETTER), worked.scalar(3, 5)],
            ),
            worked.put_element(worked.GRID, [0, 5], worked.scalar(2, 9)),
            worked.put_element(worked.GRID, [9, 5], worked.scalar(2, 9)),
            worked.redim(worked.GRID, 5, -3),
            worked.call(oaut.LOCK, worked.GRID),
            oaut.ask_release(1),
            worked.call(oaut.UNLOCK, worked.GRID),
            oaut.ask_create(worked.ITEM),
            oaut.ask_release(1),
            oaut.ask_release(1),
            struct.pack("<HH", 12, 0),
            worked.replace(worked.WIDER),
        ]

    def test_each_kind(self):
        requests = self.requests_of_each_kind()
        gateway = self.begun()
        with Watch(gateway) as shown, Watch(gateway, "") as plain, gateway.dial() as writer:
            self.tell(
                "the first lines",
                shown.first["next"] == plain.first["next"] == 1
                and shown.first["epoch"] == plain.first["epoch"],
                shown.first,
            )
            got = replies(writer, tagged(requests))
            for name, watch, values in (("with values", shown, True), ("without", plain, False)):
                want = self.said(Told(values), requests, got)
                lines = watch.lines(len(want))
                for place, (line, due) in enumerate(zip(lines, want)):
                    self.tell(f"{name}: line {place}", line == due, (line, due))
                self.tell(
                    f"{name}: all kinds but one",
                    {it["kind"] for it in lines}
                    >= {"create", "put", "element", "redimension", "release"},
                    lines,
                )
            self.tell("nothing else comes", not arrived(shown.sock) and not arrived(plain.sock))
        Gateway.wait_for(
            lambda: gateway.counters()["oaut_gateway_watchers"] == 0,
            "those who have gone are still there",
        )
        self.tell(
            "changes are counted", gateway.counters()["oaut_gateway_changes_total"] == len(want)
        )
        self.ended(gateway)

    def test_long_values(self):
        """Of 65,536 bytes, of one more, and of as many as there may be; and long arguments."""
        text = lambda count: worked.text(b"a\0" * (count // 2))
        requests = [oaut.ask_create(worked.ITEM)]
        requests += [
            worked.put(worked.NAME, text(count - 36))
            for count in (65_534, 65_536, 65_538, 80_000, 81_000, 100_000, 1_000_000)
        ]
        for count in (4_094, 4_096, 4_098, 100_000):
            requests.append(
                worked.put(worked.CELL, text(100), more=[text(count - 36), worked.scalar(3, 5)])
            )
            requests.append(
                worked.put(worked.CELL, text(90_000), more=[text(count - 36), worked.scalar(3, 5)])
            )
        requests.append(
            worked.put(worked.ANY, worked.array(8, [(3, 0)], [b"x\0" * 20_000, None, b""]))
        )
        requests += [
            worked.put(worked.GRID, worked.array(2, [(40_000, 0)], [1] * 40_000)),
            worked.redim(worked.GRID, 7, 0),
        ]
        requests += [
            worked.put(worked.ANY, worked.array(8, [(2, 0)], [b"x\0", None])),
            worked.put_element(worked.ANY, [1], text(60_000)),
        ]
        requests += [
            worked.put_element(worked.ANY, [1], text(200_000)),
            worked.put(worked.COUNT, worked.scalar(3, 1)),
        ]
        gateway = self.begun()
        with Watch(gateway) as shown, Watch(gateway, "") as plain, gateway.dial() as writer:
            got = replies(writer, tagged(requests))
            self.tell(
                "most are done",
                sum(it[4:8] == bytes(4) for it in got) >= len(requests) - 4,
                [it[4:8].hex() for it in got],
            )
            for watch, values in ((shown, True), (plain, False)):
                want = self.said(Told(values), requests, got)
                lines = watch.lines(len(want))
                for line, due in zip(lines, want):
                    self.tell(
                        f"{due['seq']}, {values}", line == due, (str(line)[:300], str(due)[:300])
                    )
        self.ended(gateway)

    def test_long_libraries(self):
        """Of 65,536 bytes, of one less and of one more; their texts end at any place of a
        record."""
        requests = [
            worked.replace(worked.WIDER.ljust(count))
            for count in (65_535, 65_536, 65_537, *range(70_000, 70_008), *range(1_000, 1_008))
        ]
        gateway = self.begun()
        with Watch(gateway) as shown, gateway.dial() as writer:
            got = replies(writer, tagged(requests))
            want = self.said(Told(), requests, got)
            self.tell("they are replaced", len(want) == len(requests), len(want))
            for line, due in zip(shown.lines(len(want)), want):
                self.tell(f"{due['bytes']}", line == due, (str(line)[-100:], str(due)[-100:]))
        self.ended(gateway)

    def test_lengths_that_lie(self):
        """Of arguments in requests that are too long to be kept whole: with the bit that marks what
        was not kept, and no bytes after them."""
        head = lambda size: struct.pack("<II", 1 << 31 | size, 0)
        requests = []
        for opcode, end in (
            (oaut.INVOKE, b""),
            (oaut.PUTELEM, bytes(8) + head(65_536)),
            (oaut.REDIM, bytes(8)),
        ):
            body = bytearray(
                oaut.ask_call(
                    opcode,
                    1,
                    worked.NAME,
                    oaut.PROPERTYPUT,
                    [oaut.NEW_VALUE],
                    [worked.text(b"a\0" * 41_000)],
                )
            )
            struct.pack_into("<I", body, 52, 32)  # arguments
            requests.append(bytes(body) + head(65_536) * 15 + head(1) * 16 + end)
        gateway = self.begun()
        with Watch(gateway) as watch:
            for request in requests:
                with gateway.dial() as sock:
                    got = replies(sock, tagged([request, oaut.ask_create(worked.ITEM)]))
                self.tell("it is refused", got[0][4:8] == struct.pack("<I", BAD_STUB), got[0].hex())
                self.tell("nobody is told of it", watch.line()["kind"] == "create")
        self.ended(gateway)

    def test_random_requests(self):
        """Of several clients, one after another; the objects are those of a store that had some
        before."""
        dice = random.Random(int(os.environ.get("OAUT_SEED") or 0))
        guide = Guide(dice.getrandbits(30))
        guide.replacement = lambda: (oaut.ask_list(), lambda: None)
        gateway = self.begun()
        told = Told()
        with contextlib.ExitStack() as stack:
            with gateway.dial() as before:
                bodies = [guide.body(it) for it in range(300)]
                for body, reply in zip(bodies, replies(before, bodies)):
                    told.line(0, body, reply)
            watch = stack.enter_context(Watch(gateway))
            self.tell(
                "it begins at the next one",
                watch.first["next"] == told.number,
                (watch.first, told.number),
            )
            socks, want = [stack.enter_context(gateway.dial()) for _ in range(4)], []
            for turn in range(150):
                bodies = [guide.body(turn << 8 | it) for it in range(dice.randrange(1, 40))]
                want += filter(
                    None,
                    (told.line(0, *it) for it in zip(bodies, replies(dice.choice(socks), bodies))),
                )
            got = watch.lines(len(want))
            wrong = [it for it in zip(got, want) if it[0] != it[1]]
            self.tell("each line", not wrong and len(want) > 200, (len(want), wrong[:2]))
        self.ended(gateway)

    def test_filters(self):
        gateway = self.begun(sockets=("listen", "alone", "watch", "control"))
        with gateway.session() as server:
            classes = [it.name for it in server.library.coclasses]
            items = [server.create(it) for it in (classes[0], classes[-1], classes[0])]
            of = {it.name: str(it.guid) for it in server.library.coclasses}
            with contextlib.ExitStack() as stack:
                filters = {
                    "all": "",
                    "a class": f"class={of[classes[0]]}",
                    "a class in braces": f"class={{{of[classes[0]].upper()}}}",
                    "a class that is none": "class=00000000-0000-0000-0000-000000000000",
                    "an object": "object=3",
                    "a member": "member=1",
                    "an object's member": f"object=1 member=2 class={of[classes[0]]}",
                }
                watches = {
                    name: stack.enter_context(Watch(gateway, words))
                    for name, words in filters.items()
                }
                first = watches["all"].first["next"]
                for it in (items[0], items[2]):
                    it.Count, it.Name = 1, "a"
                items[1].release()
                items[2].release()
                new = server.create(classes[0])
                new.Count = 5
                made = [
                    ("put", 1, 1),
                    ("put", 1, 2),
                    ("put", 3, 1),
                    ("put", 3, 2),
                    ("release", 2, None),
                    ("release", 3, None),
                    ("create", 4, None),
                    ("put", 4, 1),
                ]
                made = [(first + place, *it) for place, it in enumerate(made)]
                same = classes[0] == classes[-1]
                due = {
                    "all": made,
                    "a class": [it for it in made if it[2] != 2 or same],
                    "a class in braces": [it for it in made if it[2] != 2 or same],
                    "a class that is none": [],
                    "an object": [it for it in made if it[2] == 3],
                    "a member": [it for it in made if it[3] == 1],
                    "an object's member": [made[1]],
                }
                for name, watch in watches.items():
                    got = [
                        (it["seq"], it["kind"], it["object"], it.get("member"))
                        for it in watch.lines(len(due[name]))
                    ]
                    self.tell(name, got == due[name] and not arrived(watch.sock), (got, due[name]))
        self.ended(gateway)

    def test_members(self):
        """A filter by a member lets each kind of change through that has one, and no other."""
        requests = [
            oaut.ask_create(worked.ITEM),
            worked.put(worked.COUNT, worked.scalar(3, 1)),
            worked.put(worked.GRID, worked.GRID_1_TO_6),
            worked.put_element(worked.GRID, [0, 5], worked.scalar(2, 9)),
            worked.redim(worked.GRID, 5, -3),
            oaut.ask_release(1),
        ]
        gateway = self.begun()
        with Watch(gateway) as all_of_them, Watch(gateway, f"member={worked.GRID}") as grid, Watch(
            gateway, "member=0"
        ) as none, gateway.dial() as sock:
            replies(sock, tagged(requests))
            kinds = lambda watch, count: [it["kind"] for it in watch.lines(count)]
            self.tell(
                "all",
                kinds(all_of_them, 6)
                == ["create", "put", "put", "element", "redimension", "release"],
            )
            self.tell(
                "of one",
                kinds(grid, 3) == ["put", "element", "redimension"] and not arrived(grid.sock),
            )
            self.tell("of a member that is none", not arrived(none.sock))
        self.ended(gateway)

    def test_lines_that_are_none(self):
        gateway = self.begun()
        for line in (
            "",
            "watch all",
            "watches",
            "watch class=1",
            "watch object=x",
            "watch object=-1",
            "watch object=4294967296",
            "watch member=2147483648",
            "GET / HTTP/1.0",
            "watch member=",
        ):
            with gateway.dial("watch") as sock:
                sock.sendall(line.encode() + b"\r\n")
                got = rest(sock)
            self.tell(
                repr(line),
                b"refused" in json.loads(got).popitem()[0].encode() and got.count(b"\n") == 1,
                got,
            )
        with gateway.dial("watch") as sock:
            with contextlib.suppress(OSError):
                sock.sendall(b"x" * 20_000)
            self.tell("a long line", rest(sock) == b"")
        self.ended(gateway)

    def test_too_many(self):
        gateway = self.begun("--watchers", "3")
        with Watch(gateway) as one, Watch(gateway, "object=4294967295 member=-2147483648"), Watch(
            gateway
        ):
            with gateway.dial("watch") as sock:
                with contextlib.suppress(OSError):
                    sock.sendall(b"watch\n")
                self.tell("a fourth one is turned away", rest(sock) == b"")
            one.sock.sendall(b"more words\n" * 100)
            one.sock.shutdown(socket.SHUT_WR)
            with gateway.session() as server:
                server.create("Item")
            self.tell("one that says nothing more is told", one.line()["kind"] == "create")
        Gateway.wait_for(
            lambda: gateway.counters()["oaut_gateway_watchers"] == 0,
            "those who have gone are still there",
        )
        self.ended(gateway)

    def follow(self, name, watch, last):
        """What one is told up to a change of the member 1: how many lines of changes, and of gaps.
        Each line goes on where the one before ended."""
        at, seen, gaps, wrong = watch.first["next"], 0, 0, []
        while True:
            line = watch.line()
            if line is None:
                self.tell(f"{name}: it is told on", False, (at, seen, gaps))
                return seen, gaps
            at += line.get("gap", 0)
            gaps += "gap" in line
            if line.get("next", line.get("seq")) != at:
                wrong.append((line, at))
            if "seq" not in line:
                continue
            at, seen = at + 1, seen + 1
            if line.get("member") == 1 and line["value"] == last:
                self.tell(
                    f"{name}: each line goes on where the one before ended", not wrong, wrong[:2]
                )
                return seen, gaps

    def test_one_that_is_slow(self):
        """It takes nothing while more is put than what is kept: it is told how many it has missed,
        and nobody waits for it."""
        gateway, count = self.begun(), 1_500
        with gateway.session() as server:
            item = server.create("Item")
            with Watch(gateway) as slow, Watch(gateway, "values") as quick, Watch(
                gateway, "member=1 values"
            ) as filtered:
                followed = []
                thread = threading.Thread(
                    target=lambda: followed.append(self.follow("one that is quick", quick, 1)),
                    daemon=True,
                )
                thread.start()
                for _ in range(0, count, 50):
                    with server.batch():
                        for _ in range(50):
                            item.Name = "x" * 20_000
                item.Count = 1
                thread.join(SECONDS)
                self.tell("one that is quick is told its end", len(followed) == 1)
                seen, gaps = self.follow("one that is slow", slow, 1)
                self.tell("it has missed some, once", gaps == 1 and 10 < seen < count, (gaps, seen))
                self.tell(
                    "one whose filter leaves out the long ones", filtered.line()["value"] == 1
                )
                missed = gateway.counters()["oaut_gateway_missed_changes_total"]
                self.tell("they are counted", missed >= count + 1 - seen, (missed, seen))
                item.Count = 2
                self.tell("it goes on", slow.line()["value"] == 2)
        self.ended(gateway)

    def test_rests_of_lines(self):
        """What is kept of lines that were begun is bounded: who takes nothing is let go."""
        gateway, count = self.begun("--memory", "16"), 90
        with gateway.session() as server, contextlib.ExitStack() as stack:
            item = server.create("Item")
            watches = [stack.enter_context(Watch(gateway)) for _ in range(count)]
            for it in watches:
                self.tell("the first", it.first is not None)
            for _ in range(40):
                item.Name = "\n" * 30_000  # (six signs each)
            item.Count = 1
            Gateway.wait_for(
                lambda: gateway.counters()["oaut_gateway_watchers"] < count, "nobody is let go"
            )
            self.tell(
                "some are let go",
                0 < gateway.counters()["oaut_gateway_watchers"],
                gateway.counters()["oaut_gateway_watchers"],
            )
            self.tell("they are counted", gateway.counters()["oaut_gateway_stalled_total"] > 0)
        self.ended(gateway)

    def test_its_pace(self):
        """A change that comes alone is sent at once. While changes keep coming, a client gets the
        lines of 5 ms together."""
        gateway, put = self.begun(), lambda it: tagged(
            [worked.put(worked.COUNT, worked.scalar(3, it))]
        )
        with Watch(gateway) as watch, gateway.dial() as sock:
            replies(sock, tagged([oaut.ask_create(worked.ITEM)]))
            watch.lines(1)
            waits = []
            for it in range(40):
                time.sleep(0.02)
                replies(sock, put(it))
                begun = time.monotonic()
                watch.line()
                waits.append(time.monotonic() - begun)
            self.tell("alone", min(waits) < 0.004, sorted(waits)[:5])
            calls, got = 0, bytearray()

            def reads():
                nonlocal calls
                while b'"value":-1}' not in got[-200:]:
                    got.extend(watch.sock.recv(1 << 20))
                    calls += 1

            thread = threading.Thread(target=reads, daemon=True)
            thread.start()
            begun, count = time.monotonic(), 0
            while time.monotonic() < begun + 2:
                replies(sock, put(count))
                count += 1
            replies(sock, put(-1))
            thread.join(SECONDS)
            seconds = time.monotonic() - begun
            self.tell("all lines", got.count(b"\n") == count + 1, (got.count(b"\n"), count))
            self.tell("zero has no sign", b'"value":0}\n' in got, got[:300])
            self.tell("together", calls <= seconds / 0.005 + 5, (calls, seconds, count))
            before = self.processor(gateway)
            for it in range(100):  # (the second one of each two waits)
                replies(sock, put(it))
                replies(sock, put(it))
                time.sleep(0.01)
            took = self.processor(gateway) - before
            self.tell("it sleeps meanwhile", took < 0.2, took)
        self.ended(gateway)

    def traced(self, pause):
        """What the gateway sends and how often it wakes, as strace prints it, while a client puts
        30 times before the server of UNHURRIED, and lets so many seconds pass after each reply."""
        with tempfile.TemporaryDirectory() as room:
            open(f"{room}/it.store", "w").close()
            with open(f"{room}/unhurried", "w") as file:
                file.write(UNHURRIED)
            os.chmod(f"{room}/unhurried", 0o755)
            under = (
                "strace",
                "-D",
                "-q",
                "-o",
                f"{room}/trace",
                "-e",
                "trace=sendto,epoll_pwait2,epoll_wait",
            )
            with Gateway(
                "--report",
                "0",
                room=room,
                sockets=SOCKETS,
                program=f"{room}/unhurried",
                flags="-O1 -g",
                under=under,
            ) as gateway:
                with gateway.dial() as sock, Watch(gateway) as watch:
                    for it in tagged(
                        [worked.put(worked.COUNT, worked.scalar(3, it)) for it in range(30)]
                    ):
                        sock.sendall(record(it))
                        self.tell("a reply", len(hear(sock, 20)) == 20)
                        time.sleep(pause)
                    found = [it["seq"] for it in watch.lines(30)]
                    self.tell("each line", found == list(range(1, 31)), found)
                self.tell("its end", gateway.end()[0] == 0)
            with open(f"{room}/trace") as file:
                return file.read()

    @left_out("strace")
    def test_the_next_batch_comes_first(self):
        """Between two batches those who watch wait as well: what was answered asks again, and the
        server gets that before they get their lines."""

        def comes_first():
            sent = re.findall(r'(?m)^sendto\(\d+, "(.*?)"(?:\.\.\.)?, (\d+), ', self.traced(0))
            # a reply has 20 bytes, a batch more
            found.append(
                [
                    int(before[1]) > 20
                    for before, it in zip(sent, sent[1:])
                    if it[0].startswith(r"{\"seq\"") and not before[0].startswith("{")
                ]
            )
            return sum(found[-1]) > len(found[-1]) // 2 > 10

        found = []
        self.tell("most lines come behind the next batch", in_time(comes_first), found)

    @left_out("strace")
    def test_between_two_batches_it_sleeps(self):
        """While lines wait for a client that was answered, and that asks nothing."""
        found = least(10, lambda: self.traced(0.03).count("epoll_") / 30)
        self.tell("it wakes now and then", found < 10, found)

    def draws(self):
        """Puts of texts of any length, and of numbers, of which the last is -1."""
        dice = random.Random(int(os.environ.get("OAUT_SEED") or 0))
        text = lambda count: worked.text(b"\n\0" * count)  # (six signs each)
        requests = [oaut.ask_create(worked.ITEM)]
        for it in range(300):
            requests.append(
                worked.put(worked.NAME, text(dice.choice((0, 1, 10, 100, 1_000, 10_000))))
            )
            requests += [worked.put(worked.COUNT, worked.scalar(3, it))] * dice.randrange(3)
        requests.append(worked.put(worked.COUNT, worked.scalar(3, -1)))
        return requests

    def test_those_who_share(self):
        """Clients with the same filter, which read in other pieces and at another pace, get the
        same lines; those with another filter get theirs."""
        requests = self.draws()
        filters = ("values", "", "values member=1", "values object=1", "object=2") * 3
        gateway = self.begun()
        with contextlib.ExitStack() as stack:
            watches = [stack.enter_context(Watch(gateway, words)) for words in filters]
            read = [bytearray() for _ in filters]

            def reads(place):
                own = random.Random(place)
                while b'"value":-1}' not in read[place][-200:]:
                    read[place].extend(
                        watches[place].file.read1(
                            own.choice((100, 5_000, 200_000)) if place >= 5 else 1 << 20
                        )
                    )
                    time.sleep(own.choice((0, 0, 0.001 * place)))

            threads = [
                threading.Thread(target=reads, args=(place,), daemon=True)
                for place, words in enumerate(filters)
                if "values" in words
            ]
            for it in threads:
                it.start()
            with gateway.dial() as writer:
                bodies = tagged(requests)
                got = [
                    it
                    for at in range(0, len(bodies), 20)
                    for it in replies(writer, bodies[at : at + 20])
                ]
            for it in threads:
                it.join(SECONDS)
            for place, words in enumerate(filters):
                want = self.said(Told("values" in words), requests, got)
                want = [
                    it
                    for it in want
                    if ("member" not in words or it.get("member") == 1) and "object=2" not in words
                ]
                if "values" in words:
                    lines = [json.loads(it) for it in read[place].split(b"\n")[:-1]]
                else:
                    lines = watches[place].lines(len(want))
                wrong = [it for it in zip(lines, want) if it[0] != it[1]]
                self.tell(
                    f"{place}: {words}",
                    len(lines) == len(want) and not wrong,
                    (len(lines), len(want), str(wrong[:1])[:400]),
                )
                self.tell(f"{place}: nothing else", not arrived(watches[place].sock))
        self.ended(gateway)

    def test_a_thousand(self):
        low, high = resource.getrlimit(resource.RLIMIT_NOFILE)
        if high < 3_000:
            self.skipTest("a thousand descriptors may not be had")
        resource.setrlimit(resource.RLIMIT_NOFILE, (max(low, 3_000), high))
        self.addCleanup(resource.setrlimit, resource.RLIMIT_NOFILE, (low, high))
        gateway = self.begun("--watchers", "1001")
        with contextlib.ExitStack() as stack:
            never = stack.enter_context(Watch(gateway))
            watches = [stack.enter_context(Watch(gateway)) for _ in range(1_000)]
            with gateway.session() as server:
                item = server.create("Item")
                for it in range(200):
                    item.Count = it
            want = [("create", 0)] + [("put", it) for it in range(200)]
            wrong = 0
            for it in watches:
                got = it.lines(201)
                wrong += [(line["kind"], line.get("value", 0)) for line in got] != want or [
                    line["seq"] for line in got
                ] != list(range(1, 202))
            self.tell("each is told all", wrong == 0, wrong)
            self.tell("they are counted", gateway.counters()["oaut_gateway_watchers"] == 1_001)
            self.tell("one takes nothing", never.first["next"] == 1)
            self.ended(gateway)
            self.tell("their connections end", all(it.line() is None for it in watches))

    def test_all_go_at_once(self):
        """While they are sent lines: the gateway does not go on for those that have gone."""
        many = (
            "import socket, sys\nall = [socket.socket(socket.AF_UNIX) for _ in range(300)]\n"
            "for it in all:\n    it.connect(sys.argv[1])\n"
        )
        many += (
            "    it.sendall(b'watch values\\n')\n    it.recv(1000)\nprint(flush=True)\n"
            "sys.stdin.read()\n"
        )
        gateway = self.begun()

        with gateway.dial() as sock:
            replies(sock, tagged([oaut.ask_create(worked.ITEM)]))
            puts = tagged([worked.put(worked.COUNT, worked.scalar(3, it)) for it in range(2_000)])
            for turn in range(6):
                with subprocess.Popen(
                    [sys.executable, "-c", many, f"{gateway.room}/watch"],
                    stdin=subprocess.PIPE,
                    stdout=subprocess.PIPE,
                ) as process:
                    process.stdout.readline()
                    threading.Timer(0.002 * turn, process.kill).start()
                    replies(sock, puts)
                Gateway.wait_for(
                    lambda: gateway.counters()["oaut_gateway_watchers"] == 0,
                    "those who have gone are still there",
                )
                before = self.processor(gateway)
                time.sleep(0.4)
                took = self.processor(gateway) - before
                self.tell(f"it waits, {turn}", took < 0.2, took)
        self.ended(gateway)

    def test_the_server_is_killed(self):
        gateway = self.begun()
        with Watch(gateway) as watch:
            told, want = Told(), []
            for start in range(1, 4):
                if start > 1:
                    server = gateway.server()
                    os.kill(server, signal.SIGKILL)
                    want.append({"restart": start, "next": told.number})
                    Gateway.wait_for(
                        lambda: gateway.counters().get("oaut_gateway_server_starts_total") == start
                        and gateway.server() not in (0, server),
                        "no new server",
                    )
                requests = [
                    oaut.ask_create(worked.ITEM),
                    *(
                        worked.put(worked.COUNT, worked.scalar(3, start), of=it)
                        for it in range(1, start + 1)
                    ),
                ]
                with gateway.dial() as sock:
                    want += self.said(told, requests, replies(sock, tagged(requests)))
            got = watch.lines(len(want))
            self.tell(
                "the numbers go on, and old objects are known",
                got == want and len(want) == 3 + 6 + 2,
                (got, want),
            )
            self.ended(gateway)
            self.tell("its end", watch.line() is None)

    def test_another_gateway(self):
        gateway = self.begun()
        with Watch(gateway) as one, gateway.session() as server:
            server.create("Item").Count = 7
            self.tell("the first one", [it["kind"] for it in one.lines(2)] == ["create", "put"])
            gateway.process.kill()
            gateway.process.wait()
            self.tell("its end", one.line() is None)
        gateway.start()
        with Watch(gateway) as other:
            self.tell(
                "another epoch, and numbers from 1 on",
                other.first["epoch"] != one.first["epoch"] and other.first["next"] == 1,
                other.first,
            )
            with gateway.dial() as sock:
                requests = [worked.put(worked.COUNT, worked.scalar(3, 8))]
                got = replies(sock, tagged(requests))
            want = self.said(Told(classes={1: str(worked.ITEM)}), requests, got)
            self.tell("an object of before", other.lines(1) == want, want)
        self.ended(gateway)

    def test_the_end(self):
        """What was answered is told before the gateway ends, though one takes nothing."""
        requests = [
            oaut.ask_create(worked.ITEM),
            *(worked.put(worked.COUNT, worked.scalar(3, it)) for it in range(5_000)),
        ]

        def all_told():
            """Whether one that reads all the time is told all. What it has not taken a second after
            the end is not sent."""
            gateway = self.begun()
            with Watch(gateway) as watch, Watch(gateway, "values") as never, gateway.dial() as sock:
                told = []
                reading = threading.Thread(target=lambda: told.append(rest(watch.sock)))
                reading.start()
                sock.sendall(b"".join(record(it) for it in tagged(requests)))
                hear(sock, 4)
                gateway.process.terminate()
                count = len(rest(sock)) // 20 + 1
                begun = time.monotonic()
                reading.join()
                lines = [json.loads(it) for it in told[0].split(b"\n")[:-1]]
                self.tell(
                    "in their order",
                    [it.get("seq") for it in lines] == list(range(1, len(lines) + 1)),
                    len(lines),
                )
                self.tell(
                    "nobody waits for long",
                    gateway.end(None)[0] == 0 and time.monotonic() - begun < 20,
                )
                never.sock.close()
            seen.append((len(lines), count))
            return len(lines) >= count - 1

        seen = []
        self.tell("all that was answered", in_time(all_told), seen)

    def test_changes_of_one_that_has_gone(self):
        """What was done counts, whoever hears of it."""
        gateway = self.begun()
        with Watch(gateway) as watch:
            for _ in range(20):
                with gateway.dial() as sock:
                    sock.sendall(record(tagged([oaut.ask_create(worked.ITEM)])[0]))
                    sock.setsockopt(socket.SOL_SOCKET, socket.SO_LINGER, struct.pack("ii", 1, 0))
            with gateway.session() as server:
                count = len(server.objects())
            self.tell(
                "each is told",
                [it["object"] for it in watch.lines(count)] == list(range(1, count + 1)),
                count,
            )
        self.ended(gateway)

    def test_keys_of_random_requests(self):
        """Of each property with parameters of each object: those that the client's own reader finds
        in the store's file."""
        from oaut.keys import keys_at, keys_of

        dice = random.Random(int(os.environ.get("OAUT_SEED") or 0))
        guide = Guide(dice.getrandbits(30))
        gateway = self.begun()
        found = 0
        with gateway.dial() as sock:
            for turn in range(30):
                bodies = [guide.body(turn << 8 | it) for it in range(dice.randrange(1, 120))]
                replies(sock, bodies)
                for member in (worked.CELL, worked.GRID, worked.COUNT, worked.CELL):
                    place = dice.randrange(1, 12), worked.FIRST_ONE.bytes_le, member
                    got, want = keys_at(f"{gateway.room}/watch", *place), keys_of(
                        gateway.store, *place
                    )
                    self.tell(f"{turn}: {place}", got == want, (got[:9], want[:9]))
                    found += len(got)
        self.tell("there are some", found > 20, found)
        self.ended(gateway)

    def test_keys_that_nobody_takes(self):
        """At most two clients get keys at once, whether they take them or not, and no other client
        waits."""
        line = f"keys object=1 interface={worked.FIRST_ONE} member={worked.CELL}\n".encode()
        gateway = self.begun()
        with gateway.dial() as sock, contextlib.ExitStack() as stack:
            puts = [
                worked.put(
                    worked.CELL,
                    worked.text(b"v\0"),
                    more=[worked.text(b"a\0" * (2_000 + it)), worked.scalar(3, 5)],
                )
                for it in range(500)
            ]
            got = replies(sock, tagged([oaut.ask_create(worked.ITEM), *puts]))
            self.tell("they are put", all(it[4:8] == bytes(4) for it in got))
            two = [stack.enter_context(gateway.dial("watch")) for _ in range(2)]
            for it in two:
                it.sendall(line)
                self.tell("the first line", hear(it, 13) == b'{"keys":500}\n')
            third = gateway.ask(line, "watch", ends=False)
            self.tell("a third one is told so", third == b'{"busy":2}\n', third[:100])
            self.tell("nobody waits", replies(sock, tagged(puts[:1]))[0][4:8] == bytes(4))
            with Watch(gateway) as watch:
                replies(sock, tagged(puts[:1]))
                self.tell("those who watch go on", watch.line()["kind"] == "put")
            two[0].close()

            def told(words):
                """What comes to a line, once one of the two has gone."""
                ask = lambda: gateway.ask(f"keys {words}\n".encode(), "watch", ends=False)
                return Gateway.wait_for(
                    lambda: (got := ask()) != b'{"busy":2}\n' and got,
                    "the place of one that has gone is not free",
                )

            got = told(f"object=1 interface={worked.FIRST_ONE} member={worked.CELL}")
            self.tell(
                "all keys",
                len(set(got.split(b"\n"))) == 502
                and got.startswith(b'{"keys":500}\n')
                and got.endswith(b'"\n'),
                got[:100],
            )
        self.ended(gateway)

    def test_lines_that_ask_for_keys(self):
        """Lines that are none are refused."""
        gateway = self.begun()
        with gateway.dial() as sock:
            puts = [
                worked.put(
                    worked.CELL,
                    worked.text(b"v\0"),
                    more=[worked.text(b"a\0" * (2_000 + it)), worked.scalar(3, 5)],
                )
                for it in range(500)
            ]
            got = replies(sock, tagged([oaut.ask_create(worked.ITEM), *puts]))
            self.tell("they are put", all(it[4:8] == bytes(4) for it in got))

            def told(words):
                """What comes to a line, once one of the two has gone."""
                ask = lambda: gateway.ask(f"keys {words}\n".encode(), "watch", ends=False)
                return Gateway.wait_for(
                    lambda: (got := ask()) != b'{"busy":2}\n' and got,
                    "the place of one that has gone is not free",
                )

            self.tell(
                "the greatest number of an object",
                told(f"object={(1 << 32) - 1} interface={worked.FIRST_ONE} member=1")
                == b'{"keys":0}\n',
            )
            self.tell(
                "none",
                told(f"object=1 interface={{{worked.FIRST_ONE}}} member=-2147483648\r")
                == b'{"keys":0}\n',
            )
            for words in (
                "",
                "object=1",
                f"object=1 interface={worked.FIRST_ONE}",
                f"interface={worked.FIRST_ONE} object=1 member=1",
                "object=x interface=y member=z",
                f"object=1 interface={worked.FIRST_ONE} member=1 values",
                f"object=1 interface={worked.FIRST_ONE} member=1.",
            ):
                self.tell(f"keys {words}", b"refused" in told(words))
            for object, guid, member in (
                (1 << 32, worked.FIRST_ONE, 1),
                (1, "1-2", 1),
                (1, worked.FIRST_ONE, -(1 << 31) - 1),
                (1, worked.FIRST_ONE, "1-"),
            ):
                got = told(f"object={object} interface={guid} member={member}")
                self.tell(f"{object} {guid} {member}", b"refused" in got, got)
        self.ended(gateway)

    def test_keys_beside_one_that_takes_none(self):
        """The place of one that has all keys is free, and no other place."""
        line = f"keys object=1 interface={worked.FIRST_ONE} member={worked.CELL}\n".encode()
        gateway = self.begun()
        children = f"/proc/{gateway.process.pid}/task/{gateway.process.pid}/children"

        def count():
            with open(children) as file:
                return len(file.read().split())

        with gateway.dial() as sock, contextlib.ExitStack() as stack:
            puts = [
                worked.put(
                    worked.CELL,
                    worked.text(b"v\0"),
                    more=[worked.text(b"a\0" * (2_000 + it)), worked.scalar(3, 5)],
                )
                for it in range(500)
            ]
            replies(sock, tagged([oaut.ask_create(worked.ITEM), *puts]))
            for turn in range(2):
                stack.enter_context(gateway.dial("watch")).sendall(line)
                Gateway.wait_for(lambda: count() == 2 + turn, "nobody gets keys")
                if turn == 0:
                    self.tell(
                        "another one gets all",
                        len(gateway.ask(line, "watch", ends=False)) > 1_000_000,
                    )
                    Gateway.wait_for(lambda: count() == 2, "its process is left")
            self.tell(
                "then there are two that take none",
                gateway.ask(line, "watch", ends=False) == b'{"busy":2}\n',
            )
        self.ended(gateway)

    def test_keys_one_after_another(self):
        """Whoever has all keys has left its place by then."""
        line = f"keys object=1 interface={worked.FIRST_ONE} member={worked.CELL}\n".encode()
        gateway = self.begun()

        def asked():
            begun = time.monotonic()
            for _ in range(12):
                while (got := gateway.ask(line, "watch", ends=False)) == b'{"busy":2}\n':
                    time.sleep(0.01)
                self.tell("its keys", got == b'{"keys":0}\n', got)
            return time.monotonic() - begun

        found = least(4, asked)
        self.tell("twelve, each of which begins when the one before has ended", found < 4, found)
        self.ended(gateway)


if __name__ == "__main__":
    unittest.main()
