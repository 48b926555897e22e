"""The bounds of the gateway: places, turns, batches, memory, and how long a backup keeps the others
waiting (docs/operations/gateway.md)."""
import contextlib
import os
import re
import shutil
import signal
import socket
import struct
import subprocess
import tempfile
import threading
import time
import unittest

from tests.gateway.gateways import (
    FULL,
    SECONDS,
    Gateway,
    hear,
    left_out,
    library,
    record,
    rest,
    sends,
)
from tests.support import wire
from tests.support.codes import BAD_STUB
from tests.support.preloaded import COMPILER
from tests.support.running import Cases, run_in
from tests.support.tries import in_time
from tests.support.wire import oaut

needs_cc = unittest.skipUnless(COMPILER, "cc is not there")
NONE = struct.pack("<IHH", 77, 99, 0)
NO_REQUEST = struct.pack("<IIII", 77, BAD_STUB, oaut.NO_INDEX, 0)


@needs_cc
class Places(Cases):
    def test_those_of_monitors(self):
        """Connections to the sockets of metrics and of control that ask nothing keep nobody out."""
        with Gateway("--clients", "4") as gateway, contextlib.ExitStack() as stack:
            gateway.settles()
            for name in ("metrics", "control"):
                for _ in range(40):
                    stack.enter_context(gateway.dial(name))
            clients = [stack.enter_context(gateway.dial()) for _ in range(4)]
            for it in clients:
                with contextlib.suppress(OSError):
                    it.sendall(record(NONE))
                self.tell("each of four clients is served", hear(it, 20) == record(NO_REQUEST))
            self.tell("status is", gateway.counters().get("oaut_gateway_clients") == 4)
            done = subprocess.run(
                [gateway.binary, "backup", f"{gateway.room}/control", f"{gateway.room}/copy"],
                capture_output=True,
                text=True,
                timeout=SECONDS,
            )
            self.tell("a backup is", done.returncode == 0 and "held for" in done.stdout, done)
            time.sleep(0.5)
            got = gateway.ask(b"GET /metrics HTTP/1.1\r\n\r\n", "metrics", ends=False)
            self.tell("metrics are", got.startswith(b"HTTP/1.0 200 OK"), got[:100])
            self.tell("its end", gateway.end()[0] == 0)

    @left_out("strace")
    def test_how_many_are_accepted_in_a_turn(self):
        """Those that are connected have their turn between them."""
        with Gateway(
            sockets=("listen", "control"), starts=False, flags="-O1"
        ) as gateway, contextlib.ExitStack() as stack:
            trace = f"{gateway.room}/trace"
            gateway.words[:0] = [
                "strace",
                "-D",
                "-q",
                "-o",
                trace,
                "-e",
                "trace=accept4,epoll_pwait2,recvfrom",
            ]
            gateway.start()
            gateway.settles()
            os.kill(gateway.process.pid, signal.SIGSTOP)
            for _ in range(300):
                stack.enter_context(gateway.dial())
            os.kill(gateway.process.pid, signal.SIGCONT)
            gateway.settles(300)
            self.tell("its end", gateway.end()[0] == 0)
            with open(trace) as file:
                rows = [1 if it.startswith("accept4(") and "= -1" not in it else 0 for it in file]
            longest = max(map(len, "".join(map(str, rows)).split("0")))
            self.tell(
                "few are accepted one behind the other",
                sum(rows) >= 300 and longest <= 32,
                (sum(rows), longest),
            )


# A server that answers each get by so many bytes as the DISPID says, and everything else by a short
# reply. For each batch it writes a line: how many requests it has, how many bytes their replies. It
# answers a batch when there is no file `gate` beside the lines.
COUNTS = r"""#!/usr/bin/env python3
import os, struct, sys, time
if sys.argv[1] == "dump":
    sys.exit(0)
log = open(os.environ["COUNTS"], "w", 1)
gate = os.path.dirname(os.environ["COUNTS"]) + "/gate"
frame = lambda client, some: struct.pack("<II", client, len(some)) + some
data, rest, due, count = bytearray(), {}, [], 0
def write(some):
    at = 0
    while at < len(some):
        at += os.write(1, memoryview(some)[at : at + (1 << 20)])
while some := os.read(0, 1 << 20):
    data += some
    at = 0
    while len(data) - at >= 8:
        (size,) = struct.unpack_from("<I", data, at + 4)
        if len(data) - at < 8 + size:
            break
        client, given = struct.unpack_from("<I", data, at)[0], bytes(data[at + 8 : at + 8 + size])
        at += 8 + size
        if size:
            given = rest.pop(client, b"") + given
            while len(given) >= 4:
                (length,) = struct.unpack_from("<I", given)
                if len(given) < 4 + length:
                    break
                tag, opcode = struct.unpack_from("<IH", given, 4)
                gets = opcode == 4 and struct.unpack_from("<H", given, 56)[0] & 2
                more = struct.unpack_from("<I", given, 16)[0] if gets else 0
                reply = struct.pack("<IIII", tag, 0, 0xFFFFFFFF, 0) + bytes(more)
                due.append(frame(client, struct.pack("<I", len(reply)) + reply))
                count += 1
                given = given[4 + length :]
            rest[client] = given
        elif client == 0xFFFFFFFE:
            if count:
                print(count, sum(map(len, due)), file=log)
            while count and os.path.exists(gate):
                time.sleep(0.002)
            write(b"".join(due) + frame(client, b""))
            due, count = [], 0
        elif client != 0xFFFFFFFF:
            due.append(frame(client, b""))
    del data[:at]
"""


def get(size, tag=1):
    """A get that the server of COUNTS answers by so many bytes."""
    return record(struct.pack("<I", tag) + oaut.ask_invoke(1, size, oaut.PROPERTYGET, [], []))


def put(tag=1, number=1):
    return record(
        struct.pack("<I", tag)
        + oaut.ask_invoke(
            number, 1, oaut.PROPERTYPUT, [oaut.NEW_VALUE], [wire.scalar(wire.I4, tag)]
        )
    )


# a clock that is a thousand times slower: what the gateway takes for a moment is a while to a
# machine that is busy
SLOWED = r"""
#define _GNU_SOURCE
#include <dlfcn.h>
#include <time.h>
int clock_gettime(clockid_t clock, struct timespec *it) {
    static struct timespec first;
    int (*known)(clockid_t, struct timespec *) = dlsym(RTLD_NEXT, "clock_gettime");
    int done = known(clock, it);
    if (clock != CLOCK_MONOTONIC) return done;
    if (!first.tv_sec) first = *it;
    long long passed = (it->tv_sec - first.tv_sec) * 1000000000LL + it->tv_nsec - first.tv_nsec;
    it->tv_sec = first.tv_sec + passed / 1000 / 1000000000;
    it->tv_nsec = passed / 1000 % 1000000000;
    return done;
}
"""


@contextlib.contextmanager
def counting(*words, **how):
    """A gateway before the server of COUNTS, and what the batches were."""
    with tempfile.TemporaryDirectory() as room:
        open(f"{room}/it.store", "w").close()
        with open(f"{room}/counts", "w") as file:
            file.write(COUNTS)
        os.chmod(f"{room}/counts", 0o755)

        def batches():
            with open(f"{room}/log") as file:
                return [tuple(map(int, line.split())) for line in file]

        with Gateway(
            "--report",
            "0",
            *words,
            room=room,
            program=f"{room}/counts",
            COUNTS=f"{room}/log",
            **how,
        ) as gateway:
            yield gateway, batches


@contextlib.contextmanager
def closed(gateway):
    """The server of COUNTS keeps batches waiting for their replies meanwhile."""
    open(f"{gateway.room}/gate", "w").close()
    yield
    os.unlink(f"{gateway.room}/gate")


@needs_cc
class Batches(Cases):
    def test_long_replies_behind_short_ones(self):
        """A client that had short replies asks for many long ones at once."""
        with counting() as (gateway, batches), gateway.dial() as sock:
            sock.sendall(get(4) * 40 + put() * 40)
            hear(sock, 40 * 24 + 40 * 20)
            before = len(batches())
            sending = sends(sock, get(1_000_000) * 300)
            got = hear(sock, 300 * 1_000_020)
            sending.join()
            self.tell("all are answered", len(got) == 300 * 1_000_020, len(got))
            found = [size for _, size in batches()[before:]]
            self.tell(
                "no batch has more than 32 of the long replies", max(found) < 33_000_000, max(found)
            )
            self.tell(
                "and all but the first two have no more than two",
                max(found[2:]) < 2_100_000,
                max(found[2:]),
            )
            self.tell("its end", gateway.end()[0] == 0)

    def test_a_client_that_gets_and_puts(self):
        """What a client may ask for is counted over its turns in a batch: four gets, of which
        nobody knows how long the replies are, among many puts."""
        with counting() as (gateway, batches), gateway.dial() as begins, gateway.dial() as sock:
            before = len(batches())
            with closed(gateway):
                begins.sendall(put())
                Gateway.wait_for(lambda: len(batches()) > before, "there is no batch")
                come = gateway.counters()["oaut_gateway_received_bytes_total"]
                data = (get(1_000_000) * 4 + put() * 60) * 8
                sock.sendall(data)
                Gateway.wait_for(
                    lambda: gateway.counters()["oaut_gateway_received_bytes_total"]
                    >= come + len(data),
                    "the requests do not come",
                )
            got = hear(sock, 8 * (4 * 1_000_020 + 60 * 20))
            self.tell("all are answered", len(got) == 8 * (4 * 1_000_020 + 60 * 20), len(got))
            found = [size for _, size in batches()[before + 1 :]]
            self.tell("the first batch has four of the long replies", found[0] < 5_000_000, found)
            self.tell("the others have two at most", max(found[1:]) < 2_100_000, found)
            self.tell("its end", gateway.end()[0] == 0)

    def test_many_that_ask_for_long_replies(self):
        """Fifteen ask for 1 MB each time, and one puts: it is in the next batch, whatever they ask
        for."""
        with counting() as (gateway, batches), contextlib.ExitStack() as stack:
            readers, sock = [
                stack.enter_context(gateway.dial()) for _ in range(15)
            ], stack.enter_context(gateway.dial())
            for it in readers:
                it.sendall(get(1_000_000))
                hear(it, 1_000_020)
            for turn in range(5):
                before = len(batches())
                with closed(gateway):
                    sock.sendall(put())
                    Gateway.wait_for(lambda: len(batches()) > before, "there is no batch")
                    come = gateway.counters()["oaut_gateway_received_bytes_total"]
                    for it in readers:
                        it.sendall(get(1_000_000) * 3)
                    Gateway.wait_for(
                        lambda: gateway.counters()["oaut_gateway_received_bytes_total"]
                        >= come + 45 * len(get(1)),
                        "the gets do not come",
                    )
                    sock.sendall(put())
                    Gateway.wait_for(
                        lambda: gateway.counters()["oaut_gateway_received_bytes_total"]
                        >= come + 45 * len(get(1)) + len(put()),
                        "nor does the put",
                    )
                self.tell(f"the puts, {turn}", len(hear(sock, 40)) == 40)
                for it in readers:
                    hear(it, 3 * 1_000_020)
                found = batches()[before:]
                self.tell(
                    f"the put is in the next batch, {turn}",
                    found[1][1] == (found[1][0] - 1) * 1_000_028 + 28,
                    found,
                )
                self.tell(
                    f"a batch has two of the long replies at most, {turn}",
                    max(size for _, size in found) < 2_100_000,
                    found,
                )
            stack.close()
            self.tell("its end", gateway.end()[0] == 0)

    def test_many_that_flood(self):
        """Beside one that waits for each of its puts the others, which do not wait, get a part of
        each batch."""
        with counting(flags="-O1 -g", LD_PRELOAD=library("slowed", SLOWED)[0]) as (
            gateway,
            batches,
        ), contextlib.ExitStack() as stack:
            flooders, sock = [
                stack.enter_context(gateway.dial()) for _ in range(4)
            ], stack.enter_context(gateway.dial())
            for _ in range(40):
                sock.sendall(put())
                hear(sock, 20)
            before = len(batches())
            with closed(gateway):
                flooders[0].sendall(put() * 300)
                Gateway.wait_for(lambda: len(batches()) > before, "there is no batch")
                come = gateway.counters()["oaut_gateway_received_bytes_total"]
                sock.sendall(put())
                Gateway.wait_for(
                    lambda: gateway.counters()["oaut_gateway_received_bytes_total"]
                    >= come + len(put()),
                    "the put does not come",
                )
                for it in flooders:
                    it.sendall(put() * 700)
                wanted = come + (1 + 4 * 700) * len(put())
                Gateway.wait_for(
                    lambda: gateway.counters()["oaut_gateway_received_bytes_total"] >= wanted,
                    "the flood does not come",
                )
            hear(sock, 20)
            for it in flooders:
                hear(it, 20 * (1000 if it == flooders[0] else 700))
            found = [count for count, _ in batches()[before:]]
            self.tell("the batch with the put is no whole one", 49 <= found[1] <= 600, found)
            stack.close()
            self.tell("its end", gateway.end()[0] == 0)


@needs_cc
class Readers(Cases):
    def test_who_reads_nothing_keeps_nobody_waiting(self):
        """Fifty ask for 2 MB each and take nothing: another one's puts and gets go on, and those
        that keep the memory are let go at once."""

        def keeps_nobody_waiting():
            with counting("--stalled", "60") as (gateway, _), contextlib.ExitStack() as stack:
                for _ in range(50):
                    slow = stack.enter_context(gateway.dial())
                    slow.sendall(get(50_000) * 40)
                sock, begun, longest, first, found = (
                    stack.enter_context(gateway.dial()),
                    time.monotonic(),
                    0,
                    None,
                    0,
                )
                sock.settimeout(25)
                # (one a second, with each tick, would come to half of them in the time)
                with contextlib.suppress(socket.timeout):
                    while found < 20 and time.monotonic() < (first or begun) + (
                        10 if first else 60
                    ):
                        since = time.monotonic()
                        sock.sendall(put() + get(50_000))
                        if len(hear(sock, 20 + 50_020)) != 50_040:
                            break
                        longest = max(longest, time.monotonic() - since)
                        found = gateway.counters()["oaut_gateway_stalled_total"]
                        first = first or (time.monotonic() if found else None)
                        time.sleep(0.01)
                self.tell("its end", gateway.end(signal.SIGKILL)[0] == -9)
                seen.append((found, longest))
            return found >= 20 and longest < 12

        seen = []
        self.tell(
            "those that read nothing are let go at once, and another one's puts and gets go on",
            in_time(keeps_nobody_waiting),
            seen,
        )

    def test_replies_have_half_of_the_memory(self):
        """Thirteen have each had a reply of 1 MB, and ask for another one that they do not take:
        gets wait before replies come to more than 8 MiB."""

        def looked():
            """Whether the buffers were seen with replies, before those that take nothing are let
            go: that is a second later, and a machine may be busy."""
            with counting("--memory", "16", "--stalled", "60") as (
                gateway,
                _,
            ), contextlib.ExitStack() as stack:
                socks, found = [stack.enter_context(gateway.dial()) for _ in range(13)], []
                for it in socks:
                    it.sendall(get(1_000_000))
                    hear(it, 1_000_020)
                for it in socks:
                    it.sendall(get(1_000_000))
                until = time.monotonic() + 60
                while (
                    not (now := gateway.counters())["oaut_gateway_stalled_total"]
                    and time.monotonic() < until
                ):
                    found.append(now["oaut_gateway_buffer_bytes"])
                self.tell(
                    "the buffers, until those that take nothing are let go",
                    max(found, default=0) < 10_000_000,
                    found,
                )
                stack.close()
                self.tell("its end", gateway.end()[0] == 0)
            return found and max(found) > 1_000_000

        self.tell("the buffers are seen", in_time(looked))

    def test_who_reads_without_a_pause_is_not_cut(self):
        """One reads 5 MB a second, and has asked for 40 MB at once behind 40 short replies."""

        def all_come():
            """Whether it gets all. A machine that stops this process for a second makes it one that
            reads nothing."""
            with counting() as (gateway, _), gateway.dial() as sock:
                sock.sendall(get(4) * 40)
                hear(sock, 40 * 24)
                sending = sends(sock, get(1_000_000) * 40)
                got = 0
                with contextlib.suppress(ConnectionResetError):
                    while got < 40 * 1_000_020 and (some := sock.recv(50_000)):
                        got += len(some)
                        time.sleep(len(some) / 5e6)
                stalled = gateway.counters()["oaut_gateway_stalled_total"]
                sending.join()
                self.tell("its end", gateway.end()[0] == 0)
                seen.append((got, stalled))
            return seen[-1] == (40 * 1_000_020, 0)

        seen = []
        self.tell("it gets all, and is not counted as stalled", in_time(all_come), seen)

    def test_requests_that_are_cut_beside_a_server_that_works(self):
        """What came of them is not kept for the server, which reads nothing until its batch is
        done."""
        cut = struct.pack("<I", 4_194_304) + bytes(4_000_000)
        with counting(flags="-O1") as (gateway, batches), contextlib.ExitStack() as stack:
            first = stack.enter_context(gateway.dial())
            with closed(gateway):
                first.sendall(put())
                gateway.wait_for(batches, "no batch has begun")
                before, socks = gateway.counters()["oaut_gateway_received_bytes_total"], []
                for count in range(1, 25):
                    socks.append(stack.enter_context(gateway.dial()))
                    socks[-1].sendall(cut)
                    socks[-1].shutdown(socket.SHUT_WR)
                    there = lambda now: now[
                        "oaut_gateway_received_bytes_total"
                    ] == before + count * len(cut) and now["oaut_gateway_buffer_bytes"] < len(cut)
                    gateway.wait_for(
                        lambda: there(gateway.counters()), "a request that is cut is kept"
                    )
                with open(f"/proc/{gateway.process.pid}/status") as file:
                    memory = int(re.search(r"RssAnon:\s+(\d+) kB", file.read())[1]) << 10
                self.tell("they take no memory", memory < count * len(cut) // 2, memory)
            self.tell("the batch is answered", len(hear(first, 20)) == 20)
            for it in socks:
                self.tell("each is told its end", rest(it) == b"")
            self.tell("its end", gateway.end()[0] == 0)

    def test_memory_is_given_back(self):
        """Four have sent a long request and begun another one: a long request of another client
        finds memory."""
        long = record(NONE + bytes(4_194_304 - 8))
        with Gateway(
            "--memory", "16", "--stalled", "100"
        ) as gateway, contextlib.ExitStack() as stack:
            for turn in range(4):
                sock = stack.enter_context(gateway.dial())
                sock.sendall(long + record(NONE)[:3])
                self.tell(
                    f"a long request is answered, {turn}", hear(sock, 20) == record(NO_REQUEST)
                )
            sock = stack.enter_context(gateway.dial())
            got = b""
            with contextlib.suppress(OSError):
                sock.sendall(long)
                got = hear(sock, 20)
            self.tell("and so is another one's", got == record(NO_REQUEST), got)
            found = gateway.counters()["oaut_gateway_buffer_bytes"]
            self.tell("little memory is kept", found < 1_000_000, found)


@needs_cc
class Holds(Cases):
    def opens_to(self, room, before, after):
        status, out, err = run_in(room, ["dump", "copy"])
        counted = re.search(rb" 1 - (0300\w{8})\n", out)
        value = int.from_bytes(bytes.fromhex(counted[1].decode())[2:], "little") if counted else -1
        self.tell(
            "it opens to what was acknowledged before",
            status == 0 and before <= value <= after,
            (err[-200:], before, value, after),
        )

    def test_a_backup_of_large_banks(self):
        """The clients wait for what was added in the last moment, not for the store's size."""
        with tempfile.TemporaryDirectory(dir="/var/tmp") as room:
            shutil.copy(FULL, f"{room}/lib.idl")
            status, _, said = run_in(
                room, ["format", "--bank", "1073741824", "it.store", "lib.idl"]
            )
            self.tell("a store of large banks", status == 0, said)
            with Gateway(room=room) as gateway:
                with gateway.session() as server:
                    number = server.create("Item").number
                    for _ in range(100):
                        server.create("Item").Name = "x" * 500_000
                stop, acknowledged = threading.Event(), [0]

                def puts():
                    with gateway.dial() as sock:
                        tag = 0
                        while not stop.is_set():
                            sock.sendall(b"".join(put(tag + it, number) for it in range(100)))
                            hear(sock, 2_000)
                            tag += 100
                            acknowledged[0] = tag - 1
                            time.sleep(0.008)

                thread = threading.Thread(target=puts)
                thread.start()
                said = []

                def backup():
                    """Whether it holds for a moment. A copy of all would take far more than 4 MiB,
                    and a device that is busy takes a while for a sync."""
                    before = acknowledged[0]
                    done = subprocess.run(
                        [gateway.binary, "backup", f"{room}/control", f"{room}/copy"],
                        capture_output=True,
                        text=True,
                        timeout=SECONDS,
                    )
                    after = acknowledged[0] + 200
                    found = re.search(r"held for ([\d.]+) s, (\d+) KiB had changed", done.stdout)
                    self.tell("a backup", done.returncode == 0 and found, done)
                    said.append((done.stdout, before, after))
                    return found and float(found[1]) < 5 and int(found[2]) < 4096

                try:
                    Gateway.wait_for(lambda: acknowledged[0] > 0, "nothing is put")
                    self.tell("it holds for a moment", in_time(backup), said)
                finally:
                    stop.set()
                    thread.join()
                _, before, after = said[-1]
                self.opens_to(room, before, after)
                self.tell("its end", gateway.end()[0] == 0)

    def is_copied(self, gateway, turn):
        done = subprocess.run(
            [gateway.binary, "backup", f"{gateway.room}/control", f"{gateway.room}/copy"],
            capture_output=True,
            text=True,
            timeout=SECONDS,
        )
        self.tell(f"a backup, {turn}", done.returncode == 0 and "held for" in done.stdout, done)

    def copy_opens(self, gateway, turn, numbers, before, after):
        status, out, err = run_in(gateway.room, ["dump", "copy"])
        counts = [
            int.from_bytes(bytes.fromhex(it.decode())[2:], "little")
            for it in re.findall(rb" 1 - (0300\w{8})\n", out)
        ]
        well = (
            status == 0
            and len(counts) == 4
            and all(before[number] <= it <= after[number] for number, it in zip(numbers, counts))
        )
        self.tell(
            f"it opens to what was acknowledged before, {turn}",
            well,
            (status, err[-300:], before, counts, after),
        )

    def test_a_backup_while_banks_change(self):
        """Texts of 100 KB fill a bank within a moment, and another library selects the other one
        each time, also twice at once: each copy is a state that was."""
        with Gateway() as gateway:
            with gateway.session() as server:
                numbers = [server.create("Item").number for _ in range(4)]
            with open(FULL) as file:
                narrow = file.read()
            wide = narrow.replace("methods:", "[id(11)] BSTR Remark;\n    methods:", 1)
            texts = [it.encode() for it in (narrow, wide)]
            libraries = [record(struct.pack("<IHHII", 9, 12, 0, len(it), 0) + it) for it in texts]
            acknowledged, sent, stop = (
                {it: 0 for it in numbers},
                {it: 0 for it in numbers},
                threading.Event(),
            )

            def puts(number):
                with gateway.session() as server:
                    item = server.object(number, "Item")
                    while not stop.is_set():
                        sent[number] += 1
                        with server.batch():
                            item.Name = f"{sent[number]:08d}" + "x" * 50_000
                            item.Count = sent[number]
                        acknowledged[number] = sent[number]

            def replaces():
                with gateway.dial() as sock:
                    turn = 0
                    while not stop.is_set():
                        turn += 1
                        sock.sendall(b"".join(libraries[(turn + it) % 2] for it in range(turn % 3)))
                        for _ in range(turn % 3):
                            hear(sock, 20)
                        time.sleep(0.05)

            threads = [threading.Thread(target=puts, args=[it]) for it in numbers] + [
                threading.Thread(target=replaces)
            ]
            for it in threads:
                it.start()
            try:
                for turn in range(8):
                    Gateway.wait_for(lambda: min(acknowledged.values()) > 0, "nothing is put")
                    before = dict(acknowledged)
                    self.is_copied(gateway, turn)
                    after = dict(sent)
                    self.copy_opens(gateway, turn, numbers, before, after)
            finally:
                stop.set()
                for it in threads:
                    it.join()
            self.tell("its end", gateway.end()[0] == 0)
