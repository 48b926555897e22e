"""One behaviour of the gateway each, most of them at a bound or at an end. tools/gateway_mutants.py
says which fault of the C each of them finds."""
import collections
import contextlib
import ctypes
import errno
import os
import re
import signal
import socket
import stat
import struct
import subprocess
import sys
import tempfile
import threading
import time
import unittest

from tests.gateway.gateways import SECONDS, Gateway, arrived, hear, left_out, record, rest, sends
from tests.gateway.test_gateway import BODY_LIMIT, NO_REQUEST, NONE, STUB, told_of
from tests.support import wire
from tests.support.codes import WRITE_FAULT
from tests.support.ports import free_port
from tests.support.preloaded import COMPILER
from tests.support.running import Cases, run_in
from tests.support.tries import in_time, least
from tests.support.wire import oaut

needs_cc = unittest.skipUnless(COMPILER, "cc is not there")
E_FAIL = 0x8000_4005
ANSWER = record(NO_REQUEST)
# opcodes of the server below
SIZED, FAULT_AND_END, HALF_AND_END, FAULT = 50, 51, 52, 54

# A server that writes down whose requests each batch has, and that answers a batch when there is no
# file `gate`.
FAKE = r"""#!/usr/bin/env python3
import os, signal, struct, sys, time
room = os.path.dirname(os.path.abspath(__file__))
if sys.argv[1] == "dump":
    sys.exit(0)
data, due, batch, parts = b"", [], [], {}
frame = lambda client, some: struct.pack("<II", client, len(some)) + some
def end():
    os.write(1, b"".join(due))
    os.kill(os.getpid(), signal.SIGKILL)
with open(f"{room}/starts", "a") as file:
    file.write("start\n")
while some := os.read(0, 1 << 20):
    data += some
    at = 0
    while len(data) - at >= 8:
        (size,) = struct.unpack_from("<I", data, at + 4)
        if len(data) - at < 8 + size:
            break
        client, given = struct.unpack_from("<I", data, at)[0], data[at + 8 : at + 8 + size]
        at += 8 + size
        given, place = parts.pop(client, b"") + given, 0
        while len(given) - place >= 4:
            head = given[place : place + 16] + bytes(16)
            length, tag, opcode, more = struct.unpack_from("<IIII", head)
            if len(given) - place < 4 + length:
                break
            place += 4 + length
            opcode &= 0xFFFF
            code = 0x8003001D if opcode in (51, 54) else 0
            if opcode == 10:
                with open(f"{room}/code") as file:
                    code = int(file.read())
            fields = bytes(more if opcode == 50 else 0)
            head = struct.pack("<IIIII", 16 + len(fields), tag, code, 0xFFFFFFFF, 0)
            due.append(frame(client, head + fields))
            batch.append(client)
            if opcode == 51:
                end()
            if opcode == 52:
                due[-1] = due[-1][:20]
                end()
        if size and given[place:]:
            parts[client] = given[place:]
        if client == 0xFFFFFFFE:
            if batch:
                with open(f"{room}/batches", "a") as file:
                    file.write(f"{batch}\n")
            while batch and os.path.exists(f"{room}/gate"):
                time.sleep(0.002)
            out = b"".join(due) + frame(client, b"")
            while out:
                out = out[os.write(1, out):]
            due, batch = [], []
        elif not size and client != 0xFFFFFFFF:
            due.append(frame(client, b""))
    data = data[at:]
"""


def asks(opcode, number=0, tag=5):
    """A request for the server above."""
    return record(struct.pack("<IHHI", tag, opcode, 0, number))


class Faked(Gateway):
    """A gateway before the server above."""

    def __init__(self, *words, **how):
        self.folder = tempfile.TemporaryDirectory()
        for name, text in (("it.store", ""), ("fake", FAKE)):
            with open(f"{self.folder.name}/{name}", "w") as file:
                file.write(text)
        os.chmod(f"{self.folder.name}/fake", 0o755)
        super().__init__(
            "--report",
            "0",
            *words,
            room=self.folder.name,
            program=f"{self.folder.name}/fake",
            **how,
        )

    def gate(self, closed):
        """Whether batches are kept waiting for their replies."""
        if closed:
            open(f"{self.room}/gate", "w").close()
        else:
            os.unlink(f"{self.room}/gate")

    def lines(self, name):
        """The lines of a file that the server writes."""
        with contextlib.suppress(FileNotFoundError), open(f"{self.room}/{name}") as file:
            return file.read().splitlines()
        return []

    def batches(self):
        """The clients of each batch, request by request."""
        return [list(map(int, re.findall(r"\d+", it))) for it in self.lines("batches")]

    def received(self, count):
        """Waits until so many bytes of requests have come."""
        self.wait_for(
            lambda: self.counters()["oaut_gateway_received_bytes_total"] >= count,
            "the requests do not come",
        )


class Behaviour(Cases):
    def setUp(self):
        self.stack = contextlib.ExitStack()
        self.addCleanup(self.stack.close)

    def started(self, *words, kind=Gateway, **how):
        """A gateway until the test's end, whose sockets are all there, and no client."""
        gateway = self.stack.enter_context(kind(*words, **how))
        gateway.settles()
        return gateway

    def dial(self, gateway, name="listen"):
        """A client that was answered once."""
        sock = self.stack.enter_context(gateway.dial(name))
        self.asked(sock)
        return sock

    def asked(self, sock):
        """Asks something and waits for the reply."""
        sock.sendall(record(NONE))
        hear(sock, 20)

    def comes(self, sock, count):
        """Whether so many bytes come in time."""
        sock.settimeout(SECONDS)
        try:
            return len(hear(sock, count)) == count
        except socket.timeout:
            return False

    def silent(self, name, sock, seconds=0.3):
        """Nothing comes for a while."""
        sock.settimeout(seconds)
        with self.subTest(name), self.assertRaises(socket.timeout):
            got = sock.recv(1)
            self.assertIsNone(got, "something comes")
        sock.settimeout(SECONDS)

    @contextlib.contextmanager
    def stopped(self, pid):
        """A process does nothing meanwhile."""
        os.kill(pid, signal.SIGSTOP)
        try:
            Gateway.wait_for(lambda: state_of(pid) in "TZX", f"the process {pid} goes on")
            yield
        finally:
            with contextlib.suppress(ProcessLookupError):
                os.kill(pid, signal.SIGCONT)

    def ended(self, gateway, status=0, with_=signal.SIGTERM):
        found, said = gateway.end(with_)
        self.tell(
            "its end",
            found == status and "Sanitizer" not in said and "runtime error" not in said,
            f"wanted {status}, got {found}: {said}",
        )
        return said


def state_of(pid):
    """The letter that the system has for what a process does; X where it has gone."""
    try:
        with open(f"/proc/{pid}/stat") as file:
            return file.read().rsplit(")", 1)[1].split()[0]
    except OSError:
        return "X"


def processor(pid):
    """The seconds of a processor that a process has had."""
    with open(f"/proc/{pid}/stat") as file:
        fields = file.read().rsplit(")", 1)[1].split()
    return (int(fields[11]) + int(fields[12])) / os.sysconf("SC_CLK_TCK")


def waits_for_end(pid):
    """Waits until a process has ended, whoever takes its status."""
    Gateway.wait_for(lambda: state_of(pid) in "ZX", f"the process {pid} does not end")


@needs_cc
class Rights(Behaviour):
    def test_the_mode_is_for_all_sockets_but_control(self):
        gateway = self.started("--mode", "0666")
        found = {
            name: stat.S_IMODE(os.stat(f"{gateway.room}/{name}").st_mode)
            for name in Gateway.OPTIONS
        }
        self.tell(
            "the rights",
            found == {**dict.fromkeys(Gateway.OPTIONS, 0o666), "control": 0o600},
            found,
        )

    def test_the_server_inherits_no_socket(self):
        """One that is started while there are listeners and clients."""
        gateway = self.started("--metrics", f"127.0.0.1:{free_port()}")
        for name in ("listen", "alone"):
            self.dial(gateway, name)
        gateway.dial("control")
        first = gateway.server()
        os.kill(first, signal.SIGKILL)
        second = Gateway.wait_for(
            lambda: gateway.server() != first and gateway.server(), "it is not started again"
        )
        self.tell("its descriptors", *self.no_socket(second))

    def no_socket(self, pid):
        links = {}
        for it in map(int, os.listdir(f"/proc/{pid}/fd")):
            with contextlib.suppress(OSError):
                links[it] = os.readlink(f"/proc/{pid}/fd/{it}")
        return (
            not [
                it
                for fd, it in links.items()
                if fd > 2 and it.startswith(("socket:", "anon_inode:"))
            ],
            links,
        )

    def test_standard_streams_that_are_closed(self):
        """No socket gets their numbers, so that no line of the log goes to the server or to a
        client."""
        for closed in ((2,), (1, 2), (0, 1, 2)):
            under = ["sh", "-c", 'exec "$@"' + "".join(f" {it}>&-" for it in closed), "sh"]
            gateway = self.started(kind=Faked, under=under)
            for who, pid in (
                ("the gateway", gateway.process.pid),
                ("its server", gateway.server()),
            ):
                found = {
                    it: os.readlink(f"/proc/{pid}/fd/{it}")
                    for it in closed
                    if who == "the gateway" or it == 2
                }
                self.tell(f"{who}, without {closed}", set(found.values()) == {"/dev/null"}, found)
            found = told_of("reload", f"{gateway.room}/control", "--idle", "100")
            self.tell(f"a line for the log, without {closed}", found[0] == 0, found)
            with gateway.dial() as sock:
                self.asked(sock)
            self.ended(gateway)

    def test_the_server_inherits_no_socket_of_systemd(self):
        with tempfile.TemporaryDirectory() as room, socket.socket(socket.AF_UNIX) as sock:
            sock.bind(f"{room}/listen")
            sock.listen()
            gateway = self.stack.enter_context(Gateway(sockets=("control",), starts=False))
            high = os.dup(sock.fileno())
            words = [
                "bash",
                "-c",
                f'export LISTEN_PID=$$ LISTEN_FDS=1; exec "$@" 9<&{high} 3<&9 9<&-'
                + f" {high}<&-" * (high > 3),
                "bash",
                *gateway.words,
            ]
            gateway.process = subprocess.Popen(
                words,
                env={**os.environ, **gateway.variables},
                pass_fds=[high],
                stderr=open(f"{gateway.room}/said", "wb"),
            )
            os.close(high)
            Gateway.wait_for(gateway.counters, "it does not serve")
            first = gateway.server()
            os.kill(first, signal.SIGKILL)
            second = Gateway.wait_for(
                lambda: gateway.server() != first and gateway.server(), "it is not started again"
            )
            self.tell("its descriptors", *self.no_socket(second))

    def test_the_server_has_the_usual_signals(self):
        """It has its own group of processes, and no signal is blocked."""
        gateway = self.started()
        server = gateway.server()
        self.tell("the group", os.getpgid(server) != os.getpgid(gateway.process.pid))
        with open(f"/proc/{server}/status") as file:
            blocked = int(re.search(r"SigBlk:\t(\w+)", file.read())[1], 16)
        self.tell("the signals", blocked == 0, blocked)

    def test_who_is_turned_away_leaves_no_descriptor(self):
        gateway = self.started("--clients", "1")
        self.dial(gateway)
        count = lambda: len(os.listdir(f"/proc/{gateway.process.pid}/fd"))
        before = count()
        for _ in range(20):
            with gateway.dial() as it:
                self.tell("one more is turned away", rest(it) == b"")
        self.tell("the descriptors", count() <= before + 2, (before, count()))

    def test_who_has_gone_leaves_no_descriptor(self):
        gateway = self.started()
        count = lambda: len(os.listdir(f"/proc/{gateway.process.pid}/fd"))
        before = count()
        for name in ["listen", "alone", "listen-hex", "metrics"] * 5:
            gateway.ask(b"GET /metrics HTTP/1.0\r\n\r\n" if name == "metrics" else bytes(4), name)
        Gateway.wait_for(lambda: count() <= before + 2, "descriptors are left")
        self.tell("the descriptors", True)

    def test_as_many_descriptors_as_clients(self):
        """The limit of descriptors is raised as far as it may be."""
        gateway = self.stack.enter_context(
            Gateway("--clients", "150", under=("sh", "-c", 'ulimit -S -n 100; exec "$@"', "sh"))
        )
        gateway.settles()
        socks = [self.stack.enter_context(gateway.dial()) for _ in range(140)]
        for it in socks:
            it.sendall(record(NONE))
        self.tell("140 are served", all(hear(it, 20) == ANSWER for it in socks))

    @unittest.skipIf(os.geteuid(), "not run by root")
    def test_a_group_of_number_0_lets_its_members_in_alone(self):
        gateway = self.started("--mode", "0666", "--allow-group", "0")
        os.chmod(gateway.room, 0o755)
        client = (
            "import os, socket, sys\nos.setgroups([7, 8]); os.setgid(7); os.setuid(7)\n"
            "s = socket.socket(socket.AF_UNIX); s.settimeout(60); s.connect(sys.argv[1])\n"
            "try:\n    s.sendall(bytes.fromhex('080000004d00000063000000')); "
            "print(len(s.recv(100)))\nexcept OSError: print(0)\n"
        )
        done = subprocess.run(
            [sys.executable, "-c", client, f"{gateway.room}/listen"], capture_output=True, text=True
        )
        self.tell("one of other groups", done.stdout == "0\n", done)


@needs_cc
class Turns(Behaviour):
    def warmed(self, gateway, name="listen"):
        """A client that has had small replies only."""
        sock = self.dial(gateway, name)
        for _ in range(25):
            self.asked(sock)
        return sock

    def forgotten(self):
        """Waits until no client counts as one that waits for each of its requests, beside which a
        flood gets only a part of a batch: that takes 50 ms."""
        time.sleep(0.1)

    def test_who_came_first_has_its_turn_first(self):
        gateway = self.started(kind=Faked)
        begins, one, many = self.dial(gateway), self.warmed(gateway), self.warmed(gateway)
        gateway.gate(True)
        before, come = (
            len(gateway.batches()),
            gateway.counters()["oaut_gateway_received_bytes_total"],
        )
        begins.sendall(asks(SIZED))
        Gateway.wait_for(lambda: len(gateway.batches()) > before, "there is no batch")
        one.sendall(asks(SIZED))
        gateway.received(come + 32)
        many.sendall(asks(SIZED) * 3000)
        gateway.received(come + 16 * 3002)
        gateway.gate(False)
        hear(many, 20 * 3000)
        found = gateway.batches()[before + 1 :]
        # (48 requests of a flood are in a batch at least)
        self.tell(
            "one request, then many",
            len(found[0]) > 48 and found[0].count(found[0][0]) == 1 and len({*found[0]}) == 2,
            found[0][:70],
        )
        self.ended(gateway)

    def test_64_requests_are_a_turn(self):
        gateway = self.started(kind=Faked)
        begins, one, two = self.dial(gateway), self.warmed(gateway), self.warmed(gateway)
        gateway.gate(True)
        before, come = (
            len(gateway.batches()),
            gateway.counters()["oaut_gateway_received_bytes_total"],
        )
        begins.sendall(asks(SIZED))
        Gateway.wait_for(lambda: len(gateway.batches()) > before, "there is no batch")
        for it in (one, two):
            it.sendall(asks(SIZED) * 300)
        gateway.received(come + 16 * 601)
        self.forgotten()
        gateway.gate(False)
        for it in (one, two):
            self.tell("each is answered", len(hear(it, 20 * 300)) == 6000)
        found = gateway.batches()[before + 1]
        runs = [
            len(it.group())
            for it in re.finditer(r"a+|b+", "".join("a" if it == found[0] else "b" for it in found))
        ]
        self.tell("they take turns of 64 requests", runs[:4] == [64] * 4, runs)
        self.ended(gateway)

    def test_the_next_one_alone_comes_beside_a_flood(self):
        """After those that share had a turn: one that is alone does not wait for the flood's
        end."""
        gateway = self.started(kind=Faked)
        floods = [self.warmed(gateway) for _ in range(20)]
        first, second = self.dial(gateway, "alone"), self.stack.enter_context(gateway.dial("alone"))
        gateway.gate(True)
        before, come = (
            len(gateway.batches()),
            gateway.counters()["oaut_gateway_received_bytes_total"],
        )
        first.sendall(asks(SIZED))
        Gateway.wait_for(lambda: len(gateway.batches()) > before, "there is no batch")
        for it in floods:
            it.sendall(asks(SIZED) * 1000)
        second.sendall(asks(SIZED))
        gateway.received(come + 16 * 20_002)
        first.shutdown(socket.SHUT_WR)
        gateway.gate(False)
        self.tell("the next one is answered", len(hear(second, 20)) == 20)
        second.close()
        for it in floods:
            hear(it, 20_000)
        asked = [it for batch in gateway.batches()[before + 1 :] for it in batch]
        # its request may be in the batch of those before it, so its place among all requests counts
        counts = collections.Counter(asked)
        places = [place for place, it in enumerate(asked) if counts[it] == 1]
        self.tell(
            "each is asked for once",
            len(asked) == 20_001 and len(places) == 1,
            (len(asked), places),
        )
        self.tell(
            "it comes behind a batch of the others at most",
            places and 0 < places[0] <= 1023,
            places,
        )
        self.ended(gateway)

    def test_replies_that_are_taken_late(self):
        """A client that leaves more than 1 MiB of replies for a while gets all of them once it
        takes them."""
        gateway = self.started(kind=Faked)
        sock = self.dial(gateway)
        sock.sendall(asks(SIZED, 5_000) * 1_200)  # (more than a batch has)
        time.sleep(1)
        self.tell("all replies", len(hear(sock, 1_200 * 5_020)) == 1_200 * 5_020)
        self.ended(gateway)

    def test_replies_that_are_taken_late_by_who_sends_no_more(self):
        gateway = self.started(kind=Faked)
        sock = self.dial(gateway)
        sock.sendall(asks(SIZED, 100_000) * 20)
        sock.shutdown(socket.SHUT_WR)
        time.sleep(1)
        self.tell("all replies, then the end", len(rest(sock)) == 20 * 100_020)
        self.ended(gateway)

    def test_requests_wait_in_the_socket(self):
        """With 256 KiB of requests waiting a client is not read."""
        gateway = self.started(kind=Faked)
        sock = self.dial(gateway)
        gateway.gate(True)
        sending = sends(sock, asks(SIZED) * 400_000)
        gateway.received(200_000)
        time.sleep(0.5)
        found = gateway.counters()["oaut_gateway_received_bytes_total"]
        self.tell("the bytes that were read", found < 500_000, found)
        gateway.gate(False)
        sock.shutdown(socket.SHUT_RDWR)
        sending.join()
        self.ended(gateway)

    def test_who_has_hung_up_costs_nothing(self):
        """Until the server has answered what it asked before."""
        gateway = self.started(kind=Faked)
        sock, one = self.dial(gateway), self.dial(gateway)
        gateway.gate(True)
        come = gateway.counters()["oaut_gateway_received_bytes_total"]
        for it in (sock, one):
            it.sendall(asks(SIZED))
        gateway.received(come + 32)
        sock.close()
        one.shutdown(socket.SHUT_WR)
        time.sleep(0.3)

        def taken():
            before = processor(gateway.process.pid)
            time.sleep(2)
            return processor(gateway.process.pid) - before

        took = least(0.08, taken)
        self.tell("seconds of a processor in two seconds", took < 0.08, took)
        gateway.gate(False)
        self.tell("the reply to who hung up one way alone", len(rest(one)) == 20)
        self.ended(gateway)

    def test_a_backup_waits_for_the_batch(self):
        gateway = self.started(kind=Faked)
        sock, control = self.dial(gateway), self.stack.enter_context(gateway.dial("control"))
        gateway.gate(True)
        before = len(gateway.batches())
        sock.sendall(asks(SIZED))
        Gateway.wait_for(lambda: len(gateway.batches()) > before, "there is no batch")
        control.sendall(b"hold\n")
        self.silent("it holds nothing while a batch is with the server", control)
        gateway.gate(False)
        self.tell("the reply", len(hear(sock, 20)) == 20)
        self.tell("then it holds", hear(control, 5) == b"held\n")
        control.close()
        self.ended(gateway)

    def test_only_who_holds_frees(self):
        gateway = self.started()
        one, two = (self.stack.enter_context(gateway.dial("control")) for _ in range(2))
        one.sendall(b"free\n")
        self.tell("nobody holds", rest(one) == b"refused\n")
        with gateway.dial("control") as one:
            one.sendall(b"hold\n")
            hear(one, 5)
            two.sendall(b"free\n")
            self.tell("another one", rest(two) == b"refused\n")
            sock = self.stack.enter_context(gateway.dial())
            sock.sendall(record(NONE))
            self.silent("it still holds", sock)
        self.tell("it has gone", hear(sock, 20) == ANSWER)
        with gateway.dial("control") as next_one:
            next_one.sendall(b"hold\n")
            self.tell("the next one holds", hear(next_one, 5) == b"held\n")
            next_one.sendall(b"free\n")
            self.tell("and frees", rest(next_one).startswith(b"held for "))
        self.ended(gateway)


@needs_cc
class Ends(Behaviour):
    def test_sigint(self):
        gateway = self.started()
        self.ended(gateway, with_=signal.SIGINT)
        self.tell(
            "no socket is left",
            sorted(os.listdir(gateway.room)) == ["it.store", "said"],
            os.listdir(gateway.room),
        )

    def test_sigterm_reads_what_has_come(self):
        """Requests that have come whole, and were not read when the signal came, are answered."""
        gateway = self.started()
        sock = self.dial(gateway)
        with self.stopped(gateway.process.pid):
            gateway.process.terminate()
            sock.sendall(record(NONE) * 300 + b"\1")
        self.tell("300 replies", rest(sock) == ANSWER * 300)
        self.ended(gateway, with_=None)

    def test_a_connection_that_comes_with_sigterm(self):
        """It is not accepted, and those that are connected have their replies."""
        gateway = self.started()
        sock = self.dial(gateway)
        with self.stopped(gateway.process.pid):
            gateway.process.terminate()
            late = self.stack.enter_context(gateway.dial())
            sock.sendall(record(NONE) * 100)
        self.tell("100 replies", rest(sock) == ANSWER * 100)
        self.tell("the other one", rest(late) == b"")
        self.ended(gateway, with_=None)

    def test_sigterm_beside_a_server_that_hangs(self):
        gateway = self.started("--stalled", "1")
        sock, server = self.dial(gateway), gateway.server()
        with self.stopped(server):
            sock.sendall(record(NONE))
            gateway.process.terminate()
            said = self.ended(gateway, 3, with_=None)
        self.tell("it says why", "does not end: it is killed" in said, said)
        waits_for_end(server)

    def test_sigterm_ends_the_listening(self):
        port = free_port()
        gateway = self.started("--listen", f"127.0.0.1:{port}", kind=Faked)
        sock = self.dial(gateway)
        gateway.gate(True)
        come = gateway.counters()["oaut_gateway_received_bytes_total"]
        sock.sendall(asks(SIZED))
        gateway.received(come + 16)
        gateway.process.terminate()
        Gateway.wait_for(lambda: not os.path.exists(f"{gateway.room}/listen"), "it does not end")
        with self.subTest("nobody can connect"), self.assertRaises(ConnectionRefusedError):
            until = time.monotonic() + SECONDS
            while time.monotonic() < until:
                socket.create_connection(("127.0.0.1", port), SECONDS).close()
        gateway.gate(False)
        self.tell("what had come is answered", len(rest(sock)) == 20)
        self.ended(gateway, with_=None)

    def test_a_server_that_is_killed_after_sigterm(self):
        gateway = self.started(kind=Faked)
        sock = self.dial(gateway)
        gateway.gate(True)
        sock.sendall(asks(SIZED))
        Gateway.wait_for(lambda: len(gateway.batches()) > 1, "there is no batch")
        server = int(Gateway.wait_for(gateway.server, "there is no server"))
        gateway.process.terminate()
        Gateway.wait_for(lambda: not os.path.exists(f"{gateway.room}/listen"), "it does not end")
        os.kill(server, signal.SIGKILL)
        self.ended(gateway, with_=None)
        self.tell(
            "it is not started again", gateway.lines("starts") == ["start"], gateway.lines("starts")
        )

    def test_a_fault_before_a_signal(self):
        """A server that said STG_E_WRITEFAULT is not started again, however it ends."""
        gateway = self.started(kind=Faked)
        sock = self.dial(gateway)
        sock.sendall(asks(FAULT_AND_END))
        rest(sock)
        said = self.ended(gateway, 3, with_=None)
        self.tell("it says why", "not started again" in said, said)
        self.tell(
            "it is not started again", gateway.lines("starts") == ["start"], gateway.lines("starts")
        )

    def test_a_fault_of_a_server_that_goes_on(self):
        gateway = self.started(kind=Faked)
        sock = self.dial(gateway)
        sock.sendall(asks(FAULT))
        self.tell("the reply", hear(sock, 20)[8:12] == struct.pack("<I", WRITE_FAULT))
        said = self.ended(gateway, 3, with_=None)
        self.tell("it says why", "STG_E_WRITEFAULT" in said, said)

    def test_a_half_reply_of_a_server_that_was_killed(self):
        """It is not taken for the begin of what the next server says."""
        gateway = self.started(kind=Faked)
        sock = self.dial(gateway)
        sock.sendall(asks(HALF_AND_END))
        self.tell("its client has no reply", rest(sock) == b"")
        Gateway.wait_for(lambda: len(gateway.lines("starts")) == 2, "it is not started again")
        with gateway.dial() as sock:
            sock.sendall(asks(SIZED, 100))
            self.tell(
                "the next server's reply",
                hear(sock, 120)[:16] == struct.pack("<IIII", 116, 5, 0, oaut.NO_INDEX),
            )
        self.ended(gateway)

    def test_replies_before_the_end_that_are_as_long_as_a_read(self):
        """The gateway reads 262,144 bytes at a time. What has come before the server's end is
        answered, and a fault in it is seen."""
        read, framed = 262_144, 8 + 20  # (bytes of a frame with a short reply)
        for opcode, last in ((FAULT_AND_END, framed), (HALF_AND_END, 20)):
            gateway = self.started(kind=Faked)
            sock, server = self.dial(gateway), gateway.server()
            come = gateway.counters()["oaut_gateway_received_bytes_total"]
            with self.stopped(server):
                sock.sendall(asks(SIZED, read - framed - last) + asks(opcode))
                gateway.received(come + 32)
                with self.stopped(gateway.process.pid):
                    os.kill(server, signal.SIGCONT)
                    waits_for_end(server)
            got = len(rest(sock))
            if opcode == FAULT_AND_END:  # (the gateway ends before its client has taken all)
                self.ended(gateway, 3, with_=None)
            else:
                self.tell("the whole reply before the half one", got == read - last - 8, got)

    def test_requests_of_a_server_that_was_killed(self):
        """What it had not read is not for the next one: neither the rest of a request that is
        longer than what a socket holds, nor those behind it."""
        gateway = self.started(kind=Faked)
        socks = [self.dial(gateway) for _ in range(8)]
        server = gateway.server()
        come = gateway.counters()["oaut_gateway_received_bytes_total"]
        with self.stopped(server):
            for at, it in enumerate(socks):
                it.sendall(
                    record(
                        struct.pack("<IHHI", 5, SIZED, 0, 0)
                        + b"\x7f" * (200_000 if at else 3_000_000)
                    )
                )
            gateway.received(come + 7 * 200_000 + 3_000_000)
            os.kill(server, signal.SIGKILL)
        for it in socks:
            rest(it)
        Gateway.wait_for(lambda: len(gateway.lines("starts")) == 2, "it is not started again")
        with gateway.dial() as sock:
            sock.sendall(asks(SIZED, 100))
            self.tell(
                "the next server's reply",
                hear(sock, 120)[:16] == struct.pack("<IIII", 116, 5, 0, oaut.NO_INDEX),
            )
        self.ended(gateway)

    def test_who_went_before_the_server_was_killed(self):
        """What that server owed to a client that had gone is not taken from who has its place at
        the next one."""
        gateway = self.started(kind=Faked)
        sock, server = self.dial(gateway), gateway.server()
        sock.sendall(asks(SIZED) * 2)
        hear(sock, 20)
        # and is never read: so the end of the connection is a reset
        Gateway.wait_for(lambda: arrived(sock) == 20, "the other reply does not come")
        come = gateway.counters()["oaut_gateway_received_bytes_total"]
        with self.stopped(server):
            sock.sendall(asks(SIZED))
            gateway.received(come + 16)
            sock.close()
            Gateway.wait_for(
                lambda: gateway.counters()["oaut_gateway_clients"] == 0, "it has not gone"
            )
            os.kill(server, signal.SIGKILL)
        Gateway.wait_for(lambda: len(gateway.lines("starts")) == 2, "it is not started again")
        with gateway.dial() as sock:
            sock.sendall(asks(SIZED))
            self.tell("the next one's reply", len(hear(sock, 20)) == 20)
        self.ended(gateway)

    def test_the_time_of_a_start_is_no_batch(self):
        gateway = self.started()
        self.dial(gateway)
        first = gateway.server()
        os.kill(first, signal.SIGKILL)
        Gateway.wait_for(lambda: gateway.server() not in (0, first), "it is not started again")
        self.dial(gateway)
        found = gateway.counters()
        self.tell(
            "a time each batch",
            found["oaut_gateway_commit_seconds_count"] == found["oaut_gateway_batches_total"] == 2,
            found,
        )
        self.ended(gateway)


@needs_cc
class Patience(Behaviour):
    def test_a_request_in_parts(self):
        gateway = self.started("--idle", "100", "--stalled", "1")
        sock = self.dial(gateway)
        begun = time.monotonic()
        sock.sendall(record(NONE)[:5])
        self.tell(
            "it is refused",
            rest(sock) == record(STUB) and time.monotonic() - begun < 90,
            time.monotonic() - begun,
        )
        self.tell("it counts as stalled", gateway.counters()["oaut_gateway_stalled_total"] == 1)
        self.ended(gateway)

    def test_a_byte_now_and_then(self):
        """The time is the whole request's."""
        gateway = self.started("--idle", "100", "--stalled", "2")
        sock = self.dial(gateway)
        begun, got = time.monotonic(), b""
        sock.sendall(record(bytes(1000))[:4])
        sock.settimeout(0.3)
        while not got and time.monotonic() - begun < 90:
            # (it may be told its end, and closed, before it sends)
            with contextlib.suppress(OSError):
                sock.sendall(b"x")
            with contextlib.suppress(socket.timeout):
                got = sock.recv(100)
        self.tell("it is refused", got == record(STUB), (got, time.monotonic() - begun))
        sock.close()
        self.ended(gateway)

    def test_requests_that_each_come_in_time(self):
        """A client that always has part of a request on its way is served as long as each comes in
        time."""
        gateway = self.started("--idle", "100", "--stalled", "2")

        def serves():
            with gateway.dial() as sock, contextlib.suppress(OSError):
                sock.sendall(record(NONE)[:5])
                begun, served = time.monotonic(), True
                while served and time.monotonic() - begun < 5:
                    time.sleep(0.2)
                    sock.sendall(record(NONE)[5:] + record(NONE)[:5])
                    served = hear(sock, 20) == ANSWER
                return served
            return False

        self.tell("it is served", in_time(serves))
        self.ended(gateway)

    def test_a_long_request_that_keeps_coming(self):
        """Who sends is not silent."""
        gateway = self.started("--idle", "2", "--stalled", "60", kind=Faked)

        def serves():
            with gateway.dial() as sock, contextlib.suppress(OSError):
                sock.sendall(record(struct.pack("<IHHI", 5, SIZED, 0, 0) + bytes(2000))[:-15])
                for _ in range(14):
                    time.sleep(0.3)
                    sock.sendall(b"x")
                sock.sendall(b"x")
                got = hear(sock, 20)
                return len(got) == 20 and got[8:12] == bytes(4)
            return False

        self.tell("its reply", in_time(serves))
        self.ended(gateway)

    def test_who_takes_its_replies_slowly(self):
        """Who takes some now and then stays, however long all of them take."""
        gateway = self.started("--stalled", "2", kind=Faked)

        def all_come():
            got = 0
            with gateway.dial() as sock, contextlib.suppress(OSError):
                sock.sendall(asks(SIZED, 1_000_000) * 5)
                while got < 5_000_100 and (some := len(hear(sock, 100_000))):
                    got += some
                    time.sleep(0.1)
                    if got >= 4_900_000:
                        got += len(hear(sock, 5_000_100 - got))
            return got == 5_000_100

        self.tell("all come", in_time(all_come))
        self.ended(gateway)

    def test_a_backup_that_copies_is_not_silent(self):
        """It says nothing while it copies what is there, however long that takes."""
        gateway = self.started("--idle", "1", "--hold", "1")
        with gateway.dial("control") as control:
            control.sendall(b"track\n")
            self.tell("it copies", hear(control, 9) == b"tracking ")
            time.sleep(4)
            control.sendall(b"hold\n")
            got = hear(control, 200)
            self.tell("it holds", got.endswith(b"\nheld\n"), got)
        self.ended(gateway)

    def test_a_line_without_its_end(self):
        """Nobody knows whether it is whole: it is refused when its client is let go, as a record
        that is cut."""
        gateway = self.started("--stalled", "1")
        with gateway.dial("listen-hex") as sock:
            sock.sendall(b"0" * 200 + b"\n")
            self.tell("a line", hear(sock, 33) == STUB.hex().encode() + b"\n")
            sock.sendall(NONE.hex().encode() + b"\n" + NONE.hex().encode())
            got = rest(sock).split(b"\n")
            self.tell(
                "one more, and a part",
                got == [NO_REQUEST.hex().encode(), STUB.hex().encode(), b""],
                got,
            )
        with gateway.dial() as sock:
            sock.sendall(record(NONE)[:-1])
            got = rest(sock)
            self.tell("a part of a record", got == record(STUB), got)
        self.ended(gateway)

    def test_a_backup_that_holds(self):
        gateway = self.started("--hold", "1")
        sock = self.dial(gateway)

        def held():
            """The seconds until a client is served again."""
            with gateway.dial("control") as control:
                control.sendall(b"hold\n")
                hear(control, 5)
                sock.sendall(record(NONE))
                begun = time.monotonic()
                self.tell("a client is served again", hear(sock, 20) == ANSWER)
                took = time.monotonic() - begun
                self.tell("the backup is let go", rest(control) == b"")
            return took

        took = least(6, held)
        self.tell("within --hold and a second, about", took < 6, took)
        self.ended(gateway)

    def test_who_waits_for_one_that_is_let_go(self):
        """Is served at once then, and not at the next second."""
        gateway = self.started("--hold", "1")
        sock = self.dial(gateway)

        def waits(held_by, goes):
            """The seconds from the end of the one that holds the server to the reply of the one
            that waits."""
            with held_by:
                goes(held_by)
                sock.sendall(record(NONE))
                rest(held_by)
            gone = time.monotonic()
            self.tell("a client is served again", hear(sock, 20) == ANSWER)
            return time.monotonic() - gone

        def backs_up(control):
            control.sendall(b"hold\n")
            hear(control, 5)

        def asks_alone(alone):
            alone.sendall(record(NONE))
            hear(alone, 20)

        for name, socket_of, goes in (
            ("a backup", "control", backs_up),
            ("an exclusive client", "alone", asks_alone),
        ):
            took = least(0.5, lambda: waits(gateway.dial(socket_of), goes))
            self.tell(f"{name}: at once", took < 0.5, took)
        self.ended(gateway)

    def test_who_waits_for_a_reply_is_not_silent(self):
        gateway = self.started("--idle", "1", kind=Faked)

        def serves():
            gateway.gate(True)
            with gateway.dial() as sock, contextlib.suppress(OSError):
                sock.sendall(asks(SIZED))
                time.sleep(3.5)
                gateway.gate(False)
                first = len(hear(sock, 20))
                sock.sendall(asks(SIZED))
                return (first, len(hear(sock, 20))) == (20, 20)
            return False

        self.tell("its reply comes, and the next one", in_time(serves))
        self.ended(gateway)

    def test_replies_after_a_long_silence(self):
        """The time in which replies are to be taken begins as they come."""
        gateway = self.started("--stalled", "3", kind=Faked)

        def all_come():
            with gateway.dial() as sock, contextlib.suppress(OSError):
                self.asked(sock)
                time.sleep(4)
                sock.sendall(asks(SIZED, 1_000_000) * 3)
                time.sleep(1.3)
                return len(hear(sock, 3_000_060)) == 3_000_060
            return False

        self.tell("all come", in_time(all_come))
        self.ended(gateway)

    def test_who_does_not_close_its_side(self):
        """It gets the end at once, and its place is free after a while."""
        gateway = self.started()
        times = []
        for _ in range(4):
            sock = self.dial(gateway)
            sock.sendall(bytes(4))
            begun = time.monotonic()
            self.tell("the end", rest(sock) == b"")
            times.append(time.monotonic() - begun)
        self.tell("the least time until the end comes", min(times) < 1, times)
        Gateway.wait_for(
            lambda: gateway.counters()["oaut_gateway_clients"] == 0, "it keeps its place"
        )
        self.tell("its place is free", True)
        self.ended(gateway)

    def test_who_leaves_its_replies(self):
        gateway = self.started("--stalled", "1", "--idle", "100", kind=Faked)
        sock = self.dial(gateway)
        sock.sendall(asks(SIZED, 1_000_000) * 3)
        Gateway.wait_for(
            lambda: gateway.counters()["oaut_gateway_stalled_total"] == 1, "it is not let go"
        )
        self.tell("it has not got all", len(rest(sock)) < 3_000_060)
        self.ended(gateway)


@needs_cc
class Bounds(Behaviour):
    def test_a_monitor_without_an_end_of_line(self):
        gateway = self.started()
        for name in ("control", "metrics"):
            with gateway.dial(name) as sock:
                try:
                    for _ in range(2000):
                        sock.sendall(b"x" * 1000)
                    ended = sock.recv(1) == b""
                except socket.timeout:
                    ended = False
                except OSError:
                    ended = True
            self.tell(f"{name} is let go", ended)
        self.ended(gateway)

    def test_short_lines_take_little_memory(self):
        gateway = self.started("--memory", "16")
        socks = [self.stack.enter_context(gateway.dial("listen-hex")) for _ in range(20)]
        for it in socks:
            it.sendall(b"00")
        gateway.counters()
        found = gateway.counters()["oaut_gateway_buffer_bytes"]
        self.tell("20 lines that have begun", found < 2_000_000, found)
        for it in socks:
            it.close()
        self.ended(gateway)

    def test_who_had_no_room_is_read_once_there_is_some(self):
        gateway = self.started("--memory", "16", "--stalled", "600", kind=Faked)
        firsts = [self.stack.enter_context(gateway.dial()) for _ in range(2)]
        for it in firsts:
            it.sendall(struct.pack("<I", BODY_LIMIT) + bytes(100_000))
        time.sleep(0.2)
        late = self.stack.enter_context(gateway.dial())
        sends = threading.Thread(
            target=late.sendall,
            args=[record(struct.pack("<IHHI", 5, SIZED, 0, 0) + bytes(BODY_LIMIT - 12))],
        )
        sends.start()
        time.sleep(0.5)
        for it in firsts:
            it.close()
        self.tell("its reply", len(hear(late, 20)) == 20)
        sends.join()
        late.close()
        self.ended(gateway)

    def test_long_requests_wait_for_each_other(self):
        """Those that begin while there is no room are read once there is, so none is left in
        parts."""
        body = struct.pack("<IHHI", 5, SIZED, 0, 0) + bytes(BODY_LIMIT - 12)
        gateway = self.started("--memory", "16", "--stalled", "600", kind=Faked, flags="-O1 -g")
        for name, data, size in (
            ("listen", record(body), 20),
            ("listen-hex", body.hex().encode() + b"\n", 33),
        ):
            socks, found = [self.stack.enter_context(gateway.dial(name)) for _ in range(4)], []
            for it in socks:
                it.sendall(data[:100_000])
            threads = [
                threading.Thread(
                    target=lambda it=it: (
                        it.sendall(data[100_000:]),
                        found.append(len(hear(it, size))),
                    )
                )
                for it in socks
            ]
            for it in threads:
                it.start()
            for it in threads:
                it.join()
            self.tell(f"all are answered, {name}", found == [size] * 4, found)
        for it in socks:
            it.close()
        self.ended(gateway)

    def test_there_is_room_for_who_has_the_server_alone(self):
        """All others wait for it, and what they have asked for has all the room that there is, and
        that of one more."""
        gateway = self.started("--memory", "16", "--stalled", "600", "--hold", "600", kind=Faked)
        alone = self.dial(gateway, "alone")
        come = gateway.counters()["oaut_gateway_received_bytes_total"]
        sizes = (3_800_000, 3_800_000, 200_000, 1_000_000)
        others = [self.stack.enter_context(gateway.dial()) for _ in sizes]
        for it, size in zip(others, sizes):
            come += 4 + size
            it.sendall(record(asks(SIZED)[4:] + bytes(size - 12)))
            gateway.received(come)
        sends(alone, record(asks(SIZED)[4:] + bytes(100_000)))
        self.tell("it is answered", self.comes(alone, 20))
        alone.close()
        self.tell("so are they, behind it", all(self.comes(it, 20) for it in others))
        self.stack.close()

    def test_those_that_have_a_part_wait_for_nobody_else_that_has(self):
        """Many that send short requests, and behind them the beginning of a long one: what they
        have of these is all the room that there is."""
        gateway = self.started("--memory", "16", "--stalled", "600", kind=Faked)
        short, long = record(asks(SIZED)[4:] + bytes(988)), record(
            asks(SIZED)[4:] + bytes(2_000_000)
        )
        begins = self.dial(gateway)
        gateway.gate(True)
        begins.sendall(asks(SIZED))
        Gateway.wait_for(lambda: len(gateway.batches()) > 1, "there is no batch")
        socks = [self.stack.enter_context(gateway.dial()) for _ in range(40)]
        for it in socks:
            sends(it, short * 300 + long)
        Gateway.wait_for(
            lambda: gateway.counters()["oaut_gateway_buffer_bytes"] > 8_000_000,
            "there is room left",
        )
        time.sleep(0.5)
        gateway.gate(False)
        self.tell("all are answered", all(self.comes(it, 301 * 20) for it in socks))
        self.stack.close()

    def test_requests_have_half_of_the_memory(self):
        gateway = self.started("--memory", "16", kind=Faked)
        for _ in range(4):
            sock = self.stack.enter_context(gateway.dial())
            sock.sendall(struct.pack("<I", BODY_LIMIT) + bytes(100_000))
        gateway.received(100_000)
        time.sleep(0.3)
        found = gateway.counters()["oaut_gateway_buffer_bytes"]
        self.tell("the buffers of four long requests", found < 9_000_000, found)
        self.stack.close()

    def test_who_has_most_of_the_replies_is_let_go(self):
        """Where replies come to --memory: 12 MB of one, and 6 MB of another, that both take none
        yet."""

        def stays():
            """Whether the other one has all of its replies. If these need a second to come, it is
            let go too, as one that takes none for so long."""
            with Faked("--memory", "16") as gateway, contextlib.ExitStack() as stack:
                gateway.settles()
                begins, most, less = (stack.enter_context(gateway.dial()) for _ in range(3))
                for it in (begins, most, less):
                    self.asked(it)
                gateway.gate(True)
                before, come = (
                    len(gateway.batches()),
                    gateway.counters()["oaut_gateway_received_bytes_total"],
                )
                begins.sendall(asks(SIZED))
                Gateway.wait_for(lambda: len(gateway.batches()) > before, "there is no batch")
                most.sendall(asks(SIZED, 1_000_000) * 12)
                gateway.received(come + 16 * 13)
                less.sendall(asks(SIZED, 1_000_000) * 6)
                gateway.received(come + 16 * 19)
                gateway.gate(False)
                Gateway.wait_for(
                    lambda: gateway.counters()["oaut_gateway_stalled_total"] >= 1,
                    "nobody is let go",
                )
                found = 0
                with contextlib.suppress(ConnectionResetError):
                    found = len(hear(less, 6 * 1_000_020))
                self.tell("who had most has not all of them", len(rest(most)) < 12 * 1_000_020)
                stalled = gateway.counters()["oaut_gateway_stalled_total"]
                self.ended(gateway)
            return found == 6 * 1_000_020 and stalled == 1

        self.tell("the other one has all of its replies", in_time(stays))

    def test_memory_that_was_used_is_given_back(self):
        """Requests of 4 MiB that were answered keep no room from others."""
        gateway = self.started("--memory", "16", kind=Faked)
        big = record(struct.pack("<IHHI", 5, SIZED, 0, 0) + bytes(BODY_LIMIT - 12))
        for _ in range(6):
            sock = self.dial(gateway)
            sock.sendall(big)
            self.tell("a long request of one more", len(hear(sock, 20)) == 20)
        found = gateway.counters()["oaut_gateway_buffer_bytes"]
        self.tell("the buffers", found < 3_000_000, found)
        self.ended(gateway)


@needs_cc
class Tcp(Behaviour):
    def dial_tcp(self, port):
        sock = self.stack.enter_context(socket.create_connection(("127.0.0.1", port), SECONDS))
        self.asked(sock)
        return sock

    def test_options_of_the_connection(self):
        port = free_port()
        gateway = self.started("--listen", f"127.0.0.1:{port}")
        sock = self.dial_tcp(port)
        far = next(
            it for it in self.sockets_of(gateway.process.pid) if self.peer(it) == sock.getsockname()
        )
        self.tell("TCP_NODELAY", far.getsockopt(socket.IPPROTO_TCP, socket.TCP_NODELAY))
        self.tell("SO_KEEPALIVE", far.getsockopt(socket.SOL_SOCKET, socket.SO_KEEPALIVE))
        self.tell(
            "a client that has gone is noticed soon",
            far.getsockopt(socket.IPPROTO_TCP, socket.TCP_KEEPIDLE) <= 60,
        )
        self.tell(
            "also if it does not answer at once",
            far.getsockopt(socket.IPPROTO_TCP, socket.TCP_KEEPINTVL) <= 15,
        )
        sock.close()

    def peer(self, sock):
        with contextlib.suppress(OSError):
            return sock.getpeername()

    def sockets_of(self, pid):
        """The sockets of another process."""
        process = os.pidfd_open(pid)
        self.stack.callback(os.close, process)
        libc, links = ctypes.CDLL(None, use_errno=True), {}
        for it in map(int, os.listdir(f"/proc/{pid}/fd")):
            with contextlib.suppress(OSError):  # (a connection may end meanwhile)
                links[it] = os.readlink(f"/proc/{pid}/fd/{it}")
        for it in (it for it, link in links.items() if link.startswith("socket:")):
            fd = libc.syscall(438, process, it, 0)  # pidfd_getfd
            if fd < 0 and ctypes.get_errno() == errno.EBADF:
                continue
            if fd < 0:
                self.skipTest("the system lets nobody look at another process's sockets")
            yield self.stack.enter_context(socket.socket(fileno=fd))

    def test_the_same_port_again(self):
        port = free_port()
        gateway = self.started("--listen", f"127.0.0.1:{port}", kind=Faked)
        sock = self.dial_tcp(port)
        gateway.process.terminate()
        rest(sock)
        sock.close()
        self.ended(gateway, with_=None)
        gateway.start()
        self.tell(
            "it listens",
            Gateway.wait_for(
                lambda: gateway.process.poll() is not None or gateway.counters(),
                "it does not serve",
            )
            is not True,
        )
        self.dial_tcp(port)
        self.ended(gateway)

    def test_replies_to_who_still_sends(self):
        """One that sends more after what ends its session, and reads late, gets all replies."""
        port = free_port()
        gateway = self.started("--listen", f"127.0.0.1:{port}")

        def all_come():
            with socket.socket() as sock:
                sock.setsockopt(socket.SOL_SOCKET, socket.SO_RCVBUF, 4096)
                sock.settimeout(SECONDS)
                sock.connect(("127.0.0.1", port))
                sock.sendall(record(NONE) * 2000 + struct.pack("<I", BODY_LIMIT + 1))
                for _ in range(10):
                    time.sleep(0.05)
                    with contextlib.suppress(OSError):
                        sock.sendall(b"more")
                return rest(sock) == ANSWER * 2000 + record(STUB)

        self.tell("2,000 replies and a refusal", in_time(all_come))
        self.ended(gateway)


@needs_cc
class Copies(Behaviour):
    """oaut-gateway backup."""

    def test_who_may_read_the_copy(self):
        gateway = self.started()
        done = subprocess.run(
            [gateway.binary, "backup", f"{gateway.room}/control", f"{gateway.room}/copy"],
            capture_output=True,
            text=True,
            preexec_fn=lambda: os.umask(0),
        )
        mode = stat.S_IMODE(os.stat(f"{gateway.room}/copy").st_mode)
        self.tell("its owner alone", done.returncode == 0 and mode == 0o600, (done, oct(mode)))

    def test_what_was_put_until_it_holds(self):
        """A put that is acknowledged before the clients have to wait is in the copy."""
        gateway = self.started()
        with gateway.session() as server:
            number = server.create("Item").number
        sock = self.dial(gateway)

        def puts(value):
            put = oaut.ask_invoke(
                number, 1, oaut.PROPERTYPUT, [oaut.NEW_VALUE], [wire.scalar(wire.I4, value)]
            )
            sock.sendall(record(struct.pack("<I", 5) + put))
            hear(sock, 20)

        puts(1)
        holds = self.copied_by_way_of(gateway, lambda: puts(77))
        status, out, err = run_in(gateway.room, ["dump", "copy"])
        self.tell("the copy has it", status == 0 and b" 1 - 03004d000000\n" in out, (out, err))
        self.tell("it held once", holds == 1, holds)

    def test_the_end_of_an_exchange_is_no_new_library(self):
        """The Python client ends each exchange with a record that the server refuses: a backup goes
        on beside it."""
        gateway = self.started()
        with gateway.session() as server:
            item = server.create("Item")
            holds = self.copied_by_way_of(gateway, lambda: setattr(item, "Count", 77))
        self.tell("it held once", holds == 1, holds)

    def copied_by_way_of(self, gateway, before_it_holds):
        """A backup whose words go through this process, which does something before it sends the
        one that holds. How often that was."""
        holds = []

        def carries(near):
            with near, gateway.dial("control") as far:
                threading.Thread(target=self.carries, args=(far, near), daemon=True).start()
                with contextlib.suppress(OSError):
                    while some := near.recv(1000):
                        if some.startswith(b"hold"):
                            holds.append(before_it_holds())
                        far.sendall(some)
                    far.shutdown(socket.SHUT_RDWR)

        def accepts():
            with contextlib.suppress(OSError):
                while True:
                    threading.Thread(
                        target=carries, args=[listening.accept()[0]], daemon=True
                    ).start()

        with socket.socket(socket.AF_UNIX) as listening:
            listening.bind(f"{gateway.room}/between")
            listening.listen()
            threading.Thread(target=accepts, daemon=True).start()
            found = told_of("backup", f"{gateway.room}/between", f"{gateway.room}/copy")
            listening.shutdown(socket.SHUT_RDWR)
        self.tell("the backup", found[0] == 0, found)
        return len(holds)

    @staticmethod
    def carries(source, to):
        with contextlib.suppress(OSError):
            while some := source.recv(1000):
                to.sendall(some)

    @left_out("strace")
    def test_it_is_on_the_device_before_it_has_its_name(self):
        gateway = self.started(flags="-O1 -g")
        log = f"{gateway.room}/log"
        subprocess.run(
            [
                "strace",
                "-y",
                "-o",
                log,
                gateway.binary,
                "backup",
                f"{gateway.room}/control",
                f"{gateway.room}/copy",
            ],
            check=True,
            stdout=subprocess.DEVNULL,
        )
        with open(log) as file:
            calls = [
                it
                for it in file.read().splitlines()
                if not it.endswith("(Operation not supported)")
            ]
        syncs = [place for place, it in enumerate(calls) if re.match(r"f(data)?sync\(", it)]
        names = [
            place for place, it in enumerate(calls) if re.match(r"(link|rename)(at|at2)?\(", it)
        ]
        writes = [
            place
            for place, it in enumerate(calls)
            if re.match(r"(pwrite64|write|copy_file_range|ftruncate|fallocate)\([^12]", it)
        ]
        wanted = (
            names
            and writes
            and any(writes[-1] < it < names[0] for it in syncs)
            and any(it > names[-1] for it in syncs)
        )
        self.tell(
            "written, synced, named, the folder synced",
            wanted,
            [calls[it] for it in sorted(syncs + names + writes[-1:])],
        )

    def test_a_copy_replaces_a_longer_file(self):
        gateway = self.started()
        with gateway.session() as server:
            server.create("Item").Count = 3
        size = os.path.getsize(gateway.store)
        for name in ("copy", "copy.part"):
            with open(f"{gateway.room}/{name}", "wb") as file:
                file.truncate(size + 5000)
        status, out, err = told_of("backup", f"{gateway.room}/control", f"{gateway.room}/copy")
        self.tell("the backup", status == 0, (out, err))
        self.tell(
            "its length",
            os.path.getsize(f"{gateway.room}/copy") == size,
            os.path.getsize(f"{gateway.room}/copy"),
        )


@needs_cc
class Programs(Behaviour):
    def test_the_page_ends_with_a_gateway_that_is_killed(self):
        with tempfile.TemporaryDirectory() as room:
            with open(f"{room}/python3", "w") as file:
                file.write(
                    f"#!/bin/sh\necho $$ > {room}/new\nmv {room}/new {room}/page\nexec sleep 1000\n"
                )
            os.chmod(f"{room}/python3", 0o755)
            gateway = self.started(
                "--view", f"127.0.0.1:{free_port()}", PATH=f"{room}:{os.environ['PATH']}"
            )
            Gateway.wait_for(lambda: os.path.exists(f"{room}/page"), "there is no page")
            with open(f"{room}/page") as file:
                page = int(file.read())
            gateway.process.kill()
            gateway.process.wait()
            waits_for_end(page)
            self.tell("it has ended", True)

    @needs_cc
    def test_children_of_others(self):
        """The first process of a container gets the children of those that have ended: none of them
        is left there."""
        # PR_SET_CHILD_SUBREAPER
        reaper = (
            "import ctypes, os, sys; ctypes.CDLL(None).prctl(36, 1, 0, 0, 0) or "
            "os.execvp(sys.argv[1], sys.argv[1:])"
        )
        gateway = Faked(starts=False, under=(sys.executable, "-c", reaper))
        self.stack.enter_context(gateway)
        with open(f"{gateway.room}/lone", "w") as file:
            child = (
                f"echo \\$\\$ >> {gateway.room}/lost; while [ -e {gateway.room}/lone ] && [ ! -e "
                f"{gateway.room}/ends ]; do sleep 0.1; done"
            )
            file.write(
                f'#!/bin/sh\n[ "$1" = dump ] || (sh -c "{child}" &)\n'
                f'exec {sys.executable} {gateway.room}/fake "$@"\n'
            )
        os.chmod(f"{gateway.room}/lone", 0o755)
        gateway.words[gateway.words.index("--program") + 1] = f"{gateway.room}/lone"
        gateway.start()
        Gateway.wait_for(lambda: gateway.lines("lost"), "there is no such child")
        lost = int(gateway.lines("lost")[0])

        def parent():
            with open(f"/proc/{lost}/stat") as file:
                return int(file.read().rpartition(") ")[2].split()[1])

        Gateway.wait_for(lambda: parent() == gateway.process.pid, "the gateway does not get it")
        self.tell("the gateway has it", True)
        open(f"{gateway.room}/ends", "w").close()
        Gateway.wait_for(lambda: not os.path.exists(f"/proc/{lost}"), "it is left")
        self.tell("nobody is left", True)
        first = gateway.server()
        os.kill(first, signal.SIGKILL)
        Gateway.wait_for(
            lambda: gateway.server() not in (0, first), "the server is not started again"
        )
        self.ended(gateway)

    def test_what_reads_the_library_is_killed(self):
        """As the server that it is for: it is started again."""
        gateway = self.stack.enter_context(Faked(starts=False))
        with open(f"{gateway.room}/killed", "w") as file:
            file.write(
                f'#!/bin/sh\n[ "$1" != dump ] || [ -e {gateway.room}/once ] || {{ : > '
                f"{gateway.room}/once; kill -9 $$; }}\n"
            )
            file.write(f'exec {sys.executable} {gateway.room}/fake "$@"\n')
        os.chmod(f"{gateway.room}/killed", 0o755)
        gateway.words[gateway.words.index("--program") + 1] = f"{gateway.room}/killed"
        gateway.start()
        self.tell("it serves", gateway.process.poll() is None, gateway.process.poll())
        self.tell(
            "in the second try",
            os.path.exists(f"{gateway.room}/once")
            and gateway.counters().get("oaut_gateway_server_starts_total") == 2,
        )
        self.ended(gateway)

    def test_a_page_that_ends(self):
        with tempfile.TemporaryDirectory() as room:
            with open(f"{room}/python3", "w") as file:
                # (by 6 if a module of the current folder would be run)
                file.write(
                    '#!/bin/sh\n[ "$2" != oaut ] || exit $((6 + PYTHONSAFEPATH))\n'
                    f'exec {sys.executable} "$@"\n'
                )
            os.chmod(f"{room}/python3", 0o755)
            gateway = self.started(
                "--view",
                f"127.0.0.1:{free_port()}",
                PATH=f"{room}:{os.environ['PATH']}",
                kind=Faked,
            )
            Gateway.wait_for(
                lambda: any(
                    "the page of --view has ended, by status 7" in it
                    for it in gateway.lines("said")
                ),
                "nobody is told",
            )
            self.ended(gateway)

    def test_a_full_socket_of_systemd(self):
        """Clients are served all the same, and systemd is told that the gateway is ready once it
        reads."""
        with tempfile.TemporaryDirectory() as room, contextlib.ExitStack() as stack:
            notified, fills = (
                stack.enter_context(socket.socket(socket.AF_UNIX, socket.SOCK_DGRAM))
                for _ in range(2)
            )
            notified.bind(f"{room}/notify")
            notified.settimeout(SECONDS)
            fills.setblocking(False)
            with contextlib.suppress(BlockingIOError):
                while True:
                    fills.sendto(b"full", f"{room}/notify")
            gateway = self.started(kind=Faked, NOTIFY_SOCKET=f"{room}/notify")
            self.dial(gateway)
            Gateway.wait_for(
                lambda: notified.recv(500).startswith(b"READY=1\nSTATUS=serving "),
                "it does not say that it is ready",
            )
            self.ended(gateway)

    def test_probe_beside_a_device_that_has_failed(self):
        gateway = self.started(kind=Faked)
        for code in (E_FAIL, WRITE_FAULT):
            with open(f"{gateway.room}/code", "w") as file:
                file.write(str(code))
            found = told_of("probe", f"{gateway.room}/listen", str(SECONDS))
            self.tell(
                f"a reply of {code:08x}",
                found[:2] == (3, "") and found[2].startswith("oaut-gateway: "),
                found,
            )
