"""Every system call of the gateway fails once, at each place that makes it.

A first run under `strace -k` finds the places. In each further run one of them fails. The gateway
may then go on, with every acknowledged put kept; or it ends with a documented status and a line
that says why. It never hangs and never spins. The same goes for its commands. `OAUT_FAULTS=TEXT`
runs only the faults with TEXT in their names.
"""
import collections
import concurrent.futures
import contextlib
import functools
import os
import re
import resource
import shutil
import signal
import socket
import struct
import subprocess
import tempfile
import time
import unittest

from tests.gateway.gateways import Gateway, built, hear, record
from tests.support import wire
from tests.support.ports import free_port
from tests.support.preloaded import COMPILER
from tests.support.running import Cases, goes_on, run_in
from tests.support.tries import least
from tests.support.wire import oaut
from tests.support.worked import CELL, FIRST_ONE, ITEM

PLAIN = "-O1 -g"  # a process cannot have both strace and the leak sanitizer
WORKERS = 6
PATIENCE = 60  # seconds
# what each command says, if it is done
SAYS = {
    "backup": "held for",
    "status": "oaut_gateway_clients",
    "measure": "oaut_store_objects",
    "reload": "reloaded",
    "probe": "serves",
}
IDLE = 0.5  # seconds in which nothing is asked, to find a loop that spins
# how each call fails; `+` is for ever from then on
ERRORS = {
    "accept4": ["EMFILE", "ECONNABORTED"],
    "bind": ["EACCES"],
    "mmap mremap": ["ENOMEM"],
    "chmod fchmod fchmodat": ["EPERM"],
    "clone clone3 fork vfork": ["EAGAIN"],
    "connect": ["EAGAIN"],
    "copy_file_range": ["EIO", "EXDEV"],
    "dup2 dup3": ["EBUSY"],
    "epoll_create1": ["EMFILE"],
    "epoll_ctl": ["ENOMEM"],
    "epoll_pwait epoll_wait": ["EINTR"],
    "epoll_pwait2": ["EINTR", "ENOSYS+", "EPERM+"],
    "fallocate ftruncate": ["ENOSPC"],
    "fcntl ioctl": ["EPERM"],
    "flock": ["ENOLCK", "EINTR"],
    "fstat lstat newfstatat stat statx": ["EIO"],
    "fsync fdatasync sync_file_range": ["EIO"],
    "getcwd readlink readlinkat": ["EACCES"],
    "getsockname getsockopt setsockopt": ["ENOBUFS"],
    "kill pidfd_open pidfd_send_signal setpgid prctl": ["EPERM"],
    "link linkat rename renameat renameat2": ["EACCES"],
    "listen": ["EADDRINUSE"],
    "lseek": ["EINVAL"],
    "memfd_create": ["EMFILE"],
    "open openat": ["EMFILE"],
    "pipe2 socket socketpair": ["EMFILE"],
    "pread64 read": ["EIO", "EINTR"],
    "prlimit64": ["EPERM"],
    "pwrite64 write writev": ["ENOSPC"],
    "recvfrom recvmsg": ["ECONNRESET", "EINTR"],
    "sendmsg sendto": ["EPIPE", "ENOBUFS"],
    "shutdown": ["ENOTCONN"],
    "signalfd4 timerfd_create eventfd2": ["EMFILE"],
    "unlink unlinkat": ["EACCES"],
    "wait4 waitid": ["EINTR", "ECHILD"],
}
CALLS = {call: errors for calls, errors in ERRORS.items() for call in calls.split()}
# brk has no error, a close that does not happen would leave a connection open, restart_syscall goes
# on with a call that a signal broke off, and the others do not fail if their words are right
NEVER_FAIL = {
    "brk",
    "close",
    "exit_group",
    "munmap",
    "rt_sigprocmask",
    "rt_sigaction",
    "getpid",
    "getppid",
    "umask",
    "poll",
    "futex",
    "getrandom",
    "mprotect",
    "set_robust_list",
    "clock_nanosleep",
    "execve",
    "geteuid",
    "getuid",
    "restart_syscall",
}
LINE = re.compile(r"oaut-gateway: \S.*")
NONE = struct.pack("<IHH", 77, 99, 0)


@functools.lru_cache(None)
def finds_places():
    """Whether there is a strace that prints the places of calls."""
    return (
        bool(shutil.which("strace"))
        and "stack-trace="
        in subprocess.run(["strace", "-V"], capture_output=True, text=True).stdout
    )


def strace(log, *words):
    """What precedes a program's words: strace, as a process that is not its parent. Programs that
    it starts are not traced."""
    return ["strace", "-D", "-f", "-b", "execve", "-q", "-o", log, "-e", "signal=none", *words]


def places_of(log, binary):
    """The places of calls in a log of `strace -k`: the call, the places in the program and in its
    caller, and which call of that name of its process it was first."""
    found, counts, call, unfinished = {}, collections.Counter(), None, {}
    with open(log, errors="replace") as file:
        for line in file:
            called = re.match(r"(\d+) +(\w+)\(", line)
            resumed = re.match(r"(\d+) +<\.\.\. \w+ resumed>", line)
            frame = re.match(rf" > {re.escape(binary)}\((\w+\+\w+)\)", line)
            if called:
                counts[called[1], called[2]] += 1
                call, frames = (called[2], counts[called[1], called[2]]), []
                if line.endswith("<unfinished ...>\n"):
                    unfinished[called[1]], call = call, None
            elif resumed:
                call, frames = unfinished.pop(resumed[1], None), []
            elif call and frame and not frame[1].startswith("_start"):
                frames.append(frame[1])
                if len(frames) == 2 or frame[1].startswith("main+"):
                    found.setdefault((call[0], " of ".join(frames)), call[1])
                    call = None
    return sorted((*place, count) for place, count in found.items())


def faults_at(places):
    """Each fault at these places: its name, and strace's words for it."""
    found = []
    for call, place, count in places:
        for error in CALLS.get(call, []):
            ever, error = "+" * error.endswith("+"), error.strip("+")
            when = f"{call}:error={error}:when={count}{ever}"
            found.append(
                (
                    f"{call}, its call {count}{ever}, of {place}: {error}",
                    ("-e", f"trace={call}", "-e", f"inject={when}"),
                )
            )
    return found


def said_in(room):
    with open(f"{room}/said", errors="replace") as file:
        return file.read()


class Served:
    """A gateway that is started, asked in each way, has its server killed, and is ended."""

    def __init__(self, name, under, log=None):
        self.name, self.under, self.log = name, under, log
        self.acknowledged, self.sent, self.number, self.wrong = 0, 0, None, []

    def play(self):
        """What was wrong: a list of texts."""
        self.port = free_port()
        words = [
            "--metrics",
            f"127.0.0.1:{self.port}",
            "--allow-user",
            str(os.geteuid()),
            "--stalled",
            "5",
        ]
        sockets = ("listen", "alone", "listen-hex", "control", "watch")
        with Gateway(
            *words, sockets=sockets, starts=False, flags=PLAIN
        ) as self.gateway, socket.socket(socket.AF_UNIX, socket.SOCK_DGRAM) as notified:
            notified.bind(f"{self.gateway.room}/notify")
            self.gateway.variables["NOTIFY_SOCKET"] = f"{self.gateway.room}/notify"
            self.gateway.words[:0] = strace(self.log or f"{self.gateway.room}/log", *self.under)
            self.gateway.start(waits=False)
            for step in (
                self.create,
                self.put,
                self.put_text,
                self.lines,
                self.alone,
                self.metrics,
                self.status,
                self.hold,
                self.lock,
                self.watch,
                self.keys,
            ):
                self.tried(step)
            for step in (self.kill, self.put, self.idle, self.put):
                self.tried(step)
            self.judge()
        return self.wrong

    def lives(self):
        return self.gateway.process.poll() is None

    def tried(self, step):
        """Tries a step until it is done: a connection may be lost by the fault, and the server be
        started again."""
        until, done = time.monotonic() + PATIENCE, self.wrong != []
        while not done and self.lives():
            with contextlib.suppress(OSError, struct.error):
                done = step()
            if not done and time.monotonic() > until:
                self.wrong.append(f"{step.__name__}: not done in {PATIENCE} s")
                break
            time.sleep(0 if done else 0.02)

    def dial(self, name):
        sock = self.gateway.dial(name)
        sock.settimeout(20)
        return sock

    def asked(self, request):
        """The code of the reply and what follows it, or None and nothing."""
        with self.dial("listen") as sock:
            sock.sendall(record(struct.pack("<I", 7) + request))
            reply = hear(sock, struct.unpack("<I", hear(sock, 4))[0])
        return (
            (struct.unpack_from("<I", reply, 4)[0], reply[16:]) if len(reply) >= 16 else (None, b"")
        )

    def invoked(self, dispid, *value):
        kind = oaut.PROPERTYPUT if value else oaut.PROPERTYGET
        return self.asked(
            oaut.ask_invoke(
                self.number,
                dispid,
                kind,
                [oaut.NEW_VALUE] if value else [],
                [wire.scalar(*it) for it in value],
            )
        )

    def create(self):
        code, fields = self.asked(oaut.ask_create(ITEM))
        if code == 0:
            self.number = struct.unpack_from("<I", fields)[0]
        return code == 0

    def put(self):
        self.sent += 1
        code, _ = self.invoked(1, (wire.I4, self.sent))
        if code == 0:
            self.acknowledged = self.sent
        return code == 0

    def put_text(self):
        """A text that needs many turns in both directions."""
        return (
            self.invoked(2, (wire.BSTR, "x".encode("utf-16-le") * 200_000))[0] == 0
            and len(self.invoked(2)[1]) > 400_000
        )

    def lines(self):
        with self.dial("listen-hex") as sock:
            sock.sendall(NONE.hex().encode() + b"\n")
            return len(hear(sock, 33)) == 33

    def alone(self):
        with self.dial("alone") as sock:
            sock.sendall(record(NONE))
            return len(hear(sock, 20)) == 20

    def metrics(self):
        with socket.create_connection(("127.0.0.1", self.port), 20) as sock:
            sock.sendall(b"GET /metrics HTTP/1.0\r\n\r\n")
            return hear(sock, 15) == b"HTTP/1.0 200 OK"

    def status(self):
        with self.dial("control") as sock:
            sock.sendall(b"status\n")
            return hear(sock, 6) == b"# HELP"

    def hold(self):
        with self.dial("control") as sock:
            sock.sendall(b"hold\n")
            held = hear(sock, 5) == b"held\n"
            sock.sendall(b"free\n")
            return held and hear(sock, 8) == b"held for"

    def lock(self):
        return (
            self.asked(oaut.ask_call(oaut.LOCK, self.number, 8, oaut.PROPERTYGET, [], []))[0]
            is not None
        )

    def watch(self):
        """A client watches a put, and has nothing more to say. Another one stays connected,
        whatever happens to that."""

        def answers(sock):
            with contextlib.suppress(OSError):
                sock.sendall(record(NONE))
                return len(hear(sock, 20)) == 20

        with self.dial("listen") as other, self.dial("watch") as sock, sock.makefile() as file:
            sock.sendall(b"watch values\n")
            if "epoch" not in file.readline() or not answers(other):
                return False
            sock.shutdown(socket.SHUT_WR)
            done = self.put() and f'"value":{self.sent}}}' in file.readline()
            if "epoll_ctl" in self.name and not answers(other):
                self.wrong.append("another client's connection has ended")
        return done

    def keys(self):
        with self.dial("watch") as sock:
            sock.sendall(
                f"keys object={self.number} interface={FIRST_ONE} member={CELL}\n".encode()
            )
            got = hear(sock, 11)
        # (strace lets the same call of each process fail that the gateway begins)
        return got == b'{"keys":0}\n' or (got == b'{"busy":2}\n' and "inject" in str(self.under))

    def kill(self):
        server = self.gateway.server()
        if server:
            os.kill(server, signal.SIGKILL)
        return bool(server)

    def processor(self):
        with open(f"/proc/{self.gateway.process.pid}/stat") as file:
            fields = file.read().rsplit(")", 1)[1].split()
        return (int(fields[11]) + int(fields[12])) / os.sysconf("SC_CLK_TCK")

    def idle(self):
        def taken():
            before = self.processor()
            time.sleep(IDLE)
            return self.processor() - before

        took = least(0.05, taken)
        if took >= 0.05:
            self.wrong.append(
                f"it spins: {took:.2f} s of a processor while nothing was asked for {IDLE} s"
            )
        return True

    def judge(self):
        went_on = self.lives()
        if went_on:
            self.gateway.process.terminate()
        try:
            status = self.gateway.process.wait(PATIENCE)
        except subprocess.TimeoutExpired:
            self.wrong.append(f"SIGTERM does not end it in {PATIENCE} s")
            self.gateway.process.kill()
            status = self.gateway.process.wait()
        said = said_in(self.gateway.room)
        reasons = [
            it
            for it in said.splitlines()
            if LINE.fullmatch(it)
            and it != f"oaut-gateway: the server has ended, by signal {signal.SIGKILL:d}"
        ]
        if status and not (status in (1, 3) and reasons and said.count("\n") <= 5):
            self.wrong.append(
                f"it ends with status {status}{' at SIGTERM' * went_on} and says {said!r}"
            )
        if status == 0 and not went_on:
            self.wrong.append("it ends by itself with status 0")
        left = {*os.listdir(self.gateway.room)} - {"it.store", "said", "notify", "log"}
        if left and "remove_socket" not in self.name:  # (what cannot be looked at is not removed)
            self.wrong.append(f"files are left: {sorted(left)}")
        if self.number is not None:
            self.judge_store()

    def judge_store(self):
        Gateway.wait_for(
            lambda: b"in use" not in run_in(self.gateway.room, ["dump", "it.store"])[2],
            "the store stays in use",
        )
        status, out, err = run_in(self.gateway.room, ["dump", "it.store"])
        found = re.search(rb" 1 - 0300(\w{8})\n", out)
        value = int.from_bytes(bytes.fromhex(found[1].decode()), "little") if found else 0
        if status or not self.acknowledged <= value <= self.sent:
            self.wrong.append(
                f"the store has {value}, with {self.acknowledged} acknowledged and {self.sent} "
                f"sent; {status} {err!r}"
            )


def asked_of(gateway, room, words, under):
    """Runs one of the commands of `oaut-gateway` in a folder of its own. What was wrong: a list of
    texts."""
    wrong, says = [], SAYS[words[0]]
    with open(f"{room}/said", "w+") as said, open(f"{room}/out", "w+") as out:
        done = subprocess.run(
            [*strace(f"{room}/log", *under), gateway.binary, *words],
            cwd=room,
            stdout=out,
            stderr=said,
            timeout=4 * PATIENCE,
        )
        said.seek(0)
        out.seek(0)
        told, lines = out.read(), said.read().splitlines()
    well = (
        says in told and not lines
        if done.returncode == 0
        else done.returncode == 1 and len(lines) == 1 and LINE.fullmatch(lines[0])
    )
    if not well:
        wrong.append(f"status {done.returncode}, {told[-200:]!r}, {lines}")
    left = {*os.listdir(room)} - {"said", "out", "log", "copy"}
    if left and "unlink" not in str(under):
        wrong.append(f"it leaves {sorted(left)}")
    if done.returncode == 0 and "fsync:error" in str(under):
        wrong.append("status 0, though it was not synced")
    if words[0] == "backup" and done.returncode == 0 and not os.path.exists(f"{room}/copy"):
        wrong.append("status 0, and there is no copy")
    if (
        os.path.exists(f"{room}/copy")
        and b" 1 - 030001000000\n" not in run_in(room, ["dump", "copy"])[1]
    ):
        wrong.append("the copy is not the store")
    return wrong


@unittest.skipUnless(
    COMPILER and finds_places(), "cc, or an strace that finds places, is not there"
)
class Faults(Cases):
    def tried(self, act, places, workers=WORKERS):
        """Plays a fault at each place, some at a time."""
        unknown = {call for call, *_ in places} - {*CALLS} - NEVER_FAIL
        self.tell("each call has an error to fail with", not unknown, sorted(unknown))
        faults = [it for it in faults_at(places) if os.environ.get("OAUT_FAULTS", "") in it[0]]
        with concurrent.futures.ThreadPoolExecutor(workers) as pool:
            for (name, _), wrong in zip(faults, pool.map(lambda it: act(*it), faults)):
                self.tell(name, not wrong, "; ".join(wrong))
                goes_on()

    def test_serving(self):
        with tempfile.TemporaryDirectory() as room:
            wrong = Served("", ("-k",), log=f"{room}/log").play()
            self.tell("without a fault", not wrong, "; ".join(wrong))
            places = places_of(f"{room}/log", built(PLAIN)[0])
        self.tell("places are found", len(places) > 60, places)
        self.tried(lambda name, under: Served(name, under).play(), places)

    def test_memory(self):
        """Allocations that fail while a long request comes: it is refused, or the gateway ends and
        says why."""
        with Gateway(flags=PLAIN) as gateway:
            with gateway.session() as server:
                item = server.create("Item")
                item.Count = 5
            with open(f"/proc/{gateway.process.pid}/status") as file:
                size = int(re.search(r"VmSize:\s+(\d+) kB", file.read())[1]) << 10
            resource.prlimit(gateway.process.pid, resource.RLIMIT_AS, (size + (1 << 20), -1))
            with gateway.dial() as sock, contextlib.suppress(OSError):
                sock.sendall(record(NONE + bytes(4_000_000)))
                sock.recv(20)
            ended = gateway.process.poll() is not None
            resource.prlimit(
                gateway.process.pid, resource.RLIMIT_AS, (-1, -1)
            ) if not ended else None
            status, said = gateway.end(None if ended else signal.SIGTERM)
            # (the server whose socket was reset, or that writes to it, may say so of itself)
            own = [
                it
                for it in said.splitlines()
                if it not in ("oaut: read fault", "oaut: write fault")
            ]
            ends_well = status == 1 and len(own) == 1 and "out of memory" in own[0]
            self.tell(
                "it goes on, or says why not",
                (status, said) == (0, "") or ends_well,
                (status, said),
            )
            status, out, err = run_in(gateway.room, ["dump", "it.store"])
            self.tell("what was acknowledged is there", b" 1 - 030005000000\n" in out, (out, err))

    def test_commands(self):
        with Gateway(flags=PLAIN) as gateway:
            with gateway.session() as server:
                server.create("Item").Count = 1
            control = f"{gateway.room}/control"
            for words in (
                ["backup", control, "copy"],
                ["status", control],
                ["measure", gateway.store],
                ["reload", control, "--idle", "60"],
                ["probe", f"{gateway.room}/listen", "5"],
            ):

                def act(name, under, log=None, words=words):
                    with tempfile.TemporaryDirectory(dir=gateway.room) as room:
                        wrong = asked_of(gateway, room, words, under)
                        return (
                            wrong if not log else (wrong, places_of(f"{room}/log", gateway.binary))
                        )

                wrong, places = act("", ("-k",), log=True)
                self.tell(f"{words[0]} without a fault", not wrong, "; ".join(wrong))
                # a gateway has one backup at a time
                self.tried(act, places, 1 if words[0] == "backup" else WORKERS)
            self.tell("the gateway's end", gateway.end()[0] == 0)
