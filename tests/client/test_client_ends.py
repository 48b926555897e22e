"""How sessions end, and what comes of a program that is behind a socket."""
import contextlib
import ctypes
import os
import pathlib
import re
import shutil
import signal
import socket
import struct
import subprocess
import sys
import tempfile
import threading
import time
import unittest

from oaut import I4
from tests.client.clients import FULL, PROGRAM, ROOT, ClientCases, library_of, oaut, play
from tests.support.calls import STRACE

ACTIVATE = shutil.which("systemd-socket-activate")
LISTENERS = {
    "systemd-socket-activate": lambda path, words: [
        ACTIVATE,
        "--accept",
        "--inetd",
        "-l",
        path,
        *words,
    ],
    "socat": lambda path, words: ["socat", f"UNIX-LISTEN:{path},fork", "EXEC:" + " ".join(words)],
}
ONE_AT_A_TIME = f"{ROOT}/examples/one_at_a_time.py"
# how many clients end in each way that examples/one_at_a_time.py has to outlive
CLIENTS = int(os.environ.get("OAUT_CLIENTS", "100"))


@contextlib.contextmanager
def dialled(path):
    """A socket that is connected to this path, once something listens there."""
    until = time.monotonic() + 300
    while True:
        with socket.socket(socket.AF_UNIX) as sock:
            sock.settimeout(300)
            try:
                sock.connect(path)
            except (FileNotFoundError, ConnectionRefusedError):
                if time.monotonic() > until:
                    raise
                time.sleep(0.02)
                continue
            yield sock
            return


@contextlib.contextmanager
def connected(path):
    """A session over such a socket."""
    with dialled(path) as sock, oaut.connect(sock) as server:
        yield server


@contextlib.contextmanager
def listening(words):
    """What listens, as long as this lasts."""
    with subprocess.Popen(
        words, stdin=subprocess.DEVNULL, stdout=subprocess.DEVNULL, stderr=subprocess.DEVNULL
    ) as child:
        try:
            yield
        finally:
            child.terminate()


def counted(path):
    """Puts the next number into the one object, which is made where it is not there. A connection
    that comes while the process of the one before still has the store is turned away, and made
    again."""
    until = time.monotonic() + 300
    while True:
        try:
            with connected(path) as server:
                item = next(iter(server.objects()), None) or server.create("Item")
                item.Count = item.Count + 1
                return int(item.Count)
        except oaut.SessionEnded:
            if time.monotonic() > until:
                raise
            time.sleep(0.02)


WHOLLY = "; a request without a reply was executed completely or not at all"


class Ends(ClientCases):
    def test_a_program_that_is_killed(self):
        server = play(FULL)
        item = server.create("Item")
        os.kill(server._connection.child.pid, signal.SIGKILL)
        server._connection.child.wait()
        self.raises(
            "a child that was killed",
            oaut.SessionEnded,
            lambda: item.Count,
            status=-signal.SIGKILL,
            fault=None,
        )
        self.raises(
            "a session that has ended",
            oaut.SessionEnded,
            lambda: item.Count,
            status=-signal.SIGKILL,
        )
        server.close()
        server = play(FULL)
        item = server.create("Item")
        os.kill(server._connection.child.pid, signal.SIGKILL)
        server._connection.child.wait()
        try:
            with server.batch():
                for _ in range(5_000):
                    item.Count = 1
            self.tell("a child that was killed before a batch", False, "no exception")
        except oaut.SessionEnded as end:
            self.same("a child that was killed before a batch", end.status, -signal.SIGKILL)
        server = play(FULL)
        server.close()
        self.raises("a session that was closed", oaut.SessionEnded, lambda: server.create("Item"))

    def test_libraries_that_are_refused_at_the_start(self):
        with library_of("properties: long Count;") as library:
            end = self.raises(
                "a library that is refused",
                oaut.faults.LibraryRefused,
                lambda: play(library),
                status=2,
            )
            self.tell(
                "its fault line", (end.fault or "").startswith("oaut: syntax at byte "), end.fault
            )
        self.raises(
            "a library that is not there",
            oaut.NoSuchFile,
            lambda: play("/none.idl"),
            status=1,
            fault="oaut: cannot read /none.idl",
            cause="No such file or directory",
        )
        self.raises(
            "a folder for a library",
            oaut.SessionEnded,
            lambda: play("/"),
            status=1,
            fault="oaut: cannot read /",
            cause="Is a directory",
        )

    def test_programs_that_do_not_start(self):
        for program in (
            "/none/oaut",
            "no-such-oaut",
            FULL + "/oaut",
            ["no-such-ssh", "host", "oaut"],
        ):
            name = program if isinstance(program, str) else program[0]
            says = f"there is no program {name}: name it by program=, or have it on the path"
            self.raises(
                f"the program {program}",
                oaut.ProgramNotFound,
                lambda: oaut.play(FULL, program=program),
                says,
                status=None,
                fault=None,
            )
        self.tell(
            "it is a SessionEnded and a FileNotFoundError",
            issubclass(oaut.ProgramNotFound, oaut.SessionEnded)
            and issubclass(oaut.ProgramNotFound, FileNotFoundError),
        )
        with tempfile.TemporaryDirectory() as room:
            self.raises(
                "a store by no program",
                oaut.ProgramNotFound,
                lambda: oaut.make_store(f"{room}/it.store", FULL, program="no-such-oaut"),
            )
            self.raises(
                "a folder as a program",
                oaut.SessionEnded,
                lambda: oaut.play(FULL, program=room),
                f"the program {room} cannot be started: Permission denied",
            )
        self.raises("no words", ValueError, lambda: oaut.play(FULL, program=[]))

    def test_a_program_of_several_words(self):
        with oaut.play(FULL, program=["env", "A=B", PROGRAM]) as server:
            self.same(
                "a session by the words of a command line", int(server.create("Item").Count), 0
            )
        with tempfile.TemporaryDirectory() as room:
            oaut.make_store(
                pathlib.Path(room, "it.store"), pathlib.Path(FULL), program=pathlib.Path(PROGRAM)
            )
            with oaut.serve(
                pathlib.Path(room, "it.store"), pathlib.Path(FULL), program=["env", PROGRAM]
            ) as server:
                self.same("paths as words", server.objects(), [])

    def test_a_socket(self):
        ours, theirs = socket.socketpair()
        with subprocess.Popen([PROGRAM, "play", FULL], stdin=theirs, stdout=theirs) as child:
            theirs.close()
            with oaut.connect(ours) as server:
                item = server.create("Item")
                with server.batch():
                    for number in range(2_000):
                        item.Count = number
                self.same("a session over a socket", item.Count, I4(1_999))
                ours.shutdown(socket.SHUT_WR)
                self.raises(
                    "a socket whose server ends",
                    oaut.SessionEnded,
                    lambda: item.Count,
                    f"the server has ended{WHOLLY}",
                    may_stand=True,
                )
            self.same("the server's status", child.wait(300), 0)
        ours.close()

    def test_a_server_that_does_not_answer(self):
        long = [oaut.ask_invoke(1, 1, 4, (-3,), (oaut.spell("a" * 131_072),))] * 8
        over = {
            "a socket": lambda it: oaut.connect(it, timeout=0.05),
            "streams": lambda it: oaut.connect(it.makefile("rb"), it.makefile("wb"), timeout=0.05),
        }
        # (what was written to streams and nobody reads, nobody can take back)
        for name, asks, how in (
            ("a get", [oaut.ask_type_info(0)], "a socket"),
            ("a get", [oaut.ask_type_info(0)], "streams"),
            ("too much", long, "a socket"),
        ):
            ours, theirs = socket.socketpair()
            with theirs, ours:
                server, begun = over[how](ours), time.monotonic()
                self.raises(
                    f"{name} over {how}",
                    oaut.TimedOut,
                    lambda: server.exchange(asks),
                    f"no reply within 0.05 seconds{WHOLLY}",
                    status=None,
                    fault=None,
                    may_stand=True,
                )
                self.raises(
                    f"{name} over {how}, and behind it",
                    oaut.TimedOut,
                    lambda: server.create("Item"),
                )
                self.tell(
                    f"{name} over {how} takes no longer",
                    time.monotonic() - begun < 60,
                    time.monotonic() - begun,
                )
                server.close()
        self.tell(
            "it is a SessionEnded and a TimeoutError",
            issubclass(oaut.TimedOut, oaut.SessionEnded)
            and issubclass(oaut.TimedOut, TimeoutError),
        )

    def test_a_program_that_does_not_answer(self):
        for name, act in (
            ("a get", lambda item: item.Count),
            ("a batch", lambda item: item._server.exchange([oaut.ask_type_info(0)] * 100_000)),
        ):
            server = oaut.play(FULL, program=PROGRAM, timeout=60)
            item = server.create("Item")
            item.Count = 7
            with server.batch():
                later = item.Count
            self.same(f"{name}: in time", later.value, I4(7))
            os.kill(server._connection.child.pid, signal.SIGSTOP)
            server._connection.timeout = 0.2
            self.raises(
                f"{name} of a program that is stopped",
                oaut.TimedOut,
                lambda: act(item),
                f"no reply within 0.2 seconds{WHOLLY}",
                may_stand=True,
            )
            self.same(
                f"{name}: the program is killed",
                server._connection.child.returncode,
                -signal.SIGKILL,
            )
            server.close()

    @unittest.skipIf(ACTIVATE is None, "systemd-socket-activate is not there")
    def test_clients_that_are_silent_are_let_go(self):
        """Each session leaves a line. The program is `cat`, which answers each record by itself."""
        with tempfile.TemporaryDirectory() as room, open(f"{room}/said", "wb+") as said:
            # (a busy machine may take a second between two calls of a client that does not mean to
            # be silent)
            words = [
                ACTIVATE,
                "-l",
                f"{room}/queue",
                sys.executable,
                ONE_AT_A_TIME,
                "--idle",
                "3.5",
            ]
            for lines, records in (([], b"\3\0\0\0abc\1\0\0\0x"), (["--hex"], b"00\n01\n02\n")):
                if os.path.exists(f"{room}/queue"):
                    os.unlink(f"{room}/queue")
                with subprocess.Popen(
                    [*words, "sh", "-c", "exec cat", *lines], stdin=subprocess.DEVNULL, stderr=said
                ) as child:
                    try:
                        for ends in (True, False):
                            with dialled(f"{room}/queue") as sock:
                                sock.sendall(records)
                                if ends:
                                    sock.shutdown(socket.SHUT_WR)
                                got = b"".join(iter(lambda: sock.recv(100), b""))
                                self.same(f"what a client is answered {lines} {ends}", got, records)
                        until = time.monotonic() + 120
                        while (
                            pathlib.Path(room, "said").read_text().count("status")
                            < (4 if lines else 2)
                            and time.monotonic() < until
                        ):
                            time.sleep(0.02)
                    finally:
                        child.terminate()
            said.seek(0)
            told = re.findall(
                r"^process \d+ of user \d+: [\d.]+ s, (.*)$", said.read().decode(), re.MULTILINE
            )
            wanted = [
                "2 requests, status 0",
                "2 requests, status 0, idle for 3.5 s",
                "3 requests, status 0",
                "3 requests, status 0, idle for 3.5 s",
            ]
            self.same("the lines about the sessions", told, wanted)

    def test_listeners(self):
        for name, listener in LISTENERS.items():
            if shutil.which(name) is None:
                print(f"{name} is not there: no session behind it")
                continue
            with tempfile.TemporaryDirectory() as room:
                oaut.make_store(f"{room}/it.store", FULL, program=PROGRAM)
                for word, words, wanted in (
                    ("play", [PROGRAM, "play", FULL], [1, 1, 1]),
                    ("serve", [PROGRAM, "serve", f"{room}/it.store", FULL], [1, 2, 3]),
                ):
                    path = f"{room}/{word}.socket"
                    with listening(listener(path, words)):
                        self.same(
                            f"three connections to {name} with `oaut {word}`",
                            [counted(path) for _ in wanted],
                            wanted,
                        )

    def test_one_client_after_another(self):
        if ACTIVATE is not None:
            with tempfile.TemporaryDirectory() as room:
                # the next client waits in the queue of a listening socket that is handed over
                oaut.make_store(f"{room}/it.store", FULL, program=PROGRAM)
                words = [sys.executable, ONE_AT_A_TIME, PROGRAM, "serve", f"{room}/it.store", FULL]
                with listening([ACTIVATE, "-l", f"{room}/queue", *words]):
                    told = []

                    def second():
                        with connected(f"{room}/queue") as server:
                            told.append(server.object(1, "Item").Count)

                    with connected(f"{room}/queue") as server:
                        item = server.create("Item")
                        waiting = threading.Thread(target=second)
                        waiting.start()
                        for number in range(100):
                            item.Count = number
                            time.sleep(0.001)
                        early = list(told)
                    waiting.join(300)
                    self.same(
                        "a client that waits until the one before has gone",
                        [early, told],
                        [[], [99]],
                    )


class OneAtATime(ClientCases):
    """What examples/one_at_a_time.py outlives. The program is `cat`."""

    def outlives(self, name, act, under=()):
        """Whether a client is answered as the next one, once `act` has done its worst at the
        port."""
        with contextlib.ExitStack() as until_the_end:
            # (bound as long as this lasts: the system gives the port to nobody else, nor to a
            # client as its own)
            free = until_the_end.enter_context(socket.socket())
            free.setsockopt(socket.SOL_SOCKET, socket.SO_REUSEADDR, 1)
            free.bind(("127.0.0.1", 0))
            place = free.getsockname()
            words = [*under, sys.executable, ONE_AT_A_TIME, "--listen", "%s:%s" % place, "cat"]
            said = until_the_end.enter_context(tempfile.TemporaryFile())
            child = until_the_end.enter_context(
                subprocess.Popen(words, stdin=subprocess.DEVNULL, stderr=said)
            )
            try:
                until, got, kept = time.monotonic() + 300, b"", []
                while child.poll() is None and time.monotonic() < until:
                    try:
                        socket.create_connection(place, 300).close()
                        break
                    except ConnectionRefusedError:
                        time.sleep(0.02)
                try:
                    kept = act(lambda: socket.create_connection(place, 300)) or []
                    got = answered(socket.create_connection(place, 300))
                except OSError as error:
                    got = error
                said.seek(0)
                self.tell(
                    name,
                    (got, child.poll()) == (b"hello", None),
                    (got, child.poll(), said.read()[-600:]),
                )
                for it in kept:
                    it.close()
            finally:
                child.terminate()
        self.same(f"{name}, and it ends when it is told to", child.returncode, 0)

    def test_clients_that_end_badly(self):
        def resets(dial):
            with dial() as first:
                first.sendall(b"a")
                first.recv(1)
                for _ in range(CLIENTS):
                    with dial() as sock:
                        sock.setsockopt(
                            socket.SOL_SOCKET, socket.SO_LINGER, struct.pack("ii", 1, 0)
                        )

        def turns(dial):
            # (of two threads whose calls fail, and some clients have gone before one of them looks)
            for _ in range(4 * CLIENTS):
                try:
                    answered(dial())
                except OSError:  # (reset as it sends, or gone before it says that it has sent all)
                    pass

        self.outlives("clients that are reset while they wait", resets)
        self.outlives(
            "clients that say nothing keep nobody waiting",
            lambda dial: [dial() for _ in range(CLIENTS)],
        )
        if STRACE is None:
            print("strace is not there: no call of examples/one_at_a_time.py is made to fail")
            return
        under = [STRACE, "-D", "-f", "-o", "/dev/null", "-e", "trace=accept4,recvfrom", "-e"]
        # (a thread's calls are counted by themselves: one looks whether a client has sent
        # something, one serves it)
        self.outlives(
            "clients whose connection times out",
            turns,
            [*under, f"inject=recvfrom:error=ETIMEDOUT:when=1..{CLIENTS}"],
        )
        self.outlives(
            "clients whose host cannot be reached",
            lambda dial: None,
            [*under, f"inject=accept4:error=EHOSTUNREACH:when=2..{CLIENTS + 1}"],
        )

    def test_an_end_in_each_thread(self):
        """Which of its threads a signal comes to is the system's choice (a debugger's presence is
        enough)."""
        with tempfile.TemporaryDirectory() as room:
            for place in (0, 1):
                words = [sys.executable, ONE_AT_A_TIME, "--listen", f"{room}/{place}", "cat"]
                with subprocess.Popen(
                    words, stdin=subprocess.DEVNULL, stderr=subprocess.PIPE
                ) as child:
                    with dialled(f"{room}/{place}") as sock:
                        self.same("it is answered", answered(sock), b"hello")
                    threads = sorted(map(int, os.listdir(f"/proc/{child.pid}/task")))[:2]
                    # tgkill, on x86-64
                    ctypes.CDLL(None).syscall(234, child.pid, threads[place], signal.SIGTERM)
                    try:
                        status = child.wait(300)
                    except subprocess.TimeoutExpired:
                        status = child.kill()
                self.same(f"told to end in thread {place} of {len(threads)}", status, 0)

    def test_places(self):
        with tempfile.TemporaryDirectory() as room:
            path = f"{room}/queue"
            for left in ("nothing", "the socket of one that was killed"):
                words = [sys.executable, ONE_AT_A_TIME, "--listen", path, PROGRAM, "play", FULL]
                with subprocess.Popen(
                    words, stdin=subprocess.DEVNULL, stderr=subprocess.PIPE
                ) as child:
                    self.same(f"a path with {left}", counted(path), 1)
                    self.same(
                        "the socket is its user's alone", os.stat(path).st_mode & 0o777, 0o600
                    )
                    second = subprocess.run(words, capture_output=True, text=True, timeout=300)
                    self.tell(
                        "a path where one listens",
                        second.returncode == 2 and "Address already in use" in second.stderr,
                        second.stderr,
                    )
                    child.send_signal(signal.SIGKILL if left == "nothing" else signal.SIGTERM)
            self.tell("its socket is gone once it was told to end", not os.path.exists(path))
        for words in (
            [],
            ["cat"],
            ["--listen", "here", "no-such-program"],
            ["--listen", "localhost:x", "cat"],
            ["--idle", "0", "--listen", "here", "cat"],
        ):
            done = subprocess.run(
                [sys.executable, ONE_AT_A_TIME, *words],
                stdin=subprocess.DEVNULL,
                capture_output=True,
                text=True,
                timeout=300,
            )
            self.tell(
                f"refused: {words}",
                done.returncode == 2 and "Traceback" not in done.stderr,
                done.stderr,
            )


def answered(sock):
    """What a connection is answered, which says hello and ends."""
    with sock:
        sock.sendall(b"hello")
        sock.shutdown(socket.SHUT_WR)
        return b"".join(iter(lambda: sock.recv(100), b""))
