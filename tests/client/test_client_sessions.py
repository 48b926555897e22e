"""How the client keeps a session: interrupts, sessions that are dropped, threads, connections that
are dialled again, groups, and stores that open by themselves."""
import contextlib
import fcntl
import gc
import json
import os
import random
import signal
import socket
import struct
import subprocess
import sys
import tempfile
import termios
import threading
import time
import unittest
from unittest import mock

from oaut import I4
from oaut import store as stores
from tests.client.clients import ENVIRONMENT, FULL, PROGRAM, ROOT, ClientCases, oaut, play

SMALL = f"{ROOT}/examples/small.idl"
# in a process group of its own, as at a terminal: an interrupt goes to the whole group
INTERRUPTED = """
import os, signal, sys, time, oaut
with oaut.play(sys.argv[1], program=sys.argv[2]) as server:
    item = server.create("Item")
    item.Count = 7
    try:
        os.killpg(0, signal.SIGINT)
        time.sleep(60)
    except KeyboardInterrupt:
        pass
    time.sleep(0.2)
    print(item.Count)
"""
# a program of which each reply comes a while behind the one before
LATE = """
import os, subprocess, sys, threading, time
child = subprocess.Popen(sys.argv[1:], stdin=subprocess.PIPE, stdout=subprocess.PIPE, \
close_fds=False)
def ask():
    while data := os.read(0, 65536):
        child.stdin.write(data)
        child.stdin.flush()
    child.stdin.close()
threading.Thread(target=ask, daemon=True).start()
while head := child.stdout.read(4):
    os.write(1, head + child.stdout.read(int.from_bytes(head, "little")))
    time.sleep(0.2)
sys.exit(child.wait())
"""
NO_LIBRARY = "[uuid(11223344-5566-7788-99AA-BBCCDDEEFF01)]\r\nlibrary Demo {\t/* \u00e9\x01 */ ] }"


class Interrupted(Exception):
    pass


@contextlib.contextmanager
def stores_of(library=FULL):
    """The path of a new store in a folder."""
    with tempfile.TemporaryDirectory() as room:
        oaut.make_store(f"{room}/it.store", library, program=PROGRAM)
        yield f"{room}/it.store"


def serve(path, library=None, **how):
    return oaut.serve(path, library, program=PROGRAM, **how)


def open_(path, library=None, **how):
    return oaut.open(path, library, program=PROGRAM, **how)


class Sessions(ClientCases):
    def test_an_interrupt_at_a_terminal_is_for_the_caller(self):
        words = [sys.executable, "-c", INTERRUPTED, FULL, PROGRAM]
        done = subprocess.run(
            words,
            env=ENVIRONMENT,
            capture_output=True,
            text=True,
            timeout=300,
            start_new_session=True,
        )
        self.same(
            "the session goes on", (done.returncode, done.stdout, done.stderr), (0, "7\n", "")
        )

    def test_an_interrupt_within_a_call(self):
        """At any moment: what is read then is what was put last. (Where the collector of garbage
        finds an object with a finalizer, Python runs the handler in that, and drops what it raises:
        the alarm comes again.)"""
        draw, armed = random.Random(7), False

        def interrupt(*_):
            if armed:
                raise Interrupted

        before = signal.signal(signal.SIGALRM, interrupt)
        try:
            for framing in ("raw", "lines"):
                with stores_of() as path, serve(path, framing=framing) as server:
                    item, wrong, hits = server.create("Item"), 0, 0
                    for turn in range(60):
                        kind, count = draw.randrange(4), 0
                        armed = True
                        try:
                            try:
                                signal.setitimer(signal.ITIMER_REAL, draw.uniform(0.0001, 0.01), 2)
                                while True:
                                    count += 1
                                    if kind == 0:
                                        item.Count = count
                                    elif kind == 1:
                                        item.Count
                                    elif kind == 2:
                                        with server.batch():
                                            for _ in range(700):
                                                item.Count = count
                                                item.Count
                                    else:
                                        item.Name = "n" * draw.choice([1, 50_000])
                            finally:
                                # (where a busy machine is late, the alarm may have come again by
                                # now)
                                armed = False
                        except Interrupted:
                            armed = False
                            hits += 1
                        item.Count = turn
                        wrong += item.Count != turn
                    self.same(f"interrupted requests, {framing}", (wrong, hits), (0, 60))
        finally:
            signal.setitimer(signal.ITIMER_REAL, 0)
            signal.signal(signal.SIGALRM, before)

    def test_a_session_that_is_dropped(self):
        with stores_of() as path:
            server = serve(path, FULL)
            server.create("Item").Count = 7
            child = server._connection.child
            del server
            gc.collect()
            self.same("its child has ended", child.returncode, 0)
            server = serve(path, FULL)
            self.same("the store is free, and has it all", server.object(1, "Item").Count, I4(7))
            # large requests, which nobody reads on
            os.kill(server._connection.child.pid, signal.SIGSTOP)
            child, begun = server._connection.child, time.monotonic()

            def interrupt(*_):
                raise Interrupted

            before = signal.signal(signal.SIGALRM, interrupt)
            try:
                signal.setitimer(signal.ITIMER_REAL, 1, 5)
                self.raises(
                    "an interrupt",
                    Interrupted,
                    lambda: setattr(server.object(1, "Item"), "Name", "n" * 131_072),
                )
            finally:
                signal.setitimer(signal.ITIMER_REAL, 0)
                signal.signal(signal.SIGALRM, before)
            del server
            gc.collect()
            self.tell(
                "one that is stuck is killed",
                child.returncode == -signal.SIGKILL and time.monotonic() - begun < 120,
                child.returncode,
            )

    def test_a_session_that_is_dropped_while_a_reply_is_late(self):
        """The program writes each reply a while behind the one before: what ended the group finds a
        reader, and so its end is no fault."""
        with stores_of() as path:
            server = oaut.serve(path, FULL, program=[sys.executable, "-c", LATE, PROGRAM])
            server.create("Item").Count = 7
            child = server._connection.child
            del server
            gc.collect()
            self.same("its child has ended", child.returncode, 0)

    def test_two_threads(self):
        ours, theirs = socket.socketpair()
        with ours, theirs:
            server, told = oaut.connect(ours, group=1), []
            asking = threading.Thread(
                target=lambda: told.append(server.exchange([oaut.records.ask_list()]))
            )
            asking.start()
            theirs.recv(100)
            says = "another thread uses this session"
            self.raises(
                "a request beside another one",
                oaut.SessionInUse,
                lambda: server.exchange([oaut.records.ask_list()]),
                says,
            )
            theirs.sendall(oaut.framing.Raw.pack([bytes([1, 0, 0, 0]) + bytes(12)]))
            asking.join(300)
            self.same("the first one is answered", told, [[bytes([1, 0, 0, 0]) + bytes(12)]])
        with play(FULL) as server:
            item, told = server.create("Item"), []
            with server.batch():
                asking = threading.Thread(
                    target=lambda: told.append(
                        self.raises(
                            "a put beside a batch",
                            oaut.SessionInUse,
                            lambda: setattr(item, "Count", 7),
                        )
                    )
                )
                asking.start()
                asking.join(300)
            self.same("it is in no batch", (item.Count, len(told)), (I4(0), 1))

    def test_small_exchanges_need_no_thread(self):
        with stores_of() as path, serve(path) as server:
            item = server.create("Item")
            starts, oaut.connection._thread.start_new_thread = (
                oaut.connection._thread.start_new_thread,
                None,
            )
            try:
                with server.batch(16):
                    for number in range(64):
                        item.Count = number
                self.same("a batch of 16 is written at once", item.Count, I4(63))
            finally:
                oaut.connection._thread.start_new_thread = starts

    def test_a_socket_is_left_empty(self):
        """Who answers the end of the last group still finds somebody, and who uses the socket next
        does not find that answer."""
        ours, theirs = socket.socketpair()
        with ours, theirs:

            def answer():
                theirs.recv(1_000)
                theirs.sendall(oaut.Raw.pack([bytes([1, 0, 0, 0]) + bytes(12)]))
                time.sleep(0.2)
                theirs.sendall(oaut.Raw.pack([bytes([255] * 4) + bytes(12)]))

            answering = threading.Thread(target=answer)
            answering.start()
            server = oaut.connect(ours)
            server.exchange([oaut.records.ask_list()])
            # (a busy machine's answer may take more than a second)
            with mock.patch.object(oaut.connection, "WAIT_FOR_LAST", 60):
                server.close()
            answering.join(300)
            theirs.sendall(b"next")
            self.same("what is read next", ours.recv(100), b"next")

    def test_a_group_needs_no_number(self):
        for group in ("1", "5", "1024"):
            with stores_of() as path:
                ours, theirs = socket.socketpair()
                with subprocess.Popen(
                    [PROGRAM, "serve", path, FULL, "--group", group], stdin=theirs, stdout=theirs
                ) as child:
                    theirs.close()
                    with ours, oaut.connect(ours, timeout=60) as server:
                        item = server.create("Item")
                        with server.batch(7):
                            for number in range(50):
                                item.Count = number
                                later = item.Count
                        refusal = self.raises(
                            f"a refusal in groups of {group}",
                            oaut.Overflow,
                            lambda: setattr(item, "Count", 2**31),
                            index=0,
                        )
                        self.same(
                            f"a session in groups of {group}",
                            (later.value, item.Count, refusal.argument),
                            (I4(49), I4(49), "the new value"),
                        )
                        with self.subTest("atomic"):
                            self.raises(
                                "an atomic block of an unknown group", ValueError, server.atomic
                            )
                        ours.shutdown(socket.SHUT_WR)
                    self.same("its status", child.wait(300), 0)


class Dialled(ClientCases):
    @contextlib.contextmanager
    def listening(self, path, words):
        """A socket whose clients get the program, one after another, and what has them."""
        seen = []
        with socket.socket(socket.AF_UNIX) as sock:
            sock.bind(path)
            sock.listen()

            def accept():
                with contextlib.suppress(OSError):
                    while True:
                        client, _ = sock.accept()
                        with client:
                            child = subprocess.Popen(words, stdin=client, stdout=client)
                            child.gone = threading.Event()
                            seen.append(child)
                            child.wait()
                        # (the program's end alone ended no connection that was held here)
                        child.gone.set()

            thread = threading.Thread(target=accept, daemon=True)
            thread.start()
            try:
                yield seen
            finally:
                sock.shutdown(socket.SHUT_RDWR)
                for child in seen:
                    if child.poll() is None:
                        child.kill()
                thread.join(10)

    def server(self, seen, count):
        """What has the last client, once there were so many."""
        until = time.monotonic() + 300
        while len(seen) < count and time.monotonic() < until:
            time.sleep(0.01)
        return seen[count - 1]

    def kill_once_asked(self, sock, child):
        """Kills what serves a client, and is stopped, once something was sent to it."""
        until = time.monotonic() + 60
        while (
            not struct.unpack("i", fcntl.ioctl(sock, termios.TIOCOUTQ, bytes(4)))[0]
            and time.monotonic() < until
        ):
            time.sleep(0.01)
        child.kill()

    def let_go(self, seen, count):
        child = self.server(seen, count)
        child.kill()
        child.gone.wait(300)

    def test_what_was_let_go_is_dialled_again(self):
        with stores_of() as path, tempfile.TemporaryDirectory() as room:
            with self.listening(
                f"{room}/socket", [PROGRAM, "serve", path, FULL, "--group", "64"]
            ) as seen:
                with oaut.connect(f"{room}/socket", timeout=60) as server:
                    item = server.create("Item")
                    item.Count = 7
                    self.let_go(seen, 1)
                    self.same("the session goes on over a second connection", item.Count, I4(7))
                    self.let_go(seen, 2)
                    with server.batch():
                        item.Count = 8
                    self.same("a third one", item.Count, I4(8))
                    item.Grid = [1, 2]
                    item.Grid.lock()
                    self.let_go(seen, 3)
                    self.raises(
                        "locks go with a connection",
                        oaut.SessionEnded,
                        lambda: item.Count,
                        may_stand=False,
                    )
                    self.same("no other is made", len(seen), 3)
                server = oaut.connect(f"{room}/socket", timeout=60)
                item = server.object(1, "Item")
                fourth = self.server(seen, 4)
                server._connection.drop()
                os.kill(fourth.pid, signal.SIGSTOP)
                threading.Thread(
                    target=self.kill_once_asked,
                    args=(server._connection.reader, fourth),
                    daemon=True,
                ).start()
                self.raises(
                    "nothing is behind a request that was sent and not answered",
                    oaut.SessionEnded,
                    lambda: setattr(item, "Count", 9),
                    "the server has ended; a request without a reply was executed completely or "
                    "not at all",
                    may_stand=True,
                )
                self.same("no connection is made for it", len(seen), 4)
                server.close()

    def test_an_address_that_is_taken_over(self):
        """Nobody is there for a while, then somebody who hangs up at once, as what passes
        connections on does, then a server."""
        with stores_of() as path, tempfile.TemporaryDirectory() as room:
            at, words = f"{room}/socket", [PROGRAM, "serve", path, FULL, "--group", "64"]
            self.raises("nobody comes", FileNotFoundError, lambda: oaut.connect(at, patience=0.3))
            with contextlib.ExitStack() as until:
                seen = []

                def take_over():
                    time.sleep(0.3)
                    with socket.socket(socket.AF_UNIX) as sock:
                        sock.settimeout(60)
                        sock.bind(at)
                        sock.listen()
                        for _ in range(2):
                            sock.accept()[0].close()
                    os.unlink(at)
                    time.sleep(0.3)
                    seen.append(until.enter_context(self.listening(at, words)))

                def taken_over(act):
                    thread = threading.Thread(target=take_over)
                    thread.start()
                    try:
                        return act()
                    finally:
                        thread.join()

                server = taken_over(lambda: oaut.connect(at, timeout=60, patience=60))
                item = server.create("Item")
                item.Count = 7
                self.same("a session begins once somebody serves", item.Count, I4(7))
                server._connection.drop()
                os.unlink(at)
                self.let_go(seen[0], 1)
                self.same("one that goes on waits too", taken_over(lambda: item.Count), I4(7))
                server.close()

    def test_a_machine_that_is_gone_is_noticed(self):
        with socket.create_server(("127.0.0.1", 0)) as listener, contextlib.closing(
            oaut.programs.dialled(listener.getsockname(), 10)
        ) as sock:
            self.tell(
                "the system asks a silent machine",
                sock.getsockopt(socket.SOL_SOCKET, socket.SO_KEEPALIVE) == 1,
            )
            if hasattr(socket, "TCP_KEEPIDLE"):
                waits = [
                    sock.getsockopt(socket.IPPROTO_TCP, getattr(socket, f"TCP_KEEP{it}"))
                    for it in ("IDLE", "INTVL", "CNT")
                ]
                self.same(
                    "within 20 seconds",
                    (
                        waits[0] + waits[1] * waits[2],
                        sock.getsockopt(socket.IPPROTO_TCP, socket.TCP_USER_TIMEOUT),
                    ),
                    (20, 20_000),
                )

    def test_another_server_behind_the_address(self):
        with tempfile.TemporaryDirectory() as room:
            with self.listening(f"{room}/socket", [PROGRAM, "play", FULL]) as seen:
                server = oaut.connect(f"{room}/socket", timeout=60)
                item = server.create("Item")
                self.let_go(seen, 1)
            os.unlink(f"{room}/socket")
            with self.listening(f"{room}/socket", [PROGRAM, "play", SMALL]):
                self.raises("another library behind it", oaut.LibraryDiffers, lambda: item.Count)
            server.close()
            self.raises(
                "nobody listens", ConnectionRefusedError, lambda: oaut.connect(f"{room}/socket")
            )


class Atomic(ClientCases):
    def groups(self, path):
        with open(path, "rb") as file:
            return [it.events for it in stores.read(file.read()).groups]

    def test_one_group(self):
        with stores_of() as path:
            with serve(path) as server:
                item = server.create("Item")
                with server.atomic() as block:
                    for number in range(100):
                        item.Count = number
                        later = item.Count
                self.same("its answers", (later.value, block.failures), (I4(99), []))
                try:
                    with server.atomic():
                        item.Count = 100
                        item.Count = "x"
                        item.Name = "y"
                    self.tell("a refusal in it is raised", False)
                except oaut.TypeMismatch:
                    self.same(
                        "a refused request takes nothing of the others back",
                        (item.Count, item.Name),
                        (I4(100), "y"),
                    )
            self.same("the groups of the store", self.groups(path), [1, 100, 2])

    def test_what_does_not_fit_is_not_sent(self):
        with stores_of() as path:
            with serve(path) as server:
                item = server.create("Item")

                def over(count, text, more=0):
                    with server.atomic():
                        for _ in range(count):
                            item.Name = text
                        for _ in range(more):
                            item.Count = 1

                self.raises(
                    "1,025 requests",
                    ValueError,
                    lambda: over(1_025, "a"),
                    "a group has at most 1024 requests: nothing was sent",
                )
                self.raises(
                    "524,288 bytes, and more", ValueError, lambda: over(2, "a" * 131_072, 1)
                )
                self.same("nothing was sent", item.Name, None)
                over(1_024, "b")
                over(2, "c" * 131_072)
                over(1, "d" * 524_288)
                with server.atomic():
                    item.Grid.redim(65_536)

                def large():
                    with server.atomic():
                        item.array("Grid").redim(65_536)
                        item.Count = 2

                self.raises("a REDIM that may make more", ValueError, large)
                self.raises("in a batch", RuntimeError, lambda: self.within(server))
            self.same("the groups of the store", self.groups(path), [1, 1_024, 2, 1, 1])
            with serve(path, group=3) as server:
                item = server.object(1, "Item")
                self.raises("of a server with small groups", ValueError, lambda: over(4, "e"))

    def within(self, server):
        with server.batch(), server.atomic():
            pass

    def test_over_kills(self):
        """Wherever the server is killed, the store has all of a block or nothing of it."""
        draw = random.Random(11)
        with stores_of() as path:
            with serve(path) as server:
                with server.batch():
                    made = [server.create("Item") for _ in range(40)]
            for turn in range(6):
                server = serve(path)
                items, last = server.objects(), 0
                threading.Timer(draw.uniform(0.005, 0.05), server._connection.child.kill).start()
                try:
                    while True:
                        with server.atomic():
                            for item in items:
                                item.Count = last + 1
                        last += 1
                except oaut.SessionEnded:
                    server.close()
                with serve(path) as server:
                    items = server.objects()
                    with server.batch():
                        seen = [item.Count for item in items]
                    found = {int(it.value) for it in seen}
                    self.tell(
                        f"a kill behind {last} blocks",
                        len(found) == 1 and found <= {last, last + 1},
                        (last, found),
                    )
                    with server.atomic():
                        for item in items:
                            item.Count = 0
            self.same("objects", len(made), 40)


class Opening(ClientCases):
    def test_the_library_of_the_store(self):
        with stores_of() as path:
            with serve(path) as server:
                server.create("Item").Count = 7
                self.raises("a store that is served", oaut.StoreInUse, lambda: serve(path))
            with serve(path) as server:
                self.same(
                    "a store that is opened by its own library",
                    server.object(1, "Item").Count,
                    I4(7),
                )
            self.raises(
                "another library",
                oaut.LibraryDiffers,
                lambda: serve(path, SMALL),
                status=3,
                fault="oaut: library differs",
            )
            self.raises("no store", oaut.NoSuchFile, lambda: serve(f"{path}.none"))
            self.raises("no store, and no library", oaut.NoSuchFile, lambda: open_(f"{path}.none"))
            self.raises(
                "what is no store",
                oaut.SessionEnded,
                lambda: serve(FULL),
                fault="oaut: not a store",
            )
            self.raises(
                "no library, so nothing was asked",
                oaut.NoSuchFile,
                lambda: play(f"{path}.none"),
                cause="No such file or directory",
                may_stand=False,
            )

    def test_opening(self):
        with tempfile.TemporaryDirectory() as room:
            path = f"{room}/it.store"
            for library, count in ((SMALL, 0), (SMALL, 1), (FULL, 2), (FULL, 3), (None, 4)):
                with open_(path, library) as server:
                    items = server.objects()
                    self.same(
                        f"opened for the {count + 1}th time",
                        (len(items), items[-1:] and items[-1].Count),
                        (count, [I4(count)][:count] and I4(count)) if count else (0, []),
                    )
                    server.create("Item").Count = count + 1
            self.same("members of the new library", "Cell" in dir(items[0]), True)
            lost = self.raises(
                "a library that loses something",
                oaut.IncompatibleLibrary,
                lambda: open_(path, SMALL),
                lost="Item.Name of DItem, DISPID 2",
                dispid=2,
            )
            self.same(
                "what it says",
                "the new library does not keep Item.Name of DItem" in str(lost),
                True,
            )
            with serve(path, FULL) as server:
                self.same("nothing was changed", len(server.objects()), 5)
            self.same("no file is left beside it", os.listdir(room), ["it.store"])

    def test_names_in_a_dump(self):
        with stores_of() as path:
            with serve(path) as server:
                item = server.create("Item")
                item.Count, item.Cell[5, "k"] = 7, "x"
            told = subprocess.run(
                [sys.executable, "-m", "oaut", "store", "dump", "--json", path],
                env=ENVIRONMENT,
                capture_output=True,
                text=True,
                timeout=300,
            )
            cells = json.loads(told.stdout)["objects"][0]["cells"]
            self.same(
                "names beside DISPIDs",
                [(it["dispid"], it["name"]) for it in cells],
                [(1, "Count"), (9, "Cell")],
            )

    def test_two_that_open_at_once(self):
        """A store that another process has made meanwhile is not made anew."""
        with tempfile.TemporaryDirectory() as room:
            path, exists = f"{room}/it.store", os.path.exists
            with open_(path, SMALL) as server:
                server.create("Item").Count = 7
            os.path.exists = lambda it: it != path and exists(it)
            try:
                with open_(path, SMALL) as server:
                    found = [it.Count for it in server.objects()]
            finally:
                os.path.exists = exists
            self.same("the objects of the first are there", found, [I4(7)])

    def test_format_1(self):
        with open(f"{ROOT}/examples/small.canonical.idl", "rb") as file:
            old = stores.formatted_before(file.read())
        with tempfile.TemporaryDirectory() as room:
            for library in (SMALL, FULL, None):
                path = f"{room}/it.store"
                with open(path, "wb") as file:
                    file.write(old)
                self.raises(
                    f"format 1, {library}",
                    oaut.OldFormat,
                    lambda: open_(path, library),
                    status=3,
                    fault="oaut: old format",
                )
                with open_(path, library, upgrade=True) as server:
                    self.same(f"upgraded, {library}", server.objects(), [])
            other = f"{room}/other.idl"
            with open(FULL) as file, open(other, "w") as new:
                new.write(file.read().replace("BSTR Name", "BSTR Label"))
            canonical = subprocess.run(
                [PROGRAM, "check", FULL], capture_output=True, check=True
            ).stdout
            old = stores.formatted_before(canonical)
            with open(path, "wb") as file:
                file.write(old)
            self.raises(
                "one that loses something",
                oaut.IncompatibleLibrary,
                lambda: open_(path, other, upgrade=True),
                lost="Item.Name of DItem, DISPID 2",
            )
            with open(path, "rb") as file:
                self.tell("the file is as it was", file.read() == old)

    def test_a_text_that_is_no_library(self):
        with tempfile.TemporaryDirectory() as room:
            wrong = f"{room}/wrong.idl"
            with open(wrong, "w", newline="") as file:
                file.write(NO_LIBRARY)
            done = subprocess.run(
                [PROGRAM, "check", "--where", wrong], capture_output=True, text=True
            )
            fault, line, caret = done.stderr.splitlines()
            place = line[: len(wrong) + 1].count(":") and line.split(": ")[0].split(":")[1:]
            shown = line.split(": ", 1)[1]
            wanted = {"fault": fault, "line": int(place[0]), "column": int(place[1])}
            with stores_of() as path, serve(path) as server:
                for name, act, kind in (
                    ("play", lambda: play(wrong), oaut.SessionEnded),
                    ("serve", lambda: serve(path, wrong), oaut.SessionEnded),
                    (
                        "make_store",
                        lambda: oaut.make_store(f"{room}/no.store", wrong, program=PROGRAM),
                        oaut.SessionEnded,
                    ),
                    ("open", lambda: open_(f"{room}/no.store", wrong), oaut.SessionEnded),
                    ("replace_library", lambda: server.replace_library(wrong), oaut.BadStub),
                ):
                    try:
                        act()
                        self.tell(f"{name} of no library", False)
                    except oaut.NotALibrary as error:
                        found = {it: getattr(error, it) for it in wanted}
                        self.same(
                            f"{name} of no library",
                            (found, isinstance(error, kind)),
                            (wanted, True),
                        )
                        self.same(
                            f"{name}: as the program shows it", error.shown.split("\n")[0], shown
                        )
                        self.same(
                            f"{name}: its caret", caret.endswith(error.shown.split("\n")[1]), True
                        )
                        self.tell(
                            f"{name}: it says where",
                            f"{wrong}:{place[0]}:{place[1]}" in str(error),
                            str(error),
                        )
                self.same("the session goes on", server.objects(), [])
            self.same("no store is left", os.listdir(room), ["wrong.idl"])
            with open(wrong, "w") as file:
                file.write(
                    "[uuid(11223344-5566-7788-99AA-BBCCDDEEFF01)] library Demo { "
                    "[uuid(11223344-5566-7788-99AA-BBCCDDEEFF01)] dispinterface D { properties: } }"
                )
            self.raises(
                "a fault without a place",
                oaut.faults.LibraryRefused,
                lambda: play(wrong),
                line=None,
                column=None,
            )
