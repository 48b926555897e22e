"""What bounds a session for asyncio: the time to connect, the memory of requests that nobody reads,
the cost of a long reply; and what it does when the server lets a connection go."""
import asyncio
import contextlib
import os
import socket
import subprocess
import sys
import tempfile
import threading
import time
import tracemalloc

from oaut import I4, aio, frames
from tests.client import test_client_sessions as sessions
from tests.client.clients import FULL, PROGRAM, ROOT, ClientCases, oaut

LARGE = f"{ROOT}/tests/client/large.py"
MIB = 1_048_576


@contextlib.contextmanager
def large(size, *words, pipes=False):
    """A socket, or two pipes, of a server whose list of objects has so many bytes."""
    ours, theirs = socket.socketpair()
    how = (
        {"stdin": subprocess.PIPE, "stdout": subprocess.PIPE, "bufsize": 0}
        if pipes
        else {"stdin": theirs, "stdout": theirs}
    )
    with subprocess.Popen([sys.executable, LARGE, str(size), *words], **how) as child, ours:
        theirs.close()
        yield child if pipes else ours


def least(times, act):
    """The least seconds of this process's processor time, of so many tries."""
    found = []
    for _ in range(times):
        begun = time.process_time()
        act()
        found.append(time.process_time() - begun)
    return min(found)


class AioLimits(ClientCases):
    def runs(self, act):
        return asyncio.run(asyncio.wait_for(act(), 300))

    def raised(self, act):
        """What an act raises, and after how many seconds."""
        begun = time.monotonic()
        try:
            self.runs(act)
        except Exception as error:
            return error, time.monotonic() - begun
        return None, time.monotonic() - begun

    def test_connecting_has_a_timeout(self):
        with socket.create_server(
            ("127.0.0.1", 0), backlog=1
        ) as listener, contextlib.ExitStack() as others:
            for _ in range(4):  # (until the listener takes no more)
                other = others.enter_context(socket.socket())
                other.setblocking(False)
                with contextlib.suppress(BlockingIOError):
                    other.connect(listener.getsockname())

            async def act():
                await aio.connect(listener.getsockname(), timeout=0.5)

            error, seconds = self.raised(act)
            self.tell("it is a TimedOut", isinstance(error, oaut.TimedOut), repr(error))
            self.tell("within its seconds", seconds < 60, seconds)

    def test_a_silent_machine_is_asked(self):
        with socket.create_server(("127.0.0.1", 0)) as listener:

            async def act():
                link = await aio._dialled(listener.getsockname(), "raw", 10, 0)
                found = [
                    link.sock.getsockopt(socket.SOL_SOCKET, socket.SO_KEEPALIVE),
                    link.sock.getsockopt(socket.IPPROTO_TCP, socket.TCP_NODELAY),
                ]
                link.transport.abort()
                return found

            self.same("keepalive, and no delay", [bool(it) for it in self.runs(act)], [True, True])

    def test_patience(self):
        with tempfile.TemporaryDirectory() as room:

            async def nobody():
                await aio.connect(f"{room}/socket", patience=0.3)

            error, seconds = self.raised(nobody)
            self.tell(
                "nobody comes",
                isinstance(error, FileNotFoundError) and 0.3 <= seconds < 60,
                (error, seconds),
            )
            with contextlib.ExitStack() as until:
                dialled = sessions.Dialled()
                timer = threading.Timer(
                    0.4,
                    lambda: until.enter_context(
                        dialled.listening(f"{room}/socket", [PROGRAM, "play", FULL])
                    ),
                )

                async def act():
                    timer.start()
                    async with aio.connect(f"{room}/socket", timeout=60, patience=60) as server:
                        item = await server.create("Item")
                        await item.put("Count", 7)
                        return await item.get("Count")

                self.same("a session begins once somebody serves", self.runs(act), I4(7))
                timer.join()

    def test_what_was_let_go_is_connected_again(self):
        dialled = sessions.Dialled()
        with sessions.stores_of() as path, tempfile.TemporaryDirectory() as room:
            with dialled.listening(
                f"{room}/socket", [PROGRAM, "serve", path, FULL, "--group", "64"]
            ) as seen:

                async def act():
                    async with aio.connect(f"{room}/socket", timeout=60) as server:
                        item = await server.create("Item")
                        await item.put("Count", 7)
                        for count in (1, 2):
                            await asyncio.to_thread(dialled.let_go, seen, count)
                            self.same(
                                f"over connection {count + 1}", await item.get("Count"), I4(7)
                            )
                        await item.put("Grid", [1, 2])
                        await item.array("Grid").lock()
                        await asyncio.to_thread(dialled.let_go, seen, 3)
                        try:
                            await item.get("Count")
                            self.tell("locks go with a connection", False)
                        except oaut.SessionEnded as end:
                            self.same("locks go with a connection", end.may_stand, False)

                self.runs(act)
                self.same("no other connection is made", len(seen), 3)

    def test_another_library_behind_the_address(self):
        dialled = sessions.Dialled()
        with tempfile.TemporaryDirectory() as room:

            async def act():
                with dialled.listening(f"{room}/socket", [PROGRAM, "play", FULL]) as seen:
                    server = await aio.connect(f"{room}/socket", timeout=60)
                    item = await server.create("Item")
                    await asyncio.to_thread(dialled.let_go, seen, 1)
                os.unlink(f"{room}/socket")
                with dialled.listening(f"{room}/socket", [PROGRAM, "play", sessions.SMALL]):
                    try:
                        await item.get("Count")
                    except oaut.LibraryDiffers:
                        return "LibraryDiffers"
                    finally:
                        await server.close()

            self.same("it is reported", self.runs(act), "LibraryDiffers")

    def test_requests_that_nobody_reads(self):
        """60 puts of 1 MiB to a peer that does not read: the tasks wait, and what waits to be sent
        has a bound."""

        async def act():
            ours, theirs = socket.socketpair()
            with theirs, subprocess.Popen(
                [PROGRAM, "play", FULL], stdin=theirs, stdout=theirs
            ) as child:
                server = await aio.connect(ours)
                item = await server.create("Item")
                os.kill(child.pid, 19)
                text = "n" * (MIB // 2)
                tracemalloc.start()
                tasks = [asyncio.ensure_future(item.put("Name", text)) for _ in range(60)]
                await asyncio.sleep(1)
                _, most = tracemalloc.get_traced_memory()
                tracemalloc.stop()
                os.kill(child.pid, 18)
                await asyncio.gather(*tasks)
                await item.put("Count", 60)
                count = await item.get("Count")
                await server.close()
                return most, count

        most, count = self.runs(act)
        self.tell("it stays below 16 MiB", most < 16 * MIB, most)
        self.same("each of them is sent once it is read", count, I4(60))

    def test_a_batch_of_large_requests(self):
        """A batch holds 1 MiB of requests and the one that reached it, whatever its size is."""

        async def act():
            async with aio.play(FULL, program=PROGRAM) as server:
                item = await server.create("Item")
                async with server.batch() as batch:
                    most = 0
                    for _ in range(8):
                        await item.put("Name", "n" * (MIB // 4))
                        most = max(most, sum(len(it[0]) for it in batch.asked))
                return most

        most = self.runs(act)
        self.tell("it stays below 2 MiB", most < 2 * MIB, most)

    def test_a_long_reply(self):
        """8 MiB cost aio and frames about what they cost the client that waits: its time is
        compared in one run, with a wide margin for a machine that has other work, and the best of
        up to three runs counts."""
        for turn in range(3):
            waiting, awaited, framed = self.seconds_of_a_long_reply(8 * MIB, oaut.ask_list())
            if max(awaited, framed) < 3 * waiting + 0.02:
                break
        self.tell("aio", awaited < 3 * waiting + 0.02, (awaited, waiting))
        self.tell("frames", framed < 3 * waiting + 0.02, (framed, waiting))

    def seconds_of_a_long_reply(self, size, asked):
        """What it costs the client that waits, aio and frames."""
        with large(size) as sock:
            server = oaut.connect(sock)
            waiting = least(
                3, lambda: self.same("its bytes", len(server.exchange([asked])[0]), size)
            )
            server.close()

        async def act():
            found = []
            with large(size) as sock:
                server = await aio.connect(sock)
                for _ in range(3):
                    begun = time.process_time()
                    (body,) = await server.exchange([asked])
                    found.append(time.process_time() - begun)
                    self.same("its bytes in aio", len(body), size)
                await server.close()
            return min(found)

        awaited = self.runs(act)
        with large(size, "--frames", pipes=True) as child, frames.Shared(
            child.stdout, child.stdin
        ) as shared, shared.session() as server:
            framed = least(
                3, lambda: self.same("its bytes in frames", len(server.exchange([asked])[0]), size)
            )
        return waiting, awaited, framed

    def test_a_long_line(self):
        """The same as lines of digits, in each of them."""
        size = 8 * MIB
        ours, theirs = socket.socketpair()
        with ours, theirs:
            line = (bytes([1, 0, 0, 0]) + oaut.ask_list()[:0] + bytes(size)).hex().encode() + b"\n"
            threading.Thread(
                target=lambda: (theirs.recv(4096), theirs.sendall(line)), daemon=True
            ).start()
            server = oaut.connect(ours, framing="lines", group=1)
            begun = time.process_time()
            self.same("its bytes", len(server.exchange([oaut.ask_list()])[0]), size + 4)
            self.tell("its time", time.process_time() - begun < 10, time.process_time() - begun)

    def test_attributes_of_what_is_awaited(self):
        async def act():
            async with aio.play(FULL, program=PROGRAM) as server:
                item = await server.create("Item")
                for name, access, says in (
                    (
                        "a get",
                        lambda: item.Count,
                        "Item.Count is awaited in oaut.aio: await item.get('Count')",
                    ),
                    (
                        "a put",
                        lambda: setattr(item, "count", 5),
                        "Item.Count is awaited in oaut.aio: await item.put('count', value)",
                    ),
                    (
                        "an array",
                        lambda: item.Grid,
                        (
                            "Item.Grid is awaited in oaut.aio: item.array('Grid'), or await "
                            "item.get('Grid')"
                        ),
                    ),
                    (
                        "a method",
                        lambda: item.Clear,
                        "Item.Clear is awaited in oaut.aio: await item.call('Clear')",
                    ),
                    (
                        "no member",
                        lambda: item.Cuont,
                        "Item has no member Cuont: did you mean Count?",
                    ),
                ):
                    self.raises(name, AttributeError, access, says)
                self.tell("a copy protocol's question", not hasattr(item, "__len__"))

        self.runs(act)
