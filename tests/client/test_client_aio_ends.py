"""How a session for asyncio ends, and goes on over another connection, while tasks ask and are
cancelled."""
import asyncio
import contextlib
import socket
import sys
import threading

from oaut import aio
from tests.client.clients import FULL, PROGRAM, ClientCases, oaut
from tests.support.asked import Answering

# a program whose end comes a while after that of its input
SLOW_END = """
import subprocess, sys, time
status = subprocess.run(sys.argv[1:]).returncode
time.sleep(1)
sys.exit(status)
"""
CREATE, INVOKE = 1, 4


def op(body):
    """The opcode of a request, or END."""
    return "END" if body[:4] == b"\xff" * 4 else int.from_bytes(body[4:6], "little")


@contextlib.contextmanager
def warned():
    """The reports of the loop about exceptions that nobody awaits."""
    told, loop = [], asyncio.get_running_loop()
    loop.set_exception_handler(lambda _, context: told.append(str(context)))
    yield told


class Peer:
    """A server of the model on a port of this machine. It notes what each connection has sent."""

    def __init__(self, deaf_after=None):
        self.answering, self.deaf_after = Answering(), deaf_after
        self.listener = socket.create_server(("127.0.0.1", 0))
        self.connections, self.seen = [], []
        threading.Thread(target=self.accept, daemon=True).start()

    @property
    def address(self):
        return self.listener.getsockname()

    def accept(self):
        with contextlib.suppress(OSError):
            while True:
                connection, _ = self.listener.accept()
                self.connections.append(connection)
                self.seen.append([])
                threading.Thread(
                    target=self.serve, args=(connection, self.seen[-1]), daemon=True
                ).start()

    def serve(self, connection, seen):
        rest = b""
        with contextlib.suppress(OSError):
            while some := connection.recv(1 << 16):
                bodies, at = oaut.Raw.split(rest + some, 0, 1 << 20)
                rest = (rest + some)[at:]
                seen += bodies
                connection.sendall(oaut.Raw.pack([self.answering.reply(it) for it in bodies]))
                if self.deaf_after in [op(it) for it in bodies]:
                    return

    def __enter__(self):
        return self

    def __exit__(self, *_):
        for it in (self.listener, *self.connections):
            it.close()


class EndsAtFirst(Peer):
    """Lets so many of its first connections go with their first reply."""

    def __init__(self, count):
        self.count = count
        super().__init__()

    def serve(self, connection, seen):
        if len(self.connections) > self.count:
            super().serve(connection, seen)
            return
        with connection, contextlib.suppress(OSError):
            seen += oaut.Raw.split(connection.recv(1 << 16), 0, 1 << 20)[0]
            connection.sendall(oaut.Raw.pack([self.answering.reply(it) for it in seen]))


class AioEnds(ClientCases):
    def runs(self, act):
        return asyncio.run(asyncio.wait_for(act(), 300))

    def test_an_atomic_block_over_a_new_connection(self):
        """What another task has asked is in a group before it, and in none with it: a group has
        four requests here."""
        with Peer() as peer:

            async def act():
                async with aio.connect(peer.address, group=4, timeout=60) as server:
                    item = await server.create("Item")

                    async def atomic():
                        async with server.atomic():
                            for count in range(4):
                                await item.put("Count", count)

                    while server._due:  # (the reply to END, after that of the request)
                        await asyncio.sleep(0.01)
                    peer.connections[0].shutdown(socket.SHUT_RDWR)
                    await asyncio.gather(item.put("Name", "x"), atomic())

            self.runs(act)
            sent = [it for it in map(op, peer.seen[1]) if it in ("END", INVOKE)]
            self.same("what is sent", sent, ["END", INVOKE, "END", *[INVOKE] * 4, "END"])

    def test_a_session_that_gave_its_locks_back_connects_again(self):
        """Only one that has a lock ends with its connection."""
        for name, keeps in (("locks that were given back", False), ("a lock that is held", True)):
            with Peer() as peer:
                server = oaut.connect(peer.address, timeout=60)
                item = server.create("Item")
                item.Grid.redim(2)
                with item.Grid.locked():
                    pass
                if keeps:
                    item.Grid.lock()
                peer.connections[0].shutdown(socket.SHUT_RDWR)
                try:
                    item.Count = 7
                    got = "connected again"
                except oaut.SessionEnded as end:
                    got = str(end)
                self.tell(
                    name,
                    ("its locks of arrays with it" in got, got == "connected again")
                    == (keeps, not keeps),
                    got,
                )
            with Peer() as peer:

                async def act():
                    server = await aio.connect(peer.address, timeout=60)
                    item = await server.create("Item")
                    await item.array("Grid").redim(2)
                    async with item.array("Grid").locked():
                        pass
                    if keeps:
                        await item.array("Grid").lock()
                    while server._due:
                        await asyncio.sleep(0.01)
                    peer.connections[0].shutdown(socket.SHUT_RDWR)
                    try:
                        await item.put("Count", 7)
                        return "connected again"
                    except oaut.SessionEnded as end:
                        return str(end)

                got = self.runs(act)
                self.tell(
                    f"{name}, awaited",
                    ("its locks of arrays with it" in got, got == "connected again")
                    == (keeps, not keeps),
                    got,
                )

    def test_the_exception_of_a_block_that_has_a_lock(self):
        """It is raised also if the lock cannot be given back."""
        with Peer() as peer:

            async def act():
                server = await aio.connect(peer.address, timeout=60)
                item = await server.create("Item")
                await item.array("Grid").redim(2)
                try:
                    async with item.array("Grid").locked():
                        peer.listener.close()
                        peer.connections[0].shutdown(socket.SHUT_RDWR)
                        raise KeyError("mine")
                except Exception as error:
                    return repr(error)

            self.same("it is the block's own", self.runs(act), "KeyError('mine')")

    def test_connections_that_end_with_their_first_reply(self):
        """As those of a server that is killed then: they are dialled again, as long as patience
        lasts."""
        with EndsAtFirst(3) as peer:

            async def act():
                async with aio.connect(peer.address, patience=20) as server:
                    return (await server.create("Item")).number

            async def in_time():
                return await asyncio.wait_for(act(), 60)

            self.tell(
                "the fourth one serves",
                self.runs(in_time) == 1 and len(peer.seen) == 4,
                len(peer.seen),
            )

    def test_a_close_that_is_cancelled_is_called_again(self):
        async def act():
            with warned() as told:
                server = await aio.play(FULL, program=[sys.executable, "-c", SLOW_END, PROGRAM])
                item = await server.create("Item")
                for _ in range(2):
                    with contextlib.suppress(asyncio.TimeoutError):
                        await asyncio.wait_for(server.close(), 0.05)
                await server.close()
                self.same("the program has ended", server._child.get_returncode(), 0)
                try:
                    await asyncio.wait_for(item.get("Count"), 60)
                    self.tell("the session has ended", False)
                except oaut.SessionEnded as end:
                    self.same("the session has ended", str(end), "the session was closed")
                self.same("nothing else is reported", told, [])

        self.runs(act)

    def test_a_peer_that_reads_nothing_is_left(self):
        """Of requests whose tasks were cancelled nobody waits for a reply, so that what the peer
        does not take ends with the session."""
        with Peer(deaf_after=CREATE) as peer:
            ours, theirs = socket.socketpair()
            peer.connections += [ours, theirs]
            threading.Thread(target=peer.serve, args=(theirs, []), daemon=True).start()

            async def act():
                server = await aio.connect(ours)
                item = await server.create("Item")
                puts = asyncio.gather(*(item.put("Name", "x" * 400_000) for _ in range(40)))
                with contextlib.suppress(asyncio.TimeoutError):
                    await asyncio.wait_for(puts, 0.5)
                await asyncio.wait_for(server.close(), 60)
                self.same("it is closed", "ended" in repr(server), True)

            self.runs(act)
