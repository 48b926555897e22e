"""The listening sockets, and the connections that have sent no whole PDU yet. Such a guest is a
socket and the bytes that came: it has no transport, and no entry in the loop of events, so that
many idle ones cost the others little."""
from __future__ import annotations

import asyncio
import errno
import select
import socket
import typing

from . import pdu
from .connection import Connection

if typing.TYPE_CHECKING:
    from .server import Server

# connections that a socket accepts, and guests that are read, before others have their turn
ACCEPTS = READS = 16
# connections that wait to be accepted: of one too many the client tries again after a second
_BACKLOG = 1_024
_PAUSE = 1.0  # seconds without accepting, if there are no descriptors or no memory
_SCARCE = (errno.EMFILE, errno.ENFILE, errno.ENOBUFS, errno.ENOMEM)


class Guest:
    """A connection that has sent no whole PDU."""

    __slots__ = ("server", "peer", "block", "made", "number", "_sock", "_resolver", "_in")
    user = ""

    def __init__(
        self, server: "Server", sock: socket.socket, resolver: bool, peer: str, block: str
    ) -> None:
        self.server, self._sock, self._resolver = server, sock, resolver
        self.peer, self.block, self.made = peer, block, server.now()
        self.number = sock.fileno()
        self._in = b""

    def overdue(self, now: float) -> str:
        """Why the connection has to end by now, or nothing."""
        return "no user in time" if now - self.made > self.server.limits.hello else ""

    def gone(self) -> None:
        """Ends the connection at once."""
        self.server.forget(self)
        self._sock.close()

    def welcomed(self) -> Connection:
        """The connection that it becomes. Its time to have a user has begun."""
        return Connection(self.server, self._resolver, self._in, self.made)

    def read(self) -> None:
        """Reads what has come."""
        try:
            some = self._sock.recv(pdu.FRAGMENT)
        except (BlockingIOError, InterruptedError):
            return
        except OSError:
            some = b""
        self._in += some
        try:
            if not some:
                self.gone()
            elif len(self._in) >= pdu.HEADER.size and len(self._in) >= pdu.length_of(self._in, 0):
                self.server.forget(self)
                self.server.welcome(self._sock, self.welcomed)
        except pdu.Broken as broken:
            self.server.note_of(self, f"ended: {broken}")
            self.gone()


class Lobby:
    """The guests, of which those with bytes to read are known together."""

    def __init__(self) -> None:
        self._guests: typing.Dict[int, Guest] = {}
        self._ready: typing.Optional[select.epoll] = None

    def add(self, guest: Guest) -> None:
        """Reads its first PDU as it comes. Raises OSError if the system has no room for it."""
        if self._ready is None:
            self._ready = select.epoll()
            asyncio.get_running_loop().add_reader(self._ready.fileno(), self._turn)
        self._ready.register(guest.number, select.EPOLLIN)
        self._guests[guest.number] = guest

    def remove(self, guest: Guest) -> None:
        """It is no guest any more."""
        if self._guests.pop(guest.number, None) is not None and self._ready is not None:
            self._ready.unregister(guest.number)

    def _turn(self) -> None:
        assert self._ready is not None
        for number, _ in self._ready.poll(0, READS):
            guest = self._guests.get(number)
            if guest is not None:
                guest.read()


class Door:
    """Accepts the clients of a listening socket, a few at a time."""

    def __init__(self, server: "Server", sock: socket.socket, resolver: bool) -> None:
        self._server, self._sock, self._resolver = server, sock, resolver
        self._is_open = True
        sock.setblocking(False)
        sock.listen(_BACKLOG)
        self._listen()

    def _listen(self) -> None:
        if self._is_open:
            asyncio.get_running_loop().add_reader(self._sock.fileno(), self._accept)

    def close(self) -> None:
        """Accepts nobody from now on."""
        if self._is_open:
            self._is_open = False
            asyncio.get_running_loop().remove_reader(self._sock.fileno())
            self._sock.close()

    def _accept(self) -> None:
        for _ in range(ACCEPTS):
            try:
                sock, peer = self._sock.accept()
            except OSError as error:
                if error.errno in _SCARCE:
                    self._pause(error)
                # (otherwise nobody is left, or one is gone already)
                return
            sock.setblocking(False)
            self._server.arrive(sock, str(peer[0]) if peer else "", self._resolver)

    def _pause(self, error: OSError) -> None:
        self._server.log.note(f"nobody is accepted for a second: {error.strerror}")
        loop = asyncio.get_running_loop()
        loop.remove_reader(self._sock.fileno())
        loop.call_later(_PAUSE, self._listen)


# a connection of either kind
Visitor = typing.Union[Guest, Connection]
