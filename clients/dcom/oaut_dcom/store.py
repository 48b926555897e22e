"""The gateway's shared socket. Each association group is a client of its own there, so that the
locks that a program takes are its own and end with it."""
from __future__ import annotations

import asyncio
import collections
import socket
import struct
import typing

from oaut.records import NO_INDEX, REPLY_HEAD

from .codes import E_OUTOFMEMORY

_HEAD = struct.Struct("<II")
# a reply of more bytes, such as a list of 700,000 objects, refuses its own call and is not kept
_REPLY_LIMIT = 16 << 20
# END, which asks for nothing (docs/reference/records.md), as a record with this tag
_END_TAG = 0xFFFF_FFFF
_END = struct.pack("<IIHH", 8, _END_TAG, 12, 0)
_DIAL = 30  # seconds for a gateway that is slow to accept
_PAUSE = 0.02  # seconds between two tries
# called with the reply's body, or with None if there is none
Answered = typing.Callable[[typing.Optional[bytes]], None]


class Gone(Exception):
    """The gateway was not reached, or has ended. `sent`: the request may have been executed."""

    def __init__(self, sent: bool) -> None:
        super().__init__("the gateway is gone")
        self.sent = sent


async def dialled(path: str) -> socket.socket:
    """A socket that is connected to a path. (One that has no place for another client says so at
    once, and asyncio would take that for a connection under way.)"""
    sock = socket.socket(socket.AF_UNIX)
    try:
        sock.setblocking(False)
        while True:
            try:
                sock.connect(path)
                return sock
            except BlockingIOError:
                await asyncio.sleep(_PAUSE)
    except BaseException:
        sock.close()
        raise


class Client(asyncio.Protocol):
    """A connection to the gateway. Replies come in the order of the requests."""

    def __init__(
        self,
        path: str,
        lost: typing.Callable[[], None] = lambda: None,
        is_same: typing.Optional[typing.Callable[[], bool]] = None,
    ) -> None:
        """`is_same` returns whether the gateway serves the right store. It is called once the
        gateway has replied, and another store receives no requests."""
        self._path, self._lost, self._is_same = path, lost, is_same
        self._transport: typing.Optional[asyncio.Transport] = None
        self._waiting: typing.Deque[typing.Tuple[int, Answered]] = collections.deque()
        self._unsent: typing.List[bytes] = []
        self._came = bytearray()
        self._wanted = 0  # bytes of a reply that is not whole
        self._past = 0  # bytes of one that is too long, which are to come
        self._tag = 0
        self.ended = self.is_other = False
        # whether anything was sent: a request of a connection that was never made was not executed
        self.was_made = False
        self._dialling = asyncio.ensure_future(self._dial())

    async def _dial(self) -> None:
        try:
            await asyncio.wait_for(self._reach(), _DIAL)
        except (OSError, asyncio.TimeoutError):
            self._lose()

    async def _reach(self) -> None:
        """Connects to the socket."""
        sock = await dialled(self._path)
        try:
            await asyncio.get_running_loop().create_unix_connection(lambda: self, sock=sock)
        except BaseException:
            sock.close()
            raise

    def connection_made(self, transport: asyncio.BaseTransport) -> None:
        assert isinstance(transport, asyncio.Transport)
        if self.ended:
            transport.abort()
            return
        self._transport = transport
        if self._is_same is None:
            self._begin()
        else:
            self._waiting.appendleft((_END_TAG, self._reached))
            transport.write(_END)

    def _reached(self, reply: typing.Optional[bytes]) -> None:
        """The gateway has replied, so it has opened its store."""
        assert self._is_same is not None
        if reply is None:
            return
        self.is_other = not self._is_same()
        if self.is_other:
            self._broken()
        else:
            self._begin()

    def _begin(self) -> None:
        """Sends the requests that were added."""
        assert self._transport is not None
        self.was_made = True
        if self._unsent:
            self._transport.write(b"".join(self._unsent))
            self._unsent.clear()

    def ask(self, request: bytes, answered: Answered) -> None:
        """Sends a request, which has no tag yet."""
        if self.ended:
            answered(None)
            return
        self._tag = self._tag + 1 & 0xFFFF_FFFF
        self._waiting.append((self._tag, answered))
        data = _HEAD.pack(len(request) + 4, self._tag) + request
        if self._transport is None or not self.was_made:
            self._unsent.append(data)
        else:
            self._transport.write(data)

    def data_received(self, data: bytes) -> None:
        if self._past:
            data, self._past = data[self._past :], max(self._past - len(data), 0)
        if self._came:
            self._came += data
            if len(self._came) < self._wanted:
                return None
            data, self._came = bytes(self._came), bytearray()
        at, size, self._wanted = 0, len(data), 8
        while size - at >= 8:
            length, tag = _HEAD.unpack_from(data, at)
            if length < 16 or not self._waiting or self._waiting[0][0] != tag:
                return self._broken()
            if length > size - at - 4:
                if length <= _REPLY_LIMIT:
                    self._wanted = length + 4
                    break
                self._past = length + 4 - (size - at)
            _, answered = self._waiting.popleft()
            if length > _REPLY_LIMIT:
                answered(REPLY_HEAD.pack(tag, E_OUTOFMEMORY, NO_INDEX, 0))
                at = min(at + 4 + length, size)
                continue
            answered(data[at + 4 : at + 4 + length])
            at += 4 + length
        if at < size:
            self._came += data[at:]
        return None

    def _broken(self) -> None:
        """Bytes came that are no replies to the requests."""
        if self._transport is not None:
            self._transport.abort()
        self._lose()

    def connection_lost(self, exc: typing.Optional[Exception]) -> None:
        self._lose()

    def _lose(self) -> None:
        ended, self.ended = self.ended, True
        self._came = bytearray()
        while self._waiting:
            _, answered = self._waiting.popleft()
            answered(None)
        if not ended:
            self._lost()

    def end(self) -> None:
        """Ends the connection, and with it the locks."""
        self.ended = True
        if self._transport is not None:
            self._transport.close()
        self._lose()
