"""Changes as they happen, for asyncio."""
from __future__ import annotations

import asyncio
import os
import typing

from .addresses import Address, naming
from .faults import NotInTime, ProtocolError, SessionEnded
from .watching import LONGEST, Change, Told, refuse_tls

_T = typing.TypeVar("_T")


class Watch:
    """Changes one after another: `async for change in server.watch("Item")`. It has a connection of
    its own, which is made for the first requested change or by `async with`; `close` ends
    it. Raises SessionEnded at the gateway's end, and NotInTime, a TimeoutError, if no change comes
    within `timeout` seconds."""

    def __init__(self, address: Address, told: Told, timeout: float | None = None) -> None:
        self._address = refuse_tls(address)
        self._told = told
        self._timeout = timeout
        self._streams: tuple[asyncio.StreamReader, asyncio.StreamWriter] | None = None
        self._closed = False

    @property
    def epoch(self) -> str:
        """A text that is another one for each start of the gateway."""
        return self._told.epoch

    @property
    def begins(self) -> int:
        """The number of the first change that may come."""
        return self._told.begins

    async def begin(self) -> None:
        """Connects, so that changes from now on come."""
        if self._streams is not None or self._closed:
            return
        with naming(self._address):
            self._streams = await self._in_time(self._dialled())
        try:
            self._streams[1].write(self._told.line)
            self._told.begin(await self._line())
        except BaseException:
            self.close()
            raise

    async def _dialled(self) -> tuple[asyncio.StreamReader, asyncio.StreamWriter]:
        if isinstance(self._address, tuple):
            host, port = typing.cast("tuple[str, int]", self._address)
            return await asyncio.open_connection(host, port, limit=LONGEST)
        return await asyncio.open_unix_connection(os.fspath(self._address), limit=LONGEST)

    async def _in_time(self, what: typing.Coroutine[object, object, _T]) -> _T:
        try:
            return await asyncio.wait_for(what, self._timeout)
        except (asyncio.TimeoutError, TimeoutError):
            raise NotInTime(f"no change within {self._timeout or 0:g} seconds") from None

    async def _line(self) -> bytes:
        if self._streams is None:
            raise SessionEnded("it was closed")
        try:
            line = await self._in_time(self._streams[0].readline())
        except ValueError as error:
            if isinstance(error, ProtocolError):
                raise
            raise ProtocolError("a line is too long") from error
        except NotInTime:
            raise
        except OSError:
            line = b""
        if not line.endswith(b"\n"):
            raise SessionEnded("the gateway has ended, or nobody may watch there")
        return line

    async def __aenter__(self) -> Watch:
        await self.begin()
        return self

    async def __aexit__(self, *_: object) -> None:
        self.close()

    def __aiter__(self) -> Watch:
        return self

    async def __anext__(self) -> Change:
        await self.begin()
        while True:
            found = self._told.read(await self._line())
            if found is not None:
                return found

    def close(self) -> None:
        """Ends the connection."""
        streams, self._streams, self._closed = self._streams, None, True
        if streams is not None:
            streams[1].close()
