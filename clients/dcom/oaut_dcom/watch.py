"""Waits for changes, by the gateway's socket of --watch (docs/operations/gateway.md)."""
from __future__ import annotations

import asyncio
import collections
import re
import struct
import typing
import uuid

from .store import dialled

ANY = -1  # the watch has begun, changes were missed, or the server or its library is another one
_WATCHES = 4  # of an association group: the oldest goes if there are more
_PENDING = 10_000  # changes that nobody has waited for; then the gateway keeps what comes
_LINE = 1 << 20
_BEGIN = 30  # seconds for a gateway that is slow to accept
_CHANGE = re.compile(rb'\{"seq":\d+,"kind":"\w+"(?:,"object":(\d+))?')
_OF_ALL = (b'{"gap":', b'{"restart":')


class Wait(typing.NamedTuple):
    """A call yields this to wait for a change of an object of a coclass, or of any."""

    coclass: typing.Optional[uuid.UUID]
    milliseconds: int


def reply_of(number: typing.Optional[int]) -> bytes:
    """The call receives the object's number, ANY, or 0 if there was no change in time; no bytes if
    the gateway is not reached."""
    return b"" if number is None else struct.pack("<q", number)


def _number_of(line: bytes) -> typing.Optional[int]:
    """The object of a line, ANY if it is about none, or None if it is no line of a watch."""
    if line.startswith(_OF_ALL):
        return ANY
    found = _CHANGE.match(line) if line.endswith(b"\n") else None
    if found is None:
        return None
    return int(found[1]) if found[1] else ANY


Told = typing.Callable[[bytes], None]


class _Waiter:
    """One that waits. Its time begins when the watch has begun."""

    def __init__(self, milliseconds: int, told: Told) -> None:
        self.milliseconds, self.told = milliseconds, told
        self.timer: typing.Optional[asyncio.TimerHandle] = None

    def disarm(self) -> None:
        """Its time does not run any more."""
        if self.timer is not None:
            self.timer.cancel()

    def end(self, number: typing.Optional[int]) -> None:
        """Tells it."""
        self.told(reply_of(number))


class _Watch:
    """A connection to the gateway. It is made when somebody waits and there is none."""

    def __init__(self, path: str, coclass: typing.Optional[uuid.UUID]) -> None:
        self._path = path
        self._asked = b"watch\n" if coclass is None else f"watch class={coclass}\n".encode()
        self._task: "typing.Optional[asyncio.Future[None]]" = None
        self._begun = False
        self._room = asyncio.Event()
        self._changes: typing.Deque[int] = collections.deque()
        self._waiters: typing.Dict[_Waiter, None] = {}

    def wait(self, milliseconds: int, told: Told) -> typing.Callable[[], None]:
        """Tells the next change, perhaps at once. Returns a function that forgets the waiter."""
        waiter = _Waiter(milliseconds, told)
        self._waiters[waiter] = None
        if self._begun:
            self._arm(waiter)
            self._tell()
        elif self._task is None:
            self._task = asyncio.ensure_future(self._run())
        return lambda: self._forget(waiter)

    def _forget(self, waiter: _Waiter) -> None:
        waiter.disarm()
        self._waiters.pop(waiter, None)

    def _arm(self, waiter: _Waiter) -> None:
        def late() -> None:
            self._forget(waiter)
            waiter.end(0)

        waiter.timer = asyncio.get_running_loop().call_later(waiter.milliseconds / 1000, late)

    def _tell(self) -> None:
        """Tells those who wait, one a change."""
        while self._changes and self._waiters:
            waiter = next(iter(self._waiters))
            self._forget(waiter)
            waiter.end(self._changes.popleft())
        if len(self._changes) < _PENDING:
            self._room.set()
        else:
            self._room.clear()

    async def _run(self) -> None:
        """Connects, and again if the connection breaks while somebody waits."""
        while True:
            try:
                reader, writer = await asyncio.wait_for(self._begin(), _BEGIN)
            except (OSError, ValueError, asyncio.TimeoutError):
                self._task = None
                return self._end(None)
            try:
                await self._take(reader)
            finally:
                writer.close()
            if not self._waiters:
                self._task = None
                return None

    async def _begin(self) -> typing.Tuple[asyncio.StreamReader, asyncio.StreamWriter]:
        sock = await dialled(self._path)
        reader, writer = await asyncio.open_unix_connection(sock=sock, limit=_LINE)
        try:
            writer.write(self._asked)
            if (await reader.readline()).startswith(b'{"epoch":'):
                return reader, writer
            raise OSError("what listens there sends no changes")
        except BaseException:
            writer.close()
            raise

    async def _take(self, reader: asyncio.StreamReader) -> None:
        """Takes changes up to the connection's end."""
        self._begun = True
        for it in self._waiters:
            self._arm(it)
        number: typing.Optional[int] = ANY
        while number is not None:
            # (changes of one object one after another are one)
            if not self._changes or self._changes[-1] != number:
                self._changes.append(number)
            self._tell()
            await self._room.wait()
            try:
                number = _number_of(await reader.readline())
            except (OSError, ValueError):
                number = None
        self._begun = False
        self._changes.clear()
        for it in self._waiters:
            it.disarm()

    def _end(self, number: typing.Optional[int]) -> None:
        """Ends all waits."""
        waiters, self._waiters = self._waiters, {}
        for it in waiters:
            it.disarm()
            it.end(number)

    def close(self) -> None:
        """Ends the connection. All waiters receive ANY."""
        if self._task is not None:
            self._task.cancel()
        self._end(ANY)


class Watches:
    """The watches of an association group: of all objects, and of coclasses."""

    def __init__(self, path: str) -> None:
        self._path = path
        self._watches: typing.Dict[typing.Optional[uuid.UUID], _Watch] = {}

    def wait(self, wait: Wait, told: Told) -> typing.Callable[[], None]:
        """Begins a wait, which may end at once. Returns a function that forgets it."""
        if not self._path:
            told(reply_of(None))
            return lambda: None
        watch = self._watches.pop(wait.coclass, None) or _Watch(self._path, wait.coclass)
        self._watches[wait.coclass] = watch
        if len(self._watches) > _WATCHES:
            self._watches.pop(next(iter(self._watches))).close()
        return watch.wait(wait.milliseconds, told)

    def close(self) -> None:
        """Ends all of them."""
        while self._watches:
            self._watches.popitem()[1].close()
