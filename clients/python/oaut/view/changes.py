"""Whether a store has changed, by the socket of a gateway's `--watch`, so that the page need not
read its values again and again."""
from __future__ import annotations

import asyncio
import os

from ..addresses import Address
from ..faults import Error, ProtocolError
from ..watching import LONGEST, refuse_tls

# seconds until the gateway is tried again, between two looks at what has come, and for its first
# line
RETRY, PAUSE, BEGIN = 5.0, 0.1, 30.0


class Changes:
    """Counts changes, or what may be one. The count is None while nobody tells of them."""

    def __init__(self, address: Address | None) -> None:
        self.address = address
        self.count: int | None = None
        self._last = 0
        self._waiting: set[asyncio.Future[None]] = set()

    async def follow(self) -> None:
        """Follows the gateway until it is cancelled."""
        while self.address is not None:
            try:
                await self._take(self.address)
            except (OSError, Error, ValueError, asyncio.TimeoutError):
                pass
            self._more(False)
            await asyncio.sleep(RETRY)

    async def _take(self, address: Address) -> None:
        reader, writer = await asyncio.wait_for(_begun(address), BEGIN)
        try:
            self._more()
            # (how many there were is nothing to the page)
            while await reader.read(LONGEST):
                self._more()
                await asyncio.sleep(PAUSE)
        finally:
            writer.close()

    def _more(self, is_known: bool = True) -> None:
        self._last += 1
        self.count = self._last if is_known else None
        for it in self._waiting:
            if not it.done():
                it.set_result(None)

    async def after(self, count: int | None, seconds: float) -> int | None:
        """The count, once it is another one or so many seconds have passed."""
        if count is None or count != self.count:
            return self.count
        waiting = asyncio.get_running_loop().create_future()
        self._waiting.add(waiting)
        try:
            await asyncio.wait_for(waiting, seconds)
        except asyncio.TimeoutError:
            pass
        finally:
            self._waiting.discard(waiting)
        return self.count


async def _begun(address: Address) -> tuple[asyncio.StreamReader, asyncio.StreamWriter]:
    """A connection that has begun to tell of changes."""
    found = refuse_tls(address)
    if isinstance(found, tuple):
        reader, writer = await asyncio.open_connection(*found)
    else:
        reader, writer = await asyncio.open_unix_connection(os.fspath(found))
    try:
        writer.write(b"watch\n")
        if not (await reader.readline()).startswith(b'{"epoch":'):
            raise ProtocolError("what listens there sends no changes")
    except BaseException:
        writer.close()
        raise
    return reader, writer


__all__ = ["Changes"]
