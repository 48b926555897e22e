"""Sessions for asyncio: the same names as those of `oaut`, awaited.

    async with oaut.aio.serve("items.store") as server:
        item = await server.create("Item")
        await item.put("Count", 7)
        print(await item.get("Count"))

Any number of tasks may use a session: what they ask at one moment is sent together, and committed
together.
"""
from __future__ import annotations

import asyncio
import collections
import contextlib
import errno
import functools
import io
import os
import socket
import tempfile
import types
import typing

from . import forks, objects, opening, programs
from .addresses import Address, Secure, address_of, address_words, naming, watch
from .connection import WAIT_FOR_LAST, check_timeout
from .faults import (
    Disconnected,
    Error,
    LibraryDiffers,
    NoSuchMember,
    NotInTime,
    NotSent,
    ProtocolError,
    Refused,
    SessionEnded,
    TimedOut,
    TlsFailed,
    WrongType,
    WrongUse,
    WrongValue,
    system_failed,
    system_failures,
)
from .framing import FRAMING, FRAMINGS
from .library import Library, Which
from .objects import Rows
from .paths import Path, text_file
from .programs import PROGRAM, Program
from .protocol import (
    END,
    GROUP,
    Act,
    Asked,
    Collected,
    GroupRoom,
    Later,
    Read,
    act_words,
    created,
    judge,
    not_replaced,
    reading_library,
    said,
)
from .records import (
    BODY_LIMIT,
    ask_create,
    ask_list,
    ask_replace,
    read_nothing,
    read_number,
    read_objects,
)
from .session import BATCH, ending
from .updating_aio import KEEP, Update, Updates
from .values import ARRAY, Array, Bounds, Value, plain
from .watching import Told, watched_at
from .watching_aio import Watch

__all__ = ["ArrayProperty", "Batch", "Object", "Server", "connect", "open", "play", "serve"]

_TAGS = 0xFFFF_FFFF
_LET_GO = "the server has let the connection go"
# the limit in bytes of requests that are not yet sent, and as many again that the other side has
# not read: callers that exceed it wait. One request may exceed either limit.
HELD = 1_048_576

# the bytes of a read. A reply that lacks more is read into its own place, up to that size.
_LONG, _LONGEST = 65_536, 67_108_864

# a request, and the future of its reply
_Asked = tuple[bytes, "asyncio.Future[bytes]"]


class Object:
    """An object of a server: `await item.get("Count")`, `await item.put("Count", 7)`,
    `await item.get("Cell", 5, Key="k")`, `await item.array("Grid").get(0, 7)`."""

    __slots__ = ("_object", "_server")

    def __init__(self, server: Server, found: objects.Object) -> None:
        self._server, self._object = server, found

    @property
    def number(self) -> int:
        """The object's number in its server."""
        return self._object.number

    @property
    def coclass(self) -> str:
        """The name of its coclass."""
        return self._object.coclass

    def interface(self, which: Which) -> Object:
        """Returns the same object through another interface of its coclass, by name or GUID."""
        return Object(self._server, self._object.interface(which))

    async def get(self, name: str, /, *positional: object, **named: object) -> Value:
        """A property's value, an array whole; in a batch a Later."""
        await self._server.room()
        member = objects.member_of(self._object, name)
        return await objects.get_of(self._object, member, positional, named)

    async def put(self, name: str, value: object, /, *positional: object, **named: object) -> None:
        """Puts a property's value, for these arguments."""
        await self._server.room()
        member = objects.member_of(self._object, name)
        await objects.put_of(self._object, member, value, positional, named)

    async def keys(self, name: str) -> list[tuple[Value, ...]]:
        """The arguments of all values of a property that were put, in the store's order, as
        `oaut.Property.keys`. A thread reads them."""
        from .keys import keys_from

        server, of = self._server, objects.member_of(self._object, name)
        place = self.number, of.interface.guid.bytes_le, of.dispid
        return await asyncio.to_thread(keys_from, server.store, server._watch_at, *place)

    async def call(self, name: str, /, *positional: object, **named: object) -> Value:
        """Calls a method, which raises NotImplementedHere."""
        member = objects.member_of(self._object, name)
        return await objects.call_of(self._object, member, positional, named)

    async def compare_and_put(
        self,
        name: str,
        old: object,
        new: object,
        /,
        *positional: object,
        lock: ArrayProperty,
        timeout: float | None = None,
    ) -> bool:
        """Puts a property if it has the value `old`, and returns whether it did, with the lock of
        `lock=item.array("Grid")`, as `oaut.Object.compare_and_put`."""

        def step(value: Value) -> tuple[object, object]:
            return (new, True) if value == old else (KEEP, False)

        place = self._object, objects.member_of(self._object, name), positional
        return bool(await self._server.update(Update(place, step), lock, timeout))

    async def update(
        self,
        name: str,
        step: typing.Callable[[Value], Value],
        /,
        *positional: object,
        lock: ArrayProperty,
        timeout: float | None = None,
    ) -> Value:
        """Puts what `step` returns for a property's value, and returns that too, with the lock of
        `lock=item.array("Grid")`, as `oaut.Object.update`. Updates of many tasks that wait for the
        same lock are made one after another while it is held once, and their last value is put.
        So a step may be called again; it does not wait, and changes nothing itself."""

        def stepped(value: Value) -> tuple[object, object]:
            new = step(value)
            return new, new

        place = self._object, objects.member_of(self._object, name), positional
        return await self._server.update(Update(place, stepped), lock, timeout)

    def array(self, name: str, /, *positional: object, **named: object) -> ArrayProperty:
        """The array in a property."""
        return ArrayProperty(self._object, objects.member_of(self._object, name), positional, named)

    async def release(self) -> None:
        """Gives the object up; its number is never used again."""
        await objects.release_of(self._object)

    async def dispids(self, *names: str) -> list[int]:
        """The DISPIDs of a member's name and of its parameters' names, as the server says."""
        found: list[int] = await objects.dispids_of(self._object, names)
        return found

    def __getattr__(self, name: str) -> typing.NoReturn:
        raise NoSuchMember(self._hint(name, f"await item.get({name!r})"))

    def __setattr__(self, name: str, value: object) -> None:
        if name not in Object.__slots__:
            raise NoSuchMember(self._hint(name, f"await item.put({name!r}, value)"))
        object.__setattr__(self, name, value)

    def _hint(self, name: str, instead: str) -> str:
        """Why there is no such attribute, and what to write instead."""
        if name.startswith("_"):
            return f"{type(self).__name__} has no attribute {name}"
        try:
            member = objects.member_of(self._object, name)
        except AttributeError as error:
            return str(error)
        if member.vt & ARRAY and not member.parameters:
            instead = f"item.array({name!r}), or {instead}"
        elif member.is_method:
            instead = f"await item.call({name!r})"
        return f"{self.coclass}.{member.name} is awaited in oaut.aio: {instead}"

    def __dir__(self) -> list[str]:
        return sorted({*object.__dir__(self), *self._object.__dir__()})

    def __eq__(self, other: object) -> bool:
        return isinstance(other, Object) and self._object == other._object

    def __hash__(self) -> int:
        return hash(self._object)

    def __repr__(self) -> str:
        return repr(self._object)


class LaterObject(Later):
    """An object that is created in a batch. Its first use there, as by `await item.put(..)`, sends
    what the batch has, so that it has its number."""

    __slots__ = ("_later", "_batch")

    def __init__(self, later: Later, batch: Batch) -> None:
        self._later, self._batch = later, batch

    @property
    def value(self) -> Value:
        """The object."""
        return self._later.value

    @property
    def is_sent(self) -> bool:
        """Whether it was created, or refused."""
        return self._later.is_sent

    def __getattr__(self, name: str) -> Value:
        if name not in ("get", "put", "call", "release", "dispids"):
            return getattr(self._later.value, name)

        async def act(*given: object, **named: object) -> Value:
            if not self._later.is_sent:
                await self._batch.send_now()
            return await getattr(self._later.value, name)(*given, **named)

        return act


class ArrayProperty(objects.ArrayCalls):
    """The array in a property: each use asks the server."""

    __slots__ = ()

    async def value(self) -> Value:
        """All of it, an Array."""
        return await self.ask_value()

    async def bounds(self) -> Bounds:
        """Its bounds, pairs of a count and a lowest index."""
        found = await self.ask_value()
        if not isinstance(found, Array):
            raise WrongType(f"{self!r} holds no array, or is asked in a batch")
        return found.bounds

    async def get(self, *indices: int) -> Value:
        """An element."""
        return await self.ask_element(indices)

    async def put(self, value: object, *indices: int) -> None:
        """Puts an element."""
        await typing.cast(Server, self._object._server).room()
        await self.ask_put(indices, value)

    async def redim(self, count: int, lower: int = 0) -> None:
        """Replaces the first bound. Cells are kept by their position, and new ones are zero."""
        await self.ask_redim(count, lower)

    def locked(self, timeout: float | None = None) -> Locked:
        """`async with item.array("Grid").locked():` has the array's only lock, and gives it back on
        any exit, as `oaut.ArrayProperty.locked`."""
        return Locked(self, timeout)

    async def lock(self) -> int:
        """Adds a lock and gives their count."""
        found: int = await self.ask_lock()
        return found

    async def unlock(self) -> int:
        """Takes a lock away and gives the count of those that are left."""
        found: int = await self.ask_unlock()
        return found


class Locked:
    """The only lock of an array: `async with item.array("Grid").locked()`."""

    def __init__(
        self, array: ArrayProperty, timeout: float | None, place: objects.Place | None = None
    ) -> None:
        self._array, self._timeout, self._place = array, timeout, place
        self._server = typing.cast(Server, array._object._server)
        self._found: Later | None = None
        self._is_there = False
        # whether nothing was put
        self.may_repeat = True

    async def __aenter__(self) -> Locked:
        if self._server.batch_of_task() is not None:
            raise WrongUse("a lock is waited for outside a batch")
        loop = asyncio.get_running_loop()
        until = None if self._timeout is None else loop.time() + self._timeout
        turn = 0
        while True:
            begun = loop.time()
            # (a task that is cancelled has to know whether it got one)
            asked = asyncio.ensure_future(self._asked())
            try:
                count = await asyncio.shield(asked)
            except asyncio.CancelledError:
                undoing = asyncio.ensure_future(self._undo(asked))
                undoing.add_done_callback(_looked_at)
                # (if it is cancelled once more, that task does the rest)
                with contextlib.suppress(Error):
                    await asyncio.shield(undoing)
                raise
            self._is_there = True
            if count == 1:
                return self
            await self.__aexit__()
            now = loop.time()
            if until is not None and now >= until:
                told = f"{self._array!r} is locked by others for {self._timeout:g} seconds"
                raise NotInTime(told)
            await asyncio.sleep(objects.pause_after(turn, now - begun, until and until - now))
            turn += 1

    async def _asked(self) -> int:
        """Adds a lock, and reads the property in the same step. Returns the count of locks."""
        if self._place is None:
            return await self._array.lock()
        with contextlib.suppress(Refused):
            async with self._server.batch():
                count = await self._array.ask_lock()
                self._found = await objects.get_of(*self._place)
        return typing.cast(int, count.value)

    @property
    def value(self) -> Value:
        """The value that the property had when the lock was there."""
        return typing.cast(Later, self._found).value

    async def put_last(self, value: object) -> None:
        """Puts the property, and gives the lock back, in one step."""
        item, member, positional = typing.cast(objects.Place, self._place)
        batch = self._server.batch()
        try:
            async with batch:
                await objects.put_of(item, member, value, positional)
                await self._array.ask_unlock()
                self._is_there = False
        finally:
            self.may_repeat = self._is_there or [place for place, _ in batch.failures][:1] == [0]

    async def _undo(self, asked: asyncio.Future[int]) -> None:
        """Gives a requested lock back as soon as it has arrived."""
        await asked
        await self._array.unlock()

    async def __aexit__(self, *_: object) -> None:
        if not self._is_there:
            return
        self._is_there = False
        asked = asyncio.ensure_future(self._array.unlock())
        # (if it is refused, the session has ended, or the array is gone: its locks are too)
        with contextlib.suppress(Error):
            try:
                await asyncio.shield(asked)
            except asyncio.CancelledError:
                with contextlib.suppress(Error):
                    await asked
                raise


class Batch(Collected):
    """Requests of a task in `async with server.batch()`, which are sent together: an `await` in the
    block returns at once, with a Later for each value. The end of the block raises the first
    refusal; `failures` has all of them. If the block raises, unsent requests are dropped."""

    def __init__(self, server: Server, size: int, room: GroupRoom | None = None) -> None:
        super().__init__()
        self._server, self._size, self._room = server, size, room
        self._bytes = 0

    async def __aenter__(self) -> Batch:
        self._server.begin(self)
        return self

    async def __aexit__(self, kind: type | None, *_: object) -> None:
        self._server.begin(None)
        if kind is not None:
            return
        if self._room is not None:
            self._room.check()
        await self.send()
        if self.lost:
            told = "their task was cancelled while a batch sent them, so each is executed or not"
            raise NotSent(self.lost, f"{self.lost} requests had no reply: {told}")
        if self.failures:
            raise self.failures[0][1]

    async def add(
        self, request: bytes, read: Read, arguments: typing.Sequence[str], act: Act
    ) -> Later | None:
        """Adds a request. Returns the `Later` of its reply, or None if the reply has no value."""
        if self._room is not None:
            self._room.add(request, self._server.library)
        later = None if read is read_nothing else Later()
        self.asked.append((request, read, arguments, later, act))
        self._bytes += len(request)
        if self._room is None and (len(self.asked) >= self._size or self._bytes >= HELD):
            await self.send()
        return later

    async def send_now(self) -> None:
        """Sends what is there before the block ends, since an object of it is used."""
        if self._room is not None:
            told = "an object of an atomic block has its number once the block has ended"
            raise WrongUse(f"{told}: create it before the block, or use it after")
        await self.send()

    async def send(self) -> None:
        """Sends what is there and waits for its replies."""
        requests, answered = self.taken()
        self._bytes = 0
        if requests:
            answered(await self._server.exchange(requests))


class _Child(asyncio.SubprocessProtocol):
    """The process of a session."""

    def __init__(self, link: _Link) -> None:
        self.link = link

    def connection_made(self, transport: asyncio.BaseTransport) -> None:
        self.link.begun(typing.cast(asyncio.SubprocessTransport, transport))

    def process_exited(self) -> None:
        if not self.link.exited.done():
            self.link.exited.set_result(None)

    def pause_writing(self) -> None:
        self.link.pause_writing()

    def resume_writing(self) -> None:
        self.link.resume_writing()


class _Link(asyncio.BufferedProtocol):
    """The two streams of a session: a socket, which of a child is its standard output, and then the
    pipe to its standard input. Hands on what comes."""

    # (there once the connection is made)
    transport: asyncio.Transport
    writer: asyncio.WriteTransport

    def __init__(self, sock: socket.socket) -> None:
        self.sock = sock
        self.server: Server | None = None
        self.child: asyncio.SubprocessTransport | None = None
        # whether the other side has not read what was written, and whether nothing more comes
        self.paused = self.ended = False
        self.exited = asyncio.get_running_loop().create_future()
        self._some = memoryview(bytearray(_LONG))
        # a long reply, its bytes, and how many of them have come
        self._long: io.BytesIO | None = None
        self._view, self._filled = self._some, 0

    def attach(self, server: Server) -> None:
        """Gives what comes to a session."""
        self.server = server
        if self.ended:
            server.lost(self)

    def begun(self, child: asyncio.SubprocessTransport) -> None:
        """Takes the child, whose pipe is written to."""
        self.child = child
        self.writer = typing.cast(asyncio.WriteTransport, child.get_pipe_transport(0))
        self.writer.set_write_buffer_limits(high=HELD)

    def connection_made(self, transport: asyncio.BaseTransport) -> None:
        self.transport = typing.cast(asyncio.Transport, transport)
        if self.child is None:
            self.writer = self.transport
            self.writer.set_write_buffer_limits(high=HELD)

    def get_buffer(self, _: int) -> memoryview:
        left = self._view[self._filled :]
        return left if len(left) else self._some

    def buffer_updated(self, count: int) -> None:
        if self._long is not None and self._filled == len(self._view):
            self._whole()
        if self.server is None:
            return
        if self._long is None:
            self.server.came(self, bytes(self._some[:count]))
            return
        self._filled += count
        if self._filled == len(self._view):
            # (once the transport has released the buffer, its bytes need not be copied)
            asyncio.get_running_loop().call_soon(self._whole)

    def expect(self, begin: bytes, size: int) -> None:
        """Reads a body of so many bytes, whose first ones have come, into its own place."""
        self._long = io.BytesIO()
        self._long.seek(size - 1)
        self._long.write(b"\0")
        self._view, self._filled = self._long.getbuffer(), len(begin)
        self._view[: len(begin)] = begin

    def _whole(self) -> None:
        long = self._long
        if long is not None and self._filled == len(self._view):
            self._view.release()
            self._long, self._view, self._filled = None, self._some, 0
            body = long.getvalue()
            if self.server is not None:
                self.server.came_whole(self, body)

    def eof_received(self) -> None:
        self._over()

    def connection_lost(self, _: Exception | None) -> None:
        self._over()

    def pause_writing(self) -> None:
        self.paused = True

    def resume_writing(self) -> None:
        self.paused = False
        if self.server is not None:
            self.server.resumed()

    def _over(self) -> None:
        if not self.ended:
            self.ended = True
            if self.server is not None:
                self.server.lost(self)

    def gone(self) -> bool:
        """Whether the other side of a socket has let it go, seen or not."""
        if self.ended:
            return True
        try:
            return not self.sock.recv(1, socket.MSG_PEEK)
        except (BlockingIOError, InterruptedError):
            return False
        except OSError:
            return True

    def forked(self) -> None:
        """Closes the descriptors in a forked process. The loop's own entries stay, because both
        processes may share its selector."""
        forks.close(self.sock, True)
        if self.child is not None:
            forks.close(self.writer.get_extra_info("pipe"))
            # (it would else end the pipe in that selector once it is dropped)
            self.child._closed = True  # type: ignore[attr-defined]


class Server:
    """A session with a server, for asyncio."""

    library: Library
    # (its batches are those of tasks)
    in_batch = None

    def __init__(
        self,
        link: _Link,
        framing: str,
        group: int | None,
        ends: bool,
        timeout: float | None = None,
        errors: typing.IO[bytes] | None = None,
        what: str = "",
        explain: typing.Callable[[Error, bytes, str], Exception] | None = None,
        dial: typing.Callable[[], typing.Awaitable[_Link]] | None = None,
        watch_at: Address | None = None,
        store: Path | None = None,
    ) -> None:
        self._watch_at, self.store = watch_at, store
        self._link, self._child, self._dial = link, link.child, dial
        self._framing, self._group, self._ends = FRAMINGS[framing], group, ends
        self._timeout, self._errors = timeout, errors
        self._what, self._explain = what, explain
        self._tag = 1
        # the requests that are not yet sent, and their size in bytes
        self._out: list[_Asked] = []
        self._held = 0
        # callers that wait until they may add requests
        self._waiting: list[asyncio.Future[None]] = []
        # for each reply that is due, its tag and the future that receives it: None for END
        self._due: typing.Deque[tuple[bytes, asyncio.Future[bytes] | None]] = collections.deque()
        # the bytes received since the last whole reply, and their number
        self._chunks: list[bytes] = []
        self._came = self._wanted = 0
        self._flushing = self._closing = False
        # how many locks of arrays the connection may have, which go with it
        self._locks = 0
        self._batches: dict[asyncio.Task[object] | None, Batch] = {}
        # the updates that wait for a lock, by the array
        self._updates: dict[bytes, Updates] = {}
        self._end: Error | None = None
        self._fault: Error | None = None
        self._process = os.getpid()
        self._forked = False
        self._lost = asyncio.get_running_loop().create_future()
        self._finishing: asyncio.Future[None] | None = None
        self._dialling: asyncio.Future[None] | None = None
        # called with ">" or "<" and a body, for each that is sent or read
        self.trace: typing.Callable[[str, bytes], object] | None = None
        forks.own(self)
        link.attach(self)

    def forked(self) -> None:
        """Ends the session in a process that was forked from its own: closes the descriptors, and
        sends nothing."""
        self._end, self._forked = forks.in_use(self._process), True
        self._batches.clear()
        self._updates.clear()
        self._link.forked()
        forks.close(self._errors)

    def __reduce_ex__(self, _: typing.SupportsIndex) -> typing.NoReturn:
        raise WrongType(f"{self!r} belongs to its process and cannot be pickled: begin another one")

    async def __aenter__(self) -> Server:
        return self

    async def __aexit__(
        self,
        kind: type[BaseException] | None,
        error: BaseException | None = None,
        _: types.TracebackType | None = None,
    ) -> None:
        try:
            await self.close()
        except Error:
            if kind is None:
                raise

    @property
    def described(self) -> Library:
        """The server's library."""
        return self.library

    async def create(self, coclass: Which) -> Object:
        """A new object of a coclass, by its name or GUID; in a batch a Later."""
        of = self.library.coclass(coclass)
        made: Object = await self.ask(
            ask_create(of.guid),
            lambda fields: Object(self, objects.Object(self, read_number(fields), of)),
            act=(created, of.name),
        )
        batch = self.batch_of_task()
        if isinstance(made, Later) and batch is not None:
            return typing.cast(Object, LaterObject(made, batch))
        return made

    def object(self, number: int, coclass: Which) -> Object:
        """The object with this number, which is known to be of that coclass."""
        found = objects.Object(self, objects.number_of(number), self.library.coclass(coclass))
        return Object(self, found)

    def watch(
        self,
        of: Which | Object | None = None,
        member: str | None = None,
        *,
        values: bool = True,
        timeout: float | None = None,
    ) -> Watch:
        """Returns the changes that the gateway sends from their first use on, as
        `oaut.Server.watch` does."""
        if self._watch_at is None:
            raise WrongUse("a gateway sends changes: aio.connect(.., watch=ADDRESS)")
        which = of._object if isinstance(of, Object) else of
        return Watch(self._watch_at, Told(self.library, which, member, values), timeout)

    async def objects(self, coclass: Which | None = None) -> list[Object]:
        """All live objects, or those of a coclass, by rising number; in a batch a Later."""
        guid = None if coclass is None else self.library.coclass(coclass).guid
        found: list[Object] = await self.ask(
            ask_list(),
            lambda fields: [
                self.object(number, of)
                for number, of in read_objects(fields)
                if guid is None or of == guid
            ],
            act=(said, "list the objects"),
        )
        return found

    async def to_rows(self, coclass: Which, *members: str) -> list[dict[str, Value]]:
        """A row for each live object of a coclass, as `oaut.Server.to_rows` gives them."""
        columns = objects.columns_of(self.library, self.library.coclass(coclass), members)
        rows = []
        for it in await self.objects(coclass):
            asked = [it.get(column.name) for column in columns]
            values = await asyncio.gather(*asked, return_exceptions=True)
            failures = [value for value in values if isinstance(value, BaseException)]
            if any(isinstance(failure, Disconnected) for failure in failures):
                continue  # (it was released meanwhile)
            if failures:
                raise failures[0]
            names = map(objects.column_name, columns)
            named = {name: plain(value) for name, value in zip(names, values)}
            rows.append({"number": it.number, **named})
        return rows

    async def from_rows(self, coclass: Which, rows: Rows) -> list[Object]:
        """Puts rows, as `oaut.Server.from_rows`."""
        of = self.library.coclass(coclass)
        found = []
        for number, values in objects.puts_of(self.library, of, rows):
            item = await self.create(of.guid) if number is None else self.object(number, of.guid)
            for member, value in values:
                await item.put(member.name, value)
            found.append(item)
        return found

    async def replace_library(self, library: Path) -> None:
        """Gives the server the library of a file in the place of its own, as `oaut.Server` does."""
        if self.batch_of_task() is not None:
            raise WrongUse("a library is replaced outside a batch")
        path = os.fspath(library)
        with system_failures(), await asyncio.to_thread(_opened, path) as file:
            text = file.read()
        try:
            act = (said, f"replace the library by {path}")
            await self.ask(ask_replace(text), read_nothing, act=act)
        except Refused as refusal:
            fault = not_replaced(refusal, self.library)
            if self._explain is not None and isinstance(fault, Error):
                fault = await asyncio.to_thread(self._explain, fault, text, path)
            raise fault from None
        await self.read_library()

    async def read_library(self) -> None:
        """Reads the server's library."""
        steps = reading_library()
        requests = next(steps)
        try:
            while True:
                requests = steps.send(await self.exchange(requests))
        except StopIteration as end:
            self.library = end.value

    def batch(self, size: int = BATCH) -> Batch:
        """Sends the requests of a task together, `size` at a time."""
        return Batch(self, size)

    def atomic(self) -> Batch:
        """Commits the requests of a task as one group, completely or not at all, like
        `oaut.Server.atomic`."""
        return Batch(self, GROUP, GroupRoom(self._group))

    async def update(self, update: Update, lock: ArrayProperty, timeout: float | None) -> Value:
        """Makes an update under a lock, with those that wait for the same lock."""
        if self.batch_of_task() is not None:
            raise WrongUse("a lock is waited for outside a batch")
        if lock._object._server is not self:
            raise WrongUse(f"{lock!r} is locked by another session")
        place = objects.place_bytes(lock._object, lock._member, lock._positional, lock._named)
        updates = self._updates.get(place)
        if updates is None:
            made = functools.partial(Locked, lock, None)
            updates = self._updates[place] = Updates(made)
        try:
            return await updates.make(update, timeout)
        finally:
            if updates.is_idle and self._updates.get(place) is updates:
                del self._updates[place]

    def begin(self, batch: Batch | None) -> None:
        """Begins a batch of this task, or ends it."""
        task = asyncio.current_task()
        if batch is None:
            self._batches.pop(task, None)
            return
        if task in self._batches:
            raise WrongUse("this task has a batch of this session already")
        self._batches[task] = batch

    def batch_of_task(self) -> Batch | None:
        """The batch that this task has begun."""
        return self._batches.get(asyncio.current_task()) if self._batches else None

    def note_lock(self, more: int = 1) -> None:
        """Notes that an array gets a lock, which ends with the connection, or that one was given
        back."""
        self._locks = max(0, self._locks + more)

    @property
    def full(self) -> bool:
        """Returns whether the server has so much left to read that new requests have to wait."""
        return self._held >= HELD or self._link.paused

    async def room(self) -> None:
        """Waits until requests may be added: those not yet sent have at most HELD bytes, apart
        from the request that reached them."""
        while self.full and self._end is None:
            waiter = asyncio.get_running_loop().create_future()
            self._waiting.append(waiter)
            await waiter

    def _wake(self) -> None:
        """Wakes the callers that wait until they may add requests, which then check again."""
        waiting, self._waiting = self._waiting, []
        for waiter in waiting:
            if not waiter.done():
                waiter.set_result(None)

    def resumed(self) -> None:
        """Goes on once the other side has read."""
        self._flush()
        self._wake()

    async def ask(
        self, request: bytes, read: Read, arguments: typing.Sequence[str] = (), act: Act = ()
    ) -> Asked:
        """Sends one request (an `ask_..` of records) and returns the result of `read` for its
        reply's fields; in a batch a Later, or None if nothing is read."""
        if len(request) + 4 > BODY_LIMIT:
            told = f"{act_words(act)[0]}: " if act else ""
            size = len(request) + 4
            raise WrongValue(f"{told}a request has at most {BODY_LIMIT} bytes, this has {size}")
        if self._batches:
            batch = self._batches.get(asyncio.current_task())
            if batch is not None:
                return await batch.add(request, read, arguments, act)
        if self.full:
            await self.room()
        return judge(await self._answer(self._asked(request)), read, arguments, act)

    async def exchange(self, requests: list[bytes]) -> list[bytes]:
        """Sends requests together, by themselves, and gives the bodies of their replies."""
        if self.full:
            await self.room()
        self._flush()
        while self._dialling is not None:
            # (the requests of other tasks are sent first, so that these begin a group)
            await asyncio.wait({self._dialling})
            self._flush()
        futures = [self._asked(it) for it in requests]
        self._flush()
        return [await self._answer(it) for it in futures]

    def _asked(self, request: bytes) -> asyncio.Future[bytes]:
        """The waiter for the reply of a request, which is sent with those of other tasks."""
        if self._end is not None:
            # (what each raise adds to it would stay with it)
            raise self._end.with_traceback(None)
        loop = asyncio.get_running_loop()
        future = loop.create_future()
        # (a task that is cancelled, or stops at another refusal, asks for no exception)
        future.add_done_callback(_looked_at)
        self._out.append((request, future))
        self._held += len(request)
        if not self._flushing:
            self._flushing = True
            loop.call_soon(self._flush)
        return future

    def _flush(self) -> None:
        """Sends the requests that were added, unless the other side does not read, or the session
        is reconnecting."""
        self._flushing = False
        if not self._out or self._end is not None or self._dialling is not None:
            return
        if self._link.paused and not self._closing:
            return
        if self._dial is not None and self._is_idle() and self._link.gone():
            self._dialling = asyncio.ensure_future(self._dial_again(self._dial))
            return
        asked, self._out, self._held = self._out, [], 0
        self._send(asked)
        if self._waiting:
            self._wake()

    def _send(self, asked: list[_Asked]) -> None:
        bodies = []
        for request, future in asked:
            tag = self._tag.to_bytes(4, "little")
            self._tag = self._tag + 1 & _TAGS
            self._due.append((tag, future))
            bodies.append(tag + request)
        if self.trace is not None:
            for body in bodies:
                self.trace(">", body)
        if self._ends:
            bodies.append(END)
            self._due.append((END[:4], None))
        self._link.writer.write(self._framing.pack(bodies))

    async def _answer(self, future: asyncio.Future[bytes]) -> bytes:
        if self._timeout is None:
            return await future
        try:
            return await asyncio.wait_for(asyncio.shield(future), self._timeout)
        except asyncio.TimeoutError:
            if self._end is None:
                self._end = TimedOut(f"no reply within {self._timeout:g} seconds")
                self._end.may_stand = True
                if self._child is not None:
                    self._child.kill()
                self._link.writer.abort()
                self._give_up()
            raise self._end.with_traceback(None) from None

    # --- what comes

    def came(self, link: _Link, data: bytes) -> None:
        """Sets the results of the futures that wait for these replies."""
        if link is not self._link or self._fault is not None:
            return
        self._chunks.append(data)
        self._came += len(data)
        sign = self._framing.sign
        if self._came < self._wanted or sign is not None and sign not in data:
            return
        if len(self._chunks) > 1:
            data = b"".join(self._chunks)
        try:
            bodies, at = self._framing.split(data, 0, len(self._due))
            for body in bodies:
                self._take(body)
            if at < len(data) and not self._due:
                raise ProtocolError("a reply to nothing that was asked")
        except ProtocolError as fault:
            self._failed(fault)
            return
        rest = data[at:] if at else data
        self._chunks, self._came, self._wanted = ([rest] if rest else []), len(rest), 0
        if sign is None and len(rest) >= 4:
            lacking = self._framing.missing(rest, 0)
            self._wanted = self._came + lacking
            if _LONG < lacking <= _LONGEST:
                self._chunks = []
                link.expect(rest[4:], len(rest) - 4 + lacking)

    def came_whole(self, link: _Link, body: bytes) -> None:
        """Sets the result of the future that waits for a long reply."""
        if link is self._link and self._fault is None:
            self._came = self._wanted = 0
            try:
                self._take(body)
            except ProtocolError as fault:
                self._failed(fault)

    def _failed(self, fault: ProtocolError) -> None:
        self._fault = fault
        self.lost(self._link)

    def _take(self, body: bytes) -> None:
        if self.trace is not None:
            self.trace("<", body)
        tag, future = self._due.popleft()
        if future is None or future.done():
            return
        if body[:4] != tag:
            raise ProtocolError("a reply has another tag than its request")
        future.set_result(body)

    def _is_idle(self) -> bool:
        """Returns whether no reply is due except that of END, which changes nothing."""
        return not self._came and all(future is None for _, future in self._due)

    def lost(self, link: _Link) -> None:
        """Ends the session as nothing more comes, unless the address is dialled again."""
        if link is not self._link or self._finishing is not None:
            return
        if self._dial is not None and self._end is None and not self._closing:
            if self._is_idle() and self._fault is None:
                link.transport.close()
                self._flush()
                return
        self._finishing = asyncio.ensure_future(self._finish())
        self._lost.set_result(None)

    async def _finish(self) -> None:
        """Raises the end of the session in all callers that wait."""
        self._link.writer.close()
        stopped = await self._ended()
        if self._end is None:
            stopped.may_stand = any(future is not None for _, future in self._due)
            self._end = self._fault or stopped
            if self._fault is None and self._came:
                self._end = ProtocolError("the stream ends inside a reply")
        self._give_up()

    def _give_up(self) -> None:
        for future in [future for _, future in [*self._due, *self._out]]:
            if future is not None and not future.done():
                future.set_exception(typing.cast(Error, self._end))
        self._out, self._held = [], 0
        self._wake()

    async def _ended(self) -> SessionEnded:
        """How the program that was started here has ended."""
        if self._child is None or self._errors is None:
            self._link.transport.close()
            return SessionEnded("the server has ended")
        await self._link.exited
        status = typing.cast(int, self._child.get_returncode())
        self._child.close()
        self._errors.seek(0)
        left = self._errors.read()
        self._errors.close()
        return ending("the server has ended", left, status)

    async def _dial_again(self, dial: typing.Callable[[], typing.Awaitable[_Link]]) -> None:
        """Connects again, and sends the waiting requests. The server has to have the same
        library."""
        old = self._link
        try:
            if self._locks:
                raise SessionEnded(f"{_LET_GO}, and its locks of arrays with it")
            try:
                link = await dial()
            except OSError as error:
                raise SessionEnded(f"{_LET_GO}, and there is no other: {error}") from error
            old.transport.close()
            self._due.clear()
            self._chunks, self._came, self._wanted = [], 0, 0
            self._link = link
            link.attach(self)
            if self._finishing is None and await self._described() != self.library:
                raise LibraryDiffers("the server of the new connection has another library")
        except Error as end:
            if self._end is None:
                self._end = end
            self._give_up()
            self._dialling = None
            return
        self._dialling = None
        self._flush()

    async def _described(self) -> Library:
        """Reads the library of a connection's server, before all other requests."""
        steps = reading_library()
        requests = next(steps)
        try:
            while True:
                futures = [asyncio.get_running_loop().create_future() for _ in requests]
                for it in futures:
                    it.add_done_callback(_looked_at)
                if self._link.ended:  # (its end is reported only once)
                    raise SessionEnded(_LET_GO)
                self._send(list(zip(requests, futures)))
                requests = steps.send([await self._answer(it) for it in futures])
        except StopIteration as end:
            return typing.cast(Library, end.value)

    async def close(self) -> None:
        """Ends the session. Raises SessionEnded if the program that was started ends with another
        status than 0."""
        if self._forked:
            return
        self._closing = True
        if self._dialling is not None:
            await asyncio.wait({self._dialling})
        self._flush()
        open_still = self._end is None
        if self._finishing is None and self._link.ended:
            # (the connection was closed, and there was no new one)
            self._end = self._end or SessionEnded("the session was closed")
            self._give_up()
            return
        if self._child is None and open_still and self._due:
            # (otherwise the reply to END would have no receiver)
            tag, future = self._due.pop()
            future = future or asyncio.get_running_loop().create_future()
            future.add_done_callback(_looked_at)
            self._due.append((tag, future))
            await asyncio.wait({future}, timeout=WAIT_FOR_LAST)
        with contextlib.suppress(OSError):
            if self._link.writer.can_write_eof():
                self._link.writer.write_eof()
        self._link.writer.close()
        if self._child is None:
            await self._drained()
        # (a task that is cancelled here does not end what all others wait for)
        await asyncio.shield(self._lost)
        if self._finishing is not None:
            await asyncio.shield(self._finishing)
        if not open_still or self._end is None:
            return
        end, self._end = self._end, SessionEnded("the session was closed")
        if isinstance(end, SessionEnded) and end.status:
            self._end = end
        if isinstance(end, ProtocolError) or isinstance(end, SessionEnded) and end.status:
            raise end

    async def _drained(self) -> None:
        """Waits until the other side has read what was written, and stops if it reads no more."""
        writer, left = self._link.writer, -1
        while not self._lost.done():
            if left == writer.get_write_buffer_size():
                writer.abort()
                return
            left = writer.get_write_buffer_size()
            await asyncio.wait({self._lost}, timeout=WAIT_FOR_LAST)

    def __repr__(self) -> str:
        state = "" if self._end is None else ", ended"
        return f"<oaut.aio.Server: {self._what}{state}>"


def _opened(path: str) -> typing.BinaryIO:
    import io

    return typing.cast(typing.BinaryIO, io.open(path, "rb"))


def _looked_at(future: asyncio.Future[typing.Any]) -> None:
    if not future.cancelled():
        future.exception()


class Opening:
    """A session that begins: `await` it, or use it by `async with`."""

    def __init__(self, begin: typing.Callable[[], typing.Awaitable[Server]]) -> None:
        self._begin = begin
        self._server: Server | None = None

    def __await__(self) -> typing.Generator[object, None, Server]:
        return self._begun().__await__()

    async def __aenter__(self) -> Server:
        self._server = await self._begun()
        return self._server

    async def _begun(self) -> Server:
        with system_failures():
            return await self._begin()

    async def __aexit__(
        self,
        kind: type[BaseException] | None,
        error: BaseException | None = None,
        trace: types.TracebackType | None = None,
    ) -> None:
        if self._server is not None:
            await self._server.__aexit__(kind, error, trace)


def play(
    library: Path,
    program: Program = PROGRAM,
    framing: str = FRAMING,
    *,
    timeout: float | None = None,
) -> Opening:
    """A session of `oaut play`, as by `oaut.play`."""
    words = ["play", os.fspath(library)]
    how = words, program, framing, GROUP, False, timeout, library
    return Opening(functools.partial(_start, *how))


def serve(
    store: Path,
    library: Path | None = None,
    group: int | None = None,
    program: Program = PROGRAM,
    framing: str = FRAMING,
    *,
    timeout: float | None = None,
) -> Opening:
    """A session of `oaut serve`, as by `oaut.serve`."""
    count = GROUP if group is None else group

    async def begin() -> Server:
        for turn in range(3):
            with contextlib.ExitStack() as stack:
                name = library
                if name is None:
                    text = await asyncio.to_thread(programs.library_of, store)
                    name = stack.enter_context(text_file(text))
                words = ["serve", os.fspath(store), os.fspath(name), "--group", str(count)]
                how = words, program, framing, count, count != 1, timeout, name, store
                try:
                    return await _start(*how)
                except LibraryDiffers:
                    # another process has given it another library since
                    if library is not None or turn == 2:
                        raise
        raise AssertionError

    return Opening(begin)


def open(
    store: Path,
    library: Path | None = None,
    *,
    upgrade: bool = False,
    bank: int | None = None,
    group: int | None = None,
    program: Program = PROGRAM,
    framing: str = FRAMING,
    timeout: float | None = None,
) -> Opening:
    """A session with a store, whatever has to be done for it, as by `oaut.open`."""

    async def begin() -> Server:
        def prepare() -> None:
            opening.open(store, library, upgrade=upgrade, bank=bank, program=program).close()

        await asyncio.to_thread(prepare)
        return await serve(store, None, group, program, framing, timeout=timeout)

    return Opening(begin)


def connect(
    address: Address | socket.socket,
    framing: str = FRAMING,
    group: int | None = None,
    *,
    timeout: float | None = None,
    patience: float = 0,
    watch: Address | None = None,
    store: Path | None = None,
) -> Opening:
    """A session over an address (a URL, the path of a socket, `("host", 8765)` or
    `"host:8765"`), or over a socket, which the session then owns. `timeout` bounds the
    connecting too. If the server closes an idle connection to an address, the next request
    reconnects. With `patience`, a number of seconds, both the first connection and a new one are
    retried for that long if no server is running. `watch` is the address of the gateway's
    `--watch`, `store` the path of the store's file, for `keys`."""

    async def begin() -> Server:
        check_timeout(timeout)
        name, ends = f"connected to {address}", group != 1
        how = framing, group, ends, timeout, None, name, None
        if isinstance(address, socket.socket):
            address.setblocking(False)
            server = Server(await _linked(address), *how, None, watch, store)
            await _described(server)
            return server
        where = address_of(address)
        at = watched_at(where, watch)
        again = functools.partial(_dialled, where, framing, timeout, patience)
        loop = asyncio.get_running_loop()
        until = loop.time() + patience
        while True:
            server = Server(await again(), *how, again, at, store)
            try:
                await _described(server)
                return server
            except SessionEnded:
                if loop.time() >= until:
                    raise
            await asyncio.sleep(programs.PAUSE)

    return Opening(begin)


async def _linked(sock: socket.socket) -> _Link:
    """The link over a socket that is connected."""
    loop = asyncio.get_running_loop()
    _, link = await loop.create_connection(lambda: _Link(sock), sock=sock)
    return link


async def _dialled(address: Address, framing: str, timeout: float | None, patience: float) -> _Link:
    """Connects to an address. With patience the other side has to reply to END, which changes
    nothing, because a proxy accepts connections even if no server is running."""
    if patience <= 0:
        return await _linked(await _reached(address, timeout, framing))
    loop = asyncio.get_running_loop()
    until = loop.time() + patience
    while True:
        left = max(0.1, until - loop.time())
        try:
            link = await _linked(await _reached(address, min(programs.TRY, left), framing))
            if isinstance(address, Secure):  # (which has replied)
                return link
            try:
                await Server(link, framing, None, False, left).exchange([END[4:]])
                if link.ended:  # (it was let go together with the reply)
                    raise SessionEnded(_LET_GO)
                return link
            except BaseException:
                link.transport.abort()
                raise
        except (OSError, SessionEnded) as error:
            if loop.time() >= until or programs.is_lasting(error):
                if isinstance(error, OSError):
                    raise
                told = f"nobody has served there for {patience:g} seconds"
                raise system_failed(ConnectionRefusedError, errno.ECONNREFUSED, told) from None
        await asyncio.sleep(programs.PAUSE)


async def _reached(address: Address, timeout: float | None, framing: str) -> socket.socket:
    """A socket that is connected to an address, within so many seconds. An exception names the
    address."""
    try:
        if isinstance(address, Secure):
            # (its steps have the timeout by themselves)
            sock = await asyncio.to_thread(programs.dialled, address, timeout, framing)
            sock.setblocking(False)
            return sock
        with naming(address):
            if isinstance(address, (str, os.PathLike)):
                return await asyncio.wait_for(_reaching_path(address), timeout)
            return await asyncio.wait_for(_reaching(address), timeout)
    except TlsFailed:
        raise
    except (asyncio.TimeoutError, TimeoutError):
        told = f"no connection to {address_words(address)} within"
        raise TimedOut(f"{told} {timeout:g} seconds") from None


async def _reaching(address: tuple[str, int]) -> socket.socket:
    """A socket that is connected to a host and port."""
    loop, failure = asyncio.get_running_loop(), None
    for family, _, _, _, place in await loop.getaddrinfo(*address, type=socket.SOCK_STREAM):
        sock = socket.socket(family)
        try:
            sock.setblocking(False)
            await loop.sock_connect(sock, place)
        except BaseException as error:
            sock.close()
            if not isinstance(error, OSError):
                raise
            failure = error
            continue
        # a request leaves when it is sent
        sock.setsockopt(socket.IPPROTO_TCP, socket.TCP_NODELAY, 1)
        watch(sock)
        return sock
    raise failure or system_failed(OSError, errno.EADDRNOTAVAIL, f"no address for {address}")


async def _reaching_path(path: Path) -> socket.socket:
    """A socket that is connected to the path of a socket."""
    sock = socket.socket(socket.AF_UNIX)
    try:
        sock.setblocking(False)
        await _reach_path(sock, os.fspath(path))
    except BaseException:
        sock.close()
        raise
    return sock


async def _reach_path(sock: socket.socket, path: str) -> None:
    """Connects to the path of a socket. (One that has no place for another client says so at once,
    and asyncio would take that for a connection under way.)"""
    while True:
        try:
            sock.connect(path)
            return
        except BlockingIOError:
            await asyncio.sleep(programs.PAUSE / 10)


async def _start(
    words: list[str],
    program: Program,
    framing: str,
    group: int,
    ends: bool,
    timeout: float | None,
    library: Path,
    store: Path | None = None,
) -> Server:
    check_timeout(timeout)
    loop, errors = asyncio.get_running_loop(), tempfile.TemporaryFile()
    ours, theirs = socket.socketpair()
    link = _Link(ours)
    try:
        with theirs, programs.Starting(program):
            await loop.subprocess_exec(
                lambda: _Child(link),
                *programs.words_of_program(program),
                *words,
                *FRAMINGS[framing].words,
                stdin=asyncio.subprocess.PIPE,
                stdout=theirs.fileno(),
                stderr=errors,
                start_new_session=True,
            )
        await loop.create_connection(lambda: link, sock=ours)
    except BaseException:
        errors.close()
        ours.close()
        raise
    explain = programs.explaining(program)
    name = " ".join(words[:2])
    server = Server(link, framing, group, ends, timeout, errors, name, explain, store=store)
    try:
        await _described(server)
    except SessionEnded as end:
        end.may_stand = False
        raise programs.of_library(end, library, program) from None
    return server


async def _described(server: Server) -> None:
    """Reads the library of a session that begins."""
    try:
        await server.read_library()
    except BaseException:
        await server.__aexit__(Error)
        raise
