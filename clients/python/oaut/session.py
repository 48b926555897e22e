"""Sessions: requests are sent one by one or in batches, and each reply becomes a value or an
exception."""
from __future__ import annotations

import errno
import os
import re
import struct
import threading
import types
import typing
import weakref
from threading import get_ident

from . import forks
from .addresses import Address
from .connection import Connection, Ended, Late, let_go
from .faults import (
    Disconnected,
    Error,
    LibraryDiffers,
    NoSuchFile,
    NotSent,
    OldFormat,
    ProtocolError,
    Refused,
    SessionEnded,
    SessionInUse,
    StoreInUse,
    TimedOut,
    WrongType,
    WrongUse,
    WrongValue,
    system_failures,
)
from .library import Library, Which
from .objects import (
    BaseObject,
    LaterObject,
    Object,
    Rows,
    columns_of,
    get_of,
    number_of,
    put_of,
    puts_of,
    rows_of,
)
from .paths import Path
from .protocol import (
    END,
    GROUP,
    Act,
    Asked,
    Collected,
    GroupRoom,
    Later,
    Read,
    act_words,
    created,
    judge,
    not_replaced,
    reading_library,
    said,
)
from .records import (
    BODY_LIMIT,
    ask_create,
    ask_list,
    ask_replace,
    read_nothing,
    read_number,
    read_objects,
)
from .values import Value
from .watching import Told, Watch

BATCH = 1_024
_TAGS = 0xFFFF_FFFF
# the arguments with which `map` tries a lock
_AT_ONCE = (False,)
# the limit in bytes of a request after its tag
_LONGEST = BODY_LIMIT - 4
# the methods of a session for the package itself
_INTERNAL = frozenset(
    "ask begin described exchange forked next_tag note_lock trace was_done".split()
)
_S = typing.TypeVar("_S", bound="Server")
_B = typing.TypeVar("_B", bound="Batch")


class _Leaving:
    """The `__exit__` of a batch. A `with` statement looks it up before it enters the block, and
    holds what it found until the block has ended. The batch has a weak reference to that. So once
    the reference is dead the block has ended, wherever an interrupt has come."""

    def __get__(self, batch: Batch | None, _: object = None) -> typing.Callable[..., None]:
        if batch is None:
            return Batch.leave
        leaving = batch.leave
        batch.block = weakref.ref(leaving)
        return leaving


class Batch(Collected):
    """Requests that are sent together: `with server.batch() as batch`. At its end the first refusal
    is raised. `failures` has all of them, as pairs of the request's place in the batch, from 0, and
    the exception. If the block itself raises, requests that were not sent yet are dropped."""

    def __init__(self, server: Server, size: int) -> None:
        super().__init__()
        self._server = server
        self._size = size
        self._thread = 0
        # is dead once the block has ended; None if the batch was not entered by `with`
        self.block: typing.Callable[[], object] | None = None

    def __enter__(self: _B) -> _B:
        self._thread = get_ident()
        self._server.begin(self)
        return self

    if typing.TYPE_CHECKING:

        def __exit__(self, kind: type | None, *_: object) -> None:
            """Sends what is there, and raises the first refusal."""

    else:
        __exit__ = _Leaving()

    def leave(self, kind: type | None, *_: object) -> None:
        """Ends the block: sends what is there, and raises the first refusal."""
        try:
            if kind is None:
                self.send()
        finally:
            # (a plain store: an interrupt cannot come within it)
            self._server.in_batch = None
        if kind is None:
            if self.lost:
                told = "an interrupt came while a batch sent them, so each is executed or not"
                raise NotSent(self.lost, f"{self.lost} requests had no reply: {told}")
            if self.failures:
                raise self.failures[0][1]

    def is_open(self) -> bool:
        """Whether the block may still go on."""
        block = self.block
        return block is None or block() is not None

    def add(
        self, request: bytes, read: Read, arguments: typing.Sequence[str], act: Act
    ) -> Later | None:
        """Adds a request. Returns the `Later` of its reply, or None if the reply has no value."""
        if get_ident() != self._thread:
            raise SessionInUse("another thread has a batch of this session")
        asked = self.asked
        if read is read_nothing:
            later = None
        else:
            self.has_laters = True
            later = Later()
        asked.append((request, read, arguments, later, act))
        if len(asked) >= self._size:
            self.send()
        return later

    def put(self, request: bytes, arguments: typing.Sequence[str], act: Act) -> bool:
        """Adds a request of few bytes whose reply has no value. Returns False if the block has
        ended, by an interrupt within its last steps."""
        block = self.block
        if block is not None and block() is None:
            return False
        if get_ident() != self._thread:
            raise SessionInUse("another thread has a batch of this session")
        asked = self.asked
        asked.append((request, read_nothing, arguments, None, act))
        if len(asked) >= self._size:
            self.send()
        return True

    def send(self) -> None:
        """Sends what is there and reads its replies."""
        quiet = not self.has_laters
        requests, answered = self.taken()
        if requests:
            replies = self._server.exchange(requests, quiet)
            if replies:
                answered(replies)
            else:
                self._answered += len(requests)

    def send_now(self) -> None:
        """Sends what is there before the block ends, since an object of it is used."""
        self.send()


class Atomic(Batch):
    """Requests that survive a crash together or not at all: `with server.atomic()`. It cannot roll
    back: a refused request undoes none of the others. Requests that do not fit a group raise
    ValueError before anything is sent."""

    def __init__(self, server: Server, most: int | None) -> None:
        self._room = GroupRoom(most)
        super().__init__(server, GROUP + 1)

    def add(
        self, request: bytes, read: Read, arguments: typing.Sequence[str], act: Act
    ) -> Later | None:
        """Adds a request. Returns the `Later` of its reply, or None if the reply has no value."""
        self._room.add(request, self._server.described)
        return super().add(request, read, arguments, act)

    def put(self, request: bytes, arguments: typing.Sequence[str], act: Act) -> bool:
        """Adds a request of few bytes whose reply has no value. Returns False if the block has
        ended, by an interrupt within its last steps."""
        if not self.is_open():
            return False
        self._room.add(request, self._server.described)
        return super().put(request, arguments, act)

    def send(self) -> None:
        """Sends what is there, which a block that has ended does by itself."""
        self._room.check()
        if self._sent:
            raise WrongUse("these requests were sent already")
        super().send()

    def send_now(self) -> None:
        """Refuses, as what is sent earlier would be a group of its own."""
        told = "an object of an atomic block has its number once the block has ended"
        raise WrongUse(f"{told}: create it before the block, or use it after")


class Server:
    """A session with a server. `open`, `serve`, `play` and `connect` make one; it is its own
    context manager. One thread at a time may use it."""

    def __init__(
        self,
        connection: Connection,
        group: int | None = GROUP,
        ends: bool = True,
        *,
        what: str = "",
        dial: typing.Callable[[], Connection] | None = None,
        explain: typing.Callable[[Error, bytes, str], Exception] | None = None,
        watch_at: Address | None = None,
        store: Path | None = None,
    ) -> None:
        """`group` is how many requests that server commits together, None if that is not known;
        `ends` whether it may hold replies back for them, so that each exchange has to end with END.
        `what` says what is served, in words. `dial` makes the connection anew. `explain` finds out
        why the text of a file was refused. `watch_at` is the address of the gateway's `--watch`,
        and `store` the path of the store's file."""
        self._connection = connection
        self._group, self._what, self._dial, self._explain = group, what, dial, explain
        self._watch_at, self.store = watch_at, store
        # the request at the end of each exchange, and its number of replies
        self._behind = connection.framing.pack([END]) if ends else b""
        self._ends = int(ends)
        self._tag = 1
        lock = threading.Lock()
        self._acquire = lock.acquire
        self._release: typing.Callable[..., object] = lock.__exit__
        self._thread = 0
        self._end: Error | None = None
        # whether it is known how the server has ended
        self._over = False
        # whether the connection is known to be to a server with the same library
        self._known = True
        self.in_batch: Batch | None = None
        # how many locks of arrays the connection may have, which go with it
        self._locks = 0
        self.described: Library | None = None
        # called with ">" or "<" and a body, for each that is sent or read
        self.trace: typing.Callable[[str, bytes], object] | None = None
        # a session that is dropped lets its child end, and its store go
        self._finalizer = weakref.finalize(self, let_go, connection)
        forks.own(self)

    def forked(self) -> None:
        """Ends the session in a process that was forked from its own: closes the descriptors, and
        sends nothing."""
        self._end = forks.in_use(self._connection.process)
        self.in_batch = None
        self._over = True
        self._finalizer.detach()
        self._connection.forked()

    def __reduce_ex__(self, _: typing.SupportsIndex) -> typing.NoReturn:
        raise WrongType(f"{self!r} belongs to its process and cannot be pickled: begin another one")

    def __enter__(self: _S) -> _S:
        return self

    def __exit__(
        self,
        kind: type[BaseException] | None,
        error: BaseException | None = None,
        _: types.TracebackType | None = None,
    ) -> None:
        try:
            self.close()
        except Error:
            if kind is None:
                raise

    def __dir__(self) -> list[str]:
        # a prompt completes the names for users, and none of the package's own
        return sorted({*object.__dir__(self)} - _INTERNAL - {*self.__dict__})

    @property
    def library(self) -> Library:
        """The server's library, which is read once, and again once it was replaced."""
        if self.described is None:
            self.described = self._read_library(self.exchange)
        return self.described

    @staticmethod
    def _read_library(exchange: typing.Callable[[list[bytes]], list[bytes]]) -> Library:
        steps = reading_library()
        requests = next(steps)
        try:
            while True:
                requests = steps.send(exchange(requests))
        except StopIteration as end:
            return typing.cast(Library, end.value)

    def create(self, coclass: Which) -> Object:
        """A new object of a coclass, by its name or GUID. In a batch it may be used too: its first
        use sends what the batch has."""
        of = self.library.coclass(coclass)
        made: Object = self.ask(
            ask_create(of.guid),
            lambda fields: Object(self, read_number(fields), of),
            act=(created, of.name),
        )
        batch = self.in_batch
        if isinstance(made, Later) and batch is not None:
            return typing.cast(Object, LaterObject(made, batch.send_now))
        return made

    def object(self, number: int, coclass: Which) -> Object:
        """The object with this number, which is known to be of that coclass."""
        return Object(self, number_of(number), self.library.coclass(coclass))

    def objects(self, coclass: Which | None = None) -> list[Object]:
        """All live objects, or those of a coclass, by rising number; in a batch a Later."""
        library = self.library
        guid = None if coclass is None else library.coclass(coclass).guid
        found: list[Object] = self.ask(
            ask_list(),
            lambda fields: [
                Object(self, number, library.coclass(of))
                for number, of in read_objects(fields)
                if guid is None or of == guid
            ],
            act=(said, "list the objects"),
        )
        return found

    def to_rows(self, coclass: Which, *members: str) -> list[dict[str, Value]]:
        """A row for each live object of a coclass, by rising number, as `pandas.DataFrame` takes
        them: its number, and by their names its properties, these or all that are read without
        arguments. Values are plain: of an array lists in lists, None for EMPTY and the null
        text. An object that is released meanwhile has no row."""
        if self._open_batch() is not None:
            raise WrongUse("rows cannot be read inside a batch")
        columns = columns_of(self.library, self.library.coclass(coclass), members)
        found = self.objects(coclass)
        batch = self.batch()
        try:
            with batch:
                asked = [[get_of(it, column) for column in columns] for it in found]
        except Disconnected:
            pass
        batch.not_gone()
        return rows_of(found, columns, asked)

    def from_rows(self, coclass: Which, rows: Rows) -> list[Object]:
        """Puts rows as those of `to_rows`, or a `pandas.DataFrame`: into the object of a row's
        `number`, or into a new one if the row has none. None and NaN leave a property as it is, and
        so do columns that cannot be put. Gives the objects."""
        if self._open_batch() is not None:
            raise WrongUse("rows are put outside a batch")
        of = self.library.coclass(coclass)
        asked = puts_of(self.library, of, rows)
        with self.batch():
            made = [self.create(of.guid) if number is None else None for number, _ in asked]
        objects = [
            self.object(typing.cast(int, number), of.guid)
            if later is None
            else typing.cast(Object, typing.cast(Later, later).value)
            for later, (number, _) in zip(made, asked)
        ]
        with self.batch():
            for item, (_, values) in zip(objects, asked):
                for member, value in values:
                    put_of(item, member, value)
        return objects

    def watch(
        self,
        of: Which | BaseObject | None = None,
        member: str | None = None,
        *,
        values: bool = True,
        timeout: float | None = None,
    ) -> Watch:
        """Returns the changes that the gateway sends from now on: all, or those of a coclass, of
        an object, of one of its members. They have a connection of their own to the gateway's
        socket of `--watch`, which `connect(.., watch=ADDRESS)` names; without it, that of
        `items.sock` is `items.watch.sock`. With `values` the changes contain the new values."""
        if self._watch_at is None:
            raise WrongUse("a gateway sends changes: oaut.connect(.., watch=ADDRESS)")
        return Watch(self._watch_at, Told(self.library, of, member, values), timeout)

    def replace_library(self, library: str | os.PathLike[str]) -> None:
        """Replaces the server's library by that of a file; objects and their values stay, and
        attributes follow the new library. Raises IncompatibleLibrary if it is incompatible with the
        old one, and BadStub if it is not a library: with a program on this machine a NotALibrary,
        with line and column."""
        if self._open_batch() is not None:
            raise WrongUse("a library is replaced outside a batch")
        path = os.fspath(library)
        with system_failures(), open(path, "rb") as file:
            text = file.read()
        old = self.library
        try:
            self.ask(ask_replace(text), read_nothing, act=(said, f"replace the library by {path}"))
        except Refused as refusal:
            fault = not_replaced(refusal, old)
            if self._explain is not None and isinstance(fault, Error):
                fault = self._explain(fault, text, path)
            raise fault from None
        self.described = None

    def batch(self, size: int = BATCH) -> Batch:
        """Requests that are sent together, `size` at a time. Gets return a Later until the block
        has ended."""
        return Batch(self, size)

    def atomic(self) -> Atomic:
        """Requests that survive a crash together or not at all; it cannot roll back. They are one
        group: as many as a group has, and up to 524,288 bytes of log records. Gets return a Later
        until the block has ended."""
        return Atomic(self, self._group)

    def begin(self, batch: Batch | None) -> None:
        """Begins a batch, or ends the one that there is."""
        if batch is not None:
            other = self._open_batch()
            if other is not None:
                left = f", with {len(other.asked)} requests that were not sent"
                raise WrongUse(f"this session has a batch already{left if other.asked else ''}")
        self.in_batch = batch

    def _open_batch(self) -> Batch | None:
        """The batch whose block goes on. One whose block has ended, by an interrupt within its
        last steps, is forgotten: the interrupt was raised out of that block."""
        batch = self.in_batch
        if batch is not None and not batch.is_open():
            self.in_batch = batch = None
        return batch

    def note_lock(self, more: int = 1) -> None:
        """Notes that an array gets a lock, which ends with the connection, or that one was given
        back."""
        self._locks = max(0, self._locks + more)

    def close(self) -> None:
        """Ends the session. Raises SessionEnded if the program that was started ends with another
        status than 0, and NotSent if requests of a batch were left. After an interrupt in it, call
        it again."""
        batch = self._open_batch()
        if self._end is None:
            self._end = SessionEnded("the session was closed")
        if not self._over:
            end = self._finish(late=isinstance(self._end, TimedOut))
            self._over = True
            if end.status:
                self._end = end
                raise end
        self.in_batch = None
        if batch is not None and batch.asked:
            count = len(batch.asked)
            told = "the session was closed before the batch had ended"
            raise NotSent(count, f"{count} requests of a batch were not sent: {told}")

    def ask(
        self, request: bytes, read: Read, arguments: typing.Sequence[str] = (), act: Act = ()
    ) -> Asked:
        """Sends one request (an `ask_..` of records) and returns what `read` makes of its
        reply's fields; in a batch a Later, or None if it reads nothing. `arguments` are words
        for the places in rgvarg, `act` is the request in words if it is refused: a function of
        the code and the further arguments."""
        if len(request) > _LONGEST:
            told = f"{act_words(act)[0]}: " if act else ""
            size = len(request) + 4
            raise WrongValue(f"{told}a request has at most {BODY_LIMIT} bytes, this has {size}")
        batch = self.in_batch
        if batch is not None:
            # (as `batch.is_open()` does, a call less)
            block = batch.block
            if block is None or block() is not None:
                return batch.add(request, read, arguments, act)
            self.in_batch = None
        return judge(self.exchange((request,))[0], read, arguments, act)

    def exchange(self, requests: typing.Sequence[bytes], quiet: bool = False) -> list[bytes]:
        """Sends requests together, and returns the bodies of their replies, or with `quiet` none
        if each is S_OK without a value. After an interrupt the session stays usable: the replies
        to the requests that were sent are dropped."""
        if self._end is not None:
            # (what each raise adds to it would stay with it)
            raise self._end.with_traceback(None)
        # the results of the lock's two calls: each call is one step of C, so that an interrupt
        # finds the lock held if and only if this list has its first item alone
        held: list[object] = []
        try:
            held += map(self._acquire, _AT_ONCE)
            thread = get_ident()
            if not held[0]:
                other = "another thread uses this session"
                own = "a request of this session is under way in this thread"
                raise SessionInUse(own if self._thread == thread else other)
            self._thread = thread
            if self._dial is not None:
                self._dial_again(self._dial)
            replies = self._exchange(requests, quiet)
            held += map(self._release, _AT_ONCE)
            return replies
        except BaseException:
            if held[:2] == [True]:
                self._release(None)
            raise

    @property
    def next_tag(self) -> int:
        """The tag of the request that is sent next."""
        return self._tag

    def was_done(self, tag: int) -> bool:
        """After an interrupt, whether the request with this tag was executed, and not refused."""
        if self._end is not None:
            return False
        head = tag.to_bytes(4, "little") + bytes(4)
        try:
            return any(it.startswith(head) for it in self._connection.settled())
        except (Ended, Late, ProtocolError):
            return False

    def _exchange(self, requests: typing.Sequence[bytes], quiet: bool = False) -> list[bytes]:
        count, first, connection = len(requests), self._tag, self._connection
        tags: typing.Sequence[int] = range(first, first + count)
        if first + count > _TAGS:
            tags = [it & _TAGS for it in tags]
        self._tag = first + count & _TAGS
        if self.trace is not None:
            quiet = False
            for tag, request in zip(tags, requests):
                self.trace(">", tag.to_bytes(4, "little") + request)
        try:
            data = connection.framing.tagged(tags, requests, self._behind)
            replies = connection.exchange(
                data, count + self._ends, self._ends, tags if quiet else ()
            )
            # (if there are none, each is the one that was expected, also by its tag)
            if replies:
                self._check_tags(tags, replies)
        except Ended:
            end = self._finish()
            end.may_stand = True
            self._end, self._over = end, True
            raise end from None
        except Late:
            self._late()
        except ProtocolError:
            end = SessionEnded("the server has sent what is no reply")
            end.may_stand = True
            self._end = end
            raise
        if self.trace is not None:
            for reply in replies:
                self.trace("<", reply)
        return replies

    def _check_tags(self, tags: typing.Sequence[int], replies: list[bytes]) -> None:
        """Raises the exception for a reply with another tag than its request."""
        if len(replies) == 1:
            if not replies[0].startswith(tags[0].to_bytes(4, "little")):
                self._wrong_tag(replies[0])
        elif b"".join([it[:4] for it in replies]) != struct.pack(f"<{len(tags)}I", *tags):
            told = zip(tags, replies)
            self._wrong_tag(next(it for tag, it in told if it[:4] != tag.to_bytes(4, "little")))

    def _wrong_tag(self, reply: bytes) -> typing.NoReturn:
        """The exception for a reply with a wrong tag: a server that refuses the stream itself
        replies with tag 0, and ends."""
        if reply[:4] == bytes(4) and self._connection.at_end():
            raise Ended
        raise ProtocolError("a reply has another tag than its request")

    def _dial_again(self, dial: typing.Callable[[], Connection]) -> None:
        """Reconnects if the server has closed this connection. That never follows a request that
        was sent and has no reply: then the session has ended."""
        connection = self._connection
        if connection.closed or self._is_gone():
            connection.close()
            if self._locks:
                told = "the server has let the connection go, and its locks of arrays with it"
                self._end = SessionEnded(told)
                raise self._end
            try:
                new = dial()
            except OSError as error:
                told = f"the server has let the connection go, and there is no other: {error}"
                self._end = SessionEnded(told)
                raise self._end from error
            self._known = self.described is None
            self._finalizer.detach()
            self._finalizer = weakref.finalize(self, let_go, new)
            self._connection = new
        if not self._known:
            # (an interrupt may have come before the library was read)
            self._known = True
            try:
                other = self._read_library(self._exchange) != self.described
            except BaseException:
                self._known = False
                raise
            if other:
                self._finish()
                self._end = LibraryDiffers("the server of the new connection has another library")
                raise self._end

    def _is_gone(self) -> bool:
        """Returns whether the server has closed the connection while no reply was due."""
        # the only reply that may be due is that of END, which changes nothing
        answered = self._connection.due <= self._ends
        try:
            self._connection.drop()
            return self._connection.gone()
        except Ended:
            return answered
        except (Late, ProtocolError):
            return False  # the exchange raises it

    def _late(self) -> typing.NoReturn:
        """Raises TimedOut. A program that was started here is killed, which no acknowledged change
        minds."""
        timeout = self._connection.timeout
        within = "in time" if timeout is None else f"within {timeout:g} seconds"
        end = TimedOut(f"no reply {within}")
        end.may_stand = True
        self._end = end
        self._finish(late=True)
        self._over = True
        raise end

    def _finish(self, late: bool = False) -> SessionEnded:
        """Closes the streams, and returns how the program that was started here has ended."""
        left = self._connection.close(late)
        # (detached last: after an interrupt in it a session that is dropped still ends its program)
        self._finalizer.detach()
        if left is None:
            return SessionEnded("the server has ended")
        return ending("the server has ended", left[1], left[0])

    def __repr__(self) -> str:
        state = "" if self._end is None else ", ended"
        return f"<oaut.Server: {self._what or 'connected'}{state}>"


def ending(what: str, said: bytes, status: int) -> SessionEnded:
    """The exception of a program's end, by what it left on standard error."""
    lines = said.decode("utf-8", "replace").splitlines()
    fault = next((it for it in lines if it.startswith("oaut: ")), lines[0] if lines else None)
    file = re.match("oaut: cannot (?:read|write) (.*)", fault or "")
    # (both lines contain the file's name as the program shows it)
    head = f"{file[1]}: " if file else ""
    cause = next((it[len(head) :] for it in lines if head and it.startswith(head)), None)
    if cause == "in use by another process":
        return StoreInUse("the store is in use by another process", fault, status, cause)
    if file and cause == os.strerror(errno.ENOENT):
        return NoSuchFile(file[1], fault, status)
    if fault == "oaut: library differs":
        return LibraryDiffers("the store has another library", fault, status)
    if fault == "oaut: old format":
        told = "the store is of format 1, which open(.., upgrade=True) brings to format 2"
        return OldFormat(told, fault, status)
    return SessionEnded(what, fault, status, cause)
