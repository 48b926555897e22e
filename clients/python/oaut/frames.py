"""Frames: the records of many clients in one stream, as `oaut serve --shared` has them.

    from oaut import frames

    with frames.serve("items.store") as shared:
        with shared.session() as one, shared.session() as two:
            item = one.create("Item")
            print(two.objects())

docs/reference/shared.md says what a frame is. `head`, `split` and `join` are its codec; a `Shared`
leads any number of clients into one server, each a stream of its own.
"""
from __future__ import annotations

import collections
import contextlib
import errno
import functools
import os
import queue
import struct
import subprocess
import tempfile
import threading
import time
import typing
import weakref

from . import forks
from .connection import WAIT_AT_END, Connection, Queued
from .faults import Error, NotInTime, WrongValue, system_failed, system_failures
from .framing import Framing, Raw
from .paths import Path, text_file
from .programs import (
    PROGRAM,
    Program,
    Starting,
    end_child,
    explaining,
    library_of,
    words_of_program,
)
from .protocol import GROUP
from .session import Server, ending

if typing.TYPE_CHECKING:
    from _typeshed import ReadableBuffer, WriteableBuffer

# the client number of a frame for all clients
ALL = 0xFFFF_FFFF
# the most bytes that a frame to the server brings
FRAME_LIMIT = 1_048_576
_HEAD = struct.Struct("<II")
_READ = 65_536

# a client's number and some bytes of it: none if its stream ends
Frame = tuple[int, bytes]
# a frame as it was received, in parts
_Came = tuple[int, list[bytes]]


def head(client: int, length: int) -> bytes:
    """The head of a frame."""
    return _HEAD.pack(client, length)


# commit all requests that were received, of all clients, and send the replies
NOW = head(ALL, 0)


def ended(client: int) -> bytes:
    """The frame that ends a client's stream."""
    return head(client, 0)


def frames_of(client: int, data: bytes) -> bytes:
    """The frames of a client's bytes: as few as there may be."""
    parts = range(0, len(data), FRAME_LIMIT)
    cut = [data[at : at + FRAME_LIMIT] for at in parts]
    return b"".join([part for it in cut for part in (head(client, len(it)), it)])


def join(frames: typing.Iterable[Frame]) -> bytes:
    """The bytes of some frames, of each as `split` gives it: of one without bytes the end."""
    return b"".join([frames_of(it, data) if data else ended(it) for it, data in frames])


def split(data: bytes, at: int = 0) -> tuple[list[Frame], int]:
    """The whole frames from the place `at` on, and the place after them."""
    frames: list[Frame] = []
    last = len(data) - _HEAD.size
    while at <= last:
        client, length = _HEAD.unpack_from(data, at)
        end = at + _HEAD.size + length
        if end > len(data):
            break
        frames.append((client, data[at + _HEAD.size : end]))
        at = end
    return frames, at


def _framing(client: int) -> type[Framing]:
    """Encodes the requests of a client in frames of its number; its replies come without frames."""

    class Framed(Raw):
        @staticmethod
        def tagged(
            tags: typing.Sequence[int], requests: typing.Sequence[bytes], behind: bytes
        ) -> bytes:
            return frames_of(client, Raw.tagged(tags, requests, behind))

    return Framed


class Stream(Queued):
    """A client's two streams of bytes: what is written goes into frames of its number, and what is
    read came in such. Its number is its own until its last reply has come."""

    def __init__(self, shared: Shared, client: int) -> None:
        super().__init__()
        self._shared = shared
        self.client = client
        # whether it has sent something, whether its own stream has ended, whether the server knows
        # that, and whether it had its last reply
        self.began = self.left = self.gone = self.finished = False
        # the parts that came for it, of which the last one has no bytes, and the rest of one part
        self._came: queue.SimpleQueue[bytes] = queue.SimpleQueue()
        self._rest, self._over = b"", False
        timeout = shared.timeout
        # (called with a count, which means "wait")
        get: typing.Callable[..., bytes] = self._came.get
        self.take = get
        if timeout is not None:
            self.take = functools.partial(get, timeout=timeout)
        self.give = shared.threads.orders.put

    def readable(self) -> bool:
        """Yes."""
        return True

    def writable(self) -> bool:
        """Yes."""
        return True

    def write(self, data: ReadableBuffer) -> int:
        """Sends some bytes, all of them, at once."""
        if self.left:
            raise WrongValue("the client's stream has ended")
        return self._shared.send(self, bytes(data))

    def read(self, size: int | None = -1) -> bytes:
        """Reads at most so many bytes, as soon as there are any; none after its last reply. Raises
        TimeoutError if nothing comes in time."""
        if size is None or size < 0:
            return self.readall()
        self._shared.check()
        found: list[bytes] = []
        left = size
        while left and not (found and self._came.empty() and not self._rest):
            if not self._rest and not self._over:
                try:
                    self._rest = self.take(1)
                except queue.Empty:
                    raise NotInTime from None
                self._over = not self._rest
            if not self._rest:
                break
            found.append(self._rest[:left])
            self._rest = self._rest[left:]
            left -= len(found[-1])
        return found[0] if len(found) == 1 else b"".join(found)

    def readinto(self, buffer: WriteableBuffer) -> int:
        """Reads some bytes into a buffer, as `read`."""
        place = memoryview(buffer).cast("B")
        some = self.read(len(place))
        place[: len(some)] = some
        return len(some)

    def came(self, parts: list[bytes]) -> None:
        """Takes a frame that came for it, in parts: one without bytes follows its last reply."""
        some = [it for it in parts if it]
        if not some:
            self.finish()
        for it in some:
            self._came.put(it)

    def finish(self) -> None:
        """Notes that nothing more comes for it."""
        if not self.finished:
            self.finished = True
            self._came.put(b"")

    def leave(self) -> None:
        """Ends the client's own stream. Its remaining replies may be read."""
        if not self.left and not self._shared.closed:
            self._shared.end(self)

    def close(self) -> None:
        """Ends it, if the server is there."""
        with contextlib.suppress(OSError, ValueError):
            self.leave()
        super().close()


# some bytes of frames, or a client's end, and what is released once they were written
_Order = typing.Union[bytes, tuple[typing.Union[bytes, Stream], threading.Lock]]


class _Threads:
    """The two threads of a Shared. One reads what comes, so that a session that does not read
    delays no other; the other writes what is sent. Neither receives an interrupt, so an
    interrupt leaves no frame half written, and nothing that came is lost. They hold no reference
    to a Shared that is dropped."""

    def __init__(self, reader: typing.BinaryIO, writer: typing.BinaryIO) -> None:
        # the bytes to write; None ends the thread
        self.orders: queue.SimpleQueue[_Order | None] = queue.SimpleQueue()
        # held to look at the streams, or to change them
        self.looking = threading.RLock()
        # of each number those that have it, the earliest first: each until it has left and has had
        # its last reply, since what comes under its number before is its own
        self.streams: dict[int, typing.Deque[Stream]] = {}
        # whether nothing more comes, and whether nothing more can be written
        self.over = self.broken = False
        self.hearing = threading.Thread(target=self._hear, args=(reader,), daemon=True)
        self.telling = threading.Thread(target=self._tell, args=(writer,), daemon=True)
        self.hearing.start()
        self.telling.start()

    def _tell(self, writer: typing.BinaryIO) -> None:
        """Writes what is sent, in its order."""
        for order in iter(self.orders.get, None):
            data, done = order if isinstance(order, tuple) else (order, None)
            if isinstance(data, Stream):
                data = self._ends(data)
            elif data[:4] != NOW[:4]:
                self._begins(int.from_bytes(data[:4], "little"))
            left = memoryview(data)
            try:
                while left:
                    left = left[writer.write(left) :]
                writer.flush()
            except (OSError, ValueError):
                # (the reading thread reports the end)
                self.broken = True
            if done is not None and done.locked():
                done.release()
            # (nothing of a stream is kept while nothing is sent)
            del order, data, left, done
        with contextlib.suppress(OSError):
            writer.close()

    def _begins(self, client: int) -> None:
        """Notes that a client has sent something."""
        with self.looking:
            for stream in self.streams.get(client, ()):
                if not stream.gone:
                    stream.began = True
                    break

    def _ends(self, stream: Stream) -> bytes:
        """Notes that a client's own stream has ended, and gives what says so to the server."""
        with self.looking:
            if stream.gone:
                return b""
            stream.left = stream.gone = True
            if not stream.began:
                stream.finish()
            self._let_go(stream)
            return ended(stream.client) if stream.began else b""

    def _let_go(self, stream: Stream) -> None:
        if stream.gone and stream.finished:
            self.streams[stream.client].remove(stream)
            if not self.streams[stream.client]:
                del self.streams[stream.client]

    def _hear(self, reader: typing.BinaryIO) -> None:
        """Reads what comes, and gives each frame to its client."""
        some = getattr(reader, "read1", None) or reader.read
        held = b""
        # of a frame that came in part: whose it is, what came of it, and how many bytes it lacks
        client, parts, left = 0, [], 0
        with contextlib.suppress(OSError, ValueError):
            while data := some(_READ):
                frames: list[_Came] = []
                if left:
                    # (its reader joins a long one, once)
                    parts.append(data[:left])
                    left -= len(parts[-1])
                    if left:
                        continue
                    data = data[len(parts[-1]) :]
                    frames.append((client, parts))
                held += data
                whole, at = split(held)
                held = held[at:]
                if len(held) >= _HEAD.size:
                    client, length = _HEAD.unpack_from(held)
                    parts, held = [held[_HEAD.size :]], b""
                    left = length - len(parts[0])
                self._heard(frames + [(of, [it]) for of, it in whole])
        with self.looking:
            self.over = True
            for stream in [it for streams in self.streams.values() for it in streams]:
                stream.finish()

    def _heard(self, frames: list[_Came]) -> None:
        with self.looking:
            for client, parts in frames:
                streams = self.streams.get(client, ())
                stream = next((it for it in streams if not it.finished), None)
                if stream is not None:  # otherwise no stream requested it
                    stream.came(parts)
                    self._let_go(stream)


class Shared:
    """A server of many clients, over two streams of frames. Any number of threads may use it, a
    stream or a session one at a time. Two threads of its own read and write."""

    def __init__(
        self,
        reader: typing.BinaryIO,
        writer: typing.BinaryIO,
        *,
        group: int | None = GROUP,
        timeout: float | None = None,
        what: str = "",
        child: subprocess.Popen[bytes] | None = None,
        errors: typing.IO[bytes] | None = None,
        program: Program = PROGRAM,
    ) -> None:
        """`group` is how many requests the server commits together, 1 if it holds nothing back.
        `timeout` is how many seconds a reply is waited for."""
        self.child, self.timeout = child, timeout
        self._files, self._errors, self._program = (reader, writer, errors), errors, program
        self._group, self._what = group, what
        self.closed = self._ended = False
        self._process = os.getpid()
        self._said: bytes | None = None
        self._end: Error | None = None
        forks.own(self)
        self.threads = _Threads(reader, writer)
        # one that is dropped lets its child end, and its store go
        self._finalizer = weakref.finalize(self, let_go, self.threads, child, errors, self._process)

    def forked(self) -> None:
        """Ends it in a process that was forked from its own: closes the descriptors, and sends
        nothing."""
        self._end = forks.in_use(self._process)
        self.closed = self._ended = True
        self._finalizer.detach()
        # (a thread that held it is not there)
        self.threads.looking = threading.RLock()
        for it in self._files:
            forks.close(it)
        if self.child is not None:
            # (it is no child of this process)
            self.child.returncode = 0

    def check(self) -> None:
        """Raises what has ended it in this process."""
        if self._end is not None:
            raise self._end.with_traceback(None)

    def stream(self, client: int | None = None) -> Stream:
        """A new client, of this number or of the lowest that is free."""
        self.check()
        of = self.threads.streams
        with self.threads.looking:
            if client is None:
                client = next(it for it in range(ALL) if not of.get(it))
            if not 0 <= client < ALL:
                raise WrongValue(f"{client} is no client's number")
            streams = of.setdefault(client, collections.deque())
            if streams and not streams[-1].left:
                raise WrongValue(f"there is a client {client}")
            made = Stream(self, client)
            if self.threads.over:
                made.finish()
            streams.append(made)
            return made

    def session(self, client: int | None = None) -> Server:
        """A session of a new client. Closing it ends that client alone."""
        stream = self.stream(client)
        what = f"client {stream.client} of {self._what or 'a shared session'}"
        explain = None if self.child is None else explaining(self._program)
        connection = Connection(stream, stream, _framing(stream.client))
        return Server(connection, self._group, self._group != 1, what=what, explain=explain)

    def now(self) -> None:
        """Commits all requests that were received, of all clients, and sends the replies."""
        self._send(NOW)

    def send(self, stream: Stream, data: bytes) -> int:
        """Sends some bytes of a client."""
        if data:
            self._send(frames_of(stream.client, data))
        return len(data)

    def end(self, stream: Stream) -> None:
        """Ends a client's stream. One that has sent nothing never was there."""
        self.check()
        self.threads.orders.put((stream, threading.Lock()))
        stream.left = True

    def _send(self, data: bytes) -> None:
        """Has some frames written, and waits until they are."""
        self.check()
        done = threading.Lock()
        done.acquire()
        self.threads.orders.put((data, done))
        done.acquire()
        if self.threads.broken:
            raise system_failed(BrokenPipeError, errno.EPIPE, os.strerror(errno.EPIPE))

    def __enter__(self) -> Shared:
        return self

    def __exit__(self, kind: type | None, *_: object) -> None:
        try:
            self.close()
        except Error:
            if kind is None:
                raise

    def close(self) -> None:
        """Ends the server's input, and so all clients, and waits for its end. Raises SessionEnded
        if the program that was started here ends with another status than 0. After an interrupt in
        it, call it again."""
        if self._ended:
            return
        self.closed = True
        threads, child = self.threads, self.child
        threads.orders.put(None)
        until = None if self.timeout is None else time.monotonic() + self.timeout
        threads.telling.join(self.timeout)
        threads.hearing.join(_left(until))
        status = 0
        if child is not None:
            if threads.hearing.is_alive():
                child.kill()
            status = _waited(child, _left(until))
            threads.telling.join()
            threads.hearing.join()
            if child.stdout is not None:
                child.stdout.close()
        if child is not None and self._errors is not None:
            if self._said is None:
                self._errors.seek(0)
                self._said = self._errors.read()
            self._errors.close()
        self._finalizer.detach()
        self._ended = True
        if status:
            raise ending("the server has ended", self._said or b"", status)


def let_go(
    threads: _Threads,
    child: subprocess.Popen[bytes] | None,
    errors: typing.IO[bytes] | None,
    process: int,
) -> None:
    """Ends the server of a Shared that was dropped: it sees the end of its input, commits what it
    has and lets its store go, which is waited for."""
    if os.getpid() != process:
        return
    threads.orders.put(None)
    if child is not None:
        _waited(child, WAIT_AT_END)
        if child.stdout is not None:
            threads.hearing.join(1)
            child.stdout.close()
        if errors is not None:
            errors.close()


def _waited(child: subprocess.Popen[bytes], seconds: float | None) -> int:
    """The status of a child, which is killed if it does not end in time."""
    try:
        return child.wait(seconds)
    except subprocess.TimeoutExpired:
        child.kill()
        return child.wait()


def _left(until: float | None) -> float | None:
    """The seconds that are left until a time, a few at least."""
    return None if until is None else max(0.1, until - time.monotonic())


@system_failures()
def play(
    library: Path,
    program: Program = PROGRAM,
    *,
    timeout: float | None = None,
) -> Shared:
    """`oaut play --shared` with a library's file: objects in memory, gone when it ends."""
    return _start(["play", "--shared", os.fspath(library)], program, 1, timeout)


@system_failures()
def serve(
    store: Path,
    library: Path | None = None,
    group: int | None = None,
    program: Program = PROGRAM,
    *,
    timeout: float | None = None,
) -> Shared:
    """`oaut serve --shared` with a store's file. The library is the store's own, or that of a file,
    which has to be the same."""
    if library is None:
        # (the file is kept until the server has read it, which is so once it replies to a client)
        with text_file(library_of(store)) as name:
            shared = serve(store, name, group, program, timeout=timeout)
            try:
                with shared.session() as server:
                    server.library
            except Error:
                shared.close()
                raise
            return shared
    group = GROUP if group is None else group
    words = ["serve", "--shared", os.fspath(store), os.fspath(library), "--group", str(group)]
    return _start(words, program, group, timeout)


def _start(
    words: list[str],
    program: Program,
    group: int,
    timeout: float | None,
) -> Shared:
    errors = tempfile.TemporaryFile()
    start: typing.Callable[[list[str]], subprocess.Popen[bytes]] = functools.partial(
        typing.cast(typing.Callable[..., "subprocess.Popen[bytes]"], subprocess.Popen),
        stdin=subprocess.PIPE,
        stdout=subprocess.PIPE,
        stderr=errors,
        bufsize=0,
        start_new_session=True,
    )
    # (by a `map`, as an interrupt may come between any two steps)
    begun: list[subprocess.Popen[bytes]] = []
    try:
        with Starting(program):
            begun += map(start, ([*words_of_program(program), *words],))
        child = begun[0]
        return Shared(
            typing.cast(typing.BinaryIO, child.stdout),
            typing.cast(typing.BinaryIO, child.stdin),
            group=group,
            timeout=timeout,
            what=" ".join(words[:2]),
            child=child,
            errors=errors,
            program=program,
        )
    except BaseException:
        for child in begun:
            end_child(child)
        errors.close()
        raise
