"""The two streams of a session: whole records go out, whole replies come back in their order."""
from __future__ import annotations

import _thread
import contextlib
import functools
import io
import os
import queue
import select
import socket
import subprocess
import sys
import time
import typing

from . import forks
from .faults import ProtocolError, WrongValue
from .framing import FRAMINGS, Framing

# the size that a write to an empty pipe always accepts at once
AT_ONCE = 4_096
_READ = 65_536
# a page of a pipe, of which a record that waits there takes one; and more than such a record has
_PAGE, _RECORD = 4_096, 64
# so many reads are joined anew after each; a longer reply is joined once
_FEW = 4
_GET_PIPE_SIZE = 1_032
WAIT_AT_END = 10.0
# the seconds that END's reply is waited for before a socket is closed
WAIT_FOR_LAST = 1.0

Stream = typing.Union[typing.BinaryIO, io.RawIOBase]
# the bytes of some records, how many they are, what was written of them, and for a thread its leave
_Sending = tuple[bytes, int, list[object], typing.Optional[list[int]]]
_State = tuple[bytes, int, int, list[bytes], typing.Optional[_Sending]]


class Ended(Exception):
    """The other side has ended."""


class Late(Exception):
    """Nothing came, or nothing was taken, in time."""


class Queued(io.RawIOBase):
    """A stream whose bytes are taken and given by calls of C: `take(most)` waits for some bytes,
    and `give(data)` takes all of them at once. Raises queue.Empty if nothing comes in time."""

    take: typing.Callable[[int], bytes]
    give: typing.Callable[[bytes], object]


class Connection:
    """A server's streams, over the pipes of a child, a socket, or two streams that are given.

    An interrupt (KeyboardInterrupt, or what else a handler of signals raises) may come between any
    two steps of Python, and must not leave half a record or a reply that nobody counts. So steps
    that belong together are one step of C: a `map` that is added to a list makes a system call and
    notes its result. All other state is one tuple, which is replaced as a whole: the bytes that
    were read, how far they were used, how many replies are due, the bytes read since, and those
    being written."""

    def __init__(
        self,
        reader: Stream | socket.socket,
        writer: Stream | socket.socket,
        framing: str | Framing | type[Framing],
        timeout: float | None = None,
        child: subprocess.Popen[bytes] | None = None,
        errors: typing.IO[bytes] | None = None,
        owned: bool = False,
    ) -> None:
        self.framing = FRAMINGS[framing] if isinstance(framing, str) else framing
        self.timeout = timeout
        self.child, self.errors = child, errors
        self.reader, self.writer = reader, writer
        # whether the socket is this connection's own
        self.owned = owned
        # the process that started the child: a forked process ends nothing
        self.process = os.getpid()
        self.closed = False
        self._left: tuple[int, bytes] | None = None
        self._split = self.framing.split
        self._state: _State = (b"", 0, 0, [], None)
        # held by the thread that writes
        self._writing = _thread.allocate_lock()
        self._flush: typing.Callable[[], object] | None = None
        self._wait: int | None = None
        self._exact = False
        self._take: typing.Callable[[int], bytes]
        self._give: typing.Callable[[bytes], object]
        # how much a write accepts at once, and how much beside one record that may be left there
        self._room, self._rest = AT_ONCE, AT_ONCE
        # whether what is written is taken as a whole, and whether nothing more comes
        self._whole = self._at_end = False
        if isinstance(reader, Queued):
            self._take = reader.take
        elif isinstance(reader, socket.socket):
            if timeout is not None:
                reader.settimeout(timeout)
            self._take = reader.recv
        else:
            self._take = self._taking(reader)
        if isinstance(writer, socket.socket):
            self._give = writer.send
        elif isinstance(writer, Queued):
            self._give = writer.give
            self._room = self._rest = sys.maxsize
            self._whole = True
        else:
            self._give = writer.write
            if isinstance(writer, io.FileIO):
                self._room = _room(writer.fileno())
                self._rest = self._room - (_PAGE if self._room > _PAGE else _RECORD)
            else:
                self._flush = writer.flush

    def _taking(self, reader: Stream) -> typing.Callable[[int], bytes]:
        """A function that reads a stream: some bytes, as soon as there are any."""
        if self.timeout is not None:
            self._wait = reader.fileno()
            return functools.partial(os.read, self._wait)
        some: typing.Callable[[int], bytes] | None = getattr(reader, "read1", None)
        if some is None and not isinstance(reader, io.RawIOBase):
            # such a stream may wait until it has as many bytes as requested
            self._exact = True
        return some or typing.cast(typing.Callable[[int], bytes], reader.read)

    @property
    def due(self) -> int:
        """How many replies are due."""
        sending = self._state[4]
        return self._state[2] + (0 if sending is None else sending[1])

    def exchange(
        self, data: bytes, count: int, behind: int = 0, tags: typing.Sequence[int] = ()
    ) -> list[bytes]:
        """Sends the bytes of `count` records, and returns the bodies of their replies, except
        those of the last `behind` ones, which the next exchange reads. With the tags of the
        others, it returns none if each of their replies is S_OK without fields. Replies that were
        due before are dropped: one is read with these, more of them before anything is sent.
        Raises Ended, Late or ProtocolError."""
        held, at, due, chunks, sending = self._state
        # (what a thread still writes, after an interrupt, ends before its last reply has come)
        if sending is not None or due > 1 or len(data) > self._rest or self._writing.locked():
            self.drop()
            held, at, due, chunks, _ = self._state
        if len(data) > (self._rest if due else self._room):
            self._send_beside(data, count)
            return self._replies(count - behind)
        counts: list[object] = []
        # from here on an interrupt leaves what the next exchange goes on with
        self._state = (held, at, due, chunks, (data, count, counts, None))
        try:
            counts += map(self._give, (data,))
        except (TimeoutError, socket.timeout):
            raise Late from None
        except (OSError, ValueError):
            raise Ended from None
        if not self._whole and (counts[0] != len(data) or self._flush is not None):
            self._push(data, counts)
        # (from here to the reading while the other side is at work)
        wanted, old = count - behind, due
        if due and at < len(held):
            whole, at = self._split(held, at, due)
            due -= len(whole)
        end = due + wanted
        done = self.framing.done(tags) if tags else b""
        while not self._exact:
            self._read(chunks, _READ)
            some = chunks[0]
            if at < len(held) or len(chunks) > 1:
                some = b"".join((held[at:], *chunks))
            if done:
                place = self._place_after(done, some, due)
                if place:
                    self._state = (some, place, behind, [], None)
                    return []
            whole, place = self._split(some, 0, end)
            if len(whole) == end:
                self._state = (some, place, behind, [], None)
                return whole[due:] if due else whole
            if not chunks[-1] or len(chunks) > _FEW:
                break
        # long replies, and the end of the stream, are read step by step
        self._settle()
        return self._replies(old + wanted)[old:]

    def drop(self) -> None:
        """Reads what is due, which nobody waits for."""
        self._settle()
        while self._state[2]:
            self._replies(min(self._state[2], 1_024))

    def settled(self) -> list[bytes]:
        """After an interrupt, once all replies that are due have come: the bodies of these and of
        those that were read last. Raises Ended, Late or ProtocolError."""
        self._settle()
        held, at = self._state[:2]
        bodies, _ = self._split(held[:at], 0, at)
        while self._state[2]:
            bodies += self._replies(min(self._state[2], 1_024))
        return bodies

    # --- reading

    def _replies(self, count: int) -> list[bytes]:
        """The bodies of the next replies."""
        found: list[bytes] = []
        while True:
            data, at, due, chunks, sending = self._state
            whole, at = self._split(data, at, count - len(found))
            found += whole
            self._state = (data, at, due - len(whole), chunks, sending)
            if len(found) == count:
                return found
            self._fill()

    def _place_after(self, wanted: bytes, data: bytes, due: int) -> int:
        """The place after some replies, if they are these after those that are due; else 0."""
        place = self._split(data, 0, due)[1] if due else 0
        return place + len(wanted) if data.startswith(wanted, place) else 0

    def _fill(self) -> None:
        """Reads on until the next body may be whole."""
        data, at, due, chunks, sending = self._state
        missing = self.framing.missing(data, at)
        more, sign = sum(map(len, chunks)), self.framing.sign
        # (what ends by a sign has none in the bytes that were split)
        ended = sign is None or any(sign in it for it in chunks)
        while more < missing or not ended:
            left = max(missing - more, 1)
            self._read(chunks, left if self._exact else max(left, _READ))
            ended = ended or sign is None or sign in chunks[-1]
            if not chunks[-1]:
                if more or at < len(data):
                    raise ProtocolError("the stream ends inside a reply")
                raise Ended
            more += len(chunks[-1])
        self._state = (data[at:] + b"".join(chunks), 0, due, [], sending)

    def _read(self, chunks: list[bytes], most: int) -> None:
        """Adds what there is, as soon as there is something: nothing at the end."""
        # (a queue gives its end once)
        if self._at_end or chunks and not chunks[-1]:
            self._at_end = True
            chunks.append(b"")
            return
        if self._wait is not None and not _ready(self._wait, self.timeout):
            raise Late
        try:
            chunks += map(self._take, (most,))
        except (TimeoutError, socket.timeout, queue.Empty):
            raise Late from None
        except (OSError, ValueError):
            chunks.append(b"")
        if not chunks[-1]:
            self._at_end = True

    def at_end(self) -> bool:
        """Whether nothing follows."""
        try:
            self._replies(1)
        except Ended:
            return True
        return False

    def gone(self) -> bool:
        """Whether the other side of a socket has let this one go."""
        if not isinstance(self.reader, socket.socket):
            return False
        if not _ready(self.reader.fileno(), 0):
            return False
        try:
            return not self.reader.recv(1, socket.MSG_PEEK)
        except OSError:
            return True

    # --- writing

    def _push(self, data: bytes, counts: list[object]) -> None:
        """Writes what was not written yet."""
        if self._whole and counts:
            return
        try:
            while True:
                done = sum(typing.cast("list[int]", counts)) if counts else 0
                if done == len(data):
                    break
                counts.extend(map(self._give, (data[done:] if done else data,)))
            if self._flush is not None:
                self._flush()
        except (TimeoutError, socket.timeout):
            raise Late from None
        except (OSError, ValueError):
            raise Ended from None

    def _settle(self) -> None:
        """Counts what an interrupt found half done: a record that was begun is written to its
        end, and one that was not begun is not."""
        data, at, due, chunks, sending = self._state
        if sending is None:
            return
        sent, count, counts, leave = sending
        written = True
        if leave is not None:
            written = self._has_begun(counts, leave)
        elif counts:
            self._push(sent, counts)
        else:
            written = False
        self._state = (data, at, due + (count if written else 0), chunks, None)

    def _has_begun(self, counts: list[object], leave: list[int]) -> bool:
        """Whether a thread writes, or has written; else it never will."""
        try:
            # if this call takes the item first, the thread writes nothing; otherwise the thread
            # writes
            counts.extend(map(leave.pop, (0,)))
        except IndexError:
            pass
        if counts:
            self._writing = _thread.allocate_lock()
        return not counts

    def _send_beside(self, data: bytes, count: int) -> None:
        """Writes in a thread, while replies are read, so that neither side waits for the other."""
        leave = [0]
        writing = _thread.allocate_lock()
        writing.acquire()

        def write() -> None:
            try:
                leave.pop()
                self._push(data, [])
            except (IndexError, Ended, Late):
                pass  # the reading sees the end of the stream
            finally:
                writing.release()

        # (this order: an interrupt between the two leaves nobody to wait for)
        self._state = (*self._state[:4], (data, count, [], leave))
        self._writing = writing
        # (a start by threading takes many steps, between which an interrupt may come)
        _thread.start_new_thread(write, ())
        held, at, due, chunks, _ = self._state
        self._state = (held, at, due + count, chunks, None)

    def _written(self, timeout: float) -> bool:
        """Whether nobody writes any more, within so many seconds."""
        # (the lock is not taken: an interrupt could then keep it)
        until = time.monotonic() + timeout
        while self._writing.locked():
            if time.monotonic() >= until:
                return False
            time.sleep(0.001)
        return True

    # --- the end

    def close(self, late: bool = False) -> tuple[int, bytes] | None:
        """Closes the streams, except a socket that the caller owns. Returns the exit status of
        the child that had them and its standard error. `late`: the child is killed, or the
        socket shut down, since no replies come any more. After an interrupt it may be called
        again, since each of its steps may be."""
        if self.closed:
            return self._left
        self._revoke()
        if not late:
            self._read_last()
        if late and self.child is not None:
            self.child.kill()
        if late and isinstance(self.reader, socket.socket):
            with contextlib.suppress(OSError):
                self.reader.shutdown(socket.SHUT_RDWR)
        # (a stream that a thread is still writing to cannot be closed: it goes with that thread)
        if self._written(1):
            self._close(self.writer)
        if self.child is None or self.errors is None:
            self._close(self.reader)
            self.closed = True
            return None
        with contextlib.suppress(OSError, ValueError):
            while self._take(_READ):
                pass
        status = self.child.wait()
        self._close(self.reader)
        self.errors.seek(0)
        self._left = status, self.errors.read()
        self.closed = True
        self.errors.close()
        return self._left

    def _read_last(self) -> None:
        """Reads the one reply that is due over a socket, for a while. Otherwise the sender would
        find the connection closed, and the next user of that socket would receive the reply."""
        held, at, due, chunks, sending = self._state
        if due != 1 or sending is not None or not isinstance(self.reader, socket.socket):
            return
        some, until = b"".join((held[at:], *chunks)), time.monotonic() + WAIT_FOR_LAST
        with contextlib.suppress(OSError, ValueError):
            while not self._split(some, 0, 1)[0]:
                if not _ready(self.reader.fileno(), max(0.0, until - time.monotonic())):
                    break
                more = self.reader.recv(_READ)
                if not more:
                    break
                some += more

    def forked(self) -> None:
        """Closes the descriptors in a process that was forked from that of the connection."""
        self.closed = True
        for it in (self.writer, self.reader, self.errors):
            forks.close(it, self.owned)
        if self.child is not None:
            # (it is no child of this process)
            self.child.returncode = 0

    def read_out(self, until: float) -> None:
        """Reads what a child writes until it ends, or that time comes: it would else find nobody,
        and end by a fault."""
        with contextlib.suppress(OSError, ValueError):
            while _ready(self.reader.fileno(), max(0.0, until - time.monotonic())):
                if not self._take(_READ):
                    break

    def _revoke(self) -> None:
        """Keeps a thread from writing that was interrupted before it began."""
        sending = self._state[4]
        if sending is not None and sending[3] is not None:
            self._has_begun(sending[2], sending[3])

    def end_writing(self) -> None:
        """Ends a thread that still writes: what it writes nobody waits for."""
        self._revoke()
        if not self._written(0):
            if self.child is not None:
                self.child.kill()
            elif isinstance(self.reader, socket.socket):
                with contextlib.suppress(OSError):
                    self.reader.shutdown(socket.SHUT_RDWR)
            self._written(1)

    def _close(self, it: Stream | socket.socket) -> None:
        if isinstance(it, socket.socket) and not self.owned:
            return
        with contextlib.suppress(OSError, ValueError):
            it.close()


def let_go(connection: Connection) -> None:
    """Ends the child of a session that was dropped: it sees the end of its input, commits, and
    releases its store, which is waited for. It is killed if it does not end."""
    if connection.closed or connection.process != os.getpid():
        return
    connection.closed = True
    connection.end_writing()
    until = time.monotonic() + WAIT_AT_END
    for it in (connection.writer, connection.reader):
        if it is connection.reader and connection.child is not None:
            connection.read_out(until)
        if not isinstance(it, socket.socket) or connection.owned:
            with contextlib.suppress(OSError, ValueError):
                it.close()
    if connection.child is not None:
        try:
            connection.child.wait(max(0.1, until - time.monotonic()))
        except subprocess.TimeoutExpired:
            connection.child.kill()
            connection.child.wait()
    if connection.errors is not None:
        connection.errors.close()


def _room(descriptor: int) -> int:
    """The bytes that an empty pipe accepts at once."""
    try:
        import fcntl

        return max(AT_ONCE, fcntl.fcntl(descriptor, _GET_PIPE_SIZE))
    except (ImportError, OSError):
        return AT_ONCE


def check_timeout(timeout: float | None) -> None:
    """Raises ValueError for a timeout within which no reply can come."""
    if timeout is not None and not timeout > 0:
        raise WrongValue(f"timeout={timeout}: a number of seconds above 0, or None")


def _ready(descriptor: int, timeout: float | None) -> bool:
    """Whether there is something to read, or the end, within so many seconds."""
    if not hasattr(select, "poll"):
        return bool(select.select([descriptor], [], [], timeout)[0])
    poll = select.poll()
    poll.register(descriptor, select.POLLIN)
    return bool(poll.poll(None if timeout is None else timeout * 1_000))
