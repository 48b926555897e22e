"""Recordings: the requests and replies of a session as a text file, and a session that gives the
same replies without a server.

    with oaut.play("items.idl") as server, oaut.record(server, "calls.txt"):
        server.create("Item").Count = 7

    with oaut.replay("calls.txt") as server:
        server.create("Item").Count = 7

A recording has the library, and then each request after `>` and its reply after `<`: in words, for
people, and below in hexadecimal digits, which count. It contains no tags, numbers or times, so that
two recordings differ only if the sessions do."""
from __future__ import annotations

import os
import struct
import threading
import types
import typing

from .connection import Connection
from .decode import reply_words, request_words
from .faults import Error, ProtocolError, system_failures
from .framing import FRAMING, Raw
from .library import Library
from .paths import Path, beside
from .protocol import END, GROUP
from .records import (
    BODY_LIMIT,
    CREATE,
    GETELEM,
    INVOKE,
    LOCK,
    NO_INDEX,
    PUTELEM,
    REDIM,
    REPLY_HEAD,
    UNLOCK,
)
from .session import Server

HEAD = "oaut recording 1"
# the bytes of a line of digits, and of a group in it; and the columns of a line of words
_LINE, _GROUP, _COLUMNS = 32, 4, 96
_TAG = struct.Struct("<I")
_CALLS = (INVOKE, GETELEM, PUTELEM, REDIM, LOCK, UNLOCK)
# the reply to END: bad stub data
_ENDED = REPLY_HEAD.pack(int.from_bytes(END[:4], "little"), 0x8007_06F7, NO_INDEX, 0)
# the seconds that a reader waits for a thread that still writes
_WAIT = 30.0

# a request, its reply if there was one, and its line in the file
Call = tuple[bytes, typing.Optional[bytes], int]


class ReplayDiffers(Error, AssertionError):
    """A replayed session got other requests than its recording has, or fewer."""


class NoRecording(Error, ValueError):
    """A file that is no recording."""


def _digits(some: bytes) -> typing.Iterator[str]:
    for at in range(0, len(some), _LINE):
        yield "    " + some[at : at + _LINE].hex(" ", _GROUP)


def _short(words: str) -> str:
    words = " ".join(words.split())
    return words if len(words) <= _COLUMNS else f"{words[:_COLUMNS]} .."


def _asked(request: bytes, library: Library | None) -> str:
    """A request in words, a member's name after its DISPID if the library knows one."""
    try:
        words = request_words(bytes(4) + request).partition(": ")[2]
    except (Error, UnicodeError):
        return "no request"
    if library is None:
        return _short(words)
    if int.from_bytes(request[:2], "little") == CREATE:
        words += "".join(
            f" ({it.name})" for it in library.coclasses if words.endswith(str(it.guid))
        )
    elif int.from_bytes(request[:2], "little") in _CALLS:
        dispid = int.from_bytes(request[8:12], "little", signed=True)
        names = {it.name for of in library.interfaces for it in of.forms if it.dispid == dispid}
        if len(names) == 1:
            told = f"dispid {dispid}"
            words = words.replace(told, f"{told} ({names.pop()})", 1)
    return _short(words)


def _answered(reply: bytes, opcode: int) -> str:
    try:
        return _short(reply_words(bytes(4) + reply, opcode).partition(": ")[2])
    except (Error, UnicodeError):
        return "no reply"


class Recording:
    """Records the requests and replies of a session, from `with` to the end of its block."""

    def __init__(self, server: Server, path: Path) -> None:
        self._server, self._path = server, os.fspath(path)
        self._before: typing.Callable[[str, bytes], object] | None = None
        self._text = ""
        self._calls: list[list[bytes]] = []
        self._open: dict[bytes, list[bytes]] = {}

    def __enter__(self) -> Recording:
        if os.path.exists(self._path):
            # a file that is no recording is not replaced
            read(self._path)
        self._text = self._server.library.to_text()
        self._before, self._server.trace = self._server.trace, self._noted
        return self

    def _noted(self, side: str, body: bytes) -> None:
        if self._before is not None:
            self._before(side, body)
        if side == ">":
            self._open[body[:4]] = [body[4:]]
            self._calls.append(self._open[body[:4]])
        elif body[:4] in self._open:
            self._open.pop(body[:4]).append(body[4:])

    def __exit__(
        self,
        kind: type[BaseException] | None,
        error: BaseException | None = None,
        _: types.TracebackType | None = None,
    ) -> None:
        self._server.trace = self._before
        if kind is None:
            self.write()

    @system_failures()
    def write(self) -> None:
        """Writes the file: a whole one takes the place of a recording that is there."""
        with beside(self._path) as made:
            with open(made, "x", encoding="ascii", newline="\n") as file:
                file.writelines(f"{it}\n" for it in self.lines())
            os.replace(made, self._path)

    def lines(self) -> typing.Iterator[str]:
        """The lines of the file."""
        yield HEAD
        yield ""
        yield "library"
        for line in self._text.splitlines():
            yield f"    {line}"
        library = Library.from_text(self._text)
        for request, *replies in self._calls:
            yield ""
            yield f"> {ascii_of(_asked(request, library))}"
            yield from _digits(request)
            for reply in replies:
                opcode = int.from_bytes(request[:2], "little")
                yield f"< {ascii_of(_answered(reply, opcode))}"
                yield from _digits(reply)


def ascii_of(words: str) -> str:
    """Words in ASCII, which every tool shows in the same way."""
    return words.encode("ascii", "backslashreplace").decode()


@system_failures()
def record(server: Server, path: Path) -> Recording:
    """Writes the requests and replies of a session to a file, for `replay`: `with
    oaut.record(server, "calls.txt"):`. The file is written at the end of the block, and not if the
    block raises. An existing recording is replaced; another file raises NoRecording before any
    request is sent."""
    return Recording(server, path)


@system_failures()
def read(path: Path) -> tuple[Library, list[Call]]:
    """The library of a recording, and its calls. Raises NoRecording if the file is none."""
    name = os.fspath(path)
    with open(name, encoding="utf-8", errors="replace") as file:
        lines = file.read().split("\n")
    if lines[0].rstrip() != HEAD:
        raise NoRecording(f"{name}: no recording: its first line is not {HEAD!r}")
    text: list[str] = []
    parts: list[tuple[str, int, list[str]]] = []
    for number, line in enumerate(lines[1:], 2):
        if not line.strip() or line.startswith("#"):
            continue
        if line.startswith(" "):
            (parts[-1][2] if parts else text).append(line)
        elif line[:1] in "<>":
            parts.append((line[0], number, []))
        elif line.rstrip() != "library" or parts or text:
            raise NoRecording(f"{name}:{number}: neither a request, a reply nor digits")
    calls: list[Call] = []
    for side, number, digits in parts:
        try:
            some = bytes.fromhex("".join(digits))
        except ValueError:
            raise NoRecording(f"{name}:{number}: no hexadecimal digits follow this line") from None
        if side == ">":
            calls.append((some, None, number))
        elif not calls or calls[-1][1] is not None:
            raise NoRecording(f"{name}:{number}: a reply without a request")
        else:
            calls[-1] = (calls[-1][0], some, calls[-1][2])
    return Library.from_text("\n".join(text)), calls


class Replies:
    """The two streams of a session that is replayed: what is written has to be what was recorded,
    and what is read are its replies."""

    def __init__(self, path: Path) -> None:
        self.path = os.fspath(path)
        self.library, self.calls = read(path)
        self.at = 0
        self.failure: Error | None = None
        self._given, self._ready = b"", bytearray()
        self._ended = False
        # a long request is written by a thread of the session, while its reply is waited for
        self._changed = threading.Condition()

    def write(self, some: bytes) -> int:
        """Takes the bytes of requests."""
        with self._changed:
            self._given += some
            bodies, place = Raw.split(self._given, 0, len(self._given))
            self._given = self._given[place:]
            for body in bodies:
                if self.failure is not None or self._ended:
                    break
                if body == END:
                    self._ready += Raw.pack([_ENDED])
                else:
                    self._answer(body[:4], body[4:])
            if not bodies and len(self._given) > BODY_LIMIT + 4:
                self.failure = ProtocolError("a request is longer than any may be")
            self._changed.notify_all()
        return len(some)

    def _answer(self, tag: bytes, request: bytes) -> None:
        """Replies to a request as recorded, or notes that it differs."""
        number = self.at + 1
        if self.at == len(self.calls):
            told = _asked(request, self.library)
            what = f"{self.path}: it has {self.at} requests, and request {number} is {told}"
            self.failure = ReplayDiffers(what)
            return
        wanted, reply, line = self.calls[self.at]
        if request != wanted:
            asked, recorded = _asked(request, self.library), _asked(wanted, self.library)
            what = f"request {number} is {asked}, and was {recorded}"
            self.failure = ReplayDiffers(f"{self.path}:{line}: {what}")
            return
        self.at += 1
        if reply is None:
            self._ended = True
        else:
            self._ready += Raw.pack([tag + reply])

    def flush(self) -> None:
        """Nothing is held back."""

    def read1(self, most: int) -> bytes:
        """Some bytes of replies, or none once the recorded session had ended."""
        with self._changed:
            self._changed.wait_for(lambda: self._ready or self.failure or self._ended, _WAIT)
            if self.failure is not None:
                raise self.failure
            some = bytes(self._ready[:most])
            del self._ready[:most]
            return some

    read = read1

    def close(self) -> None:
        """Ends nothing: there is no server."""
        with self._changed:
            self._ended = True
            self._changed.notify_all()

    def check(self) -> None:
        """Raises ReplayDiffers if a recorded request was never sent."""
        if self.failure is None and self.at < len(self.calls):
            request, _, line = self.calls[self.at]
            told = f"request {self.at + 1} of {len(self.calls)} was not sent"
            what = f"{told}: {_asked(request, self.library)}"
            raise ReplayDiffers(f"{self.path}:{line}: {what}")


class Replayed(Server):
    """A session that gives the replies of a recording."""

    def __init__(self, path: Path, partly: bool = False) -> None:
        replies = Replies(path)
        stream = typing.cast(typing.BinaryIO, replies)
        super().__init__(Connection(stream, stream, FRAMING), GROUP, what=f"replay {replies.path}")
        self.described = replies.library
        self._replies, self._partly = replies, partly

    def close(self) -> None:
        """Ends the session. Raises ReplayDiffers if a recorded request was not sent, unless it was
        begun with `partly=True`."""
        closed = self._end is not None
        super().close()
        if not closed and not self._partly:
            self._replies.check()


@system_failures()
def replay(path: Path, *, partly: bool = False) -> Server:
    """A session that gives the replies of a recording, without a server: each request has to be the
    recorded one, in the recorded order. Another one raises ReplayDiffers, and so does the end of
    the session while recorded requests were not sent, unless `partly` is True."""
    return Replayed(path, partly)
