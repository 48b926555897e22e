"""The parts that all sessions share: reading a library, judging a reply, and the ends of groups
(docs/reference/records.md, docs/reference/program.md)."""
from __future__ import annotations

import itertools
import struct
import typing

from .faults import (
    BadIndex,
    BadStub,
    Disconnected,
    Error,
    IncompatibleLibrary,
    InvalidArg,
    MediumFull,
    Refused,
    Unexpected,
    WrongType,
    WrongUse,
    WrongValue,
    refused,
)
from .library import Description, Library, read_description
from .records import (
    DONE,
    INVOKE,
    PROPERTYPUT,
    PUTELEM,
    REDIM,
    REPLACE,
    ask_type_info,
    read_lost,
    read_nothing,
    read_reply,
    read_value,
)
from .values import Value
from .wire import WHOLE_NUMBERS

# the meaning of STG_E_MEDIUMFULL
FULL = (
    "the objects are at most the size of a store's bank less 5,242,880 bytes, in memory 15,728,640:"
    " release some, or restore a dump of the store with a larger --bank"
)
# how many requests are committed together at most, and how many bytes of events end a group
GROUP = 1_024
GROUP_BYTES = 524_288
# a REPLACE LIBRARY without a text: it is executed alone, so the open group before it is committed
# first; it calls no device, changes nothing, and its reply is bad stub data
END = struct.pack("<IHH", 0xFFFF_FFFF, REPLACE, 0)
# of a reply with a whole number, by its bytes between the tag and the number, what reads that
_WHOLE_NUMBERS = {
    DONE
    + before: (struct.Struct(f"<16x{form}").unpack, struct.calcsize(f"<16x{form}"), int.__new__, of)
    for before, (form, of) in WHOLE_NUMBERS.items()
}
# the largest cell that a REDIM makes, as an image
_CELL = 8
_FIXED = 64

# makes the value of a reply from its fields
Read = typing.Callable[[bytes], object]
# the request, for an error: a function and its arguments, which returns the request in words and
# what the library has of it (`act_words`)
Act = tuple[object, ...]
# the result of a request: the value, a Later in a batch, or an awaitable of one of them in asyncio.
# It depends on the session, which no type checker knows
Asked = typing.Any
# receives the bodies of replies
Answered = typing.Callable[[list[bytes]], None]
Steps = typing.Generator[list[bytes], list[bytes], Library]


# the content of a Later without a reply
_UNSENT, _FAILED = object(), object()


class Later:
    """The reply to a request in a batch. Once the batch was sent, `value` returns the value, or
    raises the error if the request was refused."""

    __slots__ = ("_value", "_failure")
    _failure: Exception
    # why it cannot be put, and what to do
    not_a_value = (
        "in a batch a get gives a Later, whose `value` is there once the block has ended: compute"
        " with it after the block, or read it before"
    )

    def __init__(self) -> None:
        self._value: object = _UNSENT

    @property
    def value(self) -> Value:
        """The value of the reply."""
        if self._value is _UNSENT:
            raise WrongUse("the batch was not sent yet")
        if self._value is _FAILED:
            raise self._failure
        return self._value

    @property
    def is_sent(self) -> bool:
        """Whether it has its reply."""
        return self._value is not _UNSENT

    def answer(self, value: object) -> None:
        """Sets the value of its reply."""
        self._value = value

    def fail(self, failure: Exception) -> None:
        """Gives it its refusal."""
        self._failure, self._value = failure, _FAILED

    def _no_value(self, *_: object) -> typing.NoReturn:
        raise WrongType(Later.not_a_value)

    # (what would compute with it, or judge it, and be wrong without a word)
    __add__ = (
        __radd__
    ) = __sub__ = __rsub__ = __mul__ = __rmul__ = __truediv__ = __rtruediv__ = _no_value
    __floordiv__ = __rfloordiv__ = __mod__ = __rmod__ = __pow__ = __rpow__ = __neg__ = _no_value
    __lt__ = __le__ = __gt__ = __ge__ = __int__ = __float__ = __iter__ = __getitem__ = _no_value
    __bool__ = __len__ = _no_value
    __hash__ = object.__hash__

    def __eq__(self, other: object) -> bool:
        if isinstance(other, Later):
            return self is other
        raise WrongType(Later.not_a_value)


class OpenBatch(typing.Protocol):
    """A batch of a session that waits."""

    def is_open(self) -> bool:
        """Whether the block may still go on."""

    def put(self, request: bytes, arguments: typing.Sequence[str], act: Act) -> bool:
        """Adds a request of few bytes whose reply has no value. Returns False if the block has
        ended, by an interrupt within its last steps."""


class Asker(typing.Protocol):
    """Something that asks a server: a synchronous session, a batch, or an asynchronous session."""

    @property
    def library(self) -> Library:
        """The server's library."""

    @property
    def described(self) -> Library | None:
        """The server's library as far as it was read."""

    @property
    def in_batch(self) -> OpenBatch | None:
        """The batch that was begun, if it takes puts at once."""

    def ask(
        self, request: bytes, read: Read, arguments: typing.Sequence[str] = (), act: Act = ()
    ) -> Asked:
        """The result of a request: its value, a Later, or an awaitable."""

    def note_lock(self, more: int = 1) -> None:
        """Notes that an array gets a lock, which ends with the connection, or that one was given
        back."""


class Session(Asker, typing.Protocol):
    """A session that waits for its replies, as a lock of an array uses it."""

    @property
    def next_tag(self) -> int:
        """The tag of the request that is sent next."""

    def batch(self) -> typing.ContextManager[object]:
        """Requests that are sent together."""

    def was_done(self, tag: int) -> bool:
        """After an interrupt, whether the request with this tag was executed, and not refused."""


def act_words(act: Act, code: int = 0) -> tuple[str, str]:
    """A request in words, and what the library says about a refusal with that code."""
    if not act:
        return "", ""
    tell = typing.cast(typing.Callable[..., tuple[str, str]], act[0])
    return tell(code, *act[1:])


def judge(body: bytes, read: Read, arguments: typing.Sequence[str], act: Act) -> Value:
    """Returns the result of a reply's fields, or raises its refusal."""
    # (most replies by far are known at a glance, up to their number)
    if read is read_value:
        quick = _WHOLE_NUMBERS.get(body[4:44])
        if quick is not None and len(body) == quick[1]:
            return quick[2](quick[3], quick[0](body)[0])
    elif read is read_nothing and body[4:] == DONE:
        return None
    if body[4:8] == b"\0\0\0\0" and len(body) >= 16:
        return read(body[16:])
    _, code, index, fields = read_reply(body)
    told, hint = act_words(act, code)
    argument = arguments[index] if index is not None and index < len(arguments) else None
    raise refused(code, index, argument, fields, told, hint)


class Collected:
    """Requests that are to be sent together, and what becomes of their replies."""

    def __init__(self) -> None:
        # each request, how its reply is read, and the Later that receives it
        self.asked: list[tuple[bytes, Read, typing.Sequence[str], Later | None, Act]] = []
        # whether one of these may have a Later
        self.has_laters = False
        self._sent = self._answered = 0
        self.failures: list[tuple[int, Error]] = []

    def not_gone(self) -> None:
        """Raises the first failure, but for those of objects that are no more."""
        for _, failure in self.failures:
            if not isinstance(failure, Disconnected):
                raise failure

    @property
    def lost(self) -> int:
        """How many requests were taken to be sent, of which no replies came."""
        return self._sent - self._answered

    def taken(self) -> tuple[list[bytes], Answered]:
        """The requests, which are then to be sent, and what takes their replies: none if each is
        S_OK without a value, and no request has a Later."""
        asked, place = self.asked, self._sent
        # (counted first: an interrupt between these may only make `lost` too large)
        self._sent = place + len(asked)
        self.asked = []
        self.has_laters = False

        def answered(bodies: list[bytes]) -> None:
            self._answered += len(asked)
            for at, (body, (_, read, arguments, later, act)) in enumerate(
                zip(bodies, asked), place
            ):
                if later is None and body[4:] == DONE:
                    continue
                try:
                    value = judge(body, read, arguments, act)
                    if later is not None:
                        later.answer(value)
                except Error as failure:
                    self.failures.append((at, failure))
                    if later is not None:
                        later.fail(failure)

        return [it[0] for it in asked], answered


class GroupRoom:
    """The space left in a group: it ends with its last request, or with the one that brings its log
    records to 524,288 bytes."""

    def __init__(self, most: int | None) -> None:
        if most is None:
            told = "connect(.., group=N) says how many requests that server commits together"
            raise WrongValue(f"{told}, which an atomic block has to know")
        self._most, self._count, self._size = most, 0, 0
        self._full: ValueError | None = None

    def add(self, request: bytes, library: Library | None) -> None:
        """Counts a request. Raises ValueError if it has no room, and from then on."""
        if self._count == self._most:
            self._full = WrongValue(f"a group has at most {self._most} requests: nothing was sent")
        elif self._size >= GROUP_BYTES:
            told = f"a group ends after the request that makes its log records {GROUP_BYTES} bytes"
            self._full = WrongValue(f"{told}, and these may have so many: nothing was sent")
        self.check()
        self._count += 1
        self._size += event_bound(request, library)

    def check(self) -> None:
        """Raises ValueError if a request had no room."""
        if self._full is not None:
            raise self._full


def reading_library() -> Steps:
    """Asks for the descriptions of a server's library, and makes it of them."""
    found: list[Description] = []
    for start in itertools.count(0, 16):
        bodies = yield [ask_type_info(start + it) for it in range(16)]
        replies = [read_reply(it) for it in bodies]
        good = [it for it in replies if it.code == 0]
        found += [read_description(it.fields) for it in good]
        if len(good) < 16:
            code = replies[len(good)].code
            if code != BadIndex.code:
                raise refused(code)
            break
    return Library(found)


def not_replaced(refusal: Refused, old: Library) -> Exception:
    """The exception of a library that was not replaced, by what the old one has."""
    if isinstance(refusal, InvalidArg):
        guid, dispid = read_lost(refusal.fields)
        return IncompatibleLibrary(refusal, guid, dispid, old.words_of(guid, dispid))
    if isinstance(refusal, BadStub) and not refusal.hint:
        hint = "the text is no library, or the server does not know this request"
        return refused(refusal.code, None, None, b"", refusal.act, hint)
    return refusal


def event_bound(request: bytes, library: Library | None) -> int:
    """An upper bound for the log record of a request (its bytes after the tag). It counts the
    request's contents and possible defaults. For a REDIM it counts the cells that it makes of an
    array that was never put."""
    opcode = int.from_bytes(request[:2], "little")
    if opcode == INVOKE:
        if not int.from_bytes(request[48:50], "little") & PROPERTYPUT:
            return 0
    elif opcode in _NO_EVENT:
        return 0
    more = library.defaults_size if library is not None else GROUP_BYTES
    if opcode == REDIM:
        more += _CELL * int.from_bytes(request[-8:-4], "little")
    return len(request) + 4 + more + (_FIXED if opcode in (PUTELEM, REDIM) else 0)


# GETIDS, GETELEM, LOCK, UNLOCK, TYPEINFO, LIST
_NO_EVENT = frozenset((3, 5, 8, 9, 10, 11))


def created(code: int, coclass: str) -> tuple[str, str]:
    """A create in words, and what its refusal means."""
    hint = ""
    if code == Unexpected.code:
        hint = (
            "65,536 objects are live, which is the limit, or all numbers are used up: release some"
        )
    elif code == MediumFull.code:
        hint = FULL
    return f"create {coclass}", hint


def said(_: int, act: str) -> tuple[str, str]:
    """An act in words, of which the library says nothing more."""
    return act, ""
