"""Changes as they happen: those that `oaut-gateway --watch` sends (docs/operations/gateway.md)."""
from __future__ import annotations

import dataclasses
import json
import os
import socket
import typing
import uuid

from .addresses import Address, Secure, address_of, address_words
from .faults import (
    NoSuchMember,
    NotInTime,
    ProtocolError,
    SessionEnded,
    WrongType,
    WrongUse,
    WrongValue,
)
from .library import Coclass, Library, Member, Which, close_to, fold
from .objects import BaseObject
from .values import MISSING, NULL_BSTR, VT_BOOL, VT_BSTR, Value, scalar_of, text_bytes
from .wire import read_field

if typing.TYPE_CHECKING:
    from .files import Json

# the longest line, and more: a value has at most 65,536 bytes, and an argument 4,096
LONGEST = 1 << 20


@dataclasses.dataclass(frozen=True)
class Change:
    """A change that the server has acknowledged. `kind` is `create`, `release`, `put`, `element`,
    `redimension` or `library`; also `gap`, if changes were missed, and `restart`, if the server was
    started again. `value` is the new value as it was sent, MISSING if there is none or it is longer
    than 65,536 bytes; `size` is the number of its bytes on the wire."""

    # its number; for `gap` and `restart` the number of the next change
    number: int
    kind: str
    object: int | None = None
    coclass: str | None = None
    interface: str | None = None
    member: str | None = None
    # the arguments, in the order of the parameters
    key: tuple[Value, ...] = ()
    indices: tuple[int, ...] = ()
    value: Value = MISSING
    size: int | None = None
    # of a redimension: the new first bound, as a lower bound and a number of elements
    bound: tuple[int, int] | None = None
    # of a gap
    missed: int = 0


class Told:
    """The request of a watch, and the lines of its reply."""

    def __init__(
        self,
        library: Library | None,
        of: Which | BaseObject | None,
        member: str | None,
        values: bool,
    ) -> None:
        self.library = library
        self.epoch = ""
        # the number of the first change that may be sent
        self.begins = 0
        self._member: Member | None = None
        words = ["watch", *["values"] * values]
        if isinstance(of, BaseObject):
            words.append(f"object={of.number}")
            of = of._coclass.guid
        elif of is not None:
            if library is None:
                raise WrongUse("a library is needed for a coclass: use the watch of a session")
            words.append(f"class={library.coclass(of).guid}")
        if member is not None:
            if library is None or of is None:
                raise WrongUse("a member is one of a coclass: name that too")
            self._member = _member_of(library, library.coclass(of), member)
            words.append(f"member={self._member.dispid}")
        self.line = " ".join(words).encode() + b"\n"

    def begin(self, line: bytes) -> None:
        """Takes the first line."""
        told = object_of(line)
        if "refused" in told or "epoch" not in told or "next" not in told:
            raise ProtocolError(str(told.get("refused", "the first line names no epoch")))
        self.epoch, self.begins = str(told["epoch"]), int(typing.cast(int, told["next"]))

    def read(self, line: bytes) -> Change | None:
        """The change of a line; None for one of another member."""
        told = object_of(line)
        try:
            return self._change(told)
        except ProtocolError:
            raise
        except (LookupError, TypeError, ValueError, AttributeError, OverflowError) as error:
            raise ProtocolError(f"no change: {told}") from error

    def _change(self, told: Json) -> Change | None:
        if "gap" in told:
            return Change(int(told["next"]), "gap", missed=int(told["gap"]))
        if "restart" in told:
            return Change(int(told["next"]), "restart")
        number, kind = int(told["seq"]), str(told["kind"])
        size = told.get("bytes")
        if kind == "library":
            return Change(number, kind, value=told.get("text", MISSING), size=size)
        of, coclass = self._coclass(told.get("class"))
        if "member" not in told:
            return Change(number, kind, told["object"], coclass)
        interface, member = self._named(of, told)
        if self._member is not None and member is not self._member:
            return None
        bound = (told["lower"], told["elements"]) if "elements" in told else None
        value = _value(told)
        if value is NULL_BSTR and member is not None and member.vt == VT_BSTR:
            value = None
        return Change(
            number,
            kind,
            told["object"],
            coclass,
            interface,
            str(told["member"]) if member is None else member.name,
            _key(told.get("key", [])),
            tuple(told.get("index", ())),
            value,
            size,
            bound,
        )

    def _coclass(self, guid: str | None) -> tuple[Coclass | None, str | None]:
        """The coclass, and its name; its GUID if the library does not have it."""
        if guid is None or self.library is None:
            return None, guid
        found = next((it for it in self.library.coclasses if it.guid == uuid.UUID(guid)), None)
        return found, guid if found is None else found.name

    def _named(self, of: Coclass | None, told: Json) -> tuple[str | None, Member | None]:
        """The interface's name, and the member."""
        guid, library = told.get("interface"), self.library
        if library is None or of is None:
            return guid, None
        own = [library.interfaces[index] for _, index in of.entries]
        found = library.interface(of) if guid is None else None
        if guid is not None:
            found = next((it for it in own if it.guid == uuid.UUID(guid)), None)
        if found is None:
            return guid, None
        members = library.members(found).values()
        return found.name, next((it for it in members if it.dispid == told["member"]), None)


def _member_of(library: Library, of: Coclass, name: str) -> Member:
    """A member of a coclass: of its default interface, or else of another one."""
    faces = [library.interface(of), *(library.interfaces[index] for _, index in of.entries)]
    for face in faces:
        found = library.members(face).get(fold(name))
        if found is not None:
            return found
    meant = close_to(name, [it.name for face in faces for it in library.members(face).values()])
    raise NoSuchMember(f"{of.name} has no member {name}{meant}")


def object_of(line: bytes) -> Json:
    """Returns the JSON object of a line."""
    try:
        found = json.loads(line)
    except (ValueError, RecursionError) as error:
        raise ProtocolError(f"no line of JSON: {line[:100]!r}") from error
    if not isinstance(found, dict):
        raise ProtocolError(f"no object of JSON: {line[:100]!r}")
    return found


def _value(told: Json) -> Value:
    """Returns a value by its type; MISSING if it was not sent."""
    if "wire" in told:
        return read_field(bytes.fromhex(told["wire"]))
    if "value" not in told:
        return MISSING
    vt, value = int(told["type"]), told["value"]
    if vt == VT_BSTR:
        return scalar_of(vt, None if value is None else text_bytes(value))
    if vt == VT_BOOL:
        return bool(value)
    return scalar_of(vt, value)


def _key(told: list[Json]) -> tuple[Value, ...]:
    """Returns the arguments by their places; MISSING for one that was left out, or is not sent."""
    by_place = [_value(it) for it in told if "name" not in it]
    named = {int(it["name"]): _value(it) for it in told if "name" in it}
    places = range(max([len(by_place), *(it + 1 for it in named)]))
    return tuple(named.get(it, by_place[it] if it < len(by_place) else MISSING) for it in places)


def watched_at(address: Address, given: Address | None) -> Address | None:
    """Returns the address of the gateway's `--watch`: the given one, or else one beside the path
    of a socket. That of `items.sock` is `items.watch.sock`. None if nothing is known."""
    if given is not None or isinstance(address, (tuple, Secure)):
        return given
    path = os.fspath(address)
    return (path[:-5] if path.endswith(".sock") else path) + ".watch.sock"


def refuse_tls(address: Address) -> Address:
    """Returns the address to connect to. The gateway sends changes without TLS only."""
    found = address_of(address)
    if isinstance(found, Secure):
        raise WrongValue(f"{address_words(found)}: who watches does so without TLS, by ssh perhaps")
    return found


class Watch:
    """Changes one after another: iterate over it, or call `next`. It has a connection of its own,
    which `close` or a `with` block ends. `epoch` is another one for each start of the gateway, and
    `begins` the number of the first change. Raises SessionEnded at the gateway's end, and
    NotInTime, a TimeoutError, if no change comes within `timeout` seconds."""

    def __init__(self, address: Address, told: Told, timeout: float | None = None) -> None:
        from .programs import dialled

        self._told = told
        self._came = bytearray()
        self._timeout = timeout
        self._sock: socket.socket | None = None
        self._sock = dialled(refuse_tls(address), timeout)
        try:
            self._sock.settimeout(timeout)
            self._sock.sendall(told.line)
            told.begin(self._line())
        except BaseException:
            self.close()
            raise

    @property
    def epoch(self) -> str:
        """A text that is another one for each start of the gateway."""
        return self._told.epoch

    @property
    def begins(self) -> int:
        """The number of the first change that may come."""
        return self._told.begins

    def __enter__(self) -> Watch:
        return self

    def __exit__(self, *_: object) -> None:
        self.close()

    def __iter__(self) -> Watch:
        return self

    def __next__(self) -> Change:
        while True:
            found = self._told.read(self._line())
            if found is not None:
                return found

    def fileno(self) -> int:
        """The descriptor, for `select`: readable if more has come than what was read."""
        if self._sock is None:
            raise WrongUse("it was closed")
        return self._sock.fileno()

    def _line(self) -> bytes:
        sock = self._sock
        if sock is None:
            raise SessionEnded("it was closed")
        while (end := self._came.find(b"\n")) < 0:
            if len(self._came) > LONGEST:
                raise ProtocolError("a line is too long")
            try:
                some = sock.recv(65_536)
            except (TimeoutError, socket.timeout):
                told = f"no change within {self._timeout:g} seconds"
                raise NotInTime(told) from None
            except OSError:
                some = b""
            if not some:
                raise SessionEnded("the gateway has ended, or nobody may watch there")
            self._came += some
        line = bytes(self._came[: end + 1])
        del self._came[: end + 1]
        return line

    def close(self) -> None:
        """Ends the connection."""
        sock, self._sock = self._sock, None
        if sock is not None:
            sock.close()

    def __del__(self) -> None:
        self.close()

    def __reduce_ex__(self, _: typing.SupportsIndex) -> typing.NoReturn:
        raise WrongType("a watch belongs to its process and cannot be pickled: begin another one")


def watch(address: Address, *, values: bool = True, timeout: float | None = None) -> Watch:
    """All changes that a gateway sends at an address, without a session: names are GUIDs and
    numbers."""
    return Watch(address, Told(None, None, None, values), timeout)
