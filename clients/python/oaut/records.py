"""Records (docs/reference/records.md): a request is its bytes after the tag, as a session picks the
tags; a reply is read in parts."""
from __future__ import annotations

import struct
import typing
import uuid

from .faults import ProtocolError
from .values import NULL_BSTR, Value
from .wire import padded, read_field, variant_field

BODY_LIMIT = 4_194_304
NO_INDEX = 0xFFFF_FFFF
(
    CREATE,
    RELEASE,
    GETIDS,
    INVOKE,
    GETELEM,
    PUTELEM,
    REDIM,
    LOCK,
    UNLOCK,
    TYPEINFO,
    LIST,
    REPLACE,
) = range(1, 13)
_WORDS = (
    "CREATE RELEASE GETIDS INVOKE GETELEM PUTELEM REDIM LOCK UNLOCK TYPEINFO LIST REPLACE".split()
)
OPCODES: dict[int, str] = dict(enumerate(_WORDS, 1))
METHOD, PROPERTYGET, PROPERTYPUT, PROPERTYPUTREF = 1, 2, 4, 8
NEW_VALUE = -3
# an interface of zeros means the coclass's default one
DEFAULT = bytes(16)
TWO = struct.Struct("<II")
CALL = struct.Struct("<HHIi16s16xIHHII")
REPLY_HEAD = struct.Struct("<IIII")
# a reply with S_OK and no fields, after its tag
DONE = REPLY_HEAD.pack(0, 0, NO_INDEX, 0)[4:]


def string_field(text: str) -> bytes:
    """A string of a record: the count of UTF-16 units, a reserved number, the units, padding."""
    units = text.encode("utf-16-le", "surrogatepass")
    return TWO.pack(len(units) // 2, 0) + padded(units)


def indices_field(indices: typing.Sequence[int]) -> bytes:
    """The indices of an element: their count, a reserved number, the indices, padding."""
    return padded(struct.pack(f"<II{len(indices)}i", len(indices), 0, *indices))


def ask_create(coclass: uuid.UUID) -> bytes:
    """A new object of the coclass with this GUID."""
    return struct.pack("<HH", CREATE, 0) + coclass.bytes_le


def ask_release(number: int) -> bytes:
    """Gives an object up."""
    return struct.pack("<HHII", RELEASE, 0, number, 0)


def ask_ids(
    number: int, names: typing.Sequence[str], interface: bytes = DEFAULT, locale: int = 0
) -> bytes:
    """The DISPIDs of a member's name and of names of its parameters. `interface` is a GUID as it is
    on the wire."""
    head = struct.pack("<HHII16s16xII", GETIDS, 0, number, 0, interface, locale, len(names))
    return head + b"".join(string_field(name) for name in names)


def ask_call(
    opcode: int,
    number: int,
    dispid: int,
    flags: int,
    named: typing.Sequence[int],
    fields: typing.Sequence[bytes],
    interface: bytes = DEFAULT,
    locale: int = 0,
) -> bytes:
    """The beginning of an INVOKE, and of each request on an array: the head and the arguments in
    the order of rgvarg. `named` are the DISPIDs of the first of them, `fields` the bytes of each
    value."""
    variants = [variant_field(it) for it in fields]
    head = CALL.pack(
        opcode, 0, number, dispid, interface, locale, flags, 0, len(fields), len(named)
    )
    return head + padded(struct.pack(f"<{len(named)}i", *named)) + b"".join(variants)


def ask_invoke(
    number: int,
    dispid: int,
    flags: int,
    named: typing.Sequence[int],
    fields: typing.Sequence[bytes],
    interface: bytes = DEFAULT,
    locale: int = 0,
) -> bytes:
    """An INVOKE: `flags` are METHOD, PROPERTYGET or PROPERTYPUT."""
    return ask_call(INVOKE, number, dispid, flags, named, fields, interface, locale)


def ask_type_info(index: int) -> bytes:
    """The description of an interface or coclass."""
    return struct.pack("<HHII", TYPEINFO, 0, index, 0)


def ask_list() -> bytes:
    """The live objects."""
    return struct.pack("<HH", LIST, 0)


def ask_replace(text: bytes) -> bytes:
    """Another library in the place of the server's, of this text."""
    # the pad counts from the body's start, and there are 16 bytes before the text
    return struct.pack("<HHII", REPLACE, 0, len(text), 0) + padded(text)


class Reply(typing.NamedTuple):
    """A reply: `index` is None if no argument is named."""

    tag: int
    code: int
    index: int | None  # type: ignore[assignment]
    fields: bytes


def read_reply(body: bytes) -> Reply:
    """The reply of a body. Raises ProtocolError if it is none."""
    if len(body) < 16:
        raise ProtocolError(f"a reply has at least 16 bytes, this has {len(body)}")
    tag, code, index, _ = REPLY_HEAD.unpack_from(body)
    return Reply(tag, code, None if index == NO_INDEX else index, body[16:])


class Fields:
    """A cursor over a record's fields, whose parts are at multiples of 4 or 8."""

    __slots__ = ("data", "place")

    def __init__(self, data: bytes, place: int = 0) -> None:
        self.data = data
        self.place = place

    def take(self, form: str) -> tuple[typing.Any, ...]:  # (numbers and bytes, as struct's own)
        """The next numbers, in the words of struct."""
        try:
            found = struct.unpack_from("<" + form, self.data, self.place)
        except struct.error as error:
            raise ProtocolError("a record ends too early") from error
        self.place += struct.calcsize("<" + form)
        return found

    def pad(self) -> None:
        """Moves to the next multiple of 8."""
        self.take(f"{-self.place % 8}x")

    def padded_bytes(self, count: int) -> bytes:
        """So many bytes, and their padding."""
        (found,) = self.take(f"{count}s")
        self.pad()
        return typing.cast(bytes, found)

    def guid(self) -> uuid.UUID:
        """A GUID."""
        return uuid.UUID(bytes_le=self.take("16s")[0])

    def string(self) -> str:
        """A string."""
        count, _ = self.take("II")
        return str(self.padded_bytes(2 * count), "utf-16-le", "surrogatepass")

    def variant(self) -> bytes:
        """A variant field."""
        count, _ = self.take("II")
        return self.padded_bytes(count)

    def integers(self) -> list[int]:
        """A count and so many signed numbers, with padding."""
        count, _ = self.take("II")
        found = self.take(f"{count}i")
        self.pad()
        return list(found)

    def end(self) -> None:
        """Raises ProtocolError if something is left over."""
        if self.place != len(self.data):
            raise ProtocolError(f"{len(self.data) - self.place} bytes of a record are left over")


def read_nothing(fields: bytes) -> None:
    """The fields of a reply that has none."""
    if fields:
        raise ProtocolError("a reply has fields that it must not have")


def read_number(fields: bytes) -> int:
    """An object's number, or the count of locks."""
    at = Fields(fields)
    number, _ = at.take("II")
    at.end()
    return int(number)


def read_value(fields: bytes) -> Value:
    """The value of a reply to a get."""
    count, _ = TWO.unpack_from(fields) if len(fields) >= 8 else (-1, 0)
    if count < 0 or len(fields) != 8 + count + -count % 8:
        raise ProtocolError("a variant field does not fill its reply")
    return read_field(fields[8 : 8 + count])


def read_text_value(fields: bytes) -> Value:
    """The value of a reply to a get if a BSTR is declared: None is the null BSTR."""
    value = read_value(fields)
    return None if value is NULL_BSTR else value


def read_ids(fields: bytes) -> list[int]:
    """The DISPIDs of names."""
    at = Fields(fields)
    found = at.integers()
    at.end()
    return found


def read_objects(fields: bytes) -> list[tuple[int, uuid.UUID]]:
    """Pairs of an object's number and its coclass."""
    at = Fields(fields)
    count, _ = at.take("II")
    found = [(int(at.take("II")[0]), at.guid()) for _ in range(count)]
    at.end()
    return found


def read_lost(fields: bytes) -> tuple[uuid.UUID, int | None]:
    """The first incompatibility of a new library: the GUID of an interface or coclass, and a
    member's DISPID or None for the whole of it."""
    at = Fields(fields)
    guid = at.guid()
    dispid, _ = at.take("iI")
    at.end()
    return guid, None if dispid == -1 else int(dispid)
