"""DCOM's additions to RPC (MS-DCOM section 2.2): ORPCTHIS and ORPCTHAT, OBJREFs, string bindings,
and the properties of activation."""
from __future__ import annotations

import struct
import typing

from .codes import (
    CLSID_INSTANTIATION,
    CLSID_PROPERTIES_IN,
    CLSID_PROPERTIES_OUT,
    CLSID_SCM_REPLY,
    CLSID_SCM_REQUEST,
    E_INVALIDARG,
    IID_PROPERTIES_OUT,
    RPC_E_INVALID_OBJREF,
    RPC_E_VERSION_MISMATCH,
    Refused,
)
from .ndr import Bad, Reader, Writer, serialized, unserialized

VERSION = (5, 7)
THAT = bytes(8)  # an ORPCTHAT without extensions
SET = 0x0002_0000
# SORF_NOPING (0x1000) would be true, since no object waits for a ping. But impacket's disconnect
# fails with it, so the server replies to pings.
_NOPING = 0
_STANDARD, _CUSTOM = 1, 4
TCP = 7
OBJREF_LIMIT = 0x4000
_THIS = struct.Struct("<HHII16sI")


def read_this(at: Reader) -> None:
    """Moves past an ORPCTHIS. Its causality and extensions have no effect here."""
    if at.end - at.at < _THIS.size:
        raise Bad
    major, minor, _, _, _, extensions = _THIS.unpack_from(at.data, at.at)
    at.at += _THIS.size
    if major != VERSION[0] or minor > VERSION[1]:
        raise Refused(RPC_E_VERSION_MISMATCH)
    if not extensions:
        return
    _, _, extents = at.u32(), at.u32(), at.u32()
    if not extents:
        return
    there = [at.u32() for _ in range(at.count(4, 16))]
    for _ in [it for it in there if it]:
        room = at.count(1, OBJREF_LIMIT)
        at.guid()
        size = at.u32()
        if room < size or room > -(-size // 8) * 8:
            raise Bad
        at.skip(room)


class Standard(typing.NamedTuple):
    """A reference to an object of an exporter (STDOBJREF)."""

    oxid: int
    oid: int
    ipid: bytes


def put_standard(out: Writer, ref: typing.Optional[Standard], count: int = 5) -> None:
    """Adds a STDOBJREF, zeros for None."""
    if ref is None:
        out.align(8).raw(bytes(40))
    else:
        out.align(8).u32(_NOPING, count).u64(ref.oxid, ref.oid).guid(ref.ipid)


def objref(iid: bytes, ref: Standard, resolver: bytes) -> bytes:
    """An OBJREF_STANDARD. `resolver` is a DUALSTRINGARRAY."""
    out = Writer().raw(b"MEOW").u32(_STANDARD).guid(iid)
    put_standard(out, ref)
    return out.raw(resolver).done()


def read_objref(data: bytes) -> Standard:
    """The object of an OBJREF that a client passes back."""
    at = Reader(data)
    if at.take(4) != b"MEOW" or at.u32() != _STANDARD:
        raise Refused(RPC_E_INVALID_OBJREF)
    at.skip(16 + 8)
    return Standard(at.u64(), at.u64(), at.guid())


def custom(iid: bytes, clsid: bytes, data: bytes) -> bytes:
    """An OBJREF_CUSTOM."""
    return b"MEOW" + struct.pack("<I16s16sII", _CUSTOM, iid, clsid, 0, len(data) + 8) + data


def bindings(
    hosts: typing.Iterable[str], port: typing.Optional[int], kinds: typing.Iterable[int]
) -> bytes:
    """A DUALSTRINGARRAY: the hosts by TCP, at a port unless it is the well-known one, and the
    authentication services."""
    tail = "" if port is None else f"[{port}]"
    texts = [(host + tail + "\0").encode("utf-16-le") for host in hosts]
    strings = b"".join(struct.pack("<H", TCP) + it for it in texts) + bytes(2)
    securities = b"".join(struct.pack("<HHH", kind, 0xFFFF, 0) for kind in kinds) + bytes(2)
    units = (len(strings) + len(securities)) // 2
    return struct.pack("<HH", units, len(strings) // 2) + strings + securities


def put_bindings(out: Writer, array: bytes) -> Writer:
    """Adds the pointee of a pointer to a DUALSTRINGARRAY."""
    return out.u32(len(array) // 2 - 2).raw(array)


class Activation(typing.NamedTuple):
    """The contents of an activation request."""

    clsid: bytes
    iids: typing.List[bytes]
    protocols: typing.List[int]


def read_activation(data: bytes) -> Activation:
    """The properties of RemoteCreateInstance and RemoteGetClassObject (MS-DCOM section 2.2.22)."""
    found = _properties(data)
    if CLSID_INSTANTIATION not in found:
        raise Refused(E_INVALIDARG)
    at = unserialized(found[CLSID_INSTANTIATION])
    clsid = at.guid()
    at.skip(12)
    count, _, pointer, _, _ = (at.u32() for _ in range(5))
    if not count or not pointer or at.count(16, 0x100) != count:
        raise Refused(E_INVALIDARG)
    iids = [at.guid() for _ in range(count)]
    return Activation(clsid, iids, _protocols(found.get(CLSID_SCM_REQUEST)))


def _properties(data: bytes) -> typing.Dict[bytes, bytes]:
    """The parts of an activation's OBJREF_CUSTOM by their classes."""
    at = Reader(data)
    if at.take(4) != b"MEOW" or at.u32() != _CUSTOM or at.take(32)[16:] != CLSID_PROPERTIES_IN:
        raise Refused(RPC_E_INVALID_OBJREF)
    at.skip(8)
    blob = data[at.at :]
    head = unserialized(blob[8:])
    _, size, _, _, count = (head.u32() for _ in range(5))
    head.guid()
    pointers = head.u32(), head.u32(), head.u32()
    if not 1 <= count <= 10 or not pointers[0] or not pointers[1]:
        raise Refused(E_INVALIDARG)
    if head.count(16, 10) != count:
        raise Bad
    classes = [head.guid() for _ in range(count)]
    if head.count(4, 10) != count:
        raise Bad
    place, found = 8 + size, {}
    for clsid, size in zip(classes, [head.u32() for _ in range(count)]):
        if size > len(blob) - place:
            raise Bad
        found[clsid] = blob[place : place + size]
        place += size
    return found


def _protocols(data: typing.Optional[bytes]) -> typing.List[int]:
    """The protocol sequences of ScmRequestInfoData."""
    if data is None:
        return [TCP]
    at = unserialized(data)
    at.u32()
    if not at.u32():
        return [TCP]
    at.u32()
    count, pointer = at.u16(), at.u32()
    if not pointer or at.count(2, 0x100) != count:
        raise Bad
    return [at.u16() for _ in range(count)]


# an IID, its HRESULT and its OBJREF
Made = typing.List[typing.Tuple[bytes, int, typing.Optional[bytes]]]


def activated(made: Made, oxid: int, array: bytes, unknown: bytes, level: int) -> bytes:
    """The properties of an activation's reply: PropsOutInfo, then ScmReplyInfoData."""
    props = Writer().u32(len(made), SET, SET, SET)
    props.u32(len(made)).raw(b"".join(iid for iid, _, _ in made))
    props.u32(len(made), *[code for _, code, _ in made])
    props.u32(len(made), *[0 if ref is None else SET for _, _, ref in made])
    for _, _, ref in made:
        if ref is not None:
            props.interface(ref)
    reply = Writer().u32(0, SET).u64(oxid).u32(SET).guid(unknown).u32(level).u16(*VERSION)
    put_bindings(reply, array)
    parts = [serialized(props), serialized(reply)]
    classes = [CLSID_PROPERTIES_OUT, CLSID_SCM_REPLY]

    def head(size: int, total: int) -> bytes:
        out = Writer().u32(total, size, 0, 2, len(parts)).guid(bytes(16)).u32(SET, SET, 0)
        out.u32(len(parts)).raw(b"".join(classes)).u32(len(parts), *map(len, parts))
        return serialized(out)

    size = len(head(0, 0))
    total = size + sum(map(len, parts))
    blob = struct.pack("<II", total, 0) + head(size, total) + b"".join(parts)
    return custom(IID_PROPERTIES_OUT, CLSID_PROPERTIES_OUT, blob)
