"""Connection-oriented PDUs of DCE/RPC (C706 chapter 12, MS-RPCE section 2.2.2).

Each size that a peer sends is compared with the bytes at hand before anything is made of it."""
from __future__ import annotations

import struct
import typing

REQUEST, RESPONSE, FAULT = 0, 2, 3
BIND, BIND_ACK, BIND_NAK, ALTER, ALTER_ACK, AUTH3 = 11, 12, 13, 14, 15, 16
CO_CANCEL, ORPHANED = 18, 19
FIRST, LAST, HEADER_SIGN, CONCURRENT, OBJECT = 1, 2, 4, 0x10, 0x80
_NOT_EXECUTED = 0x20

HEADER = struct.Struct("<BBBBIHHI")
TRAILER = struct.Struct("<BBBBI")
_REQUEST = struct.Struct("<IHH")
_BIND = struct.Struct("<HHIBxH")
_RESPONSE = struct.Struct("<BBBBIHHIIHH")
_LITTLE = 0x10
# the limit that the server sends and receives; C706 chapter 12 requires each side to receive 1,432
# (MustRecvFragSize)
FRAGMENT = 5840
LEAST_FRAGMENT = 1432
CONTEXTS = 16  # of one bind

NDR = bytes.fromhex("045d888aeb1cc9119fe808002b10486002000000")
# the first half of the bind time feature negotiation (MS-RPCE section 3.3.1.5.3)
FEATURES = bytes.fromhex("2c1cb76c12984045")
_MULTIPLEXING, _KEEP_ON_ORPHAN = 1, 2

# reasons of a bind_nak
LOCAL_LIMIT, NO_AUTH_TYPE, BAD_CHECKSUM = 3, 8, 9


class Broken(Exception):
    """The peer's bytes are no PDU that is allowed here: the connection ends."""


class Auth(typing.NamedTuple):
    """The sec_trailer of a PDU and the token after it."""

    kind: int
    level: int
    pad: int
    context: int
    token: bytes


class Pdu(typing.NamedTuple):
    """One fragment. `body` is between the common header and the trailer, with its padding."""

    kind: int
    flags: int
    call: int
    body: bytes
    auth: typing.Optional[Auth]
    raw: bytes


def length_of(data: typing.Union[bytes, bytearray], at: int) -> int:
    """The length of the fragment that begins with the 16 bytes at a place."""
    major, minor, _, _, form, length, auth, _ = HEADER.unpack_from(data, at)
    if major != 5 or minor > 1 or form & 0xF0 != _LITTLE:
        raise Broken("it is not version 5 of RPC with little-endian numbers")
    if not HEADER.size <= length <= FRAGMENT or auth and auth + TRAILER.size > length - HEADER.size:
        raise Broken("a length is impossible")
    return int(length)


def read(raw: bytes) -> Pdu:
    """A whole fragment, whose length `length_of` has checked."""
    _, _, kind, flags, _, length, auth_length, call = HEADER.unpack_from(raw)
    auth, end = None, length
    if auth_length:
        end = length - auth_length - TRAILER.size
        auth_kind, level, pad, _, context = TRAILER.unpack_from(raw, end)
        if pad > end - HEADER.size:
            raise Broken("the padding is longer than the body")
        auth = Auth(auth_kind, level, pad, context, raw[end + TRAILER.size :])
    return Pdu(kind, flags, call, raw[HEADER.size : end], auth, raw)


class Asked(typing.NamedTuple):
    """A presentation context that a client asks for. `interface` is a GUID and a version."""

    number: int
    interface: bytes
    forms: typing.List[bytes]


class Bind(typing.NamedTuple):
    """The body of a bind. `most` is the longest fragment that the client receives."""

    most: int
    group: int
    contexts: typing.List[Asked]


def read_bind(pdu: Pdu) -> Bind:
    """The body of a bind or an alter_context."""
    try:
        _, most, group, count, _ = _BIND.unpack_from(pdu.body)
        at, contexts = _BIND.size, []
        if count > CONTEXTS:
            raise Broken("a bind has too many contexts")
        for _ in range(count):
            number, forms = struct.unpack_from("<HBx", pdu.body, at)
            interface = pdu.body[at + 4 : at + 24]
            at += 24
            if len(pdu.body) < at + 20 * forms:
                raise Broken("a bind is cut")
            found = [pdu.body[at + 20 * i :][:20] for i in range(forms)]
            contexts.append(Asked(number, interface, found))
            at += 20 * forms
    except struct.error as error:
        raise Broken("a bind is cut") from error
    return Bind(min(most, FRAGMENT), group, contexts)


def _whole(
    kind: int, flags: int, call: int, body: bytes, auth: typing.Optional[Auth] = None
) -> bytes:
    """A PDU without protection."""
    tail = b""
    if auth is not None:
        body += bytes(-len(body) % 4)
        tail = TRAILER.pack(auth.kind, auth.level, 0, 0, auth.context) + auth.token
    length = HEADER.size + len(body) + len(tail)
    token = len(auth.token) if auth else 0
    return HEADER.pack(5, 0, kind, flags | 3, _LITTLE, length, token, call) + body + tail


def bind_ack(
    kind: int,
    pdu: Pdu,
    most: int,
    group: int,
    port: int,
    results: typing.List[bytes],
    auth: typing.Optional[Auth],
) -> bytes:
    """A bind_ack or an alter_context_resp. `results` are of `accepted`, `refused`, `features`."""
    where = b"" if kind == ALTER_ACK else b"%d\0" % port
    body = struct.pack("<HHIH", FRAGMENT, most, group, len(where)) + where
    body += bytes(-len(body) % 4) + struct.pack("<B3x", len(results)) + b"".join(results)
    return _whole(kind, pdu.flags & (HEADER_SIGN | CONCURRENT), pdu.call, body, auth)


def accepted() -> bytes:
    """The result of a context that is accepted, in NDR."""
    return struct.pack("<HH", 0, 0) + NDR


def refused(reason: int) -> bytes:
    """The result of one that is refused: 1 for its interface, 2 for its form, 3 for a limit."""
    return struct.pack("<HH20x", 2, reason)


def features(asked: int) -> bytes:
    """The result of a bind time feature negotiation."""
    return struct.pack("<HH20x", 3, asked & (_MULTIPLEXING | _KEEP_ON_ORPHAN))


def bind_nak(pdu: Pdu, reason: int) -> bytes:
    """Refuses a bind as a whole."""
    return _whole(BIND_NAK, 0, pdu.call, struct.pack("<HBBBx", reason, 1, 5, 0))


def fault(call: int, context: int, status: int, executed: bool = False) -> bytes:
    """A fault. It has no protection: clients read its status without looking for a trailer."""
    body = struct.pack("<IHBxII", 32, context, 0, status, 0)
    return _whole(FAULT, 0 if executed else _NOT_EXECUTED, call, body)


class Request(typing.NamedTuple):
    """The head of a request's fragment. `place` is the stub's offset in the PDU."""

    context: int
    opnum: int
    object: bytes
    place: int


def read_request(pdu: Pdu) -> Request:
    """The head of a request."""
    body = pdu.body
    if len(body) < 8:
        raise Broken("a request is cut")
    _, context, opnum = _REQUEST.unpack_from(body)
    if not pdu.flags & OBJECT:
        return Request(context, opnum, b"", HEADER.size + 8)
    if len(body) < 24:
        raise Broken("a request is cut")
    return Request(context, opnum, body[8:24], HEADER.size + 24)


def response_head(flags: int, call: int, context: int, left: int, length: int, auth: int) -> bytes:
    """The head of a response's fragment, 24 bytes."""
    return _RESPONSE.pack(5, 0, RESPONSE, flags, _LITTLE, length, auth, call, left, context, 0)
