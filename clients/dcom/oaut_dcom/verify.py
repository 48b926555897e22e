"""The verification trailer after a request's stub (MS-RPCE section 2.2.2.13): a client repeats in
it, sealed, the fields that the heads of PDUs contain unprotected."""
from __future__ import annotations

import struct
import typing

from .codes import FAULT_ACCESS_DENIED, Refused
from .pdu import NDR, REQUEST

MAGIC = bytes.fromhex("8ae3137102f43671")
# the most bytes that a trailer has: the magic, its three commands, one unknown
LONGEST = 256
_BITMASK, _CONTEXT, _HEADER = 1, 2, 3
_END, _MUST, _COMMAND = 0x4000, 0x8000, 0x3FFF
_HEADER_SIGNING = 1


class Facts(typing.NamedTuple):
    """The facts of a request that the server checks. `interface` is a GUID and a version."""

    interface: bytes
    headers: bool
    form: bytes
    call: int
    context: int
    opnum: int


def check(facts: Facts, data: bytes) -> None:
    """Compares a trailer, if the data begins with one. Raises Refused for one that differs."""
    if not data.startswith(MAGIC):
        return
    at = len(MAGIC)
    while True:
        if at + 4 > len(data):
            raise Refused(FAULT_ACCESS_DENIED)
        command, size = struct.unpack_from("<HH", data, at)
        body = data[at + 4 : at + 4 + size]
        if len(body) != size or not _agrees(facts, command, body):
            raise Refused(FAULT_ACCESS_DENIED)
        if command & _END:
            return
        at += 4 + size + -size % 4


def _agrees(facts: Facts, command: int, body: bytes) -> bool:
    kind = command & _COMMAND
    if kind == _BITMASK and len(body) == 4:
        return facts.headers or not body[0] & _HEADER_SIGNING
    if kind == _CONTEXT and len(body) == 40:
        return body == facts.interface + NDR
    if kind == _HEADER and len(body) == 16:
        head = struct.pack(
            "<BBH4sIHH", REQUEST, 0, 0, facts.form, facts.call, facts.context, facts.opnum
        )
        return body[:1] + body[4:] == head[:1] + head[4:]
    return not command & _MUST
