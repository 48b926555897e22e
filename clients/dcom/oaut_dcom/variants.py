"""wireVARIANTs in a stub (MS-OAUT section 2.2.29): if each ends, and those by reference.

A field of the server's record has the same bytes: both begin at a multiple of 8, so what is aligned
in one is aligned in the other. A field is copied and not interpreted. The walk moves past types
that the server does not have, so that the server refuses them with its own code and index."""
from __future__ import annotations

import struct
import typing

from .ndr import Bad, Reader, Writer

ARRAY, BYREF = 0x2000, 0x4000
VT_EMPTY, VT_NULL, VT_I2, VT_I4, VT_R4, VT_R8, VT_CY, VT_DATE = 0, 1, 2, 3, 4, 5, 6, 7
VT_BSTR, VT_DISPATCH, VT_ERROR, VT_BOOL, VT_VARIANT, VT_UNKNOWN = 8, 9, 10, 11, 12, 13
VT_DECIMAL, VT_I1, VT_UI1, VT_UI2, VT_UI4, VT_I8, VT_UI8 = 14, 16, 17, 18, 19, 20, 21
VT_INT, VT_UINT = 22, 23
WIDTHS = {
    **{2: 2, 3: 4, 4: 4, 5: 8, 6: 8, 7: 8, 10: 4, 11: 2},
    **{16: 1, 17: 1, 18: 2, 19: 4, 20: 8, 21: 8, 22: 4, 23: 4},
}
HEAD = struct.Struct("<IIHHHHI")
SET = 0x0002_0000
OBJREFS = 0x4000
CELLS = 65_536  # of an array of texts, VARIANTs or objects: the server's limit
# the width of an array's cells by its sfType, for cells that are numbers
_SF = {0x10: 1, 2: 2, 3: 4, 10: 4, 0x14: 8}
_SF_HAVEIID = 0x8000 | VT_UNKNOWN
_DEPTH = 4
_VT = struct.Struct("<H").unpack_from
_DISCRIMINANT = struct.Struct("<I").unpack_from
# how many bytes a number's wireVARIANT has
_LENGTHS = {vt: 20 + -20 % width + width for vt, width in WIDTHS.items()}

# Wine's proxy, and by the look of it Windows', writes this for a null BSTR, after a null referent
NULL_BLOB = struct.pack("<III", 0, 0xFFFF_FFFF, 0)
EMPTY = HEAD.pack(3, 0, VT_EMPTY, 0, 0, 0, VT_EMPTY)


def type_of(field: bytes) -> int:
    """The vt of a field."""
    return int(_VT(field, 8)[0])


def _blob(at: Reader) -> None:
    """Moves past a text's pointee."""
    room = at.u32()
    at.u32()
    if at.u32() != room:
        raise Bad
    at.skip(2 * room)


def _null_blob(at: Reader) -> None:
    """Moves past NULL_BLOB if it is there. Nothing else that may follow begins so."""
    start = at.at
    if at.data[start : start + 12] == NULL_BLOB and start + 12 <= at.end:
        at.at = start + 12


def _referents(at: Reader, count: int) -> typing.Tuple[int, ...]:
    """The next numbers of 32 bits."""
    at.align(4)
    start = at.at
    at.skip(4 * count)
    return struct.unpack_from(f"<{count}I", at.data, start)


def _array(at: Reader, depth: int) -> None:
    """Moves past a wireSAFEARRAY's pointee."""
    bounds = at.u32()
    if at.u16() != bounds:
        raise Bad
    at.skip(2 + 8)
    form, size, there = at.u32(), at.u32(), at.u32()
    if form == _SF_HAVEIID:
        at.guid()
    if not 1 <= bounds <= 0x8000:
        raise Bad
    at.skip(8 * bounds)
    if not there:
        if size:
            raise Bad
        return
    if at.u32() != size:
        raise Bad
    if form in _SF:
        if size:
            at.align(_SF[form])
        at.skip(_SF[form] * size)
        return
    known = (VT_BSTR, VT_VARIANT, VT_DISPATCH, VT_UNKNOWN, _SF_HAVEIID)
    if form not in known or size > CELLS or 4 * size > at.end - at.at:
        raise Bad
    referents = _referents(at, size)
    for _ in filter(None, referents):
        if form == VT_BSTR:
            _blob(at)
        elif form == VT_VARIANT:
            walk(at, depth + 1)
        else:
            at.interface(OBJREFS)


def walk(at: Reader, depth: int = 0) -> None:
    """Moves past a wireVARIANT, whose first byte is at the next multiple of 8."""
    start = at.at + 7 & ~7
    at.at = start
    at.skip(20)
    (kind,) = _DISCRIMINANT(at.data, start + 16)
    if kind in _LENGTHS:
        at.at = start
        return at.skip(_LENGTHS[kind])
    if depth > _DEPTH:
        raise Bad
    if kind & BYREF:
        if not at.u32():
            return None
        kind -= BYREF
        if kind == VT_VARIANT:
            return walk(at, depth + 1) if at.u32() else None
    if kind in WIDTHS:
        at.align(WIDTHS[kind])
        at.skip(WIDTHS[kind])
    elif kind == VT_DECIMAL:
        at.align(8)
        at.skip(16)
    elif kind == VT_BSTR:
        if at.u32():
            _blob(at)
        else:
            _null_blob(at)
    elif kind & ARRAY:
        if at.u32() and at.u32():
            _array(at, depth)
    elif kind in (VT_DISPATCH, VT_UNKNOWN):
        if at.u32():
            at.interface(OBJREFS)
    elif kind not in (VT_EMPTY, VT_NULL):
        raise Bad
    return None


def fields(at: Reader, most: int) -> typing.List[typing.Optional[bytes]]:
    """A conformant array of pointers to wireVARIANTs: the bytes of each, None for a null."""
    count = at.count(4, most)
    if not count:
        return []
    referents = [at.u32() for _ in range(count)]
    found: typing.List[typing.Optional[bytes]] = []
    for there in referents:
        if not there:
            found.append(None)
            continue
        start = at.at + 7 & ~7
        walk(at)
        found.append(at.data[start : at.at])
    return found


def put_fields(out: Writer, values: typing.Sequence[typing.Optional[bytes]]) -> None:
    """Adds such an array."""
    out.u32(len(values), *[0 if it is None else SET for it in values])
    for it in filter(None, values):
        out.align(8).raw(it)


def for_clients(field: bytes) -> bytes:
    """A field of the server's in a form that all clients read.

    A null BSTR gets a referent and NULL_BLOB: Wine's proxy reads past its buffer otherwise. A
    DECIMAL is also written to the reserved words, which it overlays in memory, for Wine."""
    if len(field) == 24 and type_of(field) == VT_BSTR and field[20:] == bytes(4):
        return field[:20] + struct.pack("<I", SET) + NULL_BLOB
    if len(field) == 40 and type_of(field) == VT_DECIMAL:
        return field[:10] + field[26:32] + field[16:]
    return field


def _scalar(vt: int, arm: bytes, width: int) -> bytes:
    out = HEAD.pack(0, 0, vt, 0, 0, 0, vt)
    return out + bytes(-len(out) % width) + arm


def _without_null_blob(field: bytes) -> bytes:
    """A scalar as the server takes it: it has no pointee after a null referent."""
    return field[:24] if type_of(field) == VT_BSTR and field[20:24] == bytes(4) else field


def by_value(field: bytes) -> bytes:
    """The value of an argument by reference, as scripts pass variables."""
    vt = type_of(field)
    if not vt & BYREF:
        if vt == ARRAY | VT_VARIANT and NULL_BLOB in field:
            return _moved_array(vt, Reader(field, 20))
        return _without_null_blob(field)
    at = Reader(field, 16)
    if at.u32() not in (vt, BYREF | ARRAY) or not at.u32():
        raise Bad
    vt -= BYREF
    if vt == VT_VARIANT:
        if not at.u32():
            return EMPTY
        at.align(8)
        return by_value(field[at.at :])
    if vt in WIDTHS:
        at.align(WIDTHS[vt])
        return _scalar(vt, at.take(WIDTHS[vt]), WIDTHS[vt])
    if vt == VT_DECIMAL:
        at.align(8)
        return _scalar(vt, at.take(16), 8)
    if vt == VT_BSTR:
        there = at.u32()
        return _scalar(vt, struct.pack("<I", there) + (field[at.at :] if there else b""), 4)
    if vt in (VT_DISPATCH, VT_UNKNOWN):
        there = at.u32()
        return _scalar(vt, struct.pack("<I", there) + (field[at.at :] if there else b""), 4)
    if vt & ARRAY:
        return _moved_array(vt, at)
    raise Bad


def _moved_array(vt: int, at: Reader) -> bytes:
    """An array that begins 4 bytes earlier than it did, or whose cells had pointees after null
    referents, so that its cells are aligned anew."""
    if not at.u32() or not at.u32():
        raise Bad
    start = at.at
    bounds = at.u32()
    at.skip(12)
    form, size, _ = at.u32(), at.u32(), at.u32()
    at.skip(8 * bounds)
    out = Writer().raw(HEAD.pack(0, 0, vt, 0, 0, 0, ARRAY)).u32(SET, SET)
    out.raw(at.data[start : at.at]).u32(at.u32())
    if form in _SF:
        if size:
            at.align(_SF[form])
            out.align(_SF[form])
        return out.raw(at.take(_SF[form] * size)).done()
    if size > CELLS:
        raise Bad
    referents = _referents(at, size)
    out.u32(*referents)
    for _ in filter(None, referents):
        if form == VT_VARIANT:
            at.align(8)
            start = at.at
            walk(at, 1)
            out.align(8).raw(_without_null_blob(at.data[start : at.at]))
        elif form == VT_BSTR:
            at.align(4)
            start = at.at
            _blob(at)
            out.align(4).raw(at.data[start : at.at])
        else:
            raise Bad
    return out.done()


def dispatch(objref: typing.Optional[bytes]) -> bytes:
    """The VT_DISPATCH of an object."""
    head = HEAD.pack(0, 0, VT_DISPATCH, 0, 0, 0, VT_DISPATCH)
    return Writer().raw(head).optional_interface(objref).done()


def unknown(objref: bytes) -> bytes:
    """The VT_UNKNOWN of an object."""
    head = HEAD.pack(0, 0, VT_UNKNOWN, 0, 0, 0, VT_UNKNOWN)
    return Writer().raw(head).optional_interface(objref).done()


def objref_of(field: bytes) -> typing.Optional[bytes]:
    """The OBJREF of a VT_DISPATCH or VT_UNKNOWN."""
    at = Reader(field, 16)
    if at.u32() not in (VT_DISPATCH, VT_UNKNOWN) or not at.u32():
        return None
    return at.interface(OBJREFS)
