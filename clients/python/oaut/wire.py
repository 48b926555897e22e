"""The wire forms of values (docs/reference/wire.md): `spell` gives the bytes of a value's field,
`read_field` the value of a field's bytes."""
from __future__ import annotations

import functools
import math
import struct
import typing

from .faults import ProtocolError
from .values import (
    ARRAY,
    CELL_LIMIT,
    CELLS,
    INTEGERS,
    NUMBERS,
    SCALARS,
    TEXT_LIMIT,
    VT_BSTR,
    VT_DECIMAL,
    VT_VARIANT,
    Array,
    Bounds,
    Content,
    Fetched,
    Field,
    Integer,
    Value,
    array_of,
    scalar_of,
    text_bytes,
    typed,
)

NULL_LENGTH = 0xFFFF_FFFF
_REFERENT = 0x0002_0000
REFERENT = struct.pack("<I", _REFERENT)
_HEAD = struct.Struct("<IIHHHHI")
_COUNTS = struct.Struct("<III")
_FIELD_HEAD = struct.Struct("<II")
# a text's variant field up to its units
_TEXT_HEAD = struct.Struct("<IIIIHHHHIIIII")
_SHORT = 32
_Text = typing.Optional[bytes]


def _add_blob(out: bytearray, text: bytes) -> None:
    """Adds the pointee of a text: counts of units and bytes, then the units."""
    units = (len(text) + 1) // 2
    out += _COUNTS.pack(units, len(text), units)
    out += text
    out += bytes(len(text) % 2)


def _add_scalar(out: bytearray, vt: int, raw: Content = None) -> None:
    """Adds a wireVARIANT without VT_ARRAY: its head, its arm and its pointee."""
    out += bytes(-len(out) % 8)
    start = len(out)
    out += _HEAD.pack(0, 0, vt, 0, 0, 0, vt)
    if vt == VT_BSTR:
        if raw is None:
            out += bytes(4)
        else:
            out += REFERENT
            _add_blob(out, raw)
    elif vt == VT_DECIMAL:
        scale, sign, magnitude = raw
        out += bytes(-len(out) % 8)
        out += struct.pack(
            "<HBBIQ", 0, scale, sign, magnitude >> 64, magnitude & 0xFFFF_FFFF_FFFF_FFFF
        )
    elif vt in NUMBERS:
        packed = struct.pack("<" + NUMBERS[vt], raw)
        out += bytes(-len(out) % len(packed))
        out += packed
    _set_size(out, start)


def _set_size(out: bytearray, start: int) -> None:
    """Writes clSize of the wireVARIANT that begins at `start` and ends here."""
    struct.pack_into("<I", out, start, (len(out) - start + 7) // 8 & 0xFFFF_FFFF)


def padded(out: bytes) -> bytes:
    """The bytes with zeros up to the next multiple of 8."""
    return out + bytes(-len(out) % 8)


def variant_field(field: bytes) -> bytes:
    """A variant field of a record: the count of the value's bytes, a reserved number, the bytes,
    padding."""
    return _FIELD_HEAD.pack(len(field), 0) + padded(field)


def scalar_field(vt: int, raw: Content = None) -> bytes:
    """The field of a scalar. `raw` is its number (BOOL: 0xFFFF or 0, CY: ten-thousandths), the
    bytes of a text or None, or the scale, sign and magnitude of a DECIMAL."""
    out = bytearray()
    _add_scalar(out, vt, raw)
    return bytes(out)


def array_field(vt: int, bounds: Bounds, cells: typing.Sequence[Content]) -> bytes:
    """The field of an array. Its cells are as in `scalar_field`, those of VARIANT tuples of a type
    and its content, or None for a null referent."""
    sf_type, size = CELLS[vt]
    features = {VT_BSTR: 0x180, VT_VARIANT: 0x880}.get(vt, 0x80)
    out = bytearray(_HEAD.pack(0, 0, ARRAY + vt, 0, 0, 0, ARRAY))
    out += REFERENT + REFERENT
    out += struct.pack(
        "<IHHIIII", len(bounds), len(bounds), features, size, vt << 16, sf_type, len(cells)
    )
    out += REFERENT
    for count, lower in bounds:
        out += struct.pack("<Ii", count, lower)
    out += struct.pack("<I", len(cells))
    if vt in (VT_BSTR, VT_VARIANT):
        out += b"".join([bytes(4) if cell is None else REFERENT for cell in cells])
        for cell in cells:
            if cell is None:
                continue
            if vt == VT_BSTR:
                out += bytes(-len(out) % 4)
                _add_blob(out, cell)
            else:
                _add_scalar(out, *cell)
    elif cells:
        out += bytes(-len(out) % size)
        out += struct.pack(f"<{len(cells)}{NUMBERS[vt]}", *cells)
    _set_size(out, 0)
    return bytes(out)


def spell(value: object, declared: int = VT_VARIANT) -> bytes:
    """The bytes of a value's field, if a property or parameter of the type `declared` takes it (a
    vt, with ARRAY for arrays)."""
    if isinstance(value, Field):
        return bytes(value)
    if isinstance(value, Fetched):
        value = value.value
    if isinstance(value, (list, tuple, range)):
        value = Array.of(value, declared - ARRAY if declared & ARRAY else VT_VARIANT)
    if not isinstance(value, Array):
        found = array_of(value, declared)
        value = value if found is None else found
    if isinstance(value, Array):
        return value.spelled()
    return scalar_field(*typed(value, declared))


def variant_of(value: object, declared: int = VT_VARIANT) -> bytes:
    """The variant field of a value, if a property or parameter of the type `declared` takes it: the
    same as `variant_field(spell(value, declared))`."""
    if type(value) is int:
        quick = _QUICK.get(declared)
        if quick is not None and quick[2] <= value <= quick[3]:
            return quick[0](quick[1], value)
    elif type(value) is str:
        return _short_text(value) if len(value) <= _SHORT else _text_variant(value)
    return variant_field(spell(value, declared))


def _text_variant(text: str) -> bytes:
    content = text_bytes(text)
    size, units = 36 + len(content), len(content) // 2
    head = _TEXT_HEAD.pack(
        size, 0, (size + 7) // 8, 0, VT_BSTR, 0, 0, 0, VT_BSTR, _REFERENT, units, 2 * units, units
    )
    return head + content + bytes(-size % 8)


# the keys of a batch come again and again
_short_text = functools.lru_cache(maxsize=1_024)(_text_variant)


def number_layout(vt: int) -> tuple[str, bytes]:
    """How a variant field of a number is packed: the words of struct, of which the first are the
    bytes before the number, and these."""
    field = scalar_field(vt, 0)
    width = struct.calcsize("<" + NUMBERS[vt])
    before = variant_field(field)[: 8 + len(field) - width]
    return f"{len(before)}s{NUMBERS[vt]}{-len(field) % 8}x", before


def _quick(vt: int, of: type[Integer]) -> tuple[typing.Callable[..., bytes], bytes, int, int]:
    form, before = number_layout(vt)
    return struct.Struct("<" + form).pack, before, of.low, of.high


_QUICK = {vt: _quick(vt, of) for vt, of in INTEGERS.items()}


def _whole(vt: int, of: type[Integer]) -> tuple[bytes, tuple[str, type[Integer]]]:
    form, before = number_layout(vt)
    return before[:28], (form.replace("s", "x"), of)


# of the variant field of a whole number, by its first 28 bytes, how struct reads it, and its class
WHOLE_NUMBERS = dict(_whole(vt, of) for vt, of in INTEGERS.items())


class _Places:
    """A cursor over a field, whose places count from its first byte."""

    __slots__ = ("data", "place")

    def __init__(self, data: bytes, place: int = 0) -> None:
        self.data = data
        self.place = place

    def numbers(self, code: str, count: int = 1) -> tuple[int, ...]:
        """So many numbers at the next multiple of their width."""
        width = struct.calcsize("<" + code)
        place = -(-self.place // width) * width if count else self.place
        found = struct.unpack_from(f"<{count}{code}", self.data, place)
        self.place = place + count * width
        return found

    def number(self, code: str) -> int:
        return self.numbers(code)[0]

    def bytes(self, count: int) -> bytes:
        end = self.place + count
        if end > len(self.data):
            raise ProtocolError("the bytes end too early")
        found = self.data[self.place : end]
        self.place = end
        return found

    def text(self) -> _Text:
        """The pointee of a text, None for that of null."""
        most, length, units = self.numbers("I", 3)
        if length == NULL_LENGTH and most == units == 0:
            return None
        if length > TEXT_LIMIT or most != units or units != (length + 1) // 2:
            raise ProtocolError("the counts of a text disagree, or it is too long")
        found = self.bytes(length)
        self.bytes(length % 2)
        return found

    def scalar(self) -> tuple[int, Content]:
        """A wireVARIANT without VT_ARRAY: its type and its content."""
        self.place = -(-self.place // 8) * 8
        _, _, vt, _, _, _, discriminant = _HEAD.unpack_from(self.data, self.place)
        self.place += _HEAD.size
        if vt not in SCALARS or discriminant != vt:
            raise ProtocolError(
                f"no scalar has the type 0x{vt:x} and the discriminant 0x{discriminant:x}"
            )
        return vt, self.arm(vt)

    def arm(self, vt: int) -> Content:
        if vt in NUMBERS:
            return self.number(NUMBERS[vt])
        if vt == VT_BSTR:
            return self.text() if self.number("I") else None
        if vt == VT_DECIMAL:
            self.place = -(-self.place // 8) * 8
            _, scale, sign, high, low = struct.unpack_from("<HBBIQ", self.data, self.place)
            self.place += 16
            if scale > 28 or sign not in (0, 0x80):
                raise ProtocolError("the scale or sign of a DECIMAL is none")
            return scale, sign, high << 64 | low
        return None

    def array(self, vt: int) -> tuple[Bounds, typing.Sequence[Content]]:
        """An array's bounds and cells, from its first referent on."""
        if not self.number("I") or not self.number("I"):
            raise ProtocolError("an array after a null referent")
        most, dimensions, _, _, _, sf_type, size, _ = self._header()
        if most != dimensions or not 1 <= dimensions <= 16 or sf_type != CELLS[vt][0]:
            raise ProtocolError("the number of bounds or the sfType of an array is wrong")
        flat = [self.number(code) for _ in range(dimensions) for code in "Ii"]
        bounds = list(zip(flat[::2], flat[1::2]))
        if (
            size != math.prod(count for count, _ in bounds)
            or size > CELL_LIMIT
            or self.number("I") != size
        ):
            raise ProtocolError("the number of cells of an array is wrong, or too large")
        if vt not in (VT_BSTR, VT_VARIANT):
            return bounds, self.numbers(NUMBERS[vt], size)
        referents = self.numbers("I", size)
        if vt == VT_BSTR:
            return bounds, [self.text() if it else None for it in referents]
        return bounds, [self.scalar() if it else None for it in referents]

    def _header(self) -> tuple[int, ...]:
        self.place = -(-self.place // 4) * 4
        found = struct.unpack_from("<IHHIIIII", self.data, self.place)
        self.place += 28
        return found


def _number_arm(code: str) -> tuple[int, typing.Callable[[bytes], tuple[int, ...]]]:
    """The length of a field of one number, and what reads the number: it is at the first
    multiple of its width from 20 on."""
    width = struct.calcsize("<" + code)
    at = -(-20 // width) * width
    return at + width, struct.Struct(f"<{at}x{code}").unpack


_NUMBER_ARMS = {vt: _number_arm(code) for vt, code in NUMBERS.items()}


def read_field(data: bytes) -> Value:
    """The value that the bytes of a field spell. Raises ProtocolError if they spell none."""
    if len(data) < 20:
        raise ProtocolError("a field has at least 20 bytes")
    _, _, vt, _, _, _, discriminant = _HEAD.unpack_from(data)
    arm = _NUMBER_ARMS.get(vt)
    if arm is not None and len(data) == arm[0] and discriminant == vt:
        return scalar_of(vt, arm[1](data)[0])
    places = _Places(data, 20)
    value: Value
    try:
        if vt in SCALARS:
            if discriminant != vt:
                raise ProtocolError("the discriminant is not the type")
            value = scalar_of(vt, places.arm(vt))
        elif vt & ARRAY and vt - ARRAY in CELLS:
            if discriminant not in (ARRAY, vt):
                raise ProtocolError("the discriminant is not that of an array")
            value = Array.of_contents(vt - ARRAY, *places.array(vt - ARRAY))
        else:
            raise ProtocolError(f"the type 0x{vt:x} is outside the profile", unknown_type=True)
    except struct.error as error:
        raise ProtocolError("the bytes end too early") from error
    if places.place != len(data):
        raise ProtocolError(f"{len(data) - places.place} bytes are left over")
    return value
