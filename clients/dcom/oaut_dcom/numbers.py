"""Conversions between the types of scripts and those of the server, by the same rules as
clients/com/values.c (docs/guide/com.md, "Values")."""
from __future__ import annotations

import struct
import typing

from oaut.values import CELLS, NUMBERS
from oaut.wire import array_field, scalar_field

from .codes import DISP_E_BADVARTYPE, DISP_E_OVERFLOW, DISP_E_TYPEMISMATCH
from .ndr import Bad, Reader
from .variants import (
    ARRAY,
    VT_BOOL,
    VT_BSTR,
    VT_CY,
    VT_DECIMAL,
    VT_EMPTY,
    VT_I1,
    VT_I2,
    VT_I4,
    VT_I8,
    VT_INT,
    VT_NULL,
    VT_R4,
    VT_R8,
    VT_UI1,
    VT_UI2,
    VT_UI4,
    VT_UI8,
    VT_UINT,
    VT_VARIANT,
    WIDTHS,
    type_of,
    walk,
)

FLOATING = (VT_R4, VT_R8)
_RANGES = {
    **{VT_I1: (-(1 << 7), (1 << 7) - 1), VT_I2: (-(1 << 15), (1 << 15) - 1)},
    **{VT_I4: (-(1 << 31), (1 << 31) - 1), VT_INT: (-(1 << 31), (1 << 31) - 1)},
    **{VT_I8: (-(1 << 63), (1 << 63) - 1)},
    **{VT_UI1: (0, 0xFF), VT_UI2: (0, 0xFFFF), VT_UI4: (0, 0xFFFF_FFFF)},
    **{VT_UINT: (0, 0xFFFF_FFFF), VT_UI8: (0, (1 << 64) - 1)},
}
_CELLS = {*NUMBERS, VT_EMPTY, VT_NULL, VT_BSTR, VT_DECIMAL}
_CODES = {**NUMBERS, VT_R4: "I", VT_R8: "Q", 7: "Q"}
_CY_WHOLE = ((1 << 63) - 1) // 10_000  # the largest whole number of a CURRENCY
_PLACES, _SHIFT = 28, 160  # of a DECIMAL; below 2^53 / 2^160 no decimal of 28 places is near

# a type and its content, as oaut.wire.scalar_field takes it
Scalar = typing.Tuple[int, typing.Any]


class Misfit(Exception):
    """No value of the declared type is the same."""

    def __init__(self, code: int) -> None:
        super().__init__(f"0x{code:08X}")
        self.code = code


class _Floating(typing.NamedTuple):
    """mantissa * 2**exponent. `is_power`: the number below is nearer than that above."""

    negative: bool
    mantissa: int
    exponent: int
    is_power: bool


def _parts(vt: int, bits: int) -> typing.Optional[_Floating]:
    """A number taken apart, None if it is infinite or not a number."""
    places, last = (52, 0x7FF) if vt == VT_R8 else (23, 0xFF)
    exponent, mantissa = bits >> places & last, bits & (1 << places) - 1
    if exponent == last:
        return None
    is_power = not mantissa and exponent > 1
    if exponent:
        mantissa |= 1 << places
    exponent = (exponent or 1) - last // 2 - places
    return _Floating(bool(bits >> (63 if vt == VT_R8 else 31) & 1), mantissa, exponent, is_power)


def _shortest(parts: _Floating) -> typing.Optional[typing.Tuple[int, int]]:
    """The shortest decimal that reads back as a number that is not whole, and of these the nearest:
    digits and places. None if it has more places than a DECIMAL."""
    shift = -parts.exponent
    if shift > _SHIFT:
        return None
    scaled, power, one = parts.mantissa, 1, 1 << shift
    for places in range(1, _PLACES + 1):
        scaled, power = 10 * scaled, 10 * power
        digits, below = scaled >> shift, scaled & one - 1
        above = one - below
        nearer_below = below < above or below == above and not digits & 1
        for is_below in (nearer_below, not nearer_below):
            off = below if is_below else above
            twice = off * (4 if is_below and parts.is_power else 2)
            if twice < power or twice == power and not parts.mantissa & 1:
                return digits + (not is_below), places
    return None


def number_as(vt: int, bits: int, declared: int) -> Scalar:
    """A floating-point number as what the declared type takes exactly: a whole one as I4, I8 or
    DECIMAL, another one as CY or DECIMAL. Raises Misfit."""
    parts = _parts(vt, bits)
    if parts is None:
        raise Misfit(DISP_E_BADVARTYPE)
    shift = -parts.exponent
    if not parts.mantissa or shift <= 0 or not parts.mantissa & (1 << shift) - 1:
        return _whole(parts)
    if declared not in (VT_CY, VT_DECIMAL, VT_VARIANT):
        raise Misfit(DISP_E_BADVARTYPE)
    found = _shortest(parts)
    if found is None:
        raise Misfit(DISP_E_BADVARTYPE)
    digits, places = found
    if declared != VT_DECIMAL and places <= 4:
        units = digits * 10 ** (4 - places)
        if units < 1 << 63:
            return VT_CY, -units if parts.negative else units
    if declared == VT_CY:
        raise Misfit(DISP_E_BADVARTYPE if places > 4 else DISP_E_OVERFLOW)
    return VT_DECIMAL, (places, 0x80 if parts.negative else 0, digits)


def _whole(parts: _Floating) -> Scalar:
    exponent = parts.exponent if parts.mantissa else 0
    if exponent > 96:
        raise Misfit(DISP_E_OVERFLOW)
    number = parts.mantissa << exponent if exponent > 0 else parts.mantissa >> -exponent
    if number >= 1 << 96:
        raise Misfit(DISP_E_OVERFLOW)
    if number >= 1 << 63:
        return VT_DECIMAL, (0, 0x80 if parts.negative else 0, number)
    number = -number if parts.negative else number
    return (VT_I4 if -(1 << 31) <= number < 1 << 31 else VT_I8), number


def exact_type(vt: int, bits: int) -> typing.Tuple[int, bool]:
    """The type that holds a floating-point number exactly, VT_EMPTY if none does, and whether it is
    only too large."""
    try:
        return number_as(vt, bits, VT_VARIANT)[0], False
    except Misfit as misfit:
        return VT_EMPTY, misfit.code == DISP_E_OVERFLOW


def whole_number(scalar: Scalar) -> typing.Optional[int]:
    """The whole number that a scalar is, None for another one."""
    return int(scalar[1]) if scalar[0] in _RANGES else None


def cell_as(cell: Scalar, wanted: int) -> Scalar:
    """A cell of an array as one of another type: the same number, text or truth value; EMPTY is
    zero. Raises Misfit."""
    vt, content = cell
    if vt == wanted and (wanted in WIDTHS or wanted == VT_BSTR):
        return cell
    if vt == VT_EMPTY:
        return wanted, None if wanted == VT_BSTR else 0
    if wanted == VT_CY and vt in FLOATING:
        made = number_as(vt, content, wanted)
        if made[0] == VT_CY:
            return made
        content = _of_whole(made)
    elif wanted == VT_BOOL or wanted not in WIDTHS:
        raise Misfit(DISP_E_TYPEMISMATCH)
    elif vt in FLOATING:
        content = _of_whole(number_as(vt, content, VT_I8))
    elif vt not in _RANGES:
        raise Misfit(DISP_E_TYPEMISMATCH)
    if wanted == VT_CY:
        if abs(content) > _CY_WHOLE:
            raise Misfit(DISP_E_OVERFLOW)
        return VT_CY, content * 10_000
    low, high = _RANGES.get(wanted, (0, 0xFFFF_FFFF))
    if not low <= content <= high:
        raise Misfit(DISP_E_OVERFLOW)
    return wanted, content


def _of_whole(made: Scalar) -> int:
    """The number of what `number_as` makes of a whole one."""
    if made[0] != VT_DECIMAL:
        return int(made[1])
    _, sign, magnitude = made[1]
    if sign or magnitude >= 1 << 64:
        raise Misfit(DISP_E_OVERFLOW)
    return int(magnitude)


# ---- fields


def scalar_at(at: Reader) -> Scalar:
    """The wireVARIANT at the next multiple of 8, if it is a scalar; of another one its type."""
    at.align(8)
    at.skip(20)
    (vt,) = struct.unpack_from("<H", at.data, at.at - 12)
    if vt in _CODES:
        width = WIDTHS[vt]
        at.align(width)
        return vt, struct.unpack("<" + _CODES[vt], at.take(width))[0]
    if vt == VT_BSTR:
        if not at.u32():
            return vt, None
        at.u32()
        length, units = at.u32(), at.u32()
        return vt, None if length == 0xFFFF_FFFF else at.take(2 * units)[:length]
    if vt == VT_DECIMAL:
        at.align(8)
        _, scale, sign, high, low = struct.unpack("<HBBIQ", at.take(16))
        return vt, (scale, sign, high << 64 | low)
    return vt, None


def scalar_of(field: bytes) -> Scalar:
    """The scalar of a field; of an array, an object and what else is none, its type."""
    if type_of(field) & (ARRAY | 0x4000):
        return type_of(field), None
    return scalar_at(Reader(field))


class _Array(typing.NamedTuple):
    """An array, with its cells as scalars."""

    bounds: typing.List[typing.Tuple[int, int]]
    cells: typing.List[Scalar]


def _head_of(field: bytes) -> typing.Tuple[Reader, typing.List[typing.Tuple[int, int]], int]:
    """A cursor at the cells of an array's field, the bounds, and the number of cells."""
    at = Reader(field, 20)
    if not at.u32() or not at.u32():
        raise Bad
    count = at.u32()
    at.skip(12)
    _, size, _ = at.u32(), at.u32(), at.u32()
    if not 1 <= count <= 64 or size > len(field):
        raise Bad
    bounds = [(at.u32(), at.i32()) for _ in range(count)]
    at.u32()
    return at, bounds, size


def has_strangers(field: bytes) -> bool:
    """Whether an array of VARIANT has cells that are no scalars of the server's: it refuses those
    as bad stub data, without the argument's index."""
    if type_of(field) != ARRAY | VT_VARIANT:
        return False
    at, _, size = _head_of(field)
    for there in [at.u32() for _ in range(size)]:
        if there:
            at.align(8)
            if at.at + 10 > at.end or type_of(field[at.at : at.at + 10]) not in _CELLS:
                return True
            walk(at, 1)
    return False


def _array_of(field: bytes) -> _Array:
    """The array of a field. Raises Bad."""
    vt = type_of(field) - ARRAY
    at, bounds, size = _head_of(field)
    if vt == VT_VARIANT:
        there = [at.u32() for _ in range(size)]
        return _Array(bounds, [scalar_at(at) if it else (VT_EMPTY, None) for it in there])
    if vt == VT_BSTR:
        there = [at.u32() for _ in range(size)]
        return _Array(bounds, [(vt, _text_at(at) if it else None) for it in there])
    if vt not in _CODES:
        raise Bad
    if size:
        at.align(WIDTHS[vt])
    data = at.take(size * WIDTHS[vt])
    return _Array(bounds, [(vt, it) for it in struct.unpack(f"<{size}{_CODES[vt]}", data)])


def _text_at(at: Reader) -> typing.Optional[bytes]:
    at.u32()
    length, units = at.u32(), at.u32()
    return None if length == 0xFFFF_FFFF else at.take(2 * units)[:length]


def is_misfit(field: bytes) -> bool:
    """Whether scripts and the server have different types for a value."""
    return type_of(field) in (VT_R4, VT_R8, ARRAY | VT_VARIANT, ARRAY | VT_R4, ARRAY | VT_R8)


def field_as(field: bytes, declared: int) -> bytes:
    """A value of a script as the declared type takes it. Raises Misfit and Bad."""
    vt = type_of(field)
    if vt in FLOATING:
        return scalar_field(*number_as(vt, scalar_of(field)[1], declared))
    if vt not in (ARRAY | VT_VARIANT, ARRAY | VT_R4, ARRAY | VT_R8):
        return field
    array = _array_of(field)
    wanted = declared - ARRAY if declared & ARRAY and declared - ARRAY in CELLS else VT_VARIANT
    if wanted == VT_VARIANT:
        return array_field(VT_VARIANT, array.bounds, [_variant_cell(it) for it in array.cells])
    cells = [cell_as(it, wanted)[1] for it in array.cells]
    if wanted == VT_BSTR or wanted in NUMBERS:
        return array_field(wanted, array.bounds, cells)
    raise Misfit(DISP_E_TYPEMISMATCH)


def _variant_cell(cell: Scalar) -> Scalar:
    if cell[0] in FLOATING:
        return number_as(cell[0], cell[1], VT_VARIANT)
    if cell[0] in _CELLS:
        return cell
    raise Misfit(DISP_E_BADVARTYPE)


def for_scripts(field: bytes) -> bytes:
    """A field of the server's as VBScript and JScript can use it: each number as one of their
    types, an array as one of VARIANT."""
    vt = type_of(field)
    if vt in _RANGES and vt not in (VT_UI1, VT_I2, VT_I4):
        return scalar_field(*_scriptable(scalar_of(field)))
    if vt & ARRAY:
        array = _array_of(field)
        return array_field(VT_VARIANT, array.bounds, [_scriptable(it) for it in array.cells])
    return field


def _scriptable(cell: Scalar) -> Scalar:
    vt, number = cell
    if vt == VT_BOOL:
        return vt, 0xFFFF if number else 0
    if vt not in _RANGES or vt in (VT_UI1, VT_I2, VT_I4):
        return cell
    if -(1 << 31) <= number < 1 << 31:
        return VT_I4, number
    if abs(number) <= _CY_WHOLE:
        return VT_CY, number * 10_000
    return VT_DECIMAL, (0, 0x80 if number < 0 else 0, abs(number))
