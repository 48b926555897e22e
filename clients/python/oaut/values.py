"""Types and values: what a VARIANT is in Python, and how a plain value gets its type."""
from __future__ import annotations

import decimal
import enum
import importlib
import math
import operator
import struct
import typing

from .faults import NoSuchIndex, OutOfRange, WrongType, WrongValue

TEXT_LIMIT = 1_048_576
CELL_LIMIT = 65_536

# the value of a member or an element. The library declares its type, and stubs give it to a type
# checker; without stubs a checker accepts `item.Count + 1`
Value = typing.Any
# the content of a scalar or a cell: the number of its type says whether that is a number, bytes,
# the parts of a DECIMAL or nothing, which no checker follows
Content = typing.Any
# an array of numpy, whose types are there only if numpy is
NumpyArray = typing.Any


def whole(value: object) -> int:
    """A whole number, as Python takes one for an index."""
    try:
        return operator.index(typing.cast(typing.SupportsIndex, value))
    except TypeError as error:
        raise WrongType(str(error)) from None


class VT(enum.IntEnum):
    """The numbers of the types (MS-OAUT section 2.2.7)."""

    EMPTY = 0
    NULL = 1
    I2 = 2
    I4 = 3
    CY = 6
    BSTR = 8
    ERROR = 10
    BOOL = 11
    VARIANT = 12
    DECIMAL = 14
    I1 = 16
    UI1 = 17
    UI2 = 18
    UI4 = 19
    I8 = 20
    UI8 = 21
    INT = 22
    UINT = 23


ARRAY = 0x2000
VOID = 24
# the same numbers as plain ones, which are faster to compare
(
    VT_EMPTY,
    VT_NULL,
    VT_I4,
    VT_CY,
    VT_BSTR,
    VT_ERROR,
    VT_BOOL,
    VT_VARIANT,
    VT_DECIMAL,
    VT_I8,
    VT_UI8,
) = (
    int(it)
    for it in (
        VT.EMPTY,
        VT.NULL,
        VT.I4,
        VT.CY,
        VT.BSTR,
        VT.ERROR,
        VT.BOOL,
        VT.VARIANT,
        VT.DECIMAL,
        VT.I8,
        VT.UI8,
    )
)

_I = typing.TypeVar("_I", bound="Integer")


class Integer(int):
    """A whole number with its type. It counts as its number: `I2(5) + 1` is 6, and `I2(5) == 5`."""

    __slots__ = ()
    vt: typing.ClassVar[int] = 0
    low: typing.ClassVar[int] = 0
    high: typing.ClassVar[int] = 0

    def __init_subclass__(cls, vt: VT | None = None, bits: int = 0, signed: bool = False) -> None:
        if vt is not None:
            cls.vt = int(vt)
            cls.low, cls.high = (
                (-(1 << bits - 1), (1 << bits - 1) - 1) if signed else (0, (1 << bits) - 1)
            )

    def __new__(cls: type[_I], value: typing.SupportsIndex = 0) -> _I:
        number = whole(value)
        if not cls.low <= number <= cls.high:
            raise OutOfRange(f"{number} is no {cls.__name__}: from {cls.low} to {cls.high}")
        return int.__new__(cls, number)

    def __repr__(self) -> str:
        return f"{type(self).__name__}({int(self)})"

    def __str__(self) -> str:
        return int.__repr__(self)


class I1(Integer, vt=VT.I1, bits=8, signed=True):
    """A number of the type VT_I1, from -128 to 127."""

    __slots__ = ()


class UI1(Integer, vt=VT.UI1, bits=8):
    """A number of the type VT_UI1, from 0 to 255."""

    __slots__ = ()


class I2(Integer, vt=VT.I2, bits=16, signed=True):
    """A number of the type VT_I2, from -32768 to 32767."""

    __slots__ = ()


class UI2(Integer, vt=VT.UI2, bits=16):
    """A number of the type VT_UI2, from 0 to 65535."""

    __slots__ = ()


class I4(Integer, vt=VT.I4, bits=32, signed=True):
    """A number of the type VT_I4, of 32 bits with a sign."""

    __slots__ = ()


class UI4(Integer, vt=VT.UI4, bits=32):
    """A number of the type VT_UI4, of 32 bits without a sign."""

    __slots__ = ()


class I8(Integer, vt=VT.I8, bits=64, signed=True):
    """A number of the type VT_I8, of 64 bits with a sign."""

    __slots__ = ()


class UI8(Integer, vt=VT.UI8, bits=64):
    """A number of the type VT_UI8, of 64 bits without a sign."""

    __slots__ = ()


class INT(Integer, vt=VT.INT, bits=32, signed=True):
    """A number of the type VT_INT, of 32 bits with a sign."""

    __slots__ = ()


class UINT(Integer, vt=VT.UINT, bits=32):
    """A number of the type VT_UINT, of 32 bits without a sign."""

    __slots__ = ()


class SCode(Integer, vt=VT.ERROR, bits=32):
    """A code of the type VT_ERROR, of 32 bits without a sign."""

    __slots__ = ()

    def __repr__(self) -> str:
        return f"SCode(0x{int(self):08x})"


INTEGERS: dict[int, type[Integer]] = {
    it.vt: it for it in (I1, UI1, I2, UI2, I4, UI4, I8, UI8, INT, UINT)
}
MISSING = SCode(0x8002_0004)


class Single:
    """A value without content: EMPTY, or the null text NULL_BSTR."""

    __slots__ = ("_name",)

    def __init__(self, name: str) -> None:
        self._name = name

    def __repr__(self) -> str:
        return self._name

    def __bool__(self) -> bool:
        return False

    def __reduce__(self) -> str:
        return self._name


EMPTY = Single("EMPTY")
NULL_BSTR = Single("NULL_BSTR")

# more digits than any value here has; an inexact result raises an exception
_EXACT = decimal.Context(prec=60, traps=[decimal.Inexact, decimal.InvalidOperation])


def scaled(value: decimal.Decimal, places: int) -> int | None:
    """value * 10^places as a whole number, or None if it is none, or has more digits than any value
    here."""
    if not value.is_finite():
        return None
    try:
        return int(
            value.quantize(decimal.Decimal((0, (1,), -places)), context=_EXACT).scaleb(
                places, _EXACT
            )
        )
    except (decimal.Inexact, decimal.InvalidOperation):
        return None


class Currency(decimal.Decimal):
    """An amount of VT_CY: a whole number of ten-thousandths in 64 signed bits. From a whole number,
    a Decimal or a text."""

    __slots__ = ()

    def __new__(cls, value: int | str | decimal.Decimal = 0) -> Currency:
        if isinstance(value, float):
            raise WrongType("a float is no exact amount: give a text or a Decimal")
        if hasattr(value, "__index__"):
            value = operator.index(typing.cast(typing.SupportsIndex, value))
        units = scaled(decimal.Decimal(value), 4)
        if units is None:
            raise WrongValue(f"{value} is no whole number of ten-thousandths")
        return cls.of_units(units)

    @classmethod
    def of_units(cls, units: int) -> Currency:
        """The amount of so many ten-thousandths."""
        if not -(1 << 63) <= units < 1 << 63:
            raise OutOfRange(f"{units} ten-thousandths are no VT_CY")
        return super().__new__(cls, f"{units}E-4")

    @property
    def units(self) -> int:
        """How many ten-thousandths it is."""
        return int(self.scaleb(4, _EXACT))

    def __repr__(self) -> str:
        return f"Currency('{self}')"

    def __reduce__(self) -> tuple[type[Currency], tuple[str]]:
        return Currency, (str(self),)


class Field(bytes):
    """A value that is encoded already: the bytes of its wireVARIANT, sent as they are."""

    __slots__ = ()


def text_bytes(text: str | bytes | bytearray | memoryview) -> bytes:
    """The bytes of a BSTR: UTF-16 of a str, and bytes as they are."""
    out = text.encode("utf-16-le", "surrogatepass") if isinstance(text, str) else bytes(text)
    if len(out) > TEXT_LIMIT:
        raise WrongValue(f"a text has at most {TEXT_LIMIT} bytes, this has {len(out)}")
    return out


def text_of(content: bytes) -> str | bytes:
    """A str, or if the number of bytes is odd the bytes."""
    return bytes(content) if len(content) % 2 else str(content, "utf-16-le", "surrogatepass")


def decimal_raw(value: decimal.Decimal) -> tuple[int, int, int]:
    """Scale, sign and magnitude of a Decimal."""
    sign, digits, exponent = value.as_tuple()
    if not isinstance(exponent, int):
        raise WrongValue(f"{value} is no number")
    scale = min(max(-exponent, 0), 28)
    magnitude = 0 if not any(digits) else scaled(value, scale)
    if magnitude is None and exponent < 0:
        raise WrongValue(f"{value} has more than 28 decimal places")
    if magnitude is None or abs(magnitude) >= 1 << 96:
        raise OutOfRange(f"{value} is too large for a VT_DECIMAL")
    return scale, 0x80 if sign else 0, abs(magnitude)


def real(value: float) -> decimal.Decimal:
    """The DECIMAL of a floating-point number, with the digits of `repr`. `float` of it, also after
    a server stored it, is the same number bit for bit, -0.0 too. It exists for 0 and for magnitudes
    from 1e-12 to below 2**96, and for smaller ones whose digits end by the 28th decimal place.
    Other numbers raise ValueError if they are too small or not finite, and OverflowError if they
    are too large."""
    if not isinstance(value, float):
        raise WrongType(f"{value!r} is no floating-point number")
    found = decimal.Decimal(float.__repr__(value))
    decimal_raw(found)
    return found


def plain(value: object) -> Value:
    """A value as other packages know it: a number of a type as a plain one, an array as lists in
    lists, EMPTY and the null text as None."""
    if isinstance(value, Integer):
        return int(value)
    if isinstance(value, Single):
        return None
    if isinstance(value, Array):
        return _plain_rows(list(value))
    return value


def _lists(rows: object) -> object:
    return [_lists(it) for it in rows] if isinstance(rows, (list, tuple)) else rows


def _plain_rows(rows: list[Value]) -> list[Value]:
    return [_plain_rows(it) if isinstance(it, list) else plain(it) for it in rows]


def typed(value: object, declared: int = VT_VARIANT) -> tuple[int, Content]:
    """The number of a value's type, and the value as `scalar_field` takes it. Of a plain number
    that the declared type holds it is that type, and None is the null text if a BSTR is
    declared."""
    kind = type(value)
    if kind is int:
        return _typed_number(typing.cast(int, value), declared)
    if isinstance(value, (str, bytes, bytearray, memoryview)):
        return VT_BSTR, text_bytes(value)
    if kind is bool:
        return VT_BOOL, 0xFFFF if value else 0
    if isinstance(value, Integer):
        return value.vt, int(value)
    if isinstance(value, Currency):
        return VT_CY, value.units
    if isinstance(value, decimal.Decimal):
        if declared == VT_CY:
            units = scaled(value, 4)
            if units is not None and -(1 << 63) <= units < 1 << 63:
                return VT_CY, units
        return VT_DECIMAL, decimal_raw(value)
    if value is None:
        return (VT_BSTR, None) if declared == VT_BSTR else (VT_NULL, None)
    if value is EMPTY:
        return VT_EMPTY, None
    if value is NULL_BSTR:
        return VT_BSTR, None
    return _typed_other(value, declared)


def _typed_other(value: object, declared: int) -> tuple[int, Content]:
    """Does the same for a value that is not of Python's own types, or for none at all."""
    kind = type(value)
    if isinstance(value, int):
        return typed(int(value), declared)
    if isinstance(value, float):
        told = f"give oaut.real({value!r}), a Currency or a whole number"
        raise WrongType(f"there are no floating-point numbers: {told}")
    if hasattr(kind, "__array__"):
        # (a scalar of numpy: the value that Python has for it)
        _no_dates(value)
        item = value.item() if hasattr(value, "item") else value
        if type(item) is not kind:
            return typed(item, declared)
    if hasattr(kind, "__index__"):
        return typed(operator.index(typing.cast(typing.SupportsIndex, value)), declared)
    hint = getattr(kind, "not_a_value", None)
    raise WrongType(f"no VARIANT for {kind.__name__}{f': {hint}' if hint else ''}")


def _no_dates(value: object) -> None:
    """Raises TypeError for numpy's dates and durations, which become whole numbers in some units
    alone, such as nanoseconds."""
    if getattr(getattr(value, "dtype", None), "kind", "") in ("M", "m"):
        raise WrongType("there are no dates and no durations: give texts or whole numbers")


def _no_masks(value: object) -> None:
    """Raises ValueError for an array of numpy with masked cells: without the mask these have any
    values."""
    mask = getattr(value, "mask", None) if hasattr(type(value), "filled") else None
    if mask is not None and mask.any():
        raise WrongValue("masked cells have no value: array.filled(..) gives them one")


def _typed_number(value: int, declared: int) -> tuple[int, Content]:
    of = INTEGERS.get(declared)
    if of is not None and of.low <= value <= of.high:
        return declared, value
    if declared == VT_CY and -(1 << 63) <= value * 10_000 < 1 << 63:
        return VT_CY, value * 10_000
    if declared == VT_ERROR and 0 <= value < 1 << 32:
        return VT_ERROR, value
    if declared != VT_DECIMAL:
        for of in (I4, I8, UI8):
            if of.low <= value <= of.high:
                return of.vt, value
    if abs(value) < 1 << 96:
        return VT_DECIMAL, (0, 0x80 if value < 0 else 0, abs(value))
    raise OutOfRange(f"{value} is too large for a VARIANT")


def scalar_of(vt: int, raw: Content) -> Value:
    """The value of a type's number and its content."""
    of = INTEGERS.get(vt)
    if of is not None:
        return int.__new__(of, raw)
    if vt == VT_BSTR:
        return NULL_BSTR if raw is None else text_of(raw)
    if vt == VT_BOOL:
        return raw != 0
    if vt == VT_CY:
        return Currency.of_units(raw)
    if vt == VT_DECIMAL:
        scale, sign, magnitude = raw
        return decimal.Decimal(f"{'-' if sign else ''}{magnitude}E-{scale}")
    if vt == VT_ERROR:
        return SCode(raw)
    return EMPTY if vt == VT_EMPTY else None


# of each type of numbers how struct packs it
NUMBERS: dict[int, str] = {
    int(vt): code
    for vt, code in zip((16, 17, 2, 18, 3, 19, 22, 23, 20, 21, 6, 10, 11), "bBhHiIiIqQqIH")
}
SCALARS = {int(vt) for vt in VT} - {VT_VARIANT}
# of each type of cells sfType and cbElements
CELLS: dict[int, tuple[int, int]] = {
    **{int(vt): (0x10, 1) for vt in (VT.I1, VT.UI1)},
    **{int(vt): (2, 2) for vt in (VT.I2, VT.UI2, VT.BOOL)},
    **{int(vt): (3, 4) for vt in (VT.I4, VT.UI4, VT.INT, VT.UINT)},
    **{int(vt): (0x14, 8) for vt in (VT.I8, VT.UI8, VT.CY)},
    VT_BSTR: (8, 4),
    VT_VARIANT: (0xC, 16),
}
_CELL_TYPES: dict[type, int] = {
    **{of: vt for vt, of in INTEGERS.items()},
    Currency: VT_CY,
    bool: VT_BOOL,
    str: VT_BSTR,
    object: VT_VARIANT,
}

CellType = typing.Union[int, type]
Bounds = list[tuple[int, int]]


def cell_type(of: CellType) -> int:
    """The number of a type of cells, which may be given as a class: I2, Currency, bool, str, or
    object for VARIANT."""
    vt = _CELL_TYPES.get(of) if isinstance(of, type) else of
    if vt not in CELLS:
        raise WrongType(f"there are no arrays of {of!r}")
    return int(vt)


def indices_of(key: object) -> tuple[int, ...]:
    """The indices in brackets: one whole number, or several. Raises TypeError for what is none."""
    found = key if isinstance(key, tuple) else (key,)
    try:
        numbers = tuple(operator.index(it) for it in found)
    except TypeError:
        wrong = next(it for it in found if not hasattr(it, "__index__"))
        what = (
            "a slice is the only index, and cannot be put"
            if isinstance(wrong, slice)
            else f"an index is a whole number, not {wrong!r}"
        )
        raise WrongType(what) from None
    for it in numbers:
        if not -(1 << 31) <= it < 1 << 31:
            raise NoSuchIndex(f"{it} is no index: an index has 32 bits")
    return numbers


class Fetched:
    """Something that returns an array on request: the array in a property of an object, or a row of
    an array."""

    __slots__ = ()

    @property
    def value(self) -> Value:
        """The array by itself."""
        raise NotImplementedError

    def now(self) -> Array:
        """The array by itself, and nothing else."""
        raise NotImplementedError

    def __eq__(self, other: object) -> bool:
        """Whether the array has these values: compared with lists, or with another array."""
        if isinstance(other, Fetched):
            other = other.value
        if not isinstance(other, (list, tuple, Array)):
            return NotImplemented
        return self.now() == other

    __hash__ = None  # type: ignore[assignment]

    def to_numpy(self, dtype: object = None) -> NumpyArray:
        """A new array of numpy with its values."""
        return self.now().to_numpy(dtype)

    def __array__(self, dtype: object = None, copy: bool | None = None) -> NumpyArray:
        return self.now().__array__(dtype, copy)

    def __iter__(self) -> typing.Iterator[Value]:
        return iter(self.now())

    def __len__(self) -> int:
        return len(self.now())


class Indexed(typing.Protocol):
    """An array, or one in a property."""

    def now(self) -> Array:
        """The array by itself."""

    def __getitem__(self, indices: object) -> Value:
        ...

    def __setitem__(self, indices: object, value: object) -> None:
        ...


class Row(Fetched):
    """A row: an array with fewer indices than bounds, such as `item.Grid[0]` of two. Its elements
    are those of the array: `row[2]` reads there, and `row[2] = 7` puts there."""

    __slots__ = ("_array", "_indices")

    def __init__(self, array: Indexed, indices: tuple[int, ...]) -> None:
        self._array, self._indices = array, indices

    @property
    def value(self) -> Array:
        """The row by itself, an array of the other bounds."""
        return self.now()

    def now(self) -> Array:
        """The row by itself, as it is now."""
        return self._array.now().row(self._indices)

    def __getitem__(self, indices: object) -> Value:
        if isinstance(indices, slice):
            return self.now()[indices]
        return self._array[(*self._indices, *indices_of(indices))]

    def __setitem__(self, indices: object, value: object) -> None:
        self._array[(*self._indices, *indices_of(indices))] = value

    def __repr__(self) -> str:
        told = ", ".join(map(str, self._indices))
        name = "an array" if isinstance(self._array, Array) else repr(self._array)
        return f"<row [{told}] of {name}>"

    def _repr_html_(self) -> str:
        return self.now()._repr_html_()


# how many rows and columns of an array a notebook shows
_SHOWN = 20


class Array:
    """A safe array by itself: the number of its cells' type, its bounds as pairs of a count and a
    lowest index, and its cells, the last index fastest.

    `array[i, j]` is a cell, `list(array)` a list of lists (of an array without cells an empty
    list), and `array[i:j]` the part of that list whose first indices are from i to below j. Cells
    of a BSTR array are texts, or None for the null text; those of numbers are plain numbers; those
    of a VARIANT array are any values but arrays."""

    __slots__ = ("vt", "bounds", "cells")

    def __init__(
        self,
        of: CellType,
        bounds: typing.Iterable[tuple[typing.SupportsIndex, typing.SupportsIndex]],
        cells: typing.Iterable[object] | None = None,
    ) -> None:
        self.vt = cell_type(of)
        self.bounds: Bounds = [(whole(count), whole(lower)) for count, lower in bounds]
        size = math.prod(count for count, _ in self.bounds)
        if not 1 <= len(self.bounds) <= 16 or size > CELL_LIMIT:
            raise WrongValue(f"an array has 1 to 16 bounds and at most {CELL_LIMIT} cells")
        if any(
            not (0 <= count < 1 << 32 and -(1 << 31) <= lower < 1 << 31)
            for count, lower in self.bounds
        ):
            raise WrongValue("a count is below 2^32, and a lowest index has 32 signed bits")
        self.cells: list[Value] = [self._zero()] * size if cells is None else list(cells)
        if len(self.cells) != size:
            raise WrongValue(f"{len(self.cells)} cells in bounds for {size}")

    @classmethod
    def of(cls, nested: typing.Sequence[object], of: CellType = object) -> Array:
        """The array of a list, or of lists in lists, whose lowest indices are 0."""
        counts = [len(nested)]
        cells: list[Value] = [_listed(it) for it in nested]
        while cells and isinstance(cells[0], (list, tuple)):
            if len(counts) == 16:
                raise WrongValue("an array has at most 16 bounds")
            counts.append(len(cells[0]))
            if any(not isinstance(it, (list, tuple)) or len(it) != counts[-1] for it in cells):
                raise WrongValue("the lists in a list are of several lengths")
            cells = [cell for it in cells for cell in it]
        return cls(of, [(count, 0) for count in counts], cells)

    @classmethod
    def of_contents(cls, vt: int, bounds: Bounds, contents: typing.Iterable[Content]) -> Array:
        """The array of its cells' contents, as `contents` gives them; of VARIANT None is for
        EMPTY."""
        made = cls.__new__(cls)
        made.vt, made.bounds = vt, bounds
        if vt == VT_BSTR:
            made.cells = [None if it is None else text_of(it) for it in contents]
        elif vt == VT_BOOL:
            made.cells = [it != 0 for it in contents]
        elif vt == VT_CY:
            made.cells = [Currency.of_units(it) for it in contents]
        elif vt == VT_VARIANT:
            made.cells = [EMPTY if it is None else scalar_of(*it) for it in contents]
        else:
            made.cells = list(contents)
        return made

    def contents(self) -> list[Content]:
        """The cells as `array_field` takes them."""
        if self.vt == VT_BSTR:
            return [None if it is None or it is NULL_BSTR else _text_cell(it) for it in self.cells]
        if self.vt == VT_BOOL:
            return [0xFFFF if _bool_cell(it) else 0 for it in self.cells]
        if self.vt == VT_CY:
            return [(it if isinstance(it, Currency) else Currency(it)).units for it in self.cells]
        if self.vt == VT_VARIANT:
            return [typed(it) for it in self.cells]
        return self.cells

    def _zero(self) -> object:
        zeros: dict[int, object] = {
            VT_BSTR: None,
            VT_VARIANT: EMPTY,
            VT_BOOL: False,
            VT_CY: Currency(0),
        }
        return zeros.get(self.vt, 0)

    def bounds_words(self) -> str:
        """Its bounds in words: `2 bounds, 0 to 1 and 0 to 2`."""
        told = [
            f"{lower} to {lower + count - 1}" if count else f"none from {lower}"
            for count, lower in self.bounds
        ]
        return f"{len(told)} bound{'s' if len(told) > 1 else ''}, {' and '.join(told)}"

    def now(self) -> Array:
        """The array itself."""
        return self

    def has_row(self, indices: tuple[int, ...]) -> bool:
        """Whether these are fewer indices than it has bounds, and each is within its bound."""
        within = (
            lower <= index < lower + count for index, (count, lower) in zip(indices, self.bounds)
        )
        return len(indices) < len(self.bounds) and all(within)

    def row(self, indices: tuple[int, ...]) -> Array:
        """The part of an array at such indices, as an array of its own. Raises IndexError if there
        is none."""
        if not self.has_row(indices):
            raise NoSuchIndex(f"no row {list(indices)} in {self.bounds_words()}")
        position = 0
        for index, (count, lower) in zip(indices, self.bounds):
            position = position * count + index - lower
        rest = self.bounds[len(indices) :]
        size = math.prod(count for count, _ in rest)
        return Array(self.vt, rest, self.cells[position * size : (position + 1) * size])

    def _position(self, key: object) -> int:
        indices = indices_of(key)
        if len(indices) != len(self.bounds):
            raise NoSuchIndex(f"{len(indices)} indices for {self.bounds_words()}")
        position = 0
        for index, (count, lower) in zip(indices, self.bounds):
            if not lower <= index < lower + count:
                raise NoSuchIndex(f"{index} is not from {lower} to {lower + count - 1}")
            position = position * count + index - lower
        return position

    def __getitem__(self, indices: object) -> Value:
        if isinstance(indices, slice):
            return self._rows(indices)
        if len(self.bounds) > 1 and self.has_row(indices_of(indices)):
            return Row(self, indices_of(indices))
        return self.cells[self._position(indices)]

    def _rows(self, part: slice) -> list[Value]:
        count, lower = self.bounds[0]
        step = 1 if part.step is None else whole(part.step)
        if step < 1:
            raise WrongValue("the step of a slice is at least 1")
        first, behind = (
            None if it is None else min(max(whole(it) - lower, 0), count)
            for it in (part.start, part.stop)
        )
        return list(self)[first:behind:step]

    def __setitem__(self, indices: object, value: object) -> None:
        self.cells[self._position(indices)] = value

    def __len__(self) -> int:
        return self.bounds[0][0] if self.cells else 0

    def __iter__(self) -> typing.Iterator[Value]:
        rows = self.cells
        for count, _ in reversed(self.bounds[1:]):
            rows = [rows[at : at + count] for at in range(0, len(rows), count)] if rows else []
        return iter(rows)

    def __eq__(self, other: object) -> bool:
        if isinstance(other, (list, tuple)):
            # (lists have no lowest indices, and no type)
            return bool(list(self) == _lists(other))
        if not isinstance(other, Array):
            return NotImplemented
        return (self.vt, self.bounds, self.contents()) == (other.vt, other.bounds, other.contents())

    def to_numpy(self, dtype: object = None) -> NumpyArray:
        """A new array of numpy, which has to be installed: of whole numbers of the same bits, of
        texts, CURRENCY and VARIANT of objects. Lowest indices are 0 there."""
        # (by its name: a type checker then asks for numpy nowhere)
        numpy = importlib.import_module("numpy")
        own = numpy.empty(len(self.cells), dtype=_WORDS_OF_NUMPY.get(self.vt, "object"))
        own[:] = self.cells
        found: NumpyArray = own.reshape([count for count, _ in self.bounds])
        return found if dtype is None else found.astype(dtype)

    def __array__(self, dtype: object = None, copy: bool | None = None) -> NumpyArray:
        if copy is False:
            raise WrongValue("an array of numpy is a copy of this one")
        return self.to_numpy(dtype)

    __hash__ = None  # type: ignore[assignment]

    def __repr__(self) -> str:
        name = {VT_VARIANT: "object", VT_BSTR: "str", VT_BOOL: "bool", VT_CY: "Currency"}.get(
            self.vt
        ) or INTEGERS[self.vt].__name__
        return f"Array({name}, {self.bounds!r}, {self.cells!r})"

    def _repr_html_(self) -> str:
        """HTML for notebooks: one row for an array with one bound, else a row for each first index;
        for a large array its beginning."""
        from .words import html_table, short_words

        (count, lower), rest = self.bounds[0], self.bounds[1:]
        name = VT(self.vt).name
        title = f"{name}[{', '.join(f'{low}..{low + size - 1}' for size, low in self.bounds)}]"
        if not rest:
            heads = [str(it) for it in range(lower, lower + count)][:_SHOWN]
            rows = [[short_words(it) for it in self.cells[:_SHOWN]]]
            hidden = count > _SHOWN
        else:
            wide = rest[-1][0] if len(rest) == 1 else 1
            heads = [""]
            if len(rest) == 1:
                heads += [str(it) for it in range(rest[0][1], rest[0][1] + wide)][:_SHOWN]
            rows = []
            for index, row in zip(range(lower, lower + min(count, _SHOWN)), self):
                cells = row[:_SHOWN] if len(rest) == 1 else [row]
                rows.append([str(index), *(short_words(it) for it in cells)])
            hidden = count > _SHOWN or wide > _SHOWN
        told = f"the first of {len(self.cells)} cells" if hidden else ""
        return html_table(title, heads, rows, told)

    def spelled(self) -> bytes:
        """The bytes of its field."""
        from .wire import array_field

        contents = self.contents()
        try:
            return array_field(self.vt, self.bounds, contents)
        except struct.error as error:
            wrong = next((it for it in contents if not hasattr(it, "__index__")), None)
            if wrong is not None:
                raise WrongType(
                    f"{wrong!r} is no cell of an array of {VT(self.vt).name}"
                ) from error
            raise OutOfRange(f"a cell is out of the range of {VT(self.vt).name}") from error


def array_of(value: object, declared: int) -> Array | None:
    """The array of what has `__array__` or the buffer protocol, as those of numpy, pandas and the
    module `array`; None for other values, scalars and texts. Its cells are of the declared type, or
    of that of the buffer."""
    if isinstance(value, (str, int, Single, decimal.Decimal)) or value is None:
        return None
    if isinstance(value, (bytes, bytearray, memoryview)) and not declared & ARRAY:
        return None
    if hasattr(type(value), "__array__"):
        _no_masks(value)
        of_numpy = typing.cast(HasArray, value).__array__()
        if not of_numpy.shape:
            return None
        _no_dates(of_numpy)
        shape, cells = of_numpy.shape, of_numpy.ravel().tolist()
        kind, size = of_numpy.dtype.kind, of_numpy.dtype.itemsize
        # (of a table without cells too)
        own = _BUFFERS.get(f"{kind}{size}", VT_VARIANT)
    else:
        try:
            view = memoryview(typing.cast(bytes, value))
        except TypeError:
            return None
        if not view.shape or view.format is None:
            return None
        shape, cells = view.shape, view.tolist()
        for _ in shape[1:]:
            cells = [cell for it in cells for cell in it]
        sign = view.format[-1]
        kind = (
            "b" if sign == "?" else "i" if sign in "bhilqn" else "u" if sign in "BHILQN" else sign
        )
        own = _BUFFERS.get(f"{kind}{view.itemsize}", VT_VARIANT)
    of = declared - ARRAY if declared & ARRAY else own
    return Array(of, [(count, 0) for count in shape], cells)


# of a kind of numbers and its bytes, in the words of numpy, the type of cells
_BUFFERS = {
    **{f"i{size}": int(vt) for size, vt in ((1, VT.I1), (2, VT.I2), (4, VT.I4), (8, VT.I8))},
    **{f"u{size}": int(vt) for size, vt in ((1, VT.UI1), (2, VT.UI2), (4, VT.UI4), (8, VT.UI8))},
    "b1": VT_BOOL,
}
# of a type of cells the word of numpy for it, of the others objects
_WORDS_OF_NUMPY = {vt: f"{kind[0]}{kind[1:]}" for kind, vt in _BUFFERS.items() if vt != VT_BOOL}
_WORDS_OF_NUMPY.update({int(VT.INT): "i4", int(VT.UINT): "u4", VT_BOOL: "bool"})


def _listed(value: object) -> object:
    """A row of what is no list, as one."""
    if hasattr(type(value), "__array__") and getattr(value, "shape", None):
        _no_masks(value)
        return typing.cast(HasArray, value).__array__().tolist()
    return value


def _bool_cell(value: object) -> object:
    """A cell that is true or false. Python's own truth of other values does not apply, since a
    text such as "false" is true."""
    if isinstance(value, int) or hasattr(type(value), "__index__"):
        return value
    item = value.item() if hasattr(value, "item") else value
    if isinstance(item, bool):  # (numpy's)
        return item
    raise WrongType(f"{value!r} is no cell of an array of BOOL")


def _text_cell(value: object) -> bytes:
    if not isinstance(value, (str, bytes, bytearray)):
        raise WrongType(f"{value!r} is no text")
    return text_bytes(value)


class HasArray(typing.Protocol):
    """Something that numpy converts to an array, such as its own arrays and the columns of
    pandas."""

    def __array__(self) -> NumpyArray:
        ...


# the types that a property of each kind accepts, for annotations
NumberLike = typing.Union[int, decimal.Decimal, Single]
TextLike = typing.Union[str, bytes, bytearray, memoryview, None, Single]
# (a list has cells of any kind: a `list[int]` is no `list[object]`)
ArrayLike = typing.Union[list[typing.Any], tuple[object, ...], range, Array, Fetched, HasArray]
