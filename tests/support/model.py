"""A small model of the server, written from docs/reference/records.md, docs/reference/binding.md,
docs/reference/coercion.md, docs/internals/arrays.md, docs/reference/images.md and
docs/reference/library.md alone.

A value of the model is a pair of a type and its content, as `oaut.scalar_field` takes them, or an
`Array`.
"""
import struct
import uuid

from oaut import ARRAY
from tests.support import wire
from tests.support.codes import (
    ARRAY_IS_LOCKED,
    BAD_INDEX,
    BAD_PARAM_COUNT,
    BAD_STUB,
    CLASS_NOT_REGISTERED,
    DISCONNECTED,
    E_INVALIDARG,
    E_NOINTERFACE,
    E_NOTIMPL,
    E_UNEXPECTED,
    MEDIUM_FULL,
    MEMBER_NOT_FOUND,
    OVERFLOW,
    PARAM_NOT_FOUND,
    PARAM_NOT_OPTIONAL,
    TYPE_MISMATCH,
    UNKNOWN_INTERFACE,
    UNKNOWN_NAME,
)
from tests.support.kept import Library, Member, Parameter, first_lost, fold
from tests.support.wire import oaut

EMPTY, NULL, I2, I4, CY, BSTR, ERROR, BOOL, VARIANT, DECIMAL = 0, 1, 2, 3, 6, 8, 10, 11, 12, 14
I1, UI1, UI2, UI4, I8, UI8, INT, UINT = 16, 17, 18, 19, 20, 21, 22, 23
SIGNED = {I1: 8, I2: 16, I4: 32, I8: 64, INT: 32}
UNSIGNED = {UI1: 8, UI2: 16, UI4: 32, UI8: 64, UINT: 32}
RANGES = {
    **{vt: (-(2 ** (bits - 1)), 2 ** (bits - 1) - 1) for vt, bits in {**SIGNED, CY: 64}.items()},
    **{vt: (0, 2**bits - 1) for vt, bits in UNSIGNED.items()},
}
SCALARS = [EMPTY, NULL, ERROR, BOOL, BSTR, DECIMAL, *RANGES]
MISSING = (ERROR, 0x8002_0004)
EVENT_LIMIT, TABLE_LIMIT = 4_194_304, 15_728_640


class Refusal(Exception):
    def __init__(self, code, index=None, fields=b""):
        self.code, self.index, self.fields = code, index, fields


class Array:
    def __init__(self, vt, bounds, cells, locks=0):
        self.vt, self.bounds, self.cells, self.locks = vt, list(bounds), list(cells), locks

    def position(self, indices):
        """The last index varies fastest."""
        if len(indices) != len(self.bounds):
            raise Refusal(BAD_INDEX)
        place = 0
        for index, (count, lower) in zip(indices, self.bounds):
            if not lower <= index < lower + count:
                raise Refusal(BAD_INDEX)
            place = place * count + index - lower
        return place

    def resized(self, bound):
        count = 1
        for each, _ in [bound, *self.bounds[1:]]:
            count *= each
        if count > 65_536:
            raise Refusal(E_INVALIDARG)
        self.bounds[0] = bound
        self.cells = self.cells[:count] + [zero(self.vt)] * (count - len(self.cells))

    def field(self):
        return oaut.array_field(
            self.vt,
            self.bounds,
            self.cells if self.vt == VARIANT else [raw for _, raw in self.cells],
        )


def zero(vt):
    """The zero of a declared type: EMPTY of VARIANT."""
    if vt & ARRAY:
        return Array(vt - ARRAY, [(0, 0)], [])
    return {
        VARIANT: (EMPTY, None),
        EMPTY: (EMPTY, None),
        NULL: (NULL, None),
        BSTR: (BSTR, None),
        DECIMAL: (DECIMAL, (0, 0, 0)),
    }.get(vt, (vt, 0))


def content_size(value):
    """How many bytes a scalar has in an image behind the number of its type."""
    vt, raw = value
    if vt == BSTR:
        return 4 + len(raw or b"")
    return (
        {EMPTY: 0, NULL: 0, BOOL: 1, ERROR: 4, CY: 8, DECIMAL: 14}.get(vt)
        if vt not in {**SIGNED, **UNSIGNED}
        else {**SIGNED, **UNSIGNED}[vt] // 8
    )


def image_size(value):
    """How many bytes a value has in an image."""
    if isinstance(value, Array):
        return (
            4
            + 8 * len(value.bounds)
            + sum([content_size(it) + 2 * (value.vt == VARIANT) for it in value.cells])
        )
    return 2 + content_size(value)


def place_size(name):
    """How many bytes the place of a cell has in an image: its name without the object."""
    return 22 + sum([image_size(it) for it in name[2]])


def field(value):
    return value.field() if isinstance(value, Array) else wire.scalar(*value)


def number(value):
    """The count and the scale of a number, or None."""
    vt, raw = value
    if vt in RANGES:
        return raw, 4 if vt == CY else 0
    if vt == DECIMAL:
        scale, sign, magnitude = raw
        return (-magnitude if sign else magnitude), scale
    return None


def nearest(count, scale, places):
    """count / 10^scale in units of 1 / 10^places; a half goes to the even neighbour."""
    over, under = count * 10**places, 10**scale
    whole, rest = divmod(over, under)
    if 2 * rest > under or (2 * rest == under and whole % 2 == 1):
        whole += 1
    return whole


def coerced(value, vt):
    """A value as one of another type."""
    if vt == VARIANT:
        return value
    if isinstance(value, Array) or vt & ARRAY:
        if isinstance(value, Array) and value.vt + ARRAY == vt:
            return value
        if value == (EMPTY, None) and vt & ARRAY:
            return zero(vt)
        raise Refusal(TYPE_MISMATCH)
    own, raw = value
    if own == vt:
        return value
    if own == EMPTY:
        return zero(vt)
    told = number(value)
    if vt in RANGES and told is not None:
        whole = nearest(*told, 4 if vt == CY else 0)
        low, high = RANGES[vt]
        if not low <= whole <= high:
            raise Refusal(OVERFLOW)
        return vt, whole
    if own == BOOL and vt in SIGNED:
        return vt, -1 if raw else 0
    if vt == DECIMAL and own in RANGES:
        return DECIMAL, (told[1], 0x80 if told[0] < 0 else 0, abs(told[0]))
    if vt == BOOL and own in SIGNED:
        return BOOL, 0xFFFF if raw else 0
    raise Refusal(TYPE_MISMATCH)


ITEM, PLAIN = uuid.UUID("11223344-5566-7788-99aa-bbccddeeff03"), uuid.UUID(
    "11223344-5566-7788-99aa-bbccddeeff06"
)
FIRST_ONE, SECOND = uuid.UUID("11223344-5566-7788-99aa-bbccddeeff02"), uuid.UUID(
    "11223344-5566-7788-99aa-bbccddeeff04"
)
LIBRARY = b"""[uuid(11223344-5566-7788-99AA-BBCCDDEEFF01), version(1.0)]
library Demo {
  [uuid(11223344-5566-7788-99AA-BBCCDDEEFF02)] dispinterface DItem {
    properties:
      [id(1)] long Count; [id(2)] BSTR Name; [id(3)] CURRENCY Price; [id(4)] DECIMAL Exact; \
[id(5)] VARIANT_BOOL Flag;
      [id(6), readonly] long Version; [id(7)] VARIANT Any; [id(8)] SAFEARRAY(short) Grid; [id(-5)] \
unsigned hyper Wide;
    methods:
      [id(9), propget] BSTR Cell([in] long Row, [in] BSTR Key, [in, optional, defaultvalue(1)] \
short Page);
      [id(9), propput] void Cell([in] long Row, [in] BSTR Key, [in, optional, defaultvalue(1)] \
short Page, [in] BSTR Value);
      [id(10)] void Clear();
  };
  [uuid(11223344-5566-7788-99AA-BBCCDDEEFF04)] dispinterface DMore {
    properties:
      [id(1)] short Count; [id(2)] SAFEARRAY(VARIANT) Values; [id(3)] SAFEARRAY(BSTR) Words;
    methods:
      [id(4), propget] SAFEARRAY(CURRENCY) Sums([in, optional] VARIANT Key);
      [id(4), propput] void Sums([in, optional] VARIANT Key, [in] SAFEARRAY(CURRENCY) Value);
      [id(5), propput] void Only([in] unsigned char Place, [in] SAFEARRAY(long) Value);
  };
  [uuid(11223344-5566-7788-99AA-BBCCDDEEFF03)] coclass Item { [default] dispinterface DItem; \
dispinterface DMore; };
  [uuid(11223344-5566-7788-99AA-BBCCDDEEFF06)] coclass Plain { [default] dispinterface DMore; };
};
"""
CELL = (Parameter("Row", I4), Parameter("Key", BSTR), Parameter("Page", I2, default=(I2, 1)))


def first_library():
    """The library above."""
    first = {
        **{
            1: Member("Count", I4),
            2: Member("Name", BSTR),
            3: Member("Price", CY),
            4: Member("Exact", DECIMAL),
            5: Member("Flag", BOOL),
        },
        **{
            6: Member("Version", I4, forms=("get",)),
            7: Member("Any", VARIANT),
            8: Member("Grid", ARRAY + I2),
            -5: Member("Wide", UI8),
        },
        **{9: Member("Cell", BSTR, CELL), 10: Member("Clear", None, method=True)},
    }
    second = {
        **{
            1: Member("Count", I2),
            2: Member("Values", ARRAY + VARIANT),
            3: Member("Words", ARRAY + BSTR),
        },
        4: Member("Sums", ARRAY + CY, (Parameter("Key", VARIANT, optional=True),)),
        5: Member("Only", ARRAY + I4, (Parameter("Place", UI1),), forms=("put",)),
    }
    interfaces = {FIRST_ONE: ("DItem", first), SECOND: ("DMore", second)}
    return Library(
        uuid.UUID("11223344-5566-7788-99aa-bbccddeeff01"),
        interfaces,
        {ITEM: ("Item", [FIRST_ONE, SECOND], FIRST_ONE), PLAIN: ("Plain", [SECOND], SECOND)},
    )


class Model:
    def __init__(self):
        self.next, self.objects, self.image, self.library = 1, {}, 8, first_library()

    def change(self, event, growth):
        """A change whose event has so many bytes, and which adds so many to the image of the
        objects: refused where either is too long."""
        if event > EVENT_LIMIT:
            raise Refusal(E_INVALIDARG)
        if self.image + growth > TABLE_LIMIT:
            raise Refusal(MEDIUM_FULL)
        self.image += growth

    def put(self, cells, name, value):
        place = place_size(name)
        self.change(
            5 + place + image_size(value),
            image_size(value) - image_size(cells[name])
            if name in cells
            else place + image_size(value),
        )
        cells[name] = value

    def interface(self, of, guid):
        if of not in self.objects:
            raise Refusal(DISCONNECTED)
        offered = self.library.offered(self.objects[of][0])
        if guid == uuid.UUID(int=0):
            return offered[0]
        if guid not in offered:
            raise Refusal(E_NOINTERFACE)
        return guid

    @staticmethod
    def bound(member, put, named, arguments):
        """The key, and the new value of a put."""
        parameters = member.parameters
        if len(named) > len(arguments) or len(set(named)) != len(named) or (-3 in named) != put:
            raise Refusal(E_INVALIDARG)
        if len(arguments) - put > len(parameters):
            raise Refusal(BAD_PARAM_COUNT)
        given = {len(arguments) - 1 - i: i for i in range(len(named), len(arguments))}
        for i, dispid in enumerate(named):
            if dispid != -3 and (not 0 <= dispid < len(parameters) or dispid in given):
                raise Refusal(PARAM_NOT_FOUND, i)
        given.update({dispid: i for i, dispid in enumerate(named)})
        is_there = lambda place: place in given and arguments[given[place]] != MISSING
        for place, parameter in enumerate(parameters):
            if not parameter.optional and not is_there(place):
                raise Refusal(PARAM_NOT_OPTIONAL)
        key = []
        for place, parameter in enumerate(parameters):
            if is_there(place):
                value = arguments[given[place]]
                try:
                    if isinstance(value, Array):
                        raise Refusal(TYPE_MISMATCH)
                    key.append(coerced(value, parameter.vt))
                except Refusal as fault:
                    raise Refusal(fault.code, given[place])
            else:
                left = MISSING if parameter.vt == VARIANT else zero(parameter.vt)
                key.append(parameter.default or left)
        if not put:
            return tuple(key), None
        try:
            return tuple(key), coerced(arguments[given[-3]], member.vt)
        except Refusal as fault:
            raise Refusal(fault.code, given[-3])

    def cell(self, call, form=None):
        """The cells of the object, the name of the one that a call is about, its type and its new
        value."""
        interface = self.interface(call["object"], call["interface"])
        if call["riid"]:
            raise Refusal(UNKNOWN_INTERFACE)
        member = self.library.members(interface).get(call["dispid"])
        if member is None:
            raise Refusal(MEMBER_NOT_FOUND)
        flags, put = call["flags"], form == "put"
        if form is None:
            if member.method:
                raise Refusal(E_NOTIMPL if flags & 1 and not flags & 4 else MEMBER_NOT_FOUND)
            form = "put" if flags & 4 else "get" if flags & 2 else None
            put = form == "put"
        else:
            put = False
        if member.method or form not in member.forms:
            raise Refusal(MEMBER_NOT_FOUND)
        key, value = self.bound(member, put, call["named"], call["arguments"])
        return self.objects[call["object"]][1], (interface, call["dispid"], key), member.vt, value

    def array(self, call, form):
        cells, name, vt, _ = self.cell(call, form)
        value = cells.get(name, zero(vt))
        if not isinstance(value, Array):
            raise Refusal(TYPE_MISMATCH)
        return cells, name, value

    def create(self, guid):
        if guid not in self.library.classes:
            raise Refusal(CLASS_NOT_REGISTERED)
        self.change(21, 24)
        self.objects[self.next] = (guid, {})
        self.next += 1
        return struct.pack("<II", self.next - 1, 0)

    def release(self, of):
        if of not in self.objects:
            raise Refusal(DISCONNECTED)
        if any(isinstance(it, Array) and it.locks for it in self.objects[of][1].values()):
            raise Refusal(ARRAY_IS_LOCKED)
        self.change(
            5,
            -24
            - sum([place_size(name) + image_size(it) for name, it in self.objects[of][1].items()]),
        )
        del self.objects[of]
        return b""

    def ids(self, of, guid, names):
        members = self.library.members(self.interface(of, guid))
        found = [-1] * len(names)
        for dispid, member in members.items():
            if fold(member.name) == fold(names[0]):
                places = {fold(p.name): place for place, p in enumerate(member.parameters)}
                found = [dispid, *[places.get(fold(name), -1) for name in names[1:]]]
        fields = oaut.indices_field(found)
        if -1 in found:
            raise Refusal(UNKNOWN_NAME, fields=fields)
        return fields

    def invoke(self, call):
        cells, name, vt, value = self.cell(call)
        if value is None:
            return oaut.variant_field(field(cells.get(name, zero(vt))))
        old = cells.get(name)
        if isinstance(old, Array) and old.locks:
            raise Refusal(ARRAY_IS_LOCKED)
        self.put(
            cells,
            name,
            Array(value.vt, value.bounds, value.cells) if isinstance(value, Array) else value,
        )
        return b""

    def get_element(self, call, indices):
        _, _, array = self.array(call, "get")
        return oaut.variant_field(field(array.cells[array.position(indices)]))

    def put_element(self, call, indices, value):
        _, name, array = self.array(call, "put")
        place = array.position(indices)
        if isinstance(value, Array):
            raise Refusal(TYPE_MISMATCH)
        element = coerced(value, array.vt)
        self.change(
            7 + place_size(name) + 4 * len(indices) + image_size(element),
            image_size(element) - image_size(array.cells[place]),
        )
        array.cells[place] = element
        return b""

    def redim(self, call, bound):
        cells, name, array = self.array(call, "put")
        if array.locks:
            raise Refusal(ARRAY_IS_LOCKED)
        resized = Array(array.vt, array.bounds, array.cells)
        resized.resized(bound)
        if name in cells:
            self.change(13 + place_size(name), image_size(resized) - image_size(array))
            cells[name] = resized
        else:
            self.put(cells, name, resized)
        return b""

    def lock(self, call, step):
        cells, name, array = self.array(call, "get")
        if name not in cells or not 0 <= array.locks + step <= 65_535:
            raise Refusal(E_UNEXPECTED)
        array.locks += step
        return struct.pack("<II", array.locks, 0)

    def listing(self):
        entries = [
            struct.pack("<II", it, 0) + self.objects[it][0].bytes_le for it in sorted(self.objects)
        ]
        return struct.pack("<II", len(entries), 0) + b"".join(entries)

    def index(self, index):
        raise Refusal(BAD_INDEX)

    def replace(self, library):
        """Another library takes the place of this one where it keeps all of it; None is a text that
        is no library."""
        if library is None:
            raise Refusal(BAD_STUB)
        lost = first_lost(library, self.library)
        if lost:
            raise Refusal(E_INVALIDARG, fields=lost[0].bytes_le + struct.pack("<iI", lost[1], 0))
        self.library = library
        return b""
