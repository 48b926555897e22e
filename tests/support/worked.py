"""The worked cases as requests, without their tags, on the model's library: object 1 is an Item
where none else is named. What they are answered is the model's to say."""
import struct
import uuid

from oaut import (
    CELLS,
    GETELEM,
    LOCK,
    PROPERTYGET,
    PROPERTYPUT,
    PUTELEM,
    REDIM,
    UNLOCK,
    ask_call,
    ask_create,
    ask_ids,
    ask_invoke,
    ask_list,
    ask_release,
    ask_type_info,
)
from tests.support.model import (
    BSTR,
    CY,
    DECIMAL,
    EMPTY,
    ERROR,
    FIRST_ONE,
    I1,
    I2,
    I4,
    I8,
    ITEM,
    LIBRARY,
    NULL,
    PLAIN,
    RANGES,
    SCALARS,
    SECOND,
    UI8,
    VARIANT,
    first_library,
)
from tests.support.wire import array, changed, oaut, scalar

COUNT, NAME, PRICE, EXACT, FLAG, VERSION, ANY, GRID, CELL, CLEAR, WIDE = (
    1,
    2,
    3,
    4,
    5,
    6,
    7,
    8,
    9,
    10,
    -5,
)
VALUES, WORDS, SUMS, ONLY = 2, 3, 4, 5  # of the other interface
HI = "Hi".encode("utf-16-le")
LETTER = b"k\0"
DOUBLE = struct.pack("<IIHHHHIId", 4, 0, 5, 0, 0, 0, 5, 0, 0.5)


def put(dispid, field, of=1, named=(oaut.NEW_VALUE,), more=(), interface=oaut.DEFAULT):
    return ask_invoke(of, dispid, PROPERTYPUT, named, [field, *more], interface)


def get(dispid, of=1, named=(), arguments=(), flags=PROPERTYGET, interface=oaut.DEFAULT):
    return ask_invoke(of, dispid, flags, named, arguments, interface)


def call(opcode, dispid, rest=b"", of=1, interface=oaut.DEFAULT, arguments=()):
    return ask_call(opcode, of, dispid, 0, (), arguments, interface) + rest


def element(dispid, *indices, of=1, interface=oaut.DEFAULT):
    return call(GETELEM, dispid, oaut.indices_field(indices), of, interface)


def put_element(dispid, indices, field, of=1, interface=oaut.DEFAULT, arguments=()):
    return call(
        PUTELEM,
        dispid,
        oaut.indices_field(indices) + oaut.variant_field(field),
        of,
        interface,
        arguments,
    )


def redim(dispid, count, lowest, of=1, interface=oaut.DEFAULT):
    return call(REDIM, dispid, struct.pack("<Ii", count, lowest), of, interface)


def replace(library):
    """A REPLACE LIBRARY with a text."""
    return struct.pack("<HHII", 12, 0, len(library), 0) + library + bytes(-len(library) % 8)


i4 = lambda number: scalar(I4, number)
text = lambda content: scalar(BSTR, content)
exact = lambda *raw: scalar(DECIMAL, raw)
GRID_1_TO_6 = array(I2, [(2, -1), (3, 5)], range(1, 7))
OF_VARIANTS = array(VARIANT, [(3, 0)], [(NULL, None), (DECIMAL, (4, 0x80, 12_345)), None])
BLOB = 24  # where the blob of a text's field begins

CREATED = [ask_create(ITEM), get(COUNT), ask_list()]
SCALAR_PROPERTIES = [
    put(COUNT, i4(7)),
    get(COUNT),
    put(NAME, text(None)),
    get(NAME),
    put(NAME, text(b"")),
    get(NAME),
    put(NAME, text(HI)),
    get(NAME),
    put(NAME, text(b"A\0B")),
    get(NAME),
    put(NAME, changed(text(HI), BLOB + 8, "I", 3)),
    put(NAME, changed(text(HI), BLOB, "III", 3, 4, 3) + b"\0\0"),
    put(EXACT, exact(28, 0, 2**96 - 1)),
    get(EXACT),
    put(EXACT, exact(29, 0, 1)),
    put(EXACT, exact(0, 1, 1)),
    *(
        it
        for number in (25_000, 35_000, -25_000)
        for it in (put(COUNT, scalar(CY, number)), get(COUNT))
    ),
    put(COUNT, scalar(I8, 2**31)),
    get(COUNT),
    put(FLAG, scalar(11, 1)),
    get(FLAG),
    put(PRICE, i4(3)),
    get(PRICE),
    put(WIDE, scalar(UI8, 2**64 - 1)),
    get(WIDE),
]
PARAMETERS = [
    put(CELL, text(b"x\0"), named=(-3, 1, 0), more=(text(LETTER), i4(5))),
    get(CELL, arguments=(scalar(I2, 1), text(LETTER), i4(5))),
    get(CELL, arguments=(text(LETTER), i4(5))),
    get(CELL),
    get(CELL, named=(7,), arguments=(text(LETTER), text(LETTER), i4(5))),
    get(CELL, named=(7,), arguments=(text(LETTER), text(LETTER), i4(5), i4(5))),
    get(CELL, named=(0,), arguments=(i4(5), text(LETTER), i4(5))),
    get(CELL, named=(0, 0), arguments=(i4(5), text(LETTER), i4(5))),
    get(CELL, arguments=(text(LETTER), text(b"a\0"))),
    put(CELL, text(b"y\0"), named=(-3, 1, 0), more=(text(LETTER), scalar(CY, 60_000))),
    get(CELL, arguments=(text(LETTER), i4(6))),
    get(CELL, arguments=(DOUBLE, i4(5))),
    get(CELL, arguments=(DOUBLE, i4(5)[:-1])),
]
ARRAYS = [
    put(GRID, GRID_1_TO_6),
    get(GRID),
    element(GRID, 0, 7),
    element(GRID, 1, 7),
    element(GRID, 0),
    put_element(GRID, (-1, 5), i4(40_000)),
    call(LOCK, GRID),
    call(LOCK, GRID),
    redim(GRID, 1, 0),
    put(GRID, GRID_1_TO_6),
    ask_release(1),
    put_element(GRID, (-1, 5), i4(9)),
    call(UNLOCK, GRID),
    call(UNLOCK, GRID),
    call(UNLOCK, GRID),
    redim(GRID, 1, 0),
    get(GRID),
    redim(GRID, 3, 10),
    element(GRID, 10, 7),
    get(GRID),
    redim(GRID, 65_537, 0),
    put(ANY, array(I4, [(0, 0)], [])),
    get(ANY),
    put(ANY, array(I4, [(0, 0)], [], dimensions=0)),
    put(ANY, array(I4, [(0, 0)], [], dimensions=17)),
    put(ANY, OF_VARIANTS),
    get(ANY),
    put(ANY, array(VARIANT, [(1, 0)], [(I2, 7)])),
    get(ANY),
    put_element(ANY, (0,), text(HI)),
    element(ANY, 0),
    redim(ANY, 3, 0),
    get(ANY),
    put(ANY, array(BSTR, [(2, 0), (1, 0)], [HI, b"b\0"])),
    redim(ANY, 3, 0),
    redim(ANY, 1, 5),
    get(ANY),
    put(ANY, array(I4, [(2, 2**31 - 1)], [1, 2])),
    element(ANY, 2**31 - 1),
    element(ANY, -(2**31)),
    put(VALUES, OF_VARIANTS, interface=SECOND.bytes_le),
    put(WORDS, array(BSTR, [(3, 1)], [HI, None, b"abc"]), interface=SECOND.bytes_le),
    put_element(WORDS, (2,), text(HI), interface=SECOND.bytes_le),
    get(WORDS, interface=SECOND.bytes_le),
    put(SUMS, array(CY, [(2, 0)], [1, 2]), more=(text(LETTER),), interface=SECOND.bytes_le),
    get(SUMS, arguments=(text(LETTER),), interface=SECOND.bytes_le),
    call(LOCK, SUMS, arguments=(text(LETTER),), interface=SECOND.bytes_le),
    put(ONLY, array(I4, [(1, 0)], [1]), more=(i4(3),), interface=SECOND.bytes_le),
    put_element(ONLY, (0,), scalar(I1, -1), interface=SECOND.bytes_le, arguments=(i4(3),)),
]
NEVER_PUT = [  # of an object 2
    ask_create(ITEM),
    get(GRID, 2),
    element(GRID, 0, of=2),
    call(LOCK, GRID, of=2),
    call(UNLOCK, GRID, of=2),
    redim(GRID, 2, 0, of=2),
    element(GRID, 1, of=2),
    element(COUNT, 0, of=2),
    get(GRID, 2),
]
NAMES = [
    ask_ids(1, ["cELL", "KEY", "none"]),
    ask_ids(1, ["none", "Key"]),
    ask_ids(1, ["Cell", "Page"]),
    changed(ask_ids(1, ["Cell"]), 28, "I", 1),
    *(ask_type_info(it) for it in range(5)),
]
REFUSALS = [
    b"",
    struct.pack("<HHI", 99, 0, 0),
    changed(ask_create(FIRST_ONE), 4, "I", 0x1122_3344),
    ask_create(FIRST_ONE),
    ask_release(77),
    get(COUNT, flags=3),
    *(get(COUNT, flags=it) for it in (1, 8, 0)),
    put(VERSION, i4(1)),
    *(get(CLEAR, flags=it) for it in (1, 3, 2)),
    get(99),
    changed(get(COUNT), 28, "I", 1),
    get(COUNT, interface=ITEM.bytes_le),
    put(COUNT, i4(1) + b"\0"),
]
GOES = [
    ask_create(PLAIN),
    call(LOCK, GRID, of=2),
    ask_release(2),
    call(UNLOCK, GRID, of=2),
    ask_release(2),
    get(COUNT, 2),
    ask_create(ITEM),
    ask_list(),
]
ALL = [*CREATED, *SCALAR_PROPERTIES, *PARAMETERS, *ARRAYS, *NEVER_PUT, *NAMES, *REFUSALS, *GOES]


def wider_library():
    library = first_library()
    library.classes[THIRD] = ("Third", [SECOND], SECOND)
    return library


# a library with one more coclass, which keeps all that the model's has, and a text that is none
WIDER = (
    LIBRARY.rstrip()[:-2]
    + b"[uuid(11223344-5566-7788-99AA-BBCCDDEEFF07)] coclass Third { dispinterface DMore; }; };"
)
THIRD = uuid.UUID("11223344-5566-7788-99aa-bbccddeeff07")
NO_LIBRARY = LIBRARY.replace(b"SAFEARRAY(short)", b"SAFEARRAY(void)")
REPLACED = [
    ask_create(ITEM),
    put(COUNT, i4(7)),
    replace(NO_LIBRARY),
    put(COUNT, i4(8)),
    call(LOCK, GRID),
    replace(WIDER),
    get(COUNT),
    replace(LIBRARY),
    put(NAME, text(HI)),
]

# a value of each type
SCALAR_VALUES = {
    vt: {
        EMPTY: None,
        NULL: None,
        BSTR: HI,
        DECIMAL: (4, 0x80, 2**95 + 12_345),
        ERROR: 0x8002_0004,
        11: 0xFFFF,
    }.get(vt, RANGES.get(vt, (0, 0))[1])
    for vt in SCALARS
}
ARRAY_VALUES = {
    vt: [(I2, 7), (BSTR, HI)] if vt == VARIANT else [SCALAR_VALUES[vt]] * 2 for vt in CELLS
}
EVERY_TYPE = [ask_create(ITEM)]
for vt in SCALARS:
    EVERY_TYPE += [put(ANY, scalar(vt, SCALAR_VALUES[vt])), get(ANY)]
for vt in CELLS:
    EVERY_TYPE += [
        put(ANY, array(vt, [(2, 0)], ARRAY_VALUES[vt])),
        get(ANY),
        element(ANY, 1),
        redim(ANY, 3, 0),
    ]
