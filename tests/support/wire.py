"""Requests and replies as the lines that the cases and the benchmarks send and expect, by the codec
of the client (clients/python/oaut).
What is to be refused is spelled here, from good bytes that are changed at one place."""
import struct

import oaut
from oaut import ARRAY, CELLS, REFERENT

EMPTY, NULL, I2, I4, CY, BSTR, ERROR, BOOL, VARIANT, DECIMAL = 0, 1, 2, 3, 6, 8, 10, 11, 12, 14
I1, UI1, UI2, UI4, I8, UI8, INT, UINT = 16, 17, 18, 19, 20, 21, 22, 23

aligned = lambda out, unit: out + bytes(-len(out) % unit)
# the field of a scalar, a variant field of a record, and a string of a record
scalar, field, string = oaut.scalar_field, oaut.variant_field, oaut.string_field


def changed(out, place, form, *numbers):
    """The same bytes with other numbers at one place."""
    changed = bytearray(out)
    struct.pack_into("<" + form, changed, place, *numbers)
    return bytes(changed)


def array(vt, bounds, cells, count=None, dimensions=None, second=REFERENT):
    """The field of an array. `count`, `dimensions` and `second` spoil it: what stands for the
    number of cells, of bounds, and the second referent. Of a type without arrays it is one of I4
    under that type's number."""
    out = oaut.array_field(vt if vt in CELLS else I4, bounds, cells)
    if vt not in CELLS:
        out = changed(changed(out, 8, "H", ARRAY + vt & 0xFFFF), 42, "H", vt)
    if count is not None:
        out = changed(changed(out, 48, "I", count), 56 + 8 * len(bounds), "I", count)
    if dimensions is not None:
        out = changed(out, 28, "IH", dimensions, dimensions)
    return out[:24] + second + out[28:]


def zero_array(vt):
    """The field of an array with one bound and no cells."""
    return array(vt, [(0, 0)], [])


def line(tag, request):
    """A request, as a line."""
    return (struct.pack("<I", tag) + request).hex().encode() + b"\n"


def invoke(tag, object, dispid, flags, named, arguments, interface=oaut.DEFAULT):
    """An INVOKE of an interface, of the default one where none is given, as a line."""
    return line(tag, oaut.ask_invoke(object, dispid, flags, named, arguments, interface))


def put(tag, object, dispid, value, interface=oaut.DEFAULT):
    """A put of a property."""
    return invoke(tag, object, dispid, oaut.PROPERTYPUT, [oaut.NEW_VALUE], [value], interface)


def get(tag, object, dispid, interface=oaut.DEFAULT):
    """A get of a property."""
    return invoke(tag, object, dispid, oaut.PROPERTYGET, [], [], interface)


def get_ids(tag, object, names):
    """A GETIDS of the default interface, as a line."""
    return line(tag, oaut.ask_ids(object, names))


def type_info(tag, index):
    """A TYPEINFO, as a line."""
    return line(tag, oaut.ask_type_info(index))


def release(tag, object):
    """A RELEASE, as a line."""
    return line(tag, oaut.ask_release(object))


def live_objects(tag):
    """A LIST, as a line."""
    return line(tag, oaut.ask_list())


def objects(coclass, numbers):
    """The fields of a reply to a LIST of objects of one coclass, whose GUID is spelled so on the
    wire."""
    return struct.pack("<II", len(numbers), 0) + b"".join(
        [struct.pack("<II", number, 0) + coclass for number in numbers]
    )


def reply(tag, code=0, index=oaut.NO_INDEX, fields=b""):
    """A reply, as a line."""
    return (struct.pack("<IIII", tag, code, index, 0) + fields).hex().encode() + b"\n"


def ids(dispids):
    """The fields of a reply to a GETIDS."""
    return oaut.indices_field(dispids)


def parameter(vt, flags, name, default=None):
    """A parameter of a description; flag 0x20 comes with a default."""
    return (
        struct.pack("<HHI", vt, flags, 0)
        + string(name)
        + (b"" if default is None else field(default))
    )


def member(dispid, kind, flags, vt, name, parameters=()):
    """A member of a description."""
    return (
        struct.pack("<iHHHHI", dispid, kind, flags, vt, len(parameters), 0)
        + string(name)
        + b"".join(parameters)
    )


def interface(guid, name, members):
    """The description of an interface whose GUID is spelled so on the wire."""
    return struct.pack("<II", 4, len(members)) + guid + string(name) + b"".join(members)


def replacement(tag, text, length=None, more=b""):
    """A REPLACE LIBRARY, as a line. `length` and `more` spoil it: what stands for the text's
    length, and bytes behind its padding."""
    return line(
        tag,
        struct.pack("<HHII", 12, 0, len(text) if length is None else length, 0)
        + aligned(text, 8)
        + more,
    )


def lost(tag, guid, dispid):
    """The reply to one that is refused for what it would lose: the GUID, spelled as on the wire,
    and the DISPID, or -1."""
    return reply(tag, 0x8007_0057, fields=guid + struct.pack("<iI", dispid, 0))
