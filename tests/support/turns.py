"""Turns of a session: a pair of a request and its reply, each a call that makes the line of a tag.
The object is that of number 1 where none is named."""
import struct

from tests.support import wire
from tests.support.codes import BAD_INDEX, UNKNOWN_NAME
from tests.support.running import CREATE

NO_INDEX = wire.oaut.NO_INDEX
COCLASS = bytes.fromhex("443322116655887799aabbccddeeff03")


def i4(number):
    return wire.scalar(wire.I4, number)


def i2(number):
    return wire.scalar(wire.I2, number)


def bstr(it):
    return wire.scalar(wire.BSTR, it.encode("utf-16-le"))


DOUBLE = 5
FOUR = i4(4)
# a value of a type outside the profile
HALF = struct.pack("<IIHHHHIId", 4, 0, DOUBLE, 0, 0, 0, DOUBLE, 0, 0.5)
HI = bytes.fromhex(
    "0500000000000000080000000000000008000000000002000200000004000000" "0200000048006900"
)
MISSED, NO_VALUE, NO_TEXT = (
    wire.scalar(wire.ERROR, 0x8002_0004),
    wire.scalar(wire.EMPTY),
    wire.scalar(wire.BSTR),
)


def calls(dispid, flags, named, values, code=0, index=NO_INDEX):
    return (
        lambda tag: wire.invoke(tag, 1, dispid, flags, named, values),
        lambda tag: wire.reply(tag, code, index),
    )


def puts(dispid, value, code=0, index=NO_INDEX):
    return calls(dispid, 4, [-3], [value], code, index)


def gets(dispid, value):
    return (
        lambda tag: wire.get(tag, 1, dispid),
        lambda tag: wire.reply(tag, fields=wire.field(value)),
    )


def reads(dispid, named, values, value):
    """A get with arguments, and the value that it tells."""
    return (
        lambda tag: wire.invoke(tag, 1, dispid, 2, named, values),
        lambda tag: wire.reply(tag, fields=wire.field(value)),
    )


def through(last, object, dispid, flags, named, values, code=0, value=None):
    """A call through the interface whose GUID ends so, and the value that it tells."""
    guid = bytes.fromhex("443322116655887799aabbccddeeff") + bytes([last])
    return (
        lambda tag: wire.invoke(tag, object, dispid, flags, named, values, guid),
        lambda tag: wire.reply(tag, code, fields=b"" if value is None else wire.field(value)),
    )


def creates(number):
    return (
        lambda tag: (struct.pack("<I", tag) + bytes.fromhex(CREATE.decode())[4:]).hex().encode()
        + b"\n",
        lambda tag: wire.reply(tag, fields=struct.pack("<II", number, 0)),
    )


def releases(number, code=0):
    return (lambda tag: wire.release(tag, number), lambda tag: wire.reply(tag, code))


def lists(*numbers):
    return (wire.live_objects, lambda tag: wire.reply(tag, fields=wire.objects(COCLASS, numbers)))


def of(number, dispid, value, code=0):
    """A get of an object's property."""
    return (
        lambda tag: wire.get(tag, number, dispid),
        lambda tag: wire.reply(tag, code, fields=b"" if code else wire.field(value)),
    )


def puts_of(number, dispid, value, code=0):
    return (lambda tag: wire.put(tag, number, dispid, value), lambda tag: wire.reply(tag, code))


def looks_up(names, dispids):
    code = UNKNOWN_NAME if -1 in dispids else 0
    return (
        lambda tag: wire.get_ids(tag, 1, names),
        lambda tag: wire.reply(tag, code, fields=wire.ids(dispids)),
    )


def describes(index, fields=None):
    code = BAD_INDEX if fields is None else 0
    return (
        lambda tag: wire.type_info(tag, index),
        lambda tag: wire.reply(tag, code, fields=fields or b""),
    )
