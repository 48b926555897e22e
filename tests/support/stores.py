"""Stores that the cases begin with, their events, and sessions over them."""
import functools
import struct

from tests.support import store, wire, worked
from tests.support.model import first_library
from tests.support.running import FULL_TEXT, SMALL, SMALL_TEXT, Cases
from tests.support.wire import oaut

CLASS, FACE = (bytes.fromhex("443322116655887799aabbccddeeff" + last) for last in ("03", "02"))
CREATED_1 = b"\1" + struct.pack("<I", 1) + CLASS
# where the body of bank 0 stands in each format, and of bank 1 in a store of format 2 as long as it
# is where nothing is said
BODIES = {1: 8_224, 2: 33_562_624}
BODY_1 = 54_534_144
# a store of the small library without objects, and one of the full library with object 1
NEW, WITH_ITEM = bytes(store.formatted(SMALL_TEXT)), bytes(
    store.add(store.formatted(FULL_TEXT), CREATED_1)
)
TEXT_NAME = 2  # the BSTR of the full library
# the sizes of the groups that cases of `serve` have, where they name none
GROUPS = (1, 2, 3, 4, 1_024)


def put_of(value):
    """The event that puts a long into object 1."""
    return b"\3" + struct.pack("<I", 1) + FACE + struct.pack("<iHHi", 1, 0, 3, value)


def put(tag, value):
    return wire.put(tag, 1, 1, wire.scalar(wire.I4, value))


def get(tag):
    return wire.get(tag, 1, 1)


def got(tag, value):
    return wire.reply(tag, fields=wire.field(wire.scalar(wire.I4, value)))


def table(value=None, next=2):
    """The dump of a store with object 1, whose Count was put."""
    cell = (
        ""
        if value is None
        else "cell %s 1 - 0300%s\n" % (store.guid_text(FACE), struct.pack("<i", value).hex())
    )
    return f"next {next}\nobject 1 {store.guid_text(CLASS)}\n{cell}"


# a store of the small library with object 1, whose Count is 7, in two groups, and its dump
PUT_7 = put_of(7)
TWO, ONE = bytes(store.add(bytearray(NEW), CREATED_1, PUT_7)), table(7)
# the same store in format 1, as a program of before has left it
OLD = bytes(store.add(store.formatted_before(SMALL_TEXT), CREATED_1, PUT_7))


def changed(disk, at, *bytes):
    """The same disk with other bytes from one place on."""
    disk = bytearray(disk)
    disk[at : at + len(bytes)] = bytes
    return disk


def text_put(value, tag=1):
    """The event that puts a text into object 1 of the full library, and the request."""
    name = struct.pack("<I", 1) + FACE + struct.pack("<iH", TEXT_NAME, 0)
    return b"\3" + name + struct.pack("<HI", 8, len(value)) + value, wire.put(
        tag, 1, TEXT_NAME, wire.scalar(wire.BSTR, value)
    )


# requests that lead to what the store below holds, and some that a session over it has: a get, and
# then one that makes the checkpoint
LONG = b"n\0" * 70_000
DUE_BEFORE = [
    oaut.ask_create(worked.ITEM),
    worked.put(worked.ANY, worked.text(LONG)),
    worked.put(worked.NAME, worked.text(worked.HI)),
    worked.put(worked.GRID, worked.GRID_1_TO_6),
]
DUE_ASKED = [
    worked.get(worked.COUNT),
    worked.put(worked.COUNT, worked.i4(7)),
    worked.put(worked.GRID, worked.GRID_1_TO_6),
    oaut.ask_create(worked.ITEM),
    oaut.ask_release(1),
]


@functools.lru_cache(maxsize=1)
def nearly_full():
    """A store of the model's library in which a checkpoint is due: its bank is nearly full of
    groups, and its table has a text of some pieces."""
    cell = lambda dispid: b"\3" + struct.pack("<I", 1) + FACE + struct.pack("<iH", dispid, 0)
    long = cell(worked.ANY) + struct.pack("<HI", 8, len(LONG)) + LONG
    grid = cell(worked.GRID) + struct.pack("<HHIiIi6h", 0x2002, 2, 2, -1, 3, 5, *range(1, 7))
    fillers = [text_put(bytes(262_144))[0]] * 62
    return bytes(
        store.add(
            store.formatted(first_library().text()),
            CREATED_1,
            long,
            *fillers,
            text_put(worked.HI)[0],
            grid,
        )
    )


def words(*more):
    return ["serve", "it.store", "lib.idl", *more]


class Served(Cases):
    def serves(self, name, given, status, out, err, disk, left, *more, library=SMALL, **how):
        """A session over a store, and what it leaves."""
        self.leaves(
            f"serve: {name}",
            words(*more),
            status,
            out,
            err,
            {"lib.idl": library, "it.store": disk},
            {"it.store": left},
            given=given,
            **how,
        )
