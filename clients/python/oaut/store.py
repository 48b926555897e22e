"""Reads a store's file, in either format, by docs/reference/store.md and docs/reference/images.md
alone: it shares no code with the crates. It also makes stores for tests: new ones, added groups,
checkpoints and upgrades.

`read` returns a `Store`, or raises `NotAStore` or `Damaged` with the program's message. It keeps
everything in memory; files.py reads a file piece by piece."""
from __future__ import annotations

import functools
import struct
import typing

# the places of the selector and of the heads of the two banks, in both formats
SELECTOR, HEADS = 4_096, (8_192, 16_785_408)
# the least size of a store of format 1; the bodies of format 2 are after it
LEAST = 33_562_624
# the size of a bank's body in bytes: in format 1, the default in format 2, and the greatest
OLD_BANK, BANK, MOST_BANK = 16_777_184, 20_971_520, 1_073_741_824
# how many bytes of a bank are kept free of the table's image in format 2; and the greatest image in
# format 1
KEPT_FREE, OLD_LIMIT = 5_242_880, 14_680_064
# a checkpoint is made before a group if less than this is free after the others
CHECKPOINT = 4_718_597
# magic, format, length of the library, length of the snapshot, the size of a bank and zeros: in
# format 1 all of these last are 0
HEAD = struct.Struct("<8sIIII8s")
EMPTY, NULL, I2, I4, CY, BSTR, ERROR, BOOL, VARIANT, DECIMAL = 0, 1, 2, 3, 6, 8, 10, 11, 12, 14
I1, UI1, UI2, UI4, I8, UI8, INT, UINT = 16, 17, 18, 19, 20, 21, 22, 23
ARRAY = 0x2000
# numbers of a type, as struct names them
NUMBERS = {
    I1: "b",
    UI1: "B",
    I2: "h",
    UI2: "H",
    I4: "i",
    UI4: "I",
    INT: "i",
    UINT: "I",
    I8: "q",
    UI8: "Q",
    CY: "q",
    ERROR: "I",
}
SIZES = {EMPTY: 0, NULL: 0, BOOL: 1, DECIMAL: 14}
SIZES.update({vt: struct.calcsize(form) for vt, form in NUMBERS.items()})
OF_ARRAYS = {I1, UI1, I2, UI2, I4, UI4, INT, UINT, I8, UI8, CY, BOOL, BSTR, VARIANT}
NO_TEXT, TEXT_LIMIT, CELL_LIMIT, USED_UP = 0xFFFF_FFFF, 1_048_576, 65_536, 0xFFFF_FFFF
# the content of the null text
NULL_TEXT = struct.pack("<I", NO_TEXT)


# bytes, however they are held
Data = typing.Union[bytes, bytearray, memoryview]


class NotAStore(Exception):
    """The bytes are no store: too few, or never formatted to the end."""

    def __str__(self) -> str:
        return "not a store"


class Damaged(Exception):
    """It contains the place of the disk."""

    def __str__(self) -> str:
        return f"damaged at {self.args[0]}"


class NoImage(Exception):
    """Bytes that are the image of nothing, or an event that does not apply."""


# a scalar is a pair of its type and the bytes of its content
Scalar = tuple[int, bytes]
Bound = tuple[int, int]
# a cell of an array: of VARIANT a scalar, else its content
Cell = typing.Union[bytes, Scalar]


class Array(typing.NamedTuple):
    """The cells are by their positions: contents, in an array of VARIANT scalars."""

    vt: int
    bounds: list[Bound]
    cells: list[Cell]


Value = typing.Union[Scalar, Array]
# the place of a cell: an interface's GUID in wire order, a DISPID, and scalars
Place = tuple[bytes, int, tuple[Scalar, ...]]
Cells = dict[Place, Value]
# of each object's number its class and its cells
Objects = dict[int, tuple[bytes, Cells]]


class Group(typing.NamedTuple):
    """A group: the place of its gate, and how many events it has."""

    place: int
    events: int


class Store(typing.NamedTuple):
    """The contents of a store and their offsets: the bank in use, the offset of its closed gate,
    its groups, its format, the end of its body."""

    library: bytes
    next: int
    objects: Objects
    chosen: int
    gate: int
    groups: list[Group]
    format: int
    end: int


class Bytes:
    """A cursor over bytes."""

    def __init__(self, data: Data, place: int = 0, end: int | None = None) -> None:
        self.data, self.place, self.end = data, place, len(data) if end is None else end

    def take(self, count: int) -> bytes:
        place, self.place = self.place, self.place + count
        if self.place > self.end:
            raise NoImage
        return bytes(self.data[place : self.place])

    def numbers(self, form: str) -> tuple[int, ...]:
        return struct.unpack("<" + form, self.take(struct.calcsize("<" + form)))

    def number(self, form: str) -> int:
        return self.numbers(form)[0]

    def bound(self) -> Bound:
        count, lowest = self.numbers("Ii")
        return count, lowest


def need(fact: object) -> None:
    """Raises NoImage if a fact is none."""
    if not fact:
        raise NoImage


# --- values


def content(source: Bytes, vt: int) -> bytes:
    """The content of a scalar of a type."""
    if vt == BSTR:
        count = source.take(4)
        length = struct.unpack("<I", count)[0]
        if length == NO_TEXT:
            return count
        need(length <= TEXT_LIMIT)
        return count + source.take(length)
    need(vt in SIZES)
    found = source.take(SIZES[vt])
    if vt == BOOL:
        need(found[0] in (0, 1))
    if vt == DECIMAL:
        need(found[0] <= 28 and found[1] in (0, 1))
    return found


def scalar(source: Bytes) -> Scalar:
    """A scalar."""
    vt = source.number("H")
    return vt, content(source, vt)


def value(source: Bytes) -> Value:
    """A value: a scalar or an array."""
    vt = source.number("H")
    if not vt & ARRAY:
        return vt, content(source, vt)
    of = vt - ARRAY
    need(of in OF_ARRAYS)
    count = source.number("H")
    need(1 <= count <= 16)
    bounds = [source.bound() for _ in range(count)]
    cells = cells_of(bounds)
    need(cells <= CELL_LIMIT)
    if of == VARIANT:
        return Array(of, bounds, [scalar(source) for _ in range(cells)])
    return Array(of, bounds, [content(source, of) for _ in range(cells)])


def cells_of(bounds: typing.Iterable[Bound]) -> int:
    """How many cells some bounds have."""
    count = 1
    for size, _ in bounds:
        count *= size
    return count


def scalar_image(it: Scalar) -> bytes:
    """The image of a scalar."""
    return struct.pack("<H", it[0]) + it[1]


def value_image(it: Value) -> bytes:
    """The image of a value."""
    if not isinstance(it, Array):
        return scalar_image(it)
    head = struct.pack("<HH", ARRAY + it.vt, len(it.bounds))
    head += b"".join(struct.pack("<Ii", *bound) for bound in it.bounds)
    return head + b"".join(
        scalar_image(cell) if isinstance(cell, tuple) else cell for cell in it.cells
    )


def zero(vt: int) -> Cell:
    """The zero of a type of cells."""
    if vt == VARIANT:
        return EMPTY, b""
    return NULL_TEXT if vt == BSTR else bytes(SIZES[vt])


# --- places of cells


def place_image(it: Place) -> bytes:
    """The image of the place of a cell."""
    guid, dispid, key = it
    return guid + struct.pack("<iH", dispid, len(key)) + b"".join(map(scalar_image, key))


def place(source: Bytes) -> Place:
    """The place of a cell."""
    guid = source.take(16)
    dispid, count = source.numbers("iH")
    return guid, dispid, tuple(scalar(source) for _ in range(count))


def text_order(guid: bytes) -> bytes:
    """A GUID in the order in which it is printed, so as a number of 128 bits."""
    return guid[3::-1] + guid[5:3:-1] + guid[7:5:-1] + guid[8:]


def guid_text(guid: bytes) -> str:
    """A GUID as it is printed."""
    digits = text_order(guid).hex()
    return "-".join((digits[:8], digits[8:12], digits[12:16], digits[16:20], digits[20:]))


@functools.lru_cache(maxsize=65_536)
def rank(it: Scalar) -> tuple[object, ...]:
    """The sort key of a scalar."""
    vt, found = it
    if vt == DECIMAL:
        scale, minus, high, low = struct.unpack("<BBIQ", found)
        return vt, minus, scale, high << 64 | low
    if vt == BSTR:
        return (vt, 0) if found == NULL_TEXT else (vt, 1, found[4:])
    if vt in NUMBERS:
        return vt, struct.unpack("<" + NUMBERS[vt], found)[0]
    return vt, found


def place_order(it: Place) -> tuple[bytes, int, list[tuple[object, ...]]]:
    """The sort key of the places of cells."""
    guid, dispid, key = it
    return text_order(guid), dispid, [rank(one) for one in key]


# --- tables and events


def table(source: Bytes) -> tuple[int, Objects]:
    """A next number, and of each object's number its class and its cells."""
    next_number, count = source.numbers("II")
    need(next_number > 0)
    objects, last = {}, 0
    for _ in range(count):
        number, guid, size = source.number("I"), source.take(16), source.number("I")
        need(last < number < next_number)
        cells, before = {}, None
        for _ in range(size):
            where = place(source)
            need(before is None or place_order(before) < place_order(where))
            cells[where] = value(source)
            before = where
        objects[number] = (guid, cells)
        last = number
    need(source.place == source.end)
    return next_number, objects


def apply(source: Bytes, next_number: int, objects: Objects) -> int:
    """The next number after the next event, which changes the objects."""
    kind, number = source.numbers("BI")
    if kind == 1:
        need(number == next_number != USED_UP)
        objects[number] = (source.take(16), {})
        return next_number + 1
    if kind == 2:
        need(objects.pop(number, None))
        return next_number
    need(kind in (3, 4, 5) and number in objects)
    cells = objects[number][1]
    where = place(source)
    if kind == 3:
        cells[where] = value(source)
        return next_number
    found = cells.get(where)
    if not isinstance(found, Array):
        raise NoImage
    cells[where] = changed_array(found, kind, source)
    return next_number


def changed_array(found: Array, kind: int, source: Bytes) -> Array:
    """Returns an array after the rest of a log record that puts an element (kind 4) or changes
    its bounds (5). The result may share the cells of the array."""
    if kind == 5:
        bounds = [source.bound(), *found.bounds[1:]]
        count = cells_of(bounds)
        need(count <= CELL_LIMIT)
        kept = found.cells[:count]
        return Array(found.vt, bounds, kept + [zero(found.vt)] * (count - len(kept)))
    indices = source.numbers(f"{source.number('H')}i")
    new = scalar(source)
    need(len(indices) == len(found.bounds))
    position = 0
    for index, (size, lowest) in zip(indices, found.bounds):
        need(lowest <= index < lowest + size)
        position = position * size + index - lowest
    need(found.vt in (VARIANT, new[0]))
    found.cells[position] = new if found.vt == VARIANT else new[1]
    return found


def table_image(next_number: int, objects: Objects) -> bytes:
    """The image of a table."""
    out = [struct.pack("<II", next_number, len(objects))]
    for number, (guid, cells) in sorted(objects.items()):
        out.append(struct.pack("<I", number) + guid + struct.pack("<I", len(cells)))
        for where in sorted(cells, key=place_order):
            out.append(place_image(where) + value_image(cells[where]))
    return b"".join(out)


# --- the store


def length_of(bank: int) -> int:
    """How many bytes a store of format 2 takes whose banks have so many."""
    return LEAST + 2 * bank


def body_of(form: int, chosen: int, bank: int) -> int:
    """The offset of a bank's body."""
    return HEADS[chosen] + HEAD.size if form == 1 else LEAST + chosen * bank


def head_of(form: int, library: bytes, snapshot: bytes, bank: int) -> bytes:
    """The bytes of a bank's head."""
    return head_image(form, len(library), len(snapshot), bank)


def head_image(form: int, library: int, snapshot: int, bank: int) -> bytes:
    """Returns the head with the lengths of its library and of its snapshot, and with its size."""
    magic = b"OAUTBK0%d" % form
    return HEAD.pack(magic, form, library, snapshot, 0 if form == 1 else bank, bytes(8))


def head_told(head: Data, at: int, length: int) -> tuple[int, int, int, int]:
    """The format of the bank that has this head, the lengths of its library and of its snapshot,
    and its size. The head is at that place of a disk of that length."""
    if len(head) < HEAD.size:
        raise NotAStore
    magic, form, library, snapshot, bank, zeros = HEAD.unpack(head)
    if (magic, form, bank) == (b"OAUTBK01", 1, 0):
        bank = OLD_BANK
    elif (magic, form) != (b"OAUTBK02", 2) or not BANK <= bank <= MOST_BANK:
        raise Damaged(at)
    elif length < length_of(bank):
        raise Damaged(at)
    if zeros != bytes(8) or library + snapshot >= bank:
        raise Damaged(at)
    return form, library, snapshot, bank


def told(data: Data, at: int) -> tuple[int, int, int, int]:
    """Returns the same fields of the head at a place of a disk's bytes."""
    return head_told(bytes(data[at : at + HEAD.size]), at, len(data))


def read(data: Data) -> Store:
    """Reads the bytes of a disk."""
    if len(data) < LEAST or data[0] != 1:
        raise NotAStore
    chosen = data[SELECTOR] % 2
    form, library_length, snapshot_length, bank = told(data, HEADS[chosen])
    body = body_of(form, chosen, bank)
    end = body + bank
    snapshot = body + library_length
    gate = snapshot + snapshot_length
    try:
        next_number, objects = table(Bytes(data, snapshot, gate))
    except NoImage:
        raise Damaged(snapshot) from None
    groups = []
    while data[gate] == 1:
        try:
            length = Bytes(data, gate + 1, end).number("I")
            events = Bytes(data, gate + 5, gate + 5 + length)
            need(length and events.end < end)
            count = 0
            while events.place < events.end:
                next_number = apply(events, next_number, objects)
                count += 1
        except NoImage:
            raise Damaged(gate) from None
        groups.append(Group(gate, count))
        gate = events.end
    return Store(bytes(data[body:snapshot]), next_number, objects, chosen, gate, groups, form, end)


def room(store: Store) -> int:
    """How many bytes the bank in use has from its closed gate on."""
    return store.end - store.gate


def lines(store: Store) -> typing.Iterator[str]:
    """The lines of the dump of a store."""
    yield f"next {store.next}\n"
    for number, (guid, cells) in sorted(store.objects.items()):
        yield f"object {number} {guid_text(guid)}\n"
        for where in sorted(cells, key=place_order):
            key = "".join(scalar_image(it).hex() for it in where[2])
            told = value_image(cells[where]).hex()
            yield f"cell {guid_text(where[0])} {where[1]} {key or '-'} {told}\n"


def dump(data: Data) -> str:
    """The text that `oaut dump` prints for a store."""
    return "".join(lines(read(data)))


# --- stores that a test makes


NO_OBJECTS = struct.pack("<II", 1, 0)


def laid(
    disk: bytearray, form: int, chosen: int, library: bytes, snapshot: bytes, bank: int
) -> bytearray:
    """Returns the same disk with a bank without groups, which is the one in use."""
    at, body = HEADS[chosen], body_of(form, chosen, bank)
    disk[at : at + HEAD.size] = head_of(form, library, snapshot, bank)
    disk[body : body + len(library) + len(snapshot) + 1] = library + snapshot + b"\0"
    disk[SELECTOR] = chosen
    return disk


def filled(before: bytes, size: int) -> bytearray:
    """So many times a byte."""
    return bytearray(size) if before == b"\0" else bytearray(before * size)


def formatted(
    library: bytes, bank: int = BANK, size: int | None = None, before: bytes = b"\0"
) -> bytearray:
    """A disk that was filled with a byte and then formatted for the canonical text of a library."""
    disk = filled(before, size or length_of(bank))
    disk[0] = 1
    return laid(disk, 2, 0, library, NO_OBJECTS, bank)


def formatted_before(library: bytes, size: int = LEAST, before: bytes = b"\0") -> bytearray:
    """A new store in format 1, as earlier programs made it."""
    disk = filled(before, size)
    disk[0] = 1
    return laid(disk, 1, 0, library, NO_OBJECTS, OLD_BANK)


def settled(disk: Data, library: bytes | None = None) -> bytearray:
    """A store after a checkpoint, with another library if one is given."""
    found = read(disk)
    bank = told(disk, HEADS[found.chosen])[3]
    snapshot = table_image(found.next, found.objects)
    text = library or found.library
    return laid(bytearray(disk), found.format, 1 - found.chosen, text, snapshot, bank)


def upgraded(disk: Data, bank: int = BANK) -> bytearray:
    """A store of format 1 after its upgrade."""
    found = read(disk)
    longer = bytearray(disk) + bytes(max(0, length_of(bank) - len(disk)))
    snapshot = table_image(found.next, found.objects)
    return laid(longer, 2, 1 - found.chosen, found.library, snapshot, bank)


def add(disk: bytearray, *groups: bytes) -> bytearray:
    """Adds groups to a store's bytes, each the images of its events."""
    gate = read(disk).gate
    for events in groups:
        group = b"\1" + struct.pack("<I", len(events)) + events
        disk[gate : gate + len(group) + 1] = group + b"\0"
        gate += 5 + len(events)
    return disk
