"""The contents of a bank, object by object and cell by cell in order, in memory that does not grow
with it. The snapshot is read as a stream. The log records of the groups are sorted by the cells
that they change, on disk if they are many, and merged into it."""
from __future__ import annotations

import contextlib
import functools
import heapq
import itertools
import marshal
import os
import struct
import tempfile
import typing

from . import store as stores
from .files import Bank, Unusable, put, runs

# how much is read and written at once, and how many bytes of entries are sorted in memory
READ, WRITTEN, SORTED = 262_144, 1_048_576, 20_971_520
# how many entries of a run are read at once, and what each takes beside its key
CHUNK, ENTRY = 64, 280
CREATE, RELEASE, PUT, PUT_ELEMENT, REDIM = 1, 2, 3, 4, 5
OBJECT = struct.Struct("<I16sI")
NUMBER = struct.Struct(">I")
_SHORT, _PLACE = struct.Struct("<H"), struct.Struct(">16sI")
# types whose content is any bytes of a size
_PLAIN = {vt: size for vt, size in stores.SIZES.items() if vt not in (stores.BOOL, stores.DECIMAL)}

# Of an object its number, nothing, its coclass and None; of a cell the object's number, bytes that
# sort as its place does, and the images of its place and of its value.
Row = tuple[int, bytes, bytes, typing.Optional[bytes]]
Rows = typing.Iterator[Row]
# A log record of a cell: the object's number and the sorting bytes of its place, the offset of the
# place in the file, the kind, and the number of bytes of the place and after it.
Entry = tuple[bytes, int, int, int, int]


class Source(stores.Bytes):
    """A cursor over a part of a file, which reads ahead as far as a place."""

    def __init__(self, file: int, place: int, end: int, ahead: int = 0) -> None:
        super().__init__(b"", place, end)
        self.file, self.at, self.window, self.ahead = file, place, b"", max(end, ahead)

    def take(self, count: int) -> bytes:
        first = self.place - self.at
        last = first + count
        if self.place + count > self.end:
            raise stores.NoImage
        if last > len(self.window) or first < 0:
            self.at, size = self.place, max(count, min(READ, self.ahead - self.place))
            self.window = os.pread(self.file, size, self.place)
            first, last = 0, count
            stores.need(len(self.window) >= count)
        self.place += count
        return self.window[first:last]

    def since(self, place: int) -> bytes:
        """The bytes from a place on that was passed."""
        if place >= self.at:
            return self.window[place - self.at : self.place - self.at]
        return os.pread(self.file, self.place - place, place)


# --- places that sort as bytes


@functools.lru_cache(maxsize=4_096)
def _member_key(image: bytes) -> bytes:
    """The sorting bytes of an interface and a DISPID."""
    dispid = int.from_bytes(image[16:20], "little", signed=True)
    return _PLACE.pack(stores.text_order(image[:16]), dispid + (1 << 31))


def scalar_key(it: stores.Scalar) -> bytes:
    """Bytes that sort as scalars do, none of which begins another one."""
    vt, found = it
    if vt == stores.BSTR:
        null = found == stores.zero(stores.BSTR)
        told = b"\0" if null else b"\1" + found[4:].replace(b"\0", b"\0\xff") + b"\0\0"
    elif vt == stores.DECIMAL:
        scale, minus, high, low = struct.unpack("<BBIQ", found)
        told = struct.pack(">BBIQ", minus, scale, high, low)
    elif vt in stores.NUMBERS:
        form = stores.NUMBERS[vt]
        size = len(found)
        signed = form.islower()
        number = int.from_bytes(found, "little", signed=signed)
        told = (number + (1 << 8 * size - 1 if signed else 0)).to_bytes(size, "big")
    else:
        told = found
    return struct.pack(">H", vt) + told


def place_of(source: Source) -> tuple[bytes, bytes]:
    """The image of the next place, and bytes that sort as it does."""
    image = source.take(22)
    key = _member_key(image[:20])
    (count,) = _SHORT.unpack_from(image, 20)
    if not count:
        return image, key + b"\0"
    begun = source.place
    parts = [key]
    for _ in range(count):
        parts += b"\1", scalar_key(stores.scalar(source))
    return image + source.since(begun), b"".join(parts) + b"\0"


def value_of(source: Source) -> bytes:
    """The image of the next value."""
    begun = source.place
    (vt,) = _SHORT.unpack(source.take(2))
    if vt in _PLAIN:
        source.take(_PLAIN[vt])
    else:
        source.place = begun
        stores.value(source)
    return source.since(begun)


# --- the snapshot


def snapshot(file: int, bank: Bank, given: Source | None = None) -> Rows:
    """The rows of a bank's snapshot. Raises Damaged if it is no image of a table. A cursor that is
    given may have more bytes than the image."""
    try:
        source = given or Source(file, bank.table, bank.gates)
        next_number, count = source.numbers("II")
        last = 0
        stores.need(next_number)
        for _ in range(count):
            number, coclass, cells = OBJECT.unpack(source.take(OBJECT.size))
            stores.need(last < number < next_number)
            yield number, b"", coclass, None
            before = b""
            for _ in range(cells):
                image, key = place_of(source)
                stores.need(before < key)
                yield number, key, image, value_of(source)
                before = key
            last = number
        stores.need(given or source.place == source.end)
    except stores.NoImage:
        raise stores.Damaged(bank.table) from None


# --- the groups


class Sorted:
    """Entries in their order, which are added in any."""

    def __init__(self) -> None:
        self.held: list[Entry] = []
        self.size = 0
        self.runs: list[tuple[int, int]] = []
        self.file: typing.BinaryIO | None = None

    def add(self, entry: Entry) -> None:
        self.held.append(entry)
        self.size += len(entry[0]) + ENTRY
        if self.size > SORTED:
            self.spill()

    def spill(self) -> None:
        """Brings what is held in memory to a file without a name."""
        if self.file is None:
            self.file = typing.cast(typing.BinaryIO, tempfile.TemporaryFile())
        begun = self.file.tell()
        self.held.sort()
        for at in range(0, len(self.held), CHUNK):
            some = marshal.dumps(self.held[at : at + CHUNK])
            self.file.write(len(some).to_bytes(4, "little") + some)
        self.file.flush()
        self.runs.append((begun, self.file.tell()))
        self.held, self.size = [], 0

    def run(self, place: int, end: int) -> typing.Iterator[Entry]:
        assert self.file is not None
        file = self.file.fileno()
        while place < end:
            size = int.from_bytes(os.pread(file, 4, place), "little")
            yield from marshal.loads(os.pread(file, size, place + 4))
            place += size + 4

    def __iter__(self) -> typing.Iterator[Entry]:
        self.held.sort()
        if not self.runs:
            return iter(self.held)
        return iter(heapq.merge(*(self.run(*it) for it in self.runs), self.held))

    def close(self) -> None:
        self.held = []
        if self.file is not None:
            self.file.close()


class Groups:
    """The effect of a bank's groups on its snapshot, up to a gate. `first` is the snapshot's next
    number if the snapshot does not contain it."""

    def __init__(
        self,
        file: int,
        bank: Bank,
        until: int | None = None,
        first: int | None = None,
    ) -> None:
        self.file, self.bank = file, bank
        self.count = self.events = self.size = 0
        # the objects that were created and are there, and of those of the snapshot that were
        # released each with the gate of its group
        self.created: dict[int, bytes] = {}
        self.released: dict[int, int] = {}
        self.changes = Sorted()
        if first is None:
            (first,) = struct.unpack("<I", os.pread(file, 4, bank.table))
        self.first = self.next = first
        self.gate = bank.gates
        for gate, source in groups(file, bank, until):
            try:
                while source.place < source.end:
                    self.take(gate, source)
                    self.events += 1
            except stores.NoImage:
                raise stores.Damaged(gate) from None
            self.count, self.gate = self.count + 1, source.end
        self.size = self.gate - bank.table

    def take(self, gate: int, source: Source) -> None:
        """Adds the next log record. Its conditions on the snapshot are checked after that is
        read."""
        kind = source.take(1)[0]
        (number,) = struct.unpack("<I", source.take(4))
        if kind == CREATE:
            stores.need(number == self.next != stores.USED_UP)
            self.created[number] = source.take(16)
            self.next += 1
            return
        old = 0 < number < self.first and number not in self.released
        stores.need(old or number in self.created)
        if kind == RELEASE:
            if old:
                self.released[number] = gate
            else:
                del self.created[number]
            return
        at = source.place
        _, key = place_of(source)
        size = source.place - at
        skip_content(kind, source)
        self.changes.add((NUMBER.pack(number) + key, at, kind, size, source.place - at - size))

    def gate_of(self, at: int) -> int:
        """The gate of the group whose log records are at a place."""
        for run in runs(self.file, self.bank):
            if run.place < at < run.end:
                return run.place + (at - run.place) // (run.events + 5) * (run.events + 5)
        return self.bank.gates

    def close(self) -> None:
        self.changes.close()


def groups(file: int, bank: Bank, until: int | None = None) -> typing.Iterator[tuple[int, Source]]:
    """The gate of each group, and a cursor over its events."""
    source = Source(file, bank.gates, bank.gates, bank.end)
    for run in runs(file, bank, until):
        for gate in range(run.place, run.end, run.events + 5):
            source.place, source.end = gate + 5, gate + 5 + run.events
            yield gate, source


def skip_content(kind: int, source: Source) -> None:
    """Skips the part of a cell's log record after the place."""
    stores.need(kind in (PUT, PUT_ELEMENT, REDIM))
    if kind == PUT:
        value_of(source)
    elif kind == REDIM:
        source.take(8)
    else:
        source.take(4 * source.number("H"))
        stores.scalar(source)


def count_of_events(gate: int, source: Source) -> int:
    """How many events a group has. Raises Damaged if some bytes are none."""
    count = 0
    try:
        while source.place < source.end:
            kind = source.take(5)[0]
            if kind == CREATE:
                source.take(16)
            elif kind != RELEASE:
                place_of(source)
                skip_content(kind, source)
            count += 1
    except stores.NoImage:
        raise stores.Damaged(gate) from None
    return count


# --- one into the other


# Of an event that does not apply the place, and why: it is left out then.
Left = typing.Callable[[int, str], None]


def merged(rows: Rows, told: Groups, left: Left | None = None) -> Rows:
    """The rows of a table after some groups. If a log record does not apply, `left` gets it, or
    Damaged is raised if there is none."""
    changes = iter(told.changes)
    entry = next(changes, None)
    created = ((number, b"", coclass, None) for number, coclass in told.created.items())
    here, gone, missing = 0, False, dict(told.released)

    def of(key: bytes) -> list[Entry]:
        """The entries of a cell, in the order of the events."""
        nonlocal entry
        found = []
        while entry is not None and entry[0] == key:
            found.append(entry)
            entry = next(changes, None)
        return found

    def new_cells(below: bytes | None) -> Rows:
        """The cells below a row that the snapshot has not."""
        while entry is not None and (below is None or entry[0] < below):
            key, at, _, size, _ = entry
            (number,) = NUMBER.unpack_from(key)
            # (an object that was created and released has cells, and no row)
            lost = number >= told.first and number not in told.created
            entries = of(key)
            if number != here and not lost:
                if left is None:
                    raise stores.Damaged(told.gate_of(at))
                for it in entries:
                    left(it[1], f"an event of object {number}, which is not there")
                continue
            value = value_behind(told, None, entries, left)
            if value is not None and not lost and not gone:
                yield number, key[4:], os.pread(told.file, size, at), value

    for row in itertools.chain(rows, created):
        full = NUMBER.pack(row[0]) + row[1]
        if entry is not None and entry[0] < full:
            yield from new_cells(full)
        if row[3] is None:
            here = row[0]
            gone = missing.pop(here, None) is not None
        elif entry is not None and entry[0] == full:
            row = row[0], row[1], row[2], value_behind(told, row[3], of(full), left)
        if not gone:
            yield row
    yield from new_cells(None)
    if missing and left is None:
        raise stores.Damaged(min(missing.values()))


def value_behind(
    told: Groups,
    value: bytes | None,
    entries: list[Entry],
    left: Left | None = None,
) -> bytes | None:
    """The image of a cell's value after the events of its entries, or None if it has none."""
    array: stores.Array | None = None
    last: Entry | None = None

    def image() -> bytes | None:
        return value if last is None else os.pread(told.file, last[4], last[1] + last[3])

    for it in entries:
        if it[2] == PUT:
            last, array = it, None
            continue
        try:
            if array is None:
                found = stores.value(stores.Bytes(image() or b""))
                if not isinstance(found, stores.Array):
                    raise stores.NoImage
                array = found
            place = it[1] + it[3]
            array = stores.changed_array(array, it[2], Source(told.file, place, place + it[4]))
        except stores.NoImage:
            if left is None:
                raise stores.Damaged(told.gate_of(it[1])) from None
            left(it[1], "an event of an array, which is not there or has no such element")
    return image() if array is None else stores.value_image(array)


class Table(typing.NamedTuple):
    """A bank's table: its next number, its rows, and what its groups are."""

    next: int
    rows: Rows
    groups: Groups


@contextlib.contextmanager
def table(file: int, bank: Bank, until: int | None = None) -> typing.Iterator[Table]:
    """The table of a bank after its groups, or those before a gate. Raises Damaged, also while its
    rows are read, with the first place that is damaged."""
    try:
        with contextlib.closing(Groups(file, bank, until)) as told:
            yield Table(told.next, merged(snapshot(file, bank), told), told)
    except stores.Damaged as fault:
        raise stores.Damaged(first_damage(file, bank, fault.args[0])) from None


def first_damage(file: int, bank: Bank, place: int) -> int:
    """The first place of a bank that is damaged, if one is: an event that does not apply is met in
    the order of the cells."""
    while place > bank.table:
        try:
            with contextlib.closing(Groups(file, bank, place)) as told:
                for _ in merged(snapshot(file, bank), told):
                    pass
            break
        except stores.Damaged as fault:
            place = fault.args[0]
    return place


def lines(found: Table) -> typing.Iterator[str]:
    """The lines that `oaut dump` prints for a table."""
    yield f"next {found.next}\n"
    for number, _, image, value in found.rows:
        if value is None:
            yield f"object {number} {stores.guid_text(image)}\n"
        else:
            dispid = int.from_bytes(image[16:20], "little", signed=True)
            key = image[22:].hex() or "-"
            yield f"cell {stores.guid_text(image[:16])} {dispid} {key} {value.hex()}\n"


# --- new tables


class Image:
    """The image of a table that is written to a file, from a place on, with room for so many
    bytes."""

    def __init__(self, file: int, place: int, room: int, fault: str) -> None:
        self.file, self.begun, self.place, self.room, self.fault = file, place, place, room, fault
        self.held = bytearray()

    def add(self, some: bytes) -> int:
        """Appends bytes, and returns their offset."""
        place = self.place + len(self.held)
        if place + len(some) - self.begun > self.room:
            raise Unusable(self.fault)
        self.held += some
        if len(self.held) >= WRITTEN:
            self.flush()
        return place

    def mend(self, place: int, some: bytes) -> None:
        """Replaces bytes."""
        if place < self.place:
            self.flush()
            put(self.file, place, some)
        else:
            self.held[place - self.place : place - self.place + len(some)] = some

    def flush(self) -> None:
        """Brings what is held to the file."""
        put(self.file, self.place, self.held)
        self.place += len(self.held)
        self.held = bytearray()

    def lay(self, next_number: int, rows: Rows) -> tuple[int, int]:
        """Writes a table, and gives how many objects and cells it has."""
        begun = self.add(bytes(8))
        objects = cells = 0
        head, number, coclass, count = 0, 0, b"", 0

        def close() -> None:
            if objects:
                self.mend(head, OBJECT.pack(number, coclass, count))

        for row in rows:
            if row[3] is None:
                close()
                objects, number, coclass, count = objects + 1, row[0], row[2], 0
                head = self.add(bytes(OBJECT.size))
            else:
                self.add(row[2] + row[3])
                cells, count = cells + 1, count + 1
        close()
        self.mend(begun, struct.pack("<II", next_number, objects))
        return objects, cells


def image_of(file: int, library: bytes, bank: int) -> Image:
    """The image of a table in bank 0 of a new store, whose banks have so many bytes, after this
    text of a library."""
    room = min(bank - stores.KEPT_FREE, bank - len(library) - 1)
    fault = f"the objects do not fit banks of {bank} bytes"
    return Image(file, stores.body_of(2, 0, bank) + len(library), room, fault)


def lay_bank(image: Image, library: bytes, bank: int) -> None:
    """Makes a new store of what was written."""
    snapshot = image.add(b"") - image.begun
    image.flush()
    put(image.file, image.begun - len(library), library)
    put(image.file, stores.HEADS[0], stores.head_image(2, len(library), snapshot, bank))
    put(image.file, 0, b"\1")
