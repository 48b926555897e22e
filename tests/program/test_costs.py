"""Bounds on what a session costs, counted and not timed: calls of the system, calls of the
allocator and the bytes that they ask for, page faults, and instructions."""
import collections
import os
import struct
import tempfile
import unittest
import uuid

from oaut.frames import frames_of, join
from tests.support import full, instructions, store, worked
from tests.support.model import LIBRARY
from tests.support.preloaded import COMPILER, Preloaded, StoreFile, fast_folder, read
from tests.support.running import PROGRAM, SMALL, SMALL_TEXT, Cases, fill
from tests.support.stores import CLASS, CREATED_1, put_of
from tests.support.wire import oaut

BUFFER = 8_192  # bytes that are read and written at once
CREATE = oaut.ask_create(worked.ITEM)
LARGE, BLOCK = 65_536, 16_384
# bytes of all blocks of a session of one client as it begins: those for a line and its body have 12
# MiB
BEGINS = 13 * 2**20
SHARED_BEGINS = 2**19  # of a session of many
CLIENTS = 5_000
# of a new cell with a key: what was counted, and an eighth more
CELL_GROWTHS, CELL_BYTES = 4.7, 100
# of an object that is not there: no request is shorter to answer
NONE = worked.get(worked.COUNT, of=77)


def tagged(requests):
    return [struct.pack("<I", tag) + it for tag, it in enumerate(requests, 1)]


def raw(requests):
    return oaut.Raw.pack(tagged(requests))


class Counted(Preloaded):
    """Runs in a folder with a library, where the file of a store is laid down anew for each."""

    def __init__(self, library=SMALL, text=SMALL_TEXT, groups=()):
        disk = store.formatted(text)
        self.library, self.disk = library, bytes(store.add(disk, *groups)) if groups else bytes(
            disk
        )

    def __enter__(self):
        super().__enter__()
        self.fill("lib.idl", self.library)
        self.store = StoreFile(self.path("it.store"), self.disk)
        return self

    def session(self, words, given, **how):
        self.store.lay()
        self.fill("given", given)
        paths = [self.path(it) if it in ("it.store", "lib.idl") else it for it in words]
        got = self.run(paths, "given", log=self.path("log"), **how)
        if got.status or got.err:
            raise AssertionError(f"{words} ends with {got.status, got.err}")
        return got

    def calls(self):
        """How many calls of each name the last session made on its store's file."""
        return collections.Counter(
            line.split()[0]
            for line in read(self.path("log")).decode().splitlines()
            if line.endswith("/it.store")
        )


@unittest.skipUnless(COMPILER, "cc is not there: no call is counted")
class Calls(Cases):
    def test_reads_of_an_opening(self):
        """Groups are read a buffer at a time, however many there are."""
        groups = [CREATED_1, *map(put_of, range(1_000))]
        length = sum(map(len, groups))
        with Counted(groups=groups) as counted:
            for words in (["serve", "it.store", "lib.idl"], ["dump", "it.store"]):
                counted.session(words, b"")
                made = counted.calls()["pread"]
                self.tell(
                    f"{words[0]}: 1,000 groups of {length} bytes are read in few calls",
                    0 < made <= 10 + length // LARGE,
                    made,
                )

    def test_calls_of_a_commit(self):
        """Of each group two writes and two syncs of the bytes alone, and no other call of the
        file."""
        puts = [worked.put(worked.COUNT, worked.i4(it)) for it in range(20)]
        with Counted() as counted:
            counted.session(["serve", "it.store", "lib.idl"], b"")
            begun = counted.calls()
            counted.session(["serve", "it.store", "lib.idl"], raw([CREATE, *puts]))
            made = counted.calls()
            made.subtract(begun)
            self.tell("21 groups: their calls", +made == {"pwrite": 42, "fdatasync": 42}, made)

    def test_writes_of_a_shared_session(self):
        """The replies to what is read at once leave in one write, whoever asked, in groups of every
        size."""
        bodies = tagged(
            [CREATE] * 16
            + [worked.put(worked.COUNT, worked.i4(7), of=1 + it % 16) for it in range(2_000)]
        )
        given = b"".join(
            [frames_of(it % 16, oaut.Raw.pack([body])) for it, body in enumerate(bodies)]
        )
        with Counted() as counted:
            for words in (
                ["play", "--shared", "lib.idl"],
                *(
                    ["serve", "--shared", "--group", it, "it.store", "lib.idl"]
                    for it in ("1", "16", "1024")
                ),
            ):
                got = counted.session(words, given)
                most = len(given) // BUFFER + len(got.out) // BUFFER + 3
                self.tell(
                    f"{' '.join(words)}: replies of {len(got.out)} bytes leave in few writes",
                    0 < got.writes <= most,
                    (got.writes, most),
                )

    def test_the_last_write_of_a_shared_session(self):
        """What a group holds as the input ends, and the ends of all clients, leave together."""
        bodies = tagged([CREATE] + [worked.put(worked.COUNT, worked.i4(it)) for it in range(5)])
        given = b"".join(
            [frames_of(it % 3, oaut.Raw.pack([body])) for it, body in enumerate(bodies)]
        )
        with Counted() as counted:
            got = counted.session(
                ["serve", "--shared", "--group", "1024", "it.store", "lib.idl"], given
            )
            self.tell(
                "the replies of an open group and three ends leave in one write",
                (got.writes, len(oaut.frames.split(got.out)[0])) == (1, 9),
                got.writes,
            )

    def test_writes_of_lines(self):
        given = b"".join(
            [
                it.hex().encode() + b"\n"
                for it in tagged([CREATE] + [worked.get(worked.COUNT)] * 2_000)
            ]
        )
        with Counted() as counted:
            got = counted.session(["play", "--hex", "lib.idl"], given)
            most = len(given) // BUFFER + len(got.out) // BUFFER + 3
            self.tell(
                "lines: the replies leave in few writes", 0 < got.writes <= most, (got.writes, most)
            )


@unittest.skipUnless(COMPILER, "cc is not there: no call of the allocator is counted")
class Growths(Cases):
    def test_blocks_of_scattered_cells(self):
        """However many cells an object has, none of their blocks is long: what comes between two of
        them moves few."""
        keys = [(it * 102_947) % 1_000_003 for it in range(60_000)]
        puts = [worked.put(1, worked.i4(it), more=(worked.i4(key),)) for it, key in enumerate(keys)]
        with Counted(library=full.keyed("long", 1)) as counted:
            create = oaut.ask_create(uuid.UUID(bytes_le=CLASS))
            begun, got = (
                counted.session(["play", "lib.idl"], raw(it), large=BLOCK)
                for it in ([create], [create, *puts])
            )
            self.tell(
                "60,000 scattered cells: no block of 16,384 bytes",
                got.larges == begun.larges,
                (begun.larges, got.larges),
            )
            self.tell(
                "60,000 scattered cells: one reply each",
                len(got.out) == 28 + 20 * len(puts),
                len(got.out),
            )

    def test_growths_of_new_cells(self):
        """A cell with a key takes some growths for its own parts, and its row one in eight
        times."""
        count = 20_000
        with Counted(library=full.keyed("long", 1)) as counted:
            create = oaut.ask_create(uuid.UUID(bytes_le=CLASS))
            for name, keys in (
                ("rising", range(count)),
                ("scattered", [(it * 7_919) % 1_000_003 for it in range(count)]),
            ):
                puts = [
                    worked.put(1, worked.i4(it), more=(worked.i4(key),))
                    for it, key in enumerate(keys)
                ]
                begun, got = (
                    counted.session(["play", "lib.idl"], raw(it))
                    for it in ([create], [create, *puts])
                )
                each = (got.calls - begun.calls) / count
                self.tell(
                    f"{name} cells: {CELL_GROWTHS} growths each at most", each <= CELL_GROWTHS, each
                )

    def test_growths_of_a_group(self):
        """The events of a group are gathered in a block that doubles: a thousand take no growth
        each."""
        few, many = (
            [CREATE] + [worked.put(worked.COUNT, worked.i4(it)) for it in range(count)]
            for count in (20, 1_000)
        )
        with Counted() as counted:
            words = ["serve", "--group", "1024", "it.store", "lib.idl"]
            begun, got = (counted.session(words, raw(it)).calls for it in (few, many))
            self.tell(
                "980 events more of a group: few growths more", got - begun <= 40, (begun, got)
            )

    def test_growths_of_a_record_in_parts(self):
        """A record that comes in many frames is gathered in a block that doubles."""
        body = struct.pack("<I", 1) + bytes(1_000_000)
        record = struct.pack("<I", len(body)) + body
        found = {}
        with Counted() as counted:
            for count in (100, 2_000):
                size = -(-len(record) // count)
                found[count] = counted.session(
                    ["play", "--shared", "lib.idl"],
                    b"".join(
                        [join([(3, record[at : at + size])]) for at in range(0, len(record), size)]
                    ),
                )
        self.tell(
            "a record in 2,000 frames: few growths more than in 100",
            found[2_000].calls - found[100].calls <= 20,
            found[2_000].calls,
        )

    def test_what_a_session_begins_with(self):
        """Its blocks have the bytes for a line, a body, a bank's bytes and a library, and no
        more."""
        with Counted() as counted:
            for words, most in (
                (["play", "lib.idl"], BEGINS),
                (["serve", "--hex", "it.store", "lib.idl"], BEGINS),
                (["serve", "--group", "1024", "it.store", "lib.idl"], BEGINS),
                (["play", "--shared", "lib.idl"], SHARED_BEGINS),
                (["serve", "--shared", "it.store", "lib.idl"], SHARED_BEGINS),
                (["serve", "--shared", "--group", "1024", "it.store", "lib.idl"], SHARED_BEGINS),
            ):
                held = counted.session(words, b"").held
                self.tell(
                    f"{' '.join(words)}: at most {most} bytes as it begins", 0 < held <= most, held
                )

    def test_a_row_behind_two_full_ones(self):
        """An object of two full rows and some cells more takes no third row of full length."""
        create, objects = oaut.ask_create(uuid.UUID(bytes_le=CLASS)), 100
        with Counted(library=full.keyed("long", 1)) as counted:
            puts = lambda count: [
                worked.put(1, worked.i4(it), of, more=(worked.i4(it),))
                for of in range(1, objects + 1)
                for it in range(count)
            ]
            some, more = (
                counted.session(["play", "lib.idl"], raw([create] * objects + puts(it))).held
                for it in (126, 130)
            )
            each = (more - some) / (objects * 4)
            self.tell(
                f"four cells more of each of {objects} objects: {CELL_BYTES} bytes each at most",
                each <= CELL_BYTES,
                each,
            )


@unittest.skipUnless(COMPILER, "cc is not there: no page is counted")
class Pages(Cases):
    def test_long_texts(self):
        """Long blocks are kept for the next request: the system brings no new pages for each,
        however their lengths rise."""
        faults = {}
        with tempfile.TemporaryDirectory(dir=fast_folder()) as room:
            for count in (1, 201):
                puts = [
                    worked.put(worked.NAME, worked.text(bytes(131_072 + 4_096 * it)))
                    for it in range(count)
                ]
                fill(
                    room,
                    {
                        "lib.idl": LIBRARY,
                        "given": raw(
                            [CREATE, *puts, worked.put(worked.NAME, worked.text(bytes(950_272)))]
                        ),
                    },
                )
                actions = [
                    (os.POSIX_SPAWN_OPEN, 0, f"{room}/given", os.O_RDONLY, 0),
                    (os.POSIX_SPAWN_OPEN, 1, os.devnull, os.O_WRONLY, 0),
                ]
                process = os.posix_spawn(
                    PROGRAM, [PROGRAM, "play", f"{room}/lib.idl"], os.environ, file_actions=actions
                )
                faults[count] = os.wait4(process, 0)[2].ru_minflt
        self.tell(
            "200 puts more of 131,072 to 946,176 bytes: fewer than four new pages each",
            faults[201] - faults[1] < 800,
            faults,
        )


@unittest.skipUnless(instructions.VALGRIND, "valgrind is not there: no instructions are counted")
class Instructions(Cases):
    def of_frames(self, given):
        with tempfile.TemporaryDirectory(dir=fast_folder()) as room:
            fill(room, {"lib.idl": SMALL})
            return instructions.of_program([PROGRAM, "play", "--shared", "lib.idl"], given, room)

    def test_many_clients(self):
        """A request of one client and its end take as much among 5,000 clients as among 50."""
        requests = lambda clients: b"".join(
            [
                frames_of(it % clients, oaut.Raw.pack([struct.pack("<I", it) + NONE]))
                for it in range(CLIENTS)
            ]
        )
        ends = b"".join([join([(it, b"")]) for it in range(CLIENTS)])
        few = self.of_frames(requests(50))
        for name, given in (
            ("requests", requests(CLIENTS)),
            ("requests and ends", requests(CLIENTS) + ends),
        ):
            many = self.of_frames(given)
            self.tell(
                f"{name} of 5,000 clients: at most 3 times those of 50",
                many <= 3 * few,
                (few, many),
            )

    def test_a_long_reply_as_a_line(self):
        """Its digits are put some hundred at a time."""
        length, times = 10_000, 100
        front = [CREATE, worked.put(worked.NAME, worked.text(bytes(length)))]
        begun, ended = (
            instructions.of_session(front + [worked.get(worked.NAME)] * it, ("play", "--hex"))
            for it in (1, 1 + times)
        )
        each = (ended - begun) / (times * length)
        self.tell(
            "a get of a text of 10,000 bytes takes at most 10 instructions a byte", each <= 10, each
        )

    def test_frames_of_many_records(self):
        """A record of a frame with sixteen takes at most twice of one in a frame of its own."""
        one, many = (
            [
                join(
                    [
                        (it % 16, oaut.Raw.pack([struct.pack("<I", it) + NONE] * records))
                        for it in range(3_200 // records)
                    ]
                )
            ]
            for records in (1, 16)
        )
        alone, together = map(self.of_frames, (b"".join(one), b"".join(many)))
        self.tell(
            "3,200 records in frames of sixteen take at most twice those in frames of one",
            together <= 2 * alone,
            (alone, together),
        )

    def test_an_array_of_many_bytes(self):
        """An opening looks at each element of an array once, however many bytes the array has."""
        found = {}
        for cells in (4_096, 65_536):
            array = store.Array(
                full.wire.VARIANT,
                [(cells, 0)],
                [(full.wire.BSTR, struct.pack("<I", 8) + bytes(8))] * cells,
            )
            with tempfile.TemporaryDirectory(dir=fast_folder()) as room:
                full.laid(
                    room,
                    full.library(20, "VARIANT"),
                    {(full.FACE, it, ()): array for it in range(1, 1 + 65_536 // cells)},
                )
                found[cells] = instructions.of_program([PROGRAM, "dump", "it.store"], b"", room)
        self.tell(
            "one array of 65,536 texts takes at most twice sixteen arrays of 4,096",
            found[65_536] <= 2 * found[4_096],
            found,
        )
