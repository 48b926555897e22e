"""What `dump` prints of a store, or says where it is none; which calls of the system it makes, and
what comes of it where one fails."""
import os
import re
import struct
import tempfile
import unittest

from tests.support import store
from tests.support.calls import OUT, STRACE, Calls, each_fails
from tests.support.commits import OPENED, OPENING
from tests.support.running import (
    FULL_TEXT,
    ROOT,
    SMALL,
    SMALL_TEXT,
    Cases,
    cannot,
    fault,
    fill,
    has_bytes,
    like_others,
    rows_of,
    run,
    run_in,
    short,
    within,
)
from tests.support.stores import (
    BODIES,
    BODY_1,
    CLASS,
    CREATED_1,
    FACE,
    NEW,
    OLD,
    ONE,
    PUT_7,
    TWO,
    changed,
)

DUMP = ["dump", "it.store"]
CREATED_2 = b"\1" + struct.pack("<I", 2) + CLASS
# how far from the body's first byte the snapshot of the stores below stands, its first gate, the
# second one and the closed one behind two groups
SNAPSHOT, GATE, GATE_2, CLOSED = (len(SMALL_TEXT) + it for it in (0, 8, 34, 72))


def name_of(number, dispid, key, face=FACE):
    """The image of a cell's name."""
    return struct.pack("<I", number) + face + struct.pack("<iH", dispid, len(key)) + b"".join(key)


def text_image(it):
    return struct.pack("<HI", 8, 0xFFFF_FFFF if it is None else len(it)) + (it or b"")


def long_image(it):
    return struct.pack("<Hi", 3, it)


SORTED = [  # cells by rising place: the interface as a number of 128 bits, the DISPID, the key
    (bytes(16), 5, [], long_image(1)),
    (FACE, -3, [], long_image(2)),
    (FACE, 1, [], long_image(3)),
    (FACE, 1, [long_image(-1)], long_image(4)),
    (FACE, 1, [long_image(1)], long_image(5)),
    (FACE, 1, [long_image(1), text_image(None)], long_image(6)),
    (FACE, 1, [long_image(1), text_image(b"")], long_image(7)),
    (FACE, 1, [long_image(1), text_image(b"k\0")], long_image(8)),
    (FACE, 1, [text_image(b"a\0")], struct.pack("<HBBIQ", 14, 28, 1, 1, 2)),
    (FACE, 1, [struct.pack("<HB", 11, 1)], struct.pack("<HB", 11, 0)),
    (FACE, 2, [], struct.pack("<HHIiIi6h", 0x2002, 2, 2, -1, 3, 5, 1, 2, 3, 4, 5, 6)),
    (
        FACE,
        3,
        [],
        struct.pack("<HHIi", 0x200C, 1, 3, 0)
        + struct.pack("<H", 1)
        + struct.pack("<HBBIQ", 14, 0, 0, 0, 1)
        + text_image(b"Hi"),
    ),
    (FACE, 4, [], text_image(None)),
    *(
        (FACE, 5, [key], long_image(-number))
        for number, key in enumerate(
            (
                struct.pack("<Hh", 2, 7),
                long_image(-1),
                long_image(7),
                *(text_image(it) for it in (b"", b"\0", b"\1\2", b"\1\3", b"\1\t", b"\2")),
                *(struct.pack("<HB", 11, it) for it in (0, 1)),
                *(
                    struct.pack("<HBBIQ", 14, scale, minus, 0, it)
                    for minus, scale, it in ((0, 0, 1), (0, 1, 0), (1, 0, 0))
                ),
            )
        )
    ),
    (bytes.fromhex("45332211665588770000000000000000"), 0, [], b"\0\0"),
]
GRID, GRID_LATER = (
    SORTED[10][3].hex(),
    struct.pack("<HHIiIi9h", 0x2002, 2, 3, 10, 3, 5, 1, 2, 3, 4, 5, -9, 0, 0, 0).hex(),
)


def put_text(count):
    """The event that puts a text of so many letters A into object 1."""
    return b"\3" + name_of(1, 2, []) + text_image(b"A" * count)


def holds(what, image):
    """A store with these bytes for the value of its object, as an event or as its snapshot, and the
    place of what they are part of."""
    if what == "value":
        return (
            store.add(store.formatted(SMALL_TEXT), CREATED_1, b"\3" + name_of(1, 1, []) + image),
            BODIES[2] + GATE_2,
        )
    if what == "event":
        return store.add(store.formatted(SMALL_TEXT), image), BODIES[2] + GATE
    return store.laid(bytearray(NEW), 2, 0, SMALL_TEXT, image, store.BANK), BODIES[2] + SNAPSHOT


class Dumped(Cases):
    def dumps(self, name, disk, status, out, err=b"", **how):
        self.leaves(
            f"dump: {name}",
            DUMP,
            status,
            out.encode(),
            err,
            {"it.store": disk},
            {"it.store": disk},
            **how,
        )

    def read_by_the_reader(self, name, disk, wanted):
        """What tests/support/store.py says of a store."""
        try:
            answer = store.dump(disk)
        except (store.NotAStore, store.Damaged) as refusal:
            answer = str(refusal)
        self.tell(f"the reader on {name}", answer == wanted, answer)


class Dump(Dumped):
    def test_gates_and_banks(self):
        for form, body, made, disk in (
            (1, BODIES[1], store.formatted_before, OLD),
            (2, BODIES[2], store.formatted, TWO),
        ):
            self.dumps(f"format {form}: a store without objects", made(SMALL_TEXT), 0, "next 1\n")
            self.dumps(f"format {form}: one object with a value", disk, 0, ONE)
            self.dumps(
                f"format {form}: both events in one group",
                store.add(made(SMALL_TEXT), CREATED_1 + PUT_7),
                0,
                ONE,
            )
            self.dumps(f"format {form}: a longer file", disk + b"\xab" * 1_000, 0, ONE)
            self.dumps(
                f"format {form}: what stands behind the closed gate counts for nothing",
                changed(disk, body + CLOSED, 0, 21, 0, 0, 0, 9),
                0,
                ONE,
            )
            self.dumps(
                f"format {form}: a gate of 255 is closed",
                changed(disk, body + GATE_2, 255),
                0,
                "next 2\nobject 1 11223344-5566-7788-99aa-bbccddeeff03\n",
            )
            self.dumps(
                f"format {form}: a gate of 7 is closed",
                changed(disk, body + GATE, 7),
                0,
                "next 1\n",
            )
            self.dumps(
                f"format {form}: a library of another first letter",
                changed(disk, body, 109),
                0,
                ONE,
            )
            settled = store.settled(disk)
            self.dumps(f"format {form}: bank 1, by a selector of 1", settled, 0, ONE)
            self.dumps(
                f"format {form}: bank 1, by a selector of 255", changed(settled, 4096, 255), 0, ONE
            )
            self.dumps(
                f"format {form}: bank 0, by a selector of 254", changed(settled, 4096, 254), 0, ONE
            )
        self.dumps("bank 0 in format 1, and bank 1 in format 2", store.upgraded(OLD), 0, ONE)

    def test_libraries(self):
        for name, disk, text in (
            ("format 2", TWO, SMALL_TEXT),
            ("format 1", OLD, SMALL_TEXT),
            ("bank 1", store.settled(TWO, FULL_TEXT), FULL_TEXT),
            ("bytes that are no library", store.formatted(b"\xff\0\n"), b"\xff\0\n"),
        ):
            for words in (["dump", "it.store", "--library"], ["dump", "--library", "it.store"]):
                self.leaves(
                    f"dump: the library alone, {name}",
                    words,
                    0,
                    text,
                    b"",
                    {"it.store": disk},
                    {"it.store": disk},
                )
        self.leaves(
            "dump: the library of a store that is damaged",
            ["dump", "--library", "it.store"],
            3,
            b"",
            fault(f"damaged at {BODIES[2] + GATE}"),
            {"it.store": changed(TWO, BODIES[2] + GATE + 5, 9)},
            {},
        )
        with open("/dev/full", "wb") as full:
            self.case(
                "dump: standard output takes no library",
                ["dump", "--library", "it.store"],
                1,
                None,
                fault("write fault"),
                files={"it.store": TWO},
                stdout=full,
            )

    def test_cells_by_their_places(self):
        shuffled = sorted(SORTED, key=lambda it: (it[3], it[1]))
        lines = "".join(
            "cell %s %d %s %s\n"
            % (store.guid_text(face), dispid, b"".join(key).hex() or "-", value.hex())
            for face, dispid, key, value in SORTED
        )
        events = [
            b"\3" + name_of(2, dispid, key, face) + value for face, dispid, key, value in shuffled
        ]
        CREATED_2 = b"\1" + struct.pack("<I", 2) + CLASS
        many = store.add(store.formatted(FULL_TEXT), CREATED_1 + CREATED_2, *events)
        self.dumps(
            "cells by their places",
            many,
            0,
            "next 3\nobject 1 %s\nobject 2 %s\n%s"
            % (store.guid_text(CLASS), store.guid_text(CLASS), lines),
        )
        self.tell(
            "the reader gives the same dump",
            store.dump(many)
            == "next 3\nobject 1 %s\nobject 2 %s\n%s"
            % (store.guid_text(CLASS), store.guid_text(CLASS), lines),
        )
        GRID, GRID_LATER = (
            SORTED[10][3].hex(),
            struct.pack("<HHIiIi9h", 0x2002, 2, 3, 10, 3, 5, 1, 2, 3, 4, 5, -9, 0, 0, 0).hex(),
        )
        grid = name_of(2, 2, [])
        element, redim, release = (
            b"\4" + grid + struct.pack("<HiiHh", 2, 0, 7, 2, -9),
            b"\5" + grid + struct.pack("<Ii", 3, 10),
            b"\2" + struct.pack("<I", 1),
        )
        self.dumps(
            "an element and bounds that change, and an object that goes",
            store.add(many, element, redim + release),
            0,
            "next 3\nobject 2 %s\n%s" % (store.guid_text(CLASS), lines.replace(GRID, GRID_LATER)),
        )

    def test_a_bank_that_is_full(self):
        # a front of 287 bytes, a group of 26, 19 of 1,048,614 and one of 1,047,540: the closed gate
        # is the body's last byte
        full_bank = store.add(
            store.formatted(SMALL_TEXT), CREATED_1, *[put_text(1_048_576)] * 19, put_text(1_047_502)
        )
        self.tell("a bank that is full has a room of 1", store.room(store.read(full_bank)) == 1)
        self.dumps(
            "a bank that is full up to its last byte",
            full_bank,
            0,
            "next 2\nobject 1 %s\ncell %s 2 - %s\n"
            % (store.guid_text(CLASS), store.guid_text(FACE), text_image(b"A" * 1_047_502).hex()),
        )
        # the same in format 1, whose front is as long and whose body has 16,777,184 bytes
        full_bank = store.add(
            store.formatted_before(SMALL_TEXT),
            CREATED_1,
            *[put_text(1_048_576)] * 15,
            put_text(1_047_622),
        )
        self.tell(
            "a bank of format 1 that is full has a room of 1",
            store.room(store.read(full_bank)) == 1,
        )
        self.dumps(
            "a bank of format 1 that is full up to its last byte",
            full_bank,
            0,
            "next 2\nobject 1 %s\ncell %s 2 - %s\n"
            % (store.guid_text(CLASS), store.guid_text(FACE), text_image(b"A" * 1_047_622).hex()),
        )

    def is_refused(self, name, disk, text):
        self.dumps(f"{name} is {text}", disk, 3, "", fault(text))
        self.read_by_the_reader(name, disk, text)

    def test_damaged_heads(self):
        for form, made, disk in ((1, store.formatted_before, OLD), (2, store.formatted, TWO)):
            for name, damaged, text in (
                ("a disk of zeros", bytes(len(disk)), "not a store"),
                ("a file of 100 bytes", disk[:100], "not a store"),
                ("a file without bytes", b"", "not a store"),
                (
                    "a file that lacks its last byte",
                    disk[:-1],
                    {1: "not a store", 2: "damaged at 8192"}[form],
                ),
                (
                    "a file that lacks one byte of the first 33,562,624",
                    disk[: store.LEAST - 1],
                    "not a store",
                ),
                ("a first byte of 255", changed(disk, 0, 255), "not a store"),
                ("a bank that was never written", changed(disk, 4096, 1), "damaged at 16785408"),
                ("the first byte of a bank", changed(disk, 8192, 0), "damaged at 8192"),
                (
                    "a last byte of the magic that tells the other format",
                    changed(disk, 8199, 0x33 - form),
                    "damaged at 8192",
                ),
                ("a number of the other format", changed(disk, 8200, 3 - form), "damaged at 8192"),
                ("a format 3", changed(disk, 8199, 0x33, 3), "damaged at 8192"),
                (
                    "a library of 4,294,967,295 bytes",
                    changed(disk, 8204, 255, 255, 255, 255),
                    "damaged at 8192",
                ),
                ("a snapshot beyond the bank", changed(disk, 8208, 0, 0, 0, 2), "damaged at 8192"),
                ("another size of a bank", changed(disk, 8212, 1), "damaged at 8192"),
                ("a byte behind the sizes", changed(disk, 8223, 1), "damaged at 8192"),
            ):
                self.is_refused(f"format {form}: {name}", damaged, text)
        for size in (0, 20_971_519, 20_971_521, 1_073_741_825, 4_294_967_295):
            self.is_refused(
                f"format 2: banks of {size} bytes",
                changed(TWO, 8212, *struct.pack("<I", size)),
                "damaged at 8192",
            )

    def test_damaged_snapshots_and_groups(self):
        created_and_put = CREATED_1 + put_text(4)
        for form, made, disk in ((1, store.formatted_before, OLD), (2, store.formatted, TWO)):
            body = BODIES[form]
            snapshot, gate, gate_2, gate_3 = (
                body + SNAPSHOT,
                body + GATE,
                body + GATE_2,
                body + GATE + 5 + len(created_and_put),
            )
            for name, damaged, text in (
                (
                    "a snapshot whose next number is 0",
                    changed(disk, snapshot, 0, 0, 0, 0),
                    f"damaged at {snapshot}",
                ),
                (
                    "a snapshot that ends too early",
                    changed(disk, 8208, 7),
                    f"damaged at {snapshot}",
                ),
                ("a group of no bytes", changed(disk, gate + 1, 0, 0, 0, 0), f"damaged at {gate}"),
                (
                    "a group beyond the bank",
                    changed(disk, gate + 1, 255, 255, 255, 1),
                    f"damaged at {gate}",
                ),
                (
                    "a group of 4,294,967,295 bytes",
                    changed(disk, gate + 1, 255, 255, 255, 255),
                    f"damaged at {gate}",
                ),
                ("an event of the kind 9", changed(disk, gate + 5, 9), f"damaged at {gate}"),
                ("an event that does not apply", changed(disk, gate + 6, 2), f"damaged at {gate}"),
                (
                    "an object that comes twice",
                    store.add(made(SMALL_TEXT), CREATED_1, CREATED_1),
                    f"damaged at {gate_2}",
                ),
                (
                    "a group of two events that comes twice",
                    store.add(made(SMALL_TEXT), created_and_put, created_and_put),
                    f"damaged at {gate_3}",
                ),
                (
                    "a put into an object that is not there",
                    changed(disk, gate_2 + 6, 2),
                    f"damaged at {gate_2}",
                ),
                ("a value of the type 7", changed(disk, gate_2 + 32, 7), f"damaged at {gate_2}"),
            ):
                self.is_refused(f"format {form}: {name}", damaged, text)

    def test_places_of_damage_in_format_1(self):
        # the same places as numbers
        for at, bytes_, text in (
            (8_192, b"\0", "damaged at 8192"),
            (8_208, b"\xff\xff\xff\xff", "damaged at 8192"),
            (8_503, bytes(4), "damaged at 8503"),
            (8_516, b"\x09", "damaged at 8511"),
            (8_512, bytes(4), "damaged at 8511"),
        ):
            self.is_refused(f"format 1: the bytes at {at}", changed(OLD, at, *bytes_), text)

    def test_images_that_are_none(self):
        for what, digits in (row.split(" | ") for row in rows_of("images.txt")):
            disk, place = holds(what, bytes.fromhex(digits))
            self.dumps(f"{what} {digits}", disk, 3, "", fault(f"damaged at {place}"))
            self.read_by_the_reader(f"{what} {digits}", disk, f"damaged at {place}")

    def test_files_that_cannot_be_read(self):
        self.case(
            "dump: a file that is not there", DUMP, 1, b"", cannot("read", "it.store", "ENOENT")
        )
        self.case("dump: a folder", ["dump", "."], 1, b"", cannot("read", ".", "EISDIR"))
        self.case(
            "dump: a device",
            ["dump", "/dev/zero"],
            1,
            b"",
            cannot("read", "/dev/zero", "not a regular file"),
        )
        self.case(
            "dump: a file in place of a folder",
            ["dump", "it.store/it"],
            1,
            b"",
            cannot("read", "it.store/it", "ENOTDIR"),
            files={"it.store": TWO},
        )
        self.case(
            "dump: a name that is too long",
            ["dump", "x" * 256],
            1,
            b"",
            cannot("read", "x" * 256, "ENAMETOOLONG"),
        )
        with tempfile.TemporaryDirectory() as room:
            fill(room, {"it.store": TWO})
            os.mkfifo(f"{room}/pipe")
            got = run_in(room, ["dump", "pipe"])
            self.tell(
                "dump: a pipe that nobody writes is not waited for",
                got == (1, b"", cannot("read", "pipe", "not a regular file")),
                got,
            )
            os.chmod(f"{room}/it.store", 0o444)
            got = run_in(room, DUMP, before=like_others)
            self.tell("dump: a file that is only to be read", got == (0, ONE.encode(), b""), got)
            os.chmod(f"{room}/it.store", 0o200)
            got = run_in(room, DUMP, before=like_others)
            self.tell(
                "dump: a file that is not to be read",
                got == (1, b"", cannot("read", "it.store", "EACCES")),
                got,
            )

    def test_standard_output_takes_nothing(self):
        with open("/dev/full", "wb") as full:
            self.case(
                "dump: standard output takes nothing",
                DUMP,
                1,
                None,
                fault("write fault"),
                files={"it.store": TWO},
                stdout=full,
            )
            self.case(
                "dump: standard output takes nothing of many lines",
                DUMP,
                1,
                None,
                fault("write fault"),
                files={
                    "it.store": store.add(
                        store.formatted(SMALL_TEXT),
                        b"".join(b"\1" + struct.pack("<I", it) + CLASS for it in range(1, 5_000)),
                    )
                },
                stdout=full,
            )

    def test_little_memory(self):
        big = store.add(
            store.formatted(FULL_TEXT),
            CREATED_1,
            *(
                b"\3" + name_of(1, 8, [long_image(it)]) + text_image(bytes(100_000))
                for it in range(150)
            ),
        )
        self.dumps(
            "15 MB of values in groups, in little more memory than these",
            big,
            0,
            store.dump(big),
            before=within(44_000_000),
        )
        settled = store.settled(big)
        self.dumps(
            "15 MB of values in a snapshot, in twice as much",
            settled,
            0,
            store.dump(big),
            before=within(60_000_000),
        )
        # less and less memory, until the snapshot cannot be read
        for kib in range(60_000, 0, -2_000):
            status, out, err = run(DUMP, files={"it.store": settled}, before=within(1_024 * kib))
            if status != 0:
                break
        self.tell(
            "dump: memory refused",
            (status, out, err) == (5, b"", fault("out of memory")),
            (status, short(out), err),
        )

    def test_the_bytes_of_the_page_on_stores(self):
        with open(f"{ROOT}/docs/reference/store.md", encoding="utf-8") as file:
            page = file.read().split("A store after four requests\n")[-1]
        before, rest = page.split("A checkpoint then writes")
        behind, old = rest.split("### The same in format 1")
        settled = store.settled(TWO)
        self.tell(
            "the reader gives one dump of both banks and both formats",
            store.dump(settled) == store.dump(TWO) == store.dump(OLD) == ONE,
        )
        for part, disk, least in ((before, TWO, 6), (behind, settled, 6), (old, OLD, 2)):
            rows = re.findall(
                r"^    ([0-9a-f]{8})((?: +[0-9a-f]{2})+)(?:  \|.*\|)?$", part, re.MULTILINE
            )
            wrong = [
                place
                for place, found in rows
                if not disk[int(place, 16) :].startswith(bytes.fromhex(found))
            ]
            self.tell(
                "docs/reference/store.md: each byte that is shown stands at its place",
                len(rows) > least and not wrong,
                wrong or len(rows),
            )


@unittest.skipIf(
    STRACE is None,
    "strace is not there: the calls of the system are not looked at, and no call is made to fail",
)
class DumpCalls(Cases):
    def test_the_calls(self):
        with tempfile.TemporaryDirectory() as room:
            fill(room, {"lib.idl": SMALL, "it.store": TWO})
            made = Calls(room, DUMP).does()
            body = (BODIES[2], BODIES[2] + store.BANK)
            reads = [
                it
                for it in made[len(OPENING) : -1]
                if it[0] != "read"
                or it[1:] != (8192, 32)
                and not body[0] <= it[1] <= it[1] + it[2] <= body[1]
            ]
            self.tell(
                "dump: the calls",
                made[: len(OPENING)] == OPENING and not reads and made[-1] == OUT,
                made,
            )
            read = sum(it[2] for it in made if it[0] == "read")
            self.tell("dump: of a bank that holds little, little is read", read < 70_000, read)
            fill(room, {"it.store": bytes(len(TWO))})
            calls = Calls(room, DUMP)
            self.tell(
                "dump: of what was never formatted the first byte alone is read",
                (calls.answer, calls.does()) == ((3, b"", fault("not a store")), OPENING[:4]),
                calls.made,
            )

    def test_each_call_fails(self):
        def dump_fails(place, what, got, room):
            wanted = (
                cannot("read", "it.store", what[-1])
                if place < len(OPENED)
                else fault(f"device fault 0x8003001{'d' if what[0] == 'sync' else 'e'}")
            )
            self.tell(
                f"dump: {what} fails, call {place}",
                (got, has_bytes(f"{room}/it.store", TWO)) == ((1, b"", wanted), True),
                got,
            )

        each_fails(self, DUMP, {"it.store": TWO}, dump_fails)
