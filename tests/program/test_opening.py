"""What `serve` refuses, and in which order: words, libraries, stores, and tables that the library
cannot have."""
import struct

from tests.support import store, wire
from tests.support.running import (
    CREATE,
    FULL_TEXT,
    REQUESTS,
    SMALL,
    SMALL_TEXT,
    cannot,
    fault,
    rows_of,
    run,
)
from tests.support.stores import BODIES, CLASS, CREATED_1, NEW, OLD, TWO, Served, changed, words
from tests.support.tables import guid_of

OF_TABLES = b"""[uuid(11223344-5566-7788-99aa-bbccddeeff01), version(0.0)]
library L {
[uuid(11223344-5566-7788-99aa-bbccddeeff02)]
dispinterface D {
properties:
[id(1)] long Count;
[id(2), readonly] VARIANT Free;
[id(4)] SAFEARRAY(long) List;
methods:
[id(3)] void Run();
[id(9), propget] short Cell([in] long Row, [in] VARIANT Key);
[id(10), propput] void Only([in] long Row, [in] short Value);
}
[uuid(11223344-5566-7788-99aa-bbccddeeff04)]
dispinterface E {
properties:
[id(1)] long Other;
methods:
}
[uuid(11223344-5566-7788-99aa-bbccddeeff03)]
coclass C {
[default] dispinterface D;
}
}
"""
IMAGES = {
    "i": struct.pack("<Hi", 3, 7),
    "s": struct.pack("<Hh", 2, 7),
    "a": struct.pack("<HHIii", 0x2003, 1, 1, 0, 7),
    "b": struct.pack("<HHIih", 0x2002, 1, 1, 0, 7),
}


class Opening(Served):
    def test_sizes_of_groups_that_are_refused(self):
        for refusal in ("0", "1025", "-1", "+1", "x", ""):
            status, out, err = run(
                words("--group", refusal), files={"lib.idl": SMALL, "it.store": NEW}
            )
            self.tell(
                f"serve: a group of {refusal!r} is refused",
                (status, out, err.startswith(b"error: ")) == (2, b"", True),
                (status, out, err),
            )

    def test_files_that_are_refused(self):
        self.case(
            "serve: a library that is refused goes before a store that is not there",
            words(),
            2,
            b"",
            fault("syntax at byte 0"),
            files={"lib.idl": b"library"},
        )
        self.case(
            "serve: a library that is not there",
            words(),
            1,
            b"",
            cannot("read", "lib.idl", "ENOENT"),
            files={"it.store": NEW},
        )
        self.case(
            "serve: a store that is not there",
            words(),
            1,
            b"",
            cannot("read", "it.store", "ENOENT"),
            files={"lib.idl": SMALL},
        )
        self.case(
            "serve: standard input cannot hold library and requests",
            ["serve", "it.store", "-"],
            2,
            b"",
            fault("standard input holds the requests, so LIB cannot be -"),
            files={"it.store": NEW},
            given=SMALL,
        )

    def test_stores_that_are_refused(self):
        body = BODIES[2]
        snapshot, gate = body + len(SMALL_TEXT), body + len(SMALL_TEXT) + 8
        full, snapshot_of_full = store.formatted(FULL_TEXT), body + len(FULL_TEXT)
        for name, disk, text in (
            ("a disk of zeros", bytes(len(TWO)), "not a store"),
            ("a file of 100 bytes", TWO[:100], "not a store"),
            ("a first byte of 255", changed(TWO, 0, 255), "not a store"),
            ("a bank that was never written", changed(TWO, 4096, 1), "damaged at 16785408"),
            ("another library", full, "library differs"),
            (
                "another library whose snapshot is damaged",
                changed(full, snapshot_of_full, 0, 0, 0, 0),
                "library differs",
            ),
            ("a byte of the library", changed(TWO, body, 0), "library differs"),
            ("a bank's first byte", changed(TWO, 8192, 0), "damaged at 8192"),
            ("a format 1 by its number alone", changed(TWO, 8200, 1), "damaged at 8192"),
            ("a format 1 by its magic alone", changed(TWO, 8199, 0x31), "damaged at 8192"),
            ("a snapshot beyond the bank", changed(TWO, 8211, 255), "damaged at 8192"),
            ("a bank that the file does not have", changed(TWO, 8212, 1), "damaged at 8192"),
            ("a file that lacks its last byte", TWO[:-1], "damaged at 8192"),
            ("a snapshot", changed(TWO, snapshot, 0, 0, 0, 0), f"damaged at {snapshot}"),
            ("a group of no bytes", changed(TWO, gate + 1, 0, 0, 0, 0), f"damaged at {gate}"),
            ("a group", changed(TWO, gate + 5, 9), f"damaged at {gate}"),
        ):
            self.serves(f"{name}: {text}", REQUESTS, 3, b"", fault(text), disk, disk, "--hex")
        elsewhere = store.add(bytearray(NEW), b"\1" + struct.pack("<I", 1) + bytes(16))
        self.serves(
            "an object of a coclass that the library does not have",
            REQUESTS,
            3,
            b"",
            fault("damaged at 0"),
            elsewhere,
            elsewhere,
            "--hex",
        )

    def test_stores_of_format_1(self):
        # its head decides: the library, the snapshot and the groups behind it are not looked at
        for name, disk, text in (
            ("as it is", OLD, "old format"),
            ("in bank 1", store.settled(OLD), "old format"),
            ("in a longer file", OLD + bytes(41_943_040), "old format"),
            ("another library", store.formatted_before(FULL_TEXT), "old format"),
            ("a damaged snapshot", changed(OLD, 8503, 0, 0, 0, 0), "old format"),
            ("a damaged group", changed(OLD, 8516, 9), "old format"),
            ("a damaged head", changed(OLD, 8192, 0), "damaged at 8192"),
            ("a byte behind the lengths", changed(OLD, 8223, 1), "damaged at 8192"),
            ("a snapshot beyond the bank", changed(OLD, 8208, 0, 0, 0, 1), "damaged at 8192"),
            ("a file that lacks its last byte", OLD[:-1], "not a store"),
            ("a first byte of 0", changed(OLD, 0, 0), "not a store"),
        ):
            self.serves(
                f"format 1, {name}: {text}", REQUESTS, 3, b"", fault(text), disk, disk, "--hex"
            )

    def test_tables_that_the_library_can_have_or_not(self):
        for row in rows_of("tables.txt"):
            class_, face, dispid, key, value, fits = row.split("|")
            place = (
                guid_of(face)
                + struct.pack("<iH", int(dispid), len(key))
                + b"".join(IMAGES[it] for it in key)
            )
            events = (
                CREATED_1
                + b"\1"
                + struct.pack("<I", 2)
                + guid_of(class_)
                + b"\3"
                + struct.pack("<I", 2)
                + place
                + IMAGES[value]
            )
            disk = bytes(store.add(store.formatted(OF_TABLES), events))
            self.serves(
                f"the table {row}",
                b"",
                *((0, b"", b"") if fits == "yes" else (3, b"", fault("damaged at 0"))),
                disk,
                disk,
                library=OF_TABLES,
            )

    def test_the_last_number_that_an_object_can_have(self):
        last = bytes(changed(NEW, BODIES[2] + len(SMALL_TEXT), *struct.pack("<I", 4_294_967_294)))
        left = bytes(store.add(bytearray(last), b"\1" + struct.pack("<I", 4_294_967_294) + CLASS))
        self.serves(
            "the last number",
            (CREATE + b"\n") * 2,
            0,
            wire.reply(1, fields=struct.pack("<II", 4_294_967_294, 0)) + wire.reply(1, 0x8000_FFFF),
            b"",
            last,
            left,
            "--hex",
        )
        self.case(
            "dump: the last number",
            ["dump", "it.store"],
            0,
            b"next 4294967295\nobject 4294967294 %s\n" % store.guid_text(CLASS).encode(),
            b"",
            files={"it.store": left},
        )
