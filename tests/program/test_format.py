"""What `format` prints, and what it leaves in a store's file; which calls of the system it makes,
and what comes of it where one fails."""
import os
import tempfile
import unittest

from tests.support import store
from tests.support.calls import OUT, STRACE, Calls, each_fails, text_held
from tests.support.commits import OPENED
from tests.support.running import (
    FULL,
    FULL_TEXT,
    SMALL,
    SMALL_TEXT,
    Cases,
    cannot,
    fault,
    files_of,
    fill,
    run,
    run_in,
)
from tests.support.stores import BODIES, NEW, OLD, ONE, TWO

FORMATTED = b"formatted\n"
FORMAT = ["format", "it.store", "lib.idl"]
BANK_0 = [("write", 8192, 32), ("write", BODIES[2], len(SMALL_TEXT) + 8 + 1)]
LAID_DOWN = [
    ("write", 0, 1),
    ("sync",),
    *BANK_0,
    ("write", 4096, 1),
    ("sync",),
    ("write", 0, 1),
    ("sync",),
    OUT,
]
SIZE = 75_505_664  # of a store where nothing is said


def laid_over(disk, bank=store.BANK):
    """A disk that has become a store of the small library, and what it had everywhere else."""
    disk = store.laid(bytearray(disk), 2, 0, SMALL_TEXT, store.NO_OBJECTS, bank)
    disk[0] = 1
    return bytes(disk)


class Format(Cases):
    def test_a_new_file(self):
        self.leaves(
            "format: a file that is not there",
            FORMAT,
            0,
            FORMATTED,
            b"",
            {"lib.idl": SMALL},
            {"it.store": NEW},
        )
        self.leaves(
            "format: a library from standard input",
            ["format", "it.store", "-"],
            0,
            FORMATTED,
            b"",
            {},
            {"it.store": NEW},
            given=SMALL,
        )
        self.leaves(
            "format: the canonical text is kept",
            FORMAT,
            0,
            FORMATTED,
            b"",
            {"lib.idl": FULL},
            {"it.store": bytes(store.formatted(FULL_TEXT))},
        )
        self.tell("a store where nothing is said has 75,505,664 bytes", len(NEW) == SIZE)

    def test_files_that_are_there(self):
        full = bytes(store.formatted(FULL_TEXT))
        self.leaves(
            "format: a store begins anew",
            FORMAT,
            0,
            FORMATTED,
            b"",
            {"lib.idl": SMALL, "it.store": full},
            {"it.store": laid_over(full)},
        )
        longer = b"\xab" * (SIZE + 1_000)
        self.leaves(
            "format: a longer file keeps its length, and what no bank has",
            FORMAT,
            0,
            FORMATTED,
            b"",
            {"lib.idl": SMALL, "it.store": longer},
            {"it.store": laid_over(longer)},
        )
        old = OLD + bytes(SIZE - len(OLD))
        self.leaves(
            "format: a store of format 1 that is long enough",
            FORMAT,
            0,
            FORMATTED,
            b"",
            {"lib.idl": SMALL, "it.store": old},
            {"it.store": laid_over(old)},
        )
        self.leaves(
            "format: a store of format 1",
            FORMAT,
            3,
            b"",
            fault("disk too small"),
            {"lib.idl": SMALL, "it.store": OLD},
            {"it.store": OLD},
        )
        for size in (0, 100, store.LEAST, SIZE - 1):
            disk = bytes(size)
            self.leaves(
                f"format: a file of {size} bytes",
                FORMAT,
                3,
                b"",
                fault("disk too small"),
                {"lib.idl": SMALL, "it.store": disk},
                {"it.store": disk},
            )

    def test_banks(self):
        for bank in ("20971520", "20971521", "41943040"):
            left = bytes(store.formatted(SMALL_TEXT, int(bank)))
            self.leaves(
                f"format: banks of {bank} bytes",
                [*FORMAT, "--bank", bank],
                0,
                FORMATTED,
                b"",
                {"lib.idl": SMALL},
                {"it.store": left},
            )
        self.leaves(
            "format: a byte too few for banks of 20,971,521",
            ["format", "--bank", "20971521", "it.store", "lib.idl"],
            3,
            b"",
            fault("disk too small"),
            {"lib.idl": SMALL, "it.store": TWO + b"\0"},
            {"it.store": TWO + b"\0"},
        )
        for bank in (
            "20971519",
            "1073741825",
            "4294967296",
            "0",
            "-1",
            "x",
            "",
            "20971520.0",
            "0x1400000",
        ):
            status, out, err = run([*FORMAT, f"--bank={bank}"], files={"lib.idl": SMALL})
            self.tell(
                f"format: banks of {bank!r} bytes are refused",
                (status, out, err.startswith(b"error: ")) == (2, b"", True),
                (status, out, err),
            )

    def test_the_largest_banks(self):
        with tempfile.TemporaryDirectory() as room:
            fill(room, {"lib.idl": SMALL})
            size = 33_562_624 + 2 * 1_073_741_824
            for length, status, out, err in (
                (size - 1, 3, b"", fault("disk too small")),
                (size, 0, FORMATTED, b""),
            ):
                with open(f"{room}/it.store", "wb") as file:
                    file.truncate(length)
                got = run_in(room, [*FORMAT, "--bank", "1073741824"])
                self.tell(
                    f"format: the largest banks in {length} bytes", got == (status, out, err), got
                )
            with open(f"{room}/it.store", "rb") as file:
                shown = [file.read(1)]
                for place, count in ((4096, 1), (8192, 32), (BODIES[2], len(SMALL_TEXT) + 9)):
                    file.seek(place)
                    shown.append(file.read(count))
            head = store.head_of(2, SMALL_TEXT, store.NO_OBJECTS, 1_073_741_824)
            self.tell(
                "format: the bytes of the largest banks",
                (shown, os.stat(f"{room}/it.store").st_size)
                == ([b"\1", b"\0", head, SMALL_TEXT + store.NO_OBJECTS + b"\0"], size),
                shown,
            )
            got = run_in(room, ["dump", "it.store"])
            self.tell("dump: the largest banks", got == (0, b"next 1\n", b""), got)

    def test_libraries_that_are_refused(self):
        for what, library, status, text in (
            (
                "that is not there",
                None,
                1,
                "cannot read lib.idl\nlib.idl: No such file or directory",
            ),
            ("that is not UTF-8", b"\xff", 2, "library is not UTF-8"),
            ("that is none", b"library", 2, "syntax at byte 0"),
            ("too long", SMALL + b" " * 262_145, 2, "limit text"),
            (
                "with a name twice",
                SMALL.replace(b"[id(1)] long Count;", b"[id(1)] long Count; [id(2)] long COUNT;"),
                2,
                "duplicate name COUNT",
            ),
        ):
            files = {} if library is None else {"lib.idl": library}
            self.leaves(
                f"format: a library {what} makes no file",
                FORMAT,
                status,
                b"",
                fault(text),
                files,
                {"it.store": None},
            )
            self.leaves(
                f"format: a library {what} changes no store",
                FORMAT,
                status,
                b"",
                fault(text),
                {"it.store": b"\xab" * 100, **files},
                {"it.store": b"\xab" * 100},
            )

    def test_files_that_cannot_be_written(self):
        self.case(
            "format: a folder for a store",
            ["format", ".", "lib.idl"],
            1,
            b"",
            cannot("read", ".", "EISDIR"),
            files={"lib.idl": SMALL},
        )
        self.case(
            "format: a device for a store",
            ["format", "/dev/null", "lib.idl"],
            1,
            b"",
            cannot("read", "/dev/null", "not a regular file"),
            files={"lib.idl": SMALL},
        )
        self.case(
            "format: a folder that is not there",
            ["format", "none/it.store", "lib.idl"],
            1,
            b"",
            cannot("write", "none/it.store", "ENOENT"),
            files={"lib.idl": SMALL},
        )
        self.case(
            "format: a file's name with a control character",
            ["format", "none/it\n", "lib.idl"],
            1,
            b"",
            cannot("write", "none/it\\u{a}", "ENOENT"),
            files={"lib.idl": SMALL},
        )

    def test_limits_of_files(self):
        """A process that may not write files so long is told so, and no signal ends it. What it may
        write to the last byte is written."""
        for what, files, left in (("no file", {}, None), ("a store", {"it.store": TWO}, TWO)):
            for length in (0, 1_000_000, SIZE - 1):
                self.leaves(
                    f"format: {what}, and files of {length} bytes at most",
                    FORMAT,
                    1,
                    b"",
                    cannot("write", "it.store", "EFBIG"),
                    {"lib.idl": SMALL, **files},
                    {"it.store": left},
                    before=files_of(length),
                )
        self.leaves(
            "format: files of the store's length at most",
            FORMAT,
            0,
            b"formatted\n",
            b"",
            {"lib.idl": SMALL},
            {"it.store": NEW},
            before=files_of(SIZE),
        )
        for length, wanted in (
            (SIZE - 1, (1, b"", cannot("write", "it.store", "EFBIG"))),
            (SIZE, (0, b"", b"")),
        ):
            self.leaves(
                f"serve: files of {length} bytes at most",
                ["serve", "it.store", "lib.idl"],
                *wanted,
                {"lib.idl": SMALL, "it.store": NEW},
                {"it.store": NEW},
                before=files_of(length),
            )
        self.leaves(
            "dump: files of no byte at most",
            ["dump", "it.store"],
            0,
            b"next 1\n",
            b"",
            {"it.store": NEW},
            {"it.store": NEW},
            before=files_of(0),
        )

    def test_standard_output_takes_nothing(self):
        with open("/dev/full", "wb") as full:
            self.leaves(
                "format: standard output takes nothing",
                FORMAT,
                1,
                None,
                fault("write fault"),
                {"lib.idl": SMALL},
                {"it.store": NEW},
                stdout=full,
            )
        self.leaves(
            "format: standard output is closed",
            FORMAT,
            1,
            b"",
            fault("write fault"),
            {"lib.idl": SMALL},
            {"it.store": NEW},
            before=lambda: os.close(1),
        )

    def test_a_new_file_takes_all_its_blocks(self):
        with tempfile.TemporaryDirectory() as room:
            fill(room, {"lib.idl": SMALL})
            run_in(room, FORMAT)
            found = os.stat(f"{room}/it.store")
            self.tell(
                "format: a new file takes all its blocks at once",
                found.st_blocks * 512 >= SIZE,
                found,
            )


@unittest.skipIf(
    STRACE is None,
    "strace is not there: the calls of the system are not looked at, and no call is made to fail",
)
class FormatCalls(Cases):
    def test_a_new_file(self):
        with tempfile.TemporaryDirectory() as room:
            fill(room, {"lib.idl": SMALL})
            made = Calls(room, FORMAT).does()
            last = [("sync",), ("sync folder",), *LAID_DOWN]
            self.tell(
                "format: a new file and its name are on the device before it is laid down",
                made[-len(last) :] == last,
                made[-len(last) :],
            )
            zeros = [it for it in made[: -len(last)] if it[0] == "write"]
            self.tell(
                "format: a new file is written whole", sum(it[2] for it in zeros) == SIZE, zeros[:3]
            )
            self.tell(
                "format: a new file is locked before it is written",
                made[:2] == [("lock",), ("length", SIZE)],
                made[:3],
            )

    def test_a_new_file_that_cannot_be_made(self):
        for inject in (
            "pwrite64:error=ENOSPC:when=100",
            "pwrite64:error=EDQUOT:when=1",
            "ftruncate:error=EFBIG:when=1",
            "flock:error=EOPNOTSUPP:when=1",
            "fsync:error=ENOSPC:when=1",
            "fsync:error=EIO:when=2",
        ):
            with tempfile.TemporaryDirectory() as room:
                fill(room, {"lib.idl": SMALL})
                got = Calls(room, FORMAT, inject).answer
                self.tell(
                    f"format: a file that cannot be made is removed, {inject}",
                    (got, os.path.exists(f"{room}/it.store"))
                    == (
                        (1, b"", cannot("write", "it.store", inject.split("=")[1].split(":")[0])),
                        False,
                    ),
                    got,
                )

    def test_a_file_that_is_there(self):
        with tempfile.TemporaryDirectory() as room:
            fill(room, {"lib.idl": SMALL, "it.store": TWO})
            made = Calls(room, FORMAT).does()
            self.tell(
                "format: the calls on a file that is there", made == [*OPENED, *LAID_DOWN], made
            )

    def test_each_call_fails(self):
        def format_fails(place, what, got, room):
            wanted = (
                cannot("read", "it.store", what[-1])
                if place < len(OPENED)
                else fault("device fault 0x8003001d")
            )
            now = text_held(room)
            # from the write on that makes it a store again, it may be one
            left = (
                [ONE]
                if place < 3
                else ["not a store", "next 1\n"]
                if place > 7
                else ["not a store"]
            )
            self.tell(
                f"format: {what} fails, call {place}",
                got == (1, b"", wanted) and now in left,
                (got, now),
            )

        each_fails(self, FORMAT, {"lib.idl": SMALL, "it.store": TWO}, format_fails)

    def test_killed_at_each_call(self):
        def format_killed(place, what, got, room):
            now = text_held(room)
            self.tell(
                f"format: killed at {what}, call {place}",
                got[1] == b""
                and now == (ONE if place < 3 else "not a store" if place < 9 else "next 1\n"),
                (got, now),
            )

        each_fails(self, FORMAT, {"lib.idl": SMALL, "it.store": TWO}, format_killed, "signal=KILL")
