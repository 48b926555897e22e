"""How long this process may write files: the limit in force counts, not the highest that may be
set; limits and files above 4 GiB."""
import contextlib
import os
import resource
import signal
import tempfile

from tests.support.preloaded import fast_folder
from tests.support.running import SMALL, Cases, cannot, fault, fill, run_in
from tests.support.stores import OLD, ONE, TWO, put, table, wire, words

SIZE = 75_505_664  # of a store where nothing is said
GIB = 1 << 30
UNLIMITED = resource.RLIM_INFINITY
FORMAT, UPGRADE, DUMP = (
    ["format", "it.store", "lib.idl"],
    ["upgrade", "it.store"],
    ["dump", "it.store"],
)
TOO_LARGE = (1, b"", cannot("write", "it.store", "EFBIG"))
FORMATTED = (0, b"formatted\n", b"")


def limits(force, highest=UNLIMITED):
    """Sets the limit in force and the highest one, as a call in the program's process. The signal
    of a write past it would end the program."""

    def limit():
        resource.setrlimit(resource.RLIMIT_FSIZE, (force, highest))
        signal.signal(signal.SIGXFSZ, signal.SIG_DFL)

    return limit


class Limits(Cases):
    @contextlib.contextmanager
    def room(self, disk=None, length=None):
        """A folder with a library and the file of a store, which may be longer than what it
        holds."""
        with tempfile.TemporaryDirectory(dir=fast_folder()) as room:
            fill(room, {"lib.idl": SMALL, **({} if disk is None else {"it.store": disk})})
            if length is not None:
                os.truncate(f"{room}/it.store", length)
            yield room

    def ends(self, name, command, before, wanted, disk=None, length=None, left=None):
        """What a command prints under a limit, and what `dump` prints of the store behind it; None
        where there is no file."""
        with self.room(disk, length) as room:
            got = run_in(room, command, before=before)
            self.tell(name, got == wanted, got)
            now = run_in(room, DUMP)[1].decode() if os.path.exists(f"{room}/it.store") else None
            self.tell(f"{name}: what the store holds", now == left, now)
            if length is not None:
                self.tell(f"{name}: its length", os.path.getsize(f"{room}/it.store") == length)

    def test_the_limit_in_force(self):
        """The highest limit that may be set is another one."""
        for force, highest in ((SIZE - 1, UNLIMITED), (SIZE - 1, SIZE), (0, UNLIMITED)):
            under = f"{force} in force, {highest} at most"
            self.ends(f"format, a new file: {under}", FORMAT, limits(force, highest), TOO_LARGE)
            self.ends(
                f"format, a store: {under}",
                FORMAT,
                limits(force, highest),
                TOO_LARGE,
                TWO,
                left=ONE,
            )
            self.ends(
                f"serve: {under}", words("--hex"), limits(force, highest), TOO_LARGE, TWO, left=ONE
            )
            self.ends(
                f"upgrade: {under}", UPGRADE, limits(force, highest), TOO_LARGE, OLD, left=ONE
            )
        self.ends(
            "format: the length in force, no more at most",
            FORMAT,
            limits(SIZE, SIZE),
            FORMATTED,
            left="next 1\n",
        )
        self.ends(
            "upgrade: the length in force, more at most",
            UPGRADE,
            limits(SIZE, SIZE + 1),
            (0, b"upgraded\n", b""),
            OLD,
            left=ONE,
        )

    def test_limits_above_32_bits(self):
        for force in (4 * GIB - 1, 4 * GIB, 4 * GIB + 1, 8 * GIB, 1 << 62):
            self.ends(
                f"format: files of {force} bytes at most",
                FORMAT,
                limits(force),
                FORMATTED,
                left="next 1\n",
            )

    def test_files_above_4_gib(self):
        """They are used in their own length, which needs no room on the device."""
        for length in (4 * GIB + 1_000_000, 5 * GIB):
            self.ends(
                f"format: a file of {length} bytes",
                FORMAT,
                None,
                FORMATTED,
                b"",
                length,
                "next 1\n",
            )
            self.ends(
                f"serve: a file of {length} bytes",
                words("--hex"),
                None,
                (0, b"", b""),
                TWO,
                length,
                ONE,
            )
            self.ends(
                f"upgrade: a file of {length} bytes",
                UPGRADE,
                None,
                (0, b"upgraded\n", b""),
                OLD,
                length,
                ONE,
            )
            self.ends(
                f"dump: a file of {length} bytes",
                DUMP,
                None,
                (0, ONE.encode(), b""),
                TWO,
                length,
                ONE,
            )
        self.ends(
            "serve: a file of 5 GiB, files of 4 GiB at most",
            words("--hex"),
            limits(4 * GIB),
            TOO_LARGE,
            TWO,
            length,
            ONE,
        )
        self.ends(
            "serve: a file of 5 GiB, files of 5 GiB at most",
            words("--hex"),
            limits(length),
            (0, b"", b""),
            TWO,
            length,
            ONE,
        )

    def test_what_no_bank_has(self):
        """`format` writes no further than the banks go, so a limit between their end and the file's
        end allows it."""
        for length in (SIZE + 1, 5 * GIB):
            for force in (SIZE, length - 1):
                self.ends(
                    f"format: a file of {length} bytes, files of {force} at most",
                    FORMAT,
                    limits(force),
                    FORMATTED,
                    b"",
                    length,
                    "next 1\n",
                )
            self.ends(
                f"format: a file of {length} bytes, files of {SIZE - 1} at most",
                FORMAT,
                limits(SIZE - 1),
                TOO_LARGE,
                TWO,
                length,
                ONE,
            )

    def test_a_file_that_is_too_short(self):
        """It is refused for its length, which the limit allows."""
        for length, force in ((100, 1_000_000), (SIZE - 1, SIZE - 1), (0, 0)):
            with self.room(b"", length) as room:
                got = run_in(room, FORMAT, before=limits(force))
                self.tell(
                    f"format: a file of {length} bytes, files of {force} at most",
                    got == (3, b"", fault("disk too small")),
                    got,
                )

    def test_a_session_under_a_limit(self):
        """A store that may just be written is served to the last byte."""
        with self.room(TWO) as room:
            got = run_in(room, words("--hex"), put(1, 8), before=limits(SIZE, SIZE))
            now = run_in(room, DUMP)[1].decode()
            self.tell(
                "serve: files of the store's length at most",
                (got, now) == ((0, wire.reply(1), b""), table(8)),
                (got, now),
            )
