"""What `upgrade` prints, and what it leaves in a store's file; which calls of the system it makes,
and what comes of it where one fails or it is killed."""
import os
import random
import struct
import subprocess
import tempfile
import time
import unittest

from tests.support import store
from tests.support.calls import OUT, STRACE, Calls, each_fails, held, text_held
from tests.support.commits import OPENED, OPENING
from tests.support.running import (
    FULL_TEXT,
    PROGRAM,
    SMALL,
    SMALL_TEXT,
    Cases,
    cannot,
    fault,
    files_of,
    fill,
    run,
    run_in,
)
from tests.support.stores import (
    BODIES,
    BODY_1,
    CLASS,
    CREATED_1,
    FACE,
    NEW,
    OLD,
    ONE,
    PUT_7,
    TWO,
    changed,
    get,
    got,
    put,
    words,
)

UPGRADE, UPGRADED = ["upgrade", "it.store"], b"upgraded\n"
SIZE = 75_505_664  # of a store where nothing is said
# a file that lacks two pieces of zeros
SHORT = OLD + bytes(SIZE - 100_000 - len(OLD))
# once the file is long enough: a head, a body, a sync, the selector, a sync
LAST = [
    ("write", 16_785_408, 32),
    ("write", BODY_1, 340),
    ("sync",),
    ("write", 4096, 1),
    ("sync",),
    OUT,
]


def arrays(count):
    """A store of format 1 whose table is larger than what its groups have: so many arrays of 65,536
    elements of 8 bytes, each made from one of no elements."""
    face = FACE + struct.pack("<i", 7)
    name = [
        struct.pack("<I", number) + face + struct.pack("<H", 0) for number in range(1, count + 1)
    ]
    created = b"".join(b"\1" + struct.pack("<I", number) + CLASS for number in range(1, count + 1))
    events = [
        b"\3"
        + it
        + struct.pack("<HHIi", 0x2014, 1, 0, 0)
        + b"\5"
        + it
        + struct.pack("<Ii", 65_536, 0)
        for it in name
    ]
    return bytes(store.add(store.formatted_before(FULL_TEXT), created, *events))


class Upgrade(Cases):
    def upgrades(self, name, disk, left, *more):
        self.leaves(
            f"upgrade: {name}",
            [*UPGRADE, *more],
            0,
            UPGRADED,
            b"",
            {"it.store": disk},
            {"it.store": left},
        )

    def refuses(self, name, disk, status, text, *more):
        """A file that is refused stays as it is."""
        self.leaves(
            f"upgrade: {name}",
            [*UPGRADE, *more],
            status,
            b"",
            fault(text),
            {"it.store": disk},
            {"it.store": disk},
        )

    def test_the_bytes(self):
        new = bytes(store.upgraded(OLD))
        head = bytes.fromhex(
            "4f415554424b3032 02000000 17010000 3c000000 00004001 0000000000000000"
        )
        self.tell(
            "upgrade: the head, the body and the selector",
            (
                new[16_785_408:16_785_440],
                new[BODY_1 : BODY_1 + 279],
                new[BODY_1 + 339],
                new[4096],
                len(new),
            )
            == (head, SMALL_TEXT, 0, 1, SIZE),
        )
        self.upgrades("a store with an object", OLD, new)
        self.upgrades("the size where nothing is said, named", OLD, new, "--bank", "20971520")
        self.upgrades(
            "banks of another size", OLD, store.upgraded(OLD, 20_971_521), "--bank", "20971521"
        )
        self.upgrades("larger banks", OLD, store.upgraded(OLD, 41_943_040), "--bank", "41943040")
        self.upgrades(
            "from bank 1 into bank 0", store.settled(OLD), store.upgraded(store.settled(OLD))
        )
        self.upgrades(
            "a file that is longer than that",
            OLD + b"\xab" * 42_000_000,
            store.upgraded(OLD + b"\xab" * 42_000_000),
        )
        self.upgrades(
            "a file that is somewhat longer than before",
            OLD + b"\xab" * 1_000,
            store.upgraded(OLD + b"\xab" * 1_000),
        )
        self.upgrades(
            "a store without objects",
            store.formatted_before(SMALL_TEXT),
            store.upgraded(store.formatted_before(SMALL_TEXT)),
        )
        long = store.add(
            store.formatted_before(FULL_TEXT),
            CREATED_1,
            *[
                b"\3"
                + struct.pack("<I", 1)
                + FACE
                + struct.pack("<iHHI", 2, 0, 8, 1_048_576)
                + bytes([it]) * 1_048_576
                for it in range(15)
            ],
        )
        self.upgrades("groups of 15 MB, of which one text is left", long, store.upgraded(long))

    def test_what_is_there_afterwards(self):
        with tempfile.TemporaryDirectory() as room:
            fill(room, {"lib.idl": SMALL, "it.store": OLD})
            before = [run_in(room, ["dump", "it.store", *more]) for more in ([], ["--library"])]
            refused = run_in(room, words("--hex"), given=get(1))
            done = run_in(room, UPGRADE)
            after = [run_in(room, ["dump", "it.store", *more]) for more in ([], ["--library"])]
            served = run_in(room, words("--hex"), given=get(1) + put(2, 8) + get(3))
            blocks = os.stat(f"{room}/it.store").st_blocks * 512
            self.tell(
                "upgrade: what is served before it and behind it",
                (refused[0], refused[2], done[0], served)
                == (
                    3,
                    fault("old format"),
                    0,
                    (
                        0,
                        got(1, 7)
                        + b"02000000"
                        + b"00000000"
                        + b"ffffffff"
                        + b"00000000"
                        + b"\n"
                        + got(3, 8),
                        b"",
                    ),
                ),
                (refused, done, served),
            )
            self.tell(
                "upgrade: the dumps of both formats are one",
                before == after == [(0, ONE.encode(), b""), (0, SMALL_TEXT, b"")],
                (before, after),
            )
            self.tell(
                "upgrade: the longer part of the file takes its room at once",
                blocks >= SIZE - len(OLD),
                blocks,
            )

    def test_files_that_are_refused(self):
        self.refuses("a store of format 2", TWO, 3, "already format 2")
        self.refuses(
            "a store of format 2, and larger banks",
            TWO,
            3,
            "already format 2",
            "--bank",
            "41943040",
        )
        self.refuses("a second upgrade", store.upgraded(OLD), 3, "already format 2")
        self.refuses("a file of 100 bytes", OLD[:100], 3, "not a store")
        self.refuses("a file without bytes", b"", 3, "not a store")
        self.refuses("a text", SMALL, 3, "not a store")
        self.refuses("a file that lacks its last byte", OLD[:-1], 3, "not a store")
        self.refuses("a first byte of 0", changed(OLD, 0, 0), 3, "not a store")
        self.refuses("zeros", bytes(SIZE), 3, "not a store")
        self.refuses("a damaged head", changed(OLD, 8192, 0), 3, "damaged at 8192")
        self.refuses(
            "a bank that was never written", changed(OLD, 4096, 1), 3, "damaged at 16785408"
        )
        self.refuses("a damaged snapshot", changed(OLD, 8503, 0, 0, 0, 0), 3, "damaged at 8503")
        self.refuses("a damaged group", changed(OLD, 8516, 9), 3, "damaged at 8511")
        self.refuses("a store of format 2 that lacks its last byte", TWO[:-1], 3, "damaged at 8192")

    def test_files_that_cannot_be_read_or_written(self):
        self.case(
            "upgrade: a file that is not there",
            UPGRADE,
            1,
            b"",
            cannot("read", "it.store", "ENOENT"),
        )
        self.case("upgrade: a folder", ["upgrade", "."], 1, b"", cannot("read", ".", "EISDIR"))
        self.case(
            "upgrade: a device",
            ["upgrade", "/dev/zero"],
            1,
            b"",
            cannot("read", "/dev/zero", "not a regular file"),
        )
        for length in (1_000_000, SIZE - 1):
            self.leaves(
                f"upgrade: files of {length} bytes at most",
                UPGRADE,
                1,
                b"",
                cannot("write", "it.store", "EFBIG"),
                {"it.store": OLD},
                {"it.store": OLD},
                before=files_of(length),
            )
        self.leaves(
            "upgrade: files of the store's length at most",
            UPGRADE,
            0,
            UPGRADED,
            b"",
            {"it.store": OLD},
            {"it.store": bytes(store.upgraded(OLD))},
            before=files_of(SIZE),
        )
        with open("/dev/full", "wb") as full:
            self.leaves(
                "upgrade: standard output takes nothing",
                UPGRADE,
                1,
                None,
                fault("write fault"),
                {"it.store": OLD},
                {"it.store": bytes(store.upgraded(OLD))},
                stdout=full,
            )

    def test_banks_that_are_refused(self):
        for bank in ("20971519", "1073741825", "+20971520", "x", ""):
            status, out, err = run([*UPGRADE, f"--bank={bank}"], files={"it.store": OLD})
            self.tell(
                f"upgrade: banks of {bank!r} bytes are refused",
                (status, out, err.startswith(b"error: ")) == (2, b"", True),
                (status, out, err),
            )

    def test_a_table_that_a_bank_does_not_take(self):
        fits, too_large = arrays(29), arrays(30)
        size = 8 + 30 * (24 + 22 + 12 + 524_288)
        self.tell(
            "upgrade: the image of 30 arrays, above 15,728,640 bytes",
            size == len(store.table_image(*store.read(too_large)[1:3])) == 15_730_388,
        )
        self.upgrades("29 arrays of 65,536 elements", fits, store.upgraded(fits))
        self.refuses("30 arrays in banks of 20,971,520 bytes", too_large, 3, "damaged at 0")
        self.upgrades(
            "30 arrays in larger banks",
            too_large,
            store.upgraded(too_large, 25_165_824),
            "--bank",
            "25165824",
        )


def is_told(place, parts, what):
    """What is told where a call fails, whose parts begin at these places: the first look, the
    longer file, and the upgrade."""
    if place < len(OPENED):
        return cannot("read", "it.store", what[-1])
    if parts[1] <= place < parts[2]:
        return cannot("write", "it.store", what[-1])
    return fault(f"device fault 0x8003001{'e' if what[0] == 'read' else 'd'}")


@unittest.skipIf(
    STRACE is None,
    "strace is not there: the calls of the system are not looked at, and no call is made to fail",
)
class UpgradeCalls(Cases):
    def calls(self, disk):
        """The calls of an upgrade of a file."""
        with tempfile.TemporaryDirectory() as room:
            fill(room, {"it.store": disk})
            calls = Calls(room, UPGRADE)
            self.tell(
                "upgrade: under strace",
                (calls.answer, text_held(room)) == ((0, UPGRADED, b""), ONE),
                calls.answer,
            )
        return calls.does()

    def made(self):
        """The calls of an upgrade of the short file, and where its parts begin."""
        made = self.calls(SHORT)
        zeros = next(place for place, it in enumerate(made) if it[0] == "write")
        return made, [0, zeros, made.index(("sync",), zeros) + 1]

    def test_the_calls(self):
        made, parts = self.made()
        self.tell(
            "upgrade: it is locked once, before all else",
            [place for place, it in enumerate(made) if it == ("lock",)] == [0],
            made,
        )
        first, second, third = made[: parts[1]], made[parts[1] : parts[2]], made[parts[2] :]
        self.tell(
            "upgrade: it looks before it writes",
            first[: len(OPENING)] == OPENING
            and len(first) > len(OPENING)
            and all(it[0] == "read" for it in first[len(OPENING) :]),
            first,
        )
        self.tell(
            "upgrade: zeros behind the end, and a sync",
            second
            == [("write", SIZE - 100_000, 65_536), ("write", SIZE - 34_464, 34_464), ("sync",)],
            second,
        )
        self.tell(
            "upgrade: a head, a body, a sync, the selector, a sync, and nothing is read again",
            third == LAST,
            third,
        )
        made = self.calls(OLD + bytes(SIZE - len(OLD)))
        begins = made.index(LAST[0]) - 1
        looks = made[len(OPENING) : begins]
        self.tell(
            "upgrade: of a file that is long enough, no zeros, and the sync all the same",
            made[: len(OPENING)] == OPENING
            and all(it[0] == "read" for it in looks)
            and made[begins:] == [("sync",), *LAST],
            made,
        )

    def goes_on(self, name, room):
        """The same command brings what is there to the same store."""
        before = text_held(room)
        again = run_in(room, UPGRADE)
        done = again in ((0, UPGRADED, b""), (3, b"", fault("already format 2")))
        left = held(room)
        found = store.read(left)
        self.tell(
            f"{name}, and goes on",
            (before, done, found.format, len(left), store.dump(left)) == (ONE, True, 2, SIZE, ONE),
            (before, again),
        )

    def test_each_call_fails(self):
        made, parts = self.made()

        def upgrade_fails(place, what, answer, room):
            name = f"upgrade: {what} fails, call {place}"
            size = os.stat(f"{room}/it.store").st_size
            length = len(SHORT) if place < parts[2] else SIZE
            self.tell(
                name,
                (answer, size) == ((1, b"", is_told(place, parts, what)), length),
                (answer, size),
            )
            self.goes_on(name, room)

        each_fails(self, UPGRADE, {"it.store": SHORT}, upgrade_fails)

    def test_killed_at_each_call(self):
        def upgrade_killed(place, what, answer, room):
            self.tell(f"upgrade: killed at {what}, call {place}", answer[1] == b"", answer)
            self.goes_on(f"upgrade: killed at {what}, call {place}", room)

        each_fails(self, UPGRADE, {"it.store": SHORT}, upgrade_killed, "signal=KILL")


class Kills(Cases):
    def test_killed_at_any_moment(self):
        seed = int(os.environ.get("OAUT_SEED") or int.from_bytes(os.urandom(4), "little"))
        draw = random.Random(seed)
        many = store.add(
            store.formatted_before(FULL_TEXT),
            CREATED_1,
            *(
                b"\3"
                + struct.pack("<I", 1)
                + FACE
                + struct.pack("<iH", 2, 0)
                + struct.pack("<HI", 8, 100_000)
                + bytes([it]) * 100_000
                for it in range(140)
            ),
        )
        dump = store.dump(many)
        killed = 0
        for turn in range(12):
            with tempfile.TemporaryDirectory() as room:
                fill(room, {"it.store": bytes(many)})
                for _ in range(40):
                    process = subprocess.Popen(
                        [PROGRAM, *UPGRADE],
                        cwd=room,
                        stdout=subprocess.PIPE,
                        stderr=subprocess.PIPE,
                    )
                    time.sleep(draw.random() * 0.12)
                    process.kill()
                    out, err = process.communicate()
                    killed += process.returncode == -9
                    there = text_held(room)
                    said = run_in(room, ["dump", "it.store"])[1].decode()
                    if not (there == said == dump and out in (b"", UPGRADED)):
                        break
                    if process.returncode != -9:
                        break
                done = run_in(room, UPGRADE)
                self.tell(
                    f"upgrade: killed at any moment, turn {turn}, seed {seed}",
                    (
                        there == said == dump,
                        done[0] in (0, 3),
                        store.read(held(room)).format,
                        text_held(room) == dump,
                    )
                    == (True, True, 2, True),
                    (done, process.returncode, err),
                )
        print(f"{killed} upgrades were killed, and went on")
