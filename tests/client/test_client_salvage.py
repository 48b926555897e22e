"""`python3 -m oaut store salvage`: what is had of stores that were damaged in each of their parts,
and what is told to be left out."""
import os
import struct
import tempfile

from oaut import salvage
from oaut import store as stores
from tests.client.clients import FULL, PROGRAM, ClientCases, oaut
from tests.client.test_client_backup import CLASS, FACE, TEXT, command, created, put, text
from tests.client.test_client_contents import whole
from tests.support.running import fill

THERE = os.path.exists(PROGRAM)
COUNT, NAME = 1, 2
number = lambda it: (stores.I4, struct.pack("<i", it))
BEFORE = [
    b"".join(map(created, range(1, 6))),
    b"".join(put(it, COUNT, number(it)) for it in range(1, 6)),
    put(3, NAME, text(b"three"[:4] * 40)),
]
GROUPS = [
    put(1, COUNT, number(11)),
    put(2, NAME, text(b"ab")),
    created(6) + put(6, COUNT, number(66)),
    b"\2" + struct.pack("<I", 4),
    put(5, COUNT, number(55)),
]
# bank 0 with the groups of before, bank 1 in use, with that table and the groups
STORE = bytes(stores.add(stores.settled(stores.add(stores.formatted(TEXT), *BEFORE)), *GROUPS))
BODY = stores.body_of(2, 1, stores.BANK)
OTHER = stores.body_of(2, 0, stores.BANK)
FOUND = stores.read(STORE)
TABLE = BODY + len(TEXT)
FIRST = FOUND.groups[0].place
GATES = [it.place for it in FOUND.groups]


def left_by(count, disk=STORE):
    """What `oaut dump` prints of the store with so many groups."""
    disk = bytearray(disk)
    if count < len(GATES):
        disk[GATES[count]] = 0
    return stores.dump(disk)


def cell(which, dispid):
    """Where a cell of an object stands in the snapshot."""
    head = struct.pack("<I", which) + CLASS.bytes_le
    return STORE.index(FACE.bytes_le + struct.pack("<iH", dispid, 0), STORE.index(head, TABLE))


ALL = left_by(5)
NO_OTHER = (stores.HEADS[0], bytes(32)), (OTHER, bytes(8))
CASES = [
    # name, what is changed, what is there, whether anything was lost, what is told
    ("nothing is damaged", [], ALL, False, []),
    (
        "an event",
        [(GATES[3] + 5, b"\9")],
        left_by(3),
        True,
        [f"at {GATES[3]}: the group there is damaged: it and 1 after it, as far as {FOUND.gate}"],
    ),
    (
        "an event that does not apply",
        [(GATES[3] + 6, struct.pack("<I", 9))],
        left_by(3),
        True,
        [f"at {GATES[3]}: the group there is damaged"],
    ),
    (
        "a gate",
        [(GATES[2], b"\7")],
        left_by(2),
        True,
        [f"at {GATES[2]}: the closed gate is 7, which none writes"],
    ),
    (
        "the objects' number",
        [(TABLE + 4, b"\xff")],
        ALL,
        False,
        [f"at {TABLE}: the snapshot is damaged: bank 0 has all of it"],
    ),
    (
        "the length of a group",
        [(GATES[1] + 1, b"\xff\xff\xff\xff")],
        left_by(1),
        True,
        [f"at {GATES[1]}: the group there has a length that none can have"],
    ),
    (
        "a cell of the snapshot",
        [(cell(2, COUNT) + 22, b"\xee")],
        ALL,
        False,
        [
            f"at {cell(2, COUNT) + 22}: the snapshot is damaged, "
            f"as far as {cell(2, COUNT) + 22}: bank 0 has all of it"
        ],
    ),
    (
        "all of the snapshot",
        [(TABLE, b"\xee" * (FIRST - TABLE))],
        ALL,
        False,
        [f"as far as {FIRST - 1}: bank 0 has all of it"],
    ),
    ("its next number", [(TABLE, bytes(4))], ALL, False, []),
    (
        "a cell, and the other bank",
        [(cell(2, COUNT) + 22, b"\xee"), *NO_OTHER],
        ALL.replace(
            next(it for it in ALL.splitlines(True) if it.endswith("030002000000\n")), "", 1
        ),
        True,
        [f"at {cell(2, COUNT)}: 28 bytes of the snapshot, after object 2"],
    ),
    (
        "an object, and the other bank",
        [(TABLE + 8 + 4, b"\xee" * 16), *NO_OTHER],
        None,
        True,
        [f"at {TABLE + 8}: ", "an event of object 1, which is not there"],
    ),
    (
        "the head's magic",
        [(stores.HEADS[1], b"X")],
        ALL,
        False,
        [f"at {stores.HEADS[1]}: the head of bank 1 is none"],
    ),
    (
        "all of the head",
        [(stores.HEADS[1], b"\xee" * 32)],
        ALL,
        False,
        [f"at {stores.HEADS[1]}: the head of bank 1 is none"],
    ),
    (
        "the head's snapshot",
        [(stores.HEADS[1] + 16, struct.pack("<I", 77))],
        ALL,
        False,
        [f"at {stores.HEADS[1]}: the head says 77 bytes of snapshot: they are {FIRST - TABLE}"],
    ),
    (
        "the selector",
        [(stores.SELECTOR, b"\0")],
        ALL,
        False,
        [f"at {stores.SELECTOR}: bank 1 continues bank 0: it is the one in use"],
    ),
    ("the first byte", [(0, b"\0")], ALL, True, ["at 0: the first byte is not 1"]),
    (
        "the bank in use",
        [(stores.HEADS[1], bytes(32)), (BODY, bytes(100))],
        stores.dump(stores.add(stores.formatted(TEXT), *BEFORE)),
        True,
        [f"at {stores.HEADS[1]}: nothing of bank 1; bank 0 has what was there before it"],
    ),
    (
        "the library",
        [(BODY + 100, b"\xff")],
        ALL,
        True,
        [f"at {BODY}: the library of bank 0 is used instead"],
    ),
]


def changed(*changes):
    disk = bytearray(STORE)
    for place, some in changes:
        disk[place : place + len(some)] = some
    return bytes(disk)


class Salvage(ClientCases):
    def test_each_part(self):
        for name, changes, wanted, lost, told in CASES:
            with tempfile.TemporaryDirectory() as room:
                disk = changed(*changes)
                fill(room, {"it.store": disk})
                found = salvage.salvage(f"{room}/it.store", f"{room}/new", program=PROGRAM)
                if wanted is not None:
                    self.same(f"{name}: what is there", whole(f"{room}/new"), wanted)
                self.same(f"{name}: whether anything was lost", found.lost, lost)
                said = "\n".join(found.lines)
                self.tell(
                    f"{name}: what is told",
                    all(it in said for it in told) and (told or not THERE or not said or not lost),
                    said,
                )
                self.tell(f"{name}: the program serves it", "does not serve" not in said, said)
                with open(f"{room}/it.store", "rb") as file:
                    self.same(f"{name}: the damaged file stays", file.read() == disk, True)

    def test_a_file_that_is_cut(self):
        with tempfile.TemporaryDirectory() as room:
            fill(room, {"it.store": STORE})
            os.truncate(f"{room}/it.store", GATES[4] + 7)
            found = salvage.salvage(f"{room}/it.store", f"{room}/new", program=PROGRAM)
            self.same("as far as it goes", (whole(f"{room}/new"), found.lost), (left_by(4), True))
            self.tell(
                "it is reported",
                f"at {GATES[4] + 7}: the file ends, " in found.lines[0],
                found.lines,
            )
            os.truncate(f"{room}/it.store", 5_000)
            self.raises(
                "nothing is left",
                oaut.Unusable,
                lambda: salvage.salvage(f"{room}/it.store", f"{room}/other", program=PROGRAM),
            )

    def test_by_the_command(self):
        with tempfile.TemporaryDirectory() as room:
            path, program = f"{room}/it.store", ["--program", PROGRAM]
            fill(room, {"it.store": changed((GATES[4] + 5, b"\9"))})
            status, out, err = command("salvage", path, f"{room}/new", *program)
            told = f"at {GATES[4]}: the group there is damaged: "
            told += f"it and 0 after it, as far as {FOUND.gate}\n"
            wanted = "next 7, objects 5, cells 7, groups 4\nnot all of it: see above\n"
            self.tell(
                "what it says",
                (status, out.startswith(told), out.endswith(wanted), err) == (1, True, True, ""),
                (status, out, err),
            )
            self.same(
                "never over a file",
                (
                    command("salvage", path, f"{room}/new", *program)[0],
                    command("salvage", path, path, *program)[0],
                ),
                (1, 1),
            )
            fill(room, {"it.store": STORE})
            self.same("nothing is lost", command("salvage", path, f"{room}/whole", *program)[0], 0)
            self.same("all is there", whole(f"{room}/whole"), ALL)
            fill(room, {"it.store": changed((BODY + 100, b"\xff"), (OTHER + 100, b"\xff"))})
            status, out, err = command("salvage", path, f"{room}/none", *program)
            self.tell(
                "no library",
                (status, out, err.endswith("; name a library by --library\n")) == (1, "", True),
                err,
            )
            if THERE:
                self.same(
                    "another one's",
                    command("salvage", path, f"{room}/named", "--library", FULL, *program)[0],
                    0,
                )
                self.same("all is there under it", whole(f"{room}/named"), ALL)
            self.same(
                "no file is left",
                sorted(it for it in os.listdir(room) if it.startswith((".", "none"))),
                [],
            )
