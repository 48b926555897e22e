"""REPLACE LIBRARY: what it keeps and what it refuses, in memory and over a store, in groups, and
what comes of it where a call of the system fails or the program is killed."""
import struct
import tempfile
import unittest

from oaut import LOCK, UNLOCK, ask_call
from tests.support import store, wire
from tests.support.calls import OUT, STRACE, Calls, each_fails, held
from tests.support.codes import BAD_STUB, E_FAIL, WRITE_FAULT
from tests.support.commits import COMMIT, opens
from tests.support.playing import Played
from tests.support.running import (
    CREATE,
    FULL,
    FULL_TEXT,
    SMALL,
    SMALL_TEXT,
    Cases,
    Talk,
    fault,
    fill,
    has_bytes,
    run,
    run_in,
    told,
)
from tests.support.stores import (
    BODY_1,
    CLASS,
    CREATED_1,
    FACE,
    PUT_7,
    TWO,
    Served,
    get,
    got,
    put,
    put_of,
    table,
    words,
)

ARRAYS = wire.array(wire.I2, [(2, -1), (3, 5)], range(1, 7))
NO_TEXT = wire.field(wire.scalar(wire.BSTR))
OF_SMALL, OF_FULL = ["serve", "it.store", "small.idl", "--hex"], [
    "serve",
    "it.store",
    "full.idl",
    "--hex",
]
LIBRARIES = {"small.idl": SMALL, "full.idl": FULL}
# what takes the place of a part of the full library, and which loss is told
PAGE_2 = FULL.replace(b"defaultvalue(1)", b"defaultvalue(2)")
CLASS_4 = FULL.replace(
    b"uuid(11223344-5566-7788-99AA-BBCCDDEEFF03)", b"uuid(11223344-5566-7788-99AA-BBCCDDEEFF04)"
)
LOSSES = [
    ("small", SMALL, FACE, 2),
    ("another default of a parameter", PAGE_2, FACE, 9),
    ("another GUID of the coclass", CLASS_4, CLASS, -1),
    ("another GUID of the interface", FULL.replace(b"BBCCDDEEFF02", b"BBCCDDEEFF05"), FACE, -1),
    ("another type", FULL.replace(b"[id(3)] CURRENCY Price", b"[id(3)] hyper Price"), FACE, 3),
    (
        "another id",
        FULL.replace(b"[id(5)] VARIANT_BOOL Flag", b"[id(11)] VARIANT_BOOL Flag"),
        FACE,
        5,
    ),
    ("another name", FULL.replace(b"Grid;", b"Grids;"), FACE, 8),
    (
        "another kind",
        FULL.replace(b"[id(10)] void Clear();", b"").replace(
            b"[id(1)] long", b"[id(10)] long Clear; [id(1)] long"
        ),
        FACE,
        10,
    ),
    (
        "a readonly property that may be put",
        FULL.replace(b"[id(6), readonly]", b"[id(6)]"),
        FACE,
        6,
    ),
    (
        "a property that may no longer be put",
        FULL.replace(b"[id(1)]", b"[id(1), readonly]"),
        FACE,
        1,
    ),
    ("another name of a parameter", FULL.replace(b"long Row", b"long Line"), FACE, 9),
    ("a parameter that is no longer in", FULL.replace(b"[in] BSTR Key", b"BSTR Key"), FACE, 9),
    (
        "the default interface",
        FULL.replace(
            b"[default] dispinterface DItem;", b"dispinterface DItem; [default] dispinterface DNew;"
        ).replace(
            b"  [uuid(11223344-5566-7788-99AA-BBCCDDEEFF03)]",
            b"  [uuid(11223344-5566-7788-99AA-BBCCDDEEFF06)] dispinterface DNew { properties: "
            b"methods: };\n  [uuid(11223344-5566-7788-99AA-BBCCDDEEFF03)]",
        ),
        CLASS,
        -1,
    ),
]
# other libraries that keep all of it
KEPT = [
    ("the same text", FULL),
    ("its canonical text", FULL_TEXT),
    ("a new property", FULL.replace(b"methods:", b"[id(11)] VARIANT More; methods:")),
    (
        "another order",
        FULL.replace(b"[id(1)] long Count;\n", b"").replace(
            b"[id(8)] SAFEARRAY(short) Grid;", b"[id(8)] SAFEARRAY(short) Grid; [id(1)] long Count;"
        ),
    ),
    (
        "names in other letters",
        FULL.replace(b"Count;", b"COUNT;").replace(b"long Row", b"long ROW"),
    ),
    (
        "another GUID and another name of the library",
        FULL.replace(b"BBCCDDEEFF01", b"BBCCDDEEFF09")
        .replace(b"library Demo", b"library Other")
        .replace(b"version(1.0)", b"version(2.7)"),
    ),
    (
        "another coclass and another interface",
        FULL.replace(
            b"  [uuid(11223344-5566-7788-99AA-BBCCDDEEFF03)]",
            b"  [uuid(11223344-5566-7788-99AA-BBCCDDEEFF06)] dispinterface DNew { properties: "
            b"[id(1)] long Count; methods: };\n  [uuid(11223344-5566-7788-99AA-BBCCDDEEFF07)] "
            b"coclass New { dispinterface DNew; };\n  [uuid(11223344-5566-7788-99AA-BBCCDDEEFF03)]",
        ).replace(
            b"[default] dispinterface DItem;", b"[default] dispinterface DItem; dispinterface DNew;"
        ),
    ),
    ("a text at its limit", FULL + b" " * (262_144 - len(FULL))),
]
STUBS = [
    ("no text", wire.replacement(1, b"")),
    ("a text that is not UTF-8", wire.replacement(1, b"// \xff\n" + FULL)),
    ("a text that is none", wire.replacement(1, b"library")),
    (
        "a text that check refuses",
        wire.replacement(
            1, FULL.replace(b"[id(1)] long Count;", b"[id(1)] long Count; [id(1)] long Other;")
        ),
    ),
    ("a text above its limit", wire.replacement(1, FULL + b" " * (262_145 - len(FULL)))),
    (
        "a length of one more",
        wire.replacement(1, FULL, len(FULL) + 1 if len(FULL) % 8 == 0 else len(FULL) + 8),
    ),
    ("a length of 4,294,967,295", wire.replacement(1, FULL, 4_294_967_295)),
    ("bytes behind the padding", wire.replacement(1, FULL, more=bytes(8))),
    ("no padding", wire.line(1, struct.pack("<HHII", 12, 0, 3, 0) + b"abc")),
    ("no length", wire.line(1, struct.pack("<HH", 12, 0))),
    ("half a length", wire.line(1, struct.pack("<HHI", 12, 0, 3))),
]


def canonical(text):
    status, out, _ = run(["check", "lib.idl"], files={"lib.idl": text})
    assert status == 0
    return out


def records(lines):
    """The same bodies as records."""
    return b"".join(
        struct.pack("<I", len(line) // 2) + bytes.fromhex(line.decode())
        for line in lines.splitlines()
    )


class InMemory(Played):
    def test_what_is_kept_and_what_is_lost(self):
        for name, text in KEPT:
            self.play(
                f"replace: {name}",
                CREATE + b"\n" + put(2, 7) + wire.replacement(3, text) + get(4),
                0,
                wire.reply(1, fields=struct.pack("<II", 1, 0))
                + wire.reply(2)
                + wire.reply(3)
                + got(4, 7),
                b"",
                library=FULL,
            )
        for name, text, guid, dispid in LOSSES:
            self.play(
                f"replace: {name} is lost",
                CREATE + b"\n" + put(2, 7) + wire.replacement(9, text) + get(4),
                0,
                wire.reply(1, fields=struct.pack("<II", 1, 0))
                + wire.reply(2)
                + wire.lost(9, guid, dispid)
                + got(4, 7),
                b"",
                library=FULL,
            )
        row = (
            b"09000000570007 80ffffffff00000000443322116655887799aabbccddeeff02020000000000" b"0000"
        ).replace(b" ", b"")
        self.play(
            "replace: the full library by the small one, as bytes",
            wire.replacement(9, SMALL),
            0,
            row + b"\n",
            b"",
            library=FULL,
        )
        for name, line in STUBS:
            self.play(
                f"replace: {name}",
                line + wire.type_info(2, 2),
                0,
                wire.reply(1, BAD_STUB) + wire.reply(2, 0x8002_000B),
                b"",
                library=FULL,
            )

    def test_the_new_library_is_in_force(self):
        names = wire.get_ids(1, 1, ["Name"])
        asked = (
            CREATE
            + b"\n"
            + names
            + wire.replacement(2, FULL)
            + names
            + wire.get(3, 1, 2)
            + wire.type_info(4, 0)
        )
        status, out, err = run(["play", "lib.idl", "--hex"], asked, {"lib.idl": SMALL})
        described = run(["play", "lib.idl", "--hex"], wire.type_info(4, 0), {"lib.idl": FULL})[1]
        wanted = (
            wire.reply(1, fields=struct.pack("<II", 1, 0))
            + wire.reply(1, 0x8002_0006, fields=wire.ids([-1]))
            + wire.reply(2)
            + wire.reply(1, fields=wire.ids([2]))
            + wire.reply(3, fields=NO_TEXT)
            + described
        )
        self.tell(
            "replace: names, zeros and descriptions follow the new library",
            (status, out, err) == (0, wanted, b""),
            told((0, wanted, b""), (status, out, err)),
        )

    def test_locks_stay(self):
        grid = lambda tag, opcode: wire.line(tag, ask_call(opcode, 1, 8, 2, (), ()))
        count = lambda tag, held: wire.reply(tag, fields=struct.pack("<II", held, 0))
        more = KEPT[2][1]
        asked = (
            CREATE
            + b"\n"
            + wire.put(2, 1, 8, ARRAYS)
            + grid(3, LOCK)
            + wire.replacement(4, more)
            + wire.release(5, 1)
            + grid(6, LOCK)
            + wire.replacement(7, SMALL)
            + grid(8, UNLOCK)
            + grid(9, UNLOCK)
            + wire.release(10, 1)
        )
        replies = (
            wire.reply(1, fields=struct.pack("<II", 1, 0))
            + wire.reply(2)
            + count(3, 1)
            + wire.reply(4)
            + wire.reply(5, 0x8002_000D)
            + count(6, 2)
            + wire.lost(7, FACE, 2)
            + count(8, 1)
            + count(9, 0)
            + wire.reply(10)
        )
        self.play("replace: locks stay", asked, 0, replies, b"", library=FULL)

    def test_as_records(self):
        asked = (
            CREATE
            + b"\n"
            + wire.replacement(2, FULL)
            + wire.get(3, 1, 2)
            + wire.replacement(9, SMALL)
        )
        replies = (
            wire.reply(1, fields=struct.pack("<II", 1, 0))
            + wire.reply(2)
            + wire.reply(3, fields=NO_TEXT)
            + wire.lost(9, FACE, 2)
        )
        self.play("replace: as records", records(asked), 0, records(replies), b"", SMALL, ())


class OverAStore(Served):
    def holds(self, name, room, disk):
        """What stands in the store's file, byte by byte."""
        left = held(room)
        self.tell(
            f"replace: {name}: each byte",
            has_bytes(f"{room}/it.store", disk),
            (len(left), left[4096:4097], left[8192:8224].hex(), left[16_785_408:16_785_440].hex()),
        )

    def test_small_to_full_and_back(self):
        with tempfile.TemporaryDirectory() as room:
            fill(room, {**LIBRARIES, "it.store": TWO})
            answer = run_in(
                room, OF_SMALL, given=wire.replacement(1, FULL) + wire.get(2, 1, 2) + get(3)
            )
            self.tell(
                "replace: the small library by the full one",
                answer == (0, wire.reply(1) + wire.reply(2, fields=NO_TEXT) + got(3, 7), b""),
                answer,
            )
            settled = store.settled(TWO, FULL_TEXT)
            self.holds("the small library by the full one", room, settled)
            answer = run_in(room, OF_SMALL, given=get(1))
            self.tell(
                "replace: the old library is refused then",
                answer == (3, b"", fault("library differs")),
                answer,
            )
            answers = run_in(room, ["dump", "it.store", "--library"]), run_in(
                room, ["dump", "it.store"]
            )
            self.tell(
                "replace: the dumps",
                answers == ((0, FULL_TEXT, b""), (0, table(7).encode(), b"")),
                answers,
            )
            answer = run_in(room, OF_FULL, given=wire.replacement(9, SMALL) + put(1, 8))
            self.tell(
                "replace: and the new one serves, and refuses the old one",
                answer == (0, wire.lost(9, FACE, 2) + wire.reply(1), b""),
                answer,
            )
            self.holds("what was refused", room, store.add(settled, put_of(8)))

    def test_later_checkpoints_have_the_new_library(self):
        more = KEPT[2][1]
        with tempfile.TemporaryDirectory() as room:
            fill(room, {**LIBRARIES, "more.idl": more, "it.store": TWO})
            answer = run_in(
                room,
                OF_SMALL,
                given=wire.replacement(1, FULL)
                + put(2, 8)
                + wire.replacement(3, more)
                + put(4, 9)
                + wire.replacement(5, more),
            )
            self.tell(
                "replace: three in one session",
                answer == (0, b"".join(wire.reply(tag) for tag in (1, 2, 3, 4, 5)), b""),
                answer,
            )
            text = canonical(more)
            self.holds(
                "three in one session",
                room,
                store.settled(
                    store.add(
                        store.settled(store.add(store.settled(TWO, FULL_TEXT), put_of(8)), text),
                        put_of(9),
                    ),
                    text,
                ),
            )

    def test_places_in_groups(self):
        # opcode 12 first, last, twice, behind gets, and refused, in each size of groups: of each
        # session what it leaves, and the groups that its events stand in
        # opcode 12 first, last, twice, behind gets, and refused, in each size of groups: of each
        # session what it leaves, and the groups that its events stand in
        new = wire.replacement(1, FULL)
        a, b, c = (put(tag, value) for tag, value in ((2, 8), (3, 9), (4, 10)))
        bad, refused = wire.replacement(6, b"library"), wire.replacement(
            9, SMALL.replace(b"[id(1)]", b"[id(2)]")
        )
        loss = (wire.lost(9, FACE, 1), None)
        ok = lambda tag, text=None: (wire.reply(tag), text)
        for name, parts in (
            ("first", [(new, ok(1, FULL_TEXT)), (a, ok(2, 8)), (b, ok(3, 9))]),
            ("last", [(a, ok(2, 8)), (b, ok(3, 9)), (new, ok(1, FULL_TEXT))]),
            ("in between", [(a, ok(2, 8)), (new, ok(1, FULL_TEXT)), (b, ok(3, 9)), (c, ok(4, 10))]),
            (
                "twice",
                [(a, ok(2, 8)), (new, ok(1, FULL_TEXT)), (new, ok(1, FULL_TEXT)), (b, ok(3, 9))],
            ),
            (
                "behind gets",
                [
                    (get(5), (got(5, 7), None)),
                    (get(5), (got(5, 7), None)),
                    (new, ok(1, FULL_TEXT)),
                    (a, ok(2, 8)),
                ],
            ),
            ("alone", [(new, ok(1, FULL_TEXT))]),
        ):
            for size in (1, 3, 1_024):
                for how, framed in (("--hex", lambda it: it), (None, records)):
                    disk, events = bytearray(TWO), []
                    for line, (_, what) in parts:
                        alone = line in (new, bad, refused)
                        if isinstance(what, int):
                            events.append(put_of(what))
                        if events and (alone or len(events) == size):
                            disk, events = store.add(disk, b"".join(events)), []
                        if alone and what:
                            disk = store.settled(disk, what)
                    if events:
                        disk = store.add(disk, b"".join(events))
                    given, replies = (
                        b"".join(it) for it in zip(*((line, reply) for line, (reply, _) in parts))
                    )
                    self.serves(
                        f"replace: {name}, groups of {size}{'' if how else ', records'}",
                        framed(given),
                        0,
                        framed(replies),
                        b"",
                        TWO,
                        disk,
                        *([how] if how else []),
                        "--group",
                        str(size),
                    )

    def test_refusals_in_groups(self):
        # opcode 12 first, last, twice, behind gets, and refused, in each size of groups: of each
        # session what it leaves, and the groups that its events stand in
        # opcode 12 first, last, twice, behind gets, and refused, in each size of groups: of each
        # session what it leaves, and the groups that its events stand in
        new = wire.replacement(1, FULL)
        a, b, c = (put(tag, value) for tag, value in ((2, 8), (3, 9), (4, 10)))
        bad, refused = wire.replacement(6, b"library"), wire.replacement(
            9, SMALL.replace(b"[id(1)]", b"[id(2)]")
        )
        loss = (wire.lost(9, FACE, 1), None)
        ok = lambda tag, text=None: (wire.reply(tag), text)
        for name, parts in (
            (
                "refused as stub",
                [(a, ok(2, 8)), (bad, (wire.reply(6, BAD_STUB), None)), (b, ok(3, 9))],
            ),
            ("refused for a loss", [(a, ok(2, 8)), (b, ok(3, 9)), (refused, loss), (c, ok(4, 10))]),
            (
                "refused, and nothing else",
                [(refused, loss), (bad, (wire.reply(6, BAD_STUB), None))],
            ),
        ):
            for size in (1, 3, 1_024):
                for how, framed in (("--hex", lambda it: it), (None, records)):
                    disk, events = bytearray(TWO), []
                    for line, (_, what) in parts:
                        alone = line in (new, bad, refused)
                        if isinstance(what, int):
                            events.append(put_of(what))
                        if events and (alone or len(events) == size):
                            disk, events = store.add(disk, b"".join(events)), []
                        if alone and what:
                            disk = store.settled(disk, what)
                    if events:
                        disk = store.add(disk, b"".join(events))
                    given, replies = (
                        b"".join(it) for it in zip(*((line, reply) for line, (reply, _) in parts))
                    )
                    self.serves(
                        f"replace: {name}, groups of {size}{'' if how else ', records'}",
                        framed(given),
                        0,
                        framed(replies),
                        b"",
                        TWO,
                        disk,
                        *([how] if how else []),
                        "--group",
                        str(size),
                    )

    def test_gets_do_not_count_across_it(self):
        # with groups of 3: a get and a put, the replacement, and then three anew
        given = (
            get(1)
            + put(2, 8)
            + wire.replacement(3, FULL)
            + put(4, 9)
            + get(5)
            + put(6, 10)
            + put(7, 11)
        )
        replies = (
            got(1, 7)
            + wire.reply(2)
            + wire.reply(3)
            + wire.reply(4)
            + got(5, 9)
            + wire.reply(6)
            + wire.reply(7)
        )
        disk = store.add(
            store.settled(store.add(bytearray(TWO), put_of(8)), FULL_TEXT),
            put_of(9) + put_of(10),
            put_of(11),
        )
        self.serves(
            "replace: a group begins anew behind it",
            given,
            0,
            replies,
            b"",
            TWO,
            disk,
            "--hex",
            "--group",
            "3",
        )

    def test_replies_before_it_are_handed_out_first(self):
        with tempfile.TemporaryDirectory() as room:
            fill(room, {"it.store": TWO})
            with Talk(
                SMALL, ("--hex", "--group", "1024"), room=room, command=("serve", "it.store")
            ) as session:
                session.send(put(1, 8) + get(2) + wire.replacement(3, FULL))
                replies = b"".join(session.line() for _ in range(3))
                well = has_bytes(
                    f"{room}/it.store",
                    store.settled(store.add(bytearray(TWO), put_of(8)), FULL_TEXT),
                )
                self.tell(
                    "replace: its reply comes without a wait for more",
                    (replies, well) == (wire.reply(1) + got(2, 8) + wire.reply(3), True),
                    replies,
                )
        with open("/dev/full", "wb") as full:
            left = store.add(bytearray(TWO), put_of(8))
            self.serves(
                "replace: it is left undone where the replies before it cannot be handed out",
                put(1, 8) + wire.replacement(2, FULL),
                1,
                None,
                fault("write fault"),
                TWO,
                left,
                "--hex",
                "--group",
                "3",
                stdout=full,
            )
            self.serves(
                "replace: and stands where its own cannot be",
                wire.replacement(2, FULL),
                1,
                None,
                fault("write fault"),
                TWO,
                store.settled(TWO, FULL_TEXT),
                "--hex",
                "--group",
                "3",
                stdout=full,
            )


@unittest.skipIf(
    STRACE is None,
    "strace is not there: the calls of the system are not looked at, and no call is made to fail",
)
class ReplacementCalls(Cases):
    ASKED = put(1, 8) + get(2) + wire.replacement(3, FULL) + put(4, 9)
    REPLIES = [wire.reply(1), got(2, 8), wire.reply(3), wire.reply(4)]
    BODY = len(FULL_TEXT) + 60 + 1
    SWITCH = [
        ("write", 16_785_408, 32),
        ("write", BODY_1, BODY),
        ("sync",),
        ("write", 4096, 1),
        ("sync",),
    ]
    FILES = {"lib.idl": SMALL, "it.store": TWO}
    WORDS = words("--hex", "--group", "3")

    def made(self):
        with tempfile.TemporaryDirectory() as room:
            fill(room, self.FILES)
            calls = Calls(room, self.WORDS, given=self.ASKED)
        self.tell(
            "replace: under strace", calls.answer == (0, b"".join(self.REPLIES), b""), calls.answer
        )
        return calls.does()

    def test_the_calls(self):
        made = self.made()
        opening = next(place for place, it in enumerate(made) if it[0] == "write")
        self.tell("replace: the opening", opens(made[:opening]), made[:opening])
        rest = made[opening:]
        self.tell(
            "replace: the group before it is committed and its replies are handed out",
            [it[0] for it in rest[:5]] == [*COMMIT, "out"],
            rest,
        )
        self.tell(
            "replace: then a head, a body, a sync, the selector, a sync",
            [it for it in rest[5:] if it != OUT][:5] == self.SWITCH,
            rest,
        )
        self.tell(
            "replace: and the group behind it",
            [it[0] for it in rest[5:] if it != OUT][5:] == COMMIT,
            rest,
        )
        for name, given in (
            ("lost", wire.replacement(9, SMALL.replace(b"[id(1)]", b"[id(2)]"))),
            ("no library", wire.replacement(1, b"library")),
        ):
            with tempfile.TemporaryDirectory() as room:
                fill(room, self.FILES)
                made = [
                    it
                    for it in Calls(room, self.WORDS, given=get(1) + given + get(2)).does()
                    if it != OUT
                ]
                self.tell(f"replace: no call where it is refused, {name}", opens(made), made)

    def states(self):
        """What stands in the store behind each part, as a library and a dump."""
        return [
            (SMALL_TEXT, table(7)),
            (SMALL_TEXT, table(8)),
            (FULL_TEXT, table(8)),
            (FULL_TEXT, table(9)),
        ]

    def there(self, room):
        found = store.read(held(room))
        return found.library, "".join(store.lines(found))

    def test_each_call_fails(self):
        made = [it for it in self.made() if it != OUT]
        opening = next(place for place, it in enumerate(made) if it[0] == "write")
        states = self.states()

        def fails(place, what, answer, room):
            if place < opening:
                return
            call, name = place - opening, f"replace: {what} fails, call {place - opening}"
            one, two, three, four = self.REPLIES
            failed = b"".join(wire.reply(tag, E_FAIL) for tag in (4,))
            if call < 4:
                wanted = (
                    wire.reply(1, WRITE_FAULT)
                    + wire.reply(2, WRITE_FAULT)
                    + wire.reply(3, E_FAIL)
                    + failed
                )
                left = states[:1] if call < 2 else states[:2]
            elif call < 9:
                wanted = one + two + wire.reply(3, WRITE_FAULT) + failed
                left = states[1:2] if call < 7 else states[1:3]
            else:
                wanted = one + two + three + wire.reply(4, WRITE_FAULT)
                left = states[2:3] if call < 11 else states[2:]
            now = self.there(room)
            self.tell(name, answer == (0, wanted, b"") and now in left, (answer, now))

        each_fails(self, self.WORDS, self.FILES, fails, given=self.ASKED)

    def test_killed_at_each_call(self):
        made = [it for it in self.made() if it != OUT]
        opening = next(place for place, it in enumerate(made) if it[0] == "write")
        states = self.states()

        def killed(place, what, answer, room):
            if place < opening:
                return
            call = place - opening
            # a write that was made is in the system's cache: a gate or a selector counts from its
            # own sync on
            left = states[0 if call < 3 else 1 if call < 8 else 2 if call < 12 else 3]
            now, replies = self.there(room), b"".join(self.REPLIES)
            self.tell(
                f"replace: killed at {what}, call {call}",
                replies.startswith(answer[1])
                and len(answer[1]) >= (0 if call < 4 else len(self.REPLIES[0] + self.REPLIES[1]))
                and now == left,
                (answer, now),
            )

        each_fails(self, self.WORDS, self.FILES, killed, "signal=KILL", given=self.ASKED)
