"""Sessions of `serve`: what a store keeps of them, value by value, and what stands in it where they
end."""
import os
import select
import struct
import tempfile

from oaut import PUTELEM, REDIM, ask_call, indices_field
from tests.support import store, wire
from tests.support.calls import text_held
from tests.support.running import (
    CREATE,
    FULL,
    FULL_TEXT,
    REPLIES,
    REQUESTS,
    SMALL,
    Talk,
    fault,
    fill,
    rows_of,
    run_in,
)
from tests.support.stores import (
    CLASS,
    CREATED_1,
    FACE,
    GROUPS,
    NEW,
    PUT_7,
    TWO,
    WITH_ITEM,
    Served,
    get,
    got,
    put,
    put_of,
    table,
    words,
)

BAD = wire.put(5, 1, 1, wire.scalar(wire.NULL))
ANY = 7  # the VARIANT of the full library
VALUES = {
    word: [bytes.fromhex(part) for part in parts]
    for word, *parts in (row.split(" | ") for row in rows_of("values.txt"))
}
NO_VALUE = {"BADSTUB": (0x8007_06F7,), "BADVARTYPE": (0x8002_0008, 0)}


def field_of(text):
    """The bytes of a field of fields.txt."""
    front, *changes = text.split(", at ")
    field = VALUES[front][0] if front in VALUES else bytes.fromhex(front)
    for place, digits in (change.split(" ", 1) for change in changes):
        field = wire.changed(
            field, int(place), f"{len(bytes.fromhex(digits))}s", bytes.fromhex(digits)
        )
    return field


# the element at [-1, 5] of the array becomes 6, and its first bound has 3 indices from 10 on
ELEMENTS = [
    (
        (
            "03 01000000 443322116655887799aabbccddeeff02 08000000 0000 0220 0200 02000000 "
            "ffffffff 03000000 05000000 0100 0200 0300 0400 0500 0600"
        ),
        wire.put(1, 1, 8, VALUES["GRID"][0]),
    ),
    (
        (
            "04 01000000 443322116655887799aabbccddeeff02 08000000 0000 0200 ffffffff 05000000 "
            "0200 0600"
        ),
        wire.line(
            2,
            ask_call(PUTELEM, 1, 8, 2, (), ())
            + indices_field([-1, 5])
            + wire.field(wire.scalar(wire.I2, 6)),
        ),
    ),
    (
        "05 01000000 443322116655887799aabbccddeeff02 08000000 0000 03000000 0a000000",
        wire.line(3, ask_call(REDIM, 1, 8, 2, (), ()) + struct.pack("<Ii", 3, 10)),
    ),
]


class Sessions(Served):
    def test_the_first_path(self):
        one_group = bytes(store.add(bytearray(NEW), CREATED_1 + PUT_7))
        for group in GROUPS:
            self.serves(
                f"the first path, groups of {group}",
                REQUESTS,
                0,
                REPLIES,
                b"",
                NEW,
                TWO if group < 3 else one_group,
                "--hex",
                "--group",
                str(group),
            )
        self.serves("the first path, no group named", REQUESTS, 0, REPLIES, b"", NEW, TWO, "--hex")

    def test_what_stands_in_a_store(self):
        self.serves("no requests", b"", 0, b"", b"", TWO, TWO)
        self.serves(
            "what stood in the store is there",
            get(1) + CREATE + b"\n",
            0,
            got(1, 7) + wire.reply(1, fields=struct.pack("<II", 2, 0)),
            b"",
            TWO,
            store.add(bytearray(TWO), b"\1" + struct.pack("<I", 2) + CLASS),
            "--hex",
        )
        BAD = wire.put(5, 1, 1, wire.scalar(wire.NULL))
        self.serves(
            "a refused put leaves no trace",
            BAD + get(6),
            0,
            wire.reply(5, 0x8002_0005, 0) + got(6, 7),
            b"",
            TWO,
            TWO,
            "--hex",
        )

    def test_the_open_group_is_committed(self):
        for group in map(str, GROUPS):
            cut = put(1, 8) + get(2) + b"0"
            self.serves(
                f"the open group is committed before bad hex ends the session, groups of {group}",
                cut,
                4,
                wire.reply(1) + got(2, 8),
                fault("bad hex on line 3"),
                TWO,
                store.add(bytearray(TWO), put_of(8)),
                "--hex",
                "--group",
                group,
            )
            record = struct.pack("<I", len(put(1, 8)) // 2) + bytes.fromhex(put(1, 8).decode())
            answer = bytes.fromhex(wire.reply(1).decode())
            stub = struct.pack("<IIIII", 16, 0, 0x8007_06F7, 0xFFFF_FFFF, 0)
            self.serves(
                f"records: and before a record that is cut, groups of {group}",
                record + b"\7",
                4,
                struct.pack("<I", 16) + answer + stub,
                fault("record cut"),
                TWO,
                store.add(bytearray(TWO), put_of(8)),
                "--group",
                group,
            )
        with open("/dev/full", "wb") as full:
            self.serves(
                "the open group is committed where nobody takes its replies",
                put(1, 8),
                1,
                None,
                fault("write fault"),
                TWO,
                store.add(bytearray(TWO), put_of(8)),
                "--hex",
                "--group",
                str(GROUPS[-1]),
                stdout=full,
            )

    def test_objects_come_and_go_in_groups(self):
        coming, gone = CREATED_1 + b"\1" + struct.pack("<I", 2) + CLASS, b"\2" + struct.pack(
            "<I", 1
        )
        asked = wire.release(1, 1) + (CREATE + b"\n") * 2 + wire.release(4, 1)
        told = (
            wire.reply(1, 0x8001_0108)
            + b"".join(wire.reply(1, fields=struct.pack("<II", number, 0)) for number in (1, 2))
            + wire.reply(4)
        )
        self.serves(
            "TWO objects come in one group, and one of them goes in the next",
            asked,
            0,
            told,
            b"",
            NEW,
            store.add(bytearray(NEW), coming, gone),
            "--hex",
            "--group",
            "3",
        )

    def test_streams_that_are_closed(self):
        for fd, status, text in ((0, 1, "read fault"), (1, 1, "write fault")):
            left = TWO if fd == 0 else bytes(store.add(bytearray(TWO), put_of(8)))
            self.serves(
                f"stream {fd} is closed, and the store is not taken for it",
                put(1, 8),
                status,
                b"",
                fault(text),
                TWO,
                left,
                "--hex",
                before=lambda fd=fd: os.close(fd),
            )

    def test_a_reply_comes_once_the_store_has_what_it_tells(self):
        with tempfile.TemporaryDirectory() as room:
            fill(room, {"it.store": TWO})
            with Talk(SMALL, ("--hex",), room=room, command=("serve", "it.store")) as session:
                for asked, answered, now in (
                    (put(1, 8), wire.reply(1), 8),
                    (get(2), got(2, 8), 8),
                    (put(3, 9), wire.reply(3), 9),
                ):
                    session.send(asked)
                    replies = session.line()
                    self.tell(
                        "serve: a reply comes before the next request is sent, and the store has "
                        "what it tells",
                        (replies, text_held(room)) == (answered, table(now)),
                        replies,
                    )

    def test_the_replies_of_a_group_come_together(self):
        with tempfile.TemporaryDirectory() as room:
            fill(room, {"it.store": TWO})
            with Talk(
                SMALL, ("--hex", "--group", "3"), room=room, command=("serve", "it.store")
            ) as session:
                session.send(put(1, 8) + get(2))
                early = select.select([session.process.stdout], [], [], 0.5)[0]
                before = text_held(room)
                session.send(put(3, 9))
                replies = b"".join(session.line() for _ in range(3))
                self.tell(
                    "serve: the replies of a group come together, once it is committed",
                    (early, before, replies, text_held(room))
                    == ([], table(7), wire.reply(1) + got(2, 8) + wire.reply(3), table(9)),
                    (early, before, replies),
                )
                session.send(put(4, 10))
                session.process.stdin.close()
                self.tell(
                    "serve: the end of the input ends a group",
                    (session.line(), session.status(), text_held(room))
                    == (wire.reply(4), 0, table(10)),
                )


class Kept(Served):
    def test_values_and_fields(self):
        """A row each, in an object each: what a put and a get answer, also once the store is opened
        again, and the image that is kept."""
        fields = [(word, field, word) for word, (field, _) in VALUES.items()] + [
            (name, field_of(text), said)
            for name, text, said in (row.split(" | ") for row in rows_of("fields.txt"))
        ]
        with tempfile.TemporaryDirectory() as room:
            fill(room, {"lib.idl": FULL, "it.store": bytes(store.formatted(FULL_TEXT))})
            gets = [wire.get(3, number, ANY) for number in range(1, len(fields) + 1)]
            asked = [
                CREATE + b"\n" + wire.put(2, number, ANY, field) + gets[number - 1]
                for number, (_, field, _) in enumerate(fields, 1)
            ]
            first, later = (
                run_in(room, words("--hex"), given=b"".join(given))[1].splitlines(keepends=True)
                for given in (asked, gets)
            )
            dumped = run_in(room, ["dump", "it.store"])[1].decode(), text_held(room)
        lines = f"next {len(fields) + 1}\n"
        for number, (name, _, said) in enumerate(fields, 1):
            field, image = VALUES["EMPTY" if said in NO_VALUE else said]
            read = wire.reply(3, fields=wire.field(field))
            wanted = [
                wire.reply(1, fields=struct.pack("<II", number, 0)),
                wire.reply(2, *NO_VALUE.get(said, ())),
                read,
                read,
            ]
            told = first[3 * number - 3 : 3 * number] + later[number - 1 : number]
            self.tell(f"serve: the field of {name}", told == wanted, f"wanted {wanted}, got {told}")
            lines += f"object {number} {store.guid_text(CLASS)}\n"
            if said not in NO_VALUE:
                lines += f"cell {store.guid_text(FACE)} {ANY} - {image.hex()}\n"
        self.tell(
            "serve: the images of the values",
            dumped == (lines, lines),
            [it for it in zip(dumped[0].splitlines(), lines.splitlines()) if it[0] != it[1]],
        )

    def test_the_events_of_an_array(self):
        left = store.add(bytearray(WITH_ITEM), *[bytes.fromhex(event) for event, _ in ELEMENTS])
        self.serves(
            "the events of an array",
            b"".join(asked for _, asked in ELEMENTS),
            0,
            wire.reply(1) + wire.reply(2) + wire.reply(3),
            b"",
            WITH_ITEM,
            left,
            "--hex",
            library=FULL,
        )
