"""When a checkpoint is due, what it leaves in a store's file, and what comes of it where a call of
the system fails or the program is killed."""
import struct
import tempfile
import unittest

from tests.support import store, wire
from tests.support.calls import OUT, STRACE, Calls, each_fails, held, text_held
from tests.support.codes import E_FAIL, WRITE_FAULT
from tests.support.commits import COMMIT
from tests.support.running import FULL, FULL_TEXT, fill, has_bytes, run_in
from tests.support.stores import BODY_1, CLASS, CREATED_1, FACE, Served, get, got, text_put, words

LONGEST = bytes(1_048_576)
nearly = store.add(store.formatted(FULL_TEXT), CREATED_1, *[text_put(LONGEST)[0]] * 15)
# a room of 4,718,597 bytes, for which no checkpoint is due, and one of less
fills = text_put(bytes(store.room(store.read(nearly)) - 4_718_597 - 38))[0]
at_limit, due = store.add(bytearray(nearly), fills), store.add(
    bytearray(nearly), fills + text_put(b"")[0]
)
later = text_put(b"ab")[0]


class Checkpoints(Served):
    def test_when_a_checkpoint_is_due(self):
        self.tell(
            "serve: a room of 4,718,597 bytes, and a smaller one",
            (store.room(store.read(at_limit)), store.room(store.read(due)))
            == (4_718_597, 4_718_597 - 33),
            (store.room(store.read(at_limit)), store.room(store.read(due))),
        )
        for name, disk, chosen in (
            ("is not due at a room of 4,718,597 bytes", at_limit, 0),
            ("is due below", due, 1),
        ):
            with tempfile.TemporaryDirectory() as room:
                fill(room, {"lib.idl": FULL, "it.store": bytes(disk)})
                answer = run_in(room, words("--hex"), given=text_put(b"ab")[1])
                found = store.read(held(room))
                self.tell(
                    f"serve: a checkpoint {name}",
                    (answer, found.chosen, len(found.groups) > 1)
                    == ((0, wire.reply(1), b""), chosen, chosen == 0),
                    (answer, found.chosen),
                )
                self.tell(
                    f"serve: a checkpoint {name}: each byte",
                    has_bytes(
                        f"{room}/it.store",
                        store.add(store.settled(disk) if chosen else bytearray(disk), later),
                    ),
                )

    def test_banks_of_another_size(self):
        # where it is due depends on the room alone, and where the other bank stands on the size
        disk = store.add(
            store.formatted(FULL_TEXT, 20_975_616),
            CREATED_1,
            *[text_put(LONGEST)[0]] * 15,
            text_put(bytes(525_892))[0],
            text_put(bytes(2_000))[0],
        )
        self.tell(
            "serve: a checkpoint is due in banks of another size",
            store.room(store.read(disk)) < 4_718_597,
            store.room(store.read(disk)),
        )
        with tempfile.TemporaryDirectory() as room:
            fill(room, {"lib.idl": FULL, "it.store": bytes(disk)})
            answer = run_in(room, words("--hex"), given=text_put(b"ab")[1])
            self.tell(
                "serve: a checkpoint in banks of another size: each byte",
                (answer, has_bytes(f"{room}/it.store", store.add(store.settled(disk), later)))
                == ((0, wire.reply(1), b""), True),
                answer,
            )


@unittest.skipIf(
    STRACE is None,
    "strace is not there: the calls of the system are not looked at, and no call is made to fail",
)
class CheckpointCalls(Served):
    def test_the_calls_of_a_checkpoint(self):
        files = {"lib.idl": FULL, "it.store": bytes(due)}
        event, asked = text_put(b"ab")
        asked = get(2) + asked + get(3)
        with tempfile.TemporaryDirectory() as room:
            fill(room, files)
            made = Calls(room, words("--hex", "--group", "3"), given=asked).does()
        opening = next(place for place, it in enumerate(made) if it[0] == "write")
        rest = [it for it in made[opening:] if it != OUT]
        length = len(FULL_TEXT) + 8 + 24 + 28 + 1
        pieces = [
            ("write", BODY_1 + at, min(65_536, length - at)) for at in range(0, length, 65_536)
        ]
        gate = BODY_1 + length - 1
        switch = [("write", 16_785_408, 32), *pieces, ("sync",), ("write", 4096, 1), ("sync",)]
        group = [("write", gate + 1, 4 + len(event) + 1), ("sync",), ("write", gate, 1), ("sync",)]
        self.tell(
            "serve: a head, a body in pieces, a sync, its number, a sync, and then the group goes "
            "into that bank",
            rest == switch + group,
            rest,
        )
        settles = len(switch)
        before, after = store.dump(due), store.dump(store.add(bytearray(due), event))

        def checkpoint_fails(place, what, answer, room):
            """The checkpoint comes before the group's first event, that of its second request."""
            if place < opening:
                return
            alone = place < opening + settles
            wanted = (
                wire.reply(2, WRITE_FAULT)
                + wire.reply(1, WRITE_FAULT)
                + wire.reply(3, E_FAIL if alone else WRITE_FAULT)
            )
            now = text_held(room)
            self.tell(
                f"serve: failed is call {place - opening} of a checkpoint and a group, {what}",
                answer == (0, wanted, b"")
                and now in ([before] if place < opening + settles + 2 else [before, after]),
                answer,
            )

        def checkpoint_killed(place, what, answer, room):
            if place >= opening:
                self.tell(
                    f"serve: killed at call {place - opening} of a checkpoint and a group, {what}",
                    answer[1] in (b"", got(2, 0))
                    and text_held(room) == (after if place == opening + settles + 3 else before),
                    answer,
                )

        serve = words("--hex", "--group", "3")
        each_fails(self, serve, files, checkpoint_fails, given=asked)
        each_fails(self, serve, files, checkpoint_killed, "signal=KILL", given=asked)

    def test_the_largest_checkpoint(self):
        # a table of 15,728,640 bytes in a bank whose library has 279: 15 cells of texts, each of 28
        # bytes and a text, in one object
        texts = [1_048_576] * 14
        texts.append(15_728_640 - 8 - 24 - 28 * 15 - sum(texts))
        cells = {
            (FACE, dispid, ()): (wire.BSTR, struct.pack("<I", length) + bytes(length))
            for dispid, length in enumerate(texts, 1)
        }
        properties = "".join(f"[id({dispid})] BSTR T{dispid}; " for dispid in range(1, 16))
        library = (
            b"[uuid(11223344-5566-7788-99aa-bbccddeeff01)] library D { "
            b"[uuid(11223344-5566-7788-99aa-bbccddeeff02)] dispinterface F { properties: %s "
            b"methods: } [uuid(11223344-5566-7788-99aa-bbccddeeff03)] coclass C { [default] "
            b"dispinterface F; } }" % properties.encode()
        )
        with tempfile.TemporaryDirectory() as room:
            fill(room, {"lib.idl": library})
            text = run_in(room, ["check", "lib.idl"])[1]
            image = store.table_image(2, {1: (CLASS, cells)})
            disk = store.laid(store.formatted(text), 2, 0, text, image, store.BANK)
            # one group that fills the bank as far as a checkpoint is due
            filler = (
                b"\3"
                + struct.pack("<I", 1)
                + FACE
                + struct.pack("<iHHI", 1, 0, 8, 1_048_576)
                + bytes(1_048_576)
            )
            while store.room(store.read(disk)) >= 4_718_597:
                store.add(disk, filler)
            self.tell("serve: the image of a table of 15,728,640 bytes", len(image) == 15_728_640)
            fill(room, {"it.store": bytes(disk)})
            asked = wire.put(1, 1, 1, wire.scalar(wire.BSTR, bytes(1_048_576)))
            calls = Calls(room, words("--hex"), given=asked)
            made = [it for it in calls.does() if it != OUT]
            opening = next(place for place, it in enumerate(made) if it[0] == "write")
            length = len(text) + 15_728_640 + 1
            pieces = [
                ("write", BODY_1 + at, min(65_536, length - at)) for at in range(0, length, 65_536)
            ]
            switch = [("write", 16_785_408, 32), *pieces, ("sync",), ("write", 4096, 1), ("sync",)]
            self.tell(
                "serve: the largest checkpoint is one head and 241 pieces",
                (calls.answer, len(pieces), made[opening : opening + len(switch)] == switch)
                == ((0, wire.reply(1), b""), 241, True),
                (calls.answer, len(pieces), made[opening : opening + 5]),
            )
