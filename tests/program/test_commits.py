"""The calls of the system that commits make on a store's file, and what comes of it where one fails
or the program is killed there."""
import tempfile
import unittest

from tests.support import store, wire
from tests.support.calls import OUT, STRACE, Calls, each_fails, text_held
from tests.support.codes import WRITE_FAULT
from tests.support.commits import (
    ANSWERS,
    COMMIT,
    LINES,
    SESSION,
    START,
    groups_with_events,
    judged,
    opens,
    table_after,
)
from tests.support.running import CREATE, FULL, FULL_TEXT, REQUESTS, SMALL, fill
from tests.support.stores import (
    CREATED_1,
    GROUPS,
    NEW,
    WITH_ITEM,
    Served,
    get,
    put,
    table,
    text_put,
    words,
)


@unittest.skipIf(
    STRACE is None,
    "strace is not there: the calls of the system are not looked at, and no call is made to fail",
)
class Commits(Served):
    def test_each_kind_of_event_and_each_call_that_fails(self):
        files = {"lib.idl": FULL, "it.store": START}
        for size in GROUPS:
            with tempfile.TemporaryDirectory() as room:
                fill(room, files)
                calls = Calls(room, words("--hex", "--group", str(size)), given=LINES)
                self.tell(
                    f"serve: the session of every kind of event, groups of {size}",
                    (calls.answer, text_held(room))
                    == ((0, ANSWERS, b""), table_after(len(SESSION))),
                    calls.answer,
                )
            made = calls.does()
            opening = next(place for place, it in enumerate(made) if it[0] == "write")
            self.tell(
                f"serve: an opening writes nothing, groups of {size}",
                opens(made[:opening]),
                made[:opening],
            )
            rest = [it for it in made[opening:] if it != OUT]
            self.tell(
                "serve: two writes and two syncs a group with an event, and none for gets, "
                f"groups of {size}",
                [it[0] for it in rest] == COMMIT * len(groups_with_events(size)),
                rest,
            )
            last = len(made) - 1 - made[::-1].index(("sync",))
            self.tell(
                f"serve: the last reply follows the last sync, groups of {size}",
                OUT in made[last:],
                made[last:],
            )
            if size == 1:
                gate = store.LEAST + len(FULL_TEXT) + 8
                self.tell(
                    "serve: a frame behind the gate, and then the gate",
                    [it[1:] for it in rest if it[0] == "write"][:2]
                    == [(gate + 1, 4 + 21 + 1), (gate, 1)],
                    rest,
                )
            for killed in (False, True):
                each_fails(
                    self,
                    words("--hex", "--group", str(size)),
                    files,
                    judged(self, size, opening, killed),
                    "signal=KILL" if killed else None,
                    given=LINES,
                )

    def test_the_calls_of_a_create_and_a_put(self):
        with tempfile.TemporaryDirectory() as room:
            fill(room, {"lib.idl": SMALL, "it.store": NEW})
            made = Calls(room, words("--hex"), given=REQUESTS).does()
        written = [
            ("write", 33_562_912, 26),
            ("sync",),
            ("write", 33_562_911, 1),
            ("sync",),
            ("write", 33_562_938, 38),
            ("sync",),
            ("write", 33_562_937, 1),
            ("sync",),
        ]
        self.tell(
            "serve: the calls of a create and a put, place by place",
            [it for it in made if it[0] in ("write", "sync")][2:] == written,
            made,
        )

    def test_the_calls_of_groups(self):
        files = {"lib.idl": FULL, "it.store": WITH_ITEM}
        # a group of texts that ends by its bytes, gets alone, and a put between two gets
        LONG_TEXTS = b"".join(
            text_put(bytes(length), tag)[1] for tag, length in enumerate((262_144, 262_144, 1))
        )
        GETS = b"".join(get(tag) for tag in range(5))
        for what, given, size, lengths in (
            (
                "texts of 262,144, 262,144 and 1 bytes",
                LONG_TEXTS,
                1,
                [(262_177,), (262_177,), (34,)],
            ),
            ("texts of 262,144, 262,144 and 1 bytes", LONG_TEXTS, 4, [(262_177, 262_177), (34,)]),
            *(("gets alone", GETS, size, []) for size in (1, 3, 4, 1_024)),
            ("a get, a put, a get", get(1) + put(2, 8) + get(3), 1, [(33,)]),
            ("a get, a put, a get", get(1) + put(2, 8) + get(3), 3, [(33,)]),
            (
                "a get, a put, a get, a put",
                get(1) + put(2, 8) + get(3) + put(4, 9),
                1_024,
                [(33, 33)],
            ),
            ("refused puts", wire.put(1, 1, 1, wire.scalar(wire.NULL)) * 4, 3, []),
        ):
            with tempfile.TemporaryDirectory() as room:
                fill(room, files)
                calls = Calls(room, words("--hex", "--group", str(size)), given=given)
            made = [it for it in calls.does() if it != OUT]
            opening = next((place for place, it in enumerate(made) if it[0] == "write"), len(made))
            rest = made[opening:]
            frames = [it[2] for it in rest if it[0] == "write"][::2]
            well = (
                calls.answer[0] == 0
                and opens(made[:opening])
                and [it[0] for it in rest] == COMMIT * len(lengths)
            )
            self.tell(
                f"serve: the calls of {what}, groups of {size}",
                well and frames == [4 + sum(it) + 1 for it in lengths],
                (calls.answer[0], rest),
            )

    def test_a_group_of_the_most_requests(self):
        for name, framing in wire.oaut.FRAMINGS.items():
            with tempfile.TemporaryDirectory() as room:
                fill(room, {"lib.idl": FULL, "it.store": START})
                calls = Calls(
                    room,
                    words("--group", "1024", *framing.words),
                    given=framing.pack([bytes.fromhex(CREATE.decode())] * 1_025),
                )
            frames = [it[2] for it in calls.does() if it[0] == "write"][::2]
            self.tell(
                f"serve: 1,025 creates in groups of 1,024, {name}",
                (calls.answer[0], frames) == (0, [4 + 1_024 * 21 + 1, 4 + 21 + 1]),
                (calls.answer[0], frames),
            )

    def test_the_gate_of_a_group_of_three(self):
        # a put, a get and a put, stopped before the gate's write and where it fails
        given, files = put(1, 7) + get(2) + put(3, 8), {
            "lib.idl": SMALL,
            "it.store": bytes(store.add(bytearray(NEW), CREATED_1)),
        }
        gate = 2  # of the calls of a commit

        def gate_fails(place, what, answer, room):
            if place == opening_of_three + gate:
                told = b"".join(wire.reply(tag, WRITE_FAULT) for tag in (1, 2, 3))
                self.tell(
                    "serve: the gate's write of a group of three fails",
                    (answer, what[2]) == ((0, told, b""), 1)
                    and text_held(room) in (table(), table(8)),
                    (answer, text_held(room)),
                )

        def gate_stops(place, what, answer, room):
            if place == opening_of_three + gate:
                self.tell(
                    "serve: a group of three is stopped before its gate's write",
                    (answer[1], text_held(room), what[2]) == (b"", table(), 1),
                    (answer, text_held(room)),
                )

        with tempfile.TemporaryDirectory() as room:
            fill(room, files)
            made = [
                it
                for it in Calls(room, words("--hex", "--group", "3"), given=given).does()
                if it != OUT
            ]
        opening_of_three = next(place for place, it in enumerate(made) if it[0] == "write")
        each_fails(self, words("--hex", "--group", "3"), files, gate_fails, given=given)
        each_fails(
            self, words("--hex", "--group", "3"), files, gate_stops, "signal=KILL", given=given
        )
