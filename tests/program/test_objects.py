"""Objects that are created, listed and released, and the limits on what a change makes."""
import tempfile

from tests.support import wire
from tests.support.codes import BAD_STUB, DISCONNECTED, E_INVALIDARG, MEDIUM_FULL
from tests.support.playing import Played
from tests.support.running import FULL, fill, run_in
from tests.support.texts import coclass, interface, library_with
from tests.support.turns import creates, gets, i4, lists, of, puts, puts_of, releases

# the DISPIDs of examples/full.idl
COUNT_ID, NAME_ID = 1, 2
WHOLE_TEXT = 1_048_576


def name_of(length):
    return wire.scalar(wire.BSTR, b"n" * length)


# the image of a table has 8 bytes, 24 an object and 28 and its bytes a name. 14 objects with the
# longest name and one without: 14,680,824
TABLE_LIMIT, FULL_NAMES = 15_728_640, 14
NEARLY_FULL = [creates(number) for number in range(2, FULL_NAMES + 2)] + [
    puts_of(number, NAME_ID, name_of(WHOLE_TEXT)) for number in range(1, FULL_NAMES + 1)
]
LAST, NEXT = FULL_NAMES + 1, FULL_NAMES + 2
# the longest name of the last object then
FITS = 1_047_788
BIG = library_with(
    interface(
        b"2",
        body=b"methods: [id(1), propget] SAFEARRAY(BSTR) Big([in, defaultvalue("
        + b'"'
        + b"a" * 40_000
        + b'"'
        + b")] BSTR P);"
        b" [id(1), propput] void Big([in, defaultvalue("
        + b'"'
        + b"a" * 40_000
        + b'"'
        + b")] BSTR P, [in] SAFEARRAY(BSTR) Value);",
    )
    + coclass(b"3", body=b"[default] dispinterface DItem;")
)
four_texts = lambda last: wire.array(wire.BSTR, [(4, 0)], [b"t" * WHOLE_TEXT] * 3 + [b"t" * last])


class Objects(Played):
    def test_objects_that_are_listed_and_released(self):
        self.talk(
            "objects that are listed and released",
            FULL,
            [
                gets(1, wire.scalar(wire.I4, 0)),
                lists(1),
                creates(2),
                creates(3),
                lists(1, 2, 3),
                releases(2),
                lists(1, 3),
                of(2, 1, None, DISCONNECTED),
                releases(2, DISCONNECTED),
                releases(4, DISCONNECTED),
                releases(0, DISCONNECTED),
                of(3, 1, wire.scalar(wire.I4, 0)),
                creates(4),
                releases(3),
                releases(1),
                releases(4),
                lists(),
                creates(5),
                lists(5),
                (
                    lambda tag: wire.release(tag, 5)[:-1] + b"00\n",
                    lambda tag: wire.reply(tag, BAD_STUB),
                ),
                (
                    lambda tag: wire.release(tag, 5)[:-3] + b"\n",
                    lambda tag: wire.reply(tag, BAD_STUB),
                ),
                (
                    lambda tag: wire.live_objects(tag)[:-1] + b"00\n",
                    lambda tag: wire.reply(tag, BAD_STUB),
                ),
                lists(5),
            ],
        )


class Limits(Played):
    def test_the_numbers(self):
        self.tell(
            "the image of a table at its limit",
            8 + FULL_NAMES * (52 + WHOLE_TEXT) + 52 + FITS == TABLE_LIMIT,
        )

    def test_a_table_above_its_limit(self):
        self.talk(
            "a table above its limit",
            FULL,
            [
                *NEARLY_FULL,
                puts_of(LAST, NAME_ID, name_of(FITS + 1), MEDIUM_FULL),
                of(LAST, NAME_ID, wire.scalar(wire.BSTR)),
                releases(1),
                puts_of(LAST, NAME_ID, name_of(FITS + 1)),
            ],
        )

    def test_a_table_at_its_limit(self):
        self.talk(
            "a table at its limit",
            FULL,
            [
                *NEARLY_FULL,
                puts_of(LAST, NAME_ID, name_of(FITS)),
                puts_of(LAST, COUNT_ID, i4(0), MEDIUM_FULL),
                creates(NEXT)[:1] + (lambda tag: wire.reply(tag, MEDIUM_FULL),),
                puts_of(FULL_NAMES, NAME_ID, name_of(WHOLE_TEXT)),
                of(FULL_NAMES, NAME_ID, name_of(WHOLE_TEXT)),
                puts_of(LAST, NAME_ID, name_of(FITS + 1), MEDIUM_FULL),
                puts_of(LAST, NAME_ID, name_of(FITS - 24)),
                creates(NEXT),
                releases(NEXT),
                puts_of(LAST, NAME_ID, name_of(FITS - 28)),
                puts_of(LAST, COUNT_ID, i4(7)),
                of(LAST, COUNT_ID, i4(7)),
            ],
        )

    def test_a_table_in_larger_banks(self):
        # a store with larger banks takes what one in memory refuses
        turns = [creates(1), *NEARLY_FULL, puts_of(LAST, NAME_ID, name_of(FITS + 1))]
        asked, answered = (
            b"".join(turn[side](tag) for tag, turn in enumerate(turns, 1)) for side in (0, 1)
        )
        with tempfile.TemporaryDirectory() as room:
            fill(room, {"lib.idl": FULL})
            run_in(
                room, ["format", "it.store", "lib.idl", "--bank", str(TABLE_LIMIT + 5_242_880 + 1)]
            )
            self.tell(
                "a table above the limit of memory in larger banks",
                run_in(
                    room, ["serve", "it.store", "lib.idl", "--hex", "--group", "16"], given=asked
                )
                == (0, answered, b""),
            )
            refused = puts_of(LAST, NAME_ID, name_of(FITS + 2), MEDIUM_FULL)
            self.tell(
                "and at its own limit",
                run_in(room, ["serve", "it.store", "lib.idl", "--hex"], given=refused[0](1))
                == (0, refused[1](1), b""),
            )

    def test_the_event_of_a_put_at_its_limit(self):
        self.talk(
            "the put of an event at its limit",
            BIG,
            [puts(1, four_texts(968_515)), gets(1, four_texts(968_515))],
        )
        self.talk(
            "the put of an event above its limit",
            BIG,
            [puts(1, four_texts(968_516), E_INVALIDARG), gets(1, wire.zero_array(wire.BSTR))],
        )
