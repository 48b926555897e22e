"""Requests with each of their parts, and those that are cut, count too many, or have parts that are
ignored."""
import struct

from tests.support import wire
from tests.support.codes import BAD_STUB, UNKNOWN_NAME
from tests.support.playing import Played
from tests.support.running import FULL, REQUESTS, rows_of, text_of
from tests.support.tables import answered_so, guid_of, value_of
from tests.support.turns import gets, puts

ANY = 7  # of the full library


def invoked(row):
    """The turn of a row of invokes.txt."""
    *parts, answer = row.split("|")
    if parts[0] == "create":
        request = struct.pack("<HH", 1, 0) + guid_of(parts[1])
        return (
            lambda tag: wire.line(tag, request),
            answered_so(answer, lambda number: struct.pack("<II", int(number), 0)),
        )
    object, face, riid, dispid, flags, named, values = parts
    fields = [value_of(word) for word in values.split()]
    request = wire.oaut.ask_invoke(
        int(object),
        int(dispid),
        int(flags),
        [int(name) for name in named.split()],
        fields,
        guid_of(face),
    )
    request = wire.changed(request, 28, "16s", guid_of(riid))
    return (
        lambda tag: wire.line(tag, request),
        answered_so(answer, lambda word: b"" if word == "done" else wire.field(value_of(word))),
    )


BODIES = [bytes.fromhex(line.decode()) for line in (REQUESTS + text_of("info.hex")).splitlines()]
GET_BODY, NAMES_HEAD = BODIES[1], BODIES[5][:52]

# fields as bytes, and the field that is read back; what is ignored in the first is not in the
# second
FIELDS = """
ff0000ff09000000 0300010002000003 03000000 07000000 = 0300000000000000 0300000000000000 03000000 \
07000000
0400000000000000 0600000000000000 06000000 01000001a861000000000000 = 0400000000000000 \
0600000000000000 06000000 00000000a861000000000000
0500000000000000 0800000000000000 08000000 01000200 020000000300000002000000 41004209 = \
0500000000000000 0800000000000000 08000000 00000200 020000000300000002000000 41004200
0500000000000000 0800000000000000 08000000 00000200 00000000ffffffff00000000 = 0300000000000000 \
0800000000000000 08000000 00000000
"""


class Requests(Played):
    def broken(self, name, bodies):
        """A session of bodies that are no requests: each reply has the tag, where there is one."""
        tags = [int.from_bytes(body[:4], "little") if len(body) >= 8 else 0 for body in bodies]
        self.play(
            name,
            b"".join(body.hex().encode() + b"\n" for body in bodies),
            0,
            b"".join(wire.reply(tag, BAD_STUB) for tag in tags),
            b"",
        )

    def test_requests_with_each_of_their_parts(self):
        self.converse(
            "requests with each of their parts",
            FULL,
            [invoked(row) for row in rows_of("invokes.txt")],
        )

    def test_requests_that_are_cut_or_count_too_many(self):
        self.broken(
            "each request cut at each byte",
            [body[:end] for body in BODIES for end in range(1, len(body))],
        )
        self.broken("each request goes on", [body + b"\0" for body in BODIES])
        places = ((4, 99), (4, 0), (4, 12), (5, 1), (56, 33), (60, 33), (59, 1), (63, 1))
        self.broken(
            "opcodes that are none, and counts above their limits",
            [wire.changed(GET_BODY, place, "B", number) for place, number in places],
        )
        counted = ((0, 0), (17, 16), (16, 17), (18, 18))
        self.broken(
            "numbers of names that are not those of the names",
            [NAMES_HEAD + struct.pack("<I", count) + bytes(8 * names) for count, names in counted],
        )

    def test_parts_that_are_ignored(self):
        fields = [
            [bytes.fromhex(side) for side in row.split("=")] for row in FIELDS.split("\n") if row
        ]
        self.talk(
            "parts of fields that are ignored",
            FULL,
            [turn for given, kept in fields for turn in (puts(ANY, given), gets(ANY, kept))],
        )

        self.talk(
            "parts of requests that are ignored",
            FULL,
            [
                (
                    lambda tag: wire.line(
                        tag, wire.oaut.ask_ids(1, ["cELL", "KEY", "none"], locale=0x409)
                    ),
                    lambda tag: wire.reply(tag, UNKNOWN_NAME, fields=wire.ids([9, 1, -1])),
                ),
                (
                    lambda tag: wire.line(
                        tag, struct.pack("<HHII", wire.oaut.RELEASE, 0, 1, 0x0909_0909)
                    ),
                    wire.reply,
                ),
            ],
        )
