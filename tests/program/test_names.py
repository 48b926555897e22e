"""Names that are looked up, and descriptions."""
import struct

from tests.support import wire
from tests.support.codes import BAD_STUB, E_NOTIMPL, MEMBER_NOT_FOUND
from tests.support.codes import WORDS as CODES
from tests.support.playing import Played
from tests.support.running import FULL, rows_of, text_of
from tests.support.tables import answered_so, guid_of
from tests.support.texts import coclass, interface, library_with
from tests.support.turns import calls, describes, looks_up

ITEM = bytes.fromhex("443322116655887799aabbccddeeff02")
MARKED, BOTH, DEFAULT = 0x1, 0x11, 0x31
DEFAULTS = library_with(
    interface(
        b"2",
        body=b"methods: [id(1)] long Sum(SAFEARRAY(short) Of, [in, optional] BSTR To, [in, "
        b'defaultvalue(-2)] CURRENCY By, [in, defaultvalue("x")] VARIANT Or);',
    )
    + coclass(b"3")
)
OF_EACH = [
    (wire.CY, "2", wire.scalar(wire.CY, 20_000)),
    (wire.VARIANT, "7", wire.scalar(wire.I4, 7)),
    (wire.DECIMAL, "-5", wire.scalar(wire.DECIMAL, (0, 0x80, 5))),
    (wire.BSTR, '"aB"', wire.scalar(wire.BSTR, b"a\0B\0")),
    (wire.ERROR, "0x80020004", wire.scalar(wire.ERROR, 0x8002_0004)),
    (wire.VARIANT, "TRUE", wire.scalar(wire.BOOL, 0xFFFF)),
    (wire.I2, "1", wire.scalar(wire.I2, 1)),
]
VOID, OF_WORDS = 24, {
    wire.CY: "CURRENCY",
    wire.VARIANT: "VARIANT",
    wire.DECIMAL: "DECIMAL",
    wire.BSTR: "BSTR",
    wire.ERROR: "SCODE",
    wire.I2: "short",
}
parameters = ", ".join(
    f"[defaultvalue({word})] {OF_WORDS[vt]} P{place}" for place, (vt, word, _) in enumerate(OF_EACH)
)


def looked_up(row):
    """The turn of a row of lookups.txt."""
    object, face, riid, locale, filler, names, answer = row.split("|")
    ignored = lambda count: bytes([int(filler)]) * count
    request = struct.pack(
        "<H2sI4s16s16sII",
        3,
        ignored(2),
        int(object),
        ignored(4),
        guid_of(face),
        guid_of(riid),
        int(locale),
        len(names.split(",")),
    )
    for name in names.split(","):
        units = name.encode("utf-16-le")
        request += (
            struct.pack("<I4s", len(units) // 2, ignored(4)) + units + ignored(-len(units) % 8)
        )
    return (
        lambda tag: wire.line(tag, request),
        answered_so(answer, lambda found: wire.ids([int(word) for word in found.split()])),
    )


def described():
    """Of each library of descriptions.txt its text, and the rows of its descriptions."""
    described = []  # of each library its text, and the rows of its descriptions
    for row in rows_of("descriptions.txt"):
        if row.startswith("= "):
            described.append((row[2:].encode(), []))
        elif row.startswith(" "):
            described[-1][1][-1] += row
        else:
            described[-1][1].append(row)
    return described


class Names(Played):
    def test_names_that_are_looked_up(self):
        self.talk(
            "names that are looked up",
            FULL,
            [
                looks_up(["Clear"], [10]),
                looks_up(["none", "Key"], [-1, -1]),
                looks_up(["CELL", "row", "PAGE", "Value"], [9, 0, 2, -1]),
                looks_up(["cELL", "KEY", "none"], [9, 1, -1]),
                looks_up(["Cell"] + ["Key"] * 16, [9] + [1] * 16),
                (
                    lambda tag: wire.get_ids(tag, 1, ["Cell"] + ["Key"] * 17),
                    lambda tag: wire.reply(tag, BAD_STUB),
                ),
                (lambda tag: wire.get_ids(tag, 1, []), lambda tag: wire.reply(tag, BAD_STUB)),
                calls(10, 1, [], [], E_NOTIMPL),
                calls(10, 2, [], [], MEMBER_NOT_FOUND),
            ],
        )

    def test_names_that_are_not_folded(self):
        self.talk(
            "names that are not folded, and names of other members",
            FULL,
            [
                looks_up(["Cell", "Page"], [9, 2]),
                looks_up(["Clear", "Row"], [10, -1]),
                looks_up(["Key"], [-1]),
                looks_up([""], [-1]),
                looks_up(["Pr\u0131ce"], [-1]),
                looks_up(["Cell", "\u212aey"], [9, -1]),
            ],
        )

    def test_look_ups_with_each_of_their_parts(self):
        self.talk(
            "look-ups with each of their parts",
            FULL,
            [looked_up(row) for row in rows_of("lookups.txt")],
        )


class Descriptions(Played):
    def test_names_and_descriptions(self):
        self.play(
            "names and descriptions", text_of("info.hex"), 0, text_of("info.out"), b"", library=FULL
        )

    def test_descriptions(self):
        self.talk(
            "descriptions",
            DEFAULTS,
            [
                describes(
                    0,
                    wire.interface(
                        ITEM,
                        "DItem",
                        [
                            wire.member(
                                1,
                                1,
                                0,
                                wire.I4,
                                "Sum",
                                [
                                    wire.parameter(wire.ARRAY + wire.I2, 0, "Of"),
                                    wire.parameter(wire.BSTR, BOTH, "To"),
                                    wire.parameter(
                                        wire.CY, DEFAULT, "By", wire.scalar(wire.CY, -20_000)
                                    ),
                                    wire.parameter(
                                        wire.VARIANT, DEFAULT, "Or", wire.scalar(wire.BSTR, b"x\0")
                                    ),
                                ],
                            )
                        ],
                    ),
                ),
                describes(2),
                describes(2**32 - 1),
            ],
        )

    def test_defaults_of_each_kind(self):
        self.talk(
            "defaults of each kind",
            library_with(
                interface(b"2", body=f"methods: [id(10)] void Clear({parameters});".encode())
                + coclass(b"3")
            ),
            [
                describes(
                    0,
                    wire.interface(
                        ITEM,
                        "DItem",
                        [
                            wire.member(
                                10,
                                1,
                                0,
                                VOID,
                                "Clear",
                                [
                                    wire.parameter(vt, DEFAULT & ~MARKED, f"P{place}", value)
                                    for place, (vt, _, value) in enumerate(OF_EACH)
                                ],
                            )
                        ],
                    ),
                )
            ],
        )

    def test_names_of_64_characters(self):
        self.talk(
            "names of 64 characters",
            library_with(
                interface(b"2", name=b"N" * 64, body=b"[id(1)] long " + b"M" * 64 + b";")
                + coclass(b"3", body=b"dispinterface " + b"N" * 64 + b";")
            ),
            [
                describes(
                    0, wire.interface(ITEM, "N" * 64, [wire.member(1, 0, 0, wire.I4, "M" * 64)])
                ),
                looks_up(["m" * 64], [1]),
                looks_up(["m" * 63], [-1]),
            ],
        )

    def test_the_descriptions_of_the_table(self):
        for number, (library, rows) in enumerate(described(), 1):
            split = [row.partition(" ") for row in rows]
            turns = [
                describes(int(index), None if digits in CODES else bytes.fromhex(digits))
                for index, _, digits in split
            ]
            self.converse(f"the descriptions of library {number}", library, turns)
