"""Values of every scalar type, requests that are refused for theirs, and what values become as ones
of other types."""
import struct

from tests.support import wire
from tests.support.codes import (
    BAD_PARAM_COUNT,
    BAD_STUB,
    BAD_VAR_TYPE,
    CLASS_NOT_REGISTERED,
    E_INVALIDARG,
    E_UNEXPECTED,
    MEMBER_NOT_FOUND,
    OVERFLOW,
    TYPE_MISMATCH,
)
from tests.support.playing import Played
from tests.support.running import CREATE, FULL, SMALL, rows_of, run
from tests.support.texts import coclass, interface, library_with
from tests.support.turns import FOUR, HALF, HI, NO_VALUE, bstr, calls, gets, i2, i4, puts

LARGEST_DECIMAL = bytes.fromhex(
    "05000000000000000e000000000000000e0000000000000000001c00ffffffffffffffffffffffff"
)
LONGEST = bytes(range(256)) * 4_096

# Of each type: its word, the zero that a property of it reads first, and values that are put and
# read back. A pair is read back as its second.
ROWS = [
    ("char", wire.scalar(wire.I1, 0), [wire.scalar(wire.I1, -128), wire.scalar(wire.I1, 127)]),
    ("unsigned char", wire.scalar(wire.UI1, 0), [wire.scalar(wire.UI1, 255)]),
    (
        "short",
        wire.scalar(wire.I2, 0),
        [wire.scalar(wire.I2, -32_768), wire.scalar(wire.I2, 32_767)],
    ),
    ("unsigned short", wire.scalar(wire.UI2, 0), [wire.scalar(wire.UI2, 65_535)]),
    (
        "long",
        wire.scalar(wire.I4, 0),
        [wire.scalar(wire.I4, -(2**31)), wire.scalar(wire.I4, 2**31 - 1)],
    ),
    ("unsigned long", wire.scalar(wire.UI4, 0), [wire.scalar(wire.UI4, 2**32 - 1)]),
    ("int", wire.scalar(wire.INT, 0), [wire.scalar(wire.INT, -1)]),
    ("unsigned int", wire.scalar(wire.UINT, 0), [wire.scalar(wire.UINT, 2**31)]),
    (
        "hyper",
        wire.scalar(wire.I8, 0),
        [wire.scalar(wire.I8, -(2**63)), wire.scalar(wire.I8, 2**63 - 1)],
    ),
    ("unsigned hyper", wire.scalar(wire.UI8, 0), [wire.scalar(wire.UI8, 2**64 - 1)]),
    (
        "CURRENCY",
        wire.scalar(wire.CY, 0),
        [bytes.fromhex("0400000000000000060000000000000006000000" "00000000" "a861000000000000")],
    ),
    (
        "VARIANT_BOOL",
        wire.scalar(wire.BOOL, 0),
        [
            bytes.fromhex("03000000000000000b000000000000000b000000ffff"),
            (wire.scalar(wire.BOOL, 1), wire.scalar(wire.BOOL, 0xFFFF)),
            wire.scalar(wire.BOOL, 0),
        ],
    ),
    ("SCODE", wire.scalar(wire.ERROR, 0), [wire.scalar(wire.ERROR, 0x8000_4005)]),
    (
        "DECIMAL",
        wire.scalar(wire.DECIMAL, (0, 0, 0)),
        [LARGEST_DECIMAL, wire.scalar(wire.DECIMAL, (2, 0x80, 2**64 + 5))],
    ),
    (
        "BSTR",
        wire.scalar(wire.BSTR),
        [
            HI,
            wire.scalar(wire.BSTR, b""),
            wire.scalar(wire.BSTR, b"abc"),
            *(wire.scalar(wire.BSTR, LONGEST[:count]) for count in (393_216, 786_432, 1_048_576)),
            wire.scalar(wire.BSTR),
        ],
    ),
    (
        "VARIANT",
        wire.scalar(wire.EMPTY),
        [
            wire.scalar(wire.NULL),
            wire.scalar(wire.EMPTY),
            wire.scalar(wire.UINT, 1),
            HI,
            LARGEST_DECIMAL,
        ],
    ),
]
VALUES = library_with(
    interface(
        b"2",
        body=b" ".join(
            b"[id(%d)] %s P%d;" % (id, row[0].encode(), id) for id, row in enumerate(ROWS, 1)
        )
        + b" [id(17), readonly] long Version;",
    )
    + coclass(b"3", body=b"[default] dispinterface DItem;")
)
LONG, TEXT = (1 + [row[0] for row in ROWS].index(word) for word in ("long", "BSTR"))
VERSION, NO_MEMBER = 17, 18
# the DISPIDs of examples/full.idl
FULL_COUNT, FULL_FLAG, FULL_ANY = 1, 5, 7

WORDS = "I1 UI1 I2 UI2 I4 UI4 INT UINT I8 UI8 CY BOOL ERROR DECIMAL BSTR VARIANT".split()
REFUSED = {"OVERFLOW": OVERFLOW, "TYPEMISMATCH": TYPE_MISMATCH}


def said_value(one, word):
    """The field of the value of a type that a word says."""
    if one in ("EMPTY", "NULL", "BSTR"):
        return wire.scalar(getattr(wire, one))
    if one == "BOOL":
        return wire.scalar(wire.BOOL, 0xFFFF if word == "true" else 0)
    if one == "DECIMAL":
        digits, scale = word.split("e-")
        return wire.scalar(
            wire.DECIMAL, (int(scale), 0x80 if digits.startswith("-") else 0, abs(int(digits)))
        )
    return wire.scalar(getattr(wire, one), int(word))


def becomes(row):
    """The turns of a row: each answer is a put to a property of its type, which is read back where
    the value was taken."""
    value, answers = row.split(" = ")
    one, word = value.split(" ")
    given = said_value(one, word)
    for to, wanted in [answer.split(" ") for answer in answers.split(", ")]:
        if to not in WORDS:  # there are no properties of EMPTY and of NULL
            continue
        dispid = 1 + WORDS.index(to)
        if wanted in REFUSED:
            yield puts(dispid, given, REFUSED[wanted], 0)
        else:
            yield puts(dispid, given)
            yield gets(dispid, given if to == "VARIANT" else said_value(to, wanted))


class Values(Played):
    def test_values_of_each_type(self):
        for id, (word, zero, values) in enumerate(ROWS, 1):
            pairs = [value if isinstance(value, tuple) else (value, value) for value in values]
            self.talk(
                f"values of {word}",
                VALUES,
                [gets(id, zero)]
                + [turn for given, kept in pairs for turn in (puts(id, given), gets(id, kept))],
            )

    def test_requests_that_are_refused(self):
        self.talk(
            "requests that are refused",
            VALUES,
            [
                puts(LONG, FOUR),
                puts(LONG, wire.scalar(wire.NULL), TYPE_MISMATCH, 0),
                puts(LONG, HI, TYPE_MISMATCH, 0),
                puts(TEXT, FOUR, TYPE_MISMATCH, 0),
                puts(LONG, HALF, BAD_VAR_TYPE, 0),
                calls(LONG, 2, [], [FOUR, HALF, HALF], BAD_VAR_TYPE, 1),
                calls(LONG, 2, [], [HALF, FOUR[:-1]], BAD_STUB),
                puts(LONG, wire.scalar(wire.DECIMAL, (29, 0, 0)), BAD_STUB),
                puts(LONG, wire.scalar(wire.DECIMAL, (0, 1, 0)), BAD_STUB),
                puts(LONG, FOUR + b"\0", BAD_STUB),
                puts(LONG, FOUR[:16] + wire.scalar(wire.INT, 4)[16:], BAD_STUB),
                puts(TEXT, HI[:24] + b"\3" + HI[25:], BAD_STUB),
                puts(TEXT, HI[:32] + b"\1" + HI[33:], BAD_STUB),
                puts(TEXT, wire.scalar(wire.BSTR, LONGEST + b"a"), BAD_STUB),
                # numbers of no type that a value has
                *(
                    puts(
                        LONG,
                        wire.changed(wire.changed(FOUR, 8, "H", vt), 16, "I", vt),
                        BAD_VAR_TYPE,
                        0,
                    )
                    for vt in (4, 5, 7, 9, 12, 13, 15, 24, 25, 36, 0x2000, 0x4003)
                ),
                calls(NO_MEMBER, 4, [-3], [], MEMBER_NOT_FOUND),
                puts(VERSION, FOUR, MEMBER_NOT_FOUND),
                calls(LONG, 4, [-3, 7], [FOUR], E_INVALIDARG),
                calls(LONG, 4, [-3, -3], [FOUR, FOUR], E_INVALIDARG),
                calls(LONG, 4, [], [FOUR], E_INVALIDARG),
                calls(LONG, 2, [-3], [FOUR], E_INVALIDARG),
                calls(LONG, 2, [], [FOUR], BAD_PARAM_COUNT),
                calls(LONG, 4, [-3], [FOUR, FOUR], BAD_PARAM_COUNT),
                gets(LONG, FOUR),
                gets(TEXT, wire.scalar(wire.BSTR)),
            ],
        )

    def test_an_object_too_many(self):
        objects = 65_536
        # that there is no such class goes before that there is no room
        no_class = wire.line(
            3, struct.pack("<HH", 1, 0) + bytes.fromhex("443322116655887799aabbccddeeff02")
        )
        made = run(
            ["play", "lib.idl", "--hex"],
            (CREATE + b"\n") * (objects + 1) + no_class + CREATE + b"\n",
            files={"lib.idl": SMALL},
        )[1].splitlines()
        wanted = [
            (
                b"00000000ffffffff00000000%08x00000000"
                % int.from_bytes(number.to_bytes(4, "little"), "big")
            )
            for number in range(1, objects + 1)
        ]
        refusals = [
            wire.reply(1, code)[8:-1] for code in (E_UNEXPECTED, CLASS_NOT_REGISTERED, E_UNEXPECTED)
        ]
        self.tell("an object too many", [it[8:] for it in made] == wanted + refusals, made[-3:])

    def test_values_that_are_converted(self):
        converted = [
            (wire.scalar(wire.CY, 25_000), 2),
            (wire.scalar(wire.CY, 35_000), 4),
            (wire.scalar(wire.CY, -25_000), -2),
            (i2(7), 7),
            (NO_VALUE, 0),
            (wire.scalar(wire.BOOL, 0xFFFF), -1),
        ]
        self.talk(
            "values that are converted",
            FULL,
            [
                turn
                for given, kept in converted
                for turn in (puts(FULL_COUNT, given), gets(FULL_COUNT, i4(kept)))
            ]
            + [
                puts(FULL_COUNT, i4(6)),
                puts(FULL_COUNT, wire.scalar(wire.I8, 2_147_483_648), OVERFLOW, 0),
                puts(FULL_COUNT, bstr("7"), TYPE_MISMATCH, 0),
                gets(FULL_COUNT, i4(6)),
                puts(FULL_FLAG, i2(3)),
                gets(FULL_FLAG, wire.scalar(wire.BOOL, 0xFFFF)),
                puts(FULL_ANY, wire.scalar(wire.CY, 25_000)),
                gets(FULL_ANY, wire.scalar(wire.CY, 25_000)),
            ],
        )

    def test_values_that_become_others(self):
        self.talk(
            "values that become others",
            VALUES,
            [turn for row in rows_of("coercions.txt") for turn in becomes(row)],
        )
