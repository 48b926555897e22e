"""The client's values, their bytes and their words."""
import random
import struct
from decimal import Decimal

from oaut import (
    EMPTY,
    I1,
    I2,
    I4,
    I8,
    INT,
    NULL_BSTR,
    UI1,
    UI2,
    UI4,
    UI8,
    UINT,
    VT,
    Array,
    Currency,
    SCode,
)
from tests.client.clients import (
    GRID,
    HI,
    LIBRARY,
    NULL_TEXT,
    TABLES,
    VARIANTS,
    ClientCases,
    hexed,
    oaut,
)

SPELLED = [
    (I4(7), hexed("03000000 00000000 0300 0000 0000 0000 03000000 07000000")),
    (I2(7), hexed("03000000 00000000 0200 0000 0000 0000 02000000 0700")),
    (True, hexed("03000000 00000000 0b00 0000 0000 0000 0b000000 ffff")),
    (None, hexed("03000000 00000000 0100 0000 0000 0000 01000000")),
    (EMPTY, hexed("03000000 00000000 0000 0000 0000 0000 00000000")),
    (NULL_BSTR, NULL_TEXT),
    ("Hi", HI),
    (
        b"\x41\x00\x42",
        hexed(
            "05000000 00000000 0800 0000 0000 0000 08000000 00000200 02000000 03000000 02000000 "
            "41004200"
        ),
    ),
    (
        Currency("2.5"),
        hexed("04000000 00000000 0600 0000 0000 0000 06000000 00000000 a861000000000000"),
    ),
    (SCode(0x8000_4005), hexed("03000000 00000000 0a00 0000 0000 0000 0a000000 05400080")),
    (
        Decimal(f"{2**96 - 1}E-28"),
        hexed(
            "05000000 00000000 0e00 0000 0000 0000 0e000000 00000000 0000 1c 00 ffffffff "
            "ffffffffffffffff"
        ),
    ),
    (
        Decimal("-0.00"),
        hexed(
            "05000000 00000000 0e00 0000 0000 0000 0e000000 00000000 0000 02 80 00000000 "
            "0000000000000000"
        ),
    ),
    (Array(I2, [(2, -1), (3, 5)], range(1, 7)), GRID),
    (Array(object, [(1, 0)], [I2(7)]), VARIANTS),
]
PLAIN = [
    (5, VT.VARIANT, I4(5)),
    (2**31, VT.VARIANT, I8(2**31)),
    (2**63, VT.VARIANT, UI8(2**63)),
    (2**64, VT.VARIANT, Decimal(2**64)),
    (5, VT.UI1, UI1(5)),
    (256, VT.UI1, I4(256)),
    (-1, VT.UINT, I4(-1)),
    (5, VT.CY, Currency(5)),
    (Decimal("2.5"), VT.CY, Currency("2.5")),
    (Decimal("0.00005"), VT.CY, Decimal("0.00005")),
    (-5, VT.DECIMAL, Decimal(-5)),
    (5, VT.ERROR, SCode(5)),
    (True, VT.I4, True),
    (I8(5), VT.I4, I8(5)),
    (None, VT.BSTR, NULL_BSTR),
    (None, VT.I4, None),
    ("5", VT.I4, "5"),
]
# of a good field a change at one place, and whether it is the type that is refused
SPOILED = [
    (HI, 8, "H", 5, True),
    (HI, 8, "H", 12, True),
    (HI, 8, "H", 0x2000, True),
    (HI, 8, "H", 0x200E, True),
    (HI, 16, "I", 3, False),
    (HI, 24, "I", 3, False),
    (HI, 32, "I", 3, False),
    (HI, 28, "I", 6, False),
    (HI, 28, "I", oaut.NULL_LENGTH, False),
    (SPELLED[10][1], 26, "B", 29, False),
    (SPELLED[10][1], 27, "B", 1, False),
    (GRID, 20, "I", 0, False),
    (GRID, 24, "I", 0, False),
    (GRID, 28, "I", 1, False),
    (GRID, 32, "H", 0, False),
    (GRID, 44, "I", 3, False),
    (GRID, 48, "I", 7, False),
    (GRID, 72, "I", 5, False),
    (VARIANTS, 80, "H", 12, False),
]
READ_ANYHOW = [
    (GRID, 16, "I", 0x2002),
    (GRID, 34, "H", 7),
    (GRID, 36, "I", 7),
    (GRID, 40, "I", 7),
    (GRID, 52, "I", 0),
    (HI, 0, "I", 0),
    (HI, 20, "I", 1),
]
SHEET = Array(I2, [(2, -1), (3, 5)], range(1, 7))
WORDS = [
    I4(7),
    True,
    False,
    None,
    EMPTY,
    NULL_BSTR,
    'Hi "there"\n',
    b"abc",
    Currency("2.5"),
    Decimal("-2.50"),
    SCode(0x8002_0004),
    SHEET,
    Array(object, [(2, 0)], [None, "x"]),
]


class Values(ClientCases):
    def test_bytes_of_values(self):
        for value, field in SPELLED:
            self.same(f"the bytes of {value!r}", oaut.spell(value), field)
            self.same(f"the value of the bytes of {value!r}", oaut.read_field(field), value)
        self.same(
            "an empty text and null are two",
            (len(oaut.spell("")), len(oaut.spell(NULL_BSTR))),
            (36, 24),
        )
        self.same(
            "a negative zero of a DECIMAL",
            str(oaut.read_field(oaut.spell(Decimal("-0.00")))),
            "-0.00",
        )
        self.same("units of a Currency", Currency("-3.5").units, -35_000)
        self.same(
            "an amount and its type",
            (Currency(2) + Decimal("0.5"), type(oaut.read_field(oaut.spell(Currency(2))))),
            (Decimal("2.5"), Currency),
        )
        for of in (I1, UI1, I2, UI2, I4, UI4, I8, UI8, INT, UINT, SCode):
            for number in (of.low, of.high):
                self.same(
                    f"{of.__name__} {number}", oaut.read_field(oaut.spell(of(number))), of(number)
                )
            self.raises(f"a number above {of.__name__}", OverflowError, lambda: of(of.high + 1))
            self.raises(f"a number below {of.__name__}", OverflowError, lambda: of(of.low - 1))
        for given, declared, kept in PLAIN:
            self.same(
                f"{given!r} for a {declared.name}",
                oaut.read_field(oaut.spell(given, declared)),
                kept,
            )

    def test_numbers_in_texts(self):
        for value, told, said in (
            (I4(-7), "I4(-7)", "-7"),
            (UI8(5), "UI8(5)", "5"),
            (SCode(0x8000_4005), "SCode(0x80004005)", "2147500037"),
            (Currency("2.5"), "Currency('2.5000')", "2.5000"),
        ):
            self.same(f"{told} in texts", (repr(value), str(value), f"{value}"), (told, said, said))

    def test_floating_point_numbers(self):
        """The DECIMAL of one is the same number bit for bit once it has come back, or it is
        refused."""
        draw, bits = random.Random(3), lambda it: struct.pack("<d", it)
        numbers = [
            0.0,
            -0.0,
            0.1,
            1e22,
            1e-12,
            1.2345678901234567e-12,
            2.0**96 - 2.0**44,
            1e-20,
            1.5e-27,
        ]
        numbers += [
            draw.choice((-1, 1)) * (1 + draw.random()) * 10.0 ** draw.randrange(-12, 28)
            for _ in range(2_000)
        ]
        wrong = [
            it
            for it in numbers
            if bits(float(oaut.read_field(oaut.spell(oaut.real(it))))) != bits(it)
        ]
        self.same("numbers that come back as others", wrong, [])
        for name, number, kind in (
            ("NaN", float("nan"), ValueError),
            ("an infinity", float("inf"), ValueError),
            ("too large", 2.0**96, OverflowError),
            ("too small", 1.5e-28, ValueError),
            ("no float", 5, TypeError),
        ):
            self.raises(name, kind, lambda: oaut.real(number))

    def test_what_a_notebook_shows(self):
        text = Array(str, [(2, -1), (2, 0)], ["<b>", "x", "y", None])._repr_html_()
        for part in (
            "<caption>BSTR[-1..0, 0..1]</caption>",
            "<td>-1</td><td>&#x27;&lt;b&gt;&#x27;</td>",
            "<td>null</td>",
        ):
            self.tell(f"of an array: {part}", part in text, text)
        text = Array(I4, [(65_536, 0)])._repr_html_()
        self.tell(
            "of a large array its beginning",
            len(text) < 2_000 and "the first of 65536 cells" in text,
            len(text),
        )
        text = LIBRARY._repr_html_()
        self.tell(
            "of a library its members",
            "<td>Cell</td><td>BSTR(long Row, BSTR Key, short Page)</td><td>9</td>" in text,
            text,
        )
        self.same(
            "a library in words", repr(LIBRARY), "<oaut.Library: 1 interfaces, coclasses Item>"
        )

    def test_what_is_no_value(self):
        self.raises("a float", TypeError, lambda: oaut.spell(0.5))
        self.raises("a number that no VARIANT has", OverflowError, lambda: oaut.spell(2**96))
        self.raises("29 decimal places", ValueError, lambda: oaut.spell(Decimal("1E-29")))
        self.raises("a DECIMAL too large", OverflowError, lambda: oaut.spell(Decimal("1E+29")))
        self.raises("no number", ValueError, lambda: oaut.spell(Decimal("NaN")))
        self.raises(
            "a text too long", ValueError, lambda: oaut.spell("a" * (oaut.TEXT_LIMIT // 2 + 1))
        )
        self.raises("a ten-thousandth's half", ValueError, lambda: Currency("0.00005"))
        self.raises("an amount too large", OverflowError, lambda: Currency(2**63 // 10_000 + 1))

    def test_cells_that_are_true_or_false(self):
        given = [True, False, 1, 0, I2(7), UI8(0)]
        self.same(
            "what is a number",
            oaut.read_field(oaut.spell(given, oaut.ARRAY + VT.BOOL)),
            Array(bool, [(6, 0)], [True, False] * 3),
        )
        for wrong in ("False", "", None, EMPTY, Decimal(0), 0.0, [False], b"\0"):
            self.raises(
                f"{wrong!r}", TypeError, lambda: oaut.spell([True, wrong], oaut.ARRAY + VT.BOOL)
            )

    def test_texts_with_half_a_surrogate_pair(self):
        for code in range(0xD7FF, 0xE001):
            text = chr(code) + "x" + chr(code)
            if oaut.read_field(oaut.spell(text)) != text:
                self.tell("a text with half a surrogate pair", False, hex(code))
        self.tell("texts with half a surrogate pair", True)

    def test_fields_of_another_implementation(self):
        with open(f"{TABLES}/variants.txt") as file:
            foreign = [
                [bytes.fromhex(it) for it in line.split()]
                for line in file
                if not line.startswith("#")
            ]
        for place, (given, canonical) in enumerate(foreign):
            self.same(
                f"field {place} of another implementation",
                oaut.spell(oaut.read_field(given)),
                canonical,
            )
        self.same("fields of another implementation", len(foreign), 240)

    def test_bytes_that_are_no_value(self):
        for good, at, form, number, of_type in SPOILED:
            bad = bytearray(good)
            struct.pack_into("<" + form, bad, at, number)
            self.raises(
                f"a field with {number} at {at}",
                oaut.ProtocolError,
                lambda: oaut.read_field(bytes(bad)),
                unknown_type=of_type,
            )
        for good in (HI, GRID, VARIANTS, *(field for _, field in SPELLED)):
            for cut in (good[:-1], good[:19], good + b"\0"):
                self.raises(
                    "a field of another length", oaut.ProtocolError, lambda: oaut.read_field(cut)
                )

    def test_bytes_that_are_read_anyhow(self):
        for good, at, form, number in READ_ANYHOW:
            bent = bytearray(good)
            struct.pack_into("<" + form, bent, at, number)
            self.same(
                f"a field that may have {number} at {at}",
                oaut.spell(oaut.read_field(bytes(bent))),
                good,
            )
        null_blob = HI[:24] + struct.pack("<III", 0, oaut.NULL_LENGTH, 0)
        self.same("the blob of the null text", oaut.read_field(null_blob), NULL_BSTR)
        self.same(
            "a null referent in an array of VARIANT",
            oaut.read_field(oaut.array_field(VT.VARIANT, [(1, 0)], [None])).cells,
            [EMPTY],
        )

    def test_arrays(self):
        grid = SHEET
        self.same(
            "cells by their indices",
            [grid[-1, 5], grid[-1, 7], grid[0, 5], grid[0, 7]],
            [1, 3, 4, 6],
        )
        self.same("an array as lists", list(grid), [[1, 2, 3], [4, 5, 6]])
        self.same(
            "lists as an array", Array.of([[1, 2, 3], [4, 5, 6]], I2).bounds, [(2, 0), (3, 0)]
        )
        self.same(
            "three bounds",
            list(Array(I2, [(2, 0), (1, 0), (2, 0)], range(4))),
            [[[0, 1]], [[2, 3]]],
        )
        self.same("no cells", list(Array(I2, [(65_536, 0), (65_536, 0), (0, 0)])), [])
        for of in (I1, UI1, I2, UI2, I4, UI4, I8, UI8, INT, UINT, Currency, bool, str, object):
            self.same(
                f"the array of no cells of {of.__name__}", len(oaut.spell(Array(of, [(0, 0)]))), 68
            )
        self.raises("an index outside", IndexError, lambda: grid[1, 5])
        self.raises(
            "an index too few, outside",
            IndexError,
            lambda: grid[2],
            "1 indices for 2 bounds, -1 to 0 and 5 to 7",
        )
        self.raises("lists of several lengths", ValueError, lambda: Array.of([[1], [2, 3]]))
        self.raises("a number for a list", ValueError, lambda: Array.of([[1], 2]))
        self.raises(
            "a cell too large", OverflowError, lambda: oaut.spell([40_000], oaut.ARRAY + VT.I2)
        )
        self.raises(
            "a text among numbers", TypeError, lambda: oaut.spell(["a"], oaut.ARRAY + VT.I2)
        )
        self.raises("an array of DECIMAL", TypeError, lambda: Array(VT.DECIMAL, [(1, 0)], [1]))
        self.raises("17 bounds", ValueError, lambda: Array(I2, [(1, 0)] * 17))
        self.raises("65,537 cells", ValueError, lambda: Array(I2, [(65_537, 0)]))

    def test_words(self):
        for value in WORDS:
            self.same(f"{value!r} in words", oaut.value_of(oaut.words_of(value)), value)
        self.same(
            "a decimal in words",
            [str(oaut.value_of(it)) for it in ("2.50", "-2.50", "-0.0")],
            ["2.50", "-2.50", "-0.0"],
        )
        self.same("lists in words", oaut.value_of('[[1, true], ["x", -3]]'), [[1, True], ["x", -3]])
        for words in (
            "",
            "x",
            "1 + 1",
            "open('x')",
            "(1).real",
            "[1",
            "I2(70000)",
            "f'{1}'",
            "Currency('x')",
            "Decimal('x')",
        ):
            self.raises(f"no value in {words!r}", ValueError, lambda: oaut.value_of(words))
