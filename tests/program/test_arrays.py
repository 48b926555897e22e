"""Arrays as values, their elements, bounds and locks, and memory that is refused for them."""
import struct

from tests.support import wire
from tests.support.codes import (
    ARRAY_IS_LOCKED,
    BAD_INDEX,
    BAD_PARAM_COUNT,
    BAD_STUB,
    BAD_VAR_TYPE,
    DISCONNECTED,
    E_INVALIDARG,
    E_OUTOFMEMORY,
    E_UNEXPECTED,
    MEMBER_NOT_FOUND,
    OVERFLOW,
    TYPE_MISMATCH,
)
from tests.support.playing import Played
from tests.support.running import ARRAYS, CREATE, FULL, run, within
from tests.support.turns import (
    FOUR,
    HALF,
    HI,
    NO_INDEX,
    creates,
    gets,
    i2,
    lists,
    of,
    puts,
    releases,
)

# of each property of the library: its DISPID, the type of its cells, and cells for the bounds (2,
# -1), (2, 5)
ARRAY_ROWS = [
    (1, wire.I1, [-128, 127, 0, -1]),
    (2, wire.UI1, [0, 255, 1, 2]),
    (3, wire.I2, [-32_768, 32_767, 0, -1]),
    (4, wire.UI2, [0, 65_535, 1, 2]),
    (5, wire.I4, [-(2**31), 2**31 - 1, 0, -1]),
    (6, wire.UI4, [0, 2**32 - 1, 1, 2]),
    (7, wire.INT, [-(2**31), 2**31 - 1, 0, -1]),
    (8, wire.UINT, [0, 2**32 - 1, 1, 2]),
    (9, wire.I8, [-(2**63), 2**63 - 1, 0, -1]),
    (10, wire.UI8, [0, 2**64 - 1, 1, 2]),
    (11, wire.CY, [-25_000, 25_000, 0, 2**63 - 1]),
    (12, wire.BOOL, [0xFFFF, 0, 0, 0xFFFF]),
    (13, wire.BSTR, [None, b"", b"H\0i\0", b"A\0B"]),
    (
        14,
        wire.VARIANT,
        [
            (wire.EMPTY,),
            (wire.DECIMAL, (28, 0x80, 2**96 - 1)),
            (wire.BSTR, b"k\0"),
            (wire.ERROR, 0x8002_0004),
        ],
    ),
]
ANY, COUNT = 15, 16
HOLDERS, BYTES = 64, 2
# the DISPIDs of examples/full.idl
GRID, ANY_VALUE, COUNT_ID, CLEAR, VERSION_ID = 8, 7, 1, 10, 6
SIX = wire.array(wire.I2, [(2, -1), (3, 5)], [1, 2, 3, 4, 5, 6])


def array_call(
    opcode,
    dispid,
    rest=b"",
    code=0,
    index=NO_INDEX,
    fields=b"",
    named=(),
    values=(),
    number=1,
    flags=0,
):
    request = wire.oaut.ask_call(opcode, number, dispid, flags, named, values) + rest
    return (lambda tag: wire.line(tag, request), lambda tag: wire.reply(tag, code, index, fields))


def element(dispid, indices, value=None, code=0, **how):
    fields = b"" if value is None else wire.field(value)
    return array_call(
        wire.oaut.GETELEM, dispid, wire.oaut.indices_field(indices), code, fields=fields, **how
    )


def puts_element(dispid, indices, value, code=0, **how):
    return array_call(
        wire.oaut.PUTELEM, dispid, wire.oaut.indices_field(indices) + wire.field(value), code, **how
    )


def redim(dispid, count, lower, code=0, **how):
    return array_call(wire.oaut.REDIM, dispid, struct.pack("<Ii", count, lower), code, **how)


def locks(dispid, count, code=0, opcode=wire.oaut.LOCK, **how):
    return array_call(
        opcode, dispid, b"", code, fields=b"" if code else struct.pack("<II", count, 0), **how
    )


def unlocks(dispid, count, code=0, **how):
    return locks(dispid, count, code, wire.oaut.UNLOCK, **how)


class Arrays(Played):
    def test_arrays_of_each_type(self):
        for dispid, vt, cells in ARRAY_ROWS:
            value = wire.array(vt, [(2, -1), (2, 5)], cells)
            other = wire.array(wire.I2 if vt != wire.I2 else wire.UI2, [(1, 0)], [7])
            self.talk(
                f"an array of the type {vt}",
                ARRAYS,
                [
                    gets(dispid, wire.zero_array(vt)),
                    puts(dispid, value),
                    gets(dispid, value),
                    puts(dispid, other, TYPE_MISMATCH, 0),
                    puts(dispid, wire.scalar(wire.I2, 7), TYPE_MISMATCH, 0),
                    puts(COUNT, value, TYPE_MISMATCH, 0),
                    gets(dispid, value),
                    puts(ANY, value),
                    gets(ANY, value),
                    puts(dispid, wire.zero_array(vt)),
                    gets(dispid, wire.zero_array(vt)),
                    puts(dispid, value),
                    puts(dispid, wire.scalar(wire.EMPTY)),
                    gets(dispid, wire.zero_array(vt)),
                ],
            )

    def test_arrays_at_their_limits(self):
        read_null = wire.array(
            wire.VARIANT, [(3, 0)], [(wire.NULL,), (wire.DECIMAL, (0, 0, 1)), None]
        )
        read_empty = wire.array(
            wire.VARIANT, [(3, 0)], [(wire.NULL,), (wire.DECIMAL, (0, 0, 1)), (wire.EMPTY,)]
        )
        sixteen = wire.array(wire.UI1, [(1, -(2**31))] * 15 + [(2, 2**31 - 1)], [8, 9])
        largest = wire.array(wire.UI1, [(256, 0), (256, 0)], bytes(65_536))
        no_cells = wire.array(wire.I2, [(65_536, 0), (65_536, 0), (0, 0)], [])
        self.talk(
            "arrays at their limits",
            ARRAYS,
            [
                puts(ANY, read_null),
                gets(ANY, read_empty),
                puts(ANY, sixteen),
                gets(ANY, sixteen),
                puts(ANY, largest),
                gets(ANY, largest),
                puts(ANY, no_cells),
                gets(ANY, no_cells),
            ],
        )

    def test_arrays_that_are_none(self):
        good = wire.array(wire.I2, [(2, 0)], [1, 2])
        self.talk(
            "arrays that are none",
            ARRAYS,
            [puts(ANY, good)]
            + [
                puts(ANY, spoiled, BAD_STUB)
                for spoiled in (
                    wire.array(wire.I2, [], []),
                    wire.array(wire.I2, [], [7]),
                    wire.array(wire.UI1, [(1, 0)] * 17, [1]),
                    wire.array(wire.UI1, [(65_537, 0)], bytes(65_537)),
                    wire.array(wire.UI1, [(2**32 - 1, 0)] * 3, [], count=2**32 - 1),
                    wire.array(wire.I2, [(2, 0)], [1, 2], count=3),
                    wire.array(wire.I2, [(2, 0)], [1, 2], dimensions=2),
                    wire.array(wire.I2, [(2, 0)], [1, 2], second=bytes(4)),
                    wire.array(wire.VARIANT, [(1, 0)], [(wire.VARIANT,)]),
                    wire.array(wire.VARIANT, [(1, 0)], [(wire.ARRAY + wire.I4,)]),
                    wire.array(wire.VARIANT, [(1, 0)], [(5,)]),
                    good[:-1],
                    good + b"\0",
                )
            ]
            + [
                puts(ANY, wire.array(vt, [(1, 0)], [1]), BAD_VAR_TYPE, 0)
                for vt in (wire.EMPTY, wire.NULL, wire.ERROR, wire.DECIMAL, 5, 0x4003, 0x1003)
            ]
            + [gets(ANY, good)],
        )

    def test_memory_is_refused_in_a_session(self):
        """The request is answered, and nothing is changed."""
        full_array, no_array = wire.array(wire.UI1, [(65_536, 0)], [7] * 65_536), wire.zero_array(
            wire.UI1
        )
        asked = [CREATE + b"\n"] * HOLDERS
        asked += [wire.put(number, number, BYTES, full_array) for number in range(1, HOLDERS + 1)]
        asked += [wire.put(1, 1, BYTES, no_array)] + [
            wire.get(number, number, BYTES) for number in range(2, HOLDERS + 1)
        ]
        status, out, err = run(
            ["play", "lib.idl", "--hex"],
            b"".join(asked),
            files={"lib.idl": ARRAYS},
            before=within(48_000_000),
        )
        answers = (out or b"").splitlines(keepends=True)
        put = answers[HOLDERS : 2 * HOLDERS]
        kept = [answer == wire.reply(number) for number, answer in enumerate(put, 1)]
        codes = all(
            answer == wire.reply(number, 0 if it else E_OUTOFMEMORY)
            for (number, answer), it in zip(enumerate(put, 1), kept)
        )
        got = [wire.reply(1)] + [
            wire.reply(number, fields=wire.field(full_array if it else no_array))
            for number, it in enumerate(kept[1:], 2)
        ]
        self.tell(
            "memory is refused in a session",
            (
                status,
                err,
                len(kept),
                True in kept,
                False in kept,
                codes,
                answers[2 * HOLDERS :] == got,
            )
            == (0, b"", HOLDERS, True, True, True, True),
            (status, err, kept, codes),
        )


class Elements(Played):
    def test_elements(self):
        self.talk(
            "elements of an array",
            FULL,
            [
                puts(GRID, SIX),
                gets(GRID, SIX),
                element(GRID, [0, 7], i2(6)),
                element(GRID, [1, 7], code=BAD_INDEX),
                element(GRID, [0], code=BAD_INDEX),
                element(GRID, [], code=BAD_INDEX),
                element(GRID, [0] * 16, code=BAD_INDEX),
                element(GRID, [0] * 17, code=BAD_STUB),
                redim(GRID, 2, -1),
                gets(GRID, SIX),
                puts_element(GRID, [-1, 5], wire.scalar(wire.I4, 40_000), OVERFLOW),
                puts_element(GRID, [-1, 8], wire.scalar(wire.I4, 40_000), BAD_INDEX),
                puts_element(GRID, [-1, 5], wire.scalar(wire.BSTR, b"a\0"), TYPE_MISMATCH),
                puts_element(GRID, [-1, 5], SIX, TYPE_MISMATCH),
                puts_element(GRID, [-1, 5], HALF, BAD_VAR_TYPE),
                gets(GRID, SIX),
                puts_element(GRID, [0, 6], wire.scalar(wire.CY, 25_000)),
                element(GRID, [0, 6], i2(2), flags=4),
                puts_element(GRID, [0, 6], wire.scalar(wire.EMPTY)),
                element(GRID, [0, 6], i2(0)),
                element(COUNT_ID, [0], code=TYPE_MISMATCH),
                element(CLEAR, [0], code=MEMBER_NOT_FOUND, flags=1),
                element(VERSION_ID, [0], code=TYPE_MISMATCH),
                puts_element(VERSION_ID, [0], FOUR, MEMBER_NOT_FOUND),
                element(GRID, [0, 7], code=E_INVALIDARG, named=(-3,), values=(FOUR,)),
                element(GRID, [0, 7], code=BAD_PARAM_COUNT, values=(FOUR,)),
                element(GRID, [0, 7], code=DISCONNECTED, number=2),
                puts(ANY_VALUE, wire.array(wire.I4, [(2, 2**31 - 1)], [1, 2])),
                element(ANY_VALUE, [2**31 - 1], wire.scalar(wire.I4, 1)),
                element(ANY_VALUE, [-(2**31)], code=BAD_INDEX),
                puts(ANY_VALUE, wire.array(wire.VARIANT, [(1, 0)], [(wire.I2, 7)])),
                puts_element(ANY_VALUE, [0], HI),
                element(ANY_VALUE, [0], HI),
                puts_element(ANY_VALUE, [0], SIX, TYPE_MISMATCH),
            ],
        )

    def test_locks(self):
        self.talk(
            "locks of an array",
            FULL,
            [
                puts(GRID, SIX),
                locks(GRID, 1),
                locks(GRID, 2),
                redim(GRID, 1, 0, ARRAY_IS_LOCKED),
                redim(GRID, 65_536, 0, ARRAY_IS_LOCKED),
                puts(GRID, SIX, ARRAY_IS_LOCKED),
                puts_element(GRID, [0, 7], i2(60)),
                element(GRID, [0, 7], i2(60)),
                releases(1, ARRAY_IS_LOCKED),
                unlocks(GRID, 1),
                unlocks(GRID, 0),
                unlocks(GRID, 0, E_UNEXPECTED),
                redim(GRID, 1, 0),
                gets(GRID, wire.array(wire.I2, [(1, 0), (3, 5)], [1, 2, 3])),
                redim(GRID, 3, 10),
                gets(GRID, wire.array(wire.I2, [(3, 10), (3, 5)], [1, 2, 3, 0, 0, 0, 0, 0, 0])),
                element(GRID, [10, 7], i2(3)),
                redim(GRID, 21_846, 0, E_INVALIDARG),
                locks(GRID, 1),
                releases(1, ARRAY_IS_LOCKED),
                unlocks(GRID, 0),
                releases(1),
                of(1, COUNT_ID, None, DISCONNECTED),
                locks(GRID, 0, DISCONNECTED),
                creates(2),
                lists(2),
            ],
        )

    def test_an_array_that_was_never_put(self):
        self.talk(
            "an array that was never put",
            FULL,
            [
                gets(GRID, wire.zero_array(wire.I2)),
                element(GRID, [0], code=BAD_INDEX),
                puts_element(GRID, [0], FOUR, BAD_INDEX),
                locks(GRID, 0, E_UNEXPECTED),
                unlocks(GRID, 0, E_UNEXPECTED),
                redim(GRID, 65_537, 0, E_INVALIDARG),
                gets(GRID, wire.zero_array(wire.I2)),
                redim(GRID, 2, 0),
                element(GRID, [1], i2(0)),
                element(COUNT_ID, [0], code=TYPE_MISMATCH),
                redim(COUNT_ID, 2, 0, TYPE_MISMATCH),
                locks(COUNT_ID, 0, TYPE_MISMATCH),
                locks(ANY_VALUE, 0, TYPE_MISMATCH),
                unlocks(ANY_VALUE, 0, TYPE_MISMATCH),
                redim(ANY_VALUE, 2, 0, TYPE_MISMATCH),
                element(ANY_VALUE, [0], code=TYPE_MISMATCH),
            ],
        )

    def test_locks_at_their_limit(self):
        self.talk(
            "locks at their limit",
            FULL,
            [puts(GRID, SIX)]
            + [locks(GRID, count) for count in range(1, 65_536)]
            + [
                locks(GRID, 0, E_UNEXPECTED),
                unlocks(GRID, 65_534),
                locks(GRID, 65_535),
                locks(GRID, 0, E_UNEXPECTED),
            ],
        )
