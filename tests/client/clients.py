"""What the client's cases share: a session whose replies are given, worked requests and replies,
and the program under other words.

The package is the one in clients/python, or the installed one if OAUT_INSTALLED is set.
"""
import contextlib
import io
import os
import struct
import tempfile

import oaut
from oaut import EMPTY, I2, I4, NULL_BSTR, Array, Currency, SCode
from tests.support.running import PROGRAM, ROOT, TABLES, Cases

PACKAGE = f"{ROOT}/clients/python"
FULL = f"{ROOT}/examples/full.idl"
ARRAYS = f"{ROOT}/examples/arrays.idl"
# what a Python needs to find the package
ENVIRONMENT = {
    **os.environ,
    **({} if os.environ.get("OAUT_INSTALLED") else {"PYTHONPATH": PACKAGE}),
}


class ClientCases(Cases):
    """Cases whose answers are Python's values, or exceptions."""

    def same(self, name, got, wanted):
        """A value of the same type."""
        self.tell(
            name, type(got) is type(wanted) and got == wanted, f"wanted {wanted!r}, got {got!r}"
        )

    def raises(self, name, kind, act, says=None, **wanted):
        """The exception that `act` raises, which has these attributes, and says this. If `kind` is
        one of Python's own, it is that kind of oaut.Error."""
        try:
            got = act()
        except kind as error:
            found = {it: getattr(error, it) for it in wanted}
            own = (
                type(error).__bases__[-1:] == (kind,) and isinstance(error, oaut.Error)
                if not kind.__module__.startswith(("oaut", "tests."))
                else type(error) is kind
            )
            well = own and found == wanted and (says is None or str(error) == says)
            self.tell(
                name,
                well,
                f"wanted {kind.__name__} {wanted} {says!r}, got {error!r} {found} {str(error)!r}",
            )
            return error
        except Exception as error:
            self.tell(name, False, f"wanted {kind.__name__}, got {error!r}")
            return error
        self.tell(name, False, f"wanted {kind.__name__}, got {got!r}")
        return None


def hexed(text):
    return bytes.fromhex(text.replace("\n", "").replace(" ", ""))


NULL_TEXT = hexed("03000000 00000000 0800 0000 0000 0000 08000000 00000000")
HI = hexed(
    "05000000 00000000 0800 0000 0000 0000 08000000 00000200 02000000 04000000 02000000 48006900"
)
GRID = hexed(
    """0b000000 00000000 0220 0000 0000 0000 00200000 00000200 00000200 02000000 0200 8000
    02000000 00000200 02000000 06000000 00000200 02000000 ffffffff 03000000
    05000000 06000000 0100 0200 0300 0400 0500 0600"""
)
VARIANTS = hexed(
    """0c000000 00000000 0c20 0000 0000 0000 00200000 00000200 00000200 01000000 0100 8008
    10000000 00000c00 0c000000 01000000 00000200 01000000 00000000 01000000
    00000200 03000000 00000000 0200 0000 0000 0000 02000000 0700"""
)
HEAD_OF = (
    lambda dispid: f"01000000 0{dispid}000000" + "00" * 32 + "00000000 0200 0000 00000000 00000000"
)
CELL_HEAD = (
    "01000000 09000000" + "00" * 32 + "00000000 0200 0000 02000000 01000000 01000000 00000000"
)
ITEM = "443322116655887799aabbccddeeff03"
K = (
    "26000000 00000000 05000000 00000000 0800 0000 0000 0000 08000000 00000200 01000000 02000000 "
    "01000000 6b00 0000"
)
FIVE = "18000000 00000000 03000000 00000000 0300 0000 0000 0000 03000000 05000000"
SEVEN = "18000000 00000000 03000000 00000000 0300 0000 0000 0000 03000000 07000000"


class Kept(io.BytesIO):
    """A writer whose bytes stay when it is closed."""

    def close(self):
        self.content = self.getvalue()


def scripted(*bodies, framing="lines", **how):
    """A session whose replies are given: bodies behind their tags, which count from 1."""
    told = [struct.pack("<I", tag) + body for tag, body in enumerate(bodies, 1)]
    server = oaut.connect(
        io.BytesIO(oaut.FRAMINGS[framing].pack(told) if told else b""),
        Kept(),
        framing,
        **{"group": 1, **how},
    )
    server.described = LIBRARY
    return server


def answer(fields="", code=0, index=oaut.NO_INDEX):
    return struct.pack("<III", code, index, 0) + hexed(fields)


with open(f"{ROOT}/examples/info.out") as file:
    DESCRIPTIONS = [
        oaut.read_reply(bytes.fromhex(line)).fields for line in file.read().splitlines()[3:5]
    ]
LIBRARY = oaut.Library([oaut.read_description(it) for it in DESCRIPTIONS])
DONE = answer()
NO_VALUE = hexed("14000000 00000000 03000000 00000000 0100 0000 0000 0000 01000000 00000000").hex()


def item_of(server):
    return server.object(1, "Item")


# of each request an act on a session, what is sent behind the tag, the reply behind the tag, and
# what the act gives
ASKED = [
    (
        "create",
        lambda it: it.create("item").number,
        f"0100 0000 {ITEM}",
        answer("01000000 00000000"),
        1,
    ),
    ("release", lambda it: item_of(it).release(), "0200 0000 01000000 00000000", DONE, None),
    (
        "dispids",
        lambda it: item_of(it).dispids("Cell", "k"),
        "0300 0000 01000000 00000000"
        + "00" * 32
        + (
            "00000000 02000000 04000000 00000000 430065006c006c00 01000000 00000000 6b00 "
            "000000000000"
        ),
        answer("02000000 00000000 09000000 01000000"),
        [9, 1],
    ),
    ("get", lambda it: item_of(it).Any, "0400 0000" + HEAD_OF(7), answer(SEVEN), I4(7)),
    (
        "put",
        lambda it: setattr(item_of(it), "count", 7),
        "0400 0000 01000000 01000000"
        + "00" * 32
        + "00000000 0400 0000 01000000 01000000 fdffffff 00000000"
        + SEVEN,
        DONE,
        None,
    ),
    (
        "get by a key",
        lambda it: item_of(it).Cell(5, Key="k"),
        "0400 0000" + CELL_HEAD + K + FIVE,
        answer(NO_VALUE),
        None,
    ),
    (
        "put by a key",
        lambda it: item_of(it).Cell.put("k", 5, Key="k"),
        "0400 0000 01000000 09000000"
        + "00" * 32
        + "00000000 0400 0000 03000000 02000000 fdffffff 01000000"
        + K
        + K
        + FIVE,
        DONE,
        None,
    ),
    (
        "put by places",
        lambda it: item_of(it).Cell.__setitem__((5, "k"), "k"),
        "0400 0000 01000000 09000000"
        + "00" * 32
        + "00000000 0400 0000 03000000 01000000 fdffffff 00000000"
        + K
        + K
        + FIVE,
        DONE,
        None,
    ),
    (
        "put the null text by places",
        lambda it: item_of(it).Cell.__setitem__((5, "k"), None),
        "0400 0000 01000000 09000000"
        + "00" * 32
        + "00000000 0400 0000 03000000 01000000 fdffffff 00000000"
        + "18000000 00000000"
        + NULL_TEXT.hex()
        + K
        + FIVE,
        DONE,
        None,
    ),
    (
        "get an element",
        lambda it: item_of(it).array("Grid")[0, 7],
        "0500 0000" + HEAD_OF(8) + "02000000 00000000 00000000 07000000",
        answer("16000000 00000000 03000000 00000000 0200 0000 0000 0000 02000000 0600 0000"),
        I2(6),
    ),
    (
        "get an element behind one index",
        lambda it: item_of(it).Grid[-1],
        "0500 0000" + HEAD_OF(8) + "01000000 00000000 ffffffff 00000000",
        answer("16000000 00000000 03000000 00000000 0200 0000 0000 0000 02000000 0600 0000"),
        I2(6),
    ),
    (
        "put an element",
        lambda it: item_of(it).Grid.__setitem__((-1, 5), 40_000),
        "0600 0000"
        + HEAD_OF(8)
        + "02000000 00000000 ffffffff 05000000"
        + SEVEN.replace("07000000", "409c0000"),
        DONE,
        None,
    ),
    (
        "redim",
        lambda it: item_of(it).Grid.redim(3, 10),
        "0700 0000" + HEAD_OF(8) + "03000000 0a000000",
        DONE,
        None,
    ),
    (
        "lock",
        lambda it: item_of(it).Grid.lock(),
        "0800 0000" + HEAD_OF(8),
        answer("01000000 00000000"),
        1,
    ),
    (
        "unlock",
        lambda it: item_of(it).Grid.unlock(),
        "0900 0000" + HEAD_OF(8),
        answer("00000000 00000000"),
        0,
    ),
    (
        "the objects",
        lambda it: [(one.number, one.coclass) for one in it.objects()],
        "0b00 0000",
        answer(f"02000000 00000000 02000000 00000000 {ITEM} 05000000 00000000 {ITEM}"),
        [(2, "Item"), (5, "Item")],
    ),
    ("no objects", lambda it: it.objects(), "0b00 0000", answer("00000000 00000000"), []),
    (
        "a null text",
        lambda it: item_of(it).Name,
        "0400 0000" + HEAD_OF(2),
        answer("18000000 00000000" + NULL_TEXT.hex()),
        None,
    ),
]


@contextlib.contextmanager
def library_of(body):
    """The file of a library with one coclass, whose interface has this body."""
    guid = "[uuid(11223344-5566-7788-99AA-BBCCDDEEFF0%d)] "
    text = (
        guid % 1
        + "library Demo { "
        + guid % 2
        + "dispinterface DItem { "
        + body
        + " } "
        + guid % 3
        + "coclass Item { [default] dispinterface DItem; } }"
    )
    with tempfile.NamedTemporaryFile("w", suffix=".idl") as file:
        file.write(text)
        file.flush()
        yield file.name


def play(library):
    return oaut.play(library, program=PROGRAM)


@contextlib.contextmanager
def wrapped(words):
    """A program that is the program under other words of a shell."""
    with tempfile.TemporaryDirectory() as room:
        with open(f"{room}/oaut", "w") as file:
            file.write(f'#!/bin/sh\n{words.format(program=PROGRAM)} "$@"\n')
        os.chmod(f"{room}/oaut", 0o755)
        yield f"{room}/oaut"
