"""What the client's faults say, and what of Python works on its objects, over streams that are
given."""
import copy
import pickle
import struct
import tempfile

from oaut import I2, Array
from tests.client.clients import (
    DONE,
    LIBRARY,
    SEVEN,
    ClientCases,
    Kept,
    answer,
    hexed,
    item_of,
    oaut,
    scripted,
)

MISMATCH, NOT_FOUND, OVERFLOW, FULL_UP = 0x8002_0005, 0x8002_0003, 0x8002_000A, 0x8003_0070
FULL_SAYS = (
    "the objects are at most the size of a store's bank less 5,242,880 bytes, in memory "
    "15,728,640: release some, or restore a dump of the store with a larger --bank"
)
GRID = Array(I2, [(2, -1), (3, 5)], range(1, 7))
ARRAY = oaut.variant_field(GRID.spelled()).hex()
LONG = "DISP_E_TYPEMISMATCH (0x80020005)"
# of each act, the reply's code and index, and what the refusal says
TOLD = [
    (
        lambda it: setattr(it, "Count", "x"),
        MISMATCH,
        0,
        f"put Item.Count = 'x': {LONG}, argument 0 (the new value)",
    ),
    (lambda it: setattr(it, "COUNT", 7), MISMATCH, None, f"put Item.Count = 7: {LONG}"),
    (
        lambda it: setattr(it, "Version", 1),
        NOT_FOUND,
        None,
        "put Item.Version = 1: DISP_E_MEMBERNOTFOUND (0x80020003): the property is read-only",
    ),
    (lambda it: it.Count, NOT_FOUND, None, "get Item.Count: DISP_E_MEMBERNOTFOUND (0x80020003)"),
    (
        lambda it: it.Cell[5],
        0x8002_000F,
        None,
        (
            "get Item.Cell(5): DISP_E_PARAMNOTOPTIONAL (0x8002000f): its parameters: Row, Key, "
            "Page (may be left out)"
        ),
    ),
    (
        lambda it: it.Cell(1, "k", 1, 4),
        0x8002_000E,
        None,
        (
            "get Item.Cell(1, 'k', 1, 4): DISP_E_BADPARAMCOUNT (0x8002000e): its parameters: Row, "
            "Key, Page (may be left out)"
        ),
    ),
    (
        lambda it: it.Cell(5, Key="k"),
        MISMATCH,
        1,
        f"get Item.Cell(5, Key='k'): {LONG}, argument 1 (Row)",
    ),
    (
        lambda it: it.Cell.put(True, 5, "k"),
        MISMATCH,
        0,
        f"put Item.Cell(5, 'k') = true: {LONG}, argument 0 (the new value)",
    ),
    (
        lambda it: it.Grid[0, 7],
        0x8002_000B,
        None,
        "get Item.Grid[0, 7]: DISP_E_BADINDEX (0x8002000b)",
    ),
    (
        lambda it: it.Grid.__setitem__((0, 7), 40_000),
        OVERFLOW,
        None,
        "put Item.Grid[0, 7] = 40000: DISP_E_OVERFLOW (0x8002000a)",
    ),
    (
        lambda it: it.Grid.redim(3, 10),
        0x8002_000D,
        None,
        "redim Item.Grid to 3 from 10: DISP_E_ARRAYISLOCKED (0x8002000d)",
    ),
    (
        lambda it: it.Grid.lock(),
        0x8000_FFFF,
        None,
        (
            "lock Item.Grid: E_UNEXPECTED (0x8000ffff): it was never put, or has 65,535 locks, "
            "which is the limit: put an array, or unlock it"
        ),
    ),
    (lambda it: it.Clear(), 0x8000_4001, None, "call Item.Clear(): E_NOTIMPL (0x80004001)"),
    (
        lambda it: it.release(),
        0x8001_0108,
        None,
        "release <Item 1>: RPC_E_DISCONNECTED (0x80010108)",
    ),
    (
        lambda it: it.dispids("Cell", "none"),
        0x8002_0006,
        None,
        "look up Cell, none of Item: DISP_E_UNKNOWNNAME (0x80020006)",
    ),
    (
        lambda it: setattr(it, "Name", "a" * 70),
        FULL_UP,
        None,
        f"put Item.Name = '{'a' * 30}'.. (70): STG_E_MEDIUMFULL (0x80030070): {FULL_SAYS}",
    ),
    (
        lambda it: setattr(it, "Any", range(100)),
        MISMATCH,
        0,
        f"put Item.Any = range of 100: {LONG}, argument 0 (the new value)",
    ),
]
# of each act that sends nothing, the exception and what it says
UNSENT = [
    (
        lambda it: setattr(it, "Count", 0.5),
        TypeError,
        (
            "put Item.Count = 0.5: there are no floating-point numbers: give oaut.real(0.5), a "
            "Currency or a whole number"
        ),
    ),
    (
        lambda it: setattr(it, "Grid", [40_000]),
        OverflowError,
        "put Item.Grid = [40000]: a cell is out of the range of I2",
    ),
    (
        lambda it: it.Cell(0.5, "k"),
        TypeError,
        (
            "get Item.Cell(0.5, 'k'): there are no floating-point numbers: give oaut.real(0.5), a "
            "Currency or a whole number"
        ),
    ),
    (
        lambda it: it.Cell(Rwo=1),
        TypeError,
        "get Item.Cell(Rwo=1): Cell has no parameter Rwo: did you mean Row?",
    ),
    (lambda it: it.Grid["a"], TypeError, "an index is a whole number, not 'a'"),
    (lambda it: it.Grid[2**31], IndexError, "2147483648 is no index: an index has 32 bits"),
    (lambda it: it.Grid[0, 1:2], TypeError, "a slice is the only index, and cannot be put"),
    (
        lambda it: it.Grid.__setitem__(slice(0, 1), [1]),
        TypeError,
        "a slice is the only index, and cannot be put",
    ),
    (
        lambda it: it.Grid.redim(-1),
        ValueError,
        "a count is below 2^32, and a lowest index has 32 signed bits",
    ),
    (
        lambda it: it._server.object(2**32, "Item"),
        ValueError,
        "4294967296 is no object's number: these have 32 bits",
    ),
    (
        lambda it: pickle.dumps(it),
        TypeError,
        "<Item 1> belongs to its session and cannot be pickled: keep its number, 1",
    ),
]
# the descriptions of an interface with one property, and of its coclass
SMALL = [
    struct.pack("<II", 4, 1)
    + LIBRARY.interfaces[0].guid.bytes_le
    + oaut.string_field("DItem")
    + struct.pack("<iHHHHI", 1, 0, 0, 3, 0, 0)
    + oaut.string_field("Count"),
    struct.pack("<II", 5, 1)
    + LIBRARY.coclasses[0].guid.bytes_le
    + oaut.string_field("Item")
    + struct.pack("<II", 1, 0),
]


def refused_second(framing):
    """The bytes of the second of three replies, and of a refusal in its place."""
    head = struct.pack("<I", 2)
    pack = oaut.framing.FRAMINGS[framing].pack
    return pack([head + oaut.records.DONE]), pack([head + struct.pack("<III", MISMATCH, 0, 0)])


class Faults(ClientCases):
    def test_refusals_name_what_was_asked(self):
        for act, code, index, says in TOLD:
            self.raises(
                says,
                oaut.CODES[code],
                lambda: act(
                    item_of(
                        scripted(answer(code=code, index=oaut.NO_INDEX if index is None else index))
                    )
                ),
                says,
            )
        refusal = self.raises(
            "a create",
            oaut.ClassNotRegistered,
            lambda: scripted(answer(code=0x8004_0154)).create("Item"),
            "create Item: REGDB_E_CLASSNOTREG (0x80040154)",
        )
        self.same("its act", (refusal.act, refusal.hint), ("create Item", ""))

    def test_in_a_batch(self):
        server = scripted(DONE, answer(code=MISMATCH, index=0))
        try:
            with server.batch() as batch:
                item_of(server).Count = 1
                item_of(server).Count = "x"
            self.tell("a batch with a refusal", False)
        except oaut.TypeMismatch as refusal:
            self.same(
                "a refusal of a batch", (str(refusal), batch.failures), (TOLD[0][3], [(1, refusal)])
            )

    def test_each_byte_of_replies_to_a_batch(self):
        """Of puts alone, whose replies are known beforehand: what differs in length, tag or code is
        no success."""
        for framing in ("raw", "lines"):
            tags = [struct.pack("<I", it) for it in (1, 2, 3)]
            stream = oaut.framing.FRAMINGS[framing].pack([it + oaut.records.DONE for it in tags])
            width = len(stream) // 3

            def outcome(given):
                server = oaut.connect(reader=Kept(given), writer=Kept(), group=1, framing=framing)
                server.described = LIBRARY
                item = item_of(server)
                try:
                    with server.batch() as batch:
                        item.Count, item.Count, item.Count = 5, 6, 7
                except oaut.Refused as refusal:
                    return [at for at, _ in batch.failures], refusal.code
                except oaut.Error as fault:
                    return type(fault).__name__
                return "done"

            self.same(f"{framing}: the replies as they are", outcome(stream), "done")
            passed = set()
            for at in range(len(stream)):
                spoiled = bytearray(stream)
                spoiled[at] ^= 4
                if outcome(bytes(spoiled)) == "done":
                    passed.add(at % width)
            # (a reply's argument and the reserved number have no meaning if it is no refusal)
            free = range(12, 20) if framing == "raw" else range(16, 32)
            self.tell(f"{framing}: bytes that may differ", passed <= {*free}, sorted(passed))
            self.same(
                f"{framing}: the second is refused",
                outcome(stream.replace(*refused_second(framing))),
                ([1], MISMATCH),
            )

    def test_what_is_not_sent_names_it_too(self):
        for act, kind, says in UNSENT:
            server = scripted()
            self.raises(says, kind, lambda: act(item_of(server)), says)
            self.same(f"{says}: nothing was sent", server._connection.writer.getvalue(), b"")
        says = "put Item.Any = list of 16: a request has at most "
        error = self.raises(
            "a body too long",
            ValueError,
            lambda: setattr(item_of(scripted()), "Any", ["a" * (oaut.TEXT_LIMIT // 2)] * 16),
        )
        self.same("a body too long", str(error)[: len(says)], says)

    def test_arrays_as_sequences(self):
        whole = [[1, 2, 3], [4, 5, 6]]
        for name, act, wanted in (
            ("its length", len, 2),
            ("as a list", list, whole),
            ("all of it", lambda it: it[:], whole),
            ("a part", lambda it: it[0:5], whole[1:]),
            ("another part", lambda it: it[-5:0], whole[:1]),
            ("a part with a step", lambda it: it[::2], whole[::2]),
            ("nothing of it", lambda it: it[7:9], []),
            ("a cell in it", lambda it: [4, 5, 6] in it, True),
        ):
            self.same(
                f"the array in a property: {name}",
                act(item_of(scripted(answer(ARRAY), answer(ARRAY))).Grid),
                wanted,
            )
            self.same(f"an array by itself: {name}", act(GRID), wanted)
        self.raises("a step back", ValueError, lambda: GRID[::-1])
        self.raises(
            "no array there",
            TypeError,
            lambda: len(item_of(scripted(answer(SEVEN))).array("Any")),
            "get Item.Any: it holds I4(7), no array",
        )
        batched = scripted(answer(ARRAY))
        with batched.batch():
            self.raises("a length in a batch", RuntimeError, lambda: len(item_of(batched).Grid))

    def test_copies(self):
        item = item_of(scripted())
        for name, made in (
            ("a copy", copy.copy(item)),
            ("a deep copy", copy.deepcopy(item)),
            ("in a list", copy.deepcopy([item])[0]),
        ):
            self.same(
                f"{name} is the same object",
                (made == item, made is item, made.number, repr(made)),
                (True, False, 1, "<Item 1>"),
            )
        self.same(
            "a copied array",
            (
                copy.copy(GRID) == GRID,
                copy.deepcopy(GRID) == GRID,
                pickle.loads(pickle.dumps(GRID)) == GRID,
            ),
            (True, True, True),
        )
        self.same("a copied property", repr(copy.copy(item.Cell)), "<property Cell of <Item 1>>")
        for value in (I2(5), oaut.Currency("2.5"), oaut.EMPTY, oaut.NULL_BSTR, oaut.SCode(5)):
            self.same(f"a copied {value!r}", copy.deepcopy(value), value)


class Replacing(ClientCases):
    def test_exceptions_of_another_process(self):
        """multiprocessing passes them on by pickle: they say the same, and have the same
        attributes."""
        faults = oaut.faults
        refusal = oaut.BadIndex(1, "Row", b"xy", None, "get Item.Cell(5)", "its bounds")
        lost = oaut.IncompatibleLibrary(
            oaut.InvalidArg(None, None, b"", None, "replace"),
            LIBRARY.interfaces[0].guid,
            9,
            "Item.Cell of DItem, DISPID 9",
        )
        stopped = oaut.SessionEnded(
            "it has ended", "oaut: cannot write x", -9, "No space left on device"
        )
        stopped.may_stand = True
        given = [
            refusal,
            lost,
            stopped,
            oaut.NotSent(5, "5 requests of a batch were not sent"),
            oaut.SessionInUse("another process", 7),
        ]
        given += [
            faults.ProtocolError("a type", True),
            oaut.TimedOut("no answer"),
            faults.NoSuchFile("/none"),
            faults.ProgramNotFound("there is no program"),
        ]
        given += [
            faults.NoTls("no TLS"),
            oaut.OutOfMemory(None, None, b"", None, "create Item"),
            oaut.Unusable("no store"),
            oaut.ReplayDiffers("another request"),
        ]
        place = "/x.idl", 1, 2, "] x\n ^"
        given += [
            faults.LibraryRefused("oaut: syntax at byte 1", 2, place, "note: a word"),
            faults.LibraryNotTaken(refusal, "oaut: limit", place),
        ]
        for wanted in given:
            for name, got in (
                ("pickled", pickle.loads(pickle.dumps(wanted))),
                ("copied", copy.copy(wanted)),
            ):
                told = lambda it: (
                    type(it),
                    str(it),
                    it.args,
                    vars(it),
                    [getattr(it, of, None) for of in ("errno", "strerror", "filename")],
                )
                self.same(f"{type(wanted).__name__}, {name}", told(got), told(wanted))

    def test_a_library_that_is_replaced(self):
        with tempfile.TemporaryDirectory() as room:
            path = f"{room}/new.idl"
            with open(path, "wb") as file:
                file.write(b"a new library")
            told = [
                DONE,
                *[answer(it.hex()) for it in SMALL],
                *[answer(code=oaut.BadIndex.code)] * 14,
                DONE,
            ]
            server = scripted(*told)
            item = item_of(server)
            self.same("a member of the old library", "Cell" in dir(item), True)
            server.replace_library(path)
            sent = hexed("01000000 0c00 0000 0d000000 00000000") + b"a new library\0\0\0"
            self.same(
                "what is sent",
                server._connection.writer.getvalue().splitlines()[0],
                sent.hex().encode(),
            )
            self.raises("a member that the new library has not", AttributeError, lambda: item.Cell)
            item.count = 7
            self.same(
                "the library now", [it.name for it in server.library.interfaces[0].forms], ["Count"]
            )

    def test_what_is_not_kept(self):
        face, class_ = LIBRARY.interfaces[0].guid, LIBRARY.coclasses[0].guid
        with tempfile.NamedTemporaryFile() as file:
            for guid, dispid, lost in (
                (face, 9, "Item.Cell of DItem, DISPID 9"),
                (face, -1, "the interface DItem"),
                (class_, -1, "the coclass Item"),
            ):
                server = scripted(
                    answer(
                        guid.bytes_le.hex() + struct.pack("<iI", dispid, 0).hex(), code=0x8007_0057
                    )
                )
                says = (
                    f"replace the library by {file.name}: E_INVALIDARG (0x80070057): the new "
                    f"library does not keep {lost}"
                )
                self.raises(
                    lost,
                    oaut.IncompatibleLibrary,
                    lambda: server.replace_library(file.name),
                    says,
                    guid=guid,
                    dispid=None if dispid == -1 else dispid,
                    lost=lost,
                )
                self.same(f"{lost}: the library stays", server.library is LIBRARY, True)
            self.tell(
                "it is an InvalidArg and a ValueError",
                issubclass(oaut.IncompatibleLibrary, oaut.InvalidArg)
                and issubclass(oaut.IncompatibleLibrary, ValueError),
            )
            server = scripted(answer(code=0x8007_06F7))
            says = (
                f"replace the library by {file.name}: bad stub data (0x800706f7): the text is no "
                "library, or the server does not know this request"
            )
            self.raises(
                "a text that is no library",
                oaut.BadStub,
                lambda: server.replace_library(file.name),
                says,
            )
            server = scripted()
            with server.batch():
                self.raises("in a batch", RuntimeError, lambda: server.replace_library(file.name))
        self.raises(
            "a file that is not there",
            FileNotFoundError,
            lambda: scripted().replace_library("/none.idl"),
        )
