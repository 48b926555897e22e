"""The client against the program, with objects in memory."""
import re
import struct
import subprocess
import sys
import tempfile
from decimal import Decimal

from oaut import (
    EMPTY,
    I1,
    I2,
    I4,
    I8,
    INT,
    NULL_BSTR,
    UI1,
    UI2,
    UI4,
    UI8,
    UINT,
    VT,
    Array,
    Currency,
    Field,
    SCode,
)
from tests.client.clients import (
    ARRAYS,
    ENVIRONMENT,
    FULL,
    HI,
    LIBRARY,
    PROGRAM,
    ROOT,
    TABLES,
    ClientCases,
    library_of,
    oaut,
    play,
)

TYPES = {
    "char": (I1(0), [-128, 127]),
    "unsigned char": (UI1(0), [255]),
    "short": (I2(0), [-32_768, 32_767]),
    "unsigned short": (UI2(0), [65_535]),
    "long": (I4(0), [-(2**31), 2**31 - 1]),
    "unsigned long": (UI4(0), [2**32 - 1]),
    "int": (INT(0), [-1]),
    "unsigned int": (UINT(0), [2**31]),
    "hyper": (I8(0), [-(2**63), 2**63 - 1]),
    "unsigned hyper": (UI8(0), [2**64 - 1]),
    "CURRENCY": (
        Currency(0),
        [Currency("2.5"), Currency.of_units(-(2**63)), Currency.of_units(2**63 - 1)],
    ),
    "VARIANT_BOOL": (False, [True, False]),
    "SCODE": (SCode(0), [SCode(0x8000_4005)]),
    "DECIMAL": (Decimal(0), [Decimal("-2.50"), Decimal(2**96 - 1), Decimal("1E-28")]),
    "BSTR": (None, ["Hi", "", "\U0001f600", "a\0b", b"abc", "a" * 131_072, None]),
    "VARIANT": (
        EMPTY,
        [
            None,
            "x",
            b"y",
            True,
            I1(-1),
            UI8(2**64 - 1),
            INT(5),
            Currency(1),
            Decimal("0.10"),
            SCode(5),
            NULL_BSTR,
            Array(I2, [(1, 5)], [7]),
            EMPTY,
        ],
    ),
}
CELLS = [
    ("Chars", I1, [-128, 127, 0, -1]),
    ("Bytes", UI1, [0, 255, 1, 2]),
    ("Grid", I2, [-32_768, 32_767, 0, -1]),
    ("Shorts", UI2, [0, 65_535, 1, 2]),
    ("Longs", I4, [-(2**31), 2**31 - 1, 0, -1]),
    ("Words", UI4, [0, 2**32 - 1, 1, 2]),
    ("Ints", INT, [-(2**31), 2**31 - 1, 0, -1]),
    ("Counts", UINT, [0, 2**32 - 1, 1, 2]),
    ("Hypers", I8, [-(2**63), 2**63 - 1, 0, -1]),
    ("Numbers", UI8, [0, 2**64 - 1, 1, 2]),
    ("Prices", Currency, [Currency("-2.5"), Currency("2.5"), Currency(0), Currency(1)]),
    ("Flags", bool, [True, False, False, True]),
    ("Names", str, [None, "", "Hi", b"A\0B"]),
    ("Values", object, [EMPTY, None, Decimal("1.0"), "k"]),
]


class Program(ClientCases):
    def test_types(self):
        with open(f"{TABLES}/variants.txt") as file:
            foreign = [
                [bytes.fromhex(it) for it in line.split()]
                for line in file
                if not line.startswith("#")
            ]
        with library_of(
            "properties: "
            + " ".join(f"[id({it})] {word} P{it};" for it, word in enumerate(TYPES, 1))
        ) as library, play(library) as server:
            item = server.create("Item")
            for place, (word, (zero, values)) in enumerate(TYPES.items(), 1):
                self.same(f"a {word} that was never put", getattr(item, f"P{place}"), zero)
                for value in values:
                    setattr(item, f"P{place}", value)
                    kept = (
                        type(zero)(value)
                        if isinstance(zero, int) and type(zero) is not bool
                        else value
                    )
                    self.same(f"a {word}", getattr(item, f"P{place}"), kept)
            for given, canonical in foreign:
                item.P16 = Field(given)
                got = server.ask(oaut.ask_invoke(item.number, 16, oaut.PROPERTYGET, (), ()), bytes)
                if got != oaut.variant_field(canonical):
                    self.tell(
                        "the program's spelling of a field of another implementation",
                        False,
                        given.hex(),
                    )
            self.tell("the program's spellings of fields of another implementation", True)

    def test_arrays(self):
        with play(ARRAYS) as server:
            item = server.create("Sheet")
            for name, of, cells in CELLS:
                array = Array(of, [(2, -1), (2, 5)], cells)
                self.same(
                    f"an array of {of.__name__} that was never put",
                    getattr(item, name).value,
                    Array(of, [(0, 0)]),
                )
                setattr(item, name, array)
                self.same(f"an array of {of.__name__}", getattr(item, name).value, array)
                setattr(item, name, [cells[:2], cells[2:]])
                self.same(
                    f"lists as an array of {of.__name__}",
                    [getattr(item, name).bounds, list(getattr(item, name))],
                    [[(2, 0), (2, 0)], [cells[:2], cells[2:]]],
                )
                item.Any = array
                self.same(f"an array of {of.__name__} in a VARIANT", item.Any, array)
            item.Any = [1, "x"]
            self.same("a list in a VARIANT", item.Any, Array(object, [(2, 0)], [I4(1), "x"]))
            item.Longs = item.Longs
            item.Longs = range(65_536)
            self.same("65,536 cells", item.Longs.value.cells, list(range(65_536)))
            self.raises(
                "an array of another type",
                oaut.TypeMismatch,
                lambda: setattr(item, "Grid", Array(I4, [(1, 0)], [1])),
                index=0,
                argument="the new value",
            )
            self.raises("no array", oaut.TypeMismatch, lambda: setattr(item, "Grid", 7), index=0)

    def test_objects(self):
        with play(FULL) as server:
            item = server.create("Item")
            self.same(
                "an object",
                [
                    item.number,
                    item.coclass,
                    repr(item),
                    item == server.object(1, "item"),
                    item == server.create("Item"),
                ],
                [1, "Item", "<Item 1>", True, False],
            )
            item.Count = 7
            self.same("a property in any case", [item.count, item.COUNT], [I4(7), I4(7)])
            self.same("DISPIDs", item.dispids("cELL", "KEY", "page"), [9, 1, 2])
            unknown = self.raises(
                "DISPIDs of a name that is not known",
                oaut.UnknownName,
                lambda: item.dispids("Cell", "none"),
            )
            self.same("its fields", oaut.read_ids(unknown.fields), [9, -1])

    def test_refusals(self):
        with play(FULL) as server:
            item = server.create("Item")
            item.Count = 7
            self.raises("a method", oaut.NotImplementedHere, lambda: item.Clear())
            try:
                item.Clear()
            except NotImplementedError:
                self.tell("a method raises NotImplementedError", True)
            self.raises(
                "a read-only property", oaut.MemberNotFound, lambda: setattr(item, "Version", 1)
            )
            self.raises(
                "a text for a number",
                oaut.TypeMismatch,
                lambda: setattr(item, "Count", "7"),
                index=0,
                argument="the new value",
            )
            bad_type = struct.pack("<IIHHHHIId", 4, 0, 5, 0, 0, 0, 5, 0, 0.5)
            self.raises(
                "the program's DISP_E_BADVARTYPE",
                oaut.BadVarType,
                lambda: setattr(item, "Any", Field(bad_type)),
                index=0,
            )
            self.raises(
                "the program's bad stub data of a field",
                oaut.BadStub,
                lambda: setattr(item, "Any", Field(HI[:-1])),
            )
            item = server.create("Item")
            self.same(
                "a refused request left no trace",
                [item.Count, server.object(1, "Item").Count],
                [I4(0), I4(7)],
            )

    def test_requests_that_are_refused(self):
        with play(FULL) as server:
            server.create("Item")
            # what no attribute asks for, and its code
            wrong_riid = bytearray(oaut.ask_invoke(1, 1, 2, (), ()))
            wrong_riid[28] = 1
            item_guid = LIBRARY.coclasses[0].guid
            for kind, request in (
                (oaut.BadStub, struct.pack("<HH", 99, 0)),
                (oaut.BadStub, oaut.ask_create(item_guid) + b"\0"),
                (oaut.ClassNotRegistered, oaut.ask_create(LIBRARY.interfaces[0].guid)),
                (oaut.Disconnected, oaut.ask_invoke(9, 1, 2, (), ())),
                (oaut.BadIndex, oaut.ask_type_info(2)),
                (oaut.NoInterface, oaut.ask_invoke(1, 1, 2, (), (), item_guid.bytes_le)),
                (oaut.UnknownInterface, bytes(wrong_riid)),
                (oaut.MemberNotFound, oaut.ask_invoke(1, 99, 2, (), ())),
                (oaut.InvalidArg, oaut.ask_invoke(1, 1, 4, (), (oaut.spell(7),))),
                (oaut.BadParamCount, oaut.ask_invoke(1, 1, 2, (), (oaut.spell(7),))),
            ):
                self.raises(
                    f"the program's {kind.name}",
                    kind,
                    lambda: server.ask(request, bytes),
                    code=kind.code,
                )

    def test_batches(self):
        with play(FULL) as server:
            item = server.create("Item")
            with server.batch() as batch:
                laters = []
                for number in range(3_000):
                    item.Count = number
                    laters.append(item.Count)
            self.same(
                "gets of a batch see the puts before them",
                [it.value for it in laters] == list(range(3_000)),
                True,
            )
            self.same("no failures", batch.failures, [])
            with server.batch(5):
                made = [server.create("Item") for _ in range(12)]
                self.raises(
                    "an answer before the batch was sent", RuntimeError, lambda: made[-1].value
                )
            self.same(
                "creates in a batch",
                [it.value.number for it in made],
                list(range(made[0].value.number, made[0].value.number + 12)),
            )

    def test_refusals_in_a_batch(self):
        with play(FULL) as server:
            item = server.create("Item")
            try:
                with server.batch(4) as batch:
                    item.Count = 1
                    item.Count = "x"
                    item.Name = "y"
                    item.Flag = "z"
                    item.Count = "last"
                    bad = server.ask(oaut.ask_invoke(item.number, 99, 2, (), ()), oaut.read_value)
                self.tell("a batch with refusals", False, "no exception")
            except oaut.TypeMismatch:
                self.same(
                    "a batch with refusals",
                    [(place, type(it)) for place, it in batch.failures],
                    [
                        (1, oaut.TypeMismatch),
                        (3, oaut.TypeMismatch),
                        (4, oaut.TypeMismatch),
                        (5, oaut.MemberNotFound),
                    ],
                )
                self.raises("a refused get of a batch", oaut.MemberNotFound, lambda: bad.value)
            self.same("the others of the batch", [item.Count, item.Name], [I4(1), "y"])
            try:
                with server.batch():
                    item.Count = 9
                    raise KeyError("own")
            except KeyError:
                self.same("a block that raises sends nothing", item.Count, I4(1))

    def test_large_batches(self):
        with play(FULL) as server:
            item = server.create("Item")
            laters = []
            # 24 MB each way, far above what a pipe holds, while both sides write
            with server.batch():
                for number in range(48):
                    item.Name = chr(97 + number % 26) * 131_072
                    laters.append(item.Name)
            self.same(
                "large texts in a batch",
                [laters[-48 + it].value == chr(97 + it % 26) * 131_072 for it in range(48)],
                [True] * 48,
            )

    def test_the_trace(self):
        with play(FULL) as server:
            item = server.create("Item")
            traced = []
            server.trace = lambda side, body: traced.append((side, len(body)))
            item.Count
            self.same("the trace", traced, [(">", 64), ("<", 48)])

    def test_rows(self):
        with play(FULL) as server:
            for number in range(3):
                item = server.create("Item")
                item.Count = number
                item.Grid = [[1, 2], [3, 4]]
            rows = server.to_rows("item", "count", "Name", "Grid", "Any")
            self.same(
                "rows",
                rows[2],
                {"number": 3, "Count": 2, "Name": None, "Grid": [[1, 2], [3, 4]], "Any": None},
            )
            self.same("plain numbers", [type(it["Count"]) for it in rows], [int] * 3)
            self.same(
                "all columns",
                list(server.to_rows("Item")[0]),
                "number Count Name Price Exact Flag Version Any Grid".split(),
            )
            self.raises(
                "no such column",
                AttributeError,
                lambda: server.to_rows("Item", "Cuont"),
                "Item has no member Cuont: did you mean Count?",
            )
            shown = item._repr_html_()
            self.tell(
                "an object in a notebook",
                "<caption>&lt;Item 3&gt;</caption>" in shown
                and "<td>Version</td><td>I4(0)</td><td>long readonly</td>" in shown,
                shown,
            )
            try:
                import pandas
            except ImportError:
                print("pandas is not there: no table of it")
            else:
                self.same(
                    "a table of pandas",
                    [int(it) for it in pandas.DataFrame(rows)["Count"]],
                    [0, 1, 2],
                )

    def test_a_library_to_start_from(self):
        """Two texts of `python3 -m oaut new`: libraries that are served, with GUIDs of their
        own."""
        guids = []
        for name in ("Sheet", "x" * 57):
            told = subprocess.run(
                [sys.executable, "-m", "oaut", "new", name],
                env=ENVIRONMENT,
                capture_output=True,
                text=True,
            )
            self.same(f"new {name} ends well", (told.returncode, told.stderr), (0, ""))
            with tempfile.NamedTemporaryFile("w", suffix=".idl") as file:
                file.write(told.stdout)
                file.flush()
                with oaut.play(file.name, program=PROGRAM) as server:
                    item = server.create(name)
                    item.Cell[1, "a"], item.Numbers = "x", [1, 2]
                    self.same(
                        f"an object of {name}",
                        (item.Cell[1, "a"], list(item.Numbers)),
                        ("x", [I4(1), I4(2)]),
                    )
            guids += re.findall(r"uuid\(([0-9a-f-]{36})\)", told.stdout)
        self.same("GUIDs of their own", (len(guids), len({*guids})), (6, 6))
        for name in ("", "long", "a b", "1x", "x" * 58):
            told = subprocess.run(
                [sys.executable, "-m", "oaut", "new", name],
                env=ENVIRONMENT,
                capture_output=True,
                text=True,
            )
            self.tell(
                f"new {name!r} is refused",
                (told.returncode, told.stdout) == (1, "")
                and "cannot name a coclass" in told.stderr,
                told,
            )

    def test_many_interfaces(self):
        with tempfile.NamedTemporaryFile("w", suffix=".idl") as file:
            file.write("[uuid(11223344-5566-7788-99AA-BBCCDDEEFF00)] library Many {")
            for place in range(1, 41):
                file.write(
                    f" [uuid(11223344-5566-7788-99AA-BBCCDDEEFF{place:02x})] dispinterface "
                    f"Part{place} {{ properties: [id({place})] long Count; }}"
                )
            entries = " ".join(
                f"{'[default]' if place == 3 else ''} dispinterface Part{place};"
                for place in range(1, 41)
            )
            file.write(
                f" [uuid(11223344-5566-7788-99AA-BBCCDDEEFFFF)] coclass Item {{ {entries} }} }}"
            )
            file.flush()
            with play(file.name) as server:
                self.same(
                    "41 descriptions",
                    [len(server.library.interfaces), len(server.library.coclasses)],
                    [40, 1],
                )
                item = server.create("Item")
                item.Count = 3
                item.interface("pART40").Count = 40
                self.same(
                    "a property of each interface",
                    [
                        it.Count
                        for it in (
                            item,
                            item.interface("Part3"),
                            item.interface("Part40"),
                            item.interface("Part1"),
                        )
                    ],
                    [3, 3, 40, 0],
                )
                self.raises("no such interface", LookupError, lambda: item.interface("Part41"))

    def test_objects_run_out(self):
        with play(f"{ROOT}/examples/small.idl") as server:
            try:
                with server.batch():
                    for _ in range(65_537):
                        server.create("Item")
                self.tell("65,537 objects", False, "no exception")
            except oaut.Unexpected as refusal:
                self.same(
                    "65,537 objects",
                    refusal.hint,
                    "65,536 objects are live, which is the limit, or all numbers are used up: "
                    "release some",
                )

    def test_conversion(self):
        with play(FULL) as server:
            item = server.create("Item")
            for given, kept in (
                (Currency("2.5"), 2),
                (Currency("3.5"), 4),
                (Currency("-2.5"), -2),
                (I8(7), 7),
                (EMPTY, 0),
                (True, -1),
            ):
                item.Count = given
                self.same(f"{given!r} as a long", item.Count, I4(kept))
            item.Count = 6
            self.raises(
                "a number too large",
                oaut.Overflow,
                lambda: setattr(item, "Count", 2**31),
                index=0,
                argument="the new value",
            )
            self.same("the value stays", item.Count, I4(6))
            item.Flag = 3
            self.same("a number as a BOOL", item.Flag, True)

    def test_parameters(self):
        with play(FULL) as server:
            item = server.create("Item")
            item.Cell.put("x", Row=5, Key="k")
            self.same(
                "a cell by its key",
                [
                    item.Cell[5, "k"],
                    item.Cell(5, Key="k"),
                    item.Cell(5, "k", 1),
                    item.Cell(Key="k", Row=5, Page=1),
                ],
                ["x"] * 4,
            )
            self.same(
                "a cell by another key", [item.Cell[5, "K"], item.Cell(5, "k", 2)], [None, None]
            )
            item.Cell[5, "k"] = "y"
            self.same("a cell that was put again", item.Cell(5, Key="k", Page=oaut.MISSING), "y")
            self.raises("no arguments", oaut.ParamNotOptional, lambda: item.Cell())
            self.raises("arguments too many", oaut.BadParamCount, lambda: item.Cell(5, "k", 1, 1))
            self.raises(
                "a text for a row",
                oaut.TypeMismatch,
                lambda: item.Cell("a", "k"),
                index=1,
                argument="Row",
            )
            self.raises(
                "a text for a row by its name",
                oaut.TypeMismatch,
                lambda: item.Cell(Row="a", Key="k"),
                index=0,
                argument="Row",
            )
            self.raises(
                "a row too large",
                oaut.Overflow,
                lambda: item.Cell(2**31, "k"),
                index=1,
                argument="Row",
            )
            request = oaut.ask_invoke(
                1, 9, 2, (7,), (oaut.spell("k"), oaut.spell("k"), oaut.spell(5))
            )
            self.raises(
                "a parameter that is none",
                oaut.ParamNotFound,
                lambda: server.ask(request, bytes),
                index=0,
            )

    def test_elements(self):
        with play(FULL) as server:
            item = server.create("Item")
            item.Grid = Array(I2, [(2, -1), (3, 5)], range(1, 7))
            self.same("elements", [item.Grid[-1, 5], item.Grid[0, 7]], [I2(1), I2(6)])
            self.raises("an index outside", oaut.BadIndex, lambda: item.Grid[1, 7])
            self.raises("an index too few", oaut.BadIndex, lambda: item.Grid.__setitem__(0, 1))
            self.raises("an element of no array", oaut.TypeMismatch, lambda: item.array("Count")[0])
            item.Grid[0, 7] = 60
            self.same("a put element", list(item.Grid), [[1, 2, 3], [4, 5, 60]])
            self.raises(
                "an element too large",
                oaut.Overflow,
                lambda: item.Grid.__setitem__((0, 7), 40_000),
                index=None,
            )
            item.Any = [1, "x"]
            item.array("Any")[1] = "y"
            self.same(
                "elements in a VARIANT", [item.array("Any")[0], item.array("Any")[1]], [I4(1), "y"]
            )
            with server.batch():
                later = item.Grid[0, 5]
                item.Grid[0, 5] = 40
            self.same("elements in a batch", [later.value, item.Grid[0, 5]], [I2(4), I2(40)])

    def test_redimensions_and_locks(self):
        with play(FULL) as server:
            item = server.create("Item")
            item.Grid = Array(I2, [(2, -1), (3, 5)], range(1, 7))
            item.Grid.redim(3, 10)
            self.same(
                "a redimension",
                item.Grid.value,
                Array(I2, [(3, 10), (3, 5)], [1, 2, 3, 4, 5, 6, 0, 0, 0]),
            )
            self.raises("a redimension too large", oaut.InvalidArg, lambda: item.Grid.redim(65_536))
            self.same("locks", [item.Grid.lock(), item.Grid.lock(), item.Grid.unlock()], [1, 2, 1])
            self.raises(
                "a put over a locked array", oaut.ArrayIsLocked, lambda: setattr(item, "Grid", [1])
            )
            self.same("the last lock", item.Grid.unlock(), 0)
            self.raises("no lock is left", oaut.Unexpected, lambda: item.Grid.unlock())

    def test_an_object_that_was_released(self):
        with play(FULL) as server:
            item = server.create("Item")
            self.same(
                "the live objects",
                [(it.number, it.coclass) for it in server.objects()],
                [(1, "Item")],
            )
            item.release()
            self.raises("an object that was released", oaut.Disconnected, lambda: item.Count)
            self.same("numbers are not used again", server.create("Item").number, 2)

    def test_the_raw_stream(self):
        with oaut.play(FULL, program=PROGRAM, framing="raw") as server:
            item = server.create("Item")
            with server.batch():
                item.Name = "a" * 131_072
                laters = [item.Name for _ in range(20)]
            self.same(
                "a session over the raw stream", [it.value for it in laters], ["a" * 131_072] * 20
            )
