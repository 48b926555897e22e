"""What a programmer tries first and once got wrong without a word: comparisons, values of a batch,
objects that are created in one, rows over objects that go, the name of the base of exceptions."""
import asyncio
import tempfile
import warnings

from oaut import I2, I4, Array, aio
from tests.client.clients import FULL, PROGRAM, ClientCases, oaut, play
from tests.support.running import text_of

LATER = oaut.Later.not_a_value if hasattr(oaut.Later, "not_a_value") else ""


class Surprises(ClientCases):
    def test_an_array_is_compared_by_its_values(self):
        with play(FULL) as server:
            item, other = server.create("Item"), server.create("Item")
            item.Grid = other.Grid = [[1, 2, 3], [4, 5, 6]]
            self.same(
                "with lists",
                (
                    item.Grid == [[1, 2, 3], [4, 5, 6]],
                    item.Grid == [[1, 2, 3], [4, 5, 7]],
                    item.Grid != [[1, 2]],
                ),
                (True, False, True),
            )
            self.same("with another object's", item.Grid == other.Grid, True)
            self.same(
                "with an array",
                (item.Grid == item.Grid.value, item.Grid.value == ((1, 2, 3), (4, 5, 6))),
                (True, True),
            )
            other.Grid = Array(I2, [(2, 1), (3, 0)], range(1, 7))
            self.same(
                "with other lowest indices",
                (item.Grid == other.Grid, item.Grid == list(other.Grid)),
                (False, True),
            )
            self.same("with what is no array", item.Grid == 7, False)

    def test_an_index_that_is_none_names_the_bounds(self):
        with play(FULL) as server:
            item = server.create("Item")
            item.Grid = Array(I2, [(2, -1), (3, 5)], range(6))
            bounds = "2 bounds, -1 to 0 and 5 to 7"
            self.raises(
                "a get",
                oaut.BadIndex,
                lambda: item.Grid[1],
                f"get Item.Grid[1]: DISP_E_BADINDEX (0x8002000b): 1 index for {bounds}",
            )
            self.raises(
                "too many",
                oaut.BadIndex,
                lambda: item.Grid[0, 5, 0],
                f"get Item.Grid[0, 5, 0]: DISP_E_BADINDEX (0x8002000b): 3 indices for {bounds}",
            )
            self.raises(
                "outside",
                oaut.BadIndex,
                lambda: item.Grid[1, 5],
                f"get Item.Grid[1, 5]: DISP_E_BADINDEX (0x8002000b): 2 indices for {bounds}",
            )
            put = lambda: item.Grid.__setitem__(0, 7)
            self.raises(
                "a put",
                oaut.BadIndex,
                put,
                f"put Item.Grid[0] = 7: DISP_E_BADINDEX (0x8002000b): 1 index for {bounds}",
            )
            self.raises(
                "of an array by itself",
                IndexError,
                lambda: item.Grid.value[1],
                f"1 indices for {bounds}",
            )

    def test_fewer_indices_than_bounds_are_a_row(self):
        with play(FULL) as server:
            item = server.create("Item")
            item.Grid = Array(I2, [(2, -1), (3, 5)], range(6))
            row = item.Grid[0]
            self.same("its elements", (row[5], row[7], list(row), len(row)), (3, 5, [3, 4, 5], 3))
            self.same(
                "as values",
                (
                    row == [3, 4, 5],
                    row == item.Grid[-1],
                    row.value == Array(I2, [(3, 5)], [3, 4, 5]),
                ),
                (True, False, True),
            )
            row[6] = 40
            self.same(
                "a put is one in the array",
                (item.Grid[0, 6], list(row), row[5:7]),
                (40, [3, 40, 5], [3, 40]),
            )
            self.raises(
                "an index outside names all of them",
                oaut.BadIndex,
                lambda: row[8],
                "get Item.Grid[0, 8]: DISP_E_BADINDEX (0x8002000b): 2 indices for 2 bounds, -1 to "
                "0 and 5 to 7",
            )
            self.same("its words", repr(row), "<row [0] of <array Grid of <Item 1>>>")
            other = server.create("Item")
            other.Grid = row
            self.same(
                "it is put as an array",
                (list(other.Grid), other.Grid.bounds),
                ([3, 40, 5], [(3, 5)]),
            )
            item.Grid = Array(I2, [(2, 0), (2, 0), (2, 0)], range(8))
            deep = item.Grid[1]
            self.same(
                "of three bounds",
                (list(deep), deep[0, 1], list(deep[1]), item.Grid[1, 1] == [6, 7]),
                ([[4, 5], [6, 7]], 5, [6, 7], True),
            )

    def test_a_row_of_an_array_by_itself(self):
        whole = Array(I2, [(2, 0), (2, 0)], range(4))
        row = whole[1]
        row[0] = 9
        self.same(
            "it is that of the array",
            (whole[1, 0], list(row), repr(row)),
            (9, [9, 3], "<row [1] of an array>"),
        )
        row.value[0] = 7
        self.same("its value is a copy", whole[1, 0], 9)
        self.raises(
            "outside", IndexError, lambda: whole[2], "1 indices for 2 bounds, 0 to 1 and 0 to 1"
        )

    def test_computing_with_what_a_batch_will_give(self):
        with play(FULL) as server:
            item = server.create("Item")
            for name, kind in (("batch", server.batch), ("atomic", server.atomic)):
                with kind():
                    self.raises(
                        f"{name}: a sum",
                        TypeError,
                        lambda: item.__setattr__("Count", item.Count + 1),
                        LATER,
                    )
                    self.raises(f"{name}: a comparison", TypeError, lambda: item.Count == 5, LATER)
                    self.raises(f"{name}: a condition", TypeError, lambda: not item.Count, LATER)
                    self.raises(
                        f"{name}: a put of it", TypeError, lambda: setattr(item, "Count", item.Any)
                    )

    def test_an_object_that_is_created_in_a_batch(self):
        with play(FULL) as server:
            with server.batch():
                item = server.create("Item")
                item.Count = 7
                item.Cell[5, "k"] = "x"
                later = item.Count
                unused = server.create("Item")
            self.same(
                "it is used in the batch", (later.value, item.value.Cell[5, "k"]), (I4(7), "x")
            )
            self.same(
                "and after it", (item.Count, unused.number, len(server.objects())), (I4(7), 2, 2)
            )

    def test_an_object_that_is_created_in_an_atomic_block(self):
        with play(FULL) as server:
            told = (
                "an object of an atomic block has its number once the block has ended: create it "
                "before the block, or use it after"
            )
            with server.atomic():
                item = server.create("Item")
                self.raises(
                    "it cannot be used yet", RuntimeError, lambda: setattr(item, "Count", 7), told
                )
            item.Count = 7
            self.same("after it", item.Count, I4(7))

    def test_the_same_in_aio(self):
        async def act():
            async with aio.play(FULL, program=PROGRAM) as server:
                async with server.batch():
                    item = await server.create("Item")
                    await item.put("Count", 7)
                    later = await item.get("Count")
                async with server.atomic():
                    other = await server.create("Item")
                    try:
                        await other.put("Count", 8)
                        told = None
                    except RuntimeError as error:
                        told = str(error)
                await other.put("Count", 8)
                return later.value, await other.get("Count"), told and told[:35]

        self.same(
            "values", asyncio.run(act()), (I4(7), I4(8), "an object of an atomic block has it")
        )

    def test_rows_of_objects_that_are_released_meanwhile(self):
        with play(FULL) as server:
            items = [server.create("Item") for _ in range(3)]
            listed = server.objects

            def released(*words):
                found = listed(*words)
                items[1].release()
                return found

            server.objects = released
            self.same(
                "the others",
                server.to_rows("Item", "Count"),
                [{"number": 1, "Count": 0}, {"number": 3, "Count": 0}],
            )
            server.objects = listed
            asks = server.create("Item").number
            self.same("the session goes on", asks, 4)

    def test_rows_are_put(self):
        with play(FULL) as server:
            item = server.create("Item")
            item.Name, item.Grid = "a", [[1, 2]]
            rows = server.to_rows("Item")
            rows[0]["Count"] = 7
            rows += [
                {"Count": 8, "Name": "new"},
                {"number": None, "Count": float("nan"), "Name": None},
            ]
            made = server.from_rows("Item", rows)
            self.same("its objects", [it.number for it in made], [1, 2, 3])
            self.same(
                "values",
                [(int(it.Count), it.Name) for it in made],
                [(7, "a"), (8, "new"), (0, None)],
            )
            self.same("an array", item.Grid == [[1, 2]], True)
            self.raises(
                "a column that is none",
                AttributeError,
                lambda: server.from_rows("Item", [{"Cuont": 7}]),
                "Item has no member Cuont: did you mean Count?",
            )

    def test_a_number_that_is_no_objects_number(self):
        async def act(number):
            async with aio.play(FULL, program=PROGRAM) as server:
                await server.object(number, "Item").get("Count")

        for number, kind, told in (
            (-1, ValueError, "-1 is no object's number: these have 32 bits"),
            (1.5, TypeError, "'float' object cannot be interpreted as an integer"),
        ):
            self.raises(f"{number}, awaited", kind, lambda: asyncio.run(act(number)), told)
            with play(FULL) as server:
                self.raises(f"{number}", kind, lambda: server.object(number, "Item"), told)

    def test_parameters_may_have_the_names_of_the_clients_own(self):
        """`item.Cell.put("x", name="a", value=1, self=2)`: what is named is the property's."""
        cell = "[id(2), prop%s] %s Cell([in] BSTR Name, [in] long Value, [in] long Self%s);"
        text = (
            text_of("small.idl")
            .decode()
            .replace(
                "long Count;",
                f"long Count; methods: {cell % ('get', 'BSTR', '')} "
                f"{cell % ('put', 'void', ', [in] BSTR New')}",
                1,
            )
        )
        named = {"name": "a", "value": 1, "self": 2}

        async def act(path):
            async with aio.play(path, program=PROGRAM) as server:
                item = await server.create("Item")
                await item.put("Cell", "y", **named)
                return await item.get("Cell", **named), await item.get("Cell", "a", 1, 2)

        with tempfile.NamedTemporaryFile("w", suffix=".idl") as file:
            file.write(text)
            file.flush()
            with play(file.name) as server:
                item = server.create("Item")
                item.Cell.put("x", **named)
                self.same(
                    "put and got",
                    (item.Cell.get(**named), item.Cell(**named), item.Cell["a", 1, 2]),
                    ("x", "x", "x"),
                )
            self.same("awaited", asyncio.run(act(file.name)), ("y", "y"))

    def test_a_row_that_cannot_be_put_makes_no_objects(self):
        rows = [{"Count": 1}, {"Count": 2, "Price": 2.5}]
        told = (
            "row 2, Price: there are no floating-point numbers: give oaut.real(2.5), a Currency or "
            "a whole number"
        )

        class NAType:  # (as pandas has it)
            def __ne__(self, _):
                return self

            def __bool__(self):
                raise TypeError("boolean value of NA is ambiguous")

        with play(FULL) as server:
            self.raises(
                "a number that no store has",
                TypeError,
                lambda: server.from_rows("Item", rows),
                told,
            )
            self.same("nothing is made", server.objects(), [])
            made = server.from_rows("Item", [{"Count": 3, "Price": NAType(), "number": NAType()}])
            self.same(
                "an empty place of pandas", [(it.number, int(it.Count)) for it in made], [(1, 3)]
            )

        async def act():
            async with aio.play(FULL, program=PROGRAM) as server:
                try:
                    await server.from_rows("Item", rows)
                except TypeError as error:
                    return str(error), await server.objects()

        self.same("the same awaited", asyncio.run(act()), (told, []))

    def test_a_property_that_is_called_number_is_no_objects_number(self):
        with tempfile.NamedTemporaryFile(suffix=".idl") as file:
            file.write(
                text_of("small.idl").replace(
                    b"long Count;", b"long Count;\n      [id(2)] long number;"
                )
            )
            file.flush()
            with play(file.name) as server:
                first, second = server.create("Item"), server.create("Item")
                first.Number, second.Number = 2, 20
                rows = server.to_rows("Item")
                self.same(
                    "the rows",
                    rows,
                    [
                        {"number": 1, "Count": 0, "Number": 2},
                        {"number": 2, "Count": 0, "Number": 20},
                    ],
                )
                server.from_rows("Item", [{**rows[0], "Count": 7}])
                self.same(
                    "a row goes back where it came from",
                    [(it.Count, it.Number) for it in server.objects()],
                    [(7, 2), (0, 20)],
                )
                told = "1.5 is no object's number"
                self.raises(
                    "a part of a number",
                    ValueError,
                    lambda: server.from_rows("Item", [{"number": 1.5, "Count": 8}]),
                    told,
                )
                self.same("and nothing is put", first.Count, I4(7))

            async def act():
                async with aio.play(file.name, program=PROGRAM) as server:
                    await (await server.create("Item")).put("Number", 5)
                    return await server.to_rows("Item")

            self.same(
                "the same awaited", asyncio.run(act()), [{"number": 1, "Count": 0, "Number": 5}]
            )

    def test_objects_of_a_coclass(self):
        with play(FULL) as server:
            names = [it.name for it in server.library.coclasses]
            for name in names:
                server.create(name)
            for name in names:
                self.same(name, [it.coclass for it in server.objects(name)], [name])
            self.raises("none of the library", LookupError, lambda: server.objects("Nothing"))

    def test_a_session_that_has_ended_keeps_nothing_of_those_who_ask(self):
        """One exception tells it all, and does not grow by each caller's frames."""

        def length(error):
            steps, trace = 0, error.__traceback__
            while trace is not None:
                steps, trace = steps + 1, trace.tb_next
            return steps

        with play(FULL) as server:
            item = server.create("Item")
        found = []
        for _ in range(9):
            try:
                item.Count
            except oaut.SessionEnded as end:
                found.append(length(end))
        self.same("its traceback", found, found[:1] * 9)

        async def act():
            async with aio.play(FULL, program=PROGRAM) as server:
                item = await server.create("Item")
            found = []
            for _ in range(9):
                try:
                    await item.get("Count")
                except oaut.SessionEnded as end:
                    found.append(length(end))
            self.same("the same awaited", found, found[:1] * 9)

        asyncio.run(act())

    def test_a_library_is_replaced_outside_a_batch(self):
        told = "a library is replaced outside a batch"
        with play(FULL) as server:
            with server.batch():
                self.raises(
                    "it is reported", RuntimeError, lambda: server.replace_library(FULL), told
                )

        async def act():
            async with aio.play(FULL, program=PROGRAM) as server:
                async with server.batch():
                    try:
                        await server.replace_library(FULL)
                        return "nothing"
                    except RuntimeError as error:
                        return str(error)

        self.same("the same awaited", asyncio.run(act()), told)

    def test_what_is_no_number_and_no_name(self):
        """It is told by the exceptions of docs/guide/client.md, or by Python's own, and nothing is
        sent."""
        with play(FULL) as server:
            item = server.create("Item")
            item.Grid = [1, 2]
            there = "there are: Item"
            for name, act in (
                ("create", server.create),
                ("object", lambda it: server.object(1, it)),
                ("to_rows", server.to_rows),
            ):
                for wrong in (None, 5, "Itm"):
                    self.raises(
                        f"{name}, {wrong!r}",
                        LookupError,
                        lambda: act(wrong),
                        f"no coclass {wrong}; {there}",
                    )
            self.raises(
                "an interface",
                LookupError,
                lambda: item.interface(5),
                "Item has no interface 5; there are: DItem",
            )
            told = "'float' object cannot be interpreted as an integer"
            self.raises("a number", TypeError, lambda: server.object(1.0, "Item"), told)
            self.raises("a count", TypeError, lambda: item.Grid.redim(3.0), told)
            self.raises("a lowest index", TypeError, lambda: item.Grid.redim(3, 0.5), told)
            self.same("nothing is changed", item.Grid.bounds, [(2, 0)])

    def test_the_base_of_exceptions(self):
        with play(FULL) as server:
            try:
                server.create("Item").Count = "x"
                self.tell("it catches", False)
            except oaut.Error as error:
                self.same("it catches", type(error), oaut.TypeMismatch)
        for kind in (
            oaut.Error,
            oaut.Refused,
            oaut.SessionEnded,
            oaut.ProtocolError,
            oaut.SessionInUse,
            oaut.NotALibrary,
            oaut.Unusable,
        ):
            self.tell(f"{kind.__name__} is one", issubclass(kind, oaut.Error))

    def test_the_number_that_had_its_name(self):
        with warnings.catch_warnings(record=True) as told:
            warnings.simplefilter("always")
            value = oaut.Error(0x8002_0004)
            self.same(
                "it is an SCode",
                (type(value), value, isinstance(value, oaut.Error)),
                (oaut.SCode, oaut.MISSING, True),
            )
        self.same("each use warns", [it.category for it in told], [DeprecationWarning] * 2)
        self.same(
            "words of before",
            (oaut.value_of("Error(5)"), repr(oaut.value_of("SCode(5)"))),
            (oaut.SCode(5), "SCode(0x00000005)"),
        )
