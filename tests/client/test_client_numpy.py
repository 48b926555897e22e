"""Values of numpy, pandas and the buffer protocol, as puts take them and arrays give them. Without
numpy in this Python another one is asked that has it."""
import array
import shutil
import subprocess
import sys
import unittest

from oaut import I2, I4, I8, UI1, VT, Array
from tests.client.clients import ENVIRONMENT, FULL, PROGRAM, ClientCases, oaut, play

GRID = oaut.ARRAY + VT.I2
WITH_NUMPY = """
import sys, decimal
import numpy as np
import oaut
with oaut.play(sys.argv[1], program=sys.argv[2]) as server:
    item = server.create("Item")
    item.Count = np.int64(5)
    item.Any = np.bool_(True)
    print(int(item.Count), item.Any, item.Cell[np.int32(5), "k"])
    item.Grid = np.arange(6).reshape(2, 3)
    print(item.Grid.bounds, item.Grid == [[0, 1, 2], [3, 4, 5]], int(item.Grid[np.int64(1), 2]))
    grid = item.Grid.to_numpy()
    print(grid.dtype, grid.shape, int(grid.sum()), np.asarray(item.Grid).tolist(), \
np.asarray(item.Grid, dtype="int64").dtype)
    item.Any = np.array([1, 2], dtype="uint8")
    print(item.Any, np.asarray(item.Any).dtype)
    item.Any = np.empty((0, 3), dtype="int16")
    print(item.Any.bounds)
    print(oaut.Array(str, [(2, 0)], ["a", None]).to_numpy().tolist(), oaut.Array(bool, [(1, 0)], \
[True]).to_numpy().dtype)
    for value in (np.ma.array([1, 2], mask=[True, False]), np.float32(0.5), np.array([0.5]), \
np.datetime64("2026-01-01"), np.datetime64("2026-01-01", "ns")):
        try:
            item.Grid = value
        except (TypeError, ValueError) as error:
            print("ValueError" if isinstance(error, ValueError) else "TypeError")
    try:
        import pandas
    except ImportError:
        print("no pandas")
    else:
        other = server.create("Item")
        other.Name, other.Grid = "x", [[1, 2]]
        frame = pandas.DataFrame(server.to_rows("Item", "Count", "Name", "Grid"))
        frame["Count"] += 1
        server.from_rows("Item", frame)
        for number, row in frame.set_index("number").iterrows():
            server.object(number, "Item").Count = row["Count"]
        print([(int(it.Count), it.Name) for it in server.objects()])
        item.Grid = pandas.Series([7, 8])
        print(list(item.Grid))
"""
SAID = """5 True None
[(2, 0), (3, 0)] True 5
int16 (2, 3) 15 [[0, 1, 2], [3, 4, 5]] int64
Array(UI1, [(2, 0)], [1, 2]) uint8
[(0, 0), (3, 0)]
['a', None] bool
ValueError
TypeError
TypeError
TypeError
TypeError
[(6, None), (1, 'x')]
[7, 8]
"""


def with_numpy():
    """A Python that has numpy and pandas."""
    for python in (sys.executable, shutil.which("python3", path="/usr/bin")):
        if (
            python
            and not subprocess.run(
                [python, "-c", "import numpy, pandas"], capture_output=True, check=False
            ).returncode
        ):
            return python
    return None


class Index:
    """What counts as a whole number."""

    def __index__(self):
        return 7


class Table:
    """What numpy would make an array of, with the words of its arrays that are used."""

    class dtype:
        kind, itemsize = "i", 8

    shape = (2, 2)

    def __array__(self):
        return self

    def ravel(self):
        return self

    def tolist(self):
        return [1, 2, 3, 4]


class Times(Table):
    """Dates of nanoseconds: their Python values are whole numbers, of whatever they were."""

    class dtype:
        kind, itemsize = "M", 8


class Time(Times):
    """One of them."""

    shape = ()

    def item(self):
        return 1_577_836_800_000_000_000


class Masked(Table):
    """An array with masked cells, as numpy.ma has them: `__array__` gives what stands below the
    mask."""

    class mask:
        @staticmethod
        def any():
            return True

    def filled(self):
        return Table()


class Numpy(ClientCases):
    def test_a_whole_number_of_another_class(self):
        for name, value, declared, wanted in (
            ("undeclared", Index(), VT.VARIANT, I4(7)),
            ("of a declared type", Index(), VT.I2, I2(7)),
            ("CURRENCY", Index(), VT.CY, oaut.Currency(7)),
        ):
            self.same(name, oaut.read_field(oaut.spell(value, declared)), wanted)

    def test_arrays_of_buffers(self):
        for name, value, declared, wanted in (
            ("of a declared type", array.array("q", [1, 2]), GRID, Array(I2, [(2, 0)], [1, 2])),
            (
                "undeclared, its own type",
                array.array("q", [1, 2]),
                VT.VARIANT,
                Array(I8, [(2, 0)], [1, 2]),
            ),
            (
                "of two dimensions",
                memoryview(bytes(range(6))).cast("B", (2, 3)),
                GRID,
                Array(I2, [(2, 0), (3, 0)], range(6)),
            ),
            (
                "bytes, if an array is declared",
                b"ab",
                oaut.ARRAY + VT.UI1,
                Array(UI1, [(2, 0)], b"ab"),
            ),
            ("bytes, if none is", b"ab", VT.VARIANT, "\u6261"),
            ("what has __array__", Table(), GRID, Array(I2, [(2, 0), (2, 0)], [1, 2, 3, 4])),
        ):
            self.same(name, oaut.read_field(oaut.spell(value, declared)), wanted)
        self.raises(
            "a number too large",
            OverflowError,
            lambda: oaut.spell(array.array("q", [40_000]), GRID),
        )

    def test_dates_are_no_numbers(self):
        told = "there are no dates and no durations: give texts or whole numbers"
        for name, value in (("a date", Time()), ("an array of dates", Times())):
            for declared in (VT.VARIANT, VT.I8, oaut.ARRAY + VT.I8):
                self.raises(
                    f"{name}, {declared}", TypeError, lambda: oaut.spell(value, declared), told
                )

    def test_masked_cells_are_no_numbers(self):
        told = "masked cells have no value: array.filled(..) gives them one"
        self.raises("an array", ValueError, lambda: oaut.spell(Masked(), GRID), told)
        self.raises("a row of a list", ValueError, lambda: oaut.spell([Masked()], GRID), told)
        self.same(
            "filled",
            oaut.read_field(oaut.spell(Masked().filled(), GRID)),
            Array(I2, [(2, 0), (2, 0)], [1, 2, 3, 4]),
        )

    def test_over_the_program(self):
        with play(FULL) as server:
            item = server.create("Item")
            item.Count = Index()
            item.Grid = array.array("h", [5, 6])
            self.same("values", (item.Count, list(item.Grid)), (I4(7), [5, 6]))

    def test_with_numpy_and_pandas(self):
        python = with_numpy()
        if python is None:
            raise unittest.SkipTest("numpy or pandas is not installed")
        done = subprocess.run(
            [python, "-c", WITH_NUMPY, FULL, PROGRAM],
            env=ENVIRONMENT,
            capture_output=True,
            text=True,
            check=False,
            timeout=300,
        )
        self.same("what it says", (done.stdout, done.stderr), (SAID, ""))
