"""The exceptions of the client: `except oaut.Error` catches each of them, and former names warn."""
import ast
import asyncio
import builtins
import glob
import inspect
import pathlib
import pickle
import subprocess
import sys
import tempfile
import warnings

from oaut import aio, faults, values
from tests.client.clients import ENVIRONMENT, FULL, PACKAGE, ClientCases, oaut, play

# exceptions that end within the package: the function that they leave is one of it, too
WITHIN = {
    "connection": {"Ended", "Late"},
    "files": {"Moved"},
    "importing": {"Left"},
    "midl": {"Unreadable"},
    "store": {"NotAStore", "Damaged", "NoImage"},
    "view/window": {"Wrong"},
    "__main__": {"Signalled"},
}
# what Python's own protocols ask for (an attribute that a module does not have), and what no call
# reaches
OF_PYTHON = {
    ("__init__", "AttributeError"),
    ("faults", "AttributeError"),
    ("values", "NotImplementedError"),
    ("aio", "AssertionError"),
    ("programs", "AssertionError"),
}
# of each former name the present one (the pages of 0.2.0)
RENAMED = {
    "Fault": "Error",
    "Stopped": "SessionEnded",
    "Malformed": "ProtocolError",
    "NotKept": "IncompatibleLibrary",
    "Failed": "StoreFailed",
}
NOWHERE = "/nowhere/at/all"


def modules():
    """The name and the syntax of each module of the package."""
    for path in sorted(glob.glob(f"{PACKAGE}/oaut/**/*.py", recursive=True)):
        yield path[len(f"{PACKAGE}/oaut/") : -len(".py")], ast.parse(
            pathlib.Path(path).read_text(encoding="utf-8")
        )


def raised(tree):
    """The names that are called in a `raise`, or raised as they are, and the lines."""
    for it in ast.walk(tree):
        if isinstance(it, ast.Raise) and it.exc is not None:
            of = it.exc.func if isinstance(it.exc, ast.Call) else it.exc
            yield (of.id if isinstance(of, ast.Name) else ""), it.lineno


class Exceptions(ClientCases):
    def test_each_class_is_an_error(self):
        wrong = []
        for name, tree in modules():
            for it in ast.walk(tree):
                if isinstance(it, ast.ClassDef) and any(
                    isinstance(of, ast.Name) and of.id.endswith(("Exception", "BaseException"))
                    for of in it.bases
                ):
                    if it.name not in WITHIN.get(name, ()) and (name, it.name) != (
                        "faults",
                        "Error",
                    ):
                        wrong.append(f"{name}: {it.name}")
        self.same("a class of its own", wrong, [])
        public = [
            it
            for it in vars(oaut).values()
            if inspect.isclass(it) and issubclass(it, BaseException)
        ]
        self.same(
            "of the package's names", [it for it in public if not issubclass(it, oaut.Error)], []
        )

    def test_no_module_raises_one_of_pythons(self):
        pythons = {
            name
            for name, it in vars(builtins).items()
            if inspect.isclass(it) and issubclass(it, BaseException)
        }
        found = [
            f"{name}:{line}: {of}"
            for name, tree in modules()
            for of, line in raised(tree)
            if of in pythons and (name, of) not in OF_PYTHON
        ]
        self.same("raised as it is", found, [])

    def test_wrong_uses_are_caught(self):
        with play(FULL) as server, tempfile.TemporaryDirectory() as room:
            item = server.create("Item")
            batch = server.batch()
            acts = {
                "a member that is not there": (AttributeError, lambda: item.Cuont),
                "a put of one": (AttributeError, lambda: setattr(item, "Cuont", 1)),
                "a coclass that is not there": (LookupError, lambda: server.create("Nothing")),
                "a value of no type": (TypeError, lambda: setattr(item, "Count", 1.5)),
                "a number of a type": (OverflowError, lambda: oaut.I1(128)),
                "a text that is no number": (ValueError, lambda: oaut.Currency("1.00001")),
                "words of no value": (ValueError, lambda: oaut.value_of("Nothing(1)")),
                "an array of lists": (ValueError, lambda: values.Array(oaut.I2, [(2, 0)], [1])),
                "an object's number": (ValueError, lambda: server.object(1 << 32, "Item")),
                "a batch in a batch": (
                    RuntimeError,
                    lambda: batch.__enter__() and server.batch().__enter__(),
                ),
                "a replay of no recording": (ValueError, lambda: oaut.replay(FULL)),
                "an address": (ValueError, lambda: oaut.connect("oauts://%zz")),
                "a session's copy": (TypeError, lambda: pickle.dumps(server)),
            }
            for name, (kind, act) in acts.items():
                with self.subTest(name):
                    with self.assertRaises(oaut.Error) as found:
                        act()
                    self.assertIsInstance(found.exception, kind)
            del room

    def test_failures_of_the_system_are_caught(self):
        with tempfile.TemporaryDirectory() as room:
            taken = f"{room}/taken"
            pathlib.Path(taken).write_bytes(b"")
            acts = {
                "no path": (FileNotFoundError, NOWHERE, lambda: oaut.connect(NOWHERE)),
                "nobody at a port": (
                    ConnectionRefusedError,
                    "127.0.0.1:1",
                    lambda: oaut.connect("127.0.0.1:1"),
                ),
                "a copy of no file": (
                    FileNotFoundError,
                    NOWHERE,
                    lambda: oaut.backup(NOWHERE, f"{room}/copy"),
                ),
                "no recording": (FileNotFoundError, NOWHERE, lambda: oaut.replay(NOWHERE)),
                "a store on a file": (FileExistsError, taken, lambda: oaut.make_store(taken, FULL)),
                "nobody, in asyncio": (
                    FileNotFoundError,
                    NOWHERE,
                    lambda: asyncio.run(self.reach(NOWHERE)),
                ),
            }
            for name, (kind, path, act) in acts.items():
                with self.subTest(name):
                    with self.assertRaises(oaut.Error) as found:
                        act()
                    self.assertIsInstance(found.exception, kind)
                    self.assertIsInstance(found.exception, oaut.SystemFailed)
                    self.assertEqual(found.exception.filename, path)
                    again = pickle.loads(pickle.dumps(found.exception))
                    self.assertEqual(
                        (type(again), str(again)), (type(found.exception), str(found.exception))
                    )

    async def reach(self, path):
        async with aio.connect(path):
            pass

    def test_a_tool_names_the_file_of_a_failure(self):
        done = subprocess.run(
            [sys.executable, "-m", "oaut", "store", "info", NOWHERE],
            env=ENVIRONMENT,
            capture_output=True,
            text=True,
        )
        self.assertEqual(
            (done.returncode, done.stderr),
            (1, f"python3 -m oaut: {NOWHERE}: No such file or directory\n"),
        )

    def test_former_names_warn(self):
        for module in (oaut, faults):
            for old, new in RENAMED.items():
                with self.subTest(f"{module.__name__}.{old}"), warnings.catch_warnings(
                    record=True
                ) as told:
                    warnings.simplefilter("always")
                    self.assertIs(getattr(module, old), getattr(oaut, new))
                    self.assertEqual(
                        [(it.category, str(it.message)) for it in told],
                        [(DeprecationWarning, f"oaut.{old} is oaut.{new} now")],
                    )
                    self.assertEqual([it.filename for it in told], [__file__])
        with self.subTest("a name that never was one"), self.assertRaises(AttributeError):
            oaut.Halted
        with self.subTest("they are not offered"):
            self.assertEqual([it for it in RENAMED if it in oaut.__all__ or it in dir(oaut)], [])

    def test_a_script_of_before(self):
        code = (
            "from oaut import Stopped, NotKept\ntry:\n    raise Stopped('x')\n"
            "except Stopped as end:\n    print(type(end).__name__, NotKept.__name__)"
        )
        done = subprocess.run(
            [sys.executable, "-W", "ignore", "-c", code],
            env=ENVIRONMENT,
            capture_output=True,
            text=True,
        )
        self.assertEqual((done.stdout, done.stderr), ("SessionEnded IncompatibleLibrary\n", ""))
