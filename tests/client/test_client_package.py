"""The client as a package: it installs without a network, says what it gives, and passes a type
checker where one is there."""
import ast
import glob
import os
import re
import shutil
import subprocess
import sys
import tempfile
import unittest
import venv

from oaut import stubs
from tests.client.clients import (
    ENVIRONMENT,
    FULL,
    LIBRARY,
    PACKAGE,
    PROGRAM,
    ROOT,
    ClientCases,
    oaut,
)

# what `import oaut` gave when the client was one module: a script may use any of it
GIVEN = """ARRAY Array ArrayIsLocked ArrayProperty BATCH BODY_LIMIT BadIndex BadParamCount BadStub \
BadVarType Batch CELLS CELL_LIMIT CODES CREATE
ClassNotRegistered Coclass Currency DEFAULT DEFAULT_INTERFACE Disconnected EMPTY Error FRAMING \
FRAMINGS Failed Fault Field Form GETELEM GETIDS
GROUP_BYTES HAS_DEFAULT I1 I2 I4 I8 IN INT INTEGERS INVOKE Integer Interface InvalidArg \
KIND_COCLASS KIND_INTERFACE LIST LOCK Later Library Lines
METHOD MISSING Malformed MediumFull Member MemberNotFound Method NEW_VALUE NO_INDEX NULL_BSTR \
NULL_LENGTH NUMBERS NoInterface NotImplementedHere
OPCODES OPTIONAL Object OutOfMemory Overflow PROPERTYGET PROPERTYPUT PROPERTYPUTREF PUTELEM \
ParamNotFound ParamNotOptional Parameter Property
READ_ONLY REDIM REFERENT RELEASE Raw ReadFault Refused Reply SCALARS Server Stopped TEXT_LIMIT \
TYPEINFO TypeMismatch UI1 UI2 UI4 UI8 UINT UNLOCK
Unexpected UnknownInterface UnknownName VOID VT WriteFault array_field ask_call ask_create ask_ids \
ask_invoke ask_list ask_release ask_type_info
cell_type connect decode description_words fold indices_field main make_store padded play \
read_description read_field read_ids read_nothing
read_number read_objects read_reply read_text_value read_value refused reply_words request_words \
scalar_field serve spell string_field text_bytes
text_of type_word typed value_of variant_field words_of""".split()
CHECKER = shutil.which("mypy") or shutil.which("pyright")
STYLE = {
    "black": ["--check", "--quiet"],
    "isort": ["--check-only", "--quiet"],
    "pycodestyle": ["--max-line-length=100", "--ignore=E203,W503"],  # the two that black breaks
    "pyflakes3": [],
    "ruff": ["check", "--quiet"],
}
USED = """import typing
import oaut
if typing.TYPE_CHECKING:
    import full

with typing.cast("full.Server", oaut.play("full.idl")) as server:
    item = server.create("Item")
"""
WELL = """    item.Count = 7
    total: int = item.Count
    item.Grid = [[1, 2], [3, 4]]
    item.Cell[5, "k"] = item.Cell(5, Key="k", Page=2)
    item.interface("DItem").release()
"""
WRONG = [
    'item.Count = "x"',
    "item.Version = 1",
    'item.Cell["k", 5] = "x"',
    'item.Cell(5, Kye="k")',
    "item.Grid = 7",
    "text: str = item.Count",
]


def limit(name):
    """A limit of the server, as its source has it."""
    with open(f"{ROOT}/crates/oa_model/src/limits.rt") as file:
        return int(re.search(rf"^pub const {name}: \w+ = ([\d_]+);", file.read(), re.MULTILINE)[1])


def branches(function):
    """How many branches a function has: of each `if` the ways that are written, each loop, each
    handler of a `try`."""
    count, left = 0, list(ast.iter_child_nodes(function))
    while left:
        it = left.pop()
        if isinstance(it, (ast.FunctionDef, ast.AsyncFunctionDef, ast.Lambda, ast.ClassDef)):
            continue
        if isinstance(it, ast.If):
            count += 1 + bool(
                it.orelse and not (len(it.orelse) == 1 and isinstance(it.orelse[0], ast.If))
            )
        elif isinstance(it, (ast.For, ast.AsyncFor, ast.While)):
            count += 1 + bool(it.orelse)
        elif isinstance(it, ast.Try):
            count += len(it.handlers) + bool(it.orelse) + bool(it.finalbody)
        left += ast.iter_child_nodes(it)
    return count


def checked(room, *words):
    """What a type checker says, run in a folder."""
    return subprocess.run(
        [CHECKER, *words],
        cwd=room,
        env={**os.environ, "MYPYPATH": PACKAGE, "PYTHONPATH": PACKAGE},
        capture_output=True,
        text=True,
    )


class Package(ClientCases):
    def test_what_it_gives(self):
        self.same("names that scripts use", [it for it in GIVEN if not hasattr(oaut, it)], [])
        self.same(
            "names of __all__ that are none",
            [it for it in oaut.__all__ if not hasattr(oaut, it)],
            [],
        )
        self.same(
            "names of the codec stand in the submodules",
            [it for it in ("ask_create", "Raw", "read_reply", "INVOKE") if it in oaut.__all__],
            [],
        )
        self.tell("what users need is few", len(oaut.__all__) <= 90, len(oaut.__all__))
        long = [
            f"{path}:{at}"
            for path in glob.glob(f"{PACKAGE}/**/*.py", recursive=True)
            for at, line in enumerate(open(path, encoding="utf-8"), 1)
            if len(line) > 101
        ]
        self.same("lines of more than 100 columns", long, [])
        self.tell(
            "the package has a type of its own for checkers",
            os.path.exists(f"{os.path.dirname(oaut.__file__)}/py.typed"),
        )

    def test_no_function_has_more_than_15_branches(self):
        found = []
        for path in glob.glob(f"{PACKAGE}/**/*.py", recursive=True):
            with open(path, encoding="utf-8") as file:
                tree = ast.parse(file.read())
            functions = [
                it
                for it in ast.walk(tree)
                if isinstance(it, (ast.FunctionDef, ast.AsyncFunctionDef))
            ]
            self.tell(f"{path}: the file is read", tree.body or path.endswith("__init__.py"))
            found += [
                f"{os.path.relpath(path, PACKAGE)}: {it.name} {branches(it)}"
                for it in functions
                if branches(it) > 15
            ]
        self.same("functions with more", found, [])

    def test_few_types_are_any(self):
        """Each stands with its reason: an alias of a name, or a line with a comment."""
        found = []
        for path in glob.glob(f"{PACKAGE}/oaut/**/*.py", recursive=True):
            with open(path, encoding="utf-8") as file:
                found += [
                    f"{os.path.relpath(path, PACKAGE)}:{at}"
                    for at, line in enumerate(file, 1)
                    if re.search(r"\btyping\.Any\b", line)
                ]
        self.tell("there are 15 at most", len(found) <= 15, found)

    def test_limits_are_those_of_the_server(self):
        for name, of in (
            ("MAX_REQUEST_BYTES", oaut.BODY_LIMIT),
            ("MAX_TEXT_BYTES", oaut.TEXT_LIMIT),
            ("MAX_CELLS", oaut.CELL_LIMIT),
        ):
            self.same(name, of, limit(name))

    def installed(self, room):
        """The Python of a fresh environment with the package."""
        venv.create(f"{room}/venv", with_pip=True)
        python = f"{room}/venv/bin/python"
        shutil.copytree(PACKAGE, f"{room}/source", ignore=shutil.ignore_patterns("__pycache__"))
        done = subprocess.run(
            [
                python,
                "-m",
                "pip",
                "install",
                "--quiet",
                "--no-index",
                "--disable-pip-version-check",
                f"{room}/source",
            ],
            capture_output=True,
            text=True,
        )
        self.same("it is installed", (done.returncode, done.stderr), (0, ""))
        return python

    @unittest.skipIf(os.environ.get("OAUT_INSTALLED"), "the cases run over an installed package")
    def test_it_installs_without_a_network(self):
        """Into a fresh environment, from an index that is none; the cases that need no program, or
        those of the program, pass there."""
        with tempfile.TemporaryDirectory() as room:
            python = self.installed(room)
            words = ["-c", "import oaut; print(oaut.__version__, oaut.I4(7), oaut.__file__)"]
            done = subprocess.run(
                [python, *words], cwd=room, env={"PATH": ""}, capture_output=True, text=True
            )
            said = done.stdout.split()
            self.same(
                "it is imported",
                (said[:2], said[2:][0].startswith(f"{room}/venv/")),
                ([oaut.__version__, "7"], True),
            )
            done = subprocess.run(
                [python, "-m", "oaut", "--version"],
                cwd=room,
                env={"PATH": ""},
                capture_output=True,
                text=True,
            )
            self.same("its command line", done.stdout, f"oaut {oaut.__version__}\n")
            done = subprocess.run(
                [f"{room}/venv/bin/oaut-tools", "--version"],
                cwd=room,
                env={"PATH": ""},
                capture_output=True,
                text=True,
            )
            self.same("its console script", done.stdout, f"oaut {oaut.__version__}\n")
            parts = [
                "client_values",
                "client_records",
                "client_faults",
                *(["client_program"] if os.path.exists(PROGRAM) else []),
            ]
            done = subprocess.run(
                [python, f"{ROOT}/tools/cases.py", *parts],
                env={**os.environ, "OAUT_INSTALLED": "1"},
                capture_output=True,
                text=True,
            )
            self.same("its cases pass there", (done.returncode, done.stderr), (0, ""))

    @unittest.skipIf(CHECKER is None, "neither mypy nor pyright is there")
    def test_a_type_checker_passes(self):
        with tempfile.TemporaryDirectory() as room:
            done = checked(
                room, *(["--strict", "-p", "oaut"] if "mypy" in CHECKER else [f"{PACKAGE}/oaut"])
            )
        self.same("the package", (done.returncode, done.stdout if done.returncode else ""), (0, ""))

    def test_its_style(self):
        """What pyproject.toml says of it, asked of each tool that is there."""
        for tool, words in STYLE.items():
            if shutil.which(tool) is None:
                print(f"left out the style by {tool}: not there", flush=True)
                continue
            done = subprocess.run(
                [tool, *words, "oaut", "wheels.py"], cwd=PACKAGE, capture_output=True, text=True
            )
            # (a package's __init__ names what users import)
            said = [
                it
                for it in done.stdout.splitlines()
                if "__init__.py" not in it or "imported but unused" not in it
            ]
            self.tell(
                f"{tool} has nothing to say",
                not said and (done.returncode == 0 or tool == "pyflakes3"),
                (said[:5], done.stderr[-500:]),
            )

    @unittest.skipIf(CHECKER is None, "neither mypy nor pyright is there")
    def test_a_type_checker_reads_stubs(self):
        with tempfile.TemporaryDirectory() as room:
            with open(f"{room}/full.pyi", "w") as file:
                file.write(stubs.text_of(LIBRARY, "full", "full.idl"))
            with open(f"{room}/well.py", "w") as file:
                file.write(USED + WELL)
            with open(f"{room}/wrong.py", "w") as file:
                file.write(USED + "".join(f"    {it}\n" for it in WRONG))
            done = checked(room, "well.py")
            self.same(
                "what is well passes",
                (done.returncode, done.stdout if done.returncode else ""),
                (0, ""),
            )
            done = checked(room, "wrong.py")
            for number, line in enumerate(WRONG, USED.count("\n") + 1):
                self.tell(
                    f"it refuses {line}",
                    re.search(rf"wrong\.py:{number}:.*error", done.stdout),
                    done.stdout,
                )


def branches(function):
    """How many branches a function has: conditions, loops, handlers, and those within
    expressions."""
    count, left = 0, list(ast.iter_child_nodes(function))
    while left:
        node = left.pop()
        if not isinstance(node, (ast.FunctionDef, ast.AsyncFunctionDef, ast.ClassDef, ast.Lambda)):
            count += isinstance(node, BRANCHES) + len(getattr(node, "ifs", ()))
            left += ast.iter_child_nodes(node)
    return count


BRANCHES = ast.If, ast.IfExp, ast.For, ast.AsyncFor, ast.While, ast.ExceptHandler, ast.comprehension


class Size(ClientCases):
    def test_branches_of_a_function(self):
        found = {}
        for path in glob.glob(f"{PACKAGE}/**/*.py", recursive=True):
            with open(path, encoding="utf-8") as file:
                for node in ast.walk(ast.parse(file.read())):
                    if isinstance(node, (ast.FunctionDef, ast.AsyncFunctionDef)):
                        found[
                            f"{os.path.relpath(path, PACKAGE)}:{node.lineno} {node.name}"
                        ] = branches(node)
        self.same(
            "functions of more than 15",
            {name: count for name, count in found.items() if count > 15},
            {},
        )

    def test_hints_are_those_of_python_3_9(self):
        """No name of typing that the builtin type or `X | None` has taken the place of, in an
        annotation."""
        found = []
        for path in glob.glob(f"{PACKAGE}/**/*.py", recursive=True):
            with open(path, encoding="utf-8") as file:
                tree = ast.parse(file.read())
            for node in ast.walk(tree):
                function = isinstance(node, (ast.FunctionDef, ast.AsyncFunctionDef))
                notes = (
                    [node.returns, *(it.annotation for it in node.args.args)]
                    if function
                    else [getattr(node, "annotation", None)]
                )
                said = " ".join(ast.unparse(it) for it in notes if it is not None)
                found += [
                    f"{path}:{node.lineno}"
                    for _ in re.findall(
                        r"typing\.(?:List|Dict|Tuple|Set|FrozenSet|Type|Optional|Union)\b", said
                    )
                ]
        self.same("older ones", found, [])


class Stubs(ClientCases):
    def test_what_is_written(self):
        text = stubs.text_of(LIBRARY, "full", "full.idl")
        for line in (
            "class Item(_oaut.BaseObject):",
            "    Count: _Property[_oaut.I4, _oaut.NumberLike]",
            "    Grid: _Property[_oaut.ArrayProperty, _oaut.ArrayLike]",
            "    def Version(self) -> _oaut.I4: ...",
            '    def create(self, coclass: _typing.Literal["Item"]) -> Item: ...',
        ):
            self.tell(f"stubs: {line.strip()}", f"{line}\n" in text, text)
        compile(text, "full.pyi", "exec")
        own = oaut.Library(
            [
                oaut.Interface(
                    LIBRARY.interfaces[0].guid,
                    "DItem",
                    [
                        oaut.Form(it, 0, 0, 3, name, [])
                        for it, name in enumerate(("class", "number", "None", "Release"))
                    ],
                ),
                oaut.Coclass(LIBRARY.coclasses[0].guid, "Item", [(1, 0)]),
            ]
        )
        text = stubs.text_of(own, "own", "own.idl")
        compile(text, "own.pyi", "exec")
        found = re.findall(r"^    (\w+): _Property", text, re.MULTILINE)
        self.same(
            "words of Python and of the client stand in another case",
            found,
            ["Class", "Number", "NONE", "Release"],
        )

    @unittest.skipUnless(os.path.exists(PROGRAM), "the program is not there")
    def test_by_the_command(self):
        with tempfile.TemporaryDirectory() as room:
            words = [sys.executable, "-m", "oaut", "stubs", FULL, "--program", PROGRAM]
            done = subprocess.run(
                words, env=ENVIRONMENT, capture_output=True, text=True, timeout=300
            )
            self.same(
                "stubs of a library's file",
                (done.returncode, done.stdout, done.stderr),
                (0, stubs.text_of(LIBRARY, "full", FULL), ""),
            )
            done = subprocess.run(
                [*words, "-o", f"{room}/it.pyi"],
                env=ENVIRONMENT,
                capture_output=True,
                text=True,
                timeout=300,
            )
            with open(f"{room}/it.pyi") as file:
                self.same(
                    "stubs in a file",
                    (done.returncode, done.stdout, file.read()),
                    (0, "", stubs.text_of(LIBRARY, "it", FULL)),
                )
