"""What a prompt completes, a notebook shows and a type checker refuses: what a user needs first."""
import os
import shutil
import subprocess
import sys
import tempfile
import unittest

from oaut import Library, stubs
from tests.client.clients import (
    ENVIRONMENT,
    FULL,
    LIBRARY,
    PACKAGE,
    PROGRAM,
    ClientCases,
    oaut,
    play,
)

COMPLETE = """import sys
from IPython.core.completer import provisionalcompleter
from IPython.core.interactiveshell import InteractiveShell
import oaut
shell = InteractiveShell.instance()
with oaut.play(sys.argv[1], sys.argv[2]) as server:
    shell.user_ns.update(oaut=oaut, server=server, item=server.create("Item"))
    with provisionalcompleter():
        print(*(it.text for it in shell.Completer.completions(sys.argv[3], len(sys.argv[3]))))
"""


def pythons_with(*modules):
    """The Pythons of this machine that have some modules."""
    found = dict.fromkeys((sys.executable, "/usr/bin/python3"))
    words = ["-c", f"import {', '.join(modules)}"]
    return [
        it
        for it in found
        if os.path.exists(it) and subprocess.run([it, *words], capture_output=True).returncode == 0
    ]


PYTHONS = pythons_with("IPython", "jedi")
CHECKER = shutil.which("mypy")


@unittest.skipUnless(PYTHONS, "no Python has IPython and jedi")
@unittest.skipUnless(os.path.exists(PROGRAM), "the program is not there")
class Completion(ClientCases):
    def completed(self, text):
        """What IPython's completer offers behind a text, with jedi as by default."""
        with tempfile.TemporaryDirectory() as room:
            words = [PYTHONS[0], "-c", COMPLETE, FULL, PROGRAM, text]
            done = subprocess.run(
                words,
                env={**ENVIRONMENT, "HOME": room, "IPYTHONDIR": room},
                capture_output=True,
                text=True,
                timeout=300,
            )
        self.same(f"the completer of {text}", (done.returncode, done.stderr[-500:]), (0, ""))
        return done.stdout.split()

    def test_the_package(self):
        found = self.completed("oaut.")
        self.same(
            "what every script needs",
            [it for it in ("connect", "open", "play", "serve", "Refused") if it not in found],
            [],
        )
        modules = {it.partition(".")[0] for it in os.listdir(os.path.dirname(oaut.__file__))}
        self.same(
            "no name of the codec",
            [it for it in found if it not in oaut.__all__ and it not in modules],
            [],
        )

    def test_a_session(self):
        found = self.completed("server.")
        self.same(
            "what every script needs",
            [it for it in ("create", "objects", "library", "close") if it not in found],
            [],
        )
        self.same(
            "what the package itself calls",
            [it for it in ("ask", "begin", "exchange", "note_lock", "trace") if it in found],
            [],
        )

    def test_an_object(self):
        self.same(
            "its members",
            [it for it in ("Count", "Cell", "Grid") if it not in self.completed("item.")],
            [],
        )


class Names(ClientCases):
    def test_the_codec_stands_in_submodules(self):
        self.same(
            "names of records",
            [it for it in ("ask_create", "INVOKE", "read_reply") if it in dir(oaut)],
            [],
        )
        self.same("its submodules", [it for it in ("records", "wire") if it not in dir(oaut)], [])

    def test_scripts_of_before_find_them(self):
        self.same("a function", oaut.ask_list is oaut.records.ask_list, True)
        self.same("a submodule that was not imported", callable(oaut.frames.serve), True)

    def test_a_name_that_is_none(self):
        """Python's own exception, as for each module."""
        try:
            got = oaut.no_such_name
        except AttributeError as error:
            got = str(error)
        self.same("it", got, "module 'oaut' has no attribute 'no_such_name'")

    def test_dir_of_a_session(self):
        server = oaut.connect(open(os.devnull, "rb"), open(os.devnull, "wb"))
        found = [it for it in dir(server) if not it.startswith("_")]
        self.same(
            "what the package itself calls",
            [
                it
                for it in (
                    "ask",
                    "begin",
                    "described",
                    "exchange",
                    "forked",
                    "next_tag",
                    "note_lock",
                    "trace",
                    "was_done",
                )
                if it in found
            ],
            [],
        )
        self.same(
            "what a user calls",
            [
                it
                for it in ("atomic", "batch", "close", "create", "library", "objects")
                if it not in found
            ],
            [],
        )


@unittest.skipUnless(os.path.exists(PROGRAM), "the program is not there")
class Notebook(ClientCases):
    def shown(self, server, item):
        with server:
            return item._repr_html_()

    def test_values(self):
        with oaut.play(FULL, PROGRAM) as server:
            item = server.create("Item")
            item.Count, item.Name = 1234, "<b>"
            shown = item._repr_html_()
        self.tell("a number", "<td>Count</td><td>I4(1234)</td>" in shown, shown)
        self.tell(
            "a text, as a text", "<td>Name</td><td>&#x27;&lt;b&gt;&#x27;</td>" in shown, shown
        )

    def test_within_a_batch(self):
        with oaut.play(FULL, PROGRAM) as server:
            item = server.create("Item")
            with server.batch():
                shown = item._repr_html_()
        self.tell("members without values", "<td>Count</td><td>long</td>" in shown, shown)

    def test_behind_the_end(self):
        with oaut.play(FULL, PROGRAM) as server:
            item = server.create("Item")
        self.tell("members without values", "<td>Count</td><td>long</td>" in item._repr_html_())

    def test_of_an_object_that_was_released(self):
        with oaut.play(FULL, PROGRAM) as server:
            item = server.create("Item")
            item.release()
            shown = item._repr_html_()
        self.tell("why there is none", "<td>Count</td><td>RPC_E_DISCONNECTED</td>" in shown, shown)


USED = """import typing
import oaut
if typing.TYPE_CHECKING:
    import full

with typing.cast("full.Server", oaut.play("full.idl")) as server:
    item = server.create("Item")
"""


LINES = [
    "item.Cuont = 5",
    "print(item.Cuont)",
    'print(item.number, item.coclass, item.dispids("Count"))',
    'oaut.conect("it.sock")',
]


@unittest.skipIf(CHECKER is None, "mypy is not there")
class Checked(ClientCases):
    @classmethod
    def setUpClass(cls):
        """What mypy says of the lines over the stubs of a library."""
        with tempfile.TemporaryDirectory() as room:
            with open(f"{room}/full.pyi", "w") as file:
                file.write(stubs.text_of(LIBRARY, "full", "full.idl"))
            with open(f"{room}/it.py", "w") as file:
                file.write(USED + "".join(f"    {it}\n" for it in LINES))
            done = subprocess.run(
                [CHECKER, "it.py"],
                cwd=room,
                env={**os.environ, "MYPYPATH": PACKAGE},
                capture_output=True,
                text=True,
            )
        cls.said = done.stdout

    def checked(self, number):
        """What is said of one of the lines."""
        line = USED.count("\n") + 1 + number
        return [it for it in self.said.splitlines() if it.startswith(f"it.py:{line}:")]

    def test_a_put_of_a_name_that_is_none(self):
        self.tell(
            "it is refused", '"Item" has no attribute "Cuont"' in str(self.checked(0)), self.said
        )

    def test_a_get_of_a_name_that_is_none(self):
        self.tell(
            "it is refused", '"Item" has no attribute "Cuont"' in str(self.checked(1)), self.said
        )

    def test_what_each_object_has(self):
        self.same("nothing is said", self.checked(2), [])

    def test_names_that_python_and_the_stubs_have_too(self):
        """Members, parameters and coclasses whose names are words of Python or of the stubs."""
        guid = "11223344-5566-7788-99aa-bbccddeef00"
        text = (
            f"[uuid({guid}1)] library L {{ [uuid({guid}2)] dispinterface DItem {{ properties: "
            "[id(1)] VARIANT_BOOL bool; [id(2)] VARIANT object;"
            " [id(3)] VARIANT_BOOL Flag; methods: [id(6), propget] BSTR Cell([in] long value, [in] "
            "BSTR self);"
            " [id(6), propput] void Cell([in] long value, [in] BSTR self, [in] BSTR NewValue); "
            "[id(7)] void Do([in] long self); }"
            f" [uuid({guid}3)] coclass None {{ dispinterface DItem; }} [uuid({guid}4)] coclass "
            f"Server {{ dispinterface DItem; }} }}"
        )
        used = (
            "import typing\nimport oaut\nif typing.TYPE_CHECKING:\n    import it\n"
            'with typing.cast("it.Server", oaut.play("it.idl")) as server:\n'
            '    item = server.create("Server")\n    item.Flag = True\n    flag: bool = item.Flag\n'
            '    item.Cell.put("x", Value=5, Self="k")\n    item.Cell[5, "k"] = "y"\n'
        )
        with tempfile.TemporaryDirectory() as room:
            for name, content in (
                ("it.pyi", stubs.text_of(Library.from_text(text), "it", 'a\\Users"""b.idl')),
                ("use.py", used),
                ("it.idl", text),
            ):
                with open(f"{room}/{name}", "w") as file:
                    file.write(content)
            how = {
                "cwd": room,
                "env": {**os.environ, "MYPYPATH": PACKAGE},
                "capture_output": True,
                "text": True,
            }
            done = subprocess.run([CHECKER, "--strict", "it.pyi", "use.py"], **how)
            self.same(
                "nothing is said",
                (done.returncode, done.stdout.splitlines()[:5]),
                (0, ["Success: no issues found in 2 source files"]),
            )
            with play(f"{room}/it.idl") as server:
                item = server.create("Server")
                item.Cell.put("x", Value=5, Self="k")
                self.same("what a checker takes is taken", item.Cell[5, "k"], "x")

    def test_a_name_of_the_package_that_is_none(self):
        self.tell("it is refused", "has no attribute" in str(self.checked(3)), self.said)
