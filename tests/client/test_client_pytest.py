"""The plugin of pytest, in a pytest of its own."""
import os
import re
import shutil
import subprocess
import sys
import tempfile
import unittest

from tests.client.clients import ENVIRONMENT, FULL, PACKAGE, PROGRAM, ROOT, ClientCases
from tests.client.test_client_completion import pythons_with

PYTHONS = pythons_with("pytest")
FRESH = pythons_with("pytest", "venv", "ensurepip")
RECORDED = """import oaut

def test_it(oaut_recorded):
    server = oaut_recorded("calls.txt", lambda: oaut.play({library!r}, {program!r}))
    assert server.create("Item").number == {number}
"""


@unittest.skipUnless(PYTHONS, "no Python has pytest")
@unittest.skipUnless(os.path.exists(PROGRAM), "the program is not there")
class Plugin(ClientCases):
    def setUp(self):
        folder = tempfile.TemporaryDirectory()
        self.addCleanup(folder.cleanup)
        self.room = folder.name

    def pytested(self, text, *words):
        """The status of a pytest over this text, and what it says."""
        with open(f"{self.room}/test_it.py", "w", encoding="utf-8") as file:
            file.write(text)
        command = [
            PYTHONS[0],
            "-m",
            "pytest",
            "-q",
            "-p",
            "oaut.pytest",
            "-p",
            "no:cacheprovider",
            "--oaut-program",
            PROGRAM,
            *words,
            self.room,
        ]
        done = subprocess.run(
            command, env=ENVIRONMENT, cwd="/", capture_output=True, text=True, timeout=300
        )
        return done.returncode, done.stdout + done.stderr

    def passes(self, name, text, *words):
        status, said = self.pytested(text, *words)
        self.tell(name, status == 0, said[-2_000:])

    def test_a_server_of_a_path_beside_the_test(self):
        with open(FULL) as file, open(f"{self.room}/items.idl", "w") as made:
            made.write(file.read())
        self.passes(
            "it",
            'def test_it(oaut_server):\n    assert oaut_server("items.idl").create("Item").Count '
            "== 0\n",
        )

    def test_a_server_of_a_text(self):
        with open(FULL) as file:
            self.passes(
                "it",
                "def test_it(oaut_server):\n    assert "
                f'oaut_server({file.read()!r}).create("Item").Count == 0\n',
            )

    def test_a_server_of_a_library(self):
        with open(FULL) as file:
            text = file.read()
        self.passes(
            "it",
            "import oaut\ndef test_it(oaut_server):\n    assert "
            f'oaut_server(oaut.Library.from_text({text!r})).create("Item").Count == 0\n',
        )

    def test_each_server_is_new(self):
        self.passes(
            "it",
            f'def test_it(oaut_server):\n    oaut_server({FULL!r}).create("Item")\n'
            f"    assert oaut_server({FULL!r}).objects() == []\n",
        )

    def test_the_session_ends_with_the_test(self):
        text = (
            f"kept = []\ndef test_one(oaut_server):\n    kept.append(oaut_server({FULL!r}))\n"
            'def test_two():\n    assert "ended" in repr(kept[0])\n'
        )
        self.passes("it", text)

    def test_no_recording(self):
        status, said = self.pytested(RECORDED.format(library=FULL, program=PROGRAM, number=1))
        self.tell(
            "what to do",
            status == 1 and "calls.txt: pytest --oaut-record makes it" in said,
            said[-2_000:],
        )

    def test_a_recording(self):
        self.passes(
            "it is made", RECORDED.format(library=FULL, program=PROGRAM, number=1), "--oaut-record"
        )
        self.passes(
            "it is replayed, without the program",
            RECORDED.format(library=FULL, program="/no/such/program", number=1),
        )

    def test_a_test_that_asks_something_else(self):
        text = RECORDED.format(library=FULL, program=PROGRAM, number=1)
        self.passes("it is recorded", text, "--oaut-record")
        status, said = self.pytested(text + "    server.objects()\n")
        self.tell(
            "it fails",
            status == 1 and "ReplayDiffers" in said and "request 2 is LIST" in said,
            said[-2_000:],
        )

    def test_a_test_that_fails_is_not_recorded(self):
        status, said = self.pytested(
            RECORDED.format(library=FULL, program=PROGRAM, number=2), "--oaut-record"
        )
        self.same(
            "the status, and whether there is one",
            (status, os.path.exists(f"{self.room}/calls.txt")),
            (1, False),
        )

    def test_a_recording_of_before_is_kept_where_a_test_does_not_end(self):
        text = RECORDED.format(library=FULL, program=PROGRAM, number=1) + "    server.objects()\n"
        self.passes("it is recorded", text, "--oaut-record")
        with open(f"{self.room}/calls.txt") as file:
            before = file.read()
        for name, end, wanted in (
            ("Ctrl-C", "raise KeyboardInterrupt", 2),
            ("a skip", "__import__('pytest').skip()", 0),
            ("an exit", "__import__('pytest').exit('now')", 2),
        ):
            status, said = self.pytested(text.replace("server.objects()", end), "--oaut-record")
            with open(f"{self.room}/calls.txt") as file:
                self.tell(name, (status, file.read()) == (wanted, before), (status, said[-1_000:]))


@unittest.skipUnless(PYTHONS, "no Python has pytest")
@unittest.skipUnless(os.path.exists(PROGRAM), "the program is not there")
class Tutorial(ClientCases):
    """docs/guide/testing.md, but for the environment that it makes: the client is the
    repository's."""

    # the lines of the page that are run, by how they begin
    runs = ("oaut-tools ", "python -m ", "rm ")
    before = ""  # what each of them needs in its shell

    def setUp(self):
        folder = tempfile.TemporaryDirectory()
        self.addCleanup(folder.cleanup)
        self.room = folder.name
        os.mkdir(f"{self.room}/bin")
        os.symlink(PROGRAM, f"{self.room}/bin/oaut")
        for name, words in (("python", ""), ("oaut-tools", "-m oaut ")):
            with open(f"{self.room}/bin/{name}", "w") as file:
                file.write(f'#!/bin/sh\nexec {PYTHONS[0]} {words}"$@"\n')
            os.chmod(f"{self.room}/bin/{name}", 0o755)
        self.how = {
            "cwd": self.room,
            "env": {
                **ENVIRONMENT,
                "PATH": f"{self.room}/bin:{os.environ['PATH']}",
                "PYTEST_PLUGINS": "oaut.pytest",
            },
            "capture_output": True,
            "text": True,
            "timeout": 300,
        }
        with open(f"{ROOT}/docs/guide/testing.md", encoding="utf-8") as file:
            self.page = file.read()

    def run_line(self, line):
        done = subprocess.run(["bash", "-c", self.before + line], **self.how)
        return done.returncode, done.stdout + done.stderr

    def test_word_for_word(self):
        """Files are written and commands run as they stand there, and each run says what the page
        says of it."""
        for part in re.finditer(
            r"(?:Write this to\s+`([^`]+)`:\n\n)?```(\w*)\n(.*?)```(?:\n\n"
            r"pytest prints `([^`]+)`)?",
            self.page,
            re.DOTALL,
        ):
            name, language, text, says = part.groups()
            if language:
                with open(f"{self.room}/{name or 'last.py'}", "w") as file:
                    file.write(text)
                continue
            for line in text.splitlines():
                if line.startswith(self.runs):
                    status, said = self.run_line(line)
                    self.tell(
                        line,
                        status == 0 and (not says or not line.startswith("python") or says in said),
                        said[-1_000:],
                    )
        shown = re.search(r"```\n(> INVOKE object 2 .*?)```", self.page, re.DOTALL)[1]
        with open(f"{self.room}/report.txt") as file:
            self.tell("what a recording looks like", shown in file.read(), shown)
        self.same(
            "what stands last",
            self.run_line("python last.py"),
            (0, "<oaut.Library: 1 interfaces, coclasses Item>\n"),
        )
        with open(f"{self.room}/counting.py", "r+") as file:
            text = file.read().replace("count += 1\n", "count += 1\n            item.release()\n")
            file.seek(0)
            file.write(text)
        status, said = self.run_line("python -m pytest -q test_report.py")
        told = re.search(r"ReplayDiffers: \.\.(/report\.txt: .*)", self.page)[1]
        self.tell("what differs", status == 1 and told in said, said[-1_000:])


@unittest.skipUnless(FRESH, "no Python has pytest, venv and ensurepip")
class TutorialInAFreshEnvironment(Tutorial):
    """The same with the page's own environment: the wheel is that of dist/pack, and its lines
    install it."""

    runs = (*Tutorial.runs, "python3 -m venv ", "pip install ")
    before = "[ ! -e venv/bin/activate ] || . venv/bin/activate; "

    def setUp(self):
        super().setUp()
        shutil.rmtree(f"{self.room}/bin")
        done = subprocess.run(
            [sys.executable, f"{PACKAGE}/wheels.py", PROGRAM, self.room],
            capture_output=True,
            text=True,
        )
        self.same("the wheel is made", (done.returncode, done.stderr), (0, ""))
        clean = {
            name: value
            for name, value in os.environ.items()
            if not name.startswith(("PYTHON", "PYTEST", "VIRTUAL", "PIP_"))
        }
        # (no line of the page needs a network, and pip is to ask for none)
        own = {
            "PATH": f"{os.path.dirname(FRESH[0])}:{os.environ['PATH']}",
            "PIP_NO_INDEX": "1",
            "PIP_DISABLE_PIP_VERSION_CHECK": "1",
            "PIP_NO_INPUT": "1",
        }
        # (an environment is some thousand files, which takes minutes while others use the disk)
        self.how.update(env={**clean, **own}, timeout=1_200)

    def test_word_for_word(self):
        super().test_word_for_word()
        status, said = self.run_line(
            "python -c 'import oaut; print(oaut.__file__)'; which oaut oaut-tools"
        )
        places = said.split()
        self.tell(
            "what ran is what was installed",
            status == 0
            and len(places) == 3
            and all(it.startswith(f"{self.room}/venv/") for it in places),
            said,
        )
