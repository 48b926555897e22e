"""The Python of the repository: lines of at most 100 columns. In tests, no function has more than
60 lines, and nothing changes the path of modules."""
import ast
import os
import subprocess

from tests.support.running import ROOT, Cases

COLUMNS, LINES = 100, 60
FOLDERS = ("bench", "clients", "dist", "examples", "tests", "tools")
# (in two parts, since this file is looked at too)
PATH = "sys" + ".path"


def python_files():
    """The files in Python that git has or would have, as paths from the root."""
    words = ["git", "-C", ROOT, "ls-files", "-co", "--exclude-standard", "--", *FOLDERS]
    found = subprocess.run(words, capture_output=True, text=True, check=True).stdout.split()
    return sorted({it for it in found if os.path.isfile(f"{ROOT}/{it}") and is_python(it)})


def is_python(path):
    if path.endswith(".py"):
        return True
    if "." in os.path.basename(path):
        return False
    with open(f"{ROOT}/{path}", "rb") as file:
        return b"python3" in file.readline()


def violations(path, source):
    """What is wrong with a file, as (line, what it is)."""
    lines = source.split("\n")
    for number, line in enumerate(lines, 1):
        if len(line) > COLUMNS:
            yield number, f"{len(line)} columns"
        if path.startswith("tests/") and PATH in line:
            yield number, PATH
    if not path.startswith("tests/"):
        return
    for it in ast.walk(ast.parse(source)):
        if isinstance(it, (ast.FunctionDef, ast.AsyncFunctionDef)):
            first = min([it.lineno, *(one.lineno for one in it.decorator_list)])
            if it.end_lineno - first + 1 > LINES:
                yield first, f"{it.name} has {it.end_lineno - first + 1} lines"


class Python(Cases):
    def test_lines_and_functions(self):
        files = python_files()
        self.tell("files of each folder", {it.split("/")[0] for it in files} == {*FOLDERS}, files)
        for path in files:
            with open(f"{ROOT}/{path}", encoding="utf-8") as file:
                found = [f"{path}:{line}: {what}" for line, what in violations(path, file.read())]
            self.tell(path, not found, found)

    def test_that_each_is_found(self):
        body = "    pass\n" * LINES
        for name, path, source, wanted in (
            ("a long line", "bench/a.py", f"x = {'1' * 97}\n", ["101 columns"]),
            ("one of 100 columns", "bench/a.py", f"x = {'1' * 96}\n", []),
            ("a path that is changed", "tests/a.py", f"{PATH}.append('x')\n", [PATH]),
            ("one of a benchmark", "bench/a.py", f"{PATH}.append('x')\n", []),
            ("a long test", "tests/a.py", f"def f():\n{body}", ["f has 61 lines"]),
            ("one by its decorator", "tests/a.py", f"@a\ndef f():\n{body[9:]}", ["f has 61 lines"]),
            ("a test of 60 lines", "tests/a.py", f"def f():\n{body[9:]}", []),
        ):
            found = [what for _, what in violations(path, source)]
            self.tell(name, found == wanted, found)
