"""The start pages for spreadsheets: their bytes, and LibreOffice's in LibreOffice without a window,
before a server. What is not installed leaves its tests out, each by its name."""
import ast
import json
import os
import shutil
import signal
import subprocess
import tempfile
import unittest
import zipfile

from tests.com.under_wine import Server
from tests.support.running import PROGRAM, ROOT, Cases

from dist import sheets

UNO = "/usr/lib/python3/dist-packages/uno.py"
PROVIDER = "/usr/lib/libreoffice/program/pythonscript.py"
LIBRARY = f"{ROOT}/clients/com/example/table.idl"
# pyenv's Python must not take the place of LibreOffice's
OFFICE = {"PATH": "/usr/bin:/bin", "LC_ALL": "C.UTF-8"}
MISSING = [
    name
    for name, found in (
        ("soffice", shutil.which("soffice")),
        ("uno", os.path.exists(UNO)),
        (PROVIDER, os.path.exists(PROVIDER)),
    )
    if not found
]


class Bytes(Cases):
    def test_two_runs_make_the_same_bytes(self):
        with tempfile.TemporaryDirectory() as room:
            made = []
            for it in ("one", "two"):
                os.mkdir(f"{room}/{it}")
                made.append(
                    [open(path, "rb").read() for path in sheets.both(f"{room}/{it}", 1_700_000_000)]
                )
            self.tell("two files, the same twice", len(made[0]) == 2 and made[0] == made[1])

    def test_the_macros_are_text_that_their_languages_take(self):
        with open(f"{ROOT}/{sheets.MACROS['oaut.ods']}") as file:
            names = [
                it.name for it in ast.parse(file.read()).body if isinstance(it, ast.FunctionDef)
            ]
        self.tell("LibreOffice's", {"put_range", "get_range"} <= set(names), names)
        with open(f"{ROOT}/{sheets.MACROS['oaut.xlsx']}") as file:
            lines = [it.strip() for it in file]
        for word in ("Sub", "Function"):
            begun, ended = sum(
                f"{word} " in f"{it} " and it.startswith(("Public", "Private")) for it in lines
            ), lines.count(f"End {word}")
            self.tell(f"Excel's: each {word} has its end", begun == ended > 0, (begun, ended))
        self.tell(
            "each sub that a person starts has its handler",
            lines.count("On Error GoTo Failed") == lines.count("Failed:") == 2,
            lines,
        )

    def test_each_file_is_a_package_of_its_kind(self):
        with tempfile.TemporaryDirectory() as room:
            book, document = (zipfile.ZipFile(it) for it in sheets.both(room, 1_700_000_000))
            with book, document:
                self.same(
                    "its first part is what readers look at",
                    document.infolist()[0].filename,
                    "mimetype",
                )
                self.same(
                    "stored as it is", document.infolist()[0].compress_type, zipfile.ZIP_STORED
                )
                self.tell(
                    "the macro is in it",
                    "Scripts/python/oaut_range.py" in document.namelist(),
                    document.namelist(),
                )
                self.tell(
                    "the workbook has three sheets",
                    sum(it.startswith("xl/worksheets/") for it in book.namelist()) == 3,
                    book.namelist(),
                )

    def same(self, what, got, wanted):
        self.tell(what, got == wanted, f"wanted {wanted!r}, got {got!r}")


@unittest.skipIf(MISSING, f"{', '.join(MISSING)} not there")
@unittest.skipUnless(os.path.exists(PROGRAM), "the program is not there")
class InLibreOffice(Cases):
    def uses(self, room, *steps):
        """What LibreOffice shows at each step that asks for cells."""
        env = {**os.environ, **OFFICE, "PYTHONPATH": f"{ROOT}/clients/python", "HOME": room}
        pipe = f"oaut-{os.getpid()}"
        words = [
            "soffice",
            "--headless",
            "--norestore",
            "--nologo",
            "--nodefault",
            f"-env:UserInstallation=file://{room}/profile",
        ]
        quiet = {"stdout": subprocess.DEVNULL, "stderr": subprocess.DEVNULL}
        running = subprocess.Popen(
            [*words, f"--accept=pipe,name={pipe};urp;"], env=env, start_new_session=True, **quiet
        )
        try:
            words = ["/usr/bin/python3", f"{ROOT}/tests/client/spreadsheet.py", pipe, *steps, "end"]
            done = subprocess.run(words, env=env, capture_output=True, text=True, timeout=800)
            # (the connection ends with LibreOffice, which may be told as a failure)
            return [json.loads(it) for it in done.stdout.splitlines()] or done.stderr
        finally:
            try:
                running.wait(300)
            except subprocess.TimeoutExpired:
                os.killpg(running.pid, signal.SIGKILL)
                running.wait()

    def steps(self, document, port):
        """What is done in the office, in this order."""
        said = "get=Range.A7:A7"
        return [
            *(f"open={document}", "get=Range.A1:C5"),
            *("set=Start.B2=127.0.0.1:1", "run=put_range", said),
            *(f"set=Start.B2=127.0.0.1:{port}", "run=get_range", said),
            *("run=put_range", said, "set=Range.B2=7", "run=get_range", said, "get=Range.E1:G5"),
            *("set=Range.B2=1e300", "run=put_range", said),
            *(
                "set=Range.B2=-1234567890.5",
                "set=Range.C5=",
                "run=put_range",
                said,
                "run=get_range",
                "get=Range.E1:G5",
            ),
        ]

    def test_a_range_is_put_and_read_back(self):
        with tempfile.TemporaryDirectory() as room:
            _, document = sheets.both(room, 1_700_000_000)
            subprocess.run(
                [PROGRAM, "format", f"{room}/it.store", LIBRARY],
                check=True,
                stdout=subprocess.DEVNULL,
            )
            server = Server()
            server.words = [PROGRAM, "serve", f"{room}/it.store", LIBRARY]
            try:
                shown = self.uses(room, *self.steps(document, server.port))
            finally:
                server.close()
            wanted = [
                [float(it) if isinstance(it, int) else it for it in row] for row in sheets.RANGE
            ]
            later = [list(row) for row in wanted]
            later[1][1], later[4][2] = -1234567890.5, ""
            for name, got, want in (
                ("the range of the file", shown[0], wanted),
                (
                    "a server that is not there is named",
                    "Connection refused" in shown[1][0][0] and "127.0.0.1:1" in shown[1][0][0],
                    True,
                ),
                ("what was never put", shown[2], [["The range was not read: put it first"]]),
                ("the range is put", shown[3], [["The range is in the store."]]),
                ("it is read", shown[4], [["5 rows and 3 columns were read."]]),
                ("as it was put", shown[5], wanted),
                (
                    "a number that is too large",
                    shown[6],
                    [
                        [
                            "The range was not put: the number of the cell B2 has more digits than "
                            "a DECIMAL keeps"
                        ]
                    ],
                ),
                ("a later one is put", shown[7], [["The range is in the store."]]),
                ("and read", shown[8], later),
            ):
                self.tell(name, got == want, f"wanted {want!r}, got {got!r}")

    def test_excels_workbook_is_one(self):
        with tempfile.TemporaryDirectory() as room:
            book, _ = sheets.both(room, 1_700_000_000)
            shown = self.uses(
                room, f"open={book}", "get=Range.A1:C5", "get=Start.A1:A1", "get=Macro.A3:A3"
            )
            wanted = [
                [float(it) if isinstance(it, int) else it for it in row] for row in sheets.RANGE
            ]
            self.tell(
                "its cells, as another program reads them",
                shown == [wanted, [[sheets.EXCEL[0]]], [["Option Explicit"]]],
                shown,
            )


if __name__ == "__main__":
    unittest.main()
