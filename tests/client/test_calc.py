"""The example of a Calc document, under LibreOffice without a screen: its macro fills a table from
a store, and puts what is changed into it."""
import importlib.util
import os
import shutil
import subprocess
import tempfile
import unittest

from tests.client.clients import FULL, PACKAGE, PROGRAM, ROOT, ClientCases, oaut

SOFFICE, PYTHON = shutil.which("soffice"), "/usr/bin/python3"
SCRIPTS = "/usr/lib/libreoffice/program/pythonscript.py"
# what a hand at the document does: it opens it, runs `fill`, and changes cells; behind each it
# prints what the status and the table hold
DRIVER = """
import sys, time, uno
from com.sun.star.beans import PropertyValue
pipe, url = sys.argv[1:]
def made(context, name):
    return context.ServiceManager.createInstanceWithContext(f"com.sun.star.{name}", context)
def words(**given):
    return tuple(PropertyValue(Name=name, Value=value) for name, value in given.items())
resolver = made(uno.getComponentContext(), "bridge.UnoUrlResolver")
for turn in range(3_000):
    try:
        context = resolver.resolve(f"uno:pipe,name={pipe};urp;StarOffice.ComponentContext")
        break
    except Exception:
        time.sleep(0.1)
desktop = made(context, "frame.Desktop")
how = words(Hidden=True, MacroExecutionMode=4)
document = desktop.loadComponentFromURL(url, "_blank", 0, how)
sheet = document.Sheets.getByIndex(0)
def tell():
    cells = [[sheet.getCellByPosition(column, row) for column in range(4)] for row in range(6, 10)]
    rows = [[it.String for it in row] for row in cells]
    print([sheet.getCellByPosition(1, 4).String, *rows], flush=True)
fill = "vnd.sun.star.script:objects.py$fill?language=Python&location=document"
document.getScriptProvider().getScript(fill).invoke((), (), ())
tell()
helper, frame = made(context, "frame.DispatchHelper"), document.CurrentController.Frame
for cell, typed in ("$B$8", "41"), ("$B$9", "2147483648"), ("$C$9", "two"):
    helper.executeDispatch(frame, ".uno:GoToCell", "", 0, words(ToPoint=cell))
    helper.executeDispatch(frame, ".uno:EnterString", "", 0, words(StringName=typed))
    tell()
document.close(True)
try:
    desktop.terminate()
except Exception:
    pass
"""


def has_uno():
    return (
        os.path.exists(PYTHON)
        and subprocess.run([PYTHON, "-c", "import uno"], capture_output=True).returncode == 0
    )


@unittest.skipUnless(os.path.exists(PROGRAM), "the program is not there")
@unittest.skipUnless(
    SOFFICE and os.path.exists(SCRIPTS) and has_uno(),
    "libreoffice-calc, libreoffice-script-provider-python or python3-uno is not there",
)
class Calc(ClientCases):
    def driven(self, room):
        """What the driver says of the office with the document in a folder."""
        with open(f"{room}/driver.py", "w") as file:
            file.write(DRIVER)
        pipe = f"oaut{os.getpid()}"
        words = [
            SOFFICE,
            "--headless",
            "--norestore",
            "--nologo",
            f"--accept=pipe,name={pipe};urp;",
            f"-env:UserInstallation=file://{room}/profile",
        ]
        # (the office has a Python of its own, which finds its library by the path)
        office = subprocess.Popen(
            words,
            env={"PATH": "/usr/bin:/bin", "HOME": room, "PYTHONPATH": PACKAGE},
            stdout=subprocess.DEVNULL,
            stderr=subprocess.DEVNULL,
            start_new_session=True,
        )
        try:
            done = subprocess.run(
                [PYTHON, f"{room}/driver.py", pipe, f"file://{room}/objects.ods"],
                capture_output=True,
                text=True,
                timeout=800,
            )
        finally:
            if office.poll() is None:
                os.killpg(office.pid, 9)
                office.wait()
        return done

    def test_a_table_of_objects(self):
        spec = importlib.util.spec_from_file_location(
            "document", f"{ROOT}/examples/calc/document.py"
        )
        document = importlib.util.module_from_spec(spec)
        spec.loader.exec_module(document)
        with tempfile.TemporaryDirectory() as room:
            store = f"{room}/it.store"
            oaut.make_store(store, FULL, program=PROGRAM)
            with oaut.serve(store, FULL, program=PROGRAM) as server:
                for number in (7, 8):
                    item = server.create("Item")
                    item.Count, item.Name = number, f"item {number}"
            document.make(
                f"{room}/objects.ods", program=PROGRAM, store=store, library=FULL, coclass="Item"
            )
            done = self.driven(room)
            told = [eval(line) for line in done.stdout.splitlines()]
            self.tell("the driver", done.returncode == 0 and len(told) == 4, done.stderr[-2_000:])
            heads = ["object", "Count", "Name", "Price"]
            for place, (status, count, second) in enumerate(
                (
                    ("2 objects", "7", "item 8"),
                    ("put Item 1, Count", "41", "item 8"),
                    (None, "41", "item 8"),
                    ("put Item 2, Name", "41", "two"),
                )
            ):
                got = told[place] if place < len(told) else []
                self.same(
                    f"the table behind act {place}",
                    [row[:3] for row in got[1:]],
                    [heads[:3], ["1", count, "item 7"], ["2", "8", second], ["", "", ""]],
                )
                if status:
                    self.same(f"the status behind act {place}", got[0], status)
            self.tell(
                "what was refused is told",
                len(told) > 2 and "DISP_E_OVERFLOW" in told[2][0],
                told[2:3],
            )
            with oaut.serve(store, FULL, program=PROGRAM) as server:
                self.same(
                    "what the store has",
                    [(it.Count, it.Name) for it in server.objects()],
                    [(oaut.I4(41), "item 7"), (oaut.I4(8), "two")],
                )
