"""The scripts and commands of docs/guide/com.md and docs/guide/import.md, run under Wine as the
pages have them; and the script of docs/guide/dcom.md, with the bridge in the place of DCOM. What is
not installed leaves its tests out, each by its name."""
import os
import shutil
import unittest

from tests.com.under_wine import (
    COM,
    TIMEOUT,
    WINE32,
    WINE64,
    UnderWine,
    left_out,
    needs_wine,
    reserved,
    windows,
    write,
)
from tests.support.examples import Room, block, needs_network
from tests.support.running import ROOT

COM_PAGE, DCOM_PAGE, IMPORT_PAGE = "docs/guide/com.md", "docs/guide/dcom.md", "docs/guide/import.md"
SHEET = f"{COM}/example/sheet.idl"
HUB = 'Set hub = CreateObject("Desk.Store")\n'
# waits for the server of a port: registration asks it, and systemd-socket-activate may not listen
# at once
WAITS = """import socket, sys, time
while True:
    try:
        socket.create_connection(("127.0.0.1", int(sys.argv[1]))).close()
        break
    except ConnectionRefusedError:
        time.sleep(0.05)
"""


def one_line(text):
    return " ".join(text.split())


class Registered(UnderWine):
    def desk(self, library):
        """Registers the classes of a library as Desk, in place of Demo's."""
        self.bridge.register("Demo", "/u")
        self.addCleanup(self.bridge.register, "Demo")
        self.addCleanup(self.bridge.new_store)
        self.addCleanup(self.bridge.register, "Desk", "/u")
        self.bridge.new_store(library)
        self.tell("registered", self.bridge.register("Desk") == 0)

    def prints(self, what, script, wanted):
        write(f"{self.bridge.room}/page.vbs", script)
        said = self.wine.run("cscript", "//nologo", "page.vbs")[1]
        self.tell(what, said == wanted, said)


@needs_wine
class OfCom(Registered):
    def test_the_sheet(self):
        self.desk(SHEET)
        first = block(COM_PAGE, "Set sheets = CreateObject")
        for wanted in ("Sheet 1\n", "Sheet 2\n"):
            self.prints(
                "the first script",
                first + 'WScript.Echo "Sheet " & sheet.Cell("Monday", "tea")\n',
                wanted,
            )
        each = block(COM_PAGE, "For Each sheet In hub.Objects")
        self.prints(
            "each object", f"{HUB}{each}    WScript.Echo hub.NumberOf(sheet)\nNext\n", "1\n"
        )
        lock = block(COM_PAGE, "Do While hub.Lock")
        before, then = (
            'Set sheet = hub(1)\nsheet.Rows = Array("a")\n',
            'WScript.Echo sheet.Cell("Monday", "tea"), hub.Lock(sheet, "Rows")\n',
        )
        self.prints(
            "a lock as a mutex: it was had, and given back", HUB + before + lock + then, "3 1\n"
        )

    def test_errors(self):
        self.desk(SHEET)
        script = (
            'Set sheet = CreateObject("Desk.Sheet")\nOn Error Resume Next\n'
            'x = sheet.Cell(70000, "tea")\nWScript.Echo Err.Description\n'
        )
        self.prints(
            "the description of an error",
            script,
            one_line(block(COM_PAGE, "Desk.Sheet 1, Cell: the value")) + "\n",
        )
        at = f"127.0.0.1:{self.server.port}"
        _, said = self.wine.said("regsvr32", "/s", "/n", f"/i:Test@{at}", self.bridge.dll)
        wanted = one_line(block(COM_PAGE, "Test.Store: its class")).replace("localhost:8765", at)
        self.tell("a second name", wanted in one_line(said), said)

    @needs_network
    @left_out("systemd-socket-activate")
    def test_the_setup(self):
        asks = (
            "import oaut\nwith oaut.connect(('localhost', 8765), timeout=180, patience=180) as "
            "server:\n    print(server.create('Sheet'))\n"
        )
        with Room() as room:
            room.write("asks.py", asks)
            made, *rest = block(COM_PAGE, "oaut format sheets.store").splitlines()
            self.tell(made, room.run(made)[0] == 0)
            status, said = room.run_beside("\n".join(rest), "python3 asks.py")
            self.tell(
                "a client is served", (status, said) == (0, "<Sheet 1>\n"), (said, room.served)
            )

    def test_the_script_of_dcom(self):
        """Without the server's name: a remote activation needs Windows."""
        self.desk(f"{ROOT}/clients/com/tests/demo.idl")
        script = block(
            DCOM_PAGE, 'Set hub = CreateObject("Desk.Store", "store.example.org")'
        ).replace(', "store.example.org"', "")
        self.prints("the script", script, "1 0\n")
        self.prints("what it has put", f"{HUB}WScript.Echo hub(1).Price\n", "19.99\n")


@needs_wine
class OfImport(UnderWine):
    @left_out("systemd-socket-activate")
    def test_the_firewall(self):
        """The commands, with a free port, and a second run of the script."""
        place = reserved()
        port = str(place.getsockname()[1])
        self.addCleanup(place.close)
        with Room() as room:
            for it in ("tlb2idl.exe", "oautcom.dll"):
                shutil.copy(f"{self.bridge.room}/built/{it}", f"{room.path}/{it}")
            room.env.update(
                {
                    it: self.wine.env[it]
                    for it in ("WINEPREFIX", "WINEDEBUG", "WINEARCH", "WINEDLLOVERRIDES", "LC_ALL")
                }
            )
            room.env.pop("DISPLAY", None)
            if os.path.isdir(WINE32):
                room.write("bin/wine", f'#!/bin/sh\nexec {WINE64} "$@"\n', 0o755)
            room.write("rule.vbs", block(IMPORT_PAGE, 'Set hub = CreateObject("Test.Store")'))
            room.write("waits.py", WAITS)
            text = (
                block(IMPORT_PAGE, "wine tlb2idl.exe")
                .replace("8777", port)
                .replace("&\n", f"&\npython3 waits.py {port}\n")
            )
            # (the name alone is refused, without a word to whoever does not look at the status)
            again, name = text.splitlines()[-1], f"/i:Test@127.0.0.1:{port}"
            ends = f"wine regsvr32 /s /u /n {name} oautcom.dll"
            try:
                status, said = room.run(
                    f"trap 'kill $(jobs -p)' EXIT\n{text}{again}\n{ends}\n", TIMEOUT
                )
            finally:
                # (the last command removes the classes, unless Wine ends it or one before it)
                self.wine.said("regsvr32", "/s", "/u", "/n", name, f"{room.path}/oautcom.dll")
            printed = [it for it in said.splitlines() if it.startswith("web ")]
            self.tell(
                "both runs", printed == ["web 80,443 -1 0", "web 80,443 -1 1"], (status, said)
            )
            self.tell(
                "nothing stays registered",
                not self.bridge.has("HKCR\\Test.Store")
                and not self.bridge.has("HKCR\\Test.NetFwRule"),
            )

    def test_what_is_left_out(self):
        words = [
            f"{self.bridge.room}/built/tlb2idl.exe",
            "C:\\windows\\system32\\hnetcfg.dll",
            "-o",
            windows(f"{self.bridge.room}/all.idl"),
        ]
        said, lines = (
            self.wine.said(*words)[1],
            block(IMPORT_PAGE, "INetFwPolicy.CurrentProfile").splitlines(),
        )
        self.tell(
            "lines of the page, in their order",
            [it for it in said.splitlines() if it in lines] == lines,
            said,
        )


if __name__ == "__main__":
    unittest.main()
