"""The window of oautreg.exe, used by messages as a person does by the mouse, under Wine before a
display without a screen. What is not installed leaves its tests out, each by its name."""
import os
import subprocess
import tempfile
import time
import unittest

from tests.com.under_wine import NOT_STARTED, TIMEOUT, UnderWine, left_out, needs_wine, plain, write
from tests.support.running import goes_on

# the parts of the window, as clients/com/window.h numbers them
NAME, ADDRESS, TEXTS, ALL_USERS, TEST, ADD, REPAIR, REMOVE = 101, 102, 104, 105, 106, 107, 109, 110


@needs_wine
@left_out("Xvfb")
class Window(UnderWine):
    @classmethod
    def setUpClass(cls):
        super().setUpClass()
        words = ["Xvfb", "-displayfd", "1", "-screen", "0", "800x600x24", "-nolisten", "tcp"]
        cls.display = subprocess.Popen(words, stdout=subprocess.PIPE, stderr=subprocess.DEVNULL)
        number = cls.display.stdout.readline().decode().strip()
        cls.env = {**cls.wine.env, "DISPLAY": f":{number}"}

    @classmethod
    def tearDownClass(cls):
        cls.display.terminate()
        cls.display.communicate()

    def setUp(self):
        super().setUp()
        self.bridge.new_store()
        self.bridge.register("Demo", "/u")
        self.address = f"127.0.0.1:{self.server.port}"

    def tearDown(self):
        self.bridge.settle()
        self.bridge.set()

    def start(self, *words):
        """Starts a program on a desktop of its own: Wine's first one has begun without a
        display."""
        said = tempfile.TemporaryFile()
        quiet = {"stdin": subprocess.DEVNULL, "stdout": said, "stderr": subprocess.DEVNULL}
        return (
            subprocess.Popen(
                ["wine", "explorer", "/desktop=tests,800x600", *words],
                env=self.env,
                cwd=self.bridge.room,
                **quiet,
            ),
            said,
            words,
        )

    def is_there(self, started):
        """The same, or another try where Wine has started nothing, as now and then on a busy
        machine."""
        process, said, words = started
        if process.poll() is None or not os.pread(said.fileno(), 100, 0).startswith(NOT_STARTED):
            return started
        return self.start(*words)

    def uses(self, *steps):
        """What the window shows at each step."""
        goes_on()
        file = f"{self.bridge.room}/steps.txt"
        if os.path.exists(file):
            os.remove(file)
        shown = self.start("built\\oautreg.exe", "window")
        steps = self.start("cmd", "/c", f"built\\window.exe {' '.join(steps)} > steps.txt")
        until = time.monotonic() + TIMEOUT
        said = ""
        while time.monotonic() < until and not said.endswith(("end\n", "there is no window\n")):
            time.sleep(0.1)
            shown, steps = self.is_there(shown), self.is_there(steps)
            if os.path.exists(file):
                with open(file, "rb") as lines:
                    before, said = said, plain(lines.read())
                if said != before:
                    goes_on()
        goes_on()
        # (the next window is on a desktop of the same name, which has to be gone with this one)
        for it, *_ in (shown, steps):
            try:
                it.wait(TIMEOUT / 4)
            except subprocess.TimeoutExpired:
                it.kill()
                self.tell("the window is closed", False)
        return said.splitlines()

    def same(self, what, got, wanted):
        self.tell(
            what,
            got == wanted,
            f"wanted {wanted!r}, got {got!r}; the last programs behind the server: "
            f"{[*self.server.statuses]}",
        )

    def test_a_server_is_tested_registered_repaired_and_removed(self):
        refused = (
            "oautcom: the server was not reached; nothing was sent; 127.0.0.1:1: connection "
            "refused: nothing listens there, 10061 "
        )
        done, name = (
            "Desk is {} for programs of 64 bits",
            f"Desk, {self.address}, all users, 3 classes for 64 bits",
        )
        got = self.uses(
            *("list", f"field={ADDRESS}"),
            *(f"press={ADD}", "said"),
            *(f"press={REMOVE}", "said"),
            *(f"set={ADDRESS}=127.0.0.1:1", f"press={TEST}", "said"),
            *(f"set={ADDRESS}={self.address}", f"press={TEST}", "said"),
            *(f"set={NAME}=Desk", f"check={ALL_USERS}", f"press={ADD}", "said", "list"),
            *("choose=0", f"field={NAME}", f"press={REPAIR}", "said"),
            *(f"press={REMOVE}", "said", "list"),
            "close",
        )
        wanted = [
            *(
                "localhost:8765",
                "give a name: letters, digits and _",
                "choose a line of what is registered first",
            ),
            f"{refused}(RPC_S_SERVER_UNAVAILABLE, 0x800706BA)",
            *(f"{self.address} has the coclass {it}" for it in ("Item", "Shelf")),
            *(
                done.format("registered"),
                name,
                "Desk",
                done.format("registered"),
                done.format("removed"),
                "end",
            ),
        ]
        self.same("what it shows", got, wanted)
        self.tell("the name is gone", not self.bridge.has("HKCR\\Desk.Item"))

    def test_what_is_registered_and_damaged_is_shown(self):
        self.bridge.register("Demo")
        self.bridge.enter("[-HKEY_CLASSES_ROOT\\Demo.Item]\n")
        line = f"Demo, {self.address}, all users, 3 classes for 64 bits"
        got = self.uses("list", "choose=0", f"press={REPAIR}", "list", f"field={ADDRESS}", "close")
        self.same("what it shows", got, [f"{line}, damaged: repair it", line, self.address, "end"])

    def test_a_window_that_is_closed_waits_for_its_command(self):
        """Else a registration would be left half entered, or not at all without a word. The server
        replies once there is a file."""
        go, words = tempfile.mktemp(dir=self.bridge.room), self.server.words
        self.server.words = [
            "sh",
            "-c",
            f'while [ ! -e "{go}" ]; do sleep 0.1; done; exec "$@"',
            "sh",
            *words,
        ]
        adds = (
            f"set={NAME}=Desk",
            f"set={ADDRESS}={self.address}",
            f"check={ALL_USERS}",
            f"start={ADD}",
        )
        try:
            got = self.uses(
                *adds, "closing", "said", "closing", "said", f"file={os.path.basename(go)}"
            )
        finally:
            self.server.words = words
            write(go, "")
        line = "this window closes when that has ended"
        self.same("what it shows", got, [line, line, "end"])
        names = ["Desk.Item", "Desk.Shelf", "Desk.Store"]
        self.same(
            "what is registered", [it for it in names if self.bridge.has(f"HKCR\\{it}")], names
        )
        self.bridge.register("Desk", "/u")
        self.same("it is removed", [it for it in names if self.bridge.has(f"HKCR\\{it}")], [])

    def test_a_failure_of_the_registration_is_shown(self):
        self.bridge.register("Demo")
        got = self.uses(
            f"set={NAME}=Other",
            f"set={ADDRESS}={self.address}",
            f"check={ALL_USERS}",
            f"check={TEXTS}",
            f"press={ADD}",
            "said",
            "close",
        )
        self.tell(
            "it names the first one",
            len(got) == 2 and "its class is registered as Demo.Store" in got[0],
            (got, [*self.server.statuses]),
        )
        self.tell(
            "the first one stays",
            self.bridge.has("HKCR\\Demo.Item") and not self.bridge.has("HKCR\\Other.Item"),
        )


if __name__ == "__main__":
    unittest.main()
