"""The installer for Windows, under Wine: what it installs works, and what it removes leaves the
registry as it was. What is not installed leaves its tests out, each by its name."""
import contextlib
import functools
import os
import re
import shutil
import socket
import subprocess
import tempfile
import threading
import time
import unittest
import unittest.mock

from tests.com.under_wine import (
    COM,
    HUB,
    ITEM,
    WINE32,
    UnderWine,
    Wine,
    built,
    left_out,
    needs_wine,
    needs_wine32,
    passes,
    text,
    windows,
    write,
)
from tests.support.running import ROOT, Cases

from dist import windows as packing

# Wine's own: an installation, and a program that has looked for one, leave these keys, which are
# empty
OWN = re.compile(
    r"\[HKEY_CURRENT_USER\\Software\\(Classes|Microsoft\\Installer(\\(Features|Products|"
    r"UpgradeCodes))?)\]"
    r"|\[HKEY_LOCAL_MACHINE\\Software\\(Wow6432Node\\)"
    r"?Microsoft\\Windows\\CurrentVersion\\(Installer(\\[\w-]+)*|Uninstall)\]"
)


@functools.lru_cache(None)
def packed(bridge):
    """A folder of what is built, of each bits that programs run here, and two versions of the
    installer."""
    folder = f"{bridge.room}/packed"
    shutil.copytree(
        f"{bridge.room}/built",
        f"{folder}/64",
        ignore=lambda _, names: [it for it in names if it not in packing.PROGRAMS],
    )
    if os.path.isdir(WINE32) and shutil.which("i686-w64-mingw32-gcc"):
        os.makedirs(f"{folder}/32")
        said = built([f"{COM}/build.sh", f"{folder}/32", "32"])
        if said != (0, ""):
            raise AssertionError(said)
    for version in ("1.2.3", "1.2.4"):
        packing.installer(folder, version, 1_700_000_000, bridge.room)
    return folder


@needs_wine
class Installed(UnderWine):
    """On a Windows of 64 bits, with programs of 32 if they run here."""

    @classmethod
    def setUpClass(cls):
        super().setUpClass()
        cls.folder = packed(cls.bridge)
        cls.there = [it for it in (64, 32) if os.path.isdir(f"{cls.folder}/{it}")]
        cls.made = 0
        # (the menu of a Linux desktop is not to have an entry)
        cls.wine.env["WINEDLLOVERRIDES"] += ";winemenubuilder.exe=d"
        cls.home = (
            f"{cls.wine.room}/wine/drive_c/users/{os.environ.get('USER') or 'root'}/AppData/Local/"
            "Programs/oaut"
        )

    def setUp(self):
        super().setUp()
        self.bridge.new_store()
        self.bridge.register("Demo", "/u")
        self.address = f"127.0.0.1:{self.server.port}"

    def tearDown(self):
        self.bridge.set()

    def registry(self):
        """All values of the parts of the registry that programs write to."""
        found = set()
        for root in ("HKLM\\Software", "HKCU"):
            file = f"{self.bridge.room}/registry.txt"
            self.wine.run("reg", "export", root, windows(file), "/y")
            with open(file, encoding="utf-16") as lines:
                key = ""
                for line in lines.read().replace("\\\n  ", "").split("\n"):
                    key = line if line.startswith("[") else key
                    found.add((key, line))
            os.remove(file)
        return {it for it in found if it[1] and not (it[0] == it[1] and OWN.fullmatch(it[0]))}

    def settled(self, wanted=None):
        """The same once nothing changes any more, or it is as wanted: Wine's own services write now
        and then, and some of it late."""
        until, before, now = time.monotonic() + 300, None, self.registry()
        while now != (before if wanted is None else wanted) and time.monotonic() < until:
            time.sleep(1)
            before, now = now, self.registry()
        return now

    def has(self, key):
        return self.wine.run("reg", "query", key)[0] == 0

    def installing(self, way, version="1.2.3"):
        return self.wine.run(
            "msiexec", way, windows(f"{self.bridge.room}/oaut-{version}-windows.msi"), "/qn"
        )[0]

    def tool(self, *words):
        return self.wine.run(f"{self.home}/{self.there[0]}/oautreg.exe", *words)

    def begun(self):
        """The registry before an installation, once Wine has entered what it has itself."""
        write(f"{self.wine.room}/nothing.vbs", "WScript.Echo 1\n")
        self.wine.run("cscript", "//nologo", "nothing.vbs")
        return self.settled()

    def is_as(self, before):
        after = self.settled(before)
        self.same(
            "what is in the registry more and less than before",
            (sorted(after - before)[:5], sorted(before - after)[:5]),
            ([], []),
        )

    def registers(self, users, *more):
        told = "".join(f"Tool is registered for programs of {it} bits\n" for it in self.there)
        self.same("its tool registers", self.tool("add", "Tool", self.address, *more), (0, told))
        listed = self.tool("list")[1]
        for it in self.there:
            self.tell(
                f"it lists what is registered for {it} bits",
                f"Tool.Item  {self.address}  {users}, {it} bits  " in listed,
                listed,
            )

    def runs_a_script(self, what):
        write(
            f"{self.wine.room}/tool.vbs",
            'CreateObject "Tool.Item"\nWScript.Echo CreateObject("Tool.Store").Count\n',
        )
        type(self).made += 1
        self.same(what, self.wine.run("cscript", "//nologo", "tool.vbs"), (0, f"{self.made}\n"))

    @left_out("wixl")
    def test_it_installs_works_and_leaves_nothing(self):
        type(self).made = 0
        before = self.begun()
        self.tell("it is installed", self.installing("/i") == 0)
        files = [f"{it}/{name}" for it in self.there for name in packing.PROGRAMS]
        self.tell(
            "its files",
            [
                it
                for it in (*files, "START.txt", "com.md")
                if not os.path.exists(f"{self.home}/{it}")
            ]
            == [],
        )
        self.same("its tool reaches the server", self.tool("test", self.address)[0], 0)
        self.registers("all users", "--all-users")
        self.runs_a_script("a script finds it")
        self.tool("add", "Tool", self.address)  # (which Wine's programs do not look for)
        self.tell("for the user", self.has("HKCU\\Software\\Classes\\Tool.Item"))
        self.tell("it is uninstalled", self.installing("/x") == 0)
        self.tell("its files are gone", not os.path.exists(self.home))
        self.is_as(before)

    @left_out("wixl")
    def test_a_later_version_takes_the_place_of_an_earlier_one(self):
        before = self.begun()
        self.tell("one is installed", self.installing("/i") == 0)
        self.tell("a later one is", self.installing("/i", "1.2.4") == 0)
        key = "Microsoft\\Windows\\CurrentVersion\\Uninstall"
        said = "".join(
            self.wine.run("reg", "query", f"{root}\\{key}", "/s")[1]
            for root in ("HKCU\\Software", "HKLM\\Software", "HKLM\\Software\\Wow6432Node")
        )
        self.same(
            "what Windows lists as installed",
            [it for it in ("oaut 1.2.3", "oaut 1.2.4") if it in said],
            ["oaut 1.2.4"],
        )
        self.tell("an earlier one is refused", self.installing("/i") != 0)
        self.tell("its files are there", os.path.exists(f"{self.home}/{self.there[0]}/oautreg.exe"))
        self.tell("it is uninstalled", self.installing("/x", "1.2.4") == 0)
        self.tell("its files are gone", not os.path.exists(self.home))
        self.is_as(before)

    def test_what_windows_shows_of_the_files(self):
        for it in packing.PROGRAMS:
            with open(f"{self.folder}/64/{it}", "rb") as file:
                content = file.read()
            shown = [
                word
                for word in ("FileVersion", "ProductName", it)
                if word.encode("utf-16-le") not in content
            ]
            self.same(f"{it}: its version", shown, [])


@needs_wine
@needs_wine32
@left_out("wixl", "i686-w64-mingw32-gcc")
class InstalledOn32Bits(Installed):
    """On a Windows of 32 bits, where programs of 64 do not run."""

    @classmethod
    def setUpClass(cls):
        super().setUpClass()
        room = f"{cls.bridge.room}/of32"
        os.mkdir(room)
        cls.wine = Wine(room, 32, "win32")
        cls.addClassCleanup(cls.wine.close)
        cls.wine.env["WINEDLLOVERRIDES"] += ";winemenubuilder.exe=d"
        cls.home = (
            f"{room}/wine/drive_c/users/{os.environ.get('USER') or 'root'}/AppData/Local/Programs/"
            "oaut"
        )
        cls.there = [32]


@needs_wine
@left_out("wixl")
class Start(UnderWine):
    """The commands of the installed START.txt, word for word and in its order, in a new Wine of 64
    bits."""

    of = 64

    @classmethod
    def setUpClass(cls):
        super().setUpClass()
        packed(cls.bridge)
        room = f"{cls.bridge.room}/start{cls.of}"
        os.mkdir(room)
        cls.wine = Wine(room, cls.of, f"win{cls.of}")
        cls.addClassCleanup(cls.wine.close)
        cls.wine.env["WINEDLLOVERRIDES"] += ";winemenubuilder.exe=d"

    def tearDown(self):
        self.bridge.new_store()
        self.bridge.set()

    def types(self, *commands):
        """Types commands into a command window: the status of the last one, and the output."""
        write(
            f"{self.wine.room}/typed.cmd", "".join(f"{it}\r\n" for it in ("@echo off", *commands))
        )
        return self.wine.run("cmd", "/c", "typed.cmd")

    @contextlib.contextmanager
    def tunnel(self):
        """What ssh makes: the server at the port that the page has, or at its own if another
        program has that. The words of the commands for it."""
        try:
            listening = socket.create_server(("127.0.0.1", 8765))
        except OSError:
            yield lambda command: command.replace("8765", str(self.server.port))
            return
        thread = threading.Thread(target=self.accept, args=(listening,), daemon=True)
        thread.start()
        try:
            yield lambda command: command
        finally:
            listening.shutdown(socket.SHUT_RDWR)
            listening.close()
            thread.join()

    def accept(self, listening):
        while True:
            try:
                client = listening.accept()[0]
            except OSError:
                return
            passes(client, socket.create_connection(("127.0.0.1", self.server.port)))

    def shows_the_users_classes(self):
        """What Windows does, and Wine 8 does not: a program finds the classes of its user among
        those of all."""
        file = f"{self.wine.room}/classes.reg"
        self.wine.run("reg", "export", "HKCU\\Software\\Classes", windows(file), "/y")
        with open(file, encoding="utf-16") as lines:
            content = lines.read()
        with open(file, "w", encoding="utf-16") as lines:
            lines.write(content.replace("[HKEY_CURRENT_USER\\", "[HKEY_LOCAL_MACHINE\\"))
        self.same("regedit", self.wine.run("regedit", "/S", windows(file))[0], 0)

    def test_its_commands(self):
        self.bridge.new_store(f"{COM}/example/sheet.idl")
        msi = windows(f"{self.bridge.room}/oaut-1.2.3-windows.msi")
        self.same("it is installed", self.wine.run("msiexec", "/i", msi, "/qn")[0], 0)
        installed = (
            f"{self.wine.room}/wine/drive_c/users/{os.environ.get('USER') or 'root'}/AppData/Local/"
            "Programs/oaut/START.txt"
        )
        here, ssh, *commands = re.findall(r"^ {8}(\S.*)$", text(installed), re.M)
        self.same(
            "its first commands",
            (here, ssh),
            ("cd /d %LOCALAPPDATA%\\Programs\\oaut", "ssh -L 8765:localhost:8765 USER@SERVER"),
        )
        said = []
        with self.tunnel() as words:
            for command in commands:
                if command.startswith("cscript"):
                    self.shows_the_users_classes()
                said.append(
                    (
                        command,
                        *self.types(
                            here, words(command.replace("64\\oautreg", f"{self.of}\\oautreg"))
                        ),
                    )
                )
        lines = {command: output.splitlines() for command, _, output in said}
        desk = "Desk localhost:8765"
        tool = [
            f"64\\oautreg {it}"
            for it in ("test localhost:8765", f"add {desk}", "list", "repair Desk", "remove Desk")
        ]
        script = "cscript //nologo example\\sheet.vbs Monday tea 3"
        self.same("its commands", [it[0] for it in said], [*tool[:3], script, *tool[3:]])
        self.same("their statuses", [it[1] for it in said], [0] * 6)
        done = [
            f"Desk is {it} for programs of {self.of} bits"
            for it in ("registered", "registered", "removed")
        ]
        self.same(
            "the test", [it.partition(" ")[2] for it in lines[tool[0]]], ["has the coclass Sheet"]
        )
        self.same(
            "what registers, repairs and removes",
            [lines[it][:1] for it in (tool[1], *tool[3:])],
            [[it] for it in done],
        )
        self.same(
            "the list",
            sorted(it.split("  ")[0] for it in lines[tool[2]]),
            ["Desk.Sheet", "Desk.Store"],
        )
        self.same("the script", lines[script], ["Monday: 3", "total: 3"])
        left = [
            it
            for it in ("Desk.Sheet", "Desk.Store")
            if self.wine.run("reg", "query", f"HKCU\\Software\\Classes\\{it}")[0] == 0
        ]
        self.same("what is left for the user", left, [])


@needs_wine32
@left_out("i686-w64-mingw32-gcc")
class StartOn32Bits(Start):
    """The same in a Wine of 32 bits, with what the page says for it."""

    of = 32


class Bytes(Cases):
    @left_out("wixl")
    def test_two_runs_make_the_same_bytes(self):
        """At other times and in other time zones. The program that unregisters runs behind the
        beginning of what may be undone, and while its file is there."""
        with tempfile.TemporaryDirectory() as room:
            for bits in ("64", "32"):
                os.makedirs(f"{room}/built/{bits}")
                for it in packing.PROGRAMS:
                    write(f"{room}/built/{bits}/{it}", f"{it} of {bits} bits")
            made = set()
            for turn, zone in enumerate(("UTC", "Asia/Tokyo", "America/New_York") * 2):
                os.makedirs(f"{room}/{turn}")
                with unittest.mock.patch.dict(os.environ, TZ=zone):
                    path = packing.installer(
                        f"{room}/built", "1.2.3", 1_700_000_000, f"{room}/{turn}"
                    )
                with open(path, "rb") as file:
                    made.add(file.read())
            self.tell("six installers", len(made) == 1, len(made))
            if shutil.which("msiinfo"):
                rows = subprocess.run(
                    ["msiinfo", "export", path, "InstallExecuteSequence"],
                    stdout=subprocess.PIPE,
                    text=True,
                    check=True,
                ).stdout
                order = {it.split("\t")[0]: int(it.split("\t")[2]) for it in rows.splitlines()[3:]}
                places = [
                    order[it]
                    for it in ("RemoveShortcuts", "Unregister32", "Unregister64", "RemoveFiles")
                ]
                self.tell(
                    "the order of its steps",
                    order["InstallInitialize"] < places[0] and places == sorted(places),
                    order,
                )


@needs_wine
class Tool(UnderWine):
    """oautreg.exe, beside the DLL as it is built."""

    def setUp(self):
        super().setUp()
        self.bridge.new_store()
        self.bridge.register("Demo", "/u")
        self.address = f"127.0.0.1:{self.server.port}"

    def tearDown(self):
        self.tool("remove", "Tool", "--all-users")
        self.bridge.set()

    def tool(self, *words):
        return self.wine.run(f"{self.bridge.room}/built/oautreg.exe", *words)

    def script_of(self, guid, name="Script"):
        return self.wine.run("reg", "query", f"HKCR\\CLSID\\{{{guid}}}\\Oaut", "/v", name)[
            1
        ].split()[-1:]

    def test_why_a_server_is_not_reached(self):
        status, said = self.wine.said(
            f"{self.bridge.room}/built/oautreg.exe", "test", "127.0.0.1:1"
        )
        self.tell(
            "its status and line",
            status == 1 and "connection refused" in said and said.count("\n") == 1,
            said,
        )

    def test_an_address_with_tls(self):
        status, said = self.wine.said(
            f"{self.bridge.room}/built/oautreg.exe", "test", "oauts://127.0.0.1:1"
        )
        self.tell(
            "its status and line",
            status == 1
            and "oauts://127.0.0.1:1 is no address" in said
            and "no TLS" in said
            and said.count("\n") == 1,
            said,
        )

    def test_words_that_are_none(self):
        for words in (
            [],
            ["nonsense"],
            ["add", "Tool"],
            ["remove"],
            ["add", "a", "b", "c"],
            ["add", "Tool", self.address, "--script", "7"],
            ["add", "Tool", self.address, "--watch"],
        ):
            status, said = self.wine.said(f"{self.bridge.room}/built/oautreg.exe", *words)
            self.tell(
                f"{words}",
                status == 1 and said.startswith("oautreg: add NAME") and said.count("\n") == 1,
                said,
            )

    def test_options_of_a_registration(self):
        self.tool(
            "add",
            "Tool",
            self.address,
            "--all-users",
            "--script",
            "2",
            "--texts",
            "--watch",
            "8766",
        )
        self.same("Script", self.script_of(ITEM), ["0x2"])
        self.same(
            "Watch, of the class and the hub",
            [self.script_of(it, "Watch") for it in (ITEM, HUB)],
            [["8766"], ["8766"]],
        )
        self.same("it is repaired", self.tool("repair", "Tool", "--all-users")[0], 0)
        self.same("Watch is there", self.script_of(HUB, "Watch"), ["8766"])

    def test_a_class_with_a_long_name_beside_them(self):
        """A name of another program's, in front of all classes, that is longer than a GUID."""
        long = f"HKEY_CLASSES_ROOT\\CLSID\\{'0' * 200}"
        self.bridge.enter(f"[{long}]\n")
        self.tool("add", "Tool", self.address, "--all-users", "--script", "2")
        self.same("Script", self.script_of(ITEM), ["0x2"])
        said = self.tool("list")[1]
        self.tell("the list has both classes", "Tool.Item" in said and "Tool.Store" in said, said)
        self.bridge.enter(f"[-{long}]\n")

    def test_a_second_name_is_refused(self):
        self.tool("add", "Tool", self.address, "--all-users")
        status, said = self.wine.said(
            f"{self.bridge.room}/built/oautreg.exe", "add", "Other", self.address, "--all-users"
        )
        self.tell("it names the first", status == 1 and "registered as Tool.Store" in said, said)

    def test_a_repair(self):
        self.tool("add", "Tool", self.address, "--all-users", "--script", "2")
        self.bridge.enter(
            f"[-HKEY_CLASSES_ROOT\\Tool.Item]\n\n[HKEY_CLASSES_ROOT\\CLSID\\{{{ITEM}}}\\Oaut]\n"
            '"Idle"=dword:00000007\n'
        )
        self.tell(
            "the list says that it is damaged",
            "Tool.Item" in self.tool("list")[1] and "damaged" in self.tool("list")[1],
        )
        self.same("it is repaired", self.tool("repair", "Tool", "--all-users")[0], 0)
        self.tell("its name is there", self.bridge.has("HKCR\\Tool.Item"))
        self.same("its Script stays", self.script_of(ITEM), ["0x2"])
        self.same("and its Idle", self.script_of(ITEM, "Idle"), ["0x7"])
        self.tell("the list says nothing of damage", "damaged" not in self.tool("list")[1])

    def test_a_class_without_a_name_is_repaired_too(self):
        self.tool("add", "Tool", self.address, "--all-users")
        self.bridge.enter(
            "".join(
                f"[-HKEY_CLASSES_ROOT\\{it}]\n\n"
                for it in ("Tool.Item", f"CLSID\\{{{ITEM}}}\\ProgID")
            )
        )
        said = self.tool("list")[1]
        self.tell(
            "the list has its name, and says that it is damaged",
            f"Tool.Item  {self.address}  all users, 64 bits, damaged: repair it  " in said,
            said,
        )
        self.same("it is repaired", self.tool("repair", "Tool", "--all-users")[0], 0)
        self.tell("the list says nothing of damage", "damaged" not in self.tool("list")[1])

    def test_what_is_removed(self):
        self.tool("add", "Tool", self.address, "--all-users")
        self.same(
            "it is removed",
            self.tool("remove", "Tool", "--all-users"),
            (0, "Tool is removed for programs of 64 bits\n"),
        )
        self.tell("its name is gone", not self.bridge.has("HKCR\\Tool.Item"))


@needs_wine
@needs_wine32
@left_out("i686-w64-mingw32-gcc")
class BothBits(UnderWine):
    """The tools of both bits, in the folders 64 and 32 beside each other. Each of them does its
    part and runs the other one: programs of 64 bits and of 32 have classes of their own, in the two
    views of the registry."""

    @classmethod
    def setUpClass(cls):
        super().setUpClass()
        cls.folder = f"{cls.bridge.room}/both"
        if os.path.isdir(cls.folder):
            return
        os.makedirs(f"{cls.folder}/32")
        shutil.copytree(
            f"{cls.bridge.room}/built", f"{cls.folder}/64", ignore=shutil.ignore_patterns("*.tlb")
        )
        cls.build = built([f"{COM}/build.sh", f"{cls.folder}/32", "32"])

    def setUp(self):
        super().setUp()
        self.tell("the build of the one of 32 bits", self.build == (0, ""), self.build)
        self.bridge.new_store()
        self.bridge.register("Demo", "/u")
        self.address = f"127.0.0.1:{self.server.port}"

    def tearDown(self):
        self.tool(64, "remove", "Tool", "--all-users")
        self.tool(64, "remove", "Tool")
        self.bridge.set()

    def tool(self, bits, *words):
        return self.wine.run(f"{self.folder}/{bits}/oautreg.exe", *words)

    @contextlib.contextmanager
    def programs_of(self, bits):
        """Windows' own programs are those of these bits."""
        before, self.wine.bits = self.wine.bits, bits
        try:
            yield
        finally:
            self.wine.bits = before

    def dll_of(self, bits, guid=ITEM):
        """The DLL that programs of these bits load for a class."""
        with self.programs_of(bits):
            status, said = self.wine.run(
                "reg", "query", f"HKCR\\CLSID\\{{{guid}}}\\InprocServer32", "/ve"
            )
        return None if status else said.split("REG_SZ")[-1].strip()

    def are_for(self, what, *bits):
        """Which programs have the classes, and the name."""
        wanted = {
            it: windows(f"{self.folder}/{it}/oautcom.dll") if it in bits else None
            for it in (64, 32)
        }
        for guid in (ITEM, HUB):
            self.same(
                f"{what}: the DLLs of {guid}",
                {it: self.dll_of(it, guid) for it in (64, 32)},
                wanted,
            )
        self.same(f"{what}: its name", self.bridge.has("HKCR\\Tool.Item"), bool(bits))

    def test_either_tool_registers_and_removes_both(self):
        write(
            f"{self.bridge.room}/tool.vbs",
            'CreateObject "Tool.Item"\nWScript.Echo CreateObject("Tool.Store").Count\n',
        )
        made = 0
        for bits, other in ((64, 32), (32, 64)):
            told = [f"Tool is {{0}} for programs of {it} bits\n" for it in (bits, other)]
            said = self.tool(bits, "add", "Tool", self.address, "--all-users")
            self.same(f"{bits} bits: it registers", said, (0, "".join(told).format("registered")))
            self.are_for(f"{bits} bits", 64, 32)
            for it in (64, 32):
                made += 1
                with self.programs_of(it):
                    self.same(
                        f"{bits} bits: a script of {it} bits",
                        self.wine.run("cscript", "//nologo", "tool.vbs"),
                        (0, f"{made}\n"),
                    )
                listed = self.tool(it, "list")[1].splitlines()
                wanted = sorted(
                    f"Tool.{one}  {self.address}  all users, {two} bits"
                    for one in ("Item", "Shelf", "Store")
                    for two in (64, 32)
                )
                self.same(
                    f"{bits} bits: the list of the tool of {it} bits",
                    sorted(line.rpartition("  ")[0] for line in listed),
                    wanted,
                )
            said = self.tool(bits, "remove", "Tool", "--all-users")
            self.same(f"{bits} bits: it removes", said, (0, "".join(told).format("removed")))
            self.are_for(f"{bits} bits, removed")
            self.same(
                f"{bits} bits: nothing is listed",
                self.tool(bits, "list"),
                (0, "nothing is registered\n"),
            )
        left = [
            it
            for bits in (64, 32)
            for it in os.listdir(f"{self.folder}/{bits}")
            if it.endswith(".tlb")
        ]
        self.same("no type library stays", left, [])

    def test_one_list_of_a_users_classes(self):
        """Wine has one for both bits, where Windows has two: nothing is written over, and a line
        says so."""
        for bits, other in ((64, 32), (32, 64)):
            status, said = self.tool(bits, "add", "Tool", self.address)
            self.same(f"{bits} bits: its status", status, 0)
            first = f"Tool is registered for programs of {bits} bits"
            self.same(
                f"{bits} bits: what it says",
                [line.partition(" are left out: ")[0] for line in said.splitlines()],
                [first, f"programs of {other} bits"],
            )
            listed = sorted(
                line.rpartition("  ")[0] for line in self.tool(bits, "list")[1].splitlines()
            )
            self.same(
                f"{bits} bits: its list",
                listed,
                [
                    f"Tool.{one}  {self.address}  user, {bits} bits"
                    for one in ("Item", "Shelf", "Store")
                ],
            )
            self.same(f"{bits} bits: it removes", self.tool(bits, "remove", "Tool")[0], 0)
            self.same(
                f"{bits} bits: nothing is listed",
                self.tool(bits, "list"),
                (0, "nothing is registered\n"),
            )

    def test_one_of_them_alone_and_a_repair_by_the_other(self):
        for bits, other in ((64, 32), (32, 64)):
            self.same(
                f"{bits} bits alone",
                self.tool(
                    bits,
                    "add",
                    "Tool",
                    self.address,
                    "--all-users",
                    "--these-bits",
                    "--script",
                    "2",
                )[0],
                0,
            )
            self.are_for(f"{bits} bits alone", bits)
            self.tell(
                f"the tool of {other} bits lists it",
                f"Tool.Item  {self.address}  all users, {bits} bits  "
                in self.tool(other, "list")[1],
            )
            self.same(
                "the other one repairs it", self.tool(other, "repair", "Tool", "--all-users")[0], 0
            )
            self.are_for("both", 64, 32)
            for it in (64, 32):
                with self.programs_of(it):
                    said = self.wine.run(
                        "reg", "query", f"HKCR\\CLSID\\{{{ITEM}}}\\Oaut", "/v", "Script"
                    )[1]
                self.same(f"its Script, for {it} bits", said.split()[-1:], ["0x2"])
            self.same(
                "and removes its own",
                self.tool(other, "remove", "Tool", "--all-users", "--these-bits")[0],
                0,
            )
            self.are_for("the first one again", bits)
            self.same("all are removed", self.tool(other, "remove", "Tool", "--all-users")[0], 0)
            self.are_for("none")

    def test_a_failure_of_the_other_one_is_told(self):
        """The class of programs of 32 bits is another program's."""
        key = f"HKEY_LOCAL_MACHINE\\Software\\Classes\\Wow6432Node\\CLSID\\{{{ITEM}}}"
        self.bridge.enter(f'[{key}\\InprocServer32]\n@="other.dll"\n')
        status, said = self.wine.said(
            f"{self.folder}/64/oautreg.exe", "add", "Tool", self.address, "--all-users"
        )
        self.tell(
            "its status and line",
            status == 1
            and "is registered by another program (other.dll)" in said
            and said.count("\n") == 1,
            (status, said),
        )
        self.same("the other program's class stays", self.dll_of(32), "other.dll")
        self.bridge.enter(f"[-{key}]\n")

    def test_all_are_removed_also_where_one_cannot(self):
        """A tool whose own DLL is gone removes what the other one has registered."""
        self.tool(64, "add", "Tool", self.address, "--all-users")
        os.rename(f"{self.folder}/64/oautcom.dll", f"{self.folder}/64/gone.dll")
        try:
            self.same("its status", self.tool(64, "remove", "Tool", "--all-users")[0], 1)
        finally:
            os.rename(f"{self.folder}/64/gone.dll", f"{self.folder}/64/oautcom.dll")
        self.are_for("the other one's", 64)


if __name__ == "__main__":
    unittest.main()
