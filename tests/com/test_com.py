"""The COM bridge, clients/com: built by mingw-w64 and run under Wine, where scripts and a client in
C reach the program by it over a socket.
What is not installed leaves its tests out, each by its name."""
import collections
import os
import re
import shutil
import signal
import struct
import sys
import tempfile
import time
import unittest

from tests.com.under_wine import (
    ASKED,
    COM,
    HUB,
    ITEM,
    TESTS,
    TIMEOUT,
    TYPES,
    UnderWine,
    all_planted,
    built,
    hub_of,
    is_placed,
    left_out,
    needs_wine,
    oaut,
    plain,
    text,
    windows,
    write,
)
from tests.support.running import PROGRAM, ROOT, Cases, rows_of, short

SPOILED_SECONDS = 5


@needs_wine
class Building(UnderWine):
    def test_no_compiler_has_a_word_to_say(self):
        for (status, said), what in zip(
            self.bridge.builds, ("the DLL", "the tests' programs", "the type library")
        ):
            self.tell(f"the build of {what}", (status, said) == (0, ""), said)

    @left_out("i686-w64-mingw32-gcc")
    def test_32_bits(self):
        os.makedirs(f"{self.bridge.room}/built32", exist_ok=True)
        self.tell(
            "the build of the DLL of 32 bits",
            built([f"{COM}/build.sh", f"{self.bridge.room}/built32", "32"]) == (0, ""),
        )

    def test_no_library_but_the_systems(self):
        said = built(["x86_64-w64-mingw32-objdump", "-p", self.bridge.dll])[1]
        libraries = {line.split()[-1].lower() for line in said.splitlines() if "DLL Name:" in line}
        own = {
            "kernel32.dll",
            "msvcrt.dll",
            "advapi32.dll",
            "ole32.dll",
            "oleaut32.dll",
            "ws2_32.dll",
        }
        self.tell("what the DLL is linked to", libraries and libraries <= own, libraries)


@needs_wine
class Values(UnderWine):
    def test_values_of_a_client_in_c(self):
        self.bridge.new_store()
        self.bridge.set(Script=0)
        self.server.looks, self.server.requests = True, []
        try:
            output = self.wine.run(f"{self.bridge.room}/built/client.exe")[1]
        finally:
            self.server.looks = False
            self.bridge.set()
        self.each("client.c", output)
        seen = collections.Counter()
        for body in self.server.requests:
            for field in fields_of(body):
                vt = struct.unpack_from("<H", field, 8)[0]
                try:
                    value = oaut.read_field(field)
                except oaut.ProtocolError:
                    continue  # of a type that a server refuses
                seen[vt] += 1
                if oaut.spell(value) != field:
                    self.tell(
                        "the Python client spells a field as the bridge did", False, field.hex()
                    )
        self.tell(
            "fields of each type were sent", len(seen) >= 31 and sum(seen.values()) > 300, seen
        )

    def test_arrays_of_a_client_for_scripts(self):
        self.bridge.new_store()
        self.bridge.set()
        self.each("client.c", self.wine.run(f"{self.bridge.room}/built/client.exe", "script")[1])

    def test_numbers_of_scripts(self):
        self.bridge.new_store()
        self.bridge.set()
        self.runs("numbers.vbs")

    def test_collections(self):
        """Without a type library, too: then TypeName is the coclass's name under Wine, which asks
        GetTypeInfo."""
        for has_types, names in (
            (False, "Item Shelf"),
            *([(True, "DItem DStock")] if shutil.which("x86_64-w64-mingw32-widl") else []),
        ):
            self.bridge.new_store()
            self.bridge.set()
            if not has_types:
                self.bridge.without_types()
            self.runs("collection.vbs", names)

    def test_what_is_told_of_each_code(self):
        """The table of docs/guide/com.md: a server answers each code in turn, with an argument
        where it may name one."""
        rows = refusals()
        self.bridge.new_store()
        self.bridge.set()
        self.server.looks = True
        self.server.answers = [
            (code, 0 if name in OF_VALUES else 0xFFFFFFFF) for _, name, code, _ in rows
        ]
        try:
            output = self.wine.run(*self.bridge.script("answers.vbs"), str(len(rows)))[1]
        finally:
            self.server.looks, self.server.answers = False, []
        for (number, name, code, words), line in zip(rows, output.splitlines()):
            more = ": the new value is declared long and given as long" if name in OF_VALUES else ""
            # (where another library is served, a DISPID may be another member's)
            member = "" if name == "RPC_S_UNKNOWN_IF" else ", Count"
            wanted = f"{number}|Demo.Item|Demo.Item 1{member}: {words}{more} ({name}, 0x{code:08X})"
            self.tell(f"what is told of {name}", line == wanted, f"{line}, wanted {wanted}")
        self.tell("how many codes", (len(rows), len(output.splitlines())) == (29, 30), output)

    def test_fields_of_another_implementation(self):
        rows = [row.split() for row in rows_of("variants.txt")]
        output = self.wine.run(
            f"{self.bridge.room}/built/fields.exe",
            given="".join(f"{field}\n" for field, _ in rows).encode(),
        )[1]
        for (field, wanted), got in zip(rows, output.splitlines()):
            self.tell(f"the field {field}", got == wanted, f"wanted {wanted}, got {got}")
        self.tell("how many fields", (len(rows), len(output.splitlines())) == (240, 240))

    def test_a_script(self):
        self.bridge.new_store()
        self.runs("properties.vbs")
        self.runs("properties.js")
        self.runs("after.vbs")  # each client had a server of its own
        self.runs("arrays.vbs")


# the codes that a server tells an argument of, as docs/reference/records.md says
OF_VALUES = ("DISP_E_TYPEMISMATCH", "DISP_E_OVERFLOW", "DISP_E_BADVARTYPE")


def refusals():
    """The rows of the table of docs/guide/com.md: what Err.Number is, the code's name, the code,
    what Err.Description says of it."""
    made = []
    for number, name, code, words in re.findall(
        r"^\| (&H[0-9A-F]{8}|\d+) \| ([A-Z_]+) \| ([0-9A-F]{8}) \| (.*) \|$",
        text(f"{ROOT}/docs/guide/com.md"),
        re.MULTILINE,
    ):
        shown = int(number[2:], 16) - (1 << 32) if number.startswith("&H") else int(number)
        made.append((shown, name, int(code, 16), words.replace("**", "")))
    return made


def fields_of(body):
    """The variant fields of a request's body."""
    opcode = body[4]
    if opcode not in (oaut.INVOKE, oaut.GETELEM, oaut.PUTELEM):
        return
    count, named = struct.unpack_from("<II", body, 56)
    place = -(-(64 + 4 * named) // 8) * 8
    for at in range(count + (opcode == oaut.PUTELEM)):
        if at == count:  # behind the indices
            place = -(-(place + 8 + 4 * struct.unpack_from("<I", body, place)[0]) // 8) * 8
        (length,) = struct.unpack_from("<I", body, place)
        yield body[place + 8 : place + 8 + length]
        place = -(-(place + 8 + length) // 8) * 8


@needs_wine
class Hosts(UnderWine):
    """What hosts do beside late binding."""

    def tearDown(self):
        self.bridge.set()

    def hosts(self, *words):
        return self.wine.run(f"{self.bridge.room}/built/hosts.exe", *words)[1]

    @left_out("x86_64-w64-mingw32-widl")
    def test_the_registered_type_library(self):
        self.bridge.new_store()
        self.bridge.set(Script=0)
        self.told("early", self.hosts("early"), 20)
        self.told("apartments", self.hosts("apartments"), 9)

    def test_without_a_type_library(self):
        self.bridge.new_store()
        self.bridge.set(Script=0)
        self.bridge.without_types()
        self.told("plain", self.hosts("plain"), 17)

    def test_the_dll_is_not_unloaded_while_a_reply_is_out(self):
        self.bridge.new_store()
        self.bridge.set(Script=0, Idle=0)
        host, go, told = self.held_program("hosts.exe", "unloads")
        self.server.child.send_signal(signal.SIGSTOP)
        try:
            write(go, "")
            while b"sent" not in told and (more := host.stdout.readline()):
                told += more
        finally:
            self.server.child.send_signal(signal.SIGCONT)
        self.told("unloads", self.finish((host, go, told)), 9)

    def told(self, name, output, count):
        lines = output.splitlines()
        for line in lines:
            if not line.startswith(("ok   ", "ready", "sent", "end")):
                self.tell(f"hosts {name}: {line[5:]}", False, line)
        self.tell(
            f"hosts {name}: all of its cases",
            (sum(it.startswith("ok   ") for it in lines), lines[-1:]) == (count, ["end"]),
            output,
        )


@needs_wine
class Stops(UnderWine):
    """What a script sees of a server that ends, is late, or is not there."""

    def setUp(self):
        super().setUp()
        self.bridge.new_store()
        self.bridge.add_item()

    def tearDown(self):
        self.bridge.set()

    def test_a_name_that_nobody_can_be_asked_for(self):
        """GetIDsOfNames has no room for words: the call that follows says what is wrong."""
        self.bridge.set(Idle=100)
        process, go, told = self.held("names.vbs")
        self.server.close()
        write(go, "")
        while b"refused" not in told.splitlines() and (line := process.stdout.readline()):
            told += line.replace(b"\r", b"")
        self.server.listen()
        self.each("names.vbs", self.finish((process, go, told)))

    def test_killed_between_two_calls(self):
        self.bridge.set(Idle=0)
        for what in ("get", "put"):
            self.each("killed.vbs", self.killed("killed.vbs", what))

    def test_killed_with_a_lock(self):
        self.bridge.set(Idle=0)
        for what in ("get", "put", "element"):
            self.each("unlocked.vbs", self.killed("unlocked.vbs", what))

    def comes(self, script, *words):
        """A script that is connected while another one is served, or has ended."""
        for left in reversed(range(ASKED)):
            process = self.wine.start(*self.bridge.script(script), *words)
            until = time.monotonic() + TIMEOUT
            while (
                not self.server.has_waiting()
                and process.poll() is None
                and time.monotonic() < until
            ):
                time.sleep(0.05)
            # (Wine may have started nothing)
            if process.poll() is None or not left:
                return process
            process.communicate(timeout=TIMEOUT)

    def killed(self, script, what):
        """What a script tells whose server is killed between two calls."""
        held = self.held(script, what)
        client = self.server.client
        self.server.child.kill()
        self.server.child.wait()
        until = time.monotonic() + TIMEOUT
        while client.fileno() >= 0 and time.monotonic() < until:
            time.sleep(0.02)
        time.sleep(0.5)  # until the script's side of the connection has heard of it
        return self.finish(held)

    def test_killed_in_the_middle_of_a_put(self):
        self.bridge.set(Idle=0)
        self.each("lost.vbs", self.lost())

    def test_a_late_reply(self):
        self.bridge.set(Idle=0, Timeout=10000)
        held = self.held("late.vbs")
        child = self.server.child
        child.send_signal(signal.SIGSTOP)
        try:
            self.each("late.vbs", self.finish(held))
        finally:
            child.send_signal(signal.SIGCONT)
        child.wait(TIMEOUT)

    def test_no_server(self):
        self.server.close()
        try:
            self.runs("away.vbs")
        finally:
            self.server.listen()

    def test_two_clients(self):
        held = self.held("holds.vbs")
        self.runs("next.vbs", "100")  # while the other one holds its object
        self.each("holds.vbs", self.finish(held))
        held = self.held("locks.vbs")
        second = self.comes("next.vbs", "7")
        time.sleep(3)
        self.tell("one with a lock keeps the next one waiting", second.poll() is None)
        self.each("locks.vbs", self.finish(held))
        self.each("next.vbs", plain(second.communicate(timeout=TIMEOUT)[0]))

    def test_a_server_that_ends_while_it_tells_its_types(self):
        """What is read of one server is not taken for the other one's."""
        self.each("types.vbs", self.types())
        self.tell("a server has ended", self.server.types_left == 0)

    def test_a_process_that_a_client_has_started(self):
        """It goes on behind its client, whose connection ends all the same."""
        self.bridge.set(Script=0, Idle=0)
        self.each("client.c", self.started(TIMEOUT / 2))

    def test_new_members_behind_a_reconnect(self):
        held = self.held("more.vbs")
        self.tell("it hangs up", self.server.ends(self.server.child))
        more = (
            "      [id(20)] SAFEARRAY(short) Later;\n    methods:\n"
            "      [id(21), propget] SAFEARRAY(short) More([in] long Number);\n"
        )
        more += (
            "      [id(21), propput] void More([in] long Number, [in] SAFEARRAY(short) Value);\n"
        )
        library = write(
            f"{self.bridge.room}/more.idl",
            text(f"{TESTS}/demo.idl").replace("    methods:\n", more, 1),
        )
        self.bridge.new_store(library)
        self.bridge.add_item()
        self.each("more.vbs", self.finish(held))

    def test_another_library_behind_a_reconnect(self):
        """Its DISPIDs are other members': what a host has is not sent to it."""
        for script in (True, False):
            self.bridge.new_store()
            self.bridge.add_item()
            self.bridge.set(Script=int(script))
            held = self.held("other.vbs") if script else self.held_program("hosts.exe", "keeps")
            self.tell("it hangs up", self.server.ends(self.server.child))
            moved = "[id(1)] long Other;\n      [id(17)] long Count;"
            library = write(
                f"{self.bridge.room}/moved.idl",
                text(f"{TESTS}/demo.idl").replace("[id(1)] long Count;", moved, 1),
            )
            self.bridge.new_store(library)
            self.bridge.add_item(Other=5)
            said = self.finish(held)
            if script:
                self.each("other.vbs", said)
            else:
                self.tell(
                    "hosts keeps: all of its cases",
                    (said.count("ok   "), "BAD" in said, said.endswith("end\n"))
                    == (8, False, True),
                    said,
                )
            with oaut.serve(self.bridge.store, library, program=PROGRAM) as session:
                item = session.object(1, "Item")
                self.tell(
                    "what is there", (item.Other, item.Count) == (5, 43), (item.Other, item.Count)
                )

    def test_spoiled_replies(self):
        self.bridge.set(Timeout=2000)
        self.server.looks, self.server.spoils = True, 300
        try:
            for script in (0, 1):
                self.bridge.enter(
                    f'[HKEY_CLASSES_ROOT\\CLSID\\{{{ITEM}}}\\Oaut]\n"Script"=dword:{script:08x}\n'
                )
                status, output = self.wine.run(
                    f"{self.bridge.room}/built/client.exe", "spoiled", str(SPOILED_SECONDS)
                )
                self.tell(
                    f"the client lives, Script {script}",
                    (status, output.splitlines()[-1:]) == (0, ["end"]),
                    (status, output),
                )
        finally:
            self.server.looks, self.server.spoils = False, 0


def untyped(keys):
    """What `reg query` prints of a class, without the type library that was written as it was
    registered."""
    parts = [
        it
        for it in re.split(r"(?m)^(?=HKEY_)", keys)
        if not re.match(r"\S+\\(TypeLib|Version)\n", it)
    ]
    return re.sub(r"(?m)^    Written .*\n", "", "".join(parts))


@needs_wine
class Registration(UnderWine):
    def tearDown(self):
        self.bridge.new_store()
        self.bridge.set()

    def has(self, key):
        return self.bridge.has(f"HKCR\\{key}")

    def are_there(self, what, keys, are=True):
        self.tell(what, [it for it in keys if self.bridge.has(it) != are] == [], keys)

    def test_in_and_out(self):
        self.tell("regsvr32 enters the classes", self.bridge.registered == 0)
        keys = [
            "Demo.Item",
            "Demo.Store",
            f"CLSID\\{{{ITEM}}}\\InprocServer32",
            f"CLSID\\{{{HUB}}}\\Oaut",
        ]
        self.tell("their keys", [it for it in keys if not self.has(it)] == [])
        self.server.close()
        self.tell(
            "regsvr32 takes them out, also without the server",
            self.bridge.register("Demo", "/u") == 0,
        )
        self.tell("nothing stays", [it for it in keys if self.has(it)] == [])
        self.tell("regsvr32 without the server", self.bridge.register("Demo") != 0)
        self.tell("enters nothing", [it for it in keys if self.has(it)] == [])
        self.server.listen()
        self.bridge.register("Demo")
        self.server.close()
        self.bridge.register("Demo")
        self.tell("and takes nothing out", [it for it in keys if not self.has(it)] == [])
        self.server.listen()

    def test_what_another_program_has_entered(self):
        self.bridge.register("Demo", "/u")
        for key in (f"CLSID\\{{{ITEM}}}", "Demo.Item", "Demo.Store"):
            self.bridge.enter(f'[HKEY_CLASSES_ROOT\\{key}]\n@="of another program"\n')
            self.tell(f"{key}: is not taken", self.bridge.register("Demo") != 0)
            self.tell(f"{key}: stays", self.has(key) and not self.has(f"CLSID\\{{{ITEM}}}\\Oaut"))
            self.bridge.enter(f"[-HKEY_CLASSES_ROOT\\{key}]\n")

    @left_out("x86_64-w64-mingw32-widl")
    def test_the_type_library(self):
        """It is entered with its version and taken out again, and never over another program's."""
        types, own = f"HKCR\\TypeLib\\{{{TYPES}}}", [
            f"HKCR\\CLSID\\{{{ITEM}}}\\{it}" for it in ("TypeLib", "Version")
        ]
        interface = f"HKCR\\Interface\\{{{TYPES[:-2]}02}}"
        file = f"{self.bridge.room}/built/Demo.tlb"
        self.are_there("it is entered", [f"{types}\\1.0", interface, *own])
        later = write(
            f"{self.bridge.room}/later.idl",
            text(f"{TESTS}/demo.idl").replace("version(1.0)", "version(2.3)"),
        )
        shutil.copy(file, f"{file}.kept")
        self.bridge.type_library(later, file)
        self.bridge.register("Demo")
        self.are_there("a later version", [f"{types}\\2.3", interface, *own])
        self.are_there("in the place of the earlier one", [f"{types}\\1.0"], False)
        shutil.move(f"{file}.kept", file)
        self.bridge.register("Demo", "/u")
        self.are_there(
            "it is taken out", [f"{types}\\2.3", interface, *own, "HKCR\\Demo.Item"], False
        )
        self.bridge.enter(
            f"[HKEY_CLASSES_ROOT\\TypeLib\\{{{TYPES}}}\\1.0\\0\\win{self.bits}]\n"
            '@="C:\\\\other.tlb"\n'
        )
        self.tell("another program's is not taken", self.bridge.register("Demo") != 0)
        self.are_there("and stays", [f"{types}\\1.0\\0\\win{self.bits}"])
        self.are_there("and nothing is entered", ["HKCR\\Demo.Item", *own], False)
        self.bridge.enter(f"[-HKEY_CLASSES_ROOT\\TypeLib\\{{{TYPES}}}]\n")

    def test_for_one_user(self):
        """In the user's own part of the registry, whoever that is; it is used from there, and taken
        out."""
        own = "HKCU\\Software\\Classes"
        keys = [f"{own}\\Demo.Item", f"{own}\\Demo.Store", f"{own}\\CLSID\\{{{ITEM}}}\\Oaut"]
        self.bridge.register("Demo", "/u")
        self.addCleanup(self.bridge.register, "user:Demo", "/u")
        self.tell("regsvr32 enters them for the user", self.bridge.register("user:Demo") == 0)
        self.are_there("their keys", keys)
        self.are_there(
            "are the user's", [it.replace(own, "HKLM\\Software\\Classes") for it in keys], False
        )
        self.are_there(
            "the same with /u leaves the user's",
            [keys[0] * (self.bridge.register("Demo", "/u") == 0)],
        )
        self.tell("regsvr32 takes them out", self.bridge.register("user:Demo", "/u") == 0)
        self.are_there("nothing stays", keys, False)

    def test_words(self):
        for words in (
            "Demo",
            "Demo@127.0.0.1",
            "Demo@:8765",
            "@127.0.0.1:8765",
            "De mo@127.0.0.1:8765",
            "..\\x@127.0.0.1:8765",
            "1Demo@127.0.0.1:8765",
            f"{'a' * 40}@127.0.0.1:8765",
            "Demo@127.0.0.1:",
            "Demo@oauts://127.0.0.1:8765",
            "Demo@oaut://",
            "Demo@oaut://127.0.0.1:",
            "Demo@oaut://me@127.0.0.1:8765",
            "Demo@oaut+unix:///run/oaut.sock",
            f"Demo@{'h' * 300}:8765",
        ):
            self.tell(
                f"/i:{short(words)}",
                self.wine.run("regsvr32", "/s", "/n", f"/i:{words}", self.bridge.dll)[0] != 0,
            )

    def test_a_url(self):
        """It is entered as host and port are."""
        for words in (
            f"OAUT://127.0.0.1:{self.server.port}",
            f"oaut://[127.0.0.1]:{self.server.port}",
        ):
            self.bridge.register("Demo", "/u")
            self.tell(
                words,
                self.wine.run("regsvr32", "/s", "/n", f"/i:Demo@{words}", self.bridge.dll)[0] == 0,
            )
            shown = self.wine.run("reg", "query", f"HKCR\\CLSID\\{{{ITEM}}}\\Oaut")[1]
            found = [re.search(rf"(?m)^ +{it} +REG_SZ +(\S+)", shown) for it in ("Host", "Port")]
            self.tell(
                f"{words}: host and port",
                [it and it[1] for it in found] == ["127.0.0.1", str(self.server.port)],
                shown,
            )

    def test_the_example(self):
        """The counter sheet, over a stop, registered by the file."""
        self.addCleanup(self.bridge.settle)
        self.bridge.new_store(f"{COM}/example/sheet.idl")
        lines = (
            text(f"{COM}/example/sheet.reg")
            .replace("REGEDIT4", "")
            .replace('"localhost"', '"127.0.0.1"')
            .replace('"8765"', f'"{self.server.port}"')
        )
        self.bridge.enter(
            lines.replace(
                "C:\\\\oaut\\\\oautcom.dll", windows(self.bridge.dll).replace("\\", "\\\\")
            )
        )
        for script in ("sheet.vbs", "prices.vbs"):
            write(f"{self.bridge.room}/{script}", text(f"{COM}/example/{script}"))
        said = []
        for row, number in (("Monday", 3), ("Tuesday", 4), ("Monday", 2)):
            said.append(
                self.wine.run("cscript", "//nologo", "sheet.vbs", row, "tea", str(number))[1]
            )
            self.server.child.kill()
        self.tell(
            "sheet.vbs",
            said
            == [
                "Monday: 3\ntotal: 3\n",
                "Monday: 3\nTuesday: 4\ntotal: 7\n",
                "Monday: 5\nTuesday: 4\ntotal: 9\n",
            ],
            said,
        )
        refused = (
            "458: Desk.Sheet 1, Price: values of this type are not supported: the new value is "
            "declared CURRENCY and given as double; "
        )
        refused += (
            "DECIMAL holds this number, and CCur makes a CURRENCY that is near it "
            "(DISP_E_BADVARTYPE, 0x80020008)\nrounded to 0.3333\n"
        )
        for marks, wanted in (
            ("4", "Sheet 1: 9 marks, 2.25\n"),
            ("3", f"{refused}Sheet 1: 9 marks, 2.9997\n"),
        ):
            output = self.wine.run("cscript", "//nologo", "prices.vbs", "tea", marks, "1")[1]
            self.tell(f"prices.vbs, {marks} marks cost 1", output == wanted, output)
        self.bridge.register("Desk", "/u")

    def test_what_the_file_of_the_example_enters(self):
        self.addCleanup(self.bridge.settle)
        self.bridge.new_store(f"{COM}/example/sheet.idl")
        lines = (
            text(f"{COM}/example/sheet.reg")
            .replace("REGEDIT4", "")
            .replace('"localhost"', '"127.0.0.1"')
            .replace('"8765"', f'"{self.server.port}"')
        )
        self.bridge.enter(
            lines.replace(
                "C:\\\\oaut\\\\oautcom.dll", windows(self.bridge.dll).replace("\\", "\\\\")
            )
        )
        entered = [
            self.wine.run("reg", "query", f"HKCR\\CLSID\\{{{it}}}", "/s")[1]
            for it in (
                "8d1e5f60-3c42-4b77-9a51-6272a3d0c103",
                hub_of("8d1e5f60-3c42-4b77-9a51-6272a3d0c102"),
            )
        ]
        self.bridge.register("Desk", "/u")
        self.bridge.register("Desk")
        by_regsvr32 = [
            untyped(self.wine.run("reg", "query", f"HKCR\\CLSID\\{{{it}}}", "/s")[1])
            for it in (
                "8d1e5f60-3c42-4b77-9a51-6272a3d0c103",
                hub_of("8d1e5f60-3c42-4b77-9a51-6272a3d0c102"),
            )
        ]
        self.tell(
            "the file enters what regsvr32 does, but for the type library that it writes",
            all(entered) and entered == by_regsvr32,
            (entered, by_regsvr32),
        )
        self.bridge.register("Desk", "/u")


# --- faults that are planted, and what finds them

FAULTS = {
    "scale and sign of a DECIMAL are exchanged": (
        "wire.c",
        [
            (
                "&number->scale, 1);\n    write_bytes(to, &number->sign, 1);",
                "&number->sign, 1);\n    write_bytes(to, &number->scale, 1);",
            ),
            (
                "&number->scale, 1);\n    read_bytes(from, &number->sign, 1);",
                "&number->sign, 1);\n    read_bytes(from, &number->scale, 1);",
            ),
        ],
        "client",
    ),
    "the bounds of an array that was read are not turned": (
        "wire.c",
        [("bounds[dimensions - 1 - i]", "bounds[i]")],
        "client",
    ),
    "VT_BYREF is not followed": (
        "values.c",
        [("if (!(V_VT(value) & VT_BYREF))", "if (1)")],
        "client",
    ),
    "the argument at fault is not told": (
        "objects.c",
        [
            (
                "    if (FAILED(code) && argument && call.argument < call.given->cArgs)\n",
                "    if (0)\n",
            )
        ],
        "client",
    ),
    "a put that was lost is sent again": (
        "connection.c",
        [("result == OAUT_E_LOST && way == AGAIN &&", "result == OAUT_E_LOST &&")],
        "lost",
    ),
    "half of the types is another server's": (
        "library.c",
        [("index ? HERE : AGAIN", "AGAIN")],
        "types",
    ),
    "the second interface's calls are the first one's": (
        "objects.c",
        [("    face->target.iid = *iid;\n", "    face->target.iid = GUID_NULL;\n")],
        "plain",
    ),
    "a started process has the connection": (
        "connection.c",
        [("WSA_FLAG_OVERLAPPED | WSA_FLAG_NO_HANDLE_INHERIT", "WSA_FLAG_OVERLAPPED")],
        "started",
    ),
}


class Places(Cases):
    def test_planted_faults_have_their_places(self):
        for name, (file, edits, *_) in FAULTS.items():
            self.tell(name, is_placed(file, edits))


@needs_wine
class PlantedFaults(UnderWine):
    def tearDown(self):
        self.bridge.set()

    def client(self):
        return self.wine.run(f"{self.bridge.room}/built/client.exe")[1]

    def plain(self):
        return self.wine.run(f"{self.bridge.room}/built/hosts.exe", "plain")[1]

    def test_each_is_found(self):
        self.bridge.new_store()
        self.bridge.add_item()
        for name, (room, said) in all_planted(FAULTS, "build.sh").items():
            finder = FAULTS[name][2]
            with self.subTest(name), room:
                self.assertEqual(said[0], 0, said)
                self.bridge.set(Script=int(finder in ("lost", "types")), Idle=0)
                dll = windows(f"{room.name}/oautcom.dll").replace("\\", "\\\\")
                self.bridge.enter(
                    "".join(
                        f'[HKEY_CLASSES_ROOT\\CLSID\\{{{it}}}\\InprocServer32]\n@="{dll}"\n\n'
                        for it in (ITEM, HUB)
                    )
                )
                # (some show only where the connection's end arrives before the next request is
                # sent, which a busy machine may miss)
                self.assertTrue(
                    any(self.bad(getattr(self, finder)()) for _ in range(3)), "it is not found"
                )


def load_tests(loader, tests, pattern):
    """What takes longest comes last: the faults that are planted under Wine."""
    return unittest.TestSuite(sorted(tests, key=lambda some: "PlantedFaults" in str(some)))


if __name__ == "__main__":
    sys.exit(unittest.main())
