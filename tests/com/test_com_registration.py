"""The registration of the COM bridge: a class belongs to the name that has entered it. What is not
installed leaves its tests out, each by its name."""
import contextlib
import os
import subprocess
import unittest

from tests.com.under_wine import (
    HUB,
    ITEM,
    TESTS,
    Server,
    UnderWine,
    all_planted,
    needs_wine,
    text,
    windows,
    write,
)
from tests.support.running import PROGRAM

CLASSES = "HKCR\\CLSID"


@needs_wine
class Names(UnderWine):
    def setUp(self):
        super().setUp()
        self.bridge.new_store()
        self.bridge.register("Demo")

    def tearDown(self):
        for name in ("Other", "Demo"):
            self.bridge.register(name, "/u")
        for key in (
            f"CLSID\\{{{ITEM}}}",
            f"CLSID\\{{{HUB}}}",
            f"Wow6432Node\\CLSID\\{{{ITEM}}}",
            "Demo.Item",
            "Demo.Store",
            "Demo.Gone",
        ):
            if self.bridge.has(f"HKCR\\{key}"):
                self.bridge.enter(f"[-HKEY_CLASSES_ROOT\\{key}]\n")
        self.bridge.new_store()
        self.bridge.set()

    @contextlib.contextmanager
    def second(self, library=None):
        """A second server, with a store of the same library, or of another one."""
        server = Server()
        try:
            library = library or f"{TESTS}/demo.idl"
            store = f"{self.bridge.room}/second.store"
            if os.path.exists(store):
                os.remove(store)
            subprocess.run(
                [PROGRAM, "format", store, library], stdout=subprocess.DEVNULL, check=True
            )
            server.words = [PROGRAM, "serve", store, library]
            yield server.port
        finally:
            server.close()

    def register(self, name, port, *more):
        """What regsvr32 has as its status, and what the DLL says."""
        return self.wine.said(
            "regsvr32", "/s", "/n", *more, f"/i:{name}@127.0.0.1:{port}", self.bridge.dll
        )

    def port_of(self, guid):
        status, output = self.wine.run("reg", "query", f"{CLASSES}\\{{{guid}}}\\Oaut", "/v", "Port")
        return None if status else int(output.split()[-1])

    def enter(self, key, lines):
        self.bridge.enter(f"[HKEY_CLASSES_ROOT\\{key}]\n{lines}\n")

    def remove(self, key):
        self.bridge.enter(f"[-HKEY_CLASSES_ROOT\\{key}]\n")

    def has(self, key):
        return self.bridge.has(f"HKCR\\{key}")

    def test_a_second_name_of_a_library_is_refused(self):
        with self.second() as port:
            status, said = self.register("Other", port)
        self.tell("it is refused", status != 0, status)
        self.tell(
            "the line names the first one and its server",
            f"registered as Demo.Store, of 127.0.0.1:{self.server.port}" in said,
            said,
        )
        self.tell("in one line", said.count("\n") == 1, said)
        self.tell(
            "the first one's scripts go where they went",
            [self.port_of(it) for it in (ITEM, HUB)] == [self.server.port] * 2,
        )
        self.tell("no name is entered", not self.has("Other.Item") and not self.has("Other.Store"))

    def test_what_a_refused_name_had_stays(self):
        library = write(
            f"{self.bridge.room}/other.idl",
            text(f"{TESTS}/demo.idl").replace("11223344", "aabbccdd"),
        )
        with self.second(library) as port:
            self.tell("another library is registered", self.register("Other", port)[0] == 0)
        self.tell(
            "the first one's library is refused", self.register("Other", self.server.port)[0] != 0
        )
        self.tell(
            "the other one stays", self.port_of(str(ITEM).replace("11223344", "aabbccdd")) == port
        )

    def test_a_name_that_leads_to_another_ones_class_is_removed_alone(self):
        self.enter("Other.Item\\CLSID", f'@="{{{ITEM}}}"')
        self.tell("regsvr32 /u", self.register("Other", 1, "/u")[0] == 0)
        self.tell("the name is gone", not self.has("Other.Item"))
        self.tell("the class stays", self.port_of(ITEM) == self.server.port)

    def test_a_name_that_leads_nowhere_is_removed(self):
        self.enter("Demo.Gone\\CLSID", '@="{99999999-5566-7788-99aa-bbccddeeff03}"')
        self.register("Demo", self.server.port, "/u")
        self.tell("it is gone", not self.has("Demo.Gone"))

    def test_a_name_of_another_program_that_leads_nowhere_stays(self):
        self.enter("Demo.Gone", '@="of another program"')
        self.enter("Demo.Gone\\CLSID", '@="{99999999-5566-7788-99aa-bbccddeeff03}"')
        self.register("Demo", self.server.port, "/u")
        self.tell("it stays", self.has("Demo.Gone"))

    def test_a_users_name_of_a_class_of_the_machine_stays(self):
        """The class is another program's. Once it is gone, the name leads nowhere."""
        gone, class_ = (
            "HKEY_CURRENT_USER\\Software\\Classes\\Demo.Gone",
            "HKEY_LOCAL_MACHINE\\Software\\Classes\\CLSID\\{99999999-5566-7788-99aa-bbccddeeff03}",
        )
        self.bridge.enter(
            f'[{gone}\\CLSID]\n@="{{99999999-5566-7788-99aa-bbccddeeff03}}"\n\n'
            f'[{class_}\\InprocServer32]\n@="other.dll"\n'
        )
        for name, lines, stays in (
            ("the class is there", "", True),
            ("the class is gone", f"[-{class_}]\n", False),
        ):
            self.bridge.enter(lines)
            self.register("user:Demo", self.server.port, "/u")
            self.tell(
                f"{name}: the name",
                self.bridge.has(gone.replace("HKEY_CURRENT_USER", "HKCU")) == stays,
            )

    def test_a_class_whose_name_is_gone_is_removed(self):
        self.remove("Demo.Item")
        self.tell("regsvr32 /u", self.register("Demo", self.server.port, "/u")[0] == 0)
        self.tell(
            "the classes are gone",
            not self.has(f"CLSID\\{{{ITEM}}}") and not self.has(f"CLSID\\{{{HUB}}}"),
        )

    def test_registering_again_repairs_names_without_their_classes(self):
        for guid in (ITEM, HUB):
            self.remove(f"CLSID\\{{{guid}}}")
        self.tell("it is registered", self.register("Demo", self.server.port) == (0, ""))
        self.tell("its class is there", self.port_of(ITEM) == self.server.port)

    def test_registering_again_repairs_a_class_that_is_half_entered(self):
        self.remove(f"CLSID\\{{{ITEM}}}\\ProgID")
        self.remove("Demo.Item")
        self.tell("it is registered", self.register("Demo", self.server.port) == (0, ""))
        self.tell("its name is there", self.has("Demo.Item\\CLSID"))

    def test_a_name_is_the_same_in_any_case_of_its_letters(self):
        self.tell("it is registered again", self.register("DEMO", self.server.port) == (0, ""))
        self.register("demo", self.server.port, "/u")
        self.tell(
            "and unregistered", not self.has("Demo.Item") and not self.has(f"CLSID\\{{{ITEM}}}")
        )

    def test_a_name_stays_that_a_class_of_other_bits_bears(self):
        key = f"Wow6432Node\\CLSID\\{{{ITEM}}}"
        self.enter(f"{key}\\Oaut", '"Host"="127.0.0.1"\n"Port"="1"')
        self.enter(f"{key}\\ProgID", '@="Demo.Item"')
        self.register("Demo", self.server.port, "/u")
        self.tell("the name stays", self.has("Demo.Item"))
        self.tell("the other class stays", self.has(f"{key}\\Oaut"))
        self.tell("this one is gone", not self.has(f"CLSID\\{{{ITEM}}}"))


@needs_wine
class Words(UnderWine):
    """What regsvr32 is told that does not do what was meant."""

    def test_plain_regsvr32_says_what_to_do(self):
        for more in ([], ["/u"]):
            status, said = self.wine.said("regsvr32", "/s", *more, self.bridge.dll)
            self.tell(f"{more}: its status", status != 0, status)
            self.tell(
                f"{more}: its line",
                f"regsvr32 {''.join(it + ' ' for it in more)}/n /i:Desk@localhost:8765 oautcom.dll"
                in said,
                said,
            )

    def test_a_server_that_is_not_reached_is_named(self):
        status, said = self.wine.said(
            "regsvr32", "/s", "/n", "/i:Demo@127.0.0.1:1", self.bridge.dll
        )
        self.tell("its status", status != 0, status)
        self.tell("its line", "127.0.0.1:1: connection refused" in said, said)

    def test_a_value_that_the_registry_refuses_is_named(self):
        """By a planted fault: Wine's registry refuses none."""
        refused = (
            "registration.c",
            [
                (
                    "return !RegSetKeyValueW(place->root, path, name, REG_DWORD,",
                    "return 0 && !RegSetKeyValueW(place->root, path, name, REG_DWORD,",
                )
            ],
        )
        self.bridge.register("Demo", "/u")
        for room, build in all_planted({"a number is refused": refused}, "build.sh").values():
            with room:
                self.same("the build", build, (0, ""))
                status, said = self.wine.said(
                    "regsvr32",
                    "/s",
                    "/n",
                    f"/i:Demo@127.0.0.1:{self.server.port}",
                    f"{room.name}/oautcom.dll",
                )
        there = [
            it
            for it in (f"CLSID\\{{{ITEM}}}", f"CLSID\\{{{HUB}}}", "Demo.Item", "Demo.Store")
            if self.bridge.has(f"HKCR\\{it}")
        ]
        self.bridge.set()
        self.tell("its status", status != 0, status)
        self.same(
            "its line", said, "Demo.Item: the registry refuses a value, so nothing is registered\n"
        )
        self.same("what is there", there, [])

    def test_the_program_of_another_class_is_named(self):
        self.bridge.register("Demo", "/u")
        self.bridge.enter(
            f"[HKEY_CLASSES_ROOT\\CLSID\\{{{ITEM}}}\\InprocServer32]\n"
            f'@="{windows("/other.dll")}"\n'.replace("Z:\\", "Z:\\\\")
        )
        said = self.wine.said(
            "regsvr32", "/s", "/n", f"/i:Demo@127.0.0.1:{self.server.port}", self.bridge.dll
        )[1]
        self.bridge.enter(f"[-HKEY_CLASSES_ROOT\\CLSID\\{{{ITEM}}}]\n")
        self.bridge.set()
        self.tell("its line", "registered by another program (Z:\\other.dll)" in said, said)


if __name__ == "__main__":
    unittest.main()
