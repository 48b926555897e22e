"""`python3 -m oaut store`: what a store holds, its dumps, what is restored of them, and copies,
over stores that are made here."""
import decimal
import errno
import fcntl
import hashlib
import io
import json
import os
import struct
import subprocess
import sys
import tempfile
from unittest import mock

from oaut import copies, dumps, files
from oaut import store as stores
from tests.client.clients import ENVIRONMENT, LIBRARY, PROGRAM, ROOT, ClientCases, oaut

FACE, CLASS = LIBRARY.interfaces[0].guid, LIBRARY.coclasses[0].guid
with open(f"{ROOT}/examples/full.canonical.idl", "rb") as file:
    TEXT = file.read()


def created(number):
    return b"\1" + struct.pack("<I", number) + CLASS.bytes_le


def put(number, dispid, value, *key):
    """The image of the event of a put."""
    where = (
        FACE.bytes_le
        + struct.pack("<iH", dispid, len(key))
        + b"".join(map(stores.scalar_image, key))
    )
    return b"\3" + struct.pack("<I", number) + where + stores.value_image(value)


def text(content):
    return stores.BSTR, struct.pack("<I", len(content)) + content


NULL = stores.BSTR, struct.pack("<I", 0xFFFF_FFFF)
SCALARS = [
    (stores.EMPTY, b""),
    (stores.NULL, b""),
    *(
        (vt, struct.pack("<" + form, number))
        for vt, form in stores.NUMBERS.items()
        for number in (0, 1, (1 << 8 * struct.calcsize(form) - 1) - 1)
    ),
    *(
        (vt, struct.pack("<" + form, -(1 << 8 * struct.calcsize(form) - 1)))
        for vt, form in stores.NUMBERS.items()
        if form.islower()
    ),
    (stores.BOOL, b"\0"),
    (stores.BOOL, b"\1"),
    (stores.DECIMAL, struct.pack("<BBIQ", 2, 1, 0, 250)),
    (stores.DECIMAL, struct.pack("<BBIQ", 28, 0, 0xFFFF_FFFF, 0xFFFF_FFFF_FFFF_FFFF)),
    (stores.DECIMAL, struct.pack("<BBIQ", 3, 1, 0, 0)),
    (stores.DECIMAL, struct.pack("<BBIQ", 0, 0, 0, 10**18)),
    text(b""),
    text('Hi \U0001f600 "'.encode("utf-16-le")),
    text(b"abc"),
    text(b"\0\xd8"),
    NULL,
]
ARRAYS = [
    stores.Array(stores.I2, [(2, -1), (3, 5)], [struct.pack("<h", it) for it in range(6)]),
    stores.Array(stores.BSTR, [(2, 0)], [NULL[1], text(b"a\0")[1]]),
    stores.Array(
        stores.VARIANT, [(3, 0)], [(stores.EMPTY, b""), NULL, (stores.I4, struct.pack("<i", 7))]
    ),
    stores.Array(stores.I8, [(0, 5)], []),
]
KEYED = [
    put(
        5,
        9,
        text(b"x\0"),
        (stores.I4, struct.pack("<i", 5)),
        text(b"k\0"),
        (stores.I2, struct.pack("<h", 1)),
    )
]
VALUES = [put(2 + place % 2, 100 + place, it) for place, it in enumerate([*SCALARS, *ARRAYS])]
EVENTS = [
    b"".join(created(it) for it in range(1, 6)),
    b"".join(VALUES),
    *KEYED,
    b"\2" + struct.pack("<I", 4),
]


def made(room, form=2, name="it.store", events=EVENTS):
    """The path of a store in a folder, of a format, with groups of events."""
    path = f"{room}/{name}"
    with open(path, "wb") as file:
        file.write(
            stores.add(
                stores.formatted(TEXT) if form == 2 else stores.formatted_before(TEXT), *events
            )
        )
    return path


def object_with(**cell):
    """The part of a dump with an object that has this cell."""
    cells = [{"interface": str(FACE), "dispid": 1, **cell}]
    return {"objects": [{"number": 1, "coclass": str(CLASS), "cells": cells}]}


def held(path):
    with open(path, "rb") as file:
        return stores.dump(file.read())


def command(*words, given=None):
    done = subprocess.run(
        [sys.executable, "-m", "oaut", "store", *words],
        input=given,
        capture_output=True,
        text=True,
        timeout=300,
        env=ENVIRONMENT,
    )
    return done.returncode, done.stdout, done.stderr


class Backup(ClientCases):
    def test_info(self):
        with tempfile.TemporaryDirectory() as room:
            count = len(VALUES) + 6 + len(KEYED)
            size = sum(map(len, EVENTS)) + 5 * len(EVENTS)
            for form, length, bank in ((2, 75_505_664, 20_971_520), (1, 33_562_624, 16_777_184)):
                path = made(room, form, f"{form}.store")
                found = files.info(path)
                wanted = {
                    "format": form,
                    "size": length,
                    "bank": 0,
                    "bank_size": bank,
                    "library": "Demo",
                    "library_sha256": hashlib.sha256(TEXT).hexdigest(),
                }
                wanted |= {
                    "library_size": len(TEXT),
                    "snapshot_size": 8,
                    "groups": 4,
                    "groups_size": size,
                    "room": bank - len(TEXT) - 8 - size,
                }
                # docs/reference/store.md: a checkpoint is due where the room is under 4,718,597
                # bytes
                wanted["log_free"] = wanted["room"] - 4_718_597 if form == 2 else 0
                limit = bank - 5_242_880 if form == 2 else 14_680_064
                wanted |= {
                    "limit": limit,
                    "used": 8 + size,
                    "free": limit - 8 - size,
                    "percent": round(100 * (8 + size) / limit, 1),
                    "exact": False,
                }
                with open(path, "rb") as file:
                    read = stores.read(file.read())
                self.same(f"format {form}", found, wanted)
                wanted |= {
                    "events": count,
                    "next": 6,
                    "objects": 4,
                    "cells": len(VALUES) + 1,
                    "image_size": len(stores.table_image(read.next, read.objects)),
                }
                image = wanted["image_size"]
                wanted |= {
                    "used": image,
                    "free": limit - image,
                    "percent": round(100 * image / limit, 1),
                    "exact": True,
                }
                self.same(f"format {form}, counted", dumps.counted(path), wanted)

    def test_info_of_the_command(self):
        with tempfile.TemporaryDirectory() as room:
            path = made(room, 1, "1.store")
            found, wanted = files.info(path), dumps.counted(path)
            self.same(
                "in words",
                command("info", path)[:1] + tuple(command("info", path)[1].splitlines()[:2]),
                (0, "format 1", "size 33562624 bytes (32.0 MiB)"),
            )
            self.same("for programs", json.loads(command("info", "--json", path)[1]), found)
            self.same(
                "counted, for programs",
                json.loads(command("info", "--objects", "--json", path)[1]),
                wanted,
            )

    def test_dump_and_restore(self):
        with tempfile.TemporaryDirectory() as room:
            for form in (2, 1):
                path = made(room, form, f"{form}.store")
                told = dumps.dump(path)
                self.same(
                    f"format {form}: what is told can be written",
                    json.loads(json.dumps(told)),
                    told,
                )
                dumps.restore(json.loads(json.dumps(told)), f"{room}/{form}.restored")
                self.same(
                    f"format {form}: what is restored holds it all",
                    held(f"{room}/{form}.restored"),
                    held(path),
                )
                self.same(
                    f"format {form}: its library", dumps.dump(f"{room}/{form}.restored"), told
                )
            found = [
                (it["type"], it.get("value"))
                for one in told["objects"]
                for it in one["cells"]
                if "type" in it
            ]
            for it in (
                ("I4", 1),
                ("I8", "9223372036854775807"),
                ("CY", "0.0001"),
                ("DECIMAL", "-2.50"),
                ("DECIMAL", "-0.000"),
                ("BSTR", None),
                ("NULL", None),
                ("BOOL", True),
            ):
                self.tell(f"a value as JSON: {it}", it in found, found)
            self.same("its size", os.path.getsize(f"{room}/2.restored"), 75_505_664)
            dumps.restore(told, f"{room}/large", bank=25_000_000)
            self.same("of another bank", files.info(f"{room}/large")["bank_size"], 25_000_000)
            # by the commands
            status, out, err = command("dump", "--json", path)
            self.same("dump --json", (status, json.loads(out), err), (0, told, ""))
            self.same("restore", command("restore", "-", f"{room}/again", given=out), (0, "", ""))
            self.same("and what it holds", command("dump", f"{room}/again"), (0, held(path), ""))
            self.same("library", command("library", path), (0, TEXT.decode(), ""))
            self.same(
                "groups",
                command("groups", path)[1].splitlines()[:2],
                ["format 1, bank 0", f"group at {8_192 + 32 + len(TEXT) + 8}: 5 events"],
            )

    def test_what_other_tools_have_changed(self):
        """A value is restored as it is told, or not at all: none is rounded, and none is taken for
        another one."""
        with tempfile.TemporaryDirectory() as room:
            told = dumps.dump(made(room, events=[EVENTS[0], KEYED[0]]))
            for vt, value, wanted in (
                *(
                    ("BOOL", True, True),
                    ("BOOL", 1, None),
                    ("BOOL", "true", None),
                    ("BOOL", None, None),
                ),
                *(
                    ("I4", "7", 7),
                    ("I4", 7.0, 7),
                    ("I4", 3.7, None),
                    ("I4", "3.7", None),
                    ("I4", True, None),
                    ("I4", None, None),
                    ("I4", "1e999999999", None),
                ),
                *(
                    ("CY", 1.1, "1.1000"),
                    ("CY", 2, "2.0000"),
                    ("CY", "1.23456", None),
                    ("CY", "NaN", None),
                    ("CY", "922337203685477.5808", None),
                ),
                *(
                    ("DECIMAL", 0.5, "0.5"),
                    ("DECIMAL", True, None),
                    ("EMPTY", 5, None),
                    ("NULL", "x", None),
                ),
            ):
                cell = {"interface": str(FACE), "dispid": 1, "type": vt, "value": value}
                changed = {
                    **told,
                    "next": 9,
                    "objects": [{"number": 1, "coclass": str(CLASS), "cells": [cell]}],
                }
                if wanted is None:
                    self.raises(
                        f"{vt} of {value!r}",
                        oaut.Unusable,
                        lambda: dumps.restore(changed, f"{room}/new"),
                    )
                    continue
                dumps.restore(changed, f"{room}/new")
                self.same(
                    f"{vt} of {value!r}",
                    dumps.dump(f"{room}/new")["objects"][0]["cells"][0]["value"],
                    wanted,
                )
                os.unlink(f"{room}/new")

    def test_amounts_whatever_decimals_a_program_computes_with(self):
        with tempfile.TemporaryDirectory() as room:
            told = dumps.dump(made(room, events=[EVENTS[0], KEYED[0]]))
            cell = {"interface": str(FACE), "dispid": 1, "type": "CY", "value": "123456789.0123"}
            told = {
                **told,
                "next": 9,
                "objects": [{"number": 1, "coclass": str(CLASS), "cells": [cell]}],
            }
            with decimal.localcontext() as context:
                context.prec = 3
                dumps.restore(told, f"{room}/new")
                found = dumps.dump(f"{room}/new")
            self.same("it is reported", found["objects"][0]["cells"][0]["value"], "123456789.0123")

    def test_a_stream_without_a_file(self):
        with tempfile.TemporaryDirectory() as room:
            path = made(room, events=[EVENTS[0], KEYED[0]])
            dumps.restore(io.StringIO(json.dumps(dumps.dump(path))), f"{room}/new")
            self.same("what is restored holds it all", held(f"{room}/new"), held(path))

    def test_what_is_not_restored(self):
        with tempfile.TemporaryDirectory() as room:
            told = dumps.dump(made(room, events=[EVENTS[0], KEYED[0]]))
            number = told["objects"][0]["number"]
            for name, change in (
                ("another form", {"form": 2}),
                ("no library", {"library": None}),
                ("a next number that is used", {"next": 3}),
                (
                    "a number twice",
                    {"objects": [{"number": number, "coclass": str(CLASS), "cells": []}] * 2},
                ),
                (
                    "a coclass that is no GUID",
                    {"objects": [{"number": 1, "coclass": "x", "cells": []}]},
                ),
                ("a type that is none", object_with(type="DATE", value=1)),
                ("a number too large", object_with(type="I2", value=70_000)),
                ("cells too few", object_with(array="I2", bounds=[[2, 0]], cells=[1])),
            ):
                self.raises(
                    name, oaut.Unusable, lambda: dumps.restore({**told, **change}, f"{room}/new")
                )
            self.raises("no dump", oaut.Unusable, lambda: dumps.restore([], f"{room}/new"))
            self.raises(
                "a bank too small",
                ValueError,
                lambda: dumps.restore(told, f"{room}/new", bank=1_000),
            )
            self.raises(
                "a file that is there",
                FileExistsError,
                lambda: dumps.restore(told, f"{room}/it.store"),
            )
            self.same("nothing is left", sorted(os.listdir(room)), ["it.store"])
            with open(f"{room}/broken.json", "w") as file:
                file.write("{")
            status, out, err = command("restore", f"{room}/broken.json", f"{room}/new")
            self.tell(
                "no JSON",
                (status, out) == (1, "")
                and err.startswith(f"python3 -m oaut: {room}/broken.json: no JSON: ")
                and err.count("\n") == 1,
                err,
            )

    def test_copies(self):
        with tempfile.TemporaryDirectory() as room:
            path = made(room)
            self.same("copy", command("copy", path, f"{room}/copy"), (0, "", ""))
            with open(path, "rb") as one, open(f"{room}/copy", "rb") as other:
                self.same("the same bytes", one.read() == other.read(), True)
            self.same(
                "a file that is there",
                command("copy", path, f"{room}/copy"),
                (1, "", f"python3 -m oaut: {room}/copy: File exists\n"),
            )
            with open(path, "r+b") as file:
                file.seek(33_562_624 + len(TEXT) + 8 + 5)
                file.write(b"\x09")
            damaged = f"python3 -m oaut: {path}: damaged at {33_562_624 + len(TEXT) + 8}\n"
            for words in (["info", "--objects"], ["dump"], ["dump", "--json"]):
                self.same(f"{words} of a damaged one", command(*words, path), (1, "", damaged))
            self.same(
                "groups of a damaged one",
                command("groups", path),
                (1, "format 2, bank 0\n", damaged),
            )
            # what reads no object does not meet it: a copy is the same bytes
            self.same("info of a damaged one", command("info", path)[0], 0)
            self.same(
                "a copy of a damaged one",
                (command("copy", path, f"{room}/damaged"), command("dump", f"{room}/damaged")[0]),
                ((0, "", ""), 1),
            )
            os.unlink(f"{room}/damaged")
            with open(path, "r+b") as file:
                file.seek(stores.HEADS[0])
                file.write(b"X")
            damaged = f"python3 -m oaut: {path}: damaged at {stores.HEADS[0]}\n"
            for words in (
                ["info"],
                ["info", "--live"],
                ["copy", path, f"{room}/other"],
                ["copy", "--live", path, f"{room}/other"],
            ):
                self.same(
                    f"{words} of a head that is none",
                    command(*words, *([] if "copy" in words else [path])),
                    (1, "", damaged),
                )
            for name, content in (("empty", b""), ("short", b"\1" * 100)):
                with open(f"{room}/{name}", "wb") as file:
                    file.write(content)
                self.same(
                    f"{name}: no store",
                    command("info", f"{room}/{name}"),
                    (1, "", f"python3 -m oaut: {room}/{name}: not a store\n"),
                )
            self.same("a file that is not there", command("info", "/none")[0], 1)
            self.same(
                "what is there", sorted(os.listdir(room)), ["copy", "empty", "it.store", "short"]
            )

    def test_a_folder_without_links(self):
        """As those of FAT and of some servers are: a new file gets its name all the same, and no
        file is replaced."""
        refused = mock.patch(
            "os.link", side_effect=PermissionError(errno.EPERM, os.strerror(errno.EPERM))
        )
        with tempfile.TemporaryDirectory() as room, refused:
            path = made(room)
            copies.copy(path, f"{room}/copy")
            copies.backup(path, f"{room}/backup")
            dumps.restore(dumps.dump(path), f"{room}/restored")
            for name in ("copy", "backup", "restored"):
                self.same(f"what the {name} holds", held(f"{room}/{name}"), held(path))

            def in_between(*_):
                with open(f"{room}/other", "w") as file:
                    file.write("mine")

            self.raises(
                "a file that comes in between",
                FileExistsError,
                lambda: copies.copy(path, f"{room}/other", in_between),
            )
            with open(f"{room}/other") as file:
                self.same("it stays", file.read(), "mine")
            self.same(
                "what is there",
                sorted(os.listdir(room)),
                ["backup", "copy", "it.store", "other", "restored"],
            )

    def test_a_store_in_use(self):
        with tempfile.TemporaryDirectory() as room:
            path, told = made(room), {}
            with open(path, "r+b") as file:
                fcntl.flock(file, fcntl.LOCK_EX)
                for name, act in (
                    ("info", files.info),
                    ("dump", dumps.dump),
                    ("copy", lambda it: copies.copy(it, f"{room}/copy")),
                ):
                    self.raises(
                        f"{name} of a store that a server has", oaut.StoreInUse, lambda: act(path)
                    )
                busy = (
                    f"python3 -m oaut: {path}: in use by another process; --live reads it "
                    "meanwhile\n"
                )
                self.same("by the command", command("info", path), (1, "", busy))
                for words in (["info"], ["dump"], ["dump", "--json"], ["groups"], ["library"]):
                    live = command(*words, "--live", path)
                    self.same(f"{words} --live of it", (live[0], live[2]), (0, ""))
                    told[tuple(words)] = live[1]
            self.same("once it is free", files.info(path)["groups"], 4)
            for words, said in told.items():
                self.same(f"{words}, as --live told it", command(*words, path), (0, said, ""))
