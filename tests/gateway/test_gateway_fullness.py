"""How full a store is: what `oaut-gateway measure` and `status` print, and /metrics says, against
what `oaut dump` prints of the store."""
import mmap
import os
import re
import struct
import subprocess
import tempfile
import time
import unittest

from oaut import files
from tests.client.test_client_backup import FACE, TEXT, created, text
from tests.client.test_client_contents import drawn, whole
from tests.gateway.gateways import SECONDS, Gateway, built, library
from tests.support import store as stores
from tests.support.drawn import session_of
from tests.support.model import LIBRARY
from tests.support.preloaded import COMPILER, fast_folder
from tests.support.running import Cases, fill, run_in
from tests.support.wire import oaut

needs_cc = unittest.skipUnless(COMPILER, "cc is not there")
REQUESTS = 240
SEEDS = range(6)
TRIES = 20
KEPT_FREE, LARGEST_GROUP = 5_242_880, 4_718_597


def counted(dump):
    """The bytes, objects and cells of a table, by what `oaut dump` prints of it
    (docs/reference/images.md)."""
    size = objects = cells = 0
    for line in dump.splitlines():
        kind, *words = line.split(" ")
        if kind == "next":
            size += 8
        elif kind == "object":
            size, objects = size + 24, objects + 1
        else:
            size, cells = size + 22 + sum(len(it) // 2 for it in words[2:] if it != "-"), cells + 1
    return {"bytes_used": size, "objects": objects, "cells": cells}


def values(text):
    """The values of the store's metrics, by name."""
    return {
        name: float(value)
        for name, value in re.findall(r"^oaut_store_(\w+) (\S+)$", text, re.MULTILINE)
    }


# a file system that says of each file that it is large
LARGER = r"""
#define _GNU_SOURCE
#include <dlfcn.h>
#include <sys/stat.h>
int fstat(int fd, struct stat *into) {
    int done = ((int (*)(int, struct stat *))dlsym(RTLD_NEXT, "fstat"))(fd, into);
    into->st_size = 1L << 40;
    return done;
}
"""
CHANGED = "damaged, or another bank counts by now"


def measured(path, **variables):
    done = subprocess.run(
        [built()[0], "measure", path],
        capture_output=True,
        text=True,
        timeout=SECONDS,
        env={**os.environ, **variables},
    )
    return done.returncode, values(done.stdout), done.stderr


class FullnessCases(Cases):
    def same(self, name, got, wanted):
        self.tell(name, got == wanted, (got, wanted))


@needs_cc
class Measure(FullnessCases):
    def agrees(self, name, room):
        """What is measured of it.store is what the program prints of it, and what its head and
        groups say."""
        wanted = counted(run_in(room, ["dump", "it.store"])[1].decode())
        status, found, said = measured(f"{room}/it.store")
        self.tell(f"{name}: it is measured", (status, said) == (0, ""), (status, said))
        for what, value in wanted.items():
            self.tell(f"{name}: {what}", found[what] == value, (found[what], value))
        with open(f"{room}/it.store", "rb") as file:
            file.seek(4_096)
            bank = file.read(1)[0] & 1
            file.seek((8_192, 16_785_408)[bank])
            library, snapshot, size = struct.unpack("<III", file.read(32)[12:24])
        info = files.info(f"{room}/it.store")
        self.tell(f"{name}: the bank", found["bank"] == bank, found)
        self.tell(f"{name}: the limit", found["bytes_limit"] == size - KEPT_FREE, found)
        self.tell(f"{name}: the checkpoint", found["checkpoint_bytes"] == snapshot, found)
        self.tell(f"{name}: the log", found["log_bytes"] == info["groups_size"], (found, info))
        self.tell(
            f"{name}: what is free of it",
            found["log_free_bytes"] == info["room"] - LARGEST_GROUP == info["log_free"],
            (found, info),
        )

    def test_a_new_store(self):
        with tempfile.TemporaryDirectory(dir=fast_folder()) as room:
            fill(room, {"lib.idl": LIBRARY})
            run_in(room, ["format", "it.store", "lib.idl"])
            self.agrees("a new store", room)
            self.tell("8 bytes", measured(f"{room}/it.store")[1]["bytes_used"] == 8)

    def test_random_sessions(self):
        """Half of the requests stand in the log, behind a checkpoint that has the other half."""
        for seed in SEEDS:
            session = session_of(seed)
            with tempfile.TemporaryDirectory(dir=fast_folder()) as room:
                fill(room, {"lib.idl": LIBRARY})
                run_in(room, ["format", "it.store", "lib.idl"])
                for half in range(2):
                    turns = [session.turn(tag) for tag in range(1, REQUESTS // 2 + 1)]
                    run_in(
                        room,
                        ["serve", "it.store", "lib.idl", "--group", "7"],
                        oaut.Raw.pack([body for body, _ in turns]),
                    )
                    fill(room, {"lib.idl": session.model.library.text()})
                    self.agrees(f"seed {seed}, half {half}", room)
                    with open(f"{room}/it.store", "rb") as file:
                        settled = stores.settled(file.read())
                    fill(room, {"it.store": bytes(settled)})
                    self.agrees(f"seed {seed}, half {half}, a checkpoint", room)

    def test_drawn_events(self):
        """Events of each kind over arrays of each type, which are larger and smaller by turns."""
        for seed in range(16):
            with tempfile.TemporaryDirectory(dir=fast_folder()) as room:
                path = drawn(seed, room)
                with open(path, "rb") as file:
                    file.seek(8_192)
                    if file.read(8) == b"OAUTBK01":
                        continue
                status, found, said = measured(path)
                wanted = counted(whole(path))
                self.tell(
                    f"seed {seed}",
                    {it: found.get(it) for it in wanted} == wanted,
                    (found, wanted, status, said),
                )

    def test_an_array_that_is_put_again(self):
        """An element is put, then the whole array, then the element once more; another object has a
        cell of the same name."""
        name = stores.place_image((FACE.bytes_le, 3, ()))
        texts = lambda *some: stores.value_image(
            stores.Array(stores.BSTR, [(len(some), 0)], [text(it.encode())[1] for it in some])
        )
        put = lambda number, value: b"\3" + struct.pack("<I", number) + name + value
        element = (
            lambda number, it: b"\4"
            + struct.pack("<I", number)
            + name
            + struct.pack("<Hi", 1, 0)
            + stores.scalar_image(text(it.encode()))
        )
        events = [
            created(1),
            created(2),
            put(1, texts("a", "b")),
            element(1, "a long text"),
            put(1, texts("c", "d")),
            element(1, "another"),
            put(2, texts("e")),
        ]
        with tempfile.TemporaryDirectory(dir=fast_folder()) as room:
            fill(room, {"it.store": bytes(stores.add(stores.formatted(TEXT), *events))})
            wanted = counted(whole(f"{room}/it.store"))
            found = measured(f"{room}/it.store")[1]
            self.same("what is measured", {it: found.get(it) for it in wanted}, wanted)

    def test_what_cannot_be_measured(self):
        with tempfile.TemporaryDirectory(dir=fast_folder()) as room:
            fill(room, {"lib.idl": LIBRARY, "none": b"x", "empty": b""})
            for name, path, why in (
                ("no file", f"{room}/missing", "No such file or directory"),
                ("no store", f"{room}/none", "not a store"),
                ("an empty file", f"{room}/empty", "not a store"),
                ("a folder", room, "Is a directory"),
            ):
                self.same(
                    name, measured(path), (1, {}, f"oaut-gateway: cannot measure {path}: {why}\n")
                )
            run_in(room, ["format", "it.store", "lib.idl"])
            session = session_of(0)
            turns = [session.turn(tag) for tag in range(1, 40)]
            run_in(
                room, ["serve", "it.store", "lib.idl"], oaut.Raw.pack([body for body, _ in turns])
            )
            found = files.info(f"{room}/it.store")
            with open(f"{room}/it.store", "r+b") as file:
                file.seek(stores.LEAST + found["library_size"] + found["snapshot_size"] + 5)
                file.write(b"\xff")
            self.same("an event of no kind", measured(f"{room}/it.store")[0], 1)

    def test_events_that_contradict_the_table(self):
        """As those of a bank that is written anew while it is read."""
        name, other = (stores.place_image((FACE.bytes_le, dispid, ())) for dispid in (1, 2))
        event = (
            lambda kind, number, content=b"": bytes([kind]) + struct.pack("<I", number) + content
        )
        number = stores.scalar_image((stores.I4, struct.pack("<i", 7)))
        index = struct.pack("<Hi", 1, 0) + number
        with tempfile.TemporaryDirectory(dir=fast_folder()) as room:
            for what, wrong in (
                ("a second object of a number", created(1)),
                ("the end of an object that is not there", event(2, 2)),
                ("a put of an object that is not there", event(3, 2, name + number)),
                ("an element of a number", event(4, 1, name + index)),
                ("an element of what is not there", event(4, 1, other + index)),
                ("a bound of a number", event(5, 1, name + struct.pack("<Ii", 1, 0))),
                ("a bound of what is not there", event(5, 1, other + struct.pack("<Ii", 1, 0))),
                ("no kind", event(6, 1)),
                ("a part of an event", event(3, 1, name)),
            ):
                fill(
                    room,
                    {
                        "it.store": bytes(
                            stores.add(
                                stores.formatted(TEXT),
                                created(1),
                                event(3, 1, name + number),
                                wrong,
                            )
                        )
                    },
                )
                self.same(
                    what,
                    measured(f"{room}/it.store"),
                    (1, {}, f"oaut-gateway: cannot measure {room}/it.store: {CHANGED}\n"),
                )

    def test_a_bank_that_changes_while_it_is_read(self):
        """Another bank counts by now, and this one is written anew: an array has other bounds
        behind its elements than before them."""
        name = stores.place_image((FACE.bytes_le, 3, ()))
        array = stores.value_image(stores.Array(stores.BSTR, [(2, 0), (2, 0)], [text(b"a")[1]] * 4))
        element = (
            b"\4"
            + struct.pack("<I", 1)
            + name
            + struct.pack("<Hii", 2, 1, 1)
            + stores.scalar_image(text(b"b"))
        )
        content = bytes(
            stores.add(
                stores.formatted(TEXT),
                created(1),
                b"\3" + struct.pack("<I", 1) + name + array,
                *[element] * 20_000,
            )
        )
        second = content.index(array) + 12  # how many elements the second bound has
        with tempfile.TemporaryDirectory(dir=fast_folder()) as room:
            fill(room, {"it.store": content})
            with open(f"{room}/it.store", "r+b") as file, mmap.mmap(file.fileno(), 0) as there:
                for _ in range(TRIES):
                    with subprocess.Popen(
                        [built()[0], "measure", f"{room}/it.store"],
                        stdout=subprocess.DEVNULL,
                        stderr=subprocess.PIPE,
                    ) as child:
                        while child.poll() is None:
                            for count in (60_000, 2):
                                there[second : second + 4] = struct.pack("<I", count)
                        said = child.stderr.read().decode()
                    if child.returncode not in (0, 1) or said not in (
                        "",
                        f"oaut-gateway: cannot measure {room}/it.store: {CHANGED}\n",
                    ):
                        self.tell(
                            "it is measured, or not", False, (child.returncode, said[-2_000:])
                        )
                self.tell("it is measured, or not", True)

    def test_a_file_that_is_cut_while_it_is_read(self):
        """The bytes that lack end no process by a signal: not if the size says that they are there,
        either."""
        with tempfile.TemporaryDirectory(dir=fast_folder()) as room:
            fill(room, {"lib.idl": LIBRARY})
            run_in(room, ["format", "it.store", "lib.idl"])
            os.truncate(f"{room}/it.store", stores.LEAST)
            self.same(
                "it is cut",
                measured(f"{room}/it.store")[::2],
                (
                    1,
                    (
                        f"oaut-gateway: cannot measure {room}/it.store: not a store, or of "
                        "another format\n"
                    ),
                ),
            )
            preloaded, _ = library("larger", LARGER)
            status, found, said = measured(
                f"{room}/it.store", LD_PRELOAD=preloaded, ASAN_OPTIONS="verify_asan_link_order=0"
            )
            self.same(
                "it was larger",
                (status, found, said),
                (1, {}, f"oaut-gateway: cannot measure {room}/it.store: {CHANGED}\n"),
            )


@needs_cc
class Told(FullnessCases):
    def filled(self, gateway, count, text="x"):
        with gateway.session() as server:
            for _ in range(count):
                server.create("Item").Name = text

    def scraped(self, gateway, fact):
        """What /metrics says of the store, once it says this: it is measured behind the answer to a
        scraper, and again when a hundred times as long has passed as that took."""

        def look():
            text = gateway.ask(b"GET /metrics HTTP/1.1\r\n\r\n", "metrics", ends=False).decode()
            return text if fact(values(text)) else None

        return Gateway.wait_for(look, "the metrics of the store do not come", 3 * SECONDS)

    def test_status(self):
        with Gateway() as gateway:
            self.filled(gateway, 3)
            found = gateway.counters()
            self.same("objects", found["oaut_store_objects"], 3)
            self.same("bytes", found["oaut_store_bytes_used"], 8 + 3 * (24 + 22 + 2 + 4 + 2))
            self.tell(
                "the version",
                [it for it in found if it.startswith('oaut_gateway_build_info{version="')],
                found,
            )

    def test_metrics(self):
        with Gateway() as gateway:
            self.filled(gateway, 3)
            text = self.scraped(gateway, lambda found: found.get("objects") == 3)
            for line in text.partition("\r\n\r\n")[2].splitlines():
                well = re.fullmatch(
                    r"# (HELP|TYPE) oaut_(gateway|store)_\w+ "
                    r'.+|oaut_(gateway|store)_\w+(\{\w+="[^"]+"\})? [-+.0-9e]+',
                    line,
                )
                if not well:
                    self.tell("each line is one of the format", False, line)
            found = values(text)
            self.tell(
                "when it was measured",
                abs(found["measured_timestamp_seconds"] - time.time()) < 3 * SECONDS,
                found,
            )
            self.tell("no checkpoint was seen", "checkpoint_timestamp_seconds" not in found, found)

    def test_a_checkpoint(self):
        with Gateway() as gateway:
            self.filled(gateway, 1)
            self.scraped(gateway, lambda found: found.get("bank") == 0)
            with gateway.session() as server:
                item = server.objects()[0]
                for _ in range(40):
                    item.Name = "x" * 500_000
                    if gateway.counters().get("oaut_store_bank"):
                        break
            found = values(self.scraped(gateway, lambda found: found.get("bank") == 1))
            self.tell(
                "when it was seen",
                abs(found["checkpoint_timestamp_seconds"] - time.time()) < 3 * SECONDS,
                found,
            )
            self.tell("what it has", found["checkpoint_bytes"] > 1_000_000, found)
