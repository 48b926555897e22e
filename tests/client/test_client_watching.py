"""`server.watch` of the Python client: changes as the gateway sends them, over the gateway itself
and over one that is made up."""
import asyncio
import contextlib
import decimal
import json
import os
import socket
import tempfile
import threading
import time
import unittest

from tests.gateway.gateways import SECONDS, Gateway
from tests.support.preloaded import COMPILER
from tests.support.running import PROGRAM, ROOT, Cases
from tests.support.wire import oaut

FIRST = {"epoch": "5", "next": 4}
with open(f"{ROOT}/examples/full.idl") as _file:
    LIBRARY = oaut.Library.from_text(_file.read())
ITEM = LIBRARY.coclass("Item")


@contextlib.contextmanager
def sends(*lines, ends=True):
    """The path of a socket that sends these to one client; and the lines that came of it."""
    with tempfile.TemporaryDirectory() as room, socket.socket(socket.AF_UNIX) as listens:
        listens.bind(f"{room}/it.watch.sock")
        listens.listen()
        asked, done = [], threading.Event()

        def serve():
            sock, _ = listens.accept()
            with sock, sock.makefile("rb") as file:
                asked.append(file.readline())
                with contextlib.suppress(OSError):
                    for it in lines:
                        sock.sendall(
                            it if isinstance(it, bytes) else json.dumps(it).encode() + b"\n"
                        )
                    if not ends:
                        done.wait(SECONDS)

        thread = threading.Thread(target=serve, daemon=True)
        thread.start()
        try:
            yield f"{room}/it.watch.sock", asked
        finally:
            done.set()
            thread.join(SECONDS)


# a line of a watch, and one with an argument
CHANGE = {
    "seq": 4,
    "kind": "put",
    "object": 3,
    "class": str(ITEM.guid),
    "member": 1,
    "bytes": 24,
    "type": 3,
    "value": 7,
}
CELL = {**CHANGE, "member": 9, "type": 8, "value": "v"}
# lines by what they are, with the attributes of what comes of them
LINES = [
    (
        "a put",
        CHANGE,
        {
            "number": 4,
            "kind": "put",
            "object": 3,
            "coclass": "Item",
            "interface": "DItem",
            "member": "Count",
            "value": 7,
            "size": 24,
        },
    ),
    (
        "a null text",
        {**CHANGE, "member": 2, "type": 8, "value": None},
        {"member": "Name", "value": None},
    ),
    (
        "a text with half a character",
        {**CHANGE, "member": 2, "type": 8, "value": "a\ud800"},
        {"value": "a\ud800"},
    ),
    (
        "without its value",
        {it: CHANGE[it] for it in CHANGE if it not in ("type", "value")},
        {"value": oaut.MISSING, "size": 24},
    ),
    ("EMPTY", {**CHANGE, "type": 0, "value": None}, {"value": oaut.EMPTY}),
    ("NULL", {**CHANGE, "type": 1, "value": None}, {"value": None}),
    ("a boolean", {**CHANGE, "type": 11, "value": True}, {"value": True}),
    (
        "a number of 64 bits",
        {**CHANGE, "type": 21, "value": (1 << 64) - 1},
        {"value": (1 << 64) - 1},
    ),
    (
        "a DECIMAL",
        {**CHANGE, "type": 14, "wire": oaut.spell(decimal.Decimal("1.5")).hex()},
        {"value": decimal.Decimal("1.5")},
    ),
    (
        "arguments",
        {**CELL, "key": [{"type": 3, "value": 5}, {"type": 8, "value": "k"}]},
        {"member": "Cell", "key": (5, "k"), "value": "v"},
    ),
    (
        "a named one",
        {**CELL, "key": [{"name": 1, "type": 8, "value": "k"}, {"type": 3, "value": 5}]},
        {"key": (5, "k")},
    ),
    (
        "named ones alone",
        {**CELL, "key": [{"name": 1, "type": 8, "value": "k"}]},
        {"key": (oaut.MISSING, "k")},
    ),
    (
        "a long one",
        {**CELL, "key": [{"bytes": 5000}, {"type": 8, "value": "k"}]},
        {"key": (oaut.MISSING, "k")},
    ),
    (
        "an element",
        {**CHANGE, "kind": "element", "member": 8, "index": [0, -5], "type": 2},
        {"kind": "element", "indices": (0, -5), "value": 7},
    ),
    (
        "a redimension",
        {**CHANGE, "kind": "redimension", "member": 8, "elements": 5, "lower": -1},
        {"kind": "redimension", "bound": (-1, 5)},
    ),
    (
        "a release",
        {"seq": 4, "kind": "release", "object": 3, "class": str(ITEM.guid)},
        {"kind": "release", "member": None, "value": oaut.MISSING},
    ),
    (
        "a library",
        {"seq": 4, "kind": "library", "bytes": 3, "text": "abc"},
        {"kind": "library", "value": "abc", "size": 3, "object": None},
    ),
    ("a gap", {"gap": 9, "next": 13}, {"kind": "gap", "number": 13, "missed": 9}),
    ("a restart", {"restart": 2, "next": 5}, {"kind": "restart", "number": 5}),
    (
        "an unknown coclass",
        {**CHANGE, "class": "0" * 8 + "-0000-0000-0000-" + "0" * 12},
        {"member": "1"},
    ),
    ("an unknown member", {**CHANGE, "member": 77}, {"member": "77", "coclass": "Item"}),
    ("a field of later", {**CHANGE, "colour": "red"}, {"number": 4}),
]


class MadeUp(Cases):
    def test_what_is_asked(self):
        from oaut.watching import Told

        item = ITEM.guid
        face = LIBRARY.interface(ITEM)
        count = LIBRARY.members(face)["COUNT"].dispid
        for what, told, due in (
            ("all", Told(None, None, None, False), "watch"),
            ("values", Told(None, None, None, True), "watch values"),
            ("a coclass", Told(LIBRARY, "Item", None, False), f"watch class={item}"),
            ("its GUID", Told(LIBRARY, item, None, False), f"watch class={item}"),
            (
                "a member",
                Told(LIBRARY, "Item", "count", True),
                f"watch values class={item} member={count}",
            ),
        ):
            self.tell(what, told.line == due.encode() + b"\n", told.line)
        for what, words, error in (
            ("no coclass", (LIBRARY, "Nothing", None, False), LookupError),
            ("no member", (LIBRARY, "Item", "Cuont", False), AttributeError),
            ("a member of no coclass", (LIBRARY, None, "Count", False), oaut.Error),
            ("a coclass of no library", (None, "Item", None, False), oaut.Error),
        ):
            with self.subTest(what), self.assertRaises(error):
                Told(*words)

    def test_lines(self):
        from oaut.watching import Told, Watch

        with sends(FIRST, *(it for _, it, _ in LINES)) as (path, asked):
            with Watch(path, Told(LIBRARY, None, None, True), SECONDS) as watch:
                self.tell("it begins", (watch.epoch, watch.begins) == ("5", 4))
                for name, _, due in LINES:
                    got = next(watch)
                    self.tell(name, {it: getattr(got, it) for it in due} == due, (got, due))
                with self.assertRaises(oaut.SessionEnded):
                    next(watch)

    def test_lines_that_are_none(self):
        from oaut.watching import Told, Watch

        for line in (
            b"\n",
            b"[]\n",
            b"{}\n",
            b"x\n",
            b'{"seq":1}\n',
            b'{"seq":"a","kind":"put"}\n',
            b'{"seq":1,"kind":"put","object":1,"class":7,"member":1}\n',
            b'{"gap":[]}\n',
        ):
            with sends(FIRST, line) as (path, _):
                with self.subTest(line), Watch(
                    path, Told(LIBRARY, None, None, True), SECONDS
                ) as watch, self.assertRaises(oaut.ProtocolError):
                    next(watch)
        for line in (b"{}\n", b'{"refused":"a line is needed"}\n', b"\xff\n", b"x" * (3 << 20)):
            with sends(line) as (path, _), self.subTest(line[:20]), self.assertRaises(
                oaut.ProtocolError
            ):
                Watch(path, Told(None, None, None, True), SECONDS)
        with sends() as (path, _), self.subTest("nothing"), self.assertRaises(oaut.SessionEnded):
            Watch(path, Told(None, None, None, True), SECONDS)

    def test_a_line_in_parts(self):
        from oaut.watching import Told, Watch

        data = b"".join(
            json.dumps(it).encode() + b"\n"
            for it in (FIRST, {"gap": 1, "next": 2}, {"gap": 2, "next": 4})
        )
        with sends(*(data[at : at + 1] for at in range(len(data)))) as (path, _), Watch(
            path, Told(None, None, None, True), SECONDS
        ) as watch:
            self.tell("each", [next(watch).missed, next(watch).missed] == [1, 2])

    def test_time(self):
        from oaut.watching import Told, Watch

        with sends(FIRST, b'{"gap":', ends=False) as (path, _), Watch(
            path, Told(None, None, None, True), SECONDS
        ) as watch:
            # (its first line may take a busy machine longer)
            watch._timeout = 0.2
            watch._sock.settimeout(0.2)
            begun = time.monotonic()
            with self.assertRaises(TimeoutError):
                next(watch)
            self.tell("it waits so long", 0.1 < time.monotonic() - begun < 60)

    def test_addresses(self):
        from oaut.watching import watched_at

        for address, given, due in (
            ("/run/items.sock", None, "/run/items.watch.sock"),
            ("/run/items", None, "/run/items.watch.sock"),
            ("/run/items.sock", "/run/w", "/run/w"),
            (("localhost", 5), None, None),
            (("localhost", 5), ("localhost", 6), ("localhost", 6)),
        ):
            self.tell(f"{address}, {given}", watched_at(address, given) == due)
        with oaut.play(f"{ROOT}/examples/full.idl", PROGRAM) as server, self.assertRaises(
            oaut.Error
        ):
            server.watch()
        with self.assertRaises(ValueError):
            oaut.watching.watch("oauts://localhost")


@unittest.skipUnless(COMPILER, "cc is not there")
class Live(Cases):
    def setUp(self):
        self.gateway = Gateway(
            "--watch", "/tmp/none", sockets=("listen", "watch"), starts=False
        ).__enter__()
        self.addCleanup(self.gateway.__exit__, None, None, None)
        words = self.gateway.words
        del words[words.index("/tmp/none") - 1 : words.index("/tmp/none") + 1]
        words[words.index("--watch") + 1] = f"{self.gateway.room}/listen.watch.sock"
        self.gateway.start()
        self.path = f"{self.gateway.room}/listen"

    def test_changes(self):
        with oaut.connect(self.path, timeout=SECONDS) as server, server.watch(
            "Item", timeout=SECONDS
        ) as all_, server.watch("Item", "Count", timeout=SECONDS) as counts:
            item = server.create("Item")
            item.Count, item.Name = 7, "a"
            item.Cell[5, "k"] = "v"
            with server.watch(item, timeout=SECONDS) as own, server.batch():
                other = server.create("Item")
                other.Count = 1
                item.Count = 9
            got = [next(all_) for _ in range(7)]
            made = [(it.kind, it.object, it.member, it.key) for it in got]
            due = [
                ("create", 1, None, ()),
                ("put", 1, "Count", ()),
                ("put", 1, "Name", ()),
                ("put", 1, "Cell", (5, "k")),
            ]
            due += [("create", 2, None, ()), ("put", 2, "Count", ()), ("put", 1, "Count", ())]
            self.tell("all", made == due and [it.number for it in got] == list(range(1, 8)), got)
            self.tell(
                "a member's",
                [(it.object, it.value) for it in (next(counts), next(counts), next(counts))]
                == [(1, 7), (2, 1), (1, 9)],
            )
            self.tell(
                "the value is there when the change is",
                server.object(got[-1].object, got[-1].coclass).Count == 9,
            )

    def test_in_a_loop(self):
        with oaut.connect(self.path, timeout=SECONDS) as server, oaut.connect(
            self.path, timeout=SECONDS
        ) as other:
            found, begun = [], threading.Event()

            def watches():
                with server.watch("Item", "Count", timeout=SECONDS) as changes:
                    begun.set()
                    for change in changes:
                        found.append(change.value)
                        if change.value == 50:
                            break

            thread = threading.Thread(target=watches, daemon=True)
            thread.start()
            begun.wait(SECONDS)
            item = other.create("Item")
            for it in range(51):
                item.Count = it
            thread.join(SECONDS)
            self.tell("each", found == list(range(51)), found)

    def test_asyncio(self):
        async def run():
            found = []
            async with oaut.aio.connect(self.path, timeout=SECONDS) as server:
                async with server.watch("Item", timeout=SECONDS) as changes:
                    item = await server.create("Item")
                    async with server.watch(item, "Count", timeout=SECONDS) as own:
                        await item.put("Name", "a")
                        await item.put("Count", 7)
                        async for change in changes:
                            found.append((change.kind, change.member))
                            if len(found) == 3:
                                break
                        found.append((await own.__anext__()).value)
                        with self.assertRaises(TimeoutError):
                            await server.watch(timeout=0.2).__anext__()
                        self.gateway.process.terminate()
                        with self.assertRaises(oaut.SessionEnded):
                            await own.__anext__()
            return found

        import oaut.aio

        found = asyncio.run(run())
        self.tell("each", found == [("create", None), ("put", "Name"), ("put", "Count"), 7], found)

    def test_nobody_watches_there(self):
        with oaut.connect(
            self.path, timeout=SECONDS, watch=f"{self.gateway.room}/nothing"
        ) as server, self.assertRaises(OSError) as caught:
            server.watch()
        self.tell(
            "the exception names the address", "nothing" in str(caught.exception), caught.exception
        )

    def test_memory(self):
        """One that is dropped closes its connection."""
        with oaut.connect(self.path, timeout=SECONDS) as server:
            before = len(os.listdir("/proc/self/fd"))
            for _ in range(50):
                server.watch("Item")
            # (what an earlier test has left may go meanwhile)
            until = time.monotonic() + 60
            while (left := len(os.listdir("/proc/self/fd"))) > before and time.monotonic() < until:
                time.sleep(0.05)
            self.tell("no descriptor is left", left <= before, (left, before))


if __name__ == "__main__":
    unittest.main()
