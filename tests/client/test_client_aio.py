"""The client for asyncio, over the program."""
import asyncio
import os
import signal
import socket
import subprocess
import tempfile

from oaut import I2, I4, Array, aio, faults
from oaut import store as stores
from tests.client.clients import FULL, PROGRAM, ClientCases, oaut


class Awaited(ClientCases):
    def runs(self, act):
        return asyncio.run(asyncio.wait_for(act(), 300))

    def test_objects(self):
        async def act():
            async with aio.play(FULL, program=PROGRAM) as server:
                item = await server.create("Item")
                await item.put("Count", 7)
                await item.put("Cell", "x", 5, Key="k")
                await item.put("Grid", [[1, 2], [3, 4]])
                grid = item.array("Grid")
                await grid.put(9, 0, 1)
                self.same(
                    "values",
                    [await item.get("count"), await item.get("Cell", 5, "k"), await grid.get(0, 1)],
                    [I4(7), "x", I2(9)],
                )
                self.same(
                    "an array",
                    [await grid.bounds(), await grid.value()],
                    [[(2, 0), (2, 0)], Array(I2, [(2, 0), (2, 0)], [1, 9, 3, 4])],
                )
                self.same(
                    "locks, DISPIDs",
                    [await grid.lock(), await grid.unlock(), await item.dispids("Cell", "Key")],
                    [1, 0, [9, 1]],
                )
                self.same(
                    "objects",
                    [(it.number, it.coclass, it == item) for it in await server.objects()],
                    [(1, "Item", True)],
                )
                self.same(
                    "rows", (await server.to_rows("Item", "Count"))[0], {"number": 1, "Count": 7}
                )
                await item.release()
            self.same("it ends", "ended" in repr(server), True)

        self.runs(act)

    def test_what_is_refused(self):
        async def act():
            async with aio.play(FULL, program=PROGRAM) as server:
                item = await server.create("Item")
                for name, asked, kind, says in (
                    (
                        "a refusal",
                        item.put("Count", "x"),
                        oaut.TypeMismatch,
                        (
                            "put Item.Count = 'x': DISP_E_TYPEMISMATCH (0x80020005), argument 0 "
                            "(the new value)"
                        ),
                    ),
                    (
                        "what is not sent",
                        item.put("Count", 0.5),
                        faults.WrongType,
                        (
                            "put Item.Count = 0.5: there are no floating-point numbers: give "
                            "oaut.real(0.5), a Currency or a whole number"
                        ),
                    ),
                    (
                        "no such member",
                        item.get("Cuont"),
                        faults.NoSuchMember,
                        "Item has no member Cuont: did you mean Count?",
                    ),
                    (
                        "a method",
                        item.call("Clear"),
                        oaut.NotImplementedHere,
                        "call Item.Clear(): E_NOTIMPL (0x80004001)",
                    ),
                ):
                    try:
                        await asked
                        self.tell(name, False, "no exception")
                    except kind as error:
                        self.same(name, (type(error), str(error)), (kind, says))
                await item.release()
            self.same("it ends", "ended" in repr(server), True)

        self.runs(act)

    def test_batches_and_tasks(self):
        async def act():
            with tempfile.TemporaryDirectory() as room:
                path = f"{room}/it.store"
                async with aio.open(path, FULL, program=PROGRAM) as server:
                    items = await asyncio.gather(*(server.create("Item") for _ in range(10)))
                    await asyncio.gather(*(it.put("Count", it.number) for it in items))
                    async with server.batch(7) as batch:
                        for it in items:
                            await it.put("Name", "n" * it.number)
                        seen = [await it.get("Count") for it in items]
                        # another task is in no batch
                        beside = await asyncio.ensure_future(items[0].get("Count"))
                    self.same(
                        "answers of a batch",
                        ([it.value for it in seen], beside, batch.failures),
                        ([I4(it) for it in range(1, 11)], I4(1), []),
                    )
                    asked = asyncio.ensure_future(items[0].get("Name"))
                    await asyncio.sleep(0)
                    asked.cancel()
                    self.same("behind one that was cancelled", await items[1].get("Name"), "nn")
                    try:
                        async with server.batch() as batch:
                            await items[0].put("Count", "x")
                            await items[0].put("Count", 100)
                        self.tell("a refusal in a batch", False)
                    except oaut.TypeMismatch:
                        self.same(
                            "the others of it",
                            (len(batch.failures), await items[0].get("Count")),
                            (1, I4(100)),
                        )
                async with aio.serve(path, program=PROGRAM) as server:
                    items = await server.objects()
                    async with server.atomic():
                        for it in items:
                            await it.put("Count", 5)
                    try:
                        async with server.atomic():
                            for _ in range(1_025):
                                await items[0].put("Count", 6)
                        self.tell("what does not fit", False)
                    except ValueError as error:
                        self.same(
                            "what does not fit",
                            (str(error), await items[0].get("Count")),
                            ("a group has at most 1024 requests: nothing was sent", I4(5)),
                        )
                with open(path, "rb") as file:
                    groups = [it.events for it in stores.read(file.read()).groups]
                self.same(
                    "tasks that ask at one moment share a group, a block is one",
                    (groups[:2], groups[-1]),
                    ([10, 10], 10),
                )

        self.runs(act)

    def test_ends(self):
        async def act():
            server = await aio.play(FULL, program=PROGRAM)
            item = await server.create("Item")
            server._child.send_signal(signal.SIGKILL)
            for name in ("a program that was killed", "and behind it"):
                try:
                    await item.get("Count")
                    self.tell(name, False)
                except oaut.SessionEnded as end:
                    self.same(name, end.status, -signal.SIGKILL)
            await server.close()
            server = await aio.play(FULL, program=PROGRAM, timeout=60)
            item = await server.create("Item")
            server._timeout = 0.2
            server._child.send_signal(signal.SIGSTOP)
            try:
                await item.get("Count")
                self.tell("no answer in time", False)
            except oaut.TimedOut as end:
                self.same(
                    "no answer in time",
                    (str(end), end.may_stand),
                    (
                        (
                            "no reply within 0.2 seconds; a request without a reply was executed "
                            "completely or not at all"
                        ),
                        True,
                    ),
                )
            await server.close()
            for name, opening, kind in (
                ("no program", aio.play(FULL, program="no-such-oaut"), oaut.ProgramNotFound),
                ("no library", aio.play(__file__, program=PROGRAM), oaut.faults.LibraryRefused),
            ):
                try:
                    await opening
                    self.tell(name, False)
                except kind:
                    self.tell(name, True)

        self.runs(act)

    def test_a_socket(self):
        async def act():
            ours, theirs = socket.socketpair()
            with subprocess.Popen([PROGRAM, "play", FULL], stdin=theirs, stdout=theirs) as child:
                theirs.close()
                async with aio.connect(ours) as server:
                    item = await server.create("Item")
                    await item.put("Count", 7)
                    self.same("over a socket", await item.get("Count"), I4(7))
                self.same("its status", child.wait(300), 0)
            self.tell("nobody has its descriptor", ours.fileno() == -1 or os.fstat(ours.fileno()))

        self.runs(act)
