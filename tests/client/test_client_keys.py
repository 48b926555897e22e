"""`list(item.Cell)` and `len(item.Cell)`: the keys that a property with parameters has, from the
store's file."""
import asyncio
import tempfile
import unittest

from oaut import aio
from tests.client.clients import FULL, PROGRAM, ClientCases, oaut
from tests.gateway.gateways import SECONDS, Gateway
from tests.support import worked
from tests.support.preloaded import COMPILER


async def keys_in_aio(gateway, **how):
    """The keys of object 1."""
    async with aio.connect(f"{gateway.room}/listen", timeout=SECONDS, **how) as server:
        return await server.object(1, "Item").keys("Cell")


class Keys(ClientCases):
    def test_keys(self):
        with tempfile.TemporaryDirectory() as room, oaut.open(
            f"{room}/it.store", FULL, program=PROGRAM, sparse=True
        ) as server:
            item, other = server.create("Item"), server.create("Item")
            self.tell("none", list(item.Cell) == [] and len(item.Cell) == 0 and bool(item.Cell))
            for place, name in ((5, "b"), (-1, "a"), (5, "a"), (5, "a"), (7, "é")):
                item.Cell[place, name] = "x"
            other.Cell[1, "z"] = "y"
            # (the third parameter has a default, which a key has too)
            self.tell(
                "each once, in order",
                list(item.Cell) == [(-1, "a", 1), (5, "a", 1), (5, "b", 1), (7, "é", 1)],
                list(item.Cell),
            )
            self.tell("their count", len(item.Cell) == 4 and len(other.Cell) == 1)
            self.tell("each is read by its key", [item.Cell[it] for it in item.Cell] == ["x"] * 4)
            self.tell(
                "the same by its interface's name",
                item.interface("DItem").property("Cell").keys() == item.Cell.keys(),
            )
            with server.batch():
                for it in range(3_000):
                    other.Cell[it, "z"] = "y"
            self.tell("many", other.Cell.keys() == [(it, "z", 1) for it in range(3_000)])
            other.release()
            self.tell("of an object that is gone", other.Cell.keys() == [] and len(item.Cell) > 3)
            item.Cell[9, "new"] = "x"
            self.tell("one that has just come", (9, "new", 1) in item.Cell)

    def test_in_aio(self):
        async def act(path):
            async with aio.open(path, FULL, program=PROGRAM) as server:
                item = await server.create("Item")
                none = await item.keys("Cell")
                await asyncio.gather(
                    *(item.put("Cell", "x", *it) for it in ((5, "b"), (-1, "a"), (5, "a", 2)))
                )
                with self.assertRaises(AttributeError):
                    await item.keys("Cuont")
                return none, await item.keys("cell")

        with tempfile.TemporaryDirectory() as room:
            self.tell(
                "in order",
                asyncio.run(act(f"{room}/it.store"))
                == ([], [(-1, "a", 1), (5, "a", 2), (5, "b", 1)]),
            )

    def test_without_a_file(self):
        with oaut.play(FULL, PROGRAM) as server, self.assertRaises(oaut.Error) as caught:
            len(server.create("Item").Cell)
        self.tell("it says what to do", "store=PATH" in str(caught.exception), caught.exception)

    @unittest.skipUnless(COMPILER, "cc is not there")
    def test_behind_the_gateway(self):
        with Gateway(sockets=("listen",)) as gateway:
            with oaut.connect(
                f"{gateway.room}/listen", timeout=SECONDS, store=gateway.store
            ) as server:
                item = server.create("Item")
                for it in range(200):
                    item.Cell[it, "k"] = "x"
                    if it % 20 == 0:
                        self.tell(f"behind {it + 1} puts", len(item.Cell) == it + 1)
                self.tell("all", list(item.Cell) == [(it, "k", 1) for it in range(200)])
            self.tell(
                "in aio",
                asyncio.run(keys_in_aio(gateway, store=gateway.store))
                == [(it, "k", 1) for it in range(200)],
            )
            with oaut.connect(
                f"{gateway.room}/listen", timeout=SECONDS
            ) as server, self.assertRaises(oaut.Error):
                list(server.object(1, "Item").Cell)
            with self.assertRaises(oaut.Error):
                asyncio.run(keys_in_aio(gateway))

    @unittest.skipUnless(COMPILER, "cc is not there")
    def test_from_the_gateway(self):
        """By its socket of --watch, from a client that does not reach the store's file: the same as
        from that."""
        with Gateway(sockets=("listen", "watch")) as gateway:
            with oaut.connect(
                f"{gateway.room}/listen", timeout=SECONDS, watch=f"{gateway.room}/watch"
            ) as server:
                item, other = server.create("Item"), server.create("Item")
                self.tell("none", list(item.Cell) == [] and len(item.Cell) == 0)
                for place, name in ((5, "b"), (oaut.I2(-1), "a"), (5, "a"), (5, "a"), (7, "é")):
                    item.Cell[place, name] = "x"
                due = [(-1, "a", 1), (5, "a", 1), (5, "b", 1), (7, "é", 1)]
                self.tell(
                    "each once, in order, as it is stored", list(item.Cell) == due, list(item.Cell)
                )
                self.tell(
                    "in aio",
                    asyncio.run(keys_in_aio(gateway, watch=f"{gateway.room}/watch")) == due,
                )
                with open(f"{gateway.room}/wider.idl", "wb") as file:
                    file.write(worked.WIDER)
                server.replace_library(file.name)
                self.tell("from a snapshot", list(item.Cell) == due, list(item.Cell))
                with server.batch():
                    for it in range(3_000):
                        other.Cell[it, "z"] = "y"
                    for it in range(1_000):
                        item.Cell[5, "b"] = "y"
                self.tell(
                    "many",
                    other.Cell.keys() == [(it, "z", 1) for it in range(3_000)]
                    and list(item.Cell) == due,
                )
                for it in range(100):
                    item.Cell[it, "new"] = "x"
                    if it % 10 == 0:
                        self.tell(
                            f"what was acknowledged is there: {it}", (it, "new", 1) in item.Cell
                        )
                other.release()
                self.tell(
                    "of an object that is gone", other.Cell.keys() == [] and len(item.Cell) == 104
                )
            with oaut.connect(
                f"{gateway.room}/listen", timeout=SECONDS, watch=f"{gateway.room}/nobody"
            ) as server, self.assertRaises(oaut.Error):
                list(server.object(1, "Item").Cell)


if __name__ == "__main__":
    unittest.main()
