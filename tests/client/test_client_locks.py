"""The lock of an array as a block: others wait, it is given back on any exit, and a put on a
condition under it."""
import asyncio
import signal
import threading

from oaut import I4, aio, frames
from tests.client.clients import FULL, PROGRAM, ClientCases, oaut, play


def locks(item):
    """How many locks the array has."""
    item.Grid.lock()
    return item.Grid.unlock()


class Locks(ClientCases):
    def test_it_is_given_back(self):
        with play(FULL) as server:
            item = server.create("Item")
            item.Grid = [1, 2]
            with item.Grid.locked():
                self.same("within the block", locks(item), 1)
            self.same("after it", locks(item), 0)
            try:
                with item.Grid.locked():
                    raise KeyError
            except KeyError:
                self.same("after an exception", locks(item), 0)

            def taken():
                with item.Grid.locked():
                    return 5

            self.same("after a return", (taken(), locks(item)), (5, 0))

    def test_others_have_it(self):
        with play(FULL) as server:
            item = server.create("Item")
            item.Grid = [1, 2]
            item.Grid.lock()
            self.raises(
                "it has a timeout",
                TimeoutError,
                lambda: item.Grid.locked(0.05).__enter__(),
                f"<array Grid of {item!r}> is locked by others for 0.05 seconds",
            )
            self.same("the other's lock stays alone", locks(item), 1)
            with server.batch():
                self.raises(
                    "in a batch",
                    RuntimeError,
                    lambda: item.Grid.locked().__enter__(),
                    "a lock is waited for outside a batch",
                )
            item.Grid.unlock()
            self.same("none is left", locks(item), 0)

    def test_a_put_if_it_is_equal(self):
        """Of several clients that add, no addition is lost."""
        with frames.play(FULL, PROGRAM, timeout=300) as shared:
            with shared.session() as server:
                item = server.create("Item")
                item.Grid = [1]

                def add():
                    with shared.session() as own:
                        mine = own.object(item.number, "Item")
                        for _ in range(20):
                            with mine.Grid.locked() as lock:
                                seen = int(mine.Count)
                                added.append(lock.put_if_equal("Count", seen, seen + 1))

                added = []
                threads = [threading.Thread(target=add) for _ in range(4)]
                for it in threads:
                    it.start()
                for it in threads:
                    it.join()
                self.same(
                    "each was put", (added, item.Count, locks(item)), ([True] * 80, I4(80), 0)
                )
                with item.Grid.locked() as lock:
                    self.same(
                        "another value",
                        (lock.put_if_equal("Count", 7, 8), item.Count),
                        (False, I4(80)),
                    )

    def test_a_session_that_another_thread_uses(self):
        """A lock that cannot be given back now is not lost without a word, and is given back
        later."""
        with oaut.play(FULL, program=PROGRAM) as server:
            item = server.create("Item")
            item.Grid = [1]
            lock = item.Grid.locked()

            def block():
                with lock:
                    server._acquire()

            self.raises("it is reported", oaut.SessionInUse, block)
            server._release(None)
            lock.leave()
            self.same("it is given back", [item.Grid.lock(), item.Grid.unlock()], [1, 0])

    def test_compare_and_put(self):
        """Of 16 clients that increment one number, no increment is lost."""
        with frames.play(FULL, PROGRAM, timeout=300) as shared:
            with shared.session() as server:
                item = server.create("Item")
                item.Grid = [1]
                puts, misses = [], []

                def add():
                    with shared.session() as own:
                        mine = own.object(item.number, "Item")
                        for _ in range(10):
                            while not mine.compare_and_put(
                                "Count", seen := int(mine.Count), seen + 1, lock=mine.Grid
                            ):
                                misses.append(seen)
                            puts.append(seen)

                threads = [threading.Thread(target=add) for _ in range(16)]
                for it in threads:
                    it.start()
                for it in threads:
                    it.join()
                self.same(
                    "each value was put once",
                    (sorted(puts), item.Count, locks(item)),
                    (list(range(160)), I4(160), 0),
                )
                self.same(
                    "another value",
                    (item.compare_and_put("Count", 7, 8, lock=item.Grid), item.Count),
                    (False, I4(160)),
                )
                item.Cell[5, "k"] = "a"
                self.same(
                    "with arguments",
                    (
                        item.compare_and_put("Cell", "a", "b", 5, "k", lock=item.Grid),
                        item.Cell[5, "k"],
                    ),
                    (True, "b"),
                )
                item.Grid.lock()
                self.raises(
                    "others have the lock",
                    TimeoutError,
                    lambda: item.compare_and_put("Count", 160, 5, lock=item.Grid, timeout=0.05),
                )
                item.Grid.unlock()
                self.same("nothing was put", (item.Count, locks(item)), (I4(160), 0))

    def test_an_update(self):
        with play(FULL) as server, play(FULL) as another:
            item, other = server.create("Item"), another.create("Item")
            item.Grid = other.Grid = [1]
            self.same(
                "its result",
                [item.update("Count", lambda count: count + 1, lock=item.Grid) for _ in range(3)],
                [1, 2, 3],
            )
            item.Cell[5, "k"] = "a"
            self.same(
                "with arguments",
                (
                    item.update("Cell", lambda text: text + "b", 5, "k", lock=item.Grid),
                    item.Cell[5, "k"],
                ),
                ("ab", "ab"),
            )
            for told, step, kind in (
                ("a refused put", lambda count: "x", oaut.TypeMismatch),
                ("what cannot be put", lambda count: object(), TypeError),
            ):
                self.raises(told, kind, lambda: item.update("Count", step, lock=item.Grid))
            with self.assertRaises(ZeroDivisionError):
                item.update("Count", lambda count: 1 // 0, lock=item.Grid)
            self.raises(
                "a refused get",
                oaut.TypeMismatch,
                lambda: item.update("Cell", str, "a", "k", lock=item.Grid),
            )
            self.raises(
                "no such member", AttributeError, lambda: item.update("Cuont", str, lock=item.Grid)
            )
            self.raises(
                "a lock of another session",
                RuntimeError,
                lambda: item.update("Count", str, lock=other.Grid),
            )
            self.raises(
                "an array that was never put",
                oaut.Unexpected,
                lambda: item.update("Count", str, lock=server.create("Item").Grid),
            )
            with server.batch():
                self.raises(
                    "in a batch",
                    RuntimeError,
                    lambda: item.update("Count", str, lock=item.Grid),
                    "a lock is waited for outside a batch",
                )
            self.same("nothing was put, and no lock is left", (item.Count, locks(item)), (I4(3), 0))

    def test_the_steps_of_an_update(self):
        """Two of them: LOCK and the get, and the put and UNLOCK."""
        with play(FULL) as server:
            item = server.create("Item")
            item.Grid, item.Count = [1], 5
            for told, act, opcodes in (
                (
                    "an update",
                    lambda: item.update("Count", lambda count: 7, lock=item.Grid),
                    [">8", ">4", "<", "<", ">4", ">9", "<", "<"],
                ),
                (
                    "a compare-and-put",
                    lambda: item.compare_and_put("Count", 7, 8, lock=item.Grid),
                    [">8", ">4", "<", "<", ">4", ">9", "<", "<"],
                ),
                (
                    "one that does not put",
                    lambda: item.compare_and_put("Count", 7, 8, lock=item.Grid),
                    [">8", ">4", "<", "<", ">9", "<"],
                ),
            ):
                found = []
                server.trace = lambda sign, body: found.append(
                    sign + str(body[4]) if sign == ">" else sign
                )
                act()
                server.trace = None
                self.same(told, found, opcodes)

    def updated(self, act):
        """What `act` returns for a session of asyncio with an object whose Grid was put, and how
        often its Count is put meanwhile."""

        async def session():
            async with aio.play(FULL, program=PROGRAM) as server:
                item, puts = await server.create("Item"), []
                await item.put("Grid", [1])
                server.trace = (
                    lambda sign, body: puts.append(body)
                    if sign == ">" and body[4] == 4 and body[52] == 4 and body[12] == 1
                    else None
                )
                found = await act(server, item)
                server.trace = None
                self.same(
                    "no lock is left",
                    (await item.array("Grid").lock(), await item.array("Grid").unlock()),
                    (1, 0),
                )
                self.same("nothing waits", server._updates, {})
                return found, len(puts)

        return asyncio.run(session())

    def test_updates_of_many_tasks(self):
        """They are made while the lock is held a few times, and each gets its own value."""

        async def act(server, item):
            async def one():
                return await item.update("Count", lambda count: count + 1, lock=item.array("Grid"))

            return sorted(await asyncio.gather(*(one() for _ in range(3_000)))), await item.get(
                "Count"
            )

        found, puts = self.updated(act)
        self.same("each value once", found, (list(range(1, 3_001)), I4(3_000)))
        self.tell("few puts", 3 <= puts <= 30, puts)

    def test_updates_of_other_values(self):
        """Those of one value do not change another one's, however its arguments are written."""

        async def act(server, item):
            keys = [(5, "k"), (oaut.I2(5), "k"), (5, "k", 1), (6, "k")]
            add = lambda at: item.update(
                "Cell", lambda text: (text or "") + "a", *keys[at % 4], lock=item.array("Grid")
            )
            await asyncio.gather(*(add(at) for at in range(40)))
            return [await item.get("Cell", *key) for key in ((5, "k"), (6, "k"))]

        self.same("each is there", self.updated(act)[0], ["a" * 30, "a" * 10])

    def test_updates_that_fail(self):
        """Only the task at fault gets the exception, and its step has no effect on the others."""

        async def act(server, item):
            steps = (
                lambda count: count + 1,
                lambda count: 1 // 0,
                lambda count: 1 << 40,
                lambda count: count + 1,
                lambda count: object(),
                lambda count: count + 10,
                lambda count: next(iter(())),
                lambda count: "7",
                lambda count: count + 1,
            )
            found = await asyncio.gather(
                *(item.update("Count", it, lock=item.array("Grid")) for it in steps),
                return_exceptions=True,
            )
            never = (await server.create("Item")).array("Grid")
            refused = await asyncio.gather(
                *(item.update("Count", it, lock=never) for it in steps[:2]), return_exceptions=True
            )
            outside = await asyncio.gather(
                item.update("Cell", str, "a", "k", lock=item.array("Grid")), return_exceptions=True
            )
            return [
                it if isinstance(it, int) else type(it).__name__
                for it in (*found, *refused, *outside)
            ], await item.get("Count")

        due = [
            1,
            "ZeroDivisionError",
            "Overflow",
            2,
            "WrongType",
            12,
            "RuntimeError",
            "TypeMismatch",
            13,
        ]
        self.same(
            "each",
            self.updated(act)[0],
            ([*due, "Unexpected", "Unexpected", "TypeMismatch"], I4(13)),
        )

    def test_updates_that_wait(self):
        """For others: until their time is up, until they are cancelled, until the lock is free."""

        async def act(server, item):
            grid = item.array("Grid")
            add = lambda **how: asyncio.ensure_future(
                item.update("Count", lambda count: count + 1, lock=grid, **how)
            )
            await grid.lock()
            late = await asyncio.gather(
                add(timeout=0.05), add(timeout=0.05), return_exceptions=True
            )
            gone = [add() for _ in range(3)]
            await asyncio.sleep(0.02)
            for it in gone:
                it.cancel()
            gone = await asyncio.gather(*gone, return_exceptions=True)
            waiting = [add(), add(timeout=60)]
            await asyncio.sleep(0.02)
            await grid.unlock()
            found = [await it for it in waiting]
            put = [await item.compare_and_put("Count", *it, lock=grid) for it in ((2, 7), (2, 8))]
            async with server.batch():
                with self.assertRaises(RuntimeError):
                    await item.update("Count", str, lock=grid)
            return [type(it).__name__ for it in (*late, *gone)], found, put, await item.get("Count")

        due = ["NotInTime"] * 2 + ["CancelledError"] * 3
        self.same("each", self.updated(act)[0], (due, [1, 2], [True, False], I4(7)))

    def test_updates_at_the_end_of_the_session(self):
        async def act():
            async with aio.play(FULL, program=PROGRAM) as server:
                item = await server.create("Item")
                await item.put("Grid", [1])
                await item.array("Grid").lock()
                waiting = [
                    asyncio.ensure_future(
                        item.update("Count", lambda count: count + 1, lock=item.array("Grid"))
                    )
                    for _ in range(3)
                ]
                await asyncio.sleep(0.02)
            return [type(it) for it in await asyncio.gather(*waiting, return_exceptions=True)]

        self.same("each is told", asyncio.run(act()), [oaut.SessionEnded] * 3)

    def test_in_aio(self):
        async def act():
            async with aio.play(FULL, program=PROGRAM) as server:
                item = await server.create("Item")
                await item.put("Grid", [1])

                async def add():
                    for _ in range(10):
                        async with item.array("Grid").locked():
                            await item.put("Count", await item.get("Count") + 1)

                await asyncio.gather(*(add() for _ in range(4)))
                await item.array("Grid").lock()
                waiting = asyncio.ensure_future(item.array("Grid").locked().__aenter__())
                await asyncio.sleep(0.05)
                waiting.cancel()
                await asyncio.wait({waiting})
                return await item.get("Count"), await item.array("Grid").unlock()

        self.same("additions, and locks after a cancelled task", asyncio.run(act()), (I4(40), 0))

    def test_in_aio_a_lock_on_its_way_is_given_back_whoever_is_cancelled(self):
        async def stopped(child):
            """Stops the program, so that no reply comes before it goes on."""
            child.send_signal(signal.SIGSTOP)
            while True:
                with open(f"/proc/{child.get_pid()}/stat") as file:
                    if file.read().rpartition(")")[2].split()[0] == "T":
                        return
                await asyncio.sleep(0.001)

        async def cancelled(server, item, times):
            await stopped(server._child)
            waiting = asyncio.ensure_future(item.array("Grid").locked().__aenter__())
            for _ in range(3):  # (until the request is sent)
                await asyncio.sleep(0)
            for _ in range(times):
                waiting.cancel()
                await asyncio.sleep(0)
            server._child.send_signal(signal.SIGCONT)
            await asyncio.wait({waiting})
            return waiting.cancelled()

        async def locks_soon(item):
            for _ in range(5_000):
                count = await item.array("Grid").lock()
                await item.array("Grid").unlock()
                if count == 1:
                    break
                await asyncio.sleep(0.02)
            return count

        async def act():
            async with aio.play(FULL, program=PROGRAM) as server:
                item, never = await server.create("Item"), await server.create("Item")
                await item.put("Grid", [1])
                for times in (1, 2, 3):
                    self.same(
                        f"cancelled {times} times", await cancelled(server, item, times), True
                    )
                    self.same("no lock is left", await locks_soon(item), 1)
                self.same(
                    "one that is refused is cancelled all the same",
                    await cancelled(server, never, 1),
                    True,
                )

        asyncio.run(act())
