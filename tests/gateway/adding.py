"""A client that increments the Count of object 1: `python3 adding.py ADDRESS WAY COUNT TASKS`. It
prints `ready`, and begins with the next line of its standard input. In the end it prints as JSON
what its increments have returned, and how many sessions have ended before. After such an end it
connects again, and makes the increments that were not acknowledged. WAY is `put` (of the next
number, without a lock), `compare` (compare_and_put, again until it has put), `update`, or `tasks`
(updates of so many tasks of asyncio)."""
import asyncio
import json
import sys

import oaut
from oaut import aio


class Adding:
    def __init__(self, address, way, count, tasks):
        self.address, self.way, self.left, self.tasks = address, way, int(count), int(tasks)
        self.values, self.ends = [], 0

    def begun(self):
        if not self.ends:
            print("ready", flush=True)
            sys.stdin.readline()

    def put(self, item):
        item.Count = len(self.values) + 1
        return len(self.values) + 1

    def compare(self, item):
        while True:
            seen = int(item.Count)
            if item.compare_and_put("Count", seen, seen + 1, lock=item.Grid):
                return seen + 1

    def update(self, item):
        return item.update("Count", lambda count: count + 1, lock=item.Grid)

    def alone(self):
        with oaut.connect(self.address, patience=120) as server:
            item, act = server.object(1, "Item"), getattr(self, self.way)
            self.begun()
            while self.left:
                self.values.append(int(act(item)))
                self.left -= 1

    async def one_after_another(self, item):
        while self.left:
            self.left -= 1
            try:
                self.values.append(
                    int(
                        await item.update("Count", lambda count: count + 1, lock=item.array("Grid"))
                    )
                )
            except BaseException:
                self.left += 1
                raise

    async def together(self):
        async with aio.connect(self.address, patience=120) as server:
            item = server.object(1, "Item")
            self.begun()
            for it in await asyncio.gather(
                *(self.one_after_another(item) for _ in range(self.tasks)), return_exceptions=True
            ):
                if it is not None:
                    raise it

    def run(self):
        while self.left or not self.values:
            try:
                if self.way == "tasks":
                    asyncio.run(self.together())
                else:
                    self.alone()
            except (oaut.SessionEnded, OSError):
                self.ends += 1
        print(json.dumps({"values": self.values, "ends": self.ends}))


if __name__ == "__main__":
    Adding(*sys.argv[1:]).run()
