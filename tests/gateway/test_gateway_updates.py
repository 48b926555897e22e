"""Clients that increment one number: each increment is there once, also if the server or the
gateway is killed meanwhile."""
import json
import os
import signal
import subprocess
import sys
import time
import unittest

from tests.gateway.gateways import SECONDS, Gateway
from tests.support.preloaded import COMPILER
from tests.support.running import Cases
from tests.support.wire import oaut

ADDING = os.path.join(os.path.dirname(os.path.abspath(__file__)), "adding.py")
CLIENTS = 16


class Clients:
    """So many processes of adding.py, which have begun."""

    def __init__(self, gateway, way, count, tasks=1):
        words = [sys.executable, ADDING, f"{gateway.room}/listen", way, str(count), str(tasks)]
        environment = {**os.environ, "PYTHONPATH": os.path.dirname(os.path.dirname(oaut.__file__))}
        pipes = {"stdin": subprocess.PIPE, "stdout": subprocess.PIPE, "text": True}
        self.all = [subprocess.Popen(words, env=environment, **pipes) for _ in range(CLIENTS)]
        for it in self.all:
            it.stdout.readline()
        for it in self.all:
            it.stdin.write("\n")
            it.stdin.flush()

    def end(self):
        """What each of them has printed."""
        return [json.loads(it.communicate(timeout=2 * SECONDS)[0]) for it in self.all]


@unittest.skipUnless(COMPILER, "cc is not there")
class Updates(Cases):
    def begun(self):
        gateway = Gateway(sockets=("listen", "control")).__enter__()
        self.addCleanup(gateway.__exit__, None, None, None)
        with gateway.session() as server:
            item = server.create("Item")
            item.Grid = [1]
        return gateway

    def count(self, gateway):
        with gateway.session() as server:
            item = server.object(1, "Item")
            self.tell("no lock is left", (item.Grid.lock(), item.Grid.unlock()) == (1, 0))
            return int(item.Count)

    def checked(self, gateway, found, each, most_unknown=0):
        """No two increments have made the same number, each client has made as many as it was to
        make, and of all numbers up to the last one at most so many were never acknowledged."""
        values = sorted(value for it in found for value in it["values"])
        last = self.count(gateway)
        self.tell("each client's", [len(it["values"]) for it in found] == [each] * CLIENTS)
        self.tell(
            "each number once",
            len(set(values)) == len(values) and values[0] >= 1 and values[-1] <= last,
            (values[:20], last),
        )
        self.tell(
            "none is lost", last - len(values) <= most_unknown, (last, len(values), most_unknown)
        )

    def test_many_clients(self):
        """10,000 increments of each, by 64 tasks of each."""
        gateway = self.begun()
        self.checked(gateway, Clients(gateway, "tasks", 10_000, 64).end(), 10_000)
        self.tell("its end", gateway.end()[0] == 0)

    def test_clients_that_wait_for_each(self):
        gateway = self.begun()
        self.checked(gateway, Clients(gateway, "update", 8).end(), 8)
        self.tell("its end", gateway.end()[0] == 0)

    def test_compare_and_put(self):
        gateway = self.begun()
        self.checked(gateway, Clients(gateway, "compare", 4).end(), 4)
        self.tell("its end", gateway.end()[0] == 0)

    def test_kills(self):
        """Of the server and of the gateway, in turns. One client at a time has the lock, so a kill
        leaves the increments of one unknown."""
        gateway, tasks, each, kills = self.begun(), 16, 100, 0
        clients = Clients(gateway, "tasks", each, tasks)
        while kills < 4 and any(it.poll() is None for it in clients.all):
            before = self.seen(gateway)
            Gateway.wait_for(
                lambda: self.seen(gateway) > before
                or all(it.poll() is not None for it in clients.all),
                "no increment is made",
            )
            if kills % 2 == 0:
                os.kill(Gateway.wait_for(gateway.server, "there is no server"), signal.SIGKILL)
            else:
                gateway.process.kill()
                gateway.process.wait()
                gateway.start()
            kills += 1
        found = clients.end()
        ends = sum(it["ends"] for it in found)
        self.tell(
            "there were kills, and sessions that have ended",
            kills >= 2 and ends >= CLIENTS,
            (kills, ends),
        )
        self.checked(gateway, found, each, kills * tasks)
        self.tell("its end", gateway.end()[0] == 0)

    @staticmethod
    def seen(gateway):
        """The number as it is, or -1 while it cannot be read."""
        try:
            with gateway.session() as server:
                return int(server.object(1, "Item").Count)
        except (oaut.Error, OSError):
            time.sleep(0.05)
            return -1


if __name__ == "__main__":
    unittest.main()
