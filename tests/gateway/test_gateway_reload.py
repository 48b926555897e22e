"""`oaut-gateway reload`: other limits and other users while clients are connected."""
import contextlib
import os
import subprocess
import threading
import time
import unittest

from tests.gateway.gateways import SECONDS, Gateway, hear, record
from tests.gateway.test_gateway import NO_REQUEST, NONE
from tests.support.ports import free_port
from tests.support.preloaded import COMPILER
from tests.support.running import Cases

ANSWER = record(NO_REQUEST)
OTHER = 4_242  # a user that nobody is here


@unittest.skipUnless(COMPILER, "cc is not there")
class Reload(Cases):
    def reload(self, name, gateway, *words, status=0, says=""):
        done = subprocess.run(
            [gateway.binary, "reload", f"{gateway.room}/control", *words],
            capture_output=True,
            text=True,
            timeout=SECONDS,
        )
        said = done.stdout + done.stderr
        self.tell(name, done.returncode == status and says in said, (done.returncode, said))

    def settles(self, gateway, count):
        """Waits until so many clients are connected: one that has hung up may be there for a
        moment."""
        gateway.settles(count)

    def is_served(self, gateway, beside=0):
        """Whether a new client is, beside so many: the connection of one that may not come ends."""
        self.settles(gateway, beside)
        with gateway.dial() as sock, contextlib.suppress(ConnectionError):
            sock.sendall(record(NONE))
            return hear(sock, len(ANSWER)) == ANSWER
        return False

    def test_more_clients_and_fewer(self):
        with Gateway("--clients", "2") as gateway, contextlib.ExitStack() as stack:
            self.settles(gateway, 0)
            socks = [stack.enter_context(gateway.dial()) for _ in range(2)]

            def all_served():
                for it in socks:
                    it.sendall(record(NONE))
                return all(hear(it, len(ANSWER)) == ANSWER for it in socks)

            self.tell("two are served", all_served())
            self.tell("a third is not", not self.is_served(gateway, 2))
            self.reload("a reload", gateway, "--clients", "1500", says="reloaded")
            self.tell("a third is served now", self.is_served(gateway, 2))
            socks += [stack.enter_context(gateway.dial()) for _ in range(30)]
            self.tell("thirty more", all_served())
            self.reload("a reload with fewer", gateway, "--clients", "3")
            self.tell("those that are connected stay", all_served())
            self.tell("a new one is not served", not self.is_served(gateway, 32))

    def test_users(self):
        with Gateway("--allow-user", str(OTHER)) as gateway:
            self.tell("one that may not come", not self.is_served(gateway))
            self.reload(
                "a reload", gateway, "--allow-user", str(OTHER), "--allow-user", str(os.getuid())
            )
            self.tell("it may come now", self.is_served(gateway))
            self.settles(gateway, 0)
            with gateway.dial() as stays:
                self.settles(gateway, 1)
                self.reload("a reload without it", gateway, "--allow-group", str(OTHER))
                self.tell("it may come no more", not self.is_served(gateway, 1))
                stays.sendall(record(NONE))
                self.tell("one that is connected stays", hear(stays, len(ANSWER)) == ANSWER)
            self.reload("a reload without users", gateway)
            self.tell("all that the socket's rights let may come", self.is_served(gateway))

    def test_how_long_a_client_may_be_silent(self):
        with Gateway() as gateway, gateway.dial() as silent:
            self.reload("a reload", gateway, "--idle", "0.1")
            self.tell("a silent one is let go", hear(silent, 1) == b"")
            self.reload("a reload with the defaults", gateway)
            with gateway.dial() as sock:
                time.sleep(2.5)
                sock.sendall(record(NONE))
                self.tell("the default counts again", hear(sock, len(ANSWER)) == ANSWER)

    def test_all_or_nothing(self):
        with Gateway("--clients", "1") as gateway, contextlib.ExitStack() as stack:
            self.settles(gateway, 0)
            sock = stack.enter_context(gateway.dial())
            for words, says in (
                (["--clients", "5", "--idle", "-1"], "--idle -1"),
                (["--clients", "0"], "--clients 0"),
                (["--clients", "5", "--no-such", "1"], "--no-such"),
                (
                    ["--clients", "5", "--listen", "/nowhere/else"],
                    "--listen /nowhere/else is for a start: restart the gateway",
                ),
                (["--clients", "5", "--mode", "0666"], "--mode 0666 is for a start"),
                (["--clients", "5", "store"], "a reload has options only"),
                (["--clients", "5", "--allow-user", "no-such-user"], "--allow-user no-such-user"),
            ):
                self.reload(f"a reload with {words}", gateway, *words, status=2, says=says)
            sock.sendall(record(NONE))
            self.tell("the one client is served", hear(sock, len(ANSWER)) == ANSWER)
            self.tell("there is no second one", not self.is_served(gateway, 1))
            self.reload(
                "options of the start that are the same",
                gateway,
                "--clients",
                "5",
                "--listen",
                f"{gateway.room}/listen",
            )
            self.tell("there is a second one now", self.is_served(gateway, 1))

    def test_more_descriptors_than_there_may_be(self):
        limited = ("bash", "-c", 'ulimit -n 200; exec "$@"', "bash")
        with Gateway("--clients", "10", under=limited) as gateway:
            self.reload(
                "a reload",
                gateway,
                "--clients",
                "500",
                status=2,
                says="--clients 500 needs more descriptors",
            )
            self.reload("one that there are enough for", gateway, "--clients", "100")
            self.tell("it serves", self.is_served(gateway))

    def test_tcp_has_no_users(self):
        with Gateway("--listen", f"127.0.0.1:{free_port()}") as gateway:
            self.reload(
                "a reload with a user",
                gateway,
                "--allow-user",
                "0",
                status=2,
                says="TCP clients have no user",
            )
            self.tell("all may come", self.is_served(gateway))

    def test_no_client_is_dropped(self):
        """Eight clients put, while the settings are reloaded."""
        stop, failed, counts = threading.Event(), [], [0] * 8

        def put(gateway, place):
            try:
                with gateway.session() as server:
                    item = server.create("Item")
                    while not stop.is_set():
                        item.Count = counts[place] = counts[place] + 1
                    if item.Count != counts[place]:
                        failed.append((place, "another value"))
            except Exception as error:
                failed.append((place, repr(error)))

        with Gateway() as gateway:
            threads = [threading.Thread(target=put, args=(gateway, place)) for place in range(8)]
            for it in threads:
                it.start()
            for number in range(20):
                self.reload(
                    "a reload",
                    gateway,
                    "--clients",
                    str(100 + 37 * number),
                    "--memory",
                    str(16 + number),
                    "--allow-user",
                    str(os.getuid()),
                )
            Gateway.wait_for(lambda: failed or all(counts), "not all have put")
            stop.set()
            for it in threads:
                it.join(SECONDS)
            self.tell("each went on", not failed and all(counts), (failed, counts))

    def test_who_is_not_there(self):
        with Gateway() as gateway:
            done = subprocess.run(
                [gateway.binary, "reload", f"{gateway.room}/none"],
                capture_output=True,
                text=True,
                timeout=SECONDS,
            )
            self.tell("no gateway", done.returncode == 1 and "cannot connect" in done.stderr, done)
