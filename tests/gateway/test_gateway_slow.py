"""Batches that took longer than `--slow` says, on standard error (docs/operations/gateway.md)."""
import re
import subprocess
import time
import unittest

from tests.gateway.gateways import SECONDS, Gateway, record
from tests.gateway.test_gateway_reading import replies, tagged
from tests.support import worked
from tests.support.preloaded import COMPILER
from tests.support.running import Cases
from tests.support.wire import oaut

SHORT = "0.000001"  # every batch takes longer
PATTERN = r"oaut-gateway: a batch took (\d+\.\d{3}) ms: (.*)\n"


@unittest.skipUnless(COMPILER, "cc is not there")
class Slow(Cases):
    def begun(self, *words):
        gateway = Gateway(*words, sockets=("listen", "control")).__enter__()
        self.addCleanup(gateway.__exit__, None, None, None)
        return gateway

    def lines(self, gateway):
        with open(f"{gateway.room}/said", errors="replace") as file:
            return re.findall(PATTERN, file.read())

    def reloaded(self, gateway, *words):
        done = subprocess.run(
            [gateway.binary, "reload", f"{gateway.room}/control", *words],
            capture_output=True,
            text=True,
            timeout=SECONDS,
        )
        return done.stdout == "reloaded\n"

    def test_what_was_in_it(self):
        gateway = self.begun("--slow", SHORT)
        bodies = tagged(
            [
                oaut.ask_create(worked.ITEM),
                worked.put(worked.NAME, worked.text(b"a\0" * 500)),
                worked.get(worked.COUNT),
                oaut.ask_list(),
            ]
        )
        with gateway.dial() as sock:
            replies(sock, bodies)
            first = sum(len(record(it)) for it in bodies)
            longest = max(len(record(it)) for it in bodies)
            Gateway.wait_for(lambda: self.lines(gateway), "there is no line")
            told = [it for _, it in self.lines(gateway)]
            wanted = (
                f"4 requests of 1 clients, {first} bytes, 1 CREATE, 2 INVOKE, 1 LIST; the longest, "
                "of client "
            )
            self.tell(
                "a batch of four",
                len(told) == 1
                and told[0].startswith(wanted)
                and told[0].endswith(f", has {longest}"),
                (told, wanted),
            )
        self.tell("its time", float(self.lines(gateway)[0][0]) < 600_000)
        with gateway.dial() as sock:
            replies(sock, tagged([b"\x63\0\0\0"]))
        Gateway.wait_for(lambda: len(self.lines(gateway)) == 2, "there is no second line")
        second = self.lines(gateway)[1][1]
        self.tell(
            "one of another opcode",
            second.startswith("1 requests of 1 clients, ") and ", 1 others;" in second,
            second,
        )
        self.tell("they are counted", gateway.counters()["oaut_gateway_slow_batches_total"] == 2)
        gateway.end()

    def test_its_bound(self):
        """At most five lines a second; what was left out is counted."""
        gateway, count = self.begun("--slow", SHORT), 300
        begun = time.monotonic()
        with gateway.dial() as sock:
            for number in range(count):
                replies(sock, tagged([oaut.ask_list()]))
            seconds = time.monotonic() - begun
            told = self.lines(gateway)
            self.tell("its lines", 5 <= len(told) <= 5 * (int(seconds) + 2), (len(told), seconds))
            self.tell(
                "all are counted", gateway.counters()["oaut_gateway_slow_batches_total"] == count
            )
            left_out = lambda: sum(
                int(it)
                for it in re.findall(
                    r"\((\d+) slow ones before it were left out\)", str(self.lines(gateway))
                )
            )
            Gateway.wait_for(
                lambda: replies(sock, tagged([oaut.ask_list()])) and left_out(),
                "nothing is said of those that were left out",
            )
            shown = len(self.lines(gateway))
            total = gateway.counters()["oaut_gateway_slow_batches_total"]
            self.tell(
                "and told",
                shown + left_out() <= total and left_out() > 0,
                (shown, left_out(), total),
            )
        gateway.end()

    def test_off_and_on(self):
        """By default, and while all batches are quicker, there is no line; a reload changes it."""
        gateway = self.begun()
        with gateway.dial() as sock:
            for words, due in (((), 0), (("--slow", "600000"), 0), (("--slow", SHORT), 1), ((), 1)):
                if words or due:
                    self.tell(f"a reload with {words}", self.reloaded(gateway, *words))
                replies(sock, tagged([oaut.ask_list()]))
                Gateway.wait_for(lambda: len(self.lines(gateway)) >= due, "there is no line")
                self.tell(
                    f"lines after {words}",
                    gateway.counters()["oaut_gateway_slow_batches_total"]
                    == due
                    == len(self.lines(gateway)),
                )
        gateway.end()


if __name__ == "__main__":
    unittest.main()
