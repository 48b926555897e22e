"""Two scripts and one server that is killed again and again: no put that was acknowledged is lost,
and every error has its number and its words. And many calls, after which a process has what it had.
What is not installed leaves its tests out, each by its name."""
import contextlib
import os
import random
import re
import signal
import subprocess
import tempfile
import threading
import time
import unittest

from tests.com.under_wine import (
    ASKED,
    LOST,
    NOT_STARTED,
    TIMEOUT,
    UnderWine,
    needs_wine,
    oaut,
    plain,
    reserved,
    windows,
    write,
)
from tests.gateway.gateways import built, left_out
from tests.support.preloaded import fast_folder
from tests.support.running import PROGRAM, goes_on, short

KILLS = int(os.environ.get("OAUT_COM_KILLS") or 5)
CALLS = int(os.environ.get("OAUT_COM_CALLS") or 20_000)
SCRIPTS = 2
ERROR = re.compile(r"error (?:get|put) (-?\d+) (.{20,}\(\w+, 0x[0-9A-F]{8}\).*)")


class Gateways:
    """A gateway over a store, which is started again whenever it has ended."""

    QUIET = {
        "stdin": subprocess.DEVNULL,
        "stdout": subprocess.DEVNULL,
        "stderr": subprocess.DEVNULL,
    }

    def __init__(self, port, store, library):
        self.words = [built()[0], "--program", PROGRAM, "--listen", f"127.0.0.1:{port}", store]
        self.library, self.ends = library, False
        self.now = subprocess.Popen(self.words, **self.QUIET)
        self.thread = threading.Thread(target=self.keep, daemon=True)
        self.thread.start()

    def keep(self):
        while True:
            self.now.wait()
            time.sleep(0.02)
            if self.ends:
                return
            self.now = subprocess.Popen(self.words, **self.QUIET)

    def kill(self, chance):
        """Kills the gateway or its server."""
        gateway, kills_server = self.now, chance.randrange(2)
        with contextlib.suppress(OSError, IndexError):
            if not kills_server:
                gateway.kill()
                return
            with open(f"/proc/{gateway.pid}/task/{gateway.pid}/children") as file:
                server = int(file.read().split()[0])
            # (its number may be another process's by now, unless the gateway still has it as a
            # child)
            victim = os.pidfd_open(server)
            try:
                with open(f"/proc/{server}/stat") as file:
                    if int(file.read().rpartition(")")[2].split()[1]) == gateway.pid:
                        signal.pidfd_send_signal(victim, signal.SIGKILL)
            finally:
                os.close(victim)

    def close(self):
        self.ends = True
        until, told = time.monotonic() + TIMEOUT / 2, None
        while self.thread.is_alive() and time.monotonic() < until:
            if self.now is not told:  # (one that had just ended was about to be started again)
                told = self.now
                told.terminate()
            self.thread.join(0.1)


class Script:
    """A script that puts, and its lines as they come. On a busy machine Wine now and then ends a
    program whose server it has lost: then another one goes on."""

    def __init__(self, wine, words):
        self.wine, self.words, self.lines, self.puts, self.starts = wine, words, [], 0, 0
        self.start()

    def start(self):
        self.starts, self.errors, self.is_started = self.starts + 1, tempfile.TemporaryFile(), True
        self.process = self.wine.start(*self.words, str(self.last()), errors=self.errors)
        self.thread = threading.Thread(target=self.read, args=[self.process.stdout], daemon=True)
        self.thread.start()

    def read(self, output):
        for line in output:
            if line.startswith((NOT_STARTED, b"ShellExecuteEx failed")):  # (as Wine's `start` says)
                self.is_started = False
            elif line.endswith(b"\n"):  # (what was ended may have written a part of one)
                self.lines.append(plain(line).rstrip("\n"))
                self.puts += self.lines[-1].startswith("put ")

    def last(self):
        """The number of the last put that a line is about."""
        found = (re.fullmatch(r"(?:put|tried) key \d+: (\d+)", it) for it in reversed(self.lines))
        return next((int(it[1]) for it in found if it), 0)

    def runs(self):
        """Whether it goes on, if by another process. What it was about to put may be there or
        not."""
        if self.process.poll() is None:
            return True
        self.thread.join(TIMEOUT)
        self.errors.seek(0)
        said = [it for it in plain(self.errors.read()).splitlines() if it and "wine32" not in it]
        own = [it for it in said if not it.startswith(LOST.decode())]
        if (
            self.lines[-1:] == ["end"]
            or own
            or (self.lines and self.is_started and not said)
            or self.starts == ASKED
        ):
            return False
        if self.lines:
            number = self.last() + 1
            self.lines.append(f"tried key {number % 20}: {number}")
            print(
                f"Wine has ended a script, which begins anew behind {len(self.lines)} lines: "
                f"{said}",
                flush=True,
            )
        self.start()
        return True

    def ends(self):
        """Waits for its end."""
        while self.runs():
            self.process.wait(TIMEOUT)


@needs_wine
class Kills(UnderWine):
    def tearDown(self):
        self.bridge.new_store()
        self.bridge.set()

    @left_out("cc")
    def test_no_acknowledged_put_is_lost_and_every_error_has_words(self):
        chance = random.Random(20261130)
        with tempfile.TemporaryDirectory(dir=fast_folder()) as room, reserved() as place:
            port, store, stop, library = (
                place.getsockname()[1],
                f"{room}/it.store",
                f"{self.bridge.room}/stop.{os.getpid()}",
                self.bridge.library,
            )
            oaut.make_store(store, library, program=PROGRAM)
            with oaut.serve(store, library, program=PROGRAM) as session:
                numbers = [session.create("Item").number for _ in range(SCRIPTS)]
            gateways, scripts = Gateways(port, store, library), []
            try:
                self.register_at(port)
                for it in numbers:
                    scripts.append(
                        Script(
                            self.wine, [*self.bridge.script("kills.vbs"), str(it), windows(stop)]
                        )
                    )
                    self.wait_for(lambda: scripts[-1].lines, scripts)
                for _ in range(KILLS):
                    before = [it.puts for it in scripts]
                    self.wait_for(
                        lambda: all(it.puts > seen for it, seen in zip(scripts, before)), scripts
                    )
                    time.sleep(chance.random() * 0.4)
                    gateways.kill(chance)
                before = [it.puts for it in scripts]
                self.wait_for(
                    lambda: all(it.puts > seen for it, seen in zip(scripts, before)), scripts
                )
                write(stop, "")
                for it in scripts:
                    it.ends()
            finally:
                gateways.close()
                for it in scripts:
                    it.process.kill()
                if os.path.exists(stop):
                    os.remove(stop)
            with oaut.serve(store, library, program=PROGRAM) as session:
                for number, it in zip(numbers, scripts):
                    self.judge(number, it.lines, session.object(number, "Item"))

    def register_at(self, port):
        """The class at a gateway's address, once that listens."""
        words = ["regsvr32", "/s", "/n", f"/i:Demo@127.0.0.1:{port}", self.bridge.dll]
        self.wait_for(lambda: self.wine.run(*words)[0] == 0)

    def wait_for(self, fact, scripts=()):
        """Waits for a fact while some scripts run."""
        until = time.monotonic() + TIMEOUT
        goes_on()
        while not fact():
            for it in scripts:
                if not it.runs():
                    raise AssertionError(
                        f"a script has ended with {it.process.returncode}, in {it.starts} starts: "
                        f"{it.lines[-3:]}"
                    )
            if time.monotonic() > until:
                raise AssertionError("it takes too long")
            time.sleep(0.02)

    def judge(self, number, lines, item):
        """Follows a script: what a key may hold is what was acknowledged last, and what was tried
        since, done or not."""
        may, wrong, errors, puts = {}, [], 0, 0
        for line in lines[:-1]:
            if line.startswith("error "):
                errors += 1
                found = ERROR.fullmatch(line)
                if not found or not int(found[1]):
                    wrong.append(line)
                continue
            what, key, value = re.fullmatch(r"(put|tried|got) (key \d+): (\d*)", line).groups()
            held = may.setdefault(key, {""})
            if what == "got" and value not in held:
                wrong.append(f"{line}, not of {sorted(held)}")
            if what == "tried":
                held.add(value)
            else:
                puts += what == "put"
                may[key] = {value}
        self.tell(
            f"script {number}: to its end", lines[-1:] == ["end"], short("\n".join(lines[-3:]))
        )
        self.tell(
            f"script {number}: it has put something and met {errors} errors", puts > 0, lines[-3:]
        )
        self.tell(
            f"script {number}: {puts} puts, {errors} errors: what it has read is what was put, "
            "and each error has its words",
            not wrong,
            wrong[:3],
        )
        held = {key: item.Cell[1, key] or "" for key in may}
        self.tell(
            f"script {number}: and what the store holds",
            all(held[key] in may[key] for key in may),
            {key: (held[key], may[key]) for key in may},
        )


@needs_wine
class Leaks(UnderWine):
    def tearDown(self):
        self.bridge.set()

    def test_many_calls_leave_nothing(self):
        """Blocks of memory and handles are counted: a process has the same after nine tenths of the
        calls as after one."""
        with tempfile.TemporaryDirectory(dir=fast_folder()) as room:
            oaut.make_store(f"{room}/it.store", self.bridge.library, program=PROGRAM)
            self.server.words = [PROGRAM, "serve", f"{room}/it.store", self.bridge.library]
            self.bridge.set(Script=0)
            told = self.wine.run(f"{self.bridge.room}/built/hosts.exe", "calls", str(CALLS))[1]
            lines = told.splitlines()
            self.tell(
                "all calls",
                [it for it in lines if not it.startswith("calls ")][1:]
                == ["ok   the objects are made", "ok   all calls", "end"],
                told,
            )
            found = [
                [int(it) for it in re.findall(r"\d+", line)]
                for line in lines
                if line.startswith("calls ")
            ]
            self.tell("they are counted ten times", len(found) == 10, told)
            # (a block more or two: what the C library keeps for a thread of the system's that comes
            # and goes)
            grown = [late - early for early, late in zip(found[0], found[-1])]
            self.tell(f"handles, after {found[0][0]} and {found[-1][0]} calls", grown[1] <= 2, told)
            self.tell("bytes in blocks that are in use", grown[3] <= 8_192, told)
            self.bridge.new_store()


if __name__ == "__main__":
    unittest.main()
