"""How long clients wait for other clients and for a backup.

The bounds hold on a machine with other work: a wait is compared with that of a client alone in the
same run, or counted in bytes. The times themselves are measured by bench/crowd.py."""
import contextlib
import os
import re
import shutil
import statistics
import subprocess
import sys
import tempfile
import threading
import time
import unittest

from tests.gateway.gateways import FULL, SECONDS, Gateway, hear, left_out
from tests.gateway.test_gateway_limits import get, put
from tests.support.preloaded import COMPILER
from tests.support.running import PROGRAM, ROOT, Cases, goes_on, run_in
from tests.support.tries import least

needs_cc = unittest.skipUnless(COMPILER, "cc is not there")
TEXT = 500_000  # characters of a text; its reply has twice as many bytes
NAME = 2  # the member that is one

# Fifteen clients in a process of their own: each gets the text, reads all of it, and asks again. A
# line says that all of them have had it.
READERS = r"""
import selectors, socket, sys
path, asked, size = sys.argv[1], bytes.fromhex(sys.argv[2]), int(sys.argv[3])
poller, place, come = selectors.DefaultSelector(), bytearray(1 << 20), {}
for _ in range(15):
    sock = socket.socket(socket.AF_UNIX)
    sock.connect(path)
    sock.sendall(asked)
    poller.register(sock, selectors.EVENT_READ)
    come[sock] = 0
said = False
while True:
    for key, _ in poller.select():
        got = key.fileobj.recv_into(place)
        if not got:
            sys.exit(1)
        come[key.fileobj] += got
        if come[key.fileobj] % size == 0:
            key.fileobj.sendall(asked)
    if not said and min(come.values()) >= size:
        said = True
        print("all", flush=True)
"""


def timed(sock, asked, size):
    """The seconds from some requests to the last byte of their replies."""
    begun = time.monotonic()
    sock.sendall(asked)
    came, place = 0, bytearray(1 << 18)
    while came < size:
        came += sock.recv_into(place) or size + 1
    if came > size:
        raise AssertionError("other replies come")
    goes_on()
    return time.monotonic() - begun


def size_of_reply(sock, asked):
    """The bytes of the reply to a request."""
    sock.sendall(asked)
    size = int.from_bytes(hear(sock, 4), "little")
    return 4 + len(hear(sock, size))


@contextlib.contextmanager
def readers(gateway, size):
    """Fifteen clients that get the text again and again, once each of them has had it."""
    words = [sys.executable, "-c", READERS, f"{gateway.room}/listen", get(NAME).hex(), str(size)]
    with subprocess.Popen(words, stdout=subprocess.PIPE) as child:
        try:
            if child.stdout.readline() != b"all\n":
                raise AssertionError("the clients are not served")
            yield
        finally:
            child.kill()


@needs_cc
class Waits(Cases):
    """A client waits for each of its puts, beside fifteen others that get a text of 1 MB.

    What it waits for more than alone is counted by the time in which one client gets the text, in
    the same run: a busy machine is slow at both. (Floods of puts are in test_gateway_limits: how
    many are in a batch depends on the time that a batch takes.)"""

    def texts(self):
        """For how many texts a put waits beside the others, by the medians of three turns."""
        alone, beside, each = [], [], []
        # (on a device: in memory a put alone takes next to nothing)
        with tempfile.TemporaryDirectory(dir="/var/tmp") as room, Gateway(
            "--report", "0", sockets=("listen", "control"), room=room, flags="-O1"
        ) as gateway:
            with gateway.session() as server:
                items = [server.create("Item") for _ in range(2)]
                items[0].Name, number = "n" * TEXT, items[1].number
            with gateway.dial() as sock:
                size = size_of_reply(sock, get(NAME))
                for _ in range(3):
                    alone += [timed(sock, put(it, number), 20) for it in range(100)]
                    each += [timed(sock, get(NAME), size) for _ in range(20)]
                    with readers(gateway, size):
                        beside += [timed(sock, put(it, number), 20) for it in range(60)]
                    gateway.settles(1)
            self.tell("its end", gateway.end()[0] == 0)
        times = list(map(statistics.median, (alone, beside, each)))
        self.seen.append(tuple(f"{it * 1e3:.2f} ms" for it in times))
        return (times[1] - times[0]) / times[2]

    def test_beside_long_replies(self):
        """A batch has few of the texts."""
        self.seen = []
        found = least(2, self.texts)
        self.tell("a put waits for few of the texts", found < 2, (found, self.seen))


CALL = re.compile(r"(?m)^(?:\d+ +)?(\w+)\((.*)\) += (-?\d+)")


@needs_cc
@left_out("strace")
class Holds(Cases):
    def look_at_calls(self, path):
        """Compares the bytes that were copied before the hold, and in it, by the traced calls."""
        with open(path) as file:
            calls = [(name, what, int(count)) for name, what, count in CALL.findall(file.read())]
        begins = lambda call, word: next(
            at for at, (name, what, _) in enumerate(calls) if name == call and word in what
        )
        holds, frees = begins("recvfrom", '"held'), begins("sendto", '"free')
        for call in ("pread64", "pwrite64"):
            size = lambda some: sum(count for name, _, count in some if name == call)
            before, within = size(calls[:holds]), size(calls[holds:frees])
            self.tell(f"{call} before the hold", before > 60 * 2 * TEXT, before)
            self.tell(f"{call} while clients wait", within < 4 << 20, within)

    def test_bytes_of_a_hold(self):
        """While clients wait for a backup, it copies what has changed, however long the file is."""
        with tempfile.TemporaryDirectory(dir="/var/tmp") as room:
            shutil.copy(FULL, f"{room}/lib.idl")
            status, _, said = run_in(
                room, ["format", "--bank", "1073741824", "it.store", "lib.idl"]
            )
            self.tell("a store of large banks", status == 0, said)
            with Gateway(room=room, flags="-O1") as gateway:
                with gateway.session() as server:
                    number = server.create("Item").number
                    for _ in range(60):
                        server.create("Item").Name = "x" * TEXT
                stop, came = threading.Event(), [0]

                def puts():
                    with gateway.dial() as sock:
                        while not stop.is_set():
                            sock.sendall(b"".join(put(it, number) for it in range(100)))
                            came[0] += len(hear(sock, 2_000))
                            time.sleep(0.008)

                thread = threading.Thread(target=puts)
                thread.start()
                try:
                    Gateway.wait_for(lambda: came[0], "nothing is put")
                    words = [
                        "strace",
                        "-q",
                        "-s",
                        "16",
                        "-o",
                        f"{room}/calls",
                        "-e",
                        "trace=pread64,pwrite64,recvfrom,sendto",
                    ]
                    words += [gateway.binary, "backup", f"{room}/control", f"{room}/copy"]
                    done = subprocess.run(words, capture_output=True, text=True, timeout=SECONDS)
                    self.tell("a backup", done.returncode == 0 and "held for" in done.stdout, done)
                finally:
                    stop.set()
                    thread.join()
                self.look_at_calls(f"{room}/calls")
                status, _, err = run_in(room, ["dump", "--library", "copy"])
                self.tell("the copy opens", status == 0, err)
                self.tell("its end", gateway.end()[0] == 0)


@needs_cc
class Benchmarks(Cases):
    def test_the_gateway_in_the_current_folder(self):
        """It builds, serves and measures in a folder of its own within the current one."""
        with tempfile.TemporaryDirectory() as room:
            words = [
                sys.executable,
                f"{ROOT}/bench/gateway.py",
                PROGRAM,
                ".",
                "0.05",
                "1",
                "0",
                "gateway,serve",
            ]
            done = subprocess.run(words, cwd=room, capture_output=True, text=True, timeout=SECONDS)
            rows = re.findall(r"(?m)^\| (gateway|serve) \| (.*) \|$", done.stdout)
            rates = {
                name: [
                    float(it.split(" ")[0].replace(",", ""))
                    for it in cells.split(" | ")
                    if it != "-"
                ]
                for name, cells in rows
            }
            self.tell(
                "seven rates of the gateway, one of the server alone",
                [len(rates.get(it, [])) for it in ("gateway", "serve")] == [7, 1],
                done,
            )
            self.tell("each is one", all(it > 0 for row in rates.values() for it in row), rates)
            self.tell(
                "and how they compare", "one client's median, gateway/serve: " in done.stdout, done
            )
            self.tell("nothing is left there", os.listdir(room) == [], os.listdir(room))
