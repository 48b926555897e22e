"""The gateway, clients/gateway, as its tests have it: built once, with sanitizers where the
compiler has them, and started over a store of its own."""
import contextlib
import fcntl
import functools
import os
import pathlib
import shutil
import signal
import socket
import struct
import subprocess
import sys
import tempfile
import termios
import threading
import time
import unittest

from tests.support.preloaded import fast_folder
from tests.support.running import PROGRAM, ROOT, run_in
from tests.support.wire import oaut

GATEWAY = f"{ROOT}/clients/gateway"
# the proved part, by tools/gateway_library.py
LIBRARY = f"{ROOT}/crates/oa_gateway_c/out/liboa_gateway_c.a"
FULL = f"{ROOT}/examples/full.idl"
SANITIZED = "-O1 -g -fsanitize=address,undefined -fno-sanitize-recover=all"
SECONDS = float(os.environ.get("OAUT_SECONDS") or 180)  # of each thing that is waited for


def left_out(*tools):
    """Leaves a test or a class of them out where a tool is not there."""
    missing = [it for it in tools if not shutil.which(it)]
    return unittest.skipIf(missing, f"{', '.join(missing)} not there")


def compiled(words, flags):
    done = subprocess.run(
        words,
        env={**os.environ, "CFLAGS": flags},
        stdout=subprocess.PIPE,
        stderr=subprocess.STDOUT,
        text=True,
    )
    return done.returncode, done.stdout


@functools.lru_cache(None)
def built(flags=None):
    """The gateway's program and what its build said, with the folder that holds it as long as this
    process lives. With sanitizers, where nothing is said and the compiler has them. OAUT_GATEWAY
    and OAUT_GATEWAY_PLAIN name programs that are there already (tools/gateway_mutants.py)."""
    there = os.environ.get("OAUT_GATEWAY" if flags is None else "OAUT_GATEWAY_PLAIN")
    if there:
        return there, (0, ""), None
    folder = tempfile.TemporaryDirectory()
    status, said = compiled(
        [f"{GATEWAY}/build.sh", folder.name], SANITIZED if flags is None else flags
    )
    if status and flags is None:
        status, said = compiled([f"{GATEWAY}/build.sh", folder.name], "-O1")
    return f"{folder.name}/oaut-gateway", (status, said), folder


@functools.lru_cache(None)
def library(name, source):
    """A library that is preloaded, compiled once."""
    folder = tempfile.TemporaryDirectory()
    with open(f"{folder.name}/{name}.c", "w") as file:
        file.write(source)
    subprocess.run(
        [
            "cc",
            "-O1",
            "-shared",
            "-fPIC",
            "-o",
            f"{folder.name}/{name}.so",
            f"{folder.name}/{name}.c",
        ],
        check=True,
    )
    return f"{folder.name}/{name}.so", folder


# a device whose syncs fail from one on, with the error of this number, EIO if there is none
FAILS = r"""
#define _GNU_SOURCE
#include <dlfcn.h>
#include <errno.h>
#include <stdlib.h>
int fdatasync(int fd) {
    static long left = -1;
    if (left < 0) left = atol(getenv("SYNCS"));
    if (!left) { errno = getenv("SYNC_ERROR") ? atoi(getenv("SYNC_ERROR")) : EIO; return -1; }
    left--;
    return ((int (*)(int))dlsym(RTLD_NEXT, "fdatasync"))(fd);
}
"""


@functools.lru_cache(None)
def store_of(path):
    """A formatted store of a library, kept as long as this process lives: it is copied for each
    gateway."""
    folder = tempfile.TemporaryDirectory(dir=fast_folder())
    shutil.copy(path, f"{folder.name}/lib.idl")
    status, _, said = run_in(folder.name, ["format", "it.store", "lib.idl"])
    if status:
        raise AssertionError(said)
    copy_store(f"{folder.name}/it.store", f"{folder.name}/sparse.store")
    os.unlink(f"{folder.name}/it.store")
    return f"{folder.name}/sparse.store", folder


def copy_store(source, target):
    """A copy that takes no room where it has zeros alone."""
    subprocess.run(["cp", "--sparse=always", source, target], check=True)


def record(body):
    return struct.pack("<I", len(body)) + body


def records(bodies):
    return b"".join(map(record, bodies))


class Gateway:
    """A gateway over a store in a folder of its own, in memory where that is there. Its sockets are
    files of the folder named for their options."""

    OPTIONS = ("listen", "listen-hex", "alone", "control", "metrics")

    def __init__(
        self,
        *words,
        sockets=("listen", "alone", "listen-hex", "control", "metrics"),
        room=None,
        under=(),
        starts=True,
        library=FULL,
        program=PROGRAM,
        flags=None,
        **variables,
    ):
        self.own = tempfile.TemporaryDirectory(dir=fast_folder()) if room is None else None
        self.room = room or self.own.name
        self.store = f"{self.room}/it.store"
        if not os.path.exists(self.store):
            copy_store(store_of(library)[0], self.store)
        named = [part for it in sockets for part in (f"--{it}", f"{self.room}/{it}")]
        self.binary = built(flags)[0]
        self.words = [*under, self.binary, "--program", program, *named, *words, self.store]
        self.variables = {"ASAN_OPTIONS": "detect_leaks=1:abort_on_error=0", **variables}
        self.process, self.said = None, ""
        if starts:
            self.start()

    def start(self, waits=True):
        self.error = open(f"{self.room}/said", "a+b")
        self.process = subprocess.Popen(
            self.words,
            stderr=self.error,
            env={**os.environ, **{name: str(it) for name, it in self.variables.items()}},
        )
        if waits:
            self.wait_for(
                lambda: self.process.poll() is not None or self.answers(),
                "the gateway does not listen",
            )
        return self

    def answers(self):
        """Whether it listens. It has told the connection that asks its end by then, so all of its
        sockets have their names."""
        try:
            with self.dial("listen") as sock:
                with contextlib.suppress(OSError):
                    sock.shutdown(socket.SHUT_WR)
                rest(sock)
                return True
        except OSError:
            return False

    def settles(self, count=0):
        """Waits until so many clients are connected. A connection that was closed counts until the
        gateway has seen its end."""
        self.wait_for(
            lambda: self.counters().get("oaut_gateway_clients") == count,
            f"there are not {count} clients",
        )

    @staticmethod
    def wait_for(fact, what, seconds=SECONDS):
        until = time.monotonic() + seconds
        while not (found := fact()):
            if time.monotonic() > until:
                raise AssertionError(what)
            time.sleep(0.01)
        return found

    def __enter__(self):
        return self

    def __exit__(self, kind, *_):
        """Ends it. Where a case has failed, what the gateway said until then is printed."""
        if kind and self.process:
            with open(f"{self.room}/said", errors="replace") as file:
                print(
                    f"the gateway's status is {self.process.poll()}; it said:\n"
                    f"{file.read()[-2000:]}",
                    flush=True,
                )
        if self.process and self.process.poll() is None:
            self.process.kill()
            self.process.wait()
        if self.own:
            with contextlib.suppress(OSError):
                self.own.cleanup()

    def dial(self, name="listen"):
        sock = socket.socket(socket.AF_UNIX)
        sock.settimeout(SECONDS)
        try:
            sock.connect(f"{self.room}/{name}")
        except OSError:
            sock.close()
            raise
        return sock

    @contextlib.contextmanager
    def session(self, name="listen"):
        with self.dial(name) as sock, oaut.connect(sock, timeout=SECONDS) as server:
            yield server

    def ask(self, data, name="listen", ends=True):
        """What comes to the end where these bytes are sent, and then nothing more."""
        with self.dial(name) as sock:
            with contextlib.suppress(BrokenPipeError, ConnectionResetError):
                sock.sendall(data)
                if ends:
                    sock.shutdown(socket.SHUT_WR)
            return rest(sock)

    def server(self):
        """The process that serves, of the gateway's children; 0 where there is none."""
        path, children = f"/proc/{self.process.pid}/task/{self.process.pid}/children", ""
        with contextlib.suppress(OSError):
            children = pathlib.Path(path).read_text()
        for it in map(int, children.split()):
            with contextlib.suppress(OSError):
                if b"serve" in pathlib.Path(f"/proc/{it}/cmdline").read_bytes().split(b"\0"):
                    return it
        return 0

    def counters(self):
        """What `status` prints, by name."""
        done = subprocess.run(
            [self.binary, "status", f"{self.room}/control"],
            capture_output=True,
            text=True,
            timeout=SECONDS,
        )
        return {
            name: float(value)
            for name, value in (
                line.rsplit(" ", 1) for line in done.stdout.splitlines() if not line.startswith("#")
            )
        }

    def end(self, with_=signal.SIGTERM):
        """Its status, and what it said."""
        if with_:
            self.process.send_signal(with_)
        status = self.process.wait(SECONDS)
        with open(f"{self.room}/said", "rb") as file:
            return status, file.read().decode("utf-8", "replace")


def rest(sock):
    """What comes until its end."""
    got = bytearray()
    with contextlib.suppress(ConnectionResetError):
        while some := sock.recv(1 << 16):
            got += some
    return bytes(got)


def hear(sock, count):
    """So many bytes, or what came of them."""
    got = bytearray()
    while len(got) < count and (some := sock.recv(count - len(got))):
        got += some
    return bytes(got)


def sends(sock, data):
    """Sends in a thread of its own."""

    def send():
        with contextlib.suppress(OSError):
            sock.sendall(data)

    thread = threading.Thread(target=send, daemon=True)
    thread.start()
    return thread


def arrived(sock):
    """How many bytes have come to a socket that nobody has read yet."""
    return int.from_bytes(fcntl.ioctl(sock, termios.FIONREAD, bytes(4)), sys.byteorder)


def bodies_of(data):
    """The bodies of records."""
    found, at = [], 0
    while at + 4 <= len(data):
        size = struct.unpack_from("<I", data, at)[0]
        found.append(data[at + 4 : at + 4 + size])
        at += 4 + size
    return found
