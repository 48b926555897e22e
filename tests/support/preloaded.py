"""Runs of the program behind a library that makes the system as bad as it may be
(tests/support/hostile.c): one that refuses memory, brings a byte at a time, or interrupts each read
or write."""
import functools
import mmap
import os
import shutil
import signal
import subprocess
import tempfile
from typing import NamedTuple

from tests.support import store
from tests.support.running import PIECE, PROGRAM, TESTS, zeros_at

COMPILER = shutil.which("cc")
SECONDS = 400  # at most for one run
PAGE = 4_096
ZEROS = bytes(PAGE)


def fast_folder():
    """Where files have no device to be synced to, if there is such a place. OAUT_FAST_FOLDER names
    another one (tools/gateway_mutants.py)."""
    return os.environ.get("OAUT_FAST_FOLDER") or (
        "/dev/shm" if os.access("/dev/shm", os.W_OK) else None
    )


def spawned(words, given, out, err, variables=None):
    """Runs a program to its end, with files for its streams, and answers its status, which is below
    0 where a signal has ended it, and the seconds of a processor that it took."""
    write = os.O_WRONLY | os.O_CREAT | os.O_TRUNC
    actions = [
        (os.POSIX_SPAWN_OPEN, 0, given, os.O_RDONLY, 0),
        (os.POSIX_SPAWN_OPEN, 1, out, write, 0o600),
        (os.POSIX_SPAWN_OPEN, 2, err, write, 0o600),
    ]
    process = os.posix_spawn(
        words[0], words, {**os.environ, **(variables or {})}, file_actions=actions
    )
    before = signal.signal(signal.SIGALRM, lambda *_: os.kill(process, signal.SIGKILL))
    signal.setitimer(signal.ITIMER_REAL, SECONDS)
    try:
        _, status, took = os.wait4(process, 0)
    finally:
        signal.setitimer(signal.ITIMER_REAL, 0)
        signal.signal(signal.SIGALRM, before)
    return os.waitstatus_to_exitcode(status), took.ru_utime + took.ru_stime


def read(path):
    with open(path, "rb") as file:
        return file.read()


def pages_of(data):
    """The pages of a row of bytes that are not zeros, by their places."""
    pieces = ((start, min(start + PIECE, len(data))) for start in range(0, len(data), PIECE))
    places = (
        at
        for start, end in pieces
        if not zeros_at(data, start, end)
        for at in range(start, end, PAGE)
    )
    pages = ((at, bytes(data[at : at + PAGE])) for at in places)
    return {at: page for at, page in pages if page != ZEROS[: len(page)]}


class StoreFile:
    """A store's file that can be laid down anew, by its pages that are not zeros."""

    def __init__(self, path, data=None):
        self.path = path
        data = read(path) if data is None else data
        self.pages, self.length = pages_of(data), len(data)

    def lay(self):
        with open(self.path, "wb") as file:
            file.truncate(self.length)
            for at, page in self.pages.items():
                os.pwrite(file.fileno(), page, at)

    def change(self, at, some):
        """Writes bytes at a place of the file."""
        with open(self.path, "r+b") as file:
            os.pwrite(file.fileno(), some, at)

    def mapped(self, act):
        with open(self.path, "rb") as file, mmap.mmap(
            file.fileno(), 0, access=mmap.ACCESS_READ
        ) as data:
            return act(data)

    def dump(self):
        """What the store holds, by the reader that shares no code with the program, or why it holds
        nothing."""
        try:
            return self.mapped(store.dump)
        except (store.NotAStore, store.Damaged) as refusal:
            return str(refusal)

    def now(self):
        """The pages of the file that are not zeros, and its length."""
        with open(self.path, "rb") as file:
            at, end, found = 0, os.fstat(file.fileno()).st_size, {}
            while at < end:
                try:
                    at = os.lseek(file.fileno(), at, os.SEEK_DATA) // PAGE * PAGE
                except OSError:  # there is no more data
                    break
                hole = os.lseek(file.fileno(), at, os.SEEK_HOLE)
                found.update(
                    {
                        at + place: page
                        for place, page in pages_of(os.pread(file.fileno(), hole - at, at)).items()
                    }
                )
                at = hole
            return found, end

    def is_as_laid(self):
        """Whether each byte of the file is as it was laid down."""
        return self.now() == (self.pages, self.length)


class Told(NamedTuple):
    """What came of a run: status, output and fault; how many calls of the allocator were made, how
    many blocks were not freed, how often standard input was read and standard output written, how
    many calls of the allocator asked for many bytes, and how many bytes all blocks had at the last
    read of standard input."""

    status: int
    out: bytes
    err: bytes
    calls: int
    left: int
    reads: int
    writes: int
    larges: int
    held: int


@functools.lru_cache(None)
def compiled():
    """The library, which is compiled once, with the folder that holds it as long as this process
    lives."""
    folder = tempfile.TemporaryDirectory(dir=fast_folder())
    subprocess.run(
        [
            COMPILER,
            "-O1",
            "-Wall",
            "-Werror",
            "-shared",
            "-fPIC",
            "-o",
            f"{folder.name}/hostile.so",
            f"{TESTS}/support/hostile.c",
        ],
        check=True,
    )
    return f"{folder.name}/hostile.so", folder


class Preloaded:
    """A folder, and runs of the program there behind the library."""

    def __enter__(self):
        self.folder = tempfile.TemporaryDirectory(dir=fast_folder())
        self.room = self.folder.name
        self.fill("nothing", b"")
        return self

    def __exit__(self, *_):
        self.folder.cleanup()

    def path(self, name):
        return f"{self.room}/{name}"

    def fill(self, name, content):
        with open(self.path(name), "wb") as file:
            file.write(content)

    def run(self, words, given="nothing", program=PROGRAM, **how):
        """Runs the program, or another one, with the file `given` on standard input. `how` are the
        variables that the library reads, in lower case."""
        variables = {
            "LD_PRELOAD": compiled()[0],
            "TOLD": self.path("told"),
            **{name.upper(): str(it) for name, it in how.items()},
        }
        self.fill("told", b"-1 -1 -1 -1 -1 -1")
        status, _ = spawned(
            [program, *words], self.path(given), self.path("out"), self.path("err"), variables
        )
        return Told(
            status,
            read(self.path("out")),
            read(self.path("err")),
            *map(int, read(self.path("told")).split()),
        )

    def ample(self, words, given="nothing"):
        """Runs the program with ample memory, which it has to be content with."""
        found = self.run(words, given)
        if (found.status, found.left) != (0, 0) or found.calls < 1:
            raise AssertionError(
                f"with ample memory {words} ends with "
                f"{found.status, found.out[:200], found.err, found.calls, found.left}"
            )
        return found
