"""What the cases share: the program, how it is run, and how its answers are compared.

The program is the one that the environment variable OAUT_PROGRAM names, as `tools/cases.py
--program PATH` sets it; where there is none, crates/oaut/out/oaut, as `rt ci` leaves it.
"""
import ctypes
import errno
import os
import resource
import select
import signal
import subprocess
import sys
import tempfile
import time
import unittest

TESTS = os.path.dirname(os.path.dirname(os.path.abspath(__file__)))
TABLES = f"{TESTS}/tables"
ROOT = os.path.dirname(TESTS)
PROGRAM = os.path.abspath(os.environ.get("OAUT_PROGRAM") or f"{ROOT}/crates/oaut/out/oaut")
# the name that it is called by, which its usage tells
CALLED = os.path.basename(PROGRAM).encode()


def text_of(name):
    with open(f"{ROOT}/examples/{name}", "rb") as file:
        return file.read()


def rows_of(name):
    """The rows of a table that stands in the folder of tables, in a file of lines: those that begin
    with a `#` say what the rows are."""
    with open(f"{TABLES}/{name}") as file:
        return [line.rstrip("\n") for line in file if not line.startswith("#")]


SMALL, FULL, ARRAYS = text_of("small.idl"), text_of("full.idl"), text_of("arrays.idl")
SMALL_TEXT, FULL_TEXT = text_of("small.canonical.idl"), text_of("full.canonical.idl")
REQUESTS = text_of("first.hex")
REPLIES = text_of("first.out")
CREATE = REQUESTS.splitlines()[0]
CREATED = REPLIES.splitlines()[0]

# seconds that a run may take, on a machine with other work: it is there for one that hangs
TIMEOUT = 400


def goes_on():
    """Says that a test has got something done: tools/cases.py, which ends all where nothing happens
    for long, waits as long again."""
    watch = getattr(sys.modules["__main__"], "watch", None)
    if watch:
        watch()


PIECE = 1 << 18
ZEROS = bytes(PIECE)


def zeros_at(content, at, end):
    """Whether these bytes have zeros alone from one place to another."""
    return all(content.startswith(ZEROS[: end - place], place) for place in range(at, end, PIECE))


def fill(room, files):
    """Writes files into a folder. Where a piece of a file has zeros alone it is left out, so that a
    store takes no more room than what it holds."""
    for name, content in files.items():
        with open(f"{room}/{name}", "wb") as file:
            for at in range(0, len(content), PIECE):
                end = min(at + PIECE, len(content))
                if not zeros_at(content, at, end):
                    file.seek(at)
                    file.write(content[at:end])
            file.truncate(len(content))


def has_bytes(path, content):
    """Whether a file holds these bytes. What takes no room on its device is zeros, and is not
    read."""
    with open(path, "rb") as file:
        number, at = file.fileno(), 0
        end = os.fstat(number).st_size
        if end != len(content):
            return False
        while at < end:
            try:
                start = os.lseek(number, at, os.SEEK_DATA)
            except OSError:  # there is no more data
                start = end
            hole = os.lseek(number, start, os.SEEK_HOLE) if start < end else end
            if not zeros_at(content, at, start) or not content.startswith(
                os.pread(number, hole - start, start), start
            ):
                return False
            at = hole
    return True


def run_in(room, words, given=b"", stdin=None, stdout=None, before=None, under=()):
    """Runs the program in a folder, after a call in its process, and returns its status and what it
    wrote. `under` are the words of what it runs under."""
    source = {"input": given} if stdin is None else {"stdin": stdin}
    try:
        done = subprocess.run(
            [*under, PROGRAM, *words],
            cwd=room,
            stdout=stdout or subprocess.PIPE,
            stderr=subprocess.PIPE,
            preexec_fn=before,
            timeout=TIMEOUT,
            **source,
        )
    except subprocess.TimeoutExpired as late:
        return None, late.stdout, late.stderr
    return done.returncode, done.stdout, done.stderr


def run(words, given=b"", files=None, **how):
    """The same in a new folder that holds the files."""
    with tempfile.TemporaryDirectory() as room:
        fill(room, files or {})
        return run_in(room, words, given, **how)


def within(bytes):
    """What limits the memory of the program, as a call in its process."""
    return lambda: resource.setrlimit(resource.RLIMIT_AS, (bytes, bytes))


LIBC = ctypes.CDLL(None)


def like_others():
    """Takes from the superuser, as a call in the program's process, what lets it open files that
    their rights do not allow."""
    for capability in (1, 2):  # CAP_DAC_OVERRIDE, CAP_DAC_READ_SEARCH
        LIBC.prctl(24, capability, 0, 0, 0)  # PR_CAPBSET_DROP


def files_of(length):
    """What limits the length of the program's files, as a call in its process."""

    def limit():
        resource.setrlimit(resource.RLIMIT_FSIZE, (length, length))
        # (Python ignores it, and so would the program)
        signal.signal(signal.SIGXFSZ, signal.SIG_DFL)

    return limit


class Talk:
    """A session over pipes, in a new folder where none is given: what is sent is sent at once, and
    what is waited for is waited for no longer than the time."""

    def __init__(
        self,
        library,
        words=("--hex",),
        stdout=subprocess.PIPE,
        room=None,
        command=("play",),
        under=(),
    ):
        self.own = tempfile.TemporaryDirectory() if room is None else None
        room = room or self.own.name
        fill(room, {"lib.idl": library})
        self.process = subprocess.Popen(
            [*under, PROGRAM, *command, "lib.idl", *words],
            cwd=room,
            stdin=subprocess.PIPE,
            stdout=stdout,
            stderr=subprocess.PIPE,
            bufsize=0,
        )

    def __enter__(self):
        return self

    def __exit__(self, *_):
        if self.process.poll() is None:
            self.process.kill()
        for pipe in (self.process.stdin, self.process.stdout, self.process.stderr):
            if pipe:
                pipe.close()
        self.process.wait()
        if self.own:
            self.own.cleanup()

    def send(self, some):
        try:
            self.process.stdin.write(some)
        except BrokenPipeError:
            pass  # what it says at its end tells why

    def line(self, pipe=None):
        """The next line of its output, or what came of it in time."""
        return self.read(pipe or self.process.stdout, lambda got: not got.endswith(b"\n"))

    def bytes(self, count):
        """So many bytes of its output, or what came of them in time."""
        return self.read(self.process.stdout, lambda got: len(got) < count)

    def read(self, pipe, goes_on):
        got, until = b"", time.monotonic() + TIMEOUT
        while goes_on(got) and select.select([pipe], [], [], max(0, until - time.monotonic()))[0]:
            sign = os.read(pipe.fileno(), 1)
            if not sign:
                break
            got += sign
        return got

    def peak(self):
        """The most memory that the session has had so far, in KiB."""
        with open(f"/proc/{self.process.pid}/status", encoding="ascii") as file:
            return next(int(line.split()[1]) for line in file if line.startswith("VmHWM:"))

    def status(self):
        try:
            return self.process.wait(TIMEOUT)
        except subprocess.TimeoutExpired:
            return None


def fault(text):
    """The line of a fault."""
    return b"oaut: %s\n" % text.encode()


def cannot(act, name, why):
    """The lines of a file that cannot be read or written: the second one has the system's words for
    its error, such as ENOENT, or those that are given."""
    return fault(
        f"cannot {act} {name}\n{name}: "
        f"{os.strerror(getattr(errno, why)) if hasattr(errno, why) else why}"
    )


def short(it):
    return (
        it
        if it is None or len(it) <= 420
        else it[:300] + (" .. " if isinstance(it, str) else b" .. ") + it[-100:]
    )


def told(wanted, got):
    """What is said of a status, an output and a fault that are others."""
    return (
        f"wanted {wanted[0], short(wanted[1]), wanted[2]}, got "
        f"{got[0], short(got[1]), short(got[2])}"
    )


class Cases(unittest.TestCase):
    """A test has any number of cases: each is counted, and told by its name where it fails, and the
    others go on."""

    def tell(self, name, well, what=""):
        """A case: whether it is well, and what is said of it otherwise."""
        with self.subTest(name):
            if not well:
                raise self.failureException(what)

    def case(self, name, words, status, out, err, **how):
        """A run of the program in a new folder."""
        got = run(words, **how)
        self.tell(name, got == (status, out, err), told((status, out, err), got))

    def leaves(self, name, words, status, out, err, files, left, **how):
        """A command in a folder of these files, and what each of some files holds behind it, None
        where it is not there."""
        with tempfile.TemporaryDirectory() as room:
            fill(room, files)
            got = run_in(room, words, **how)
            self.tell(name, got == (status, out, err), told((status, out, err), got))
            for file, wanted in left.items():
                path = f"{room}/{file}"
                well = (
                    has_bytes(path, wanted)
                    if wanted is not None and os.path.exists(path)
                    else wanted is None and not os.path.exists(path)
                )
                self.tell(
                    f"{name}: what {file} holds",
                    well,
                    f"{os.path.getsize(path)} bytes" if os.path.exists(path) else "it is not there",
                )

    def checked(self, name, library, status, out, err, **how):
        """What `oaut check` makes of a library."""
        self.case(
            f"check: {name}",
            ["check", "lib.idl"],
            status,
            out,
            err,
            files={"lib.idl": library},
            **how,
        )
