"""The COM bridge, clients/com, as its tests have it: built by mingw-w64, registered under Wine,
before a server behind a socket; and copies of its sources with a planted fault. What is not
installed leaves its tests out, each by its name."""
import atexit
import collections
import concurrent.futures
import contextlib
import fcntl
import functools
import glob
import itertools
import os
import random
import re
import shutil
import signal
import socket
import struct
import subprocess
import tempfile
import termios
import threading
import time
import unittest
import uuid

from tests.support import wire  # which finds the client's module
from tests.support.running import PROGRAM, ROOT, Cases, goes_on, short

oaut = wire.oaut
COM = f"{ROOT}/clients/com"
TESTS = f"{COM}/tests"
# what one step may take, of a processor that many share
TIMEOUT = 2_400
NOT_STARTED = b"Application could not be started"
# what Wine says of itself as it ends a program whose server it has lost
LOST = b"wine client error:"
ASKED = 4  # how often

ITEM = uuid.UUID("11223344-5566-7788-99aa-bbccddeeff03")


def hub_of(first):
    """The class of a library's hub, from the GUID of its first interface."""
    one, two, three, *rest = uuid.UUID(first).fields
    return uuid.UUID(fields=(one ^ 0x6F617574, two ^ 0x6875, three ^ 0x6221, *rest))


HUB = hub_of("11223344-5566-7788-99aa-bbccddeeff02")
TYPES = "11223344-5566-7788-99aa-bbccddeeff01"  # the type library of tests/demo.idl


def left_out(*tools):
    """Leaves a test or a class of them out where a tool is not there."""
    missing = [it for it in tools if not shutil.which(it)]
    return unittest.skipIf(missing, f"{', '.join(missing)} not there")


needs_wine = left_out("x86_64-w64-mingw32-gcc", "wine")
# a Wine of 64 and of 32 bits: Debian's wine32 beside wine64
WINE32 = "/usr/lib/i386-linux-gnu/wine/i386-unix"
WINE64 = "/usr/lib/wine/wine64"
needs_wine32 = unittest.skipUnless(os.path.isdir(WINE32), "wine32 is not there")


def text(path):
    with open(path) as file:
        return file.read()


def write(path, content):
    with open(path, "w", newline="") as file:
        file.write(content)
    return path


def built(words, **how):
    """What a build says, and its status."""
    goes_on()
    done = subprocess.run(
        words, stdout=subprocess.PIPE, stderr=subprocess.STDOUT, timeout=TIMEOUT, **how
    )
    goes_on()
    return done.returncode, done.stdout.decode("utf-8", "replace")


# --- a server behind a socket, for one client after another


def reserved(port=0):
    """A socket with a port of this machine. As long as it is there the system gives the port to
    nobody who names none, and whoever dials it is refused; a server that names the port may
    listen."""
    made = socket.socket()
    made.setsockopt(socket.SOL_SOCKET, socket.SO_REUSEADDR, 1)
    made.bind(("127.0.0.1", port))
    return made


class Server:
    """Accepts on a port of its own and starts the program for each client in turn. Its words may
    change: the next client's program has them. Where records are looked at, they go through this
    process, which keeps the requests' bodies, spoils some replies of a thousand, ends a session
    behind so many requests for types, once, and itself answers a put of a number, where it has
    answers, and a LIST, where it has the bytes of objects."""

    def __init__(self):
        self.words, self.looks, self.spoils, self.requests = None, False, 0, []
        self.types_left, self.is_last = 0, False
        self.answers, self.listed = [], None
        self.chance = random.Random(20261126)
        self.begun = self.client = None
        self.is_noted = threading.Event()
        self.is_noted.set()
        # how the programs ended, and what they said, for a test that fails
        self.statuses, self.said = collections.deque(maxlen=5), tempfile.TemporaryFile()
        self.place = reserved()
        self.port = self.place.getsockname()[1]
        self.listen()

    def listen(self):
        self.listening = reserved(self.port)
        self.listening.listen(8)
        self.thread = threading.Thread(target=self.accept, args=(self.listening,), daemon=True)
        self.thread.start()

    @property
    def child(self):
        """The program of the last client, which it may have served before this process has noted
        it."""
        self.is_noted.wait(TIMEOUT)
        return self.begun

    def begin(self, stdin, stdout):
        """Starts the program for a client."""
        self.is_noted.clear()
        try:
            self.begun = subprocess.Popen(self.words, stdin=stdin, stdout=stdout, stderr=self.said)
        finally:
            self.is_noted.set()
        return self.begun

    def accept(self, listening):
        while True:
            try:
                client, _ = listening.accept()
            except OSError:
                return
            self.client = client
            with client:
                client.setsockopt(socket.IPPROTO_TCP, socket.TCP_NODELAY, 1)
                begun = os.fstat(self.said.fileno()).st_size
                try:
                    if self.looks:
                        self.look(client)
                    else:
                        self.begin(client, client).wait()
                except OSError as error:  # a program that cannot be started is no end of the server
                    self.statuses.append(repr(error))
                else:
                    self.statuses.append(
                        (self.child.returncode, os.pread(self.said.fileno(), 1_000, begun))
                    )

    def look(self, client):
        child = self.begin(subprocess.PIPE, subprocess.PIPE)
        back = threading.Thread(target=self.carry_back, args=(child.stdout, client), daemon=True)
        back.start()
        # a client that resets its connection, or a program that has ended
        with client.makefile("rb") as asked, contextlib.suppress(OSError):
            while (body := record(asked)) is not None:
                self.requests.append(body)
                if self.answers and body[4] == oaut.INVOKE and body[52] & 4:
                    code, index = self.answers[struct.unpack_from("<i", body, 100)[0]]
                    client.sendall(
                        struct.pack("<I", 16) + body[:4] + struct.pack("<III", code, index, 0)
                    )
                    continue
                if self.listed and body[4] == oaut.LIST:
                    client.sendall(
                        struct.pack("<I", 16 + len(self.listed))
                        + body[:4]
                        + struct.pack("<III", 0, 0xFFFFFFFF, 0)
                        + self.listed
                    )
                    continue
                if self.types_left and body[4] == oaut.TYPEINFO:
                    self.types_left -= 1
                    self.is_last = not self.types_left
                child.stdin.write(struct.pack("<I", len(body)) + body)
                child.stdin.flush()
        with contextlib.suppress(OSError):
            child.stdin.close()
        child.wait()
        back.join()
        child.stdout.close()

    def carry_back(self, replies, client):
        try:
            while (body := record(replies)) is not None:
                whole = self.spoiled(struct.pack("<I", len(body)) + body)
                client.sendall(whole, socket.MSG_MORE if self.is_last else 0)
                # it comes with the connection's end, so that the client sees that before it asks
                # again
                if self.is_last:
                    self.is_last = False
                    break
        except OSError:
            pass
        try:
            client.shutdown(socket.SHUT_RDWR)
        except OSError:
            pass

    def spoiled(self, whole):
        if self.chance.randrange(1000) >= self.spoils:
            return whole
        changed = bytearray(whole)
        for _ in range(self.chance.choice((1, 1, 2, 4))):
            # the record's length seldom: what is too long is waited for
            place = self.chance.randrange(4 if self.chance.random() < 0.97 else 0, len(whole))
            changed[place] = self.chance.choice(
                (0, 1, 2, 0x20, 0x7F, 0x80, 0xFF, self.chance.randrange(256))
            )
        return bytes(changed)

    def has_waiting(self):
        """Whether a client is connected whose turn has not come."""
        with open("/proc/net/tcp") as file:
            rows = [it.split() for it in file]
        # (of a socket that listens, what is to be received are connections)
        return any(
            it[1] == f"0100007F:{self.port:04X}" and it[3] == "0A" and int(it[4].split(":")[1], 16)
            for it in rows
        )

    def kill_at_request(self, child, seconds=TIMEOUT / 2):
        """Kills a client's program, which is stopped, once bytes of that client wait unread."""
        until = time.monotonic() + seconds
        with contextlib.suppress(OSError, ValueError):  # a client that is there no more
            while (
                time.monotonic() < until
                and not struct.unpack("i", fcntl.ioctl(self.client, termios.FIONREAD, bytes(4)))[0]
            ):
                time.sleep(0.05)
        child.kill()

    def ends(self, child, seconds=TIMEOUT):
        """Waits until a client's program has ended, since the client has hung up."""
        try:
            child.wait(seconds)
        except subprocess.TimeoutExpired:
            return False
        return True

    def close(self):
        try:
            self.listening.shutdown(socket.SHUT_RDWR)
        except OSError:
            pass
        self.listening.close()
        until = time.monotonic() + TIMEOUT / 10
        while self.thread.is_alive() and time.monotonic() < until:
            if self.child and self.child.poll() is None:
                self.child.kill()
            self.thread.join(0.1)  # (it may have been about to start a program)


def passes(sock, to):
    """Passes bytes on both ways, until one side ends."""

    def one_way(come, go):
        try:
            while some := come.recv(1 << 16):
                go.sendall(some)
        except OSError:
            pass
        for it in (come, go):
            try:
                it.shutdown(socket.SHUT_RDWR)
            except OSError:
                pass

    for pair in ((sock, to), (to, sock)):
        threading.Thread(target=one_way, args=pair, daemon=True).start()


def record(stream):
    """The body of the next record, None at the end."""
    head = stream.read(4)
    if len(head) < 4:
        return None
    body = stream.read(struct.unpack("<I", head)[0])
    return body if len(body) == struct.unpack("<I", head)[0] else None


# --- Wine


class Wine:
    """A folder of Wine's and a Wine server of their own. Windows' programs are those of 64 bits, or
    of 32. A Windows of 32 bits is the architecture win32."""

    def __init__(self, room, bits=64, arch="win64"):
        self.room, self.bits, self.arch = room, bits, arch
        self.env = {
            **os.environ,
            "WINEPREFIX": f"{room}/wine",
            "WINEDEBUG": "-all",
            "WINEARCH": arch,
            "WINEDLLOVERRIDES": "mscoree,mshtml=",
            "LC_ALL": "C.UTF-8",
        }
        self.env.pop("DISPLAY", None)
        os.mkdir(f"{room}/wine")
        quiet = {
            "env": self.env,
            "stdin": subprocess.DEVNULL,
            "stdout": subprocess.DEVNULL,
            "stderr": subprocess.DEVNULL,
        }
        # without one of our own each command waits until Wine's last background process has closed
        # its pipe
        server = next(
            it
            for it in ("/usr/lib/wine/wineserver64", shutil.which("wineserver") or "wineserver")
            if os.path.exists(it) or "/" not in it
        )
        own = os.stat(f"{room}/wine")
        # (Debian's Wine has another folder at each start, which it names in a file of the prefix)
        places = (
            f"/tmp/.wine-{os.getuid()}/server-{own.st_dev:x}-{own.st_ino:x}/socket",
            f"{room}/wine/wineserver",
        )
        before = {it: seen_at(it) for it in places}
        self.server = subprocess.Popen([server, "-f", "-p"], **quiet)
        # (a command that finds none starts one, and that goes by itself)
        until = time.monotonic() + 60
        while (
            all(seen_at(it) in (None, before[it]) for it in places)
            and self.server.poll() is None
            and time.monotonic() < until
        ):
            time.sleep(0.05)
        goes_on()
        for _ in range(ASKED):  # (it may lose its server, too)
            subprocess.run(["wine", "wineboot", "-i"], timeout=TIMEOUT, **quiet)
            goes_on()
            if os.path.exists(f"{room}/wine/drive_c/windows/system32/regsvr32.exe"):
                break
        # (a program with windows starts the desktop, which takes 14 s without a display, and goes
        # soon after the last one of them: this one stays)
        self.desktop = subprocess.Popen(self.words("explorer"), **quiet)

    def words(self, program, *words):
        """A command line. A program of Windows is named without a folder. With wine32 beside it,
        Debian's `wine` starts one of 32 bits, so `wine64` is asked for those of 64."""
        if self.bits == 32 and self.arch == "win64" and re.fullmatch(r"\w+", program):
            program = f"C:\\windows\\syswow64\\{program}.exe"
        return [WINE64 if self.bits == 64 and os.path.isdir(WINE32) else "wine", program, *words]

    def start(self, *words, errors=subprocess.DEVNULL):
        goes_on()
        return subprocess.Popen(
            self.words(*words),
            env=self.env,
            cwd=self.room,
            stdin=subprocess.DEVNULL,
            stdout=subprocess.PIPE,
            stderr=errors,
        )

    def run(self, *words, given=None):
        """The status and the output; where it takes too long, None and what came. On a busy machine
        Wine now and then starts nothing of what is asked: it is asked again, as where Wine lost its
        server before the program said a word."""
        for _ in range(ASKED):
            goes_on()
            try:
                done = subprocess.run(
                    self.words(*words),
                    env=self.env,
                    cwd=self.room,
                    input=given or b"",
                    capture_output=True,
                    timeout=TIMEOUT,
                )
            except subprocess.TimeoutExpired as late:
                return None, plain(late.stdout or b"")
            if not done.stdout.startswith(NOT_STARTED) and (
                done.stdout or done.returncode == 0 or LOST not in done.stderr
            ):
                break
        return done.returncode, plain(done.stdout)

    def said(self, *words):
        """The status, and what comes on standard error, without what Wine itself says there. A
        program of ours that fails says why. One that fails without a word was ended by Wine, which
        now and then loses its server on a busy machine: it is asked again."""
        for _ in range(ASKED):
            goes_on()
            done = subprocess.run(
                self.words(*words),
                env=self.env,
                cwd=self.room,
                stdin=subprocess.DEVNULL,
                capture_output=True,
                timeout=TIMEOUT,
            )
            said = "".join(
                f"{it}\n"
                for it in plain(done.stderr).splitlines()
                if "wine32" not in it and not it.startswith(LOST.decode())
            )
            if not done.stdout.startswith(NOT_STARTED) and (done.returncode == 0 or said):
                break
        return done.returncode, said

    def close(self):
        # by this signal it ends what runs in its folder, too
        self.server.send_signal(signal.SIGINT)
        self.server.wait(TIMEOUT)
        self.desktop.wait(TIMEOUT)


def seen_at(path):
    """Which file is there, or None."""
    with contextlib.suppress(FileNotFoundError):
        it = os.stat(path)
        return it.st_ino, it.st_ctime_ns
    return None


def plain(output):
    return output.decode("utf-8", "replace").replace("\r\n", "\n")


def windows(path):
    return "Z:" + path.replace("/", "\\")


class Bridge:
    """The bridge as it is built and registered, before a server on a store of tests/demo.idl. Both
    are of 64 bits, or of 32."""

    def __init__(self, bits=64):
        self.room, self.bits, self.stores = (
            tempfile.mkdtemp(prefix="oaut-com-"),
            bits,
            itertools.count(1),
        )
        self.wine = self.server = None
        try:
            os.mkdir(f"{self.room}/built")
            tests = [
                "env",
                f"CC={'x86_64' if bits == 64 else 'i686'}-w64-mingw32-gcc",
                f"{TESTS}/build.sh",
                "windows",
                f"{self.room}/built",
            ]
            self.builds = [
                built([f"{COM}/build.sh", f"{self.room}/built", str(bits)]),
                built(tests),
            ]
            self.dll = f"{self.room}/built/oautcom.dll"
            self.library = f"{TESTS}/demo.idl"
            self.server = Server()
            self.new_store()
            self.wine = Wine(self.room, bits)
            if shutil.which("x86_64-w64-mingw32-widl"):
                self.builds.append(self.type_library(self.library, f"{self.room}/built/Demo.tlb"))
            self.registered = self.register("Demo")
        except BaseException:
            self.close()
            raise

    def type_library(self, library, to):
        """Makes one for programs of the bridge's bits: those of 32 bits find none of 64."""
        return built(
            [
                "env",
                f"WIDL={'x86_64' if self.bits == 64 else 'i686'}-w64-mingw32-widl",
                f"{COM}/typelib.sh",
                PROGRAM,
                library,
                to,
            ]
        )

    def new_store(self, library=None):
        """A store of a library, which the next client finds."""
        self.library = library or f"{TESTS}/demo.idl"
        self.store = f"{self.room}/{next(self.stores)}.store"
        subprocess.run(
            [PROGRAM, "format", self.store, self.library],
            check=True,
            stdout=subprocess.DEVNULL,
            timeout=TIMEOUT,
        )
        self.server.words = [PROGRAM, "serve", self.store, self.library]

    def add_item(self, **values):
        """Makes an object in the store, with an array that can be locked."""
        with oaut.serve(self.store, self.library, program=PROGRAM) as session:
            item = session.create("Item")
            for name, value in {"Grid": [1, 2, 3], **values}.items():
                setattr(item, name, value)

    def register(self, name, *more):
        return self.wine.run(
            "regsvr32", "/s", "/n", *more, f"/i:{name}@127.0.0.1:{self.server.port}", self.dll
        )[0]

    def settle(self):
        """Has registered what the bridge itself registers, and nothing that a test has left which
        Wine ended, or which failed."""
        tool = f"{self.room}/built/oautreg.exe"
        lines = self.wine.run(tool, "list")[1].splitlines()
        own = [it for it in lines if it.startswith("Demo.") and "  all users, " in it]
        left = [it for it in lines if it not in own and it != "nothing is registered"]
        if left:
            print(f"an earlier test has left registered: {'; '.join(left)}", flush=True)
            self.wine.run(tool, "remove", "--all")
        if left or not own:
            self.register("Demo")

    def has(self, key):
        return self.wine.run("reg", "query", key)[0] == 0

    def enter(self, lines):
        """Enters lines of a .reg file."""
        file = write(f"{self.room}/some.reg", "REGEDIT4\n\n" + lines)
        return self.wine.run("regedit", "/S", windows(file))[0]

    def set(self, **numbers):
        """Numbers of the class and of the hub, beside what is registered anew."""
        self.register("Demo")
        values = "".join(f'"{name}"=dword:{number:08x}\n' for name, number in numbers.items())
        self.enter(
            "".join(f"[HKEY_CLASSES_ROOT\\CLSID\\{{{it}}}\\Oaut]\n{values}\n" for it in (ITEM, HUB))
        )

    def without_types(self):
        """Takes the type library's file out of the class and of the hub."""
        self.enter(
            "".join(
                f'[HKEY_CLASSES_ROOT\\CLSID\\{{{it}}}\\Oaut]\n"TypeLib"=-\n\n' for it in (ITEM, HUB)
            )
        )

    def script(self, name):
        """A script of the tests, behind what all of them share."""
        shared = text(f"{TESTS}/same.vbs") if name.endswith(".vbs") else ""
        write(f"{self.room}/{name}", shared + text(f"{TESTS}/{name}"))
        return ["cscript", "//nologo", name]

    def close(self):
        if self.server:
            self.server.close()
        if self.wine:
            self.wine.close()
        shutil.rmtree(self.room, ignore_errors=True)


@functools.lru_cache(None)
def bridge(bits=64):
    """One for all parts of a run: to build it takes longer than most of them."""
    made = Bridge(bits)
    atexit.register(made.close)
    return made


def anew():
    """Has a test that runs again find nothing of what ran before: it gets a bridge of its own."""
    bridge.cache_clear()


class Told(Cases):
    def each(self, name, output):
        """The cases that a script or a program of the tests tells, of those that stand in its text.
        Wine's cscript has the status 0 also where a script breaks off, and behind On Error Resume
        Next it says nothing of a line with an error."""
        lines = (output or "").splitlines()
        told = {line[5:] for line in lines if line.startswith("ok   ")}
        for case in {
            *re.findall(
                r'\b(?:Same|Refused|Tells|same|refused)[ (]"([^"]+)"', text(f"{TESTS}/{name}")
            ),
            *told,
        }:
            self.tell(
                f"{name}: {case}",
                case in told,
                [line for line in lines if line.startswith(f"BAD  {case}")],
            )
        for line in lines:
            if line.startswith("BAD  "):
                self.tell(f"{name}: {line[5:]}", False, line)
        self.tell(f"{name}: to its end", lines[-1:] == ["end"], short("\n".join(lines[-6:])))

    def bad(self, output):
        """How many cases of an output failed, and one more where it did not come to its end."""
        lines = (output or "").splitlines()
        return sum(it.startswith("BAD") for it in lines) + (lines[-1:] != ["end"])


class UnderWine(Told):
    bits = 64

    @classmethod
    def setUpClass(cls):
        # (its Wine has ended, so nothing would be started any more)
        if bridge(cls.bits).wine.server.poll() is not None:
            anew()
        cls.bridge = bridge(cls.bits)
        cls.bridge.settle()
        cls.wine, cls.server = cls.bridge.wine, cls.bridge.server

    def same(self, what, got, wanted):
        self.tell(what, got == wanted, f"wanted {wanted!r}, got {got!r}")

    def runs(self, script, *words):
        self.each(script, self.wine.run(*self.bridge.script(script), *words)[1])

    def speaks(self, *words):
        """A process of Windows, and its first line. On a busy machine Wine now and then starts
        nothing of what is asked, or loses its server before the first word: it is asked again."""
        for left in reversed(range(ASKED)):
            process = self.wine.start(*words)
            told = process.stdout.readline()
            if (told and not told.startswith(NOT_STARTED)) or not left:
                return process, told
            process.communicate(timeout=TIMEOUT)

    def held(self, script, *words):
        """A script that waits for a file, up to its line "ready": the process, the file, what it
        has told."""
        return self.ready(lambda go: [*self.bridge.script(script), go, *words])

    def held_program(self, program, *words):
        """The same of a program of the tests."""
        return self.ready(lambda go: [f"{self.bridge.room}/built/{program}", *words, go])

    def ready(self, words):
        """What is held, once it has told that it is ready: words with the name of the file."""
        go = tempfile.mktemp(dir=self.bridge.room)
        process, told = self.speaks(*words(windows(go)))
        while b"ready" not in told and (line := process.stdout.readline()):
            told += line
        return process, go, told

    def finish(self, held):
        """Lets it go on, and gives all that it tells."""
        process, go, told = held
        if process.poll() is None:
            write(go, "")
        try:
            told += process.communicate(timeout=TIMEOUT)[0]
        except subprocess.TimeoutExpired:
            process.kill()
            told += process.communicate()[0]
        return plain(told)

    def types(self):
        """What a script tells whose server ends while it tells its types."""
        self.server.looks, self.server.types_left = True, 1
        try:
            return self.wine.run(*self.bridge.script("types.vbs"))[1]
        finally:
            self.server.looks = False

    def started(self, seconds=4):
        """What a client tells that ends before the process that it has started, and whether its
        connection ends with it. That process goes on until the file is there, so that a connection
        which it has is there as long."""
        go = tempfile.mktemp(dir=self.bridge.room)
        client, told = self.speaks(f"{self.bridge.room}/built/client.exe", "starts", windows(go))
        while b"end" not in told and (line := client.stdout.readline()):
            told += line
        ended = self.server.ends(self.server.child, seconds)
        write(go, "")
        told += client.communicate(timeout=TIMEOUT)[0]
        return f"{'ok   ' if ended else 'BAD  '}its server ends\n{plain(told)}"

    def lost(self):
        """What a script tells whose server is killed while it has a put: once that waits unread in
        front of it."""
        held = self.held("lost.vbs")
        child = self.server.child
        child.send_signal(signal.SIGSTOP)
        threading.Thread(target=self.server.kill_at_request, args=(child,), daemon=True).start()
        return self.finish(held)


# --- faults that are planted


def planted(room, file, edits):
    """A copy of the sources with an edit."""
    shutil.copytree(COM, f"{room}/com")
    path = f"{room}/com/{file}"
    source = text(path)
    for old, new in edits:
        if source.count(old) != 1:
            raise AssertionError(f"{file} does not have once: {old}")
        source = source.replace(old, new)
    write(path, source)
    return f"{room}/com"


def all_planted(faults, build, *words):
    """Of each fault a folder with what is built of it, and what the build said; they are built at
    once. Of the DLL only the edited source is compiled for each."""
    rooms = {name: tempfile.TemporaryDirectory() for name in faults}

    def one(name):
        room, (file, edits) = rooms[name], faults[name][:2]
        objects = f"{room.name}/objects"
        os.mkdir(objects)
        for it in glob.glob(f"{shared}/*.o"):
            if not it.endswith(f"-{file.removesuffix('.c')}.o"):
                shutil.copy(it, objects)
        return room, built(
            [f"{planted(room.name, file, edits)}/{build}", *words, room.name],
            env={**os.environ, "CFLAGS": "-O0", "OBJECTS": objects},
        )

    with tempfile.TemporaryDirectory() as shared, concurrent.futures.ThreadPoolExecutor(
        os.cpu_count()
    ) as pool:
        if build == "build.sh":
            built(
                [f"{COM}/build.sh", shared], env={**os.environ, "CFLAGS": "-O0 -w -save-temps=obj"}
            )
        return dict(zip(rooms, pool.map(one, rooms)))


def is_placed(file, edits):
    """Whether each text that a fault takes the place of stands once in its file."""
    source = text(f"{COM}/{file}")
    return all(source.count(old) == 1 and old != new for old, new in edits)
