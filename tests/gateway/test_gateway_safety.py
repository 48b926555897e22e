"""The gateway and what is not its own: files at the paths that it is given, stores, processes that
hang, system calls that fail (docs/operations/gateway.md)."""
import contextlib
import fcntl
import os
import signal
import socket
import struct
import subprocess
import tempfile
import time
import unittest

from tests.gateway.gateways import (
    SECONDS,
    Gateway,
    arrived,
    built,
    hear,
    left_out,
    library,
    record,
    rest,
)
from tests.support import wire
from tests.support.codes import BAD_STUB
from tests.support.preloaded import COMPILER
from tests.support.running import CREATE, CREATED, PROGRAM, Cases, run_in
from tests.support.tries import least
from tests.support.wire import oaut

needs_cc = unittest.skipUnless(COMPILER, "cc is not there")


STUB = struct.pack("<IIII", 0, BAD_STUB, oaut.NO_INDEX, 0)
# a request of an opcode that there is none of, and its reply
NONE = struct.pack("<IHH", 77, 99, 0)
NO_REQUEST = struct.pack("<IIII", 77, BAD_STUB, oaut.NO_INDEX, 0)


def sanitized_well(said):
    return "Sanitizer" not in said and "runtime error" not in said


def stale_socket(path):
    """A socket that nobody listens on, as a killed process leaves it."""
    with socket.socket(socket.AF_UNIX) as sock:
        sock.bind(path)


def kind_of(path):
    """What stands at a path, to be compared: its inode, its kind and its bytes or its target."""
    found = os.lstat(path)
    content = b""
    if os.path.islink(path):
        content = os.readlink(path)
    elif os.path.isfile(path):
        with open(path, "rb") as file:
            content = file.read(1000)
    return found.st_ino, found.st_mode, content


def ends_itself(gateway):
    """Its status and what it said, where it ends without a signal; else the status is none, and it
    is killed."""
    try:
        gateway.process.wait(SECONDS)
    except subprocess.TimeoutExpired:
        return None, gateway.end(signal.SIGKILL)[1]
    return gateway.end(None)


@needs_cc
class Names(Cases):
    """A name of a socket that another file has."""

    def ended(self, name, gateway, status, says):
        found, said = ends_itself(gateway)
        self.tell(
            name,
            found == status and says in said and said.count("\n") == 1 and sanitized_well(said),
            f"wanted {status}, got {found}: {said}",
        )

    def test_what_is_no_socket_is_left_alone(self):
        def file(path):
            with open(path, "w") as it:
                it.write("a thesis")

        def link_to_file(path):
            file(f"{path}.target")
            os.symlink(f"{path}.target", path)

        def link_to_stale(path):
            stale_socket(f"{path}.target")
            os.symlink(f"{path}.target", path)

        made = [
            ("a file", file),
            ("an empty file", lambda path: open(path, "w").close()),
            ("a folder", os.mkdir),
            ("a pipe", os.mkfifo),
            ("a link to a file", link_to_file),
            ("a link to a socket that nobody listens on", link_to_stale),
            ("a link to nothing", lambda path: os.symlink("nothing", path)),
        ]
        for at, (what, make) in enumerate(made):
            for option in (
                ("listen", "control")
                if at
                else ("listen", "listen-hex", "alone", "control", "metrics")
            ):
                with Gateway(
                    sockets=("listen",) if option != "listen" else (), starts=False
                ) as gateway:
                    path = f"{gateway.room}/it"
                    make(path)
                    before = kind_of(path)
                    targets = {
                        it: kind_of(f"{gateway.room}/{it}")
                        for it in os.listdir(gateway.room)
                        if it.endswith(".target")
                    }
                    gateway.words[-1:-1] = [f"--{option}", path]
                    gateway.start(waits=False)
                    self.ended(
                        f"{what} at --{option}",
                        gateway,
                        2,
                        f"cannot listen on {path}: a file that is not a socket",
                    )
                    self.tell(f"{what} at --{option} is left alone", kind_of(path) == before)
                    after = {
                        it: kind_of(f"{gateway.room}/{it}")
                        for it in os.listdir(gateway.room)
                        if it.endswith(".target")
                    }
                    self.tell("and so is what it leads to", targets == after, after)

    def test_the_store_is_no_socket(self):
        with Gateway(sockets=(), starts=False) as gateway:
            before = os.lstat(gateway.store)
            gateway.words[-1:-1] = ["--listen", gateway.store]
            gateway.start(waits=False)
            self.ended("the store itself", gateway, 2, "a file that is not a socket")
            after = os.lstat(gateway.store)
            self.tell(
                "is left alone",
                (before.st_ino, before.st_size, before.st_mtime_ns)
                == (after.st_ino, after.st_size, after.st_mtime_ns),
            )

    def test_a_socket_that_was_left_is_replaced(self):
        with Gateway("--mode", "0666", starts=False) as gateway:
            for name in Gateway.OPTIONS:
                stale_socket(f"{gateway.room}/{name}")
            gateway.start()
            for name in Gateway.OPTIONS:
                found = os.lstat(f"{gateway.room}/{name}").st_mode & 0o777
                self.tell(
                    f"the rights of {name}",
                    found == (0o600 if name == "control" else 0o666),
                    oct(found),
                )
                with gateway.dial(name):
                    self.tell(f"{name} is listened on", True)
            self.tell(
                "no other name is left",
                sorted(os.listdir(gateway.room)) == sorted([*Gateway.OPTIONS, "it.store", "said"]),
                os.listdir(gateway.room),
            )
            status, said = gateway.end()
            self.tell("its end", status == 0 and sanitized_well(said), said)
            self.tell(
                "its sockets are removed",
                sorted(os.listdir(gateway.room)) == ["it.store", "said"],
                os.listdir(gateway.room),
            )

    def test_a_long_path(self):
        """As long as the name of a socket may be: a longer one beside it does not fit."""
        with tempfile.TemporaryDirectory(dir="/tmp") as room:
            path = f"{room}/{'x' * (107 - len(room) - 1)}"
            with Gateway("--listen", path) as gateway, socket.socket(socket.AF_UNIX) as sock:
                sock.connect(path)
                self.tell(
                    "no other name is left",
                    os.listdir(room) == [os.path.basename(path)],
                    os.listdir(room),
                )
                self.tell("its end", gateway.end()[0] == 0)
                self.tell("it is removed", not os.listdir(room), os.listdir(room))

    def test_a_socket_that_is_listened_on(self):
        """Also by a process that accepts no more: that is told without a wait."""
        for what, backlog in (
            ("with room for connections", 5),
            ("without room for connections", 0),
        ):
            with Gateway(sockets=("listen",), starts=False) as gateway, socket.socket(
                socket.AF_UNIX
            ) as other, contextlib.ExitStack() as stack:
                path = f"{gateway.room}/control"
                other.bind(path)
                other.listen(backlog)
                for _ in range(2 if not backlog else 0):
                    sock = stack.enter_context(socket.socket(socket.AF_UNIX))
                    sock.setblocking(False)
                    with contextlib.suppress(BlockingIOError):
                        sock.connect(path)
                before = kind_of(path)
                gateway.words[-1:-1] = ["--control", path]
                gateway.start(waits=False)
                self.ended(
                    f"a socket that is listened on, {what}",
                    gateway,
                    1,
                    f"cannot listen on {path}: another process listens on it",
                )
                self.tell(f"is left alone, {what}", kind_of(path) == before)

    def test_what_got_a_name_later_stays(self):
        """At its end the gateway removes what it made, and not what has the name by then."""
        with Gateway() as gateway:
            path = f"{gateway.room}/control"
            os.unlink(path)
            with open(path, "w") as file:
                file.write("a thesis")
            other = f"{gateway.room}/listen"
            os.unlink(other)
            stale_socket(other)
            before = kind_of(path), kind_of(other)
            status, said = gateway.end()
            self.tell("its end", status == 0 and sanitized_well(said), said)
            self.tell(
                "files that got the names of its sockets stay",
                (kind_of(path), kind_of(other)) == before,
            )


# a file gets the name of a socket in the moment in which that is to be removed: it was looked at
# already
SWAPPED = r"""
#define _GNU_SOURCE
#include <dlfcn.h>
#include <fcntl.h>
#include <stdlib.h>
#include <string.h>
#include <unistd.h>
int renameat(int folder, const char *from, int other, const char *to) {
    static int done;
    if (!done && !strcmp(from, getenv("SWAPPED"))) {
        done = !unlinkat(folder, from, 0);
        int file = openat(folder, from, O_CREAT | O_EXCL | O_WRONLY, 0600);
        done = done && write(file, "a thesis", 8) == 8 && !close(file);
    }
    int (*known)(int, const char *, int, const char *) = dlsym(RTLD_NEXT, "renameat");
    return known(folder, from, other, to);
}
"""


@needs_cc
class Moments(Cases):
    """A name that another file gets between two calls."""

    def swapped(self, act):
        """A gateway whose control socket is replaced as it is to be removed. What it did: its
        status and what it said."""
        with Gateway(
            starts=False, flags="-O1", SWAPPED="control", LD_PRELOAD=library("swapped", SWAPPED)[0]
        ) as gateway:
            status, said = act(gateway)
            with open(f"{gateway.room}/control") as file:
                self.tell("the file has its name", file.read() == "a thesis")
            left = {*os.listdir(gateway.room)} - {"it.store", "said", "control"}
            self.tell("no other name is left", not left, left)
        return status, said

    def test_at_the_start(self):
        def starts(gateway):
            stale_socket(f"{gateway.room}/control")
            gateway.start(waits=False)
            return ends_itself(gateway)

        status, said = self.swapped(starts)
        self.tell(
            "it says so", status == 1 and "the old socket cannot be removed" in said, (status, said)
        )

    def test_at_the_end(self):
        status, said = self.swapped(lambda gateway: gateway.start().end())
        self.tell("its end", (status, said) == (0, ""), (status, said))


# a device whose syncs fail as soon as a file is there
FAILS_IF = r"""
#define _GNU_SOURCE
#include <dlfcn.h>
#include <errno.h>
#include <stdlib.h>
#include <unistd.h>
int fdatasync(int fd) {
    if (!access(getenv("FAILS_IF"), F_OK)) { errno = EIO; return -1; }
    return ((int (*)(int))dlsym(RTLD_NEXT, "fdatasync"))(fd);
}
"""


@needs_cc
class Devices(Cases):
    def test_a_fault_that_nobody_hears_of(self):
        """STG_E_WRITEFAULT is for a client that has gone by then: the gateway ends all the same."""
        with tempfile.TemporaryDirectory() as room:
            program = f"{room}/program"
            with open(program, "w") as file:
                file.write(
                    '#!/bin/sh\n[ "$1" != serve ] || export '
                    f'LD_PRELOAD="{library("fails_if", FAILS_IF)[0]}"\nexec "{PROGRAM}" "$@"\n'
                )
            os.chmod(program, 0o755)
            with Gateway(program=program, FAILS_IF=f"{room}/fails") as gateway:
                with gateway.session() as server:
                    number = server.create("Item").number
                put = struct.pack("<I", 1) + oaut.ask_invoke(
                    number, 1, oaut.PROPERTYPUT, [oaut.NEW_VALUE], [wire.scalar(wire.I4, 7)]
                )
                process = Gateway.wait_for(gateway.server, "there is no server")
                with gateway.dial() as sock:
                    sock.sendall(record(NONE) * 2)
                    self.tell("it is served", hear(sock, 20) == record(NO_REQUEST))
                    # the other reply comes, and is never read: so the end of the connection is a
                    # reset
                    Gateway.wait_for(lambda: arrived(sock) == 20, "the other reply does not come")
                    os.kill(process, signal.SIGSTOP)
                    open(f"{room}/fails", "w").close()
                    before = gateway.counters()["oaut_gateway_requests_total"]
                    sock.sendall(record(put))
                    Gateway.wait_for(
                        lambda: gateway.counters()["oaut_gateway_requests_total"] > before,
                        "the put is not with the server",
                    )
                Gateway.wait_for(
                    lambda: gateway.counters()["oaut_gateway_clients"] == 0, "it has not gone"
                )
                os.kill(process, signal.SIGCONT)
                status, said = ends_itself(gateway)
                well = status == 3 and "STG_E_WRITEFAULT" in said and sanitized_well(said)
                self.tell("a fault that was told to nobody ends it", well, (status, said))


def backup(gateway, file):
    done = subprocess.run(
        [gateway.binary, "backup", f"{gateway.room}/control", file],
        capture_output=True,
        text=True,
        timeout=SECONDS,
    )
    return done.returncode, done.stdout, done.stderr


@needs_cc
class Backups(Cases):
    def refuses(self, gateway, what, path, says):
        before = kind_of(path.rstrip("/"))
        status, out, err = backup(gateway, path)
        well = (
            (status, out) == (1, "")
            and err.startswith(f"oaut-gateway: cannot write {path}: ")
            and says in err
            and err.count("\n") == 1
        )
        self.tell(what, well, (status, out, err))
        self.tell(f"{what} is left alone", kind_of(path.rstrip("/")) == before)

    def test_where_a_copy_is_refused(self):
        """The store that is served, by whatever name, and what is no file of this user."""
        with Gateway() as gateway, Gateway() as other:
            with gateway.session() as server:
                item = server.create("Item")
                item.Count = 1
            room = gateway.room
            os.link(gateway.store, f"{room}/hard")
            os.symlink(gateway.store, f"{room}/soft")
            os.symlink("nothing", f"{room}/dangling")
            os.mkfifo(f"{room}/pipe")
            os.mkdir(f"{room}/folder")
            rows = [
                ("the store", gateway.store, "it is the store itself"),
                ("the store by another name", f"{room}/hard", "it is the store itself"),
                (
                    "the store by a path in many words",
                    f"{room}/folder/.././it.store",
                    "it is the store itself",
                ),
                ("a link to the store", f"{room}/soft", "not a regular file"),
                ("a link to nothing", f"{room}/dangling", "not a regular file"),
                ("a pipe", f"{room}/pipe", "not a regular file"),
                ("a folder", f"{room}/folder", "not a regular file"),
                ("a folder by a slash", f"{room}/folder/", "Is a directory"),
                ("a socket", f"{room}/listen", "not a regular file"),
                ("a store that another gateway serves", other.store, "in use by another process"),
            ]
            for what, path, says in rows:
                self.refuses(gateway, what, path, says)
            names = {
                "hard",
                "soft",
                "dangling",
                "pipe",
                "folder",
                "it.store",
                "said",
                *Gateway.OPTIONS,
            }
            self.tell(
                "no other name is left",
                set(os.listdir(room)) - {"theirs"} == names,
                os.listdir(room),
            )
            with gateway.session() as server:
                server.object(item.number, "Item").Count = 2
            self.tell("the other one's end", other.end()[0] == 0)
            status, said = gateway.end()
            self.tell("its end", status == 0 and sanitized_well(said), said)
            gateway.start()
            with gateway.session() as server:
                self.tell(
                    "what was acknowledged behind it is kept",
                    server.object(item.number, "Item").Count == 2,
                )
            self.tell("its second end", gateway.end()[0] == 0)

    def test_a_copy_over_another_users_file(self):
        if os.geteuid():
            self.skipTest("not the superuser")
        with Gateway() as gateway:
            room = gateway.room
            with open(f"{room}/theirs", "w") as file:
                file.write("a thesis")
            os.chown(f"{room}/theirs", 1234, 1234)
            says = "the file belongs to another user"
            self.refuses(gateway, "another user's file", f"{room}/theirs", says)

    def test_two_at_once(self):
        """To one file: each that says that it has made a copy has made a whole one."""
        with Gateway() as gateway:
            with gateway.session() as server:
                item = server.create("Item")
                item.Name = "x" * 500_000
            with open(gateway.store, "rb") as file:
                size = os.fstat(file.fileno()).st_size
            path, words = f"{gateway.room}/copy", [
                gateway.binary,
                "backup",
                f"{gateway.room}/control",
                f"{gateway.room}/copy",
            ]
            made = 0
            for turn in range(12):
                first = subprocess.Popen(
                    words, stdout=subprocess.PIPE, stderr=subprocess.PIPE, text=True
                )
                time.sleep(0.02 * (turn % 6))
                second = subprocess.Popen(
                    words, stdout=subprocess.PIPE, stderr=subprocess.PIPE, text=True
                )
                for it in (first, second):
                    out, err = it.communicate(timeout=SECONDS)
                    made += it.returncode == 0
                    well = (
                        (it.returncode, err) == (0, "")
                        and "held for" in out
                        or it.returncode == 1
                        and "another backup is being made" in err
                    )
                    self.tell(f"it is made, or refused, {turn}", well, (it.returncode, out, err))
                status, dumped, err = run_in(gateway.room, ["dump", "copy"])
                whole = status == 0 and os.path.getsize(path) == size and b"7800" * 1000 in dumped
                self.tell(
                    f"a copy is whole, {turn}", whole, (status, os.path.getsize(path), err[-200:])
                )
                left = {it for it in os.listdir(gateway.room) if it.startswith("copy")}
                self.tell(f"no other name is left, {turn}", left == {"copy"}, left)
            self.tell("most were made", made >= 12, made)
            with gateway.dial("control") as sock:
                sock.sendall(b"track\n")
                self.tell("a backup that is being made", hear(sock, 9) == b"tracking ")
                status, out, err = backup(gateway, f"{gateway.room}/other")
                self.tell(
                    "another one is refused",
                    (status, out, err) == (1, "", "oaut-gateway: another backup is being made\n"),
                    (status, out, err),
                )
            Gateway.wait_for(
                lambda: backup(gateway, f"{gateway.room}/other")[0] == 0,
                "no backup is made behind it",
            )
            self.tell("its end", gateway.end()[0] == 0)

    def checkpoints_in_a_batch(self, text, count, requests):
        """What a backup hears as it asks for its hold, where it is tracked and these requests come
        to so many objects meanwhile. They take the store to its other bank and back."""
        with tempfile.TemporaryDirectory() as room:
            with open(f"{room}/lib.idl", "w") as file:
                file.write(text)
            with Gateway(library=f"{room}/lib.idl", room=room) as gateway:
                with gateway.session() as server:
                    for _ in range(count):
                        server.create("Item")
                with gateway.dial("control") as control, gateway.dial() as client, open(
                    gateway.store, "rb"
                ) as file:
                    control.sendall(b"track\n")
                    self.tell("it is tracked", hear(control, 9) == b"tracking ")
                    while not control.recv(100).endswith(b"\n"):
                        pass
                    client.sendall(b"".join(map(record, requests)))
                    replies = hear(client, 20 * len(requests))
                    codes = {
                        struct.unpack_from("<I", replies, at + 8)[0]
                        for at in range(0, len(replies), 20)
                    }
                    self.tell("each request is answered by S_OK", codes == {0}, codes)
                    found = [os.pread(file.fileno(), 8, at) for at in (4_096, 8_192, 16_785_408)]
                    there = found[0][:1] == b"\0" and found[1:] == [b"OAUTBK02"] * 2
                    self.tell("the first bank counts again", there, found)
                    control.sendall(b"hold\n")
                    said = hear(control, 5)
                    self.tell("the backup hears that another bank counted", said == b"moved", said)
                self.tell("its end", gateway.end()[0] == 0)

    def test_long_defaults(self):
        """Puts of few bytes, whose argument is left out and has a long default."""
        text = LONG_DEFAULT.replace("%s", "a" * 130_000)
        put = oaut.records.ask_invoke(1, 1, 4, [-3], [oaut.wire.scalar_field(3, 7)])
        self.checkpoints_in_a_batch(text, 1, [struct.pack("<I", tag) + put for tag in range(140)])

    def test_large_arrays(self):
        """REDIMs of few bytes, each of which makes an array that was never put."""
        redim = lambda number: oaut.records.ask_call(
            7, number, 1, 0, [], [oaut.wire.scalar_field(3, 5)]
        ) + struct.pack("<Ii", 65_536, 0)
        requests = [
            it
            for number in range(1, 67)
            for it in (redim(number), oaut.records.ask_release(number))
        ]
        self.checkpoints_in_a_batch(
            ARRAYS, 66, [struct.pack("<I", tag) + it for tag, it in enumerate(requests)]
        )


# a library with a property of one parameter
ONE = """\
[uuid(11223344-5566-7788-99AA-BBCCDDEEFF01)] library Demo {
  [uuid(11223344-5566-7788-99AA-BBCCDDEEFF02)] dispinterface DItem {
    properties:
    methods:
      [id(1), propget] %s Cell(%s);
      [id(1), propput] void Cell(%s, [in] %s Value);
  }
  [uuid(11223344-5566-7788-99AA-BBCCDDEEFF03)] coclass Item { [default] dispinterface DItem; }
}
"""
KEY = '[in, optional, defaultvalue("%s")] BSTR Key'
LONG_DEFAULT = ONE % ("long", KEY, KEY, "long")
ARRAYS = ONE % ("SAFEARRAY(hyper)", "[in] long Key", "[in] long Key", "SAFEARRAY(hyper)")


# a clock that stood at 0 as the process began, as it does within the first minute behind a boot
BOOTED = r"""
#define _GNU_SOURCE
#include <dlfcn.h>
#include <time.h>
int clock_gettime(clockid_t clock, struct timespec *it) {
    static struct timespec first;
    int (*known)(clockid_t, struct timespec *) = dlsym(RTLD_NEXT, "clock_gettime");
    int done = known(clock, it);
    if (clock != CLOCK_MONOTONIC) return done;
    if (!first.tv_sec) first = *it;
    it->tv_sec -= first.tv_sec - 1;
    return done;
}
"""


def unsanitized(*words, **how):
    """A gateway that a library is preloaded to, or that is traced."""
    return Gateway(*words, starts=False, flags="-O1", **how)


def served(gateway):
    return gateway.ask(record(NONE)) == record(NO_REQUEST)


@needs_cc
class Ends(Cases):
    def test_the_first_minute_of_a_machine(self):
        with unsanitized(LD_PRELOAD=library("booted", BOOTED)[0]) as gateway:
            gateway.start()
            for turn in range(3):
                self.tell(f"it serves, {turn}", served(gateway))
                process = gateway.server()
                os.kill(process, signal.SIGKILL)
                Gateway.wait_for(
                    lambda: gateway.process.poll() is not None
                    or gateway.server() not in (0, process),
                    "it is not started again",
                )
                if gateway.process.poll() is not None:
                    break
            self.tell(
                "a server that is killed then is started again",
                gateway.process.poll() is None,
                gateway.process.poll(),
            )
            if gateway.process.poll() is None:
                self.tell("its end", gateway.end()[0] == 0)

    def test_a_hangup(self):
        with Gateway() as gateway:
            gateway.process.send_signal(signal.SIGHUP)
            time.sleep(0.3)
            self.tell(
                "SIGHUP is ignored",
                gateway.process.poll() is None and served(gateway),
                gateway.process.poll(),
            )
            if gateway.process.poll() is None:
                self.tell("its end", gateway.end()[0] == 0)

    def test_a_server_that_hangs(self):
        """SIGTERM ends the gateway all the same, within --stalled and a second, and the server with
        it."""
        for what, asks in (("with a request", True), ("without one", False)):
            with Gateway("--stalled", "2") as gateway, gateway.dial() as sock:
                process = Gateway.wait_for(gateway.server, "there is no server")
                os.kill(process, signal.SIGSTOP)
                if asks:
                    sock.sendall(record(NONE))
                    time.sleep(0.3)
                gateway.process.send_signal(signal.SIGTERM)
                status, said = ends_itself(gateway)
                self.tell(
                    f"it ends, {what}",
                    status == 3 and "it is killed" in said and sanitized_well(said),
                    (status, said),
                )
                self.tell(f"and so does the server, {what}", not os.path.exists(f"/proc/{process}"))
                with contextlib.suppress(ProcessLookupError):
                    os.kill(process, signal.SIGKILL)

    def test_sigterm_before_it_serves(self):
        """While another process has the store, for which it waits."""
        with Gateway(starts=False) as gateway, open(gateway.store, "r+b") as file:
            fcntl.flock(file, fcntl.LOCK_EX)
            gateway.start(waits=False)
            children = f"/proc/{gateway.process.pid}/task/{gateway.process.pid}/children"
            Gateway.wait_for(lambda: open(children).read(), "it does not wait for the store")
            gateway.process.send_signal(signal.SIGTERM)
            status, said = ends_itself(gateway)
            self.tell(
                "it ends before it gives up", status == 0 and sanitized_well(said), (status, said)
            )

    @left_out("strace")
    def test_a_kernel_without_a_call(self):
        """Without epoll_pwait2, by the kernel or by a sandbox."""
        for error in ("ENOSYS", "EPERM"):
            under = (
                "strace",
                "-D",
                "-q",
                "-o",
                "/dev/null",
                "-e",
                "trace=epoll_pwait2",
                "-e",
                f"inject=epoll_pwait2:error={error}",
            )
            with unsanitized(under=under) as gateway:
                gateway.start(waits=False)
                Gateway.wait_for(gateway.answers, "it does not listen")
                self.tell(f"it serves, {error}", served(gateway))

                def ticks():
                    """Those of a processor that it takes in two seconds."""
                    with open(f"/proc/{gateway.process.pid}/stat") as file:
                        before = sum(map(int, file.read().rsplit(")")[1].split()[11:13]))
                    time.sleep(2)
                    with open(f"/proc/{gateway.process.pid}/stat") as file:
                        return sum(map(int, file.read().rsplit(")")[1].split()[11:13])) - before

                found = least(20, ticks)
                self.tell(f"it does not spin, {error}", found < 20, found)
                gateway.process.send_signal(signal.SIGTERM)
                status, said = ends_itself(gateway)
                self.tell(f"its end, {error}", status == 0, (status, said))


@needs_cc
class Parts(Cases):
    def test_a_line_without_its_end(self):
        """A client that is let go for silence: its last line is refused, whole as it may be."""
        create = CREATE.strip()
        with Gateway("--idle", "3", "--stalled", "3") as gateway:
            for what, given in (
                ("a whole line", create),
                ("an odd number of digits", create[:-1]),
                ("what is no digit", create + b"x"),
            ):
                with gateway.dial("listen-hex") as sock:
                    sock.sendall(NONE.hex().encode() + b"\n" + given)
                    got = rest(sock)
                wanted = NO_REQUEST.hex().encode() + b"\n" + STUB.hex().encode() + b"\n"
                self.tell(f"{what} without its end is refused", got == wanted, got)
            with gateway.session() as server:
                self.tell("and is not done", server.objects() == [], server.objects())
            got = gateway.ask(create, "listen-hex")
            self.tell(
                "one whose client closes its side is done", got.strip() == CREATED.strip(), got
            )
            self.tell("its end", gateway.end()[0] == 0)

    def test_a_byte_now_and_then(self):
        """A request has to come whole within --stalled, however its bytes come."""
        with Gateway("--stalled", "2") as gateway:
            for name, given, wanted in (
                ("listen", record(NONE + bytes(100)), record(STUB)),
                ("listen-hex", (NONE + bytes(100)).hex().encode(), STUB.hex().encode() + b"\n"),
            ):
                with gateway.dial(name) as sock:
                    sock.settimeout(0.2)
                    got = None
                    for byte in given[:100]:
                        with contextlib.suppress(OSError):
                            sock.sendall(bytes([byte]))
                        with contextlib.suppress(socket.timeout):
                            got = hear(sock, len(wanted))
                            break
                    self.tell(f"it is refused, {name}", got == wanted, got)
            self.tell("its end", gateway.end()[0] == 0)
