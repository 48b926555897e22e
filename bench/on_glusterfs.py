#!/usr/bin/env python3
"""Puts a store on a GlusterFS volume of three replicas, breaks it while puts go on, and counts what
was lost.

    python3 bench/on_glusterfs.py [--program PATH] [--rounds N] [--option NAME=VALUE].. [ROUND ..]

As root, by hand, with the packages glusterfs-server, glusterfs-client, attr and iproute2, and with
/dev/fuse. Defaults: PATH crates/oaut/out/oaut, N 4. All lies in a folder of its own, and all
addresses in three network namespaces: `site` has three servers with a replica each. The machines
`one` and `two` mount the volume, each over a link that can be cut. All processes that it started
are ended, by their numbers. No machine's power is cut, so the test says nothing about losses from a
server's cache.

    rates     puts a second in groups of 1 and of 1,024, beside a file of the same folder's file
        system
    lock      a second machine opens the store while the first one serves it, and again once that
        was killed
    server    the server is killed, and the second machine opens the store
    replica   a server of a replica is killed, and every second time started again while puts go on
    replicas  two of them are
    mount     the mount of the first machine is killed
    cut       the link of the first machine is cut while it puts; the second one takes over; then
        the link is there again
    idle      as `cut`, with a first machine that waits, and puts once its link is there again: the
        lock has to fence it
    apart     the last gate byte is in one replica only, as if the mount died between its writes;
        the second machine opens the store and puts; then it is healed
    healed    as `apart`, but healed before the second machine opens it
    rewritten as `apart`, not healed: the second machine writes the store's bytes over themselves
        before it opens it (dist/lib/rewrite)

Each round ends with all mounted anew and healed; then each machine and each replica must have all
acknowledged writes. In `apart` there may be losses; elsewhere each one is a failure.
"""
import argparse
import contextlib
import glob
import os
import random
import re
import struct
import subprocess
import sys
import tempfile
import threading
import time
import uuid

ROOT = os.path.dirname(os.path.dirname(os.path.abspath(__file__)))
sys.path.insert(0, ROOT)
from tests.support import wire
from oaut import Raw, ask_create
from tests.support.stores import CLASS

OPTIONS = {
    "cluster.quorum-type": "auto",
    "cluster.server-quorum-type": "server",
    "network.ping-timeout": "5",
    "client.tcp-user-timeout": "6",
    "server.tcp-user-timeout": "6",
    "client.keepalive-time": "3",
    "client.keepalive-interval": "1",
    "client.keepalive-count": "3",
    "server.keepalive-time": "3",
    "server.keepalive-interval": "1",
    "server.keepalive-count": "3",
    "client.strict-locks": "on",
}
OBJECTS, WRITE_FAULT = 8, 0x8003_001D
MACHINES = ("one", "two")
SECONDS = 240


def did(*words):
    """Runs a program, and returns its status and its output."""
    done = subprocess.run(
        [str(it) for it in words],
        stdout=subprocess.PIPE,
        stderr=subprocess.STDOUT,
        stdin=subprocess.DEVNULL,
        text=True,
        timeout=2 * SECONDS,
    )
    return done.returncode, done.stdout


def wait_for(what, is_so):
    until = time.monotonic() + SECONDS
    while not is_so():
        if time.monotonic() > until:
            raise SystemExit(f"waited {SECONDS} s for {what}")
        time.sleep(0.1)


class Site:
    """Three servers with a replica each, and two machines that mount the volume."""

    def __init__(self, room, options):
        self.room, self.options, self.holders = room, options, {}

    def __enter__(self):
        return self

    def up(self):
        own = os.readlink("/proc/self/ns/net")
        for who in ("site", *MACHINES):
            self.holders[who] = subprocess.Popen(["unshare", "-n", "sleep", "100000"])
        wait_for(
            "network namespaces",
            lambda: all(
                os.readlink(f"/proc/{it.pid}/ns/net") != own for it in self.holders.values()
            ),
        )
        self.within("site", "ip", "link", "set", "lo", "up")
        for number, who in enumerate(MACHINES, 1):
            os.mkdir(self.folder(who))
            self.within(
                "site",
                *f"ip link add to-{who} type veth peer name wire netns "
                f"{self.holders[who].pid}".split(),
            )
            self.within("site", *f"ip addr add 10.77.{number}.1/24 dev to-{who}".split())
            self.within("site", *f"ip link set to-{who} up".split())
            self.within(who, *f"ip addr add 10.77.{number}.2/24 dev wire".split())
            self.link(who)
        for number in (1, 2, 3):
            self.start_server(number)
        wait_for("the first server", lambda: os.path.exists(f"{self.room}/server1/socket"))
        for number in (2, 3):
            self.gluster("peer", "probe", f"10.77.0.{number}")
        wait_for(
            "the servers to know each other",
            lambda: self.gluster("peer", "status").count("(Connected)") == 2,
        )
        self.gluster(
            "volume",
            "create",
            "stores",
            "replica",
            "3",
            *(f"10.77.0.{it}:{self.folder(it)}" for it in (1, 2, 3)),
            "force",
        )
        for name, value in self.options.items():
            self.gluster("volume", "set", "stores", name, value)
        self.gluster("volume", "start", "stores")
        for who in MACHINES:
            self.mount(who)

    def __exit__(self, *_):
        for who in MACHINES:
            did("umount", "-l", self.folder(who))
        # the processes that the program has started have its folder among their words
        for path in glob.glob("/proc/[0-9]*/cmdline"):
            with contextlib.suppress(OSError):
                with open(path, "rb") as file:
                    words = file.read().split(b"\0")
                if b"gluster" in words[0] and any(self.room.encode() in it for it in words):
                    os.kill(int(path.split("/")[2]), 9)
        for it in self.holders.values():
            it.kill()
            it.wait()

    def folder(self, where):
        """The mount of a machine, or the folder of a replica by its number."""
        return f"{self.room}/{where}" if where in MACHINES else f"{self.room}/server{where}/replica"

    def within(self, who, *words):
        status, said = did("nsenter", "-t", self.holders[who].pid, "-n", *words)
        if status != 0:
            raise SystemExit(f"{who}: {' '.join(map(str, words))}: {said}")
        return said

    def gluster(self, *words):
        return self.within(
            "site",
            "gluster",
            "--mode=script",
            f"--glusterd-sock={self.room}/server1/socket",
            *words,
        )

    def start_server(self, number):
        home = f"{self.room}/server{number}"
        for folder in ("work", "run", "log", "replica"):
            os.makedirs(f"{home}/{folder}")
        self.within("site", *f"ip addr add 10.77.0.{number}/32 dev lo".split())
        told = {
            "working-directory": f"{home}/work",
            "run-directory": f"{home}/run",
            "transport.socket.bind-address": f"10.77.0.{number}",
            "glusterd-sockfile": f"{home}/socket",
            "cluster-test-mode": f"{home}/log",
        }
        self.within(
            "site",
            "glusterd",
            f"--log-file={home}/log/glusterd.log",
            f"--pid-file={home}/pid",
            *(
                word
                for name, value in told.items()
                for word in ("--xlator-option", f"management.{name}={value}")
            ),
        )

    def link(self, who):
        self.within(who, *"ip link set wire up".split())
        self.within(
            who, *f"ip route replace 10.77.0.0/24 via 10.77.{MACHINES.index(who) + 1}.1".split()
        )

    def cut(self, who):
        self.within(who, *"ip link set wire down".split())

    def mount(self, who):
        """Mounts the volume anew, so that nothing is read from an old cache."""
        did("umount", "-l", self.folder(who))
        self.within(
            who,
            "glusterfs",
            "--volfile-server=10.77.0.1",
            "--volfile-id=stores",
            f"--log-file={self.room}/{who}.log",
            f"--pid-file={self.room}/{who}.pid",
            "--fopen-keep-cache=off",
            self.folder(who),
        )

    def kill(self, what):
        """Kills the server of a replica, by its number, or the mount of a machine."""
        (path,) = glob.glob(
            f"{self.room}/{what}.pid"
            if what in MACHINES
            else f"{self.room}/server{what}/run/vols/stores/*.pid"
        )
        with open(path) as file:
            os.kill(int(file.read()), 9)
        os.remove(path)

    def start_replicas(self):
        self.gluster("volume", "start", "stores", "force")

    def heal(self):
        """All replicas are up, seen by both machines, and without a mark."""
        self.start_replicas()
        self.gluster("volume", "set", "stores", "cluster.self-heal-daemon", "on")
        seen = [
            f"{self.folder(who)}/.meta/graphs/active/stores-client-{it}/private"
            for who in MACHINES
            for it in range(3)
        ]
        wait_for(
            "both machines to see all replicas",
            lambda: did("cat", *seen)[1].count("connected = 1") == 6,
        )
        time.sleep(1.5)  # a mount clears its marks a second after its last write

        def is_marked():
            marks = did(
                "getfattr",
                "-d",
                "-m",
                "trusted.afr",
                "-e",
                "hex",
                *(f"{self.folder(it)}/it.store" for it in (1, 2, 3)),
            )[1]
            return "0x" in marks.replace("0x" + 24 * "0", "")

        wait_for(
            "healing",
            lambda: not is_marked() or self.gluster("volume", "heal", "stores", "full") is None,
        )


def put(number, of):
    """The record that puts a number into an object, by its place among them."""
    return Raw.pack(
        [
            bytes.fromhex(
                wire.put(number, of % OBJECTS + 1, 1, wire.scalar(wire.I4, number)).decode()
            )
        ]
    )


class Puts(threading.Thread):
    """A server, and puts of rising numbers in groups of a size, from one on: the next group is sent
    once the replies to the last one are there. It ends at a limit, on demand, and if one is not
    acknowledged."""

    def __init__(self, store, library, size, first, limit):
        super().__init__(daemon=True)
        self.size, self.first, self.limit, self.acknowledged, self.over, self.codes = (
            size,
            first,
            limit,
            0,
            False,
            [],
        )
        self.child = subprocess.Popen(
            [PROGRAM, "serve", "--group", str(size), store, library],
            stdin=subprocess.PIPE,
            stdout=subprocess.PIPE,
            stderr=subprocess.PIPE,
        )
        self.longest = 0.0

    def run(self):
        with contextlib.suppress(BrokenPipeError, ValueError):
            while not self.over and not self.codes and self.acknowledged < self.limit:
                self.one()

    def one(self):
        """One group."""
        start, begun = self.first + self.acknowledged, time.monotonic()
        self.child.stdin.write(b"".join(put(it, it) for it in range(start, start + self.size)))
        self.child.stdin.flush()
        replies = [Raw.read(self.child.stdout) for _ in range(self.size)]
        if None in replies:
            self.over = True
            return
        self.longest = max(self.longest, time.monotonic() - begun)
        codes = [struct.unpack_from("<I", it, 4)[0] for it in replies]
        if any(codes):
            self.codes = codes
        else:
            self.acknowledged += self.size

    def end(self):
        self.over = True
        if self.is_alive():
            self.join()
        with contextlib.suppress(BrokenPipeError):
            self.child.stdin.close()
        try:
            self.child.wait(SECONDS)
        except subprocess.TimeoutExpired:
            self.child.kill()
            self.child.wait()
        self.said = self.child.stderr.read().decode()
        return self


class Trial:
    def __init__(self, site):
        self.site, self.number, self.library, self.found = site, 0, f"{ROOT}/examples/small.idl", {}
        self.lost, self.acknowledged, self.more, self.longest = [], 0, 0, 0.0

    def store(self, where):
        return f"{self.site.folder(where)}/it.store"

    def begin(self, path):
        """A new store, with its objects."""
        with contextlib.suppress(FileNotFoundError):
            os.remove(path)
        status, said = did(PROGRAM, "format", path, self.library)
        assert status == 0, said
        made = Raw.pack([struct.pack("<I", 1) + ask_create(uuid.UUID(bytes_le=CLASS))] * OBJECTS)
        subprocess.run(
            [PROGRAM, "serve", path, self.library],
            input=made,
            stdout=subprocess.DEVNULL,
            check=True,
        )
        self.found = {}

    def puts(self, path, size=1, limit=None):
        """Puts that go on: so many and no more, or else some and a moment."""
        self.number += 1_000_000
        time.sleep(0.5)  # the lock of what has looked at the store goes a moment later
        puts = Puts(path, self.library, size, self.number, limit or 1 << 30)
        puts.start()
        wait_for("replies", lambda: puts.acknowledged >= (limit or 2 * size) or not puts.is_alive())
        time.sleep(0 if limit else 1.5 * random.random())
        return puts

    def held(self, where, patience=10):
        """The number that each object has, by `dump`, or why the store does not open. The lock of a
        process that has ended goes a moment later."""
        until = time.monotonic() + patience
        status, said = did(PROGRAM, "dump", self.store(where))
        while "in use" in said and time.monotonic() < until:
            time.sleep(0.1)
            status, said = did(PROGRAM, "dump", self.store(where))
        found = re.findall(
            r"^object (\d+) \S+\ncell \S+ 1 - 0300([0-9a-f]{8})$", said, re.MULTILINE
        )
        return (
            {int(number): struct.unpack("<I", bytes.fromhex(value))[0] for number, value in found}
            if status == 0
            else {"status": said.strip()}
        )

    def judge(self, puts, where):
        """The store has to hold what some first puts have left, all the acknowledged ones among
        them, and the codes have to be those of a device's fault."""
        found = self.held(where)
        there = max(
            [
                it - puts.first + 1
                for it in found.values()
                if isinstance(it, int) and it >= puts.first
            ],
            default=0,
        )
        wanted = {
            **self.found,
            **{it % OBJECTS + 1: it for it in range(puts.first, puts.first + there)},
        }
        self.longest = max(self.longest, puts.longest)
        if (
            there < puts.acknowledged
            or found != wanted
            or puts.codes not in ([], [WRITE_FAULT] * puts.size)
        ):
            self.lost.append(
                f"{where}: {puts.acknowledged} acknowledged, {there} there, "
                f"{sum(found.get(it) != wanted[it] for it in wanted)} objects are others, codes "
                f"{[hex(it) for it in puts.codes[:2]]}, {found.get('status')}"
            )
        self.acknowledged, self.more, self.found = (
            self.acknowledged + puts.acknowledged,
            self.more + max(there - puts.acknowledged, 0),
            found,
        )

    # the rounds

    def server(self, turn, size):
        puts = self.puts(self.store("one"), size)
        puts.child.kill()
        self.judge(puts.end(), "two")

    def broken(self, what, size, starts=False):
        puts = self.puts(self.store("one"), size)
        for it in what:
            self.site.kill(it)
        if starts:
            self.site.start_replicas()
        goal = puts.acknowledged + 100 * size
        wait_for(
            "a fault, or more replies",
            lambda: not puts.is_alive()
            or (len(what) == 1 and what[0] not in MACHINES and puts.acknowledged > goal),
        )
        puts.end()
        if len(what) == 2:
            self.site.heal()
        self.judge(puts, "two")

    def replica(self, turn, size):
        self.broken([random.choice((1, 2, 3))], size, turn % 2 == 1)

    def replicas(self, turn, size):
        self.broken(random.sample((1, 2, 3), 2), size)

    def mount(self, turn, size):
        self.broken(["one"], size)

    def cut(self, turn, size):
        puts = self.puts(self.store("one"), size)
        self.site.cut("one")
        wait_for("the fault of the machine that is cut off", lambda: not puts.is_alive())
        self.take_over(lambda: self.judge(puts, "two"))
        self.site.link("one")
        puts.end()

    def take_over(self, judge):
        """The second machine opens the store once the lock of the first one is gone, and puts."""
        wait_for("the lock", lambda: "in use" not in str(self.held("two")))
        judge()
        self.judge(self.puts(self.store("two"), 1, 40).end(), "two")

    def idle(self, turn, size):
        puts = self.puts(self.store("one"), size, 4 * size)
        puts.join()
        self.site.cut("one")
        time.sleep(8)
        self.take_over(lambda: self.judge(puts, "two"))
        self.site.link("one")
        time.sleep(random.choice((0, 4)))
        # it puts again: none of it may be acknowledged, or else it is there
        before, puts.codes = puts.acknowledged, []
        with contextlib.suppress(BrokenPipeError):
            puts.one()
        self.codes = [hex(it) for it in puts.codes[:1]]
        if puts.acknowledged > before:
            self.lost.append(
                "the first machine's put after the cut is acknowledged, but the second one shows "
                f"{self.held('two')}"
            )
        puts.end()

    def lock(self, turn, size):
        puts = self.puts(self.store("one"), size)
        refused = self.held("two", 0).get("status", "it opened")
        before = puts.acknowledged
        wait_for("more replies", lambda: puts.acknowledged > before + size or not puts.is_alive())
        self.codes = [hex(it) for it in puts.codes[:1]]
        # the next put of a machine that has lost its lock fails; a machine that has the lock keeps
        # the other out
        if not refused.endswith("in use by another process") and not puts.codes:
            self.lost.append(
                f"the second machine beside the first one: {refused}; the first one has "
                f"{puts.acknowledged - before} puts more acknowledged"
            )
        puts.child.kill()
        killed = time.monotonic()
        puts.end()
        wait_for("the lock", lambda: "in use" not in str(self.held("two", 0)))
        self.free = time.monotonic() - killed
        self.judge(puts, "two")

    def apart(self, turn, size, heals=False, rewrites=False):
        paths = [self.store(it) for it in (1, 2, 3)]
        with open(paths[0], "rb") as file:
            before = file.read()
        self.judge(self.puts(self.store("one"), 1, 1).end(), "one")
        self.site.heal()
        with open(paths[0], "rb") as file:
            after = file.read()
        gate = next(
            at
            for at in range(0, len(after), 1 << 16)
            if before[at : at + (1 << 16)] != after[at : at + (1 << 16)]
        )
        gate = next(at for at in range(gate, len(after)) if before[at] != after[at])
        self.site.gluster("volume", "set", "stores", "cluster.self-heal-daemon", "off")
        for number, path in enumerate(paths):
            with open(path, "r+b") as file:
                file.seek(gate)
                file.write(bytes([number == turn % 3]))
            did("setfattr", "-n", "trusted.afr.dirty", "-v", "0x000000010000000000000000", path)
        if heals:
            self.site.heal()
        for who in MACHINES:
            self.site.mount(who)
        if rewrites:
            status, said = did(f"{ROOT}/dist/lib/rewrite", self.store("two"))
            assert status == 0, said
            unequal = [it for it in paths[1:] if did("cmp", paths[0], it)[0]]
            if unequal:
                self.lost.append(f"these replicas are not equal to the first one: {unequal}")
        self.found = self.held("two")
        self.judge(self.puts(self.store("two"), 1, 40).end(), "two")

    def healed(self, turn, size):
        self.apart(turn, size, True)

    def rewritten(self, turn, size):
        self.apart(turn, size, rewrites=True)

    def rounds(self, name, times):
        losses, waits, codes = 0, [], []
        self.acknowledged, self.more, self.longest = 0, 0, 0.0
        self.begin(self.store("one"))
        for turn in range(times):
            self.lost, self.free, self.codes = [], None, None
            getattr(self, name)(turn, (1, 64)[turn // 2 % 2])
            for who in MACHINES:
                self.site.mount(who)
            self.site.heal()
            shown = {where: self.held(where) for where in (*MACHINES, 1, 2, 3)}
            others = {
                where: found.get("status")
                or max(found.values(), default=0)
                - max((it for it in self.found.values() if isinstance(it, int)), default=0)
                for where, found in shown.items()
                if found != self.found
            }
            if others:
                self.lost.append(f"healed, these show so many more puts than before: {others}")
            losses += bool(self.lost)
            waits += [self.free] * (self.free is not None)
            codes += self.codes or []
            for it in self.lost:
                print("  LOST", it, flush=True)
                self.begin(self.store("one"))
        more = f", the lock was free {max(waits):.1f} s after the kill at most" if waits else ""
        more += f", codes {sorted({*codes})}" if codes else ""
        print(
            f"{name}: {times} rounds, {losses} with losses, {self.acknowledged} puts "
            f"acknowledged, {self.more} more there, {self.longest:.1f} s for a group at most{more}",
            flush=True,
        )

    def rates(self, times):
        """Puts a second on the volume, and into a file beside it."""
        beside = f"{self.site.room}/it.store"
        for size, count in ((1, 500), (1_024, 25_600)):
            taken = {}
            for path in (beside, self.store("one")):
                self.begin(path)
            for path in times * [beside, self.store("one")]:
                begun = time.monotonic()
                self.puts(path, size, count).end()
                taken[path] = taken.get(path, 0) + time.monotonic() - begun
            local, far = (times * count / taken[path] for path in (beside, self.store("one")))
            print(
                f"groups of {size}: {far:,.0f} puts a second, {local:,.0f} beside the volume: "
                f"{far / local:.3f} of it",
                flush=True,
            )


ROUNDS = "rates lock server replica replicas mount cut idle apart healed rewritten".split()
parser = argparse.ArgumentParser(
    description=__doc__, formatter_class=argparse.RawDescriptionHelpFormatter
)
parser.add_argument("--program", metavar="PATH", default=f"{ROOT}/crates/oaut/out/oaut")
parser.add_argument("--rounds", metavar="N", type=int, default=4)
parser.add_argument("--option", metavar="NAME=VALUE", action="append", default=[])
parser.add_argument("--keep", action="store_true", help="keep the folder with the logs")
parser.add_argument("names", nargs="*", metavar="ROUND", default=ROUNDS)
given = parser.parse_args()
PROGRAM = os.path.abspath(given.program)

if __name__ == "__main__":
    room = tempfile.mkdtemp(prefix="glusterfs-")
    print(room, flush=True)
    try:
        with Site(room, {**OPTIONS, **dict(it.split("=", 1) for it in given.option)}) as site:
            site.up()
            for name in given.names:
                trial = Trial(site)
                trial.rates(given.rounds) if name == "rates" else trial.rounds(name, given.rounds)
    finally:
        if not given.keep:
            did("rm", "-rf", room)
