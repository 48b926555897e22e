"""Many stores behind one port: HAProxy by the configuration of dist/lib/haproxy-stores, three
stores on three hosts in network namespaces, and clients with certificates. A host that is killed
has its store taken over by another one."""
import contextlib
import os
import subprocess
import sys
import tempfile
import time
import unittest

from tests.gateway.gateways import SECONDS, built, copy_store, left_out, store_of
from tests.support.certificates import Authority
from tests.support.namespaces import Hosts, why_not
from tests.support.running import PROGRAM, ROOT, Cases
from tests.support.tries import TRIES
from tests.support.wire import oaut

FULL = f"{ROOT}/examples/full.idl"
NAMES = ("items", "orders", "people")
ROUNDS = int(os.environ.get("OAUT_ROUNDS") or 4)
# what a client runs on the front's host
ASK = """import sys, oaut
try:
    with oaut.connect(sys.argv[1], timeout=float(sys.argv[2]), patience=float(sys.argv[3])) as \
server:
        item = (server.objects() or [server.create("Item")])[0]
        if len(sys.argv) > 4:
            item.Name = sys.argv[4]
        print(item.Name)
except (oaut.Error, OSError) as error:
    print(type(error).__name__)
"""


# a client that has a lock, which it has as long as its connection lasts
HOLD = """import sys, time, oaut
try:
    with oaut.connect(sys.argv[1], timeout=120, patience=180) as server:
        found = server.objects()
        item = found[0] if found else server.create("Item")
        if not found:
            item.Grid = [1]
        item.Grid.lock()
        print("has", flush=True)
        time.sleep(float(sys.argv[2]))
        item.Grid.unlock()
        print("had", flush=True)
except (oaut.Error, OSError) as error:
    print(type(error).__name__, error, flush=True)
"""


class Site:
    """A front and three hosts, each with HAProxy; and the gateway of each store on one of them."""

    def __init__(self, room, hosts, words=(), limit=()):
        self.room, (self.front, *self.hosts), self.words = room, hosts, words
        self.authority = Authority(room, "stores")
        self.clients = {name: Authority(room, f"clients-of-{name}") for name in NAMES}
        self.mine = {name: self.clients[name].signed(f"me-{name}") for name in NAMES}
        front = self.authority.both("front")
        lines = ["[front]", f"authority = {self.authority.path}", f"certificate = {front}"]
        for name in NAMES:
            trusted = f"{room}/{name}-trusted.pem"
            with open(trusted, "w") as file:
                for it in (self.clients[name].path, self.authority.path):
                    with open(it) as one:
                        file.write(one.read())
            server = self.authority.both(name, f"{name}.stores.example")
            lines += [
                f"[{name}]",
                f"name = {name}.stores.example",
                f"hosts = {' '.join(it.address for it in self.hosts)}",
            ]
            lines += [
                f"certificate = {server}",
                f"clients = {trusted}",
                f"socket = {room}/HOST/{name}.sock",
                *limit,
            ]
            copy_store(store_of(FULL)[0], f"{room}/{name}.store")
        self.lines = lines
        self.configure("front", self.front, "front")
        for at, it in enumerate(self.hosts):
            os.mkdir(f"{room}/host{at}")
            self.configure("host", it, f"host{at}")
        self.owner = {}
        for at, name in enumerate(NAMES):
            self.serve(name, at)

    def configure(self, kind, host, folder):
        """Writes the files of HAProxy, and starts it."""
        path = f"{self.room}/{folder}.list"
        with open(path, "w") as file:
            file.write("\n".join(self.lines).replace("HOST", folder) + "\n")
        subprocess.run(
            [f"{ROOT}/dist/lib/haproxy-stores", kind, path, f"{self.room}/{folder}"], check=True
        )
        self.proxy(host, folder)

    def proxy(self, host, folder):
        host.start(
            "haproxy",
            "-db",
            "-f",
            f"{self.room}/{folder}/haproxy.cfg",
            stdout=subprocess.DEVNULL,
            stderr=subprocess.DEVNULL,
        )

    def serve(self, name, at):
        """Starts the gateway of a store on a host, as a take-over does."""
        words = [
            built()[0],
            *self.words,
            "--listen",
            f"{self.room}/host{at}/{name}.sock",
            "--program",
            PROGRAM,
            f"{self.room}/{name}.store",
        ]
        self.hosts[at].start(*words, stdout=subprocess.DEVNULL, stderr=subprocess.DEVNULL)
        self.owner[name] = at

    def kill(self, at):
        """Kills all of a host, and brings it back without its stores. Gives their names."""
        names = [name for name, owner in self.owner.items() if owner == at]
        self.hosts[at].kill()
        return names

    def back(self, at):
        self.proxy(self.hosts[at], f"host{at}")

    def url(self, name, who=None, ca=None, to=None):
        parts = {"ca": ca or self.authority.path, "name": f"{name}.stores.example"}
        if who is not None:
            parts["cert"], parts["key"] = self.mine[who]
        return f"oauts://{to or self.front.address}?" + "&".join(
            f"{key}={value}" for key, value in parts.items()
        )

    def ask(self, url, *words, timeout=120, patience=0):
        """What a client on the front's host gets, or the name of its exception."""
        command = [sys.executable, "-c", ASK, url, str(timeout), str(patience), *words]
        environment = {**os.environ, "PYTHONPATH": f"{ROOT}/clients/python"}
        child = self.front.start(*command, stdout=subprocess.PIPE, env=environment, text=True)
        said = child.communicate(timeout=SECONDS)[0].strip()
        self.front.processes.remove(child)
        return said


@contextlib.contextmanager
def site(*words, limit=()):
    with tempfile.TemporaryDirectory() as room, Hosts(4) as hosts:
        yield Site(room, hosts, words, limit)


@left_out("haproxy", "openssl")
@unittest.skipIf(why_not(), why_not())
class Stores(Cases):
    def test_each_client_reaches_its_store(self):
        with site() as them:
            for name in NAMES:
                url = them.url(name, name)
                self.tell(
                    f"{name} is reached by its name",
                    them.ask(url, f"I am {name}", patience=SECONDS) == f"I am {name}",
                )
            for name in NAMES:
                said = them.ask(them.url(name, name), patience=SECONDS)
                self.tell(f"{name} has kept its own", said == f"I am {name}", said)
            for what, url, wanted in (
                (
                    "the certificate of another store's client",
                    them.url("items", "orders"),
                    ["ClientCertificateRefused"],
                ),
                ("no certificate", them.url("items"), ["ClientCertificateRefused"]),
                (
                    "at the host itself",
                    them.url("items", "orders", to=them.hosts[0].address),
                    ["ClientCertificateRefused"],
                ),
                ("a name that no store has", them.url("nobody", "items"), ["NoTls"]),
                (
                    "a name that no store has, at a host",
                    them.url("nobody", "items", to=them.hosts[0].address),
                    ["WrongHostName"],
                ),
                (
                    "another authority",
                    them.url("items", "items", ca=them.clients["items"].path),
                    ["CertificateRefused"],
                ),
                (
                    "a host without the store",
                    them.url("items", "items", to=them.hosts[1].address),
                    ["ConnectionRefusedError"],
                ),
            ):
                said = [them.ask(url)]
                # (why is told by an alert, which may be lost with a connection that is reset behind
                # it)
                while (
                    said[-1] not in wanted
                    and said[-1] == "ConnectionRefusedError"
                    and len(said) < TRIES
                ):
                    said.append(them.ask(url))
                self.tell(f"{what}: it is refused", said[-1] in wanted, said)

    def test_as_many_clients_as_may_come(self):
        """A gateway at its limit turns the front's check away as any client: no session may be cut
        for that."""
        with site("--clients", "3", limit=["limit = 2"]) as them:
            environment = {**os.environ, "PYTHONPATH": f"{ROOT}/clients/python"}
            url = them.url("items", "items")
            words = [sys.executable, "-c", HOLD, url, "8"]
            begun = []
            for it in ("the first", "the second"):
                begun.append(
                    them.front.start(*words, stdout=subprocess.PIPE, env=environment, text=True)
                )
                self.tell(f"{it} has a connection", begun[-1].stdout.readline() == "has\n")
            first, second = begun
            third = them.front.start(*words, stdout=subprocess.PIPE, env=environment, text=True)
            for name, child in (("the first", first), ("the second", second)):
                said = child.communicate(timeout=SECONDS)[0]
                self.tell(f"{name} has it until it ends", said == "had\n", said)
            said = third.communicate(timeout=SECONDS)[0]
            self.tell("the next one has its turn behind them", said == "has\nhad\n", said)
            them.front.processes[:] = [
                it for it in them.front.processes if it not in (first, second, third)
            ]

    def test_a_store_that_moves(self):
        """Its host is killed under puts, and another one takes it over: nothing that was
        acknowledged is lost."""
        with site() as them:
            path = f"{them.room}/put"
            words = [
                sys.executable,
                f"{ROOT}/tests/gateway/putting.py",
                them.url("items", "items"),
                path,
            ]
            them.front.start(*words, env={**os.environ, "PYTHONPATH": f"{ROOT}/clients/python"})
            waited = []
            for turn in range(ROUNDS):
                self.more(path)
                owner = them.owner["items"]
                names = them.kill(owner)
                begun = time.monotonic()
                for name in names:
                    them.serve(name, (owner + 1) % len(them.hosts))
                them.back(owner)
                self.more(path)
                waited.append(time.monotonic() - begun)
            with open(f"{path}.stop", "w"):
                pass
            with open(path) as file:
                lines = file.read().splitlines()
            numbers = [int(it) for it in lines if it.isdigit()]
            self.tell(
                "nothing is lost",
                not any(it.startswith("lost") for it in lines),
                [it for it in lines if it.startswith("lost")][:5],
            )
            self.tell("there were puts", len(numbers) > ROUNDS, lines[-5:])
            print(
                f"{ROUNDS} rounds, {len(numbers)} puts; seconds without: median "
                f"{sorted(waited)[len(waited) // 2]:.1f}, maximum {max(waited):.1f}",
                flush=True,
            )

    def more(self, path, count=20):
        """Waits for some more puts."""
        until, begun = time.monotonic() + SECONDS, None
        while time.monotonic() < until:
            with contextlib.suppress(OSError):
                with open(path) as file:
                    there = sum(line[0].isdigit() for line in file)
                begun = there if begun is None else begun
                if there >= begun + count:
                    return
            time.sleep(0.02)
        with open(path) as file:
            raise AssertionError(f"no more puts within {SECONDS} s: {file.read()[-2000:]}")
