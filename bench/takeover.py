#!/usr/bin/env python3
"""Makes clusters of three hosts from nothing, breaks them while clients put and get through their
address, and counts what was lost and how long they waited.

    python3 bench/takeover.py [--program PATH] [--gateway PATH] [--rounds N] [--clusters N] [--until
        HH:MM] [--without lock|fencing].. [--two] [--in-memory] [--log FILE] [ROUND ..]
    python3 bench/takeover.py --summary FILE..

As root, by hand, with Debian's pacemaker, corosync, crmsh, resource-agents, glusterfs-server,
glusterfs-client, attr, socat, iproute2, a C compiler and /dev/fuse. Defaults of PATH:
crates/oaut/out/oaut, and the gateway that clients/gateway/build.sh makes. Default: 5 rounds of each
kind, on one cluster. No round begins after HH:MM. A host is a set of namespaces (network, mount,
process, host name, IPC) over an overlay of this machine's files, with its own Corosync, Pacemaker,
glusterd, brick and mount. Four networks join them: clients, cluster, storage and power. By the last
one `fence_switch` of a host asks this program to cut another host's links and to end its processes.
Each cluster has a network, processes and a folder of its own, so that several know nothing of each
other; they take their rounds from one row, in which the kinds take turns. All processes end with
this program, however that ends.

    server    the server's process is killed; the gateway starts it again
    gateway   the gateway and its server are killed
    host      all processes of the host that serves end at once, its brick too; its links stay
    cut       all four links of that host are cut
    storage   its storage link alone is
    apart     it and one other host do not hear each other on the cluster's network; both hear the
        third one
    hung      Corosync and Pacemaker of that host are stopped, its server is not
    brick     a brick's process is killed, and started again 5 s later
    both      the cluster's hands are off, and two hosts start the server at once
    device    each sync of that host's server fails from now on

`--without lock` has a program that takes no lock of the file, `--without fencing` a cluster that
goes on without it; `--two` leaves the third host out of Corosync, as a brick alone. The last
round's host comes back and all replicas are healed before the next one begins. `--log` adds a line
of JSON to a file as a round ends, and `--summary` prints what such files have.
"""
import argparse
import contextlib
import datetime
import glob
import hashlib
import json
import os
import random
import re
import shutil
import signal
import socket
import statistics
import struct
import subprocess
import sys
import tempfile
import threading
import time
import uuid

ROOT = os.path.dirname(os.path.dirname(os.path.abspath(__file__)))
sys.path.insert(0, ROOT)
from tests.support import wire
from oaut import Raw, ask_create

NETWORKS = ("clients", "cluster", "storage", "power")
HOSTS = ("one", "two", "three")
# processes, as the kernel shortens their names
CLUSTER = (
    "corosync",
    *(f"pacemaker{it}" for it in ("d", "-based", "-fence", "-execd", "-attrd", "-sched", "-contr")),
)
ADDRESS, PORT, SWITCH = "10.78.0.100", 8765, ("10.78.3.254", 6000)
STORE, BRICK = "/srv/stores/items.store", "/srv/brick/stores"
ITEM = uuid.UUID("11223344-5566-7788-99aa-bbccddeeff03")  # of examples/small.idl
CLIENTS = 4  # through the address; each host has one more of its own
WRITE_FAULT, FAILED = 0x8003_001D, 0x8000_4005
SECONDS = 90  # for whatever is waited for
MOST = (1 << 31) - 1  # of a long
WORD = 8  # letters of a round's name in the row of rounds

VOLUME = {
    "client.strict-locks": "on",
    "cluster.heal-timeout": "5",
    "cluster.quorum-type": "auto",
    "cluster.server-quorum-type": "server",
    "network.ping-timeout": "5",
    "client.tcp-user-timeout": "6",
    "server.tcp-user-timeout": "6",
    "client.keepalive-time": "3",
    "client.keepalive-interval": "1",
    "client.keepalive-count": "3",
    "server.keepalive-time": "3",
    "server.keepalive-interval": "1",
    "server.keepalive-count": "3",
}

COROSYNC = """totem {
    version: 2
    cluster_name: stores
    transport: knet
    token: 3000
}
quorum {
    provider: corosync_votequorum
%s}
nodelist {
%s}
logging {
    to_syslog: no
    to_logfile: yes
    logfile: /var/log/corosync.log
}
"""

PACEMAKER = """property stonith-enabled=%s stonith-action=off no-quorum-policy=stop \
cluster-recheck-interval=30s
rsc_defaults resource-stickiness=100
primitive files ocf:heartbeat:Filesystem \\
    params device=localhost:/stores directory=/srv/stores fstype=glusterfs \\
    options=direct-io-mode=enable \\
    meta failure-timeout=30s \\
    op start timeout=60s op stop timeout=20s op monitor interval=10s timeout=20s
primitive server ocf:oaut:gateway \\
    params store=/srv/stores/items.store before="/usr/lib/oaut/rewrite /srv/stores/items.store" \\
    op start timeout=60s op stop timeout=20s op monitor interval=3s timeout=20s
primitive address ocf:heartbeat:IPaddr2 \\
    params ip=10.78.0.100 cidr_netmask=24 nic=clients \\
    op monitor interval=5s
group stores files server address
"""

FENCE = """primitive fence-{0} stonith:fence_switch \\
    params ip=10.78.3.254 pcmk_host_list={0} pcmk_host_check=static-list pcmk_delay_base={1} \\
    op monitor interval=60s
location fence-{0}-elsewhere fence-{0} -inf: {0}
"""

FENCE_SWITCH = r"""#!/bin/sh
# Ends a host by the switch that all hosts' power and links hang on.
action=off
while read -r line; do
    case $line in
        action=*) action=${line#*=} ;;
        port=* | plug=* | nodename=*) host=${line#*=} ;;
        ip=*) ip=${line#*=} ;;
    esac
done
case $action in
    metadata)
        cat << 'END'
<?xml version="1.0"?>
<resource-agent name="fence_switch" shortdesc="A switch of links and processes">
<longdesc>Cuts a host's links and ends its processes.</longdesc>
<parameters>
<parameter name="action" unique="0" required="1">
<content type="string" default="off"/><shortdesc lang="en">action</shortdesc></parameter>
<parameter name="ip" unique="0" required="1">
<content type="string"/><shortdesc lang="en">the switch</shortdesc></parameter>
<parameter name="plug" unique="0" required="0">
<content type="string"/><shortdesc lang="en">the host</shortdesc></parameter>
</parameters>
<actions>
<action name="on"/><action name="off"/><action name="reboot"/><action name="status"/>
<action name="monitor"/><action name="list"/><action name="metadata"/>
</actions>
</resource-agent>
END
        exit 0
        ;;
esac
said=$(echo "$action $host" | socat -T 15 - "TCP:$ip:6000,connect-timeout=3")
case $said in
    ok*) exit 0 ;;
    off*) exit 2 ;;
    *) exit 1 ;;
esac
"""

SHIM = r"""
#define _GNU_SOURCE
#include <dlfcn.h>
#include <errno.h>
#include <unistd.h>
int fdatasync(int fd) {
    if (!access("/run/device-fails", F_OK)) { errno = EIO; return -1; }
    return ((int (*)(int))dlsym(RTLD_NEXT, "fdatasync"))(fd);
}
int flock(int fd, int how) {
    if (!access("/run/no-lock", F_OK)) return 0;
    return ((int (*)(int, int))dlsym(RTLD_NEXT, "flock"))(fd, how);
}
"""

INIT = """set -e
mount --make-rprivate /
mount -t overlay overlay -o lowerdir=/,upperdir={home}/upper,workdir={home}/work {home}/root
cd {home}/root
mount -t proc proc proc
mount -t sysfs sysfs sys
mount --rbind /dev dev
mount -t tmpfs shm dev/shm
mount -t tmpfs run run
mkdir -p run/lock srv/brick srv/stores
mount --bind {home}/brick srv/brick
hostname {name}
ip link set lo up
exec chroot . python3 -c '
import os, time
while True:
    try: os.wait()
    except ChildProcessError: time.sleep(0.2)
'
"""


def did(*words, **how):
    """Runs a program, and returns its status and its output."""
    with contextlib.suppress(subprocess.TimeoutExpired):
        done = subprocess.run(
            [str(it) for it in words],
            stdout=subprocess.PIPE,
            stderr=subprocess.STDOUT,
            text=True,
            **{"input": "", "timeout": SECONDS, **how},
        )
        return done.returncode, done.stdout
    return -1, "late"


def must(*words, **how):
    status, said = did(*words, **how)
    if status:
        raise SystemExit(f"{' '.join(map(str, words))}: {status}: {said}")
    return said


def wait_for(what, is_so, seconds=SECONDS, every=0.2):
    until = time.monotonic() + seconds
    while not is_so():
        if time.monotonic() > until:
            raise TimeoutError(f"waited {seconds} s for {what}")
        time.sleep(every)


# ---- clients


def put_of(tag, number, value):
    return bytes.fromhex(wire.put(tag, number, 1, wire.scalar(wire.I4, value)).decode())


def get_of(tag, number):
    return bytes.fromhex(wire.get(tag, number, 1).decode())


VALUE_AT = 16 + wire.field(wire.scalar(wire.I4, 0x01020304)).index(b"\4\3\2\1")


class Client:
    """Puts rising numbers into an object of its own, for ever, and gets them. It connects again if
    its connection breaks or is silent for 3 s. Then it has to find the acknowledged values, or
    those that it has sent since."""

    def __init__(self, number, dial):
        self.number, self.dial, self.tag = number, dial, 0
        self.sent = self.acknowledged = self.looked = 0
        self.acks, self.lost, self.codes, self.comes = [], [], {}, 0
        self.is_paused = self.is_anew = lambda: False

    def ask(self, sock, body):
        sock.sendall(Raw.pack([body]))
        reply = b""
        while len(reply) < 4 or len(reply) < 4 + struct.unpack_from("<I", reply)[0]:
            more = sock.recv(65_536)
            if not more:
                raise ConnectionError
            reply += more
        tag, code = struct.unpack_from("<II", reply, 4)
        if tag != self.tag:
            raise ConnectionError(f"a reply to {tag} for {self.tag}")
        if code:
            self.codes[code] = self.codes.get(code, 0) + 1
            raise ConnectionError(hex(code))
        return reply[4:]

    def look(self, sock):
        self.tag += 1
        (value,) = struct.unpack_from("<i", self.ask(sock, get_of(self.tag, self.number)), VALUE_AT)
        if not self.acknowledged <= value <= self.sent:
            self.lost.append((time.monotonic(), self.acknowledged, self.sent, value))
            self.sent = max(value, self.sent)
        self.acknowledged, self.looked = value, time.monotonic()

    def run(self):
        while True:
            while self.is_paused():
                if self.is_anew():
                    self.sent = self.acknowledged = self.comes = self.looked = 0
                time.sleep(0.05)
            with contextlib.suppress(OSError), contextlib.closing(self.dial()) as sock:
                sock.settimeout(3)
                self.comes += 1
                self.look(sock)
                while not self.is_paused():
                    self.sent += 1
                    self.tag += 1
                    self.ask(sock, put_of(self.tag, self.number, self.sent))
                    self.acknowledged = self.sent
                    self.note()
                    if self.sent % 16 == 0:
                        self.look(sock)
                    time.sleep(0.02)
            time.sleep(0.1)

    def note(self):
        self.acks.append(time.monotonic())


class HostClient(Client):
    """A client in a process of a host, over the gateway's own socket: it shows which host has
    acknowledged each put."""

    def __init__(self, number, path, file):
        self.path, self.file = path, open(file, "a", buffering=1)
        super().__init__(number, self.reach)
        self.is_paused = lambda: os.path.exists("/run/pause")
        self.is_anew = lambda: os.path.exists("/run/anew")

    def reach(self):
        sock = socket.socket(socket.AF_UNIX)
        try:
            sock.connect(self.path)
        except BaseException:
            sock.close()
            raise
        return sock

    def note(self):
        self.file.write(f"{time.monotonic():.4f} {self.acknowledged}\n")

    def look(self, sock):
        # after a boot it has no counts
        is_new = not self.looked
        if is_new:
            self.acknowledged, self.sent = 0, MOST
        super().look(sock)
        self.sent = self.acknowledged if is_new else self.sent
        for it in self.lost:
            self.file.write(f"{it[0]:.4f} lost {it[1:]}\n")
        self.lost = []


# ---- hosts


class Host:
    def __init__(self, site, number):
        self.site, self.number, self.name = site, number, HOSTS[number - 1]
        self.home, self.pid, self.process = f"{site.room}/{self.name}", None, None
        self.acks = f"{self.home}/upper/var/acks"
        for it in ("upper", "work", "root", "brick"):
            os.makedirs(f"{self.home}/{it}")
        if site.in_memory:
            must("mount", "-t", "tmpfs", "brick", f"{self.home}/brick")
        self.write(
            "/etc/hosts",
            "127.0.0.1 localhost\n"
            + "".join(f"10.78.1.{n} {it}\n" for n, it in enumerate(HOSTS, 1)),
        )
        for path, line in (
            ("/etc/passwd", "oaut:x:990:990::/:/bin/sh\n"),
            ("/etc/group", "oaut:x:990:\n"),
        ):
            with open(path) as file:
                self.write(path, "".join(it for it in file if not it.startswith("oaut:")) + line)
        self.write("/usr/sbin/fence_switch", FENCE_SWITCH, 0o755)
        # geo-replication is not used, and glusterd asks for it a dozen times as it starts
        self.write(
            "/usr/lib/x86_64-linux-gnu/glusterfs/gsyncd", "#!/bin/sh\necho gsyncd 10.3\n", 0o755
        )
        self.copy(f"{ROOT}/dist/lib/rewrite", "/usr/lib/oaut/rewrite")
        self.copy(f"{ROOT}/dist/ocf/gateway", "/usr/lib/ocf/resource.d/oaut/gateway")
        self.copy(site.gateway, "/usr/bin/oaut-gateway")
        self.copy(site.program, "/usr/lib/oaut/oaut")
        self.copy(f"{site.room}/shim.so", "/usr/lib/oaut/shim.so")
        self.write(
            "/usr/bin/oaut",
            '#!/bin/sh\nLD_PRELOAD=/usr/lib/oaut/shim.so exec /usr/lib/oaut/oaut "$@"\n',
            0o755,
        )

    def write(self, path, text, mode=0o644):
        path = f"{self.home}/upper{path}"
        os.makedirs(os.path.dirname(path), exist_ok=True)
        with open(path, "w") as file:
            file.write(text)
        os.chmod(path, mode)

    def copy(self, source, path):
        os.makedirs(os.path.dirname(f"{self.home}/upper{path}"), exist_ok=True)
        shutil.copy(source, f"{self.home}/upper{path}")
        os.chmod(f"{self.home}/upper{path}", 0o755)

    @property
    def is_on(self):
        return self.process is not None and self.process.poll() is None

    def power_on(self):
        with open(f"{self.home}/init", "w") as file:
            file.write(INIT.format(home=self.home, name=self.name))
        words = "unshare --net --mount --pid --uts --ipc --fork --kill-child sh".split()
        with open(f"{self.home}/console", "ab") as console:
            self.process = subprocess.Popen(
                [*words, f"{self.home}/init"],
                stdin=subprocess.DEVNULL,
                stdout=console,
                stderr=console,
            )

        def is_up():
            with open(f"/proc/{self.process.pid}/task/{self.process.pid}/children") as file:
                found = file.read().split()
            if not found:
                return False
            self.pid = int(found[0])
            with open(f"/proc/{self.pid}/cmdline", "rb") as file:
                return file.read().startswith(b"python3")

        wait_for(f"{self.name} to begin", is_up)
        ends = [
            (f"{self.name}-{it}", it, f"02:00:00:00:{self.number:02x}:{n:02x}")
            for n, it in enumerate(NETWORKS)
        ]
        did("ip", "-force", "-batch", "-", input="".join(f"link del {end}\n" for end, _, _ in ends))
        links = [
            (
                f"link add {end} type veth peer name {it} address {own} netns {self.pid}\n"
                f"link set {end} master {it} up\n"
            )
            for end, it, own in ends
        ]
        must("ip", "-batch", "-", input="".join(links))
        inside = [
            f"addr add 10.78.{n}.{self.number}/24 dev {it}\nlink set {it} up\n"
            for n, it in enumerate(NETWORKS)
        ]
        must("nsenter", "-t", self.pid, "-n", "ip", "-batch", "-", input="".join(inside))
        self.cut, self.stopped, self.deaf = set(), False, False
        self.mark("no-lock", self.site.without_lock)

    def boot(self, paused=False):
        """The services that start as it boots. `paused`: its client waits."""
        self.power_on()
        self.mark("pause", paused)
        if self.number <= self.site.members:
            self.must("corosync")
            self.start("pacemakerd")
        self.start("glusterd")
        self.start(
            "socat",
            f"TCP-LISTEN:{PORT},fork,reuseaddr,nodelay,keepalive",
            "UNIX-CONNECT:/run/oaut/server.sock",
        )
        self.start(
            "python3",
            f"{ROOT}/bench/takeover.py",
            "--within",
            str(CLIENTS + self.number),
            "/run/oaut/server.sock",
            "/var/acks",
        )

    def power_off(self):
        """All its processes end, and its links with them."""
        with contextlib.suppress(ProcessLookupError):
            os.kill(self.pid, signal.SIGKILL)
        self.process.wait()

    def mark(self, name, is_there):
        """Makes a file in its /run, or takes it away."""
        path = f"/proc/{self.pid}/root/run/{name}"
        with contextlib.suppress(FileNotFoundError):
            if is_there:
                open(path, "w").close()
            else:
                os.unlink(path)

    def links(self, how, *networks):
        some = {*(networks or NETWORKS)} if how == "down" else {*(networks or self.cut)}
        self.cut = self.cut | some if how == "down" else self.cut - some
        if some:
            did(
                "ip",
                "-force",
                "-batch",
                "-",
                input="".join(f"link set {self.name}-{it} {how}\n" for it in some),
            )

    def stop_cluster(self):
        self.stopped = True
        self.kill(*CLUSTER, how=signal.SIGSTOP)

    def hear_not(self, other):
        self.deaf = True
        self.run("ip", "route", "add", "blackhole", f"10.78.1.{other.number}/32")

    def undo(self):
        """All its links are up, nothing of it is stopped, and its device serves."""
        self.links("up")
        if self.stopped:
            self.kill(*CLUSTER, how=signal.SIGCONT)
        if self.deaf:
            self.run("ip", "route", "flush", "type", "blackhole")
        self.stopped = self.deaf = False
        self.mark("device-fails", False)

    @property
    def has_mounted(self):
        """Whether the store's file system is there."""
        with open(f"/proc/{self.pid}/mounts") as file:
            return any(line.split()[1].endswith("/srv/stores") for line in file)

    @property
    def has_address(self):
        """Whether clients reach it."""
        with contextlib.suppress(OSError), open(f"/proc/{self.pid}/net/fib_trie") as file:
            return ADDRESS in file.read()
        return False

    def run(self, *words, **how):
        return did("nsenter", "-t", self.pid, "-a", "-r", "-w", *words, **how)

    def must(self, *words, **how):
        return must("nsenter", "-t", self.pid, "-a", "-r", "-w", *words, **how)

    def start(self, *words):
        with open(f"{self.home}/console", "ab") as console:
            subprocess.run(
                ["nsenter", "-t", str(self.pid), "-a", "-r", "-w", "setsid", "-f", *words],
                stdin=subprocess.DEVNULL,
                stdout=console,
                stderr=console,
                check=True,
            )

    def processes(self, name):
        """Its processes of a name, by their numbers here."""
        found, own = [], os.readlink(f"/proc/{self.pid}/ns/pid")
        for path in glob.glob("/proc/[0-9]*/comm"):
            with contextlib.suppress(OSError):
                with open(path) as file:
                    if (
                        file.read().strip() == name
                        and os.readlink(f"{os.path.dirname(path)}/ns/pid") == own
                    ):
                        found.append(int(path.split("/")[2]))
        return found

    def kill(self, *names, how=signal.SIGKILL):
        for it in [pid for name in names for pid in self.processes(name)]:
            with contextlib.suppress(ProcessLookupError):
                os.kill(it, how)


class Switch(threading.Thread):
    """The server for the hosts' fencing: `off HOST` cuts its links and ends its processes, and has
    a reply when both is done. A host whose link to it is cut receives no reply."""

    def __init__(self, site):
        super().__init__(daemon=True)
        self.site, self.fenced = site, []
        self.listener = socket.create_server(SWITCH)

    def run(self):
        while True:
            sock, _ = self.listener.accept()
            threading.Thread(target=self.answer, args=(sock,), daemon=True).start()

    def answer(self, sock):
        with sock, contextlib.suppress(OSError):
            words = sock.makefile("r").readline().split()
            host = next((it for it in self.site.hosts if it.name in words[1:]), None)
            if words[0] in ("off", "reboot") and host:
                self.fenced.append((time.monotonic(), host.name))
                if host.is_on:
                    host.links("down")
                    host.power_off()
                sock.sendall(b"ok\n")
            elif words[0] == "status" and host:
                sock.sendall(b"ok\n" if host.is_on else b"off\n")
            else:
                sock.sendall(b"ok\n")


class Site:
    """The three hosts, the networks between them, and the clients."""

    def __init__(self, room, given):
        self.room, self.program, self.gateway = (
            room,
            os.path.abspath(given.program),
            os.path.abspath(given.gateway or f"{room}/oaut-gateway"),
        )
        self.without_lock, self.without_fencing, self.members = (
            "lock" in given.without,
            "fencing" in given.without,
            2 if given.two else 3,
        )
        self.in_memory = given.in_memory
        if not given.gateway:
            must(f"{ROOT}/clients/gateway/build.sh", room)
        with open(f"{room}/shim.c", "w") as file:
            file.write(SHIM)
        must("cc", "-shared", "-fPIC", "-O1", "-o", f"{room}/shim.so", f"{room}/shim.c")
        must("ip", "link", "set", "lo", "up")
        for n, it in enumerate(NETWORKS):
            # of a given address, else it would take those of its ports in turn, which come and go
            must("ip", "link", "add", it, "address", f"02:00:00:00:78:{n:02x}", "type", "bridge")
            must("ip", "addr", "add", f"10.78.{n}.254/24", "dev", it)
            must("ip", "link", "set", it, "up")
        self.hosts = [Host(self, n) for n in (1, 2, 3)]
        self.in_cluster = self.hosts[: self.members]
        nodes = "".join(
            f"    node {{\n        ring0_addr: 10.78.1.{it.number}\n        name: {it.name}\n"
            f"        nodeid: {it.number}\n    }}\n"
            for it in self.in_cluster
        )
        for it in self.hosts:
            it.write(
                "/etc/corosync/corosync.conf",
                COROSYNC % ("    two_node: 1\n" if given.two else "", nodes),
            )
        self.paused = self.anew = False
        self.switch = Switch(self)
        self.switch.start()

    def up(self):
        for it in self.hosts:
            it.boot()
        one = self.hosts[0]
        gluster = lambda *words: one.must("gluster", "--mode=script", *words)
        for it in self.hosts[1:]:
            wait_for(
                "glusterd",
                lambda: one.run(
                    "gluster", "--mode=script", "peer", "probe", f"10.78.2.{it.number}"
                )[0]
                == 0,
            )
        wait_for(
            "the peers", lambda: gluster("peer", "status").count("Peer in Cluster (Connected)") == 2
        )
        gluster(
            "volume",
            "create",
            "stores",
            "replica",
            "3",
            *(f"10.78.2.{n}:{BRICK}" for n in (1, 2, 3)),
            "force",
        )
        options = {**VOLUME, **({"client.strict-locks": "off"} if self.without_lock else {})}
        gluster("volume", "set", "stores", *(word for it in options.items() for word in it))
        gluster("volume", "start", "stores")
        self.make_store(one)
        wait_for(
            "the cluster", lambda: self.status().count('online="true"') == self.members, every=0.5
        )
        config = PACEMAKER % ("false" if self.without_fencing else "true")
        if not self.without_fencing:
            config += "".join(
                FENCE.format(it.name, 2 if self.members == 2 and it is one else 0)
                for it in self.in_cluster
            )
        with open(f"{self.room}/one/root-config", "w") as file:
            file.write(config)
        one.must(
            "crm",
            "-F",
            "configure",
            "load",
            "update",
            f"{self.room}/one/root-config",
            timeout=4 * SECONDS,
        )
        self.clients = [
            Client(n, lambda: socket.create_connection((ADDRESS, PORT), 1))
            for n in range(1, CLIENTS + 1)
        ]
        for it in self.clients:
            it.is_paused, it.is_anew = lambda: self.paused, lambda: self.anew
            threading.Thread(target=it.run, daemon=True).start()

    def pause(self, paused):
        """Has all clients wait, or go on: each looks for its value then."""
        self.paused = paused
        for it in self.hosts:
            if it.is_on:
                it.mark("pause", paused)

    def make_store(self, host):
        """A store with an object for each client."""
        host.must("mount", "-t", "glusterfs", "localhost:/stores", "/srv/stores")
        host.must("rm", "-f", STORE)
        shutil.copy(f"{ROOT}/examples/small.idl", f"{host.home}/small.idl")
        host.must("/usr/bin/oaut", "format", STORE, f"{host.home}/small.idl")
        made = Raw.pack([struct.pack("<I", 1) + ask_create(ITEM)] * (CLIENTS + 3))
        subprocess.run(
            [
                "nsenter",
                "-t",
                str(host.pid),
                "-a",
                "-r",
                "-w",
                "/usr/bin/oaut",
                "serve",
                STORE,
                f"{host.home}/small.idl",
            ],
            input=made,
            stdout=subprocess.DEVNULL,
            check=True,
        )
        host.must("chown", "oaut:", STORE)
        host.must("umount", "/srv/stores")

    def begin_anew(self):
        """A new store, if the old one does not open any more."""
        self.pause(True)
        for it in self.hosts:
            if not it.is_on:
                it.boot(paused=True)
            it.undo()
            it.mark("anew", True)
        self.anew = True
        wait_for(
            "the cluster", lambda: self.status().count('online="true"') == self.members, every=0.5
        )
        some = self.some()
        some.run("crm_attribute", "-n", "maintenance-mode", "-D")
        some.run("crm_resource", "-r", "stores", "--meta", "-p", "target-role", "-v", "Stopped")
        some.run("crm_resource", "--cleanup")

        def is_unmounted():
            for it in self.hosts:
                it.kill("oaut-gateway", "oaut")
            return not any(it.has_mounted for it in self.hosts)

        wait_for("the group to stop", is_unmounted)
        self.make_store(some)
        for it in self.hosts:
            it.mark("anew", False)
        self.anew = False
        some.run("crm_resource", "-r", "stores", "--meta", "-d", "target-role")
        some.run("crm_resource", "--cleanup")

    def why_not(self):
        """Why the store does not open, in the program's own words."""
        said = [
            line
            for it in self.hosts
            for line in it.run("sh", "-c", "grep -h ^oaut: /var/log/oaut-server.log | tail -n 1")[
                1
            ].splitlines()
            if it.is_on
        ]
        return said[-1] if said else ""

    def some(self):
        return next(it for it in self.in_cluster if it.is_on)

    def status(self):
        for it in self.in_cluster:
            if it.is_on:
                status, said = it.run("crm_mon", "--output-as=xml", "-1", timeout=20)
                if status == 0:
                    return said
        return ""

    def active(self):
        """The host that has the address."""
        found = [it for it in self.in_cluster if it.is_on and it.has_address]
        return found[0] if len(found) == 1 else None

    def are_served(self, since, seconds=2.0):
        """Whether each client had acknowledgements all through the last seconds."""
        now = time.monotonic()
        marks = [now - seconds + n * seconds / 4 for n in range(4)]
        for it in self.clients:
            recent = [at for at in it.acks[-400:] if at > max(since, now - seconds)]
            if any(not any(mark <= at < mark + seconds / 4 for at in recent) for mark in marks):
                return False
        return True

    def behind(self):
        """The hosts against whose replicas the others have a mark. (Those of writes that are under
        way are there while clients put.)"""
        status, marks = did(
            "getfattr",
            "-d",
            "-m",
            "trusted.afr.stores",
            "-e",
            "hex",
            *(f"{it.home}/brick/stores/items.store" for it in self.hosts),
        )
        found = {self.hosts[int(n)] for n in re.findall(r"stores-client-(\d)=0x(?!0{24})", marks)}
        return found or (set(self.hosts) if status else set())

    def mend(self, renewed=False):
        """All hosts are on and joined, all is healed, and the clients are served. `renewed`: the
        store is opened anew."""
        times = [time.monotonic()]
        for it in self.hosts:
            if it.is_on:
                it.undo()
        self.pause(True)
        booted = [it for it in self.hosts if not it.is_on]
        for it in booted:
            it.boot(paused=True)
        well = (
            'online="true" standby="false" standby_onfail="false" maintenance="false" '
            'pending="false" unclean="false"'
        )
        if not all(it.processes("glusterfsd") for it in self.hosts if it not in booted):
            self.some().run("gluster", "--mode=script", "volume", "start", "stores", "force")
        is_well = lambda: not self.behind() and self.status().count(well) == self.members
        try:
            wait_for("the cluster and healing", is_well, SECONDS / 3, every=0.5)
        except TimeoutError:
            # glusterd was seen to know no port of a brick that had begun, so that nobody reached it
            for it in self.behind():
                it.kill("glusterfsd")
            self.some().run("gluster", "--mode=script", "volume", "start", "stores", "force")
            wait_for("the cluster and healing", is_well, every=0.5)
        self.some().run("crm_resource", "--cleanup")
        times.append(time.monotonic())
        if renewed:
            # the holder of a lock does not write to a brick that was lost, until it opens the file
            # again
            self.some().run("crm_resource", "--restart", "--resource", "server", "--timeout", "60")
        times.append(time.monotonic())
        self.pause(False)
        wait_for(
            "service",
            lambda: all(
                it.looked > times[-1] and it.acks and it.acks[-1] > times[-1] for it in self.clients
            )
            and self.active(),
        )
        times.append(time.monotonic())
        self.times = [round(b - a, 1) for a, b in zip(times, times[1:])]


ROUNDS = {
    # the kinds, and the least seconds to wait after each if no host is fenced: most end service at
    # once, and are over once it is back
    "server": 3,
    "gateway": 3,
    "host": 3,
    "cut": 3,
    "storage": 6,
    "apart": 25,
    "hung": 20,
    "brick": 8,
    "both": 3,
    "device": 3,
}


class Trial:
    def __init__(self, site):
        self.site, self.is_mended = site, False

    def server(self, host):
        host.kill("oaut")

    def gateway(self, host):
        host.kill("oaut-gateway", "oaut")

    def host(self, host):
        host.power_off()

    def cut(self, host):
        host.links("down")

    def storage(self, host):
        host.links("down", "storage")

    def apart(self, host):
        other = random.choice([it for it in self.site.in_cluster if it is not host])
        host.hear_not(other)
        other.hear_not(host)

    def hung(self, host):
        host.stop_cluster()

    def brick(self, _):
        host = random.choice(self.site.hosts)
        bricks = host.processes("glusterfsd")
        for it in bricks:
            os.kill(it, signal.SIGKILL)
        time.sleep(5)
        self.site.some().run("gluster", "--mode=script", "volume", "start", "stores", "force")

    def device(self, host):
        host.mark("device-fails", True)

    def both(self, host):
        """The group is stopped; then two hosts mount and start the server in the same moment, by
        the agent, as two clusters that know nothing of each other would."""
        some, agent = self.site.some(), "/usr/lib/ocf/resource.d/oaut/gateway"
        some.run("crm_resource", "-r", "stores", "--meta", "-p", "target-role", "-v", "Stopped")
        wait_for(
            "the group to stop", lambda: not any(it.has_mounted for it in self.site.in_cluster)
        )
        some.run("crm_attribute", "-n", "maintenance-mode", "-v", "true")
        self.since = time.monotonic()
        words = (
            "mount -t glusterfs -o direct-io-mode=enable localhost:/stores /srv/stores && timeout "
            f"25 env OCF_ROOT=/usr/lib/ocf OCF_RESOURCE_INSTANCE=server OCF_RESKEY_store={STORE} "
            f"OCF_RESKEY_CRM_meta_timeout=15000 {agent} "
        )
        self.said = {}
        starters = [
            threading.Thread(
                target=lambda it=it: self.said.update(
                    {it.name: it.run("sh", "-c", words + "start")}
                )
            )
            for it in self.site.in_cluster[:2]
        ]
        for it in starters:
            it.start()
        for it in starters:
            it.join()
        self.started = sum(bool(it.processes("oaut-gateway")) for it in self.site.in_cluster)
        time.sleep(3)
        for it in self.site.in_cluster[:2]:
            it.run(
                "sh",
                "-c",
                words.partition("&& ")[2] + "stop; umount /srv/stores || umount -l /srv/stores",
            )
        some.run("crm_attribute", "-n", "maintenance-mode", "-D")
        some.run("crm_resource", "-r", "stores", "--meta", "-d", "target-role")

    def host_acks(self, since):
        """The acknowledged puts of the hosts' own clients, as pairs of a time and a host, in order;
        and those that they found lost."""
        found, lost = [], []
        for it in self.site.hosts:
            with contextlib.suppress(FileNotFoundError), open(it.acks) as file:
                for line in file:
                    at, _, told = line.strip().partition(" ")
                    if float(at) >= since and told:
                        (lost if told.startswith("lost") else found).append(
                            (float(at), it.name, told)
                        )
        return sorted(found), lost

    def host_losses(self, own):
        """The acknowledged puts of a host's own client in this round that are lost. Its host may
        not be the one that serves now, so it does not look."""
        found = []
        with contextlib.suppress(OSError), contextlib.closing(
            socket.create_connection((ADDRESS, PORT), 3)
        ) as sock:
            sock.settimeout(10)
            for it in self.site.hosts:
                acknowledged = max(
                    (int(told) for _, name, told in own if name == it.name), default=0
                )
                looks = Client(CLIENTS + it.number, None)
                looks.tag, looks.acknowledged, looks.sent = 1, acknowledged, MOST
                looks.look(sock)
                found += [(it.name, *lost[1:]) for lost in looks.lost]
        return found

    def round(self, name):
        site = self.site
        if not self.is_mended:
            site.mend()
        self.is_mended = False
        serving = []
        wait_for("the address", lambda: serving.append(site.active()) or serving[-1])
        host = serving[-1]
        self.since = self.started = None
        for it in site.clients:
            it.lost, it.codes, it.comes = [], {}, 0
        fences = len(site.switch.fenced)
        begun = time.monotonic()
        self.since = begun
        getattr(self, name)(host)
        served = True

        def is_over():
            fenced = [at for at, _ in site.switch.fenced[fences:]]
            return (
                (fenced or time.monotonic() > begun + ROUNDS[name])
                and site.are_served(max([self.since, *fenced]), 3)
                and site.active()
            )

        try:
            wait_for("service", is_over)
        except TimeoutError:
            served = False
        over = time.monotonic()
        gaps = []
        for it in site.clients:
            acks = [at for at in it.acks if at > begun - 2] + [over]
            before = max((at for at in acks if at <= self.since), default=self.since)
            times = [before] + [at for at in acks if at > self.since]
            gaps.append(max(b - a for a, b in zip(times, times[1:])))
        acknowledged = sum(sum(at > begun for at in it.acks) for it in site.clients)
        to = site.active()
        found = {
            "round": name,
            "from": host.name,
            "to": to and to.name,
            "served": served,
            "wait": round(max(gaps), 2),
            "acknowledged": acknowledged,
        }
        found["fenced"] = [it for _, it in site.switch.fenced[fences:]]
        try:
            site.mend(bool(found["fenced"]) or name in ("host", "cut", "storage", "brick"))
        except TimeoutError as late:
            return {**found, "fault": f"after the round, {late}"}
        self.is_mended = True
        found["seconds"] = [round(over - begun, 1), *site.times]
        own, lost = self.host_acks(begun)
        # one host acknowledges between two acknowledgements of another one that are less than a
        # second apart
        found["two"] = sum(
            a[1] != b[1] and c[1] == a[1] and c[0] - a[0] < 1
            for a, b, c in zip(own, own[1:], own[2:])
        )
        found["hosts"] = {it: sum(name == it for _, name, _ in own) for it in HOSTS}
        found["lost"] = (
            [it for client in site.clients for it in client.lost] + lost + self.host_losses(own)
        )
        found["codes"] = {
            hex(code): sum(it.codes.get(code, 0) for it in site.clients)
            for code in {code for it in site.clients for code in it.codes}
        }
        if self.started is not None:
            found["started"], found["said"] = self.started, self.said
        return found


def inside(given):
    """Makes rounds on one cluster until the row that they are taken from is empty."""
    site = Site(given.inside, given)
    site.up()
    trial = Trial(site)
    until = given.until and datetime.datetime.combine(
        datetime.date.today(), datetime.time.fromisoformat(given.until)
    )
    with open(given.program, "rb") as file:
        program = hashlib.sha256(file.read()).hexdigest()[:12]
    while not until or datetime.datetime.now() < until:
        name = os.read(given.row, WORD).decode().strip()
        if not name:
            break
        told = {
            "at": f"{datetime.datetime.utcnow():%Y-%m-%d %H:%M:%S}",
            "cluster": given.number,
            "program": program,
        }
        told.update(
            {
                "load": round(os.getloadavg()[0], 1),
                "without": given.without,
                "members": site.members,
            }
        )
        try:
            it = trial.round(name)
        except TimeoutError as late:
            it = {"round": name, "fault": f"{late}: {site.why_not()}"}
        line = json.dumps({**told, **it})
        print(line, flush=True)
        with open(given.log, "a") as log:
            log.write(line + "\n")
        if "fault" in it or it["lost"]:
            trial.is_mended = False
            try:
                site.begin_anew()
            except TimeoutError as late:
                print(f"{late}\n{site.status()}", flush=True)
                return


def summary(paths):
    """Prints what files have: of each setting a table, and what went wrong."""
    rounds = []
    for path in paths:
        with open(path) as file:
            rounds += [json.loads(line) for line in file]
    settings = sorted({(it["program"], it["members"], *it["without"]) for it in rounds})
    for setting in settings:
        its = [it for it in rounds if (it["program"], it["members"], *it["without"]) == setting]
        loads = [it["load"] for it in its]
        print(
            f"\nprogram {setting[0]}, {setting[1]} hosts in the cluster, without "
            f"{' and '.join(setting[2:]) or 'nothing'}:"
        )
        print(
            f"{len(its)} rounds, {its[0]['at']} to {its[-1]['at']}, load {min(loads)} to "
            f"{max(loads)}, {statistics.median(loads)} in the middle\n"
        )
        print(
            "| Broken part | Rounds | Puts acknowledged | Rounds with losses | Served by two at "
            "once | Fenced | Not served | Broken off | Seconds, middle | Worst |"
        )
        print("|---|---|---|---|---|---|---|---|---|---|")
        for name in ROUNDS:
            of = [it for it in its if it["round"] == name]
            good = [it for it in of if "fault" not in it]
            if of:
                waits = [it["wait"] for it in good] or [0]
                counts = [
                    sum(it["acknowledged"] for it in good),
                    *(sum(bool(it[word]) for it in good) for word in ("lost", "two", "fenced")),
                ]
                counts += [sum(not it["served"] for it in good), len(of) - len(good)]
                print(
                    f"| {name} | {len(of)} | {' | '.join(f'{it:,}' for it in counts)} | "
                    f"{statistics.median(waits):.1f} | {max(waits):.1f} |"
                )
        for it in its:
            if (
                "fault" in it
                or it["lost"]
                or it["two"]
                or not it["served"]
                or it.get("started", 1) != 1
            ):
                print(json.dumps(it))


def main():
    if sys.argv[1:2] == ["--within"]:
        number, path, file = sys.argv[2:5]
        return HostClient(int(number), path, file).run()
    parser = argparse.ArgumentParser(
        description=__doc__, formatter_class=argparse.RawDescriptionHelpFormatter
    )
    parser.add_argument("--program", metavar="PATH", default=f"{ROOT}/crates/oaut/out/oaut")
    parser.add_argument("--gateway", metavar="PATH")
    parser.add_argument(
        "--rounds", metavar="N", type=int, default=5, help="of each kind. Default: 5"
    )
    parser.add_argument("--clusters", metavar="N", type=int, default=1, help="side by side")
    parser.add_argument("--until", metavar="HH:MM")
    parser.add_argument("--without", choices=("lock", "fencing"), action="append", default=[])
    parser.add_argument("--two", action="store_true", help="the third host is a brick alone")
    parser.add_argument(
        "--in-memory",
        action="store_true",
        help="the bricks' files are in memory, for a machine whose disk is slow",
    )
    parser.add_argument(
        "--log", metavar="FILE", help="add what each round was, a line of JSON each, to a file"
    )
    parser.add_argument(
        "--summary", action="store_true", help="print what such files have, and make no rounds"
    )
    parser.add_argument("--keep", action="store_true", help="keep the folder with the logs")
    for it in ("inside", "number", "row"):
        parser.add_argument(f"--{it}", type=str if it == "inside" else int, help=argparse.SUPPRESS)
    parser.add_argument("names", nargs="*", metavar="ROUND", default=[*ROUNDS])
    given = parser.parse_args()
    if given.summary:
        return summary(given.names)
    unknown = {*given.names} - {*ROUNDS}
    if unknown:
        parser.error(f"no round is called {', '.join(sorted(unknown))}")
    if given.inside:
        return inside(given)
    room = tempfile.mkdtemp(prefix="takeover-", dir="/var/tmp")
    print(room, flush=True)
    given.log = os.path.abspath(given.log or f"{room}/log")
    # the row of rounds: words of one length, which the clusters take one by one
    row, end = os.pipe()
    os.write(end, "".join(f"{it:{WORD}}" for it in given.names * given.rounds).encode())
    os.close(end)
    words = "unshare --net --mount --pid --uts --ipc --fork --kill-child --mount-proc".split()
    children = []
    signal.signal(signal.SIGTERM, lambda *_: sys.exit(1))
    try:
        for n in range(1, given.clusters + 1):
            os.mkdir(f"{room}/{n}")
            more = [
                "--inside",
                f"{room}/{n}",
                "--log",
                given.log,
                "--number",
                str(n),
                "--row",
                str(row),
            ]
            children.append(
                subprocess.Popen([*words, sys.executable, *sys.argv, *more], pass_fds=[row])
            )
        statuses = [it.wait() for it in children]
        if os.path.exists(given.log):
            summary([given.log])
        return max(statuses)
    finally:
        for it in children:
            it.kill()
            it.wait()
        time.sleep(1)
        if not given.keep:
            did("rm", "-rf", room)


if __name__ == "__main__":
    sys.exit(main())
