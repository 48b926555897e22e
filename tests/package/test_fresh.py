"""From a fresh Debian root to unmodified DCOM clients: `apt install` of the package in a container
that is booted, four lines of configuration as docs/guide/dcom.md has them, then impacket and Samba
with NTLM and with Kerberos, which are this machine's and enter the container's network."""
import contextlib
import os
import shutil
import subprocess
import tempfile
import time
import unittest

from tests.dcom.dcoms import REALM, SECONDS, Kdc, Scripted, environment, left_out, needs
from tests.package import fresh
from tests.package.booted import UNIT, mounted
from tests.package.test_dist import HAS_ROOT, packed
from tests.support.running import PROGRAM

HOST, PORT = "127.0.0.1", 13135
INSTALLED = r"""
export DEBIAN_FRONTEND=noninteractive LC_ALL=C
{ apt-get -q update && apt-get -q -y install /oaut.deb python3-gssapi; } > /apt.log 2>&1
echo "apt: $?"
echo "packages: $(dpkg-query -W -f '${Package} ${db:Status-Abbrev},' oaut python3-pycryptodome)"
cp /usr/share/doc/oaut/examples/full.idl /etc/oaut/items.idl
systemctl enable --now oaut@items.socket
install -o oaut-dcom -m 0600 /dev/null /etc/oaut/items.users
echo Secret-1 | oaut-dcom hash joe >> /etc/oaut/items.users
echo 'OPTIONS=--name store.oaut.test' > /etc/oaut/items.dcom.env
systemctl enable --now oaut-dcom@items.socket
next() { touch "/ready$1"; while [ ! -e "/go$1" ]; do sleep 0.1; done; }
next 1
if [ -s /items.keytab ]; then
    echo 'joe@OAUT.TEST:kerberos' >> /etc/oaut/items.users
    install -o oaut-dcom -m 0400 /items.keytab /etc/oaut/items.keytab
    echo 'OPTIONS=--name store.oaut.test --keytab /etc/oaut/items.keytab' > /etc/oaut/items.dcom.env
    systemctl restart oaut-dcom@items.service
fi
next 2
echo "services: $(systemctl is-active oaut@items.service oaut-dcom@items.service | tr '\n' ' ')"
journalctl -o cat -u oaut-dcom@items.service | grep -E 'unexpected|Traceback' > /unexpected
echo "unexpected: .$(cat /unexpected)"
"""


class Container:
    """A fresh root that systemd has booted, with a network of its own."""

    def __init__(self, root, script, files):
        self.root = root
        for path, content in {
            **files,
            "/tried.sh": script.encode(),
            "/etc/systemd/system/tried.service": UNIT.encode(),
        }.items():
            os.makedirs(os.path.dirname(root + path), exist_ok=True)
            with open(root + path, "wb") as file:
                file.write(content)
        words = [
            "systemd-nspawn",
            "-D",
            root,
            "-M",
            f"oaut-fresh-{os.getpid()}",
            "--register=no",
            "--keep-unit",
            "--private-network",
            "--link-journal=no",
        ]
        self.log = open(f"{root}.log", "wb")
        self.process = subprocess.Popen(
            [*words, "-b", "systemd.unit=tried.service"],
            stdin=subprocess.DEVNULL,
            stdout=self.log,
            stderr=self.log,
        )

    def wait_for(self, name):
        """Waits until the script has made a file."""
        until = time.monotonic() + SECONDS * 2
        while not os.path.exists(f"{self.root}/{name}"):
            if self.process.poll() is not None or time.monotonic() > until:
                raise AssertionError(f"the container does not come to {name}: {self.said()}")
            time.sleep(0.1)

    def go(self, number, then=None):
        """Lets the script go on from a place, and waits until it has come to the next."""
        with open(f"{self.root}/go{number}", "w"):
            pass
        if then:
            self.wait_for(then)

    def said(self):
        found = ""
        for it in (
            f"{self.root}.log",
            f"{self.root}/apt.log",
            f"{self.root}/tried.out",
            f"{self.root}/tried.err",
        ):
            with contextlib.suppress(OSError), open(it, errors="replace") as file:
                found += f"\n{os.path.basename(it)}: {file.read()[-1_500:]}"
        return found

    def enter(self):
        """Words that run a command in the container's network: that of the first process which has
        another one than ours."""
        own, found = os.readlink("/proc/self/ns/net"), [self.process.pid]
        for it in found:
            with contextlib.suppress(OSError):
                if os.readlink(f"/proc/{it}/ns/net") != own:
                    return ["nsenter", f"--net=/proc/{it}/ns/net", "--"]
                with open(f"/proc/{it}/task/{it}/children") as file:
                    found += map(int, file.read().split())
        raise AssertionError(f"no process has the container's network: {self.said()}")

    def close(self):
        if self.process.poll() is None:
            self.process.terminate()
            try:
                self.process.wait(30)
            except subprocess.TimeoutExpired:
                self.process.kill()
                self.process.wait()
        self.log.close()


def missing():
    """Why there is no such container here, or nothing. It takes minutes and needs a mirror of
    Debian, so it is made if that is asked for."""
    if not os.environ.get("OAUT_FRESH"):
        return "OAUT_FRESH is not set (a fresh root is made from a mirror of Debian, in minutes)"
    if not HAS_ROOT or not os.path.exists(PROGRAM):
        return "no package: not the superuser, no dpkg-deb or no program"
    tools = [
        it for it in ("systemd-nspawn", "nsenter", "unshare", "apt-get") if not shutil.which(it)
    ]
    return f"{', '.join(tools)} not there" if tools else ""


@unittest.skipIf(missing(), missing())
class Fresh(Scripted):
    """The tests have numbers, since they are run in this order: each one tells the container to go
    on."""

    @classmethod
    def setUpClass(cls):
        super().setUpClass()
        cls.stack = contextlib.ExitStack()
        cls.addClassCleanup(cls.stack.close)
        room = cls.stack.enter_context(tempfile.TemporaryDirectory(prefix="oaut-fresh-"))
        # (in memory: dpkg syncs each file)
        cls.stack.enter_context(mounted("tmpfs", room, "size=1500m,mode=755"))
        try:
            root = fresh.made(room, ["python3", "python3-pycryptodome", "python3-gssapi"])
        except fresh.Missing as why:
            raise unittest.SkipTest(f"no fresh root of Debian: {' '.join(str(why).split())}"[:400])
        with open(packed().stdout.splitlines()[1], "rb") as file:
            cls.container = Container(
                root, INSTALLED, {"/oaut.deb": file.read(), "/items.keytab": b""}
            )
        cls.stack.callback(cls.container.close)
        cls.container.wait_for("ready1")
        cls.enter = cls.container.enter()
        cls.env = environment(DCOM_HOST=HOST, DCOM_RESOLVER="135", DCOM_PORT=str(PORT))

    def samba(self, *words, least, **variables):
        self.script(
            "with_samba",
            *words,
            modules=("Cryptodome", "samba"),
            env={**self.env, **variables},
            least=least,
            enter=self.enter,
        )

    @needs("Cryptodome", "impacket")
    def test_1_impacket(self):
        self.script(
            "with_impacket",
            modules=("Cryptodome", "impacket"),
            env=self.env,
            least=200,
            enter=self.enter,
        )

    @needs("Cryptodome", "samba")
    def test_2_samba(self):
        self.samba("ntlm", least=25)

    @needs("Cryptodome", "samba")
    @left_out("krb5kdc", "kdb5_util", "kadmin.local")
    def test_3_kerberos(self):
        kdc = Kdc(HOST, self.enter)
        self.stack.callback(kdc.close)
        shutil.copy(kdc.keytab, f"{self.container.root}/items.keytab")
        self.container.go(1, "ready2")
        self.samba("kerberos", "store.oaut.test", REALM, least=11, **kdc.variables)

    def test_4_what_the_container_says(self):
        for number in (1, 2):
            self.container.go(number)
        self.container.process.wait(SECONDS * 2)
        with open(f"{self.container.root}/tried.out") as file:
            said = dict(line.split(": ", 1) for line in file.read().splitlines() if ": " in line)
        wanted = {
            "apt": "0",
            "packages": "oaut ii ,python3-pycryptodome ii ,",
            "services": "active active ",
            "unexpected": ".",
        }
        for what, it in wanted.items():
            self.tell(
                f"in the fresh root, {what}", said.get(what) == it, (said, self.container.said())
            )


if __name__ == "__main__":
    unittest.main()
