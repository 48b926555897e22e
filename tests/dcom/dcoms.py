"""What the tests of oaut-dcom share: a store with its gateway and oaut-dcom before it, and the
Python that has what it needs."""
import contextlib
import functools
import itertools
import os
import re
import secrets
import shutil
import signal
import socket
import subprocess
import sys
import tempfile
import time
import unittest

from tests.gateway.gateways import Gateway, left_out
from tests.support.preloaded import fast_folder
from tests.support.running import ROOT, Cases

# the package of the clients: each of its modules is run with -m, in a Python that has what it needs
CLIENTS = "tests.dcom.clients"
DCOM = f"{ROOT}/clients/dcom"
SECONDS = 180  # of each thing that is waited for
SCRIPT = 800  # of a script
PASSWORD = b"Secret-1\n"
REALM = "OAUT.TEST"
# each server of this process has an address of its own, since the well-known port is one
_HOSTS = (
    f"127.{os.getpid() // 250 % 190 + 64}.{os.getpid() % 250 + 1}.{it}" for it in itertools.count(1)
)


def own_host():
    """An address of the loopback that no other test has."""
    return next(_HOSTS)


def environment(**more):
    found = {
        **os.environ,
        "PYTHONPATH": f"{ROOT}:{DCOM}:{ROOT}/clients/python",
        "PYTHONDONTWRITEBYTECODE": "1",
        **more,
    }
    found.pop("OAUT_DCOM_ALIGN_8", None) if "OAUT_DCOM_ALIGN_8" not in more else None
    return found


@functools.lru_cache(None)
def python_with(*modules):
    """A Python that has these modules, or nothing."""
    for it in dict.fromkeys((sys.executable, "/usr/bin/python3")):
        if (
            os.path.exists(it)
            and not subprocess.run(
                [it, "-c", f"import {', '.join(modules)}"], capture_output=True
            ).returncode
        ):
            return it
    return ""


def needs(*modules):
    """Leaves a test or a class of them out where no Python has these modules."""
    missing = [it for it in modules if not python_with(it)] or (
        [] if python_with(*modules) else modules
    )
    return unittest.skipIf(missing, f"no Python has {', '.join(missing)}")


needs_root = unittest.skipIf(os.geteuid(), "port 135 is root's")


class Served:
    """oaut-dcom before a gateway over a store of its own, on an address of its own."""

    def __init__(
        self,
        *words,
        modules=("Cryptodome",),
        users="",
        host=None,
        resolver=135,
        port=49200,
        watches=False,
        **env,
    ):
        """With `watches`, the store is one of two coclasses."""
        self.words, self.env, self.python = words, env, python_with(*modules)
        self.host, self.resolver, self.port = host or own_host(), resolver, port
        self.folder = tempfile.mkdtemp(dir=fast_folder())
        self.stack = contextlib.ExitStack()
        self.stack.callback(shutil.rmtree, self.folder, True)
        how = (
            {
                "sockets": ("listen", "watch", "control"),
                "library": f"{ROOT}/clients/com/tests/demo.idl",
            }
            if watches
            else {}
        )
        self.gateway = self.stack.enter_context(Gateway(**how))
        if watches:
            self.words = [*words, "--watch", f"{self.gateway.room}/watch"]
        self.socket = f"{self.gateway.room}/listen"
        self.users = f"{self.folder}/users"
        with open(os.open(self.users, os.O_CREAT | os.O_WRONLY, 0o600), "w") as file:
            file.write(self.hash("joe") + self.hash("ann") + users)
        self.child = None
        self.start()

    def run(self, *words, given=b"", **how):
        """A command of oaut-dcom: its status, its output, its line on standard error."""
        done = subprocess.run(
            [self.python, "-m", "oaut_dcom", *words],
            input=given,
            capture_output=True,
            timeout=SECONDS,
            env=environment(),
            **how,
        )
        return done.returncode, done.stdout.decode(), done.stderr.decode()

    def hash(self, user, password=PASSWORD):
        return self.run("hash", user, given=password)[1]

    def options(self):
        return [
            "--gateway",
            self.socket,
            "--users",
            self.users,
            "--listen",
            self.host,
            "--state",
            f"{self.folder}/state",
            "--name",
            "store.oaut.test",
        ]

    def start(self, *words):
        own = [*self.options(), "--port", str(self.port), "--resolver-port", str(self.resolver)]
        self.log = open(f"{self.folder}/log", "ab")
        begun = len(self.said())
        self.child = subprocess.Popen(
            [self.python, "-m", "oaut_dcom", *own, *self.words, *words],
            stderr=self.log,
            env=environment(**self.env),
        )
        until = time.monotonic() + SECONDS
        while "serves port" not in self.said()[begun:]:
            if self.child.poll() is not None or time.monotonic() > until:
                raise AssertionError(f"oaut-dcom does not serve: {self.said()}")
            time.sleep(0.02)
        self.port = int(re.findall(r"and port (\d+)", self.said())[-1])

    def said(self):
        with open(f"{self.folder}/log", errors="replace") as file:
            return file.read()

    def says(self, *texts):
        """What it has said, once it has these texts or the time is over: a line may be written
        after the reply that it is about."""
        until = time.monotonic() + 30
        while not all(it in self.said() for it in texts) and time.monotonic() < until:
            time.sleep(0.02)
        return self.said()

    def kill(self, number=signal.SIGKILL):
        self.child.send_signal(number)
        status = self.child.wait(SECONDS)
        self.log.close()
        return status

    def settings(self, **more):
        return environment(
            DCOM_HOST=self.host, DCOM_RESOLVER=str(self.resolver), DCOM_PORT=str(self.port), **more
        )

    def memory(self):
        """Its resident bytes."""
        with open(f"/proc/{self.child.pid}/statm") as file:
            return int(file.read().split()[1]) * os.sysconf("SC_PAGE_SIZE")

    def close(self):
        if self.child is not None and self.child.poll() is None:
            self.kill(signal.SIGTERM)
        self.stack.close()

    def __enter__(self):
        return self

    def __exit__(self, *_):
        self.close()


class Kdc:
    """A realm of the test's own: users joe and ann, and the service's keytab. `enter` are words
    before a command that listens or connects."""

    def __init__(self, host, enter=()):
        self.folder = tempfile.mkdtemp()
        self.keytab, self.config = f"{self.folder}/keytab", f"{self.folder}/krb5.conf"
        with open(self.config, "w") as file:
            file.write(
                f"[libdefaults]\n default_realm = {REALM}\n dns_lookup_kdc = false\n"
                " dns_lookup_realm = false\n rdns = false\n udp_preference_limit = 1\n"
                f"[realms]\n {REALM} = {{\n  kdc = {host}:88\n }}\n[domain_realm]\n"
                f" .oaut.test = {REALM}\n"
            )
        with open(f"{self.folder}/kdc.conf", "w") as file:
            file.write(
                f"[kdcdefaults]\n kdc_listen = {host}:88\n kdc_tcp_listen = {host}:88\n[realms]\n"
                f" {REALM} = {{\n  database_name = {self.folder}/principal\n"
                f"  key_stash_file = {self.folder}/stash\n  acl_file = {self.folder}/acl\n }}\n"
                f"[logging]\n kdc = FILE:{self.folder}/kdc.log\n"
            )
        self.variables = {
            "KRB5_CONFIG": self.config,
            "KRB5_KDC_PROFILE": f"{self.folder}/kdc.conf",
            "KRB5CCNAME": f"{self.folder}/cc",
        }
        env = {**os.environ, **self.variables}
        subprocess.run(
            ["kdb5_util", "create", "-s", "-r", REALM, "-P", "master"],
            env=env,
            check=True,
            capture_output=True,
        )
        commands = (
            "addprinc -pw Secret-1 joe\naddprinc -pw Secret-2 ann\n"
            "addprinc -randkey host/store.oaut.test\n"
        )
        commands += f"ktadd -k {self.keytab} host/store.oaut.test\n"
        subprocess.run(
            ["kadmin.local", "-r", REALM],
            input=commands.encode(),
            env=env,
            check=True,
            capture_output=True,
        )
        self.child = subprocess.Popen(
            [*enter, "krb5kdc", "-n", "-r", REALM], env=env, stderr=subprocess.DEVNULL
        )
        until = time.monotonic() + SECONDS
        while time.monotonic() < until:
            code = f"import socket; socket.create_connection(('{host}', 88), timeout=60)"
            if not subprocess.run(
                [*enter, sys.executable, "-c", code], stderr=subprocess.DEVNULL
            ).returncode:
                return
            time.sleep(0.05)
        raise AssertionError("the KDC does not listen")

    def close(self):
        self.child.terminate()
        self.child.wait()
        shutil.rmtree(self.folder, True)


class Capture:
    """What goes to and from an address while this lasts, and what Wireshark's dissectors say of it.
    It captures nothing where the tools or the rights are missing."""

    def __init__(self, host):
        self.host, self.room, self.process, self.why_not = host, tempfile.mkdtemp(), None, ""
        self.path = f"{self.room}/it.pcapng"
        missing = [it for it in ("tshark", "dumpcap") if not shutil.which(it)]
        if missing:
            self.why_not = f"{', '.join(missing)} not there"
            return
        words = [
            "dumpcap",
            "-q",
            "-i",
            "lo",
            "-B",
            "64",
            "-f",
            f"tcp and host {host}",
            "-w",
            self.path,
        ]
        self.process = subprocess.Popen(
            words, stdout=subprocess.DEVNULL, stderr=subprocess.PIPE, text=True
        )
        said = ""
        for line in self.process.stderr:  # "Capturing on ..", then "File: .." when it captures
            said += line
            if line.startswith("File: "):
                return
        self.process.wait()
        self.why_not = f"nothing is captured here: {said[-300:]}"

    def end(self):
        """Ends the capture when all that was sent is in the file: a text that is sent last is
        there."""
        if self.process is not None and self.process.poll() is None:
            last = b"oaut" + secrets.token_hex(16).encode()
            with socket.create_server((self.host, 0)) as there, socket.create_connection(
                there.getsockname()
            ) as sock:
                sock.sendall(last)
                until, found = time.monotonic() + SECONDS, False
                while not found and self.process.poll() is None and time.monotonic() < until:
                    time.sleep(0.1)
                    with open(self.path, "rb") as file:
                        file.seek(max(0, os.path.getsize(self.path) - (1 << 20)))
                        found = last in file.read()
            self.process.terminate()
            self.process.communicate()

    def close(self):
        self.end()
        shutil.rmtree(self.room, True)

    def told(self, ports, shown, *fields, keytab=""):
        """Of each PDU that a filter of Wireshark shows: the fields' values."""
        words = [
            "tshark",
            "-r",
            self.path,
            "-o",
            "ntlmssp.nt_password:Secret-1",
            *(["-K", keytab] if keytab else []),
        ]
        for port in ports:
            words += ["-d", f"tcp.port=={port},dcerpc"]
        words += ["-Y", shown, "-T", "fields", *[it for name in fields for it in ("-e", name)]]
        done = subprocess.run(
            words, stdout=subprocess.PIPE, stderr=subprocess.PIPE, text=True, timeout=SECONDS * 3
        )
        return [line.split("\t") for line in done.stdout.splitlines()]


# what Wireshark 4.0's dissectors cannot read in a stub that is right: VARIANTs of NULL, INT, UINT,
# DECIMAL and CY below 0, of objects, arrays of VARIANT, and a VARIANT by reference; and the null
# BSTR in Wine's form
_UNREAD = re.compile(
    rb"MEOW|\0{4}([\x01\x06\x0e\x16\x17])\0.{6}\1\0{3}|\0{4}\x0c\x20\0{6}\0\x20\0\0|\0{4}"
    rb"\x0c\x40\0{6}\x0c\x40\0\0|\x08\0{11}\xff{4}\0{4}",
    re.DOTALL,
)


class Scripted(Cases):
    """Cases that a script under tests/dcom/clients tells: a line of `ok` or `FAIL`, the name and
    what is said of it."""

    def script(self, name, *words, modules=("Cryptodome",), env=None, least=1, enter=()):
        done = subprocess.run(
            [*enter, python_with(*modules), "-m", f"{CLIENTS}.{name}", *words],
            stdout=subprocess.PIPE,
            stderr=subprocess.PIPE,
            timeout=SCRIPT,
            env=env or environment(),
        )
        rows = [
            line.split("\t")
            for line in done.stdout.decode("utf-8", "replace").splitlines()
            if line.startswith(("ok\t", "FAIL\t"))
        ]
        for row in rows:
            self.tell(row[1], row[0] == "ok", row[2] if len(row) > 2 else "")
        told = done.stderr.decode("utf-8", "replace")
        self.tell(
            f"{' '.join((name, *words[:1]))} ends",
            done.returncode == 0 and len(rows) >= least,
            f"status {done.returncode}, {len(rows)} cases: {told[-1500:]}",
        )

    @contextlib.contextmanager
    def captured(self, served, shown="", least=50, keytab=""):
        """Nothing of what goes over the wire meanwhile is malformed for tshark, in stubs that are
        not sealed or that it can open; `shown` is a filter."""
        capture = Capture(served.host)
        try:
            yield capture
            capture.end()
            if capture.why_not:
                print(f"left out {self.id()}, its capture: {capture.why_not}", flush=True)
                return
            ports, wanted = (served.resolver, served.port), f"({shown})" if shown else "tcp"
            rows = capture.told(
                ports,
                f"_ws.malformed && {wanted}",
                "frame.number",
                "dcerpc.opnum",
                "tcp.payload",
                keytab=keytab,
            )
            wrong = [row[:2] for row in rows if not _UNREAD.search(bytes.fromhex(row[2]))]
            self.tell("tshark finds nothing malformed", wrong == [], (len(rows), wrong[:9]))
            seen = len(capture.told(ports, f"dcerpc && {wanted}", "frame.number", keytab=keytab))
            self.tell("it reads PDUs", seen >= least, seen)
        finally:
            capture.close()


__all__ = ["Kdc", "Served", "Scripted", "left_out", "needs", "needs_root", "own_host"]
