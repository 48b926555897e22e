"""The commands of docs/guide/dcom.md and of oaut-dcom(1), and the page's client of impacket, run as
they are written: on a machine that has the page's name and address in a network of its own, and in
a booted container that installs the package. Windows' clients are not here."""
import os
import shlex
import shutil
import subprocess
import unittest

from tests.dcom.dcoms import (
    REALM,
    SECONDS,
    Kdc,
    environment,
    left_out,
    needs,
    needs_root,
    own_host,
    python_with,
)
from tests.gateway.gateways import Gateway
from tests.package import booted
from tests.package.test_dist import HAS_IMPACKET, HAS_ROOT, packed
from tests.support.examples import Room, block, blocks
from tests.support.preloaded import COMPILER
from tests.support.running import PROGRAM, ROOT, Cases

from dist import manual

PAGE = "docs/guide/dcom.md"
# the page's client has this word as its password
PASSWORD = "password\n"
CLIENT = """from impacket.uuid import string_to_bin
CLSID = string_to_bin("11223344-5566-7788-99AA-BBCCDDEEFF03")
"""
# a machine of this name, with the address of the page, as long as its script runs
ALONE = ["unshare", "--map-root-user", "--net", "--mount", "--uts"]
MACHINE = """ip link set lo up
ip addr add 192.0.2.7/32 dev lo
hostname store.example.org
mount --bind hosts /etc/hosts
"""
HOSTS = "127.0.0.1 localhost\n{} store.example.org\n"


def has_machine():
    """Whether a script may have such a machine."""
    tries = "ip link set lo up && hostname store && mount --bind /etc/hosts /etc/hosts"
    return (
        bool(shutil.which("unshare"))
        and not subprocess.run([*ALONE, "sh", "-c", tries], capture_output=True).returncode
    )


def client():
    return CLIENT + block(PAGE, "from impacket.dcerpc.v5.dcomrt")


class Pages(Cases):
    def room(self, gateway):
        """A room with oaut-dcom on its path, and the gateway's socket under the names of the
        page."""
        room = Room()
        self.addCleanup(room.__exit__)
        room.env = environment(PATH=room.env["PATH"])
        room.write(
            "bin/oaut-dcom",
            f'#!/bin/sh\nexec {shlex.quote(python_with("Cryptodome"))} -m oaut_dcom "$@"\n',
            0o755,
        )
        for it in ("gateway.sock", "items.sock"):
            os.symlink(f"{gateway.room}/listen", f"{room.path}/run/{it}")
        return room

    def beside(self, it):
        """The commands of a script that starts a server, waits until it serves, runs the client and
        ends the server, however the client ends."""
        waits = "until grep -q 'serves port' served; do kill -0 $!; sleep 0.05; done"
        return (
            f"{it} > served 2>&1 &\ntrap 'kill $!' EXIT\n{waits}\n"
            f"{python_with('Cryptodome', 'impacket')} client.py\n"
        )

    @unittest.skipUnless(
        has_machine(), "no network and no name of its own: unshare, ip or mount may not"
    )
    @needs("Cryptodome", "impacket")
    def test_a_client_of_impacket(self):
        """By the command of the page, and by those of the manual page."""
        adds, serves = blocks(manual.PAGES["oaut-dcom"].added)[0].splitlines()
        for command in (block(PAGE, "$ oaut-dcom --gateway")[2:].strip(), serves):
            with Gateway(sockets=("listen",)) as gateway:
                room = self.room(gateway)
                room.write("users", "", 0o600)
                room.write("password", PASSWORD)
                room.write("hosts", HOSTS.format("192.0.2.7"))
                room.write("client.py", client())
                room.write(
                    "script.sh", room.here(f"{MACHINE}{adds} < password\n{self.beside(command)}")
                )
                words = [*ALONE, "bash", "-e", "script.sh"]
                done = subprocess.run(
                    words,
                    cwd=room.path,
                    env=room.env,
                    stdin=subprocess.DEVNULL,
                    capture_output=True,
                    text=True,
                    timeout=SECONDS,
                )
                self.tell(
                    command,
                    (done.returncode, done.stdout) == (0, "[1]\n"),
                    (done, self.served(room)),
                )

    def served(self, room):
        path = f"{room.path}/served"
        if not os.path.exists(path):
            return "nothing was started"
        with open(path) as file:
            return file.read()

    @needs("Cryptodome")
    def test_the_file_of_a_registry(self):
        command = block(PAGE, "oaut-dcom reg --gateway").strip()
        self.tell(
            "the manual page has it, too", command in blocks(manual.PAGES["oaut-dcom"].added)[1]
        )
        with Gateway(sockets=("listen",)) as gateway:
            room = self.room(gateway)
            status, said = room.run(command)
            with open(f"{room.path}/desk.reg", encoding="ascii") as file:
                lines = file.read().splitlines()
            for it in (
                "REGEDIT4",
                "[HKEY_CLASSES_ROOT\\Desk.Item\\CLSID]",
                "[HKEY_CLASSES_ROOT\\Desk.Store\\CLSID]",
                '"RemoteServerName"="store.example.org"',
            ):
                self.tell(f"{command}: {it}", status == 0 and it in lines, (said, lines))

    @left_out("kadmin.local", "krb5kdc", "kdb5_util", "klist")
    @needs_root
    def test_kerberos(self):
        """With kadmin.local in the place of kadmin, which asks an administrator for a password."""
        kdc = Kdc(own_host())
        self.addCleanup(kdc.close)
        env = {**os.environ, **kdc.variables}
        for line in block(PAGE, "kadmin -q").splitlines():
            line = line.replace("kadmin ", f"kadmin.local -r {REALM} ").replace(
                "/etc/oaut/", f"{kdc.folder}/"
            )
            done = subprocess.run(
                ["bash", "-c", line], env=env, capture_output=True, text=True, timeout=SECONDS
            )
            # (it has the status 0 also if it refuses what -q says)
            self.tell(
                line,
                done.returncode == 0
                and not done.stderr.replace("No policy specified", "").startswith(
                    ("add_principal", "kadmin")
                ),
                done,
            )
        said = subprocess.run(
            ["klist", "-k", f"{kdc.folder}/items.keytab"], env=env, capture_output=True, text=True
        ).stdout
        for it in ("host", "RPCSS"):
            self.tell(f"the key of {it}", f"{it}/store.example.org@{REALM}" in said, said)

    @unittest.skipIf(
        not HAS_ROOT or not COMPILER or not os.path.exists(PROGRAM) or booted.why_not(),
        f"no package, no compiler, or {booted.why_not()}",
    )
    @unittest.skipUnless(HAS_IMPACKET, "impacket is not there")
    def test_the_package(self):
        """The page's commands in a fresh machine, and its client on the same one."""
        package = packed().stdout.splitlines()[1]
        with open(package, "rb") as deb, open(f"{ROOT}/examples/full.idl", "rb") as library:
            files = {
                f"/root/{os.path.basename(package)}": deb.read(),
                # (the triggers of other packages and the lists of Debian's packages take longer
                # than all else)
                "/etc/apt/apt.conf.d/99tried": (
                    b'DPkg::Options {"--no-triggers";}; APT::Install-Suggests "false"; '
                    b'Dir::State::lists "/tried.lists/";'
                ),
                "/tried.lists/partial/none": b"",
                "/etc/oaut/items.idl": library.read(),
                "/etc/hosts": HOSTS.format("127.0.0.1").encode(),
                "/root/password": PASSWORD.encode(),
                "/root/client.py": client().encode(),
            }
        commands = block(PAGE, "apt install ./oaut").splitlines()
        script = (
            "exec 2>&1\ncd /root\nexport HOME=/root LC_ALL=C.UTF-8 DEBIAN_FRONTEND=noninteractive\n"
        )
        script += "".join(
            f"{{ {it}; }} < password || echo 'failed: {place}'\n"
            for place, it in enumerate(commands)
        )
        status, out, err = booted.run(f"{script}echo @\n/usr/bin/python3 client.py\n", files, 400)
        done, _, told = out.partition("@\n")
        for place, it in enumerate(commands):
            self.tell(
                it,
                status == 0 and f"failed: {place}\n" not in done,
                (status, out[-1_500:], err[-500:]),
            )
        self.tell("the client", told == "[1]\n", (status, out[-1_500:], err[-500:]))


if __name__ == "__main__":
    unittest.main()
