"""What `dist/pack` makes: a tarball in which README's start runs as it stands there, and a Debian
package that works in a clean root."""
import ast
import atexit
import functools
import glob
import importlib.metadata
import os
import re
import shutil
import subprocess
import sys
import tempfile
import unittest
import zipfile

from tests.package import booted
from tests.support.running import PROGRAM, ROOT, Cases
from tests.support.wire import oaut

from dist import manual

BUILT = os.path.exists(PROGRAM)
HAS_ROOT = shutil.which("dpkg-deb") is not None and os.getuid() == 0
# the sections that each manual page has, in this order, beside others
MANUAL = (
    "NAME",
    "SYNOPSIS",
    "DESCRIPTION",
    "COMMANDS",
    "OPTIONS",
    "EXIT STATUS",
    "FILES",
    "EXAMPLES",
    "SEE ALSO",
)


# what each client in the container does, at the socket of this name
ASK = """
import socket, sys, oaut
with socket.socket(socket.AF_UNIX) as sock:
    sock.connect(f"/run/oaut/{sys.argv[1]}.sock")
    with oaut.connect(sock, timeout=60) as server:
        item = next(iter(server.objects()), None) or server.create("Item")
        item.Count = item.Count + 1
        print(item, item.Count)
"""
# what is done in it: each line of output that has a name is looked at
HAS_IMPACKET = os.path.exists("/usr/lib/python3/dist-packages/impacket") and os.path.exists(
    "/usr/lib/python3/dist-packages/Cryptodome"
)
# impacket, as docs/guide/dcom.md has it
DCOM = """
from impacket.dcerpc.v5.dcom import oaut
from impacket.dcerpc.v5.dcomrt import DCOMConnection
from impacket.uuid import string_to_bin
dcom = DCOMConnection("127.0.0.1", "joe", "Secret-1", authLevel=6)
clsid = string_to_bin("11223344-5566-7788-99AA-BBCCDDEEFF03")
item = oaut.IDispatch(dcom.CoCreateInstanceEx(clsid, oaut.IID_IDispatch))
print(item.GetIDsOfNames(["Count"]), item.GetTypeInfoCount()["pctinfo"])
dcom.disconnect()
"""
BOOTED = r"""
ask() { /usr/bin/python3 /ask.py "$1" 2>&1 | tail -n 1; }
# (the journal may be late)
noted() {
    for turn in $(seq 300); do
        journalctl -o cat -u "$1" | grep -Eom 1 -e "$2" && return
        sleep 0.2
    done
}
seen() { noted "oaut@$1.*" "$2"; }
dpkg --no-triggers -i /oaut.deb
cp /etc/oaut/example.idl /etc/oaut/items.idl
systemctl enable --now oaut@items.socket
echo "a client: $(ask items)"
echo "the next one: $(ask items.alone)"
exposed=$(systemd-analyze security --no-pager oaut@items.service)
exposed=$(echo "$exposed" | sed -n '$s/.*: \([0-9.]*\) .*/\1/p')
echo "the service: $(systemctl is-active oaut@items.service) $exposed"
echo "the store: $(stat -c '%U %a' /var/lib/oaut/items.store)"
oaut-gateway backup /run/oaut/items.control.sock /items.copy
echo "a backup: $(oaut dump /items.copy | head -n 1)"
systemctl enable --now oaut@other.socket
ask other > /dev/null
echo "a store without a library: $(seen other '/etc/oaut/other.idl: No such file or directory')"
for it in 1 2 3 4 5 6 7 8; do ask other > /dev/null; done
echo "too many starts: $(seen other 'Start request repeated too quickly|trigger-limit-hit')"
cp /etc/oaut/example.idl /etc/oaut/other.idl
systemctl reset-failed 'oaut@other.*'
systemctl start oaut@other.socket
echo "and with one: $(ask other)"
systemctl disable --now oaut@other.socket
echo "a socket that is not enabled: $(ask other)"
nobody=$(setpriv --reuid nobody --clear-groups python3 /ask.py items 2>&1 | tail -n 1)
echo "who is not in the group: $nobody"
member=$(setpriv --reuid nobody --regid nogroup --groups oaut /usr/bin/python3 /ask.py items)
echo "who is in the group: $member"
install -o oaut-dcom -m 0600 /dev/null /etc/oaut/items.users
echo Secret-1 | oaut-dcom hash joe >> /etc/oaut/items.users
echo 'OPTIONS=--name store.oaut.test --script' > /etc/oaut/items.dcom.env
systemctl enable --now oaut-dcom@items.socket
echo "DCOM: $(/usr/bin/python3 /dcom.py 2>&1 | tail -n 1)"
state=/var/lib/oaut-dcom/items.state
told="$(stat -c '%U %a' $state) $(grep -c store $state)"
echo "its service: $(systemctl is-active oaut-dcom@items.service) $told"
chmod 0644 /etc/oaut/items.users && systemctl restart oaut-dcom@items.service
echo "users that others read: $(noted oaut-dcom@items.service 'chmod 0600')"
chmod 0600 /etc/oaut/items.users && systemctl stop oaut-dcom@items.socket oaut-dcom@items.service
systemctl stop oaut@items.socket oaut@items.service
cp /etc/passwd /passwd && sed -i /^oaut:/d /etc/passwd
systemctl start oaut@items.service
echo "without the user: $(seen items 217/USER)"
systemd-sysusers oaut.conf
systemctl reset-failed 'oaut@items.*'
systemctl start oaut@items.socket
echo "with the user: $(ask items)"
systemctl stop oaut@items.service
mv /var/lib/oaut/items.store /kept && echo > /var/lib/oaut/items.store
ask items > /dev/null
for it in $(seq 600); do
    [ "$(systemctl is-active oaut@items.socket)" != inactive ] || break
    sleep 0.1
done
status=$(systemctl show -P ExecMainStatus oaut@items.service)
echo "what is no store: $status $(systemctl is-active oaut@items.socket)"
mv /kept /var/lib/oaut/items.store
systemctl reset-failed 'oaut@items.*'
systemctl start oaut@items.socket
echo "mended: $(ask items)"
systemctl enable --now oaut@example.socket
echo "the example: $(ask example)"
limits=$(oaut-gateway status /run/oaut/example.control.sock | grep -c ^oaut_store_objects)
echo "its limits: $limits"
before=$(systemctl show -P MainPID oaut@example.service)
echo 'OPTIONS=--clients 77 --idle 60' > /etc/oaut/example.env
systemctl reload oaut@example.service
told=$(seen example 'reloaded: --clients 77 --idle 60')
behind=$(systemctl show -P MainPID oaut@example.service)
echo "a reload: $told $([ "$before" = "$behind" ] && echo the same process)"
systemctl stop oaut@example.socket
systemctl start oaut-metrics@example.socket oaut@example.socket
echo "a client behind it: $(ask example)"
scraped() {
    /usr/bin/python3 -c 'from urllib.request import urlopen
print(urlopen("http://127.0.0.1:9718/metrics").read().decode())'
}
measured=$(for it in $(seq 60); do scraped | grep ^oaut_store_objects && break; sleep 1; done)
echo "measured by the service: $measured"
echo 'OPTIONS=--mode 0666' > /etc/oaut/example.env
systemctl reload oaut@example.service
echo "a reload that cannot be: $? $(seen example '--mode 0666 is for a start: restart the gateway')"
dpkg --no-triggers -r oaut
echo "what stays: $(ls /var/lib/oaut | tr '\n' ' ')"
"""
TOLD = {
    "a client": "<Item 1> 1",
    "the next one": "<Item 1> 2",
    "the service": r"active ([01]\.\d|2\.0)",
    "the store": "oaut 600",
    **(
        {
            "DCOM": r"\[1\] [1-9]\d*",
            "its service": "active oaut-dcom 600 1",
            "users that others read": "chmod 0600",
        }
        if HAS_IMPACKET
        else {}
    ),
    "a backup": "next 2",
    "a store without a library": "/etc/oaut/other.idl: No such file or directory",
    "too many starts": "Start request repeated too quickly|trigger-limit-hit",
    "and with one": "<Item 1> 1",
    "a socket that is not enabled": ".*No such file or directory|.*Connection refused",
    "who is not in the group": ".*Permission denied",
    "who is in the group": "<Item 1> 3",
    "without the user": "217/USER",
    "with the user": "<Item 1> 4",
    "what is no store": "3 inactive",
    "mended": "<Item 1> 5",
    "the example": "<Item 1> 1",
    "its limits": "1",
    "a reload": "reloaded: --clients 77 --idle 60 the same process",
    "a client behind it": "<Item 1> 2",
    "measured by the service": "oaut_store_objects 1",
    "a reload that cannot be": "1 --mode 0666 is for a start: restart the gateway",
    "what stays": "example.store items.store other.store ",
}


def start_of(readme):
    """The commands of README's start with what each prints, and the library and the script that
    stand beside them."""
    section = readme[readme.index("## Start") : readme.index("## Build it")]
    plain = re.sub(r"```.*?```", "", section, flags=re.DOTALL)
    lines = [line[4:] for line in plain.split("\n") if line.startswith("    ") and line.strip()]
    commands = []
    for line in lines:
        if line.startswith("$ "):
            commands.append((line[2:], []))
        elif commands:
            commands[-1][1].append(line)
    return commands, {
        "items.idl": re.search(r"```\n(.*?)```", section, re.DOTALL)[1],
        "start.py": re.search(r"```python\n(.*?)```", section, re.DOTALL)[1],
    }


@functools.lru_cache(None)
def packed():
    """What came of `dist/pack`, which is run once for all tests, in a clean root too where there
    may be one."""
    room = tempfile.mkdtemp(prefix="oaut-packed-")
    # (the tests of upgrades use it too)
    atexit.register(shutil.rmtree, room, True)
    return subprocess.run(
        [f"{ROOT}/dist/pack", "--program", PROGRAM, *(["--try"] if HAS_ROOT else []), room],
        capture_output=True,
        text=True,
        timeout=850,
    )


def anew():
    """Has a test that runs again pack anew, if that has failed."""
    if packed.cache_info().currsize and packed().returncode:
        packed.cache_clear()


@unittest.skipUnless(BUILT, "the program is not there")
class Packed(Cases):
    def test_a_newcomer_follows_the_start(self):
        """Each command of README's start, in a folder with the wheel and the files that README
        shows, in one shell, without a network where the system lets us take it away. No program is
        on the path."""
        with open(f"{ROOT}/README.md") as file:
            commands, files = start_of(file.read())
        self.tell("README has commands to follow", len(commands) >= 3, commands)
        with tempfile.TemporaryDirectory() as room:
            self.tell("it is packed", packed().returncode == 0, packed().stderr)
            (wheel,) = [it for it in packed().stdout.split() if it.endswith(".whl")]
            shutil.copy(wheel, room)
            for name, content in files.items():
                with open(f"{ROOT}/examples/{name}") as file:
                    self.tell(f"{name} that README shows is the example", file.read() == content)
                with open(f"{room}/{name}", "w") as file:
                    file.write(content)
            text = "set -e\n" + "".join(
                f"echo '@{place}'\n{command}\n" for place, (command, _) in enumerate(commands)
            )
            alone = ["unshare", "--net"] if os.getuid() == 0 and shutil.which("unshare") else []
            environment = {
                "PATH": f"{os.path.dirname(sys.executable)}:/usr/bin:/bin",
                "HOME": room,
                "LANG": "C.UTF-8",
            }
            done = subprocess.run(
                [*alone, "bash", "-c", text],
                cwd=room,
                env=environment,
                capture_output=True,
                text=True,
                timeout=900,
            )
            self.tell(
                "it ends well", done.returncode == 0, (done.returncode, done.stdout, done.stderr)
            )
            said = re.split(r"^@\d+\n", done.stdout, flags=re.MULTILINE)[1:]
            for (command, wanted), got in zip(commands, said):
                self.tell(f"README's output of: {command}", got.splitlines() == wanted, got)
            with zipfile.ZipFile(wheel) as archive:
                held = [it for it in archive.infolist() if it.file_size > 1_000]
            self.tell(
                "what a wheel holds is compressed",
                all(it.compress_size < it.file_size for it in held),
                held,
            )

    def test_the_tarball(self):
        with tempfile.TemporaryDirectory() as room:
            (archive,) = [it for it in packed().stdout.split() if it.endswith(".tar.gz")]
            subprocess.run(["tar", "-C", room, "-xzf", archive], check=True)
            (top,) = [it.path for it in os.scandir(room) if it.is_dir()]
            for bits, compiler in (
                ("64", "x86_64-w64-mingw32-gcc"),
                ("32", "i686-w64-mingw32-gcc"),
            ):
                for name in ("oautcom.dll", "tlb2idl.exe"):
                    is_there = os.path.exists(f"{top}/windows/{bits}/{name}")
                    self.tell(
                        f"{name} of {bits} bits, where its compiler is",
                        is_there == bool(shutil.which(compiler)),
                    )
            for link in (
                "docs/guide/com.md",
                "clients/com/example/sheet.reg",
                "clients/python/README.md",
                "dist/units/oaut@.socket",
            ):
                self.tell(f"{link} is there", os.path.exists(f"{top}/{link}"))
            if shutil.which("cc"):
                done = subprocess.run(
                    [f"{top}/clients/gateway/build.sh", room],
                    stdout=subprocess.PIPE,
                    stderr=subprocess.STDOUT,
                    text=True,
                )
                self.tell(
                    "its sources make the gateway, without the toolchain of the proofs",
                    (done.returncode, done.stdout) == (0, ""),
                    done.stdout,
                )
                said = subprocess.run(
                    [f"{room}/oaut-gateway", "--version"], capture_output=True, text=True
                ).stdout
                self.tell("that gateway says its version", said == "oaut-gateway 0\n", said)

    @unittest.skipUnless(HAS_ROOT, "no dpkg-deb, or not the superuser who makes a clean root")
    def test_the_package_in_a_clean_root(self):
        done = packed()
        said = done.stdout.splitlines()
        guid = "11223344-5566-7788-99aa-bbccddeeff0"
        wanted = [
            "formatted",
            "next 2",
            f"object 1 {guid}3",
            f"cell {guid}2 1 - 030007000000",
            "<Item 1> 7",
        ]
        told = [it for it in said if not it.startswith("/")]
        self.tell(
            "the first requests in a clean root",
            (done.returncode, told) == (0, wanted),
            (done.returncode, said, done.stderr),
        )

    @unittest.skipUnless(HAS_ROOT, "no dpkg-deb, or not the superuser who makes a clean root")
    def test_the_files_of_the_package(self):
        done = packed()
        said = done.stdout.splitlines()
        if done.returncode == 0:
            told = subprocess.run(
                ["dpkg-deb", "--contents", said[1]], capture_output=True, text=True
            ).stdout
            for path in (
                "usr/bin/oaut",
                "usr/bin/oaut-gateway",
                "usr/bin/oaut-tools",
                "usr/share/bash-completion/completions/oaut-tools",
                "usr/share/man/man1/oaut.1.gz",
                "usr/share/man/man1/oaut-gateway.1.gz",
                "usr/share/man/man1/oaut-tools.1.gz",
                "usr/bin/oaut-dcom",
                "usr/share/man/man1/oaut-dcom.1.gz",
                "usr/share/man/man1/python3-oaut.1.gz",
                "usr/share/man/man7/ocf_oaut_gateway.7.gz",
                "usr/lib/python3/dist-packages/oaut_dcom/VERSION",
                "lib/systemd/system/oaut-dcom@.socket",
                "usr/lib/python3/dist-packages/oaut/py.typed",
                "lib/systemd/system/oaut@.socket",
                "usr/lib/ocf/resource.d/oaut/gateway",
                "etc/oaut/example.idl",
                "etc/oaut/example.env",
                "usr/share/oaut/alerts.yml",
                "usr/share/bash-completion/completions/oaut-gateway",
            ):
                self.tell(f"the package has {path}", f" ./{path}\n" in told, told)
            self.tell(
                "no file of the example has the name of one of README's",
                "etc/oaut/items" not in told,
                told,
            )

    @unittest.skipUnless(HAS_ROOT, "no dpkg-deb, or not the superuser who makes a clean root")
    def test_what_the_package_depends_on(self):
        done = packed()
        said = done.stdout.splitlines()
        if done.returncode == 0:
            depends = subprocess.run(
                ["dpkg-deb", "--field", said[1], "Depends"], capture_output=True, text=True
            ).stdout
            self.tell(
                "it depends on the C library that has what the program calls",
                re.match(r"libc6 \(>= 2\.\d+\)", depends),
                depends,
            )
            with open(f"{ROOT}/README.md") as file:
                named = re.search(r"glibc (2\.\d+)", file.read())
            self.tell(
                "README names that C library",
                named and f"libc6 (>= {named[1]})" in depends,
                (named, depends),
            )
            with open(f"{ROOT}/docs/internals/trusted.md") as trusted, open(
                f"{ROOT}/README.md"
            ) as readme:
                baseline = re.search(r"^target: .*, (\S+)$", trusted.read(), re.MULTILINE)[1]
                self.tell(
                    "README names the processor",
                    f"**Platform**: Linux, {baseline}, glibc" in readme.read(),
                    baseline,
                )
            recommended = subprocess.run(
                ["dpkg-deb", "--field", said[1], "Recommends"], capture_output=True, text=True
            ).stdout
            for it in ("python3 (>= 3.9)", "python3-aiohttp (>= 3.8)", "python3-pycryptodome"):
                self.tell(f"it recommends {it}", it in recommended.strip().split(", "), recommended)

    @unittest.skipUnless(HAS_ROOT, "no dpkg-deb, or not the superuser who makes a clean root")
    def test_the_metadata_of_the_client(self):
        done = packed()
        said = done.stdout.splitlines()
        if done.returncode == 0:
            with tempfile.TemporaryDirectory() as room:
                subprocess.run(["dpkg-deb", "-x", said[1], room], check=True)
                (found,) = importlib.metadata.distributions(
                    name="oaut", path=[f"{room}/usr/lib/python3/dist-packages"]
                )
                self.tell(
                    "the client has its metadata",
                    (found.version, found.entry_points[0].name) == (oaut.__version__, "oaut-tools"),
                    found.version,
                )

    def test_it_says_what_it_does(self):
        said = packed().stderr.splitlines()
        for what in ("the gateway", "the tarball", "the wheel"):
            self.tell(
                f"progress: {what}", any(re.fullmatch(rf" *\d+ s: {what}", it) for it in said), said
            )

    @unittest.skipUnless(HAS_ROOT and shutil.which("lintian"), "no lintian, or no package")
    def test_lintian(self):
        done = subprocess.run(
            [
                "lintian",
                "--allow-root",
                "--fail-on",
                "error,warning",
                packed().stdout.splitlines()[1],
            ],
            capture_output=True,
            text=True,
        )
        self.tell(
            "lintian has no complaint", (done.returncode, done.stdout) == (0, ""), done.stdout
        )

    @unittest.skipIf(not HAS_ROOT or booted.why_not(), f"no package, or {booted.why_not()}")
    def test_the_units_in_a_booted_container(self):
        """From the package to a client: what docs/guide/client.md says is all there is to do; and
        the rows on units of docs/operations/it-does-not-start.md."""
        with open(packed().stdout.splitlines()[1], "rb") as file:
            package = file.read()
        files = {"/oaut.deb": package, "/ask.py": ASK.encode(), "/dcom.py": DCOM.encode()}
        # (five starts that fail are too many within ten seconds, which are few for a machine that
        # is busy)
        files[
            "/etc/systemd/system/oaut@other.service.d/starts.conf"
        ] = b"[Unit]\nStartLimitIntervalSec=10min\n"
        status, out, err = booted.run(BOOTED, files, 800)
        said = dict(
            line.split(": ", 1)
            for line in out.splitlines()
            if ": " in line and not line.startswith(" ")
        )
        for what, wanted in TOLD.items():
            self.tell(
                f"in a booted container, {what}",
                re.fullmatch(wanted, said.get(what, "nothing")),
                (said.get(what), status, out[-2_000:], err[-2_000:]),
            )


# a gateway whose store's device has failed, and one client after another
FAILED = rb"""#!/usr/bin/python3
import os, socket, sys
path = os.environ["NOTIFY_SOCKET"]
with open(f"{os.environ['STATE_DIRECTORY']}/starts", "a") as file:
    print("started", file=file)
with socket.socket(socket.AF_UNIX, socket.SOCK_DGRAM) as sock:
    sock.connect("\0" + path[1:] if path[0] == "@" else path)
    sock.send(b"READY=1")
sys.exit(3)
"""
CLIENTS = r"""
sockets="oaut@it.socket oaut-alone@it.socket oaut-control@it.socket"
# waits until all are in a state
all_are() {
    for turn in $(seq 600); do
        [ "$(systemctl is-active $sockets | sort -u)" != "$1" ] || break
        sleep 0.1
    done
}
chmod 755 /usr/bin/oaut-gateway /usr/lib/oaut/make-store
systemd-sysusers oaut.conf
systemctl start oaut@it.socket
for it in 1 2 3; do
    python3 -c 'import socket
s = socket.socket(socket.AF_UNIX)
s.settimeout(60)
s.connect("/run/oaut/it.sock")
s.recv(1)' 2> /dev/null
    all_are inactive
done
echo "starts: $(wc -l < /var/lib/oaut/starts)"
echo "the service: $(systemctl show -P ExecMainStatus -P ActiveState oaut@it.service | tr '\n' ' ')"
echo "the sockets: $(systemctl is-active $sockets | tr '\n' ' ')"
systemctl reset-failed 'oaut@it.*'
systemctl start oaut@it.socket
all_are active
echo "after a look: $(systemctl is-active $sockets | tr '\n' ' ')"
"""


@unittest.skipIf(booted.why_not(), booted.why_not())
class Failed(Cases):
    def test_no_client_starts_it_again(self):
        """A gateway that ends with status 3 is for a person to look at: a sync that has failed may
        not be told to the next one."""
        units = {
            f"/etc/systemd/system/{os.path.basename(it)}": it
            for it in glob.glob(f"{ROOT}/dist/units/oaut*")
        }
        files = {"/usr/bin/oaut-gateway": FAILED, "/usr/lib/oaut/make-store": b"#!/bin/sh\n"}
        for path, source in {
            **units,
            "/usr/lib/sysusers.d/oaut.conf": f"{ROOT}/dist/etc/sysusers.conf",
        }.items():
            with open(source, "rb") as file:
                files[path] = file.read()
        status, out, err = booted.run(CLIENTS, files)
        wanted = [
            "starts: 1",
            "the service: 3 failed ",
            "the sockets: inactive inactive inactive ",
            "after a look: active active active ",
        ]
        self.tell("one start", out.splitlines() == wanted, (status, out, err[-1_000:]))


class Beside(Cases):
    """What stands beside the program in the package."""

    @unittest.skipIf(shutil.which("groff") is None, "groff is not there")
    def test_the_manual_page(self):
        for name, texts in (
            ("oaut", ("not a store", "--where", "store is erased", "WHAT DUMP PRINTS")),
            ("oaut-gateway", ("--alone", "reload CONTROL", "with a status above 0")),
            ("oaut-dcom", ("--privacy", "SECURITY", "oaut-dcom hash USER")),
            (
                "oaut-tools",
                (
                    "python3-oaut - ",
                    "store salvage [OPTION..] STORE NEW",
                    "view [OPTION..] [STORE]",
                    "--double DECIMAL",
                ),
            ),
            ("ocf_oaut_gateway", ("validate-all", "Required.", "Default: 10.", "crm configure")),
        ):
            page = subprocess.run(
                [sys.executable, f"{ROOT}/dist/manual.py", "1", name],
                capture_output=True,
                text=True,
            )
            self.tell(f"{name}: it is made", (page.returncode, page.stderr) == (0, ""), page.stderr)
            found = [
                it for it in re.findall(r"^\.SH (.*)$", page.stdout, re.MULTILINE) if it in MANUAL
            ]
            self.tell(f"{name}: its sections, in their order", found == list(MANUAL), found)
            empty = re.findall(
                r"^\.(?:SH .*\n(?=\.SH|\Z)|SS .*\n(?=\.S[HS]|\Z))", page.stdout, re.MULTILINE
            )
            self.tell(f"{name}: no section is empty", not empty, empty)
            told = subprocess.run(
                ["groff", "-man", "-ww", "-Tutf8"],
                input=page.stdout,
                capture_output=True,
                text=True,
            )
            self.tell(
                f"{name}: it is read without a warning",
                (told.returncode, told.stderr) == (0, ""),
                told.stderr,
            )
            plain = (
                re.sub("\x1b\\[[0-9;]*m|.\b", "", told.stdout)
                .replace("\u2010", "-")
                .replace("\u2212", "-")
            )
            for words in (f"{name}{', python3-oaut' if name == 'oaut-tools' else ''} - ", *texts):
                self.tell(f"{name}: it says {words}", words in " ".join(plain.split()))

    @unittest.skipIf(shutil.which("groff") is None, "groff is not there")
    def test_the_manual_is_searched(self):
        if shutil.which("mandb") is None:
            print("mandb is not there: no manual is searched")
            return
        with tempfile.TemporaryDirectory() as room:
            for path, text in manual.pages("1"):
                os.makedirs(os.path.dirname(f"{room}/{path}"), exist_ok=True)
                with open(f"{room}/{path}", "w") as file:
                    file.write(text)
            environment = {"PATH": os.environ["PATH"], "MANPATH": room, "LANG": "C.UTF-8"}
            subprocess.run(["mandb", "--create", "--user-db", "--quiet", room], env=environment)
            found = subprocess.run(
                ["apropos", "automation"], env=environment, capture_output=True, text=True
            )
            names = [line.split()[0] for line in found.stdout.splitlines()]
            self.tell(
                "apropos finds them by their subject",
                names
                == [
                    "oaut",
                    "oaut-dcom",
                    "oaut-gateway",
                    "oaut-tools",
                    "ocf_oaut_gateway",
                    "python3-oaut",
                ],
                names,
            )
            shown = subprocess.run(
                ["man", "python3-oaut"],
                env={**environment, "MANPAGER": "cat"},
                capture_output=True,
                text=True,
            )
            self.tell(
                "man python3-oaut", shown.returncode == 0 and "store salvage" in shown.stdout, shown
            )

    @unittest.skipIf(
        sys.version_info < (3, 11), "an older Python looks for modules in the current folder"
    )
    def test_the_tools_run_no_module_of_the_current_folder(self):
        with open(f"{ROOT}/dist/pack") as file:
            tools = ast.literal_eval(re.search(r"^TOOLS = (.*)$", file.read(), re.MULTILINE)[1])
        with tempfile.TemporaryDirectory() as room:
            for name, text in (("tools", tools), ("oaut.py", b"print('not ours')\n")):
                with open(f"{room}/{name}", "wb") as file:
                    file.write(text)
            environment = {**os.environ, "PYTHONPATH": f"{ROOT}/clients/python"}
            done = subprocess.run(
                ["sh", "tools", "--version"],
                cwd=room,
                env=environment,
                capture_output=True,
                text=True,
            )
        self.tell(
            "its version",
            (done.returncode, done.stdout, done.stderr) == (0, f"oaut {oaut.__version__}\n", ""),
            done,
        )

    @unittest.skipIf(shutil.which("bash") is None, "bash is not there")
    def test_completions(self):
        for words, wanted in (
            (["oaut", "se"], ["serve"]),
            (["oaut", "serve", "--g"], ["--group"]),
            (["oaut", "serve", "--s"], ["--shared"]),
            (["oaut", "play", "--"], ["--hex", "--shared", "--help"]),
            (["oaut", "check", "--"], ["--where", "--help"]),
            (
                ["oaut", "check", "examples/sm"],
                ["examples/small.canonical.idl", "examples/small.idl"],
            ),
            (["oaut", "serve", "--group", ""], []),
            (["oaut-gateway", "re"], ["reload"]),
            (["oaut-gateway", "--st"], ["--stalled"]),
            (["oaut-gateway", "reload", "control", "--allow-u"], ["--allow-user"]),
            (
                ["oaut-gateway", "reload", "control", "--allow-r"],
                ["--allow-read-user", "--allow-read-group"],
            ),
            (["oaut-gateway", "status", "--"], []),
            (
                ["oaut-gateway", "measure", "examples/sm"],
                ["examples/small.canonical.idl", "examples/small.idl"],
            ),
            (["oaut-gateway", "--allow-user", "roo"], ["root"]),
            (["python3", "-m", "oaut", "sto"], ["store"]),
            (["python3", "-m", "oaut", "store", "info", "--l"], ["--live"]),
            (["python3", "-m"], []),
        ):
            named = {"python3": "oaut_python", "oaut-gateway": "oaut_gateway"}.get(
                words[0], words[0]
            )
            source = {"python3": "oaut-tools"}.get(words[0], words[0])
            code = (
                f"source dist/{source}.bash; COMP_WORDS=({' '.join(map(repr, words))}); "
                f"COMP_CWORD={len(words) - 1}; _{named}; printf '%s\\n' \"${{COMPREPLY[@]}}\""
            )
            done = subprocess.run(["bash", "-c", code], cwd=ROOT, capture_output=True, text=True)
            self.tell(
                f"completions of {words}",
                (sorted(done.stdout.split()), done.stderr) == (sorted(wanted), ""),
                (done.stdout, done.stderr),
            )

    @unittest.skipIf(shutil.which("bash") is None, "bash is not there")
    def test_each_command_is_completed(self):
        with open(f"{ROOT}/dist/oaut.bash") as file:
            told = file.read()
        with open(f"{ROOT}/docs/reference/program.md") as file:
            words = set(re.findall(r"^    oaut (\w+)", file.read(), re.MULTILINE))
        self.tell(
            "each command of docs/reference/program.md is completed",
            all(it in told for it in words),
            words,
        )
        with open(f"{ROOT}/dist/oaut-gateway.bash") as file:
            told = set(re.findall(r"[\w-]+", file.read()))
        with open(f"{ROOT}/docs/operations/gateway.md") as file:
            page = file.read()
        words = set(re.findall(r"^\| `(--[\w-]+)", page, re.MULTILINE)) | set(
            re.findall(r"^\| `oaut-gateway (\w+)", page, re.MULTILINE)
        )
        self.tell(
            "each command and option of docs/operations/gateway.md is completed",
            len(words) > 20 and words <= told,
            words - told,
        )

    @unittest.skipIf(shutil.which("systemd-analyze") is None, "systemd-analyze is not there")
    def test_units(self):
        with tempfile.TemporaryDirectory() as room:
            for path in glob.glob(f"{ROOT}/dist/units/*"):
                with open(path) as file:
                    text = file.read()
                with open(f"{room}/{os.path.basename(path)}", "w") as file:
                    # (the programs that they name are not installed here)
                    file.write(
                        re.sub(
                            r"^(Exec\w*)=.*|^\w*(?:User|Group)=.*\n",
                            lambda it: f"{it[1]}=/bin/true" if it[1] else "",
                            text,
                            flags=re.MULTILINE,
                        )
                    )
            for path in sorted(glob.glob(f"{ROOT}/dist/units/*")):
                name = os.path.basename(path)
                done = subprocess.run(
                    [
                        "systemd-analyze",
                        "verify",
                        "--man=no",
                        f"{room}/{name.replace('@', '@items')}",
                    ],
                    capture_output=True,
                    text=True,
                )
                told = [line for line in done.stderr.splitlines() if "oaut" in line]
                self.tell(f"systemd reads {name}", told == [], done.stderr)
                if name.endswith(".service"):
                    done = subprocess.run(
                        [
                            "systemd-analyze",
                            "security",
                            "--no-pager",
                            "--offline=yes",
                            "--threshold=20",
                            path,
                        ],
                        capture_output=True,
                        text=True,
                    )
                    self.tell(
                        f"{name} may do little: 2.0 of 10 at most",
                        done.returncode == 0,
                        done.stdout[-200:] + done.stderr,
                    )
