"""The Debian package in a booted container: an upgrade under load, a removal, a new installation
and a purge."""
import os
import re
import subprocess
import tempfile
import unittest

from tests.package import booted
from tests.package.test_dist import HAS_ROOT, packed
from tests.support.running import PROGRAM, Cases

# a client that puts rising numbers and connects again, until /stop is there: how many acknowledged
# numbers were above what the store had later, and the longest pause between two acknowledged puts,
# before there is a file /upgrade.1, and from it and each of the next two on. Once it has put five
# numbers after there is a file /behind.N, it makes /seen.N
LOAD = """
import os, time, oaut
acknowledged, last, longest, lost, number, since = 0, time.monotonic(), [0.0] * 4, 0, 0, [0] * 5
while not os.path.exists("/stop"):
    try:
        with oaut.connect("/run/oaut/items.sock", timeout=20) as server:
            item = next(iter(server.objects()), None) or server.create("Item")
            lost += item.Count < acknowledged
            while not os.path.exists("/stop"):
                number, upgrades = number + 1, sum(os.path.exists(f"/upgrade.{it}") for it in (1, \
2, 3))
                behind = [it for it in range(5) if since[it] < 5 and \
os.path.exists(f"/behind.{it}")]
                item.Count = number
                acknowledged, before, last = number, last, time.monotonic()
                for it in behind:
                    since[it] += 1
                    if since[it] == 5:
                        open(f"/seen.{it}", "w").close()
                if before and acknowledged > 1:
                    longest[upgrades] = max(longest[upgrades], last - before)
    except (oaut.SessionEnded, OSError):
        time.sleep(0.02)
print(acknowledged > 20, lost, *(f"{it:.3f}" for it in longest))
"""
UPGRADED = r"""
sockets() { ls /run/oaut 2> /dev/null | tr '\n' ' '; }
runs() { readlink "/proc/$(systemctl show -P MainPID oaut@items.service)/exe"; }
wants() { ls /etc/systemd/system/sockets.target.wants | grep -c '^oaut' || true; }
# waits until the load goes on, so that the pause before that is one of its own
goes_on() {
    touch "/behind.$1"
    for it in $(seq 3000); do [ ! -e "/seen.$1" ] || break; sleep 0.1; done
}
dpkg --no-triggers -i /old.deb
echo 'OPTIONS=--idle 60' > /etc/oaut/items.env
systemctl enable --now oaut@items.socket
/usr/bin/python3 /load.py > /load.out &
load=$!
while ! systemctl is-active -q oaut@items.service; do sleep 1; done
goes_on 0
sleep 2
systemctl restart oaut@items.service
oaut-gateway probe /run/oaut/items.sock 60 > /dev/null
goes_on 4
sleep 2
echo "before: $(runs) $(oaut-gateway --version)"
for turn in 1 2 3; do
    touch "/upgrade.$turn"
    dpkg --no-triggers -i /new.deb
    oaut-gateway probe /run/oaut/items.sock 60 > /dev/null
    goes_on "$turn"
    sleep 2
done
echo "after: $(runs)"
echo "settings: $(ls /etc/oaut | tr '\n' ' ')$(cat /etc/oaut/items.env)"
running=$(for it in /proc/[0-9]*/exe; do readlink "$it"; done | grep '/oaut\b' | sort -u)
echo "the server: $(echo "$running" | tr '\n' ' ')"
touch /stop
wait $load
echo "the load: $(cat /load.out)"
dpkg --no-triggers -r oaut
echo "sockets behind a removal: .$(sockets)"
dpkg --no-triggers -i /new.deb
anew=$(systemctl is-active oaut@items.socket oaut-control@items.socket | tr '\n' ' ')
echo "installed anew: $anew"
echo "a client: $(/usr/bin/python3 /ask.py 2>&1 | tail -n 1)"
dpkg --no-triggers -r oaut
dpkg --no-triggers -P oaut
echo "links behind a purge: $(wants)"
echo "settings behind a purge: $(ls /etc/oaut 2>&1)"
failed=$(systemctl list-units --all --no-legend 'oaut*' | grep -c failed || true)
echo "units behind a purge: $failed"
echo "what stays: $(ls /var/lib/oaut | tr '\n' ' ')"
"""
ASK = """
import oaut
with oaut.connect("/run/oaut/items.sock", timeout=60) as server:
    print(server.objects()[0].Count > 20)
"""


def earlier(package, room):
    """The package as it was before its example had a name of its own: the settings and the library
    of the store `items` were files of it."""
    subprocess.run(["dpkg-deb", "-R", package, f"{room}/earlier"], check=True)
    for end in ("env", "idl"):
        os.rename(f"{room}/earlier/etc/oaut/example.{end}", f"{room}/earlier/etc/oaut/items.{end}")
    for name, change in (
        ("conffiles", r"s/example\./items./"),
        ("control", "s/^Version: .*/Version: 0.1.9/"),
    ):
        subprocess.run(["sed", "-i", change, f"{room}/earlier/DEBIAN/{name}"], check=True)
    subprocess.run(
        [
            "dpkg-deb",
            "--root-owner-group",
            "-Znone",
            "--build",
            f"{room}/earlier",
            f"{room}/old.deb",
        ],
        check=True,
        stdout=subprocess.DEVNULL,
    )
    with open(f"{room}/old.deb", "rb") as file:
        return file.read()


def other_version(package, room, version=r"\1+next"):
    """The same package with another version and another gateway: bytes behind a program change
    nothing that it does."""
    subprocess.run(["dpkg-deb", "-R", package, f"{room}/tree"], check=True)
    with open(f"{room}/tree/DEBIAN/control") as file:
        control = file.read()
    with open(f"{room}/tree/DEBIAN/control", "w") as file:
        file.write(re.sub(r"^Version: (.*)$", f"Version: {version}", control, flags=re.MULTILINE))
    for name in ("oaut", "oaut-gateway"):
        with open(f"{room}/tree/usr/bin/{name}", "ab") as file:
            file.write(b"next")
    subprocess.run(
        ["dpkg-deb", "--root-owner-group", "-Znone", "--build", f"{room}/tree", f"{room}/new.deb"],
        check=True,
        stdout=subprocess.DEVNULL,
    )
    with open(f"{room}/new.deb", "rb") as file:
        return file.read()


@unittest.skipIf(
    not HAS_ROOT or not os.path.exists(PROGRAM) or booted.why_not(),
    f"no package, or {booted.why_not()}",
)
class Upgrading(Cases):
    @classmethod
    def setUpClass(cls):
        super().setUpClass()
        package = packed().stdout.splitlines()[1]
        with tempfile.TemporaryDirectory() as room:
            new, old = other_version(package, room), earlier(package, room)
        files = {
            "/old.deb": old,
            "/new.deb": new,
            "/load.py": LOAD.encode(),
            "/ask.py": ASK.encode(),
        }
        cls.status, cls.out, cls.err = booted.run(UPGRADED, files, 800)
        cls.said = dict(
            line.split(": ", 1)
            for line in cls.out.splitlines()
            if ": " in line and not line.startswith(" ")
        )

    def says(self, what, wanted):
        self.tell(
            what,
            re.fullmatch(wanted, self.said.get(what, "nothing")),
            (self.said.get(what), self.status, self.out[-1_500:], self.err[-1_500:]),
        )

    def test_the_gateway_and_the_server_are_the_new_ones(self):
        self.says("before", "/usr/bin/oaut-gateway oaut-gateway .*")
        self.says("after", "/usr/bin/oaut-gateway")
        self.says("the server", "/usr/bin/oaut /usr/bin/oaut-gateway |/usr/bin/oaut-gateway ")

    def test_no_acknowledged_put_is_lost_and_the_pause_is_short(self):
        """The shortest of three pauses has two seconds, or on a machine that has too much to do
        five times the pause of a restart."""
        self.says("the load", r"True 0( [\d.]+){4}")
        restart, *upgrades = map(float, self.said["the load"].split()[2:])
        self.tell("the pause", min(upgrades) < max(2, 5 * restart), (restart, upgrades))

    def test_a_removal_leaves_no_sockets(self):
        self.says("sockets behind a removal", r"\.")

    def test_enabled_sockets_listen_after_a_new_installation(self):
        self.says("installed anew", "active active ")
        self.says("a client", "True")

    def test_a_purge_leaves_no_links(self):
        self.says("links behind a purge", "0")
        self.says("units behind a purge", "0")

    def test_settings_that_were_the_packages_stay(self):
        """The earlier package had items.env and items.idl: a running store goes on with them, as
        they were changed."""
        self.says("settings", r"example\.env example\.idl items\.env items\.idl OPTIONS=--idle 60")
        self.says("settings behind a purge", ".*No such file or directory")

    def test_stores_stay(self):
        self.says("what stays", "items.store ")
