"""docs/operations/operators-day.md, word for word: each command in a booted container, and the
restore in another one."""
import functools
import os
import re
import subprocess
import tempfile
import unittest

from tests.package import booted
from tests.package.test_dist import HAS_ROOT, packed
from tests.package.test_upgrading import other_version
from tests.support.preloaded import COMPILER
from tests.support.running import PROGRAM, ROOT, Cases

# a device whose syncs fail while a file is there
FAILS = r"""
#define _GNU_SOURCE
#include <dlfcn.h>
#include <errno.h>
#include <unistd.h>
int fdatasync(int fd) {
    if (!access("/device-fails", F_OK)) { errno = EIO; return -1; }
    return ((int (*)(int))dlsym(RTLD_NEXT, "fdatasync"))(fd);
}
"""
EVENTS = {"the device fails": "touch /device-fails", "the device works": "rm /device-fails"}
COPY = "/root/items-monday.store"
# (the triggers of other packages and the lists of Debian's packages take longer than all else)
FILES = {
    "/etc/apt/apt.conf.d/99tried": (
        b'DPkg::Options {"--no-triggers";}; APT::Install-Suggests "false"; Dir::State::lists '
        b'"/tried.lists/";'
    ),
    "/tried.lists/partial/none": b"",
    "/etc/systemd/system/oaut@items.service.d/fails.conf": (
        b"[Service]\nEnvironment=LD_PRELOAD=/fails.so\n"
    ),
}


def blocks_of(page):
    """What happens on the page, in its order: of each command its machine, its words and what it
    prints; of each event its name."""
    found = []
    for event, kind, block in re.findall(
        r"^<!-- (.*?) -->$|^```console(.*?)\n(.*?)^```$", page, re.MULTILINE | re.DOTALL
    ):
        if event:
            found.append(("event", event, None))
        for command, printed in re.findall(
            r"^# ((?:.*\\\n)*.*)\n((?:(?!# ).*\n)*)", block, re.MULTILINE
        ):
            found.append((kind.strip() or "first", command, printed))
    return found


def script_of(steps):
    """A script of the shell that marks what each command prints. Each begins in /root. One that
    reads the journal, which may be late, waits for what it looks for."""
    waits = "for turn in $(seq 300); do {{ {}; }} > /dev/null 2>&1 && break; sleep 0.2; done\n"
    return "exec 2>&1\nexport HOME=/root LC_ALL=C.UTF-8 DEBIAN_FRONTEND=noninteractive\n" + "".join(
        f"cd /root\n{EVENTS[words]}\n"
        if kind == "event"
        else f"cd /root\n{waits.format(words) if words.startswith('journalctl') else ''}echo "
        f"'@{place}'\n{words}\n"
        for place, (kind, words, _) in steps
    )


def pattern_of(printed):
    """What is printed, as an expression: `..` is anything in a line."""
    return (
        re.escape(printed).replace(r"\.\.\.", "\0").replace(r"\.\.", ".*").replace("\0", r"\.\.\.")
    )


def page():
    with open(f"{ROOT}/docs/operations/operators-day.md") as file:
        return file.read()


@functools.lru_cache(None)
def files():
    """The packages, and a library that makes the device fail."""
    package = packed().stdout.splitlines()[1]
    with tempfile.TemporaryDirectory() as room:
        with open(f"{room}/fails.c", "w") as file:
            file.write(FAILS)
        subprocess.run(
            ["cc", "-shared", "-fPIC", "-o", f"{room}/fails.so", f"{room}/fails.c"], check=True
        )
        new = other_version(package, room, "0.3.0")
        with open(package, "rb") as old, open(f"{room}/fails.so", "rb") as fails:
            return {
                **FILES,
                f"/root/{os.path.basename(package)}": old.read(),
                "/root/oaut_0.3.0_amd64.deb": new,
                "/fails.so": fails.read(),
            }


@functools.lru_cache(None)
def first_machine():
    """How the container ended in which the first machine's commands were run, and the copy that was
    made there."""
    taken = {}
    return booted.run(
        script_of(steps_of("first", "event")), files(), 800, take={COPY: taken}
    ), taken.get(COPY, b"")


def anew():
    """Has a test that runs again boot a machine of its own."""
    first_machine.cache_clear()


def steps_of(*kinds):
    return [it for it in enumerate(blocks_of(page())) if it[1][0] in kinds]


@unittest.skipIf(
    not HAS_ROOT or not COMPILER or not os.path.exists(PROGRAM) or booted.why_not(),
    f"no package, no compiler, or {booted.why_not()}",
)
class OperatorsDay(Cases):
    def follows(self, end, *kinds):
        """Each command of the page that was run has printed what stands there."""
        status, out, err = end
        # (apt says this where the package apt-utils is not installed)
        out = re.sub(r"^debconf: delaying .*\n", "", out, flags=re.MULTILINE)
        got = {
            int(place): text
            for place, text in re.findall(r"^@(\d+)\n(.*?)(?=^@|\Z)", out, re.MULTILINE | re.DOTALL)
        }
        for place, (kind, words, printed) in steps_of(*kinds):
            if kind != "event":
                said = got.get(place, "it was not run")
                self.tell(
                    words,
                    re.fullmatch(pattern_of(printed), said),
                    (printed, said[-1_500:], status, out[-500:], err[-500:]),
                )

    def test_first_machine(self):
        self.follows(first_machine()[0], "first", "event")

    def test_other_machine(self):
        self.tell("there is a copy", first_machine()[1])
        self.follows(
            booted.run(script_of(steps_of("other")), {**files(), COPY: first_machine()[1]}, 800),
            "other",
        )

    def test_each_part_of_the_day_is_there(self):
        found = re.findall(r"^## (.*)$", page(), re.MULTILINE)
        parts = (
            "Install|The first store|A second store|Back up|Restore to another "
            "machine|Upgrade|Alerts|The disk is full|A store is full|The device fails|Remove"
        )
        self.tell("its parts", found == parts.split("|"), found)
        self.tell(
            "there are commands on both machines",
            {it[0] for it in blocks_of(page())} == {"first", "other", "event"},
        )
