"""The code blocks of the pages, and a folder in which their commands run: with the program, the
client, the tools and the examples, and with folders in place of the system's."""
import functools
import os
import re
import shlex
import shutil
import subprocess
import sys
import tempfile
import unittest

from tests.support.running import PROGRAM, ROOT

SECONDS = 300  # of one command
# folders of the pages, and those of a room that take their place
FOLDERS = {
    "/run/oaut": "run",
    "/var/lib/oaut": "lib",
    "/etc/oaut": "etc",
    "/usr/share/oaut": "share",
    "/backup": "backup",
}


# a network of its own, so that the ports of the pages are free
ALONE = ["unshare", "--map-root-user", "--net"]


@functools.lru_cache(None)
def has_network():
    """Whether a command may have a network of its own."""
    return (
        bool(shutil.which("unshare") and shutil.which("ip"))
        and not subprocess.run(
            [*ALONE, "ip", "link", "set", "lo", "up"], capture_output=True
        ).returncode
    )


needs_network = unittest.skipUnless(
    has_network(), "no network of its own: unshare or ip is not there, or may not"
)


def read(page):
    with open(f"{ROOT}/{page}", encoding="utf-8") as file:
        return file.read()


def blocks(text):
    """The code blocks of a page: fenced ones, and those of lines that are indented by four."""
    found, lines, at = [], text.split("\n"), 0
    while at < len(lines):
        fence = re.match(r" *```(.*)", lines[at])
        begins = lines[at].startswith("    ") and (not at or not lines[at - 1].strip())
        end = at + 1
        if fence:
            while not lines[end].strip().startswith("```"):
                end += 1
            found.append("\n".join(lines[at + 1 : end]) + "\n")
            end += 1
        elif begins:
            while end < len(lines) and (lines[end].startswith("    ") or not lines[end].strip()):
                end += 1
            found.append("\n".join(it[4:] for it in lines[at:end]).rstrip() + "\n")
        at = end
    return found


def block(page, begins):
    """The one block of a page that begins with these words."""
    (found,) = [it for it in blocks(read(page)) if it.startswith(begins)]
    return found


def commands_of(text):
    """The commands of a block with prompts, each with the lines that it prints."""
    found = []
    for line in text.splitlines():
        if line.startswith("$ "):
            found.append((line[2:], []))
        elif found:
            found[-1][1].append(line)
    return found


def is_like(wanted, got):
    """If lines are as a page has them: `..` stands for any text, and as a line of its own for any
    lines."""
    pattern = "".join(
        r"(?:.*\n)*" if it == ".." else re.escape(it).replace(r"\.\.", ".*") + r"\n"
        for it in wanted
    )
    return re.fullmatch(pattern, "".join(f"{it}\n" for it in got)) is not None


class Room:
    """A folder with the programs of a page on its path. The examples and the library `items.idl`
    are there."""

    def __init__(self, gateway=None):
        self.own = tempfile.TemporaryDirectory(prefix="oaut-page-")
        self.path = self.own.name
        for it in ("bin", *FOLDERS.values()):
            os.mkdir(f"{self.path}/{it}")
        for it in ("examples", "clients"):
            os.symlink(f"{ROOT}/{it}", f"{self.path}/{it}")
        for it in ("items.idl", "library.idl"):
            shutil.copy(
                f"{ROOT}/examples/{'items' if it == 'items.idl' else 'full'}.idl",
                f"{self.path}/{it}",
            )
        os.symlink(PROGRAM, f"{self.path}/bin/oaut")
        if gateway:
            os.symlink(gateway, f"{self.path}/bin/oaut-gateway")
        for name, words in (("python", ""), ("python3", ""), ("oaut-tools", "-m oaut ")):
            self.write(
                f"bin/{name}", f'#!/bin/sh\nexec {shlex.quote(sys.executable)} {words}"$@"\n', 0o755
            )
        self.env = {
            **os.environ,
            "PATH": f"{self.path}/bin:{os.environ['PATH']}",
            "PYTHONPATH": f"{ROOT}/clients/python",
            "PYTHONDONTWRITEBYTECODE": "1",
        }

    def __enter__(self):
        return self

    def __exit__(self, *_):
        self.own.cleanup()

    def write(self, name, text, mode=0o644):
        with open(f"{self.path}/{name}", "w", encoding="utf-8") as file:
            file.write(text)
        os.chmod(f"{self.path}/{name}", mode)

    def here(self, text):
        """A text of a page with the room's folders in place of the system's."""
        for folder, name in FOLDERS.items():
            text = re.sub(rf"(?<![\w/]){folder}(?=/)", f"{self.path}/{name}", text)
        return text

    def run(self, commands, seconds=SECONDS, **how):
        """Runs commands in bash, up to the first one that fails: the status, and the output with
        the errors."""
        done = subprocess.run(
            ["bash", "-e", "-o", "pipefail", "-c", self.here(commands)],
            cwd=self.path,
            env=self.env,
            stdout=subprocess.PIPE,
            stderr=subprocess.STDOUT,
            text=True,
            timeout=seconds,
            **how,
        )
        return done.returncode, done.stdout

    def start(self, command, **how):
        """Starts a command in bash, in a process group of its own."""
        return subprocess.Popen(
            ["bash", "-c", self.here(command)],
            cwd=self.path,
            env=self.env,
            start_new_session=True,
            **how,
        )

    def run_beside(self, server, text):
        """Runs a text while a server runs, both in a network of their own. What is left of the
        server is ended with it: the status, and the text's output."""
        self.write("server.sh", self.here(server))
        self.write("client.sh", self.here(text))
        words = [
            "bash",
            "-c",
            (
                "ip link set lo up; setsid bash server.sh > server.out 2>&1 & bash -e client.sh; "
                "status=$?; kill -- -$!; wait; exit $status"
            ),
        ]
        done = subprocess.run(
            [*ALONE, *words],
            cwd=self.path,
            env=self.env,
            stdin=subprocess.DEVNULL,
            stdout=subprocess.PIPE,
            stderr=subprocess.STDOUT,
            text=True,
            timeout=SECONDS,
        )
        with open(f"{self.path}/server.out", encoding="utf-8", errors="replace") as file:
            self.served = file.read()
        return done.returncode, done.stdout
