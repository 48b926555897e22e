"""Hosts in network namespaces of this machine, on one wire: `ip`, and the rights to use it."""
import functools
import os
import shutil
import signal
import subprocess

NET = "10.79.0"


@functools.lru_cache(None)
def why_not():
    """Why there are none here, or nothing."""
    if shutil.which("ip") is None:
        return "ip is not there"
    name = f"oaut-{os.getpid()}-try"
    done = subprocess.run(["ip", "netns", "add", name], capture_output=True, text=True)
    if done.returncode:
        return "no network namespaces: not the superuser of this machine"
    try:
        done = subprocess.run(
            ["ip", "netns", "exec", name, "ip", "link", "add", "br0", "type", "bridge"],
            capture_output=True,
            text=True,
        )
        return "no bridge in a network namespace" if done.returncode else ""
    finally:
        subprocess.run(["ip", "netns", "del", name], capture_output=True)


class Host:
    """A host, with an address and processes of its own."""

    def __init__(self, name, address):
        self.name, self.address, self.processes = name, address, []

    def start(self, *words, **how):
        """Starts a process there, which is killed with the host."""
        child = subprocess.Popen(
            ["ip", "netns", "exec", self.name, *words], start_new_session=True, **how
        )
        self.processes.append(child)
        return child

    def kill(self):
        """Kills all that runs there, at once."""
        for it in self.processes:
            try:
                os.killpg(it.pid, signal.SIGKILL)
            except ProcessLookupError:
                pass
        for it in self.processes:
            it.wait()
            for stream in (it.stdin, it.stdout, it.stderr):
                if stream is not None:
                    stream.close()
        self.processes = []


class Hosts:
    """Some hosts on one wire: `hosts[0]` has the address .1, and the bridge."""

    def __init__(self, count):
        self.hosts = [Host(f"oaut-{os.getpid()}-{at}", f"{NET}.{at + 1}") for at in range(count)]

    def __enter__(self):
        first = self.hosts[0].name
        for at, it in enumerate(self.hosts):
            self.ip("netns", "add", it.name)
            self.inside(it, "link", "set", "lo", "up")
            if at == 0:
                self.inside(it, "link", "add", "br0", "type", "bridge")
                self.inside(it, "addr", "add", f"{it.address}/24", "dev", "br0")
                self.inside(it, "link", "set", "br0", "up")
                continue
            self.ip(
                "-n",
                first,
                "link",
                "add",
                f"h{at}",
                "type",
                "veth",
                "peer",
                "name",
                "eth0",
                "netns",
                it.name,
            )
            self.inside(self.hosts[0], "link", "set", f"h{at}", "master", "br0", "up")
            self.inside(it, "addr", "add", f"{it.address}/24", "dev", "eth0")
            self.inside(it, "link", "set", "eth0", "up")
        return self.hosts

    def __exit__(self, *_):
        for it in self.hosts:
            it.kill()
        for it in self.hosts:
            subprocess.run(["ip", "netns", "del", it.name], capture_output=True)

    def ip(self, *words):
        subprocess.run(["ip", *words], check=True, capture_output=True)

    def inside(self, host, *words):
        self.ip("-n", host.name, *words)
