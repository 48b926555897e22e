"""Podman in folders of its own, with the settings that work in a container and without systemd. Its
locks are files of these folders: those in memory are the whole machine's, and each podman with new
folders would take them for its own."""
import functools
import json
import os
import shutil
import subprocess
import tempfile

CONFIG = """\
[containers]
default_ulimits = ["nofile=1024:1024", "nproc=1024:1024"]
cgroups = "no-conmon"
netns = "host"
[engine]
runtime = "runc"
cgroup_manager = "cgroupfs"
events_logger = "file"
lock_type = "file"
"""


@functools.lru_cache(None)
def why_not():
    """Why no container runs here, or nothing. In the gate's own image these tests are never left
    out: if none runs there, they fail."""
    if os.environ.get("OAUT_GATE_IMAGE"):
        return ""
    missing = [it for it in ("podman", "buildah", "runc", "catatonit") if shutil.which(it) is None]
    if missing:
        return f"{', '.join(missing)} not there"
    # (a program without libraries, in a root of its own)
    with Podman() as podman, tempfile.TemporaryDirectory() as root:
        shutil.copy(shutil.which("catatonit"), f"{root}/it")
        done = podman.run("run", "--rm", "--rootfs", root, "/it", "--version")
    return (
        ""
        if done.returncode == 0
        else f"podman runs no container here: {' '.join(done.stderr[-200:].split())}"
    )


class Podman:
    """Images, containers and volumes that end with it."""

    def __enter__(self):
        self.folder = tempfile.TemporaryDirectory()
        self.room = self.folder.name
        with open(f"{self.room}/containers.conf", "w") as file:
            file.write(CONFIG)
        self.environment = {**os.environ, "CONTAINERS_CONF": f"{self.room}/containers.conf"}
        return self

    def __exit__(self, *_):
        self.run("pod", "rm", "--all", "--force", "--time", "0")
        self.run("rm", "--all", "--force", "--time", "0")
        self.run("volume", "rm", "--all", "--force")
        self.folder.cleanup()

    def command(self, *words):
        return [
            "podman",
            "--root",
            f"{self.room}/root",
            "--runroot",
            f"{self.room}/run",
            "--tmpdir",
            f"{self.room}/tmp",
            "--storage-driver=vfs",
            *words,
        ]

    def run(self, *words, **how):
        """Runs podman to its end."""
        return subprocess.run(
            self.command(*words),
            env=self.environment,
            capture_output=True,
            text=True,
            timeout=600,
            **how,
        )

    def told(self, *words):
        """What podman prints."""
        done = self.run(*words)
        if done.returncode:
            raise AssertionError(f"podman {' '.join(words)}: {done.stderr[-2000:]}")
        return done.stdout.strip()

    def inspected(self, name):
        return json.loads(self.told("inspect", name))[0]
