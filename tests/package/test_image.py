"""The container image, and the manifests of Kubernetes as podman plays them."""
import contextlib
import functools
import importlib.machinery
import importlib.util
import json
import os
import re
import signal
import socket
import subprocess
import sys
import tarfile
import tempfile
import textwrap
import threading
import time
import unittest

from tests.support.pods import Podman, why_not
from tests.support.ports import free_port
from tests.support.running import PROGRAM, ROOT, Cases, goes_on
from tests.support.wire import oaut

FULL = f"{ROOT}/examples/full.idl"
START = f"{ROOT}/dist/container/start"
BASE = f"{ROOT}/dist/kubernetes/base"
SECONDS = float(os.environ.get("OAUT_SECONDS") or 300)
KILLS = int(os.environ.get("OAUT_KILLS") or 20)
MANIFEST = """\
apiVersion: v1
kind: ConfigMap
metadata:
  name: library
data:
  library.idl: |
{library}
---
apiVersion: v1
kind: PersistentVolumeClaim
metadata:
  name: data
spec:
  accessModes: ["ReadWriteOnce"]
  resources:
    requests:
      storage: 1Gi
---
apiVersion: v1
kind: Pod
{pod}
"""


@functools.lru_cache(None)
def image():
    """The image's archive and digest, and the folder that has it as long as this process lives.
    OAUT_IMAGE names an archive that is there already."""
    there = os.environ.get("OAUT_IMAGE")
    if there:
        return there, None, None
    folder = tempfile.TemporaryDirectory()
    done = subprocess.run(
        [f"{ROOT}/dist/image", "--program", PROGRAM, folder.name], capture_output=True, text=True
    )
    if done.returncode:
        raise AssertionError(done.stderr[-3000:])
    path, digest = done.stdout.split()
    return path, digest, folder


def wait_for(fact, what, seconds=SECONDS):
    until = time.monotonic() + seconds
    while not (found := fact()):
        if time.monotonic() > until:
            raise AssertionError(f"{what}: not within {seconds} s")
        time.sleep(0.05)
    return found


class Start(Cases):
    """What the image runs first, by itself: the gateway is a program that prints its words."""

    preparing = threading.Lock()

    def started(self, room, *words, **environment):
        with self.preparing:  # (some tests start several at once)
            if not os.path.lexists(f"{room}/oaut-gateway"):
                with open(f"{room}/oaut-gateway", "w") as file:
                    file.write('#!/bin/sh\necho "$@"\n')
                os.chmod(f"{room}/oaut-gateway", 0o755)
            if not os.path.lexists(f"{room}/oaut"):
                os.symlink(PROGRAM, f"{room}/oaut")
        environment = {
            "PATH": f"{room}:{os.environ['PATH']}",
            "OAUT_STORE": f"{room}/data/it.store",
            "OAUT_LIBRARY": f"{room}/lib.idl",
            **environment,
        }
        done = subprocess.run(
            [sys.executable, "-I", START, *(words or ("--idle", "5"))],
            env=environment,
            capture_output=True,
            text=True,
            timeout=SECONDS,
        )
        return done.returncode, done.stdout, done.stderr

    @contextlib.contextmanager
    def room(self, library=True):
        with tempfile.TemporaryDirectory() as room:
            os.mkdir(f"{room}/data")
            if library:
                with open(FULL) as source, open(f"{room}/lib.idl", "w") as file:
                    file.write(source.read())
            yield room

    def test_a_new_store(self):
        with self.room() as room:
            words = (
                "--idle 5 --listen /run/oaut/oaut.sock --control /run/oaut/control.sock "
                f"{room}/data/it.store\n"
            )
            self.tell(
                "it is made and served",
                (got := self.started(room, OAUT_BANK="20971520")) == (0, words, ""),
                got,
            )
            self.tell(
                "nothing else is left",
                os.listdir(f"{room}/data") == ["it.store"],
                os.listdir(f"{room}/data"),
            )
            with oaut.serve(f"{room}/data/it.store", program=PROGRAM) as server:
                server.create("Item").Count = 7
            with open(f"{room}/lib.idl", "w") as file:
                file.write("no library")
            self.tell(
                "it is not made again, whatever the library is",
                (got := self.started(room)) == (0, words, ""),
                got,
            )
            with oaut.serve(f"{room}/data/it.store", program=PROGRAM) as server:
                self.tell(
                    "its objects are there", [int(it.Count) for it in server.objects()] == [7]
                )

    def test_sockets_that_are_given(self):
        """By two words, or by one with =."""
        shared, control = "--listen /run/oaut/oaut.sock", "--control /run/oaut/control.sock"
        rows = [
            ("--alone /run/a", f"--alone /run/a {shared} {control}"),
            (shared, f"{shared} {control}"),
            (shared.replace(" ", "="), f"{shared.replace(' ', '=')} {control}"),
            ("--control /run/c", f"--control /run/c {shared}"),
            ("--control=/run/c", f"--control=/run/c {shared}"),
        ]
        with self.room() as room:
            open(f"{room}/data/it.store", "w").close()
            for given, wanted in rows:
                got = self.started(room, *given.split())
                self.tell(given, got == (0, f"{wanted} {room}/data/it.store\n", ""), got)

    def test_what_is_missing(self):
        with self.room(library=False) as room:
            status, out, err = self.started(room)
            told = (
                f"there is no store {room}/data/it.store and no library to make it of: mount a "
                f"library as {room}/lib.idl, or a volume with a store"
            )
            self.tell(
                "without a library",
                (status, out, err) == (2, "", f"oaut: {told}\n"),
                (status, out, err),
            )
            with open(f"{room}/lib.idl", "w") as file:
                file.write("library")
            status, out, err = self.started(room)
            self.tell(
                "with one that is refused",
                (status, out) == (2, "") and "syntax at byte" in err,
                (status, out, err),
            )
            self.tell(
                "no file is left", os.listdir(f"{room}/data") == [], os.listdir(f"{room}/data")
            )
            status, out, err = self.started(
                room, OAUT_STORE=f"{room}/nowhere/it.store", OAUT_LIBRARY=FULL
            )
            self.tell(
                "without a folder",
                (status, "No such file or directory" in err) == (1, True),
                (status, err),
            )

    def test_what_an_earlier_start_has_left(self):
        with self.room() as room:
            with open(f"{room}/data/.it.store.new", "wb") as file:
                file.write(bytes(10_000))
            status, _, err = self.started(room)
            self.tell(
                "half a store is made anew",
                (status, os.listdir(f"{room}/data")) == (0, ["it.store"]),
                (status, err),
            )
        with self.room() as room:
            with open(f"{room}/mine", "w") as file:
                file.write("mine")
            os.symlink(f"{room}/mine", f"{room}/data/.it.store.new")
            status, _, err = self.started(room)
            self.tell(
                "what is none is left alone",
                (status, os.path.islink(f"{room}/data/.it.store.new"), open(f"{room}/mine").read())
                == (1, True, "mine"),
                (status, err),
            )

    def test_two_at_once(self):
        with self.room() as room:
            found = []
            threads = [
                threading.Thread(target=lambda: found.append(self.started(room)[0]))
                for _ in range(4)
            ]
            for it in threads:
                it.start()
            for it in threads:
                it.join()
            self.tell(
                "all serve one store",
                (found, os.listdir(f"{room}/data")) == ([0] * 4, ["it.store"]),
                (found, os.listdir(f"{room}/data")),
            )


class Probe(Cases):
    """What Kubernetes asks: the gateway is a socket that answers, and its command one that could
    not measure the store."""

    COUNTERS = b"oaut_gateway_clients 0\noaut_gateway_kept_waiting 1\n"

    @contextlib.contextmanager
    def probe(self):
        loader = importlib.machinery.SourceFileLoader("probe", f"{ROOT}/dist/container/probe")
        it = importlib.util.module_from_spec(importlib.util.spec_from_loader("probe", loader))
        loader.exec_module(it)
        with tempfile.TemporaryDirectory() as room:
            with open(f"{room}/oaut-gateway", "w") as file:
                file.write("#!/bin/sh\nexit 1\n")
            os.chmod(f"{room}/oaut-gateway", 0o755)
            it.CONTROL, before = f"{room}/control.sock", os.environ["PATH"]
            os.environ["PATH"] = f"{room}:{before}"
            try:
                yield it
            finally:
                os.environ["PATH"] = before

    def answer(self, listening):
        asked, _ = listening.accept()
        with asked, contextlib.suppress(OSError):
            asked.sendall(self.COUNTERS if asked.recv(100) == b"status\n" else b"refused\n")

    def test_a_store_that_cannot_be_measured(self):
        with self.probe() as it, socket.socket(socket.AF_UNIX) as listening:
            self.tell(
                "nobody listens: not alive, not ready",
                (bool(it.status()), it.is_ready()) == (False, False),
            )
            listening.bind(it.CONTROL)
            listening.listen()
            threads = [threading.Thread(target=self.answer, args=[listening]) for _ in range(2)]
            for thread in threads:
                thread.start()
            self.tell(
                "the gateway answers: it is alive",
                (got := it.status()) == self.COUNTERS.decode(),
                got,
            )
            self.tell("one keeps others waiting: it is ready", it.is_ready())
            for _ in threads:  # (those that were not asked)
                with contextlib.suppress(OSError), socket.socket(socket.AF_UNIX) as other:
                    other.connect(it.CONTROL)
            for thread in threads:
                thread.join(SECONDS)


@unittest.skipIf(why_not(), why_not())
class Image(Cases):
    def test_what_it_is(self):
        path, digest, _ = image()
        with tempfile.TemporaryDirectory() as room:
            done = subprocess.run(
                [f"{ROOT}/dist/image", "--program", PROGRAM, room],
                capture_output=True,
                text=True,
                cwd="/",
                preexec_fn=lambda: os.umask(0o077) and None,
            )
            self.tell(
                "a second build has the same digest",
                done.stdout.split()[1:] == [digest],
                (done.stdout, digest, done.stderr[-500:]),
            )
        self.tell(
            "it has at most 60 MB", os.path.getsize(path) <= 60_000_000, os.path.getsize(path)
        )
        with Podman() as podman:
            podman.told("load", "--input", path)
            name = podman.told("images", "--format", "{{.Repository}}:{{.Tag}}")
            told = podman.inspected(name)
            config = told["Config"]
            self.tell("at most 60 MB unpacked too", told["Size"] <= 60_000_000, told["Size"])
            self.tell("its user", config["User"] == "65532:65532", config["User"])
            self.tell("its volume", list(config["Volumes"]) == ["/data"], config["Volumes"])
            version = subprocess.run(
                [PROGRAM, "--version"], capture_output=True, text=True
            ).stdout.split()[1]
            labels = {
                key.rpartition(".")[2]: value
                for key, value in config["Labels"].items()
                if key.startswith("org.opencontainers.image.")
            }
            revision = subprocess.run(
                ["git", "-C", ROOT, "rev-parse", "HEAD"], capture_output=True, text=True
            ).stdout.strip()
            self.tell(
                "its labels",
                (labels["version"], labels["revision"], name)
                == (version, revision, f"localhost/oaut:{version}"),
                (labels, name),
            )
            there = podman.told(
                "run",
                "--rm",
                "--entrypoint",
                '["/usr/bin/python3","-c","import os, oaut; print(oaut.__version__, '
                'os.path.exists(\\"/bin/sh\\"))"]',
                name,
            )
            self.tell("the client is there, and no shell", there == f"{version} False", there)
            tools = podman.told(
                "run", "--rm", "--entrypoint", '["/usr/bin/oaut-tools","--version"]', name
            )
            self.tell("the tools run", tools == f"oaut {version}", tools)

    def test_a_volume_without_a_library(self):
        path, _, _ = image()
        with Podman() as podman:
            podman.told("load", "--input", path)
            name = podman.told("images", "--format", "{{.Repository}}:{{.Tag}}")
            done = podman.run("run", "--rm", "--read-only", "--volume", "none:/data", name)
            self.tell(
                "without a library",
                (done.returncode, "mount a library as /etc/oaut/library.idl" in done.stderr)
                == (2, True),
                (done.returncode, done.stderr),
            )

    def test_volumes(self):
        """One that a store is made on, and the same with another library."""
        path, _, _ = image()
        with Podman() as podman, tempfile.TemporaryDirectory() as room:
            podman.told("load", "--input", path)
            name = podman.told("images", "--format", "{{.Repository}}:{{.Tag}}")
            for turn, source in enumerate(("full", "arrays")):
                os.makedirs(f"{room}/etc", exist_ok=True)
                with open(f"{ROOT}/examples/{source}.idl") as file, open(
                    f"{room}/etc/library.idl", "w"
                ) as to:
                    to.write(file.read())
                port = free_port()
                words = [
                    "run",
                    "--detach",
                    "--name",
                    f"it{turn}",
                    "--read-only",
                    "--volume",
                    "data:/data",
                    "--volume",
                    f"run{turn}:/run/oaut",
                ]
                podman.told(
                    *words,
                    "--volume",
                    f"{room}/etc:/etc/oaut:ro",
                    name,
                    "--listen",
                    f"127.0.0.1:{port}",
                    "--clients",
                    "100",
                )
                try:
                    with oaut.connect(
                        f"oaut://127.0.0.1:{port}", timeout=60, patience=SECONDS
                    ) as server:
                        if turn == 0:
                            server.create("Item").Count = 7
                        self.tell(
                            f"{source}: the store's objects",
                            [(it.coclass, int(it.Count)) for it in server.objects()]
                            == [("Item", 7)],
                        )
                finally:
                    self.tell(
                        f"{source}: SIGTERM ends it",
                        podman.told("stop", "--time", "60", f"it{turn}") is not None,
                    )
                status = podman.inspected(f"it{turn}")["State"]["ExitCode"]
                self.tell(
                    f"{source}: with status 0",
                    status == 0,
                    (status, podman.run("logs", f"it{turn}").stderr[-500:]),
                )


@unittest.skipIf(why_not(), why_not())
class Kubernetes(Cases):
    def manifest(self, name, *words):
        """The pod of the base, with its claim and its library, as `podman play kube` reads them."""
        with open(f"{BASE}/statefulset.yaml") as file:
            lines = file.read().split("\n")
        begin, end = lines.index("  template:"), lines.index("  volumeClaimTemplates:")
        pod = textwrap.dedent("\n".join(lines[begin + 1 : end]))
        pod = pod.replace("metadata:\n", "metadata:\n  name: store-0\n", 1).replace(
            "spec:\n", "spec:\n  hostNetwork: true\n", 1
        )
        pod = re.sub(r"image: \S+", f"image: {name}", pod)
        pod = re.sub(
            r"args: (\[.*\])", lambda it: f"args: {json.dumps([*json.loads(it[1]), *words])}", pod
        )
        # (podman runs probes by timers of systemd: here the test asks them)
        pod = re.sub(r"(?m)^( +)(readiness|liveness|startup)Probe:\n(?:\1 +.*\n)+", "", pod)
        pod = (
            pod.rstrip()
            + "\n    - name: data\n      persistentVolumeClaim:\n        claimName: data\n"
        )
        with open(f"{BASE}/library.idl") as file:
            return MANIFEST.format(library=textwrap.indent(file.read(), "    "), pod=pod)

    def probe(self, kind):
        with open(f"{BASE}/statefulset.yaml") as file:
            found = re.search(rf"{kind}Probe:\n +exec:\n +command: (\[.*\])", file.read())
        return json.loads(found[1])

    def asked(self, podman, kind):
        return podman.run("exec", "store-0-oaut", *self.probe(kind)).returncode

    def test_a_pod(self):
        """It serves, is killed under load and comes back, and ends in order."""
        path, _, _ = image()
        with Podman() as podman, tempfile.TemporaryDirectory() as room:
            podman.told("load", "--input", path)
            name = podman.told("images", "--format", "{{.Repository}}:{{.Tag}}")
            entry = json.dumps(self.probe("readiness"))
            self.tell(
                "not ready while nobody serves",
                podman.run("run", "--rm", "--entrypoint", entry, name).returncode == 1,
            )
            port = free_port()
            with open(f"{room}/pod.yaml", "w") as file:
                file.write(
                    self.manifest(
                        name,
                        "--listen",
                        f"127.0.0.1:{port}",
                        "--alone",
                        "/run/oaut/alone.sock",
                        "--hold",
                        "300",
                        "--clients",
                        "100",
                    )
                )
            podman.told("play", "kube", f"{room}/pod.yaml")
            wait_for(lambda: self.asked(podman, "readiness") == 0, "it is ready")
            self.tell("it is alive", self.asked(podman, "liveness") == 0)
            self.alone(podman)
            self.kills(podman, port, f"{room}/put")
            self.backup(podman, name, port)
            podman.told("stop", "--time", "60", "store-0-oaut")
            state = podman.inspected("store-0-oaut")["State"]
            self.tell(
                "SIGTERM ends it in order",
                state["ExitCode"] == 0,
                (state, podman.run("logs", "store-0-oaut").stderr[-500:]),
            )

    def alone(self, podman):
        """A client that has the server alone is no reason to send others away, or to kill it."""
        hold = (
            "import oaut, sys; s = oaut.connect('/run/oaut/alone.sock'); s.objects(); "
            "print('held', flush=True); sys.stdin.read()"
        )
        words = podman.command(
            "exec", "--interactive", "store-0-oaut", "/usr/bin/python3", "-I", "-c", hold
        )
        with subprocess.Popen(
            words, env=podman.environment, stdin=subprocess.PIPE, stdout=subprocess.PIPE, text=True
        ) as child:
            self.tell("a client has the server alone", child.stdout.readline() == "held\n")
            self.tell(
                "it is ready, and alive",
                (self.asked(podman, "readiness"), self.asked(podman, "liveness")) == (0, 0),
            )
            child.stdin.close()

    def backup(self, podman, name, port):
        """The backup's container, by the command and the mounts of the job, beside the pod that
        serves."""
        with open(f"{BASE}/backup.yaml") as file:
            text = file.read()
        words = json.loads(re.search(r"command: (\[.*\])", text)[1])
        # (podman knows no fsGroup: it gives the volume to the user)
        mounts = ["--volume", "data:/data:ro", "--volume", "backup:/backup:U"]
        with oaut.connect(f"oaut://127.0.0.1:{port}", timeout=60) as server:
            wanted = sorted((it.coclass, int(it.Count)) for it in server.objects())
        done = podman.run(
            "run", "--rm", "--read-only", "--entrypoint", json.dumps(words), *mounts, name
        )
        self.tell(
            "the backup's job",
            done.returncode == 0 and ": held for " in done.stdout,
            (done.returncode, done.stdout, done.stderr),
        )
        folder = json.loads(podman.told("volume", "inspect", "backup"))[0]["Mountpoint"]
        copies = os.listdir(folder)
        self.tell(
            "its copy",
            len(copies) == 1 and re.fullmatch(r"objects-\d{8}T\d{6}Z\.store", copies[0]),
            copies,
        )
        with oaut.serve(f"{folder}/{copies[0]}", program=PROGRAM) as server:
            self.tell(
                "has all objects",
                (got := sorted((it.coclass, int(it.Count)) for it in server.objects())) == wanted
                and wanted,
                (got, wanted),
            )
        # (a volume of its own: a second copy within the same second would have the first one's
        # name)
        mounts[-1] = "second:/backup:U"
        done = podman.run(
            "run",
            "--rm",
            "--read-only",
            "--entrypoint",
            json.dumps([*words[:3], "/data/none.sock", "/backup"]),
            *mounts,
            name,
        )
        self.tell(
            "without a gateway it fails",
            done.returncode == 1 and "cannot connect to /data/none.sock" in done.stderr,
            (done.returncode, done.stderr),
        )

    def kills(self, podman, port, path):
        words = [
            sys.executable,
            f"{ROOT}/tests/gateway/putting.py",
            f"oaut://127.0.0.1:{port}",
            path,
        ]
        child = subprocess.Popen(words, env={**os.environ, "PYTHONPATH": f"{ROOT}/clients/python"})

        def count():
            with contextlib.suppress(OSError):
                with open(path) as file:
                    return sum(line[:1].isdigit() for line in file)
            return 0

        def state():
            return podman.inspected("store-0-oaut")["State"]

        try:
            for _ in range(KILLS):
                goes_on()
                before = count()
                wait_for(lambda: count() >= before + 10, "puts")
                first = wait_for(lambda: state()["Pid"], "it runs")
                with contextlib.suppress(ProcessLookupError):
                    os.kill(first, signal.SIGKILL)
                # (podman sees the end a moment later, and would say that it runs)
                wait_for(
                    lambda: state()["Pid"] != first or state()["Status"] != "running",
                    "its end is seen",
                )
                wait_for(
                    lambda: podman.run("start", "store-0-oaut").returncode == 0,
                    "it is started again",
                )
            before = count()
            wait_for(lambda: count() >= before + 10, "puts after all")
            goes_on()
        finally:
            with open(f"{path}.stop", "w"):
                pass
            try:
                child.wait(SECONDS)
            except subprocess.TimeoutExpired:
                child.kill()
                child.wait()
        with open(path) as file:
            lost = [line for line in file if line.startswith("lost")]
        self.tell(f"{KILLS} kills under load: no acknowledged put is lost", not lost, lost[:5])
