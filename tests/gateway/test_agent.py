"""The resource agent, dist/ocf/gateway: what its actions answer, by the statuses that OCF gives a
meaning, and `oaut-gateway probe`, by which it asks."""
import contextlib
import os
import pwd
import re
import shutil
import signal
import socket
import stat
import struct
import subprocess
import tempfile
import threading
import time
import unittest

from tests.gateway.gateways import (
    FAILS,
    FULL,
    SECONDS,
    Gateway,
    built,
    copy_store,
    library,
    store_of,
)
from tests.support import wire
from tests.support.codes import BAD_INDEX, E_FAIL, WRITE_FAULT
from tests.support.preloaded import COMPILER, fast_folder
from tests.support.running import PROGRAM, ROOT, Cases
from tests.support.wire import oaut

AGENT = f"{ROOT}/dist/ocf/gateway"
OCF_ROOT = os.environ.get("OCF_ROOT") or "/usr/lib/ocf"
# the statuses of OCF's resource agents
OK, GENERIC, ARGUMENTS, UNIMPLEMENTED, INSTALLED, CONFIGURED, NOT_RUNNING = 0, 1, 2, 3, 5, 6, 7
why_not = next(
    (
        told
        for told, there in (
            ("ocf-tester", shutil.which("ocf-tester")),
            ("ocf-shellfuncs", os.path.exists(f"{OCF_ROOT}/lib/heartbeat/ocf-shellfuncs")),
            ("cc", COMPILER),
        )
        if not there
    ),
    None,
)


def has_ended(number):
    """Whether a process has ended, though who started it may not have waited for it yet."""
    try:
        with open(f"/proc/{number}/stat") as file:
            return file.read().rpartition(") ")[2][0] == "Z"
    except OSError:
        return True


class Agent:
    """A store, and the agent's actions over it. Its processes are this user's."""

    def __init__(self, **given):
        self.own = tempfile.TemporaryDirectory(dir=fast_folder())
        self.room = self.own.name
        os.chmod(self.room, 0o755)
        self.store, self.run = f"{self.room}/it.store", f"{self.room}/run"
        copy_store(store_of(FULL)[0], self.store)
        self.given = {
            "store": self.store,
            "gateway": built()[0],
            "program": PROGRAM,
            "user": pwd.getpwuid(os.getuid()).pw_name,
            "rundir": self.run,
            "logdir": self.room,
            **given,
        }

    def __enter__(self):
        return self

    def __exit__(self, *_):
        self.act("stop")
        self.own.cleanup()

    def act(self, action, timeout=20, **given):
        """The status of an action, and why it is so, as it tells the cluster."""
        given = {name: it for name, it in {**self.given, **given}.items() if it is not None}
        told = {
            "OCF_ROOT": OCF_ROOT,
            "OCF_RESOURCE_INSTANCE": "it",
            "OCF_RESKEY_CRM_meta_timeout": f"{timeout}000",
            "OCF_RESKEY_CRM_meta_interval": "3000",
            **{f"OCF_RESKEY_{name}": it for name, it in given.items()},
        }
        # (a file, since what it starts keeps the streams that it was given)
        with tempfile.TemporaryFile() as said:
            status = subprocess.run(
                [AGENT, action],
                env={**os.environ, **told},
                stdin=subprocess.DEVNULL,
                stdout=said,
                stderr=said,
                timeout=SECONDS,
            ).returncode
            said.seek(0)
            return status, " ".join(
                re.findall("^ocf-exit-reason:(.*)", said.read().decode(), re.MULTILINE)
            )

    def number(self):
        """The gateway's process."""
        return self.child_of(int(open(f"{self.run}/it.pid").read()), b"oaut-gateway")

    def server(self):
        return self.child_of(self.number(), b"serve")

    @staticmethod
    def child_of(number, word):
        with open(f"/proc/{number}/task/{number}/children") as file:
            for it in map(int, file.read().split()):
                with open(f"/proc/{it}/cmdline", "rb") as words:
                    if any(part.endswith(word) for part in words.read().split(b"\0")):
                        return it
        raise AssertionError(f"{number} has no such child: {word}")

    @contextlib.contextmanager
    def session(self, name="it.sock"):
        with socket.socket(socket.AF_UNIX) as sock:
            sock.settimeout(SECONDS)
            sock.connect(f"{self.run}/{name}")
            with oaut.connect(sock, timeout=SECONDS) as server:
                yield server

    def counters(self):
        """What `status` prints, by name."""
        done = subprocess.run(
            [built()[0], "status", f"{self.run}/it.control.sock"],
            capture_output=True,
            text=True,
            timeout=SECONDS,
        )
        return {
            name: float(value)
            for name, value in (
                line.rsplit(" ", 1) for line in done.stdout.splitlines() if not line.startswith("#")
            )
        }

    def script(self, name, text):
        path = f"{self.room}/{name}"
        with open(path, "w") as file:
            file.write(f"#!/bin/sh\n{text}\n")
        os.chmod(path, 0o755)
        return path


@unittest.skipIf(why_not, f"{why_not} not there")
class AgentCases(Cases):
    def does(self, name, got, status, says=""):
        self.tell(
            name,
            got[0] == status and re.search(says, got[1]),
            f"wanted {status} {says!r}, got {got}",
        )

    def test_ocf_tester(self):
        with Agent() as agent:
            words = [word for name, it in agent.given.items() for word in ("-o", f"{name}={it}")]
            done = subprocess.run(
                ["ocf-tester", "-n", "it", *words, AGENT],
                stdin=subprocess.DEVNULL,
                stdout=subprocess.PIPE,
                stderr=subprocess.STDOUT,
                text=True,
                timeout=4 * SECONDS,
            )
            self.tell(
                "ocf-tester has nothing to say",
                done.returncode == 0 and "passed all tests" in done.stdout,
                done.stdout,
            )

    def test_from_start_to_stop(self):
        with Agent(options="--alone ALONE") as agent:
            agent.given["options"] = f"--alone {agent.run}/alone.sock"
            self.does("nothing runs", agent.act("monitor"), NOT_RUNNING)
            self.does("there is nothing to stop", agent.act("stop"), OK)
            self.does("it starts", agent.act("start"), OK)
            self.does("it serves", agent.act("monitor"), OK)
            self.does("it runs already", agent.act("start"), OK)
            with agent.session() as server:
                item = server.create("Item")
                item.Count = 7
            with Agent(store=agent.store) as other:
                self.does(
                    "another one over the same store",
                    other.act("start", timeout=8),
                    GENERIC,
                    "in use by another process",
                )
            with agent.session("alone.sock") as server:
                server.object(1, "Item").Count = 8
                self.does(
                    "a client has it alone, the others wait", agent.act("monitor", patience="1"), OK
                )
            number, server = agent.number(), agent.server()
            self.does("it stops", agent.act("stop"), OK)
            self.tell("no process is left", has_ended(number) and has_ended(server))
            self.does("nothing runs any more", agent.act("monitor"), NOT_RUNNING)
            self.does("it starts again", agent.act("start"), OK)
            with agent.session() as server:
                self.tell("what was put is there", server.object(1, "Item").Count == 8)

    def test_what_monitor_sees(self):
        """A gateway that was killed, one whose server does not answer, and one that was told to end
        by somebody else."""
        with Agent() as agent:
            agent.act("start")
            os.kill(agent.server(), signal.SIGKILL)
            deadline = time.monotonic() + SECONDS
            while agent.act("monitor")[0] != OK and time.monotonic() < deadline:
                time.sleep(0.1)
            self.does("the gateway has started a killed server again", agent.act("monitor"), OK)
            server = agent.server()
            os.kill(server, signal.SIGSTOP)
            self.does(
                "a server that does not answer",
                agent.act("monitor", patience="1"),
                GENERIC,
                "no reply within 1 s",
            )
            self.does("it is stopped all the same", agent.act("stop", timeout=8), OK)
            self.tell("and is not left", has_ended(server))
            agent.act("start")
            parent = int(open(f"{agent.run}/it.pid").read())
            for it in (parent, agent.number()):
                os.kill(it, signal.SIGKILL)
            self.does(
                "a gateway that was killed",
                agent.act("monitor"),
                GENERIC,
                "was killed|does not serve",
            )
            self.does("it starts again", agent.act("start"), OK)
            os.kill(agent.number(), signal.SIGTERM)
            deadline = time.monotonic() + SECONDS
            while agent.act("monitor")[0] in (OK, GENERIC) and time.monotonic() < deadline:
                time.sleep(0.1)
            self.does("one that has ended in order", agent.act("monitor"), NOT_RUNNING)

    def test_at_the_limit_of_clients(self):
        """The gateway turns monitor away, and still serves; one whose server does not answer a
        client is seen all the same."""
        with Agent(options="--clients 1") as agent:
            self.does("it starts", agent.act("start"), OK)
            Gateway.wait_for(
                lambda: agent.counters().get("oaut_gateway_clients") == 0,
                "what asked is still connected",
            )
            with agent.session() as server:
                item = server.create("Item")
                self.does("it serves", agent.act("monitor"), OK)
                os.kill(agent.server(), signal.SIGSTOP)
                asking = threading.Thread(target=lambda: item.Count)
                asking.start()
                Gateway.wait_for(
                    lambda: agent.counters()["oaut_gateway_unanswered_seconds"] > 1.5,
                    "its server answers",
                )
                self.does(
                    "its server does not answer",
                    agent.act("monitor", patience="1"),
                    GENERIC,
                    "has hung up",
                )
                os.kill(agent.server(), signal.SIGCONT)
                asking.join()
                self.does("it does again", agent.act("monitor"), OK)

    def test_a_user_that_may_not_connect(self):
        """With --allow-user the gateway turns away who starts and monitors it."""
        with Agent(options="--allow-user 4242") as agent:
            self.does("it starts", agent.act("start"), OK)
            self.does("it serves", agent.act("monitor"), OK)
            self.does("it stops", agent.act("stop"), OK)

    def test_a_device_that_fails(self):
        with Agent() as agent:
            failing = agent.script(
                "failing", f'LD_PRELOAD={library("fails", FAILS)[0]} SYNCS=40 exec {PROGRAM} "$@"'
            )
            self.does("it starts", agent.act("start", program=failing), OK)
            with agent.session() as server, contextlib.suppress(oaut.Error):
                item = server.create("Item")
                for it in range(100):
                    item.Count = it
            for name, more, status in (
                ("it is not for this host", {}, INSTALLED),
                ("a probe has it stopped", {"CRM_meta_interval": "0"}, GENERIC),
            ):
                got = agent.act("monitor", **more)
                # the gateway ends a second or two after the fault, so on a busy machine it may have
                # ended while it was asked
                if os.path.exists(f"{agent.run}/it.sock"):
                    self.does(name, got, status, "device has failed here")
            deadline = time.monotonic() + SECONDS
            while not os.path.exists(f"{agent.run}/it.status") and time.monotonic() < deadline:
                time.sleep(0.1)
            self.does(
                "nor once it has ended", agent.act("monitor"), INSTALLED, "device has failed here"
            )
            self.does(
                "and a probe finds nothing of it",
                agent.act("monitor", CRM_meta_interval="0"),
                NOT_RUNNING,
            )
            self.does("it stops", agent.act("stop"), OK)
            self.does("that is all of it", agent.act("monitor"), NOT_RUNNING)

    def test_a_device_that_fails_behind_a_start_that_waited(self):
        """As one takes over: the store was in use at first. What was said of that is of no gateway
        that has ended since."""
        with Agent() as agent, Agent() as other:
            self.does("another one has the store", other.act("start", store=agent.store), OK)
            failing = agent.script(
                "failing", f'LD_PRELOAD={library("fails", FAILS)[0]} SYNCS=40 exec {PROGRAM} "$@"'
            )
            starts = threading.Thread(
                target=lambda: self.does(
                    "it starts in the end", agent.act("start", timeout=60, program=failing), OK
                )
            )
            starts.start()
            log = f"{agent.room}/oaut-it.log"
            Gateway.wait_for(
                lambda: os.path.exists(log) and "in use by another process" in open(log).read(),
                "it does not wait",
            )
            self.does("the other one stops", other.act("stop"), OK)
            starts.join()
            with agent.session() as server, contextlib.suppress(oaut.Error):
                item = server.create("Item")
                for it in range(100):
                    item.Count = it
            Gateway.wait_for(
                lambda: os.path.exists(f"{agent.run}/it.status"), "the gateway does not end"
            )
            self.does(
                "it is not for this host", agent.act("monitor"), INSTALLED, "device has failed here"
            )

    def test_what_is_refused(self):
        with Agent() as agent:
            rows = [
                ("all is there", "validate-all", {}, OK, ""),
                (
                    "no store is named",
                    "validate-all",
                    {"store": None},
                    CONFIGURED,
                    "store is not given",
                ),
                (
                    "a store by no whole path",
                    "validate-all",
                    {"store": "it.store"},
                    CONFIGURED,
                    "from / on",
                ),
                (
                    "no gateway",
                    "validate-all",
                    {"gateway": "/nowhere/oaut-gateway"},
                    INSTALLED,
                    "no program /nowhere/oaut-gateway",
                ),
                (
                    "no program",
                    "monitor",
                    {"program": "/nowhere/oaut"},
                    INSTALLED,
                    "no program /nowhere/oaut",
                ),
                (
                    "no such user",
                    "start",
                    {"user": "no-such-user"},
                    INSTALLED,
                    "no user no-such-user",
                ),
                (
                    "a store that is not there is asked for by start alone",
                    "monitor",
                    {"store": "/nowhere/it.store"},
                    NOT_RUNNING,
                    "",
                ),
                (
                    "there it is refused",
                    "start",
                    {"store": "/nowhere/it.store"},
                    ARGUMENTS,
                    "no store /nowhere/it.store",
                ),
            ]
            for name, action, given, status, says in rows:
                self.does(name, agent.act(action, timeout=7, **given), status, says)
                agent.act("stop")

    def test_starts_that_are_refused(self):
        with Agent() as agent:
            rows = [
                (
                    "an option that is none",
                    "start",
                    {"options": "--nothing 1"},
                    CONFIGURED,
                    "--nothing",
                ),
                (
                    "what has to be done before it fails",
                    "start",
                    {"before": "echo not equal; false"},
                    GENERIC,
                    "not equal",
                ),
                ("an action that is none", "promote", {}, UNIMPLEMENTED, ""),
            ]
            for name, action, given, status, says in rows:
                self.does(name, agent.act(action, timeout=7, **given), status, says)
                agent.act("stop")
            taken = (
                'if [ "$1" = serve ]; then echo "oaut: cannot read it.store" >&2; echo "it.store: '
                'in use by another process" >&2; exit 1; fi'
            )
            late = agent.script("late", f'{taken}\nexec {PROGRAM} "$@"')
            self.does(
                "a store that another one takes in between",
                agent.act("start", timeout=8, program=late),
                GENERIC,
                "in use by another process",
            )
            agent.act("stop")
            with open(f"{agent.room}/no.store", "wb"):
                pass
            self.does(
                "a file that is no store",
                agent.act("start", store=f"{agent.room}/no.store"),
                INSTALLED,
                "not a store|not started again",
            )

    def test_files_of_others(self):
        """A file that has the name of its socket, and a socket of another process: both stay,
        whatever the agent does, and no such gateway is said to serve."""
        with Agent() as agent:
            precious = f"{agent.room}/items.store"
            with open(precious, "wb") as file:
                file.write(b"precious")
            for action, status in (("stop", OK), ("start", CONFIGURED), ("stop", OK)):
                self.does(
                    f"{action} over a file", agent.act(action, timeout=7, listen=precious), status
                )
                self.tell(
                    f"the file is there behind {action}",
                    os.path.exists(precious) and open(precious, "rb").read() == b"precious",
                )
            os.makedirs(agent.run, exist_ok=True)
            with socket.socket(socket.AF_UNIX) as listener:
                listener.bind(f"{agent.run}/it.sock")
                listener.listen()
                self.does(
                    "start over a socket of another process",
                    agent.act("start", timeout=7),
                    GENERIC,
                    "another process listens on it",
                )
                self.does("stop", agent.act("stop"), OK)
                with socket.socket(socket.AF_UNIX) as sock:
                    self.tell(
                        "the other one is reached as before",
                        sock.connect_ex(f"{agent.run}/it.sock") == 0,
                    )

    @unittest.skipIf(os.getuid(), "another user's processes are made by root alone")
    def test_processes_of_others(self):
        """The number of a session that has ended may be another one's by now, of another user:
        nothing of it is ended."""
        with Agent() as agent:
            other = subprocess.Popen(
                ["sleep", "1000"],
                start_new_session=True,
                user=65_534,
                group=65_534,
                extra_groups=[],
            )
            try:
                os.makedirs(agent.run, exist_ok=True)
                with open(f"{agent.run}/it.pid", "w") as file:
                    file.write(f"{other.pid}\n")
                self.does(
                    "it is not taken for the gateway",
                    agent.act("monitor"),
                    GENERIC,
                    "^the gateway was killed$",
                )
                self.does("it stops", agent.act("stop", timeout=7), OK)
                self.tell(
                    "the other one goes on", other.poll() is None and not has_ended(other.pid)
                )
            finally:
                other.kill()
                other.wait()

    def test_a_user_that_nobody_knows_for_a_while(self):
        """Where users are looked up has failed: stop leaves no process that has the store."""
        with Agent() as agent:
            self.does("it starts", agent.act("start"), OK)
            number, server = agent.number(), agent.server()
            os.mkdir(f"{agent.room}/bin")
            agent.script("bin/id", "exit 1")
            before, os.environ["PATH"] = (
                os.environ["PATH"],
                f"{agent.room}/bin:{os.environ['PATH']}",
            )
            try:
                self.does("it stops", agent.act("stop"), OK)
            finally:
                os.environ["PATH"] = before
            self.tell("no process is left", has_ended(number) and has_ended(server))

    @unittest.skipIf(os.getuid(), "root alone runs the gateway as another user")
    def test_its_user_leads_nobody_astray(self):
        """The user whose the gateway is has the folder of its sockets: what root does there writes
        no file elsewhere."""
        with Agent(user="nobody") as agent:
            for option, name in (("gateway", "oaut-gateway"), ("program", "oaut")):
                shutil.copy(agent.given[option], f"{agent.room}/{name}")
                agent.given[option] = f"{agent.room}/{name}"
            os.chown(agent.store, pwd.getpwnam("nobody").pw_uid, -1)
            precious = f"{agent.room}/precious"
            with open(precious, "w") as file:
                file.write("precious")
            os.chmod(precious, 0o600)
            self.does("it starts", agent.act("start"), OK)
            with agent.session() as server:
                self.tell("it serves", server.create("Item").number == 1)
            gateway = agent.number()
            self.tell(
                "it is the user's",
                os.stat(f"/proc/{gateway}").st_uid == pwd.getpwnam("nobody").pw_uid,
            )
            os.symlink(precious, f"{agent.run}/it.status")
            os.kill(gateway, signal.SIGTERM)
            Gateway.wait_for(lambda: has_ended(gateway), "the gateway does not end")
            agent.act("stop")
            self.tell(
                "nothing was written", open(precious).read() == "precious", open(precious).read()
            )

    def test_probe(self):
        """What is answered decides: a server of this test answers in the gateway's place."""

        def record(code):
            return struct.pack("<IIIII", 16, 1, code, oaut.NO_INDEX, 0)

        rows = [
            ("a refusal of a server that serves", record(BAD_INDEX), 0),
            ("E_FAIL", record(E_FAIL), 3),
            ("STG_E_WRITEFAULT", record(WRITE_FAULT), 3),
            ("no answer", None, 1),
            ("a part of one", record(BAD_INDEX)[:7], 1),
            ("the end", b"", 1),
        ]
        with tempfile.TemporaryDirectory() as room, socket.socket(socket.AF_UNIX) as listener:
            listener.bind(f"{room}/it.sock")
            listener.listen()
            for name, answer, wanted in rows:
                held = []

                def serve():
                    sock, _ = listener.accept()
                    held.append((sock, sock.recv(64)))
                    if answer is not None:
                        sock.sendall(answer)
                        sock.shutdown(socket.SHUT_WR)

                thread = threading.Thread(target=serve)
                thread.start()
                words = [
                    built()[0],
                    "probe",
                    f"{room}/it.sock",
                    str(SECONDS) if answer is not None else "0.5",
                ]
                status = subprocess.run(
                    words, stdout=subprocess.PIPE, stderr=subprocess.PIPE, timeout=SECONDS
                ).returncode
                thread.join()
                self.tell(name, status == wanted, status)
                self.tell(
                    f"{name}: a TYPEINFO of no interface was asked",
                    held[0][1] == struct.pack("<IIHHII", 16, 1, 10, 0, 0xFFFF_FFFF, 0),
                    held[0][1],
                )
                held[0][0].close()
            for name, words, wanted in (
                ("no such socket", [f"{room}/no.sock", "1"], 1),
                ("no seconds", [f"{room}/it.sock", "x"], 2),
                ("none at all", [f"{room}/it.sock", "0"], 2),
            ):
                self.tell(
                    name,
                    subprocess.run(
                        [built()[0], "probe", *words], stderr=subprocess.PIPE, timeout=SECONDS
                    ).returncode
                    == wanted,
                )

    def test_what_the_package_has(self):
        self.tell("it may be run", stat.S_IMODE(os.stat(AGENT).st_mode) & 0o111 == 0o111)
