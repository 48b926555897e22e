"""The checklist for operators of docs/operations/gateway.md, from its first row to its last."""
import os
import re
import subprocess
import unittest

from tests.gateway.gateways import SECONDS, Gateway, hear, left_out, record
from tests.gateway.test_gateway_limits import NO_REQUEST, NONE, put
from tests.support.preloaded import COMPILER
from tests.support.running import PROGRAM, ROOT, Cases

needs_cc = unittest.skipUnless(COMPILER, "cc is not there")
CLIENTS, MEMORY = 40, 16  # of the gateway: --clients, and --memory in MiB


def rows():
    """The rows of the page's table: what is checked, the commands, and what is expected."""
    with open(f"{ROOT}/docs/operations/gateway.md") as file:
        section = re.search(r"(?ms)^## A checklist for operators$(.*?)^## ", file.read())[1]
    cells = [it.strip("|").split("|") for it in re.findall(r"(?m)^\|.*\|$", section)][2:]
    return [
        (name.strip(), re.findall(r"`(.*?)`", command), wanted.strip())
        for name, command, wanted in cells
    ]


@needs_cc
@left_out("prlimit")
class Checklist(Cases):
    def run_row(self, gateway, command):
        """Runs a command of the page: its paths and processes are those of this gateway."""
        server = gateway.server()
        if "SERVER" in command and not server:  # (0 would be all processes of this group)
            raise AssertionError("there is no server")
        words = {
            "/run/oaut/items.control.sock": f"{gateway.room}/control",
            "/run/oaut/items.sock": f"{gateway.room}/listen",
            "/run/oaut": gateway.room,
            "FILE": f"{gateway.room}/copy",
            "SERVER": str(server),
            "PID": str(gateway.process.pid),
        }
        for it, by in words.items():
            command = command.replace(it, by)
        folder = f"{gateway.room}/bin"
        paths = {"PATH": f"{folder}:{os.environ['PATH']}", "LC_ALL": "C"}
        done = subprocess.run(
            command,
            shell=True,
            capture_output=True,
            text=True,
            env={**os.environ, **paths},
            timeout=SECONDS,
        )
        return done.returncode, done.stdout + done.stderr

    def descriptors(self, _, row):
        found = re.search(r"Max open files +(\d+)", row[1])
        self.tell("descriptors", row[0] == 0 and found and int(found[1]) >= CLIENTS + 80, row)

    def memory(self, _, row):
        found = re.search(r"VmHWM:\s+(\d+) kB", row[1])
        most = 2 * MEMORY * 1024 + 32 * CLIENTS + 8 * 1024
        self.tell("memory", row[0] == 0 and found and int(found[1]) <= most, row)

    def permissions(self, _, row):
        found = re.findall(r"(?m)^s(\S{9}).* (\S+)$", row[1])
        wanted = [("rw-------", "control"), ("rw-rw----", "listen")]
        self.tell("permissions", sorted(found, key=lambda it: it[1]) == wanted, row)

    def hangup(self, gateway, row):
        self.tell("SIGHUP", row == (0, "") and gateway.process.poll() is None, row)
        self.tell("the gateway serves", gateway.ask(record(NONE)) == record(NO_REQUEST))

    def killed(self, gateway, row):
        self.tell("the server is killed", row == (0, ""), row)
        starts = lambda: gateway.counters().get("oaut_gateway_server_starts_total")
        Gateway.wait_for(lambda: starts() == 2, "the server is not started again")
        self.tell(
            "it serves again",
            self.run_row(gateway, "oaut-gateway probe /run/oaut/items.sock 60") == (0, "serves\n"),
        )

    def end(self, gateway, row):
        self.tell("SIGTERM", row == (0, ""), row)
        self.tell("its status", gateway.process.wait(SECONDS) == 0)

    def test_each_row(self):
        words = ["--clients", str(CLIENTS), "--memory", str(MEMORY), "--mode", "0660"]
        few = ["prlimit", "--nofile=64:4096"]  # descriptors, of which it may have more
        sockets = ("listen", "control")
        with Gateway(*words, sockets=sockets, flags="-O1", under=few) as gateway:
            os.mkdir(f"{gateway.room}/bin")
            for name, path in (("oaut", PROGRAM), ("oaut-gateway", gateway.binary)):
                os.symlink(path, f"{gateway.room}/bin/{name}")
            with gateway.session() as server:
                for _ in range(10):
                    server.create("Item").Name = "n" * 500_000
                numbers = [it.number for it in server.objects()]
            with gateway.dial() as sock:
                for it in numbers:
                    sock.sendall(put(1, it))
                    hear(sock, 20)
            checks = {
                "descriptors": self.descriptors,
                "memory of the gateway": self.memory,
                "memory of the server": None,  # (of a unit; tests/package has it)
                "permissions": self.permissions,
                "it serves": lambda _, row: self.tell(row, row == (0, "serves\n"), row),
                "its state": lambda _, row: self.tell(
                    "its state", row[0] == 0 and "\noaut_gateway_faulted 0\n" in row[1], row
                ),
                "a backup": lambda _, row: self.tell(
                    "a backup", row[0] == 0 and "held for " in row[1], row
                ),
                "the backup opens": lambda _, row: self.tell(
                    "the backup opens", row == (0, ""), row
                ),
                "SIGHUP": self.hangup,
                "the server is killed": self.killed,
                "the end": self.end,
            }
            self.tell(
                "the rows", [it[0] for it in rows()] == list(checks), [it[0] for it in rows()]
            )
            for name, commands, _ in rows():
                if checks[name]:
                    checks[name](gateway, self.run_row(gateway, commands[0]))
