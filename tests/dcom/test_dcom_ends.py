"""oaut-dcom, clients/dcom: kills, floods, restarts, new libraries, options and sockets
(docs/guide/dcom.md)."""
import contextlib
import os
import random
import re
import shutil
import signal
import subprocess
import time
import unittest

from tests.dcom.dcoms import (
    CLIENTS,
    SECONDS,
    Scripted,
    Served,
    environment,
    left_out,
    needs,
    needs_root,
)
from tests.gateway.gateways import Gateway
from tests.support.ports import free_port, has_ipv6
from tests.support.running import ROOT

KILLS = int(os.environ.get("OAUT_DCOM_KILLS") or 9)


@needs_root
@needs("Cryptodome")
class Ends(Scripted):
    def test_kills(self):
        """kill -9 of the server, the gateway and oaut-dcom in any order, under a load of 16
        clients."""
        draw = random.Random(os.environ.get("OAUT_SEED") or 20261130)
        with contextlib.ExitStack() as stack:
            served = stack.enter_context(Served())
            gateway = served.gateway
            stack.enter_context(self.captured(served, least=1_000))
            words = [served.python, "-m", f"{CLIENTS}.kept"]
            clients = subprocess.Popen(
                words,
                stdin=subprocess.PIPE,
                stdout=subprocess.PIPE,
                env=served.settings(DCOM_LEVEL="5"),
                text=True,
            )
            stack.callback(clients.kill)
            self.tell("the clients begin", clients.stdout.readline() == "runs\n")
            kills = []
            for _ in range(KILLS):
                time.sleep(draw.uniform(0.05, 0.4))
                what = draw.choice(("server", "gateway", "dcom"))
                kills.append(what)
                if what == "dcom":
                    served.kill()
                    served.start()
                    continue
                server = gateway.server()
                # a gateway starts it five times a minute
                if what == "server" and server and kills[-5:].count("server") < 4:
                    os.kill(server, signal.SIGKILL)
                    continue
                gateway.process.kill()
                gateway.process.wait()
                gateway.error.close()
                gateway.start()
            said, _ = clients.communicate(timeout=800)
            for row in (line.split("\t") for line in said.splitlines() if "\t" in line):
                self.tell(f"{KILLS} kills: {row[1]}", row[0] == "ok", row[2:])
            self.tell(
                "the clients end", clients.returncode == 0 and said.count("ok\t") == 2, said[-2000:]
            )
            print(
                f"dcom_ends: {kills.count('server')} kills of the server, {kills.count('gateway')} "
                f"of the gateway, {kills.count('dcom')} of oaut-dcom: "
                f"{said.splitlines()[-1]}",
                flush=True,
            )

    def again(self, served, *words, least=1):
        self.script("again", *words, env=served.settings(), least=least)

    def with_more(self):
        """A library with an interface, a coclass and a member more, whose new interface comes before
        the others."""
        with open(f"{ROOT}/examples/full.idl") as file:
            text = file.read()
        guid = "11223344-5566-7788-99AA-BBCCDDEEFF0"
        more = (
            f"  [uuid({guid}0)]\n  dispinterface DMore {{\n    properties:\n"
            f"      [id(1)] long Count;\n    methods:\n  }};\n\n"
        )
        text = text.replace(f"  [uuid({guid}2)]", f"{more}  [uuid({guid}2)]").replace(
            "    methods:\n      [id(9)",
            "      [id(11)] SAFEARRAY(long) Rows;\n    methods:\n      [id(9)",
        )
        text = text.replace(
            "    [default] dispinterface DItem;\n",
            "    [default] dispinterface DItem;\n    dispinterface DMore;\n",
        )
        end = text.rindex("};")
        text = (
            text[:end]
            + f"\n  [uuid({guid}9)]\n  coclass Other {{\n    [default] dispinterface DMore;\n"
            f"  }};\n" + text[end:]
        )
        return text

    def test_references_outlive_this_program_and_a_library(self):
        with Served() as served:
            store = f"{served.folder}/as.store"  # it stands for the store's file
            open(store, "w").close()
            served.kill(signal.SIGTERM)
            served.start("--store", store)
            made = subprocess.run(
                [served.python, "-m", f"{CLIENTS}.again", "make"],
                capture_output=True,
                text=True,
                env=served.settings(),
            ).stdout.split()
            served.kill()
            served.start("--store", store)
            self.again(served, "same", *made, least=3)
            text = self.with_more()
            with open(f"{served.folder}/more.idl", "w") as file:
                file.write(text)
            with served.gateway.session() as session:
                session.replace_library(f"{served.folder}/more.idl")
            self.again(served, "more", *made, least=9)
            served.kill()
            served.start("--store", store)
            self.again(served, "same", *made, least=3)
            # another file in the store's place
            served.kill()
            shutil.copy(store, f"{store}.new")
            os.rename(f"{store}.new", store)
            served.start("--store", store)
            self.again(served, "gone", *made, least=3)
            self.tell(
                "it says so",
                "references to the old are refused"
                in served.says("references to the old are refused"),
                served.said()[-500:],
            )
            status, _, said = served.run(*served.options(), "--resolver-port", "0", "--port", "0")
            self.tell(
                "a second one with the same state",
                status == 1
                and said.startswith("oaut-dcom: ")
                and "in use by another process" in said,
                said,
            )

    def test_a_backup_is_restored_while_it_runs(self):
        """The gateway serves another file of the store's name: no call to the old one reaches
        it."""
        with Served() as served:
            gateway = served.gateway
            served.kill(signal.SIGTERM)
            served.start("--store", gateway.store)
            made = subprocess.run(
                [served.python, "-m", f"{CLIENTS}.again", "make"],
                capture_output=True,
                text=True,
                env=served.settings(),
            ).stdout.split()
            self.again(served, "same", *made, least=3)

            def restart():
                status, _ = gateway.end()
                self.tell("the gateway ends", status == 0)
                gateway.error.close()

            restart()
            gateway.start()
            self.again(served, "same", *made, least=3)
            restart()
            shutil.copy(gateway.store, f"{gateway.store}.new")
            os.rename(f"{gateway.store}.new", gateway.store)
            gateway.start()
            self.again(served, "gone", *made, least=3)
            self.tell(
                "it says so",
                "references to the old are refused"
                in served.says("references to the old are refused"),
                served.said()[-500:],
            )
            made = subprocess.run(
                [served.python, "-m", f"{CLIENTS}.again", "make"],
                capture_output=True,
                text=True,
                env=served.settings(),
            ).stdout.split()
            self.again(served, "same", *made, least=3)
            served.kill()
            served.start("--store", gateway.store)
            self.again(served, "same", *made, least=3)

    def test_what_a_client_sends_is_no_line_of_the_log(self):
        with Served() as served:
            env = served.settings()
            code = (
                "from tests.dcom.clients.lean import *\n"
                "for it in ('a\\nb', 'x' * 500, '\\x1b[2J\\u202e'):\n"
                "  try: create(user=it)\n  except Fault: pass"
            )
            done = subprocess.run([served.python, "-c", code], env=env, capture_output=True)
            Gateway.wait_for(lambda: len(served.said().splitlines()) >= 4, "it does not say all")
            said = served.said()
            lines = said.splitlines()
            self.tell("the client ends", done.returncode == 0, done.stderr[-500:])
            self.tell(
                "three refusals, a line each, escaped",
                len(lines) == 4
                and all(
                    it.startswith("oaut-dcom: ") and it.isascii() and len(it) < 200 for it in lines
                ),
                said,
            )
            self.tell("no control characters", said.replace("\n", "").isprintable(), said)
            secret = served.hash("joe").strip().split(":")[1]
            self.tell("no secret", secret not in said and "Secret" not in said)

    def test_ipv6(self):
        if not has_ipv6():
            self.skipTest("no IPv6 here")
        with Served(host="::1", resolver=free_port(), port=0) as served:
            code = (
                "from tests.dcom.clients.lean import *\n"
                "ref = create()\n"
                "assert Proxy(Dce().call, ref.ipid).get(1) == 0\n"
                "c = Dce(port=RESOLVER, iid=codes.IID_IOBJECTEXPORTER, level=1)\n"
                "print(c.call(None, 5, None, b'').decode('utf-16-le', 'replace'))"
            )
            env = served.settings()
            done = subprocess.run([served.python, "-c", code], env=env, capture_output=True)
            self.tell("calls over IPv6", done.returncode == 0, done.stderr[-800:])
            self.tell(
                "its string binding", "::1" in done.stdout.decode(errors="replace"), done.stdout
            )

    @left_out("systemd-socket-activate")
    def test_sockets_of_systemd(self):
        with Served() as served:
            served.kill(signal.SIGTERM)
            own = [
                "systemd-socket-activate",
                "-l",
                f"{served.host}:135",
                "-l",
                f"{served.host}:{served.port}",
                "-E",
                "PYTHONPATH",
            ]
            words = ["--gateway", served.socket, "--users", served.users]
            child = subprocess.Popen(
                [*own, served.python, "-m", "oaut_dcom", *words],
                env=environment(),
                stderr=subprocess.PIPE,
                text=True,
            )
            try:
                self.tell(
                    "it listens", any("Listening" in child.stderr.readline() for _ in range(2))
                )
                self.script("again", "make", env=served.settings(), least=0)
            finally:
                child.terminate()
                child.communicate()

    def test_options_that_are_refused(self):
        with Served() as served:
            wrong = f"{served.folder}/wrong"
            with open(os.open(wrong, os.O_CREAT | os.O_WRONLY, 0o644), "w") as file:
                file.write(served.hash("joe"))
            os.chmod(wrong, 0o644)
            own = ["--gateway", served.socket, "--users", served.users]
            rows = (
                ("nothing", [], 2),
                ("an unknown option", [*own, "--colour"], 2),
                ("a port that is none", [*own, "--port", "65536"], 2),
                ("a limit that is none", [*own, "--connections", "0"], 2),
                ("a name that is none", [*own, "--name", "a b"], 2),
                ("users that others read", ["--gateway", served.socket, "--users", wrong], 1),
                (
                    "users that are not there",
                    ["--gateway", served.socket, "--users", f"{served.folder}/none"],
                    1,
                ),
                (
                    "an address that is none",
                    [*own, "--listen", "256.1.1.1", "--port", "0", "--resolver-port", "0"],
                    1,
                ),
                ("an address in use", [*own, "--listen", served.host, "--port", "0"], 1),
                ("a keytab that is none", [*own, "--keytab", f"{served.folder}/none"], 1),
                ("a state that is none", [*own, "--state", served.users], 1),
                (
                    "reg: a name that is none",
                    ["reg", "--gateway", served.socket, "--server", "x", "--name", "1"],
                    2,
                ),
                ("hash: a user that is none", ["hash", "a:b"], 2),
                ("hash: no password", ["hash", "joe"], 1),
            )
            for name, words, wanted in rows:
                status, out, said = served.run(*words)
                lines = said.splitlines()
                self.tell(
                    name,
                    (status, out, len(lines)) == (wanted, "", 1) and said.startswith("oaut-dcom: "),
                    (status, out, said),
                )

    def test_help_and_version(self):
        with Served() as served:
            status, out, said = served.run("--help")
            self.tell("--help", status == 0 and "oaut-dcom hash USER" in out and not said, said)
            self.tell("--version", served.run("--version") == (0, "oaut-dcom 0\n", ""))
            with open(f"{ROOT}/docs/guide/dcom.md") as file:
                named = set(re.findall(r"^\| `(--[\w-]+)", file.read(), re.MULTILINE))
            self.tell(
                "docs/guide/dcom.md has each option",
                named
                == set(re.findall(r"(--[\w-]+)", out))
                - {"--help", "--version", "--server", "--remove"},
                named,
            )

    def test_reg(self):
        with Served() as served:
            status, out, said = served.run(
                "reg", "--gateway", served.socket, "--server", "store.oaut.test", "--name", "Demo"
            )
            wanted = (
                "[HKEY_CLASSES_ROOT\\CLSID\\{11223344-5566-7788-99AA-BBCCDDEEFF03}]\n"
                '@="Demo.Item"\n"AppID"="{'
            )
            out = out.replace("\r", "")
            self.tell(
                "reg",
                status == 0
                and wanted in out
                and '"RemoteServerName"="store.oaut.test"' in out
                and "[HKEY_CLASSES_ROOT\\Demo.Store\\CLSID]" in out,
                out,
            )
            gone = served.run(
                "reg", "--gateway", served.socket, "--server", "x", "--name", "Demo", "--remove"
            )[1].replace("\r", "")
            heads = {
                line.lstrip("[").rstrip("]") for line in out.splitlines() if line.startswith("[")
            }
            left = [
                it
                for it in heads
                if not any(
                    it.startswith(line[2:-1]) for line in gone.splitlines() if line.startswith("[-")
                )
            ]
            self.tell(
                "reg --remove takes out all of it",
                left == [] and "=" not in gone.replace("HKEY", ""),
                left,
            )

    def test_a_gateway_that_is_not_there(self):
        with Served() as served:
            sock = f"{served.folder}/no.sock"
            started = time.monotonic()
            status, _, said = served.run("--gateway", sock, "--users", served.users)
            self.tell(
                "no gateway",
                status == 1
                and "no gateway serves there" in said
                and time.monotonic() - started < SECONDS,
                said,
            )
            self.tell("SIGTERM ends it", served.kill(signal.SIGTERM) == 0)

    def lean(self, served, code):
        """What some lines print over the lean client, and what went wrong."""
        env = served.settings()
        done = subprocess.run(
            [served.python, "-c", f"from tests.dcom.clients.lean import *\n{code}"],
            env=env,
            capture_output=True,
            text=True,
            timeout=SECONDS * 3,
        )
        return done.stdout.strip(), done.stderr[-800:]

    def test_privacy(self):
        with Served("--privacy") as served:
            code = (
                "def told(level):\n  try: return Proxy(Dce(level=level).call, "
                "create().ipid).get(1)\n  except Fault as fault: return fault.args\n"
                "print(told(6), told(5))"
            )
            got = self.lean(served, code)
            self.tell("sealed calls alone", got[0] == "0 ('fault', 5)", got)

    def test_a_gateway_that_is_away(self):
        with Served() as served:
            gateway = served.gateway
            gateway.process.kill()
            gateway.process.wait()
            gateway.error.close()
            os.unlink(f"{gateway.room}/listen")
            got = self.lean(
                served, "try: create()\nexcept Fault as fault: print(hex(fault.args[1]))"
            )
            self.tell("a call that reaches no gateway", got[0] == "0x6ba", got)
            gateway.start()
            got = self.lean(served, "print(Proxy(Dce().call, create().ipid).get(1))")
            self.tell("and the next one, when it is back", got[0] == "0", got)

    def test_users_that_others_may_read_while_it_runs(self):
        with Served() as served:
            os.chmod(served.users, 0o644)
            got = self.lean(served, "try: create()\nexcept Fault as fault: print(fault.args)")
            self.tell("nobody is let in", "('fault', 5)" in got[0] or "bind" in got[0], got)
            self.tell("it says why", "chmod 0600" in served.says("chmod 0600"), served.said())
            os.chmod(served.users, 0o600)
            got = self.lean(served, "print(Proxy(Dce().call, create().ipid).get(1))")
            self.tell("until it is mended", got[0] == "0", got)

    def test_limits(self):
        """Connections of one user, and association groups."""
        with Served("--connections", "12", "--groups", "4") as served:
            code = (
                "from tests.dcom.clients.lean import *\nref = create()\n"
                "one, two = Dce(), Dce()\nfound = []\n"
                "for it in (one, two): found.append(Proxy(it.call, ref.ipid).get(1))\n"
                "def refused(**how):\n  try: return Proxy(Dce(**how).call, ref.ipid).get(1)\n"
                "  except (Fault, OSError) as fault: return fault.args\n"
                "found.append(refused())\nthree = Dce(group=one.group)\n"
                "found.append(Proxy(three.call, ref.ipid).get(1))\n"
                "found.append(refused(group=one.group))\n"
                "two.close()\nimport time\nuntil = time.monotonic() + 180\n"
                "while (got := refused(user='ann')) == ('fault', 5) and time.monotonic() < until: "
                "time.sleep(0.1)\n"
                "found.append(got)\nprint(found)"
            )
            env = served.settings()
            done = subprocess.run([served.python, "-c", code], env=env, capture_output=True)
            said = done.stdout.decode().strip()
            self.tell(
                "two groups and three connections of one user",
                said == "[I4(0), I4(0), ('fault', 5), I4(0), ('fault', 5), I4(0)]",
                (said, done.stderr[-800:]),
            )
            log = served.says("2 association groups of the user already", "3 connections already")
            self.tell(
                "both are logged",
                "2 association groups of the user already" in log
                and "3 connections already" in log,
                log,
            )

    def test_flood(self):
        with Served() as served:
            # a machine that others use is slow by itself: the figure of docs/guide/dcom.md was
            # measured apart
            self.script(
                "flood",
                os.environ.get("OAUT_DCOM_FLOOD") or "1500",
                str(served.child.pid),
                "20",
                env=served.settings(),
                least=2,
            )


if __name__ == "__main__":
    unittest.main()
