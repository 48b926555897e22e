"""Each example of the pages and of the manual pages runs as it is written there:
tests/tables/examples.txt has a row for each code block, with the test that runs it, or the reason
why none does."""
import contextlib
import glob
import io
import os
import re
import shutil
import signal
import socket
import subprocess
import sys
import threading
import unittest

from tests.gateway.gateways import SECONDS, Gateway, built, left_out
from tests.support import stores, wire
from tests.support.examples import Room, block, blocks, commands_of, is_like, needs_network, read
from tests.support.preloaded import COMPILER
from tests.support.running import FULL, PROGRAM, REPLIES, REQUESTS, ROOT, SMALL, Cases, rows_of, run
from tests.support.wire import oaut

from dist import manual

PAGES = sorted(
    os.path.relpath(it, ROOT)
    for it in [
        *glob.glob(f"{ROOT}/*.md"),
        *(
            it
            for of in ("docs", "clients", "examples")
            for it in glob.glob(f"{ROOT}/{of}/**/*.md", recursive=True)
        ),
    ]
)
needs_program = unittest.skipUnless(os.path.exists(PROGRAM), "the program is not there")
needs_cc = unittest.skipUnless(COMPILER, "cc is not there")
GUIDE, OPERATING, GATEWAY, PROGRAM_PAGE = (
    "docs/guide/client.md",
    "docs/operations/operating.md",
    "docs/operations/gateway.md",
    "docs/reference/program.md",
)


def texts():
    """The pages, and the manual pages' own sections, with the blocks of each."""
    for page in PAGES:
        yield page, blocks(read(page))
    for name, it in manual.PAGES.items():
        yield f"{name}({it.section})", blocks(it.added)


def rows_wrong(rows, found):
    """What is wrong with the rows of the table, for these pages with their blocks: the page and the
    first line, without its row or its test."""
    wrong, left = [], [it for it in rows]
    for page, all_ in found:
        for it in all_:
            first = it.splitlines()[0].strip()
            row = next((row for row in left if row[0] == page and first.startswith(row[2])), None)
            if row is None:
                wrong.append(f"{page}: no row: {first}")
                continue
            left.remove(row)
            if not row[1].startswith("- "):
                part, _, name = row[1].partition(" ")
                paths = glob.glob(f"{ROOT}/tests/*/test_{part}.py")
                source = read(os.path.relpath(paths[0], ROOT)) if paths else ""
                # (a manual page's examples are read from dist/manual.py)
                named = os.path.basename(page) if page.endswith(".md") else "manual"
                if f"def {name}(" not in source or named not in source:
                    wrong.append(f"{page}: {row[1]} does not run it: {first}")
            elif "not tried" in row[1] and not re.search(
                r"not (?:been )?(?:tried|tested|run)|untested",
                " ".join(read(page).split()),
                re.IGNORECASE,
            ):
                wrong.append(f"{page}: it does not say what was not tried: {first}")
            else:
                lost = [
                    it
                    for it in re.findall(r"\b(?:tests|tools)/[\w./]*\w", row[1])
                    if not os.path.exists(f"{ROOT}/{it}")
                ]
                wrong += [f"{page}: {it} is not there: {first}" for it in lost]
    return wrong + [f"{page}: a row without its block: {first}" for page, _, first in left]


def no_digits(text):
    """A text whose numbers are all the same."""
    return re.sub(r"\d+(?:[.:]\d+)*", "0", text)


class Listed(Cases):
    def test_each_block_has_a_row(self):
        rows = [tuple(it.strip() for it in line.split("|", 2)) for line in rows_of("examples.txt")]
        found = list(texts())
        self.tell("there are many", len(rows) > 100 and len(found) > 40, (len(rows), len(found)))
        self.tell(
            "each block has its row",
            not rows_wrong(rows, found),
            "\n".join(rows_wrong(rows, found)),
        )
        page, all_ = next(it for it in found if it[0] == GUIDE)
        more = [(page, [*all_, "print('one more')\n"])]
        own = [it for it in rows if it[0] == page]
        self.tell(
            "a block more is found",
            rows_wrong(own, more) == [f"{page}: no row: print('one more')"],
            rows_wrong(own, more),
        )
        self.tell(
            "a row more is found",
            rows_wrong([*own, (page, "- no code", "one more")], [(page, all_)])
            == [f"{page}: a row without its block: one more"],
        )
        other = [(page, "examples test_of_none", "print('one more')"), *own]
        self.tell(
            "a test that is not there is found",
            len(rows_wrong(other, more)) == 1,
            rows_wrong(other, more),
        )

    def test_what_is_like_a_page(self):
        for wanted, got, like in (
            (["a", "b"], ["a", "b"], True),
            (["a", ".."], ["a", "b", "c"], True),
            (["a", "..", "d"], ["a", "b", "c", "d"], True),
            (["a: .."], ["a: b"], True),
            (["a"], ["a", "b"], False),
            (["a", "..", "d"], ["a", "b", "c"], False),
        ):
            self.tell(f"{wanted} {got}", is_like(wanted, got) == like)


class Sources(Cases):
    """Blocks that show a part of a file."""

    def test_the_proofs(self):
        page = "docs/internals/reading-the-proofs.md"
        for begins, path in (
            ("pub fn serve_hex", "crates/oa_server/src/serving.rt"),
            ("pub record IsLibrary", "crates/oa_sema/specs/promise/IsLibrary.antt"),
        ):
            shown, source = [
                " ".join(it.split()) for it in block(page, begins).splitlines()
            ], " ".join(read(path).split())
            clauses = (
                re.split(r" (?=requires |ensures )", " ".join(shown))
                if begins.startswith("pub fn")
                else [" ".join(shown)]
            )
            for it in clauses:
                self.tell(f"{path}: {it[:60]}", it in source, it)

    def test_the_cluster(self):
        """The configuration of the page is the one with which bench/takeover.py builds its
        clusters."""
        page, script = "docs/operations/takeover.md", read("bench/takeover.py")
        parts = {
            name: re.search(rf'^{name} = """(.*?)"""', script, re.MULTILINE | re.DOTALL)[1].replace(
                "\\\\\n", " "
            )
            for name in ("COROSYNC", "PACEMAKER", "FENCE")
        }
        plain = lambda text: " ".join(text.replace("\\\n", " ").split())
        fence = parts["FENCE"].replace(" pcmk_delay_base={1}", "").replace("{0}", "one")
        self.tell(
            "crm configure",
            plain(block(page, "property ")) == plain(parts["PACEMAKER"] % "true" + fence),
            plain(parts["PACEMAKER"]),
        )
        corosync = plain(block(page, "totem {"))
        for it in (parts["COROSYNC"].split("quorum {")[0], "provider: corosync_votequorum"):
            self.tell(f"corosync.conf: {it[:20]}", plain(it) in corosync, corosync)
        for name in ("one", "two", "three"):
            self.tell(f"corosync.conf: {name}", f"name: {name}" in corosync)
        self.tell(
            "the volume",
            "client.strict-locks on" in block(page, "gluster volume create")
            and '"client.strict-locks": "on"' in script,
        )

    def test_its_commands(self):
        """Each option of the script that the page uses is one of its own."""
        options = re.findall(
            r"--[\w-]+", block("docs/operations/takeover.md", "python3 bench/takeover.py")
        )
        script = read("bench/takeover.py")
        self.tell(
            "options", len(options) > 4 and all(f'"{it}"' in script for it in options), options
        )

    def test_the_agent(self):
        """The example of the agent's manual page is the page's."""
        (shown,) = blocks(manual.PAGES[manual.AGENT].added)
        self.tell(
            "primitive server",
            " ".join(shown.split())
            in " ".join(block("docs/operations/takeover.md", "property ").split()),
            shown,
        )

    @left_out("promtool")
    def test_prometheus(self):
        with Room() as room:
            shutil.copy(f"{ROOT}/dist/alerts.yml", f"{room.path}/share/alerts.yml")
            room.write("prometheus.yml", room.here(block(OPERATING, "# prometheus.yml")))
            status, said = room.run("promtool check config prometheus.yml")
            self.tell(
                "promtool reads it, with its rules",
                status == 0 and "1 rule files found" in said,
                said,
            )

    def test_the_list_of_stores(self):
        with Room() as room:
            os.mkdir(f"{room.path}/etc/tls")
            room.write("etc/stores.list", block(OPERATING, "[front]"))
            for command in re.findall(
                r"`haproxy-stores (host|front) /etc/oaut/stores.list /etc/haproxy/oaut`",
                " ".join(read(OPERATING).split()),
            ):
                os.mkdir(f"{room.path}/{command}")
                status, said = room.run(
                    f"python3 {ROOT}/dist/lib/haproxy-stores {command} /etc/oaut/stores.list "
                    f"{command}"
                )
                with open(f"{room.path}/{command}/haproxy.cfg") as file:
                    written = file.read()
                self.tell(
                    f"haproxy-stores {command}",
                    status == 0
                    and ("items.stores.example" if command == "front" else "items.sock") in written,
                    (said, written),
                )


@needs_program
class Bytes(Cases):
    """Blocks of bytes, compared with what the program writes."""

    def test_the_first_requests(self):
        page = "docs/guide/first-request.md"
        with Room() as room:
            self.same_output(room, block(page, "oaut play"), REPLIES.decode())
            status, said = room.run(block(page, "oaut format"))
            self.tell(
                "a store",
                (status, said)
                == (0, "formatted\n" + REPLIES.decode() + block(PROGRAM_PAGE, "next 2")),
                said,
            )
        shown = [
            "".join(
                it.replace(" ", "") for it in part.splitlines() if re.fullmatch(r"[0-9a-f ]+", it)
            )
            for part in blocks(read(page))
            if "00 " in part
        ]
        asked, told = REQUESTS.decode().split(), REPLIES.decode().split()
        wanted = [asked[0], told[0], asked[1], told[1], asked[2], told[2]]
        self.tell(
            "requests and replies, byte by byte", [it for it in shown if it][:6] == wanted, shown
        )
        self.tell(
            "the last reply",
            told[3].endswith(block(page, ".. 0300").replace(" ", "").strip(". \n")),
        )

    def same_output(self, room, command, wanted):
        status, said = room.run(command)
        self.tell(command.splitlines()[0], (status, said) == (0, wanted), (status, said))

    def test_the_readme(self):
        command, gate = block("README.md", "(cd crates/oaut").splitlines()
        words = re.fullmatch(r"\(cd crates/oaut && rt run -- (.*)\) < (.*)", command)
        self.tell(
            "what it runs",
            words and gate == ".ci/run" and os.access(f"{ROOT}/{gate}", os.X_OK),
            command,
        )
        with Room() as room:
            status, said = room.run(f"oaut {words[1]} < {words[2]}".replace("../../", ""))
            self.tell("its replies", (status, said) == (0, block("README.md", "01000000")), said)

    def test_records(self):
        page = "docs/reference/records.md"
        end, reply = (
            bytes.fromhex(block(page, it)) for it in ("08000000 ffffffff", "10000000 ffffffff")
        )
        self.tell("END", run(["play", "lib.idl"], end, {"lib.idl": SMALL}) == (0, reply, b""))
        status, out, _ = run(
            ["play", "lib.idl", "--hex"], wire.replacement(9, SMALL), {"lib.idl": FULL}
        )
        self.tell(
            "REPLACE LIBRARY",
            (status, out.decode().strip())
            == (0, block(page, "0900000057").replace(" ", "").strip()),
            out,
        )

    def test_values(self):
        page = "docs/reference/wire.md"
        hexed = lambda begins: bytes.fromhex(
            "".join(it for it in block(page, begins).splitlines() if re.fullmatch("[0-9a-f ]+", it))
        )
        grid = oaut.Array(oaut.I2, [(2, -1), (3, 5)], [1, 2, 3, 4, 5, 6])
        with oaut.play(f"{ROOT}/examples/full.idl", program=PROGRAM) as server:
            item = server.create("Item")
            item.Name, item.Grid = "Hi", grid
            for name, begins, value in (("Name", "05000000", "Hi"), ("Grid", "0b000000", grid)):
                self.tell(
                    f"{name} is written",
                    oaut.spell(value) == hexed(begins),
                    oaut.spell(value).hex(),
                )
                self.tell(f"{name} is read", oaut.read_field(hexed(begins)) == getattr(item, name))

    def test_log_records(self):
        records = [
            bytes.fromhex(it)
            for it in block("docs/reference/images.md", "01 01000000").splitlines()
        ]
        with Room() as room:
            status, said = room.run(
                "oaut format a.store examples/small.idl && oaut serve a.store examples/small.idl "
                "--hex < examples/first.hex"
            )
            with open(f"{room.path}/a.store", "rb") as file:
                file.seek(33_562_624)
                body = file.read(4_096)
            self.tell(
                "both are in the store, in their order",
                status == 0 and 0 < body.find(records[0]) < body.find(records[1]),
                (said, body[:600]),
            )


@needs_program
class OfTheProgram(Cases):
    """docs/reference/program.md, which is also oaut(1)."""

    def consoles(self, begins, *prepares):
        """The commands of a block print what it says, in a room that these commands make."""
        with Room() as room:
            for it in prepares:
                self.tell(f"before: {it[:60]}", room.run(it)[0] == 0)
            for command, wanted in commands_of(begins):
                _, said = room.run(command)
                self.tell(command, said.splitlines() == wanted, said)

    def test_errors(self):
        missing, in_use, syntax, word = [
            it for it in blocks(read(PROGRAM_PAGE)) if it.startswith("$ ")
        ]
        made = "oaut format items.store items.idl"
        self.consoles(missing, made, "rm items.idl")
        with Room() as room:
            self.tell("formatted", room.run(made)[0] == 0)
            with Talker(room, "oaut serve items.store items.idl") as server:
                server.create("Item")
                for command, wanted in commands_of(in_use):
                    _, said = room.run(command)
                    self.tell(command, said.splitlines() == wanted, said)
        line = re.search(r"lib\.idl:1:59: (.*)", syntax)[1]
        self.consoles(syntax, f"echo '{line}' > lib.idl")
        guid = "[uuid(11223344-5566-7788-99AA-BBCCDDEEFF0{})]"
        head = (
            f"{guid.format(1)}\nlibrary Demo {{\n{guid.format(2)}\ndispinterface DItem {{\n"
            "properties:\n"
        )
        self.consoles(
            word, f"printf '{head}[id(1)] double Height;\n' > lib.idl".replace("\n", "\\n")
        )

    def test_dump(self):
        with Room() as room:
            room.run(
                "oaut format a.store examples/small.idl && oaut serve a.store examples/small.idl "
                "--hex < examples/first.hex"
            )
            self.tell(
                "what dump prints",
                room.run("oaut dump a.store") == (0, block(PROGRAM_PAGE, "next 2")),
            )

    def test_examples(self):
        with Room() as room:
            shutil.copy(f"{ROOT}/examples/first.hex", f"{room.path}/requests.hex")
            with open(f"{room.path}/frames", "wb") as file:
                file.write(
                    oaut.frames.NOW
                    if hasattr(oaut, "frames")
                    else bytes.fromhex("ffffffff00000000")
                )
            status, said = room.run(block(PROGRAM_PAGE, "oaut check --where items.idl"))
            self.tell(
                "a store",
                status == 0 and said.endswith(REPLIES.decode() + block(PROGRAM_PAGE, "next 2")),
                said,
            )
            for begins in ("oaut serve --shared", "oaut play items.idl --hex"):
                status, said = room.run(block(PROGRAM_PAGE, begins))
                self.tell(begins, status == 0, said)
            # (larger banks fill the disk of a small machine)
            words = block(PROGRAM_PAGE, "oaut format --bank").replace("268435456", "33554432")
            self.tell("larger banks", room.run(f"rm items.store\n{words}") == (0, "formatted\n"))


class Talker:
    """A session of the client with a command of a room."""

    def __init__(self, room, command):
        self.process = room.start(f"exec {command}", stdin=subprocess.PIPE, stdout=subprocess.PIPE)
        self.server = oaut.connect(self.process.stdout, self.process.stdin)

    def __enter__(self):
        return self.server

    def __exit__(self, *_):
        self.server.close()
        self.process.stdin.close()
        self.process.wait(SECONDS)
        self.process.stdout.close()


@needs_program
class Python(Cases):
    """The blocks of docs/guide/client.md, docs/reference/python.md and clients/python/README.md."""

    def printed(self, text, wanted, *prepares, fails=False):
        with Room() as room:
            for it in prepares:
                status, said = room.run(it)
                self.tell(f"before: {it[:60]}", status == 0, said)
            room.write("script.py", text)
            status, said = room.run("python3 script.py")
            self.tell(
                f"it prints {wanted[:60]!r}",
                (status != 0) == fails and (said.endswith(wanted) if fails else said == wanted),
                (status, said),
            )

    def within(self, text, **names):
        """Runs a text in this process, with these names, and returns all names."""
        exec(compile(text, GUIDE, "exec"), names)
        return names

    def test_begin(self):
        self.printed(
            block(GUIDE, 'import oaut\n\nwith oaut.play("examples'),
            "7 2.5000 [[1, 2, 3], [4, 5, 6]]\n",
        )

    def test_errors(self):
        with oaut.play(f"{ROOT}/examples/full.idl", program=PROGRAM) as server:
            item = server.create("Item")
            for line in block(GUIDE, "put Item.Count").splitlines():
                act, _, call = line.partition(":")[0].partition(" ")
                call = re.sub(r"\((.*)\)", r"[\1]", call.replace("Item.", "item."))
                try:
                    self.within(call if act == "put" else f"got = {call}", item=item)
                    said = "nothing is refused"
                except oaut.Refused as refusal:
                    said = str(refusal)
                self.tell(line, said == line, said)

    def test_batches(self):
        with oaut.play(
            f"{ROOT}/examples/full.idl", program=PROGRAM
        ) as server, contextlib.redirect_stdout(io.StringIO()) as said:
            self.within(
                block(GUIDE, "with server.batch()"),
                server=server,
                items=[server.create("Item") for _ in range(4)],
            )
        self.tell("the sum", said.getvalue() == "6\n", said.getvalue())

    def test_atomic(self):
        with Room() as room, oaut.open(
            f"{room.path}/a.store", f"{ROOT}/examples/items.idl", program=PROGRAM
        ) as server:
            item = server.create("Item")
            self.within(block(GUIDE, "with server.atomic()"), server=server, item=item)
            self.tell("both are put", (item.Count, item.Cell[5, "k"]) == (7, "x"))

    def test_asyncio(self):
        self.printed(block(GUIDE, "import asyncio"), "7 Array(I2, [(0, 0)], [])\n7\n[8, 9]\n")

    @left_out("mypy")
    def test_type_checkers(self):
        text = block(GUIDE, "import typing\nimport oaut\n")
        (command,) = re.findall(r"^`(oaut-tools stubs .*?)`", read(GUIDE), re.MULTILINE)
        with Room() as room:
            self.tell(command, room.run(command)[0] == 0)
            room.write("script.py", text)
            _, said = room.run(f"mypy --cache-dir {room.path}/cache script.py")
            rejected = [
                number
                for number, line in enumerate(text.splitlines(), 1)
                if "rejects this" in line or "and this" in line
            ]
            self.tell(
                "what it rejects",
                [int(it) for it in re.findall(r"^script\.py:(\d+): error", said, re.MULTILINE)]
                == rejected,
                said,
            )
            status, said = room.run("python3 script.py")
            self.tell(
                "what is refused",
                status != 0
                and said.endswith("DISP_E_TYPEMISMATCH (0x80020005), argument 0 (the new value)\n"),
                said,
            )

    def test_locks(self):
        locked, puts = block(GUIDE, "with item.Grid.locked() as lock"), block(
            GUIDE, 'item.update("Count"'
        )
        with oaut.play(f"{ROOT}/examples/full.idl", program=PROGRAM) as server:
            item = server.create("Item")
            item.Grid, item.Name = [1, 2], "old"
            self.within(locked, item=item)
            self.tell("put under a lock", (item.Count, item.Name) == (1, "new"))
            self.within(puts, item=item)
            self.tell("an update, and compare and put", item.Count == 3)
            self.within(block(GATEWAY, "with item.Grid.locked():"), item=item)
            self.tell("the gateway's page", item.Count == 4)

    def test_talk(self):
        lines = block(GUIDE, "> create Item").splitlines()
        with Room() as room:
            room.write("commands", "".join(f"{it[2:]}\n" for it in lines if it.startswith("> ")))
            status, said = room.run("oaut-tools talk library.idl --batch commands")
            self.tell(
                "what it prints",
                (status, said.splitlines()) == (0, [it for it in lines if not it.startswith("> ")]),
                said,
            )

    def test_decode(self):
        ((command, wanted),) = commands_of(block(GUIDE, "$ python3 -m oaut decode"))
        with Room() as room:
            status, said = room.run(command)
            self.tell("what it prints", status == 0 and is_like(wanted, said.splitlines()), said)

    def test_frames(self):
        self.printed(
            block("docs/reference/python.md", "from oaut import frames"),
            "[<Item 1>]\n",
            "oaut format items.store items.idl",
        )

    def test_the_package(self):
        self.printed(block("clients/python/README.md", "import oaut"), "7\n")


# a get by a client, as soon as somebody listens
GETS = """import oaut
with oaut.connect({}, timeout=180, patience=180) as server:
    item = server.create("Item")
    item.Count = 7
    print(item.Count)
"""


# a client of the page: it asks until the page listens
ASKS = """import urllib.request
while True:
    try:
        print(urllib.request.urlopen('http://127.0.0.1:8421/').status)
        break
    except ConnectionRefusedError:
        pass
    except OSError as error:
        if 'refused' not in str(error):
            raise
"""


@needs_program
@needs_network
class Listening(Cases):
    """Programs that start `oaut` for each client, of docs/guide/client.md, and the page of
    docs/guide/view.md."""

    def served(self, room, line, address):
        room.write("gets.py", GETS.format(address))
        status, said = room.run_beside(line, "python3 gets.py")
        self.tell(line, (status, said) == (0, "7\n"), (said, room.served))

    def test_one_after_another(self):
        with Room() as room:
            self.tell("formatted", room.run("oaut format items.store items.idl")[0] == 0)
            self.served(room, block(GUIDE, "examples/one_at_a_time.py"), '"./items.sock"')

    def test_one_process_for_each(self):
        inetd, systemd, socat = block(GUIDE, "8765 stream tcp").splitlines()
        with Room() as room:
            shutil.copy(f"{room.path}/library.idl", f"{room.path}/etc/example.idl")
            for tool, line in (("systemd-socket-activate", systemd), ("socat", socat)):
                if shutil.which(tool):
                    self.served(
                        room,
                        line.replace("/usr/bin/oaut", f"{room.path}/bin/oaut"),
                        '("localhost", 8765)',
                    )
            # inetd's line: the program gets the connection as its standard input and output
            port, kind, protocol, waits, user, path, *words = inetd.split()
            self.tell(
                "inetd's fields",
                (port, kind, protocol, waits, user, path)
                == ("8765", "stream", "tcp", "nowait", "nobody", "/usr/bin/oaut"),
                inetd,
            )
            ours, theirs = socket.socketpair()
            process = subprocess.Popen(
                [PROGRAM, *map(room.here, words[1:])], stdin=theirs, stdout=theirs
            )
            theirs.close()
            with ours, oaut.connect(ours, timeout=SECONDS) as server:
                self.tell("inetd", str(server.create("Item")) == "<Item 1>")
            process.wait(SECONDS)

    def test_the_page_of_a_store(self):
        """docs/guide/view.md, but for the installation of its packages. The page answers at the
        address that is printed."""
        python = next(
            (
                it
                for it in (sys.executable, "/usr/bin/python3")
                if not subprocess.run([it, "-c", "import aiohttp"], capture_output=True).returncode
            ),
            None,
        )
        if python is None:
            self.skipTest("no Python has aiohttp")
        (_, (command, wanted)) = commands_of(block("docs/guide/view.md", "$ pip install"))
        with Room() as room:
            self.tell("formatted", room.run("oaut format items.store items.idl")[0] == 0)
            room.write("bin/python3", f'#!/bin/sh\nexec {python} "$@"\n', 0o755)
            room.write("asks.py", ASKS)
            status, said = room.run_beside(
                command.replace("python3", "python3 -u"), "python3 asks.py"
            )
            shape = re.escape(wanted[0]).replace(r"\.\.", ".*").replace("s3Jf", "")
            self.tell(
                "the address",
                (status, said) == (0, "200\n") and re.fullmatch(shape, room.served.splitlines()[0]),
                (said, room.served),
            )


@needs_program
class Operating(Cases):
    """docs/operations/operating.md, and the examples of oaut-tools(1)."""

    def follows(self, room, text, wanted=None, without=()):
        """Each command succeeds, but for those that begin with these words: other tests run
        them."""
        kept = "\n".join(
            it for it in text.splitlines() if not it.startswith(without) or not without
        )
        status, said = room.run(kept, stdin=subprocess.DEVNULL)
        self.tell(
            text.splitlines()[0], status == 0 and (wanted is None or wanted in said), (status, said)
        )
        return said

    def test_stores(self):
        with Room() as room:
            self.follows(
                room, block(OPERATING, "oaut format /var/lib/oaut/items.store"), "formatted\n"
            )
            self.follows(
                room,
                "oaut format items.store items.idl && oaut serve items.store items.idl --hex < "
                "examples/first.hex",
            )
            # (larger banks fill the disk of a small machine)
            self.follows(
                room,
                block(OPERATING, "python3 -m oaut store dump --json").replace(
                    "268435456", "33554432"
                ),
            )
            same = room.run("oaut dump items.store")
            self.tell(
                "the same objects",
                same[0] == 0 and same == room.run("oaut dump larger.store"),
                same,
            )
            self.follows(room, block(OPERATING, "truncate --size"), "formatted\n")
            self.tell("it has holes", os.stat(f"{room.path}/small.store").st_blocks * 512 < 1 << 20)
            self.follows(room, "rm items.store")
            self.follows(
                room, block(OPERATING, "oaut format items.store items.idl\n"), "formatted\n"
            )

    def test_backup(self):
        with Room() as room:
            self.follows(room, "oaut format items.store items.idl")
            with Talker(room, "oaut serve items.store items.idl") as server:
                server.create("Item").Count = 7
                self.follows(room, block(OPERATING, "python3 -m oaut store copy --live"), "whole\n")
            self.tell(
                "the copy has it",
                room.run("oaut dump backup-1128.store") == (0, block(PROGRAM_PAGE, "next 2")),
            )

    def test_salvage(self):
        command, *wanted = block(OPERATING, "python3 -m oaut store salvage").splitlines()
        with Room() as room:
            self.follows(room, "oaut format damaged.store items.idl")
            with Talker(room, "oaut serve damaged.store items.idl") as server:
                item = server.create("Item")
                for it in range(9):
                    item.Count = it
            place = int(
                re.search(
                    r"(\d{8,})",
                    self.follows(room, "python3 -m oaut store groups damaged.store").splitlines()[
                        3
                    ],
                )[1]
            )
            with open(f"{room.path}/damaged.store", "r+b") as file:
                file.seek(place)
                self.tell("a group is there", file.read(1) == b"\1")
                file.seek(place + 5)
                file.write(b"\xff")  # the kind of its first log record
            status, said = room.run(command)
            self.tell(
                "what it reports",
                status == 1
                and [no_digits(it) for it in said.splitlines()] == [no_digits(it) for it in wanted],
                said,
            )

    def test_upgrade(self):
        with Room() as room:
            with open(f"{room.path}/lib/items.store", "wb") as file:
                file.write(stores.OLD)
            # systemd's units and the user of the package are those of test_upgrading
            self.follows(
                room,
                block(OPERATING, "cd /var/lib/oaut").replace(
                    "cd /var/lib/oaut\n", "cd /var/lib/oaut/\n"
                ),
                "upgraded\n",
                ("systemctl ", "chown "),
            )

    def test_another_library(self):
        with Room() as room:
            self.follows(room, "oaut format items.store library.idl")
            self.follows(room, block(OPERATING, "oaut dump --library items.store > now.idl"))
            self.follows(room, "oaut dump --library try.store | cmp - <(oaut check next.idl)")
            self.follows(room, block(OPERATING, "oaut dump --library items.store > items.idl"))

    def test_tools(self):
        """The examples of oaut-tools(1). `view` and its address are those of docs/guide/view.md."""
        (text,) = blocks(manual.PAGES[manual.TOOLS].added)
        with Room() as room:
            self.follows(room, "oaut format items.store library.idl")
            self.follows(room, "oaut format damaged.store library.idl")
            for line in text.splitlines():
                if " view " not in line:
                    self.follows(room, f"rm -f new.store\n{line}")


@needs_program
@needs_cc
class OfTheGateway(Cases):
    """docs/operations/gateway.md, oaut-gateway(1), and what other pages do with a gateway."""

    @contextlib.contextmanager
    def room(self, line, makes=True):
        """A room in which a command line of the gateway runs, and the process."""
        binary, (status, said), _ = built()
        self.tell("the gateway is built", status == 0, said)
        with Room(binary) as room:
            if makes:
                self.tell("formatted", room.run("oaut format items.store library.idl")[0] == 0)
            with open(f"{room.path}/said", "w+") as room.said:
                process = room.start(f"exec {line}", stderr=room.said)
                try:
                    yield room
                finally:
                    with contextlib.suppress(ProcessLookupError):
                        os.killpg(process.pid, signal.SIGTERM)
                    room.status = process.wait(SECONDS)

    def session(self, room, name):
        return oaut.connect(f"{room.path}/run/{name}", timeout=SECONDS, patience=SECONDS)

    def test_start(self):
        (made, wanted), (line, _) = commands_of(block(GATEWAY, "$ oaut format"))
        with Room() as room:
            self.tell(made, room.run(made) == (0, "".join(f"{it}\n" for it in wanted)))
        with self.room(line) as room:
            for name in ("gateway.sock", "alone.sock"):
                with self.session(room, name) as server:
                    self.tell(name, str(server.create("Item")).startswith("<Item "))
        self.tell("its end", room.status == 0, room.status)

    def test_read_only_clients(self):
        # (the users of the page are not on each machine)
        line = (
            block(GATEWAY, "oaut-gateway --listen /run/oaut/items.sock --listen-read")
            .replace("shop", "root")
            .replace("staff", "root")
        )
        with self.room(line) as room:
            with self.session(room, "items.sock") as server:
                server.create("Item").Count = 7
            with self.session(room, "items.read.sock") as server:
                item = server.objects()[0]
                self.tell("a get", item.Count == 7)
                try:
                    item.Count = 8
                    self.tell("a put is refused", False)
                except oaut.MemberNotFound:
                    self.tell("a put is refused", True)

    @left_out("socat")
    def test_watch(self):
        wanted = block(GATEWAY, "$ (echo watch values").splitlines()
        wanted[-2:] = [wanted[-2] + wanted[-1].strip()]  # the page folds the last line
        line = block(GATEWAY, "oaut-gateway --listen /run/oaut/items.sock --watch")
        with self.room(line) as room, self.session(room, "items.sock") as server:
            process = room.start(wanted[0][2:], stdout=subprocess.PIPE, text=True)
            try:
                said = [process.stdout.readline()]
                server.create("Item").Count = 7
                said += [process.stdout.readline() for _ in range(2)]
            finally:
                os.killpg(process.pid, signal.SIGTERM)
                process.wait(SECONDS)
                process.stdout.close()
        plain = lambda it: re.sub(r'"epoch":"\w+"', '"epoch":""', it.strip())
        self.tell(
            "what it receives", [plain(it) for it in said] == [plain(it) for it in wanted[1:]], said
        )

    def test_watch_in_python(self):
        """The example of docs/guide/client.md, up to the end of the gateway."""
        with self.room(
            block(GATEWAY, "oaut-gateway --listen /run/oaut/items.sock --watch")
        ) as room, self.session(room, "items.sock") as server:
            room.write(
                "watch.py",
                room.here(
                    block(GUIDE, 'import oaut\n\nwith oaut.connect("/run/oaut/items.sock", watch')
                ),
            )
            process = room.start(
                "exec python3 -u watch.py",
                stdout=subprocess.PIPE,
                stderr=subprocess.DEVNULL,
                text=True,
            )
            try:
                item, told = server.create("Item"), []

                def puts():
                    item.Count += 1
                    return bool(told)

                reader = threading.Thread(
                    target=lambda: told.append(process.stdout.readline()), daemon=True
                )
                reader.start()
                # (a change before it watches has no line)
                Gateway.wait_for(puts, "no change is printed")
                reader.join(SECONDS)
            finally:
                os.killpg(process.pid, signal.SIGTERM)
                process.wait(SECONDS)
                process.stdout.close()
        self.tell(
            "a change", re.fullmatch(r"\d+ (?:put|create) 1 (?:Count|None) .*\n", told[0]), told
        )

    def test_control(self):
        """Reload, backup, tail and the lines of standard error."""
        line = (
            "oaut-gateway --listen /run/oaut/items.sock --control /run/oaut/items.control.sock "
            "--control /run/oaut/control.sock --report 1 --slow 0.000001 items.store"
        )
        with self.room(line) as room, self.session(room, "items.sock") as server:
            item = server.create("Item")
            full = (
                block(OPERATING, "oaut-gateway status")
                .replace("NAME", "items")
                .replace(" STORE", " items.store")
            )
            status, said = room.run(full)
            self.tell(
                "how full it is",
                status == 0
                and said.count("\noaut_store_objects 1\n") == 2
                and "\npercent " in said,
                said,
            )
            status, said = room.run(block(GATEWAY, "oaut-gateway backup"))
            wanted = room.here(block(GATEWAY, "/backup/items.store: held"))
            self.tell("a backup", status == 0 and no_digits(said) == no_digits(wanted), said)
            process = room.start(
                f"exec {block(GATEWAY, 'oaut-gateway tail').strip()} --count 4",
                stdout=subprocess.PIPE,
                text=True,
            )
            try:

                def refuses():
                    with contextlib.suppress(oaut.Disconnected):
                        server.object(9, "Item").release()
                    return process.poll() is not None

                # (what passes before it is connected is not shown: of the first reply, perhaps the
                # request)
                Gateway.wait_for(refuses, "tail prints nothing")
                said = next((it for it in process.stdout if "RELEASE" in it), "")
            finally:
                process.stdout.close()
            self.tell("tail", no_digits(said) == no_digits(block(GATEWAY, "10:21:07")), said)
            wanted = {
                "a batch took": block(GATEWAY, "oaut-gateway: a batch took"),
                " requests in ": block(GATEWAY, "oaut-gateway: 12 clients"),
            }
            for words, shown in wanted.items():
                line = Gateway.wait_for(
                    lambda: self.line(room, words, item), f"no line has {words}"
                )
                self.tell(
                    f"{words}: a line as the page has it",
                    self.form(line) == self.form(shown),
                    (line, shown),
                )

            # (its group is of no user of this test, so nobody connects from then on)
            reload = block(GATEWAY, "oaut-gateway reload")
            self.tell("reload", room.run(reload) == (0, "reloaded\n"))

    def form(self, line):
        """A line without its numbers and opcodes, up to the end of what the page shows."""
        return re.sub(r"(?:0 [A-Z]+(?:, )?)+", "OPCODES", no_digits(line).split(";")[0])[
            :60
        ].rstrip(" ,.")

    def line(self, room, words, item):
        item.Count = 7
        room.said.flush()
        with open(f"{room.path}/said") as file:
            return next((it for it in file.read().splitlines() if words in it), None)

    def test_one_machine(self):
        """The commands of operating.md for many clients: systemctl's are in operators-day.md, which
        runs word for word."""
        enable, talk = block(OPERATING, "systemctl enable --now oaut@items.socket").splitlines()
        self.tell("enabled", enable in read("docs/operations/operators-day.md"))
        with self.room("oaut-gateway --listen /run/oaut/items.sock items.store") as room:
            with self.session(room, "items.sock"):
                status, said = room.run(
                    talk.replace("oaut+unix:///run/oaut", f"oaut+unix://{room.path}/run"),
                    input="create Item\n",
                )
            self.tell(talk, status == 0 and "<Item 1>" in said, said)

    def test_manual_page(self):
        first, second = blocks(manual.PAGES["oaut-gateway"].added)
        start, *commands = first.splitlines()
        with self.room(start) as room:
            with oaut.connect(f"{room.path}/items.sock", timeout=SECONDS, patience=SECONDS):
                for it in (*commands, *second.splitlines()):
                    status, said = room.run(it)
                    self.tell(it, status == 0, said)


if __name__ == "__main__":
    unittest.main()
