"""What the client says of files and addresses that are not there, and its commands: one console
script, its completion, and what a monitor asks."""
import asyncio
import hashlib
import json
import os
import re
import signal
import socket
import subprocess
import sys
import tempfile
import time
import unittest
import zipfile
from unittest import mock

from oaut import commands, dumps, files, salvage
from oaut import store as stores
from tests.client.clients import ENVIRONMENT, FULL, PACKAGE, PROGRAM, ROOT, ClientCases, oaut


def unused_port(case):
    """A port where nobody listens: it is kept until the test has ended."""
    sock = socket.socket()
    case.addCleanup(sock.close)
    sock.bind(("127.0.0.1", 0))
    return sock.getsockname()[1]


@unittest.skipUnless(os.path.exists(PROGRAM), "the program is not there")
class WhatIsNotThere(ClientCases):
    def missing(self, name, act, path):
        """An act that names a file that is not there raises one kind of exception: the library's
        own, and Python's."""
        error = self.raises(
            name, oaut.NoSuchFile, act, f"{path}: No such file or directory", filename=path, errno=2
        )
        self.tell(
            f"{name}: both kinds",
            isinstance(error, oaut.Error) and isinstance(error, FileNotFoundError),
        )

    def test_a_library(self):
        self.missing("play", lambda: oaut.play("/no/such.idl", PROGRAM), "/no/such.idl")

    def test_a_library_of_a_new_store(self):
        with tempfile.TemporaryDirectory() as room:
            self.missing(
                "open",
                lambda: oaut.open(f"{room}/it.store", "/no/such.idl", program=PROGRAM),
                "/no/such.idl",
            )

    def test_a_store_with_its_own_library(self):
        self.missing("open", lambda: oaut.open("/no/such.store", program=PROGRAM), "/no/such.store")

    def test_a_store_with_a_named_library(self):
        self.missing(
            "serve", lambda: oaut.serve("/no/such.store", FULL, program=PROGRAM), "/no/such.store"
        )


class Addresses(ClientCases):
    def test_host_and_port_in_one_text(self):
        with socket.create_server(("127.0.0.1", 0)) as listening:
            port = listening.getsockname()[1]
            server = oaut.connect(f"127.0.0.1:{port}", timeout=60)
            self.same(
                "what it is connected to",
                repr(server),
                f"<oaut.Server: connected to 127.0.0.1:{port}>",
            )
            listening.accept()[0].close()
            server.close()

    def test_a_socket_with_such_a_name(self):
        """A file of the name that is there is what is meant."""
        with tempfile.TemporaryDirectory() as room, socket.socket(socket.AF_UNIX) as listening:
            before = os.getcwd()
            os.chdir(room)
            try:
                listening.bind("local:80")
                listening.listen()
                server = oaut.connect("local:80", timeout=60)
            finally:
                os.chdir(before)
            listening.accept()[0].close()
            server.close()

    def test_a_port_where_nobody_listens(self):
        port = unused_port(self)
        error = self.raises(
            "connect",
            ConnectionRefusedError,
            lambda: oaut.connect(("127.0.0.1", port)),
            errno=111,
            filename=f"127.0.0.1:{port}",
        )
        self.tell("it names the address", f"127.0.0.1:{port}" in str(error), error)

    def test_a_path_where_nothing_is(self):
        error = self.raises(
            "connect",
            FileNotFoundError,
            lambda: oaut.connect("/no/such.sock"),
            errno=2,
            filename="/no/such.sock",
        )
        self.tell("it names the path", "/no/such.sock" in str(error), error)

    def test_an_awaited_session(self):
        port = unused_port(self)

        async def begin():
            await oaut.aio.connect(f"127.0.0.1:{port}")

        error = self.raises(
            "connect", ConnectionRefusedError, lambda: asyncio.run(begin()), errno=111
        )
        self.tell("it names the address", f"127.0.0.1:{port}" in str(error), error)

    def test_nobody_within_its_patience(self):
        port = unused_port(self)
        error = self.raises(
            "connect",
            ConnectionRefusedError,
            lambda: oaut.connect(("127.0.0.1", port), patience=0.2),
        )
        self.tell("it names the address", f"127.0.0.1:{port}" in str(error), error)


@unittest.skipUnless(os.path.exists(PROGRAM), "the program is not there")
class NoLibrary(ClientCases):
    def test_its_text_has_line_caret_and_note(self):
        """As `oaut check --where` prints them."""
        with tempfile.NamedTemporaryFile("w", suffix=".idl") as file:
            file.write("[uuid(11223344-5566-7788-99AA-BBCCDDEEFF01), version(1.0)] library X {\n")
            file.write(
                "[uuid(11223344-5566-7788-99AA-BBCCDDEEFF02)] dispinterface D { properties: "
                "[id(1)] float X; }; };\n"
            )
            file.flush()
            said = subprocess.run(
                [PROGRAM, "check", "--where", file.name], capture_output=True, text=True
            ).stderr.splitlines()
            shown, note = said[1].partition(": ")[2], said[-1]
            with self.assertRaises(oaut.NotALibrary) as caught:
                oaut.play(file.name, PROGRAM)
        lines = str(caught.exception).splitlines()
        self.same("the line", lines[1], shown)
        self.same("the caret", lines[2].index("^"), shown.index("float"))
        self.same("the note", (note[:6], lines[3]), ("note: ", note))


def tools(*words, **how):
    """The status of the tools, and what they print."""
    done = subprocess.run(
        [sys.executable, "-m", "oaut", *words],
        env=ENVIRONMENT,
        capture_output=True,
        text=True,
        timeout=300,
        **how,
    )
    return done.returncode, done.stdout, done.stderr


@unittest.skipUnless(os.path.exists(PROGRAM), "the program is not there")
class OfAStore(ClientCases):
    """Each test has a store of the full library, without objects."""

    def setUp(self):
        folder = tempfile.TemporaryDirectory()
        self.addCleanup(folder.cleanup)
        self.room = folder.name
        self.path = f"{self.room}/it.store"
        with open(self.path, "wb") as file:
            file.truncate(stores.length_of(stores.BANK))
        oaut.make_store(self.path, FULL, PROGRAM, replace=True)

    def filled(self, count):
        """Makes objects in it."""
        with oaut.serve(self.path, program=PROGRAM) as server:
            with server.batch():
                for _ in range(count):
                    server.create("Item")


class Info(OfAStore):
    def test_an_empty_store(self):
        found = files.info(self.path)
        told = {it: found[it] for it in ("limit", "used", "free", "percent", "exact")}
        # docs/reference/store.md: the image of a table is a bank less 5,242,880 at most, and
        # without objects 8 bytes
        self.same(
            "what is used",
            told,
            {"limit": 15_728_640, "used": 8, "free": 15_728_632, "percent": 0.0, "exact": True},
        )

    def test_behind_some_groups(self):
        self.filled(1_000)
        found = files.info(self.path)
        # docs/reference/images.md: an object without cells has 24 bytes
        self.tell(
            "it is about that", found["exact"] is False and 20_000 < found["used"] < 30_000, found
        )

    def test_counted(self):
        self.filled(1_000)
        found = dumps.counted(self.path)
        self.same(
            "it is that",
            (found["used"], found["exact"], found["free"]),
            (24_008, True, 15_728_640 - 24_008),
        )

    def test_objects_are_not_read(self):
        self.filled(10)
        found = files.info(self.path)
        with open(self.path, "r+b") as file:
            # the kind of the first event, behind its gate and length
            file.seek(stores.LEAST + found["library_size"] + found["snapshot_size"] + 5)
            file.write(b"\xff")
        self.same("what is told of a damaged object", files.info(self.path), found)

    def test_units(self):
        said = tools("store", "info", self.path)[1]
        self.tell("bytes", "\nfree 15728632 bytes (15.0 MiB)\n" in said, said)
        self.tell("percent", "\npercent 0.0 %\n" in said, said)

    def test_what_is_not_counted_is_told(self):
        self.filled(10)
        said = tools("store", "info", self.path)[1]
        self.same("used, free, percent", said.count(", about: --objects counts\n"), 3)


@unittest.skipUnless(os.path.exists(PROGRAM), "the program is not there")
class Sparse(ClientCases):
    def made(self, **how):
        """The size of a new store, and the bytes that it takes on its device."""
        with tempfile.TemporaryDirectory() as room:
            with oaut.open(f"{room}/it.store", FULL, program=PROGRAM, **how) as server:
                server.create("Item").Count = 7
            with oaut.serve(f"{room}/it.store", program=PROGRAM) as server:
                self.same("what it keeps", [it.Count for it in server.objects()], [oaut.I4(7)])
            found = os.stat(f"{room}/it.store")
        return found.st_size, 512 * found.st_blocks

    def test_all_of_it(self):
        size, taken = self.made()
        self.tell("what it takes", size == 75_505_664 and taken >= size, (size, taken))

    def test_what_was_written(self):
        size, taken = self.made(sparse=True)
        self.tell("what it takes", size == 75_505_664 and taken < 1_000_000, (size, taken))

    def test_other_banks(self):
        self.same("its size", self.made(sparse=True, bank=25_000_000)[0], 83_562_624)

    def test_a_file_that_is_there(self):
        self.raises(
            "it",
            ValueError,
            lambda: oaut.make_store("/no/such.store", FULL, PROGRAM, replace=True, sparse=True),
        )


class Verify(OfAStore):
    def digest(self, path):
        """The digest of what the program's dump prints."""
        return hashlib.sha256(
            subprocess.run([PROGRAM, "dump", path], capture_output=True, check=True).stdout
        ).hexdigest()

    def test_it_is_that_of_the_dump(self):
        self.filled(3)
        status, said, _ = tools("store", "verify", "--json", self.path)
        self.same("the digest", (status, json.loads(said)["sha256"]), (0, self.digest(self.path)))

    def test_what_it_counts(self):
        self.filled(3)
        found = dumps.verified(self.path)
        self.same("objects and cells", (found["objects"], found["cells"]), (3, 0))

    def test_the_same_objects_elsewhere(self):
        self.filled(3)
        with open(f"{self.room}/dump", "w+") as file:
            dumps.write_dump(self.path, file)
            file.seek(0)
            dumps.restore(file, f"{self.room}/other", bank=25_000_000)
        self.same("the digest", dumps.verified(f"{self.room}/other"), dumps.verified(self.path))

    def test_a_digest_that_is_given(self):
        digest = self.digest(self.path)
        self.same("it is that", tools("store", "verify", self.path, digest.upper())[0], 0)
        self.filled(1)
        status, _, err = tools("store", "verify", self.path, digest)
        self.same(
            "it is another",
            (status, err),
            (1, f"python3 -m oaut: {self.path}: its objects have another digest than {digest}\n"),
        )

    def test_a_damaged_store(self):
        self.filled(3)
        found = files.info(self.path)
        with open(self.path, "r+b") as file:
            place = stores.LEAST + found["library_size"] + found["snapshot_size"]
            file.seek(place + 5)
            file.write(b"\xff")
        self.same(
            "where",
            tools("store", "verify", self.path)[::2],
            (1, f"python3 -m oaut: {self.path}: damaged at {place}\n"),
        )


class Progress(OfAStore):
    def test_counting(self):
        told = []
        dumps.counted(self.path, progress=lambda done, whole: told.append(done == whole))
        self.same("its end is told", told[-1:], [True])

    def test_salvage(self):
        self.filled(3)
        told = []
        salvage.salvage(
            self.path,
            f"{self.room}/new",
            program=PROGRAM,
            progress=lambda done, whole: told.append(done == whole),
        )
        self.same("its end is told", told[-1:], [True])

    def test_no_bar_within_the_data(self):
        terminal = mock.Mock(isatty=lambda: True)
        with mock.patch("sys.stdout", terminal), mock.patch("sys.stderr", terminal):
            shown = [commands.Bar(it).shown for it in ("dump", "copy")]
        self.same("of a dump, of a copy", shown, [False, True])


class Signals(OfAStore):
    def ended_by(self, number):
        """The status of a restore that a signal ends, what it says, and the files that are
        there."""
        words = [sys.executable, "-m", "oaut", "store", "restore", "-", f"{self.room}/new"]
        # (a gate that was begun by nohup ignores SIGHUP, and so would what it starts)
        ready = lambda: signal.signal(
            number, signal.SIG_DFL if number != signal.SIGINT else signal.default_int_handler
        )
        with subprocess.Popen(
            words, stdin=subprocess.PIPE, stderr=subprocess.PIPE, env=ENVIRONMENT, preexec_fn=ready
        ) as child:
            with open(FULL, encoding="utf-8") as file:
                text = json.dumps(
                    subprocess.run(
                        [PROGRAM, "check", file.name], capture_output=True, text=True
                    ).stdout
                )
            child.stdin.write(
                f'{{"dump": "oaut", "form": 1, "library": {text}, "next": 1, "objects": ['.encode()
                + b" " * 300_000
            )
            child.stdin.flush()
            until = time.monotonic() + 300
            while (
                not any(it.startswith(".oaut-") for it in os.listdir(self.room))
                and time.monotonic() < until
            ):
                time.sleep(0.01)
            child.send_signal(number)
            try:
                status = child.wait(300)
            finally:
                child.kill()
            return status, child.stderr.read().decode(), sorted(os.listdir(self.room))

    def test_one_as_the_file_is_made(self):
        """It is there, and its descriptor is not known yet."""

        def interrupted(*words):
            os.close(os_open(*words))
            raise KeyboardInterrupt

        os_open = os.open
        with mock.patch.object(files.os, "open", interrupted), self.assertRaises(
            KeyboardInterrupt
        ), files.new_file(f"{self.room}/new"):
            pass
        self.same("no file", sorted(os.listdir(self.room)), ["it.store"])

    def test_an_interrupt(self):
        self.same(
            "the status, no traceback, no file",
            self.ended_by(signal.SIGINT),
            (130, "", ["it.store"]),
        )

    def test_a_terminal_that_closes(self):
        self.same(
            "the status, nothing said, no file",
            self.ended_by(signal.SIGHUP),
            (129, "", ["it.store"]),
        )

    def test_a_kill(self):
        self.same(
            "the status, nothing said, no file",
            self.ended_by(signal.SIGTERM),
            (143, "", ["it.store"]),
        )


class PassedOn(OfAStore):
    def setUp(self):
        super().setUp()
        os.mkdir(f"{self.room}/bin")
        os.symlink(PROGRAM, f"{self.room}/bin/oaut")
        self.how = {
            "env": {**ENVIRONMENT, "PATH": f"{self.room}/bin:{os.environ['PATH']}"},
            "capture_output": True,
            "text": True,
            "timeout": 300,
        }

    def tools(self, *words, **how):
        done = subprocess.run([sys.executable, "-m", "oaut", *words], **self.how, **how)
        return done.returncode, done.stdout, done.stderr

    def test_a_command_of_the_program(self):
        done = subprocess.run([PROGRAM, "check", FULL], capture_output=True, text=True)
        self.same("check", self.tools("check", FULL), (0, done.stdout, ""))

    def test_its_status(self):
        self.same(
            "a store that is no library",
            self.tools("check", "/no/such.idl")[::2],
            (1, "oaut: cannot read /no/such.idl\n/no/such.idl: No such file or directory\n"),
        )

    def test_its_help(self):
        self.tell("of play", "Usage: oaut play" in self.tools("play", "--help")[1])

    def test_its_input(self):
        with open(f"{ROOT}/examples/first.hex") as asked, open(
            f"{ROOT}/examples/first.out"
        ) as answered:
            self.same(
                "play",
                self.tools("play", f"{ROOT}/examples/small.idl", "--hex", input=asked.read()),
                (0, answered.read(), ""),
            )

    def test_a_dump(self):
        self.filled(2)
        done = subprocess.run([PROGRAM, "dump", self.path], capture_output=True, text=True)
        self.same("dump", self.tools("dump", self.path), (0, done.stdout, ""))

    def test_a_pipe_that_is_closed_is_no_fault(self):
        self.filled(3_000)
        line = f"{sys.executable} -m oaut dump {self.path} | head -1; exit ${{PIPESTATUS[0]}}"
        done = subprocess.run(["bash", "-c", line], **self.how)
        self.same("dump", (done.returncode, done.stdout, done.stderr), (141, "next 3001\n", ""))

    def test_no_program(self):
        done = subprocess.run(
            [sys.executable, "-m", "oaut", "check", FULL],
            **{**self.how, "env": {**ENVIRONMENT, "PATH": ""}},
        )
        self.same(
            "a line",
            (done.returncode, done.stderr.count("\n"), "there is no program oaut" in done.stderr),
            (1, 1, True),
        )


class Completed(ClientCases):
    def completed(self, *words):
        """What bash offers for the last word."""
        line = (
            f'source {ROOT}/dist/oaut-tools.bash; COMP_WORDS=("$@"); COMP_CWORD=$(($# - 1)); '
            f'_oaut_tools; printf "%s\\n" "${{COMPREPLY[@]}}"'
        )
        done = subprocess.run(
            ["bash", "-c", line, "bash", *words],
            cwd=f"{ROOT}/examples",
            capture_output=True,
            text=True,
        )
        self.same(f"bash, of {words}", done.stderr, "")
        return done.stdout.split("\n")[:-1]

    def test_a_command(self):
        self.same("of the tools", self.completed("oaut-tools", "st"), ["stubs", "store"])

    def test_a_command_below_another(self):
        self.same("of store", self.completed("oaut-tools", "store", "sa"), ["salvage"])

    def test_options(self):
        self.same(
            "of info",
            self.completed("oaut-tools", "store", "info", "--"),
            ["--help", "--live", "--json", "--objects"],
        )

    def test_options_of_the_program(self):
        self.same("of dump", self.completed("oaut-tools", "dump", "--"), ["--library", "--help"])

    def test_files(self):
        self.same(
            "of info", sorted(self.completed("oaut-tools", "store", "info", "full.i")), ["full.idl"]
        )

    def test_it_is_what_the_command_prints(self):
        with open(f"{ROOT}/dist/oaut-tools.bash") as file:
            self.same("dist/oaut-tools.bash", tools("completion"), (0, file.read(), ""))


class Wheel(ClientCases):
    def setUp(self):
        with tempfile.TemporaryDirectory() as room:
            self.files = {}
            for name in (None, "program"):
                if name is not None:
                    with open(f"{room}/program", "wb") as file:
                        file.write(b"GLIBC_2.34")
                done = subprocess.run(
                    [sys.executable, "-c", BUILD, room, name and f"{room}/{name}" or ""],
                    env={**os.environ, "PYTHONPATH": PACKAGE},
                    capture_output=True,
                    text=True,
                )
                self.same("it is built", (done.returncode, done.stderr), (0, ""))
                with zipfile.ZipFile(f"{room}/{done.stdout.strip()}") as archive:
                    self.files[name] = {
                        it.partition("/")[2]: archive.read(it)
                        for it in archive.namelist()
                        if ".dist-info/" in it
                    }

    def test_entry_points(self):
        wanted = (
            b"[console_scripts]\noaut-tools = oaut.__main__:run_as_command\n\n[pytest11]\n"
            b"oaut = oaut.pytest\n"
        )
        self.same("of the wheel", self.files[None]["entry_points.txt"], wanted)

    def test_metadata(self):
        self.tell(
            "its classifiers", b"\nClassifier: Typing :: Typed\n" in self.files[None]["METADATA"]
        )
        licence = re.search(rb"\nLicense: (.*)\n", self.files[None]["METADATA"])
        for page in (f"{ROOT}/README.md", f"{PACKAGE}/README.md"):
            with open(page, encoding="utf-8") as file:
                said = re.search(r"\*\*Licence\*\*: (.*)\.$", file.read(), re.MULTILINE)
            self.tell(
                f"{page} has the licence of the metadata",
                licence and said and said[1].encode() == licence[1],
                (licence and licence[1], said and said[1]),
            )

    def test_whether_the_program_is_in_it(self):
        told = b"The program `oaut` is in this wheel"
        self.same(
            "without, with",
            [told in self.files[it]["METADATA"] for it in (None, "program")],
            [False, True],
        )


BUILD = """import sys
import wheels
print(wheels.build_wheel(sys.argv[1], {"program": sys.argv[2]} if sys.argv[2] else None))
"""


@unittest.skipUnless(os.path.exists(PROGRAM), "the program is not there")
class Show(ClientCases):
    def test_members_and_values(self):
        given = "create Item\nput 1 Count 7\nshow 1\n"
        status, said, err = tools("talk", FULL, "--program", PROGRAM, input=given)
        lines = said.splitlines()
        self.same(
            "its first lines",
            (status, err, lines[1:4]),
            (0, "", ["<Item 1>", "  Count: long = I4(7)", "  Name: BSTR = null"]),
        )
        self.same(
            "a member with parameters", lines[-2], "  Cell: BSTR(long Row, BSTR Key, short Page)"
        )

    def test_no_such_object(self):
        self.same(
            "its fault",
            tools("talk", FULL, "--program", PROGRAM, input="show 5\n"),
            (1, "", "line 1: no object 5; create makes one\n"),
        )
