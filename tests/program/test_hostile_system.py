"""A system that does the least that it may: reads and writes that bring a byte at a time, or
nothing, and some that are interrupted for ever, or would block."""
import os
import re
import struct
import subprocess
import tempfile
import unittest

from tests.program.test_hostile import stub, tagged
from tests.program.test_sessions import ANSWERED, ASKED, LINE_LIMIT, STUB, STUB_RECORD, records
from tests.support import store, wire, worked
from tests.support.asked import Answering
from tests.support.calls import STRACE, each_fails
from tests.support.codes import E_FAIL, WRITE_FAULT
from tests.support.fuzz import known_stores
from tests.support.model import BSTR, LIBRARY
from tests.support.preloaded import COMPILER, Preloaded, StoreFile
from tests.support.running import (
    CREATE,
    CREATED,
    PROGRAM,
    REPLIES,
    REQUESTS,
    SMALL,
    Cases,
    fault,
    fill,
    run_in,
)
from tests.support.wire import oaut

READ_CALLS = 2 * LINE_LIMIT  # of one record or line
WRITE_CALLS = 4_194_304  # that may be interrupted in one put
# sessions that are cut and interrupted: what comes, the status, and what is written
CUT = [
    ("the first path", ["--hex"], REQUESTS, 0, REPLIES, b""),
    ("lines that end by CR LF", ["--hex"], REQUESTS.replace(b"\n", b"\r\n"), 0, REPLIES, b""),
    (
        "a digit that is none",
        ["--hex"],
        b"01\n1z\n22\n",
        4,
        STUB + b"\n",
        fault("bad hex on line 2"),
    ),
    (
        "a last line without its end",
        ["--hex"],
        b"01\n" + CREATE,
        0,
        STUB + b"\n" + CREATED + b"\n",
        b"",
    ),
    ("an empty line", ["--hex"], CREATE + b"\n\n01\n", 0, CREATED + b"\n", b""),
    ("no bytes", ["--hex"], b"", 0, b"", b""),
    ("records", [], records(REQUESTS), 0, records(REPLIES), b""),
    ("a length of 0", [], ASKED + bytes(4) + b"\5", 0, ANSWERED, b""),
    ("a length that is cut", [], ASKED + bytes(2), 4, ANSWERED + STUB_RECORD, fault("record cut")),
    (
        "a record that is cut",
        [],
        struct.pack("<I", 3) + b"\7\x08",
        4,
        STUB_RECORD,
        fault("record cut"),
    ),
    (
        "a length that is too large",
        [],
        struct.pack("<I", LINE_LIMIT // 2 + 1) + b"\7",
        4,
        STUB_RECORD,
        fault("record too long"),
    ),
    ("no records", [], b"", 0, b"", b""),
]


@unittest.skipUnless(COMPILER, "cc is not there")
class Bytewise(Cases):
    def test_a_line_as_long_as_it_may_be(self):
        """A byte a read, and a CR and an LF behind it."""
        with Preloaded() as preloaded:
            preloaded.fill("lib.idl", SMALL)
            given = b"0" * LINE_LIMIT + b"\r\n" + CREATE + b"\n"
            preloaded.fill("given", given)
            got = preloaded.run(["play", "--hex", preloaded.path("lib.idl")], "given", short=1)
            wanted = stub(bytes(LINE_LIMIT // 2)).hex().encode() + b"\n" + CREATED + b"\n"
            self.tell(
                "the longest line, a byte a read",
                (got[:3], got.reads >= len(given)) == ((0, wanted, b""), True),
                (got[0], got[1][:80], got[2], got.reads),
            )

    def test_a_record_as_long_as_it_may_be(self):
        with Preloaded() as preloaded:
            preloaded.fill("lib.idl", SMALL)
            body = struct.pack("<I", 7) + bytes(LINE_LIMIT // 2 - 4)
            preloaded.fill("given", oaut.Raw.pack([body, bytes.fromhex(CREATE.decode())]))
            got = preloaded.run(["play", preloaded.path("lib.idl")], "given", short=1)
            self.tell(
                "the longest record, a byte a read",
                got[:3] == (0, oaut.Raw.pack([stub(body), bytes.fromhex(CREATED.decode())]), b""),
                (got[0], got[1][:80], got[2], got.reads),
            )

    def test_cuts_and_interruptions_change_nothing(self):
        """However few bytes a call brings, and however often it is interrupted before that, as long
        as that is not for ever."""
        with Preloaded() as preloaded:
            preloaded.fill("lib.idl", SMALL)
            for name, words, given, *due in CUT:
                preloaded.fill("given", given)
                for short in (1, 2, 3, 5):
                    for times in (0, 1, 5):
                        for stream in (1, 2) if times else (0,):
                            got = preloaded.run(
                                ["play", *words, preloaded.path("lib.idl")],
                                "given",
                                short=short,
                                interrupted=stream,
                                times=times,
                            )
                            self.tell(
                                f"{name}, {short} bytes a call, stream {stream} interrupted "
                                f"{times} times",
                                [*got[:3]] == due,
                                got,
                            )

    def test_one_interruption_fewer_than_for_ever(self):
        with Preloaded() as preloaded:
            preloaded.fill("lib.idl", SMALL)
            for words in ([], ["--hex"]):
                got = preloaded.run(
                    ["play", *words, preloaded.path("lib.idl")], interrupted=1, times=READ_CALLS - 1
                )
                self.tell(
                    f"the last read of a body is not interrupted, {words or 'records'}",
                    (got[:3], got.reads) == ((0, b"", b""), READ_CALLS),
                    got,
                )

    def test_reads_that_are_interrupted_for_ever(self):
        with Preloaded() as preloaded:
            preloaded.fill("lib.idl", SMALL)
            for words in ([], ["--hex"]):
                got = preloaded.run(["play", *words, preloaded.path("lib.idl")], interrupted=1)
                self.tell(
                    f"reads are interrupted for ever, {words or 'records'}",
                    (got[:3], got.reads) == ((1, b"", fault("read fault")), READ_CALLS),
                    got,
                )

    def test_writes_that_are_interrupted_for_ever(self):
        with Preloaded() as preloaded:
            preloaded.fill("lib.idl", SMALL)
            preloaded.fill("given", CREATE + b"\n")
            got = preloaded.run(
                ["play", "--hex", preloaded.path("lib.idl")], "given", interrupted=2
            )
            self.tell(
                "writes are interrupted for ever",
                (got[:3], got.writes) == ((1, b"", fault("write fault")), WRITE_CALLS),
                got,
            )

    def test_calls_that_would_block(self):
        """That is a failure, and no such call is made again."""
        with Preloaded() as preloaded:
            preloaded.fill("lib.idl", SMALL)
            preloaded.fill("given", CREATE + b"\n")
            words = ["play", "--hex", preloaded.path("lib.idl")]
            got = preloaded.run(words, "given", blocked=1)
            self.tell(
                "a read would block",
                (got[:3], got.reads) == ((1, b"", fault("read fault")), 1),
                got,
            )
            got = preloaded.run(words, "given", blocked=2)
            self.tell(
                "a write would block",
                (got[:3], got.writes) == ((1, b"", fault("write fault")), 1),
                got,
            )

    def test_nothing_is_read_past_a_failed_write(self):
        """A read brings half a line, and a write half a reply. Where one fails, no read is made any
        more, and nothing else is written."""
        replies = b"".join(
            b"%s%02x%s\n" % (CREATED[:32], number, CREATED[34:]) for number in (1, 2, 3)
        )
        with Preloaded() as preloaded:
            preloaded.fill("lib.idl", SMALL)
            preloaded.fill("given", (CREATE + b"\r\n") * 3)
            path, lib = preloaded.path("it.store"), preloaded.path("lib.idl")
            preloaded.ample(["format", path, lib])
            made = StoreFile(path)
            for name, words, written, reads, left in (
                ("the last of the first reply, in memory", ["play", lib], 1, 2, 25),
                ("the first of the second reply, in memory", ["play", lib], 2, 4, 49),
                ("the last of the first reply", ["serve", path, lib], 1, 2, 25),
                ("the first of the second reply", ["serve", path, lib], 2, 4, 49),
                ("the last of a group of 3", ["serve", "--group", "3", path, lib], 5, 6, 125),
                (
                    "the first of an open group, at the end of the input",
                    ["serve", "--group", "1024", path, lib],
                    0,
                    7,
                    0,
                ),
            ):
                made.lay()
                got = preloaded.run([*words, "--hex"], "given", short=25, blocked=2, after=written)
                self.tell(
                    f"a write fails: {name}",
                    (got[:3], got.reads, got.writes)
                    == ((1, replies[:left], fault("write fault")), reads, written + 1),
                    got,
                )

    def test_replies_a_byte_a_write(self):
        """However many writes a reply takes, it leaves whole."""
        with Preloaded() as preloaded:
            preloaded.fill("lib.idl", LIBRARY)
            bodies = tagged(
                [
                    *worked.CREATED,
                    worked.put(worked.NAME, wire.scalar(BSTR, bytes(range(256)) * 400)),
                    worked.get(worked.NAME),
                ]
            )
            answering = Answering()
            due = oaut.Raw.pack(map(answering.reply, bodies))
            preloaded.fill("given", oaut.Raw.pack(bodies))
            got = preloaded.run(["play", preloaded.path("lib.idl")], "given", short=1)
            self.tell(
                "replies of 100,000 bytes, a byte a write",
                (got[:3], got.writes >= len(due)) == ((0, due, b""), True),
                (got[0], len(got[1]), got[2], got.writes),
            )

    def test_files_a_byte_at_a_time(self):
        """Each call of the store's file brings a byte, or a few, or one more or one fewer than the
        call before: the file is the same as where they bring all."""
        bodies = tagged(
            [
                *worked.CREATED,
                *worked.SCALAR_PROPERTIES,
                worked.put(worked.NAME, wire.scalar(BSTR, bytes(range(256)) * 40)),
                *worked.ARRAYS,
            ]
        )
        answering = Answering()
        due = oaut.Raw.pack(map(answering.reply, bodies))
        with Preloaded() as preloaded:
            preloaded.fill("lib.idl", LIBRARY)
            preloaded.fill("given", oaut.Raw.pack(bodies))
            path, lib = preloaded.path("it.store"), preloaded.path("lib.idl")
            left = {}
            for how in (
                {"short": 0},
                {"short": 1},
                {"short": 3},
                {"short": 4_095},
                {"rising": 1},
                {"lacking": 1},
            ):
                most = " ".join(f"{name} {count}" for name, count in how.items())
                with open(path, "wb") as file:
                    file.truncate(store.length_of(store.BANK))
                for words, given, wanted in (
                    (["format", path, lib], "nothing", b"formatted\n"),
                    (["serve", "--group", "3", path, lib], "given", due),
                    (["serve", path, lib], "nothing", b""),
                ):
                    got = preloaded.run(words, given, **how)
                    self.tell(
                        f"{words[0]}: calls are {most}",
                        (got[:3], got.left) == ((0, wanted, b""), 0),
                        (got[0], got[1][:80], got[2], got.left),
                    )
                now = StoreFile(path)
                left[most] = now.now()
                got = preloaded.run(["dump", path], **how)
                self.tell(
                    f"dump: calls are {most}",
                    got[:3] == (0, now.dump().encode(), b""),
                    (got[0], got[2]),
                )
                self.tell(f"what calls leave that are {most}", left[most] == left["short 0"])


FORMAT = ["format", "it.store", "lib.idl"]
# runs a script with the program, with a file system of one MiB in the folder `full`
MOUNTED = [
    "unshare",
    "--mount",
    "--map-root-user",
    "sh",
    "-ec",
    'mount -t tmpfs -o size=1m none full; cd full; eval "$2"',
    "sh",
    PROGRAM,
]


def can_mount():
    with tempfile.TemporaryDirectory() as room:
        os.mkdir(f"{room}/full")
        try:
            return (
                subprocess.run([*MOUNTED, "true"], cwd=room, stderr=subprocess.DEVNULL).returncode
                == 0
            )
        except FileNotFoundError:
            return False


@unittest.skipUnless(
    can_mount(), "unshare is not there, or no file system can be mounted: none gets full"
)
class Full(Cases):
    def test_a_file_system_that_gets_full(self):
        """A store's file of holes finds room for some groups: what was acknowledged is kept, and
        the group that found none is told so."""
        texts = [bytes([it]) * 100_000 for it in range(1, 21)]
        bodies = tagged(
            [
                oaut.ask_create(worked.ITEM),
                *(worked.put(worked.NAME, wire.scalar(BSTR, it)) for it in texts),
            ]
        )
        with tempfile.TemporaryDirectory() as room:
            os.mkdir(f"{room}/full")
            fill(room, {"lib.idl": LIBRARY, "given": oaut.Raw.pack(bodies)})
            script = (
                f'truncate -s {store.length_of(store.BANK)} it.store; "$1" format it.store '
                '../lib.idl; "$1" serve it.store ../lib.idl < ../given > ../out; cp '
                '--sparse=always it.store ../it.store; "$1" dump it.store > ../dump'
            )
            ended = subprocess.run([*MOUNTED, script], cwd=room, capture_output=True)
            self.tell(
                "full: each command ends well", (ended.returncode, ended.stderr) == (0, b""), ended
            )
            with open(f"{room}/out", "rb") as file:
                codes = [
                    struct.unpack_from("<I", it, 4)[0]
                    for it in oaut.Raw.split(file.read(), 0, len(bodies))[0]
                ]
            done = codes.count(0) - 1
            self.tell(
                "full: some are done, one is in doubt, and no other is begun",
                0 < done < 15
                and codes == [0] * (done + 1) + [WRITE_FAULT] + [E_FAIL] * (len(texts) - done - 1),
                codes,
            )
            now = StoreFile(f"{room}/it.store", b"").dump()
            with open(f"{room}/dump") as file:
                told = file.read()
            held = [
                count
                for count in (done, done + 1)
                if now.endswith(f"0800{struct.pack('<I', 100_000).hex()}{texts[count - 1].hex()}\n")
            ]
            self.tell(
                "full: what was acknowledged is there, and dump says the same",
                (len(held), told == now) == (1, True),
                (done, held, now[:200]),
            )


@unittest.skipUnless(STRACE, "strace is not there: no call of the system is made to fail")
class Injected(Cases):
    def synced(self, room, words, cwd=None):
        """The paths that a command syncs, in order."""
        log = f"{room}/calls"
        subprocess.run(
            [STRACE, "-f", "-y", "-o", log, "-e", "trace=fsync,fdatasync", PROGRAM, *words],
            cwd=cwd or room,
            check=True,
            stdout=subprocess.DEVNULL,
        )
        with open(log) as file:
            return re.findall(r"f(?:data)?sync\(\d+<([^>]*)>", file.read())

    def test_the_folder_that_is_synced(self):
        """It is the one that the store's file is in, whatever path leads there."""
        with tempfile.TemporaryDirectory() as room:
            room = os.path.realpath(room)
            fill(room, {"lib.idl": SMALL})
            for name in ("in", "in/deep", "else"):
                os.mkdir(f"{room}/{name}")
            os.symlink("in/deep", f"{room}/link")
            for path, folder in (
                ("it.store", room),
                ("in/it.store", f"{room}/in"),
                ("./in/../else/it.store", f"{room}/else"),
                (f"{room}/in/deep/it.store", f"{room}/in/deep"),
                ("link/other.store", f"{room}/in/deep"),
            ):
                made = self.synced(room, ["format", path, "lib.idl"])
                found = os.path.realpath(f"{room}/{path}" if not path.startswith("/") else path)
                self.tell(
                    f"format {path}: the folder is synced behind the file, and nothing else",
                    (
                        {*made},
                        made.index(folder) > made.index(found)
                        if folder in made and found in made
                        else None,
                    )
                    == ({found, folder}, True),
                    made,
                )
                again = self.synced(room, ["format", path, "lib.idl"])
                self.tell(
                    f"format {path} again: its folder has the name", folder not in again, again
                )

    def test_writes_that_bring_a_byte(self):
        """The next write begins behind what was written, as strace shows; and so do reads."""
        with tempfile.TemporaryDirectory() as room:
            fill(room, {"lib.idl": SMALL})
            with open(f"{room}/it.store", "wb") as file:
                file.truncate(store.length_of(store.BANK))
            self.goes_on(room, "pwrite64", FORMAT)
            run_in(room, FORMAT)
            self.goes_on(room, "pread64", ["dump", "it.store"])

    def goes_on(self, room, name, words):
        log = f"{room}/calls"
        for when in range(1, 9):
            subprocess.run(
                [
                    STRACE,
                    "-f",
                    "-y",
                    "-s",
                    "0",
                    "-o",
                    log,
                    "-e",
                    f"trace={name}",
                    "-e",
                    f"inject={name}:retval=1:when={when}",
                    PROGRAM,
                    *words,
                ],
                cwd=room,
                stdout=subprocess.DEVNULL,
                stderr=subprocess.DEVNULL,
            )
            with open(log) as file:
                made = [
                    (int(length), int(place))
                    for length, place in re.findall(
                        rf"{name}\(\d+<[^>]*/it.store>.*, (\d+), (\d+)\)", file.read()
                    )
                ]
            if len(made) < when:
                break
            length, place = made[when - 1]
            if length > 1:
                self.tell(
                    f"{words[0]}: the {name} of {length} bytes at {place} brings one",
                    made[when : when + 1] == [(length - 1, place + 1)],
                    made[when - 1 : when + 1],
                )

    def test_writes_and_reads_that_bring_nothing(self):
        asked = oaut.Raw.pack(tagged([oaut.ask_create(worked.ITEM)]))
        with tempfile.TemporaryDirectory() as room:
            files, _ = known_stores(room)
            files[0][0].lay()
            with open(f"{room}/it.store", "rb") as file:
                held = file.read()
        failed = struct.pack("<III", WRITE_FAULT, oaut.NO_INDEX, 0)

        def judge(place, what, answer, _):
            if what[0] == "read":
                self.tell(
                    f"serve: the call {place}, {what}, reads nothing",
                    answer == (1, b"", fault("device fault 0x8003001e")),
                    answer,
                )
            elif what[0] == "write":
                self.tell(
                    f"serve: the call {place}, {what}, writes nothing",
                    answer == (0, oaut.Raw.pack([asked[4:8] + failed]), b""),
                    answer,
                )

        each_fails(
            self,
            ["serve", "it.store", "lib.idl"],
            {"lib.idl": LIBRARY, "it.store": held},
            judge,
            "retval=0",
            given=asked,
        )
