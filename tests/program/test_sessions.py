"""Sessions: lines and records, how they end, and when their replies come."""
import os
import struct
import tempfile
import unittest

from tests.support import wire
from tests.support.playing import Played
from tests.support.preloaded import COMPILER, Preloaded
from tests.support.running import (
    CREATE,
    CREATED,
    FULL,
    REPLIES,
    REQUESTS,
    SMALL,
    Cases,
    Talk,
    run,
    within,
)

STUB = b"00000000" + b"f7060780" + b"ffffffff" + b"00000000"
LINE_LIMIT, BODY_LIMIT = 8_388_608, 4_194_304
BUFFER = 8_192  # bytes that are read in one call, where there are as many


def record(body):
    return struct.pack("<I", len(body)) + body


def records(lines):
    """The bodies of lines, as records."""
    return b"".join(record(bytes.fromhex(line.decode())) for line in lines.splitlines())


ASKED, ANSWERED, STUB_RECORD = records(CREATE), records(CREATED), records(STUB)


class Lines(Played):
    def test_lines(self):
        self.play("the first path", REQUESTS, 0, REPLIES, b"")
        self.play("no requests", b"", 0, b"", b"")
        self.play("lines end by CR LF", REQUESTS.replace(b"\n", b"\r\n"), 0, REPLIES, b"")
        self.play("digits of both cases", REQUESTS.upper(), 0, REPLIES, b"")
        self.play("a last line without its end", REQUESTS[:-1], 0, REPLIES, b"")
        self.play(
            "an empty line ends the session",
            CREATE + b"\n\n" + CREATE + b"\n",
            0,
            CREATED + b"\n",
            b"",
        )
        self.play(
            "a line of CR LF alone ends it too",
            CREATE + b"\r\n\r\n" + CREATE + b"\n",
            0,
            CREATED + b"\n",
            b"",
        )
        self.play("an empty line before all", b"\n01", 0, b"", b"")

    def test_digits(self):
        self.play(
            "half a byte behind a body without a tag",
            b"01\n0\n",
            4,
            STUB + b"\n",
            b"oaut: bad hex on line 2\n",
        )
        self.play(
            "an opcode that is none in a last line without its end",
            b"0700000063000000",
            0,
            b"07000000" + STUB[8:] + b"\n",
            b"",
        )
        self.play(
            "bad hex after an answer",
            CREATE + b"\n01\n0g\n" + CREATE + b"\n",
            4,
            CREATED + b"\n" + STUB + b"\n",
            b"oaut: bad hex on line 3\n",
        )
        self.play("an odd number of digits", b"012\n", 4, b"", b"oaut: bad hex on line 1\n")
        self.play(
            "a blank is no digit", b" " + CREATE + b"\n", 4, b"", b"oaut: bad hex on line 1\n"
        )
        self.play("a CR that ends no line", b"01\r02\n", 4, b"", b"oaut: bad hex on line 1\n")

    def test_lengths_of_lines(self):
        self.play(
            "a line at its limit",
            b"0" * LINE_LIMIT + b"\n" + CREATE + b"\n",
            0,
            STUB + b"\n" + CREATED + b"\n",
            b"",
        )
        self.play(
            "a line at its limit with CR LF",
            b"0" * LINE_LIMIT + b"\r\n" + CREATE + b"\n",
            0,
            STUB + b"\n" + CREATED + b"\n",
            b"",
        )
        self.play(
            "a line above its limit",
            CREATE + b"\n" + b"g" * (LINE_LIMIT + 1) + b"\n" + CREATE + b"\n",
            4,
            CREATED + b"\n" + STUB + b"\n",
            b"oaut: record too long\n",
        )
        self.play(
            "a last line above its limit",
            b"0" * (LINE_LIMIT + 2),
            4,
            STUB + b"\n",
            b"oaut: record too long\n",
        )

    def test_lengths_of_replies(self):
        # a buffer of the output has 8,192 bytes; there are replies of 33 bytes, and of 49
        for length in (8_189, 8_190, 8_191, 8_192, 8_193, 30_000):
            stubs = next(it for it in range(49) if (length - 33 * it) % 49 == 0)
            objects = (length - 33 * stubs) // 49
            made = b"".join(
                wire.reply(1, fields=struct.pack("<II", number, 0))
                for number in range(1, objects + 1)
            )
            self.play(
                f"replies of {length} bytes",
                b"00\n" * stubs + (CREATE + b"\n") * objects,
                0,
                (STUB + b"\n") * stubs + made,
                b"",
            )

    def test_streams_that_fail(self):
        with tempfile.TemporaryDirectory() as folder:
            fault = os.open(folder, os.O_RDONLY)
            self.play(
                "standard input that cannot be read",
                None,
                1,
                b"",
                b"oaut: read fault\n",
                stdin=fault,
            )
            os.close(fault)
        with open("/dev/full", "wb") as full:
            self.play(
                "standard output that takes nothing",
                REQUESTS,
                1,
                None,
                b"oaut: write fault\n",
                stdout=full,
            )
            self.play(
                "the one reply cannot be handed on at an empty line",
                CREATE + b"\n\n",
                1,
                None,
                b"oaut: write fault\n",
                stdout=full,
            )
            self.play(
                "the reply to a line above its limit cannot be handed on",
                b"0" * (LINE_LIMIT + 2),
                1,
                None,
                b"oaut: write fault\n",
                stdout=full,
            )

    def test_memory_is_refused(self):
        # less and less memory, until the buffers of a session are refused
        for kib in range(32_768, 0, -256):
            done = run(
                ["play", "lib.idl", "--hex"],
                REQUESTS,
                files={"lib.idl": SMALL},
                before=within(1_024 * kib),
            )
            if done[0] != 0:
                break
        self.tell("memory refused", done == (5, b"", b"oaut: out of memory\n"), done)

    def test_what_a_session_of_short_requests_takes(self):
        # the buffers of a line and of a body are reserved whole, and no more of them is touched
        # than the longest that comes
        for words, asked, answered in (
            (("--hex",), REQUESTS, REPLIES),
            ((), records(REQUESTS), records(REPLIES)),
        ):
            with Talk(SMALL, words=words) as session:
                session.send(asked)
                answer = session.bytes(len(answered))
                self.tell(
                    f"short requests {words} take 5 MiB at most",
                    (answer, session.peak() <= 5_120) == (answered, True),
                    session.peak(),
                )

    def test_replies_come_before_the_next_request(self):
        with Talk(SMALL) as session:
            replies = []
            for line in REQUESTS.splitlines(keepends=True):
                session.send(line)
                replies.append(session.line())
            session.process.stdin.close()
            self.tell(
                "each reply comes before the next request is sent",
                (b"".join(replies), session.status()) == (REPLIES, 0),
                replies,
            )
        with Talk(SMALL) as session:
            first, second = REQUESTS.splitlines(keepends=True)[:2]
            session.send(first + second[:9])
            replies = [session.line()]
            session.send(second[9:])
            replies.append(session.line())
            self.tell(
                "a reply comes before the rest of a line that is cut behind a whole one",
                b"".join(replies) == b"".join(REPLIES.splitlines(keepends=True)[:2]),
                replies,
            )
        with open("/dev/full", "wb") as full, Talk(SMALL, stdout=full) as session:
            session.send(CREATE + b"\n")
            told = session.line(session.process.stderr), session.status()
            self.tell(
                "replies that cannot be handed on before a wait end the session",
                told == (b"oaut: write fault\n", 1),
                told,
            )

    def test_streams_that_are_closed_and_clients_that_are_gone(self):
        for fd, (status, out, err) in (
            (0, (1, b"", b"oaut: read fault\n")),
            (1, (1, b"", b"oaut: write fault\n")),
            (2, (0, REPLIES, b"")),
        ):
            self.play(
                f"stream {fd} is closed",
                REQUESTS,
                status,
                out,
                err,
                before=lambda fd=fd: os.close(fd),
            )
        self.case(
            "standard error is closed, and there is a fault",
            ["check", "none.idl"],
            1,
            b"",
            b"",
            before=lambda: os.close(2),
        )
        away, gone = os.pipe()
        os.close(away)
        self.play(
            "a pipe whose reader is gone", REQUESTS, 1, None, b"oaut: write fault\n", stdout=gone
        )
        self.checked(
            "a pipe whose reader is gone", FULL, 1, None, b"oaut: write fault\n", stdout=gone
        )
        os.close(gone)


class Records(Played):
    def play_records(self, name, given, status, out, err, library=SMALL, **how):
        self.play(f"records: {name}", given, status, out, err, library, (), **how)

    def test_records(self):
        self.play_records("the first path", records(REQUESTS), 0, records(REPLIES), b"")
        self.play_records("no requests", b"", 0, b"", b"")
        self.play_records(
            "a length of 0 ends the session", ASKED + bytes(4) + ASKED, 0, ANSWERED, b""
        )
        self.play_records(
            "a body under 8 bytes has no tag",
            record(b"\1\2\3\4") + ASKED,
            0,
            STUB_RECORD + ANSWERED,
            b"",
        )
        self.play_records(
            "an opcode that is none",
            record(struct.pack("<II", 5, 99)),
            0,
            records(b"05000000" + STUB[8:]),
            b"",
        )
        for end in (1, 3, 4, 5, 27):
            self.play_records(
                f"cut at the byte {end}",
                ASKED + ASKED[:end],
                4,
                ANSWERED + STUB_RECORD,
                b"oaut: record cut\n",
            )
        self.play_records(
            "cut within a put",
            records(REQUESTS)[:-80],
            4,
            records(b"\n".join(REPLIES.splitlines()[:2])) + STUB_RECORD,
            b"oaut: record cut\n",
        )
        self.play_records(
            "a body at its limit", record(bytes(BODY_LIMIT)) + ASKED, 0, STUB_RECORD + ANSWERED, b""
        )
        for length in (BODY_LIMIT + 1, 2**32 - 1):
            self.play_records(
                f"a length of {length}",
                ASKED + struct.pack("<I", length) + ASKED,
                4,
                ANSWERED + STUB_RECORD,
                b"oaut: record too long\n",
            )

    def test_records_of_streams_that_fail(self):
        with tempfile.TemporaryDirectory() as folder:
            fault = os.open(folder, os.O_RDONLY)
            self.play_records(
                "standard input that cannot be read",
                None,
                1,
                b"",
                b"oaut: read fault\n",
                stdin=fault,
            )
            os.close(fault)
        with open("/dev/full", "wb") as full:
            self.play_records(
                "standard output that takes nothing",
                ASKED,
                1,
                None,
                b"oaut: write fault\n",
                stdout=full,
            )

    def test_records_are_answered_before_the_next(self):
        with Talk(SMALL, words=()) as session:
            replies = []
            for asked, answered in zip(REQUESTS.splitlines(), REPLIES.splitlines()):
                session.send(records(asked))
                replies.append(session.bytes(len(records(answered))))
            session.send(struct.pack("<I", BODY_LIMIT + 1))
            self.tell(
                "records: each reply comes before the next request, and a length too long ends "
                "the session at once",
                (session.status(), b"".join(replies)) == (4, records(REPLIES)),
                replies,
            )


@unittest.skipUnless(COMPILER, "cc is not there: the calls of the streams are not counted")
class Calls(Cases):
    def test_requests_that_are_all_there(self):
        """They are read a buffer at a time, and the replies to a buffer's leave together."""
        lines, times = b"".join(REQUESTS.splitlines(keepends=True)[2:]), 400
        answers = b"".join(REPLIES.splitlines(keepends=True)[2:])
        with Preloaded() as preloaded:
            preloaded.fill("lib.idl", SMALL)
            for words, given, due in (
                (["--hex"], CREATE + b"\n" + lines * times, CREATED + b"\n" + answers * times),
                ([], ASKED + records(lines) * times, ANSWERED + records(answers) * times),
            ):
                preloaded.fill("given", given)
                got = preloaded.run(["play", *words, preloaded.path("lib.idl")], "given")
                self.tell(
                    f"{len(given)} bytes {words or 'of records'}",
                    got[:3] == (0, due, b""),
                    (got[0], len(got[1]), got[2]),
                )
                self.tell(
                    f"{len(given)} bytes {words or 'of records'} are read, and their replies "
                    "written, in few calls",
                    got.writes <= got.reads <= len(given) // BUFFER + 2,
                    (got.reads, got.writes),
                )
