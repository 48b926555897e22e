"""Recordings: a session's requests and replies as a text file, and a session that is replayed from
it."""
import io
import os
import tempfile
import time
import unittest

from oaut import recorded
from oaut.protocol import END
from tests.client.clients import FULL, LIBRARY, PROGRAM, ClientCases, answer, oaut, scripted
from tests.support.tries import least

CREATED = answer("01000000 00000000")
# what the recording of one create has: the request of docs/reference/records.md, and its reply
ONE_CREATE = """> CREATE coclass 11223344-5566-7788-99aa-bbccddeeff03 (Item)
    01000000 44332211 66558877 99aabbcc ddeeff03
< S_OK: object 1
    00000000 ffffffff 00000000 01000000 00000000
"""


def used(server):
    """Each kind of request, and what it gives."""
    item = server.create("Item")
    item.Count = 7
    item.Name = "two\nlines"
    item.Grid = [[1, 2], [3, 4]]
    item.Grid[0, 1] = 9
    item.Cell[5, "k"] = "x"
    try:
        item.Count = "x"
    except oaut.TypeMismatch as refusal:
        said = str(refusal)
    with server.batch():
        laters = [item.Count for _ in range(5)]
    with server.atomic():
        item.Count = 8
        item.Any = None
    item.Grid.lock()
    item.Grid.unlock()
    item.Any = "a" * 100_000
    return [
        item.Count,
        item.Name,
        list(item.Grid),
        item.Cell[5, "k"],
        said,
        [it.value for it in laters],
        item.Any,
        item.dispids("Cell", "Key"),
        [it.number for it in server.objects()],
    ]


class Room(ClientCases):
    def setUp(self):
        folder = tempfile.TemporaryDirectory()
        self.addCleanup(folder.cleanup)
        self.path = f"{folder.name}/calls.txt"

    def recorded_by(self, act, *bodies):
        """Records an act on a session with these replies, and gives the recording."""
        with oaut.record(scripted(*bodies), self.path) as recording:
            act(recording._server)
        with open(self.path, encoding="ascii") as file:
            return file.read()

    def written(self, text):
        with open(self.path, "w", encoding="utf-8") as file:
            file.write(text)


class Recordings(Room):
    def test_what_is_written(self):
        text = self.recorded_by(lambda it: it.create("Item"), CREATED)
        self.same("its first line", text.splitlines()[0], "oaut recording 1")
        self.same("the request and its reply", text.split("\n\n")[-1], ONE_CREATE)

    def test_its_library(self):
        text = self.recorded_by(lambda it: None)
        self.same(
            "it is a library's text",
            oaut.Library.from_text(text.partition("library\n")[2]) == LIBRARY,
            True,
        )

    def test_two_recordings_are_the_same(self):
        """Though their sessions have other tags."""
        texts = []
        for before in (0, 3):
            server = scripted(*[CREATED] * (before + 1))
            for _ in range(before):
                server.create("Item")
            with oaut.record(server, self.path):
                server.create("Item")
            with open(self.path) as file:
                texts.append(file.read())
        self.same("the text", texts[0], texts[1])

    def test_a_block_that_raises(self):
        try:
            with oaut.record(scripted(CREATED), self.path):
                raise KeyError
        except KeyError:
            pass
        self.same("there is none", os.path.exists(self.path), False)

    def test_another_file_is_not_replaced(self):
        self.written("mine\n")
        server = scripted(CREATED)
        self.raises(
            "it is refused", oaut.NoRecording, lambda: oaut.record(server, self.path).__enter__()
        )
        with open(self.path) as file:
            self.same("its text", file.read(), "mine\n")

    def test_a_recording_is_replaced(self):
        self.recorded_by(lambda it: it.create("Item"), CREATED)
        text = self.recorded_by(lambda it: None)
        self.same("its calls", "CREATE" in text, False)

    def test_a_trace_goes_on(self):
        server, told = scripted(CREATED), []
        server.trace = lambda side, body: told.append(side)
        with oaut.record(server, self.path):
            server.create("Item")
        self.same("what was traced", told, [">", "<"])


@unittest.skipUnless(os.path.exists(PROGRAM), "the program is not there")
class Replays(Room):
    def test_each_kind_of_request(self):
        with oaut.play(FULL, PROGRAM) as server, oaut.record(server, self.path):
            wanted = used(server)
        with oaut.replay(self.path) as server:
            self.same("what the replay gives", used(server), wanted)

    def test_the_library(self):
        with oaut.play(FULL, PROGRAM) as server, oaut.record(server, self.path):
            library = server.library
        with oaut.replay(self.path) as server:
            self.same("it", server.library == library, True)

    def test_a_replay_is_recorded_as_it_was(self):
        with oaut.play(FULL, PROGRAM) as server, oaut.record(server, self.path):
            used(server)
        with oaut.replay(self.path) as server, oaut.record(server, f"{self.path}.2"):
            used(server)
        with open(self.path) as one, open(f"{self.path}.2") as other:
            self.same("the text", one.read() == other.read(), True)

    def test_a_server_that_ended(self):
        with self.assertRaises(oaut.SessionEnded):
            with oaut.play(FULL, PROGRAM) as server:
                item = server.create("Item")
                recording = oaut.record(server, self.path)
                recording.__enter__()
                server._connection.child.kill()
                server._connection.child.wait()
                try:
                    item.Count = 7
                finally:
                    recording.__exit__(None)
        server = oaut.replay(self.path)
        self.raises(
            "the replay ends there too",
            oaut.SessionEnded,
            lambda: setattr(server.object(1, "Item"), "Count", 7),
            may_stand=True,
        )


class Differences(Room):
    def setUp(self):
        super().setUp()
        self.recorded_by(lambda it: it.create("Item").release(), CREATED, answer())

    def test_another_request(self):
        server = oaut.replay(self.path)
        item = server.create("Item")
        error = self.raises("a put", oaut.ReplayDiffers, lambda: setattr(item, "Count", 7))
        self.tell(
            "what was sent",
            "request 2 is INVOKE object 1 dispid 1 (Count) PROPERTYPUT, new value = I4(7)"
            in str(error),
            error,
        )
        self.tell(
            "what was recorded, and where",
            str(error).startswith(f"{self.path}:") and "was RELEASE object 1" in str(error),
            error,
        )

    def test_it_stays(self):
        server = oaut.replay(self.path)
        item = server.create("Item")
        for _ in range(2):
            self.raises("a put", oaut.ReplayDiffers, lambda: setattr(item, "Count", 7))

    def test_one_request_more(self):
        server = oaut.replay(self.path)
        server.create("Item").release()
        error = self.raises("a create", oaut.ReplayDiffers, lambda: server.create("Item"))
        self.tell(
            "how many there are", "it has 2 requests, and request 3 is CREATE" in str(error), error
        )

    def test_a_request_that_is_not_sent(self):
        server = oaut.replay(self.path)
        server.create("Item")
        error = self.raises("the end", oaut.ReplayDiffers, server.close)
        self.tell("which", "request 2 of 2 was not sent: RELEASE object 1" in str(error), error)

    def test_some_of_it(self):
        with oaut.replay(self.path, partly=True) as server:
            self.same("what was sent", server.create("Item").number, 1)

    def test_an_exception_of_the_block_stays(self):
        with self.assertRaises(KeyError):
            with oaut.replay(self.path):
                raise KeyError

    def test_it_is_an_assertion(self):
        self.same(
            "both kinds",
            issubclass(oaut.ReplayDiffers, AssertionError)
            and issubclass(oaut.ReplayDiffers, oaut.Error),
            True,
        )


class NoRecordings(Room):
    def refused(self, name, text, line):
        self.written(text)
        error = self.raises(name, oaut.NoRecording, lambda: oaut.replay(self.path))
        self.tell(f"{name}: its line", str(error).startswith(f"{self.path}:{line}: "), error)

    def test_another_text(self):
        self.written("hello\n")
        self.raises(
            "it",
            oaut.NoRecording,
            lambda: oaut.replay(self.path),
            f"{self.path}: no recording: its first line is not 'oaut recording 1'",
        )

    def test_a_reply_without_a_request(self):
        self.refused("it", "oaut recording 1\nlibrary\n< S_OK\n    00\n", 3)

    def test_no_digits(self):
        self.refused("it", "oaut recording 1\nlibrary\n> LIST\n    xy\n", 3)

    def test_a_line_that_is_none_of_these(self):
        self.refused("it", "oaut recording 1\nlibrary\n> LIST\n    0b00\nhello\n", 5)

    def test_a_library_that_is_none(self):
        self.written("oaut recording 1\nlibrary\n    x\n")
        with self.assertRaises(oaut.NotALibrary):
            oaut.replay(self.path)

    def test_comments_and_blank_lines(self):
        with open(self.path, "w") as file, open(FULL, encoding="utf-8") as library:
            file.write(
                "oaut recording 1\n# by hand\nlibrary\n"
                + "".join(f" {it}" for it in library if "//" not in it)
                + "\n# a list\n> LIST\n 0b00 0000\n"
            )
            file.write("< none\n 00000000 ffffffff 00000000 00000000 00000000\n")
        with oaut.replay(self.path) as server:
            self.same("its list", server.objects(), [])


class Streams(Room):
    def test_many_replies_at_once(self):
        """What has to be read takes a time that grows with it, and not with its square: here some
        50 ms, and 2 s with bytes that are joined anew."""
        self.recorded_by(lambda it: it.create("Item"), CREATED)

        def seconds():
            streams = recorded.Replies(self.path)
            count, begun = 50_000, time.process_time()
            streams.write(oaut.Raw.pack([END] * count))
            size = sum(len(streams.read1(1_000)) for _ in range(count * 20 // 1_000))
            took = time.process_time() - begun
            self.same("all come", size, count * 20)
            return took

        took = least(1, seconds)
        self.tell("soon", took < 1, took)

    def test_a_request_that_comes_in_parts(self):
        self.recorded_by(lambda it: it.create("Item"), CREATED)
        streams = recorded.Replies(self.path)
        data = oaut.Raw.pack([b"\7\0\0\0" + bytes.fromhex(ONE_CREATE.splitlines()[1])])
        for at in range(len(data)):
            streams.write(data[at : at + 1])
        body = oaut.Raw.read(io.BytesIO(streams.read1(100)))
        self.same("its reply", oaut.read_reply(body)[:3], (7, 0, None))
