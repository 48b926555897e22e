"""The client over frames: their codec, clients of a made-up server, and of the program's shared
sessions."""
import os
import struct
import tempfile
import threading

from oaut import frames
from tests.client.clients import FULL, PROGRAM, ClientCases, oaut

PUT = bytes.fromhex("07000000 0c000000 08000000") + bytes(8)


class Codec(ClientCases):
    def test_frames(self):
        record = struct.pack("<I", 8) + bytes(8)
        self.same("a record of client 7", frames.join([(7, record)]), PUT)
        self.same("the same by its bytes", frames.frames_of(7, record), PUT)
        self.same("an end", frames.ended(7), bytes.fromhex("07000000 00000000"))
        self.same(
            "an end among others",
            frames.join([(7, b""), (8, b"x")]),
            frames.ended(7) + frames.head(8, 1) + b"x",
        )
        self.same("now", frames.NOW, bytes.fromhex("ffffffff 00000000"))
        self.same("no bytes are no frame", frames.frames_of(7, b""), b"")
        long = bytes(frames.FRAME_LIMIT) + b"x"
        self.same(
            "what is too long for one",
            frames.frames_of(1, long),
            frames.head(1, frames.FRAME_LIMIT) + long[:-1] + frames.head(1, 1) + b"x",
        )
        stream = PUT + frames.ended(7) + frames.NOW
        whole = [(7, record), (7, b""), (frames.ALL, b"")]
        self.same("all of a stream", frames.split(stream), (whole, len(stream)))
        for cut in range(len(PUT)):
            self.same(
                f"a frame that is cut at {cut}",
                frames.split(stream[: len(PUT) + 8] + PUT[:cut]),
                (whole[:2], len(PUT) + 8),
            )
        self.same("from a place on", frames.split(stream, len(PUT)), (whole[1:], len(stream)))


class MadeUp:
    """A server that tells each client what it has sent, in frames of a byte, and how often it was
    told `now`, as an end."""

    def __init__(self, **how):
        (away, stdin), (stdout, back) = os.pipe(), os.pipe()
        self.took = []
        threading.Thread(target=self.serve, args=(away, back), daemon=True).start()
        self.shared = frames.Shared(os.fdopen(stdout, "rb"), os.fdopen(stdin, "wb"), **how)

    def serve(self, away, back):
        data = b""
        with os.fdopen(away, "rb", 0) as reader, os.fdopen(back, "wb", 0) as writer:
            while some := reader.read(1 << 16):
                found, at = frames.split(data + some)
                data = (data + some)[at:]
                self.took += found
                for client, given in found:
                    if client != frames.ALL and b"?" not in given:
                        writer.write(
                            b"".join(frames.head(client, 1) + bytes([it]) for it in given)
                            or frames.ended(client)
                        )

    def __enter__(self):
        return self

    def __exit__(self, *_):
        self.shared.close()


class Streams(ClientCases):
    def test_streams(self):
        with MadeUp(timeout=300) as server:
            shared = server.shared
            one, two = shared.stream(), shared.stream(5)
            self.same("the lowest number that is free", one.client, 0)
            one.write(b"ab")
            two.write(b"c")
            one.write(b"d")
            found = b""
            while len(found) < 3:
                found += one.read(10)
            self.same("what comes for one", (found, two.read(1)), (b"abd", b"c"))
            self.raises(
                "a number that is taken",
                ValueError,
                lambda: shared.stream(5),
                "there is a client 5",
            )
            for number in (-1, frames.ALL):
                self.raises(
                    f"the number {number}",
                    ValueError,
                    lambda: shared.stream(number),
                    f"{number} is no client's number",
                )
            two.leave()
            self.raises(
                "a stream that has ended",
                ValueError,
                lambda: two.write(b"x"),
                "the client's stream has ended",
            )
            again = shared.stream(5)
            again.write(b"e")
            self.same("behind the last reply", two.read(1), b"")
            self.same("its number comes again", again.read(1), b"e")
            shared.now()
            shared.stream(9).close()
            last = shared.stream(7)
            last.write(bytes(100_000))
            left = 100_000
            while left:
                left -= len(last.read(left))
        self.same("what ends with the input", (one.read(1), again.read(1)), (b"", b""))
        took = [it for it in server.took if it[0] != 7]
        self.same(
            "what the server is told",
            took,
            [(0, b"ab"), (5, b"c"), (0, b"d"), (5, b""), (5, b"e"), (frames.ALL, b"")],
        )

    def test_a_timeout(self):
        with MadeUp(timeout=300) as server, server.shared.session() as session:
            self.same(
                "a session over it",
                session.exchange([b"12345678"]),
                [struct.pack("<I", 1) + b"12345678"],
            )
        with MadeUp(timeout=1) as server:
            stream = server.shared.stream()
            stream.write(b"?")
            self.raises("nothing comes", TimeoutError, lambda: stream.read(1))
            with server.shared.session() as session:
                error = self.raises(
                    "nothing comes for a session",
                    oaut.TimedOut,
                    lambda: session.exchange([b"12345?78"]),
                )
                self.same("it may have been done", error.may_stand, True)


class Sessions(ClientCases):
    def play(self):
        return frames.play(FULL, PROGRAM, timeout=120)

    def test_sessions(self):
        with tempfile.TemporaryDirectory() as room:
            oaut.make_store(f"{room}/it.store", FULL, PROGRAM)
            for name, begin in (
                ("in memory", self.play),
                (
                    "over a store",
                    lambda: frames.serve(f"{room}/it.store", program=PROGRAM, timeout=120),
                ),
                (
                    "each request by itself",
                    lambda: frames.serve(f"{room}/it.store", FULL, 1, PROGRAM, timeout=120),
                ),
            ):
                with begin() as shared:
                    self.talk(name, shared)
            with oaut.serve(f"{room}/it.store", program=PROGRAM) as server:
                self.same("what is kept", [it.Count for it in server.objects()], [8, 8])

    def talk(self, name, shared):
        with shared.session() as one:
            item = one.create("Item")
            item.Count, item.Grid = 7, [1, 2, 3]
            with shared.session() as two:
                same = two.object(item.number, "Item")
                self.same(
                    f"{name}: what one puts another one gets",
                    (same.Count, list(same.Grid)),
                    (7, [1, 2, 3]),
                )
                self.same(
                    f"{name}: locks are counted together",
                    (item.Grid.lock(), same.Grid.lock()),
                    (1, 2),
                )
                item.Grid.unlock()
                self.raises(f"{name}: another's lock", oaut.Unexpected, lambda: item.Grid.unlock())
                self.raises(
                    f"{name}: which holds", oaut.ArrayIsLocked, lambda: setattr(item, "Grid", [4])
                )
            item.Grid = [4]
            with shared.session() as three, three.batch():
                for it in range(3_000):
                    three.object(item.number, "Item").Count = it
            self.same(
                f"{name}: a batch of a third one", (item.Count, list(item.Grid)), (2_999, [4])
            )

            def counts():
                with shared.session() as mine:
                    for _ in range(50):
                        mine.object(item.number, "Item").Count = 8

            threads = [threading.Thread(target=counts) for _ in range(8)]
            for it in threads:
                it.start()
            for it in threads:
                it.join()
            self.same(f"{name}: eight threads", int(item.Count), 8)

    def test_a_number_is_free_once_its_client_has_left(self):
        with self.play() as shared:
            for name, last, told in (
                ("a length of 0", bytes(4), b""),
                (
                    "a record that is too long",
                    b"\xff" * 4,
                    bytes.fromhex("10000000 00000000 f7060780 ffffffff 00000000"),
                ),
            ):
                gone = shared.stream()
                gone.write(last)
                self.same(
                    f"{name}: what is told, and the end",
                    (gone.read(20), gone.read(20)) if told else gone.read(20),
                    (told, b"") if told else b"",
                )
                with shared.session() as session:
                    self.same(f"{name}: another one is answered", session.objects(), [])
                self.raises(
                    f"{name}: its number is its own",
                    ValueError,
                    lambda: shared.stream(gone.client),
                    f"there is a client {gone.client}",
                )
                gone.leave()
                self.same(
                    f"{name}: and free behind that", shared.stream(gone.client).client, gone.client
                )

    def test_ends(self):
        shared = self.play()
        with shared.session() as one:
            one.objects()
            shared.child.kill()
            error = self.raises(
                "the server is killed", oaut.SessionEnded, lambda: [one.objects() for _ in range(3)]
            )
            self.same("it may have been done", error.may_stand, True)
        error = self.raises("how the program has ended", oaut.SessionEnded, shared.close)
        self.same("its status", error.status, -9)
        shared = frames.play("/nowhere.idl", PROGRAM)
        error = self.raises(
            "a library that is not there",
            oaut.NoSuchFile,
            shared.close,
            status=1,
            fault="oaut: cannot read /nowhere.idl",
        )
        self.raises(
            "no such program", oaut.ProgramNotFound, lambda: frames.play(FULL, "/nowhere/oaut")
        )
        with tempfile.TemporaryDirectory() as room:
            self.raises(
                "no such store",
                oaut.NoSuchFile,
                lambda: frames.serve(f"{room}/it.store", program=PROGRAM),
            )
