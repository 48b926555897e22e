"""What the client sends and what it makes of replies, over streams that are given."""
import io
import random
import struct

from oaut import I2, I4
from tests.client.clients import (
    ASKED,
    DONE,
    LIBRARY,
    SEVEN,
    ClientCases,
    K,
    Kept,
    answer,
    hexed,
    item_of,
    library_of,
    oaut,
    play,
    scripted,
)

STANDARD = """DISP_E_UNKNOWNINTERFACE 80020001 DISP_E_MEMBERNOTFOUND 80020003 DISP_E_PARAMNOTFOUND \
80020004 DISP_E_TYPEMISMATCH 80020005
DISP_E_UNKNOWNNAME 80020006 DISP_E_BADVARTYPE 80020008 DISP_E_OVERFLOW 8002000A DISP_E_BADINDEX \
8002000B DISP_E_ARRAYISLOCKED 8002000D
DISP_E_BADPARAMCOUNT 8002000E DISP_E_PARAMNOTOPTIONAL 8002000F E_NOTIMPL 80004001 E_NOINTERFACE \
80004002 E_FAIL 80004005 E_UNEXPECTED 8000FFFF
E_OUTOFMEMORY 8007000E E_INVALIDARG 80070057 RPC_E_DISCONNECTED 80010108 REGDB_E_CLASSNOTREG \
80040154 STG_E_WRITEFAULT 8003001D
STG_E_READFAULT 8003001E STG_E_MEDIUMFULL 80030070""".split()
NAMED = {int(code, 16): name for name, code in zip(STANDARD[::2], STANDARD[1::2])}
PUT, GET = oaut.ask_invoke(1, 1, 4, (-3,), (oaut.spell(I4(7)),)), oaut.ask_invoke(1, 7, 2, (), ())
# what ends a group, and what it is answered (docs/reference/records.md)
END = hexed("ffffffff 0c00 0000")
ENDED = hexed("ffffffff f7060780 ffffffff 00000000")


class Records(ClientCases):
    def test_requests_and_replies(self):
        for framing in ("lines", "raw"):
            for name, act, sent, reply, wanted in ASKED:
                server = scripted(reply, framing=framing)
                got = act(server)
                server.close()
                self.same(f"{name} over {framing}: its answer", got, wanted)
                self.same(
                    f"{name} over {framing}: its bytes",
                    server._connection.writer.content,
                    oaut.FRAMINGS[framing].pack([b"\1\0\0\0" + hexed(sent)]),
                )

    def test_codes(self):
        self.same(
            "the codes and their names",
            {**NAMED, 0x8007_06F7: "bad stub data"},
            {code: of.name for code, of in oaut.CODES.items()},
        )
        for code, of in oaut.CODES.items():
            self.raises(
                f"{of.name} by its exception",
                of,
                lambda: item_of(scripted(answer(code=code, index=1))).Count,
                code=code,
                index=1,
            )
            self.raises(
                f"{of.name} without an index",
                of,
                lambda: item_of(scripted(answer(code=code))).Count,
                code=code,
                index=None,
                argument=None,
            )
        self.raises(
            "a code without a name",
            oaut.Refused,
            lambda: item_of(scripted(answer(code=0x8123_4567))).Count,
            code=0x8123_4567,
        )
        self.raises(
            "which argument is at fault",
            oaut.TypeMismatch,
            lambda: item_of(scripted(answer(code=0x8002_0005, index=1))).Cell(5, Key="k"),
            argument="Row",
        )
        self.tell(
            "a mismatch is a TypeError",
            issubclass(oaut.TypeMismatch, TypeError) and issubclass(oaut.BadIndex, IndexError),
        )

    def test_streams_that_are_none(self):
        other = oaut.connect(
            io.BytesIO(oaut.Lines.pack([b"\7\0\0\0" + DONE, b"\7\0\0\0" + DONE])),
            Kept(),
            "lines",
            1,
        )
        other.described = LIBRARY
        self.raises("a reply of another tag", oaut.ProtocolError, lambda: item_of(other).release())
        self.raises("a session after it", oaut.SessionEnded, lambda: item_of(other).release())
        ended = oaut.connect(
            io.BytesIO(oaut.Lines.pack([bytes(4) + answer(code=0x8007_06F7)])), Kept(), "lines", 1
        )
        ended.described = LIBRARY
        self.raises(
            "a stream that is refused",
            oaut.SessionEnded,
            lambda: item_of(ended).release(),
            status=None,
            fault=None,
        )
        self.raises("a stream that ends", oaut.SessionEnded, lambda: item_of(scripted()).release())
        self.raises(
            "fields too many",
            oaut.ProtocolError,
            lambda: item_of(scripted(answer(SEVEN))).release(),
        )
        self.raises(
            "fields behind a value",
            oaut.ProtocolError,
            lambda: item_of(scripted(answer(SEVEN + "00000000 00000000"))).Count,
        )
        self.raises(
            "fields behind a number",
            oaut.ProtocolError,
            lambda: scripted(answer("01000000 00000000 00000000")).create("Item"),
        )
        self.raises(
            "a value cut off",
            oaut.ProtocolError,
            lambda: item_of(scripted(answer(SEVEN[:-2]))).Count,
        )
        self.raises("fields too few", oaut.ProtocolError, lambda: item_of(scripted(DONE)).Count)

    def test_streams_that_are_cut_off(self):
        for cut in range(1, 20):
            whole = oaut.Raw.pack([b"\1\0\0\0" + DONE])
            short = oaut.connect(io.BytesIO(whole[:cut]), Kept(), "raw", 1)
            short.described = LIBRARY
            self.raises(
                f"a raw stream that ends after {cut} bytes",
                oaut.ProtocolError,
                lambda: item_of(short).release(),
            )
        not_hex = oaut.connect(io.BytesIO(b"0g\n"), Kept(), "lines", 1)
        not_hex.described = LIBRARY
        self.raises(
            "a line that is no digits", oaut.ProtocolError, lambda: item_of(not_hex).release()
        )
        self.raises(
            "a body too long",
            ValueError,
            lambda: setattr(item_of(scripted()), "Any", ["a" * (oaut.TEXT_LIMIT // 2)] * 16),
        )

    def test_records_of_any_lengths(self):
        """Bodies of one length are told apart together, and others one by one: each is what was
        written, wherever the bytes are cut."""
        draw = random.Random(5)
        for turn in range(200):
            few = draw.choice(([16], [16, 48], [0, 1, 16, 300], range(1, 40)))
            bodies = [draw.randbytes(draw.choice(few)) for _ in range(draw.randrange(1, 40))]
            if turn % 2:
                bodies.sort(key=len)
            for framing in (oaut.Lines, oaut.Raw):
                data, at, found = framing.pack(bodies), 0, []
                for cut in sorted(draw.choices(range(len(data)), k=3)) + [len(data)]:
                    some, at = framing.split(data[:cut], at, draw.choice((1, 3, 1_024)))
                    found += some
                rest, at = framing.split(data, at, 1_024)
                if (found + rest, at) != (bodies, len(data)):
                    self.tell(
                        f"bodies of {framing.__name__}, turn {turn}", False, list(map(len, bodies))
                    )
                tags = range(turn, turn + len(bodies))
                tagged = [struct.pack("<I", tag) + it for tag, it in zip(tags, bodies)]
                if framing.tagged(tags, bodies, b"end") != framing.pack(tagged) + b"end":
                    self.tell(
                        f"tagged bodies of {framing.__name__}, turn {turn}",
                        False,
                        list(map(len, bodies)),
                    )
        self.tell("bodies of any lengths", True)

    def test_whole_numbers(self):
        for of in oaut.INTEGERS.values():
            for number in (of.low, of.high, 5):
                fields = oaut.variant_field(oaut.spell(of(number)))
                for body in (bytes(4) + b"\xff" * 4, bytes(8)):
                    reply = body + bytes(4) + fields
                    self.same(f"{of.__name__} {number}", item_of(scripted(reply)).Any, of(number))
                self.raises(
                    f"{of.__name__} {number} where nothing stands",
                    oaut.ProtocolError,
                    lambda: item_of(scripted(DONE[:12] + fields)).release(),
                )
                self.raises(
                    f"{of.__name__} {number}, cut",
                    oaut.ProtocolError,
                    lambda: item_of(scripted(DONE + fields[:-1])).Any,
                )

    def test_tags(self):
        rising = scripted(DONE, DONE, answer(SEVEN))
        with rising.batch():
            item_of(rising).Count = 6
            item_of(rising).Count = 7
        self.same("tags go on behind a batch", item_of(rising).Any, I4(7))
        last = oaut.connect(
            io.BytesIO(oaut.Lines.pack([b"\xff" * 4 + DONE, bytes(4) + answer(SEVEN)])),
            Kept(),
            "lines",
            1,
        )
        last.described, last._tag = LIBRARY, 0xFFFF_FFFF
        item_of(last).Count = 7
        self.same("tags begin again from 0", item_of(last).Any, I4(7))
        for right in (True, False):
            tags = [0xFFFF_FFFE, 0xFFFF_FFFF, 0 if right else 1, 1]
            told = oaut.Raw.pack([struct.pack("<I", tag) + DONE for tag in tags])
            last = oaut.connect(io.BytesIO(told), Kept(), group=1)
            last.described, last._tag = LIBRARY, 0xFFFF_FFFE
            try:
                with last.batch():
                    for number in range(4):
                        item_of(last).Count = number
                self.tell("a batch over the last tag", right)
            except oaut.ProtocolError:
                self.tell("a reply of another tag in a batch", not right)

    def test_groups(self):
        """Behind each exchange stands what ends a group, whose reply is read with the next
        exchange."""
        for group in (None, 3, 1_024):
            told = [
                b"\1\0\0\0" + DONE,
                ENDED,
                b"\2\0\0\0" + DONE,
                b"\3\0\0\0" + answer(SEVEN),
                ENDED,
                b"\4\0\0\0" + answer(SEVEN),
            ]
            server = oaut.connect(io.BytesIO(oaut.Raw.pack(told)), Kept(), group=group)
            server.described = LIBRARY
            item_of(server).Count = 7
            with server.batch():
                item_of(server).Count = 7
                later = item_of(server).Any
            self.same(
                f"a get behind ended groups of {group}",
                [later.value, item_of(server).Any],
                [I4(7), I4(7)],
            )
            server.close()
            tagged = [
                struct.pack("<I", tag) + body
                for tag, body in ((1, PUT), (2, PUT), (3, GET), (4, GET))
            ]
            self.same(
                f"what is sent in groups of {group}",
                server._connection.writer.content,
                oaut.Raw.pack([tagged[0], END, *tagged[1:3], END, tagged[3], END]),
            )
        alone = scripted(DONE, framing="raw", group=1)
        item_of(alone).Count = 7
        self.same(
            "groups of one are not ended",
            alone._connection.writer.getvalue(),
            oaut.Raw.pack([b"\1\0\0\0" + PUT]),
        )

    def test_libraries(self):
        self.same(
            "names fold A to Z alone",
            [oaut.fold(it) for it in ("aZ_9", "\u0131\u00df\u00e9a")],
            ["AZ_9", "\u0131\u00df\u00e9A"],
        )
        members = LIBRARY.members(LIBRARY.interfaces[0])
        self.same(
            "members",
            list(members),
            "COUNT NAME PRICE EXACT FLAG VERSION ANY GRID CELL CLEAR".split(),
        )
        self.same(
            "a property of two forms",
            [(it.name, it.vt, it.default) for it in members["CELL"].parameters],
            [("Row", 3, None), ("Key", 8, None), ("Page", 2, I2(1))],
        )
        self.same(
            "what can be put",
            [name for name, it in members.items() if it.can_put],
            "COUNT NAME PRICE EXACT FLAG ANY GRID CELL".split(),
        )
        self.raises("no such coclass", LookupError, lambda: LIBRARY.coclass("None"))
        self.raises("no such member", AttributeError, lambda: item_of(scripted()).Cuont)
        self.raises(
            "no such member to put",
            AttributeError,
            lambda: setattr(item_of(scripted()), "Cuont", 1),
        )
        self.raises("no such parameter", TypeError, lambda: item_of(scripted()).Cell(Rwo=1))
        self.raises("a parameter twice", TypeError, lambda: item_of(scripted()).Cell(5, Row=5))
        self.raises(
            "an own word is no member",
            AttributeError,
            lambda: setattr(item_of(scripted()), "number", 5),
        )
        for name in ("Count", "count", "COUNT", "cOuNT"):
            self.same(f"{name} in its case", getattr(item_of(scripted(answer(SEVEN))), name), I4(7))
        with library_of(
            "properties: [id(1)] long Number; [id(2)] long release; [id(3)] long __len;"
        ) as path, play(path) as server:
            item = server.create("Item")
            item.Number, item.Release = 5, 6
            self.same(
                "own words in another case",
                (item.Number, item.RELEASE, item.number),
                (I4(5), I4(6), 1),
            )
            self.raises("an own word as it is", AttributeError, lambda: setattr(item, "release", 5))
            self.raises("what Python asks for", AttributeError, lambda: getattr(item, "__len"))
        self.tell(
            "members in dir", {"Count", "Cell", "Clear", "release"} <= set(dir(item_of(scripted())))
        )
