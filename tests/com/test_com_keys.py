"""Keys of a property, by `hub.Keys` of the COM bridge: what the gateway sends
(docs/operations/gateway.md, docs/reference/images.md), by a script under Wine, and over a gateway.
What is not installed leaves its tests out, each by its name."""
import re
import struct
import unittest

from tests.com.test_com_watching import Port, Watching, line
from tests.com.under_wine import needs_wine, passes, text, write
from tests.gateway.gateways import Gateway
from tests.support.preloaded import COMPILER
from tests.support.running import ROOT

ITEM_FACE = "11223344-5566-7788-99aa-bbccddeeff02"


def scalar(vt, content=b""):
    """A scalar as docs/reference/images.md has it."""
    return struct.pack("<H", vt) + content


def bstr(told):
    units = told.encode("utf-16-le")
    return scalar(8, struct.pack("<I", len(units)) + units)


def key(*scalars):
    """A line of the gateway."""
    return b'"' + (struct.pack("<H", len(scalars)) + b"".join(scalars)).hex().encode() + b'"\n'


@needs_wine
class Keys(Watching):
    def setUp(self):
        super().setUp()
        self.bridge.add_item()

    def told(self, name="Cell", number=1):
        return self.wine.run(*self.bridge.script("keys.vbs"), str(number), name)[1].splitlines()

    def refused(self, port, words):
        return (
            "462 Demo.Store, Keys: the server was not reached; nothing was sent; "
            f"127.0.0.1:{port}: {words}"
        )

    def test_what_is_asked(self):
        self.told_by([line(keys=0), b""])
        self.same("no key", self.told("cell"), ["0", "end"])
        asked = [it.lower().replace(b"{", b"").replace(b"}", b"") for it in self.asked]
        self.same("the line", asked, [f"keys object=1 interface={ITEM_FACE} member=9\n".encode()])

    def test_each_type(self):
        values = (
            (bstr("ab"), "String ab"),
            (bstr(""), "String "),
            (scalar(3, struct.pack("<i", -5)), "Long -5"),
            (scalar(2, struct.pack("<h", -5)), "Integer -5"),
            (scalar(17, b"\xff"), "Byte 255"),
            (scalar(16, b"\xff"), "Long -1"),
            (scalar(18, b"\xff\xff"), "Long 65535"),
            (scalar(19, struct.pack("<I", 1 << 31)), "Currency 2147483648"),
            (scalar(20, struct.pack("<q", -1)), "Long -1"),
            (scalar(6, struct.pack("<q", 25_000)), "Currency 2.5"),
            (scalar(14, struct.pack("<BBIQ", 1, 1, 0, 25)), "Decimal -2.5"),
            (scalar(11, b"\1"), "Boolean True"),
            (scalar(11, b"\0"), "Boolean False"),
            (scalar(0), "Empty "),
            (bstr("x" * 100_000), "String " + "x" * 100_000),
        )
        self.told_by([line(keys=len(values)), *(key(it) for it, _ in values), b""])
        self.same("each", self.told(), [str(len(values)), *(it for _, it in values), "end"])

    def test_several_arguments(self):
        self.told_by(
            [
                line(keys=2),
                key(scalar(3, struct.pack("<i", 5)), bstr("k"), scalar(2, b"\1\0")),
                key(),
                b"",
            ]
        )
        self.same("each", self.told(), ["2", "Long 5;String k;Integer 1;", "", "end"])

    def test_a_gateway_that_is_busy(self):
        self.told_by([line(busy=2), b""], [line(busy=2), b""], [line(keys=1), key(bstr("k")), b""])
        self.same("after a while", (self.told(), len(self.asked)), (["1", "String k", "end"], 3))

    def test_what_sends_no_keys(self):
        one = key(bstr("k"))
        for told, lines, words in (
            ("a refusal", [line(refused="keys ..")], "what listens there sends no changes"),
            ("an end", [b""], "the server ended the connection"),
            ("an end within the keys", [line(keys=2), one], "the server ended the connection"),
            ("an end within a key", [line(keys=1), one[:-3]], "the server ended the connection"),
            ("no digits", [line(keys=1), b'"0x"\n'], "what listens there sends no changes"),
            (
                "a key that is cut",
                [line(keys=1), one[:-4] + b'"\n'],
                "what listens there sends no changes",
            ),
            (
                "a key that is too long",
                [line(keys=1), one[:-2] + b'00"\n'],
                "what listens there sends no changes",
            ),
            (
                "a type that there is not",
                [line(keys=1), key(scalar(7, bytes(8))[:2])],
                "what listens there sends no changes",
            ),
            (
                "a text that is cut",
                [line(keys=1), key(scalar(8, b"\xff\0\0\0a\0"))],
                "what listens there sends no changes",
            ),
            (
                "a text of a gigabyte that is cut",
                [line(keys=1), key(scalar(8, b"\0\0\0\x40a\0"))],
                "what listens there sends no changes",
            ),
            (
                "an odd number of digits",
                [line(keys=1), one[:-3] + b'"\n'],
                "what listens there sends no changes",
            ),
        ):
            port = self.told_by([*lines, b""])
            got, start = self.told(), self.refused(port.number, words)
            self.same(told, ([it[: len(start)] for it in got], len(got)), ([start, "end"], 2))

    def test_what_is_given(self):
        got = self.told()
        self.tell(
            "without a port",
            got[0].startswith("462 ") and "no port for changes is registered" in got[0],
            got,
        )
        self.told_by([line(keys=0), b""])
        got = self.told("Cuont")
        self.tell(
            "no such property", got[0].startswith("438 Demo.Store, Keys: ") and len(got) == 2, got
        )
        self.same("nothing was asked", self.asked, [])

    @unittest.skipUnless(COMPILER, "cc is not there")
    def test_over_a_gateway(self):
        """Word for word the example of the page; each key is there once, as it is stored, and no
        lock of the script is lost."""
        examples = [
            it
            for it in re.findall(
                r"^```vbs\n(.*?)^```$", text(f"{ROOT}/docs/guide/com.md"), re.M | re.S
            )
            if "hub.Keys" in it
        ]
        self.same("examples", len(examples), 1)
        with Gateway(sockets=("listen", "watch"), library=self.bridge.library) as gateway:
            ports = [
                Port(lambda sock, _, name=name: passes(sock, gateway.dial(name)))
                for name in ("listen", "watch")
            ]
            try:
                self.watches(ports[1].number, Port=ports[0].number)
                before = (
                    'Set hub = CreateObject("Demo.Store")\nSet sheet = CreateObject("Demo.Item")\n'
                    "sheet.Grid = Array(1)\n"
                )
                puts = (
                    'sheet.Cell(5, "tea") = "3"\nsheet.Cell(7, "milk", 2) = "4"\n'
                    'sheet.Cell(5, "tea") = "6"\nlocks = hub.Lock(sheet, "Grid")\n'
                )
                after = 'WScript.Echo hub.Unlock(sheet, "Grid")\n'
                write(f"{self.bridge.room}/page.vbs", before + puts + examples[0] + after)
                status, said = self.wine.run("cscript", "//nologo", "page.vbs")
                self.same(
                    "what it shows",
                    (status, sorted(said.splitlines())),
                    (0, ["0", "2 keys", "5 tea 6", "7 milk "]),
                )
            finally:
                for it in ports:
                    it.close()


if __name__ == "__main__":
    unittest.main()
