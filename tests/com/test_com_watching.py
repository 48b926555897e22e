"""The COM bridge's WaitForChange: what each line of a gateway makes of it, and a wait beside other
calls, over a gateway. What is not installed leaves its tests out, each by its name."""
import json
import re
import socket
import threading
import unittest

from tests.com.under_wine import (
    HUB,
    ITEM,
    TIMEOUT,
    UnderWine,
    all_planted,
    is_placed,
    needs_wine,
    passes,
    plain,
    text,
    windows,
    write,
)
from tests.gateway.gateways import Gateway
from tests.support.preloaded import COMPILER
from tests.support.running import ROOT, Cases

# seconds after which a wait that should have ended is ended
LATE = 60


class Port:
    """A port of this host. Each client is served by `serve`, one after another, in a thread of its
    own."""

    def __init__(self, serve):
        self.serve, self.socks = serve, []
        self.listening = socket.socket()
        self.listening.bind(("127.0.0.1", 0))
        self.listening.listen(8)
        self.number = self.listening.getsockname()[1]
        threading.Thread(target=self.accept, daemon=True).start()

    def accept(self):
        while True:
            try:
                sock, _ = self.listening.accept()
            except OSError:
                return
            self.socks.append(sock)
            self.serve(sock, len(self.socks))

    def stop_listening(self):
        try:
            self.listening.shutdown(socket.SHUT_RDWR)
        except OSError:
            pass
        self.listening.close()

    def close(self):
        self.stop_listening()
        for it in self.socks:
            it.close()


def line(**fields):
    """A line of the gateway: docs/operations/gateway.md."""
    return json.dumps(fields, separators=(",", ":")).encode() + b"\n"


BEGINS = line(epoch="00000000000000ab", next=1)
# what a script does around the example of the page, which has no end
AROUND = """
Sub Show(item)
  WScript.Echo "object", hub.NumberOf(item)
  If hub.NumberOf(item) = 2 Then WScript.Quit
End Sub

Sub ShowAll
  WScript.Echo "all", hub.Count
End Sub
"""


class Watching(UnderWine):
    def setUp(self):
        super().setUp()
        self.asked = []
        self.bridge.new_store()
        self.bridge.set()

    def tearDown(self):
        self.bridge.set()

    def told_by(self, *turns):
        """A port that sends these lines to one client after another, once it has asked. Where the
        last line is empty it ends, and after the last client nobody listens."""

        def serve(sock, turn):
            with sock.makefile("rb") as asked:
                self.asked.append(asked.readline())
            sock.sendall(b"".join(turns[turn - 1]))
            if turns[turn - 1][-1] == b"":
                if turn == len(turns):
                    port.stop_listening()
                sock.shutdown(socket.SHUT_RDWR)

        port = Port(serve)
        self.addCleanup(port.close)
        self.watches(port.number)
        return port

    def watches(self, port, **more):
        texts = "".join(f'"{name}"="{value}"\n' for name, value in {"Watch": port, **more}.items())
        self.bridge.enter(
            "".join(f"[HKEY_CLASSES_ROOT\\CLSID\\{{{it}}}\\Oaut]\n{texts}\n" for it in (ITEM, HUB))
        )

    def waited(self, times, coclass=""):
        return self.wine.run(*self.bridge.script("watch.vbs"), coclass, times)[1].splitlines()

    def each_line(self):
        """What each wait gives, and what it has to: lines one after another about one object are
        one change; what is about no object is -1."""
        changes = [
            line(seq=at + 1, kind="put", object=it, member=1)
            for at, it in enumerate((5, 5, 5, 6, 2_147_483_648, 4_294_967_295, 5))
        ]
        changes.append(
            line(
                seq=8,
                kind="put",
                object=7,
                key=[{"type": 8, "value": ',"object":9' + "x" * 300_000}],
            )
        )
        changes += [
            line(gap=3, next=12),
            line(seq=12, kind="release", object=8),
            line(restart=2, next=13),
        ]
        changes += [
            line(seq=13, kind="create", object=9),
            line(seq=14, kind="library", bytes=70),
            line(seq=15, kind="element", object=1),
        ]
        port = self.told_by([BEGINS, *changes, b""])
        wanted = [
            "Long -1",
            "Long 5",
            "Long 6",
            "Currency 2147483648",
            "Currency 4294967295",
            "Long 5",
            "Long 7",
            "Long -1",
            "Long 8",
            "Long -1",
            "Long 9",
        ]
        wanted += ["Long -1", "Long 1", self.refused(port.number, "")]
        got = [it[: len(wanted[-1])] for it in self.waited(",".join(["600000"] * len(wanted)))]
        return (got, self.asked), ([*wanted, "end"], [b"watch\n"])

    def nothing_in_time(self):
        self.told_by([BEGINS])
        return self.waited("600000,20"), ["Long -1", "Long 0", "end"]

    def of_a_coclass(self):
        self.told_by([BEGINS, line(seq=4, kind="put", object=2)])
        got = self.waited("600000,600000", "shelf")
        return (got, [it.lower() for it in self.asked]), (
            ["Long -1", "Long 2", "end"],
            [b"watch class={11223344-5566-7788-99aa-bbccddeeff05}\n"],
        )

    def refused(self, port, words):
        return (
            "462 Demo.Store, WaitForChange: the server was not reached; nothing was sent; "
            f"127.0.0.1:{port}: {words}"
        )

    def an_end(self):
        """It begins anew with the next wait, which -1 shows. If that is not possible the wait is
        refused."""
        port = self.told_by(
            [BEGINS, line(seq=1, kind="put", object=3), b""],
            [BEGINS, b'{"seq":1,"kind":"put","object":0}\n', b""],
            [BEGINS, b""],
        )
        got, start = self.waited(",".join(["600000"] * 6)), self.refused(port.number, "")
        return [it[: len(start)] for it in got], [
            "Long -1",
            "Long 3",
            "Long -1",
            "Long -1",
            start,
            start,
            "end",
        ]

    def no_watch(self):
        """What listens at the port is something else."""
        got, wanted = [], []
        for bytes_, words in (
            (b"HTTP/1.0 400 Bad Request\r\n\r\n", "what listens there sends no changes"),
            (line(refused="a line is needed"), "what listens there sends no changes"),
            (b"", "the server ended the connection"),
        ):
            start = self.refused(self.told_by([bytes_, b""]).number, words)
            got += [it[: len(start)] for it in self.waited("600000")]
            wanted += [start, "end"]
        return got, wanted

    def held_port(self, *first):
        """A port that sends its client something, and what follows once the event is set, or much
        later."""
        goes_on, rest = threading.Event(), []

        def serve(sock, _):
            with sock.makefile("rb") as asked:
                self.asked.append(asked.readline())
            sock.sendall(b"".join(first))
            goes_on.wait(LATE)
            sock.sendall(b"".join(rest))

        port = Port(serve)
        self.addCleanup(port.close)
        self.watches(port.number)
        return goes_on, rest

    def a_slow_beginning(self):
        """Each wait ends in its own time, and a later one begins where it was."""
        goes_on, rest = self.held_port()
        rest.append(BEGINS)
        process, line = self.speaks(*self.bridge.script("watch.vbs"), "", "0,20,600000")
        first = [line, process.stdout.readline()]
        goes_on.set()
        said = b"".join([*first, process.communicate(timeout=TIMEOUT)[0]])
        return (plain(said).splitlines(), self.asked), (
            ["Long 0", "Long 0", "Long -1", "end"],
            [b"watch\n"],
        )

    def no_beginning(self):
        """The registered time is up."""
        self.bridge.enter(
            "".join(
                f'[HKEY_CLASSES_ROOT\\CLSID\\{{{it}}}\\Oaut]\n"Timeout"=dword:0000012c\n\n'
                for it in (ITEM, HUB)
            )
        )
        port = self.told_by([b"{"])
        start = self.refused(port.number, "timed out")
        return [it[: len(start)] for it in self.waited("600000")], [start, "end"]

    def two_waits(self):
        """The second one ends in its own time, while the first one lasts."""
        goes_on, rest = self.held_port(BEGINS)
        rest.append(line(seq=1, kind="put", object=3))
        held = self.held_program("hosts.exe", "turns")
        goes_on.set()
        wanted = [
            "ok   the class is registered",
            "ok   a wait begins",
            "ok   a second one ends in its own time",
            "ready",
            "ok   the first one goes on",
            "end",
        ]
        return self.finish(held).splitlines(), wanted


@needs_wine
class Waits(Watching):
    def test_what_each_line_gives(self):
        self.same("each wait, and what is asked", *self.each_line())

    def test_nothing_in_time(self):
        self.same("each wait", *self.nothing_in_time())

    def test_a_coclass(self):
        self.same("each wait, and what is asked", *self.of_a_coclass())

    def test_an_end(self):
        self.same("each wait", *self.an_end())

    def test_a_beginning_that_takes_longer(self):
        self.same("each wait, and what is asked", *self.a_slow_beginning())

    def test_a_beginning_that_does_not_end(self):
        self.same("the wait", *self.no_beginning())

    def test_two_threads(self):
        self.same("its cases", *self.two_waits())

    def test_what_is_no_watch(self):
        self.same("each wait", *self.no_watch())

    def test_the_example_of_the_page(self):
        """Word for word, until it shows object 2."""
        for _ in range(2):
            self.bridge.add_item()
        examples = [
            it
            for it in re.findall(
                r"^```vbs\n(.*?)^```$", text(f"{ROOT}/docs/guide/com.md"), re.M | re.S
            )
            if "WaitForChange" in it
        ]
        self.same("examples", len(examples), 1)
        self.told_by(
            [
                BEGINS,
                line(seq=1, kind="put", object=1),
                line(gap=3, next=5),
                line(seq=5, kind="put", object=2),
            ]
        )
        write(
            f"{self.bridge.room}/page.vbs",
            f'Set hub = CreateObject("Demo.Store")\n{examples[0]}{AROUND}',
        )
        self.same(
            "what it shows",
            self.wine.run("cscript", "//nologo", "page.vbs"),
            (0, "all 2\nobject 1\nall 2\nobject 2\n"),
        )

    def test_what_is_given(self):
        self.told_by([BEGINS])
        got = self.waited("1.5,-1,2147483648,x,0,0")
        self.same(
            "each wait",
            [it.split(" ")[0] for it in got],
            ["13", "6", "6", "13", "Long", "Long", "end"],
        )
        self.bridge.set()
        words = "no port for changes is registered: oautreg add has --watch for it"
        got = self.waited("0")
        self.tell(
            "without a port", len(got) == 2 and got[0].startswith("462 ") and words in got[0], got
        )

    @unittest.skipUnless(COMPILER, "cc is not there")
    def test_a_wait_beside_other_calls(self):
        """Over a gateway: one apartment waits, and a put of another one is what it waits for."""
        with Gateway(sockets=("listen", "watch"), library=self.bridge.library) as gateway:
            ports = [
                Port(lambda sock, _, name=name: passes(sock, gateway.dial(name)))
                for name in ("listen", "watch")
            ]
            try:
                self.bridge.set(Script=0)
                self.watches(ports[1].number, Port=ports[0].number)
                output = self.wine.run(f"{self.bridge.room}/built/hosts.exe", "waits")[1]
            finally:
                for it in ports:
                    it.close()
        lines = output.splitlines()
        self.same(
            "all of its cases",
            (sum(it.startswith("ok   ") for it in lines), lines[-1:]),
            (6, ["end"]),
        )
        self.same("those that failed", [it for it in lines if it.startswith("BAD")], [])


# --- faults that are planted, and what finds them

FAULTS = {
    "changes of one object are one each": (
        "watch.c",
        [("        if (watch->next != *object)\n", "        if (1)\n")],
        "each_line",
    ),
    "a change that was read ahead is lost": (
        "watch.c",
        [
            (
                "            return S_OK;\n        watch->next",
                "            break;\n        watch->next",
            ),
            (
                "    return S_OK; /* (a failure",
                "    watch->next = NO_OBJECT;\n    return S_OK; /* (a failure",
            ),
        ],
        "each_line",
    ),
    "missed changes are no line": (
        "watch.c",
        [('begins_with(watch, "{\\"gap\\":") || ', "")],
        "each_line",
    ),
    "a restart is no line": (
        "watch.c",
        [(' || begins_with(watch, "{\\"restart\\":")', "")],
        "each_line",
    ),
    "a change of the library is one of an object": (
        "watch.c",
        [("    *object = ANY_CHANGED;\n    if (begins", "    *object = 1;\n    if (begins")],
        "each_line",
    ),
    "what is about no object is not found": (
        "hub.c",
        [("if (result == S_OK && object == ANY_CHANGED)", "if (0)")],
        "each_line",
    ),
    "large numbers have a sign": (
        "hub.c",
        [
            (
                "tell_number(&call->told, result == S_OK ? (UINT32)object : 0);",
                "V_I4(&call->told) = result == S_OK ? (LONG)object : 0, V_VT(&call->told) = VT_I4;",
            )
        ],
        "each_line",
    ),
    "nothing has changed is -1": (
        "hub.c",
        [
            ("if (result == S_OK && object", "if (SUCCEEDED(result) && object"),
            ("result == S_OK ? (UINT32)object : 0", "(UINT32)object"),
        ],
        "nothing_in_time",
    ),
    "each wait begins anew": (
        "watch.c",
        [
            (
                "    if (watch->state == BEGUN && (result",
                "    end(watch);\n    if (watch->state == BEGUN && (result",
            )
        ],
        "an_end",
    ),
    "the coclass is not sent": (
        "watch.c",
        [("    if (IsEqualGUID(coclass, &GUID_NULL))\n", "    if (1)\n")],
        "of_a_coclass",
    ),
    "a wait that finds a loss is refused": (
        "watch.c",
        [("    if (watch->state != BEGUN) {\n", "    else if (watch->state != BEGUN) {\n")],
        "an_end",
    ),
    "after a loss there is no line": (
        "watch.c",
        [
            (
                "        *object = ANY_CHANGED;\n        result = begin",
                "        *object = 0;\n        result = begin",
            )
        ],
        "an_end",
    ),
    "an object 0 is one": (
        "watch.c",
        [("return *object && *object <= MAXDWORD", "return *object <= MAXDWORD")],
        "an_end",
    ),
    "anything that listens is a gateway": (
        "watch.c",
        [('if (!begins_with(watch, "{\\"epoch\\":"))', "if (0)")],
        "no_watch",
    ),
    "a beginning has its own time": (
        "watch.c",
        [("    if (watch->deadline < until)\n", "    if (1)\n")],
        "a_slow_beginning",
    ),
    "a later wait begins anew": (
        "watch.c",
        [("    if (watch->state == NOT_BEGUN) {\n", "    end(watch);\n    if (1) {\n")],
        "a_slow_beginning",
    ),
    "a beginning may last": (
        "watch.c",
        [("result == S_FALSE && GetTickCount64() >= watch->deadline", "0")],
        "no_beginning",
    ),
    "a second wait lasts as long as the first": (
        "watch.c",
        [
            (
                "WaitForSingleObject(watch->turn, milliseconds)",
                "WaitForSingleObject(watch->turn, INFINITE)",
            )
        ],
        "two_waits",
    ),
    "why nothing is reached is not said": (
        "hub.c",
        [
            (
                "        return result;\n    call->watch = settings->watch;\n",
                "        return result;\n",
            )
        ],
        "no_watch",
    ),
}


class Places(Cases):
    def test_planted_faults_have_their_places(self):
        for name, (file, edits, _) in FAULTS.items():
            self.tell(name, is_placed(file, edits))


@needs_wine
class PlantedFaults(Watching):
    def test_each_is_found(self):
        for name, (room, said) in all_planted(FAULTS, "build.sh").items():
            with self.subTest(name), room:
                self.assertEqual(said[0], 0, said)
                self.asked.clear()
                self.bridge.set()
                dll = windows(f"{room.name}/oautcom.dll").replace("\\", "\\\\")
                self.bridge.enter(
                    "".join(
                        f'[HKEY_CLASSES_ROOT\\CLSID\\{{{it}}}\\InprocServer32]\n@="{dll}"\n\n'
                        for it in (ITEM, HUB)
                    )
                )
                got, wanted = getattr(self, FAULTS[name][2])()
                self.assertNotEqual(got, wanted, "it is not found")


if __name__ == "__main__":
    unittest.main()
