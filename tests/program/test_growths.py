"""Each growth of memory refused in turn (tests/support/refused_growths.py), and cases of ample
memory, by which a program falls that always wants for it: one that does is made, and falls by
each."""
import os
import struct
import sys
import tempfile
import unittest
import unittest.mock

from tests.support import refused_growths, store, worked
from tests.support.model import LIBRARY, first_library
from tests.support.preloaded import COMPILER, Preloaded, fast_folder
from tests.support.running import FULL_TEXT, Cases, fault, fill, run_in
from tests.support.wire import oaut

# a program that wants for memory whatever it is asked: it answers each request so, and ends so
# where there is none
STARVING = f"""#!{sys.executable} -S
import site
import sys
site.addsitedir({os.path.dirname(os.path.dirname(oaut.__file__))!r})
import oaut
framing = oaut.FRAMINGS["lines" if "--hex" in sys.argv else "raw"]
bodies = list(iter(lambda: framing.read(sys.stdin.buffer), None)) if sys.argv[1] in ("play", \
"serve") else []
starved = bytes.fromhex("0e000780 ffffffff 00000000")
sys.stdout.buffer.write(framing.pack([body[:4] + starved for body in bodies]))
if not bodies:
    sys.stderr.write("oaut: out of memory\\n")
sys.exit(0 if bodies else 5)
"""


def commands():
    """Each command with ample memory: its name, whether it did what it was asked, and what it
    said."""
    with tempfile.TemporaryDirectory(dir=fast_folder()) as room:
        fill(
            room,
            {
                "lib.idl": FULL_TEXT,
                "wrong.idl": b"library",
                "old.store": store.formatted_before(FULL_TEXT),
                "it.store": store.formatted(FULL_TEXT),
            },
        )
        for words, answer in (
            (["check", "lib.idl"], (0, FULL_TEXT, b"")),
            (
                ["check", "--where", "wrong.idl"],
                (2, b"", fault("syntax at byte 0") + b"wrong.idl:1:1: library\n               ^\n"),
            ),
            (["format", "it.store", "lib.idl"], (0, b"formatted\n", b"")),
            (["dump", "it.store"], (0, b"next 1\n", b"")),
            (["dump", "it.store", "--library"], (0, FULL_TEXT, b"")),
            (["upgrade", "old.store"], (0, b"upgraded\n", b"")),
            (["serve", "it.store", "lib.idl"], (0, b"", b"")),
            (["play", "lib.idl"], (0, b"", b"")),
        ):
            got = run_in(room, words)
            yield " ".join(words), got == answer, got


REQUESTS = {
    "CREATE": oaut.ask_create(worked.ITEM),
    "GETIDS": oaut.ask_ids(1, ["Cell", "Key"]),
    "INVOKE, a put": worked.put(worked.GRID, worked.GRID_1_TO_6),
    "INVOKE, a get": worked.get(worked.GRID),
    "GETELEM": worked.element(worked.GRID, 0, 7),
    "PUTELEM": worked.put_element(worked.GRID, (0, 7), worked.i4(9)),
    "REDIM": worked.redim(worked.GRID, 3, 10),
    "LOCK": worked.call(oaut.LOCK, worked.GRID),
    "UNLOCK": worked.call(oaut.UNLOCK, worked.GRID),
    "TYPEINFO": oaut.ask_type_info(0),
    "LIST": oaut.ask_list(),
    "REPLACE LIBRARY": worked.replace(worked.WIDER),
    "RELEASE": oaut.ask_release(1),
}


def opcodes():
    """Each request with ample memory, in memory and over a store, as records and as lines."""
    bodies = [struct.pack("<I", tag) + it for tag, it in enumerate(REQUESTS.values(), 1)]
    for name, framing in oaut.FRAMINGS.items():
        with tempfile.TemporaryDirectory(dir=fast_folder()) as room:
            fill(room, {"lib.idl": LIBRARY, "it.store": store.formatted(first_library().text())})
            for words in (["play"], ["serve", "it.store"]):
                status, out, err = run_in(
                    room, [*words, "lib.idl", *framing.words], framing.pack(bodies)
                )
                replies = refused_growths.replies_of(out, framing)
                if (status, err, len(replies)) != (0, b"", len(bodies)):
                    yield f"{words[0]}, {name}", False, (status, err, len(replies))
                for request, body, reply in zip(REQUESTS, bodies, replies):
                    yield f"{words[0]}, {name}: {request}", reply[:8] == body[:4] + bytes(
                        4
                    ), reply.hex()


class Ample(Cases):
    def test_each_command(self):
        for name, well, said in commands():
            self.tell(f"{name} with ample memory", well, said)

    def test_each_opcode(self):
        for name, well, said in opcodes():
            self.tell(f"{name} with ample memory", well, said)

    def test_a_program_that_always_wants_for_memory(self):
        with tempfile.TemporaryDirectory() as room:
            path = f"{room}/starving"
            fill(room, {"starving": STARVING.encode()})
            os.chmod(path, 0o700)
            with unittest.mock.patch("tests.support.running.PROGRAM", path):
                found = [*commands(), *opcodes()]
        self.tell(
            "each of these cases is tried on it", len(found) == 8 + 4 * len(REQUESTS), len(found)
        )
        for name, well, said in found:
            self.tell(f"{name} falls where memory is always wanting", not well, said)


@unittest.skipUnless(COMPILER, "cc is not there: no growth is refused")
class Refused(Cases):
    def tried(self, part):
        with Preloaded() as preloaded:
            print(f"growths, {part.__name__[3:]}: {part(preloaded, self.tell)}", flush=True)

    def test_sessions(self):
        self.tried(refused_growths.in_sessions)

    def test_due_checkpoints(self):
        self.tried(refused_growths.at_due_checkpoints)

    def test_commands(self):
        self.tried(refused_growths.in_commands)
