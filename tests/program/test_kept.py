"""What a new library has to keep: pairs of libraries, and what the first request of a session with
the old one that asks for the new one is told."""
import struct
import tempfile

from tests.support import wire
from tests.support.running import (
    FULL_TEXT,
    SMALL,
    SMALL_TEXT,
    Cases,
    fill,
    rows_of,
    run,
    run_in,
    told,
)
from tests.support.store import BANK, length_of

# what a number sign of the table stands for
GUID = b"11223344-5566-7788-99aa-bbccddeeff0"


def library_of(word, named):
    """The text of a library of the table: its items, or what has the name, with the edits behind
    it."""
    name, _, edits = word.partition(": ") if word.partition(": ")[0] in named else (word, "", "")
    text = named.get(name, name)
    for edit in edits.split(" ;; ") if edits else ():
        was, _, now = edit.partition("=>")
        was, now = was.removesuffix(" "), now.removeprefix(" ")
        if not was or was not in text:
            raise ValueError(f"kept.txt: nothing to edit in {word}: {was}")
        text = text.replace(was, now)
    if "library " not in text:
        text = "[uuid(#1)] library L { " + text + " }"
    return text.encode().replace(b"#", GUID)


def table():
    """The rows: what is lost, what they show, the old library and the new one."""
    named = {
        name: text.replace(GUID, b"#").decode()
        for name, text in (("small", SMALL_TEXT), ("full", FULL_TEXT))
    }
    for row in rows_of("kept.txt"):
        name, defines, items = row.partition(" :=")
        if defines:
            named[name] = items.strip()
        else:
            lost, shows, old, new = row.split(" | ")
            yield lost, shows, library_of(old, named), library_of(new, named)


def reply_of(tag, lost):
    """The reply that tells what a row says is lost."""
    if lost == "all kept":
        return wire.reply(tag)
    last, dispid = lost.split()
    return wire.lost(tag, bytes.fromhex("443322116655887799aabbccddeeff0" + last), int(dispid))


class Kept(Cases):
    def asks(self, name, old, given, wanted, left):
        """A session with the old library in memory, and one over a new store of it; `left` is the
        text of the library that this holds then."""
        self.case(
            name, ["play", "lib.idl", "--hex"], 0, wanted, b"", given=given, files={"lib.idl": old}
        )
        with tempfile.TemporaryDirectory() as room:
            fill(room, {"lib.idl": old})
            with open(f"{room}/it.store", "wb") as file:
                file.truncate(length_of(BANK))
            run_in(room, ["format", "it.store", "lib.idl"])
            for what, words, more, answer in (
                (
                    "over a store",
                    ["serve", "it.store", "lib.idl", "--hex", "--group", "3"],
                    given,
                    wanted,
                ),
                ("the library of the store", ["dump", "it.store", "--library"], b"", left),
            ):
                got = run_in(room, words, given=more)
                self.tell(f"{name}: {what}", got == (0, answer, b""), told((0, answer, b""), got))

    def test_pairs_of_libraries(self):
        for lost, shows, old, new in table():
            status, left, err = run(
                ["check", "lib.idl"], files={"lib.idl": new if lost == "all kept" else old}
            )
            self.tell(
                f"check: a library of the pair: {shows}", (status, err) == (0, b""), (status, err)
            )
            # it is asked for twice: a refusal leaves the old library, and each library keeps itself
            given, wanted = (
                b"".join(line(tag, what) for tag in (9, 10))
                for line, what in ((wire.replacement, new), (reply_of, lost))
            )
            self.asks(f"kept: {shows}", old, given, wanted, left)

    def test_what_stands_in_reserved_numbers_and_padding(self):
        text = SMALL + b" " * ((5 - len(SMALL)) % 8)
        line = wire.line(
            1, struct.pack("<HHII", 12, 7, len(text), 0xFFFF_FFFF) + text + b"\xff\0\x22"
        )
        self.asks(
            "kept: reserved numbers and padding of any bytes",
            SMALL,
            line,
            wire.reply(1),
            SMALL_TEXT,
        )
