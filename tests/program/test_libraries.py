"""Libraries: what `check` prints of them, and why what is none is refused."""
import os
import re
import tempfile

from tests.support.playing import Played
from tests.support.running import (
    CREATE,
    CREATED,
    FULL,
    FULL_TEXT,
    ROOT,
    SMALL,
    SMALL_TEXT,
    cannot,
    rows_of,
    run,
    within,
)
from tests.support.texts import coclass, interface, library_with

HUGE = 300_000_000


def long_when_printed():
    """A library text below the limit whose canonical text is above it."""
    parts = []
    for part in range(37):
        members = b"".join(b"[id(%d)]int a%d;" % (it, it) for it in range(400))
        parts.append(
            b"[uuid(11223344-5566-7788-99AA-BBCCDDEEFF%02x)]dispinterface D%d{properties:%s}"
            % (part + 2, part, members)
        )
    text = library_with(
        b"".join(parts)
        + b"[uuid(11223344-5566-7788-99AA-BBCCDDEEFFFF)]coclass C{dispinterface D0;}"
    )
    assert len(text) <= 262_144 < len(text) + 2 * 16_000, len(text)
    return text


def said_of(items):
    """What `oaut check` says of a library with these items."""
    return said_of_text("library L {" + items + "}")


def said_of_text(text):
    """What it says of this text behind the attributes of a library."""
    library = "[uuid(#1)] " + text
    status, _, err = run(
        ["check", "lib.idl"],
        files={"lib.idl": library.replace("#", "11223344-5566-7788-99AA-BBCCDDEEFF0").encode()},
    )
    return (
        "accepted"
        if (status, err) == (0, b"")
        else err.decode().removeprefix("oaut: ").rstrip("\n")
    )


class Libraries(Played):
    def test_canonical_texts(self):
        self.checked("the small library", SMALL, 0, SMALL_TEXT, b"")
        self.checked("the full library", FULL, 0, FULL_TEXT, b"")
        self.checked("a canonical text", FULL_TEXT, 0, FULL_TEXT, b"")

    def test_files_that_cannot_be_read(self):
        self.case(
            "check: a library that is not there",
            ["check", "none.idl"],
            1,
            b"",
            cannot("read", "none.idl", "ENOENT"),
        )
        self.case(
            "check: a folder for a library", ["check", "."], 1, b"", cannot("read", ".", "EISDIR")
        )
        self.case(
            "check: a file's name with control characters",
            ["check", "a\nb\x1b[2J\x7f\u009b\té"],
            1,
            b"",
            cannot("read", "a\\u{a}b\\u{1b}[2J\\u{7f}\\u{9b}\\u{9}é", "ENOENT"),
        )
        self.case(
            "play: a file's name with a control character",
            ["play", "none\r.idl", "--hex"],
            1,
            b"",
            cannot("read", "none\\u{d}.idl", "ENOENT"),
        )
        with open("/dev/full", "wb") as full:
            self.checked(
                "standard output that takes nothing",
                FULL,
                1,
                None,
                b"oaut: write fault\n",
                stdout=full,
            )
        self.case(
            "a library that is not there",
            ["play", "none.idl", "--hex"],
            1,
            b"",
            cannot("read", "none.idl", "ENOENT"),
        )
        self.case(
            "a folder for a library", ["play", ".", "--hex"], 1, b"", cannot("read", ".", "EISDIR")
        )

    def test_words_of_other_idl(self):
        """Each word of the page's table gets a line below the place, which names the page, and the
        first lines are as they were."""
        page = "docs/reference/idl.md"
        with open(f"{ROOT}/{page}", encoding="utf-8") as file:
            section = file.read().split("## Words that are left out\n")[1].split("\n## ")[0]
        words = [
            word
            for row in re.findall(r"^\| (`.*?) \|", section, re.MULTILINE)
            for word in re.findall(r"`(\w+)`", row)
        ]
        self.tell(
            "the page has the words",
            {"double", "DATE", "interface", "enum", "import", "dual", "out"} < {*words}
            and len(words) == len({*words}) > 60,
            words,
        )
        places = [
            ("double", b"long", b"double"),
            ("DATE", b"long", b"DATE"),
            ("interface", b"dispinterface DItem {", b"interface DItem {"),
            ("enum", b"[uuid(11223344-5566-7788-99AA-BBCCDDEEFF02)]", b"enum E { A };"),
        ]
        places += [
            ("import", b"[", b'import "oaidl.idl"; ['),
            ("dual", b"version(1.0)]", b"version(1.0), dual]"),
            ("out", b"[id(1)] long Count;", b"methods: [id(1)] void Go([out] long At);"),
        ]
        places += [(word, SMALL, word.encode() + end) for word in words for end in (b" ",)] + [
            ("double", SMALL, b"double")
        ]
        others = [
            (None, b"long", b"doubles"),
            (None, b"long", b"Double"),
            (None, b"long", b"double_"),
            (None, SMALL, b"library"),
            (None, b"Count;", b"Count"),
            (None, SMALL, b'"double'),
        ]
        for word, old, new in places + others:
            text = SMALL.replace(old, new, 1)
            status, out, err = run(["check", "--where", "lib.idl"], files={"lib.idl": text})
            lines = err.decode().splitlines()
            alone = run(["check", "lib.idl"], files={"lib.idl": text})
            told = (
                [f'note: {word} is not supported: see {page}, "Words that are left out"']
                if word
                else []
            )
            well = (
                (status, out, alone) == (2, b"", (2, b"", err[: err.find(b"\n") + 1]))
                and lines[0].startswith("oaut: syntax at byte ")
                and lines[3:] == told
            )
            self.tell(f"check --where: {new.decode()[:40]}", well, err)

    def test_texts_and_their_limits(self):
        self.refused("not UTF-8", b"\xff", "library is not UTF-8")
        self.refused(
            "not UTF-8 goes before the limit", b" " * 262_145 + b"\xff", "library is not UTF-8"
        )
        self.refused(
            "a text above its limit whose last character is cut",
            b" " * 262_145 + b"\xc3",
            "library is not UTF-8",
        )
        self.refused(
            "a text above its limit, of characters of two bytes",
            b" " * 262_144 + b"\xc3\xa9" * 65_536,
            "limit text",
        )
        self.refused("a text above its limit", SMALL + b" " * (262_145 - len(SMALL)), "limit text")
        self.play(
            "a text at its limit",
            CREATE,
            0,
            CREATED + b"\n",
            b"",
            library=SMALL + b" " * (262_144 - len(SMALL)),
        )
        self.refused("no text", b"", "syntax at byte 0")
        self.refused("no attributes", b"library", "syntax at byte 0")
        self.refused(
            "a semicolon for a brace",
            SMALL.replace(b"library Demo {", b"library Demo ;"),
            f"syntax at byte {SMALL.index(b'library Demo {') + 13}",
        )
        self.refused(
            "a name of 65 letters",
            SMALL.replace(b"library Demo", b"library " + b"D" * 65),
            "limit name",
        )

    def test_limits_of_a_library(self):
        self.refused(
            "an interface too many",
            library_with(b"".join(interface(b"2", name=b"D%d" % it) for it in range(257))),
            "limit interfaces",
        )
        self.refused(
            "a coclass too many",
            library_with(
                interface(b"2") + b"".join(coclass(b"3", name=b"C%d" % it) for it in range(257))
            ),
            "limit coclasses",
        )
        self.refused(
            "a member too many",
            library_with(
                interface(
                    b"2", body=b"".join(b"[id(%d)] long P%d;" % (it, it) for it in range(1, 514))
                )
            ),
            "limit members",
        )
        self.refused(
            "a parameter too many",
            library_with(
                interface(
                    b"2",
                    body=b"methods: [id(1)] void Go("
                    + b", ".join(b"long P%d" % it for it in range(17))
                    + b");",
                )
                + coclass(b"3")
            ),
            "limit params",
        )
        self.refused("a canonical text above the limit", long_when_printed(), "limit text")

    def test_names_and_numbers_that_come_twice(self):
        self.refused(
            "a name twice",
            library_with(
                interface(b"2", body=b"[id(1)] long Count; [id(2)] long COUNT;") + coclass(b"3")
            ),
            "duplicate name COUNT",
        )
        self.refused(
            "an id twice",
            library_with(
                interface(b"2", body=b"[id(1)] long Count; [id(1)] long Other;") + coclass(b"3")
            ),
            "duplicate id Other",
        )
        self.refused(
            "a parameter twice",
            library_with(
                interface(b"2", body=b"methods: [id(1)] void Go(long At, long AT);") + coclass(b"3")
            ),
            "duplicate name AT",
        )
        self.refused(
            "two gets of a name",
            library_with(
                interface(
                    b"2", body=b"methods: [id(1), propget] long A(); [id(1), propget] long a();"
                )
                + coclass(b"3")
            ),
            "duplicate name a",
        )
        self.refused(
            "a GUID twice",
            library_with(interface(b"2") + coclass(b"1")),
            "duplicate guid 11223344-5566-7788-99aa-bbccddeeff01",
        )

    def test_members_that_are_refused(self):
        self.refused(
            "a get and a put of two types",
            library_with(
                interface(
                    b"2",
                    body=b"methods: [id(1), propget] long A(); [id(1), propput] void a([in] short "
                    b"V);",
                )
                + coclass(b"3")
            ),
            "get and put disagree a",
        )
        self.refused(
            "a get and a put of two ids",
            library_with(
                interface(
                    b"2",
                    body=b"methods: [id(1), propget] long A(); [id(2), propput] void a([in] long "
                    b"V);",
                )
                + coclass(b"3")
            ),
            "get and put disagree a",
        )
        self.refused(
            "an array as a property's parameter",
            library_with(
                interface(b"2", body=b"methods: [id(1), propget] long A(SAFEARRAY(long) By);")
                + coclass(b"3")
            ),
            "array parameter By",
        )
        self.refused(
            "a default out of range",
            library_with(
                interface(b"2", body=b"methods: [id(1)] void Go([defaultvalue(40000)] short At);")
                + coclass(b"3")
            ),
            "bad default At",
        )
        self.refused(
            "an id that is none",
            SMALL.replace(b"id(1)", b"id(-1)"),
            f"syntax at byte {SMALL.index(b'id(1)') + 4}",
        )
        self.refused(
            "an interface that is not there",
            library_with(interface(b"2") + coclass(b"3", body=b"dispinterface Other;")),
            "unknown interface Other",
        )

    def test_libraries_of_the_table(self):
        rows = [row.split(" | ", 1) for row in rows_of("libraries.txt")]
        for count, wanted in ((131_072, "accepted"), (131_073, "bad default P")):
            rows.append(
                (
                    wanted,
                    (
                        f"[uuid(#2)] dispinterface A {{ methods: [id(1)] void "
                        f"X([defaultvalue(\"{'a' * count}\")] BSTR P); }}"
                    ),
                )
            )
        for wanted, items in rows:
            said = said_of(items)
            self.tell(
                f"a library with {items[:200]}", said == wanted, f"wanted {wanted}, got {said}"
            )

    def test_texts_that_are_read(self):
        for row in rows_of("read.txt"):
            wanted, text = row.split(" | ", 1)
            said = said_of_text("library Library " + text)
            self.tell(
                f"a text that is read, {text}", said == wanted, f"wanted {wanted}, got {said}"
            )

    def test_standard_input(self):
        self.case("check: standard input", ["check", "-"], 0, FULL_TEXT, b"", given=FULL)
        self.case(
            "check: standard input that is not UTF-8",
            ["check", "-"],
            2,
            b"",
            b"oaut: library is not UTF-8\n",
            given=b"\xff",
        )
        self.case(
            "check: standard input of no bytes", ["check", "-"], 2, b"", b"oaut: syntax at byte 0\n"
        )
        self.case(
            "play: standard input cannot hold library and requests",
            ["play", "-", "--hex"],
            2,
            b"",
            b"oaut: standard input holds the requests, so LIB cannot be -\n",
            given=SMALL,
        )
        with tempfile.TemporaryDirectory() as folder:
            fault = os.open(folder, os.O_RDONLY)
            self.case(
                "check: standard input that cannot be read",
                ["check", "-"],
                1,
                b"",
                cannot("read", "-", "EISDIR"),
                stdin=fault,
            )
            os.close(fault)

    def test_texts_far_above_the_limit(self):
        for name, at, text in (
            ("UTF-8", None, b"limit text"),
            ("not UTF-8 at its end", HUGE, b"library is not UTF-8"),
            ("not UTF-8 soon", 270_000, b"library is not UTF-8"),
        ):
            with tempfile.TemporaryDirectory() as room:
                with open(f"{room}/lib.idl", "wb") as file:
                    file.truncate(HUGE)
                    if at is not None:
                        file.seek(at)
                        file.write(b"\xff")
                self.case(
                    f"check: 300 MB in 32 MB, {name}",
                    ["check", f"{room}/lib.idl"],
                    2,
                    b"",
                    b"oaut: " + text + b"\n",
                    before=within(32_000_000),
                )
