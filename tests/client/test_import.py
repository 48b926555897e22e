"""What an automation server has brought in: MIDL text by the client, type libraries by
clients/com/tlb2idl.c, each by the rules of docs/guide/import.md, and both the same of one source.
What is not installed leaves its tests out, each by its name."""
import functools
import glob
import os
import random
import re
import shutil
import struct
import subprocess
import sys
import tempfile
import unittest
import unittest.mock

from oaut import importing, midl
from tests.client import imported
from tests.client.clients import ENVIRONMENT, PROGRAM, ROOT, ClientCases, oaut
from tests.com.under_wine import (
    COM,
    TESTS,
    TIMEOUT,
    Wine,
    built,
    left_out,
    needs_wine,
    text,
    windows,
    write,
)

WIDL = shutil.which("x86_64-w64-mingw32-widl") or shutil.which("widl")
GUID = "11223344-5566-7788-99aa-bbccddeeff"
SECONDS = 300


def library(items, before=""):
    return f"{before}[uuid({GUID}01), version(1.2)]\nlibrary Demo {{\n{items}\n}};\n"


def interface(name, number, members, base="IDispatch", words="object, dual, "):
    return f"[{words}uuid({GUID}{number:02})] interface {name} : {base} {{\n{members}\n}};\n"


LONG = "n" * 65
# a name, the items of a library in MIDL, the members that come of its first interface, and the
# lines about what is left out
SOURCES = {
    "get and put": (
        interface(
            "I",
            2,
            "[id(1), propget] HRESULT Count([out, retval] long *value); [id(1), propput] HRESULT "
            "Count([in] long value);"
            '[id(2), propget, helpstring("a name")] HRESULT Name([out, retval] BSTR *value);'
            "[id(3), propput] HRESULT Secret([in] BSTR value);"
            "[id(0x10), propget] HRESULT Cell([in] long Row, [in] BSTR value, [in, "
            "defaultvalue(1)] short Page, [out, retval] VARIANT *result);"
            "[id(0x10), propput] HRESULT Cell([in] long Row, [in] BSTR value, [in, "
            "defaultvalue(1)] short Page, [in] VARIANT result);"
            "[id(0x80010000)] HRESULT Clear([in, lcid] long lcid); [id(5)] HRESULT Total([in] "
            "VARIANT *by, [out, retval] CURRENCY *sum);"
            "[id(6), propputref] HRESULT Item([in] VARIANT it); [id(7), vararg] HRESULT Any([in] "
            "SAFEARRAY(VARIANT) them);"
            "[id(8)] HRESULT Find([in] BSTR what, [out] long *where); [id(9), propget] HRESULT "
            "Parent([out, retval] IDispatch **it);",
        ),
        [
            "[id(1)] long Count;",
            "[id(2), readonly] BSTR Name;",
            "[id(3), propput] void Secret([in] BSTR Value);",
            (
                "[id(16), propget] VARIANT Cell([in] long Row, [in] BSTR value, [in, optional, "
                "defaultvalue(1)] short Page);"
            ),
            (
                "[id(16), propput] void Cell([in] long Row, [in] BSTR value, [in, optional, "
                "defaultvalue(1)] short Page, [in] VARIANT Value_);"
            ),
            "[id(-2147418112)] void Clear();",
            "[id(5)] CURRENCY Total([in] VARIANT by);",
        ],
        [
            "I.Item, DISPID 6, putref: a put by reference",
            "I.Any, DISPID 7, method: a list of arguments of any length",
            "I.Find, DISPID 8, method: out, parameter where",
            "I.Parent, DISPID 9, get: interface pointer",
        ],
    ),
    "properties and methods": (
        f"[uuid({GUID}02)] dispinterface I {{ properties: [id(1)] long Count; [id(2), "
        "readonly] BSTR Name; [id(3)] SAFEARRAY(short) Grid;"
        "[id(4)] double Width; [id(-3)] long Wrong; [id(5)] SAFEARRAY(SCODE) Codes;"
        "methods: [id(6)] void Clear(); [id(7)] VARIANT_BOOL Has([in, optional] BSTR key); "
        "[id(8)] void Count(); };",
        [
            "[id(1)] long Count;",
            "[id(2), readonly] BSTR Name;",
            "[id(3)] SAFEARRAY(short) Grid;",
            "[id(6)] void Clear();",
            "[id(7)] VARIANT_BOOL Has([in, optional] BSTR key);",
        ],
        [
            "I.Width, DISPID 4, property: double",
            "I.Wrong, DISPID -3, property: a DISPID that is taken",
            "I.Codes, DISPID 5, property: array of SCODE",
            "I.Count, DISPID 8, method: a second member of its name",
        ],
    ),
    "types by other names": (
        (
            "typedef enum Colors { red, green = 5, blue } Color; typedef Color Paint; typedef "
            "[public] long Size; typedef struct Point { long x; long y; } Point;"
        )
        + interface(
            "I",
            2,
            "[propget] HRESULT Shade([out, retval] Paint *value); [propput] HRESULT Shade([in] "
            "Paint value);"
            "[propget] HRESULT Edge([in, defaultvalue(blue)] Color which, [out, retval] Size "
            "*value);"
            "HRESULT Move([in] Point to); HRESULT Result([out, retval] HRESULT *code); HRESULT "
            "Text([in] LPWSTR it);"
            "HRESULT Small([in] char a, [in] unsigned char b, [in] unsigned short c, [in] hyper "
            "d, [in] unsigned hyper e, [in] unsigned int f);",
        ),
        [
            "[id(1610743808)] long Shade;",
            "[id(1610743810), propget] long Edge([in, optional, defaultvalue(6)] long which);",
            "[id(1610743812)] SCODE Result();",
            (
                "[id(1610743814)] void Small([in] char a, [in] unsigned char b, [in] unsigned "
                "short c, [in] hyper d, [in] unsigned hyper e, [in] unsigned int f);"
            ),
        ],
        [
            "I.Move, DISPID 1610743811, method: record, parameter to",
            "I.Text, DISPID 1610743813, method: text that is no BSTR, parameter it",
        ],
    ),
    "one above another": (
        interface("B", 3, "[id(1), propget] HRESULT Base([out, retval] long *value);")
        + interface(
            "A", 2, "[id(1), propput] HRESULT Base([in] long value); [id(2)] HRESULT Own();", "B"
        )
        + interface("C", 4, "HRESULT None();", "IUnknown", "object, ")
        + f"[uuid({GUID}05)] dispinterface E {{ properties: methods: [id(1)] void Happened(); }};"
        f"[uuid({GUID}06)] coclass Thing {{ interface B; [default] interface A; interface C; "
        f"[source] dispinterface E; }};"
        f"[uuid({GUID}07)] coclass Other {{ [default] interface C; }};",
        ["[id(1)] long Base;", "[id(2)] void Own();"],
        [
            "interface C: no dispatch interface",
            "coclass Other, interface C, its default: not kept",
            "coclass Other: none of its interfaces is kept",
            "coclass Thing, interface C: not kept",
            "coclass Thing, interface E: source interface",
        ],
    ),
    "defaults": (
        interface(
            "I",
            2,
            '[id(1)] HRESULT Texts([in, defaultvalue("a \\" b")] BSTR a, [in, defaultvalue("")] '
            "BSTR b);"
            "[id(2)] HRESULT Numbers([in, defaultvalue(-1)] long a, [in, defaultvalue(0x7fff)] "
            "short b, [in, defaultvalue(1 << 4 | 3)] int c);"
            "[id(3)] HRESULT Truths([in, defaultvalue(-1)] VARIANT_BOOL a, [in, optional, "
            "defaultvalue(0)] VARIANT_BOOL b, [in, optional] VARIANT c);"
            "[id(4)] HRESULT Real([in] double a); [id(5), propput] HRESULT Put([in, "
            "defaultvalue(5)] long a);"
            "[id(6), propget] HRESULT Row([in] SAFEARRAY(long) a, [out, retval] long *b);",
        ),
        [
            (
                '[id(1)] void Texts([in, optional, defaultvalue("a \\" b")] BSTR a, [in, '
                'optional, defaultvalue("")] BSTR b);'
            ),
            (
                "[id(2)] void Numbers([in, optional, defaultvalue(-1)] long a, [in, optional, "
                "defaultvalue(32767)] short b, [in, optional, defaultvalue(19)] int c);"
            ),
            (
                "[id(3)] void Truths([in, optional, defaultvalue(TRUE)] VARIANT_BOOL a, [in, "
                "optional, defaultvalue(FALSE)] VARIANT_BOOL b, [in, optional] VARIANT c);"
            ),
        ],
        [
            "I.Real, DISPID 4, method: double, parameter a",
            "I.Put, DISPID 5, put: default, the new value",
            "I.Row, DISPID 6, get: array, parameter a",
        ],
    ),
    "names": (
        interface(
            "I",
            2,
            f"[id(1)] HRESULT {LONG}(); [id(2)] HRESULT {LONG[1:]}(); [id(3)] HRESULT Get([in] "
            f"long {LONG}); [id(4)] HRESULT Two([in] long x, [in] long X);"
            "[id(5), propget] HRESULT Odd([out, retval] VARIANT *value); [id(5), propput] HRESULT "
            "Odd([in] BSTR value);"
            f"[id(6)] HRESULT Many({', '.join(f'[in] long a{it}' for it in range(17))});",
        ),
        ["[id(5), readonly] VARIANT Odd;", f"[id(2)] void {LONG[1:]}();"],
        [
            f"I.{LONG}, DISPID 1, method: limit: a name of 64 bytes",
            f"I.Get, DISPID 3, method: limit: a name of 64 bytes, parameter {LONG}",
            "I.Two, DISPID 4, method: two parameters of one name",
            "I.Odd, DISPID 5, put: get and put disagree",
            "I.Many, DISPID 6, method: limit: 16 parameters",
        ],
    ),
}
# stands before them for widl, which is to need no text of Wine's
PRELUDE = (
    text(f"{COM}/prelude.idl")
    + "typedef long HRESULT;\ntypedef double DATE;\ntypedef wchar_t *LPWSTR;\n"
)
# texts of Wine's of which both make the same library, for all that they import
OF_WINE = ("taskschd", "wuapi", "sensevts", "shldisp", "natupnp", "httprequest")
# a library of another type library in the place of numbers and dates
CARRIED = interface(
    "I",
    2,
    "[id(1), propget] HRESULT At([out, retval] DATE *a); [id(2)] HRESULT Scale([in] float x, [in, "
    "optional] SAFEARRAY(double) y);",
)


def read(room, source, *words, **how):
    path = write(f"{room}/source.idl", source)
    return importing.Importer(midl.Reader(path), *words, **how)


def members_of(made):
    """The lines of the members of a library's first interface."""
    return [it for it in made.split("}\n")[0].splitlines() if it.startswith("[id(")]


def folded(made):
    """A library without the case of its names: a type library has one spelling of a name for all
    that bear it."""
    return made.upper()


class Text(ClientCases):
    """MIDL text, by the client."""

    def setUp(self):
        room = tempfile.TemporaryDirectory()
        self.addCleanup(room.cleanup)
        self.room = room.name

    def test_each_rule(self):
        for name, (items, members, lines) in SOURCES.items():
            made = read(self.room, library(items))
            self.same(f"{name}: members", members_of(made.text), members)
            told = [it for it in made.lines if not it.startswith(("enum ", "struct "))]
            self.same(f"{name}: how much is left out", len(told), len(lines))
            for got, wanted in zip(told, lines):
                self.same(f"{name}: {wanted}", got, wanted)

    def test_a_whole_library(self):
        made = read(self.room, library(SOURCES["one above another"][0])).text
        self.same(
            "coclasses",
            made[made.index("coclass") :],
            "coclass Thing {\ndispinterface B;\n[default] dispinterface A;\n}\n}\n",
        )
        self.same(
            "its head", made.splitlines()[:2], [f"[uuid({GUID}01), version(1.2)]", "library Demo {"]
        )
        self.same(
            "items stand by their names",
            re.findall(r"^(?:dispinterface|coclass) (\w+) {", made, re.MULTILINE),
            ["A", "B", "E", "Thing"],
        )

    def test_other_types_for_numbers_and_dates(self):
        made = members_of(read(self.room, library(CARRIED), "DECIMAL", "CY").text)
        self.same("DECIMAL and CURRENCY", made, ["[id(1), readonly] CURRENCY /* date */ At;"])
        made = read(self.room, library(CARRIED), "", "BSTR")
        self.same("BSTR", members_of(made.text), ["[id(1), readonly] BSTR /* date */ At;"])
        self.same(
            "what no array has", made.lines, ["I.Scale, DISPID 2, method: float, parameter x"]
        )

    def test_words_before_the_text(self):
        source = (
            '#define ONE 1\n#define TWO (ONE + 1)\n#ifdef ONE\n#include "ids.h"\n#else\n'
            "#error none\n#endif\n#if defined(ONE) && !NONE\n"
            "#define MEMBER [id(TWO)] HRESULT A();\n#endif\n"
        )
        write(f"{self.room}/ids.h", "int of_a_header(void);\n#define THREE 0x3\n")
        made = read(
            self.room,
            library(
                interface(
                    "I",
                    2,
                    "MEMBER [id(THREE)] HRESULT B(); [id(NONE)] HRESULT C(); typedef long X; "
                    'HRESULT operator*(); cpp_quote("x")',
                ),
                source,
            ),
        )
        self.same("members", members_of(made.text), ["[id(2)] void A();", "[id(3)] void B();"])
        self.same("no number", made.lines, ["I.C, DISPID none, method: no DISPID"])
        *words, last = made._reader.notes
        self.same(
            "words that are no constants of the library",
            words,
            [f"#define {it}: a library has no constants" for it in ("ONE", "TWO", "MEMBER")],
        )
        self.tell("what is not read", last.endswith("not read: `*` instead of `(`"), last)

    def test_second_members_and_items(self):
        made = read(
            self.room, library(interface("I", 2, "[id(1)] HRESULT a(); [id(1)] HRESULT b();"))
        )
        self.same(
            "a DISPID twice", made.lines, ["I.b, DISPID 1, method: a second member of its DISPID"]
        )
        made = read(
            self.room,
            library(
                interface("I", 2, "[id(1)] HRESULT a(); [id(2)] HRESULT A();")
                + interface("i", 3, "")
                + interface("J", 2, "")
            ),
        )
        lines = [
            "I.A, DISPID 2, method: a second member of its name",
            "interface i: a second item of its name",
            "interface J: a second item of its GUID",
        ]
        self.same("a name and a GUID twice", made.lines, lines)

    def test_limits_of_members(self):
        many = "".join(
            f"[id({it}), propget] HRESULT a{it}([in] long i, [out, retval] long *x); [id({it}), "
            f"propput] HRESULT a{it}([in] long i, [in] long x);"
            for it in range(300)
        )
        made = read(self.room, library(interface("I", 2, many)))
        self.same(
            "512 members of an interface",
            (len(members_of(made.text)), made.lines[0]),
            (512, "I.a256, DISPID 256, get: limit: 512 members"),
        )
        pairs = "".join(
            f"[id({it}), propget] HRESULT a{it}([out, retval] long *x); [id({it}), propput] "
            f"HRESULT a{it}([in] long x);"
            for it in range(600)
        )
        self.same(
            "512 properties",
            len(members_of(read(self.room, library(interface("I", 2, pairs))).text)),
            512,
        )

    def test_limits_of_a_library(self):
        items = "".join(
            f"[dual, uuid({GUID[:-2]}{it:04x})] interface I{it:03} : IDispatch {{ [id(1)] HRESULT "
            f"{'n' * 60}{it:03}(); }};"
            for it in range(16, 300)
        )
        made = read(
            self.room, library(items + f"[uuid({GUID}ff)] coclass Last {{ interface I299; }};")
        )
        self.same(
            "256 interfaces, of coclasses first",
            (len(made.interfaces), made.interfaces[-1].name),
            (256, "I299"),
        )
        wide = "".join(
            f"[id({it})] HRESULT {'n' * 60}{it:03}"
            f"({', '.join(f'[in] long a{n}' for n in range(16))});"
            for it in range(500)
        )
        made = read(
            self.room, library("".join(interface(f"I{it}", 10 + it, wide) for it in range(4)))
        )
        self.same(
            "a text of 262,144 bytes",
            (len(made.text) <= 262_144, made.lines),
            (
                True,
                [
                    "interface I1: limit: a text of 262,144 bytes",
                    "interface I2: limit: a text of 262,144 bytes",
                    "interface I3: limit: a text of 262,144 bytes",
                ][-len(made.lines) :],
            ),
        )

    @unittest.skipUnless(os.path.exists(PROGRAM), "the program is not there")
    def test_the_program_takes_it_as_it_stands(self):
        sources = [library(items) for items, _, _ in SOURCES.values()]
        for place, source in enumerate(sources):
            path = write(f"{self.room}/made.idl", read(self.room, source).text)
            done = subprocess.run([PROGRAM, "check", path], capture_output=True)
            self.same(
                f"its canonical text, {place}",
                (done.returncode, done.stdout.decode()),
                (0, text(path)),
            )
        _, puts, gets, wrong = imported.used(
            oaut, write(f"{self.room}/made.idl", read(self.room, sources[3]).text), PROGRAM
        )
        self.same("an object of it", (puts, gets, wrong), (3, 4, []))

    def run_it(self, *words):
        return subprocess.run(
            [sys.executable, "-m", "oaut", "import", *words],
            cwd=self.room,
            env=ENVIRONMENT,
            capture_output=True,
            text=True,
            timeout=SECONDS,
        )

    def test_the_command(self):
        write(
            f"{self.room}/a.idl",
            'import "oaidl.idl";\n'
            + library(
                SOURCES["defaults"][0].replace("[in] double", "[in, defaultvalue(0)] double")
                + f"[uuid({GUID}09)] coclass X {{ interface I; }};"
            ),
        )
        done = self.run_it("a.idl", "-o", "out.idl", "--double", "DECIMAL", "--only", "x")
        self.same(
            "its status and output",
            (done.returncode, done.stdout, done.stderr.splitlines()[0]),
            (0, "", 'import "oaidl.idl": skipped'),
        )
        self.same(
            "its last line",
            done.stderr.splitlines()[-1],
            "1 interfaces, 1 coclasses, 4 members kept; 2 lines of what is left out",
        )
        self.tell(
            "the file",
            "[in, optional, defaultvalue(0)] DECIMAL /* double */ a"
            in text(f"{self.room}/out.idl"),
        )
        for words, said in (
            (("a.idl", "--only", "Y"), "the library has no coclass Y"),
            (("none.idl",), "none.idl: No such file or directory"),
        ):
            done = self.run_it(*words)
            self.same(
                f"{words}",
                (done.returncode, done.stdout, done.stderr),
                (1, "", f"python3 -m oaut: {said}\n"),
            )


class Hostile(Text):
    """Each text ends with a library or with one line."""

    test_each_rule = (
        test_a_whole_library
    ) = test_other_types_for_numbers_and_dates = test_words_before_the_text = None
    test_limits = test_the_program_takes_it_as_it_stands = test_the_command = None

    def ends(self, name, source):
        try:
            said = read(self.room, source).text[:0]
        except (ValueError, RecursionError) as fault:
            said = str(fault)
            self.tell(name, isinstance(fault, ValueError) and "\n" not in said, said)
        return said

    def test_cut_and_spoiled(self):
        whole = library("".join(items for items, _, _ in SOURCES.values()))
        for place in range(0, len(whole) - 6, 97):
            self.tell(
                f"cut at {place}",
                self.ends(f"cut at {place}", whole[:place]) != "",
                whole[place - 20 : place],
            )
        chance = random.Random(8)
        for place in range(150):
            made = list(whole)
            for _ in range(chance.choice((1, 4, 20))):
                at = chance.randrange(len(made))
                made[at : at + chance.randrange(3)] = chance.choice(
                    [
                        "",
                        "{",
                        "}",
                        "(",
                        ")",
                        "[",
                        "]",
                        ";",
                        '"',
                        "/*",
                        "\n#if ",
                        " 0x ",
                        "<<",
                        "\0",
                        "\xff",
                        "interface ",
                        "typedef ",
                    ]
                )
            self.ends(f"spoiled, {place}", "".join(made))

    @unittest.mock.patch.object(midl, "TOKENS_LIMIT", 200_000)
    def test_deep_and_endless(self):
        many = 20_000

        def member(it):
            return library(interface("I", 2, it))

        for name, source, said in (
            (
                "aliases",
                library(
                    "typedef A B; typedef B A;" + interface("I", 2, "[id(1)] HRESULT f([in] A x);")
                ),
                "nothing of the library is kept",
            ),
            (
                "interfaces above",
                library(interface("A", 2, "", "B") + interface("B", 3, "", "A")),
                "",
            ),
            (
                "#define",
                "#define A B\n#define B A\n" + member("[id(A)] HRESULT f();"),
                "nothing of the library is kept",
            ),
            (
                "#define by twos",
                "".join(f"#define A{it} A{it + 1} A{it + 1}\n" for it in range(60)) + member("A0"),
                None,
            ),
            ("#if", "#ifdef A\n" * many, None),
            ("brackets", member(f"[id(1)] HRESULT {'(' * many}"), None),
            (
                "values",
                member(f"[id({'(' * many}1{')' * many})] HRESULT f();"),
                "nothing of the library is kept",
            ),
            (
                "arrays",
                member(
                    f"[id(1)] HRESULT f({'SAFEARRAY(const ' * many}long{')' * many} x); [id(2)] "
                    "HRESULT g();"
                ),
                "",
            ),
            ("structs", library("struct { " * many), None),
            ("comments", "/*" * many, None),
            ("no library", "\0" * many, None),
            ("#include", '#include "source.idl"\n', None),
        ):
            got = self.ends(name, source)
            self.tell(
                f"{name}: its line",
                got.replace(f"{self.room}/source.idl", "") == said
                if said is not None
                else got != "",
                got,
            )

    def test_many(self):
        """Each in time that grows as the text does."""
        count = 20_000
        for name, items in (
            ("members", interface("I", 2, "".join(f"HRESULT a{it}();" for it in range(count)))),
            (
                "interfaces",
                "".join(
                    f"[uuid(11223344-5566-7788-99aa-{it + 999:012x})] interface I{it} : IDispatch "
                    f"{{ HRESULT f(); }};"
                    for it in range(count // 4)
                ),
            ),
            (
                "entries",
                interface("I", 2, "HRESULT f();")
                + f"[uuid({GUID}03)] coclass C {{ {'interface I;' * count} }};",
            ),
            (
                "constants",
                f"enum {{ {','.join(f'a{it}' for it in range(count))} }};"
                + interface("I", 2, f"[id(a{count - 1})] HRESULT f();"),
            ),
        ):
            self.same(f"many {name}", self.ends(name, library(items)), "")


@functools.lru_cache(None)
def under_wine():
    """A folder with tlb2idl.exe, what its build said, and a Wine."""
    room = tempfile.mkdtemp(prefix="oaut-import-")
    unittest.addModuleCleanup(shutil.rmtree, room, True)
    said = built([f"{COM}/build.sh", room], env={**os.environ, "CFLAGS": "-O0"})
    wine = Wine(room)
    unittest.addModuleCleanup(wine.close)
    return room, said, wine


def anew():
    """Has a test that runs again have a Wine of its own: the first one has gone with the end of its
    file's tests."""
    under_wine.cache_clear()


@needs_wine
class Libraries(ClientCases):
    """Type libraries, by tlb2idl.exe under Wine."""

    def setUp(self):
        self.room, said, self.wine = under_wine()
        self.tell("the build", said == (0, ""), said)

    def run_it(self, path, *words):
        """The status, the library and the report of a type library."""
        out = f"{self.room}/out.idl"
        if os.path.exists(out):
            os.remove(out)
        status, said = self.wine.said(
            f"{self.room}/tlb2idl.exe", windows(path), "-o", windows(out), *words
        )
        return status, text(out) if os.path.exists(out) else "", said

    def compiled(self, source, *words):
        """A type library of MIDL text; None where widl makes none of it."""
        made = f"{self.room}/compiled.tlb"
        subprocess.run(
            [WIDL, "-t", "-L", imported.TYPELIBS, *words, "-o", made, source],
            check=True,
            stdout=subprocess.DEVNULL,
            stderr=subprocess.DEVNULL,
        )
        return made

    @unittest.skipUnless(WIDL, "widl is not there")
    def test_the_same_library_as_of_the_text(self):
        for name, (items, _, lines) in SOURCES.items():
            source = library(items, PRELUDE)
            status, got, report = self.run_it(
                self.compiled(write(f"{self.room}/source.idl", source))
            )
            self.same(
                f"{name}: the library",
                (status, folded(got)),
                (0, folded(read(self.room, source).text)),
            )
            told = [
                it for it in report.splitlines()[:-1] if not it.startswith(("enum ", "record "))
            ]
            self.same(f"{name}: the lines", sorted(map(folded, told)), sorted(map(folded, lines)))
        source = write(f"{self.room}/source.idl", library(CARRIED, PRELUDE))
        got = self.run_it(self.compiled(source), "--double=DECIMAL", "--date=CY")
        self.same("other types", got[1], read(self.room, text(source), "DECIMAL", "CY").text)

    @unittest.skipUnless(WIDL and os.path.isdir(imported.IDL), "widl or libwine-dev is not there")
    def test_the_same_library_as_of_wines_texts(self):
        for name in OF_WINE:
            path = f"{imported.IDL}/{name}.idl"
            status, got, report = self.run_it(self.compiled(path, f"-I{imported.IDL}"))
            made = importing.Importer(midl.Reader(path))
            self.same(f"{name}: the library", (status, folded(got)), (0, folded(made.text)))
            self.tell(
                f"{name}: it has members",
                made.kept > 10 and f"{made.kept} members kept" in report,
                report[-200:],
            )

    @unittest.skipUnless(
        os.path.exists(PROGRAM) and os.path.isdir(imported.TYPELIBS),
        "the program or libwine is not there",
    )
    def test_libraries_inside_of_programs(self):
        for name in ("wshom.ocx", "scrrun.dll", "stdole2.tlb", "hnetcfg.dll\\2"):
            status, got, report = self.run_it(f"{imported.TYPELIBS}/{name}")
            self.tell(
                f"{name}: its report",
                status == 0 and imported.counted(report),
                (status, report[-300:]),
            )
            path = write(f"{self.room}/made.idl", got)
            done = subprocess.run([PROGRAM, "check", path], capture_output=True)
            self.same(
                f"{name}: its canonical text", (done.returncode, done.stdout.decode()), (0, got)
            )
            classes, puts, gets, wrong = imported.used(oaut, path, PROGRAM)
            self.same(f"{name}: its objects", wrong, [])

    def test_files_that_are_none(self):
        stdole2 = f"{imported.TYPELIBS}/stdole2.tlb"
        whole = open(stdole2, "rb").read() if os.path.exists(stdole2) else b""
        at = whole.find(b"MSFT")
        whole = whole[at:] if at >= 0 else b"MSFT" + bytes(2000)
        chance = random.Random(8)
        files = [
            b"",
            b"MSFT",
            b"SLTG" + bytes(100),
            b"MZ" + bytes(5000),
            *(whole[: len(whole) * it // 8] for it in range(1, 8)),
        ]
        for _ in range(9):
            made = bytearray(whole)
            for _ in range(chance.choice((1, 8, 60))):
                made[chance.randrange(len(made))] = chance.randrange(256)
            files.append(bytes(made))
        for place, content in enumerate(files):
            with open(f"{self.room}/spoiled.tlb", "wb") as file:
                file.write(content)
            status, got, report = self.run_it(f"{self.room}/spoiled.tlb")
            well = (status == 0 and got and imported.counted(report)) or (
                status == 1
                and not got
                and len(report.splitlines()) == 1
                and report.startswith("tlb2idl: ")
            )
            self.tell(f"file {place}", well, (status, report[-500:]))
        status, got, report = self.run_it(f"{self.room}/none.tlb")
        self.same("no file", (status, got), (1, ""))
        for words in (["--double=BSTR"], ["--what"], ["second"]):
            self.same(f"words: {words}", self.run_it(f"{self.room}/none.tlb", *words)[0], 2)

    @unittest.skipUnless(os.path.exists(f"{imported.TYPELIBS}/stdole2.tlb"), "libwine is not there")
    def test_interfaces_that_are_their_own_bases(self):
        """The system's reader has no end of them: its stack overflows, and Wine ends that thread
        without a word."""
        with open(f"{imported.TYPELIBS}/stdole2.tlb", "rb") as file:
            made = bytearray(file.read().partition(b"MSFT")[2])
        made[:0] = b"MSFT"
        flags, count = struct.unpack_from("<I", made, 20)[0], struct.unpack_from("<I", made, 32)[0]
        first = struct.unpack_from("<I", made, 84 + (4 if flags & 0x100 else 0) + 4 * count)[0]
        interfaces = [
            it for it in range(first, first + 100 * count, 100) if made[it] & 15 in (3, 4)
        ]
        for it in interfaces:
            made[it + 0x30] |= 0x40  # dual
            struct.pack_into("<H", made, it + 0x4C, 1)  # how many bases it has
            struct.pack_into("<I", made, it + 0x54, it - first)  # and which
        with open(f"{self.room}/spoiled.tlb", "wb") as file:
            file.write(made)
        self.tell("interfaces", len(interfaces) > 5, interfaces)
        line = f"tlb2idl: {windows(self.room)}\\spoiled.tlb: the system's reader crashed\n"
        self.same("its end", self.run_it(f"{self.room}/spoiled.tlb"), (1, "", line))


@left_out("gcc")
class UnderLinux(ClientCases):
    """The rules of tlb2idl.c over type libraries by chance, with sanitizers."""

    def test_libraries_by_chance(self):
        with tempfile.TemporaryDirectory() as room:
            said = built([f"{TESTS}/build.sh", "libraries", room])
            self.tell("the build", said == (0, ""), said)
            seed = str(random.SystemRandom().randrange(1 << 31))
            done = subprocess.run(
                [f"{room}/libraries", room, "100", seed],
                env={**os.environ, "ASAN_OPTIONS": "detect_leaks=0"},
                capture_output=True,
                text=True,
                timeout=TIMEOUT,
            )
            lines = {line.split(": ", 2)[-1] for line in done.stderr.splitlines()}
            self.tell(
                f"each ends, seed {seed}",
                done.returncode == 0 and len(lines) < 9,
                (done.returncode, done.stdout, done.stderr[-2000:]),
            )
            made = glob.glob(f"{room}/*.idl") if os.path.exists(PROGRAM) else []
            for path in made:
                told = subprocess.run([PROGRAM, "check", path], capture_output=True, text=True)
                self.same(
                    f"a text as it stands, seed {seed}, {os.path.basename(path)}",
                    (told.returncode, told.stdout),
                    (0, re.sub(r" /\* \w+ \*/", "", text(path))),
                )


class Source(ClientCases):
    """What is looked at in the sources alone."""

    def test_both_have_the_same_words(self):
        """Why something is left out is told by the same words."""
        words = {*re.findall(r'Left\("([^"{]+)"\)', text(importing.__file__))} | {
            *importing._LEFT.values()
        }
        self.tell("words of the client", len(words) > 20, words)
        source = text(f"{COM}/tlb2idl.c")
        self.same(
            "which tlb2idl.c lacks", [it for it in words if f'"{it}"' not in source], ["no DISPID"]
        )

    def test_limits_are_those_of_the_server(self):
        told = text(f"{ROOT}/crates/oa_model/src/limits.rt")
        limits = dict(re.findall(r"^pub const (\w+): \w+ = ([\d_]+);", told, re.MULTILINE))
        for name, of in (
            ("LIBRARY_BYTES", importing.TEXT),
            ("NAME_CHARACTERS", importing.NAME),
            ("INTERFACES", importing.ITEMS),
            ("COCLASSES", importing.ITEMS),
            ("MEMBERS", importing.MEMBERS),
            ("PARAMETERS", importing.PARAMETERS),
        ):
            self.same(f"MAX_{name}", of, int(limits[f"MAX_{name}"]))
        source = text(f"{COM}/tlb2idl.c")
        for word, of in (
            ("TEXT_LIMIT", importing.TEXT),
            ("NAME_LIMIT", importing.NAME),
            ("ITEM_LIMIT", importing.ITEMS),
            ("MEMBER_LIMIT", importing.MEMBERS),
            ("PARAMETER_LIMIT", importing.PARAMETERS),
        ):
            self.tell(
                f"{word} of tlb2idl.c", re.search(rf"^#define {word} {of}$", source, re.MULTILINE)
            )
