"""The grammar of library texts: where the fault of a text stands, and how each part is printed."""
from tests.support.playing import Played
from tests.support.running import FULL, FULL_TEXT, SMALL, rows_of, run

TEXT_HEAD = "[uuid(11223344-5566-7788-99AA-BBCCDDEEFF01)] library "
IN_LIBRARY = TEXT_HEAD + "Demo { "
SECOND = "[uuid(11223344-5566-7788-99AA-BBCCDDEEFF02)] "
IN_INTERFACE = IN_LIBRARY + SECOND + "dispinterface DItem { "
IN_PARAMETERS = IN_INTERFACE + "methods: [id(1)] void A("
IN_COCLASS = IN_LIBRARY + "[uuid(11223344-5566-7788-99AA-BBCCDDEEFF03)] coclass Item { "
# parts that are printed, a row each: of each part, what stands before and behind it, and before and
# behind it in what is printed
PRINTED = "[uuid(11223344-5566-7788-99aa-bbccddeeff01), version(0.0)]\nlibrary Demo {\n"
INTERFACE_PRINTED = (
    PRINTED + "[uuid(11223344-5566-7788-99aa-bbccddeeff02)]\ndispinterface DItem {\nproperties:\n"
)
COCLASS_PRINTED = "[uuid(11223344-5566-7788-99aa-bbccddeeff03)]\ncoclass Item {\n"
ENTERED, ENTERED_PRINTED = "", ""
for name, last in (("A", "2"), ("B", "4")):
    ENTERED += f"[uuid(11223344-5566-7788-99AA-BBCCDDEEFF0{last})] dispinterface {name} {{}} "
    ENTERED_PRINTED += (
        f"[uuid(11223344-5566-7788-99aa-bbccddeeff0{last})]\ndispinterface {name} {{\nproperties:\n"
        f"methods:\n}}\n"
    )
IN_ENTRIES = IN_LIBRARY + ENTERED + IN_COCLASS.removeprefix(IN_LIBRARY)
ENTRIES_PRINTED = PRINTED + ENTERED_PRINTED + COCLASS_PRINTED
FRAMES = {
    "attributes": ("", " library A {}", "", "\nlibrary A {\n}\n"),
    "property": (IN_INTERFACE + "properties: ", " } }", INTERFACE_PRINTED, "\nmethods:\n}\n}\n"),
    "method": (
        IN_INTERFACE + "properties: methods: ",
        " } }",
        INTERFACE_PRINTED + "methods:\n",
        "\n}\n}\n",
    ),
    "entry before a marked one": (
        IN_ENTRIES,
        "[default] interface B; };}",
        ENTRIES_PRINTED,
        "\n[default] dispinterface B;\n}\n}\n",
    ),
    "only entry": (IN_ENTRIES, "};}", ENTRIES_PRINTED, "\n}\n}\n"),
}
LONG_NAME = "a" * 65
ONE_INTERFACE, ONE_COCLASS = SECOND + "dispinterface A {} ", SECOND + "coclass A { interface B; } "
# an item, member or parameter that is one too many is looked at up to its name
LATE = [
    (
        IN_LIBRARY + ONE_INTERFACE * 256,
        (
            "[uuid(11223344-5566-7788-99AA-BBCCDDEEFF02), "
            "^uuid(11223344-5566-7788-99AA-BBCCDDEEFF02)] dispinterface A {} }"
        ),
    ),
    (IN_LIBRARY + ONE_INTERFACE * 256, "[version(1)^] dispinterface A {} }"),
    (IN_LIBRARY + ONE_INTERFACE * 256, SECOND + "^interface A {} }"),
    (IN_LIBRARY + ONE_INTERFACE * 256, SECOND + "dispinterface ^library {} }"),
    (IN_LIBRARY + ONE_COCLASS * 256, "[uuid(^7)] coclass A { interface B; } }"),
    (IN_LIBRARY + ONE_COCLASS * 256, SECOND + "coclass ^void { interface B; } }"),
    (IN_INTERFACE + "properties: " + "[id(1)] long A; " * 512, "[id(-^1)] long A; } }"),
    (IN_INTERFACE + "properties: " + "[id(1)] long A; " * 512, "[id(1), ^id(1)] long A; } }"),
    (IN_INTERFACE + "properties: " + "[id(1)] long A; " * 512, "[id(1)] ^void A; } }"),
    (IN_INTERFACE + "properties: " + "[id(1)] long A; " * 512, "[id(1)] long ^library; } }"),
    (IN_INTERFACE + "methods: " + "[id(1)] void A(); " * 512, "[id(1), ^readonly] void A(); } }"),
    (IN_INTERFACE + "methods: " + "[id(1)] void A(); " * 512, "[id(1), propget] ^void A(); } }"),
    (IN_INTERFACE + "methods: " + "[id(1)] void A(); " * 512, "[id(1)] void ^void(); } }"),
    (IN_PARAMETERS + "long B, " * 16, "[in, ^in] long B); } }"),
    (IN_PARAMETERS + "long B, " * 16, "SAFEARRAY(^SCODE) B); } }"),
    (IN_PARAMETERS + "long B, " * 16, "long ^void); } }"),
]
# how a text begins, a part that it has so many times, how it ends, and the limit that one time more
# breaks
BOUNDS = [
    (IN_LIBRARY, ONE_INTERFACE, 256, "}", "interfaces"),
    (IN_LIBRARY, ONE_COCLASS, 256, "}", "coclasses"),
    (IN_INTERFACE + "properties: ", "[id(1)] long A; ", 512, "} }", "members"),
    (
        IN_INTERFACE + "properties: [id(1)] long A; methods: ",
        "[id(1)] void A(); ",
        511,
        "} }",
        "members",
    ),
    (
        IN_INTERFACE + "methods: ",
        "[id(1), propget] long A(); [id(1), propput] void A(long B); ",
        256,
        "} }",
        "members",
    ),
    (IN_PARAMETERS + "long B", ", [in] long B", 15, "); } }", "params"),
    (IN_INTERFACE + "methods: [id(1), propput] void A(long B", ", long B", 15, "); } }", "params"),
    (TEXT_HEAD, "Z", 64, " {}", "name"),
    (IN_LIBRARY + SECOND + "dispinterface ", "a", 64, " {} }", "name"),
    (IN_LIBRARY + SECOND + "coclass A", "9", 63, " { interface A; } }", "name"),
    (IN_INTERFACE + "properties: [id(1)] long ", "a", 64, "; } }", "name"),
    (IN_INTERFACE + "methods: [id(1)] long ", "b", 64, "(); } }", "name"),
    (IN_PARAMETERS + "long A, BSTR ", "c", 64, "); } }", "name"),
    (IN_COCLASS + "interface ", "_", 64, "; } }", "name"),
    # the fault of a text with several: the earliest, and at one name that of its length first
    (TEXT_HEAD, "Z", 64, " ;", "name"),
    (IN_PARAMETERS, "long B, ", 15, f"long {LONG_NAME}); }} }}", "name"),
    (IN_LIBRARY, ONE_INTERFACE, 255, SECOND + f"dispinterface {LONG_NAME} {{}} }}", "name"),
    (IN_LIBRARY, ONE_COCLASS, 255, SECOND + f"coclass {LONG_NAME} {{ interface B; }} }}", "name"),
    (
        IN_INTERFACE + "properties: ",
        "[id(1)] long A; ",
        511,
        f"[id(1)] long {LONG_NAME}; }} }}",
        "name",
    ),
    (
        IN_INTERFACE + "methods: ",
        "[id(1)] void A(); ",
        511,
        f"[id(1)] void {LONG_NAME}(); }} }}",
        "name",
    ),
]
HEAD = b"[uuid(11223344-5566-7788-99AA-BBCCDDEEFF01)]"


class Syntax(Played):
    def syntax(self, front, row):
        """A text that is refused where `^` stands in a row."""
        before, after = (front + row).split("^")
        status, _, err = run(["check", "lib.idl"], files={"lib.idl": (before + after).encode()})
        place = len(before.encode())
        self.tell(
            f"syntax of {(front + row)[-200:]}",
            (status, err) == (2, f"oaut: syntax at byte {place}\n".encode()),
            (status, err),
        )

    def test_the_syntax_of_the_table(self):
        front = ""
        for row in rows_of("syntax.txt"):
            if row.startswith("="):
                front = row[2:]
            else:
                self.syntax(front, row)

    def test_control_characters_in_a_text(self):
        for sign in "\t\x1f\x7f":
            self.syntax(IN_PARAMETERS, f'[defaultvalue(^"{sign}")] BSTR B); }} }}')

    def test_parts_that_are_one_too_many(self):
        for front, row in LATE:
            self.syntax(front, row)
        self.syntax("", "^}" + " " * 262_143)

    def test_limits(self):
        for front, part, count, back, limit in BOUNDS:
            said = [
                run(["check", "lib.idl"], files={"lib.idl": (front + part * it + back).encode()})[2]
                for it in (count, count + 1)
            ]
            is_bound = said[0] != b"oaut: limit " + limit.encode() + b"\n" or LONG_NAME in back
            self.tell(
                f"the limit {limit} behind {front[-60:]}",
                is_bound and said[1] == b"oaut: limit " + limit.encode() + b"\n",
                said,
            )

    def test_parts_that_are_printed(self):
        for row in rows_of("printed.txt"):
            if row.startswith("= "):
                front, back, front_printed, back_printed = FRAMES[row[2:]]
                continue
            part, part_printed = row.split("=", 1)
            printed = (front_printed + part_printed + back_printed).encode()
            self.checked(
                f"a part that is printed, {part}", (front + part + back).encode(), 0, printed, b""
            )
            self.checked(
                f"a part that is printed as it was, {part_printed}", printed, 0, printed, b""
            )


class Where(Played):
    def shows(self, name, library, at, line, column, text, blank):
        head = b"lib.idl:%d:%d: " % (line, column)
        err = (
            b"oaut: syntax at byte %d\n" % at
            + head
            + text
            + b"\n"
            + b" " * len(head)
            + blank
            + b"^\n"
        )
        self.case(
            f"check --where: {name}",
            ["check", "--where", "lib.idl"],
            2,
            b"",
            err,
            files={"lib.idl": library},
        )

    def test_where_a_fault_stands(self):
        self.shows("no text", b"", 0, 1, 1, b"", b"")
        self.shows(
            "the first line",
            HEAD + b" library Demo ;\n}\n",
            58,
            1,
            59,
            HEAD + b" library Demo ;",
            b" " * 58,
        )
        self.shows(
            "lines that end by CR LF, a tab before the place",
            b"//\r\n" + HEAD + b"\r\n\tlibrary D\xc3\xa9 {}\r\n",
            60,
            3,
            11,
            b"\tlibrary D\xc3\xa9 {}",
            b"\t" + b" " * 9,
        )
        self.shows(
            "characters of two bytes before the place",
            b"/*\xc3\xa9*/ ;",
            7,
            1,
            7,
            b"/*\xc3\xa9*/ ;",
            b" " * 6,
        )
        self.shows(
            "lines that end by CR, the end of the text",
            HEAD + b"\rlibrary",
            52,
            2,
            8,
            b"library",
            b" " * 7,
        )
        self.shows("the end of the text behind a line's end", HEAD + b"\n\n", 46, 3, 1, b"", b"")
        self.shows("a control character", b"\n \x1b[1m", 2, 2, 2, b" ?[1m", b" ")

    def test_where_names_and_other_faults(self):
        self.case(
            "check --where: a file's name with control characters",
            ["check", "--where", "a\n"],
            2,
            b"",
            b"oaut: syntax at byte 0\na\\u{a}:1:1: ;\n            ^\n",
            files={"a\n": b";"},
        )
        self.case(
            "check --where: a file's name with more bytes than characters",
            ["check", "--where", "\u00e9\u20ac\U0001f600.idl"],
            2,
            b"",
            "oaut: syntax at byte 0\n\u00e9\u20ac\U0001f600.idl:1:1: ;\n             ^\n".encode(),
            files={"\u00e9\u20ac\U0001f600.idl": b";"},
        )
        self.case(
            "check --where: standard input",
            ["check", "--where", "-"],
            2,
            b"",
            b"oaut: syntax at byte 0\n-:1:1: ;\n       ^\n",
            given=b";",
        )
        self.case(
            "check --where: a library",
            ["check", "--where", "lib.idl"],
            0,
            FULL_TEXT,
            b"",
            files={"lib.idl": FULL},
        )
        self.case(
            "check --where: a fault without a place",
            ["check", "--where", "lib.idl"],
            2,
            b"",
            b"oaut: limit text\n",
            files={"lib.idl": SMALL + b" " * 262_145},
        )
