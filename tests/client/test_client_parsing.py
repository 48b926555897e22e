"""`oaut.Library.from_text`: the library of a text without the program, by the tables that the
program's own grammar and checks are tried by."""
import glob

from tests.client.clients import FULL, LIBRARY, ROOT, ClientCases, oaut
from tests.program.test_syntax import BOUNDS, FRAMES, LATE, LONG_NAME
from tests.support.running import rows_of

GUID = "11223344-5566-7788-99AA-BBCCDDEEFF0"


def said_of(text):
    """What the client says against a text, as the program says it."""
    try:
        oaut.Library.from_text(text)
    except oaut.NotALibrary as fault:
        return fault.fault.removeprefix("oaut: ")
    return "accepted"


def described():
    """The texts of the table of descriptions, each with the bytes of all its descriptions."""
    found = []
    for row in rows_of("descriptions.txt"):
        if row.startswith("= "):
            found.append((row[2:], {}))
            place = None
        elif row.startswith(" "):
            if place is not None:
                found[-1][1][place] += bytes.fromhex(row)
        elif row:
            index, _, rest = row.partition(" ")
            place = (
                int(index)
                if all(it in "0123456789abcdef " for it in rest) and len(rest.split(" ")[0]) == 8
                else None
            )
            if place is not None and len(rest) > 8:
                found[-1][1][place] = bytes.fromhex(rest)
    return found


class Texts(ClientCases):
    def test_syntax(self):
        front = ""
        for row in rows_of("syntax.txt"):
            if row.startswith("="):
                front = row[2:]
                continue
            before, after = (front + row).split("^")
            self.same(
                f"syntax of {(front + row)[-200:]}",
                said_of(before + after),
                f"syntax at byte {len(before.encode())}",
            )

    def test_parts_that_are_one_too_many(self):
        for front, row in LATE:
            before, after = (front + row).split("^")
            self.same(
                f"syntax of {row}",
                said_of(before + after),
                f"syntax at byte {len(before.encode())}",
            )

    def test_limits(self):
        for front, part, count, back, limit in BOUNDS:
            said = [said_of(front + part * it + back) for it in (count, count + 1)]
            self.tell(
                f"the limit {limit} behind {front[-60:]}",
                (said[0] != f"limit {limit}" or LONG_NAME in back) and said[1] == f"limit {limit}",
                said,
            )

    def test_a_text_above_the_limit(self):
        self.same("its length", said_of(" " * 262_145), "limit text")

    def test_what_is_read(self):
        for row in rows_of("read.txt"):
            wanted, text = row.split(" | ", 1)
            self.same(
                f"a text that is read, {text}",
                said_of(f"[uuid(#1)] library Library {text}".replace("#", GUID)),
                wanted,
            )

    def test_checks(self):
        for row in rows_of("libraries.txt"):
            wanted, items = row.split(" | ", 1)
            self.same(
                f"a library with {items[:200]}",
                said_of(f"[uuid(#1)] library L {{{items}}}".replace("#", GUID)),
                wanted,
            )

    def test_how_long_a_default_may_be(self):
        for count, wanted in ((131_072, "accepted"), (131_073, "bad default P")):
            items = (
                f"[uuid(#2)] dispinterface A {{ methods: [id(1)] void "
                f"X([defaultvalue(\"{'a' * count}\")] BSTR P); }}"
            )
            self.same(
                f"a default of {count}",
                said_of(f"[uuid(#1)] library L {{{items}}}".replace("#", GUID)),
                wanted,
            )

    def test_a_part_is_read_as_its_canonical_text_is(self):
        for row in rows_of("printed.txt"):
            if row.startswith("= "):
                front, back, front_printed, back_printed = FRAMES[row[2:]]
                continue
            part, printed = row.split("=", 1)
            one, other = front + part + back, front_printed + printed + back_printed
            self.same(part, oaut.Library.from_text(one) == oaut.Library.from_text(other), True)

    def test_descriptions(self):
        """What the table says that TYPEINFO answers."""
        count = 0
        for text, bodies in described():
            library = oaut.Library.from_text(text)
            found = [*library.interfaces, *library.coclasses]
            for index, body in bodies.items():
                count += 1
                self.same(
                    f"description {index} of {text[-100:]}",
                    found[index],
                    oaut.library.read_description(body),
                )
        self.tell("there are some", count >= 4, count)

    def test_what_a_server_says(self):
        with open(FULL, encoding="utf-8") as file:
            self.same(
                "the library of its text", oaut.Library.from_text(file.read()) == LIBRARY, True
            )

    def test_a_coclass_by_its_guid(self):
        with open(FULL, encoding="utf-8") as file:
            library = oaut.Library.from_text(file.read())
        number = "11223344-5566-7788-99aa-bbccddeeff03"
        for which in ("Item", number, number.upper(), f"{{{number}}}", f"{{{number.upper()}}}"):
            self.same(f"the coclass {which}", library.coclass(which).name, "Item")

    def test_a_text_of_a_library(self):
        for path in glob.glob(f"{ROOT}/examples/*.idl"):
            with open(path, "rb") as file:
                library = oaut.Library.from_text(file.read())
            self.same(
                f"{path}, read again", oaut.Library.from_text(library.to_text()) == library, True
            )

    def test_where_a_fault_stands(self):
        error = self.raises(
            "a text",
            oaut.parsing.NoLibraryText,
            lambda: oaut.Library.from_text("library X {\n}"),
            line=1,
            column=1,
            fault="oaut: syntax at byte 0",
        )
        self.same("its text", str(error), "no library at 1:1: syntax at byte 0\nlibrary X {\n^")
