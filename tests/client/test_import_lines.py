"""`python3 -m oaut import`: what no library has gets a line each, and a file that a text imports is
read for its types."""
import os
import subprocess
import sys
import tempfile
import unittest

from oaut import importing, midl
from tests.client.clients import ENVIRONMENT, ClientCases

GUID = "11223344-5566-7788-99aa-bbccddeeff"
TEXT = (
    f"%s[uuid({GUID}01), version(1.0)] library Demo {{ %s\n"
    f"[object, uuid({GUID}02)] interface I : IDispatch {{ [id(1)] HRESULT Paint([in] %s by); }}; "
    f"[uuid({GUID}03)] coclass C {{ [default] interface I; }} }};\n"
)


def made(files, *folders):
    """What comes of files by their names, the first of which is read: the library's text, and the
    lines on what is left out."""
    with tempfile.TemporaryDirectory() as room:
        for name, content in files.items():
            os.makedirs(os.path.dirname(f"{room}/{name}"), exist_ok=True)
            with open(f"{room}/{name}", "w") as file:
                file.write(content)
        reader = midl.Reader(f"{room}/{next(iter(files))}", [f"{room}/{it}" for it in folders])
        library = importing.Importer(reader, "", "", [])
        return library.text, [*reader.notes, *library.lines]


class Lines(ClientCases):
    def left(self, name, items, before, line):
        _, lines = made({"it.idl": TEXT % (before, items, "long")})
        self.tell(name, line in lines, lines)

    def test_a_constant(self):
        self.left("const", "const long Most = 7;", "", "const Most: a library has no constants")

    def test_a_define(self):
        self.left("#define", "", "#define MOST 7\n", "#define MOST: a library has no constants")

    def test_a_define_of_nothing_is_a_mark_of_the_text_alone(self):
        _, lines = made({"it.idl": TEXT % ("#define MARK\n", "", "long")})
        self.same("lines", lines, [])

    def test_a_struct_in_front_of_the_library(self):
        self.left(
            "typedef struct",
            "",
            "typedef struct Point { long x; } Point;\n",
            "struct Point: a library has none",
        )

    def test_the_constants_of_an_enum_with_attributes(self):
        line = "enum Colors, its constants red, green: a library has no constants"
        self.left(
            "an enum",
            f"typedef [uuid({GUID}09), public] enum Colors {{ red, green = 5 }} Color;",
            "",
            line,
        )

    def test_many_constants_are_counted(self):
        names = [f"c{it}" for it in range(20)]
        line = (
            f"enum Many, its constants {', '.join(names[:8])} and 12 more: a library has no "
            "constants"
        )
        self.left("twenty", f"enum Many {{ {', '.join(names)} }};", "", line)


class Outputs(ClientCases):
    def test_the_file_that_is_read_is_not_written_over(self):
        with tempfile.TemporaryDirectory() as room:
            with open(f"{room}/it.idl", "w") as file:
                file.write(TEXT % ("", "", "long"))
            os.symlink("it.idl", f"{room}/link.idl")
            for command, output in (
                ("import", "it.idl"),
                ("import", "link.idl"),
                ("stubs", "./it.idl"),
            ):
                done = subprocess.run(
                    [sys.executable, "-m", "oaut", command, "it.idl", "-o", output],
                    cwd=room,
                    env=ENVIRONMENT,
                    capture_output=True,
                    text=True,
                )
                with open(f"{room}/it.idl") as file:
                    self.same(f"{command} {output}: the file", file.read(), TEXT % ("", "", "long"))
                wanted = (
                    1,
                    f"python3 -m oaut: {output}: that is the file itself; name another one by -o\n",
                )
                self.same(
                    f"{command} {output}: what is said", (done.returncode, done.stderr), wanted
                )


class Numbers(ClientCases):
    def test_numbers_are_those_of_C(self):
        for given, wanted in (
            ("010", 8),
            ("0", 0),
            ("0x10", 16),
            ("-7 / 2", -3),
            ("7 / -2", -3),
            ("-7 / -2", 3),
            ("-7 % 2", -1),
            ("7 % -2", 1),
            ("-8 / 2", -4),
        ):
            text, lines = made(
                {
                    "it.idl": (TEXT % ("", "", "long")).replace(
                        "[in] long", f"[in, defaultvalue({given})] long"
                    )
                }
            )
            self.tell(
                f"{given} is {wanted}",
                f"defaultvalue({wanted})]" in text and not lines,
                (text, lines),
            )
        _, lines = made(
            {
                "it.idl": (TEXT % ("", "", "long")).replace(
                    "interface I : IDispatch {",
                    "interface I : IDispatch { [id(09)] HRESULT None();",
                )
            }
        )
        self.tell("09 is no number", any("None" in it and "no DISPID" in it for it in lines), lines)


class Imports(ClientCases):
    COLORS = "typedef [v1_enum] enum Colors { red, green } Color;\n"

    def kept(self, name, files, *folders, lines=()):
        text, told = made(files, *folders)
        self.tell(f"{name}: its member", "[id(1)] void Paint([in] long by);" in text, text)
        self.same(f"{name}: lines", told, list(lines))

    def test_a_file_beside(self):
        self.kept(
            "beside",
            {"it.idl": TEXT % ('import "colors.idl";\n', "", "Color"), "colors.idl": self.COLORS},
        )

    def test_a_file_in_a_folder_that_is_given(self):
        files = {
            "it.idl": TEXT % ('import "colors.idl";\n', "", "Color"),
            "more/colors.idl": self.COLORS,
        }
        self.kept("in a folder", files, "more")

    def test_an_included_file_in_a_folder_that_is_given(self):
        files = {
            "it.idl": TEXT % ('#include "colors.idl"\n', "", "Color"),
            "more/colors.idl": self.COLORS,
        }
        self.kept(
            "included",
            files,
            "more",
            lines=["enum Colors, its constants red, green: a library has no constants"],
        )

    def test_an_import_within_a_library(self):
        self.kept(
            "within",
            {"it.idl": TEXT % ("", 'import "colors.idl";', "Color"), "colors.idl": self.COLORS},
        )

    def test_an_import_of_an_import(self):
        files = {
            "it.idl": TEXT % ('import "one.idl";\n', "", "Color"),
            "one.idl": 'import "colors.idl";',
            "colors.idl": self.COLORS,
        }
        self.kept("of an import", files)

    def test_files_that_import_each_other(self):
        files = {
            "it.idl": TEXT % ('import "one.idl";\n', "", "Color"),
            "one.idl": f'import "it.idl"; import "one.idl";{self.COLORS}',
        }
        self.kept("each other", files)

    def test_a_library_of_an_imported_file_is_not_the_text_s(self):
        other = self.COLORS + f"[uuid({GUID}07)] library Other {{ interface X; }};"
        self.kept(
            "another library",
            {"it.idl": TEXT % ('import "colors.idl";\n', "", "Color"), "colors.idl": other},
        )

    def test_a_define_of_an_imported_file_stays_there(self):
        self.kept(
            "a define",
            {
                "it.idl": TEXT % ('import "colors.idl";\n', "", "long"),
                "colors.idl": "#define long short\n",
            },
        )

    def test_a_file_that_is_not_there(self):
        _, lines = made({"it.idl": TEXT % ('import "nowhere.idl";\n', "", "long")})
        self.same(
            "its line",
            lines,
            ['import "nowhere.idl": not found, skipped; -I FOLDER names its folder'],
        )

    def test_imports_within_imports_end(self):
        files = {
            "it.idl": TEXT % ('import "0.idl";\n', "", "long"),
            **{f"{it}.idl": f'import "{it + 1}.idl";' for it in range(40)},
        }
        with self.assertRaisesRegex(ValueError, "import within import, 16 deep"):
            made(files)

    def test_the_command(self):
        with tempfile.TemporaryDirectory() as room:
            os.mkdir(f"{room}/more")
            for name, content in (
                ("it.idl", TEXT % ('import "colors.idl";\n', "", "Color")),
                ("more/colors.idl", self.COLORS),
            ):
                with open(f"{room}/{name}", "w") as file:
                    file.write(content)
            words = [sys.executable, "-m", "oaut", "import", f"{room}/it.idl", "-I", f"{room}/more"]
            done = subprocess.run(
                words, env=ENVIRONMENT, capture_output=True, text=True, timeout=300
            )
            said = (done.returncode, done.stderr, "Paint" in done.stdout)
            self.same(
                "its words",
                said,
                (
                    0,
                    "1 interfaces, 1 coclasses, 1 members kept; 0 lines of what is left out\n",
                    True,
                ),
            )


if __name__ == "__main__":
    unittest.main()
