"""The documents: lines of at most 100 columns (120 in specs/), tables whose cells are short, links
that lead somewhere, pictures that are of crates.txt."""
import glob
import os
import re
import shutil
import subprocess
import sys
import tempfile
import unittest

from tests.support.running import ROOT, Cases
from tools import spec

COLUMNS = 100
SPECS_COLUMNS = 120
# the most words of docs/, and of its decisions, as `wc -w` counts them
WORDS, DECISIONS = 70_000, 8_000
LAID_OUT = (
    "bench",
    "dist",
    "dist/pack",
    "dist/image",
    "dist/lib/haproxy-stores",
    "dist/container/start",
    "dist/container/probe",
    "dist/container/copy",
    "examples",
    "tests",
    "tools",
)
PAGES = sorted(
    os.path.relpath(it, ROOT)
    for it in [
        *glob.glob(f"{ROOT}/*.md"),
        *glob.glob(f"{ROOT}/docs/**/*.md", recursive=True),
        *glob.glob(f"{ROOT}/clients/**/*.md", recursive=True),
    ]
)
SPECS = sorted(
    os.path.relpath(it, ROOT)
    for it in glob.glob(f"{ROOT}/crates/*/specs/**/*.antt", recursive=True)
)


def read(path):
    with open(f"{ROOT}/{path}", encoding="utf-8") as file:
        return file.read()


class Docs(Cases):
    def test_lines_and_cells(self):
        for path in PAGES:
            lines = read(path).split("\n")
            long = [
                f"{number}: {line}"
                for number, line in enumerate(lines, 1)
                if len(line) > COLUMNS and not line.startswith("|")
            ]
            self.tell(f"lines of {path}", not long, long)
            cells = [
                cell.strip()
                for line in lines
                if line.startswith("|")
                for cell in line.strip("|").split(" | ")
            ]
            wide = [it for it in cells if len(re.sub(r"\]\([^)]*\)", "]", it)) > COLUMNS]
            self.tell(f"cells of {path}", not wide, wide)
        self.tell("README has at most 120 lines", len(read("README.md").splitlines()) <= 120)
        self.tell("README's lines", max(map(len, read("README.md").splitlines())) <= COLUMNS)
        lines = [
            f"{path}:{number}: {line}"
            for path in SPECS
            for number, line in enumerate(read(path).split("\n"), 1)
            if len(line) > SPECS_COLUMNS
        ]
        self.tell("lines of specs/", SPECS and not lines, lines)

    def test_there_are_not_too_many_words(self):
        counts = {path: len(read(path).split()) for path in PAGES if path.startswith("docs/")}
        decisions = sum(count for path, count in counts.items() if "/decisions/" in path)
        self.tell(
            "words of docs/",
            len(counts) > 60 and sum(counts.values()) <= WORDS,
            sum(counts.values()),
        )
        self.tell("words of decisions", 0 < decisions <= DECISIONS, decisions)

    def test_links(self):
        for path in PAGES:
            for to in re.findall(r"\]\(([^)#:]+)(?:#[^)]*)?\)", read(path)):
                self.tell(
                    f"{path}: {to}", os.path.exists(os.path.join(ROOT, os.path.dirname(path), to))
                )

    def test_each_page_is_in_an_index(self):
        """Each page of docs/ is named by the README.md of its folder, and each of these by the one
        of the folder above."""
        for path in PAGES:
            folder, name = os.path.split(path)
            if folder.split("/")[0] == "docs" and path != "docs/README.md":
                index = (
                    f"{folder}/README.md"
                    if name != "README.md"
                    else f"{os.path.dirname(folder)}/README.md"
                )
                to = name if name != "README.md" else f"{os.path.basename(folder)}/{name}"
                self.tell(
                    f"{index} names {to}",
                    os.path.exists(f"{ROOT}/{index}") and f"({to})" in read(index),
                )

    def test_crates(self):
        names = re.findall(r"^(\w+)(?: staticlib)?:", read("crates.txt"), re.MULTILINE)
        self.tell(
            "crates of docs/internals/map.md",
            sorted(re.findall(r"^\| \[(\w+)\]", read("docs/internals/map.md"), re.MULTILINE))
            == sorted(names),
            names,
        )
        sections = re.findall(r"^## ([\w, ]+):", read("docs/internals/proved.md"), re.MULTILINE)
        told = [it for line in sections for it in line.split(", ")]
        self.tell(
            "crates of docs/internals/proved.md",
            sorted(told) == sorted(it for it in names if not it.endswith("_tests")),
            told,
        )
        done = subprocess.run(
            [sys.executable, f"{ROOT}/tools/draw.py", "--check"], capture_output=True, text=True
        )
        self.tell("the pictures", done.returncode == 0, done.stdout)

    def test_one_word_has_one_meaning(self):
        done = subprocess.run(
            [sys.executable, f"{ROOT}/tools/names.py"], capture_output=True, text=True
        )
        self.tell("names with one meaning", done.returncode == 0, done.stdout + done.stderr)

    def test_how_much_there_is_to_read(self):
        done = subprocess.run(
            [sys.executable, f"{ROOT}/tools/spec.py", "--check"], capture_output=True, text=True
        )
        self.tell(
            "the definitions below each promise", done.returncode == 0, done.stdout + done.stderr
        )

    def test_a_definition_in_the_wrong_folder(self):
        """spec.py names a definition of specs/promise/ that no promise needs, and one outside that
        a promise needs; a lemma that one carries is needed."""
        files = {
            "promise/Sums": "use Rattle.low.specs.Parts.{added}\n"
            "use Rattle.low.specs.promise.Laws.{law}\n\n"
            "-- the promise\nabbrev pub total : List ℕ → ℕ\ntotal xs = added xs law\n\n"
            "abbrev pub spare : ℕ\nspare = 1\n",
            "promise/Laws": "pub law : ⊤\nlaw = tt\n",
            "Parts": (
                "abbrev pub added : List ℕ → ⊤ → ℕ\nadded xs t = 0\n\nabbrev pub other : ℕ\n"
                "other = 2\n"
            ),
        }
        with tempfile.TemporaryDirectory() as root:
            for name, text in files.items():
                path = f"{root}/crates/low/specs/{name}.antt"
                os.makedirs(os.path.dirname(path), exist_ok=True)
                with open(path, "w", encoding="utf-8") as file:
                    file.write(text)
            found = spec.Book(root).misplaced([("low.specs.promise.Sums", "total")])
        told = [(it.split(":")[0], "into" in it) for it in found]
        self.tell(
            "a spare one, and one that is missing",
            told == [("low.specs.promise.Sums.spare", False), ("low.specs.Parts.added", True)],
            found,
        )

    def test_the_book_of_the_promises(self):
        done = subprocess.run(
            [sys.executable, f"{ROOT}/tools/book.py", "--check"], capture_output=True, text=True
        )
        self.tell(
            "every link of the book leads to a definition",
            done.returncode == 0 and ", 0 lead nowhere" in done.stdout,
            done.stdout[-500:] + done.stderr,
        )

    def test_the_glossary_is_linked_from_each_page(self):
        for path in [*glob.glob(f"{ROOT}/docs/**/*.md", recursive=True), f"{ROOT}/README.md"]:
            page = os.path.relpath(path, ROOT)
            if page == "docs/glossary.md":
                continue
            to = os.path.relpath("docs/glossary.md", os.path.dirname(page))
            head = read(page) if page == "README.md" else "\n".join(read(page).split("\n")[:20])
            self.tell(f"the head of {page}", f"]({to})" in head, head[:200])

    def test_recipes_name_what_there_is(self):
        """Each file that CONTRIBUTING.md's recipes name is in the repository, by its path or by its
        name alone."""
        recipes = read("CONTRIBUTING.md").partition("## Recipes")[2].partition("\n## ")[0]
        named = {
            it
            for it in re.findall(r"`([\w./-]+)`", recipes)
            if re.search(r"\.(py|c|h|rt|md|txt|bash|idl)$|/$|/[A-Z]\w+$", it)
        }
        named |= set(re.findall(r"(?<![\w/`])[\w/-]+\.md", recipes))
        paths = subprocess.run(
            ["git", "-C", ROOT, "ls-files"], capture_output=True, text=True
        ).stdout.split()
        ends = {f"/{path.removesuffix('.antt')}" for path in paths} | {
            f"/{os.path.dirname(path)}/" for path in paths
        }
        # (a folder of a crate is named without the crate)
        self.tell("files of recipes", len(named) > 60, named)
        lost = sorted(
            it
            for it in named
            if not any(
                end.endswith(f"/{it}") or it.endswith("/") and f"/{it}" in end for end in ends
            )
        )
        self.tell("each is there", not lost, lost)

    @unittest.skipUnless(shutil.which("black"), "black is not there")
    def test_how_python_is_laid_out(self):
        """As Debian's black has it: another version of it may have another mind."""
        said = subprocess.run(["black", "--version"], capture_output=True, text=True).stdout
        if "23.1." not in said:
            self.skipTest("black 23.1 is not there")
        done = subprocess.run(
            ["black", "--check", "--quiet", *(f"{ROOT}/{it}" for it in LAID_OUT)],
            capture_output=True,
            text=True,
        )
        self.tell("black has nothing to change", done.returncode == 0, done.stderr[-500:])

    @unittest.skipUnless(shutil.which("clang-format-14"), "clang-format-14 is not there")
    def test_how_c_is_laid_out(self):
        """As Debian's clang-format has it, by the .clang-format of the repository."""
        files = sorted(
            it
            for of in ("bench", "clients", "tests")
            for it in glob.glob(f"{ROOT}/{of}/**/*.[ch]", recursive=True)
        )
        done = subprocess.run(
            ["clang-format-14", "--dry-run", "-Werror", *files], capture_output=True, text=True
        )
        self.tell(
            "clang-format has nothing to change",
            len(files) > 30 and done.returncode == 0,
            (len(files), done.stderr[:500]),
        )
