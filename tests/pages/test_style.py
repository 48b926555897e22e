"""The words of pages, manual pages, docstrings, messages and `--help` texts: tools/style.py finds
nothing in them, and finds each kind of sentence that it is for."""
import os
import tempfile
import unittest

from tests.support.running import ROOT, Cases

from tools import style

# sentences that the pages had, each with the rule against it
FOUND = (
    ("`behind`", "A commit counts from here on: what is behind it is read as a group."),
    ("`behind`", "- The reply of a group leaves behind its gate."),
    (
        "`where` for `if` or `when`",
        "Where requests have used their half, who begins a long one waits for room.",
    ),
    ("`where` for `if` or `when`", "It is refused exactly where no bytes spell a value."),
    ("`where` for `if` or `when`", "| `--bank` | 20,971,520 bytes where nothing is said |"),
    ("`is told`", "Another thread is told `oaut.SessionInUse`, and nothing is sent."),
    ("`hands out`", "A server hands out the replies of a group."),
    ("`stands`", "The head stands at that place of a disk."),
    ("`is asked for`", "The name that is asked for."),
    ("`let go`", "A connection that the server lets go is dialled again."),
    ("begins with `Who` or `What`", "Who reads, adds and writes loses updates."),
    ("begins with `Who` or `What`", "It is so. **What is left of it** opens."),
    ("a cell begins with `..`", "| put of a long | 715 |\n|---|---|\n| .. of a text | 1,778 |"),
    ("26 words", " ".join(["word"] * 26)),
    ("36 words", " ".join(["word"] * 36)),
    ("36 words", "- " + "\n  ".join(["a `code with words` b"] * 12) + "."),
)
# sentences and code that no rule is against
CLEAN = (
    (
        "The server replies after the change is on disk. See the page where a store is described, "
        "and where to put one."
    ),
    "Where is my store? What happens after a crash?",
    "# What is proved\n\nA crash never loses an acknowledged write.",
    (
        "Run this:\n\n    oaut dump items.store  # where nothing is said, behind it\n\n```sql\n"
        "SELECT a WHERE b\n```"
    ),
    "`where` and `behind` are words of code, as [is a link](where-it-is.md).",
    " ".join(["word"] * 20) + ". " + " ".join(["Word"] * 20) + ".",
    "| Place | Meaning |\n|---|---|\n| a..b | a range |",
)
# texts of programs that had them, each with the line of the finding and the rule against it
PYTHON = (
    (1, "begins with `Who` or `What`", '"""Who waits for a reply of it."""\n'),
    (4, "`is told`", 'def act():\n    """It ends.\n\n    The caller is told so."""\n'),
    (1, "`behind`", 'raise ValueError(f"{what} is behind that, which is missing")\n'),
    (
        2,
        "`where` for `if` or `when`",
        'parser.add_argument(\n    "--bank", help="bytes; 20,971,520 where " "nothing is said")\n',
    ),
    (1, "40 words", f'help="{" ".join(["the word"] * 20)}"\n'),
)
C = (
    (1, "`where` for `if` or `when`", 'say("--report S  a line so often, where requests came");\n'),
    (2, "`behind`", 'static const char usage[] =\n    "what is "\n    "behind it\\n";\n'),
    (3, "`is told`", '/* behind it: \n*/\nputs("who comes is told");\n'),
)
# comments that files had, each with the line of the finding and the rule against it
COMMENTS = (
    ("x.rt", 2, "`stands`", "//! A crate.\n/// What stands on it:\n/// the others.\nfn f() {}\n"),
    ("x.rt", 1, "`behind`", "/// Puts a value\n/// behind the others.\nfn f() {}\n"),
    ("x.antt", 1, "begins with `Who` or `The same`", "-- The same of a list.\nf : X\n"),
    ("x.rt", 3, "`hands out`", "/// One.\n///\n/// A refusal hands out the value.\nfn f() {}\n"),
    ("x.c", 2, "`is told`, `tells`", "int x;\n/* Tells the caller\n * of the end. */\n"),
)
CLEAN_COMMENTS = (
    ("x.rt", '/// The same as `f`.\nfn behind() -> &\'static str { "told // stands" }\n'),
    ("x.antt", "-- a list\nstands : X\n"),
)
# manual pages, each with the line of the finding and the rule against it
ROFF = (
    (2, "`behind`", ".SH FILES\nThe group is \\fBbehind the gate\\fR.\n"),
    (
        3,
        "begins with `Who` or `What`",
        '.TH X 1 "" "x" "y"\n.SH DESCRIPTION\n\\fBWho reads it\\fR loses updates.\n',
    ),
    (
        3,
        "`where` for `if` or `when`",
        ".TP\n\\fB\\-\\-bank B\\fR\nbytes; 20,971,520 where nothing is said.\n",
    ),
    (1, "`is told`", "The caller is told \\fBSTG_E_WRITEFAULT\\fR.\n"),
    (1, "36 words", "\\fBa b c d\\fR is " + " ".join(["word"] * 34) + ".\n"),
)
CLEAN_ROFF = (
    (
        ".SH WHAT DUMP PRINTS\n.TP\n\\fBcheck \\-\\-where LIB\\fR\nShows the place.\n.nf\n"
        "# behind it, where nothing is said\n.fi\n"
    ),
    "\\fB" + "a b " * 20 + "\\fR is one word here.\n",
)
CLEAN_PYTHON = (
    "# behind it, where nothing is said\nx = 1\n",
    'NAMES = "' + " ".join(["word"] * 40) + '"\n',
    'print("where is it?", f"{behind}")\n',
)


class Style(Cases):
    def test_pages_and_programs(self):
        for path in [*style.pages(), *style.sources()]:
            found = [f"{number}: {rule}: {it}" for number, rule, it in style.found_in(path)]
            self.tell(f"the sentences of {path}", not found, "\n".join(found))
        kinds = [
            len([it for it in style.sources() if it.endswith(end)])
            for end in (".py", ".c", ".h", ".rt")
        ]
        self.tell("programs of all languages", min(kinds) > 5, kinds)

    def test_comments(self):
        for path in style.commented():
            found = [f"{number}: {rule}: {it}" for number, rule, it in style.comment_findings(path)]
            self.tell(f"the comments of {path}", not found, "\n".join(found))
        kinds = [
            len([it for it in style.commented() if it.endswith(end)])
            for end in (".rt", ".antt", ".c", ".h")
        ]
        self.tell("files of each kind", min(kinds) > 5, kinds)
        for name, line, rule, text in COMMENTS:
            found = [(number, it) for number, it, _ in style.findings_in_comments(name, text)]
            self.tell(f"{rule}: {text}", (line, rule) in found, found)
        for name, text in CLEAN_COMMENTS:
            self.tell(f"nothing: {text}", not [*style.findings_in_comments(name, text)])

    def test_manual_pages(self):
        pages = dict(style.manuals())
        self.tell(
            "there are some", len(pages) >= 6 and min(map(len, pages.values())) > 20, [*pages]
        )
        for path, page in pages.items():
            found = [f"{number}: {rule}: {it}" for number, rule, it in style.manual_findings(page)]
            self.tell(f"the sentences of {path}", not found, "\n".join(found))
        for line, rule, text in ROFF:
            found = [(number, it) for number, it, _ in style.manual_findings(text)]
            self.tell(f"{rule}: {text[:50]}", found == [(line, rule)], found)
        for text in CLEAN_ROFF:
            found = list(style.manual_findings(text))
            self.tell(text[:50], not found, found)

    def test_each_rule_finds_its_texts(self):
        for texts, name in ((PYTHON, "it.py"), (C, "it.c")):
            for line, rule, text in texts:
                with tempfile.TemporaryDirectory() as room:
                    path = f"{room}/{name}"
                    with open(path, "w", encoding="utf-8") as file:
                        file.write(text)
                    found = [(at, it) for at, it, _ in style.found_in(os.path.relpath(path, ROOT))]
                self.tell(f"{rule}: {text[:50]}", found == [(line, rule)], found)

    def test_clean_texts(self):
        for text in CLEAN_PYTHON:
            found = [
                it for _, _, some in style.python_texts(text) for it in style.text_findings(some)
            ]
            self.tell(text[:50], not found, found)

    def test_each_rule_finds_its_sentences(self):
        for rule, text in FOUND:
            found = [it for _, it, _ in style.findings(text)]
            self.tell(f"{rule}: {text[:50]}", found == [rule], found)

    def test_clean_sentences(self):
        for text in CLEAN:
            found = list(style.findings(text))
            self.tell(text[:50], not found, found)


if __name__ == "__main__":
    unittest.main()
