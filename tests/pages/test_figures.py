"""Measurements are on one page, docs/benchmarks.md. Each figure with a unit of time or memory on
another page is a constant or a limit, and tests/tables/figures.txt names the file that defines
it."""
import re
import unittest

from tests.support.running import ROOT, Cases, rows_of

from tools import style

BENCHMARKS = "docs/benchmarks.md"
NUMBER = (
    r"(?<![\w.,/:=<`-])(?:\d[\d,]*(?:\.\d+)?|(?:one|two|three|four|five|six|seven|eight|nine|ten|"
    r"twenty|thirty|some|few|several)(?: or \w+)?)"
)
UNIT = (
    r"(?:(?:puts|gets|requests|[kKMG]i?B) (?:a|per) second|CPU (?:seconds?|minutes?)"
    r"|(?:µ|m|micro|milli)s(?:econds?)?|s|seconds?|minutes?|hours?|days?|[kKMGT]i?B|%|instructions)"
)
FIGURE = re.compile(rf"\b{NUMBER}(?: more)? {UNIT}(?![\w-])", re.IGNORECASE)
# words that only measurements have: a day, and places in a distribution
MEASURED = re.compile(
    r"\b\d{1,2} (?:January|February|March|April|May|June|July|August|September|October|November|"
    r"December) 20\d\d\b|\b20\d\d-\d\d-\d\d\b(?!T)|\bp(?:50|95|99)\b"
    r"|\((?:median|minimum|maximum)\)",
    re.IGNORECASE,
)
# texts with figures of measurements, as pages had them, each with what is found in it
FOUND = (
    ("another machine takes over in 18 s (median)", ["18 s", "(median)"]),
    (
        "It disconnects 500 ms after the last reply, and reconnects in some 20 ms.",
        ["500 ms", "20 ms"],
    ),
    ("A put takes 756 instructions as a record.", ["756 instructions"]),
    ("One connection makes about 2,600 gets a second.", ["2,600 gets a second"]),
    ("damaged tokens: 1,000,000 on 30 November 2026", ["30 November 2026"]),
    ("the first takes 30 to 55 minutes, the second 1 to 2 hours", ["55 minutes", "2 hours"]),
    ("this takes one or two seconds for a store of 75 MB", ["one or two seconds", "75 MB"]),
    ("puts of 4 MiB run at 2,174 MB a second", ["4 MiB", "2,174 MB a second"]),
    ("24 % to 38 % fewer", ["24 %", "38 %"]),
    ("a small crate costs 57 CPU seconds", ["57 CPU seconds"]),
)
CLEAN = (
    "version 0.2.0 has 12 opcodes, and 65,536 objects",
    "`--idle 600 s`",
    "at most once a second",
    "by the date 2026-11-28T08:00:00Z",
)


def figures(text):
    """The figures with a unit in a text, and the words of measurements, in their order."""
    text = style.plain(" ".join(text.split()))
    return [
        it[0]
        for it in sorted(
            [*FIGURE.finditer(text), *MEASURED.finditer(text)], key=lambda it: it.start()
        )
    ]


class Figures(Cases):
    def test_each_figure_of_a_page_is_defined(self):
        rows = [tuple(it.strip() for it in line.split("|")) for line in rows_of("figures.txt")]
        self.tell(
            "each row has a page, a figure, a file and its text",
            rows and all(len(it) == 4 for it in rows),
            rows,
        )
        self.tell("no row is there twice", len(rows) == len({*rows}))
        known = {}
        for page, figure, path, text in rows:
            known[page, figure] = 0
            with open(f"{ROOT}/{path}", encoding="utf-8") as file:
                self.tell(
                    f"{page}: {figure} is defined in {path}",
                    text in " ".join(file.read().split()),
                    text,
                )
        for page in style.pages():
            if page != BENCHMARKS:
                with open(f"{ROOT}/{page}", encoding="utf-8") as file:
                    units = list(style.units(file.read()))
                for _, number, text in units:
                    for it in figures(text):
                        self.tell(
                            f"{page}:{number}: {it}: a constant is in tests/tables/figures.txt, a "
                            f"measurement on {BENCHMARKS}",
                            (page, it) in known,
                            text,
                        )
                        known[page, it] = 1
        left = [it for it, is_there in known.items() if not is_there]
        self.tell("each row is of a figure that a page has", not left, left)

    def test_each_section_says_how_it_was_measured(self):
        """With a script or a command; its date is in its text, or that of the page's head."""
        with open(f"{ROOT}/{BENCHMARKS}", encoding="utf-8") as file:
            head, *sections = re.split(r"^## ", file.read(), flags=re.MULTILINE)
        self.tell(
            "the head has date, version and machine",
            all(
                re.search(it, head)
                for it in (r"20\d\d-\d\d-\d\d", r"version \d+\.\d+\.\d+", "processors of an")
            ),
            head,
        )
        self.tell("there are sections", len(sections) > 10, len(sections))
        for section in sections:
            has_command = re.search(
                r"`(?:python3 |bench/|tests/|tools/|\.ci/run|\w+\.py|cscript |ulimit|du\b)", section
            )
            self.tell(f"the command of {section.splitlines()[0]}", has_command, section[:200])

    def test_what_is_found(self):
        for text, wanted in FOUND:
            self.tell(text, figures(text) == wanted, figures(text))
        for text in CLEAN:
            self.tell(text, figures(text) == [], figures(text))


if __name__ == "__main__":
    unittest.main()
