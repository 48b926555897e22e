#!/usr/bin/env python3
"""Finds sentences that are hard to read: in the pages, in manual pages, in docstrings, messages and
`--help` texts of Python and C, and in the messages of the crates.

    python3 tools/style.py [FILE ..]    prints FILE:LINE: RULE: SENTENCE for each finding, in some
        files or in all

It finds what a program can check. Code, commands, link targets and comments of Python are not
checked. Without files it reads the manual pages, too, as dist/manual.py makes them.
"""
import ast
import glob
import os
import re
import sys
import textwrap

ROOT = os.path.dirname(os.path.dirname(os.path.abspath(__file__)))
# the most words of a sentence: of a page, and of a docstring or message
PAGES_LONGEST, LONGEST = 25, 35

# "where" is a place after these words and before "to", and a condition elsewhere
OF_PLACES = "place|point|page|file|folder|directory|machine|host|line|section|know|knows|shows|see"
OF_A_PLACE = re.compile(rf"\b(?:{OF_PLACES})s? where\b", re.IGNORECASE)
WORDS = {
    "`behind`": re.compile(r"\bbehind\b", re.IGNORECASE),
    "`where` for `if` or `when`": re.compile(r"\bwhere\b(?! to\b)", re.IGNORECASE),
    "`is told`": re.compile(r"\b(?:is|are|was|were|be|been|being) told\b", re.IGNORECASE),
    "`hands out`": re.compile(r"\bhand(?:s|ed|ing)? out\b", re.IGNORECASE),
    "`stands`": re.compile(r"\b(?:stands?|stood)\b", re.IGNORECASE),
    "`is asked for`": re.compile(r"\b(?:is|are|was|were) asked for\b", re.IGNORECASE),
    "`let go`": re.compile(r"\blets? go\b", re.IGNORECASE),
}
# of comments: their first words, and words that they have in no other sense
COMMENTS = {
    **{
        rule: pattern
        for rule, pattern in WORDS.items()
        if "where" not in rule and "asked for" not in rule
    },
    "`stands`": re.compile(r"\bstands?\b", re.IGNORECASE),
    "`is told`, `tells`": re.compile(r"\btells?\b|\btold\b", re.IGNORECASE),
    "begins with `Who` or `The same`": re.compile(
        r"^(?:Who(?:ever)?|The same(?= (?:of|by|where|with)\b))\b"
    ),
}
# a condition of SQL
SQL = re.compile(
    r"\bWHERE \w+ =|\b(?:update|select|delete)\b.*\bwhere\b|^\s*where \w+ =", re.IGNORECASE
)
BEGINS = re.compile(r"^[\W_]*(Who|What|Whoever|Whatever)\b")
END = re.compile(r"(?<=[.!?])[\"')*_]*\s+(?=[\"'(*_`]*[A-Z0-9`])")
ABBREVIATIONS = re.compile(r"(?:^|[\s(])(?:e\.g|i\.e|etc|vs|cf|No|Fig|sec|p)\.$")
ITEM = re.compile(r"^ *(?:[-*+]|\d+[.)]) +")


def pages():
    """All pages, as paths from the root."""
    found = [*glob.glob(f"{ROOT}/*.md")]
    for folder in ("docs", "clients", "examples", "bench", "dist"):
        found += glob.glob(f"{ROOT}/{folder}/**/*.md", recursive=True)
    return sorted({os.path.relpath(it, ROOT) for it in found})


def sources():
    """The files whose docstrings and messages are checked, in Python, C and Rattle, as paths from
    the root."""
    found = [
        os.path.relpath(it, ROOT)
        for it in glob.glob(f"{ROOT}/crates/*/src/**/*.rt", recursive=True)
    ]
    for folder in ("bench", "clients", "dist", "examples", "tools"):
        for path in glob.glob(f"{ROOT}/{folder}/**/*", recursive=True):
            # (the texts of this file are the patterns)
            if (
                os.path.isfile(path)
                and "/tests/" not in os.path.relpath(path, ROOT)
                and os.path.basename(path) != "style.py"
                and not os.path.basename(path).startswith("test_")
                and (path.endswith((".c", ".h")) or is_python(path))
            ):
                found.append(os.path.relpath(path, ROOT))
    return sorted(found)


def is_python(path):
    """Whether a file is Python, by its name or by its first line."""
    if path.endswith(".py"):
        return True
    with open(path, "rb") as file:
        return file.readline().startswith((b"#!/usr/bin/env python3", b"#!/usr/bin/python3"))


def plain(text):
    """A text without code and link targets: a stretch of code counts as one word."""
    text = re.sub(r"`[^`]*`|(?<!\S)--[\w-]+", "CODE", text)
    text = re.sub(r"!?\[([^\]]*)\]\([^)]*\)", r"\1", text)
    return re.sub(r"<[^>]*>", "", text)


def sentences(text):
    """The sentences of a paragraph."""
    found = []
    for part in END.split(plain(" ".join(text.split()))):
        if found and ABBREVIATIONS.search(found[-1]):
            found[-1] += f" {part}"
        elif part.strip():
            found.append(part.strip())
    return found


def units(page):
    """The paragraphs, items of lists, headings and cells of a page: a kind, the number of the first
    line, the text."""
    kind, begun, told, fenced, before = None, 0, [], False, ""
    for number, line in enumerate([*page.split("\n"), ""], 1):
        if line.lstrip().startswith("```"):
            fenced = not fenced
            line, is_code = "", True
        else:
            is_code = (
                fenced
                or not before.strip()
                and line.startswith("    ")
                and kind != "item"
                or kind == "code"
                and line.startswith("    ")
            )
        is_item, is_table, is_heading = ITEM.match(line), line.startswith("|"), line.startswith("#")
        if told and (is_code or not line.strip() or is_item or is_table or is_heading):
            yield kind, begun, "\n".join(told)
            told = []
        if is_code:
            kind = "code"
        elif is_table:
            kind = "table"
            if not re.fullmatch(r"[\s|:-]+", line):
                yield from (
                    ("cell", number, cell.strip())
                    for cell in re.split(r"(?<!\\)\|", line.strip().strip("|"))
                )
        elif is_heading:
            kind = "heading"
            yield kind, number, line.lstrip("# ")
        elif line.strip():
            if not told:
                begun, kind = (
                    number,
                    "item" if is_item or line.startswith("  ") and kind == "item" else "text",
                )
            told.append(ITEM.sub("", line))
        elif kind != "item":
            kind = None
        before = line


def findings(page, longest=PAGES_LONGEST):
    """Yields the violations in a page, or in a docstring with more words in a sentence: a line, a
    rule, a sentence."""
    for kind, number, text in units(page):
        if kind == "cell" and re.match(r"\.\.", text):
            yield number, "a cell begins with `..`", text
        for it in sentences(text):
            for rule, pattern in WORDS.items():
                if pattern.search(OF_A_PLACE.sub("", it)) and not it.endswith("?"):
                    yield number, rule, it
            if (
                kind in ("text", "item")
                and BEGINS.match(it)
                and not it.rstrip("\"')*_").endswith("?")
            ):
                yield number, "begins with `Who` or `What`", it
            count = sum(any(map(str.isalnum, word)) for word in it.split())
            if count > longest:
                yield number, f"{count} words", it


def python_texts(source):
    """The docstrings of a module, and its other texts with CODE for each value: the line, whether
    it is a docstring, the text."""
    documents, parts = set(), set()
    tree = ast.parse(source)
    for it in ast.walk(tree):
        if isinstance(
            it, (ast.Module, ast.ClassDef, ast.FunctionDef, ast.AsyncFunctionDef)
        ) and ast.get_docstring(it):
            documents.add(it.body[0].value)
        elif isinstance(it, ast.JoinedStr):
            parts.update(it.values)
    for it in ast.walk(tree):
        if isinstance(it, ast.JoinedStr):
            yield it.lineno, False, "".join(
                part.value if isinstance(part, ast.Constant) else "CODE" for part in it.values
            )
        elif isinstance(it, ast.Constant) and isinstance(it.value, str) and it not in parts:
            yield it.lineno, it in documents, it.value


def c_texts(source):
    """The texts of a C file, with those side by side as one: the line, False, the text."""
    source = re.sub(
        r"/\*.*?\*/|//[^\n]*",
        lambda it: "\n" * it[0].count("\n")
        if it[0].startswith("/*") and '"' not in it[0]
        else it[0],
        source,
        flags=re.DOTALL,
    )
    for found in re.finditer(r'(?:L?"(?:[^"\\\n]|\\.)*"\s*)+', source):
        pieces = re.findall(r'"((?:[^"\\\n]|\\.)*)"', found[0])
        yield source.count("\n", 0, found.start()) + 1, False, "".join(pieces).replace(
            "\\n", "\n"
        ).replace('\\"', '"')


def text_findings(text):
    """Yields the violations in a message: a rule and a sentence. Each line of a text is read by
    itself."""
    for line in text.split("\n"):
        # (a word alone is a name)
        for it in sentences(
            line
            if " " in line.strip() and not line.startswith("#") and not SQL.search(line)
            else ""
        ):
            yield from (
                (rule, it)
                for rule, pattern in WORDS.items()
                if pattern.search(OF_A_PLACE.sub("", it)) and not it.endswith("?")
            )
            if BEGINS.match(it) and not it.rstrip("\"')*_").endswith("?"):
                yield "begins with `Who` or `What`", it
            words = [word for word in it.split() if any(map(str.isalnum, word))]
            # (a list of names is no sentence)
            if len(words) > LONGEST and {*words} & {"a", "an", "the", "is", "are", "of"}:
                yield f"{len(words)} words", it


def comments(path, source):
    """The comments of a file of a crate or of C, those in lines of their own as one: the line, the
    text."""
    if path.endswith((".c", ".h")):
        for found in re.finditer(r"/\*(.*?)\*/", source, flags=re.DOTALL):
            yield source.count("\n", 0, found.start()) + 1, re.sub(r"\n[ \t]*\*", "\n", found[1])
        return
    begins = re.compile(
        r"\s*(//[/!]?|--)(?: (.*)|$)" if path.endswith(".antt") else r"\s*(//[/!]?)(?: (.*)|$)"
    )
    begun, told, mark = 0, [], None
    for number, line in enumerate([*source.split("\n"), ""], 1):
        found = begins.match(line)
        if told and (not found or found[1] != mark or not found[2]):
            yield begun, "\n".join(told)
            told = []
        if found and found[2]:
            begun, mark = begun if told else number, found[1]
            told.append(found[2])


def comment_findings(path):
    """Yields the violations in the comments of a file: a line, a rule, a sentence."""
    with open(f"{ROOT}/{path}", encoding="utf-8") as file:
        yield from findings_in_comments(path, file.read())


def findings_in_comments(path, source):
    """The same of a text, which the file's name says how to read."""
    for number, text in comments(path, source):
        for it in sentences(text):
            yield from (
                (number, rule, it) for rule, pattern in COMMENTS.items() if pattern.search(it)
            )


def commented():
    """The files whose comments are checked, as paths from the root: code and definitions of the
    crates, and C."""
    found = [
        it
        for end in ("src/**/*.rt", "specs/**/*.antt")
        for it in glob.glob(f"{ROOT}/crates/*/{end}", recursive=True)
    ]
    return sorted(
        [os.path.relpath(it, ROOT) for it in found]
        + [it for it in sources() if it.endswith((".c", ".h"))]
    )


def manual_findings(page):
    """Yields the violations in a manual page in roff, except in its headings, commands and
    examples: a line, a rule, a sentence."""
    is_example = False
    for number, line in enumerate(page.split("\n"), 1):
        if line in (".nf", ".fi"):
            is_example = line == ".nf"
        elif not is_example and not line.startswith("."):
            text = (
                re.sub(r"\\\[u([0-9A-F]{4,})\]", lambda it: chr(int(it[1], 16)), line)
                .replace("\\-", "-")
                .replace("\\&", "")
                .replace("\\e", "\\")
            )
            # bold is code, which counts as one word, or a sentence
            words = [
                it for it in text_findings(re.sub(r"\\f[BR]", "", text)) if not it[0][0].isdigit()
            ]
            counts = [
                it
                for it in text_findings(re.sub(r"\\fB.*?\\fR", "CODE", text))
                if it[0][0].isdigit()
            ]
            yield from ((number, *it) for it in (*words, *counts))


def manuals():
    """The manual pages, by their paths below share/man."""
    sys.path.insert(0, ROOT)
    from dist import manual

    return manual.pages("0")


def found_in(path):
    with open(f"{ROOT}/{path}", encoding="utf-8") as file:
        source = file.read()
    if path.endswith(".md"):
        return list(findings(source))
    found = []
    for number, is_document, text in (
        c_texts(source) if path.endswith((".c", ".h", ".rt")) else python_texts(source)
    ):
        if is_document:
            head, end, rest = text.partition("\n")
            found += (
                (number + line - 1, rule, it)
                for line, rule, it in findings(head + end + textwrap.dedent(rest), LONGEST)
            )
        else:
            found += ((number, rule, it) for rule, it in text_findings(text))
    return found


def main(words):
    if words and words[0].startswith("-"):
        sys.exit(__doc__)
    paths = [os.path.relpath(os.path.abspath(it), ROOT) for it in words] or [*pages(), *sources()]
    found = [(path, *it) for path in paths for it in found_in(path)]
    if not words:
        found += [(path, *it) for path, page in manuals() for it in manual_findings(page)]
        found += [(path, *it) for path in commented() for it in comment_findings(path)]
    for path, number, rule, it in found:
        print(f"{path}:{number}: {rule}: {it}")
    return 1 if found else 0


if __name__ == "__main__":
    sys.exit(main(sys.argv[1:]))
