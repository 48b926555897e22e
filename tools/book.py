#!/usr/bin/env python3
"""The promises as a book of linked pages: each name of a definition leads to its own definition.

    python3 tools/book.py FOLDER   writes the pages; begin with FOLDER/index.html
    python3 tools/book.py --check  writes them into a temporary folder and checks every link

The first page is a picture: the promises of README, the definitions of each, the functions that
have these in their contracts, and how much is below. The other pages have the definitions that
tools/spec.py finds below the promises, a page for each file of specs/. Beside each definition are
its comment and the definitions that use it.
"""
import argparse
import collections
import html
import os
import re
import sys
import tempfile

sys.dont_write_bytecode = True
sys.path.insert(0, os.path.dirname(os.path.abspath(__file__)))
import spec

STYLE = """<!DOCTYPE html><html lang="en"><meta charset="utf-8"><meta name="viewport" \
content="width=device-width">
<style>
body { font: 15px/1.5 system-ui, sans-serif; max-width: 76em; margin: 2em auto; padding: 0 1em; \
color: #222 }
section { display: grid; grid-template-columns: minmax(0, 3fr) minmax(14em, 1fr); gap: 0 1.5em; \
border-top: 1px solid #ddd; padding: .6em 0 }
section h3 { grid-column: 1 / 3; margin: .2em 0 } pre { background: #f6f6f4; padding: .7em; \
white-space: pre-wrap; margin: 0 }
aside { color: #255; font-size: .92em } aside small { color: #666 } a { color: #0645ad; \
text-decoration: none } a:hover { text-decoration: underline }
svg { max-width: 100%; height: auto } svg text { font: 13px system-ui, sans-serif } svg .promise { \
font-weight: 600; font-size: 15px }
.count, .of { fill: #666 } svg a text { fill: #0645ad } .bar { fill: #8fb3d9 } .line { fill: none; \
stroke: #bbb }
</style>"""
TOKEN = re.compile(rf"{spec.NAME}(?:\.{spec.NAME})?|[<>&]")
MOST_USERS = 12


def shown(text):
    """Text of a page of docs/ as HTML: links as their words, and what is marked."""
    text = html.escape(re.sub(r"\[([^\]]*)\]\([^)]*\)", r"\1", text), quote=False)
    text = re.sub(r"\*\*(.+?)\*\*", r"<b>\1</b>", text)
    return re.sub(r"`([^`]+)`", r"<code>\1</code>", text)


def proved_of(path):
    """The functions that a page names beside each definition of a promise, in the columns
    `Definition` and `Proved of`."""
    with open(path, encoding="utf-8") as file:
        rows = re.search(
            r"^\| Promise \| Definition \| File \| Proved of \|\n\|.*\n((?:\|.*\n)*)",
            file.read(),
            re.MULTILINE,
        )[1]
    found = {}
    for row in rows.splitlines():
        _, names, _, functions = row.strip("|").split(" | ")
        functions = re.sub(r" \(\[.*?\]\(.*?\)\)|, above", "", re.sub(r"`", "", functions)).strip()
        found |= {name: functions for name in re.findall(r"`([^`]+)`", names)}
    return found


class Pages:
    """The pages of the book."""

    def __init__(self):
        self.book = spec.Book()
        self.roots = {
            number: [root for it in words for root in self.book.roots(it)]
            for number, words in spec.SENTENCES.items()
        }
        self.promise = self.book.closure([it for some in self.roots.values() for it in some])
        self.below = {it: self.book.closure([it]) for some in self.roots.values() for it in some}
        self.users, self.links = collections.defaultdict(list), 0
        for key in self.promise:
            for it in self.book.named_by(key):
                self.users[it].append(key)

    def page(self, module):
        return module.replace(".specs.", "-") + ".html"

    def link(self, key, words=None):
        self.links += 1
        return (
            f'<a href="{self.page(key[0])}#{html.escape(key[1])}">{html.escape(words or key[1])}</'
            "a>"
        )

    def linked(self, key):
        """The lines of a definition, each name in them a link."""
        module = key[0]
        known, modules = {**self.book.imports[module], **self.book.own[module]}, self.book.modules[
            module
        ]

        def word(found):
            name = found.group(0)
            of, _, own = name.partition(".")
            to = (modules[of], own) if own and of in modules else known.get(name)
            to = to and self.book.where(to)
            return self.link(to, name) if to in self.included and to != key else html.escape(name)

        return "\n".join(
            TOKEN.sub(word, line)
            for line in self.book.definitions[key].lines
            if not line.lstrip().startswith("--")
        )

    def definition(self, key):
        comment = " ".join(
            it.strip().lstrip("- ")
            for it in self.book.definitions[key].lines
            if it.lstrip().startswith("--")
        )
        users = self.users[key]
        used = ", ".join(self.link(it) for it in users[:MOST_USERS]) + (
            f" and {len(users) - MOST_USERS} more" if len(users) > MOST_USERS else ""
        )
        used = f"Used by {used}" if users else "The definition of a promise"
        return (
            f'<section id="{html.escape(key[1])}"><h3>{html.escape(key[1])}</h3><pre>'
            f"{self.linked(key)}</pre>"
            f"<aside><p>{html.escape(comment)}</p><small>{used}</small></aside></section>"
        )

    def picture(self, said):
        """The promises; below each its definitions, the functions that have them in their
        contracts, and how much is below each."""
        proved, most = proved_of(spec.PAGE), max(len(it) for it in self.below.values())
        lines, top = [], 0
        for number, roots in self.roots.items():
            title = re.match(r"\*\*(.+?)\*\*", said[number])[1]
            lines.append(
                f'<text class="promise" x="0" y="{top + 18}">{number}. {html.escape(title)}</text>'
            )
            lines += self.rows(roots, proved, most, top + 26)
            top += 36 + 22 * len(roots)
        return (
            '<svg role="img" aria-label="promises, contracts and definitions" viewBox="0 0 1000 '
            f'{top}" width="1000" height="{top}">{"".join(lines)}</svg>'
        )

    def rows(self, roots, proved, most, top):
        for place, key in enumerate(roots):
            at, many, width = (
                top + 22 * place,
                len(self.below[key]),
                max(2, 180 * len(self.below[key]) // most),
            )
            to, name = f"{self.page(key[0])}#{html.escape(key[1])}", html.escape(key[1])
            yield (
                f'<path class="line" d="M 8 {at - 7} V {at + 8} H 20"/><a href="{to}"><text x="26" '
                f'y="{at + 13}">{name}</text></a>'
            )
            yield (
                '<text class="of" x="270" '
                f'y="{at + 13}">{html.escape(proved.get(key[1], proved.get("Disk", "")))}</text>'
            )
            yield f'<rect class="bar" x="620" y="{at + 1}" width="{width}" height="15"/>'
            yield (
                f'<text class="count" x="{628 + width}" y="{at + 13}">{many:,} definitions, '
                f"{self.book.lines(self.below[key]):,} lines</text>"
            )

    def write(self, folder):
        os.makedirs(folder, exist_ok=True)
        self.included = set(self.promise)
        modules = collections.defaultdict(list)
        for key in self.promise:
            modules[key[0]].append(key)
        for module, keys in modules.items():
            text = (
                f'{STYLE}<title>{module}</title><h1>{module}</h1><p><a href="index.html">The '
                "promises</a></p>" + "".join(map(self.definition, keys))
            )
            self.put(folder, self.page(module), text)
        said = spec.promises(spec.README)
        if {*said} != {*self.roots}:
            sys.exit(
                f"README.md has the promises {sorted(said)}, and tools/spec.py {sorted(self.roots)}"
            )
        items = "".join(
            f'<li value="{number}">{shown(said[number])}<br><small>Begin with '
            f'{", ".join(map(self.link, some))}.</small></li>'
            for number, some in self.roots.items()
        )
        text = (
            "<title>The promises of oaut</title><h1>The promises of "
            f"oaut</h1>{self.picture(said)}<ol>{items}</ol>"
        )
        text += (
            f"<p>{len(self.promise):,} definitions in {len(modules)} files, "
            f"{self.book.lines(self.promise):,} lines.</p>"
        )
        self.put(folder, "index.html", STYLE + text)
        return len(modules) + 1

    def put(self, folder, name, text):
        with open(f"{folder}/{name}", "w", encoding="utf-8") as file:
            file.write(text)


def dangling(folder):
    """The links of the pages in a folder that lead nowhere."""
    texts = {}
    for name in os.listdir(folder):
        with open(f"{folder}/{name}", encoding="utf-8") as file:
            texts[name] = file.read()
    places = {name: {*re.findall(r'id="([^"]*)"', text)} for name, text in texts.items()}
    found = []
    for name, text in texts.items():
        for to, place in re.findall(r'href="([^"#]*)(?:#([^"]*))?"', text):
            if to not in places or place and place not in places[to]:
                found.append(f"{name}: {to}#{place}")
    return found


def main():
    parser = argparse.ArgumentParser(
        description=__doc__, formatter_class=argparse.RawDescriptionHelpFormatter
    )
    parser.add_argument(
        "--check", action="store_true", help="check that every link leads to a definition"
    )
    parser.add_argument("folder", metavar="FOLDER", nargs="?", help="folder for the pages")
    given = parser.parse_args()
    if given.check == bool(given.folder):
        parser.error("name a FOLDER, or --check")
    pages = Pages()
    with tempfile.TemporaryDirectory() as room:
        folder = given.folder or room
        many = pages.write(folder)
        wrong = dangling(folder) if given.check else []
    print(
        "\n".join(
            [
                *wrong,
                f"{many} pages, {len(pages.promise)} definitions, {pages.links} links"
                + (f", {len(wrong)} lead nowhere" if given.check else ""),
            ]
        )
    )
    return int(bool(wrong))


if __name__ == "__main__":
    sys.exit(main())
