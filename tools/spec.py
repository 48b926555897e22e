#!/usr/bin/env python3
"""The definitions of README's promises, and how much a reader of each has to read.

    python3 tools/spec.py FOLDER      writes a page for each word below: its definition, and each
        that it names, down to lists and numbers
    python3 tools/spec.py --write     writes the three tables of
        docs/internals/reading-the-proofs.md anew
    python3 tools/spec.py --check     compares these, holds the counts to the limits below, compares
        the promises of README and of that page,
                                      and finds each definition of specs/promise/ that no promise
                                          needs, and each outside that one needs

A page begins with the definition itself. Then comes each definition that it names, in that order,
each followed by those that it names in turn, once. With each is the file that it is copied from.
Its comments name its source: a section of a standard, or this project's choice. Definitions of the
prover's library, structs and enums are named and not copied. Lemmas among the fields of some
descriptions of bytes are left out, because they are proofs.
"""
import collections
import os
import re
import sys

ROOT = os.path.dirname(os.path.dirname(os.path.abspath(__file__)))
PAGE = f"{ROOT}/docs/internals/reading-the-proofs.md"

README = f"{ROOT}/README.md"

# the definitions of each promise of README, each with its module; those of a disk count as one
DISK = tuple(
    f"oa_disk.specs.promise.Disk.{it}" for it in ("WritesUnsynced", "Syncs", "TakesTime", "FailsAs")
)
SENTENCES = {
    1: ["oa_turn.specs.promise.Turns.Turn", "oa_frame.specs.promise.Sessions.Session"],
    2: [
        "oa_history.specs.promise.CrashHistories.IsCrashHistory",
        "oa_history.specs.promise.FaultHistories.IsFaultHistory",
        "oa_store.specs.promise.Stores.IsStore",
        DISK,
    ],
    3: [
        "oa_linearizable.specs.promise.Crashes.ServersAreDurable",
        "oa_linearizable.specs.promise.Tables.SeenHistoriesAreLinearizable",
    ],
    4: [
        "oa_wire_variant.specs.promise.Variants.Spells",
        "oa_idl.specs.promise.IsTree.IsTree",
        "oa_sema.specs.promise.IsLibrary.IsLibrary",
    ],
    5: [
        "oa_compat.specs.promise.Keeps.KeepsLibrary",
        "oa_server.specs.promise.ServerMachine.ReplacesInStore",
        "oa_store.specs.promise.Changes.IsUpgrade",
        "oa_store.specs.promise.Faults.IsMigrated",
    ],
}
# more than this nobody should have to read
LIMITS = {"Turn": 810, "IsCrashHistory": 1_335}

# The path of durability: a crash history of one client, by the crates that define what is on the
# disk, in a group and in a session. What these crates say of a single request is promise 1's, and
# what many clients add is promise 3's: neither is followed from here.
DURABLE = "oa_history.specs.promise.CrashHistories.IsCrashHistory"
DURABLE_CRATES = ("oa_disk", "oa_journal", "oa_store", "oa_group_commit", "oa_server", "oa_history")
MANY_CLIENTS = [
    "oa_history.specs.promise.Framed.ServesShared",
    "oa_history.specs.promise.Framed.HasWrittenFrames",
    "oa_server.specs.promise.SharedMachine.shared_machine",
    "oa_server.specs.promise.SharedMachine.shared",
]
DURABLE_FILES, DURABLE_LINES = 12, 900

PROMISE = re.compile(r"^(\d)\. (.*?)(?=^\d\. |^#|^\S|\Z)", re.MULTILINE | re.DOTALL)

# the subjects of IsCrashHistory, each with the crates that define it
SUBJECTS = {
    "a library: its text, its canonical text, its checks, its members": (
        "tokens idl printer sema typelib compat"
    ),
    "decisions on requests, and their effect on the table": "bind coerce decision turn table",
    "encodings of values, events and tables, the disk, the store": (
        "formats image disk journal store"
    ),
    "sessions over streams, commit groups, locks and their owners, recovery, crashes": (
        "stream frame mux group_commit server history"
    ),
    "values, and their bytes in a request or reply": (
        "array bstr variant ndr wire_text wire_array wire_variant"
    ),
    "codes, limits, types and their numbers": "model",
    "requests and replies": "record",
}

COLUMNS = "| Promise | Definition | Definitions below | Lines | Files | Crates |"
TABLE = re.compile(rf"^{re.escape(COLUMNS)}\n(?:\|.*\n)*", re.MULTILINE)
SUBJECT_COLUMNS = "| Subject of `IsCrashHistory` | Definitions | Lines |"
SUBJECT_TABLE = re.compile(rf"^{re.escape(SUBJECT_COLUMNS)}\n(?:\|.*\n)*", re.MULTILINE)

NAME = r"[A-Za-z_][\w'\-]*"
OPERATOR = r"◌[^\s◌]+◌"
HEAD = re.compile(rf"((?:(?:abbrev|unfoldable|pub|record|data) )*)({NAME}|{OPERATOR})")
USE = re.compile(r"^(?:pub )?use\s+([\w.+]+)\.\{([^}]*)\}", re.MULTILINE | re.DOTALL)
WHOLE = re.compile(rf"^use\s+([\w.]+) as ({NAME})$", re.MULTILINE)

FILE_COLUMNS = "| File of the path of durability | Definitions | Lines |"
FILE_TABLE = re.compile(rf"^{re.escape(FILE_COLUMNS)}\n(?:\|.*\n)*", re.MULTILINE)

Definition = collections.namedtuple("Definition", "path lines")


class Book:
    """The definitions of all specs/, each by its module and its name; `laws` are those that are
    none, but are proved."""

    def __init__(self, root=ROOT):
        self.root = root
        self.definitions, self.imports, self.modules, self.laws, self.names = {}, {}, {}, set(), {}
        for crate in sorted(os.listdir(f"{root}/crates")):
            for folder, _, names in os.walk(f"{root}/crates/{crate}/specs"):
                for name in sorted(it for it in names if it.endswith(".antt")):
                    self.read(os.path.relpath(f"{folder}/{name}", f"{root}/crates"))
        self.own = collections.defaultdict(dict)
        for key in self.definitions:
            self.own[key[0]][key[1]] = key

    def read(self, path):
        module = path[: -len(".antt")].replace("/", ".")
        with open(f"{self.root}/crates/{path}", encoding="utf-8") as file:
            text = file.read()
        self.imports[module] = {}
        self.modules[module] = {
            name: of.removeprefix("Rattle.") for of, name in WHOLE.findall(text)
        }
        for of, names in USE.findall(text):
            for name in filter(None, map(str.strip, names.split(","))):
                there, _, here = name.partition(" as ")
                self.imports[module][(here or there).strip()] = (
                    of.removeprefix("Rattle."),
                    there.strip(),
                )
        # depth: how far definitions are set in here, by the blocks `module` around them
        current, above, depth = None, [], 0
        for line in USE.sub("", text).split("\n"):
            words = line.strip()
            indent = line.index(words) if words else depth
            depth = min(depth, indent)
            if not words:
                above = []
            elif indent > depth:
                if current:
                    self.definitions[current].lines.append(line)
            elif words.startswith("--"):
                current, above = None, [*above, line]
            elif words.startswith("pub mod "):
                current, above = None, []
            elif words.split()[0] == "module":
                current, above, depth = None, [], depth + 2
            elif words.split()[0] not in ("infixl", "infixr", "infix", "unfolding"):
                current = self.begun(module, words, current)
                if current:
                    self.definitions.setdefault(
                        current, Definition(path, list(above))
                    ).lines.append(line)
                above = []

    def begun(self, module, words, current):
        """Which definition a line begins, or goes on with by an equation."""
        head = HEAD.match(words)
        if not head or not head[1] and not words.startswith(f"{head[2]} :"):
            return (module, head[2]) if head and (module, head[2]) in self.definitions else current
        kind, name = head.groups()
        if not re.search("abbrev|unfoldable|record|data", kind):
            self.laws.add((module, name))
        return module, name

    def named_by(self, key):
        """The names in a definition, in their order: other definitions, and names that end the
        reading. Each definition is read once."""
        if key not in self.names:
            self.names[key] = self.names_in(key)
        return self.names[key]

    def names_in(self, key):
        module, own = key
        text = "\n".join(re.sub(r"--.*", "", line) for line in self.definitions[key].lines)
        known = {**self.imports[module], **self.own[module]}
        known.pop(own, None)
        if own in self.imports[module]:
            known[own] = self.imports[module][own]
        signs = {it: it.strip("◌") for it in known if it.startswith("◌")}
        # steps of a `do` are joined by the operator of the module
        meant = [
            it for it, sign in signs.items() if f" {sign} " in text or sign == ">>=" and "←" in text
        ]
        found = [known.get(it) for it in [*re.findall(rf"(?<![\w.]){NAME}", text), *meant]]
        found += [
            (self.modules[module][of], name)
            for of, name in re.findall(rf"({NAME})\.({NAME})", text)
            if of in self.modules[module]
        ]
        return list(dict.fromkeys(self.where(it) for it in found if it))

    def where(self, key):
        """The place of a definition that may be imported by way of another module."""
        module, name = key
        further = None if key in self.definitions else self.imports.get(module, {}).get(name)
        return self.where(further) if further else key

    def closure(self, roots, with_laws=False, without=()):
        """The definitions below these, each once, in the order of reading; with the lemmas that
        some descriptions of bytes carry, and what these name."""
        found, waiting = {}, list(reversed(roots))
        while waiting:
            key = waiting.pop()
            if (
                key in self.definitions
                and (with_laws or key not in self.laws)
                and key not in found
                and key not in without
            ):
                found[key] = None
                waiting += reversed(self.named_by(key))
        return list(found)

    def roots(self, word):
        """The definitions of an entry of SENTENCES."""
        keys = [
            (it.rpartition(".")[0], it.rpartition(".")[2])
            for it in ([word] if isinstance(word, str) else word)
        ]
        unknown = [".".join(it) for it in keys if it not in self.definitions]
        if unknown:
            sys.exit(f"no definition is named {', '.join(unknown)}")
        return keys

    def all_roots(self):
        return [it for words in SENTENCES.values() for word in words for it in self.roots(word)]

    def needed(self, roots=None):
        """Returns the definitions that belong into specs/promise/: those of all promises, and the
        lemmas that these carry."""
        return self.closure(roots or self.all_roots(), with_laws=True)

    def misplaced(self, roots=None):
        """The definitions of specs/promise/ that no promise needs, and those outside that one
        needs, each in a line."""
        needed, inside = set(self.needed(roots)), {
            it for it in self.definitions if it[0].split(".")[2] == "promise"
        }
        return [
            f"{'.'.join(it)}: no promise needs it, so it belongs outside of specs/promise/"
            for it in sorted(inside - needed)
        ] + [
            f"{'.'.join(it)}: a promise needs it, so it belongs into specs/promise/"
            for it in sorted(needed - inside)
        ]

    def durable(self):
        """The definitions of the path of durability, in the order of reading."""
        keys = self.closure(
            self.roots(DURABLE), without={key for word in MANY_CLIENTS for key in self.roots(word)}
        )
        single = set(self.closure(self.roots(SENTENCES[1][0])))
        return [it for it in keys if it not in single and it[0].split(".")[0] in DURABLE_CRATES]

    def lines(self, keys):
        return sum(
            not line.lstrip().startswith("--") for it in keys for line in self.definitions[it].lines
        )


def promises(path):
    """The promises that a page lists below its heading, in words, by their numbers."""
    with open(path, encoding="utf-8") as file:
        section = (
            file.read()
            .split("## What is proved\n", 1)[-1]
            .split("## The promises\n", 1)[-1]
            .split("\n## ", 1)[0]
        )
    return {int(number): " ".join(text.split()) for number, text in PROMISE.findall(section)}


def counts(book):
    rows = []
    for number, words in SENTENCES.items():
        for roots in map(book.roots, words):
            keys = book.closure(roots)
            name = f"`{roots[0][1]}`" if len(roots) == 1 else "the clauses of `Disk`"
            rows.append(
                (
                    number,
                    name,
                    len(keys),
                    book.lines(keys),
                    len({it[0] for it in keys}),
                    len({it[0].split(".")[0] for it in keys}),
                )
            )
    return rows


def table(rows):
    return (
        "\n".join(
            [COLUMNS, "|---|---|---|---|---|---|"]
            + [f"| {it[0]} | {it[1]} | {it[2]:,} | {it[3]:,} | {it[4]} | {it[5]} |" for it in rows]
        )
        + "\n"
    )


def subject_table(book):
    keys = book.closure(book.roots(SENTENCES[2][0]))
    parts = {
        it: [key for key in keys if key[0].split(".")[0].removeprefix("oa_") in crates.split()]
        for it, crates in SUBJECTS.items()
    }
    rows = [f"| {it} | {len(some):,} | {book.lines(some):,} |" for it, some in parts.items()]
    if sum(map(len, parts.values())) != len(keys):
        sys.exit("a crate below IsCrashHistory has no subject")
    return "\n".join([SUBJECT_COLUMNS, "|---|---|---|", *rows]) + "\n"


def file_table(book):
    files = {}
    for key in book.durable():
        files.setdefault(book.definitions[key].path, []).append(key)
    rows = [f"| `{path}` | {len(keys):,} | {book.lines(keys):,} |" for path, keys in files.items()]
    keys = book.durable()
    return (
        "\n".join(
            [
                FILE_COLUMNS,
                "|---|---|---|",
                *rows,
                f"| all {len(files)} files | {len(keys):,} | {book.lines(keys):,} |",
            ]
        )
        + "\n"
    )


def write(book, folder):
    os.makedirs(folder, exist_ok=True)
    for number, words in SENTENCES.items():
        keys = book.closure([root for it in words for root in book.roots(it)])
        with open(f"{folder}/sentence-{number}.antt", "w", encoding="utf-8") as file:
            for key in keys:
                definition = book.definitions[key]
                file.write(f"-- crates/{definition.path}\n" + "\n".join(definition.lines) + "\n\n")
        print(f"{folder}/sentence-{number}.antt: {len(keys)} definitions")


def main(words):
    book = Book()
    rows = counts(book)
    with open(PAGE, encoding="utf-8") as file:
        page = file.read()
    if words == ["--write"]:
        with open(PAGE, "w", encoding="utf-8") as file:
            for pattern, text in (
                (TABLE, table(rows)),
                (SUBJECT_TABLE, subject_table(book)),
                (FILE_TABLE, file_table(book)),
            ):
                page = pattern.sub(text, page, count=1)
            file.write(page)
    elif words == ["--check"]:
        is_told = all(it in page for it in (table(rows), subject_table(book), file_table(book)))
        if not is_told:
            print(
                "docs/internals/reading-the-proofs.md has other tables: python3 tools/spec.py "
                "--write"
            )
        long = [
            f"{name}: {many} definitions, for {LIMITS[name.strip('`')]}"
            for _, name, many, *_ in rows
            if many > LIMITS.get(name.strip("`"), many)
        ]
        path = book.durable()
        files, lines = len({it[0] for it in path}), book.lines(path)
        if files > DURABLE_FILES or lines > DURABLE_LINES:
            long.append(
                f"the path of durability: {files} files and {lines} lines, for {DURABLE_FILES} and "
                f"{DURABLE_LINES}"
            )
        misplaced = book.misplaced()
        print("\n".join([*long, *misplaced]), end="\n" if long or misplaced else "")
        told = promises(README)
        is_one_list = told == promises(PAGE) and {*told} == {*SENTENCES}
        if not is_one_list:
            print(
                "README.md and docs/internals/reading-the-proofs.md have other promises, or other "
                "numbers than this file"
            )
        return 0 if is_told and is_one_list and not long and not misplaced else 1
    elif len(words) == 1 and not words[0].startswith("-"):
        write(book, words[0])
    else:
        sys.exit(__doc__)
    return 0


if __name__ == "__main__":
    sys.exit(main(sys.argv[1:]))
