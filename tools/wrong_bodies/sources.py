"""The contents of a crate's source files: their types and their functions, in rt fmt's layout, by
the names that the prover has for them."""
import os
import re


class Function:
    """A function of a source file: the path that the prover prints for it, its lines and its text,
    and whether it is a trait's."""

    def __init__(
        self, modules, of_type, of_trait, name, first, last, start, end, text, is_of_trait
    ):
        self.modules, self.of_type, self.of_trait, self.name = modules, of_type, of_trait, name
        self.first, self.last, self.start, self.end, self.text, self.is_of_trait = (
            first,
            last,
            start,
            end,
            text,
            is_of_trait,
        )

    @property
    def path(self):
        owner = [self.of_type + self.of_trait] if self.of_type else []
        return "::".join([*self.modules, *owner, self.name])

    def body_at(self):
        """Returns the place in the text of the line that opens the body, or -1 if there is no such
        line."""
        depth, at = len(self.text) - len(self.text.lstrip()), 0
        for line in self.text.split("\n"):
            if (
                line[depth : depth + 1].strip()
                and not line[:depth].strip()
                and (line[depth:] == "{" or line.endswith(" {"))
            ):
                return at
            at += len(line) + 1
        return -1

    def has_body_apart(self):
        """Whether the body can be taken out: what a constant needs cannot."""
        return self.body_at() >= 0 and not FN_CONST.match(self.text)

    def without_body(self):
        """Returns the text with a body that never ends, in as many lines."""
        at = self.body_at()
        opening, *others = self.text[at:].split("\n")
        return f"{self.text[:at]}{opening} loop {{}} }}" + "\n" * len(others)

    def head_in(self, text):
        """Returns the line of a file's text on which what is right above the function begins: its
        attributes, at which the prover tells some goals."""
        lines, first = text.split("\n"), self.first
        while (
            first > 1
            and lines[first - 2].strip()
            and not lines[first - 2].endswith(("{", "}", ";"))
        ):
            first -= 1
        return first

    def twin(self, text, number):
        """Returns a second function beside this one: its contract, with this text of it."""
        name = f"{self.name}_twin{number}"
        text = re.sub(rf"\bfn {self.name}\b", f"fn {name}", text, count=1)
        return Function(
            self.modules, self.of_type, self.of_trait, name, 0, 0, 0, 0, text, self.is_of_trait
        )

    def is_told_by(self, told):
        """Whether a name of the prover's, without the crate's, is this function's or that of a
        closure in it."""
        parts = told.split("::")
        rest = parts[len(self.modules) :]
        if parts[: len(self.modules)] != self.modules or not rest:
            return False
        is_closure = rest[0] == "fn"
        rest = rest[1:] if is_closure else rest
        if self.of_type:
            if not rest or not rest[0].startswith(self.of_type + self.of_trait):
                return False
            if not self.of_trait and rest[0] != self.of_type:
                return False
            rest = rest[1:]
        return bool(rest) and rest[0] == self.name and (is_closure or len(rest) == 1)


IMPL = re.compile(r"^(\s*)(?:unsafe )?(impl|trait|pub trait|pub\(\w+\) trait)\b(.*)$")
FN_CONST = re.compile(r"^\s*(?:pub(?:\([a-z ]+\))? )?const ")
FN = re.compile(r"^(\s*)(?:pub(?:\([a-z ]+\))? )?(?:const )?(?:unsafe )?(?:extern \"C\" )?fn (\w+)")


def without_generics(text):
    while True:
        shorter = re.sub(r"<[^<>]*>", "", text)
        if shorter == text:
            return text
        text = shorter


def owner_of(kind, rest):
    """Returns the type and the trait of an impl's first line (or a trait's name and '')."""
    head = re.sub(r"\s*(\{.*|where\b.*)$", "", rest)
    if kind != "impl":
        return without_generics(head).split(":")[0].strip(), ""
    if head.startswith("<"):
        depth = 0
        for at, sign in enumerate(head):
            depth += {"<": 1, ">": -1}.get(sign, 0)
            if not depth:
                head = head[at + 1 :]
                break
    named, _, of = head.strip().partition(" for ")
    if not of:
        return without_generics(named).strip().split("::")[-1], ""
    # (of the trait's own arguments the prover says the last word of each: From<AllocFailed<T>> is
    # FromAllocFailed)
    trait, _, arguments = named.strip().partition("<")
    words = [trait, *re.split(r"[,&\s]+", without_generics(arguments.rpartition(">")[0]))]
    of_name = name_of(without_generics(of).strip())
    return of_name[:1].upper() + of_name[1:], "".join(
        re.sub(r"\W", "", it.split("::")[-1]) for it in words
    )


def name_of(of_type):
    """Returns how the prover spells a type in a path: '&[u8]' as 'RefSliceU8'."""
    inner = lambda text: name_of(text)[:1].upper() + name_of(text)[1:]
    if of_type.startswith("&"):
        return "Ref" + inner(re.sub(r"^&('\w+ )?", "", of_type))
    if of_type.startswith("["):
        return "Slice" + inner(of_type[1:-1])
    return of_type.split("::")[-1]


TYPE = re.compile(r"^(?:pub(?:\([a-z ]+\))? )?(?:ghost )?(?:struct|enum|union) (\w+)", re.M)


def modules_of(path):
    """Returns the modules that a file's path spells."""
    inside = path[len("src/") : -len(".rt")].split("/")
    return [] if inside in (["lib"], ["main"]) else inside


def functions_of(path, text, homes):
    """Returns the functions of a file in rt fmt's layout, by which an item ends at a brace that is
    as deep as its first line.

    The prover names a type's own method by the module of the type, wherever its impl is: homes has
    the modules of each type of the crate."""
    modules = modules_of(path)
    lines, starts, at = text.split("\n"), [], 0
    for line in lines:
        starts.append(at)
        at += len(line) + 1
    found, owners = [], []
    for number, line in enumerate(lines):
        depth = len(line) - len(line.lstrip())
        if line.strip() and not line.lstrip().startswith("//"):
            owners = [
                it
                for it in owners
                if depth > it[0] or (depth == it[0] and not re.match(r"\s*[})]", line) and it[2])
            ]
        impl = IMPL.match(line)
        if impl and not line.lstrip().startswith("//"):
            kind = impl[2].split()[-1]
            owners = [(depth, owner_of(kind, impl[3]), False, kind == "trait")]
            continue
        fn = FN.match(line)
        if not fn:
            continue
        last = number
        if owners and owners[-1][3] and depth > owners[-1][0] and is_declared(lines, number, fn[1]):
            continue
        if not (
            line.rstrip().endswith("}") and line.count("{") == line.count("}") and "{" in line
        ) and not line.rstrip().endswith(";"):
            last = number + 1
            while last < len(lines) - 1 and not (
                lines[last].startswith(fn[1])
                and lines[last][len(fn[1]) :].rstrip() in ("}", "{}", "};")
                or is_whole(lines[last], fn[1])
            ):
                last += 1
        of_type, of_trait = owners[-1][1] if owners and depth > owners[-1][0] else ("", "")
        is_of_trait = bool(of_trait or of_type and owners[-1][3])
        end = starts[last] + len(lines[last])
        # (what Drop has is a type's own in the prover's words)
        of_trait = "" if of_trait == "Drop" else of_trait
        home = modules if of_trait else homes.get(of_type, modules)
        found.append(
            Function(
                home,
                of_type,
                of_trait,
                fn[2],
                number + 1,
                last + 1,
                starts[number],
                end,
                text[starts[number] : end],
                is_of_trait,
            )
        )
    return found


def is_declared(lines, number, indent):
    """Whether a trait's function has no body: a line ends in a semicolon before any brace that is
    as deep as its first line."""
    for line in lines[number:]:
        if line.startswith(indent + "{"):
            return False
        if line.rstrip().endswith(";"):
            return True
    return True


def is_whole(line, indent):
    """Whether the line is a body of one line, as deep as its function: '{ .. }'."""
    return (
        line.startswith(indent + "{")
        and line.rstrip().endswith("}")
        and line.count("{") == line.count("}")
    )


class Sources:
    """The files of a crate's src/, and their types and functions."""

    def __init__(self, folder):
        self.folder, self.texts, self.functions, self.homes = folder, {}, [], {}
        paths = []
        for at, folders, names in os.walk(f"{folder}/src"):
            folders.sort()
            paths += [
                os.path.relpath(f"{at}/{name}", folder)
                for name in sorted(names)
                if name.endswith(".rt")
            ]
        for path in paths:
            self.homes |= {it: modules_of(path) for it in TYPE.findall(self.text(path))}
        for path in paths:
            self.functions += [(path, it) for it in functions_of(path, self.text(path), self.homes)]

    def text(self, path):
        if path not in self.texts:
            with open(f"{self.folder}/{path}", encoding="utf-8") as it:
                self.texts[path] = it.read()
        return self.texts[path]
