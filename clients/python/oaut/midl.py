"""A small reader of MIDL text: the interfaces, coclasses and types of the library in it.

It knows the words of `#define` without parameters, of `#ifdef` and its kin, and reads what
`#include` and `import` name if that is there. A statement that it cannot read is left out, and so
is what no library has, each with a line in `Reader.notes`.
"""
from __future__ import annotations

import operator
import os
import re
import typing

from .faults import WrongValue

BYTES_LIMIT, TOKENS_LIMIT, DEPTH_LIMIT = 8 << 20, 2_000_000, 64
IMPORTS_LIMIT = 16
# files whose names are known, so that they are not read
_KNOWN_FILES = {
    *("oaidl.idl", "objidl.idl", "ocidl.idl", "oleidl.idl", "unknwn.idl", "wtypes.idl"),
    *("wtypesbase.idl", "unknwnbase.idl", "objidlbase.idl", "basetsd.h", "guiddef.h"),
    *("oaidl.acf", "propidl.idl", "propidlbase.idl", "urlmon.idl", "servprov.idl"),
}

_STRIPPED = re.compile(
    r"""/\*.*?\*/|/\*|//[^\n]*|"[^"\\\n]*(?:\\.[^"\\\n]*)*"|'[^'\\\n]*(?:\\.[^'\\\n]*)*'""",
    re.DOTALL,
)
_HEX = "[0-9A-Fa-f]"
_TOKEN = re.compile(
    rf"""(?P<guid>{_HEX}{{8}}(?:-{_HEX}{{4}}){{3}}-{_HEX}{{12}})
    |(?P<name>(?!L["'])[A-Za-z_]\w*)
    |(?P<number>0[xX]{_HEX}+[uUlL]*
        |(?:\d+\.\d*|\.\d+)(?:[eE][+-]?\d+)?[fFlL]?
        |\d+(?:[eE][+-]?\d+|[uUlL]*))
    |(?P<text>L?"[^"\\]*(?:\\.[^"\\]*)*")
    |(?P<letter>L?'[^'\\]*(?:\\.[^'\\]*)*')
    |(?P<mark><<|>>|&&|\|\||[=!<>]=|\S)""",
    re.VERBOSE | re.ASCII,
)
_DIRECTIVE = re.compile(r"\s*#\s*(\w*)\s*(.*)", re.DOTALL)
_ESCAPES = {"n": "\n", "t": "\t", "r": "\r", "0": "\0"}
_OPEN, _CLOSE = "([{", ")]}"
# how tight the binary operators bind, and what they give
_BINARY: dict[str, tuple[int, typing.Callable[[int, int], int]]] = {
    "||": (1, lambda one, other: bool(one or other)),
    "&&": (2, lambda one, other: bool(one and other)),
    **{"|": (3, operator.or_), "^": (4, operator.xor), "&": (5, operator.and_)},
    **{
        "==": (6, operator.eq),
        "!=": (6, operator.ne),
        "<": (7, operator.lt),
        ">": (7, operator.gt),
    },
    **{"<=": (7, operator.le), ">=": (7, operator.ge), "<<": (8, operator.lshift)},
    **{">>": (8, operator.rshift), "+": (9, operator.add), "-": (9, operator.sub)},
    **{
        "*": (10, operator.mul),
        # (C cuts towards 0)
        "/": (10, lambda one, other: abs(one) // abs(other) * (1 if one ^ other >= 0 else -1)),
        "%": (10, lambda one, other: abs(one) % abs(other) * (1 if one >= 0 else -1)),
    },
}
_NONE = (0, operator.add)
_CALLING = {"__stdcall", "_stdcall", "__cdecl", "_cdecl", "pascal", "WINAPI", "STDMETHODCALLTYPE"}
_CONSTANTS: dict[str, "Value"] = {
    **{"TRUE": True, "FALSE": False, "VARIANT_TRUE": True, "VARIANT_FALSE": False, "NULL": 0},
    **{"DISPID_VALUE": 0, "DISPID_UNKNOWN": -1, "DISPID_NEWENUM": -4, "DISPID_EVALUATE": -5},
}
# words that make the name of a type together
_TYPE_WORDS = {
    *("unsigned", "signed", "char", "short", "long", "int", "hyper", "small", "float", "double"),
    *("void", "byte", "boolean", "wchar_t", "__int8", "__int16", "__int32", "__int64", "__int3264"),
}
_WIDTHS = {"__int8": "char", "small": "char", "__int16": "short", "__int32": "long"}

Value = typing.Union[bool, int, float, str]


class Unreadable(Exception):
    """A statement that this reader cannot read; the rest of the text is read on."""


class Token(typing.NamedTuple):
    """A token, and whether it is one; `kind` is a name of a group of _TOKEN, or "end"."""

    kind: str
    text: str
    file: str
    line: int


class Type(typing.NamedTuple):
    """A type as it is written: its words, how many times it is pointed to, and of a SAFEARRAY the
    element. `enum X`, `struct X`, `union X` and `interface X` have their word before the name;
    `is_array` is an array of C."""

    words: str
    pointers: int = 0
    element: "Type" | None = None
    is_array: bool = False


class Parameter(typing.NamedTuple):
    """A parameter: its name, "" if it has none, its attributes, and the value of its default."""

    name: str
    type: Type
    words: frozenset[str]
    default: Value | None


class Form(typing.NamedTuple):
    """A function or a property: kind is property, readonly, method, get, put or putref. `dispid` is
    None if it has none."""

    name: str
    dispid: int | None
    kind: str
    type: Type
    parameters: list[Parameter]
    is_vararg: bool


class Interface:
    """An interface or dispinterface; `base` is the one that it is derived from, or whose members a
    dispinterface takes over."""

    def __init__(self, name: str) -> None:
        self.name = name
        self.guid = ""
        self.base = ""
        self.is_dispinterface = self.is_defined = self.is_dual = False
        self.forms: list[Form] = []
        self.dispids: dict[str, int] = {}  # of a name the first one
        self.named: list[Type] = []  # types of its members, also of those that were left out


class Entry(typing.NamedTuple):
    """An interface of a coclass."""

    name: str
    is_default: bool
    is_source: bool


class Coclass(typing.NamedTuple):
    """A coclass."""

    name: str
    guid: str
    entries: list[Entry]


Attributes = dict[str, list[Token]]


def _whole_lines(lines: list[str]) -> typing.Iterator[tuple[int, str]]:
    """Each line with those that continue it, and its number."""
    at = 0
    while at < len(lines):
        number = at + 1
        parts = [lines[at].rstrip("\r")]
        while parts[-1].endswith("\\") and at + 1 < len(lines):
            parts[-1] = parts[-1][:-1]
            at += 1
            parts.append(lines[at].rstrip("\r"))
        at += 1
        yield number, " ".join(parts)


class Reader:
    """Reads a file. Raises ValueError, or OSError, if it cannot be read to its end or has no
    library."""

    def __init__(self, path: str, folders: typing.Sequence[str] = ()) -> None:
        self.name, self.guid, self.version = "", "", (0, 0)
        self._folders = folders
        self._imported = {os.path.realpath(path)}
        self._importing = 0
        self.interfaces: dict[str, Interface] = {}
        self.coclasses: list[Coclass] = []
        self.typedefs: dict[str, Type] = {}
        self.records: dict[str, list[Type]] = {}  # the names in them
        self.listed: list[str] = []  # the interfaces that the library itself names
        self.others: list[tuple[str, str]] = []  # kinds and names of its other items
        self.notes: list[str] = []
        self._constants = dict(_CONSTANTS)
        self._macros: dict[str, list[Token]] = {}
        self._callable: set[str] = set()
        self._bytes = self._tokens = self._depth = self._anonymous = 0
        self._in_library = False
        self._ahead: list[Token] = []
        self._source = self._expanded(self._lexed(path, 0))
        self._end = Token("end", "", path, 0)
        self._read()
        if not self.name:
            raise WrongValue(f"{path}: has no library")

    # --- lines and tokens

    def _lexed(self, path: str, depth: int, only_words: bool = False) -> typing.Iterator[Token]:
        """The tokens of a file, whose lines that begin with # are followed; `only_words`: these
        lines alone."""
        with open(path, "rb") as file:
            content = file.read(BYTES_LIMIT - self._bytes + 1)
        self._bytes += len(content)
        if self._bytes > BYTES_LIMIT:
            raise WrongValue(f"{path}: above {BYTES_LIMIT:,} bytes, with what it includes")
        lines = _STRIPPED.sub(lambda it: _bare(it, path), content.decode("latin-1")).split("\n")
        taken: list[bool] = []  # of each #if whether its lines count
        was: list[bool] = []  # and whether any of its branches did
        for number, line in _whole_lines(lines):
            told = _DIRECTIVE.match(line)
            if told is None:
                if not only_words and all(taken):
                    yield from _tokens_of(line, path, number)
                continue
            word, rest = told[1], told[2].strip()
            if word in ("if", "ifdef", "ifndef"):
                if len(taken) == DEPTH_LIMIT:
                    raise WrongValue(f"{path}:{number}: #if within #if, {DEPTH_LIMIT} deep")
                holds = all(taken) and self._holds(word, rest, path, number)
                taken.append(holds)
                was.append(holds)
            elif word in ("elif", "else", "endif"):
                if not taken:
                    raise WrongValue(f"{path}:{number}: #{word} without an #if")
                taken.pop()
                if word == "endif":
                    was.pop()
                else:
                    holds = all(taken) and not was[-1]
                    holds = holds and (word == "else" or self._holds("if", rest, path, number))
                    taken.append(holds)
                    was[-1] = was[-1] or holds
            elif all(taken):
                if word == "define":
                    self._define(rest, path, number)
                elif word == "undef":
                    self._macros.pop(rest, None)
                    self._callable.discard(rest)
                elif word == "include" and not (only_words and depth > 1):
                    yield from self._included(rest, path, depth, only_words)
        if taken:
            raise WrongValue(f"{path}: an #if without its #endif")

    def _holds(self, word: str, rest: str, path: str, line: int) -> bool:
        if word != "if":
            name = rest.split()[0] if rest else ""
            return (name in self._macros or name in self._callable) == (word == "ifdef")

        def defined(it: typing.Match[str]) -> str:
            return str(int((it[1] or it[2]) in self._macros or (it[1] or it[2]) in self._callable))

        rest = re.sub(r"\bdefined\s*(?:\(\s*(\w+)\s*\)|(\w+))", defined, rest)
        tokens = list(_tokens_of(rest, path, line))
        try:
            # (a name without a #define is 0)
            return bool(
                self._value(
                    [
                        it
                        if it.kind != "name" or it.text in self._macros
                        else it._replace(kind="number", text="0")
                        for it in tokens
                    ],
                    0,
                )
            )
        except Unreadable as fault:
            if path.endswith(".h"):
                return False
            raise WrongValue(f"{path}:{line}: #if: {fault}; `cpp -P` reads it") from None

    def _define(self, rest: str, path: str, line: int) -> None:
        name = re.match(r"[A-Za-z_]\w*", rest)
        if name is None:
            return
        if rest[name.end() : name.end() + 1] == "(":
            self._callable.add(name[0])  # a macro with parameters: its uses are removed
        else:
            self._macros[name[0]] = list(_tokens_of(rest[name.end() :], path, line))
            if self._macros[name[0]] and not path.endswith(".h"):
                self._unkept(f"#define {_short(name[0])}: a library has no constants")

    def _included(
        self, rest: str, path: str, depth: int, only_words: bool
    ) -> typing.Iterator[Token]:
        name = re.match(r"""["<]([^">]+)[">]""", rest)
        file = self._found(name[1], path) if name else None
        if file is None:
            if not only_words:
                self.notes.append(f"#include {rest}: not there, skipped")
        elif depth == 16:
            raise WrongValue(f"{path}: #include within #include, 16 deep")
        else:
            yield from self._lexed(file, depth + 1, only_words or file.endswith(".h"))

    def _found(self, name: str, path: str) -> str | None:
        """The file of a name, beside another file or in one of the folders that were given."""
        for folder in (os.path.dirname(path), *self._folders):
            file = os.path.join(folder, name)
            if os.path.isfile(file):
                return file
        return None

    def _expanded(self, source: typing.Iterator[Token]) -> typing.Iterator[Token]:
        """The tokens, with each word of a #define replaced."""
        stack: list[tuple[str, typing.Iterator[Token]]] = [("", source)]
        while stack:
            token = next(stack[-1][1], None)
            if token is None:
                stack.pop()
                continue
            self._count(token)
            if (
                token.kind == "name"
                and token.text in self._macros
                and all(it != token.text for it, _ in stack)
            ):
                if len(stack) == DEPTH_LIMIT:
                    raise WrongValue(
                        f"{token.file}:{token.line}: #define within #define, {DEPTH_LIMIT} deep"
                    )
                stack.append((token.text, iter(self._macros[token.text])))
            else:
                yield token

    def _count(self, token: Token) -> None:
        self._tokens += 1
        if self._tokens > TOKENS_LIMIT:
            raise WrongValue(f"{token.file}:{token.line}: above {TOKENS_LIMIT:,} tokens")

    def _peek(self, place: int = 0) -> Token:
        while len(self._ahead) <= place:
            token = next(self._source, None)
            if token is None:
                return self._end
            self._ahead.append(token)
        return self._ahead[place]

    def _take(self) -> Token:
        token = self._peek()
        if token.kind == "end":
            raise self._cut()
        self._ahead.pop(0)
        if token.kind == "mark":
            self._depth += (token.text in _OPEN) - (token.text in _CLOSE)
        return token

    def _cut(self) -> ValueError:
        return WrongValue(f"{self._end.file}: ends in the middle of an item")

    def _is(self, text: str, place: int = 0) -> bool:
        token = self._peek(place)
        return token.text == text and token.kind in ("name", "mark")

    def _took(self, text: str) -> bool:
        if self._is(text):
            self._take()
            return True
        return False

    def _expect(self, text: str) -> None:
        if not self._took(text):
            raise Unreadable(f"`{_short(self._peek().text)}` instead of `{text}`")

    def _word(self) -> str:
        if self._peek().kind != "name":
            raise Unreadable(f"`{_short(self._peek().text)}` instead of a name")
        return self._take().text

    def _inside(self) -> list[Token]:
        """The tokens up to the end of the last opening bracket, which is read, too."""
        depth = self._depth
        found: list[Token] = []
        while True:
            token = self._take()
            if self._depth < depth:
                return found
            found.append(token)

    def _skip(self, depth: int) -> None:
        """Goes after the statement that began at this depth of brackets."""
        while self._peek().kind != "end":
            if self._depth <= depth and self._is("}"):
                return
            token = self._take()
            if self._depth <= depth and token.text in (";", "}"):
                self._took(";")
                return

    # --- items

    def _read(self) -> None:
        while self._peek().kind != "end":
            if self._is("}"):
                self._take()
                self._depth = 0
                self._in_library = False
                self._took(";")
            elif not self._took(";"):
                self._tried(self._item)
        if self._in_library:
            raise WrongValue(f"{self._end.file}: ends inside of library {self.name}")

    def _tried(self, read: typing.Callable[[], None]) -> None:
        depth, first = self._depth, self._peek()
        if first.kind == "end":
            raise self._cut()
        try:
            read()
        except Unreadable as fault:
            self.notes.append(f"{os.path.basename(first.file)}:{first.line}: not read: {fault}")
            self._skip(depth)

    def _item(self) -> None:
        attributes = self._attributes()
        word = self._word()
        if word == "import":
            self._import()
        elif word == "importlib":
            self._expect("(")
            self.notes.append(f"importlib({' '.join(it.text for it in self._inside())}): skipped")
            self._took(";")
        elif word == "library" and self._peek(1).text == "{":
            self._library(attributes)
        elif word in ("interface", "dispinterface"):
            self._interface(attributes, word)
        elif word == "coclass":
            self._coclass(attributes)
        elif word == "module":
            self._other("module", self._word())
            self._expect("{")
            self._inside()
        else:
            self._declaration(attributes, word)

    def _unkept(self, line: str) -> None:
        """Reports a part that no library has, unless it is in an imported file."""
        if not self._importing:
            self.notes.append(line)

    def _import(self) -> None:
        """Reads the files that an import names, each once, for the types in them."""
        for token in self._statement():
            name = _text(token.text) if token.kind == "text" else ""
            file = self._found(name, token.file) if name else None
            if not name or os.path.basename(name).lower() in _KNOWN_FILES:
                if name:
                    self.notes.append(f'import "{name}": skipped')
            elif file is None:
                self.notes.append(
                    f'import "{name}": not found, skipped; -I FOLDER names its folder'
                )
            elif os.path.realpath(file) not in self._imported:
                self._imported.add(os.path.realpath(file))
                self._read_imported(file)

    def _read_imported(self, file: str) -> None:
        if self._importing == IMPORTS_LIMIT:
            raise WrongValue(f"{file}: import within import, {IMPORTS_LIMIT} deep")
        kept = self._source, self._ahead, self._depth, self._in_library, self._end
        words = self._macros, self._callable
        self._macros, self._callable = {}, set()
        self._source, self._ahead = self._expanded(self._lexed(file, 0)), []
        self._depth, self._in_library, self._end = 0, False, Token("end", "", file, 0)
        self._importing += 1
        self._read()
        self._importing -= 1
        self._source, self._ahead, self._depth, self._in_library, self._end = kept
        self._macros, self._callable = words

    def _library(self, attributes: Attributes) -> None:
        name = self._word()
        self._expect("{")
        if self._importing:
            self._inside()
            return
        if self.name:
            self.notes.append(f"library {name}: a second one")
            self._inside()
            return
        self.name, self.guid = name, self._guid(attributes)
        parts = "".join(it.text for it in attributes.get("version", [])).split(".")
        numbers = [int(it) if re.fullmatch(r"\d{1,5}", it) else 0 for it in parts]
        self.version = (numbers[0], numbers[1] if len(numbers) > 1 else 0)
        self._in_library = True

    def _other(self, kind: str, name: str) -> None:
        if self._in_library:
            self.others.append((kind, name))

    def _interface(self, attributes: Attributes, word: str) -> None:
        name = self._word()
        found = self.interfaces.setdefault(name, Interface(name))
        if self._in_library:
            self.listed.append(name)
        if self._took(";"):
            return
        if found.is_defined:
            raise Unreadable(f"a second {word} {name}")
        if self._took(":"):
            found.base = self._word()
        self._expect("{")
        found.is_defined, found.is_dispinterface = True, word == "dispinterface"
        found.is_dual = "dual" in attributes
        found.guid = self._guid(attributes)
        if found.is_dispinterface:
            found.base = "IDispatch"
        in_properties = False
        while not self._took("}"):
            if self._is(":", 1) and (self._is("properties") or self._is("methods")):
                in_properties = self._take().text == "properties"
                self._take()
            elif found.is_dispinterface and self._is("interface") and self._is(";", 2):
                self._take()
                found.base = self._word()
            elif not self._took(";"):
                self._tried(lambda: self._member(found, in_properties))

    def _member(self, to: Interface, in_properties: bool) -> None:
        attributes = self._attributes()
        word = self._peek().text
        if word in ("cpp_quote", "typedef", "const", "pragma", "midl_pragma", "import") or (
            word in ("enum", "struct", "union")
            and (self._is("{", 1) or self._is("{", 2) or self._is(";", 2))
        ):
            return self._declaration(attributes, self._take().text)
        words = self._types(attributes)
        while self._peek().text in _CALLING:
            self._take()
        of, name = self._declarator(words)
        parameters: list[Parameter] = []
        if not in_properties:
            self._expect("(")
            parameters = self._parameters()
        if not self._took(";"):
            self._expect("const")  # (a word of C++, which some texts have there)
            self._expect(";")
        to.named.extend([of, *(it.type for it in parameters)])
        if "local" in attributes:
            return
        kind = "method"
        for attribute, told in (("propget", "get"), ("propput", "put"), ("propputref", "putref")):
            if attribute in attributes:
                kind = told
        if in_properties:
            kind = "readonly" if "readonly" in attributes else "property"
        dispid: int | None = None
        if "id" in attributes:
            try:
                number = self._value(attributes["id"], 0)
                dispid = _signed(number) if isinstance(number, int) else None
                if dispid is not None:
                    to.dispids.setdefault(name, dispid)
            except Unreadable:
                pass
        elif not to.is_dispinterface:
            # as compilers do: the DISPID of the other form, or else one of the place and the number
            # of parents
            place = 0x60000000 + (self._parents(to) << 16) + len(to.forms)
            dispid = to.dispids.setdefault(name, place)
        to.forms.append(Form(name, dispid, kind, of, parameters, "vararg" in attributes))

    def _parents(self, of: Interface) -> int:
        count, name = 0, of.base
        while name and name not in ("IUnknown", "IDispatch") and count < DEPTH_LIMIT:
            count, name = count + 1, self.interfaces[name].base if name in self.interfaces else ""
        return count + (2 if name == "IDispatch" else 1)

    def _coclass(self, attributes: Attributes) -> None:
        name = self._word()
        if self._took(";"):
            return
        self._expect("{")
        entries: list[Entry] = []
        while not self._took("}"):
            words = self._attributes()
            if self._word() not in ("interface", "dispinterface"):
                raise Unreadable(f"coclass {name}: no interface")
            entries.append(Entry(self._word(), "default" in words, "source" in words))
            self._expect(";")
        self.interfaces.setdefault(
            name, Interface(name)
        )  # as a type, it is a pointer to an interface
        if self._in_library:
            self.coclasses.append(Coclass(name, self._guid(attributes), entries))

    def _declaration(self, attributes: Attributes, word: str) -> None:
        """Reads a declaration other than an interface, after its first word."""
        if word == "cpp_quote":
            self._expect("(")
            self._inside()
            self._took(";")
        elif word in ("pragma", "midl_pragma", "pragma_warning"):
            self._statement()
        elif word == "import":
            self._import()
        elif word == "const":
            of, name = self._declarator(self._types({}))
            self._expect("=")
            self._unkept(f"const {name}: a library has no constants")
            try:
                self._constants[name] = self._value(self._statement(), 0)
            except Unreadable:
                pass  # its uses are unknown constants
        elif word == "typedef":
            words = self._types({**attributes, **self._attributes()})
            while True:
                of, name = self._declarator(words)
                self.typedefs.setdefault(name, of)
                kind = words.words.split()[0]
                if kind in ("struct", "union") and not self._in_library:
                    self._unkept(f"{kind} {name}: a library has none")
                if kind in ("struct", "union", "enum"):
                    self._other(kind, name)
                if not self._took(","):
                    break
            self._expect(";")
        elif word in ("enum", "struct", "union"):
            name = self._tagged(word).words.split()[1]
            self._other(word, name)
            if word != "enum" and not self._in_library:
                self._unkept(f"{word} {name}: a library has none")
            self._expect(";")
        else:
            raise Unreadable(f"`{_short(word)}`")

    def _statement(self) -> list[Token]:
        """The rest of a statement; its semicolon is taken too."""
        found = []
        while not self._took(";"):
            found.append(self._take())
        return found

    # --- attributes, types, values

    def _attributes(self) -> Attributes:
        found: Attributes = {}
        while self._took("["):
            while not self._took("]"):
                name = self._take()
                if name.kind not in ("name", "text") and name.text != ",":
                    raise Unreadable(f"`{_short(name.text)}` as an attribute")
                if self._took("("):
                    found[name.text] = self._inside()
                elif name.text != ",":
                    found.setdefault(name.text, [])
        return found

    def _guid(self, attributes: Attributes) -> str:
        text = "".join(it.text.strip('"{}') for it in attributes.get("uuid", []))
        guid = re.fullmatch(rf"{_HEX}{{8}}(?:-{_HEX}{{4}}){{3}}-{_HEX}{{12}}", text.strip("{}"))
        return guid[0].lower() if guid else ""

    def _types(self, attributes: Attributes, nesting: int = 0) -> Type:
        """The words of a type, before its pointers."""
        while self._peek().text in ("const", "extern", "static", "volatile"):
            self._take()
        word = self._word()
        if word in ("enum", "struct", "union"):
            found = self._tagged(word)
        elif word in ("interface", "dispinterface", "coclass"):
            found = Type(f"interface {self._word()}")
        elif word == "SAFEARRAY" and self._took("("):
            if nesting == 8:
                raise Unreadable("a SAFEARRAY in SAFEARRAYs, 8 deep")
            element, _ = self._declarator(self._types({}, nesting + 1), False)
            self._expect(")")
            found = Type(word, element=element)
        elif word in _TYPE_WORDS:
            words = [word]
            while self._peek().text in _TYPE_WORDS:
                words.append(self._take().text)
            found = Type(_plain(words))
        else:
            found = Type(word)
        if "string" in attributes and self._is("*"):
            self._take()
            found = Type("LPSTR")
        return found

    def _tagged(self, word: str) -> Type:
        """An enum, struct or union, after its word."""
        self._anonymous += 1
        name = self._take().text if self._peek().kind == "name" else f"#{self._anonymous}"
        if self._took("{"):
            if word == "enum":
                self._constants_of(name, self._inside())
            else:
                # the text inside counts for the interfaces that it names
                self.records[name] = [Type(it.text) for it in self._inside() if it.kind == "name"]
        return Type(f"{word} {name}")

    def _constants_of(self, of: str, tokens: list[Token]) -> None:
        following: Value | None = 0
        names: list[str] = []
        at = 0
        while at < len(tokens):
            end, depth = at, 0
            while end < len(tokens) and (depth or tokens[end].text != ","):
                depth += (tokens[end].text in _OPEN) - (tokens[end].text in _CLOSE)
                end += 1
            item = tokens[at:end]
            at = end + 1
            if item and item[0].text == "[":
                item = item[
                    1 + next((i for i, it in enumerate(item) if it.text == "]"), len(item)) :
                ]
            if not item or item[0].kind != "name":
                continue
            names.append(_short(item[0].text))
            if len(item) > 1 and item[1].text == "=":
                try:
                    following = self._value(item[2:], 0)
                except Unreadable:
                    following = None
            if isinstance(following, int):
                self._constants[item[0].text] = following
                following += 1
        told = ", ".join(names[:8]) + (f" and {len(names) - 8} more" if len(names) > 8 else "")
        if names:
            kind = "an enum" if of.startswith("#") else f"enum {of}"
            self._unkept(f"{kind}, its constants {told}: a library has no constants")

    def _pointed(self, words: Type) -> Type:
        pointers = 0
        while self._is("*") or self._is("const"):
            pointers += self._take().text == "*"
        return words._replace(pointers=words.pointers + pointers)

    def _declarator(self, words: Type, needs_name: bool = True) -> tuple[Type, str]:
        found = self._pointed(words)
        while self._peek().text in _CALLING:
            self._take()
        name = self._word() if needs_name or self._peek().kind == "name" else ""
        while self._took("["):
            if not self._inside():
                found = found._replace(pointers=found.pointers + 1)
            else:
                found = found._replace(is_array=True)
        return found, name

    def _parameters(self) -> list[Parameter]:
        found: list[Parameter] = []
        if self._is("void") and self._is(")", 1):
            self._take()
        while not self._took(")"):
            attributes = self._attributes()
            of, name = self._declarator(self._types(attributes), False)
            default: Value | None = None
            if "defaultvalue" in attributes:
                try:
                    default = self._value(attributes["defaultvalue"], 0)
                except Unreadable:
                    default = ""
                    attributes["#unknown"] = []
            found.append(Parameter(name, of, frozenset(attributes), default))
            if not self._took(",") and not self._is(")"):
                raise Unreadable(f"`{_short(self._peek().text)}` in a list of parameters")
        return found

    def _value(self, tokens: list[Token], depth: int) -> Value:
        """The value of an expression of constants."""
        at = 0

        def unary(depth: int) -> Value:
            nonlocal at
            if depth > DEPTH_LIMIT or at == len(tokens):
                raise Unreadable("no value")
            token = tokens[at]
            at += 1
            self._count(token)
            if token.kind == "number":
                return _number(token.text)
            if token.kind == "text":
                parts = [token.text]
                while at < len(tokens) and tokens[at].kind == "text":
                    parts.append(tokens[at].text)
                    at += 1
                return "".join(map(_text, parts))
            if token.kind == "name":
                if token.text in self._constants:
                    return self._constants[token.text]
                macro = self._macros.get(token.text)
                if macro is not None:
                    return self._value(macro, depth + 1)
                raise Unreadable(f"{_short(token.text)} is not known")
            if token.text == "(":
                found = binary(0, depth + 1)
                if at == len(tokens) or tokens[at].text != ")":
                    raise Unreadable("no value")
                at += 1
                return found
            if token.text in ("-", "+", "~", "!"):
                given = unary(depth + 1)
                if isinstance(given, str):
                    raise Unreadable("no value")
                if token.text in ("-", "+"):
                    return -given if token.text == "-" else +given
                return (not given) if token.text == "!" else ~int(given)
            raise Unreadable("no value")

        def binary(least: int, depth: int) -> Value:
            nonlocal at
            left = unary(depth)
            while at < len(tokens) and _BINARY.get(tokens[at].text, _NONE)[0] > least:
                mark = tokens[at].text
                at += 1
                left = _computed(mark, left, binary(_BINARY[mark][0], depth + 1))
            return left

        found = binary(0, depth)
        if at != len(tokens):
            raise Unreadable("no value")
        return found


def _bare(it: typing.Match[str], path: str) -> str:
    """A text unchanged; of a comment its line ends."""
    if it[0] == "/*":
        raise WrongValue(f"{path}: a comment without its end")
    return it[0] if it[0][0] in "\"'" else " " + "\n" * it[0].count("\n")


def _tokens_of(line: str, path: str, number: int) -> typing.Iterator[Token]:
    for it in _TOKEN.finditer(line):
        yield Token(it.lastgroup or "mark", it[0], path, number)


def _short(text: str) -> str:
    return text if len(text) <= 64 else f"{text[:64]}.."


def _text(token: str) -> str:
    return re.sub(
        r"\\(.)",
        lambda it: _ESCAPES.get(it[1], it[1]),
        token[token.index('"') + 1 : -1],
        flags=re.DOTALL,
    )


def _number(text: str) -> Value:
    if len(text) > 64:
        raise Unreadable("a number above 64 digits")
    whole = text.rstrip("uUlL")
    if re.fullmatch(r"0[0-7]+", whole):
        return int(whole, 8)
    if re.fullmatch(r"0[xX][0-9A-Fa-f]+|0|[1-9]\d*", whole):
        return int(whole, 0)
    if whole.isdigit():
        raise Unreadable(f"{whole} begins with 0, and has digits that no octal number has")
    number = float(text.rstrip("fFlL"))
    if number == float("inf"):
        raise Unreadable("a number above all")
    return number


def _computed(mark: str, left: Value, right: Value) -> Value:
    if not isinstance(left, int) or not isinstance(right, int):
        raise Unreadable("no value")
    if mark in ("<<", ">>") and not 0 <= right < 64 or mark in ("/", "%") and not right:
        raise Unreadable("no value")
    found = _BINARY[mark][1](left, right)
    if abs(found) >= 1 << 128:
        raise Unreadable("a number above 128 bits")
    return found


def _signed(number: int) -> int | None:
    """An id of 32 bits with its sign."""
    if 0x80000000 <= number <= 0xFFFFFFFF:
        return number - 0x100000000
    return int(number) if -0x80000000 <= number < 0x80000000 else None


def _plain(words: typing.Sequence[str]) -> str:
    """A type of C in the words of a library's text."""
    sign = "unsigned " if "unsigned" in words else ""
    rest = [it for it in words if it not in ("unsigned", "signed")]
    if rest.count("long") == 2 or "__int64" in rest or "hyper" in rest or "__int3264" in rest:
        return f"{sign}hyper"
    for it in rest:
        if it in _WIDTHS:
            return sign + _WIDTHS[it]
    for it in ("char", "short", "long"):
        if it in rest:
            return sign + it
    if "int" in rest or not rest:
        return f"{sign}int"
    return {"byte": "unsigned char", "boolean": "unsigned char", "wchar_t": "short"}.get(
        rest[0], rest[0]
    )
