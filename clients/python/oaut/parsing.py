"""The library of a text (docs/reference/idl.md, docs/reference/library.md), without the program:
`Library.from_text` reads one, and `text_of` writes one that is read as the same library."""
from __future__ import annotations

import decimal
import re
import typing
import uuid

from .faults import NotALibrary, Place
from .library import (
    DEFAULT_INTERFACE,
    HAS_DEFAULT,
    IN,
    OPTIONAL,
    READ_ONLY,
    Coclass,
    Form,
    Interface,
    Parameter,
    fold,
    type_word,
)
from .paths import place_of
from .records import METHOD, PROPERTYGET, PROPERTYPUT
from .starting import RESERVED
from .values import ARRAY, CELLS, INTEGERS, SCALARS, TEXT_LIMIT, VOID, VT
from .wire import read_field, spell

# the limits of a text
TEXT, NAME, ITEMS, MEMBERS, PARAMETERS = 262_144, 64, 256, 512, 16
_HEX = b"[0-9A-Fa-f]"
_BLANKS = re.compile(rb"(?:[ \t\r\n]|//[^\r\n]*|/\*.*?\*/)*", re.DOTALL)
_TOKEN = re.compile(
    rb"(?P<guid>%(h)b{8}(?:-%(h)b{4}){3}-%(h)b{12})"
    rb"|(?P<name>[A-Za-z_][A-Za-z0-9_]*)"
    rb"|(?P<number>0x%(h)b+|[0-9]+)"
    rb'|(?P<string>"(?:[^"\\]|\\.)*")'
    rb"|(?P<mark>[][(){},;:.-])" % {b"h": _HEX},
    re.DOTALL,
)
_PLAIN_TEXT = re.compile(r'"(?:[ !#-\[\]-~]|\\["\\])*"')
_UNSIGNED = {"char", "short", "long", "int", "hyper"}
_TYPES = {
    type_word(vt): vt for vt in (*SCALARS, VT.VARIANT) if not type_word(vt).startswith("type")
}

Literal = typing.Union[int, bool, str]
_T = typing.TypeVar("_T")


class NoLibraryText(NotALibrary):
    """A text that is no library: `fault` is the program's line for it."""

    def __init__(self, fault: str, place: Place | None = None) -> None:
        at = f" at {place[1]}:{place[2]}" if place is not None else ""
        super().__init__(f"no library{at}: {fault}")
        self.fault = f"oaut: {fault}"
        if place is not None:
            _, self.line, self.column, self.shown = place

    def __str__(self) -> str:
        told = str(self.args[0])
        return f"{told}\n{self.shown}" if self.shown else told


class Token(typing.NamedTuple):
    """A token: its kind, its text and its place."""

    kind: str
    text: str
    place: int


class Head(typing.NamedTuple):
    """The attributes of an item, a member or a parameter: its number (for a member the DISPID), its
    GUID, the words without a value, and the default of a parameter."""

    guid: uuid.UUID
    id: int
    words: frozenset[str]
    default: Literal | None


class Declared(typing.NamedTuple):
    """A declaration of an interface as it is written."""

    form: Form
    defaults: list[Literal | None]


class Face(typing.NamedTuple):
    """An interface as it is written."""

    guid: uuid.UUID
    name: str
    members: list[Declared]


class Class(typing.NamedTuple):
    """A coclass as it is written: pairs of whether an entry is the default and its interface."""

    guid: uuid.UUID
    name: str
    entries: list[tuple[bool, str]]


Item = typing.Union[Face, Class]


class Parser:
    """Reads a text by the grammar. Raises NoLibraryText at the first token that is not allowed."""

    def __init__(self, text: bytes) -> None:
        self.text = text
        self.tokens = list(self._tokens())
        self.at = 0
        self.faces = self.classes = 0

    def _tokens(self) -> typing.Iterator[Token]:
        place, end = 0, len(self.text)
        while True:
            blanks = _BLANKS.match(self.text, place)
            place = blanks.end() if blanks else place
            found = _TOKEN.match(self.text, place)
            if place == end or found is None or found.lastgroup is None:
                yield Token("end" if place == end else "none", "", place)
                return
            yield Token(found.lastgroup, found[0].decode("utf-8", "surrogateescape"), place)
            place = found.end()

    # --- the next token

    def fail(self, token: Token | None = None) -> typing.NoReturn:
        place = (token or self.tokens[self.at]).place
        fault = f"syntax at byte {place}"
        raise NoLibraryText(fault, place_of(f"oaut: {fault}", self.text, ""))

    def next(self, *kinds: str) -> Token:
        """The next token, which is of one of these kinds."""
        token = self.tokens[self.at]
        if token.kind not in kinds:
            self.fail()
        self.at += 1
        return token

    def sees(self, *texts: str) -> bool:
        """Whether the next token is one of these marks or words."""
        token = self.tokens[self.at]
        return token.kind in ("mark", "name") and token.text in texts

    def take(self, text: str) -> bool:
        """Passes a mark or a word, if it is the next token."""
        found = self.sees(text)
        self.at += found
        return found

    def need(self, *texts: str) -> str:
        """Passes one of these marks or words."""
        if not self.sees(*texts):
            self.fail()
        self.at += 1
        return self.tokens[self.at - 1].text

    def name(self, count: int = 0, most: int = 0, limit: str = "") -> str:
        """A name, the one after `count` others of which there may be `most`."""
        token = self.next("name")
        if token.text in RESERVED:
            self.fail(token)
        if len(token.text) > NAME:
            raise NoLibraryText("limit name")
        if limit and count >= most:
            raise NoLibraryText(f"limit {limit}")
        return token.text

    def number(self) -> int:
        """A number."""
        hexed = self._is_hex()
        return int(self.next("number").text, 16 if hexed else 10)

    def _is_hex(self) -> bool:
        return self.tokens[self.at].text.startswith("0x")

    # --- attributes in brackets

    def head(self, words: typing.Sequence[str], needed: str = "", library: bool = False) -> Head:
        """The attributes in brackets: each of these words at most once, of `propget` and `propput`
        one, and the needed one."""
        self.need("[")
        guid, dispid, default = uuid.UUID(int=0), 0, None
        left = list(words)
        found: list[str] = []
        while True:
            word = self.need(*left)
            found.append(word)
            for it in ("propget", "propput") if word in ("propget", "propput") else (word,):
                if it in left:
                    left.remove(it)
            if word == "uuid":
                guid = uuid.UUID(self._in_brackets(lambda: self.next("guid").text))
            elif word == "version":
                self._in_brackets(lambda: self.version(library))
            elif word == "helpstring":
                self._in_brackets(lambda: self.next("string"))
            elif word == "id":
                dispid = self._in_brackets(self.dispid)
            elif word == "defaultvalue":
                default = self._in_brackets(self.literal)
            if not left or not self.take(","):
                break
        if needed and needed not in found:
            self.fail()
        self.need("]")
        return Head(guid, dispid, frozenset(found), default)

    def _in_brackets(self, read: typing.Callable[[], _T]) -> _T:
        self.need("(")
        found = read()
        self.need(")")
        return found

    def version(self, library: bool) -> None:
        """A version, of the library with parts that have 16 bits."""
        for turn in range(2):
            token = self.tokens[self.at]
            if self.number() > 0xFFFF and library:
                self.fail(token)
            if turn or not self.take("."):
                return

    def dispid(self) -> int:
        """An id: 32 bits with a sign, and neither -1 nor -3."""
        minus = self.take("-")
        token, hexed = self.tokens[self.at], self._is_hex()
        number = self.number()
        if minus:
            number = -number
        elif hexed and 1 << 31 <= number < 1 << 32:
            number -= 1 << 32
        if not -(1 << 31) <= number < 1 << 31 or number in (-1, -3):
            self.fail(token)
        return number

    def literal(self) -> Literal:
        """The value of a default."""
        if self.sees("TRUE", "FALSE"):
            return self.need("TRUE", "FALSE") == "TRUE"
        minus = self.take("-")
        token = self.tokens[self.at]
        if not minus and token.kind == "string":
            if not _PLAIN_TEXT.fullmatch(token.text):
                self.fail(token)
            self.at += 1
            return re.sub(r"\\(.)", r"\1", token.text[1:-1])
        number = self.number()
        if number >= 1 << 96:
            self.fail(token)
        return -number if minus else number

    # --- types, members and items

    def word(self, in_array: bool = False) -> int:
        """A type that is no array."""
        token = self.next("name")
        text = token.text
        if text == "unsigned":
            token = self.next("name")
            if token.text not in _UNSIGNED:
                self.fail(token)
            text = f"unsigned {token.text}"
        vt = _TYPES.get(text)
        if vt is None or in_array and vt not in CELLS:
            self.fail(token)
        return vt

    def type(self) -> int:
        """A type."""
        if not self.take("SAFEARRAY"):
            return self.word()
        return ARRAY | self._in_brackets(lambda: self.word(True))

    def parameters(self, put: bool) -> typing.Iterator[tuple[Parameter, Literal | None]]:
        """The parameters of a method up to the bracket after them, and their defaults."""
        count = 0
        if not put and self.take(")"):
            return
        while True:
            head = Head(uuid.UUID(int=0), 0, frozenset(), None)
            if self.sees("["):
                head = self.head(("in", "optional", "defaultvalue"))
            flags = IN if "in" in head.words else 0
            if head.words & {"optional", "defaultvalue"}:
                flags |= OPTIONAL
            if head.default is not None:
                flags |= HAS_DEFAULT
            vt, name = self.type(), self.name(count, PARAMETERS, "params")
            yield Parameter(vt, flags, name, None), head.default
            count += 1
            if self.need(",", ")") == ")":
                return

    def property(self, count: int) -> Declared:
        """A declaration of `properties:`."""
        head = self.head(("id", "readonly", "helpstring"), "id")
        flags = READ_ONLY if "readonly" in head.words else 0
        vt, name = self.type(), self.name(count, MEMBERS, "members")
        self.need(";")
        return Declared(Form(head.id, 0, flags, vt, name, []), [])

    def method(self, count: int) -> Declared:
        """A declaration of `methods:`."""
        head = self.head(("id", "propget", "propput", "helpstring"), "id")
        kind = METHOD
        if head.words & {"propget", "propput"}:
            kind = PROPERTYGET if "propget" in head.words else PROPERTYPUT
        if self.sees("void") and kind != PROPERTYGET:
            self.need("void")
            vt = VOID
        elif kind == PROPERTYPUT:
            self.fail()
        else:
            vt = self.type()
        name = self.name(count, MEMBERS, "members")
        self.need("(")
        found = list(self.parameters(kind == PROPERTYPUT))
        self.need(";")
        form = Form(head.id, kind, 0, vt, name, [it for it, _ in found])
        return Declared(form, [it for _, it in found])

    def face(self, guid: uuid.UUID) -> Face:
        """An interface, after its first word."""
        name = self.name(self.faces, ITEMS, "interfaces")
        self.faces += 1
        members: list[Declared] = []
        self.need("{")
        if self.take("properties"):
            self.need(":")
            while self.sees("["):
                members.append(self.property(len(members)))
        if self.take("methods"):
            self.need(":")
            while self.sees("["):
                members.append(self.method(len(members)))
        self.need("}")
        return Face(guid, name, members)

    def coclass(self, guid: uuid.UUID) -> Class:
        """A coclass, after its first word."""
        name = self.name(self.classes, ITEMS, "coclasses")
        self.classes += 1
        entries: list[tuple[bool, str]] = []
        self.need("{")
        while not entries or not self.take("}"):
            first = not any(it for it, _ in entries) and self.take("[")
            if first:
                self.need("default")
                self.need("]")
            self.need("dispinterface", "interface")
            entries.append((first, self.name()))
            self.need(";")
        return Class(guid, name, entries)

    def library(self) -> tuple[uuid.UUID, list[Item]]:
        """All of it: the library's GUID and its items."""
        guid = self.head(("uuid", "version", "helpstring"), "uuid", True).guid
        self.need("library")
        self.name()
        self.need("{")
        items: list[Item] = []
        while not self.take("}"):
            if self.take("importlib"):
                self._in_brackets(lambda: self.next("string"))
                self.need(";")
                continue
            of = self.head(("uuid", "version", "helpstring"), "uuid").guid
            word = self.need("dispinterface", "coclass")
            items.append(self.face(of) if word == "dispinterface" else self.coclass(of))
            self.take(";")
        self.take(";")
        self.next("end")
        return guid, items


# --- what a tree of the grammar may not be


def refuse(what: str, name: object) -> typing.NoReturn:
    raise NoLibraryText(f"{what} {name}")


def check_names(items: typing.Sequence[Item]) -> None:
    """Raises NoLibraryText if two names are the same."""
    seen: set[str] = set()
    for item in items:
        _add("duplicate name", item.name, seen)
        if isinstance(item, Class):
            own: set[str] = set()
            for _, name in item.entries:
                _add("duplicate name", name, own)
            continue
        kinds: dict[str, set[int]] = {}
        for form, _ in item.members:
            there = kinds.setdefault(fold(form.name), set())
            if form.kind in there or (there and {form.kind, *there} != {PROPERTYGET, PROPERTYPUT}):
                refuse("duplicate name", form.name)
            there.add(form.kind)
            names: set[str] = set()
            for it in form.parameters:
                _add("duplicate name", it.name, names)


def _add(what: str, name: str, seen: set[str]) -> None:
    if fold(name) in seen:
        refuse(what, name)
    seen.add(fold(name))


def check_numbers(guid: uuid.UUID, items: typing.Sequence[Item]) -> None:
    """Raises NoLibraryText if two DISPIDs or two GUIDs are the same, or an entry names no
    interface."""
    for item in items:
        ids: dict[int, str] = {}
        for form, _ in item.members if isinstance(item, Face) else ():
            if ids.setdefault(form.dispid, fold(form.name)) != fold(form.name):
                refuse("duplicate id", form.name)
    guids = {guid}
    for item in items:
        if item.guid in guids:
            refuse("duplicate guid", item.guid)
        guids.add(item.guid)
    faces = {fold(it.name) for it in items if isinstance(it, Face)}
    for item in items:
        for _, name in item.entries if isinstance(item, Class) else ():
            if fold(name) not in faces:
                refuse("unknown interface", name)


def check_pairs(items: typing.Sequence[Item]) -> None:
    """Raises NoLibraryText if the get and the put of a property disagree."""
    for item in items:
        before: dict[str, Declared] = {}
        for it in item.members if isinstance(item, Face) else ():
            other = before.setdefault(fold(it.form.name), it)
            if other is not it and _pair(it) != _pair(other):
                refuse("get and put disagree", it.form.name)


def _pair(it: Declared) -> tuple[object, ...]:
    """The common part of a property's get and put."""
    own, defaults, vt = it.form.parameters, it.defaults, it.form.vt
    if it.form.kind == PROPERTYPUT:
        vt, own, defaults = own[-1].vt, own[:-1], defaults[:-1]
    told = [(fold(of.name), of.vt, of.flags, type(it), it) for of, it in zip(own, defaults)]
    return it.form.dispid, vt, told


def check_parameters(items: typing.Sequence[Item]) -> None:
    """Raises NoLibraryText if a get or a put has an array for a parameter, or a default has no
    value of its type."""
    members = [it for item in items if isinstance(item, Face) for it in item.members]
    for form, _ in members:
        own = form.parameters[:-1] if form.kind == PROPERTYPUT else form.parameters
        for it in own if form.kind != METHOD else ():
            if it.vt & ARRAY:
                refuse("array parameter", it.name)
    for form, defaults in members:
        for place, (it, default) in enumerate(zip(form.parameters, defaults), 1):
            new = form.kind == PROPERTYPUT and place == len(form.parameters)
            if new and it.flags & (OPTIONAL | HAS_DEFAULT):
                refuse("bad default", it.name)
            if default is not None and value_of(default, it.vt) is None:
                refuse("bad default", it.name)


def value_of(default: Literal, vt: int) -> object:
    """The value of a default for a parameter of a type: None if it has none."""
    if isinstance(default, bool):
        return default if vt in (VT.BOOL, VT.VARIANT) else None
    if isinstance(default, str):
        well = vt in (VT.BSTR, VT.VARIANT) and 2 * len(default) <= TEXT_LIMIT // 4
        return default if well else None
    if vt in INTEGERS:
        of = INTEGERS[vt]
        return of(default) if of.low <= default <= of.high else None
    if vt == VT.ERROR:
        return default if 0 <= default < 1 << 32 else None
    if vt == VT.CY:
        well = -(1 << 63) <= default * 10_000 < 1 << 63
        return decimal.Decimal(default) if well else None
    if vt == VT.DECIMAL:
        return decimal.Decimal(default)
    of = INTEGERS[VT.I4]
    return of(default) if vt == VT.VARIANT and of.low <= default <= of.high else None


# --- texts and descriptions


def parsed(text: str | bytes) -> list[Interface | Coclass]:
    """The contents of a text: its interfaces, then its coclasses."""
    data = text.encode("utf-8", "surrogatepass") if isinstance(text, str) else text
    if len(data) > TEXT:
        raise NoLibraryText("limit text")
    guid, items = Parser(data).library()
    for check in (check_names, lambda it: check_numbers(guid, it), check_pairs, check_parameters):
        check(items)
    faces = [it for it in items if isinstance(it, Face)]
    places = {fold(it.name): place for place, it in enumerate(faces)}
    classes = [it for it in items if isinstance(it, Class)]
    return [*map(_interface, faces), *(_coclass(it, places) for it in classes)]


def _interface(face: Face) -> Interface:
    named: dict[str, list[Form]] = {}
    for form, defaults in face.members:
        parameters = [
            it if default is None else it._replace(default=_typed(default, it.vt))
            for it, default in zip(form.parameters, defaults)
        ]
        named.setdefault(fold(form.name), []).append(form._replace(parameters=parameters))
    forms = [it for them in named.values() for it in sorted(them, key=lambda it: it.kind)]
    return Interface(face.guid, face.name, forms)


def _typed(default: Literal, vt: int) -> object:
    return read_field(spell(value_of(default, vt), vt))


def _coclass(of: Class, places: dict[str, int]) -> Coclass:
    marked = any(first for first, _ in of.entries)
    return Coclass(
        of.guid,
        of.name,
        [
            (DEFAULT_INTERFACE if first or not (marked or place) else 0, places[fold(name)])
            for place, (first, name) in enumerate(of.entries)
        ],
    )


def text_of(interfaces: typing.Sequence[Interface], coclasses: typing.Sequence[Coclass]) -> str:
    """A text of a library with these items. Its own name and GUID, which no client sees, are made
    up."""
    used = {it.guid for it in interfaces} | {it.guid for it in coclasses}
    own = next(it for it in map(lambda n: uuid.UUID(int=n), range(len(used) + 1)) if it not in used)
    lines = [f"[uuid({own}), version(0.0)]", "library Described {"]
    for face in interfaces:
        lines += [f"[uuid({face.guid})]", f"dispinterface {face.name} {{", "properties:"]
        for form in face.forms:
            if form.kind == 0:
                readonly = ", readonly" if form.flags & READ_ONLY else ""
                lines.append(f"[id({form.dispid}){readonly}] {type_word(form.vt)} {form.name};")
        lines.append("methods:")
        for form in face.forms:
            if form.kind != 0:
                word = {PROPERTYGET: ", propget", PROPERTYPUT: ", propput"}.get(form.kind, "")
                told = ", ".join(map(_parameter, form.parameters))
                head = f"[id({form.dispid}){word}] {type_word(form.vt)}"
                lines.append(f"{head} {form.name}({told});")
        lines.append("}")
    for of in coclasses:
        lines += [f"[uuid({of.guid})]", f"coclass {of.name} {{"]
        for flags, index in of.entries:
            first = "[default] " if flags & DEFAULT_INTERFACE else ""
            lines.append(f"{first}dispinterface {interfaces[index].name};")
        lines.append("}")
    return "\n".join([*lines, "}", ""])


def _parameter(it: Parameter) -> str:
    words = ["in"] * bool(it.flags & IN) + ["optional"] * bool(it.flags & OPTIONAL)
    if it.flags & HAS_DEFAULT:
        words.append(f"defaultvalue({_literal(it.default)})")
    head = f"[{', '.join(words)}] " if words else ""
    return f"{head}{type_word(it.vt)} {it.name}"


def _literal(value: object) -> str:
    if isinstance(value, bool):
        return "TRUE" if value else "FALSE"
    if isinstance(value, str):
        return '"' + re.sub(r'(["\\])', r"\\\1", value) + '"'
    return str(int(typing.cast(typing.SupportsInt, value)))
