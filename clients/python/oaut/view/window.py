"""The page's view of a session: the library as a tree, objects as rows, one object with its cells,
changes and undo. Each call returns a value for `json.dumps`. Nothing here knows of HTTP, and all
calls are made by one thread, which owns the session."""
from __future__ import annotations

import decimal
import json
import operator
import os
import re
import struct
import tempfile
import time
import typing
import uuid

from .. import store as stores
from ..faults import Error, Refused, SessionEnded
from ..files import Json
from ..keys import scalar_value
from ..library import (
    HAS_DEFAULT,
    IN,
    OPTIONAL,
    Coclass,
    Form,
    Interface,
    Library,
    Member,
    fold,
    type_word,
)
from ..objects import ArrayProperty, Object
from ..programs import Program, play
from ..protocol import Later
from ..records import PROPERTYGET, PROPERTYPUT, ask_list
from ..session import Server
from ..values import ARRAY, MISSING, NULL_BSTR, VT, Array, Currency, Value, typed
from ..words import value_of, words_of
from .held import Held

Key = tuple[stores.Scalar, ...]

# how much of a text a row shows, and a property
SHORT, LONG = 80, 2_000
# how many rows or columns of an array, keys of a property and rows of a table one response has
MOST_ROWS, MOST_COLUMNS, MOST_KEYS, MOST_OBJECTS = 200, 64, 200, 500
# how many gets of a whole column go out before others have their turn
PART = 8_192
_BSTR, _VARIANT = int(VT.BSTR), int(VT.VARIANT)
_DEFAULT = bytes(16)
_COMPARED = re.compile(r"\s*(<=|>=|!=|<|>|=)\s*(.*)", re.DOTALL)
# an entry of a LIST's reply
_ENTRY = struct.Struct("<I4x16s")
_ORDERS: dict[str, typing.Callable[..., object]] = {
    "=": operator.eq,
    "!=": operator.ne,
    "<": operator.lt,
    ">": operator.gt,
    "<=": operator.le,
    ">=": operator.ge,
}


class Wrong(Exception):
    """A request without a result: its text is the reason, and `status` is that of HTTP."""

    def __init__(self, why: str, status: int = 400) -> None:
        super().__init__(why)
        self.status = status


# --- refusals

# the words for the codes of a call; all other codes have the client's words
_WORDS = {
    0x8000_4001: "it is a method, and the library has no bodies of methods",
    0x8000_4005: "the store's device has failed; nothing is written any more",
    0x8000_FFFF: "there is none yet, or the store cannot hold another object",
    0x8001_0108: "the store has no object with this number; it was released",
    0x8002_0003: "there is no such member, or it cannot be read, or not be changed",
    0x8002_0005: "the value is of another type",
    0x8002_0008: "values of this type are not supported",
    0x8002_000A: "the number is too large or too small",
    0x8002_000B: "nothing has this index",
    0x8002_000D: "another client has locked the array",
    0x8002_000E: "the number of arguments is wrong",
    0x8002_000F: "a required argument is missing",
    0x8003_001D: "the store's device failed; the change was made completely or not at all",
    0x8003_0070: "the store is full; nothing has changed",
    0x8007_000E: "the server is out of memory; nothing has changed",
    0x8007_0057: "an array or the whole call is too large",
    0x8007_06F7: "the server refuses the call: a text is too long",
}


def in_words(fault: Error, name: str = "", declared: int | None = None) -> str:
    """Returns an error in words, of a member with a declared type if there is one, followed by
    its code."""
    words = _WORDS.get(fault.code) if isinstance(fault, Refused) else None
    if words is None or not isinstance(fault, Refused):
        return str(fault)
    about = f"{name} is declared {type_word(declared)}: " if declared is not None else ""
    return f"{about}{words} ({fault.name})"


# --- values


def shown(value: object, declared: int, most: int = LONG) -> Json:
    """A value for a page: its type in IDL's words, its text, and of a long one its beginning."""
    if isinstance(value, Error):
        return {"type": type_word(declared), "refused": in_words(value)}
    if isinstance(value, Array):
        bounds = [list(it) for it in value.bounds]
        return {"type": type_word(ARRAY | value.vt), "bounds": bounds, "cells": len(value.cells)}
    if value is None and declared == _BSTR or value is NULL_BSTR:
        return {"type": "BSTR", "null": True}
    vt = typed(value, declared)[0]
    if isinstance(value, (str, bytes)):
        return {"type": "BSTR", **_text_shown(value, most)}
    if value is None:
        return {"type": "NULL", "null": True}
    if isinstance(value, bool):
        return {"type": type_word(vt), "text": "true" if value else "false"}
    if isinstance(value, decimal.Decimal):
        return {"type": type_word(vt), "text": f"{value:f}", "number": True}
    if isinstance(value, int):
        number = int(value)
        text = f"0x{number:08x}" if vt == VT.ERROR else str(number)
        return {"type": type_word(vt), "text": text, "number": True}
    return {"type": "EMPTY", "null": True}


def _text_shown(value: str | bytes, most: int) -> Json:
    """A text, or if it is none the digits of its bytes."""
    if isinstance(value, str) and is_text(value):
        cut = {"length": len(value)} if len(value) > most else {}
        return {"text": value[:most], **cut}
    data = value if isinstance(value, bytes) else value.encode("utf-16-le", "surrogatepass")
    cut = {"length": len(data)} if len(data) > most // 2 else {}
    return {"hex": data[: most // 2].hex(" "), **cut}


def is_text(value: str) -> bool:
    """Whether a text has characters alone: no half of a pair, and no controls but of lines."""
    return not any(
        it < " " and it not in "\t\n\r" or "\ud800" <= it <= "\udfff" or "\x7f" <= it < "\xa0"
        for it in value
    )


def value_of_words(words: str, declared: int) -> Value:
    """The value that was typed for a declared type. Words that are no number are sent as a text,
    and the server says what is wrong with it."""
    if declared == _BSTR:
        return words
    if declared & ARRAY or declared == _VARIANT:
        return value_of(words)
    told = words.strip()
    if declared == VT.BOOL:
        return {"true": True, "false": False}.get(told.lower(), told)
    try:
        if declared == VT.CY:
            return Currency(told)
        if declared == VT.DECIMAL:
            return decimal.Decimal(told)
        return int(told, 0)
    except (ValueError, ArithmeticError):
        return told


def words_to_type(value: object, declared: int) -> str:
    """The words in a field for changing a value, which `value_of_words` converts back."""
    if declared == _BSTR:
        return value if isinstance(value, str) else ""
    if declared & ARRAY or declared == _VARIANT:
        return words_of(value)
    return str(shown(value, declared).get("text", ""))


def key_of(digits: str) -> Key:
    """The key of such digits. Raises Wrong if they are none."""
    try:
        source, found = stores.Bytes(bytes.fromhex(digits)), []
        while source.place < source.end:
            found.append(stores.scalar(source))
        return tuple(found)
    except (ValueError, struct.error, stores.NoImage):
        raise Wrong("no key") from None


# --- the order of a column


def rank(value: object) -> tuple[object, ...]:
    """The sort key of a column's values: no value, numbers, texts, all else."""
    if value is None or value is NULL_BSTR or isinstance(value, Error):
        return (0,)
    if isinstance(value, (int, decimal.Decimal)):
        return 1, value
    if isinstance(value, str):
        return 2, value
    return 3, words_of(value)


def fits(value: object, asked: str) -> bool:
    """Whether a value is what a filter asks for: a part of its text, or `< 5`, `>= b`, `= x`."""
    compared = _COMPARED.fullmatch(asked)
    told = "" if rank(value) == (0,) else value if isinstance(value, str) else words_of(value)
    if isinstance(value, (int, decimal.Decimal)) and not isinstance(value, bool):
        told = f"{value:f}" if isinstance(value, decimal.Decimal) else str(int(value))
    if compared is None:
        return fold(asked.strip()) in fold(told)
    sign, words = compared.groups()
    compare = _ORDERS[sign]
    if isinstance(value, bool):
        return bool(compare(fold(told), fold(words.strip())))
    if isinstance(value, (int, decimal.Decimal)):
        try:
            return bool(compare(decimal.Decimal(value), decimal.Decimal(words.strip())))
        except ArithmeticError:
            return sign == "!="
    return bool(compare(told, words.strip()))


class Column(typing.NamedTuple):
    """The values of a property of all objects of a coclass, as they were at a moment."""

    values: dict[int, object]
    read: float


# --- what a new library would lose


def lost(new: Library, old: Library) -> list[str]:
    """All incompatibilities of a new library with an old one (docs/reference/library.md)."""
    told = []
    faces = {it.guid: it for it in new.interfaces}
    for face in old.interfaces:
        if face.guid not in faces:
            told.append(old.words_of(face.guid, None))
            continue
        forms = {(it.dispid, it.kind): it for it in faces[face.guid].forms}
        for form in face.forms:
            kept = forms.get((form.dispid, form.kind))
            if kept is None or _declared(kept) != _declared(form):
                words = {PROPERTYGET: " (its get)", PROPERTYPUT: " (its put)"}.get(form.kind, "")
                told.append(old.words_of(face.guid, form.dispid) + words)
    classes = {it.guid: it for it in new.coclasses}
    for coclass in old.coclasses:
        found = classes.get(coclass.guid)
        if found is None:
            told.append(old.words_of(coclass.guid, None))
        elif not _entries(coclass, old) <= _entries(found, new):
            told.append(f"the interfaces of {old.words_of(coclass.guid, None)}")
        elif old.interface(coclass).guid != new.interface(found).guid:
            told.append(f"the default interface of {old.words_of(coclass.guid, None)}")
    return told


def _declared(form: Form) -> tuple[object, ...]:
    parameters = [(fold(it.name), it.vt, it.flags, it.default) for it in form.parameters]
    return form.dispid, form.kind, form.flags, form.vt, fold(form.name), parameters


def _entries(coclass: Coclass, library: Library) -> set[uuid.UUID]:
    return {library.interfaces[index].guid for _, index in coclass.entries}


# --- the window


class Window:
    """The session that `connect` begins, again if it has ended, and the store's file if it is
    known. Nothing is changed unless `write` is set."""

    def __init__(
        self,
        connect: typing.Callable[[], Server],
        store: str | None,
        write: bool,
        program: Program,
    ) -> None:
        self._connect, self.write, self._program = connect, write, program
        self._file = None if store is None else Held(store)
        self._server: Server | None = None
        self._listed: tuple[bytes, dict[bytes, list[int]]] = (b"", {})
        self._columns: dict[tuple[bytes, str], Column] = {}
        self._last: Json | None = None

    def close(self) -> None:
        """Ends the session."""
        server, self._server = self._server, None
        if server is not None:
            server.close()

    def server(self) -> Server:
        """The session, made anew if the one before has ended."""
        if self._server is None:
            self._server = self._connect()
            self._columns.clear()
        return self._server

    def guarded(self, call: typing.Callable[..., Json], *words: object) -> Json:
        """The result of a call. If the session has ended, the call is made once more, but never
        after a request that may have changed something."""
        try:
            return call(*words)
        except SessionEnded:
            self._drop()
            if call in (self.put, self.undo, self.replace, self.create, self.release):
                raise
            return call(*words)

    def _drop(self) -> None:
        try:
            self.close()
        except Error:
            pass

    # --- the library

    def library(self) -> Json:
        """The library as a tree, and its text if the store's file is known."""
        library = self.server().library
        text = None if self._file is None else self._file.text()
        places = _places(text or "")
        faces: list[Json] = []
        for face in library.interfaces:
            members: list[Json] = [
                {**_member_told(it, face), "line": places.get((str(face.guid), it.dispid))}
                for it in library.members(face).values()
            ]
            told: Json = {"name": face.name, "guid": str(face.guid), "members": members}
            faces.append({**told, "line": places.get((str(face.guid), None))})
        counts = self._objects()
        classes: list[Json] = []
        for of in library.coclasses:
            entries = [
                {
                    "name": library.interfaces[at].name,
                    "default": library.interfaces[at] is library.interface(of),
                }
                for _, at in of.entries
            ]
            count = len(counts.get(of.guid.bytes_le, ()))
            told = {"name": of.name, "guid": str(of.guid), "interfaces": entries, "count": count}
            classes.append({**told, "line": places.get((str(of.guid), None))})
        return {
            "interfaces": faces,
            "coclasses": classes,
            "text": text,
            "write": self.write,
            "store": None if self._file is None else os.path.basename(self._file.path),
        }

    # --- objects

    def _objects(self) -> dict[bytes, list[int]]:
        """The numbers of the live objects by their coclass's GUID, of one LIST."""
        server = self.server()
        fields: bytes = server.ask(ask_list(), lambda it: it)
        if fields != self._listed[0]:
            found: dict[bytes, list[int]] = {}
            for number, guid in _ENTRY.iter_unpack(fields[8:]):
                found.setdefault(guid, []).append(number)
            self._listed = fields, found
        return self._listed[1]

    def rows(self, asked: typing.Mapping[str, str]) -> Json:
        """A part of the objects of a coclass, in an order: one LIST, and the gets of what is
        shown. `sort` and the filters (`f.NAME`) use a column as it was first read, or as it
        was read since the last request with `fresh`."""
        library = self.server().library
        of = _coclass(library, asked.get("coclass", ""))
        face = library.interface(of)
        members = library.members(face)
        begun = time.monotonic()
        numbers = list(self._objects().get(of.guid.bytes_le, ()))
        total, oldest = len(numbers), begun
        for name, words in asked.items():
            if name.startswith("f.") and words.strip():
                column = self._column(of, _member(members, name[2:]), numbers, "fresh" in asked)
                oldest = min(oldest, column.read)
                numbers = [it for it in numbers if fits(column.values.get(it), words)]
        if asked.get("sort") == "#":
            numbers.sort(reverse=asked.get("down") == "1")
        elif asked.get("sort"):
            column = self._column(of, _member(members, asked["sort"]), numbers, "fresh" in asked)
            oldest = min(oldest, column.read)
            values = column.values
            numbers.sort(key=lambda it: rank(values.get(it)), reverse=asked.get("down") == "1")
        start = _number(asked, "from", 0, len(numbers))
        part = numbers[start : start + _number(asked, "count", 50, MOST_OBJECTS)]
        wanted = [_member(members, it) for it in asked.get("columns", "").split(",") if it]
        items = [Object(self.server(), it, of) for it in part]
        found = self._gets([(item, it, ()) for item in items for it in wanted])
        cells = iter(found)
        rows = [
            {"number": it, "cells": [shown(next(cells), one.vt, SHORT) for one in wanted]}
            for it in part
        ]
        return {
            "of": total,
            "found": len(numbers),
            "from": start,
            "rows": rows,
            "ordered": round(time.monotonic() - oldest, 1),
        }

    def _column(self, of: Coclass, member: Member, numbers: list[int], fresh: bool) -> Column:
        """The values of a property of all objects of a coclass, and those of new ones."""
        name = of.guid.bytes_le, member.name
        known = self._columns.get(name)
        values = {} if known is None or fresh else known.values
        lacking = [it for it in numbers if it not in values]
        for at in range(0, len(lacking), PART):
            part = lacking[at : at + PART]
            items = [(Object(self.server(), it, of), member, ()) for it in part]
            values.update(zip(part, self._gets(items)))
        moment = time.monotonic() if known is None or fresh else known.read
        self._columns[name] = Column(values, moment)
        return self._columns[name]

    def _gets(
        self, asked: typing.Sequence[tuple[Object, Member, tuple[object, ...]]]
    ) -> list[object]:
        """Values, or the refusals that came in their place."""
        laters: list[Later | None] = []
        try:
            with self.server().batch():
                for item, member, key in asked:
                    laters.append(_get(item, member, key) if member.can_get else None)
        except Refused:
            pass  # each is at its place
        return [None if it is None else _answer(it) for it in laters]

    def object(self, asked: typing.Mapping[str, str]) -> Json:
        """One object: its properties by interface, and of those with parameters the keys that the
        store's file has, a part of them each."""
        item = self._item(asked)
        library = self.server().library
        of = library.coclass(item.coclass)
        faces: list[Json] = []
        for _, at in of.entries:
            face = library.interfaces[at]
            other = item.interface(str(face.guid))
            members = [it for it in library.members(face).values() if not it.is_method]
            plain = [it for it in members if not it.parameters]
            values = self._gets([(other, it, ()) for it in plain])
            properties = [
                {**_member_told(it, face), **self._field(value, it)}
                for it, value in zip(plain, values)
            ]
            tables = [self._keyed(other, face, it, 0, 20) for it in members if it.parameters]
            told: Json = {"name": face.name, "default": face is library.interface(of)}
            faces.append({**told, "properties": properties, "tables": tables})
        return {"number": item.number, "coclass": of.name, "interfaces": faces}

    def keys(self, asked: typing.Mapping[str, str]) -> Json:
        """A further part of the keys of a property, with their values."""
        item, face, member = self._place(asked)
        start = _number(asked, "from", 0, 1 << 32)
        return self._keyed(item, face, member, start, _number(asked, "count", 20, MOST_KEYS))

    def _keyed(self, item: Object, face: Interface, member: Member, start: int, count: int) -> Json:
        found = None if self._file is None else self._file.keys(item.number)
        told = {**_member_told(member, face), "from": start, "known": found is not None}
        keys = (found or {}).get((face.guid.bytes_le, member.dispid), [])
        part = keys[start : start + count]
        words = [tuple(scalar_value(one) for one in key_of(it)) for it in part]
        values = self._gets([(item, member, it) for it in words])
        rows = [
            {
                "key": key,
                "keys": [shown(one, _VARIANT, SHORT) for one in word],
                **self._field(value, member),
            }
            for key, word, value in zip(part, words, values)
        ]
        return {**told, "total": len(keys), "rows": rows}

    def _field(self, value: Value, member: Member) -> Json:
        """A value, as much of it as is shown. The page asks for the whole of one by `words`."""
        return {"value": shown(value, member.vt)}

    def array(self, asked: typing.Mapping[str, str]) -> Json:
        """A part of an array: of one with two bounds rows and columns, of one with more a slice
        of them at the indices of `at`, which come first."""
        item, _, member = self._place(asked)
        found = self._one(item, member, asked)
        if not isinstance(found, Array):
            raise Wrong("there is no array", 404)
        bounds = found.bounds
        ahead = bounds[:-2] if len(bounds) > 2 else []
        first = _indices(asked.get("at", ""), ahead)
        rows, columns = bounds[-2:] if len(bounds) > 1 else (bounds[0], (1, 0))
        at = 0
        for index, (count, _) in zip(first, ahead):
            at = at * count + index
        at *= rows[0] * columns[0]
        top, left = _number(asked, "row", 0, rows[0]), _number(asked, "column", 0, columns[0])
        cells = (
            [
                [
                    shown(found.cells[at + row * columns[0] + column], found.vt, SHORT)
                    for column in range(left, min(left + MOST_COLUMNS, columns[0]))
                ]
                for row in range(top, min(top + MOST_ROWS, rows[0]))
            ]
            if found.cells
            else []
        )
        return {
            "type": type_word(ARRAY | found.vt),
            "bounds": [list(it) for it in bounds],
            "at": list(first),
            "row": top,
            "column": left,
            "cells": cells,
        }

    def value(self, asked: typing.Mapping[str, str]) -> Json:
        """The whole of a long text."""
        item, _, member = self._place(asked)
        return shown(self._one(item, member, asked), member.vt, 1 << 30)

    def words(self, asked: typing.Mapping[str, str]) -> Json:
        """The words in a field for changing a value, and whether they are the value itself."""
        item, _, member = self._place(asked)
        value, vt = self._one(item, member, asked), self._declared(item, member, asked)
        is_text = vt != _BSTR or isinstance(value, str) or value in (None, NULL_BSTR)
        return {"words": words_to_type(value, vt), "exact": is_text}

    def _one(self, item: Object, member: Member, asked: typing.Mapping[str, str]) -> Value:
        """The value at a place: a property's for its arguments, or the cell of an array in it."""
        key, cell = _arguments(member, asked), _cell(asked)
        if cell is not None:
            return item.array(member.name, *key)[cell]
        found = item.property(member.name).get(*key)
        return found.value if isinstance(found, ArrayProperty) else found

    def _declared(self, item: Object, member: Member, asked: typing.Mapping[str, str]) -> int:
        """The type of a place: the member's, or the one that the cells of its array have."""
        if _cell(asked) is None:
            return member.vt
        if member.vt & ARRAY:
            return member.vt & ~ARRAY
        whole = self._one(item, member, {it: asked[it] for it in asked if it != "cell"})
        if not isinstance(whole, Array):
            raise Wrong("there is no array any more", 409)
        return int(whole.vt)

    def _item(self, asked: typing.Mapping[str, str]) -> Object:
        number = _number(asked, "object", -1, 0xFFFF_FFFF)
        for guid, numbers in self._objects().items():
            if number in numbers:
                return self.server().object(number, str(uuid.UUID(bytes_le=guid)))
        raise Wrong(f"there is no object {number}, or no more", 404)

    def _place(self, asked: typing.Mapping[str, str]) -> tuple[Object, Interface, Member]:
        item = self._item(asked)
        library = self.server().library
        try:
            face = library.interface(library.coclass(item.coclass), asked.get("interface") or None)
        except LookupError as error:
            raise Wrong(str(error), 404) from None
        member = _member(library.members(face), asked.get("member", ""))
        return item.interface(str(face.guid)), face, member

    # --- changes

    def put(self, asked: typing.Mapping[str, str]) -> Json:
        """Puts what was typed, and keeps what was there before for `undo`. The place is a
        property, with `key` one of its keys or with `keys` the arguments that were typed, and with
        `cell` an element of its array."""
        self._writes()
        item, face, member = self._place(asked)
        vt = member.vt
        try:
            vt = self._declared(item, member, asked)
            before = self._one(item, member, asked)
            self._change(item, member, asked, value_of_words(str(asked.get("words", "")), vt))
        except Refused as refusal:  # (some of them are ValueErrors, too)
            raise Wrong(in_words(refusal, member.name, vt), 409) from None
        except (ValueError, TypeError, ArithmeticError) as error:
            raise Wrong(str(error), 409) from None
        of = self.server().library.coclass(item.coclass)
        self._columns.pop((of.guid.bytes_le, member.name), None)
        after = self._one(item, member, asked)
        places = ("object", "interface", "member", "key", "keys", "cell")
        place = {it: asked[it] for it in places if it in asked}
        self._last = {**place, "interface": str(face.guid), "before": before, "after": after}
        cell = f"[{asked['cell']}]" if "cell" in asked else ""
        told = f"{item.coclass} {item.number}, {member.name}{cell}"
        return {"value": shown(after, vt), "undo": told}

    def undo(self, asked: typing.Mapping[str, str]) -> Json:
        """Puts back the value of before the last change, unless it was changed again since."""
        last = self._last
        if not self.write or last is None:
            raise Wrong("there is nothing to take back", 409)
        item, _, member = self._place(last)
        try:
            now = self._one(item, member, last)
            if now != last["after"]:
                raise Wrong("not taken back: somebody has changed it again", 409)
            self._change(item, member, last, last["before"])
        except Refused as refusal:
            raise Wrong(in_words(refusal, member.name, member.vt), 409) from None
        self._last = None
        return {"object": item.number, "member": member.name}

    def create(self, asked: typing.Mapping[str, str]) -> Json:
        """Makes an object of a coclass."""
        self._writes()
        of = _coclass(self.server().library, asked.get("coclass", ""))
        try:
            item = self.server().create(str(of.guid))
        except Refused as refusal:
            raise Wrong(in_words(refusal), 409) from None
        return {"number": item.number, "coclass": of.name}

    def release(self, asked: typing.Mapping[str, str]) -> Json:
        """Gives an object up. It is gone from the store, and so is what `undo` knew of it."""
        self._writes()
        item = self._item(asked)
        try:
            item.release()
        except Refused as refusal:
            raise Wrong(in_words(refusal), 409) from None
        if self._last is not None and self._last["object"] == asked.get("object"):
            self._last = None
        self._columns.clear()
        return {"number": item.number, "coclass": item.coclass}

    def _writes(self) -> None:
        if not self.write:
            raise Wrong("nothing is changed here: --write was not given", 403)

    def _change(
        self, item: Object, member: Member, asked: typing.Mapping[str, str], value: Value
    ) -> None:
        key, cell = _arguments(member, asked), _cell(asked)
        if cell is not None:
            item.array(member.name, *key)[cell] = value
        else:
            item.property(member.name).put(value, *key)

    def compare(self, asked: typing.Mapping[str, str]) -> Json:
        """The incompatibilities of another library. Raises Wrong if the text is not a library."""
        with _library_file(asked) as path:
            try:
                with play(path, program=self._program) as other:
                    return {"lost": lost(other.library, self.server().library)}
            except SessionEnded as stop:
                raise Wrong(stop.fault or str(stop), 409) from None

    def replace(self, asked: typing.Mapping[str, str]) -> Json:
        """Gives the server another library."""
        self._writes()
        with _library_file(asked) as path:
            try:
                self.server().replace_library(path)
            except Refused as refusal:
                raise Wrong(str(refusal).replace(f" by {path}", ""), 409) from None
        self._columns.clear()
        self._last = None
        return {}

    def status(self) -> Json:
        """The state of the store's file: sizes in bytes."""
        return {} if self._file is None else self._file.status()


def _library_file(asked: typing.Mapping[str, str]) -> _Text:
    return _Text(str(asked.get("text", "")))


class _Text:
    """A text as a file of its own."""

    def __init__(self, text: str) -> None:
        self._text = text

    def __enter__(self) -> str:
        self._folder = tempfile.TemporaryDirectory(prefix="oaut-view-")
        path = f"{self._folder.name}/new.idl"
        with open(path, "w", encoding="utf-8", newline="") as file:
            file.write(self._text)
        return path

    def __exit__(self, *_: object) -> None:
        self._folder.cleanup()


def _get(item: Object, member: Member, key: tuple[object, ...]) -> Later:
    found = item.property(member.name).get(*key)
    later: Later = found.value if isinstance(found, ArrayProperty) else found
    return later


def _answer(later: Later) -> object:
    try:
        return later.value
    except Error as fault:
        return fault


def _coclass(library: Library, name: str) -> Coclass:
    try:
        return library.coclass(name)
    except LookupError as error:
        raise Wrong(str(error), 404) from None


def _member(members: dict[str, Member], name: str) -> Member:
    found = members.get(fold(name))
    if found is None or found.is_method:
        raise Wrong(f"there is no property {name}", 404)
    return found


def _arguments(member: Member, asked: typing.Mapping[str, str]) -> tuple[typing.Any, ...]:
    """The arguments of a property: those of a key of the store's file, or `keys`, a list in JSON of
    what was typed for each parameter. One without words is left out."""
    if "keys" not in asked:
        return tuple(scalar_value(it) for it in key_of(asked.get("key", "")))
    try:
        words = json.loads(asked["keys"])
    except ValueError:
        words = None
    own = [it for it in member.parameters if it.flags & IN or not it.flags]
    is_list = isinstance(words, list) and all(isinstance(it, str) for it in words)
    if not is_list or len(words) != len(own):
        raise Wrong("keys is no list with a text for each parameter")
    found: list[typing.Any] = []
    for word, parameter in zip(words, own):
        is_left_out = not word and bool(parameter.flags & OPTIONAL)
        found.append(MISSING if is_left_out else value_of_words(word, parameter.vt))
    while found and found[-1] is MISSING:
        found.pop()
    return tuple(found)


def _cell(asked: typing.Mapping[str, str]) -> typing.Any:
    """The indices of an array's element, one or several, or None if there are none."""
    if "cell" not in asked:
        return None
    try:
        found = tuple(int(it) for it in asked["cell"].split(","))
    except ValueError:
        raise Wrong("cell is no list of indices") from None
    return found if len(found) > 1 else found[0]


def _number(asked: typing.Mapping[str, str], name: str, standing: int, most: int) -> int:
    try:
        found = int(asked.get(name, standing))
    except ValueError:
        raise Wrong(f"{name} is no number") from None
    return max(0, min(found, most)) if standing >= 0 else found


def _indices(text: str, bounds: typing.Sequence[tuple[int, int]]) -> list[int]:
    """Places from 0 in some bounds, as many as there are bounds."""
    told = [int(it) if it.strip().isdigit() else 0 for it in text.split(",")] if text else []
    told += [0] * (len(bounds) - len(told))
    return [min(it, max(0, count - 1)) for it, (count, _) in zip(told, bounds)]


def _member_told(member: Member, face: Interface) -> Json:
    parameters = [
        {
            "name": it.name,
            "type": type_word(it.vt),
            "optional": bool(it.flags & OPTIONAL),
            **({"default": words_of(it.default)} if it.flags & HAS_DEFAULT else {}),
        }
        for it in member.parameters
        if it.flags & IN or not it.flags
    ]
    return {
        "name": member.name,
        "dispid": member.dispid,
        "kind": "method" if member.is_method else "property",
        "type": type_word(member.vt),
        "get": member.can_get,
        "put": member.can_put,
        "parameters": parameters,
        "interface": str(face.guid),
    }


def _places(text: str) -> dict[tuple[str, int | None], int]:
    """The lines, from 0, of a canonical text's items by GUID, and of their members by DISPID."""
    found: dict[tuple[str, int | None], int] = {}
    guid = ""
    for number, line in enumerate(text.split("\n")):
        item = re.match(r"\[uuid\(([0-9a-f-]{36})\)", line)
        member = re.match(r"\[id\((-?(?:0[xX][0-9a-fA-F]+|\d+))\)", line)
        if item:
            guid = item[1]
            found[guid, None] = number
        elif member:
            dispid = int(member[1], 0)
            found.setdefault((guid, dispid - (1 << 32) if dispid >= 1 << 31 else dispid), number)
    return found
