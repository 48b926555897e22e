"""Converts the MIDL text of an automation server to a library's text: `python3 -m oaut import
FILE.idl`.

docs/guide/import.md says what is converted and what is left out. The rules are those of
clients/com/tlb2idl.c for type libraries, in the same order and with the same words: change both."""
from __future__ import annotations

import argparse
import os
import re
import sys
import tempfile
import typing

from .faults import WrongValue
from .library import fold
from .midl import DEPTH_LIMIT, Coclass, Entry, Form, Interface, Parameter, Reader, Type
from .paths import not_its_own

TEXT, NAME, ITEMS, MEMBERS, PARAMETERS = 262_144, 64, 256, 512, 16
_RANGES = {
    **{"char": (-(1 << 7), 1 << 7), "short": (-(1 << 15), 1 << 15), "long": (-(1 << 31), 1 << 31)},
    **{"int": (-(1 << 31), 1 << 31), "hyper": (-(1 << 63), 1 << 63), "SCODE": (0, 1 << 32)},
    **{"unsigned char": (0, 1 << 8), "unsigned short": (0, 1 << 16), "unsigned long": (0, 1 << 32)},
    **{
        "unsigned int": (0, 1 << 32),
        "unsigned hyper": (0, 1 << 64),
        "DECIMAL": (-(1 << 63), 1 << 63),
    },
    "CURRENCY": (-((1 << 63) // 10_000), (1 << 63) // 10_000 + 1),
}
_RESERVED = {
    *(
        "library",
        "importlib",
        "dispinterface",
        "interface",
        "coclass",
        "properties",
        "methods",
        "void",
    ),
    *("unsigned", "SAFEARRAY", "char", "short", "long", "int", "hyper", "CURRENCY", "VARIANT_BOOL"),
    *("SCODE", "DECIMAL", "BSTR", "VARIANT"),
}
# types that a compiler knows by their names, whatever a text says of them
_AUTOMATION = {
    **{it: it for it in ("BSTR", "CURRENCY", "DECIMAL", "SCODE", "VARIANT", "VARIANT_BOOL")},
    **{"HRESULT": "SCODE", "DATE": "date", "LPSTR": "text", "LPWSTR": "text"},
}
# names of other texts, which are skipped: those of oaidl.idl, wtypes.idl, ocidl.idl and stdole2
_KNOWN = {
    **{it: it for it in _RANGES},
    **{
        "float": "float",
        "double": "double",
        "void": "void",
        "CY": "CURRENCY",
        "VARIANTARG": "VARIANT",
    },
    **{
        it: "long"
        for it in (
            "LONG",
            "BOOL",
            "DISPID",
            "MEMBERID",
            "NTSTATUS",
            "LONG32",
            "INT32",
            "SHANDLE_PTR",
        )
    },
    **{
        it: "unsigned long"
        for it in (
            "ULONG",
            "DWORD",
            "LCID",
            "COLORREF",
            "OLE_COLOR",
            "HREFTYPE",
            "ULONG32",
            "UINT32",
            "DWORD32",
        )
    },
    **{"INT": "int", "UINT": "unsigned int", "OLE_HANDLE": "unsigned int"},
    **{
        "SHORT": "short",
        "USHORT": "unsigned short",
        "WORD": "unsigned short",
        "VARTYPE": "unsigned short",
        "LANGID": "unsigned short",
    },
    **{
        "CHAR": "char",
        "UCHAR": "unsigned char",
        "BYTE": "unsigned char",
        "BOOLEAN": "unsigned char",
        "WCHAR": "short",
        "OLECHAR": "short",
    },
    **{it: "hyper" for it in ("LONGLONG", "LONG64", "INT64", "INT_PTR", "LONG_PTR", "SSIZE_T")},
    **{
        it: "unsigned hyper"
        for it in (
            "ULONGLONG",
            "DWORDLONG",
            "ULONG64",
            "UINT64",
            "DWORD64",
            "UINT_PTR",
            "ULONG_PTR",
            "DWORD_PTR",
            "SIZE_T",
        )
    },
    **{
        it: "long"
        for it in (
            "OLE_XPOS_PIXELS",
            "OLE_YPOS_PIXELS",
            "OLE_XSIZE_PIXELS",
            "OLE_YSIZE_PIXELS",
            "OLE_XPOS_HIMETRIC",
            "OLE_YPOS_HIMETRIC",
        )
    },
    **{
        it: "long"
        for it in ("OLE_XSIZE_HIMETRIC", "OLE_YSIZE_HIMETRIC", "OLE_TRISTATE", "READYSTATE")
    },
    **{
        it: "VARIANT_BOOL"
        for it in ("_VARIANT_BOOL", "OLE_OPTEXCLUSIVE", "OLE_CANCELBOOL", "OLE_ENABLEDEFAULTBOOL")
    },
    **{
        "FLOAT": "float",
        "DOUBLE": "double",
        "OLE_XPOS_CONTAINER": "float",
        "OLE_YPOS_CONTAINER": "float",
    },
    **{it: "text" for it in ("LPCSTR", "LPCWSTR", "LPOLESTR", "LPCOLESTR", "PSTR", "PWSTR")},
    **{
        it: "record"
        for it in (
            "GUID",
            "IID",
            "CLSID",
            "UUID",
            "FILETIME",
            "SYSTEMTIME",
            "LARGE_INTEGER",
            "ULARGE_INTEGER",
            "POINT",
            "SIZE",
            "RECT",
        )
    },
    **{
        it: "pointer"
        for it in (
            "LPVOID",
            "PVOID",
            "HANDLE",
            "HWND",
            "HDC",
            "HMENU",
            "HICON",
            "HBITMAP",
            "REFIID",
            "REFGUID",
            "REFCLSID",
        )
    },
    **{
        it: "interface"
        for it in (
            "IUnknown",
            "IDispatch",
            "IFont",
            "IFontDisp",
            "IPicture",
            "IPictureDisp",
            "LPUNKNOWN",
            "LPDISPATCH",
        )
    },
}
_LEFT = {
    "text": "text that is no BSTR",
    "record": "record",
    "pointer": "pointer",
    "interface": "interface pointer",
}
_IDISPATCH, _IUNKNOWN = "IDispatch", "IUnknown"


class Left(Exception):
    """Why something is left out."""


class Carried(typing.NamedTuple):
    """A type of a library's text; `was` is the original type, if it was another one."""

    word: str
    is_array: bool = False
    was: str = ""

    def __str__(self) -> str:
        comment = f" /* {self.was} */" if self.was else ""
        return (f"SAFEARRAY({self.word})" if self.is_array else self.word) + comment


class Taken(typing.NamedTuple):
    """A parameter as it is written, with the literal of its default, "" for none."""

    name: str
    type: Carried
    is_optional: bool
    default: str

    def __str__(self) -> str:
        words = "in" + (", optional" if self.is_optional else "")
        words += f", defaultvalue({self.default})" if self.default else ""
        return f"[{words}] {self.type} {self.name}"


class Kept(typing.NamedTuple):
    """A form of a member as it is written; a put's new value is its last parameter."""

    name: str
    dispid: int
    kind: str
    type: Carried | None
    parameters: list[Taken]

    @property
    def own(self) -> list[Taken]:
        return self.parameters[:-1] if self.kind == "put" else self.parameters

    @property
    def value(self) -> Carried | None:
        return self.parameters[-1].type if self.kind == "put" else self.type


class _Chosen:
    """An interface with what is kept of it, and its text."""

    def __init__(self, name: str, guid: str, members: list[Kept]) -> None:
        self.name, self.guid, self.members = name, guid, members
        self.text = f"[uuid({guid})]\ndispinterface {name} {{\n{_members(members)}}}\n"


def _members(members: list[Kept]) -> str:
    properties, methods = "", ""
    puts = {it.name for it in members if it.kind == "put" and not it.own}
    gets = {it.name for it in members if it.kind == "get" and not it.parameters}
    for it in members:
        if it.kind in ("property", "readonly") or it.kind == "get" and not it.parameters:
            readonly = (
                ", readonly"
                if it.kind == "readonly" or it.kind == "get" and it.name not in puts
                else ""
            )
            properties += f"[id({it.dispid}){readonly}] {it.type} {it.name};\n"
        elif it.kind != "put" or it.own or it.name not in gets:
            word = "" if it.kind == "method" else f", prop{it.kind}"
            parameters = ", ".join(map(str, it.parameters))
            methods += f"[id({it.dispid}){word}] {it.type or 'void'} {it.name}({parameters});\n"
    return f"properties:\n{properties}methods:\n{methods}"


def _named(name: str) -> None:
    if len(name.encode("utf-8", "replace")) > NAME:
        raise Left(f"limit: a name of {NAME} bytes")
    if not re.fullmatch(r"[A-Za-z_][A-Za-z0-9_]*", name) or name in _RESERVED:
        raise Left("a name that is none")


def _dispid_of(form: Form) -> int:
    """The DISPID of a form that can be kept."""
    if form.kind == "putref":
        raise Left("a put by reference")
    if form.is_vararg:
        raise Left("a list of arguments of any length")
    _named(form.name)
    if form.dispid is None:
        raise Left("no DISPID")
    if form.dispid in (-1, -3):
        raise Left("a DISPID that is taken")
    return form.dispid


class Importer:
    """The library of a Reader, as `text`. `lines` has a line for each thing that was left out,
    `kept` counts the forms of members that were not."""

    def __init__(
        self, reader: Reader, double: str = "", date: str = "", only: typing.Sequence[str] = ()
    ) -> None:
        self._reader = reader
        self._as = {"float": double, "double": double, "date": {"CY": "CURRENCY"}.get(date, date)}
        self._only = only
        self.lines: list[str] = []
        self.kept = self.left = 0
        self.interfaces: list[_Chosen] = []
        self.coclasses: list[str] = []
        self.text = self._written()

    # --- types

    def _carried(self, of: Type, pointers: int) -> Carried | None:
        """A type without so many of its pointers; None is void."""
        known, pointed, element, steps = "", 0, None, 0
        while not known:
            pointed += of.pointers
            if of.is_array:
                raise Left("array of C")
            typedef = self._reader.typedefs.get(of.words)
            if of.element is not None:
                known, element = "array", of.element
            elif typedef is not None and of.words not in _AUTOMATION:
                steps += 1
                if steps > DEPTH_LIMIT:
                    raise Left("alias that does not end")
                of = typedef
            else:
                known = self._known(of)
        if known in _LEFT:
            raise Left(_LEFT[known])
        if pointed > pointers or known == "void" and pointed:
            raise Left("pointer")
        if known == "void":
            return None
        if element is not None:
            inner = self._carried(element, 0)
            if inner is None or inner.is_array or inner.word in ("SCODE", "DECIMAL"):
                of_what = "void" if inner is None else inner.was or inner.word
                raise Left(f"array of {'arrays' if inner and inner.is_array else of_what}")
            return inner._replace(is_array=True)
        if known in self._as:
            if not self._as[known]:
                raise Left(known)
            return Carried(self._as[known], was=known)
        return Carried(known)

    def _known(self, of: Type) -> str:
        """A type that is no array, pointer or alias, by its words."""
        if of.words in _AUTOMATION:
            return _AUTOMATION[of.words]
        if of.words in _KNOWN:
            return _KNOWN[of.words]
        kind = of.words.rpartition(" ")[0]
        if kind == "enum":
            return "long"
        if kind in ("struct", "union"):
            return "record"
        if kind == "interface" or of.words in self._reader.interfaces:
            return "interface"
        raise Left(f"type {of.words[:NAME]}, which is not known")

    def _default(self, given: Parameter, of: Carried) -> str:
        """The literal of a default."""
        value, word = given.default, of.word
        fault = Left("default")
        if (
            "#unknown" in given.words
            or of.is_array
            or value is None
            or word == "VARIANT"
            and given.type.pointers
        ):
            raise fault
        if isinstance(value, str):
            if word not in ("BSTR", "VARIANT") or of.was or not re.fullmatch(r"[ -~]*", value):
                raise fault
            return '"' + value.replace("\\", "\\\\").replace('"', '\\"') + '"'
        if word == "VARIANT_BOOL" or word == "VARIANT" and isinstance(value, bool):
            return "TRUE" if value else "FALSE"
        if isinstance(value, float) and (word == "VARIANT" or value != int(value)):
            raise fault
        number = int(value)
        if word == "BSTR" and not number and not of.was:
            return '""'
        least, most = _RANGES.get("long" if word == "VARIANT" else word, (0, 0))
        if word.startswith("unsigned") and least - most // 2 <= number < 0:
            number += most  # (what a compiler keeps has the width of the type alone)
        if word == "SCODE" and -(1 << 31) <= number < 0:
            number += most
        if word in ("char", "short", "long", "int") and most <= number < 2 * most:
            number -= 2 * most
        if not least <= number < most:
            raise fault
        return str(number)

    # --- members

    def _form(self, form: Form, names: typing.Sequence[str]) -> Kept:
        """A form as it is written; its parameters have the names of the member's first form."""
        dispid = _dispid_of(form)
        given = [it for it in form.parameters if "lcid" not in it.words]
        result: Type | None = (
            None if form.type.words == "HRESULT" and not form.type.pointers else form.type
        )
        pointers = 0
        if given and "retval" in given[-1].words:
            result, pointers = given.pop().type, 1
        parameters = self._taken(form.kind, given, names)
        folded = [fold(it.name) for it in parameters if it.name]
        if len({*folded}) != len(folded):
            raise Left("two parameters of one name")
        value = self._carried(result, pointers) if result is not None else None
        if form.kind == "put":
            if value is not None or not parameters:
                raise Left("a put with a result" if parameters else "a put without a value")
            name = "Value"
            while fold(name) in folded:
                name += "_"
            parameters[-1] = parameters[-1]._replace(name=name)
        elif value is None and form.kind != "method":
            raise Left("a get without a result")
        return Kept(form.name, dispid, form.kind, value, parameters)

    def _taken(
        self, kind: str, given: typing.Sequence[Parameter], names: typing.Sequence[str]
    ) -> list[Taken]:
        """The parameters of a form, of which those before a put's new value have these names."""
        if len(given) > PARAMETERS:
            raise Left(f"limit: {PARAMETERS} parameters")
        parameters: list[Taken] = []
        for place, it in enumerate(given):
            is_value = kind == "put" and place == len(given) - 1
            name = names[place] if place < len(names) and not is_value else ""
            if not is_value:
                name = name or f"Parameter{place + 1}"
            try:
                parameters.append(self._parameter(kind, it, name, is_value))
            except Left as why:
                told = "the new value" if is_value else f"parameter {name[: NAME + 1]}"
                raise Left(f"{why}, {told}") from None
        return parameters

    def _parameter(self, kind: str, given: Parameter, name: str, is_value: bool) -> Taken:
        if not is_value:
            _named(name)
        if "out" in given.words or "retval" in given.words:
            raise Left("out")
        of = self._carried(given.type, 1)
        if of is None:
            raise Left("void")
        has_default = given.default is not None
        if is_value:
            if has_default or "optional" in given.words:
                raise Left("default")
            return Taken(name, of, False, "")
        if kind != "method" and of.is_array:
            raise Left("array")
        return Taken(
            name,
            of,
            has_default or "optional" in given.words,
            self._default(given, of) if has_default else "",
        )

    def _forms(self, of: Interface) -> list[Form]:
        """The forms of an interface, those that it has of others first."""
        chain: list[Interface] = []
        at: Interface | None = of
        while (
            at is not None and at.name not in (_IDISPATCH, _IUNKNOWN) and len(chain) < DEPTH_LIMIT
        ):
            chain.append(at)
            if at.base and at.base not in (_IDISPATCH, _IUNKNOWN) and not self._is_defined(at.base):
                self._leave(f"interface {of.name}, members of {at.base[:NAME]}: not there")
            at = self._reader.interfaces.get(at.base)
        return [form for it in reversed(chain) for form in it.forms]

    def _is_defined(self, name: str) -> bool:
        found = self._reader.interfaces.get(name)
        return found is not None and found.is_defined

    def _kept_of(self, of: Interface) -> list[Kept] | None:
        """The members of an interface that are kept; None if it has some and none is kept."""
        forms = self._forms(of)
        first: dict[str, list[str]] = {}
        for form in forms:
            own = form.parameters[: -1 if form.kind in ("put", "putref") else None]
            first.setdefault(form.name, [it.name for it in own if "lcid" not in it.words])
        kept: list[Kept] = []
        names: dict[str, list[Kept]] = {}
        dispids: dict[int, str] = {}
        count = 0
        for form in forms:
            try:
                made = self._form(form, first[form.name])
                name = fold(made.name)
                count += self._joined(made, names.get(name, []), dispids, count)
                names.setdefault(name, []).append(made)
                dispids[made.dispid] = name
                kept.append(made)
            except Left as why:
                dispid = "none" if form.dispid is None else form.dispid
                self._leave(
                    f"{of.name}.{form.name[: NAME + 1]}, DISPID {dispid}, {form.kind}: {why}"
                )
        return kept if kept or not forms else None

    @staticmethod
    def _joined(made: Kept, others: list[Kept], dispids: dict[int, str], count: int) -> int:
        """How many declarations a form adds to so many: get and put without parameters are one."""
        if others:
            if len(others) > 1 or {made.kind, others[0].kind} != {"get", "put"}:
                raise Left("a second member of its name")
            same = [it._replace(name=fold(it.name)) for it in made.own] == [
                it._replace(name=fold(it.name)) for it in others[0].own
            ]
            if made.dispid != others[0].dispid or made.value != others[0].value or not same:
                raise Left("get and put disagree")
            if not made.own:
                return 0
        elif made.dispid in dispids:
            raise Left("a second member of its DISPID")
        if count == MEMBERS:
            raise Left(f"limit: {MEMBERS} members")
        return 1

    # --- items

    def _leave(self, line: str) -> None:
        self.left += 1
        self.lines.append(line)

    def _dispatches(self, of: Interface) -> bool:
        """Whether members of an interface are called by their DISPIDs."""
        at: Interface | None = of
        for _ in range(DEPTH_LIMIT):
            if at is None:
                return False
            if at.is_dispinterface or at.is_dual or at.base == _IDISPATCH:
                return True
            at = self._reader.interfaces.get(at.base)
        return False

    def _reached(self) -> list[Interface]:
        """The interfaces of the library: those that it contains, and all that these name."""
        seen = {
            *self._reader.listed,
            *(entry.name for it in self._reader.coclasses for entry in it.entries),
        }
        waiting = [*seen]
        found = []
        while waiting:
            name = waiting.pop()
            at = self._reader.interfaces.get(name)
            types: list[Type] = []
            if at is not None and at.is_defined and name not in (_IDISPATCH, _IUNKNOWN):
                found.append(at)
                types = [*at.named, Type(at.base)]
            elif name in self._reader.typedefs:
                types = [self._reader.typedefs[name]]
            elif name.partition(" ")[0] in ("struct", "union"):
                types = self._reader.records.get(name.partition(" ")[2], [])
            for it in types:
                while it.element is not None:
                    it = it.element
                following = (
                    it.words[len("interface ") :] if it.words.startswith("interface ") else it.words
                )
                if following not in seen:
                    seen.add(following)
                    waiting.append(following)
        return sorted(found, key=lambda it: (fold(it.name), it.name))

    def _chosen(self, names: set[str], guids: set[str]) -> dict[str, _Chosen]:
        """The interfaces that are kept, whose names and GUIDs are added to these."""
        chosen: dict[str, _Chosen] = {}
        wanted = self._wanted()
        for it in self._reached():
            if wanted is not None and it.name not in wanted:
                continue
            if not self._dispatches(it):
                self._leave(f"interface {it.name[: NAME + 1]}: no dispatch interface")
                continue
            try:
                self._item(it.name, it.guid, names, guids)
                members = self._kept_of(it)
                if members is None:
                    raise Left("none of its members is kept")
                chosen[it.name] = _Chosen(it.name, it.guid, members)
                names.add(fold(it.name))
                guids.add(it.guid)
            except Left as why:
                self._leave(f"interface {it.name[: NAME + 1]}: {why}")
        return chosen

    def _written(self) -> str:
        reader = self._reader
        name = reader.name
        try:
            _named(name)
        except Left as why:
            self._leave(f"library {name[: NAME + 1]}: {why}; it is called Library")
            name = "Library"
        if not reader.guid:
            raise WrongValue("the library has no GUID")
        for kind, other in reader.others:
            told = "its constants; as a type it is long" if kind == "enum" else kind
            self._leave(f"{kind} {other[: NAME + 1]}: {told}")
        names: set[str] = set()
        guids = {reader.guid}
        chosen = self._chosen(names, guids)
        classes = self._classes(chosen, names, guids)
        version = "{}.{}".format(*reader.version)
        head = f"[uuid({reader.guid}), version({version})]\nlibrary {name} {{\n"
        self._fit(chosen, classes, TEXT - len(head) - len("}\n"))
        for coclass, entries in classes:
            here = [entry for entry in entries if entry.name in chosen]
            for entry in entries:
                if entry.name not in chosen:
                    self._leave_entry(coclass, entry, "not kept")
            if here:
                self.coclasses.append(_class_text(coclass, here))
            else:
                self._leave(f"coclass {coclass.name}: none of its interfaces is kept")
        self.interfaces = [*chosen.values()]
        if not chosen:
            raise WrongValue("nothing of the library is kept")
        self.kept = sum(len(it.members) for it in self.interfaces)
        return head + "".join(it.text for it in self.interfaces) + "".join(self.coclasses) + "}\n"

    def _wanted(self) -> set[str] | None:
        """The names of the interfaces of the requested coclasses; None for all."""
        if not self._only:
            return None
        found = {fold(it.name): it for it in self._reader.coclasses}
        for name in self._only:
            if fold(name) not in found:
                raise WrongValue(f"the library has no coclass {name}")
        return {entry.name for it in self._only for entry in found[fold(it)].entries}

    @staticmethod
    def _item(name: str, guid: str, names: set[str], guids: set[str]) -> None:
        _named(name)
        if not guid or not guid.strip("0-"):
            raise Left("no GUID")
        if fold(name) in names:
            raise Left("a second item of its name")
        if guid in guids:
            raise Left("a second item of its GUID")

    def _leave_entry(self, of: Coclass, entry: Entry, why: str) -> None:
        default = ", its default" if entry.is_default and not entry.is_source else ""
        self._leave(
            f"coclass {of.name[: NAME + 1]}, interface {entry.name[: NAME + 1]}{default}: {why}"
        )

    def _classes(
        self, chosen: dict[str, _Chosen], names: set[str], guids: set[str]
    ) -> list[tuple[Coclass, list[Entry]]]:
        """The coclasses with those entries whose interfaces are kept so far."""
        found: list[tuple[Coclass, list[Entry]]] = []
        for it in sorted(self._reader.coclasses, key=lambda it: (fold(it.name), it.name)):
            if self._only and fold(it.name) not in map(fold, self._only):
                continue
            try:
                self._item(it.name, it.guid, names, guids)
                entries: list[Entry] = []
                seen: set[str] = set()
                for entry in it.entries:
                    if entry.is_source:
                        self._leave_entry(it, entry, "source interface")
                    elif entry.name not in chosen:
                        self._leave_entry(it, entry, "not kept")
                    elif entry.name in seen:
                        self._leave_entry(it, entry, "a second time")
                    else:
                        entries.append(entry)
                        seen.add(entry.name)
                if not entries:
                    raise Left("none of its interfaces is kept")
                if len(found) == ITEMS:
                    raise Left(f"limit: {ITEMS} coclasses")
                found.append((it, entries))
                names.add(fold(it.name))
                guids.add(it.guid)
            except Left as why:
                self._leave(f"coclass {it.name[: NAME + 1]}: {why}")
        return found

    def _fit(
        self,
        chosen: dict[str, _Chosen],
        classes: list[tuple[Coclass, list[Entry]]],
        room: int,
    ) -> None:
        """Leaves interfaces out until the rest fits; the coclasses' defaults come first, then their
        others."""
        room -= sum(len(_class_text(it, entries)) for it, entries in classes)
        first = {_default_of(entries).name for _, entries in classes}
        second = {entry.name for _, entries in classes for entry in entries}
        count = 0
        for it in sorted(
            chosen.values(), key=lambda it: (it.name not in first, it.name not in second)
        ):
            if count == ITEMS:
                self._leave(f"interface {it.name}: limit: {ITEMS} interfaces")
            elif len(it.text) > room:
                self._leave(f"interface {it.name}: limit: a text of {TEXT:,} bytes")
            else:
                count, room = count + 1, room - len(it.text)
                continue
            del chosen[it.name]


def _default_of(entries: list[Entry]) -> Entry:
    return next((it for it in entries if it.is_default), entries[0])


def _class_text(of: Coclass, entries: list[Entry]) -> str:
    default = _default_of(entries)
    lines = "".join(
        f"{'[default] ' if it is default else ''}dispinterface {it.name};\n" for it in entries
    )
    return f"[uuid({of.guid})]\ncoclass {of.name} {{\n{lines}}}\n"


def add_words(parser: argparse.ArgumentParser) -> None:
    """The words of `import`."""
    parser.add_argument("file", metavar="FILE.idl", help="MIDL text")
    parser.add_argument(
        "-o", "--output", metavar="OUT.idl", help="File to write. Default: standard output"
    )
    parser.add_argument(
        "--double",
        choices=["DECIMAL"],
        default="",
        help="Type for floating-point numbers. Default: leave out members that have any",
    )
    parser.add_argument(
        "-I",
        metavar="FOLDER",
        dest="folders",
        action="append",
        default=[],
        help="Folder of files that the text imports or includes; may be repeated",
    )
    parser.add_argument(
        "--date",
        choices=["CY", "BSTR"],
        default="",
        help="Type for dates. Default: leave out members that have any",
    )
    parser.add_argument(
        "--only",
        metavar="COCLASS",
        action="append",
        default=[],
        help="Coclass to import with its interfaces; may be repeated. Default: all coclasses",
    )


def run(given: argparse.Namespace) -> int:
    """Writes the library of a MIDL text, to standard output if no file is named, and a line for
    everything left out to standard error. Returns the exit status."""
    output: str | None = given.output
    if output is not None:
        not_its_own(output, given.file)
    reader = Reader(given.file, given.folders)
    made = Importer(reader, given.double, given.date, given.only)
    if output is None:
        sys.stdout.write(made.text)
        sys.stdout.flush()
    else:
        _write(output, made.text)
    counts = f"{len(made.interfaces)} interfaces, {len(made.coclasses)} coclasses"
    counts += f", {made.kept} members kept; {made.left} lines of what is left out"
    for line in (*reader.notes, *made.lines, counts):
        print(line, file=sys.stderr)
    return 0


def _write(path: str, text: str) -> None:
    """A file, whole or not at all; what is no file, a pipe, is written to as it is."""
    if os.path.exists(path) and not os.path.isfile(path):
        with open(path, "w", encoding="ascii") as pipe:
            pipe.write(text)
        return
    number, part = tempfile.mkstemp(dir=os.path.dirname(path) or ".", prefix=".import-")
    try:
        with open(number, "w", encoding="ascii", newline="\n") as file:
            file.write(text)
        mask = os.umask(0)
        os.umask(mask)
        os.chmod(part, 0o666 & ~mask)
        os.replace(part, path)
    except BaseException:
        os.unlink(part)
        raise
