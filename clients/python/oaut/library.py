"""A server's type library: descriptions of interfaces and coclasses, and their members by name."""
from __future__ import annotations

import difflib
import typing
import uuid

from .faults import NoSuchName, ProtocolError, WrongType
from .records import (
    METHOD,
    NEW_VALUE,
    PROPERTYGET,
    PROPERTYPUT,
    Fields,
    read_text_value,
    read_value,
)
from .values import ARRAY, VOID, VT_BSTR, VT_VARIANT
from .wire import read_field, spell, variant_of
from .words import html_table

IN, OPTIONAL, HAS_DEFAULT, READ_ONLY, DEFAULT_INTERFACE = 1, 0x10, 0x20, 1, 1
KIND_INTERFACE, KIND_COCLASS = 4, 5
_TYPE_WORDS = {
    **{
        2: "short",
        3: "long",
        6: "CURRENCY",
        8: "BSTR",
        10: "SCODE",
        11: "VARIANT_BOOL",
        12: "VARIANT",
        14: "DECIMAL",
    },
    **{
        16: "char",
        17: "unsigned char",
        18: "unsigned short",
        19: "unsigned long",
        20: "hyper",
        21: "unsigned hyper",
    },
    **{22: "int", 23: "unsigned int", VOID: "void"},
}

# how many members a notebook shows
_SHOWN = 200

Which = typing.Union[str, uuid.UUID]
# the function that packs a request, its bytes between an object's number and the value, and the
# range
QuickPut = tuple[typing.Callable[..., bytes], bytes, int, int]


def type_word(vt: int) -> str:
    """A type as a library text spells it."""
    word = _TYPE_WORDS.get(vt & ~ARRAY, f"type {vt}")
    return f"SAFEARRAY({word})" if vt & ARRAY else word


class Parameter(typing.NamedTuple):
    """A parameter as described; `default` is the value of its default, if flag 0x20 is set."""

    vt: int
    flags: int
    name: str
    default: object


class Form(typing.NamedTuple):
    """One form of a member as described: kind 0 from `properties:`, 1 a method, 2 a get, 4 a put,
    whose new value is its last parameter."""

    dispid: int
    kind: int
    flags: int
    vt: int
    name: str
    parameters: list[Parameter]


class Interface(typing.NamedTuple):
    """An interface as described."""

    guid: uuid.UUID
    name: str
    forms: list[Form]


class Coclass(typing.NamedTuple):
    """A coclass as described: pairs of flags (1: the default) and the index of an interface."""

    guid: uuid.UUID
    name: str
    entries: list[tuple[int, int]]


Description = typing.Union[Interface, Coclass]


def read_description(fields: bytes) -> Description:
    """The Interface or Coclass of a reply to a TYPEINFO."""
    at = Fields(fields)
    kind, count = at.take("II")
    guid, name = at.guid(), at.string()
    found: Description
    if kind == KIND_COCLASS:
        found = Coclass(
            guid, name, [typing.cast(tuple[int, int], at.take("II")) for _ in range(count)]
        )
    elif kind == KIND_INTERFACE:
        found = Interface(guid, name, [_read_form(at) for _ in range(count)])
    else:
        raise ProtocolError(f"no description has the kind {kind}")
    at.end()
    return found


def _read_form(at: Fields) -> Form:
    dispid, kind, flags, vt, count, _ = at.take("iHHHHI")
    name = at.string()
    parameters = []
    for _ in range(count):
        of, flag, _ = at.take("HHI")
        parameters.append(
            Parameter(
                of, flag, at.string(), read_field(at.variant()) if flag & HAS_DEFAULT else None
            )
        )
    return Form(dispid, kind, flags, vt, name, parameters)


def fold(name: str) -> str:
    """A name as it is compared: A to Z are folded, and nothing else."""
    return (
        name.upper()
        if name.isascii()
        else "".join(it.upper() if "a" <= it <= "z" else it for it in name)
    )


def close_to(name: str, names: typing.Sequence[str]) -> str:
    """A question after what may have been meant, or nothing."""
    if name.startswith("_"):
        return ""
    folded = {fold(it): it for it in names}
    meant = difflib.get_close_matches(fold(name), folded, 1)
    return f": did you mean {folded[meant[0]]}?" if meant else ""


class Member:
    """A member of an interface, its get and its put joined: `vt` is the type of its value,
    `parameters` those before a put's new value."""

    __slots__ = (
        "name",
        "dispid",
        "interface",
        "vt",
        "parameters",
        "is_method",
        "can_get",
        "can_put",
        "is_plain",
        "read",
        "told",
        "gets",
        "puts",
    )

    def __init__(self, forms: typing.Sequence[Form], interface: Interface) -> None:
        first = forms[0]
        self.name, self.dispid, self.interface = first.name, first.dispid, interface
        put = next((form for form in forms if form.kind == PROPERTYPUT), None)
        get = next((form for form in forms if form.kind in (0, PROPERTYGET)), None)
        self.is_method = first.kind == METHOD
        self.can_get = get is not None
        self.can_put = (
            put is not None or get is not None and get.kind == 0 and not get.flags & READ_ONLY
        )
        self.vt = put.parameters[-1].vt if put is first else first.vt
        self.parameters = first.parameters[:-1] if first is put else first.parameters
        # whether its name alone asks for its value
        self.is_plain = not (self.is_method or self.parameters or self.vt & ARRAY)
        of_text = self.vt in (VT_BSTR, ARRAY + VT_BSTR)
        self.read: typing.Callable[[bytes], object] = read_text_value if of_text else read_value
        # of the wire form of an interface's GUID what a get, or a put of a whole number, is made by
        self.gets: dict[bytes, bytes] = {}
        self.puts: dict[bytes, QuickPut] = {}
        names = [it.name for it in self.parameters]
        # the names of the places in rgvarg, by whether there is a new value, and how many are
        # positional
        self.told = {
            (put, count): ["the new value"] * put + names[:count][::-1]
            for put in (False, True)
            for count in range(len(names) + 1)
        }

    def arguments(
        self,
        positional: typing.Sequence[object],
        named: typing.Mapping[str, object],
        put: typing.Sequence[object] = (),
    ) -> tuple[list[int], list[bytes], list[str]]:
        """The named DISPIDs, the variant fields in the order of rgvarg, and the name of each
        argument; `put` has the new value of a put."""
        places = [self._place(name) for name in named]
        for place in range(len(positional)):
            if place in places:
                raise WrongType(f"{self.name}: {self.parameters[place].name} is given twice")
        told = [("the new value", self.vt, value) for value in put]
        told += [
            (self.parameters[place].name, self.parameters[place].vt, value)
            for place, value in zip(places, named.values())
        ]
        for place in reversed(range(len(positional))):
            # the server judges arguments beyond the parameters
            of = (
                self.parameters[place]
                if place < len(self.parameters)
                else Parameter(VT_VARIANT, 0, f"place {place}", None)
            )
            told.append((of.name, of.vt, positional[place]))
        dispids = [NEW_VALUE] * len(put) + places
        fields = [variant_of(value, vt) for _, vt, value in told]
        return dispids, fields, [name for name, _, _ in told]

    def type_words(self) -> str:
        """Its type and its parameters, in words."""
        parameters = ", ".join(f"{type_word(it.vt)} {it.name}" for it in self.parameters)
        brackets = f"({parameters})" if parameters or self.is_method else ""
        return (
            type_word(self.vt) + brackets + ("" if self.can_put or self.is_method else " readonly")
        )

    def _place(self, name: str) -> int:
        for place, parameter in enumerate(self.parameters):
            if fold(parameter.name) == fold(name):
                return place
        meant = close_to(name, [it.name for it in self.parameters])
        raise WrongType(f"{self.name} has no parameter {name}{meant}")


class Library:
    """The server's type library: `interfaces`, `coclasses`, and the members of an interface by
    name."""

    @classmethod
    def from_text(cls, text: str | bytes) -> Library:
        """The library of a text (docs/reference/idl.md), without the program and without a file.
        Raises NotALibrary if `oaut check` refuses the text, with the same fault, unless only its
        canonical text is too long."""
        from .parsing import parsed

        return cls(parsed(text))

    def to_text(self) -> str:
        """A text of which `from_text` makes the same library."""
        from .parsing import text_of

        return text_of(self.interfaces, self.coclasses)

    def __init__(self, descriptions: typing.Sequence[Description]) -> None:
        self.interfaces = [it for it in descriptions if isinstance(it, Interface)]
        self.coclasses = [it for it in descriptions if isinstance(it, Coclass)]
        self._members: dict[str, dict[str, Member]] = {}
        self._spelled: dict[str, dict[str, Member]] = {}
        parameters = [
            it
            for interface in self.interfaces
            for form in interface.forms
            for it in form.parameters
        ]
        # the bytes that defaults may add to the log record of one request
        self.defaults_size = sum(
            len(spell(it.default, it.vt)) for it in parameters if it.flags & HAS_DEFAULT
        )

    def __eq__(self, other: object) -> bool:
        if not isinstance(other, Library):
            return NotImplemented
        return (self.interfaces, self.coclasses) == (other.interfaces, other.coclasses)

    __hash__ = object.__hash__

    def __repr__(self) -> str:
        names = ", ".join(it.name for it in self.coclasses[:5])
        more = ", .." if len(self.coclasses) > 5 else ""
        return f"<oaut.Library: {len(self.interfaces)} interfaces, coclasses {names}{more}>"

    def _repr_html_(self) -> str:
        """HTML for notebooks: each coclass with the members of each of its interfaces."""
        rows = []
        for of in self.coclasses:
            for _, index in of.entries:
                face = self.interfaces[index]
                for it in self.members(face).values():
                    rows.append((of.name, face.name, it.name, it.type_words(), it.dispid))
        heads = ("coclass", "interface", "member", "type", "DISPID")
        left_out = f"the first {_SHOWN} of {len(rows)} members" if len(rows) > _SHOWN else ""
        return html_table(repr(self), heads, rows[:_SHOWN], left_out)

    def coclass(self, which: Which) -> Coclass:
        """The coclass of a name or a GUID (a UUID, or its text, also in braces). Raises LookupError
        if there is none."""
        found = self._find(self.coclasses, which)
        if found is None:
            raise NoSuchName(
                f"no coclass {which}; there are: {', '.join(it.name for it in self.coclasses)}"
            )
        return found

    def interface(self, coclass: Coclass, which: Which | None = None) -> Interface:
        """An interface of a coclass by name or GUID, its default one if none is given."""
        own = [(flags, self.interfaces[index]) for flags, index in coclass.entries]
        if which is None:
            return next((it for flags, it in own if flags & DEFAULT_INTERFACE), own[0][1])
        found = self._find([it for _, it in own], which)
        if found is None:
            names = ", ".join(it.name for _, it in own)
            raise NoSuchName(f"{coclass.name} has no interface {which}; there are: {names}")
        return found

    def members(self, interface: Interface) -> dict[str, Member]:
        """The members by folded name, in the library's order."""
        if interface.name not in self._members:
            forms: dict[str, list[Form]] = {}
            for form in interface.forms:
                forms.setdefault(fold(form.name), []).append(form)
            self._members[interface.name] = {
                name: Member(them, interface) for name, them in forms.items()
            }
        return self._members[interface.name]

    def spelled(self, interface: Interface, but: typing.Container[str]) -> dict[str, Member]:
        """The members by their names as the library spells them, but for these names and those that
        begin with two low lines."""
        if interface.name not in self._spelled:
            members = self.members(interface).values()
            self._spelled[interface.name] = {
                it.name: it for it in members if it.name not in but and it.name[:2] != "__"
            }
        return self._spelled[interface.name]

    def words_of(self, guid: uuid.UUID, dispid: int | None) -> str:
        """A member of an interface, or a whole interface or coclass, in words: `Item.Cell of DItem,
        DISPID 9`."""
        interface = self._find(self.interfaces, guid)
        if interface is None:
            coclass = self._find(self.coclasses, guid)
            return f"the coclass {coclass.name}" if coclass is not None else f"{{{guid}}}"
        if dispid is None:
            return f"the interface {interface.name}"
        name = next((it.name for it in interface.forms if it.dispid == dispid), "a member")
        place = self.interfaces.index(interface)
        owner = next(
            (
                f"{it.name}."
                for it in self.coclasses
                if any(index == place for _, index in it.entries)
            ),
            "",
        )
        return f"{owner}{name} of {interface.name}, DISPID {dispid}"

    _D = typing.TypeVar("_D", Interface, Coclass)

    @staticmethod
    def _find(among: typing.Sequence[_D], which: Which) -> _D | None:
        for it in among:
            if isinstance(which, uuid.UUID):
                if it.guid == which:
                    return it
            elif isinstance(which, str):
                if fold(it.name) == fold(which) or str(it.guid) == which.strip("{}").lower():
                    return it
        return None
