"""A library's coclasses and members as a .pyi, for editors and type checkers: `python3 -m oaut
stubs LIB`."""
from __future__ import annotations

import keyword
import re
import sys
import typing

from .library import HAS_DEFAULT, OPTIONAL, Coclass, Interface, Library, Member, Parameter
from .objects import OWN_WORDS
from .paths import not_its_own
from .programs import Program, play
from .values import ARRAY, INTEGERS, VOID, VT, VT_BSTR, VT_CY, VT_VARIANT

_HEAD = '''\
"""The members of the library {source}, as `python3 -m oaut stubs` wrote them.

    if typing.TYPE_CHECKING:
        import {name}

    with typing.cast("{name}.Server", oaut.play("{source}")) as server:
        item = server.create(..)
"""
import decimal as _decimal
import typing as _typing
import uuid as _uuid

import oaut as _oaut

_Got = _typing.TypeVar("_Got", covariant=True)
_Put = _typing.TypeVar("_Put", contravariant=True)
_Text = _typing.Union[str, bytes, None]
_Which = _typing.Union[str, _uuid.UUID]

class _Property(_typing.Generic[_Got, _Put]):
    def __get__(self, item: object, owner: _typing.Optional[type] = ...) -> _Got: ...
    def __set__(self, item: object, value: _Put) -> None: ...
'''
# the type that a get returns
_GOT = {
    **{vt: f"_oaut.{of.__name__}" for vt, of in INTEGERS.items()},
    int(VT.ERROR): "_oaut.SCode",
    VT_CY: "_oaut.Currency",
    int(VT.DECIMAL): "_decimal.Decimal",
    int(VT.BOOL): "bool",
    VT_BSTR: "_Text",
    VT_VARIANT: "_oaut.Value",
    VOID: "None",
}
# the type that a put accepts: the server converts values of other types than the declared one, if
# there is a rule
_PUT = {
    **{
        vt: "_oaut.NumberLike"
        for vt in (*INTEGERS, int(VT.ERROR), VT_CY, int(VT.DECIMAL), int(VT.BOOL))
    },
    VT_BSTR: "_oaut.TextLike",
    VT_VARIANT: "object",
}


def _got(vt: int) -> str:
    return "_oaut.ArrayProperty" if vt & ARRAY else _GOT.get(vt, "_oaut.Value")


def _put(vt: int) -> str:
    return "_oaut.ArrayLike" if vt & ARRAY else _PUT.get(vt, "object")


# the names of types and of calls in the stubs
_TYPES, _OF_CALLS = ("bool", "bytes", "int", "object", "str", "tuple"), ("self", "value")


def _spelled(name: str, taken: typing.Sequence[str] = _TYPES) -> str:
    """A name as an attribute, or as a parameter: another case of one that Python, the client, or
    the stubs have for themselves."""
    for it in (name, name.capitalize(), name.upper()):
        if not keyword.iskeyword(it) and it not in OWN_WORDS and it not in taken:
            return it
    return f"{name}_"


def _class_of(name: str, taken: set[str]) -> str:
    """The name of a class, which gets more at its end if another one has it."""
    while keyword.iskeyword(name) or name in taken:
        name += "_"
    taken.add(name)
    return name


def _parameters(parameters: typing.Sequence[Parameter]) -> str:
    told, optional = [], False
    for it in parameters:
        optional = optional or bool(it.flags & (OPTIONAL | HAS_DEFAULT))
        told.append(f"{_spelled(it.name, _OF_CALLS)}: {_put(it.vt)}{' = ...' if optional else ''}")
    return ", ".join(["self", *told])


def _keyed(member: Member, name: str) -> list[str]:
    """The class of a property with parameters."""
    types = [_put(it.vt) for it in member.parameters]
    required = sum(not it.flags & (OPTIONAL | HAS_DEFAULT) for it in member.parameters)
    keys = [
        types[0] if count == 1 else f"tuple[{', '.join(types[:count])}]"
        for count in range(max(required, 1), len(types) + 1)
    ]
    key = keys[0] if len(keys) == 1 else f"_typing.Union[{', '.join(keys)}]"
    lines = [f"class {name}:"]
    if member.can_get:
        arguments = _parameters(member.parameters)
        lines += [
            f"    def get({arguments}) -> {_got(member.vt)}: ...",
            f"    def __call__({arguments}) -> {_got(member.vt)}: ...",
        ]
        lines += [f"    def __getitem__(self, key: {key}) -> {_got(member.vt)}: ..."]
    if member.can_put:
        arguments = _parameters(member.parameters).replace(
            "self", f"self, value: {_put(member.vt)}", 1
        )
        lines += [
            f"    def put({arguments}) -> None: ...",
            f"    def __setitem__(self, key: {key}, value: {_put(member.vt)}) -> None: ...",
        ]
    return lines


def _interface(library: Library, interface: Interface, name: str) -> list[str]:
    """The class of an object by one interface, and those of its properties with parameters before
    it."""
    before: list[str] = []
    lines = [
        f"class {name}(_oaut.BaseObject):",
        f'    """{interface.name}, {{{interface.guid}}}."""',
    ]
    for member in library.members(interface).values():
        attribute = _spelled(member.name)
        if member.is_method:
            lines.append(
                f"    def {attribute}({_parameters(member.parameters)}) -> {_got(member.vt)}: ..."
            )
        elif member.parameters:
            keyed = f"_{name}_{attribute}"
            before += ["", *_keyed(member, keyed)]
            lines += ["    @property", f"    def {attribute}(self) -> {keyed}: ..."]
        elif not member.can_put:
            lines += ["    @property", f"    def {attribute}(self) -> {_got(member.vt)}: ..."]
        else:
            got = _got(member.vt) if member.can_get else "_typing.NoReturn"
            lines.append(f"    {attribute}: _Property[{got}, {_put(member.vt)}]")
    return [*before, "", *lines]


def _coclass(library: Library, coclass: Coclass, own: str, taken: set[str]) -> list[str]:
    """The class of a coclass, which has this name, and those of its other interfaces before it."""
    default = library.interface(coclass)
    lines: list[str] = []
    names = {default.name: own}
    for _, index in coclass.entries:
        it = library.interfaces[index]
        if it.name not in names:
            names[it.name] = _class_of(f"{coclass.name}_{it.name}", taken)
            lines += _interface(library, it, names[it.name])
    lines += _interface(library, default, own)
    if len(names) > 1:
        for of, name in names.items():
            lines += [
                "    @_typing.overload",
                f'    def interface(self, which: _typing.Literal["{of}"]) -> {name}: ...',
            ]
        lines += [
            "    @_typing.overload",
            "    def interface(self, which: _Which) -> _typing.Any: ...",
        ]
    return lines


def text_of(library: Library, name: str, source: str) -> str:
    """The text of a library's .pyi, for a module of this name."""
    # (a path may have what ends the text, or what is an escape in it)
    source = source.replace("\\", "/").replace('"', "'")
    lines = [_HEAD.format(name=name, source=source).rstrip("\n")]
    taken = {"Server", *_TYPES, "_Property", "_Got", "_Put", "_Text", "_Which"}
    taken |= {"_decimal", "_oaut", "_typing", "_uuid"}
    names = {it.guid: _class_of(it.name, taken) for it in library.coclasses}
    for coclass in library.coclasses:
        lines += _coclass(library, coclass, names[coclass.guid], taken)
    lines += ["", "class Server(_oaut.Server):"]
    for call, before in (("create", ""), ("object", "number: int, ")):
        for coclass in library.coclasses:
            lines += [
                "    @_typing.overload",
                f'    def {call}(self, {before}coclass: _typing.Literal["{coclass.name}"])'
                f" -> {names[coclass.guid]}: ...",
            ]
        lines += [
            "    @_typing.overload",
            f"    def {call}(self, {before}coclass: _Which) -> _typing.Any: ...",
        ]
    return "\n".join(lines) + "\n"


def run(library: str, output: str | None, program: Program) -> int:
    """Writes the stubs of a library's file."""
    if output is not None:
        not_its_own(output, library)
    stem = re.sub(r"\W", "_", re.sub(r"^.*[/\\]|\.[^.]*$", "", output or library)) or "library"
    with play(library, program) as server:
        text = text_of(server.library, stem if stem.isidentifier() else f"_{stem}", library)
    if output is None:
        sys.stdout.write(text)
    else:
        with open(output, "w") as file:
            file.write(text)
    return 0
