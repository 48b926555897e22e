"""ITypeInfo (MS-OAUT section 3.7) of interfaces and coclasses, from what the server describes. The
members from `properties:` are VARDESCs, those from `methods:` FUNCDESCs. Editors and PowerShell ask
for it; scripts do not."""
from __future__ import annotations

import typing

from oaut.library import (
    DEFAULT_INTERFACE,
    HAS_DEFAULT,
    READ_ONLY,
    Coclass,
    Form,
    Interface,
    Parameter,
)
from oaut.records import PROPERTYGET, PROPERTYPUT
from oaut.wire import spell

from . import orpc
from .codes import IID_ITYPEINFO, TYPE_E_ELEMENTNOTFOUND, BadOpnum
from .dispatch import put_text
from .ndr import Reader, Writer
from .objects import TYPE, Exporter, Named

# added to the place in the table, to make the number of a type
COCLASS_FLAG, NAMED_BY_COCLASS = 0x1_0000, 0x2_0000
_ARRAY, _VOID, _SAFEARRAY = 0x2000, 24, 27
_DISPATCH_KIND, _COCLASS_KIND = 4, 5
_FUNC_DISPATCH, _STDCALL, _VAR_DISPATCH = 4, 4, 3
_DISPATCHABLE, _CAN_CREATE = 0x1000, 2
_OPTIONAL = 0x10
_NAMES = 64


def _functions(face: Interface) -> typing.List[Form]:
    return [it for it in face.forms if it.kind]


def _variables(face: Interface) -> typing.List[Form]:
    return [it for it in face.forms if not it.kind]


class _Element:
    """An ELEMDESC: its fixed part, then its pointees."""

    def __init__(self, vt: int, parameter: typing.Optional[Parameter] = None) -> None:
        self.vt, self.flags, self.default = vt, 0, b""
        if parameter is not None:
            self.flags = parameter.flags & (1 | _OPTIONAL | HAS_DEFAULT)
            if parameter.flags & HAS_DEFAULT:
                self.default = spell(parameter.default, parameter.vt)

    def put(self, out: Writer) -> None:
        """Adds the fixed part."""
        _put_type(out, self.vt)
        out.u32(orpc.SET if self.default else 0).u16(self.flags)

    def put_pointees(self, out: Writer) -> None:
        """Adds the type of an array's cells, and the default value."""
        if self.vt & _ARRAY:
            _put_type(out, self.vt & ~_ARRAY)
        if self.default:
            out.u32(24, orpc.SET).align(8).raw(self.default)


def _put_type(out: Writer, vt: int) -> None:
    """Adds a TYPEDESC without its pointee."""
    out.align(4)
    if vt & _ARRAY:
        out.u16(_SAFEARRAY).u32(orpc.SET).u16(_SAFEARRAY)
    else:
        out.u16(vt, vt)


def _attributes(guid: bytes, kind: int, counts: typing.Tuple[int, int, int], flags: int) -> bytes:
    """GetTypeAttr. The server describes no version, so it is 0.0."""
    out = Writer().u32(orpc.SET).guid(guid).u32(0, 0xFFFF_FFFF, 0xFFFF_FFFF, 0, 0, 4, kind)
    out.u16(*counts, 28, 4, flags, 0, 0)
    _put_type(out, 0)
    return out.u32(0).u16(0).u32(0, 0).done()


def _function(face: Interface, index: int) -> bytes:
    """GetFuncDesc."""
    forms = _functions(face)
    if index >= len(forms):
        return Writer().u32(0, 0, TYPE_E_ELEMENTNOTFOUND).done()
    return put_function(Writer(), forms[index]).u32(0, 0).done()


def put_function(out: Writer, form: Form) -> Writer:
    """Adds a pointer to a FUNCDESC and the FUNCDESC."""
    count = len(form.parameters)
    optional = sum(bool(it.flags & _OPTIONAL) for it in form.parameters)
    out.u32(orpc.SET, form.dispid, 0, orpc.SET if count else 0)
    out.u32(_FUNC_DISPATCH, form.kind, _STDCALL).u16(count, optional, 0, 0)
    result = _Element(form.vt if form.kind == PROPERTYGET else _VOID)
    result.put(out)
    out.u16(0)
    if count:
        out.u32(count)
        elements = [_Element(it.vt, it) for it in form.parameters]
        for it in elements:
            it.put(out)
        for it in elements:
            it.put_pointees(out)
    result.put_pointees(out)
    return out


def _variable(face: Interface, index: int) -> bytes:
    """GetVarDesc."""
    forms = _variables(face)
    if index >= len(forms):
        return Writer().u32(0, 0, TYPE_E_ELEMENTNOTFOUND).done()
    return put_variable(Writer(), forms[index]).u32(0, 0).done()


def put_variable(out: Writer, form: Form) -> Writer:
    """Adds a pointer to a VARDESC and the VARDESC."""
    out.u32(orpc.SET, form.dispid, 0, _VAR_DISPATCH, 0)
    element = _Element(form.vt)
    element.put(out)
    out.u16(READ_ONLY if form.flags & READ_ONLY else 0).u32(_VAR_DISPATCH)
    element.put_pointees(out)
    return out


def _names(face: Interface, dispid: int, most: int) -> bytes:
    """GetNames: the member, then its parameters. A put's new value has no name."""
    form = next((it for it in face.forms if it.dispid == dispid), None)
    found = []
    if form is not None:
        parameters = form.parameters[:-1] if form.kind == PROPERTYPUT else form.parameters
        found = ([form.name] + [it.name for it in parameters])[: min(most, _NAMES)]
    out = Writer().u32(min(most, 0x1_0000), 0, len(found), *[orpc.SET] * len(found))
    for it in found:
        put_text(out.align(4), it)
    return out.u32(len(found), 0 if found else TYPE_E_ELEMENTNOTFOUND).done()


def documentation(name: typing.Optional[str]) -> bytes:
    """GetDocumentation: the name alone."""
    out = Writer()
    for text in (name, None):
        put_text(out.u32(orpc.SET), text)
    put_text(out.u32(0).u32(orpc.SET), None)
    return out.u32(TYPE_E_ELEMENTNOTFOUND if name is None else 0).done()


def reference(exporter: Exporter, number: int, coclass: int, address: str) -> bytes:
    """The reply with an ITypeInfo."""
    data = objref_of(exporter, number, coclass, address)
    return Writer().optional_interface(data).u32(0).done()


def objref_of(exporter: Exporter, number: int, coclass: int, address: str) -> bytes:
    """The OBJREF of an ITypeInfo."""
    ref = exporter.ref(TYPE, number, coclass)
    return orpc.objref(IID_ITYPEINFO, ref, exporter.resolver(address))


def of_object(exporter: Exporter, named: Named, address: str) -> bytes:
    """GetTypeInfo of an object. The type of its default interface has the coclass's name, which is
    what hosts show as TypeName."""
    interface = exporter.interface_of(named)
    default = exporter.library.interface(exporter.coclass_at(named.coclass))
    flag = NAMED_BY_COCLASS if interface is default else 0
    return reference(
        exporter, exporter.place_of_interface(interface) | flag, named.coclass, address
    )


def of_class(exporter: Exporter, named: Named, opnum: int, at: Reader, address: str) -> bytes:
    """IProvideClassInfo."""
    if opnum != 3:
        raise BadOpnum
    at.finish()
    return reference(exporter, COCLASS_FLAG | named.coclass, named.coclass, address)


def call(exporter: Exporter, named: Named, opnum: int, at: Reader, address: str) -> bytes:
    """The calls of ITypeInfo, except those that typelib has."""
    if opnum == 14:  # GetRefTypeInfo
        place = at.u32()
        at.finish()
        exporter.interface_at(place)
        return reference(exporter, place, named.coclass, address)
    place = named.number & 0xFFFF
    if named.number & COCLASS_FLAG:
        return _class_call(exporter, exporter.coclass_at(place), opnum, at)
    face = exporter.interface_at(place)
    name = face.name
    if named.number & NAMED_BY_COCLASS:
        name = exporter.coclass_at(named.coclass).name
    return _face_call(face, name, opnum, at)


def _face_call(face: Interface, name: str, opnum: int, at: Reader) -> bytes:
    if opnum == 3:
        at.finish()
        counts = len(_functions(face)), len(_variables(face)), 0
        return _attributes(face.guid.bytes_le, _DISPATCH_KIND, counts, _DISPATCHABLE)
    if opnum in (5, 6, 8, 9):
        index = at.u32()
        at.finish()
        if opnum in (8, 9):
            return Writer().u32(0, TYPE_E_ELEMENTNOTFOUND).done()
        return _function(face, index) if opnum == 5 else _variable(face, index)
    if opnum == 7:
        dispid, most = at.i32(), at.u32()
        at.finish()
        return _names(face, dispid, most)
    if opnum == 12:
        dispid = at.i32()
        at.u32()
        at.finish()
        found = next((it.name for it in face.forms if it.dispid == dispid), None)
        return documentation(name if dispid == -1 else found)
    raise BadOpnum


def _class_call(exporter: Exporter, coclass: Coclass, opnum: int, at: Reader) -> bytes:
    if opnum == 3:
        at.finish()
        counts = 0, 0, len(coclass.entries)
        return _attributes(coclass.guid.bytes_le, _COCLASS_KIND, counts, _CAN_CREATE)
    if opnum in (5, 6, 8, 9):
        index = at.u32()
        at.finish()
        if opnum in (5, 6):
            return Writer().u32(0, 0, TYPE_E_ELEMENTNOTFOUND).done()
        if index >= len(coclass.entries):
            return Writer().u32(0, TYPE_E_ELEMENTNOTFOUND).done()
        flags, face = coclass.entries[index]
        place = exporter.place_of_interface(exporter.library.interfaces[face])
        return Writer().u32(place if opnum == 8 else flags & DEFAULT_INTERFACE, 0).done()
    if opnum == 7:
        at.skip(8)
        return _names(Interface(coclass.guid, coclass.name, []), 0, 0)
    if opnum == 12:
        dispid = at.i32()
        at.u32()
        at.finish()
        return documentation(coclass.name if dispid == -1 else None)
    raise BadOpnum
