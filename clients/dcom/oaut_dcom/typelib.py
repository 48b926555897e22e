"""ITypeLib and ITypeComp (MS-OAUT sections 3.11 and 3.5): the library as a whole, and members and
types by name.

The server describes interfaces and coclasses, and nothing of the library itself. So its GUID is
made of the first interface's, as the hub's CLSID is. Its name is `oaut`, and its version 0.0."""
from __future__ import annotations

import struct
import typing

from oaut.library import READ_ONLY, Coclass, Form, Interface, fold
from oaut.records import PROPERTYPUT

from . import orpc, typeinfo
from .codes import (
    IID_ITYPECOMP,
    IID_ITYPELIB,
    TYPE_E_ELEMENTNOTFOUND,
    TYPE_E_TYPEMISMATCH,
    BadOpnum,
)
from .dispatch import TEXT, put_text
from .ndr import Reader, Writer
from .objects import COMP, LIBRARY, TYPE, Exporter, Named

NAME = "oaut"
_WIN32 = 1  # SYSKIND
_NONE, _FUNCTION, _VARIABLE = 0, 1, 2  # DESCKIND
_INTERFACE, _COCLASS = 4, 5  # TYPEKIND
_GET, _PROPERTY = 2, 0xE  # INVOKEKIND
_WHOLE = 0xFFFF_FFFF  # the index of the library itself, and the MEMBERID of a type itself

Type = typing.Union[Interface, Coclass]


def guid_of(first: bytes) -> bytes:
    """The GUID of the library, from that of the first interface."""
    one, two, three, rest = struct.unpack("<IHH8s", first)
    return struct.pack("<IHH8s", one ^ 0x6F61_7574, two ^ 0x6C69, three ^ 0x6221, rest)


def types(exporter: Exporter) -> typing.List[Type]:
    """The types of the library by their indices: the interfaces, then the coclasses."""
    return [*exporter.library.interfaces, *exporter.library.coclasses]


def _info(exporter: Exporter, it: typing.Optional[Type], address: str) -> typing.Optional[bytes]:
    """The OBJREF of a type's ITypeInfo."""
    if it is None:
        return None
    if isinstance(it, Coclass):
        number = typeinfo.COCLASS_FLAG | exporter.place_of_coclass(it.guid.bytes_le)
    else:
        number = exporter.place_of_interface(it)
    return typeinfo.objref_of(exporter, number, 0, address)


def of_type(exporter: Exporter, named: Named, opnum: int, at: Reader, address: str) -> bytes:
    """GetTypeComp and GetContainingTypeLib of an ITypeInfo."""
    at.finish()
    if opnum == 4:
        return _comp(exporter, named, address)
    place = named.number & 0xFFFF
    if named.number & typeinfo.COCLASS_FLAG:
        it: Type = exporter.coclass_at(place)
    else:
        it = exporter.interface_at(place)
    data = orpc.objref(IID_ITYPELIB, exporter.ref(LIBRARY), exporter.resolver(address))
    return Writer().optional_interface(data).u32(types(exporter).index(it), 0).done()


def _comp(exporter: Exporter, named: Named, address: str) -> bytes:
    """The reply with the ITypeComp of a type or of the library."""
    ref = exporter.ref(named.kind, named.number, named.coclass, COMP)
    data = orpc.objref(IID_ITYPECOMP, ref, exporter.resolver(address))
    return Writer().optional_interface(data).u32(0).done()


def library_call(exporter: Exporter, named: Named, opnum: int, at: Reader, address: str) -> bytes:
    """ITypeLib."""
    found = types(exporter)
    if opnum in (3, 7, 8):
        at.finish()
        if opnum == 8:
            return _comp(exporter, named, address)
        return Writer().u32(len(found), 0).done() if opnum == 3 else _attributes(exporter)
    if opnum in (4, 5):
        index = at.u32()
        at.finish()
        if index >= len(found):
            return Writer().u32(0, TYPE_E_ELEMENTNOTFOUND).done()
        if opnum == 4:
            return _reply(_info(exporter, found[index], address))
        return Writer().u32(_kind(found[index]), 0).done()
    if opnum == 6:
        guid = at.guid()
        at.finish()
        return _reply(
            _info(exporter, next((it for it in found if it.guid.bytes_le == guid), None), address)
        )
    if opnum == 9:
        index = at.u32()
        at.u32()
        at.finish()
        name = NAME if index == _WHOLE else found[index].name if index < len(found) else None
        return typeinfo.documentation(name)
    if opnum in (10, 11):
        name = at.string(TEXT)
        at.u32()
        most = at.u16() if opnum == 11 else 0
        at.finish()
        if opnum == 10:
            return _is_name(exporter, name)
        return _find(exporter, _places(exporter, name), most, address)
    raise BadOpnum


def _kind(it: Type) -> int:
    return _COCLASS if isinstance(it, Coclass) else _INTERFACE


def _reply(data: typing.Optional[bytes]) -> bytes:
    code = 0 if data is not None else TYPE_E_ELEMENTNOTFOUND
    return Writer().optional_interface(data).u32(code).done()


def _attributes(exporter: Exporter) -> bytes:
    """GetLibAttr."""
    interfaces = exporter.library.interfaces
    first = interfaces[0].guid.bytes_le if interfaces else bytes(16)
    out = Writer().u32(orpc.SET).guid(guid_of(first)).u32(0, _WIN32).u16(0, 0, 0)
    return out.u32(0, 0).done()


# a name as the library has it, its type, and its MEMBERID
Place = typing.Tuple[str, Type, int]


def _places(exporter: Exporter, name: str) -> typing.List[Place]:
    """The types and the members that have a name, each member once."""
    wanted, found = fold(name), []
    for it in types(exporter):
        if fold(it.name) == wanted:
            found.append((it.name, it, _WHOLE))
        elif isinstance(it, Interface):
            members = {form.dispid: form.name for form in it.forms if fold(form.name) == wanted}
            found += [(text, it, dispid) for dispid, text in members.items()]
    return found


def _is_name(exporter: Exporter, name: str) -> bytes:
    """IsName: of a type, a member or a parameter."""
    found = [text for text, _, _ in _places(exporter, name)]
    for face in exporter.library.interfaces if not found else ():
        for form in face.forms:
            # (a put's new value has no name)
            named = form.parameters[:-1] if form.kind == PROPERTYPUT else form.parameters
            found += [it.name for it in named]
    text = next((it for it in found if fold(it) == fold(name)), None)
    out = Writer().u32(text is not None, orpc.SET)
    put_text(out, text)
    return out.u32(0).done()


def _find(exporter: Exporter, places: typing.List[Place], most: int, address: str) -> bytes:
    """FindName."""
    some = places[:most]
    count = len(some)
    out = Writer().u32(count, 0, count, *[orpc.SET] * count)
    for _, it, _ in some:
        out.align(4).interface(_info(exporter, it, address) or b"")
    out.u32(count, 0, count, *[dispid for _, _, dispid in some]).u16(count)
    put_text(out.u32(orpc.SET), some[0][0] if some else None)
    return out.u32(0).done()


def comp_call(exporter: Exporter, named: Named, opnum: int, at: Reader, address: str) -> bytes:
    """ITypeComp: a member of an interface by its name, or a type of the library."""
    if opnum not in (3, 4):
        raise BadOpnum
    name = at.string(TEXT)
    at.u32()
    flags = at.u16() if opnum == 3 else 0
    at.finish()
    wanted = fold(name)
    if opnum == 4:
        known = types(exporter) if named.kind == LIBRARY else []
        it = next((it for it in known if fold(it.name) == wanted), None)
        return Writer().optional_interface(_info(exporter, it, address)).u32(0).done()
    forms: typing.List[Form] = []
    if named.kind == TYPE and not named.number & typeinfo.COCLASS_FLAG:
        face = exporter.interface_at(named.number & 0xFFFF)
        forms = [it for it in face.forms if fold(it.name) == wanted]
    form = next((it for it in forms if not flags or flags & _ways(it)), None)
    if form is None:
        code = TYPE_E_TYPEMISMATCH if forms else 0
        return Writer().u32(0, _NONE, 0, 0, 0, 0, code).done()
    info = typeinfo.objref_of(exporter, named.number, named.coclass, address)
    out = Writer().optional_interface(info).u32(_FUNCTION if form.kind else _VARIABLE)
    if form.kind:
        typeinfo.put_function(out, form).u32(0)
    else:
        typeinfo.put_variable(out.u32(0), form)
    return out.u32(0, 0, 0).done()


def _ways(form: Form) -> int:
    """How a member may be called, by the bits of INVOKEKIND."""
    return form.kind or (_GET if form.flags & READ_ONLY else _PROPERTY)
