"""The well-known port: IObjectExporter, IRemoteSCMActivator, IActivation (MS-DCOM section 3.1.2.5),
and what clients ask of C706's management interface before they bind."""
from __future__ import annotations

import secrets
import struct
import typing

from . import orpc
from .codes import (
    CLASS_E_NOAGGREGATION,
    E_INVALIDARG,
    E_NOINTERFACE,
    OR_INVALID_OXID,
    RPC_E_INVALID_PROTSEQ,
    BadOpnum,
    Refused,
)
from .ndr import Bad, Reader, Writer
from .objects import FACTORY, HUB, HUB_CLASS, OBJECT, REMUNKNOWN, Exporter, Steps

_CLASS_OBJECT = 0xFFFF_FFFF  # MODE_GET_CLASS_OBJECT
_PINGED = 0x1_0000
_OLE = bytes.fromhex("c000000000000046")  # how GUIDs of the system's own interfaces end


def resolver_call(exporter: Exporter, opnum: int, at: Reader, address: str) -> bytes:
    """IObjectExporter. The server replies to pings, which change nothing: no object waits for
    one."""
    if opnum in (0, 4):
        return _resolve(exporter, opnum, at, address)
    if opnum == 1:
        at.u64()
        return bytes(4)
    if opnum == 2:
        asked, _, added, removed = at.u64(), at.u16(), at.u16(), at.u16()
        for count in (added, removed):
            if at.u32():
                if at.count(8, _PINGED) != count:
                    raise Bad
                at.align(8)
                at.skip(8 * count)
            elif count:
                raise Bad
        return Writer().u64(asked or secrets.randbits(63) | 1).u16(0).u32(0).done()
    if opnum == 3:
        return bytes(4)
    if opnum == 5:
        out = Writer().u16(*orpc.VERSION).u32(orpc.SET)
        return orpc.put_bindings(out, exporter.resolver(address)).u32(0, 0).done()
    raise BadOpnum


def _resolve(exporter: Exporter, opnum: int, at: Reader, address: str) -> bytes:
    """ResolveOxid and ResolveOxid2."""
    oxid, count = at.u64(), at.u16()
    if at.count(2, 0x100) != count:
        raise Bad
    wanted = [at.u16() for _ in range(count)]
    known = oxid == exporter.oxid and orpc.TCP in wanted
    out = Writer()
    if known:
        orpc.put_bindings(out.u32(orpc.SET), exporter.bindings(address))
    else:
        out.u32(0)
    out.guid(exporter.ipid(REMUNKNOWN) if known else bytes(16)).u32(exporter.settings.level)
    if opnum == 4:
        out.u16(*orpc.VERSION)
    return out.u32(0 if known else OR_INVALID_OXID).done()


def _made(
    exporter: Exporter, asked: orpc.Activation, as_class: bool, address: str
) -> Steps[orpc.Made]:
    """Activates an object, or the factory of a coclass. Makes no object if it would have none of
    the interfaces."""
    coclass = exporter.class_of(asked.clsid)
    kind = FACTORY if as_class else HUB if coclass == HUB_CLASS else OBJECT
    faces = [exporter.face_of(iid, kind, coclass) for iid in asked.iids]
    if all(it is None for it in faces):
        raise Refused(E_NOINTERFACE)
    if as_class:
        ref = exporter.ref(FACTORY, 0, coclass)
    else:
        ref = yield from exporter.make(coclass)
    made: orpc.Made = []
    for iid, face in zip(asked.iids, faces):
        one = None if face is None else exporter.with_face(ref, iid)
        if one is None:
            made.append((iid, E_NOINTERFACE, None))
        else:
            made.append((iid, 0, orpc.objref(iid, one, exporter.resolver(address))))
    return made


def _refreshed(
    exporter: Exporter, refresh: typing.Callable[[], Steps[bool]], asked: orpc.Activation
) -> Steps[None]:
    """Reads the library again if it does not have what a client requests."""
    known = exporter.has_coclass(asked.clsid)
    if not known or not all(exporter.has_interface(it) or it[8:] == _OLE for it in asked.iids):
        yield from refresh()


def scm_call(
    exporter: Exporter,
    refresh: typing.Callable[[], Steps[bool]],
    opnum: int,
    at: Reader,
    address: str,
) -> Steps[bytes]:
    """IRemoteSCMActivator after its ORPCTHIS: RemoteGetClassObject and RemoteCreateInstance."""
    if opnum not in (3, 4):
        raise BadOpnum
    if opnum == 4 and at.u32():
        at.interface(orpc.OBJREF_LIMIT)
        return Writer().u32(0, CLASS_E_NOAGGREGATION).done()
    if not at.u32():
        return Writer().u32(0, E_INVALIDARG).done()
    data = at.interface(orpc.OBJREF_LIMIT)
    at.finish()
    try:
        asked = orpc.read_activation(data)
        if orpc.TCP not in asked.protocols:
            raise Refused(RPC_E_INVALID_PROTSEQ)
        yield from _refreshed(exporter, refresh, asked)
        made = yield from _made(exporter, asked, opnum == 3, address)
    except Refused as refused:
        return Writer().u32(0, refused.code).done()
    unknown, level = exporter.ipid(REMUNKNOWN), exporter.settings.level
    blob = orpc.activated(made, exporter.oxid, exporter.bindings(address), unknown, level)
    code = 1 if any(it[1] for it in made) else 0
    return Writer().optional_interface(blob).u32(code).done()


def activation_call(
    exporter: Exporter,
    refresh: typing.Callable[[], Steps[bool]],
    opnum: int,
    at: Reader,
    address: str,
) -> Steps[bytes]:
    """IActivation after its ORPCTHIS: RemoteActivation."""
    if opnum:
        raise BadOpnum
    clsid = at.guid()
    if at.u32():
        at.string(0x4000)
    if at.u32():
        at.interface(orpc.OBJREF_LIMIT)
    _, mode, count = at.u32(), at.u32(), at.u32()
    if not at.u32() or at.count(16, 0x100) != count or not count:
        raise Bad
    iids = [at.guid() for _ in range(count)]
    protocols = at.u16()
    if at.count(2, 0x100) != protocols:
        raise Bad
    wanted = [at.u16() for _ in range(protocols)]
    at.finish()
    asked = orpc.Activation(clsid, iids, wanted)
    code = 0
    made: orpc.Made = [(iid, E_NOINTERFACE, None) for iid in iids]
    try:
        if orpc.TCP not in wanted:
            raise Refused(RPC_E_INVALID_PROTSEQ)
        yield from _refreshed(exporter, refresh, asked)
        made = yield from _made(exporter, asked, mode == _CLASS_OBJECT, address)
    except Refused as refused:
        code = refused.code
    out = Writer().u64(0 if code else exporter.oxid)
    if code:
        out.u32(0)
    else:
        orpc.put_bindings(out.u32(orpc.SET), exporter.bindings(address))
    out.guid(exporter.ipid(REMUNKNOWN)).u32(exporter.settings.level).u16(*orpc.VERSION).u32(code)
    out.u32(len(made), *[orpc.SET if it[2] else 0 for it in made])
    for _, _, ref in made:
        if ref is not None:
            out.interface(ref)
    return out.u32(len(made), *[it[1] for it in made], 0).done()


def management_call(interfaces: typing.Sequence[bytes], opnum: int) -> bytes:
    """inq_if_ids and is_server_listening of C706's management interface."""
    if opnum == 0:
        count = len(interfaces)
        out = Writer().u32(orpc.SET, count, count, *[orpc.SET] * count)
        for it in interfaces:
            out.align(4).raw(it + struct.pack("<HH", 0, 0))
        return out.u32(0).done()
    if opnum == 2:
        return Writer().u32(0, 1).done()
    raise BadOpnum
