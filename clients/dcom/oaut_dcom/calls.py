"""The dispatch of calls."""
from __future__ import annotations

import struct
import time
import typing

from . import activation, dispatch, orpc, typeinfo, typelib
from .codes import (
    DISP_E_BADINDEX,
    IID_IACTIVATION,
    IID_ICLASSFACTORY,
    IID_IDISPATCH,
    IID_IENUMVARIANT,
    IID_IOBJECTEXPORTER,
    IID_IPROVIDECLASSINFO,
    IID_IREMUNKNOWN,
    IID_IREMUNKNOWN2,
    IID_ISCMACTIVATOR,
    IID_ITYPECOMP,
    IID_ITYPEINFO,
    IID_ITYPELIB,
    IID_IUNKNOWN,
    IID_MANAGEMENT,
    RPC_E_INVALID_OBJECT,
    BadOpnum,
    Refused,
)
from .hub import Enumerators, Hub
from .identity import IdentityFault
from .ndr import Reader
from .objects import (
    CLASSINFO,
    COLLECTION,
    COMP,
    ENUMERATOR,
    FACTORY,
    HUB,
    LIBRARY,
    OBJECT,
    REMUNKNOWN,
    TYPE,
    Exporter,
    Named,
    Steps,
    ask_library,
)

RESOLVER = (IID_IOBJECTEXPORTER, IID_ISCMACTIVATOR, IID_IACTIVATION, IID_MANAGEMENT)
# calls that are served without a user
FOR_NOBODY = (IID_IOBJECTEXPORTER, IID_MANAGEMENT)
_OWN = (IID_IREMUNKNOWN, IID_IREMUNKNOWN2, IID_IUNKNOWN, IID_ICLASSFACTORY, IID_IDISPATCH) + (
    *(IID_IENUMVARIANT, IID_ITYPEINFO, IID_IPROVIDECLASSINFO, IID_MANAGEMENT),
    *(IID_ITYPELIB, IID_ITYPECOMP),
)
_REFRESH = 1.0  # seconds between two readings of the library


class Calls:
    """The calls of both ports."""

    def __init__(self, exporter: Exporter, note: typing.Callable[[str], None]) -> None:
        self.exporter, self._note = exporter, note
        self._next = 0.0
        self.hub = Hub(exporter, self.refresh)
        self.dispatch = dispatch.Dispatch(exporter, self.refresh)

    def refresh(self) -> Steps[bool]:
        """Reads the library again, and returns whether it is another one. Calls that find
        something unknown at once read it each: the first one may not have its replies yet."""
        if time.monotonic() < self._next:
            return False
        before = self.exporter.library
        library = yield from ask_library()
        self._next = time.monotonic() + _REFRESH
        if library == self.exporter.library:
            return self.exporter.library is not before
        try:
            self.exporter.adopt(library)
        except IdentityFault as fault:
            self._note(f"a new library is not used: {fault}")
            return False
        self._note("the store has a new library")
        return True

    def serves(self, iid: bytes, resolver: bool) -> bool:
        """Whether a port serves an interface."""
        return iid in RESOLVER if resolver else iid in _OWN or self.exporter.has_interface(iid)

    def perform(
        self,
        resolver: bool,
        made: typing.Optional[Enumerators],
        iid: bytes,
        opnum: int,
        ipid: bytes,
        at: Reader,
        address: str,
    ) -> Steps[bytes]:
        """The stub of a call's reply. `made` is None if there is no user."""
        exporter = self.exporter
        if iid == IID_MANAGEMENT:
            served = RESOLVER if resolver else (IID_IREMUNKNOWN,)
            return activation.management_call(served, opnum)
        if iid == IID_IOBJECTEXPORTER:
            return activation.resolver_call(exporter, opnum, at, address)
        if made is None:
            raise Refused(RPC_E_INVALID_OBJECT)
        orpc.read_this(at)
        if iid == IID_ISCMACTIVATOR:
            stub = yield from activation.scm_call(exporter, self.refresh, opnum, at, address)
            return orpc.THAT + stub
        if iid == IID_IACTIVATION:
            stub = yield from activation.activation_call(exporter, self.refresh, opnum, at, address)
            return orpc.THAT + stub
        if not ipid:
            raise Refused(RPC_E_INVALID_OBJECT)
        named = exporter.named(ipid)
        if iid in (IID_IREMUNKNOWN, IID_IREMUNKNOWN2):
            if named.kind != REMUNKNOWN:
                raise Refused(RPC_E_INVALID_OBJECT)
            return orpc.THAT + (yield from self._unknown(opnum, at, address))
        if named.kind == FACTORY and iid == IID_ICLASSFACTORY:
            return orpc.THAT + (yield from exporter.factory(named, opnum, at, address))
        if named.kind == ENUMERATOR and iid == IID_IENUMVARIANT:
            return orpc.THAT + self.hub.enumerator(named, opnum, at, made, address)
        if named.face == COMP:
            if iid != IID_ITYPECOMP:
                raise Refused(RPC_E_INVALID_OBJECT)
            return orpc.THAT + typelib.comp_call(exporter, named, opnum, at, address)
        if named.kind == TYPE and iid == IID_ITYPEINFO:
            of = typelib.of_type if opnum in (4, 18) else typeinfo.call
            return orpc.THAT + of(exporter, named, opnum, at, address)
        if named.kind == LIBRARY and iid == IID_ITYPELIB:
            return orpc.THAT + typelib.library_call(exporter, named, opnum, at, address)
        if named.face == CLASSINFO and iid == IID_IPROVIDECLASSINFO:
            return orpc.THAT + typeinfo.of_class(exporter, named, opnum, at, address)
        if named.kind not in (OBJECT, HUB, COLLECTION) or named.face == CLASSINFO:
            raise Refused(RPC_E_INVALID_OBJECT)
        if iid in _OWN and iid != IID_IDISPATCH:
            raise Refused(RPC_E_INVALID_OBJECT)
        return orpc.THAT + (yield from self._dispatch(made, named, opnum, at, address))

    def _unknown(self, opnum: int, at: Reader, address: str) -> Steps[bytes]:
        """IRemUnknown. An interface that is not there may be one of a new library."""
        begun = at.at
        stub = self.exporter.rem_unknown(opnum, at, address)
        if opnum in (3, 6) and stub[-4:] != bytes(4) and (yield from self.refresh()):
            at.at = begun
            stub = self.exporter.rem_unknown(opnum, at, address)
        return stub

    def _dispatch(
        self, made: Enumerators, named: Named, opnum: int, at: Reader, address: str
    ) -> Steps[bytes]:
        """IDispatch."""
        typed = named.kind == OBJECT
        if opnum == 6:
            given = dispatch.read_params(at)
            if typed:
                told = yield from self.dispatch.invoke(named, given)
            else:
                told = yield from self.hub.invoke(named, given, made, address)
            settings = self.exporter.settings
            return dispatch.reply_of(told, given, settings.scripts, settings.align_8)
        if opnum == 5:
            if typed:
                return (yield from self.dispatch.names(named, at))
            riid, names, _ = dispatch.read_names(at)
            return self.hub.names(named, riid, names)
        if opnum == 3:
            at.finish()
            return struct.pack("<II", int(typed), 0)
        if opnum == 4:
            index = at.u32()
            at.u32()
            at.finish()
            if index or not typed:
                return struct.pack("<II", 0, DISP_E_BADINDEX)
            return typeinfo.of_object(self.exporter, named, address)
        raise BadOpnum
