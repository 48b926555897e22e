"""The exported objects, and their references.

An IPID contains the kind, the object's number, the coclass, the interface and the exporter. So a
reference takes no memory here, is not counted, and survives a restart of this program: the store
has the object, and no reference keeps it."""
from __future__ import annotations

import struct
import typing

from oaut.library import Coclass, Interface, Library, fold, read_description
from oaut.records import ask_create, ask_type_info

from . import orpc
from .codes import (
    DISP_E_BADINDEX,
    E_NOINTERFACE,
    IID_ICLASSFACTORY,
    IID_IDISPATCH,
    IID_IENUMVARIANT,
    IID_IPROVIDECLASSINFO,
    IID_ITYPECOMP,
    IID_ITYPEINFO,
    IID_ITYPELIB,
    IID_IUNKNOWN,
    REGDB_E_CLASSNOTREG,
    RPC_E_DISCONNECTED,
    RPC_E_INVALID_OBJECT,
    S_FALSE,
    BadOpnum,
    Refused,
)
from .identity import COCLASS, INTERFACE, Identity
from .listing import Listing
from .ndr import Bad, Reader, Writer
from .watch import Wait

REMUNKNOWN, OBJECT, FACTORY, HUB, COLLECTION, ENUMERATOR, TYPE, LIBRARY = range(8)
# the part of an IPID in place of an interface: IUnknown, the default interface by IDispatch,
# IProvideClassInfo, or ITypeComp
UNKNOWN, DISPATCH, CLASSINFO, COMP = 0xFFFF, 0xFFFE, 0xFFFD, 0xFFFC
HUB_CLASS = 0x1FFF
_IPID = struct.Struct("<IHHQ")
_CODE = struct.Struct("<I").unpack_from

_T = typing.TypeVar("_T")
# A call as a generator: it yields requests of the store, or waits, and is sent their replies.
Steps = typing.Generator[typing.Union[bytes, Wait], bytes, _T]


class Named(typing.NamedTuple):
    """The contents of an IPID. `face` and `coclass` are positions in the identity's table."""

    number: int
    face: int
    coclass: int
    kind: int


class Settings(typing.NamedTuple):
    """How the exporter is reached, and how it behaves."""

    port: int
    hosts: typing.Sequence[str] = ()
    scripts: bool = False
    level: int = 5  # the least authentication level, PKT_INTEGRITY
    kinds: typing.Sequence[int] = (9, 10)
    align_8: bool = False  # as Wine's proxy reads; a switch for tests


def code_of(reply: bytes) -> int:
    """The code of a reply."""
    return int(_CODE(reply, 4)[0])


def ask_library() -> Steps[Library]:
    """The library of the store."""
    found: typing.List[typing.Union[Interface, Coclass]] = []
    while True:
        reply = yield ask_type_info(len(found))
        code = code_of(reply)
        if code == DISP_E_BADINDEX:
            return Library(found)
        if code:
            raise Refused(code)
        found.append(read_description(reply[16:]))


def hub_class(first: bytes) -> bytes:
    """The CLSID of the hub, from the GUID of the first interface: the same as in clients/com."""
    one, two, three, rest = struct.unpack("<IHH8s", first)
    return struct.pack("<IHH8s", one ^ 0x6F61_7574, two ^ 0x6875, three ^ 0x6221, rest)


class Exporter:
    """The object exporter of one store."""

    def __init__(self, identity: Identity, library: Library, settings: Settings) -> None:
        self.identity, self.settings = identity, settings
        self.oxid = identity.oxid
        self.listing = Listing()
        self.adopt(library)

    def adopt(self, library: Library) -> None:
        """Uses a library, which keeps all that the one before it had."""
        self.identity.add(INTERFACE, [it.guid.bytes_le for it in library.interfaces])
        self.identity.add(COCLASS, [it.guid.bytes_le for it in library.coclasses])
        self.library = library
        self._interfaces = {it.guid.bytes_le: it for it in library.interfaces}
        self._coclasses = {it.guid.bytes_le: it for it in library.coclasses}
        first = library.interfaces[0].guid.bytes_le if library.interfaces else bytes(16)
        self.hub = hub_class(first)
        self._resolver_of: typing.Dict[str, bytes] = {}

    def renew(self, store: str) -> bool:
        """Refuses all references from now on if the store's file is another one, whose words these
        are. Returns whether it is."""
        if not self.identity.renew(store):
            return False
        self.oxid = self.identity.oxid
        self.listing.forget()
        return True

    # ---- references

    def ipid(self, kind: int, number: int = 0, coclass: int = 0, face: int = DISPATCH) -> bytes:
        """The IPID of something that is exported."""
        return _IPID.pack(number, face, kind << 13 | coclass, self.oxid)

    def ref(
        self, kind: int, number: int = 0, coclass: int = 0, face: int = DISPATCH
    ) -> orpc.Standard:
        """A reference to something that is exported."""
        oid = kind << 48 | coclass << 32 | number
        return orpc.Standard(self.oxid, oid, self.ipid(kind, number, coclass, face))

    def named(self, ipid: bytes) -> Named:
        """Returns the contents of an IPID. A client may send anything, so each field is checked."""
        number, face, both, oxid = _IPID.unpack(ipid)
        if oxid != self.oxid:
            raise Refused(RPC_E_DISCONNECTED)
        kind, coclass = both >> 13, both & 0x1FFF
        if kind in (OBJECT, COLLECTION) or kind == FACTORY and coclass != HUB_CLASS:
            self.coclass_at(coclass)
        if face < COMP and (
            kind != OBJECT or self.interface_in(self.coclass_at(coclass), face) is None
        ):
            raise Refused(RPC_E_INVALID_OBJECT)
        if face == CLASSINFO and kind != OBJECT or face == COMP and kind not in (TYPE, LIBRARY):
            raise Refused(RPC_E_INVALID_OBJECT)
        return Named(number, face, coclass, kind)

    def coclass_at(self, place: int) -> Coclass:
        """The coclass at a place of the table."""
        guid = self.identity.guid(COCLASS, place)
        found = self._coclasses.get(guid) if guid is not None else None
        if found is None:
            raise Refused(RPC_E_INVALID_OBJECT)
        return found

    def interface_at(self, place: int) -> Interface:
        """The interface at a place of the table."""
        guid = self.identity.guid(INTERFACE, place)
        found = self._interfaces.get(guid) if guid is not None else None
        if found is None:
            raise Refused(RPC_E_INVALID_OBJECT)
        return found

    def interface_in(self, coclass: Coclass, place: int) -> typing.Optional[Interface]:
        """The interface at a place of the table, if the coclass has it."""
        guid = self.identity.guid(INTERFACE, place)
        for _, index in coclass.entries:
            if self.library.interfaces[index].guid.bytes_le == guid:
                return self.library.interfaces[index]
        return None

    def interface_of(self, named: Named) -> Interface:
        """The interface that an object's calls go to."""
        coclass = self.coclass_at(named.coclass)
        if named.face < COMP:
            found = self.interface_in(coclass, named.face)
            if found is not None:
                return found
        return self.library.interface(coclass)

    def place_of_interface(self, interface: Interface) -> int:
        """The place of an interface in the table."""
        return self.identity.place(INTERFACE, interface.guid.bytes_le)

    def place_of_coclass(self, guid: bytes) -> int:
        """The place of a coclass in the table. Raises Refused if the library does not have it."""
        if guid not in self._coclasses:
            raise Refused(REGDB_E_CLASSNOTREG)
        return self.identity.place(COCLASS, guid)

    def coclass_named(self, name: str) -> typing.Optional[int]:
        """The place of the coclass with a name, or None."""
        for it in self.library.coclasses:
            if fold(it.name) == fold(name):
                return self.identity.place(COCLASS, it.guid.bytes_le)
        return None

    def has_interface(self, iid: bytes) -> bool:
        """Whether the library has an interface with this GUID."""
        return iid in self._interfaces

    def has_coclass(self, clsid: bytes) -> bool:
        """Whether the library has a coclass with this GUID, or it is the hub's."""
        return clsid in self._coclasses or clsid == self.hub

    # ---- addresses

    def hosts_at(self, address: str) -> typing.List[str]:
        """The addresses under which a client may reach this server, first the one that it used."""
        return [address] + [it for it in self.settings.hosts if it != address]

    def resolver(self, address: str) -> bytes:
        """The string bindings of the well-known port, which have no port in them."""
        found = self._resolver_of.get(address)
        if found is None:
            found = orpc.bindings(self.hosts_at(address), None, self.settings.kinds)
            if len(self._resolver_of) < 64:
                self._resolver_of[address] = found
        return found

    def bindings(self, address: str) -> bytes:
        """The string bindings of the exporter's port."""
        return orpc.bindings(self.hosts_at(address), self.settings.port, self.settings.kinds)

    # ---- interfaces and objects

    def face_of(self, iid: bytes, kind: int, coclass: int) -> typing.Optional[int]:
        """The number of an interface in the IPID of a kind of object, or None if the object does
        not have it."""
        if iid == IID_IUNKNOWN:
            return UNKNOWN
        if iid == IID_ITYPECOMP:
            return COMP if kind in (TYPE, LIBRARY) else None
        own = {FACTORY: IID_ICLASSFACTORY, ENUMERATOR: IID_IENUMVARIANT}
        own.update({TYPE: IID_ITYPEINFO, LIBRARY: IID_ITYPELIB})
        if kind in own:
            return DISPATCH if iid == own[kind] else None
        if kind == REMUNKNOWN:
            return None
        if iid == IID_IDISPATCH:
            return DISPATCH
        if kind != OBJECT:
            return None
        if iid == IID_IPROVIDECLASSINFO:
            return CLASSINFO
        if iid not in self._interfaces:
            return None
        place = self.identity.place(INTERFACE, iid)
        return place if self.interface_in(self.coclass_at(coclass), place) else None

    def with_face(self, ref: orpc.Standard, iid: bytes) -> typing.Optional[orpc.Standard]:
        """Returns the object's other interface, or None."""
        it = self.named(ref.ipid)
        face = self.face_of(iid, it.kind, it.coclass)
        if face is None:
            return None
        return ref._replace(ipid=self.ipid(it.kind, it.number, it.coclass, face))

    def class_of(self, clsid: bytes) -> int:
        """The place of a coclass, or HUB_CLASS. Raises Refused."""
        return HUB_CLASS if clsid == self.hub else self.place_of_coclass(clsid)

    def make(self, coclass: int) -> Steps[orpc.Standard]:
        """A new object of a coclass, or the hub. Raises Refused."""
        if coclass == HUB_CLASS:
            return self.ref(HUB)
        self.listing.change()
        reply = yield ask_create(self.coclass_at(coclass).guid)
        code = code_of(reply)
        if code:
            raise Refused(code)
        number = int(_CODE(reply, 16)[0])
        self.listing.created(number, coclass)
        return self.ref(OBJECT, number, coclass)

    def object_ref(self, number: int, coclass: int, address: str) -> bytes:
        """The OBJREF of an object, for IDispatch."""
        return orpc.objref(IID_IDISPATCH, self.ref(OBJECT, number, coclass), self.resolver(address))

    # ---- IRemUnknown

    def rem_unknown(self, opnum: int, at: Reader, address: str) -> bytes:
        """RemQueryInterface, RemAddRef, RemRelease and RemQueryInterface2."""
        if opnum in (3, 6):
            return self._query(opnum, at, address)
        if opnum not in (4, 5):
            raise BadOpnum
        count = at.u16()
        if at.count(24, 0x1000) != count:
            raise Bad
        for _ in range(count):
            self.named(at.guid())
            at.u64()
        at.finish()
        return Writer().u32(count, *[0] * count, 0).done() if opnum == 4 else bytes(4)

    def _query(self, opnum: int, at: Reader, address: str) -> bytes:
        ipid = at.guid()
        references = at.u32() if opnum == 3 else 5
        count = at.u16()
        if at.count(16, 0x100) != count:
            raise Bad
        iids = [at.guid() for _ in range(count)]
        at.finish()
        it = self.named(ipid)
        ref = self.ref(it.kind, it.number, it.coclass)
        found = [self.with_face(ref, iid) for iid in iids]
        codes = [0 if one else E_NOINTERFACE for one in found]
        whole = 0 if all(found) else S_FALSE if any(found) else E_NOINTERFACE
        out = Writer()
        if opnum == 3:
            out.u32(orpc.SET, count)
            for code, one in zip(codes, found):
                out.align(8).u32(code)
                orpc.put_standard(out, one, references)
        else:
            out.u32(count, *codes).u32(count, *[orpc.SET if one else 0 for one in found])
            for iid, one in zip(iids, found):
                if one:
                    out.interface(orpc.objref(iid, one, self.resolver(address)))
        return out.u32(whole).done()

    # ---- IClassFactory

    def factory(self, named: Named, opnum: int, at: Reader, address: str) -> Steps[bytes]:
        """CreateInstance and LockServer in their remote forms."""
        if opnum == 4:
            at.u32()
            at.finish()
            return bytes(4)
        if opnum != 3:
            raise BadOpnum
        iid = at.guid()
        at.finish()
        kind = HUB if named.coclass == HUB_CLASS else OBJECT
        if self.face_of(iid, kind, named.coclass) is None:
            return Writer().u32(0, E_NOINTERFACE).done()
        try:
            ref = self.with_face((yield from self.make(named.coclass)), iid)
        except Refused as refused:
            return Writer().u32(0, refused.code).done()
        assert ref is not None
        data = orpc.objref(iid, ref, self.resolver(address))
        return Writer().optional_interface(data).u32(0).done()
