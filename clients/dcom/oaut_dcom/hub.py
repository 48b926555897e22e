"""The hub: a collection of the store's objects with the members and DISPIDs of the hub in
clients/com (docs/guide/com.md), and the enumerators that For Each asks for."""
from __future__ import annotations

import struct
import typing

from oaut.library import Member, fold
from oaut.records import LOCK, REDIM, UNLOCK, ask_call, ask_list, ask_release
from oaut.wire import array_field, scalar_field

from . import numbers, orpc, variants
from .codes import (
    DISP_E_BADINDEX,
    DISP_E_BADPARAMCOUNT,
    DISP_E_MEMBERNOTFOUND,
    DISP_E_NONAMEDARGS,
    DISP_E_OVERFLOW,
    DISP_E_TYPEMISMATCH,
    DISP_E_UNKNOWNINTERFACE,
    DISP_E_UNKNOWNNAME,
    E_NOINTERFACE,
    E_OUTOFMEMORY,
    IID_IDISPATCH,
    IID_IENUMVARIANT,
    IID_IUNKNOWN,
    IID_NULL,
    RPC_E_DISCONNECTED,
    RPC_S_SERVER_UNAVAILABLE,
    BadOpnum,
    Refused,
)
from .dispatch import Call, Params, Told, Wrong
from .listing import Live, find, read
from .ndr import Reader, Writer
from .objects import COLLECTION, ENUMERATOR, HUB, OBJECT, UNKNOWN, Exporter, Named, Steps, code_of
from .refusals import Argument, describe
from .variants import VT_BSTR, VT_CY, VT_DECIMAL, VT_I4, VT_I8, VT_VARIANT
from .watch import Wait

SOURCE = "oaut"


class Entry(typing.NamedTuple):
    """A member of the hub: its arguments' least and largest number, whether collections have it,
    and the names of the first arguments."""

    name: str
    least: int
    most: int
    shared: bool
    arguments: typing.Tuple[str, ...] = ()


MEMBERS = {
    0: Entry("Item", 1, 1, True, ("place",)),
    -4: Entry("_NewEnum", 0, 0, True),
    1: Entry("Object", 1, 1, False, ("number",)),
    2: Entry("Count", 0, 0, True),
    3: Entry("Numbers", 0, 0, True),
    4: Entry("NumberOf", 1, 1, False, ("object",)),
    5: Entry("Release", 1, 1, False, ("object",)),
    6: Entry("Redim", 3, 32, False, ("object", "name", "count", "lowest")),
    7: Entry("Lock", 2, 32, False, ("object", "name")),
    8: Entry("Unlock", 2, 32, False, ("object", "name")),
    9: Entry("ClassOf", 1, 1, False, ("object",)),
    10: Entry("Objects", 1, 1, False, ("coclass",)),
    11: Entry("InterfaceOf", 2, 2, False, ("object", "interface")),
    13: Entry("WaitForChange", 1, 1, True, ("milliseconds",)),
}
ENUMERATORS = 64  # of one association group
_LISTED = 50_000  # objects of the enumerators of one group, together with the newest's
_NEXT = 16_384  # objects of one Next: about 4 MB
# objects in the form in which they are kept: the coclass's place above the number
Listed = typing.Sequence[int]


class Enumerators:
    """The enumerators of one association group: each has the objects that were live when it was
    made. The oldest goes if there are too many."""

    def __init__(self) -> None:
        self.locks = 0  # that the group has, as far as it has called Lock and Unlock of the hub
        self._made: typing.Dict[int, typing.Tuple[Listed, int]] = {}
        self._next = 1

    def add(self, live: Listed, place: int = 0) -> int:
        """The number of a new one."""
        number, self._next = self._next, self._next + 1 & 0xFFFF_FFFF
        self._made[number] = (live, place)
        count = sum(len(it) for it, _ in self._made.values())
        while len(self._made) > ENUMERATORS or count > _LISTED and len(self._made) > 1:
            oldest = next(iter(self._made))
            count -= len(self._made.pop(oldest)[0])
        return number

    def get(self, number: int) -> typing.Tuple[Listed, int]:
        """The objects and the place of one."""
        if number not in self._made:
            raise Refused(RPC_E_DISCONNECTED)
        return self._made[number]

    def set(self, number: int, place: int) -> None:
        """Moves one."""
        self._made[number] = (self._made[number][0], place)


class Hub:
    """The calls of the hub, its collections and their enumerators."""

    def __init__(self, exporter: Exporter, refresh: typing.Callable[[], Steps[bool]]) -> None:
        self.exporter, self._refresh = exporter, refresh
        self.listing = exporter.listing

    def names(self, named: Named, riid: bytes, names: typing.Sequence[str]) -> bytes:
        """GetIDsOfNames. The parameters have no names."""
        if riid != IID_NULL:
            return Writer().u32(len(names), *[-1] * len(names), DISP_E_UNKNOWNINTERFACE).done()
        ids = [-1] * len(names)
        found = False
        for dispid, entry in MEMBERS.items():
            if fold(entry.name) == fold(names[0]) and (entry.shared or named.kind == HUB):
                ids[0], found = dispid, True
        code = 0 if found and len(names) == 1 else DISP_E_UNKNOWNNAME
        return Writer().u32(len(ids), *ids, code).done()

    def live(self, named: Named, anew: bool = False) -> Steps[Live]:
        """The objects of a hub or a collection, `anew` if a list that is kept is not enough."""
        found = None if anew else self.listing.there()
        if found is None:
            begun = self.listing.begin()
            reply = yield ask_list()
            if code_of(reply):
                raise Wrong(code_of(reply), -1)
            # (of calls that list at once, one reads the reply)
            found = None if anew else self.listing.there()
            if found is None:
                found = yield from self._read(reply[16:], *begun)
        return found if named.kind == HUB else found.of(named.coclass)

    def _read(self, fields: bytes, begun: float, changes: int) -> Steps[Live]:
        numbers, of, classes = read(fields)
        if not all(map(self.exporter.has_coclass, classes.values())):
            yield from self._refresh()
        places = {it: self.exporter.place_of_coclass(guid) for it, guid in classes.items()}
        found = Live(numbers, map(places.__getitem__, of))
        self.listing.keep(found, begun, changes)
        return found

    def invoke(self, named: Named, given: Params, made: Enumerators, address: str) -> Steps[Told]:
        """Invoke of a hub or a collection."""
        entry = MEMBERS.get(given.dispid)
        if entry is not None and not entry.shared and named.kind != HUB:
            entry = None
        try:
            if given.riid != IID_NULL:
                raise Wrong(DISP_E_UNKNOWNINTERFACE, -1)
            if entry is None or not given.flags & 3:
                raise Wrong(DISP_E_MEMBERNOTFOUND, -1)
            if given.named:
                raise Wrong(DISP_E_NONAMEDARGS, -1)
            if not entry.least <= len(given.fields) <= entry.most:
                raise Wrong(DISP_E_BADPARAMCOUNT, -1)
            turn = _Turn(self, named, entry.name, given.fields[::-1], made, address)
            return Told(0, 0, (yield from turn.perform()))
        except Wrong as wrong:
            return self._refusal(entry, given, wrong)

    @staticmethod
    def _refusal(entry: typing.Optional[Entry], given: Params, wrong: Wrong) -> Told:
        argument, index = None, 0
        if entry is not None and 0 <= wrong.place < len(given.fields):
            index = len(given.fields) - 1 - wrong.place
            known = wrong.place < len(entry.arguments)
            name = entry.arguments[wrong.place] if known else "an argument of the property"
            argument = Argument(name, 0, given.fields[index])
        text = describe(wrong.code, SOURCE, entry.name if entry else "", argument)
        return Told(wrong.code, index, variants.EMPTY, SOURCE, text)

    # ---- IEnumVARIANT

    def _fields_of(self, some: Listed, address: str) -> typing.Iterator[bytes]:
        """The VT_DISPATCH of each of some objects."""
        of_place: typing.Dict[int, bytes] = {}
        for it in some:
            number, place = it & 0xFFFF_FFFF, it >> 32
            if place not in of_place:
                of_place[place] = variants.dispatch(self.exporter.object_ref(0, place, address))
            # (those of a coclass differ in the number alone, in the OID and in the IPID)
            field, own = of_place[place], struct.pack("<I", number)
            yield field[:72] + own + field[76:80] + own + field[84:]

    def enumerator(
        self, named: Named, opnum: int, at: Reader, made: Enumerators, address: str
    ) -> bytes:
        """Next, Skip, Reset and Clone."""
        live, place = made.get(named.number)
        if opnum == 3:
            wanted = at.u32()
            at.finish()
            some = live[place : place + wanted]
            if len(some) > _NEXT:
                # (fewer than requested would be the end of all)
                raise Refused(E_OUTOFMEMORY)
            made.set(named.number, place + len(some))
            out = Writer().u32(min(wanted, 0x1_0000), 0, len(some), *[orpc.SET] * len(some))
            for field in self._fields_of(some, address):
                out.align(8).raw(field)
            return out.u32(len(some), 0 if len(some) == wanted else 1).done()
        if opnum == 4:
            count = at.u32()
            at.finish()
            made.set(named.number, min(place + count, len(live)))
            return Writer().u32(0 if place + count <= len(live) else 1).done()
        at.finish()
        if opnum == 5:
            made.set(named.number, 0)
            return bytes(4)
        if opnum == 6:
            ref = self.exporter.ref(ENUMERATOR, made.add(live, place))
            data = orpc.objref(IID_IENUMVARIANT, ref, self.exporter.resolver(address))
            return Writer().optional_interface(data).u32(0).done()
        raise BadOpnum


class _Turn:
    """A call of a member of the hub. `given` has the arguments from the left; a Wrong's place
    counts there."""

    def __init__(
        self,
        hub: Hub,
        named: Named,
        name: str,
        given: typing.List[bytes],
        made: Enumerators,
        address: str,
    ) -> None:
        self.hub, self.exporter, self.named = hub, hub.exporter, named
        self.name, self.given, self.made, self.address = name, given, made, address

    def perform(self) -> Steps[bytes]:
        """The field of the member's result."""
        name, given = self.name, self.given
        if name in ("Count", "Numbers", "_NewEnum", "Item"):
            place = self.number(0, -(1 << 31), 0xFFFF_FFFF) if name == "Item" else 0
            live = yield from self.hub.live(self.named, name not in ("Count", "Item"))
            return self._of_live(live, place)
        if name == "WaitForChange":
            return (yield from self._wait())
        if name == "Object":
            return (yield from self._by_number(self.number(0, 0, 0xFFFF_FFFF)))
        if name == "Objects":
            text = self.text(0)
            found = self.exporter.coclass_named(text)
            if found is None and (yield from self.hub._refresh()):
                found = self.exporter.coclass_named(text)
            if found is None:
                raise Wrong(DISP_E_UNKNOWNNAME, 0)
            return self._dispatch(self.exporter.ref(COLLECTION, 0, found))
        target = self.object()
        coclass = self.exporter.coclass_at(target.coclass)
        if name == "NumberOf":
            return scalar_field(*number_cell(target.number))
        if name == "ClassOf":
            return scalar_field(VT_BSTR, coclass.name.encode("utf-16-le"))
        if name == "Release":
            self.hub.listing.change()
            yield from _asked(ask_release(target.number))
            self.hub.listing.released(target.number)
            return variants.EMPTY
        if name == "InterfaceOf":
            try:
                face = self.exporter.library.interface(coclass, self.text(1))
            except LookupError as error:
                raise Wrong(E_NOINTERFACE, 1) from error
            place = self.exporter.place_of_interface(face)
            return self._dispatch(self.exporter.ref(OBJECT, target.number, target.coclass, place))
        assert given
        return (yield from self._array(target))

    def _by_number(self, number: int) -> Steps[bytes]:
        """An object, if it is there now. (Not all of them are read for that.)"""
        reply = yield ask_list()
        if code_of(reply):
            raise Wrong(code_of(reply), -1)
        coclass = find(reply, 16, number)
        if coclass is None:
            raise Wrong(RPC_E_DISCONNECTED, -1)
        if not self.exporter.has_coclass(coclass):
            yield from self.hub._refresh()
        return self._object(number, self.exporter.place_of_coclass(coclass))

    def _of_live(self, live: Live, place: int) -> bytes:
        if self.name == "Count":
            return scalar_field(*number_cell(len(live)))
        if self.name == "Numbers":
            cells = [number_cell(number) for number in live.numbers]
            return array_field(VT_VARIANT, [(len(live), 0)], cells)
        if self.name == "Item":
            if not 1 <= place <= len(live):
                raise Wrong(DISP_E_BADINDEX, 0)
            return self._object(live.numbers[place - 1], live.places[place - 1])
        number = self.made.add(live.listed())
        ref = self.exporter.ref(ENUMERATOR, number, 0, UNKNOWN)
        data = orpc.objref(IID_IUNKNOWN, ref, self.exporter.resolver(self.address))
        return variants.unknown(data)

    def _wait(self) -> Steps[bytes]:
        """The number of an object that has changed, -1 if any may have, 0 if none has in time."""
        milliseconds = self.number(0, 0, 0x7FFF_FFFF)
        is_hub = self.named.kind == HUB
        of = None if is_hub else self.exporter.coclass_at(self.named.coclass).guid
        reply = yield Wait(of, milliseconds)
        if not reply:
            raise Wrong(RPC_S_SERVER_UNAVAILABLE, -1)
        self.hub.listing.forget()  # (what has changed may be which objects are live)
        return scalar_field(*number_cell(struct.unpack("<q", reply)[0]))

    def _array(self, target: Named) -> Steps[bytes]:
        """Lock, Unlock and Redim: the object, the property's name, Redim's count and lowest index,
        and the property's arguments."""
        library, name = self.exporter.library, self.text(1)
        interface = self.exporter.interface_of(target)
        member = library.members(interface).get(fold(name))
        if member is None and (yield from self.hub._refresh()):
            library = self.exporter.library
            interface = self.exporter.interface_of(target)
            member = library.members(interface).get(fold(name))
        if member is None:
            raise Wrong(DISP_E_UNKNOWNNAME, 1)
        first, tail = 2, b""
        if self.name == "Redim":
            count = self.number(2, 0, 0xFFFF_FFFF)
            lowest = self.number(3, -(1 << 31), (1 << 31) - 1) if len(self.given) > 3 else 0
            tail, first = struct.pack("<Ii", count, lowest), 4
        rest = self._property_arguments(target, member, self.given[first:][::-1])
        opcode = {"Lock": LOCK, "Unlock": UNLOCK, "Redim": REDIM}[self.name]
        guid = bytes(16) if target.face >= 0xFFFD else interface.guid.bytes_le
        request = ask_call(opcode, target.number, member.dispid, 0, [], rest, guid)
        reply = yield request + tail
        if code_of(reply):
            (index,) = struct.unpack_from("<I", reply, 8)
            there = index < len(rest)
            raise Wrong(code_of(reply), len(self.given) - 1 - index if there else -1)
        if self.name == "Redim":
            return variants.EMPTY
        self.made.locks = max(self.made.locks + (1 if self.name == "Lock" else -1), 0)
        return scalar_field(*number_cell(struct.unpack_from("<I", reply, 16)[0]))

    def _property_arguments(
        self, target: Named, member: Member, fields: typing.List[bytes]
    ) -> typing.List[bytes]:
        """The arguments of the property, with --script as its parameters take them."""
        if not self.exporter.settings.scripts:
            return fields
        params = Params(member.dispid, IID_NULL, 0, 0, [], fields, [])
        call = Call(target, params, member)
        return [call.converted(i, call.declared_at(i)) for i in range(len(fields))]

    def _object(self, number: int, coclass: int) -> bytes:
        return variants.dispatch(self.exporter.object_ref(number, coclass, self.address))

    def _dispatch(self, ref: orpc.Standard) -> bytes:
        data = orpc.objref(IID_IDISPATCH, ref, self.exporter.resolver(self.address))
        return variants.dispatch(data)

    # ---- arguments

    def object(self) -> Named:
        """The object that is the first argument: one of this exporter's store."""
        field = self.given[0]
        data = variants.objref_of(field) if variants.type_of(field) in (9, 13) else None
        if data is None:
            raise Wrong(DISP_E_TYPEMISMATCH, 0)
        ref = orpc.read_objref(data)
        if ref.oxid != self.exporter.oxid:
            raise Wrong(DISP_E_TYPEMISMATCH, 0)
        named = self.exporter.named(ref.ipid)
        if named.kind != OBJECT:
            raise Wrong(DISP_E_TYPEMISMATCH, 0)
        return named

    def number(self, place: int, least: int, most: int) -> int:
        """A whole number that is an argument, also as a CURRENCY."""
        scalar = numbers.scalar_of(self.given[place])
        if self.exporter.settings.scripts and scalar[0] in numbers.FLOATING:
            try:
                scalar = numbers.number_as(scalar[0], scalar[1], VT_I8)
            except numbers.Misfit:
                pass
            if scalar[0] == VT_DECIMAL:
                raise Wrong(DISP_E_OVERFLOW, place)
        number = numbers.whole_number(scalar)
        if scalar[0] == VT_CY and scalar[1] % 10_000 == 0:
            number = scalar[1] // 10_000
        if number is None:
            raise Wrong(DISP_E_TYPEMISMATCH, place)
        if not least <= number <= most:
            raise Wrong(DISP_E_OVERFLOW, place)
        return int(number)

    def text(self, place: int) -> str:
        """A text that is an argument."""
        vt, content = numbers.scalar_of(self.given[place])
        if vt != VT_BSTR or content is None:
            raise Wrong(DISP_E_TYPEMISMATCH, place)
        return str(content, "utf-16-le", "replace")


def number_cell(number: int) -> typing.Tuple[int, int]:
    """A number as the hub returns it: a long, or a CURRENCY if that is too short."""
    return (VT_I4, number) if number < 1 << 31 else (VT_CY, 10_000 * number)


def _asked(request: bytes) -> Steps[bytes]:
    """The fields of a reply. Raises Wrong."""
    reply = yield request
    if code_of(reply):
        raise Wrong(code_of(reply), -1)
    return reply[16:]
