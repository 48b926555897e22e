"""IDispatch of the store's objects (MS-OAUT section 3.1.4): an Invoke's arguments go to the store
as they came, except with --script and for elements of arrays."""
from __future__ import annotations

import struct
import typing

from oaut.library import Member
from oaut.records import (
    DEFAULT,
    GETELEM,
    INVOKE,
    NO_INDEX,
    PROPERTYGET,
    PROPERTYPUT,
    PROPERTYPUTREF,
    PUTELEM,
    REPLY_HEAD,
    ask_call,
    ask_ids,
    indices_field,
)
from oaut.wire import padded, variant_field

from . import numbers, orpc, variants
from .codes import (
    DISP_E_BADINDEX,
    DISP_E_BADVARTYPE,
    DISP_E_EXCEPTION,
    DISP_E_MEMBERNOTFOUND,
    DISP_E_OVERFLOW,
    DISP_E_PARAMNOTOPTIONAL,
    DISP_E_TYPEMISMATCH,
    DISP_E_UNKNOWNNAME,
    RPC_E_DISCONNECTED,
    Refused,
)
from .ndr import Bad, Reader, Writer
from .objects import Exporter, Named, Steps, code_of
from .refusals import Argument, code_for_scripts, describe
from .variants import ARRAY, VT_VARIANT

ARGUMENTS, NAMES, TEXT = 32, 17, 0x4000
NEW_VALUE = -3
_ZERO_EXCEPINFO = 0x4_0000
_CALL = struct.Struct("<HHIi16s16sIHHII")
_HEAD = struct.Struct("<i16sIIIIII")
# what a get without arguments has after its head: no references
_NOTHING = bytes(12)
# an EXCEPINFO without texts, up to its scode: all three pointers are set
_NO_TEXT = struct.pack("<III", 0, 0xFFFF_FFFF, 0)


class Told(typing.NamedTuple):
    """The result of an Invoke: an HRESULT, the argument at fault, a field, and the EXCEPINFO's
    source and description."""

    code: int
    argument: int = 0
    field: bytes = variants.EMPTY
    source: str = ""
    description: str = ""


class Params(typing.NamedTuple):
    """The arguments of an Invoke. `references` are those by reference, as they came."""

    dispid: int
    riid: bytes
    locale: int
    flags: int
    named: typing.List[int]
    fields: typing.List[bytes]
    references: typing.List[typing.Optional[bytes]]


def read_names(at: Reader) -> typing.Tuple[bytes, typing.List[str], int]:
    """The arguments of GetIDsOfNames."""
    riid = at.guid()
    referents = [at.u32() for _ in range(at.count(4, NAMES))]
    if not referents or not all(referents):
        raise Bad
    names = [at.string(TEXT) for _ in referents]
    if at.u32() != len(names):
        raise Bad
    locale = at.u32()
    at.finish()
    return riid, names, locale


def read_params(at: Reader) -> Params:
    """The arguments of Invoke."""
    at.align(4)
    start = at.at
    at.skip(_HEAD.size)
    dispid, riid, locale, flags, arguments, named, count, names = _HEAD.unpack_from(at.data, start)
    if not (arguments or named or count or names) and at.data[at.at : at.at + 12] == _NOTHING:
        at.skip(12)
        at.finish()
        return Params(dispid, riid, locale, flags, [], [], [])
    if count > ARGUMENTS or names > ARGUMENTS or (count and not arguments) or (names and not named):
        raise Bad
    fields = variants.fields(at, ARGUMENTS) if arguments else []
    ids = [at.i32() for _ in range(at.count(4, ARGUMENTS))] if named else []
    if len(fields) != count or len(ids) != names:
        raise Bad
    references = at.u32()
    places = [at.u32() for _ in range(at.count(4, ARGUMENTS))]
    values = variants.fields(at, ARGUMENTS)
    if len(places) != references or len(values) != references:
        raise Bad
    at.finish()
    for place, value in zip(places, values):
        if place >= count or value is None:
            raise Bad
        fields[place] = value
    whole = [variants.EMPTY if it is None else variants.by_value(it) for it in fields]
    return Params(dispid, riid, locale, flags, ids, whole, values)


def put_text(out: Writer, text: typing.Optional[str], align_8: bool = False) -> None:
    """Adds the pointee of a BSTR, whose referent is set also for None."""
    if align_8:
        out.align(8)
    if text is None:
        out.align(4).raw(_NO_TEXT)
    else:
        data = text.encode("utf-16-le", "replace")
        out.u32(len(data) // 2, len(data), len(data) // 2).raw(data)


_DONE_TAIL = (
    struct.pack("<HHIIIIII", 0, 0, orpc.SET, orpc.SET, orpc.SET, 0, 0, 0)
    + struct.pack("<I", 0)
    + 3 * _NO_TEXT
    + struct.pack("<III", 0, 0, 0)
)
_RESULT_SET = struct.pack("<II", orpc.SET, 0)


def reply_of(told: Told, given: Params, scripts: bool, align_8: bool) -> bytes:
    """The reply to an Invoke: pVarResult, EXCEPINFO, puArgErr, rgVarRef as it came, and the
    HRESULT."""
    if not told.code and not given.references and not align_8:
        field = variants.for_clients(told.field)
        return _RESULT_SET + field + bytes(-len(field) % 4) + _DONE_TAIL
    code, exception = told.code, bool(told.code) and bool(told.description)
    room = scripts and exception and not given.flags & _ZERO_EXCEPINFO
    if room and not _is_probe(given, told.code):
        code = DISP_E_EXCEPTION
    scode = (code_for_scripts(told.code) if scripts else told.code) if exception else 0
    out = Writer().u32(orpc.SET).align(8).raw(variants.for_clients(told.field)).align(4)
    # (each text has its referent set: Wine's proxy reads past its buffer otherwise)
    out.u16(0, 0).u32(orpc.SET, orpc.SET, orpc.SET, 0, 0, 0, scode)
    put_text(out, told.source if exception else None, align_8)
    put_text(out, told.description if exception else None, align_8)
    put_text(out, None, align_8)
    out.u32(told.argument if told.code else 0)
    variants.put_fields(out, given.references)
    if align_8:
        out.align(8)
    return out.u32(code).done()


def _is_probe(given: Params, code: int) -> bool:
    """Whether a host asks by a get without arguments if the member wants some: Python's do, and
    look at the code itself."""
    probes = (DISP_E_MEMBERNOTFOUND, DISP_E_PARAMNOTOPTIONAL)
    return given.flags & 0xFFFF == PROPERTYGET and not given.fields and code in probes


class Call:
    """An Invoke under way. Positions are those of rgvarg, in which the last argument is first."""

    def __init__(self, named: Named, given: Params, member: typing.Optional[Member]) -> None:
        self.named, self.given, self.member = named, given, member
        self.flags = given.flags & 0xFFFF
        if self.flags & PROPERTYPUTREF:  # of a value it is a put
            self.flags = self.flags & ~PROPERTYPUTREF | PROPERTYPUT
        self.is_put = bool(self.flags & PROPERTYPUT)
        # the first argument that no value of its declared type equals
        self.misfit, self.misfit_at = 0, -1

    def by_place(self) -> bool:
        """Whether all arguments except a put's new value are given by place."""
        if self.is_put:
            return self.given.named == [NEW_VALUE] and bool(self.given.fields)
        return not self.given.named

    def parameter_at(self, place: int) -> int:
        """The parameter of an argument, -1 for the new value."""
        if place >= len(self.given.named):
            return len(self.given.fields) - 1 - place
        dispid = self.given.named[place]
        return -1 if dispid == NEW_VALUE else dispid

    def declared_at(self, place: int) -> int:
        """The type that is declared for an argument, 0 if none is known."""
        if self.member is None:
            return 0
        parameter = self.parameter_at(place)
        if parameter == -1:
            return self.member.vt
        known = 0 <= parameter < len(self.member.parameters)
        return self.member.parameters[parameter].vt if known else 0

    def plain(self, place: int) -> bytes:
        """An argument as it is. Raises Wrong."""
        field = self.given.fields[place]
        if numbers.has_strangers(field):
            raise Wrong(DISP_E_BADVARTYPE, place)
        return field

    def converted(self, place: int, declared: int) -> bytes:
        """An argument as the declared type takes it. One that does not fit goes as it is, so that
        the server refuses what is wrong before it. Raises Wrong."""
        field = self.given.fields[place]
        if not declared or not numbers.is_misfit(field):
            return self.plain(place)
        try:
            return numbers.field_as(field, declared)
        except numbers.Misfit as misfit:
            if not self.misfit:
                self.misfit, self.misfit_at = misfit.code, place
            return self.plain(place)


class Wrong(Exception):
    """Returns the error of a call that is refused before a request to the store, with the
    argument's place."""

    def __init__(self, code: int, place: int) -> None:
        super().__init__(code)
        self.code, self.place = code, place


def index_of(field: bytes, scripts: bool, place: int) -> int:
    """An index of an array. Raises Wrong."""
    scalar = numbers.scalar_of(field)
    if scripts and scalar[0] in numbers.FLOATING:
        try:
            scalar = numbers.number_as(scalar[0], scalar[1], variants.VT_I4)
        except numbers.Misfit:
            pass
    number = numbers.whole_number(scalar)
    if number is not None:
        if not -(1 << 31) <= number < 1 << 31:
            raise Wrong(DISP_E_BADINDEX, place)
        return number
    # (EMPTY, NULL, CY, BSTR, ERROR, BOOL, DECIMAL)
    wrong = DISP_E_TYPEMISMATCH if scalar[0] in (0, 1, 6, 8, 10, 11, 14) else DISP_E_BADVARTYPE
    raise Wrong(wrong, place)


def read_reply(reply: bytes) -> Told:
    """The code, the index and the field of a reply."""
    _, code, index, _ = REPLY_HEAD.unpack_from(reply)
    if code:
        return Told(code, index)
    if len(reply) == 16:
        return Told(0)
    size = struct.unpack_from("<I", reply, 16)[0]
    return Told(0, 0, reply[24 : 24 + size])


class Dispatch:
    """The calls of IDispatch on objects of the store. `refresh` reads the library again."""

    def __init__(self, exporter: Exporter, refresh: typing.Callable[[], Steps[bool]]) -> None:
        self.exporter, self._refresh = exporter, refresh
        self._members: typing.Dict[typing.Tuple[int, int], typing.Dict[int, Member]] = {}
        self._of: typing.Any = None

    def face_guid(self, named: Named) -> bytes:
        """The interface that a request names, zeros for the default one."""
        if named.face >= 0xFFFD:
            return DEFAULT
        return self.exporter.interface_at(named.face).guid.bytes_le

    def member(self, named: Named, dispid: int) -> typing.Optional[Member]:
        """The member of an object's interface, if the library that was read has it."""
        library = self.exporter.library
        if self._of is not library:
            self._of, self._members = library, {}
        key = named.coclass, named.face
        found = self._members.get(key)
        if found is None:
            members = library.members(self.exporter.interface_of(named)).values()
            found = self._members[key] = {it.dispid: it for it in members}
        return found.get(dispid)

    def names(self, named: Named, at: Reader) -> Steps[bytes]:
        """GetIDsOfNames."""
        riid, names, locale = read_names(at)
        request = bytearray(ask_ids(named.number, names, self.face_guid(named), locale))
        request[28:44] = riid
        reply = yield bytes(request)
        code = code_of(reply)
        if code in (0, DISP_E_UNKNOWNNAME):
            ids = struct.unpack_from(f"<{len(names)}i", reply, 24)
        elif code == RPC_E_DISCONNECTED:
            raise Refused(code)
        else:
            ids = (-1,) * len(names)
        return Writer().u32(len(ids), *ids, code).done()

    def invoke(self, named: Named, given: Params) -> Steps[Told]:
        """Invoke."""
        scripts = self.exporter.settings.scripts
        member = None
        if given.fields:
            member = self.member(named, given.dispid)
            if member is None and (yield from self._refresh()):
                member = self.member(named, given.dispid)
        call = Call(named, given, None if member is None or member.is_method else member)
        try:
            told = yield from (
                self._element(call) if self._has_indices(call) else self._plain(call)
            )
        except Wrong as wrong:
            told = Told(wrong.code, wrong.place)
        if call.misfit and told.argument == call.misfit_at:
            if told.code in (DISP_E_TYPEMISMATCH, DISP_E_BADVARTYPE):
                told = told._replace(code=call.misfit)
        if told.code == RPC_E_DISCONNECTED:
            raise Refused(told.code)
        if told.code:
            return self.refusal(call, told)
        return told._replace(field=numbers.for_scripts(told.field)) if scripts else told

    @staticmethod
    def _has_indices(call: Call) -> bool:
        """Whether arguments after the parameters are indices of the array in a property."""
        member = call.member
        if member is None or not call.by_place():
            return False
        count = len(call.given.fields) - call.is_put
        return count > len(member.parameters) and bool(member.vt & ARRAY or member.vt == VT_VARIANT)

    def _plain(self, call: Call) -> Steps[Told]:
        """INVOKE, with all that is given."""
        given = call.given
        if self.exporter.settings.scripts and call.member is not None:
            places = range(len(given.fields))
            fields = [call.converted(i, call.declared_at(i)) for i in places]
        else:
            fields = [call.plain(i) for i in range(len(given.fields))]
        head = _CALL.pack(
            *(INVOKE, 0, call.named.number, given.dispid, self.face_guid(call.named), given.riid),
            *(given.locale, call.flags, 0, len(fields), len(given.named)),
        )
        if not fields and not given.named:
            return read_reply((yield head))
        parts = [head, padded(struct.pack(f"<{len(given.named)}i", *given.named))]
        parts += [variant_field(it) for it in fields]
        return read_reply((yield b"".join(parts)))

    def _element(self, call: Call) -> Steps[Told]:
        """GETELEM or PUTELEM. rgvarg has the last index first, as the store has."""
        given, member, first = call.given, call.member, int(call.is_put)
        assert member is not None
        scripts, count = self.exporter.settings.scripts, len(given.fields)
        indices = count - first - len(member.parameters)
        places = range(first + indices, count)
        arguments = [
            call.converted(i, call.declared_at(i)) if scripts else call.plain(i) for i in places
        ]
        found = [index_of(given.fields[i], scripts, i) for i in range(first, first + indices)]
        request = bytearray(
            ask_call(
                PUTELEM if call.is_put else GETELEM,
                *(call.named.number, given.dispid, call.flags, [], arguments),
                *(self.face_guid(call.named), given.locale),
            )
        )
        request[28:44] = given.riid
        request += indices_field(found)
        if call.is_put:
            declared = member.vt & ~ARRAY
            value = call.converted(0, declared) if scripts else call.plain(0)
            request += variant_field(value)
        told = read_reply((yield bytes(request)))
        if told.code and told.argument != NO_INDEX and told.argument < len(arguments):
            # the store has seen the parameters' arguments alone
            return told._replace(argument=told.argument + first + indices)
        if told.code in (DISP_E_BADVARTYPE, DISP_E_OVERFLOW) and call.is_put:
            return told._replace(argument=0)  # the store names no index for the new value
        return told

    def refusal(self, call: Call, told: Told) -> Told:
        """A refusal in words."""
        exporter, named = self.exporter, call.named
        source = exporter.coclass_at(named.coclass).name
        subject = f"{source} {named.number}"
        member = call.member or self.member(named, call.given.dispid)
        name = member.name if member is not None else ""
        argument = None
        index = told.argument if 0 <= told.argument < len(call.given.fields) else -1
        if index >= 0:
            argument = self._argument(call, member, index)
        text = describe(told.code, subject, name, argument)
        return Told(told.code, max(index, 0), variants.EMPTY, source, text)

    @staticmethod
    def _argument(call: Call, member: typing.Optional[Member], index: int) -> Argument:
        given = call.given.fields[index]
        if member is None:
            return Argument("", 0, given)
        parameter = call.parameter_at(index)
        if parameter == -1:
            return Argument("the new value", member.vt, given)
        if 0 <= parameter < len(member.parameters):
            found = member.parameters[parameter]
            return Argument(found.name, found.vt, given)
        return Argument("an index", 0, given)
