"""Requests read from their bytes, by docs/reference/records.md and docs/reference/wire.md alone,
and answered by the model: what the server has to reply to any body at all.

`Answering().reply(body)` is the reply to a body, refused or not; its `model` has the objects that
are there then.
"""
import struct
import uuid

from tests.support import store, wire
from tests.support.codes import BAD_INDEX, BAD_STUB, BAD_VAR_TYPE, UNKNOWN_INTERFACE
from tests.support.model import BOOL, BSTR, DECIMAL, LIBRARY, SCALARS, VARIANT
from tests.support.model import Array as ArrayValue
from tests.support.model import Model, Refusal, first_library
from tests.support.wire import ARRAY, CELLS, oaut
from tests.support.worked import WIDER, wider_library

(
    CREATE,
    RELEASE,
    GETIDS,
    INVOKE,
    GETELEM,
    PUTELEM,
    REDIM,
    LOCK,
    UNLOCK,
    TYPEINFO,
    LIST,
    REPLACE,
) = range(1, 13)
CALLS = (INVOKE, GETELEM, PUTELEM, REDIM, LOCK, UNLOCK)
# how many bytes a number of a type has on the wire, and how struct names it
FORMS = {**store.NUMBERS, BOOL: "H"}
VOID = 24
LIBRARIES = {LIBRARY: first_library, WIDER: wider_library}


class Broken(Exception):
    """Bytes that keep no layout: bad stub data."""


class BadVarType(Exception):
    """A field whose type is outside the profile."""


class Bytes:
    """A cursor over bytes, whose places are counted from their first one."""

    def __init__(self, data):
        self.data, self.place = data, 0

    def take(self, count):
        start, self.place = self.place, self.place + count
        if self.place > len(self.data):
            raise Broken
        return self.data[start : self.place]

    def align(self, unit):
        self.take(-self.place % unit)

    def numbers(self, form):
        return struct.unpack("<" + form, self.take(struct.calcsize("<" + form)))

    def number(self, form):
        """A primitive of a field, at a multiple of its own size."""
        self.align(struct.calcsize("<" + form))
        return self.numbers(form)[0]

    def ends(self):
        need(self.place == len(self.data))


def need(fact):
    if not fact:
        raise Broken


# --- variant fields


def is_type(vt):
    """Whether a value can have this type."""
    return vt - ARRAY in CELLS if vt & ARRAY else vt in SCALARS


def text(at):
    maximum, count, units = (at.number("I") for _ in range(3))
    if count == store.NO_TEXT and maximum == units == 0:
        return None
    need(maximum == units == (count + 1) // 2 and count <= store.TEXT_LIMIT)
    return at.take(2 * units)[:count]


def decimal(at):
    at.align(8)
    _, scale, sign, high, low = at.numbers("HBBIQ")
    need(scale <= 28 and sign in (0, 0x80))
    return scale, sign, high << 64 | low


def arm(at, vt):
    """The content of a scalar in its structure; of a text whether it has a pointee."""
    if vt == DECIMAL:
        return decimal(at)
    if vt == BSTR:
        return at.number("I") != 0
    found = at.number(FORMS[vt]) if vt in FORMS else None
    return 0xFFFF if vt == BOOL and found else found


def front(at):
    """The type of a wireVARIANT, and what stands as its discriminant."""
    at.align(8)
    _, _, vt, _, _, _, discriminant = at.numbers("IIHHHHI")
    return vt, discriminant


def scalar(at, vt, discriminant):
    need(vt in SCALARS and discriminant == vt)
    found = arm(at, vt)
    if vt == BSTR:
        found = text(at) if found else None
    return vt, found


def array(at, vt):
    """An array from its first referent on."""
    need(at.number("I") and at.number("I"))
    maximum, dimensions = at.number("I"), at.number("H")
    at.numbers("HII")  # fFeatures, cbElements, cLocks
    kind, size = at.number("I"), at.number("I")
    at.number("I")  # the pointer to the data
    need(maximum == dimensions and 1 <= dimensions <= 16 and kind == CELLS[vt][0])
    bounds = [at.numbers("Ii") for _ in range(dimensions)]
    count = store.cells_of(bounds)
    need(count == size == at.number("I") and count <= store.CELL_LIMIT)
    if vt in (BSTR, VARIANT):
        there = [at.number("I") != 0 for _ in range(count)]
        if vt == BSTR:
            cells = [(vt, text(at) if it else None) for it in there]
        else:
            cells = [scalar(at, *front(at)) if it else (0, None) for it in there]
    else:
        cells = [(vt, arm(at, vt)) for _ in range(count)]
    return ArrayValue(vt, bounds, cells)


def value(data):
    """The value that the bytes of a field spell."""
    try:
        at = Bytes(data)
        vt, discriminant = front(at)
        if vt & ARRAY:
            need(is_type(vt) and discriminant in (ARRAY, vt))
            found = array(at, vt - ARRAY)
        else:
            found = scalar(at, vt, discriminant)
        at.ends()
        return found
    except Broken:
        if len(data) >= 20 and not is_type(struct.unpack_from("<H", data, 8)[0]):
            raise BadVarType from None
        raise


# --- requests


def guid(at):
    return uuid.UUID(bytes_le=at.take(16))


def field(at):
    """The bytes of a variant field."""
    count, _ = at.numbers("II")
    found = at.take(count)
    at.align(8)
    return found


def name(at):
    count, _ = at.numbers("II")
    units = at.numbers(f"{count}H") if count <= len(at.data) else need(False)
    at.align(8)
    return "".join(map(chr, units))


def numbers(at, count):
    found = list(at.numbers(f"{count}i"))
    at.align(8)
    return found


def call(at):
    of, dispid = at.numbers("Ii")
    interface, riid = guid(at), guid(at)
    _, flags, _, count, named = at.numbers("IHHII")
    need(count <= 32 and named <= 32)
    named = numbers(at, named)
    return {
        "object": of,
        "interface": interface,
        "riid": bool(riid.int),
        "dispid": dispid,
        "flags": flags,
        "named": named,
        "arguments": [field(at) for _ in range(count)],
    }


def indices(at):
    count, _ = at.numbers("II")
    need(count <= 16)
    return numbers(at, count)


def values(fields):
    """The values of fields. One that is broken goes before each whose type is bad, of which the
    first one is told."""
    found, bad = [], None
    for index, data in enumerate(fields):
        try:
            found.append(value(data))
        except BadVarType:
            bad = index if bad is None else bad
    return found, bad


class Answering:
    """What a server replies, request by request. Of the texts of libraries it knows its own and a
    wider one: any other is taken for none."""

    def __init__(self):
        self.model = Model()

    def reply(self, body):
        if len(body) < 8:
            return struct.pack("<IIII", 0, BAD_STUB, oaut.NO_INDEX, 0)
        tag, opcode = struct.unpack_from("<IH", body)
        try:
            fields = self.act(opcode, body)
        except Broken:
            return struct.pack("<IIII", tag, BAD_STUB, oaut.NO_INDEX, 0)
        except Refusal as refusal:
            return (
                struct.pack(
                    "<IIII",
                    tag,
                    refusal.code,
                    oaut.NO_INDEX if refusal.index is None else refusal.index,
                    0,
                )
                + refusal.fields
            )
        return struct.pack("<IIII", tag, 0, oaut.NO_INDEX, 0) + fields

    def forget_locks(self):
        """Locks last for a session."""
        for _, cells in self.model.objects.values():
            for it in cells.values():
                if isinstance(it, ArrayValue):
                    it.locks = 0

    def act(self, opcode, body):
        model, at = self.model, Bytes(body)
        at.take(8)
        if opcode == CREATE:
            of = guid(at)
            at.ends()
            return model.create(of)
        if opcode == RELEASE:
            of, _ = at.numbers("II")
            at.ends()
            return model.release(of)
        if opcode == LIST:
            at.ends()
            return model.listing()
        if opcode == TYPEINFO:
            index, _ = at.numbers("II")
            at.ends()
            return described(model.library, index)
        if opcode == GETIDS:
            of, _ = at.numbers("II")
            interface, riid = guid(at), guid(at)
            _, count = at.numbers("II")
            need(1 <= count <= 17)
            names = [name(at) for _ in range(count)]
            at.ends()
            model.interface(of, interface)
            if riid.int:
                raise Refusal(UNKNOWN_INTERFACE)
            return model.ids(of, interface, names)
        if opcode == REPLACE:
            count, _ = at.numbers("II")
            new = at.take(count)
            at.align(8)
            at.ends()
            return model.replace(LIBRARIES[new]() if new in LIBRARIES else None)
        need(opcode in CALLS)
        asked = call(at)
        places = indices(at) if opcode in (GETELEM, PUTELEM) else None
        new = field(at) if opcode == PUTELEM else None
        bound = at.numbers("Ii") if opcode == REDIM else None
        at.ends()
        found, bad = values(asked["arguments"] + ([new] if opcode == PUTELEM else []))
        if bad is not None:
            raise Refusal(BAD_VAR_TYPE, bad if bad < len(asked["arguments"]) else None)
        if opcode == PUTELEM:
            new = found.pop()
        asked["arguments"] = found
        acts = {
            INVOKE: lambda: model.invoke(asked),
            GETELEM: lambda: model.get_element(asked, places),
            PUTELEM: lambda: model.put_element(asked, places, new),
            REDIM: lambda: model.redim(asked, bound),
            LOCK: lambda: model.lock(asked, 1),
            UNLOCK: lambda: model.lock(asked, -1),
        }
        return acts[opcode]()


# --- descriptions


def parameter_of(it):
    default = None if it.default is None else wire.scalar(*it.default)
    return wire.parameter(
        it.vt, 1 | 0x10 * it.optional | 0x20 * (it.default is not None), it.name, default
    )


def forms_of(dispid, member):
    """The entries of a member: a property has one, or one for each of its forms where it has
    parameters."""
    parameters = [parameter_of(it) for it in member.parameters]
    if member.is_plain():
        return [wire.member(dispid, 0, "put" not in member.forms, member.vt, member.name)]
    if member.method:
        return [
            wire.member(
                dispid, 1, 0, VOID if member.vt is None else member.vt, member.name, parameters
            )
        ]
    value = wire.parameter(member.vt, 1, "Value")
    forms = {
        "get": wire.member(dispid, 2, 0, member.vt, member.name, parameters),
        "put": wire.member(dispid, 4, 0, VOID, member.name, [*parameters, value]),
    }
    return [forms[it] for it in ("get", "put") if it in member.forms]


def described(library, index):
    """The description of an interface, or of a coclass behind them."""
    faces, classes = list(library.interfaces), list(library.classes)
    if index < len(faces):
        name, _ = library.interfaces[faces[index]]
        return wire.interface(
            faces[index].bytes_le,
            name,
            [form for it in library.in_order(faces[index]) for form in forms_of(*it)],
        )
    if index >= len(faces) + len(classes):
        raise Refusal(BAD_INDEX)
    guid = classes[index - len(faces)]
    name, offered, default = library.classes[guid]
    return (
        struct.pack("<II", 5, len(offered))
        + guid.bytes_le
        + wire.string(name)
        + b"".join(struct.pack("<II", it == default, faces.index(it)) for it in offered)
    )
