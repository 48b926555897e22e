"""What a read-only socket refuses, and what those who watch are told, by docs/operations/gateway.md
alone.

`Told().lines(asked)` has a line for each request with its reply, in their order, as json.loads
gives it."""
import json
import struct
import uuid

from tests.support import wire  # (which finds the package)
from tests.support.codes import BAD_STUB, MEMBER_NOT_FOUND
from tests.support.wire import oaut

assert wire.oaut is oaut
(
    CREATE,
    RELEASE,
    GETIDS,
    INVOKE,
    GETELEM,
    PUTELEM,
    REDIM,
    LOCK,
    UNLOCK,
    TYPEINFO,
    LIST,
    REPLACE,
) = range(1, 13)
KINDS = {
    CREATE: "create",
    RELEASE: "release",
    INVOKE: "put",
    PUTELEM: "element",
    REDIM: "redimension",
    REPLACE: "library",
}
SHOWN, KEY_SHOWN = 65_536, 4_096
OWN = 0xFFFF_FFFE  # the gateway's own number
# how struct names the number of a value
NUMBERS = {
    16: "b",
    17: "B",
    2: "h",
    18: "H",
    3: "i",
    22: "i",
    19: "I",
    23: "I",
    10: "I",
    20: "4xq",
    21: "4xQ",
}


def opcode_of(body):
    return struct.unpack_from("<H", body, 4)[0]


def reads(body):
    """Whether a body that comes by a read-only socket is passed on."""
    if len(body) < 8:
        return True
    opcode = opcode_of(body)
    if opcode == INVOKE:
        return len(body) < 56 or not struct.unpack_from("<H", body, 52)[0] & (
            oaut.PROPERTYPUT | oaut.PROPERTYPUTREF
        )
    return opcode in (GETIDS, GETELEM, TYPEINFO, LIST) or (opcode == REPLACE and len(body) == 8)


def passed(body):
    """What the server gets of a body that comes by a read-only socket."""
    if len(body) < 8:
        return body
    return body[:6] + bytes(2) + body[8:] if reads(body) else body[:4] + b"\0\0\xff\xff" + body[8:]


def refused(body):
    """The reply of a read-only socket to a body that may change something."""
    return struct.pack(
        "<IIII", struct.unpack_from("<I", body)[0], MEMBER_NOT_FOUND, oaut.NO_INDEX, 0
    )


def unpatched(body, reply):
    """What the server answered where this is what came by a read-only socket."""
    if reads(body) or reply != refused(body):
        return reply
    return struct.pack("<IIII", struct.unpack_from("<I", body)[0], BAD_STUB, oaut.NO_INDEX, 0)


def guid(data):
    return str(uuid.UUID(bytes_le=bytes(data)))


def value_of(field):
    vt = struct.unpack_from("<H", field, 8)[0]
    if vt in NUMBERS:
        return {"type": vt, "value": struct.unpack_from("<" + NUMBERS[vt], field, 20)[0]}
    if vt in (0, 1):
        return {"type": vt, "value": None}
    if vt == 11:
        return {"type": vt, "value": field[20:22] != b"\0\0"}
    if vt == 8:
        size = struct.unpack_from("<I", field, 28)[0] if field[20:24] != bytes(4) else 0xFFFF_FFFF
        if size == 0xFFFF_FFFF:
            return {"type": vt, "value": None}
        if size % 2 == 0:
            # (json makes one character of two surrogates, and leaves one alone)
            return {
                "type": vt,
                "value": json.loads(
                    '"'
                    + "".join(
                        f"\\u{it:04x}" for it in struct.unpack_from(f"<{size // 2}H", field, 36)
                    )
                    + '"'
                ),
            }
    return {"type": vt, "wire": field.hex()}


class Told:
    """The lines of one gateway: numbers go on from server to server."""

    def __init__(self, values=True, number=1, classes=None):
        self.values, self.number = values, number
        self.classes = {} if classes is None else classes

    def line(self, client, body, reply):
        """The line of a request with its reply; none where it changes nothing, or was refused."""
        if len(body) < 8 or len(reply) < 16 or struct.unpack_from("<I", reply, 4)[0]:
            return None
        opcode = opcode_of(body)
        if client == OWN and opcode == LIST:
            self.classes = {number: str(of) for number, of in oaut.read_objects(reply[16:])}
        if opcode not in KINDS or (
            opcode == INVOKE and not struct.unpack_from("<H", body, 52)[0] & oaut.PROPERTYPUT
        ):
            return None
        found = {"seq": self.number, "kind": KINDS[opcode]}
        self.number += 1
        at = oaut.records.Fields(body, 8)
        if opcode == REPLACE:
            size, _ = at.take("II")
            found["bytes"] = size
            if self.values and size <= SHOWN:
                found["text"] = body[16 : 16 + size].decode()
            return found
        if opcode == CREATE:
            number = struct.unpack_from("<I", reply, 16)[0]
            self.classes[number] = guid(body[8:24])
        else:
            number = at.take("I")[0]
        found |= {"object": number, "class": self.classes[number]}
        if opcode == RELEASE:
            del self.classes[number]
        if opcode in (INVOKE, PUTELEM, REDIM):
            self.call(found, opcode, at)
        return found

    def call(self, found, opcode, at):
        member, interface, _, _, _, _, count, names = at.take("i16s16sIHHII")
        if any(interface):
            found["interface"] = guid(interface)
        found["member"] = member
        named = at.take(f"{names}i")
        at.pad()
        fields = [at.variant() for _ in range(count)]
        new = named.index(oaut.NEW_VALUE) if opcode == INVOKE else None
        key = []
        for place in reversed(range(count)):
            if place == new:
                continue
            name = {"name": named[place]} if place < names else {}
            key.append(
                name
                | (
                    value_of(fields[place])
                    if len(fields[place]) <= KEY_SHOWN
                    else {"bytes": len(fields[place])}
                )
            )
        if key:
            found["key"] = key
        if opcode == REDIM:
            found["elements"], found["lower"] = at.take("Ii")
            return
        if opcode == PUTELEM:
            found["index"] = at.integers()
        value = at.variant() if opcode == PUTELEM else fields[new]
        found["bytes"] = len(value)
        if self.values and len(value) <= SHOWN:
            found |= value_of(value)


def answered(asked, told):
    """Triples of a client, a body and its reply, of what a server was asked and told, in their
    order."""
    replies = [it for it in told if it[1]]
    place = 0
    for client, what in asked:
        if place == len(replies):
            return
        if isinstance(what, bytes):
            yield client, what, replies[place][1][4:]
            place += 1
        else:
            place += what


def expected(sessions):
    """The lines that a gateway tells of the servers that it had one after another."""
    told, found = Told(), []
    for place, (asked, heard) in enumerate(sessions):
        if place:
            found.append({"restart": place + 1, "next": told.number})
        found += filter(None, (told.line(*it) for it in answered(asked, heard)))
    return found
