"""Locks, association groups, and what spoils a connection, by the lean client. `locks.py hold IPID`
holds a lock and waits."""
import os
import signal
import subprocess
import sys
import time

from oaut.wire import array_field
from oaut_dcom import verify
from tests.dcom.clients.lean import *

GRID = array_field(2, [(3, 0)], [1, 2, 3])
LOCKED, UNEXPECTED = 0x8002000D, 0x8000FFFF


def eventually(act, wanted):
    until = time.monotonic() + TIMEOUT
    while (got := act()) != wanted and time.monotonic() < until:
        time.sleep(0.02)
    return got == wanted


def hold(ipid):
    connection = Dce()
    hub = Proxy(connection.call, create(HUB).ipid)
    hub.get(7, argument(orpc.Standard(struct.unpack("<Q", ipid[8:])[0], 0, ipid)), "Grid")
    print("held", flush=True)
    time.sleep(TIMEOUT)


def locks():
    ref, hub = create(), create(HUB)
    back = argument(ref)
    one = Dce()
    item, its_hub = Proxy(one.call, ref.ipid), Proxy(one.call, hub.ipid)
    item.put(8, GRID)
    same, other = Dce(group=one.group), Dce()
    tell(
        "association groups",
        same.group == one.group != other.group,
        (one.group, same.group, other.group),
    )
    tell("an unknown group is a new one", Dce(group=0x12345678).group not in (0x12345678, 0))
    same_hub, other_hub, other_item = (
        Proxy(same.call, hub.ipid),
        Proxy(other.call, hub.ipid),
        Proxy(other.call, ref.ipid),
    )

    def put():
        return other_item.invoke(8, PUT, (GRID,), (-3,)).code

    tell("LOCK is 1", its_hub.get(7, back, "Grid") == 1)
    tell(
        "another program does not unlock", other_hub.invoke(8, 1, ("Grid", back)).code == UNEXPECTED
    )
    tell("nor put", put() == LOCKED)
    tell("another connection of the program unlocks", same_hub.get(8, back, "Grid") == 0)
    its_hub.get(7, back, "Grid")
    one.close()
    time.sleep(0.2)
    tell("it is locked while the program has a connection", put() == LOCKED)
    same.close()
    tell("it is free after the last one", eventually(put, 0))
    child = subprocess.Popen(
        [sys.executable, "-m", "tests.dcom.clients.locks", "hold", ref.ipid.hex()],
        stdout=subprocess.PIPE,
    )
    child.stdout.readline()
    tell("another process holds it", put() == LOCKED)
    os.kill(child.pid, signal.SIGKILL)
    child.wait()
    tell(
        "it is free after kill -9, and the object is there",
        eventually(put, 0) and other_item.get(1) == 0,
    )
    # a group is one user's
    ann = Dce(user="ann", group=other.group)
    try:
        Proxy(ann.call, ref.ipid).get(1)
        tell("the group of another user", False)
    except Fault as fault:
        tell("the group of another user", fault.args == ("fault", 5), fault)


def enumerators():
    hub = create(HUB)
    one = Dce()
    found = [Proxy(one.call, hub.ipid).get(-4) for _ in range(65)]
    unknown = unknown_of(hub.ipid)
    queried = Dce(iid=codes.IID_IREMUNKNOWN, group=one.group)
    made = [query(queried.call, unknown, it.ipid, codes.IID_IENUMVARIANT)[0][0] for it in found]
    tell("each has IEnumVARIANT", all(code == 0 for code, _ in made))

    rebound = Dce(iid=codes.IID_IENUMVARIANT, group=one.group)

    def following(ipid):
        try:
            return Reader(
                rebound.call(codes.IID_IENUMVARIANT, 3, ipid, Writer().raw(THIS).u32(1).done()), 8
            ).u32()
        except Fault as fault:
            return fault.args[1]

    tell(
        "of 65 enumerators the first has gone",
        following(made[0][1]) == 0x80010108 and following(made[1][1]) == 1,
    )


def spoiled():
    """What is spoiled on its way ends its connection, and does nothing."""

    def call(spoil):
        ref = create()
        connection = Dce(level=5)
        item = Proxy(connection.call, ref.ipid)
        item.put(1, 3)
        (whole,) = connection.packed(6, ref.ipid, invoke(1, PUT, (9,), (-3,)))
        try:
            spoil(connection, bytearray(whole))
            connection.receive()
            told = "a reply"
        except (Fault, ConnectionError) as error:
            told = str(error)
        connection.close()
        return told, Proxy(Dce().call, ref.ipid).get(1)

    def bit(at):
        def spoil(connection, whole):
            whole[at] ^= 1
            connection.s.sendall(whole)

        return spoil

    def twice(connection, whole):
        connection.s.sendall(whole)
        connection.receive()
        connection.s.sendall(whole)

    def bare(connection, whole):
        plain = whole[16:-24]
        connection.s.sendall(wire.HEADER.pack(5, 0, 0, 0x83, 0x10, 16 + len(plain), 0, 9) + plain)

    def lower(connection, whole):
        whole[-23] = 2
        connection.s.sendall(whole)

    rows = (
        ("a bit of the stub", bit(120), 3),
        ("a bit of the head", bit(22), 3),
        ("a bit of the signature", bit(-9), 3),
        ("a PDU sent twice", twice, 9),
    )
    rows += (("a call without a trailer", bare, 3), ("a trailer of a lower level", lower, 3))
    for name, spoil, wanted in rows:
        told, count = call(spoil)
        tell(
            name,
            count == wanted and ("gone" in told or "fault" in told or "reset" in told),
            (told, count),
        )


def trailers():
    """The verification trailer: what is in it has to be so."""
    ref = create()
    connection = Dce()

    def ask(*commands, number=None):
        stub = invoke(1, GET)
        stub += bytes(-len(stub) % 4) + verify.MAGIC
        for command, body in commands:
            stub += struct.pack("<HH", command, len(body)) + body
        try:
            return Answer(connection.call(IDISPATCH, 6, ref.ipid, stub)).code
        except Fault as fault:
            return fault.args[1]

    def header(opnum=6, more=0):
        return struct.pack(
            "<BBH4sIHH", 0, 0, 0, b"\x10\0\0\0", connection.call_id + 1 + more, 0, opnum
        )

    context = IDISPATCH + bytes(4) + wire.NDR
    bits = struct.pack("<I", 0)
    tell(
        "a verification trailer that is right",
        ask((1, bits), (2, context), (0x4003, header())) == 0,
    )
    tell("its header of another call", ask((0x4003, header(more=1))) == 5)
    tell("its header of another method", ask((0x4003, header(5))) == 5)
    tell("its context of another interface", ask((0x4002, bytes(20) + wire.NDR)) == 5)
    tell("header signing that was not negotiated", ask((0x4001, struct.pack("<I", 1))) == 5)
    tell("an unknown command that has to be processed", ask((0xC007, b"abcd")) == 5)
    tell("an unknown command", ask((0x4007, b"abcd")) == 0)
    tell("one that is cut", ask((1, bits)) == 5)


def passwords():
    """Guesses: after a few each one waits."""
    # the log has 20 lines a second, and what was spoiled before may have had them: the first guess
    # is to be in it
    time.sleep(1.5)
    # for some seconds, so that the pause is longer by then than what a busy machine takes for a try
    begun, tries = time.monotonic(), 0
    while tries < 8 or time.monotonic() - begun < 4:
        tries += 1
        try:
            create(user="ann", password="no")
        except (Fault, ConnectionError):
            pass
    try:
        create(user="ann")
        tell("the right password waits too", False)
    except Fault:
        tell("the right password waits too", True)
    tell("another user does not wait", create(HUB) is not None)
    until, there = time.monotonic() + 120, False
    while not there and time.monotonic() < until:
        try:
            create(HUB, user="ann")
            there = True
        except Fault:
            time.sleep(0.3)
    tell("it is let in a little later", there)


def binds():
    """A bind as Windows sends it, and binds that are none."""
    n64 = bytes.fromhex("33057171babe37498319b5dbef9ccc3601000000")
    features = bytes.fromhex("2c1cb76c129840450300000000000000") + struct.pack("<I", 1)
    forms = enumerate((wire.NDR, n64, features))
    body = struct.pack("<HHIBxH", 5840, 5840, 0, 3, 0) + b"".join(
        struct.pack("<HBx", i, 1) + IDISPATCH + bytes(4) + it for i, it in forms
    )
    s = socket.create_connection((HOST, PORT), timeout=TIMEOUT)
    s.sendall(wire.HEADER.pack(5, 0, 11, 7, 0x10, 16 + len(body), 0, 1) + body)
    back = s.recv(9000)
    got = wire.read(back).body
    at = 10 + struct.unpack_from("<H", got, 8)[0]
    at += -at % 4
    results = [struct.unpack_from("<HH", got, at + 4 + 24 * i) for i in range(got[at])]
    tell(
        "NDR, NDR64 and the features: accepted, refused, negotiated",
        results == [(0, 0), (2, 2), (3, 3)],
        results,
    )
    tell("header signing", back[3] & 4)
    s.close()
    rows = (
        ("big-endian", b"\x05\0\x0b\x03\0\0\0\0\0\x48\0\0\0\0\0\1" + bytes(56)),
        ("version 4", b"\x04\0\x0b\x03\x10\0\0\0\x48\0\0\0\1\0\0\0" + bytes(56)),
        ("a length below the head", b"\x05\0\x0b\x03\x10\0\0\0\x08\0\0\0\1\0\0\0"),
        ("a length above the fragment", b"\x05\0\x0b\x03\x10\0\0\0\xff\xff\0\0\1\0\0\0"),
        (
            "a token longer than the PDU",
            b"\x05\0\x0b\x03\x10\0\0\0\x48\0\xff\0\1\0\0\0" + bytes(56),
        ),
        ("a request before a bind", wire.HEADER.pack(5, 0, 0, 3, 0x10, 24, 0, 1) + bytes(8)),
        (
            "an alter_context before a bind",
            wire.HEADER.pack(5, 0, 14, 3, 0x10, 28, 0, 1) + bytes(12),
        ),
        ("a response", wire.HEADER.pack(5, 0, 2, 3, 0x10, 24, 0, 1) + bytes(8)),
        (
            "17 contexts",
            wire.HEADER.pack(5, 0, 11, 3, 0x10, 16 + 12 + 17 * 44, 0, 1)
            + struct.pack("<HHIBxH", 5840, 5840, 0, 17, 0)
            + bytes(17 * 44),
        ),
    )
    for name, data in rows:
        s = socket.create_connection((HOST, PORT), timeout=TIMEOUT)
        s.sendall(data)
        try:
            tell(f"{name}: the connection ends", s.recv(100) == b"")
        except ConnectionError:
            tell(f"{name}: the connection ends", True)
        s.close()


def long_calls():
    """A call that is longer than a call may be, and one by somebody without a user."""
    ref = create()
    connection = Dce()
    try:
        for _ in range(5):
            for it in connection.packed(6, ref.ipid, bytes(1_000_000)):
                flags = it[3] & ~2 if _ else it[3] & ~2
                connection.s.sendall(it[:3] + bytes([flags]) + it[4:])
        connection.receive()
        tell("a call of 5 MB", False)
    except (Fault, ConnectionError):
        tell("a call of 5 MB ends its connection", True)
    nobody = Dce(port=RESOLVER, iid=codes.IID_IOBJECTEXPORTER, level=1)
    nobody.s.settimeout(TIMEOUT)
    try:
        nobody.call(None, 2, None, bytes(17_000))
        tell("17,000 bytes without a user", False)
    except (Fault, ConnectionError):
        tell("17,000 bytes without a user end the connection", True)
    tell("others are served", Proxy(Dce().call, ref.ipid).get(1) == 0)


def main():
    locks()
    enumerators()
    spoiled()
    trailers()
    binds()
    long_calls()
    passwords()


if __name__ == "__main__":
    hold(bytes.fromhex(sys.argv[2])) if sys.argv[1:2] == ["hold"] else main()
