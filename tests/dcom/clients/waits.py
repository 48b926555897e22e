"""Waits for changes, by the lean client, over a store of clients/com/tests/demo.idl: `waits.py`, or
`waits.py none` before a server without --watch."""
import sys

from tests.dcom.clients.at_once import numbered, replies
from tests.dcom.clients.lean import *

SHELF = uuid.UUID("11223344-5566-7788-99AA-BBCCDDEEFF05").bytes_le
WAIT, LONG = 13, 600_000
# a call's number, by which the reply to a wait is found
FIRST, SECOND = 500, 501


def begin(connection, call_id, hub, milliseconds):
    """Sends a wait, and does not stay for its reply."""
    connection.s.sendall(
        b"".join(numbered(connection, call_id, 6, hub.ipid, invoke(WAIT, METHOD, (milliseconds,))))
    )


def one_after_another():
    ref, other = create(), create(SHELF)
    connection, writer = Dce(), Dce()
    hub = Proxy(connection.call, create(HUB).ipid)
    item, shelf = Proxy(writer.call, ref.ipid), Proxy(writer.call, other.ipid)
    number, second = (hub.get(4, argument(it)) for it in (ref, other))
    tell("its name", hub.ids("waitforchange") == ([WAIT], 0))
    tell("the first wait begins", hub.get(WAIT, 0) == -1)
    tell("there is no change", hub.get(WAIT, 20) == 0)
    item.put(1, 5)
    tell("a put that was before the wait", hub.get(WAIT, LONG) == number)
    shelf.put(1, 5)
    item.put(1, 6)
    tell("changes one after another", [hub.get(WAIT, LONG) for _ in range(2)] == [second, number])
    items = Proxy(connection.call, hub.get(10, "Item").ipid)
    tell("the first wait of a coclass", items.get(WAIT, 0) == -1)
    shelf.put(1, 6)
    item.put(1, 7)
    tell("a coclass's changes alone", items.get(WAIT, LONG) == number)
    tell("and all", [hub.get(WAIT, LONG) for _ in range(2)] == [second, number])
    tell("nothing more", items.get(WAIT, 0) == hub.get(WAIT, 0) == 0)
    made = hub.get(4, argument(create()))
    tell("a new object", hub.get(WAIT, LONG) == made)
    for given, code in (
        (-1, codes.DISP_E_OVERFLOW),
        (1 << 31, codes.DISP_E_OVERFLOW),
        ("x", codes.DISP_E_TYPEMISMATCH),
    ):
        tell(f"{given} milliseconds", hub.invoke(WAIT, METHOD, (given,)).code == code)
    tell("no milliseconds", hub.invoke(WAIT, METHOD, ()).code == codes.DISP_E_BADPARAMCOUNT)


def at_once():
    """A wait keeps nobody waiting, of its connection neither; each change ends one wait."""
    ref, other = create(), create()
    connection, writer = Dce(), Dce()
    hub, item = Proxy(connection.call, create(HUB).ipid), Proxy(connection.call, ref.ipid)
    numbers = [hub.get(4, argument(it)) for it in (ref, other)]
    hub.get(WAIT, 0)
    begin(connection, FIRST, hub, LONG)
    begin(connection, SECOND, hub, LONG)
    connection.s.sendall(b"".join(numbered(connection, 502, 6, ref.ipid, invoke(1, GET))))
    found, order = replies(connection, 1)
    tell("a get while two wait", order == [502] and Answer(found[502]).value == 0, order)
    connection.call_id = 600
    Proxy(writer.call, ref.ipid).put(1, 8)
    found, order = replies(connection, 1)
    tell(
        "a change ends the first wait",
        order == [FIRST] and Answer(found[FIRST]).value == numbers[0],
        order,
    )
    Proxy(writer.call, other.ipid).put(1, 8)
    found, order = replies(connection, 1)
    tell(
        "the next one ends the second",
        order == [SECOND] and Answer(found[SECOND]).value == numbers[1],
        order,
    )
    connection.call_id = 700
    tell("and the connection is as before", item.get(1) == 8)


def gone():
    """A connection of the program ends while it waits: the change is not lost to another one."""
    ref = create()
    one = Dce()
    other = Dce(group=one.group)
    place = create(HUB).ipid
    hub, item = Proxy(other.call, place), Proxy(other.call, ref.ipid)
    number = hub.get(4, argument(ref))
    tell("the first wait begins", hub.get(WAIT, 0) == -1)
    begin(one, FIRST, Proxy(one.call, place), LONG)
    one.s.sendall(b"".join(numbered(one, 502, 6, ref.ipid, invoke(1, GET))))
    replies(one, 1)
    one.close()
    for _ in range(3):  # the server has seen the end once it has had these turns
        item.get(1)
    item.put(1, 9)
    tell("the other one is told", hub.get(WAIT, LONG) == number)


def none():
    hub = Proxy(Dce().call, create(HUB).ipid)
    got = hub.invoke(WAIT, METHOD, (0,))
    wanted = (
        "oaut, WaitForChange: the server was not reached; nothing was sent "
        "(RPC_S_SERVER_UNAVAILABLE, 0x800706BA)"
    )
    tell(
        "without --watch",
        got.code == codes.DISP_E_EXCEPTION or got.code == 0x800706BA,
        hex(got.code),
    )
    tell("what is told", wanted in got.texts, got.texts)


if __name__ == "__main__":
    if sys.argv[1:] == ["none"]:
        none()
    else:
        one_after_another()
        at_once()
        gone()
