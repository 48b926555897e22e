"""Several calls at once on one connection, as COM's own runtimes make them over one association, by
the lean client."""
import threading

from tests.dcom.clients.lean import *


def text_of(number):
    return f"{number} " + "x" * (number % 7)


def numbered(connection, call_id, *call):
    """The PDUs of a call with a number of the test's own. A signature counts, so they have to be
    sent in this order."""
    connection.call_id = call_id - 1
    return connection.packed(*call)


class _Unsigned:
    """Signs nothing: for PDUs that are signed later."""

    @staticmethod
    def mac(message):
        return bytes(16)


def unsigned(connection, *call):
    """The same, whose signatures are zeros."""
    connection.out, keeps = _Unsigned(), connection.out
    try:
        return numbered(connection, *call)
    finally:
        connection.out = keeps


def replies(connection, count):
    """The stubs of the next replies by their call's number, and the numbers in their order."""
    found, order, parts = {}, [], {}
    while len(order) < count:
        number, flags, stub = connection.fragment()
        parts[number] = parts.get(number, b"") + stub
        if flags & 2:
            found[number] = parts.pop(number)
            order.append(number)
    return found, order


def many(level):
    ref = create()
    connection = Dce(level=level)
    item = Proxy(connection.call, ref.ipid)
    item.put(2, "tea")
    numbers = list(range(1_000, 1_400))
    asked = b"".join(
        b"".join(numbered(connection, it, 6, ref.ipid, invoke(2 if it % 2 else 1, GET)))
        for it in numbers
    )
    sender = threading.Thread(target=connection.s.sendall, args=(asked,))
    sender.start()
    found, order = replies(connection, len(numbers))
    sender.join()
    right = all(Answer(found[it]).value == ("tea" if it % 2 else 0) for it in numbers)
    tell(
        f"level {level}: 400 calls without waiting, each reply of its call",
        right and sorted(order) == numbers,
    )
    connection.call_id = 9_000
    tell(f"level {level}: and one after them", item.get(2) == "tea")
    # a put and a get behind it are executed in this order
    asked = [
        it
        for i in range(50)
        for it in numbered(connection, 20_000 + 2 * i, 6, ref.ipid, invoke(1, PUT, (i,), (-3,)))
    ]
    connection.s.sendall(b"".join(asked))
    found, _ = replies(connection, 50)
    connection.call_id = 30_000
    tell(
        f"level {level}: puts are executed in their order",
        not any(Answer(it).code for it in found.values()) and item.get(1) == 49,
    )


def overtaken():
    """A call that the store need not be asked for does not wait for one that it is."""
    ref = create()
    connection, overtakes = Dce(), 0
    for i in range(20):
        first = numbered(connection, 100 + 2 * i, 6, ref.ipid, invoke(1, GET))
        connection.s.sendall(b"".join(first + numbered(connection, 101 + 2 * i, 3, ref.ipid, THIS)))
        found, order = replies(connection, 2)
        if (
            Answer(found[100 + 2 * i]).value != 0
            or struct.unpack_from("<I", found[101 + 2 * i], 8)[0] != 1
        ):
            tell("a reply of another call", False, found)
        overtakes += order == [101 + 2 * i, 100 + 2 * i]
    tell("replies come in the order of completion", overtakes > 0, overtakes)


def woven():
    """Fragments of two calls, in turns, and a call between them."""
    ref = create()
    connection = Dce(level=5, most=1432)
    texts = {7: "a" * 4_000, 8: "b" * 5_000}
    # (each fragment is signed with the next number, so they are made in the order in which they are
    # sent)
    halves = {
        it: unsigned(
            connection, it, 6, ref.ipid, invoke(2 if it == 7 else 7, PUT, (texts[it],), (-3,))
        )
        for it in texts
    }
    order = (
        [it for pair in zip(*halves.values()) for it in pair]
        + halves[7][len(halves[8]) :]
        + halves[8][len(halves[7]) :]
    )
    middle = len(order) // 2
    for place, it in enumerate(order):
        connection.s.sendall(it[:-16] + connection.out.mac(it[:-16]))
        if place == middle:
            connection.s.sendall(b"".join(numbered(connection, 9, 6, ref.ipid, invoke(1, GET))))
    found, _ = replies(connection, 3)
    connection.call_id = 50
    item = Proxy(connection.call, ref.ipid)
    tell(
        "fragments of two calls in turns",
        not any(Answer(it).code for it in found.values())
        and (item.get(2), item.get(7)) == (texts[7], texts[8]),
    )


def large():
    """Large replies at once: more bytes than the sockets have room for."""
    ref = create()
    connection = Dce()
    item = Proxy(connection.call, ref.ipid)
    item.put(2, "y" * 200_000)
    asked = b"".join(
        b"".join(numbered(connection, it, 6, ref.ipid, invoke(2, GET))) for it in range(100, 130)
    )
    connection.s.sendall(asked)
    time.sleep(0.5)
    found, _ = replies(connection, 30)
    tell(
        "30 replies of 400,000 bytes",
        all(Answer(it).value == "y" * 200_000 for it in found.values()),
    )


def ends():
    """What calls at once may not do: it ends the connection, and nothing is left of it."""
    ref = create()

    def told(*pdus):
        connection = Dce(level=5)
        try:
            for flags, it in pdus:
                (whole,) = unsigned(connection, it, 6, ref.ipid, invoke(1, GET))
                whole = whole[:3] + bytes([flags | 0x80]) + whole[4:-16]
                connection.s.sendall(whole + connection.out.mac(whole))
            return connection.fragment()[0]
        except (Fault, ConnectionError) as error:
            return (
                "ends"
                if isinstance(error, ConnectionError) or error.args == ("gone",)
                else error.args
            )

    tell("a second first fragment of a call", told((1, 5), (1, 5)) == "ends")
    tell("a fragment of no call", told((0, 5)) == "ends")
    tell("a last fragment of another call", told((1, 5), (2, 6)) == "ends")
    tell("five calls in fragments", told(*[(1, it) for it in range(5)]) == "ends")
    tell(
        "four calls in fragments, and one that is whole",
        told(*[(1, it) for it in range(4)], (3, 77)) == 77,
    )
    tell("others are served", Proxy(Dce().call, ref.ipid).get(1) == 0)


if __name__ == "__main__":
    for level in (5, 6):
        many(level)
    overtaken()
    woven()
    large()
    ends()
