"""A session with every kind of event, what it leaves behind each of its groups, and which calls of
the system its commits are."""
import struct
import uuid

from oaut import REDIM, ask_call, ask_create
from tests.support import store, wire
from tests.support.calls import text_held
from tests.support.codes import E_FAIL, WRITE_FAULT
from tests.support.running import FULL_TEXT, cannot, fault
from tests.support.stores import CLASS, CREATED_1, FACE, get, got, put, put_of

COMMIT = ["write", "sync", "write", "sync"]
# of a file that is opened: its lock and a sync; of a store on it: a sync, the first byte, the
# selector and the head; then all else is read
OPENED = [("lock",), ("sync",)]
OPENING = [*OPENED, ("sync",), ("read", 0, 1), ("read", 4096, 1), ("read", 8192, 32)]
GRID = wire.array(wire.I2, [(2, -1), (3, 5)], range(1, 7))
HI = b"H\0i\0"


def cell(dispid):
    """The image of a cell's name in object 1."""
    return struct.pack("<I", 1) + FACE + struct.pack("<iH", dispid, 0)


# of each request: its line, its reply, and its event
SESSION = [
    (
        wire.line(1, ask_create(uuid.UUID(bytes_le=CLASS))),
        wire.reply(1, fields=struct.pack("<II", 1, 0)),
        CREATED_1,
    ),
    (put(2, 7), wire.reply(2), put_of(7)),
    (
        wire.put(3, 1, 2, wire.scalar(wire.BSTR, HI)),
        wire.reply(3),
        b"\3" + cell(2) + struct.pack("<HI", 8, 4) + HI,
    ),
    (
        wire.put(4, 1, 8, GRID),
        wire.reply(4),
        b"\3" + cell(8) + struct.pack("<HHIiIi6h", 0x2002, 2, 2, -1, 3, 5, *range(1, 7)),
    ),
    (get(5), got(5, 7), b""),
    (
        wire.line(6, ask_call(REDIM, 1, 8, 2, (), ()) + struct.pack("<Ii", 3, 10)),
        wire.reply(6),
        b"\5" + cell(8) + struct.pack("<Ii", 3, 10),
    ),
    (put(7, 8), wire.reply(7), put_of(8)),
    (get(8), got(8, 8), b""),
    (get(9), got(9, 8), b""),
    (wire.release(10, 1), wire.reply(10), b"\2" + struct.pack("<I", 1)),
]
LINES, ANSWERS = (b"".join(it[part] for it in SESSION) for part in (0, 1))
START = bytes(store.formatted(FULL_TEXT))


def opens(made):
    """Whether these calls open a store and change nothing."""
    return made[: len(OPENING)] == OPENING and all(it[0] == "read" for it in made[len(OPENING) :])


def groups_with_events(size):
    """The places of the requests of each group that has an event."""
    groups = [
        range(start, min(start + size, len(SESSION))) for start in range(0, len(SESSION), size)
    ]
    return [it for it in groups if any(SESSION[place][2] for place in it)]


def table_after(count):
    """The dump behind so many requests of the session."""
    events = b"".join(event for _, _, event in SESSION[:count])
    return store.dump(store.add(bytearray(START), events) if events else START)


def judged(cases, size, opening, killed):
    """The judge, for these cases, of one call that fails, or at which the program is killed, in the
    session with groups of a size."""
    groups = groups_with_events(size)

    def judge(place, what, answer, room):
        name = (
            f"serve: {'killed at' if killed else 'failed is'} call {place}, {what}, groups of "
            f"{size}"
        )
        now = text_held(room)
        if place < opening:
            if killed:
                well = answer[1] == b""
            else:
                well = answer == (
                    1,
                    b"",
                    cannot("read", "it.store", what[-1])
                    if place < len(OPENED)
                    else fault(f"device fault 0x8003001{'d' if what[0] == 'sync' else 'e'}"),
                )
            cases.tell(name, well and now == table_after(0), (answer, now))
            return
        number, call = divmod(place - opening, len(COMMIT))
        group = groups[number]
        before = b"".join(it[1] for it in SESSION[: group.start])
        if killed:
            # replies may wait for the next wait, and the gate is in the system's cache once it was
            # written
            cases.tell(
                name,
                before.startswith(answer[1])
                and now == table_after(group.stop if call == 3 else group.start),
                (answer, now),
            )
            return
        codes = [
            (place + 1, WRITE_FAULT if place in group else E_FAIL)
            for place in range(group.start, len(SESSION))
        ]
        wanted = before + b"".join(wire.reply(*it) for it in codes)
        cases.tell(
            name,
            answer == (0, wanted, b"")
            and now
            in (
                [table_after(group.start)]
                if call < 2
                else [table_after(group.start), table_after(group.stop)]
            ),
            (answer, now),
        )

    return judge
