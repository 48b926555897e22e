"""Stores whose table is as large as it may be, and the memory of a server over one while it is
asked something."""
import os
import re
import struct
import subprocess
import sys
import time

from oaut import Raw
from tests.support import store, wire
from tests.support.memory import forget_peak, peak_of, resident_of
from tests.support.running import PROGRAM
from tests.support.stores import CLASS, FACE

FULL = 15_728_640  # bytes of the image of a table
LONGEST, CELLS = 262_144, 65_536
LAST = 500  # the DISPID of the property that is put
# bytes of the image of a table with one object, and of a cell without its value
HEAD, CELL = 8 + 24, 22


def library(count, type):
    """A library whose one interface has so many properties of a type, and a text."""
    properties = "".join(f"[id({it})] {type} T{it}; " for it in range(1, count + 1))
    interface = (
        f"[uuid(11223344-5566-7788-99aa-bbccddeeff02)] dispinterface F {{ properties: {properties} "
        f"[id({LAST})] BSTR Last; methods: }}"
    )
    return (
        f"[uuid(11223344-5566-7788-99aa-bbccddeeff01)] library D {{ {interface} "
        f"[uuid(11223344-5566-7788-99aa-bbccddeeff03)] coclass C {{ [default] "
        f"dispinterface F; }} }}"
    ).encode()


def keyed(type, parameters):
    """The same with a property of a type that has so many parameters, each a long, and two that
    have none."""
    parts, property = (
        library(3, type).decode(),
        "[propget, id(1)] {0} Of({1}); [propput, id(1)] void Of({1}, {0} value);",
    )
    if parameters:
        names = ", ".join(f"long p{it}" for it in range(parameters))
        parts = re.sub(r"\[id\(1\)\] [^;]*; ", "", parts).replace(
            "methods: ", "methods: " + property.format(type, names)
        )
    return parts.encode()


def long(at):
    return wire.I4, struct.pack("<i", at)


def short(at):
    """A text of 8 bytes."""
    return wire.BSTR, struct.pack("<I", 8) + struct.pack("<II", at, at)


def two_longs(at):
    """An array of them."""
    return store.Array(wire.I4, [(2, 0)], [long(at)[1], long(at + 1)[1]])


def cells_by_key(count, parameters, value=long):
    """An object with so many cells of such a property."""
    return {
        1: (
            CLASS,
            {
                (FACE, 1, tuple(long(at) for _ in range(parameters))): value(at)
                for at in range(count)
            },
        )
    }


def objects_of(count, longs):
    """So many objects, each with so many longs."""
    return {
        it: (CLASS, {(FACE, at, ()): long(at) for at in range(1, longs + 1)})
        for it in range(1, count + 1)
    }


def wider(text):
    """The same library with one property more."""
    return text.replace(b"[id(%d)]" % LAST, b"[id(%d)] BSTR More; [id(%d)]" % (LAST + 1, LAST))


def text_cell(dispid, length):
    return (FACE, dispid, ()), (wire.BSTR, struct.pack("<I", length) + bytes(length))


def texts(full=FULL):
    """Cells of long texts, whose table is full."""
    count, rest = divmod(full - HEAD, CELL + 6 + LONGEST)
    return dict(
        [
            *(text_cell(it, LONGEST) for it in range(1, count)),
            text_cell(count, rest - CELL - 6),
            text_cell(LAST, LONGEST),
        ]
    )


def arrays():
    """Cells of arrays whose cells are EMPTY, and a text, whose table is full: of all values these
    take the most memory beside their image."""
    each, own = CELL + 12 + 2 * CELLS, CELL + 6 + LONGEST
    cells = {
        (FACE, it, ()): store.Array(wire.VARIANT, [(CELLS, 0)], [(wire.EMPTY, b"")] * CELLS)
        for it in range(1, (FULL - HEAD - own) // each + 1)
    }
    return dict([*cells.items(), text_cell(LAST, LONGEST)])


def laid(room, text, cells, form=2):
    """A store of a library in a folder, with one object of these cells; answers the bytes of its
    table's image."""
    return laid_objects(room, text, {1: (CLASS, cells)}, form)


def laid_objects(room, text, objects, form=2):
    """The same with these objects."""
    with open(f"{room}/lib.idl", "wb") as file:
        file.write(text)
    kept = subprocess.run(
        [PROGRAM, "check", f"{room}/lib.idl"], check=True, stdout=subprocess.PIPE
    ).stdout
    image = store.table_image(len(objects) + 1, objects)
    begun = store.formatted(kept) if form == 2 else store.formatted_before(kept)
    disk = store.laid(begun, form, 0, kept, image, store.BANK if form == 2 else store.OLD_BANK)
    with open(f"{room}/it.store", "wb") as file:
        for at in range(0, len(disk), 1 << 18):
            piece = bytes(disk[at : at + (1 << 18)])
            if any(piece):
                file.seek(at)
                file.write(piece)
        file.truncate(len(disk))
    return len(image)


def on_one_processor():
    """Keeps this process, and what it starts, on one processor: the system counts the pages of a
    process on each, and tells a sum that lacks some of them."""
    os.sched_setaffinity(0, {min(os.sched_getaffinity(0))})


class Serving:
    """A server over the store of a folder, which is asked one thing at a time."""

    def __init__(self, room):
        self.room = room
        words = [PROGRAM, "serve", f"{room}/it.store", f"{room}/lib.idl"]
        self.child = subprocess.Popen(
            words, stdin=subprocess.PIPE, stdout=subprocess.PIPE, preexec_fn=on_one_processor
        )

    def __enter__(self):
        return self

    def __exit__(self, *_):
        self.child.stdin.close()
        self.child.wait()
        self.child.stdout.close()

    def chosen(self):
        """The bank in use."""
        with open(f"{self.room}/it.store", "rb") as file:
            file.seek(store.SELECTOR)
            return file.read(1)[0]

    def ask(self, line):
        """A request, as a line, which has to be answered with S_OK."""
        self.child.stdin.write(Raw.pack([bytes.fromhex(line.decode())]))
        self.child.stdin.flush()
        reply = Raw.read(self.child.stdout)
        if not reply or reply[4:8] != bytes(4):
            raise AssertionError(f"the reply to {line[:60]} is {reply and reply[:16].hex()}")

    def across(self, line):
        """The KiB that are resident before a request, at most in it, and behind it."""
        before = resident_of(self.child.pid)
        forget_peak(self.child.pid)
        self.ask(line)
        return before, peak_of(self.child.pid), resident_of(self.child.pid)

    def put(self):
        return self.across(wire.put(1, 1, LAST, wire.scalar(wire.BSTR, bytes(LONGEST))))

    def checkpoint(self):
        """The same of puts: of the one before that which makes a checkpoint, and of this one."""
        bank, before = self.chosen(), None
        while True:
            found = self.put()
            if self.chosen() != bank:
                return before, found
            before = found


def opening(room):
    """The most memory that a server has taken once it has opened its store and answered one
    request, in KiB, and the seconds."""
    begun = time.monotonic()
    with Serving(room) as session:
        session.ask(wire.live_objects(1))
        return peak_of(session.child.pid), time.monotonic() - begun


def peak_of_run(*words):
    """The most memory that a run of the program takes, in KiB, where that is more than some 9 MiB,
    which what starts it takes; and its seconds."""
    act = (
        "import os, sys, time; os.sched_setaffinity(0, {min(os.sched_getaffinity(0))}); t = "
        "time.perf_counter(); it = os.wait4(os.posix_spawn(sys.argv[1], sys.argv[1:], os.environ), "
        "0); print(it[1], it[2].ru_maxrss, time.perf_counter() - t, file=sys.stderr)"
    )
    run = subprocess.run(
        [sys.executable, "-S", "-c", act, PROGRAM, *words],
        check=True,
        stdin=subprocess.DEVNULL,
        stdout=subprocess.DEVNULL,
        stderr=subprocess.PIPE,
    )
    status, peak, seconds = run.stderr.split()
    if status != b"0":
        raise AssertionError(f"{words} ends with {status}")
    return int(peak), float(seconds)
