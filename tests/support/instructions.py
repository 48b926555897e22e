"""How many instructions a request takes, as valgrind counts them: the same on every run, whatever
else the machine does."""
import re
import shutil
import struct
import subprocess
import tempfile

from oaut.frames import frames_of
from tests.support import full, worked
from tests.support.model import LIBRARY
from tests.support.preloaded import fast_folder
from tests.support.running import PROGRAM, fill, rows_of
from tests.support.wire import oaut

VALGRIND = shutil.which("valgrind")
TIMES = 200
GOLDEN = 0.618034  # whose multiples lie evenly between whole numbers
# requests that are repeated, by the number of the object that they are about
REQUESTS = {
    "put": lambda of: worked.put(worked.COUNT, worked.i4(of), of),
    "get": lambda of: worked.get(worked.COUNT, of),
    "create": lambda of: oaut.ask_create(worked.ITEM),
    "names": lambda of: oaut.ask_ids(of, ["Cell", "Key"]),
}
# the ways of a session of longs, by the words behind `oaut play` or, over a store, behind `oaut
# serve`; and its objects and its requests
LONGS = {
    "lines": ("play", "--hex"),
    "records": ("play",),
    "frames": ("play", "--shared"),
    "durable": ("serve", "--group", "1024"),
    "shared": ("serve", "--shared", "--group", "1024"),
}
OBJECTS, REPEATED = 1_000, 20_000
GETS = {"lines", "records", "frames"}
# what is committed of them, and how far above it they may come
TABLE = "instructions.txt"
RISE = 1.05
# how far a request of many clients may come above one of a single client, each in a frame of its
# own, of another client than the one before (a record of a single client is answered where it was
# read, and one of many is put together first)
MORE = 200


def spelled(bodies, way):
    """Bodies as a session takes them; as frames each with one record, of 16 clients in turn."""
    if "--hex" in way:
        return b"".join(it.hex().encode() + b"\n" for it in bodies)
    if "--shared" in way:
        return b"".join([frames_of(at % 16, oaut.Raw.pack([it])) for at, it in enumerate(bodies)])
    return oaut.Raw.pack(bodies)


def of_program(words, given, room):
    """The instructions of a program from its start to its end, in a folder with what it is
    given."""
    fill(room, {"given": given})
    with open(f"{room}/given", "rb") as stdin:
        under = [VALGRIND, "--tool=callgrind", "--callgrind-out-file=/dev/null"]
        done = subprocess.run(
            [*under, *words],
            cwd=room,
            stdin=stdin,
            stdout=subprocess.DEVNULL,
            stderr=subprocess.PIPE,
            check=True,
        )
    return int(re.search(rb"Collected : (\d+)", done.stderr)[1])


def tagged(requests):
    return [struct.pack("<I", tag) + it for tag, it in enumerate(requests, 1)]


def of_session(requests, way=("play",), library=LIBRARY):
    """The instructions of a session: in memory, or over a new store."""
    with tempfile.TemporaryDirectory(dir=fast_folder()) as room:
        fill(room, {"lib.idl": library})
        store = ["it.store"] if "serve" in way else []
        for it in store:
            subprocess.run(
                [PROGRAM, "format", it, "lib.idl"], cwd=room, stdout=subprocess.DEVNULL, check=True
            )
        return of_program([PROGRAM, *way, *store, "lib.idl"], spelled(tagged(requests), way), room)


def of_requests(objects, names=tuple(REQUESTS)):
    """How many instructions each of some requests takes where there are so many objects, on the
    average of many."""
    front = [oaut.ask_create(worked.ITEM)] * objects + [it(objects) for it in REQUESTS.values()]
    begun = of_session(front)
    return {
        name: (
            of_session(
                front + [REQUESTS[name](objects - at % min(objects, 7)) for at in range(TIMES)]
            )
            - begun
        )
        // TIMES
        for name in names
    }


def of_a_put(cells):
    """How many instructions a put takes into an object that has so many cells, on the average of
    many."""
    cell = lambda at: worked.put(
        worked.CELL,
        worked.text(worked.HI),
        named=(-3, 1, 0),
        more=(worked.text(worked.LETTER), worked.i4(at)),
    )
    front = [
        oaut.ask_create(worked.ITEM),
        worked.put(worked.COUNT, worked.i4(0)),
        *map(cell, range(cells)),
    ]
    return (
        of_session(front + [worked.put(worked.COUNT, worked.i4(at)) for at in range(TIMES)])
        - of_session(front)
    ) // TIMES


def of_a_new_cell(cells):
    """How many instructions a put of a new cell takes between the cells of an object that a store
    has, on the average of many, spread over all of them."""
    spread = [2 * int(at * GOLDEN % 1 * cells) + 1 for at in range(TIMES)]
    puts = [worked.put(1, worked.i4(at), more=(worked.i4(key),)) for at, key in enumerate(spread)]
    with tempfile.TemporaryDirectory(dir=fast_folder()) as room:
        full.laid(
            room,
            full.keyed("long", 1),
            {(full.FACE, 1, (full.long(2 * at),)): full.long(at) for at in range(cells)},
        )
        begun, ended = (
            of_program([PROGRAM, "serve", "it.store", "lib.idl"], oaut.Raw.pack(tagged(it)), room)
            for it in ([], puts)
        )
    return (ended - begun) // TIMES


def of_longs(way, count=None):
    """How many instructions a put of a long takes, or in memory a put and a get in turn, among
    1,000 objects: all that the program does for 20,000 of them. `count` tells a session's, where it
    is another program's."""
    count = count or (lambda requests: of_session(requests, LONGS[way]))
    front = [oaut.ask_create(worked.ITEM)] * OBJECTS + [
        REQUESTS["put"](of) for of in range(1, OBJECTS + 1)
    ]
    kinds = [REQUESTS["put"], REQUESTS["get"] if way in GETS else REQUESTS["put"]]
    return (
        count(front + [kinds[at % 2](1 + at % OBJECTS) for at in range(REPEATED)]) - count(front)
    ) // REPEATED


def committed():
    """What is committed of each way."""
    return {name: int(number) for name, number in (it.split() for it in rows_of(TABLE))}
