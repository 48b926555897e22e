"""How many instructions a request of each kind takes, as records in memory, and how many bytes it
and its reply have."""
import os
from concurrent.futures import ThreadPoolExecutor

from oaut import LOCK, UNLOCK
from tests.support import worked
from tests.support.instructions import of_session, spelled, tagged
from tests.support.model import I4, ITEM
from tests.support.running import run
from tests.support.wire import array, oaut

# each request of a kind is about another of so many objects
OBJECTS = 100
LIBRARY = b"""[uuid(11223344-5566-7788-99AA-BBCCDDEEFF01)] library Demo {
  [uuid(11223344-5566-7788-99AA-BBCCDDEEFF02)] dispinterface DItem {
    properties: [id(1)] long Count; [id(2)] BSTR Name; [id(3)] SAFEARRAY(long) Longs;
    methods: [id(4), propget] long One([in] long A); [id(4), propput] void One([in] long A, [in] \
long Value);
      [id(5), propget] long Two([in] long A, [in] long B); [id(5), propput] void Two([in] long A, \
[in] long B, [in] long Value);
      [id(6), propget] long Three([in] long A, [in] long B, [in] long C);
      [id(6), propput] void Three([in] long A, [in] long B, [in] long C, [in] long Value); }
  [uuid(11223344-5566-7788-99AA-BBCCDDEEFF03)] coclass Item { [default] dispinterface DItem; } }"""
COUNT, NAME, LONGS = 1, 2, 3
SHORT, LONG = (worked.text("x".encode("utf-16-le") * (length // 2)) for length in (8, 1_000))


def keys(count):
    return [worked.i4(at) for at in range(count)]


def with_parameters(count):
    """A put and a get of a property that has so many."""
    return {
        f"put-{count}-keys": lambda of: worked.put(3 + count, worked.i4(of), of, more=keys(count)),
        f"get-{count}-keys": lambda of: worked.get(3 + count, of, arguments=keys(count)),
    }


# how many times a put of a long a kind takes at most, and which takes more
# (docs/internals/decisions/instruction-counts.md)
MOST, SLOWER = 3, {
    **{f"{way}-{count}-keys": 4.5 for count in (1, 2, 3) for way in ("put", "get")},
    **{
        "put-array": 6.5,
        "put-element": 6.5,
        "redim": 6,
        "get-array": 4,
        "get-element": 4,
        "lock": 4,
        "unlock": 4,
    },
    **{"names": 4.5, "type-info": 4.5, "create": 4},
}
# what is sent for each object before the kinds, whose requests are sent one kind behind another: so
# all puts are over a value that is there
BEFORE = [
    lambda of: oaut.ask_create(ITEM),
    lambda of: worked.put(COUNT, worked.i4(of), of),
    lambda of: worked.put(NAME, LONG, of),
    lambda of: worked.put(LONGS, array(I4, [(8, 0)], range(8)), of),
    *(lambda of, put=with_parameters(count)[f"put-{count}-keys"]: put(of) for count in (1, 2, 3)),
]
KINDS = {
    "put-long": BEFORE[1],
    "get-long": lambda of: worked.get(COUNT, of),
    "put-text-8": lambda of: worked.put(NAME, SHORT, of),
    "get-text-8": lambda of: worked.get(NAME, of),
    "put-text-1000": BEFORE[2],
    "get-text-1000": lambda of: worked.get(NAME, of),
    **{name: kind for count in (1, 2, 3) for name, kind in with_parameters(count).items()},
    "put-array": BEFORE[3],
    "get-array": lambda of: worked.get(LONGS, of),
    "put-element": lambda of: worked.put_element(LONGS, (3,), worked.i4(of), of),
    "get-element": lambda of: worked.element(LONGS, 3, of=of),
    "redim": lambda of: worked.redim(LONGS, 7 + of % 2, 0, of),
    "lock": lambda of: worked.call(LOCK, LONGS, of=of),
    "unlock": lambda of: worked.call(UNLOCK, LONGS, of=of),
    "names": lambda of: oaut.ask_ids(of, ["Two", "B"]),
    "type-info": lambda of: oaut.ask_type_info(0),
    "create": BEFORE[0],
    "list": lambda of: oaut.ask_list(),
    # the last first, so that each object stands where its number says
    "release": lambda of: oaut.ask_release(2 * OBJECTS + 1 - of),
}


def requests_of(kind):
    return [kind(of) for of in range(1, OBJECTS + 1)]


def of_kinds():
    """How many instructions a request of each kind takes, on the average of one of each object.
    Sessions are counted side by side."""
    sent = [it for kind in BEFORE for it in requests_of(kind)]
    sessions = [list(sent)]
    for kind in KINDS.values():
        sent += requests_of(kind)
        sessions.append(list(sent))
    with ThreadPoolExecutor(os.cpu_count()) as pool:
        counted = list(pool.map(lambda it: of_session(it, library=LIBRARY), sessions))
    return {
        name: (ended - begun) // OBJECTS for name, begun, ended in zip(KINDS, counted, counted[1:])
    }


def bytes_of_kinds():
    """How many bytes a request of each kind has with its reply, each as a record. All are answered
    by success."""
    sent = [it for kind in [*BEFORE, *KINDS.values()] for it in requests_of(kind)]
    status, out, fault = run(
        ["play", "lib.idl"], spelled(tagged(sent), ("play",)), {"lib.idl": LIBRARY}
    )
    replies, _ = oaut.Raw.split(out, 0, len(sent))
    codes = {oaut.read_reply(it).code for it in replies}
    if (status, len(replies), codes) != (0, len(sent), {0}):
        raise AssertionError(f"requests are refused: {status} {len(replies)} {codes} {fault}")
    lengths = [4 + 4 + len(request) + 4 + len(reply) for request, reply in zip(sent, replies)]
    behind = lengths[len(BEFORE) * OBJECTS :]
    return {name: sum(behind[at * OBJECTS :][:OBJECTS]) // OBJECTS for at, name in enumerate(KINDS)}


def times_a_put(found, lengths):
    """How many times what a put of a long takes each kind takes: by the byte, or by the request
    where that has fewer bytes than a put."""
    put = "put-long"
    return {name: found[name] / found[put] / max(1, lengths[name] / lengths[put]) for name in found}
