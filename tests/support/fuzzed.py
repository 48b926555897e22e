"""Inputs that AFL++ has kept (bench/with_afl.py), and what the program has to say of each: a stream
of records for `play`, one of frames for `play --shared`, a text for `check`, a store's parts for
`dump` and `serve`."""
import io
import struct

from tests.support import fuzz, sharing, store
from tests.support.asked import Answering
from tests.support.codes import BAD_STUB
from tests.support.model import LIBRARY, first_library
from tests.support.preloaded import StoreFile, read, spawned
from tests.support.running import PROGRAM, fault, fill
from tests.support.wire import oaut

CUT = struct.pack("<IIII", 0, BAD_STUB, oaut.NO_INDEX, 0)
TEXT = first_library().text()


def pack(requests):
    """The records of some requests, by their tags from 1 on."""
    return oaut.Raw.pack([struct.pack("<I", tag) + it for tag, it in enumerate(requests, 1)])


# --- records


def played(stream):
    """What `play` answers to a stream of records: status, replies and fault. None where it brings a
    library that the model does not know."""
    answering, reader, replies = Answering(), io.BytesIO(stream), []
    answer = lambda status, text: (status, oaut.Raw.pack(replies), fault(text) if text else b"")
    while True:
        head = reader.read(4)
        if not head:
            return answer(0, None)
        length = struct.unpack("<I", head)[0] if len(head) == 4 else None
        if length == 0:
            return answer(0, None)
        if length is not None and length > oaut.BODY_LIMIT:
            replies.append(CUT)
            return answer(4, "record too long")
        body = b"" if length is None else reader.read(length)
        if length is None or len(body) < length:
            replies.append(CUT)
            return answer(4, "record cut")
        if fuzz.may_replace(body):
            return None
        replies.append(answering.reply(body))


def judge_records(room, stream):
    wanted = played(stream)
    if wanted is None:
        return None
    fill(room, {"lib.idl": LIBRARY, "given": stream})
    status, _ = spawned(
        [PROGRAM, "play", f"{room}/lib.idl"], f"{room}/given", f"{room}/out", f"{room}/err"
    )
    got = status, read(f"{room}/out"), read(f"{room}/err")
    return (
        None
        if got == wanted
        else f"wanted {wanted[0], wanted[1].hex(), wanted[2]}, got {got[0], got[1].hex(), got[2]}"
    )


# --- frames


def judge_frames(room, stream):
    shared = sharing.Sharing()
    due = shared.told(stream)
    if any(map(fuzz.may_replace, shared.asked)):
        return None
    fill(room, {"lib.idl": LIBRARY, "given": stream})
    status, _ = spawned(
        [PROGRAM, "play", "--shared", f"{room}/lib.idl"],
        f"{room}/given",
        f"{room}/out",
        f"{room}/err",
    )
    return fuzz.differing((status, read(f"{room}/out"), read(f"{room}/err")), shared, due)


# --- libraries


def judge_text(room, text):
    return fuzz.judged_text(room, text)[1]


# --- stores


def body_place(parts):
    """Where the body stands that the parts of a store have, by its selector and its head's
    magic."""
    chosen = parts[1] % 2 if len(parts) > 1 else 0
    is_old = len(parts) > 40 and parts[2 + 32 * chosen + 7 : 2 + 32 * chosen + 8] == b"1"
    return store.body_of(1 if is_old else 2, chosen, store.BANK)


def input_of(data):
    """A store's parts: first byte, selector, heads, and the body in use as far as it has
    something."""
    found = store.read(data)
    head = bytes([data[0], data[store.SELECTOR]]) + b"".join(
        bytes(data[at : at + 32]) for at in store.HEADS
    )
    start = store.body_of(found.format, found.chosen, store.BANK)
    return head + bytes(data[start : found.gate + 1])


def laid(room, parts):
    """The store's file that has these parts."""
    file = StoreFile(f"{room}/it.store", b"")
    file.length = store.length_of(store.BANK)
    file.lay()
    file.change(body_place(parts), parts[66:])
    for at, some in (
        (0, parts[:1]),
        (store.SELECTOR, parts[1:2]),
        (store.HEADS[0], parts[2:34]),
        (store.HEADS[1], parts[34:66]),
    ):
        file.change(at, some)
    return file


def judge_store(room, parts):
    fill(room, {"lib.idl": LIBRARY})
    return fuzz.judged_store(room, laid(room, parts), TEXT)[1]


JUDGES = {
    "records": judge_records,
    "frames": judge_frames,
    "libraries": judge_text,
    "stores": judge_store,
}
