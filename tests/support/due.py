"""What a session is to answer and a store to hold, by the model."""
import io
import struct

from tests.support import store
from tests.support.model import BOOL, BSTR, DECIMAL, VARIANT, Array


def replies_of(out, framing):
    reader, found = io.BytesIO(out), []
    while reader.tell() < len(out):
        found.append(framing.read(reader))
    return found


def kept(it):
    """A value of the model as tests/support/store.py has it."""
    if isinstance(it, Array):
        cells = [kept(cell) for cell in it.cells]
        return store.Array(
            it.vt, it.bounds, cells if it.vt == VARIANT else [content for _, content in cells]
        )
    vt, found = it
    if vt in store.NUMBERS:
        return vt, struct.pack("<" + store.NUMBERS[vt], found)
    if vt == BOOL:
        return vt, bytes([found != 0])
    if vt == BSTR:
        return vt, struct.pack("<I", store.NO_TEXT if found is None else len(found)) + (
            found or b""
        )
    if vt == DECIMAL:
        scale, sign, magnitude = found
        return vt, struct.pack("<BBIQ", scale, sign != 0, magnitude >> 64, magnitude & 2**64 - 1)
    return vt, b""


def dump_of(model):
    """What `oaut dump` is to print of the model's objects."""
    objects = {
        number: (
            guid.bytes_le,
            {
                (face.bytes_le, dispid, tuple(map(kept, key))): kept(it)
                for (face, dispid, key), it in cells.items()
            },
        )
        for number, (guid, cells) in model.objects.items()
    }
    return "".join(store.lines(store.Store(b"", model.next, objects, 0, 0, [], 2, 0)))
