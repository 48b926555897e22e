"""What a shared session is to hand out, by docs/reference/shared.md and the model alone:
`Sharing().told(stream)` is what is told behind a stream of frames, as pairs of a client and a reply
behind its length, or of a client and no bytes at its end."""
import collections
import struct

import oaut.frames
from tests.support import wire  # (which finds the package)
from tests.support.asked import Answering
from tests.support.codes import BAD_STUB, E_UNEXPECTED
from tests.support.model import Model, Refusal

assert wire.oaut is oaut
ALL = 0xFFFF_FFFF
FRAME_LIMIT, BODY_LIMIT = 1_048_576, 4_194_304
STUB = struct.pack("<IIIII", 16, 0, BAD_STUB, oaut.NO_INDEX, 0)


class Owned(Model):
    """A model whose locks have owners: `client` is who asks."""

    def __init__(self):
        super().__init__()
        self.client, self.owned = None, collections.defaultdict(collections.Counter)

    def lock(self, call, step):
        _, name, _ = self.array(call, "get")
        lock = call["object"], name
        if step < 0 and not self.owned[self.client][lock]:
            raise Refusal(E_UNEXPECTED)
        fields = super().lock(call, step)
        self.owned[self.client][lock] += step
        return fields

    def give_back(self, client):
        """All locks of a client."""
        for (number, name), count in self.owned.pop(client, {}).items():
            if count:
                self.objects[number][1][name].locks -= count


class Streams:
    """A stream of frames, taken apart: `body` is called for each record of a client, and `over` at
    its end, in the order in which they come."""

    def __init__(self):
        self.frame, self.broken = b"", False
        # of each client that is there what came of its record; nothing where it has had its end
        self.came = {}

    @property
    def ends_as(self):
        """The program's status behind all that was read, and its line."""
        if self.broken:
            return 4, b"oaut: unknown frame\n"
        return (4, b"oaut: frame cut\n") if self.frame else (0, b"")

    def read(self, stream):
        data, at = self.frame + stream, 0
        while not self.broken and len(data) - at >= 8:
            client, length = struct.unpack_from("<II", data, at)
            if length > FRAME_LIMIT or (client == ALL and length):
                self.broken = True
            elif not length:
                at += 8
                if client != ALL:
                    self.leaves(client)
            elif len(data) - at < 8 + length:
                break
            else:
                self.brings(client, data[at + 8 : at + 8 + length])
                at += 8 + length
        self.frame = b"" if self.broken else data[at:]

    def end(self):
        """The input ends: what came of a last frame counts."""
        if len(self.frame) > 8:
            self.brings(struct.unpack_from("<I", self.frame)[0], self.frame[8:])
        for client in sorted(self.came):
            self.leaves(client)

    def brings(self, client, data):
        came = self.came.get(client, b"")
        if came is not None:
            self.came[client] = self.records(client, came + data)

    def records(self, client, data):
        at = 0
        while len(data) - at >= 4:
            (length,) = struct.unpack_from("<I", data, at)
            if not length or length > BODY_LIMIT:
                self.over(client, length > 0)
                return None
            if len(data) - at < 4 + length:
                break
            self.body(client, bytes(data[at + 4 : at + 4 + length]))
            at += 4 + length
        return data[at:]

    def leaves(self, client):
        came = self.came.pop(client, b"")
        if came is not None:
            self.over(client, len(came) > 0)


class Sharing(Streams):
    """One shared session. `answering` may know more libraries than the model's; its model is to be
    an Owned."""

    def __init__(self, answering=None):
        super().__init__()
        self.answering = answering or Answering()
        if answering is None:
            self.answering.model = Owned()
        self.out, self.asked = [], []

    def told(self, stream, ends=True):
        """What is told behind these bytes, to the last reply of all where the input ends there."""
        self.read(stream)
        if ends:
            self.end()
        out, self.out = self.out, []
        return out

    def body(self, client, body):
        self.asked.append(body)
        self.answering.model.client = client
        reply = self.answering.reply(body)
        self.out.append((client, struct.pack("<I", len(reply)) + reply))

    def over(self, client, refused):
        """A client has its last reply, and its locks are free. `refused`: what came last was no
        request."""
        self.answering.model.give_back(client)
        self.out += [(client, STUB)] * refused + [(client, b"")]


def told_of(out, cut=False):
    """What a program has told, of its frames: as `Sharing.told` has it. Raises ValueError for what
    are no frames of whole replies, or where the last one is not whole and `cut` is not said."""
    frames, at = oaut.frames.split(out)
    if at != len(out) and not cut:
        raise ValueError("the output ends within a frame")
    found = []
    for client, data in frames:
        if not data:
            found.append((client, b""))
        place = 0
        while place < len(data):
            end = (
                place
                + 4
                + (
                    struct.unpack_from("<I", data, place)[0]
                    if len(data) - place >= 4
                    else len(data)
                )
            )
            if end > len(data):
                raise ValueError("a frame does not bring whole replies")
            found.append((client, data[place:end]))
            place = end
    return found
