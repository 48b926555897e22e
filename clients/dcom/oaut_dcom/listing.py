"""The live objects of the store, by rising number. A list is used for ten times as long as it took,
at most for a second. Creates and releases of this program's clients change it at once."""
from __future__ import annotations

import array
import bisect
import itertools
import struct
import sys
import time
import typing

from oaut.faults import ProtocolError

_MOST_AGE = 1.0  # seconds ..
_SHARE = 10  # .. or as many times as long as it took
_ENTRY = 24  # bytes of an object: its number, 4 bytes, its coclass


class Live:
    """Objects, by rising number, and the place of each one's coclass. It takes 6 bytes each."""

    __slots__ = ("numbers", "places", "_of")

    def __init__(self, numbers: typing.Iterable[int], places: typing.Iterable[int]) -> None:
        self.numbers, self.places = array.array("I", numbers), array.array("H", places)
        self._of: typing.Dict[int, Live] = {}

    def __len__(self) -> int:
        return len(self.numbers)

    def of(self, place: int) -> "Live":
        """Those of a coclass."""
        found = self._of.get(place)
        if found is None:
            if self.places.count(place) == len(self.places):
                return self
            numbers = itertools.compress(self.numbers, map(place.__eq__, self.places))
            found = Live(numbers, ())
            found.places.extend([place] * len(found.numbers))
            self._of[place] = found
        return found

    def listed(self) -> "array.array[int]":
        """Objects as an enumerator keeps them: the place above the number, in 8 bytes each."""
        pairs = zip(self.numbers, self.places)
        return array.array("Q", [place << 32 | number for number, place in pairs])

    def add(self, number: int, place: int) -> bool:
        """Adds an object, and returns whether its number was above all."""
        if self.numbers and self.numbers[-1] >= number:
            return False
        self.numbers.append(number)
        self.places.append(place)
        self._of.clear()
        return True

    def drop(self, number: int) -> None:
        """Takes an object away, if it is there."""
        at = bisect.bisect_left(self.numbers, number)
        if at < len(self.numbers) and self.numbers[at] == number:
            del self.numbers[at], self.places[at]
            self._of.clear()


# a coclass, as the two halves of its GUID
Halves = typing.Tuple[int, int]


def read(
    fields: bytes,
) -> typing.Tuple[typing.Iterable[int], typing.List[Halves], typing.Dict[Halves, bytes]]:
    """The fields of a reply to a LIST: of each object the number, and the coclass; the GUIDs of
    these. Raises ProtocolError."""
    count = int.from_bytes(fields[:4], "little")
    if len(fields) != 8 + _ENTRY * count:
        raise ProtocolError("a list has another length")
    # (each step is one of C for all objects)
    words, halves = array.array("I", fields[8:]), array.array("Q", fields[8:])
    if sys.byteorder == "big":
        words.byteswap()
        halves.byteswap()
    pairs = list(zip(halves[1::3], halves[2::3]))
    classes = {it: struct.pack("<QQ", *it) for it in set(pairs)}
    return words[::6], pairs, classes


def find(reply: bytes, at: int, number: int) -> typing.Optional[bytes]:
    """The coclass of an object in the fields of a reply to a LIST, which are at an offset of it.
    Raises ProtocolError."""
    low, count = 0, int.from_bytes(reply[at : at + 4], "little")
    if len(reply) - at != 8 + _ENTRY * count:
        raise ProtocolError("a list has another length")
    high = count
    while low < high:
        middle = (low + high) // 2
        entry = at + 8 + _ENTRY * middle
        found = int.from_bytes(reply[entry : entry + 4], "little")
        if found == number:
            return reply[entry + 8 : entry + _ENTRY]
        low, high = (middle + 1, high) if found < number else (low, middle)
    return None


class Listing:
    """The objects that were listed last."""

    def __init__(self, clock: typing.Callable[[], float] = time.monotonic) -> None:
        self._clock = clock
        self._live: typing.Optional[Live] = None
        self._until = 0.0
        self._changes = 0  # creates and releases that were begun or done here

    def there(self) -> typing.Optional[Live]:
        """The objects, unless they have to be listed anew."""
        if self._live is not None and self._clock() < self._until:
            return self._live
        self._live = None
        return None

    def begin(self) -> typing.Tuple[float, int]:
        """A list begins. Returns what `keep` needs: the time, and the changes so far."""
        return self._clock(), self._changes

    def keep(self, live: Live, begun: float, changes: int) -> None:
        """Keeps what was listed, unless objects were created or released here meanwhile."""
        if changes == self._changes:
            now = self._clock()
            self._live, self._until = live, now + min(_SHARE * (now - begun), _MOST_AGE)

    def change(self) -> None:
        """A create or a release begins: a list that is under way may have it or not."""
        self._changes += 1

    def created(self, number: int, place: int) -> None:
        """An object was created here."""
        self._changes += 1
        if self._live is not None and not self._live.add(number, place):
            self._live = None

    def released(self, number: int) -> None:
        """An object was released here."""
        self._changes += 1
        if self._live is not None:
            self._live.drop(number)

    def forget(self) -> None:
        """The gateway or its store has ended."""
        self._changes += 1
        self._live = None
