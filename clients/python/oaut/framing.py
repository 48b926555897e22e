"""The form of records in a stream: lines of hexadecimal digits, or each after its length."""
from __future__ import annotations

import binascii
import struct
import typing

from .faults import ProtocolError
from .records import DONE

Bodies = list[bytes]
# a length, or a tag; and both
_NUMBER = struct.Struct("<I")
_HEAD = struct.Struct("<II")
_number_at, _head = _NUMBER.unpack_from, _HEAD.pack
# a reply with S_OK and no fields, with its length and its tag
_DONE_LENGTH = 4 + len(DONE)
_done = struct.Struct(f"<II{len(DONE)}s").pack
# from this number of bodies on, splitting them together is faster, if they have one length
_MANY = 4


class Framing(typing.Protocol):
    """The form of bodies in a stream. `words` are those of the program's command line, `sign` is
    what each body ends with, None if it ends by its length."""

    words: list[str]
    sign: bytes | None

    @staticmethod
    def pack(bodies: typing.Iterable[bytes]) -> bytes:
        """The bytes of some bodies."""

    @staticmethod
    def tagged(
        tags: typing.Sequence[int], requests: typing.Sequence[bytes], behind: bytes
    ) -> bytes:
        """The bytes of some requests, each after its tag, and then these."""

    @staticmethod
    def done(tags: typing.Sequence[int]) -> bytes:
        """The bytes of a reply to each of these tags, all with S_OK and no fields."""

    @staticmethod
    def split(data: bytes, at: int, count: int) -> tuple[Bodies, int]:
        """At most `count` whole bodies from the place `at` on, and the place after them."""

    @staticmethod
    def missing(data: bytes, at: int) -> int:
        """How many bytes the body that begins there lacks at least, 1 if that is not known."""

    @staticmethod
    def read(reader: typing.BinaryIO) -> bytes | None:
        """The next body of a file, None at its end. Raises ProtocolError for what is none."""


class Lines:
    """A body a line, as hexadecimal digits."""

    words = ["--hex"]
    sign: bytes | None = b"\n"

    @staticmethod
    def pack(bodies: typing.Iterable[bytes]) -> bytes:
        """The lines of some bodies."""
        return ("\n".join([body.hex() for body in bodies]) + "\n").encode()

    @staticmethod
    def tagged(
        tags: typing.Sequence[int], requests: typing.Sequence[bytes], behind: bytes
    ) -> bytes:
        """The lines of some requests, each after its tag, and then these bytes."""
        return Lines.pack([_NUMBER.pack(tag) + it for tag, it in zip(tags, requests)]) + behind

    @staticmethod
    def done(tags: typing.Sequence[int]) -> bytes:
        """The lines of a reply to each of these tags, all with S_OK and no fields."""
        return Lines.pack([_NUMBER.pack(tag) + DONE for tag in tags])

    @staticmethod
    def split(data: bytes, at: int, count: int) -> tuple[Bodies, int]:
        """At most `count` whole bodies from the place `at` on, and the place after them. Raises
        ProtocolError for what is no line of digits."""
        bodies: Bodies = []
        while len(bodies) < count:
            end = data.find(b"\n", at)
            if end < 0:
                break
            try:
                bodies.append(binascii.unhexlify(data[at:end].rstrip(b"\r")))
            except binascii.Error as error:
                raise ProtocolError("a reply is no line of hexadecimal digits") from error
            at = end + 1
        return bodies, at

    @staticmethod
    def missing(data: bytes, at: int) -> int:
        """How many bytes the line that begins there lacks at least."""
        return 1

    @staticmethod
    def read(reader: typing.BinaryIO) -> bytes | None:
        """The next body of a file, None at its end. Raises ProtocolError for what is no line of
        digits."""
        line = reader.readline()
        return Lines.split(line.rstrip(b"\n") + b"\n", 0, 1)[0][0] if line else None


class Raw:
    """Each body after its length, a u32."""

    words: list[str] = []
    sign: bytes | None = None

    @staticmethod
    def pack(bodies: typing.Iterable[bytes]) -> bytes:
        """The records of some bodies."""
        return b"".join([part for body in bodies for part in (_NUMBER.pack(len(body)), body)])

    @staticmethod
    def tagged(
        tags: typing.Sequence[int], requests: typing.Sequence[bytes], behind: bytes
    ) -> bytes:
        """The records of some requests, each after its tag, and then these bytes."""
        if len(requests) == 1:
            (request,) = requests
            return _head(len(request) + 4, tags[0]) + request + behind
        parts = [behind] * (2 * len(requests) + 1)
        parts[:-1:2] = [_head(len(it) + 4, tag) for tag, it in zip(tags, requests)]
        parts[1::2] = requests
        return b"".join(parts)

    @staticmethod
    def done(tags: typing.Sequence[int]) -> bytes:
        """The records of a reply to each of these tags, all with S_OK and no fields."""
        return b"".join([_done(_DONE_LENGTH, tag, DONE) for tag in tags])

    @staticmethod
    def split(data: bytes, at: int, count: int) -> tuple[Bodies, int]:
        """At most `count` whole bodies from the place `at` on, and the place after them."""
        bodies: Bodies = []
        end, before = len(data), -1
        while len(bodies) < count and at + 4 <= end:
            (length,) = _number_at(data, at)
            if length == before:
                size = 4 + length
                alike = min(count - len(bodies), (end - at) // size)
                if alike >= _MANY:
                    rest = memoryview(data)[at : at + alike * size]
                    for other, body in struct.iter_unpack(f"<I{length}s", rest):
                        if other != length:
                            break
                        bodies.append(body)
                        at += size
                    continue
            after = at + 4 + length
            if after > end:
                break
            bodies.append(data[at + 4 : after])
            at, before = after, length
        return bodies, at

    @staticmethod
    def missing(data: bytes, at: int) -> int:
        """How many bytes the record that begins there lacks at least."""
        there = len(data) - at
        if there < 4:
            return 4 - there
        return max(1, 4 + int(_NUMBER.unpack_from(data, at)[0]) - there)

    @staticmethod
    def read(reader: typing.BinaryIO) -> bytes | None:
        """The next body of a file, None at its end. Raises ProtocolError if it ends within one."""
        head = _all(reader, 4)
        if not head:
            return None
        length = int.from_bytes(head, "little")
        body = _all(reader, length) if len(head) == 4 else b""
        if len(head) < 4 or len(body) < length:
            raise ProtocolError("the stream ends inside a reply")
        return body


def _all(reader: typing.BinaryIO, count: int) -> bytes:
    parts = []
    while count:
        part = reader.read(count)
        if not part:
            break
        parts.append(part)
        count -= len(part)
    return b"".join(parts)


FRAMINGS: dict[str, type[Framing]] = {"lines": Lines, "raw": Raw}
# records of bytes; lines of digits are for people and for logs
FRAMING = "raw"
