"""NDR as DCOM uses it (C706 chapter 14): a reader that never reads past the end, and a writer."""
from __future__ import annotations

import struct
import typing


class Bad(Exception):
    """The stub is not one of this call (RPC_X_BAD_STUB_DATA)."""


_U16, _U32, _I32, _U64 = (struct.Struct("<" + it).unpack_from for it in "HIiQ")


class Reader:
    """A cursor over a stub. A number is at the next multiple of its width."""

    __slots__ = ("data", "at", "end", "check")

    def __init__(self, data: bytes, at: int = 0, end: typing.Optional[int] = None) -> None:
        self.data, self.at = data, at
        self.end = len(data) if end is None else end
        # checks the bytes after the last argument (verify.py)
        self.check: typing.Optional[typing.Callable[[bytes], None]] = None

    def u8(self) -> int:
        """The next byte."""
        self.skip(1)
        return self.data[self.at - 1]

    def u16(self) -> int:
        """The next number of 16 bits."""
        at = self.at + (self.at & 1)
        if at + 2 > self.end:
            raise Bad
        self.at = at + 2
        return int(_U16(self.data, at)[0])

    def u32(self) -> int:
        """The next number of 32 bits."""
        at = self.at + 3 & ~3
        if at + 4 > self.end:
            raise Bad
        self.at = at + 4
        return int(_U32(self.data, at)[0])

    def i32(self) -> int:
        """The next signed number of 32 bits."""
        at = self.at + 3 & ~3
        if at + 4 > self.end:
            raise Bad
        self.at = at + 4
        return int(_I32(self.data, at)[0])

    def u64(self) -> int:
        """The next number of 64 bits."""
        at = self.at + 7 & ~7
        if at + 8 > self.end:
            raise Bad
        self.at = at + 8
        return int(_U64(self.data, at)[0])

    def align(self, width: int) -> None:
        """Moves to the next multiple of a width."""
        self.skip(-self.at % width)

    def skip(self, count: int) -> None:
        """Moves on by some bytes."""
        if count > self.end - self.at:
            raise Bad
        self.at += count

    def take(self, count: int) -> bytes:
        """The next bytes."""
        at = self.at
        self.skip(count)
        return self.data[at : self.at]

    def guid(self) -> bytes:
        """The next GUID."""
        self.align(4)
        return self.take(16)

    def count(self, width: int, most: int) -> int:
        """The maximum count of an array whose elements have at least `width` bytes each."""
        count = self.u32()
        if count > most or count * width > self.end - self.at:
            raise Bad
        return count

    def string(self, most: int) -> str:
        """A conformant varying string of 16-bit units, without its zero."""
        room, offset, actual = self.u32(), self.u32(), self.u32()
        if offset or actual > room or actual > most or not actual:
            raise Bad
        text = self.take(2 * actual)
        if text[-2:] != b"\0\0":
            raise Bad
        return text[:-2].decode("utf-16-le", "surrogatepass")

    def interface(self, most: int) -> bytes:
        """The pointee of an MInterfacePointer: an OBJREF."""
        room = self.count(1, most)
        if self.u32() != room:
            raise Bad
        return self.take(room)

    def finish(self) -> None:
        """Ends the arguments: what follows may be a verification trailer alone."""
        if self.check is not None and self.at + 8 <= self.end:
            self.check(self.data[self.at + -self.at % 4 : self.end])


class Writer:
    """A stub, or a part of one that begins at a multiple of 8."""

    __slots__ = ("out",)

    def __init__(self) -> None:
        self.out = bytearray()

    def align(self, width: int) -> "Writer":
        """Adds zeros up to the next multiple of a width."""
        self.out += bytes(-len(self.out) % width)
        return self

    def u16(self, *numbers: int) -> "Writer":
        """Adds numbers of 16 bits."""
        self.align(2).out += struct.pack(f"<{len(numbers)}H", *numbers)
        return self

    def u32(self, *numbers: int) -> "Writer":
        """Adds numbers of 32 bits; a negative one as its two's complement."""
        self.align(4).out += struct.pack(f"<{len(numbers)}I", *[it & 0xFFFF_FFFF for it in numbers])
        return self

    def u64(self, *numbers: int) -> "Writer":
        """Adds numbers of 64 bits."""
        self.align(8).out += struct.pack(f"<{len(numbers)}Q", *numbers)
        return self

    def raw(self, data: bytes) -> "Writer":
        """Adds bytes as they are."""
        self.out += data
        return self

    def guid(self, data: bytes) -> "Writer":
        """Adds a GUID."""
        self.align(4).out += data
        return self

    def interface(self, objref: bytes) -> "Writer":
        """Adds the pointee of an MInterfacePointer."""
        return self.u32(len(objref), len(objref)).raw(objref)

    def optional_interface(self, objref: typing.Optional[bytes]) -> "Writer":
        """Adds a unique pointer to an MInterfacePointer."""
        return self.u32(0) if objref is None else self.u32(0x0002_0000).interface(objref)

    def done(self) -> bytes:
        """The bytes written so far."""
        return bytes(self.out)


def serialized(body: Writer) -> bytes:
    """Type serialization version 1 (MS-RPCE section 2.2.6), a multiple of 8 bytes long."""
    data = body.align(8).done()
    return struct.pack("<BBHIII", 1, 0x10, 8, 0xCCCC_CCCC, len(data), 0) + data


def unserialized(data: bytes) -> Reader:
    """The body of a serialized type. Its places count from the end of the two heads of 16 bytes."""
    if len(data) < 16 or data[:2] != b"\x01\x10":
        raise Bad
    return Reader(data, 16)
