"""A server whose list of objects is a reply of many bytes: `python3 large.py BYTES [--frames]`,
over its standard input and output. Its library is empty."""
import struct
import sys

BAD_INDEX, BAD_STUB = 0x8002_000B, 0x8007_06F7


def main():
    size, framed = int(sys.argv[1]), "--frames" in sys.argv
    asked, told = sys.stdin.buffer, sys.stdout.buffer
    held = b""
    while True:
        if framed:
            head = asked.read(8)
            if len(head) < 8:
                return
            client, length = struct.unpack("<II", head)
            held += asked.read(length)
            if not length:
                told.write(head)
                told.flush()
                continue
        else:
            head = asked.read(4)
            if len(head) < 4:
                return
            held += head + asked.read(struct.unpack("<I", head)[0])
        while len(held) >= 4:
            (length,) = struct.unpack_from("<I", held)
            if len(held) < 4 + length:
                break
            body, held = held[4 : 4 + length], held[4 + length :]
            (opcode,) = struct.unpack_from("<H", body, 4)
            code, fields = {10: (BAD_INDEX, b""), 11: (0, bytes(size - 16)), 12: (BAD_STUB, b"")}[
                opcode
            ]
            reply = body[:4] + struct.pack("<III", code, 0xFFFF_FFFF, 0) + fields
            record = struct.pack("<I", len(reply)) + reply
            told.write((struct.pack("<II", client, len(record)) if framed else b"") + record)
        told.flush()


main()
