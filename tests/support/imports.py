"""Which functions a program takes from shared libraries, as the dynamic symbols of its file (ELF,
64 bits, little-endian) have them."""
import struct

DYNAMIC_SYMBOLS = 11
NAME_OF_SECTION_FIELDS = "<IIQQQQIIQQ"
UNDEFINED, FUNCTION, GLOBAL = 0, 2, 1


def imports_of(path):
    """The names of functions that are not defined in the file and have to be found."""
    with open(path, "rb") as file:
        data = file.read()
    if data[:6] != b"\x7fELF\2\1":
        raise ValueError(f"{path} is no ELF file of 64 bits")
    (at,) = struct.unpack_from("<Q", data, 40)
    size, count = struct.unpack_from("<HH", data, 58)
    sections = [
        struct.unpack_from(NAME_OF_SECTION_FIELDS, data, at + place * size)
        for place in range(count)
    ]
    found = set()
    for _, kind, _, _, start, length, link, _, _, each in sections:
        if kind != DYNAMIC_SYMBOLS:
            continue
        names = sections[link][4]
        for place in range(start, start + length, each):
            name, info, _, section = struct.unpack_from("<IBBH", data, place)
            if section == UNDEFINED and info >> 4 == GLOBAL and info & 15 == FUNCTION:
                found.add(data[names + name : data.index(b"\0", names + name)].decode())
    return found
