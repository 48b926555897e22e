"""A store's library and objects as JSON, and a new store of that: both in a stream, so that neither
takes the memory of what the store holds."""
from __future__ import annotations

import contextlib
import decimal
import hashlib
import io
import json
import os
import re
import struct
import tempfile
import typing
import uuid

from . import store as stores
from .contents import OBJECT, Image, Rows, Table, image_of, lay_bank, lines, table
from .faults import WrongValue, system_failures
from .files import (
    Json,
    JsonValue,
    Progress,
    Unusable,
    info_of,
    named,
    new_file,
    opened,
    quiet,
    set_aside,
    used_of,
)
from .idl import Names, names_of
from .programs import PROGRAM, Path, Program, serve
from .values import VT, scaled, text_of

# the number of the form of a dump
FORM = 1
# how many characters of JSON are read at once, and after how many bytes progress is reported
READ, STEP = 262_144, 1_048_576
# the context of all computations, whatever context a program has set for its own decimals
_EXACT = decimal.Context(prec=60)
# the exceptions that a dump raises if it is not that of a table
NO_TABLE = (
    KeyError,
    TypeError,
    ValueError,
    AttributeError,
    ArithmeticError,
    RecursionError,
    struct.error,
    stores.NoImage,
)


# --- values as JSON: exact, and to be read by people


def told_content(vt: int, content: bytes) -> object:
    """The content of a scalar: numbers, which of 64 bits and amounts are texts, as JSON's readers
    may round them."""
    if vt == stores.BSTR:
        if content == stores.NULL_TEXT:
            return None
        text = text_of(content[4:])
        # (a text with half a character is none that JSON's readers agree on)
        well = isinstance(text, str) and not re.search("[\ud800-\udfff]", text)
        return text if well else {"hex": content[4:].hex()}
    if vt == stores.BOOL:
        return content == b"\1"
    if vt == stores.DECIMAL:
        scale, minus, high, low = struct.unpack("<BBIQ", content)
        number = decimal.Decimal(high << 64 | low).scaleb(-scale, _EXACT)
        return f"{'-' if minus else ''}{number:f}"
    if vt not in stores.NUMBERS:
        return None
    (found,) = struct.unpack("<" + stores.NUMBERS[vt], content)
    if vt == stores.CY:
        return f"{decimal.Decimal(found).scaleb(-4, _EXACT):f}"
    return str(found) if vt in (stores.I8, stores.UI8) else found


def content_of(vt: int, told: JsonValue) -> bytes:
    """Returns the content for the result of `told_content`, or raises an exception: no other form
    is accepted."""
    if vt == stores.BSTR:
        if told is None:
            return stores.NULL_TEXT
        hexed = isinstance(told, dict)
        text = bytes.fromhex(told["hex"]) if hexed else typing.cast(bytes, told.encode("utf-16-le"))
        return struct.pack("<I", len(text)) + text
    if vt == stores.BOOL:
        if not isinstance(told, bool):
            raise WrongValue(f"{told!r} is neither true nor false")
        return b"\1" if told else b"\0"
    if vt == stores.DECIMAL:
        sign, digits, exponent = decimal.Decimal(str(told)).as_tuple()
        number = int("".join(map(str, digits)))
        low = number & 0xFFFF_FFFF_FFFF_FFFF
        return struct.pack("<BBIQ", -int(exponent), sign, number >> 64, low)
    if vt not in stores.NUMBERS:
        if told is not None:
            raise WrongValue(f"{told!r} is no value here")
        return b""
    if type(told) is int and vt != stores.CY:
        return struct.pack("<" + stores.NUMBERS[vt], told)
    units = scaled(decimal.Decimal(str(told)), 4 if vt == stores.CY else 0)
    if units is None:
        raise WrongValue(f"{told!r} is no {VT(vt).name}")
    return struct.pack("<" + stores.NUMBERS[vt], units)


def told_scalar(it: stores.Scalar) -> Json:
    """A scalar as JSON."""
    told = told_content(*it)
    kind: Json = {"type": VT(it[0]).name}
    return kind if told is None and it[0] != stores.BSTR else {**kind, "value": told}


def scalar_of(told: Json) -> stores.Scalar:
    """Returns the scalar for the result of `told_scalar`."""
    vt = int(VT[told["type"]])
    return vt, content_of(vt, told.get("value"))


def told_value(it: stores.Value) -> Json:
    """A scalar or an array as JSON."""
    if not isinstance(it, stores.Array):
        return told_scalar(it)
    cells = [
        told_scalar(cell) if isinstance(cell, tuple) else told_content(it.vt, cell)
        for cell in it.cells
    ]
    return {"array": VT(it.vt).name, "bounds": [list(bound) for bound in it.bounds], "cells": cells}


def value_of(told: Json) -> stores.Value:
    """Returns the value for the result of `told_value`."""
    if "array" not in told:
        return scalar_of(told)
    vt = int(VT[told["array"]])
    cells: list[stores.Cell] = [
        scalar_of(cell) if vt == stores.VARIANT else content_of(vt, cell) for cell in told["cells"]
    ]
    return stores.Array(vt, [(count, lower) for count, lower in told["bounds"]], cells)


def told_cell(place: bytes, value: bytes, names: Names) -> Json:
    """A cell as JSON, of the images of its place and of its value. The member's name is for people:
    nothing is read from it."""
    face, dispid, key = stores.place(stores.Bytes(place))
    told: Json = {"interface": stores.guid_text(face), "dispid": dispid}
    name = names.member(told["interface"], dispid)
    if name is not None:
        told["name"] = name
    if key:
        told["key"] = [told_scalar(it) for it in key]
    told.update(told_value(stores.value(stores.Bytes(value))))
    return told


# --- dumps


def parts(library: str, found: Table) -> typing.Iterator[str]:
    """A dump in parts, a line for each cell."""
    head, names = json.dumps(library, ensure_ascii=False), names_of(library)
    yield f'{{"dump": "oaut", "form": {FORM}, "library": {head}, "next": {found.next}, "objects": ['
    end, comma = "", ""
    for number, _, image, value in found.rows:
        if value is None:
            coclass = stores.guid_text(image)
            yield f'{end}\n {{"number": {number}, "coclass": "{coclass}", "cells": ['
            end, comma = "]},", ""
        else:
            told = json.dumps(told_cell(image, value, names), ensure_ascii=False)
            yield f"{comma}\n  {told}"
            comma = ","
    yield end.rstrip(",") + "\n]}\n"


def write_dump(
    path: Path, out: typing.TextIO, live: bool = False, progress: Progress = quiet
) -> None:
    """Writes a store's library and its objects as JSON, in a form that `restore` reads. Output
    before an exception is not a dump."""
    with opened(path, live) as (file, bank), named(path), table(file, bank) as found:
        try:
            library = os.pread(file, bank.library, bank.body).decode()
        except UnicodeDecodeError:
            raise Unusable(f"{os.fspath(path)}: its library is not UTF-8") from None
        for some in parts(library, watched(found, progress)):
            out.write(some)


def watched(found: Table, progress: Progress) -> Table:
    """Returns the same table, and reports progress when its rows are read."""
    whole = found.groups.size

    def rows() -> Rows:
        done = told = 0
        for row in found.rows:
            done += len(row[2]) + len(row[3] or b"")
            if done - told >= STEP:
                told = done
                progress(min(done, whole), whole)
            yield row
        progress(whole, whole)

    return found._replace(rows=rows())


@system_failures()
def dump(path: Path, live: bool = False) -> Json:
    """Returns the dump of a store as a dictionary."""
    with typing.cast(typing.TextIO, tempfile.TemporaryFile("w+", encoding="utf-8")) as held:
        write_dump(path, held, live)
        held.seek(0)
        return typing.cast(Json, json.load(held))


@system_failures()
def counted(path: Path, live: bool = False, progress: Progress = quiet) -> Json:
    """The results of `info`, and those that need reading everything: the numbers of log records,
    objects and cells, the next number, and the bytes of the serialized table."""
    with opened(path, live) as (file, bank), named(path), table(file, bank) as found:
        objects, cells, size = 0, 0, 8
        for _, _, image, value in watched(found, progress).rows:
            if value is None:
                objects, size = objects + 1, size + OBJECT.size
            else:
                cells, size = cells + 1, size + len(image) + len(value)
        return {
            **info_of(file, bank),
            **used_of(bank, size, True),
            "events": found.groups.events,
            "next": found.next,
            "objects": objects,
            "cells": cells,
            "image_size": size,
        }


@system_failures()
def verified(path: Path, live: bool = False, progress: Progress = quiet) -> Json:
    """Reads all of a store. Returns the numbers of its objects and cells, and the SHA-256 of what
    `oaut dump` prints, which is the same for each store with the same objects. Raises Unusable if
    something is damaged."""
    with opened(path, live) as (file, bank), named(path), table(file, bank) as found:
        objects = cells = 0
        digest = hashlib.sha256()
        for line in lines(watched(found, progress)):
            digest.update(line.encode())
            objects += line.startswith("object")
            cells += line.startswith("cell")
        library = hashlib.sha256(os.pread(file, bank.library, bank.body)).hexdigest()
        told = {"objects": objects, "cells": cells, "sha256": digest.hexdigest()}
        return {**told, "library_sha256": library}


# --- JSON in a stream


class NoJson(Unusable, ValueError):
    """A text that is no JSON, with the place."""


class Reader:
    """JSON that is read part by part. Raises NoJson if it is none."""

    def __init__(self, stream: typing.TextIO, progress: Progress = quiet) -> None:
        self.stream, self.decoder, self.progress = stream, json.JSONDecoder(), progress
        self.text, self.place, self.passed, self.ended = "", 0, 0, False
        self.size = 0
        with contextlib.suppress(
            io.UnsupportedOperation
        ):  # (no progress is reported for a StringIO)
            self.size = os.fstat(stream.fileno()).st_size

    def more(self) -> bool:
        """Reads on: as much as was not taken yet, and some. Whether there was more."""
        rest = self.text[self.place :]
        try:
            some = "" if self.ended else self.stream.read(max(READ, len(rest)))
        except UnicodeDecodeError as error:
            raise NoJson(f"it is not UTF-8: {error.reason}") from None
        self.passed += self.place
        self.progress(min(self.passed, self.size), self.size)
        self.text, self.place, self.ended = rest + some, 0, not some
        return bool(some)

    def sign(self) -> str:
        """The next character that is no blank, or nothing at the end."""
        while True:
            while self.place < len(self.text) and self.text[self.place] in " \t\r\n":
                self.place += 1
            if self.place < len(self.text):
                return self.text[self.place]
            if not self.more():
                return ""

    def take(self, sign: str) -> bool:
        """Whether this is the next character, which is passed then."""
        well = self.sign() == sign
        self.place += well
        return well

    def need(self, sign: str) -> None:
        """Passes this character."""
        if not self.take(sign):
            found = self.sign() or "the end"
            raise NoJson(f"{found} instead of {sign} at character {self.passed + self.place}")

    def value(self) -> JsonValue:
        """The next value, whole."""
        self.sign()
        while True:
            try:
                found, end = self.decoder.raw_decode(self.text, self.place)
            except json.JSONDecodeError as error:
                cut = error.msg.startswith("Unterminated") or error.pos > len(self.text) - 16
                place = self.passed + error.pos
                if not cut or not self.more():
                    raise NoJson(f"{error.msg} at character {place}") from None
                continue
            # (a number may go on)
            if end < len(self.text) or self.ended or not isinstance(found, (int, float)):
                self.place = end
                return found
            self.more()

    def members(self) -> typing.Iterator[str]:
        """The names of an object's members, each before its value, which is to be read then."""
        self.need("{")
        while not self.take("}"):
            yield self.name()
            if self.sign() != "}":
                self.need(",")

    def name(self) -> str:
        """The name of a member, and the colon after it."""
        if self.sign() != '"':
            self.need('"')
        found = self.value()
        self.need(":")
        return str(found)

    def items(self) -> typing.Iterator[None]:
        """The items of a list, each before it is to be read."""
        self.need("[")
        while not self.take("]"):
            yield
            if self.sign() != "]":
                self.need(",")


# --- new stores


@system_failures()
def restore(
    told: Json | typing.TextIO,
    path: Path,
    library: Path | None = None,
    bank: int = stores.BANK,
    program: Program = PROGRAM,
    progress: Progress = quiet,
) -> None:
    """Makes a new store of a dump, a dictionary or the stream of a text: the objects keep their
    numbers, and the next one gets the number that it would have got. With `library`, a file, uses
    another library: it has to be compatible with the dump's, else IncompatibleLibrary is raised and
    no store is left. In a stream the library comes first, then objects and cells in the order of
    `dump`."""
    if not stores.BANK <= bank <= stores.MOST_BANK:
        raise WrongValue(f"a bank has from {stores.BANK} to {stores.MOST_BANK} bytes")
    with contextlib.ExitStack() as stack:
        if isinstance(told, (dict, list)):
            told = stack.enter_context(streamed(told))
        file, name = stack.enter_context(new_file(path))
        set_aside(file, stores.length_of(bank))
        try:
            text = laid(Reader(told, progress), file, bank)
        except NoJson:
            raise
        except NO_TABLE as error:
            raise Unusable(f"the dump tells no table: {error!r}") from error
        if library is not None:
            with tempfile.NamedTemporaryFile(suffix=".idl") as old:
                old.write(text)
                old.flush()
                with serve(name, old.name, program=program) as server:
                    server.replace_library(library)


def streamed(told: Json) -> typing.TextIO:
    """A dump that is a dictionary as a stream, its objects and cells in order."""
    held = typing.cast(typing.TextIO, tempfile.TemporaryFile("w+", encoding="utf-8"))
    try:
        objects = sorted(told["objects"], key=lambda it: typing.cast(int, it["number"]))
        objects = [{**it, "cells": sorted(it["cells"], key=told_order)} for it in objects]
        head = {name: it for name, it in told.items() if name != "objects"}
        json.dump({**head, "objects": objects}, held)
    except NO_TABLE as error:
        held.close()
        raise Unusable(f"the dump tells no table: {error!r}") from error
    held.seek(0)
    return held


def told_place(told: Json) -> stores.Place:
    """Returns the place of a cell from its JSON."""
    key = tuple(scalar_of(it) for it in told.get("key", []))
    return uuid.UUID(told["interface"]).bytes_le, told["dispid"], key


def told_order(told: Json) -> tuple[object, ...]:
    """The sort key of a cell in JSON."""
    return stores.place_order(told_place(told))


def laid(reader: Reader, file: int, bank: int) -> bytes:
    """Makes an empty file a store, with banks of so many bytes, of what is read. Gives the text of
    its library."""
    told: Json = {}
    text, image, begun, last, count = b"", None, 0, 0, 0
    for name in reader.members():
        if name != "objects":
            told[name] = reader.value()
            continue
        stores.need(image is None)
        if told.get("dump") != "oaut" or told.get("form") != FORM:
            raise Unusable("no dump of a store, or one of another form")
        text = told["library"].encode()
        image = image_of(file, text, bank)
        begun = image.add(bytes(8))
        for _ in reader.items():
            number = laid_object(reader, image)
            if number <= last:
                raise Unusable(f"the dump is no table: object {number} comes after {last}")
            last, count = number, count + 1
    if reader.sign():
        raise NoJson(f"there is more at character {reader.passed + reader.place}")
    if image is None:
        raise Unusable("no dump of a store, or one of another form")
    stores.need(last < told["next"])
    image.mend(begun, struct.pack("<II", told["next"], count))
    lay_bank(image, text, bank)
    return text


def laid_object(reader: Reader, image: Image) -> int:
    """Writes the next object, and gives its number."""
    told: Json = {}
    begun = image.add(bytes(OBJECT.size))
    before, count = None, 0
    for name in reader.members():
        if name != "cells":
            told[name] = reader.value()
            continue
        for _ in reader.items():
            cell = reader.value()
            place = told_place(cell)
            order = stores.place_order(place)
            if before is not None and order <= before:
                where = f"{cell['interface']} {cell['dispid']}"
                raise Unusable(f"the dump is no table: cell {where} comes too late")
            before, count = order, count + 1
            image.add(place_image(place) + value_image(cell))
    number, coclass = told["number"], uuid.UUID(told["coclass"]).bytes_le
    stores.need(number > 0)
    image.mend(begun, OBJECT.pack(number, coclass, count))
    return typing.cast(int, number)


# (decoding the encoded value has to return the same value: JSON may have more cells than the
# bounds)


def place_image(place: stores.Place) -> bytes:
    """Returns the encoding of a place from its JSON."""
    image = stores.place_image(place)
    stores.need(stores.place(stores.Bytes(image)) == place)
    return image


def value_image(told: Json) -> bytes:
    """Returns the encoding of a value from its JSON."""
    value = value_of(told)
    image = stores.value_image(value)
    read = stores.Bytes(image)
    stores.need(stores.value(read) == value and read.place == read.end)
    return image
