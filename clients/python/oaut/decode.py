"""Records in words."""
from __future__ import annotations

import binascii
import sys
import typing
import uuid

from .faults import CODES, Error, ProtocolError
from .framing import Raw
from .library import (
    DEFAULT_INTERFACE,
    HAS_DEFAULT,
    IN,
    OPTIONAL,
    READ_ONLY,
    Coclass,
    Description,
    Interface,
    Parameter,
    read_description,
    type_word,
)
from .records import (
    CREATE,
    GETELEM,
    GETIDS,
    INVOKE,
    LIST,
    LOCK,
    METHOD,
    NEW_VALUE,
    OPCODES,
    PROPERTYGET,
    PROPERTYPUT,
    PROPERTYPUTREF,
    PUTELEM,
    REDIM,
    RELEASE,
    REPLACE,
    TWO,
    TYPEINFO,
    UNLOCK,
    Fields,
    read_ids,
    read_number,
    read_objects,
    read_reply,
    read_value,
)
from .wire import read_field
from .words import words_of

_FLAG_WORDS = (
    (METHOD, "METHOD"),
    (PROPERTYGET, "PROPERTYGET"),
    (PROPERTYPUT, "PROPERTYPUT"),
    (PROPERTYPUTREF, "PROPERTYPUTREF"),
)


def request_words(body: bytes) -> str:
    """A request in words. Raises ProtocolError if the body is none."""
    at = Fields(body)
    tag, opcode, _ = at.take("IHH")
    if opcode not in OPCODES:
        raise ProtocolError(f"no request has the opcode {opcode}")
    told = f"request {tag}: {OPCODES[opcode]}"
    if opcode == CREATE:
        told += f" coclass {at.guid()}"
    elif opcode in (RELEASE, TYPEINFO):
        told += f" {'object' if opcode == RELEASE else 'index'} {at.take('II')[0]}"
    elif opcode == GETIDS:
        number, _ = at.take("II")
        interface, riid, (_, count) = at.guid(), at.guid(), at.take("II")
        told += f" object {number}{_other('interface', interface)}{_other('riid', riid)} "
        told += " ".join(at.string() for _ in range(count))
    elif opcode == REPLACE:
        count, _ = at.take("II")
        told += f" the library by {len(at.padded_bytes(count))} bytes of text"
    elif opcode != LIST:
        told += _call_words(at, opcode)
    at.end()
    return told


def _other(word: str, guid: uuid.UUID) -> str:
    return f" {word} {guid}" if guid.int else ""


def _call_words(at: Fields, opcode: int) -> str:
    number, dispid = at.take("Ii")
    interface, riid = at.guid(), at.guid()
    _, flags, _, count, named = at.take("IHHII")
    dispids = at.take(f"{named}i")
    at.pad()
    told = f" object {number} dispid {dispid}{_other('interface', interface)}{_other('riid', riid)}"
    if opcode == INVOKE:
        told += " " + (
            "|".join(word for bit, word in _FLAG_WORDS if flags & bit) or f"flags {flags}"
        )
    arguments = [_field_words(at.variant()) for _ in range(count)]
    names = ["new value" if it == NEW_VALUE else f"parameter {it}" for it in dispids]
    names += [f"place {count - 1 - place}" for place in range(named, count)]
    told += "".join(f", {name} = {it}" for name, it in zip(names, arguments))
    if opcode in (GETELEM, PUTELEM):
        told += f", element {at.integers()}"
    if opcode == PUTELEM:
        told += f" = {_field_words(at.variant())}"
    if opcode == REDIM:
        count, lower = at.take("Ii")
        told += f", {count} from {lower}"
    return told


def _field_words(field: bytes) -> str:
    try:
        return words_of(read_field(field))
    except ProtocolError as error:
        return f"no value ({error}) {field.hex()}"


def description_words(found: Description, interfaces: typing.Sequence[Interface] = ()) -> list[str]:
    """A description in lines of words, much as a library's text."""
    if isinstance(found, Coclass):
        lines = [f"coclass {found.name} {found.guid}"]
        for flags, index in found.entries:
            name = interfaces[index].name if index < len(interfaces) else f"interface {index}"
            lines.append(f"  {'[default] ' if flags & DEFAULT_INTERFACE else ''}{name}")
        return lines
    kinds = {0: "", METHOD: "method ", PROPERTYGET: "get ", PROPERTYPUT: "put "}
    lines = [f"dispinterface {found.name} {found.guid}"]
    for form in found.forms:
        parameters = (
            f"({', '.join(_parameter_words(it) for it in form.parameters)})" if form.kind else ""
        )
        readonly = " readonly" if form.flags & READ_ONLY else ""
        kind = kinds.get(form.kind, f"kind {form.kind} ")
        lines.append(
            f"  {form.dispid}: {kind}{type_word(form.vt)} {form.name}{parameters}{readonly}"
        )
    return lines


def _parameter_words(it: Parameter) -> str:
    words = ["in"] * bool(it.flags & IN) + ["optional"] * bool(it.flags & OPTIONAL)
    words += [f"default {words_of(it.default)}"] * bool(it.flags & HAS_DEFAULT)
    return (f"[{', '.join(words)}] " if words else "") + f"{type_word(it.vt)} {it.name}"


_REPLY_WORDS: dict[int, typing.Callable[[bytes], str]] = {
    CREATE: lambda it: f"object {read_number(it)}",
    GETIDS: lambda it: f"dispids {read_ids(it)}",
    INVOKE: lambda it: words_of(read_value(it)) if it else "",
    GETELEM: lambda it: words_of(read_value(it)),
    LOCK: lambda it: f"{read_number(it)} locks",
    UNLOCK: lambda it: f"{read_number(it)} locks",
    TYPEINFO: lambda it: "\n    ".join(description_words(read_description(it))),
    LIST: lambda it: "objects "
    + (", ".join(f"{number} {guid}" for number, guid in read_objects(it)) or "none"),
}


def reply_words(body: bytes, opcode: int | None = None) -> str:
    """A reply in words. If the request's opcode is unknown, its fields are printed as what they
    look like."""
    tag, code, index, fields = read_reply(body)
    name = "S_OK" if code == 0 else CODES[code].name if code in CODES else f"0x{code:08x}"
    told = f"reply {tag}: {name}" + ("" if index is None else f", argument {index}")
    if fields:
        likely = (INVOKE, TYPEINFO, CREATE, GETIDS, LIST) if opcode is None else (opcode,)
        for it in likely:
            try:
                return f"{told}: {_REPLY_WORDS[it](fields)}"
            except (Error, LookupError, ValueError):
                continue
        told += f": {fields.hex()}"
    return told


def decode(bodies: typing.Iterable[bytes]) -> typing.Iterator[str]:
    """Records in words, one after another. A reply is matched to the last request with its tag."""
    asked: dict[int, int] = {}
    for body in bodies:
        try:
            if len(body) < 8:
                raise ProtocolError("a record has at least 8 bytes")
            tag, what = TWO.unpack_from(body)
            if 0 < what < 0x8000_0000:
                asked[tag] = what & 0xFFFF
                yield request_words(body)
            else:
                yield reply_words(body, asked.get(tag) if asked.get(tag) in _REPLY_WORDS else None)
        except (ProtocolError, UnicodeError) as error:
            yield f"no record ({error}): {body.hex()}"


def bodies_of(stream: typing.BinaryIO, framing: str) -> typing.Iterator[bytes]:
    """The bodies of a file; a line may begin with > or <, as `-v` of `talk` prints them. Reports
    lines that are not digits."""
    if framing == "raw":
        while True:
            body = Raw.read(stream)
            if body is None:
                return
            yield body
    for line in stream:
        line = line.strip().lstrip(b"<> ")
        if line:
            try:
                yield binascii.unhexlify(line)
            except binascii.Error:
                print(f"no hexadecimal digits: {line.decode('ascii', 'replace')}")


def run(files: typing.Sequence[str], framing: str) -> int:
    """Prints the records of some files, of standard input if none is named."""
    for name in files or ("-",):
        if name == "-":
            for line in decode(bodies_of(sys.stdin.buffer, framing)):
                print(line)
        else:
            with open(name, "rb") as file:
                for line in decode(bodies_of(file, framing)):
                    print(line)
    return 0
