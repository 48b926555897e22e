"""The keys of a property with parameters, from the store's file or from the gateway."""
from __future__ import annotations

import contextlib
import json
import struct
import time
import typing
import uuid

from . import contents
from . import store as stores
from .addresses import Address
from .faults import ProtocolError, SessionEnded, WrongUse
from .files import opened
from .paths import Path
from .programs import dialled
from .values import Value, scalar_of
from .watching import object_of, refuse_tls

# seconds: how long the gateway is asked again if it is busy, and after what
PATIENCE, AGAIN = 30, 0.05


def keys_from(
    path: Path | None, watch: Address | None, number: int, interface: bytes, dispid: int
) -> list[tuple[Value, ...]]:
    """The arguments of all values of a property that were put, in the store's order: from the
    store's file, or else from the socket of a gateway's `--watch`."""
    if path is not None:
        return keys_of(path, number, interface, dispid)
    if watch is not None:
        with contextlib.suppress(FileNotFoundError):
            return keys_at(watch, number, interface, dispid)
    told = "connect(.., store=PATH), or connect(.., watch=ADDRESS) of a gateway"
    raise WrongUse(f"keys are read from the store's file: {told}")


def scalar_value(it: stores.Scalar) -> Value:
    """The value of a scalar of a store's file."""
    vt, content = it
    if vt == stores.BSTR:
        return scalar_of(vt, None if content == stores.NULL_TEXT else content[4:])
    if vt == stores.DECIMAL:
        scale, minus, high, low = struct.unpack("<BBIQ", content)
        return scalar_of(vt, (scale, minus, high << 64 | low))
    if vt == stores.BOOL:
        return content != b"\0"
    number = struct.unpack("<" + stores.NUMBERS[vt], content)[0] if vt in stores.NUMBERS else None
    return scalar_of(vt, number)


def keys_of(path: Path, number: int, interface: bytes, dispid: int) -> list[tuple[Value, ...]]:
    """The arguments of all values of a property that were put, in the store's order, from its file,
    which may be served meanwhile. All changes that were acknowledged before are there. Empty if
    there is no such object."""
    wanted = interface + struct.pack("<i", dispid)
    found = []
    with opened(path, live=True) as (file, bank), contents.table(file, bank) as table:
        for of, _, image, value in table.rows:
            if of > number:
                break
            if of == number and value is not None and image[:20] == wanted:
                _, _, key = stores.place(stores.Bytes(image))
                found.append(tuple(map(scalar_value, key)))
    return found


def keys_at(
    address: Address, number: int, interface: bytes, dispid: int, timeout: float | None = None
) -> list[tuple[Value, ...]]:
    """The same from the socket of a gateway's `--watch`."""
    guid = uuid.UUID(bytes_le=interface)
    line = f"keys object={number} interface={guid} member={dispid}\n".encode()
    until = time.monotonic() + PATIENCE
    while True:
        with contextlib.closing(dialled(refuse_tls(address), timeout)) as sock:
            sock.sendall(line)
            told, *keys = b"".join(iter(lambda: sock.recv(1 << 18), b"")).split(b"\n")
        first = object_of(told)
        if "busy" not in first or time.monotonic() > until:
            break
        time.sleep(AGAIN)
    if "keys" not in first:
        raise ProtocolError(f"the gateway sends no keys: {first.get('refused', told)}")
    if len(keys) != typing.cast(int, first["keys"]) + 1:
        raise SessionEnded("the gateway has ended while it sent keys")
    head = interface + struct.pack("<i", dispid)
    try:
        images = [stores.Bytes(head + bytes.fromhex(json.loads(it))) for it in keys[:-1]]
        found = sorted(map(stores.place, images), key=stores.place_order)
    except (TypeError, ValueError, stores.NoImage) as error:
        raise ProtocolError("keys of the gateway that are none") from error
    return [tuple(map(scalar_value, key)) for _, _, key in found]
