"""The .reg file with which a Windows machine finds the classes."""
from __future__ import annotations

import typing
import uuid

from oaut.library import Library

from .objects import hub_class

HUB_NAME = "Store"


def _braced(guid: uuid.UUID) -> str:
    return "{" + str(guid).upper() + "}"


def is_name(name: str) -> bool:
    """Whether a ProgID may begin so: a letter, then letters, digits and _, 39 at most."""
    plain = name.isascii() and name.replace("_", "a").isalnum()
    return plain and name[0].isalpha() and len(name) <= 39


def is_host(host: str) -> bool:
    """Whether a text may be a host's name or address."""
    plain = host.replace("-", "a").replace(".", "a").replace(":", "a").replace("_", "a")
    return host.isascii() and plain.isalnum() and len(host) <= 253


def classes_of(library: Library) -> typing.List[typing.Tuple[str, uuid.UUID]]:
    """The names and CLSIDs of the coclasses and of the hub."""
    hub = uuid.UUID(bytes_le=hub_class(library.interfaces[0].guid.bytes_le))
    found = [(it.name, it.guid) for it in library.coclasses]
    return found + [(HUB_NAME, hub)]


def file_of(library: Library, name: str, host: str, remove: bool = False) -> str:
    """The file's text: ProgIDs, CLSIDs, and one AppID that names the server."""
    classes = classes_of(library)
    # (the AppID is made of the hub's CLSID, so that two files of one library agree)
    app = _braced(uuid.uuid5(classes[-1][1], "AppID"))
    lines = ["REGEDIT4", ""]

    def key(path: str, *values: str) -> None:
        lines.append(f"[{'-' if remove else ''}HKEY_CLASSES_ROOT\\{path}]")
        lines.extend(() if remove else values)
        lines.append("")

    for short, guid in classes:
        clsid = _braced(guid)
        if remove:
            key(f"{name}.{short}")
            key(f"CLSID\\{clsid}")
            continue
        key(f"{name}.{short}", f'@="{name}.{short}"')
        key(f"{name}.{short}\\CLSID", f'@="{clsid}"')
        key(f"CLSID\\{clsid}", f'@="{name}.{short}"', f'"AppID"="{app}"')
        key(f"CLSID\\{clsid}\\ProgID", f'@="{name}.{short}"')
    key(f"AppID\\{app}", f'@="{name}"', f'"RemoteServerName"="{host}"')
    return "\r\n".join(lines)
