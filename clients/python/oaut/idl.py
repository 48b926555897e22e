"""The names in a library's canonical text (docs/reference/idl.md), without the program: each line
has one item."""
from __future__ import annotations

import re
import typing
import uuid

_ITEM = re.compile(r"\[uuid\(([0-9a-f-]{36})\)")
_HEAD = re.compile(r"(dispinterface|coclass) (\w+) \{")
_MEMBER = re.compile(r"\[id\((-?\d+)\)[^\]]*\] (?:SAFEARRAY\([\w ]+\)|[\w ]+?) (\w+)[(;]")

Guid = typing.Union[str, uuid.UUID]


class Names:
    """The names of a library: of its interfaces, coclasses and members, by GUID and DISPID."""

    def __init__(self, text: str) -> None:
        self._interfaces: dict[str, str] = {}
        self._coclasses: dict[str, str] = {}
        self._members: dict[tuple[str, int], str] = {}
        guid, within = "", ""
        for line in text.splitlines():
            item, head, member = _ITEM.match(line), _HEAD.match(line), _MEMBER.match(line)
            if item is not None:
                guid = item[1]
            elif head is not None:
                within = guid
                of = self._interfaces if head[1] == "dispinterface" else self._coclasses
                of[guid] = head[2]
            elif member is not None:
                self._members.setdefault((within, int(member[1])), member[2])

    def interface(self, guid: Guid) -> str | None:
        """The name of an interface."""
        return self._interfaces.get(str(guid).lower())

    def coclass(self, guid: Guid) -> str | None:
        """The name of a coclass."""
        return self._coclasses.get(str(guid).lower())

    def member(self, interface: Guid, dispid: int) -> str | None:
        """The name of a member."""
        return self._members.get((str(interface).lower(), dispid))


def names_of(text: str | bytes) -> Names:
    """The names in a canonical text."""
    return Names(text if isinstance(text, str) else text.decode("utf-8", "replace"))
