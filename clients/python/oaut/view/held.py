"""The page's reads of a store's file while a server writes it."""
from __future__ import annotations

import os
import time

from .. import store as stores
from ..contents import table
from ..faults import Error
from ..files import Json, info, opened, while_served

# the keys for which the properties of an object were put, in their order: digits by interface and
# DISPID
Keys = dict[tuple[bytes, int], list[str]]
# a part of the time that readings of the file may take
SHARE = 10


class Held:
    """A store's file. It is read again if it has changed, but never so often that it is read for
    more than a tenth of the time."""

    def __init__(self, path: str) -> None:
        self.path = path
        self._number = -1
        self._keys: Keys = {}
        self._mark: object = None
        self._due = 0.0

    def library(self) -> str:
        """The library's canonical text."""
        found = while_served(self.path, lambda file, of: os.pread(file, of.library, of.body))
        return found.decode("utf-8", "replace")

    def text(self) -> str | None:
        """Does the same, but returns None if the file may not be read."""
        try:
            return self.library()
        except (OSError, Error):
            return None

    def keys(self, number: int) -> Keys | None:
        """The keys of an object's properties with parameters, or None if the file may not be
        read."""
        begun = time.monotonic()
        try:
            state = os.stat(self.path)
            mark = state.st_mtime_ns, state.st_size, state.st_ino
            if number == self._number and (mark == self._mark or begun < self._due):
                return self._keys
            found = self._read(number)
        except (OSError, Error, stores.Damaged):
            return None
        self._number, self._keys, self._mark = number, found, mark
        self._due = begun + SHARE * (time.monotonic() - begun)
        return found

    def _read(self, number: int) -> Keys:
        found: Keys = {}
        with opened(self.path, live=True) as (file, bank), table(file, bank) as held:
            for one, _, image, value in held.rows:
                if one > number:
                    break
                if one == number and value is not None and image[20:22] != b"\0\0":
                    dispid = int.from_bytes(image[16:20], "little", signed=True)
                    found.setdefault((image[:16], dispid), []).append(image[22:].hex())
        return found

    def status(self) -> Json:
        """The state of the file, by its heads and gates alone: sizes in bytes."""
        try:
            told = info(self.path, live=True)
        except (OSError, Error):
            return {}
        return {**told, "checkpoint": told["log_free"]}
