"""Copies of a store's file: of one that nobody has, and of one that is served."""
from __future__ import annotations

import os

from .faults import system_failures
from .files import (
    PIECE,
    Bank,
    Progress,
    Unusable,
    locked,
    new_file,
    pieces,
    put,
    quiet,
    set_aside,
    taken,
    while_served,
)
from .programs import Path

ZEROS = bytes(PIECE)


@system_failures()
def copy(path: Path, to: Path, progress: Progress = quiet) -> None:
    """A copy of a store's file, byte for byte, which gets its name once it was read back. Raises
    StoreInUse if a process has the store, FileExistsError if the copy's name is taken."""
    with locked(path) as (file, _), new_file(to, path) as (new, _):
        length = os.fstat(file).st_size
        set_aside(new, length)
        for place, some in pieces(file, 0, length):
            if some != ZEROS[: len(some)]:
                put(new, place, some)
            progress((place + len(some)) // 2, length)
        os.fsync(new)
        for place, some in pieces(file, 0, length):
            if os.pread(new, len(some), place) != some:
                raise Unusable(f"{os.fspath(to)}: the copy does not hold what the store does")
            progress((length + place + len(some)) // 2, length)


@system_failures()
def backup(path: Path, to: Path, progress: Progress = quiet) -> None:
    """A copy of a store that may be served meanwhile: all that was acknowledged before it began,
    and perhaps more, in whole groups. It takes no lock, and the server waits for nothing. Of the
    two banks it has the one in use. Raises FileExistsError if the copy's name is taken, Unusable if
    the file is no store."""
    with new_file(to, path) as (new, _):

        def take(file: int, bank: Bank) -> None:
            os.truncate(new, 0)
            set_aside(new, bank.length)
            taken(file, bank, new, progress)

        while_served(path, take)
