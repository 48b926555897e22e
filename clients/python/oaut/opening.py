"""A store that is opened as it is needed: made, served, given another library, or upgraded."""
from __future__ import annotations

import os

from .faults import LibraryDiffers, OldFormat, system_failures
from .framing import FRAMING
from .paths import Path, text_file
from .programs import PROGRAM, Program, library_of, make_store, play, serve, upgrade_store
from .session import Server


@system_failures()
def open(
    store: Path,
    library: Path | None = None,
    *,
    upgrade: bool = False,
    bank: int | None = None,
    sparse: bool = False,
    group: int | None = None,
    program: Program = PROGRAM,
    framing: str = FRAMING,
    timeout: float | None = None,
) -> Server:
    """A session with a store, whatever has to be done for it. A store that is not there is made of
    `library`, a file. One of the same library is served. One of another library gets this one if it
    keeps what the other has; else IncompatibleLibrary is raised, which names what would be lost,
    and nothing was changed. A store of format 1 is brought to format 2 if `upgrade` is said, else
    OldFormat is raised. Without `library` the store has to be there, and is served by its own.
    `bank` is the number of bytes of each bank of a store that is made or upgraded. A new store
    takes 75,505,664 bytes with the least banks; with `sparse=True` only what was written takes room
    on the device, as `make_store` says."""

    def served(of: Path | None) -> Server:
        return serve(store, of, group, program, framing, timeout=timeout)

    if library is None:
        try:
            return served(None)
        except OldFormat:
            if not upgrade:
                raise
        upgrade_store(store, program, bank=bank)
        return served(None)
    if not os.path.exists(store):
        try:
            make_store(store, library, program, bank=bank, sparse=sparse)
        except FileExistsError:
            pass  # another process was faster
    try:
        return served(library)
    except LibraryDiffers:
        pass
    except OldFormat:
        if not upgrade:
            raise
        # report what the new library would lose before anything is changed
        with text_file(library_of(store)) as old, play(old, program) as server:
            server.replace_library(library)
        upgrade_store(store, program, bank=bank)
        try:
            return served(library)
        except LibraryDiffers:
            pass
    server = served(None)
    try:
        server.replace_library(library)
    except BaseException:
        server.__exit__(Exception)
        raise
    return server
