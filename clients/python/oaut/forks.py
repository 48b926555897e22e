"""Forks: the sessions that a process has are over in a process that is forked from it."""
from __future__ import annotations

import contextlib
import io
import os
import socket
import typing
import weakref

from .faults import SessionInUse


class Forked(typing.Protocol):
    """Something that has descriptors of its own process only."""

    def forked(self) -> None:
        """Ends it in a process that was forked from its own: closes the descriptors, and sends
        nothing."""


# objects to end in a forked process
_owned: weakref.WeakSet[Forked] = weakref.WeakSet()


def own(it: Forked) -> None:
    """Has this ended in each process that will be forked from this one."""
    _owned.add(it)


def in_use(process: int) -> SessionInUse:
    """The exception of each use of a session in a forked process."""
    told = f"process {process} began this session, and this process was forked from it"
    return SessionInUse(f"{told}: begin another session here", process)


def close(it: object, owned: bool = False) -> None:
    """Closes a stream's descriptor, and flushes nothing: what it holds is the other process's. A
    socket only if it is owned."""
    raw = getattr(it, "raw", it)
    if isinstance(raw, io.FileIO) or owned and isinstance(raw, socket.socket):
        with contextlib.suppress(OSError, ValueError):
            raw.close()


def _forked() -> None:
    for it in list(_owned):
        it.forked()
    _owned.clear()


if hasattr(os, "register_at_fork"):
    os.register_at_fork(after_in_child=_forked)
