"""The common parts of a store's references, in a file that outlives this program: the OXID, and a
table of the GUIDs of interfaces and coclasses that only grows.

A reference (IPID) has places of this table in it. So it keeps its meaning when the server gets
another library. A store whose file is another one gets a new OXID: its numbers may have been given
before, and references to the old store are refused."""
from __future__ import annotations

import contextlib
import errno
import fcntl
import os
import secrets
import stat
import struct
import tempfile
import typing
import uuid

_HEAD = "oaut-dcom 1"
INTERFACE, COCLASS = "interface", "coclass"
# the name for a store without a file yet: no state is tied to it
_NO_FILE = "none"
_HERE, _BIRTH = -100, 0x800  # of statx(2): paths are of this process's folder; the time of birth
# the places of the table that a reference has room for
MOST = {INTERFACE: 0xFF00, COCLASS: 0x1F00}


class IdentityFault(Exception):
    """The file of the identity cannot be used."""


def store_words(path: str) -> str:
    """A store file's device, inode and time of birth, which distinguish it from others, or `none`
    if there is no file yet. (A file that is made after one was removed often has its inode.)"""
    try:
        state = os.stat(path)
    except FileNotFoundError:
        return _NO_FILE
    except OSError as error:
        raise IdentityFault(f"{path}: {error.strerror}") from error
    return f"{state.st_dev:x}.{state.st_ino:x}{_birth(path)}"


def _birth(path: str) -> str:
    """The time of a file's birth after a dot, or nothing if the system does not know it."""
    try:
        import ctypes

        held = ctypes.create_string_buffer(256)
        statx = ctypes.CDLL(None).statx
        if statx(ctypes.c_int(_HERE), os.fsencode(path), 0, ctypes.c_uint(_BIRTH), held):
            return ""
    except (ImportError, OSError, AttributeError, MemoryError):
        return ""
    (known,) = struct.unpack_from("<I", held)
    seconds, rest = struct.unpack_from("<qI", held, 80)
    return f".{seconds * 1_000_000_000 + rest:x}" if known & _BIRTH else ""


def is_same_store(one: str, other: str) -> bool:
    """Whether two files are the same, as far as both say which they are."""
    return all(its == others for its, others in zip(one.split("."), other.split(".")))


class Identity:
    """The identity of one store. Without a path it lasts as long as the process."""

    def __init__(self, path: str = "", store: str = "") -> None:
        self._path, self._store = path, store
        self.oxid = 0
        self._guids: typing.Dict[str, typing.List[bytes]] = {INTERFACE: [], COCLASS: []}
        self._places: typing.Dict[str, typing.Dict[bytes, int]] = {INTERFACE: {}, COCLASS: {}}
        self._lock: typing.Optional[int] = None
        # the file that was read or written, held open so that its inode is not another one's: no
        # other file is replaced
        self._file: typing.Optional[int] = None
        # a message to print at the start
        self.notes: typing.List[str] = []
        try:
            if path:
                self._hold()
                self._load()
            if not self.oxid:
                self.oxid = secrets.randbits(63) | 1
                self._save()
        except IdentityFault:
            self.close()
            raise

    def close(self) -> None:
        """Lets another process have the file."""
        for it in (self._lock, self._file):
            if it is not None:
                os.close(it)
        self._lock = self._file = None

    def _keep(self, file: int) -> None:
        if self._file is not None:
            os.close(self._file)
        self._file = os.dup(file)

    def _is_own(self) -> bool:
        """Whether the file of this name is the one that was read or written, or there is none."""
        try:
            there = os.lstat(self._path)
        except FileNotFoundError:
            return True
        return self._file is not None and os.path.samestat(there, os.fstat(self._file))

    def _hold(self) -> None:
        """Keeps a second process from the file."""
        try:
            flags = os.O_CREAT | os.O_RDWR | os.O_CLOEXEC | os.O_NOFOLLOW | os.O_NONBLOCK
            self._lock = os.open(self._path + ".lock", flags, 0o600)
            fcntl.flock(self._lock, fcntl.LOCK_EX | fcntl.LOCK_NB)
        except BlockingIOError as error:
            raise IdentityFault(f"{self._path} is in use by another process") from error
        except OSError as error:
            raise IdentityFault(f"{self._path}.lock: {error.strerror}") from error

    def _load(self) -> None:
        flags = os.O_RDONLY | os.O_CLOEXEC | os.O_NOFOLLOW | os.O_NONBLOCK
        try:
            with open(os.open(self._path, flags), encoding="ascii") as file:
                state = os.fstat(file.fileno())
                if not stat.S_ISREG(state.st_mode):
                    raise IdentityFault(f"{self._path} is no regular file")
                self._keep(file.fileno())
                lines = [line.split() for line in file.read(4 << 20).splitlines() if line]
        except FileNotFoundError:
            return
        except OSError as error:
            if error.errno == errno.ELOOP:
                raise IdentityFault(f"{self._path} is a symbolic link") from error
            raise IdentityFault(f"{self._path}: {error.strerror}") from error
        except UnicodeDecodeError as error:
            raise IdentityFault(f"{self._path} is no identity of oaut-dcom") from error
        if not lines or " ".join(lines[0]) != _HEAD:
            raise IdentityFault(f"{self._path} is no identity of oaut-dcom")
        store = ""
        for number, words in enumerate(lines[1:], 2):
            try:
                name, value = words
                if name == "oxid":
                    self.oxid = int(value, 16)
                elif name == "store":
                    store = value
                else:
                    self._enter(name, uuid.UUID(value).bytes_le)
            except (ValueError, KeyError) as error:
                raise IdentityFault(f"{self._path}, line {number}: no such line") from error
        if self._store and store and not is_same_store(store, self._store):
            self.notes.append("the store's file is another one: references to the old are refused")
            self.oxid = 0
        elif self._store not in ("", _NO_FILE) and len(store) < len(self._store):
            self._save()
        elif store:
            self._store = store

    def renew(self, store: str) -> bool:
        """Takes a new OXID if the store's file, of which these are the words, is another one by
        now. Returns whether it is."""
        was_known = self._store not in ("", _NO_FILE)
        if store == _NO_FILE or was_known and is_same_store(store, self._store):
            return False
        self._store = store
        if was_known:
            self.oxid = secrets.randbits(63) | 1
        self._save()
        return was_known

    def _enter(self, kind: str, guid: bytes) -> int:
        guids = self._guids[kind]
        if len(guids) >= MOST[kind]:
            raise IdentityFault(f"more than {MOST[kind]} GUIDs of a kind were ever seen")
        guids.append(guid)
        self._places[kind][guid] = len(guids) - 1
        return len(guids) - 1

    def _save(self) -> None:
        """Writes the file anew, and gives it its name when it is on the disk."""
        if not self._path:
            return
        lines = [_HEAD, f"oxid {self.oxid:016x}"]
        lines += [f"store {self._store}"] if self._store not in ("", _NO_FILE) else []
        for kind, guids in self._guids.items():
            lines += [f"{kind} {uuid.UUID(bytes_le=it)}" for it in guids]
        part = ""
        try:
            # (a name of its own: a file that has another one is not this program's to remove)
            file, part = tempfile.mkstemp(
                prefix=os.path.basename(self._path) + ".", dir=os.path.dirname(self._path) or "."
            )
            with os.fdopen(file, "w", encoding="ascii") as to:
                to.write("\n".join(lines) + "\n")
                to.flush()
                os.fsync(to.fileno())
                if not self._is_own():
                    raise IdentityFault(f"{self._path} is another file by now")
                os.rename(part, self._path)
                part = ""
                self._keep(to.fileno())
            folder = os.open(os.path.dirname(self._path) or ".", os.O_RDONLY | os.O_CLOEXEC)
            try:
                os.fsync(folder)
            finally:
                os.close(folder)
        except OSError as error:
            raise IdentityFault(f"{self._path}: {error.strerror}") from error
        finally:
            if part:
                with contextlib.suppress(OSError):
                    os.unlink(part)

    def add(self, kind: str, guids: typing.Iterable[bytes]) -> None:
        """Enters GUIDs that are not there yet, on the disk before any reference has their place."""
        new = [it for it in guids if it not in self._places[kind]]
        if not new:
            return
        before = self._guids[kind], self._places[kind]
        self._guids[kind], self._places[kind] = before[0][:], before[1].copy()
        try:
            for it in new:
                self._enter(kind, it)
            self._save()
        except IdentityFault:
            # (else they would be known from then on, and not be in the file)
            self._guids[kind], self._places[kind] = before
            raise

    def place(self, kind: str, guid: bytes) -> int:
        """The place of a GUID that was entered."""
        return self._places[kind][guid]

    def guid(self, kind: str, place: int) -> typing.Optional[bytes]:
        """The GUID at a place, or None."""
        guids = self._guids[kind]
        return guids[place] if place < len(guids) else None
