"""A store's file as docs/reference/store.md has it: under its lock, or while a server writes it;
and new files, which get their name once they are whole."""
from __future__ import annotations

import contextlib
import errno
import hashlib
import os
import re
import secrets
import struct
import tempfile
import time
import typing

from . import store as stores
from .faults import Error, StoreInUse, system_failed, system_failures
from .paths import named as give_name
from .programs import Path

T = typing.TypeVar("T")
# a value of JSON, whose type is checked when it is used
JsonValue = typing.Any
Json = dict[str, JsonValue]
# reports the progress of long work: the number of bytes done, and the number of all bytes
Progress = typing.Callable[[int, int], None]
# how many bytes are read at once, and how many if only gate bytes are read
PIECE, WINDOW = 1_048_576, 65_536
# a gate byte, and the number of bytes of log records after it
HEAD_OF_GROUP = struct.Struct("<BI")
# how often a store that is served is looked at anew, and how often for one and the same fault
TRIES, SAME_FAULT = 200, 6


class Unusable(Error):
    """A file that is no store or no dump of one, or a store that this command cannot use."""


class Moved(Exception):
    """A bank was overwritten or released while it was read."""


def quiet(done: int, whole: int) -> None:
    """Reports nothing."""


# --- the bank in use


class Bank(typing.NamedTuple):
    """The contents of the first byte, the selector and the head: the format, the bank in use, and
    the bytes of its library, of its snapshot and of its body."""

    form: int
    chosen: int
    library: int
    snapshot: int
    size: int

    @property
    def body(self) -> int:
        """The offset of its body, which begins with the library."""
        return stores.body_of(self.form, self.chosen, self.size)

    @property
    def table(self) -> int:
        """The snapshot's place."""
        return self.body + self.library

    @property
    def gates(self) -> int:
        """The place of the first gate."""
        return self.table + self.snapshot

    @property
    def end(self) -> int:
        """The offset of the end of its body."""
        return self.body + self.size

    @property
    def length(self) -> int:
        """How long a file is that has both banks."""
        return stores.LEAST if self.form == 1 else stores.length_of(self.size)


class Run(typing.NamedTuple):
    """Groups one after the other whose events have the same length: the place of the first gate,
    that length, and how many they are."""

    place: int
    events: int
    times: int

    @property
    def end(self) -> int:
        """The place of the gate after them."""
        return self.place + self.times * (self.events + 5)


def pieces(file: int, place: int, end: int) -> typing.Iterator[tuple[int, bytes]]:
    """The bytes of a file from one place to another, some at a time, each with its place."""
    while place < end:
        some = os.pread(file, min(PIECE, end - place), place)
        if not some:
            raise Moved
        yield place, some
        place += len(some)


def put(file: int, place: int, some: stores.Data) -> None:
    """Writes all of some bytes at a place."""
    rest = memoryview(some)
    while rest:
        count = os.pwrite(file, rest, place)
        place, rest = place + count, rest[count:]


def bank_of(file: int) -> Bank:
    """The bank in use. Raises NotAStore or Damaged."""
    length = os.fstat(file).st_size
    if length < stores.LEAST or os.pread(file, 1, 0) != b"\1":
        raise stores.NotAStore
    chosen = chosen_of(file)
    place = stores.HEADS[chosen]
    head = os.pread(file, stores.HEAD.size, place)
    form, library, snapshot, size = stores.head_told(head, place, length)
    return Bank(form, chosen, library, snapshot, size)


def chosen_of(file: int) -> int:
    """The bank that the selector names."""
    return (os.pread(file, 1, stores.SELECTOR) or b"\0")[0] % 2


def runs(file: int, bank: Bank, until: int | None = None) -> typing.Iterator[Run]:
    """The groups of a bank in turn, by their gates alone, or those before a gate. Raises Damaged if
    one has no events, or leaves no room for a gate after it."""
    gate, at, window = bank.gates, bank.gates, b""
    while until is None or gate < until:
        if gate + 5 > at + len(window):
            at, window = gate, os.pread(file, min(WINDOW, bank.end - gate), gate)
        place = gate - at
        head = window[place : place + 5]
        if head[:1] != b"\1":
            return
        events = int.from_bytes(head[1:], "little")
        stride, count = events + 5, 1
        if window[place + stride : place + stride + 5] == head:
            count += alike(window, place + stride, stride, head)
        if until is not None:
            count = min(count, (until - gate) // stride)
        if not events or len(head) < 5 or gate + count * stride >= bank.end:
            if count > 1:
                yield Run(gate, events, count - 1)
            raise stores.Damaged(gate + (count - 1) * stride)
        yield Run(gate, events, count)
        gate += count * stride


def alike(window: bytes, place: int, stride: int, head: bytes) -> int:
    """How many groups have this gate and length, one after the other from a place on, as far as a
    window goes. They are counted many at a time."""
    count, step = 0, 1
    while step:
        first = place + count * stride
        last = first + (step - 1) * stride
        same = last + 5 <= len(window) and all(
            window[first + it : last + it + 1 : stride] == head[it : it + 1] * step
            for it in range(5)
        )
        count, step = (count + step, step * 2) if same else (count, step // 2)
    return count


def walked(file: int, bank: Bank) -> tuple[int, int]:
    """How many groups a bank has, and the place of its closed gate. Raises Damaged as `runs` does,
    and takes less time."""
    count, gate, read = 0, bank.gates, HEAD_OF_GROUP.unpack_from
    while True:
        window = os.pread(file, min(PIECE, bank.end - gate), gate)
        place, last, before, same, stride = 0, len(window) - 5, 0, 0, 0
        while place <= last:
            opened, events = read(window, place)
            if opened != 1:
                return count, gate + place
            if not events:
                raise stores.Damaged(gate + place)
            stride = events + 5
            same = same + 1 if events == before else 0
            if same == 8:
                head = window[place : place + 5]
                more = alike(window, place, stride, head)
                place, count, same = place + more * stride, count + more, 0
                continue
            place, count, before = place + stride, count + 1, events
        if gate + place >= bank.end:
            raise stores.Damaged(gate + place - stride)
        if not place:
            if window[:1] != b"\1":
                return count, gate
            raise stores.Damaged(gate)
        gate += place


def closed_gate(file: int, bank: Bank) -> int:
    """The place of a bank's closed gate."""
    return walked(file, bank)[1]


# --- a file that nobody writes, and one that is served


@contextlib.contextmanager
def locked(path: Path) -> typing.Iterator[tuple[int, Bank]]:
    """A store's file and its bank in use, while no other process may have it. Raises StoreInUse if
    one has, Unusable if it is no store."""
    with kept_still(path) as file, named(path):
        yield file, bank_of(file)


@contextlib.contextmanager
def kept_still(path: Path) -> typing.Iterator[int]:
    """A file, while no other process may have it as a store. Raises StoreInUse if one has."""
    with open(path, "rb", buffering=0) as file:
        try:
            import fcntl

            fcntl.flock(file, fcntl.LOCK_SH | fcntl.LOCK_NB)
        except ImportError:
            pass
        except BlockingIOError:
            line = f"{os.fspath(path)}: in use by another process"
            raise StoreInUse("the store is in use by another process", line) from None
        yield file.fileno()


@contextlib.contextmanager
def named(path: Path) -> typing.Iterator[None]:
    """Names the file in what is said of bytes that are no store."""
    try:
        yield
    except (stores.NotAStore, stores.Damaged) as fault:
        raise Unusable(f"{os.fspath(path)}: {fault}") from None
    except Moved:
        raise Unusable(f"{os.fspath(path)}: it was made shorter while it was read") from None


def while_served(path: Path, act: typing.Callable[[int, Bank], T]) -> T:
    """The result of an act on a store's file and its bank in use, without the lock. It is repeated
    until the same bank with the same head is in use after it as before, and no Moved was raised. A
    fault that stays is one of the file."""
    last, same = "", 0
    with open(path, "rb", buffering=0) as file, named(path):
        for turn in range(TRIES):
            time.sleep(0.0005 * min(turn, 40))
            try:
                bank = bank_of(file.fileno())
                made = act(file.fileno(), bank)
                if bank_of(file.fileno()) == bank:
                    return made
            except Moved:
                continue
            except (stores.NotAStore, stores.Damaged) as fault:
                last, same = str(fault), same + 1 if str(fault) == last else 1
                if same == SAME_FAULT:
                    raise
        raise Unusable(f"{os.fspath(path)}: it was never still, in {TRIES} looks")


def taken(file: int, bank: Bank, to: int, progress: Progress = quiet) -> int:
    """Copies a bank that may be written meanwhile to the same places of an empty file, with first
    byte, selector and head, and reads all of it a second time. Gives the place of its closed gate.
    Raises Moved if the two readings differ, or another bank was in use between them."""

    def still() -> None:
        if chosen_of(file) != bank.chosen:
            raise Moved

    gate = closed_gate(file, bank)
    size = gate - bank.body
    for place, some in pieces(file, bank.body, gate):
        put(to, place, some)
        progress((place - bank.body + len(some)) // 2, size)
        still()
    if bank_of(file) != bank or closed_gate(to, bank) != gate:
        raise Moved
    for place, some in pieces(file, bank.body, gate):
        if os.pread(to, len(some), place) != some:
            raise Moved
        progress((size + place - bank.body + len(some)) // 2, size)
        still()
    put(to, gate, b"\0")
    head = stores.head_image(bank.form, bank.library, bank.snapshot, bank.size)
    put(to, stores.HEADS[bank.chosen], head)
    put(to, stores.SELECTOR, bytes([bank.chosen]))
    put(to, 0, b"\1")
    return gate


@contextlib.contextmanager
def opened(path: Path, live: bool = False) -> typing.Iterator[tuple[int, Bank]]:
    """A store's file and its bank in use, for reading. It is the file itself, under its lock. If
    the store may be served meanwhile, it is the copy that `taken` makes, at the same offsets of a
    file without a name."""
    if not live:
        with locked(path) as it:
            yield it
        return
    with tempfile.TemporaryFile() as held:

        def take(file: int, bank: Bank) -> Bank:
            held.truncate(0)
            held.truncate(bank.length)
            taken(file, bank, held.fileno())
            return bank

        bank = while_served(path, take)
        with named(path):
            yield held.fileno(), bank


# --- what a monitor asks


@system_failures()
def info(path: Path, live: bool = False) -> Json:
    """The contents of a store's heads and gates, by names; sizes in bytes. Reads no object."""
    if live:
        return while_served(path, info_of)
    with locked(path) as (file, bank):
        return info_of(file, bank)


def info_of(file: int, bank: Bank) -> Json:
    """Returns the same information about one bank."""
    groups, gate = walked(file, bank)
    digest = hashlib.sha256()
    for _, some in pieces(file, bank.body, bank.table):
        digest.update(some)
    name = re.search(rb"^library (\w+) ", os.pread(file, min(bank.library, 4_096), bank.body), re.M)
    size = gate - bank.gates
    return {
        "format": bank.form,
        "size": os.fstat(file).st_size,
        "bank": bank.chosen,
        "bank_size": bank.size,
        "library": name[1].decode() if name else None,
        "library_sha256": digest.hexdigest(),
        "library_size": bank.library,
        "snapshot_size": bank.snapshot,
        "groups": groups,
        "groups_size": size,
        "room": bank.end - gate,
        "log_free": max(0, bank.end - gate - stores.CHECKPOINT) if bank.form == 2 else 0,
        **used_of(bank, bank.snapshot + size, not groups),
    }


def used_of(bank: Bank, size: int, exact: bool) -> Json:
    """How much of the objects' space is used, if they have so many bytes serialized."""
    limit = limit_of(bank)
    used = min(size, limit)
    percent = round(100 * used / limit, 1)
    return {"limit": limit, "used": used, "free": limit - used, "percent": percent, "exact": exact}


def limit_of(bank: Bank) -> int:
    """The bytes that the objects of a store may take as an image (docs/reference/store.md)."""
    return stores.OLD_LIMIT if bank.form == 1 else bank.size - stores.KEPT_FREE


# --- new files


@contextlib.contextmanager
def new_file(path: Path, of: Path | None = None) -> typing.Iterator[tuple[int, str]]:
    """A file beside a path, and the name that it has meanwhile: it gets the path's once it is
    written and synced. It has the rights that the system gives a new file, as `oaut format` leaves
    them, and of what another file holds at most the rights that others have to that. Nothing of it
    is left if that fails, and a file that is there is not replaced: FileExistsError."""
    target = os.path.abspath(path)
    folder = os.path.dirname(target)
    if os.path.lexists(target):
        raise system_failed(
            FileExistsError, errno.EEXIST, os.strerror(errno.EEXIST), os.fspath(path)
        )
    name = os.path.join(folder, f".oaut-{secrets.token_hex(8)}")
    rights = 0o666 if of is None else os.stat(of).st_mode & 0o066 | 0o600
    file = -1
    try:
        # (a signal may come as the file is made, before this process knows its descriptor)
        how = os.O_RDWR | os.O_CREAT | os.O_EXCL | getattr(os, "O_CLOEXEC", 0)
        file = os.open(name, how, rights)
        try:
            yield file, name
            os.fsync(file)
        finally:
            os.close(file)
        give_name(name, target)
    finally:
        with contextlib.suppress(OSError if file < 0 else FileNotFoundError):
            os.unlink(name)


def set_aside(file: int, length: int) -> None:
    """Gives an empty file its length, and its room on the device if the system can: a store's file
    is never to ask for more."""
    if hasattr(os, "posix_fallocate"):
        os.posix_fallocate(file, 0, length)
    else:
        os.truncate(file, length)
