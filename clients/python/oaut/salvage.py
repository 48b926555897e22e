"""Recovers a damaged store: `python3 -m oaut store salvage`. The damaged file is only read. Its
readable parts go into a new store, and each part that was left out is reported with its offset.

It uses several facts. The library's text has a recognizable end, and the snapshot follows it. The
snapshot ends with its last cell, and the first group follows. The bank that is not in use has the
state before the last checkpoint, which is the snapshot of the one in use. In a snapshot each object
has the GUID of its coclass, each cell that of an interface, and the library names these."""
from __future__ import annotations

import contextlib
import itertools
import os
import re
import struct
import subprocess
import tempfile
import typing
import uuid

from . import store as stores
from .contents import (
    CREATE,
    OBJECT,
    RELEASE,
    Groups,
    Row,
    Rows,
    Source,
    groups,
    image_of,
    lay_bank,
    merged,
    place_of,
    skip_content,
    snapshot,
    value_of,
)
from .faults import system_failures
from .files import (
    Bank,
    Progress,
    Unusable,
    closed_gate,
    kept_still,
    new_file,
    quiet,
    runs,
    set_aside,
)
from .programs import PROGRAM, Path, Program, words_of_program

# the greatest text of a library, and how its text ends
LIBRARY, LIBRARY_END = 262_144, b"\n}\n}\n"
NAMED = re.compile(rb"\[uuid\(([0-9a-f-]{36})\)\]\s+(dispinterface|coclass) ")
# how much is searched at once for intact data after a damage
SEARCHED = 1_048_576
# after how many bytes of rows progress is reported
STEP = 262_144


class Found(typing.NamedTuple):
    """The result of a recovery: lines that describe it, whether anything was left out, and the
    contents of the new store, by names."""

    lines: list[str]
    lost: bool
    counts: dict[str, int]


class Told:
    """The lines that report what was found, and whether anything was left out."""

    def __init__(self) -> None:
        self.lines: list[str] = []
        self.lost = False

    def mend(self, place: int, what: str) -> None:
        """Notes a damaged part that was recovered."""
        self.lines.append(f"at {place}: {what}")

    def lose(self, place: int, what: str) -> None:
        """Notes a part that was left out."""
        self.lines.append(f"at {place}: {what}")
        self.lost = True


# --- heads


def library_length(file: int, body: int) -> int:
    """The length of the library's text that begins there, by its end, or 0."""
    some = os.pread(file, LIBRARY, body)
    end = some.find(LIBRARY_END)
    return end + len(LIBRARY_END) if some.startswith(b"[uuid(") and end >= 0 else 0


def snapshot_end(file: int, bank: Bank) -> int:
    """If the snapshot's image ends, which may be read as far as the body goes, or 0."""
    source = Source(file, bank.table, min(bank.end, os.fstat(file).st_size))
    try:
        for _ in snapshot(file, bank, source):
            pass
    except (stores.Damaged, struct.error):
        return 0
    return source.place


def banks(file: int, chosen: int, told: Told) -> typing.Iterator[Bank]:
    """The lengths in a bank's head, or those of its body if they differ."""
    size = os.fstat(file).st_size
    place = stores.HEADS[chosen]
    try:
        form, library, snap, bank = stores.head_told(os.pread(file, 32, place), place, 1 << 62)
        found = Bank(form, chosen, library, snap, bank)
        if found.length > size:
            told.lose(size, f"the file ends, {found.length - size} bytes before its banks do")
        yield found
    except (stores.Damaged, stores.NotAStore):
        told.mend(place, f"the head of bank {chosen} is none")
    for form, bank in ((2, (size - stores.LEAST) // 2), (1, stores.OLD_BANK)):
        bank = max(stores.BANK, min(bank, stores.MOST_BANK)) if form == 2 else bank
        body = stores.body_of(form, chosen, bank)
        library = library_length(file, body)
        if library:
            found = Bank(form, chosen, library, bank - library - 1, bank)
            end = snapshot_end(file, found)
            if end:
                yield found._replace(snapshot=end - found.table)


# --- the library


def checked(text: bytes, program: Program) -> str | None:
    """The program's objection to a text as a store's library. Raises FileNotFoundError if there is
    no program."""
    with tempfile.NamedTemporaryFile(suffix=".idl") as file:
        file.write(text)
        file.flush()
        words = [*words_of_program(program), "check", file.name]
        done = subprocess.run(words, stdin=subprocess.DEVNULL, capture_output=True)
    if done.returncode:
        return done.stderr.decode(errors="replace").strip() or f"status {done.returncode}"
    return None if done.stdout == text else "it is not the canonical text of a library"


def text_of(file: int, bank: Bank, program: Program, told: Told) -> bytes | None:
    """The text of a bank's library, or None if it is none."""
    text = os.pread(file, min(bank.library, LIBRARY), bank.body)
    try:
        wrong = checked(text, program)
    except FileNotFoundError:
        told.lines.append("there is no program that reads the library: it was not checked")
        wrong = None if text.startswith(b"[uuid(") and text.endswith(LIBRARY_END) else "no library"
    if wrong:
        told.mend(bank.body, f"the library of bank {bank.chosen}: {wrong}")
    return None if wrong else text


def own_library(file: int, bank: Bank, other: Bank | None, program: Program, told: Told) -> bytes:
    """The library of a bank, or that of the other one."""
    text = text_of(file, bank, program, told)
    if text is None and other:
        text = text_of(file, other, program, Told())
        if text is not None:
            told.lose(bank.body, f"the library of bank {other.chosen} is used instead")
    if text is None:
        raise Unusable(f"{'; '.join(told.lines)}; name a library by --library")
    return text


# --- a snapshot that is damaged


def wire_guid(text: bytes) -> bytes:
    """A GUID in the order of a store."""
    return uuid.UUID(text.decode()).bytes_le


def named_by(library: bytes) -> tuple[set[bytes], set[bytes]]:
    """The GUIDs of a library's interfaces and those of its coclasses."""
    named = [(wire_guid(guid), kind) for guid, kind in NAMED.findall(library)]
    faces = {guid for guid, kind in named if kind == b"dispinterface"}
    return faces, {guid for guid, _ in named} - faces


def is_of(rows: Rows, library: bytes) -> bool:
    """Whether objects and cells have coclasses and interfaces that a library names alone."""
    faces, classes = named_by(library)
    return all(
        image in classes if value is None else image[:16] in faces for _, _, image, value in rows
    )


class Parts:
    """The objects and cells of a damaged snapshot, by the GUIDs that its library names."""

    def __init__(self, file: int, bank: Bank, library: bytes, told: Told) -> None:
        self.file, self.bank, self.told = file, bank, told
        self.faces, self.classes = named_by(library)
        guids = b"|".join(re.escape(guid) for guid in sorted(self.faces | self.classes))
        self.guids = re.compile(guids, re.S) if guids else None
        self.source = Source(file, bank.table, bank.gates)

    def rows(self) -> Rows:
        """The readable rows, in the required order."""
        source, last, before = self.source, 0, b""
        source.place += 8
        while source.place < source.end:
            begun = source.place
            try:
                row = self.next(last, before)
            except stores.NoImage:
                where = f"after object {last}" if last else "at the first object"
                source.place = end = self.search(begun + 1, last, before)
                self.told.lose(begun, f"{end - begun} bytes of the snapshot, {where}")
                continue
            last, before = row[0], row[1]
            yield row

    def next(self, last: int, before: bytes) -> Row:
        """The next object or cell."""
        source, begun = self.source, self.source.place
        number, guid, _ = OBJECT.unpack(source.take(OBJECT.size))
        if guid in self.classes:
            stores.need(number > last)
            return number, b"", guid, None
        source.place = begun
        stores.need(last)
        image, key = place_of(source)
        stores.need(image[:16] in self.faces and key > before)
        return last, key, image, value_of(source)

    def search(self, place: int, last: int, before: bytes) -> int:
        """If an object or a cell begins, from a place on."""
        end = self.source.end
        while place < end and self.guids:
            some = os.pread(self.file, min(SEARCHED + 16, end - place), place)
            for it in self.guids.finditer(some):
                at = place + it.start() - (4 if it[0] in self.classes else 0)
                self.source.place = at
                try:
                    if at >= place:
                        self.next(last, before)
                        return at
                except stores.NoImage:
                    pass
            place += SEARCHED
        return end


class Base(typing.NamedTuple):
    """A table before the groups of a bank: its next number, its rows, which each call reads anew,
    and whether some of it is missing."""

    next: int
    rows: typing.Callable[[Told], Rows]
    partly: bool


def same_table(file: int, bank: Bank, other: Bank) -> tuple[int, int] | None:
    """If the table of another bank, groups and all, is as long as the snapshot of a bank, the
    first and the last place at which the snapshot has other bytes, or 0 and 0. None if it is
    not as long."""
    at, first, last = bank.table + 8, 0, 0
    try:
        with contextlib.closing(Groups(file, other)) as found:
            for _, _, image, value in merged(snapshot(file, other), found):
                # (for an object, the number of its cells comes after it here)
                some, place = (image, at + 4) if value is None else (image + value, at)
                held = os.pread(file, len(some), place)
                if held != some:
                    pairs = enumerate(itertools.zip_longest(held, some))
                    differ = [it for it, (one, other_one) in pairs if one != other_one]
                    first, last = first or place + differ[0], place + differ[-1]
                at += OBJECT.size if value is None else len(some)
    except (stores.Damaged, struct.error):
        return None
    return (first, last) if at == bank.gates else None


def chosen_bank(file: int, told: Told) -> tuple[Bank, Bank | None]:
    """The bank that is to be read, and the other one if it has anything."""
    selector = os.pread(file, 1, stores.SELECTOR)
    if not selector:
        raise Unusable("it is too short to have anything of a store")
    if os.pread(file, 1, 0) != b"\1":
        told.lose(0, "the first byte is not 1: its formatting did not end, or the byte was changed")
    chosen = selector[0] % 2
    here = next(banks(file, chosen, told), None)
    there = next(banks(file, 1 - chosen, Told()), None)
    if here is None and there is not None:
        what = f"nothing of bank {chosen}; bank {1 - chosen} has what was there before it"
        told.lose(stores.HEADS[chosen], what)
        return there, None
    if here is None:
        raise Unusable("neither of its banks has a library with objects")
    if there and same_table(file, there, here) == (0, 0) and closed_gate(file, there) > there.gates:
        # (groups go into a bank that is in use alone)
        what = f"bank {1 - chosen} continues bank {chosen}: it is the one in use"
        told.mend(stores.SELECTOR, what)
        return there, here
    return here, there


def base_of(
    file: int, bank: Bank, other: Bank | None, library: bytes, told: Told
) -> tuple[Bank, Base]:
    """The bank, with the length of snapshot that it has, and its table before its groups."""
    end = snapshot_end(file, bank)
    if end and end != bank.gates and os.pread(file, 1, end) in (b"\0", b"\1"):
        what = f"the head says {bank.snapshot} bytes of snapshot: they are {end - bank.table}"
        told.mend(stores.HEADS[bank.chosen], what)
        bank = bank._replace(snapshot=end - bank.table)
    (number,) = struct.unpack("<I", (os.pread(file, 4, bank.table) + bytes(4))[:4])
    if end == bank.gates and is_of(snapshot(file, bank), library):
        return bank, Base(number, lambda _: snapshot(file, bank), False)
    same = same_table(file, bank, other) if other else None
    if other and same:
        far = f", as far as {same[1]}" if same[1] else ""
        what = f"the snapshot is damaged{far}: bank {other.chosen} has all of it"
        told.mend(same[0] or bank.table, what)
        before = other
        with contextlib.closing(Groups(file, before)) as found:
            number = found.next
        return bank, Base(number, lambda _: other_rows(file, before), False)

    def parts(tell: Told) -> Rows:
        return Parts(file, bank, library, tell).rows()

    made = first_created(file, bank)
    highest = max((row[0] for row in parts(Told())), default=0)
    if made is not None:
        number = made
    elif number <= highest or number > highest + 65_536:
        number = highest + 1
        told.lose(bank.table, f"the next number: it becomes {number}, which may have been used")
    return bank, Base(number, parts, True)


def other_rows(file: int, other: Bank) -> Rows:
    """The rows of another bank after its groups."""
    with contextlib.closing(Groups(file, other)) as found:
        yield from merged(snapshot(file, other), found)


def first_created(file: int, bank: Bank) -> int | None:
    """The number of the first object that a group creates: the next one of the snapshot."""
    try:
        for _, source in groups(file, bank):
            while source.place < source.end:
                kind, number = source.numbers("BI")
                if kind == CREATE:
                    return number
                if kind != RELEASE:
                    place_of(source)
                    skip_content(kind, source)
    except (stores.Damaged, stores.NoImage):
        pass
    return None


def closed_gate_or_end(file: int, bank: Bank) -> int:
    """If the groups of a bank end, or if it does if they are damaged."""
    try:
        return closed_gate(file, bank)
    except stores.Damaged:
        return bank.end


def paced(progress: Progress, before: int, whole: int) -> typing.Callable[[int], None]:
    """A progress report for the part of a long operation that begins after so many bytes."""
    return lambda done: progress(min(before + done, whole), whole)


def passing(rows: Rows, tell: typing.Callable[[int], None]) -> Rows:
    """Yields the same rows, and reports progress now and then."""
    done = told = 0
    for row in rows:
        done += len(row[2]) + len(row[3] or b"")
        if done - told >= STEP:
            told = done
            tell(done)
        yield row


def good_groups(
    file: int, bank: Bank, base: Base, told: Told, tell: typing.Callable[[int], None]
) -> int | None:
    """The gate of the first group that is damaged, if one is."""
    until: int | None = None
    while True:
        try:
            with contextlib.closing(Groups(file, bank, until, base.next)) as found:
                if not base.partly:
                    for _ in passing(merged(base.rows(Told()), found), tell):
                        pass
                break
        except stores.Damaged as fault:
            until = fault.args[0]
    if until is not None:
        count, end = 0, until
        try:
            for run in runs(file, bank._replace(snapshot=until - bank.table)):
                count, end = count + run.times, run.end
        except stores.Damaged:
            pass
        what = "the group there has a length that none can have"
        if count:
            what = f"the group there is damaged: it and {count - 1} after it, as far as {end}"
        told.lose(until, what)
        return until
    gate = closed_gate(file, bank)
    byte = os.pread(file, 1, gate)
    if byte not in (b"\0", b""):
        told.lose(gate, f"the closed gate is {byte[0]}, which none writes: it may have been open")
    return None


def canonical(library: Path, program: Program) -> bytes:
    """The canonical text of a library's file, by the program."""
    words = [*words_of_program(program), "check", os.fspath(library)]
    done = subprocess.run(words, stdin=subprocess.DEVNULL, capture_output=True)
    if done.returncode:
        raise Unusable(f"{os.fspath(library)}: {done.stderr.decode(errors='replace').strip()}")
    return done.stdout


def served(name: str, library: bytes, program: Program, told: Told) -> None:
    """Adds a line if the program does not open the new store."""
    with tempfile.NamedTemporaryFile(suffix=".idl") as file:
        file.write(library)
        file.flush()
        words = [*words_of_program(program), "serve", name, file.name]
        try:
            done = subprocess.run(words, stdin=subprocess.DEVNULL, capture_output=True)
        except FileNotFoundError:
            told.lines.append("there is no program here: whether it serves this was not tried")
            return
    if done.returncode:
        said = done.stderr.decode(errors="replace").strip()
        told.lose(0, f"the program does not serve the new store: {said}")


@system_failures()
def salvage(
    path: Path,
    to: Path,
    library: Path | None = None,
    bank: int | None = None,
    program: Program = PROGRAM,
    progress: Progress = quiet,
) -> Found:
    """Makes a new store of what a damaged one has up to its last good group, under its own library
    or, if that is damaged, under that of a file. The damaged file is not changed. Raises Unusable
    if there is nothing to begin with, StoreInUse if a process has the store."""
    told = Told()
    with kept_still(path) as file, contextlib.ExitStack() as stack:
        try:
            here, other = chosen_bank(file, told)
            if library is None:
                text = own_library(file, here, other, program, told)
            else:
                text = canonical(library, program)
            here, base = base_of(file, here, other, text, told)
            whole = 2 * (closed_gate_or_end(file, here) - here.table)
            until = good_groups(file, here, base, told, paced(progress, 0, whole))
        except Unusable as fault:
            raise Unusable(f"{os.fspath(path)}: {fault}") from None
        size = bank or (here.size if here.form == 2 else stores.BANK)
        found = stack.enter_context(contextlib.closing(Groups(file, here, until, base.next)))
        new, name = stack.enter_context(new_file(to, path))
        set_aside(new, stores.length_of(size))

        def left(place: int, what: str) -> None:
            told.lose(place, what)

        image = image_of(new, text, size)
        rows = merged(base.rows(told), found, left if base.partly else None)
        rows = passing(rows, paced(progress, whole // 2, whole))
        objects, cells = image.lay(found.next, rows)
        progress(whole, whole)
        lay_bank(image, text, size)
        served(name, text, program, told)
        counts = {"next": found.next, "objects": objects, "cells": cells, "groups": found.count}
    return Found(told.lines, told.lost, counts)
