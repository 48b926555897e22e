"""docs/operations/it-does-not-start.md: the cause of each row is made, its text is seen, and what
mends it is done."""
import contextlib
import fcntl
import os
import re
import subprocess
import tempfile
import unittest

from tests.package import booted
from tests.support import store, wire
from tests.support.calls import STRACE
from tests.support.codes import E_FAIL, WRITE_FAULT
from tests.support.running import (
    PROGRAM,
    ROOT,
    SMALL,
    SMALL_TEXT,
    Cases,
    Talk,
    files_of,
    fill,
    like_others,
    run_in,
    within,
)
from tests.support.stores import NEW, OLD, TWO, changed, put, words

SERVE, FORMAT, DUMP, CHECK, UPGRADE = (
    words("--hex"),
    ["format", "it.store", "lib.idl"],
    ["dump", "it.store"],
    ["check", "lib.idl"],
    ["upgrade", "it.store"],
)


def rows_of(page):
    """The first cells of a page's tables, by their sections."""
    rows, section = {}, None
    for line in page.splitlines():
        if line.startswith("## "):
            section = rows.setdefault(line[3:], [])
        elif line.startswith("| ") and not line.startswith("| It says"):
            section.append(line.split(" | ")[0][2:])
    return rows


with open(f"{ROOT}/docs/operations/it-does-not-start.md", encoding="utf-8") as page:
    ROWS = rows_of(page.read())


def says(cell, err):
    """Whether standard error says what a cell has: its texts, a line each, where FILE, N, X and
    WHICH stand for something."""
    lines = err.decode(errors="replace").splitlines()
    texts = re.findall("`([^`]+)`", cell.partition(" (")[0])
    if not texts:
        return lines == []
    if texts == ["error: .."]:
        return lines[:1] != [] and lines[0].startswith("error: ")
    forms = [
        re.sub(
            "FILE|\\bX\\b", ".+", re.sub("\\bN\\b", "[0-9]+", re.escape(it).replace("\\ ", " "))
        ).replace("WHICH", "[a-z]+")
        for it in texts
    ]
    return len(lines) >= len(forms) and all(
        re.fullmatch(form, line[6:] if place == 0 else line)
        for place, (form, line) in enumerate(zip(forms, lines))
    )


def fails(call, error, words, count=1, **how):
    """Such a call on the store's file fails."""
    return lambda room: run_in(
        room,
        words,
        under=[
            STRACE,
            "-f",
            "-o",
            "/dev/null",
            "-e",
            "quiet=path-resolution",
            "-P",
            "it.store",
            "-P",
            f"{room}/it.store",
            "-e",
            f"trace={call}",
            "-e",
            f"inject={call}:error={error}:when={count}",
        ],
        **how,
    )


def on_a_full_device(room):
    os.mkdir(f"{room}/small")
    with booted.mounted("tmpfs", f"{room}/small", "size=1m"):
        return run_in(room, ["format", "small/it.store", "lib.idl"])


def beside_another(room):
    with open(f"{room}/it.store", "rb") as file:
        fcntl.flock(file, fcntl.LOCK_EX)
        return run_in(room, SERVE)


def from_a_folder(room):
    folder = os.open(room, os.O_RDONLY)
    try:
        return run_in(room, SERVE, stdin=folder)
    finally:
        os.close(folder)


def to_a_full_disk(room):
    with open("/dev/full", "wb") as full:
        return run_in(room, SERVE, given=put(1, 8), stdout=full)


def not_to_be_written(room):
    os.chmod(f"{room}/it.store", 0o400)
    return run_in(room, SERVE, before=like_others)


def in_a_folder_that_is_not(room):
    os.mkdir(f"{room}/in", 0o500)
    return run_in(room, ["format", "in/it.store", "lib.idl"], before=like_others)


def of_a_name_that_is_not_utf_8(room):
    return run_in(room, ["check", b"\xff.idl"])


def killed(room):
    with Talk(SMALL, room=room, command=("serve", "it.store")) as it:
        it.send(put(1, 8))
        it.line()
        it.process.kill()
        return it.status(), b"", it.process.stderr.read()


def of_a_failed_device(room):
    status, out, err = fails("fdatasync", "EIO", SERVE, 2, given=put(1, 8) + put(2, 9))(room)
    return status if out == wire.reply(1, WRITE_FAULT) + wire.reply(2, E_FAIL) else out, out, err


def within_little(room):
    for kib in range(60_000, 0, -2_000):  # less and less memory, until a session cannot begin
        done = run_in(room, SERVE, before=within(1_024 * kib))
        if done[0] != 0:
            break
    return done


def library(old, new):
    """A library that is refused, and the one that mends it."""
    return (
        {"lib.idl": SMALL.replace(old, new), "good.idl": SMALL},
        CHECK,
        2,
        [["check", "good.idl"]],
    )


def store_of(disk, *files):
    return {"lib.idl": SMALL, "it.store": disk, **dict(files)}


GOOD = store_of(TWO)
COUNT = b"[id(1)] long Count;"
ITS_OWN = [
    "sh",
    "-c",
    f"'{PROGRAM}' dump --library it.store > own.idl && '{PROGRAM}' serve it.store own.idl --hex",
]
# of each row, in their order: the files; the words of the program, or a call in the folder; the
# status; and what mends it, words of the program or of another one, the last of which ends well
TRIED = {
    "Files": (
        ({"lib.idl": SMALL}, SERVE, 1, [FORMAT, SERVE]),
        (GOOD, not_to_be_written, 1, [["chmod", "600", "it.store"], SERVE]),
        (GOOD, ["check", "."], 1, [CHECK]),
        (GOOD, ["dump", "/dev/null"], 1, [DUMP]),
        (GOOD, fails("openat", "EROFS", SERVE), 1, [SERVE]),
        (GOOD, fails("fsync", "EIO", SERVE), 1, [SERVE]),
        (GOOD, fails("flock", "ENOLCK", SERVE), 1, [SERVE]),
        (GOOD, beside_another, 1, [SERVE]),
        (
            GOOD,
            ["format", "in/it.store", "lib.idl"],
            1,
            [["mkdir", "in"], ["format", "in/it.store", "lib.idl"]],
        ),
        (
            GOOD,
            in_a_folder_that_is_not,
            1,
            [["chmod", "700", "in"], ["format", "in/it.store", "lib.idl"]],
        ),
        ({"lib.idl": SMALL}, on_a_full_device, 1, [FORMAT]),
        ({"lib.idl": SMALL}, fails("pwrite64", "EDQUOT", FORMAT), 1, [FORMAT]),
        (GOOD, lambda room: run_in(room, SERVE, before=files_of(1_000_000)), 1, [SERVE]),
        (GOOD, fails("pwrite64", "EIO", FORMAT), 1, [FORMAT, SERVE]),
        (GOOD, fails("pread64", "EIO", DUMP), 1, [DUMP]),
    ),
    "The library and the command line": (
        (GOOD, ["serve", "it.store"], 2, [SERVE]),
        (GOOD, of_a_name_that_is_not_utf_8, 2, [CHECK]),
        (GOOD, ["serve", "it.store", "-"], 2, [SERVE]),
        (
            {"lib.idl": b"\xff\xfe" + SMALL.decode().encode("utf-16-le")},
            CHECK,
            2,
            [["sh", "-c", "iconv -f UTF-16 -t UTF-8 lib.idl > good.idl"], ["check", "good.idl"]],
        ),
        library(b"long", b"double"),
        library(b"Count", b"C" * 65),
        library(COUNT, COUNT + b"[id(2)] long COUNT;"),
        library(COUNT, COUNT + b"[id(1)] long Other;"),
        library(b"FF02", b"FF01"),
        library(b"dispinterface DItem;", b"dispinterface DOther;"),
        library(
            COUNT,
            b"methods: [id(1), propget] long Count(); [id(1), propput] void Count([in] short V);",
        ),
        library(COUNT, b"methods: [id(1), propget] long Count(SAFEARRAY(long) By);"),
        library(COUNT, b"methods: [id(1)] void Go([defaultvalue(40000)] short At);"),
    ),
    "The store": (
        (store_of(TWO[:1000]), SERVE, 3, [["rm", "it.store"], FORMAT, SERVE]),
        (store_of(TWO[:-1]), FORMAT, 3, [["rm", "it.store"], FORMAT]),
        (store_of(OLD), SERVE, 3, [["cp", "it.store", "before"], UPGRADE, SERVE]),
        (GOOD, UPGRADE, 3, [SERVE]),
        (
            {"it.store": TWO, "lib.idl": SMALL.replace(COUNT, COUNT + b"[id(2)] long More;")},
            SERVE,
            3,
            [ITS_OWN],
        ),
        (
            store_of(changed(TWO, 8192, 0), ("copy", TWO)),
            SERVE,
            3,
            [["cp", "copy", "it.store"], SERVE],
        ),
        (
            store_of(
                store.add(
                    store.formatted(SMALL_TEXT), b"\1" + (1).to_bytes(4, "little") + bytes(16)
                ),
                ("copy", TWO),
            ),
            SERVE,
            3,
            [["cp", "copy", "it.store"], SERVE],
        ),
    ),
    "A session that ends": (
        (GOOD, from_a_folder, 1, [SERVE]),
        (GOOD, to_a_full_disk, 1, [SERVE]),
        (GOOD, lambda room: run_in(room, SERVE, given=b"\0\0\n"), 4, [SERVE]),
        (GOOD, lambda room: run_in(room, words(), given=b"\x0c\0\0\0\0"), 4, [SERVE]),
        (GOOD, lambda room: run_in(room, words(), given=put(1, 8)), 4, [SERVE]),
        (
            GOOD,
            lambda room: run_in(room, ["play", "--shared", "lib.idl"], given=b"\7\0\0"),
            4,
            [SERVE],
        ),
        (
            GOOD,
            lambda room: run_in(room, ["play", "--shared", "lib.idl"], given=put(1, 8)),
            4,
            [SERVE],
        ),
        (GOOD, within_little, 5, [SERVE]),
        (GOOD, of_a_failed_device, 0, [SERVE]),
        (GOOD, killed, -9, [SERVE]),
    ),
}


class NotStarting(Cases):
    def test_each_row_is_tried(self):
        for section, rows in ROWS.items():
            # (those of the units are tried in a container that is booted, test_dist.py)
            self.tell(
                section,
                len(TRIED.get(section, rows)) == len(rows) > 4,
                (len(TRIED.get(section, ())), len(rows)),
            )

    def test_rows(self):
        for section, tried in TRIED.items():
            for cell, (files, act, status, mends) in zip(ROWS[section], tried):
                if STRACE is None and getattr(act, "__qualname__", "").startswith(
                    ("fails", "of_a_failed")
                ):
                    print(f"strace is not there: {cell} is left out")
                    continue
                with tempfile.TemporaryDirectory() as room:
                    fill(room, files)
                    try:
                        done = act(room) if callable(act) else run_in(room, act)
                    except PermissionError as missing:
                        print(f"not the superuser, {missing}: {cell} is left out")
                        continue
                    self.tell(f"{section}: {cell}", done[0] == status and says(cell, done[2]), done)
                    ended = [self.mended(room, it) for it in mends]
                    self.tell(
                        f"{section}: {cell}, mended", ended == [0] * len(mends), (mends, ended)
                    )

    def mended(self, room, words):
        """The status of words of the program, or of another one."""
        if words[0] in ("check", "serve", "format", "upgrade", "dump"):
            return run_in(room, words)[0]
        return subprocess.run(
            words, cwd=room, stdin=subprocess.DEVNULL, stdout=subprocess.DEVNULL
        ).returncode
