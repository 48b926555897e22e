"""Each call of the system that the program makes, failed by each error that its manual page has:
the table tests/tables/system_calls.txt has what is printed, and the status."""
import collections
import contextlib
import errno
import os
import struct
import unittest

from oaut.frames import join
from tests.support import store, wire, worked
from tests.support.codes import E_FAIL, WRITE_FAULT
from tests.support.due import replies_of
from tests.support.imports import imports_of
from tests.support.model import LIBRARY, first_library
from tests.support.preloaded import COMPILER, Preloaded, StoreFile, read
from tests.support.running import CREATE, CREATED, PROGRAM, SMALL, Cases, cannot, fault, rows_of
from tests.support.stores import NEW, OLD, ONE, put, table
from tests.support.wire import oaut

# what the C library does by itself, without a call of the system that may fail in a way of its own
OF_THE_LIBRARY = {
    "__errno_location",
    "__libc_start_main",
    "__sysv_signal",
    "__x86_get_cpuid_feature_leaf",
    "__xpg_strerror_r",
}
OF_THE_LIBRARY |= {"free", "malloc", "memcpy", "memmove", "memset", "realloc"}
# imported, and called by no command: the rights of a file are not changed, and what ends a program
# that breaks a rule of its own writes a line
NEVER_CALLED = {"__write", "fchmod"}
SIZE = 75_505_664
SHORT = OLD + bytes(SIZE - 100_000 - len(OLD))  # lacks two pieces of zeros
REQUESTS = CREATE + b"\n" + put(2, 7) + put(3, 8)
REPLIES = CREATED + b"\n" + wire.reply(2) + wire.reply(3)
# the same of two clients, and two more requests: as the input is waited for, a group of three has
# been committed, and one is open
LINES = (REQUESTS + put(4, 9) + put(5, 10)).splitlines()
FRAMES = join(
    [(at % 2, oaut.Raw.pack([bytes.fromhex(line.decode())])) for at, line in enumerate(LINES)]
)
# replies of two clients that leave in some writes
MANY = join(
    [
        (at % 2, oaut.Raw.pack([struct.pack("<I", at) + worked.get(worked.COUNT, of=77)] * 20))
        for at in range(60)
    ]
)
# what the store holds after none of the requests, one, two and three
STATES = ["next 1\n", table(), table(7), table(8)]
# the words of a command, its standard input, and the file of a store that it begins with
COMMANDS = {
    "check": (["check", "lib.idl"], b"", None),
    "check-input": (["check", "-"], SMALL, None),
    "refused": (["check", "wrong.idl"], b"", None),
    "play": (["play", "--hex", "lib.idl"], REQUESTS, None),
    "serve": (["serve", "--hex", "it.store", "lib.idl"], REQUESTS, NEW),
    "shared": (["play", "--shared", "lib.idl"], FRAMES, None),
    "shared-store": (["serve", "--shared", "--group", "3", "it.store", "lib.idl"], FRAMES, NEW),
    "shared-long": (["serve", "--shared", "--group", "1024", "it.store", "lib.idl"], MANY, NEW),
    "format": (["format", "it.store", "lib.idl"], b"", NEW),
    "new": (["format", "it.store", "lib.idl"], b"", None),
    "upgrade": (["upgrade", "it.store"], b"", SHORT),
    "dump": (["dump", "it.store"], b"", NEW),
    # a call fails before the one of the table, which is made for that alone
    "new-full": (["format", "it.store", "lib.idl"], b"", None),
    "upgrade-full": (["upgrade", "it.store"], b"", SHORT),
}
FULL_FIRST = {"new-full": ("pwrite", 100), "upgrade-full": ("pwrite", 2)}
MOST = 3  # of many calls of a kind so many are made to fail: the first, the last and one between
FINAL = {"close", "unlink", "ftruncate"}  # what may come after a call on the store that has failed
LOOKS = {"new": {"statx"}}  # the same of one command: before a name is removed, whose it is


# calls that a command makes as another one does, in whose rows they are
OPENS_LIBRARY = {("open", "library"), ("read", "library"), ("close", "library")}
OPENS_ROOT = {("open", "root"), ("close", "root")}
OPENS_STORE = {
    (call, "store") for call in ("open", "statx", "flock", "fsync", "fdatasync", "pread", "close")
} | {(call, "limits") for call in ("open", "read", "close")}
BESIDE = {
    "check-input": {("write", "output")},
    **{it: OPENS_LIBRARY for it in ("play", "shared", "refused", "new")},
    "shared-store": OPENS_LIBRARY
    | OPENS_ROOT
    | OPENS_STORE
    | {("pwrite", "store"), ("lseek", "input")},
    "shared-long": OPENS_LIBRARY
    | OPENS_ROOT
    | OPENS_STORE
    | {("pwrite", "store"), ("lseek", "input"), ("read", "input")},
}


def rows():
    """The errors of each call, and the rows of what comes of them."""
    errors, found = {}, []
    for row in rows_of("system_calls.txt"):
        words = row.split()
        if words[0] == "errors":
            errors[words[1]] = words[2:]
        else:
            found.append((*words[:5], dict(it.split("=") for it in words[5:])))
    return errors, found


def file_of(path, room):
    """What a call was made on, as the table names it."""
    known = {
        f"{room}/it.store": "store",
        f"{room}/lib.idl": "library",
        f"{room}/wrong.idl": "library",
        room: "folder",
        "/": "root",
    }
    streams = {"0": "input", "1": "output", "2": "errors"}
    return streams.get(path) or (
        "limits"
        if path.startswith("/proc/") and path.endswith("/limits")
        else known.get(path, path)
    )


class Run:
    """A command with ample memory and calls that do not fail, but for those that are named, and the
    calls that it makes."""

    def __init__(self, preloaded, command, *failing):
        words, given, disk = COMMANDS[command]
        self.command = command
        self.path = preloaded.path("it.store")
        first = FULL_FIRST.get(command)
        if first:
            failing = ((first[0], errno.ENOSPC, first[1]), *failing)
        if disk is None:
            with contextlib.suppress(FileNotFoundError):
                os.remove(self.path)
        else:
            STORES[command].path = self.path
            STORES[command].lay()
        preloaded.fill("given", given)
        how = (
            {"fail": ",".join(f"{name}:{error}:{nth}" for name, error, nth in failing)}
            if failing
            else {}
        )
        words = [
            preloaded.path(it) if it in ("lib.idl", "wrong.idl", "it.store") else it for it in words
        ]
        with contextlib.suppress(FileNotFoundError):
            os.remove(preloaded.path("log"))
        got = preloaded.run(words, "given", log=preloaded.path("log"), **how)
        self.answer = got.status, got.out, got.err.replace(preloaded.room.encode() + b"/", b"")
        self.calls, counts = [], collections.Counter()  # (name, which of that name, file)
        room = os.path.realpath(preloaded.room)
        for line in read(preloaded.path("log")).decode().splitlines():
            name, path = line.split(" ", 1)
            counts[name] += 1
            self.calls.append((name, counts[name], file_of(path, room)))

    def first_read_of_input(self):
        return next(nth for name, nth, file in self.calls if (name, file) == ("read", "input"))

    def holds(self):
        """What the store's file holds, and its length; None where there is none."""
        if not os.path.exists(self.path):
            return None
        size = os.path.getsize(self.path)
        return (StoreFile(self.path, b"").dump() if size else "no bytes"), size


STORES = {name: StoreFile("", disk) for name, (_, _, disk) in COMMANDS.items() if disk is not None}


def chosen(calls, which):
    """Those of the calls on a file that a row is about."""
    if which == "all":
        found = calls
    elif which.endswith("-"):
        found = calls[int(which[:-1]) - 1 :]
    else:
        found = calls[int(which) - 1 : int(which)]
    return found if len(found) <= MOST else [found[0], found[len(found) // 2], found[-1]]


def answer_of(outcome, name, whole, written):
    """What a run prints, and its status, where a call fails: by the outcome, the error and the run
    in which none fails."""
    status, out, err = whole.answer
    named = "lib.idl"
    if written is not None:
        named = "it.store"
    text = {
        "read": cannot("read", named, name),
        "write": cannot("write", named, name),
        "write-full": cannot("write", named, "ENOSPC"),
        "write-in-use": cannot("write", named, "in use by another process"),
        "exists": cannot("write", named, "EEXIST"),
        "in-use": cannot("read", named, "in use by another process"),
        "device-read": fault("device fault 0x8003001e"),
        "device-write": fault("device fault 0x8003001d"),
        "read-fault": fault("read fault"),
        "write-fault": fault("write fault"),
    }
    if outcome in ("done", "again"):
        return status, out, err
    if outcome == "memory":
        return 5, b"", fault("out of memory")
    if outcome == "silent":
        return status, out, b""
    return 1, b"", text[outcome]


@unittest.skipUnless(COMPILER, "cc is not there: no call of the system is made to fail")
class SystemCalls(Cases):
    def test_each_call_is_in_the_table(self):
        """A function of the C library that the program imports has its rows, or makes no call."""
        errors, _ = rows()
        found = imports_of(PROGRAM) - OF_THE_LIBRARY - NEVER_CALLED
        self.tell(
            "the program calls what the table has",
            {it.replace("64", "") for it in found} == {*errors},
            found ^ {*errors},
        )

    def fails(self, *commands):
        """Each call of some commands by each of its errors."""
        errors, table_rows = rows()
        tried = 0
        with Preloaded() as preloaded:
            preloaded.fill("lib.idl", SMALL)
            preloaded.fill("wrong.idl", b"library")
            for command in commands:
                whole = Run(preloaded, command)
                left, covered = whole.holds(), set()
                for of, name, file, which, outcome, others in table_rows:
                    if of != command:
                        continue
                    picked = chosen(
                        [it for it in whole.calls if (it[0], it[2]) == (name, file)], which
                    )
                    covered.add((name, file))
                    self.tell(
                        f"{command}: {name} on {file}, {which}: it is made", picked, whole.calls
                    )
                    for call in picked:
                        for error in errors[name]:
                            run = Run(preloaded, command, (name, getattr(errno, error), call[1]))
                            tried += 1
                            self.judge(
                                f"{command}: {name} {call[1]} on {file} fails with {error}",
                                others.get(error, outcome),
                                error,
                                call,
                                run,
                                whole,
                                left,
                            )
                others = (
                    {(name, file) for name, _, file in whole.calls}
                    - covered
                    - BESIDE.get(command, set())
                )
                if command not in FULL_FIRST:
                    self.tell(f"{command}: each call has a row", not others, others)
        print(f"system calls: {tried} of {', '.join(commands)} failed in turn", flush=True)

    def test_calls_of_check(self):
        self.fails("check", "check-input", "refused")

    def test_calls_of_play(self):
        self.fails("play")

    def test_calls_of_serve(self):
        self.fails("serve")

    def test_calls_of_shared_sessions(self):
        self.fails("shared", "shared-store", "shared-long")

    def test_calls_of_format(self):
        self.fails("format")

    def test_calls_of_format_of_a_new_file(self):
        self.fails("new", "new-full")

    def test_calls_of_upgrade(self):
        self.fails("upgrade", "upgrade-full")

    def test_calls_of_dump(self):
        self.fails("dump")

    def test_locks_behind_a_failed_commit(self):
        """A request behind a group that failed is not begun, whatever it asks for."""
        asked = [
            oaut.ask_create(worked.ITEM),
            worked.put(worked.GRID, worked.GRID_1_TO_6),
            worked.call(oaut.LOCK, worked.GRID),
            worked.call(oaut.UNLOCK, worked.GRID),
        ]
        bodies = [
            struct.pack("<I", tag) + it for tag, it in enumerate([*asked, worked.get(worked.GRID)])
        ]
        due = [0, WRITE_FAULT, E_FAIL, E_FAIL, E_FAIL]
        disk = StoreFile("", bytes(store.formatted(first_library().text())))
        for words, given in (
            (["serve"], oaut.Raw.pack(bodies)),
            (
                ["serve", "--shared"],
                join([(at % 2, oaut.Raw.pack([body])) for at, body in enumerate(bodies)]),
            ),
        ):
            with Preloaded() as preloaded:
                preloaded.fill("lib.idl", LIBRARY)
                preloaded.fill("given", given)
                disk.path = preloaded.path("it.store")
                disk.lay()
                got = preloaded.run(
                    [*words, disk.path, preloaded.path("lib.idl")],
                    "given",
                    fail=f"fdatasync:{errno.EIO}:4",
                )
                replies = (
                    [it for _, data in oaut.frames.split(got.out)[0] for it in [data[4:]] if data]
                    if "--shared" in words
                    else replies_of(got.out, oaut.Raw)
                )
                codes = [struct.unpack_from("<I", it, 4)[0] for it in replies]
                self.tell(
                    f"{' '.join(words)}: the second commit fails, and what comes behind it",
                    (got.status, codes) == (0, due),
                    (got.status, codes),
                )

    def test_each_command_is_tried(self):
        _, table_rows = rows()
        self.tell(
            "each command of the table is run",
            {it[0] for it in table_rows} == {*COMMANDS},
            {it[0] for it in table_rows} ^ {*COMMANDS},
        )

    def judge(self, name, outcome, error, call, run, whole, left):
        file = call[2]
        if outcome == "session":
            return self.judge_session(name, call, run, whole)
        wanted = answer_of(outcome, error, whole, None if file in ("library", "input") else file)
        if call[2] == "input" and outcome == "read":
            wanted = 1, b"", cannot("read", "-", error)
        if outcome == "read-fault" and call[1] > whole.first_read_of_input():
            # what came before was answered, and no client of a shared session is told an end
            ends = 2 * len(join([(0, b"")])) if run.command.startswith("shared") else 0
            wanted = 1, whole.answer[1][: len(whole.answer[1]) - ends], wanted[2]
        if outcome == "write-fault":
            self.judge_writes(name, call, run, whole)
            wanted = 1, run.answer[1], wanted[2]
        self.tell(name, run.answer == wanted, (run.answer, wanted))
        same = [it[0] for it in run.calls].count(call[0]) - [it[0] for it in whole.calls].count(
            call[0]
        )
        if outcome == "again":
            self.tell(f"{name}: it is made again, once", same == 1, same)
        if outcome in ("done", "again", "write-fault", "silent") or (
            outcome == "read-fault" and run.answer[1]
        ):
            self.tell(f"{name}: the store is the same", run.holds() == left, run.holds())
            return
        at = run.calls.index(call)
        behind = {it[0] for it in run.calls[at + 1 :] if it[2] == "store"}
        if outcome != "in-use" and file in ("store", "folder") and error != "ENOENT":
            self.tell(
                f"{name}: no other call of the store is made",
                behind <= FINAL | LOOKS.get(run.command, set()),
                behind,
            )
        self.judge_store(name, outcome, run)

    def judge_writes(self, name, call, run, whole):
        """What was written before is a first part, and nothing is written behind it."""
        first = next(nth for kind, nth, file in whole.calls if (kind, file) == ("write", "output"))
        out = run.answer[1]
        self.tell(
            f"{name}: what was written",
            whole.answer[1].startswith(out) and bool(out) == (call[1] > first),
            out[:80],
        )
        behind = [it for it in run.calls[run.calls.index(call) + 1 :] if it[2] == "output"]
        self.tell(f"{name}: nothing is written behind it", not behind, behind)

    def judge_store(self, name, outcome, run):
        """A file that was not opened is as it was, a new one that could not be filled is gone, and
        a longer one has its length of before."""
        command = name.split(":")[0]
        now = run.holds()
        if command in ("new", "check", "check-input", "play", "shared", "refused"):
            if outcome != "device-write":
                self.tell(f"{name}: no file is left", now is None, now)
        elif command == "upgrade-full":
            self.tell(f"{name}: what the store holds is there", now[0] == ONE, now)
        elif command == "upgrade":
            self.tell(
                f"{name}: what the store holds is there",
                now[0] == ONE and (now[1] == len(SHORT) or outcome == "device-write"),
                now,
            )
        elif command == "new-full":
            self.tell(
                f"{name}: the file that could not be removed is no store",
                now[0] == "not a store",
                now,
            )
        elif outcome != "device-write":
            self.tell(f"{name}: the store is as it was", STORES[command].is_as_laid(), now)

    def judge_session(self, name, call, run, whole):
        """A commit has a write, a sync, a write and a sync; the opening's sync is no commit's."""
        made = [it for it in whole.calls if it[0] == call[0] and it[2] == "store"]
        group = (made.index(call) - (call[0] == "fdatasync")) // 2
        replies = REPLIES.splitlines(keepends=True)
        codes = [WRITE_FAULT if place == group else E_FAIL for place in range(group, 3)]
        failed = [wire.reply(place + 1, code) for place, code in zip(range(group, 3), codes)]
        self.tell(name, run.answer == (0, b"".join(replies[:group] + failed), b""), run.answer)
        at = run.calls.index(call)
        behind = {it[0] for it in run.calls[at + 1 :] if it[2] == "store"}
        self.tell(f"{name}: no other call of the store is made", behind <= FINAL, behind)
        now = run.holds()[0]
        self.tell(
            f"{name}: the store holds what it held before the request, or after it",
            now in STATES[group : group + 2],
            now,
        )
