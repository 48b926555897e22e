"""One process has a store: what a second one is told, by which names it may come, and when the lock
ends."""
import fcntl
import os
import re
import tempfile
import unittest

from tests.support import store, wire
from tests.support.calls import STRACE, Calls, text_held
from tests.support.codes import WRITE_FAULT
from tests.support.preloaded import COMPILER, Preloaded
from tests.support.running import SMALL, Cases, Talk, cannot, fault, fill, run_in
from tests.support.stores import NEW, OLD, ONE, TWO, get, got, put, table, words

SERVE = ("serve", "it.store")


def in_use(name="it.store"):
    return (1, b"", f"oaut: cannot read {name}\n{name}: in use by another process\n".encode())


class Lock(Cases):
    def room(self, disk=TWO):
        room = tempfile.TemporaryDirectory()
        self.addCleanup(room.cleanup)
        fill(room.name, {"lib.idl": SMALL, "it.store": disk})
        return room.name

    def test_two_servers(self):
        room = self.room()
        with Talk(SMALL, room=room, command=SERVE) as first:
            first.send(put(1, 8))
            told = [first.line()]
            second = [run_in(room, words("--hex"), given=put(1, 100))]
            for value in range(9, 60):
                first.send(put(1, value))
                told.append(first.line())
            second.append(run_in(room, words("--hex"), given=put(1, 101)))
            self.tell("lock: a second server is refused", second == [in_use()] * 2, second)
            first.process.stdin.close()
            self.tell(
                "lock: what the first one has acknowledged is there",
                (told, first.status(), text_held(room)) == ([wire.reply(1)] * 52, 0, table(59)),
                told,
            )
        third = run_in(room, words("--hex"), given=get(1))
        self.tell(
            "lock: and once it has ended another one opens the store",
            third == (0, got(1, 59), b""),
            third,
        )

    def test_the_other_commands(self):
        room = self.room()
        with Talk(SMALL, room=room, command=SERVE) as first:
            first.send(put(1, 8))
            first.line()
            for command in (
                ["format", "it.store", "lib.idl"],
                ["dump", "it.store"],
                ["dump", "it.store", "--library"],
                ["upgrade", "it.store"],
            ):
                got_ = run_in(room, command)
                self.tell(
                    f"lock: {' '.join(command)} beside a server",
                    (got_, text_held(room)) == (in_use(), table(8)),
                    got_,
                )
            first.send(put(2, 9))
            self.tell(
                "lock: the server goes on",
                (first.line(), text_held(room)) == (wire.reply(2), table(9)),
            )
        # LIB is refused first, and the store's lock goes before what the store holds
        room = self.room(OLD)
        with open(f"{room}/it.store", "rb") as file:
            for how in (fcntl.LOCK_SH, fcntl.LOCK_EX):
                fcntl.flock(file, how)
                for command in (
                    words(),
                    ["format", "it.store", "lib.idl"],
                    ["dump", "it.store"],
                    ["upgrade", "it.store"],
                ):
                    got_ = run_in(room, command)
                    self.tell(
                        f"lock: {' '.join(command)} beside another program with a lock",
                        got_ == in_use(),
                        got_,
                    )
            got_ = run_in(room, ["serve", "it.store", "none.idl"])
            self.tell(
                "lock: a library that is not there goes before a store that is in use",
                got_ == (1, b"", cannot("read", "none.idl", "ENOENT")),
                got_,
            )
            fcntl.flock(file, fcntl.LOCK_UN)
            self.tell(
                "lock: the store is as it was",
                (
                    text_held(room),
                    os.stat(f"{room}/it.store").st_size,
                    run_in(room, ["dump", "it.store"]),
                )
                == (ONE, len(OLD), (0, ONE.encode(), b"")),
            )
        with open(f"{room}/lib.idl", "rb") as file:
            fcntl.flock(file, fcntl.LOCK_EX)
            got_ = run_in(room, ["check", "lib.idl"])
            self.tell("lock: a library is read without one", got_[0] == 0, got_)

    def test_the_lock_ends_with_its_process(self):
        room = self.room()
        for value in range(8, 18):
            with Talk(SMALL, room=room, command=SERVE) as first:
                first.send(put(1, value))
                told = first.line()
                first.process.kill()
                first.process.wait()
                second = run_in(room, words("--hex"), given=get(1))
                self.tell(
                    "lock: the next server opens the store at once behind a kill",
                    (told, second) == (wire.reply(1), (0, got(1, value), b"")),
                    (told, second),
                )

    def test_other_names_of_a_file(self):
        room = self.room()
        os.link(f"{room}/it.store", f"{room}/hard.store")
        os.symlink("it.store", f"{room}/soft.store")
        os.link(f"{room}/it.store", f"{room}/new\nline")
        with Talk(SMALL, room=room, command=SERVE) as first:
            first.send(get(1))
            first.line()
            for name, shown in (
                ("hard.store", "hard.store"),
                ("soft.store", "soft.store"),
                (f"{room}/it.store", f"{room}/it.store"),
                ("new\nline", "new\\u{a}line"),
            ):
                got_ = run_in(room, ["serve", name, "lib.idl"])
                self.tell(f"lock: the same file as {shown}", got_ == in_use(shown), got_)
            os.rename(f"{room}/it.store", f"{room}/moved.store")
            got_ = run_in(room, ["dump", "moved.store"])
            self.tell("lock: the same file behind a move", got_ == in_use("moved.store"), got_)
            fill(room, {"it.store": NEW})
            got_ = run_in(room, ["dump", "it.store"])
            self.tell("lock: another file of the name", got_ == (0, b"next 1\n", b""), got_)


@unittest.skipUnless(COMPILER, "cc is not there: no file changes as it is locked")
class Changed(Cases):
    def test_the_length_is_read_under_the_lock(self):
        """Whoever had the file locked has made it shorter since it was opened."""
        with Preloaded() as preloaded:
            path, lib = preloaded.path("it.store"), preloaded.path("lib.idl")
            for command, length, text in (
                (["dump", path], 100, "not a store"),
                (["serve", path, lib], len(TWO) - 1, "damaged at 8192"),
                (["format", path, lib], len(TWO) - 1, "disk too small"),
                (["upgrade", path], 100, "not a store"),
            ):
                fill(preloaded.room, {"lib.idl": SMALL, "it.store": TWO})
                got_ = preloaded.run(command, cut=length)
                self.tell(
                    f"lock: {command[0]}: of {length} bytes by then",
                    (got_[:3], os.path.getsize(path)) == ((3, b"", fault(text)), length),
                    got_[:3],
                )


@unittest.skipIf(
    STRACE is None,
    "strace is not there: the calls of the system are not looked at, and no call is made to fail",
)
class LockCalls(Cases):
    def test_the_lock_comes_first_and_on_the_descriptor_that_is_written_by(self):
        for command, disk in (
            (words("--hex"), TWO),
            (["format", "it.store", "lib.idl"], TWO),
            (["upgrade", "it.store"], OLD + bytes(41_943_040)),
        ):
            with tempfile.TemporaryDirectory() as room:
                fill(room, {"lib.idl": SMALL, "it.store": disk})
                answer = Calls(room, command, given=put(1, 8)).answer
                with open(f"{room}/calls") as file:
                    made = re.findall(
                        r"^\d+ +(\w+)\((\d+)<[^>]*/it\.store>", file.read(), re.MULTILINE
                    )
                first = next(place for place, (name, _) in enumerate(made) if name == "pwrite64")
                locks = [it for it in made[:first] if it[0] == "flock"]
                self.tell(
                    f"lock: before the first write of {command[0]}, on its descriptor",
                    answer[0] == 0
                    and locks
                    and locks[-1][1] == made[first][1]
                    and made[0][0] == "flock",
                    made[:6],
                )

    def test_the_lock_cannot_be_had(self):
        with tempfile.TemporaryDirectory() as room:
            fill(room, {"lib.idl": SMALL, "it.store": TWO})
            # (EWOULDBLOCK is EAGAIN)
            for error, wanted in (
                ("EAGAIN", in_use()),
                *(
                    (it, (1, b"", cannot("read", "it.store", it)))
                    for it in ("ENOLCK", "EOPNOTSUPP", "ENOSYS")
                ),
            ):
                for command in (
                    words("--hex"),
                    ["dump", "it.store"],
                    ["format", "it.store", "lib.idl"],
                    ["upgrade", "it.store"],
                ):
                    calls = Calls(room, command, f"flock:error={error}:when=1")
                    others = [it for it in calls.does() if it != ("lock",)]
                    self.tell(
                        f"lock: {error}, {command[0]}",
                        (calls.answer, others, text_held(room)) == (wanted, [], ONE),
                        (calls.answer, others),
                    )

    def test_the_lock_is_interrupted(self):
        for command, wanted in (
            (words("--hex"), (0, got(1, 7), b"")),
            (["dump", "it.store"], (0, ONE.encode(), b"")),
            (["upgrade", "it.store"], (3, b"", fault("already format 2"))),
        ):
            with tempfile.TemporaryDirectory() as room:
                fill(room, {"lib.idl": SMALL, "it.store": TWO})
                calls = Calls(room, command, "flock:error=EINTR:when=1", given=get(1))
                self.tell(
                    f"lock: it is interrupted, {command[0]}",
                    (calls.answer, calls.does()[:3]) == (wanted, [("lock",), ("lock",), ("sync",)]),
                    (calls.answer, calls.does()[:3]),
                )

    def test_a_device_that_has_failed(self):
        with tempfile.TemporaryDirectory() as room:
            fill(room, {"lib.idl": SMALL, "it.store": TWO})
            under = (
                STRACE,
                "-f",
                "-o",
                "/dev/null",
                "-e",
                "trace=fdatasync",
                "-e",
                "inject=fdatasync:error=EIO:when=2+",
            )
            with Talk(SMALL, room=room, command=SERVE, under=under) as first:
                first.send(put(1, 8))
                told = first.line()
                second = run_in(room, words("--hex"), given=get(1))
                self.tell(
                    "lock: a server whose device has failed still has it",
                    (told, second) == (wire.reply(1, WRITE_FAULT), in_use()),
                    (told, second),
                )
                first.process.stdin.close()
                ended = first.status()
            third = run_in(room, words("--hex"), given=get(1))
            self.tell(
                "lock: and once its session has ended another one opens the store",
                (ended, third in ((0, got(1, 7), b""), (0, got(1, 8), b""))) == (0, True),
                (ended, third),
            )
