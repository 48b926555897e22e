"""The name of a new store: links, a file that another process makes meanwhile, two `format` at
once, files and folders without rights."""
import errno
import os
import subprocess
import tempfile
import unittest

from tests.support.preloaded import COMPILER, Preloaded, StoreFile, fast_folder
from tests.support.running import PROGRAM, SMALL, Cases, cannot, fault, fill, like_others, run_in
from tests.support.stores import NEW, OLD, ONE, TWO, words

FORMAT, DUMP = ["format", "it.store", "lib.idl"], ["dump", "it.store"]
FORMATTED = (0, b"formatted\n", b"")
ROUNDS, AT_ONCE = 6, 3


class Links(Cases):
    def room(self, files=()):
        room = tempfile.TemporaryDirectory(dir=fast_folder())
        self.addCleanup(room.cleanup)
        fill(room.name, {"lib.idl": SMALL, **dict(files)})
        return room.name

    def test_a_link_that_leads_nowhere(self):
        """Its name is taken: no file is made where it leads, and the link stays."""
        room = self.room()
        os.symlink("nowhere", f"{room}/it.store")
        got = run_in(room, FORMAT)
        self.tell(
            "format: a link that leads nowhere",
            got == (1, b"", cannot("write", "it.store", "EEXIST")),
            got,
        )
        self.tell(
            "format: the link stays, and nothing is made",
            (sorted(os.listdir(room)), os.readlink(f"{room}/it.store"))
            == (["it.store", "lib.idl"], "nowhere"),
        )

    def test_links_in_a_ring(self):
        room = self.room()
        os.symlink("other.store", f"{room}/it.store")
        os.symlink("it.store", f"{room}/other.store")
        for command in (FORMAT, words(), DUMP, ["upgrade", "it.store"]):
            got = run_in(room, command)
            self.tell(
                f"{command[0]}: links in a ring",
                got == (1, b"", cannot("read", "it.store", "ELOOP")),
                got,
            )

    def test_a_link_to_a_store(self):
        """Each command takes the store that a link leads to, from another folder too."""
        for command, disk, wanted, held in (
            (DUMP, TWO, (0, ONE.encode(), b""), ONE),
            (DUMP, OLD, (0, ONE.encode(), b""), ONE),
            (words(), TWO, (0, b"", b""), ONE),
            (["upgrade", "it.store"], OLD, (0, b"upgraded\n", b""), ONE),
            (FORMAT, TWO, FORMATTED, "next 1\n"),
        ):
            room = self.room()
            os.mkdir(f"{room}/there")
            fill(room, {"there/other.store": disk})
            os.symlink("there/other.store", f"{room}/middle")
            os.symlink("middle", f"{room}/it.store")
            got = run_in(room, command)
            self.tell(f"{command[0]}: links to a store", got == wanted, got)
            now = StoreFile(f"{room}/there/other.store", b"").dump()
            self.tell(
                f"{command[0]}: what the store holds, and the link stays",
                (now, os.readlink(f"{room}/it.store")) == (held, "middle"),
                now,
            )


@unittest.skipUnless(
    COMPILER, "cc is not there: no file takes a name at the moment when it is to be made"
)
class Taken(Cases):
    def test_a_file_that_took_the_name(self):
        """Another process makes the file between the look and the making: it keeps each byte, and
        `format` says so."""
        for what, disk in (("a store", TWO), ("a file of no bytes", b""), ("a text", SMALL)):
            with Preloaded() as preloaded:
                preloaded.fill("lib.idl", SMALL)
                taker = StoreFile(preloaded.path("taker"), disk)
                taker.lay()
                path = preloaded.path("it.store")
                got = preloaded.run(
                    ["format", path, preloaded.path("lib.idl")], taker=preloaded.path("taker")
                )
                taker.path = path
                self.tell(
                    f"format: {what} took the name",
                    got[:3] == (1, b"", cannot("write", path, "EEXIST")),
                    got,
                )
                self.tell(
                    f"format: {what} that took the name is as it was",
                    os.path.exists(path) and taker.is_as_laid(),
                )

    def test_a_file_that_took_the_name_of_one_that_is_not_filled(self):
        """`format` has made its file, another process gives the name to its own one, and then
        `format` fails: the other one stays."""
        for call, error, nth in (
            ("flock", "EAGAIN", 1),
            ("ftruncate", "ENOSPC", 1),
            ("pwrite", "ENOSPC", 100),
            ("fsync", "EIO", 1),
            ("fsync", "EIO", 2),
        ):
            words = "in use by another process" if error == "EAGAIN" else error
            for what, disk in (("a store", TWO), ("a file of no bytes", b""), ("a link", None)):
                with Preloaded() as preloaded:
                    preloaded.fill("lib.idl", SMALL)
                    path, taken = preloaded.path("it.store"), preloaded.path("taker")
                    taker = StoreFile(taken, disk or b"")
                    if disk is None:
                        os.symlink("lib.idl", taken)
                    else:
                        taker.lay()
                    how = {
                        "fail": f"{call}:{getattr(errno, error)}:{nth}",
                        "taker": taken,
                        "takes": f"{call}:{nth}",
                    }
                    got = preloaded.run(["format", path, preloaded.path("lib.idl")], **how)
                    name = f"format: {what} takes the name before {call} {nth} fails"
                    self.tell(name, got[:3] == (1, b"", cannot("write", path, words)), got)
                    taker.path = path
                    stays = (
                        os.path.islink(path)
                        if disk is None
                        else os.path.exists(path) and taker.is_as_laid()
                    )
                    self.tell(f"{name}: it is as it was", stays, sorted(os.listdir(preloaded.room)))

    def test_a_new_file_that_is_not_filled(self):
        """No other file takes its name: the name is removed."""
        for call, nth in (("ftruncate", 1), ("pwrite", 100), ("fsync", 1)):
            with Preloaded() as preloaded:
                preloaded.fill("lib.idl", SMALL)
                got = preloaded.run(
                    ["format", preloaded.path("it.store"), preloaded.path("lib.idl")],
                    fail=f"{call}:{errno.EIO}:{nth}",
                )
                left = os.path.lexists(preloaded.path("it.store"))
                self.tell(
                    f"format: {call} {nth} of a new file fails",
                    (got[0], left) == (1, False),
                    (got, left),
                )


class AtOnce(Cases):
    def test_some_formats_of_one_name_at_once(self):
        """One makes the store, and no other takes anything from it: whoever is told `formatted` has
        a store there."""
        refused = {
            cannot("write", "it.store", "EEXIST"),
            cannot("read", "it.store", "in use by another process"),
            fault("disk too small"),
        }
        done = 0
        for turn in range(ROUNDS):
            with tempfile.TemporaryDirectory(dir=fast_folder()) as room:
                fill(room, {"lib.idl": SMALL})
                processes = [
                    subprocess.Popen(
                        [PROGRAM, *FORMAT], cwd=room, stdout=subprocess.PIPE, stderr=subprocess.PIPE
                    )
                    for _ in range(AT_ONCE)
                ]
                ends = [(*it.communicate(), it.returncode) for it in processes]
                formatted = [it for it in ends if it == (b"formatted\n", b"", 0)]
                others = [it for it in ends if it not in formatted]
                done += bool(formatted)
                # (a process that locks the new file before the one that made it is refused for its
                # length, and so is that one)
                known = [
                    it
                    for it in others
                    if it[0] == b""
                    and (it[1] in refused or it[1].startswith(b"oaut: cannot write it.store\n"))
                ]
                self.tell(
                    f"{AT_ONCE} formats at once, turn {turn}: each is told",
                    len(known) == len(others),
                    ends,
                )
                if formatted:
                    now = run_in(room, DUMP)
                    self.tell(
                        f"{AT_ONCE} formats at once, turn {turn}: the store is there",
                        now == (0, b"next 1\n", b""),
                        (now, ends),
                    )
        self.tell("of formats at once some make a store", done > 0, done)


class Rights(Cases):
    def test_files_without_rights(self):
        """A file that this process may not open is told in the system's words, and no other is
        made."""
        for mode, commands in (
            (0o000, (FORMAT, words(), DUMP, ["upgrade", "it.store"])),
            (0o444, (FORMAT, words(), ["upgrade", "it.store"])),
        ):
            with tempfile.TemporaryDirectory(dir=fast_folder()) as room:
                fill(room, {"lib.idl": SMALL, "it.store": NEW})
                os.chmod(f"{room}/it.store", mode)
                for command in commands:
                    got = run_in(room, command, before=like_others)
                    self.tell(
                        f"{command[0]}: a file of rights {mode:o}",
                        got == (1, b"", cannot("read", "it.store", "EACCES")),
                        got,
                    )

    def test_a_folder_without_rights(self):
        with tempfile.TemporaryDirectory(dir=fast_folder()) as room:
            fill(room, {"lib.idl": SMALL})
            os.mkdir(f"{room}/in")
            os.chmod(f"{room}/in", 0o555)
            got = run_in(room, ["format", "in/it.store", "lib.idl"], before=like_others)
            self.tell(
                "format: a folder that is not to be written",
                got == (1, b"", cannot("write", "in/it.store", "EACCES")),
                got,
            )
            self.tell("format: no file is made there", os.listdir(f"{room}/in") == [])
            os.chmod(f"{room}/in", 0o000)
            got = run_in(room, ["format", "in/it.store", "lib.idl"], before=like_others)
            self.tell(
                "format: a folder that is not to be entered",
                got == (1, b"", cannot("read", "in/it.store", "EACCES")),
                got,
            )
            os.chmod(f"{room}/in", 0o700)
