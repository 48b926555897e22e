"""The calls that the program makes on its store's file, as strace sees them, and what comes of it
where one fails or the program is killed there."""
import mmap
import os
import re
import shutil
import tempfile

from tests.support import store
from tests.support.preloaded import StoreFile
from tests.support.running import fill, run_in

STRACE = shutil.which("strace")
# what a device and a file system answer to a call that fails; behind the last of these the call is
# made again
ERRORS = ("EIO", "ENOSPC", "EDQUOT", "EFBIG", "EROFS", "ENODEV", "EINTR")
CALL = re.compile(r"^\d+ +(\w+)\((.*)\) += -?\d")
TRACED = "trace=pread64,pwrite64,fsync,fdatasync,flock,ftruncate,write"
OUT = ("out",)


class Calls:
    """What a command made of its store's file and of standard output, in order. Each call has its
    name, which of the calls of that name it was, and what it does: ("lock",), ("length", bytes),
    ("write", place, length), ("read", place, length), ("sync",), ("sync folder",) or OUT."""

    def __init__(self, room, words, inject=None, **how):
        self.log = f"{room}/calls"
        self.under = [
            STRACE,
            "-f",
            "-y",
            "-s",
            "0",
            "-o",
            self.log,
            "-e",
            TRACED,
            *(["-e", f"inject={inject}"] if inject else []),
        ]
        self.answer = run_in(room, words, under=self.under, **how)
        self.made, counts = [], {}
        with open(self.log) as file:
            for line in file:
                found = CALL.match(line)
                if not found:
                    continue
                name, words = found[1], found[2].split(", ")
                counts[name] = counts.get(name, 0) + 1
                if "/it.store>" in words[0] and name in ("pwrite64", "pread64"):
                    self.made.append(
                        (
                            name,
                            counts[name],
                            (
                                "write" if name == "pwrite64" else "read",
                                int(words[-1]),
                                int(words[-2]),
                            ),
                        )
                    )
                elif name == "flock" and "/it.store>" in words[0]:
                    self.made.append(
                        (
                            name,
                            counts[name],
                            ("lock",) if words[1] == "LOCK_EX|LOCK_NB" else (words[1],),
                        )
                    )
                elif name == "ftruncate" and "/it.store>" in words[0]:
                    self.made.append((name, counts[name], ("length", int(words[1]))))
                elif name in ("fsync", "fdatasync"):
                    self.made.append(
                        (
                            name,
                            counts[name],
                            ("sync",) if "/it.store>" in words[0] else ("sync folder",),
                        )
                    )
                elif name == "write" and words[0].startswith("1<"):
                    self.made.append((name, counts[name], OUT))

    def does(self):
        return [what for _, _, what in self.made]


def each_fails(cases, words, files, judge, how=None, **given):
    """Makes each call that a command makes on its store fail in turn, and hands the call, the
    answer and the folder to a judge. The errors come in turn too: a commit has four calls, and
    there are seven errors, so that each of the four meets each of these within seven commits. `how`
    is what strace does to a call in the place of that, such as to kill the program there."""
    with tempfile.TemporaryDirectory() as room:
        fill(room, files)
        whole = Calls(room, words, **given)
        left = StoreFile(f"{room}/it.store", b"").now()
    made = [it for it in whole.made if it[2] != OUT]
    does = [what for _, _, what in made]
    for place, (name, count, what) in enumerate(made):
        error = None if how else ERRORS[place % len(ERRORS)]
        with tempfile.TemporaryDirectory() as room:
            fill(room, files)
            calls = Calls(room, words, f"{name}:{how or f'error={error}'}:when={count}", **given)
            if error == "EINTR":
                again = [it for it in calls.does() if it != OUT] == [
                    *does[: place + 1],
                    *does[place:],
                ]
                same = StoreFile(f"{room}/it.store", b"").now() == left
                cases.tell(
                    f"{words[0]}: {what} is interrupted, call {place}, and made again",
                    (calls.answer, again, same) == (whole.answer, True, True),
                    (calls.answer, again, same),
                )
            else:
                judge(place, (*what, error) if error else what, calls.answer, room)


def held(room):
    """The store's file in a folder, which is read where it is looked at."""
    path = f"{room}/it.store"
    with open(path, "rb") as file:
        return (
            mmap.mmap(file.fileno(), 0, access=mmap.ACCESS_READ) if os.path.getsize(path) else b""
        )


def text_held(room):
    """The dump of the store in a folder, or why there is none."""
    try:
        return store.dump(held(room))
    except (store.NotAStore, store.Damaged) as refusal:
        return str(refusal)
