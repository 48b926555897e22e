"""Sessions that are played with objects in memory, and again over stores, and dealt to several
clients of shared sessions."""
import tempfile
import zlib

from tests.support import dealt
from tests.support.running import CREATE, CREATED, SMALL, Cases, fault, fill, run, run_in, told
from tests.support.store import BANK, length_of

# the sizes of the groups that a session over a store is played with
GROUPS = (1, 3, 1_024)


def new_store(room, library):
    """A new store of a library in a folder."""
    fill(room, {"lib.idl": library})
    with open(f"{room}/it.store", "wb") as file:
        file.truncate(length_of(BANK))
    run_in(room, ["format", "it.store", "lib.idl"])


class Played(Cases):
    def play(self, name, given, status, out, err, library=SMALL, words=("--hex",), **how):
        """A session with objects in memory, and the same over new stores, with groups of several
        sizes: the replies are the same bytes. And where its requests can be dealt to several
        clients, those are told the same."""
        self.case(
            name,
            ["play", "lib.idl", *words],
            status,
            out,
            err,
            given=given,
            files={"lib.idl": library},
            **how,
        )
        for group in GROUPS:
            with tempfile.TemporaryDirectory() as room:
                new_store(room, library)
                got = run_in(
                    room,
                    ["serve", "it.store", "lib.idl", "--group", str(group), *words],
                    given=given,
                    **how,
                )
                self.tell(
                    f"{name}: over a store, groups of {group}",
                    got == (status, out, err),
                    told((status, out, err), got),
                )
        if given is not None and not how and status in (0, 4):
            self.deal(name, given, out, library, "--hex" in words)

    def deal(self, name, given, out, library, hexed):
        """The same requests, dealt to several clients of a shared session."""
        for group, (what, frames, wanted) in zip(
            GROUPS, dealt.sessions(given, out, hexed, zlib.crc32(given))
        ):
            got = run(["play", "--shared", "lib.idl"], frames, {"lib.idl": library})
            wrong = dealt.differs(got, 0, wanted)
            self.tell(f"{name}: {what}", wrong is None, wrong)
            with tempfile.TemporaryDirectory() as room:
                new_store(room, library)
                wrong = dealt.differs(
                    run_in(
                        room,
                        ["serve", "--shared", "it.store", "lib.idl", "--group", str(group)],
                        frames,
                    ),
                    0,
                    wanted,
                )
                self.tell(f"{name}: {what} over a store, groups of {group}", wrong is None, wrong)

    def refused(self, name, library, text):
        """A library that `play`, `serve` and `check` refuse with this text."""
        self.play(name, CREATE + b"\n", 2, b"", fault(text), library=library)
        self.checked(name, library, 2, b"", fault(text))

    def converse(self, name, library, turns):
        """A session of turns, each with a tag of its own."""
        asked, answered = (
            b"".join(turn[side](tag) for tag, turn in enumerate(turns, 1)) for side in (0, 1)
        )
        self.play(name, asked, 0, answered, b"", library=library)

    def talk(self, name, library, turns):
        """The same with one object, which is made first."""
        asked, answered = (
            b"".join(turn[side](tag) for tag, turn in enumerate(turns, 2)) for side in (0, 1)
        )
        self.play(name, CREATE + b"\n" + asked, 0, CREATED + b"\n" + answered, b"", library=library)
