"""Random sessions over all opcodes, against a model of the server. Each is held in memory, and
again over a store, with a stop behind each quarter: what the store holds is compared with the
model's objects, too. One of twelve has long texts. And each is dealt to several clients of shared
sessions.

OAUT_SESSIONS says from which seed and how many ("0 24" where nothing is said): `tools/cases.py
random --sessions FIRST COUNT` sets it. What differs is told with its seed.
"""
import os
import random
import tempfile

from tests.support import dealt, store
from tests.support.calls import held, text_held
from tests.support.drawn import session_of
from tests.support.due import dump_of, replies_of
from tests.support.model import LIBRARY, Array, first_library
from tests.support.playing import new_store
from tests.support.running import Cases, fill, run, run_in
from tests.support.wire import oaut

FIRST, COUNT = map(int, (os.environ.get("OAUT_SESSIONS") or "0 24").split())
REQUESTS = 250
GROUPS = ("1", "2", "3", "64", "1024")


def stored(seed):
    """What is wrong with a session over a store; None where nothing is."""
    session, dice = session_of(seed), random.Random(seed)
    with tempfile.TemporaryDirectory() as room:
        fill(room, {"lib.idl": LIBRARY})
        run_in(room, ["format", "it.store", "lib.idl"])
        for part in range(4):
            group, framing = dice.choice(GROUPS), oaut.FRAMINGS[dice.choice(["raw", "lines"])]
            turns = [session.turn(tag) for tag in range(1, REQUESTS // 4 + 1)]
            status, out, _ = run_in(
                room,
                ["serve", "it.store", "lib.idl", "--group", group, *framing.words],
                framing.pack([body for body, _ in turns]),
            )
            fill(room, {"lib.idl": session.model.library.text()})
            if (status, out) != (0, framing.pack([due for _, due in turns])):
                return f"quarter {part}, groups of {group}: status {status}, and the replies differ"
            status, dumped, _ = run_in(room, ["dump", "it.store"])
            due = dump_of(session.model)
            if (status, dumped.decode(), text_held(room)) != (0, due, due):
                return (
                    f"quarter {part}, groups of {group}: the store does not hold the model's "
                    "objects"
                )
            text = session.model.library.text()
            if (
                run_in(room, ["dump", "it.store", "--library"]),
                store.read(held(room)).library,
            ) != ((0, text, b""), text):
                return (
                    f"quarter {part}, groups of {group}: the store does not hold the model's "
                    "library"
                )
            for _, cells in session.model.objects.values():
                for it in cells.values():
                    if isinstance(it, Array):
                        it.locks = 0
    return None


class Sessions(Cases):
    def test_the_library(self):
        self.case(
            "the library that sessions begin with",
            ["check", "lib.idl"],
            0,
            first_library().text(),
            b"",
            files={"lib.idl": LIBRARY},
        )

    def test_sessions_in_memory(self):
        for seed in range(FIRST, FIRST + COUNT):
            session, framing = session_of(seed), oaut.FRAMINGS["raw" if seed % 2 == 1 else "lines"]
            turns = [session.turn(tag) for tag in range(1, REQUESTS + 1)]
            _, out, _ = run(
                ["play", "lib.idl", *framing.words],
                framing.pack([body for body, _ in turns]),
                {"lib.idl": LIBRARY},
            )
            found = replies_of(out, framing)
            differs = next(
                (place for place, ((_, due), got) in enumerate(zip(turns, found)) if due != got),
                None,
            )
            said = f"{len(found)} replies to {len(turns)} requests"
            if differs is not None:
                said = (
                    f"request {differs + 1}: {turns[differs][0].hex()}\n"
                    f"  due {turns[differs][1].hex()}\n  got {found[differs].hex()}"
                )
            self.tell(f"seed {seed}", differs is None and len(found) == len(turns), said)

    def test_sessions_over_a_store(self):
        for seed in range(FIRST, FIRST + COUNT):
            wrong = stored(seed)
            self.tell(f"seed {seed}, over a store", wrong is None, wrong)

    def test_sessions_of_several_clients(self):
        for seed in range(FIRST, FIRST + COUNT):
            session = session_of(seed)
            turns = [session.turn(tag) for tag in range(1, REQUESTS + 1)]
            given, out = (oaut.Raw.pack([it[side] for it in turns]) for side in (0, 1))
            for group, (what, frames, told) in zip(
                GROUPS[-3:], dealt.sessions(given, out, False, seed)
            ):
                wrong = dealt.differs(
                    run(["play", "--shared", "lib.idl"], frames, {"lib.idl": LIBRARY}), 0, told
                )
                self.tell(f"seed {seed}, {what}", wrong is None, wrong)
                with tempfile.TemporaryDirectory() as room:
                    new_store(room, LIBRARY)
                    wrong = dealt.differs(
                        run_in(
                            room,
                            ["serve", "--shared", "it.store", "lib.idl", "--group", group],
                            frames,
                        ),
                        0,
                        told,
                    )
                    dumped = run_in(room, ["dump", "it.store"])[1].decode()
                self.tell(
                    f"seed {seed}, {what} over a store",
                    wrong is None and dumped == dump_of(session.model),
                    wrong or "the store does not hold the model's objects",
                )
