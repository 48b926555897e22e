"""Histories of 16 clients behind the gateway, with kills and a device that fails (histories.py);
and that each of its rules finds what breaks it. OAUT_SEED says from which seed."""
import collections
import os
import struct
import unittest

from tests.gateway.gateways import built
from tests.gateway.histories import KILLS, Replay, Round, Visit, Wrong, rounds
from tests.support import worked
from tests.support.codes import E_UNEXPECTED, WRITE_FAULT
from tests.support.preloaded import COMPILER
from tests.support.running import Cases
from tests.support.sharing import STUB, oaut

ROUNDS = 2 * len(KILLS)


@unittest.skipUnless(COMPILER, "cc is not there")
class Histories(Cases):
    def test_rounds(self):
        first = int(os.environ.get("OAUT_SEED") or 0)
        try:
            seen = rounds(first, ROUNDS)
        except Wrong as fault:
            return self.tell("rounds", False, f"{fault}; its gateway: {built()[1]}")
        self.tell(
            "rounds of each kind",
            seen["rounds"] == ROUNDS and all(seen[it] for it in KILLS),
            dict(seen),
        )
        return self.tell(
            "requests and replies, some over bad lines",
            seen["requests"] > 1000 and seen["replies"] > 500 and seen["bad lines"] > 20,
            dict(seen),
        )


class Rules(Cases):
    """Made-up histories with a fault each."""

    def judged(self, bodies, replies, order, kind="listen", times=None):
        """What is said of a client that sent these bodies and heard these replies, where the server
        was asked in this order."""
        visit = Visit.__new__(Visit)
        visit.number, visit.kind, visit.half, visit.bodies, visit.replies = (
            1,
            kind,
            True,
            bodies,
            [it for it in replies if it],
        )
        visit.sent_at, visit.heard_at = times or (
            list(range(len(bodies))),
            [it + 0.5 for it in range(len(bodies))],
        )
        this = Round.__new__(Round)
        this.kind, this.visits = "server", [visit]
        position = {tag: place for place, tag in enumerate(order)}
        try:
            this.judge_visit(visit, position, {1 << 12 | at: it for at, it in enumerate(replies)})
            this.judge_time({1: visit}, order)
        except Wrong as fault:
            return str(fault)
        return None

    def test_rules_of_a_client(self):
        tag = lambda at: 1 << 12 | at
        reply = lambda at, code=0: struct.pack("<IIII", tag(at), code, oaut.NO_INDEX, 0)
        lists = [struct.pack("<IHH", tag(it), 11, 0) for it in range(3)]
        well = [reply(it) for it in range(3)]
        order = [tag(it) for it in range(3)]
        rows = [
            ("nothing", (lists, well, order), None),
            (
                "two change their places",
                (lists, well, [order[1], order[0], order[2]]),
                "change their order",
            ),
            (
                "one is left out, and one behind it is not",
                (lists, well[:1], [order[0], order[2]]),
                "change their order",
            ),
            ("a reply to what was not asked", (lists, well, order[:2]), "the reply to"),
        ]
        for what, given, says in rows:
            said = self.judged(*given)
            self.tell(
                what, said is None if says is None else said is not None and says in said, said
            )

    def test_rules_of_the_server(self):
        tagged = lambda tag, request: struct.pack("<I", tag) + request
        call = lambda tag, opcode: tagged(
            tag, oaut.ask_call(opcode, 1, 8, oaut.PROPERTYGET, [], [])
        )
        asked = [
            (3, tagged(1, oaut.ask_create(worked.ITEM))),
            (3, tagged(2, worked.put(worked.GRID, worked.GRID_1_TO_6))),
            (5, call(3, oaut.LOCK)),
            (3, call(4, oaut.UNLOCK)),
            (5, False),
            (3, call(5, oaut.LOCK)),
            (3, True),
        ]
        reply = (
            lambda tag, code=0, fields=b"": struct.pack(
                "<IIIII", 16 + len(fields), tag, code, oaut.NO_INDEX, 0
            )
            + fields
        )
        count = struct.pack("<II", 1, 0)
        told = [
            (3, reply(1, fields=count)),
            (3, reply(2)),
            (5, reply(3, fields=count)),
            (3, reply(4, E_UNEXPECTED)),
            (5, b""),
            (3, reply(5, fields=count)),
        ]
        told += [(3, STUB), (3, b"")]
        other = lambda place, *them: [*told[:place], *them, *told[place + len(them) :]]
        rows = [
            ("all of it", told, None),
            *((f"the first {count}", told[:count], None) for count in range(len(told))),
            ("a reply to another client", other(1, (5, told[1][1])), "is told"),
            ("two replies that change their places", other(0, told[1], told[0]), "is told"),
            ("another's lock is given up", other(3, (3, reply(4, fields=bytes(8)))), "is told"),
            (
                "the lock of who has gone counts",
                other(5, (3, reply(5, fields=struct.pack("<II", 2, 0)))),
                "is told",
            ),
            ("an end before a reply", other(2, (5, b""), (5, told[2][1])), "is told"),
            ("a cut record that is not refused", [*told[:6], told[7]], "is told"),
            ("more than was asked", [*told, (3, reply(6))], "was not asked"),
            (
                "a fault of the device, then none",
                other(1, (3, reply(2, WRITE_FAULT))),
                "behind a device's fault",
            ),
        ]
        for what, given, says in rows:
            try:
                Round.__new__(Round).follow(Replay(), asked, given)
                said = None
            except Wrong as fault:
                said = str(fault)
            self.tell(
                what, said is None if says is None else said is not None and says in said, said
            )

    def test_rules_of_all(self):
        one, two = (Visit.__new__(Visit) for _ in range(2))
        one.sent_at, one.heard_at, two.sent_at, two.heard_at = [0], [1], [2], [3]
        for what, order, wrong in (
            ("in the order of time", [1 << 12, 2 << 12], False),
            (
                "one that was sent behind another's reply is done before it",
                [2 << 12, 1 << 12],
                True,
            ),
        ):
            try:
                Round.judge_time(Round.__new__(Round), {1: one, 2: two}, order)
                said = False
            except Wrong:
                said = True
            self.tell(what, said == wrong)
        visits = collections.namedtuple("Visits", "kind")
        try:
            Round.judge_alone(
                {1: visits("alone"), 2: visits("listen")}, [1 << 12, 2 << 12, 1 << 12 | 1]
            )
            said = None
        except Wrong as fault:
            said = str(fault)
        self.tell(
            "somebody comes between two of who is alone", said is not None and "alone" in said
        )
