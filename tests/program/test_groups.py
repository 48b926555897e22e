"""Where a group of requests ends, and what of it stands where memory, the reader of its replies or
the device fails."""
import select
import tempfile

from tests.support import store, wire
from tests.support.calls import held, text_held
from tests.support.codes import E_OUTOFMEMORY
from tests.support.running import (
    ARRAYS,
    CREATE,
    FULL,
    SMALL,
    TIMEOUT,
    Talk,
    fault,
    fill,
    run_in,
    short,
    within,
)
from tests.support.stores import TWO, WITH_ITEM, Served, get, got, put, table, text_put, words

# of puts of texts with these lengths into groups of 4: how many events each group has, and the
# bytes of the first group's
EARLY_ENDS = [
    ((262_144, 262_144, 1), [2, 1], 524_354),
    ((262_110, 262_111), [2], 524_287),
    ((262_110, 262_111, 1), [3], 524_321),
    ((262_111, 262_111, 1), [2, 1], 524_288),
    ((1, 1, 262_144, 262_144, 1, 1, 1, 1, 1), [4, 4, 1], 524_422),
    ((1, 262_144, 262_144, 1, 1, 1, 1), [3, 4], 524_388),
    ((262_110, 262_111, 1_048_576, 1), [3, 1], 1_572_896),
]
HOLDERS, BYTES = 64, 2


def events_of(found):
    """How many events each group of a store has."""
    return [it.events for it in found.groups]


class Groups(Served):
    def test_a_group_ends_by_the_bytes_of_its_events(self):
        for lengths, groups, size in EARLY_ENDS:
            both = [
                text_put(bytes([97 + place]) * length, place)
                for place, length in enumerate(lengths)
            ]
            self.tell(
                f"serve: the bytes of the events of texts of {lengths} bytes",
                sum(len(event) for event, _ in both[: groups[0]]) == size,
            )
            for group in (1, 4):
                with tempfile.TemporaryDirectory() as room:
                    fill(room, {"lib.idl": FULL, "it.store": WITH_ITEM})
                    answer = run_in(
                        room,
                        words("--hex", "--group", str(group)),
                        given=b"".join(asked for _, asked in both),
                    )
                    replies = b"".join(wire.reply(tag) for tag in range(len(both)))
                    found = store.read(held(room))
                    wanted = groups if group == 4 else [1] * len(both)
                    well = (answer, events_of(found)) == (
                        (0, replies, b""),
                        [1, *wanted],
                    ) and store.dump(held(room)) == store.dump(
                        store.add(bytearray(WITH_ITEM), both[-1][0])
                    )
                    self.tell(
                        f"serve: texts of {lengths} bytes, groups of {group}: {wanted}",
                        well,
                        (short(answer[1]), events_of(found)),
                    )

    def test_replies_come_where_a_group_ends_by_its_bytes(self):
        for lengths, ended in (((262_111, 262_111), True), ((262_110, 262_111), False)):
            with tempfile.TemporaryDirectory() as room:
                fill(room, {"it.store": WITH_ITEM})
                with Talk(
                    FULL, ("--hex", "--group", "4"), room=room, command=("serve", "it.store")
                ) as session:
                    for tag, length in enumerate(lengths):
                        session.send(text_put(bytes(length), tag)[1])
                    told = bool(
                        select.select([session.process.stdout], [], [], TIMEOUT if ended else 0.5)[
                            0
                        ]
                    )
                    self.tell(
                        f"serve: replies to texts of {lengths} bytes before more is sent, groups "
                        f"of 4: {ended}",
                        told == ended,
                    )
                    session.process.stdin.close()
                    self.tell(
                        f"serve: and all of them at the end, {lengths}",
                        (session.line() + session.line(), session.status())
                        == (wire.reply(0) + wire.reply(1), 0),
                    )

    def test_requests_that_wait_for_one_more(self):
        # as many requests as wait for one more, by their number alone: gets, and puts of texts
        # whose events have 524,287 bytes
        MANY_TEXTS = [
            text_put(bytes(length), tag)
            for tag, length in enumerate((262_144, 228_384, *[0] * 1_021))
        ]
        self.tell(
            "serve: the bytes of the events of 1,023 texts",
            sum(len(event) for event, _ in MANY_TEXTS) == 524_287,
        )
        for what, size, waiting, replies in (
            ("gets", 3, [get(tag) for tag in range(2)], [got(tag, 0) for tag in range(2)]),
            (
                "gets",
                1_024,
                [get(tag) for tag in range(1_023)],
                [got(tag, 0) for tag in range(1_023)],
            ),
            (
                "texts",
                1_024,
                [asked for _, asked in MANY_TEXTS],
                [wire.reply(tag) for tag in range(1_023)],
            ),
        ):
            with tempfile.TemporaryDirectory() as room:
                fill(room, {"it.store": WITH_ITEM})
                with Talk(
                    FULL, ("--hex", "--group", str(size)), room=room, command=("serve", "it.store")
                ) as session:
                    session.send(b"".join(waiting))
                    early = select.select([session.process.stdout], [], [], 0.5)[0]
                    session.send(get(size))
                    wanted = b"".join(replies) + got(size, 0)
                    told = session.bytes(len(wanted))
                    self.tell(
                        f"serve: {len(waiting)} {what} wait for one more, groups of {size}",
                        (early, told) == ([], wanted),
                        (bool(early), short(told)),
                    )

    def test_a_writer_that_fails(self):
        with tempfile.TemporaryDirectory() as room, open("/dev/full", "wb") as full:
            fill(room, {"it.store": TWO})
            with Talk(
                SMALL,
                ("--hex", "--group", "2"),
                stdout=full,
                room=room,
                command=("serve", "it.store"),
            ) as session:
                # five gets were to come: the writer fails before the third is read
                session.send(get(1) + get(2))
                told = session.line(session.process.stderr), session.status(), text_held(room)
                self.tell(
                    "serve: a writer that fails behind the first group of gets ends the session",
                    told == (fault("write fault"), 1, table(7)),
                    told,
                )
        with tempfile.TemporaryDirectory() as room, open("/dev/full", "wb") as full:
            fill(room, {"it.store": TWO})
            with Talk(
                SMALL,
                ("--hex", "--group", "3"),
                stdout=full,
                room=room,
                command=("serve", "it.store"),
            ) as session:
                session.send(put(1, 8) + put(2, 9))
                waits = (
                    session.process.poll() is None
                    and not select.select([session.process.stderr], [], [], 0.3)[0]
                    and text_held(room) == table(7)
                )
                session.send(get(3))
                told = (
                    waits,
                    session.line(session.process.stderr),
                    session.status(),
                    text_held(room),
                )
                self.tell(
                    "serve: a writer that fails is found where a group ends, and the group stands",
                    told == (True, fault("write fault"), 1, table(9)),
                    told,
                )

    def test_memory_is_refused_within_a_group(self):
        array = wire.array(wire.UI1, [(65_536, 0)], [7] * 65_536)
        asked = (CREATE + b"\n") * HOLDERS + b"".join(
            wire.put(number, number, BYTES, array) for number in range(1, HOLDERS + 1)
        )
        for group in (1, 4):
            # more and more memory, until some of the arrays can be kept, and not all
            for mega in range(40, 140, 4):
                with tempfile.TemporaryDirectory() as room:
                    fill(room, {"lib.idl": ARRAYS})
                    run_in(room, ["format", "it.store", "lib.idl"])
                    status, out, err = run_in(
                        room,
                        words("--hex", "--group", str(group)),
                        given=asked,
                        before=within(1_000_000 * mega),
                    )
                    answers = (out or b"").splitlines(keepends=True)[HOLDERS:]
                    kept = {
                        number
                        for number, answer in enumerate(answers, 1)
                        if answer == wire.reply(number)
                    }
                    refused = {
                        number
                        for number, answer in enumerate(answers, 1)
                        if answer == wire.reply(number, E_OUTOFMEMORY)
                    }
                    if status != 0 or not kept:
                        continue
                    with_cells = {
                        number
                        for number, (_, cells) in store.read(held(room)).objects.items()
                        if cells
                    }
                    break
            self.tell(
                f"serve: who is refused for memory is alone refused, groups of {group}",
                bool(refused)
                and len(kept) + len(refused) == HOLDERS
                and with_cells == kept
                and (status, err) == (0, b""),
                (mega, status, err, len(kept), len(refused)),
            )
