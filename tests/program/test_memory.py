"""The memory of the program: an opening takes what the store holds, a checkpoint takes none, and a
request is answered in as much as it and its reply are long. And its stack, which no input makes
deeper."""
import resource
import struct
import tempfile
import unittest
import uuid

from oaut.frames import join
from tests.support import full, store, wire, worked
from tests.support.memory import peak_of, resident_of
from tests.support.model import LIBRARY, first_library
from tests.support.preloaded import COMPILER, Preloaded, fast_folder
from tests.support.refused_growths import LONG, Over, Session
from tests.support.running import CREATE, SMALL, Cases, fill, run_in, within
from tests.support.stores import CLASS, DUE_ASKED, OLD, nearly_full
from tests.support.wire import oaut

MEBIBYTE = 1_024  # KiB
# KiB that may come and go without a growth of the program, and what the system's count of pages
# lacks on one processor
PAGES = 512
LARGE = 65_536
OLD_FULL = 14_680_064  # bytes of the image of a table, the most that a server kept in format 1
LITTLE = 32 * 2**20  # for a session that begins: a line has 8 MiB, a body 4
STACK = 160 * 2**10
# growths of TYPEINFO of each interface of the library, whose parts are made once
DESCRIBED = (34, 24, 8)


class Memory(Cases):
    def test_openings(self):
        for bank in (store.BANK, store.MOST_BANK):
            with tempfile.TemporaryDirectory(dir=fast_folder()) as room:
                fill(room, {"lib.idl": full.library(1, "long")})
                with open(f"{room}/it.store", "wb") as file:
                    file.truncate(store.length_of(bank))
                run_in(room, ["format", "--bank", str(bank), "it.store", "lib.idl"])
                peak, _ = full.opening(room)
                self.tell(
                    f"a store without objects in banks of {bank} bytes is opened in less than 8 "
                    "MiB",
                    1_024 < peak < 8 * MEBIBYTE,
                    peak,
                )

    def test_small_cells(self):
        """A cell takes a place, in which one argument stands, and a value, in a row with no place
        to spare. While a store is read, a stretch of it is all that is beside them."""
        keyed, cells_by_key = full.keyed, full.cells_by_key
        nothing = 0
        for what, text, objects, most in (
            ("no objects", keyed("long", 1), {}, 0),
            ("longs of three parameters", keyed("long", 3), cells_by_key(30_000, 3), 3.7),
            ("longs of one parameter", keyed("long", 1), cells_by_key(40_000, 1), 2.6),
            ("texts of one parameter", keyed("BSTR", 1), cells_by_key(30_000, 1, full.short), 2.9),
            (
                "arrays of two longs, of one parameter",
                keyed("SAFEARRAY(long)", 1),
                cells_by_key(25_000, 1, full.two_longs),
                3.9,
            ),
            ("objects of three longs", keyed("long", 0), full.objects_of(LARGE, 3), 3.04),
            ("objects of one long", keyed("long", 0), full.objects_of(20_000, 1), 3.8),
        ):
            with tempfile.TemporaryDirectory(dir=fast_folder()) as room:
                size = full.laid_objects(room, text, objects) / MEBIBYTE
                with full.Serving(room) as session:
                    session.ask(wire.type_info(1, 0))
                    taken, peak = resident_of(session.child.pid), peak_of(session.child.pid)
            nothing = nothing or taken
            self.tell(
                f"{what} take at most {most} times their image",
                taken - nothing <= most * size,
                (taken - nothing, size),
            )
            self.tell(
                f"{what}: at most 1.2 times that while the store opens",
                peak - nothing <= 1.2 * (taken - nothing) + PAGES,
                (peak - nothing, taken - nothing),
            )

    def test_dumps_and_upgrades(self):
        """They take what a server over the same objects does, and a part of the store: no image, no
        list of what is read, and no other table."""
        for what, text, objects in (
            ("longs of three parameters", full.keyed("long", 3), full.cells_by_key(300_000, 3)),
            ("objects of three longs", full.keyed("long", 0), full.objects_of(65_536, 3)),
            ("long texts", full.library(59, "BSTR"), {1: (CLASS, full.texts(OLD_FULL))}),
        ):
            with tempfile.TemporaryDirectory(dir=fast_folder()) as room:
                full.laid_objects(room, text, objects)
                with full.Serving(room) as session:
                    session.ask(wire.type_info(1, 0))
                    taken = resident_of(session.child.pid)
                dumped, _ = full.peak_of_run("dump", f"{room}/it.store")
                full.laid_objects(room, text, objects, form=1)
                upgraded, _ = full.peak_of_run("upgrade", f"{room}/it.store")
            for name, peak in (("a dump", dumped), ("an upgrade", upgraded)):
                self.tell(
                    f"{what}: {name} takes at most 1.2 times what a server over them does",
                    peak <= 1.2 * taken + PAGES,
                    (peak, taken),
                )

    def test_a_session_in_little_memory(self):
        body = struct.pack("<I", 1) + oaut.ask_create(worked.ITEM)
        for name, framing in oaut.FRAMINGS.items():
            for words in (
                ["play"],
                *(["serve", "it.store", "--group", str(it)] for it in (1, 1_024)),
            ):
                with tempfile.TemporaryDirectory(dir=fast_folder()) as room:
                    fill(
                        room,
                        {"lib.idl": LIBRARY, "it.store": store.formatted(first_library().text())},
                    )
                    got = run_in(
                        room,
                        [*words, "lib.idl", *framing.words],
                        framing.pack([body]),
                        before=within(LITTLE),
                    )
                self.tell(
                    f"{' '.join(words)}, {name}: a session in {LITTLE >> 20} MiB",
                    got[0] == 0 and got[2] == b"",
                    got,
                )

    def test_a_full_table(self):
        text = full.library(59, "BSTR")
        with tempfile.TemporaryDirectory(dir=fast_folder()) as room:
            size = full.laid(room, text, full.texts())
            self.tell("the table is full", size == full.FULL, size)
            with full.Serving(room) as session:
                put, with_checkpoint = session.checkpoint()
                found = {
                    "a put": put,
                    "a put with a checkpoint": with_checkpoint,
                    "a put behind it": session.put(),
                }
                found["REPLACE LIBRARY"] = session.across(wire.replacement(1, full.wider(text)))
                found["a put behind that"] = session.put()
            status = session.child.returncode
        self.tell("it ends well", status == 0, status)
        self.tell("it holds its table", size < 1_024 * put[0] < size + 8 * 1_024 * MEBIBYTE, put)
        self.tell("a checkpoint takes no memory", max(with_checkpoint) <= max(put) + PAGES, found)
        self.tell(
            "nor does what goes on behind it",
            max(found["a put behind it"]) <= max(put) + PAGES,
            found,
        )
        self.tell(
            "REPLACE LIBRARY takes its library's, and gives it back",
            max(found["REPLACE LIBRARY"]) <= max(put) + MEBIBYTE
            and max(found["a put behind that"]) <= max(put) + MEBIBYTE,
            found,
        )


class Stack(Cases):
    def fits(self, name, words, given, files, status):
        """Nothing in it is as deep as an input is long or nested."""
        with tempfile.TemporaryDirectory(dir=fast_folder()) as room:
            fill(room, files)
            got = run_in(
                room,
                words,
                given,
                before=lambda: resource.setrlimit(resource.RLIMIT_STACK, (STACK, STACK)),
                under=("env", "-i"),
            )
        self.tell(
            f"{name}, in a stack of {STACK >> 10} KiB",
            got[0] == status,
            (got[0], got[1][:80], got[2][:200]),
        )

    def test_libraries_in_a_small_stack(self):
        interface = (
            b"[uuid(11223344-5566-7788-99aa-bbccddeeff02)] dispinterface F { properties: [id(1)] "
            b"SAFEARRAY(VARIANT) A; [id(2)] BSTR B; %s methods: }"
        )
        library = (
            lambda more: b"[uuid(11223344-5566-7788-99aa-bbccddeeff01)] library D { %s "
            b"[uuid(11223344-5566-7788-99aa-bbccddeeff03)] coclass C { [default] dispinterface "
            b"F; } }" % (interface % more)
        )
        long = library(b"".join(b"[id(%d)] VARIANT T%d; " % (it, it) for it in range(3, 500)))
        for name, words, given, files, status in (
            (
                "a library of 262,144 bytes",
                ["check", "lib.idl"],
                b"",
                {"lib.idl": long + b" " * (262_144 - len(long))},
                0,
            ),
            (
                "262,144 brackets",
                ["check", "--where", "lib.idl"],
                b"",
                {"lib.idl": b"[" * 262_144},
                2,
            ),
            (
                "brackets in a method",
                ["check", "--where", "lib.idl"],
                b"",
                {"lib.idl": library(b"[id(3)] void M(" + b"[" * 200_000)},
                2,
            ),
        ):
            self.fits(name, words, given, files, status)

    def test_sessions_in_a_small_stack(self):
        interface = (
            b"[uuid(11223344-5566-7788-99aa-bbccddeeff02)] dispinterface F { properties: [id(1)] "
            b"SAFEARRAY(VARIANT) A; [id(2)] BSTR B; %s methods: }"
        )
        library = (
            lambda more: b"[uuid(11223344-5566-7788-99aa-bbccddeeff01)] library D { %s "
            b"[uuid(11223344-5566-7788-99aa-bbccddeeff03)] coclass C { [default] dispinterface "
            b"F; } }" % (interface % more)
        )
        values = [
            wire.array(wire.VARIANT, [(65_536, 0)], [(wire.I4, 5)] * 65_536),
            wire.array(wire.VARIANT, [(1, 0)] * 16, [(wire.I4, 5)]),
        ]
        puts = (
            b"".join(wire.put(2, 1, 1, it) + wire.get(3, 1, 1) for it in values)
            + wire.put(4, 1, 2, wire.scalar(wire.BSTR, bytes(2**20)))
            + wire.get(5, 1, 2)
        )
        objects = (CREATE + b"\n") * 1_000 + wire.live_objects(1)
        for name, words, given, files, status in (
            (
                "the largest values",
                ["play", "--hex", "lib.idl"],
                CREATE + b"\n" + puts,
                {"lib.idl": library(b"")},
                0,
            ),
            (
                "the longest line",
                ["play", "--hex", "lib.idl"],
                b"0" * 2**23 + b"\n",
                {"lib.idl": library(b"")},
                0,
            ),
            ("objects", ["play", "--hex", "lib.idl"], objects, {"lib.idl": SMALL}, 0),
        ):
            self.fits(name, words, given, files, status)

    def test_sessions_of_many_clients_in_a_small_stack(self):
        interface = (
            b"[uuid(11223344-5566-7788-99aa-bbccddeeff02)] dispinterface F { properties: [id(1)] "
            b"SAFEARRAY(VARIANT) A; [id(2)] BSTR B; %s methods: }"
        )
        library = (
            lambda more: b"[uuid(11223344-5566-7788-99aa-bbccddeeff01)] library D { %s "
            b"[uuid(11223344-5566-7788-99aa-bbccddeeff03)] coclass C { [default] dispinterface "
            b"F; } }" % (interface % more)
        )
        values = [
            wire.array(wire.VARIANT, [(65_536, 0)], [(wire.I4, 5)] * 65_536),
            wire.array(wire.VARIANT, [(1, 0)] * 16, [(wire.I4, 5)]),
        ]
        puts = (
            b"".join(wire.put(2, 1, 1, it) + wire.get(3, 1, 1) for it in values)
            + wire.put(4, 1, 2, wire.scalar(wire.BSTR, bytes(2**20)))
            + wire.get(5, 1, 2)
        )
        # (of a client each)
        frames = lambda bodies: join(
            [(it, oaut.Raw.pack([body])) for it, body in enumerate(bodies)]
        )
        values_of_clients = frames(
            [bytes.fromhex(it.decode()) for it in (CREATE + b"\n" + puts).split()]
        ) + join([(7, bytes(3))])
        for name, words, given, files, status in (
            (
                "the largest values of many clients",
                ["play", "--shared", "lib.idl"],
                values_of_clients,
                {"lib.idl": library(b"")},
                0,
            ),
        ):
            self.fits(name, words, given, files, status)

    def test_stores_in_a_small_stack(self):
        bodies = [struct.pack("<I", tag) + it for tag, it in enumerate(DUE_ASKED + worked.REPLACED)]
        due = oaut.Raw.pack(bodies)
        # (of a client each)
        frames = lambda bodies: join(
            [(it, oaut.Raw.pack([body])) for it, body in enumerate(bodies)]
        )
        for name, words, given, files, status in (
            (
                "a checkpoint, and REPLACE LIBRARY",
                ["serve", "--group", "1024", "it.store", "lib.idl"],
                due,
                {"lib.idl": LIBRARY, "it.store": nearly_full()},
                0,
            ),
            (
                "these of many clients",
                ["serve", "--shared", "--group", "1024", "it.store", "lib.idl"],
                frames(bodies),
                {"lib.idl": LIBRARY, "it.store": nearly_full()},
                0,
            ),
            ("dump", ["dump", "it.store"], b"", {"it.store": nearly_full()}, 0),
            ("a new store", ["format", "it.store", "lib.idl"], b"", {"lib.idl": SMALL}, 0),
            ("upgrade", ["upgrade", "it.store"], b"", {"it.store": OLD}, 0),
        ):
            self.fits(name, words, given, files, status)


@unittest.skipUnless(COMPILER, "cc is not there: no call of the allocator is looked at")
class Asked(Cases):
    """How many bytes a session asks the allocator for at once, behind what it asks for as it
    begins."""

    def test_small_requests(self):
        sessions = (
            ("the worked cases", Session("", worked.ALL)),
            ("every type", Session("", worked.EVERY_TYPE)),
            ("one object", Session("", [oaut.ask_create(worked.ITEM)])),
            (
                "a store with objects",
                Session(
                    "",
                    [
                        worked.get(worked.ANY),
                        worked.put(worked.ANY, worked.i4(7)),
                        oaut.ask_create(worked.ITEM),
                    ],
                    worked.CREATED,
                ),
            ),
        )
        long = Session(
            "", [oaut.ask_create(worked.ITEM), worked.put(worked.NAME, worked.text(LONG))]
        )
        with Preloaded() as preloaded:
            for framing in oaut.FRAMINGS:
                for group in (None, 1, 3, 1_024):
                    for name, session in sessions:
                        if group is not None or not session.before:
                            found = self.larges(Over(preloaded, session, framing, group))
                            self.tell(
                                f"{name}, {framing}, "
                                f"{'in memory' if group is None else f'groups of {group}'}: no "
                                f"block of {LARGE} bytes",
                                found == 0,
                                found,
                            )
                    found = self.larges(Over(preloaded, long, framing, group))
                    self.tell(f"a text of {len(LONG)} bytes takes some", found > 0, found)

    def test_what_a_value_asks_for(self):
        """The reply to a get takes one growth, whatever its value is, and a refusal none; what is
        put is read once, and a text takes its own block beside that."""
        front = [
            oaut.ask_create(worked.ITEM),
            worked.put(worked.COUNT, worked.i4(7)),
            worked.put(worked.NAME, worked.text(LONG)),
            worked.put(worked.GRID, worked.GRID_1_TO_6),
            worked.put(worked.ANY, worked.OF_VARIANTS),
        ]
        times = 20
        with Preloaded() as preloaded:
            begun = Over(preloaded, Session("", front)).run().calls

            def asks(request):
                return (
                    Over(preloaded, Session("", front + [request] * times)).run().calls - begun
                ) / times

            gets = (
                ("a long", worked.COUNT),
                ("a text", worked.NAME),
                ("an array", worked.GRID),
                ("an array of VARIANT", worked.ANY),
            )
            for name, dispid in gets:
                found = asks(worked.get(dispid))
                self.tell(f"a get of {name} takes one growth", found == 1, found)
            found = asks(worked.get(worked.COUNT, of=77))
            self.tell("a get that is refused takes none", found == 0, found)
            for index, most in enumerate(DESCRIBED):
                found = asks(oaut.ask_type_info(index))
                self.tell(
                    f"the description of interface {index} takes {most} growths at most",
                    0 < found <= most,
                    found,
                )
            pairs = (
                (
                    "an element, and one that is not there",
                    worked.element(worked.GRID, 0, 7),
                    worked.element(worked.GRID, 1, 7),
                ),
                (
                    "the locks of an array, and of none",
                    worked.call(oaut.LOCK, worked.GRID),
                    worked.call(oaut.LOCK, worked.COUNT),
                ),
                (
                    "a put of a text, and of a long",
                    worked.put(worked.NAME, worked.text(LONG)),
                    worked.put(worked.COUNT, worked.i4(8)),
                ),
            )
            for name, one, other in pairs:
                found = asks(one), asks(other)
                self.tell(f"{name}: one growth more", found[0] - found[1] == 1, found)

    def test_what_a_table_holds(self):
        """Objects and cells take what they need and an eighth more, in whatever order they come,
        and give it back."""
        count, cells = 4_096, full.LAST - 1
        with Preloaded() as preloaded:
            preloaded.fill("lib.idl", full.library(cells, "long"))

            def holds(*bodies):
                preloaded.fill(
                    "given",
                    oaut.Raw.pack([struct.pack("<I", tag) + it for tag, it in enumerate(bodies)]),
                )
                return preloaded.ample(["play", preloaded.path("lib.idl")], "given").held

            create = oaut.ask_create(uuid.UUID(bytes_le=CLASS))
            releases = [oaut.ask_release(number) for number in range(1, count + 1)]
            puts = [worked.put(it, worked.i4(it)) for it in range(1, cells + 1)]
            one = holds(create)
            rising, scattered = (
                holds(create, *puts) - one,
                holds(create, *(puts[it * 1_021 % cells] for it in range(cells))) - one,
            )
            self.tell(
                "cells by rising and by scattered names take as much, but for an eighth",
                max(rising, scattered) <= 9 / 8 * min(rising, scattered),
                (rising, scattered),
            )
            empty, objects = holds(create, releases[0]), holds(*[create] * count)
            some = holds(*[create] * count, *(it for at, it in enumerate(releases) if at % 16))
            self.tell(
                "objects that were released leave an eighth at most",
                some - empty <= (objects - empty) / 8,
                (objects, some, empty),
            )
            for what, requests in (
                ("objects", [create] * count + releases),
                ("an object with many cells", [create, *puts, releases[0]]),
            ):
                found = holds(*requests)
                self.tell(f"{what}, released, leave nothing", found == empty, (found, empty))

    def test_what_a_dump_asks_for(self):
        """Of a store of a short library, no block as long as the longest library is."""
        with Preloaded() as preloaded:
            preloaded.fill("lib.idl", SMALL)
            preloaded.ample(["format", preloaded.path("it.store"), preloaded.path("lib.idl")])
            found = preloaded.run(["dump", preloaded.path("it.store")], large=262_144)
            self.tell(
                "dump of a short library: no block of 262,144 bytes",
                (found.status, found.larges) == (0, 0),
                found,
            )

    def larges(self, over):
        return over.run(large=LARGE).larges - over.run("nothing", large=LARGE).larges
