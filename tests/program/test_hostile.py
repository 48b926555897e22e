"""Bytes that are made to harm: records that are cut or lie about what they hold, and damaged
stores; and what is as large as it may be."""
import os
import struct
import tempfile

from oaut import CELLS
from tests.support import store, wire, worked
from tests.support.asked import Answering
from tests.support.codes import BAD_STUB
from tests.support.due import kept, replies_of
from tests.support.fuzz import dumped, layout_of, opened
from tests.support.model import BSTR, DECIMAL, I4, I8, LIBRARY, UI1, VARIANT, first_library
from tests.support.preloaded import StoreFile, fast_folder, read, spawned
from tests.support.running import PROGRAM, Cases, Talk, fault, fill, run, run_in, within
from tests.support.wire import array, changed, oaut, scalar

MOST = 2**32 - 1
TEXT = first_library().text()
CLASS, FACE, HI = worked.ITEM.bytes_le, worked.FIRST_ONE.bytes_le, worked.HI
CREATED = b"\1" + struct.pack("<I", 1) + CLASS
# memory in which a session has room for its buffers, and not for what a count promises
LITTLE = 48 * 2**20
STUBBED = struct.pack("<III", BAD_STUB, oaut.NO_INDEX, 0)


def tagged(requests):
    return [struct.pack("<I", tag) + it for tag, it in enumerate(requests, 1)]


def stub(body):
    """The reply to a body that is no request."""
    return (body[:4] if len(body) >= 8 else bytes(4)) + STUBBED


def done(body):
    """The front of a reply with S_OK."""
    return body[:4] + struct.pack("<III", 0, oaut.NO_INDEX, 0)


def text(content):
    return scalar(BSTR, content)


# --- fields that are refused: what they are, and the bytes

NULL_CELLS = {vt: array(vt, [(2, 0)], [None, None]) for vt in (BSTR, VARIANT)}
GOOD = [scalar(vt, it) for vt, it in worked.SCALAR_VALUES.items()] + [
    array(vt, [(2, 0)], it) for vt, it in worked.ARRAY_VALUES.items()
]
BROKEN = [
    ("two bounds of 65,536, and no cells", array(I4, [(65_536, 0), (65_536, 0)], [])),
    ("a bound of 65,537, with as many cells", array(UI1, [(65_537, 0)], bytes(65_537))),
    ("a bound of 4,294,967,295", array(I4, [(MOST, 0)], [], count=MOST)),
    ("sixteen bounds of 4,294,967,295", array(I4, [(MOST, 0)] * 16, [], count=1)),
    ("fewer cells than the bound says", array(I4, [(3, 0)], [1, 2])),
    ("fewer cells than are counted", array(I4, [(3, 0)], [1, 2], count=3)),
    ("more cells than the bound says", array(I4, [(1, 0)], [1, 2])),
    ("no cells, and 4,294,967,295 are counted", array(I4, [(0, 0)], [], count=MOST)),
    ("another count before the cells", changed(array(I4, [(2, 0)], [1, 2]), 64, "I", 3)),
    ("4,294,967,295 before the cells", changed(array(I4, [(2, 0)], [1, 2]), 64, "I", MOST)),
    ("no bounds", array(I4, [(0, 0)], [], dimensions=0)),
    ("17 bounds", array(I4, [(0, 0)], [], dimensions=17)),
    ("65,535 bounds", array(I4, [(0, 0)], [], dimensions=65_535)),
    ("bounds that are counted twice, differently", changed(array(I4, [(0, 0)], []), 28, "I", 2)),
    ("4,294,967,295 bounds", changed(array(I4, [(0, 0)], []), 28, "I", MOST)),
    *(
        (f"65,536 cells of the type {vt} in few bytes", array(vt, [(65_536, 0)], [], count=65_536))
        for vt in CELLS
    ),
    ("the type of other cells", changed(array(I4, [(2, 0)], [1, 2]), 44, "I", 2)),
    ("no first referent", changed(array(I4, [(2, 0)], [1, 2]), 20, "I", 0)),
    ("no second referent", array(I4, [(2, 0)], [1, 2], second=bytes(4))),
    ("a referent without a text", scalar(BSTR)[:20] + oaut.REFERENT),
    *(
        (f"a referent of a cell of the type {vt} without what it names", changed(it, 68, "I", 1))
        for vt, it in NULL_CELLS.items()
    ),
    *(
        (
            f"a last referent of a cell of the type {vt} without what it names",
            changed(it, 72, "I", 1),
        )
        for vt, it in NULL_CELLS.items()
    ),
    ("a text that goes on behind its field", changed(text(b"Hi"), 24, "III", 2, 4, 2)),
    (
        "a text of 4,294,967,294 bytes",
        changed(text(b"Hi"), 24, "III", 2**31 - 1, MOST - 1, 2**31 - 1),
    ),
    (
        "a text of 4,294,967,295 bytes, which is none, with units",
        changed(text(b"Hi"), 28, "I", MOST),
    ),
    ("a text of no bytes, with units", changed(text(b"Hi"), 28, "I", 0)),
    ("units that are counted twice, differently", changed(text(b"Hi"), 24, "I", 2)),
    ("a DECIMAL of the scale 255", changed(scalar(DECIMAL, (0, 0, 1)), 26, "B", 255)),
    ("a DECIMAL of the sign 255", changed(scalar(DECIMAL, (0, 0, 1)), 27, "B", 255)),
    ("a cell that is an array", changed(array(VARIANT, [(1, 0)], [(I4, 7)]), 80, "H", 0x2003)),
    ("a cell that is a VARIANT", changed(array(VARIANT, [(1, 0)], [(I4, 7)]), 80, "H", VARIANT)),
    ("a cell of another discriminant", changed(array(VARIANT, [(1, 0)], [(I4, 7)]), 88, "I", 2)),
    *(
        (f"a byte left over behind the type {struct.unpack_from('<H', it, 8)[0]}", it + b"\0")
        for it in GOOD
    ),
    *((f"a byte too few of the type {struct.unpack_from('<H', it, 8)[0]}", it[:-1]) for it in GOOD),
]
# counts of a call, and of what else has counts: a body, and where the count stands
ANY_PUT = worked.put(worked.ANY, scalar(I4, 7))
COUNTED = [
    ("arguments", ANY_PUT, 52),
    ("named arguments", ANY_PUT, 56),
    ("bytes of an argument", ANY_PUT, 68),
    ("names", oaut.ask_ids(1, ["Cell", "Key"]), 48),
    ("units of a name", oaut.ask_ids(1, ["Cell", "Key"]), 52),
    ("units of a second name", oaut.ask_ids(1, ["Cell", "Key"]), 68),
    ("indices", worked.element(worked.GRID, 0, 0), 60),
    ("indices of a put", worked.put_element(worked.GRID, (0,), scalar(I4, 1)), 60),
    ("bytes of a new element", worked.put_element(worked.GRID, (0,), scalar(I4, 1)), 76),
]


class Records(Cases):
    def answered(self, turns):
        """A session with object 1 of the model's library, in little memory. A turn is a name, a
        request, and what makes the reply to its body."""
        bodies = tagged([oaut.ask_create(worked.ITEM), *(request for _, request, _ in turns)])
        status, out, err = run(
            ["play", "lib.idl"], oaut.Raw.pack(bodies), {"lib.idl": LIBRARY}, before=within(LITTLE)
        )
        replies = replies_of(out, oaut.Raw)[1:]
        self.tell(
            f"a session of {len(turns)} requests",
            (status, err, len(replies)) == (0, b"", len(turns)),
            (status, err, len(replies)),
        )
        for (name, _, due), body, reply in zip(turns, bodies[1:], replies):
            self.tell(name, reply == due(body), reply.hex()[:200])

    def test_records_that_are_cut(self):
        """Each record of the worked cases, at each of its lengths, while the objects are those that
        the cases make."""
        answering, asked, due = Answering(), [], []
        for body in tagged(worked.ALL + worked.EVERY_TYPE):
            cuts = [body[:end] for end in range(1, len(body))]
            asked += [*cuts, body]
            due += [*map(stub, cuts), answering.reply(body)]
        for framing in oaut.FRAMINGS.values():
            status, out, err = run(
                ["play", "lib.idl", *framing.words], framing.pack(asked), {"lib.idl": LIBRARY}
            )
            self.tell(
                f"{len(asked)} records, of which all but {len(worked.ALL + worked.EVERY_TYPE)} "
                "are cut",
                (status, out == framing.pack(due), err) == (0, True, b""),
                (status, err),
            )

    def test_fields_that_are_broken(self):
        turns = []
        for name, field in BROKEN:
            key = text(b"k\0")
            turns += [
                (f"{name}: a new value", worked.put(worked.ANY, field), stub),
                (
                    f"{name}: a named one, with others",
                    worked.put(worked.CELL, field, named=(-3, 1, 0), more=(key, scalar(I4, 5))),
                    stub,
                ),
                (
                    f"{name}: an argument behind another",
                    worked.get(worked.CELL, arguments=(key, field)),
                    stub,
                ),
                (f"{name}: a new element", worked.put_element(worked.GRID, (0,), field), stub),
            ]
        self.answered(turns)

    def test_an_array_without_cells_has_any_bounds(self):
        turns = []
        for bounds, length in (
            ([(65_536, 0), (65_536, 0), (0, 0)], 84),
            ([(0, 0)], 68),
            ([(MOST, 0), (0, 0)], 76),
            ([(0, 0), (MOST, -1)], 76),
            ([(MOST, 0)] * 15 + [(0, 0)], 188),
        ):
            field = array(I4, bounds, [])
            self.tell(
                f"an array of the bounds {bounds[:3]} has {length} bytes",
                (len(field), field[:4]) == (length, struct.pack("<I", (length + 7) // 8)),
            )
            turns.append(
                (f"an array of the bounds {bounds[:3]}", worked.put(worked.ANY, field), done)
            )
            turns.append(
                (
                    f"an array of the bounds {bounds[:3]} comes back",
                    worked.get(worked.ANY),
                    lambda body, field=field: done(body) + oaut.variant_field(field),
                )
            )
        self.answered(turns)

    def test_counts_of_what_is_not_there(self):
        self.answered(
            [
                (f"{it} {name}", changed(request, place, "I", it), stub)
                for name, request, place in COUNTED
                for it in (MOST, MOST - 1, 2**31, 2**31 - 1, 65_536, 33)
            ]
        )

    def test_claims_take_no_memory(self):
        claims = [worked.put(worked.ANY, field) for _, field in BROKEN if len(field) < 400]
        claims += [changed(request, place, "I", MOST) for _, request, place in COUNTED]
        bodies = tagged(claims)
        asked, due = oaut.Raw.pack(bodies), oaut.Raw.pack(map(stub, bodies))
        # (the system counts the pages of a process on each processor, and tells a sum that lacks up
        # to 31 of some kinds)
        with Talk(
            LIBRARY, words=(), under=("taskset", "-c", str(min(os.sched_getaffinity(0))))
        ) as session:
            session.send(oaut.Raw.pack(tagged([oaut.ask_create(worked.ITEM)])))
            session.bytes(28)
            session.send(asked)
            begins = session.bytes(len(due)) == due, session.peak()
            times = 240
            well = True
            for _ in range(times):
                session.send(asked)
                well = well and session.bytes(len(due)) == due
            more = session.peak() - begins[1]
            self.tell(
                f"{times * len(bodies)} claims take no more memory than {len(bodies)}",
                (begins[0], well, more <= 256) == (True, True, True),
                (begins, well, more),
            )


# --- stores


class Stores(Cases):
    def test_each_byte_of_a_store(self):
        """Each byte of what a store has is another one, in turn: `dump` and `serve` say what the
        reader says that shares no code with the program, and change nothing."""
        put = (
            lambda value: b"\3"
            + struct.pack("<I", 1)
            + FACE
            + struct.pack("<iH", worked.ANY, 0)
            + value
        )
        front = store.add(
            store.formatted(TEXT), CREATED, put(struct.pack("<HBBIQ", DECIMAL, 4, 1, 7, 9))
        )
        disk = store.add(
            store.settled(front),
            put(
                struct.pack("<HHIi", 0x200C, 1, 2, -1)
                + struct.pack("<Hi", I4, 7)
                + struct.pack("<HI", BSTR, 4)
                + HI
            ),
            put(struct.pack("<HB", 11, 1)) + CREATED[:1] + struct.pack("<I", 2) + CREATED[5:],
        )
        with tempfile.TemporaryDirectory(dir=fast_folder()) as room:
            file, layout = StoreFile(f"{room}/it.store", disk), layout_of(disk)
            fill(room, {"lib.idl": LIBRARY})
            path, lib, out, err = (
                f"{room}/{name}" for name in ("it.store", "lib.idl", "out", "err")
            )
            for part, spoil in (
                ("gate", range(0, 256, 15)),
                ("selector", range(0, 256, 51)),
                ("head", (1, 255)),
                ("snapshot", (1, 128)),
                ("groups", (1, 128)),
            ):
                place, some = layout[part]
                wrong, count = [], 0
                for at, by in ((at, by) for at in range(len(some)) for by in spoil):
                    file.lay()
                    file.change(place + at, bytes([some[at] ^ by]))
                    now, due = file.now(), file.mapped(dumped)
                    refusal = file.mapped(lambda data: opened(data, TEXT))
                    served = (0, b"", b"") if refusal is None else (3, b"", fault(refusal))
                    for words, wanted in ((["dump", path], due), (["serve", path, lib], served)):
                        got = (
                            spawned([PROGRAM, *words], "/dev/null", out, err)[0],
                            read(out),
                            read(err),
                        )
                        count += 1
                        if got != wanted or file.now() != now:
                            wrong.append(
                                (words[0], part, at, by, wanted[0], wanted[2], got[0], got[2])
                            )
                self.tell(
                    f"each byte of the {part}: {count} openings",
                    not wrong,
                    f"{len(wrong)} are wrong: {wrong[:3]}",
                )

    def test_counts_of_an_image(self):
        """Counts of what is not there, in little memory: the place of the image is told."""
        with tempfile.TemporaryDirectory(dir=fast_folder()) as room:
            file, layout = StoreFile(f"{room}/it.store", store.formatted(TEXT)), layout_of(
                store.formatted(TEXT)
            )
            fill(room, {"lib.idl": LIBRARY})
            form, library, body, bank = layout["image"][1]
            snapshot, head = body + len(library), layout["image"][0]
            cell = (
                struct.pack("<II", 2, 1)
                + struct.pack("<I16sI", 1, CLASS, 1)
                + FACE
                + struct.pack("<iH", worked.ANY, 0)
            )
            images = [
                ("objects", struct.pack("<II", 2, MOST)),
                (
                    "cells of an object",
                    struct.pack("<II", 2, 1) + struct.pack("<I16sI", 1, CLASS, MOST),
                ),
                ("scalars of a key", cell[:-2] + struct.pack("<H", 65_535)),
                ("bytes of a text", cell + struct.pack("<HI", BSTR, MOST - 1)),
                ("bounds", cell + struct.pack("<HH", 0x2003, 65_535)),
                ("cells of a bound", cell + struct.pack("<HHIi", 0x2003, 1, MOST, 0)),
                ("65,536 cells", cell + struct.pack("<HHIi", 0x2014, 1, 65_536, 0)),
                (
                    "cells of 16 bounds",
                    cell + struct.pack("<HH", 0x200C, 16) + struct.pack("<Ii", MOST, 0) * 16,
                ),
                ("texts of an array", cell + struct.pack("<HHIiI", 0x2008, 1, 65_536, 0, MOST - 1)),
            ]
            for what, image in images:
                file.lay()
                file.change(head, store.head_of(form, library, image, bank))
                file.change(snapshot, image + b"\0")
                self.refused(
                    room, f"{MOST} or as many {what} in a snapshot", file, f"damaged at {snapshot}"
                )
                if len(image) < len(cell):
                    continue
                # the same cell, behind its object
                event = CREATED + b"\3" + struct.pack("<I", 1) + image[32:]
                file.lay()
                file.change(snapshot + 8, b"\1" + struct.pack("<I", len(event)) + event + b"\0")
                self.refused(
                    room,
                    f"{MOST} or as many {what} in an event",
                    file,
                    f"damaged at {snapshot + 8}",
                )

    def test_lengths_of_an_image(self):
        """Lengths of what is not there, in little memory: the place is told."""
        with tempfile.TemporaryDirectory(dir=fast_folder()) as room:
            file, layout = StoreFile(f"{room}/it.store", store.formatted(TEXT)), layout_of(
                store.formatted(TEXT)
            )
            fill(room, {"lib.idl": LIBRARY})
            form, library, body, bank = layout["image"][1]
            snapshot, head = body + len(library), layout["image"][0]
            for what, place, at in (
                ("bytes of a library", head + 12, head),
                ("bytes of a snapshot", head + 16, head),
                ("bytes of a bank", head + 20, head),
                ("bytes of a group", snapshot + 9, snapshot + 8),
            ):
                for count in (MOST, 2**31, bank):
                    file.lay()
                    file.change(snapshot + 8, b"\1")
                    file.change(
                        place,
                        struct.pack(
                            "<I", count if what != "bytes of a bank" or count != bank else bank + 1
                        ),
                    )
                    self.refused(room, f"{count} {what}", file, f"damaged at {at}")

    def test_a_library_that_a_head_claims(self):
        """One of another length than the server's is not read: in little memory, of 2**29 bytes in
        a bank of twice as many."""
        whole = store.formatted(TEXT)
        head, (_, _, body, bank) = layout_of(whole)["image"]
        front = bytearray(whole[:body])
        front[head + 12 : head + 16], front[head + 20 : head + 24] = struct.pack(
            "<I", 2**29
        ), struct.pack("<I", 2**30)
        with tempfile.TemporaryDirectory(dir=fast_folder()) as room:
            fill(room, {"lib.idl": LIBRARY, "it.store": bytes(front)})
            os.truncate(f"{room}/it.store", len(whole) + 2 * (2**30 - bank))
            got = run_in(room, ["serve", "it.store", "lib.idl"], before=within(LITTLE))
            self.tell(
                "serve: a library of 536,870,912 bytes differs",
                got == (3, b"", fault("library differs")),
                got,
            )

    def refused(self, room, name, file, text):
        """A store that both commands refuse with one text, in little memory, without a change of
        its file."""
        now = file.now()
        for words in (["dump", "it.store"], ["serve", "it.store", "lib.idl"]):
            got = run_in(room, words, before=within(LITTLE))
            self.tell(
                f"{words[0]}: {name}",
                (got, file.now() == now, file.dump()) == ((3, b"", fault(text)), True, text),
                (got, file.dump()[:100]),
            )


# --- what is as large as it may be

HEAD = b"[uuid(11223344-5566-7788-99AA-BBCCDDEEFF01)] library Demo {"


def guid_of(number):
    return "11223344-5566-7788-99aa-%012x" % number


def wire_of(number):
    return bytes.fromhex("443322116655887799aa") + number.to_bytes(6, "big")


class Sizes(Cases):
    def told(self, name, library, requests, replies):
        """A session of requests, and the fields of their replies."""
        bodies = tagged(requests)
        wanted = oaut.Raw.pack([done(body) + fields for body, fields in zip(bodies, replies)])
        status, out, err = run(["play", "lib.idl"], oaut.Raw.pack(bodies), {"lib.idl": library})
        self.tell(
            name,
            (status, out == wanted, err) == (0, True, b""),
            (status, len(out), len(wanted), err),
        )

    def test_a_list_of_65_536_objects(self):
        count = 65_536
        numbers = range(1, count + 1)
        listed = wire.objects(CLASS, numbers)
        self.told(
            "a list of 65,536 objects",
            LIBRARY,
            [oaut.ask_create(worked.ITEM)] * count + [oaut.ask_list()],
            [struct.pack("<II", it, 0) for it in numbers] + [listed],
        )
        with tempfile.TemporaryDirectory(dir=fast_folder()) as room:
            disk = store.add(
                store.formatted(TEXT),
                b"".join(b"\1" + struct.pack("<I", it) + CLASS for it in numbers),
            )
            fill(room, {"lib.idl": LIBRARY, "it.store": disk})
            asked = tagged([oaut.ask_list(), oaut.ask_release(count), oaut.ask_create(worked.ITEM)])
            due = [listed, b"", struct.pack("<II", count + 1, 0)]
            wanted = oaut.Raw.pack([done(body) + fields for body, fields in zip(asked, due)])
            status, out, err = run_in(room, ["serve", "it.store", "lib.idl"], oaut.Raw.pack(asked))
            self.tell(
                "a store with 65,536 objects is opened",
                (status, out == wanted, err) == (0, True, b""),
                (status, len(out), err),
            )

    def test_descriptions_of_many_members(self):
        long = lambda at: "M" * 60 + "%03d" % at
        properties = "".join(f"[id({at})] long {long(at)};" for at in range(512))
        library = (
            HEAD + f"[uuid({guid_of(2)})] dispinterface D {{ properties: {properties} }} "
            f"[uuid({guid_of(3)})] coclass C {{ dispinterface D; }} }}".encode()
        )
        described = wire.interface(
            wire_of(2), "D", [wire.member(at, 0, 0, I4, long(at)) for at in range(512)]
        )
        self.tell(
            "the description of 512 members has above 1,000 bytes",
            len(described) > 70_000,
            len(described),
        )
        self.told("an interface of 512 members", library, [oaut.ask_type_info(0)], [described])
        methods = "".join(
            f"[id({at}), propget] long N{at}(); [id({at}), propput] void N{at}([in] long V);"
            for at in range(256)
        )
        library = (
            HEAD + f"[uuid({guid_of(2)})] dispinterface D {{ methods: {methods} }} "
            f"[uuid({guid_of(3)})] coclass C {{ dispinterface D; }} }}".encode()
        )
        members = [
            it
            for at in range(256)
            for it in (
                wire.member(at, 2, 0, I4, f"N{at}"),
                wire.member(at, 4, 0, 24, f"N{at}", [wire.parameter(I4, 1, "V")]),
            )
        ]
        self.told(
            "an interface of 256 gets and 256 puts",
            library,
            [oaut.ask_type_info(0)],
            [wire.interface(wire_of(2), "D", members)],
        )
        parameters = ", ".join(
            f'[in, optional, defaultvalue("{"x" * 2_000}")] BSTR {"P" * 60}{at}' for at in range(16)
        )
        library = (
            HEAD + f"[uuid({guid_of(2)})] dispinterface D {{ methods: [id(1)] void "
            f"M({parameters}); }} [uuid({guid_of(3)})] coclass C {{ dispinterface D; "
            f"}} }}".encode()
        )
        given = [
            wire.parameter(BSTR, 0x31, f"{'P' * 60}{at}", text("x\0".encode() * 2_000))
            for at in range(16)
        ]
        self.told(
            "a member of 16 parameters with long defaults",
            library,
            [oaut.ask_type_info(0)],
            [wire.interface(wire_of(2), "D", [wire.member(1, 1, 0, 24, "M", given)])],
        )

    def test_descriptions_of_many_entries(self):
        faces = "".join(
            f"[uuid({guid_of(at + 2)})] dispinterface D{at} {{ properties: }}" for at in range(256)
        )
        entries = " ".join(
            f"{'[default] ' if at == 7 else ''}dispinterface D{at};" for at in range(256)
        )
        library = HEAD + f"{faces} [uuid({guid_of(1_000)})] coclass C {{ {entries} }} }}".encode()
        coclass = (
            struct.pack("<II", 5, 256)
            + wire_of(1_000)
            + wire.string("C")
            + b"".join(struct.pack("<II", at == 7, at) for at in range(256))
        )
        self.told(
            "a coclass of 256 interfaces",
            library,
            [oaut.ask_type_info(256), oaut.ask_type_info(255)],
            [coclass, wire.interface(wire_of(257), "D255", [])],
        )

    def test_stores_with_arrays_of_65_536_cells(self):
        count = 65_536
        with tempfile.TemporaryDirectory(dir=fast_folder()) as room:
            fill(room, {"lib.idl": LIBRARY})
            for name, vt, bounds, cells in (
                ("UI1", UI1, [(count, 0)], [it % 251 for it in range(count)]),
                (
                    "I8, in two dimensions",
                    I8,
                    [(256, -1), (256, 7)],
                    [it * 2**40 for it in range(count)],
                ),
                ("BSTR", BSTR, [(count, 5)], [None if it % 3 else b"k\0" for it in range(count)]),
                (
                    "VARIANT, in 16 dimensions",
                    VARIANT,
                    [(2, 0)] * 16,
                    [(I4, it) if it % 2 else (0, None) for it in range(count)],
                ),
            ):
                field = array(vt, bounds, cells)
                made = Answering()
                for body in tagged([oaut.ask_create(worked.ITEM), worked.put(worked.ANY, field)]):
                    made.reply(body)
                held = next(iter(made.model.objects[1][1].values()))
                event = (
                    b"\3"
                    + struct.pack("<I", 1)
                    + FACE
                    + struct.pack("<iH", worked.ANY, 0)
                    + store.value_image(kept(held))
                )
                disk = store.add(store.formatted(TEXT), CREATED, event)
                fill(room, {"it.store": disk, "other.store": store.settled(disk)})
                first, last = [lower for _, lower in bounds], [
                    lower + many - 1 for many, lower in bounds
                ]
                asked = tagged(
                    [
                        worked.get(worked.ANY),
                        worked.element(worked.ANY, *first),
                        worked.element(worked.ANY, *last),
                    ]
                )
                due = oaut.Raw.pack([made.reply(body) for body in asked])
                for path in ("it.store", "other.store"):
                    status, out, err = run_in(
                        room, ["serve", path, "lib.idl"], oaut.Raw.pack(asked)
                    )
                    self.tell(
                        f"{path} with an array of 65,536 cells of {name}",
                        (status, out == due, err) == (0, True, b""),
                        (status, len(out), err),
                    )
