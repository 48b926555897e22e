"""Ample memory: at each limit of the specification, one below it and one above it, no reply says
that there is none, and no session, opening or command ends by it. And with each growth of such a
session refused in turn, the replies differ in that one alone."""
import struct
import tempfile
import unittest
import uuid

from oaut.frames import frames_of, join
from tests.program.test_costs import tagged
from tests.support import full, store, wire, worked
from tests.support.asked import Answering
from tests.support.calls import text_held
from tests.support.codes import E_INVALIDARG, E_OUTOFMEMORY, E_UNEXPECTED, MEDIUM_FULL
from tests.support.due import dump_of, replies_of
from tests.support.model import LIBRARY, TABLE_LIMIT, first_library
from tests.support.preloaded import COMPILER, Preloaded, fast_folder
from tests.support.refused_growths import Over, Session, Tried
from tests.support.running import SMALL, SMALL_TEXT, Cases, fault, fill, run_in
from tests.support.stores import CLASS, NEW
from tests.support.wire import oaut

CREATE = oaut.ask_create(worked.ITEM)
CREATE_C = oaut.ask_create(uuid.UUID(bytes_le=CLASS))
MOST_CELLS, MOST_TEXT, MOST_EVENT, MOST_LIBRARY, MOST_LOCKS, MOST_KEYS = (
    65_536,
    1_048_576,
    4_194_304,
    262_144,
    65_535,
    15,
)
OLD_BANK = 16_777_216
EACH = 40  # of the growths of a session at its limits so many are refused
OUT_OF_MEMORY = struct.pack("<I", E_OUTOFMEMORY)


def around(limit):
    return limit - 1, limit, limit + 1


def codes_of(replies):
    return [struct.unpack_from("<I", it, 4)[0] for it in replies]


def longs(bounds, value=7):
    count = 1
    for it, _ in bounds:
        count *= it
    return wire.array(wire.I2, bounds, [value] * count)


def arrays():
    """Requests about arrays of the most cells and the most bounds, and of texts of the most bytes;
    each array in an object of its own."""
    found, of = [CREATE] * 16, 0
    for count in around(MOST_CELLS):
        of += 1
        found += [
            worked.redim(worked.GRID, count, 0, of),
            worked.element(worked.GRID, 0, of=of),
            worked.redim(worked.GRID, count, -5, of),
        ]
        of += 1
        found += [
            worked.put(worked.ANY, longs([(count, 0)]), of),
            worked.element(worked.ANY, count - 1, of=of),
            worked.redim(worked.ANY, count, 3, of),
        ]
    for count in (15, 16):
        of += 1
        bounds, first = [(1, 0)] * (count - 1) + [(2, -1)], (0,) * (count - 1) + (-1,)
        found += [
            worked.put(worked.GRID, longs(bounds), of),
            worked.element(worked.GRID, *first, of=of),
            worked.put_element(worked.GRID, first, worked.i4(9), of),
        ]
        found += [
            worked.redim(worked.GRID, 32_768, 5, of),
            worked.call(oaut.LOCK, worked.GRID, of=of),
            worked.call(oaut.UNLOCK, worked.GRID, of=of),
        ]
    found.append(
        worked.put(
            worked.GRID,
            longs([(1, 0)], 1)[:8] + wire.array(wire.I2, [(1, 0)], [1], dimensions=17)[8:],
            of + 1,
        )
    )
    for count in around(MOST_TEXT):
        found += [worked.put(worked.NAME, worked.text(bytes(count))), worked.get(worked.NAME)]
    return found


def canonical_library(length):
    """A library whose canonical text has so many bytes, by the default text of one parameter."""
    front = (
        "[uuid(11223344-5566-7788-99aa-bbccddeeff01), version(0.0)]\nlibrary L {\n"
        "[uuid(11223344-5566-7788-99aa-bbccddeeff02)]\ndispinterface D {\nproperties:\nmethods:\n"
    )
    back = (
        "\n}\n[uuid(11223344-5566-7788-99aa-bbccddeeff03)]\ncoclass C {\n"
        "[default] dispinterface D;\n}\n}\n"
    )
    cell = (
        '[id(1), propget] SAFEARRAY(BSTR) Cell([in, optional, defaultvalue("{0}")] BSTR Key);\n'
        '[id(1), propput] void Cell([in, optional, defaultvalue("{0}")] BSTR Key, [in] '
        "SAFEARRAY(BSTR) Value);"
    )
    rest = length - len(front) - len(back) - len(cell.format(""))
    text = "x" * (rest // 2)
    return (
        front
        + cell.format(text).replace("[in, optional, def", "[in, optional, def", 1)
        + " " * (rest % 2)
        + back
    ).encode(), len(text)


@unittest.skipUnless(COMPILER, "cc is not there: no growth is counted")
class AtLimits(Cases):
    """Sessions with ample memory, by an allocator that never refuses and counts."""

    def session(
        self, name, words, given, framing=oaut.Raw, files=(), status=0, err=b"", opens=True
    ):
        """The replies of a session, of which none may say that there is no memory."""
        with Preloaded() as preloaded:
            for file, content in dict(files).items():
                fill(preloaded.room, {file: content})
            preloaded.fill("given", given)
            got = preloaded.run(
                [preloaded.path(it) if it in ("it.store", "lib.idl") else it for it in words],
                "given",
            )
            replies = replies_of(got.out, framing) if framing else oaut.frames.split(got.out)[0]
            self.tell(
                f"{name}: it ends well",
                (got.status, got.err, got.left) == (status, err, 0) and got.calls > 0,
                (got.status, got.err, got.left, got.calls),
            )
            starved = [
                place
                for place, it in enumerate(replies)
                if (it if framing else it[1][4:])[4:8] == OUT_OF_MEMORY
            ]
            self.tell(f"{name}: no reply says that there is no memory", not starved, starved[:5])
            if "it.store" not in words:
                return replies, None
            made = preloaded.run(
                [preloaded.path(it) if it in ("it.store", "lib.idl") else it for it in words]
            )
            self.tell(
                f"{name}: the store opens again", made[:3] == (0, b"", b"") or not opens, made[:3]
            )
            return replies, text_held(preloaded.room)

    def test_arrays_and_texts(self):
        bodies = tagged(arrays())
        answering = Answering()
        due = list(map(answering.reply, bodies))
        empty = store.formatted(first_library().text())
        for words in (
            ["play", "lib.idl"],
            ["serve", "it.store", "lib.idl"],
            ["serve", "--group", "1024", "it.store", "lib.idl"],
        ):
            replies, _ = self.session(
                " ".join(words),
                words,
                oaut.Raw.pack(bodies),
                files={"lib.idl": LIBRARY, "it.store": empty},
            )
            wrong = [place for place, (one, other) in enumerate(zip(replies, due)) if one != other]
            self.tell(
                f"{' '.join(words)}: the replies are the model's",
                replies == due,
                (len(replies), wrong[:5], codes_of(replies)),
            )

    def test_a_snapshot_of_arrays_and_texts(self):
        """REPLACE LIBRARY writes all of them into the other bank."""
        bodies = tagged([*arrays(), worked.replace(worked.WIDER)])
        answering = Answering()
        due = list(map(answering.reply, bodies))
        files = {"lib.idl": LIBRARY, "it.store": store.formatted(first_library().text())}
        words = ["serve", "--group", "1024", "it.store", "lib.idl"]
        replies, held = self.session(
            "a snapshot of arrays", words, oaut.Raw.pack(bodies), files=files, opens=False
        )
        self.tell(
            "a snapshot of arrays: the replies are the model's", replies == due, codes_of(replies)
        )
        self.tell(
            "a snapshot of arrays: it holds what the model does",
            held == dump_of(answering.model),
            len(held),
        )

    def test_a_full_table(self):
        """Of new cells, whose names count, to the last byte of the image; one more is refused as a
        full medium."""
        cell = lambda at: worked.put(
            worked.CELL,
            worked.text(b"x\0"),
            named=(-3, 1, 0),
            more=(worked.text(worked.LETTER), worked.i4(at)),
        )
        bodies = tagged(
            [
                *[CREATE] * 15,
                *map(cell, range(200)),
                *(
                    worked.put(worked.NAME, worked.text(bytes(MOST_TEXT)), of)
                    for of in range(1, 15)
                ),
            ]
        )
        answering = Answering()
        due = list(map(answering.reply, bodies))
        front = answering.model.image
        answering.reply(tagged([worked.put(worked.NAME, worked.text(b""), 15)])[0])
        length = TABLE_LIMIT - answering.model.image
        last = tagged(
            [worked.put(worked.NAME, worked.text(bytes(it)), 15) for it in (length + 1, length)]
        )
        for words in (["play", "lib.idl"], ["serve", "it.store", "lib.idl"]):
            files = {"lib.idl": LIBRARY, "it.store": store.formatted(first_library().text())}
            replies, _ = self.session(words[0], words, oaut.Raw.pack(bodies + last), files=files)
            self.tell(
                f"{words[0]}: a table of {TABLE_LIMIT} bytes",
                codes_of(replies) == [*codes_of(due), MEDIUM_FULL, 0] and front < TABLE_LIMIT,
                codes_of(replies)[-3:],
            )

    def test_events(self):
        """A put whose event has the most bytes: its key has a long text that no request names."""
        library, key = canonical_library(200_001)
        # the name of the cell, and of an array of four texts all but their bytes
        beside = 5 + 16 + 4 + 2 + (6 + 2 * key) + (4 + 8 + 4 * 4)
        given, due = [CREATE_C], [0]
        for length in around(MOST_EVENT):
            texts = length - beside
            parts = [MOST_TEXT - 2_000] * 3
            given.append(
                worked.put(
                    1,
                    wire.array(
                        wire.BSTR, [(4, 0)], [bytes(it) for it in (*parts, texts - sum(parts))]
                    ),
                )
            )
            due.append(0 if length <= MOST_EVENT else E_INVALIDARG)
        for words in (
            ["play", "lib.idl"],
            ["serve", "it.store", "lib.idl"],
            ["serve", "--group", "1024", "it.store", "lib.idl"],
        ):
            text = run_in_memory(["check", "lib.idl"], {"lib.idl": library})[1]
            replies, held = self.session(
                " ".join(words),
                words,
                oaut.Raw.pack(tagged(given)),
                files={"lib.idl": library, "it.store": store.formatted(text)},
            )
            self.tell(
                f"{' '.join(words)}: events of {MOST_EVENT} bytes",
                codes_of(replies) == due,
                codes_of(replies),
            )
            if held is not None:
                self.tell(
                    f"{' '.join(words)}: the array of the longest event is there",
                    held.count("\ncell ") == 1,
                    held[:200],
                )

    def test_a_group_of_the_most_bytes(self):
        """It ends with the event that brings it to 524,288 bytes, which may be the longest: the
        store opens again."""
        library, key = canonical_library(200_001)
        text = run_in_memory(["check", "lib.idl"], {"lib.idl": library})[1]
        beside = 5 + 16 + 4 + 2 + (6 + 2 * key) + (4 + 8 + 4 * 4)
        put = lambda length, of: worked.put(
            1, wire.array(wire.BSTR, [(4, 0)], [bytes(it) for it in parts_of(length - beside)]), of
        )
        first = 524_287 - 21
        with Preloaded() as preloaded:
            fill(preloaded.room, {"lib.idl": library, "it.store": store.formatted(text)})
            preloaded.fill(
                "given", oaut.Raw.pack(tagged([CREATE_C, put(first, 1), put(MOST_EVENT, 1)]))
            )
            words = [
                "serve",
                "--group",
                "1024",
                preloaded.path("it.store"),
                preloaded.path("lib.idl"),
            ]
            got = preloaded.run(words, "given")
            self.tell(
                "a group of the most bytes",
                codes_of(replies_of(got.out, oaut.Raw)) == [0, 0, 0],
                got[:3],
            )
            made = preloaded.run(words)
            self.tell("a group of the most bytes: it opens", made[:3] == (0, b"", b""), made[:3])
            dumped = preloaded.run(["dump", preloaded.path("it.store")])
            self.tell(
                "a group of the most bytes: dump",
                dumped[:3] == (0, text_held(preloaded.room).encode(), b""),
                dumped[2],
            )

    def test_locks(self):
        """Of one client the most that an array has, and one of another array; and of two
        clients."""
        locks = [worked.call(oaut.LOCK, worked.GRID)] * MOST_LOCKS
        made = [
            CREATE,
            worked.put(worked.GRID, worked.GRID_1_TO_6),
            worked.put(worked.ANY, worked.GRID_1_TO_6),
        ]
        more = [
            worked.call(oaut.LOCK, worked.ANY),
            worked.call(oaut.LOCK, worked.GRID),
            *[worked.call(oaut.UNLOCK, worked.GRID)] * (MOST_LOCKS + 1),
        ]
        bodies = tagged([*made, *locks, *more])
        due = [0, 0, 0, *[0] * MOST_LOCKS, 0, E_UNEXPECTED, *[0] * MOST_LOCKS, E_UNEXPECTED]
        replies, _ = self.session(
            "65,536 locks of one client",
            ["play", "--shared", "lib.idl"],
            frames_of(5, oaut.Raw.pack(bodies)),
            None,
            {"lib.idl": LIBRARY},
        )
        codes = codes_of([data[4:] for _, data in replies if data])
        self.tell(
            "65,536 locks of one client, 65,535 of one array, each given back",
            codes == due,
            len(codes),
        )
        # (each of two clients locks it, and what the first one has is given back at its end)
        frames = b"".join(
            [
                frames_of(it % 2, oaut.Raw.pack([body]))
                for it, body in enumerate(bodies[: 3 + MOST_LOCKS])
            ]
        )
        frames += frames_of(1, oaut.Raw.pack([bodies[3]])) + join(
            [(0, b""), (1, oaut.Raw.pack([bodies[3]]))]
        )
        replies, _ = self.session(
            "65,536 locks of two clients",
            ["play", "--shared", "lib.idl"],
            frames,
            None,
            {"lib.idl": LIBRARY},
        )
        codes = codes_of([data[4:] for _, data in replies if data])
        self.tell(
            "65,535 locks of two clients, and one more behind the end of one",
            codes == [*due[: 3 + MOST_LOCKS], E_UNEXPECTED, 0],
            codes[-5:],
        )

    def test_clients(self):
        """So many at a time, each with a request and then within a record."""
        for count in (*around(1_024), *around(65_536)):
            first = oaut.Raw.pack([struct.pack("<I", 1) + worked.get(worked.COUNT, of=77)])
            numbers = [(it * 65_521) % 4_294_967_295 for it in range(count - 1)] + [4_294_967_294]
            given = b"".join([join([(it, first + bytes([40]))]) for it in numbers])
            replies, _ = self.session(
                f"{count} clients", ["play", "--shared", "lib.idl"], given, None, {"lib.idl": SMALL}
            )
            answers = [data for _, data in replies if data]
            self.tell(
                f"{count} clients: each has its reply, bad stub data and its end",
                (len(answers), len(replies)) == (2 * count, 3 * count),
                len(replies),
            )

    def test_banks(self):
        for bank in (1_073_741_823, 1_073_741_824):
            with Preloaded() as preloaded:
                preloaded.fill("lib.idl", SMALL)
                path = preloaded.path("it.store")
                with open(path, "wb") as file:
                    file.truncate(store.length_of(bank))
                got = preloaded.run(
                    ["format", "--bank", str(bank), path, preloaded.path("lib.idl")]
                )
                self.tell(
                    f"format: banks of {bank} bytes", got[:3] == (0, b"formatted\n", b""), got[:3]
                )
                preloaded.fill(
                    "given", oaut.Raw.pack(tagged([CREATE, worked.put(1, worked.i4(7))]))
                )
                got = preloaded.run(["serve", path, preloaded.path("lib.idl")], "given")
                self.tell(
                    f"serve: banks of {bank} bytes",
                    (got.status, codes_of(replies_of(got.out, oaut.Raw))) == (0, [0, 0]),
                    got[:3],
                )
                self.tell(
                    f"banks of {bank} bytes: few bytes of memory", got.held < 2**24, got.held
                )

    def test_keys(self):
        """Members of the most parameters, a put's new value among them: puts, gets, elements and
        locks."""
        for count in (1, 7, 8, 9, MOST_KEYS - 1, MOST_KEYS):
            key = tuple(worked.i4(it) for it in range(count))
            of = {"arguments": key}
            asked = [
                CREATE_C,
                worked.put(1, wire.array(wire.I4, [(2, 0)], [5, 6]), more=key),
                worked.get(1, **of),
                worked.call(oaut.LOCK, 1, **of),
                worked.call(oaut.UNLOCK, 1, **of),
                worked.call(oaut.GETELEM, 1, oaut.indices_field((1,)), **of),
                worked.put_element(1, (0,), worked.i4(9), **of),
                worked.call(oaut.REDIM, 1, struct.pack("<Ii", 3, 0), **of),
                worked.get(1, **of),
            ]
            library = full.keyed("SAFEARRAY(long)", count)
            text = run_in_memory(["check", "lib.idl"], {"lib.idl": library})[1]
            for words in (["play", "lib.idl"], ["serve", "it.store", "lib.idl"]):
                replies, _ = self.session(
                    f"{words[0]}: keys of {count}",
                    words,
                    oaut.Raw.pack(tagged(asked)),
                    files={"lib.idl": library, "it.store": store.formatted(text)},
                )
                self.tell(
                    f"{words[0]}: keys of {count}",
                    codes_of(replies) == [0] * len(asked),
                    codes_of(replies),
                )

    def test_numbers_near_2_to_the_32(self):
        """The last three numbers of objects, and no more."""
        disk = bytearray(NEW)
        place = store.LEAST + len(SMALL_TEXT)
        disk[place : place + 4] = struct.pack("<I", 4_294_967_292)
        asked = [CREATE_C] * 4 + [
            worked.put(1, worked.i4(7), of=4_294_967_294),
            worked.get(1, of=4_294_967_294),
            oaut.ask_release(4_294_967_293),
            CREATE_C,
        ]
        for group in ("1", "1024"):
            replies, held = self.session(
                "the last numbers",
                ["serve", "--group", group, "it.store", "lib.idl"],
                oaut.Raw.pack(tagged(asked)),
                files={"lib.idl": SMALL, "it.store": bytes(disk)},
            )
            self.tell(
                f"the last numbers, groups of {group}",
                codes_of(replies) == [0, 0, 0, E_UNEXPECTED, 0, 0, 0, E_UNEXPECTED],
                codes_of(replies),
            )
            self.tell(
                f"the last numbers, groups of {group}: what is there",
                [it.split()[1] for it in held.splitlines() if it.startswith("object")]
                == ["4294967292", "4294967294"],
                held,
            )

    def test_libraries(self):
        """A store of the longest library is made, served and dumped."""
        for length in around(MOST_LIBRARY):
            library, _ = canonical_library(length)
            text = run_in_memory(["check", "lib.idl"], {"lib.idl": library})
            with tempfile.TemporaryDirectory(dir=fast_folder()) as room:
                fill(room, {"lib.idl": library, "it.store": bytes(store.length_of(store.BANK))})
                if length > MOST_LIBRARY:
                    self.tell(
                        "a library of a byte more",
                        (len(library), text) == (length, (2, b"", fault("limit text"))),
                        text[2],
                    )
                    continue
                self.tell(
                    f"a library of {length} bytes: its canonical text",
                    (text[0], len(text[1])) == (0, length - length % 2),
                    (text[0], len(text[1]), text[2]),
                )
                for command, out in (
                    (["format", "it.store", "lib.idl"], b"formatted\n"),
                    (["serve", "it.store", "lib.idl"], b""),
                    (["dump", "it.store"], b"next 1\n"),
                    (["dump", "--library", "it.store"], text[1]),
                ):
                    got = run_in(room, command)
                    self.tell(
                        f"a library of {length} bytes: {' '.join(command)}",
                        got == (0, out, b""),
                        (got[0], got[1][:100], got[2]),
                    )

    def test_the_fullest_old_tables(self):
        """Tables of format 1 that fill its bank: `upgrade` to larger banks takes each."""
        text = full.library(61, "BSTR")
        kept = len(run_in_memory(["check", "lib.idl"], {"lib.idl": text})[1])
        most = OLD_BANK - 4_096 - kept
        for size in (14_680_064, 16_000_000, 16_000_001, 16_700_000):
            self.tell(f"an old bank takes {size} bytes", size < most)
            with tempfile.TemporaryDirectory(dir=fast_folder()) as room:
                length = full.laid(room, text, full.texts(size), form=1)
                held = text_held(room)
                got = run_in(room, ["upgrade", "--bank", "41943040", "it.store"])
                self.tell(
                    f"upgrade: an old table of {size} bytes",
                    (length, got) == (size, (0, b"upgraded\n", b"")),
                    (length, got),
                )
                self.tell(
                    f"upgrade: an old table of {size} bytes: it is there", text_held(room) == held
                )


def parts_of(length):
    """The lengths of four texts that have so many bytes together, none too long."""
    part = min(length // 4, MOST_TEXT - 2)
    return [part, part, part, length - 3 * part]


def run_in_memory(words, files):
    with tempfile.TemporaryDirectory(dir=fast_folder()) as room:
        fill(room, files)
        return run_in(room, words)


@unittest.skipUnless(COMPILER, "cc is not there: no growth is refused")
class Refused(Cases):
    def test_each_growth_of_a_session_at_its_limits(self):
        """A request that is refused a growth says so, and each other reply is as if it had not been
        sent."""
        tried = Tried()
        asked = [
            worked.redim(worked.GRID, MOST_CELLS, 0),
            worked.put(worked.ANY, longs([(1, 0)] * 16)),
            worked.element(worked.ANY, *[0] * 16),
            worked.put(worked.NAME, worked.text(bytes(MOST_TEXT))),
            worked.get(worked.NAME),
            worked.call(oaut.LOCK, worked.GRID),
            worked.call(oaut.UNLOCK, worked.GRID),
            worked.get(worked.GRID),
            oaut.ask_list(),
        ]
        session = Session("limits", [CREATE, *asked])
        with Preloaded() as preloaded:
            for group in (None, 1, 3):
                over = Over(preloaded, session, "raw", group)
                opening, calls = over.run("nothing").calls, over.run().calls
                began = len(tried.wrong)
                for nth in range(opening + 1, calls + 1, max(1, (calls - opening) // EACH)):
                    tried.refused, tried.runs = tried.refused + 1, tried.runs + 1
                    tried.note(*over.refuse(tried, nth))
                wrong = tried.wrong[began:]
                self.tell(
                    f"at limits, {'in memory' if group is None else f'groups of {group}'}",
                    calls > opening and not wrong,
                    f"{len(wrong)} are wrong: {wrong[:3]}",
                )
        print(f"growths at limits: {tried}", flush=True)

    def test_a_lock_that_is_refused_memory(self):
        """Whatever of a LOCK is refused, no lock stays behind the end of the client that asked for
        it."""
        bodies = tagged(
            [
                CREATE,
                worked.put(worked.GRID, worked.GRID_1_TO_6),
                worked.call(oaut.LOCK, worked.GRID),
                worked.redim(worked.GRID, 1, 0),
            ]
        )
        first, locks, redim = (
            oaut.Raw.pack(bodies[:2]),
            oaut.Raw.pack(bodies[2:3]),
            oaut.Raw.pack(bodies[3:]),
        )
        with Preloaded() as preloaded:
            preloaded.fill("lib.idl", LIBRARY)
            words = ["play", "--shared", preloaded.path("lib.idl")]

            def codes(given, **how):
                preloaded.fill("given", given)
                got = preloaded.run(words, "given", **how)
                return got, codes_of(
                    [data[4:] for _, data in oaut.frames.split(got.out)[0] if data]
                )

            begun, whole = join([(1, first)]), join([(1, first), (2, locks), (2, b""), (1, redim)])
            after, calls = codes(begun)[0].calls, codes(whole)[0].calls
            self.tell("a lock takes some growths", calls > after, (after, calls))
            refused = 0
            for nth in range(after - 8, calls + 1):
                got, told = codes(whole, refuse=nth)
                if got.status == 5 or told[:2] != [0, 0]:
                    continue
                refused += told[2] == E_OUTOFMEMORY
                self.tell(
                    f"growth {nth} refused: REDIM behind the end of who locked",
                    told[3] in (0, E_OUTOFMEMORY),
                    told,
                )
            self.tell("a lock is refused memory", refused > 0, refused)
