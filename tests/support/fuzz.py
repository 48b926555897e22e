"""Random bytes for the program, from seeds: records, frames of many clients, libraries and stores
that are good ones changed at some places.

    python3 -m tests.support.fuzz [--program PATH] [--seconds N] [--seed S] [records] [frames]
        [libraries] [stores]

PATH is crates/oaut/out/oaut where none is given. Each of the parts takes N seconds, 20 where
nothing is said. Each reply to a record is compared with that of the model, which reads the bytes by
the documents alone (tests/support/asked.py). `check` gives each text the same answer twice: a
library that is its own canonical text, or a place inside the text. `dump` and `serve` say of each
store what tests/support/store.py says, which shares no code with the program, within a second and
64 MiB, and leave its file as it was.
The last line counts what was tried, and the status is 1 where one differs. `tools/cases.py fuzz`
runs the same as cases.
"""
import argparse
import os
import random
import re
import struct
import sys
import time

if __name__ == "__main__":
    parser = argparse.ArgumentParser(
        description=__doc__, formatter_class=argparse.RawDescriptionHelpFormatter
    )
    parser.add_argument("--program", metavar="PATH")
    parser.add_argument("--seconds", metavar="N", type=float, default=20)
    parser.add_argument("--seed", metavar="S", type=int, default=1)
    parser.add_argument("parts", nargs="*", metavar="PART")
    given = parser.parse_args()
    if given.program:
        os.environ["OAUT_PROGRAM"] = given.program

from tests.support import sharing, store, worked
from tests.support.asked import Answering
from tests.support.drawn import Session
from tests.support.due import replies_of
from tests.support.model import LIBRARY, VARIANT, first_library
from tests.support.preloaded import StoreFile, fast_folder, read, spawned
from tests.support.running import PROGRAM, fault, fill, rows_of, run_in, text_of
from tests.support.wire import oaut

NUMBERS = (
    0,
    1,
    2,
    3,
    7,
    8,
    16,
    17,
    32,
    33,
    255,
    256,
    65_535,
    65_536,
    65_537,
    1_048_576,
    1_048_577,
    2**31 - 1,
    2**31,
    2**32 - 2,
    2**32 - 1,
)


class Dice(random.Random):
    """Draws of bytes that are changed."""

    def number(self):
        return self.choice(NUMBERS) if self.random() < 0.7 else self.getrandbits(32)

    def spoil(self, data, others=()):
        """The bytes with one change. `others` are bytes of its kind that parts may come from."""
        data = bytearray(data)
        at = self.randrange(len(data) + 1)
        kind = self.randrange(10)
        if kind == 0 and data:
            data[at % len(data)] ^= 1 << self.randrange(8)
        elif kind == 1 and data:
            data[at % len(data)] = self.choice((0, 1, 2, 127, 128, 255, self.randrange(256)))
        elif kind in (2, 3):
            place = at // 4 * 4
            data[place : place + 4] = struct.pack("<I", self.number())
        elif kind == 4:
            place = at // 4 * 4
            if place + 4 <= len(data):
                near = struct.unpack_from("<I", data, place)[0] + self.choice((-2, -1, 1, 2, 8))
                struct.pack_into("<I", data, place, near % 2**32)
        elif kind == 5:
            del data[at:]
        elif kind == 6:
            del data[at : at + self.choice((1, 2, 4, 8, self.randrange(1, 64)))]
        elif kind == 7:
            data[at:at] = (
                bytes(self.choice((1, 2, 4, 8)))
                if self.random() < 0.5
                else self.randbytes(self.randrange(1, 17))
            )
        elif kind == 8:
            end = min(len(data), at + self.randrange(1, 65))
            data[at:at] = data[at:end]
        elif others:
            other = self.choice(others)
            start = self.randrange(len(other) + 1) // 4 * 4
            place = at // 4 * 4
            data[place : place + self.choice((0, 4, 16, 64))] = other[
                start : start + self.choice((4, 8, 16, 32, 64, 200))
            ]
        return bytes(data)


class Found:
    """What was tried, and what differs."""

    def __init__(self, what):
        self.what, self.tried, self.runs, self.differ, self.kinds = what, 0, 0, [], {}

    def kind(self, name):
        self.kinds[name] = self.kinds.get(name, 0) + 1

    def __str__(self):
        kinds = ", ".join(
            f"{name} {count}"
            for name, count in sorted(self.kinds.items(), key=lambda it: -it[1])[:8]
        )
        return f"{self.tried} {self.what} in {self.runs} runs ({kinds}): {len(self.differ)} differ"


# --- records
# (each kind goes on for so many seconds, and until it has tried at least so many)

OPCODES = range(1, 12)
REQUESTS = 1_000  # of one session


def may_replace(body):
    """Whether a body may bring a library that the model does not know."""
    return (
        len(body) > 40
        and struct.unpack_from("<H", body, 4)[0] == 12
        and body[16:].rstrip(b"\0") not in (LIBRARY, worked.WIDER, worked.NO_LIBRARY)
    )


def bodies(dice, answering):
    """A session of requests, of which most are changed at some places, and their replies by the
    model."""
    session = Session(dice.getrandbits(32))
    session.model = answering.model
    known = [*worked.ALL, *worked.EVERY_TYPE, *worked.REPLACED]
    for tag in range(1, REQUESTS + 1):
        roll = dice.random()
        request = dice.choice(known) if roll < 0.4 else session.request()[0]
        body = struct.pack("<I", tag) + request
        if len(answering.model.objects) and dice.random() < 0.75:
            for _ in range(dice.choice((1, 1, 1, 2, 3, 8))):
                body = dice.spoil(body, known)
        if not body or len(body) > 100_000 or may_replace(body):
            continue
        yield body


def records(room, seconds, seed, most=5, least=0):
    """Sessions of records against the model."""
    found, until = Found("records"), time.monotonic() + seconds
    while (time.monotonic() < until or found.tried < least) and len(found.differ) < most:
        dice, answering, asked, due = Dice(seed), Answering(), [], []
        for body in bodies(dice, answering):
            asked.append(body)
            due.append(answering.reply(body))
        framing = oaut.FRAMINGS[dice.choice(("raw", "lines"))]
        status, out, err = run_in(room, ["play", "lib.idl", *framing.words], framing.pack(asked))
        got = replies_of(out, framing)
        for place, (body, wanted) in enumerate(zip(asked, due)):
            found.kind(f"{struct.unpack_from('<I', wanted, 4)[0]:08x}")
            if place >= len(got) or got[place] != wanted:
                found.differ.append(
                    f"seed {seed}, record {place + 1}, {body.hex()}: due {wanted.hex()}, got "
                    f"{got[place].hex() if place < len(got) else None}, {status, err}"
                )
                break
        else:
            if (status, err, len(got)) != (0, b"", len(due)):
                found.differ.append(f"seed {seed}: the session ends with {status, err}")
        found.tried, found.runs, seed = found.tried + len(asked), found.runs + 1, seed + 1
    return found


# --- frames

CLIENTS = (0, 1, 2, 7, 2**31, 2**32 - 2)


def stream(dice, shared):
    """Frames of several clients, and what is told of them before the input ends. Their requests
    come in parts; clients end, within a record too, and come again; at the end there may be half a
    frame, or a head that says nothing."""
    given, told, left = bytearray(), [], {it: b"" for it in CLIENTS}

    def goes(frame):
        given.extend(frame)
        told.extend(shared.told(frame, ends=False))

    for body in bodies(dice, shared.answering):
        client = dice.choice(CLIENTS)
        left[client] += (
            struct.pack(
                "<I",
                len(body) if dice.random() < 0.995 else dice.choice((0, 4_194_305, 2**32 - 1)),
            )
            + body
        )
        while dice.random() < 0.8:
            client = dice.choice(CLIENTS)
            count = dice.choice((1, 3, 4, 5, 8, len(left[client]), len(left[client])))
            goes(oaut.frames.frames_of(client, left[client][:count]))
            left[client] = left[client][count:]
        if dice.random() < 0.02:
            goes(oaut.frames.NOW)
        if dice.random() < 0.02:
            client = dice.choice(CLIENTS)
            goes(oaut.frames.ended(client))
            left[client] = b""
    if dice.random() < 0.3:
        goes(
            dice.choice(
                (
                    b"\1",
                    oaut.frames.head(7, 9),
                    oaut.frames.head(7, 1_048_577),
                    oaut.frames.head(2**32 - 1, 1) + b"\0",
                    oaut.frames.head(0, 9) + b"\0\0",
                )
            )
        )
    return bytes(given), told


def frames(room, seconds, seed, most=5, least=0):
    """Sessions of many clients against the model, in memory and over a store."""
    found, until = Found("requests in frames"), time.monotonic() + seconds
    while (time.monotonic() < until or found.tried < least) and len(found.differ) < most:
        dice, shared = Dice(seed), sharing.Sharing()
        given, due = stream(dice, shared)
        due += shared.told(b"")
        words = ["play", "--shared", f"{room}/lib.idl"]
        if dice.random() < 0.5:
            run_in(room, ["format", "it.store", "lib.idl"])
            words = [
                "serve",
                "--shared",
                "it.store",
                "lib.idl",
                "--group",
                dice.choice(("1", "2", "7", "1024")),
            ]
        wrong = differing(run_in(room, words, given), shared, due)
        for _, reply in due:
            found.kind(f"{struct.unpack_from('<I', reply, 8)[0]:08x}" if reply else "end")
        if wrong:
            found.differ.append(f"seed {seed}, {words[0]}: {wrong}")
        found.tried, found.runs, seed = found.tried + len(shared.asked), found.runs + 1, seed + 1
    return found


def differing(got, shared, due):
    """What is wrong with how a shared session ends, and what it has told; None where nothing is."""
    status, out, err = got
    if (status, err) != shared.ends_as:
        return f"wanted {shared.ends_as}, got {status, err}"
    try:
        told = sharing.told_of(out)
    except ValueError as fault:
        return str(fault)
    place = next(
        (at for at, (one, other) in enumerate(zip(due, told)) if one != other),
        min(len(due), len(told)),
    )
    at = lambda them: (them[place][0], them[place][1].hex()) if place < len(them) else None
    return None if due == told else f"what is told {place + 1}th: due {at(due)}, got {at(told)}"


# --- libraries

WORDS = [
    it.encode()
    for it in "[ ] ( ) { } , ; : . - id uuid version helpstring library importlib dispinterface "
    "interface coclass properties methods void unsigned SAFEARRAY long short char BSTR "
    "VARIANT VARIANT_BOOL CURRENCY DECIMAL SCODE hyper int readonly propget propput in "
    "optional defaultvalue default TRUE FALSE -1 0x 0xFFFFFFFF 4294967296 "
    '79228162514264337593543950336 "a" " /* // */ \\ \t \r \x00 \xff é Count COUNT '
    "DItem Item 11223344-5566-7788-99AA-BBCCDDEEFF02".split(" ")
]
TOKEN = re.compile(rb"[A-Za-z_][A-Za-z_0-9]*|[0-9]+|\s+|.", re.DOTALL)
FAULT = re.compile(
    rb"oaut: (syntax at byte (\d+)|limit "
    rb"(text|name|interfaces|coclasses|members|params)|(duplicate name|duplicate id|get and put "
    rb"disagree|array parameter|bad default|unknown interface) \w+|duplicate guid "
    rb"[0-9a-f-]{36}|library is not UTF-8)\n"
)


def spoiled_text(dice, text, texts):
    """A library's text with some changes of tokens or bytes."""
    for _ in range(dice.choice((1, 1, 1, 2, 4))):
        tokens = TOKEN.findall(text)
        at, kind = dice.randrange(len(tokens) + 1), dice.randrange(8)
        if kind == 0:
            del tokens[at : at + dice.choice((1, 1, 2, 8))]
        elif kind == 1:
            tokens[at:at] = [dice.choice(WORDS)]
        elif kind == 2 and at < len(tokens):
            tokens[at] = dice.choice(WORDS)
        elif kind == 3:
            tokens[at:at] = tokens[at : at + dice.randrange(1, 40)]
        elif kind == 4:
            other = TOKEN.findall(dice.choice(texts))
            start = dice.randrange(len(other) + 1)
            tokens[at:at] = other[start : start + dice.randrange(1, 60)]
        elif kind == 5 and len(tokens) > 1:
            other = dice.randrange(len(tokens))
            at = at % len(tokens)
            tokens[at], tokens[other] = tokens[other], tokens[at]
        elif kind == 6:
            del tokens[at:]
        else:
            tokens = [dice.spoil(b"".join(tokens))]
        text = b"".join(tokens)
        if not text:
            return b" "
    return text


def known_texts():
    rows = [row[2:].encode() for row in rows_of("descriptions.txt") if row.startswith("= ")]
    return [
        LIBRARY,
        *(
            text_of(name)
            for name in (
                "small.idl",
                "full.idl",
                "arrays.idl",
                "counters.idl",
                "full.canonical.idl",
            )
        ),
        *rows,
    ]


def checked(room, content, words=()):
    """What `check` says of a text."""
    text, out, err = (f"{room}/{name}" for name in ("text.idl", "out", "err"))
    fill(room, {"text.idl": content})
    return spawned([PROGRAM, "check", *words, text], "/dev/null", out, err)[0], read(out), read(err)


def judged_text(room, content):
    """What kind of text it is, and what is wrong with what `check` says of it: None where nothing
    is."""
    status, told, said = checked(room, content)
    if checked(room, content) != (status, told, said):
        return "a text", "another answer the second time"
    if status == 0:
        return (
            "a library",
            "what was printed is not its own canonical text"
            if said or checked(room, told) != (0, told, b"")
            else None,
        )
    fault_ = FAULT.fullmatch(said)
    if status != 2 or told or fault_ is None:
        return "a text", f"{status, told[:200], said[:200]}"
    kind = re.sub(rb" (byte )?\S*$", b"", fault_[1]).decode()
    if fault_[2] and int(fault_[2]) > len(content):
        return kind, f"a place outside of the text, {said}"
    placed = checked(room, content, ["--where"])
    return (
        kind,
        f"--where tells {placed}"
        if placed[0] != 2 or placed[1] or not placed[2].startswith(said)
        else None,
    )


def libraries(room, seconds, seed, most=5, least=0):
    """Texts for `check`."""
    found, until, texts = Found("libraries"), time.monotonic() + seconds, known_texts()
    while (time.monotonic() < until or found.tried < least) and len(found.differ) < most:
        dice = Dice(seed)
        content = spoiled_text(dice, dice.choice(texts), texts)
        kind, wrong = judged_text(room, content)
        found.kind(kind)
        if wrong:
            found.differ.append(f"seed {seed}, {content!r}: {wrong}")
        found.tried, found.runs, seed = found.tried + 1, found.runs + 3, seed + 1
    return found


# --- stores

MOST = 65_536  # KiB of memory
BOUNDED = ["/bin/sh", "-c", f'ulimit -v {MOST}; exec "$@"', "sh", PROGRAM]
KNOWN = first_library()
CLASS_OF = {guid.bytes_le: [it.bytes_le for it in KNOWN.offered(guid)] for guid in KNOWN.classes}
MEMBERS = {guid.bytes_le: KNOWN.members(guid) for guid in KNOWN.interfaces}


def is_of(vt, declared):
    return declared in (vt, VARIANT)


def fits(found):
    """Whether the model's library can have the objects of a store."""
    for guid, cells in found.objects.values():
        for (interface, dispid, key), value in cells.items():
            member = MEMBERS.get(interface, {}).get(dispid)
            if (
                interface not in CLASS_OF.get(guid, ())
                or member is None
                or member.method
                or len(key) != len(member.parameters)
            ):
                return False
            vt = value.vt + oaut.ARRAY if isinstance(value, store.Array) else value[0]
            if not is_of(vt, member.vt) or not all(
                is_of(it[0], parameter.vt) for it, parameter in zip(key, member.parameters)
            ):
                return False
        if guid not in CLASS_OF:
            return False
    return True


def opened(data, library):
    """What `serve` says of a store where it refuses it."""
    try:
        if len(data) < store.LEAST or data[0] != 1:
            raise store.NotAStore
        chosen = data[store.SELECTOR] % 2
        form, length, _, bank = store.told(data, store.HEADS[chosen])
        if form == 1:
            return "old format"
        body = store.body_of(form, chosen, bank)
        if data[body : body + length] != library:
            return "library differs"
        return None if fits(store.read(data)) else "damaged at 0"
    except (store.NotAStore, store.Damaged) as refusal:
        return str(refusal)


def dumped(data):
    """Status, output and fault of `dump`."""
    try:
        return 0, store.dump(data).encode(), b""
    except (store.NotAStore, store.Damaged) as refusal:
        return 3, b"", fault(str(refusal))


def groups_of(data, found):
    """The events of each group."""
    return [
        data[it.place + 5 : it.place + 5 + struct.unpack_from("<I", data, it.place + 1)[0]]
        for it in found.groups
    ]


def known_stores(room):
    """Stores that the program has made by sessions, in one bank or the other, and one of format 1;
    and the canonical text of their library."""
    fill(room, {"lib.idl": LIBRARY})
    with open(f"{room}/it.store", "wb") as file:
        file.truncate(store.length_of(store.BANK))
    run_in(room, ["format", "it.store", "lib.idl"])
    parts = (
        [*worked.CREATED, *worked.SCALAR_PROPERTIES, *worked.PARAMETERS],
        worked.ARRAYS,
        [*worked.NEVER_PUT, *worked.GOES],
    )
    for part, group in zip(parts, ("3", "1", "1024")):
        run_in(
            room,
            ["serve", "it.store", "lib.idl", "--group", group],
            oaut.Raw.pack([bytes(4) + it for it in part]),
        )
    made = read(f"{room}/it.store")
    found = store.read(made)
    events = groups_of(made, found)
    settled = store.add(
        store.settled(store.add(store.formatted(found.library), *events[:9])), *events[9:]
    )
    old = store.add(store.formatted_before(found.library), *events)
    return [
        (StoreFile(f"{room}/it.store", it), layout_of(it)) for it in (made, settled, old)
    ], found.library


def layout_of(data):
    """Where the parts of a store stand: head, library, snapshot and groups, and the events of the
    groups."""
    found = store.read(data)
    form, library, snapshot, bank = store.told(data, store.HEADS[found.chosen])
    body = store.body_of(form, found.chosen, bank)
    part = lambda start, length: (start, bytes(data[start : start + length]))
    return {
        "gate": part(0, 1),
        "selector": part(store.SELECTOR, 1),
        "head": part(store.HEADS[found.chosen], 32),
        "library": part(body, library),
        "snapshot": part(body + library, snapshot),
        "groups": part(body + library + snapshot, found.gate + 1 - body - library - snapshot),
        "events": (body + library + snapshot, [bytes(it) for it in groups_of(data, found)]),
        "image": (store.HEADS[found.chosen], (form, bytes(found.library), body, bank)),
    }


def spoil_store(dice, file, layout):
    """Changes a store's file at some places."""
    for _ in range(dice.choice((1, 1, 2))):
        part = dice.choice(
            (
                "gate",
                "selector",
                "head",
                "head",
                "library",
                "snapshot",
                "snapshot",
                "groups",
                "groups",
                "groups",
                "events",
                "events",
                "events",
                "image",
                "length",
            )
        )
        if part == "length":
            with open(file.path, "r+b") as opened_:
                opened_.truncate(
                    dice.choice(
                        (
                            0,
                            100,
                            store.LEAST - 1,
                            store.LEAST,
                            file.length - 1,
                            file.length - 4_096,
                            file.length + 9,
                        )
                    )
                )
            continue
        place, some = layout[part]
        if part == "events":
            some = list(some)
            for _ in range(dice.choice((1, 1, 2)) if some else 0):
                at = dice.randrange(len(some))
                some[at] = dice.spoil(some[at], some)
            file.change(
                place, b"".join(b"\1" + struct.pack("<I", len(it)) + it for it in some) + b"\0"
            )
        elif part == "image":  # a snapshot that was changed, and its length
            form, library, body, bank = some
            image = dice.spoil(layout["snapshot"][1])
            file.change(place, store.head_of(form, library, image, bank))
            file.change(body + len(library), image + b"\0")
        elif part in ("gate", "selector"):
            file.change(place, bytes([dice.choice((0, 1, 2, 3, 255))]))
        else:
            file.change(place, dice.spoil(some))


def judged_store(room, file, library):
    """Why a store's file is refused by `serve`, and what is wrong with what both commands say of
    it, in little memory and time: None where nothing is."""
    path, lib, out, err = (f"{room}/{name}" for name in ("it.store", "lib.idl", "out", "err"))
    now = file.now()
    due = file.mapped(dumped) if now[1] else (3, b"", fault("not a store"))
    refusal = file.mapped(lambda data: opened(data, library)) if now[1] else "not a store"
    served = (0, b"", b"") if refusal is None else (3, b"", fault(refusal))
    for words, wanted in ((["dump", path], due), (["serve", path, lib], served)):
        status, took = spawned([*BOUNDED, *words], "/dev/null", out, err)
        got = status, read(out), read(err)
        if got != wanted or took > 1 or file.now() != now:
            return (
                refusal,
                (
                    f"{words[0]}: wanted {wanted[0], wanted[1][:200], wanted[2]}, got "
                    f"{got[0], got[1][:200], got[2]}, {took:.2f} "
                    f"s{', and the file is another' if file.now() != now else ''}"
                ),
            )
    return refusal, None


def stores(room, seconds, seed, most=5, least=0):
    """Stores for `dump` and `serve`."""
    found, (files, library) = Found("stores"), known_stores(room)
    until = time.monotonic() + seconds
    while (time.monotonic() < until or found.tried < least) and len(found.differ) < most:
        dice = Dice(seed)
        file, layout = dice.choice(files)
        file.lay()
        spoil_store(dice, file, layout)
        refusal, wrong = judged_store(room, file, library)
        if wrong:
            found.differ.append(f"seed {seed}, {wrong}")
        found.kind(re.sub(r" at \d+$", "", refusal or "opened"))
        found.tried, found.runs, seed = found.tried + 1, found.runs + 2, seed + 1
    return found


PARTS = {"records": records, "frames": frames, "libraries": libraries, "stores": stores}


def main():
    import tempfile

    failed = False
    for part in given.parts or PARTS:
        with tempfile.TemporaryDirectory(dir=fast_folder()) as room:
            fill(room, {"lib.idl": LIBRARY})
            found = PARTS[part](room, given.seconds, given.seed)
        for it in found.differ:
            print(f"DIFFERS {it}")
        print(found, flush=True)
        failed = failed or bool(found.differ)
    return 1 if failed else 0


if __name__ == "__main__":
    sys.exit(main())
