"""What `python3 -m oaut store` reads in a stream is what a reader that holds all of it finds: drawn
stores, with buffers so small that everything is sorted on disk and read in parts."""
import io
import json
import mmap
import os
import random
import struct
import subprocess
import sys
import tempfile
from unittest import mock

from oaut import commands, contents, dumps, files
from oaut import store as stores
from tests.client.clients import ENVIRONMENT, ClientCases, oaut
from tests.client.test_client_backup import (
    ARRAYS,
    CLASS,
    FACE,
    SCALARS,
    TEXT,
    command,
    created,
    text,
)
from tests.support.running import fill

OTHER = bytes(range(16))


class Drawn:
    """Events that apply, one after another."""

    def __init__(self, draw):
        self.draw, self.next, self.objects = draw, 1, {}

    def event(self):
        """The image of an event, which is applied here too."""
        draw = self.draw
        number = draw.choice([*self.objects]) if self.objects else 0
        what = draw.random()
        if not number or what < 0.1:
            some = created(self.next)
        elif what < 0.14:
            some = b"\2" + struct.pack("<I", number)
        else:
            cells = self.objects[number][1]
            arrays = [it for it in cells if isinstance(cells[it], stores.Array)]
            if what < 0.4 and arrays:
                where = draw.choice(arrays)
                some = self.of_array(cells[where])
            else:
                key = tuple(draw.choice(SCALARS) for _ in range(draw.choice([0, 0, 0, 1, 2])))
                where = (
                    draw.choice([FACE.bytes_le, OTHER]),
                    draw.choice([-5, 1, 2, 2**31 - 1]),
                    key,
                )
                some = None, stores.value_image(draw.choice([*SCALARS, *ARRAYS, *ARRAYS]))
            kind, content = some if some[0] else (3, some[1])
            some = struct.pack("<BI", kind, number) + stores.place_image(where) + content
        self.next = stores.apply(stores.Bytes(some), self.next, self.objects)
        return some

    def of_array(self, array):
        draw, cells = self.draw, stores.cells_of(array.bounds)
        if draw.random() < 0.3 or not cells:
            return 5, struct.pack("<Ii", draw.randrange(5), draw.randrange(-3, 3))
        of = (
            draw.choice(SCALARS)
            if array.vt == stores.VARIANT
            else draw.choice([it for it in SCALARS if it[0] == array.vt])
        )
        indices = [lowest + draw.randrange(size) for size, lowest in array.bounds]
        return 4, struct.pack(f"<H{len(indices)}i", len(indices), *indices) + stores.scalar_image(
            of
        )


def drawn(seed, room):
    """The path of a store whose events were drawn, in either format, behind checkpoints or not."""
    draw = random.Random(seed)
    events = Drawn(draw)
    disk = draw.choice([stores.formatted, stores.formatted_before])(TEXT)
    for _ in range(draw.choice([0, 1, 1, 2])):
        disk = stores.settled(
            stores.add(
                disk,
                *(b"".join(events.event() for _ in range(draw.choice([1, 9]))) for _ in range(20)),
            )
        )
    disk = stores.add(
        disk,
        *(
            b"".join(events.event() for _ in range(draw.choice([1, 1, 2, 30])))
            for _ in range(draw.randrange(40))
        ),
    )
    fill(room, {"it.store": bytes(disk)})
    return f"{room}/it.store"


def small():
    """Has a part of a file be read, and a part of a sorting be made, of some bytes."""
    return mock.patch.multiple(contents, READ=97, SORTED=3_000, CHUNK=3)


def whole(path):
    """What `oaut dump` prints, by the reader that holds all of it; or why there is nothing."""
    with open(path, "rb") as file, mmap.mmap(file.fileno(), 0, access=mmap.ACCESS_READ) as data:
        try:
            return stores.dump(data)
        except (stores.Damaged, stores.NotAStore) as fault:
            return str(fault)


def streamed(path):
    """The same by the stream."""
    try:
        with files.opened(path) as (file, bank), contents.table(file, bank) as it:
            if files.walked(file, bank) != (it.groups.count, it.groups.gate):
                return f"there are other groups: {files.walked(file, bank)}"
            return "".join(contents.lines(it))
    except (stores.Damaged, oaut.Unusable) as fault:
        return str(fault).replace(f"{path}: ", "")


class Contents(ClientCases):
    def test_drawn_stores(self):
        for seed in range(6):
            with tempfile.TemporaryDirectory() as room, small():
                path = drawn(seed, room)
                self.same(f"what is read, seed {seed}", streamed(path), whole(path))
                out = io.StringIO()
                dumps.write_dump(path, out)
                with open(f"{room}/json", "w+", encoding="utf-8") as file, mock.patch.object(
                    dumps, "READ", 50
                ), mock.patch.object(contents, "WRITTEN", 60):
                    file.write(out.getvalue())
                    file.seek(0)
                    dumps.restore(file, f"{room}/restored")
                self.same(
                    f"what is restored of its dump, seed {seed}",
                    whole(f"{room}/restored"),
                    whole(path),
                )

    def test_damaged_stores(self):
        draw = random.Random(7)
        for seed in range(3):
            with tempfile.TemporaryDirectory() as room, small():
                path = drawn(seed, room)
                with open(path, "r+b") as file:
                    bank = files.bank_of(file.fileno())
                    end = files.closed_gate(file.fileno(), bank)
                    for turn in range(16):
                        at = draw.randrange(bank.table, end + 1)
                        was = os.pread(file.fileno(), 1, at)
                        os.pwrite(
                            file.fileno(),
                            bytes([draw.choice([0, 1, 255, was[0] ^ 1 << draw.randrange(8)])]),
                            at,
                        )
                        self.same(
                            f"damage {turn} at {at}, seed {seed}", streamed(path), whole(path)
                        )
                        os.pwrite(file.fileno(), was, at)
                    for run in list(files.runs(file.fileno(), bank))[-3:]:
                        was = os.pread(file.fileno(), 4, run.place + 1)
                        for length in (0, run.events - 1, run.events + 1, 0xFFFF_FFFF):
                            os.pwrite(file.fileno(), struct.pack("<I", length), run.place + 1)
                            self.same(
                                f"a group of {length} bytes at {run.place}, seed {seed}",
                                streamed(path),
                                whole(path),
                            )
                        os.pwrite(file.fileno(), was, run.place + 1)

    def test_dumps_that_others_have_written(self):
        """Other blanks, another order of members, members that are not known; what stands in
        another order, or is no JSON."""
        with tempfile.TemporaryDirectory() as room:
            path = drawn(3, room)
            told = dumps.dump(path)
            sorted_text = json.dumps(told, sort_keys=True, indent=3)
            for name, given in (
                ("sorted", sorted_text),
                ("on a line", json.dumps(told, separators=(",", ":"))),
                ("more", json.dumps({"more": [1], **told})),
            ):
                self.same(name, command("restore", "-", f"{room}/{name}", given=given), (0, "", ""))
                self.same(f"{name}: what it holds", whole(f"{room}/{name}"), whole(path))
            dumps.restore({**told, "objects": told["objects"][::-1]}, f"{room}/turned")
            self.same("a dictionary in another order", whole(f"{room}/turned"), whole(path))
            first, second = (it["number"] for it in told["objects"][:2])
            wrong = json.dumps({**told, "objects": told["objects"][1::-1]})
            self.same(
                "a text in another order",
                command("restore", "-", f"{room}/new", given=wrong),
                (
                    1,
                    "",
                    "python3 -m oaut: the dump is no table: "
                    f"object {first} comes after {second}\n",
                ),
            )
            for name, given, says in (
                ("empty", "", "the end instead of { at character 0"),
                ("cut", sorted_text[:-9], None),
                (
                    "more behind",
                    sorted_text + "}",
                    f"there is more at character {len(sorted_text)}",
                ),
                ("no colon", '{"dump" 1}', "1 instead of : at character 8"),
            ):
                status, out, err = command("restore", "-", f"{room}/new", given=given)
                self.tell(
                    f"{name}: no JSON",
                    (status, out) == (1, "")
                    and err.startswith("python3 -m oaut: -: no JSON: ")
                    and err.endswith(f"{says or ''}\n")
                    and err.count("\n") == 1,
                    err,
                )
            self.same(
                "nothing is left",
                [it for it in os.listdir(room) if it.startswith((".", "new"))],
                [],
            )

    def test_pipes_that_end(self):
        with tempfile.TemporaryDirectory() as room:
            fill(room, {"it.store": LARGE})
            for words in (["dump"], ["dump", "--json"], ["groups"]):
                line = f"{sys.executable} -m oaut store {' '.join(words)} {room}/it.store"
                line += " | head -c 100 > /dev/null; echo ${PIPESTATUS[0]}"
                done = subprocess.run(
                    ["bash", "-c", line],
                    capture_output=True,
                    text=True,
                    timeout=300,
                    env=ENVIRONMENT,
                )
                self.same(
                    f"{words} into a pipe that ends", (done.stdout, done.stderr), ("141\n", "")
                )
            with open("/dev/full", "w") as full:
                done = subprocess.run(
                    [sys.executable, "-m", "oaut", "store", "dump", f"{room}/it.store"],
                    stdout=full,
                    stderr=subprocess.PIPE,
                    text=True,
                    timeout=300,
                    env=ENVIRONMENT,
                )
            self.same(
                "a device that is full",
                (done.returncode, done.stderr),
                (1, "python3 -m oaut: No space left on device\n"),
            )

    def test_how_far_it_is(self):
        class Terminal(io.StringIO):
            def isatty(self):
                return True

        lines = [
            "\rcopy [######              ]  30%, 30 of 100 MiB\x1b[K",
            "\rcopy [##########          ]  50%, 50 of 100 MiB\x1b[K",
            "\r\x1b[K",
        ]
        for name, shown, took, wanted in (
            ("of long work", Terminal(), 1, "".join(lines)),
            ("of what ends at once", Terminal(), 0.001, ""),
            ("where no terminal is", io.StringIO(), 1, ""),
        ):
            moments = (it * took for it in range(9))
            with mock.patch("sys.stderr", shown), mock.patch("time.monotonic", moments.__next__):
                with commands.Bar("copy") as bar:
                    bar(30 << 20, 100 << 20)
                    bar(50 << 20, 100 << 20)
            self.same(name, shown.getvalue(), wanted)

    def test_rights(self):
        with tempfile.TemporaryDirectory() as room:
            path = drawn(1, room)
            old = os.umask(0o027)
            try:
                with open(f"{room}/json", "w") as file:
                    dumps.write_dump(path, file)
                made = {
                    "copy": ["copy", path],
                    "live": ["copy", "--live", path],
                    "restored": ["restore", f"{room}/json"],
                }
                for name, words in made.items():
                    self.same(
                        f"{name}: rights as of a new file",
                        (
                            command(*words, f"{room}/{name}")[0],
                            oct(os.stat(f"{room}/{name}").st_mode & 0o777),
                        ),
                        (0, "0o640"),
                    )
                os.chmod(path, 0o600)
                os.umask(0o022)
                for name, words in {
                    "own copy": ["copy", path],
                    "own live": ["copy", "--live", path],
                    "own salvaged": ["salvage", path],
                }.items():
                    command(*words, f"{room}/{name}")
                    self.same(
                        f"{name}: who may not read the store may not read it",
                        oct(os.stat(f"{room}/{name}").st_mode & 0o777),
                        "0o600",
                    )
            finally:
                os.umask(old)

    def test_memory(self):
        """A table of 80 MB takes no more memory than one of none and some."""
        with tempfile.TemporaryDirectory() as room:
            lay_large(f"{room}/it.store", 80_000_000)
            least = peak("info", f"{room}/it.store")
            for words in (
                ["copy", f"{room}/it.store", f"{room}/copy"],
                ["copy", "--live", f"{room}/it.store", f"{room}/live"],
                ["dump", "--json", f"{room}/it.store"],
            ):
                self.tell(
                    f"the memory of {words[0]} {words[1]}",
                    (took := peak(*words, out=f"{room}/json")) - least < 65_536,
                    f"{took - least} KiB",
                )
            os.unlink(f"{room}/copy")
            took = peak("restore", "--bank", "125829120", f"{room}/json", f"{room}/restored")
            self.tell("the memory of restore", took - least < 65_536, f"{took - least} KiB")
            with open(f"{room}/it.store", "rb") as one, open(f"{room}/restored", "rb") as other:
                banks = [files.bank_of(it.fileno()) for it in (one, other)]
                same = all(
                    some == os.pread(other.fileno(), len(some), at - banks[0].body + banks[1].body)
                    for at, some in files.pieces(one.fileno(), banks[0].body, banks[0].gates + 1)
                )
            self.same("and what it holds", same, True)


LARGE = bytes(stores.add(stores.formatted(TEXT), *([created(it) for it in range(1, 9_001)])))


def lay_large(path, size, bank=125_829_120):
    """A store whose snapshot has objects of long texts, of so many bytes."""
    cell = stores.place_image((FACE.bytes_le, 2, ())) + stores.value_image(
        text(b"abcdefgh" * 16_384)
    )
    count = size // (len(cell) + 24)
    with open(path, "wb") as file:
        file.truncate(stores.length_of(bank))
        file.seek(stores.body_of(2, 0, bank))
        file.write(TEXT + struct.pack("<II", count + 1, count))
        for number in range(1, count + 1):
            file.write(contents.OBJECT.pack(number, CLASS.bytes_le, 1) + cell)
        file.flush()
        snapshot = 8 + count * (len(cell) + 24)
        os.pwrite(file.fileno(), stores.head_image(2, len(TEXT), snapshot, bank), stores.HEADS[0])
        os.pwrite(file.fileno(), b"\1", 0)


def peak(*words, out=os.devnull):
    """How many KiB of memory `python3 -m oaut store` takes at most."""
    told = "import sys, oaut; status = oaut.main(sys.argv[1:]); "
    told += "print(open('/proc/self/status').read(), file=sys.stderr); sys.exit(status)"
    with open(out, "w") as file:
        done = subprocess.run(
            [sys.executable, "-c", told, "store", *words],
            stdout=file,
            stderr=subprocess.PIPE,
            text=True,
            timeout=3_000,
            env=ENVIRONMENT,
            check=True,
        )
    return next(
        int(line.split()[1]) for line in done.stderr.splitlines() if line.startswith("VmHWM:")
    )
