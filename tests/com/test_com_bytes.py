"""The COM bridge's reading of bytes, under Linux with sanitizers. What is not installed leaves its
tests out, each by its name."""
import decimal
import functools
import math
import os
import random
import re
import shutil
import struct
import subprocess
import sys
import tempfile
import unittest

from tests.com.under_wine import (
    COM,
    TESTS,
    TIMEOUT,
    all_planted,
    built,
    is_placed,
    left_out,
    plain,
    text,
)
from tests.support.running import ROOT, Cases, rows_of

FUZZ_SECONDS = 6
# opcodes: docs/reference/records.md
TYPEINFO, LIST = 10, 11


def corpus():
    """Fields and descriptions, a line each."""
    lines = [digits for row in rows_of("variants.txt") for digits in row.split()]
    lines += [row.split(" | ")[1].replace(" ", "") for row in rows_of("values.txt")]
    replies = [bytes.fromhex(line) for line in text(f"{ROOT}/examples/info.out").split()]
    # the descriptions of an interface and of its coclass, which the file has in this order
    told = [it for it in replies if len(it) > 48 and it[4:8] == bytes(4) and it[16] in (4, 5)]
    return "".join(f"{it}\n" for it in lines) + "".join(f"type {it.hex()}\n" for it in told)


@functools.lru_cache(None)
def sanitized():
    """A folder of what is built with the sanitizers, and what the build said."""
    room = tempfile.mkdtemp(prefix="oaut-com-")
    unittest.addModuleCleanup(shutil.rmtree, room, True)
    return room, built([f"{TESTS}/build.sh", "linux", room])


def anew():
    """Has a test that runs again build anew: what was built has gone with the end of its file's
    tests."""
    sanitized.cache_clear()


@left_out("gcc")
class UnderLinux(Cases):
    def test_fields(self):
        room, said = sanitized()
        self.tell("the build", said == (0, ""), said)
        rows = [row.split() for row in rows_of("variants.txt")]
        rows += [[row.split(" | ")[1].replace(" ", "")] * 2 for row in rows_of("values.txt")]
        done = subprocess.run(
            [f"{room}/fields"],
            input="".join(f"{field}\n" for field, _ in rows).encode(),
            stdout=subprocess.PIPE,
            stderr=subprocess.PIPE,
            timeout=TIMEOUT,
        )
        got = done.stdout.decode().split()
        self.tell(
            "fields and values",
            (done.returncode, got) == (0, [wanted for _, wanted in rows]),
            plain(done.stderr)[:2000],
        )

    def test_numbers(self):
        """Floating-point numbers as what a declared type takes exactly: the shortest decimals are
        Python's own."""
        room, said = sanitized()
        self.tell("the build", said == (0, ""), said)
        rows = [
            (vt, bits, declared)
            for vt, bits in floating_numbers()
            for declared in (I4, CY, DECIMAL, VARIANT)
        ]
        lines = "".join(f"{vt} {bits:x} {declared}\n" for vt, bits, declared in rows)
        done = subprocess.run(
            [f"{room}/numbers"],
            input=lines.encode(),
            stdout=subprocess.PIPE,
            stderr=subprocess.PIPE,
            timeout=TIMEOUT,
        )
        got = done.stdout.decode().splitlines()
        self.tell(
            "they are taken",
            (done.returncode, len(got)) == (0, len(rows)),
            plain(done.stderr)[:2000],
        )
        for row, line in zip(rows, got):
            if line != exact(*row):
                self.tell(
                    f"the bits {row[1]:x} of type {row[0]}, declared {row[2]}",
                    False,
                    f"{line}, wanted {exact(*row)}",
                )

    def test_numbers_of_the_table(self):
        """The rows that clients/dcom is compared with too."""
        rows = [row.split(" = ") for row in rows_of("numbers.txt")]
        done = subprocess.run(
            [f"{sanitized()[0]}/numbers"],
            input="".join(f"{row[0]}\n" for row in rows).encode(),
            stdout=subprocess.PIPE,
            stderr=subprocess.PIPE,
            timeout=TIMEOUT,
        )
        got = done.stdout.decode().splitlines()
        self.tell(
            "they are taken",
            (done.returncode, len(got)) == (0, len(rows)),
            plain(done.stderr)[:2000],
        )
        for row, line in zip(rows, got):
            if line != row[1]:
                self.tell(row[0], False, f"{line}, wanted {row[1]}")

    def test_spoiled_bytes(self):
        status, said = fuzzed(sanitized()[0], int.from_bytes(os.urandom(4), "little"))
        self.tell("fuzz", status == 0, said)


# --- floating-point numbers

I4, SINGLE, DOUBLE, CY, VARIANT, DECIMAL, I8 = 3, 4, 5, 6, 12, 14, 20


def bits_of(vt, number):
    return int.from_bytes(struct.pack("<d" if vt == DOUBLE else "<f", number), "little")


def floating_numbers():
    """Ends of ranges, ties, powers of two, which have a nearer neighbour below, and numbers drawn
    at several sizes."""
    dice = random.Random(20261128)
    told = [
        0.0,
        -0.0,
        0.1,
        2.5,
        1 / 3,
        0.1 + 0.2,
        1e16,
        1e22,
        1e28,
        8e28,
        5e-28,
        4.9e-28,
        1e-29,
        5e-324,
        1e300,
        math.inf,
        math.nan,
        922337203685477.4,
        922337203685478.5,
        866242666060511.75,
    ]
    told += (
        [
            sign * (2.0**power + more)
            for power in (31, 63, 64, 96)
            for more in (-1, 0, 1)
            for sign in (1, -1)
        ]
        + [2.0**-power for power in range(1, 96, 5)]
        + [2.0**96 - 2.0**43, 4503599627370495.5]
    )
    told += [dice.randrange(-(10**9), 10**9) / 10 ** dice.randrange(9) for _ in range(150)] + [
        dice.uniform(-1, 1) * 10.0 ** dice.randrange(-30, 30) for _ in range(150)
    ]
    return (
        [(DOUBLE, bits_of(DOUBLE, it)) for it in told]
        + [(DOUBLE, dice.getrandbits(64)) for _ in range(60)]
        + [
            (SINGLE, bits_of(SINGLE, dice.randrange(-(10**6), 10**6) / 10 ** dice.randrange(6)))
            for _ in range(100)
        ]
        + [(SINGLE, dice.getrandbits(32)) for _ in range(60)]
    )


def shortest(vt, number):
    """Digits and places of the shortest decimal that reads back as a number."""
    words = [repr(number)] if vt == DOUBLE else (f"{number:.{count}g}" for count in range(1, 10))
    _, digits, exponent = (
        decimal.Decimal(next(it for it in words if bits_of(vt, float(it)) == bits_of(vt, number)))
        .normalize()
        .as_tuple()
    )
    return int("".join(map(str, digits))), -exponent


def decimal_line(number, digits, places):
    return f"{DECIMAL} {'-' if number < 0 else ''}{digits >> 64:x}{digits % 2**64:016x} {places}"


def exact(vt, bits, declared):
    """What tests/numbers.c prints for a number, as docs/guide/com.md has it."""
    number = struct.unpack(
        "<d" if vt == DOUBLE else "<f", bits.to_bytes(8 if vt == DOUBLE else 4, "little")
    )[0]
    if not math.isfinite(number):
        return "80020008"
    if number == int(number):
        whole = int(number)
        vt = next(
            (
                it
                for it, most in ((I4, 2**31), (I8, 2**63))
                if -most <= whole < most and whole != -(2**63)
            ),
            DECIMAL,
        )
        if vt == DECIMAL:
            return decimal_line(whole, abs(whole), 0) if abs(whole) < 2**96 else "8002000a"
        return f"{vt} {whole}"
    digits, places = shortest(vt, number)
    if places > 28 or declared not in (CY, DECIMAL, VARIANT) or (declared == CY and places > 4):
        return "80020008"
    count = digits * 10 ** max(4 - places, 0)
    if declared != DECIMAL and places <= 4 and count < 2**63:
        return f"{CY} {-count if number < 0 else count}"
    return "8002000a" if declared == CY else decimal_line(number, digits, places)


@left_out("gcc")
class Connections(Cases):
    """connection.c with the sanitizers, before servers of the tests."""

    def runs(self, program, *words):
        room, said = sanitized()
        self.tell("the build", said == (0, ""), said)
        done = subprocess.run(
            [f"{room}/{program}", *map(str, words)],
            stdout=subprocess.PIPE,
            stderr=subprocess.PIPE,
            timeout=TIMEOUT,
        )
        self.tell(f"{program} {words}: its status", done.returncode == 0, plain(done.stderr)[:2000])
        return plain(done.stdout).splitlines()

    def test_lists_of_many_objects(self):
        """Each object has 24 bytes, as docs/reference/records.md has them, and a store's banks have
        at most 1 GiB."""
        for count in (699_049, 699_050, 5_000_000):
            self.tell(
                f"{count} objects",
                self.runs("lists", LIST, count, 0) == [f"00000000 {8 + 24 * count} 1 00000000"],
            )
        self.tell(
            "more than a bank has end the connection",
            self.runs("lists", LIST, 44_800_000, 0) == ["8001000f 0 0 00000000"],
        )
        self.tell(
            "so do as many bytes of another reply",
            self.runs("lists", TYPEINFO, 699_050, 0) == ["8001000f 0 0 00000000"],
        )

    def test_a_list_that_there_is_no_memory_for(self):
        """It is refused, and the connection stays with its locks, whichever allocation it is."""
        for refused in (1, 2, 5):
            self.tell(
                f"{refused}",
                self.runs("lists", LIST, 699_050, refused) == ["8007000e 0 1 00000000"],
            )

    def test_the_address_that_was_reached_last_is_dialled_first(self):
        self.tell(
            "the addresses", [it.strip() for it in self.runs("dials")] == ["1", "1", "2", "2"]
        )


class Source(Cases):
    """What is looked at in the sources alone."""

    def test_the_limit_of_a_request_is_the_servers(self):
        own = re.search(r"^#define MAX_BODY (\w+)u ", text(f"{COM}/wire.h"), re.MULTILINE)[1]
        server = re.search(
            r"^pub const MAX_REQUEST_BYTES: u32 = ([\d_]+);",
            text(f"{ROOT}/crates/oa_model/src/limits.rt"),
            re.MULTILINE,
        )[1]
        self.tell("MAX_BODY of clients/com/wire.h", int(own, 0) == int(server), (own, server))

    def test_refusals_of_the_table(self):
        """The rows that clients/dcom is compared with too: code, name, number and words in
        refusals.c."""
        source = re.sub(r'"\s+L"', "", text(f"{COM}/refusals.c"))
        found = set(re.findall(r'\{(?:\(HRESULT\))?\w+, (\d+), L"(\w+)",\s+L"([^"]*)"\}', source))
        for row in rows_of("refusals.txt"):
            _, name, number, words = row.split(" ", 3)
            self.tell(f"refusals.c: {name}", (number, name, words) in found, sorted(found)[:3])


def fuzzed(room, seed):
    done = subprocess.run(
        [f"{room}/fuzz", str(FUZZ_SECONDS), str(seed)],
        input=corpus().encode(),
        stdout=subprocess.PIPE,
        stderr=subprocess.STDOUT,
        timeout=TIMEOUT,
    )
    return done.returncode, f"fuzz {FUZZ_SECONDS} {seed}: {plain(done.stdout)[:2000]}"


# --- faults that are planted, and what finds them

SPOILERS = {
    "a text is as long as it says": (
        "wire.c",
        [
            (
                (
                    "    if (!has_bytes(from, (size_t)count + count % 2))\n        return S_OK;\n"
                    "    *text"
                ),
                "    *text",
            )
        ],
    ),
    "a reply is as long as its first bytes": (
        "connection.c",
        [
            ("room = length < FIRST_ROOM ? FIRST_ROOM : length;", "room = length;"),
            ("if (room <= connection->reply_room)", "if (connection->reply)"),
            ("connection->reply_room - connection->received", "length - connection->received"),
        ],
    ),
}


class Places(Cases):
    def test_planted_faults_have_their_places(self):
        for name, (file, edits, *_) in SPOILERS.items():
            self.tell(name, is_placed(file, edits))


@left_out("gcc")
class PlantedSpoilers(Cases):
    def test_each_is_found(self):
        for name, (room, said) in all_planted(SPOILERS, "tests/build.sh", "linux").items():
            with self.subTest(name), room:
                self.assertEqual(said[0], 0, said)
                self.assertNotEqual(fuzzed(room.name, 1)[0], 0, "it is not found")


if __name__ == "__main__":
    sys.exit(unittest.main())
