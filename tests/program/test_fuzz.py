"""Random bytes, some seconds of each kind (tests/support/fuzz.py), and that the fuzzer finds what
is wrong.

OAUT_FUZZ says how many seconds each kind has (8 where nothing is said), and OAUT_SEED from which
seed.
"""
import os
import tempfile
from unittest import mock

from tests.support import fuzz, fuzzed, model, store
from tests.support.model import LIBRARY
from tests.support.preloaded import fast_folder
from tests.support.running import Cases, fill, goes_on, rows_of

SECONDS, SEED = float(os.environ.get("OAUT_FUZZ") or 8), int(os.environ.get("OAUT_SEED") or 1)
LEAST = 101  # of each kind, however slow the machine is


def found_by(part, seconds=SECONDS, most=5, least=LEAST):
    goes_on()
    with tempfile.TemporaryDirectory(dir=fast_folder()) as room:
        fill(room, {"lib.idl": LIBRARY})
        return part(room, seconds, SEED, most, least)


def away_from_zero(count, scale, places):
    """count / 10^scale in units of 1 / 10^places, where a half goes away from zero."""
    over, under = abs(count) * 10**places, 10**scale
    whole = (2 * over + under) // (2 * under)
    return whole if count >= 0 else -whole


# rules that are wrong, one at a time: of the model, and of the reader of stores
WRONG_RULES = [
    ("a half goes away from zero", fuzz.records, "model.nearest", away_from_zero),
    (
        "a text's units are not compared with its bytes",
        fuzz.records,
        "asked.text",
        lambda at: (
            lambda most, count, units: None
            if count == store.NO_TEXT
            else at.take(2 * units)[:count]
        )(*(at.number("I") for _ in range(3))),
    ),
    (
        "a DECIMAL has any scale",
        fuzz.records,
        "asked.decimal",
        lambda at: (
            at.align(8),
            (lambda it: (it[1], it[2], it[3] << 64 | it[4]))(at.numbers("HBBIQ")),
        )[1],
    ),
    ("bytes may be left over", fuzz.records, "asked.Bytes.ends", lambda at: None),
    ("DISPIDs are looked up with their cases", fuzz.records, "model.fold", lambda name: name),
    ("a lock is anybody's", fuzz.frames, "sharing.Owned.lock", model.Model.lock),
    (
        "a client that has gone leaves its locks",
        fuzz.frames,
        "sharing.Owned.give_back",
        lambda model, client: None,
    ),
    (
        "a key is in any order",
        fuzz.stores,
        "store.place_order",
        lambda it: (it[0], it[1], [rank for rank in map(store.scalar_image, it[2])]),
    ),
]


class Fuzzed(Cases):
    def fuzzed(self, part):
        found = found_by(part)
        print(f"fuzz: {found}", flush=True)
        self.tell(
            f"{found.what}",
            not found.differ and found.tried >= LEAST,
            "\n  ".join(found.differ) or f"only {found.tried} were tried",
        )

    def test_records(self):
        self.fuzzed(fuzz.records)

    def test_frames(self):
        self.fuzzed(fuzz.frames)

    def test_libraries(self):
        self.fuzzed(fuzz.libraries)

    def test_stores(self):
        self.fuzzed(fuzz.stores)

    def test_what_another_fuzzer_has_found(self):
        """Inputs that AFL++ has kept: what was reached by no other."""
        with tempfile.TemporaryDirectory(dir=fast_folder()) as room:
            for number, row in enumerate(rows_of("fuzzed.txt"), 1):
                part, given = row.split(" ")
                wrong = fuzzed.JUDGES[part](room, bytes.fromhex(given))
                self.tell(f"row {number} of fuzzed.txt, {part}", wrong is None, wrong)

    def test_that_a_wrong_rule_is_found(self):
        for name, part, rule, wrong in WRONG_RULES:
            with mock.patch(f"tests.support.{rule}", wrong):
                # (it ends with the first difference)
                found = found_by(part, seconds=60 * SECONDS, most=1)
            self.tell(f"{name}: found in {found.tried} {found.what}", found.differ, f"{found}")
