"""Bounds on the instructions of a request: by three a program falls that looks through all its
objects, or through all cells or rows of one, by the others one that takes more for a long than what
is committed."""
import unittest

from tests.support import instructions, kinds
from tests.support.running import Cases


@unittest.skipUnless(instructions.VALGRIND, "valgrind is not there: no instructions are counted")
class Instructions(Cases):
    def test_a_put_into_a_large_table(self):
        few, many = (instructions.of_requests(it, ("put",))["put"] for it in (10, 60_000))
        self.tell(
            "a put among 60,000 objects takes at most twice the instructions of one among 10",
            0 < many <= 2 * few,
            (few, many),
        )
        self.compare({"put-among-60000-objects": many})

    def test_a_put_into_a_large_object(self):
        few, many = map(instructions.of_a_put, (10, 3_000))
        self.tell(
            "a put into an object of 3,000 cells takes at most twice the instructions of one into "
            "one of 10",
            0 < many <= 2 * few,
            (few, many),
        )

    def test_a_new_cell_of_a_large_object(self):
        few, many = map(instructions.of_a_new_cell, (1_000, 300_000))
        self.tell(
            "a put of a new cell among 300,000 of an object takes at most twice the instructions "
            "of one among 1,000",
            0 < many <= 2 * few,
            (few, many),
        )
        self.compare({"put-among-300000-cells": many})

    def test_no_rise_above_what_is_committed(self):
        found = {way: instructions.of_longs(way) for way in instructions.LONGS}
        self.compare(found)
        for many, one in (("frames", "records"), ("shared", "durable")):
            self.tell(
                f"{many}: at most {instructions.MORE} more than {one}",
                found[many] - found[one] <= instructions.MORE,
                found,
            )

    def test_no_kind_of_request_is_slow(self):
        found = kinds.of_kinds()
        self.compare(found)
        for name, times in kinds.times_a_put(found, kinds.bytes_of_kinds()).items():
            most = kinds.SLOWER.get(name, kinds.MOST)
            self.tell(
                f"{name}: at most {most} times a put of a long, by the byte, or by the request "
                "where it is shorter",
                0 < times <= most,
                times,
            )

    def compare(self, found):
        committed = instructions.committed()
        for name, number in found.items():
            self.tell(
                f"{name}: at most 5 % more instructions than in {instructions.TABLE}",
                0 < number <= instructions.RISE * committed[name],
                (number, committed[name]),
            )
