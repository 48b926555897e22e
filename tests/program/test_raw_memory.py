"""The tests of crates while memory is refused. Each test of the two crates of raw memory with one
call of the allocator refused: its first, then its second, and so on, as often as it calls. It has
to pass each time, and to free each block that it got. And tests of calls that take no memory, with
all of it refused from each call of the allocator on: the values that they begin with are not made
then, and nothing else is found. The tests are those that `rt ci` has built."""
import os
import re
import subprocess
import unittest

from tests.support.preloaded import COMPILER, Preloaded
from tests.support.running import ROOT, Cases


def tests_of(crate):
    """The built tests of a crate."""
    return f"{ROOT}/crates/{crate}/out/{crate}_tests"


VALUES, STORAGE = map(tests_of, ("oa_value_tests", "oa_storage_tests"))
RAW = [(VALUES, "cells::"), (VALUES, "bstr::")]
WITHOUT = [(VALUES, "without_memory::"), (STORAGE, "store::an_open_store_takes_no_memory")]
NOT_MADE = b"not made"


def names_of(tests, front):
    """The tests whose names begin so, as the built tests list them."""
    listed = subprocess.run([tests, "--list"], check=True, stdout=subprocess.PIPE, text=True).stdout
    return re.findall(rf"^({front}\w*)", listed, re.MULTILINE)


@unittest.skipUnless(
    COMPILER and all(map(os.path.exists, (VALUES, STORAGE))),
    "cc and the built tests of oa_value_tests and oa_storage_tests are not there",
)
class RawMemory(Cases):
    def test_each_growth_refused(self):
        refused = 0
        with Preloaded() as room:
            for name in (it for tests, front in RAW for it in names_of(tests, front)):
                calls, number = 1, 1
                while number <= calls:
                    found = room.run([name], program=VALUES, refuse=number)
                    calls = found.calls
                    self.tell(
                        f"{name}, call {number} refused",
                        (found.status, found.left) == (0, 0),
                        (found.status, found.left, found.out[-200:], found.err[-200:]),
                    )
                    refused, number = refused + 1, number + 1
        print(f"raw memory: {refused} calls of the allocator refused in turn")

    def test_calls_that_take_no_memory(self):
        tried = 0
        with Preloaded() as room:
            for tests, name in (
                (tests, it) for tests, front in WITHOUT for it in names_of(tests, front)
            ):
                ample = room.run([name], program=tests)
                self.tell(
                    f"{name} with ample memory",
                    (ample.status, ample.left, ample.calls > 0) == (0, 0, True),
                    ample,
                )
                for since in range(1, ample.calls + 1):
                    found = room.run([name], program=tests, refuse_from=since)
                    self.tell(
                        f"{name}, refused from call {since} on",
                        found.status != 0 and NOT_MADE in found.out + found.err,
                        (found.status, found.out[-200:], found.err[-200:]),
                    )
                    tried += 1
        self.tell("some are tried", tried > 0, tried)
        print(f"calls without memory: all refused from {tried} calls of the allocator on")
