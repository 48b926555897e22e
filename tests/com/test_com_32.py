"""The COM bridge of 32 bits, as 32-bit Office and scripts load it: the tests of the one of 64 bits,
with programs of 32 bits. They are left out without a Wine that has both (Debian: wine32)."""
import unittest

from tests.com import test_com, test_com_hub, test_com_numbers
from tests.com.under_wine import left_out, needs_wine, needs_wine32


def in_32_bits(tests):
    """The same tests by a bridge, a registration and hosts of 32 bits."""
    made = type(
        tests.__name__, (tests,), {"bits": 32, "__module__": __name__, "__doc__": tests.__doc__}
    )
    for it in (needs_wine, needs_wine32, left_out("i686-w64-mingw32-gcc")):
        made = it(made)
    return made


Values = in_32_bits(test_com.Values)
Hosts = in_32_bits(test_com.Hosts)
Stops = in_32_bits(test_com.Stops)
Registration = in_32_bits(test_com.Registration)
Many = in_32_bits(test_com_hub.Many)
Numbers = in_32_bits(test_com_numbers.Numbers)

if __name__ == "__main__":
    unittest.main()
