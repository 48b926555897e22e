"""What a store's file holds: oaut.store of the client's package, which the cases know as `store`.

    python3 -m tests.support.store STORE               prints what `oaut dump STORE` prints
    python3 -m tests.support.store --library STORE     prints the library
    python3 -m tests.support.store --groups STORE      prints the bank in use, and each of its
        groups: its place, and its events

`python3 -m oaut store` has these and more.
"""
import argparse
import sys

import oaut.store

if __name__ == "__main__":
    parser = argparse.ArgumentParser(
        description=__doc__, formatter_class=argparse.RawDescriptionHelpFormatter
    )
    for what in ("library", "groups"):
        parser.add_argument(
            f"--{what}", dest="what", action="store_const", const=what, default="dump"
        )
    parser.add_argument("store", metavar="STORE")
    given = parser.parse_args()
    sys.exit(oaut.main(["store", given.what, given.store]))
sys.modules[__name__] = oaut.store
