"""The command line over a store's file: `python3 -m oaut store`."""
from __future__ import annotations

import argparse
import contextlib
import json
import sys
import time
import typing

from . import store as stores
from .contents import count_of_events, groups, lines, table
from .copies import backup, copy
from .dumps import NoJson, counted, restore, verified, write_dump
from .faults import StoreInUse
from .files import Json, Unusable, info, named, opened, pieces
from .programs import PROGRAM
from .salvage import salvage

# the commands that can read a store that is served
READ = {
    "info": "Prints format, sizes, used and free space, library and groups",
    "library": "Prints the canonical text of its library",
    "groups": "Prints the place of each group, and its events",
    "dump": "Prints what `oaut dump` prints, read without the program",
    "verify": "Reads all of it, and prints a digest of its objects",
    "copy": "Makes a copy, which is read back before it gets its name",
}
# the commands that print what they read
DATA = ("library", "groups", "dump")
PROGRAM_HELP = "Program. Default: the wheel's own, or `oaut` on the path"


def add_words(parser: argparse.ArgumentParser) -> None:
    """The words of `python3 -m oaut store`."""
    commands = parser.add_subparsers(dest="what", required=True, metavar="WHAT")
    made = {}
    for name, does in READ.items():
        command = made[name] = commands.add_parser(name, help=does, description=does)
        command.add_argument("store", metavar="STORE", help="File of the store")
        command.add_argument(
            "--live", action="store_true", help="Read a store that may be served meanwhile"
        )
    for name in ("info", "verify"):
        made[name].add_argument("--json", action="store_true", help="Print JSON, for programs")
    made["info"].add_argument(
        "--objects", action="store_true", help="Read all of it, and count objects and cells too"
    )
    made["verify"].add_argument(
        "digest", metavar="SHA256", nargs="?", help="Digest to compare: another one is status 1"
    )
    made["dump"].add_argument(
        "--json", action="store_true", help="Print library, objects and values, for `restore`"
    )
    made["copy"].add_argument("copy", metavar="COPY", help="File to make")
    does = "Makes a new store of a dump; the objects keep their numbers"
    restored = commands.add_parser("restore", help=does, description=does)
    restored.add_argument(
        "dump", metavar="FILE", help="Output of `dump --json`; - is standard input"
    )
    restored.add_argument("store", metavar="STORE", help="File to make")
    restored.add_argument(
        "--library",
        metavar="LIB",
        help="Another library, which keeps what the dump's has. Default: the dump's",
    )
    restored.add_argument(
        "--bank",
        type=int,
        default=stores.BANK,
        metavar="B",
        help=f"Bytes of each of its two banks. Default: {stores.BANK}",
    )
    restored.add_argument("--program", default=PROGRAM, help=PROGRAM_HELP)
    does = "Makes a new store of what a damaged one has, and prints what was left out"
    salvaged = commands.add_parser("salvage", help=does, description=does)
    salvaged.add_argument("store", metavar="STORE", help="File of the damaged store")
    salvaged.add_argument("new", metavar="NEW", help="File to make")
    salvaged.add_argument(
        "--library", metavar="LIB", help="Library to use. Default: the store's own"
    )
    salvaged.add_argument(
        "--bank", type=int, metavar="B", help="Bytes of each of its banks. Default: the store's"
    )
    salvaged.add_argument("--program", default=PROGRAM, help=PROGRAM_HELP)


class Bar:
    """How far a long work is, on standard error if that is a terminal, and standard output is none
    to which a command prints what it reads."""

    def __init__(self, what: str) -> None:
        self.what, self.begun, self.last = what, time.monotonic(), 0.0
        self.shown = sys.stderr is not None and sys.stderr.isatty()
        if what in DATA and sys.stdout is not None and sys.stdout.isatty():
            self.shown = False

    def __call__(self, done: int, whole: int) -> None:
        now = time.monotonic()
        # (what ends at once shows none)
        if not self.shown or not whole or now - self.begun < 0.5 or now - self.last < 0.1:
            return
        self.last = now
        part = done / whole
        bar = "#" * int(20 * part)
        sizes = f"{done >> 20} of {whole >> 20} MiB"
        sys.stderr.write(f"\r{self.what} [{bar:20}] {part:4.0%}, {sizes}\x1b[K")
        sys.stderr.flush()

    def __enter__(self) -> Bar:
        return self

    def __exit__(self, *_: object) -> None:
        self.clear()

    def clear(self) -> None:
        """Takes the bar away."""
        if self.last:
            self.last = 0.0
            sys.stderr.write("\r\x1b[K")
            sys.stderr.flush()


def run(given: argparse.Namespace) -> int:
    """`python3 -m oaut store`. Gives the exit status."""
    try:
        with Bar(given.what) as bar:
            status = COMMANDS[given.what](given, bar)
    except StoreInUse as fault:
        if given.what not in READ:
            raise
        raise Unusable(f"{fault.fault}; --live reads it meanwhile") from None
    sys.stdout.flush()
    return status


# the fields of `info` that are in bytes
_BYTES = (
    "size bank_size library_size snapshot_size groups_size room log_free limit used free".split()
    + ["image_size"]
)


def info_lines(found: Json) -> typing.Iterator[str]:
    """The lines that `info` prints, with units."""
    for name, it in found.items():
        if name == "exact":
            continue
        line = f"{name} {it}"
        if name in _BYTES:
            line += f" bytes ({it / (1 << 20):.1f} MiB)"
        elif name == "percent":
            line += " %"
        if name in ("used", "free", "percent") and not found["exact"]:
            line += ", about: --objects counts"
        yield line


def _info(given: argparse.Namespace, bar: Bar) -> int:
    if given.objects:
        found = counted(given.store, given.live, bar)
    else:
        found = info(given.store, given.live)
    bar.clear()
    print(json.dumps(found) if given.json else "\n".join(info_lines(found)))
    return 0


def _verify(given: argparse.Namespace, bar: Bar) -> int:
    found = verified(given.store, given.live, bar)
    bar.clear()
    if given.json:
        print(json.dumps(found))
    else:
        print("\n".join(f"{name} {it}" for name, it in found.items()))
    if given.digest is not None and given.digest.lower() != found["sha256"]:
        raise Unusable(f"{given.store}: its objects have another digest than {given.digest}")
    return 0


def _library(given: argparse.Namespace, bar: Bar) -> int:
    with opened(given.store, given.live) as (file, bank):
        for place, some in pieces(file, bank.body, bank.table):
            sys.stdout.buffer.write(some)
            bar(place - bank.body, bank.library)
    return 0


def _groups(given: argparse.Namespace, _: Bar) -> int:
    with opened(given.store, given.live) as (file, bank), named(given.store):
        print(f"format {bank.form}, bank {bank.chosen}")
        end = bank.gates
        for gate, source in groups(file, bank):
            print(f"group at {gate}: {count_of_events(gate, source)} events")
            end = source.end
        print(f"closed gate at {end}, room {bank.end - end}")
    return 0


def _dump(given: argparse.Namespace, bar: Bar) -> int:
    if given.json:
        with open(sys.stdout.fileno(), "w", encoding="utf-8", closefd=False) as out:
            write_dump(given.store, out, given.live, bar)
        return 0
    with opened(given.store, given.live) as (file, bank), named(given.store):
        with table(file, bank) as it:
            sys.stdout.writelines(lines(it))
    return 0


def _copy(given: argparse.Namespace, bar: Bar) -> int:
    made = backup if given.live else copy
    made(given.store, given.copy, bar)
    return 0


def _restore(given: argparse.Namespace, bar: Bar) -> int:
    with contextlib.ExitStack() as stack:
        if given.dump == "-":
            stream = stack.enter_context(open(0, encoding="utf-8", closefd=False))
        else:
            stream = stack.enter_context(open(given.dump, encoding="utf-8"))
        try:
            restore(stream, given.store, given.library, given.bank, given.program, bar)
        except NoJson as error:
            raise Unusable(f"{given.dump}: no JSON: {error}") from None
    return 0


def _salvage(given: argparse.Namespace, bar: Bar) -> int:
    found = salvage(given.store, given.new, given.library, given.bank, given.program, bar)
    bar.clear()
    for line in found.lines:
        print(line)
    print(", ".join(f"{name} {it}" for name, it in found.counts.items()))
    print("not all of it: see above" if found.lost else "nothing was left out")
    return int(found.lost)


COMMANDS: dict[str, typing.Callable[[argparse.Namespace, Bar], int]] = {
    "info": _info,
    "library": _library,
    "groups": _groups,
    "dump": _dump,
    "verify": _verify,
    "copy": _copy,
    "restore": _restore,
    "salvage": _salvage,
}
