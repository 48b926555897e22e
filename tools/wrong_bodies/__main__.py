#!/usr/bin/env python3
"""Tries the wrong bodies of the crates, many in one check: the prover must refuse each.

usage: python3 tools/wrong_bodies [--jobs N] [--minutes N] [--proved] [--gate | --all] [--must-fail]
[--list] [CRATE ..]

An edit is a file crates/CRATE/wrong-bodies/NAME.edit in the format of must-fail/: a line 'file:
PATH', then pairs of lines 'old: TEXT' and 'new: TEXT'. Edits in different functions share a check
of a copy of the crate: the prover reports of each function whether it is proved. Two edits are kept
apart if they are in one function or in one text. An edit of anything but functions, such as a
constant, has a line 'falls: FN, FN ..': the functions that must fall by it, each named by the end
of its path. If a check does not decide, the edit is tried again alone.

Each edit gets one line:

    refused by a clause             with a goal that fell
    refused by a proof file alone   no more fell than names of what the edit removed, in the proof
        of its function
    refused at a term that an answer spells out
                                    the proof names a term that the edit replaced: with another
                                        answer it may hold
    refused for an operation that it brings
                                    no more fell than that a sum fits its type and the like, in what
                                        the edit added
    NOT REFUSED
    not tried                       with the reason: it cannot be placed, does not compile, or its
        time was over

The second to fourth say little of the contract, so these edits are listed at the end. The last line
is 'N refused, M not', with ', K left to other commits' in the gate. The exit status is 1 if M is
above 0, and 2 if nothing was judged.
If all edits of a crate were refused, outside the gate and without --must-fail,
tools/wrong_bodies/TRIED gets a line with the commit, provided that the crate and those below it are
as in that commit.

    --jobs N     tries N crates side by side. Default: as many as processors and memory allow
    --minutes N  begins no check after N minutes. What is not tried then fails. Default: all are
        tried
    --proved     the crates were proved from nothing just now, as rt ci does
    --gate       --proved, for a part of the edits
    --all        all edits of all crates
    --must-fail  the edits of must-fail/ too
    --list       prints the batches and tries nothing

--proved leaves out the proof that each edited function is proved without its edit, and takes the
libraries below as they were built. Of a crate it proves the edited functions alone, by the
contracts of those that they call. A second edit of a function is in a twin of it, with the same
contract and proof. No help is printed for open goals. The verdicts of a check are printed when it
ends, so a run that is stopped has printed them.

--gate takes the edits of crates whose sources, specs, proofs or edits have changed since the commit
in TRIED, by more than comments and layout, and one part in eight of the others. The commit's hash
chooses the part; parts take equally long, by the seconds in TRIED. The others are placed, and
compiled if a crate below has changed since then.

The copies are in a temporary folder; of the repository only out/ is written, if a library below has
to be built.
"""
import argparse
import math
import os
import sys
import tempfile
import threading
import time
from concurrent.futures import ThreadPoolExecutor

sys.dont_write_bytecode = True
sys.path.insert(0, os.path.dirname(os.path.dirname(os.path.abspath(__file__))))
from wrong_bodies.choice import SOURCES, Choice, write_tried
from wrong_bodies.edits import Edit, batches_of
from wrong_bodies.judge import WEAK, Judge
from wrong_bodies.kit import build_below, files_of, lanes, load_rtlib
from wrong_bodies.sources import Sources


class Tried:
    """The results of the edits, each of which is printed once."""

    def __init__(self):
        self.printing, self.counts, self.weak = threading.Lock(), {"refused": 0, "not": 0}, []

    def tell(self, edits):
        """Prints the verdicts that have not been printed."""
        with self.printing:
            for it in edits:
                if it.verdict and not it.is_told:
                    it.is_told = True
                    self.counts["refused" if it.verdict.is_refusal() else "not"] += 1
                    if it.verdict.word in WEAK:
                        self.weak.append(it)
                    print(
                        f"{it.label}: {it.verdict.word}"
                        f"{': ' + it.verdict.why if it.verdict.why else ''}",
                        flush=True,
                    )

    def say(self, text):
        with self.printing:
            print(text, flush=True)

    def end(self, choice, left):
        """Prints the edits of which a reader has to say whether a clause refuses them, and the
        counts; returns the exit status."""
        for word in WEAK:
            told = sorted(
                (it for it in self.weak if it.verdict.word == word), key=lambda it: it.label
            )
            if told:
                print(f"{word}, so that a reader has to say whether a clause refuses them:")
            for it in told:
                print(f"   {it.label}: {it.verdict.why}")
        refused = self.counts["refused"]
        print(f"{refused - len(self.weak)} refused by a clause, {len(self.weak)} otherwise")
        if choice.why:
            print(choice.why)
        print(
            f"{refused} refused, {self.counts['not']} "
            f"not{f', {left} left to other commits' if choice.is_for_gate else ''}"
        )
        return 1 if self.counts["not"] else 0


def show(crate, sources, edits, is_proved):
    """Prints the batches of a crate."""
    good = [it for it in edits if not it.why]
    batches = batches_of(good, sources, is_proved)
    print(f"== {crate.name}: {len(edits)} edits in {len(batches)} batches")
    for it in edits:
        if it.why:
            print(f"   {it.label}: cannot be tried: {it.why}")
    for number, batch in enumerate(batches, 1):
        for it in batch:
            print(
                f"   {number} {it.label}: "
                f"{', '.join(sources.functions[i][1].path for i in it.must)}"
            )


def try_crate(rtlib, crate, sources, edits, choice, args, tried):
    """Tries the edits of a crate, and returns how many are left to other commits, and its
    seconds."""
    started = time.monotonic()
    chosen = [it for it in edits if it.why or choice.is_tried(it.label)]
    left = [it for it in edits if it not in chosen]
    is_above = bool(left) and any(
        choice.has_changed(it.name, crate.name, SOURCES) for it in crate.below()
    )
    with tempfile.TemporaryDirectory(prefix="wrong-bodies-") as room:
        judge = Judge(rtlib, crate, chosen, sources, args, room, tried.tell)
        judge.run()
        if is_above:
            judge.compile(left)
    tried.tell([*chosen, *left])
    seconds = time.monotonic() - started
    tried.say(
        f"== {crate.name}: {len(chosen)} of {len(edits)} edits in {judge.checks.count} checks, "
        f"{seconds:.0f} s"
    )
    return sum(not it.verdict for it in left), seconds


def arguments():
    parser = argparse.ArgumentParser(
        description=__doc__,
        formatter_class=argparse.RawDescriptionHelpFormatter,
        usage=argparse.SUPPRESS,
        add_help=False,
    )
    parser.add_argument("-h", "--help", action="store_true")
    parser.add_argument("--jobs", type=int, default=0)
    parser.add_argument("--minutes", type=float, default=math.inf)
    for flag in ("--proved", "--gate", "--all", "--must-fail", "--list"):
        parser.add_argument(flag, action="store_true")
    parser.add_argument("crates", nargs="*")
    args = parser.parse_args()
    if args.gate and args.all or args.all and args.crates:
        parser.error("--all tries all, so no crate and no --gate goes with it")
    args.proved = args.proved or args.gate
    args.until = time.monotonic() + 60 * args.minutes
    return args


def main():
    args = arguments()
    if args.help:
        print(__doc__.strip())
        return 0
    root = os.getcwd()
    while not os.path.isfile(f"{root}/crates.txt"):
        if root == "/":
            print("wrong-bodies: no crates.txt is in this folder or above it", file=sys.stderr)
            return 2
        root = os.path.dirname(root)
    os.chdir(root)
    rtlib = load_rtlib()
    # (its first call sets a signal's handler, which only the main thread may)
    rtlib.guarded()
    crates = rtlib.crates_below(root)
    unknown = {*args.crates} - {it.name for it in crates}
    if unknown:
        print(
            f"wrong-bodies: crates.txt names no crate {', '.join(sorted(unknown))}", file=sys.stderr
        )
        return 2
    work = []
    for crate in crates:
        files = [
            it
            for part in (["must-fail"] if args.must_fail else []) + ["wrong-bodies"]
            for it in files_of(crate, part)
        ]
        if files and (not args.crates or crate.name in args.crates):
            sources = Sources(crate.folder)
            work.append((crate, sources, [Edit(it, sources) for it in files]))
    work.sort(key=lambda it: -len(it[2]))
    if args.list:
        for it in work:
            show(*it, args.proved)
        return 0
    # (the list that is divided into parts has the mutants of all crates, whatever crates the
    # command names)
    labels = [
        f"{crate.name}/{os.path.basename(it).removesuffix('.edit')}"
        for crate in crates
        for it in files_of(crate, "wrong-bodies")
    ]
    choice, tried = Choice(root, labels, args.gate), Tried()
    lacking = build_below([crate for crate, _, _ in work], args.proved)
    if lacking:
        print(f"wrong-bodies: the library {lacking} is not proved, so nothing above it is judged")
        return 2
    with ThreadPoolExecutor(args.jobs or lanes()) as pool:
        asked = [
            pool.submit(try_crate, rtlib, crate, sources, edits, choice, args, tried)
            for crate, sources, edits in work
        ]
        done = [it.result() for it in asked]
    left = sum(count for count, _ in done)
    # (with those of must-fail/ too, the seconds are not those of wrong bodies)
    if not args.gate and not args.must_fail:
        well = [
            (crate, seconds)
            for (crate, _, edits), (_, seconds) in zip(work, done)
            if all(it.verdict.is_refusal() for it in edits)
        ]
        counts = {
            crate.name: (len(files_of(crate, "wrong-bodies")), seconds) for crate, seconds in well
        }
        if counts:
            print(
                write_tried(
                    root, counts, {it.name: [below.name for below in it.below()] for it in crates}
                )
            )
    return tried.end(choice, left)


if __name__ == "__main__":
    sys.exit(main())
