#!/usr/bin/env python3
"""Times puts and gets from Python over the pipes of the built program: in batches, one by one and
in groups, with objects in memory and with a store in FOLDER. Each figure is the best of three
rounds.

    python3 bench/client.py [PROGRAM [PUTS [FOLDER [BESIDE]]]]

Defaults: PROGRAM crates/oaut/out/oaut, PUTS 60,000, FOLDER the current one. BESIDE is another
checkout, such as that of an earlier commit: its client takes each round in turn with this one, and
its figures are beside these.
"""
import json
import os
import subprocess
import sys
import tempfile
import time

ROOT = os.path.dirname(os.path.dirname(os.path.abspath(__file__)))
ROUNDS = 3


def timed(found, what, count, act):
    """Notes how many of an act a second there were, and by the client's own processor time."""
    started, busy = time.perf_counter(), time.process_time()
    act(count)
    seconds, own = time.perf_counter() - started, time.process_time() - busy
    found[what] = count / seconds, count / own


def round_of(client, program, puts, folder):
    """A round by the client in a folder, as a JSON of what was found."""
    sys.path.insert(0, client)
    import oaut

    small, full, found = f"{ROOT}/examples/small.idl", f"{ROOT}/examples/full.idl", {}

    def in_batches(item, size, put):
        def act(count):
            for _ in range(count // size):
                with server.batch():
                    for number in range(size):
                        put(item, number)

        return act

    def put(item, number):
        item.Count = number

    def put_by_key(item, number):
        item.Cell[number, "k"] = "x"

    def get(item, _):
        item.Count

    def alone(what):
        return lambda count: [what(item, number) for number in range(count)] and None

    with oaut.play(full, program=program) as server:
        item = server.create("Item")
        for size in (1_024, 16):
            timed(found, f"puts in batches of {size:,}", puts, in_batches(item, size, put))
            timed(found, f"gets in batches of {size:,}", puts, in_batches(item, size, get))
        timed(
            found,
            "puts by a key in batches of 1,024",
            puts // 4,
            in_batches(item, 1_024, put_by_key),
        )
        timed(found, "puts one by one", puts // 10, alone(put))
        timed(found, "gets one by one", puts // 10, alone(get))
    with tempfile.TemporaryDirectory(dir=folder) as room:
        store = f"{room}/it.store"
        oaut.make_store(store, small, program=program)
        for group in (1, 16, 1_024):
            with oaut.serve(store, small, group=group, program=program) as server:
                item = next(iter(server.objects()), None) or server.create("Item")
                if group == 1_024:
                    timed(
                        found, "store: puts in batches of 1,024", puts, in_batches(item, 1_024, put)
                    )
                timed(found, f"store: puts one by one, groups of {group:,}", puts // 50, alone(put))
                timed(found, f"store: gets one by one, groups of {group:,}", puts // 50, alone(get))
    print(json.dumps(found))


def main():
    sys.path.append(ROOT)
    from command_line import words

    program, puts, folder, beside = words(__doc__, puts=60_000, folder=".", beside="")
    clients = [f"{ROOT}/clients/python", *([f"{beside}/clients/python"] if beside else [])]
    best = [{} for _ in clients]
    for _ in range(ROUNDS):
        for client, found in zip(clients, best):
            said = subprocess.run(
                [sys.executable, __file__, "--round", client, program, str(puts), folder],
                capture_output=True,
                text=True,
                check=True,
            ).stdout
            for what, (rate, own) in json.loads(said).items():
                before = found.get(what, (0, 0))
                found[what] = max(before[0], rate), max(before[1], own)
    for what, (rate, own) in best[0].items():
        other = (
            f"; beside it {best[1][what][0]:,.0f}, {rate / best[1][what][0]:.1f} times as many"
            if beside
            else ""
        )
        print(
            f"{what}: {rate:,.0f} a second ({own:,.0f} by the client's own processor time){other}"
        )


if sys.argv[1:2] == ["--round"]:
    round_of(sys.argv[2], sys.argv[3], int(sys.argv[4]), sys.argv[5])
elif __name__ == "__main__":
    main()
