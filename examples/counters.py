#!/usr/bin/env python3
"""Keeps totals of a machine's network counters in a server, in rounds of a second, and prints them.

    PYTHONPATH=clients/python python3 examples/counters.py [--program PROGRAM] [--store STORE]
        [--rounds N] [FILE]

Default of FILE: /proc/net/dev. A machine counts from 0 again when it starts; a total goes on from
there. With STORE, a file that is created if it does not exist, the totals survive a crash of this
script, of the server and of the machine.
"""
import argparse
import os
import time

import oaut

LIBRARY = os.path.join(os.path.dirname(os.path.abspath(__file__)), "counters.idl")


def counters_of(path):
    """Names and values: received and sent bytes of each network interface."""
    with open(path) as file:
        for line in file.read().splitlines()[2:]:
            name, numbers = line.split(":")
            words = numbers.split()
            yield f"{name.strip()} received", int(words[0])
            yield f"{name.strip()} sent", int(words[8])


def session(program, store):
    """A server that keeps its objects in a store, or in memory if none is named."""
    if store is None:
        return oaut.play(LIBRARY, program=program)
    if not os.path.exists(store):
        oaut.make_store(store, LIBRARY, program=program)
    return oaut.serve(store, LIBRARY, program=program)


def found(server):
    """The counters that the server has already, by their names. One whose making was stopped before
    its name was put is given up."""
    counters = server.objects()
    with server.batch():
        names = [it.Name for it in counters]
    for counter, name in zip(counters, names):
        if name.value is None:
            counter.release()
    return {name.value: counter for counter, name in zip(counters, names) if name.value is not None}


def keep(server, known, counts):
    """Brings the totals up to what the machine counts now: one batch of gets, one of puts."""
    for name, _ in counts:
        if name not in known:
            known[name] = server.create("Counter")
            known[name].Name = name
    with server.batch():
        before = [(known[name], known[name].Counts.value, count) for name, count in counts]
    with server.batch():
        for counter, held, count in before:
            total, last = held.value or (0, 0)
            counter.Counts = [total + (count - last if count >= last else count), count]


parser = argparse.ArgumentParser()
parser.add_argument("--program", default="oaut")
parser.add_argument("--store")
parser.add_argument("--rounds", type=int, default=3)
parser.add_argument("file", nargs="?", default="/proc/net/dev")
given = parser.parse_args()
with session(given.program, given.store) as server:
    known = found(server)
    for place in range(given.rounds):
        if place:
            time.sleep(1)
        keep(server, known, list(counters_of(given.file)))
    for name, counter in known.items():
        print(f"{name}: {counter.Counts[0]}")
