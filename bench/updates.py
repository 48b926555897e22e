#!/usr/bin/env python3
"""Increments a second of one number by 16 clients of the gateway, which are processes of the Python
client.

    python3 bench/updates.py [PROGRAM [FOLDER [COUNT [ROUNDS]]]]

Defaults: PROGRAM crates/oaut/out/oaut, FOLDER of the files the current one, COUNT increments of
each client 10,000, ROUNDS of each way 3. The ways take turns:

- put: one client puts the next number and waits for it; nobody else is there, and there is no lock;
- compare: `compare_and_put`, again until it has put; a hundredth of COUNT;
- update: `update`, of which each is waited for; a hundredth of COUNT;
- tasks: `update` of `oaut.aio`, by 256 tasks of each client.

Prints for each way the median round's increments a second, and the increments of a put and the puts
a second in it. A round whose last number is wrong ends it.
"""
import os
import statistics
import subprocess
import sys
import tempfile
import time

ROOT = os.path.dirname(os.path.dirname(os.path.abspath(__file__)))
sys.path.insert(0, ROOT)
from command_line import words
from tests.support.wire import oaut

LIBRARY = f"{ROOT}/examples/full.idl"
CLIENTS, TASKS = 16, 256
# of each way: the clients, and the part of COUNT that each of them makes
WAYS = {"put": (1, 1), "compare": (CLIENTS, 100), "update": (CLIENTS, 100), "tasks": (CLIENTS, 1)}


def one_way(way, count):
    """The increments of all clients together, the seconds, and the puts."""
    clients, part = WAYS[way]
    with oaut.connect("./listen") as server, server.watch() as before:
        item = server.objects()[0]
        item.Grid, item.Count = [1], 0
        begins = before.begins + 2
        each = max(1, count // part)
        command = [
            sys.executable,
            f"{ROOT}/tests/gateway/adding.py",
            "./listen",
            way,
            str(each),
            str(TASKS),
        ]
        environment = {**os.environ, "PYTHONPATH": f"{ROOT}/clients/python"}
        pipes = {"stdin": subprocess.PIPE, "stdout": subprocess.PIPE, "text": True}
        all_of_them = [subprocess.Popen(command, env=environment, **pipes) for _ in range(clients)]
        for it in all_of_them:
            it.stdout.readline()
        begun = time.perf_counter()
        for it in all_of_them:
            it.stdin.write("\n")
            it.stdin.flush()
        for it in all_of_them:
            it.stdout.readline()
        took = time.perf_counter() - begun
        for it in all_of_them:
            it.communicate()
        if item.Count != clients * each:
            raise SystemExit(f"{way}: {item.Count} of {clients * each}")
    with oaut.connect("./listen") as server, server.watch() as after:
        return clients * each, took, after.begins - begins


def main(program, count, rounds):
    subprocess.run([f"{ROOT}/clients/gateway/build.sh", "."], check=True)
    subprocess.run([program, "format", "it.store", LIBRARY], check=True, stdout=subprocess.DEVNULL)
    gateway = [
        "./oaut-gateway",
        "--program",
        program,
        "--report",
        "0",
        "--listen",
        "./listen",
        "--watch",
        "./listen.watch.sock",
        "it.store",
    ]
    child = subprocess.Popen(gateway)
    try:
        with oaut.connect("./listen", patience=30) as server:
            server.create("Item")
        found = {way: [] for way in WAYS}
        for at in range(rounds):
            for way in WAYS if at % 2 else reversed(WAYS):
                made, took, changes = one_way(way, count)
                found[way].append((made / took, made / changes, changes / took))
        for way, all_of_them in found.items():
            rate, of_a_put, changes = (
                statistics.median(it[part] for it in all_of_them) for part in range(3)
            )
            print(
                f"{way:8}{rate:10,.0f} increments a second {of_a_put:8,.1f} of a put "
                f"{changes:8,.0f} puts a second"
            )
    finally:
        child.terminate()
        child.wait()


if __name__ == "__main__":
    program, folder, count, rounds = words(__doc__, folder=".", count=10_000, rounds=3)
    with tempfile.TemporaryDirectory(dir=folder) as room:
        os.chdir(room)
        main(program, count, rounds)
