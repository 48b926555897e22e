#!/usr/bin/env python3
"""Durable puts a second over a gateway that nobody watches, with ten watching clients, and over
another gateway.

    python3 bench/watchers.py [PROGRAM [FOLDER [SECONDS [ROUNDS [BEFORE]]]]]

Defaults: PROGRAM crates/oaut/out/oaut, FOLDER of the files the current one, SECONDS of each
measurement 0.5, ROUNDS 9. BEFORE is another gateway's program, such as that of an earlier commit;
it is left out by default. The clients are those of bench/load.c. The ways take turns, and change
their order:

- before: BEFORE, with a shared socket alone;
- off: this gateway, with a shared socket alone;
- watch: the same with `--watch`, and no watching client;
- ten: the same with ten watching clients that get new values. One process reads for all of them.

Prints, for each row of clients and puts in flight: the median of the rounds, the median ratio to
`off` in the same round, and the processor time that the gateway needs for a put. Then comes how
many changes the ten have missed.
"""
import os
import selectors
import socket
import statistics
import subprocess
import sys
import tempfile

ROOT = os.path.dirname(os.path.dirname(os.path.abspath(__file__)))
sys.path.insert(0, ROOT)
from command_line import words
from tests.support.wire import oaut

LIBRARY = f"{ROOT}/examples/small.idl"
ROWS = [(1, 1), (16, 1), (16, 64)]
TEN = 10


def read_all(path, count):
    """Reads for so many watching clients until their connections end. It is a process of its
    own."""
    selector = selectors.DefaultSelector()
    for _ in range(count):
        sock = socket.socket(socket.AF_UNIX)
        sock.connect(path)
        sock.sendall(b"watch values\n")
        selector.register(sock, selectors.EVENT_READ)
    place = bytearray(1 << 18)
    print("reads", flush=True)
    while selector.get_map():
        for key, _ in selector.select():
            if not key.fileobj.recv_into(place):
                selector.unregister(key.fileobj)


def counters(binary):
    said = subprocess.run(
        [binary, "status", "./control"], capture_output=True, text=True, check=True
    ).stdout
    return {
        name: float(value)
        for name, _, value in (line.partition(" ") for line in said.splitlines())
        if name.startswith("oaut_") and value
    }


def processor_time(pid):
    with open(f"/proc/{pid}/schedstat") as file:
        return int(file.read().split()[0])


def one_way(program, seconds, binary, options, count):
    """For each row the rate and the gateway's nanoseconds for a put; and how many changes were
    missed."""
    child = subprocess.Popen(
        [
            binary,
            "--program",
            program,
            "--report",
            "0",
            "--listen",
            "./listen",
            "--control",
            "./control",
            *options,
            "it.store",
        ]
    )
    found, reader = {}, None
    try:
        oaut.connect("./listen", patience=30).close()
        if count:
            reader = subprocess.Popen(
                [sys.executable, __file__, "--read", "./watch", str(count)], stdout=subprocess.PIPE
            )
            reader.stdout.readline()
        for row in ROWS:
            asked, used = counters(binary)["oaut_gateway_requests_total"], processor_time(child.pid)
            out = subprocess.run(
                ["./load", "./listen", *map(str, row), str(seconds)],
                capture_output=True,
                text=True,
                check=True,
            ).stdout
            used = processor_time(child.pid) - used
            found[row] = float(out.split()[0]), used / (
                counters(binary)["oaut_gateway_requests_total"] - asked
            )
        return found, counters(binary).get("oaut_gateway_missed_changes_total", 0)
    finally:
        child.terminate()
        child.wait()
        if reader:
            reader.wait()


def main(program, seconds, rounds, before):
    subprocess.run(
        ["cc", "-O2", "-Wall", "-Wextra", "-Werror", "-o", "load", f"{ROOT}/bench/load.c"],
        check=True,
    )
    subprocess.run([f"{ROOT}/clients/gateway/build.sh", "."], check=True)
    subprocess.run([program, "format", "it.store", LIBRARY], check=True, stdout=subprocess.DEVNULL)
    with oaut.serve("it.store", LIBRARY, program=program, group=1_024) as server, server.batch():
        for _ in range(max(clients for clients, _ in ROWS)):
            server.create("Item")
    watch = ["--watch", "./watch"]
    ways = {
        "off": ("./oaut-gateway", [], 0),
        "watch": ("./oaut-gateway", watch, 0),
        "ten": ("./oaut-gateway", watch, TEN),
    }
    if before:
        ways = {"before": (before, [], 0), **ways}
    found, missed = [], 0.0
    for at in range(rounds):
        found.append({})
        for name in ways if at % 2 else reversed(ways):
            found[-1][name], more = one_way(program, seconds, *ways[name])
            missed += more
    for row in ROWS:
        for name in ways:
            rate, used = (statistics.median(it[name][row][at] for it in found) for at in (0, 1))
            ratio = statistics.median(it[name][row][0] / it["off"][row][0] for it in found)
            print(
                f"{row[0]:2} x {row[1]:2}  {name:6} {rate:10,.0f} a second   {ratio:.3f} of off   "
                f"{used:6,.0f} ns of the gateway's processor time"
            )
    print(f"the ten have missed {missed:,.0f} changes")


if __name__ == "__main__":
    if sys.argv[1:2] == ["--read"]:
        read_all(sys.argv[2], int(sys.argv[3]))
    else:
        program, folder, seconds, rounds, before = words(
            __doc__, folder=".", seconds=0.5, rounds=9, before=""
        )
        before = os.path.abspath(before) if before else ""
        with tempfile.TemporaryDirectory(dir=folder) as room:
            os.chdir(room)
            main(program, seconds, rounds, before)
