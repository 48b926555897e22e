#!/usr/bin/env python3
"""The system calls of one commit, by the gateway with its server, and by Redis with `appendfsync
always`.

    python3 bench/calls.py [PROGRAM [FOLDER [SECONDS [ROUNDS [CLIENTS]]]]]

Defaults: PROGRAM crates/oaut/out/oaut, FOLDER of the files the current one, SECONDS of each
measurement 1, ROUNDS 5, CLIENTS 1, each of which waits for its put. It needs redis-server,
redis-benchmark, a C compiler, and perf with the right to trace. The ways take turns. Each is
measured alone first, and then again under `perf trace -s`.

Prints for each way the medians of the rounds: puts a second, and the time of a commit. Then come
the calls of each process: how many there are for a commit, and their time. The time of a call that
waits for a peer is mostly that of the peer.

The last lines are bounds of any gateway. A commit has at most a put of each client, and takes at
least as long as the server's writes and syncs. Between two commits the clients read their replies
and send their next puts; bench/load.c is one process, of which the processor's time is counted.
"""
import contextlib
import os
import re
import resource
import shutil
import socket
import statistics
import subprocess
import sys
import tempfile

ROOT = os.path.dirname(os.path.dirname(os.path.abspath(__file__)))
sys.path.insert(0, ROOT)
from command_line import words
from tests.support.wire import oaut

PROGRAM, FOLDER, SECONDS, ROUNDS, CLIENTS = words(
    __doc__, folder=".", seconds=1.0, rounds=5, clients=1
)
LIBRARY = f"{ROOT}/examples/small.idl"
LEAST = 0.05  # calls of a commit that are rarer than this are not printed
SYNCS = {"gateway": 2, "Redis": 1}  # of a commit


def child_of(pid):
    """The process that serves, of the gateway's children."""
    with open(f"/proc/{pid}/task/{pid}/children") as file:
        for it in file.read().split():
            with open(f"/proc/{it}/cmdline", "rb") as words_of:
                if b"serve" in words_of.read().split(b"\0"):
                    return int(it)
    raise SystemExit("the gateway has no server")


@contextlib.contextmanager
def running(*command):
    with subprocess.Popen(command, stdout=subprocess.DEVNULL) as child:
        try:
            yield child.pid
        finally:
            child.terminate()


@contextlib.contextmanager
def gateway():
    """The processes, and a function that gives the command of a client and how to read its rate."""
    if not os.path.exists("it.store"):
        subprocess.run(
            [PROGRAM, "format", "it.store", LIBRARY], check=True, stdout=subprocess.DEVNULL
        )
        with oaut.serve(
            "it.store", LIBRARY, program=PROGRAM, group=1_024
        ) as server, server.batch():
            for _ in range(CLIENTS):
                server.create("Item")
    with running(
        "./oaut-gateway",
        "--program",
        PROGRAM,
        "--report",
        "0",
        "--listen",
        "./gateway.sock",
        "it.store",
    ) as pid:
        oaut.connect("./gateway.sock", patience=30).close()
        load = ["./load", "./gateway.sock", str(CLIENTS), "1"]
        yield {"gateway": pid, "server": child_of(pid)}, lambda seconds: (
            [*load, str(seconds)],
            lambda out: float(out.split()[0]),
        )


@contextlib.contextmanager
def redis():
    shutil.rmtree("redis", ignore_errors=True)
    os.mkdir("redis")
    log = [
        "--dir",
        "redis",
        "--appendonly",
        "yes",
        "--appendfsync",
        "always",
        "--save",
        "",
        "--auto-aof-rewrite-percentage",
        "0",
    ]
    path = os.path.abspath("redis.sock")
    with running("redis-server", "--port", "0", "--unixsocket", path, *log) as pid:
        for _ in range(600):
            with socket.socket(socket.AF_UNIX) as sock, contextlib.suppress(OSError):
                sock.connect(path)
                break
            subprocess.run(["sleep", "0.05"], check=True)
        load = ["redis-benchmark", "-s", path, "-t", "set", "-c", str(CLIENTS), "-d", "4", "--csv"]
        rate = lambda out: float(out.strip().splitlines()[-1].split(",")[1].strip('"'))
        # (it takes a number of requests, not a time)
        yield {"Redis": pid}, lambda seconds: (
            [*load, "-n", str(int(seconds * 9_000 * CLIENTS**0.7))],
            rate,
        )


def traced(pids, seconds):
    """For each process the calls within so many seconds, by their names: how many, and their
    milliseconds."""
    words_of = [
        "perf",
        "trace",
        "-s",
        "-o",
        "calls",
        "-p",
        ",".join(map(str, pids.values())),
        "--",
        "sleep",
        str(seconds),
    ]
    subprocess.run(words_of, check=True, stderr=subprocess.DEVNULL)
    with open("calls") as file:
        text = file.read()
    found, names = {}, {it: name for name, it in pids.items()}
    for head, body in re.findall(
        r"(?m)^ \S.* \((\d+)\), \d+ events.*\n((?:.*\n)*?)(?=^ \S.* \(\d+\), |\Z)", text
    ):
        rows = re.findall(r"(?m)^   (\w+) +(\d+) +\d+ +([\d.]+)", body)
        # (Redis has threads, which are not its first one)
        if int(head) in names:
            found[names[int(head)]] = {
                name: (int(count), float(total)) for name, count, total in rows
            }
    return found


def processor():
    """The seconds of a processor that children which have ended took."""
    return sum(resource.getrusage(resource.RUSAGE_CHILDREN)[:2])


def median_of(rounds, fact):
    return statistics.median(map(fact, rounds))


def main():
    ways, rounds = {"gateway": gateway, "Redis": redis}, []
    for _ in range(ROUNDS):
        rounds.append({})
        for name, way in ways.items():
            with way() as (pids, client):
                command, rate = client(SECONDS)
                before = processor()
                alone = rate(
                    subprocess.run(command, capture_output=True, text=True, check=True).stdout
                )
                own = (processor() - before) * 1e3 / (alone * SECONDS)
                command, rate = client(SECONDS * 4 + 2)
                with subprocess.Popen(command, stdout=subprocess.PIPE, text=True) as child:
                    calls = traced(pids, SECONDS)
                    child.terminate()
            commits = sum(rows.get("fdatasync", (0, 0))[0] for rows in calls.values()) / SYNCS[name]
            # (count and milliseconds of each call, for a commit)
            each = {
                process: {
                    call: (count / commits, time / commits) for call, (count, time) in rows.items()
                }
                for process, rows in calls.items()
            }
            rounds[-1][name] = alone, SECONDS * 1e3 / commits, each, own
    for name in ways:
        found = [it[name] for it in rounds]
        print(
            f"{name}: {median_of(found, lambda it: it[0]):,.0f} puts a second; a commit takes "
            f"{median_of(found, lambda it: it[1]):.3f} ms while it is traced"
        )
        for process in found[0][2]:
            for call in found[0][2][process]:
                count, time = (
                    median_of(found, lambda it: it[2][process].get(call, (0, 0))[at])
                    for at in (0, 1)
                )
                if count >= LEAST:
                    print(
                        f"  {process:8} {call:16} {count:6.2f} for a commit   {time:.4f} ms for a "
                        "commit"
                    )
    syncs = lambda it: sum(
        it["gateway"][2]["server"][call][1] for call in ("pwrite64", "fdatasync")
    )
    whole = lambda it: syncs(it) + CLIENTS * it["gateway"][3]
    print(
        f"the server's writes and syncs take {median_of(rounds, syncs):.4f} ms for a commit, the "
        f"clients {median_of(rounds, lambda it: it['gateway'][3]):.4f} ms for a put"
    )
    for what, least in (
        ("the writes and syncs alone", syncs),
        ("these and the clients' time", whole),
    ):
        bound = lambda it: CLIENTS * 1e3 / least(it)
        print(
            f"bound by {what}: {median_of(rounds, bound):,.0f} puts a second, "
            f"{median_of(rounds, lambda it: bound(it) / it['Redis'][0]):.2f} of Redis's"
        )
    print(
        f"this gateway: {median_of(rounds, lambda it: it['gateway'][0] / it['Redis'][0]):.2f} of "
        "Redis's"
    )


if __name__ == "__main__":
    with tempfile.TemporaryDirectory(dir=FOLDER) as room:
        os.chdir(room)
        subprocess.run(
            ["cc", "-O2", "-Wall", "-Wextra", "-Werror", "-o", "load", f"{ROOT}/bench/load.c"],
            check=True,
        )
        subprocess.run([f"{ROOT}/clients/gateway/build.sh", room], check=True)
        main()
