#!/usr/bin/env python3
"""Durable puts of many clients by the gateway, beside Redis, PostgreSQL and SQLite on one file
system.

    python3 bench/gateway.py [PROGRAM [FOLDER [SECONDS [ROUNDS [PAUSE [WAYS]]]]]]

Defaults: PROGRAM crates/oaut/out/oaut, FOLDER of the files the current one, SECONDS of each
measurement 1, ROUNDS of each 3, PAUSE before each measurement 0 seconds, WAYS all of them. A
virtual disk may delay a long series of syncs: then a pause helps. WAYS are names with commas
between them. Peers that are not installed are left out. The ways take turns; each row is of so many
clients, each with one put that it waits for, or with 64 of them:

- gateway: `oaut-gateway`, clients over unix sockets (bench/load.c), each with an object of its own;
- serve: one client of `oaut serve` itself, over a unix socket;
- Redis: `appendfsync always`, SET of 4 bytes, by redis-benchmark over a unix socket;
- PostgreSQL: a prepared update of one row by its key, a row a client, by pgbench over a unix
  socket, everything else as it comes;
- SQLite: in one process, WAL and `synchronous = FULL`, as many updates in a transaction as there
  are puts at once, 1,024 at most: no clients at all.

Prints the median round, with its p50 and p99 in milliseconds. Then come the median ratio of the
gateway's rate to Redis's in the same round, and that of a single client's wait at the gateway to
its wait at `oaut serve`.
"""
import contextlib
import os
import re
import shutil
import socket
import sqlite3
import statistics
import subprocess
import sys
import tempfile
import threading
import time

ROOT = os.path.dirname(os.path.dirname(os.path.abspath(__file__)))
sys.path.insert(0, ROOT)
from command_line import words
from tests.support.wire import oaut

PROGRAM, FOLDER, SECONDS, ROUNDS, PAUSE, CHOSEN = words(
    __doc__, folder=".", seconds=1.0, rounds=3, pause=0.0, ways=""
)
ROWS = [(1, 1), (4, 1), (16, 1), (64, 1), (256, 1), (1_024, 1), (16, 64)]
LIBRARY = f"{ROOT}/examples/small.idl"


def waited_for(path):
    """Waits until somebody listens on a unix socket."""
    until = time.monotonic() + 30
    while time.monotonic() < until:
        with socket.socket(socket.AF_UNIX) as sock, contextlib.suppress(OSError):
            sock.connect(path)
            return
        time.sleep(0.05)
    raise SystemExit(f"nobody listens on {path}")


def loaded(path, clients, pipeline):
    """Runs bench/load.c and returns the rate, the median, the 99th percentile."""
    time.sleep(PAUSE)
    out = subprocess.run(
        ["./load", path, str(clients), str(pipeline), str(SECONDS)],
        capture_output=True,
        text=True,
        check=True,
    ).stdout
    return tuple(map(float, out.split()[:3]))


def new_store():
    """A store with an object for each client."""
    if not os.path.exists("it.store"):
        subprocess.run(
            [PROGRAM, "format", "it.store", LIBRARY], check=True, stdout=subprocess.DEVNULL
        )
        with oaut.serve(
            "it.store", LIBRARY, program=PROGRAM, group=1_024
        ) as server, server.batch():
            for _ in range(1_024):
                server.create("Item")


def gateway():
    new_store()
    child = subprocess.Popen(
        [
            "./oaut-gateway",
            "--program",
            PROGRAM,
            "--clients",
            "2000",
            "--report",
            "0",
            "--listen",
            "./gateway.sock",
            "it.store",
        ]
    )
    waited_for("./gateway.sock")
    try:
        return {row: loaded("./gateway.sock", *row) for row in ROWS}
    finally:
        child.terminate()
        child.wait()


def serve():
    """One client, whose connection is the server's standard input and output."""
    new_store()
    with socket.socket(socket.AF_UNIX) as listening:
        with contextlib.suppress(FileNotFoundError):
            os.unlink("serve.sock")
        listening.bind("serve.sock")
        listening.listen()

        def serves():
            client, _ = listening.accept()
            with client:
                subprocess.run(
                    [PROGRAM, "serve", "it.store", LIBRARY],
                    stdin=client,
                    stdout=client,
                    stderr=subprocess.DEVNULL,
                )

        thread = threading.Thread(target=serves)
        thread.start()
        found = {(1, 1): loaded("./serve.sock", 1, 1)}
        thread.join()
    return found


def redis():
    shutil.rmtree("redis", ignore_errors=True)
    os.mkdir("redis")
    log = [
        "--dir",
        "redis",
        "--appendonly",
        "yes",
        "--appendfsync",
        "always",
        "--save",
        "",
        "--auto-aof-rewrite-percentage",
        "0",
        "--maxclients",
        "2000",
    ]
    path = os.path.abspath("redis.sock")
    child = subprocess.Popen(
        ["redis-server", "--port", "0", "--unixsocket", path, *log], stdout=subprocess.DEVNULL
    )
    waited_for(path)
    found = {}
    try:
        for clients, pipeline in ROWS:
            count = 2_000 * clients**0.5 * pipeline
            for _ in range(4):
                time.sleep(PAUSE)
                begun = time.monotonic()
                threads = ["--threads", "2"] if clients >= 64 else []
                asked = [
                    "redis-benchmark",
                    "-s",
                    path,
                    "-t",
                    "set",
                    "-c",
                    str(clients),
                    "-P",
                    str(pipeline),
                    "-n",
                    str(int(count)),
                    "-r",
                    "1024",
                    "-d",
                    "4",
                    "--csv",
                    *threads,
                ]
                told = (
                    subprocess.run(asked, capture_output=True, text=True, check=True)
                    .stdout.strip()
                    .splitlines()[-1]
                    .split(",")
                )
                took = time.monotonic() - begun
                if took > 0.6 * SECONDS:
                    break
                count *= SECONDS / took
            told = [it.strip('"') for it in told]
            found[clients, pipeline] = float(told[1]), float(told[4]), float(told[6])
    finally:
        child.terminate()
        child.wait()
    return found


POSTGRES = sorted(it for it in ("/usr/lib/postgresql",) if os.path.isdir(it))


def postgres():
    binaries = max((f"/usr/lib/postgresql/{it}/bin" for it in os.listdir("/usr/lib/postgresql")))
    under = ["runuser", "-u", "postgres", "--"] if os.geteuid() == 0 else []
    folder = os.path.abspath("postgres")
    if not os.path.exists(folder):
        os.mkdir(folder, 0o700)
        if under:
            shutil.chown(folder, "postgres")
        subprocess.run(
            [
                *under,
                f"{binaries}/initdb",
                "-D",
                folder,
                "--no-locale",
                "-E",
                "UTF8",
                "-A",
                "trust",
            ],
            check=True,
            stdout=subprocess.DEVNULL,
        )
        with open(f"{folder}/postgresql.conf", "a") as file:
            file.write(
                f"listen_addresses=''\nunix_socket_directories='{folder}'\nmax_connections=300\n"
                "shared_buffers=256MB\nport=5599\n"
            )
    with open("put.sql", "w") as file:
        file.write("update t set v = v + 1 where id = :client_id + 1;\n")
    reach = ["-h", folder, "-p", "5599"]
    child = subprocess.Popen(
        [*under, f"{binaries}/postgres", "-D", folder],
        stdout=subprocess.DEVNULL,
        stderr=subprocess.DEVNULL,
    )
    waited_for(f"{folder}/.s.PGSQL.5599")
    found = {}
    try:
        make = (
            "create table if not exists t(id int primary key, v int) with (fillfactor=50); insert "
            "into t select g, 0 from generate_series(1, 256) g on conflict do nothing;"
        )
        for _ in range(50):
            if not subprocess.run(
                [*under, "psql", *reach, "-qc", make, "postgres"], stderr=subprocess.DEVNULL
            ).returncode:
                break
            time.sleep(0.2)
        for clients, pipeline in ROWS:
            if pipeline > 1 or clients > 256:
                continue
            with tempfile.TemporaryDirectory() as logs:
                os.chmod(logs, 0o777)
                shutil.copy("put.sql", f"{logs}/put.sql")
                os.chmod(f"{logs}/put.sql", 0o644)
                asked = [
                    "pgbench",
                    *reach,
                    "-n",
                    "-M",
                    "prepared",
                    "-f",
                    f"{logs}/put.sql",
                    "-c",
                    str(clients),
                    "-j",
                    "2" if clients > 1 else "1",
                    "-T",
                    str(max(1, int(SECONDS))),
                ]
                out = subprocess.run(
                    [*under, *asked, "-l", f"--log-prefix={logs}/log", "postgres"],
                    capture_output=True,
                    text=True,
                    cwd=logs,
                    check=True,
                ).stdout
                waits = []
                for it in os.listdir(logs):
                    if it.startswith("log"):
                        with open(f"{logs}/{it}") as file:
                            waits += [int(line.split()[2]) / 1_000 for line in file]
            waits.sort()
            rate = re.search(r"tps = ([\d.]+)", out)
            if rate and waits:  # else none was done in time
                found[clients, pipeline] = (
                    float(rate[1]),
                    waits[len(waits) // 2],
                    waits[len(waits) * 99 // 100],
                )
    finally:
        subprocess.run(
            [*under, f"{binaries}/pg_ctl", "-D", folder, "stop", "-m", "fast"],
            stdout=subprocess.DEVNULL,
        )
        child.wait()
    return found


def sqlite():
    for it in ("it.db", "it.db-wal", "it.db-shm"):
        with contextlib.suppress(FileNotFoundError):
            os.unlink(it)
    base = sqlite3.connect("it.db", isolation_level=None)
    base.execute("pragma journal_mode=wal")
    base.execute("pragma synchronous=full")
    base.execute("create table t(id integer primary key, v int)")
    base.executemany("insert into t values(?, 0)", [(it,) for it in range(1_024)])
    found = {}
    for clients, pipeline in ROWS:
        group, waits, count = min(clients * pipeline, 1_024), [], 0
        begun = time.perf_counter()
        while (since := time.perf_counter()) < begun + SECONDS:
            if group > 1:
                base.execute("begin")
            for it in range(group):
                base.execute("update t set v=? where id=?", (count, it))
            if group > 1:
                base.execute("commit")
            count += group
            waits.append((time.perf_counter() - since) * 1e3)
        waits.sort()
        found[clients, pipeline] = (
            count / (time.perf_counter() - begun),
            waits[len(waits) // 2],
            waits[len(waits) * 99 // 100],
        )
    base.close()
    return found


WAYS = {
    "gateway": gateway,
    "serve": serve,
    "Redis": redis,
    "PostgreSQL": postgres,
    "SQLite": sqlite,
}
WAYS = {name: way for name, way in WAYS.items() if not CHOSEN or name in CHOSEN.split(",")}
MISSING = {
    "Redis": not shutil.which("redis-benchmark"),
    "PostgreSQL": not POSTGRES or not shutil.which("pgbench"),
}


def main():
    with tempfile.TemporaryDirectory(dir=FOLDER) as room:
        os.chmod(room, 0o755)
        os.chdir(room)
        subprocess.run(
            ["cc", "-O2", "-Wall", "-Wextra", "-Werror", "-o", "load", f"{ROOT}/bench/load.c"],
            check=True,
        )
        subprocess.run([f"{ROOT}/clients/gateway/build.sh", room], check=True)
        rounds = []
        for _ in range(int(ROUNDS)):
            rounds.append({name: way() for name, way in WAYS.items() if not MISSING.get(name)})
            print(
                f"load {os.getloadavg()[0]:.1f}",
                {
                    name: {row: round(told[0]) for row, told in found.items()}
                    for name, found in rounds[-1].items()
                },
                file=sys.stderr,
                flush=True,
            )
        os.chdir("/")
    print(
        "| | "
        + " | ".join(
            f"{clients:,}" if pipeline == 1 else f"{clients} x {pipeline}"
            for clients, pipeline in ROWS
        )
        + " |"
    )
    for name in rounds[0]:
        cells = []
        for row in ROWS:
            told = sorted(it[name][row] for it in rounds if row in it[name])
            cells.append("{:,.0f} ({:.2f}/{:.2f})".format(*told[len(told) // 2]) if told else "-")
        print(f"| {name} | " + " | ".join(cells) + " |")
    if {"gateway", "Redis"} <= set(rounds[0]):
        ratio = lambda row: (it["gateway"][row][0] / it["Redis"][row][0] for it in rounds)
        print(
            "gateway/Redis:",
            ", ".join(f"{row}: {statistics.median(ratio(row)):.2f}" for row in ROWS),
        )
    for what, place in (("median", 1), ("99th percentile", 2)):
        if not {"gateway", "serve"} <= set(rounds[0]):
            break
        ratios = [it["gateway"][1, 1][place] / it["serve"][1, 1][place] for it in rounds]
        print(f"one client's {what}, gateway/serve: {statistics.median(ratios):.2f}")


if __name__ == "__main__":
    main()
