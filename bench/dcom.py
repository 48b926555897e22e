#!/usr/bin/env python3
"""Gets of a long by DCOM: oaut-dcom, the gateway and the server share one processor, the clients
have the others.

    python3 bench/dcom.py [PROGRAM [CALLS [ROUNDS]]]

Defaults: PROGRAM crates/oaut/out/oaut, CALLS of each connection 2,000, ROUNDS 5. It needs the
superuser (port 135), python3-pycryptodome and a C compiler.

- socket: one client of clients/python over the gateway's socket;
- 1 and 16 connections: one process each (tests/dcom/clients/load.py), at PKT_PRIVACY;
- flood: how long the slowest of 15 clients waits for a new connection and a get, before and during
  10,000 idle connections of another address (tests/dcom/clients/flood.py).

Prints medians of the rounds: gets a second, the median and the 99th percentile of one get in
milliseconds, and the processor time of a get in all three programs.
"""
import os
import statistics
import subprocess
import sys
import tempfile
import time

ROOT = os.path.dirname(os.path.dirname(os.path.abspath(__file__)))
from command_line import words

CONNECTIONS, FLOOD = (1, 16), 10_000


def processor_time(*pids):
    """The seconds that these processes have used so far."""
    found = 0.0
    for it in pids:
        with open(f"/proc/{it}/stat") as file:
            found += sum(map(int, file.read().rpartition(")")[2].split()[11:13])) / os.sysconf(
                "SC_CLK_TCK"
            )
    return found


def over_the_socket(served, calls):
    """The rate, the median and the 99th percentile of one client without DCOM."""
    from tests.support.wire import oaut

    waits = []
    with oaut.connect(served.socket) as server:
        item = server.create("Item")
        for _ in range(calls):
            begun = time.perf_counter()
            item.Count
            waits.append(time.perf_counter() - begun)
    waits.sort()
    return calls / sum(waits), waits[calls // 2] * 1e3, waits[calls * 99 // 100] * 1e3


def over_dcom(served, connections, calls):
    """The same of so many connections."""
    from tests.dcom.dcoms import CLIENTS

    asked = [served.python, "-m", f"{CLIENTS}.load", str(connections), str(calls)]
    rate, middle, last = map(
        float,
        subprocess.run(
            asked, capture_output=True, text=True, check=True, env=served.settings()
        ).stdout.split(),
    )
    return rate, middle / 1e3, last / 1e3


def main():
    program, calls, rounds = words(__doc__, calls=2_000, rounds=5)
    os.environ["OAUT_PROGRAM"] = program
    sys.path.insert(0, ROOT)
    first, *others = sorted(os.sched_getaffinity(0))
    with tempfile.TemporaryDirectory() as room:
        subprocess.run([f"{ROOT}/clients/gateway/build.sh", room], check=True)
        os.environ["OAUT_GATEWAY"] = f"{room}/oaut-gateway"
        from tests.dcom.dcoms import CLIENTS, Served

        os.sched_setaffinity(0, {first})
        with Served() as served:
            os.sched_setaffinity(0, others or {first})
            pids = served.child.pid, served.gateway.process.pid, served.gateway.server()
            found = {}
            for _ in range(rounds):
                found.setdefault("socket", []).append((*over_the_socket(served, calls), 0.0))
                for it in CONNECTIONS:
                    before = processor_time(*pids)
                    told = over_dcom(served, it, calls)
                    found.setdefault(f"{it} connections", []).append(
                        (*told, (processor_time(*pids) - before) / (it * calls) * 1e3)
                    )
            for name, rows in found.items():
                rate, middle, last, used = (statistics.median(it) for it in zip(*rows))
                print(
                    f"{name:16} {rate:8,.0f} a second   p50 {middle:.3f} ms   p99 {last:.3f} ms"
                    + (f"   processor {used:.3f} ms" if used else "")
                )
            above = statistics.median(
                dcom[1] - socket[1] for dcom, socket in zip(found["1 connections"], found["socket"])
            )
            print(f"one get takes {above:.3f} ms more than over the gateway's socket")
            asked = [
                served.python,
                "-m",
                f"{CLIENTS}.flood",
                str(FLOOD),
                str(served.child.pid),
                "0.1",
            ]
            print(
                subprocess.run(
                    asked, capture_output=True, text=True, check=True, env=served.settings()
                ).stdout,
                end="",
            )


if __name__ == "__main__":
    main()
