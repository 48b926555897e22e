"""15 clients of one address beside 10,000 idle connections of another: `flood.py CONNECTIONS PID
SECONDS`. What the slowest of them waits for may be so many seconds longer than before, or thirty
times as long on a machine where that is more."""
import multiprocessing
import socket
import sys
import threading
import time

from tests.dcom.clients.lean import *

CLIENTS = 15


def pages(pid):
    with open(f"/proc/{pid}/statm") as file:
        return int(file.read().split()[1]) // 256


def served(ref):
    """The slowest of some clients that each dial, and get a number."""
    slowest = 0
    for _ in range(CLIENTS):
        begun = time.monotonic()
        connection = Dce()
        Proxy(connection.call, ref.ipid).get(1)
        connection.close()
        slowest = max(slowest, time.monotonic() - begun)
    return slowest


def flooding(count, made):
    """Makes so many idle connections, of which 400 at most are there at once. What is measured may
    run at another priority."""
    os.sched_setscheduler(0, os.SCHED_OTHER, os.sched_param(0))
    big = wire.HEADER.pack(5, 0, 0, 1, 0x10, 5840, 0, 1) + bytes(3000)
    rows = ((RESOLVER, b""), (RESOLVER, b"\5\0\13"), (PORT, big), (PORT, b""))

    def flood(port, data):
        mine = []
        while made.value < count:
            try:
                s = socket.create_connection(
                    (HOST, port), source_address=("127.0.0.77", 0), timeout=10
                )
                s.sendall(data)
                mine.append(s)
                with made.get_lock():
                    made.value += 1
            except OSError:
                time.sleep(0.01)
            if len(mine) > 100:
                mine.pop(0).close()

    threads = [threading.Thread(target=flood, args=row) for row in rows]
    for it in threads:
        it.start()
    for it in threads:
        it.join()


def main(count, pid, longer):
    ref = create()
    before, memory = max(served(ref) for _ in range(3)), pages(pid)
    made, during, rounds = multiprocessing.Value("i", 0), 0, 0
    child = multiprocessing.Process(target=flooding, args=(count, made))
    child.start()
    while child.is_alive() or not rounds:
        during, rounds = max(during, served(ref)), rounds + 1
    child.join()
    after = pages(pid)
    tell(
        f"beside {made.value} idle connections 15 clients at a time are served",
        during < max(before + longer, 30 * before),
        (before, during, rounds),
    )
    tell("memory", after - memory < 24, (memory, after))
    print(
        f"slowest before {before * 1000:.0f} ms, during {during * 1000:.0f} ms ({rounds} rounds); "
        f"{memory} MiB, then {after} MiB",
        flush=True,
    )


if __name__ == "__main__":
    main(int(sys.argv[1]), int(sys.argv[2]), float(sys.argv[3]))
