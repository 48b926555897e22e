"""Gets over many connections at PKT_PRIVACY: `load.py CONNECTIONS CALLS`. Prints calls a second,
and the median and 99th percentile of one call in microseconds."""
import multiprocessing
import sys
import time

from tests.dcom.clients.lean import *

STUB = invoke(1, GET)


def one(ipid, calls, ready, go, found):
    connection = Dce()
    Proxy(connection.call, ipid).get(1)
    times = []
    ready.release()
    go.wait()
    for _ in range(calls):
        begun = time.perf_counter()
        connection.call(IDISPATCH, 6, ipid, STUB)
        times.append(time.perf_counter() - begun)
    found.put(times)


def main(connections, calls):
    ipid = create().ipid
    ready, go, found = (
        multiprocessing.Semaphore(0),
        multiprocessing.Event(),
        multiprocessing.Queue(),
    )
    children = [
        multiprocessing.Process(target=one, args=(ipid, calls, ready, go, found))
        for _ in range(connections)
    ]
    for it in children:
        it.start()
    for _ in children:
        ready.acquire()
    begun = time.perf_counter()
    go.set()
    times = sorted(t for _ in children for t in found.get())
    passed = time.perf_counter() - begun
    for it in children:
        it.join()
    print(
        f"{len(times) / passed:.0f} {times[len(times) // 2] * 1e6:.0f} "
        f"{times[len(times) * 99 // 100] * 1e6:.0f}"
    )


if __name__ == "__main__":
    main(int(sys.argv[1]), int(sys.argv[2]))
