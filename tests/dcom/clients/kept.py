"""16 clients that put numbers into an object each until standard input ends, while somebody kills
what serves them. What was acknowledged has to be there, the same reference has to work again, and
no lock may be left."""
import sys
import threading
import time

from oaut.wire import array_field
from tests.dcom.clients.lean import *

CLIENTS, PATIENCE = 16, 600
stop = threading.Event()
faults, acknowledged, breaks = [], [0] * CLIENTS, [0] * CLIENTS
ipids, hub = [], None


def connected():
    """A connection, as soon as there is one again."""
    until = time.monotonic() + PATIENCE
    while True:
        try:
            return Dce()
        except (OSError, Fault):
            if time.monotonic() > until:
                raise
            time.sleep(0.02)


def value_of(ipid):
    """The number in an object, as soon as somebody serves."""
    until = time.monotonic() + PATIENCE
    while True:
        connection = connected()
        try:
            return Proxy(connection.call, ipid).get(1), connection
        except (OSError, Fault):
            connection.s.close()
            if time.monotonic() > until:
                raise
            time.sleep(0.02)


def run(number):
    ipid, value = ipids[number], 0
    back = argument(orpc.Standard(struct.unpack("<Q", ipid[8:])[0], 0, ipid))
    try:
        _, connection = value_of(ipid)
        # (on a slow machine the kills may be over before each client has put something)
        while not stop.is_set() or not acknowledged[number]:
            try:
                item = Proxy(connection.call, ipid)
                item.put(1, value + 1)
                value += 1
                acknowledged[number] += 1
                if value % 5 == 0:
                    its = Proxy(connection.call, hub)
                    if its.get(7, back, "Grid") != 1:
                        faults.append(f"client {number}: another's lock")
                    its.get(8, back, "Grid")
            except (OSError, Fault):
                breaks[number] += 1
                connection.s.close()
                found, connection = value_of(ipid)
                if found not in (value, value + 1):
                    faults.append(f"client {number}: {found} after {value}")
                value = found
            except Refusal as refusal:
                faults.append(f"client {number}: {refusal}")
                return
        found, connection = value_of(ipid)
        if found != value:
            faults.append(f"client {number}: {found} at the end, after {value}")
        if Proxy(connection.call, hub).get(7, back, "Grid") != 1:
            faults.append(f"client {number}: a lock is left")
    except Exception as error:
        faults.append(f"client {number}: {type(error).__name__}: {error}")


def main():
    global hub
    grid = array_field(2, [(3, 0)], [1, 2, 3])
    for _ in range(CLIENTS):
        ref = create()
        ipids.append(ref.ipid)
        Proxy(Dce().call, ref.ipid).put(8, grid)
    hub = create(HUB).ipid
    threads = [threading.Thread(target=run, args=(it,)) for it in range(CLIENTS)]
    for it in threads:
        it.start()
    print("runs", flush=True)
    sys.stdin.read()
    stop.set()
    for it in threads:
        it.join()
    tell("no acknowledged put is lost, and no lock is left", not faults, faults[:5])
    tell("each client has put", min(acknowledged) > 0, acknowledged)
    print(f"{sum(acknowledged)} puts, {sum(breaks)} broken connections", flush=True)


if __name__ == "__main__":
    main()
