#!/usr/bin/env python3
"""Times a single put from Python beside redis-py's SET to a local Redis, in turns, one client each:
each figure is the best of five rounds.

    python3 bench/beside_redis.py [PROGRAM [PUTS]]

Defaults: PROGRAM crates/oaut/out/oaut, PUTS 10,000. Both keep what they get in memory alone: `oaut
play` over its pipes, `redis-server` over TCP on localhost, as redis-py connects by itself. It needs
redis-server and redis-py (Debian: redis-server, python3-redis).
"""
import contextlib
import os
import socket
import subprocess
import sys
import tempfile
import time

ROOT = os.path.dirname(os.path.dirname(os.path.abspath(__file__)))
ROUNDS = 5


@contextlib.contextmanager
def local_redis():
    """A client of a Redis that keeps nothing on a disk."""
    import redis

    with socket.create_server(("127.0.0.1", 0)) as free:
        port = free.getsockname()[1]
    with tempfile.TemporaryDirectory() as room:
        words = [
            "redis-server",
            "--port",
            str(port),
            "--bind",
            "127.0.0.1",
            "--save",
            "",
            "--appendonly",
            "no",
            "--dir",
            room,
        ]
        with subprocess.Popen(words, stdout=subprocess.DEVNULL) as child:
            try:
                client = redis.Redis(port=port)
                for _ in range(500):
                    with contextlib.suppress(redis.ConnectionError):
                        client.ping()
                        break
                    time.sleep(0.02)
                yield client
            finally:
                child.terminate()


def rate(count, act):
    """How many of an act a second there are."""
    begun = time.perf_counter()
    for number in range(count):
        act(number)
    return count / (time.perf_counter() - begun)


def main():
    sys.path[:0] = [f"{ROOT}/clients/python", ROOT, f"{ROOT}/bench"]
    import oaut
    from command_line import words

    program, puts = words(__doc__, puts=10_000)
    with oaut.play(f"{ROOT}/examples/small.idl", program=program) as server, local_redis() as other:
        item = server.create("Item")

        def put(number):
            item.Count = number

        found = [
            (rate(puts, put), rate(puts, lambda number: other.set("count", number)))
            for _ in range(ROUNDS)
        ]
    ours, theirs = (max(it) for it in zip(*found))
    print(
        f"a put: {ours:,.0f} a second; redis-py's SET: {theirs:,.0f} a second; "
        f"{100 * ours / theirs:.0f} %"
    )
    print("in the rounds:", ", ".join(f"{100 * one / two:.0f} %" for one, two in found))


if __name__ == "__main__":
    main()
