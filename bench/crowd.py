#!/usr/bin/env python3
"""How long one client's durable put takes over a gateway beside others that ask for much.

    python3 bench/crowd.py [PROGRAM [FOLDER [SECONDS [ROUNDS]]]]

Defaults: PROGRAM crates/oaut/out/oaut, FOLDER of the files the current one, SECONDS of each
measurement 3, ROUNDS 3. Beside the client there are:

- nobody;
- 15 clients that each get a text of 1 MB, again and again, as processes of their own;
- 15 clients of bench/load.c with 64 puts in flight each;
- 50, then 200 clients that each ask for 40 texts of 50 KB at once and read nothing.

Prints the median, the 99th percentile and the longest of all rounds, in milliseconds. Then one
client asks for 40 texts of 1 MB at once after 40 short replies, and reads 5 MB a second: printed is
how much of them arrives.
"""
import contextlib
import os
import resource
import socket
import struct
import subprocess
import sys
import tempfile
import time

ROOT = os.path.dirname(os.path.dirname(os.path.abspath(__file__)))
sys.path.insert(0, ROOT)
from tests.support import wire
from command_line import words
from tests.support.wire import oaut

LIBRARY = f"{ROOT}/examples/full.idl"
COUNT, NAME = 1, 2  # members of an Item
LONG, SHORT = 1, 2  # the objects with a text of 1 MB, and with one of 50 KB
PLACE = bytearray(1 << 18)


def record(body):
    return struct.pack("<I", len(body) + 4) + struct.pack("<I", 7) + body


def get(number, member=NAME):
    return record(oaut.ask_invoke(number, member, oaut.PROPERTYGET, [], []))


def put(number, value):
    return record(
        oaut.ask_invoke(
            number, COUNT, oaut.PROPERTYPUT, [oaut.NEW_VALUE], [wire.scalar(wire.I4, value)]
        )
    )


def dialled():
    sock = socket.socket(socket.AF_UNIX)
    sock.connect("./gateway.sock")
    return sock


def hear(sock):
    """Reads a reply and returns its length."""
    head = b""
    while len(head) < 4:
        some = sock.recv(4 - len(head))
        if not some:
            raise EOFError
        head += some
    left = struct.unpack("<I", head)[0]
    while left:
        size = sock.recv_into(PLACE, min(left, len(PLACE)))
        if not size:
            raise EOFError
        left -= size
    return struct.unpack("<I", head)[0]


def read_again_and_again():
    with dialled() as sock:
        asked = get(LONG)
        while True:
            sock.sendall(asked)
            hear(sock)


@contextlib.contextmanager
def children(count, *command):
    found = [
        subprocess.Popen(command, stdout=subprocess.DEVNULL, stderr=subprocess.DEVNULL)
        for _ in range(count)
    ]
    try:
        yield
    finally:
        for it in found:
            it.kill()
            it.wait()


@contextlib.contextmanager
def silent(count):
    """Clients that read nothing. Their requests may have to wait as well."""
    with contextlib.ExitStack() as stack:
        for _ in range(count):
            sock = stack.enter_context(dialled())
            sock.setblocking(False)
            with contextlib.suppress(BlockingIOError):
                sock.send(get(SHORT) * 40)
        yield


def waits(seconds):
    """The milliseconds of each put of one client."""
    found = []
    with dialled() as sock:
        until = time.perf_counter() + seconds
        while (begun := time.perf_counter()) < until or not found:
            sock.sendall(put(3, len(found)))
            hear(sock)
            found.append((time.perf_counter() - begun) * 1e3)
    return found


def slow_reader():
    """How much of 40 MB comes to a client that reads 5 MB a second, and in which time."""
    with dialled() as sock:
        sock.sendall(get(3, COUNT) * 40)
        for _ in range(40):
            hear(sock)
        sock.sendall(get(LONG) * 40)
        begun, got = time.perf_counter(), 0
        while got < 40_000_000 and (size := sock.recv_into(PLACE, 50_000)):
            got += size
            time.sleep(max(0.0, begun + got / 5e6 - time.perf_counter()))
        return got, time.perf_counter() - begun


def main(program, seconds, rounds):
    resource.setrlimit(resource.RLIMIT_NOFILE, (resource.getrlimit(resource.RLIMIT_NOFILE)[1],) * 2)
    subprocess.run(
        ["cc", "-O2", "-Wall", "-Wextra", "-Werror", "-o", "load", f"{ROOT}/bench/load.c"],
        check=True,
    )
    subprocess.run([f"{ROOT}/clients/gateway/build.sh", "."], check=True)
    subprocess.run([program, "format", "it.store", LIBRARY], check=True, stdout=subprocess.DEVNULL)
    with oaut.serve("it.store", LIBRARY, program=program) as server, server.batch():
        for at in range(16):
            item = server.create("Item")
            if at < 2:
                item.Name = "n" * (500_000, 25_000)[at]
    ways = {
        "nobody": contextlib.nullcontext,
        "15 that get 1 MB": lambda: children(15, sys.executable, __file__, "--read"),
        "15 that flood": lambda: children(1, "./load", "./gateway.sock", "15", "64", "600"),
        "50 that read nothing": lambda: silent(50),
        "200 that read nothing": lambda: silent(200),
    }
    found = {}
    for _ in range(rounds):
        for name, way in ways.items():
            with subprocess.Popen(
                [
                    "./oaut-gateway",
                    "--program",
                    program,
                    "--report",
                    "0",
                    "--listen",
                    "./gateway.sock",
                    "it.store",
                ]
            ) as child:
                oaut.connect("./gateway.sock", patience=30).close()
                with way():
                    time.sleep(0.3 if name != "nobody" else 0)
                    found.setdefault(name, []).extend(waits(seconds))
                if name == "nobody":
                    got, took = slow_reader()
                child.terminate()
    for name, times in found.items():
        times.sort()
        count = len(times)
        print(
            f"beside {name:22} p50 {times[count // 2]:8.3f} ms   p99 "
            f"{times[count * 99 // 100]:8.3f} ms   longest {times[-1]:8.1f} ms   ({count:,} puts)"
        )
    print(f"a client that reads 5 MB a second gets {got / 1e6:.0f} MB in {took:.1f} s")


if __name__ == "__main__":
    if sys.argv[1:] == ["--read"]:
        read_again_and_again()
    else:
        program, folder, seconds, rounds = words(__doc__, folder=".", seconds=3.0, rounds=3)
        with tempfile.TemporaryDirectory(dir=folder) as room:
            os.chdir(room)
            main(program, seconds, rounds)
