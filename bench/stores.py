#!/usr/bin/env python3
"""Durable puts a second over a gateway's socket, and over TLS through HAProxy; and of 1, 2 and 4
stores at once, each with a gateway of its own.

    python3 bench/stores.py [PROGRAM [FOLDER [SECONDS [ROUNDS]]]]

Defaults: PROGRAM crates/oaut/out/oaut, FOLDER of the files the current one, SECONDS of each
measurement 1, ROUNDS of each 3. Needs haproxy, openssl and a C compiler. The ways take turns; the
clients are those of bench/load.c, each with an object of its own and one put that it waits for:

- socket: 1, 16 and 256 clients over the gateway's unix socket;
- TLS: the same over two processes of HAProxy, with a certificate on both sides: one encrypts what
  the clients send to a unix socket, the other is that of dist/lib/haproxy-stores;
- stores: 16 clients for each of 1, 2 and 4 stores at once, all over unix sockets; the rates are
  added.

Printed are the middle one of the rounds, with its median and 99th percentile of milliseconds.
"""
import contextlib
import os
import statistics
import subprocess
import sys
import tempfile

ROOT = os.path.dirname(os.path.dirname(os.path.abspath(__file__)))
sys.path.insert(0, ROOT)
from tests.support.certificates import Authority
from command_line import words
from tests.support.wire import oaut

PROGRAM, FOLDER, SECONDS, ROUNDS = words(__doc__, folder=".", seconds=1.0, rounds=3)
LIBRARY = f"{ROOT}/examples/small.idl"
CLIENTS, STORES = (1, 16, 256), (1, 2, 4)
LIST = """\
[front]
port = {port}
[items]
name = items.stores.example
hosts = 127.0.0.1
certificate = {server}
clients = {clients}
socket = {socket}
"""
CLIENT = """\
global
    maxconn 4000
defaults
    mode tcp
    timeout connect 3s
    timeout client 1h
    timeout server 1h
listen clients
    bind unix@{path}
    server stores 127.0.0.1:{port} ssl verify required ca-file {ca} crt {mine} sni \
str(items.stores.example) verifyhost items.stores.example
"""


def load(path, clients):
    return subprocess.Popen(
        ["./load", path, str(clients), "1", str(SECONDS)], stdout=subprocess.PIPE, text=True
    )


def told(child):
    out = child.communicate()[0]
    if child.returncode:
        raise SystemExit(f"bench/load.c ended with status {child.returncode}")
    return tuple(map(float, out.split()[:3]))


def wait_for(path):
    oaut.connect(path, patience=30).close()


@contextlib.contextmanager
def running(*command):
    child = subprocess.Popen(command, stdout=subprocess.DEVNULL, stderr=subprocess.DEVNULL)
    try:
        yield
    finally:
        child.terminate()
        child.wait()


@contextlib.contextmanager
def gateways(count):
    """So many gateways, each over a store with an object for each client."""
    with contextlib.ExitStack() as stack:
        for at in range(count):
            if not os.path.exists(f"{at}.store"):
                subprocess.run(
                    [PROGRAM, "format", f"{at}.store", LIBRARY],
                    check=True,
                    stdout=subprocess.DEVNULL,
                )
                with oaut.serve(
                    f"{at}.store", LIBRARY, program=PROGRAM, group=1_024
                ) as server, server.batch():
                    for _ in range(max(CLIENTS)):
                        server.create("Item")
            stack.enter_context(
                running(
                    "./oaut-gateway",
                    "--program",
                    PROGRAM,
                    "--report",
                    "0",
                    "--listen",
                    f"./{at}.sock",
                    f"{at}.store",
                )
            )
        for at in range(count):
            wait_for(f"./{at}.sock")
        yield


@contextlib.contextmanager
def tls(room, port=18_766):
    """HAProxy on both sides, as one socket."""
    servers, clients = Authority(room, "stores"), Authority(room, "clients")
    paths = {
        "server": servers.both("items", "items.stores.example"),
        "clients": clients.path,
        "socket": f"{room}/0.sock",
    }
    with open("list", "w") as file:
        file.write(LIST.format(port=port, **paths))
    subprocess.run([f"{ROOT}/dist/lib/haproxy-stores", "host", "list", "host"], check=True)
    with open("client.cfg", "w") as file:
        file.write(
            CLIENT.format(
                port=port, path=f"{room}/tls.sock", ca=servers.path, mine=clients.both("me")
            )
        )
    with running("haproxy", "-db", "-f", "host/haproxy.cfg"), running(
        "haproxy", "-db", "-f", "client.cfg"
    ):
        wait_for("./tls.sock")
        yield


def main():
    found = {}
    for _ in range(ROUNDS):
        for name, path in (("socket", "./0.sock"), ("TLS", "./tls.sock")):
            with gateways(1), tls(os.getcwd()) if name == "TLS" else contextlib.nullcontext():
                for clients in CLIENTS:
                    found.setdefault(f"{name}, {clients} clients", []).append(
                        told(load(path, clients))
                    )
        for count in STORES:
            with gateways(count):
                children = [load(f"./{at}.sock", 16) for at in range(count)]
                rates = [told(it) for it in children]
            row = sum(it[0] for it in rates), max(it[1] for it in rates), max(it[2] for it in rates)
            found.setdefault(f"{count} stores, 16 clients each", []).append(row)
    for name, rows in found.items():
        rate, middle, last = sorted(rows)[len(rows) // 2]
        print(f"{name:28} {rate:10,.0f} a second   p50 {middle:7.3f} ms   p99 {last:7.3f} ms")
    ratio = [
        statistics.median(
            tls[0] / own[0]
            for own, tls in zip(found[f"socket, {it} clients"], found[f"TLS, {it} clients"])
        )
        for it in CLIENTS
    ]
    print("TLS beside the socket:", ", ".join(f"{it:.2f}" for it in ratio))


if __name__ == "__main__":
    with tempfile.TemporaryDirectory(dir=FOLDER) as room:
        os.chdir(room)
        subprocess.run(
            ["cc", "-O2", "-Wall", "-Wextra", "-Werror", "-o", "load", f"{ROOT}/bench/load.c"],
            check=True,
        )
        subprocess.run([f"{ROOT}/clients/gateway/build.sh", room], check=True)
        main()
