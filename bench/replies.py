#!/usr/bin/env python3
"""The processor time of a long reply to the Python client, and the memory of requests that a server
does not read.

    python3 bench/replies.py [PROGRAM [MIB [ROUNDS]]]

Defaults: PROGRAM crates/oaut/out/oaut, MIB of the reply 24, ROUNDS 5. Prints the least processor
time of the rounds, of the client alone: the synchronous client over a socket and over a pipe,
`oaut.aio` over a socket, and `oaut.frames` over a pipe. The reply comes from tests/client/large.py.
Then 200 puts of 1 MiB go to a program that has been stopped, by `oaut.aio`: printed is the most
memory of the client's requests.
"""
import asyncio
import contextlib
import os
import signal
import socket
import subprocess
import sys
import time
import tracemalloc

ROOT = os.path.dirname(os.path.dirname(os.path.abspath(__file__)))
from command_line import words

LARGE = f"{ROOT}/tests/client/large.py"
FULL = f"{ROOT}/examples/full.idl"
PUTS, TEXT = 200, "n" * (1 << 19)  # (two bytes a character)


@contextlib.contextmanager
def large(size, *more, pipes=False):
    """A socket, or two pipes, of a server whose list of objects has so many bytes."""
    ours, theirs = socket.socketpair()
    how = (
        {"stdin": subprocess.PIPE, "stdout": subprocess.PIPE, "bufsize": 0}
        if pipes
        else {"stdin": theirs, "stdout": theirs}
    )
    with subprocess.Popen([sys.executable, LARGE, str(size), *more], **how) as child, ours:
        theirs.close()
        yield (child.stdout, child.stdin) if pipes else (ours,)


def main():
    program, mib, rounds = words(__doc__, mib=24, rounds=5)
    sys.path.insert(0, f"{ROOT}/clients/python")
    import oaut
    from oaut import aio, frames

    size, asked, found = mib << 20, [oaut.records.ask_list()], {}

    def note(name, begun, body):
        if len(body) != size:
            raise SystemExit(f"{name}: the reply has {len(body)} bytes")
        found[name] = min(found.get(name, 1e9), time.process_time() - begun)

    async def awaited(sock):
        server = await aio.connect(sock)
        for _ in range(rounds):
            begun = time.process_time()
            note("oaut.aio over a socket", begun, (await server.exchange(asked))[0])
        await server.close()

    for over in ("a socket", "a pipe"):
        with large(size, pipes=over == "a pipe") as ways, oaut.connect(*ways) as server:
            for _ in range(rounds):
                begun = time.process_time()
                note(f"the synchronous client over {over}", begun, server.exchange(asked)[0])
    with large(size) as ways:
        asyncio.run(awaited(*ways))
    with large(size, "--frames", pipes=True) as ways, frames.Shared(
        *ways
    ) as shared, shared.session() as server:
        for _ in range(rounds):
            begun = time.process_time()
            note("oaut.frames over a pipe", begun, server.exchange(asked)[0])
    for name, seconds in found.items():
        beside = found[f"the synchronous client over {name.rpartition('over ')[2]}"]
        print(f"{name}: {seconds * 1e3:.0f} ms, {seconds / beside:.2f} of the synchronous client")

    async def unread():
        ours, theirs = socket.socketpair()
        with theirs, subprocess.Popen(
            [program, "play", FULL], stdin=theirs, stdout=theirs
        ) as child:
            server = await aio.connect(ours)
            item = await server.create("Item")
            os.kill(child.pid, signal.SIGSTOP)
            tracemalloc.start()
            tasks = [asyncio.ensure_future(item.put("Name", TEXT)) for _ in range(PUTS)]
            await asyncio.sleep(2)
            _, most = tracemalloc.get_traced_memory()
            tracemalloc.stop()
            os.kill(child.pid, signal.SIGCONT)
            await asyncio.gather(*tasks)
            await server.close()
        return most

    print(
        f"{PUTS} puts of 1 MiB that nobody reads: at most {asyncio.run(unread()) / (1 << 20):.1f} "
        "MiB"
    )


if __name__ == "__main__":
    main()
