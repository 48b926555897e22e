"""Sessions of a process over its forks: in the child each use raises SessionInUse, and the parent
goes on. OAUT_FORKS is how many rounds there are."""
import asyncio
import json
import os
import socket
import subprocess
import sys
import time

from oaut import I4, aio, frames
from tests.client.clients import ENVIRONMENT, FULL, PROGRAM, ROOT, ClientCases, oaut
from tests.client.forked import forked, used

ROUNDS = int(os.environ.get("OAUT_FORKS", "40"))


def child_of(act):
    """A child that does something, and then waits until it is killed."""
    child = os.fork()
    if not child:
        try:
            act()
            time.sleep(300)
        finally:
            os._exit(0)
    return child


class Forks(ClientCases):
    def rounds(self, way, count, seen):
        words = [sys.executable, f"{ROOT}/tests/client/forked.py", way, PROGRAM, FULL, str(count)]
        done = subprocess.run(
            words, env=ENVIRONMENT, capture_output=True, text=True, check=False, timeout=800
        )
        self.same(f"{way}: its end", (done.returncode, done.stderr), (0, ""))
        self.same(
            f"{way}: no wrong value in {count} rounds",
            json.loads(done.stdout),
            {"wrong": [], "seen": seen},
        )

    def test_os_fork(self):
        self.rounds("os.fork", ROUNDS, ["SessionInUse, closed"])

    def test_multiprocessing(self):
        for way in ("fork", "forkserver", "spawn"):
            self.rounds(way, max(3, ROUNDS // 10), [] if way == "fork" else ["TypeError: True"])

    def test_a_server_that_preloads(self):
        self.rounds("preload", max(3, ROUNDS // 10), ["SessionInUse, closed, read 5"])

    def test_the_parent_closes_while_a_child_lives(self):
        """The child has none of the descriptors, so the program sees the end of its input."""
        server = oaut.play(FULL, program=PROGRAM)
        item = server.create("Item")
        child = child_of(lambda: None)
        try:
            item.Count = 7
            begun = time.monotonic()
            server.close()
            self.tell(
                "it does not wait for the child",
                time.monotonic() - begun < 60,
                time.monotonic() - begun,
            )
        finally:
            os.kill(child, 9)
            os.waitpid(child, 0)

    def test_a_fork_within_a_batch(self):
        with oaut.play(FULL, program=PROGRAM) as server:
            item = server.create("Item")
            with server.batch():
                item.Count = 7
                said = forked(lambda: used(server, item, os.getppid()))
            self.same("the child's use", said, "SessionInUse, closed")
            self.same("the parent's batch was sent", item.Count, I4(7))

    def test_a_session_over_a_socket(self):
        ours, theirs = socket.socketpair()
        with ours, theirs, subprocess.Popen(
            [PROGRAM, "play", FULL], stdin=theirs, stdout=theirs
        ) as child:
            theirs.close()
            with oaut.connect(ours, timeout=60) as server:
                item = server.create("Item")
                self.same(
                    "the child's use",
                    forked(lambda: used(server, item, os.getppid())),
                    "SessionInUse, closed",
                )
                item.Count = 7
                self.same("the parent's", item.Count, I4(7))
            ours.close()
            child.wait(300)

    def test_frames(self):
        with frames.play(FULL, PROGRAM, timeout=60) as shared:
            one = shared.session()
            item = one.create("Item")

            def in_child():
                said = [used(one, item, os.getppid())]
                for act in (shared.session, shared.now, shared.stream):
                    try:
                        act()
                        said.append("began")
                    except oaut.SessionInUse as error:
                        said.append(error.process == os.getppid())
                shared.close()
                return said

            self.same(
                "the child's uses", forked(in_child), "['SessionInUse, closed', True, True, True]"
            )
            item.Count = 7
            self.same("the parent's", item.Count, I4(7))
            one.close()

    def test_aio(self):
        async def main():
            async with aio.play(FULL, program=PROGRAM) as server:
                item = await server.create("Item")

                async def in_child():
                    try:
                        said = f"read {await item.get('Count')!r}"
                    except oaut.SessionInUse as error:
                        said = str(error.process == os.getppid())
                    await server.close()
                    return said

                said = forked(lambda: asyncio.run(in_child()))
                await item.put("Count", 7)
                return said, await item.get("Count")

        self.same("the child's use and the parent's", asyncio.run(main()), ("True", I4(7)))
