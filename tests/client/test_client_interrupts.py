"""An interrupt before each opcode of the client's public calls, on this Python and on each other
one that is installed: the session goes on, and nothing that was put afterwards is lost without an
exception."""
import glob
import json
import os
import random
import subprocess
import sys

from tests.client.clients import ENVIRONMENT, FULL, PROGRAM, ROOT, ClientCases, oaut
from tests.client.stepped import CALLS, Stepping, goes_on

STEPPED = f"{ROOT}/tests/client/stepped.py"
OTHERS = (
    "put",
    "batch",
    "small batches",
    "atomic",
    "put of a long text",
    "stacked",
    "close",
    "lock",
    "update",
    "frames: put",
    "frames: batch",
    "end",
)


def pythons():
    """The other interpreters of this machine that the client supports, each by its version."""
    found = {}
    for path in sorted(
        glob.glob("/usr/bin/python3.[0-9]*")
        + glob.glob(os.path.expanduser("~/.pyenv/versions/*/bin/python3"))
    ):
        if path.endswith("-config"):
            continue
        words = [path, "-c", "import sys; print('%d.%d' % sys.version_info[:2])"]
        said = subprocess.run(words, capture_output=True, text=True, check=False).stdout.strip()
        if (
            said
            and tuple(map(int, said.split("."))) >= (3, 9)
            and tuple(map(int, said.split("."))) != sys.version_info[:2]
        ):
            found[said] = path
    return found


class Interrupts(ClientCases):
    def stepped(self, name, every=1, python=sys.executable, least=400):
        words = [
            python,
            STEPPED,
            PROGRAM,
            FULL,
            name,
            str(every),
            str(random.Random(name).randrange(every)),
        ]
        done = subprocess.run(
            words, env=ENVIRONMENT, capture_output=True, text=True, check=False, timeout=600
        )
        self.same(
            f"{name} by {os.path.basename(python)}: its end",
            (done.returncode, done.stderr),
            (0, ""),
        )
        told = json.loads(done.stdout)
        self.tell(f"{name}: there are steps", told["steps"] > least // every, told["steps"])
        self.same(f"{name}: what went wrong", told["wrong"], [])

    def test_each_step_of_a_call(self):
        for name in CALLS:
            self.stepped(name, 1 if name in ("batch", "atomic") else 5)

    def test_each_step_of_a_block_without_with(self):
        """Nobody knows that such a block has ended: what it kept from being sent is told by its
        number."""
        self.stepped("stacked", 3)

    def test_each_step_of_closing(self):
        self.stepped("close", 3)

    def test_each_step_of_a_block_with_a_lock(self):
        """Nobody has the lock afterwards."""
        self.stepped("lock", 5)
        self.stepped("update", 3)

    def test_steps_of_beginning(self):
        self.stepped("serve", 197)

    def test_each_step_of_a_call_among_many_clients(self):
        for name in CALLS:
            self.stepped(f"frames: {name}", 1 if name in ("put", "atomic") else 5)

    def test_each_step_of_the_end_of_many_clients(self):
        """Of one client, and of the server of all."""
        self.stepped("leave", 3)
        self.stepped("end", 3, least=100)

    def test_steps_of_beginning_with_many_clients(self):
        self.stepped("begin", 29, least=250)

    def test_other_pythons(self):
        for version, python in pythons().items():
            for name in OTHERS:
                self.stepped(name, 23, python, 100)

    def test_an_interrupt_that_the_block_swallows(self):
        """Within a batch's own sending: its end says how many requests had no reply."""
        with oaut.play(FULL, program=PROGRAM) as server:
            item = server.create("Item")
            send, kinds = oaut.Batch.send, []

            def interrupted(self):
                oaut.Batch.send = send
                self.taken()
                raise KeyboardInterrupt

            try:
                with server.batch(2):
                    item.Count = 1
                    oaut.Batch.send = interrupted
                    try:
                        item.Count = 2
                    except KeyboardInterrupt:
                        kinds.append("swallowed")
                    item.Count = 3
            except oaut.NotSent as error:
                kinds.append((error.count, str(error)))
            told = (
                "2 requests had no reply: an interrupt came while a batch sent them, so each is "
                "executed or not"
            )
            self.same("what the block's end raises", kinds, ["swallowed", (2, told)])
            self.same("the session goes on", goes_on(server, item, 4), None)

    def test_a_batch_that_is_left_open_is_told_by_close(self):
        server = oaut.play(FULL, program=PROGRAM)
        item = server.create("Item")
        block = server.batch()
        block.__enter__()
        item.Count = 1
        with self.subTest("the next batch"):
            self.raises(
                "it says how many",
                RuntimeError,
                lambda: server.batch().__enter__(),
                "this session has a batch already, with 1 requests that were not sent",
            )
        told = (
            "1 requests of a batch were not sent: the session was closed before the batch had ended"
        )
        self.raises("close() says how many", oaut.NotSent, server.close, told, count=1)
        server.close()

    def test_a_block_in_a_suspended_generator_is_open(self):
        with oaut.play(FULL, program=PROGRAM) as server:
            item = server.create("Item")

            def suspended():
                with server.batch():
                    yield

            turns = suspended()
            next(turns)
            item.Count = 7
            later = item.Count
            self.raises("it was not sent", RuntimeError, lambda: later.value)
            next(turns, None)
            self.same("it was sent at the block's end", int(later.value), 7)

    def test_steps_are_those_of_the_package(self):
        """Of the tool itself: an interrupt before a step that does not come is none."""
        self.same("no interrupt", Stepping(1_000_000).run(lambda: oaut.I2(5)), False)
        self.same("an interrupt", Stepping(0).run(lambda: oaut.I2(5)), True)
