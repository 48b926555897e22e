"""An interrupt at each step of Python that a call of the client takes: `python3 stepped.py PROGRAM
LIBRARY CALL [EVERY [FIRST]]` raises it before each opcode of the package's own frames in turn, or
each EVERYth of them, and prints as JSON how many there were and what went wrong after them."""
import contextlib
import json
import os
import sys
import tempfile
import threading

import oaut
from oaut import frames

PACKAGE = os.path.dirname(oaut.__file__)
# of sys.monitoring, which 3.12 and later have: f_trace_opcodes is heeded there by some versions
# only
_TOOL = 3


# where stores are made
ROOM = tempfile.TemporaryDirectory()


class Interrupted(BaseException):
    """What a handler of signals raises."""


def is_stepped(code):
    """Whether a function is the package's. (What a finalizer, or the callback of a weak reference,
    does is nobody's call: Python drops what it raises.)"""
    return code.co_filename.startswith(PACKAGE) and code.co_name not in ("let_go", "ended")


class Stepping:
    """Runs a call, and raises Interrupted before the opcode with the number `at`, from 0."""

    def __init__(self, at):
        self.at, self.count, self.place = at, 0, None

    def _step(self, code, line):
        self.count += 1
        if self.count > self.at and self.place is None:
            self.place = f"{os.path.basename(code.co_filename)}:{line} {code.co_name}"
            raise Interrupted

    def run(self, act):
        """Whether the call was interrupted."""
        begin, end = (
            (self._monitor, self._monitor_no_more)
            if hasattr(sys, "monitoring")
            else (self._trace, lambda: sys.settrace(None))
        )
        begin()
        try:
            act()
        except Interrupted:
            return True
        finally:
            end()
        return False

    def _trace(self):
        def called(frame, event, _):
            if not is_stepped(frame.f_code):
                return None
            frame.f_trace_opcodes, frame.f_trace_lines = True, False
            return stepped

        def stepped(frame, event, _):
            if event == "opcode":
                self._step(frame.f_code, frame.f_lineno)
            return stepped

        sys.settrace(called)

    def _monitor(self):
        monitoring, thread = sys.monitoring, threading.get_ident()

        def stepped(code, offset):
            if not is_stepped(code):
                return monitoring.DISABLE
            if threading.get_ident() == thread:
                self._step(code, offset)

        monitoring.use_tool_id(_TOOL, "steps")
        monitoring.register_callback(_TOOL, monitoring.events.INSTRUCTION, stepped)
        monitoring.set_events(_TOOL, monitoring.events.INSTRUCTION)

    def _monitor_no_more(self):
        sys.monitoring.set_events(_TOOL, 0)
        sys.monitoring.register_callback(_TOOL, sys.monitoring.events.INSTRUCTION, None)
        sys.monitoring.free_tool_id(_TOOL)


def batch(server, item, number):
    with server.batch():
        item.Count = number
        item.Name = "a"
        item.Count


def small_batches(server, item, number):
    with server.batch(2):
        for _ in range(3):
            item.Count = number


def atomic(server, item, number):
    with server.atomic():
        item.Count = number
        item.Name = "a"


def stacked(server, item, number):
    with contextlib.ExitStack() as stack:
        stack.enter_context(server.batch())
        item.Count = number


# of each name what is called: each of them is public
CALLS = {
    "put": lambda server, item, number: setattr(item, "Count", number),
    "get": lambda server, item, number: item.Count,
    "put by a key": lambda server, item, number: item.Cell.__setitem__((5, "k"), "x"),
    "put of a long text": lambda server, item, number: setattr(item, "Name", "n" * 50_000),
    "batch": batch,
    "small batches": small_batches,
    "atomic": atomic,
    "array": lambda server, item, number: (
        setattr(item, "Grid", [[1, 2]]),
        item.Grid[0, 1],
        len(item.Grid),
    ),
    "objects": lambda server, item, number: server.objects(),
    "rows": lambda server, item, number: server.to_rows("Item", "Count", "Name"),
    "dispids": lambda server, item, number: item.dispids("Cell", "Key"),
    "create and release": lambda server, item, number: server.create("Item").release(),
}


def goes_on(server, item, number):
    """What is wrong with a session: nothing where a put is there at once, and again in a batch."""
    try:
        item.Count = number
        found = item.Count
        if found != number:
            return f"a put is not there: {found!r}"
        with server.batch():
            item.Count = number + 1
            later = item.Count
        if later.value != number + 1:
            return f"a put of a batch is not there: {later.value!r}"
    except Exception as error:
        return repr(error)
    return None


def alone(program, library):
    """A session with objects in memory, and what is to be closed with it."""
    server = oaut.play(library, program=program)
    return server, server


def among_others(program, library):
    """A session in frames, and its server of many clients."""
    shared = frames.play(library, program)
    return shared.session(), shared


def in_groups(program, library):
    """The same over a store, whose server commits requests together."""
    path = f"{tempfile.mkdtemp(dir=ROOM.name)}/it.store"
    oaut.make_store(path, library, program=program, sparse=True)
    shared = frames.serve(path, library, program=program)
    return shared.session(), shared


def steps_of_call(program, library, act, every, first, begin=alone):
    """Interrupts a call of a session with objects in memory, which then has to go on."""
    found, at, steps = [], first, 0
    server, whole = begin(program, library)
    item = server.create("Item")
    act(server, item, 1)
    while True:
        stepping = Stepping(at)
        interrupted = stepping.run(lambda: act(server, item, at))
        wrong = goes_on(server, item, at)
        if wrong is not None:
            found.append(f"{at}, {stepping.place}: {wrong}")
            with contextlib.suppress(Exception):
                whole.close()
            server, whole = begin(program, library)
            item = server.create("Item")
        if not interrupted:
            break
        steps, at = steps + 1, at + every
    whole.close()
    return steps, found


def steps_of_leaving(program, library, every, first):
    """Interrupts `close()` of a session in frames: called again it ends that session alone, and its
    number is free."""
    found, at, steps = [], first, 0
    with frames.play(library, program) as shared, shared.session() as other:
        item = other.create("Item")
        while True:
            server = shared.session(7)
            server.object(item.number, "Item").Count = at
            stepping = Stepping(at)
            interrupted = stepping.run(server.close)
            try:
                server.close()
                if item.Count != at:
                    found.append(f"{at}, {stepping.place}: the other session has {item.Count!r}")
            except Exception as error:
                found.append(f"{at}, {stepping.place}: {error!r}")
            if not interrupted:
                return steps, found
            steps, at = steps + 1, at + every


def steps_of_ending(program, library, every, first):
    """Interrupts `close()` of a server of many clients: called again it ends the program."""
    found, at, steps = [], first, 0
    while True:
        shared = frames.play(library, program)
        shared.session().create("Item")
        stepping = Stepping(at)
        interrupted = stepping.run(shared.close)
        try:
            shared.close()
            if shared.child.returncode != 0:
                found.append(f"{at}, {stepping.place}: status {shared.child.returncode}")
        except Exception as error:
            found.append(f"{at}, {stepping.place}: {error!r}")
        if not interrupted:
            return steps, found
        steps, at = steps + 1, at + every


def steps_of_beginning_many(program, library, every, first):
    """Interrupts `frames.serve()`: another one begins with the store."""
    found, at, steps = [], first, 0
    with tempfile.TemporaryDirectory() as room:
        path = f"{room}/it.store"
        oaut.make_store(path, library, program=program)
        while True:
            made = []
            stepping = Stepping(at)
            interrupted = stepping.run(
                lambda: made.append(frames.serve(path, library, program=program))
            )
            try:
                with made.pop() if made else frames.serve(
                    path, library, program=program
                ) as shared, shared.session() as server:
                    server.objects()
            except Exception as error:
                found.append(f"{at}, {stepping.place}: {error!r}")
            if not interrupted:
                return steps, found
            steps, at = steps + 1, at + every


def steps_of_close(program, library, every, first):
    """Interrupts `close()`: called again it ends the session, the program and its hold of the
    store."""
    found, at, steps = [], first, 0
    with tempfile.TemporaryDirectory() as room:
        path = f"{room}/it.store"
        oaut.make_store(path, library, program=program)
        number = 0
        while True:
            server = oaut.serve(path, library, program=program)
            item = server.object(1, "Item") if number else server.create("Item")
            if number and item.Count != number:
                found.append(f"{at}: the store has {item.Count!r} and not {number}")
            number += 1
            item.Count = number
            child = server._connection.child
            stepping = Stepping(at)
            interrupted = stepping.run(server.close)
            try:
                server.close()
                if child.returncode != 0:
                    found.append(f"{at}, {stepping.place}: status {child.returncode}")
            except Exception as error:
                found.append(f"{at}, {stepping.place}: {error!r}")
            if not interrupted:
                return steps, found
            steps, at = steps + 1, at + every


def steps_of_beginning(program, library, every, first):
    """Interrupts `serve()`: another one begins a session with the store."""
    found, at, steps = [], first, 0
    with tempfile.TemporaryDirectory() as room:
        path = f"{room}/it.store"
        oaut.make_store(path, library, program=program)
        while True:
            made = []
            stepping = Stepping(at)
            interrupted = stepping.run(
                lambda: made.append(oaut.serve(path, library, program=program))
            )
            try:
                (made.pop() if made else oaut.serve(path, library, program=program)).close()
            except Exception as error:
                found.append(f"{at}, {stepping.place}: {error!r}")
            if not interrupted:
                return steps, found
            steps, at = steps + 1, at + every


def lock(server, item, number):
    with item.Grid.locked(60) as held:
        held.put_if_equal("Count", int(item.Count), number)


def update(server, item, number):
    item.update("Count", lambda count: number, lock=item.Grid, timeout=60)


def steps_of_locking(program, library, act, every, first):
    """Interrupts a block with the lock of an array: nobody has a lock after it."""
    found, at, steps = [], first, 0
    with oaut.play(library, program=program) as server:
        item = server.create("Item")
        item.Grid = [1]
        item.Grid.locked(60).__enter__().leave()
        while True:
            stepping = Stepping(at)
            interrupted = stepping.run(lambda: act(server, item, at))
            count = item.Grid.lock()
            if count != 1 or item.Grid.unlock() != 0:
                found.append(f"{at}, {stepping.place}: {count} locks")
                while item.Grid.unlock():
                    pass
            if not interrupted:
                return steps, found
            steps, at = steps + 1, at + every


def steps_without_with(program, library, act, every, first):
    """Interrupts a block, of which only the session can know that it has ended. Requests that were
    not sent are reported, with their number."""
    found, at, steps = [], first, 0
    while True:
        server = oaut.play(library, program=program)
        item = server.create("Item")
        stepping = Stepping(at)
        interrupted = stepping.run(lambda: act(server, item, 7))
        told = 0
        try:
            item.Count = 8
            with server.batch():
                item.Count = 9
                later = item.Count
            if later.value != 9:
                found.append(f"{at}, {stepping.place}: {later.value!r}")
        except RuntimeError as error:
            told = str(error)
            if "requests that were not sent" not in told:
                found.append(f"{at}, {stepping.place}: {error!r}")
        try:
            server.close()
            if told:
                found.append(f"{at}, {stepping.place}: close() says nothing of {told}")
        except oaut.NotSent as error:
            if not told or error.count < 1:
                found.append(f"{at}, {stepping.place}: {error!r}")
        if not interrupted:
            return steps, found
        steps, at = steps + 1, at + every


def main():
    program, library, name, every, first = [*sys.argv[1:], "1", "0"][:5]
    how = int(every), int(first)
    if name == "close":
        steps, found = steps_of_close(program, library, *how)
    elif name == "serve":
        steps, found = steps_of_beginning(program, library, *how)
    elif name in ("lock", "update"):
        steps, found = steps_of_locking(
            program, library, {"lock": lock, "update": update}[name], *how
        )
    elif name == "leave":
        steps, found = steps_of_leaving(program, library, *how)
    elif name == "end":
        steps, found = steps_of_ending(program, library, *how)
    elif name == "begin":
        steps, found = steps_of_beginning_many(program, library, *how)
    elif name.startswith("frames: "):
        begin = in_groups if name.endswith("atomic") else among_others
        steps, found = steps_of_call(program, library, CALLS[name[8:]], *how, begin)
    elif name == "stacked":
        steps, found = steps_without_with(program, library, stacked, *how)
    else:
        steps, found = steps_of_call(program, library, CALLS[name], *how)
    print(json.dumps({"steps": steps, "wrong": found}))


if __name__ == "__main__":
    main()
