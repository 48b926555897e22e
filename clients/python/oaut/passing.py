"""The program's own commands by the name of the tools: `oaut-tools serve STORE`."""
from __future__ import annotations

import os
import select
import subprocess
import sys
import typing

from .programs import PROGRAM, Starting, words_of_program

# the program's commands, what each does, and its options
COMMANDS = {
    "play": ("Runs `oaut play`: a server with objects in memory", "--hex --shared"),
    "serve": ("Runs `oaut serve`: a server of a store", "--group --hex --shared"),
    "format": ("Runs `oaut format`: makes a store, or empties one", "--bank"),
    "upgrade": ("Runs `oaut upgrade`: brings a store of format 1 to format 2", "--bank"),
    "dump": ("Runs `oaut dump`: prints a store's objects, by the program", "--library"),
    "check": ("Runs `oaut check`: checks a library", "--where"),
}
_CLOSED = b"oaut: write fault\n"


def run(words: typing.Sequence[str]) -> int:
    """Runs the program with these words. Gives its exit status."""
    with Starting(PROGRAM):
        command = [*words_of_program(PROGRAM), *words]
        if words[0] != "dump":
            sys.stdout.flush()
            os.execvp(command[0], command)
        done = subprocess.run(command, stderr=subprocess.PIPE, check=False)
    if done.returncode == 1 and done.stderr == _CLOSED and _is_closed(1):
        # the reader of the output has closed it, which is no error
        return 141
    sys.stderr.buffer.write(done.stderr)
    sys.stderr.flush()
    return done.returncode if done.returncode >= 0 else 128 - done.returncode


def _is_closed(descriptor: int) -> bool:
    """Whether nobody reads a pipe any more."""
    if not hasattr(select, "poll"):
        return False
    poll = select.poll()
    poll.register(descriptor, select.POLLERR)
    return any(event & select.POLLERR for _, event in poll.poll(0))
