"""The tools: `oaut-tools`, or `python3 -m oaut`. A prompt over a session, records in words, a
library's stubs and one to start from, what a store's file holds, and the program's own commands."""
from __future__ import annotations

import argparse
import contextlib
import os
import signal
import sys
import threading
import types
import typing

from . import __version__, commands, completing, importing, passing, tail, view
from .commands import PROGRAM_HELP
from .faults import Error, SystemFailed
from .framing import FRAMING, FRAMINGS

_EPILOG = """\
The commands that run `oaut` take its words: `oaut-tools dump --help`. `dump STORE` is the program's
dump of a store that nothing serves; `store dump STORE` prints the same without the program, with
--live also of a store that is served, and with --json what `store restore` reads."""


def name() -> str:
    """The name by which the tools were started."""
    called = os.path.basename(sys.argv[0] or "")
    return "oaut-tools" if called.startswith("oaut-tools") else "python3 -m oaut"


def parser() -> argparse.ArgumentParser:
    """The words of the command line."""
    made = argparse.ArgumentParser(
        prog=name(),
        description="Tools for a server of automation objects and for what it keeps.",
        epilog=_EPILOG,
    )
    made.add_argument("--version", action="version", version=f"oaut {__version__}")
    words = made.add_subparsers(dest="command", required=True, metavar="COMMAND")

    def command(called: str, does: str) -> argparse.ArgumentParser:
        return words.add_parser(called, help=does, description=does)

    talk = command("talk", "Opens a prompt over a session of `oaut play` or `oaut serve`")
    talk.add_argument("library", metavar="LIB", nargs="?", help="Library. Default: the store's own")
    talk.add_argument(
        "--store", metavar="STORE", help="Store that keeps the objects. Default: memory"
    )
    talk.add_argument(
        "--connect",
        metavar="ADDRESS",
        help="Server to talk to: a URL, a socket's path or HOST:PORT. Default: start one",
    )
    talk.add_argument(
        "--batch",
        metavar="FILE",
        help="Take the commands of a file (- is standard input), and stop at the first that fails",
    )
    talk.add_argument("-v", "--verbose", action="store_true", help="Print each record's bytes")
    talk.add_argument(
        "--framing",
        choices=sorted(FRAMINGS),
        default=FRAMING,
        help=f"Form of the records. Default: {FRAMING}",
    )

    told = command("decode", "Prints records in words, replies by the requests before them")
    told.add_argument(
        "files", metavar="FILE", nargs="*", help="Files of records. Default: standard input"
    )
    told.add_argument(
        "--framing",
        choices=sorted(FRAMINGS),
        default="lines",
        help="Form of the records. Default: lines",
    )

    stubs = command(
        "stubs", "Writes a library's coclasses and members as a .pyi, for editors and type checkers"
    )
    stubs.add_argument("library", metavar="LIB", help="Library")
    stubs.add_argument(
        "-o", "--output", metavar="FILE", help="File to write. Default: standard output"
    )
    new = command("new", "Prints the text of a library to start from, with GUIDs of its own")
    new.add_argument("name", metavar="NAME", help="Name of the coclass")
    importing.add_words(command("import", "Writes the library of a MIDL text"))
    commands.add_words(command("store", "Reads a store's file, and makes copies, dumps and stores"))
    view.add_words(command("view", "Serves a page that shows what a store holds"))
    tail.add_words(command("tail", "Prints requests and replies as they pass through a gateway"))
    shell = command("completion", "Prints the completion of a shell")
    shell.add_argument("shell", choices=["bash"], nargs="?", default="bash", help="Default: bash")
    for it in (talk, stubs):
        it.add_argument("--program", default="oaut", help=PROGRAM_HELP)
    for called, (does, _) in passing.COMMANDS.items():
        words.add_parser(called, help=does, add_help=False)
    return made


class Signalled(BaseException):
    """A signal that ends the process, once what was begun is cleaned up."""


@contextlib.contextmanager
def ended_by_signals() -> typing.Iterator[None]:
    """Has SIGHUP and SIGTERM raise Signalled, so that no file that was begun is left."""

    def end(number: int, _: types.FrameType | None) -> None:
        raise Signalled(number)

    before = {}
    if threading.current_thread() is threading.main_thread():
        for called in ("SIGHUP", "SIGTERM"):
            number = getattr(signal, called, None)
            # (what nohup ignores stays ignored)
            if number is not None and signal.getsignal(number) is signal.SIG_DFL:
                before[number] = signal.signal(number, end)
    try:
        yield
    finally:
        for number, handler in before.items():
            signal.signal(number, handler)


def main(words: typing.Sequence[str] | None = None) -> int:
    """The tools. Gives the exit status."""
    words = sys.argv[1:] if words is None else words
    try:
        if words and words[0] in passing.COMMANDS:
            return passing.run(words)
        with ended_by_signals():
            return _run(words)
    except BrokenPipeError:
        # the reader of the output has closed it: end by the signal, as other tools do
        _no_output()
        return 128 + 13
    except KeyboardInterrupt:
        return 128 + 2
    except Signalled as ended:
        return 128 + int(ended.args[0])
    except (Error, OSError, ValueError) as error:
        print(f"{name()}: {_told(error)}", file=sys.stderr)
        try:
            sys.stdout.flush()
        except OSError:
            _no_output()
        return 1


def run_as_command() -> typing.NoReturn:
    """The console script `oaut-tools`."""
    sys.exit(main())


def _run(words: typing.Sequence[str]) -> int:
    made = parser()
    given = made.parse_args(words)
    if given.command == "talk":
        if given.connect is None and given.library is None and given.store is None:
            made.error("talk takes LIB, --store STORE or --connect ADDRESS")
        if given.connect is not None and (given.library, given.store) != (None, None):
            made.error("talk --connect takes no LIB and no --store: the server has its own")
    return COMMANDS[given.command](given)


def _talk(given: argparse.Namespace) -> int:
    from . import talk

    return talk.run(
        given.library,
        given.store,
        given.program,
        given.framing,
        given.batch,
        given.verbose,
        given.connect,
    )


def _decode(given: argparse.Namespace) -> int:
    from .decode import run

    return run(given.files, given.framing)


def _stubs(given: argparse.Namespace) -> int:
    from . import stubs

    return stubs.run(given.library, given.output, given.program)


def _new(given: argparse.Namespace) -> int:
    from .starting import library_text

    print(library_text(given.name), end="")
    return 0


def _completion(_: argparse.Namespace) -> int:
    print(completing.script(parser()), end="")
    return 0


COMMANDS: dict[str, typing.Callable[[argparse.Namespace], int]] = {
    "talk": _talk,
    "decode": _decode,
    "stubs": _stubs,
    "new": _new,
    "import": importing.run,
    "store": commands.run,
    "view": view.run,
    "tail": tail.run,
    "completion": _completion,
}


def _told(error: Exception) -> str:
    """Describes an error, for a file with its name and the system's message."""
    own = isinstance(error, Error) and not isinstance(error, SystemFailed)
    if own or not isinstance(error, OSError) or not error.strerror:
        return str(error)
    name = error.filename
    return (
        f"{os.fsdecode(name)}: {error.strerror}"
        if isinstance(name, (str, bytes))
        else error.strerror
    )


def _no_output() -> None:
    """Has the end of the process write nothing more to standard output."""
    os.dup2(os.open(os.devnull, os.O_WRONLY), 1)


if __name__ == "__main__":
    sys.exit(main())
