"""Files that get their names once they are whole, and texts that a program refused."""
from __future__ import annotations

import contextlib
import os
import re
import tempfile
import typing

from .faults import Place, WrongValue, system_failed

Path = typing.Union[str, os.PathLike[str]]
_SYNTAX = re.compile(r"oaut: syntax at byte (\d+)")


def named(made: str, path: Path) -> None:
    """Gives the finished file `made` the name `path`, in the same folder, and brings that to the
    device. A file that is there is not replaced: FileExistsError."""
    try:
        os.link(made, path)
    except FileExistsError:
        raise
    except OSError:
        # a file system without links
        if os.path.exists(path):
            raise system_failed(FileExistsError, 17, "File exists", os.fspath(path)) from None
        os.rename(made, path)
    else:
        os.unlink(made)
    folder = os.open(os.path.dirname(os.path.abspath(path)), os.O_RDONLY)
    try:
        os.fsync(folder)
    finally:
        os.close(folder)


def not_its_own(output: Path, source: Path) -> None:
    """Raises ValueError if what is to be written is the file that is read."""
    if os.path.exists(output) and os.path.samefile(output, source):
        raise WrongValue(f"{os.fspath(output)}: that is the file itself; name another one by -o")


@contextlib.contextmanager
def beside(path: Path) -> typing.Iterator[str]:
    """A name beside a path that no file has; what has it at the end is removed."""
    folder = os.path.dirname(os.path.abspath(path))
    name = os.path.join(folder, f".oaut-{os.getpid()}-{os.urandom(4).hex()}")
    try:
        yield name
    finally:
        with contextlib.suppress(FileNotFoundError):
            os.unlink(name)


@contextlib.contextmanager
def text_file(text: bytes) -> typing.Iterator[str]:
    """The name of a file with this text, as long as it lasts."""
    with tempfile.NamedTemporaryFile(suffix=".idl") as file:
        file.write(text)
        file.flush()
        yield file.name


def place_of(fault: str | None, text: bytes, path: str) -> Place | None:
    """Returns the place of a syntax error in a text, as `oaut check --where` prints it: line and
    column from 1 on, the line, and a caret under the place. None if the error has none."""
    told = _SYNTAX.fullmatch(fault or "")
    if told is None:
        return None
    before = text[: int(told[1])].decode("utf-8", "replace")
    whole = text.decode("utf-8", "replace")
    starts = [it.end() for it in re.finditer("\r\n|\r|\n", whole) if it.end() <= len(before)]
    start = starts[-1] if starts else 0
    end = re.compile("[\r\n]|$").search(whole, start)
    line = whole[start : end.start() if end else len(whole)]
    shown = "".join("?" if it != "\t" and _is_control(it) else it for it in line)
    column = len(before) - start
    caret = "".join("\t" if it == "\t" else " " for it in shown[:column])
    return path, len(starts) + 1, column + 1, f"{shown}\n{caret}^"


def _is_control(sign: str) -> bool:
    return ord(sign) < 0x20 or 0x7F <= ord(sign) < 0xA0
