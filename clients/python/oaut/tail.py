"""Requests and replies as they pass through the gateway: `oaut-gateway tail`, or `python3 -m oaut
tail`."""
from __future__ import annotations

import argparse
import collections
import json
import time
import typing

from .decode import reply_words, request_words
from .faults import CODES, Error, ProtocolError, SessionEnded, WrongValue
from .files import Json
from .programs import dialled
from .records import OPCODES
from .watching import LONGEST


def add_words(parser: argparse.ArgumentParser) -> None:
    """The words of `python3 -m oaut tail`."""
    parser.add_argument("control", metavar="CONTROL", help="Control socket of the gateway")
    parser.add_argument("--client", type=int, metavar="N", help="Only requests of this client")
    parser.add_argument(
        "--opcode", metavar="WORD", help=f"Only these requests: {', '.join(OPCODES.values())}"
    )
    parser.add_argument("--code", metavar="CODE", help="Only replies with this code, as E_FAIL")
    parser.add_argument("--refused", action="store_true", help="Only requests that were refused")
    parser.add_argument(
        "--slow", type=float, metavar="MS", help="Only requests that took so many milliseconds"
    )
    parser.add_argument("--count", type=int, metavar="N", help="End after so many lines")


class Filter(typing.NamedTuple):
    """Which exchanges are printed."""

    client: int | None = None
    opcode: int | None = None
    code: int | None = None
    refused: bool = False
    slow: float | None = None

    def takes(self, client: int, opcode: int | None, code: int, took: float | None) -> bool:
        """Whether an exchange is printed."""
        if self.client is not None and client != self.client:
            return False
        if self.opcode is not None and opcode != self.opcode:
            return False
        if self.code is not None and code != self.code or self.refused and not code:
            return False
        return self.slow is None or took is not None and took * 1e3 >= self.slow


def code_of(word: str) -> int:
    """A code by its name or number."""
    for code, kind in CODES.items():
        if kind.name == word:
            return code
    if word == "S_OK":
        return 0
    try:
        return int(word, 0)
    except ValueError:
        raise WrongValue(f"{word} is no code") from None


def opcode_of(word: str) -> int:
    """An opcode by its name or number."""
    for opcode, name in OPCODES.items():
        if name == word.upper() or str(opcode) == word:
            return opcode
    raise WrongValue(f"{word} is no request: {', '.join(OPCODES.values())}")


class Exchanges:
    """Lines of the gateway, as lines of words: a reply belongs to its client's oldest request."""

    def __init__(self, filter: Filter) -> None:
        self._filter = filter
        self._asked: dict[int, typing.Deque[tuple[bytes, float, int | None, str]]] = {}

    def read(self, line: bytes) -> str | None:
        """The words of a line, if it completes an exchange that is printed."""
        try:
            told: Json = json.loads(line)
            if not isinstance(told, dict):
                raise ProtocolError("no object of JSON")
            if "lost" in told:
                self._asked.clear()
                return f"# {int(told['lost'])} lines were lost: the gateway is faster than this"
            if "client" not in told:
                return None
            client, at = int(told["client"]), float(told["time"])
            body = bytes.fromhex(told["request"] if "request" in told else told["reply"])
            is_whole = len(body) == int(told["bytes"])
        except (LookupError, TypeError, ValueError, AttributeError, RecursionError) as error:
            raise ProtocolError(f"no line of a tail: {line[:100]!r}") from error
        if "request" in told:
            asked = self._asked.setdefault(client, collections.deque())
            tag = body[:4] if len(body) >= 8 else bytes(4)
            asked.append((tag, at, *_request(body, is_whole, int(told["bytes"]))))
            return None
        took, opcode, words = None, None, "?"
        waiting = self._asked.get(client)
        # (what has no reply is left of a client that has gone)
        while waiting and any(it[0] == body[:4] for it in waiting):
            tag, begun, opcode, words = waiting.popleft()
            if tag == body[:4]:
                took = at - begun
                break
        code = int.from_bytes(body[4:8], "little")
        if not self._filter.takes(client, opcode, code, took):
            return None
        clock = time.strftime("%H:%M:%S", time.localtime(at)) + f"{at % 1:.6f}"[1:]
        long = "" if took is None else f" ({took * 1e3:.3f} ms)"
        reply = _reply(body, opcode, is_whole, int(told["bytes"]))
        return f"{clock} client {client} {words} -> {reply}{long}"


def _request(body: bytes, is_whole: bool, size: int) -> tuple[int | None, str]:
    opcode = int.from_bytes(body[4:6], "little") if len(body) >= 8 else None
    try:
        if is_whole:
            return opcode, request_words(body)
    except Error:
        return opcode, f"no request {body.hex()}"
    name = OPCODES.get(opcode or 0, f"opcode {opcode}")
    return opcode, f"request {int.from_bytes(body[:4], 'little')}: {name} of {size} bytes"


def _reply(body: bytes, opcode: int | None, is_whole: bool, size: int) -> str:
    try:
        told = reply_words(body if is_whole else body[:16], opcode)
    except Error:
        return f"no reply {body.hex()}"
    return told if is_whole else f"{told}, {size - 16} bytes"


def lines(control: str, timeout: float | None = None) -> typing.Iterator[bytes]:
    """The lines of a gateway's control socket, to its end."""
    sock = dialled(control, 10)
    with sock, sock.makefile("rb") as file:
        sock.settimeout(timeout)
        sock.sendall(b"tail\n")
        first = file.readline(LONGEST)
        if first != b"{}\n":
            raise SessionEnded("the gateway refuses it: it is one of before, or too many tail it")
        while line := file.readline(LONGEST):
            yield line


def run(given: argparse.Namespace) -> int:
    """Prints what passes, until the gateway ends."""
    filter = Filter(
        given.client,
        None if given.opcode is None else opcode_of(given.opcode),
        None if given.code is None else code_of(given.code),
        given.refused,
        given.slow,
    )
    exchanges, count = Exchanges(filter), 0
    for line in lines(given.control):
        words = exchanges.read(line)
        if words is None:
            continue
        print(words, flush=True)
        count += 1
        if count == given.count:
            break
    return 0
