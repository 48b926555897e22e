"""A window into a store: `python3 -m oaut view STORE` serves a page that shows what it holds
(docs/guide/view.md). It needs aiohttp: `pip install oaut[view]`, or Debian's python3-aiohttp."""
from __future__ import annotations

import argparse
import asyncio
import ipaddress
import os
import signal
import sys
import tempfile
import typing

from ..addresses import Address, Secure, address_of, address_words
from ..commands import PROGRAM_HELP
from ..faults import Error
from ..programs import connect, serve
from ..session import Server
from ..watching import refuse_tls, watched_at
from .changes import Changes
from .held import Held
from .window import Window

LISTEN = "127.0.0.1:8421"


def add_words(parser: argparse.ArgumentParser) -> None:
    """The words of `python3 -m oaut view`."""
    parser.add_argument("store", metavar="STORE", nargs="?", help="File of the store")
    parser.add_argument(
        "--connect",
        metavar="ADDRESS",
        help="Server to ask: a URL, a socket's path or HOST:PORT. Default: serve STORE itself",
    )
    parser.add_argument(
        "--listen",
        metavar="HOST:PORT",
        default=LISTEN,
        help=f"Address of the page. Default: {LISTEN}",
    )
    parser.add_argument(
        "--anywhere", action="store_true", help="Allow an address that is not of the loopback"
    )
    parser.add_argument(
        "--name",
        metavar="HOST:PORT",
        action="append",
        default=[],
        help="Another name that the page is opened by; may be repeated",
    )
    parser.add_argument("--write", action="store_true", help="Let the page change values")
    parser.add_argument(
        "--metrics",
        metavar="ADDRESS",
        help="Metrics socket of a gateway to show: a path, HOST:PORT or a URL of either",
    )
    parser.add_argument(
        "--watch",
        metavar="ADDRESS",
        help="Socket of a gateway's --watch: values are read again after changes alone. "
        "Default: X.watch.sock of --connect X.sock",
    )
    parser.add_argument("--program", default="oaut", help=PROGRAM_HELP)


def run(given: argparse.Namespace) -> int:
    """`python3 -m oaut view`. Gives the exit status."""
    try:
        from . import site
    except ImportError:
        told = "the page needs aiohttp: pip install 'oaut[view]', or python3-aiohttp"
        raise Error(told) from None
    if given.store is None and given.connect is None:
        raise Error("name a STORE, or a socket by --connect")
    host, port = _address(given.listen)
    if not given.anywhere and not _is_loopback(host):
        raise Error(f"{host} is not of the loopback: --anywhere lets others reach it")
    metrics = None if given.metrics is None else _metrics_address(given.metrics)
    window = Window(_connecting(given), given.store, given.write, given.program)
    # errors of the store or the socket are raised at once, and are not shown on the page
    window.server()
    token = os.environ.get("OAUT_VIEW_TOKEN")
    hangs: list[bool] = []
    beside = site.Told(metrics, Changes(_watched(given)))
    serving = site.serve(window, host, port, token, beside, given.name, _say, hangs.append)
    try:
        asyncio.run(_until_signal(serving))
    except KeyboardInterrupt:
        pass
    if hangs == [True]:
        # its thread waits for a reply, and Python would wait for the thread
        sys.stdout.flush()
        os._exit(0)
    return 0


def _say(line: str) -> None:
    print(line, flush=True)


async def _until_signal(serving: typing.Coroutine[object, object, None]) -> None:
    task = asyncio.ensure_future(serving)
    for it in (signal.SIGINT, signal.SIGTERM):
        asyncio.get_running_loop().add_signal_handler(it, task.cancel)
    try:
        await task
    except asyncio.CancelledError:
        pass


def _address(text: str) -> tuple[str, int]:
    host, _, port = text.rpartition(":")
    if not host or not port.isdigit() or int(port) > 65_535:
        raise Error(f"no address: {text}; write HOST:PORT")
    return host.strip("[]"), int(port)


def _watched(given: argparse.Namespace) -> Address | None:
    """The address of a gateway's --watch, if there may be one."""
    try:
        own = None if given.watch is None else refuse_tls(given.watch)
        return own if given.connect is None else watched_at(address_of(given.connect), own)
    except ValueError as error:
        raise Error(str(error)) from None


def _metrics_address(text: str) -> str:
    """The path, or host and port, of a metrics socket."""
    if "://" not in text:
        return text
    try:
        found = address_of(text)
    except ValueError as error:
        raise Error(str(error)) from None
    if isinstance(found, Secure):
        raise Error(f"{text}: a metrics socket has no TLS")
    return address_words(found)


def _is_loopback(host: str) -> bool:
    try:
        return ipaddress.ip_address(host).is_loopback
    except ValueError:
        return host == "localhost"


def _connecting(given: argparse.Namespace) -> typing.Callable[[], Server]:
    """A function that begins a session: over a socket, or with the store itself."""

    def over_socket() -> Server:
        return connect(given.connect, timeout=60)

    def of_store() -> Server:
        text = Held(given.store).library()
        with tempfile.TemporaryDirectory(prefix="oaut-view-") as room:
            path = f"{room}/library.idl"
            with open(path, "w", encoding="utf-8", newline="") as file:
                file.write(text)
            server = serve(given.store, path, program=given.program)
            # (the program has read the library once it replies)
            try:
                server.library
            except Error:
                server.close()
                raise
            return server

    return of_store if given.connect is None else over_socket


__all__ = ["LISTEN", "add_words", "run"]
