"""The program oaut-dcom."""
from __future__ import annotations

import argparse
import asyncio
import contextlib
import errno
import getpass
import os
import signal
import socket
import sys
import time
import typing

from oaut.addresses import address_of
from oaut.faults import ProtocolError
from oaut.library import Library

from . import registry
from .codes import Refused
from .identity import Identity, IdentityFault, store_words
from .ntlm import Gate
from .objects import Exporter, Settings, ask_library
from .security import Authority
from .server import Limits, Log, Server
from .store import Answered, Client
from .users import Throttle, Users, UsersFault, nt_hash

RESOLVER_PORT, EXPORTER_PORT = 135, 13135
_WAIT = 10.0  # seconds for the gateway to serve
_SYSTEMD_FIRST = 3  # the first socket that systemd passes

_USAGE = """oaut-dcom --gateway SOCKET --users FILE [OPTION..]
       oaut-dcom hash USER
       oaut-dcom reg --gateway SOCKET --server HOST --name NAME [--remove]
       oaut-dcom --version"""


class Fault(Exception):
    """An error that ends the program, and its status."""

    def __init__(self, text: str, status: int = 1) -> None:
        super().__init__(text)
        self.status = status


def version() -> str:
    """The version of the package, `0` for one that was not packed."""
    try:
        path = os.path.join(os.path.dirname(os.path.abspath(__file__)), "VERSION")
        with open(path, encoding="ascii") as file:
            return file.read().strip()
    except OSError:
        return "0"


class _Parser(argparse.ArgumentParser):
    def error(self, message: str) -> typing.NoReturn:
        raise Fault(message, 2)


def _socket(address: str) -> str:
    """The path of a socket, also of a URL oaut+unix:///path."""
    try:
        found = address_of(address) if "://" in address else address
    except ValueError as error:
        raise Fault(str(error), 2) from None
    if not isinstance(found, str):
        raise Fault(f"{address}: write the path of a socket", 2)
    return found


def _serve_options(words: typing.Sequence[str]) -> argparse.Namespace:
    of = _Parser("oaut-dcom", usage=_USAGE, description="A DCOM server of a store.")
    of.add_argument(
        "--gateway", metavar="SOCKET", required=True, type=_socket, help="the gateway's socket"
    )
    of.add_argument("--watch", metavar="SOCKET", default="", type=_socket, help="its --watch")
    of.add_argument("--users", metavar="FILE", required=True, help="who may come: USER:HASH lines")
    of.add_argument("--listen", metavar="ADDRESS", action="append", help="default: 127.0.0.1")
    of.add_argument("--port", metavar="N", type=int, default=EXPORTER_PORT, help="default: 13135")
    of.add_argument("--resolver-port", metavar="N", type=int, default=RESOLVER_PORT)
    of.add_argument("--name", metavar="HOST", action="append", help="default: the host's name")
    of.add_argument("--domain", metavar="NAME", default="OAUT", help="default: OAUT")
    of.add_argument("--keytab", metavar="FILE", default="", help="Kerberos with these keys")
    of.add_argument("--state", metavar="FILE", default="", help="keeps references over restarts")
    of.add_argument("--store", metavar="FILE", default="", help="the store that --state is of")
    of.add_argument("--privacy", action="store_true", help="only sealed calls")
    of.add_argument("--script", action="store_true", help="values and refusals for scripts")
    of.add_argument("--connections", metavar="N", type=int, default=Limits().connections)
    of.add_argument("--groups", metavar="N", type=int, default=Limits().groups)
    of.add_argument("--memory", metavar="MIB", type=int, default=Limits().memory >> 20)
    of.add_argument("--idle", metavar="S", type=float, default=Limits().idle)
    given = of.parse_args(words)
    for name in ("port", "resolver_port"):
        if not 0 <= getattr(given, name) < 65_536:
            raise Fault(f"--{name.replace('_', '-')}: a port is from 0 to 65535", 2)
    if min(given.connections, given.groups) < 1 or given.memory < 8 or given.idle <= 0:
        raise Fault("a limit is too small", 2)
    for it in given.name or []:
        if not registry.is_host(it):
            raise Fault(f"--name {ascii(it)}: a host's name", 2)
    return given


def _setter(found: "asyncio.Future[typing.Optional[bytes]]") -> Answered:
    def answered(reply: typing.Optional[bytes]) -> None:
        if not found.done():
            found.set_result(reply)

    return answered


async def _library(path: str) -> Library:
    """The library of the gateway's store. Raises Fault."""
    until, loop = time.monotonic() + _WAIT, asyncio.get_running_loop()
    while True:
        client = Client(path)
        try:
            steps = ask_library()
            request = next(steps)
            while True:
                found: "asyncio.Future[typing.Optional[bytes]]" = loop.create_future()
                assert isinstance(request, bytes)
                client.ask(request, _setter(found))
                reply = await asyncio.wait_for(found, _WAIT)
                if reply is None:
                    break
                request = steps.send(reply)
        except StopIteration as stop:
            library = typing.cast(Library, stop.value)
            if not library.interfaces or not library.coclasses:
                raise Fault(f"{path}: the store has no coclass") from None
            return library
        except Refused as refused:
            raise Fault(f"{path}: the store refuses to describe its library: {refused}")
        except (ProtocolError, asyncio.TimeoutError) as error:
            raise Fault(f"{path} is no shared socket of a gateway that serves") from error
        finally:
            client.end()
        if time.monotonic() > until:
            raise Fault(f"{path}: no gateway serves there")
        await asyncio.sleep(0.2)


def _systemd_sockets() -> typing.List[socket.socket]:
    """The listening sockets that systemd passes."""
    if os.environ.get("LISTEN_PID") != str(os.getpid()):
        return []
    count = os.environ.get("LISTEN_FDS", "")
    if not count.isdigit():
        return []
    made = []
    for number in range(_SYSTEMD_FIRST, _SYSTEMD_FIRST + int(count)):
        os.set_inheritable(number, False)
        made.append(socket.socket(fileno=number))
    return made


def _bound(address: str, port: int) -> socket.socket:
    family = socket.AF_INET6 if ":" in address else socket.AF_INET
    sock = socket.socket(family, socket.SOCK_STREAM)
    try:
        sock.setsockopt(socket.SOL_SOCKET, socket.SO_REUSEADDR, 1)
        if family == socket.AF_INET6:
            sock.setsockopt(socket.IPPROTO_IPV6, socket.IPV6_V6ONLY, 1)
        sock.bind((address, port))
        sock.listen(128)
    except (OSError, UnicodeError) as error:
        sock.close()
        why = getattr(error, "strerror", None) or "no address"
        raise Fault(f"{ascii(address)} port {port}: {why}") from error
    return sock


def _sockets(given: argparse.Namespace) -> typing.List[typing.Tuple[socket.socket, bool]]:
    """The listening sockets, and whether each is the well-known port's."""
    found = _systemd_sockets()
    if found:
        ports = [it.getsockname()[1] for it in found]
        marked = [(it, port == given.resolver_port) for it, port in zip(found, ports)]
        exporters = {port for port in ports if port != given.resolver_port}
        if len(exporters) != 1 or given.resolver_port not in ports:
            raise Fault(f"systemd passes no sockets of port {given.resolver_port} and one other", 2)
        return marked
    made: typing.List[typing.Tuple[socket.socket, bool]] = []
    port = given.port
    for address in given.listen or ["127.0.0.1"]:
        made.append((_bound(address, given.resolver_port), True))
        made.append((_bound(address, port), False))
        port = made[-1][0].getsockname()[1]  # of port 0 the same for all addresses
    return made


def _notify(text: str) -> None:
    """Notifies systemd, if it has started this."""
    path = os.environ.get("NOTIFY_SOCKET", "")
    if not path:
        return
    with contextlib.suppress(OSError), socket.socket(socket.AF_UNIX, socket.SOCK_DGRAM) as sock:
        sock.connect("\0" + path[1:] if path.startswith("@") else path)
        sock.send(text.encode())


async def _serve(given: argparse.Namespace) -> None:
    log = Log()
    gate = Gate(given.domain, Users(given.users), Throttle())
    authority = _authority(gate, given.keytab)
    identity = Identity(given.state, store_words(given.store) if given.store else "")
    for it in identity.notes:
        log.note(it)
    library = await _library(given.gateway)
    sockets = _sockets(given)
    port = next(it.getsockname()[1] for it, resolver in sockets if not resolver)
    settings = Settings(
        port=port,
        hosts=given.name or [socket.gethostname()],
        scripts=given.script,
        level=6 if given.privacy else 5,
        kinds=authority.kinds,
        align_8=bool(os.environ.get("OAUT_DCOM_ALIGN_8")),
    )
    exporter = Exporter(identity, library, settings)
    limits = Limits(
        connections=given.connections,
        per_user=max(given.connections // 4, 1),
        groups=given.groups,
        groups_per_user=max(given.groups // 2, 1),
        memory=given.memory << 20,
        idle=given.idle,
    )
    ports = (given.resolver_port, port)
    server = Server(
        given.gateway, exporter, authority, limits, ports, log, given.store, given.watch
    )
    listening = [server.listen(sock, resolver) for sock, resolver in sockets]
    ended = asyncio.Event()
    loop = asyncio.get_running_loop()
    for name in (signal.SIGTERM, signal.SIGINT):
        loop.add_signal_handler(name, ended.set)
    sweeping = asyncio.ensure_future(server.run())
    log.note(f"serves port {given.resolver_port} and port {port}")
    _notify("READY=1")
    await ended.wait()
    _notify("STOPPING=1")
    sweeping.cancel()
    for one in listening:
        one.close()


def _authority(gate: Gate, keytab: str) -> Authority:
    try:
        return Authority(gate, keytab)
    except ImportError as error:
        raise Fault("--keytab needs python3-gssapi") from error
    except Exception as error:
        # (gssapi's own classes are there only if the package is)
        raise Fault(f"--keytab {keytab}: {error}") from error


def _open_streams() -> None:
    """Opens /dev/null for standard streams that are closed, so that no socket gets their number."""
    number = os.open(os.devnull, os.O_RDWR)
    while number <= 2:
        number = os.open(os.devnull, os.O_RDWR)
    os.close(number)
    if sys.stderr is None:
        sys.stderr = open(os.devnull, "w")


def _print(text: str) -> None:
    """Prints a text, all of it. Raises Fault."""
    try:
        if sys.stdout is None:
            raise OSError(errno.EBADF, os.strerror(errno.EBADF))
        print(text, flush=True)
    except OSError as error:
        # (what was not written is not to be tried again at the end)
        os.dup2(os.open(os.devnull, os.O_WRONLY), 1)
        raise Fault(f"standard output: {error.strerror}") from error


def _hash(words: typing.Sequence[str]) -> None:
    """oaut-dcom hash USER: a line for the file of users, from a password that is typed."""
    of = _Parser("oaut-dcom hash", usage=_USAGE)
    of.add_argument("user")
    user = of.parse_args(words).user
    if not user or ":" in user or not user.isprintable() or user != user.strip():
        raise Fault(f"{ascii(user)}: a user's name has no colon and no blank at its ends", 2)
    if sys.stdin is None:
        raise Fault("the password is read from standard input, which is closed")
    if sys.stdin.isatty():
        password = getpass.getpass("Password: ")
        if password != getpass.getpass("Again: "):
            raise Fault("two different passwords")
    else:
        password = sys.stdin.readline().rstrip("\n")
    if not password:
        raise Fault("an empty password")
    try:
        hashed = nt_hash(password)
    except UnicodeError:
        raise Fault("the password is no text") from None
    _print(f"{user}:{hashed.hex()}")


def _reg(words: typing.Sequence[str]) -> None:
    """oaut-dcom reg: the .reg file of the clients."""
    of = _Parser("oaut-dcom reg", usage=_USAGE)
    of.add_argument("--gateway", required=True, type=_socket)
    of.add_argument("--server", required=True)
    of.add_argument("--name", required=True)
    of.add_argument("--remove", action="store_true")
    given = of.parse_args(words)
    if not registry.is_name(given.name):
        raise Fault("--name: a letter, then letters, digits and _, 39 at most", 2)
    if not registry.is_host(given.server):
        raise Fault("--server: a host's name or address", 2)
    library = asyncio.run(_library(given.gateway))
    _print(registry.file_of(library, given.name, given.server, given.remove))


def main(words: typing.Optional[typing.Sequence[str]] = None) -> int:
    """The program. Returns its status: 1 for a file, a socket or the gateway, 2 for the command
    line."""
    words = list(sys.argv[1:] if words is None else words)
    _open_streams()
    try:
        if words[:1] == ["--version"]:
            _print(f"oaut-dcom {version()}")
        elif words[:1] == ["hash"]:
            _hash(words[1:])
        elif words[:1] == ["reg"]:
            _reg(words[1:])
        else:
            asyncio.run(_serve(_serve_options(words)))
    except Fault as fault:
        print(f"oaut-dcom: {fault}", file=sys.stderr)
        return fault.status
    except (UsersFault, IdentityFault) as fault:
        print(f"oaut-dcom: {fault}", file=sys.stderr)
        return 1
    except KeyboardInterrupt:
        return 130
    return 0
