"""Addresses of servers: the path of a socket, host and port, or a URL.

    oaut+unix:///run/oaut/items.sock
    oaut://localhost:8765
    oauts://items.stores.example:8766?ca=ca.pem&cert=me.pem&key=me.key

A byte of a path, a host or a value may be written as % and two hexadecimal digits, as usual.
"""
from __future__ import annotations

import contextlib
import errno
import os
import re
import socket
import typing
import urllib.parse

from .faults import TlsFailed, WrongValue, system_failed
from .paths import Path

# the ports of a URL that names none
PORT, TLS_PORT = 8765, 8766
_HOST_AND_PORT = re.compile(r"(\[[^]/]+\]|[^:/]+):([0-9]{1,5})")
_SCHEME = re.compile(r"([a-z][a-z0-9+.-]*)://", re.IGNORECASE)
_ESCAPED = re.compile(r"%(?![0-9A-Fa-f]{2})")
_PARTS = ("ca", "cert", "key", "name")
# after 5 s of silence of the other machine, the system probes three times, every 5 s; data that was
# sent has to be acknowledged in 20
_WATCH = (
    ("TCP_KEEPIDLE", 5),
    ("TCP_KEEPINTVL", 5),
    ("TCP_KEEPCNT", 3),
    ("TCP_USER_TIMEOUT", 20_000),
)


class Secure(typing.NamedTuple):
    """A server after TLS. `ca` is a file of certificates that may sign the server's. Default: the
    system's. `cert` and `key` are the client's own. `name` is the name that the client requests and
    that the server's certificate has to have. Default: the host."""

    host: str
    port: int
    ca: str | None = None
    cert: str | None = None
    key: str | None = None
    name: str | None = None


# the path of a socket of this machine, host and port, also in one text: "localhost:8765"; or a URL
Address = typing.Union[Path, tuple[str, int], Secure]


def address_of(given: Address) -> Address:
    """An address as it is dialled. A text is a URL, or host and port unless a file has this name,
    or else a path. Raises ValueError for a URL that is none of these."""
    if not isinstance(given, str):
        return given
    scheme = _SCHEME.match(given)
    if scheme is not None:
        return _of_url(scheme[1].lower(), given)
    found = _HOST_AND_PORT.fullmatch(given)
    if found is None or int(found[2]) > 65_535 or os.path.exists(given):
        return given
    return found[1].strip("[]"), int(found[2])


def _of_url(scheme: str, url: str) -> Address:
    def wrong(what: str) -> ValueError:
        return WrongValue(f"{url}: {what}")

    def plain(text: str) -> str:
        """A part without its escapes."""
        if _ESCAPED.search(text):
            raise wrong("% needs two hexadecimal digits after it")
        found = urllib.parse.unquote(text, errors="surrogateescape")
        if "\0" in found:
            raise wrong("no part has the byte 0")
        return found

    if scheme not in ("oaut+unix", "oaut", "oauts"):
        raise wrong("write oaut+unix:///path, oaut://HOST:PORT or oauts://HOST:PORT")
    rest = url.partition("://")[2]
    if "#" in rest:
        raise wrong("an address has no #: write it as %23")
    rest, _, query = rest.partition("?")
    host, slash, path = rest.partition("/")
    if scheme == "oaut+unix":
        if host or not path or query:
            raise wrong("write oaut+unix:///path, with the path of a socket")
        return plain(slash + path)
    if path:
        raise wrong("an address has no path after host and port")
    place = re.fullmatch(r"(\[[^]\[]+\]|[^:@\[\]]+)(?::([0-9]{1,5}))?", host)
    if place is None or int(place[2] or 0) > 65_535:
        raise wrong(f"write {scheme}://HOST:PORT")
    name = plain(place[1].strip("[]"))
    if scheme == "oaut":
        if query:
            raise wrong("only oauts:// has certificates")
        return name, int(place[2] or PORT)
    parts: dict[str, str] = {}
    for part in query.split("&") if query else []:
        key, is_given, value = part.partition("=")
        if key not in _PARTS or not is_given or not value or key in parts:
            raise wrong(f"{part}: write {', '.join(_PARTS)}, each once and with a value")
        parts[key] = plain(value)
    if "key" in parts and "cert" not in parts:
        raise wrong("key is that of cert, which is missing")
    return Secure(name, int(place[2] or TLS_PORT), **parts)


def address_words(address: Address) -> str:
    """An address in words."""
    if isinstance(address, Secure):
        host = f"[{address.host}]" if ":" in address.host else address.host
        return f"oauts://{host}:{address.port}"
    return ":".join(map(str, address)) if isinstance(address, tuple) else os.fspath(address)


@contextlib.contextmanager
def naming(address: Address) -> typing.Iterator[None]:
    """Has what is raised while an address is dialled name that address."""
    try:
        yield
    except TlsFailed:
        raise
    except UnicodeError:
        told = "not a host's name: each of its parts has 1 to 63 characters"
        raise system_failed(
            socket.gaierror, socket.EAI_NONAME, told, address_words(address)
        ) from None
    except OSError as error:
        if error.errno is None:
            told = str(error) or "timed out"
            raise type(error)(errno.ETIMEDOUT, told, address_words(address)) from None
        if error.filename is None:
            error.filename = address_words(address)
        raise


def watch(sock: socket.socket) -> None:
    """Makes the system notice within some 20 seconds that the other machine is gone, as far as
    it can. Otherwise a caller that waits for a reply of it would wait forever."""
    sock.setsockopt(socket.SOL_SOCKET, socket.SO_KEEPALIVE, 1)
    for name, value in _WATCH:
        if hasattr(socket, name):
            with contextlib.suppress(OSError):
                sock.setsockopt(socket.IPPROTO_TCP, getattr(socket, name), value)


__all__ = ["Address", "Secure", "address_of", "address_words", "naming", "watch"]
