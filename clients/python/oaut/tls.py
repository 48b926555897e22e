"""TLS to a server: what a session writes is encrypted, and what comes is decrypted, by a thread."""
from __future__ import annotations

import contextlib
import errno
import select
import socket
import ssl
import threading
import time

from . import forks
from .addresses import Secure, address_words, watch
from .faults import (
    CertificateExpired,
    CertificateRefused,
    ClientCertificateRefused,
    NoTls,
    TlsFailed,
    WrongHostName,
    system_failed,
)
from .framing import Framing

# the seconds that the handshake has if no timeout is given
HANDSHAKE = 20.0
_READ, _HELD = 65_536, 262_144
# the words of OpenSSL about a certificate (X509_V_ERR_..)
_NOT_YET, _EXPIRED, _WRONG_NAME, _WRONG_ADDRESS = 9, 10, 62, 64


def context_of(place: Secure) -> ssl.SSLContext:
    """The context that checks the server's certificate. Raises OSError that names a file which
    cannot be read, TlsFailed for one that is no certificate or key."""
    for path in (place.ca, place.cert, place.key):
        if path is not None:
            with open(path, "rb"):
                pass
    made = ssl.SSLContext(ssl.PROTOCOL_TLS_CLIENT)
    made.minimum_version = ssl.TLSVersion.TLSv1_2

    def password() -> str:
        raise TlsFailed(f"{place.key or place.cert}: the key is encrypted")

    try:
        if place.ca is not None:
            made.load_verify_locations(place.ca)
        else:
            made.load_default_certs()
        if place.cert is not None:
            made.load_cert_chain(place.cert, place.key, password)
    except ssl.SSLError as error:
        told = "the key is not that of the certificate"
        if error.reason != "KEY_VALUES_MISMATCH":
            told = "a file of the address is no certificate, or no key"
        raise TlsFailed(f"{address_words(place)}: {told}") from error
    return made


def connected(
    place: Secure, timeout: float | None, framing: type[Framing], asked: bytes
) -> socket.socket:
    """Returns a socket whose bytes go over TLS to a server, which has replied to a body: a
    server that refuses the client's certificate says so only after the handshake. Raises a
    TlsFailed, or another OSError."""
    context = context_of(place)
    until = time.monotonic() + (HANDSHAKE if timeout is None else timeout)
    raw = socket.create_connection((place.host, place.port), timeout)
    secure = None
    try:
        raw.setsockopt(socket.IPPROTO_TCP, socket.TCP_NODELAY, 1)
        watch(raw)
        raw.settimeout(max(0.1, until - time.monotonic()))
        try:
            secure = context.wrap_socket(raw, server_hostname=place.name or place.host)
        except (OSError, ValueError) as error:
            raise _named(error, place) from error
        try:
            secure.settimeout(None if timeout is None else max(0.1, until - time.monotonic()))
            # (of a server that has gone by now, what it has said before is still to be read)
            with contextlib.suppress(OSError):
                secure.sendall(framing.pack([asked]))
            data = b""
            while not framing.split(data, 0, 1)[0]:
                some = secure.recv(_READ)
                if not some:
                    raise system_failed(ConnectionResetError, errno.ECONNRESET, "")
                data += some
        except (TimeoutError, socket.timeout):
            raise
        except OSError as error:
            raise _refused(error, place) from error
        return Pump(secure).local
    except BaseException:
        (secure or raw).close()
        raise


def _named(error: OSError | ValueError, place: Secure) -> OSError:
    """The exception of a handshake that has failed."""
    where = address_words(place)
    if isinstance(error, ssl.SSLCertVerificationError):
        kind = {
            _EXPIRED: CertificateExpired,
            _NOT_YET: CertificateExpired,
            _WRONG_NAME: WrongHostName,
            _WRONG_ADDRESS: WrongHostName,
        }.get(error.verify_code, CertificateRefused)
        return kind(f"{where}: the server's certificate is refused: {error.verify_message}")
    if isinstance(error, (TimeoutError, socket.timeout)):
        return NoTls(f"{where}: no TLS handshake in time")
    reason = str(getattr(error, "reason", None) or "")
    if "UNRECOGNIZED_NAME" in reason:
        return WrongHostName(f"{where}: the server knows no {place.name or place.host}")
    if "ALERT" in reason:
        return _refused(error, place)
    return NoTls(f"{where}: no TLS there: {reason or error}")


def _refused(error: BaseException, place: Secure) -> OSError:
    """The exception of a server that refuses the client after the handshake."""
    where = address_words(place)
    reason = str(getattr(error, "reason", None) or "")
    if "ALERT" in reason:
        without = "" if place.cert else ", and no cert was given"
        told = reason.lower().replace("_", " ").partition("alert ")[2]
        told = f"{where}: the server refuses the client's certificate: {told}{without}"
        return ClientCertificateRefused(told)
    told = "the server closed the connection: it refuses this client, or nobody serves there"
    return system_failed(ConnectionRefusedError, errno.ECONNREFUSED, told, where)


class Pump:
    """Moves bytes between a socket of TLS and one of this process. The session has the latter, so
    that an interrupt never comes within OpenSSL."""

    def __init__(self, secure: ssl.SSLSocket) -> None:
        self.local, self._mine = socket.socketpair()
        self._secure = secure
        for it in (secure, self._mine):
            it.setblocking(False)
        forks.own(self)
        threading.Thread(target=self._run, daemon=True).start()

    def forked(self) -> None:
        """Closes the descriptors in a process that was forked from its own."""
        for it in (self._secure, self._mine):
            with contextlib.suppress(OSError, ValueError):
                it.close()

    def _run(self) -> None:
        try:
            self._move()
        except (OSError, ValueError):
            pass  # the session sees the end of its socket
        finally:
            with contextlib.suppress(OSError, ValueError):
                self._secure.unwrap()
            self._secure.close()
            self._mine.close()

    def _move(self) -> None:
        """Moves until one side has ended, and what came from it was handed on."""
        going, coming = bytearray(), bytearray()
        heard = local = True
        while True:
            # (each side is read while what it has sent can be held)
            if local and len(going) < _HELD:
                local = _take(self._mine, going)
            if heard and len(coming) < _HELD:
                heard = _take(self._secure, coming)
            _give(self._secure, going)
            _give(self._mine, coming)
            if not (heard or coming) or not (local or going):
                return
            if self._secure.pending() and len(coming) < _HELD:
                continue
            wanted = select.poll()
            for it, reads, writes in (
                (self._secure, heard and len(coming) < _HELD, going),
                (self._mine, local and len(going) < _HELD, coming),
            ):
                # (if nothing waited for it, its end would be reported again and again)
                if reads or writes:
                    mask = (select.POLLIN if reads else 0) | (select.POLLOUT if writes else 0)
                    wanted.register(it, mask)
            wanted.poll()


def _take(of: socket.socket, to: bytearray) -> bool:
    """Adds what a socket has. Gives whether more may come."""
    try:
        some = of.recv(_READ)
    except (BlockingIOError, ssl.SSLWantReadError, ssl.SSLWantWriteError):
        return True
    except ssl.SSLZeroReturnError:
        return False
    to += some
    return bool(some)


def _give(to: socket.socket, of: bytearray) -> None:
    """Writes what a socket takes."""
    try:
        while of:
            del of[: to.send(bytes(of[:_READ]))]
    except (BlockingIOError, ssl.SSLWantReadError, ssl.SSLWantWriteError):
        pass


__all__ = ["HANDSHAKE", "Pump", "connected", "context_of"]
