"""SPNEGO with NTLM inside it (RFC 4178, MS-SPNG)."""
from __future__ import annotations

import typing

from .ntlm import SIGNATURE, Acceptor
from .users import Denied, same

NTLM_OID = bytes.fromhex("060a2b06010401823702020a")
SPNEGO_OID = bytes.fromhex("06062b0601050502")
_COMPLETED, _INCOMPLETE, _REQUEST_MIC = 0, 1, 3


def der(tag: int, body: bytes) -> bytes:
    """An element of DER."""
    size = len(body)
    if size < 128:
        return bytes((tag, size)) + body
    return bytes((tag, 0x82, size >> 8, size & 255)) + body


def element(data: bytes) -> typing.Tuple[int, bytes, bytes]:
    """The first element of some DER: its tag, its body, and what follows it."""
    if len(data) < 2:
        raise Denied("a token is cut")
    size, at = data[1], 2
    if size & 0x80:
        at = 2 + (size & 0x7F)
        size = int.from_bytes(data[2:at], "big")
        if not 2 < at <= 5:
            raise Denied("a length is impossible")
    if size > len(data) - at:
        raise Denied("a token is cut")
    return data[0], data[at : at + size], data[at + size :]


def _fields(body: bytes) -> typing.Dict[int, bytes]:
    """The tagged fields of a sequence."""
    tag, body, _ = element(body)
    found = {}
    while tag == 0x30 and body:
        kind, value, body = element(body)
        found[kind] = value
    return found


class Negotiated:
    """An exchange in SPNEGO whose mechanism is NTLM. `mac_of` gives the MIC of the list of
    mechanisms, from the session key and whether it is the server's."""

    def __init__(
        self, inner: Acceptor, mac_of: typing.Callable[[bytes, bool, bytes], bytes]
    ) -> None:
        self.inner, self._mac_of = inner, mac_of
        self._list = b""
        # whether the exchange has ended, and whether MICs took the first number of both directions
        self.complete = self.counted = False
        self._first, self._needs_mic = True, False

    def step(self, token: bytes) -> bytes:
        """The reply to a token, as Acceptor's."""
        if token[:8] == SIGNATURE:  # some clients leave SPNEGO out
            answer, self.complete = self.inner.step(token), self.inner.complete
            return answer
        tag, body, _ = element(token)
        if self._first:
            if tag != 0x60 or not body.startswith(SPNEGO_OID):
                raise Denied("no token of SPNEGO")
            tag, body, _ = element(body[len(SPNEGO_OID) :])
        if tag != (0xA0 if self._first else 0xA1):
            raise Denied("a token out of turn")
        fields = _fields(body)
        return self._begin(fields) if self._first else self._go_on(fields)

    def _begin(self, fields: typing.Dict[int, bytes]) -> bytes:
        self._first, self._list = False, fields.get(0xA0, b"")
        if NTLM_OID not in self._list:
            raise Denied("NTLM is not among the mechanisms")
        if not element(self._list)[1].startswith(NTLM_OID) or 0xA2 not in fields:
            # another mechanism is first in the list: a MIC shows that nobody put it there
            self._needs_mic = True
            return _reply(_REQUEST_MIC, b"", b"", True)
        return _reply(_INCOMPLETE, self.inner.step(element(fields[0xA2])[1]), b"", True)

    def _go_on(self, fields: typing.Dict[int, bytes]) -> bytes:
        begun = self.inner.begun
        answer = self.inner.step(element(fields.get(0xA2, b""))[1])
        if not begun or not self.inner.complete:
            return _reply(_INCOMPLETE, answer, b"", False)
        mic = b""
        if self._needs_mic and 0xA3 not in fields:
            raise Denied("the list of mechanisms has no MIC", self.inner.user)
        if 0xA3 in fields:
            wanted = self._mac_of(self.inner.key, False, self._list)
            if not same(wanted, element(fields[0xA3])[1]):
                raise Denied("somebody changed the list of mechanisms", self.inner.user)
            mic, self.counted = self._mac_of(self.inner.key, True, self._list), True
        self.complete = True
        return _reply(_COMPLETED, b"", mic, False)


def _reply(state: int, token: bytes, mic: bytes, first: bool) -> bytes:
    body = der(0xA0, der(0x0A, bytes((state,))))
    body += der(0xA1, NTLM_OID) if first else b""
    body += der(0xA2, der(4, token)) if token else b""
    body += der(0xA3, der(4, mic)) if mic else b""
    return der(0xA1, der(0x30, body))
