"""The server's side of NTLM version 2 (MS-NLMP sections 3.2 and 3.3.2). The domain that a client
gives is part of its proof and has no other meaning."""
from __future__ import annotations

import hmac
import secrets
import struct
import time

from Cryptodome.Cipher import ARC4

from .users import Denied, Throttle, Users, same, upper

UNICODE, REQUEST_TARGET, SIGN, SEAL, NTLM, ANONYMOUS = 1, 4, 0x10, 0x20, 0x200, 0x800
ALWAYS_SIGN, TARGET_SERVER, ESS, TARGET_INFO = 0x8000, 0x2_0000, 0x8_0000, 0x80_0000
VERSION, K128, KEY_EXCH, K56 = 0x200_0000, 0x2000_0000, 0x4000_0000, 0x8000_0000
_TAKEN = (
    UNICODE | REQUEST_TARGET | SIGN | SEAL | NTLM | ALWAYS_SIGN | ESS | VERSION | K128 | KEY_EXCH
) | K56
SIGNATURE = b"NTLMSSP\0"
_MOST = 8_192
_MIC = 72  # the place of the MIC in an AUTHENTICATE
_EPOCH = 116_444_736_000_000_000  # of 1970, in units of 100 ns since 1601


def mac(key: bytes, data: bytes) -> bytes:
    """HMAC-MD5."""
    return hmac.digest(key, data, "md5")


class Gate:
    """Everything that decides on users: the server's name, the file of users, and the throttle."""

    def __init__(self, name: str, users: Users, throttle: Throttle) -> None:
        self.name, self.users, self.throttle = name.upper(), users, throttle


class Acceptor:
    """One exchange: NEGOTIATE, CHALLENGE, AUTHENTICATE."""

    def __init__(self, gate: Gate, address: str) -> None:
        self._gate, self._address = gate, address
        self._negotiate = self._nonce = self._sent = b""
        self.user, self.key, self.flags, self.complete = "", b"", 0, False

    @property
    def begun(self) -> bool:
        """Whether the CHALLENGE was sent."""
        return bool(self._sent)

    def step(self, token: bytes) -> bytes:
        """The reply to a token, empty after the last one. Raises Denied."""
        if len(token) > _MOST or token[:8] != SIGNATURE or len(token) < 16 or self.complete:
            raise Denied("no token of NTLM")
        kind, flags = struct.unpack_from("<II", token, 8)
        if kind == 1 and not self._sent:
            return self._challenge(token, flags)
        if kind == 3 and self._sent:
            self._authenticate(token)
            return b""
        raise Denied("a token out of turn")

    def _challenge(self, token: bytes, flags: int) -> bytes:
        self._negotiate, self._nonce = token, secrets.token_bytes(8)
        name = self._gate.name.encode("utf-16-le")
        now = struct.pack("<Q", int(time.time() * 10_000_000) + _EPOCH)
        pairs = [(2, name), (1, name), (4, name), (3, name), (7, now), (0, b"")]
        info = b"".join(struct.pack("<HH", kind, len(it)) + it for kind, it in pairs)
        flags = flags & _TAKEN | TARGET_SERVER | TARGET_INFO
        head = struct.pack("<8sIHHI", SIGNATURE, 2, len(name), len(name), 56)
        head += struct.pack("<I8s8xHHI", flags, self._nonce, len(info), len(info), 56 + len(name))
        self._sent = head + b"\x06\1\0\0\0\0\0\x0f" + name + info
        return self._sent

    def _authenticate(self, token: bytes) -> None:
        if len(token) < 64:
            raise Denied("a token is cut")

        def field(at: int) -> bytes:
            size, _, place = struct.unpack_from("<HHI", token, at)
            if place + size > len(token):
                raise Denied("a token is cut")
            return token[place : place + size]

        answer, domain, user, wrapped = field(20), field(28), field(36), field(52)
        (self.flags,) = struct.unpack_from("<I", token, 60)
        name = user.decode("utf-16-le", "replace")
        if self.flags & ANONYMOUS or not user:
            raise Denied("anonymous")
        if len(answer) < 16 + 28:
            raise Denied("NTLM version 1", name)
        pause = self._gate.throttle.wait(self._address, name)
        if pause:
            raise Denied(f"too many wrong passwords; the next one counts in {pause:.0f} s", name)
        hashed = self._gate.users.hash_of(name)
        proof = b""
        for spelled in dict.fromkeys((upper(name), name.upper())):  # impacket has the second form
            # (an unknown user takes as long as a known one)
            key = mac(hashed or bytes(16), spelled.encode("utf-16-le") + domain)
            proof = mac(key, self._nonce + answer[16:])
            if same(proof, answer[:16]):
                break
        if not same(proof, answer[:16]) or hashed is None:
            self._gate.throttle.failed(self._address, name)
            raise Denied("an unknown user or a wrong password", name)
        base = mac(key, proof)
        exchanged = self.flags & KEY_EXCH and len(wrapped) == 16
        self.key = bytes(ARC4.new(base).decrypt(wrapped)) if exchanged else base
        if _has_mic(answer[44:]):
            clean = token[:_MIC] + bytes(16) + token[_MIC + 16 :]
            wanted = mac(self.key, self._negotiate + self._sent + clean)
            if not same(wanted, token[_MIC : _MIC + 16]):
                raise Denied("somebody changed the tokens", name)
        self._gate.throttle.came(self._address, name)
        self.user, self.complete = upper(name), True


def _has_mic(pairs: bytes) -> bool:
    """Whether the client's pairs say that its token has a MIC."""
    at = 0
    while at + 4 <= len(pairs):
        kind, size = struct.unpack_from("<HH", pairs, at)
        if kind == 6 and size == 4 and at + 8 <= len(pairs):
            return bool(pairs[at + 4] & 2)
        if not kind:
            break
        at += 4 + size
    return False
