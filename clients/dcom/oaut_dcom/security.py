"""Security contexts: the callers, and the signatures and seals of PDUs (MS-RPCE section
3.3.1.5.2, MS-NLMP section 3.4)."""
from __future__ import annotations

import hashlib
import struct
import typing

from Cryptodome.Cipher import ARC4

from . import ntlm
from . import pdu as wire
from .ntlm import Acceptor, Gate
from .spnego import Negotiated
from .users import Denied, same

NEGOTIATE, NTLM, KERBEROS = 9, 10, 16
SERVED = (NEGOTIATE, NTLM, KERBEROS)
INTEGRITY, PRIVACY = 5, 6
SIGNATURE = 16
_NEEDED = ntlm.SIGN | ntlm.ESS | ntlm.K128 | ntlm.KEY_EXCH
_TOKENS = 4
_BLOCK = 64  # bytes of MD5
_ZEROS = bytes(1_024)
_LONG = 256  # more bytes go to the cipher itself
_COUNT = struct.Struct("<I").pack


class Keystream:
    """RC4. Its bytes are made a thousand at a time: a call takes a hundred of them or so, in
    four parts, and each use of the library costs more than those."""

    __slots__ = ("_encrypt", "_ahead", "_at")

    def __init__(self, key: bytes) -> None:
        self._encrypt: typing.Callable[[bytes], bytes] = ARC4.new(key).encrypt
        self._ahead, self._at = b"", 0

    def cipher(self, data: bytes) -> bytes:
        """The next bytes, sealed or opened."""
        size, at = len(data), self._at
        if at + size > len(self._ahead):
            if size > _LONG:
                first = len(self._ahead) - at
                self._ahead, self._at, ahead = b"", 0, self._ahead[at:]
                return _mixed(data[:first], ahead) + self._encrypt(data[first:])
            self._ahead, at = self._ahead[at:] + self._encrypt(_ZEROS), 0
        self._at = at + size
        return _mixed(data, self._ahead[at : at + size])


def _mixed(one: bytes, other: bytes) -> bytes:
    both = int.from_bytes(one, "little") ^ int.from_bytes(other, "little")
    return both.to_bytes(len(one), "little")


class Half:
    """One direction of a session of NTLM, with keys of 128 bits."""

    __slots__ = ("cipher", "count", "_inner", "_outer")

    def __init__(self, key: bytes, who: bytes) -> None:
        magic = b"session key to " + who + b" %s key magic constant\0"
        sign = hashlib.md5(key + magic % b"signing").digest().ljust(_BLOCK, b"\0")
        sealing = hashlib.md5(key + magic % b"sealing").digest()
        self.cipher = Keystream(sealing).cipher
        self.count = 0
        # the two hashes of HMAC (RFC 2104) as far as they depend on the key alone
        self._inner = hashlib.md5(_mixed(sign, b"\x36" * _BLOCK))
        self._outer = hashlib.md5(_mixed(sign, b"\x5c" * _BLOCK))

    def mac(self, message: bytes) -> bytes:
        """The signature of the next message."""
        count = _COUNT(self.count)
        self.count = self.count + 1 & 0xFFFF_FFFF
        inner, outer = self._inner.copy(), self._outer.copy()
        inner.update(count + message)
        outer.update(inner.digest())
        return b"\1\0\0\0" + self.cipher(outer.digest()[:8]) + count


def halves(key: bytes) -> typing.Tuple[Half, Half]:
    """The direction from the client, and that to it."""
    return Half(key, b"client-to-server"), Half(key, b"server-to-client")


def list_mac(key: bytes, ours: bool, data: bytes) -> bytes:
    """The MIC of SPNEGO's list. It has number 0; the ciphers begin anew after it."""
    return halves(key)[ours].mac(data)


class Context:
    """A security context of a connection."""

    done: bool
    user: str

    def __init__(self, kind: int, level: int, number: int) -> None:
        self.kind, self.level, self.number = kind, level, number
        self.done, self.user = False, ""
        # the most bytes of a token of a response
        self.room = SIGNATURE

    def take(self, token: bytes) -> bytes:
        """Accepts the client's next token and returns the reply to it. Raises Denied."""
        raise NotImplementedError

    def open(self, whole: bytes, place: int, end: int) -> bytes:
        """Returns the bytes between an offset of a PDU and its trailer. Raises Denied if the
        signature is wrong."""
        raise NotImplementedError

    def close(self, flags: int, call: int, number: int, left: int, stub: bytes) -> bytes:
        """A response's fragment, protected."""
        raise NotImplementedError


class NtlmContext(Context):
    """NTLM, alone or in SPNEGO."""

    def __init__(self, kind: int, level: int, number: int, gate: Gate, address: str) -> None:
        super().__init__(kind, level, number)
        self._inner = Acceptor(gate, address)
        self._negotiated = None if kind == NTLM else Negotiated(self._inner, list_mac)
        self._tokens = 0

    def take(self, token: bytes) -> bytes:
        self._tokens += 1
        if self.done or self._tokens > _TOKENS:
            raise Denied("a token too many")
        outer = self._negotiated or self._inner
        answer = outer.step(token)
        if outer.complete:
            needed = _NEEDED | (ntlm.SEAL if self.level == PRIVACY else 0)
            if ~self._inner.flags & needed:
                raise Denied("no session key of 128 bits", self._inner.user)
            self.user, self.done = self._inner.user, True
            self._in, self._out = halves(self._inner.key)
            if self._negotiated is not None and self._negotiated.counted:
                self._in.count = self._out.count = 1
        return answer

    def open(self, whole: bytes, place: int, end: int) -> bytes:
        if len(whole) - end != wire.TRAILER.size + SIGNATURE:
            raise Denied("the signature has another length")
        plain = whole[place:end]
        if self.level == PRIVACY:
            plain = self._in.cipher(plain)
            signed = whole[:place] + plain + whole[end:-SIGNATURE]
        else:
            signed = whole[:-SIGNATURE]
        if not same(self._in.mac(signed), whole[-SIGNATURE:]):
            raise Denied("the signature is wrong")
        return plain

    def close(self, flags: int, call: int, number: int, left: int, stub: bytes) -> bytes:
        pad = -len(stub) % 16
        if pad:
            stub += bytes(pad)
        size = 24 + len(stub) + wire.TRAILER.size + SIGNATURE
        head = wire.response_head(flags, call, number, left, size, SIGNATURE)
        trailer = wire.TRAILER.pack(self.kind, self.level, pad, 0, self.number)
        sealed = self._out.cipher(stub) if self.level == PRIVACY else stub
        return head + sealed + trailer + self._out.mac(head + stub + trailer)


class Authority:
    """Makes security contexts: of Kerberos if there is a keytab, else of NTLM."""

    def __init__(self, gate: Gate, keytab: str = "") -> None:
        self.gate = gate
        self._kerberos: typing.Any = None
        if keytab:
            from . import kerberos  # only here is python3-gssapi needed

            self._kerberos = kerberos.Acceptors(gate, keytab)
        # the authentication services of string bindings
        self.kinds = (NEGOTIATE, NTLM, KERBEROS) if keytab else (NEGOTIATE, NTLM)

    def context(self, auth: wire.Auth, headers: bool, address: str) -> Context:
        """The context that a first token begins. `headers`: both sides sign the heads of PDUs.
        (With NTLM they always do.)"""
        if auth.level not in (INTEGRITY, PRIVACY):
            raise Denied(f"level {auth.level}, and the least is {INTEGRITY}")
        if auth.kind == KERBEROS or auth.kind == NEGOTIATE and self._kerberos_offered(auth.token):
            if self._kerberos is None:
                raise Denied("Kerberos is not served")
            made: Context = self._kerberos.context(auth, headers)
            return made
        return NtlmContext(auth.kind, auth.level, auth.context, self.gate, address)

    def _kerberos_offered(self, token: bytes) -> bool:
        return self._kerberos is not None and bool(self._kerberos.offered(token))


def answer(context: Context, token: bytes) -> typing.Optional[wire.Auth]:
    """The trailer that replies to a token, or None if there is no reply."""
    if not token:
        return None
    return wire.Auth(context.kind, context.level, 0, context.number, token)
