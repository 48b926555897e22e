"""Kerberos, alone and in SPNEGO, by GSSAPI (MIT's, by python3-gssapi) as DCE/RPC uses it: three
tokens, and buffers that are signed in place (MS-RPCE section 3.3.1.5.2.2, MS-KILE section
3.4.5.4)."""
from __future__ import annotations

import typing

import gssapi
from gssapi import raw as gss
from gssapi.raw import IOV, IOVBuffer, IOVBufferType

from . import pdu as wire
from .ntlm import Gate
from .security import PRIVACY, Context
from .users import Denied

_OIDS = (bytes.fromhex("06092a864886f712010202"), bytes.fromhex("06092a864882f712010202"))
_TOKENS = 5


class Acceptors:
    """The keys of a keytab."""

    def __init__(self, gate: Gate, keytab: str) -> None:
        self._gate = gate
        self._keys = gssapi.Credentials(usage="accept", store={"keytab": "FILE:" + keytab})

    @staticmethod
    def offered(token: bytes) -> bool:
        """Whether Kerberos is the first mechanism of a first token of SPNEGO, by either OID."""
        return token[:1] == b"\x60" and any(token.find(it, 0, 64) >= 0 for it in _OIDS)

    def context(self, auth: wire.Auth, headers: bool) -> "KerberosContext":
        """A new context."""
        return KerberosContext(auth, headers, self._keys, self._gate)


class KerberosContext(Context):
    """A security context of Kerberos."""

    def __init__(self, auth: wire.Auth, headers: bool, keys: typing.Any, gate: Gate) -> None:
        super().__init__(auth.kind, auth.level, auth.context)
        self.room = 96
        self._headers, self._gate = headers, gate
        self._gss = gssapi.SecurityContext(usage="accept", creds=keys)
        self._tokens = self._size = 0

    def take(self, token: bytes) -> bytes:
        self._tokens += 1
        if self.done or self._tokens > _TOKENS:
            raise Denied("a token too many")
        try:
            # (step keeps an error back if there is a token to send; complete raises it)
            answer = self._gss.step(token)
            complete = self._gss.complete
            user = str(self._gss.initiator_name) if complete else ""
        except gss.GSSError as error:
            raise Denied(" ".join(str(error).split())[:200]) from error
        if complete:
            if not self._gate.users.has_principal(user):
                raise Denied("a principal that is not in the file of users", user)
            self.user, self.done = user, True
        return answer or b""

    def open(self, whole: bytes, place: int, end: int) -> bytes:
        trailer, token = whole[end : end + wire.TRAILER.size], whole[end + wire.TRAILER.size :]
        head, data = (whole[:place], trailer) if self._headers else (b"", b""), whole[place:end]
        try:
            if self.level != PRIVACY:
                gss.verify_mic(self._gss, head[0] + data + head[1], token)
                return data
            # (MIT's library looks for the token in the first buffer alone)
            iov = IOV(
                IOVBuffer(IOVBufferType.header, False, token),
                (IOVBufferType.sign_only, head[0]),
                (IOVBufferType.data, data),
                (IOVBufferType.sign_only, head[1]),
                std_layout=False,
            )
            gss.unwrap_iov(self._gss, iov)
            return iov[2].value or b""
        except gss.GSSError as error:
            raise Denied("the signature is wrong") from error

    def close(self, flags: int, call: int, number: int, left: int, stub: bytes) -> bytes:
        pad = -len(stub) % 16
        stub += bytes(pad)
        trailer = wire.TRAILER.pack(self.kind, self.level, pad, 0, self.number)

        def head_of(token: int) -> bytes:
            size = 24 + len(stub) + wire.TRAILER.size + token
            return wire.response_head(flags, call, number, left, size, token)

        if self.level != PRIVACY:
            self._size = self._size or len(gss.get_mic(self._gss, stub))
            head = head_of(self._size)
            signed = head + stub + trailer if self._headers else stub
            return head + stub + trailer + bytes(gss.get_mic(self._gss, signed))

        def made(head: bytes) -> typing.Any:
            own = (head, trailer) if self._headers else (b"", b"")
            return IOV(
                IOVBufferType.header,
                (IOVBufferType.sign_only, own[0]),
                (IOVBufferType.data, stub),
                (IOVBufferType.sign_only, own[1]),
                std_layout=False,
            )

        if not self._size:
            # the token's length is signed; it is the same for all stubs, multiples of 16 each
            iov = made(head_of(0))
            gss.wrap_iov_length(self._gss, iov, True, None)
            self._size = len(iov[0].value)
        head = head_of(self._size)
        iov = made(head)
        gss.wrap_iov(self._gss, iov, True, None)
        return head + bytes(iov[2].value) + trailer + bytes(iov[0].value)
