"""A connection: its PDUs, its presentation and security contexts, and its calls under way.

Calls of one connection run at once, and each reply is sent when it is ready (PFC_CONC_MPX of C706
chapter 12). When the most calls are running, further ones wait in the socket."""
from __future__ import annotations

import asyncio
import contextlib
import socket
import struct
import typing

from . import pdu, security, verify
from .calls import FOR_NOBODY
from .codes import (
    FAULT_ACCESS_DENIED,
    FAULT_BAD_OPNUM,
    FAULT_BAD_STUB,
    FAULT_CALL_FAILED,
    FAULT_NO_MEMORY,
    FAULT_SERVER_UNAVAILABLE,
    FAULT_UNKNOWN_INTERFACE,
    RPC_E_DISCONNECTED,
    BadOpnum,
    Refused,
)
from .ndr import Bad, Reader
from .store import Client, Gone
from .users import Denied, UsersFault, shown
from .watch import Wait

if typing.TYPE_CHECKING:
    from .server import Group, Server

# a call's bytes: a record's limit and what an Invoke has beside its arguments
CALL_LIMIT = 4_194_304 + 65_536
NOBODY_LIMIT = 16_384
# of a connection; the oldest goes if there are more
PRESENTATION_CONTEXTS, SECURITY_CONTEXTS = 64, 16
# of a connection: calls that run at once, and calls whose last fragment has not come
RUNNING, PARTIAL = 16, 4
REFUSED = 16  # tokens of a connection that may be refused
_QUICKACK = getattr(socket, "TCP_QUICKACK", 0)
_AHEAD = 65_536  # bytes of the next PDUs while a call is under way
_LARGE = 65_536  # a response of more bytes counts as memory until the client has received it

_TURN = 64  # PDUs that are taken before other connections have their turn

Request = typing.Union[bytes, Wait]
Steps = typing.Generator[Request, bytes, bytes]


def _nothing() -> None:
    pass


class Call:
    """A call whose first fragment has come. `parts` are its fragments, which `owner` holds, or
    None if there is no memory for them. `steps` is set while it runs, and `forget` ends a wait."""

    __slots__ = ("number", "head", "context", "begun", "owner", "size", "parts", "steps", "forget")

    def __init__(
        self,
        number: int,
        head: pdu.Request,
        context: typing.Optional[security.Context],
        begun: float,
        owner: str,
    ) -> None:
        self.number, self.head, self.context, self.begun = number, head, context, begun
        self.owner, self.size = owner, 0
        self.parts: typing.Optional[bytearray] = bytearray()
        self.steps: typing.Optional[Steps] = None
        self.forget: typing.Callable[[], None] = _nothing


class Connection(asyncio.Protocol):
    """One client's connection."""

    def __init__(
        self, server: "Server", resolver: bool, first: bytes = b"", made: float = 0.0
    ) -> None:
        """`first` has come since it was made, before it had a transport."""
        self.server, self.resolver, self._first = server, resolver, first
        self.peer = self.address = self.block = ""
        self.user = ""
        self.group: typing.Optional[Group] = None
        self._number = 0  # of the association group, 0 before the bind
        self._most, self._flags = pdu.LEAST_FRAGMENT, 0
        self._contexts: typing.Dict[int, bytes] = {}
        self._security: typing.Dict[int, security.Context] = {}
        self._transport: typing.Optional[asyncio.Transport] = None
        self._in = b""
        self._at = 0  # how much of it was read
        self._calls: typing.Dict[int, Call] = {}
        self._running = self._denied = 0
        # bytes of large responses that are counted as memory, and the user who holds them
        self._out, self._out_of = 0, ""
        self._paused = self._closed = self._later = False
        # the client does not receive; the bytes that it had not received as that was looked at
        self._full, self._left = False, 0
        # when it was made, heard of last, began a PDU that is not whole, and stopped receiving
        self.made = made
        self.heard = self._since = self._stalled = 0.0

    # ---- the transport

    def connection_made(self, transport: asyncio.BaseTransport) -> None:
        assert isinstance(transport, asyncio.Transport)
        self._transport = transport
        self.heard = self.server.now()
        self.made = self.made or self.heard
        self.server.add(self, transport)
        if self._first:
            self.data_received(self._first)
            self._first = b""

    def connection_lost(self, exc: typing.Optional[Exception]) -> None:
        self._closed = True
        self._in, self._at = b"", 0
        for call in list(self._calls.values()):
            steps, call.steps = call.steps, None
            call.forget()
            if steps is not None:
                steps.close()
            self._forget(call)
        self._count_out(0)
        self.server.remove(self)

    def gone(self) -> None:
        """Ends the connection at once."""
        self._closed = True
        if self._transport is not None:
            self._transport.abort()

    def pause_writing(self) -> None:
        assert self._transport is not None
        self._full, self._stalled = True, self.server.now()
        self._left = self._transport.get_write_buffer_size()

    def resume_writing(self) -> None:
        self._full = False
        self._count_out(0)
        self._turn()

    def _count_out(self, count: int) -> None:
        if count != self._out:
            self.server.hold(self._out_of, -self._out)
            self._out, self._out_of = count, self.user
            self.server.hold(self.user, count)

    def overdue(self, now: float) -> str:
        """Why the connection has to end by now, or nothing."""
        limits = self.server.limits
        if not self.user and now - self.made > limits.hello:
            return "no user in time"
        if self._since and now - self._since > limits.hello:
            return "a PDU that does not become whole"
        if any(now - it.begun > limits.call for it in self._calls.values() if it.steps is None):
            return "a call that does not become whole"
        if self._full and now - self._stalled > limits.hello:
            assert self._transport is not None
            left = self._transport.get_write_buffer_size()
            if left >= self._left:
                return "it does not receive"
            self._left, self._stalled = left, now  # (over a slow line a long reply takes its time)
        if not self._running and now - self.heard > limits.idle:
            return "idle"
        return ""

    def data_received(self, data: bytes) -> None:
        if len(self._in) > self._at:
            self._in, self._at = self._in[self._at :] + data, 0
        else:
            self._in, self._at = data, 0
        self.heard = self.server.now()
        if self._waits():
            self._pause()
        else:
            self._turn()

    def _waits(self) -> bool:
        """Whether PDUs that have come wait."""
        return self._running >= RUNNING or self._full or self._later

    def _pause(self) -> None:
        if len(self._in) - self._at > _AHEAD and not self._paused and self._transport is not None:
            self._paused = True
            self._transport.pause_reading()

    def _turn(self) -> None:
        """Takes the PDUs that have come, up to a call too many."""
        try:
            for _ in range(_TURN):
                if self._waits() or self._closed:
                    break
                data, at = self._in, self._at
                if len(data) < at + 16:
                    break
                length = pdu.length_of(data, at)
                if length > len(data) - at:
                    break
                self._at = at + length
                self.take(pdu.read(data[at : at + length]))
            else:
                if len(self._in) - self._at >= 16 and not self._closed:
                    self._turn_later()
        except pdu.Broken as broken:
            self.server.note_of(self, f"ended: {broken}")
            return self.gone()
        except Exception as fault:  # a fault of this program ends one connection alone
            self.server.failed(self, fault)
            return self.gone()
        if self._waits():
            self._since = 0.0
            self._pause()
        elif not self._closed:
            self._since = self.heard if len(self._in) > self._at else 0.0
            if self._paused:
                assert self._transport is not None
                self._paused = False
                self._transport.resume_reading()
        return None

    def _turn_later(self) -> None:
        """Takes further PDUs once others have had their turn."""
        self._later = True
        asyncio.get_running_loop().call_soon(self._resume)

    def _resume(self) -> None:
        """Goes on with what came after a turn's last PDU."""
        self._later = False
        if not self._closed:
            self._turn()

    def _acknowledge(self) -> None:
        """Has the system acknowledge at once what has no reply. Else a client whose socket has
        Nagle's algorithm waits 40 ms with its next PDU."""
        if self._transport is not None and _QUICKACK:
            with contextlib.suppress(OSError, AttributeError):
                sock = self._transport.get_extra_info("socket")
                sock.setsockopt(socket.IPPROTO_TCP, _QUICKACK, 1)

    def send(self, *pdus: bytes) -> None:
        """Sends PDUs."""
        if self._transport is not None and not self._closed:
            self._transport.write(b"".join(pdus) if len(pdus) > 1 else pdus[0])

    # ---- PDUs

    def take(self, got: pdu.Pdu) -> None:
        """One PDU."""
        if got.kind == pdu.REQUEST:
            self._request(got)
        elif got.kind in (pdu.BIND, pdu.ALTER):
            if (got.kind == pdu.BIND) != (self._number == 0):
                raise pdu.Broken("a second bind, or none before")
            self._bind(got)
        elif got.kind == pdu.AUTH3:
            self._authenticate(got)
        elif got.kind == pdu.ORPHANED:
            call = self._calls.get(got.call)
            if call is not None and call.steps is None:
                self._forget(call)
        elif got.kind != pdu.CO_CANCEL:
            raise pdu.Broken("a PDU that no client sends")

    def _forget(self, call: Call) -> None:
        if call.parts:
            self.server.hold(call.owner, -len(call.parts))
        self._calls.pop(call.number, None)

    # ---- binding

    def _bind(self, got: pdu.Pdu) -> None:
        """A bind or an alter_context."""
        asked = pdu.read_bind(got)
        if not self._number:
            if asked.most < pdu.LEAST_FRAGMENT:
                return self.send(pdu.bind_nak(got, 0))
            self._most, self._flags = asked.most, got.flags
        trailer = None
        if got.auth is not None:
            try:
                context, token = self._token(got.auth)
                trailer = security.answer(context, token)
            except Denied as denied:
                self._refused(denied)
                if got.kind == pdu.ALTER:
                    return self.send(pdu.fault(got.call, 0, FAULT_ACCESS_DENIED))
                known = got.auth.kind in security.SERVED
                reason = pdu.BAD_CHECKSUM if known else pdu.NO_AUTH_TYPE
                return self.send(pdu.bind_nak(got, reason))
        if not self._number:
            self._number = self.server.group_number(asked.group)
            if self.user:
                self._join()
        results = [self._context(it) for it in asked.contexts]
        kind = pdu.BIND_ACK if got.kind == pdu.BIND else pdu.ALTER_ACK
        port = self.server.ports[0 if self.resolver else 1]
        self.send(pdu.bind_ack(kind, got, self._most, self._number, port, results, trailer))
        return None

    def _context(self, asked: pdu.Asked) -> bytes:
        """The result of a presentation context."""
        for form in asked.forms:
            if form[:8] == pdu.FEATURES:
                return pdu.features(form[8])
        if not self.server.calls.serves(asked.interface[:16], self.resolver):
            return pdu.refused(1)
        if pdu.NDR not in asked.forms:
            return pdu.refused(2)
        # (impacket makes a new context at each change of interface, and forgets the one before)
        self._contexts.pop(asked.number, None)
        if len(self._contexts) >= PRESENTATION_CONTEXTS:
            del self._contexts[next(iter(self._contexts))]
        self._contexts[asked.number] = asked.interface
        return pdu.accepted()

    def _token(self, auth: pdu.Auth) -> typing.Tuple[security.Context, bytes]:
        """A token of a security context, which may be a new one. Raises Denied."""
        context = self._security.get(auth.context)
        if context is None or context.done:
            if auth.kind not in security.SERVED:
                raise Denied("an authentication service that is not served")
            self._security.pop(auth.context, None)
            if len(self._security) >= SECURITY_CONTEXTS:
                del self._security[next(iter(self._security))]
            headers = bool(self._flags & pdu.HEADER_SIGN)
            context = self.server.authority.context(auth, headers, self.block)
            self._security[auth.context] = context
        try:
            try:
                self.server.authority.gate.users.load()
            except UsersFault as fault:
                raise Denied(f"the file of users: {fault}") from fault
            answer = context.take(auth.token)
            if context.done:
                self._known(context.user)
        except Denied:
            self._security.pop(auth.context, None)
            raise
        return context, answer

    def _known(self, user: str) -> None:
        """The connection has a user."""
        if self.user and self.user != user:
            raise Denied("another user on one connection", user)
        if not self.user:
            self.server.let_in(self, user)
            self.user = user
        if self._number:
            self._join()

    def _join(self) -> None:
        """Joins the association group. A group is one user's."""
        if self.group is None:
            self.group = self.server.join(self, self._number, self.user)

    def _authenticate(self, got: pdu.Pdu) -> None:
        """The last token, which has no reply: if it is refused, so are the calls."""
        if got.auth is None:
            raise pdu.Broken("an auth3 without a token")
        try:
            self._token(got.auth)
        except Denied as denied:
            self._refused(denied)
        self._acknowledge()

    def _refused(self, denied: Denied) -> None:
        self._denied += 1
        if self._denied > REFUSED:
            raise pdu.Broken("too many tokens that were refused")
        user = f" of user {shown(denied.user)}" if denied.user else ""
        self.server.note_of(self, f"refused{user}: {denied}")

    # ---- calls

    def _opened(
        self, got: pdu.Pdu, place: int
    ) -> typing.Tuple[bytes, typing.Optional[security.Context]]:
        """A fragment's stub, and the security context that protects it."""
        auth = got.auth
        if auth is None:
            return got.raw[place:], None
        context = self._security.get(auth.context)
        if context is None or not context.done or context.level < self.server.level:
            return b"", None
        if (context.kind, context.level) != (auth.kind, auth.level):
            raise pdu.Broken("a trailer of another context")
        end = len(got.raw) - pdu.TRAILER.size - len(auth.token)
        if end < place:
            raise pdu.Broken("a request is cut")
        try:
            plain = context.open(got.raw, place, end)
        except Denied as denied:
            raise pdu.Broken(str(denied)) from denied
        if auth.pad > len(plain):
            raise pdu.Broken("the padding is longer than the stub")
        return plain[: len(plain) - auth.pad] if auth.pad else plain, context

    def _request(self, got: pdu.Pdu) -> None:
        """A fragment of a request; the last one begins the call."""
        if not self._number:
            raise pdu.Broken("a request before a bind")
        head = pdu.read_request(got)
        stub, context = self._opened(got, head.place)
        call = self._calls.get(got.call)
        if got.flags & pdu.FIRST:
            if call is not None:
                raise pdu.Broken("a call with the number of one under way")
            whole = got.flags & pdu.LAST
            if not whole and len(self._calls) - self._running >= PARTIAL:
                raise pdu.Broken("too many calls in fragments")
            call = self._calls[got.call] = Call(got.call, head, context, self.heard, self.user)
            if whole:
                return self._perform(call, stub, got)
        if call is None or call.steps is not None or call.context is not context:
            raise pdu.Broken("a fragment of no call")
        call.size += len(stub)
        if call.size > (CALL_LIMIT if context is not None else NOBODY_LIMIT):
            raise pdu.Broken("a call that is too long")
        server = self.server
        if call.parts is not None and server.has_room(call.owner, len(stub)):
            call.parts += stub
            server.hold(call.owner, len(stub))
        elif call.parts is not None:
            # (further fragments come all the same: the call alone is refused, at its end)
            server.hold(call.owner, -len(call.parts))
            call.parts = None
        if not got.flags & pdu.LAST:
            return self._acknowledge()
        if call.parts is None:
            return self._fault(call, FAULT_NO_MEMORY)
        return self._perform(call, bytes(call.parts), got)

    def _perform(self, call: Call, stub: bytes, got: pdu.Pdu) -> None:
        """Begins a call."""
        head, context = call.head, call.context
        interface = self._contexts.get(head.context)
        if interface is None:
            return self._fault(call, FAULT_UNKNOWN_INTERFACE)
        iid = interface[:16]
        if (context is None or self.group is None) and iid not in FOR_NOBODY:
            return self._fault(call, FAULT_ACCESS_DENIED)
        at = Reader(stub)
        if context is not None and stub.find(verify.MAGIC, max(0, len(stub) - verify.LONGEST)) >= 0:
            facts = verify.Facts(
                *(interface, bool(self._flags & pdu.HEADER_SIGN), got.raw[4:8]),
                *(call.number, head.context, head.opnum),
            )
            at.check = lambda data: verify.check(facts, data)
        made = self.group.made if context is not None and self.group is not None else None
        call.steps = self.server.calls.perform(
            self.resolver, made, iid, head.opnum, head.object, at, self.address
        )
        self._running += 1
        self._go_on(call, None)
        return None

    def _go_on(
        self, call: Call, reply: typing.Optional[bytes], fault: typing.Optional[Exception] = None
    ) -> None:
        """Continues a call with the store's reply."""
        steps = call.steps
        assert steps is not None
        try:
            if fault is not None:
                request = steps.throw(fault)
            elif reply is None:
                request = next(steps)
            else:
                request = steps.send(reply)
        except StopIteration as stop:
            self._reply(call, stop.value)
        except (Bad, UnicodeError, struct.error):
            self._fault(call, FAULT_BAD_STUB)
        except BadOpnum:
            self._fault(call, FAULT_BAD_OPNUM)
        except Refused as refused:
            self._fault(call, refused.code, True)
        except Gone as gone:
            status = FAULT_CALL_FAILED if gone.sent else FAULT_SERVER_UNAVAILABLE
            self._fault(call, status, gone.sent)
        except Exception as unexpected:  # a fault of this program ends one call alone
            self.server.failed(self, unexpected)
            self._fault(call, FAULT_CALL_FAILED, True)
        else:
            self._ask(call, request)

    def _ask(self, call: Call, request: Request) -> None:
        """Sends a request of a call to the store, or waits for a change."""
        assert self.group is not None
        client = self.server.client_of(self.group)

        def answered(reply: typing.Optional[bytes]) -> None:
            if call.steps is None:  # the connection was lost meanwhile
                return
            try:
                self._answered(call, reply, client)
            except Exception as fault:  # (it is not to end the client, which has other calls)
                self.server.failed(self, fault)
                self.gone()

        if isinstance(request, Wait):
            call.forget = self.group.watches.wait(request, answered)
        else:
            client.ask(request, answered)

    def _answered(self, call: Call, reply: typing.Optional[bytes], client: Client) -> None:
        """Continues a call with the store's reply, or None if there is none, and then takes what
        waited for it."""
        waited = self._running >= RUNNING
        if reply is None and client.is_other:
            self._go_on(call, None, Refused(RPC_E_DISCONNECTED))
        elif reply is None:
            self._go_on(call, None, Gone(client.was_made))
        else:
            self._go_on(call, reply)
        if waited and not self._waits():
            if reply is None:
                # (waiting calls may rely on locks, and the client learns of their loss later)
                self._turn_later()
            else:
                self._turn()

    def _ended(self, call: Call) -> None:
        if call.steps is not None:
            call.steps = None
            self._running -= 1
        self._forget(call)

    def _fault(self, call: Call, status: int, executed: bool = False) -> None:
        """Ends a call with a fault."""
        self._ended(call)
        self.send(pdu.fault(call.number, call.head.context, status, executed))

    def _reply(self, call: Call, stub: bytes) -> None:
        """Ends a call with a response, cut as the client receives it."""
        self._ended(call)
        number = call.head.context
        if len(stub) > _LARGE:
            if not self.server.has_room(self.user, len(stub)):
                self.send(pdu.fault(call.number, number, FAULT_CALL_FAILED, True))
                return
            self._count_out(self._out + len(stub))
        self.send(*self._fragments(call.number, number, call.context, stub))
        if not self._full:
            self._count_out(0)

    def _fragments(
        self, call: int, number: int, context: typing.Optional[security.Context], stub: bytes
    ) -> typing.List[bytes]:
        """The PDUs of a response."""
        size = len(stub)
        overhead = 24 if context is None else 24 + pdu.TRAILER.size + context.room
        room = self._most - overhead & ~15
        if context is not None and size <= room:
            return [context.close(3, call, number, size, stub)]
        found = []
        for at in range(0, max(size, 1), room):
            part = stub[at : at + room]
            flags = (pdu.FIRST if not at else 0) | (pdu.LAST if at + room >= size else 0)
            if context is None:
                head = pdu.response_head(flags, call, number, size - at, 24 + len(part), 0)
                found.append(head + part)
            else:
                found.append(context.close(flags, call, number, size - at, part))
        return found
