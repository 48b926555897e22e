"""The two ports of a store: connections, association groups, and their limits."""
from __future__ import annotations

import asyncio
import contextlib
import ipaddress
import secrets
import socket
import sys
import time
import traceback
import typing

from .calls import Calls
from .connection import CALL_LIMIT, Connection
from .door import Door, Guest, Lobby, Visitor
from .hub import Enumerators
from .identity import IdentityFault, store_words
from .objects import Exporter
from .security import Authority
from .store import Client
from .users import Denied, line_of
from .watch import Watches

_LINES = 20  # of the log, a second
_PORTS = (135, 0)


class Limits(typing.NamedTuple):
    """The limits of all clients together."""

    connections: int = 1_000
    per_user: int = 250  # connections of one user
    groups: int = 250  # association groups, each of which is a client of the gateway
    groups_per_user: int = 125
    nobodies: int = 20  # connections of one address without a user: the oldest goes
    memory: int = 64 << 20  # calls and large responses under way
    hello: float = 30.0  # seconds until there is a user, for a PDU, and for a client to receive
    call: float = 120.0  # seconds for a call in fragments
    idle: float = 3_600.0


class Group:
    """An association group: the connections of one program. It is one client of the store, so its
    locks end with its last connection."""

    def __init__(self, number: int, user: str, watch: str) -> None:
        self.number, self.user, self.watches = number, user, Watches(watch)
        self.connections: typing.Set[Connection] = set()
        self.client: typing.Optional[Client] = None
        self.made = Enumerators()

    def lost(self) -> None:
        """The store has ended, and the locks with it: a program that had some learns so by the end
        of its connections."""
        if self.made.locks:
            self.made.locks = 0
            for connection in list(self.connections):
                connection.gone()


class Log:
    """Lines on standard error, at most so many a second: what is left out is counted."""

    def __init__(self, clock: typing.Callable[[], float] = time.monotonic) -> None:
        self._clock, self._second, self._count = clock, 0.0, 0

    def note(self, text: str) -> None:
        """Writes a line."""
        now = self._clock()
        if now - self._second >= 1:
            if self._count > _LINES:
                self._write(f"{self._count - _LINES} lines were left out")
            self._second, self._count = now, 0
        self._count += 1
        if self._count <= _LINES:
            self._write(text)

    @staticmethod
    def _write(text: str) -> None:
        # (a log that nobody reads any more, as after a restart of the journal, ends nothing here)
        with contextlib.suppress(OSError, ValueError):
            print("oaut-dcom:", line_of(text), file=sys.stderr, flush=True)


def plain_address(text: str) -> str:
    """An address as string bindings have it: an IPv4 address in IPv6's form as IPv4, no zone."""
    text = text.partition("%")[0]
    return text[7:] if text.startswith("::ffff:") and "." in text else text


def block_of(address: str) -> str:
    """The block that counts as one address: for IPv6 the first 64 bits, which one customer has."""
    if ":" not in address:
        return address
    return str(ipaddress.ip_network(address + "/64", strict=False))


class Server:
    """The two ports."""

    def __init__(
        self,
        path: str,
        exporter: Exporter,
        authority: Authority,
        limits: Limits,
        ports: typing.Tuple[int, int] = _PORTS,
        log: typing.Optional[Log] = None,
        store: str = "",
        watch: str = "",
    ) -> None:
        """`store` is the file of the store that references are of, if it is known, and `watch` the
        gateway's socket for changes."""
        self._path, self.limits, self.ports, self._store = path, limits, ports, store
        self._watch = watch
        self.authority, self.level = authority, exporter.settings.level
        self.log = log or Log()
        self.calls = Calls(exporter, self.log.note)
        self.now = time.monotonic
        # bytes of calls and large responses under way: all, and by user
        self.held = 0
        self._held_of: typing.Dict[str, int] = {}
        self._groups: typing.Dict[int, Group] = {}
        self._all: typing.Dict[Visitor, None] = {}
        # connections without a user, the oldest first: all, and by address
        self._nobodies: typing.Dict[Visitor, None] = {}
        self._of_block: typing.Dict[str, typing.Dict[Visitor, None]] = {}
        self._lobby = Lobby()
        self._welcomes: "typing.Set[asyncio.Task[None]]" = set()
        self._of_user: typing.Dict[str, int] = {}
        self._groups_of: typing.Dict[str, int] = {}

    # ---- connections

    def arrive(self, sock: socket.socket, peer: str, resolver: bool) -> None:
        """A new connection, which has sent nothing yet."""
        peer = plain_address(peer) or "?"
        guest = Guest(self, sock, resolver, peer, block_of(peer))
        try:
            self._lobby.add(guest)
        except OSError as error:
            self.log.note(f"{peer}: not accepted: {error.strerror}")
            sock.close()
            return
        self._note_nobody(guest)

    def welcome(self, sock: socket.socket, made: typing.Callable[[], Connection]) -> None:
        """A guest has sent its first PDU: it has a transport from now on."""
        task = asyncio.ensure_future(self._welcome(sock, made))
        self._welcomes.add(task)
        task.add_done_callback(self._welcomes.discard)

    @staticmethod
    async def _welcome(sock: socket.socket, made: typing.Callable[[], Connection]) -> None:
        # (of any kind: mypy does not know the method for Python 3.9)
        loop: typing.Any = asyncio.get_running_loop()
        try:
            await loop.connect_accepted_socket(made, sock)
        except OSError:  # (the client is gone)
            sock.close()

    def add(self, connection: Connection, transport: asyncio.Transport) -> None:
        """A connection that has sent its first PDU, without a user."""
        sock = transport.get_extra_info("socket")
        peer, own = transport.get_extra_info("peername"), transport.get_extra_info("sockname")
        connection.peer = plain_address(str(peer[0])) if peer else "?"
        connection.address = plain_address(str(own[0])) if own else "127.0.0.1"
        connection.block = block_of(connection.peer) if peer else "?"
        _keep_alive(sock)
        self._note_nobody(connection)

    def _note_nobody(self, visitor: Visitor) -> None:
        """Counts a connection without a user. If there are too many the oldest one goes."""
        self._all[visitor] = None
        self._nobodies[visitor] = None
        there = self._of_block.setdefault(visitor.block, {})
        there[visitor] = None
        if len(there) > self.limits.nobodies:
            oldest = next(iter(there))
        elif len(self._all) > self.limits.connections:
            oldest = next(iter(self._nobodies))
        else:
            return
        oldest.gone()
        self._drop_nobody(oldest)

    def _drop_nobody(self, visitor: Visitor) -> None:
        self._nobodies.pop(visitor, None)
        there = self._of_block.get(visitor.block)
        if there is not None:
            there.pop(visitor, None)
            if not there:
                del self._of_block[visitor.block]

    def forget(self, guest: Guest) -> None:
        """A connection without a whole PDU has ended, or has one now."""
        self._lobby.remove(guest)
        self._all.pop(guest, None)
        self._drop_nobody(guest)

    def let_in(self, connection: Connection, user: str) -> None:
        """A connection has a user. Raises Denied if the user has too many."""
        count = self._of_user.get(user, 0)
        if count >= self.limits.per_user:
            raise Denied(f"{count} connections already", user)
        self._of_user[user] = count + 1
        self._drop_nobody(connection)

    def remove(self, connection: Connection) -> None:
        """A connection has ended."""
        self._all.pop(connection, None)
        self._drop_nobody(connection)
        if connection.user:
            self._of_user[connection.user] -= 1
            if not self._of_user[connection.user]:
                del self._of_user[connection.user]
        if connection.group is not None:
            self._leave(connection, connection.group)
            connection.group = None

    def sweep(self) -> None:
        """Ends the connections whose time is up."""
        now = self.now()
        for connection in list(self._all):
            why = connection.overdue(now)
            if why:
                self.note_of(connection, f"ended: {why}")
                connection.gone()

    # ---- memory

    def hold(self, user: str, count: int) -> None:
        """Counts bytes that a user's calls and large responses take, less of them if negative."""
        self.held += count
        left = self._held_of.get(user, 0) + count
        if left:
            self._held_of[user] = left
        else:
            self._held_of.pop(user, None)

    def has_room(self, user: str, count: int) -> bool:
        """Whether a user may hold so many bytes more: half of all, or one call or reply alone."""
        own, memory = self._held_of.get(user, 0), self.limits.memory
        if self.held + count > memory:
            return False
        return not own or own + count <= max(memory // 2, CALL_LIMIT)

    # ---- association groups

    def group_number(self, asked: int) -> int:
        """The number of a client's group, a new one for 0 and for a number that is unknown."""
        while not asked or asked not in self._groups:
            asked = secrets.randbits(32)
            if asked and asked not in self._groups:
                break
        return asked

    def join(self, connection: Connection, number: int, user: str) -> Group:
        """Joins a group, which begins with its first user. Raises Denied."""
        group = self._groups.get(number)
        if group is None:
            count = self._groups_of.get(user, 0)
            if len(self._groups) >= self.limits.groups or count >= self.limits.groups_per_user:
                raise Denied(f"{count} association groups of the user already", user)
            self._groups_of[user] = count + 1
            group = self._groups[number] = Group(number, user, self._watch)
        if group.user != user:
            raise Denied("the association group of another user", user)
        group.connections.add(connection)
        return group

    def _leave(self, connection: Connection, group: Group) -> None:
        group.connections.discard(connection)
        if not group.connections:
            del self._groups[group.number]
            self._groups_of[group.user] -= 1
            if not self._groups_of[group.user]:
                del self._groups_of[group.user]
            group.watches.close()
            if group.client is not None:
                group.client.end()

    def client_of(self, group: Group) -> Client:
        """The group's client of the store."""
        if group.client is None or group.client.ended:
            is_same = self._is_same_store if self._store else None
            group.client = Client(self._path, lambda: self._lost(group), is_same)
        return group.client

    def _lost(self, group: Group) -> None:
        self.calls.exporter.listing.forget()
        group.lost()

    def _is_same_store(self) -> bool:
        """Checks that the gateway that has replied serves the store that all references are of.
        If it does not, they are refused from now on."""
        try:
            is_other = self.calls.exporter.renew(store_words(self._store))
        except IdentityFault as fault:
            self.log.note(str(fault))
            return False
        if is_other:
            self.log.note("the store's file is another one: references to the old are refused")
        return not is_other

    # ---- the log

    def note_of(self, visitor: Visitor, text: str) -> None:
        """A line about a connection."""
        self.log.note(f"{visitor.peer}: {text}")

    def failed(self, connection: Connection, fault: Exception) -> None:
        """A line about a fault of this program. It has no bytes of the client."""
        last = traceback.extract_tb(fault.__traceback__)[-1]
        place = f"{last.filename.rpartition('/')[2]}:{last.lineno}"
        self.log.note(f"{connection.peer}: an unexpected {type(fault).__name__} at {place}")

    def listen(self, sock: socket.socket, resolver: bool) -> Door:
        """Accepts the clients of a socket."""
        return Door(self, sock, resolver)

    async def run(self) -> None:
        """Ends what is overdue, once a second, for ever."""
        while True:
            await asyncio.sleep(1)
            self.sweep()


def _keep_alive(sock: typing.Any) -> None:
    """Has the system end connections of machines that are gone, so that their locks end too."""
    try:
        sock.setsockopt(socket.SOL_SOCKET, socket.SO_KEEPALIVE, 1)
        for name, value in (("TCP_KEEPIDLE", 60), ("TCP_KEEPINTVL", 15), ("TCP_KEEPCNT", 4)):
            if hasattr(socket, name):
                sock.setsockopt(socket.IPPROTO_TCP, getattr(socket, name), value)
    except (OSError, AttributeError):  # another kind of socket, or one that is gone
        pass
