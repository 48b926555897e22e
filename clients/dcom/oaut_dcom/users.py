"""Users: the file that lists them, and the throttle of password guesses."""
from __future__ import annotations

import collections
import hmac
import os
import stat
import time
import typing

from Cryptodome.Hash import MD4

KERBEROS = "kerberos"
_LINES, _BYTES = 10_000, 1 << 20


class UsersFault(Exception):
    """The file of users cannot be used."""


class Denied(Exception):
    """A token that is refused. `user` is the name that the client gave, if any."""

    def __init__(self, why: str, user: str = "") -> None:
        super().__init__(why)
        self.user = user


def shown(text: str) -> str:
    """A client's text as it is logged: printable ASCII, at most 64 characters."""
    return ascii(text[:64]) + (".." if len(text) > 64 else "")


def line_of(text: str) -> str:
    """A text as one line of printable ASCII: what libraries say may repeat what a client sent."""
    found = [it if it.isascii() and it.isprintable() else ascii(it)[1:-1] for it in text]
    return " ".join("".join(found).split())[:1_000]


def upper(name: str) -> str:
    """A user's name in upper case, as Windows and Samba have it: each character by itself, so that
    one with two upper-case letters (the German sharp s) stays."""
    return "".join(it.upper() if len(it.upper()) == 1 else it for it in name)


def nt_hash(password: str) -> bytes:
    """The NT hash of a password (MS-NLMP section 3.3.1)."""
    return bytes(MD4.new(password.encode("utf-16-le")).digest())


class Users:
    """The file of users: a line `USER:HASH` for each user of NTLM, with the NT hash in 32
    hexadecimal digits, and `PRINCIPAL:kerberos` or `*@REALM:kerberos` for Kerberos. It is read
    again when it changes."""

    def __init__(self, path: str) -> None:
        self.path = path
        self._seen: typing.Optional[typing.Tuple[int, ...]] = None
        self._hashes: typing.Dict[str, bytes] = {}
        self._principals: typing.Set[str] = set()
        self.load()

    def load(self) -> None:
        """Reads the file if it has changed. Raises UsersFault."""
        try:
            # (nothing is waited for if it is a pipe)
            flags = os.O_RDONLY | os.O_CLOEXEC | os.O_NONBLOCK
            with open(os.open(self.path, flags), "rb") as file:
                state = os.fstat(file.fileno())
                if not stat.S_ISREG(state.st_mode):
                    raise UsersFault(f"{self.path} is no regular file")
                if state.st_uid not in (0, os.geteuid()):
                    raise UsersFault(f"{self.path} belongs to neither this user nor root")
                if state.st_mode & 0o177:
                    raise UsersFault(f"{self.path} has rights for others: chmod 0600")
                seen = (state.st_dev, state.st_ino, state.st_mtime_ns, state.st_size)
                if seen == self._seen:
                    return
                content = file.read(_BYTES + 1)
                if len(content) > _BYTES:  # (else users at its end would not be there)
                    raise UsersFault(f"{self.path} has more than {_BYTES} bytes")
                self._read(content)
                self._seen = seen
        except OSError as error:
            raise UsersFault(f"{self.path}: {error.strerror}") from error

    def _read(self, content: bytes) -> None:
        hashes, principals = {}, set()
        try:
            lines = content.decode("utf-8-sig").split("\n")
        except UnicodeDecodeError as error:
            raise UsersFault(f"{self.path} is no text in UTF-8") from error
        for number, line in enumerate(lines, 1):
            line = line.strip()
            if not line or line.startswith("#"):
                continue
            name, colon, key = (it.strip() for it in line.rpartition(":"))
            if colon and name and key == KERBEROS:
                principals.add(name)
                continue
            try:
                found = bytes.fromhex(key)
            except ValueError:
                found = b""
            # (the line itself may hold a secret, so the fault names its number alone)
            if not colon or not name or len(found) != 16 or number > _LINES:
                raise UsersFault(
                    f"{self.path}, line {number}: USER:HASH with 32 hexadecimal digits"
                )
            hashes[upper(name)] = found
        self._hashes, self._principals = hashes, principals

    def hash_of(self, name: str) -> typing.Optional[bytes]:
        """The NT hash of a user, whose name is compared without its case."""
        return self._hashes.get(upper(name))

    def has_principal(self, name: str) -> bool:
        """Whether a Kerberos principal may come."""
        return name in self._principals or "*@" + name.rpartition("@")[2] in self._principals


def same(one: bytes, other: bytes) -> bool:
    """Compares secrets in a time that does not depend on them."""
    return hmac.compare_digest(one, other)


class _Failures:
    """Failures by key, the oldest keys dropped if there are too many."""

    def __init__(self, free: int, most: float) -> None:
        self._free, self._most = free, most
        self._of: "collections.OrderedDict[object, typing.Tuple[int, float]]" = (
            collections.OrderedDict()
        )

    def wait(self, key: object, now: float) -> float:
        """The seconds until a key may try again."""
        count, last = self._of.get(key, (0, 0.0))
        if count < self._free:
            return 0.0
        pause = min(2.0 ** min(count - self._free, 16), self._most)
        return max(last + pause - now, 0.0)

    def add(self, key: object, now: float) -> int:
        """Counts a failure, and forgets those before it if they are old."""
        count, last = self._of.pop(key, (0, 0.0))
        if now - last > 2 * self._most:
            count = 0
        self._of[key] = (count + 1, now)
        while len(self._of) > 4_096:
            self._of.popitem(last=False)
        return count + 1

    def clear(self, key: object) -> None:
        """Forgets a key's failures."""
        self._of.pop(key, None)


class Throttle:
    """Slows password guesses: after a few failures each further one costs a pause that doubles, up
    to a minute, by address and user, by address, and by user.

    The count by user alone does not apply to an address from which the user has come before, so
    that guesses from elsewhere do not lock the user out."""

    def __init__(self, clock: typing.Callable[[], float] = time.monotonic) -> None:
        self._clock = clock
        self._pairs, self._addresses = _Failures(5, 60), _Failures(20, 60)
        self._users = _Failures(50, 60)
        self._known: "collections.OrderedDict[typing.Tuple[str, str], None]" = (
            collections.OrderedDict()
        )

    def wait(self, address: str, user: str) -> float:
        """The seconds for which a password of this user, from this address, is refused unseen."""
        now, user = self._clock(), upper(user)
        pair = (address, user)
        waits = [self._pairs.wait(pair, now)]
        if pair not in self._known:
            waits += [self._addresses.wait(address, now), self._users.wait(user, now)]
        return max(waits)

    def failed(self, address: str, user: str) -> None:
        """Counts a password that was wrong."""
        now, user = self._clock(), upper(user)
        self._pairs.add((address, user), now)
        self._addresses.add(address, now)
        self._users.add(user, now)

    def came(self, address: str, user: str) -> None:
        """Notes that a user came with the right password."""
        pair = (address, upper(user))
        self._pairs.clear(pair)
        self._known.pop(pair, None)
        self._known[pair] = None
        while len(self._known) > 4_096:
            self._known.popitem(last=False)
