"""If a session comes from: a program that is started here, or streams that reach one."""
from __future__ import annotations

import errno
import functools
import io
import mmap
import os
import socket
import subprocess
import sysconfig
import tempfile
import time
import typing

from . import store as stores
from .addresses import Address as Address
from .addresses import Secure, address_of, address_words, naming, watch
from .connection import Connection, Ended, Late, check_timeout, let_go
from .faults import (
    Error,
    LibraryDiffers,
    LibraryNotTaken,
    LibraryRefused,
    NoSuchFile,
    NoTls,
    ProgramNotFound,
    Refused,
    SessionEnded,
    StoreInUse,
    TlsFailed,
    WrongType,
    WrongValue,
    system_failed,
    system_failures,
)
from .framing import FRAMING, FRAMINGS
from .paths import Path as Path
from .paths import beside, named, place_of, text_file
from .protocol import END, GROUP
from .session import Server, ending
from .watching import watched_at

# a program's path, or the words of a command line in front of its own: ["ssh", "host", "oaut"]
Program = typing.Union[Path, typing.Sequence[str]]
# the program that was installed with this package, or else the one of this name on the path
PROGRAM = "oaut"
# the seconds of one try to reach an address, and between two
TRY, PAUSE = 2.0, 0.1


def words_of_program(program: Program) -> list[str]:
    """The words that start a program."""
    if program == PROGRAM:
        return [_installed() or PROGRAM]
    return [os.fspath(program)] if isinstance(program, (str, os.PathLike)) else list(program)


def _installed() -> str | None:
    """The program that a wheel has brought with this package."""
    folders = [sysconfig.get_path("scripts")]
    if f"{os.name}_user" in sysconfig.get_scheme_names():
        folders.append(sysconfig.get_path("scripts", f"{os.name}_user"))
    for folder in folders:
        path = os.path.join(folder, PROGRAM)
        if os.access(path, os.X_OK) and os.path.isfile(path):
            return path
    return None


@system_failures()
def play(
    library: Path,
    program: Program = PROGRAM,
    framing: str = FRAMING,
    *,
    timeout: float | None = None,
) -> Server:
    """A session of `oaut play` with a library's file: objects in memory, gone when it ends. Raises
    NotALibrary, a SessionEnded, if the program refuses the library. With `timeout`, a number of
    seconds, what waits longer for a reply raises TimedOut."""
    words = ["play", os.fspath(library)]
    return _start(words, program, framing, GROUP, False, timeout, library)


@system_failures()
def serve(
    store: Path,
    library: Path | None = None,
    group: int | None = None,
    program: Program = PROGRAM,
    framing: str = FRAMING,
    *,
    timeout: float | None = None,
) -> Server:
    """A session of `oaut serve` with a store's file: what was acknowledged is on the device, and
    the next session has it. The library is the store's own, or that of a file, which has to be the
    same. Up to `group` requests that are sent together are committed together, at one cost: 1,024
    if none is said. Raises NotALibrary, LibraryDiffers or another SessionEnded if the program
    refuses the library or the store, StoreInUse if another process has it."""
    group = GROUP if group is None else group
    if library is not None:
        words = ["serve", os.fspath(store), os.fspath(library), "--group", str(group)]
        server = _start(words, program, framing, group, group != 1, timeout, library)
        server.store = os.path.abspath(store)
        return server
    for turn in range(3):
        with text_file(library_of(store)) as name:
            try:
                return serve(store, name, group, program, framing, timeout=timeout)
            except LibraryDiffers:
                # another process has given it another library since
                if turn == 2:
                    raise
    raise AssertionError


@system_failures()
def library_of(store: Path) -> bytes:
    """The canonical text of a store's library. Raises StoreInUse if another process has it."""
    try:
        file = io.open(store, "rb")
    except FileNotFoundError:
        raise NoSuchFile(os.fspath(store)) from None
    with file:
        hold_off(file, store)
        if os.fstat(file.fileno()).st_size < stores.LEAST:
            raise SessionEnded("there is no store", "oaut: not a store")
        with mmap.mmap(file.fileno(), 0, access=mmap.ACCESS_READ) as data:
            if data[0] != 1:
                raise SessionEnded("there is no store", "oaut: not a store")
            chosen = data[stores.SELECTOR] % 2
            try:
                form, length, _, bank = stores.told(
                    typing.cast(stores.Data, data), stores.HEADS[chosen]
                )
            except stores.Damaged as fault:
                raise SessionEnded("the store cannot be read", f"oaut: {fault}") from None
            start = stores.body_of(form, chosen, bank)
            return data[start : start + length]


def hold_off(file: typing.BinaryIO, path: Path) -> None:
    """Holds off a server from a store's file until that is closed, and is held off by one."""
    try:
        import fcntl
    except ImportError:
        return
    try:
        fcntl.flock(file, fcntl.LOCK_SH | fcntl.LOCK_NB)
    except BlockingIOError:
        said = f"{os.fspath(path)}: in use by another process"
        raise StoreInUse("the store is in use by another process", said) from None


@system_failures()
def connect(
    reader: socket.socket | typing.BinaryIO | Address,
    writer: typing.BinaryIO | None = None,
    framing: str = FRAMING,
    group: int | None = None,
    *,
    timeout: float | None = None,
    patience: float = 0,
    watch: Address | None = None,
    store: Path | None = None,
) -> Server:
    """A session over an address (a URL as `"oauts://host:8766"`, the path of a socket, `("host",
    8765)` or `"host:8765"`), a socket, or two streams of bytes. `writer` is connected to a
    server's standard input, and `reader` to its output. `group` is how many requests that server
    commits together, if that is known; the default is that it is not. Closing the session closes
    both streams, and not a socket that was given. If an address was given and the server closes
    an idle connection, the next request reconnects. With `timeout`, a number of seconds, a
    request that waits longer for its reply raises TimedOut. With `patience`, a number of seconds
    too, both the first connection and a new one are retried for that long if no server is
    running: another machine may take over. `watch` is the address of the gateway's `--watch`,
    `store` the path of the store's file, for `list(item.Cell)`. Over TLS a TlsFailed is raised
    if the server, or this client, is not trusted."""
    check_timeout(timeout)
    if isinstance(reader, socket.socket):
        connection = Connection(reader, reader, framing, timeout)
        return _session(connection, "a socket", group, watch_at=watch, store=store)
    if isinstance(reader, (str, os.PathLike, tuple)):
        address = address_of(reader)
        name = address_words(address)

        def dial() -> Connection:
            if patience > 0:
                return _patiently(address, framing, timeout, patience)
            sock = dialled(address, timeout, framing)
            return Connection(sock, sock, framing, timeout, owned=True)

        return _session(dial(), name, group, dial, watched_at(address, watch), store)
    if writer is None:
        raise WrongType("connect takes an address, a socket, or a reader and a writer")
    return _session(Connection(reader, writer, framing, timeout), "streams", group)


def _patiently(
    address: Address, framing: str, timeout: float | None, patience: float
) -> Connection:
    """Returns a connection whose other side has replied to END, which changes nothing. A proxy
    such as stunnel or ssh accepts a connection and then closes it if no server is running."""
    until = time.monotonic() + patience
    while True:
        left = until - time.monotonic()
        try:
            sock = dialled(address, max(0.1, min(TRY, left)), framing)
            connection = Connection(sock, sock, framing, max(0.1, left), owned=True)
            try:
                if not isinstance(address, Secure):  # (which has replied)
                    connection.exchange(connection.framing.pack([END]), 1)
            except BaseException:
                connection.close(late=True)
                raise
            connection.timeout = timeout
            sock.settimeout(timeout)
            return connection
        except (OSError, Ended, Late) as error:
            if time.monotonic() >= until or is_lasting(error):
                if isinstance(error, OSError):
                    raise
                told = f"nobody has served there for {patience:g} seconds"
                name = address_words(address)
                raise system_failed(
                    ConnectionRefusedError, errno.ECONNREFUSED, told, name
                ) from None
        time.sleep(PAUSE)


def _session(
    connection: Connection,
    name: str,
    group: int | None,
    dial: typing.Callable[[], Connection] | None = None,
    watch_at: Address | None = None,
    store: Path | None = None,
) -> Server:
    what = f"connected to {name}"
    ends = group != 1
    return Server(connection, group, ends, what=what, dial=dial, watch_at=watch_at, store=store)


def is_lasting(error: BaseException) -> bool:
    """Whether an address is not tried again after such an error."""
    return isinstance(error, TlsFailed) and not isinstance(error, NoTls)


def dialled(address: Address, timeout: float | None, framing: str = FRAMING) -> socket.socket:
    """Returns a socket that is connected to an address. Exceptions name the address. Over TLS
    the server has replied to END, which changes nothing, in a framing."""
    with naming(address):
        if not isinstance(address, Secure):
            return _dialled(address, timeout)
        from . import tls

        return tls.connected(address, timeout, FRAMINGS[framing], END)


def _dialled(address: Path | tuple[str, int], timeout: float | None) -> socket.socket:
    if isinstance(address, tuple):
        sock = socket.create_connection(address, timeout)
        # a request leaves when it is sent
        sock.setsockopt(socket.IPPROTO_TCP, socket.TCP_NODELAY, 1)
        watch(sock)
        return sock
    sock = socket.socket(socket.AF_UNIX)
    try:
        sock.settimeout(timeout)
        sock.connect(os.fspath(address))
    except BaseException:
        sock.close()
        raise
    return sock


@system_failures()
def make_store(
    store: Path,
    library: Path,
    program: Program = PROGRAM,
    *,
    replace: bool = False,
    bank: int | None = None,
    sparse: bool = False,
) -> None:
    """Makes a file the store of a library, without objects, by `oaut format`. A file that is there
    already raises FileExistsError, but with `replace=True` begins anew: its objects are gone then.
    `bank` is the number of bytes of each of its two banks, 20,971,520 if none is given: the file
    has 33,562,624 bytes and both banks, 75,505,664 then. All of them take room on the device, so
    that a full one fails no commit. With `sparse=True`, for tests and small stores, only what was
    written does: commits are slower, and fail on a full device. Raises NotALibrary or another
    SessionEnded if the program refuses."""
    path, what = os.fspath(store), "no store was made"
    words = [os.fspath(library), *_bank(bank)]
    if sparse and (replace or not isinstance(program, (str, os.PathLike))):
        raise WrongValue("sparse=True is for a new file, which a program of this machine formats")
    if replace:
        _run(what, ["format", path, *words], program, library)
        return
    told = "there is such a file; replace=True makes it a store without objects"
    if os.path.exists(path):
        raise system_failed(FileExistsError, errno.EEXIST, told, path)
    if not isinstance(program, (str, os.PathLike)):
        # a program elsewhere, perhaps
        if _has_file(path, program, what):
            raise system_failed(FileExistsError, errno.EEXIST, told, path)
        _run(what, ["format", path, *words], program, library)
        return
    # a store that another process makes meanwhile is not emptied
    with beside(path) as made:
        if sparse:
            with io.open(made, "xb") as file:
                file.truncate(stores.length_of(bank or stores.BANK))
        _run(what, ["format", made, *words], program, library, {made: path})
        named(made, path)


def _has_file(path: str, program: Program, what: str) -> bool:
    """Whether a program that words start, on another machine or as another user, sees such a file:
    `oaut format` would empty it. Raises SessionEnded if the program does not say."""
    with Starting(program):
        done = subprocess.run(
            [*words_of_program(program), "dump", "--library", path],
            stdin=subprocess.DEVNULL,
            stdout=subprocess.DEVNULL,
            stderr=subprocess.PIPE,
        )
    if done.returncode in (0, 3):
        return True
    end = ending(what, done.stderr, done.returncode)
    if isinstance(end, (NoSuchFile, StoreInUse)):
        return isinstance(end, StoreInUse)
    raise end


@system_failures()
def upgrade_store(store: Path, program: Program = PROGRAM, *, bank: int | None = None) -> None:
    """Brings a store of format 1 to format 2, by `oaut upgrade`: its library and its objects stay,
    and wherever it is stopped the file is the old store or the new one. `bank` is the number of
    bytes of each of its two banks. Raises SessionEnded if the program refuses, with the fault
    `already format 2` too."""
    _run("the store was not upgraded", ["upgrade", os.fspath(store), *_bank(bank)], program)


def _bank(bank: int | None) -> list[str]:
    return [] if bank is None else ["--bank", str(bank)]


def _run(
    what: str,
    words: list[str],
    program: Program,
    library: Path | None = None,
    names: dict[str, str] | None = None,
) -> None:
    """Runs the program to its end. `names` are what its faults are to call files."""
    with Starting(program):
        done = subprocess.run(
            [*words_of_program(program), *words],
            stdin=subprocess.DEVNULL,
            stdout=subprocess.DEVNULL,
            stderr=subprocess.PIPE,
        )
    if done.returncode:
        said = done.stderr
        for made, path in (names or {}).items():
            said = said.replace(os.fsencode(made), os.fsencode(path))
        raise of_library(ending(what, said, done.returncode), library, program)


def of_library(end: SessionEnded, library: Path | None, program: Program = PROGRAM) -> SessionEnded:
    """Returns the same end, or a refused library with line and column if that is the cause."""
    if library is None or end.status != 2 or not (end.fault or "").startswith("oaut: "):
        return end
    path = os.fspath(library)
    try:
        with io.open(path, "rb") as file:
            text = file.read()
    except OSError:
        return LibraryRefused(end.fault, end.status)
    place = place_of(end.fault, text, path)
    return LibraryRefused(end.fault, end.status, place, _note(program, path) if place else "")


def _note(program: Program, path: str) -> str:
    """Returns the note of `oaut check --where` for a syntax error, or nothing."""
    words = [*words_of_program(program), "check", "--where", path]
    try:
        done = subprocess.run(words, stdin=subprocess.DEVNULL, capture_output=True, timeout=10)
    except (OSError, subprocess.TimeoutExpired):
        return ""
    lines = done.stderr.decode("utf-8", "replace").splitlines()
    return "\n".join(it for it in lines if it.startswith("note: "))


def explaining(program: Program) -> typing.Callable[[Error, bytes, str], Exception]:
    """A function that finds out by `oaut check` why a text is not a library."""

    def explain(fault: Error, text: bytes, path: str) -> Exception:
        if not isinstance(fault, Refused) or fault.code != LibraryNotTaken.code:
            return fault
        try:
            done = subprocess.run(
                [*words_of_program(program), "check", path], capture_output=True, check=False
            )
        except OSError:
            return fault
        end = ending("", done.stderr, done.returncode)
        if end.status != 2:
            return fault
        place = place_of(end.fault, text, path)
        return LibraryNotTaken(fault, end.fault, place, _note(program, path) if place else "")

    return explain


class Starting:
    """Raises an exception of the client if a program cannot be started."""

    def __init__(self, program: Program) -> None:
        self.name = (words_of_program(program) or [""])[0]

    def __enter__(self) -> None:
        if not self.name:
            raise WrongValue("program is a path, or a list of words that begins with one")

    def __exit__(self, _: object, error: BaseException | None, __: object) -> None:
        if isinstance(error, (FileNotFoundError, NotADirectoryError)):
            told = f"there is no program {self.name}: name it by program=, or have it on the path"
            raise ProgramNotFound(told) from error
        if isinstance(error, OSError):
            told = f"the program {self.name} cannot be started: {error.strerror}"
            raise SessionEnded(told) from error


def _start(
    words: list[str],
    program: Program,
    framing: str,
    group: int,
    ends: bool,
    timeout: float | None,
    library: Path,
) -> Server:
    check_timeout(timeout)
    errors = tempfile.TemporaryFile()
    start: typing.Callable[[list[str]], subprocess.Popen[bytes]] = functools.partial(
        typing.cast(typing.Callable[..., "subprocess.Popen[bytes]"], subprocess.Popen),
        stdin=subprocess.PIPE,
        stdout=subprocess.PIPE,
        stderr=errors,
        bufsize=0,
        # an interrupt at the terminal is for the caller alone
        start_new_session=True,
    )
    line = [*words_of_program(program), *words, *FRAMINGS[framing].words]
    # (by a `map`, as an interrupt may come between any two steps)
    begun: list[subprocess.Popen[bytes]] = []
    connections: list[Connection] = []
    try:
        with Starting(program):
            begun += map(start, (line,))
        child = begun[0]
        two = typing.cast(typing.BinaryIO, child.stdout), typing.cast(typing.BinaryIO, child.stdin)
        connections += map(Connection, *((it,) for it in (*two, framing, timeout, child, errors)))
        name = " ".join(words[:2])
        server = Server(connections[0], group, ends, what=name, explain=explaining(program))
        server.library
        return server
    except BaseException as error:
        for connection in connections:
            let_go(connection)
        if not connections:
            errors.close()
            for child in begun:
                end_child(child)
        if isinstance(error, SessionEnded):
            # the only request was that for the library
            error.may_stand = False
            raise of_library(error, library, program) from None
        raise


def end_child(child: subprocess.Popen[bytes]) -> None:
    """Ends a program that was started, and has no requests."""
    for stream in (child.stdin, child.stdout):
        if stream is not None:
            stream.close()
    child.wait()
