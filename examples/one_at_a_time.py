#!/usr/bin/env python3
"""Serves clients one after another: the next one that has sent something waits until the one before
has gone.

    examples/one_at_a_time.py --listen /tmp/oaut.socket --idle 600 oaut serve items.store items.idl
    systemd-socket-activate -l /tmp/oaut.socket examples/one_at_a_time.py oaut serve items.store
        items.idl

The words are those of the program that each client gets. It listens at HOST:PORT or at the path of
a socket, for this user alone; without
--listen at the socket that systemd hands over with `Accept=no`, as descriptor 3. A client gets its
turn when it sends its first byte, so silent clients delay nobody. A client that sends nothing for
so many seconds, or does not read its replies, is disconnected; its acknowledged writes stay. For
each client a line on standard error has its address, the time of its turn, the number of its
requests and the program's status. The script survives any end of a client's connection.
"""
import argparse
import collections
import errno
import os
import queue
import resource
import selectors
import shutil
import signal
import socket
import stat
import struct
import subprocess
import sys
import threading
import time

# clients that may be connected and not served yet: above it the one that has been silent longest is
# let go
WAITING = 1_000


class Requests:
    """Counts the requests in a stream: lines, or records after their lengths."""

    def __init__(self, lines):
        self.count, self.lines = 0, lines
        self.head, self.left = b"", 0

    def see(self, data):
        if self.lines:
            self.count += data.count(b"\n")
            return
        at = 0
        while at < len(data):
            if self.left:
                step = min(self.left, len(data) - at)
                self.left, at = self.left - step, at + step
                continue
            part = data[at : at + 4 - len(self.head)]
            self.head, at = self.head + part, at + len(part)
            if len(self.head) == 4:
                self.left, self.head = int.from_bytes(self.head, "little"), b""
                self.count += self.left > 0


class Client:
    """A connection, and who it is in words: as it was accepted, since one that has gone is not told
    by the system any more."""

    def __init__(self, sock, address, idle):
        self.sock, self.since = sock, time.monotonic()
        if sock.family == socket.AF_UNIX:
            process, user, _ = struct.unpack(
                "3i", sock.getsockopt(socket.SOL_SOCKET, socket.SO_PEERCRED, 12)
            )
            self.name = f"process {process} of user {user}"
        else:
            self.name = "%s port %s" % address[:2]
        # how long it is waited for, by the program too, which writes its replies to it (a timeout
        # of Python's would make it one that never waits)
        until = struct.pack("ll", int(idle), int(idle % 1 * 1_000_000))
        sock.setsockopt(socket.SOL_SOCKET, socket.SO_RCVTIMEO, until)
        sock.setsockopt(socket.SOL_SOCKET, socket.SO_SNDTIMEO, until)
        sock.setsockopt(socket.SOL_SOCKET, socket.SO_KEEPALIVE, 1)

    def let_go(self, why):
        tell(f"{self.name}: {why}")
        self.sock.close()


def tell(line):
    """A line on standard error, even if nobody reads that any more."""
    try:
        print(line, file=sys.stderr, flush=True)
    except OSError:
        pass


def hang_up(sock, child):
    """Ends the connection after the program has ended, for any reason."""
    child.wait()
    try:
        sock.shutdown(socket.SHUT_RDWR)
    except OSError:
        pass


def session(client, words, idle):
    """Serves one client, and gives the line about it."""
    begun, seen, end = time.monotonic(), Requests("--hex" in words), ""
    # what the program says at its end goes to standard error, so to the journal
    with subprocess.Popen(words, stdin=subprocess.PIPE, stdout=client.sock, bufsize=0) as child:
        threading.Thread(target=hang_up, args=(client.sock, child), daemon=True).start()
        try:
            for data in iter(lambda: client.sock.recv(65_536), b""):
                seen.see(data)
                while data:
                    data = data[child.stdin.write(data) :]
        except BlockingIOError:
            end = f", idle for {idle:g} s"
        except BrokenPipeError:
            end = ", ended by the program"
        except OSError as error:
            end = f", connection lost: {error.strerror}"
        child.stdin.close()
        status = child.wait()
    return (
        f"{client.name}: {time.monotonic() - begun:.1f} s, {seen.count} requests, status "
        f"{status}{end}"
    )


def turns(ready, words, idle):
    """Serves the clients that have sent something, in that order."""
    for client in iter(ready.get, None):
        try:
            with client.sock:
                tell(session(client, words, idle))
        except OSError as error:
            tell(f"{client.name}: {error}")


def gone(client):
    """Says in words how a client ended that can be read and has sent nothing."""
    try:
        return "" if client.sock.recv(1, socket.MSG_PEEK | socket.MSG_DONTWAIT) else "sent nothing"
    except OSError as error:
        return f"sent nothing, connection lost: {error.strerror}"


def accept(listening, idle):
    """The next client. An error that belongs to a client which has gone in the meantime is no
    client."""
    try:
        sock, address = listening.accept()
    except BlockingIOError:
        return None
    except OSError as error:
        tell(f"no client: {error.strerror}")
        if error.errno in (errno.EMFILE, errno.ENFILE, errno.ENOBUFS, errno.ENOMEM):
            time.sleep(0.1)  # until one that is there has gone
        return None
    sock.setblocking(True)
    try:
        return Client(sock, address, idle)
    except OSError as error:
        sock.close()
        tell(f"no client: {error.strerror}")
        return None


def serve(listening, words, idle):
    """Accepts clients for ever."""
    ready = queue.SimpleQueue()
    threading.Thread(target=turns, args=(ready, words, idle), daemon=True).start()
    silent, looking = collections.OrderedDict(), selectors.DefaultSelector()
    listening.setblocking(False)
    looking.register(listening, selectors.EVENT_READ)
    # (a signal may come in the other thread, and this one has to look up)
    woken, waking = socket.socketpair()
    waking.setblocking(False)
    signal.set_wakeup_fd(waking.fileno())
    looking.register(woken, selectors.EVENT_READ)

    def leave(client):
        looking.unregister(client.sock)
        del silent[client]

    while True:
        first = next(iter(silent), None)
        for key, _ in looking.select(first and max(0, first.since + idle - time.monotonic())):
            if key.fileobj is woken:
                woken.recv(100)
            elif key.fileobj is listening:
                client = accept(listening, idle)
                if client:
                    silent[client] = True
                    looking.register(client.sock, selectors.EVENT_READ, client)
            elif key.data in silent:
                leave(key.data)
                why = gone(key.data)
                if why:
                    key.data.let_go(why)
                else:
                    ready.put(key.data)
        while silent:
            first = next(iter(silent))
            if time.monotonic() < first.since + idle and len(silent) <= WAITING:
                break
            leave(first)
            first.let_go(f"sent nothing for {time.monotonic() - first.since:.1f} s")


def listener(place):
    """A socket that listens at HOST:PORT, or at a path, in the place of one that nobody listens at
    any more."""
    host, colon, port = place.rpartition(":")
    if colon and "/" not in place:
        return socket.create_server(
            (host.strip("[]"), int(port)),
            family=socket.AF_INET6 if host.startswith("[") else socket.AF_INET,
            backlog=WAITING,
        )
    listening = socket.socket(socket.AF_UNIX)
    if os.path.exists(place) and stat.S_ISSOCK(os.stat(place).st_mode):
        try:
            listening.connect(place)
            raise OSError(errno.EADDRINUSE, os.strerror(errno.EADDRINUSE))
        except ConnectionRefusedError:
            os.unlink(place)
            listening = socket.socket(socket.AF_UNIX)
    mask = os.umask(0o177)
    listening.bind(place)
    os.umask(mask)
    listening.listen(WAITING)
    return listening


def allow_files(count):
    """Allows this process so many open files, as far as it may."""
    try:
        now, most = resource.getrlimit(resource.RLIMIT_NOFILE)
        if 0 <= now < count:
            resource.setrlimit(
                resource.RLIMIT_NOFILE, (min(count, most) if most >= 0 else count, most)
            )
    except (OSError, ValueError):
        pass  # (in a unit that may not, LimitNOFILE= does it)


def main():
    parser = argparse.ArgumentParser(
        description=__doc__, formatter_class=argparse.RawDescriptionHelpFormatter
    )
    parser.add_argument("--listen", metavar="PLACE", help="HOST:PORT, or the path of a socket")
    parser.add_argument(
        "--idle",
        type=float,
        default=600,
        metavar="SECONDS",
        help="how long a client may be silent (600)",
    )
    parser.add_argument(
        "words",
        nargs=argparse.REMAINDER,
        metavar="PROGRAM WORD..",
        help="the program, and its words",
    )
    given = parser.parse_args()
    handed = os.environ.get("LISTEN_FDS") == "1" and os.environ.get("LISTEN_PID") == str(
        os.getpid()
    )
    if not given.words or not (given.listen or handed) or not 0 < given.idle < 1e9:
        parser.error(
            "a place to listen at, or one listening socket of systemd, and the words of a program"
        )
    if shutil.which(given.words[0]) is None:
        parser.error(f"there is no program {given.words[0]}")
    for it in (signal.SIGTERM, signal.SIGINT):
        signal.signal(it, lambda *_: sys.exit(0))
    allow_files(2 * WAITING)
    try:
        listening = listener(given.listen) if given.listen else socket.socket(fileno=3)
    except (OSError, ValueError) as error:
        parser.error(f"cannot listen at {given.listen}: {error}")
    try:
        serve(listening, given.words, given.idle)
    except SystemExit:
        if given.listen and listening.family == socket.AF_UNIX:
            os.unlink(given.listen)
        os._exit(0)  # whoever is served goes with its program, whose input ends here


if __name__ == "__main__":
    main()
