"""Ports of this machine for programs that are told theirs."""
import contextlib
import functools
import socket

_KEPT = []  # sockets that keep ports


@functools.lru_cache(None)
def has_ipv6():
    """Whether this machine has an address `::1`."""
    with contextlib.suppress(OSError), socket.socket(socket.AF_INET6) as sock:
        sock.bind(("::1", 0))
        return True
    return False


def free_port():
    """A port of 127.0.0.1, and of ::1 where there is that. It stays bound as long as this process
    lives, so that no other process gets it, and no connection has it as its own end. A program that
    sets SO_REUSEADDR, as servers do, may listen on it all the same."""
    hosts = [(socket.AF_INET, "127.0.0.1")] + ([(socket.AF_INET6, "::1")] if has_ipv6() else [])
    while True:
        with contextlib.ExitStack() as stack, contextlib.suppress(OSError):
            port = 0
            for family, host in hosts:
                sock = stack.enter_context(socket.socket(family))
                sock.setsockopt(socket.SOL_SOCKET, socket.SO_REUSEADDR, 1)
                sock.bind((host, port))
                port = sock.getsockname()[1]
            _KEPT.append(stack.pop_all())
            return port
