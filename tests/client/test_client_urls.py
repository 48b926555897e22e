"""Addresses: URLs, and the forms of before."""
import asyncio
import os
import socket
import tempfile
import threading

from oaut import aio
from oaut.addresses import Secure, address_of, address_words
from tests.client.clients import FULL, PROGRAM, ClientCases, oaut

# of each address what it is
READ = [
    ("oaut+unix:///run/oaut/items.sock", "/run/oaut/items.sock"),
    ("OAUT+UNIX:///a%20b%2525/%C3%A9+c", "/a b%25/\u00e9+c"),
    ("oaut+unix:///%ff", "/\udcff"),
    ("oaut://127.0.0.1:8000", ("127.0.0.1", 8000)),
    ("oaut://items.example", ("items.example", 8765)),
    ("oaut://[::1]:8000", ("::1", 8000)),
    ("oaut://[fe80::1%25eth0]", ("fe80::1%eth0", 8765)),
    ("oauts://items.example", Secure("items.example", 8766)),
    (
        "oauts://items.example:1?ca=/a%26b&cert=c+d&key=%25",
        Secure("items.example", 1, "/a&b", "c+d", "%"),
    ),
    ("oauts://10.0.0.1?name=items.example", Secure("10.0.0.1", 8766, name="items.example")),
    ("localhost:8765", ("localhost", 8765)),
    ("[::1]:8765", ("::1", 8765)),
    ("items.sock", "items.sock"),
    ("/run/a:70000", "/run/a:70000"),
    (("localhost", 1), ("localhost", 1)),
]
WRONG = [
    ("oaut+unix://items.sock", "write oaut+unix:///path, with the path of a socket"),
    ("oaut+unix:///a?b=c", "write oaut+unix:///path, with the path of a socket"),
    ("http://localhost:8765", "write oaut+unix:///path, oaut://HOST:PORT or oauts://HOST:PORT"),
    ("oaut+tcp://localhost", "write oaut+unix:///path, oaut://HOST:PORT or oauts://HOST:PORT"),
    ("oaut://", "write oaut://HOST:PORT"),
    ("oaut://me@host", "write oaut://HOST:PORT"),
    ("oaut://host:70000", "write oaut://HOST:PORT"),
    ("oaut://host:", "write oaut://HOST:PORT"),
    ("oaut://[[::1]", "write oaut://HOST:PORT"),
    ("oaut://host:\u0663", "write oaut://HOST:PORT"),
    ("oaut://host/items", "an address has no path after host and port"),
    ("oaut://host?ca=x", "only oauts:// has certificates"),
    ("oaut://host#x", "an address has no #: write it as %23"),
    ("oaut+unix:///a%2", "% needs two hexadecimal digits after it"),
    ("oaut+unix:///a%00b", "no part has the byte 0"),
    ("oauts://host?ac=x", "ac=x: write ca, cert, key, name, each once and with a value"),
    ("oauts://host?ca=a&ca=b", "ca=b: write ca, cert, key, name, each once and with a value"),
    ("oauts://host?ca=", "ca=: write ca, cert, key, name, each once and with a value"),
    ("oauts://host?key=a", "key is that of cert, which is missing"),
]


class Addresses(ClientCases):
    def test_what_is_read(self):
        for given, wanted in READ:
            self.same(f"{given}", address_of(given), wanted)

    def test_what_is_none(self):
        for given, told in WRONG:
            self.raises(given, ValueError, lambda: address_of(given), f"{given}: {told}")
            self.raises(
                f"{given} at connect", ValueError, lambda: oaut.connect(given), f"{given}: {told}"
            )

    def test_what_no_host_is_named(self):
        for host in ("a" * 64, f"{'a' * 64}.example", "a..example"):
            for url in (f"oaut://{host}:1", f"oauts://{host}:1"):
                for what, act in (
                    ("", lambda: oaut.connect(url, timeout=60)),
                    (" in asyncio", lambda: asyncio.run(self.awaited(url))),
                ):
                    told = "not a host's name: each of its parts has 1 to 63 characters"
                    self.raises(
                        f"{url}{what}",
                        socket.gaierror,
                        act,
                        strerror=told,
                        filename=address_words(address_of(url)),
                    )

    def test_a_timeout_that_is_none(self):
        """Seconds within which no reply can come."""
        port = socket.create_server(("127.0.0.1", 0))
        address = port.getsockname()
        for timeout in (0, -1, float("nan")):
            told = f"timeout={timeout}: a number of seconds above 0, or None"
            for what, act in (
                ("play", lambda: oaut.play(FULL, program=PROGRAM, timeout=timeout)),
                ("connect", lambda: oaut.connect(address, timeout=timeout)),
                (
                    "play in asyncio",
                    lambda: asyncio.run(
                        self.begun(aio.play(FULL, program=PROGRAM, timeout=timeout))
                    ),
                ),
                (
                    "connect in asyncio",
                    lambda: asyncio.run(self.begun(aio.connect(address, timeout=timeout))),
                ),
            ):
                self.raises(f"{what}, {timeout}", ValueError, act, told)
        port.close()

    async def begun(self, opening):
        async with opening:
            pass

    def test_words(self):
        for given, told in (
            ("oauts://[::1]?key=a&cert=b", "oauts://[::1]:8766"),
            ("oaut://host", "host:8765"),
            ("oaut+unix:///a%20b", "/a b"),
        ):
            self.same(given, address_words(address_of(given)), told)

    def test_sessions(self):
        """Over a socket's path and over a port, in the client and in asyncio."""
        with tempfile.TemporaryDirectory() as room:
            path = f"{room}/a b%.sock"
            there = socket.socket(socket.AF_UNIX)
            there.bind(path)
            port = socket.create_server(("127.0.0.1", 0))
            for it in (there, port):
                it.listen()
                threading.Thread(target=self.serve, args=(it,), daemon=True).start()
            for url in (
                f"oaut+unix://{room}/a%20b%25.sock",
                f"oaut://127.0.0.1:{port.getsockname()[1]}",
            ):
                with oaut.connect(url, timeout=60) as server:
                    item = server.create("Item")
                    item.Count = 7
                    self.same(
                        url,
                        (int(item.Count), repr(server)),
                        (7, f"<oaut.Server: connected to {address_words(address_of(url))}>"),
                    )
                self.same(f"{url} in asyncio", asyncio.run(self.awaited(url)), 8)
            there.close()
            port.close()
            gone = self.raises(
                "a path where nobody listens",
                FileNotFoundError,
                lambda: oaut.connect(f"oaut+unix://{room}/none"),
            )
            self.same("its name", gone.filename, f"{room}/none")

    async def awaited(self, url):
        async with aio.connect(url, timeout=60) as server:
            item = await server.create("Item")
            await item.put("Count", 8)
            return int(await item.get("Count"))

    def serve(self, there):
        import subprocess

        while True:
            try:
                sock, _ = there.accept()
            except OSError:
                return
            with sock:
                subprocess.Popen([PROGRAM, "play", FULL], stdin=sock, stdout=sock)
