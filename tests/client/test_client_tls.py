"""Sessions over TLS: what is checked by default, and the exception of each fault, within the
timeout."""
import asyncio
import os
import shutil
import socket
import ssl
import subprocess
import tempfile
import threading
import time
import unittest

from oaut import aio, faults, tls
from tests.client.clients import FULL, PROGRAM, ClientCases, oaut
from tests.support.certificates import Authority

MISSING = None if shutil.which("openssl") else "openssl is not there"


class Front:
    """A port with TLS, each of whose connections gets a server with objects in memory."""

    def __init__(self, pair, ca=None):
        self.context = ssl.SSLContext(ssl.PROTOCOL_TLS_SERVER)
        self.context.load_cert_chain(*pair)
        if ca is not None:
            self.context.load_verify_locations(ca)
            self.context.verify_mode = ssl.CERT_REQUIRED
        self.names, self.children = [], []
        self.context.sni_callback = lambda sock, name, context: self.names.append(name)
        self.socket = socket.create_server(("127.0.0.1", 0))
        self.port = self.socket.getsockname()[1]
        threading.Thread(target=self._serve, daemon=True).start()

    def _serve(self):
        while True:
            try:
                sock, _ = self.socket.accept()
            except OSError:
                return
            try:
                local = tls.Pump(self.context.wrap_socket(sock, server_side=True)).local
            except OSError:
                sock.close()
                continue
            with local:
                self.children.append(
                    subprocess.Popen([PROGRAM, "play", FULL], stdin=local, stdout=local)
                )

    def child(self):
        """The server of the first connection: it may have answered before its thread has noted
        it."""
        until = time.monotonic() + 300
        while not self.children and time.monotonic() < until:
            time.sleep(0.01)
        return self.children[0]

    def url(self, host="localhost", **parts):
        query = "&".join(f"{key}={value}" for key, value in parts.items() if value)
        return f"oauts://{host}:{self.port}{'?' if query else ''}{query}"

    def __enter__(self):
        return self

    def __exit__(self, *_):
        self.socket.close()
        for it in self.children:
            it.wait(300)


def plain(answer):
    """A port whose server knows nothing of TLS: it answers these bytes, closes at once, or is
    silent."""
    there = socket.create_server(("127.0.0.1", 0))

    def serve():
        held = []
        while True:
            try:
                sock, _ = there.accept()
            except OSError:
                return
            if answer is None:
                held.append(sock)
                continue
            with sock:
                if answer:
                    sock.recv(1)
                    sock.sendall(answer)

    threading.Thread(target=serve, daemon=True).start()
    return there


@unittest.skipIf(MISSING, MISSING)
@unittest.skipUnless(os.path.exists(PROGRAM), "the program is not there")
class Tls(ClientCases):
    @classmethod
    def setUpClass(cls):
        cls.folder = tempfile.TemporaryDirectory()
        cls.room = cls.folder.name
        cls.own, cls.other = Authority(cls.room, "own"), Authority(cls.room, "other")
        cls.server = cls.own.signed("server", "localhost", "items.stores.example")
        cls.client = cls.own.signed("me")

    @classmethod
    def tearDownClass(cls):
        cls.folder.cleanup()

    def connected(self, url, timeout):
        """Both clients, each in turn."""

        async def awaited():
            async with aio.connect(url, timeout=timeout) as server:
                return await server.objects()

        def waited():
            with oaut.connect(url, timeout=timeout) as server:
                return server.objects()

        return (("it", waited), ("asyncio", lambda: asyncio.run(awaited())))

    def refused(self, what, url, kind, says, timeout=60):
        for name, act in self.connected(url, timeout):
            begun = time.monotonic()
            error = self.raises(f"{what}, {name}", kind, act)
            self.same(f"{what}, {name}: its kind", type(error), kind)
            self.tell(f"{what}, {name}: it says {says}", says in str(error), str(error))
            self.tell(
                f"{what}, {name}: within the timeout",
                time.monotonic() - begun < timeout + 60,
                time.monotonic() - begun,
            )

    def test_a_session(self):
        with Front(self.server) as front:
            with oaut.connect(front.url(ca=self.own.path), timeout=120) as server:
                item = server.create("Item")
                item.Count, item.Name = 7, "n" * 500_000
                self.same("values", (int(item.Count), item.Name), (7, "n" * 500_000))
                with server.batch():
                    for number in range(3_000):
                        item.Count = number
                    later = item.Count
                self.same("a batch", int(later.value), 2_999)
            self.same("the name that was asked for", front.names, ["localhost"])

    def test_a_session_of_asyncio(self):
        async def act():
            async with aio.connect(front.url(ca=self.own.path), timeout=120) as server:
                item = await server.create("Item")
                await item.put("Name", "n" * 500_000)
                await asyncio.gather(*(item.put("Count", it) for it in range(2_000)))
                return await item.get("Name"), int(await item.get("Count"))

        with Front(self.server) as front:
            self.same("values", asyncio.run(act()), ("n" * 500_000, 1_999))

    def test_another_name(self):
        with Front(self.server) as front:
            with oaut.connect(
                front.url("127.0.0.1", ca=self.own.path, name="items.stores.example"), timeout=60
            ) as server:
                self.same("a session", server.objects(), [])
            self.same("the name that was asked for", front.names, ["items.stores.example"])

    def test_certificates_of_servers(self):
        with Front(self.server) as front:
            self.refused(
                "of nobody's",
                front.url(),
                faults.CertificateRefused,
                "certificate is refused: unable to get local issuer certificate",
            )
            self.refused(
                "of another authority",
                front.url(ca=self.other.path),
                faults.CertificateRefused,
                "certificate is refused",
            )
            self.refused(
                "of another name",
                front.url("127.0.0.1", ca=self.own.path),
                faults.WrongHostName,
                "127.0.0.1",
            )
            self.refused(
                "a name that is not its own",
                front.url(ca=self.own.path, name="items.example"),
                faults.WrongHostName,
                "items.example",
            )
        with Front(self.own.signed("old", "localhost", end="20210101000000Z")) as front:
            self.refused(
                "that has expired",
                front.url(ca=self.own.path),
                faults.CertificateExpired,
                "certificate has expired",
            )
        with Front(self.own.signed("new", "localhost", begin="20980101000000Z")) as front:
            self.refused(
                "that is not valid yet",
                front.url(ca=self.own.path),
                faults.CertificateExpired,
                "not yet valid",
            )

    def test_servers_without_tls(self):
        for what, answer, timeout in (
            ("one that answers", bytes.fromhex("10000000 00000000 f7060780 ffffffff 00000000"), 60),
            ("one that ends", b"", 60),
            ("one that is silent", None, 1),
        ):
            there = plain(answer)
            url = f"oauts://127.0.0.1:{there.getsockname()[1]}"
            self.refused(what, url, faults.NoTls, "no TLS", timeout)
            there.close()

    def test_certificates_of_clients(self):
        theirs = self.other.signed("me")
        with Front(self.server, self.own.path) as front:
            with oaut.connect(
                front.url(ca=self.own.path, cert=self.client[0], key=self.client[1]), timeout=60
            ) as server:
                self.same("a session", server.objects(), [])
            self.refused(
                "none",
                front.url(ca=self.own.path),
                faults.ClientCertificateRefused,
                "certificate required, and no cert was given",
            )
            self.refused(
                "of another authority",
                front.url(ca=self.own.path, cert=theirs[0], key=theirs[1]),
                faults.ClientCertificateRefused,
                "unknown ca",
            )

    def test_files(self):
        locked = f"{self.room}/locked.key"
        subprocess.run(
            [
                "openssl",
                "ec",
                "-in",
                self.client[1],
                "-aes256",
                "-passout",
                "pass:x",
                "-out",
                locked,
            ],
            check=True,
            stderr=subprocess.DEVNULL,
        )
        with Front(self.server) as front:
            gone = self.raises(
                "one that is not there",
                FileNotFoundError,
                lambda: oaut.connect(front.url(ca="/nowhere.pem")),
            )
            self.same("its name", gone.filename, "/nowhere.pem")
            url = front.url(ca=self.own.path, cert=self.client[0], key=self.server[1])
            self.raises(
                "another's key",
                oaut.TlsFailed,
                lambda: oaut.connect(url),
                f"oauts://localhost:{front.port}: the key is not that of the certificate",
            )
            url = front.url(ca=self.server[1])
            self.raises(
                "no certificate",
                oaut.TlsFailed,
                lambda: oaut.connect(url),
                f"oauts://localhost:{front.port}: a file of the address is no certificate, or no "
                "key",
            )
            url = front.url(ca=self.own.path, cert=self.client[0], key=locked)
            self.raises(
                "a key with a password",
                oaut.TlsFailed,
                lambda: oaut.connect(url),
                f"{locked}: the key is encrypted",
            )

    def test_patience(self):
        """It waits for a server, and not where it is not trusted."""
        with Front(self.server) as front:
            begun = time.monotonic()
            self.raises(
                "another authority",
                faults.CertificateRefused,
                lambda: oaut.connect(front.url(ca=self.other.path), patience=300),
            )
            self.tell("at once", time.monotonic() - begun < 100, time.monotonic() - begun)
            with oaut.connect(front.url(ca=self.own.path), patience=60, timeout=60) as server:
                self.same("a session", server.objects(), [])

    def test_a_connection_that_is_let_go(self):
        with Front(self.server) as front:
            with oaut.connect(front.url(ca=self.own.path), timeout=120) as server:
                server.objects()
                front.child().kill()
                front.child().wait()
                until = time.monotonic() + 60
                while not server._connection.gone() and time.monotonic() < until:
                    time.sleep(0.01)
                self.same("it is dialled again", (server.objects(), len(front.names)), ([], 2))

    def test_a_fork(self):
        """A forked process keeps nothing of the connection: the server sees its end."""
        with Front(self.server) as front:
            server = oaut.connect(front.url(ca=self.own.path), timeout=60)
            server.objects()
            ours, theirs = os.pipe()
            child = os.fork()
            if not child:
                os.close(theirs)
                os.read(ours, 1)
                os._exit(0)
            os.close(ours)
            server.close()
            self.same("the server's end", front.child().wait(300), 0)
            os.close(theirs)
            os.waitpid(child, 0)
