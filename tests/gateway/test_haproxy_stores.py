"""The configuration that dist/lib/haproxy-stores writes for a host: which client reaches which
store, also by a session of TLS that is taken up again."""
import contextlib
import re
import socket
import ssl
import subprocess
import tempfile
import threading
import unittest

from tests.gateway.gateways import SECONDS, Gateway, left_out
from tests.support.certificates import Authority
from tests.support.ports import free_port
from tests.support.running import ROOT, Cases

NAMES = ("items", "orders")
# from this line on the configuration takes up no session
NOT_AGAIN = (
    "    tune.ssl.cachesize 0\n    ssl-default-bind-options no-tls-tickets ssl-min-ver TLSv1.2\n"
)


class Site:
    """A host with two stores, whose gateways are sockets that send a store's name and close."""

    def __init__(self, room, changed=lambda text: text):
        self.room, self.port = room, free_port()
        self.authority = Authority(room, "stores")
        self.clients = {name: Authority(room, f"clients-of-{name}") for name in NAMES}
        self.mine = {name: it.signed(f"me-{name}") for name, it in self.clients.items()}
        lines = ["[front]", f"port = {self.port}"]
        for name in NAMES:
            lines += [
                f"[{name}]",
                f"name = {name}.stores.example",
                "hosts = 127.0.0.1",
                f"certificate = {self.authority.both(name, f'{name}.stores.example')}",
            ]
            lines += [f"clients = {self.clients[name].path}", f"socket = {room}/{name}.sock"]
        with open(f"{room}/stores.list", "w") as file:
            file.write("\n".join([*lines, ""]))
        subprocess.run(
            [f"{ROOT}/dist/lib/haproxy-stores", "host", f"{room}/stores.list", f"{room}/host"],
            check=True,
        )
        path = f"{room}/host/haproxy.cfg"
        with open(path) as file:
            text = changed(file.read())
        with open(path, "w") as file:
            file.write(text)

    @contextlib.contextmanager
    def running(self):
        with contextlib.ExitStack() as stack:
            for name in NAMES:
                stack.enter_context(answering(f"{self.room}/{name}.sock", name.encode()))
            child = subprocess.Popen(
                ["haproxy", "-db", "-f", f"{self.room}/host/haproxy.cfg"],
                stdout=subprocess.DEVNULL,
                stderr=subprocess.DEVNULL,
            )
            stack.callback(child.wait)
            stack.callback(child.kill)
            Gateway.wait_for(self.listens, "HAProxy does not listen")
            yield self

    def listens(self):
        with contextlib.suppress(OSError), socket.create_connection(
            ("127.0.0.1", self.port), SECONDS
        ):
            return True
        return False

    def context(self, version, who=None):
        made = ssl.SSLContext(ssl.PROTOCOL_TLS_CLIENT)
        made.load_verify_locations(self.authority.path)
        made.minimum_version = made.maximum_version = version
        if who:
            made.load_cert_chain(*self.mine[who])
        return made

    def asked(self, context, name, session=None):
        """What a store sends, whether the session of before was taken up, and the session; nothing
        if the client is refused."""
        try:
            with socket.create_connection(("127.0.0.1", self.port), SECONDS) as raw:
                with context.wrap_socket(
                    raw, server_hostname=f"{name}.stores.example", session=session
                ) as sock:
                    said = b""
                    while some := sock.recv(100):
                        said += some
                    return said.decode(), sock.session_reused, sock.session
        except (ssl.SSLError, ConnectionError) as error:
            return "", f"{type(error).__name__} {error}", None


@contextlib.contextmanager
def answering(path, said):
    """A socket that sends this to each connection."""
    with socket.socket(socket.AF_UNIX) as there:
        there.bind(path)
        there.listen()

        def serve():
            with contextlib.suppress(OSError):
                while True:
                    with there.accept()[0] as sock:
                        sock.sendall(said)

        threading.Thread(target=serve, daemon=True).start()
        yield
        there.shutdown(socket.SHUT_RDWR)


@left_out("haproxy", "openssl")
class Host(Cases):
    def test_who_reaches_what(self):
        """A client reaches its own store and no other one, whatever session it brings."""
        with tempfile.TemporaryDirectory() as room, Site(room).running() as site:
            for version in (ssl.TLSVersion.TLSv1_2, ssl.TLSVersion.TLSv1_3):
                said, again, _ = site.asked(site.context(version), "items")
                self.tell(
                    f"{version.name}: a client without a certificate reaches no store",
                    said == "",
                    (said, again),
                )
                for own, other in (NAMES, NAMES[::-1]):
                    context = site.context(version, own)
                    said, again, session = site.asked(context, own)
                    self.tell(
                        f"{version.name}: a client of {own} reaches it",
                        (said, again) == (own, False),
                        (said, again),
                    )
                    said, again, _ = site.asked(context, own, session)
                    self.tell(
                        f"{version.name}: once more, by a new handshake",
                        (said, again) == (own, False),
                        (said, again),
                    )
                    for what, brought in (
                        ("without a session", None),
                        ("with its session", session),
                    ):
                        said, again, _ = site.asked(context, other, brought)
                        self.tell(
                            f"{version.name}: a client of {own} does not reach {other}, {what}",
                            said == "",
                            (said, again),
                        )

    def test_that_a_session_would_be_taken_up(self):
        """Without those lines HAProxy takes sessions up again: the test above is of something."""
        with tempfile.TemporaryDirectory() as room:
            site = Site(
                room,
                lambda text: text.replace(
                    NOT_AGAIN, "    ssl-default-bind-options ssl-min-ver TLSv1.2\n"
                ),
            )
            with open(f"{room}/host/haproxy.cfg") as file:
                self.tell("the lines are gone", not re.search("cachesize|tickets", file.read()))
            with site.running():
                context = site.context(ssl.TLSVersion.TLSv1_2, "items")
                session = site.asked(context, "items")[2]
                said, again, _ = site.asked(context, "items", session)
                self.tell("a session is taken up", (said, again) == ("items", True), (said, again))


if __name__ == "__main__":
    unittest.main()
