"""Addresses of the gateway's commands as URLs: what is read, what is refused, and each command by
one."""
import functools
import os
import random
import socket
import subprocess
import tempfile
import unittest
import urllib.parse

from tests.gateway.gateways import GATEWAY, SECONDS, Gateway, compiled, hear, left_out, record
from tests.gateway.test_gateway import NO_REQUEST, NONE, needs_cc, told_of
from tests.support.ports import free_port
from tests.support.running import Cases
from tests.support.wire import oaut

NO_TLS = "oaut-gateway has no TLS; HAProxy or stunnel adds it (see Permissions in its manual page)"
NEITHER = "neither a path nor HOST:PORT"
OF_PATH = "the path of a socket is needed, as in oaut+unix:///PATH"
OF_HOST = "host and port are needed, as in oaut://HOST:PORT"
DIGITS = "two hexadecimal digits have to follow %"
LONGEST = 107  # bytes of a socket's path, sockaddr_un less its byte 0
# of each word what it is: the bytes of a path, or host and port
READ = (
    ("/run/oaut/items.sock", b"/run/oaut/items.sock"),
    ("./items.sock", b"./items.sock"),
    ("./a%20b", b"./a%20b"),
    ("./" + "x" * (LONGEST - 2), b"./" + b"x" * (LONGEST - 2)),
    ("oaut+unix:///run/oaut/items.sock", b"/run/oaut/items.sock"),
    ("OAUT+UNIX:///a%20b%2525/%C3%A9+c", b"/a b%25/\xc3\xa9+c"),
    ("oaut+unix:///%ff%3F%23", b"/\xff?#"),
    ("oaut+unix:////a?", b"//a"),
    ("oaut+unix:///" + "x" * (LONGEST - 1), b"/" + b"x" * (LONGEST - 1)),
    ("oaut+unix:///" + "%78" * (LONGEST - 1), b"/" + b"x" * (LONGEST - 1)),
    ("127.0.0.1:8000", ("127.0.0.1", 8000)),
    ("localhost:8765", ("127.0.0.1", 8765)),
    ("[::1]:8765", ("::1", 8765)),
    ("127.0.0.1:65535", ("127.0.0.1", 65535)),
    ("oaut://127.0.0.1:8000", ("127.0.0.1", 8000)),
    ("oAuT://127.0.0.1", ("127.0.0.1", 8765)),
    ("oaut://localhost/", ("127.0.0.1", 8765)),
    ("oaut://[::1]:8000", ("::1", 8000)),
    ("oaut://[::1]", ("::1", 8765)),
    ("oaut://127%2e0.0.1:00080", ("127.0.0.1", 80)),
)
WRONG = (
    ("", NEITHER),
    ("items.sock", NEITHER),
    ("127.0.0.1:", NEITHER),
    ("127.0.0.1:65536", NEITHER),
    ("127.0.0.1:-1", NEITHER),
    ("127.0.0.1: 80", NEITHER),
    ("items.example:8765", NEITHER),
    ("[::1:8765", NEITHER),
    ("[]:8765", NEITHER),
    ("[:8765", NEITHER),
    ("1" * 63 + ":8765", NEITHER),
    ("1" * 64 + ":8765", NEITHER),
    ("./" + "x" * (LONGEST - 1), "the path is too long"),
    ("./" + "x" * LONGEST, "the path is too long"),
    ("oaut+unix://items.sock", OF_PATH),
    ("oaut+unix://", OF_PATH),
    ("oaut+unix:///", OF_PATH),
    ("oaut+unix:///a?b=c", OF_PATH),
    ("oaut+unix:///a%2", DIGITS),
    ("oaut+unix:///a%", DIGITS),
    ("oaut+unix:///a%g0", DIGITS),
    ("oaut+unix:///a%0g", DIGITS),
    ("oaut+unix:///a%00b", "no part may have the byte 0"),
    ("oaut+unix:///a#b", "an address has no part after #: write # as %23"),
    ("oaut+unix:///" + "x" * LONGEST, "the path is too long"),
    ("oaut://", OF_HOST),
    ("oaut://:8765", OF_HOST),
    ("oaut://me@127.0.0.1", OF_HOST),
    ("oaut://127.0.0.1:", OF_HOST),
    ("oaut://127.0.0.1:70000", OF_HOST),
    ("oaut://127.0.0.1:000080", OF_HOST),
    ("oaut://127.0.0.1:%38", OF_HOST),
    ("oaut://[::1", OF_HOST),
    ("oaut://[::1]x", OF_HOST),
    ("oaut://::1", OF_HOST),
    ("oaut://items.example:8765", OF_HOST),
    ("oaut://" + "1" * 200, OF_HOST),
    ("oaut://127.0.0.1%2", DIGITS),
    ("oaut://127.0.0.1/items", "no path follows host and port"),
    ("oaut://127.0.0.1?ca=x", "only oauts:// has certificates"),
    ("oauts://127.0.0.1:8766", NO_TLS),
    ("OAUTS://items.example:8766?ca=ca.pem", NO_TLS),
)


@functools.lru_cache(None)
def reader():
    """The driver of addresses.c, with the folder that has it as long as this process lives. A
    mutant of addresses.c is beside its gateway."""
    folder = tempfile.TemporaryDirectory()
    mutant = f"{os.path.dirname(os.environ.get('OAUT_GATEWAY') or '')}/addresses.c"
    source = mutant if os.path.exists(mutant) else f"{GATEWAY}/addresses.c"
    flags = [
        "-std=gnu11",
        "-D_GNU_SOURCE",
        "-g",
        "-O1",
        "-Wall",
        "-Wextra",
        "-Werror",
        "-fsanitize=address,undefined",
        "-fno-sanitize-recover=all",
    ]
    done = compiled(
        [
            "cc",
            *flags,
            "-I",
            GATEWAY,
            f"{GATEWAY}/tests/addresses.c",
            source,
            "-o",
            f"{folder.name}/addresses",
        ],
        "",
    )
    return f"{folder.name}/addresses", done, folder


def lines_of(words):
    """What addresses.c reads of words: the bytes of a path, host and port, or the reason as a
    text."""
    given = b"".join(os.fsencode(it) + b"\0" for it in words)
    done = subprocess.run([reader()[0]], input=given, capture_output=True, timeout=SECONDS)
    if done.returncode:
        raise AssertionError(done.stderr.decode(errors="replace")[-2000:])
    return [value_of(*line.split(" ", 1)) for line in done.stdout.decode().splitlines()]


def value_of(kind, rest):
    if kind == "unix":
        return bytes.fromhex(rest)
    return (rest.split(" ")[0], int(rest.split(" ")[1])) if kind == "tcp" else rest


def as_client_reads(url):
    """What the Python client reads of a URL, in the same form; None if it is none that a gateway
    without TLS and names of hosts has."""
    try:
        found = oaut.addresses.address_of(url)
    except ValueError:
        return None
    if isinstance(found, str):
        path = os.fsencode(found)
        return path if len(path) <= LONGEST else None
    if isinstance(found, oaut.addresses.Secure):
        return None
    try:
        host = "127.0.0.1" if found[0] == "localhost" else found[0]
        at = socket.getaddrinfo(
            host, found[1], type=socket.SOCK_STREAM, flags=socket.AI_NUMERICHOST
        )[0][4]
        return socket.getnameinfo(at, socket.NI_NUMERICHOST | socket.NI_NUMERICSERV)[0], found[1]
    except (OSError, UnicodeError):
        return None


def drawn(dice):
    """A URL, or nearly one."""
    scheme = dice.choice(
        [
            "oaut+unix:///",
            "oaut+unix://",
            "oaut://",
            "oaut://",
            "oauts://",
            "OAUT://",
            "Oaut+Unix:///",
            "oaut:/",
        ]
    )
    parts = [
        "127.0.0.1",
        "[::1]",
        "localhost",
        ":8765",
        ":0",
        ":65535",
        ":65536",
        "%31",
        "%2f",
        "%",
        "%f",
        "%00",
        "/",
        "?",
        "#",
        "@",
        "a",
        "é",
        "]",
        "[",
        " ",
    ]
    text = scheme + "".join(dice.choice(parts) for _ in range(dice.randrange(5)))
    return text + "x" * dice.choice([0] * 9 + [110])


@needs_cc
class Read(Cases):
    def test_the_driver_is_compiled(self):
        self.tell("no word of the compiler", reader()[1] == (0, ""), reader()[1])

    def test_what_is_read(self):
        for (word, wanted), got in zip(READ, lines_of([it for it, _ in READ])):
            self.tell(word[:60], got == wanted, (got, wanted))

    def test_what_is_none(self):
        for (word, wanted), got in zip(WRONG, lines_of([it for it, _ in WRONG])):
            self.tell(f"{word[:60]}: none", got == wanted, (got, wanted))

    def test_as_the_client_reads_them(self):
        """Each URL is read as the Python client does, or refused by both."""
        dice = random.Random(int(os.environ.get("OAUT_SEED") or 1))
        urls = [drawn(dice) for _ in range(20_000)]
        # (any path, with each byte as it is or escaped)
        paths = [
            bytes(dice.randrange(1, 256) for _ in range(dice.randrange(1, 40)))
            for _ in range(2_000)
        ]
        urls += [
            f"oaut+unix:///{urllib.parse.quote(it, safe=dice.choice(['', '/+:@[]&=']))}"
            for it in paths
        ]
        urls = [
            it
            for it in urls
            if it.lower().startswith(("oaut+unix://", "oaut://", "oauts://")) and "\0" not in it
        ]
        got = [None if isinstance(it, str) else it for it in lines_of(urls)]
        wanted = [as_client_reads(it) for it in urls]
        wrong = [it for it in zip(urls, got, wanted) if it[1] != it[2]]
        self.tell("each URL", not wrong, wrong[:5])
        read = sum(it is not None for it in wanted)
        self.tell(
            "many are read, and many are not", 3_000 < read < len(urls) - 3_000, (read, len(urls))
        )
        self.tell("each path", got[-len(paths) :] == [b"/" + it for it in paths])


@needs_cc
class Commands(Cases):
    def test_what_is_refused(self):
        rows = [
            ("a socket with TLS", ["--listen", "oauts://127.0.0.1:8766", "a.store"], NO_TLS),
            (
                "metrics with TLS",
                ["--listen", "./s", "--metrics", "oauts://127.0.0.1", "a.store"],
                NO_TLS,
            ),
            ("a probe with TLS", ["probe", "oauts://127.0.0.1:8766", "1"], NO_TLS),
            ("status with TLS", ["status", "oauts://127.0.0.1:8766"], NO_TLS),
            ("a backup with TLS", ["backup", "oauts://127.0.0.1:8766", "./copy"], NO_TLS),
            ("a reload with TLS", ["reload", "oauts://127.0.0.1:8766"], NO_TLS),
            (
                "a socket for all hosts",
                ["--listen", "oaut://0.0.0.0:8765", "a.store"],
                "not of the loopback",
            ),
            (
                "a control socket of TCP",
                ["--listen", "./s", "--control", "oaut://127.0.0.1:9719", "a.store"],
                "--control needs a path",
            ),
            ("status by TCP", ["status", "oaut://127.0.0.1:9719"], "the control socket has a path"),
            ("a port of no host", ["--listen", "127.0.0.1:70000", "a.store"], NEITHER),
            ("no address", ["probe", "", "1"], NEITHER),
            ("a half escape", ["probe", "oaut+unix:///a%2", "1"], DIGITS),
            ("a long path", ["status", "oaut+unix:///" + "x" * 200], "the path is too long"),
            (
                "a long path of a backup",
                ["backup", "./" + "x" * 200, "./copy"],
                "the path is too long",
            ),
        ]
        for what, words, says in rows:
            status, out, err = told_of(*words)
            self.tell(
                what,
                (status, out) == (2, "")
                and err.startswith("oaut-gateway: ")
                and says in err
                and err.count("\n") == 1,
                (status, out, err),
            )

    def test_each_command(self):
        """A gateway of which each address is a URL, and each command by one. The folder's name has
        to be escaped."""
        with tempfile.TemporaryDirectory(prefix="a b%é") as room:
            port = free_port()
            url = "oaut+unix://" + urllib.parse.quote(room)
            words = ["--listen", f"{url}/listen", "--alone", f"{url}/a%6Cone"]
            words += ["--metrics", f"{url}/metrics", "--control", f"{url}/control"]
            with Gateway(
                *words, "--listen", f"oaut://127.0.0.1:{port}", room=room, sockets=()
            ) as gateway:
                self.tell(
                    "the sockets",
                    {"listen", "alone", "metrics", "control"} <= set(os.listdir(room)),
                    os.listdir(room),
                )
                with socket.create_connection(("127.0.0.1", port), SECONDS) as sock:
                    sock.sendall(record(NONE))
                    self.tell("the port", hear(sock, 20) == record(NO_REQUEST))
                for address in (
                    f"{url}/listen",
                    f"oaut://127.0.0.1:{port}",
                    f"127.0.0.1:{port}",
                    f"{room}/listen",
                ):
                    self.tell(
                        f"probe {address}",
                        (got := told_of("probe", address, str(SECONDS))) == (0, "serves\n", ""),
                        got,
                    )
                with oaut.connect(f"{url}/listen", timeout=SECONDS) as server:
                    server.create("Item").Count = 7
                for address in (f"{url}/control", f"{room}/control"):
                    status, out, err = told_of("status", address)
                    self.tell(
                        f"status {address}",
                        (status, err) == (0, "") and "oaut_gateway_clients" in out,
                        (status, out[-200:], err),
                    )
                    self.tell(
                        f"reload {address}",
                        (got := told_of("reload", address, *words[:0])) == (0, "reloaded\n", ""),
                        got,
                    )
                status, out, err = told_of("backup", f"{url}/control", f"{room}/copy")
                self.tell(
                    "backup",
                    (status, err) == (0, "") and os.path.exists(f"{room}/copy"),
                    (status, out, err),
                )
                self.tell(
                    "a reload by its own URLs",
                    (got := told_of("reload", f"{url}/control", *words)) == (0, "reloaded\n", ""),
                    got,
                )
                self.tell("its end", gateway.end()[0] == 0)

    def test_a_name_in_this_folder(self):
        """A path without a / is a name in this folder, as before, also if it looks like host and
        port."""
        with Gateway(sockets=("listen", "control")) as gateway:
            for name, of in (
                ("127.0.0.1:1", "listen"),
                ("it.sock", "listen"),
                ("it.control", "control"),
            ):
                os.symlink(f"{gateway.room}/{of}", f"{gateway.room}/{name}")
            for name in ("127.0.0.1:1", "it.sock"):
                self.tell(
                    f"probe {name}",
                    (got := told_of("probe", name, str(SECONDS), cwd=gateway.room))
                    == (0, "serves\n", ""),
                    got,
                )
            self.tell(
                "status",
                (got := told_of("status", "it.control", cwd=gateway.room))[0::2] == (0, ""),
                got,
            )
            self.tell("its end", gateway.end()[0] == 0)

    def test_a_port_where_nobody_listens(self):
        port = free_port()
        status, out, err = told_of("probe", f"oaut://127.0.0.1:{port}", str(SECONDS))
        self.tell(
            "it is said",
            (status, out, err)
            == (
                1,
                "",
                f"oaut-gateway: cannot connect to oaut://127.0.0.1:{port}: Connection refused\n",
            ),
            (status, out, err),
        )


@needs_cc
class Fuzzed(Cases):
    @left_out("clang")
    def test_any_bytes(self):
        """libFuzzer over the reader, for some seconds."""
        seconds = os.environ.get("OAUT_NOISE") or "5"
        with tempfile.TemporaryDirectory() as room:
            os.mkdir(f"{room}/seeds")
            for at, (word, _) in enumerate(READ + WRONG):
                with open(f"{room}/seeds/{at}", "w") as file:
                    file.write(word)
            words = [
                "clang",
                "-std=gnu11",
                "-D_GNU_SOURCE",
                "-g",
                "-O1",
                "-DFUZZED",
                "-fsanitize=fuzzer,address,undefined",
                "-fno-sanitize-recover=all",
            ]
            status, said = compiled(
                [
                    *words,
                    f"{GATEWAY}/tests/addresses.c",
                    f"{GATEWAY}/addresses.c",
                    "-o",
                    f"{room}/fuzz",
                ],
                "",
            )
            if status and "libclang_rt" in said:
                raise unittest.SkipTest("libclang-rt-dev is not there")
            self.tell("it is compiled", status == 0, said)
            # (libFuzzer's limit is of the peak that a process inherits at exec, so it would fall by
            # what this one needed before)
            limits = [
                f"-max_total_time={seconds}",
                "-max_len=300",
                "-rss_limit_mb=0",
                "-malloc_limit_mb=64",
            ]
            done = subprocess.run(
                [f"{room}/fuzz", *limits, f"{room}/seeds"], cwd=room, capture_output=True, text=True
            )
            self.tell(
                "nothing is found",
                done.returncode == 0 and "Done " in done.stderr,
                done.stderr[-2000:],
            )


if __name__ == "__main__":
    unittest.main()
