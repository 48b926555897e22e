"""The page of `python3 -m oaut view`, as its cases have it: over a store or a session, and in a
browser without a window."""
import functools
import http.client
import json
import os
import shutil
import struct
import subprocess
import sys
import time
import unittest

from oaut import store as stores
from tests.client.clients import ENVIRONMENT, ClientCases
from tests.support.running import FULL_TEXT, PROGRAM, TESTS

TOKEN = "word-of-a-test"
SCRIPT = "<script>document.title = 'taken'</script><img src=x onerror=\"document.title = 'taken'\">"
# the time that a page has for what is to be seen
SOON = 120


@functools.lru_cache(maxsize=None)
def python_with(*modules):
    """A Python that has these modules, this one or the system's."""
    for it in (sys.executable, "/usr/bin/python3"):
        words = [it, "-c", "".join(f"import {name}\n" for name in modules)]
        if os.path.exists(it) and not subprocess.run(words, capture_output=True).returncode:
            return it
    return None


class Page:
    """The page over a store, or over a session behind a socket, with its port."""

    def __init__(self, *words):
        environment = {**ENVIRONMENT, "OAUT_VIEW_TOKEN": TOKEN}
        words = [
            python_with("aiohttp"),
            "-m",
            "oaut",
            "view",
            "--listen",
            "127.0.0.1:0",
            "--program",
            PROGRAM,
            *words,
        ]
        self.child = subprocess.Popen(
            words, env=environment, stdout=subprocess.PIPE, stderr=subprocess.PIPE, text=True
        )
        self.address = self.child.stdout.readline().strip()
        if not self.address:
            raise AssertionError(self.child.communicate()[1])
        self.host = self.address.split("/")[2]

    def __enter__(self):
        return self

    def __exit__(self, *_):
        self.child.terminate()
        try:
            self.child.communicate(timeout=120)
        finally:
            self.child.kill()

    def ask(self, method, path, body=None, **headers):
        """An answer with its status, headers and text."""
        link = http.client.HTTPConnection(self.host, timeout=120)
        given = {it.replace("_", "-"): word for it, word in headers.items()}
        link.putrequest(method, path, skip_host="Host" in given)
        data = None if body is None else json.dumps(body).encode()
        for name, word in {
            **given,
            **({} if data is None else {"Content-Length": str(len(data))}),
        }.items():
            link.putheader(name, word)
        link.endheaders(data)
        answer = link.getresponse()
        answer.text = answer.read().decode()
        link.close()
        return answer

    def told(self, path, body=None):
        """What the page's own script is told."""
        own = {
            "Authorization": f"Bearer {TOKEN}",
            "Origin": f"http://{self.host}",
            "Content_Type": "application/json",
        }
        return json.loads(
            self.ask("GET" if body is None else "POST", f"/api/{path}", body, **own).text
        )


def text_content(text):
    data = text.encode("utf-16-le")
    return stores.BSTR, struct.pack("<I", len(data)) + data


def store_with(path, objects):
    """A store of the full library, whose objects have these cells by DISPID and key."""
    coclass, face = (bytes.fromhex("443322116655887799aabbccddeeff0" + it) for it in "32")
    table = {
        number: (coclass, {(face, dispid, key): value for (dispid, key), value in cells.items()})
        for number, cells in objects.items()
    }
    image = stores.table_image(max(table, default=0) + 1, table)
    with open(path, "wb") as file:
        file.write(stores.laid(stores.formatted(FULL_TEXT), 2, 0, FULL_TEXT, image, stores.BANK))
    return path


def long_value(number):
    return stores.I4, struct.pack("<i", number)


GRID = stores.Array(stores.I2, [(2, -1), (3, 5)], [struct.pack("<h", it) for it in range(1, 7)])
CUBE = stores.Array(stores.I2, [(2, 0), (2, 0), (2, 7)], [struct.pack("<h", it) for it in range(8)])
KEY = (long_value(5), text_content("k"), (stores.I2, struct.pack("<h", 1)))
OBJECTS = {
    1: {
        (1, ()): long_value(7),
        (2, ()): text_content(SCRIPT),
        (8, ()): GRID,
        (9, KEY): text_content("x"),
    },
    2: {(1, ()): long_value(9), (2, ()): text_content("long " * 1_000), (8, ()): CUBE},
    3: {(1, ()): long_value(-3), (2, ()): (stores.BSTR, struct.pack("<I", 3) + b"abc")},
}


BROWSER = (
    python_with("selenium") if shutil.which("chromium") and shutil.which("chromedriver") else None
)


def needs_page(cases):
    """Leaves cases out where the page cannot be served."""
    cases = unittest.skipIf(python_with("aiohttp") is None, "no Python has aiohttp")(cases)
    return unittest.skipUnless(os.path.exists(PROGRAM), "the program is not there")(cases)


def needs_browser(cases):
    """Leaves cases out where the page cannot be looked at."""
    return needs_page(
        unittest.skipIf(BROWSER is None, "chromium, chromedriver or selenium is not there")(cases)
    )


class Browsed(ClientCases):
    """What a person sees, in a browser without a window."""

    @classmethod
    def setUpClass(cls):
        cls.child = subprocess.Popen(
            [BROWSER, f"{TESTS}/client/browser.py"],
            stdin=subprocess.PIPE,
            stdout=subprocess.PIPE,
            text=True,
        )
        cls.answer()

    @classmethod
    def tearDownClass(cls):
        cls.child.communicate(timeout=120)

    @classmethod
    def answer(cls):
        found = json.loads(cls.child.stdout.readline() or '{"error": "the browser ended"}')
        if "error" in found:
            raise AssertionError(found["error"])
        return found["well"]

    @classmethod
    def do(cls, *words):
        print(json.dumps(words), file=cls.child.stdin, flush=True)
        return cls.answer()

    def look(self, expression):
        """The value of an expression of the page's script."""
        return self.do("script", f"return {expression}")

    def seen(self, name, expression, wanted=True, within=SOON):
        """What becomes so within a time, in seconds; gives how long it took. What is not there yet
        has no parts: the expression is tried again."""
        begun = time.monotonic()
        while True:
            got = self.look(
                f"(() => {{ try {{ return {expression}; }} catch (it) {{ return String(it); }} "
                f"}})()"
            )
            took = time.monotonic() - begun
            if got == wanted or took > within:
                break
            time.sleep(0.02)
        self.tell(name, got == wanted, f"wanted {wanted!r}, got {got!r} after {took:.1f} s")
        return took

    def press(self, selector, words=""):
        """Clicks the first element of a selector that has these words, once it is there."""
        found = (
            f"[...document.querySelectorAll({json.dumps(selector)})].find(it => "
            f"it.textContent.includes({json.dumps(words)}))"
        )
        self.seen(f"{selector} {words}", f"Boolean({found})")
        self.do("script", f"{found}.click()")

    def opened(self, page):
        # (with the same page before, an address with another part behind # loads nothing)
        self.do("open", "about:blank")
        self.do("open", page.address)
        self.seen("rows are shown", "document.querySelectorAll('.lines .row').length > 0")

    def clean(self, but="nothing"):
        """Nothing was refused by the policy, and no script failed. The page is left, so that it
        asks no more."""
        said = [it[:300] for it in self.do("log") if but not in it]
        self.same("the browser's log", said[:3], [])
        self.do("open", "about:blank")
