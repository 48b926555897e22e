"""The page of `python3 -m oaut view`: its token stays its own, a change keeps what was not edited,
and a server that hangs does not hold the page."""
import http.server
import json
import os
import signal
import tempfile
import threading
import time
import unittest

from oaut.view.window import fits
from tests.client.clients import ClientCases
from tests.client.viewing import (
    OBJECTS,
    TOKEN,
    Browsed,
    Page,
    needs_browser,
    needs_page,
    store_with,
    text_content,
)

LINES = "one\r\ntwo\nthree\rfour"
LARGE = "x" * 200_000
TEXTS = {
    1: {(2, ()): text_content(LINES)},
    2: {(2, ()): text_content(LARGE)},
    3: {(2, ()): text_content("left\u202eright")},
}


def child_of(pid):
    """The program that a process has started."""
    with open(f"/proc/{pid}/task/{pid}/children") as file:
        return int(file.read().split()[0])


def asks(page, path, **headers):
    return page.ask("GET", f"/api/{path}", **headers)


@needs_page
class Answers(ClientCases):
    def test_the_token_is_printed_where_a_browser_sends_it_to_nobody(self):
        with tempfile.TemporaryDirectory() as room, Page(
            store_with(f"{room}/it.store", OBJECTS)
        ) as page:
            self.same("the address", page.address, f"http://{page.host}/#token={TOKEN}")

    def test_no_more_of_a_large_value_is_sent_than_is_shown(self):
        with tempfile.TemporaryDirectory() as room, Page(
            store_with(f"{room}/it.store", TEXTS), "--write"
        ) as page:
            told = page.told("object?object=2")
            self.tell("a refresh", len(json.dumps(told)) < 20_000, len(json.dumps(told)))
            self.same(
                "the whole of it, for a field",
                page.told("words?object=2&member=Name"),
                {"words": LARGE, "exact": True},
            )

    def test_bytes_that_are_no_text_are_said_to_be(self):
        with tempfile.TemporaryDirectory() as room, Page(
            store_with(f"{room}/it.store", OBJECTS), "--write"
        ) as page:
            self.same(
                "a field", page.told("words?object=3&member=Name"), {"words": "", "exact": False}
            )

    def test_a_refusal_is_words(self):
        with tempfile.TemporaryDirectory() as room, Page(
            store_with(f"{room}/it.store", OBJECTS), "--write"
        ) as page:
            for words, said in (
                ("many", "the value is of another type (DISP_E_TYPEMISMATCH)"),
                ("5000000000", "the number is too large or too small (DISP_E_OVERFLOW)"),
            ):
                told = page.told("put", {"object": "1", "member": "Count", "words": words})
                self.same(words, told, {"error": f"Count is declared long: {said}"})

    def test_a_name_that_was_given_is_one_of_the_page(self):
        named = ("--name", "desk.example:9000", "--name", "Other.example")
        with tempfile.TemporaryDirectory() as room, Page(
            store_with(f"{room}/it.store", OBJECTS), *named
        ) as page:
            port = page.host.rpartition(":")[2]
            for host, wanted in (
                (page.host, 200),
                ("desk.example:9000", 200),
                (f"other.example:{port}", 200),
                (f"desk.example:{port}", 403),
                ("desk.example", 403),
            ):
                self.same(
                    host,
                    asks(page, "status", Host=host, Authorization=f"Bearer {TOKEN}").status,
                    wanted,
                )

    def test_a_filter_of_truth_values_and_of_no_numbers(self):
        own = (("= true", [True]), ("!= TRUE", [False]), ("=false", [False]), ("!= false", [True]))
        for asked, wanted in own:
            self.same(asked, [it for it in (True, False) if fits(it, asked)], wanted)
        for asked, wanted in (
            ("< nan", []),
            ("!= nan", [5, 7]),
            ("> 5", [7]),
            ("!= 5.0", [7]),
            ("= x", []),
        ):
            self.same(asked, [it for it in (5, 7) if fits(it, asked)], wanted)

    def test_ctrl_c_ends_it_while_the_server_hangs(self):
        with tempfile.TemporaryDirectory() as room, Page(
            store_with(f"{room}/it.store", OBJECTS)
        ) as page:
            page.told("rows?coclass=Item")
            server = child_of(page.child.pid)
            os.kill(server, signal.SIGSTOP)
            try:
                asking = threading.Thread(target=self.ask_in_vain, args=(page,), daemon=True)
                asking.start()
                time.sleep(1)
                begun = time.monotonic()
                page.child.send_signal(signal.SIGINT)
                status = page.child.wait(120)
                took = time.monotonic() - begun
            finally:
                os.kill(server, signal.SIGKILL)
            self.same("its status", status, 0)
            self.tell("a second is meant, a busy machine may take some", took < 60, took)

    def ask_in_vain(self, page):
        try:
            asks(page, "rows?coclass=Item", Authorization=f"Bearer {TOKEN}")
        except OSError:
            pass


class Other:
    """Another service of this host: it keeps the heads of what it is asked."""

    def __init__(self):
        heard = self.heard = []

        class Handler(http.server.BaseHTTPRequestHandler):
            def do_GET(self):
                heard.append(f"{self.requestline}\n{self.headers}")
                self.send_response(200)
                self.send_header("Content-Type", "text/html")
                self.end_headers()
                self.wfile.write(b"<title>other</title>")

            def log_message(self, *_):
                pass

        self.server = http.server.ThreadingHTTPServer(("127.0.0.1", 0), Handler)
        self.address = f"http://127.0.0.1:{self.server.server_port}/"
        threading.Thread(target=self.server.serve_forever, daemon=True).start()

    def __enter__(self):
        return self

    def __exit__(self, *_):
        self.server.shutdown()
        self.server.server_close()


@needs_browser
class Seen(Browsed):
    def test_a_link_to_another_service_of_this_host_does_not_give_the_token_away(self):
        with tempfile.TemporaryDirectory() as room, Page(
            store_with(f"{room}/it.store", OBJECTS)
        ) as page, Other() as other:
            self.opened(page)
            self.do("script", f"location.href = {json.dumps(other.address)}")
            self.seen("the other service is there", "document.title", "other")
            self.same("it hears of no token", [it for it in other.heard if TOKEN in it], [])

    def test_another_service_of_this_host_cannot_change_a_value(self):
        with tempfile.TemporaryDirectory() as room, Page(
            store_with(f"{room}/it.store", OBJECTS), "--write"
        ) as page, Other() as other:
            self.opened(page)
            self.do("open", other.address)
            body = json.dumps({"object": "1", "member": "Count", "words": "666"})
            for kind in ("application/json", "text/plain"):
                how = (
                    f"{{method: 'POST', mode: 'no-cors', credentials: 'include', headers: "
                    f"{{'Content-Type': '{kind}'}}, body: {json.dumps(body)}}}"
                )
                self.do(
                    "script",
                    f"window.ended = 0; fetch('http://{page.host}/api/put', {how}).finally(() => "
                    f"{{ window.ended = 1; }})",
                )
                self.seen("it has asked", "window.ended", 1)
            self.same("the value", page.told("value?object=1&member=Count")["text"], "7")
            self.do("open", "about:blank")
            self.do("log")  # which has the refusals

    def test_a_page_stays_open_by_its_own_token(self):
        with tempfile.TemporaryDirectory() as room, Page(
            store_with(f"{room}/it.store", OBJECTS)
        ) as page:
            self.opened(page)
            self.do("open", f"http://{page.host}/")
            self.seen(
                "rows are shown when it is loaded again",
                "document.querySelectorAll('.lines .row').length > 0",
            )
            self.clean()

    def change(self, page, script):
        """Opens the field of object 1's name, has a script change it, and puts what stands there
        then."""
        self.opened(page)
        self.press(".lines .row")
        row = (
            "[...document.querySelectorAll('tbody tr')].find(it => it.firstChild.textContent === "
            "'Name')"
        )
        self.seen("the property", f"Boolean({row})")
        self.do("script", f"{row}.querySelector('button.plain').click()")
        self.seen("its field", f"Boolean({row}.querySelector('form:not([hidden])'))")
        self.do(
            "script",
            f"const field = {row}.querySelector('textarea, input'); {script}; "
            f"{row}.querySelector('form').requestSubmit()",
        )
        self.seen("it is closed", f"Boolean({row}.querySelector('form[hidden]'))")

    def test_line_ends_that_were_not_edited_stay(self):
        with tempfile.TemporaryDirectory() as room, Page(
            store_with(f"{room}/it.store", TEXTS), "--write"
        ) as page:
            self.change(page, "field.value = field.value.replace('two', '2')")
            self.same(
                "the text",
                page.told("value?object=1&member=Name")["text"],
                LINES.replace("two", "2"),
            )
            self.clean()

    def test_a_text_that_was_not_edited_is_not_put(self):
        with tempfile.TemporaryDirectory() as room, Page(
            store_with(f"{room}/it.store", TEXTS), "--write"
        ) as page:
            self.change(page, "")
            self.seen(
                "the page says so",
                "document.querySelector('#said').textContent",
                "nothing was changed",
            )
            self.same("the text", page.told("value?object=1&member=Name")["text"], LINES)
            self.clean()

    def test_new_lines_end_as_the_first_one(self):
        with tempfile.TemporaryDirectory() as room, Page(
            store_with(f"{room}/it.store", TEXTS), "--write"
        ) as page:
            self.change(page, "field.value += '\\nfive'")
            self.same(
                "the text", page.told("value?object=1&member=Name")["text"], f"{LINES}\r\nfive"
            )
            self.clean()

    def test_the_page_says_since_when_a_server_gives_no_answer(self):
        with tempfile.TemporaryDirectory() as room, Page(
            store_with(f"{room}/it.store", OBJECTS)
        ) as page:
            self.opened(page)
            server = child_of(page.child.pid)
            os.kill(server, signal.SIGSTOP)
            try:
                self.seen(
                    "no answer",
                    "document.querySelector('#age').textContent.startsWith('no reply since ')",
                )
            finally:
                os.kill(server, signal.SIGCONT)
            self.seen(
                "an answer again", "document.querySelector('#age').textContent.startsWith('read ')"
            )
            self.do("open", "about:blank")

    def test_characters_that_turn_a_text_around_are_shown(self):
        with tempfile.TemporaryDirectory() as room, Page(
            store_with(f"{room}/it.store", TEXTS)
        ) as page:
            self.opened(page)
            self.seen(
                "the character",
                "document.querySelectorAll('.lines .row')[2].children[2].textContent",
                "left⟨U+202E⟩right",
            )
            self.clean()


if __name__ == "__main__":
    unittest.main()
