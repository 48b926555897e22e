"""The page of `python3 -m oaut view`: who is let in, what it answers, and what a person sees of it
in a browser."""
import contextlib
import http.client
import json
import os
import subprocess
import tempfile
import time
import unittest

from tests.client.clients import ARRAYS, ENVIRONMENT, ClientCases, oaut
from tests.client.viewing import (
    OBJECTS,
    SOON,
    TOKEN,
    Browsed,
    Page,
    long_value,
    needs_browser,
    needs_page,
    python_with,
    store_with,
    text_content,
)
from tests.gateway.gateways import Gateway, built, left_out
from tests.support.running import FULL_TEXT, PROGRAM


@needs_page
class Served(ClientCases):
    """What the page's server answers, without a browser."""

    def test_who_may_read(self):
        with tempfile.TemporaryDirectory() as room, Page(
            store_with(f"{room}/it.store", OBJECTS), "--write"
        ) as page:
            own, rows, token = (
                f"http://{page.host}",
                "/api/rows?coclass=Item",
                {"Authorization": f"Bearer {TOKEN}"},
            )
            for name, status, method, path, body, headers in (
                ("the page's own question", 200, "GET", rows, None, {**token, "Origin": own}),
                ("without a token", 403, "GET", rows, None, {}),
                (
                    "with another one",
                    403,
                    "GET",
                    rows,
                    None,
                    {"Authorization": f"Bearer {TOKEN[:-1]}x"},
                ),
                ("the page, which holds nothing of the store", 200, "GET", "/", None, {}),
                ("the page under another name", 403, "GET", "/", None, {"Host": "evil.example:80"}),
                (
                    "under another name",
                    403,
                    "GET",
                    rows,
                    None,
                    {**token, "Host": "evil.example:80"},
                ),
                (
                    "from another page",
                    403,
                    "GET",
                    rows,
                    None,
                    {**token, "Origin": "http://evil.example"},
                ),
                ("another path", 404, "GET", "/api/../etc/passwd", None, token),
            ):
                answer = page.ask(method, path, body, **headers)
                self.same(name, answer.status, status)
                policy = answer.headers.get("Content-Security-Policy", "")
                self.tell(
                    f"{name}: its policy",
                    policy.startswith("default-src 'none'") and "unsafe" not in policy,
                    policy,
                )

    def test_who_may_change(self):
        with tempfile.TemporaryDirectory() as room, Page(
            store_with(f"{room}/it.store", OBJECTS), "--write"
        ) as page:
            own, rows, token = (
                f"http://{page.host}",
                "/api/rows?coclass=Item",
                {"Authorization": f"Bearer {TOKEN}"},
            )
            put = {"object": "1", "member": "Count", "words": "8"}
            json_type = {"Content_Type": "application/json"}
            for name, status, method, path, body, headers in (
                (
                    "a change from another page",
                    403,
                    "POST",
                    "/api/put",
                    put,
                    {**token, "Origin": "null", **json_type},
                ),
                ("a change from nowhere", 403, "POST", "/api/put", put, {**token, **json_type}),
                (
                    "a change as a form",
                    403,
                    "POST",
                    "/api/put",
                    put,
                    {**token, "Origin": own, "Content_Type": "text/plain"},
                ),
                (
                    "a change of the page",
                    200,
                    "POST",
                    "/api/put",
                    put,
                    {**token, "Origin": own, **json_type},
                ),
                ("another path", 404, "GET", "/api/../etc/passwd", None, token),
            ):
                answer = page.ask(method, path, body, **headers)
                self.same(name, answer.status, status)
                policy = answer.headers.get("Content-Security-Policy", "")
                self.tell(
                    f"{name}: its policy",
                    policy.startswith("default-src 'none'") and "unsafe" not in policy,
                    policy,
                )
            self.same("what was put", page.told("value?object=1&member=Count")["text"], "8")

    def test_nothing_is_changed_unless_told(self):
        with tempfile.TemporaryDirectory() as room, Page(
            store_with(f"{room}/it.store", OBJECTS)
        ) as page:
            for path, body in (
                ("put", {"object": "1", "member": "Count", "words": "8"}),
                ("put", {"object": "1", "member": "Grid", "cell": "-1,5", "words": "8"}),
                (
                    "put",
                    {"object": "1", "member": "Cell", "keys": '["5", "new", ""]', "words": "8"},
                ),
                ("undo", {}),
                ("create", {"coclass": "Item"}),
                ("release", {"object": "1"}),
                ("replace", {"text": FULL_TEXT.decode()}),
            ):
                self.tell(path, "error" in page.told(path, body))
            self.same("the value", page.told("value?object=1&member=Count")["text"], "7")
            self.same("the objects", page.told("rows?coclass=Item")["of"], 3)

    def test_cells_of_an_array(self):
        """An element is changed alone, and taken back; what is wrong with it is said in words."""
        with tempfile.TemporaryDirectory() as room, Page(
            store_with(f"{room}/it.store", OBJECTS), "--write"
        ) as page:

            def cells():
                return [
                    [it["text"] for it in row]
                    for row in page.told("array?object=1&member=Grid")["cells"]
                ]

            place = {"object": "1", "member": "Grid", "cell": "0,6"}
            self.same(
                "the words of a cell",
                page.told("words?object=1&member=Grid&cell=0%2C6"),
                {"words": "5", "exact": True},
            )
            done = page.told("put", {**place, "words": "0x10"})
            self.same(
                "a cell is put",
                done,
                {
                    "value": {"type": "short", "text": "16", "number": True},
                    "undo": "Item 1, Grid[0,6]",
                },
            )
            self.same("and no other", cells(), [["1", "2", "3"], ["4", "16", "6"]])
            self.same("it is taken back", page.told("undo", {}), {"object": 1, "member": "Grid"})
            self.same("as it was", cells(), [["1", "2", "3"], ["4", "5", "6"]])
            for name, given, says in (
                (
                    "no number",
                    {**place, "words": "many"},
                    "Grid is declared short: the value is of another type (DISP_E_TYPEMISMATCH)",
                ),
                (
                    "too large",
                    {**place, "words": "70000"},
                    (
                        "Grid is declared short: the number is too large or too small "
                        "(DISP_E_OVERFLOW)"
                    ),
                ),
                (
                    "outside",
                    {**place, "cell": "1,6", "words": "1"},
                    "Grid is declared short: nothing has this index (DISP_E_BADINDEX)",
                ),
                (
                    "one index of two",
                    {**place, "cell": "0", "words": "1"},
                    "Grid is declared short: nothing has this index (DISP_E_BADINDEX)",
                ),
                ("no index", {**place, "cell": "a", "words": "1"}, "cell is no list of indices"),
            ):
                self.same(name, page.told("put", given), {"error": says})
            self.same("nothing is changed", cells(), [["1", "2", "3"], ["4", "5", "6"]])

    def test_a_key_that_is_typed(self):
        with tempfile.TemporaryDirectory() as room, Page(
            store_with(f"{room}/it.store", OBJECTS), "--write"
        ) as page:

            def keys(count):
                """The keys, once there are so many: the store's file is read for a part of the time
                alone."""
                until = time.monotonic() + SOON
                while True:
                    [table] = [
                        it
                        for it in page.told("object?object=1")["interfaces"][0]["tables"]
                        if it["name"] == "Cell"
                    ]
                    if len(table["rows"]) == count or time.monotonic() > until:
                        return [
                            ([one["text"] for one in it["keys"]], it["value"]["text"])
                            for it in table["rows"]
                        ]
                    time.sleep(0.1)

            place = {"object": "1", "member": "Cell"}
            self.same("its keys", keys(1), [(["5", "k", "1"], "x")])
            self.same(
                "a key is put",
                page.told("put", {**place, "keys": '["6", "new", ""]', "words": "y"})["undo"],
                "Item 1, Cell",
            )
            self.same(
                "it is there, the default filled in",
                keys(2),
                [(["5", "k", "1"], "x"), (["6", "new", "1"], "y")],
            )
            self.same(
                "with all of its arguments",
                page.told("put", {**place, "keys": '["6", "new", "2"]', "words": "z"})["undo"],
                "Item 1, Cell",
            )
            self.same("it is another one", keys(3)[-1], (["6", "new", "2"], "z"))
            for name, given, says in (
                (
                    "a text for a number",
                    '["many", "new", ""]',
                    "Cell is declared BSTR: the value is of another type (DISP_E_TYPEMISMATCH)",
                ),
                ("too few", '["6"]', "keys is no list with a text for each parameter"),
                ("no list", "6", "keys is no list with a text for each parameter"),
                ("no texts", "[6, 7, 8]", "keys is no list with a text for each parameter"),
            ):
                self.same(
                    name, page.told("put", {**place, "keys": given, "words": "y"}), {"error": says}
                )

    def test_objects_are_made_and_released(self):
        with tempfile.TemporaryDirectory() as room, Page(
            store_with(f"{room}/it.store", OBJECTS), "--write"
        ) as page:
            self.same(
                "one is made",
                page.told("create", {"coclass": "Item"}),
                {"number": 4, "coclass": "Item"},
            )
            self.same(
                "it is there",
                [it["number"] for it in page.told("rows?coclass=Item")["rows"]],
                [1, 2, 3, 4],
            )
            page.told("put", {"object": "4", "member": "Count", "words": "8"})
            self.same(
                "it is released",
                page.told("release", {"object": "4"}),
                {"number": 4, "coclass": "Item"},
            )
            self.same(
                "it is gone",
                [it["number"] for it in page.told("rows?coclass=Item")["rows"]],
                [1, 2, 3],
            )
            self.same(
                "with what could be taken back",
                page.told("undo", {}),
                {"error": "there is nothing to take back"},
            )
            self.same(
                "it is not released twice",
                page.told("release", {"object": "4"}),
                {"error": "there is no object 4, or no more"},
            )
            self.same(
                "no coclass",
                page.told("create", {"coclass": "Nobody"}),
                {"error": "no coclass Nobody; there are: Item"},
            )

    def test_questions(self):
        """What is asked wrongly gets a reason, and the page goes on."""
        with tempfile.TemporaryDirectory() as room, Page(
            store_with(f"{room}/it.store", OBJECTS)
        ) as page:
            for path, says in (
                ("rows?coclass=Nobody", "no coclass Nobody"),
                ("rows?coclass=Item&columns=Nothing", "there is no property Nothing"),
                ("rows?coclass=Item&from=x", "from is no number"),
                ("object?object=99", "there is no object 99, or no more"),
                ("object?object=", "object is no number"),
                ("array?object=1&member=Count", "there is no array"),
                ("value?object=1&member=Cell&key=zz", "no key"),
                ("value?object=1&member=Cell&key=0800ffffff7f", "no key"),
            ):
                self.tell(path, page.told(path).get("error", "").startswith(says), page.told(path))
            for asked, numbers in (
                ("sort=Count", [3, 1, 2]),
                ("sort=Count&down=1", [2, 1, 3]),
                ("sort=%23&down=1", [3, 2, 1]),
                ("f.Count=%3E0&sort=Count", [1, 2]),
                ("f.Count=!%3D7", [2, 3]),
                ("f.Name=LONG", [2]),
                ("f.Count=7", [1]),
                ("from=1&count=1", [2]),
            ):
                self.same(
                    asked,
                    [
                        it["number"]
                        for it in page.told(f"rows?coclass=Item&columns=Count&{asked}")["rows"]
                    ],
                    numbers,
                )
            cells = page.told("array?object=2&member=Grid&at=1")["cells"]
            self.same(
                "a slice of three bounds",
                [[it["text"] for it in row] for row in cells],
                [["4", "5"], ["6", "7"]],
            )
            self.same(
                "bytes that are no text",
                page.told("value?object=3&member=Name"),
                {"type": "BSTR", "hex": "61 62 63"},
            )
            self.same("a long text", len(page.told("value?object=2&member=Name")["text"]), 5_000)

    def test_another_library(self):
        """What a library would lose is listed, all of it; the server refuses the same for the first
        of it."""
        text = FULL_TEXT.decode()
        without = "\n".join(
            line for line in text.split("\n") if " Name;" not in line and " Clear();" not in line
        )
        face, item = "ccddeeff02", "ccddeeff03"
        with tempfile.TemporaryDirectory() as room, Page(
            store_with(f"{room}/it.store", OBJECTS), "--write"
        ) as page:
            for name, other, lost in (
                (
                    "the default of a parameter",
                    text.replace("defaultvalue(1)", "defaultvalue(2)"),
                    ["Cell of DItem, DISPID 9 (its get)", "Cell of DItem, DISPID 9 (its put)"],
                ),
                ("two members", without, ["Name of DItem, DISPID 2", "Clear of DItem, DISPID 10"]),
                (
                    "an interface",
                    text.replace(face, "ccddeeff05"),
                    ["the interface DItem", "the interfaces of the coclass Item"],
                ),
                ("a coclass", text.replace(item, "ccddeeff04"), ["the coclass Item"]),
                ("nothing", text.replace("Clear();", "Clear();\n[id(11)] void Save();"), []),
            ):
                told = page.told("compare", {"text": other})["lost"]
                self.same(f"lost: {name}", [it.replace("Item.", "") for it in told], lost)
                answer = page.told("replace", {"text": other})
                said = f"the new library does not keep {told[0].split(' (')[0]}" if told else ""
                self.tell(
                    f"the server says the same: {name}",
                    answer == {} if not told else said in answer["error"],
                    answer,
                )
            self.tell(
                "a text that is none",
                page.told("compare", {"text": "library"})
                .get("error", "")
                .startswith("oaut: syntax at byte"),
            )
            names = [it["name"] for it in page.told("library")["interfaces"][0]["members"]]
            self.same("the library that it has then", names[-2:], ["Clear", "Save"])

    @left_out("cc")
    def test_beside_a_gateway(self):
        """`oaut-gateway --view` starts the page over its own socket, and it ends with the
        gateway."""
        python = python_with("aiohttp")
        variables = {
            **ENVIRONMENT,
            "OAUT_VIEW_TOKEN": TOKEN,
            "PATH": f"{os.path.dirname(python)}:{os.environ['PATH']}",
            "ASAN_OPTIONS": "detect_leaks=0",
        }
        with tempfile.TemporaryDirectory() as room:
            store = store_with(f"{room}/it.store", OBJECTS)
            words = [
                built()[0],
                "--program",
                PROGRAM,
                "--listen",
                f"{room}/shared",
                "--watch",
                f"{room}/watch",
                "--view",
                "127.0.0.1:0",
                store,
            ]
            child = subprocess.Popen(
                words, env=variables, stdout=subprocess.PIPE, stderr=subprocess.PIPE, text=True
            )
            page = Page.__new__(Page)
            page.host = child.stdout.readline().strip().split("/")[2]
            self.same("who has no token", page.ask("GET", "/api/library").status, 403)
            self.same("its objects", page.told("rows?coclass=Item")["of"], 3)
            self.tell(
                "it is told of changes",
                Gateway.wait_for(lambda: page.told("wait?after=")["count"], "it is not"),
            )
            child.terminate()
            self.same(
                "the gateway's end", (child.wait(120), child.communicate(timeout=120)[1]), (0, "")
            )
            until = time.monotonic() + 120
            while time.monotonic() < until:
                try:
                    page.ask("GET", "/")
                except (OSError, http.client.HTTPException):
                    break
                time.sleep(0.05)
            self.tell("the page ends with it", time.monotonic() < until)

    @left_out("cc")
    def test_changes_are_counted(self):
        """By the gateway's --watch, which may come and go. Without one there is no count, and no
        wait."""
        with tempfile.TemporaryDirectory() as room:
            store_with(f"{room}/it.store", OBJECTS)
            with Page(f"{room}/it.store") as page:
                self.same("no count", page.told("wait?after=5"), {"count": None})
            with Gateway(room=room, sockets=("listen", "watch")) as gateway, Page(
                "--connect", f"{room}/listen", "--watch", f"{room}/watch"
            ) as page:
                count = Gateway.wait_for(
                    lambda: page.told("wait?after=")["count"], "it does not watch"
                )
                self.same("nothing has changed", page.told(f"wait?after={count}"), {"count": count})
                with gateway.session() as other:
                    other.object(1, "Item").Count = 78
                    now = Gateway.wait_for(lambda: self.another(page, count), "the put is not told")
                    self.tell("a put", now is not None, now)
                    self.same("once", page.told(f"wait?after={now}"), {"count": now})
                for odd in ("x", "-1", "9" * 30):
                    self.same(f"after {odd}", page.told(f"wait?after={odd}"), {"count": now})
                gateway.end()
                self.tell(
                    "without the gateway",
                    Gateway.wait_for(
                        lambda: page.told(f"wait?after={now}")["count"] is None,
                        "there is a count still",
                    ),
                )
                gateway.start()
                self.tell(
                    "it watches again",
                    Gateway.wait_for(lambda: page.told("wait?after=")["count"], "it does not"),
                )

    @staticmethod
    def another(page, count):
        """A count that is another one, or nothing."""
        now = page.told(f"wait?after={count}")["count"]
        return now if now != count else None

    def test_what_is_no_store(self):
        for name, words, says in (
            ("a file that is not there", ["/nowhere/it.store"], "cannot read"),
            ("an address of others", ["it.store", "--listen", "0.0.0.0:0"], "not of the loopback"),
            ("no address", ["it.store", "--listen", "x"], "no address"),
            ("neither store nor socket", [], "name a STORE"),
        ):
            done = subprocess.run(
                [python_with("aiohttp"), "-m", "oaut", "view", "--program", PROGRAM, *words],
                env=ENVIRONMENT,
                capture_output=True,
                text=True,
                timeout=300,
            )
            self.tell(
                name,
                done.returncode == 1
                and (says in done.stderr or "No such file" in done.stderr)
                and done.stderr.count("\n") == 1,
                done.stderr,
            )


@needs_browser
class Seen(Browsed):
    """What a person sees."""

    def test_the_tree_and_the_text(self):
        with tempfile.TemporaryDirectory() as room, Page(
            store_with(f"{room}/it.store", OBJECTS), "--write"
        ) as page:
            self.opened(page)
            self.same(
                "the token has left the address",
                self.look("location.href.replace(location.origin, '')"),
                "/",
            )
            tree = (
                "[...document.querySelectorAll('#tree [role=treeitem]')].filter(it => "
                "!it.hidden).map(it => it.dataset.name)"
            )
            self.same("the tree", self.look(tree)[:3], ["ITEM", "DITEM", "COUNT"])
            self.do("type", "#search", "gri")
            self.seen("a name is found as it is folded", tree, ["ITEM", "DITEM", "GRID"])
            self.press("#tree [data-name=GRID]")
            self.seen(
                "its line in the text",
                "document.querySelector('pre .at')?.textContent",
                "[id(8)] SAFEARRAY(short) Grid;",
            )
            self.clean("status of 409")

    def test_objects_by_the_keyboard(self):
        with tempfile.TemporaryDirectory() as room, Page(
            store_with(f"{room}/it.store", OBJECTS), "--write"
        ) as page:
            self.opened(page)
            self.do("click", "#tab-objects")
            self.seen(
                "texts are texts",
                "document.querySelector('.lines "
                ".row')?.children[2].textContent.startsWith('<script>')",
            )
            self.do("script", "document.querySelector('.lines .row').focus()")
            self.do("keys", "ARROW_DOWN", "ARROW_DOWN", "ARROW_UP", "ENTER")
            self.seen(
                "by the keyboard to an object", "document.querySelector('h2').textContent", "Item 2"
            )
            self.press("button", "show all")
            self.seen(
                "a long text unfolds",
                "[...document.querySelectorAll('.text')].some(it => it.textContent.length === "
                "5000)",
            )
            self.press(".tools button")
            self.seen("back at the table", "document.querySelectorAll('.lines .row').length", 3)
            self.press(".lines .row")
            self.seen(
                "cells by their keys",
                "[...document.querySelectorAll('tbody tr')].some(it => "
                "it.textContent.startsWith('5k1x'))",
            )
            self.same("no script of a text has run", self.look("document.title"), "it.store · oaut")
            self.same(
                "no element of a text",
                self.look("document.querySelectorAll('img, main script').length"),
                0,
            )
            self.clean("status of 409")

    def test_changes_and_cells(self):
        with tempfile.TemporaryDirectory() as room, Page(
            store_with(f"{room}/it.store", OBJECTS), "--write"
        ) as page:
            self.opened(page)
            self.do("click", "#tab-objects")
            self.press(".lines .row")
            self.changes()
            self.press("button", "Show cells")
            grid = (
                "[...document.querySelectorAll('table.grid tr')].map(it => [...it.cells].map(one "
                "=> one.textContent).join(' ')).join('|')"
            )
            self.seen("a grid with its indices", grid, " 5 6 7|-1 1 2 3|0 4 5 6")
            self.looks()
            self.clean("status of 409")

    def test_an_object_is_made_and_released(self):
        with tempfile.TemporaryDirectory() as room, Page(
            store_with(f"{room}/it.store", OBJECTS), "--write"
        ) as page:
            self.opened(page)
            self.press("#create")
            self.seen("a new object is shown", "document.querySelector('h2').textContent", "Item 4")
            form = "document.querySelector('.tools form')"
            self.press("button.release")
            self.same(
                "it is asked once more",
                self.look(f"{form}.textContent.startsWith('Item 4 is then gone for ever')"),
                True,
            )
            self.press(".tools form button", "Leave")
            self.same("or not", self.look(f"{form}.hidden"), True)
            self.press("button.release")
            self.press(".tools form button", "Release it")
            self.seen("it is gone", "document.querySelectorAll('.lines .row').length", 3)
            self.seen(
                "the page says so",
                "document.querySelector('#said').textContent",
                "Item 4 is released",
            )
            self.clean("status of 409")

    def test_a_key_is_added(self):
        with tempfile.TemporaryDirectory() as room, Page(
            store_with(f"{room}/it.store", OBJECTS), "--write"
        ) as page:
            self.opened(page)
            self.press(".lines .row")
            self.press("button.add[aria-label='add a key of Cell']")
            adder = (
                "document.querySelector('button.add[aria-label=\"add a key of "
                "Cell\"]').nextElementSibling"
            )
            fill = (
                f"const form = {adder}; [...form.querySelectorAll('textarea')].forEach((it, at) => "
                f"{{ it.value = arguments[0][at]; }}); form.requestSubmit()"
            )
            self.do("script", fill, ["many", "new", "", "y"])
            self.seen(
                "a key that is refused",
                f"{adder}.querySelector('[role=alert]').textContent.startsWith('Cell is declared "
                "BSTR: the value is of another')",
            )
            self.do("script", fill, ["6", "new", "", "y"])
            self.seen(
                "a key is added",
                "[...document.querySelectorAll('tbody tr')].some(it => "
                "it.textContent.startsWith('6new1y'))",
            )
            self.clean("status of 409")

    def test_a_cell_is_changed(self):
        with tempfile.TemporaryDirectory() as room, Page(
            store_with(f"{room}/it.store", OBJECTS), "--write"
        ) as page:
            self.opened(page)
            self.press(".lines .row")
            self.press("button", "Show cells")
            cell = "document.querySelector('table.grid tbody').rows[1].cells[2]"
            self.seen("a cell", f"{cell}?.textContent", "5")
            self.do("script", "document.querySelector('table.grid td').focus()")
            self.do("keys", "ARROW_DOWN", "ARROW_RIGHT", "ENTER")
            self.seen(
                "by the keyboard to its field",
                "document.querySelector('form.cell .kind').textContent",
                "Grid[0,6]",
            )
            area = "document.querySelector('form.cell textarea')"
            self.do("script", f"{area}.value = 'many'; {area}.form.requestSubmit()")
            self.seen(
                "a cell that is refused",
                "document.querySelector('form.cell [role=alert]').textContent.startsWith('Grid is "
                "declared short')",
            )
            self.do("script", f"{area}.value = '77'; {area}.form.requestSubmit()")
            self.seen("a cell is changed", f"{cell}.textContent", "77")
            self.seen("and its form closed", f"{area}.form.hidden")
            self.press("#said button", "Undo")
            self.seen("and taken back", f"{cell}.textContent", "5")
            self.do("script", "document.querySelector('table.grid td').click()")
            self.seen("by a click too", f"!{area}.form.hidden && {area}.value", "1")
            self.press("form.cell button", "Leave")
            self.same(
                "it is left as it was",
                self.look("document.querySelector('table.grid td').textContent"),
                "1",
            )
            self.clean("status of 409")

    def changes(self):
        """A change that is refused, one that is taken, and its undoing."""
        row = (
            "[...document.querySelectorAll('tbody tr')].find(it => it.firstChild.textContent === "
            "'Count')"
        )
        self.do("script", f"{row}.querySelector('button.plain').click()")
        self.seen("the field is open", f"Boolean({row}.querySelector('form:not([hidden])'))")
        for words, wanted in (
            ("many", "Count is declared long: the value is of another type (DISP_E_TYPEMISMATCH)"),
            (
                "5000000000",
                "Count is declared long: the number is too large or too small (DISP_E_OVERFLOW)",
            ),
        ):
            self.do(
                "script",
                f"const row = {row}; row.querySelector('textarea').value = arguments[0]; "
                "row.querySelector('form').requestSubmit()",
                words,
            )
            self.seen(
                f"{words} is refused beside the field",
                f"{row}.querySelector('[role=alert]').textContent.startsWith({json.dumps(wanted)})",
            )
        self.do(
            "script",
            f"const row = {row}; row.querySelector('textarea').value = '0x10'; "
            "row.querySelector('form').requestSubmit()",
        )
        self.seen("a change is taken", f"{row}.querySelector('.value > div').textContent", "16")
        self.press("#said button", "Undo")
        self.seen("and taken back", f"{row}.querySelector('.value > div').textContent", "7")

    def looks(self):
        """Both themes and three widths: nothing stands outside the page, and texts can be told from
        the ground."""
        outside = """[...document.querySelectorAll('body *')].filter(it => {
            const box = it.getBoundingClientRect();
            return box.width && box.right > innerWidth + 1 && !it.closest('.scroll, [role=grid], \
.skip');
        }).map(it => it.tagName + '.' + it.className)"""
        for width in (360, 1_280, 2_560):
            for theme in ("light", "dark"):
                self.do("emulate", width, 800, theme)
                for tab in ("objects", "text", "status"):
                    self.do("click", f"#tab-{tab}")
                    self.seen(
                        f"{tab} at {width} pixels, {theme}",
                        f"{outside}.length + (document.documentElement.scrollWidth > innerWidth)",
                        0,
                    )
                bright = (
                    "getComputedStyle(document.body).%s.match(/\\d+/g).slice(0, 3).reduce((sum, "
                    "it) => sum + Number(it), 0)"
                )
                self.tell(
                    f"{theme} at {width}: text and ground",
                    abs(self.look(bright % "color") - self.look(bright % "backgroundColor")) > 400,
                )
        self.do("emulate", 1_280, 800, "light")

    def test_columns(self):
        """Of more properties than the table begins with, each can be shown."""
        with tempfile.TemporaryDirectory() as room:
            store = f"{room}/it.store"
            oaut.make_store(store, ARRAYS, program=PROGRAM)
            with oaut.serve(store, ARRAYS, program=PROGRAM) as server:
                [of] = server.library.coclasses
                server.create(of.name)
                names = [
                    it.name for it in server.library.members(server.library.interface(of)).values()
                ]
            shown = (
                "[...document.querySelectorAll('[role=columnheader]')].slice(1).map(it => "
                "it.dataset.name)"
            )
            with Page(store) as page:
                self.opened(page)
                self.same("the first eight", self.look(shown), names[:8])
                for name, wanted in (
                    (names[-1], [*names[:8], names[-1]]),
                    (names[0], [*names[1:8], names[-1]]),
                ):
                    self.do(
                        "script",
                        "const it = document.querySelector('.tools select'); it.value = "
                        "arguments[0]; it.dispatchEvent(new Event('change'))",
                        name,
                    )
                    self.seen(f"{name} is shown, or is not", shown, wanted)
                self.clean()

    def test_as_many_objects_as_there_may_be(self):
        objects = {
            it: {(1, ()): long_value(it * 7_919 % 65_536), (2, ()): text_content(f"item {it}")}
            for it in range(1, 65_537)
        }
        with tempfile.TemporaryDirectory() as room, Page(
            store_with(f"{room}/it.store", objects)
        ) as page:
            self.opened(page)
            self.seen("it is painted", "Boolean(document.documentElement.dataset.painted)")
            read = (
                "performance.getEntriesByType('resource').filter(it => it.name.includes('/api/') "
                "&& it.responseEnd <= document.documentElement.dataset.painted)"
            )
            # (a time would say more of the machine than of the page)
            self.tell(
                "by two readings",
                self.look(f"{read}.length") <= 3,
                self.look(f"{read}.map(it => it.name)"),
            )
            size = self.look(f"{read}.reduce((sum, it) => sum + it.encodedBodySize, 0)")
            self.tell("of the rows that are in sight", 1_000 < size < 60_000, size)
            self.same(
                "it says how many",
                self.look("document.querySelector('#count').textContent"),
                "65,536 objects",
            )
            self.do("script", "document.querySelector('[role=grid]').scrollTop = 1e9")
            self.seen(
                "the last one",
                "[...document.querySelectorAll('.lines .row')].at(-1)?.dataset.number",
                "65536",
                600,
            )
            self.tell(
                "rows that are not in sight are not there",
                self.look("document.querySelectorAll('.lines .row').length") < 80,
            )
            self.do(
                "script",
                "document.querySelector('[role=grid]').scrollTop = 0; "
                "document.querySelector('[data-name=Count] button').click()",
            )
            first = "document.querySelector('.lines .row[aria-rowindex=\"3\"]')?.dataset.number"
            self.seen("the least", first, "65536", 600)
            self.do("script", "document.querySelector('[data-name=Count] button').click()")
            self.seen(
                "the greatest",
                first,
                str(next(it for it in objects if it * 7_919 % 65_536 == 65_535)),
                600,
            )
            self.clean()

    @left_out("cc")
    def test_what_another_client_puts(self):
        """Beside another client of a gateway: what that one puts is seen with the next reading."""
        with tempfile.TemporaryDirectory() as room:
            store_with(f"{room}/it.store", OBJECTS)
            with Gateway(room=room, sockets=("listen", "control", "metrics")) as gateway:
                with Page(
                    "--connect",
                    f"{room}/listen",
                    "--metrics",
                    f"oaut+unix://{room}/metrics",
                    f"{room}/it.store",
                ) as page, gateway.session() as other:
                    self.opened(page)
                    item = other.object(1, "Item")
                    cell = "document.querySelector('.lines .row').children[1]"
                    # (the mark goes by itself, perhaps before it is asked for)
                    marks = (
                        f"window.marked = false; new MutationObserver(() => {{ window.marked ||= "
                        f"{cell}.classList.contains('changed'); }})"
                    )
                    self.do("script", f"{marks}.observe({cell}, {{attributes: true}})")
                    item.Count = 77
                    self.seen("what another client puts", f"{cell}.textContent", "77")
                    self.seen("it is marked", "window.marked")
                    watch = (
                        f"window.shownAt = {{}}; new MutationObserver(() => {{ "
                        f"window.shownAt[{cell}.textContent] ??= performance.timeOrigin + "
                        f"performance.now(); }})"
                    )
                    self.do(
                        "script",
                        f"{watch}.observe({cell}, {{childList: true, subtree: true, "
                        f"characterData: true}})",
                    )
                    for it in ("78", "79"):
                        item.Count = int(it)
                        put = time.time() * 1_000
                        self.seen("and once more", f"{cell}.textContent", it)
                        begun = "performance.timeOrigin + it.startTime"
                        later = (
                            f"it.name.includes('/api/rows') && {begun} > {put} && {begun} <= "
                            f"window.shownAt['{it}']"
                        )
                        count = self.look(
                            f"performance.getEntriesByType('resource').filter(it => {later}).length"
                        )
                        self.tell(
                            "by the first reading that begins behind the put", count <= 2, count
                        )
                self.clean()
                gateway.end()

    @left_out("cc")
    def test_what_another_client_adds(self):
        with tempfile.TemporaryDirectory() as room:
            store_with(f"{room}/it.store", OBJECTS)
            with Gateway(room=room, sockets=("listen", "control", "metrics")) as gateway:
                with Page(
                    "--connect",
                    f"{room}/listen",
                    "--metrics",
                    f"oaut+unix://{room}/metrics",
                    f"{room}/it.store",
                ) as page, gateway.session() as other:
                    self.opened(page)
                    item = other.object(1, "Item")
                    item.Cell[6, "new"] = "y"
                    self.press(".lines .row")
                    self.seen(
                        "a key that another client puts",
                        "[...document.querySelectorAll('tbody tr')].some(it => it.textContent === "
                        "'6new1y')",
                    )
                    other.create("Item")
                    self.press(".tools button")
                    self.seen(
                        "an object that another client makes",
                        "document.querySelectorAll('.lines .row').length",
                        4,
                    )
                self.clean()
                gateway.end()

    @left_out("cc")
    def test_charts_of_a_gateway(self):
        with tempfile.TemporaryDirectory() as room:
            store_with(f"{room}/it.store", OBJECTS)
            with Gateway(room=room, sockets=("listen", "control", "metrics")) as gateway:
                with Page(
                    "--connect",
                    f"{room}/listen",
                    "--metrics",
                    f"oaut+unix://{room}/metrics",
                    f"{room}/it.store",
                ) as page, gateway.session() as other:
                    self.opened(page)
                    item = other.object(1, "Item")
                    self.press("#tab-status")
                    self.seen(
                        "charts of the gateway",
                        "document.querySelectorAll('figure svg path').length > 3",
                    )
                    with contextlib.suppress(oaut.TypeMismatch):
                        item.Count = "x"
                    self.seen(
                        "a chart of a refusal",
                        "[...document.querySelectorAll('figcaption')].some(it => "
                        "it.textContent.startsWith('refused DISP_E_TYPEMISMATCH'))",
                    )
                    most = (
                        "it.ariaLabel.startsWith('requests a second') && "
                        "Number(it.ariaLabel.split('at most ')[1]) > 0.01"
                    )
                    self.seen(
                        "a chart of requests",
                        f"[...document.querySelectorAll('figure svg')].some(it => {most})",
                    )
                self.clean()
                gateway.end()

    @left_out("cc")
    def test_nothing_is_asked_while_nobody_looks(self):
        with tempfile.TemporaryDirectory() as room:
            store_with(f"{room}/it.store", OBJECTS)
            with Gateway(room=room, sockets=("listen", "control", "metrics")) as gateway:
                with Page(
                    "--connect",
                    f"{room}/listen",
                    "--metrics",
                    f"oaut+unix://{room}/metrics",
                    f"{room}/it.store",
                ) as page, gateway.session() as other:
                    self.opened(page)
                    self.press("#tab-objects")
                    self.press("#pause")

                    def asked():
                        """How much is asked for in two and a half seconds, in which a page that
                        goes on asks some times."""
                        before = gateway.counters()["oaut_gateway_requests_total"]
                        time.sleep(2.5)
                        return gateway.counters()["oaut_gateway_requests_total"] - before

                    # (what was on its way comes first, on a busy machine late)
                    until = time.monotonic() + SOON
                    while (count := asked()) and time.monotonic() < until:
                        pass
                    self.tell("nothing is asked for where nobody looks", count == 0, count)
                self.clean()
                gateway.end()

    @left_out("cc")
    def test_where_changes_are_told(self):
        """The store is asked after a change alone."""
        with tempfile.TemporaryDirectory() as room:
            store_with(f"{room}/it.store", OBJECTS)
            with Gateway(room=room, sockets=("listen", "control", "watch")) as gateway:
                words = (
                    "--connect",
                    f"{room}/listen",
                    "--watch",
                    f"{room}/watch",
                    f"{room}/it.store",
                )
                with Page(*words) as page, gateway.session() as other:
                    self.opened(page)
                    item = other.object(1, "Item")

                    def asked():
                        """How much the store is asked for in a second."""
                        before = gateway.counters()["oaut_gateway_requests_total"]
                        time.sleep(1.2)
                        return gateway.counters()["oaut_gateway_requests_total"] - before

                    for it in ("77", "78"):
                        Gateway.wait_for(
                            lambda: asked() == 0, "the store is asked though nothing changes"
                        )
                        item.Count = int(it)
                        self.seen(
                            "what another client puts",
                            "document.querySelector('.lines .row').children[1].textContent",
                            it,
                        )
                    Gateway.wait_for(
                        lambda: asked() == 0, "the store is asked though nothing changes"
                    )
                    self.tell(
                        "what is shown is new all the same",
                        self.look("performance.now() - read < 20000"),
                    )
                    self.press("#tab-status")
                    self.seen(
                        "how it runs is read", "document.querySelectorAll('#main dl').length", 1
                    )
                    self.clean()
                gateway.end()


if __name__ == "__main__":
    unittest.main()
