#!/usr/bin/env python3
"""Makes the pictures of README.md and docs/guide/view.md anew, by the page of `python3 -m oaut
view`: the store of examples/start.py, and a stock of teas.

    python3 tools/pictures.py [--program PATH]

It needs what the cases of the page need: aiohttp, selenium, chromium and its driver.
"""
import argparse
import contextlib
import decimal
import json
import os
import shutil
import subprocess
import sys
import tempfile
import time

ROOT = os.path.dirname(os.path.dirname(os.path.abspath(__file__)))
LIBRARY = f"{ROOT}/examples/full.idl"
TEAS = (
    "Assam",
    "Ceylon",
    "Darjeeling",
    "Earl Grey",
    "Gunpowder",
    "Jasmine",
    "Keemun",
    "Lapsang Souchong",
    "Matcha",
    "Oolong",
    "Rooibos",
    "Sencha",
)


def main():
    parser = argparse.ArgumentParser(description=__doc__.splitlines()[0])
    parser.add_argument("--program", default=f"{ROOT}/crates/oaut/out/oaut")
    program = os.path.abspath(parser.parse_args().program)
    os.environ["OAUT_PROGRAM"] = program
    sys.path.insert(0, ROOT)
    from tests.client import viewing
    import oaut

    with tempfile.TemporaryDirectory() as room:
        store = f"{room}/teas.store"
        oaut.make_store(store, LIBRARY, program=program)
        with oaut.serve(store, LIBRARY, group=1_024, program=program) as server, server.batch():
            for _ in TEAS:
                server.create("Item")
        with oaut.serve(store, LIBRARY, group=1_024, program=program) as server, server.batch():
            for number, tea in enumerate(TEAS, 1):
                item = server.object(number, "Item")
                item.Count, item.Name, item.Flag = number * 7 % 19, tea, number * 7 % 19 > 5
                item.Price = oaut.Currency(f"{3 + number % 5}.{number * 25 % 100:02}")
                item.Exact = decimal.Decimal(f"{1 + number % 3}.{number * 125 % 1000:03}")
                item.Any = f"shelf {1 + number % 4}"
                item.Grid = [[number, number + 2, number + 1], [2 * number, number, number + 4]]
                item.Cell[2026, "supplier"] = "Harbour & Sons" if number % 2 else "Two Rivers"
                item.Cell[2026, "harvest"] = "spring" if number % 3 else "autumn"
        with shown(viewing, store, 560, "--write") as do:
            do("picture", f"{ROOT}/docs/guide/view-objects.png")
            do("click", ".lines .row")
            time.sleep(2)
            do("picture", f"{ROOT}/docs/guide/view-object.png")
        for it in ("items.idl", "start.py"):
            shutil.copy(f"{ROOT}/examples/{it}", room)
        os.mkdir(f"{room}/bin")
        os.symlink(program, f"{room}/bin/oaut")
        path = {"PATH": f"{room}/bin:{os.environ['PATH']}", "PYTHONPATH": f"{ROOT}/clients/python"}
        subprocess.run(
            [sys.executable, "start.py"], cwd=room, env={**os.environ, **path}, check=True
        )
        with shown(viewing, f"{room}/items.store", 430) as do:
            do("click", ".lines .row")
            time.sleep(2)
            do("picture", f"{ROOT}/docs/guide/view-start.png")


@contextlib.contextmanager
def shown(viewing, store, height, *words):
    """A browser that shows a store, with the function that makes it act."""
    with viewing.Page(store, *words) as page:
        browser = subprocess.Popen(
            [viewing.BROWSER, f"{ROOT}/tests/client/browser.py"],
            stdin=subprocess.PIPE,
            stdout=subprocess.PIPE,
            text=True,
        )

        def do(*words):
            print(json.dumps(words), file=browser.stdin, flush=True)
            return json.loads(browser.stdout.readline())

        browser.stdout.readline()
        do("emulate", 1_000, height, "light")
        do("open", page.address)
        time.sleep(2)
        yield do
        browser.communicate(timeout=30)


if __name__ == "__main__":
    main()
