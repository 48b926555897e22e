"""The tests of the program, of its clients and of its packages.

They use the Python client of this tree, or the installed one if OAUT_INSTALLED is set. One of them:

    python3 -m unittest tests.program.test_values

tools/cases.py runs them all.
"""
import importlib.util
import os
import site

ROOT = os.path.dirname(os.path.dirname(os.path.abspath(__file__)))
CLIENT = f"{ROOT}/clients/python"

if not os.environ.get("OAUT_INSTALLED"):
    site.addsitedir(CLIENT)
    _found = importlib.util.find_spec("oaut")
    if os.path.dirname(os.path.dirname(os.path.abspath(_found.origin))) != CLIENT:
        raise ImportError(f"{_found.origin} is found first: set OAUT_INSTALLED to test that client")
