"""A plugin of pytest: servers in memory, and recorded sessions, for tests of what uses oaut.

    def test_counting(oaut_server):
        server = oaut_server("items.idl")
        assert count_all(server) == 0

    def test_report(oaut_recorded):
        server = oaut_recorded("report.txt", lambda: oaut.connect("localhost:8765"))
        assert report(server) == "3 items"

pytest finds the plugin of an installed package by itself; `pytest -p oaut.pytest` loads that of one
that is not installed.
"""
from __future__ import annotations

import contextlib
import os
import typing

import pytest

from .library import Library
from .paths import Path, text_file
from .programs import PROGRAM, play
from .recorded import record, replay
from .session import Server

Begin = typing.Callable[[], Server]
_Hook = typing.TypeVar("_Hook", bound=typing.Callable[..., object])
# (pluggy of before has no types)
_wrapping: typing.Callable[[_Hook], _Hook] = pytest.hookimpl(hookwrapper=True)
# set on a test's node once the test has passed, and once a part of it has failed
_PASSED, _FAILED = pytest.StashKey[bool](), pytest.StashKey[bool]()


def pytest_addoption(parser: pytest.Parser) -> None:
    """The options of the plugin."""
    group = parser.getgroup("oaut")
    group.addoption(
        "--oaut-program",
        metavar="PROGRAM",
        default=PROGRAM,
        help="the program that oaut_server starts. Default: the wheel's own, or oaut on the path",
    )
    group.addoption(
        "--oaut-record",
        action="store_true",
        help="make the recordings of oaut_recorded anew, each of a session with a server",
    )


@_wrapping
def pytest_runtest_call(item: pytest.Item) -> typing.Generator[None, typing.Any, None]:
    """Notes a test that passed: of one that failed, was interrupted or skipped itself no recording
    is kept."""
    outcome = yield
    item.stash[_PASSED] = outcome.excinfo is None


def pytest_exception_interact(node: pytest.Item) -> None:
    """Notes a test of which a part failed."""
    node.stash[_FAILED] = True


class ServerFactory(typing.Protocol):
    """The type of the fixture `oaut_server`."""

    def __call__(self, library: Library | Path, *, timeout: float | None = None) -> Server:
        """A session with a new server of this library, whose objects are in memory. The library is
        the path of its file, from the test's folder on, its text, or an oaut.Library."""


class RecordedFactory(typing.Protocol):
    """The type of the fixture `oaut_recorded`."""

    def __call__(self, path: Path, begin: Begin, *, partly: bool = False) -> Server:
        """A session with the replies of a recording, whose path is from the test's folder on. With
        --oaut-record it is the session that `begin` returns, which is recorded there."""


def _beside(request: pytest.FixtureRequest, path: Path) -> str:
    """A path from the folder of a test on."""
    return os.path.join(request.path.parent, os.fspath(path))


@contextlib.contextmanager
def _file_of(request: pytest.FixtureRequest, library: Library | Path) -> typing.Iterator[str]:
    """The name of a library's file, as long as it lasts."""
    text = library.to_text() if isinstance(library, Library) else os.fspath(library)
    if "{" in text:
        with text_file(text.encode()) as name:
            yield name
    else:
        yield _beside(request, text)


@pytest.fixture
def oaut_server(request: pytest.FixtureRequest) -> typing.Iterator[ServerFactory]:
    """A function that begins a session with a new server, whose objects are in memory:
    `oaut_server("items.idl")`. Its sessions end with the test."""
    program = request.config.getoption("--oaut-program")
    with contextlib.ExitStack() as stack:

        def begin(library: Library | Path, *, timeout: float | None = None) -> Server:
            with _file_of(request, library) as name:
                return stack.enter_context(play(name, program, timeout=timeout))

        yield begin


@pytest.fixture
def oaut_recorded(request: pytest.FixtureRequest) -> typing.Iterator[RecordedFactory]:
    """A function that begins a session that is replayed: `oaut_recorded("calls.txt", begin)`. With
    --oaut-record it records the session that `begin()` returns, and the file is written if the test
    passes. Its sessions end with the test."""
    recording = request.config.getoption("--oaut-record")

    def failed() -> type[BaseException] | None:
        # (of a test that did not pass no recording is kept, nor is it said what it did not send)
        stash = request.node.stash
        return (
            None if stash.get(_PASSED, False) and not stash.get(_FAILED, False) else AssertionError
        )

    with contextlib.ExitStack() as stack:

        def begin_recorded(path: Path, begin: Begin, *, partly: bool = False) -> Server:
            name = _beside(request, path)
            if not recording and not os.path.exists(name):
                pytest.fail(f"there is no recording {name}: pytest --oaut-record makes it")
            server = begin() if recording else replay(name, partly=partly)
            stack.callback(lambda: server.__exit__(failed()))
            if recording:
                held = record(server, name)
                held.__enter__()
                stack.callback(lambda: held.__exit__(failed()))
            return server

        yield begin_recorded
