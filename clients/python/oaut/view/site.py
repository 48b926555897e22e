"""The page's server: HTTP by aiohttp, for the loopback and for callers with its token."""
from __future__ import annotations

import asyncio
import concurrent.futures
import hmac
import importlib.resources
import json
import re
import secrets
import typing

from aiohttp import ClientError, ClientSession, ClientTimeout, UnixConnector, web

from ..faults import CODES, Error
from ..files import Json
from .changes import Changes
from .window import Window, Wrong

Handler = typing.Callable[[web.Request], typing.Awaitable[web.StreamResponse]]
FILES = {"page.css": "text/css", "page.js": "text/javascript"}
# nothing from elsewhere, nothing inline, and in no frame of somebody else
HEADERS = {
    "Content-Security-Policy": "default-src 'none'; script-src 'self'; style-src 'self'; "
    "connect-src 'self'; img-src 'self' data:; base-uri 'none'; form-action 'none'; "
    "frame-ancestors 'none'",
    "X-Content-Type-Options": "nosniff",
    "X-Frame-Options": "DENY",
    "Referrer-Policy": "no-referrer",
    "Cross-Origin-Opener-Policy": "same-origin",
    "Cross-Origin-Resource-Policy": "same-origin",
    "Cache-Control": "no-store",
}
# how long a request may take to end when the page is closed, in seconds
END_WITHIN = 0.5
# a library's text and the characters around it
BODY_LIMIT = 4 << 20
METRICS_LIMIT = 1 << 20
# seconds that a question for changes may wait
WAIT = 1.0
# a line of a gateway's metrics: the name, the code of a refusal, the number
_NUMBER = re.compile(
    r'^oaut_gateway_(\w+)(?:\{code="(0x[0-9a-f]{1,8})"\})? ([0-9.e+-]+)$', re.MULTILINE
)


class Told(typing.NamedTuple):
    """A gateway beside the session: the address of its metrics, and its changes."""

    metrics: str | None
    changes: Changes


class Site:
    """The routes over a window. `hosts` are the names with ports by which it may be called."""

    def __init__(self, window: Window, token: str, told: Told) -> None:
        self.window, self.token = window, token
        self.metrics, self.changes = told
        self.hosts: set[str] = set()
        self.hangs = False
        # one thread, since a session belongs to one
        self.thread = concurrent.futures.ThreadPoolExecutor(1)

    def application(self) -> web.Application:
        """The application of aiohttp."""
        app = web.Application(middlewares=[self.guarded()], client_max_size=BODY_LIMIT)
        app.router.add_get("/", self.page)
        for name in FILES:
            app.router.add_get(f"/{name}", self.file)
        window = self.window
        for name, look in (
            ("rows", window.rows),
            ("object", window.object),
            ("keys", window.keys),
            ("array", window.array),
            ("value", window.value),
            ("words", window.words),
        ):
            app.router.add_get(f"/api/{name}", self.asked(look))
        app.router.add_get("/api/library", self.asked(lambda _: window.library()))
        app.router.add_get("/api/status", self.status)
        app.router.add_get("/api/wait", self.wait)
        for name, change in (
            ("put", window.put),
            ("undo", window.undo),
            ("create", window.create),
            ("release", window.release),
            ("compare", window.compare),
            ("replace", window.replace),
        ):
            app.router.add_post(f"/api/{name}", self.asked(change))
        app.cleanup_ctx.append(self.following)
        app.on_cleanup.append(self.closed)
        return app

    async def following(self, _: web.Application) -> typing.AsyncIterator[None]:
        """Follows the changes while the application is there."""
        task = asyncio.ensure_future(self.changes.follow())
        yield
        task.cancel()

    async def closed(self, _: web.Application) -> None:
        """Ends the session with the application. A server that does not reply is left as it is."""
        closing = asyncio.get_running_loop().run_in_executor(self.thread, self.window.close)
        try:
            await asyncio.wait_for(asyncio.shield(closing), END_WITHIN)
        except asyncio.TimeoutError:
            self.hangs = True
        self.thread.shutdown(wait=not self.hangs)

    def guarded(self) -> typing.Callable[..., typing.Awaitable[web.StreamResponse]]:
        """Checks the host name and the caller before every reply."""

        async def middleware(request: web.Request, handler: Handler) -> web.StreamResponse:
            try:
                self.admit(request)
                response = await handler(request)
            except web.HTTPException as error:
                response = error
            response.headers.update(HEADERS)
            return response

        made: typing.Callable[..., typing.Awaitable[web.StreamResponse]]
        made = web.middleware(middleware)
        return made

    def admit(self, request: web.Request) -> None:
        """Allows a request, or raises. The page itself contains nothing of a store. Its requests
        have to name this host, so that no other name leads here, have to come from this page, and
        need the token. A cookie would go to every port of this host."""
        if request.headers.get("Host", "").lower() not in self.hosts:
            raise web.HTTPForbidden(text="this page is not served under that name\n")
        origin = request.headers.get("Origin")
        allowed = {f"http://{it}" for it in self.hosts}
        if origin is not None and origin.lower() not in allowed:
            raise web.HTTPForbidden(text="another page may not ask here\n")
        is_own = origin is not None and request.content_type == "application/json"
        if request.method != "GET" and not is_own:
            raise web.HTTPForbidden(text="changes come from this page alone\n")
        if request.path == "/" or request.path.lstrip("/") in FILES:
            return
        scheme, _, word = request.headers.get("Authorization", "").partition(" ")
        if scheme.lower() != "bearer" or not self.is_token(word.strip()):
            text = "open the address that was printed when the page was started: it has a token\n"
            raise web.HTTPForbidden(text=text)

    def is_token(self, word: str) -> bool:
        """Returns whether a word is the token, in a time that reveals nothing of it."""
        return hmac.compare_digest(word.encode("utf-8", "replace"), self.token.encode())

    async def page(self, _: web.Request) -> web.StreamResponse:
        """The page itself."""
        return web.Response(text=_text("page.html"), content_type="text/html")

    async def file(self, request: web.Request) -> web.StreamResponse:
        """The page's style and script."""
        name = request.path.lstrip("/")
        return web.Response(text=_text(name), content_type=FILES[name])

    def asked(self, call: typing.Callable[[typing.Mapping[str, str]], Json]) -> Handler:
        """A call of the window as a route: its words are in the query, or in a body of JSON."""

        async def answer(request: web.Request) -> web.StreamResponse:
            words: typing.Mapping[str, str] = request.query
            if request.method == "POST":
                try:
                    given = await request.json()
                except ValueError:
                    return _told({"error": "no JSON"}, 400)
                texts = isinstance(given, dict) and given.values()
                if texts is False or any(not isinstance(it, str) for it in texts):
                    return _told({"error": "the body has to be an object of texts"}, 400)
                words = given
            return await self.on_thread(call, words)

        return answer

    async def on_thread(
        self, call: typing.Callable[..., Json], *words: object
    ) -> web.StreamResponse:
        """The result of a call of the window, or the reason why there is none."""
        loop = asyncio.get_running_loop()
        try:
            return _told(await loop.run_in_executor(self.thread, self.window.guarded, call, *words))
        except Wrong as wrong:
            return _told({"error": str(wrong)}, wrong.status)
        except (Error, OSError) as fault:
            return _told({"error": str(fault)}, 503)

    async def wait(self, request: web.Request) -> web.StreamResponse:
        """The count of changes, once it is another one than the page has seen, or after a while."""
        seen = request.query.get("after", "")
        count = int(seen) if seen.isascii() and seen.isdigit() and len(seen) < 20 else None
        return _told({"count": await self.changes.after(count, WAIT)})

    async def status(self, _: web.Request) -> web.StreamResponse:
        """How the store and the gateway do."""
        loop = asyncio.get_running_loop()
        told = await loop.run_in_executor(self.thread, self.window.status)
        if self.metrics is not None:
            told["gateway"] = await _metrics(self.metrics)
        return _told(told)


def _told(told: Json, status: int = 200) -> web.Response:
    text = json.dumps(told, separators=(",", ":"))
    return web.Response(text=text, status=status, content_type="application/json")


def _text(name: str) -> str:
    return (importlib.resources.files("oaut.view") / name).read_text("utf-8")


async def _metrics(where: str) -> Json:
    """The numbers of a gateway by their names, as its page of metrics has them, and how often it
    refused with which code."""
    try:
        connector = UnixConnector(where) if "/" in where else None
        address = "http://gateway/metrics" if connector else f"http://{where}/metrics"
        async with ClientSession(connector=connector, timeout=ClientTimeout(2)) as session:
            async with session.get(address) as response:
                text = (await response.content.read(METRICS_LIMIT)).decode("utf-8", "replace")
    except (OSError, ClientError, asyncio.TimeoutError) as error:
        return {"error": str(error) or "no reply"}
    found: Json = {}
    for name, code, number in _NUMBER.findall(text):
        refusal = CODES.get(int(code, 16)) if code else None
        told = f"refused {refusal.name if refusal else code}" if code else name
        found[told] = found.get(told, 0) + float(number)
    return found


def hosts_of(names: typing.Iterable[str], port: int) -> set[str]:
    """Returns the names with ports by which the page may be called: the loopback's, and these,
    each with the page's own port if it has none. Port 80 may be left out."""
    of_port = [
        it if re.search(r"[^:]:\d+$", it) else f"{it}:{port}"
        for it in ("127.0.0.1", "localhost", "[::1]", *names)
    ]
    return {it.lower() for it in of_port} | {it[:-3].lower() for it in of_port if it[-3:] == ":80"}


async def serve(
    window: Window,
    host: str,
    port: int,
    token: str | None,
    told: Told,
    names: typing.Sequence[str],
    say: typing.Callable[[str], object],
    ended: typing.Callable[[bool], object],
) -> None:
    """Serves the page until it is cancelled, and says if it is. The token is after `#`, which a
    browser sends to nobody. `ended` is called with whether a request still hangs."""
    site = Site(window, token or secrets.token_urlsafe(24), told)
    runner = web.AppRunner(site.application(), access_log=None)
    await runner.setup()
    try:
        await web.TCPSite(runner, host, port, shutdown_timeout=END_WITHIN / 2).start()
        port = runner.addresses[0][1]
        shown = f"[{host}]" if ":" in host else host
        site.hosts = hosts_of((shown, *names), port)
        say(f"http://{shown}:{port}/#token={site.token}")
        await asyncio.Event().wait()
    finally:
        await runner.cleanup()
        ended(site.hangs)
