"""The application of aiohttp: what holds for each request, whatever it asks for. Pages for people
come from templates that escape all texts."""
from __future__ import annotations

import asyncio
import json
import os
import re
import socket
import struct
from collections.abc import Awaitable, Callable, Iterator, Sequence
from contextlib import contextmanager, suppress
from functools import partial
from urllib.parse import urlsplit

import jinja2
from aiohttp import web

from .. import __version__
from ..cli.output import say
from ..coordinates import around
from ..engine import CityseqError, shortened, shown
from ..engine.world import deep
from ..indexes.index_pages import Found
from . import bodies
from .answers import (
    HTML,
    PROBLEM,
    Links,
    Problem,
    base_of,
    choose,
    dumped,
    forget,
    host_of,
    is_known,
    logged,
    problem_of,
)
from .context import Catalogue, Context, Resource, accept_of
from .documents import table
from .parameters import Query, of_attributes
from .sending import Calls, Pace, Places, send
from .settings import Settings

FOLDER = os.path.dirname(__file__)
TYPES = {".css": "text/css", ".js": "text/javascript", ".svg": "image/svg+xml"}
LONGEST = 80  # characters of an id in a list
WIDTH, HEIGHT, MARGIN, LEAST = 640.0, 400.0, 10.0, 2.0  # of a map
Handler = Callable[[web.Request], Awaitable[web.StreamResponse]]
POLICY = (
    "default-src 'none'; script-src 'self'; style-src 'self'; img-src 'self'; connect-src 'self';"
    " form-action 'self'; base-uri 'none'; frame-ancestors 'none'"
)
HEADERS = {
    "Content-Security-Policy": POLICY,
    "X-Content-Type-Options": "nosniff",
    "Referrer-Policy": "no-referrer",
    "Cross-Origin-Resource-Policy": "same-origin",
    "Server": "cityseq",
}
LOOK = 1.0  # seconds between two looks whether an index was built again
MOST_HEADERS = 128  # of a request
HUNG_UP = 499  # the status in the log where a client hangs up before the answer has begun
VERSIONS = ((1, 0), (1, 1))
TOKEN = re.compile(r"[!#$%&'*+.^_`|~0-9A-Za-z-]+\Z")
ALLOWED = {
    "Access-Control-Allow-Methods": "GET, HEAD, POST",
    "Access-Control-Allow-Headers": "Accept, Content-Type, Content-Encoding",
    "Access-Control-Max-Age": "600",
}


def brief(text: str) -> str:
    """Returns a text from a stream as a page shows it: one line, without the rest if it is long.
    Characters that cannot be printed are escaped, so that none changes the line."""
    return shown(shortened(text, LONGEST))


def told(value: object) -> str:
    """Returns a value of an attribute as a page shows it: a text, or JSON."""
    if isinstance(value, str):
        return value
    return deep(partial(json.dumps, value, ensure_ascii=False))


def number(value: float) -> str:
    """Returns a coordinate as a page shows it."""
    return f"{value:.3f}".rstrip("0").rstrip(".")


def boxes(features: Sequence[Found]) -> list[tuple[Found, dict[str, str]]]:
    """Returns the features that have an extent, with the rectangle of each on a map, and the path
    of its ground, which may be empty."""
    placed = [(found, found.extent) for found in features if found.extent is not None]
    if not placed:
        return []
    whole = around(extent for _, extent in placed)
    spans = max(whole[2] - whole[0], 1e-9), max(whole[3] - whole[1], 1e-9)
    scale = min((WIDTH - 2 * MARGIN) / spans[0], (HEIGHT - 2 * MARGIN) / spans[1])
    left, top = (WIDTH - spans[0] * scale) / 2, (HEIGHT - spans[1] * scale) / 2
    found = []
    for feature, (west, south, east, north) in placed:
        rectangle = {
            "x": left + (west - whole[0]) * scale,
            "y": top + (whole[3] - north) * scale,
            "width": max((east - west) * scale, LEAST),
            "height": max((north - south) * scale, LEAST),
        }
        shape = {name: f"{value:.1f}" for name, value in rectangle.items()}
        rings = (ring for polygon in feature.footprint for ring in polygon)
        places = (
            [(left + (x - whole[0]) * scale, top + (whole[3] - y) * scale) for x, y in ring]
            for ring in rings
        )
        lines = ("L".join(f"{x:.1f},{y:.1f}" for x, y in ring) for ring in places)
        shape["path"] = "".join(f"M{line}Z" for line in lines)
        found.append((feature, shape))
    return found


def _read(name: str) -> bytes:
    with open(os.path.join(FOLDER, "static", name), "rb") as file:
        return file.read()


class Pages:
    """The templates and files of the pages. They are read once."""

    def __init__(self) -> None:
        self._templates = jinja2.Environment(
            loader=jinja2.FileSystemLoader(os.path.join(FOLDER, "templates")),
            autoescape=True,
            trim_blocks=True,
            lstrip_blocks=True,
            undefined=jinja2.StrictUndefined,
        )
        self._templates.filters.update(brief=brief, told=told, number=number, boxes=boxes)
        self._templates.globals.update(
            version=__version__, width=f"{WIDTH:g}", height=f"{HEIGHT:g}"
        )
        names = os.listdir(os.path.join(FOLDER, "static"))
        kinds = {name: TYPES.get(os.path.splitext(name)[1]) for name in names}
        self._static = {name: (kind, _read(name)) for name, kind in kinds.items() if kind}

    def render(self, name: str, **given: object) -> str:
        """Returns a page."""
        return self._templates.get_template(name).render(**given)

    def static(self, name: str) -> tuple[str, bytes]:
        """Returns the media type and the bytes of a file.

        Raises:
            Problem: There is no file with this name.
        """
        try:
            return self._static[name]
        except KeyError:
            raise Problem(404, "there is nothing at this path") from None


class Server:
    """What all requests share."""

    def __init__(self, settings: Settings) -> None:
        """Opens the indexes.

        Raises:
            ReadFault: One cannot be read.
        """
        self.settings, self.limits = settings, settings.limits
        self.catalogue, self.resources = Catalogue(settings), table(settings.limits)
        self.calls, self.pages = Calls(settings.jobs), Pages()
        self._requests = Places(self.limits.requests, "requests")
        self._bodies = Places(self.limits.bodies, "bodies")
        self._looked = 0.0  # when it last looked for changed indexes

    @property
    def busy(self) -> int:
        """How many requests have no whole answer yet."""
        return self._requests.taken + self._bodies.taken

    async def close(self, _: web.Application) -> None:
        """Ends the threads, and closes the indexes."""
        self.calls.close()
        self.catalogue.close()

    @web.middleware
    async def guard(self, request: web.Request, handler: Handler) -> web.StreamResponse:
        """Answers a request within the limits. A fault becomes a problem. Once the answer has
        begun, a fault ends the connection."""
        request["reading"], request["writing"] = Pace(self.limits), Pace(self.limits)
        places = self._bodies if request.method == "POST" else self._requests
        with _by_itself(request):
            try:
                self._check(request)
                with places.one():
                    await self._look()
                    answer = self.preflight if request.method == "OPTIONS" else handler
                    return await send(request, self.calls, await answer(request))
            except BaseException as fault:
                response = self._failed(request, fault)
                forget(fault)
            if request.pop("begun", None) is None:
                try:
                    return await send(request, self.calls, response)
                except (ConnectionError, Problem) as fault:
                    forget(fault)
            _break_off(request)
            return response

    def _check(self, request: web.Request) -> None:
        """Refuses requests that no resource answers.

        Raises:
            Problem: It is refused.
        """
        if request.version not in VERSIONS:
            raise Problem(505, "the server speaks HTTP/1.1")
        if len(request.headers) > MOST_HEADERS:
            raise Problem(431, "the request has too many headers")
        if not all(map(TOKEN.match, request.headers)):
            raise Problem(400, "a name of a header has a sign that no name has")
        if request.headers.get("Expect", bodies.GO_ON).strip().lower() != bodies.GO_ON:
            raise Problem(417, "a request may expect 100-continue, and nothing else")
        host = host_of(request)
        if not is_known(host, self.settings):
            raise Problem(421, f"this server is not {host}: its names are set by --url")
        origin = request.headers.get("Origin")
        if request.method == "POST" and origin is not None and not self._is_own(request, origin):
            raise Problem(403, f"pages of {origin} may not send bodies to this server")

    def _is_own(self, request: web.Request, origin: str) -> bool:
        scheme, _, rest = base_of(request, self.settings).partition("://")
        own = f"{scheme}://{rest.partition('/')[0]}"
        return self.settings.cors in ("*", origin) or origin == own

    def _failed(self, request: web.Request, fault: BaseException) -> web.StreamResponse:
        """Returns the answer to a request that failed, or the one that has begun."""
        if isinstance(fault, web.HTTPException):
            fault = _problem_of_route(fault)
        elif isinstance(fault, web.RequestPayloadError):
            fault = Problem(400, "the body of the request cannot be read")
        elif not isinstance(fault, Exception):
            raise fault
        hung_up = isinstance(fault, ConnectionError)
        told = None if hung_up else logged(fault)
        if told is not None:
            say(told)
        begun: web.StreamResponse | None = request.get("begun")
        if begun is not None:
            return begun
        if hung_up:
            return web.Response(status=HUNG_UP)
        response = self._told(problem_of(fault), request)
        if not request.content.at_eof():
            response.force_close()
        return response

    def _told(self, problem: Problem, request: web.Request) -> web.Response:
        """Returns a problem as the client accepts it: as a page for a browser, or as JSON."""
        response, told = (
            web.Response(status=problem.status, headers=problem.headers),
            problem.told(),
        )
        with suppress(Problem):
            if choose((PROBLEM, HTML), None, accept_of(request)) == HTML:
                # the host that was asked for may be unknown, so links have none
                links = Links(urlsplit(self.settings.url or "").path.rstrip("/"))
                response.content_type = HTML.media_type
                response.text = self.pages.render("problem.html", told=told, links=links)
                return response
        response.content_type, response.body = PROBLEM.media_type, dumped(told) + b"\n"
        return response

    async def prepare(self, request: web.BaseRequest, response: web.StreamResponse) -> None:
        """Adds the headers that each answer has."""
        response.headers.update(HEADERS)
        cors = self.settings.cors
        if cors is not None:
            response.headers["Access-Control-Allow-Origin"] = cors
            response.headers["Cross-Origin-Resource-Policy"] = "cross-origin"
            response.headers["Access-Control-Expose-Headers"] = "Content-Crs, Link"
            response.headers.add("Vary", "Origin")
        response.headers.add("Vary", "Accept, Accept-Encoding")

    async def _look(self) -> None:
        """Opens an index that was built again. If it cannot be read, keeps the one before."""
        now = asyncio.get_running_loop().time()
        if now - self._looked < LOOK:
            return
        self._looked = now
        if await self.calls.call(self.catalogue.is_changed):
            try:
                new = await self.calls.call(Catalogue, self.settings)
            except CityseqError as fault:
                say(logged(fault) or str(fault))
            else:
                self.catalogue.close()
                self.catalogue = new

    async def answer(self, resource: Resource, request: web.Request) -> web.StreamResponse:
        """Answers a request for a resource."""
        known = [*resource.known]
        if resource.filters:
            collection = self.catalogue.find(request.match_info["collectionId"])
            known += of_attributes(collection.attributes.values(), known)
        context = Context(
            request,
            resource,
            Query(request.raw_path.partition("?")[2], known),
            Links(base_of(request, self.settings)),
            self,
        )
        return await resource.answer(context)

    async def static(self, request: web.Request) -> web.StreamResponse:
        """Answers with a file that pages need. The files are kept in memory."""
        content_type, body = self.pages.static(request.match_info["name"])
        headers = {"Cache-Control": "max-age=3600"}
        return web.Response(body=body, content_type=content_type, charset="utf-8", headers=headers)

    async def preflight(self, request: web.Request) -> web.StreamResponse:
        """Answers a browser that asks whether a page of another origin may send a request."""
        if self.settings.cors is None:
            raise Problem(405, "there is nothing to ask", {"Allow": "GET, HEAD, POST"})
        return web.Response(status=204, headers=ALLOWED)


@contextmanager
def _by_itself(request: web.Request) -> Iterator[None]:
    """Leaves later requests of the connection in the system while one is answered. Bodies do the
    same at their end. A write waits until the system has all bytes."""
    transport = request.transport
    if transport is None:
        yield
        return
    transport.set_write_buffer_limits(0)
    if request.content.at_eof():
        transport.pause_reading()
    try:
        yield
    finally:
        transport.resume_reading()


def _break_off(request: web.Request) -> None:
    """Ends an answer so that the client sees that it is not whole. By HTTP/1.1 it has no last
    chunk. By HTTP/1.0 its end would be that of the connection, so that is reset."""
    if request.transport is None:
        return
    if request.version < (1, 1):
        peer = request.transport.get_extra_info("socket")
        peer.setsockopt(socket.SOL_SOCKET, socket.SO_LINGER, struct.pack("ii", 1, 0))
    request.transport.abort()


def _problem_of_route(fault: web.HTTPException) -> Problem:
    """Returns the problem of a path that does not exist, or of a method that it does not have."""
    if isinstance(fault, web.HTTPMethodNotAllowed):
        allowed = {"Allow": ", ".join(sorted(fault.allowed_methods))}
        return Problem(405, f"this resource has no method {fault.method}", allowed)
    if fault.status == 404:
        return Problem(404, "there is nothing at this path")
    return Problem(fault.status, fault.reason)


def application(server: Server) -> web.Application:
    """Returns the application of a server."""
    app = web.Application(middlewares=[server.guard])
    for each in server.resources:
        handler = partial(server.answer, each)
        for method in each.methods:
            app.router.add_route(method, each.path, handler, expect_handler=bodies.expected)
    app.router.add_get("/static/{name}", server.static, expect_handler=bodies.expected)
    app.on_response_prepare.append(server.prepare)
    app.on_cleanup.append(server.close)
    return app
