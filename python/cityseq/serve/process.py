"""The process of a server: where it listens, how it is stopped, how it ends, and its log of
requests: one line for each, in the combined format of web servers."""
from __future__ import annotations

import asyncio
import logging
import signal
import socket
import sys
import time as clock
from collections.abc import Sequence

from aiohttp import web
from aiohttp.abc import AbstractAccessLogger
from aiohttp.http_exceptions import HttpProcessingError

from ..cli.output import say
from ..cli.requests import Serve
from ..engine import ReadFault, library, shown, why
from .application import Server, application
from .sending import SENT
from .settings import LOOPBACK, Limits, Settings

LONGEST = 2_000  # characters of a part of a line that a client sent
MONTHS = "Jan Feb Mar Apr May Jun Jul Aug Sep Oct Nov Dec".split()


class _Output(logging.StreamHandler):  # type: ignore[type-arg]
    """Standard output. If it is closed or full, the server goes on."""

    def handleError(self, record: logging.LogRecord) -> None:
        """Leaves the line out."""


class _Faults(logging.Handler):
    """Says what fails in aiohttp, in one line. A request that cannot be read is only logged."""

    def emit(self, record: logging.LogRecord) -> None:
        """Says a fault, unless the client caused it."""
        fault = record.exc_info[1] if record.exc_info else None
        if not isinstance(fault, (ConnectionError, HttpProcessingError)):
            say(shown(f"{record.getMessage()}: {fault}"))


def _logger(name: str, level: int, handler: logging.Handler | None) -> logging.Logger:
    found = logging.getLogger(f"cityseq.serve.{name}")
    found.propagate = False
    found.handlers = [logging.NullHandler() if handler is None else handler]
    found.setLevel(level)
    return found


def request_logger(is_quiet: bool) -> logging.Logger:
    """Returns the logger of requests. It writes to standard output, or nothing if it is quiet."""
    has_output = not is_quiet and sys.stdout is not None
    return _logger("requests", logging.INFO, _Output(sys.stdout) if has_output else None)


def _quoted(text: object) -> str:
    """Returns a client's text in quotes. No character of it ends the quotes or the line."""
    told = "-" if text is None else str(text)[:LONGEST].encode("utf-8", "replace").decode("utf-8")
    return '"' + shown(told.replace("\\", "\\\\").replace('"', '\\"')) + '"'


def _when(now: float) -> str:
    told = clock.gmtime(now)
    return clock.strftime(f"%d/{MONTHS[told.tm_mon - 1]}/%Y:%H:%M:%S +0000", told)


def body_size(request: web.BaseRequest, response: web.StreamResponse) -> int:
    """Returns how many bytes the body of an answer has, without those of chunks."""
    if request.method == "HEAD" or response.status == 204:
        return 0
    length: int | None = response.content_length
    sent: int = response.get(SENT, 0)
    return sent if length is None else length


class Combined(AbstractAccessLogger):
    """Logs requests in the combined format."""

    def log(self, request: web.BaseRequest, response: web.StreamResponse, time: float) -> None:
        """Logs a request that was answered."""
        version, headers = request.version, request.headers
        line = f"{request.method} {request.raw_path} HTTP/{version[0]}.{version[1]}"
        self.logger.info(
            "%s - - [%s] %s %d %d %s %s",
            shown(str(request.remote or "-")),
            _when(clock.time()),
            _quoted(line),
            response.status,
            body_size(request, response),
            _quoted(headers.get("Referer")),
            _quoted(headers.get("User-Agent")),
        )


SIGNALS = (signal.SIGTERM, signal.SIGINT, signal.SIGHUP)
BACKLOG = 128  # connections that are accepted at once
READ = 1 << 18  # bytes of a body that wait in a connection
UNSENT = 1 << 17  # bytes of an answer that wait in the system, so that a slow client is seen
LINGER = 2.0  # seconds in which it drops what a client still sends
LAST = 0.1  # seconds for a connection to end when the server has ended
LOOK = 0.05  # seconds between two looks at open answers
FILES = 512  # descriptors in addition to those of connections


def settings_of(wanted: Serve) -> Settings:
    """Returns the settings that the command line asks for.

    Raises:
        RequestError: A URL is not valid.
    """
    limits = Limits(
        requests=wanted.max_requests,
        bodies=wanted.max_bodies,
        connections=_connections(),
        body=wanted.max_body,
        whole=wanted.max_whole,
        seconds=wanted.max_seconds,
        idle=wanted.idle_seconds,
        rate=wanted.min_rate,
        stop=wanted.stop_seconds,
        features=wanted.max_features,
        line_limit=wanted.line_limit,
        depth=wanted.depth,
    )
    names = () if wanted.host in LOOPBACK else (wanted.host,)
    return Settings(
        tuple(wanted.files), wanted.base, wanted.url, names, wanted.cors, wanted.jobs, limits
    )


def _connections() -> int:
    """Returns the most connections: as many as the system has descriptors for."""
    import resource

    soft, hard = resource.getrlimit(resource.RLIMIT_NOFILE)
    most = Limits().connections
    if soft != resource.RLIM_INFINITY and soft < most + FILES:
        soft = most + FILES if hard == resource.RLIM_INFINITY else min(most + FILES, hard)
        resource.setrlimit(resource.RLIMIT_NOFILE, (soft, hard))
    return most if soft == resource.RLIM_INFINITY else max(min(most, soft - FILES), 8)


def runner_of(server: Server, is_quiet: bool) -> web.AppRunner:
    """Returns what carries the application of a server."""
    return web.AppRunner(
        application(server),
        logger=_logger("faults", logging.ERROR, _Faults()),
        access_log=request_logger(is_quiet),
        access_log_class=Combined,
        auto_decompress=False,
        read_bufsize=READ,
        lingering_time=LINGER,
        keepalive_timeout=server.limits.idle,
    )


class Refused(asyncio.Protocol):
    """A connection that is one too many."""

    def connection_made(self, transport: asyncio.BaseTransport) -> None:
        """Ends it."""
        assert isinstance(transport, asyncio.WriteTransport)
        transport.abort()


class Process:
    """A running server.

    Attributes:
        server: What answers the requests.
        sockets: Where it listens.
    """

    def __init__(self, server: Server, is_quiet: bool) -> None:
        self.server, self._limits = server, server.limits
        self.sockets: Sequence[socket.socket] = ()
        self._runner = runner_of(server, is_quiet)
        self._stop = asyncio.Event()
        self._loop = asyncio.get_running_loop()
        self._loop.set_exception_handler(_tell)

    async def run(self, host: str, port: int) -> None:
        """Serves until a signal asks for the end.

        Raises:
            ReadFault: The system refuses to listen there.
        """
        try:
            listening = await self.listen(host, port)
            for number in SIGNALS:
                self._loop.add_signal_handler(number, self._told_to_stop, number)
            self._greet(host)
            await self._stop.wait()
            listening.close()
            await self._finish()
        finally:
            await self.close()

    async def listen(self, host: str, port: int) -> asyncio.AbstractServer:
        """Accepts connections from now on.

        Raises:
            ReadFault: The system refuses that.
        """
        await self._runner.setup()
        try:
            found = await self._loop.create_server(
                self._connection, host, port, backlog=min(BACKLOG, self._limits.connections)
            )
        except (OSError, UnicodeError) as fault:
            raise ReadFault(f"cannot listen at {host}, port {port}: {why(fault)}") from fault
        self.sockets = found.sockets
        for each in self.sockets:
            each.setsockopt(socket.IPPROTO_TCP, socket.TCP_NOTSENT_LOWAT, UNSENT)
        return found

    async def close(self) -> None:
        """Ends all connections and threads."""
        if self._runner.server is not None:
            await self._runner.server.shutdown(LAST)
        await self._runner.cleanup()

    def _connection(self) -> asyncio.Protocol:
        server = self._runner.server
        assert server is not None
        if len(server.connections) >= self._limits.connections:
            return Refused()
        return server()

    def _greet(self, host: str) -> None:
        """Writes where the server is."""
        count = sum(1 for _ in self.server.catalogue)
        what = f"{count} collection{'' if count == 1 else 's'}"
        for each in self.sockets:
            say(f"{url_of(each)} serves {what}, and checks files; Ctrl-C stops it")
        if host not in LOOPBACK:
            say(
                "anybody who reaches this address may read the collections and have files checked:"
                " there is no password, and no encryption"
            )

    def _told_to_stop(self, number: int) -> None:
        if not self._stop.is_set():
            say(f"stopped by {signal.Signals(number).name}")
        self._stop.set()

    async def _finish(self) -> None:
        """Waits for the open answers, up to the limit."""
        end = self._loop.time() + self._limits.stop
        while self.server.busy and self._loop.time() < end:
            await asyncio.sleep(LOOK)
        if self.server.busy:
            say(f"{self.server.busy} answers are broken off after {self._limits.stop:g} seconds")


def url_of(listener: socket.socket) -> str:
    """Returns the URL of a socket that listens."""
    host, port = listener.getsockname()[:2]
    return f"http://[{host}]:{port}/" if ":" in host else f"http://{host}:{port}/"


def _tell(_: asyncio.AbstractEventLoop, context: dict[str, object]) -> None:
    """Says what fails in the event loop, in one line."""
    if not isinstance(context.get("exception"), ConnectionError):
        say(shown(f"{context['message']}: {context.get('exception')}"))


async def _serve(wanted: Serve, settings: Settings) -> None:
    server = Server(settings)
    server.calls.start()
    await Process(server, wanted.quiet).run(wanted.host, wanted.port)


def run(wanted: Serve) -> int:
    """Serves what the command line asks for, and returns the status.

    Raises:
        CityseqError: An index cannot be read, or the system refuses to listen there.
    """
    settings = settings_of(wanted)
    library()
    asyncio.run(_serve(wanted, settings))
    return 0
