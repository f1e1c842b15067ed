"""The settings of a server: where it listens, and its limits."""
from __future__ import annotations

from dataclasses import dataclass, field
from urllib.parse import SplitResult, urlsplit

from ..cli.requests import Serve
from ..engine import RequestError

CONNECTIONS = 1_000
REPORTS, MOST_REPORTS = 1_000, 10_000  # in an answer: the default, and the most
LOOPBACK = ("127.0.0.1", "::1", "localhost")


@dataclass(frozen=True)
class Limits:
    """The limits of a server.

    Attributes:
        requests: Requests without a body that it answers at once.
        bodies: Bodies that it takes at once.
        connections: Connections that are open. One more is closed at once.
        body: Bytes of a body, as it comes and after it is unpacked.
        whole: The same of a whole CityJSON file, which is in memory.
        seconds: Seconds for a request in all.
        idle: Seconds that it waits for a client that sends and takes nothing.
        rate: Bytes that a client must send or take in a second in which the server waits for it.
        stop: Seconds that open answers have to end when it stops.
        features: Features in an answer.
        line_limit: Bytes of a line that a request may ask for.
        depth: Arrays and objects open at once that a request may ask for.
    """

    requests: int = Serve.max_requests
    bodies: int = Serve.max_bodies
    connections: int = CONNECTIONS
    body: int = Serve.max_body
    whole: int = Serve.max_whole
    seconds: float = Serve.max_seconds
    idle: float = Serve.idle_seconds
    rate: float = Serve.min_rate
    stop: float = Serve.stop_seconds
    features: int = Serve.max_features
    line_limit: int = Serve.line_limit
    depth: int = Serve.depth


@dataclass(frozen=True)
class Settings:
    """The settings of a server.

    Attributes:
        indexes: The paths of the indexes whose streams it serves.
        base: The URL that the streams are below. None if they are files.
        url: The URL that clients know the server by. None if it is the one that they ask for.
        names: Host names that it answers to, in addition to that of `url` and to addresses.
        cors: The origin whose pages may read the answers; `*` for any, None for none.
        jobs: How many threads judge and cut. None is one for each processor.
        limits: Its limits.
    """

    indexes: tuple[str, ...] = ()
    base: str | None = None
    url: str | None = None
    names: tuple[str, ...] = ()
    cors: str | None = None
    jobs: int | None = None
    limits: Limits = field(default_factory=Limits)

    def __post_init__(self) -> None:
        if self.url is not None:
            _check_url(self.url)
        if self.cors is not None and self.cors != "*":
            _check_origin(self.cors)


def _parts(url: str, what: str) -> SplitResult:
    """Returns the parts of a URL. Raises `RequestError` if it is not an http or https URL."""
    try:
        parts = urlsplit(url)
        port = parts.port
    except ValueError as fault:
        raise RequestError(f"{what}: {fault}: {url}") from fault
    is_plain = url.isascii() and url.isprintable() and " " not in url
    if parts.scheme not in ("http", "https") or not parts.hostname or not is_plain or port == 0:
        raise RequestError(f"{what} begins with http:// or https:// and a name: {url}")
    return parts


def _check_url(url: str) -> None:
    parts = _parts(url, "the URL of the server")
    if parts.query or parts.fragment or parts.username is not None:
        raise RequestError(f"the URL of the server is a scheme, a name and a path: {url}")


def _check_origin(origin: str) -> None:
    parts = _parts(origin, "an origin")
    if origin != f"{parts.scheme}://{parts.netloc}" or parts.username is not None:
        raise RequestError(f"an origin is a scheme and a name, without a path: {origin}")
