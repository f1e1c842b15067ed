"""What answers have in common: their formats, their links, and problems (RFC 9457). A client asks
for a format by `f`, or by its header `Accept`."""
from __future__ import annotations

import errno
import ipaddress
import json
from collections.abc import Callable, Iterator, Sequence
from dataclasses import dataclass
from functools import partial
from http import HTTPStatus
from typing import TYPE_CHECKING
from urllib.parse import quote, quote_plus, urlsplit

from aiohttp import web

from ..engine import (
    CityseqError,
    InvalidStream,
    MemoryFault,
    OutOfDate,
    ReadFault,
    RequestError,
    shortened,
    shown,
    why,
)
from ..engine.world import deep
from ..indexes.index_pages import Replaced
from .settings import Settings

if TYPE_CHECKING:
    from ..foreign import Object

LONGEST_DETAIL = 1_000  # characters of a detail: it may contain what a client sent
NO_DESCRIPTOR = (errno.EMFILE, errno.ENFILE)
SOON = {"Retry-After": "1"}
LONGEST_NAME = 100  # characters of the name of a file
Link = dict[str, str]
LONGEST_HEADER = 2_000  # characters of a header with links


class BodyFault(ReadFault):
    """A stream that arrives, and cannot be taken."""


class OtherPacking(BodyFault):
    """One that is packed in another way than by gzip."""


class TooLong(BodyFault):
    """One that is longer than its limit."""

    @classmethod
    def than(cls, limit: int) -> TooLong:
        """Returns the fault of one that is longer than this."""
        return cls(f"a body has at most {limit:,} bytes, also after it is unpacked")


CLIENTS = (InvalidStream, RequestError, BodyFault, Replaced)  # faults that clients cause


class Problem(Exception):
    """A request that is not done.

    Attributes:
        status: The status of the answer.
        detail: Why, in words.
        headers: More headers of the answer.
    """

    def __init__(self, status: int, detail: str, headers: dict[str, str] | None = None) -> None:
        super().__init__(detail)
        self.status, self.detail, self.headers = status, detail, headers or {}

    def told(self) -> Object:
        """Returns the members of the problem."""
        title = HTTPStatus(self.status).phrase
        return {
            "type": "about:blank",
            "title": title,
            "status": self.status,
            "detail": shown(shortened(self.detail, LONGEST_DETAIL)),
            "code": title.title().replace(" ", "").replace("-", ""),
        }


def problem_of(fault: BaseException) -> Problem:
    """Returns the problem that a client gets for a fault of the package. It names no path."""
    match fault:
        case Problem():
            return fault
        case OutOfDate():
            return Problem(502, fault.words)
        case TooLong():
            return Problem(413, fault.words)
        case OtherPacking():
            return Problem(415, fault.words)
        case Replaced():
            return Problem(503, fault.words, SOON)
        case InvalidStream() | RequestError() | BodyFault():
            return Problem(400, fault.words)
        case OSError() if fault.errno in NO_DESCRIPTOR:
            return Problem(503, "the server has no descriptor left", SOON)
        case ReadFault():
            return Problem(502, "the stream or its index cannot be read")
        case MemoryFault() | MemoryError():
            return Problem(503, "there is no memory for this request", SOON)
    return Problem(500, "something that nobody expected: the server's log tells more")


def logged(fault: BaseException) -> str | None:
    """Returns the text of a fault for the log, in one line. None if the client caused it."""
    if isinstance(fault, (Problem, *CLIENTS)):
        return None
    if isinstance(fault, CityseqError):
        return shown(str(fault))
    return shown(f"{type(fault).__name__}: {why(fault)}")


def forget(fault: BaseException | None) -> None:
    """Drops the frames of a fault. They hold the stream of a body, which holds the fault."""
    while fault is not None:
        fault.__traceback__, fault = None, fault.__context__


@dataclass(frozen=True)
class Format:
    """A format.

    Attributes:
        name: Its value of `f`.
        media_type: Its media type.
        title: What people call it.
        others: Other media types that clients know it by.
        ending: The end of the names of its files.
    """

    name: str
    media_type: str
    title: str
    others: tuple[str, ...] = ()
    ending: str = ""

    def disposition(self, name: str) -> str:
        """Returns the header `Content-Disposition` of an answer. A browser shows JSON, and stores
        CityJSON as a file."""
        kind = "inline" if self.media_type.endswith("geo+json") else "attachment"
        return f'{kind}; filename="{name[:LONGEST_NAME]}{self.ending}"'

    def fits(self, asked: str) -> int:
        """Returns how well it fits a media type that a client accepts. 0 is not at all."""
        if asked == "*/*":
            return 1
        if asked.endswith("/*"):
            return 2 if self.media_type.startswith(asked[:-1]) else 0
        return 3 if asked in (self.media_type, *self.others) else 0


JSON = Format("json", "application/json", "JSON")
HTML = Format("html", "text/html", "HTML", ("application/xhtml+xml",))
GEOJSON = Format(
    "geojson",
    "application/geo+json",
    "GeoJSON",
    ("application/json", "application/vnd.geo+json"),
    ".geojson",
)
CITY_JSON = Format("city-json", "application/city+json", "CityJSON", (), ".city.json")
CITY_JSON_SEQ = Format(
    "city-json-seq",
    "application/city+json-seq",
    "CityJSONSeq",
    ("application/json-seq",),
    ".city.jsonl",
)
OPENAPI = Format(
    "openapi",
    "application/vnd.oai.openapi+json;version=3.0",
    "OpenAPI 3.0",
    ("application/vnd.oai.openapi+json", "application/json"),
)
SCHEMA = Format("schema", "application/schema+json", "JSON Schema", ("application/json",))
PROBLEM = Format("problem", "application/problem+json", "a problem", ("application/json",))
LINES = Format("lines", "application/x-ndjson", "an object a line")
PAGES = (JSON, HTML)  # of documents
SCHEMAS = (SCHEMA, HTML)
ITEMS = (GEOJSON, CITY_JSON_SEQ, HTML)  # of pages of features
ITEM = (GEOJSON, CITY_JSON, CITY_JSON_SEQ, HTML)  # of a feature
ALIASES = {
    "json": (GEOJSON, OPENAPI, SCHEMA),
    "cityjson": (CITY_JSON,),
    "cityjsonseq": (CITY_JSON_SEQ,),
}


def dumped(told: object) -> bytes:
    """Returns JSON in ASCII, so that a lone surrogate in an id is an escape."""
    return deep(partial(json.dumps, told, separators=(",", ":"))).encode("ascii")


def accepted(header: str) -> Iterator[tuple[str, float]]:
    """Yields the media types of a header `Accept`, or the codings of `Accept-Encoding`, and the
    quality of each. One that is no number from 0 to 1 is 0."""
    for item in header.split(","):
        media_type, *parameters = (part.strip().lower() for part in item.split(";"))
        share = 1.0
        for name, _, value in (parameter.partition("=") for parameter in parameters):
            if name.strip() == "q":
                try:
                    share = float(value)
                except ValueError:
                    share = 0.0
        if media_type:
            yield media_type, share if 0 <= share <= 1 else 0.0


def choose(formats: Sequence[Format], asked: str | None, accept: str) -> Format:
    """Returns the format of an answer. It is the first one if the client asks for none.

    Args:
        formats: Those that there are.
        asked: The value of `f`, or None.
        accept: The header `Accept`. It may be empty.

    Raises:
        Problem: The client accepts none of them.
    """
    names = ", ".join(each.name for each in formats)
    if asked is not None:
        for each in formats:
            if each.name == asked or each in ALIASES.get(asked, ()):
                return each
        raise Problem(400, f"f is one of {names}: {asked}")
    wanted = list(accepted(accept)) or [("*/*", 1.0)]

    def quality(each: Format) -> float:
        fits = [(each.fits(media_type), share) for media_type, share in wanted]
        best = max(fit for fit, _ in fits)
        return max(share for fit, share in fits if fit == best) if best else 0

    best = max(formats, key=quality)
    if quality(best) <= 0:
        raise Problem(406, f"there is none of the formats that are accepted: it is one of {names}")
    return best


def host_of(request: web.BaseRequest) -> str:
    """Returns the host that a request names, or the address that it came to.

    Raises:
        Problem: It names no host, or more than one.
    """
    hosts: list[str] = request.headers.getall("Host", [])
    if len(hosts) > 1 or (not hosts and request.version >= (1, 1)):
        raise Problem(400, "a request names one host, by the header Host")
    if hosts:
        return hosts[0]
    name = request.transport.get_extra_info("sockname") if request.transport else None
    return f"{name[0]}:{name[1]}" if isinstance(name, tuple) and ":" not in name[0] else "localhost"


def is_known(host: str, settings: Settings) -> bool:
    """Returns whether a host may be this server. Any address may be, but only the names that are
    set. Otherwise a web page could reach the server by a name that its owner controls."""
    try:
        parts = urlsplit(f"//{host}")
        name, _ = parts.hostname or "", parts.port
    except ValueError:
        return False
    if parts.netloc != host or parts.username is not None:
        return False
    known = {each.lower() for each in settings.names}
    if settings.url is not None:
        known.add(urlsplit(settings.url).hostname or "")
    if name == "localhost" or name.endswith(".localhost") or name in known:
        return True
    try:
        ipaddress.ip_address(name)
    except ValueError:
        return False
    return "%" not in name  # behind it any text may stand


def base_of(request: web.BaseRequest, settings: Settings) -> str:
    """Returns the beginning of the URLs of all resources."""
    if settings.url is not None:
        return settings.url.rstrip("/")
    return f"{request.scheme}://{host_of(request)}"


def segment(text: str) -> str | None:
    """Returns a text as a segment of a path. None if no URL can have it: clients take `.` and `..`
    for other paths, also where they are escaped."""
    if text in ("", ".", ".."):
        return None
    try:
        return quote(text, safe="")
    except UnicodeEncodeError:
        return None


def _value(told: object) -> str:
    """Returns the value of a parameter. A list of texts has commas between them, and a comma in a
    text is escaped."""
    if isinstance(told, list):
        return ",".join(quote_plus(each, safe=":/") for each in told)
    return quote_plus(str(told), safe=",:/")


class Links:
    """Makes the links of an answer."""

    def __init__(self, base: str) -> None:
        """Takes the beginning of all links."""
        self.base = base

    def url(self, path: str, **parameters: object) -> str:
        """Returns the URL of a path, with parameters. Those that are None are left out."""
        given = {name: value for name, value in parameters.items() if value is not None}
        text = "&".join(f"{quote_plus(name)}={_value(value)}" for name, value in given.items())
        return f"{self.base}{path}" + (f"?{text}" if text else "")

    def local(self, path: str) -> str:
        """Returns the URL of a path without a host, for what a page loads from where it came."""
        return f"{urlsplit(self.base).path}{path}"

    def to(self, path: str, rel: str, title: str, form: Format, **parameters: object) -> Link:
        """Returns a link to a path, whose answer has a format."""
        href = self.url(path, **parameters)
        return {"href": href, "rel": rel, "type": form.media_type, "title": title}

    def formats(
        self,
        path: str,
        formats: Sequence[Format],
        chosen: Format,
        parameters: Callable[[Format], Object] = lambda form: {},
    ) -> list[Link]:
        """Returns the links from an answer to itself, and to its other formats. `parameters` are
        those of a format."""
        found = []
        for each in formats:
            rel = "self" if each == chosen else "alternate"
            title = "This document" if each == chosen else f"As {each.title}"
            found.append(self.to(path, rel, title, each, **{**parameters(each), "f": each.name}))
        return found


def header_of(links: Sequence[Link], following: Link | None) -> str:
    """Returns the links of an answer, and the one to the next page, as the header `Link` has them
    (RFC 8288). If they are long, it has only the next page: proxies bound the head of an answer."""
    first, *others = (
        "" if link is None else f'<{link["href"]}>; rel="{link["rel"]}"; type="{link["type"]}"'
        for link in (following, *links)
    )
    told = ", ".join(filter(None, (first, *others)))
    return told if len(told) <= LONGEST_HEADER else first
