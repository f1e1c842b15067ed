"""Streams on a web server. Ranges of their bytes are read (RFC 9110, section 14). Connections are
kept, and an answer that comes too slowly is ended."""
from __future__ import annotations

import base64
import http.client
import importlib
import logging
import os
import re
import socket
import threading
from contextlib import suppress
from functools import lru_cache
from typing import TYPE_CHECKING
from urllib.parse import SplitResult, quote, unquote, urljoin, urlsplit, urlunsplit
from urllib.request import getproxies, proxy_bypass

from .. import __version__
from ..engine import CityseqError, OutOfDate, ReadFault, RequestError, read_fault
from .line_reader import SHORTER, IndexedStream, RangePlace

if TYPE_CHECKING:
    from ..foreign import Package

REDIRECTIONS = 5
MOVED = (301, 302, 303, 307, 308)
CONTENT_RANGE = re.compile(r"bytes (\d{1,19})-(\d{1,19})/(\d{1,19}|\*)\Z")
PIECE = 1 << 14  # bytes of a body that are read at once
OTHER_RANGE = "the server answers with another range than was asked for"


try:
    urllib3: Package = importlib.import_module("urllib3")
except ImportError as missing:
    raise CityseqError(
        "a base needs the package urllib3, which is missing: install python3-urllib3 by apt, or"
        " cityseq[web] by pip"
    ) from missing

PATIENCE = 30.0  # seconds that each step of an answer may take
LEAST_RATE = 4_096  # bytes of a body a second, over so many seconds
SERVERS, CONNECTIONS = 16, 64  # that are kept, and of each server
FAULTS = (OSError, ValueError, urllib3.exceptions.HTTPError)
_current = threading.local()  # the watch of the answer that this thread waits for


class AnswerWatch:
    """Watches an answer from a thread of its own. If fewer than `LEAST_RATE` bytes a second come
    during `PATIENCE` seconds, it closes the connection. So an answer of `size` bytes ends within
    `size / LEAST_RATE + 2 * PATIENCE` seconds, whatever the server sends.

    Attributes:
        count: The bytes of the body that have come. The caller adds them.
        is_late: Whether the connection was closed.
        is_new: Whether the connection was made for this answer.
    """

    def __init__(self) -> None:
        self.count, self.is_late, self.is_new = 0, False, False
        self._connection: _Noted | None = None
        self._socket: socket.socket | None = None
        self._is_ended = threading.Event()
        self._thread = threading.Thread(target=self._run, name="watch", daemon=True)

    def __enter__(self) -> AnswerWatch:
        self._thread.start()
        _current.watch = self
        return self

    def __exit__(self, *_: object) -> None:
        _current.watch = None
        self._is_ended.set()
        self._thread.join()

    def note(self, connection: _Noted) -> None:
        """Takes the connection that the answer comes by. It may have no socket yet."""
        self._connection = connection

    def note_socket(self) -> None:
        """Takes the socket of the connection, which forgets it when the head of the answer says
        that it is the last one."""
        assert self._connection is not None
        self._socket = self._connection.sock

    def _run(self) -> None:
        before = 0
        while not self._is_ended.wait(PATIENCE):
            if self.count - before < LEAST_RATE * PATIENCE:
                self.is_late = True
                for each in (getattr(self._connection, "sock", None), self._socket):
                    if each is not None:  # a connection has none before it is made
                        with suppress(OSError, AttributeError):
                            socket.socket.shutdown(each, socket.SHUT_RDWR)
            before = self.count


class _Noted:
    """A connection that a watch can close."""

    sock: socket.socket | None

    def connect(self) -> None:
        _current.watch.is_new = True
        _current.watch.note(self)
        super().connect()  # type: ignore[misc]

    def request(self, *given: object, **named: object) -> None:
        _current.watch.note(self)
        super().request(*given, **named)  # type: ignore[misc]
        _current.watch.note_socket()


def _pools() -> dict[str, type]:
    """Returns the kinds of pools, by scheme. Their connections can be watched."""
    found = {}
    for scheme, kind in (
        ("http", urllib3.HTTPConnectionPool),
        ("https", urllib3.HTTPSConnectionPool),
    ):
        connection = type("Watched", (_Noted, kind.ConnectionCls), {})
        found[scheme] = type("WatchedPool", (kind,), {"ConnectionCls": connection})
    return found


@lru_cache(maxsize=8)
def _manager(proxy: str | None) -> Package:
    """Returns what keeps the connections, to servers or to a proxy."""
    logger = logging.getLogger("urllib3")
    if logger.level == logging.NOTSET:
        logger.setLevel(logging.ERROR)  # it warns of odd headers on standard error
    options = {"num_pools": SERVERS, "maxsize": CONNECTIONS}
    if proxy is None:
        made = urllib3.PoolManager(**options)
    else:
        url, told = without_credentials(proxy)
        headers = {} if told is None else {"Proxy-Authorization": told}
        made = urllib3.ProxyManager(url, proxy_headers=headers, **options)
    made.pool_classes_by_scheme = _pools()
    return made


def without_credentials(url: str) -> tuple[str, str | None]:
    """Returns a URL without its user and password, and the header that sends these, if there are
    any."""
    parts = urlsplit(url)
    user, at, host = parts.netloc.rpartition("@")
    if not at:
        return url, None
    name, _, password = user.partition(":")
    both = f"{unquote(name)}:{unquote(password)}".encode()
    whole = urlunsplit((parts.scheme, host, parts.path, parts.query, parts.fragment))
    return whole, f"Basic {base64.b64encode(both).decode('ascii')}"


def _proxy_for(parts: SplitResult) -> str | None:
    """Returns the proxy for a URL, as `http_proxy`, `https_proxy` and `no_proxy` say.

    Raises:
        RequestError: It is no URL of http.
    """
    proxies: dict[str, str] = getproxies()
    proxy = proxies.get(parts.scheme) or proxies.get("all")
    host = f"{parts.hostname}:{parts.port}" if parts.port else f"{parts.hostname}"
    if not proxy or proxy_bypass(host):
        return None
    url = proxy if "://" in proxy else f"http://{proxy}"
    if urlsplit(url).scheme not in ("http", "https") or not urlsplit(url).hostname:
        raise RequestError(f"the proxy that {parts.scheme}_proxy names is no URL of http")
    return url


def ask(url: str, headers: dict[str, str], watch: AnswerWatch) -> Package:
    """Returns the answer to a request, before its body is read. The server may have closed a kept
    connection in the meantime: then the request is made again.

    Raises:
        RequestError: The proxy is no URL of http.
        Exception: One of `FAULTS`: there is no answer.
    """
    manager = _manager(_proxy_for(urlsplit(url)))
    while True:
        watch.is_new = False
        try:
            answer = manager.urlopen(
                "GET",
                url,
                headers=headers,
                timeout=PATIENCE,
                redirect=False,
                retries=False,
                preload_content=False,
                decode_content=False,
            )
        except urllib3.exceptions.ProtocolError:
            if watch.is_new or watch.is_late:
                raise
            continue
        if watch.is_late:  # its head was cut short
            answer.close()
            raise TimeoutError("timed out")
        return answer


def cause_of(fault: BaseException) -> BaseException:
    """Returns the error of the system that a fault of the client comes from, or else the fault."""
    found, each = fault, fault.__cause__ or fault.__context__
    while each is not None:
        if isinstance(each, OSError):
            found = each
        each = each.__cause__ or each.__context__
    return found


def checked_base(base: str) -> str:
    """Returns a base URL. Raises `RequestError` if it is not an http or https URL."""
    try:
        parts = urlsplit(base)
        is_url = parts.scheme in ("http", "https") and bool(parts.hostname) and parts.port != 0
    except ValueError:
        is_url = False
    if not is_url or any(sign <= " " or sign == "\x7f" for sign in base):
        raise RequestError("a base is a URL as https://example.org/streams")
    return base


def url_of(base: str, path: str) -> str:
    """Returns the URL of a stream, without credentials: its path after the base. A path that is
    absolute or leads out of the index's folder is reduced to its name."""
    is_below = not os.path.isabs(path) and path.split(os.sep)[0] != os.pardir
    name = path if is_below else os.path.basename(path)
    parts = urlsplit(without_credentials(base)[0])
    whole = f"{parts.path.rstrip('/')}/{quote(os.fsencode(name))}"
    return urlunsplit((parts.scheme, parts.netloc, whole, parts.query, ""))


def _origin(url: str) -> tuple[str, str | None, int | None]:
    parts = urlsplit(url)
    return parts.scheme, parts.hostname, parts.port


class WebPlace(RangePlace):
    """A stream on a web server."""

    def __init__(self, stream: IndexedStream, base: str) -> None:
        super().__init__(stream.size)
        self._stream, self._url = stream, url_of(base, stream.told_path)
        self._origin, self._credentials = _origin(self._url), without_credentials(base)[1]
        self._state: str | None = None  # from the answer with the first range

    def __enter__(self) -> WebPlace:
        return self

    def __exit__(self, *_: object) -> None:
        pass

    def asked(self, begin: int, end: int) -> bytes:
        """Returns the bytes of a range that the server sends."""
        with AnswerWatch() as watch:
            try:
                answer = self._answer(begin, end, watch)
                try:
                    return self._checked(answer, begin, end, watch)
                finally:
                    self._leave(answer, end - begin - watch.count)
            except RequestError as fault:
                raise self._fault(fault.words) from fault
            except FAULTS as fault:
                if watch.is_late:
                    words = f"the answer comes too slowly, below {LEAST_RATE:,} bytes a second"
                    raise self._fault(words) from fault
                if isinstance(fault, ReadFault):
                    raise
                if isinstance(fault.__context__, http.client.IncompleteRead):
                    raise self._fault("the connection broke") from fault
                cause = cause_of(fault)
                if not isinstance(cause, (OSError, ValueError)):
                    raise self._fault("the server answers with what is not HTTP") from fault
                raise read_fault(cause, self._told) from fault

    @property
    def _told(self) -> str:
        """The URL in messages: a query may have a key in it."""
        parts = urlsplit(self._url)
        return urlunsplit((parts.scheme, parts.netloc, parts.path, "", ""))

    def _fault(self, words: str) -> ReadFault:
        return ReadFault(f"read fault: {words}", None, self._told)

    def _answer(self, begin: int, end: int, watch: AnswerWatch) -> Package:
        """Returns the answer of the server, after its redirections."""
        for _ in range(REDIRECTIONS + 1):
            headers = {
                "Range": f"bytes={begin}-{end - 1}",
                "Accept-Encoding": "identity",
                "User-Agent": f"cityseq/{__version__}",
            }
            if self._credentials is not None and _origin(self._url) == self._origin:
                headers["Authorization"] = self._credentials
            answer = ask(self._url, headers, watch)
            target = answer.headers.get("Location")
            if answer.status not in MOVED or target is None:
                return answer
            answer.close()
            try:
                whole = checked_base(urljoin(self._url, target))
            except (RequestError, ValueError):
                raise self._fault("the server leads to what is no URL of http") from None
            self._url = without_credentials(whole)[0]
        raise self._fault(f"the server leads elsewhere more than {REDIRECTIONS} times")

    @staticmethod
    def _leave(answer: Package, left: int) -> None:
        """Keeps the connection for the next request, if the answer has ended."""
        if left == 0 and answer.headers.get("Content-Length") == str(answer.tell()):
            answer.release_conn()
        else:
            answer.close()

    def _checked(self, answer: Package, begin: int, end: int, watch: AnswerWatch) -> bytes:
        """Returns the body of an answer, if it is the range that was asked for."""
        stream = self._stream
        if answer.status == 200:
            raise self._fault("the server has no ranges: name one that has, or cut from a file")
        if answer.status == 416:
            raise OutOfDate.because(SHORTER, self._told)
        if answer.status != 206:
            raise self._fault(f"the server answers {answer.status} {answer.reason or ''}".rstrip())
        found = CONTENT_RANGE.match(answer.headers.get("Content-Range") or "")
        coding = answer.headers.get("Content-Encoding") or "identity"
        if found is None or coding.lower() != "identity":
            raise self._fault(OTHER_RANGE)
        first, last, size = found.groups()
        if size != "*" and int(size) != stream.size:
            told = "longer" if int(size) > stream.size else "shorter"
            raise OutOfDate.because(f"the stream is {told}", self._told)
        if (int(first), int(last)) != (begin, end - 1):
            raise self._fault(OTHER_RANGE)
        state = answer.headers.get("ETag") or answer.headers.get("Last-Modified") or ""
        if self._state not in (None, state):
            raise self._fault("the stream changed while it was read")
        self._state = state
        return self._body(answer, end - begin, watch)

    def _body(self, answer: Package, size: int, watch: AnswerWatch) -> bytes:
        pieces: list[bytes] = []
        while watch.count < size:
            piece = answer.read(min(PIECE, size - watch.count))
            if not piece:
                raise self._fault("the connection broke")
            watch.count += len(piece)
            pieces.append(piece)
        return b"".join(pieces)
