"""How calls are made in threads, and how answers are sent: within bounds. A short answer is sent
whole, others are streamed as the client reads."""
from __future__ import annotations

import asyncio
import gzip
import zlib
from collections.abc import Awaitable, Callable, Iterator
from contextlib import closing, contextmanager
from functools import partial
from hashlib import blake2b
from typing import TypeVar

from aiohttp import web

from ..engine import MemoryFault, give_back
from ..indexes.index_pages import Page
from ..run import number_of_jobs
from ..run.streams import Pool
from .answers import SOON, Problem, accepted
from .settings import Limits

T = TypeVar("T")
Item = TypeVar("Item")
WHOLE = 1 << 20  # bytes: a shorter answer has its length in its head
PIECE = 1 << 16  # bytes that are written at once
PACKED = 1 << 10  # bytes: a shorter answer is not packed
LEVEL = 4  # of gzip
SENT = "sent"  # the item of an answer in pieces that has how many bytes were sent


class Places:
    """Places for requests of a kind.

    Attributes:
        taken: How many requests have one.
    """

    def __init__(self, most: int, what: str) -> None:
        """Takes how many places there are, and what has them."""
        self._most, self._what, self.taken = most, what, 0

    @contextmanager
    def one(self) -> Iterator[None]:
        """Takes a place, in a `with` block.

        Raises:
            Problem: All are taken.
        """
        if self.taken >= self._most:
            raise Problem(503, f"the server has {self._most} {self._what} already", SOON)
        self.taken += 1
        try:
            yield
        finally:
            self.taken -= 1


class Pace:
    """How fast a client sends a body, or takes an answer.

    It may do nothing for `idle` seconds. After so many seconds it also needs a least rate. Only the
    time counts in which the server waits for the client.

    Attributes:
        size: The bytes that have been sent or taken.
    """

    def __init__(self, limits: Limits) -> None:
        self._limits, self._loop = limits, asyncio.get_running_loop()
        self._end = self._loop.time() + limits.seconds
        self._waited = 0.0
        self.size = 0

    async def wait(self, coming: Awaitable[T]) -> T:
        """Waits for the client.

        Raises:
            Problem: It is too slow.
        """
        limits, begin = self._limits, self._loop.time()
        spare = limits.idle + self.size / limits.rate - self._waited
        try:
            return await asyncio.wait_for(coming, min(limits.idle, spare, self._end - begin))
        except asyncio.TimeoutError:
            if self._loop.time() >= self._end:
                told = Problem(503, f"the request took longer than {limits.seconds:g} seconds")
            elif spare < limits.idle:
                told = Problem(408, f"fewer than {limits.rate:g} bytes a second came")
            else:
                told = Problem(408, f"nothing came for {limits.idle:g} seconds")
            raise told from None
        finally:
            self._waited += self._loop.time() - begin


PAUSE = 1.0  # seconds after a body until free memory is given back


class Calls:
    """Threads that make calls for the tasks of an event loop, at most `jobs` at once."""

    def __init__(self, jobs: int | None = None) -> None:
        """Takes the number of threads; None is one for each processor."""
        self.jobs = number_of_jobs(jobs)
        self.bodies = 0  # those that are judged now
        self._crew = Pool(self.jobs)
        self._ending: asyncio.TimerHandle | None = None

    def start(self) -> None:
        """Starts the first thread.

        Raises:
            MemoryFault: The system refuses it.
        """
        self._crew.submit(lambda: None)
        if not self._crew.has_threads():
            raise MemoryFault("out of memory: no thread is there")

    def close(self) -> None:
        """Waits until all threads have ended."""
        if self._ending is not None:
            self._ending.cancel()
        self._crew.__exit__()

    def end_body(self) -> None:
        """Notes that a body has ended. Soon after that its memory is given back."""
        self.bodies -= 1
        if self._ending is None:
            self._ending = asyncio.get_running_loop().call_later(PAUSE, self._give_back)

    def _give_back(self) -> None:
        self._ending = None
        self._crew.submit(give_back)

    async def call(self, function: Callable[..., T], *given: object) -> T:
        """Makes a call in a thread, and returns or raises what it does. A task that is cancelled
        in the meantime does not wait for it."""
        loop = asyncio.get_running_loop()
        future: asyncio.Future[T] = loop.create_future()
        job = self._crew.submit(partial(_told, loop, future, partial(function, *given)))
        try:
            return await future
        except asyncio.CancelledError:
            job.cancel()
            raise


def _told(
    loop: asyncio.AbstractEventLoop, future: asyncio.Future[T], call: Callable[[], T]
) -> None:
    """Makes a call, and passes its result to the loop."""
    try:
        value = call()
    except BaseException as fault:  # the task gets it
        loop.call_soon_threadsafe(_set, future.set_exception, future, fault)
    else:
        loop.call_soon_threadsafe(_set, future.set_result, future, value)


def _set(setter: Callable[[Item], None], future: asyncio.Future[T], value: Item) -> None:
    if not future.done():
        setter(value)


def _takes_gzip(request: web.Request) -> bool:
    """Returns whether a client takes an answer that is packed by gzip."""
    shares = dict(accepted(", ".join(request.headers.getall("Accept-Encoding", []))))
    return shares.get("gzip", shares.get("*", 0.0)) > 0


async def _begin(request: web.Request, response: web.StreamResponse) -> None:
    """Sends the head of an answer. A fault after that breaks the answer off."""
    request["begun"] = response
    await request["writing"].wait(response.prepare(request))


async def write(request: web.Request, response: web.StreamResponse, text: bytes) -> None:
    """Sends a whole text, as fast as the client takes it, and the head before the first one."""
    if "begun" not in request:
        await _begin(request, response)
    pace: Pace = request["writing"]
    view = memoryview(text)
    for start in range(0, len(view), PIECE):
        piece = view[start : start + PIECE]
        await pace.wait(response.write(piece))
        pace.size += len(piece)
    response[SENT] = response.get(SENT, 0) + len(view)


async def send(
    request: web.Request, calls: Calls, response: web.StreamResponse
) -> web.StreamResponse:
    """Sends an answer, or the end of one that has begun.

    Raises:
        Problem: The client takes it too slowly.
    """
    if isinstance(response, web.Response) and response.status == 200:
        response = await _shortened(request, calls, response)
    body = response.body if isinstance(response, web.Response) else None
    if isinstance(body, bytes) and len(body) > PIECE and request.method != "HEAD":
        response = web.StreamResponse(headers=response.headers)
        response.content_length = len(body)
        await write(request, response, body)
    elif not response.prepared:
        await _begin(request, response)
    await request["writing"].wait(response.write_eof())
    request.pop("begun", None)
    return response


async def _shortened(request: web.Request, calls: Calls, response: web.Response) -> web.Response:
    """Returns an answer as it is sent: packed if the client takes that, and without its body if the
    client has it already."""
    body = response.body
    if not isinstance(body, bytes):
        return response
    if request.method != "POST":
        mark = blake2b(body, digest_size=16).hexdigest()
        response.headers["ETag"] = f'W/"{mark}"'  # of the answer before it is packed
        if any(each.value in (mark, "*") for each in request.if_none_match or ()):
            return web.Response(status=304, headers={"ETag": f'W/"{mark}"'})
    if len(body) >= PACKED and _takes_gzip(request):
        response.body = await calls.call(gzip.compress, body, LEVEL)
        response.headers["Content-Encoding"] = "gzip"
    return response


def _gathered(texts: Iterator[bytes]) -> bytes:
    """Returns the next texts, together as long as a piece for a thread, and none at the end."""
    found: list[bytes] = []
    size = 0
    for text in texts:
        found.append(text)
        size += len(text)
        if size >= WHOLE:
            break
    return b"".join(found)


async def send_page(
    request: web.Request,
    calls: Calls,
    page: Page,
    texts: Iterator[bytes],
    head: Callable[[Page], dict[str, str]],
) -> web.StreamResponse:
    """Sends a page of features, whose texts a thread makes. `head` makes the headers of the answer
    when the page has begun."""
    with closing(page):
        text = await calls.call(_gathered, texts)
        if len(text) < WHOLE:
            return web.Response(body=text, headers=head(page))
        response = web.StreamResponse(headers=head(page))
        packer = zlib.compressobj(LEVEL, wbits=31) if _takes_gzip(request) else None
        if packer is not None:
            response.headers["Content-Encoding"] = "gzip"
        if request.method == "HEAD":
            response.force_close()
            return response
        while text:
            packed = text if packer is None else await calls.call(packer.compress, text)
            await write(request, response, packed)
            text = await calls.call(_gathered, texts)
        if packer is not None:
            await write(request, response, packer.flush())
        return response
