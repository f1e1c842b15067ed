"""Bodies that are judged while they arrive: `POST /check` and `POST /filter`. Each piece is
unpacked, cut into chunks of whole lines, judged, and not kept.

While threads judge some parts, the next bytes are read. The kept lines are written as fast as the
client reads them. So only a few parts and their outputs are in memory."""
from __future__ import annotations

import asyncio
import json
import zlib
from collections import Counter, deque
from collections.abc import AsyncGenerator, Callable, Iterable, Iterator
from contextlib import aclosing
from functools import partial
from itertools import islice
from typing import TypeVar

from aiohttp import web

from ..cli.json_output import reasons_object, report_object, result_object
from ..cli.options import Check, Filter
from ..engine import InvalidStream, Text
from ..engine.judge import SMALL, Answer
from ..engine.judge import Query as Selection
from ..engine.judge import Work, judge, work_of
from ..engine.reports import Report
from ..run import Fold, Result
from ..sources.chunks import Chunk, Cutter
from ..sources.packed import HEAD, Gzip, Packing, is_block
from .answers import (
    CITY_JSON,
    CITY_JSON_SEQ,
    LINES,
    BodyFault,
    OtherPacking,
    Problem,
    TooLong,
    forget,
)
from .context import Context
from .parameters import Query
from .sending import Pace, write

BODY = "-"  # the name of a body in reports
UNPACKED = 1 << 19  # bytes that are unpacked at once
FEW, MANY = 1 << 9, 1 << 18  # packed bytes that a member gets at first, and at most
T = TypeVar("T")
Task = Callable[[], Answer]


class Unpacking:
    """Unpacks a body that arrives piece by piece, if it is packed by gzip."""

    def __init__(self, is_packed: bool | None, limit: int) -> None:
        """Takes whether it is packed, and its greatest length. None: its first bytes show it."""
        self._is_packed, self._limit = is_packed, limit
        self._kind = Gzip()
        self._member: zlib._Decompress | None = None
        self._size, self._has_ended = FEW, False  # of the next part; whether a member has ended
        self._head, self._has_text = b"", False  # the first bytes of the last member
        self._begin = b""  # the first bytes, as long as they are too few to show it
        self._length = 0

    def feed(self, piece: bytes) -> Iterator[bytes]:
        """Yields the text in the next piece.

        Raises:
            BodyFault: It is broken, or too long.
        """
        if self._is_packed is None:
            piece, self._begin = self._begin + piece, b""
            if piece == Packing.GZIP.mark[: len(piece)] and len(piece) < len(Packing.GZIP.mark):
                self._begin = piece
                return
            if piece.startswith(Packing.ZSTD.mark):
                raise OtherPacking("the body is packed by Zstandard: send it unpacked, or by gzip")
            self._is_packed = piece.startswith(Packing.GZIP.mark)
        for text in self._texts(piece) if self._is_packed else (piece,):
            self._length += len(text)
            if self._length > self._limit:
                raise TooLong.than(self._limit)
            yield text

    def _texts(self, packed: bytes) -> Iterator[bytes]:
        """Yields the text of some packed bytes. A member copies the bytes that follow its end, so
        it gets few of them until it has proved to be long."""
        at = 0
        while at < len(packed):
            part = packed[at : at + self._size]
            zeros = len(part) - len(part.lstrip(b"\0"))
            if self._member is None and self._has_ended and zeros:
                at += zeros
                continue
            if self._member is None:
                self._head, self._has_text = b"", False
            member = self._member = self._member or self._kind.member()
            try:
                text = self._kind.more(member, part, UNPACKED)
            except self._kind.faults as fault:
                raise BodyFault(f"the body is no archive of gzip: {fault}") from None
            taken = len(part) - len(member.unused_data if member.eof else member.unconsumed_tail)
            self._head += part[: min(taken, HEAD - len(self._head))]
            at += taken
            if member.eof:
                self._member, self._size, self._has_ended = None, FEW, True
            else:
                self._size = min(2 * self._size, MANY)
            if text:
                self._has_text = True
                yield text

    def end(self) -> bytes:
        """Returns the rest.

        Raises:
            BodyFault: The archive is cut short, as one of blocks is without an empty last one.
        """
        if self._member is not None or (self._has_text and is_block(self._head)):
            raise BodyFault("the body is a gzip archive that is cut short")
        return self._begin


class Fed:
    """A stream that receives its bytes in pieces. One thread after another may pass them.

    The bytes are cut into chunks, and any thread may judge a chunk. The answers are taken in order.

    Attributes:
        work: What is asked of the stream.
        reports: The first reports, as many as are kept.
        codes: How often each reason occurred.
    """

    def __init__(
        self,
        work: Work,
        unpacking: Unpacking,
        most_reports: int,
        counts_codes: bool,
        is_whole: bool = False,
    ) -> None:
        """Takes the work, the unpacking, and how many reports are kept. `counts_codes` is whether
        the reasons of all other reports are counted too. `is_whole` is whether the body is a whole
        CityJSON file. It waits until all of it has come."""
        reports: list[Report] = []
        codes: Counter[int] = Counter()

        def keep(report: Report) -> None:  # no method: the stream would hold itself
            codes[report.code] += 1
            if len(reports) < most_reports:
                reports.append(report)

        self.work, self.reports, self.codes = work, reports, codes
        self._cutter = Cutter(BODY, work, SMALL)
        self._fold = Fold(self._cutter, work, tell=keep)
        self._unpacking, self._most_reports = unpacking, most_reports
        self._counts_codes = counts_codes
        self._whole: list[bytes] | None = [] if is_whole else None

    @property
    def ended(self) -> bool:
        """Whether the stream has ended, so that no later bytes count."""
        return self._fold.has_ended

    @property
    def has_header(self) -> bool:
        """Whether the first line is known to be valid."""
        return self._fold.joined.parts > 0 and not self.ended

    def cut(self, pieces: Iterable[bytes]) -> Iterator[Task]:
        """Yields calls that judge the whole lines in some more of the body, where they are enough.
        Few packed bytes may have a long text. Only what is in the calls is unpacked.

        Raises:
            BodyFault: The body is broken, or too long.
        """
        for piece in pieces:
            for text in self._unpacking.feed(piece):
                if self._whole is not None:
                    self._whole.append(text)
                elif not self.ended:
                    yield from self._tasks(self._cutter.feed(text))

    def end(self) -> Iterator[Task]:
        """Yields calls that judge the rest.

        Raises:
            BodyFault: The body is cut short.
        """
        rest = self._unpacking.end()
        if self._whole is not None:
            whole, self._whole = b"".join([*self._whole, rest]), []
            yield from self._of_whole(whole)
        elif not self.ended:
            yield from self._tasks(self._cutter.feed(rest))
            yield from self._tasks(self._cutter.end())

    def _of_whole(self, whole: bytes) -> Iterator[Task]:
        """Yields calls that judge the stream of a whole file."""
        from ..convert.splitting import split_file  # few bodies need it

        file = split_file(whole)
        try:
            while piece := file.read(SMALL):
                yield from self._tasks(self._cutter.feed(piece))
            yield from self._tasks(self._cutter.end())
        except InvalidStream as fault:
            fault.file = BODY
            yield from self._tasks(self._cutter.end(fault))

    def take(self, answer: Answer) -> Text:
        """Joins the answer of the next chunk, and returns its output."""
        if self.ended:
            return b""
        if len(self.reports) >= self._most_reports:  # there may be millions more
            if self._counts_codes:
                self.codes.update(answer.codes)
            answer.invalid = []
        self._fold.add(answer)
        return answer.output[0] if len(answer.output) == 1 else b"".join(answer.output)

    def result(self) -> Result:
        """Returns the result of the stream.

        Raises:
            CityseqError: A fault ended the run, such as refused memory.
        """
        return self._fold.finish().raised()

    def _tasks(self, chunks: Iterable[Chunk]) -> Iterator[Task]:
        return (partial(judge, chunk, self.work) for chunk in chunks)


GO_ON = "100-continue"
FLAGS = ("keep_going", "tree", "extensions", "summary")
Wanted = Check | Filter


def _asked_of(command: str, query: Query) -> Wanted:
    """Returns what a request asks for, as the command line would have it.

    Raises:
        Problem: A parameter has a value that it may not have.
    """
    only_counts = query.flag("summary") and "max_reports" not in query
    make: type[Check] | type[Filter] = Filter if command == "filter" else Check
    given: dict[str, object] = {name: query.number(name) for name in ("line_limit", "depth")}
    given.update({name: query.flag(name) for name in FLAGS})
    wanted = make((), max_reports=0 if only_counts else query.number("max_reports"), **given)
    if isinstance(wanted, Filter):
        wanted.exclude = query.flag("exclude")
        wanted.id, wanted.type, wanted.lod, wanted.bbox = map(
            query.text, ("id", "type", "lod", "bbox")
        )
    return wanted


def _work(wanted: Wanted, query: Query) -> Work:
    ids, types, lods = map(query.texts, ("id", "type", "lod"))
    selection = Selection(ids, types, lods, query.text("bbox"), query.flag("exclude"))
    return work_of(wanted.command, wanted.judging, selection)


def _is_packed(request: web.Request, most: int) -> bool | None:
    """Returns whether a body of at most so many bytes is packed. None if its first bytes must show
    it.

    Raises:
        BodyFault: It is packed in another way, or its stated length is too long.
    """
    if request.content_length is not None and request.content_length > most:
        raise TooLong.than(most)
    coding = request.headers.get("Content-Encoding", "identity").strip().lower()
    if coding in ("gzip", "x-gzip"):
        return True
    if coding != "identity":
        raise OtherPacking(f"a body is plain or packed by gzip, and not by {coding}")
    return None


async def expected(_: web.Request) -> None:
    """Does nothing. A client that waits gets `100 Continue` when its body is read."""


class Body:
    """The body of a request."""

    def __init__(self, request: web.Request, most: int) -> None:
        self._content, self._transport = request.content, request.transport
        self._pace: Pace = request["reading"]
        self._most = most

    @property
    def size(self) -> int:
        """The bytes that have come."""
        return self._pace.size

    async def pieces(self) -> list[bytes]:
        """Returns the next bytes, enough for a thread, and none at the end.

        Raises:
            TooLong: There are too many.
            Problem: They come too slowly.
        """
        found: list[bytes] = []
        end = self.size + SMALL
        while self.size < end:
            piece = self._content.read_nowait()
            if not piece:
                if self._content.at_eof():
                    if self._transport is not None:
                        self._transport.pause_reading()  # a later request waits in the system
                    break
                piece = await self._pace.wait(self._content.readany())
            found.append(piece)
            self._pace.size += len(piece)
            if self._pace.size > self._most:
                raise TooLong.than(self._most)
        return [piece for piece in found if piece]


class Judgement:
    """A body that the threads judge.

    Attributes:
        fed: The stream that takes the body.
    """

    def __init__(self, context: Context, command: str) -> None:
        """Reads what a request asks for.

        Raises:
            CityseqError, Problem: A parameter or a header has a value that it may not have.
        """
        request, query, limits = context.request, context.query, context.server.limits
        self._wanted, self._calls = _asked_of(command, query), context.server.calls
        is_whole = command == "check" and request.content_type == CITY_JSON.media_type
        most = min(limits.whole, limits.body) if is_whole else limits.body
        unpacking = Unpacking(_is_packed(request, most), most)
        self.fed = Fed(
            _work(self._wanted, query),
            unpacking,
            self._wanted.max_reports or 0,
            self._wanted.summary,
            is_whole,
        )
        self._body = Body(request, most)

    async def outputs(self) -> AsyncGenerator[list[Text], None]:
        """Yields the outputs of parts that have been judged, while others are read.

        Raises:
            BodyFault: The body is broken, or too long.
            Problem: It comes too slowly.
        """
        judged: deque[asyncio.Future[Answer]] = deque()
        self._calls.bodies += 1
        try:
            async with aclosing(self._tasks()) as tasks:
                async for task in tasks:
                    judged.append(asyncio.ensure_future(self._calls.call(task)))
                    while len(judged) > self._ahead():
                        yield [await self._taken(await judged.popleft())]
            outputs = []
            while judged:
                outputs.append(await self._taken(await judged.popleft()))
            yield outputs
        finally:
            self._calls.end_body()
            await _cancelled(judged)

    async def _tasks(self) -> AsyncGenerator[Task, None]:
        """Yields calls that judge the next parts, while the bytes after them are read."""
        coming = asyncio.ensure_future(self._body.pieces())
        try:
            while pieces := await coming:
                coming = asyncio.ensure_future(self._body.pieces())
                # few packed bytes may have a long text: only some of it is unpacked at once
                tasks, most, more = self.fed.cut(pieces), self._ahead() + 2, True
                while more:
                    some: list[Task] = await self._calls.call(list, islice(tasks, most))
                    more = len(some) == most
                    for task in some:
                        yield task
            last: list[Task] = await self._calls.call(list, self.fed.end())
            for task in last:
                yield task
        finally:
            await _cancelled([coming])

    async def _taken(self, answer: Answer) -> Text:
        """Joins an answer, and returns its output."""
        if answer.refused or answer.end is not None:  # to describe it takes time
            return await self._calls.call(self.fed.take, answer)
        return self.fed.take(answer)

    def _ahead(self) -> int:
        """Returns how many parts may wait: few if there are many bodies."""
        return max(self._calls.jobs - self._calls.bodies + 1, 0)

    def told(self) -> bytes:
        """Returns an object a line: the reports, the result, and with `summary` how often each
        reason occurred."""
        result, fed = self.fed.result(), self.fed
        told = result_object(result, self._wanted, self._body.size, None)
        counts = [reasons_object(fed.codes)] if self._wanted.summary else []
        objects = [*map(report_object, fed.reports), told, *counts]
        return b"".join(json.dumps(each).encode("ascii") + b"\n" for each in objects)


async def _cancelled(waiting: Iterable[asyncio.Future[T]]) -> None:
    """Cancels reads and calls, and waits until they have ended."""
    ending = list(waiting)
    for each in ending:
        each.cancel()
    if ending:
        await asyncio.wait(ending)
    for each in ending:
        if not each.cancelled():
            forget(each.exception())  # no task waits for it


async def _go_on(request: web.Request) -> None:
    """Asks a client that waits for it to send the body."""
    if request.headers.get("Expect") and request.version >= (1, 1):
        await request.writer.write(b"HTTP/1.1 100 Continue\r\n\r\n")


async def check(context: Context) -> web.Response:
    """Answers `POST /check`: a line for each report, one for the result, and with `summary` one for
    the counts of all reasons."""
    judgement = Judgement(context, "check")
    await _go_on(context.request)
    async with aclosing(judgement.outputs()) as outputs:
        async for _ in outputs:
            pass
    return web.Response(body=judgement.told(), content_type=LINES.media_type)


async def filter(context: Context) -> web.StreamResponse:
    """Answers `POST /filter`: the header and the kept lines, and with `verdict=last` a line for
    each report and one for the result."""
    request, query = context.request, context.query
    if query.text("verdict") not in (None, "last"):
        raise Problem(400, "verdict is last, or is left out")
    if request.version < (1, 1):
        raise Problem(505, "what is kept is sent in chunks, which HTTP/1.1 has")
    is_last = "verdict" in query
    judgement = Judgement(context, "filter")
    await _go_on(request)
    form = LINES if is_last else CITY_JSON_SEQ
    response = web.StreamResponse(headers={"Content-Type": form.media_type})
    kept: list[Text] = []
    last: Text = b"\n"  # that was sent
    async with aclosing(judgement.outputs()) as outputs:
        async for texts in outputs:
            kept += [text for text in texts if len(text)]
            if is_last or judgement.fed.has_header:
                last = kept[-1] if kept else last
                await write(request, response, b"".join(kept))
                kept = []
            if judgement.fed.ended and "begun" in request and not is_last:
                raise Problem(400, "a line of the stream is invalid")
    told = judgement.told()
    if is_last:
        await write(request, response, told if last[-1:] == b"\n" else b"\n" + told)
    elif "begun" not in request:
        return web.Response(status=422, body=told, content_type=LINES.media_type)
    return response
