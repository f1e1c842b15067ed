"""Streams that a cluster judges: their beginnings are read, many at once, and then their parts."""
from __future__ import annotations

import os
from collections import deque
from collections.abc import Callable, Iterable, Iterator, Sequence
from concurrent.futures import Future
from dataclasses import dataclass, replace
from functools import partial
from typing import TYPE_CHECKING

from ..engine import CityseqError, ReadFault, RequestError
from ..engine.judge import Answer
from ..run.streams import Results, Stream, results_by
from ..sources import is_path, is_url, name_of
from ..sources.chunks import Chunk
from . import AHEAD, HELD, PART, Batch, Cluster, Job, Lost
from .tasks import (
    SHORT,
    Begun,
    RangeChunks,
    Sight,
    Sizes,
    begin_all,
    judge_packed,
    judge_range,
    sight_of,
)

if TYPE_CHECKING:
    from ..run.streams import Answers, Judge, Pending

LOOKED_AT = 64  # files whose beginnings are read together
PIECES = 3  # chunks of a file for each thread, if they are not short
UNSEEN = 4  # of these if this process does not see how long they are
PACKED = "a packed file has no parts: unpack it, or use threads"


@dataclass
class _File:
    """A stream, its file by the path that each worker opens, and the file as this process sees it.
    None if it does not."""

    stream: Stream
    path: str
    sight: Sight | None

    @classmethod
    def of(cls, stream: Stream) -> _File:
        """Looks at the file of a stream. Raises `RequestError` if it has no path."""
        source = stream.source
        if not is_path(source):
            raise RequestError(f"the workers open files by their paths: {source!r} is none")
        path = os.fsdecode(source)
        if is_url(source):
            return cls(stream, path, None)
        path = os.path.abspath(path)
        try:
            return cls(stream, path, sight_of(path))
        except OSError:
            return cls(stream, path, None)


@dataclass
class _Group:
    """Files whose beginnings one task reads."""

    files: Sequence[_File]
    job: Job[list[Begun]]


@dataclass(frozen=True)
class _Judged:
    """Gives an answer that is here already."""

    answer: Answer

    def __call__(self, _: Chunk) -> Answer:
        return self.answer


class Runs:
    """Judges streams by a cluster. All have the same work."""

    def __init__(
        self, cluster: Cluster, judge_by: Judge | None = None, has_whole: bool = True
    ) -> None:
        """Takes the cluster.

        Args:
            cluster: The cluster.
            judge_by: Judges a part on a worker. None is `judge_range`.
            has_whole: Whether the task that begins a short file also judges it.
        """
        self._cluster, self._judge_by, self._has_whole = cluster, judge_by, has_whole
        self._batch: Batch | None = None

    def results(self, streams: Iterable[Stream]) -> Results:
        """Yields the result of each stream, in order. Raises `CityseqError` if the scheduler is
        lost, or a worker has another engine."""
        return results_by(self._placed(streams), self._submit, self._cluster.ahead)

    def _submit(self, call: Callable[[], Answers]) -> Pending[Answers]:
        assert isinstance(call, partial)
        judge, chunk = call.args
        if isinstance(judge, _Judged):
            ready: Future[Answers] = Future()
            ready.set_result(call())
            return ready
        if self._batch is None or self._batch.judge is not judge or not self._batch.is_open:
            self._batch = Batch(self._cluster, judge)
        return self._batch.add(chunk)

    def _placed(self, streams: Iterable[Stream]) -> Iterator[Stream]:
        """Yields each stream, with the chunks that workers judge, when its file has been begun."""
        begun: deque[_Group] = deque()
        try:
            for group in self._groups(streams):
                begun.append(self._begin(group))
                most = AHEAD * max(self._cluster.threads(), AHEAD)
                while len(begun) >= min(most, max(HELD // self._cluster.size, 1)):
                    yield from self._next(begun)
            while begun:
                yield from self._next(begun)
        finally:
            for each in begun:
                each.job.cancel()

    def _groups(self, streams: Iterable[Stream]) -> Iterator[list[_File]]:
        """Yields files whose beginnings one task reads. Together they are not longer than a part,
        as far as this process sees it."""
        group: list[_File] = []
        size, most = 0, LOOKED_AT
        for file in map(_File.of, streams):
            length = self._cluster.size // UNSEEN if file.sight is None else file.sight.state[0]
            if group and size + length > self._cluster.size:
                yield group
                group, size = [], 0
            group.append(file)
            size += length
            if len(group) >= most or size >= self._cluster.size:
                yield group
                group, size = [], 0
        if group:
            yield group

    def _begin(self, files: Sequence[_File]) -> _Group:
        named = [(name_of(file.stream.source), file.path) for file in files]
        sizes = Sizes(self._cluster.size, -1)
        if self._has_whole:
            is_usual = self._cluster.size == PART
            pieces = PIECES * max(self._cluster.threads(), 1) if is_usual else 0
            sizes = Sizes(self._cluster.size, min(self._cluster.size, SHORT), pieces)
        return _Group(files, self._cluster.task("begin", named[0][0], begin_all, named, sizes))

    def _next(self, begun: deque[_Group]) -> Iterator[Stream]:
        """Yields the streams of the first group. Begins those again that its task left out."""
        group = begun[0]
        try:
            found: list[Begun] = group.job.result(len(group.files) == 1)
        except Lost:
            raise
        except CityseqError as fault:
            if len(group.files) > 1:  # which of them it is
                begun.popleft()
                begun.extendleft(self._begin([file]) for file in reversed(group.files))
                return
            found = [Begun(fault=fault)]
        begun.popleft()
        if len(found) < len(group.files):
            begun.appendleft(self._begin(group.files[len(found) :]))
        for file, each in zip(group.files, found):
            yield self._on_workers(file, self._checked(file, each, group.job))

    def _checked(self, file: _File, begun: Begun, job: Job[list[Begun]]) -> Begun:
        """Returns how a file begins. It is a fault if the worker sees another file."""
        if isinstance(begun.fault, ReadFault):
            job.named(begun.fault)
        elif begun.is_packed and begun.answer is None:
            return replace(begun, sight=None, fault=RequestError(PACKED, None, file.path))
        elif begun.sight is not None and file.sight not in (None, begun.sight):
            words = "read fault: it sees another file of this path, or the file changes"
            other = ReadFault(words, None, name_of(file.stream.source))
            return Begun(fault=job.named(other))
        return begun

    def _on_workers(self, file: _File, begun: Begun) -> Stream:
        """Lets workers judge a stream whose file has been begun."""
        stream = file.stream
        chunks = RangeChunks(name_of(stream.source), file.path, begun)
        stream.chunks = stream.fold.origin = chunks
        pack = None if stream.output is None else stream.output.packer
        if begun.answer is not None or begun.fault is not None:
            stream.judge = _Judged(begun.answer or Answer(parts=0, fault=begun.fault))
        elif self._judge_by is not None:
            stream.judge = self._judge_by
        else:
            stream.judge = partial(judge_packed, pack) if pack else partial(judge_range)
        return stream
