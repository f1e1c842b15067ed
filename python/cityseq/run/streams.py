"""Judges streams by threads, or by a cluster, and gives their results in order."""
from __future__ import annotations

import _thread
import atexit
import os
import resource
import threading
from collections import deque
from collections.abc import Callable, Generator, Iterable, Iterator
from contextlib import suppress
from dataclasses import dataclass, field
from functools import partial
from itertools import chain, islice
from queue import SimpleQueue
from threading import Lock
from typing import TYPE_CHECKING, Generic, Protocol, TypeVar, cast

from ..engine import CallStatus
from ..engine.judge import Answer, Work, judge
from ..sources import Source, is_packed
from ..sources.chunks import PART, Chunk, Chunks
from ..sources.packed import BLOCK, Unpacker
from . import Fold, Origin, Progress, Result, Take, Tell, number_of_jobs

if TYPE_CHECKING:
    from ..sources.outputs import Writer

STACK = 4 << 20  # bytes: a call of the library takes up to 2 MB, and its callers in Python the rest
PATIENCE = 2.0  # seconds that a thread has to begin, and between two looks whether one is alive

T = TypeVar("T")
Out = TypeVar("Out", covariant=True)
_starting = threading.Lock()  # because the size of stacks is set for the whole process
AHEAD = 2  # chunks that wait, in addition to those that are judged
MOST_RUNS = 256  # streams that are begun and whose results have not been given
HELD = 2  # lists of answers of a stream that wait for the results of the streams before
Results = Generator[Result, None, None]
Judge = Callable[[Chunk], Answer]


def _start(call: Callable[..., None], *given: object) -> None:
    """Starts a thread with a stack of `STACK` bytes. Raises `RuntimeError` or `MemoryError` if the
    system refuses that."""
    with _starting:
        before = threading.stack_size(STACK)
        try:
            _thread.start_new_thread(call, given)
        finally:
            threading.stack_size(before)


def _has_stack() -> bool:
    """Whether the calling thread surely has a stack of that size. It must be the first thread of
    the process, and the system must allow the size and have the memory: if a stack cannot grow, the
    process is killed."""
    limit = resource.getrlimit(resource.RLIMIT_STACK)[0]
    if threading.current_thread() is not threading.main_thread() or 0 <= limit < STACK:
        return False
    try:
        from mmap import mmap  # few runs need it

        mmap(-1, STACK).close()
    except (ImportError, MemoryError, OSError):
        return False
    return True


class Job(Generic[T]):
    """A call that is made once, and its result. Its locks need no memory when the call ends."""

    def __init__(self, call: Callable[[], T], pool: Pool) -> None:
        self._call, self._pool = call, pool
        self._value: T | None = None
        self._fault: BaseException | None = None
        self._is_done = False
        self._taken, self._open = _thread.allocate_lock(), _thread.allocate_lock()
        self._open.acquire()

    def run(self) -> None:
        """Makes the call, unless a thread has begun it before."""
        if not self._taken.acquire(False):
            return
        try:
            self._value = self._call()
        except BaseException as fault:  # `result` raises it
            self._fault = fault
        finally:
            del self._call
            self._is_done = True
            self._open.release()

    def cancel(self) -> bool:
        """Keeps all threads from beginning the call. Returns whether none has begun it."""
        return self._taken.acquire(False)

    def done(self) -> bool:
        """Whether the call has been made."""
        return self._is_done

    def result(self) -> T:
        """Returns what the call returns, or raises what it raises. If no thread is alive to make
        the call, this thread makes it. An interrupt may come while this thread holds the lock, so
        the lock alone does not say whether the call was made."""
        while not self._is_done:
            if self._open.acquire(timeout=PATIENCE if self._pool.has_threads() else 0):
                self._open.release()
            elif not self._pool.has_threads():
                if not _has_stack():
                    raise MemoryError("no thread is there")
                self.run()
        if self._fault is not None:
            raise self._fault
        return cast(T, self._value)


class Pool:
    """Threads that make calls: at most `most` of them, and never more than there are calls. Leaving
    a `with` block ends them all, and so does the end of the process."""

    def __init__(self, most: int) -> None:
        self._most, self._submitted, self._process = most, 0, os.getpid()
        self._calls: SimpleQueue[Callable[[], None]] = SimpleQueue()
        # a lock for each thread, which holds it until it ends
        self._ends: list[_thread.LockType] = []
        # at its end Python stops these threads, and then nothing could wait for them
        atexit.register(self.__exit__)

    def __enter__(self) -> Pool:
        return self

    def __exit__(self, *_: object) -> None:
        """Ends the threads, after all calls that were submitted and not cancelled. A process that
        was forked has none of them, and so it waits for none."""
        atexit.unregister(self.__exit__)
        if self._is_forked:
            return
        # one more than there are threads: an interrupt may have come just after one was started,
        # before it was in the list
        for _sign in range(len(self._ends) + 1):
            self._calls.put(_thread.exit)
        while self._ends:
            self._ends.pop().acquire()

    @property
    def _is_forked(self) -> bool:
        return os.getpid() != self._process

    def has_threads(self) -> bool:
        """Whether a thread is alive. Raises `RuntimeError` in a process that was forked since."""
        if self._is_forked:
            raise RuntimeError("a run does not go on in a process that was forked during it")
        return any(end.locked() for end in self._ends)

    def submit(self, call: Callable[[], T]) -> Job[T]:
        """Passes the call to the threads, and returns its job."""
        job = Job(call, self)
        self._calls.put(job.run)
        self._submitted += 1
        if len(self._ends) < min(self._most, self._submitted):
            self._add()
        return job

    def _add(self) -> None:
        """Starts one more thread, and waits until it has begun. If memory is short, a thread may
        end before that, without an error."""
        begun, end = _thread.allocate_lock(), _thread.allocate_lock()
        begun.acquire()
        end.acquire()
        most, self._most = self._most, len(self._ends)  # if no thread begins
        with suppress(RuntimeError, MemoryError):
            _start(self._work, begun, end)
            if begun.acquire(timeout=PATIENCE):
                self._ends.append(end)
                self._most = most
            else:
                self._calls.put(_thread.exit)  # it ends if it begins later

    def _work(self, begun: _thread.LockType, end: _thread.LockType) -> None:
        begun.release()
        try:
            while True:
                self._calls.get()()
        finally:
            end.release()


def in_thread(call: Callable[[], T]) -> T:
    """Makes a call in a thread with a stack of `STACK` bytes. Returns or raises what it does."""
    with Pool(1) as pool:
        return pool.submit(call).result()


def packed(judge: Judge, pack: Callable[[bytes], bytes], chunk: Chunk) -> Answer:
    """Returns the answer for a chunk, with its output packed unless that is short. So all threads
    pack."""
    answer = judge(chunk)
    if sum(map(len, answer.output)) >= BLOCK:
        answer.output, answer.is_packed = [pack(b"".join(answer.output))], True
    return answer


class ChunkSource(Origin, Protocol):
    """The chunks of a source, and what is known of it."""

    unpacker: Unpacker | None

    @property
    def state(self) -> tuple[int, int] | None:
        """The size and the time of change that the file had at the beginning."""

    def __iter__(self) -> Generator[Chunk, None, None]:
        """Yields the chunks, in order."""


class Stream:
    """The chunks of a stream, how they are judged, and the fold of the answers."""

    def __init__(
        self,
        source: Source,
        work: Work,
        size: int | None = None,
        output: Writer | None = None,
        tell: Tell | None = None,
        progress: Progress | None = None,
        *,
        take: Iterable[Take] = (),
        judge_by: Judge | None = None,
        chunks: ChunkSource | None = None,
    ) -> None:
        """Takes the source and the work.

        Args:
            source: The source.
            work: What is asked of it.
            size: How many bytes a chunk has. None is the usual size.
            output: Gets the kept lines.
            tell: Gets each report.
            progress: Gets how many bytes more were done.
            take: Get each answer, and how many lines came before.
            judge_by: Judges a chunk. None is the library, in this process.
            chunks: The chunks of the source. None cuts it in this process.
        """
        self.source, self.work, self.output = source, work, output
        self.chunks: ChunkSource = chunks or Chunks(source, work, size)
        self.judge = judge_by or partial(judge, work=work, size=size)
        self.is_limited = output is not None and output.limit is not None
        if output is not None and output.packing is not None and not self.is_limited:
            self.judge = partial(packed, self.judge, output.pack)
        self.fold = Fold(self.chunks, work, output=output, tell=tell, take=take)
        self._progress, self._taken = progress, 0

    def add(self, answer: Answer) -> None:
        """Joins the answer of the next chunk."""
        is_first = self.fold.joined.parts == 0
        self.fold.add(answer)
        if self._progress is not None:
            self._progress(self._done(answer, is_first))

    def _done(self, answer: Answer, is_first: bool) -> int:
        """Returns how many bytes more of the source are done. In a packed file they are packed."""
        unpacker = self.chunks.unpacker
        if unpacker is None:
            return answer.size + (len(self.chunks.header) if is_first else 0)
        before, self._taken = self._taken, unpacker.taken
        return self._taken - before


Answers = tuple[list[Answer], bool]  # of the next chunks, and whether the stream has no more


class Pending(Protocol[Out]):
    """A call that was begun, here or elsewhere."""

    def cancel(self) -> object:
        """Keeps the call from being made, if it has not begun."""

    def done(self) -> bool:
        """Whether the result is here."""

    def result(self) -> Out:
        """Waits for the result, and returns it."""


Submit = Callable[[Callable[[], Answers]], Pending[Answers]]


def _answer_of(judge: Judge, chunk: Chunk) -> Answers:
    return [judge(chunk)], chunk.is_last


def _next_answers(judge: Judge, chunks: Iterator[Chunk], reading: Lock) -> Answers:
    """Reads and judges chunks: enough that to pass on the answers takes little of the time. Holds
    the lock meanwhile."""
    answers: list[Answer] = []
    size = 0
    with reading:
        for chunk in chunks:
            answers.append(judge(chunk))
            size += chunk.length
            if chunk.is_last or answers[-1].status != CallStatus.COMPLETE or answers[-1].fault:
                return answers, True
            if size >= PART:
                break
    return answers, not answers


@dataclass
class _Run:
    """A stream whose judgement has begun.

    Attributes:
        stream: The stream.
        is_read_by_pool: Whether threads read it: one call at a time reads and judges some chunks.
        chunks: The chunks that no call has.
        calls: The calls whose answers have not been joined, in order.
        held: Answers that wait until the results of the streams before were given.
        is_read: Whether no more calls follow.
        reading: Held by the thread that reads a sliced stream. An interrupt may come before its
            call is in `calls`.
    """

    stream: Stream
    is_read_by_pool: bool
    chunks: Generator[Chunk, None, None]
    calls: deque[Pending[Answers]] = field(default_factory=deque)
    held: deque[list[Answer]] = field(default_factory=deque)
    is_read: bool = False
    reading: Lock = field(default_factory=Lock)

    def add(self, answers: Iterable[Answer]) -> None:
        """Joins some answers."""
        for answer in answers:
            if not self.stream.fold.has_ended:
                self.stream.add(answer)
        if self.stream.fold.has_ended:
            self.close()

    def take(self, is_next: bool) -> None:
        """Takes the answers of the first call. Reports and records wait until this stream is the
        first one. So do all answers if the streams share a limit."""
        answers, is_last = self.calls[0].result()
        self.calls.popleft()  # not before: an interrupted wait leaves the call for `close`
        self.is_read = self.is_read or is_last
        waits = (
            self.held
            or self.stream.is_limited
            or any(answer.refused or answer.end is not None or answer.records for answer in answers)
        )
        if is_next or not waits:
            self.add(answers)
        else:
            self.held.append(answers)

    def release(self) -> None:
        """Joins the answers that were held."""
        while self.held:
            self.add(self.held.popleft())

    def close(self) -> None:
        """Cancels the calls, and closes the source."""
        self.is_read = True
        calls, self.calls = self.calls, deque()
        for call in calls:
            call.cancel()
        with self.reading:  # a thread may read until then
            self.chunks.close()


class _Order:
    """The runs that have begun, in order.

    A thread that judges a chunk of a file also reads it. The thread that asks for the results reads
    all pipes and sockets, since a read may wait for ever. It also reads a packed file that is the
    only stream. If there are more streams, or the pool has one thread, the pool reads packed files.
    """

    def __init__(self, submit: Submit, ahead: Callable[[], int]) -> None:
        """Takes what begins a call and returns its job, and what says how many calls are begun
        before the first is awaited."""
        self._submit, self._ahead = submit, ahead
        self._runs: deque[_Run] = deque()

    def results(self, streams: Iterable[tuple[Stream, bool]]) -> Results:
        """Yields the result of each stream. Takes with each whether threads read it."""
        try:
            for stream, is_read_by_pool in streams:
                run = _Run(stream, is_read_by_pool, iter(stream.chunks))
                self._runs.append(run)
                if not is_read_by_pool:
                    yield from self._read(run)
                yield from self._taken(self._ahead())
            yield from self._taken(0)
            if self._runs:
                raise RuntimeError("a stream has no result")
        finally:
            for run in self._runs:
                run.close()
                run.stream.fold.discard()

    def _read(self, run: _Run) -> Results:
        """Begins a call for each chunk of a stream, while the stream has not ended."""
        for chunk in run.chunks:
            run.calls.append(self._submit(partial(_answer_of, run.stream.judge, chunk)))
            yield from self._taken(0 if chunk.is_pause else self._ahead())
            if run.is_read:
                break

    def _taken(self, most: int) -> Results:
        """Takes answers until at most `most` calls wait, and yields the results that are there."""
        while self._runs:
            run = self._runs[0]
            run.release()  # first: a stream that holds answers begins no call
            self._begin_reads()
            if run.calls:
                are_many = sum(len(each.calls) + len(each.held) for each in self._runs) > most
                if not run.calls[0].done() and not are_many and len(self._runs) < MOST_RUNS:
                    return
                run.take(True)
            elif run.is_read:
                yield self._finished(run)
            else:
                return

    def _finished(self, run: _Run) -> Result:
        run.close()
        result = run.stream.fold.finish()
        self._runs.popleft()
        return result

    def _begin_reads(self) -> None:
        """Takes the answers of calls that have ended, and begins the next calls of streams that
        threads read."""
        for number, run in enumerate(self._runs):
            if not run.is_read_by_pool:
                continue
            if number and run.calls and run.calls[0].done():
                run.take(False)
            if not run.calls and not run.is_read and len(run.held) < HELD:
                call = partial(_next_answers, run.stream.judge, run.chunks, run.reading)
                run.calls.append(self._submit(call))


def results(streams: Iterable[Stream], jobs: int | None) -> Results:
    """Yields the result of each stream, in order, by that number of threads.

    Raises:
        RequestError: It is no number of threads.
    """
    return _by_pool(streams, number_of_jobs(jobs))


def _by_pool(streams: Iterable[Stream], jobs: int) -> Results:
    with Pool(jobs) as pool:
        yield from _Order(pool.submit, lambda: jobs + AHEAD).results(_shared_out(streams, jobs))


def _shared_out(streams: Iterable[Stream], jobs: int) -> Iterator[tuple[Stream, bool]]:
    """Yields each stream, and whether threads read it."""
    ahead = iter(streams)
    begun = list(islice(ahead, 2))
    for stream in chain(begun, ahead):
        yield stream, (len(begun) > 1 or jobs == 1) and is_packed(stream.source)


def results_by(streams: Iterable[Stream], submit: Submit, ahead: Callable[[], int]) -> Results:
    """Yields the result of each stream, in order. `submit` begins a call elsewhere, and returns its
    future. `ahead` says how many calls begin before the first is awaited."""
    return _Order(submit, ahead).results((stream, False) for stream in streams)
