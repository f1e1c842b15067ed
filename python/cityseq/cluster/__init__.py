"""Runs over a cluster of `distributed`: workers judge parts of files, and write parts of folders.
`cityseq.dask` has the calls. Here is how tasks begin, and what comes of a worker or a scheduler
that is lost."""
from __future__ import annotations

import asyncio
import logging
import pickle
import time
import uuid
import warnings
from collections.abc import Callable, Iterator
from concurrent.futures import Future, wait
from contextlib import contextmanager, suppress
from functools import partial
from importlib import import_module
from typing import TYPE_CHECKING, Generic, TypeVar

from ..engine import CityseqError, MemoryFault, ReadFault, RequestError, read_fault, why
from ..engine.judge import Answer, Work
from .tasks import RangeChunk, engine, guard, judge_all

if TYPE_CHECKING:
    from ..foreign import Package

PART = 32 << 20  # bytes of a part
AHEAD = 2  # tasks that wait or run for each thread of a worker
LEAST = 64  # parts that wait or are judged, at least
BATCH, MOST = 1 << 20, 64  # bytes of short parts that are one task, and how many of them
HELD = 256 << 20  # bytes of the parts whose output or records wait
RETRIES = 3  # of a task that fails
INLINE = 1 << 16  # bytes of a request that are sent with each task; more are sent to a worker once
LOOK, PATIENCE = 1.0, 5.0  # seconds between two looks at the threads, and before it says it waits
T = TypeVar("T")
_guarded = guard()
_log = logging.getLogger("cityseq.dask")


def _module(name: str) -> Package:
    """Returns a module of distributed or dask. Raises `CityseqError` if it is missing."""
    try:
        return import_module(name)
    except ImportError as missing:
        words = "there is no distributed: install cityseq with the extra cluster"
        raise CityseqError(words) from missing


class Lost(CityseqError):
    """The cluster cannot go on, so no later file has a result."""


def _quiet() -> None:
    """Ends the messages of Dask and of what it stands on. Its import gives some of these loggers a
    level of their own, and asyncio tells of futures that a client left."""
    for name in ("asyncio", *logging.root.manager.loggerDict):
        if name.partition(".")[0] in ("asyncio", "distributed", "tornado"):
            logging.getLogger(name).setLevel(logging.CRITICAL)


@contextmanager
def connected(address: str) -> Iterator[Package]:
    """Gives a client of the scheduler at an address. The settings of Dask say how long it is looked
    for. Nothing but this package writes messages then.

    Raises:
        CityseqError: There is no scheduler.
    """
    distributed = _module("distributed")
    _quiet()
    try:
        client = distributed.Client(address, set_as_default=False)
    except Exception as fault:
        raise Lost(f"there is no scheduler of Dask at {address}: {type(fault).__name__}") from fault
    try:
        yield client
    finally:
        with suppress(Exception):
            client.close(PATIENCE)


def checked_client(client: object) -> Package:
    """Returns the client.

    Raises:
        RequestError: It is none, it cannot be used here, or this is a task of a worker.
    """
    if not isinstance(client, _module("distributed").Client):
        raise RequestError(f"a client of distributed is wanted, and not {client!r}")
    if client.asynchronous:
        raise RequestError("the client is asynchronous: make it with asynchronous=False")
    if client.status not in ("running", "connecting"):
        raise RequestError(f"the client is {client.status}: make a new one")
    if hasattr(_module("distributed.worker").thread_state, "execution_state"):
        raise RequestError("a task waits for no other tasks: make this call outside of the cluster")
    return client


def checked_size(size: object) -> int:
    """Returns how many bytes a part has. A text such as 32MB is a number too.

    Raises:
        RequestError: It is no number of bytes from 1.
    """
    with suppress(ValueError):
        if isinstance(size, str) and size.strip():
            size = _module("dask.utils").parse_bytes(size)
    if isinstance(size, bool) or not isinstance(size, int) or size < 1:
        raise RequestError(f"a part has one byte or more, such as 32MB: {size!r}")
    return size


class Cluster:
    """Makes tasks of one run for the workers of a client.

    Attributes:
        work: What is asked of each file.
        size: How many bytes a part has.
        is_heavy: Whether the answers of parts are as long as the parts.
    """

    def __init__(self, client: object, work: Work, size: object = PART) -> None:
        self._client, self.work, self.size = checked_client(client), work, checked_size(size)
        self.is_heavy = work.kind in ("filter", "records")
        self.engine = engine()
        self._threads, self._looked, self._idle_since = 0, -LOOK, time.monotonic()
        self._has_told = False
        self._work: bytes | Package = pickle.dumps(work)
        if len(self._work) > INLINE:
            self._work = self._submit("request", bytes, self._work)

    def _submit(self, kind: str, function: Callable[..., object], *given: object) -> Package:
        """Begins a task, and returns its future."""
        try:
            with warnings.catch_warnings():
                warnings.simplefilter("ignore")  # a long request is sent by a task of its own
                key = f"cityseq-{kind}-{uuid.uuid4().hex}"
                return self._client.submit(function, *given, key=key, retries=RETRIES, pure=False)
        except Exception as fault:
            raise self.lost(fault) from fault

    def task(
        self, kind: str, file: str | None, function: Callable[..., T], *given: object
    ) -> Job[T]:
        """Begins a call of a function with this work on a worker, and returns its job."""
        task = pickle.dumps((function, *given))
        return Job(self, partial(self._submit, kind, _guarded, self.engine, task, self._work), file)

    def fetched(self, future: Package) -> Future[Package]:
        """Begins to fetch the result of a task, from its worker itself unless the client says
        otherwise."""
        direct = self._client.direct_to_workers is not False
        fetch = self._client.gather(future, direct=direct, asynchronous=True)
        return asyncio.run_coroutine_threadsafe(fetch, self._client.loop.asyncio_loop)

    def threads(self) -> int:
        """Returns how many threads the workers have, as it was a short time ago."""
        now = time.monotonic()
        if now - self._looked >= LOOK and self._client.status == "running":
            with suppress(Exception):  # a lost scheduler ends the tasks
                self._threads = sum(self._client.nthreads().values())
            self._looked = time.monotonic()
        return self._threads

    def ahead(self) -> int:
        """Returns how many parts are judged or wait: more if workers join."""
        in_task = min(max(BATCH // self.size, 1), MOST)
        ahead = max(LEAST, AHEAD * in_task * self.threads())
        return max(min(ahead, HELD // self.size), AHEAD) if self.is_heavy else ahead

    def say_if_idle(self) -> None:
        """Says once that there is no worker, after a while."""
        if self.threads():
            self._idle_since = time.monotonic()
        elif not self._has_told and time.monotonic() - self._idle_since > PATIENCE:
            self._has_told = True
            _log.warning("the cluster has no worker: waiting for one")

    def lost(self, cause: BaseException) -> Lost:
        """Returns the fault for a scheduler that is gone, or has forgotten the tasks."""
        where = getattr(self._client.scheduler, "address", None) or "the scheduler"
        return Lost(f"{where} is gone, or its tasks were cancelled: {type(cause).__name__}")

    def fault_of(self, cause: BaseException, file: str | None) -> CityseqError:
        """Returns the fault for a task without an answer."""
        distributed = _module("distributed")
        gone = asyncio.CancelledError, distributed.CancelledError, distributed.comm.CommClosedError
        if self._client.status != "running" or isinstance(cause, gone):
            return self.lost(cause)
        if isinstance(cause, distributed.scheduler.KilledWorker):
            words = "each worker that judged this part ended: it may need more memory"
            return MemoryFault(words, None, file)
        if isinstance(cause, OSError):
            return read_fault(cause, file)
        return CityseqError(f"a worker failed: {type(cause).__name__}: {why(cause)}", None, file)


class Job(Generic[T]):
    """A task, and its result.

    Attributes:
        worker: The worker that did it, when its result is there.
    """

    def __init__(self, cluster: Cluster, submit: Callable[[], Package], file: str | None) -> None:
        """Takes what begins the task, and the file that a fault has."""
        self._cluster, self._submit, self._file = cluster, submit, file
        self.worker = ""
        self._begin()

    def _begin(self) -> None:
        self._future = self._submit()
        self._fetched: Future[tuple[str, str, T]] = self._cluster.fetched(self._future)

    def done(self) -> bool:
        """Whether the result is here."""
        return self._fetched.done()

    def cancel(self) -> None:
        """Lets the cluster forget the task: at once, or when its result is here, because a client
        warns of a result that is forgotten while it comes."""
        with suppress(Exception):
            if self._future.status == "finished":
                self._fetched.add_done_callback(lambda _: self._future.release())
            else:
                self._future.release()

    def wait(self, seconds: float) -> None:
        """Waits for the result, but not longer."""
        wait([self._fetched], seconds)

    def result(self, has_another: bool = True) -> T:
        """Returns what the task returns. If workers ended, another task may be to blame, so it can
        have another try.

        Raises:
            Lost: The scheduler is gone, or the worker has another engine.
            CityseqError: The task cannot be done.
        """
        while not wait([self._fetched], LOOK).done:
            self._cluster.say_if_idle()
        try:
            self.worker, found, value = self._fetched.result()
        except Exception as cause:
            fault = self._cluster.fault_of(cause, self._file)
            if not has_another or not isinstance(fault, MemoryFault):
                raise fault from cause
            self._begin()
            return self.result(False)
        except asyncio.CancelledError as cause:
            raise self._cluster.lost(cause) from cause
        self.cancel()  # the worker need not hold it any more
        if found != self._cluster.engine:
            raise Lost(
                f"the worker {self.worker} has cityseq {found}, and this process has"
                f" {self._cluster.engine}: install the same on both"
            )
        return value

    def named(self, fault: ReadFault) -> ReadFault:
        """Returns the fault of a read with the name of the worker."""
        fault.words = f"{fault.words} (worker {self.worker})"
        return fault


class Batch:
    """Parts of a stream that one task judges, because they are short. The task begins when it has
    enough of them, or when the first answer is wanted. If it leaves some out, another follows."""

    def __init__(self, cluster: Cluster, judge: partial[Answer]) -> None:
        """Takes the cluster, and the partial call that judges a part on a worker."""
        self._cluster, self.judge = cluster, judge
        self._chunks: list[RangeChunk] = []
        self._answers: list[Answer] = []
        self._size, self._asked, self._most = 0, 0, MOST
        self._job: Job[list[Answer]] | None = None

    @property
    def is_open(self) -> bool:
        """Whether more parts may be added."""
        return self._job is None and not self._answers

    def add(self, chunk: RangeChunk) -> Answering:
        """Adds a part, and returns its answer to come."""
        self._chunks.append(chunk)
        self._size += chunk.length
        if chunk.is_last or self._size >= BATCH or len(self._chunks) == MOST:
            self._begin()
        return Answering(self, len(self._chunks) - 1, chunk.is_last)

    def _begin(self) -> None:
        """Begins a task for the parts that have no answer."""
        rest = self._chunks[len(self._answers) :][: self._most]
        self._asked = len(rest)
        given = judge_all, self.judge.func, self.judge.args, rest
        self._job = self._cluster.task(self._cluster.work.kind, rest[0].file, *given)

    def done(self, number: int) -> bool:
        """Whether the answer of a part is here, or the task that it may come from has ended."""
        return number < len(self._answers) or self._job is not None and self._job.done()

    def cancel(self) -> None:
        """Lets the cluster forget the task."""
        if self._job is not None:
            self._job.cancel()

    def answer(self, number: int) -> Answer:
        """Returns the answer of a part. Raises `Lost`."""
        while number >= len(self._answers):
            if self._job is None:
                self._begin()
            self._take()
        return self._answers[number]

    def _take(self) -> None:
        """Takes the answers of the task. If it failed, a task for each part shows which of them is
        to blame."""
        assert self._job is not None
        try:
            found: list[Answer] = self._job.result(self._asked == 1)
        except Lost:
            raise
        except CityseqError as fault:
            if self._asked > 1:
                self._most, self._job = 1, None
                return
            found = [Answer(parts=0, fault=fault)]
        else:
            for each in found:
                if isinstance(each.fault, ReadFault):
                    self._job.named(each.fault)
        self._answers += found
        self._job = None


class Answering:
    """A part that is judged elsewhere. Its result is as `run.streams` takes it."""

    def __init__(self, batch: Batch, number: int, is_last: bool) -> None:
        self._batch, self._number, self._is_last = batch, number, is_last
        self.cancel = batch.cancel

    def done(self) -> bool:
        """Whether the result is probably here."""
        return self._batch.done(self._number)

    def result(self) -> tuple[list[Answer], bool]:
        """Returns the answer, and whether no part follows. Raises `Lost`."""
        answer = self._batch.answer(self._number)
        return [answer], self._is_last or answer.fault is not None
