"""What the workers of a cluster do: each opens a file by its path, and judges a part of it. Each
answer comes with the worker and its engine."""
from __future__ import annotations

import errno
import glob
import hashlib
import os
import pickle
import stat
from collections.abc import Callable, Generator, Iterable, Iterator, Sequence
from contextlib import closing
from dataclasses import dataclass
from functools import lru_cache, partial
from itertools import chain

from .. import __version__
from ..engine import CallStatus, CityseqError, ReadFault, library_path, read_fault
from ..engine.judge import Answer, Work, judge, judge_lines, part_size
from ..run.streams import in_thread, packed
from ..sources import CHANGED, State, is_url, open_raw, remote_of, state_of
from ..sources.chunks import Chunk, Chunks
from ..sources.packed import Unpacker
from ..sources.regular import Digest, FileChunk, RegularFile, digest_of

SHORT = 4 << 20  # bytes of a file, or of a chunk, that is not worth a task of its own
FIRST = 4_096  # bytes at the beginning of a file that show which file it is
NO_PARTS = "filter", "records"  # work that no packed file is given to as a whole


@dataclass(frozen=True)
class Sight:
    """A file as a process sees it: its size, its time of change, and a hash of its first bytes."""

    state: State
    first: bytes


def sight_of(path: str) -> Sight:
    """Looks at a file. Raises `OSError` if it cannot be read, or is no regular file."""
    if not is_url(path):
        mode = os.stat(path).st_mode
        if stat.S_ISDIR(mode):
            raise IsADirectoryError(errno.EISDIR, os.strerror(errno.EISDIR))
        if not stat.S_ISREG(mode):
            raise OSError("it is no regular file")
    with open_raw(path) as file:
        return Sight(state_of(file), hashlib.sha256(file.read(FIRST)).digest())


@dataclass(frozen=True)
class Begun:
    """What a worker finds at the beginning of a file.

    Attributes:
        sight: The file as the worker sees it. None if it cannot be read.
        answer: The answer for the whole file, if it is short or packed, or if its header ends it.
        header: The header, if the work needs it here.
        length: How many bytes the header has.
        head: The first bytes, if there is an answer.
        size: How many bytes a chunk has.
        is_packed: Whether the file is packed.
        fault: Why the file cannot be judged, if so.
    """

    sight: Sight | None = None
    answer: Answer | None = None
    header: bytes = b""
    length: int = 0
    head: bytes = b""
    size: int = 0
    is_packed: bool = False
    fault: CityseqError | None = None

    @property
    def weight(self) -> int:
        """How many bytes were judged, and how many are sent."""
        return len(self.header) + len(self.head) + (self.answer.size if self.answer else 0)


@dataclass(frozen=True)
class Sizes:
    """How files are cut, in bytes.

    Attributes:
        part: The most bytes of a chunk.
        short: The most bytes of a file that is judged when it is begun.
        pieces: Of how many chunks a file has at least, if they are not short. 0 asks for none.
    """

    part: int
    short: int
    pieces: int = 0

    def of(self, size: int) -> int:
        """Returns how many bytes a chunk of a file of this size has."""
        if self.pieces == 0:
            return self.part
        return min(self.part, max(size // self.pieces, SHORT))


def begin(name: str, path: str, sizes: Sizes, work: Work) -> Begun:
    """Reads the beginning of a file. Judges the file if it is packed or short, and else its header
    alone. So a chunk of it has a valid header."""
    try:
        sight = sight_of(path)
        chunks = Chunks(path, work)
        chunks.file = name
        with closing(iter(chunks)) as reading:
            first = next(reading)
            is_packed = chunks.unpacker is not None
            header, length = chunks.header, len(chunks.header)
            if work.kind in ("check", "filter"):
                header = b""
            if is_packed and work.kind in NO_PARTS:
                return Begun(sight, is_packed=True)
            if first.fault is not None or is_packed or sight.state[0] <= sizes.short:
                whole = _whole(chunks, chain([first], reading), work)
                whole.size = sight.state[0] - len(header)
                answer: Answer | None = whole
            else:
                answer = judge_lines(work, name, chunks.header, b"", True).sent()
                answer = None if answer.status == CallStatus.COMPLETE else answer
        head = chunks.head if answer is not None and answer.end is not None else b""
        step = part_size(work, sizes.of(sight.state[0]), chunks.header)
        return Begun(sight, answer, header, length, head, step, is_packed)
    except OSError as fault:
        return Begun(fault=read_fault(fault, name))


def _whole(chunks: Chunks, each: Iterable[Chunk], work: Work) -> Answer:
    """Returns the answer for all chunks of a file, as another process can take it."""
    joined = Answer(parts=0)
    for chunk in each:
        joined = joined.then(judge(chunk, work).sent())
        if joined.status != CallStatus.COMPLETE or joined.fault is not None:
            break
    if chunks.is_changed:
        joined.fault = ReadFault(f"read fault: {CHANGED}", None, chunks.file)
    return joined


def begin_all(files: Iterable[tuple[str, str]], sizes: Sizes, work: Work) -> list[Begun]:
    """Reads the beginnings of files, by their names and paths. Ends after the file with which
    enough bytes were judged or are sent."""
    found: list[Begun] = []
    weight = 0
    for name, path in files:
        found.append(begin(name, path, sizes, work))
        weight += found[-1].weight
        if weight >= sizes.part:
            break
    return found


@dataclass(frozen=True)
class RangeChunk(Chunk):
    """The lines of a file that begin between two places, by its path.

    Attributes:
        path: The path by which another process opens the file.
        number: Its number in the file, from 0.
        end: The place before which each line begins.
        header_length: How many bytes the header has.
        before: How many bytes before the lines count with them: a header that was not sent.
        sight: The file as it must be.
    """

    path: str = ""
    number: int = 0
    end: int = 0
    header_length: int = 0
    before: int = 0
    sight: Sight | None = None

    @property
    def length(self) -> int:
        """How many bytes count with the lines."""
        return self.before + self.end - self.begin

    def opened(self) -> RegularFile:
        """Opens the file. Raises `OSError` if it is another one than the chunk has."""
        with open_raw(self.path) as file:
            source = RegularFile(remote_of(file) or file.fileno())
        first = hashlib.sha256(source.read_own(0, FIRST)[0]).digest()
        if self.sight != Sight(source.state, first):
            raise OSError(CHANGED)
        return source

    def within(self, source: RegularFile, size: int, work: Work) -> Iterator[FileChunk | Chunk]:
        """Yields chunks of about this size, which this process can judge."""
        header, fault = source.read_own(0, self.header_length)
        if fault is not None:
            raise fault
        if self.begin == self.end:
            yield Chunk(self.file, header, self.begin, is_first=self.is_first)
        for place in range(self.begin, self.end, size):
            yield FileChunk(
                self.file,
                header,
                place,
                is_first=self.is_first and place == self.begin,
                end=min(place + size, self.end),
                source=source,
                line_limit=work.line_limit,
                keep_going=work.keep_going,
            )


class RangeChunks:
    """The chunks of a file that another process has begun.

    Attributes:
        file: The name of the file.
        header: The first line, if it was sent.
        head: The first bytes, if they were sent.
        is_changed: False: who judges a chunk sees whether the file has changed.
        unpacker: None: nothing is unpacked here.
    """

    is_changed = False
    unpacker: Unpacker | None = None

    def __init__(self, name: str, path: str, begun: Begun) -> None:
        """Takes the name of the file, its path, and how it begins."""
        self.file, self.header, self.head = name, begun.header, begun.head
        self._path, self._begun = path, begun

    @property
    def state(self) -> State | None:
        """The size and the time of change that the file had at the beginning."""
        return None if self._begun.sight is None else self._begun.sight.state

    def __iter__(self) -> Generator[Chunk, None, None]:
        begun = self._begun
        if begun.answer is not None or begun.sight is None:
            yield Chunk(self.file, is_last=True, fault=begun.fault)
            return
        end = begun.sight.state[0]
        places = list(range(begun.length, end, begun.size)) or [begun.length]
        for number, place in enumerate(places):
            yield RangeChunk(
                self.file,
                begin=place,
                is_first=place == places[0],
                is_last=place == places[-1],
                path=self._path,
                number=number,
                end=min(place + begun.size, max(end, place)),
                header_length=begun.length,
                before=begun.length - len(self.header) if place == places[0] else 0,
                sight=begun.sight,
            )


def judge_range(chunk: RangeChunk, work: Work) -> Answer:
    """Judges a chunk of `RangeChunks` where this is called, and returns an answer that another
    process can take."""
    try:
        source = chunk.opened()
        (lines,) = chunk.within(source, max(chunk.end - chunk.begin, 1), work)
        answer = judge(lines, work).sent()
        answer.size = chunk.length
        if chunk.sight is not None and source.state != chunk.sight.state:
            raise OSError(CHANGED)
        return answer
    except OSError as fault:
        return Answer(parts=0, fault=read_fault(fault, chunk.file))


SENT = 4 << 20  # bytes of answers with which a task for several parts ends
REPORT = 256  # bytes of a report that is sent, about
Answered = tuple[str, str, object]  # the worker, its engine, the answer if that is the right one


@lru_cache(maxsize=None)
def engine() -> str:
    """Returns the version of this package, and hashes of its modules and of its library."""
    package = os.path.dirname(os.path.dirname(__file__))
    modules = sorted(glob.glob(os.path.join(package, "**", "*.py"), recursive=True))
    found = [__version__]
    for paths in (modules, [library_path()]):
        digest = hashlib.sha256()
        for path in paths:
            with open(path, "rb") as file:
                digest.update(file.read())
        found.append(digest.hexdigest()[:12])
    return "{}, package {}, library {}".format(*found)


@lru_cache(maxsize=4)
def _work_of(packed_work: bytes) -> Work:
    work: Work = pickle.loads(packed_work)
    return work


def answered(worker: str, wanted: str, task: bytes, work: bytes) -> Answered:
    """Does a task if this process has the engine that is wanted."""
    found = engine()
    if found != wanted:
        return worker, found, None
    function, *given = pickle.loads(task)
    return worker, found, in_thread(partial(function, *given, work=_work_of(work)))


def guard() -> Callable[[str, bytes, bytes], Answered]:
    """Returns what a worker calls. It is sent whole, so that a worker without this module, or with
    an older one, can say so."""

    def guarded(wanted: str, task: bytes, work: bytes) -> Answered:
        from distributed import get_worker

        worker = get_worker().address
        try:
            from cityseq.cluster.tasks import answered
        except ImportError as missing:
            return worker, f"no such package ({missing})", None
        return answered(worker, wanted, task, work)

    return guarded


def _weight(answer: Answer) -> int:
    """Returns about how many bytes an answer has when it is sent."""
    records = sum(len(each.raw) + sum(map(len, each.ids)) for each in answer.records)
    return sum(map(len, answer.output)) + records + REPORT * answer.refused


def judge_all(
    judge: Callable[..., Answer], given: Sequence[object], chunks: Iterable[RangeChunk], work: Work
) -> list[Answer]:
    """Judges chunks, one after another: each by a call that gets it, what is given, and the work.
    Ends after an answer that ends the stream, and after that with which the answers are long."""
    answers: list[Answer] = []
    weight = 0
    for chunk in chunks:
        answers.append(judge(chunk, *given, work=work))
        weight += _weight(answers[-1])
        has_ended = answers[-1].status != CallStatus.COMPLETE or answers[-1].fault is not None
        if has_ended or weight >= SENT:
            break
    return answers


def judge_packed(chunk: RangeChunk, pack: Callable[[bytes], bytes], work: Work) -> Answer:
    """Judges a chunk, and packs its output."""
    return packed(partial(judge_range, work=work), pack, chunk)


def hash_file(path: str, work: Work) -> Digest | None:
    """Returns the hash of a file. Raises `OSError` if it cannot be read."""
    return digest_of(path)
