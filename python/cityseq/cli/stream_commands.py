"""The commands `check`, `filter` and `info`, and the lists of files and ids that they read."""
from __future__ import annotations

import os
import sys
from collections import deque
from collections.abc import Callable, Iterable, Iterator, Sequence
from contextlib import closing, contextmanager
from dataclasses import dataclass, field
from functools import cached_property, partial
from typing import TYPE_CHECKING

from .. import __version__
from ..engine import RequestError, keep_room, library
from ..engine.judge import Query, Work, work_of
from ..run import Passing, Result
from ..run.streams import Results, Stream, results
from ..sources import PIECE, is_path, refuse_read, size_of, stream_of
from ..sources.packed import LEVEL, read_some
from .options import Check, Filter, Info
from .options import Request as AnyRequest
from .output import Bar, Reports, is_terminal, printer_for, put, say

if TYPE_CHECKING:
    from ..engine import Text
    from ..run.streams import Job, Pool
    from ..sources import Source
    from .record import Record

    See = Callable[[Text], None] | None
    from ..engine.reports import Report
    from ..foreign import Object
    from ..sources.outputs import Writer
    from .filter_outputs import UnmatchedIds
    from .requests import Explain


MARK = b"\xef\xbb\xbf"  # a byte order mark
HASHES = 2  # files that are hashed at once
UNKNOWN_OBJECT_TYPE = 19  # the code of this reason
Request = Check | Filter | Info


def _read(path: str, what: str) -> bytes:
    """Returns the bytes of a list.

    Raises:
        RequestError: It cannot be read.
    """
    try:
        if path != "-":
            with open(path, "rb") as source:
                return source.read()
        if sys.stdin is None:
            raise OSError("standard input is closed")
        return b"".join(iter(partial(read_some, sys.stdin.buffer, PIECE), b""))
    except OSError as fault:
        raise RequestError(f"{path}: {what}: {fault.strerror or fault}") from fault


def _lines(text: bytes) -> bytes:
    """Returns the texts of a list, one on each line, without the empty ones. In the list a NUL may
    follow each text."""
    text = text.removeprefix(MARK)
    if b"\0" in text:
        text = text.replace(b"\0", b"\n")
    elif b"\r" in text:
        text = text.replace(b"\r\n", b"\n")
    if b"\n\n" not in text:  # a long list is not taken apart
        return text.strip(b"\n")
    return b"\n".join(filter(None, text.split(b"\n")))


def _names(text: bytes, null: bool) -> list[str]:
    """Returns the names in a list. With `null` only a NUL ends a name, which may have an LF."""
    names = text.split(b"\0") if null else _lines(text).split(b"\n")
    return [os.fsdecode(name) for name in names if name]


def files_of(request: AnyRequest, ids_from: str | None = None) -> tuple[str, ...]:
    """Returns the files to read. Without any FILE and without a list it is standard input.

    Raises:
        RequestError: A list cannot be read, or standard input is read twice.
    """
    named = list(request.files)
    if request.files_from is not None:
        listed = _read(request.files_from, "a list of files")
        named += _names(listed, request.null)
    elif not named:
        named = ["-"]
    if (*named, ids_from, request.files_from).count("-") > 1:
        raise RequestError("standard input is read once: - is given for more than one thing")
    return tuple(named)


def texts_of(text: str | None) -> list[str] | None:
    """Returns the texts of an option, which has commas between them."""
    return None if text is None else text.split(",")


def ids_of(option: str | None, path: str | None, null: bool) -> list[str] | bytes | None:
    """Returns the ids of the option and of a list. There may be very many. If only a list has ids,
    they are bytes, one id on each line.

    Raises:
        RequestError: The list cannot be read, or is not UTF-8.
    """
    if path is None:
        return texts_of(option)
    listed = _read(path, "a list of ids")
    if null and b"\n" in listed:
        raise RequestError(f"{path}: a list of ids: no query can have an id with a line's end")
    ids = _lines(listed)
    try:
        text = ids.decode("utf-8")
    except UnicodeDecodeError as fault:
        raise RequestError(f"{path}: a list of ids: {fault}") from fault
    if option is None:
        return ids
    return (text.split("\n") if ids else []) + option.split(",")


@dataclass
class _Begun:
    """A file that is being judged: its output, its reports, and its state before it was read."""

    output: str | None
    reports: Reports = field(default_factory=Reports)
    state: Object = field(default_factory=dict)
    digest: Job[str | None] | None = None


def _work_of(request: Request, ids: list[str] | bytes | None) -> Work:
    """Returns the work that the options ask for, checked."""
    if not isinstance(request, Filter):
        exact_lods = isinstance(request, Info) and request.lods
        return work_of(request.command, request.judging, exact_lods=exact_lods)
    types, lods = texts_of(request.type), texts_of(request.lod)
    return work_of(
        "filter", request.judging, Query(ids, types, lods, request.bbox, request.exclude)
    )


def total_of(files: Sequence[str], is_wanted: bool) -> int | None:
    """Returns how many bytes some files have. None if that is not wanted, or is not known."""
    sizes = [size_of(file) for file in files] if is_wanted else [None]
    return None if None in sizes else sum(filter(None, sizes))


class Run:
    """A run over files, with its printer, its record and the digests of the files."""

    _hashes: Pool | None = None
    _record: Record | None = None

    def __init__(self, request: Request, work: Work, files: Sequence[str], bar: Bar) -> None:
        self._request, self._work, self._bar = request, work, bar
        self._printer = printer_for(request, bar, len(files) > 1)
        self._begun: deque[_Begun] = deque()  # the files in order
        if request.sha256 or request.record is not None:
            from ..run.streams import Pool  # few runs need threads that hash

            self._hashes = Pool(HASHES)
        if request.record is not None:
            from .record import Record

            self._record = Record(request.record, request.resume)

    def __enter__(self) -> Run:
        return self

    def __exit__(self, kind: object, *_: object) -> None:
        if self._hashes is not None and kind is None:
            # after a fault the process ends without the digest of a long file
            self._hashes.__exit__()
        if self._record is not None:
            self._record.close()

    def skip(self, files: Sequence[str]) -> tuple[list[str], int]:
        """Returns the files to read, and the greatest status of the others. The record has the
        others, and they are unchanged."""
        if self._record is None or not self._request.resume:
            return list(files), 0
        rest, worst = [], 0
        for file, output in zip(files, _outputs_of(self._request, files)):
            recorded = self._record.find(file, self._state_of(file, output))
            if recorded is None:
                rest.append(file)
            else:
                worst = max(worst, recorded["status"])
                self._printer.skipped(file, recorded)
        return rest, worst

    def _state_of(self, file: str, output: str | None) -> Object:
        """Returns what must be the same for a file to be skipped."""
        from ..sources.regular import state_now

        return {
            **state_now(file),
            "output": None if output is None else os.path.abspath(output),
            "command": self._request.command,
            "cityseq": __version__,
            "options": self._request.options,
            "ids_sha256": self._ids_sha256,
        }

    @cached_property
    def _ids_sha256(self) -> str | None:
        """Returns the SHA-256 of the ids of a query, which may be those of a file."""
        if not isinstance(self._request, Filter) or self._request.ids_from is None:
            return None
        import hashlib

        return hashlib.sha256(self._work.ids or b"").hexdigest()

    def stream(self, file: str, writer: Writer | None) -> Stream:
        """Returns a file as a stream, and notes the state of the file."""
        begun = _Begun(None if writer is None else writer.name)
        if self._hashes is not None:
            from ..sources.regular import sha256_of, state_now

            begun.state = state_now(file)
            begun.digest = self._hashes.submit(partial(sha256_of, file)) if is_path(file) else None
        self._begun.append(begun)

        def report(each: Report) -> None:
            begun.reports.add(each)
            self._printer.report(each)

        return Stream(
            self._source(file),
            self._work,
            self._request.part_size,
            writer,
            Passing(report),
            partial(self._bar.add, file),
        )

    def _source(self, file: str) -> Source:
        """Returns the stream of a file, which may be a whole CityJSON file."""
        if isinstance(self._request, Filter):
            return file
        return stream_of(file, self._request.whole or None)

    def take(self, result: Result) -> int:
        """Prints the result of a file, records it, and returns its status."""
        begun = self._begun.popleft()
        sha256 = None if begun.digest is None else begun.digest.result()
        self._printer.result(result, sha256 if self._request.sha256 else None)
        if self._record is not None:
            self._record.append(self._line(result, begun, sha256))
        return result.status

    def _line(self, result: Result, begun: _Begun, sha256: str | None) -> Object:
        """Returns the line of a record for a file."""
        from ..sources.regular import time_now
        from .json_output import record_object
        from .record import output_state

        is_whole = (
            result.fault is None
            and result.end is None
            and (result.valid or self._request.keep_going)
        )
        state = {
            **begun.state,
            "sha256": sha256,
            "time": time_now(),
            "ids_sha256": self._ids_sha256,
            **output_state(begun.output if is_whole else None),
        }
        line = record_object(result, self._request, begun.reports, state)
        return {**line, "file": os.path.abspath(result.file)}

    def close(self) -> None:
        """Prints what is about all files together."""
        self._printer.close()


def _outputs_of(request: Request, files: Sequence[str]) -> list[str | None]:
    """Returns the output of each file. Only `filter` has outputs."""
    if not isinstance(request, Filter):
        return [None] * len(files)
    from .filter_outputs import targets_of  # `check` and `info` do without

    return [*targets_of(request, files)]


def _writers(request: Request, files: Sequence[str], see: See) -> list[Writer | None]:
    """Returns the writer of each file's output. Only `filter` has outputs."""
    if not isinstance(request, Filter):
        return [None] * len(files)
    from ..sources.outputs import Limit, Writer  # `check` and `info` do without
    from .filter_outputs import targets_of

    writers: list[Writer | None] = []
    limit = Limit.of(request.limit)
    for output in targets_of(request, files):
        writer = Writer(output, request.keep_partial, level=request.level or LEVEL, see=see)
        writer.limit = limit
        writers.append(writer)
    return writers


def _make_folders(request: Filter, outputs: Sequence[str]) -> None:
    """Makes the folder of `--output-dir`, and those of the outputs in it."""
    if request.output_dir is not None:
        from .filter_outputs import make_folder  # few runs need it

        folders = [os.path.dirname(output) for output in outputs]
        for folder in dict.fromkeys([request.output_dir, *folders]):
            make_folder(folder)


def _checked_outputs(request: Request, files: Sequence[str]) -> list[str]:
    """Returns the outputs of files. Refuses options that do not fit one another, and outputs that
    are read.

    Raises:
        RequestError: Some do not fit.
    """
    outputs, ids_from = [], None
    if isinstance(request, Filter):
        from .filter_outputs import targets_of  # `check` and `info` do without

        outputs, ids_from = targets_of(request, files), request.ids_from
    refuse_read([*files, ids_from, request.files_from], [*outputs, request.record])
    if isinstance(request, (Check, Filter)) and (request.resume or request.record is not None):
        if isinstance(request, Filter) and request.limit is not None:
            raise RequestError("with --limit an output depends on other files: leave --record out")
        from .record import refuse_unrecorded

        refuse_unrecorded(request, files, outputs)
    return outputs


def unmatched_of(request: Filter, ids: list[str] | bytes | None) -> UnmatchedIds | None:
    """Returns what finds the ids of a list that match no feature. None if that is not wanted."""
    is_wanted = request.json or not request.quiet
    if request.ids_from is None or ids is None or request.exclude or not is_wanted:
        return None
    if request.limit is not None:  # it leaves out features that match
        return None
    from .filter_outputs import UnmatchedIds  # few runs need it

    return UnmatchedIds(request.ids_from, ids)


@dataclass
class _Outcome:
    """What came of all files: the greatest status, whether each was read to its end, and the number
    of features."""

    status: int
    is_complete: bool
    features: int = 0

    def add(self, status: int, result: Result) -> None:
        """Takes the result of the next file."""
        self.status = max(self.status, status)
        self.is_complete = self.is_complete and result.fault is None and result.end is None
        self.features += result.features


@contextmanager
def _results(request: Request, work: Work, streams: Iterable[Stream]) -> Iterator[Results]:
    """Gives the results of streams, by threads or by a cluster."""
    if request.cluster is None:
        with closing(results(streams, request.jobs)) as found:
            yield found
        return
    from ..cluster import PART, Cluster, connected  # few runs need it
    from ..cluster.runs import Runs

    if request.jobs is not None:
        raise RequestError("--jobs is for threads: leave it out with --cluster")
    with connected(request.cluster) as client:
        runs = Runs(Cluster(client, work, request.part_size or PART))
        with closing(runs.results(streams)) as found:
            yield found


def _judge_all(request: Request, work: Work, files: Sequence[str], see: See) -> _Outcome:
    """Judges the files, in order."""
    total = total_of(files, request.progress)
    with Bar(total, request.progress) as bar, Run(request, work, files, bar) as run:
        rest, worst = run.skip(files)
        outcome = _Outcome(worst, len(rest) == len(files))
        streams = map(run.stream, rest, _writers(request, rest, see))
        with _results(request, work, streams) as found:
            for result in found:
                outcome.add(run.take(result), result)
        run.close()
    return outcome


def run(request: Request) -> int:
    """Does the work on each file, in order, and returns the greatest status."""
    query = request if isinstance(request, Filter) else None
    if query is not None and (query.index, query.where, query.base) != (None, None, None):
        from .index_commands import run_cut  # few runs need it

        return run_cut(query)
    files = files_of(request, None if query is None else query.ids_from)
    ids = None if query is None else ids_of(query.id, query.ids_from, query.null)
    work = _work_of(request, ids)
    outputs = _checked_outputs(request, files)
    if query is not None:
        _make_folders(query, outputs)
    if request.is_plain and is_terminal(sys.stdin) and is_terminal(sys.stderr):
        say("reading standard input; it ends with Ctrl-D")
    keep_room(request.jobs)
    unmatched = None if query is None else unmatched_of(query, ids)
    see = unmatched.see if unmatched is not None and unmatched.is_exact else None
    outcome = _judge_all(request, work, files, see)
    if query is not None and unmatched is not None and outcome.is_complete:
        unmatched.print(query, outcome.features)
    return outcome.status


def explain_code(request: Explain) -> int:
    """Prints what a code means, or all codes, and returns the status."""
    from ..engine.reports import explain, explanations  # no run needs it

    if not request.files:
        put("\n".join(f"{reason.code} {reason.text}" for reason in explanations()))
        return 0
    try:
        (code,) = map(int, request.files)
        reason = explain(code)
    except ValueError:
        raise RequestError("explain takes a code, as explain 25") from None
    except KeyError:
        raise RequestError(f"no reason has the code {request.files[0]}") from None
    parts = [f"{code} {reason.text}", reason.meaning, f"Fix: {reason.fix}"]
    if code == UNKNOWN_OBJECT_TYPE:
        parts.append(f"Types: {', '.join(library().type_names())}")
    put("\n\n".join(parts))
    return 0
