"""The commands that make files of files: `pack`, `split`, `collect` and `report`. `pack` makes
blocks (BGZF), so that archives can be cut. It also verifies archives."""
from __future__ import annotations

import json
import os
import shlex
from collections import deque
from collections.abc import Callable, Iterator, Sequence
from contextlib import suppress
from dataclasses import dataclass, field, replace
from functools import partial

from ..engine import (
    READ_FAULTS,
    CityseqError,
    ReadFault,
    RequestError,
    keep_room,
    read_fault,
    shown,
)
from ..engine.judge import work_of
from ..run import Result, number_of_jobs
from ..run.streams import Job, Pool
from ..sources import CHANGED, PIECE, Reader, Watch, opened, refuse_read, watch_of
from ..sources.outputs import Writer
from ..sources.packed import (
    BLOCK,
    HEAD,
    LAST,
    LEVEL,
    Packing,
    Unpacker,
    block_length,
    is_block,
    packing_by_name,
)
from . import program_name
from .options import options_of
from .output import Bar, counts, put, say
from .requests import CollectStreams, Pack, SplitFile, WriteReport
from .stream_commands import files_of, total_of

TOGETHER = 16 * BLOCK  # bytes of text that a thread packs
AHEAD = 2  # texts that wait, in addition to those that are packed
Progress = Callable[[int], None]


@dataclass(frozen=True)
class ArchiveSize:
    """How long an archive is: its text, and its file. `blocks` is None if it is not of blocks."""

    text: int
    file: int
    blocks: int | None = None


def packed_name(path: str) -> str:
    """Returns the name of the archive of a file: a packed file gets no second ending."""
    packing = packing_by_name(path)
    return (path if packing is None else path.removesuffix(packing.value[1])) + ".gz"


def _pieces(reader: Reader, watch: Watch | None, progress: Progress) -> Iterator[bytes]:
    """Yields the text of a source in pieces of one length, but for the last one.

    Raises:
        ReadFault: A read failed, or the file changed.
    """
    rest, is_over, taken = bytearray(), False, 0
    while not is_over:
        piece = reader.read(PIECE)
        file, before = reader.file, taken
        taken = file.taken if isinstance(file, Unpacker) else taken + len(piece)
        progress(taken - before)
        rest += piece
        is_over = not piece
        while len(rest) >= TOGETHER or (is_over and rest):
            yield bytes(rest[:TOGETHER])
            del rest[:TOGETHER]
    if reader.fault is not None:
        raise reader.fault
    if watch is not None and watch.is_changed():
        raise ReadFault(f"read fault: {CHANGED}", None, reader.name)


def pack_file(
    path: str, output: str, jobs: int, level: int = LEVEL, progress: Progress = lambda size: None
) -> ArchiveSize:
    """Packs a file in blocks, and returns how long the archive is. The output is whole or absent.

    Args:
        path: The file, which may be packed. `-` is standard input.
        output: The path of the archive, whose name ends in `.gz`.
        jobs: How many threads pack.
        level: How well it is packed, from 1 to 9.
        progress: Is called with the bytes of the file that were read since the call before.

    Raises:
        ReadFault: The file cannot be read, is cut short, or changes.
        WriteFault: The archive cannot be written.
    """
    writer = Writer(output, level=level)
    try:
        with Pool(jobs) as pool, opened(path) as reader:
            pieces = _pieces(reader, watch_of(reader.file), progress)
            text = _pack(pieces, writer, pool, jobs + AHEAD)
        writer.close(True)
    finally:
        writer.discard()
    return ArchiveSize(text, os.path.getsize(output))


def _pack(pieces: Iterator[bytes], writer: Writer, pool: Pool, most: int) -> int:
    """Writes a text in pieces, of which at most `most` are packed at once. Returns its length."""
    begun: deque[Job[bytes]] = deque()
    length = 0
    try:
        for piece in pieces:
            length += len(piece)
            begun.append(pool.submit(partial(writer.pack, piece)))
            if len(begun) > most:
                writer.write_packed(begun[0].result())
                begun.popleft()
        for job in begun:
            writer.write_packed(job.result())
    finally:
        for job in begun:
            job.cancel()
    return length


@dataclass
class _Members:
    """Checks the lengths that the blocks of an archive give themselves."""

    descriptor: int
    blocks: int = 0
    are_all: bool = True
    _last: int | None = field(default=None)

    def add(self, _text: int, place: int, is_block: bool) -> None:
        """Takes where the next member or the end is.

        Raises:
            OSError: The block before it has another length than it says.
        """
        if self._last is not None and place > self._last:
            head = os.pread(self.descriptor, HEAD, self._last)
            if self.are_all and block_length(head) != place - self._last:
                raise OSError("the archive is broken: a block has another length than it says")
            self.blocks += 1
        self.are_all, self._last = self.are_all and is_block, place


def verify_file(path: str, progress: Progress = lambda size: None) -> ArchiveSize:
    """Reads an archive whole, and returns how long it is.

    Args:
        path: The archive.
        progress: Is called with the packed bytes that were read since the call before.

    Raises:
        ReadFault: It is no archive, is broken or cut short, or changes.
    """
    with opened(path) as reader:
        unpacker, watch = reader.file, watch_of(reader.file)
        if not isinstance(unpacker, Unpacker) or watch is None:
            raise ReadFault("read fault: what is there is no archive", None, path)
        members = _Members(unpacker.fileno())
        unpacker.note = members.add
        text = taken = 0
        try:
            for piece in iter(partial(unpacker.read, PIECE), b""):
                text += len(piece)
                progress(unpacker.taken - taken)
                taken = unpacker.taken
        except READ_FAULTS as fault:
            raise read_fault(fault, path) from fault
        if watch.is_changed():
            raise ReadFault(f"read fault: {CHANGED}", None, path)
        is_of_blocks = members.are_all and unpacker.packing is Packing.GZIP
        return ArchiveSize(text, unpacker.taken, members.blocks if is_of_blocks else None)


def run_pack(request: Pack) -> int:
    """Packs or verifies each file, in order, and returns the greatest status."""
    if not request.files and request.files_from is None:
        raise RequestError("pack takes files: name each FILE")
    files = files_of(request)
    refuse_read([*files, request.files_from], [])
    if request.verify and (request.output is not None or request.level is not None):
        raise RequestError("--verify writes nothing: leave --output and --level out")
    outputs = list(files) if request.verify else _outputs(request, files)
    worst = 0
    with Bar(total_of(files, request.progress), request.progress) as bar:
        for file, output in zip(files, outputs):
            try:
                line = _done(request, file, output, bar)
            except CityseqError as fault:
                line, worst = None, max(worst, fault.status)
                bar.clear()
                say(shown(str(fault)))
            if line is not None and not request.quiet:
                bar.clear()
                put(f"{shown(output)}: {line}")
    return worst


def _outputs(request: Pack, files: Sequence[str]) -> list[str]:
    """Returns the archive of each file.

    Raises:
        RequestError: One cannot be written, or two files have the same.
    """
    if request.output is None:
        outputs = list(map(packed_name, files))
        if "-" in files:
            raise RequestError("standard input has no name: name the archive by --output")
        if len({os.path.realpath(output) for output in outputs}) < len(outputs):
            raise RequestError("two files have the same archive: pack them in two runs")
        for file, output in zip(files, outputs):
            if output != file and os.path.lexists(output):
                raise RequestError(f"{output} is there: remove it, or name it by --output")
        return outputs
    if len(files) > 1:
        raise RequestError("--output is the archive of one FILE: without it each has its own")
    if packing_by_name(request.output) is not Packing.GZIP:
        raise RequestError("the name of an archive ends in .gz")
    return [request.output]


def _done(request: Pack, file: str, output: str, bar: Bar) -> str:
    """Packs or verifies a file, and returns what to print."""
    if request.verify:
        return _told("whole", verify_file(file, partial(bar.add, file)))
    if file == output and _is_of_blocks(file):
        return "is packed in blocks"
    jobs, level = number_of_jobs(request.jobs), request.level or LEVEL
    return _told("packed", pack_file(file, output, jobs, level, partial(bar.add, file)))


def _told(what: str, sizes: ArchiveSize) -> str:
    blocks = "" if sizes.blocks is None else f" blocks={sizes.blocks}"
    return f"{what} text={sizes.text} bytes={sizes.file}{blocks}"


def _is_of_blocks(path: str) -> bool:
    """Whether a file can be read, and has only blocks of BGZF up to the mark of the end. Each block
    gives its own length."""
    with suppress(OSError), open(path, "rb") as file:
        at, end = 0, os.fstat(file.fileno()).st_size - len(LAST)
        while at < end:
            head = os.pread(file.fileno(), HEAD, at)
            if not is_block(head):
                return False
            at += block_length(head)
        return at == end and os.pread(file.fileno(), len(LAST), at) == LAST
    return False


def run_split(request: SplitFile) -> int:
    """Makes a stream of a whole file, and returns the status."""
    from ..convert.splitting import split  # no other command needs it

    if len(request.files) > 1:
        raise RequestError("split takes one FILE: name the output by --output")
    file = request.files[0] if request.files else "-"
    refuse_read([file], [request.output])
    made = split(file, request.output, line_limit=request.line_limit)
    _print_counts(
        request, f"features={made.features} objects={made.objects} vertices={made.vertices}"
    )
    return 0


def run_collect(request: CollectStreams) -> int:
    """Makes one whole file of streams, and returns the status."""
    from ..convert.collecting import collect  # no other command needs it

    files = files_of(request)
    refuse_read([*files, request.files_from], [request.output])
    made = collect(list(files), request.output, line_limit=request.line_limit, depth=request.depth)
    _print_counts(
        request, f"features={made.features} objects={made.objects} vertices={made.vertices}"
    )
    if not request.quiet:
        for note in made.notes:
            say(shown(note))
    return 0


def _print_counts(request: SplitFile | CollectStreams, counts: str) -> None:
    """Prints the counts, unless the output is there."""
    if request.output != "-" and not request.quiet:
        put(counts)


def run_report(request: WriteReport) -> int:
    """Writes a report about files, and returns the status."""
    from ..delivery import How, checked, report  # no other command needs it

    output = None if request.output == "-" else request.output
    if output is None and not request.json:
        raise RequestError("a report is written to a file: name it by --output")
    if not request.files and request.files_from is None:
        raise RequestError("a report is about files: name each FILE")
    named = files_of(request)
    refuse_read([*named, request.files_from], [output])
    files, _ = checked(named, output)
    work = work_of("check", replace(request.judging, keep_going=True))
    keep_room()
    with Bar(total_of(files, request.progress), request.progress) as bar:

        def take(result: Result) -> None:
            bar.clear()
            _print_result(result, request)

        words = _words(request)
        whole = request.whole or None
        how = How(request.jobs, request.part_size, request.title, words, bar.add, take, whole)
        delivery = report(files, output, work, how)
    if request.json:
        put(json.dumps(delivery.json_object()))
    return delivery.status


def _words(request: WriteReport) -> str:
    """Returns a command line that has the same effect."""
    words = [program_name(), "report"]
    for option in options_of(WriteReport):
        value = getattr(request, option.field)
        if value != option.usual:
            words += [f"--{option.name}", *([] if option.value is None else [str(value)])]
    return shlex.join([*words, *request.files])


def _print_result(result: Result, request: WriteReport) -> None:
    """Prints the result of a file."""
    name = shown(result.file)
    if result.fault is not None:
        say(f"{shown(result.fault_file or result.file)}: {shown(result.fault)}")
    elif request.json or request.quiet:
        return
    elif result.end is not None:
        say(f"{name}: {result.end}")
        for hint in result.hints:
            say(f"{name}: {hint}")
    else:
        numbers = counts(result.lines, result.features, result.refused)
        put(f"{name}: {result.status.verdict} {numbers}")
