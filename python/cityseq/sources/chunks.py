"""Chunks of a stream: some whole lines, which are judged after its header. They are cut from pieces
in bounded memory, if they are no ranges of a regular file."""
from __future__ import annotations

from collections.abc import Generator, Iterator
from dataclasses import dataclass
from typing import TYPE_CHECKING

from ..engine import CityseqError, MemoryFault, ReadFault, Text, library
from ..engine.judge import SMALL, Work, part_size
from . import PIECE, Reader, Source, State, Watch, is_path, name_of, opened, watch_of
from .packed import Note, Unpacker

if TYPE_CHECKING:
    from .regular import RegularFile

TAIL = 1 << 22  # bytes at the end of a line that is too long: a report finds its vertices there
HEAD = 65_536  # bytes at the beginning of a stream that are kept, to say what it may be
PART = 4 << 20  # bytes of a chunk, unless one line is longer


def whole_lines(text: Text) -> int:
    """Returns how many bytes the whole lines at the beginning of a text have."""
    return library().part_end(text, len(text))


@dataclass(frozen=True)
class Chunk:
    """Whole lines of a stream, in memory.

    Attributes:
        file: The name of the stream.
        header: The first line. It has no LF if it is too long, or if no line follows it.
        begin: Where the lines begin in the stream, in bytes.
        text: The lines.
        is_first: Whether these are the first lines after the header.
        is_last: Whether no lines follow.
        is_pause: Whether the source has no more bytes for now, so that nothing may wait for them.
        fault: Why the bytes after these lines could not be read, if so.
    """

    file: str
    header: bytes = b""
    begin: int = 0
    text: Text = b""
    is_first: bool = False
    is_last: bool = False
    is_pause: bool = False
    fault: CityseqError | None = None

    @property
    def length(self) -> int:
        """How many bytes the lines have."""
        return len(self.text)

    def parts(self, size: int, is_own: bool = False) -> Iterator[tuple[int, Text]]:
        """Yields parts of the lines, and where each begins in the stream. There is one at least,
        unless nothing must be judged.

        Args:
            size: The usual bytes of a part.
            is_own: Whether each part is an object of its own, which does not change.
        """
        if self.is_first and not self.text:
            yield self.begin, b""
        begin, length = 0, len(self.text)
        while begin < length:
            end = length
            if length - begin > size + size // 4:
                end = library().part_end(self.text, size, begin) or length
            part = self.text if end - begin == length else memoryview(self.text)[begin:end]
            yield self.begin + begin, bytes(part) if is_own else part
            begin += len(part)


class Cutter:
    """Cuts a stream into chunks. A chunk has at most the given size, or it is one longer line. All
    lines that have come wait until they fill a chunk.

    Attributes:
        file: The name of the stream.
        header: The first line, when it has come.
        head: The first bytes of the stream.
        taken: How many bytes have come.
        is_open: Whether later bytes can count.
    """

    def __init__(self, file: str, work: Work, usual: int, size: int | None = None) -> None:
        """Takes the name of the stream, the usual size of a chunk, and the size that is given."""
        self.file, self.header, self.head, self.taken = file, b"", b"", 0
        self._work, self._sizes = work, (usual, size)
        self._has_header = False
        self._size = 1
        self._rest = bytearray()
        self._seen = 0  # bytes at the beginning of the rest that have no LF
        self._too_long = b""  # the beginning of a line that is too long and has not ended
        self._tail = bytearray()  # what has come of its end
        self._is_first = self.is_open = True

    def feed(self, piece: bytes) -> Iterator[Chunk]:
        """Takes the next piece, and yields the chunks that are full."""
        self.taken += len(piece)
        if not self.is_open:
            return
        self._rest += piece
        if not self._has_header:
            if not self._find_header():
                return
            if not self.is_open:
                yield self._chunk(b"", is_last=True)
        if self._too_long:
            yield from self._end_of_too_long()
        yield from self._full()

    def pause(self) -> Iterator[Chunk]:
        """Yields the lines that have come, in a chunk that lets nothing wait. It may be empty."""
        if not self._has_header or not self.is_open:
            return
        text = self._take(whole_lines(self._rest))
        self._seen = len(self._rest)
        yield self._chunk(text, is_pause=True)
        if len(self._rest) > self._work.line_limit:
            yield from self._begin_too_long()

    def end(self, fault: CityseqError | None = None) -> Iterator[Chunk]:
        """Yields the rest. If a read failed, that has only whole lines."""
        if not self.is_open:
            return
        self.is_open = False
        if not self._has_header:
            if fault is not None:
                yield Chunk(self.file, is_last=True, fault=fault)
                return
            self._has_header = True
            self.header, self.head = bytes(self._rest), bytes(self._rest[:HEAD])
            self._rest.clear()
        if self._too_long:
            self._drop(len(self._rest))
            self._rest = bytearray(self._too_long) + self._tail
        text = self._take(len(self._rest) if fault is None else whole_lines(self._rest))
        yield self._chunk(text, is_last=True, fault=fault)

    @property
    def is_changed(self) -> bool:
        """False: the bytes that have come do not change."""
        return False

    def _find_header(self) -> bool:
        """Finds the first line. Returns whether it has come, or is too long."""
        limit = self._work.line_limit
        end = self._rest.find(b"\n", self._seen, limit + 1) + 1
        if not end and len(self._rest) <= limit:
            self._seen = len(self._rest)
            return False
        self._has_header, self.header = True, bytes(self._rest[: end or limit + 1])
        self.head = self.header[:HEAD] + bytes(self._rest[end : end + HEAD] if end else b"")
        self._rest = self._rest[end:] if end else bytearray()
        self.is_open, self._seen = end > 0, 0
        usual, size = self._sizes
        self._size = part_size(self._work, usual, self.header, size)
        return True

    def _full(self) -> Iterator[Chunk]:
        """Yields chunks of the lines that have come, while they are enough."""
        while self.is_open and not self._too_long and len(self._rest) >= self._size:
            if self._seen:
                end = library().part_end(self._rest, 1, self._seen)
            else:
                end = library().part_end(self._rest, self._size)
            if end:
                yield self._chunk(self._take(end))
            elif len(self._rest) > self._work.line_limit:
                yield from self._begin_too_long()
            else:
                self._seen = len(self._rest)
                return

    def _begin_too_long(self) -> Iterator[Chunk]:
        """Keeps the beginning of a line that is too long: one byte more than the limit, which is
        enough to reject it. If the run does not go on after it, yields it."""
        beginning = self._rest[: self._work.line_limit + 1]
        del self._rest[: len(beginning)]
        self._tail.clear()
        self._drop(len(self._rest))
        self._seen = 0
        if self._work.keep_going:
            self._too_long = bytes(beginning)
        else:
            self.is_open = False
            yield self._chunk(beginning, is_last=True)

    def _drop(self, count: int) -> None:
        """Drops the next bytes of a line that is too long. Keeps its end if records are asked for:
        a report finds the vertices there."""
        if self._work.kind == "records":
            self._tail += self._rest[:count]
            del self._tail[:-TAIL]
        del self._rest[:count]

    def _end_of_too_long(self) -> Iterator[Chunk]:
        """Searches for the end of a line that is too long, and yields the line if it is there."""
        end = self._rest.find(b"\n")
        self._drop(end if end >= 0 else len(self._rest))
        if end < 0:
            return
        text, self._too_long = bytearray(self._too_long) + self._tail + b"\n", b""
        del self._rest[:1]
        yield self._chunk(text)

    def _take(self, end: int) -> bytearray:
        """Returns the bytes before `end`, and keeps the others."""
        text, self._rest = self._rest, self._rest[end:]
        del text[end:]
        self._seen = 0
        return text

    def _chunk(
        self,
        text: bytearray | bytes,
        is_last: bool = False,
        is_pause: bool = False,
        fault: CityseqError | None = None,
    ) -> Chunk:
        is_first, self._is_first = self._is_first, False
        begin = self.taken - len(self._rest) - len(text)
        return Chunk(self.file, self.header, begin, text, is_first, is_last, is_pause, fault)


def read_header(reader: Reader, line_limit: int) -> tuple[bytes, bytearray]:
    """Returns the first line with its LF, and the bytes that were read after it. If the line is too
    long, returns one byte more than the limit, and no LF."""
    buffer, end = bytearray(), -1
    while end < 0 and len(buffer) <= line_limit:
        begin = len(buffer)
        piece = reader.read(PIECE)
        if not piece:
            break
        buffer += piece
        end = buffer.find(b"\n", begin)
    if 0 <= end <= line_limit:
        return bytes(buffer[: end + 1]), buffer[end + 1 :]
    return bytes(buffer[: line_limit + 1]), bytearray()


class Chunks:
    """The chunks of a source, in order. One iteration reads it.

    Attributes:
        file: The name of the source.
        header: The first line, when it has been read.
        head: The first bytes.
        watch: Shows whether the file has changed. None if it is no regular file.
        unpacker: Unpacks the file. None if it is not packed.
        regular: The file, which threads may read at any place. None if they may not.
    """

    def __init__(
        self,
        source: Source,
        work: Work,
        size: int | None = None,
        kind: type[RegularFile] | None = None,
        note: Note | None = None,
    ) -> None:
        """Takes the size of chunks, the class of a regular file, and what gets the members of a
        packed one. None is the usual size."""
        self.file, self.header, self.head = name_of(source), b"", b""
        self.watch: Watch | None = None
        self.unpacker: Unpacker | None = None
        self.regular: RegularFile | None = None
        self._source, self._work, self._size, self._kind = source, work, size, kind
        self._note = note
        self._usual = SMALL if work.kind == "records" else PART

    @property
    def is_changed(self) -> bool:
        """Whether the file has changed since it was opened."""
        return self.watch is not None and self.watch.is_changed()

    @property
    def state(self) -> State | None:
        """The size and the time of change that the file had at the beginning."""
        return None if self.watch is None else self.watch.state

    def __iter__(self) -> Generator[Chunk, None, None]:
        try:
            with opened(self._source) as reader:
                self.watch = watch_of(reader.file)
                if isinstance(reader.file, Unpacker):
                    reader.file.note = self._note
                yield from self._of(reader)
        except ReadFault as fault:
            yield Chunk(self.file, is_last=True, fault=fault)
        except MemoryError:
            yield Chunk(
                self.file, is_last=True, fault=MemoryFault("out of memory", None, self.file)
            )

    def _of(self, reader: Reader) -> Iterator[Chunk]:
        work = self._work
        header, rest = read_header(reader, work.line_limit)
        self.unpacker = reader.file if isinstance(reader.file, Unpacker) else None
        self.header, self.head = header, header[:HEAD] + bytes(rest[:HEAD])
        file = self._regular(reader)
        has_more = file is not None and file.size > len(header) + len(rest)
        if file is not None and has_more and header.endswith(b"\n"):
            yield from self._of_file(file)
            return
        cutter = Cutter(self.file, work, self._usual, self._size)
        yield from cutter.feed(header + rest)
        while cutter.is_open:
            if reader.is_idle():
                yield from cutter.pause()
                if not cutter.is_open:  # a line that is too long: a read might wait for ever
                    break
            piece = reader.read(PIECE)
            if not piece:
                break
            yield from cutter.feed(piece)
        yield from cutter.end(reader.fault)

    def _regular(self, reader: Reader) -> RegularFile | None:
        """Returns the file that threads may read at any place. None if they may not."""
        if self.unpacker is None and is_path(self._source):
            from .regular import regular_file  # packed files and pipes do without

            self.regular = regular_file(reader.file, self._kind)
        return self.regular

    def _of_file(self, file: RegularFile) -> Iterator[Chunk]:
        from .regular import file_chunks

        work = self._work
        size = part_size(work, self._usual, self.header, self._size)
        return file_chunks(self.file, self.header, file, size, work)
