"""Reads lines of a stream by their places: from a file, a packed file, or a web server. A cut of a
packed stream unpacks only the blocks that have the selected lines (BGZF, in the SAM
specification)."""
from __future__ import annotations

import hashlib
import io
import json
import os
import sqlite3
import stat
from array import array
from collections.abc import Callable, Iterable, Iterator
from contextlib import contextmanager
from dataclasses import dataclass
from decimal import Decimal, InvalidOperation
from itertools import pairwise, repeat
from typing import TYPE_CHECKING, NamedTuple, Union

from ..engine import LINE_LIMITS, READ_FAULTS, OutOfDate, ReadFault, read_fault
from ..engine.world import World
from ..sources import CHANGED, Reader, is_url, open_raw, opened, remote_of, state_of
from ..sources.packed import Packing, Unpacker
from ..sources.regular import RegularFile
from .database import INDEX_CHANGED

if TYPE_CHECKING:
    from ..foreign import Readable

# Finds the blocks that have the text of a stream between two places: where each begins in the text
# and in the file, and the end of the last one.
Find = Callable[["IndexedStream", int, int], list[tuple[int, int]]]

TABLE = (
    "CREATE TABLE IF NOT EXISTS blocks (stream INTEGER NOT NULL, begin INTEGER NOT NULL,"
    " place INTEGER NOT NULL, PRIMARY KEY (stream, begin)) WITHOUT ROWID"
)
BETWEEN = (
    "SELECT begin, place FROM blocks WHERE stream = ?1"
    " AND begin >= (SELECT max(begin) FROM blocks WHERE stream = ?1 AND begin <= ?2)"
    " AND begin <= ifnull((SELECT min(begin) FROM blocks WHERE stream = ?1 AND begin >= ?3), ?3)"
    " ORDER BY begin"
)
NEAR = 1 << 16  # bytes: lines that are nearer than this are read together
FAR = 1 << 19  # the same by requests, each of which takes longer than to read these
AHEAD = 1 << 16  # bytes that are read with the header
MOST = 4 << 20  # bytes that are read together, unless one line has more
NO_RANGES = "a packed stream has no ranges: serve it unpacked, or pack and index it again"
SHORTER, OTHER_LINES = "the stream is shorter", "the stream has other lines"


class Blocks:
    """Where the blocks of an archive begin. Empty ones belong to the block before them.

    Attributes:
        are_all: Whether the archive has nothing but blocks.
    """

    def __init__(self) -> None:
        self._begins, self._places = array("q"), array("q")
        self.are_all = True

    def add(self, begin: int, place: int, is_block: bool) -> None:
        """Takes where the next member begins in the text and in the file, and whether it is a
        block. The last call has the ends of both."""
        self.are_all = self.are_all and is_block
        if self.are_all and (not self._begins or begin > self._begins[-1]):
            self._begins.append(begin)
            self._places.append(place)

    def write(self, base: sqlite3.Connection, stream: int) -> None:
        """Writes the blocks of a stream to its index."""
        base.execute(TABLE)
        rows = zip(repeat(stream), self._begins, self._places)
        base.executemany("INSERT INTO blocks VALUES (?,?,?)", rows)


class BlockPlace:
    """A packed stream that is read by its blocks, from a file or a web server. Each block has a
    checksum."""

    def __init__(self, stream: IndexedStream, packed: RangePlace | PackedPlace, find: Find) -> None:
        """Takes the stream, what reads its packed bytes, and what finds its blocks."""
        self._stream, self._packed, self._find = stream, packed, find
        self.near = packed.near

    def read(self, begin: int, end: int) -> bytes:
        """Returns the bytes from one place of the text to another, or as many as there are.

        Raises:
            OutOfDate: The index was changed.
            ReadFault: The file cannot be read, or is broken.
        """
        rows = self._find(self._stream, begin, end)
        is_told = all(type(number) is int and number >= 0 for row in rows for number in row)
        if not is_told or any(after <= before for before, after in pairwise(rows)):
            raise OutOfDate.because(INDEX_CHANGED, self._stream.path)
        if len(rows) < 2:
            return b""
        (first, place), (last, after) = rows[0], rows[-1]
        packed = self._packed.read(place, after)
        unpacker = Unpacker(io.BytesIO(packed), Packing.GZIP)
        text = bytearray()
        try:
            while len(text) < last - first:
                piece = unpacker.read(last - first - len(text))
                if not piece:
                    raise OutOfDate.because(INDEX_CHANGED, self._stream.path)
                text += piece
            unpacker.finish_member()
        except READ_FAULTS as fault:
            raise read_fault(fault, self._stream.path) from fault
        return bytes(text[begin - first : end - first])


class Row(NamedTuple):
    """Where the line of a feature is: the number of its stream, its line, its first byte in the
    stream, and its bytes without LF."""

    stream: int
    line: int
    begin: int
    length: int


class AllLines(Iterator[Row]):
    """No rows: all lines of a stream are read, one after another."""

    def __next__(self) -> Row:
        raise StopIteration


@dataclass(frozen=True)
class IndexedStream:
    """A stream as an index has it. docs/geopackage.md describes the columns.

    Attributes:
        number: The `fid` of its row.
        path: Where the stream is. A stored path may be relative to the folder of the index.
        told_path: The path as it was stored.
        has_blocks: Whether the index knows the blocks of a packed stream.
    """

    number: int
    path: str
    told_path: str
    packing: str | None
    size: int
    mtime_ns: int
    content: str
    header_length: int
    header_sha256: str
    scale: str
    translate: str
    reference_system: str | None
    lines: int
    features: int
    refused: int
    first_fid: int
    xmin: float | None
    xmax: float | None
    ymin: float | None
    ymax: float | None
    zmin: float | None
    zmax: float | None
    has_blocks: bool = False

    @property
    def is_slow(self) -> bool:
        """Whether it has to be unpacked from its beginning."""
        return self.packing is not None and not self.has_blocks

    def compare(self, size: int, mtime_ns: int) -> None:
        """Raises `OutOfDate` if the file has another size or time."""
        if size != self.size:
            told = "longer" if size > self.size else "shorter"
        elif mtime_ns != self.mtime_ns:
            told = "newer" if mtime_ns > self.mtime_ns else "older"
            told = "another one" if is_url(self.path) else told
        else:
            return
        raise OutOfDate.because(f"the stream is {told}", self.path)

    def world(self) -> World:
        """Returns the map from its vertices to world coordinates. Raises `decimal.InvalidOperation`
        for a number with a greater exponent than Python takes."""
        told = (json.loads(text) for text in (self.scale, self.translate))
        scale, translate = (list(map(Decimal, texts)) for texts in told)
        return World(scale, translate)

    @property
    def is_flat(self) -> bool:
        """Whether a query may have a box: x and y of the transform are fixed numbers."""
        try:
            return self.world().is_flat
        except InvalidOperation:
            return False


def _confirm(stream: IndexedStream, file: Readable) -> None:
    """Checks after the last read that a file has not changed since the first one.

    Raises:
        ReadFault: It has.
    """
    if state_of(file) != (stream.size, stream.mtime_ns):
        raise ReadFault(f"read fault: {CHANGED}", None, stream.path)


class RangePlace:
    """A stream that is read by its places, in few requests.

    Attributes:
        near: Lines with fewer bytes between them are read together.
    """

    near = FAR

    def __init__(self, size: int) -> None:
        """Takes the size of the stream."""
        self._size = size
        self._head = b""  # the beginning of the stream

    def read(self, begin: int, end: int) -> bytes:
        """Returns the bytes from one place to another, or as many as there are.

        Raises:
            OutOfDate: The stream is not the one of the index.
            ReadFault: It cannot be read.
        """
        end = min(end, self._size)
        if begin >= end:
            return b""
        if end <= len(self._head):
            return self._head[begin:end]
        if begin > 0:
            return self.asked(begin, end)
        self._head = self.asked(0, min(max(end, AHEAD), self._size))
        return self._head[:end]

    def asked(self, begin: int, end: int) -> bytes:
        """Returns the bytes of a range."""
        raise NotImplementedError


class FilePlace(RangePlace):
    """The bytes of a plain file, or of one by its URL."""

    def __init__(self, stream: IndexedStream, reader: Reader) -> None:
        super().__init__(stream.size)
        self._stream, self._file = stream, reader.file
        remote = remote_of(reader.file)
        if remote is None:
            self.near = NEAR
        stream.compare(*(state_of(reader.file) if remote is None else remote.state))
        self._placed = RegularFile(reader.file.fileno() if remote is None else remote)

    def asked(self, begin: int, end: int) -> bytes:
        """Returns the bytes of a range. Raises `ReadFault` if they cannot be read."""
        room = bytearray(end - begin)
        count, fault = self._placed.fill(memoryview(room), begin)
        if fault is not None:
            raise read_fault(fault, self._stream.path)
        return bytes(room[:count])

    def confirm(self) -> None:
        """Raises `ReadFault` if the file has changed since it was opened."""
        _confirm(self._stream, self._file)


class PackedPlace:
    """A packed file without blocks. It is read from its beginning, so places may only rise, or fall
    by one."""

    near = NEAR

    def __init__(self, stream: IndexedStream, reader: Reader) -> None:
        self._stream, self._reader = stream, reader
        self._held, self._begin, self._end = bytearray(), 0, 0
        stream.compare(*state_of(reader.file))

    def read(self, begin: int, end: int) -> bytes:
        """Returns the bytes from one place of the unpacked text to another, or as many as there
        are."""
        self._end = max(self._end, end)
        while self._begin + len(self._held) < end:
            if self._begin + len(self._held) <= begin:
                self._begin += len(self._held)
                self._held.clear()
            piece = self._reader.read(MOST)
            if self._reader.fault is not None:
                raise self._reader.fault
            if not piece:
                break
            self._held += piece
        if begin > self._begin:
            del self._held[: begin - self._begin]
            self._begin = begin
        return bytes(self._held[: end - begin])

    def confirm(self) -> None:
        """Reads on to the next checksum of the archive, which shows whether the text is right. The
        header has a checksum in the index.

        Raises:
            ReadFault: It is not, or the file has changed since it was opened.
        """
        file = self._reader.file
        if isinstance(file, Unpacker) and self._end > self._stream.header_length:
            try:
                file.finish_member()
            except READ_FAULTS as fault:
                raise read_fault(fault, self._stream.path) from fault
        _confirm(self._stream, file)


Place = Union[BlockPlace, RangePlace, PackedPlace]


@contextmanager
def placed(stream: IndexedStream, base: str | None, find: Find) -> Iterator[Place]:
    """Gives an object that reads a stream by places: from a file, or a web server below a URL.
    `find` finds the blocks of a packed stream.

    Raises:
        OutOfDate: The stream is not as the index has it.
        ReadFault: It cannot be opened or read.
    """
    if base is not None:
        from .web import WebPlace  # few runs need it

        with WebPlace(stream, base) as place:
            yield BlockPlace(stream, place, find) if stream.has_blocks else place
        return
    check_file(stream)  # a pipe would wait for a writer when it is opened
    with opened(stream.path) as reader:
        kind: type[PackedPlace] | type[FilePlace] = PackedPlace if stream.is_slow else FilePlace
        try:
            of_file = kind(stream, reader)
        except READ_FAULTS as fault:
            raise read_fault(fault, stream.path) from fault
        yield BlockPlace(stream, of_file, find) if stream.has_blocks else of_file
        of_file.confirm()


def header_of(stream: IndexedStream, place: Place) -> bytes:
    """Reads the header of a stream. Raises `OutOfDate` if it is another one."""
    header = place.read(0, stream.header_length)
    if hashlib.sha256(header).hexdigest() != stream.header_sha256:
        raise OutOfDate.because("the stream has another header", stream.path)
    return header


def check_file(stream: IndexedStream) -> None:
    """Checks that the file of a stream is a regular file of the size and time that the index has.

    Raises:
        OutOfDate: It has another size or time.
        ReadFault: It is missing, or no regular file.
    """
    try:
        if is_url(stream.path):
            with open_raw(stream.path) as file:
                remote = remote_of(file)
                assert remote is not None
                stream.compare(*remote.state)
            return
        state = os.stat(stream.path)
    except OSError as fault:
        raise read_fault(fault, stream.path) from fault
    if not stat.S_ISREG(state.st_mode):
        raise ReadFault("read fault: it is no regular file", None, stream.path)
    stream.compare(state.st_size, state.st_mtime_ns)


def _groups(stream: IndexedStream, rows: Iterable[Row], near: int) -> Iterator[list[Row]]:
    """Yields the rows of lines that are read together: between two are at most `near` bytes. Each
    line begins after the one before."""
    group: list[Row] = []
    line, end = 1, 0  # the number and the end of the line before
    for row in rows:
        is_row = all(type(each) is int and each >= 0 for each in row)
        is_later = is_row and row.begin > end and line < row.line <= stream.lines
        if not is_later or row.length > LINE_LIMITS[1]:
            raise OutOfDate.because(INDEX_CHANGED, stream.path)
        line, end = row.line, row.begin + row.length
        if group and (
            row.begin - (group[-1].begin + group[-1].length) > near
            or row.begin + row.length - group[0].begin > MOST
        ):
            yield group
            group = []
        group.append(row)
    if group:
        yield group


def _line(stream: IndexedStream, text: bytes, begin: int, length: int) -> bytes:
    """Returns a line with its LF, if it has one. It must begin after an LF of the text, and must be
    one line that is not blank."""
    end = begin + length
    if len(text) < end:
        raise OutOfDate.because(SHORTER, stream.path)
    line = text[begin : end + 1]
    is_one = line.find(b"\n") == (length if len(text) > end else -1)
    if text[begin - 1 : begin] != b"\n" or not is_one or not line or line.isspace():
        raise OutOfDate.because(OTHER_LINES, stream.path)
    return line


def _all_lines(stream: IndexedStream, place: Place) -> Iterator[tuple[bytes, list[int]]]:
    """Yields the lines after the header of a stream, some together, each with the number 0."""
    begin, rest = stream.header_length, [b""]  # of a line that has not ended
    text = place.read(begin, begin + MOST)
    while text:
        begin += len(text)
        end = text.rfind(b"\n") + 1
        if end:
            yield b"".join([*rest, text[:end]]), [0] * text.count(b"\n")
            rest = []
        rest.append(text[end:])
        text = place.read(begin, begin + MOST)
    last = b"".join(rest)
    if last:
        yield last, [0]
    if stream.packing is None and begin != stream.size:
        raise OutOfDate.because(SHORTER, stream.path)


def lines_of(
    stream: IndexedStream, place: Place, rows: Iterable[Row]
) -> Iterator[tuple[bytes, list[int]]]:
    """Yields lines of a stream, some together, and their numbers. Lines that are near each other
    are read together with what is between them. `AllLines` as rows are all lines, and
    then each number is 0.

    Raises:
        OutOfDate: The stream does not have the lines of the index.
        ReadFault: A read failed.
    """
    if isinstance(rows, AllLines):
        yield from _all_lines(stream, place)
        return
    for group in _groups(stream, rows, place.near):
        first, last = group[0].begin - 1, group[-1].begin + group[-1].length + 1
        text = place.read(first, last)
        lines = [_line(stream, text, row.begin - first, row.length) for row in group]
        if any(not line.endswith(b"\n") for line in lines[:-1]):
            raise OutOfDate.because(OTHER_LINES, stream.path)
        yield b"".join(lines), [row.line for row in group]
