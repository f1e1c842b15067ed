"""Regular files, and files by their URLs: threads read them at any place, chunk by chunk. Here are
also their hashes and states."""
from __future__ import annotations

import io
import os
import stat
import time
from array import array
from collections.abc import Callable, Iterable, Iterator
from contextlib import suppress
from dataclasses import dataclass
from typing import TYPE_CHECKING, NamedTuple
from zlib import crc32

from ..engine import Room, Text, library
from ..engine.judge import Work
from . import PIECE, LocalFile, State, open_raw, remote_of, state_of
from .chunks import TAIL, Chunk, whole_lines

if TYPE_CHECKING:
    from ..foreign import Readable
    from . import Watch
    from .remote import RemoteFile

LOOK = 1 << 14  # bytes of the first read for the end of a line
_room = Room()  # for the parts of a thread, one after another


class RegularFile:
    """A regular file, or one by its URL, that is read at any place."""

    def __init__(self, file: int | RemoteFile) -> None:
        """Takes a descriptor, or the file of a URL."""
        self._file: Watch = LocalFile(file) if isinstance(file, int) else file
        self.size = self._file.size

    @property
    def state(self) -> State:
        """The size, and the time of change in nanoseconds, or what stands for it."""
        return self._file.state_now()

    def look(self, begin: int, end: int) -> bytes:
        """Returns the bytes between two places, or those that one read gives."""
        return self._file.read(begin, end)

    def expect(self, end: int) -> None:
        """Notes that this thread will read up to a place."""
        self._file.expect(end)

    def line_end(self, begin: int, last: int) -> int | None:
        """Returns the place after the first LF between two places. None if there is none."""
        size = LOOK
        while begin < last:
            piece = self.look(begin, min(begin + size, last))
            if not piece:
                break
            found = library().part_end(piece, 1)
            if found:
                return begin + found
            begin += len(piece)
            size = min(4 * size, PIECE)
        return None

    def fill(self, room: memoryview, begin: int) -> tuple[int, OSError | None]:
        """Fills a room from a place on. Returns how many bytes it read, and why a read after them
        failed, if one did."""
        count = 0
        try:
            while count < len(room):
                read = self._file.fill(room[count:], begin + count)
                if read == 0:
                    break
                count += read
        except OSError as error:
            return count, error
        return count, None

    def read(self, begin: int, end: int) -> tuple[memoryview, OSError | None]:
        """Returns the bytes between two places, or those that there are, and why a read after them
        failed, if one did. They change when this thread reads again."""
        room = _room.of(end - begin)
        count, fault = self.fill(room, begin)
        return room[:count], fault

    def read_own(self, begin: int, end: int) -> tuple[bytes, OSError | None]:
        """Does the same as `read`, but the bytes are an object of their own, and do not change."""
        pieces: list[bytes] = []
        try:
            while begin < end:
                piece = self.look(begin, end)
                if not piece:
                    break
                pieces.append(piece)
                begin += len(piece)
        except OSError as error:
            return b"".join(pieces), error
        return b"".join(pieces), None


def regular_file(file: Readable, kind: type[RegularFile] | None = None) -> RegularFile | None:
    """Returns the regular file of a file object, as one of this kind. None if it has none."""
    kind = kind or RegularFile
    remote = remote_of(file)
    if remote is not None:
        return kind(remote) if isinstance(file, io.BufferedReader) else None
    try:
        if (
            isinstance(file, io.BufferedReader)
            and hasattr(os, "preadv")
            and stat.S_ISREG(os.fstat(file.fileno()).st_mode)
        ):
            return kind(file.fileno())
    except OSError:
        pass
    return None


@dataclass(frozen=True)
class FileChunk(Chunk):
    """The lines of a regular file that begin between two places. Any thread may read them.

    Attributes:
        end: The place before which each line begins.
        source: The file.
        line_limit: The most bytes in a line.
        keep_going: Whether a line that is too long is followed by others.
        has_tails: Whether a line that is too long is read up to its end, to keep some bytes there.
    """

    end: int = 0
    source: RegularFile | None = None
    line_limit: int = 0
    keep_going: bool = False
    has_tails: bool = False

    @property
    def length(self) -> int:
        """How many bytes there are between the places."""
        return self.end - self.begin

    def parts(self, size: int, is_own: bool = False) -> Iterator[tuple[int, Text]]:
        """Yields parts of about `size` bytes. Raises `OSError` after the last whole line if a read
        fails."""
        assert self.source is not None
        read = self.source.read_own if is_own else self.source.read
        begin, end, is_cut, fault = self._bounds(self.source)
        step, is_first, is_over = size, self.is_first, begin >= end
        self.source.expect(end)
        while not is_over:
            wanted = end if end - begin <= step + step // 4 else begin + step
            part, failed = read(begin, wanted)
            is_short = begin + len(part) < wanted
            is_over = is_short or wanted == end
            is_whole = is_over and failed is None and fault is None
            length = len(part) if is_whole else whole_lines(part)
            if not length and not is_over:
                step *= 4  # for a longer line
                continue
            if length or is_first:
                is_end = is_cut and is_whole
                yield begin, bytearray(part) + self._tail(end) + b"\n" if is_end else part[:length]
            fault = failed or fault
            begin, step, is_first = begin + length, size, False
        if fault is not None:
            raise fault

    def _bounds(self, source: RegularFile) -> tuple[int, int, bool, OSError | None]:
        """Returns where the first line begins and the last one ends, whether the last one is cut
        short because it is too long, and why the end could not be read, if so."""
        begin, end, limit = self.begin, self.end, self.line_limit
        if not self.is_first:
            begin = source.line_end(begin - 1, end) or end
        if begin >= end or end >= source.size:
            return begin, end, False, None
        last = min(end + limit + 1, source.size)
        try:
            found = source.line_end(end - 1, last)
        except OSError as fault:
            return begin, end, False, fault
        if found is not None:
            return begin, found, False, None
        return begin, last, self.keep_going and last < source.size, None

    def _tail(self, cut: int) -> bytes:
        """Returns the end of a line that is too long, after the byte where it was cut."""
        if not self.has_tails or self.source is None:
            return b""
        found = self.source.line_end(cut, self.source.size)
        end = self.source.size if found is None else found - 1
        return self.source.look(max(cut, end - TAIL), end)


def file_chunks(
    file: str, header: bytes, source: RegularFile, size: int, work: Work
) -> Iterator[FileChunk]:
    """Yields chunks of `size` bytes of a regular file, from the end of its header on."""
    begin = len(header)
    for end in _ends(source, begin, size, work.line_limit):
        yield FileChunk(
            file,
            header,
            begin,
            is_first=begin == len(header),
            is_last=end == source.size,
            end=end,
            source=source,
            line_limit=work.line_limit,
            keep_going=work.keep_going,
            has_tails=work.kind == "records",
        )
        begin = end


def _ends(source: RegularFile, begin: int, size: int, line_limit: int) -> Iterator[int]:
    """Yields where chunks end. Short chunks in which no line begins are joined to the one before,
    because a chunk takes time of its own. A long chunk without a line is rare."""
    while begin < source.size:
        end = begin + size
        if size < LOOK and end < source.size:
            last = min(end + line_limit, source.size)
            try:
                after = source.line_end(end - 1, last)
            except OSError:  # who reads the lines finds it too
                after = end
            found = after or last
            joined = found if found == source.size else end + (found - end) // size * size
            if after is None and end < joined < source.size:  # the line is too long
                yield end
            end = joined
        begin = min(end, source.size)
        yield begin


# The hash by which an index or a folder of parts knows a file again is the BLAKE2b of the CRC-32s
# of its blocks, so it takes a fifth of the time of a BLAKE2b of the file. It tells a copy from a
# file with other content, unless somebody forged that.
BLOCK = 1 << 16  # bytes that have a CRC-32: most lie in one part
SIZE = 16  # bytes of a hash
UNKNOWN = 1 << 32  # no CRC-32
HASHED = 1 << 17  # bytes that are hashed at once, while the cache of a processor has them


def _never() -> bool:
    """Returns that nobody stops a call."""
    return False


def _hash_of(sums: Iterable[int]) -> str:
    """Returns the hash of the CRC-32s of blocks."""
    from hashlib import blake2b  # it takes long to load

    whole = b"".join([each.to_bytes(4, "little") for each in sums])
    return blake2b(whole, digest_size=SIZE).hexdigest()


class BlockHash:
    """The hash of bytes that come piece by piece.

    Attributes:
        count: How many bytes have come.
    """

    def __init__(self) -> None:
        self.count, self._sum = 0, 0
        self._sums = array("L")

    def add(self, piece: Text) -> None:
        """Takes the next bytes."""
        rest = memoryview(piece)
        while rest:
            some = rest[: BLOCK - self.count % BLOCK]
            self._sum = crc32(some, self._sum)
            self.count += len(some)
            if self.count % BLOCK == 0:
                self._sums.append(self._sum)
                self._sum = 0
            rest = rest[len(some) :]

    def text(self) -> str:
        """Returns the hash of the bytes that came."""
        return _hash_of([*self._sums, self._sum] if self.count % BLOCK else self._sums)


class Digest(NamedTuple):
    """The hash of a file, and the state of the file before and after it was read."""

    content: str
    before: State
    after: State


def digest_of(path: str, is_stopped: Callable[[], bool] = _never) -> Digest | None:
    """Returns the hash of a file, or None as soon as `is_stopped` returns true. Raises `OSError` if
    the file cannot be read."""
    found = BlockHash()
    with open_raw(path) as file:
        before = state_of(file)
        while not is_stopped():
            block = file.read(BLOCK)
            if not block:
                return Digest(found.text(), before, state_of(file))
            found.add(block)
    return None


class HashedFile(RegularFile):
    """A regular file that is judged. The threads that read its parts make the CRC-32s of the blocks
    in them, while they have the bytes at hand."""

    def __init__(self, file: int | RemoteFile) -> None:
        super().__init__(file)
        self._sums = array("q", [UNKNOWN]) * -(-self.size // BLOCK)

    def read(self, begin: int, end: int) -> tuple[memoryview, OSError | None]:
        """Does the same as for any regular file, and notes the blocks between the places."""
        part, fault = super().read(begin, end)
        first, after = -(-begin // BLOCK), min((begin + len(part)) // BLOCK, len(self._sums))
        for number in range(first, after):
            at = number * BLOCK - begin
            self._sums[number] = crc32(part[at : at + BLOCK])
        return part, fault

    def content(self) -> str:
        """Returns the hash of the file, as `digest_of` makes it. Raises `OSError` if the file
        cannot be read."""
        for number, known in enumerate(self._sums):
            if known == UNKNOWN:
                begin = number * BLOCK
                block, fault = self.read_own(begin, min(begin + BLOCK, self.size))
                if fault is not None:
                    raise fault
                self._sums[number] = crc32(block)
        return _hash_of(self._sums)


def sha256_of(path: str, is_stopped: Callable[[], bool] = _never) -> str | None:
    """Returns the SHA-256 of a file, as sha256sum prints it. Returns None if the file cannot be
    read, or as soon as `is_stopped` returns true, or for a pipe, whose bytes come only once."""
    from hashlib import sha256  # it takes long to load

    if not os.path.isfile(path):
        return None
    digest, room = sha256(), memoryview(bytearray(HASHED))
    try:
        with open(path, "rb", buffering=0) as file:
            for count in iter(lambda: file.readinto(room), 0):
                if is_stopped():
                    return None
                digest.update(room[:count])
    except OSError:
        return None
    return digest.hexdigest()


def state_now(path: str) -> dict[str, int | None]:
    """Returns the size of a regular file, and its time of change in nanoseconds since 1970. They
    are None for anything else: those of a pipe or a folder do not show what is in it."""
    with suppress(OSError):
        told = os.stat(path)
        if stat.S_ISREG(told.st_mode):
            return {"size": told.st_size, "mtime_ns": told.st_mtime_ns}
    return {"size": None, "mtime_ns": None}


def time_now() -> str:
    """Returns the time, in UTC."""
    return time.strftime("%Y-%m-%dT%H:%M:%SZ", time.gmtime())
