"""Packed files: gzip and Zstandard, recognised by the first bytes or by the name. Zstandard needs
python3-zstandard.

This module writes gzip as blocks of up to 64 KB. Each block is a member that gives its own length
(BGZF, in the SAM specification). So several threads can pack at once, and gzip unpacks the file as
any other. bgzip and tabix can begin in the middle."""
from __future__ import annotations

import enum
import io
import os
import select
import struct
import zlib
from collections.abc import Callable
from functools import partial
from importlib import import_module
from typing import TYPE_CHECKING

from ..engine import Text as Text

if TYPE_CHECKING:
    from _typeshed import ReadableBuffer

    from ..foreign import Package, Readable, Writable

Note = Callable[[int, int, bool], None]

READ = 1 << 17  # bytes of an archive that are read at once
HEAD = 18  # bytes before the text of a block of BGZF
READ_ZSTD = 1 << 11  # fewer, since all that they unpack to is in memory
NOT_READY = "no bytes were ready"
# Files that give no bytes also if none are ready.
BUFFERED = io.BufferedReader, io.BufferedRWPair, io.BufferedRandom
BLOCK = 65_280  # bytes of a text in a block of BGZF
LEVEL = 4  # how well a text is packed, from 1 to 9
# The last block of an archive. It is empty, and shows that nothing was cut off.
LAST = bytes.fromhex("1f8b08040000000000ff0600424302001b0003000000000000000000")


class Packing(enum.Enum):
    """How a file is packed: its first bytes, and the end of its name."""

    GZIP = b"\x1f\x8b", ".gz"
    ZSTD = b"\x28\xb5\x2f\xfd", ".zst"

    @property
    def mark(self) -> bytes:
        """The bytes at the beginning of each archive."""
        return self.value[0]


def packing_by_name(name: str) -> Packing | None:
    """Returns how a file of this name is packed, or None."""
    return next((packing for packing in Packing if name.endswith(packing.value[1])), None)


def packing_by_mark(head: bytes) -> Packing | None:
    """Returns how a file with these first bytes is packed, or None."""
    return next((packing for packing in Packing if head.startswith(packing.mark)), None)


def packing_of(head: bytes, name: str) -> Packing | None:
    """Returns how a file with these first bytes and this name is packed, or None."""
    return packing_by_mark(head) or packing_by_name(name)


def may_be_packed(head: bytes) -> bool:
    """Whether these first bytes are too few to show whether a file is packed."""
    return any(packing.mark.startswith(head) and packing.mark != head for packing in Packing)


def _zstandard() -> Package:
    try:
        return import_module("zstandard")
    except ImportError:
        raise OSError("there is no zstandard for Python: install python3-zstandard") from None


def is_block(head: bytes) -> bool:
    """Whether a member of gzip with these first bytes is a block of BGZF, which gives its own
    length."""
    return head.startswith(Packing.GZIP.mark) and head[3:4] == b"\4" and head[12:16] == b"BC\2\0"


def block_length(head: bytes) -> int:
    """Returns the length that a block of BGZF gives itself."""
    return int.from_bytes(head[16:HEAD], "little") + 1


def _blocks(file: Readable) -> bool:
    """Whether a read of a file is known to wait for bytes."""
    try:
        return os.get_blocking(file.fileno())
    except (AttributeError, OSError, ValueError):  # no file of the system, or one that is hidden
        return False


def read_some(file: Readable, most: int) -> bytes:
    """Returns at most `most` bytes of a file object, and none at its end. A buffered file that does
    not block gives none too if none are ready: then this waits for the next one.

    Raises:
        OSError: The file does not block, no bytes are ready, and nothing shows when they are.
    """
    piece: bytes | None = (getattr(file, "read1", None) or file.read)(most)
    if piece is None:
        raise OSError(NOT_READY)
    if piece != b"" or not isinstance(file, BUFFERED) or _blocks(file):
        return piece
    room = bytearray(1)
    while (count := file.readinto1(room)) is None:
        _wait_for(file)
    return bytes(room[:count])


def _wait_for(file: Readable) -> None:
    """Waits until a file has bytes. Raises `OSError` if it has no descriptor."""
    poll = select.poll()
    try:
        poll.register(file.fileno(), select.POLLIN)
    except io.UnsupportedOperation:
        raise OSError(NOT_READY) from None
    poll.poll()


class Gzip:
    """Unpacks the members of a gzip archive."""

    faults: tuple[type[Exception], ...] = (zlib.error,)
    read, head = READ, HEAD

    @staticmethod
    def member() -> zlib._Decompress:
        """Returns an object that unpacks one more member."""
        return zlib.decompressobj(wbits=31)

    @staticmethod
    def more(member: zlib._Decompress, packed: bytes, most: int) -> bytes:
        """Returns at most `most` bytes of text from some more packed bytes."""
        return member.decompress(packed, most)


class _Zstd:
    """Unpacks the frames of a Zstandard archive."""

    read, head = READ_ZSTD, len(Packing.ZSTD.mark)

    def __init__(self) -> None:
        zstandard = _zstandard()
        self._context = zstandard.ZstdDecompressor()
        self.faults: tuple[type[Exception], ...] = (zstandard.ZstdError,)

    def member(self) -> Package:
        """Returns an object that unpacks one more frame."""
        return self._context.decompressobj()

    @staticmethod
    def more(member: Package, packed: bytes, _: int) -> bytes:
        """Returns the text of some more packed bytes."""
        text: bytes = member.decompress(packed) if packed else b""
        return text


class Unpacker(io.RawIOBase):
    """The text of a packed file. One member of the file follows another. An archive of BGZF is cut
    short if its last block is not empty.

    Attributes:
        packing: How the file is packed.
        taken: How many bytes of the file were read.
        note: Is called at the beginning of each member and at the end of the archive, with the
            bytes of the text and of the file before it, and whether a block of BGZF or the end is
            there.
        packed: The file.
    """

    def __init__(self, file: Readable, packing: Packing, head: bytes = b"") -> None:
        """Takes the file, how it is packed, and the bytes of it that were read before."""
        super().__init__()
        self._file, self._mark, self.packing = file, packing.mark, packing
        self._read = partial(read_some, file)
        self._kind: Gzip | _Zstd = Gzip() if packing is Packing.GZIP else _Zstd()
        self._member: zlib._Decompress | Package | None = None
        self._has_begun = False
        self._packed = head
        self._text = b""
        self._length = self._begun = 0  # bytes of text, all and before the last member
        self._is_block = False  # whether the last member is a block of BGZF
        self.taken = len(head)
        self.note: Note | None = None
        self.packed = file

    def fileno(self) -> int:
        """The descriptor of the packed file."""
        return self._file.fileno()

    def readable(self) -> bool:
        return True

    def close(self) -> None:
        """Closes the packed file."""
        self._file.close()
        super().close()

    def read(self, most: int = -1) -> bytes:
        """Returns at most `most` bytes of the text, and none at its end. Raises `OSError` or
        `EOFError` if the archive is broken."""
        most = most if most >= 0 else 1 << 20
        if not self._text:
            try:
                self._text = self._next(most)
            except self._kind.faults as fault:
                raise OSError(f"the archive is broken: {fault}") from fault
        text, self._text = self._text[:most], self._text[most:]
        return text

    def finish_member(self) -> None:
        """Reads to the end of the member that the last text came from. Its checksum is there.
        Raises `OSError` or `EOFError` if the archive is broken."""
        try:
            while self._member is not None:
                self._more(READ)
        except self._kind.faults as fault:
            raise OSError(f"the archive is broken: {fault}") from fault

    def _next(self, most: int) -> bytes:
        while self._member is not None or self._begin():
            text = self._more(most)
            if text:
                return text
        return b""

    def _more(self, most: int) -> bytes:
        """Returns some more text of a member, or none if more of the file must be read."""
        assert self._member is not None
        text = self._kind.more(self._member, self._packed, most)
        self._length += len(text)
        is_whole = self._member.eof
        self._packed = (
            self._member.unused_data if is_whole else getattr(self._member, "unconsumed_tail", b"")
        )
        if is_whole:
            self._member = None
        elif not text and not self._packed and not self._fill():
            raise EOFError("the archive is cut short")
        return text

    def _fill(self) -> bool:
        """Reads some more. Returns False at the end of the file."""
        piece = self._read(self._kind.read)
        self._packed += piece
        self.taken += len(piece)
        return bool(piece)

    def _begin(self) -> bool:
        """Begins the next member. Returns False if there is none: at the end, or if only zeros
        follow a member."""
        while True:
            if self._has_begun:
                self._packed = self._packed.lstrip(b"\0")
            if len(self._packed) >= self._kind.head or not self._fill():
                break
        if self._packed and not self._packed.startswith(self._mark):
            raise OSError("what is there is no archive")
        if not self._packed and self._is_block and self._length > self._begun:
            raise EOFError("the archive is cut short: its empty last block is missing")
        self._is_block, self._begun = is_block(self._packed), self._length
        if self.note is not None:
            self.note(
                self._length, self.taken - len(self._packed), self._is_block or not self._packed
            )
        if self._packed:
            self._member, self._has_begun = self._kind.member(), True
        return bool(self._packed)


def _block(text: Text, level: int) -> bytes:
    """Returns a block of BGZF: a member of gzip with its own length in an extra field."""
    for each in (level, 0):
        deflate = zlib.compressobj(each, zlib.DEFLATED, -15)
        packed = deflate.compress(text) + deflate.flush()
        if len(packed) + 26 <= 1 << 16:
            break
    head = struct.pack(
        "<4BI2BH2B2H", 0x1F, 0x8B, 8, 4, 0, 0, 0xFF, 6, 0x42, 0x43, 2, len(packed) + 25
    )
    return head + packed + struct.pack("<2I", zlib.crc32(text), len(text))


def require(packing: Packing) -> None:
    """Raises `OSError` if the package for this packing is missing."""
    if packing is Packing.ZSTD:
        _zstandard()


def pack(text: Text, packing: Packing, level: int = LEVEL) -> bytes:
    """Packs a text by itself. Packed texts that follow one another are unpacked together."""
    if packing is Packing.ZSTD:
        packed: bytes = _zstandard().ZstdCompressor(level, write_checksum=True).compress(text)
        return packed
    view = memoryview(text)
    begins = range(0, len(view), BLOCK)
    return b"".join(_block(view[begin : begin + BLOCK], level) for begin in begins)


class Packer(io.RawIOBase):
    """Packs what is written to it into a file. Short texts are gathered first. Packed bytes are
    written unchanged."""

    def __init__(self, file: Writable, packing: Packing, level: int = LEVEL) -> None:
        super().__init__()
        self._file, self._packing, self._level = file, packing, level
        self._gathered: list[bytes] = []
        self._size = 0

    def writable(self) -> bool:
        return True

    def write(self, text: ReadableBuffer) -> int:
        """Packs all of a text."""
        self._gathered.append(bytes(text))
        size = len(self._gathered[-1])
        self._size += size
        if self._size >= BLOCK:
            self._write_gathered()
        return size

    def write_packed(self, packed: Text) -> None:
        """Writes bytes that `pack` returned."""
        self._write_gathered()
        self._file.write(packed)

    def _write_gathered(self) -> None:
        text, self._gathered, self._size = b"".join(self._gathered), [], 0
        if text:
            self._file.write(pack(text, self._packing, self._level))

    def flush(self) -> None:
        """Writes nothing. Gathered texts are written when they fill a block, or at the end."""

    def finish(self) -> None:
        """Writes the rest, and the mark of the end."""
        self._write_gathered()
        if self._packing is Packing.GZIP:
            self._file.write(LAST)

    def close(self) -> None:
        """Closes the file."""
        if hasattr(self._file, "close"):
            self._file.close()
        super().close()
