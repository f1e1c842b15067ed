"""Sources of streams: paths of files that may be packed, `-`, bytes and file objects. No output
destroys a source: files are compared by device and inode, not by name."""
from __future__ import annotations

import contextlib
import io
import mmap
import os
import re
import select
import stat
import sys
from collections.abc import Callable, Generator, Iterable, Iterator
from typing import TYPE_CHECKING, Any, TypeGuard, Union

from ..engine import READ_FAULTS, CityseqError, InvalidStream, ReadFault, RequestError, read_fault
from .packed import (
    NOT_READY,
    Packing,
    Text,
    Unpacker,
    may_be_packed,
    packing_by_mark,
    packing_of,
    read_some,
)

if TYPE_CHECKING:
    from array import array

    from ..foreign import Readable, Writable
    from .remote import RemoteFile

    Buffer = Union[bytes, bytearray, memoryview, array[int], array[float], mmap.mmap]
    AnyPath = Union[str, os.PathLike[str], os.PathLike[bytes]]


Source = Union["AnyPath", "Buffer", "Readable"]

State = tuple[int, int]  # of a file
Watch = Union["LocalFile", "RemoteFile"]  # shows whether the file changed since it was made
Identity = tuple[int, int]
ENDINGS = (".city.json", ".city.json.gz")  # of the names of whole CityJSON files
CHANGED = "changed while it was read"
PIECE = 1 << 20  # the most bytes of one read
IDLE = 50  # milliseconds to wait for more bytes before those that are there are judged
UNFINISHED = ".part"  # the end of a file's name until it is whole
SCHEME = re.compile(r"[A-Za-z][A-Za-z0-9+.:-]*://")  # or several, as simplecache::s3://
LONGEST_PATH = 4_096  # bytes: a longer text is no path


def is_path(source: object) -> TypeGuard[AnyPath]:
    """Whether a source or a target is a path, except `-`. Bytes are not a path: they are the
    stream itself."""
    return isinstance(source, (str, os.PathLike)) and os.fsdecode(source) != "-"


def is_url(source: object) -> TypeGuard[str]:
    """Whether a source is a URL that `fsspec` reads, such as s3://bucket/town.city.jsonl."""
    return isinstance(source, str) and SCHEME.match(source) is not None


def remote_of(file: object) -> RemoteFile | None:
    """Returns the file of a URL that a file object reads or unpacks. None for other files."""
    inner = file.packed if isinstance(file, Unpacker) else file
    return getattr(getattr(inner, "raw", None), "remote", None)


def bytes_of(source: Any) -> memoryview | None:  # no type says that an object has bytes
    """Returns the bytes of a source that is an object with bytes, such as `bytes`, an array or a
    mapped file. None for other sources."""
    is_file = hasattr(source, "read") and not isinstance(source, mmap.mmap)
    if is_file or isinstance(source, (str, os.PathLike)):
        return None
    try:
        return memoryview(source).cast("B")
    except (TypeError, ValueError):  # such as a mapped file that is closed
        return None


def _is_file(source: Source) -> TypeGuard[Readable]:
    return hasattr(source, "read") and bytes_of(source) is None


def name_of(source: object) -> str:
    """Returns the name of a source in reports."""
    if is_url(source):
        return str(source).partition("?")[0]  # a query may have a key in it
    if isinstance(source, (str, os.PathLike)):
        return os.fsdecode(source)
    if bytes_of(source) is not None:
        return "<bytes>"
    name = getattr(source, "name", None)
    return name if isinstance(name, str) else "<stream>"


def size_of(source: object) -> int | None:
    """Returns how many bytes a source has, or None if this is known only after reading. For a
    packed file these are packed bytes."""
    held = bytes_of(source)
    if held is not None:
        return held.nbytes
    if is_url(source):
        with contextlib.suppress(OSError), open_raw(source) as file:
            remote = remote_of(file)
            return None if remote is None else remote.size
        return None
    return os.path.getsize(source) if is_path(source) and os.path.isfile(source) else None


def _poll_of(file: Readable) -> select.poll | None:
    """Returns an object that shows whether a pipe or a terminal has bytes. None for other files."""
    try:
        descriptor = file.fileno()
        mode = os.fstat(descriptor).st_mode
    except (AttributeError, OSError, ValueError):
        return None
    kinds = (stat.S_ISFIFO, stat.S_ISSOCK, stat.S_ISCHR)
    if isinstance(file, Unpacker) or not any(is_kind(mode) for is_kind in kinds):
        return None
    poll = select.poll()
    poll.register(descriptor, select.POLLIN)
    return poll


class Reader:
    """Reads a file object. If a read fails, keeps the fault as `fault`, and the input ends."""

    def __init__(self, file: Readable, name: str = "<stream>", is_text: bool = False) -> None:
        """Takes a file object and its name. If it is not known to be a text, it is unpacked if its
        first bytes show that it is packed."""
        self.file, self.name = file, name
        self._read: Callable[[int], object] = lambda most: read_some(file, most)
        self.fault: CityseqError | None = None
        self._poll = _poll_of(file)
        self._has_begun = is_text

    def is_idle(self) -> bool:
        """Whether no bytes have come for some time. False for a source that is not a pipe, a
        socket or a terminal."""
        if self._poll is None:
            return False
        try:
            return not self._poll.poll(IDLE)
        except (OSError, ValueError):
            return False

    def read(self, most: int) -> bytes:
        """Returns at most `most` bytes, and none at the end."""
        try:
            piece = self._piece(most)
            if not self._has_begun:
                self._has_begun = True
                piece = self._text_of(piece, most)
            return piece
        except InvalidStream as fault:  # of a whole file
            self.fault, self._read = fault, io.BytesIO().read
        except READ_FAULTS as fault:
            self.fault, self._read = read_fault(fault, self.name), io.BytesIO().read
        return b""

    def _piece(self, most: int) -> bytes:
        piece = self._read(min(most, PIECE))
        if isinstance(piece, (bytes, bytearray)):
            return bytes(piece)
        is_text = isinstance(piece, str)
        raise OSError("the source gives text: open it as binary" if is_text else NOT_READY)

    def _text_of(self, head: bytes, most: int) -> bytes:
        """Returns the first text of a file with these first bytes."""
        while head and may_be_packed(head):
            more = self._piece(most)
            if not more:
                break
            head += more
        packing = packing_by_mark(head)
        if packing is None:
            return head
        self.file = Unpacker(self.file, packing, head)
        self._read, self._poll = self.file.read, None
        return self._piece(most)


class TextsFile(io.RawIOBase):
    """A file object over texts that are made when it is read. To close it closes what makes them.

    Attributes:
        name: The name of the source.
    """

    def __init__(self, name: str, texts: Generator[bytes, None, None]) -> None:
        super().__init__()
        self.name, self._texts, self._rest = name, texts, b""

    def readable(self) -> bool:
        return True

    def close(self) -> None:
        self._texts.close()
        super().close()

    def read(self, most: int = -1) -> bytes:
        """Returns at most `most` bytes, and none at the end."""
        while not self._rest and (text := next(self._texts, None)) is not None:
            self._rest = text
        piece = self._rest if most < 0 else self._rest[:most]
        self._rest = self._rest[len(piece) :]
        return piece


def open_raw(path: AnyPath) -> io.BufferedReader:
    """Returns the file object of a path or of a URL, which gives the bytes as they are."""
    if not is_url(path):
        return open(path, "rb")
    from .remote import open_url  # few runs need it

    return open_url(path)


def _raw_or_parts(path: str) -> io.BufferedReader | TextsFile:
    """Returns the same as `open_raw`, or what reads the parts of a folder."""
    try:
        return open_raw(path)
    except IsADirectoryError as fault:
        from .parts import open_parts  # few runs need it

        try:
            return open_parts(path)
        except FileNotFoundError:
            raise fault from None


def _open_path(path: str) -> io.BufferedReader | TextsFile | Unpacker:
    """Returns the file object of a path. It unpacks a packed file."""
    file = _raw_or_parts(path)
    try:
        if not isinstance(file, io.BufferedReader):
            return file
        packing = packing_of(file.peek(len(Packing.ZSTD.mark)), path)
        return file if packing is None else Unpacker(file, packing)
    except BaseException:
        file.close()
        raise


def _path_of(source: AnyPath) -> str:
    """Returns the path that a source is. Raises `RequestError` if it is a text and no path."""
    path = os.fsdecode(source)
    if "\n" in path and len(os.fsencode(path)) > LONGEST_PATH:
        raise RequestError(
            f"a source is a path, and no text of {len(path):,} characters: give a stream as bytes"
        )
    return path


def _open(source: Source) -> io.BufferedIOBase | io.RawIOBase:
    """Opens a source that is a path or bytes. The caller must close the file object."""
    if isinstance(source, (str, os.PathLike)):
        return _open_path(_path_of(source))
    held = bytes_of(source)
    if held is not None:
        return io.BytesIO(held)
    raise RequestError(
        f"a source is a path, bytes or a binary file, and no {type(source).__name__}"
    )


def is_packed(source: object) -> bool:
    """Whether a source is the path of a packed file."""
    try:
        if not is_url(source) and not (is_path(source) and os.path.isfile(source)):
            return False
        with open_raw(source) as file:
            return packing_of(file.peek(len(Packing.ZSTD.mark)), os.fsdecode(source)) is not None
    except OSError:
        return False


def state_of(file: Readable | int) -> State:
    """Returns the size of an open file, and its time of change in nanoseconds, or what stands for
    it if the file has a URL. If one of them differs later, the file has changed."""
    remote = remote_of(file)
    if remote is not None:
        return remote.state_now()
    told = os.fstat(file if isinstance(file, int) else file.fileno())
    return told.st_size, told.st_mtime_ns


class LocalFile:
    """A file of this system. It stays open as long as this object exists."""

    def __init__(self, descriptor: int) -> None:
        self._descriptor = -1
        self._descriptor = os.dup(descriptor)
        self.state = self.state_now()
        self.size = self.state[0]

    def __del__(self) -> None:
        if self._descriptor >= 0:
            os.close(self._descriptor)

    def state_now(self) -> State:
        """Returns the size, and the time of change in nanoseconds."""
        return state_of(self._descriptor)

    def is_changed(self) -> bool:
        """Whether the file is in another state than at the beginning."""
        return self.state_now() != self.state

    def read(self, begin: int, end: int) -> bytes:
        """Returns the bytes between two places, or those that one read gives."""
        return os.pread(self._descriptor, end - begin, begin)

    def expect(self, end: int) -> None:
        """Does nothing: the system reads ahead."""

    def fill(self, room: memoryview, begin: int) -> int:
        """Fills some of a room from a place on. Returns how many bytes it read."""
        return os.preadv(self._descriptor, [room], begin)


def watch_of(file: Readable) -> Watch | None:
    """Returns a watch of the file of a file object. None if it is neither regular nor of a URL."""
    remote = remote_of(file)
    if remote is not None:
        return remote
    try:
        descriptor = file.fileno()
        return LocalFile(descriptor) if stat.S_ISREG(os.fstat(descriptor).st_mode) else None
    except (AttributeError, OSError, ValueError):
        return None


@contextlib.contextmanager
def opened(source: Source) -> Iterator[Reader]:
    """Yields a reader of a source, and closes what was opened for it."""
    name = name_of(source)
    if _is_file(source):
        yield Reader(source, name)
        return
    if isinstance(source, str) and source == "-":
        if sys.stdin is None:
            raise ReadFault("read fault: standard input is closed", None, name)
        yield Reader(sys.stdin.buffer, name)
        return
    try:
        file = _open(source)
    except READ_FAULTS as fault:
        if isinstance(fault, RequestError):
            raise
        raise read_fault(fault, name) from fault
    with file:
        yield Reader(file, name, is_text=not isinstance(file, io.BufferedReader))


def is_whole(source: object, whole: bool | None = None) -> bool:
    """Whether a source is a whole file. If that is not said, the end of its name says it."""
    if whole is None:
        return is_path(source) and os.fsdecode(source).endswith(ENDINGS)
    return whole


def stream_of(source: Source, whole: bool | None) -> Source:
    """Returns the stream of a source: that of a whole file, or the source itself."""
    if not is_whole(source, whole):
        return source
    from ..convert.splitting import split_file  # few runs need it

    return split_file(source)


def refuse_whole(paths: list[str]) -> None:
    """Raises `RequestError` if one of the paths has the name of a whole file."""
    for path in paths:
        if is_whole(path):
            raise RequestError(
                f"{path}: by its name it is a whole CityJSON file: make a stream of it, as by"
                " cityseq-run split"
            )


def _descriptor_of(file: object) -> int:
    """Returns the descriptor of a file. Raises `AttributeError` if it has no such method."""
    descriptor: int = getattr(file, "fileno")()
    return descriptor


def wait_for(file: Writable) -> None:
    """Waits until a file that does not block may take more."""
    poll = select.poll()
    poll.register(_descriptor_of(file), select.POLLOUT)
    poll.poll()


def _write_some(file: Writable, text: memoryview) -> int:
    """Writes some of a text, and returns how many bytes the file took. Waits if it took none.

    A raw file that does not block returns None if it takes nothing, and a buffered one raises
    `BlockingIOError`. Any other file that returns no number has taken all. Raises `OSError` if the
    number cannot be: with it, lines would be written again for ever."""
    try:
        written = file.write(text)
    except BlockingIOError as fault:
        wait_for(file)
        return int(getattr(fault, "characters_written", 0))
    if written is None and isinstance(file, io.RawIOBase):
        wait_for(file)
        return 0
    if isinstance(written, bool) or not isinstance(written, int):
        return len(text)
    if not 0 < written <= len(text):
        raise OSError(f"the output says that it took {written} of {len(text)} bytes")
    return written


def write_all(file: Writable, text: Text) -> None:
    """Writes all of a text to a binary file, which may take only a part of it at a time.

    Raises:
        OSError: A write failed.
    """
    rest = memoryview(text)
    try:
        while rest:
            rest = rest[_write_some(file, rest) :]
    finally:
        rest.release()


def target_of(path: str) -> str | None:
    """Returns the file that an output replaces. If the path is a link, that is the file that it
    leads to. Returns None for a device or a pipe, which is written directly.

    Raises:
        RequestError: No file can have this name, or it is relative to a folder that was removed.
    """
    try:
        if not stat.S_ISREG(os.stat(path).st_mode):
            return None
    except OSError:
        pass  # there is nothing yet
    except ValueError as fault:
        raise RequestError(f"no file can have this name: {fault}", None, path) from fault
    try:
        return os.path.realpath(path)
    except FileNotFoundError as fault:
        raise RequestError("the working folder was removed", None, path) from fault


def part_of(path: str) -> str | None:
    """Returns where an output that is not whole is left if it must be kept. Returns None for a
    device or a pipe."""
    target = target_of(path)
    return None if target is None else target + UNFINISHED


def identity(thing: object, standard: int) -> Identity | None:
    """Returns the device and the inode of the file of a source or an output. `-` is the given
    standard descriptor. None if the file does not exist, or is neither a regular file nor a block
    device."""
    try:
        if is_path(thing):
            state = os.stat(thing)
        else:
            state = os.stat(standard if isinstance(thing, str) else _descriptor_of(thing))
    except (AttributeError, OSError, ValueError):
        return None
    is_kept = stat.S_ISREG(state.st_mode) or stat.S_ISBLK(state.st_mode)
    return (state.st_dev, state.st_ino) if is_kept else None


def _written_for(outputs: Iterable[object]) -> Iterator[tuple[str, object]]:
    """Yields the name of each output, and each file that is written for it."""
    for output in (
        os.fsdecode(output) if isinstance(output, bytes) else output for output in outputs
    ):
        yield name_of(output), output
        if is_path(output):
            part = part_of(os.fsdecode(output))
            if part is not None:
                yield part, part


def _read_for(sources: Iterable[object]) -> Iterator[object]:
    """Yields each source that may be a file, and the files that are read for a folder of parts."""
    for source in sources:
        if isinstance(source, bytes):
            continue
        yield source
        if is_path(source) and os.path.isdir(source):
            from .parts import files_in  # few runs need it

            yield from files_in(os.fsdecode(source))


def _identities(sources: Iterable[object]) -> set[Identity]:
    """Returns the identities of the files that are read."""
    found = (identity(source, 0) for source in _read_for(sources))
    return {each for each in found if each}


def refuse_same(sources: Iterable[object], outputs: Iterable[object]) -> None:
    """Raises `RequestError` if an output is a file that is read. The output `-` is standard
    output."""
    read = _identities(sources)
    for name, output in _written_for(outputs):
        if identity(output, 1) in read:
            raise RequestError(f"{name}: the output is a file that is read")


def refuse_standard(sources: Iterable[object]) -> None:
    """Raises `RequestError` if standard output or standard error is a file that is read. If that
    is standard error, nothing is written to it any more, not even this fault."""
    sources = list(sources)
    if sys.stderr is not None and identity(sys.stderr, 2) in _identities(sources):
        sys.stderr = None  # type: ignore[assignment]
        raise RequestError("standard error is a file that is read")
    refuse_same(sources, ["-"])


def refuse_read(read: Iterable[str | None], outputs: Iterable[str | None]) -> None:
    """Refuses to write to a file that is read, also by standard output or standard error.

    Raises:
        RequestError: An output is read.
    """
    named = [path for path in read if path is not None]
    refuse_standard(named)
    refuse_same(named, [output for output in outputs if output is not None])
