"""Outputs of kept lines. A file is written as `.NAME.*.part`, and renamed when it is whole. So no
incomplete file looks like a whole one, and two runs with the same output do not mix."""
from __future__ import annotations

import codecs
import io
import os
import stat
import sys
from collections.abc import Callable, Iterator
from contextlib import suppress
from functools import partial
from typing import TYPE_CHECKING, BinaryIO, TextIO, Union

from ..engine import RequestError, Text, WriteFault, write_fault
from . import UNFINISHED, is_path, name_of, target_of, wait_for, write_all
from .packed import LEVEL, Packer, Packing, pack, packing_by_name, require

if TYPE_CHECKING:
    from ..foreign import Writable
    from . import AnyPath

Target = Union["AnyPath", bytes, "Writable"]

OTHER_PACKINGS = (".xz", ".lzma", ".bz2", ".lz4", ".br", ".z", ".zip", ".7z", ".tgz")
LONGEST = 255  # bytes of a file's name
NEW = os.O_RDWR | os.O_CREAT | os.O_EXCL | getattr(os, "O_CLOEXEC", 0)
USUAL_MODE = 0o666  # of a new file, before the system's mask
OWN_MODE = 0o600  # what its owner may do while the file is written
HELD = 16 << 20  # bytes of an output that are held in memory
PIECE = 1 << 20  # bytes of such an output that are written at once


def checked_output(path: str) -> str:
    """Returns the path of an output.

    Raises:
        RequestError: It is empty, or it names a packing that is not there.
    """
    if not path:
        raise RequestError("the name of an output is empty")
    if path.lower().endswith(OTHER_PACKINGS):
        words = "cityseq packs by gzip or Zstandard: let the name end in .gz or .zst"
        raise RequestError(words, None, path)
    return path


def _new_name(target: str) -> str:
    """Returns a path next to a file that no other file should have."""
    folder, name = os.path.split(target)
    end = f".{os.urandom(4).hex()}{UNFINISHED}"
    while len(os.fsencode(f".{name}{end}")) > LONGEST:
        name = name[:-1]
    return os.path.join(folder, f".{name}{end}")


def _mode_of(path: str) -> int | None:
    """Returns the mode of a file, or None if there is none."""
    with suppress(OSError):
        return stat.S_IMODE(os.stat(path).st_mode)
    return None


class Part:
    """A new file next to the one that it replaces when it is whole."""

    def __init__(self, target: str) -> None:
        """Takes the path of the file to replace. It makes no file."""
        self._target = target
        self._path: str | None = None
        self._mode: int | None = None

    @property
    def path(self) -> str:
        """The path of the new file, after `make`."""
        assert self._path is not None
        return self._path

    def make(self) -> int:
        """Makes the file, and returns a descriptor of it. An interrupt may come at once, so who
        calls it must call `discard`.

        Raises:
            OSError: It cannot be made.
        """
        self._mode = _mode_of(self._target)
        mode = USUAL_MODE if self._mode is None else self._mode | OWN_MODE
        while True:
            self._path = _new_name(self._target)  # before the file exists
            try:
                return os.open(self._path, NEW, mode)
            except FileExistsError:
                continue
            except OSError:
                self._path = None
                raise

    def replace(self) -> None:
        """Gives the file the name and the mode of the one that it replaces.

        Raises:
            OSError: That is not possible.
        """
        self._rename(self._target)

    def keep(self) -> None:
        """Gives the file the name `NAME.part`, if it was made.

        Raises:
            OSError: That is not possible.
        """
        if self._path is not None:
            self._rename(self._target + UNFINISHED)

    def _rename(self, name: str) -> None:
        if self._mode is not None:
            with suppress(OSError):
                os.chmod(self.path, self._mode)
        os.replace(self.path, name)
        self._path = None

    def discard(self) -> None:
        """Removes the file if it has no other name yet."""
        if self._path is not None:
            with suppress(OSError):
                os.unlink(self._path)
        self._path = None


class Batch:
    """Whole outputs that get their names together. Leaving a `with` block removes the others."""

    def __init__(self) -> None:
        self._parts: list[tuple[str, Part]] = []

    def __enter__(self) -> Batch:
        return self

    def __exit__(self, *_: object) -> None:
        for _name, part in self._parts:
            part.discard()

    def add(self, name: str, part: Part) -> None:
        """Takes a whole output, and the name that a fault gives it."""
        self._parts.append((name, part))

    def replace(self) -> None:
        """Gives each output its name.

        Raises:
            WriteFault: One cannot have it. The outputs before it have theirs.
        """
        for name, part in self._parts:
            try:
                part.replace()
            except OSError as fault:
                raise write_fault(fault, name) from fault


def flush_all(file: Writable) -> None:
    """Flushes a binary file, which may take only a part at a time.

    Raises:
        OSError: A write failed.
    """
    while hasattr(file, "flush"):
        try:
            file.flush()
            return
        except BlockingIOError:
            wait_for(file)


class _Decoded:
    """Writes UTF-8 to an output that takes text alone, such as that of a notebook."""

    def __init__(self, output: TextIO) -> None:
        self._output, self.flush = output, output.flush
        self._decode = codecs.getincrementaldecoder("utf-8")("replace").decode

    def write(self, text: Text) -> int:
        """Writes all of these bytes."""
        self._output.write(self._decode(bytes(text)))
        return len(text)


class Limit:
    """How many features may still be written, to all outputs of a run.

    Attributes:
        left: Their number.
    """

    def __init__(self, most: int) -> None:
        self.left = most

    @classmethod
    def of(cls, most: int | None) -> Limit | None:
        """Returns the limit of so many features. None if there is none.

        Raises:
            RequestError: It is no number of features.
        """
        if most is None:
            return None
        if isinstance(most, bool) or not isinstance(most, int) or most < 0:
            raise RequestError(f"a limit is a whole number from 0: {most!r}")
        return cls(most)

    def end(self, text: bytes, begin: int) -> int:
        """Returns where those of the lines of a text end that may be written. Each line from
        `begin` on is a feature."""
        while self.left and begin < len(text):
            begin = text.find(b"\n", begin) + 1 or len(text)
            self.left -= 1
        return begin


class Writer:
    """Writes to a target: a path, `-` for standard output, or a binary file. A path is opened at
    the first call of `write` or `close`. So the file exists even if nothing is kept.

    Attributes:
        limit: How many features may be written. None sets no limit. Otherwise each text has whole
            lines, and the first one begins with the header.
        features: How many features were written, if there is a limit.
    """

    def __init__(
        self,
        target: Target,
        keep_partial: bool = False,
        batch: Batch | None = None,
        *,
        level: int = LEVEL,
        see: Callable[[Text], None] | None = None,
    ) -> None:
        """Makes a writer of a target.

        Args:
            target: A path, `-` for standard output, or a binary file.
            keep_partial: Whether a path that is not whole is left as `NAME.part`.
            batch: Gives a whole path its name, if it is there.
            level: How well an output is packed, from 1 to 9.
            see: Is called with each text before it is packed, in any thread.

        Raises:
            RequestError: An output cannot be this.
            WriteFault: The package for its packing is missing.
        """
        if isinstance(target, io.TextIOBase) or not (
            isinstance(target, (str, bytes, os.PathLike)) or hasattr(target, "write")
        ):
            raise RequestError("an output is a path or a binary file")
        if isinstance(target, bytes):
            target = os.fsdecode(target)
        self.name = name_of(target)
        self._path = checked_output(self.name) if is_path(target) else None
        self._part: Part | None = None  # where the path is written until it is whole
        self._file: Writable | None = None if isinstance(target, (str, os.PathLike)) else target
        self._keep_partial, self._batch, self._level, self._see = keep_partial, batch, level, see
        self.limit: Limit | None = None
        self.features, self._has_header = 0, False
        if self.packing is not None:
            try:
                require(self.packing)
            except OSError as fault:
                raise write_fault(fault, self.name) from fault

    @property
    def is_renamed(self) -> bool:
        """Whether it is a file, which has its name only when it is whole."""
        return self._path is not None and target_of(self._path) is not None

    @property
    def packing(self) -> Packing | None:
        """How the output is packed, or None."""
        return None if self._path is None else packing_by_name(self._path)

    def pack(self, text: Text) -> bytes:
        """Returns a text packed as the output is. Any thread may call it."""
        assert self.packing is not None
        if self._see is not None:
            self._see(text)
        return pack(text, self.packing, self._level)

    @property
    def packer(self) -> Callable[[Text], bytes] | None:
        """What packs a text in another process. None if the output is not packed, or if this
        process must see the text."""
        if self.packing is None or self._see is not None:
            return None
        return partial(pack, packing=self.packing, level=self._level)

    def write_packed(self, text: bytes) -> None:
        """Writes bytes that `pack` returned."""
        try:
            file = self._opened()
            assert isinstance(file, Packer)
            file.write_packed(text)
        except (OSError, ValueError) as fault:
            raise write_fault(fault, self.name) from fault

    def write(self, text: Text) -> None:
        """Writes all of these bytes. Packs them if the output is packed."""
        if self._see is not None:
            self._see(text)
        if self.limit is not None:
            text = self._limited(bytes(text), self.limit)
        try:
            write_all(self._opened(), text)
        except (OSError, ValueError) as fault:
            raise write_fault(fault, self.name) from fault

    def _limited(self, text: bytes, limit: Limit) -> bytes:
        """Returns the header, and the features that may still be written."""
        begin = 0 if self._has_header else text.find(b"\n") + 1 or len(text)
        self._has_header, before = True, limit.left
        end = limit.end(text, begin)
        self.features += before - limit.left
        return text[:end]

    def close(self, whole: bool) -> None:
        """Flushes the output, and closes a file that was opened here. Renames the file if it is
        whole, and discards it if not."""
        try:
            if whole or self._file is not None:
                file = self._opened()
                if isinstance(file, Packer):
                    file.finish()
                else:
                    flush_all(file)
                if self._path is not None and hasattr(file, "close"):
                    file.close()
            if whole and self._part is not None:
                if self._batch is None:
                    self._part.replace()
                else:
                    self._batch.add(self.name, self._part)
                self._part = None
        except (OSError, ValueError) as fault:
            raise write_fault(fault, self.name) from fault
        finally:
            self.discard()

    def discard(self) -> None:
        """Closes a file that was opened here and is not whole. Removes it, unless it must be
        kept."""
        with suppress(OSError, ValueError):
            file = self._file
            if self._path is not None and file is not None and hasattr(file, "close"):
                file.close()
        if self._part is not None:
            if self._keep_partial:
                with suppress(OSError):
                    self._part.keep()
            else:
                self._part.discard()
        self._part = None

    def _opened(self) -> Writable:
        if self._file is None and self._path is None:
            if sys.stdout is None:
                raise OSError("standard output is closed")
            buffer: Writable | None = getattr(sys.stdout, "buffer", None)
            self._file = buffer or _Decoded(sys.stdout)
        elif self._file is None:
            assert self._path is not None
            file: Writable = self._made(self._path)
            self._file = file
            if self.packing is not None:
                self._file = Packer(file, self.packing, self._level)
        return self._file

    def _made(self, path: str) -> BinaryIO:
        """Opens the file that a path is written to until it is whole."""
        target = target_of(path)
        if target is None:
            return open(path, "wb")
        self._part = Part(target)
        return os.fdopen(self._part.make(), "wb")


class Whole:
    """Writes to a writer only what is whole. A file has its name only then, so it is written at
    once. What any other target gets is held until then: in memory, or in a temporary file if it is
    long."""

    def __init__(self, writer: Writer) -> None:
        from tempfile import SpooledTemporaryFile  # few runs need it

        self._writer = writer
        self._held = None if writer.is_renamed else SpooledTemporaryFile(HELD)

    def write(self, text: bytes) -> None:
        """Writes all of these bytes, or holds them.

        Raises:
            WriteFault: The output, or a temporary file, cannot be written.
        """
        if self._held is None:
            self._writer.write(text)
            return
        try:
            self._held.write(text)
        except OSError as fault:
            raise self._fault(fault) from fault

    def close(self) -> None:
        """Ends an output that is whole."""
        for piece in self._pieces():
            self._writer.write(piece)
        self._writer.close(True)

    def _pieces(self) -> Iterator[bytes]:
        """Yields what is held."""
        if self._held is None:
            return
        try:
            self._held.seek(0)
            while piece := self._held.read(PIECE):
                yield piece
        except OSError as fault:
            raise self._fault(fault) from fault

    @staticmethod
    def _fault(fault: OSError) -> WriteFault:
        """Returns the fault of the temporary file, with its folder if there is one."""
        import tempfile  # few runs need it

        return write_fault(fault, tempfile.tempdir or "temporary files")

    def discard(self) -> None:
        """Removes what is not whole."""
        if self._held is not None:
            with suppress(OSError):
                self._held.close()
        self._writer.discard()
