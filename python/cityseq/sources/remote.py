"""Files by URLs of `fsspec`, such as s3://bucket/town.city.jsonl. They are read by ranges."""
from __future__ import annotations

import errno
import hashlib
import io
import os
import threading
from collections.abc import Callable
from importlib import import_module
from typing import TYPE_CHECKING, TypeVar
from urllib.parse import urlsplit

from ..engine import CityseqError, RequestError, why
from . import name_of

if TYPE_CHECKING:
    from _typeshed import WriteableBuffer

    from ..foreign import Package

T = TypeVar("T")

BLOCK = 4 << 20  # bytes of one request for lines that follow each other
BUFFER = 1 << 20  # bytes that are read ahead of what is read once, such as a header
# What shows that a file has changed, by the names that file systems give it.
MARKS = "ETag etag Content-MD5 md5Hash LastModified last_modified updated mtime".split()


def system_of(url: str) -> tuple[Package, str]:
    """Returns the file system of a URL, and the path there.

    Raises:
        RequestError: The URL has a password.
        CityseqError: The package fsspec, or the one for this scheme, is missing.
    """
    if urlsplit(url).password is not None:
        raise RequestError("a URL has no password: put it into the configuration of fsspec")
    try:
        found: tuple[Package, str] = import_module("fsspec.core").url_to_fs(url)
        return found
    except ImportError as missing:
        words = f"a URL needs fsspec and its package for this scheme: {why(missing)}"
        raise CityseqError(words, None, name_of(url)) from None
    except Exception as fault:
        raise OSError(_words(fault)) from None


def _words(fault: BaseException) -> str:
    """Returns the words of a fault, without a URL, which may have a key in it."""
    status = getattr(fault, "status", None)
    words = why(fault) if status is None else f"the server answers {status}"
    return type(fault).__name__ if "://" in words or "@" in words or "?" in words else words


class _Block(threading.local):
    """The bytes that a thread has read, and where they begin. It will read lines up to `end`."""

    text = b""
    begin = end = 0


class RemoteFile:
    """A file by its URL, which any thread may read at any place.

    Attributes:
        size: How many bytes the file has.
        state: The size, and what stands for the time of change, when this object was made.
    """

    def __init__(self, url: str) -> None:
        """Asks for the size. Raises `OSError` if there is no such file."""
        self._system, self._path = system_of(url)
        self._block = _Block()
        self.state = self.state_now()
        self.size = self.state[0]

    def state_now(self) -> tuple[int, int]:
        """Returns the state that the file has now. Raises `OSError` if it has none."""
        self._call(self._system.invalidate_cache)
        told = self._call(self._system.info, self._path)
        if told.get("type") == "directory":
            raise IsADirectoryError(errno.EISDIR, os.strerror(errno.EISDIR))
        if not isinstance(told.get("size"), int):
            raise OSError("the server does not say how long it is")
        marks = [str(told[name]) for name in MARKS if told.get(name) is not None]
        if not marks:
            try:
                marks = [str(self._system.modified(self._path))]
            except Exception:  # few file systems have it
                marks = []
        mark = hashlib.sha256("\n".join(marks).encode()).digest()
        return told["size"], int.from_bytes(mark[:7], "big")

    def is_changed(self) -> bool:
        """Whether the file is in another state than at the beginning, or cannot be reached."""
        try:
            return self.state_now() != self.state
        except OSError:
            return True

    def read(self, begin: int, end: int) -> bytes:
        """Returns the bytes between two places, or those that one request gives. There are none at
        the end of the file only."""
        wanted = min(end, self.size) - begin
        if wanted <= 0:
            return b""
        piece = self._call(self._system.cat_file, self._path, start=begin, end=begin + wanted)
        if not piece:
            raise OSError("a read gave nothing")
        if len(piece) > wanted:
            raise OSError("the answer has another range than was asked for")
        return bytes(piece)

    def expect(self, end: int) -> None:
        """Notes that this thread will read up to a place, so that it makes few requests."""
        self._block.end = end

    def fill(self, room: memoryview, begin: int) -> int:
        """Fills some of a room from a place on. Returns how many bytes it read."""
        block = self._block
        if not block.begin <= begin < block.begin + len(block.text):
            end = max(begin + len(room), min(begin + BLOCK, block.end))
            block.text, block.begin = self.read(begin, end), begin
        at = begin - block.begin
        piece = block.text[at : at + len(room)]
        room[: len(piece)] = piece
        return len(piece)

    @staticmethod
    def _call(call: Callable[..., T], *given: object, **named: object) -> T:
        """Makes a call of a file system. Raises `OSError` with words that have no URL."""
        try:
            return call(*given, **named)
        except MemoryError:
            raise
        except FileNotFoundError:
            raise FileNotFoundError(errno.ENOENT, os.strerror(errno.ENOENT)) from None
        except Exception as fault:
            raise OSError(_words(fault)) from None


class _Raw(io.RawIOBase):
    """Reads a remote file from its beginning."""

    def __init__(self, remote: RemoteFile) -> None:
        super().__init__()
        self.remote, self._place = remote, 0

    def readable(self) -> bool:
        return True

    def readinto(self, room: WriteableBuffer) -> int:
        """Fills some of a room. Returns how many bytes it read, and 0 at the end."""
        view = memoryview(room)
        piece = self.remote.read(self._place, self._place + len(view))
        view[: len(piece)] = piece
        self._place += len(piece)
        return len(piece)


def open_url(url: str) -> io.BufferedReader:
    """Opens the file of a URL. Raises `OSError` if that is not possible."""
    return io.BufferedReader(_Raw(RemoteFile(url)), BUFFER)
