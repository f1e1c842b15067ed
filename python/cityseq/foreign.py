"""Types of what comes from outside the package. `Any` is where a library gives no better type. Type
checkers alone load this module."""
from __future__ import annotations

from typing import Any, Protocol

from numpy.typing import NDArray

from .engine import Text

Json = Any  # a value of JSON, of any shape: who takes it apart has checked it, or catches faults
Object = dict[str, Json]  # an object of JSON
Cell = Any  # a value in SQLite, whose module has no types for what it reads
Cells = tuple[Cell, ...]  # a row
Array = NDArray[Any]  # an array of numpy, which has no type for records
Package = Any  # a module that is loaded only where its package is there, or one of its objects


class Readable(Protocol):
    """A binary file that is read. One of a user may have `read` alone."""

    def read(self, most: int = ..., /) -> bytes | None:
        """Returns at most `most` bytes, none at the end, and None if the file does not block and
        none are ready."""

    def fileno(self) -> int:
        """Returns the descriptor."""

    def close(self) -> None:
        """Closes the file."""


class Writable(Protocol):
    """A binary file, or what else takes bytes."""

    def write(self, text: Text, /) -> object:
        """Writes some of a text. Returns how many bytes, or something else if it took all."""
