"""Folders of parts, which a cluster writes: each part is a stream with the same header, and a
manifest says that the whole is there. Read as one stream, a folder has the header once."""
from __future__ import annotations

import io
import json
import os
from collections.abc import Generator, Iterable
from dataclasses import asdict, dataclass
from typing import TYPE_CHECKING

from ..engine import RequestError, read_fault
from . import PIECE, TextsFile, is_path, is_url, open_raw
from .packed import Packing, Unpacker, packing_of
from .regular import BlockHash

if TYPE_CHECKING:
    from typing import TypeGuard

    from _typeshed import WriteableBuffer

    from . import AnyPath

MANIFEST, KIND = "_manifest.json", "cityseq parts"
HEAD = 1 << 16  # bytes that are read at once for a header


@dataclass(frozen=True)
class ListedPart:
    """A part in a manifest: its name, what is in it, and the hash of its bytes."""

    name: str
    lines: int
    features: int
    bytes: int
    digest: str


def path_in(folder: str, name: str) -> str:
    """Returns the path of a file in a folder, which may be a URL."""
    return f"{folder.rstrip('/')}/{name}" if is_url(folder) else os.path.join(folder, name)


def manifest_of(parts: list[ListedPart], program: str) -> bytes:
    """Returns the text of a manifest."""
    told = {
        "kind": KIND,
        "cityseq": program,
        "lines": 1 + sum(part.features for part in parts),
        "features": sum(part.features for part in parts),
        "bytes": sum(part.bytes for part in parts),
        "parts": [asdict(part) for part in parts],
    }
    return json.dumps(told, indent=1).encode() + b"\n"


def parts_in(folder: str) -> list[ListedPart]:
    """Returns the parts of a folder. Raises `OSError` if it has no manifest of this package."""
    with open_raw(path_in(folder, MANIFEST)) as file:
        text = file.read()
    try:
        told = json.loads(text)
        parts = [ListedPart(**each) for each in told["parts"]]
        is_right = told["kind"] == KIND and parts and all(map(_is_plain, parts))
    except (KeyError, TypeError, ValueError, RecursionError):
        is_right = False
    if not is_right:
        raise OSError(f"{MANIFEST} is no manifest of cityseq")
    return parts


def files_in(folder: str) -> list[str]:
    """Returns the paths of a folder's manifest and its parts. There are none if it cannot be read,
    or is no folder of parts."""
    try:
        names = [MANIFEST, *(part.name for part in parts_in(folder))]
    except OSError:
        return []
    return [path_in(folder, name) for name in names]


def _is_plain(part: ListedPart) -> bool:
    name = part.name
    return isinstance(name, str) and name.startswith("part-") and not {"/", "\0"} & set(name)


def _is_folder(path: object) -> TypeGuard[AnyPath]:
    """Whether a path is that of a folder with a manifest, or a URL ends as one of a folder does."""
    if is_url(path):
        return path.endswith("/")
    return is_path(path) and os.path.isfile(os.path.join(os.fsdecode(path), MANIFEST))


def expanded(paths: list[object]) -> list[object]:
    """Returns these paths, with the parts of each folder in its place. Raises `ReadFault` if its
    manifest cannot be read."""
    found: list[object] = []
    for path in paths:
        if not _is_folder(path):
            found.append(path)
            continue
        folder = os.fsdecode(path)
        try:
            found += [path_in(folder, part.name) for part in parts_in(folder)]
        except OSError as fault:
            raise read_fault(fault, folder) from fault
    return found


def regular_paths(paths: bytes | AnyPath | Iterable[object], what: str) -> list[str]:
    """Returns paths of regular files, or the only one, with the parts of each folder in its place.

    Raises:
        ReadFault: A manifest cannot be read.
        RequestError: One is not a path, or is that of a device or a pipe. `what` begins the words.
    """
    listed: list[object] = [paths] if isinstance(paths, (str, bytes, os.PathLike)) else list(paths)
    for path in (listed := expanded(listed)):
        is_special = is_path(path) and os.path.exists(path) and not os.path.isfile(path)
        if not is_path(path) or is_special and not os.path.isdir(path):
            raise RequestError(f"{what} regular files by their paths: {path!r} is none")
    return [os.fsdecode(path) for path in listed if is_path(path)]


class _Hashed(io.RawIOBase):
    """Reads a file, and hashes what it reads."""

    def __init__(self, path: str) -> None:
        super().__init__()
        self.digest = BlockHash()
        self._file = open_raw(path)

    def readable(self) -> bool:
        return True

    def readinto(self, room: WriteableBuffer) -> int:
        """Fills some of a room. Returns how many bytes it read, and 0 at the end."""
        count = self._file.readinto(room)
        self.digest.add(memoryview(room)[:count])
        return count

    def close(self) -> None:
        """Closes the file."""
        self._file.close()
        super().close()


def open_parts(folder: str) -> TextsFile:
    """Opens the parts of a folder as one stream. Raises `OSError` if it has no manifest. A read
    raises it if a part is another one than its manifest has."""
    return TextsFile(folder, _texts(folder, parts_in(folder)))


def _texts(folder: str, parts: list[ListedPart]) -> Generator[bytes, None, None]:
    """Yields the text of the first part, and of each other one its lines without the header."""
    header = b""
    for part in parts:
        path = path_in(folder, part.name)
        hashed = _Hashed(path)
        with _unpacked(hashed, path) as file:
            is_first, head = not header, bytearray()
            while b"\n" not in head and (is_first or len(head) < len(header)):
                piece = file.read(HEAD)
                if not piece:
                    break
                head += piece
            if is_first:
                header = bytes(head[: head.find(b"\n") + 1 or len(head)])
            elif not head.startswith(header):
                raise OSError(f"{part.name} has another header")
            yield bytes(head if is_first else head[len(header) :])
            while piece := file.read(PIECE):
                yield piece
            if (hashed.digest.count, hashed.digest.text()) != (part.bytes, part.digest):
                raise OSError(f"{part.name} is not the one that {MANIFEST} has")


def _unpacked(raw: _Hashed, path: str) -> io.BufferedReader | Unpacker:
    """Returns the file of a part, which unpacks it if it is packed."""
    file = io.BufferedReader(raw, PIECE)
    packing = packing_of(file.peek(len(Packing.ZSTD.mark)), path)
    return file if packing is None else Unpacker(file, packing)
