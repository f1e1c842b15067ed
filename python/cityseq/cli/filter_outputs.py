"""What only `filter` has: where its outputs go, what they may not replace, and ids that matched
nothing."""
from __future__ import annotations

import json
import os
from collections.abc import Sequence
from typing import TYPE_CHECKING

from ..engine import RequestError, Text, quoted, shown, write_fault
from ..engine.records import unescaped
from ..engine.reports import USUAL_BEGIN
from ..sources import UNFINISHED, name_of
from .options import Filter
from .output import put_object, say

if TYPE_CHECKING:
    from ..foreign import Object

SHOWN = 5  # ids that are shown
MOST = 100_000  # ids that are looked for in kept lines


def _name_in(folder: str, file: str, keeps_folders: bool) -> str:
    """Returns the output of a file in a folder.

    Raises:
        RequestError: Its name has `..` where the folders of its name are kept.
    """
    if not keeps_folders:
        return os.path.join(folder, os.path.basename(file))
    names = [name for name in file.split(os.sep) if name not in ("", ".")]
    if os.pardir in names:
        raise RequestError(f"--keep-folders cannot keep '..': run it in another folder: {file}")
    return os.path.join(folder, *names)


def targets_in(request: Filter, files: Sequence[str]) -> list[str]:
    """Returns the output of each file in the folder of `--output-dir`.

    Raises:
        RequestError: Two files have the same output, or one is standard input.
    """
    if request.output != "-":
        raise RequestError("with --output-dir there is no --output: each FILE has its own")
    if "-" in files:
        raise RequestError("with --output-dir each FILE has a name: standard input has none")
    if not request.output_dir:
        raise RequestError("the name of the folder of --output-dir is empty")
    folder = request.output_dir
    targets: dict[str, str] = {}
    names = list(map(name_of, files))  # without the query of a URL, which may have a key in it
    for name in names:
        target = os.path.realpath(_name_in(folder, name, request.keep_folders))
        if target in targets:
            tip = "" if request.keep_folders else ": --keep-folders keeps their folders"
            raise RequestError(f"{targets[target]} and {name} have the same output{tip}")
        targets[target] = name
    for target, name in targets.items() if request.keep_partial else ():
        if target + UNFINISHED in targets:
            words = f"what is kept of {name} would replace the output of"
            raise RequestError(f"{words} {targets[target + UNFINISHED]}: leave --keep-partial out")
    return [_name_in(folder, name, request.keep_folders) for name in names]


def targets_of(request: Filter, files: Sequence[str]) -> list[str]:
    """Returns the output of each file.

    Raises:
        RequestError: Several files have one output, or two have the same.
    """
    if request.output_dir is not None:
        return targets_in(request, files)
    if request.keep_folders:
        raise RequestError("--keep-folders is for --output-dir")
    if len(files) > 1:
        raise RequestError("each FILE has its own header: name a folder by --output-dir")
    return [request.output] * len(files)


def make_folder(path: str) -> None:
    """Makes a folder and those above it.

    Raises:
        WriteFault: It cannot be made.
    """
    try:
        os.makedirs(path, exist_ok=True)
    except OSError as fault:
        raise write_fault(fault, path) from fault


def ids_in(text: Text) -> set[bytes]:
    """Returns the ids of the features in some whole lines, which are valid. Only the first line may
    be a header, which is no feature."""
    lines, found, begin = bytes(text), set(), 0
    while begin < len(lines):
        end = lines.find(b"\n", begin)
        end = len(lines) if end < 0 else end
        usual = USUAL_BEGIN.match(lines, begin, end) if begin else None
        spelled = _spelled_id(lines[begin:end]) if usual is None else usual.group(1)
        if spelled is not None:
            found.add(unescaped(spelled[1:-1]).encode("utf-8", "surrogatepass"))
        begin = end + 1
    return found


def _spelled_id(line: bytes) -> bytes | None:
    """Returns the id of a feature as its line spells it, wherever it is. None if the line is blank,
    or is a header."""
    from ..attributes import members  # few runs need it

    told = members(line) if line else {}
    is_header = json.loads(told.get("type", "0")) == "CityJSON"
    return None if is_header or "id" not in told else told["id"].encode("utf-8")


class UnmatchedIds:
    """Finds which ids of a query matched no feature. Of very many ids it finds only whether none
    matched, because to read the ids of all kept lines takes long."""

    def __init__(self, path: str, ids: list[str] | bytes) -> None:
        """Takes the name of the list, and the ids of the query. Bytes have one id on each line."""
        self._path, self._ids = path, ids
        self._found: set[bytes] = set()
        lines = ids.count(b"\n") + 1 if isinstance(ids, bytes) else len(ids)
        self._count = lines if ids else 0
        self.is_exact = self._count <= MOST

    def see(self, text: Text) -> None:
        """Takes kept lines. Any thread may call it."""
        if self.is_exact:
            self._found |= ids_in(text)

    def _missing(self) -> list[str]:
        ids = self._ids.split(b"\n") if isinstance(self._ids, bytes) else map(str.encode, self._ids)
        return [each.decode("utf-8") for each in dict.fromkeys(ids) if each not in self._found]

    def print(self, request: Filter, features: int) -> None:
        """Prints how many ids matched no feature, and the first of them, if there are any.
        `features` is the number of all kept features."""
        if not self.is_exact and features:
            return
        missing = self._missing() if self._count else []
        if request.json:
            put_object(request, self._object(missing))
        elif missing:
            ids = ", ".join(map(quoted, missing[:SHOWN])) + (", .." if missing[SHOWN:] else "")
            count = f"{len(missing):,} {'id' if len(missing) == 1 else 'ids'}"
            say(f"{shown(self._path)}: {count} matched no feature: {ids}")

    def _object(self, missing: list[str]) -> Object:
        from .json_output import object_of  # text does not need it

        members = {"ids_from": self._path, "unmatched": len(missing), "first": missing[:SHOWN]}
        return object_of("ids", members)
