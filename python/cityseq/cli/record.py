"""The record of an archive: a line of JSON with the state and the result of each file. A later run
can skip these files."""
from __future__ import annotations

import fcntl
import json
import os
import re
import stat
from collections.abc import Iterable
from contextlib import suppress
from typing import TYPE_CHECKING

from ..engine import RequestError, write_fault
from ..sources import UNFINISHED, is_path, write_all
from ..sources.regular import state_now
from .options import Check, Filter

if TYPE_CHECKING:
    from io import FileIO

    from ..foreign import Object

LONGEST = 1 << 20  # bytes of a line that is read
BEGINNING = b'{"kind": "record", '  # of each line
VERDICTS = "valid", "invalid"  # by their statuses
CODE = re.compile("[0-9]{1,3}")
SAME = ("cityseq", "command", "options", "ids_sha256", "size", "mtime_ns", "output")


def _object_of(line: bytes) -> Object | None:
    """Returns the record in a line. None if it is something else."""
    try:
        value = json.loads(line)
    except (ValueError, RecursionError):
        return None
    is_record = isinstance(value, dict) and value.get("kind") == "record"
    return value if is_record and isinstance(value.get("file"), str) else None


class Record:
    """The lines of a record. It appends lines, each by one write if the system takes all of it."""

    def __init__(self, path: str, is_read: bool) -> None:
        """Opens the record, and reads its lines if `is_read`.

        Raises:
            RequestError: It is not a regular file.
            WriteFault: It cannot be opened, read or written.
        """
        self.path = path
        self._found: dict[str, Object] = {}
        try:
            self._file = _opened(path)
            _end_last_line(self._file)
            if is_read:
                self._read()
        except OSError as fault:
            raise write_fault(fault, path) from fault

    def _read(self) -> None:
        with open(self.path, "rb") as file:
            for line in iter(lambda: file.readline(LONGEST), b""):
                found = _object_of(line) if line.endswith(b"\n") else None
                if found is not None:
                    self._found[found["file"]] = found

    def find(self, path: str, state: Object) -> Object | None:
        """Returns the result that the record has for a file, or None. The file must be regular and
        unchanged, and the program, the options and the output the same. An output must be whole. A
        fault does not count.

        Args:
            path: The path of the file.
            state: The members of the record that must be the same.
        """
        found = self._found.get(os.path.abspath(path))
        if found is None or state["size"] is None or not _has_result(found):
            return None
        is_same = all(found.get(name) == state.get(name) for name in SAME)
        return found if is_same and _is_output_whole(found) else None

    def append(self, line: Object) -> None:
        """Appends a line.

        Raises:
            WriteFault: It cannot be written.
        """
        try:
            write_all(self._file, json.dumps(line).encode("utf-8") + b"\n")
        except OSError as fault:
            raise write_fault(fault, self.path) from fault

    def close(self) -> None:
        """Closes the file."""
        self._file.close()


def _opened(path: str) -> FileIO:
    """Opens a record to append to it, and to read its end."""
    with suppress(FileNotFoundError):
        if not stat.S_ISREG(os.stat(path).st_mode):
            raise RequestError("a record is a regular file", None, path)
    return open(path, "ab+", buffering=0)


def _end_last_line(file: FileIO) -> None:
    """Removes a last line that a run which was killed has cut. Ends one that only lacks its LF.

    Another run may be writing that line. It holds a lock, and then the line stays."""
    try:
        fcntl.flock(file, fcntl.LOCK_EX | fcntl.LOCK_NB)
        size = file.seek(0, os.SEEK_END)
        begin = file.seek(max(0, size - LONGEST))
        rest = file.read(size - begin)
        place = rest.rfind(b"\n") + 1
        last = rest[place:]
        if last and last.startswith(BEGINNING[: len(last)]) and _object_of(last) is None:
            file.truncate(begin + place)
        elif last:
            write_all(file, b"\n")
    except BlockingIOError:
        pass  # another run has the lock
    with suppress(OSError):
        fcntl.flock(file, fcntl.LOCK_SH | fcntl.LOCK_NB)


def _has_result(found: Object) -> bool:
    """Whether a record has a verdict, and all that is told of a file that is skipped. Another
    program may have written it."""
    verdict, codes = found.get("verdict"), found.get("codes", {})
    if verdict not in VERDICTS or not isinstance(codes, dict):
        return False
    counts = [found.get(name) for name in ("status", "lines", "features", "refused")]
    return (
        counts[0] == VERDICTS.index(verdict)
        and all(type(count) is int and count >= 0 for count in (*counts, *codes.values()))
        and all(map(CODE.fullmatch, codes))
        and isinstance(found.get("time"), str)
    )


def _is_output_whole(found: Object) -> bool:
    """Whether the output of a file is as the run left it. True if the run made no output for its
    command."""
    if found["command"] != "filter":
        return True
    output = found.get("output")
    if not isinstance(output, str):
        return False
    state = state_now(output)
    members = found.get("output_size"), found.get("output_mtime_ns")
    return (state["size"], state["mtime_ns"]) == members


def output_state(output: str | None) -> Object:
    """Returns the members of a record that describe an output: its path and its state. They are
    None if there is no whole output."""
    unknown: dict[str, int | None] = {"size": None, "mtime_ns": None}
    state = unknown if output is None else state_now(output)
    path = None if output is None or state["size"] is None else os.path.abspath(output)
    return {"output": path, "output_size": state["size"], "output_mtime_ns": state["mtime_ns"]}


def refuse_unrecorded(
    request: Check | Filter, files: Iterable[str], outputs: Iterable[str]
) -> None:
    """Refuses to record standard input or to an output, and to resume without a record."""
    if request.resume and request.record is None:
        raise RequestError("--resume is for a --record")
    if isinstance(request, Filter) and request.record is not None and request.output_dir is None:
        raise RequestError("filter has a --record only with --output-dir")
    if request.record in ("", "-"):
        raise RequestError("a record is a file: name it by --record")
    if request.record is not None and not all(map(is_path, files)):
        raise RequestError("what is recorded are files: standard input has no name")
    if request.record is not None and os.path.realpath(request.record) in _written(outputs):
        raise RequestError("the record is an output: give it another name", None, request.record)


def _written(outputs: Iterable[str]) -> set[str]:
    """Returns the files that are written for outputs, also for one that is not whole."""
    paths = [os.path.realpath(output) for output in outputs]
    return {*paths, *(path + UNFINISHED for path in paths)}
