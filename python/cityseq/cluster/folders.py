"""Folders that workers write: each task writes a part, and the last one says that all are there."""
from __future__ import annotations

import os
import shutil
import time
from collections.abc import Callable, Iterable
from contextlib import suppress
from dataclasses import dataclass, replace
from functools import partial
from typing import TYPE_CHECKING, TypeVar

from .. import __version__
from ..engine import CallStatus, CityseqError, Text, WriteFault, read_fault, write_fault
from ..engine.judge import Answer, Work, judge
from ..run import Result
from ..run.streams import Stream
from ..sources import CHANGED, is_url
from ..sources.outputs import Part
from ..sources.packed import LEVEL, Packer, Packing
from ..sources.parts import MANIFEST, ListedPart, manifest_of, path_in
from ..sources.regular import BlockHash
from . import PATIENCE, Cluster
from .runs import Runs
from .tasks import RangeChunk

if TYPE_CHECKING:
    from ..foreign import Package

T = TypeVar("T")

STEP = 4 << 20  # bytes of a part that are judged before their output is written
USUAL = 256 << 20  # bytes of the stream that a part is made of
TRIES = 5  # to remove a folder that a task still writes to


@dataclass(frozen=True)
class Folder:
    """A folder of parts.

    Attributes:
        path: Its path or URL.
        new: Where the parts are written: a folder next to it, or for a URL the folder itself.
        packing: How parts are packed.
    """

    path: str
    new: str
    packing: Packing | None

    @classmethod
    def of(cls, path: str, packing: Packing | None) -> Folder:
        """Returns the folder of a path, which this process need not see."""
        if is_url(path):
            return cls(path, path, packing)
        path = os.path.abspath(path)
        above, name = os.path.split(path)
        new = os.path.join(above, f".{name}.{os.urandom(4).hex()}.part")
        return cls(path, new, packing)

    def name(self, number: int) -> str:
        """Returns the name of a part, by its number from 0."""
        return f"part-{number:05}.city.jsonl{self.packing.value[1] if self.packing else ''}"


class _Output:
    """A new file that gets its name when it is whole. Counts and hashes what is written."""

    def __init__(self, path: str, packing: Packing | None = None) -> None:
        self._path, self.digest = path, BlockHash()
        self._system: Package | None = None
        self._part = Part(path)
        if is_url(path):
            from ..sources.remote import system_of  # few runs need it

            self._system, self._path = system_of(path)
            folder, _, name = self._path.rpartition("/")
            self._new = f"{folder}/.{name}.{os.urandom(4).hex()}.part"
            self._file = self._system.open(self._new, "wb")
        else:
            self._file = os.fdopen(self._part.make(), "wb")
        self._packer = None if packing is None else Packer(self, packing, LEVEL)
        self.put: Callable[[Text], object] = (self._packer or self).write

    def write(self, text: Text) -> None:
        """Writes bytes as they are."""
        self.digest.add(text)
        self._file.write(text)

    def finish(self) -> None:
        """Writes the rest, and gives the file its name."""
        if self._packer is not None:
            self._packer.finish()
        self._file.close()
        if self._system is None:
            self._part.replace()
        else:
            self._system.mv(self._new, self._path)

    def discard(self) -> None:
        """Removes a file that has no name yet."""
        with suppress(Exception):
            self._file.close()
            if self._system is not None:
                self._system.rm(self._new)
        self._part.discard()


@dataclass
class PartAnswer(Answer):
    """The answer for a part that was written. `part` is None if it is not whole."""

    part: ListedPart | None = None


def write_part(chunk: RangeChunk, folder: Folder, work: Work) -> Answer:
    """Judges a chunk, and writes what is kept of it as a part."""
    name = folder.name(chunk.number)
    joined, part = Answer(parts=0), None
    output: _Output | None = None
    try:
        source = chunk.opened()
        for lines in chunk.within(source, STEP, work):
            answer = judge(lines, work)
            has_header = chunk.is_first or output is not None
            texts = answer.output if has_header else [lines.header, *answer.output]
            joined = joined.then(replace(answer, output=[]).sent())
            output = output or _opened(path_in(folder.new, name), folder.packing)
            _put(output, texts)
            if joined.status != CallStatus.COMPLETE or joined.fault is not None:
                break
        else:
            if chunk.sight is not None and source.state != chunk.sight.state:
                raise OSError(CHANGED)
            assert output is not None
            _checked(output.finish, path_in(folder.path, name))
            digest = output.digest
            part = ListedPart(name, joined.kept + 1, joined.kept, digest.count, digest.text())
    except OSError as fault:
        joined.fault = fault if isinstance(fault, CityseqError) else read_fault(fault, chunk.file)
    finally:
        if part is None and output is not None:
            output.discard()
    joined.size = chunk.length
    return PartAnswer(**vars(joined), part=part)


def _checked(call: Callable[..., T], name: str, *given: object) -> T:
    """Makes a call that writes. Raises `WriteFault` if it fails, in words that have no URL."""
    try:
        return call(*given)
    except MemoryError:
        raise
    except OSError as fault:
        raise write_fault(fault, name) from None
    except Exception as fault:  # each file system has its own
        raise WriteFault(f"write fault: {type(fault).__name__}", None, name) from None


def _opened(path: str, packing: Packing | None) -> _Output:
    return _checked(_Output, path, path, packing)


def _put(output: _Output, texts: Iterable[Text]) -> None:
    for text in texts:
        _checked(output.put, "a part", text)


def make(folder: Folder, work: Work) -> WriteFault | None:
    """Makes the folder in which parts are written. Returns why that is not possible, if so."""
    try:
        _checked(_make, folder.path, folder)
    except WriteFault as fault:
        return fault
    return None


def _make(folder: Folder) -> None:
    if is_url(folder.path):
        from ..sources.remote import system_of  # few runs need it

        system, path = system_of(folder.path)
        is_there = system.exists(path) and bool(system.ls(path, detail=False))
        system.makedirs(path, exist_ok=True)
    else:
        is_there = os.path.exists(folder.path) and bool(os.listdir(folder.path))
        os.makedirs(folder.new)
    if is_there:
        discard(folder, [], Work("check"))
        raise OSError("the folder is not empty")


def finish(folder: Folder, manifest: bytes, work: Work) -> WriteFault | None:
    """Writes the manifest, and gives the folder its name. Returns why that failed, if so."""
    try:
        output = _opened(path_in(folder.new, MANIFEST), None)
        _put(output, [manifest])
        _checked(output.finish, folder.path)
        if folder.new != folder.path:
            _checked(os.rename, folder.path, folder.new, folder.path)
    except WriteFault as fault:
        return fault
    return None


def discard(folder: Folder, names: list[str], work: Work) -> None:
    """Removes a folder that is not whole: these parts of it, if it has a URL."""
    if not is_url(folder.path):
        for _ in range(TRIES):
            shutil.rmtree(folder.new, ignore_errors=True)
            if not os.path.exists(folder.new):
                return
            time.sleep(0.1)
        return
    from ..sources.remote import system_of  # few runs need it

    for name in names:
        with suppress(Exception):
            system, path = system_of(path_in(folder.path, name))
            system.rm(path)


def filter_to_folder(
    cluster: Cluster, folder: Folder, stream: Callable[..., Stream], keep_going: bool
) -> Result:
    """Lets workers write a folder. `stream` makes the stream, whose answers go to `take`.

    Raises:
        CityseqError: The folder is not whole, and is not there.
    """
    parts: list[ListedPart] = []

    def take(answer: Answer, _: int) -> None:
        if isinstance(answer, PartAnswer) and answer.part is not None:
            parts.append(answer.part)

    try:
        _raised(cluster.task("make", None, make, folder).result())
        runs = Runs(cluster, partial(write_part, folder), has_whole=False)
        (result,) = runs.results([stream(take=[take])])
        result.raised_if_invalid(keep_going)
        manifest = manifest_of(parts, __version__)
        _raised(cluster.task("finish", None, finish, folder, manifest).result())
        return result
    except BaseException:
        with suppress(Exception):
            names = [part.name for part in parts]
            cluster.task("discard", None, discard, folder, names).wait(PATIENCE)
        raise


def _raised(fault: WriteFault | None) -> None:
    if fault is not None:
        raise fault
