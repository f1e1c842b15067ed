"""Makes one CityJSON object of streams: each vertex, material and texture once.

The engine judges each line first. City objects are written as they come, and then what is joined:
vertices, appearance, templates and the other members of the headers."""
from __future__ import annotations

import os
from collections import defaultdict
from collections.abc import Callable, Iterable, Iterator
from dataclasses import dataclass
from decimal import Decimal
from hashlib import blake2b
from itertools import count, islice
from typing import Any

from ..engine import USUAL_DEPTH, USUAL_LINE, CallStatus, InvalidStream, RequestError, library
from ..engine.judge import Limits, Options, Work, held, work_of
from ..engine.world import transform_of, units_of
from ..run.features import confirm, fault_of
from ..sources import Source, bytes_of, name_of, refuse_same
from ..sources.chunks import Chunks
from ..sources.outputs import Target, Whole, Writer
from . import (
    DECODER,
    LIMIT,
    TOO_DEEP,
    Indices,
    Lookup,
    Rule,
    compact,
    items_of,
    members_of,
    rewritten,
    whole_number,
)
from .splitting import LISTS

Place = tuple[str, int]  # a file and a line
Once = defaultdict[str, int]  # numbers of texts
OWN = ("type", "id", "CityObjects", "vertices", "appearance")  # members of a feature
WRITTEN = ("type", "version", "transform", "CityObjects", "vertices")  # of a header, without others
EXTENT = "the extent is that of the header: it is too large if the stream was filtered"
TOGETHER = 1 << 12  # vertices that are written at once


def _once() -> Once:
    """Returns what numbers texts in the order in which they first come."""
    return defaultdict(count().__next__)


class Moved(Lookup):
    """Indices of the items of a line, as indices of the whole file."""

    def __init__(self, count: int, move: Callable[[int], int], refuse: Callable[[int], Exception]):
        """Takes how many items there are, the new index of each, and the fault for another one."""
        super().__init__()
        self._count, self._move, self._refuse = count, move, refuse

    def new_index(self, old: int) -> str:
        if not 0 <= old < self._count:
            raise self._refuse(old)
        return str(self._move(old))


class Templates:
    """The templates of all streams."""

    def __init__(self) -> None:
        self._templates: list[str] = []
        self._vertices: list[str] = []
        self._begins: dict[tuple[str, ...], int] = {}

    def begin_of(self, templates: list[str], vertices: list[str]) -> int:
        """Returns the index of the first of some templates. Streams with the same ones share
        them."""
        key = (*templates, "", *vertices)
        if key not in self._begins:
            self._begins[key] = len(self._templates)
            moved = Moved(len(vertices), len(self._vertices).__add__, IndexError)
            rule: Rule = {'"boundaries"': moved.renumbered}
            self._templates += [rewritten(each, rule) for each in templates]
            self._vertices += vertices
        return self._begins[key]

    def spelled(self) -> str:
        """Returns them as a member of the root."""
        return (
            f'"geometry-templates":{{"templates":[{",".join(self._templates)}],'
            f'"vertices-templates":[{",".join(self._vertices)}]}}'
        )


def shift_of(scale: Decimal, shift: Decimal, first_scale: Decimal, first: Decimal) -> int | None:
    """Returns how many times the scale a translate is above another. None if that is no whole
    number, or the scales differ."""
    if scale != first_scale:
        return None
    if shift == first:
        return 0
    units, step = (units_of(shift), units_of(first)), units_of(scale)
    if units[0] is None or units[1] is None or not step or (units[0] - units[1]) % step:
        return None
    return (units[0] - units[1]) // step


def transform_text(scale: list[Decimal], translate: list[Decimal]) -> str:
    """Returns what a transform has, for a fault."""
    return f"scale {' '.join(map(str, scale))} and translate {' '.join(map(str, translate))}"


def refusal(what: str, place: Place) -> Callable[[int], InvalidStream]:
    """Returns what makes the fault for an index of no item."""
    file, line = place
    return lambda old: InvalidStream(f"line {line}: {what} has no item {old}", None, file)


def lookup_of(name: str, items: list[str], joined: Once, place: Place) -> Moved:
    """Returns the lookup of the items of a list of a line."""
    refuse = refusal(f"appearance/{name}", place)
    return Moved(len(items), lambda old: joined[items[old]], refuse)


def join(joined: dict[str, tuple[str, Place]], name: str, text: str, place: Place) -> None:
    """Adds a member. Raises `InvalidStream` if an earlier line has a different one."""
    kept, (file, line) = joined.setdefault(name, (text, place))
    if kept != text:
        raise InvalidStream(
            f"line {place[1]} and line {line} of {file} have different members {name}:"
            " collect them apart",
            None,
            place[0],
        )


@dataclass(frozen=True)
class Collected:
    """What came of streams.

    Attributes:
        features: How many features the streams have.
        objects: How many city objects the file has.
        vertices: How many vertices the file has.
        notes: What a user should know, such as that the extent is that of a header.
    """

    features: int
    objects: int
    vertices: int
    notes: tuple[str, ...] = ()


def _lines(source: Source, work: Work) -> Iterator[tuple[int, bytes]]:
    """Yields the number and the text of the header and of each feature. All are valid."""
    lines, chunks = 0, Chunks(source, work)
    for chunk in chunks:
        for _, view in chunk.parts(chunk.length or 1):
            header, part = chunk.header, held(view)
            request, room = work.request(header, part), part.count(b"\n") + 1
            answer, _, raws = library().features(header, part, request, room)
            if answer.status != CallStatus.COMPLETE:
                raise fault_of(answer, header, part, lines, chunk.file)
            if not lines:
                yield 1, header
            for raw in raws:
                yield raw.line + lines, bytes(part[raw.begin : raw.begin + raw.length])
            lines += answer.lines - 1
        if chunk.fault is not None:
            raise chunk.fault
    confirm(chunks)


class Collection:
    """The CityJSON object that is made."""

    def __init__(self, write: Callable[[str], None]) -> None:
        """Takes what writes its text, in Latin-1."""
        self._write = write
        self._transform: tuple[list[Decimal], list[Decimal], str] | None = None  # of a file
        self._members: dict[str, tuple[str, Place]] = {}  # of headers, as they are spelled
        self._appearance: dict[str, tuple[str, Place]] = {}
        self._has_appearance = False
        self._lists = {name: _once() for name in LISTS}
        self._vertices = _once()
        self._templates: Templates | None = None
        self._objects: dict[str, tuple[bytes, Place]] = {}
        self._notes: dict[str, None] = {}
        self._shift = [0, 0, 0]  # of the vertices of the stream
        self._own_templates = Moved(0, int, refusal("geometry-templates", ("", 0)))
        self._features = 0

    def header(self, file: str, line: bytes) -> None:
        """Begins a stream with its header."""
        members = members_of(compact(line.rstrip(b"\n").decode("latin-1").strip(" \t\r")))
        place = file, 1
        is_first = self._transform is None
        self._shift = self._shift_by(file, line)
        if is_first:
            self._write(
                f'{{"type":"CityJSON","version":"2.0","transform":{members["transform"][1]}'
            )
            self._write(',"CityObjects":{')
        lookups = self._lookups(members, place)
        for name, (spelled, value) in members.items():
            if name == "geometry-templates":
                self._take_templates(value, lookups, place)
            elif name not in WRITTEN:
                self._take_member(name, spelled, value, place)
        if "geometry-templates" not in members:
            self._own_templates = Moved(0, int, refusal("geometry-templates", place))

    def feature(self, place: Place, line: bytes) -> None:
        """Takes a feature."""
        members = members_of(compact(line.decode("latin-1").strip(" \t\r")))
        self._features += 1
        vertices, _ = DECODER.raw_decode(members["vertices"][1])

        def move(old: int) -> int:
            moved = [(whole_number(each) or 0) + by for each, by in zip(vertices[old], self._shift)]
            if max(moved) >= LIMIT or min(moved) <= -LIMIT:
                raise InvalidStream(f"line {place[1]}: a vertex moves beyond 10^18", None, place[0])
            return self._vertices["[{},{},{}]".format(*moved)]

        lookup = Moved(len(vertices), move, refusal("vertices", place))
        indices = Indices(lookup, *self._lookups(members, place))
        rule = indices.object_rule({'"template"': self._own_templates.renumbered})
        for name, (spelled, value) in members_of(members["CityObjects"][1]).items():
            self._take_object(name, spelled, rewritten(value, rule), place)
        for name in members:
            if name not in OWN:
                self._notes[f"a whole file has no place for {name} of a feature: left out"] = None

    def end(self) -> Collected:
        """Writes the rest, and returns the counts."""
        self._write('},"vertices":[')
        vertices, comma = iter(self._vertices), ""
        while some := list(islice(vertices, TOGETHER)):
            self._write(comma + ",".join(some))
            comma = ","
        parts = [spelled for spelled, _ in self._members.values()]
        if self._has_appearance:
            lists = (
                f'"{name}":[{",".join(items)}]' for name, items in self._lists.items() if items
            )
            own = (spelled for spelled, _ in self._appearance.values())
            parts.append(f'"appearance":{{{",".join([*own, *lists])}}}')
        if self._templates is not None:
            parts.append(self._templates.spelled())
        self._write("".join(["]", *(f",{part}" for part in parts), "}\n"]))
        if "geographicalExtent" in self._members.get("metadata", ("",))[0]:
            self._notes[EXTENT] = None
        counts = self._features, len(self._objects), len(self._vertices)
        return Collected(*counts, tuple(self._notes))

    # ---- what streams share

    def _shift_by(self, file: str, header: bytes) -> list[int]:
        """Returns by how much the vertices of a stream move on each axis."""
        scale, translate = transform_of(header)
        if self._transform is None:
            self._transform = scale, translate, file
        *first, of = self._transform
        shifts = [shift_of(*axis) for axis in zip(scale, translate, *first)]
        if None in shifts:
            own, other = transform_text(scale, translate), transform_text(*first)
            raise InvalidStream(
                f"its transform has {own}, and that of {of} has {other}: the scales must be equal,"
                " and the translates differ by whole multiples of them",
                None,
                file,
            )
        return [shift or 0 for shift in shifts]

    def _take_member(self, name: str, spelled: str, value: str, place: Place) -> None:
        """Takes a member of a header that is copied."""
        text = f"{spelled}:{value}"
        if name == "appearance":
            return
        if name == "metadata" and self._members.get(name, (text,))[0] != text:
            kept, of = self._members[name]
            inner = members_of(kept.partition(":")[2])
            inner.pop("geographicalExtent", None)
            body = ",".join(f"{key}:{each}" for key, each in inner.values())
            self._members[name] = f'"metadata":{{{body}}}', of
            self._notes[f"the metadata are those of {of[0]}, without the extent"] = None
            return
        join(self._members, name, text, place)

    def _lookups(self, members: dict[str, tuple[str, str]], place: Place) -> list[Moved]:
        """Returns the lookups of materials, textures and vertices of textures of a line."""
        _, spelled = members.get("appearance", ("", ""))
        found = members_of(spelled) if spelled.startswith("{") else {}
        self._has_appearance = self._has_appearance or bool(spelled)
        lists: dict[str, list[str]] = {name: [] for name in LISTS}
        for name, (key, value) in found.items():
            if name in LISTS and value.startswith("["):
                lists[name] = items_of(value)
            else:
                join(self._appearance, name, f"{key}:{value}", place)
        return [lookup_of(name, items, self._lists[name], place) for name, items in lists.items()]

    def _take_templates(self, value: str, lookups: list[Moved], place: Place) -> None:
        """Takes the templates of a header."""
        self._templates = self._templates or Templates()
        members = members_of(value)
        indices = Indices(lookups[0], *lookups)  # of vertices, no rule is used
        templates = items_of(rewritten(members["templates"][1], [indices.appearance_rule()]))
        vertices = items_of(members["vertices-templates"][1])
        begin = self._templates.begin_of(templates, vertices)
        refuse = refusal("geometry-templates", place)
        self._own_templates = Moved(len(templates), begin.__add__, refuse)

    def _take_object(self, name: str, spelled: str, text: str, place: Place) -> None:
        """Takes a city object and its name. Equal copies count once."""
        digest = blake2b(text.encode("latin-1"), digest_size=16).digest()
        before = self._objects.setdefault(name, (digest, place))
        if before[1] is place:
            comma = "," if len(self._objects) > 1 else ""
            self._write(f"{comma}{spelled}:{text}")
        elif before[0] != digest:
            file, line = before[1]
            other = f"line {line}" + (f" of {file}" if file != place[0] else "")
            raise InvalidStream(
                f"line {place[1]} and {other} have different city objects {name}", None, place[0]
            )


def collect(
    sources: Source | Iterable[Source],
    output: Target,
    *,
    line_limit: int = USUAL_LINE,
    depth: int = USUAL_DEPTH,
) -> Collected:
    """Writes streams as one CityJSON object: equal vertices, materials and textures once, and the
    features in order.

    The streams have the same transform. Or their scales are equal, and their translates differ by
    whole multiples of the scale. Then vertices move exactly.

    Args:
        sources: The streams, or the only one, each as `check` takes it.
        output: A path, `-` for standard output, or a binary file. A path is renamed when it is
            whole, and any other output gets nothing before. A path is packed if its name ends in
            .gz or .zst.
        line_limit: The most bytes in a line.
        depth: The most arrays and objects that are open at once.

    Returns:
        The counts, and what a user should know.

    Raises:
        InvalidStream: A line is invalid, or the streams do not fit one another.
        ReadFault: A stream cannot be read, or it changes.
        WriteFault: The output cannot be written.
        MemoryFault: Memory is short.
        RequestError: No stream is given, or the output is one of them.
        LibraryMissing: The library is not there, or it is another version.
    """
    listed = list(sources) if isinstance(sources, (list, tuple)) else _listed(sources)
    if not listed:
        raise RequestError("no stream is given")
    refuse_same(listed, [output])
    work = work_of("filter", Options(Limits(line_limit, depth)))
    writer = Whole(Writer(output))
    try:
        made = Collection(lambda text: writer.write(text.encode("latin-1")))
        for source in listed:
            _collect_one(made, source, work)
        collected = made.end()
        writer.close()
        return collected
    finally:
        writer.discard()


def _listed(sources: Any) -> list[Source]:  # no type tells a source from a list of them
    """Returns the sources, which may be only one."""
    is_one = isinstance(sources, (str, os.PathLike)) or hasattr(sources, "read")
    return [sources] if is_one or bytes_of(sources) is not None else list(sources)


def _collect_one(made: Collection, source: Source, work: Work) -> None:
    """Takes the lines of a stream."""
    file = name_of(source)
    for number, line in _lines(source, work):
        try:
            if number == 1:
                made.header(file, line)
            else:
                made.feature((file, number), line)
        except RecursionError:
            raise InvalidStream(f"line {number}: {TOO_DEEP}", None, file) from None
