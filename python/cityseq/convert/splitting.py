"""Makes a stream of a whole CityJSON file: a feature for each city object of the first level.
`split` writes it, and the engine reads it.

The file is read once, to find where its city objects and vertices are. Then each feature is made
from their spans. So one city object is decoded at a time. The memory has the text, 8 bytes for
each vertex, and 17 bytes for each city object."""
from __future__ import annotations

import json
import re
from array import array
from bisect import bisect_left
from collections.abc import Callable, Generator, Iterator
from dataclasses import dataclass
from functools import partial
from itertools import islice
from typing import TYPE_CHECKING

from ..engine import LINE_LIMITS, USUAL_LINE, InvalidStream, library
from ..sources import Source, TextsFile, name_of, refuse_same
from ..sources.outputs import Target, Writer
from . import (
    NAME,
    TOO_DEEP,
    FirstUse,
    Indices,
    Items,
    Spans,
    compact,
    plain,
    read_text,
    rewritten,
    whole_number,
)

if TYPE_CHECKING:
    from ..foreign import Json

NUMBER = r"-?(?:0|[1-9]\d*)(?:\.\d+)?(?:[eE][+-]?\d+)?"
WHOLE = r"-?(?:0|[1-9]\d{0,17})"
GAP = r"[ \t\n\r]*"
VERTEX = re.compile(
    rf"\[{GAP}{WHOLE}{GAP},{GAP}{WHOLE}{GAP},{GAP}{WHOLE}{GAP}\]{GAP}([,\]]){GAP}", re.ASCII
)
THREE = re.compile(r'\[([^][{}",]+),([^][{}",]+),([^][{}",]+)\]')
NUMBERS = re.compile(rf"\[{GAP}{NUMBER}{GAP}(?:,{GAP}{NUMBER}{GAP})*\]{GAP}([,\]]){GAP}", re.ASCII)
CHILDREN = json.JSONDecoder(parse_float=len, parse_int=len)  # a number is no text, and so no id
FIRST_LEVEL = 16  # types that the table has before those of the second level
GROUP = "CityObjectGroup"
IS_MAIN, HAS_CHILDREN, IS_REACHED = 1, 2, 4
NUMBER_BITS, HASH = 28, (1 << 36) - 1  # a key has the hash of a name, and its number in the file
DEFAULT = "default-theme-"
LISTS = ("materials", "textures", "vertices-texture")  # of an appearance
STREAM = ": it is a stream already, whose name ends in .city.jsonl"
TWICE = "the name stands twice: remove one"
UPGRADE = "upgrade the file first, as by cjio FILE upgrade save OUTPUT"
TOGETHER = 1 << 16  # bytes that are written at once


def _vertex_fault(item: str) -> str | None:
    """Returns what is wrong with a vertex, if anything is."""
    found = THREE.fullmatch(item)
    if found is not None and None not in map(whole_number, found.groups()):
        return None
    return "a vertex is three whole numbers below 10^18 in size"


def _any(_: str) -> None:
    """Accepts an item of any kind."""


class Document:
    """A whole file: where its city objects and the items of its lists are.

    Attributes:
        spans: Its text.
        objects: Its city objects, each with its name.
        vertices: Its vertices.
        lists: Its materials, textures and vertices of textures.
    """

    def __init__(self, file: str, text: str) -> None:
        """Finds the parts of a text.

        Raises:
            InvalidStream: It is no CityJSON object of version 2.0, or a name stands twice.
        """
        self.spans = Spans(file, text)
        nothing = Items(text, array("Q", [0]))
        self.objects = self.vertices = nothing
        self.lists = dict.fromkeys(LISTS, nothing)
        names = library().type_names()
        self._levels = {name: number < FIRST_LEVEL for number, name in enumerate(names)}
        self._members: dict[str, str] = {}  # of the root, for the header, in order
        self._appearance: dict[str, str] | None = None  # its other members, if it is an object
        self._flags = bytearray()  # of each city object
        self._begins, self._keys = array("Q"), array("Q")
        self._read()
        found = {name: FirstUse(len(items)) for name, items in self.lists.items()}
        self._used_vertices = FirstUse(len(self.vertices))
        self._indices = Indices(self._used_vertices, *found.values())
        self._index_of = {name: index for name, index in found.items() if len(self.lists[name])}
        self._rule = self._indices.object_rule()
        self._themes = self._found_themes()

    @classmethod
    def of(cls, source: Source) -> Document:
        """Reads a file. Raises `ReadFault` too if it cannot be read."""
        return cls(name_of(source), read_text(source))

    def _header(self) -> str:
        """Returns the header of the stream."""
        members = dict(self._members)
        self._begin()
        if "geometry-templates" in members:
            spelled, rule = members["geometry-templates"], self._indices.appearance_rule()
            at = _value_in(spelled)
            members["geometry-templates"] = rewritten(spelled, {'"templates"': [rule]}, at)
        if self._appearance is not None:
            parts = [*filter(None, self._appearance.values()), *self._used()]
            members["appearance"] = f'"appearance":{{{",".join(parts)}}}'
        return f"{{{','.join(members.values())}}}"

    def lines(self) -> Iterator[str]:
        """Yields the lines of the stream without their LF, in Latin-1: the header, and then the
        features in the order of the file.

        Raises:
            InvalidStream: No feature has one of the city objects.
        """
        yield self._made(self._header, "geometry-templates")
        for number, flags in enumerate(self._flags):
            if flags & IS_MAIN:
                yield self._made(partial(self._feature, number), number)
        for number, flags in enumerate(self._flags):
            if not flags & IS_REACHED:
                raise self.spans.fault(
                    self.path(number),
                    "no city object of the first level reaches it by `children`:"
                    " name it there, or remove it",
                )

    def path_of_line(self, number: int) -> str:
        """Returns the path of what a line of the stream has, by its number from 0."""
        mains = (at for at, flags in enumerate(self._flags) if flags & IS_MAIN)
        return self.path(next(islice(mains, number - 1, None))) if number else "the header"

    def path(self, number: int) -> str:
        """Returns the path of a city object in the file."""
        return f"CityObjects/{self._name(number)}"

    # ---- reading

    def _read(self) -> None:
        """Finds the parts of the text, and judges the root."""
        spans = self.spans
        begin = spans.skipped(0)
        if spans.text[begin : begin + 1] != "{":
            raise spans.fault("", "no CityJSON object: byte 0: syntax")
        end = spans.skipped(spans.members(begin, "", self._member))
        for name in ("type", "version", "CityObjects", "vertices"):
            if name not in self._members:
                raise spans.fault(name, "the member is missing")
        if end < len(spans.text):
            is_stream = not len(self.objects) and spans.text[end] == "{"
            what = STREAM if is_stream else ": remove it"
            raise spans.fault(f"byte {end}", f"text follows the CityJSON object{what}")
        self._refuse_twice()

    def _found_themes(self) -> list[str]:
        """Returns the members of the appearance that each feature has."""
        if self._appearance is None:
            return []
        return [text for name, text in self._appearance.items() if name.startswith(DEFAULT)]

    def _member(self, name: re.Match[str]) -> int:
        """Takes a member of the root. Returns where it ends."""
        text, at, shown = plain(name[1]), name.end(), ""
        if text in self._members:
            raise self.spans.fault(text, TWICE)
        self._members[text] = ""
        is_object = self.spans.text.startswith("{", at)
        if text == "CityObjects" and is_object:
            end, shown = self.spans.members(at, text, self._city_object), "{}"
            self._begins.append(end)
            self.objects = Items(self.spans.text, self._begins)
        elif text == "vertices" and self.spans.text.startswith("[", at):
            self.vertices = self.spans.items(at, text, VERTEX, _vertex_fault)
            end, shown = self.vertices.end, "[]"
        elif text == "appearance" and is_object:
            self._appearance = {}
            end = self.spans.members(at, text, self._of_appearance)
        else:
            value, end = self.spans.value(at, text)
            self._judge(text, value, self.spans.text[at] == '"')
            shown = compact(self.spans.text[at:end])
        self._members[text] = f"{name[1]}:{shown}"
        return end

    def _judge(self, name: str, value: Json, is_text: bool) -> None:
        """Judges the members of the root that a stream cannot do without."""
        if name in ("CityObjects", "vertices"):
            raise self.spans.fault(
                name, "it is no " + ("array" if name == "vertices" else "object")
            )
        if name in ("type", "version") and not is_text:
            raise self.spans.fault(name, "it is no text")
        if name == "type" and value != "CityJSON":
            what = "it is a line of a stream" if value == "CityJSONFeature" else "it is no CityJSON"
            raise self.spans.fault(name, what)
        if name == "version" and value != "2.0":
            raise self.spans.fault(name, f"it is CityJSON {value[:20]}, and not 2.0: {UPGRADE}")

    def _city_object(self, name: re.Match[str]) -> int:
        """Takes a city object. Returns where it ends."""
        text = plain(name[1])
        value, end = self.spans.value(name.end(), "CityObjects/", text)
        flags, kind = IS_MAIN, None
        if isinstance(value, dict):
            kind = value.get("type")
            is_first = self._levels.get(kind) if isinstance(kind, str) else None
            if is_first is False or (is_first is None and value.get("parents")):
                flags = 0
            if kind != GROUP and value.get("children"):
                flags |= HAS_CHILDREN
        self._keys.append(_hash(text) << NUMBER_BITS | len(self._flags))
        self._begins.append(name.start(1))
        self._flags.append(flags)
        return end

    def _of_appearance(self, name: re.Match[str]) -> int:
        """Takes a member of the appearance. Returns where it ends."""
        assert self._appearance is not None
        text, at = plain(name[1]), name.end()
        path = f"appearance/{text}"
        if text in self._appearance:
            raise self.spans.fault(path, TWICE)
        if text in LISTS and self.spans.text.startswith("[", at):
            self._appearance[text] = ""
            self.lists[text] = self.spans.items(at, path, NUMBERS, _any)
            return self.lists[text].end
        _, end = self.spans.value(at, path)
        self._appearance[text] = f"{name[1]}:{compact(self.spans.text[at:end])}"
        return end

    def _refuse_twice(self) -> None:
        """Sorts the keys of city objects. Raises `InvalidStream` if two have the same name."""
        self._keys = keys = _sorted(self._keys)
        pairs = zip(keys, islice(keys, 1, None))
        alike = {key >> NUMBER_BITS for key, after in pairs if key ^ after < 1 << NUMBER_BITS}
        for each in alike:
            names = list(map(self._name, self._numbers(each)))
            for name in names:
                if names.count(name) > 1:
                    raise self.spans.fault(f"CityObjects/{name}", TWICE)

    # ---- city objects by their names

    def _name(self, number: int) -> str:
        found = NAME.match(self.spans.text, self._begins[number])
        assert found is not None
        return plain(found[1])

    def _numbers(self, hashed: int) -> Iterator[int]:
        """Yields the numbers of the city objects whose names have a hash."""
        for at in range(bisect_left(self._keys, hashed << NUMBER_BITS), len(self._keys)):
            if self._keys[at] >> NUMBER_BITS != hashed:
                return
            yield self._keys[at] & ~(-1 << NUMBER_BITS)

    def _children_of(self, number: int) -> Iterator[int]:
        """Yields the numbers of the children of a city object that the file has."""
        item = self.objects[number].encode("latin-1").decode("utf-8")
        value, _ = CHILDREN.raw_decode(item, _value_in(item))
        children = value.get("children")
        for child in children if isinstance(children, list) else ():
            if isinstance(child, str):
                same = self._numbers(_hash(child))
                yield from (each for each in same if self._name(each) == child)

    def _reached_from(self, number: int) -> list[int]:
        """Returns a city object, and those that its children reach."""
        reached = [number]
        seen = {number}
        for each in reached:
            flags = self._flags[each]
            self._flags[each] = flags | IS_REACHED
            if flags & HAS_CHILDREN:
                new = [child for child in self._children_of(each) if child not in seen]
                seen.update(new)
                reached.extend(dict.fromkeys(new))
        return reached

    # ---- writing

    def _made(self, make: Callable[[], str], where: str | int) -> str:
        """Returns a line. `where` is its path, or the number of its city object.

        Raises:
            InvalidStream: It is nested deeper than Python reads.
        """
        try:
            return make()
        except RecursionError:
            path = where if isinstance(where, str) else self.path(where)
            raise self.spans.fault(path, TOO_DEEP) from None

    def _begin(self) -> None:
        """Begins a line: nothing is used."""
        self._used_vertices.begin()
        for index in self._index_of.values():
            index.begin()

    def _feature(self, number: int) -> str:
        objects: list[str] = []
        name, vertices, appearance = "", "", ""
        self._begin()
        is_alone = not self._flags[number] & HAS_CHILDREN
        self._flags[number] |= IS_REACHED
        for each in (number,) if is_alone else self._reached_from(number):
            item = self.objects[each]
            found = NAME.match(item)
            assert found is not None
            name = name or found[1]
            if '"geometry"' in item or '"address"' in item or "\\" in item:
                item = rewritten(item, self._rule, found.end())
            objects.append(item)
        if self._used_vertices.used:
            vertices = ",".join(map(self.vertices.__getitem__, self._used_vertices.used))
        if self._appearance is not None:
            parts = ",".join([*self._themes, *self._used()])
            appearance = f',"appearance":{{{parts}}}' if parts else ""
        return (
            f'{{"type":"CityJSONFeature","id":{name},"CityObjects":{{{",".join(objects)}}},'
            f'"vertices":[{vertices}]{appearance}}}'
        )

    def _used(self) -> Iterator[str]:
        """Yields the lists of an appearance, with the items that are used."""
        for name, index in self._index_of.items():
            if index.used:
                yield f'"{name}":[{",".join(map(self.lists[name].__getitem__, index.used))}]'


def _value_in(member: str) -> int:
    """Returns where the value of a spelled member begins."""
    found = NAME.match(member)
    assert found is not None
    return found.end()


def _sorted(keys: array[int]) -> array[int]:
    """Returns keys in order. They are sorted by quarters, since Python's integers are five times as
    long as those of an array."""
    made = array("Q")
    for quarter in range(4):
        made.extend(sorted(key for key in keys if key >> 62 == quarter))
    return made


def _hash(name: str) -> int:
    return hash(name) & HASH


@dataclass(frozen=True)
class Split:
    """What came of a whole file.

    Attributes:
        file: The name of the source.
        features: How many features the stream has.
        objects: How many city objects the file has.
        vertices: How many vertices the file has.
        longest: The bytes of the longest line, without its LF.
    """

    file: str
    features: int
    objects: int
    vertices: int
    longest: int


def split(source: Source, output: Target, *, line_limit: int = USUAL_LINE) -> Split:
    """Writes a whole CityJSON file as a stream: a header, and then a feature for each city object
    of the first level, with all that its `children` reach.

    All texts keep their spelling. Indices are rewritten, and white space between tokens is left
    out. The geometry is not judged: `check` does that.

    Args:
        source: The file: a path, `-` for standard input, bytes, or a binary file. It is unpacked as
            a stream is.
        output: A path, `-` for standard output, or a binary file. A path is renamed when it is
            whole. It is packed if its name ends in .gz or .zst.
        line_limit: The most bytes in a line.

    Returns:
        The counts.

    Raises:
        InvalidStream: The file is no CityJSON object of version 2.0 that can be split, or a line is
            longer than the limit. The text names a path in the file, or a byte.
        ReadFault: The file cannot be read, or it changes.
        WriteFault: The output cannot be written.
        RequestError: The output is the source.
        LibraryMissing: The library is not there, or it is another version.
    """
    refuse_same([source], [output])
    writer = Writer(output)
    try:
        document = Document.of(source)
        lines = longest = 0
        for some in _together(document):
            lines += len(some)
            longest = max(longest, max(map(len, some)))
            writer.write("\n".join([*some, ""]).encode("latin-1"))
        if longest > line_limit:
            raise _too_long(document, longest, line_limit)
        writer.close(True)
    finally:
        writer.discard()
    objects, vertices = len(document.objects), len(document.vertices)
    return Split(document.spans.file, lines - 1, objects, vertices, longest)


def _together(document: Document) -> Iterator[list[str]]:
    """Yields some lines at once, so that to write them takes little time."""
    some: list[str] = []
    size = 0
    for line in document.lines():
        some.append(line)
        size += len(line)
        if size >= TOGETHER:
            yield some
            some, size = [], 0
    if some:
        yield some


def _too_long(document: Document, length: int, limit: int) -> InvalidStream:
    """Returns the fault of a line that is too long. The lines are made again to find it."""
    number = next(at for at, line in enumerate(document.lines()) if len(line) == length)
    what = f"its line has {length:,} bytes, and the limit is {limit:,}: "
    if length > LINE_LIMITS[1]:
        what += f"no limit is above {LINE_LIMITS[1]:,}"
    else:
        what += f"use --line-limit {length}, here and for all that reads the stream"
    return document.spans.fault(document.path_of_line(number), what)


def split_file(source: Source) -> TextsFile:
    """Returns the stream of a whole file. A read raises `InvalidStream` if the file cannot be
    split, and `ReadFault` if it cannot be read."""
    return TextsFile(name_of(source), _texts(source))


def _texts(source: Source) -> Generator[bytes, None, None]:
    for some in _together(Document.of(source)):
        yield "\n".join([*some, ""]).encode("latin-1")
