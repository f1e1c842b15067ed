"""Hints for invalid lines, which Python reads, and not the proved engine: what is at the place of a
broken rule, and what a file may be that is not a stream."""
from __future__ import annotations

import json
import re
from collections.abc import Callable, Iterator
from typing import TYPE_CHECKING

from . import quoted
from .reports import Report

if TYPE_CHECKING:
    from ..foreign import Json, Object

LONGEST = 1 << 20  # longer lines are not read as JSON
VALUE = 256  # bytes of a value that are read
NAME_BEFORE = re.compile(rb'("(?:[^"\\\x00-\x1f]|\\.)*")[ \t\r]*:[ \t\r]*\Z')
STRING = re.compile(rb'"(?:[^"\\\x00-\x1f]|\\.)*"')
WORD = re.compile(rb"[-+.0-9A-Za-z]+")
KINDS = {"{": "an object", "[": "an array", '"': "a string", "t": "true", "f": "false", "n": "null"}
SECOND_LEVEL = re.compile(
    r"(Bridge|Building|Tunnel)"
    r"(ConstructiveElement|Furniture|Installation|Part|Room|Storey|Unit|HollowSpace)\Z"
)
SECOND_HEADER = (
    "the line is a second header, as where two streams were joined: remove it if both headers have"
    " the same transform, and else keep the streams apart"
)
Needs = tuple[
    str, "Object", tuple[str, ...]
]  # what an object is, the object, and the members that it needs
Hint = Callable[[bytes, int, bool], "str | None"]
HEAD = 65_536  # bytes that are read for a hint
TYPING_ERROR = 0.9  # how similar a text is to a type that is misspelled
NO_HEADER, NOT_EMPTY, SYNTAX = 1, 16, 4
TAR = 257, b"ustar"  # where an archive of tar has its mark
CITYJSON = rb'"type"\s*:\s*"CityJSON"'
FEATURE = rb'"type"\s*:\s*"CityJSONFeature"'
GEOJSON = rb'"type"\s*:\s*"(?:FeatureCollection|Feature)"'
HTML = rb"(?i)\s*<(?:!doctype html|html)\b"
UTF_16 = "It is UTF-16: convert it first, as by iconv -f UTF-16 -t UTF-8."
# No stream begins like this: the bytes, and what the file is and what to do.
MARKS = (
    (
        b"\x1f\x8b",
        "It is packed by gzip: give its name as FILE, or unpack it first, as by zcat.",
    ),
    (
        b"\x28\xb5\x2f\xfd",
        "It is packed by Zstandard: give its name as FILE, or unpack it first, as by zstdcat.",
    ),
    (b"\xfd7zXZ\0", "It is packed by xz: unpack it first, as by xzcat."),
    (b"BZh", "It is packed by bzip2: unpack it first, as by bzcat."),
    (b"PK\x03\x04", "It is a zip archive: unpack it first, as by unzip -p."),
    (
        b"\xef\xbb\xbf",
        "It begins with a byte order mark: leave the first three bytes out, as by tail -c +4.",
    ),
    (b"\xff\xfe", UTF_16),
    (b"\xfe\xff", UTF_16),
    (
        b"version https://git-lfs",
        "It is a pointer of Git LFS and not the file: fetch the file, as by git lfs pull.",
    ),
    (
        b"\x1e",
        "It is a JSON text sequence (RFC 8142): remove the byte 1E before each line, as by tr -d"
        " '\\036'.",
    ),
)
EMPTY = "It is empty: look at what fills it, which has failed or has written nothing."
IN_TAR = "It is an archive of tar: take the file out first, as by tar -xOf."
PAGE = "It is a page of HTML, such as the error page of a server: download the file again."
XML = "It is XML, such as CityGML: convert it first, as by citygml-tools."
GEO = "It is GeoJSON: cityseq reads CityJSONSeq, which has other objects and needs a header."
ARRAY = "It is a JSON array: write each of its items on a line of its own, without the brackets."
MANY_LINES = (
    "It is one JSON text over many lines: a stream has a header and then each feature on one line."
    " Make a stream of it, as by cityseq-run split."
)
ONE_LINE = (
    "It is one CityJSON object with all city objects: a stream has none in its first line."
    " Make a stream of it, as by cityseq-run split."
)
FEATURE_FIRST = (
    "Its first line is a feature: put the header before it, the line that has the transform."
)
OLD_LINES = "Its lines end with CR alone: let them end with LF, as by tr '\\r' '\\n'."


def _decoded(text: bytes) -> Json:
    return json.loads(text.decode("utf-8"))


def _string_at(line: bytes, place: int) -> str | None:
    """Returns the string at a place, with its escapes undone."""
    found = STRING.match(line, place)
    return _decoded(found.group()) if found else None


def _name_before(line: bytes, place: int) -> str | None:
    """Returns the name of the member whose value is at a place."""
    found = NAME_BEFORE.search(line[max(0, place - VALUE) : place])
    return _decoded(found.group(1)) if found else None


def _word_at(line: bytes, place: int) -> str | None:
    found = WORD.match(line, place, place + VALUE)
    return found.group().decode("ascii") if found else None


def _list(value: object) -> list[Json]:
    return value if isinstance(value, list) else []


def _members(value: object) -> Object:
    return value if isinstance(value, dict) else {}


def _of_geometry(geometry: object) -> Iterator[Needs]:
    told = _members(geometry)
    if told.get("type") == "GeometryInstance":
        yield "the instance", told, ("type", "template", "boundaries", "transformationMatrix")
        return
    yield "the geometry", told, ("type", "lod", "boundaries")
    semantics = told.get("semantics")
    yield "the semantics", _members(semantics), ("surfaces", "values")
    for surface in _list(_members(semantics).get("surfaces")):
        yield "the semantic surface", _members(surface), ("type",)


def _of_header(root: Object) -> Iterator[Needs]:
    yield "the header", root, ("type", "version", "transform", "CityObjects", "vertices")
    yield "transform", _members(root.get("transform")), ("scale", "translate")
    templates = _members(root.get("geometry-templates"))
    yield "geometry-templates", templates, ("templates", "vertices-templates")
    for geometry in _list(templates.get("templates")):
        yield from _of_geometry(geometry)


def _of_feature(root: Object) -> Iterator[Needs]:
    yield "the feature", root, ("type", "id", "CityObjects", "vertices")
    for name, told in _members(root.get("CityObjects")).items():
        kind = _members(told).get("type")
        is_part = isinstance(kind, str) and SECOND_LEVEL.match(kind)
        yield f"the city object {quoted(name)}", _members(told), (
            "type",
            "parents",
        ) if is_part else ("type",)
        for geometry in _list(_members(told).get("geometry")):
            yield from _of_geometry(geometry)


def _missing(line: bytes, place: int, is_header: bool) -> str | None:
    """Describes which member the object at a place lacks. It reads the whole line, because the
    place alone does not show what the object is."""
    root = _decoded(line)
    if not is_header and root.get("type") == "CityJSON":
        return SECOND_HEADER
    told, _ = json.JSONDecoder().raw_decode(line[place:].decode("utf-8"))
    for what, found, needed in _of_header(root) if is_header else _of_feature(root):
        lacking = [name for name in needed if name not in found]
        if lacking and found == told and isinstance(told, dict):
            return f"{what} has no {' and no '.join(map(quoted, lacking))}"
    return None


def _kind(line: bytes, place: int, _: bool) -> str | None:
    sign, name = chr(line[place]), _name_before(line, place)
    what = "an item of a list" if name is None else f"the value of {quoted(name)}"
    return f"{what} is {KINDS.get(sign, 'a number')}"


def _told(read: Callable[[bytes, int], str | None], words: str, quote: bool = True) -> Hint:
    """Returns a function that describes with these words what is read at a place."""

    def told(line: bytes, place: int, _: bool) -> str | None:
        text = read(line, place)
        return None if text is None else words.format(quoted(text) if quote else text)

    return told


def types_like(text: str) -> list[str]:
    """Returns the types of city objects that a text may mean, the nearest first. That is one if it
    differs little from the text."""
    from difflib import get_close_matches  # only this function needs it

    from . import library

    names = {name.lower(): name for name in library().type_names()}
    near = get_close_matches(text.lower(), names, 1, TYPING_ERROR)
    return [names[each] for each in near or get_close_matches(text.lower(), names)]


def _object_type(line: bytes, place: int, _: bool) -> str | None:
    text = _string_at(line, place)
    if text is None:
        return None
    near = " or ".join(", ".join(types_like(text)).rsplit(", ", 1))
    return f"the type is {quoted(text)}" + (f": {near} may be meant" if near else "")


READERS: dict[int, Hint] = {
    10: _missing,
    11: _told(_string_at, "the name is {}"),
    12: _kind,
    13: _told(_word_at, "the number begins with {}", False),
    14: _told(_string_at, "the type is {}"),
    15: _told(_string_at, "the version is {}"),
    18: _told(_word_at, "the number is {}", False),
    19: _object_type,
    20: _told(_string_at, "the id is {}"),
    21: _told(_string_at, "the child is {}"),
    22: _told(_string_at, "the id in the list is {}"),
    23: _told(_name_before, "the city object is {}"),
    24: _told(_string_at, "the type is {}"),
    25: _told(_word_at, "the index is {}", False),
    27: _told(_word_at, "the index is {}", False),
    28: _told(_word_at, "the template is {}", False),
    31: _told(_name_before, "the city object is {}"),
}


def met(line: bytes, place: int, code: int, is_header: bool) -> str | None:
    """Describes what is at the place of a broken rule. Returns None if it cannot be read."""
    read = READERS.get(code)
    if read is None or not place < len(line) <= LONGEST:
        return None
    try:
        return read(line, place, is_header)
    except (ValueError, RecursionError, AttributeError):
        return None


def _is_utf_16(head: bytes) -> bool:
    """Whether each second byte of the beginning is 0, as of ASCII in UTF-16."""
    pairs = head[:64]
    return len(pairs) >= 4 and any(pairs[::2]) != any(pairs[1::2])


def _format_of(head: bytes) -> str | None:
    """Returns a hint by the format that a beginning shows. None if it may be JSON."""
    for mark, hint in MARKS:
        if head.startswith(mark):
            return hint
    if head[TAR[0] :].startswith(TAR[1]):
        return IN_TAR
    if _is_utf_16(head):
        return UTF_16
    if re.match(HTML, head):
        return PAGE
    return XML if head.lstrip()[:1] == b"<" else None


def _hint_on_json(end: Report, first: bytes, rest: bytes) -> str | None:
    """Returns a hint by the first line of a JSON text, and what follows it."""
    sign = first.strip()[:1]
    if re.search(GEOJSON, first + rest[:1_000]) and not re.search(CITYJSON, first):
        return GEO
    if end.code == SYNTAX and end.byte >= len(first.rstrip()) and sign in (b"{", b"["):
        return MANY_LINES if rest.strip() else None
    if sign == b"[":
        return ARRAY
    if end.code == SYNTAX and b"\r{" in first:
        return OLD_LINES
    if re.search(FEATURE, first) and end.code != SYNTAX:
        return FEATURE_FIRST
    is_whole = end.code == NOT_EMPTY and re.search(CITYJSON, first)
    return ONE_LINE if is_whole and not re.search(FEATURE, rest) else None


def hints_for(end: Report, head: bytes) -> list[str]:
    """Returns what the file may be, by the report that ended it and by its first bytes. There are
    hints only if the first line ended it."""
    if end.line != 1:
        return []
    if end.code == NO_HEADER:
        return [EMPTY]
    first, rest = (head.split(b"\n", 1) + [b""])[:2]
    hint = _format_of(head) or _hint_on_json(end, first, rest)
    return [] if hint is None else [hint]
