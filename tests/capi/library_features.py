#!/usr/bin/env python3
"""Tries the records of features of the library for C: tests/capi/library_features.py LIBRARY PROGRAM

Compares the records of each vector and of random streams with those that Python's own JSON reader
gives. The program's `filter` says which features are kept. The last line is 'N passed, M failed'.
"""
import ctypes
import json
import os
import random
import sys
from json.decoder import scanstring
from typing import Any, Iterator, NamedTuple

HERE = os.path.dirname(os.path.abspath(__file__))
sys.path.insert(0, os.path.join(HERE, "..", "..", "vectors"))
sys.path.insert(0, HERE)
from library import OPTIONS, STREAMS, random_stream  # noqa: E402

from table import cases, run  # noqa: E402

FLAGS = (
    "keep_going",
    "tree",
    "exclude",
    "extensions",
    "asks_ids",
    "asks_types",
    "asks_lods",
    "asks_box",
)
TEXTS = ("ids", "types", "lods", "box")
NUMBERS = (
    "line",
    "begin",
    "length",
    "id_begin",
    "id_length",
    "attributes_begin",
    "attributes_length",
    "objects",
    "geometries",
    "types",
    "lods",
)
COUNTS = (
    "line",
    "place",
    "lines",
    "kept",
    "refused",
    "bytes",
    "tokens",
    "depth",
    "written",
    "list",
    "item",
)
COMPLETE, REFUSED = 0, 1
ROOM = 64
ATTRIBUTES = (
    b"",
    b'"attributes":null,',
    b'"attributes": {"h":[1, 2]} ,',
    b'"attr\\u0069butes":"\xc3\xa9",',
    b'"attributes":-1.5e3,"attribute":1,',
)
OTHERS = (b"", b"", b'"\xe2\x82\xac":{"type":"Road","attributes":{"a":1}},')


class Request(ctypes.Structure):
    """struct cityseq_request."""

    _fields_ = [("line_limit", ctypes.c_uint64), ("depth_limit", ctypes.c_uint64)]
    _fields_ += [(flag, ctypes.c_bool) for flag in FLAGS]
    for text in TEXTS:
        _fields_ += [(text, ctypes.c_char_p), (text + "_length", ctypes.c_size_t)]


class Range(ctypes.Structure):
    """struct cityseq_range."""

    _fields_ = [("some", ctypes.c_uint64), ("least", ctypes.c_int64), ("greatest", ctypes.c_int64)]


class Record(ctypes.Structure):
    """struct cityseq_feature."""

    _fields_ = [(number, ctypes.c_uint64) for number in NUMBERS] + [("ranges", Range * 3)]


class Answer(ctypes.Structure):
    """struct cityseq_answer."""

    _fields_ = [("status", ctypes.c_uint32), ("code", ctypes.c_uint32)]
    _fields_ += [(count, ctypes.c_uint64) for count in COUNTS]


class Told(NamedTuple):
    """What a record says: its numbers, and the least and greatest vertex on each axis, if any."""

    numbers: tuple[int, ...]
    ranges: tuple[tuple[int, int] | None, ...]


def request_of(options: list[str], line_limit: int, depth: int) -> Request:
    """The request that these words of the program stand for."""
    request = Request(line_limit, depth)
    words = [part for word in options for part in word.split("=", 1)]
    while words:
        word = words.pop(0).lstrip("-").replace("-", "_")
        if word in FLAGS:
            setattr(request, word, True)
            continue
        name = {"id": "ids", "type": "types", "lod": "lods", "bbox": "box"}[word]
        text = words.pop(0)
        value = (text if name == "box" else text.replace(",", "\n")).encode()
        setattr(request, "asks_" + name, True)
        setattr(request, name, value)
        setattr(request, name + "_length", len(value))
    return request


def type_numbers(library: ctypes.CDLL) -> dict[str, int]:
    """The numbers of the types of city objects, by their names."""
    text = ctypes.create_string_buffer(64)
    numbers = {}
    for number in range(34):
        length = library.cityseq_type_name(ctypes.c_uint64(number), text, ctypes.c_size_t(64))
        numbers[text.raw[:length].decode()] = number
    return numbers


def type_number(kind: str, types: dict[str, int]) -> int:
    """The number of a type. All types of extensions have the same."""
    return types["extension" if kind.startswith("+") else kind]


def past(line: str, at: int, skipped: str) -> int:
    """The first place from here on that has none of these characters."""
    return len(line) - len(line[at:].lstrip(skipped))


def members_of(line: str) -> Iterator[tuple[str, int, Any, int]]:
    """The members of an object: the name, where its value begins and stops, and the value."""
    decoder, at = json.JSONDecoder(), line.index("{") + 1
    while (at := past(line, at, " \t\r\n,")) < len(line) and line[at] == '"':
        name, at = scanstring(line, at + 1, False)
        at = line.index(":", at) + 1
        at = past(line, at, " \t\r\n")
        value, stop = decoder.raw_decode(line, at)
        yield name, at, value, stop
        at = stop


def lod_class(geometry: dict[str, Any], header: dict[str, Any]) -> int:
    """The class of a geometry's LoD; an instance has that of its template."""
    if geometry["type"] == "GeometryInstance":
        geometry = header["geometry-templates"]["templates"][int(geometry["template"])]
    lod = geometry.get("lod")
    return int(lod[0]) if isinstance(lod, str) and lod[:1] in tuple("01234") else 5


def first_of(text: str, begin: int, stop: int, wanted: str) -> tuple[int, int] | None:
    """Where the value of the first member of this name begins and stops, of the object in text."""
    for name, start, _, end in members_of(text[begin:stop]):
        if name == wanted:
            return begin + start, begin + end
    return None


def attributes_in(text: str) -> tuple[int, int]:
    """Where the attributes of the main city object begin, in bytes, and how long they are."""
    place: tuple[int, int] | None = (0, len(text))
    for name in ("CityObjects", json.loads(text)["id"], "attributes"):
        place = place and first_of(text, *place, name)
    if not place:
        return 0, 0
    return len(text[: place[0]].encode()), len(text[place[0] : place[1]].encode())


def told_of(
    line: bytes, number: int, begin: int, header: dict[str, Any], types: dict[str, int]
) -> Told:
    """What the record of a feature has to say."""
    text = line.decode()
    first: dict[str, tuple[int, Any, int]] = {}
    for name, start, value, stop in members_of(text):
        first.setdefault(name, (start, value, stop))
    start, _, stop = first["id"]
    objects = list(first["CityObjects"][1].values())
    geometries = [geometry for each in objects for geometry in each.get("geometry", [])]
    vertices = first["vertices"][1]
    place = (number, begin, len(line), len(text[:start].encode()), len(text[start:stop].encode()))
    numbers = place + attributes_in(text)
    numbers += (
        len(objects),
        len(geometries),
        sum(1 << n for n in {type_number(each["type"], types) for each in objects}),
        sum(1 << n for n in {lod_class(each, header) for each in geometries}),
    )
    axes = [[int(vertex[axis]) for vertex in vertices] for axis in range(3)]
    return Told(numbers, tuple((min(axis), max(axis)) if axis else None for axis in axes))


def wanted_of(text: bytes, kept: list[bytes], types: dict[str, int]) -> list[Told]:
    """The records of the kept lines, in order: each is the next line of its content."""
    head, _, part = text.partition(b"\n")
    wanted: list[Told] = []
    number, begin, left = 2, 0, part
    for line in kept:
        while True:
            content, lf, left = left.partition(b"\n")
            here, number, begin = (number, begin), number + 1, begin + len(content) + len(lf)
            if content == line:
                break
        wanted.append(told_of(line, *here, json.loads(head), types))
    return wanted


def with_attributes(chance: random.Random, text: bytes) -> bytes:
    """The same stream, with attributes and a second city object in some features."""
    lines = text.split(b"\n")
    for at, line in enumerate(lines):
        line = line.replace(b'"geometry":', chance.choice(ATTRIBUTES) + b'"geometry":')
        line = line.replace(b'"CityObjects":{"', b'"CityObjects":{' + chance.choice(OTHERS) + b'"')
        lines[at] = line.replace(b'"id":"a"', chance.choice((b'"id":"a"', b'"id" : "\\u0061"')))
    return b"\n".join(lines)


def told_by(record: Record) -> Told:
    """What a record says."""
    return Told(
        tuple(getattr(record, name) for name in NUMBERS),
        tuple((axis.least, axis.greatest) if axis.some else None for axis in record.ranges),
    )


def records_of(
    library: ctypes.CDLL, text: bytes, request: Request, room: int
) -> tuple[Answer, list[Told]]:
    """The answer of the library, and the records that it wrote."""
    head, lf, part = text.partition(b"\n")
    records = (Record * room)()
    size = ctypes.c_size_t
    answer = library.cityseq_features(
        head + lf,
        size(len(head + lf)),
        part,
        size(len(part)),
        ctypes.byref(request),
        records,
        size(room),
        None,
        size(0),
    )
    return answer, [told_by(record) for record in records[: min(answer.kept, room)]]


def try_stream(
    library: ctypes.CDLL, program: str, text: bytes, options: list[str], limits: tuple[int, int]
) -> list[str]:
    """What the records of a stream say otherwise."""
    words = ["--line-limit", str(limits[0]), "--depth", str(limits[1]), *options]
    output, _, status = run([program, "filter", *words], text)
    if status not in (COMPLETE, REFUSED):
        return []
    kept = [line for line in output.split(b"\n")[1:] if line]
    wanted = wanted_of(text, kept, type_numbers(library))
    wrong = []
    for room in (ROOM, 1):
        answer, told = records_of(library, text, request_of(options, *limits), room)
        judged = answer.status in (COMPLETE, REFUSED)
        if not judged or answer.kept != len(wanted) or told != wanted[:room]:
            wrong.append(f"{answer.status} {answer.kept} {told}, not {wanted[:room]}")
    return wrong


def main(path: str, program: str) -> int:
    """Tries all vectors and random streams, and counts."""
    library = ctypes.CDLL(os.path.abspath(path))
    library.cityseq_features.restype = Answer
    library.cityseq_type_name.restype = ctypes.c_size_t
    tried = []
    for case in cases():
        query = [] if case["query"] == "-" else case["query"].split(" ")
        limits = (int(case["line limit"]), int(case["depth"]))
        tried.append((case["name"], try_stream(library, program, case["text"], query, limits)))
    for number in range(STREAMS):
        chance = random.Random(number)
        text, options = with_attributes(chance, random_stream(chance)), chance.choice(OPTIONS)
        wrong = try_stream(library, program, text, options, (8388608, 64))
        tried.append((f"random stream {number}", wrong))
    for name, wrong in tried:
        for difference in wrong:
            print(f"{name}: {difference}")
    failed = sum(bool(wrong) for _, wrong in tried)
    print(f"{len(tried) - failed} passed, {failed} failed")
    return int(failed > 0)


if __name__ == "__main__":
    sys.exit(main(*sys.argv[1:]) if len(sys.argv) == 3 else __doc__)
