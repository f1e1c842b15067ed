"""The attributes of features, which are those of the main city object. Only their text is read, and
of that only what is asked for, because a feature may have very many."""
from __future__ import annotations

import json
import re
from collections.abc import Callable, Iterable, Iterator, Sequence
from contextlib import suppress
from functools import lru_cache, partial
from itertools import chain, compress, islice, repeat
from operator import contains
from typing import TYPE_CHECKING, Union

from ..engine import Text
from ..engine.records import MEMBERS
from ..engine.world import deep
from ..indexes.geopackage import readable

if TYPE_CHECKING:
    from ..foreign import Json, Object

ALL = "all"
PLACES = 1, 5, 6  # of a record: the line, and where its attributes begin and how long they are
MOST = 900  # attributes of an index: older versions of SQLite take at most 999 values of a row
LONGEST = 18  # digits of a whole number that has at most 64 bits, whichever they are
READABLE = 4_000  # digits of a whole number that Python reads
SPACE = re.compile(r"[ \t\r\n]*")
MINUS_ZERO = re.compile(rb"-0(?![\d.])")
DIGITS = 15  # that each float keeps
SPACED = re.compile(rb"[ \t\r\n]:")
BETWEEN = re.compile(r"[ \t\r\n]*[,:}]")
ESCAPED_NAME = re.compile(rb'\\.[^"\\]*"[ \t\r\n]*:')
VALUE = re.compile(
    rb"[ \t\r\n]*:[ \t\r\n]*(?:(-?\d+)(?![\d.eE])|(-?\d[-+.\deE]*)"
    rb'|"([^"\\]*)"|("(?:[^"\\]|\\.)*")|(?:(true)|(false)|(null)))'
)
Columns = dict[str, list["Json"]]
Asked = Union[tuple[str, ...], str]  # names, or `ALL`


class Spelled(str):
    """A number as it is spelled, because no number of SQLite has this spelling."""

    __slots__ = ()


def whole(text: str) -> int | Spelled:
    """Returns a whole number. It is a text if it has more than 64 bits, or is -0."""
    if len(text) > LONGEST:
        number = int(text) if len(text) < READABLE else 1 << 64
        return number if -(1 << 63) <= number < 1 << 63 else Spelled(text)
    return int(text) if text != "-0" else Spelled(text)


def fraction(text: str) -> float | Spelled:
    """Returns a number as a float, or as a text if the float has another spelling."""
    number = float(text)
    return number if repr(number) == text else Spelled(text)


def number_of(spelled: str) -> int | float | None:
    """Returns the number of a spelling, or None if it has more than 64 bits, or more than all
    floats."""
    number = whole(spelled) if spelled.lstrip("-").isdigit() else float(spelled)
    if isinstance(number, Spelled):
        return 0 if spelled == "-0" else None
    return number if abs(number) != float("inf") else None


_DECODER = json.JSONDecoder(parse_float=str, parse_int=str, parse_constant=str)


def _skip(text: str, at: int) -> int:
    """Returns where the white space from a place on ends."""
    found = SPACE.match(text, at)
    return at if found is None else found.end()


def _value(text: str, at: int) -> tuple[Json, int]:
    """Returns a value and where it ends."""
    return deep(partial(_DECODER.raw_decode, text, at))


def spans(text: str, at: int = 0) -> Iterator[tuple[str, int, int]]:
    """Yields the members of an object that begins at a place: the name, and where the value begins
    and ends."""
    at = _skip(text, _skip(text, at) + 1)
    while text[at] != "}":
        name, at = _value(text, at)
        begin = _skip(text, _skip(text, at) + 1)
        _, end = _value(text, begin)
        yield name, begin, end
        at = _skip(text, end)
        if text[at] == ",":
            at = _skip(text, at + 1)


def members(spelled: bytes) -> dict[str, str]:
    """Returns the members of an object, each as it is spelled. Of a repeated name the first
    counts."""
    text = spelled.decode("utf-8")
    found: dict[str, str] = {}
    for name, begin, end in spans(text):
        found.setdefault(name, text[begin:end])
    return found


def texts_of(part: Text, raw: bytes) -> list[bytes]:
    """Returns the attributes of the features of a part, by their records, as the lines spell them.
    The text is empty if a feature has none."""
    numbers = memoryview(raw).cast("q")
    lines, begins, lengths = (numbers[member::MEMBERS].tolist() for member in PLACES)
    texts = [
        part[line + begin : line + begin + length]
        for line, begin, length in zip(lines, begins, lengths)
    ]
    return texts if isinstance(part, bytes) else list(map(bytes, texts))


# ---- values


def _finite(text: str) -> float | str:
    number = float(text)
    return number if abs(number) != float("inf") else text


def _ordered(pairs: list[tuple[str, Json]]) -> Object:
    """Returns an object with its names in order. Of a repeated name the first counts."""
    found: Object = {}
    for name, value in pairs:
        found.setdefault(name, value)
    return found


_TOLD = json.JSONDecoder(
    parse_float=_finite,
    parse_int=lambda text: int(text) if len(text) < READABLE else text,
    object_pairs_hook=_ordered,
)


def told(text: bytes) -> Object:
    """Returns attributes as Python reads JSON. There are none if they are no object. Of a repeated
    name the first counts. A number that is greater than all floats, or too long for Python, is a
    text."""
    if not text.startswith(b"{"):
        return {}
    found: Object = deep(partial(_TOLD.decode, text.decode("utf-8")))
    return found


def _plain(spelled: str) -> Json:
    """Returns a value by its spelling: an array or an object is a text."""
    if spelled[0] in "[{":
        return readable(spelled)
    if spelled[0] == '"':
        return readable(json.loads(spelled))
    if spelled[0] in "tfn":
        return json.loads(spelled)
    return whole(spelled) if spelled.lstrip("-").isdigit() else fraction(spelled)


def _slowly(text: bytes) -> Object:
    """Returns the values of attributes, whatever they are."""
    if not text.startswith(b"{"):
        return {}
    return {name: _plain(spelled) for name, spelled in members(text).items()}


def _is_flat(text: bytes) -> bool:
    """Whether no bracket or brace follows the first byte."""
    return b"[" not in text and text.find(b"{", 1) < 0


# ---- the values of some names


# how the groups of `VALUE` are read
READ: tuple[Callable[[bytes], Json], ...] = (
    lambda spelled: whole(spelled.decode("ascii")),
    lambda spelled: fraction(spelled.decode("ascii")),
    bytes.decode,
    lambda spelled: readable(json.loads(spelled)),
    lambda _: True,
    lambda _: False,
    lambda _: None,
)


@lru_cache(maxsize=64)
def _needles(names: tuple[str, ...]) -> list[bytes] | None:
    """Returns the names as JSON strings. None if one begins as the text between two strings may, so
    that it could be found there."""
    if any(BETWEEN.match(name) for name in names):
        return None
    spelled = (json.dumps(name, ensure_ascii=False) for name in names)
    return [each.encode("utf-8", "surrogatepass") for each in spelled]


def _sought(texts: Iterable[bytes], needle: bytes) -> list[Json]:
    """Returns the values of a name in simple texts: a string with a colon after it is a name."""
    found, length, match = [], len(needle), VALUE.match
    for text in texts:
        at, value = text.find(needle), None
        while at >= 0:
            member = match(text, at + length)
            if member is not None and member.lastindex is not None:
                value = READ[member.lastindex - 1](member[member.lastindex])
                break
            at = text.find(needle, at + 1)
        found.append(value)
    return found


def _strings(texts: Sequence[bytes], joined: bytes, needle: bytes) -> list[Json] | None:
    """Returns the values of a name in flat texts without escapes, if no text has the name, or each
    has it once, and a string for it with no space between. Else None."""
    begin = needle + b':"'
    if needle not in joined:
        return [None] * len(texts)
    if joined.count(needle) != len(texts) or not all(map(contains, texts, repeat(begin))):
        return None
    pieces = joined.decode("utf-8").split(begin.decode("utf-8"))
    return [piece[: piece.index('"')] for piece in islice(pieces, 1, None)]


def _is_simple(text: bytes) -> bool:
    """Whether no member is an array or an object, and no name has an escape."""
    return _is_flat(text) and (b"\\" not in text or ESCAPED_NAME.search(text) is None)


def _are_flat(joined: bytes) -> bool:
    """Whether all texts are flat. An LF is before each text, and in none, so each brace of flat
    texts begins one. Some texts may be no objects."""
    return b"[" not in joined and joined.count(b"{") == joined.count(b"\n{")


def _some(texts: Sequence[bytes], names: tuple[str, ...]) -> Columns:
    """Returns the values of these names. Others are not read in simple texts."""
    needles, joined = _needles(names), b"\n".join([b"", *texts])
    if needles is not None and b"\\" not in joined and _are_flat(joined):
        return {
            name: _strings(texts, joined, needle) or _sought(texts, needle)
            for name, needle in zip(names, needles)
        }
    hard = [needles is None or not _is_simple(text) for text in texts]
    simple = (
        [b"" if is_hard else text for is_hard, text in zip(hard, texts)] if any(hard) else texts
    )
    columns = {name: _sought(simple, needle) for name, needle in zip(names, needles or ())}
    for row in compress(range(len(texts)), hard):
        found = _slowly(texts[row])
        for name in names:
            columns.setdefault(name, [None] * len(texts))[row] = found.get(name)
    return columns


# ---- the values of all names

# floats are bytes at first, and whole numbers may be too long
_FAST = json.JSONDecoder(parse_float=str.encode)


def _read(texts: Sequence[bytes]) -> list[Json]:
    """Returns values of JSON. Of a repeated name the last counts."""
    joined = b"[%s]" % b",".join([text or b"0" for text in texts])
    if MINUS_ZERO.search(joined) is None:
        with suppress(ValueError, RecursionError):
            found: list[Json] = _FAST.decode(joined.decode("utf-8"))
            return found
    return list(map(_slowly, texts))


def _differ(text: bytes, count: int) -> bool:
    """Whether no name of an object is repeated, if so many are different: no more colons may follow
    a name. False if that takes a closer look."""
    if text.count(b":") == count:
        return True
    return text.count(b'":') == count and SPACED.search(text) is None


def _objects(texts: Sequence[bytes]) -> list[Object]:
    """Returns the attributes of features. Floats are spelled."""
    objects = _read(texts)
    for number, (text, each) in enumerate(zip(texts, objects)):
        if not isinstance(each, dict) or not _is_flat(text) or not _differ(text, len(each)):
            objects[number] = _slowly(text)
    return objects


def _are_usual(spelled: list[bytes]) -> bool:
    """Whether all these floats are spelled as Python spells them: with few digits, and without an
    exponent or a 0 at the end. False if that takes a closer look."""
    text = b"\n".join([*spelled, b""])
    if max(map(len, spelled)) > DIGITS + 1 or text.count(b"0\n") != text.count(b".0\n"):
        return False
    return not any(sign in text for sign in (b"e", b"E", b"0.0000", b"-0.0"))


def _real(spelled: bytes, is_usual: bool) -> float | Spelled:
    return float(spelled) if is_usual else fraction(spelled.decode("ascii"))


def _numbers(values: list[Json]) -> list[Json]:
    """Returns the values of an attribute with its floats as numbers."""
    types = set(map(type, values))
    if bytes in types:
        usual = _are_usual([value for value in values if type(value) is bytes])
        values = [_real(value, usual) if type(value) is bytes else value for value in values]
    whole_numbers = [value for value in values if type(value) is int] if int in types else [0]
    if max(whole_numbers) >= 1 << 63 or min(whole_numbers) < -(1 << 63):
        values = [_in_bits(value) if type(value) is int else value for value in values]
    return values


def _in_bits(number: int) -> int | Spelled:
    return number if -(1 << 63) <= number < 1 << 63 else Spelled(number)


def _transposed(objects: list[Object]) -> Columns:
    """Returns the values of objects by the names. If these are too many, some are left out."""
    names = list(objects[0]) if objects else []
    if len(names) <= MOST and all(list(each) == names for each in objects):
        return dict(zip(names, map(list, zip(*(each.values() for each in objects)))))
    some = islice(dict.fromkeys(chain.from_iterable(objects)), MOST + 1)
    return {name: [each.get(name) for each in objects] for name in some}


def _all(texts: Sequence[bytes]) -> Columns:
    """Returns the values of all attributes, or of more than there may be."""
    columns = {name: _numbers(values) for name, values in _transposed(_objects(texts)).items()}
    if any(b"\\u" in text for text in texts):  # only this makes a text that needs an escape
        for name, values in columns.items():
            columns[name] = [readable(value) if type(value) is str else value for value in values]
    return columns


def columns_of(texts: Sequence[bytes], names: Asked) -> Columns:
    """Returns the values of attributes of features, by the names.

    A value is None, a bool, an int of at most 64 bits, a float, a text, or a `Spelled` number. An
    array or an object is a text as it is spelled. A text with NUL or a lone surrogate is escaped as
    in JSON.
    """
    if isinstance(names, str):
        return _all(texts)
    return _some(texts, names)


def _number_told(value: object) -> Json:
    """Returns a value as Python reads JSON."""
    return _TOLD.decode(value) if isinstance(value, Spelled) else value


def rows_of(texts: Sequence[bytes], names: Asked) -> list[Object]:
    """Returns attributes of features as Python reads JSON. If names are given, others may lack."""
    if isinstance(names, str) or any(b"\\" in text or not _is_flat(text) for text in texts):
        return list(map(told, texts))
    columns = _some(texts, names)
    return [dict(zip(names, map(_number_told, row))) for row in zip(*columns.values())]
