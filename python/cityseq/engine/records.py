"""What is in the features of a part: the tally, the texts of their LoDs, and a record of each."""
from __future__ import annotations

import json
import re
import struct
from collections import Counter
from collections.abc import Callable, Iterable, Iterator, Sequence
from dataclasses import dataclass, field, replace
from functools import lru_cache
from typing import TYPE_CHECKING, Any, NamedTuple

from . import FEATURE, LOD_CLASSES, RawAnswer, RawTally, Room, Text, library, searchable
from .judge import Work, lines_of

if TYPE_CHECKING:
    from ..foreign import Cell

Range = tuple[int, int] | None
MOST_TEXTS = 4_096  # of LoDs
MOST_UNASKED = 1_000  # after more than this many texts, none are added
RECORD = struct.Struct("=11Q" + "Qqq" * 3)  # `struct cityseq_feature`
MEMBERS = RECORD.size // 8  # each of 8 bytes, below 2^63
SHORTEST = 64  # bytes: every feature is longer
USUAL = 8_192  # features of a part that fit at first
LONGEST = 1_024  # bytes of an id that is stored unchanged
COPIED = 2_048  # bytes of a part for each feature, that are copied in the time which this saves
Id = tuple[str, bytes | None]
# Returns the ids of a part, from the part and its records, or what else `Records.ids` has.
IdsOf = Callable[[Text, bytes], Any]
_room = Room()  # for the records of a thread's parts, one after another
ALONE = 8  # texts that have a query of their own, the most frequent ones
MOST_CALLS = 64  # for one part
NAME = b'"lod"'
WINDOWS = 512, 16_384  # bytes that are searched for the name after a quote, least and most
VALUE = rb'[ \t\r]*:[ \t\r]*"((?:[^"\\\x00-\x1f]|\\.)*)"'
AFTER_NAME = re.compile(VALUE)
ESCAPED_LETTER = re.compile(rb"\\u00[4-7]")  # of ASCII: a name can be written with it
USUAL_FEATURES = re.compile(NAME + VALUE)
ESCAPED = re.compile(rb'"(?:l|\\u006[cC])(?:o|\\u006[fF])(?:d|\\u0064)"' + VALUE)


@dataclass
class Tally:
    """The contents of the features of a stream, or of a header and a part.

    Attributes:
        told: What the library returned, or joined.
        lods: How many features have each exact text of an LoD. None if that was not counted.
        unasked: Texts that may be LoDs, and that no query can ask for. They have an LF or a lone
            surrogate.
    """

    told: RawTally
    lods: dict[str, int] | None = None
    unasked: frozenset[str] = frozenset()

    @property
    def types(self) -> dict[str, int]:
        """City objects by type, in the order of the table. Types without any are there too."""
        return dict(zip(library().count_names(), self.told.types))

    @property
    def classes(self) -> dict[str, int]:
        """Geometries by the class of their LoD. Classes without any are there too."""
        return dict(zip(LOD_CLASSES, self.told.lods))

    @property
    def ranges(self) -> tuple[Range, Range, Range]:
        """The least and the greatest vertex on x, y and z. None if there is no vertex."""
        x, y, z = ((each.least, each.greatest) if each.some else None for each in self.told.ranges)
        return x, y, z

    def joined(self, after: Tally) -> Tally:
        """Returns the tally of both. Python joins the texts of LoDs: the library has none."""
        lods = None
        if self.lods is not None and after.lods is not None:
            lods = dict(Counter(self.lods) + Counter(after.lods))
        lods = None if lods is not None and len(lods) > MOST_TEXTS else lods
        is_full = len(self.unasked) > MOST_UNASKED
        return Tally(
            library().tally_then(self.told, after.told),
            lods,
            self.unasked if is_full else self.unasked | after.unasked,
        )


class Same(NamedTuple):
    """A column that has one value in all rows."""

    value: Cell


Column = Same | Iterable["Cell"]


def same_if_equal(values: Sequence[Cell]) -> Column:
    """Returns a column of these values, which are at least one."""
    return Same(values[0]) if values.count(values[0]) == len(values) else values


@dataclass(frozen=True)
class Records:
    """The records of the features of a part.

    Attributes:
        begin: Where the part begins in the stream, in bytes.
        raw: The records, one after another, as the library writes them.
        ids: The id of each feature as its line spells it, without quotes, or what else reads the
            ids of a part returns.
        lines: How many lines of the stream came between the header and the part.
    """

    begin: int
    raw: bytes
    ids: list[bytes]
    lines: int = 0

    def columns(self) -> list[list[int]]:
        """Returns the values of each member of the records."""
        return columns_of(self.raw)

    def moved(self, lines: int) -> Records:
        """Returns the same records with `lines` added to the lines before the part."""
        return replace(self, lines=self.lines + lines)


def columns_of(raw: bytes) -> list[list[int]]:
    """Returns the values of each member of records."""
    numbers = memoryview(raw).cast("q")
    return [numbers[member::MEMBERS].tolist() for member in range(MEMBERS)]


def stored(text: str) -> Id:
    """Returns an id for two columns: a text, and the exact bytes if the text is not the id.

    Some programs cannot read an id with NUL or a lone surrogate, or one of more than 1,024 bytes.
    The text of such an id is its beginning, escaped as in JSON. The second column then has the
    whole id in UTF-8, with a lone surrogate as three bytes.
    """
    exact = text.encode("utf-8", "surrogatepass")
    if len(exact) <= LONGEST and "\0" not in text:
        try:
            text.encode("utf-8")
            return text, None
        except UnicodeEncodeError:
            pass
    return json.dumps(text[:LONGEST])[1:-1], exact


def id_of(text: str, exact: bytes | None) -> str:
    """Returns the id that is stored in these two columns."""
    return text if exact is None else exact.decode("utf-8", "surrogatepass")


def unescaped(spelling: bytes) -> str:
    """Returns the text of a JSON string, from its spelling without quotes."""
    if b"\\" not in spelling:
        return spelling.decode("utf-8")
    text: str = json.loads(b'"' + spelling + b'"')
    return text


def all_unescaped(spellings: list[bytes]) -> list[str]:
    """Returns the texts of JSON strings, from their spellings without quotes. Each is valid, so
    none has an LF."""
    together = b"\n".join(spellings)
    if not spellings or b"\\" in together:
        return list(map(unescaped, spellings))
    return together.decode("utf-8").split("\n")


def stored_as_spelled(spelling: bytes) -> Id:
    """Returns an id for two columns, from the JSON string that spells it, without quotes. A valid
    string without escapes has no NUL and no lone surrogate."""
    if b"\\" not in spelling and len(spelling) <= LONGEST:
        return spelling.decode("utf-8"), None
    return stored(unescaped(spelling))


def stored_as_columns(spellings: list[bytes]) -> tuple[Sequence[str], Column]:
    """Returns ids, from the JSON strings that spell them, as two columns."""
    if b"\\" not in b"".join(spellings) and max(map(len, spellings)) <= LONGEST:
        texts = b"\n".join(spellings).decode("utf-8").split("\n")  # no valid string has an LF
        return texts, Same(None)
    both = list(map(stored_as_spelled, spellings))
    exact = same_if_equal([exact for _, exact in both])
    return [text for text, _ in both], exact


def cut_fast(part: Text, raw: bytes) -> Text:
    """Returns a part as bytes if it has many features, as to cut bytes takes a fourth of the time
    that to cut another buffer takes."""
    return bytes(part) if len(raw) // RECORD.size * COPIED > len(part) else part


def spelled_ids(part: Text, raw: bytes) -> list[bytes]:
    """Returns the ids of the features of a part, as the JSON strings spell them, without quotes."""
    numbers = memoryview(raw).cast("q")
    lines, begins, lengths = (numbers[member::MEMBERS].tolist() for member in (1, 3, 4))
    text = cut_fast(part, raw)
    if lines and begins.count(begins[0]) == lengths.count(lengths[0]) == len(lines):
        # this takes a third less time
        first, last = begins[0] + 1, begins[0] + lengths[0] - 1
        ids = [text[line + first : line + last] for line in lines]
    else:
        places = zip(lines, begins, lengths)
        ids = [text[line + begin + 1 : line + begin + length - 1] for line, begin, length in places]
    return ids if isinstance(text, bytes) else list(map(bytes, ids))


def found_in(
    work: Work, header: bytes, part: Text, room: int, ids_of: IdsOf = spelled_ids
) -> tuple[RawAnswer, bytes, Records]:
    """Does the same as `call`, and returns the records with their ids. `ids_of` returns these, from
    the part and its records."""
    answer, reports, raw = call(work, header, part, room)
    return answer, reports, Records(0, raw, ids_of(part, raw))


def call(work: Work, header: bytes, part: Text, room: int) -> tuple[RawAnswer, bytes, bytes]:
    """Returns the library's answer, reports and records. There is room for so many reports. The
    library is called again if the records do not fit."""
    most = min(len(part) // SHORTEST, USUAL) + 1
    while True:
        request, memory = work.request(header, part), _room.of(most * FEATURE)
        answer, reports, raw = library().records(header, part, request, memory, room)
        if answer.kept <= most:
            return answer, reports, raw
        most = answer.kept


def _can_be_asked(text: str) -> bool:
    """Whether a query can ask for a text: it has no LF and no lone surrogate."""
    try:
        text.encode("utf-8")
    except UnicodeEncodeError:
        return False
    return "\n" not in text


# ---- one pass over the text


@dataclass
class Found:
    """Members that may be an LoD: how many there are, and how many lines have each text."""

    members: int = 0
    lines: dict[str, int] = field(default_factory=dict)


def _members(text: bytes | bytearray, begin: int, end: int) -> Iterator[tuple[int, bytes]]:
    """Yields the place of each member that may be an LoD, and what follows its name."""
    find, starts, value = text.find, text.startswith, b"\n"
    place, window = begin, WINDOWS[0]
    while True:
        stop = place + window
        name = find(NAME, place, stop if stop < end else end)
        if name < 0:
            # an array of numbers has no quote, and a search for one byte is much faster
            place = find(b'"', stop - len(NAME) + 1, end)
            if place < 0:
                return
            window = WINDOWS[0] if place > stop + WINDOWS[0] else min(2 * window, WINDOWS[1])
            continue
        place, window = name + len(NAME), WINDOWS[0]
        if not starts(value, place):
            match = AFTER_NAME.match(text, place, end)
            if match is None:
                continue
            value = match.group()
        place += len(value)
        yield name, value


def _in_one_pass(text: bytes | bytearray, begin: int, end: int) -> Found | None:
    """Finds all members that may be an LoD. Returns None if they have too many texts."""
    found, line_end = Found(), begin - 1
    texts: dict[bytes, str] = {}
    counted_at: dict[str, int] = {}  # the end of the line where a text was counted last
    for name, value in _members(text, begin, end):
        found.members += 1
        if name > line_end:
            line_end = text.find(b"\n", name, end)
            line_end = end if line_end < 0 else line_end
        if value not in texts:
            if len(texts) == MOST_TEXTS:
                return None
            texts[value] = unescaped(value[value.index(b'"') + 1 : -1])
        read = texts[value]
        if counted_at.get(read) != line_end:
            counted_at[read] = line_end
            found.lines[read] = found.lines.get(read, 0) + 1
    return found


@lru_cache(maxsize=2)
def _has_templates(header: bytes) -> bool:
    """Whether a valid header has geometry templates."""
    if b"geometry-templates" in header:
        return True
    if b"\\u00" not in header:
        return False  # the name has no escapes
    from .world import read_json

    return "geometry-templates" in read_json(header.decode("utf-8"))


def _passed(header: bytes, part: Text) -> Found | None:
    """Returns the members of a part. None if one pass cannot find them, or not count them."""
    text, begin, end = searchable(part)
    if text.find(b"\\", begin, end) >= 0 and ESCAPED_LETTER.search(text, begin, end):
        return None
    if _has_templates(header) and text.find(b"GeometryInstance", begin, end) >= 0:
        return None
    return _in_one_pass(text, begin, end)


# ---- a query for each text


def spelled(text: Text) -> Counter[bytes]:
    """Returns how often each spelling occurs that may be one of an LoD."""
    pattern = ESCAPED if ESCAPED_LETTER.search(text) else USUAL_FEATURES
    return Counter(found.group(1) for found in pattern.finditer(text))


def texts_of(spellings: dict[bytes, int]) -> tuple[list[str], frozenset[str]]:
    """Returns the texts of spellings, the most frequent first. The second set has the texts that
    no query can ask for."""
    counts: Counter[str] = Counter()
    for spelling, count in spellings.items():
        try:
            counts[unescaped(spelling)] += count
        except ValueError:
            continue  # not JSON, so in no valid line
    texts = [text for text, _ in counts.most_common()]
    return list(filter(_can_be_asked, texts)), _unasked(texts)


def _unasked(texts: Iterable[str]) -> frozenset[str]:
    return frozenset(text for text in texts if not _can_be_asked(text))


def _features_with(texts: list[str], work: Work, header: bytes, part: Text) -> int:
    """Returns how many features have one of these LoDs."""
    request = replace(work, lods=lines_of(texts)).request(header, part)
    return int(library().tally(header, part, request, 0)[2].features)


def _groups(texts: list[str]) -> list[list[str]]:
    return [[text] for text in texts[:ALONE]] + ([texts[ALONE:]] if texts[ALONE:] else [])


def _counted(
    texts: list[str], work: Work, header: bytes, part: Text
) -> Iterator[tuple[str, int] | None]:
    """Yields each text that is an LoD, with its features. Yields None after too many calls."""
    groups, calls = _groups(texts), 0
    while groups:
        group, calls = groups.pop(0), calls + 1
        if calls > MOST_CALLS:
            yield None
            return
        features = _features_with(group, work, header, part)
        if features and len(group) == 1:
            yield group[0], features
        elif features:
            groups += [group[: len(group) // 2], group[len(group) // 2 :]]


def _ask(tally: Tally, work: Work, header: bytes, part: Text) -> None:
    """Adds the texts to a tally, by a query for each."""
    texts, tally.unasked = texts_of(spelled(header) + spelled(part))
    if len(texts) + len(tally.unasked) > MOST_TEXTS:
        tally.lods = None
        return
    counted = list(_counted(texts, work, header, part))
    tally.lods = None if None in counted else dict(found for found in counted if found is not None)


def count_lods(tally: Tally, work: Work, header: bytes, part: Text) -> None:
    """Adds the texts of LoDs to the tally of a header and a valid part."""
    geometries = sum(tally.told.lods)
    found = _passed(header, part) if geometries else Found()
    if found is None or found.members != geometries:
        _ask(tally, work, header, part)
        return
    tally.unasked = _unasked(found.lines)
    tally.lods = {text: lines for text, lines in found.lines.items() if text not in tally.unasked}
