"""Makes streams of whole files, and whole files of streams. Here is what both need: where the
values of a text begin and end, and how indices in them are rewritten.

Python's `json` finds the end of a value: its scanner in C reads one, and returns where it ends. A
new call of the library could do this too. But the scanner is there, strict and as fast as
`json.loads`, and the engine judges all features that are made. So no new clause is needed.

The text has one character for each byte: it is checked as UTF-8, and then read as Latin-1. So a
character's number is that of its byte, the text takes as much memory as the file, and a copied
span is the same bytes. Texts that are compared are read as UTF-8 first. The scanner makes no float
and no integer: numbers are texts, as they are spelled.

An index is looked up by its spelling. So the scalars of `boundaries` are split from the brackets by
one regular expression, and exchanged without a loop in Python. Each text that is rewritten has no
white space between its tokens, and is known to be JSON."""
from __future__ import annotations

import codecs
import json
import re
from array import array
from collections.abc import Callable
from dataclasses import dataclass
from typing import TYPE_CHECKING, NoReturn, Union

from ..engine import InvalidStream, ReadFault
from ..engine.world import exact_number
from ..sources import CHANGED, PIECE, Source, name_of, opened, watch_of

if TYPE_CHECKING:
    from ..foreign import Json

SPACE = re.compile(r"[ \t\n\r]*")
STRING = r'"[^"\\\x00-\x1f]*(?:\\(?:["\\/bfnrt]|u[\da-fA-F]{4})[^"\\\x00-\x1f]*)*"'
NAME = re.compile(rf"[ \t\n\r]*({STRING})[ \t\n\r]*:[ \t\n\r]*")
ESCAPE = re.compile(
    r"\\(?:u[dD][89abAB][\da-fA-F]{2}\\u[dD][c-fC-F][\da-fA-F]{2}|(u[dD][89a-fA-F])|.)"
)
STRINGS = re.compile(r'("[^"\\]*(?:\\.[^"\\]*)*")')
TOO_DEEP = "it is nested deeper than split reads"
BLAMED = 8  # levels of a path below a city object or a member of the root
MARK = "\xef\xbb\xbf"  # a byte order mark
Take = Callable[["re.Match[str]"], int]
Judge = Callable[[str], str | None]
RUN = re.compile(r'[^"{}]*')
SCALAR = re.compile(r"([^\[\],]+)")
SCALAR_OR_STRING = re.compile(r'("[^"\\]*(?:\\.[^"\\]*)*"|[^\[\],"]+)')
MEMBER_NAME = re.compile(r'("[^"\\]*(?:\\.[^"\\]*)*"):')
# members with a string or a number that no rule is about, and the name after them
MEMBERS = re.compile(
    r'(?:"(?!(?:values?|template|boundaries)")[^"\\]*":(?:"[^"\\]*"|[^\[\]{},"]+)(?:,|(?=\})))*'
    r'(?:("[^"\\]*(?:\\.[^"\\]*)*"):)?'
)
# a usual geometry: its lists, from the first bracket to the last, are boundaries alone
USUAL = re.compile(r'\{(?:"(?:type|lod)":"[^"\\]*",)*"boundaries":(\[[^"{}]*\])\}')
ANY = ""  # the rule for members of all other names
LIMIT = 10**18  # an index is below it
DIGITS = 18
# How a value is rewritten: by a function of its text, by the names of its members with their
# quotes, or item by item
Rule = Union[Callable[[str], str], "dict[str, Rule]", "list[Rule]"]


class _Constant(ValueError):
    """A value such as NaN, which is no JSON."""


def _constant(word: str) -> NoReturn:
    raise _Constant(f"{word} is no JSON")


DECODER = json.JSONDecoder(parse_float=str, parse_int=str, parse_constant=_constant)


def plain(spelled: str) -> str:
    """Returns the text of a string by its span, with escapes undone."""
    if "\\" not in spelled and spelled.isascii():
        return spelled[1:-1]
    text: str = json.loads(spelled.encode("latin-1").decode("utf-8"))
    return text


def read_text(source: Source) -> str:
    """Returns the text of a file. It is unpacked, as that of a stream is.

    Raises:
        InvalidStream: It is not UTF-8, or begins with a byte order mark.
        ReadFault: It cannot be read, or it changes.
    """
    file, size = name_of(source), 0
    decoder = codecs.getincrementaldecoder("utf-8")()
    pieces: list[str] = []
    with opened(source) as reader:
        watch = watch_of(reader.file)
        while piece := reader.read(PIECE):
            _judge_utf8(decoder, piece, size, file)
            pieces.append(piece.decode("latin-1"))
            size += len(piece)
        if reader.fault is not None:
            raise reader.fault
        if watch is not None and watch.is_changed():
            raise ReadFault(f"read fault: {CHANGED}", None, file)
    _judge_utf8(decoder, b"", size, file)
    text = "".join(pieces)
    if text.startswith(MARK):
        raise InvalidStream(
            "byte 0: a byte order mark: leave the first three bytes out, as by tail -c +4",
            None,
            file,
        )
    return text


def _judge_utf8(decoder: codecs.IncrementalDecoder, piece: bytes, begin: int, file: str) -> None:
    """Judges the next piece of a file, or its end if the piece is empty."""
    if piece.isascii() and piece and not decoder.getstate()[0]:
        return
    try:
        decoder.decode(piece, not piece)
    except UnicodeDecodeError as fault:
        byte = begin + len(piece) - len(fault.object) + fault.start
        raise InvalidStream(f"byte {byte}: not UTF-8: convert the file", None, file) from None


class Spans:
    """The text of a file. Faults name a path in it, or a byte."""

    def __init__(self, file: str, text: str) -> None:
        """Takes the name of the file, and its text.

        Raises:
            InvalidStream: An escape is one half of a pair alone.
        """
        self.file, self.text = file, text
        if re.search(r"\\u[dD][89a-fA-F]", text):
            for escape in ESCAPE.finditer(text):
                if escape[1]:
                    raise self.fault(
                        f"byte {escape.start()}", "a lone surrogate: no UTF-8 has this text"
                    )

    def fault(self, path: str, what: str) -> InvalidStream:
        """Returns a fault at a path in the file."""
        return InvalidStream(f"{path}: {what}" if path else what, None, self.file)

    def value(self, at: int, path: str, name: str = "") -> tuple[Json, int]:
        """Returns a value and where it ends. Its strings are not plain texts unless they are ASCII.
        Faults name the path, with the name after it.

        Raises:
            InvalidStream: It is no JSON, or is nested deeper than Python reads.
        """
        try:
            return DECODER.raw_decode(self.text, at)
        except json.JSONDecodeError as fault:
            raise self.syntax(fault.pos, self._blamed(at, path + name)) from None
        except _Constant as fault:
            raise self.fault(self._blamed(at, path + name), str(fault)) from None
        except RecursionError:
            raise self.fault(self._blamed(at, path + name), TOO_DEEP) from None

    def _blamed(self, at: int, path: str) -> str:
        """Returns the path of the part that cannot be read, of a value that cannot be read."""
        for _ in range(BLAMED):
            part = self._broken_part(at)
            if part is None:
                break
            key, at = part
            path = f"{path}/{key}"
        return path

    def _broken_part(self, at: int) -> tuple[str, int] | None:
        """Returns the key of the first part of a value that cannot be read, and where it begins.
        None if the fault is between two parts."""
        text = self.text
        opening, number = text[at : at + 1], 0
        while opening in ("{", "[") and (not number or text[at : at + 1] == ","):
            at, key = self.skipped(at + 1), str(number)
            if opening == "{":
                name = NAME.match(text, at)
                if name is None:
                    return None
                key, at = plain(name[1]), name.end()
            try:
                _, end = DECODER.raw_decode(text, at)
            except (ValueError, RecursionError):
                return key, at
            at, number = self.skipped(end), number + 1
        return None

    def syntax(self, at: int, path: str) -> InvalidStream:
        """Returns the fault of a text that is no JSON."""
        what = "it is cut short" if at >= len(self.text) else f"byte {at}: syntax"
        return self.fault(path, what)

    def skipped(self, at: int) -> int:
        """Returns where the white space at a place ends."""
        found = SPACE.match(self.text, at)
        assert found is not None
        return found.end()

    def members(self, at: int, path: str, take: Take) -> int:
        """Calls `take` with the match of each name in an object. The value begins where the match
        ends, and `take` returns where the value ends. Returns where the object ends."""
        text = self.text
        at = self.skipped(at + 1)
        if text[at : at + 1] == "}":
            return at + 1
        while True:
            name = NAME.match(text, at)
            if name is None:
                raise self.syntax(at, path)
            at = take(name)
            following = text[at : at + 1]
            if following not in (",", "}"):
                at = self.skipped(at)
                following = text[at : at + 1]
            if following == "}":
                return at + 1
            if following != ",":
                raise self.syntax(at, path)
            at += 1

    def items(self, at: int, path: str, usual: re.Pattern[str], judge: Judge) -> Items:
        """Returns the items of an array. `usual` matches a usual item, the comma or the bracket
        after it, and white space. `judge` says what is wrong with the text of another one."""
        text, begins = self.text, array("Q")
        at = self.skipped(at + 1)
        following = text[at : at + 1]
        while following != "]":
            begins.append(at)
            found = usual.match(text, at)
            if found is not None:
                at, following = found.end(), found[1]
                continue
            here = f"{path}/{len(begins) - 1}"
            _, end = self.value(at, here)
            wrong = judge(compact(text[at:end]))
            if wrong is not None:
                raise self.fault(here, wrong)
            at = self.skipped(end)
            following = text[at : at + 1]
            if following not in (",", "]"):
                raise self.syntax(at, path)
            at = self.skipped(at + 1)
        begins.append(at if len(begins) else at + 1)
        return Items(text, begins)


class Items:
    """The items of an array, or the members of an object, which stay in the text."""

    def __init__(self, text: str, begins: array[int]) -> None:
        """Takes where each item begins, and where the array or the object ends."""
        self._text, self._begins = text, begins

    def __len__(self) -> int:
        return len(self._begins) - 1

    @property
    def end(self) -> int:
        """Where the array ends, or the white space after it."""
        return self._begins[-1]

    def __getitem__(self, number: int) -> str:
        """Returns an item without white space between its tokens."""
        begin, end = self._begins[number], self._begins[number + 1]
        return compact(self._text[begin:end])[:-1]  # without what follows it


def compact(text: str) -> str:
    """Returns JSON without the white space between its tokens."""
    if not (" " in text or "\n" in text or "\t" in text or "\r" in text):
        return text
    pieces = STRINGS.split(text)  # each second one is a string
    pieces[::2] = ["".join(piece.split()) for piece in pieces[::2]]
    return "".join(pieces)


def whole_number(spelling: str) -> int | None:
    """Returns the value of a whole number below 10^18 in size. None for any other value."""
    if spelling.isdecimal() and len(spelling) <= DIGITS:
        return int(spelling)
    number = exact_number(spelling)
    if not number.is_finite() or number.copy_abs() >= LIMIT:
        return None
    return int(number) if number == number.to_integral_value() else None


class Lookup(dict[str, str]):
    """New indices by the spellings of the old ones. All other spellings stay as they are."""

    def new_index(self, old: int) -> str | None:
        """Returns the new index for an old one. None leaves its spelling as it is."""
        raise NotImplementedError

    def __missing__(self, spelling: str) -> str:
        old = whole_number(spelling)
        new = None if old is None else self.new_index(old)
        self[spelling] = found = spelling if new is None else new
        return found

    def renumbered(self, text: str) -> str:
        """Returns an index, or lists of indices, with the new ones. A text with an object stays as
        it is."""
        if "{" in text:
            return text
        pieces = (SCALAR_OR_STRING if '"' in text else SCALAR).split(text)
        pieces[1::2] = map(self.__getitem__, pieces[1::2])
        return "".join(pieces)


class FirstUse(Lookup):
    """New indices that are counted in the order of first use.

    Attributes:
        used: The new index of each old one that is used, in this order.
    """

    def __init__(self, count: int) -> None:
        """Takes how many items there are. An index of none stays as it is."""
        super().__init__()
        self._count = count
        self.used: dict[int, str] = {}

    def begin(self) -> None:
        """Begins anew: nothing is used."""
        if self:
            self.clear()
            self.used.clear()

    def new_index(self, old: int) -> str | None:
        if not 0 <= old < self._count:
            return None
        return self.used.setdefault(old, str(len(self.used)))


def texture_rule(textures: Lookup, vertices: Lookup) -> Rule:
    """Returns the rule for the `values` of a texture. The first index in each ring is that of a
    texture, and the others are those of its vertices."""

    def renumbered(text: str) -> str:
        if "{" in text or '"' in text:
            return text
        pieces = SCALAR.split(text)
        for at in range(1, len(pieces), 2):
            index = textures if pieces[at - 1].endswith("[") else vertices
            pieces[at] = index[pieces[at]]
        return "".join(pieces)

    return renumbered


@dataclass
class Indices:
    """The indices in a feature, in the templates of a header, or in a whole file."""

    vertices: Lookup
    materials: Lookup
    textures: Lookup
    texture_vertices: Lookup

    def geometry_rule(self) -> dict[str, Rule]:
        """Returns the rule for a geometry."""
        return {'"boundaries"': self.vertices.renumbered, **self.appearance_rule()}

    def appearance_rule(self) -> dict[str, Rule]:
        """Returns the rule for the materials and textures of a geometry."""
        materials = self.materials.renumbered
        textures = texture_rule(self.textures, self.texture_vertices)
        return {
            '"material"': {ANY: {'"value"': materials, '"values"': materials}},
            '"texture"': {ANY: {'"values"': textures}},
        }

    def object_rule(self, more: dict[str, Rule] | None = None) -> Rule:
        """Returns the rule for a city object, with more rules for its geometries."""
        location: Rule = {'"boundaries"': self.vertices.renumbered}
        geometry: Rule = {**self.geometry_rule(), **(more or {})}
        return {'"geometry"': [geometry], '"address"': [{'"location"': location}]}


def rewritten(text: str, rule: Rule, at: int = 0) -> str:
    """Returns a text, in which the values that the rule names are rewritten in the value at a
    place."""
    edits: list[tuple[int, int, str]] = []
    _visit(text, at, rule, edits)
    pieces: list[str] = []
    copied = 0
    for begin, end, new in edits:
        pieces += text[copied:begin], new
        copied = end
    return "".join([*pieces, text[copied:]])


def _visit(text: str, at: int, rule: Rule | None, edits: list[tuple[int, int, str]]) -> int:
    """Lists the new texts of the values in the value at a place. Returns where it ends."""
    first = text[at]
    if first == "{" and isinstance(rule, dict):
        usual = USUAL.match(text, at)
        if usual is not None:
            renumbered = rule.get('"boundaries"')
            if callable(renumbered):
                edits.append((*usual.span(1), renumbered(usual[1])))
            return usual.end()
        at += 1
        while True:
            found = MEMBERS.match(text, at)
            assert found is not None
            name = found[1]
            if name is None:
                return found.end() + 1
            key = name if "\\" not in name else f'"{plain(name)}"'
            at = _visit(text, found.end(), rule.get(key) or rule.get(ANY), edits)
            at += text[at] == ","
    if first == "[" and isinstance(rule, list):
        at += 1
        while text[at] != "]":
            at = _visit(text, at, rule[0], edits)
            at += text[at] == ","
        return at + 1
    end = _end_of(text, at)
    if callable(rule):
        edits.append((at, end, rule(text[at:end])))
    return end


def _end_of(text: str, at: int) -> int:
    """Returns where a value ends. Lists of scalars end before the next name or bracket, so nothing
    is read."""
    if text[at] == "[":
        end = RUN.match(text, at).end()  # type: ignore[union-attr]
        end -= text[end - 1] == ","
        if text.count("[", at, end) == text.count("]", at, end):
            return end
    return DECODER.raw_decode(text, at)[1]


def members_of(text: str) -> dict[str, tuple[str, str]]:
    """Returns the name and the value of each member of an object, as they are spelled, by the text
    of the name."""
    found: dict[str, tuple[str, str]] = {}
    at = 1
    while text[at] != "}":
        name = MEMBER_NAME.match(text, at)
        assert name is not None
        end = _end_of(text, name.end())
        found.setdefault(plain(name[1]), (name[1], text[name.end() : end]))
        at = end + (text[end] == ",")
    return found


def items_of(text: str) -> list[str]:
    """Returns the items of an array, as they are spelled. A value of another kind has none."""
    found: list[str] = []
    at = 1
    while text[0] == "[" and text[at] != "]":
        end = DECODER.raw_decode(text, at)[1]
        found.append(text[at:end])
        at = end + (text[end] == ",")
    return found
