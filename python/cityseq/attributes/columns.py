"""The columns of an index for attributes: their names, and their types by what is met.

A column has no type while rows are written, so each value keeps its own. If texts come after
numbers, the numbers that are there become texts at the end. A number with an unusual spelling waits
in a temporary table until then."""
from __future__ import annotations

import re
import sqlite3
from collections.abc import Iterable, Mapping, Sequence
from dataclasses import dataclass, field
from typing import TYPE_CHECKING

from ..engine import RequestError
from ..engine.records import Column, Same, stored
from ..indexes import geopackage
from ..indexes.geopackage import ATTRIBUTES, Attribute, quoted, readable
from . import ALL, MOST, Asked, Columns, Spelled, number_of

if TYPE_CHECKING:
    from ..foreign import Json, Object

LONGEST = 100  # characters of the name of a column
EXACT = 1 << 53  # whole numbers up to this are floats too
COLUMNS = ("fid", "geom", "line", "begin", "length", "id", *geopackage.UNIFORM)
TAKEN = ("bytes", "rowid", "oid", "_rowid_")  # names in GeoJSON, and others that SQLite knows
BOOL, WHOLE, WIDE, REAL, TEXT = 1, 2, 4, 8, 16  # kinds of values; WIDE is a whole number
USUAL = {type(None): 0, bool: BOOL, float: REAL, str: TEXT}
FORMATS = {
    "date": re.compile(r"\d{4}-(?:0[1-9]|1[0-2])-(?:0[1-9]|[12]\d|3[01])", re.ASCII),
    "date-time": re.compile(
        r"\d{4}-(?:0[1-9]|1[0-2])-(?:0[1-9]|[12]\d|3[01])[Tt](?:[01]\d|2[0-3]):[0-5]\d:[0-5]\d"
        r"(?:\.\d+)?(?:[Zz]|[-+](?:[01]\d|2[0-3]):[0-5]\d)",
        re.ASCII,
    ),
}
CREATE = f"""
CREATE TABLE {ATTRIBUTES} (
  fid INTEGER PRIMARY KEY NOT NULL, name TEXT NOT NULL, name_exact BLOB,
  column_name TEXT NOT NULL, type TEXT NOT NULL, format TEXT, first_fid INTEGER)
"""


def checked_names(names: str | Iterable[str]) -> Asked:
    """Returns names of attributes, each once. The text `all`, which is in no list, asks for all.

    Raises:
        RequestError: One is no text, or they are more than a table of SQLite takes.
    """
    if names == ALL:
        return ALL
    listed = [names] if isinstance(names, str) else list(names)
    for name in listed:
        if not isinstance(name, str):
            raise RequestError(f"attributes are named by texts: {name!r} is none")
    found = tuple(dict.fromkeys(listed))
    if len(found) > MOST:
        raise RequestError(
            f"an index takes at most {MOST} attributes: {len(found):,} are more than SQLite takes"
        )
    return found


class ColumnNames:
    """Names of columns, of which no two are equal but for case."""

    def __init__(self, taken: Iterable[str]) -> None:
        self._taken = {name.casefold() for name in taken}
        self._numbers: dict[str, int] = {}  # the last one for a name

    def new(self, name: str) -> str:
        """Returns the name of the column for an attribute, and takes it. If it is taken, `_2` or a
        higher number follows it."""
        text = readable(name)[:LONGEST].strip() or "attribute"
        key, made = text.casefold(), text
        number = self._numbers.get(key, 1)
        while made.casefold() in self._taken:
            number += 1
            made = f"{text}_{number}"
        self._taken.add(made.casefold())
        self._numbers[key] = number
        return made


def _kind(value: object) -> int:
    """Returns the kind of a value that is not None."""
    if isinstance(value, Spelled):
        number = number_of(value)
        return TEXT if number is None else REAL if isinstance(number, float) else WHOLE
    if isinstance(value, bool):
        return BOOL
    if isinstance(value, int):
        return WHOLE if -EXACT <= value <= EXACT else WIDE
    return REAL if isinstance(value, float) else TEXT


def _kinds(values: Sequence[Json]) -> int:
    """Returns the kinds of values."""
    found = 0
    for kind in set(map(type, values)):
        if kind in USUAL:
            found |= USUAL[kind]
        elif kind is int:
            numbers = [value for value in values if type(value) is int]
            found |= _kind(max(numbers)) | _kind(min(numbers))
        else:
            for value in values:
                found |= _kind(value) if type(value) is kind else 0
    return found


def _spelling(value: object) -> str | None:
    """Returns a value as it is spelled."""
    if value is None or isinstance(value, str):
        return value
    return str(value).lower() if isinstance(value, bool) else repr(value)


@dataclass
class AttributeColumn:
    """An attribute, as far as its values were met.

    Attributes:
        name: Its name in the streams.
        column: The name of its column.
        kinds: The kinds of its values.
        first: The first feature with each kind.
        only_bools: The feature before which all values are bools, if there are other ones.
        formats: The formats that all its texts have.
        is_turned: Whether there are rows with numbers, and texts after them.
    """

    name: str
    column: str
    kinds: int = 0
    first: dict[int, int] = field(default_factory=dict)
    only_bools: int = 0
    formats: list[str] = field(default_factory=lambda: list(FORMATS))
    is_turned: bool = False

    @property
    def is_text(self) -> bool:
        """Whether the column has texts. No float has the value of a wide number."""
        return bool(self.kinds & TEXT) or self.kinds & (WIDE | REAL) == WIDE | REAL

    @property
    def type(self) -> str:
        """The type of the column."""
        if self.is_text or not self.kinds:
            return "TEXT"
        return "REAL" if self.kinds & REAL else "INTEGER"

    @property
    def format(self) -> str | None:
        """What all values are, if JSON Schema has a name for it."""
        if self.kinds == BOOL:
            return "boolean"
        return self.formats[0] if self.kinds == TEXT and self.formats else None

    @property
    def cause(self) -> int | None:
        """The first feature that shows the type of the column."""
        if self.is_text:
            return self.first[TEXT if self.kinds & TEXT else WIDE]
        return min(self.first.values(), default=None)

    def meet(self, values: Sequence[Json], fids: range) -> None:
        """Takes the next values."""
        kinds, was_text = _kinds(values), self.is_text
        if self.kinds == BOOL and kinds & ~BOOL:
            self.only_bools = fids.start
        new = kinds & ~self.kinds
        if new:
            self.is_turned = self.is_turned or bool(self.kinds) and not was_text
            for fid, value in zip(fids, values):
                if value is not None:
                    self.first.setdefault(_kind(value), fid)
            self.kinds |= kinds
        if self.kinds == TEXT and self.formats:
            texts = [value for value in values if value is not None]
            self.formats = [
                name for name in self.formats if all(map(FORMATS[name].fullmatch, texts))
            ]

    def column_of(
        self, values: list[Json], base: sqlite3.Connection, number: int, fids: range
    ) -> Column:
        """Returns values as rows have them. Spellings that may be needed at the end are kept."""
        if self.is_text:
            return values if self.kinds == TEXT else list(map(_spelling, values))
        types = set(map(type, values))
        if bool in types and self.kinds != BOOL or Spelled in types:
            unusual = [
                (number, fid, _spelling(value))
                for fid, value in zip(fids, values)
                if isinstance(value, (bool, Spelled))
            ]
            base.executemany("INSERT INTO temp.spellings VALUES (?,?,?)", unusual)
            values = [number_of(each) if isinstance(each, Spelled) else each for each in values]
        return Same(None) if types == {type(None)} else values


class AttributeColumns:
    """The columns of an index for attributes."""

    def __init__(self, names: Asked) -> None:
        """Takes the names of the attributes, or `ALL`."""
        self.names = names
        self._columns = ColumnNames([*COLUMNS, *TAKEN])
        self._found: dict[str, AttributeColumn] = {}

    @property
    def are_last(self) -> bool:
        """Whether the columns follow all others, since their names are not known yet."""
        return self.names == ALL

    def begin(self, base: sqlite3.Connection) -> None:
        """Adds the columns whose names are known."""
        base.execute("CREATE TEMP TABLE spellings (attribute INTEGER, fid INTEGER, spelled TEXT)")
        for name in () if self.names == ALL else self.names:
            self._add(base, name)

    def _add(self, base: sqlite3.Connection, name: str) -> None:
        if len(self._found) == MOST:
            raise RequestError(
                f"the streams have more than {MOST} attributes: name those for the index by"
                " --attributes"
            )
        self._found[name] = made = AttributeColumn(name, self._columns.new(name))
        base.execute(f"ALTER TABLE features ADD COLUMN {quoted(made.column)}")

    def rows(self, base: sqlite3.Connection, met: Columns, fids: range) -> list[Column]:
        """Returns the columns of the next features.

        Raises:
            RequestError: There are too many attributes.
        """
        for name in met:
            if name not in self._found:
                self._add(base, name)
        columns: list[Column] = []
        for number, (name, attribute) in enumerate(self._found.items()):
            values = met.get(name)
            if values is None:
                columns.append(Same(None))
                continue
            attribute.meet(values, fids)
            columns.append(attribute.column_of(values, base, number, fids))
        return columns

    def end(self, base: sqlite3.Connection) -> None:
        """Gives the columns their types, and writes the table of attributes."""
        for number, attribute in enumerate(self._found.values()):
            if attribute.is_text and attribute.is_turned:
                self._turn(base, number, attribute)
        _set_types(base, list(self._found.values()))
        base.execute(CREATE)
        base.executemany(
            f"INSERT INTO {ATTRIBUTES} VALUES (NULL,?,?,?,?,?,?)",
            [
                (*stored(each.name), each.column, each.type, each.format, each.cause)
                for each in self._found.values()
            ],
        )

    def _turn(self, base: sqlite3.Connection, number: int, attribute: AttributeColumn) -> None:
        """Makes texts of the numbers in a column."""
        name = quoted(attribute.column)
        base.create_function("spelling", 1, _spelling)
        update = f"UPDATE features SET {name} = "
        bools = f"CASE {name} WHEN 1 THEN 'true' ELSE 'false' END"
        is_number = f"typeof({name}) IN ('integer', 'real')"
        if attribute.first.get(BOOL, attribute.only_bools) < attribute.only_bools:
            base.execute(f"{update}{bools} WHERE fid < ? AND {is_number}", (attribute.only_bools,))
        base.execute(f"{update}spelling({name}) WHERE {is_number}")
        select = "SELECT spelled, fid FROM temp.spellings WHERE attribute = ?"
        base.executemany(f"{update}? WHERE fid = ?", base.execute(select, (number,)))

    def unmet(self) -> list[str]:
        """Returns the names of attributes that no feature has."""
        return [each.name for each in self._found.values() if not each.kinds]


def _set_types(base: sqlite3.Connection, attributes: list[AttributeColumn]) -> None:
    """Writes the types of columns into the text of the table, where they follow one another. No
    statement of SQLite changes a type without writing all rows anew."""
    names = [quoted(each.column) for each in attributes]
    if not names:
        return
    untyped = "".join(f", {name}" for name in names)
    typed = "".join(f", {name} {each.type}" for name, each in zip(names, attributes))
    of_table = "type = 'table' AND name = 'features'"
    (text,) = base.execute(f"SELECT sql FROM sqlite_master WHERE {of_table}").fetchone()
    before, _, after = text.partition(untyped)
    base.execute("PRAGMA writable_schema = ON")
    base.execute(f"UPDATE sqlite_master SET sql = ? WHERE {of_table}", (before + typed + after,))
    base.execute("PRAGMA writable_schema = RESET")
    types = {row[1]: row[2] for row in base.execute("PRAGMA table_info(features)")}
    if any(types.get(each.column) != each.type for each in attributes):
        raise sqlite3.DatabaseError("the types of columns cannot be written")


def properties_of(told: Mapping[str, Json], known: Mapping[str, Attribute]) -> Object:
    """Returns the attributes of a feature by the names of their columns. Those that the index has
    no columns for get such names too."""
    columns = {each.name: each.column for each in known.values()}
    names = ColumnNames([*COLUMNS, *TAKEN, *known])
    return {columns.get(name) or names.new(name): value for name, value in told.items()}
