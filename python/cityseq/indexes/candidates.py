"""Which features of an index a query may keep, and about how many."""
from __future__ import annotations

import os
import re
from collections.abc import Mapping
from functools import partial
from typing import TYPE_CHECKING

from ..engine import LOD_CLASSES, OutOfDate, library, quoted, shown
from ..engine.judge import Work
from ..engine.records import id_of, stored
from ..engine.world import intervals_of
from .database import INDEX_CHANGED, Database
from .geopackage import TREE, Attribute
from .geopackage import quoted as named

if TYPE_CHECKING:
    from ..attributes.cql2 import Condition, Filter

CREATE_WANTED = "CREATE TEMP TABLE wanted (id TEXT, exact BLOB)"
# The features that have an id of `temp.wanted`.
WANTED = (
    "SELECT features.fid FROM temp.wanted CROSS JOIN features ON features.id = wanted.id"
    " WHERE features.id_exact IS wanted.exact"
)
LINE = 2_048  # bytes of a stream that are judged in the time that it takes to find and read a line
SMALL = 16 << 20  # bytes of streams that are not worth an estimate
SAMPLE = 500  # features that show how many of all a query selects
BOX = "minx <= ? AND maxx >= ? AND miny <= ? AND maxy >= ?"
IN_BOX = f"fid IN (SELECT id FROM {TREE} WHERE {BOX})"
WITH_ID = f"fid IN ({WANTED})"
Terms = tuple[list[str], list[object]]  # conditions, and the values in them


def want(base: Database, ids: bytes) -> None:
    """Writes the ids of a query, one a line, to `temp.wanted`."""
    base.execute("DROP TABLE IF EXISTS temp.wanted")
    base.execute(CREATE_WANTED)
    base.executemany("INSERT INTO temp.wanted VALUES (?,?)", map(stored, ids.decode().split("\n")))


def terms_of(work: Work) -> Terms:
    """Returns the conditions that all features meet that a query may keep. For ids the caller calls
    `want`."""
    conditions, values = _of_names(work)
    edges = _edges(work)
    if edges is not None:
        conditions.append(IN_BOX)
        values += edges
    if work.ids is not None:
        conditions.append(WITH_ID)
    return conditions, values


def _edges(work: Work) -> list[float] | None:
    """Returns the box of a query for `BOX`, rounded outward. None if there is none."""
    box = None if work.box is None else intervals_of(work.box.decode("utf-8"))
    return None if box is None else [box[0][1], box[0][0], box[1][1], box[1][0]]


def _of_names(work: Work) -> Terms:
    """Returns the conditions for the attributes, types and LoDs of a query."""
    sql, given = work.where or ("", ())
    conditions: list[str] = [f"({sql})"] if sql else []
    values: list[object] = list(given)
    for column, names in (("types", _noted(work.types)), ("lods", _classes(work.lods))):
        if names is not None:
            each = set(names.decode("utf-8").split("\n"))
            parts = [f"instr(',' || {column} || ',', ?)"] * len(each)
            conditions.append(f"({' OR '.join(parts)})")
            values += [f",{name}," for name in each]
    return conditions, values


def _noted(types: bytes | None) -> bytes | None:
    """Returns the types of a query, one a line. An index has one name for all of extensions."""
    return types and re.sub(rb"(?m)^\+.*", library().count_names()[-1].encode("ascii"), types)


def _classes(lods: bytes | None) -> bytes | None:
    """Returns the classes of the LoDs of a query, one a line."""
    if lods is None:
        return None
    names = {
        text[:1] if text[:1] in LOD_CLASSES else LOD_CLASSES[-1]
        for text in lods.decode("utf-8").split("\n")
    }
    return "\n".join(sorted(names)).encode("ascii")


def has_more(base: Database, work: Work, fids: range, most: int) -> bool:
    """Returns whether a query may keep more than `most` of the features with these numbers."""
    conditions, values = _of_names(work)
    edges = _edges(work)
    source, number = "features", "fid"
    if edges is not None:
        is_told = work.ids is None and not conditions  # the tree tells enough
        source, number = TREE, "id"
        if not is_told:
            source, number = f"{TREE} CROSS JOIN features ON fid = {TREE}.id", "fid"
        conditions.append(BOX)
        values += edges
    if work.ids is not None:
        want(base, work.ids)
        conditions.append(WITH_ID)
    conditions.append(f"{number} BETWEEN ? AND ?")
    values += [fids.start, fids.stop - 1]
    which = f"SELECT 1 FROM {source} WHERE {' AND '.join(conditions)} LIMIT {most + 1}"
    (count,) = base.execute(f"SELECT count(*) FROM ({which})", values).fetchone()
    return bool(count > most)


def reads_all(base: Database, work: Work, features: int, size: int) -> bool:
    """Whether to read streams of so many features and bytes takes less time than to read the lines
    that a query may keep, by an estimate. False for small streams."""
    most = size * features // (size + LINE * features)  # lines that take as much time
    if (
        size < SMALL
        or work.where is not None
        or work.ids is not None
        and work.ids.count(b"\n") < most
    ):
        return False
    conditions, values = _of_names(work)
    if conditions:
        step = features // SAMPLE + 1
        sample = range(1 + step // 2, features + 1, step)
        which = f"fid IN ({','.join(map(str, sample))}) AND {' AND '.join(conditions)}"
        select = f"SELECT count(*) FROM features WHERE {which}"
        (count,) = base.execute(select, values).fetchone()
        if count * features < most * len(sample):
            return False
    edges = _edges(work)
    if edges is not None:
        which = f"SELECT 1 FROM {TREE} WHERE {BOX} LIMIT {most}"
        (count,) = base.execute(f"SELECT count(*) FROM ({which})", edges).fetchone()
        return bool(count == most)
    return True


# ---- attributes


def condition_of(
    base: Database, known: Mapping[str, Attribute], paths: Mapping[int, str], where: str | Filter
) -> Condition:
    """Returns the condition of SQL for a filter, which names known attributes. A fault names one of
    the paths, which are those of the streams by their numbers.

    Raises:
        RequestError: It is no filter, or has no meaning for these attributes.
    """
    from ..attributes.cql2 import parsed  # few runs need it
    from ..attributes.cql2 import Translation

    base.know_filters()
    filter = parsed(where) if isinstance(where, str) else where
    return Translation(known, partial(_in_the_way, base, paths)).condition(filter)


def _in_the_way(
    base: Database, paths: Mapping[int, str], attribute: Attribute, kind: str | None
) -> str | None:
    """Returns words on the first feature that shows the type of an attribute, or whose text is not
    of a kind. None if there is none."""
    from ..attributes.columns import FORMATS

    column, fid = named(attribute.column), attribute.first
    with base.reading():
        if kind is not None:
            texts = base.search(
                f"SELECT fid, {column} FROM features WHERE {column} NOT NULL ORDER BY fid"
            )
            is_kind = FORMATS[kind].fullmatch
            fid = next((fid for fid, text in texts if not is_kind(str(text))), None)
        row = base.execute(
            f"SELECT id, id_exact, line, stream, {column} FROM features WHERE fid = ?", (fid,)
        ).fetchone()
    if row is None:
        return None
    name, exact, line, stream, value = row
    try:
        told = quoted(value) if isinstance(value, str) else f"{value}"
        where = f"line {int(line)} of {shown(os.path.basename(paths[stream]))}"
        return f"feature {quoted(id_of(name, exact))}, in {where}, has {told}"
    except (AttributeError, KeyError, TypeError, ValueError):
        raise OutOfDate.because(INDEX_CHANGED, base.path) from None
