"""The tables of an index: a GeoPackage 1.3 (OGC 12-128r17), which is an SQLite database.

`features` is the layer: the extent of each feature as a polygon. `streams` and `reports` are
tables of attributes. `cityseq_index` has one row: the version of these tables, and how the streams
were judged. docs/geopackage.md describes every column.
"""
from __future__ import annotations

import json
import math
import os
import re
import sqlite3
import struct
from collections.abc import Container, Iterator, Sequence
from contextlib import suppress
from itertools import repeat
from typing import NamedTuple

VERSION = 5  # of the tables: it changes if a column is removed, renamed or changes its meaning
APPLICATION = 0x47504B47  # "GPKG"
GEOPACKAGE = 10_300  # GeoPackage 1.3
MOST_FEATURES = (1 << 32) - 1
UNDEFINED = -1  # the coordinate system is not known
TABLE, COLUMN = "features", "geom"
FOOTPRINTS = "footprints"  # another layer, which not all indexes have
LAYERS = {TABLE: "POLYGON", FOOTPRINTS: "MULTIPOLYGON"}
TREE = f"rtree_{TABLE}_{COLUMN}"
SYSTEM = re.compile(
    r"(?:https?://www\.opengis\.net/def/crs/EPSG/[^/]+/|urn:ogc:def:crs:EPSG:[^:]*:)(\d{1,9})/?\Z"
)
WGS84 = (
    'GEOGCS["WGS 84",DATUM["WGS_1984",SPHEROID["WGS 84",6378137,298.257223563,'
    'AUTHORITY["EPSG","7030"]],AUTHORITY["EPSG","6326"]],PRIMEM["Greenwich",0,'
    'AUTHORITY["EPSG","8901"]],UNIT["degree",0.0174532925199433,AUTHORITY["EPSG","9122"]],'
    'AUTHORITY["EPSG","4326"]]'
)

STANDARD = """
CREATE TABLE gpkg_spatial_ref_sys (
  srs_name TEXT NOT NULL, srs_id INTEGER NOT NULL PRIMARY KEY, organization TEXT NOT NULL,
  organization_coordsys_id INTEGER NOT NULL, definition TEXT NOT NULL, description TEXT);
CREATE TABLE gpkg_contents (
  table_name TEXT NOT NULL PRIMARY KEY, data_type TEXT NOT NULL, identifier TEXT UNIQUE,
  description TEXT DEFAULT '',
  last_change DATETIME NOT NULL DEFAULT (strftime('%Y-%m-%dT%H:%M:%fZ','now')),
  min_x DOUBLE, min_y DOUBLE, max_x DOUBLE, max_y DOUBLE, srs_id INTEGER,
  CONSTRAINT fk_gc_r_srs_id FOREIGN KEY (srs_id) REFERENCES gpkg_spatial_ref_sys(srs_id));
CREATE TABLE gpkg_geometry_columns (
  table_name TEXT NOT NULL, column_name TEXT NOT NULL, geometry_type_name TEXT NOT NULL,
  srs_id INTEGER NOT NULL, z TINYINT NOT NULL, m TINYINT NOT NULL,
  CONSTRAINT pk_geom_cols PRIMARY KEY (table_name, column_name),
  CONSTRAINT uk_gc_table_name UNIQUE (table_name),
  CONSTRAINT fk_gc_tn FOREIGN KEY (table_name) REFERENCES gpkg_contents(table_name),
  CONSTRAINT fk_gc_srs FOREIGN KEY (srs_id) REFERENCES gpkg_spatial_ref_sys (srs_id));
CREATE TABLE gpkg_extensions (
  table_name TEXT, column_name TEXT, extension_name TEXT NOT NULL, definition TEXT NOT NULL,
  scope TEXT NOT NULL, CONSTRAINT ge_tce UNIQUE (table_name, column_name, extension_name));
CREATE TABLE gpkg_ogr_contents (
  table_name TEXT NOT NULL PRIMARY KEY, feature_count INTEGER DEFAULT NULL);
"""

OURS = """
CREATE TABLE features (
  fid INTEGER PRIMARY KEY NOT NULL, geom POLYGON, line INTEGER NOT NULL, begin INTEGER NOT NULL,
  length INTEGER NOT NULL, id TEXT NOT NULL);
CREATE TABLE streams (
  fid INTEGER PRIMARY KEY NOT NULL, path TEXT NOT NULL, path_exact BLOB, packing TEXT,
  size INTEGER NOT NULL, mtime_ns INTEGER NOT NULL, content TEXT NOT NULL,
  header_length INTEGER NOT NULL,
  header_sha256 TEXT NOT NULL, scale TEXT NOT NULL, translate TEXT NOT NULL,
  reference_system TEXT, lines INTEGER NOT NULL, features INTEGER NOT NULL,
  refused INTEGER NOT NULL, first_fid INTEGER NOT NULL, xmin REAL, xmax REAL, ymin REAL, ymax REAL,
  zmin REAL, zmax REAL);
CREATE TABLE reports (
  fid INTEGER PRIMARY KEY NOT NULL, stream INTEGER NOT NULL, line INTEGER NOT NULL,
  byte INTEGER NOT NULL, code INTEGER NOT NULL, text TEXT NOT NULL, id TEXT, excerpt TEXT);
CREATE TABLE cityseq_index (
  version INTEGER NOT NULL, program TEXT NOT NULL, tree INTEGER NOT NULL,
  extensions INTEGER NOT NULL, keep_going INTEGER NOT NULL, line_limit INTEGER NOT NULL,
  depth INTEGER NOT NULL,
  changed INTEGER NOT NULL, places INTEGER NOT NULL);
"""

IDS = "CREATE INDEX features_id ON features (id)"  # it finds the features of an id

# The other columns of `features`, whose last ones often have one value in all rows.
UNIFORM = {
    "zmin": "REAL",
    "zmax": "REAL",
    "types": "TEXT NOT NULL",
    "lods": "TEXT NOT NULL",
    "objects": "INTEGER NOT NULL",
    "geometries": "INTEGER NOT NULL",
    "stream": "INTEGER NOT NULL",
    "id_exact": "BLOB",
}
OWN = {"fid", "geom", "line", "begin", "length", "id", *UNIFORM}  # no attribute has these
NO_FEATURE = (None, None, "", "", 0, 0, 1, None)  # their values where there is no feature

# They note that another program has changed what cuts rely on.
GUARD = """
CREATE TRIGGER {name} AFTER {event} ON {table}
BEGIN
  UPDATE cityseq_index SET changed = 1 WHERE changed = 0;
END
"""
ATTRIBUTES = "cityseq_attributes"  # a table that not all indexes have
GUARDED = ("features", "streams", "blocks", ATTRIBUTES)
EVENTS = {
    f"cityseq_{table}_{event.lower()}": (event, table)
    for table in GUARDED
    for event in ("INSERT", "UPDATE", "DELETE")
}


def connected(path: str, how: str, wait: float = 5.0) -> sqlite3.Connection:
    """Opens a database.

    Args:
        path: Its path, without links.
        how: What its URI has after the path.
        wait: How many seconds to wait for a lock of another program.

    Raises:
        sqlite3.Error: It cannot be opened.
    """
    name = "".join(f"%{byte:02x}" for byte in os.fsencode(path))
    base = sqlite3.connect(
        f"file:{name}?{how}", uri=True, isolation_level=None, check_same_thread=False, timeout=wait
    )
    base.execute("PRAGMA trusted_schema = OFF")
    return base


def guards(tables: Container[str]) -> list[str]:
    """Returns the names of the triggers that an index with these tables has."""
    return [name for name, (_, table) in EVENTS.items() if table in tables]


# The triggers of the extension `gpkg_rtree_index`: other programs may change the layer.
TRIGGERS = """
CREATE TRIGGER {tree}_insert AFTER INSERT ON {table}
  WHEN (new.{geom} NOT NULL AND NOT ST_IsEmpty(NEW.{geom}))
BEGIN
  INSERT OR REPLACE INTO {tree} VALUES (NEW.fid, {box});
END;
CREATE TRIGGER {tree}_update1 AFTER UPDATE OF {geom} ON {table}
  WHEN OLD.fid = NEW.fid AND (NEW.{geom} NOTNULL AND NOT ST_IsEmpty(NEW.{geom}))
BEGIN
  INSERT OR REPLACE INTO {tree} VALUES (NEW.fid, {box});
END;
CREATE TRIGGER {tree}_update2 AFTER UPDATE OF {geom} ON {table}
  WHEN OLD.fid = NEW.fid AND (NEW.{geom} ISNULL OR ST_IsEmpty(NEW.{geom}))
BEGIN
  DELETE FROM {tree} WHERE id = OLD.fid;
END;
CREATE TRIGGER {tree}_update3 AFTER UPDATE ON {table}
  WHEN OLD.fid != NEW.fid AND (NEW.{geom} NOTNULL AND NOT ST_IsEmpty(NEW.{geom}))
BEGIN
  DELETE FROM {tree} WHERE id = OLD.fid;
  INSERT OR REPLACE INTO {tree} VALUES (NEW.fid, {box});
END;
CREATE TRIGGER {tree}_update4 AFTER UPDATE ON {table}
  WHEN OLD.fid != NEW.fid AND (NEW.{geom} ISNULL OR ST_IsEmpty(NEW.{geom}))
BEGIN
  DELETE FROM {tree} WHERE id IN (OLD.fid, NEW.fid);
END;
CREATE TRIGGER {tree}_delete AFTER DELETE ON {table} WHEN old.{geom} NOT NULL
BEGIN
  DELETE FROM {tree} WHERE id = OLD.fid;
END;
"""
# GDAL reads the number of rows of a layer from `gpkg_ogr_contents`, and names the triggers so.
COUNTER = """
CREATE TRIGGER trigger_{event}_feature_count_{table} AFTER {event} ON {table}
BEGIN
  UPDATE gpkg_ogr_contents SET feature_count = feature_count {sign} 1 WHERE table_name = '{table}';
END
"""
CONTENTS = (
    ("features", "The extent of each feature, and where its line is"),
    (FOOTPRINTS, "The ground of each feature, or its extent if it has none"),
    ("streams", "The streams that were indexed"),
    ("reports", "The invalid lines, which are left out"),
)


class Attribute(NamedTuple):
    """An attribute of an index.

    Attributes:
        name: Its name in the streams.
        column: The name of its column.
        type: The type of its column.
        format: `boolean`, `date` or `date-time` if all values are so, or None.
        first: The first feature that shows the type, if any has a value.
    """

    name: str
    column: str
    type: str
    format: str | None
    first: int | None


def quoted(name: str) -> str:
    """Returns the name of a column as SQL has it."""
    escaped = name.replace('"', '""')
    return f'"{escaped}"'


def system_of(metadata: object) -> tuple[str | None, int]:
    """Returns the reference system of a header's metadata, and its EPSG code or -1."""
    name = metadata.get("referenceSystem") if isinstance(metadata, dict) else None
    if not isinstance(name, str):
        return None, UNDEFINED
    found = SYSTEM.match(name)
    return name, int(found.group(1)) or UNDEFINED if found else UNDEFINED


def readable(text: str) -> str:
    """Returns a text that all programs can read. A text with NUL or a lone surrogate is escaped as
    in JSON."""
    if "\0" not in text:
        with suppress(UnicodeEncodeError):
            text.encode("utf-8")
            return text
    return json.dumps(text)[1:-1]


def geometry_start(system: int) -> bytes:
    """Returns the beginning of each polygon: a GeoPackage header without envelope, then WKB."""
    return struct.pack("<2sBBiBIII", b"GP", 0, 1, system, 1, 3, 1, 5)


def polygons(
    start: bytes,
    xmin: Sequence[float],
    xmax: Sequence[float],
    ymin: Sequence[float],
    ymax: Sequence[float],
) -> Iterator[bytes]:
    """Yields extents as polygons of one ring."""
    pack = struct.Struct(f"<{len(start)}s10d").pack
    corners = xmin, ymin, xmax, ymin, xmax, ymax, xmin, ymax, xmin, ymin
    return map(pack, repeat(start), *corners)


def create(base: sqlite3.Connection) -> None:
    """Makes all tables in an empty database, without the triggers."""
    base.execute(f"PRAGMA application_id = {APPLICATION}")
    base.execute(f"PRAGMA user_version = {GEOPACKAGE}")
    for each in (STANDARD + OURS).split(";\n"):
        base.execute(each)
    base.execute(f"CREATE VIRTUAL TABLE {TREE} USING rtree(id, minx, maxx, miny, maxy)")


def _literal(value: object) -> str:
    """Returns a number or a name as SQL. SQLite keeps up to 19 digits when it reads a float."""
    return f"{value:.20g}" if isinstance(value, float) else repr(value)


def as_default(base: sqlite3.Connection, height: float | None) -> float | None:
    """Returns a height if SQLite reads it unchanged from the text of a default, and else None. The
    text of a float with a very large or small exponent may be read as its neighbour."""
    if height is None or not math.isfinite(height):
        return None
    (told,) = base.execute(f"SELECT CAST({_literal(height)} AS REAL)").fetchone()
    return height if told == height else None


def add_columns(base: sqlite3.Connection, begin: int, end: int, values: Sequence[object]) -> None:
    """Adds some of the uniform columns to `features`, by their places. All rows before have these
    values, numbers or names, and take no bytes for them: if a row ends before a column, SQLite
    reads the default of the column."""
    for (name, kind), value in list(zip(UNIFORM.items(), values))[begin:end]:
        default = "" if value is None else f" DEFAULT {_literal(value)}"
        base.execute(f"ALTER TABLE features ADD COLUMN {name} {kind}{default}")


def describe(base: sqlite3.Connection, system: int) -> None:
    """Fills the tables that describe the others, and adds the triggers."""
    systems = [
        ("Undefined cartesian SRS", -1, "NONE", -1, "undefined", "Undefined cartesian system"),
        ("Undefined geographic SRS", 0, "NONE", 0, "undefined", "Undefined geographic system"),
        ("WGS 84 geodetic", 4326, "EPSG", 4326, WGS84, "Longitude and latitude in degrees"),
    ]
    if system not in (-1, 0, 4326):
        systems.append((f"EPSG:{system}", system, "EPSG", system, "undefined", ""))
    base.executemany("INSERT INTO gpkg_spatial_ref_sys VALUES (?,?,?,?,?,?)", systems)
    select = "SELECT name FROM sqlite_master WHERE type = 'table'"
    tables = {name for name, in base.execute(select)}
    bounds = base.execute(
        "SELECT min(xmin), min(ymin), max(xmax), max(ymax) FROM streams"
    ).fetchone()
    for name, description in CONTENTS:
        is_layer = name in LAYERS
        if name not in tables:
            continue
        base.execute(
            "INSERT INTO gpkg_contents (table_name, data_type, identifier, description, min_x,"
            " min_y, max_x, max_y, srs_id) VALUES (?,?,?,?,?,?,?,?,?)",
            (name, "features" if is_layer else "attributes", name, description)
            + (bounds if is_layer else (None,) * 4)
            + (system if is_layer else None,),
        )
        base.execute(
            f"INSERT INTO gpkg_ogr_contents SELECT '{name}', coalesce(max(fid), 0) FROM {name}"
        )
        for event, sign in (("insert", "+"), ("delete", "-")):
            base.execute(COUNTER.format(event=event, table=name, sign=sign))
    base.executemany(
        "INSERT INTO gpkg_geometry_columns VALUES (?,?,?,?,0,0)",
        [(name, COLUMN, kind, system) for name, kind in LAYERS.items() if name in tables],
    )
    extension = "http://www.geopackage.org/spec130/#extension_rtree"
    base.executemany(
        "INSERT INTO gpkg_extensions VALUES (?,?,?,?,?)",
        (
            (TABLE, COLUMN, "gpkg_rtree_index", extension, "write-only"),
            *(
                (table, None, "cityseq_index", "docs/geopackage.md of cityseq", "read-write")
                for table in ("cityseq_index", "blocks", ATTRIBUTES)
                if table in tables
            ),
        ),
    )
    edges = ("ST_MinX", "ST_MaxX", "ST_MinY", "ST_MaxY")
    box = ", ".join(f"{edge}(NEW.{COLUMN})" for edge in edges)
    for each in TRIGGERS.format(tree=TREE, table=TABLE, geom=COLUMN, box=box).split("\nEND;\n"):
        if each.strip():
            base.execute(f"{each}\nEND")
    for guard in guards(tables):
        event, table = EVENTS[guard]
        base.execute(GUARD.format(name=guard, event=event, table=table))
