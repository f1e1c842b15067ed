#!/usr/bin/env python3
"""Loads the features of CityJSONSeq streams into PostgreSQL: all of them, or none.

    load.py postgresql:///city region.city.jsonl more.city.jsonl.gz
    load.py dbname=city --type Building,Bridge --bbox=84616,447422,85140,447750 region.city.jsonl

It makes the tables of tables.sql if they are not there. If a line of any stream is invalid, nothing
is loaded, and the message says which line. It needs the package cityseq and python3-psycopg2."""
import argparse
import io
import os
import sys
from itertools import chain, islice

import psycopg2

import cityseq

TABLES = os.path.join(os.path.dirname(os.path.abspath(__file__)), "tables.sql")
STREAM = "INSERT INTO streams (path, header) VALUES (%s, %s) RETURNING stream"
BATCH = 100  # rows that are sent at once
NULL = b"\\N"


def escaped(text):
    """Returns bytes as COPY reads them."""
    for sign, escape in ((b"\\", b"\\\\"), (b"\t", b"\\t"), (b"\n", b"\\n"), (b"\r", b"\\r")):
        text = text.replace(sign, escape)
    return text


def row_of(stream, feature):
    """Returns the row of a feature as COPY reads it."""
    name = feature.id.encode("utf-8", "ignore")  # half a character has no bytes
    name = escaped(name) if name.decode() == feature.id and b"\0" not in name else NULL
    edges = [edge for axis in feature.extent for edge in axis or (None, None)]
    numbers = (NULL if edge is None else repr(float(edge)).encode() for edge in edges)
    lists = (b"{%s}" % ",".join(names).encode() for names in (feature.types, feature.lods))
    row = (b"%d" % stream, b"%d" % feature.line, name, *numbers, *lists, escaped(feature.bytes))
    return b"\t".join(row) + b"\n"


def load(cursor, path, query):
    """Loads the kept features of a stream, and returns how many there are."""
    features, count = cityseq.features(path, **query), 0
    for first in islice(features, 1):
        name = os.fsencode(path).decode("utf-8", "replace")
        cursor.execute(STREAM, [name, first.header.decode().rstrip("\n")])
        (stream,) = cursor.fetchone()
        rows = (row_of(stream, each) for each in chain([first], features))
        for batch in iter(lambda: list(islice(rows, BATCH)), []):
            cursor.copy_expert("COPY features FROM STDIN", io.BytesIO(b"".join(batch)))
            count += len(batch)
    return count


def main():
    """Loads all streams in one transaction."""
    parser = argparse.ArgumentParser(description=__doc__.split("\n")[0])
    parser.add_argument("database", help="how to connect: a URI, or words like dbname=city")
    parser.add_argument("paths", nargs="+", metavar="FILE", help="a stream, which may be packed")
    for option, name in (("--type", "types"), ("--lod", "lods"), ("--bbox", "box")):
        parser.add_argument(option, dest=name, type=lambda text: text.split(","))
    query = vars(parser.parse_args())
    database, paths = query.pop("database"), query.pop("paths")
    try:
        with psycopg2.connect(database) as connection, connection.cursor() as cursor:
            connection.set_client_encoding("UTF8")
            cursor.execute(open(TABLES).read())
            count = sum(load(cursor, path, query) for path in paths)
    except (cityseq.CityseqError, psycopg2.Error, KeyboardInterrupt) as fault:
        sys.exit("nothing was loaded: " + ascii(str(fault).strip() or "interrupted"))
    print(f"loaded features={count}")


if __name__ == "__main__":
    main()
