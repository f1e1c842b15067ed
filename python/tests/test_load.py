"""The example that loads features into PostgreSQL, over a server of Debian's in a folder of its
own."""
import json
import os
import subprocess
import sys
import unittest

from . import support
from .support import HEADER, PLAIN, InFolder, feature

sys.path.insert(0, os.path.join(support.ROOT, "tools"))
import postgres  # noqa: E402

LOADER = os.path.join(support.ROOT, "examples", "load", "load.py")
TOWN, BROKEN, SAMPLE = (
    os.path.join(support.ROOT, "examples", f"{name}.city.jsonl")
    for name in ("town", "broken", "sample")
)
COLUMNS = ("line", "id", "types", "lods", "min_x", "max_x", "min_y", "max_y", "min_z", "max_z")


def with_id(name, end="\n"):
    """A feature without vertices of any id, as Python's JSON writer escapes it."""
    told = {
        "type": "CityJSONFeature",
        "id": name,
        "CityObjects": {name: {"type": "Building"}},
        "vertices": [],
    }
    return (json.dumps(told) + end).encode()


def read_by_python(text):
    """The rows of a stream without instances, read by Python's own JSON reader."""
    header, *lines = text.splitlines()
    transform = json.loads(header)["transform"]
    for number, line in enumerate(lines, 2):
        told = json.loads(line)
        objects = list(told["CityObjects"].values())
        geometries = [each for one in objects for each in one.get("geometry", [])]
        edges = []
        for axis, scale, shift in zip(
            zip(*told["vertices"]), transform["scale"], transform["translate"]
        ):
            edges += [min(axis) * scale + shift, max(axis) * scale + shift]
        types, lods = {one["type"] for one in objects}, {each["lod"][0] for each in geometries}
        yield line, (number, told["id"], types, lods), edges


@unittest.skipIf(postgres.missing(), postgres.missing())
class Loads(InFolder):
    """What is in the tables after the loader ran."""

    @classmethod
    def setUpClass(cls):
        running = postgres.server()
        cls.database = running.__enter__()
        cls.addClassCleanup(running.__exit__, None, None, None)

    def setUp(self):
        super().setUp()
        import psycopg2

        self.connection = psycopg2.connect(self.database)
        self.addCleanup(self.connection.close)
        self.connection.autocommit = True
        self.select("DROP TABLE IF EXISTS features, streams")

    def select(self, query):
        """The rows of a query, or none of what is no query."""
        with self.connection.cursor() as cursor:
            cursor.execute(query)
            return cursor.fetchall() if cursor.description else None

    def load(self, *words):
        """What the loader writes, says and answers."""
        ran = subprocess.run(
            [sys.executable, LOADER, self.database, *map(str, words)],
            timeout=60,
            text=True,
            capture_output=True,
            env={**os.environ, "PYTHONPATH": os.path.join(support.ROOT, "python")},
        )
        return ran.stdout, ran.stderr, ran.returncode

    def rows(self):
        """The features that are loaded, with their lines as bytes."""
        told = self.select(
            f"SELECT {', '.join(COLUMNS)}, convert_to(feature::text, 'UTF8') FROM features"
            " ORDER BY stream, line"
        )
        return [
            (bytes(row[-1]), (row[0], row[1], set(row[2]), set(row[3])), list(row[4:10]))
            for row in told
        ]

    def test_each_column_is_what_python_reads(self):
        self.assertEqual(self.load(SAMPLE), ("loaded features=120\n", "", 0))
        with open(SAMPLE, "rb") as source:
            text = source.read()
        wanted, found = list(read_by_python(text)), self.rows()
        self.assertEqual([row[:2] for row in found], [row[:2] for row in wanted])
        for one, other in zip(found, wanted):
            for edge, exact in zip(one[2], other[2]):
                self.assertAlmostEqual(edge, exact, places=6)
        ((header, path),) = self.select("SELECT header::text, path FROM streams")
        self.assertEqual((header.encode(), path), (text.splitlines()[0], SAMPLE))

    def test_a_query_selects(self):
        self.assertEqual(self.load("--type", "Road,Bridge", TOWN, SAMPLE)[0], "loaded features=1\n")
        self.assertEqual(self.select("SELECT id, types FROM features"), [("road-1", ["Road"])])
        self.assertEqual(
            self.load("--bbox=995,1990,1050,2005", "--lod", "1,1.2", TOWN)[0], "loaded features=2\n"
        )

    def test_all_or_nothing(self):
        self.assertEqual(self.load(TOWN)[2], 0)
        before = self.rows()
        told, said, status = self.load(SAMPLE, BROKEN)
        self.assertEqual((told, status), ("", 1))
        self.assertIn("nothing was loaded: ", said)
        self.assertIn("line 3, byte 144: 25 vertex index out of range", said)
        self.assertEqual(self.rows(), before)
        self.assertEqual(self.load(SAMPLE, self.folder / "none")[2], 1)
        self.assertEqual(
            (self.rows(), self.select("SELECT count(*) FROM streams")), (before, [(1,)])
        )

    def test_a_fault_after_rows_were_sent(self):
        path = self.file(HEADER + feature("a") * 250 + b"{}\n")
        self.assertIn("line 252", self.load(path)[1])
        self.assertEqual(self.select("SELECT to_regclass('features')"), [(None,)])

    def test_texts_that_are_hostile(self):
        ids = [
            "\\N",
            "\\.",
            "a\tb\nc\rd\\",
            "'; DROP TABLE features; --",
            '{"',
            "\u202e",
            "",
            "\u0000",
            "\ud800",
            "築🏠",
        ]
        lines = [with_id(each, end) for each, end in zip(ids, ("\n", " \t\n", "\r\n", "\n") * 3)]
        self.assertEqual(
            self.load(self.file(HEADER + b"".join(lines)))[0], f"loaded features={len(ids)}\n"
        )
        found = self.rows()
        self.assertEqual(
            [row[1][1] for row in found],
            [None if each in ("\u0000", "\ud800") else each for each in ids],
        )
        self.assertEqual([row[0] for row in found], [line[:-1] for line in lines])
        self.assertEqual({edge for row in found for edge in row[2]}, {None})

    def test_coordinates_of_many_digits(self):
        header = HEADER.replace(b"[0.001,0.001,0.001]", b"[1e-300,1,1]").replace(
            b"[10,20,0]", b"[1e300,1e308,0]"
        )
        self.assertEqual(self.load(self.file(header + feature("a")))[0], "loaded features=1\n")
        self.assertEqual(self.rows()[0][2], [1e300, 1e300, 1e308, 1e308, 0.0, 5.0])

    def test_streams_of_no_feature(self):
        self.assertEqual(
            self.load(self.file(HEADER), self.file(HEADER + PLAIN, "b.jsonl.gz"))[0],
            "loaded features=1\n",
        )
        self.assertEqual(self.select("SELECT count(*) FROM streams"), [(1,)])


if __name__ == "__main__":
    unittest.main()
