"""The server: queryables, filters, and attributes of features (OGC API - Features, Part 3)."""
import json
import pathlib
import re
import sys
import tempfile
import unittest
from importlib.util import find_spec
from unittest import mock
from urllib.parse import quote, urlsplit

import cityseq

from .serving import HOSTILE, MISSING, Within
from .support import HEADER
from .test_attributes import line

PART = "http://www.opengis.net/spec/ogcapi-features-3/1.0/conf/"
CQL2 = "http://www.opengis.net/spec/cql2/1.0/conf/"
QUERYABLES = {f"{PART}queryables", f"{PART}queryables-query-parameters"}
FILTERS = {
    f"{PART}filter",
    f"{PART}features-filter",
    f"{CQL2}cql2-text",
    f"{CQL2}basic-cql2",
    f"{CQL2}advanced-comparison-operators",
}
RELATION = "http://www.opengis.net/def/rel/ogc/1.0/queryables"
MISSING = ", ".join(filter(None, [MISSING, "" if find_spec("lark") else "lark is not there"]))
OWN = "http://www.opengis.net/def/crs/EPSG/0/7415"
SYSTEM = b'{"metadata":{"referenceSystem":"https://www.opengis.net/def/crs/EPSG/0/7415"},'
ATTRIBUTES = (
    {"year": 1990, "height": 1.5, "status": "in use", "built": "2020-01-01", "flat": True},
    {"year": 2001, "height": 12.0, "status": "a,b&c=d+e", "built": "1999-12-31", "flat": False},
    {"year": 2010, "status": "築", "limit": 7, "type": "x", "id": "own", "bytes": 5, "a b/c?": 1},
    {"year": None, "nested": {"a": [1, 2]}, "big": 10**30, "x": 0.5},
    {},
)


class Asked(unittest.TestCase):
    """Tests that ask one server over two streams, of which one has attributes."""

    @classmethod
    def setUpClass(cls):
        holder = tempfile.TemporaryDirectory()
        cls.addClassCleanup(holder.cleanup)
        folder = pathlib.Path(holder.name)
        cls.lines = [line(f"b{n}", json.dumps(each)) for n, each in enumerate(ATTRIBUTES)]
        cls.header = HEADER.replace(b"{", SYSTEM, 1)
        (folder / "town.city.jsonl").write_bytes(cls.header + b"".join(cls.lines))
        (folder / "plain.city.jsonl").write_bytes(HEADER + line("p", '{"year":1}'))
        hostile = json.dumps({name: name for name in HOSTILE})
        (folder / "hostile.city.jsonl").write_bytes(HEADER + line("h", hostile))
        for name, attributes in (("town", "all"), ("plain", None), ("hostile", "all")):
            cityseq.index(folder / f"{name}.city.jsonl", folder / name, attributes=attributes)
        cls.server = Within(folder / "town", folder / "plain", folder / "hostile")
        cls.addClassCleanup(cls.server.stop)

    def items(self, query, name="town", status=200):
        answer = self.server.ask(f"/collections/{name}/items?{query}")
        self.assertEqual(answer.status, status, answer.body)
        return answer.json()

    def ids(self, query, name="town"):
        return [each["id"] for each in self.items(query, name)["features"]]

    def refused(self, query, name="town"):
        return self.items(query, name, 400)["detail"]


@unittest.skipIf(MISSING, MISSING)
class Documents(Asked):
    """What is said of queryables."""

    def test_conformance(self):
        found = set(self.server.ask("/conformance").json()["conformsTo"])
        if found:  # all of them need pyproj
            self.assertLessEqual(QUERYABLES | FILTERS, found)
            more = {each for each in found if each.startswith((PART, CQL2))}
            self.assertEqual(more, QUERYABLES | FILTERS)

    def test_conformance_without_lark(self):
        from cityseq.serve import documents as resources
        from cityseq.serve import parameters
        from cityseq.serve.settings import Limits

        with mock.patch.dict(sys.modules, {"lark": None}):
            self.assertFalse(parameters.has_filters())
            table = resources.table(Limits())
        named = {each for resource in table for each in resource.conforms}
        self.assertEqual(named & FILTERS, set())
        self.assertLessEqual(QUERYABLES, named)

    def test_queryables_are_linked(self):
        for path in ("/collections/town", "/collections"):
            told = self.server.ask(path).json()
            links = told.get("links", []) + [
                each for one in told.get("collections", []) for each in one["links"]
            ]
            (link, *_) = [each for each in links if each["rel"] == RELATION]
            self.assertEqual(link["type"], "application/schema+json")
            answer = self.server.ask(urlsplit(link["href"]).path)
            self.assertEqual((answer.status, answer.headers["Content-Type"]), (200, link["type"]))

    def test_queryables(self):
        told = self.server.ask("/collections/town/queryables").json()
        self.assertEqual(told["$schema"], "https://json-schema.org/draft/2020-12/schema")
        self.assertEqual(told["$id"], f"{self.server.url}collections/town/queryables")
        self.assertEqual((told["type"], told["additionalProperties"]), ("object", False))
        self.assertEqual(
            told["properties"],
            {
                "year": {"title": "year", "type": "integer"},
                "height": {"title": "height", "type": "number"},
                "status": {"title": "status", "type": "string"},
                "built": {"title": "built", "type": "string", "format": "date"},
                "flat": {"title": "flat", "type": "boolean"},
                "limit": {"title": "limit", "type": "integer"},
                "type": {"title": "type", "type": "string"},
                "id_2": {"title": "id", "type": "string"},
                "bytes_2": {"title": "bytes", "type": "integer"},
                "a b/c?": {"title": "a b/c?", "type": "integer"},
                "nested": {"title": "nested", "type": "string"},
                "big": {"title": "big", "type": "string"},
                "x": {"title": "x", "type": "number"},
            },
        )
        plain = self.server.ask("/collections/plain/queryables").json()
        self.assertEqual(plain["properties"], {})
        self.assertEqual(self.server.ask("/collections/no/queryables").status, 404)
        self.assertEqual(self.server.ask("/collections/town/queryables?year=1").status, 400)

    def test_the_definition_of_the_api(self):
        told = self.server.ask("/api").json()
        path = told["paths"]["/collections/{collectionId}/items"]["get"]
        given = {each.get("name"): each for each in path["parameters"]}
        self.assertEqual(given["height"]["schema"], {"type": "number"})
        self.assertEqual(given["height"]["in"], "query")
        names = [each.get("name") or each["$ref"].rsplit("/", 1)[1] for each in path["parameters"]]
        self.assertEqual(len(names), len(set(names)))
        self.assertIn("/collections/{collectionId}/queryables", told["paths"])

    def test_pages(self):
        for name in ("town", "plain", "hostile"):
            for path in (
                f"/collections/{name}/queryables",
                f"/collections/{name}",
                f"/collections/{name}/items",
            ):
                answer = self.server.ask(path, Accept="text/html")
                self.assertEqual(answer.status, 200, path)
                self.assertNotIn(b"<script>alert", answer.body)
        page = self.server.ask("/collections/town/items/b0?f=html").body.decode()
        for text in ("height", "1.5", "in use", "true"):
            self.assertIn(f"<bdi>{text}</bdi>", page)
        page = self.server.ask("/collections/town/items?f=html&bbox=&limit=50&filter=").body
        self.assertIn(b"5 features", page)
        page = self.server.ask("/api?f=html").body.decode()
        self.assertNotIn("<script>alert", page)
        self.assertNotIn("\u202e", page)
        values = re.findall(
            r'<bdi>(year|height|status|flat|limit)</bdi>.*\n.*\n.*"Values">([^<]*)<', page
        )
        self.assertEqual(
            dict(values),
            {
                "year": "a whole number",
                "height": "a number",
                "status": "a text",
                "flat": "true or false",
                "limit": "1 to 100000, else 1000",
            },
        )
        page = self.server.ask(f"/collections/town/items?f=html&filter={quote('year > 1')}").body
        self.assertIn(b'name="filter" value="year &gt; 1"', page)
        self.assertIn(b"3 features", page)


@unittest.skipIf(MISSING, MISSING)
class Filters(Asked):
    """What filters find."""

    def test_a_filter(self):
        for text, wanted in (
            ("year > 1990", ["b1", "b2"]),
            ("status = 'in use'", ["b0"]),
            ("status = 'a,b&c=d+e'", ["b1"]),
            ("status LIKE '築%'", ["b2"]),
            ("built < DATE('2000-01-01')", ["b1"]),
            ('flat = FALSE OR "a b/c?" = 1', ["b1", "b2"]),
            ("height BETWEEN 1 AND 12.0", ["b0", "b1"]),
            ("limit = 7 AND type = 'x' AND id_2 = 'own' AND bytes_2 IN (5)", ["b2"]),
            ("FALSE", []),
        ):
            self.assertEqual(self.ids(f"filter={quote(text)}"), wanted, text)
            self.assertEqual(
                self.ids(f"filter={quote(text)}&filter-lang=cql2-text&limit=5"), wanted
            )

    def test_parameters_of_queryables(self):
        for query, wanted in (
            ("year=1990", ["b0"]),
            ("year=1990.0", ["b0"]),
            ("height=12", ["b1"]),
            ("status=in%20use", ["b0"]),
            ("status=in+use", ["b0"]),
            (f"status={quote('a,b&c=d+e')}", ["b1"]),
            ("flat=true", ["b0"]),
            ("built=2020-01-01", ["b0"]),
            ("year=2010&id_2=own", ["b2"]),
            ("year=2010&id_2=no", []),
            (f"{quote('a b/c?')}=1", ["b2"]),
            (f"big={10**30}", ["b3"]),
            ("year=99999999999999999999", []),
            (f"year=2001&filter={quote('height > 1')}", ["b1"]),
        ):
            self.assertEqual(self.ids(query), wanted, query)

    def test_names_that_keep_their_meaning(self):
        self.assertEqual(len(self.ids("limit=2")), 2)
        self.assertEqual(len(self.ids("limit=7")), 5)
        self.assertEqual(len(self.ids("type=Building")), 5)
        self.assertEqual(self.ids("ids=b1,b3"), ["b1", "b3"])
        self.assertIn("object type", self.refused("type=x"))

    def test_it_goes_with_other_parameters(self):
        query = f"filter={quote('year > 0')}"
        self.assertEqual(self.ids(f"{query}&ids=b0,b3"), ["b0"])
        self.assertEqual(self.ids(f"{query}&type=Road"), [])
        self.assertEqual(self.ids(f"{query}&lod=2.2&limit=1"), ["b0"])
        self.assertEqual(
            self.ids(f"{query}&bbox=0,0,20,30&bbox-crs={quote(OWN)}"), ["b0", "b1", "b2"]
        )
        answer = self.server.ask(f"/collections/town/items?{query}&f=city-json-seq")
        self.assertEqual(answer.body, self.header + b"".join(self.lines[:3]))
        self.assertNotIn("numberMatched", self.items(query))
        self.assertNotIn("numberMatched", self.items("year=1990"))

    def test_pages_follow_one_another(self):
        for query in (f"filter={quote('year > 0')}", f"{quote('a b/c?')}=1&flat=true"):
            path, found = f"/collections/town/items?{query}&limit=1", []
            while path:
                answer = self.server.ask(path).json()
                found += [each["id"] for each in answer["features"]]
                following = [each["href"] for each in answer["links"] if each["rel"] == "next"]
                path = following[0][len(self.server.url) - 1 :] if following else None
            self.assertEqual(found, ["b0", "b1", "b2"] if "filter" in query else [])

    def test_mistakes(self):
        for query, words in (
            ("filter=", "ends too early"),
            ("filter=year", "ends too early"),
            (f"filter={quote('yeer = 1')}", '"yeer"'),
            (f"filter={quote(chr(34) + 'yeer' + chr(34) + ' = 1')}", '"yeer"'),
            (
                f"filter={quote('status > 5')}",
                'feature "b0", in line 2 of town.city.jsonl, has "in use"',
            ),
            (f"filter={quote('year > 5')}&filter-lang=cql2-json", "cql2-text"),
            (f"filter={quote('year > 5')}&filter-crs=x", "filter-crs"),
            ("year=x", "year is a number"),
            ("year=", "year is a number"),
            ("flat=1", "flat is true or false"),
            ("yeer=1", "no parameter yeer"),
            ("Year=1", "no parameter Year"),
            ("year=1&year=2", "given twice"),
            ("filter=%FF", "UTF-8"),
        ):
            self.assertIn(words, self.refused(query))
        self.assertIn("no parameter year", self.refused("year=1", "plain"))
        self.assertIn("no attributes", self.refused(f"filter={quote('year = 1')}", "plain"))
        deep = "year=1 OR (year=1 AND (" * 15 + "year=1" + "))" * 15
        self.assertIn("AND in OR in AND", self.refused(f"filter={quote(deep)}"))
        self.assertIn("year is a number", self.refused("year=" + "1" * 2_000))

    def test_hostile_attributes(self):
        found = self.server.ask("/collections/hostile/queryables").json()["properties"]
        self.assertEqual({each["title"] for each in found.values()}, set(HOSTILE))
        (feature,) = self.items("", "hostile")["features"]
        self.assertEqual({feature["properties"][name] for name in found}, set(HOSTILE))
        for column, each in found.items():
            name = column.replace('"', '""')
            query = quote(f'"{name}" IS NOT NULL')
            self.assertEqual(self.ids(f"filter={query}", "hostile"), ["h"])


@unittest.skipIf(MISSING, MISSING)
class GeoJson(Asked):
    """Attributes as properties."""

    def test_properties(self):
        found = [each["properties"] for each in self.items("")["features"]]
        own = {"types", "lods", "objects", "geometries", "zmin", "zmax", "line", "bytes"}
        names = {"id": "id_2", "bytes": "bytes_2"}
        for properties, attributes in zip(found, ATTRIBUTES):
            told = {name: value for name, value in properties.items() if name not in own}
            self.assertEqual(
                told, {names.get(name, name): each for name, each in attributes.items()}
            )
        item = self.server.ask("/collections/town/items/b2").json()
        self.assertEqual(item["properties"], found[2])
        (plain,) = self.items("", "plain")["features"]
        self.assertEqual(plain["properties"]["year"], 1)  # also without a column
