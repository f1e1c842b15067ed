"""The server: boxes and extents that are moved from one coordinate system to another."""
import json
import math
import pathlib
import random
import tempfile
import time
import unittest
from importlib.util import find_spec

import cityseq

from .serving import MISSING, Serving, Within
from .support import HEADER, InFolder, command, feature

WITHOUT = MISSING or ("" if find_spec("pyproj") else "pyproj is not there")
if not WITHOUT:
    from pyproj import CRS, Transformer

    from cityseq.coordinates import Projection, meet, meet_on_earth, pieces

WORLD = (-180, -90, 180, 90)
EPSG = "http://www.opengis.net/def/crs/EPSG/0/{}"
# a place of each system, with places over the antimeridian and near poles among them
PLACES = {
    7415: (4.37, 52.01),
    28992: (6.9, 53.3),
    25832: (6.96, 50.94),
    2154: (2.35, 48.86),
    3812: (4.35, 50.85),
    3301: (24.75, 59.44),
    3416: (16.37, 48.21),
    27700: (-1.9, 52.5),
    32760: (179.99, -16.5),
    9377: (-74.1, 4.6),
    2056: (8.54, 47.37),
    5845: (18.07, 59.33),
    3031: (166.7, -77.8),
    3413: (-68.7, 89.9),
    3460: (179.99, -16.8),
    3832: (-179.99, -16.8),
    3857: (13.4, 52.5),
    3338: (-179.9, 52),
    4979: (139.7, 35.7),
    4326: (179.99, -16.8),
    3034: (9, 50),
    3978: (-75.7, 45.4),
    5514: (17.1, 48.15),
    31370: (4.35, 50.85),
    2180: (21, 52.2),
    32601: (-179.99, 65.5),
    5041: (100, 89.99),
    32040: (-95.4, 29.8),
}


def move_of(code):
    """The way from degrees to a system and back, as pyproj has it."""
    system = CRS.from_epsg(code)
    flat = system.sub_crs_list[0] if system.is_compound else system
    there, back = (
        Transformer.from_crs(*pair, always_xy=True).transform
        for pair in (("OGC:CRS84", flat), (flat, "OGC:CRS84"))
    )
    return there, lambda x, y: turned_back(*back(x, y))


def turned_back(x, y):
    """A point from -180 to 180 degrees: a stream of degrees may have others."""
    return x if abs(x) <= 180 else (x + 180) % 360 - 180, y


def features_of(code, spread, count, chance):
    """The extents of features within some degrees of the place of a system."""
    to, _ = move_of(code)
    metre = 1e-5 if CRS.from_epsg(code).is_geographic else 1.0
    found = []
    while len(found) < count:
        x, y = PLACES[code]
        x, y = x + chance.uniform(-spread, spread), min(89.999, y + chance.uniform(-spread, spread))
        west, south = to((x + 180) % 360 - 180, y)
        if math.isfinite(west) and math.isfinite(south):
            size = metre * chance.choice((0, 1, 10, 10, 100, 5_000))
            found.append(
                (west, south, west + size * chance.random(), south + size * chance.random())
            )
    return found


def boxes_near(code, spread, count, chance):
    """Boxes of degrees: half worlds, and boxes of all sizes near the place of a system."""
    x, y = PLACES[code]
    found = [
        WORLD,
        (0, 0, 180, 90),
        (-180, 0, 0, 90),
        (-180, -90, 0, 0),
        (0, -90, 180, 0),
        (90, -90, -90, 90),
        (-180, -90, 180, y),
        (-180, y, 180, 90),
        (-180, -89, 180, 89),
    ]
    for _ in range(count):
        size = chance.choice((0.2, 1, 3)) * spread
        west, east = sorted(x + chance.uniform(-size, size) for _ in "ab")
        south, north = sorted(max(-90, min(90, y + chance.uniform(-size, size))) for _ in "ab")
        found.append(((west + 180) % 360 - 180, south, (east + 180) % 360 - 180, north))
    return found


def has(box, x, y):
    """Whether a box of degrees has a point."""
    return any(
        west <= x <= east and south <= y <= north for west, south, east, north in pieces(box)
    )


def selected(way, box, extents):
    """Which extents a box of degrees selects."""
    found = way.reach(box)
    return {
        number
        for number, extent in enumerate(extents)
        if found.box is not None
        and meet(extent, found.box)
        and (found.reaches is None or found.reaches(extent))
    }


def faults_of(code, spread, count, chance):
    """What is wrong with the answers to boxes near a place: none may be."""
    extents = features_of(code, spread, count, chance)
    edges = list(zip(*extents))
    flat = CRS.from_epsg(code)
    flat = flat.sub_crs_list[0].to_epsg() if flat.is_compound else code
    way = Projection(flat, (min(edges[0]), min(edges[1]), max(edges[2]), max(edges[3])))
    degrees, (_, back) = list(map(way.degrees, extents)), move_of(code)
    points = [
        [back(x, y) for x in (e[0], (e[0] + e[2]) / 2, e[2]) for y in (e[1], e[3])] for e in extents
    ]
    for extent, told, corners in zip(extents, degrees, points):
        if not all(has(told, *corner) for corner in corners):
            yield "a corner lies outside", extent, told
    for box in boxes_near(code, spread, count // 2, chance) + degrees[:20]:
        found = selected(way, box, extents)
        for number, corners in enumerate(points):
            if number not in found and any(has(box, *corner) for corner in corners):
                yield "left out", box, extents[number], degrees[number]
            if number in found and not meet_on_earth(degrees[number], box):
                yield "too much", box, extents[number], degrees[number]


@unittest.skipIf(WITHOUT, WITHOUT)
class NothingIsLeftOut(unittest.TestCase):
    """A feature that has a corner in a box of degrees is in the answer. tests/faults tries more."""

    def none_of(self, *codes):
        for code in codes:
            chance = random.Random(code)
            for spread in (0.02, 2):
                self.assertEqual(list(faults_of(code, spread, 20, chance)), [], code)

    def test_a_compound_one(self):
        self.none_of(7415)

    def test_a_transverse_mercator(self):
        self.none_of(25832)

    def test_a_lambert_conic(self):
        self.none_of(2154)

    def test_over_the_antimeridian(self):
        self.none_of(3832)

    def test_near_the_south_pole(self):
        self.none_of(3031)

    def test_near_the_north_pole(self):
        self.none_of(5041)

    def test_degrees(self):
        self.none_of(4326)

    def test_where_several_operations_meet(self):
        """PROJ takes another operation on the other side of a border: points jump by metres."""
        self.none_of(5514)


@unittest.skipIf(WITHOUT, WITHOUT)
class Moved(unittest.TestCase):
    """The box of degrees around an extent."""

    def around(self, code, extent):
        west, south, east, north = Projection(code, extent).degrees(extent)
        return tuple(round(edge, 3) for edge in (west, south, east, north))

    def test_what_bulges_between_the_corners(self):
        """The north edge of a box in a conic is an arc. Its middle is the farthest south or north."""
        extent = (400_000, 6_200_000, 1_000_000, 6_900_000)
        west, south, east, north = Projection(2154, extent).degrees(extent)
        _, back = move_of(2154)
        for step in range(1001):
            for x, y in (
                back(400_000 + 600 * step, 6_200_000),
                back(400_000 + 600 * step, 6_900_000),
                back(400_000, 6_200_000 + 700 * step),
                back(1_000_000, 6_200_000 + 700 * step),
            ):
                self.assertTrue(west <= x <= east and south <= y <= north, (step, x, y))
        self.assertAlmostEqual(north, back(700_000, 6_900_000)[1], delta=0.001)
        self.assertAlmostEqual(west, back(400_000, 6_900_000)[0], delta=0.001)

    def test_conics_have_degrees(self):
        for code, place in (
            (2154, (2.346, 48.856)),
            (3812, (4.35, 50.85)),
            (3301, (24.75, 59.44)),
            (3416, (16.37, 48.21)),
        ):
            x, y = move_of(code)[0](*place)
            found = self.around(code, (x, y, x + 1, y + 1))
            self.assertEqual((found[0], found[1]), place)

    def test_poles(self):
        for code, latitude in ((3031, -90), (3413, 90), (5041, 90)):
            x, y = move_of(code)[0](0, latitude)
            west, south, east, north = self.around(code, (x - 1e5, y - 2e5, x + 3e5, y + 1e5))
            self.assertEqual((west, east), (-180, 180))
            self.assertEqual(south if latitude < 0 else north, latitude)
            self.assertTrue(86 < (-north if latitude < 0 else south) < 88, (south, north))
        # beside the pole
        west, south, east, north = self.around(3031, (1e5, 1e5, 2e5, 2e5))
        self.assertAlmostEqual(west, math.degrees(math.atan(1 / 2)), delta=0.02)
        self.assertAlmostEqual(east, math.degrees(math.atan(2)), delta=0.02)
        self.assertTrue(-90 < south < north < -87)

    def test_over_the_antimeridian(self):
        to, _ = move_of(3832)
        (west, south), (east, north) = to(177, -18), to(-179, -16)
        self.assertEqual(self.around(3832, (west, south, east, north)), (177, -18, -179, -16))
        self.assertEqual(self.around(4326, (179, -18, 181, -16)), (179, -18, -179, -16))

    def test_pieces(self):
        for box, wanted in (
            ((1, 2, 3, 4), [(1, 2, 3, 4)]),
            (WORLD, [WORLD]),
            ((177, 2, -177, 4), [(177, 2, 180, 4), (-180, 2, -177, 4)]),
            ((170, 2, 190, 4), [(170, 2, 180, 4), (-180, 2, -170, 4)]),
            ((190, 2, 200, 4), [(-170, 2, -160, 4)]),
            ((0, 2, 720, 4), [(-180, 2, 180, 4)]),
        ):
            self.assertEqual(pieces(box), wanted)
        self.assertEqual(
            meet_on_earth((170, 0, -170, 9), (-175, 5, 175, 12)),
            [(170, 5, 175, 9), (-175, 5, -170, 9)],
        )

    def test_degrees_beyond_180(self):
        """A stream of degrees may count them from 0 to 360."""
        for extents in (
            [(179.0, -17, 179.5, -16), (180.5, -17, 181, -16)],
            [(1.0, -17, 2, -16), (265.0, -17, 266, -16), (359, -17, 359.5, -16)],
            [(-190.0, -17, -189, -16), (-170, -17, -169, -16)],
        ):
            edges = list(zip(*extents))
            way = Projection(4326, (min(edges[0]), -17, max(edges[2]), -16))
            for number, (west, _, east, _) in enumerate(extents):
                for box in ((west, -20, east, 0), (-180, -90, 180, 90)):
                    box = turned_back(*box[:2]) + turned_back(*box[2:])
                    self.assertIn(number, selected(way, box, extents), (box, extents))
            self.assertEqual(selected(way, (100, -90, 110, 90), extents), set())

    def test_what_has_no_place(self):
        self.assertIsNone(Projection(4978, (1, 2, 3, 4)).degrees((1, 2, 3, 4)))  # geocentric
        self.assertIsNone(Projection(25832, None).degrees((1e15, 1e15, 1e15, 1e15)))
        # a stray feature far away does not hide the others
        near = 356_000, 5_645_000, 356_010, 5_645_010
        way = Projection(25832, (356_000, 5_645_000, 1e15, 1e15))
        for box, wanted in ((WORLD, {0}), ((6, 50, 7, 51), {0}), ((7, 50, 8, 51), set())):
            self.assertEqual(selected(way, box, [near, (1e15, 1e15, 1e15, 1e15)]), wanted, box)


def stream(code, x, y):
    """Five features from west to east. The third reaches two metres to each side of the place."""
    header = json.loads(HEADER)
    header["transform"]["translate"] = [x, y, 0]
    if code is not None:
        header["metadata"] = {"referenceSystem": f"https://www.opengis.net/def/crs/EPSG/0/{code}"}
    lines = [header]
    for number, (west, east) in enumerate(((-25, -24), (-15, -14), (-2, 2), (14, 15), (24, 25))):
        lines.append(json.loads(feature(f"f{number}")))
        lines[-1]["vertices"] = [[1_000 * x, 1_000 * y, 0] for x in (west, east) for y in (0, 1)]
    return b"".join(json.dumps(line).encode() + b"\n" for line in lines)


class Asked(unittest.TestCase):
    """One server over streams in several systems."""

    STREAMS = {
        "paris": (2154, (2.346, 48.856)),
        "delft": (7415, (4.37, 52.01)),
        "fiji": (3460, (180, -16.8)),
        "nowhere": (None, (0, 0)),
    }
    ALL = ["f0", "f1", "f2", "f3", "f4"]

    @classmethod
    def setUpClass(cls):
        if WITHOUT:
            raise unittest.SkipTest(WITHOUT)
        holder = tempfile.TemporaryDirectory()
        cls.addClassCleanup(holder.cleanup)
        cls.folder = pathlib.Path(holder.name)
        for name, (code, place) in cls.STREAMS.items():
            x, y = (0, 0) if code is None else map(int, move_of(code)[0](*place))
            (cls.folder / f"{name}.city.jsonl").write_bytes(stream(code, x, y))
        cls.index()
        cls.server = Serving(cls.folder / "all.gpkg")
        cls.addClassCleanup(cls.server.stop)

    @classmethod
    def index(cls):
        paths = [str(cls.folder / f"{name}.city.jsonl") for name in cls.STREAMS]
        _, said, status = command("index", "--output", str(cls.folder / "all.gpkg"), *paths)
        if status:
            raise AssertionError(said)

    def items(self, query):
        answer = self.server.ask(f"/collections/{query}")
        self.assertEqual(answer.status, 200, (query, answer.body))
        return answer.json()["features"]

    def ids(self, query):
        return [each["id"] for each in self.items(query)]

    def status(self, query):
        return self.server.ask(f"/collections/{query}").status


class Answers(Asked):
    def test_large_boxes(self):
        for name in ("paris", "delft"):
            for box in ("-180,-90,180,90", "0,0,180,90", "-180,-89,180,89", "-10,0,60,90"):
                self.assertEqual(self.ids(f"{name}/items?bbox={box}"), self.ALL, (name, box))
            for box in ("-180,-90,0,90", "-180,-90,180,0", "90,-90,-90,90"):
                self.assertEqual(self.ids(f"{name}/items?bbox={box}"), [], (name, box))
                answer = self.server.ask(f"/collections/{name}/items?f=city-json-seq&bbox={box}")
                self.assertEqual(len(answer.lines()), 1)

    def test_a_lambert_conic_is_on_the_map(self):
        for each in self.items("paris/items"):
            for x, y in each["geometry"]["coordinates"][0]:
                self.assertTrue(2.345 < x < 2.347 and 48.855 < y < 48.857, (x, y))
        told = self.server.ask("/collections/paris").json()["extent"]["spatial"]["bbox"][0]
        self.assertEqual([round(edge, 2) for edge in told], [2.35, 48.86, 2.35, 48.86])

    def test_over_the_antimeridian(self):
        west, south, east, north = self.server.ask("/collections/fiji").json()["extent"]["spatial"][
            "bbox"
        ][0]
        self.assertTrue(179.99 < west < 180 and -180 < east < -179.99, (west, east))
        told = {each["id"]: each["geometry"] for each in self.items("fiji/items")}
        kinds = [told[name]["type"] for name in self.ALL]
        self.assertEqual(kinds, ["Polygon", "Polygon", "MultiPolygon", "Polygon", "Polygon"])
        (left,), (right,) = told["f2"]["coordinates"]
        self.assertEqual((max(x for x, _ in left), min(x for x, _ in right)), (180, -180))
        self.assertTrue(min(x for x, _ in left) > 179.9999 and max(x for x, _ in right) < -179.9999)
        box = "179.9,-17,-179.9,-16"
        self.assertEqual(self.ids(f"fiji/items?bbox={box}"), self.ALL)
        self.assertEqual(self.ids("fiji/items?bbox=-180,-90,180,90"), self.ALL)
        halves = self.ids("fiji/items?bbox=179,-17,180,-16"), self.ids(
            "fiji/items?bbox=-180,-17,-179,-16"
        )
        self.assertEqual(halves, (["f0", "f1", "f2"], ["f2", "f3", "f4"]))
        self.assertEqual(self.ids("delft/items?bbox=170,50,-170,60"), [])
        self.assertEqual(self.ids("delft/items?bbox=4.4,-90,4.3,90"), [])
        self.assertEqual(self.ids("delft/items?bbox=4.3,-90,4.2,90"), self.ALL)

    def test_six_numbers(self):
        """Heights are left out."""
        self.assertEqual(self.ids("delft/items?bbox=4.3,52,-900,4.4,52.1,-800"), self.ALL)
        for box in (
            "4.3,52,9,4.4,52.1,-9",
            "1,2,3,4,5",
            "1,2,3,4,5,x",
            "1,2,3,4,5,6,7",
            "4.3,52.1,4.4,52",
            "4.3,52.1,0,4.4,52,1",
        ):
            self.assertEqual(self.status(f"delft/items?bbox={box}"), 400, box)

    def test_west_of_east_where_there_are_no_degrees(self):
        rd = EPSG.format(7415)
        self.assertEqual(
            self.status(f"delft/items?bbox=90000,400000,80000,500000&bbox-crs={rd}"), 400
        )
        self.assertEqual(self.status("delft/items?bbox=90000,400000,80000,500000"), 400)
        self.assertEqual(self.status("nowhere/items?bbox=3,0,1,1"), 400)
        self.assertEqual(self.ids("nowhere/items?bbox=-30,-1,30,2"), self.ALL)

    def test_systems_of_a_compound_one(self):
        told = self.server.ask("/collections/delft").json()
        degrees, flat, both = EPSG.format(4326), EPSG.format(28992), EPSG.format(7415)
        self.assertEqual(told["crs"][1:], [degrees, flat, both])
        self.assertEqual(told["storageCrs"], both)
        (first,) = self.items("delft/items?limit=1")
        (turned,) = self.items(f"delft/items?limit=1&crs={degrees}")
        self.assertEqual(
            [point[::-1] for point in turned["geometry"]["coordinates"][0]],
            [first["geometry"]["coordinates"][0][at] for at in (0, 3, 2, 1, 0)],
        )
        same = [self.items(f"delft/items?crs={system}") for system in (flat, both)]
        self.assertEqual(same[0], same[1])
        for box, system in (
            ("52,4.3,52.1,4.4", degrees),
            ("80000,440000,90000,450000", flat),
            ("80000,440000,90000,450000", both),
        ):
            self.assertEqual(
                self.ids(f"delft/items?bbox={box}&bbox-crs={system}"), self.ALL, system
            )
        self.assertEqual(self.ids(f"delft/items?bbox=4.3,52,4.4,52.1&bbox-crs={degrees}"), [])
        answer = self.server.ask(f"/collections/delft/items?crs={flat}")
        self.assertEqual(answer.headers["Content-Crs"], f"<{flat}>")
        self.assertEqual(self.status(f"delft/items?f=city-json-seq&crs={flat}"), 200)
        self.assertEqual(self.status(f"delft/items?f=city-json-seq&crs={degrees}"), 400)
        self.assertEqual(self.status(f"paris/items?crs={flat}"), 400)


class Anew(Asked):
    STREAMS = {"delft": (7415, (4.37, 52.01))}

    def test_pages_of_an_index_that_was_built_anew(self):
        first = self.server.ask("/collections/delft/items?limit=2").json()
        (following,) = (link["href"] for link in first["links"] if link["rel"] == "next")
        path = following[len(self.server.url) - 1 :]
        self.assertEqual(self.server.ask(path).json()["features"][0]["id"], "f2")
        self.index()  # of the same stream
        self.wait_for("delft/items", 200)
        self.assertEqual(self.server.ask(path).json()["features"][0]["id"], "f2")
        (self.folder / "delft.city.jsonl").write_bytes(stream(7415, 90_000, 450_000))
        self.index()
        answer = self.wait_for(path.partition("/collections/")[2], 410)
        self.assertEqual(answer.json()["title"], "Gone")
        self.assertEqual(self.ids("delft/items?limit=2"), ["f0", "f1"])
        self.assertEqual(self.status("delft/items?mark=x"), 410)

    def wait_for(self, query, status):
        """The answer with a status. The server looks for a new index once a second."""
        end = time.monotonic() + 30
        while time.monotonic() < end:
            answer = self.server.ask(f"/collections/{query}")
            if answer.status == status:
                return answer
            time.sleep(0.05)
        raise AssertionError(answer.body)


@unittest.skipIf(WITHOUT, WITHOUT)
class FarAway(InFolder):
    """Streams with places that no query can have in its box."""

    def served(self, transform, *features):
        """A server of one stream. Its system is that of longitude and latitude."""
        header = (
            '{"type":"CityJSON","version":"2.0","transform":%s,"metadata":{"referenceSystem":'
            '"https://www.opengis.net/def/crs/EPSG/0/4326"},"CityObjects":{},"vertices":[]}\n'
        )
        lines = [
            f'{{"type":"CityJSONFeature","id":"{name}","CityObjects":{{"{name}":'
            f'{{"type":"Building"}}}},"vertices":{vertices}}}\n'
            for name, vertices in features
        ]
        path = self.file((header % transform + "".join(lines)).encode(), "far.city.jsonl")
        cityseq.index(path, self.folder / "far.gpkg")
        server = Within(self.folder / "far.gpkg")
        self.addCleanup(server.stop)
        return lambda query: server.ask(f"/collections/far/items?{query}")

    def test_a_feature_beyond_all_boxes(self):
        for scale in ("1e15", "1e17"):  # times 2,000 this is above 10^18, and above 10^19
            with self.subTest(scale):
                ask = self.served(
                    f'{{"scale":[{scale},1,1],"translate":[0,0,0]}}',
                    ("here", "[[0,1,0]]"),
                    ("far", "[[2000,1,0]]"),
                    ("none", "[]"),
                )
                for box, wanted in (
                    ("-1,0,1,2", ["here"]),
                    ("-180,-90,180,90", ["here"]),
                    ("5,0,6,2", []),
                ):
                    answer = ask(f"bbox={box}")
                    self.assertEqual(answer.status, 200, answer.body)
                    found = [each["id"] for each in answer.json()["features"]]
                    self.assertEqual(found, wanted, box)

    def test_a_transform_that_no_box_takes(self):
        """The same as of the stream itself, and not an answer without features."""
        ask = self.served('{"scale":[1e30,1,1],"translate":[0,0,0]}', ("here", "[[0,1,0]]"))
        self.assertEqual([each["id"] for each in ask("").json()["features"]], ["here"])
        for query in (
            "bbox=-1,0,1,2",
            "bbox=-1,0,1,2&f=city-json-seq",
            f"bbox=-1,0,1,2&bbox-crs={EPSG.format(4326)}",
        ):
            answer = ask(query)
            self.assertEqual(answer.status, 400, query)
            self.assertIn("30 transform not fixed", answer.json()["detail"])


if __name__ == "__main__":
    unittest.main()
