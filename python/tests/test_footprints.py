"""The layer `footprints` of an index: the ground of each feature."""
import json
import random
import re
import sqlite3
import struct
import unittest
from contextlib import closing

import cityseq
from cityseq.indexes.footprints import polygons_of

from .serving import MISSING, Serving
from .support import HEADER, InFolder, command

SQUARE = [[0, 0, 0], [4_000, 0, 0], [4_000, 4_000, 0], [0, 4_000, 0]]
HOLE = [[1_000, 1_000, 0], [2_000, 1_000, 0], [2_000, 2_000, 0], [1_000, 2_000, 0]]
ROOF = [
    [-1_000, -1_000, 9_000],
    [6_000, -1_000, 9_000],
    [6_000, 6_000, 9_000],
    [-1_000, 6_000, 9_000],
]
VERTICES = SQUARE + HOLE + ROOF + [[4_000, 0, 9_000], [0, 0, 9_000]]
WALL = [[0, 1, 12, 13]]
BOX = [[(9, 19), (16, 19), (16, 26), (9, 26)]]  # around all vertices, in world coordinates
GROUND = [[(10, 20), (14, 20), (14, 24), (10, 24)]]
WITH_HOLE = [GROUND[0], [(11, 21), (11, 22), (12, 22), (12, 21)]]
ROOFED = [[(9, 19), (16, 19), (16, 26), (9, 26)]]


def semantic(kinds, values):
    """Semantics of surfaces of these types."""
    return {"surfaces": [{"type": kind} for kind in kinds], "values": values}


def surfaces(boundaries, lod="2.2", kind="MultiSurface", semantics=None):
    """A geometry of surfaces."""
    told = {"type": kind, "lod": lod, "boundaries": boundaries}
    return told if semantics is None else {**told, "semantics": semantics}


def line(*objects, vertices=VERTICES, **dumps):
    """A feature whose city objects have these geometries. The second one is a part of the first."""
    told = {}
    for number, geometry in enumerate(objects):
        kind = {"type": "BuildingPart", "parents": ["b0"]} if number else {"type": "Building"}
        told[f"b{number}"] = {**kind, "geometry": geometry}
    if len(objects) > 1:
        told["b0"]["children"] = [f"b{number}" for number in range(1, len(objects))]
    feature = {"type": "CityJSONFeature", "id": "b0", "CityObjects": told, "vertices": vertices}
    return json.dumps(feature, **dumps).encode() + b"\n"


def read_footprint(geometry):
    """The polygons of a geometry of a GeoPackage, by its own reader: rings without their last
    point, from the least one on, in their direction."""
    if geometry is None:
        return None
    assert geometry[:4] == b"GP\0\1", geometry[:8]
    order, kind, count = struct.unpack_from("<BII", geometry, 8)
    assert (order, kind) == (1, 6)
    at, polygons = 17, []
    for _ in range(count):
        order, kind, rings = struct.unpack_from("<BII", geometry, at)
        assert (order, kind) == (1, 3)
        at += 9
        polygons.append([])
        for _ in range(rings):
            (points,) = struct.unpack_from("<I", geometry, at)
            edges = struct.unpack_from(f"<{2 * points}d", geometry, at + 4)
            at += 4 + 16 * points
            ring = list(zip(edges[::2], edges[1::2]))
            assert ring[0] == ring[-1], ring
            least = ring.index(min(ring[:-1]))
            polygons[-1].append(ring[least:-1] + ring[:least])
    assert at == len(geometry)
    return polygons


def turned_left(ring):
    """Whether a ring turns left, by its area."""
    pairs = zip(ring, ring[1:] + ring[:1])
    return sum(x * after_y - after_x * y for (x, y), (after_x, after_y) in pairs) > 0


class Layer(InFolder):
    """What the layer has."""

    def indexed(self, *lines, header=HEADER, **options):
        """The footprints of these lines."""
        path, index = self.file(header + b"".join(lines)), self.folder / "i.gpkg"
        cityseq.index(path, index, footprints=True, **options)
        with closing(sqlite3.connect(index)) as base:
            rows = base.execute("SELECT fid, geom FROM footprints ORDER BY fid").fetchall()
        self.assertEqual([fid for fid, _ in rows], list(range(1, len(lines) + 1)))
        return [read_footprint(geometry) for _, geometry in rows]

    def one(self, *objects, **more):
        (found,) = self.indexed(line(*objects, **more))
        for polygon in found or []:
            self.assertTrue(turned_left(polygon[0]))
            self.assertFalse(any(turned_left(hole) for hole in polygon[1:]))
        return found

    def test_an_overhang(self):
        """The ground is smaller than the roof, and not the extent."""
        semantics = semantic(["GroundSurface", "RoofSurface", "WallSurface"], [0, 1, 2])
        for ring in ([0, 1, 2, 3], [3, 2, 1, 0], [2, 3, 0, 1]):
            found = self.one([surfaces([[ring], [[8, 9, 10, 11]], WALL], semantics=semantics)])
            self.assertEqual(found, [GROUND])

    def test_holes(self):
        for hole in ([4, 5, 6, 7], [7, 6, 5, 4]):
            for ring in ([0, 1, 2, 3], [3, 2, 1, 0]):
                semantics = semantic(["GroundSurface"], [0])
                self.assertEqual(
                    self.one([surfaces([[ring, hole]], semantics=semantics)]), [WITH_HOLE]
                )
        line_hole = [[0, 1, 2, 3], [4, 5, 4]]
        self.assertEqual(self.one([surfaces([line_hole], "0")]), [GROUND])

    def test_lod_0_comes_first(self):
        """Whatever its semantics are, and in any city object."""
        ground = surfaces([[[8, 9, 10, 11]]], "1.2", semantics=semantic(["GroundSurface"], [0]))
        for lod in ("0", "0.2"):
            for semantics in (
                None,
                semantic(["RoofSurface"], [0]),
                semantic(["RoofSurface"], [None]),
            ):
                flat = surfaces([[[0, 1, 2, 3]]], lod, semantics=semantics)
                for objects in (
                    ([flat, ground],),
                    ([ground, flat],),
                    ([ground], [flat]),
                    ([flat], [ground]),
                ):
                    self.assertEqual(self.one(*objects), [GROUND])

    def test_geometry_in_building_parts(self):
        """Each part may have a piece of the ground. They are not united."""
        first, second = (
            surfaces(
                [[ring], [[8, 9, 10, 11]]], "2.2", semantics=semantic(["GroundSurface"], [0, None])
            )
            for ring in ([0, 1, 2, 3], [4, 5, 6, 7])
        )
        inner = [[(11, 21), (12, 21), (12, 22), (11, 22)]]
        self.assertEqual(self.one([], [first], [second]), [GROUND, inner])
        self.assertEqual(self.one([first], [second]), [GROUND, inner])

    def test_the_lowest_lod_that_has_ground(self):
        low = surfaces([[[8, 9, 10, 11]]], "1.2", semantics=semantic(["RoofSurface"], [0]))
        middle = surfaces([[[0, 1, 2, 3]]], "1.3", semantics=semantic(["GroundSurface"], [0]))
        high = surfaces([[[4, 5, 6, 7]]], "2.2", semantics=semantic(["GroundSurface"], [0]))
        self.assertEqual(self.one([low, high, middle]), [GROUND])
        self.assertEqual(self.one([high], [middle], [low]), [GROUND])

    def test_solids(self):
        shell = [[[8, 9, 10, 11]], [[0, 1, 2, 3], [4, 5, 6, 7]]]
        inner = [[[4, 5, 6, 7]]]
        kinds = semantic(["GroundSurface", "RoofSurface"], [[1, 0], None])
        solid = surfaces([shell, inner], kind="Solid", semantics=kinds)
        self.assertEqual(self.one([solid]), [WITH_HOLE])
        for kind in ("MultiSolid", "CompositeSolid"):
            kinds = semantic(["GroundSurface", "RoofSurface"], [None, [[1, 0]]])
            many = surfaces([[shell], [shell]], kind=kind, semantics=kinds)
            self.assertEqual(self.one([many]), [WITH_HOLE])
        composite = surfaces([[[0, 1, 2, 3]]], "0", "CompositeSurface")
        self.assertEqual(self.one([composite]), [GROUND])

    def test_what_gives_the_box(self):
        """Lines, points, missing semantics, vertical surfaces, and those without area."""
        steep = [[0, 0, 0], [4_000, 0, 0], [4_000, 1, 9_000], [0, 1, 9_000]]
        for geometry in (
            [],
            [{"type": "MultiPoint", "lod": "0", "boundaries": [0, 1, 2]}],
            [{"type": "MultiLineString", "lod": "0", "boundaries": [[0, 1, 2, 3]]}],
            [surfaces([[[0, 1, 2, 3]]])],
            [surfaces([[[0, 1, 2, 3]]], semantics=semantic(["RoofSurface"], [0]))],
            [surfaces([[[0, 1, 2, 3]]], semantics=semantic(["GroundSurface"], [None]))],
            [surfaces([[[0, 1, 2, 3]]], semantics=semantic(["GroundSurface"], None))],
            [surfaces([[[0, 1, 2, 3]]], semantics=semantic([], [None]))],
            [surfaces([WALL, [[0, 1, 0]], [[0, 1]], [[0]]], "0")],
            [surfaces([], "0")],
        ):
            with self.subTest(geometry=geometry):
                self.assertEqual(self.one(geometry), [BOX])
        found = self.one([surfaces([[[0, 1, 2, 3]]], "0")], vertices=steep)
        self.assertEqual(found, [[[(10, 20), (14, 20), (14, 20.001), (10, 20.001)]]])
        self.assertEqual(self.one([], vertices=[]), None)

    def test_some_surfaces_have_no_place(self):
        """Then the others are the ground, and not the box."""
        found = self.one([surfaces([WALL, [[0, 1, 2, 3]], [[0, 1, 0]]], "0")])
        self.assertEqual(found, [GROUND])

    def test_templates(self):
        header = json.loads(HEADER)
        template = surfaces([[[0, 1, 2]]], "0")
        header["geometry-templates"] = {
            "templates": [template],
            "vertices-templates": [[0, 0, 0], [1, 0, 0], [0, 1, 0]],
        }
        matrix = [1.0 if number % 5 == 0 else 0.0 for number in range(16)]
        instance = {
            "type": "GeometryInstance",
            "template": 0,
            "boundaries": [0],
            "transformationMatrix": matrix,
        }
        text = json.dumps(header).encode() + b"\n"
        self.assertEqual(self.indexed(line([instance]), header=text), [[BOX]])

    def test_scales(self):
        """A mirrored axis turns rings, and they are turned back."""
        for scale, wanted in (
            ("[-0.001,0.001,0.001]", [[(6, 20), (10, 20), (10, 24), (6, 24)]]),
            ("[-0.001,-0.001,0.001]", [[(6, 16), (10, 16), (10, 20), (6, 20)]]),
            ("[0.001,0.001,0.1]", GROUND),
        ):
            header = HEADER.replace(b"[0.001,0.001,0.001]", scale.encode())
            for ring in ([0, 1, 2, 3], [3, 2, 1, 0]):
                found = self.indexed(line([surfaces([[ring]], "0")]), header=header)
                self.assertEqual(found, [[wanted]])
        header = HEADER.replace(b"[0.001,0.001,0.001]", b"[1e-30,1,1]")
        self.assertEqual(
            self.indexed(line([surfaces([[[0, 1, 2, 3]]], "0")]), header=header), [None]
        )

    def test_any_spelling_of_a_line(self):
        """White space, escapes, names and texts with brackets, and numbers in other forms."""
        told = line([surfaces([[[0, 1, 2, 3]]], "0")])
        more = json.loads(told)
        more["CityObjects"]["b0"]["attributes"] = {
            "[1,2]": "x [3,[4] ]] y",
            "mixed": [[1, 2], {"a": [3]}, ["x", [4]], [[5], "y"]],
            "texts": ["[1", "2]"],
            "long": 1,
        }
        long_number = json.dumps(more).replace('"long": 1', '"long": ' + "9" * 6_000)
        for text in (
            json.dumps(more, indent=None, separators=(" , ", " : ")),
            json.dumps(more, separators=(",", ":")),
            long_number,
            told.decode().replace("[", "[ ").replace("]", "\t]"),
            told.decode().replace("boundaries", "\\u0062oundaries").replace('"0"', '"\\u0030"'),
            told.decode().replace("4000", "4e3").replace("[0, 1, 2, 3]", "[0, 1.0, 2, 30e-1]"),
            told.decode().replace("[0, 1, 2, 3]", "[0, 1.0, 2, 30e-1]"),
            told.decode().replace('"vertices"', '"x": -1000000000000000, "vertices"'),
            told.decode().replace('"b0"', '"b0 [0]"'),
            told.decode().replace("{", '{"x": [[1], 2, "]"], ', 1),
        ):
            with self.subTest(text=text[:400]):
                self.assertEqual(self.indexed(text.strip().encode() + b"\n"), [[GROUND]])

    def test_some_numbers_in_other_forms(self):
        """Any of those of vertices, boundaries and semantic values, by chance."""
        low, high = [[0, 1, 2, 3]], [[8, 9, 10, 11]]
        told = line(
            [
                surfaces([[[low, high, WALL, low]], [[high]], [[low, WALL]]], kind="MultiSolid")
                | {"semantics": semantic(["x", "GroundSurface"], [[[1, 0, 0, 1]], None, [[1, 0]]])},
                surfaces([low, low, high, WALL, low], "1.2")
                | {"semantics": semantic(["x", "GroundSurface"], [0, 0, 1, 0, 0])},
            ],
            [surfaces([[low, low, low, high]], "0", "Solid")],
        ).decode()
        chance, lines = random.Random(1), []
        for flat in ("0", "2") * 300:
            text = re.sub(
                r'(?<![\w".])\d+(?![\w".])',
                lambda found: found[0] + chance.choice(("", "", "", ".0", "e0")),
                told.replace('"lod": "0"', f'"lod": "{flat}"'),
            )
            lines.append(text.encode())
        self.assertEqual(self.indexed(*lines), [[GROUND] * 3 + [ROOFED], [ROOFED]] * 300)

    def test_many_vertices_and_surfaces(self):
        """Made by chance: grounds of many triangles, by a slow reference over the JSON text."""
        for seed in range(20):
            chance = random.Random(seed)
            vertices = [
                [chance.randrange(9_000) for _ in "xyz"] for _ in range(chance.choice((9, 90)))
            ]
            rings = [
                [chance.randrange(len(vertices)) for _ in range(chance.choice((3, 4, 6)))]
                for _ in range(chance.choice((1, 5, 60)))
            ]
            values = [chance.choice((0, 1, None)) for _ in rings]
            geometry = surfaces(
                [[ring] for ring in rings],
                semantics=semantic(["GroundSurface", "WallSurface"], values),
            )
            wanted = []
            for ring, value in zip(rings, values):
                points = [[c / 1_000 for c in vertices[number]] for number in ring]
                normal = [0, 0, 0]
                for (x, y, z), (u, v, w) in zip(points, points[1:] + points[:1]):
                    normal[0] += (y - v) * (z + w)
                    normal[1] += (z - w) * (x + u)
                    normal[2] += (x - u) * (y + v)
                aside = (normal[0] ** 2 + normal[1] ** 2) ** 0.5
                if value == 0 and abs(normal[2]) > max(0.01 * aside, 1e-9):
                    ordered = points if normal[2] > 0 else points[::-1]
                    wanted.append({(round(10 + x, 3), round(20 + y, 3)) for x, y, _ in ordered})
            found = self.one([geometry], vertices=vertices)
            with self.subTest(seed=seed):
                if wanted:
                    rings = [set(polygon[0]) for polygon in found]
                    self.assertEqual(sorted(map(sorted, rings)), sorted(map(sorted, wanted)))
                else:
                    self.assertEqual(len(found), 1)

    def test_surfaces_without_points(self):
        """Among few others, and among so many that numpy is used."""
        for count in (1, 50):
            many = [[], [[]], [[0, 1]], [[0, 1, 2, 3]]] * count
            for boundaries in (many, many[::-1]):
                found = self.one([surfaces(boundaries, "0")])
                self.assertEqual(found, [GROUND] * count)
            self.assertEqual(self.one([surfaces([[[]]] * count, "0")], vertices=[]), None)

    def test_large_numbers(self):
        """Vertices that are farther apart than floats are exact."""
        far = 10**17
        vertices = [[0, 0, 0], [far, 0, 0], [far, far, 0], [0, far, 0]]
        header = HEADER.replace(b"[0.001,0.001,0.001]", b"[1e-13,1e-13,1e-13]")
        for count in (1, 50):
            told = line([surfaces([[[0, 1, 2, 3]]] * count, "0")], vertices=vertices)
            wanted = [[(10, 20), (10_010, 20), (10_010, 10_020), (10, 10_020)]]
            self.assertEqual(self.indexed(told, header=header), [[wanted] * count])

    def test_many_parts_and_threads(self):
        lines = [line([surfaces([[[0, 1, 2, 3]]], "0")]), line([])] * 300
        path = self.file(HEADER + b"".join(lines))
        for how in ({"jobs": 1}, {"jobs": 4, "part_size": 5_000}):
            index = self.folder / "i.gpkg"
            cityseq.index(path, index, footprints=True, **how)
            with closing(sqlite3.connect(index)) as base:
                rows = base.execute("SELECT geom FROM footprints ORDER BY fid").fetchall()
            self.assertEqual([read_footprint(row[0]) for row in rows], [[GROUND], [BOX]] * 300)


class Kept(InFolder):
    """The rest of an index stays as it is."""

    def test_the_other_tables_are_those_of_an_index_without(self):
        path = self.file(HEADER + line([surfaces([[[0, 1, 2, 3]]], "0")]) * 3)
        rows = []
        for footprints in (False, True):
            index = self.folder / f"{footprints}.gpkg"
            cityseq.index(path, index, footprints=footprints)
            with closing(sqlite3.connect(index)) as base:
                tables = (
                    "features",
                    "streams",
                    "cityseq_index",
                    "rtree_features_geom",
                )
                rows.append([base.execute(f"SELECT * FROM {table}").fetchall() for table in tables])
                found = base.execute(
                    "SELECT table_name FROM gpkg_geometry_columns ORDER BY 1"
                ).fetchall()
                self.assertEqual(
                    [name for name, in found], ["features"] + ["footprints"] * footprints
                )
        self.assertEqual(rows[0], rows[1])

    def test_streams_of_two_systems(self):
        """All geometries have the undefined system then."""
        paths = []
        for number, code in enumerate((7415, 28992)):
            system = (
                f'"metadata":{{"referenceSystem":"https://www.opengis.net/def/crs/EPSG/0/{code}"}},'
            )
            header = HEADER.replace(b'"transform"', system.encode() + b'"transform"')
            flat = line([surfaces([[[0, 1, 2, 3]]], "0")])
            paths.append(self.file(header + flat, f"{number}.city.jsonl"))
        for chosen, wanted in ((paths[:1], 7415), (paths, -1)):
            index = self.folder / "i.gpkg"
            cityseq.index(chosen, index, footprints=True)
            with closing(sqlite3.connect(index)) as base:
                for layer in ("features", "footprints"):
                    for (geometry,) in base.execute(f"SELECT geom FROM {layer}"):
                        self.assertEqual(struct.unpack_from("<i", geometry, 4), (wanted,))

    def test_the_command(self):
        path, index = str(self.file(HEADER + line([]))), str(self.folder / "i.gpkg")
        said = command("index", "--footprints", "--output", index, path)
        self.assertEqual(said, (b"valid lines=2 features=1\n", "", 0))
        with cityseq.Index(index) as opened:
            self.assertFalse(opened.is_changed)


@unittest.skipIf(MISSING, MISSING)
class Served(InFolder):
    """GeoJSON and the map of the server have the ground where the index has it."""

    RD = "https://www.opengis.net/def/crs/EPSG/0/{}"

    def test_it(self):
        header = HEADER.replace(b"[10,20,0]", b"[85000,447000,0]")
        system = '"metadata":{"referenceSystem":"%s"},' % self.RD.format(7415)
        header = header.replace(b'"transform"', system.encode() + b'"transform"')
        semantics = semantic(["GroundSurface"], [0])
        ground = line([surfaces([[[0, 1, 2, 3], [4, 5, 6, 7]]], semantics=semantics)])
        path = self.file(header + ground + line([]).replace(b'"b0"', b'"b9"'))
        for has_footprints in (True, False):
            index = self.folder / f"{has_footprints}.gpkg"
            cityseq.index(path, index, footprints=has_footprints)
            with Serving(index) as server:
                self.ask(server, has_footprints)

    def ask(self, server, has_footprints):
        """Looks at what a server answers."""
        url, own = "/collections/stream/items", self.RD.format(28992).replace("https", "http")
        found = server.ask(f"{url}?f=geojson&crs={own}").json()["features"]
        first, second = (each["geometry"] for each in found)
        self.assertEqual(second["type"], "Polygon")
        one = server.ask(f"{url}/b0?f=geojson&crs={own}").json()["geometry"]
        self.assertEqual(one, first)
        page = server.ask(f"{url}?f=html").body.decode()
        self.assertEqual(
            (page.count("<path d="), page.count("<rect ")), (1, 1) if has_footprints else (0, 2)
        )
        if not has_footprints:
            self.assertEqual(first["type"], "Polygon")
            return
        rings = [
            [
                [85_000, 447_000],
                [85_004, 447_000],
                [85_004, 447_004],
                [85_000, 447_004],
                [85_000, 447_000],
            ],
            [
                [85_001, 447_001],
                [85_001, 447_002],
                [85_002, 447_002],
                [85_002, 447_001],
                [85_001, 447_001],
            ],
        ]
        self.assertEqual(first["type"], "MultiPolygon")
        ((exterior, hole),) = first["coordinates"]
        self.assertEqual(
            [sorted(exterior[1:]), sorted(hole[1:])], [sorted(ring[1:]) for ring in rings]
        )
        degrees = server.ask(f"{url}?f=geojson").json()["features"][0]["geometry"]
        ((exterior, hole),) = degrees["coordinates"]
        for east, north in exterior + hole:  # about where Delft is
            self.assertTrue(4.35 < east < 4.37 and 52.00 < north < 52.02, (east, north))
        self.assertTrue(turned_left(exterior) and not turned_left(hole))
        turned = server.ask(f"{url}?f=geojson&crs={self.RD.format(4326).replace('https', 'http')}")
        ((north_first, _),) = turned.json()["features"][0]["geometry"]["coordinates"]
        self.assertEqual([point[::-1] for point in north_first], exterior)


class Strangers(unittest.TestCase):
    """Footprints of an index from anywhere."""

    def test_any_bytes(self):
        for geometry in (
            None,
            5,
            "x",
            b"",
            b"GP\0\1" + b"\xff" * 13,
            b"GP" + bytes(11) + b"\1\0\0\0",
            b"\xff" * 99,
        ):
            self.assertRaises(ValueError, polygons_of, geometry)


if __name__ == "__main__":
    unittest.main()
