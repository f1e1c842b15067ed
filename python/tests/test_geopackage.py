"""An index as other programs have it: GDAL, its checker of GeoPackages, and geopandas."""
import importlib.util
import json
import os
import shutil
import sqlite3
import subprocess
import sys
import unittest

import cityseq

from .support import HEADER, PLAIN, ROOT, InFolder, feature
from .test_index import HOSTILE, query, with_id

TOWN, SAMPLE = (f"{ROOT}/examples/{name}.city.jsonl" for name in ("town", "sample"))
OGRINFO = shutil.which("ogrinfo")
CHECKER = "/usr/share/doc/python3-gdal/examples/validate_gpkg.py"
HAS_GDAL = importlib.util.find_spec("osgeo") is not None
HAS_QGIS = importlib.util.find_spec("qgis") is not None
# Prints how many features of a layer QGIS counts, and how many it reads.
COUNT_IN_QGIS = """
import sys
from qgis.core import QgsApplication, QgsVectorLayer
application = QgsApplication([], False)
application.initQgis()
layer = QgsVectorLayer(sys.argv[1], "features", "ogr")
print(layer.featureCount(), "of", len(list(layer.getFeatures())))
"""


def has_checker():
    """Whether GDAL's checker is there: as a module of newer versions, or beside the documents."""
    return HAS_GDAL and os.path.isfile(CHECKER)


class Others(InFolder):
    """Indexes of streams of each kind."""

    def setUp(self):
        super().setUp()
        hostile = HEADER + b"".join(map(with_id, HOSTILE)) + feature("a")
        told = json.loads(HEADER)
        told["metadata"] = {"referenceSystem": "https://www.opengis.net/def/crs/EPSG/0/28992"}
        dutch = (
            json.dumps(told).encode()
            + b"\n"
            + b"".join(feature(f"b{i}", x=i) for i in range(3_000))
        )
        broken = HEADER + feature("a") + feature("b", last=9) + PLAIN
        self.indexes = {}
        for name, text in (
            ("hostile", hostile),
            ("dutch", dutch),
            ("broken", broken),
            ("empty", HEADER),
        ):
            path = self.file(text, f"{name}.city.jsonl")
            self.indexes[name] = str(self.folder / f"{name}.gpkg")
            cityseq.index(path, self.indexes[name], keep_going=True)
        self.indexes["both"] = str(self.folder / "both.gpkg")
        cityseq.index([TOWN, SAMPLE], self.indexes["both"])

    @unittest.skipIf(OGRINFO is None, "ogrinfo is not there: gdal-bin")
    def test_ogrinfo(self):
        counts = {"hostile": 15, "dutch": 3_000, "broken": 2, "empty": 0, "both": 124}
        for name, path in self.indexes.items():
            ran = subprocess.run([OGRINFO, "-al", "-so", path], capture_output=True, timeout=60)
            said = ran.stdout.decode()
            with self.subTest(name=name):
                self.assertEqual((ran.returncode, ran.stderr.decode()), (0, ""))
                self.assertIn("using driver `GPKG' successful", said)
                layers = [
                    line.split(": ")[1]
                    for line in said.split("\n")
                    if line.startswith("Layer name: ")
                ]
                self.assertEqual(layers, ["features", "streams", "reports"])
                self.assertIn(f"Geometry: Polygon\nFeature Count: {counts[name]}\n", said)
                self.assertEqual("Amersfoort / RD New" in said, name == "dutch")

    def test_the_rows_of_each_layer_are_counted(self):
        """QGIS counts all rows of a layer with a filter unless a table has their number."""
        select = "SELECT table_name, feature_count FROM gpkg_ogr_contents ORDER BY table_name"
        for name, features, reports, streams in (
            ("hostile", 15, 0, 1),
            ("broken", 2, 1, 1),
            ("empty", 0, 0, 1),
            ("both", 124, 0, 2),
        ):
            counts = [("features", features), ("reports", reports), ("streams", streams)]
            self.assertEqual(query(self.indexes[name], select), counts, name)
        with sqlite3.connect(self.indexes["broken"]) as base:
            base.execute("DELETE FROM reports")
            base.execute("DELETE FROM features WHERE fid = 1")
        base.close()
        counts = [("features", 1), ("reports", 0), ("streams", 1)]
        self.assertEqual(query(self.indexes["broken"], select), counts)

    @unittest.skipUnless(HAS_QGIS, "QGIS for Python is not there: python3-qgis")
    def test_qgis_counts_what_a_filter_selects(self):
        source = f"{self.indexes['both']}|layername=features|subset=id = 'house-1'"
        words = [sys.executable, "-W", "ignore", "-c", COUNT_IN_QGIS, source]
        settings = {**os.environ, "QT_QPA_PLATFORM": "offscreen", "HOME": str(self.folder)}
        ran = subprocess.run(words, capture_output=True, timeout=120, env=settings)
        self.assertEqual(ran.stdout.decode(), "1 of 1\n", ran.stderr)

    @unittest.skipIf(OGRINFO is None, "ogrinfo is not there: gdal-bin")
    def test_a_box_of_ogrinfo_is_that_of_select(self):
        path = self.indexes["both"]
        box = (84_700, 447_500, 84_760, 447_560)
        ran = subprocess.run(
            [OGRINFO, "-q", path, "features", "-geom=NO", "-spat", *map(str, box)],
            capture_output=True,
        )
        found = [
            line.split(" = ")[1]
            for line in ran.stdout.decode().split("\n")
            if line.startswith("  id (String)")
        ]
        with cityseq.Index(path) as index:
            with index.select(box=box) as features:
                wanted = [each.id for each in features]
        self.assertGreater(len(wanted), 2)
        self.assertEqual(sorted(found), sorted(wanted))

    @unittest.skipUnless(has_checker(), "validate_gpkg is not there: python3-gdal")
    def test_the_checker_finds_no_fault(self):
        for name, path in self.indexes.items():
            ran = subprocess.run(
                [
                    sys.executable,
                    "-W",
                    "ignore",
                    CHECKER,
                    "-k",
                    "--extra",
                    "--warning-as-error",
                    path,
                ],
                capture_output=True,
                timeout=120,
            )
            with self.subTest(name=name):
                self.assertEqual(
                    (ran.returncode, ran.stdout.decode(), ran.stderr.decode()), (0, "", "")
                )

    @unittest.skipUnless(has_checker(), "validate_gpkg is not there: python3-gdal")
    def test_the_checker_finds_faults(self):
        with sqlite3.connect(self.indexes["both"]) as base:
            base.execute("DROP TRIGGER rtree_features_geom_update3")
        base.close()
        ran = subprocess.run(
            [sys.executable, "-W", "ignore", CHECKER, self.indexes["both"]],
            capture_output=True,
            timeout=120,
        )
        self.assertNotEqual((ran.returncode, ran.stdout + ran.stderr), (0, b""))

    @unittest.skipUnless(
        importlib.util.find_spec("geopandas"), "geopandas is not there: python3-geopandas"
    )
    def test_geopandas(self):
        import geopandas

        frame = geopandas.read_file(self.indexes["both"], layer="features")
        self.assertEqual(
            (len(frame), frame["id"][0], frame["types"][1]),
            (124, "house-1", "Building,BuildingPart"),
        )
        self.assertEqual(tuple(frame.geometry[0].bounds), (1_000, 2_000, 1_001, 2_001))
        frame = geopandas.read_file(self.indexes["dutch"], bbox=(10.0, 20.0, 10.5, 20.5))
        self.assertEqual((len(frame), frame.crs.to_epsg()), (3_000, 28992))
        frame = geopandas.read_file(self.indexes["hostile"])
        self.assertEqual(list(frame["id"])[:2], ['<script>"', "\\u0000"])

    @unittest.skipUnless(HAS_GDAL, "GDAL for Python is not there: python3-gdal")
    def test_another_program_may_change_the_layer(self):
        from osgeo import ogr

        source = ogr.Open(self.indexes["both"], 1)
        layer = source.GetLayer("features")
        self.assertEqual(layer.DeleteFeature(1), 0)
        moved = layer.GetFeature(2)
        moved.SetGeometry(ogr.CreateGeometryFromWkt("POLYGON ((0 0, 1 0, 1 1, 0 1, 0 0))"))
        self.assertEqual(layer.SetFeature(moved), 0)
        del layer, source
        self.assertEqual(
            query(self.indexes["both"], "SELECT id FROM rtree_features_geom WHERE minx <= 1"),
            [(2,)],
        )
        self.assertEqual(
            query(self.indexes["both"], "SELECT rtreecheck('rtree_features_geom')"), [("ok",)]
        )


if __name__ == "__main__":
    unittest.main()
