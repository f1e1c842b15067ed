#!/usr/bin/env python3
"""Writes a CityJSONSeq stream as producers write it: a header with metadata and transform, then
features with a building and its parts, solids with semantics, and attributes in many languages.

    make_sample.py FEATURES [SEED] > sample.city.jsonl

The same arguments give the same bytes. The sample is that of 120 features; it stands beside this
script, and again as stdin and stdout of crates/cityseq, which CI runs the program on."""
import json
import random
import sys

STREETS = [
    "Grachtenstraße",
    "Rue de l'Église",
    "Plac Łokietka",
    "Ålandsgatan",
    "Οδός Ερμού",
    "銀座通り",
    "Main Street",
    "Šventaragio g.",
    "Çınar Sokağı",
    "Þingholtsstræti",
    "Kerkstraat",
    "улица Мира",
]
USES = ["residential", "office", "école", "магазин", "倉庫", "workshop"]
LANDMARKS = ["🏛", "⛪", "", "", "", "é"]


def header():
    return {
        "type": "CityJSON",
        "version": "2.0",
        "transform": {"scale": [0.001, 0.001, 0.001], "translate": [84616.468, 447422.999, -0.452]},
        "CityObjects": {},
        "vertices": [],
        "metadata": {
            "referenceSystem": "https://www.opengis.net/def/crs/EPSG/0/7415",
            "title": "Sample of a city model – Prøve / サンプル",
            "geographicalExtent": [84616.468, 447422.999, -0.452, 85140.839, 447750.636, 13.841],
            "pointOfContact": {
                "contactName": "Bureau für Geodäsie",
                "emailAddress": "geo@example.org",
            },
        },
    }


class Vertices:
    """The vertices of one feature, each once."""

    def __init__(self):
        self.numbers = {}
        self.list = []

    def number(self, vertex):
        if vertex not in self.numbers:
            self.numbers[vertex] = len(self.list)
            self.list.append(list(vertex))
        return self.numbers[vertex]


def box(vertices, x, y, z, width, depth, height):
    """The six surfaces of a box, and what each of them is."""

    def corner(i, j, k):
        return vertices.number((x + i * width, y + j * depth, z + k * height))

    ground = [corner(0, 0, 0), corner(0, 1, 0), corner(1, 1, 0), corner(1, 0, 0)]
    roof = [corner(0, 0, 1), corner(1, 0, 1), corner(1, 1, 1), corner(0, 1, 1)]
    walls = [
        [corner(0, 0, 0), corner(1, 0, 0), corner(1, 0, 1), corner(0, 0, 1)],
        [corner(1, 0, 0), corner(1, 1, 0), corner(1, 1, 1), corner(1, 0, 1)],
        [corner(1, 1, 0), corner(0, 1, 0), corner(0, 1, 1), corner(1, 1, 1)],
        [corner(0, 1, 0), corner(0, 0, 0), corner(0, 0, 1), corner(0, 1, 1)],
    ]
    return [[ground], [roof]] + [[wall] for wall in walls], [0, 1, 2, 2, 2, 2]


def solid(vertices, lod, place, size):
    surfaces, kinds = box(vertices, *place, *size)
    return {
        "type": "Solid",
        "lod": lod,
        "boundaries": [surfaces],
        "semantics": {
            "surfaces": [
                {"type": "GroundSurface"},
                {"type": "RoofSurface", "slope": 12.5},
                {"type": "WallSurface"},
            ],
            "values": [kinds],
        },
    }


def building_part(rng, vertices, parent, x, y):
    size = (rng.randrange(3000, 15000), rng.randrange(3000, 15000), rng.randrange(2500, 30000))
    return {
        "type": "BuildingPart",
        "parents": [parent],
        "attributes": {"b3_h_max": round(rng.uniform(2, 40), 3), "storeys": rng.randrange(1, 12)},
        "geometry": [
            solid(vertices, lod, (x, y, rng.randrange(-500, 500)), size)
            for lod in ("1.2", "1.3", "2.2")
        ],
    }


def feature(rng, number):
    vertices = Vertices()
    name = f"NL.IMBAG.Pand.{503100000000000 + number}"
    parts = [f"{name}-{i}" for i in range(rng.randrange(1, 4))]
    x, y = rng.randrange(0, 500000), rng.randrange(0, 300000)
    footprint = box(vertices, x, y, 0, 9000, 7000, 3000)[0][0]
    objects = {
        name: {
            "type": "Building",
            "children": parts,
            "attributes": {
                "identificatie": name,
                "straße": rng.choice(STREETS),
                "use": rng.choice(USES),
                "landmark": rng.choice(LANDMARKS),
                "oorspronkelijkbouwjaar": rng.randrange(1450, 2024),
                "heated": rng.random() < 0.5,
                "note": None,
            },
            "geometry": [{"type": "MultiSurface", "lod": "0", "boundaries": [footprint]}],
        }
    }
    for i, part in enumerate(parts):
        objects[part] = building_part(rng, vertices, name, x + 20000 * i, y)
    return {
        "type": "CityJSONFeature",
        "id": name,
        "CityObjects": objects,
        "vertices": vertices.list,
    }


def main():
    count = int(sys.argv[1]) if len(sys.argv) > 1 else 120
    rng = random.Random(int(sys.argv[2]) if len(sys.argv) > 2 else 7)
    out = sys.stdout.buffer
    for i in range(-1, count):
        line = header() if i < 0 else feature(rng, i)
        out.write(json.dumps(line, ensure_ascii=False, separators=(",", ":")).encode() + b"\n")


if __name__ == "__main__":
    main()
