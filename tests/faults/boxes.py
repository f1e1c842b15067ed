#!/usr/bin/env python3
"""Asks a server for boxes of degrees over streams in 28 coordinate systems: no feature is left out.

    tests/run faults/boxes [--boxes N] [--seed N] [SYSTEM..]

A stream of each system lies near a place of it: over the antimeridian, near a pole, or where two
operations of PROJ meet. There are a town, a country and half a continent of it. Each box is asked
for in degrees. A feature of which a corner lies in the box must be in the answer, and a feature
whose extent in degrees does not reach into it must not. SYSTEM is an EPSG code. It takes about ten
minutes, and needs the library, aiohttp, Jinja2 and pyproj. The last line is 'N passed, M failed'.
"""
import argparse
import json
import pathlib
import random
import sys
import tempfile

ROOT = pathlib.Path(__file__).resolve().parent.parent.parent
sys.path.insert(0, str(ROOT / "python"))

from pyproj import CRS  # noqa: E402

from tests.serving import Serving  # noqa: E402
from tests.support import HEADER, command, feature  # noqa: E402
from tests.test_serve_boxes import PLACES, boxes_near, features_of, has, move_of  # noqa: E402

SPREADS = {"town": 0.02, "country": 3, "continent": 30}  # degrees
FEATURES = 150


def scale_of(code):
    """The unit of the numbers of a stream."""
    return 1e-9 if CRS.from_epsg(code).is_geographic else 1e-3


def rounded(code, extents):
    """Extents, as a stream can have them."""
    scale = scale_of(code)
    return [tuple(round(edge / scale) * scale for edge in extent) for extent in extents]


def stream_of(code, extents):
    """A stream with a feature for each extent."""
    scale = scale_of(code)
    header = json.loads(HEADER)
    header["transform"] = {"scale": [scale] * 3, "translate": [0, 0, 0]}
    header["metadata"] = {"referenceSystem": f"https://www.opengis.net/def/crs/EPSG/0/{code}"}
    lines = []
    for number, (west, south, east, north) in enumerate(extents):
        line = json.loads(feature(f"f{number}"))
        line["vertices"] = [
            [round(x / scale), round(y / scale), 0]
            for x, y in ((west, south), (east, south), (east, north), (west, north))
        ]
        lines.append(json.dumps(line).encode() + b"\n")
    return json.dumps(header).encode() + b"\n" + b"".join(lines)


def answer(server, path):
    """The features of an answer, by their ids. None if it is an error."""
    told = server.ask(path)
    if told.status != 200:
        print(f"{path}: {told.status} {told.body[:200]}")
        return None
    return {each["id"]: each["geometry"] for each in told.json()["features"]}


def parts_of(geometry):
    """The boxes of a geometry."""
    rings = [geometry["coordinates"]] if geometry["type"] == "Polygon" else geometry["coordinates"]
    for (ring,) in rings:
        xs, ys = zip(*ring)
        yield min(xs), min(ys), max(xs), max(ys)


def is_right(server, path, box, corners, extents):
    """Whether an answer has each feature with a corner in a box, and none that is not near it."""
    found = answer(server, f"{path}&bbox={','.join(map(repr, map(float, box)))}")
    if found is None:
        return False
    lost = [
        name
        for name, points in corners.items()
        if name not in found and any(has(box, *point) for point in points)
    ]
    beyond = [
        name
        for name in found
        if not any(
            part[0] <= edge[2] and part[2] >= edge[0] and part[1] <= edge[3] and part[3] >= edge[1]
            for part in extents[name]
            for edge in parts_in(box)
        )
    ]
    for what, names in (("left out", lost), ("too much", beyond)):
        if names:
            print(f"{path} {box}: {what}: {names[:3]}")
    return not lost and not beyond


def lies_in(point, box, room=1e-9):
    """Whether a point of degrees lies in a box. The numbers of a stream are rounded."""
    return all(
        low - room <= value <= high + room for value, low, high in zip(point, box[:2], box[2:])
    )


def parts_in(box):
    """A box of degrees, cut at the antimeridian."""
    west, south, east, north = box
    return [box] if west <= east else [(west, south, 180, north), (-180, south, east, north)]


def try_one(server, name, code, extents, count, chance):
    """Asks for boxes of one stream, and yields whether each answer is right."""
    _, back = move_of(code)
    corners = {
        f"f{number}": [back(x, y) for x in (west, east) for y in (south, north)]
        for number, (west, south, east, north) in enumerate(extents)
    }
    path = f"/collections/{name}/items?limit=1000"
    whole = answer(server, path)
    is_placed = whole is not None and all(whole.values()) and len(whole) == len(extents)
    if not is_placed:
        print(f"{name}: a feature has no geometry")
        yield False
        return
    told = {key: list(parts_of(geometry)) for key, geometry in whole.items()}
    outside = [
        (key, point, told[key])
        for key, points in corners.items()
        for point in points
        if not any(lies_in(point, part) for part in told[key])
    ]
    if outside:
        print(f"{name}: a corner lies outside: {outside[0]}")
    yield not outside
    own = [parts[0] for parts in told.values() if len(parts) == 1]
    spread = SPREADS[name.split("-")[1]]
    for box in [*boxes_near(code, spread, count, chance), *own[:10]]:
        yield is_right(server, path, box, corners, told)


def main():
    parser = argparse.ArgumentParser(description=__doc__.split("\n")[0])
    parser.add_argument("--boxes", type=int, default=60)
    parser.add_argument("--seed", type=int, default=1)
    parser.add_argument("systems", type=int, nargs="*", metavar="SYSTEM")
    given = parser.parse_args()
    passed = failed = 0
    with tempfile.TemporaryDirectory() as folder:
        streams = {}
        for code in given.systems or PLACES:
            for size, spread in SPREADS.items():
                chance = random.Random(f"{given.seed} {code} {size}")
                name = f"e{code}-{size}"
                streams[name] = (
                    code,
                    rounded(code, features_of(code, spread, FEATURES, chance)),
                    chance,
                )
                path = pathlib.Path(folder, f"{name}.city.jsonl")
                path.write_bytes(stream_of(code, streams[name][1]))
        index = f"{folder}/all.gpkg"
        _, said, status = command(
            "index", "--output", index, *(f"{folder}/{name}.city.jsonl" for name in streams)
        )
        if status:
            sys.exit(f"no index: {said}")
        with Serving("--quiet", index) as server:
            for name, (code, extents, chance) in streams.items():
                results = list(try_one(server, name, code, extents, given.boxes, chance))
                passed, failed = passed + sum(results), failed + results.count(False)
                print(f"{name}: {sum(results)} of {len(results)}", flush=True)
    print(f"{passed} passed, {failed} failed")
    return int(failed > 0)


if __name__ == "__main__":
    sys.exit(main())
