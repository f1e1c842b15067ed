#!/usr/bin/env python3
"""Measures `split` and `collect` on whole files that it makes: usual buildings, and tiny objects.

    bench/whole_files.py [MEGABYTES [RUNS]]

For each file it prints the processor seconds of `json.loads` plus `json.dumps`, those of `split`
and of `collect`, and the most memory of each by the size of the file. Each runs in a process of its
own, three times or as often as RUNS says, and the least counts. The memory is without that of a
process that only loads the package."""
import json
import os
import random
import resource
import sys
import tempfile
import time
from multiprocessing import get_context

sys.path.insert(0, os.path.join(os.path.dirname(os.path.abspath(__file__)), "..", "python"))

HEAD = (
    '{"type":"CityJSON","version":"2.0","metadata":{"referenceSystem":'
    '"https://www.opengis.net/def/crs/EPSG/0/7415"},"transform":{"scale":[0.001,0.001,0.001],'
    '"translate":[84616.468,447422.999,-0.452]},"CityObjects":{'
)
RUNS = int(sys.argv[2]) if len(sys.argv) > 2 else 3


def building(chance, number, first):
    """A building with a part, and how many vertices from `first` on it has."""
    corners = chance.randrange(6, 20)
    ground = list(range(first, first + corners))
    roof = [each + corners for each in ground]
    walls = [[[ground[at - 1], ground[at], roof[at], roof[at - 1]]] for at in range(corners)]
    shell = [[ground[::-1]], [roof], *walls]
    semantics = {
        "surfaces": [{"type": "GroundSurface"}, {"type": "RoofSurface"}, {"type": "WallSurface"}],
        "values": [[0, 1, *[2] * corners]],
    }
    solids = [
        {"type": "Solid", "lod": lod, "boundaries": [shell], "semantics": semantics}
        for lod in ("1.2", "1.3", "2.2")
    ]
    name = f"NL.IMBAG.Pand.{number:016}"
    attributes = {
        "identificatie": name,
        "oorspronkelijkbouwjaar": chance.randrange(1850, 2025),
        "status": "Pand in gebruik (niet ingemeten)",
        "b3_h_dak_max": round(chance.uniform(2, 90), 5),
        "b3_h_maaiveld": round(chance.uniform(-5, 9), 5),
        "b3_opp_grond": round(chance.uniform(9, 999), 2),
        "documentdatum": "2017-04-12",
        "b3_succes": True,
    }
    lowest = {"type": "MultiSurface", "lod": "0", "boundaries": [[ground]]}
    main = {
        "type": "Building",
        "attributes": attributes,
        "children": [f"{name}-0"],
        "geometry": [lowest],
    }
    part = {"type": "BuildingPart", "parents": [name], "geometry": solids}
    return {name: main, f"{name}-0": part}, 2 * corners


def tiny(chance, number, first):
    """A small object, and how many vertices from `first` on it has."""
    geometry = {"type": "MultiPoint", "lod": "1", "boundaries": [first]}
    return {f"t{number}": {"type": "CityFurniture", "geometry": [geometry]}}, 1


def least(chance, number, first):
    """An object without geometry."""
    return {f"t{number}": {"type": "Road"}}, 0


def make(path, kind, size):
    """Writes a file of about so many bytes."""
    chance, vertices, number, written = random.Random(1), 0, 0, 0
    with open(path, "w") as file:
        file.write(HEAD)
        while written < size:
            objects, more = kind(chance, number, vertices)
            text = json.dumps(objects, separators=(",", ":"))[1:-1]
            file.write(("," if number else "") + text)
            number, vertices, written = number + 1, vertices + more, written + len(text) + 24 * more
        points = (
            f"[{chance.randrange(10**6)},{chance.randrange(10**6)},{chance.randrange(10**5)}]"
            for _ in range(vertices)
        )
        file.write('},"vertices":[' + ",".join(points) + "]}")


def nothing(path, output):
    import cityseq.convert.collecting  # noqa: F401
    import cityseq.convert.splitting  # noqa: F401


def by_json(path, output):
    with open(path, "rb") as file:
        text = json.dumps(json.loads(file.read()))
    assert text


def by_split(path, output):
    import cityseq

    cityseq.split(path, output, line_limit=1 << 30)


def by_collect(path, output):
    import cityseq

    cityseq.collect([path], output)


def ran(work, path, output, answers):
    """Answers the seconds of some work, and the most memory of the process."""
    begin = time.process_time()
    work(path, output)
    seconds = time.process_time() - begin
    answers.put((seconds, resource.getrusage(resource.RUSAGE_SELF).ru_maxrss * 1024))


def measured(work, path, output):
    """The least seconds and the least memory of some runs."""
    context = get_context("spawn")
    found = []
    for _ in range(RUNS):
        answers = context.Queue()
        process = context.Process(target=ran, args=(work, path, output, answers))
        process.start()
        found.append(answers.get())
        process.join()
    seconds, memory = zip(*found)
    return min(seconds), min(memory)


def main():
    size = int(sys.argv[1] if len(sys.argv) > 1 else 50) * 1_000_000
    with tempfile.TemporaryDirectory() as folder:
        path, stream = (os.path.join(folder, name) for name in ("a.city.json", "a.city.jsonl"))
        whole = os.path.join(folder, "b.city.json")
        _, usual = measured(nothing, path, stream)
        for kind in (building, tiny, least):
            make(path, kind, size)
            length = os.path.getsize(path)
            print(f"{kind.__name__}: {length:,} bytes")
            seconds, _ = measured(by_json, path, stream)
            print(f"  json.loads and json.dumps: {seconds:.2f} s")
            for name, work, given, made in (
                ("split", by_split, path, stream),
                ("collect", by_collect, stream, whole),
            ):
                took, memory = measured(work, given, made)
                print(
                    f"  {name}: {took:.2f} s, {took / seconds:.2f} times; memory"
                    f" {(memory - usual) / length:.2f} times the file"
                )


if __name__ == "__main__":
    main()
