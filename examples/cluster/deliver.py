#!/usr/bin/env python3
"""Takes a delivery of 2,000 files from their making to a check, an index, a page and cuts, by a
cluster on this machine.

    deliver.py FOLDER [FILES]

The folder must not be there. With a cluster of many machines, `main` gets its client instead, and
the folder is one that all of them see."""
import sys
import time
from pathlib import Path

from distributed import Client, LocalCluster

import cityseq
import cityseq.dask

SIDE, FEATURES = 1_000, 20  # metres of a tile, and buildings in it
HEADER = (
    '{"type":"CityJSON","version":"2.0","transform":{"scale":[1,1,1],"translate":[0,0,0]},'
    '"CityObjects":{},"vertices":[]}\n'
)


def building(name: str, x: int, y: int) -> str:
    """Returns a building with one square surface, as a line."""
    vertices = [[x, y, 0], [x + 10, y, 0], [x + 10, y + 10, 0], [x, y + 10, 0]]
    return (
        f'{{"type":"CityJSONFeature","id":"{name}","CityObjects":{{"{name}":{{"type":"Building",'
        f'"geometry":[{{"type":"MultiSurface","lod":"1","boundaries":[[[0,1,2,3]]]}}]}}}},'
        f'"vertices":{vertices}}}\n'
    )


def make(folder: str, number: int) -> str:
    """Writes the file of a tile on a worker, and returns its path."""
    path = Path(folder) / f"tile-{number:04}.city.jsonl"
    x, y = number % 50 * SIDE, number // 50 * SIDE
    lines = [building(f"b{number}.{each}", x + 40 * each, y) for each in range(FEATURES)]
    path.write_text(HEADER + "".join(lines))
    return str(path)


def main(client: Client, folder: Path, files: int) -> int:
    """Delivers, and returns the status."""
    begun = time.monotonic()

    def say(what: str) -> None:
        print(f"{time.monotonic() - begun:6.1f} s  {what}", flush=True)

    paths = client.gather(client.map(make, [str(folder)] * files, range(files), batch_size=100))
    say(f"{len(paths)} files are made")
    results = list(cityseq.dask.check(client, paths, keep_going=True))
    invalid = [result.file for result in results if not result]
    features = sum(result.features for result in results)
    say(f"{len(results)} files are checked: {features} features, {len(invalid)} invalid files")
    if invalid:
        return 1
    index = folder / "delivery.gpkg"
    cityseq.dask.index(client, paths, index)
    say("the index is there")
    try:
        delivery = cityseq.report(paths, folder / "delivery.html")
        say(f"the page is there: status {int(delivery.status)}")
    except cityseq.RequestError:
        raise
    except cityseq.CityseqError as missing:
        say(f"no page: {missing}")
    with cityseq.Index(index) as opened:
        cut = opened.filter(folder / "cut.city.jsonl", box=(0, 0, 1_500, 1_500))
    say(f"a cut by the index has {cut.features} features")
    parts = folder / "buildings"
    kept = cityseq.dask.filter(
        client, folder / "cut.city.jsonl", output_dir=parts, types=["Building"], packing="gz"
    )
    again = cityseq.check(parts)
    say(f"a folder that the workers wrote has {kept.features} features, and {again.features} again")
    return 0 if again.features == kept.features == cut.features else 1


if __name__ == "__main__":
    place = Path(sys.argv[1]).absolute()
    place.mkdir()
    loopback = {"dashboard_address": "127.0.0.1:0", "worker_dashboard_address": "127.0.0.1:0"}
    with LocalCluster(n_workers=3, threads_per_worker=1, host="127.0.0.1", **loopback) as cluster:
        with Client(cluster) as local:
            sys.exit(main(local, place, int(sys.argv[2]) if len(sys.argv) > 2 else 2_000))
