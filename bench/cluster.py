#!/usr/bin/env python3
"""Times a cluster of three workers of one thread beside three threads, on this machine.

    bench/run cluster [MEGABYTES [ROUNDS [PACKAGE]]]

Each round has all calls in turn. A number is the least of the rounds, in seconds. PACKAGE is the
folder of another version of the package, which may lack folders of parts."""
import io
import os
import shutil
import subprocess
import sys
import tempfile
import time
from pathlib import Path

ROOT = Path(__file__).resolve().parent.parent
GIVEN = sys.argv[1:] + ["300", "3", str(ROOT / "python")][len(sys.argv) - 1 :]
MEGABYTES, ROUNDS, PACKAGE = int(GIVEN[0]), int(GIVEN[1]), GIVEN[2]
sys.path.insert(0, PACKAGE)
os.environ["PYTHONPATH"] = PACKAGE
THREADS, FILES, TASKS = 3, 2_000, 500


def timed(call):
    """Returns the seconds that a call takes. None if this version does not have it."""
    begun = time.monotonic()
    try:
        call()
    except TypeError:
        return None
    return time.monotonic() - begun


def plain(client):
    """Makes tasks that do nothing, one after another submitted."""
    client.gather([client.submit(abs, number, pure=False) for number in range(TASKS)])


def calls_of(client, folder, path, paths):
    """Yields the name of each call, and the call."""
    import cityseq
    import cityseq.dask

    query = {"exclude": True, "ids": ["b7"]}
    small = os.path.getsize(paths["tasks"]) // TASKS
    yield "check, threads", lambda: cityseq.check(path, jobs=THREADS)
    yield "check, cluster", lambda: list(cityseq.dask.check(client, path))
    yield "filter, threads", lambda: cityseq.filter(path, folder / "a", jobs=THREADS, **query)
    yield "filter, cluster", lambda: cityseq.dask.filter(client, path, folder / "b", **query)

    def to_folder():
        shutil.rmtree(folder / "c", ignore_errors=True)
        cityseq.dask.filter(client, path, output_dir=folder / "c", **query)

    yield "filter to a folder, cluster", to_folder
    for packed in ("a.gz", "b.gz"):
        call = cityseq.dask.filter if packed == "b.gz" else cityseq.filter
        given = (client, path) if packed == "b.gz" else (path,)
        more = {} if packed == "b.gz" else {"jobs": THREADS}
        name = f"filter to .gz, {'cluster' if packed == 'b.gz' else 'threads'}"
        target = folder / packed

        def to_packed(call=call, given=given, target=target, more=more):
            call(*given, target, **query, **more)

        yield name, to_packed
    many = paths["many"]
    yield f"{FILES} files, threads", lambda: list(cityseq.check_files(many, jobs=THREADS))
    yield f"{FILES} files, cluster", lambda: list(cityseq.dask.check(client, many))
    yield f"{TASKS} tasks, threads", lambda: cityseq.check(
        paths["tasks"], jobs=THREADS, part_size=small
    )
    yield f"{TASKS} tasks, cluster", lambda: list(
        cityseq.dask.check(client, paths["tasks"], part_size=small)
    )
    yield f"{TASKS} tasks of Dask alone", lambda: plain(client)
    ids = [f"b{number}" for number in range(100_000)]
    yield "filter by 100,000 ids, threads", lambda: cityseq.filter(
        path, io.BytesIO(), ids=ids, jobs=THREADS
    )
    yield "filter by 100,000 ids, cluster", lambda: cityseq.dask.filter(
        client, path, io.BytesIO(), ids=ids
    )


def made(folder):
    """Writes the inputs, and returns their paths."""
    path = folder / "long.city.jsonl"
    for target, megabytes in ((path, MEGABYTES), (folder / "tasks", 10)):
        with open(target, "wb") as file:
            words = [
                sys.executable,
                ROOT / "bench/make_stream.py",
                "usual",
                str(megabytes),
            ]
            subprocess.run(words, stdout=file, check=True)
    with open(ROOT / "examples/town.city.jsonl", "rb") as file:
        text = file.read()
    many = [folder / f"s{number}" for number in range(FILES)]
    for each in many:
        each.write_bytes(text)
    return path, {"many": many, "tasks": folder / "tasks"}


def main():
    from distributed import Client, LocalCluster

    settings = {
        "n_workers": THREADS,
        "threads_per_worker": 1,
        "host": "127.0.0.1",
        "dashboard_address": "127.0.0.1:0",
        "worker_dashboard_address": "127.0.0.1:0",
    }
    with tempfile.TemporaryDirectory() as room:
        folder = Path(room)
        path, paths = made(folder)
        with LocalCluster(**settings) as cluster, Client(cluster) as client:
            calls = list(calls_of(client, folder, path, paths))
            for _, call in calls[:2]:
                call()  # the workers load the package
            least = {}
            for _ in range(ROUNDS):
                for name, call in calls:
                    taken = timed(call)
                    if taken is not None:
                        least[name] = min(taken, least.get(name, taken))
    for name, taken in least.items():
        print(f"{taken:8.2f} s  {name}")
    more, alone = least[f"{TASKS} tasks, cluster"], least[f"{TASKS} tasks of Dask alone"]
    more -= least[f"{TASKS} tasks, threads"]
    print(f"{more / TASKS * 1e3:8.2f} ms more for a task, {alone / TASKS * 1e3:.2f} of Dask alone")


if __name__ == "__main__":
    main()
