#!/usr/bin/env python3
"""Runs a scheduler and workers as processes of their own, and kills, adds and changes them.

    tests/run faults/cluster [--rounds N] [--only WORD]

Each run has to be that of one machine, or a fault that leaves nothing. Random rounds compare both,
also where a store loses reads. It needs distributed and fsspec. The last line is 'N passed, M
failed', and the status is 0 if none failed.
"""
import argparse
import contextlib
import gzip
import io
import logging
import os
import pathlib
import random
import resource
import shutil
import signal
import subprocess
import sys
import tempfile
import threading
import time

from stream import HEADER, PYTHON, ROOT, Counts, begun, feature, parts, write

sys.path[:0] = [str(ROOT / "python"), str(pathlib.Path(__file__).parent)]

import distributed  # noqa: E402
import flaky  # noqa: E402

import cityseq  # noqa: E402
import cityseq.dask  # noqa: E402
from cityseq import cluster as jobs  # noqa: E402
from tests.clusters import HOST, WORDS  # noqa: E402
from tests.support import stream_by_chance  # noqa: E402

MEGABYTES = 60
LIMIT = 1 << 20  # bytes that a worker may write to a file, where its disk is to be full


class Cluster:
    """A scheduler, its workers and a client. Leaving a `with` block ends them."""

    def __init__(self, folder, workers=3, **settings):
        self.folder = pathlib.Path(tempfile.mkdtemp(dir=folder))
        self.file = self.folder / "scheduler.json"
        self.processes = []
        self.scheduler = self.begun("scheduler", "--port", "0")
        while not self.file.exists() or not self.file.stat().st_size:
            time.sleep(0.1)
        self.workers = [self.worker(**settings) for _ in range(workers)]
        self.client = distributed.Client(scheduler_file=str(self.file))
        self.client.wait_for_workers(workers) if workers else None

    def begun(self, kind, *words, **settings):
        """Begins a process of distributed. It leads a group, so that all of it ends together."""
        path = os.pathsep.join((str(ROOT / "python"), str(pathlib.Path(__file__).parent)))
        with open(self.folder / "log", "ab") as log:
            process = subprocess.Popen(
                [
                    PYTHON,
                    "-W",
                    "ignore",
                    "-m",
                    f"distributed.cli.dask_{kind}",
                    *WORDS,
                    "--scheduler-file",
                    str(self.file),
                    *words,
                ],
                env={**os.environ, "PYTHONPATH": path},
                stdout=log,
                stderr=log,
                cwd=self.folder,
                start_new_session=True,
                **settings,
            )
        self.processes.append(process)
        return process

    def worker(self, environment=None, **settings):
        """Begins a worker of one thread."""
        with set_in_environment(environment or {}):
            return self.begun(
                "worker",
                "--nthreads",
                "1",
                "--no-nanny",
                "--preload",
                "flaky",
                "--local-directory",
                str(self.folder),
                **settings,
            )

    def __enter__(self):
        return self

    def __exit__(self, *_):
        with contextlib.suppress(Exception):
            self.client.close(5)
        for process in self.processes:
            kill(process)
        shutil.rmtree(self.folder, ignore_errors=True)


@contextlib.contextmanager
def set_in_environment(values):
    before = dict(os.environ)
    os.environ.update(values)
    yield
    os.environ.clear()
    os.environ.update(before)


def kill(process):
    """Ends a process and all that it began."""
    with contextlib.suppress(ProcessLookupError):
        os.killpg(process.pid, signal.SIGKILL)
    process.wait()


def told(call, *given, **options):
    """Returns what comes of a call, as a text to compare: a result, or the kind of its fault."""
    try:
        found = call(*given, **options)
        found = list(found) if hasattr(found, "__next__") else [found]
    except cityseq.CityseqError as fault:
        found = [fault.result] if fault.result is not None else [str(int(fault.status))]
    return [
        each
        if isinstance(each, str)
        else repr(
            (
                int(each.status),
                each.lines,
                each.features,
                each.refused,
                str(each.end),
                list(map(str, each.reports)),
                each.hints,
            )
        )
        if each.fault is None
        else str(int(each.status))
        for each in found
    ]


def one_round(cluster, folder, seed):
    """Compares a stream by chance on a cluster and on this machine. Returns what differs."""
    chance = random.Random(seed)
    text = b"".join(stream_by_chance(seed * 7 + more) for more in range(chance.choice((1, 1, 3))))
    name = chance.choice(("a.city.jsonl", "a.city.jsonl.gz", "none"))
    path, fault = folder / name, chance.randrange(6)
    if name != "none":
        packed = gzip.compress(text) if name.endswith(".gz") else text
        path.write_bytes(
            packed[: len(packed) // 2] if fault == 0 and name.endswith(".gz") else packed
        )
    source = f"flaky://{path}" if fault == 1 else f"file://{path}" if fault == 2 else str(path)
    options = {"line_limit": 1_000, "keep_going": chance.randrange(2) == 0}
    size = {"part_size": chance.choice((1, 50, 300, 2_000, "1MB"))}
    differ = []
    here = told(cityseq.check_files, [source], **options)
    there = told(cityseq.dask.check, cluster.client, [source], **options, **size)
    differ += [("check", here, there)] if here != there else []
    here = told(cityseq.info, source, line_limit=1_000)
    there = told(cityseq.dask.info, cluster.client, source, line_limit=1_000, **size)
    differ += [("info", here, there)] if here != there else []
    if not name.endswith(".gz"):
        outputs = [io.BytesIO(), io.BytesIO()]
        query = chance.choice(({}, {"types": "Road"}, {"ids": ["b1", "b3"]}))
        here = told(cityseq.filter, source, outputs[0], **options, **query)
        there = told(
            cityseq.dask.filter, cluster.client, source, outputs[1], **options, **query, **size
        )
        same = fault == 1 or outputs[0].getvalue() == outputs[1].getvalue()
        differ += [("filter", here, there)] if here != there or not same else []
        target = folder / "parts"
        there = told(
            cityseq.dask.filter,
            cluster.client,
            source,
            output_dir=target,
            **options,
            **query,
            part_size=max(50, len(text) // 3),
        )
        if target.exists():
            copy = io.BytesIO()
            cityseq.filter(target, copy, line_limit=1_000)
            differ += [] if copy.getvalue() == outputs[0].getvalue() else [("parts", here, there)]
            shutil.rmtree(target)
        differ += [("folder", here, there)] if here != there else []
    if name != "none":
        path.unlink()
    return [*differ, *(("left", each) for each in os.listdir(folder))]


def rounds(counts, folder, number):
    """Compares streams by chance, also of a store that loses reads."""
    with Cluster(folder) as cluster:
        room = folder / "room"
        room.mkdir()
        for seed in range(number):
            differ = one_round(cluster, room, seed)
            if differ:
                counts.case(f"round {seed}", False, repr(differ)[:2_000])
        counts.case(f"{number} random rounds", True)


def kills(counts, folder, path):
    """Kills workers while they judge, and begins others."""
    wanted, output = io.BytesIO(), folder / "output"
    here = cityseq.filter(path, wanted, exclude=True, ids=["b7"])
    for turn in range(6):
        with Cluster(folder) as cluster:
            killed, done = [], []

            def some(size):
                done.append(size)
                if len(done) in (2 + turn, 6 + turn):
                    killed.append(cluster.workers.pop(0))
                    kill(killed[-1])
                    cluster.workers.append(cluster.worker())

            (there,) = cityseq.dask.check(cluster.client, path, part_size=1 << 20, progress=some)
            same = (there.status, there.features) == (0, here.features + 1)
            counts.case(f"check with {len(killed)} killed workers", same, there.fault or "")
            killed.clear()
            done.clear()
            if turn % 2:
                target = folder / "parts"
                found = cityseq.dask.filter(
                    cluster.client,
                    path,
                    output_dir=target,
                    exclude=True,
                    ids=["b7"],
                    part_size=1 << 20,
                    progress=some,
                )
                copy = io.BytesIO()
                cityseq.filter(target, copy)
                text = copy.getvalue()
                shutil.rmtree(target)
            else:
                found = cityseq.dask.filter(
                    cluster.client,
                    path,
                    output,
                    exclude=True,
                    ids=["b7"],
                    part_size=1 << 20,
                    progress=some,
                )
                text = output.read_bytes()
                output.unlink()
            same = found == here and text == wanted.getvalue()
            counts.case(f"filter with {len(killed)} killed workers", same)


def deadly(counts, folder, _):
    """Checks files of which one ends each worker that looks at it. Others begin in its place."""
    paths = [folder / name for name in ("a", "b", "deadly", "c", "d")]
    for each in paths:
        each.write_bytes(HEADER + feature("b") * 9)
    with Cluster(folder) as cluster:
        is_over = threading.Event()

        def begin_others():
            while not is_over.wait(0.5):
                for number, each in enumerate(cluster.workers):
                    if each.poll() is not None:
                        cluster.workers[number] = cluster.worker()

        thread = threading.Thread(target=begin_others)
        thread.start()
        found = list(cityseq.dask.check(cluster.client, paths))
        is_over.set()
        thread.join()
        told = [(int(each.status), each.features) for each in found]
        right = told == [(0, 9), (0, 9), (5, 0), (0, 9), (0, 9)]
        counts.case("a file that ends each worker", right, f"{told} {found[2].fault}")
    for each in paths:
        each.unlink()


@contextlib.contextmanager
def seen_workers():
    """Gives the set of the workers whose results come."""
    did, usual = set(), jobs.Job.result

    def result(job, *given):
        value = usual(job, *given)
        did.add(job.worker)
        return value

    jobs.Job.result = result
    yield did
    jobs.Job.result = usual


def joins(counts, folder, path):
    """Lets workers join while others judge, and the first one while a run waits."""
    with Cluster(folder, workers=0) as cluster:
        timers = [threading.Timer(2 + turn, cluster.worker) for turn in range(3)]
        for each in timers:
            each.start()
        with seen_workers() as did:
            found = list(cityseq.dask.check(cluster.client, [path] * 12, part_size=256 << 10))
        counts.case(f"{len(did)} workers that joined later", len(did) == 3 and all(found))


def adapts(counts, folder, path):
    """Lets a cluster begin workers as they are needed, beside one that has them from the start."""
    settings = {
        "threads_per_worker": 1,
        "host": HOST,
        "dashboard_address": f"{HOST}:0",
        "worker_dashboard_address": f"{HOST}:0",
        "local_directory": str(folder / "space"),
        "silence_logs": logging.CRITICAL,
    }
    os.environ["PYTHONPATH"] = str(ROOT / "python")
    paths, taken = [path] * 8, []
    for is_adaptive in (False, True):
        with distributed.LocalCluster(n_workers=0 if is_adaptive else 3, **settings) as cluster:
            cluster.adapt(minimum=0, maximum=3, interval="200ms") if is_adaptive else None
            with distributed.Client(cluster) as client, seen_workers() as did:
                begin = time.monotonic()
                found = list(cityseq.dask.check(client, paths, part_size=1 << 20))
                taken.append(time.monotonic() - begin)
    shutil.rmtree(folder / "space", ignore_errors=True)
    told = f"{taken[1]:.1f} s, three fixed workers {taken[0]:.1f} s"
    right = len(found) == 8 and all(found) and len(did) == 3
    counts.case(f"{len(did)} workers of adapt()", right, told)
    print(f"adapt(): {told}")


def two_clients(counts, folder, path):
    """Lets two clients write one output, and one folder."""
    output, target = folder / "output", folder / "parts"
    queries = [{"ids": ["b7"]}, {"ids": ["b7"], "exclude": True}]
    wanted = []
    for query in queries:
        each = io.BytesIO()
        cityseq.filter(path, each, **query)
        wanted.append(each.getvalue())
    with Cluster(folder) as cluster:
        for where in ({"output": output}, {"output_dir": target}):
            faults = []

            def run(query):
                try:
                    with distributed.Client(scheduler_file=str(cluster.file)) as client:
                        cityseq.dask.filter(client, path, **where, **query, part_size=4 << 20)
                except cityseq.CityseqError as fault:
                    faults.append(fault)

            threads = [threading.Thread(target=run, args=(query,)) for query in queries]
            for each in threads:
                each.start()
            for each in threads:
                each.join()
            copy = io.BytesIO()
            cityseq.filter(output if "output" in where else target, copy)
            few = len(faults) == ("output_dir" in where)  # the second finds the folder of the first
            whole = few and copy.getvalue() in wanted and not parts(folder)
            counts.case(f"two clients with one {list(where)[0]}", whole, " ".join(map(str, faults)))
    output.unlink()
    shutil.rmtree(target)


def wrong_library(counts, folder, path):
    """Gives one worker of three a library with another name of a type."""
    library = (ROOT / "python/cityseq/libcityseq.so").read_bytes()
    other = folder / "other.so"
    other.write_bytes(library.replace(b"TransportSquare", b"TransportXquare"))
    with Cluster(folder, workers=2) as cluster:
        cluster.worker(environment={"CITYSEQ_LIBRARY": str(other)})
        cluster.client.wait_for_workers(3)
        for turn in range(3):
            try:
                found = list(cityseq.dask.check(cluster.client, path, part_size=256 << 10))
                counts.case("a worker with another library", False, str(found))
            except cityseq.CityseqError as fault:
                counts.case(
                    "a worker with another library", "the worker tcp://" in str(fault), str(fault)
                )
    other.unlink()


def full_disks(counts, folder, path):
    """Lets the disk of a worker be full, and that of the client."""

    def limited():
        resource.setrlimit(resource.RLIMIT_FSIZE, (LIMIT, LIMIT))
        signal.signal(signal.SIGXFSZ, signal.SIG_IGN)

    with Cluster(folder, workers=2, preexec_fn=limited) as cluster:
        for where in ({"output_dir": folder / "parts"}, {"output": "/dev/full"}):
            try:
                cityseq.dask.filter(cluster.client, path, **where)
                status = 0
            except cityseq.CityseqError as fault:
                status = int(fault.status)
            right = status == 4 and not parts(folder) and not (folder / "parts").exists()
            counts.case(f"a full disk: {list(where)[0]}", right, f"status {status}")


def interrupts(counts, folder, path):
    """Interrupts the command while a cluster works for it."""
    output = folder / "output"
    with Cluster(folder) as cluster:
        address = cluster.client.scheduler.address
        for delay in (1.0, 1.5, 2.0, 2.5, 3.0, 4.0):
            process = begun(
                "filter",
                "--cluster",
                address,
                "--part-size",
                "100K",
                *[path],
                "--output",
                output,
                start_new_session=True,
            )
            time.sleep(delay)
            process.send_signal(signal.SIGINT)
            said = process.communicate(timeout=60)[1].decode()
            right = (process.returncode, said) in ((130, "interrupted\n"), (0, ""))
            right = right and output.exists() == (process.returncode == 0) and not parts(folder)
            counts.case(
                f"an interrupt after {delay} s", right, f"{process.returncode} {said.strip()}"
            )
            with contextlib.suppress(FileNotFoundError):
                output.unlink()
        (found,) = cityseq.dask.check(cluster.client, path)
        counts.case("a run after interrupts", bool(found))


def lost_scheduler(counts, folder, path):
    """Kills the scheduler while a run goes on."""
    for where in ("output", "output_dir"):
        with Cluster(folder) as cluster:
            done = []

            def end(size):
                done.append(size)
                if len(done) == 3:
                    kill(cluster.scheduler)

            begin = time.monotonic()
            try:
                cityseq.dask.filter(
                    cluster.client,
                    path,
                    **{where: folder / where},
                    part_size=256 << 10,
                    progress=end,
                )
                said = "no fault"
            except cityseq.CityseqError as fault:
                said = str(fault)
            right = "is gone, or its tasks were cancelled" in said
            right = right and time.monotonic() - begin < 60 and not (folder / where).exists()
            counts.case(f"a lost scheduler: {where}", right, said)
        for left in parts(folder):  # no worker is there to remove it
            shutil.rmtree(folder / left, ignore_errors=True)


def memory(counts, folder, _):
    """Checks 192 files that are one line of 10 MB, and looks at the memory of the client."""
    line = folder / "line"
    line.write_bytes(b'{"type":"CityJSON","x":"' + b"x" * 10_000_000 + b'"}')
    text = (
        "import sys, resource, distributed, cityseq.dask\n"
        "with distributed.Client(scheduler_file=sys.argv[1]) as client:\n"
        "    found = list(cityseq.dask.check(client, [sys.argv[2]] * 192))\n"
        "print(len(found), {int(each.status) for each in found},\n"
        "      resource.getrusage(resource.RUSAGE_SELF).ru_maxrss >> 10)\n"
    )
    with Cluster(folder) as cluster:
        ran = subprocess.run(
            [PYTHON, "-W", "ignore", "-c", text, cluster.file, line],
            capture_output=True,
            text=True,
            env={**os.environ, "PYTHONPATH": str(ROOT / "python")},
        )
        said = ran.stdout.split()
        right = said[:2] == ["192", "{1}"] and int(said[-1]) < 250
        counts.case("192 long lines", right, f"{ran.stdout.strip()} MB {ran.stderr[-500:]}")
    line.unlink()


def main():
    reader = argparse.ArgumentParser()
    reader.add_argument("--rounds", type=int, default=500)
    reader.add_argument("--only", default="")
    given = reader.parse_args()
    logging.getLogger("distributed").setLevel(logging.CRITICAL)
    flaky.register()
    counts = Counts()
    with tempfile.TemporaryDirectory() as room:
        folder, path = pathlib.Path(room), pathlib.Path(room) / "long.city.jsonl"
        write(path, MEGABYTES)
        with open(path, "ab") as file:
            file.write(feature("last"))
        assert path.read_bytes().startswith(HEADER)
        for test in (
            kills,
            deadly,
            joins,
            adapts,
            two_clients,
            wrong_library,
            full_disks,
            interrupts,
            lost_scheduler,
            memory,
        ):
            if given.only in test.__name__:
                test(counts, folder, path)
        if given.only in "rounds":
            rounds(counts, folder, given.rounds)
    return counts.end()


if __name__ == "__main__":
    sys.exit(main())
