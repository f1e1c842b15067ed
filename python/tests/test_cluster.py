"""What a cluster could answer wrongly with no error, and folders that its workers write."""
import gzip
import io
import json
import os
import pickle
import subprocess
import sys
import tempfile
import threading
import time
import unittest
from concurrent.futures import Future
from dataclasses import replace
from unittest import mock

import cityseq
from cityseq.cluster.tasks import RangeChunks, Sight, Sizes, begin
from cityseq.sources.packed import BLOCK, Packer

from . import clusters, support
from .clusters import WithCluster, distributed
from .support import HEADER, InFolder, asked, feature, ran

if distributed is not None:
    import dask

    import cityseq.dask
    from cityseq import cluster as jobs
    from cityseq.cluster import folders, tasks

WHOLE = Sizes(32 << 20, 32 << 20)
OTHER = "0.1.0, package 000000000000, library 000000000000"


def lines(count, name="b"):
    """A stream of this many features."""
    return HEADER + b"".join(feature(f"{name}{number}") for number in range(count))


def old_engine():
    """Runs on a worker, which then has another engine."""
    tasks.right_engine = tasks.engine
    tasks.engine = lambda: OTHER


def right_engine():
    """Runs on a worker, which then has the engine of its library again."""
    tasks.engine = tasks.right_engine


def say_little(size):
    """Runs on a worker, whose tasks for several parts then end with this many bytes of answers."""
    tasks.SENT = size


def rss():
    """The most memory that this process had, in bytes."""
    import resource

    return resource.getrusage(resource.RUSAGE_SELF).ru_maxrss << 10


class Wrong(WithCluster):
    """Each of these was wrong, or a fault of Python's."""

    def test_what_is_no_regular_file(self):
        pipe = self.folder / "pipe"
        os.mkfifo(pipe)
        (found,) = cityseq.dask.check(self.client, pipe)
        self.assertEqual((found.status, found.features), (3, 0))
        self.assertIn("it is no regular file", found.fault)
        output = self.folder / "output"
        with self.assertRaises(cityseq.ReadFault):
            cityseq.dask.filter(self.client, pipe, output)
        with self.assertRaises(cityseq.RequestError):
            cityseq.dask.index(self.client, [pipe], self.folder / "i.gpkg")
        self.assertEqual(os.listdir(self.folder), ["pipe"])

    def test_a_packed_file_that_only_the_workers_see(self):
        packed = self.folder / "region.city.jsonl"
        packed.write_bytes(gzip.compress(lines(9)))
        with mock.patch("cityseq.cluster.runs.sight_of", side_effect=OSError), mock.patch(
            "cityseq.sources.is_packed", return_value=False
        ):
            (found,) = cityseq.dask.check(self.client, packed)
            self.assertEqual((found.status, found.features), (0, 9))
            for call in (
                lambda: cityseq.dask.filter(self.client, packed, self.folder / "output"),
                lambda: cityseq.dask.filter(self.client, packed, output_dir=self.folder / "parts"),
                lambda: cityseq.dask.index(self.client, packed, self.folder / "i.gpkg"),
            ):
                with self.assertRaisesRegex(cityseq.RequestError, "packed file has no parts"):
                    call()
        self.assertEqual(os.listdir(self.folder), ["region.city.jsonl"])

    def test_relative_paths_are_those_of_the_client(self):
        self.file(lines(10), "relative.city.jsonl")
        os.chdir(self.folder)
        (found,) = cityseq.dask.check(self.client, "relative.city.jsonl")
        self.assertEqual((found.file, found.features), ("relative.city.jsonl", 10))
        self.assertEqual(
            cityseq.dask.filter(self.client, "relative.city.jsonl", "output").features, 10
        )
        self.assertEqual((self.folder / "output").read_bytes(), lines(10))

    def test_a_worker_that_sees_another_file(self):
        path = self.file(lines(10))
        told = os.stat(path)
        for other in (
            Sight((told.st_size + 1, told.st_mtime_ns), b""),
            Sight((told.st_size, told.st_mtime_ns + 1), b""),
            Sight((told.st_size, told.st_mtime_ns), b"other"),
        ):
            with mock.patch("cityseq.cluster.runs.sight_of", return_value=other):
                (found,) = cityseq.dask.check(self.client, path)
                self.assertEqual((found.status, found.features), (3, 0))
                self.assertRegex(found.fault, r"another file of this path.*\(worker tcp://.*\)")
                with self.assertRaises(cityseq.ReadFault):
                    cityseq.dask.filter(self.client, path, self.folder / "output")
        self.assertEqual(os.listdir(self.folder), [path.name])

    def test_two_runs_with_one_output(self):
        source, output = self.file(lines(3_000)), self.folder / "output"
        ids = [[f"b{number}" for number in range(rest, 3_000, 2)] for rest in (0, 1)]
        wanted = [io.BytesIO(), io.BytesIO()]
        for half, each in zip(ids, wanted):
            cityseq.filter(source, each, ids=half)
        faults = []

        def run(half):
            try:
                with distributed.Client(self.cluster.scheduler_address) as client:
                    cityseq.dask.filter(client, source, output, ids=half, part_size=20_000)
            except Exception as fault:
                faults.append(fault)

        threads = [threading.Thread(target=run, args=(half,)) for half in ids]
        for each in threads:
            each.start()
        for each in threads:
            each.join()
        self.assertEqual(faults, [])
        self.assertIn(output.read_bytes(), [each.getvalue() for each in wanted])
        self.assertEqual(support.unfinished(self.folder), [])

    def test_a_worker_with_another_engine(self):
        path, output = self.file(lines(10)), self.folder / "output"
        self.client.run(old_engine)
        self.addCleanup(self.client.run, right_engine)
        for call in (
            lambda: list(cityseq.dask.check(self.client, [path, path])),
            lambda: cityseq.dask.filter(self.client, path, output),
            lambda: cityseq.dask.filter(self.client, path, output_dir=output),
            lambda: cityseq.dask.index(self.client, path, output),
        ):
            with self.assertRaisesRegex(cityseq.CityseqError, "worker tcp://.* has cityseq 0.1.0"):
                call()
        self.assertEqual(os.listdir(self.folder), [path.name])

    def test_a_long_line_stays_with_the_worker(self):
        path = str(self.file(b"[" + b" " * 2_000_000 + b"]"))
        for limit in (1_000_000, 8_000_000):
            found = begin(path, path, WHOLE, asked("check", line_limit=limit))
            self.assertEqual(found.answer.end.line, 1)
            self.assertLess(len(pickle.dumps(found)), 200_000)
        header = HEADER[:-2] + b" " * 2_000_000 + b"}\n"
        path = str(self.file(header + feature("b") * 9))
        for sizes in (WHOLE, Sizes(32 << 20, -1)):
            found = begin(path, path, sizes, asked("check"))
            self.assertLess(len(pickle.dumps(found)), 200_000)

    def test_what_cannot_be_asked(self):
        path = self.file(lines(10))
        for size in (0, -5, None, True, 1.5, "", "much", "-1MB"):
            with self.subTest(size), self.assertRaises(cityseq.RequestError):
                list(cityseq.dask.check(self.client, path, part_size=size))
        (found,) = cityseq.dask.check(self.client, path, part_size="32MB")
        self.assertEqual(found.features, 10)
        closed = distributed.Client(self.cluster.scheduler_address)
        closed.close()
        with self.assertRaisesRegex(cityseq.RequestError, "the client is closed"):
            list(cityseq.dask.check(closed, path))

        def inside(path):
            import distributed

            try:
                return len(list(cityseq.dask.check(distributed.get_client(), path)))
            except cityseq.RequestError as fault:
                return str(fault)

        self.assertIn("outside of the cluster", self.client.submit(inside, str(path)).result())

        async def asynchronous():
            scheduler = self.cluster.scheduler_address
            async with distributed.Client(scheduler, asynchronous=True) as client:
                return list(cityseq.dask.check(client, path))

        import asyncio

        with self.assertRaisesRegex(cityseq.RequestError, "asynchronous"):
            asyncio.run(asynchronous())
        for output in (
            {},
            {"output": "a", "output_dir": "b"},
            {"output_dir": "b", "packing": "xz"},
        ):
            with self.assertRaises(cityseq.RequestError):
                cityseq.dask.filter(self.client, path, **output)

    def test_the_memory_of_a_worker(self):
        """The sum in the guide: 200 MB, and for each thread six times the part."""
        path = self.file(b"")
        with open(path, "wb") as file:
            file.write(HEADER)
            for number in range(40):
                file.write(b"".join(feature(f"b{number}.{each}") for each in range(6_000)))
        size = 8 << 20
        cityseq.dask.filter(self.client, path, io.BytesIO(), part_size=size)
        list(cityseq.dask.check(self.client, path, part_size=size))
        for peak in self.client.run(rss).values():
            self.assertLess(peak, (200 << 20) + 6 * size)


class Folders(WithCluster):
    """Folders that workers write."""

    def test_a_part_that_begins_with_a_long_line_has_one_header(self):
        """The line begins in one step of the work, and ends in a later one."""
        long = feature("b").replace(b"{", b"{" + b" " * 20_000, 1)
        source = self.file(HEADER + feature("a") + long + feature("c") + feature("d"))
        folder, wanted = self.folder / "parts", io.BytesIO()
        cityseq.filter(source, wanted)
        with mock.patch("cityseq.cluster.folders.STEP", 4_096):
            begun = begin(str(source), str(source), Sizes(6_000, -1), asked("filter"))
            folder.mkdir()
            texts = []
            to = folders.Folder(str(folder), str(folder), None)
            for chunk in RangeChunks(str(source), str(source), replace(begun, size=6_000)):
                answer = folders.write_part(chunk, to, asked("filter"))
                texts.append((folder / answer.part.name).read_bytes())
                self.assertEqual(answer.part.lines, texts[-1].count(b"\n"))
        self.assertGreater(len(texts), 1)
        self.assertEqual([text.count(HEADER) for text in texts], [1] * len(texts))
        joined = HEADER + b"".join(text[len(HEADER) :] for text in texts)
        self.assertEqual(joined, wanted.getvalue())

    def test_options_say_how_large_a_part_is(self):
        source = self.file(lines(200))
        with mock.patch("cityseq.dask.Cluster", side_effect=cityseq.dask.Cluster) as made:
            options = cityseq.Options(part_size=5_000)
            (found,) = cityseq.dask.check(self.client, source, options=options)
        self.assertEqual((made.call_args[0][2], found.features), (5_000, 200))

    def test_a_folder_is_the_output_in_parts(self):
        source = self.file(lines(500))
        for packing, query in ((None, {}), ("gz", {"ids": ["b7", "b499"]})):
            with self.subTest(packing):
                folder, wanted = self.folder / f"parts{packing}", io.BytesIO()
                here = cityseq.filter(source, wanted, **query)
                there = cityseq.dask.filter(
                    self.client,
                    source,
                    output_dir=folder,
                    packing=packing,
                    part_size=20_000,
                    **query,
                )
                self.assertEqual(there, here)
                told = json.loads((folder / "_manifest.json").read_text())
                names = [part["name"] for part in told["parts"]]
                self.assertEqual(sorted([*names, "_manifest.json"]), sorted(os.listdir(folder)))
                self.assertGreater(len(names), 5)
                unpack = gzip.decompress if packing else bytes
                texts = [unpack((folder / name).read_bytes()) for name in names]
                self.assertTrue(all(text.startswith(HEADER) for text in texts))
                joined = HEADER + b"".join(text[len(HEADER) :] for text in texts)
                self.assertEqual(joined, wanted.getvalue())
                self.assertEqual(told["features"], here.features)
                found = cityseq.check(folder)
                self.assertEqual((found.valid, found.features), (True, here.features))
                copy = io.BytesIO()
                cityseq.filter(folder, copy)
                self.assertEqual(copy.getvalue(), wanted.getvalue())
                self.assertEqual(cityseq.info(folder).box, cityseq.info(wanted.getvalue()).box)
                index = self.folder / "parts.gpkg"
                results = cityseq.index(folder, index)
                self.assertEqual(sum(each.features for each in results), here.features)
                with cityseq.Index(index) as opened:
                    copy = io.BytesIO()
                    opened.filter(copy)
                    self.assertEqual(copy.getvalue(), wanted.getvalue())
        self.assertEqual(support.unfinished(self.folder), [])

    def test_a_folder_that_is_not_whole(self):
        source = self.file(lines(300) + b"{}\n" + lines(300)[len(HEADER) :])
        folder = self.folder / "parts"
        with self.assertRaises(cityseq.InvalidStream):
            cityseq.dask.filter(self.client, source, output_dir=folder, part_size=20_000)
        self.assertEqual(os.listdir(self.folder), [source.name])
        cityseq.dask.filter(
            self.client, source, output_dir=folder, part_size=20_000, keep_going=True
        )
        self.assertEqual(cityseq.check(folder).features, 600)
        before = sorted(os.listdir(folder))
        with self.assertRaisesRegex(cityseq.WriteFault, "the folder is not empty"):
            cityseq.dask.filter(self.client, source, output_dir=folder, keep_going=True)
        self.assertEqual(sorted(os.listdir(folder)), before)
        self.assertEqual(sorted(os.listdir(self.folder)), sorted(["parts", source.name]))
        part = folder / "part-00001.city.jsonl"
        text = part.read_bytes()
        for changed in (text[: len(text) // 2], text.replace(b"Building", b"TINRelief"), None):
            part.unlink() if changed is None else part.write_bytes(changed)
            with self.assertRaises(cityseq.ReadFault):
                cityseq.check(folder)
        (folder / "_manifest.json").write_text('{"kind": "cityseq parts", "parts": [3]}')
        with self.assertRaises(cityseq.ReadFault):
            cityseq.check(folder)
        (folder / "_manifest.json").unlink()
        with self.assertRaisesRegex(cityseq.ReadFault, "Is a directory"):
            cityseq.check(folder)


class Many(WithCluster):
    """Many files, many ids, progress, and the command."""

    def test_many_small_files_are_few_tasks(self):
        paths = [self.file(lines(number % 5), f"s{number}") for number in range(300)]
        begun = []
        usual = jobs.Cluster.task

        def task(cluster, kind, *given):
            begun.append(kind)
            return usual(cluster, kind, *given)

        with mock.patch.object(jobs.Cluster, "task", task):
            there = list(cityseq.dask.check(self.client, paths))
        self.assertEqual(there, list(cityseq.check_files(paths)))
        self.assertEqual(begun, ["begin"] * 5)

    def tasks_of(self, call, *given, **options):
        """What a call returns, and the parts of each task that judged some."""
        asked = []
        usual = jobs.Cluster.task

        def task(cluster, kind, file, function, *more):
            if function is tasks.judge_all:
                asked.append([chunk.number for chunk in more[-1]])
            return usual(cluster, kind, file, function, *more)

        with mock.patch.object(jobs.Cluster, "task", task):
            found = call(self.client, *given, **options)
            return (found if hasattr(found, "status") else list(found)), asked

    def test_short_parts_are_few_tasks(self):
        source = self.file(lines(12_000))
        length = source.stat().st_size - len(HEADER)
        for size, in_task in ((4_000, 64), (100_000, 11), (2 << 20, 1)):
            with self.subTest(size):
                (found,), asked = self.tasks_of(cityseq.dask.check, source, part_size=size)
                self.assertEqual(found, cityseq.check(source))
                parts = list(range(-(-length // size)))
                wanted = [parts[each : each + in_task] for each in range(0, len(parts), in_task)]
                self.assertEqual(asked, wanted)

    def test_long_answers_are_several(self):
        text = lines(600)[:-2] + b"\n" + lines(600, "c")[len(HEADER) :]
        source, options = self.file(text), {"keep_going": True, "part_size": 3_000}
        (wanted,), few = self.tasks_of(cityseq.dask.check, source, **options)
        self.assertEqual((wanted.features, wanted.refused), (1_199, 1))
        self.client.run(say_little, 5_000)
        self.addCleanup(self.client.run, say_little, tasks.SENT)
        here, there = io.BytesIO(), io.BytesIO()
        cityseq.filter(source, here, keep_going=True)
        found, many = self.tasks_of(cityseq.dask.filter, source, there, **options)
        self.assertEqual((found, there.getvalue()), (wanted, here.getvalue()))
        self.assertGreater(len(many), 10 * len(few))
        with mock.patch.object(tasks, "SENT", 5_000):
            path, work = str(source), asked("filter", keep_going=True)
            chunks = RangeChunks(path, path, begin(path, path, Sizes(3_000, -1), work))
            answers = tasks.judge_all(tasks.judge_range, (), chunks, work)
        self.assertEqual(len(answers), 2)

    def test_a_part_that_ends_each_worker(self):
        source, now, usual = self.file(lines(60)), [], jobs.Job._begin
        ends = len(HEADER) + 3 * 1_000
        usual_task = jobs.Cluster.task

        def task(cluster, kind, file, function, *more):
            now[:] = [function is tasks.judge_all and 3 in (each.number for each in more[-1])]
            return usual_task(cluster, kind, file, function, *more)

        def begin_job(job):
            usual(job)
            job.is_deadly = getattr(job, "is_deadly", now[0])
            if job.is_deadly:
                job._fetched = Future()
                job._fetched.set_exception(distributed.scheduler.KilledWorker("task", None, 3))

        with mock.patch.object(jobs.Job, "_begin", begin_job):
            with mock.patch.object(jobs.Cluster, "task", task):
                (found,), asked = self.tasks_of(cityseq.dask.check, source, part_size=1_000)
        before = source.read_bytes()[len(HEADER) : ends].count(b"\n") + 1
        self.assertEqual((found.status, found.features), (5, before))
        self.assertIn("it may need more memory", found.fault)
        self.assertEqual([len(each) for each in asked[1:]], [1, 1, 1, 1])

    def test_many_ids_are_sent_once(self):
        source, ids = self.file(lines(2_000)), [f"b{number}" for number in range(0, 90_000, 3)]
        here, there = io.BytesIO(), io.BytesIO()
        sent = []
        usual = jobs.Cluster._submit

        def submit(cluster, kind, function, *given):
            sent.append((kind, sum(len(each) for each in given if isinstance(each, (bytes, str)))))
            return usual(cluster, kind, function, *given)

        with mock.patch.object(jobs.Cluster, "_submit", submit):
            found = cityseq.dask.filter(self.client, source, there, ids=ids, part_size=50_000)
        self.assertEqual(found, cityseq.filter(source, here, ids=ids))
        self.assertEqual(there.getvalue(), here.getvalue())
        self.assertEqual([kind for kind, length in sent if length > 10_000], ["request"])

    def test_progress_adds_up(self):
        header = HEADER[:-2] + b" " * 100_000 + b"}\n"
        paths = [
            self.file(lines(1_000), "long"),
            self.file(header + feature("b") * 900, "header"),
            self.file(lines(3), "short"),
            self.file(lines(50), "packed.gz"),
        ]
        for call in (cityseq.dask.check, cityseq.dask.info):
            done = []
            list(call(self.client, paths, part_size=20_000, progress=done.append))
            self.assertEqual(sum(done), sum(os.path.getsize(path) for path in paths))
            self.assertGreater(len(done), 8)

    def test_a_file_that_ends_each_worker(self):
        """The answer of Dask after the last of them; tests/faults/cluster.py ends real ones."""
        paths = [self.file(lines(number), f"s{number}") for number in range(6)]
        usual = jobs.Job._begin
        for part_size, tries in (("32MB", 3), (10, 2)):
            begun = []

            def begin_job(job):
                usual(job)
                is_group = part_size != 10 and not begun
                if job._file.endswith("s3") or is_group:
                    begun.append(job._file)
                    job._fetched = Future()
                    fault = distributed.scheduler.KilledWorker("task", None, 3)
                    job._fetched.set_exception(fault)

            with mock.patch.object(jobs.Job, "_begin", begin_job):
                found = list(cityseq.dask.check(self.client, paths, part_size=part_size))
            self.assertEqual([each.status for each in found], [0, 0, 0, 5, 0, 0])
            self.assertEqual([each.file for each in found], list(map(str, paths)))
            self.assertIn("it may need more memory", found[3].fault)
            self.assertEqual(len(begun), tries)

    def test_workers_pack(self):
        source, output = self.file(lines(2_000)), self.folder / "output.gz"
        usual, here = Packer.write, []

        def write(packer, text):
            here.append(len(text))
            return usual(packer, text)

        with mock.patch.object(Packer, "write", write):
            cityseq.dask.filter(self.client, source, output, part_size=100_000)
        self.assertLess(sum(here), BLOCK)  # the last part may be too short
        self.assertEqual(gzip.decompress(output.read_bytes()), lines(2_000))

    def test_the_command(self):
        source, broken = self.file(lines(30), "a"), self.file(lines(30) + b"{}\n", "b")
        output = self.folder / "output"
        index = self.folder / "i.gpkg"
        for words in (
            ("check", "--keep-going", source, broken),
            ("check", "--json", source, broken, self.folder / "b"),
            ("info", source),
            ("filter", "--id", "b3", source, "--output", output),
            ("index", source, "--output", index),
        ):
            with self.subTest(words[0]):
                there = ran(*words, "--cluster", self.cluster.scheduler_address)
                self.assertEqual(there, ran(*words))
        with dask.config.set({"distributed.comm.timeouts.connect": "1s"}):
            out, said, status = ran("check", source, "--cluster", "tcp://127.0.0.1:9")
        self.assertEqual((out, said.count("\n"), status), (b"", 1, 2))
        self.assertIn("there is no scheduler of Dask at tcp://127.0.0.1:9", said)
        for words in (("--jobs", "3", str(source)), ("-",)):
            out, said, status = ran("check", *words, "--cluster", self.cluster.scheduler_address)
            self.assertEqual((out, said.count("\n"), status), (b"", 1, 2))


@unittest.skipIf(distributed is None, "distributed is not there")
class Workers(InFolder):
    """Workers that join, that are missing, and that end, and schedulers that are not there."""

    def test_the_command_says_nothing_that_dask_says(self):
        text = (
            "import logging, distributed\n"
            "def fails(*given, **named):\n"
            "    for name in ('asyncio.events', 'distributed.client', 'tornado.application'):\n"
            "        logging.getLogger(name).error('a future was left')\n"
            "    raise OSError\n"
            "distributed.Client = fails\n"
            "from cityseq.cli import main\n"
            "raise SystemExit(main(['check', 'a', '--cluster', 'tcp://127.0.0.1:9']))\n"
        )
        done = subprocess.run(
            [sys.executable, "-W", "ignore", "-c", text],
            capture_output=True,
            text=True,
            env=clusters.settings(),
        )
        wanted = "there is no scheduler of Dask at tcp://127.0.0.1:9: OSError\n"
        self.assertEqual((done.stdout, done.stderr, done.returncode), ("", wanted, 2))

    def test_no_worker_and_then_one(self):
        path = self.file(lines(10))
        cluster, client = clusters.begun(0, processes=False)
        self.addCleanup(clusters.end, cluster, client)
        begin = mock.Mock(side_effect=lambda _: cluster.scale(1))
        with mock.patch.object(jobs, "PATIENCE", 0), mock.patch.object(jobs._log, "warning", begin):
            (found,) = cityseq.dask.check(client, path)
        self.assertEqual(found.features, 10)
        begin.assert_called_once_with("the cluster has no worker: waiting for one")
        made = jobs.Cluster(client, asked("check"), 1 << 20)
        with mock.patch.object(jobs, "LEAST", 1):
            self.assertEqual(made.ahead(), jobs.AHEAD)
            cluster.scale(2)
            client.wait_for_workers(2)
            time.sleep(jobs.LOOK)
            self.assertEqual(made.ahead(), 2 * jobs.AHEAD)

    def test_a_scheduler_that_goes(self):
        room = tempfile.TemporaryDirectory()
        self.addCleanup(room.cleanup)
        told, processes = os.path.join(room.name, "scheduler.json"), []
        for kind in ("scheduler", "worker"):
            words = [sys.executable, "-W", "ignore", "-m", f"distributed.cli.dask_{kind}"]
            words += [*clusters.WORDS, "--scheduler-file", told]
            words += ["--port", "0"] if kind == "scheduler" else ["--nthreads", "1", "--no-nanny"]
            pipe = subprocess.DEVNULL
            settings = clusters.settings()
            processes.append(
                subprocess.Popen(words, cwd=room.name, env=settings, stdout=pipe, stderr=pipe)
            )
            self.addCleanup(processes[-1].wait)
            self.addCleanup(processes[-1].kill)
        clusters.quiet()
        while not os.path.exists(told) or not os.path.getsize(told):
            time.sleep(0.1)
        source, output = self.file(lines(30_000)), self.folder / "output"
        client = distributed.Client(scheduler_file=told)
        self.addCleanup(clusters.leave, client)
        with self.assertRaisesRegex(cityseq.CityseqError, "is gone, or its tasks"):
            cityseq.dask.filter(
                client,
                source,
                output,
                part_size=5_000,
                progress=lambda _: processes[0].kill(),
            )
        self.assertEqual(os.listdir(self.folder), [source.name])


if __name__ == "__main__":
    unittest.main()
