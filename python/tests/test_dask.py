"""Files over a cluster of two workers on this machine, one of which may die: the same as by one
run."""
import gzip
import io
import os
import random
import time
import unittest
from unittest import mock

import cityseq

from . import support
from .clusters import HOST, WithCluster, distributed, listening
from .support import HEADER, InFolder, asked, feature, numbered

if distributed is not None:
    import cityseq.dask
    from cityseq.cluster.tasks import RangeChunks, Sizes, begin, judge_range
    from cityseq.engine.judge import Answer


def by_ranges(path, each, work):
    """What comes of a file whose ranges are judged one after another, as each task does."""
    joined = Answer(parts=0)
    with mock.patch("cityseq.engine.judge.HEADERS", 0):
        begun = begin(path, path, Sizes(each, -1), work)
        if begun.answer is not None:
            joined = joined.then(begun.answer)
        for chunk in RangeChunks(path, path, begun):
            if joined.status == 0 and begun.answer is None:
                joined = joined.then(judge_range(chunk, work))
    reports = numbered([*joined.reports, *[joined.end] * (joined.end is not None)])
    output = b"".join(joined.output)
    return output, reports, joined.lines, joined.kept, joined.refused, joined.peaks


def filtered(call, *given, **options):
    """What comes of a filter, also where the stream is not valid."""
    try:
        return call(*given, **options)
    except cityseq.InvalidStream as fault:
        return fault.result


@unittest.skipIf(distributed is None, "distributed is not there")
class Ranges(InFolder):
    """Parts that are read where they are judged, without a cluster."""

    def test_ranges_by_chance(self):
        for seed in range(60):
            text, chance = support.stream_by_chance(seed), random.Random(seed)
            path, options = str(self.file(text)), {"line_limit": 1_000, "keep_going": seed % 2 == 0}
            one = support.in_one(text, **options)
            reports = numbered(one.reports + [one.end] * (one.end is not None))
            wanted = (bytes(one.output), reports, one.lines, one.kept, one.refused, one.peaks)
            for each in (1, chance.randrange(2, 300), 700, 100_000):
                with self.subTest(seed=seed, each=each):
                    self.assertEqual(by_ranges(path, each, asked("filter", **options)), wanted)

    def test_a_file_that_changes(self):
        path, work = self.file(HEADER + feature("a") * 9), asked("check")
        (chunk,) = RangeChunks(
            str(path), str(path), begin(str(path), str(path), Sizes(1 << 20, -1), work)
        )
        self.assertIsNone(judge_range(chunk, work).fault)
        os.truncate(path, chunk.begin)
        self.assertEqual(
            str(judge_range(chunk, work).fault),
            f"{path}: read fault: changed while it was read",
        )


class Clusters(WithCluster):
    """Two workers, each a process of its own."""

    def test_all_ports_are_on_loopback(self):
        import psutil

        here = psutil.Process()
        self.assertEqual(listening([here, *here.children(recursive=True)]), {HOST})

    def test_the_examples(self):
        paths = [
            os.path.join(support.ROOT, "examples", f"{name}.city.jsonl")
            for name in ("broken", "delivery", "sample", "town")
        ]
        for options in ({}, {"keep_going": True}):
            here = list(cityseq.check_files(paths, **options))
            there = list(cityseq.dask.check(self.client, paths, part_size=5_000, **options))
            self.assertEqual(there, here)
        for path in paths:
            self.assertEqual(
                list(cityseq.dask.info(self.client, path, part_size=50_000)), [cityseq.info(path)]
            )
            here, there = io.BytesIO(), io.BytesIO()
            for options in ({"types": ["Road", "BuildingPart"]}, {"keep_going": True}):
                self.assertEqual(
                    filtered(
                        cityseq.dask.filter, self.client, path, there, part_size=900, **options
                    ),
                    filtered(cityseq.filter, path, here, **options),
                )
            self.assertEqual(there.getvalue(), here.getvalue())

    def test_what_cannot_be_read_or_asked(self):
        packed = self.file(gzip.compress(HEADER + feature("a")), "a.jsonl")
        packed.rename(self.folder / "a.jsonl.gz")
        paths = [self.folder / "none", self.folder / "a.jsonl.gz", self.folder, self.file(b"")]
        found = list(cityseq.dask.check(self.client, paths))
        self.assertEqual(
            [(result.status, result.features) for result in found], [(3, 0), (0, 1), (3, 0), (1, 0)]
        )
        for call in (
            lambda: cityseq.dask.filter(self.client, self.folder / "a.jsonl.gz", io.BytesIO()),
            lambda: list(cityseq.dask.check(self.client, b"bytes")),
            lambda: list(cityseq.dask.check(None, "a")),
            lambda: list(cityseq.dask.check(self.client, "a", depth=0)),
        ):
            self.assertRaises(cityseq.RequestError, call)
        self.assertRaises(
            cityseq.ReadFault, cityseq.dask.filter, self.client, "/nowhere", io.BytesIO()
        )

    def test_an_index(self):
        from .test_index import dump

        texts = [
            support.HEADER + b"".join(support.lines_by_chance(random.Random(seed), 300))
            for seed in range(3)
        ]
        paths = [self.file(text, f"s{number}") for number, text in enumerate(texts)]
        here, there = self.folder / "here.gpkg", self.folder / "there.gpkg"
        wanted = cityseq.index(paths, here, keep_going=True, line_limit=1_000)
        self.assertGreater(sum(result.refused for result in wanted), 10)
        for size in (700, 5_000, 32 << 20):
            found = cityseq.dask.index(
                self.client, paths, there, keep_going=True, line_limit=1_000, part_size=size
            )
            self.assertEqual((found, dump(there)), (wanted, dump(here)))
        before = there.read_bytes()
        town, broken = (
            os.path.join(support.ROOT, "examples", f"{name}.city.jsonl")
            for name in ("town", "broken")
        )
        for kind, path in (
            (cityseq.InvalidStream, broken),
            (cityseq.ReadFault, self.folder / "none"),
            (cityseq.RequestError, self.file(HEADER, "a.city.jsonl.gz")),
            (cityseq.RequestError, "-"),
        ):
            with self.assertRaises(kind):
                cityseq.dask.index(self.client, [town, path], there)
            self.assertEqual(there.read_bytes(), before)
        self.assertRaises(cityseq.RequestError, cityseq.dask.index, None, paths, there)
        self.assertEqual(sorted(name for name in os.listdir(self.folder) if "part" in name), [])

    def test_a_worker_that_dies(self):
        lasts = (4 if number % 1_000 == 999 else 3 for number in range(80_000))
        path = self.file(HEADER + b"".join(feature("b", last=last) for last in lasts))
        here, killed = cityseq.check(path, keep_going=True), []

        def kill(_report):
            if not killed:
                killed.append(min(self.client.run(os.getpid).values()))
                os.kill(killed[0], 9)

        told = []
        (there,) = cityseq.dask.check(
            self.client,
            path,
            keep_going=True,
            part_size=80_000,
            on_report=lambda report: (told.append(report), kill(report)),
        )
        self.assertEqual(
            (told, there.lines, there.features, there.refused, there.status),
            (here.reports, here.lines, here.features, here.refused, 1),
        )
        for _ in range(100):
            if len(self.client.scheduler_info()["workers"]) == 2:
                break
            time.sleep(0.1)
        # one that died may still be listed, and is not reached then
        alive = self.client.run(os.getpid, on_error="ignore").values()
        self.assertTrue(alive)
        self.assertNotIn(killed[0], alive)


if __name__ == "__main__":
    unittest.main()
