"""`filter --limit`: at most so many features of all streams, after every other choice."""
import gzip
import io
import os
import random
import unittest

import cityseq
from cityseq.sources.packed import LAST, Packing, pack

from .support import HEADER, InFolder, command, feature, stream_by_chance

KINDS = ("Building", "Road", "Bridge")


def first(text, count):
    """The header of a stream, and the first lines after it: the slow way."""
    header, *lines = text.splitlines(keepends=True) or [b""]
    return header + b"".join(lines[:count]), min(count, len(lines))


def valid_stream(chance):
    """A valid stream. Its last line may have no LF."""
    lines = [feature(f"b{i}", chance.choice(KINDS)) for i in range(chance.randrange(30))]
    text = HEADER + b"".join(lines)
    return text if chance.randrange(3) else text[:-1]


def read(path):
    """The text of a file, which may be packed."""
    text = path.read_bytes()
    return gzip.decompress(text) if path.suffix == ".gz" else text


class Calls(InFolder):
    """`cityseq.filter` and `Index.filter`."""

    def test_any_streams_and_options(self):
        """Also invalid ones, and parts and threads of any number. The status is that of the whole
        stream, and so are lines and reports."""
        for seed in range(150):
            chance, text = random.Random(seed), stream_by_chance(seed)
            query = chance.choice(({}, {"types": "Road"}, {"exclude": True, "types": "Road"}))
            options = {**query, "keep_going": chance.randrange(2) == 0, "line_limit": 600}
            limit = chance.choice((0, 1, 2, 3, 7, 20, 10**9))
            how = {"jobs": chance.choice((1, 3)), "part_size": chance.choice((1, 300, None))}
            with self.subTest(seed=seed, limit=limit, options=options, how=how):
                whole, cut = io.BytesIO(), io.BytesIO()
                try:
                    wanted = cityseq.filter(text, whole, **options)
                except cityseq.InvalidStream as fault:
                    wanted = fault.result
                try:
                    found = cityseq.filter(text, cut, limit=limit, **options, **how)
                except cityseq.InvalidStream as fault:
                    found = fault.result
                self.assertEqual(found.status, wanted.status)
                self.assertEqual((found.lines, found.refused), (wanted.lines, wanted.refused))
                self.assertEqual(found.reports, wanted.reports)
                if wanted.end is None:
                    self.assertEqual(
                        (cut.getvalue(), found.features), first(whole.getvalue(), limit)
                    )

    def test_a_cut_by_an_index(self):
        for seed in range(20):
            chance = random.Random(seed)
            paths = [self.file(valid_stream(chance), f"{name}.city.jsonl") for name in "abc"]
            index = self.folder / "i.gpkg"
            cityseq.index(paths, index)
            query = chance.choice(({}, {"types": ["Road"]}, {"ids": ["b1", "b7", "b8"]}))
            with cityseq.Index(index) as opened:
                whole = io.BytesIO()
                opened.filter(whole, **query)
                for limit in (0, 1, 2, 5, 17, 1_000):
                    for target in (
                        io.BytesIO(),
                        self.folder / "o.jsonl",
                        self.folder / "o.jsonl.gz",
                    ):
                        result = opened.filter(target, limit=limit, **query)
                        found = target.getvalue() if hasattr(target, "getvalue") else read(target)
                        with self.subTest(seed=seed, limit=limit, query=query):
                            wanted = first(whole.getvalue(), limit)
                            self.assertEqual((found, result.features), wanted)

    def test_a_cut_reads_no_more_than_it_needs(self):
        """Lines after the last feature that fits are not read, so they may be broken."""
        lines = [feature(f"b{number}", x=number) for number in range(4_000)]
        gap = b" " * 200_000 + b"\n"
        path = self.file(HEADER + lines[0] + gap * 40 + b"".join(lines[1:]))
        index = self.folder / "i.gpkg"
        cityseq.index(path, index)
        state = path.stat()
        path.write_bytes(path.read_bytes().replace(b'"b3999"', b'"b399\xff"'))
        os.utime(path, ns=(state.st_atime_ns, state.st_mtime_ns))
        with cityseq.Index(index) as opened:
            output = io.BytesIO()
            opened.filter(output, ids=["b0", "b3999"], limit=0)
            self.assertEqual(output.getvalue(), HEADER)
            self.assertRaises(cityseq.OutOfDate, opened.filter, output, ids=["b0", "b3999"])

    def test_what_is_no_limit(self):
        for limit in (-1, 1.5, "3", True):
            with self.assertRaises(cityseq.RequestError):
                cityseq.filter(HEADER, io.BytesIO(), limit=limit)


class Commands(InFolder):
    """The option, over several files."""

    def test_one_limit_for_all_files(self):
        """Also for packed ones, which threads read at once."""
        for seed in range(12):
            chance = random.Random(seed)
            ending = chance.choice(("", ".gz"))
            texts = [valid_stream(chance) for _ in range(4)]
            paths = [
                self.file(text, f"{number}.city.jsonl{ending}") for number, text in enumerate(texts)
            ]
            limit, kind = chance.choice((0, 1, 5, 20, 40, 500)), chance.choice(KINDS)
            words = ("filter", "--type", kind, "--jobs", str(chance.choice((1, 2, 4))))
            folder = self.folder / f"o{seed}"
            words = (*words, "--limit", str(limit), "--output-dir", str(folder), *map(str, paths))
            self.assertEqual(command(*words), (b"", "", 0))
            left = limit
            for path, text in zip(paths, texts):
                whole = io.BytesIO()
                cityseq.filter(text, whole, types=kind)
                wanted, count = first(whole.getvalue(), left)
                left -= count
                with self.subTest(seed=seed, path=path.name, limit=limit):
                    self.assertEqual(read(folder / path.name), wanted)

    def test_by_an_index_one_output_for_each_stream(self):
        for ending, made in (("", bytes), (".gz", lambda text: pack(text, Packing.GZIP) + LAST)):
            paths = []
            for name in "ab":
                paths.append(self.folder / f"{name}.city.jsonl{ending}")
                lines = [feature(f"{name}{number}") for number in range(4)]
                paths[-1].write_bytes(made(HEADER + b"".join(lines)))
            index, folder = str(self.folder / f"i{ending}.gpkg"), self.folder / f"out{ending}"
            cityseq.index(paths, index)
            words = ("filter", "--index", index, "--limit", "5", "--output-dir", str(folder))
            self.assertEqual(command(*words), (b"", "", 0))
            ids = [[each.id for each in cityseq.features(folder / path.name)] for path in paths]
            self.assertEqual(ids, [["a0", "a1", "a2", "a3"], ["b0"]])

    def test_invalid_lines(self):
        """They are reported wherever they are."""
        text = HEADER + feature("a") + feature("b") + feature("c", last=9) + feature("d")
        path = self.file(text)
        output, said, status = command("filter", "--keep-going", "--limit", "1", str(path))
        self.assertEqual((output, status), (HEADER + feature("a"), 1))
        self.assertIn("line 4", said)
        target = self.folder / "o"
        words = ("filter", "--limit", "1", "--output", str(target), str(path))
        self.assertEqual(command(*words)[2], 1)
        self.assertFalse(target.exists())

    def test_standard_input_and_output(self):
        text = HEADER + feature("a") + feature("b")
        for limit, wanted in (
            ("0", HEADER),
            ("1", HEADER + feature("a")),
            ("2", text),
            ("9", text),
        ):
            said = command("filter", "--limit", limit, given=text)
            self.assertEqual(said, (wanted, "", 0))

    def test_what_is_refused(self):
        path = str(self.file(HEADER))
        for words in (
            ("--limit", "-1"),
            ("--limit", "x"),
            ("--limit", "1", "--record", path + ".r"),
        ):
            output, said, status = command("filter", *words, path)
            self.assertEqual((output, status), (b"", 2), said)

    def test_ids_that_match_nothing_are_not_told(self):
        """The limit may have left out those that match."""
        listed = str(self.file(b"a\nb\n", "ids"))
        path = str(self.file(HEADER + feature("a") + feature("b")))
        said = command("filter", "--limit", "1", "--ids-from", listed, path)
        self.assertEqual(said, (HEADER + feature("a"), "", 0))


if __name__ == "__main__":
    unittest.main()
