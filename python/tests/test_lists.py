"""Lists of files and ids, and outputs in folders."""
import gzip
import json
import os
import unittest

from cityseq.cli.filter_outputs import ids_in

from .support import HEADER, InFolder, command, feature
from .test_sources import GOOD
from .test_told import example


class Files(InFolder):
    """Names of files in lists."""

    def test_names_with_a_nul_after_each(self):
        odd = self.folder / "a\nb.jsonl"
        odd.write_bytes(GOOD)
        plain = self.file(GOOD, "c.jsonl")
        listed = self.file(f"{odd}\0{plain}\0".encode(), "list")
        output, said, status = command("check", "--null", "--files-from", listed)
        self.assertEqual((said, status, output.count(b"valid lines=3")), ("", 0, 2))
        self.assertIn(b"a\\u000ab.jsonl: valid", output)
        self.assertEqual(command("check", "--files-from", listed)[2], 3)
        output = self.folder / "out"
        words = ("--null", "--files-from", "-", "--output-dir", output)
        names = f"{odd}\0{plain}".encode()
        self.assertEqual(command("filter", *words, given=names), (b"", "", 0))
        self.assertEqual(sorted(os.listdir(output)), ["a\nb.jsonl", "c.jsonl"])

    def test_an_index_and_a_report(self):
        odd = self.folder / "a\nb.jsonl"
        odd.write_bytes(GOOD)
        listed = self.file(f"{odd}\0".encode(), "list")
        words = ("--null", "--files-from", listed)
        index = self.folder / "it.gpkg"
        self.assertEqual(command("index", *words, "--output", index)[1:], ("", 0))
        output, _, status = command("report", *words, "--json")
        self.assertEqual((json.loads(output)["files"][0]["file"], status), (str(odd), 0))


class Ids(InFolder):
    """Ids in lists, and those that matched nothing."""

    def test_ids_with_a_nul_after_each(self):
        listed = self.file(b"b\0a\0", "ids")
        self.assertEqual(
            command("filter", "--null", "--ids-from", listed, "-", given=GOOD), (GOOD, "", 0)
        )
        listed.write_bytes(b"a\nb\0")
        output, said, status = command("filter", "--null", "--ids-from", listed, "-", given=GOOD)
        self.assertEqual((output, status, "line's end" in said), (b"", 2, True))

    def test_ids_that_match_nothing(self):
        text = GOOD + feature("x,y") + feature("\\u00e9")
        path = self.file(text)
        listed = self.folder / "ids"
        for ids, said in (
            ("a\nb\n", None),
            ("a\nb \n", '1 id matched no feature: "b "'),
            ("a,b\n", '1 id matched no feature: "a,b"'),
            ("x,y\né\n", None),
            ("b\nb\n", None),
            ("1\n2\n3\n4\n5\na\n6\n", '6 ids matched no feature: "1", "2", "3", "4", "5", ..'),
            ("q\x1b\n", '1 id matched no feature: "q\\u001b"'),
            ("", None),
        ):
            listed.write_text(ids, encoding="utf-8")
            wanted = "" if said is None else f"{listed}: {said}\n"
            for words in ((), ("--jobs", "1"), ("--output", self.folder / "o.gz")):
                _, told, status = command("filter", "--ids-from", listed, *words, path)
                self.assertEqual((told, status), (wanted, 0), (ids, words))

    def test_a_packed_output_of_many_lines(self):
        lines = [feature(f"b{number}") for number in range(2_000)]
        path, output = self.file(HEADER + b"".join(lines)), self.folder / "out.gz"
        listed = self.file("\n".join(f"b{2 * n}" for n in range(1_500)).encode(), "ids")
        _, said, status = command("filter", "--ids-from", listed, "--output", output, path)
        self.assertEqual((status, said.count("500 ids matched no feature")), (0, 1))
        self.assertEqual(gzip.decompress(output.read_bytes()), HEADER + b"".join(lines[::2]))

    def test_very_many_ids(self):
        """Then only a list that matches nothing is reported."""
        path, listed = self.file(GOOD), self.folder / "ids"
        ids = "".join(f"{number}\n" for number in range(100_001))
        for text, said in ((ids, "100,001 ids matched"), (ids + "a\n", "")):
            listed.write_text(text)
            _, told, status = command("filter", "--ids-from", listed, path)
            self.assertEqual((status, said in told, bool(told)), (0, True, bool(said)))

    def test_where_nothing_is_said(self):
        path, broken = self.file(GOOD), self.file(HEADER + b"[]\n", "broken.jsonl")
        listed = self.file(b"none\n", "ids")
        words = ("filter", "--ids-from", listed)
        self.assertEqual(command(*words, "--quiet", path)[1], "")
        self.assertEqual(command(*words, "--exclude", path)[1], "")
        self.assertNotIn("matched", command(*words, broken)[1])
        self.assertIn("matched", command(*words, "--keep-going", broken)[1])

    def test_several_files(self):
        paths = [self.file(HEADER + feature(name), f"{name}.jsonl") for name in "ab"]
        listed = self.file(b"a\nb\nc\n", "ids")
        words = ("--ids-from", listed, "--output-dir", self.folder / "out", *paths)
        self.assertEqual(command("filter", *words)[1], f'{listed}: 1 id matched no feature: "c"\n')
        output = command("filter", "--json", *words)[0].splitlines()[-1]
        self.assertEqual(
            json.loads(output),
            {"kind": "ids", "version": 1, "ids_from": str(listed), "unmatched": 1, "first": ["c"]},
        )

    def test_an_id_far_behind_in_a_line(self):
        """The line may be longer or deeper than Python reads JSON, and may have longer numbers."""
        for value in ('"%s"' % ("x" * (1 << 20)), "1" * 5_000, "[" * 1_000 + "]" * 1_000):
            told = f'{{"a":{{"type":"Road","attributes":{{"x":{value}}}}}}}'
            line = f'{{"type":"CityJSONFeature","CityObjects":{told},"vertices":[],"id":"a"}}\n'
            line = line.encode()
            path, listed = self.file(HEADER + line), self.file(b"a\n", "ids")
            words = ("--depth", "1024", "--ids-from", listed, path)
            self.assertEqual(command("filter", *words), (HEADER + line, "", 0))

    def test_the_header_is_no_feature(self):
        listed = self.file(b"a\n", "ids")
        for old, new in ((b'{"type"', b'{"id":"a","type"'), (b'"version"', b'"id":"a","version"')):
            header = HEADER.replace(old, new)
            path = self.file(header + feature("b"))
            said = f'{listed}: 1 id matched no feature: "a"\n'
            self.assertEqual(command("filter", "--ids-from", listed, path), (header, said, 0))

    def test_a_cut_by_an_index(self):
        path, index = self.file(GOOD), self.folder / "it.gpkg"
        command("index", "--output", index, path)
        listed = self.file(b"a\nc\n", "ids")
        output, said, status = command("filter", "--index", index, "--ids-from", listed)
        self.assertEqual(
            (output, said, status),
            (HEADER + feature("a"), f'{listed}: 1 id matched no feature: "c"\n', 0),
        )

    def test_ids_of_lines(self):
        for text, wanted in (
            (HEADER, set()),
            (HEADER + feature("a") + feature("b"), {b"a", b"b"}),
            (b'{"vertices":[],"id":"x"}\n\n{"id":"a\\u0062"}', {b"x", b"ab"}),
            (feature("é")[:-1], {"é".encode()}),
            (b"", set()),
        ):
            self.assertEqual(ids_in(text), wanted)
            self.assertEqual(ids_in(memoryview(text)), wanted)


class Folders(InFolder):
    """Outputs of files with the same name."""

    def setUp(self):
        super().setUp()
        for name in ("north", "south"):
            (self.folder / name).mkdir()
            (self.folder / name / "x.jsonl").write_bytes(GOOD + feature(name))

    def run_in(self, *words, **more):
        return command("filter", "--output-dir", "out", *words, cwd=self.folder, **more)

    def test_two_files_of_one_name(self):
        _, said, status = self.run_in("north/x.jsonl", "south/x.jsonl")
        self.assertEqual(status, 2)
        self.assertEqual(
            said,
            "north/x.jsonl and south/x.jsonl have the same output: --keep-folders keeps their"
            " folders\n",
        )
        self.assertFalse((self.folder / "out").exists())

    def test_folders_are_kept(self):
        words = ("--keep-folders", "north/x.jsonl", "./south//x.jsonl")
        self.assertEqual(self.run_in(*words), (b"", "", 0))
        for name in ("north", "south"):
            text = (self.folder / "out" / name / "x.jsonl").read_bytes()
            self.assertEqual(text, GOOD + feature(name))

    def test_the_folders_of_a_full_name(self):
        path = self.folder / "north" / "x.jsonl"
        self.assertEqual(self.run_in("--keep-folders", path), (b"", "", 0))
        self.assertTrue((self.folder / "out" / str(path).lstrip("/")).exists())

    def test_what_lies_outside(self):
        for name in ("../x.jsonl", "north/../../x.jsonl"):
            _, said, status = self.run_in("--keep-folders", name)
            self.assertEqual((status, "cannot keep '..'" in said), (2, True))

    def test_a_cut_by_an_index(self):
        index = self.folder / "it.gpkg"
        paths = ("north/x.jsonl", "south/x.jsonl")
        command("index", "--output", index, *paths, cwd=self.folder)
        self.assertEqual(self.run_in("--index", index)[2], 2)
        self.assertEqual(self.run_in("--index", index, "--keep-folders", "--id", "south")[2], 0)
        found = [path for path in (self.folder / "out").rglob("x.jsonl")]
        self.assertEqual(len(found), 2)
        self.assertEqual(
            sorted(path.read_bytes() for path in found), [HEADER, HEADER + feature("south")]
        )


class Levels(InFolder):
    """How well outputs are packed."""

    def test_levels(self):
        with open(example("sample"), "rb") as sample:
            path = self.file(sample.read())
        sizes = {}
        for words in ((), ("--level", "1"), ("--level", "4"), ("--level", "9")):
            output = self.folder / "out.jsonl.gz"
            self.assertEqual(command("filter", *words, "--output", output, path), (b"", "", 0))
            self.assertEqual(gzip.decompress(output.read_bytes()), path.read_bytes())
            sizes[words[1:]] = output.stat().st_size
        self.assertEqual(sizes[()], sizes[("4",)])
        self.assertTrue(sizes[("1",)] > sizes[("4",)] > sizes[("9",)], sizes)

    def test_a_cut_by_an_index(self):
        with open(example("sample"), "rb") as sample:
            path = self.file(sample.read())
        index, sizes = self.folder / "it.gpkg", []
        command("index", "--output", index, path)
        for level in ("1", "9"):
            output = self.folder / "out.jsonl.gz"
            words = ("--index", index, "--level", level, "--output", output)
            self.assertEqual(command("filter", *words)[1:], ("", 0))
            self.assertEqual(gzip.decompress(output.read_bytes()), path.read_bytes())
            sizes.append(output.stat().st_size)
        self.assertGreater(*sizes)


class Packed(InFolder):
    """Cuts of many packed streams."""

    def test_one_note(self):
        paths = [self.file(GOOD, f"{n}.jsonl.gz") for n in range(3)] + [self.file(GOOD)]
        index = self.folder / "it.gpkg"
        command("index", "--output", index, *paths)
        said = command("filter", "--index", index, "--id", "a")[1]
        self.assertEqual(
            said, "3 of 4 streams are packed, so the cut reads each from its beginning\n"
        )


if __name__ == "__main__":
    unittest.main()
