"""The record of an archive: by the document, docs/json.md, and what a later run skips."""
import errno
import hashlib
import json
import os
import unittest

import cityseq
from cityseq.cli.record import Record
from cityseq.sources.parts import MANIFEST, ListedPart, manifest_of
from cityseq.sources.regular import digest_of

from .support import HEADER, PLAIN, command, feature
from .test_json import COMMON, TABLES, Documented, fits_the_schema
from .test_sources import BROKEN, GOOD
from .test_told import example


class Checked(Documented):
    """A line for each file, and no file twice that has not changed."""

    def setUp(self):
        super().setUp()
        self.record = self.folder / "record.jsonl"
        self.paths = [
            self.file(GOOD, "good.jsonl"),
            self.file(BROKEN, "broken.jsonl"),
            self.file(GOOD, "packed.jsonl.gz"),
        ]

    def recorded(self):
        lines = [json.loads(line) for line in self.record.read_bytes().splitlines()]
        for told in lines:
            self.fits(told, {**COMMON, **TABLES["record"]})
            fits_the_schema(told)
        return lines

    def run_again(self, *words, given=b""):
        return command("check", "--record", self.record, "--resume", *words, given=given)

    def test_what_is_recorded(self):
        _, _, status = command("check", "--record", self.record, *self.paths, self.folder / "none")
        lines = self.recorded()
        self.assertEqual(
            (status, [one["file"] for one in lines]),
            (3, [*map(str, self.paths), str(self.folder / "none")]),
        )
        self.assertEqual(
            [(one["verdict"], one["lines"], one["ended_at"]) for one in lines],
            [("valid", 3, None), ("invalid", 2, 3), ("valid", 3, None), ("fault", 0, None)],
        )
        for path, told in zip(self.paths, lines):
            self.assertEqual(
                (told["size"], told["mtime_ns"], told["sha256"]),
                (
                    path.stat().st_size,
                    path.stat().st_mtime_ns,
                    hashlib.sha256(path.read_bytes()).hexdigest(),
                ),
            )
            self.assertRegex(told["time"], r"^\d{4}-\d\d-\d\dT\d\d:\d\d:\d\dZ$")

    def test_what_has_not_changed_is_skipped(self):
        output, _, status = self.run_again(*self.paths)
        self.assertEqual((output.count(b"as recorded"), status), (0, 1))
        output, said, status = self.run_again(*self.paths)
        self.assertEqual(
            (output.count(b"as recorded"), said, status, len(self.recorded())), (3, "", 1, 3)
        )
        self.assertIn(b"broken.jsonl: invalid lines=2 features=1, as recorded at ", output)
        self.paths[0].write_bytes(GOOD + PLAIN)
        os.utime(self.paths[2], (1, 1))
        output, _, status = self.run_again(*self.paths)
        self.assertEqual((output.count(b"as recorded"), status, len(self.recorded())), (1, 1, 5))
        self.assertEqual(self.run_again(*self.paths)[0].count(b"as recorded"), 3)
        self.assertEqual(self.run_again("--tree", *self.paths)[0].count(b"as recorded"), 0)
        objects = [
            json.loads(line)
            for line in self.run_again("--tree", "--json", *self.paths)[0].splitlines()
        ]
        self.assertEqual([one["kind"] for one in objects], ["record"] * 3)

    def test_a_fault_is_tried_again(self):
        none = self.folder / "none"
        self.assertEqual(self.run_again(none)[2], 3)
        none.write_bytes(GOOD)
        self.assertEqual(self.run_again(none)[::2], (b"valid lines=3 features=2\n", 0))

    def test_a_record_that_was_cut_short(self):
        self.run_again(*self.paths)
        self.record.write_bytes(self.record.read_bytes()[:-20])
        output, _, _ = self.run_again(*self.paths)
        self.assertEqual(output.count(b"as recorded"), 2)
        lines = self.recorded()  # each is whole
        self.assertEqual([one["file"] for one in lines], list(map(str, self.paths)))

    def test_a_record_on_a_full_disk(self):
        """The system takes some bytes of a line, and then no more."""
        record, taken = Record(str(self.record), False), [9]

        class Full:
            def write(self, text):
                if not taken:
                    raise OSError(errno.ENOSPC, "No space left on device")
                return taken.pop()

        record._file.close()
        record._file = Full()
        with self.assertRaisesRegex(cityseq.WriteFault, "No space left on device"):
            record.append({"kind": "record"})

    def test_a_record_without_the_end_of_its_last_line(self):
        self.run_again(*self.paths)
        self.record.write_bytes(self.record.read_bytes()[:-1])
        self.assertEqual(self.run_again(*self.paths)[0].count(b"as recorded"), 3)
        self.assertEqual(len(self.recorded()), 3)

    def test_a_text_that_is_no_record(self):
        """Nothing of it is removed."""
        self.record.write_bytes(b"notes, and no end")
        self.assertEqual(self.run_again(self.paths[0])[2], 0)
        first, second = self.record.read_bytes().splitlines()
        self.assertEqual((first, json.loads(second)["kind"]), (b"notes, and no end", "record"))

    def test_lines_that_are_no_json(self):
        self.record.write_bytes(b"[" * 200_000 + b"\n" + b"x" * (3 << 20) + b"\n\xff\n")
        self.assertEqual(self.run_again(self.paths[0])[2], 0)
        self.assertEqual(self.run_again(self.paths[0])[0].count(b"as recorded"), 1)

    def test_records_of_another_form(self):
        """They are no reason to skip a file, and none to fail."""
        self.run_again("--keep-going", example("delivery"))
        (good,) = self.recorded()
        wrong = (None, "x", -1, 1.0, [], {}, {"a": 1}, {"4": None}, True)
        for name in ("time", "status", "verdict", "lines", "features", "refused", "codes"):
            for value in wrong:
                self.record.write_bytes(json.dumps({**good, name: value}).encode() + b"\n")
                found, state = Record(str(self.record), True), {**good}
                told = found.find(good["file"], state)
                found.close()
                is_right = (name, value) in (("time", "x"), ("codes", {}))
                self.assertEqual(told is not None, is_right, (name, value))
        self.record.write_bytes(json.dumps({**good, "status": 0}).encode() + b"\n")
        self.assertEqual(self.run_again("--keep-going", example("delivery"))[2], 1)

    def test_what_is_no_file(self):
        os.mkfifo(self.folder / "pipe")
        for name in ("/dev/full", "/dev/zero", "/dev/null", self.folder / "pipe", self.folder):
            for words in ((), ("--resume",)):
                _, said, status = command("check", "--record", name, *words, self.paths[0])
                self.assertEqual((status, said), (2, f"{name}: a record is a regular file\n"))
        said, status = command("check", "--record", "-", self.paths[0])[1:]
        self.assertEqual((status, os.path.exists("-")), (2, False), said)

    def test_a_pipe_is_read_once(self):
        """Its bytes are not shared out between the judgement and a hash, and it is judged each
        time."""
        given = GOOD + PLAIN * 20_000
        wanted = f"valid lines={given.count(10)} features={given.count(10) - 1}\n".encode()
        for _ in range(2):
            self.assertEqual(self.run_again("/dev/stdin", given=given), (wanted, "", 0))
        told, _, status = command("check", "--json", "--sha256", "/dev/stdin", given=given)
        self.assertEqual((json.loads(told)["verdict"], status), ("valid", 0))
        for line in [json.loads(told), *self.recorded()]:
            self.assertEqual((line["size"], line["sha256"]), (None, None))

    def test_a_folder_is_judged_each_time(self):
        """Its own time does not show whether one of its parts has changed."""
        (self.folder / "parts").mkdir()
        digest = digest_of(self.file(GOOD, "parts/part-0")).content
        part = ListedPart("part-0", 3, 2, len(GOOD), digest)
        (self.folder / "parts" / MANIFEST).write_bytes(manifest_of([part], "1"))
        for _ in range(2):
            said = self.run_again(self.folder / "parts")
            self.assertEqual(said, (b"valid lines=3 features=2\n", "", 0))
        self.file(GOOD + PLAIN, "parts/part-0")
        self.assertEqual(self.run_again(self.folder / "parts")[2], 3)

    def test_it_is_read_only_to_resume(self):
        """A long record costs nothing to append to."""
        with open(self.record, "wb") as record:
            record.truncate(8 << 30)
            record.seek(0, os.SEEK_END)
            record.write(b"\n")
        ran = command("check", "--record", self.record, self.paths[0])
        self.assertEqual(ran, (b"valid lines=3 features=2\n", "", 0))

    def test_the_first_invalid_line(self):
        self.run_again("--keep-going", example("delivery"), self.paths[0])
        first, second = self.recorded()
        self.assertEqual(
            [first[name] for name in ("line", "byte", "code", "codes")],
            [3, 144, 25, {"4": 1, "10": 1, "19": 1, "25": 2}],
        )
        self.assertEqual(
            [second[name] for name in ("line", "byte", "code", "codes")], [None, None, None, {}]
        )
        self.record.unlink()
        self.run_again(self.paths[1])
        (told,) = self.recorded()
        self.assertEqual(
            [told[name] for name in ("line", "byte", "code", "ended_at")], [3, 142, 25, 3]
        )

    def test_the_summary_counts_what_is_skipped(self):
        words = ("--keep-going", "--summary", example("delivery"), self.paths[1])
        wanted = self.run_again(*words)[1]
        self.assertIn("      3 25 vertex index out of range\n", wanted)
        self.assertEqual(self.run_again(*words)[1], wanted)

    def test_two_runs_with_one_record(self):
        """The line that another run writes now stays."""
        other = Record(str(self.record), False)
        self.record.write_bytes(b'{"kind": "record", "ver')
        self.run_again(self.paths[0])
        other.close()
        lines = self.record.read_bytes().splitlines()
        self.assertEqual(lines[0], b'{"kind": "record", "ver' + lines[0][23:])
        self.assertEqual(self.run_again(self.paths[0])[2], 0)

    def test_a_record_that_is_read(self):
        self.assertEqual(command("check", "--record", self.paths[0], self.paths[0])[2], 2)
        self.assertEqual(self.paths[0].read_bytes(), GOOD)
        self.assertEqual(
            command("check", "--record", self.folder / "no" / "record", self.paths[0])[1:],
            (f"{self.folder}/no/record: write fault: No such file or directory\n", 4),
        )


class Filtered(Documented):
    """Outputs that are whole are not made again."""

    def setUp(self):
        super().setUp()
        self.record, self.output = self.folder / "record.jsonl", self.folder / "out"
        self.paths = [
            self.file(GOOD, "a.jsonl"),
            self.file(GOOD + PLAIN, "b.jsonl.gz"),
            self.file(BROKEN, "c.jsonl"),
        ]

    def skipped(self, *words):
        """Which files a run skips."""
        output, _, _ = command(
            "filter",
            "--output-dir",
            self.output,
            "--record",
            self.record,
            "--resume",
            *words,
            *self.paths,
        )
        lines = output.decode().splitlines()
        return [line.split(":")[0].split("/")[-1][0] for line in lines if "as recorded" in line]

    def test_a_second_run(self):
        self.assertEqual(self.skipped("--type", "Road"), [])
        wanted = HEADER + feature("b", "Road")
        self.assertEqual((self.output / "a.jsonl").read_bytes(), wanted)
        self.assertEqual(self.skipped("--type", "Road"), ["a", "b"])
        for line in self.record.read_bytes().splitlines():
            self.fits(json.loads(line), {**COMMON, **TABLES["record"]})
        self.assertEqual(self.skipped("--type", "Building"), [])
        self.assertEqual(self.skipped("--type", "Road"), [])

    def test_an_output_that_is_not_as_it_was(self):
        self.skipped()
        (self.output / "a.jsonl").write_bytes(b"")
        self.assertEqual(self.skipped(), ["b"])
        self.assertEqual((self.output / "a.jsonl").read_bytes(), GOOD)
        (self.output / "b.jsonl.gz").unlink()
        self.assertEqual(self.skipped(), ["a"])
        self.assertEqual(self.skipped(), ["a", "b"])
        self.paths[0].write_bytes(GOOD + PLAIN)
        self.assertEqual(self.skipped(), ["b"])
        self.assertEqual((self.output / "a.jsonl").read_bytes(), GOOD + PLAIN)

    def test_another_folder(self):
        """A whole output somewhere else is not the one that is asked for."""
        self.assertEqual(self.skipped(), [])
        first, self.output = self.output, self.folder / "other"
        self.assertEqual(self.skipped(), [])
        for name in ("a.jsonl", "b.jsonl.gz"):
            self.assertEqual((self.output / name).read_bytes(), (first / name).read_bytes())
        self.assertEqual(self.skipped(), ["a", "b"])
        self.assertEqual(self.skipped("--keep-folders"), [])

    def test_a_record_that_is_an_output(self):
        """It would be replaced, and all its lines be lost."""
        os.symlink("out/a.jsonl", self.folder / "link")
        for name in ("out/a.jsonl", "out/b.jsonl.gz", "out/c.jsonl.part", "link"):
            self.record = self.folder / name
            self.assertEqual(self.skipped(), [])
            self.assertFalse(self.record.exists() or self.output.exists(), name)

    def test_invalid_lines_that_are_left_out(self):
        self.assertEqual(self.skipped("--keep-going"), [])
        self.assertEqual(self.skipped("--keep-going"), ["a", "b", "c"])

    def test_a_list_of_ids_that_changed(self):
        ids = self.file(b"b\n", "ids")
        self.assertEqual(self.skipped("--ids-from", ids), [])
        self.assertEqual(self.skipped("--ids-from", ids), ["a", "b"])
        ids.write_bytes(b"a\n")
        self.assertEqual(self.skipped("--ids-from", ids), [])

    def test_where_it_is_refused(self):
        for words in (("--record", self.record), ("--output-dir", self.output, "--resume")):
            self.assertEqual(command("filter", *words, self.paths[0])[2], 2)


if __name__ == "__main__":
    unittest.main()
