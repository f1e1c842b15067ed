"""Outputs: what looks whole is whole, and nothing that is read is destroyed."""
import gzip
import io
import os
import signal
import subprocess
import sys
import time
import unittest

import cityseq
from cityseq.sources.outputs import Batch, Writer

from . import support
from .support import HEADER, PLAIN, InFolder, command, feature
from .test_sources import BROKEN, GOOD


class Wholes(InFolder):
    """What has the final name is whole, or what was there before."""

    def setUp(self):
        super().setUp()
        self.output = self.folder / "out.jsonl"
        self.part = self.folder / "out.jsonl.part"

    def found(self):
        """What is at the output and at its part, if they are there."""
        return [path.read_bytes() if path.exists() else None for path in (self.output, self.part)]

    def test_an_invalid_stream_leaves_nothing(self):
        for jobs in (1, 3):
            with self.assertRaises(cityseq.InvalidStream) as caught:
                cityseq.filter(BROKEN, self.output, jobs=jobs, part_size=200)
            fault = caught.exception
            self.assertEqual(
                (fault.status, fault.result.status, fault.result.features, str(fault)),
                (1, 1, 1, "<bytes>: line 3, byte 142: 25 vertex index out of range"),
            )
            self.assertEqual(self.found(), [None, None])

    def test_an_invalid_stream_leaves_what_was_there(self):
        self.output.write_bytes(b"before")
        self.assertRaises(cityseq.InvalidStream, cityseq.filter, BROKEN, self.output)
        self.assertEqual(self.found(), [b"before", None])

    def test_a_part_is_left_where_it_is_asked_for(self):
        with self.assertRaises(cityseq.InvalidStream):
            cityseq.filter(BROKEN, self.output, keep_partial=True)
        self.assertEqual(self.found(), [None, HEADER + feature("a")])
        packed = self.folder / "out.jsonl.gz"
        with self.assertRaises(cityseq.InvalidStream):
            cityseq.filter(BROKEN, packed, keep_partial=True)
        self.assertEqual(
            gzip.decompress((self.folder / "out.jsonl.gz.part").read_bytes()), HEADER + feature("a")
        )

    def test_going_on_makes_a_whole(self):
        result = cityseq.filter(BROKEN, self.output, keep_going=True)
        self.assertEqual(
            (result.status, self.found()), (1, [HEADER + feature("a") + feature("c"), None])
        )
        # without a header nothing is read to the end
        with self.assertRaises(cityseq.InvalidStream) as caught:
            cityseq.filter(PLAIN, self.folder / "none", keep_going=True)
        self.assertEqual(str(caught.exception), "<bytes>: line 1, byte 0: 10 member missing")
        self.assertEqual(os.listdir(self.folder), ["out.jsonl"])

    def test_a_fault_leaves_nothing(self):
        with self.assertRaises(cityseq.ReadFault):
            cityseq.filter(support.Slow(GOOD, 11, len(GOOD) - 3), self.output)
        self.assertEqual(self.found(), [None, None])

    def test_a_link_stays_a_link_and_a_mode_stays(self):
        self.output.symlink_to("target")
        (self.folder / "target").write_bytes(b"")
        os.chmod(self.folder / "target", 0o604)
        cityseq.filter(GOOD, self.output)
        self.assertTrue(self.output.is_symlink())
        self.assertEqual(
            (self.output.read_bytes(), os.stat(self.output).st_mode & 0o777), (GOOD, 0o604)
        )
        self.assertEqual(sorted(os.listdir(self.folder)), ["out.jsonl", "target"])

    def test_a_device_is_written_as_it_is(self):
        self.assertEqual(cityseq.filter(GOOD, os.devnull).status, 0)
        self.assertFalse(os.path.exists(os.devnull + ".part"))

    def test_the_command(self):
        broken = self.file(BROKEN)
        self.assertEqual(command("filter", "--output", self.output, broken)[2], 1)
        self.assertEqual(self.found(), [None, None])
        self.assertEqual(command("filter", "--output", self.output, "--keep-partial", broken)[2], 1)
        self.assertEqual(self.found(), [None, HEADER + feature("a")])
        good, folder = self.file(GOOD, "good.jsonl"), self.folder / "folder"
        self.assertEqual(command("filter", "--output-dir", folder, broken, good)[2], 1)
        self.assertEqual([path.name for path in folder.iterdir()], ["good.jsonl"])
        self.assertEqual(
            command("filter", "--keep-going", "--output-dir", folder, broken, good)[2], 1
        )
        self.assertEqual(
            sorted(path.name for path in folder.iterdir()), ["good.jsonl", "stream.city.jsonl"]
        )

    def test_a_part_that_is_kept_replaces_no_other_output(self):
        broken, good = self.file(BROKEN, "a.jsonl"), self.file(GOOD, "a.jsonl.part")
        words = ("filter", "--output-dir", self.folder / "out", good, broken)
        said, status = command(*words, "--keep-partial")[1:]
        self.assertEqual((status, (self.folder / "out").exists()), (2, False))
        self.assertIn(f"what is kept of {broken} would replace the output of {good}", said)
        self.assertEqual(command(*words)[2], 1)
        self.assertEqual(os.listdir(self.folder / "out"), [good.name])

    def test_a_run_that_is_interrupted_leaves_nothing(self):
        for signalled, status in ((signal.SIGINT, 130), (signal.SIGTERM, 143)):
            ran = subprocess.Popen(
                [sys.executable, "-m", "cityseq", "filter", "--output", self.output, "-"],
                stdin=subprocess.PIPE,
                stderr=subprocess.PIPE,
                env={**os.environ, "PYTHONPATH": os.path.join(support.ROOT, "python")},
                preexec_fn=support.heed_interrupts,
            )
            ran.stdin.write(HEADER + PLAIN * 200_000)
            ran.stdin.flush()
            for _ in range(1_200):
                if support.unfinished(self.folder):
                    break
                time.sleep(0.05)
            self.assertEqual(len(support.unfinished(self.folder)), 1)
            ran.send_signal(signalled)
            _, said = ran.communicate(timeout=60)
            self.assertEqual(
                (ran.returncode, said.count(b"\n"), os.listdir(self.folder)), (status, 1, [])
            )


class Parts(InFolder):
    """Where an output is written until it is whole."""

    def setUp(self):
        super().setUp()
        self.output = self.folder / "out.jsonl"

    def begun(self, text, **options):
        """A writer of the output that has written something."""
        writer = Writer(self.output, **options)
        writer.write(text)
        return writer

    def test_two_runs_at_once(self):
        one, other = self.begun(b"1"), self.begun(b"2")
        self.assertEqual(len(support.unfinished(self.folder)), 2)
        other.write(b"2")
        other.close(True)
        one.write(b"1")
        self.assertEqual(self.output.read_bytes(), b"22")
        one.close(True)
        self.assertEqual(self.output.read_bytes(), b"11")
        self.assertEqual(os.listdir(self.folder), ["out.jsonl"])

    def test_two_runs_that_keep_what_is_not_whole(self):
        one, other = self.begun(b"1", keep_partial=True), self.begun(b"2", keep_partial=True)
        other.discard()
        one.close(False)
        self.assertEqual(os.listdir(self.folder), ["out.jsonl.part"])
        self.assertEqual((self.folder / "out.jsonl.part").read_bytes(), b"1")

    def test_links_of_that_name_are_not_followed(self):
        victim, part = self.folder / "victim", self.folder / "out.jsonl.part"
        victim.write_bytes(b"precious")
        for keeps in (False, True):
            part.symlink_to(victim)
            cityseq.filter(GOOD, self.output, keep_partial=keeps)
            self.assertEqual((victim.read_bytes(), self.output.read_bytes()), (b"precious", GOOD))
            self.assertFalse(self.output.is_symlink())
            self.assertTrue(part.is_symlink())
            with self.assertRaises(cityseq.InvalidStream):
                cityseq.filter(BROKEN, self.output, keep_partial=keeps)
            self.assertEqual((victim.read_bytes(), part.is_symlink()), (b"precious", not keeps))
            part.unlink()

    def test_the_mode_is_that_of_open_or_of_the_older_file(self):
        usual = self.folder / "usual"
        with open(usual, "wb"):
            pass
        cityseq.filter(GOOD, self.output)
        self.assertEqual(os.stat(self.output).st_mode, os.stat(usual).st_mode)
        for mode in (0o600, 0o640, 0o444, 0):
            os.chmod(self.output, mode)
            writer = self.begun(b"x")
            (part,) = support.unfinished(self.folder)
            self.assertEqual(os.stat(self.folder / part).st_mode & 0o077 & ~mode, 0)
            writer.close(True)
            self.assertEqual(os.stat(self.output).st_mode & 0o777, mode)

    def test_a_long_name(self):
        self.output = self.folder / ("\u00e9" * 127)  # 254 bytes
        self.begun(b"x").close(True)
        self.assertEqual(os.listdir(self.folder), ["\u00e9" * 127])

    def test_outputs_that_get_their_names_together(self):
        names = ("a", "b")
        with Batch() as batch:
            for name in names:
                writer = Writer(self.folder / name, batch=batch)
                writer.write(name.encode())
                writer.close(True)
                writer.discard()
            self.assertEqual(len(support.unfinished(self.folder)), 2)
            batch.replace()
        self.assertEqual([(self.folder / name).read_bytes() for name in names], [b"a", b"b"])
        with Batch() as batch:
            writer = Writer(self.folder / "c", batch=batch)
            writer.close(True)
        self.assertEqual(sorted(os.listdir(self.folder)), ["a", "b"])


class Sames(InFolder):
    """Nothing is written to what is read, whatever name it has."""

    def test_files_by_any_name(self):
        path = self.file(GOOD)
        link, hard = self.folder / "link", self.folder / "hard"
        link.symlink_to(path)
        os.link(path, hard)
        for output in (path, link, hard, os.fsencode(hard)):
            with self.subTest(output=output), self.assertRaises(cityseq.RequestError):
                cityseq.filter(path, output)
        with open(path, "ab") as appended, open(path, "rb") as read:
            for source, output in ((path, appended), (read, appended), (read, path)):
                self.assertRaises(cityseq.RequestError, cityseq.filter, source, output)
        self.assertEqual(path.read_bytes(), GOOD)

    def test_what_is_written_first(self):
        path = self.file(GOOD, "a.jsonl.part")
        self.assertRaises(cityseq.RequestError, cityseq.filter, path, self.folder / "a.jsonl")
        self.assertEqual(path.read_bytes(), GOOD)

    def test_the_command(self):
        paths = [self.file(GOOD, "a.jsonl"), self.file(GOOD, "b.jsonl")]
        folder = self.folder / "od2"
        folder.mkdir()
        (folder / "a.jsonl").symlink_to(paths[1])
        self.assertEqual(command("filter", "--output-dir", folder, *paths)[2], 2)
        ids = self.file(b"a\n", "ids")
        self.assertEqual(command("filter", "--output", ids, "--ids-from", ids, paths[0])[2], 2)
        for name, source in (("filter", paths[0]), ("check", paths[0]), ("filter", "-")):
            with open(paths[0], "ab") as appended, open(paths[0], "rb") as read:
                ran = subprocess.run(
                    [sys.executable, "-m", "cityseq", name, source],
                    stdin=read,
                    stdout=appended,
                    stderr=subprocess.PIPE,
                    env={**os.environ, "PYTHONPATH": os.path.join(support.ROOT, "python")},
                )
            self.assertEqual((ran.returncode, paths[0].read_bytes()), (2, GOOD))
        self.assertEqual([path.read_bytes() for path in (*paths, ids)], [GOOD, GOOD, b"a\n"])

    def test_standard_error_of_the_command(self):
        """Not even the words that refuse it are written to it."""
        path, index = self.file(GOOD + b"{}\n", "bad.jsonl"), self.folder / "it.gpkg"
        good = self.file(GOOD, "good.jsonl")
        self.assertEqual(command("index", "--output", index, good)[2], 0)
        for words, read in (
            (("check", path), path),
            (("filter", "--keep-going", "--output", self.folder / "out", path), path),
            (("filter", "--output", path, path), path),
            (("index", "--output", self.folder / "no.gpkg", path), path),
            (("report", "--json", path), path),
            (("filter", "--index", index, "--id", "a"), good),
        ):
            before = read.read_bytes()
            with open(read, "ab") as appended, self.subTest(words[0]):
                ran = subprocess.run(
                    [sys.executable, "-m", "cityseq", *words],
                    stdout=subprocess.PIPE,
                    stderr=appended,
                    env={**os.environ, "PYTHONPATH": os.path.join(support.ROOT, "python")},
                )
                self.assertEqual((ran.returncode, ran.stdout, read.read_bytes()), (2, b"", before))


class Writers(InFolder):
    """What writes."""

    def test_a_packing_that_is_not_there(self):
        path = self.file(HEADER + PLAIN)
        for name in ("a.city.jsonl.xz", "b.BZ2", "c.zip"):
            output = str(self.folder / name)
            _, said, status = command("filter", "--output", output, path)
            words = f"{output}: cityseq packs by gzip or Zstandard: let the name end in .gz or .zst"
            self.assertEqual((said, status), (f"{words}\n", 2))
            with self.assertRaises(cityseq.RequestError):
                cityseq.filter(path, output)
        self.assertEqual(os.listdir(self.folder), [path.name])

    def test_an_empty_name(self):
        path = self.file(HEADER + PLAIN)
        for words, told in (
            (("index", "--output", ""), "the name of an output is empty"),
            (("report", "--output", ""), "the name of an output is empty"),
            (("filter", "--output", ""), "the name of an output is empty"),
            (("filter", "--output-dir", ""), "the name of the folder of --output-dir is empty"),
            (("check", "--record", ""), "a record is a file: name it by --record"),
        ):
            _, said, status = command(*words, path, cwd=self.folder)
            self.assertEqual((said, status), (f"{told}\n", 2), words)
        for call in (cityseq.index, cityseq.filter):
            with self.assertRaises(cityseq.RequestError):
                call(path, "")
        self.assertEqual(os.listdir(self.folder), [path.name])

    def test_a_missing_folder_is_named(self):
        output = self.folder / "no" / "out.jsonl"
        with self.assertRaises(cityseq.WriteFault) as caught:
            cityseq.filter(GOOD, output)
        self.assertEqual(str(caught.exception), f"{output}: write fault: No such file or directory")
        self.assertEqual(
            command("filter", "--output", output, self.file(GOOD))[1],
            f"{output}: write fault: No such file or directory\n",
        )

    def test_a_working_folder_that_was_removed(self):
        """A relative name leads nowhere then, and the others still do."""
        script = """if True:
            import os, sys
            os.mkdir("gone"), os.chdir("gone"), os.rmdir("../gone")
            import cityseq.cli
            path, calls = sys.argv[1], []
            for words in (
                ("check", path),
                ("filter", path, "--output", "out"),
                ("filter", path, "--output-dir", "out"),
                ("check", path, "--record", "record"),
                ("check", "none", "--record", "record"),
                ("collect", path, "--output", "out"),
                ("index", path, "--output", "out.gpkg"),
                ("pack", "none"),
            ):
                calls.append(cityseq.cli.main(words))
            try:
                cityseq.filter(path, "out")
            except cityseq.RequestError:
                calls.append("refused")
            print(*calls)"""
        ran = subprocess.run(
            [sys.executable, "-c", script, self.file(GOOD)],
            cwd=self.folder,
            capture_output=True,
            timeout=60,
            env={**os.environ, "PYTHONPATH": os.path.join(support.ROOT, "python")},
        )
        self.assertEqual(
            ran.stdout.splitlines()[1:], [b"0 2 2 2 2 2 2 2 refused"], ran.stderr.decode()
        )

    def test_nothing_is_opened_before_it_is_used(self):
        Writer(self.folder / "out").discard()
        self.assertEqual(os.listdir(self.folder), [])
        memory = io.BytesIO()
        writer = Writer(memory)
        writer.write(b"x")
        writer.close(True)
        self.assertEqual(memory.getvalue(), b"x")


if __name__ == "__main__":
    unittest.main()
