"""The command: what it writes, what it says, and its status."""
import contextlib
import gzip
import importlib.util
import io
import json
import lzma
import os
import re
import signal
import subprocess
import sys
import textwrap
import unittest
from unittest import mock

import cityseq
from cityseq import cli
from cityseq.cli.output import put
from cityseq.cli.requests import COMMANDS

from . import support
from .support import HEADER, PLAIN, InFolder, command, feature
from .test_sources import BROKEN, GOOD
from .test_told import example

SAID = "line 3, byte 142: 25 vertex index out of range"


class Commands(InFolder):
    """Runs as a user has them."""

    def test_check(self):
        good, broken = self.file(GOOD, "good.jsonl"), self.file(BROKEN, "broken.jsonl")
        self.assertEqual(command("check", good), (b"valid lines=3 features=2\n", "", 0))
        self.assertEqual(
            command("check", good, good)[0], f"{good}: valid lines=3 features=2\n".encode() * 2
        )
        output, said, status = command("check", good, broken)
        self.assertEqual((output.count(b"\n"), status), (1, 1))
        first, *rest = said.splitlines()
        self.assertEqual(first, f"{broken}: {SAID}")
        self.assertEqual(rest[0], '    feature "b"')
        self.assertEqual(rest[1][rest[2].index("^") :][:3], "4]]")
        self.assertEqual(rest[3], "    Hint: the index is 4.")
        self.assertTrue(rest[4].startswith("    Fix: Count from 0"))
        self.assertEqual(command("check", "-", given=GOOD), (b"valid lines=3 features=2\n", "", 0))
        self.assertEqual(command("check", "-", given=BROKEN)[1].splitlines(), [SAID, *rest])
        self.assertEqual(command("check", given=BROKEN), (b"", f"{SAID}\n", 1))

    def test_the_documents_show_what_it_says(self):
        for name in ("README.md", "docs/GUIDE.md"):
            with open(os.path.join(support.ROOT, name), encoding="utf-8") as file:
                text = file.read()
            shown = re.findall(r"^    \$ cityseq-run (check .*)\n((?:    .*\n)+)", text, re.M)
            self.assertEqual(len(shown), 1, name)
            words, block = shown[0]
            output, said, status = command(*words.split(), cwd=support.ROOT)
            self.assertEqual((output, said, status), (b"", textwrap.dedent(block), 1), name)

    def test_an_interrupt_while_a_class_is_made(self):
        """Python 3.11 gives RuntimeError for what a field raises there."""

        def made(number):
            def name(*_):
                signal.raise_signal(number)

            type("Made", (), {"field": type("Field", (), {"__set_name__": name})()})

        for number, words in (
            (signal.SIGINT, "interrupted\n"),
            (signal.SIGTERM, "stopped by SIGTERM\n"),
        ):
            said = io.StringIO()
            self.addCleanup(signal.signal, number, signal.getsignal(number))
            signal.signal(signal.SIGINT, signal.default_int_handler)
            cli.end_by_signals()
            with (
                mock.patch.object(cli, "_run", lambda _, number=number: made(number)),
                contextlib.redirect_stderr(said),
            ):
                status = cli.main(["check", "-"])
            self.assertEqual((said.getvalue(), status), (words, 128 + number))

    def test_an_interrupt_while_the_command_is_loaded(self):
        code = (
            "import signal, sys\n"
            "class Loader:\n"
            "    def find_spec(self, name, *_):\n"
            "        if name == 'cityseq.cli':\n"
            "            class Field:\n"
            "                def __set_name__(self, *_):\n"
            "                    signal.raise_signal(signal.SIGINT)\n"
            "            type('Made', (), {'field': Field()})\n"
            "sys.meta_path.insert(0, Loader())\n"
            "from cityseq.__main__ import run\n"
            "run()\n"
        )
        ran = subprocess.run(
            [sys.executable, "-c", code, "check", "-"],
            capture_output=True,
            env={**os.environ, "PYTHONPATH": os.path.join(support.ROOT, "python")},
            preexec_fn=support.heed_interrupts,
            timeout=60,
        )
        self.assertEqual((ran.stdout, ran.stderr, ran.returncode), (b"", b"interrupted\n", 130))

    def test_keep_going(self):
        output, said, status = command("check", "--keep-going", example("delivery"))
        self.assertEqual((output, status), (b"invalid lines=9 features=3 refused=5\n", 1))
        self.assertEqual(
            re.findall(r"line \d+, byte \d+: \d+", said),
            [
                "line 3, byte 144: 25",
                "line 4, byte 87: 10",
                "line 6, byte 100: 4",
                "line 7, byte 144: 25",
                "line 8, byte 64: 19",
            ],
        )
        self.assertEqual(re.findall(r'feature "(.*)"', said), ["p2", "p3", "p5", "p6", "p7"])

    def test_filter(self):
        wanted = HEADER + feature("b", "Road")
        for words in (
            ("--type", "Road"),
            ("--id", "b,c"),
            ("--id=b",),
            ("--exclude", "--id", "a"),
            ("--type=Road", "--bbox=-5,0,99,99"),
        ):
            self.assertEqual(command("filter", *words, "-", given=GOOD), (wanted, "", 0))
        output, said, status = command("filter", self.file(BROKEN))
        self.assertEqual((output, status, SAID in said), (HEADER + feature("a"), 1, True))
        self.assertEqual(
            command("filter", "--keep-going", "-", given=BROKEN)[0],
            HEADER + feature("a") + feature("c"),
        )

    def test_ids_from_a_file(self):
        listed = self.file(b"\xef\xbb\xbfb\r\n\r\nx,y\n", "ids")
        self.assertEqual(
            command("filter", "--ids-from", listed, "-", given=GOOD),
            (HEADER + feature("b", "Road"), f'{listed}: 1 id matched no feature: "x,y"\n', 0),
        )
        self.assertEqual(
            command("filter", "--ids-from", listed, "--id", "a", "-", given=GOOD + feature("x,y"))[
                0
            ],
            GOOD + feature("x,y"),
        )
        self.assertEqual(
            command("filter", "--ids-from", self.folder / "none", "-", given=GOOD)[::2], (b"", 2)
        )

    def test_outputs(self):
        paths = [self.file(GOOD, "a.jsonl"), self.file(GOOD, "b.jsonl.gz")]
        self.assertEqual(command("filter", *paths)[::2], (b"", 2))
        self.assertEqual(
            command("filter", "--type", "Road", "--output-dir", self.folder / "new", *paths),
            (b"", "", 0),
        )
        wanted = HEADER + feature("b", "Road")
        self.assertEqual((self.folder / "new" / "a.jsonl").read_bytes(), wanted)
        self.assertEqual(gzip.decompress((self.folder / "new" / "b.jsonl.gz").read_bytes()), wanted)
        self.assertEqual(command("filter", "--output", self.folder / "c", paths[1]), (b"", "", 0))
        self.assertEqual((self.folder / "c").read_bytes(), GOOD)
        for words in (
            ("--output", paths[0], paths[0]),
            ("--output-dir", self.folder, paths[0]),
            ("--output-dir", self.folder, "-"),
            ("--output-dir", self.folder / "x", paths[0], paths[0]),
        ):
            self.assertEqual(command("filter", *words)[2], 2)
        self.assertEqual(paths[0].read_bytes(), GOOD)

    def test_info(self):
        output, said, status = command("info", example("town"))
        self.assertEqual((said, status), ("", 0))
        self.assertEqual(
            output.decode().splitlines()[:16],
            [
                "lines 5",
                "features 4",
                "scale 1e-3 1e-3 1e-3",
                "translate 1e3 2e3 0e0",
                "type Building 2",
                "type Road 1",
                "type SolitaryVegetationObject 1",
                "type BuildingPart 1",
                "lod 0 1",
                "lod 1 2",
                "lod 2 1",
                "x -5000 50000",
                "y -10000 5000",
                "z 0 3000",
                "peak bytes 597",
                "peak tokens 105",
            ],
        )
        self.assertEqual(output.decode().splitlines()[17:], ["bbox 995,1990,1050,2005"])
        with_lods = output.decode() + "".join(
            f'features with lod "{text}" 1\n' for text in ("0", "1", "1.2", "2.2")
        )
        self.assertEqual(command("info", "--lods", example("town")), (with_lods.encode(), "", 0))
        with open(example("town"), "rb") as town:
            text = town.read()
        plain = command("info", given=text)[0].decode()
        self.assertEqual(plain + "bbox 995,1990,1050,2005\n", output.decode())
        self.assertEqual(
            command("info", "--lods", given=text)[0].decode().splitlines()[17:],
            with_lods.splitlines()[18:],
        )
        self.assertEqual(command("info", "-", given=BROKEN)[::2], (b"", 1))

    @unittest.skipUnless(os.path.exists(support.PROGRAM), "the program is not built")
    def test_info_begins_as_that_of_the_program(self):
        for case in support.cases():
            if case["query"] == "-":
                words = ["info", "--line-limit", case["line limit"], "--depth", case["depth"]]
                wanted, _, status = support.program(*words, given=case["text"])
                output = (
                    command(*words, "--part-size", "1", "-", given=case["text"])
                    if status == 0
                    else (b"", "", 1)
                )
                self.assertEqual(
                    (output[0][: len(wanted)], output[2]), (wanted, status), case["name"]
                )

    def test_explain(self):
        for words in (("explain", "25"), ("--explain", "25")):
            output, said, status = command(*words)
            self.assertEqual(
                (output[:30], said, status), (b"25 vertex index out of range\n\n", "", 0)
            )
        self.assertEqual(command("explain", "7"), (b"", "no reason has the code 7\n", 2))

    def test_explain_lists_the_codes(self):
        with open(os.path.join(support.ROOT, "docs", "RULES.md"), encoding="utf-8") as file:
            rows = re.findall(r"^\| \[(\d+)\]\(#.*?\) \| (.*?) \|", file.read(), re.M)
        self.assertEqual(len(rows), 27)
        wanted = "".join(f"{code} {text}\n" for code, text in rows)
        for words in (("explain",), ("--explain",)):
            self.assertEqual(command(*words), (wanted.encode(), "", 0))

    def test_explain_lists_the_types(self):
        with open(os.path.join(support.ROOT, "docs", "RULES.md"), encoding="utf-8") as file:
            rows = re.findall(r"^\| (?:first|second) \| \d+ to \d+ \| (.*) \|$", file.read(), re.M)
        types = ", ".join(rows)
        self.assertEqual(types.count(", "), 32)
        output, said, status = command("explain", "19")
        self.assertEqual((said, status), ("", 0))
        self.assertEqual(output.decode().splitlines()[-1], f"Types: {types}")
        self.assertNotIn(b"\nTypes: ", command("explain", "20")[0])

    def test_more_may_be_invalid(self):
        """It is said once, after all reports, and where `--keep-going` would tell more."""
        more = "more lines may be invalid: use --keep-going"
        broken = self.file(BROKEN, "broken.jsonl")
        for words in ((broken,), (broken, broken), ("--summary", broken), ("-",)):
            said = command("check", *words, given=BROKEN)[1].splitlines()
            self.assertEqual((said.count(more), said[-1]), (1, more), words)
        for words in (
            ("--quiet", broken),
            ("--json", broken),
            ("--keep-going", broken),
            ("--format", "sarif", broken),
            (),
            ("--tree", self.file(GOOD, "good.jsonl")),
            (self.file(HEADER.replace(b"2.0", b"1.1"), "header.jsonl"),),
            (self.folder / "none",),
        ):
            self.assertNotIn(more, command("check", *words, given=BROKEN)[1], words)
        for words in (("info",), ("filter",), ("index", "--output", self.folder / "it.gpkg")):
            self.assertNotIn(more, command(*words, broken)[1], words)

    def test_hints(self):
        self.assertIn("\nIt is packed by xz: ", command("check", "-", given=lzma.compress(GOOD))[1])
        self.assertIn("\nIt is empty: ", command("check", "-")[1])
        self.assertEqual(command("check")[1], "line 1, byte 0: 1 no header line\n")

    def test_progress(self):
        path = self.file(HEADER + PLAIN * 50_000, "stream.jsonl.gz")
        output, said, status = command("check", "--progress", path)
        self.assertEqual((output, status), (b"valid lines=50001 features=50000\n", 0))
        size = os.path.getsize(path) / 1e6
        self.assertRegex(said, rf"^100 %  {size:.0f} of {size:.0f} MB, [0-9,]+ MB/s  {path}\n$")

    def test_wrong_words(self):
        for words, said in (
            ((), "Usage: "),
            (("chekc", "-"), "there is no command 'chekc'\n  tip: is check meant?\n"),
            (("",), "there is no command ''\nUsage: "),
            (("\udcff",), "there is no command '\\udcff'\n"),
            (("x\x1by",), "there is no command 'x\\u001by'\n"),
            (("check", "--id", "b", "-"), "there is no option --id\n"),
            (("check", "--x\x1by"), "there is no option --x\\u001by\n"),
            (("check", "-x"), "there is no option -x\n"),
            (("filter", "--id", "a", "--id", "b", "-"), "--id: it is given more than once\n"),
            (("check", "-q", "--quiet", "-"), "--quiet: it is given more than once\n"),
            (("check", "--json=yes", "-"), "--json: ignored explicit argument 'yes'\n"),
            (("check", "--jobs", "0", "-"), "--jobs: 0 is not from 1 to 4096\n"),
            (("check", "--jobs", "\u0663", "-"), "--jobs: '\u0663' is not a whole number\n"),
            (("check", "--line-limit", "0", "-"), "--line-limit: 0 is not from 1 to 1073741824\n"),
            (("check", "--line-limit", "2G", "-"), "2G is not from 1 to 1073741824\n"),
            (
                ("check", "--line-limit", "M", "-"),
                "--line-limit: 'M' is no number of bytes, such as 8M or 8388608\n",
            ),
            (("check", "--line-limit", "8 M", "-"), "bytes: write it as 8M or 8388608\n"),
            (("check", "--line-limit", "64MB", "-"), "bytes: write it as 64M or 67108864\n"),
            (("check", "--part-size", "3 kib", "-"), "bytes: write it as 3K or 3072\n"),
            (("check", "--line-limit", "1GB", "-"), "bytes: write it as 1G or 1073741824\n"),
            (("check", "--line-limit", "9GB", "-"), "bytes, such as 8M or 8388608\n"),
            (("check", "--line-limit", "8T", "-"), "bytes, such as 8M or 8388608\n"),
            (("check", "--line-limit", "-8M", "-"), "--line-limit: a value is missing\n"),
            (("check", "--line-limit=-8M", "-"), "bytes, such as 8M or 8388608\n"),
            (("check", "--depth", "x", "-"), "--depth: 'x' is not a whole number\n"),
            (("check", "--depth=", "-"), "--depth: '' is not a whole number\n"),
            (("check", "--depth", "9" * 30), f"{'9' * 30} is not from 1 to 1024\n"),
            (("check", "--depth"), "--depth: a value is missing\n"),
            (("check", "--depth", "-"), "--depth: '-' is not a whole number\n"),
            (("check", "--dep", "3", "-"), "there is no option --dep\n"),
            (("check", "--jsn", "-"), "there is no option --jsn\n  tip: is --json meant?\n"),
            (("check", "--format", "xml", "-"), "--format: 'xml' is not sarif\n"),
            (
                ("filter", "--bbox", "-5,0,5,9", "-"),
                "--bbox: a value is missing\n  tip: write a value that begins with a minus after an"
                " equals sign, such as --bbox=-5,0,5,9\n",
            ),
            (
                ("filter", "--type", "Bulding", "-"),
                "unknown object type: Bulding\n  tip: is 'Building' meant?\n",
            ),
            (("filter", "--type", "building", "-"), "tip: is 'Building' meant?\n"),
            (("filter", "--type", "x\x1by", "-"), "type: x\\u001by\n"),
            (("filter", "--bbox", "1,2,3", "-"), "bad box\n  tip: a box is minx,miny,maxx,maxy: "),
            (("info", "--keep-going", "-"), "there is no option --keep-going\n"),
            (("filter", "--bbox=3,0,1,1", "-"), "empty box\n  tip: a box is "),
            (("filter", "--bbox=1e18,0,2e18,0", "-"), "box number out of range\n  tip: a box is "),
            (("filter", "--bbox", "1,2,3"), "bad box\n"),
            (("explain", "x"), "explain takes a code"),
            (("explain", "25", "26"), "explain takes a code"),
            (("help", "chekc"), "tip: is check meant?\n"),
            (("check", "--resume", "x"), "--resume is for a --record"),
            (("check", "--record", "/dev/null", "-"), "standard input has no name"),
            (("check", "--record", "-", "x"), "a record is a file"),
            (("check", "-", "-"), "read once"),
            (("filter", "--ids-from", "-"), "read once"),
            (("filter", "--keep-folders", "x"), "--keep-folders is for --output-dir"),
            (("filter", "--level", "10", "x"), "--level: 10 is not from 1 to 9\n"),
            (("serve", "--processes", "3"), "there is no --processes: gunicorn runs"),
        ):
            output, told, status = command(*words, given=GOOD)
            self.assertEqual(
                (output, status, said in told, "Traceback" in told),
                (b"", 2, True, False),
                (words, told),
            )

    def test_options_stand_anywhere(self):
        good, broken = self.file(GOOD, "good.jsonl"), self.file(BROKEN, "broken.jsonl")
        wanted = command("check", "--jobs", "1", "--quiet", good, broken)
        self.assertEqual(wanted[2], 1)
        for words in (
            (good, "--jobs", "1", broken, "--quiet"),
            (good, "-j1", broken, "-q"),
            ("-qj", "1", good, broken),
            ("--jobs=1", good, "--quiet", "--", broken),
            (good, broken, "-q", "-j", "1"),
        ):
            self.assertEqual(command("check", *words), wanted, words)
        (self.folder / "-x").write_bytes(GOOD)
        self.assertEqual(
            command("check", "--", "-x", "--json", cwd=self.folder)[::2],
            (b"-x: valid lines=3 features=2\n", 3),
        )

    def test_short_options_and_sizes(self):
        output = self.folder / "out.jsonl"
        self.assertEqual(command("filter", "-o", output, "-", given=GOOD), (b"", "", 0))
        self.assertEqual(output.read_bytes(), GOOD)
        for size, number in (("1K", 1_024), ("1k", 1_024), ("8M", 8 << 20), ("1G", 1 << 30)):
            told = command("check", "--json", "--line-limit", size, "-", given=GOOD)[0]
            self.assertEqual(json.loads(told)["options"]["line_limit"], number)

    def test_help(self):
        for words in (("help",), ("--help",), ("-h",)):
            self.assertEqual(command(*words), (command("--help")[0], "", 0))
        for name in COMMANDS:
            output, said, status = command(name, "--help")
            self.assertEqual((output, said, status), (command("help", name)[0], "", 0))
            self.assertTrue(output.decode().startswith(COMMANDS[name].__doc__.split("\n")[0]))
            self.assertLess(max(map(len, output.decode().splitlines())), 160)
        self.assertEqual(command("-V"), (f"cityseq-run {cityseq.__version__}\n".encode(), "", 0))

    def test_help_has_the_name_that_was_called(self):
        for name, shown in (("cityseq-run", "cityseq-run"), ("cityseq", "cityseq"), ("x", None)):
            code = f"import sys; from cityseq.__main__ import run; sys.argv[0] = '/{name}'; run()"
            output = subprocess.run(
                [sys.executable, "-c", code, "check", "--help"],
                stdout=subprocess.PIPE,
                env={**os.environ, "PYTHONPATH": os.path.join(support.ROOT, "python")},
            ).stdout.decode()
            self.assertIn(f"Usage: {shown or 'cityseq-run'} check [OPTIONS] [FILE]...\n", output)
            self.assertIn(f"\n  {shown or 'cityseq-run'} check < town.city.jsonl\n", output)

    def test_help_is_in_plain_english(self):
        for name in (None, *COMMANDS):
            text = command(*([] if name is None else [name]), "--help")[0].decode()
            for phrase in ("not valid", "wanted", "asked for", "tells", "Refuse", "so many", "Say"):
                self.assertNotIn(phrase, text, name)
        text = command("--help")[0].decode()
        self.assertIn("A line is invalid. Standard error gives line, byte and reason.", text)

    @unittest.skipUnless(os.path.exists(support.PROGRAM), "the program is not built")
    def test_all_options_of_the_program_are_there(self):
        for name in ("check", "filter", "info"):
            ours = command(name, "--help")[0].decode()
            theirs = support.program(name, "--help")[0].decode()
            options = re.findall(r"^ +(--[a-z-]+(?: <[A-Z,]+>)?)  ", theirs, re.M)
            self.assertGreater(len(options), 2)
            self.assertEqual([each for each in options if f" {each}  " not in ours], [])

    def test_faults(self):
        none = self.folder / "none"
        self.assertEqual(
            command("check", none), (b"", f"{none}: read fault: No such file or directory\n", 3)
        )
        self.assertEqual(
            command("filter", "--ids-from", none, "-")[1],
            f"{none}: a list of ids: No such file or directory\n",
        )
        self.assertEqual(command("check", self.folder)[2], 3)
        good = self.file(GOOD)
        self.assertEqual(
            command("check", none, good)[::2], (f"{good}: valid lines=3 features=2\n".encode(), 3)
        )
        self.assertEqual(command("filter", "--output", self.folder, "-", given=GOOD)[::2], (b"", 4))

    def test_a_line_is_written_at_once(self):
        """A reader that goes away behind its end is no fault, also where Python keeps no buffer."""
        with mock.patch("sys.stdout") as output:
            put("a\nb")
        self.assertEqual(output.write.mock_calls, [mock.call("a\nb\n")])

    def test_many_reports(self):
        path = self.file(HEADER + b"[]\n" * 2_500, "a.jsonl")
        for most, told in ((None, 2_500), (3, 3), (0, 0), (2_500, 2_500)):
            words = () if most is None else ("--max-reports", str(most))
            said = command("check", "--keep-going", *words, path)[1]
            self.assertEqual(said.count("12 wrong kind"), told)
            self.assertEqual("more lines are invalid" in said, told < 2_500)
        said = command("check", "--keep-going", "--max-reports", "1", path, path)[1]
        self.assertEqual(said.count(f"{path}: 2,499 more lines are invalid"), 2)

    def test_a_summary(self):
        output, said, status = command(
            "check", "--keep-going", "--summary", example("delivery"), example("broken")
        )
        self.assertEqual(
            (output.count(b"\n"), said.splitlines(), status),
            (
                2,
                [
                    "      1 4 syntax",
                    "      1 10 member missing",
                    "      1 19 unknown object type",
                    "      3 25 vertex index out of range",
                ],
                1,
            ),
        )
        self.assertEqual(
            command("check", "--summary", given=BROKEN)[1], "      1 25 vertex index out of range\n"
        )

    def on_a_terminal(self, *words, **environment):
        """What the command says where standard error is a terminal."""
        import pty

        ours, theirs = pty.openpty()
        ran = subprocess.Popen(
            [sys.executable, "-m", "cityseq", *words],
            stdin=subprocess.DEVNULL,
            stdout=subprocess.DEVNULL,
            stderr=theirs,
            env={
                **os.environ,
                "PYTHONPATH": os.path.join(support.ROOT, "python"),
                "TERM": "xterm",
                "NO_COLOR": "",
                **environment,
            },
        )
        os.close(theirs)
        said = b""
        with contextlib.suppress(OSError):  # which is how a terminal ends
            while True:
                said += os.read(ours, 65_536)
        os.close(ours)
        ran.wait()
        return said.decode()

    def test_a_terminal(self):
        path = self.file(HEADER + b"[]\n" * 1_200)
        said = self.on_a_terminal("check", "--keep-going", path)
        self.assertEqual(
            (
                said.count("wrong kind"),
                said.count("\x1b[31m12 wrong kind\x1b[0m"),
                "200 more lines" in said,
            ),
            (1_000, 1_000, True),
        )
        for environment in ({"NO_COLOR": "1"}, {"TERM": "dumb"}):
            self.assertNotIn(
                "\x1b", self.on_a_terminal("check", "--keep-going", path, **environment)
            )

    def test_progress_on_a_terminal(self):
        """A bar of tqdm, and else a line."""
        path = self.file(HEADER + b"[]\n", "a.jsonl")
        (self.folder / "tqdm.py").write_text("raise ImportError")
        python = os.path.join(support.ROOT, "python")
        words = ("check", "--progress", "--keep-going", path, self.file(HEADER))
        said = self.on_a_terminal(*words, PYTHONPATH=f"{self.folder}:{python}")
        self.assertRegex(said, r"\n100 %  0 of 0 MB, [0-9,]+ MB/s  /.*/stream.city.jsonl\r\n$")
        self.assertEqual(said.count("wrong kind"), 1)
        if importlib.util.find_spec("tqdm") is None:
            self.skipTest("tqdm is not there")
        said = self.on_a_terminal(*words)
        self.assertRegex(said, r"100%.*B/s, .*stream\.city\.jsonl\]")
        self.assertEqual(said.count("wrong kind"), 1)

    def test_lists_of_files(self):
        good, broken = self.file(GOOD, "good.jsonl"), self.file(BROKEN, "a b.jsonl")
        wanted = command("check", good, broken)
        for text in (f"{good}\n{broken}\n", f"{good}\r\n\r\n{broken}", f"{good}\0{broken}\0"):
            self.assertEqual(
                command("check", "--files-from", self.file(text.encode(), "list")), wanted
            )
            self.assertEqual(command("check", "--files-from", "-", given=text.encode()), wanted)
        self.assertEqual(
            command("check", "--files-from", self.file(f"{broken}".encode(), "list"), good), wanted
        )
        self.assertEqual(command("check", "--files-from", self.file(b"", "list")), (b"", "", 0))
        self.assertEqual(command("check", "--files-from", self.folder / "none")[2], 2)

    def test_ids_by_standard_input(self):
        self.assertEqual(
            command("filter", "--ids-from", "-", self.file(GOOD), given=b"b\n"),
            (HEADER + feature("b", "Road"), "", 0),
        )

    def test_quiet(self):
        for words in (
            ("check", "--keep-going"),
            ("check",),
            ("check", "--summary", "--keep-going"),
        ):
            self.assertEqual(
                command(*words, "--quiet", example("delivery"), example("town")), (b"", "", 1)
            )
        self.assertEqual(command("info", "--quiet", example("town")), (b"", "", 0))
        self.assertEqual(
            command("check", "--quiet", self.folder / "none")[1:],
            (f"{self.folder}/none: read fault: No such file or directory\n", 3),
        )

    def test_reports_come_while_the_input_is_open(self):
        """So do those of a run by many threads."""
        for jobs in ("1", "4"):
            ran = subprocess.Popen(
                [sys.executable, "-m", "cityseq", "check", "--keep-going", "--jobs", jobs],
                stdin=subprocess.PIPE,
                stdout=subprocess.PIPE,
                stderr=subprocess.PIPE,
                env={**os.environ, "PYTHONPATH": os.path.join(support.ROOT, "python")},
            )
            with ran:
                for line in (2, 3):
                    ran.stdin.write((HEADER if line == 2 else b"") + b"[]\n")
                    ran.stdin.flush()
                    self.assertEqual(
                        ran.stderr.readline(), f"line {line}, byte 0: 12 wrong kind\n".encode()
                    )
                ran.stdin.close()
                self.assertEqual(ran.stdout.read(), b"invalid lines=3 features=0 refused=2\n")

    def told_on(self, stdout, stderr, *words):
        """The status of a run with these as its outputs, and what it says where that is kept."""
        ran = subprocess.run(
            [sys.executable, "-m", "cityseq", *words],
            input=GOOD,
            stdout=stdout,
            stderr=stderr,
            env={**os.environ, "PYTHONPATH": os.path.join(support.ROOT, "python")},
        )
        return ran.returncode, (ran.stderr or b"").decode()

    @unittest.skipUnless(os.path.exists("/dev/full"), "there is no device that is full")
    def test_outputs_that_are_full(self):
        with open("/dev/full", "wb") as full:
            for words in (
                ("check", "-"),
                ("filter", "-"),
                ("info", "-"),
                ("explain", "25"),
                ("check", "--json", "-"),
                ("--help",),
                ("filter", "--help"),
                ("check",),
                ("filter",),
            ):
                status, said = self.told_on(full, subprocess.PIPE, *words)
                self.assertEqual(
                    (status, "write fault" in said, "Traceback" in said), (4, True, False), words
                )
            for words, status in (
                (("check", "-"), 0),
                (("check", "--progress", self.file(BROKEN)), 1),
                (("check", "--depth", "0", "-"), 2),
                (("check", "/nowhere"), 3),
                (("check", "-x"), 2),
            ):
                self.assertEqual(self.told_on(subprocess.DEVNULL, full, *words)[0], status, words)


if __name__ == "__main__":
    unittest.main()
