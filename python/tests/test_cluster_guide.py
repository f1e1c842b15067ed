"""What the guide and the examples say about many machines, followed in an empty folder."""
import contextlib
import os
import random
import re
import shutil
import socket
import subprocess
import sys
import unittest

from .clusters import HOST, WORDS, distributed, listening
from .support import ROOT, InFolder

MANIFEST = "_manifest.json"


def free_port():
    """A port that nothing listens at, and which the system gives to no connection."""
    while True:
        with contextlib.suppress(OSError), socket.socket() as found:
            found.bind((HOST, random.randrange(20_000, 32_000)))
            return found.getsockname()[1]


def of_session(leader):
    """The processes of a session that can be looked at."""
    import psutil

    for each in psutil.process_iter():
        with contextlib.suppress(psutil.Error, ProcessLookupError):
            if os.getsid(each.pid) == leader:
                yield each


def blocks_of(path, heading=None):
    """The indented blocks of a page, or of one chapter of it."""
    with open(path, encoding="utf-8") as file:
        text = file.read()
    if heading is not None:
        text = text.partition(f"\n## {heading}\n")[2].partition("\n## ")[0]
    found = re.findall(r"(?:^    .*\n|^\n(?=    ))+", text, re.M)
    return [re.sub(r"^    ", "", block, flags=re.M).strip("\n") for block in found]


@unittest.skipIf(
    distributed is None or shutil.which("dask") is None, "distributed or dask is not there"
)
class Followed(InFolder):
    """Each runs commands of a page, with a port and names that are free here."""

    def setUp(self):
        super().setUp()
        bin_folder = self.folder / "bin"
        bin_folder.mkdir()
        command = bin_folder / "cityseq-run"
        command.write_text(f'#!/bin/sh\nexec {sys.executable} -W ignore -m cityseq "$@"\n')
        (bin_folder / "python3").symlink_to(sys.executable)
        command.chmod(0o755)
        self.room = self.folder / "room"
        self.room.mkdir()
        self.settings = {
            **os.environ,
            "PATH": f"{bin_folder}:{os.environ['PATH']}",
            "PYTHONPATH": os.path.join(ROOT, "python"),
            "CITYSEQ": ROOT,
            "DASK_DISTRIBUTED__DASHBOARD__LINK": "",
            "DASK_DISTRIBUTED__COMM__TIMEOUTS__CONNECT": "120s",  # on a machine with other work
        }
        self.port = str(free_port())

    def run_all(self, text):
        """Runs commands in the empty folder, and ends what they leave. Returns what they say."""
        wait = "until (exec 3<>/dev/tcp/127.0.0.1/8786) 2> /dev/null; do sleep 0.2; done\n"
        text = text.replace(" &\n", f" &\n{wait}", 1)
        script = f"trap 'echo end' EXIT\nset -e\n{text.replace('8786', self.port)}\n"
        ran = subprocess.Popen(
            ["bash", "-c", script],
            cwd=self.room,
            env=self.settings,
            stdout=subprocess.PIPE,
            stderr=subprocess.STDOUT,
            start_new_session=True,
        )
        log = []
        try:
            for line in ran.stdout:
                log.append(line.decode())
                if log[-1] == "end\n":
                    break
            self.assertLessEqual(listening(of_session(ran.pid)), {HOST})
        finally:
            subprocess.run(["pkill", "-KILL", "-s", str(ran.pid)], check=False)
            ran.stdout.close()
            ran.wait()
        said = "".join(log)
        return said

    def test_the_chapter_of_the_guide(self):
        blocks = blocks_of(os.path.join(ROOT, "docs", "GUIDE.md"), "On many machines")
        start, copy, commands, script, again, memory = blocks
        self.assertIn("import cityseq.dask", script)
        self.assertIn("part_size", memory)
        (self.room / "many.py").write_text(script.replace("8786", self.port))
        said = self.run_all("\n".join((start, copy, commands, again)))
        self.assertIn("valid lines=121 features=120\n", said)
        self.assertIn("region.city.jsonl 0 120\n", said)
        whole = self.room / "buildings.city.jsonl"
        self.assertEqual(whole.read_bytes().count(b"\n"), 121)
        names = {"many.py", "region.city.jsonl", "region.gpkg", "buildings.city.jsonl", "buildings"}
        self.assertLessEqual(names, set(os.listdir(self.room)))
        self.assertIn(MANIFEST, os.listdir(self.room / "buildings"))

    def test_workers_by_hand_and_by_the_unit(self):
        folder = os.path.join(ROOT, "examples", "cluster")
        by_hand, _ = blocks_of(os.path.join(folder, "README.md"))
        scheduler, worker = by_hand.replace("scheduler:", "127.0.0.1:").split("\n")
        with open(os.path.join(folder, "cityseq-worker@.service"), encoding="utf-8") as file:
            unit = re.search(r"^ExecStart=(.*)$", file.read(), re.M)[1]
        for name, value in (
            ("${SCHEDULER}", "tcp://127.0.0.1:8786"),
            ("${MEMORY}", "1GB"),
            ("${STATE_DIRECTORY}", str(self.folder)),
            ("%H-%i", "host-1"),
        ):
            self.assertIn(name, unit)
            unit = unit.replace(name, value)
        shutil.copy(os.path.join(ROOT, "examples", "town.city.jsonl"), self.room)
        loopback = " ".join(WORDS)  # the pages are about many machines
        for begin in (worker, unit):
            check = "cityseq-run check --cluster tcp://127.0.0.1:8786 town.city.jsonl"
            begun = f"{scheduler} {loopback} &\n{begin} {loopback} &\n"
            said = self.run_all(f"{begun}{check} || {{ sleep 5; {check}; }}")
            self.assertIn("valid lines=5 features=4\n", said)
            self.port = str(free_port())

    def test_a_delivery(self):
        script = os.path.join(ROOT, "examples", "cluster", "deliver.py")
        said = self.run_all(f"python3 -W ignore {script} delivery 120")
        self.assertIn("120 files are checked: 2400 features, 0 invalid files", said)
        self.assertRegex(said, r"a folder that the workers wrote has (\d+) features, and \1 again")
        self.assertIn(MANIFEST, os.listdir(self.room / "delivery" / "buildings"))


if __name__ == "__main__":
    unittest.main()
