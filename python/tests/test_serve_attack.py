"""The server: all bad requests of the script of the repository, which has its own server."""
import os
import subprocess
import sys
import unittest

from .serving import MISSING
from .support import ROOT


@unittest.skipIf(MISSING, MISSING)
class Attack(unittest.TestCase):
    def test_bad_requests(self):
        attack = os.path.join(ROOT, "tests", "faults", "serve_attack.py")
        words = [sys.executable, attack, sys.executable]
        ran = subprocess.run(words, stdout=subprocess.PIPE, stderr=subprocess.STDOUT, timeout=300)
        self.assertRegex(ran.stdout.decode(), r"\d{3} passed, 0 failed\n\Z")
        self.assertEqual(ran.returncode, 0)
