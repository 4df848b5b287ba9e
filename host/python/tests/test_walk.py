"""The walk of host/examples, and its deck."""

from __future__ import annotations

import os
import shutil
import subprocess
import sys
import unittest

from .decks import LEG, PYTHON, ROOT


class Walk(unittest.TestCase):
    def test_it_prints_what_the_other_languages_print(self) -> None:
        command = [sys.executable, "examples/walk.py", "tests/data/leg.deck"]
        environment = {**os.environ, "PYTHONPATH": str(PYTHON)}
        done = subprocess.run(command, cwd=PYTHON, env=environment, capture_output=True, text=True)
        self.assertEqual((done.stderr, done.returncode), ("", 0))
        self.assertEqual(done.stdout, (ROOT / "host" / "examples" / "walk.txt").read_text())

    @unittest.skipUnless(shutil.which("cargo"), "no cargo to make the deck from its text")
    def test_the_stored_deck_is_what_the_text_makes(self) -> None:
        command = ["cargo", "run", "--quiet", "--release", "--offline", "--locked"]
        command += ["--manifest-path", str(ROOT / "host" / "Cargo.toml"), "-p", "rig"]
        command += ["--", "make", str(ROOT / "examples" / "leg" / "leg.txt")]
        done = subprocess.run(command, capture_output=True)
        self.assertEqual((done.stderr, done.returncode), (b"", 0))
        self.assertEqual(done.stdout, LEG)
