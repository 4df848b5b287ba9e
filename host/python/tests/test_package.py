"""The package itself: what pip gets from the backend, and the program of the page."""

from __future__ import annotations

import base64
import contextlib
import csv
import doctest
import hashlib
import io
import os
import re
import subprocess
import sys
import tarfile
import tempfile
import unittest
import zipfile
from pathlib import Path
from unittest import mock

import build_backend
import reaction
from reaction import deck, library, refusals

from .decks import PYTHON, ROOT


def built(build: str) -> bytes:
    """The file that one of the backend's functions writes."""
    with tempfile.TemporaryDirectory() as folder:
        name = getattr(build_backend, build)(folder)
        return Path(folder, name).read_bytes()


def digest(content: bytes) -> str:
    return "sha256=" + base64.urlsafe_b64encode(hashlib.sha256(content).digest()).rstrip(b"=").decode()


class Wheel(unittest.TestCase):
    def test_its_record_is_right(self) -> None:
        with zipfile.ZipFile(io.BytesIO(built("build_wheel"))) as wheel:
            files = {name: wheel.read(name) for name in wheel.namelist()}
        record = f"{build_backend.INFO}/RECORD"
        rows = {row[0]: row[1:] for row in csv.reader(files[record].decode().splitlines())}
        expected = {name: [digest(content), str(len(content))] for name, content in files.items()}
        self.assertEqual(rows, {**expected, record: ["", ""]})
        self.assertTrue(files["reaction/libreaction.so"].startswith(b"\x7fELF"))
        self.assertIn("reaction/py.typed", files)

    def test_the_same_sources_make_the_same_bytes(self) -> None:
        for build in ("build_wheel", "build_sdist"):
            self.assertEqual(built(build), built(build))

    def test_it_is_described_beforehand(self) -> None:
        with tempfile.TemporaryDirectory() as folder:
            info = Path(folder, build_backend.prepare_metadata_for_build_wheel(folder))
            text = (info / "METADATA").read_text("utf-8")
        self.assertIn(f"\nName: reaction\nVersion: {reaction.__version__}\n", text)
        self.assertIn("\nRequires-Python: >=3.9\n", text)

    def test_a_source_distribution_has_the_archive(self) -> None:
        with tarfile.open(fileobj=io.BytesIO(built("build_sdist"))) as sdist:
            archive = sdist.extractfile(f"{build_backend.NAME}/archive/libreaction.a")
            self.assertEqual(archive.read(), build_backend.archive().read_bytes())


class Failures(unittest.TestCase):
    def ends_with(self, message: str, **environment: str) -> None:
        with tempfile.TemporaryDirectory() as folder, mock.patch.dict(os.environ, environment):
            with self.assertRaisesRegex(SystemExit, message):
                build_backend.make_shared_object(Path(folder, "made.so"))

    def test_no_compiler(self) -> None:
        self.ends_with("There is no C compiler no-such-compiler: install one", CC="no-such-compiler")

    def test_a_compiler_that_fails(self) -> None:
        self.ends_with("^\nfalse -shared -o .* failed:", CC="false")

    def test_no_archive(self) -> None:
        message = "There is no archive of the engine, neither nowhere/libabi.a nor nowhere/libreaction.a"
        self.ends_with(message, REACTION_ARCHIVE_DIR="nowhere")

    def test_another_machine(self) -> None:
        with mock.patch("platform.machine", return_value="aarch64"):
            self.ends_with("The archive is for x86-64 Linux, and this is aarch64")

    def test_no_shared_object(self) -> None:
        environment = {**os.environ, "REACTION_LIBRARY": "nowhere.so"}
        command = [sys.executable, "-c", "import reaction"]
        done = subprocess.run(command, cwd=PYTHON, env=environment, capture_output=True, text=True)
        self.assertIn("ImportError: the engine's shared object nowhere.so is missing", done.stderr)


class Archive(unittest.TestCase):
    def test_the_named_folder_goes_before_all(self) -> None:
        with mock.patch.dict(os.environ, REACTION_ARCHIVE_DIR=str(ROOT / "dist")):
            self.assertEqual(build_backend.archive(), ROOT / "dist" / "libreaction.a")

    def test_the_enclosed_one_then_the_built_one_then_the_stored_one(self) -> None:
        rising = ("dist/libreaction.a", "crates/abi/out/libabi.a", "host/python/archive/libreaction.a")
        with tempfile.TemporaryDirectory() as folder, mock.patch.dict(os.environ):
            os.environ.pop("REACTION_ARCHIVE_DIR", None)
            for path in rising:
                Path(folder, path).parent.mkdir(parents=True)
                Path(folder, path).touch()
                with mock.patch.object(build_backend, "HERE", Path(folder, "host", "python")):
                    self.assertEqual(build_backend.archive(), Path(folder, path))


class Page(unittest.TestCase):
    def test_its_programs_run(self) -> None:
        page = (PYTHON / "README.md").read_text("utf-8")
        programs = re.findall(r"^```python\n(.*?)^```$", page, re.MULTILINE | re.DOTALL)
        printed = re.findall(r"^```\n(charge.*?)^```$", page, re.MULTILINE | re.DOTALL)
        out = io.StringIO()
        with contextlib.redirect_stdout(out):
            names: dict = {}
            for program in programs:
                exec(program, names)
        self.assertEqual((len(programs), [out.getvalue()]), (3, printed))

    def test_the_examples_of_the_modules_run(self) -> None:
        for module in (deck, refusals):
            done = doctest.testmod(module)
            self.assertEqual((done.failed, done.attempted > 0), (0, True))


class Header(unittest.TestCase):
    def test_the_numbers_are_those_of_the_header(self) -> None:
        header = (ROOT / "include" / "reaction.h").read_text()
        numbers = dict(re.findall(r"^ +REACTION_(\w+) = (\d+)", header, re.MULTILINE))
        named = {name: str(number) for number, name, _ in refusals.REFUSALS}
        self.assertEqual({name: numbers.get(name) for name in named}, named)
        constants = {name: number for name, number in numbers.items() if name not in named}
        self.assertEqual({name: str(getattr(library, name)) for name in constants}, constants)
        self.assertEqual(len(constants), 7)
