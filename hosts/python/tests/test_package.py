"""The package as a whole: its library, its example, and which Python it asks for."""

from __future__ import annotations

import ast
import doctest
import os
import pathlib
import subprocess
import sys
import tempfile
import unittest
from typing import Dict

import cordbasin
from cordbasin import Outcome
from cordbasin.library import PLACE
from tests.common import ROOT

PYTHON = ROOT / "hosts" / "python"


class Missing(unittest.TestCase):
    """CORDBASIN_LIBRARY names what is no library."""

    def told(self, place: str) -> str:
        """What is said where a program is read with another library."""
        environment: Dict[str, str] = {**os.environ, "CORDBASIN_LIBRARY": place, "PYTHONPATH": str(PYTHON)}
        lines = "import cordbasin\ntry:\n    cordbasin.Program.read('skip')\n    print('read')\n"
        lines += "except cordbasin.LibraryMissing as fault:\n    print(fault)\n"
        done = subprocess.run(
            [sys.executable, "-c", lines], env=environment, stdout=subprocess.PIPE, stderr=subprocess.STDOUT
        )
        self.assertEqual(done.returncode, 0, done.stdout)
        return done.stdout.decode().rstrip("\n")

    def test_no_file(self) -> None:
        with tempfile.TemporaryDirectory() as folder:
            place = os.path.join(folder, "none.so")
            self.assertEqual(self.told(place), f"{place} is missing: tools/native --shared cordbasin writes it")
            self.assertTrue(self.told(folder).startswith(f"{folder} is missing: "))

    def test_no_library(self) -> None:
        with tempfile.TemporaryDirectory() as folder:
            place = pathlib.Path(folder) / "text.so"
            place.write_text("no library")
            told = self.told(str(place))
        self.assertTrue(told.startswith(f"{place} is no library of Cordbasin's: "), told)
        self.assertEqual(told.count("\n"), 0)

    def test_a_library_of_others(self) -> None:
        import _ctypes

        place = getattr(_ctypes, "__file__", None)
        if place is None:
            self.skipTest("left out: this Python has no library of its own to show")
        told = self.told(place)
        self.assertTrue(told.startswith(f"{place} is no library of Cordbasin's: "), told)
        self.assertIn("cordbasin_read", told)

    def test_the_library_by_its_name(self) -> None:
        self.assertEqual(self.told(os.environ.get("CORDBASIN_LIBRARY", str(PLACE))), "read")


class Sources(unittest.TestCase):
    """What stands in the sources."""

    def test_the_example(self) -> None:
        told = doctest.testmod(cordbasin, verbose=False)
        self.assertEqual(told.failed, 0)
        self.assertGreater(told.attempted, 5)

    def test_every_module_is_python_3_9(self) -> None:
        modules = [path for folder in ("cordbasin", "desk", "tests") for path in sorted((PYTHON / folder).glob("*.py"))]
        self.assertGreater(len(modules), 20)
        for module in modules:
            with self.subTest(module.name):
                ast.parse(module.read_text(), str(module), feature_version=(3, 9))

    def test_what_is_exported_is_there(self) -> None:
        for name in cordbasin.__all__:
            self.assertTrue(hasattr(cordbasin, name), name)

    def test_outcomes_have_their_numbers(self) -> None:
        self.assertEqual([outcome.value for outcome in Outcome], list(range(26)))
        self.assertTrue(all(outcome.says for outcome in Outcome))
        header = (ROOT / "hosts" / "c" / "cordbasin.h").read_text()
        for outcome in Outcome:
            self.assertIn(f"CORDBASIN_{outcome.name} = {outcome.value}", header)
