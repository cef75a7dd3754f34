"""What docs/DESK.md shows of Python and of a question is so."""

from __future__ import annotations

import doctest
import pathlib
import re
import unittest

from cordbasin import Program, Tables, run
from desk.question import after_identities, question

ROOT = pathlib.Path(__file__).resolve().parents[3]
PAGE = ROOT / "docs" / "DESK.md"


class Page(unittest.TestCase):
    def test_python(self) -> None:
        told = doctest.testfile(str(PAGE), module_relative=False)
        self.assertGreater(told.attempted, 5)
        self.assertEqual(told.failed, 0)

    def test_question(self) -> None:
        """The last statement of the core sheet, which a run stops at with no proposal for it."""
        program = Program.read((ROOT / "sheets" / "desk" / "core.sheet").read_bytes())
        tables = Tables(program)
        word = run(program, tables, [0, 0], 100).place
        asked = question(tables, after_identities(tables, word), word)
        shown = re.search(r"(?:    \(.*\n)+", PAGE.read_text())
        self.assertIsNotNone(shown)
        self.assertEqual(shown and re.sub("(?m)^    ", "", shown[0]), asked.stated)
        self.assertIn(f"(assert-soft {asked.wishes[-1][1]} :weight 1 :id {asked.wishes[-1][0]})", PAGE.read_text())


if __name__ == "__main__":
    unittest.main()
