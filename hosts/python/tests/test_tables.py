"""Tables: read by name, as JSON, copied, compared, and with words that are unfit."""

from __future__ import annotations

import json
import unittest
from array import array

from cordbasin import Kind, Program, Reference, Tables
from tests.common import K1, LEAST, MOST, SHEET, left

RECORDS = "low := new {offset: -5, next: nil, full: false}; top := new {offset: 7, next: low, full: true}"
CHAIN = RECORDS + "; none := nil; late := 1"


class ByName(unittest.TestCase):
    """Cells by the names of the program."""

    def setUp(self) -> None:
        self.tables = left(CHAIN, [0] * 3)

    def test_values(self) -> None:
        read = {path: self.tables[path] for path in ("low", "top.next", "none", "low.next", "top.full")}
        self.assertEqual(
            read, {"low": Reference(0), "top.next": Reference(0), "none": None, "low.next": None, "top.full": True}
        )
        self.assertEqual((self.tables["top.next.offset"], self.tables["top.next.full"]), (-5, False))
        self.assertEqual(str(self.tables["top"]), "record 1")

    def test_paths_that_lead_nowhere(self) -> None:
        for path, says in (
            ("late", "leads to no cell"),
            ("none.offset", "leads to no cell"),
            ("top.next.next.offset", "leads to no cell"),
            ("top.offset.next", "leads to no cell"),
            ("late.next", "leads to no cell"),
            ("box", "no variable box"),
            ("top.box", "no label box"),
            ("offset", "no variable offset"),
            ("", "no variable"),
        ):
            with self.subTest(path), self.assertRaisesRegex(KeyError, says):
                self.tables[path]
            self.assertNotIn(path, self.tables)
        self.assertIn("top.next.offset", self.tables)
        self.assertNotIn(5, self.tables)

    def test_cells_by_location(self) -> None:
        self.assertEqual(self.tables.cell(0), (Kind.REFERENCE, 0))
        self.assertEqual((self.tables.cell(64), self.tables.cell(66)), ((Kind.INTEGER, -5), (Kind.BOOLEAN, 0)))
        self.assertEqual(self.tables.cell(3), (Kind.ABSENT, 0))
        self.assertEqual(list(self.tables.locations()), [0, 1, 2, 64, 65, 66, 72, 73, 74])
        self.assertEqual(self.tables.fields(1), [(0, 72), (1, 73), (2, 74)])
        self.assertEqual((self.tables.location([1, 1, 0]), self.tables.location([3])), (64, None))

    def test_the_last_cells_of_all(self) -> None:
        names = [f"v{number}" for number in range(64)]
        fields = ", ".join(f"f{number}: {number}" for number in range(8))
        tables = left("; ".join(f"{name} := new {{{fields}}}" for name in names), [0] * 64)
        self.assertEqual((tables.records, tables["v63"], tables["v63.f7"]), (64, Reference(63), 7))
        self.assertEqual(list(tables.locations()), list(range(64 + 8 * 64)))


class Whole(unittest.TestCase):
    """Tables as a whole."""

    def test_plain(self) -> None:
        tables = left(CHAIN + "; always top == top; always low.offset < 0", [0] * 5)
        plain = tables.plain()
        self.assertEqual(json.loads(json.dumps(plain)), plain)
        self.assertEqual(plain["variables"], {"low": {"record": 0}, "top": {"record": 1}, "none": None, "late": 1})
        first = {"offset": -5, "next": None, "full": False}
        self.assertEqual(plain["records"], [first, {"offset": 7, "next": {"record": 0}, "full": True}])
        self.assertEqual((plain["kept"], plain["identities"]), (tables.kept, tables.identities))
        self.assertEqual((len(tables.kept), len(tables.identities)), (1, 1))
        self.assertEqual(Tables(tables.program).plain(), {"variables": {}, "records": [], "kept": [], "identities": []})

    def test_words_go_round(self) -> None:
        tables = left(SHEET, K1)
        stored = json.loads(json.dumps([list(tables.environment), list(tables.heap), list(tables.constraints)]))
        other = Tables(tables.program)
        other.environment, other.heap, other.constraints = (array("i", words) for words in stored)
        self.assertEqual(other, tables)
        self.assertEqual(str(other), "v0=ref 0\nr0=2\nr0.0=int 128\nr0.1=int 32\nc0=10\n")

    def test_a_copy_is_its_own(self) -> None:
        tables = left(SHEET, K1)
        for name in ("environment", "heap", "constraints"):
            other = tables.copy()
            self.assertEqual(other, tables)
            getattr(other, name)[0] += 1
            self.assertNotEqual(other, tables)
        self.assertNotEqual(tables, Tables(tables.program))
        self.assertNotEqual(tables, str(tables))

    def test_keeping_no_values(self) -> None:
        tables = left("x := nil; always x == x; always true; always true", [0] * 3)
        self.assertEqual((len(tables.kept), len(tables.identities)), (2, 1))
        identities = tables.identities
        tables.keep_no_values()
        self.assertEqual((tables.kept, tables.identities), ([], identities))
        self.assertEqual(sum(1 for word in tables.constraints if word), 2)


class Unfit(unittest.TestCase):
    """Words that no run takes, and words that the program has no names for."""

    def test_unfit_words_are_absent(self) -> None:
        for word in (LEAST, -1, 2, 5, 65, MOST):
            with self.subTest(word):
                tables = Tables(Program.read("x := new {a: 1}"))
                for table in (tables.environment, tables.heap, tables.constraints):
                    table[:] = array("i", [word] * len(table))
                self.assertLessEqual(str(tables).count("\n"), 64 + 64 * 9 + 96)
                self.assertNotIn("x", tables)
                self.assertNotIn("x.a", tables)
                json.dumps(tables.plain())

    def test_each_unfit_cell(self) -> None:
        tables = left("x := new {a: 1}; y := 1", [0, 0])
        for kind, payload in ((0, 1), (1, 1), (2, 2), (2, -1), (4, 1), (4, -1), (5, 0), (-1, 0)):
            tables.environment[2:4] = array("i", [kind, payload])
            tables.heap[3:5] = array("i", [kind, payload])
            with self.subTest(f"{kind} {payload}"):
                self.assertEqual((tables.cell(1), tables.cell(64)), ((0, 0), (0, 0)))
                self.assertEqual(str(tables), "v0=ref 0\nr0=0\n")

    def test_words_without_names(self) -> None:
        tables = Tables(Program.read("skip"))
        other = left("x := new {a: 1, b: nil}; y := x", [0, 0])
        tables.environment, tables.heap = other.environment, other.heap
        self.assertEqual(tables.plain()["variables"], {"v0": {"record": 0}, "v1": {"record": 0}})
        self.assertEqual(tables.plain()["records"], [{"f0": 1, "f1": None}])
