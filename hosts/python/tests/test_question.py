"""What a solver is asked: the terms of parts, the cells that may change, and whether a part holds."""

from __future__ import annotations

import random
import unittest
from typing import List

from cordbasin import Program, Tables
from desk.pieces import Part, parts_at
from desk.question import Cell, Question, after_identities, holds, parts_due, question, target_location
from tests.common import LEAST, MOST, Apart, files, is_true, left, readable, stopped

FIT = "(<= (- 2147483648) {} 2147483647)"


def asked(text: str) -> Question:
    """The question of the last statement of a text."""
    tables, word = stopped(text)
    return question(tables, after_identities(tables, word), word)


def required(text: str) -> List[str]:
    """The required terms of the last statement of a text."""
    return list(asked(text).required)


class Terms(unittest.TestCase):
    """Parts as terms."""

    def test_the_worked_sheet(self) -> None:
        told = asked("x := new {bytes: 64, samples: 16};\nalways required x.bytes = 4 * x.samples;\nx.samples := 32")
        self.assertEqual(told.cells, (Cell(64, 3, 64),))
        fits = FIT.format("(* 4 32)")
        self.assertEqual(told.required, (f"(and {fits} (= c64 (* 4 32)))",))
        self.assertEqual(told.wishes, [("keep", "(= c64 64)")])
        lines = told.stated.splitlines()
        self.assertEqual(lines[:2], ["(set-option :produce-models true)", "(set-logic QF_NIA)"])
        declared = ["(declare-const c64 Int)", f"(assert {FIT.format('c64')})", f"(assert {told.required[0]})"]
        self.assertEqual(lines[2:], declared)

    def test_each_result_on_the_way_fits(self) -> None:
        terms = required("a := 1; b := 2; once a + b * 3 - 4 < 0 - a")
        product, total = "(* c1 3)", "(+ c0 (* c1 3))"
        results = [product, total, f"(- {total} 4)", "(- 0 c0)"]
        fits = " ".join(FIT.format(result) for result in results)
        self.assertEqual(terms, [f"(and {fits} (< (- {total} 4) (- 0 c0)))"])

    def test_every_operator(self) -> None:
        signs = (("<", "<"), ("<=", "<="), ("=", "="), ("!=", "distinct"), (">=", ">="), (">", ">"))
        for typed, sign in signs:
            self.assertEqual(required(f"a := 1; b := 1; once a {typed} b"), [f"({sign} c0 c1)"])
        self.assertEqual(required("a := true; once a and false or a"), ["(or (and c0 false) c0)"])
        self.assertEqual(required("a := true; b := true; once a != b"), ["(distinct c0 c1)"])

    def test_booleans(self) -> None:
        told = asked("a := true; b := 1; once a = (b > 2)")
        self.assertEqual(told.required, ("(= c0 (> c1 2))",))
        self.assertEqual(
            [(cell.symbol, cell.sort, cell.keeps) for cell in told.cells],
            [("c0", "Bool", "(= c0 true)"), ("c1", "Int", "(= c1 1)")],
        )
        self.assertIn("(declare-const c0 Bool)\n(declare-const c1 Int)\n", told.stated)
        self.assertNotIn("2147483647 c0", told.stated)
        self.assertEqual(required("a := true; once a"), ["c0"])
        self.assertEqual(required("once true"), ["true"])

    def test_negative_literals(self) -> None:
        self.assertEqual(required("a := -7; once a = -2147483648"), ["(= c0 (- 2147483648))"])
        self.assertEqual(asked("a := -7; once a = 0").wishes, [("keep", "(= c0 (- 7))")])

    def test_nil(self) -> None:
        self.assertEqual(required("a := nil; b := nil; once a = b"), ["true"])
        self.assertEqual(required("a := nil; once nil != a"), ["false"])
        told = asked("a := nil; b := 1; once a = nil and b = 2")
        self.assertEqual((told.required, [cell.location for cell in told.cells]), (("(and true (= c1 2))",), [1]))

    def test_priorities(self) -> None:
        told = asked("a := 1; once weak a = 2 /\\ required a > 0 /\\ medium a = 3 /\\ weak a = 4")
        self.assertEqual(told.required, ("(> c0 0)",))
        wishes = [("medium", "(= c0 3)"), ("weak", "(= c0 2)"), ("weak", "(= c0 4)"), ("keep", "(= c0 1)")]
        self.assertEqual(told.wishes, wishes)

    def test_the_targets_cell_is_a_constant(self) -> None:
        told = asked("a := 1; b := 1; always a = b; a := 5")
        self.assertEqual((told.required, told.cells), (("(= 5 c1)",), (Cell(1, 3, 1),)))
        field = asked("x := new {n: 1}; y := x; b := 1; always y.n = b; x.n := -5")
        self.assertEqual((field.required, field.cells), (("(= (- 5) c2)",), (Cell(2, 3, 1),)))

    def test_a_statement_without_a_target(self) -> None:
        tables, word = stopped("a := 1; always a > 0; once a = 5")
        self.assertIsNone(target_location(tables, word))
        self.assertEqual([part.text for part in parts_due(tables, word)], ["a > 0", "a = 5"])
        tables, word = stopped("a := 1; always a > 0; x := new {n: 1}")
        self.assertEqual((target_location(tables, word), len(parts_due(tables, word))), (1, 1))


class AfterIdentities(unittest.TestCase):
    """The state in which a proposal is judged."""

    TEXT = "core := new {n: 1}; log := new {core: core, n: 1}; always log.core == core; always log.core.n = log.n; "

    def test_a_new_record_is_in_it(self) -> None:
        tables, word = stopped(self.TEXT + "core := new {n: 7}")
        state = after_identities(tables, word)
        self.assertEqual((state["core"], state["log.core"], state["core.n"]), (state["log.core"], state["core"], 7))
        self.assertEqual((state.kept, state.identities), (tables.kept, tables.identities))
        self.assertEqual((tables.records, state.records), (2, 3))
        told = question(tables, state, word)
        self.assertEqual((told.required, [cell.location for cell in told.cells]), (("(= c80 c73)",), [73, 80]))

    def test_a_target_in_another_record_moves_with_it(self) -> None:
        spare = "spare := new {n: 7}; "
        tables, word = stopped(self.TEXT + spare + "log.core := spare")
        state = after_identities(tables, word)
        self.assertEqual(
            (state["core"], state["log.core"], tables["core"] == state["core"]), (state["spare"], state["spare"], False)
        )
        self.assertEqual(target_location(tables, word), 72)
        self.assertEqual(question(tables, state, word).required, ("(= c80 c73)",))

    def test_a_constraint_moves_nothing(self) -> None:
        tables, word = stopped("a := 1; once a = 5")
        self.assertEqual(after_identities(tables, word), tables)

    def test_the_target_itself(self) -> None:
        tables, word = stopped("a := 1; always a < 5; a := a + 9")
        state = after_identities(tables, word)
        self.assertEqual((tables["a"], state["a"], state.kept), (1, 10, tables.kept))


class Holds(unittest.TestCase):
    """Whether a part is satisfied, by the proved run, against a reckoning of the tests' own."""

    def part(self, tables: Tables, text: str) -> Part:
        """A part over the names of tables."""
        program = Program.read(tables.program.text.decode() + f"; once {text}")
        return parts_at(program, Apart(program.words).statements[-1].word)[0]

    def test_expected_truth(self) -> None:
        tables = left(f"a := {MOST}; b := {LEAST}; on := true; none := nil; x := new {{n: 3}}", [0] * 5)
        cases = (
            ("a + 1 > 0", False),
            ("a + 1 < 0", False),
            ("a - 1 > 0", True),
            ("b - 1 < 0 or true", False),
            ("a * 2 = a * 2", False),
            ("a + 1 - 1 = a", False),
            ("a - 1 + 1 = a", True),
            ("a + b = -1", True),
            ("b * -1 = b", False),
            ("on and x.n = 3", True),
            ("on = false", False),
            ("none = nil", True),
            ("none != nil", False),
            ("false", False),
            ("65536 * 32768 = 0 or on", False),
            ("-65536 * 32768 = b", True),
        )
        for text, expected in cases:
            with self.subTest(text):
                part = self.part(tables, text)
                self.assertEqual((holds(tables, part), is_true(tables, part.words)), (expected, expected))

    def test_the_tables_stay_and_kept_parts_do_not_count(self) -> None:
        tables = left("a := 1; always a = 1; b := 2", [0] * 3)
        tables.environment[1] = 5
        before = tables.copy()
        self.assertTrue(holds(tables, self.part(tables, "a = 5")))
        self.assertFalse(holds(tables, self.part(tables, "a = 1")))
        self.assertEqual(tables, before)

    def test_every_part_of_the_sheets_with_other_numbers(self) -> None:
        chance, told = random.Random(9), []
        for path in files("text", "000", "outcomes") + files("sheet"):
            program = readable(path)
            assert program is not None
            tables = left(program.text.decode(), [0] * 20)
            for position in tables.kept:
                for part in parts_at(program, position):
                    told += [self.agrees(tables.copy(), part, chance) for _ in range(5)]
        self.assertGreater(len(told), 300)
        self.assertGreater(sum(told), 20)

    def agrees(self, tables: Tables, part: Part, chance: random.Random) -> bool:
        """Compares the truth of a part after integers were changed by chance."""
        for location in tables.locations():
            if tables.cell(location)[0] == 3 and chance.random() < 0.3:
                table, at = (
                    (tables.environment, 2 * location + 1)
                    if location < 64
                    else (tables.heap, 4 + 25 * ((location - 64) // 8) + 3 * (location % 8))
                )
                table[at] = chance.choice((0, 1, 4, 16, 64, 1000, MOST, LEAST, MOST // 4 + 1))
        expected = is_true(tables, part.words)
        self.assertEqual(holds(tables, part), expected, part.text)
        return expected
