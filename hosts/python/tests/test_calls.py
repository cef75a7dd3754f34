"""Runs, lists and askings: every sheet of numbers, and what a host may hand over."""

from __future__ import annotations

import pathlib
import threading
import unittest
from array import array
from typing import Callable, Dict, List, Tuple

from cordbasin import Entry, Outcome, Program, Tables, ask, assign, run
from cordbasin.calls import ask_words, assign_words, run_words
from tests.common import K1, LEAST, MOST, P, SHEET, Listed, files, is_listed, left, numbers, title

LENGTHS = (128, 1601, 98)
State = Tuple["array[int]", "array[int]", "array[int]"]
Lengths = Tuple[int, int, int]


def fresh(lengths: Lengths = LENGTHS) -> State:
    """Three tables that are all zero, of these lengths or of the right ones."""
    environment, heap, constraints = (array("i", [0] * length) for length in lengths)
    return environment, heap, constraints


class Lister(unittest.TestCase):
    """Every lister sheet that the lister takes prints as its .out says."""

    def test_every_sheet(self) -> None:
        paths = [path for path in files("in", "k", "000", "outcomes", "printing") if is_listed(path)]
        self.assertGreater(len(paths), 150)
        for path in paths:
            with self.subTest(title(path)):
                self.assertEqual(self.listed(path), path.with_suffix(".out").read_text())

    def listed(self, path: pathlib.Path) -> str:
        """What the lister would print, by run where the sheet has a text, else by run_words."""
        sheet, text = Listed.of(path), path.with_suffix(".text")
        program = Program.read(text.read_bytes() if text.exists() else b"")
        tables = Tables(program)
        if text.exists():
            self.assertEqual(list(program.words), sheet.program)
            answer = run(program, tables, sheet.proposals, sheet.budget)
            told = [answer.outcome.value, answer.place, answer.steps, answer.accepted]
        else:
            lent = (tables.environment, tables.heap, tables.constraints)
            told = list(run_words(sheet.program, *lent, sheet.proposals, sheet.budget)[:4])
        return "outcome={}\nplace={}\nsteps={}\nproposals={}\n".format(*told) + str(tables)


def _tables(typed: List[str]) -> State:
    """The three tables of a batch sheet; F is a fresh one."""
    told = zip(typed, LENGTHS)
    environment, heap, constraints = (array("i", [0] * size if name == "F" else numbers(name)) for name, size in told)
    return environment, heap, constraints


class Batch(unittest.TestCase):
    """Every batch sheet: runs, lists and askings on any words and any tables."""

    def test_every_line(self) -> None:
        sorts: Dict[str, int] = {}
        for path in files("txt"):
            lines = path.read_text().splitlines()
            for at in range(0, len(lines), 3):
                with self.subTest(f"{title(path)}: {lines[at]}"):
                    sort = self.compare(lines[at + 1].split("|"), lines[at + 2].split("|"))
                    sorts[sort] = sorts.get(sort, 0) + 1
        self.assertEqual(sorted(sorts), ["asking", "list", "run"])
        self.assertGreaterEqual(sum(sorts.values()), 531)

    def compare(self, given: List[str], expected: List[str]) -> str:
        """Compares the answer and the tables of one line; says of which sort it is."""
        sort = "asking" if given[0] == "ask" else {6: "run", 7: "list"}[len(given)]
        given = given[1:] if sort == "asking" else given
        program = numbers(given[0])
        tables = _tables(given[1:4])
        before = [table[:] for table in tables]
        lists = [numbers(field) for field in given[4:]]
        if sort == "asking":
            answer: Tuple[int, ...] = ask_words(program, *tables, lists[0][0], lists[1], lists[2])
        elif sort == "list":
            answer = assign_words(program, *tables, lists[0], lists[1], lists[2][0])
        else:
            answer = run_words(program, *tables, lists[0], lists[1][0])
        self.assertEqual(list(answer), numbers(expected[0]))
        for table, was, told in zip(tables, before, expected[1:]):
            self.assertEqual(table, was if told == "=" else array("i", numbers(told)))
        return sort


class Worked(unittest.TestCase):
    """The worked sheet, by all the calls on typed programs."""

    def setUp(self) -> None:
        self.program = Program.read(SHEET)
        self.tables = Tables(self.program)

    def test_k1(self) -> None:
        answer = run(self.program, self.tables, K1, 100)
        self.assertEqual((answer.outcome, answer.place, answer.steps, answer.accepted), (Outcome.FINISHED, 33, 3, 3))
        self.assertEqual((answer.unread, answer.spot), ((), None))
        self.assertEqual((self.tables["x.bytes"], self.tables["x.samples"]), (128, 32))
        self.assertEqual((self.tables.kept, self.tables.identities), ([10], []))
        self.assertIn("3 steps and 3 proposals", str(answer))

    def test_k2(self) -> None:
        answer = run(self.program, self.tables, [0, 0, 1, 65, 8], 100)
        self.assertEqual((answer.outcome, answer.place, answer.steps, answer.accepted), (Outcome.UNFIT_ENTRY, 27, 3, 2))
        self.assertEqual(answer.unread, (1, 65, 8))
        self.assertEqual((self.tables["x.bytes"], self.tables["x.samples"]), (64, 16))

    def test_words_left_over(self) -> None:
        answer = run(self.program, self.tables, K1 + [7, MOST, LEAST], 100)
        self.assertEqual((answer.outcome, answer.unread), (Outcome.FINISHED, (7, MOST, LEAST)))

    def test_a_run_goes_on_where_another_ended(self) -> None:
        self.assertEqual(run(self.program, self.tables, K1, 2).outcome, Outcome.BUDGET_SPENT)
        self.assertEqual(run(self.program, self.tables, [0, 0, 1, 72, 128], 100).outcome, Outcome.FINISHED)
        self.assertEqual((self.tables.records, self.tables["x.bytes"]), (2, 128))

    def test_a_list(self) -> None:
        run(self.program, self.tables, K1, 100)
        entries = [Entry("x.samples", samples) for samples in range(33, 233)]
        proposals = [word for samples in range(33, 233) for word in (1, 64, 4 * samples)]
        answer = assign(self.program, self.tables, iter(entries), proposals, 200)
        self.assertEqual((answer.outcome, answer.place, answer.steps, answer.accepted), (0, 200, 200, 200))
        self.assertEqual(str(answer), "0 after 200 entries: finished")
        self.assertEqual(self.tables["x.bytes"], 928)

    def test_a_refused_list(self) -> None:
        run(self.program, self.tables, K1, 100)
        entries = [Entry("x.samples", 40), Entry("x.samples", 48)]
        answer = assign(self.program, self.tables, entries, [1, 64, 160, 0], 100)
        self.assertEqual(str(answer), "19 at entry 1: a required part is not met")
        self.assertEqual((answer.steps, answer.accepted, answer.unread), (2, 1, (0,)))
        self.assertEqual((self.tables["x.bytes"], self.tables["x.samples"]), (160, 40))

    def test_a_list_is_refused_at_the_start(self) -> None:
        run(self.program, self.tables, K1, 100)
        answer = assign(self.program, self.tables, [], [], 1_000_001)
        self.assertEqual(str(answer), "1 at place 0: a table's length or the budget is wrong")
        self.tables.heap[4] += 1
        told = str(assign(self.program, self.tables, [], [], 100))
        self.assertTrue(told.startswith("4 at line 2, column 1: a kept constraint does not read"), told)
        self.assertTrue(told.endswith("\nalways required x.bytes = 4 * x.samples;\n^"), told)

    def test_every_literal(self) -> None:
        tables = left("x := 1; y := 1; z := 1", [0] * 3)
        entries = [Entry("x", None), Entry("y", False), Entry("z", True), Entry("x", LEAST)]
        words = [word for entry in entries for word in entry.words(tables.program)]
        self.assertEqual(words, [0, 0, 20, 1, 0, 21, 2, 0, 22, 0, 0, 23, LEAST])
        self.assertEqual(assign(tables.program, tables, entries, [0] * 4, 4).outcome, Outcome.FINISHED)
        self.assertEqual((tables["x"], tables["y"], tables["z"]), (LEAST, False, True))

    def test_entries_of_unknown_names(self) -> None:
        before = str(self.tables)
        for target in ("y", "x.y", "x.", "", ".", "bytes", " x", "x.bytes.x"):
            with self.subTest(target), self.assertRaises(KeyError):
                assign(self.program, self.tables, [Entry("x", 1), Entry(target, 1)], [0, 0], 100)
        self.assertEqual(str(self.tables), before)
        long = assign(self.program, self.tables, [Entry("x" + ".bytes" * 8, 1)], [0], 100)
        self.assertEqual((long.outcome, long.place), (Outcome.UNFIT_ASSIGNMENT, 0))


class Asking(unittest.TestCase):
    """Two solvers on the last statement of the worked sheet."""

    def setUp(self) -> None:
        self.program = Program.read(SHEET)
        self.tables = left(SHEET, [0, 0])

    def test_the_first_before_the_second(self) -> None:
        asked = ask(self.program, self.tables, 27, [1, 64, 128], [1, 64, 96])
        self.assertEqual((asked.outcome, asked.place, asked.solver, asked.accepted), (0, 27, 1, (1, 64, 128)))
        self.assertEqual(str(asked), "0 at word 27: finished, by the first solver")
        self.assertEqual(self.tables["x.bytes"], 128)

    def test_the_second_where_the_first_is_turned_down(self) -> None:
        firsts: List[List[int]] = [[], [0], [1, 64, 96], [1, 65, 16], [1, 64], [577], [-1], [1, 64, 128, 0]]
        for first in firsts:
            with self.subTest(str(first)):
                asked = ask(self.program, self.tables.copy(), 27, first, [1, 64, 128])
                self.assertEqual((asked.outcome, asked.solver, asked.accepted), (0, 2, (1, 64, 128)))
                self.assertEqual(str(asked), "0 at word 27: finished, by the second solver")

    def test_both_in_vain(self) -> None:
        before = self.tables.copy()
        pairs: List[Tuple[List[int], List[int], int]]
        pairs = [([0], [1, 65, 8], 17), ([1, 65, 8], [], 17), ([], [], 6), ([0], [0, 0], 16)]
        for first, second, number in pairs:
            with self.subTest(f"{first} {second}"):
                asked = ask(self.program, self.tables, 27, first, second)
                self.assertEqual((asked.outcome, asked.solver, asked.accepted), (number, 0, ()))
                self.assertTrue(str(asked).startswith(f"{number} at line 3, column 1: "))
                self.assertEqual("words left over" in str(asked), number == 16)
                self.assertEqual(self.tables, before)
        self.assertEqual(ask(self.program, self.tables, 27, [0]).outcome, Outcome.REQUIRED_UNMET)

    def test_a_word_that_begins_no_statement(self) -> None:
        says = "no statement that reads a proposal begins there"
        for word in (LEAST, -1, 33, 4096, MOST):
            asked = ask(self.program, self.tables, word, K1, K1)
            self.assertEqual((asked.outcome, str(asked)), (2, f"2 at place {word}: {says}"))
        shown = str(ask(self.program, self.tables, 32, [0]))
        self.assertEqual(shown, f"2 at line 3, column 14: {says}\nx.samples := 32\n{' ' * 13}^")

    def test_tables_that_are_unfit(self) -> None:
        self.tables.heap[0] = 65
        self.assertEqual(str(ask(self.program, self.tables, 27, [0])), "3 at place 1: a table's content is unfit")
        self.tables.heap = array("i", [0])
        self.assertEqual(str(ask(self.program, self.tables, 27, [0])), "1 at place 0: a table's length is wrong")


class Handed(unittest.TestCase):
    """Lengths and numbers of any size."""

    def calls(self) -> List[Callable[[State], Tuple[int, ...]]]:
        """The three calls on tables that are handed over."""
        return [
            lambda lent: run_words(P, *lent, K1, 100),
            lambda lent: assign_words(P, *lent, [0, 0, 20], [0], 100),
            lambda lent: ask_words(P, *lent, 1, [0], []),
        ]

    def test_tables_of_another_length(self) -> None:
        wrong: List[Lengths] = [(127, 1601, 98), (128, 1602, 98), (128, 1601, 0), (0, 0, 0), (129, 1601, 98)]
        for lengths in wrong:
            for number, call in enumerate(self.calls()):
                with self.subTest(f"{lengths} {number}"):
                    tables = fresh(lengths)
                    self.assertEqual(call(tables)[:2], (Outcome.WRONG_SIZE, 0))
                    self.assertEqual(tables, fresh(lengths))

    def test_tables_of_another_length_by_name(self) -> None:
        tables = Tables(Program.read(SHEET))
        tables.constraints.append(0)
        answer = run(tables.program, tables, K1, 100)
        self.assertEqual(str(answer), "1 at place 0: a table's length or the budget is wrong")
        self.assertEqual((answer.spot, answer.unread), (None, tuple(K1)))

    def test_budgets(self) -> None:
        for budget, outcome in ((-1, 1), (1_000_001, 1), (LEAST, 1), (MOST, 1), (0, 5), (3, 0), (1_000_000, 0)):
            self.assertEqual(run_words(P, *fresh(), K1, budget)[0], outcome)

    def test_nothing_at_all(self) -> None:
        self.assertEqual(run_words([], *fresh(), [], 100), (2, 0, 0, 0, 0))
        self.assertEqual(run_words([0], *fresh(), [], 0), (0, 1, 0, 0, 0))
        self.assertEqual(assign_words([0], *fresh(), [], [7], 0), (0, 0, 0, 0, 1))
        self.assertEqual(ask_words([1, 1, 0, 0, 20], *fresh(), 1, [], []), (6, 1, 0, 0))
        self.assertEqual(run(Program.read(""), Tables(Program.read("")), (), 0).outcome, Outcome.FINISHED)

    def test_programs_that_do_not_read(self) -> None:
        for words, place in (([9, 77], 1), (P[:32], 32), ([0] * 4097, 4096)):
            self.assertEqual(run_words(words, *fresh(), K1, 100), (2, place, 0, 0, 5))

    def test_numbers_that_are_no_words(self) -> None:
        program = Program.read(SHEET)
        tables = left(SHEET, [0, 0])
        before = tables.copy()
        for number in (2**31, LEAST - 1, 2**63, -(2**100)):
            calls: List[Callable[[], object]] = [
                lambda: run(program, tables, [0, 0, 1, 64, number], 100),
                lambda: run(program, tables, K1, number),
                lambda: assign(program, tables, [Entry("x.samples", 40), Entry("x.samples", number)], K1, 100),
                lambda: assign(program, tables, [Entry("x.samples", 40)], [1, 64, number], 100),
                lambda: assign(program, tables, [Entry("x.samples", 40)], [1, 64, 160], number),
                lambda: ask(program, tables, 27, [1, 64, number]),
                lambda: ask(program, tables, 27, [1, 64, 128], [number]),
                lambda: ask(program, tables, number, [1, 64, 128]),
                lambda: run_words([number], tables.environment, tables.heap, tables.constraints, [], 100),
            ]
            for place, call in enumerate(calls):
                with self.subTest(f"{number} {place}"), self.assertRaises(OverflowError):
                    call()
        self.assertEqual(tables, before)

    def test_what_is_handed_over_stays(self) -> None:
        words, proposals = array("i", P), array("i", K1)
        run_words(words, *fresh(), proposals, 100)
        self.assertEqual((list(words), list(proposals)), (P, K1))


class Threads(unittest.TestCase):
    """Two threads, each on tables of its own."""

    def test_two_at_once(self) -> None:
        together, told = threading.Barrier(2), []

        def count(end: int) -> None:
            text = f"x := 0; always x <= {end}; while x != {end} do {{x := x + 1}}"
            program = Program.read(text)
            together.wait()
            for _ in range(10):
                tables = Tables(program)
                answer = run(program, tables, [0] * (end + 2), 1_000_000)
                told.append((answer.outcome.value, answer.steps - 3 - 2 * end, tables["x"] == end))

        threads = [threading.Thread(target=count, args=(end,)) for end in (10_000, 9_000)]
        for thread in threads:
            thread.start()
        for thread in threads:
            thread.join()
        self.assertEqual(told, [(0, 0, True)] * 20)
