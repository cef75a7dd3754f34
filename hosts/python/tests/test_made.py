"""Made sheets, each carried through by z3 alone, by cvc5 alone and by both, and what has to hold of all three."""

from __future__ import annotations

import functools
import hashlib
import itertools
import json
import os
import unittest
from concurrent.futures import ThreadPoolExecutor
from typing import Dict, List, Optional

from cordbasin import Outcome, Program, Value
from desk.shown import as_json, closing, left_lines, step_lines
from desk.solver import Solver
from tests.common import left_out, structure, unmet, why_left_out
from tests.made import made
from tests.ways import Carried, State, carried

COUNT = int(os.environ.get("CORDBASIN_MADE_SHEETS", "24"))
SECONDS = 4.0
TEXTS = "6d9971a2630c40d269840f40c133a5fe55e4c21116328e8aa51b283d74f29027"  # of the first 500 sheets
WAYS = {"z3": ("z3",), "cvc5": ("cvc5",), "both": ("z3", "cvc5")}


@functools.lru_cache(maxsize=None)
def solver(name: str) -> Solver:
    """A solver, tried once."""
    return Solver.of(name, SECONDS)


@functools.lru_cache(maxsize=None)
def runs(way: str) -> List[Carried]:
    """The sheets carried through by one way of solving, two at a time."""
    asked = [solver(name) for name in WAYS[way]]
    programs = [Program.read(made(seed)) for seed in range(1, COUNT + 1)]
    with ThreadPoolExecutor(2) as pool:
        return list(pool.map(lambda program: carried(program, asked), programs))


def payload(value: Value) -> int:
    """What a boolean or a whole number is in a proposal."""
    return int(value) if isinstance(value, int) else -1


def parted(one: Carried, other: Carried) -> Optional[int]:
    """The first step at which two runs differ, by its statement or by the proposal taken."""
    pairs = enumerate(zip(one.steps, other.steps))
    return next((at for at, (a, b) in pairs if (a.statement, a.proposal) != (b.statement, b.proposal)), None)


class Texts(unittest.TestCase):
    """The texts themselves."""

    def test_every_text_is_read(self) -> None:
        for seed in range(500):
            self.assertTrue(Program.read(made(seed)).words)

    def test_the_texts_are_the_same_on_every_python(self) -> None:
        texts = "".join(made(seed) for seed in range(500))
        self.assertEqual(hashlib.sha256(texts.encode()).hexdigest(), TEXTS)


class OneWay(unittest.TestCase):
    """What has to hold of each run by itself."""

    def each(self, way: str) -> List[Carried]:
        """The runs of a way; the test is left out where a solver is missing."""
        left_out(self, *WAYS[way])
        return runs(way)

    def every_step_keeps_what_is_required(self, way: str) -> None:
        """Tests each state of each run, and that the run is replayed to the same words."""
        for seed, run in enumerate(self.each(way), 1):
            with self.subTest(seed=seed, way=way):
                run.desk.replay()
                self.account_is_true(run)
                for tables in run.states:
                    self.assertEqual(unmet(tables), [])

    def account_is_true(self, run: Carried) -> None:
        """What is shown tells of as many steps and proposals, and of the very changes, that there were."""
        answer, taken = run.desk.answer, [step for step in run.steps if step.proposal is not None]
        self.assertEqual((answer.steps, answer.accepted), (len(run.steps), len(taken)))
        for step in taken:
            changed = [word for change in step.changes for word in (change.location, payload(change.after))]
            self.assertEqual([len(step.changes)] + changed, list(step.proposal or ()))
        self.assertTrue(all(line for step in run.steps for line in step_lines(step)))
        self.assertTrue(left_lines(run.desk.tables) and closing(run.desk, run.steps))
        self.assertEqual(json.loads(json.dumps(as_json(run.desk, run.steps)))["proposals"], run.desk.accepted)

    def test_by_z3(self) -> None:
        self.every_step_keeps_what_is_required("z3")

    def test_by_cvc5(self) -> None:
        self.every_step_keeps_what_is_required("cvc5")

    def test_by_both(self) -> None:
        self.every_step_keeps_what_is_required("both")


@unittest.skipIf(why_left_out("z3", "cvc5"), why_left_out("z3", "cvc5"))
class AllWays(unittest.TestCase):
    """What has to hold of the runs of one sheet beside each other."""

    def test_alike_runs_end_with_the_same_records(self) -> None:
        for one, other in itertools.combinations(WAYS, 2):
            for seed, (a, b) in enumerate(zip(runs(one), runs(other)), 1):
                finished = a.desk.answer.outcome == b.desk.answer.outcome == Outcome.FINISHED
                if finished and a.begun == b.begun:
                    with self.subTest(seed=seed, ways=(one, other)):
                        self.assertEqual(structure(a.desk.tables), structure(b.desk.tables))
                        self.assertEqual(a.desk.tables.constraints, b.desk.tables.constraints)

    def test_both_go_as_z3_goes_where_it_gets_through(self) -> None:
        for seed, (alone, both) in enumerate(zip(runs("z3"), runs("both")), 1):
            if alone.desk.answer.outcome != Outcome.FINISHED:
                continue
            at = parted(alone, both)
            with self.subTest(seed=seed):
                if at is None:
                    self.assertEqual(both.desk.answer, alone.desk.answer)
                else:  # only for want of time does z3 propose something else, or nothing
                    self.assertGreater(max(alone.seconds[at], both.seconds[at]), SECONDS / 2, both.steps[at])

    def test_what_one_denies_the_other_cannot_meet(self) -> None:
        for seed, sheet in enumerate(zip(*map(runs, WAYS)), 1):
            denied: Dict[State, str] = {}
            taken: Dict[State, str] = {}
            for run in sheet:
                denied.update(run.denied)
                taken.update(run.taken)
            with self.subTest(seed=seed):
                self.assertEqual(denied.keys() & taken.keys(), set())

    @unittest.skipIf(COUNT < 24, "left out: it needs 24 sheets")
    def test_most_sheets_are_got_through_and_some_are_not(self) -> None:
        for way in WAYS:
            ends = [run.desk.answer.outcome for run in runs(way)]
            self.assertGreater(2 * ends.count(Outcome.FINISHED), COUNT)
            self.assertGreater(ends.count(Outcome.NO_PROPOSAL), 0)


if __name__ == "__main__":
    unittest.main()
