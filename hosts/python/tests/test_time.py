"""A solver that does not get done with soft constraints in its time."""

from __future__ import annotations

import sys
import unittest

from cordbasin import Outcome, Program
from desk.solver import ONE_BY_ONE, Solver
from desk.stepping import Desk

SLOW = """
import sys, time
for line in sys.stdin:
    if line.startswith("(assert-soft"):
        time.sleep(60)
    if line.startswith("(check-sat"):
        print("sat", flush=True)
    if line.startswith("(get-value"):
        print("((c0 6))", flush=True)
"""


class SlowWithWishes(unittest.TestCase):
    """Wishes that take too long at once are tried one by one, in the rest of the time."""

    def test_a_proposal_is_made(self) -> None:
        solver = Solver("slow", (sys.executable, "-S", "-E", "-c", SLOW), 4.0, True)
        desk = Desk(Program.read("x := 1;\nalways x > 5 /\\ weak x = 6"), [solver], 100)
        steps = list(desk.steps())
        self.assertEqual(desk.answer.outcome, Outcome.FINISHED)
        self.assertEqual((steps[-1].solver, steps[-1].proposal, desk.tables["x"]), ("slow", (1, 0, 6), 6))
        self.assertEqual(steps[-1].note, ONE_BY_ONE)


if __name__ == "__main__":
    unittest.main()
