"""A sheet carried through by one way of solving, with what is asked of the run afterwards."""

from __future__ import annotations

import dataclasses
import time
from typing import Dict, List, Sequence, Tuple

from cordbasin import Program, Tables
from desk.solver import UNMET, Solver
from desk.stepping import Desk, Step

BUDGET = 400

State = Tuple[int, bytes]


@dataclasses.dataclass(frozen=True)
class Carried:
    """A run that is done: its steps, the tables before each and behind the last, and the seconds of asking in each."""

    desk: Desk
    steps: List[Step]
    states: List[Tables]
    seconds: List[float]

    @property
    def begun(self) -> List[int]:
        """The statements that were begun, by their words, in turn."""
        return [step.statement.word for step in self.steps]

    @property
    def denied(self) -> Dict[State, str]:
        """Where a solver has said that no change can meet the required parts."""
        pairs = ((state, each) for state, step in self._told() for each in step.turned_down)
        return {state: each.solver for state, each in pairs if each.says == UNMET}

    @property
    def taken(self) -> Dict[State, str]:
        """Where a solver's proposal was taken."""
        return {state: step.solver for state, step in self._told() if step.solver is not None}

    def _told(self) -> List[Tuple[State, Step]]:
        return [(_state(tables, step), step) for tables, step in zip(self.states, self.steps)]


def _state(tables: Tables, step: Step) -> State:
    words = tables.environment + tables.heap + tables.constraints
    return step.statement.word, words.tobytes()


def carried(program: Program, solvers: Sequence[Solver]) -> Carried:
    """Carries a sheet through."""
    asked: List[float] = []
    desk = Desk(program, solvers, BUDGET, lambda _: asked.append(time.monotonic()))
    steps: List[Step] = []
    seconds: List[float] = []
    states = [desk.tables]
    for step in desk.steps():
        seconds.append(time.monotonic() - asked.pop() if asked else 0.0)
        steps.append(step)
        states.append(desk.tables)
    return Carried(desk, steps, states, seconds)
