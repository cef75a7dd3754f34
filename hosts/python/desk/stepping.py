"""The run of a sheet, step by step, with the solvers asked where a proposal is due."""

from __future__ import annotations

import dataclasses
from concurrent.futures import ThreadPoolExecutor
from typing import Callable, Iterator, List, Optional, Sequence, Tuple

from cordbasin import Outcome, Program, Tables, ask, run
from desk.cells import Change, changes
from desk.dialogue import Dialogue
from desk.pieces import Statement, statement_at
from desk.question import after_identities, holds, parts_due, question, target_location
from desk.solver import Proposed, Solver


class DeskFault(Exception):
    """The desk's account of a run and the proved run itself differ."""


@dataclasses.dataclass(frozen=True)
class TurnedDown:
    """A solver whose proposal was not taken: the number of the refusal, none where it made no proposal, and the words for it."""

    solver: str
    outcome: Optional[int]
    says: str
    proposal: Tuple[int, ...]

    def __str__(self) -> str:
        if self.outcome is None:
            return f"{self.solver} {self.says}"
        return f"{self.solver}'s proposal was turned down: {self.outcome}, {self.says}"


@dataclasses.dataclass(frozen=True)
class Step:
    """A step of the run: its statement, what identities moved with it, the proposal that was taken and whose, what that changed,
    whose was turned down, and what else there is to say."""

    statement: Statement
    tied: Tuple[Change, ...] = ()
    solver: Optional[str] = None
    proposal: Optional[Tuple[int, ...]] = None
    changes: Tuple[Change, ...] = ()
    turned_down: Tuple[TurnedDown, ...] = ()
    note: str = ""


def _nothing(_: Statement) -> None:
    pass


class Desk:
    """A sheet with its solvers. `steps` carries it through; then `answer`, `tables` and `accepted` tell what came of it."""

    def __init__(
        self,
        program: Program,
        solvers: Sequence[Solver],
        budget: int,
        asking: Callable[[Statement], None] = _nothing,
    ) -> None:
        self.program = program
        self.solvers = solvers
        self.budget = budget
        self.accepted: List[int] = []
        self._asking = asking
        self._run(0)

    def steps(self) -> Iterator[Step]:
        """Each step in turn, the refused one too. The run begins anew for each, with a budget that ends it behind that step."""
        while self.answer.outcome == Outcome.BUDGET_SPENT and self.answer.steps < self.budget:
            step = Step(statement_at(self.program, self.answer.place))
            paid = self.answer.steps + 1
            self._run(paid)
            if self.answer.outcome == Outcome.NO_PROPOSAL:
                step, asked = self._settle(step)
                if step.proposal is not None:
                    self.accepted += step.proposal
                    self._run(paid)
                    if self.tables != asked:
                        raise DeskFault("the run leaves other tables than the asking")
            yield step

    def replay(self) -> None:
        """Does the whole run again, from fresh tables and without a solver; DeskFault where a word of what it gives differs."""
        tables = Tables(self.program)
        answer = run(self.program, tables, self.accepted, self.budget)
        if answer != self.answer or tables != self.tables:
            raise DeskFault("the replay differs from the run")

    def _run(self, steps: int) -> None:
        self.tables = Tables(self.program)
        self.answer = run(self.program, self.tables, self.accepted, steps)

    def _settle(self, step: Step) -> Tuple[Step, Tables]:
        """The step with the proposal that was taken, where one was, and the tables that the asking left."""
        word, after = step.statement.word, self.tables.copy()
        state = after_identities(self.tables, word)
        step = dataclasses.replace(step, tied=_tied(self.tables, state, word))
        if all(holds(state, part) for part in parts_due(self.tables, word)):
            return dataclasses.replace(step, proposal=ask(self.program, after, word, [0]).accepted), after
        proposed = self._proposed(step.statement, state)
        asked = ask(self.program, after, word, *[each.words for each in proposed])
        if not asked.solver:
            return dataclasses.replace(step, turned_down=self._turned_down(word, proposed)), after
        taken = asked.solver - 1
        return (
            dataclasses.replace(
                step,
                solver=self.solvers[taken].name,
                proposal=asked.accepted,
                changes=changes(state, after),
                turned_down=self._turned_down(word, proposed[:taken]),
                note=proposed[taken].says,
            ),
            after,
        )

    def _proposed(self, statement: Statement, state: Tables) -> List[Proposed]:
        """What each solver proposes; they work side by side."""
        self._asking(statement)
        asked = question(self.tables, state, statement.word)
        with ThreadPoolExecutor(len(self.solvers)) as pool:
            try:
                waiting = [pool.submit(solver.propose, asked) for solver in self.solvers]
                return [each.result() for each in waiting]
            except BaseException:
                Dialogue.end_all()
                raise

    def _turned_down(self, word: int, proposed: Sequence[Proposed]) -> Tuple[TurnedDown, ...]:
        """Why the first solvers' proposals were not taken: what each is answered where it stands alone."""
        told = []
        for solver, each in zip(self.solvers, proposed):
            asked = ask(self.program, self.tables.copy(), word, each.words) if each.words else None
            outcome = asked.outcome.value if asked else None
            told.append(TurnedDown(solver.name, outcome, asked.says if asked else each.says, each.words))
        return tuple(told)


def _tied(before: Tables, after: Tables, word: int) -> Tuple[Change, ...]:
    """What a statement has moved beside its target, by kept identities."""
    target = target_location(before, word)
    return tuple(change for change in changes(before, after) if change.location != target)
