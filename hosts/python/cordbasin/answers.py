"""What comes back from a run, from a list and from two solvers on one statement."""

from __future__ import annotations

import dataclasses
from typing import Optional, Tuple

from cordbasin.outcome import Outcome
from cordbasin.program import Program, Spot, shown_refusal

_NO_WORD = (Outcome.FINISHED, Outcome.WRONG_SIZE, Outcome.UNFIT_TABLE)


@dataclasses.dataclass(frozen=True)
class Ended:
    """What a run and a list both give back beside their tables."""

    program: Program = dataclasses.field(repr=False)
    outcome: Outcome
    place: int
    steps: int
    accepted: int
    unread: Tuple[int, ...]


class Answer(Ended):
    """What a run gives back. Prints with the typed line and a mark under the place."""

    @property
    def spot(self) -> Optional[Spot]:
        """Where the place stands in the text, where it is a word."""
        return None if self.outcome in _NO_WORD else self.program.spot(self.place)

    def __str__(self) -> str:
        if self.outcome == Outcome.FINISHED:
            return f"0 at the end: finished, after {self.steps} steps and {self.accepted} proposals"
        if self.spot is None:
            return f"{self.outcome.value} at place {self.place}: {self.outcome.says}"
        return shown_refusal(self.outcome, self.outcome.says, self.spot)


class ListAnswer(Ended):
    """What a list gives back. From 5 on the place is the refused entry's index."""

    def __str__(self) -> str:
        if self.outcome == Outcome.FINISHED:
            return f"0 after {self.place} entries: finished"
        if self.outcome == Outcome.UNFIT_START:
            return shown_refusal(self.outcome, self.outcome.says, self.program.spot(self.place))
        where = "entry" if self.outcome > Outcome.UNFIT_START else "place"
        return f"{self.outcome.value} at {where} {self.place}: {self.outcome.says}"


@dataclasses.dataclass(frozen=True)
class Asked:
    """What two solvers on one statement give back beside the tables: whose proposal was accepted, 1, 2 or 0 for neither's, and it."""

    program: Program = dataclasses.field(repr=False)
    word: int
    outcome: Outcome
    place: int
    solver: int
    accepted: Tuple[int, ...]

    @property
    def says(self) -> str:
        """What the outcome says of an asking, which has no budget, names a word and takes whole proposals."""
        if self.outcome == Outcome.WRONG_SIZE:
            return "a table's length is wrong"
        if self.outcome == Outcome.UNFIT_PROGRAM and self.place == self.word:
            return "no statement that reads a proposal begins there"
        return self.outcome.says + (", words left over" if self.outcome == Outcome.UNFIT_PROPOSAL else "")

    def __str__(self) -> str:
        if self.outcome == Outcome.FINISHED:
            return f"0 at word {self.place}: finished, by the {'first' if self.solver == 1 else 'second'} solver"
        if self.outcome in _NO_WORD or not 0 <= self.place < len(self.program.words):
            return f"{self.outcome.value} at place {self.place}: {self.says}"
        return shown_refusal(self.outcome, self.says, self.program.spot(self.place))
