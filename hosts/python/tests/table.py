"""python3 -m tests.table SEED COUNT [SECONDS]: made sheets by z3 alone, by cvc5 alone and by both, as a table."""

from __future__ import annotations

import itertools
import sys
from typing import Dict, List, Sequence

from cordbasin import Outcome, Program
from desk.solver import UNMET, Solver
from tests.made import made
from tests.ways import Carried, carried

THROUGH, UNMEETABLE, OWN, UNKNOWN, SPENT = range(5)
_ROWS = (
    "sheets got through",
    "refused, as no change can meet the required parts",
    "refused by the statement itself (7 to 15)",
    "not got through, as no solver knew an answer in its time",
    "ended by the budget",
)


def ended(run: Carried) -> int:
    """How a run ended, as a row of the table."""
    outcome = run.desk.answer.outcome
    if outcome == Outcome.FINISHED:
        return THROUGH
    if outcome == Outcome.BUDGET_SPENT:
        return SPENT
    if outcome != Outcome.NO_PROPOSAL:
        return OWN
    return UNMEETABLE if any(each.says == UNMET for each in run.steps[-1].turned_down) else UNKNOWN


def milliseconds(seconds: Sequence[float]) -> List[str]:
    """The median, the one that 95 in a hundred do not pass, and the longest."""
    ordered = sorted(seconds) or [0.0]
    places = (len(ordered) // 2, max(0, -(-95 * len(ordered) // 100) - 1), len(ordered) - 1)
    return [f"{1000 * ordered[place]:.0f}" for place in places]


def table(runs: Dict[str, List[Carried]]) -> str:
    """The Markdown table of some ways of solving."""
    columns = []
    for done in runs.values():
        ends = [ended(run) for run in done]
        seconds = [each for run in done for each in run.seconds if each]
        counts = [str(ends.count(row)) for row in range(len(_ROWS))]
        columns.append(counts + [str(len(seconds))] + milliseconds(seconds))
    names = _ROWS + (
        "statements asked",
        "ms for one, median",
        "ms for one, 95 in a hundred within",
        "ms for one, longest",
    )
    lines = ["| | " + " | ".join(runs) + " |", "|---|" + "---:|" * len(runs)]
    lines += [f"| {name} | " + " | ".join(column[row] for column in columns) + " |" for row, name in enumerate(names)]
    return "\n".join(lines)


def alike(runs: Dict[str, List[Carried]]) -> str:
    """How many sheets two ways both got through, and how many of them ended with the same values."""
    lines = []
    for one, other in itertools.combinations(runs, 2):
        both = [(a, b) for a, b in zip(runs[one], runs[other]) if ended(a) == ended(b) == THROUGH]
        same = sum(1 for a, b in both if a.desk.tables == b.desk.tables)
        lines.append(f"{one} and {other}: {len(both)} sheets got through by each, {same} with the same values")
    return "\n".join(lines)


def main(typed: Sequence[str]) -> None:
    """Prints the table, and which sheets one way did not get through though another did."""
    seed, count, seconds = int(typed[0]), int(typed[1]), float(typed[2]) if len(typed) > 2 else 10.0
    z3, cvc5 = Solver.of("z3", seconds), Solver.of("cvc5", seconds)
    ways = {"z3 alone": [z3], "cvc5 alone": [cvc5], "both": [z3, cvc5]}
    runs: Dict[str, List[Carried]] = {way: [] for way in ways}
    for number in range(seed, seed + count):
        program = Program.read(made(number))
        for way, asked in ways.items():
            runs[way].append(carried(program, asked))
            runs[way][-1].desk.replay()
    print(f"{table(runs)}\n\n{alike(runs)}")
    for at in range(count):
        ends = {way: ended(done[at]) for way, done in runs.items()}
        if len(set(ends.values())) > 1:
            print(
                f"sheet {seed + at}: " + "; ".join(f"{way}: {_ROWS[end]}" for way, end in ends.items()), file=sys.stderr
            )


if __name__ == "__main__":
    main(sys.argv[1:])
