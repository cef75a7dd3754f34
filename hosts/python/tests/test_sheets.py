"""Sheets through the desk, with z3, with cvc5 and with both.

`python3 -m tests.test_sheets --write`, in hosts/python, writes sheets/desk/NAME.shown anew: what ./desk prints.
"""

from __future__ import annotations

import contextlib
import dataclasses
import functools
import io
import pathlib
import re
import sys
import unittest
from typing import Dict, List, Tuple

from cordbasin import Outcome, Program, Tables, run
from desk.__main__ import main
from desk.solver import Solver
from desk.stepping import Desk, Step
from tests.common import SHEETS, Apart, files, is_true, left_out, structure, title, unmet, with_library

NOT_UNIQUE = ("overlap",)

# The proposals of solvers that are taken, one by one, where there is one answer.
TAKEN: Dict[str, str] = {
    "core": "1 64 128",
    "depths": "1 66 304, 2 65 1 66 544, 2 65 2 66 784, 2 65 3 66 1024",
    "flags": "3 65 6000 66 1 67 0, 3 64 500 65 2000 66 0, 3 64 1500 65 6000 67 0, 3 64 500 66 0 67 1",
    "grain": "1 65 40, 1 64 14, 2 64 15 65 25, 2 65 30 66 40, 1 66 50",
    "once": "4 64 64 65 128 66 512 67 576, 1 66 1024, 2 66 2048 67 2112",
    "overflow": "1 64 2000000000",
    "range": "1 72 2000000000",
    "sections": "3 64 416 72 352 98 448, 3 64 368 72 304 98 400",
    "tied": "1 81 64, 2 73 208 81 192, 2 73 96 89 80",
    "unsatisfiable": "1 65 8",
    "wishes": "2 65 1008 66 4096, 2 64 256 65 960, 1 65 896, 2 64 256 65 960",
}


@dataclasses.dataclass(frozen=True)
class Carried:
    """A sheet that was carried through: the desk, its steps, and what did not hold after one."""

    desk: Desk
    steps: Tuple[Step, ...]
    faults: Tuple[str, ...]


@functools.lru_cache(maxsize=None)
def hired(name: str) -> Solver:
    """A solver that is installed."""
    return Solver.of(name, 30.0)


@functools.lru_cache(maxsize=None)
def carried(path: pathlib.Path, names: Tuple[str, ...]) -> Carried:
    """Carries a sheet through with solvers, and looks at the tables after each step."""
    desk = Desk(Program.read(path.read_bytes()), [hired(name) for name in names], 1000)
    steps, faults = [], []
    for step in desk.steps():
        steps.append(step)
        faults += [
            f"step {len(steps)}: {fault}" for fault in unmet(desk.tables) + own_unmet(desk, step) + untold(desk, step)
        ]
    desk.replay()
    return Carried(desk, tuple(steps), tuple(faults))


def own_unmet(desk: Desk, step: Step) -> List[str]:
    """The required parts of a constraint that was just accepted and do not hold."""
    words = desk.program.words
    stated = [each for each in Apart(words).statements if each.word == step.statement.word][0]
    parts = stated.parts if step.proposal is not None else []
    return [
        f"own part at {at}" for at, end in parts if words[at] == 3 and not is_true(desk.tables, words[at + 1 : end])
    ]


def untold(desk: Desk, step: Step) -> List[str]:
    """What a step's account of a proposal leaves out or tells wrongly."""
    pairs = list(zip((step.proposal or ())[1::2], (step.proposal or ())[2::2]))
    told = [(change.location, change.after) for change in step.changes]
    wrong = [f"changes are {told}, the proposal is {pairs}"] if told != pairs else []
    for change in step.changes + step.tied:
        if desk.tables.value(change.location) != change.after or change.before == change.after:
            wrong.append(f"{change} is not so")
        if " " not in change.cell and desk.tables.location(desk.program.path(change.cell)) != change.location:
            wrong.append(f"{change.cell} is another cell")
    return wrong


@functools.lru_cache(maxsize=None)
def page(path: pathlib.Path, *options: str) -> Tuple[int, str]:
    """Exit status and standard output of the desk for a sheet."""
    printed = io.StringIO()
    with contextlib.redirect_stdout(printed), with_library():
        status = main([*options, "--timeout", "30", str(path)])
    return status, printed.getvalue()


def parted(shown: str) -> Tuple[str, str]:
    """A page up to its closing line, and from there on."""
    at = shown.rindex("\n\n") + 2
    return shown[:at], shown[at:]


class Each:
    """Holds what is done with each set of solvers."""

    class Sheets(unittest.TestCase):
        """The sheets of sheets/desk and the test programs of source document 000."""

        names: Tuple[str, ...]

        def setUp(self) -> None:
            left_out(self, *self.names)

        def test_what_is_required_holds_after_each_step(self) -> None:
            for path in files("sheet", "desk") + files("text", "000"):
                with self.subTest(title(path)):
                    done = carried(path, self.names)
                    self.assertEqual(done.faults, ())
                    self.assertEqual(done.desk.answer.steps, len(done.steps))

        def test_the_replay(self) -> None:
            for path in files("sheet", "desk") + files("text", "000"):
                with self.subTest(title(path)):
                    desk = carried(path, self.names).desk
                    tables = Tables(desk.program)
                    self.assertEqual(run(desk.program, tables, desk.accepted, desk.budget), desk.answer)
                    self.assertEqual(tables, desk.tables)

        def test_the_proposals_that_are_taken(self) -> None:
            self.assertEqual({path.stem for path in files("sheet", "desk")}, {*TAKEN, *NOT_UNIQUE})
            for name, taken in TAKEN.items():
                with self.subTest(name):
                    steps = carried(SHEETS / "desk" / f"{name}.sheet", self.names).steps
                    asked = [" ".join(map(str, step.proposal)) for step in steps if step.proposal and step.solver]
                    self.assertEqual(", ".join(asked), taken)
                    self.assertTrue(all(step.solver or step.proposal in (None, (0,)) for step in steps))

        def test_programs_of_000(self) -> None:
            """The desk leaves what the test's `.out` has. Where that has a wrong proposal, no solver has a better one, but for test 7."""
            for path in files("text", "000"):
                with self.subTest(title(path)):
                    answer, tables = carried(path, self.names).desk.answer, carried(path, self.names).desk.tables
                    named = "test07" if path.stem == "test07b" else path.stem
                    lines = path.with_name(f"{named}.out").read_text().splitlines(keepends=True)
                    outcome = int(lines[0].split("=")[1])
                    self.assertEqual(answer.outcome, 6 if outcome >= 16 else outcome)
                    self.assertEqual(str(tables), "".join(lines[4:]))

        def test_overlap(self) -> None:
            desk = carried(SHEETS / "desk" / "overlap.sheet", self.names).desk
            self.assertEqual((desk.answer.outcome, desk.answer.accepted), (Outcome.FINISHED, 13))
            offsets = [desk.tables[f"{name}.offset"] for name in ("upper", "middle", "lower")]
            self.assertIn(offsets, ([16, 200, 304], [16, 208, 304]))

        def test_what_is_printed(self) -> None:
            options = [word for name in self.names for word in ("--solver", name)]
            for path in unique():
                with self.subTest(title(path)):
                    status, printed = page(path, *options)
                    self.assertEqual(status, 1 if carried(path, self.names).desk.answer.outcome else 0)
                    self.compare(printed, path.with_suffix(".shown").read_text())

        def compare(self, printed: str, expected: str) -> None:
            """Compares a page with the one for both solvers: to the byte, or for one of them up to the closing line."""
            if len(self.names) == 1:
                self.assertEqual(parted(printed)[1].split()[0], parted(expected)[1].split()[0])
                printed, expected = parted(printed)[0], re.sub(r"(?m)^    cvc5 .*\n", "", parted(expected)[0])
                expected = re.sub(r"(?m)^    z3\b", f"    {self.names[0]}", expected)
            self.assertEqual(printed, expected)


class WithZ3(Each.Sheets):
    """z3 alone."""

    names = ("z3",)


class WithCvc5(Each.Sheets):
    """cvc5 alone."""

    names = ("cvc5",)


class WithBoth(Each.Sheets):
    """z3, and cvc5 as the second."""

    names = ("z3", "cvc5")

    def test_the_same_structure_as_with_one(self) -> None:
        for path in files("sheet", "desk") + files("text", "000"):
            with self.subTest(title(path)):
                told = [self.shape(carried(path, names)) for names in (("z3",), ("cvc5",), self.names)]
                self.assertEqual(told[0], told[1])
                self.assertEqual(told[0], told[2])

    def shape(self, done: Carried) -> Tuple[object, ...]:
        """Outcome and counts, the statements, records, labels, references and kinds, and what is kept."""
        answer, tables = done.desk.answer, done.desk.tables
        words = [step.statement.word for step in done.steps]
        numbers = (answer.outcome, answer.place, answer.steps, answer.accepted)
        return numbers, words, structure(tables), tables.kept, tables.identities


def unique() -> List[pathlib.Path]:
    """The sheets whose answer is unique."""
    return [path for path in files("sheet", "desk") if path.stem not in NOT_UNIQUE]


def write_shown() -> None:
    """Writes what is printed for each sheet whose answer is unique."""
    for path in unique():
        path.with_suffix(".shown").write_text(page(path, "--solver", "z3", "--solver", "cvc5")[1])


if __name__ == "__main__":
    if sys.argv[1:] == ["--write"]:
        write_shown()
    else:
        unittest.main()
