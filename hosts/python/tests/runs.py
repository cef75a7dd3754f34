"""Runs of the desk with solvers that lie, and what has to hold of every one."""

from __future__ import annotations

import collections
import dataclasses
import functools
import json
import os
import pathlib
import random
import re
import shutil
import sys
import time
import traceback
from typing import Counter, Dict, List, Optional, Sequence, Set, Tuple, Union

from cordbasin import Kind, Outcome, Program, Tables
from cordbasin.tables import FIELDS, RECORD_WORDS, VARIABLES
from desk.pieces import REQUIRED
from desk.question import Question, after_identities, parts_due, target_location
from desk.shown import as_json, closing, left_lines, step_lines
from desk.solver import KNOWN, Proposed, Solver
from desk.stepping import Desk, Step, TurnedDown
from tests.common import ROOT, is_true, structure, unmet
from tests.liar import LOCATIONS, SORTS, Real

LIAR = pathlib.Path(__file__).with_name("liar.py")
HONEST = [name for name in KNOWN if shutil.which(name)]
SLOW = frozenset("silent drip busy deaf mute brackets unclosed rubbish forks turns".split())
LONG = frozenset("flood huge wordy".split())
PATIENCE, HONEST_SECONDS, SLACK = 8.0, 30.0, 3.0
BUDGET = 60
MARK = "CORDBASIN_LYING_RUN"

_OWN = {
    "booleans": """lamp := new {on: true, off: false, hot: false};
        always required lamp.on != lamp.off; always required lamp.hot = false or lamp.on;
        lamp.off := true; lamp.hot := true; lamp.on := false""",
    "identities": """a := new {n: 1, twice: 2}; b := a; always a == b; always required a.twice = 2 * b.n;
        b.n := 5; b := new {n: 4, twice: 0}; once a == b; a.n := 7""",
    "only wishes": """x := new {a: 1, b: 2, c: true}; always weak x.a = 5 /\\ medium x.b > 10;
        always weak x.c = false /\\ weak x.a < 4; x.b := 3; y := x.a; x.a := y + 1""",
    "loop": """n := 0; x := new {n: 0, triple: 0}; always required x.triple = 3 * x.n;
        while n < 4 do {x.n := x.n + 1; n := n + 1}; once required x.triple = 3 * n""",
    "loop to a flag": """at := new {i: 0, end: false}; always required at.end = (at.i >= 3);
        while at.end = false do {at.i := at.i + 1}""",
    "nil": """log := new {next: nil, count: 2, full: false};
        always required log.next = nil /\\ required log.full = (log.count >= 10); log.count := 12;
        if log.full then {log.count := 3} else {log.count := 4}; once weak log.count = 5 /\\ required log.count > 0""",
    "variables": """depth := 10; cores := 2; always required depth = 5 * cores /\\ required cores >= 0;
        depth := 30; cores := 1; once medium depth = 40""",
    "ends of 32 bits": """x := new {a: 2147483647, b: 0}; always required x.a + x.b = 2147483647;
        x.b := 1; x.a := -1; x.b := 2147483647; x.b := -1""",
}


@functools.lru_cache(maxsize=None)
def sheets() -> Dict[str, Program]:
    """The desk's sheets and those that stand here."""
    texts = {place.stem: place.read_text("ascii") for place in sorted((ROOT / "sheets" / "desk").glob("*.sheet"))}
    return {name: Program.read(text) for name, text in {**texts, **_OWN}.items()}


@dataclasses.dataclass(frozen=True)
class Lied:
    """A liar of a plan. Its name is what the desk shows it under."""

    sort: str
    seed: int
    seconds: float
    soft: bool
    real: Tuple[str, ...]

    @property
    def name(self) -> str:
        """Its sort, and what tells it from another of the same."""
        return f"{self.sort} {self.seed}"

    @property
    def command(self) -> Tuple[str, ...]:
        """How it is started."""
        return (sys.executable, "-S", "-E", str(LIAR), self.sort, str(self.seed), *self.real)


Asked = Tuple[Union[Lied, str], ...]


@dataclasses.dataclass(frozen=True)
class Plan:
    """A run: a sheet, who is asked first and who second, an honest solver by its name."""

    number: int
    sheet: str
    asked: Asked

    @property
    def liars(self) -> List[Lied]:
        """The liars among them."""
        return [each for each in self.asked if isinstance(each, Lied)]

    @property
    def honest(self) -> Optional[str]:
        """The honest solver, where there is one."""
        return next((each for each in self.asked if isinstance(each, str)), None)


def plans(count: int) -> List[Plan]:
    """So many runs, always the same ones. Sorts and honest solvers come in turn. The order is drawn: of five runs some three have the
    liar first, one has it second, and one has two liars."""
    made = []
    for number in range(count):
        draw = random.Random(f"lying {number}")
        sort = list(SORTS)[number % len(SORTS)]
        honest = HONEST[(number + number // len(SORTS)) % len(HONEST)]
        first = _lied(draw, sort, 2 * number, honest)
        other = _lied(draw, draw.choice(list(SORTS)), 2 * number + 1, honest)
        orders: List[Asked] = 3 * [(first, honest)] + [(honest, first), (first, other)]
        asked = draw.choice(orders)
        made.append(Plan(number, draw.choice(list(sheets())), asked))
    return made


def _lied(draw: random.Random, sort: str, seed: int, honest: str) -> Lied:
    seconds = draw.uniform(0.1, 0.3) if sort in SLOW else 1.5 if sort in LONG else PATIENCE
    soft = honest_solver(honest).soft if issubclass(SORTS[sort], Real) else draw.random() < 0.5
    return Lied(sort, seed, seconds, soft, (honest, *KNOWN[honest]))


@dataclasses.dataclass(frozen=True)
class Watched(Solver):
    """A solver whose proposals are noted, with the time that each took."""

    told: List[Tuple[float, Proposed]] = dataclasses.field(default_factory=list)

    def propose(self, question: Question) -> Proposed:
        began = time.monotonic()
        proposed = super().propose(question)
        self.told.append((time.monotonic() - began, proposed))
        return proposed


@dataclasses.dataclass
class Tally:
    """What became of one sort of lie."""

    runs: int = 0
    asked: int = 0
    taken: int = 0
    none: int = 0
    numbers: Counter[int] = dataclasses.field(default_factory=collections.Counter)
    words: Counter[str] = dataclasses.field(default_factory=collections.Counter)

    def add(self, other: Tally) -> None:
        """Takes another's numbers in."""
        self.runs, self.asked = self.runs + other.runs, self.asked + other.asked
        self.taken, self.none = self.taken + other.taken, self.none + other.none
        self.numbers += other.numbers
        self.words += other.words


@dataclasses.dataclass
class Report:
    """What came of a run: the liars' tallies by their sorts, and what was wrong, if anything."""

    plan: Plan
    tallies: List[Tuple[str, Tally]] = dataclasses.field(default_factory=list)
    fault: str = ""


@dataclasses.dataclass(frozen=True)
class Alone:
    """How a sheet goes with an honest solver alone: outcome and place, the statements' words in turn, and the tables."""

    end: Tuple[int, int]
    words: Tuple[int, ...]
    tables: Tables


@functools.lru_cache(maxsize=None)
def alone(sheet: str, honest: str) -> Alone:
    """The sheet with the honest solver alone."""
    desk = Desk(sheets()[sheet], [honest_solver(honest)], BUDGET)
    words = tuple(step.statement.word for step in watched_steps(desk))
    return Alone((desk.answer.outcome.value, desk.answer.place), words, desk.tables)


@functools.lru_cache(maxsize=None)
def honest_solver(name: str) -> Solver:
    """A solver that is installed."""
    return Solver.of(name, HONEST_SECONDS)


def carry_out(plan: Plan) -> Report:
    """Carries out a plan and looks at everything that has to hold. What is wrong is told as text, for another process."""
    report = Report(plan)
    os.environ[MARK] = f"{os.getpid()}.{plan.number}"
    try:
        _carry_out(plan, report)
    except Exception:
        report.fault = f"{plan}\n{traceback.format_exc()}"
    finally:
        del os.environ[MARK]
    return report


def _carry_out(plan: Plan, report: Report) -> None:
    asked = [
        Watched(each.name, each.command, each.seconds, each.soft)
        if isinstance(each, Lied)
        else honest_solver(str(each))
        for each in plan.asked
    ]
    desk = Desk(sheets()[plan.sheet], asked, BUDGET)
    steps = watched_steps(desk)
    for lied, solver in zip(plan.asked, asked):
        if isinstance(lied, Lied) and isinstance(solver, Watched):
            report.tallies.append((lied.sort, tally(solver, steps)))
            for seconds, _ in solver.told:
                assert seconds <= solver.seconds + SLACK, f"{seconds} s for {solver.seconds} s"
    if plan.honest is not None:
        compare(desk, steps, alone(plan.sheet, plan.honest), {lied.name for lied in plan.liars})
    assert not children(), "a child of the desk is left"
    assert not left_behind(os.environ[MARK]), "a process is left behind"


def watched_steps(desk: Desk) -> List[Step]:
    """Carries the desk through its sheet, with a look at the tables before and after every step, at the replay and at what is shown."""
    steps = []
    before = desk.tables.copy()
    for step in desk.steps():
        steps.append(step)
        assert not unmet(desk.tables), unmet(desk.tables)
        look_at_step(before, desk, step)
        before = desk.tables.copy()
    desk.replay()
    shown = [line for step in steps for line in step_lines(step)] + left_lines(desk.tables)
    shown += closing(desk, steps).splitlines()
    assert all(line.isprintable() for line in shown), f"what is shown cannot be printed: {shown}"
    json.dumps(as_json(desk, steps))
    return steps


def look_at_step(before: Tables, desk: Desk, step: Step) -> None:
    """A taken proposal is legal and changes what it says, and nothing else; a refusal is right, has fit words and changes nothing."""
    word = step.statement.word
    assert step.note.isprintable() and len(step.note) < 200, f"a note that cannot be shown: {step.note!r}"
    for each in step.turned_down:
        look_at_words(each)
        if each.outcome is not None:
            assert each.outcome == judged(before, word, each.proposal), f"{each} is the wrong number"
    if step.proposal is not None:
        assert judged(before, word, step.proposal) == 0, f"{step.proposal} should not have been taken"
        state = after_identities(before, word)
        put(state, step.proposal)
        assert (state.environment, state.heap) == (
            desk.tables.environment,
            desk.tables.heap,
        ), "other cells were changed"
        told = [(change.location, change.after) for change in step.changes]
        made = [(location, desk.tables.value(location)) for location in step.proposal[1::2]]
        assert told == made, "other changes are told than were made"
    elif desk.answer.outcome not in (Outcome.FINISHED, Outcome.BUDGET_SPENT):
        assert desk.tables == before, "a refused statement has changed something"


def look_at_words(each: TurnedDown) -> None:
    """What is said of a refused solver can be shown: one short line of printable characters."""
    assert each.says.strip(), "there are no words"
    for text in (each.says, str(each)):
        assert text.isprintable() and len(text) < 200, f"words that cannot be shown: {text!r}"
    assert each.outcome in (None, 16, 17, 18, 19), f"{each.outcome} is no refusal of a proposal"
    assert (each.outcome is None) == (each.proposal == ()), "a number without a proposal, or none for one"


def judged(before: Tables, word: int, proposal: Sequence[int]) -> int:
    """The number that document 01 gives a proposal, worked out beside the proved judge; 0 for one that is taken."""
    locations, payloads = proposal[1::2], proposal[2::2]
    if list(locations) != sorted(set(locations)) or not all(0 <= location < LOCATIONS for location in locations):
        return 16
    state, target = after_identities(before, word), target_location(before, word)
    for location, payload in zip(locations, payloads):
        kind, old = state.cell(location)
        fits = kind == Kind.INTEGER or (kind == Kind.BOOLEAN and payload in (0, 1))
        if not fits or payload == old or location == target:
            return 17
    due = parts_due(before, word)
    if locations and all(is_true(state, part.words) for part in due):
        return 18
    put(state, proposal)
    return 0 if all(is_true(state, part.words) for part in due if part.priority == REQUIRED) else 19


def put(state: Tables, proposal: Sequence[int]) -> None:
    """Puts the payloads of a proposal into the tables."""
    for location, payload in zip(proposal[1::2], proposal[2::2]):
        record, place = divmod(location - VARIABLES, FIELDS)
        if location < VARIABLES:
            state.environment[2 * location + 1] = payload
        else:
            state.heap[1 + RECORD_WORDS * record + 1 + 3 * place + 2] = payload


def compare(desk: Desk, steps: Sequence[Step], honest: Alone, liars: Set[str]) -> None:
    """Where nothing of a liar's was taken the run ends as without it. Where the same statements were done the structure is the same."""
    end = (desk.answer.outcome.value, desk.answer.place)
    if not any(step.solver in liars for step in steps):
        assert end == honest.end, f"the run ends with {end}, without the liar with {honest.end}"
        assert desk.tables == honest.tables, "the run leaves other tables than without the liar"
    alike = tuple(step.statement.word for step in steps) == honest.words
    if alike and end[0] == honest.end[0] == Outcome.FINISHED:
        assert structure(desk.tables) == structure(honest.tables), "the structure differs"
        assert desk.tables.constraints == honest.tables.constraints, "something else is kept"


def tally(solver: Watched, steps: Sequence[Step]) -> Tally:
    """What became of a liar's proposals."""
    told = Tally(runs=1, asked=len(solver.told))
    for step in steps:
        if step.solver == solver.name:
            told.taken += 1
            told.words.update(_general(step.note))
        for each in step.turned_down:
            if each.solver == solver.name and each.outcome is None:
                told.none += 1
                told.words.update(_general(each.says))
            elif each.solver == solver.name:
                told.numbers[each.outcome or 0] += 1
    return told


def _general(says: str) -> List[str]:
    """The words without what they quote."""
    quoted = re.sub(r"gave \S+ for", "gave ... for", re.sub(r"c\d+", "c..", says))
    return [re.sub(r": .*?(?=; some wishes|$)", ": ...", quoted)] if says else []


def children() -> bool:
    """Whether this process has a child, be it one that has ended."""
    try:
        os.waitpid(-1, os.WNOHANG)
    except ChildProcessError:
        return False
    return True


def left_behind(mark: str) -> List[int]:
    """The processes under a mark that are still there after a while."""
    for _ in range(40):
        if not marked(mark):
            break
        time.sleep(0.05)
    return marked(mark)


def marked(mark: str) -> List[int]:
    """The processes that have the mark in the environment that they were started with. Where there is no /proc none is found."""
    entry, found = f"{MARK}={mark}".encode(), []
    for name in os.listdir("/proc") if os.path.isdir("/proc") else []:
        try:
            if name.isdigit() and entry in pathlib.Path("/proc", name, "environ").read_bytes().split(b"\0"):
                found.append(int(name))
        except OSError:
            continue  # it is gone, or is not ours to look at
    return found
