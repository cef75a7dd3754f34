"""Sheets, and words taken apart, for the tests."""

from __future__ import annotations

import contextlib
import dataclasses
import os
import pathlib
import shutil
import unittest
from typing import Dict, Iterator, List, Optional, Sequence, Tuple, Union
from unittest import mock

from cordbasin import Outcome, Program, Reference, Tables, Value, run
from cordbasin.library import PLACE

ROOT = pathlib.Path(__file__).resolve().parents[3]
SHEETS = ROOT / "sheets"
LEAST, MOST = -(2**31), 2**31 - 1

SHEET = "x := new {bytes: 64, samples: 16};\nalways required x.bytes = 4 * x.samples;\nx.samples := 32"
P = [int(word) for word in "3 2 0 2 0 23 64 1 23 16 3 1 3 25 6 24 0 1 0 25 3 23 4 24 0 1 1 1 0 1 1 23 32".split()]
K1 = [0, 0, 1, 64, 128]


def files(ending: str, *folders: str) -> List[pathlib.Path]:
    """The sheets with an ending, of some folders or of all, in order."""
    return sorted(path for folder in folders or ("**",) for path in SHEETS.glob(f"{folder}/*.{ending}"))


def title(path: pathlib.Path) -> str:
    """A sheet as a failure names it."""
    return str(path.relative_to(SHEETS))


def numbers(line: str) -> List[int]:
    """The numbers of a line."""
    return [int(word) for word in line.split()]


def named_lines(text: str) -> Dict[str, str]:
    """Lines such as `place=27` by their names."""
    return dict(line.split("=", 1) for line in text.splitlines())


@dataclasses.dataclass(frozen=True)
class Listed:
    """What a lister's input says."""

    program: List[int]
    proposals: List[int]
    budget: int

    @staticmethod
    def of(path: pathlib.Path) -> Listed:
        """The input in a file."""
        lines = named_lines(path.read_text())
        return Listed(numbers(lines["program"]), numbers(lines["proposals"]), int(lines["budget"]))


def is_listed(path: pathlib.Path) -> bool:
    """Whether the lister takes the input in a file."""
    return not path.with_suffix(".out").read_text().startswith("input=")


def readable(path: pathlib.Path) -> Optional[Program]:
    """The program of a text; none where it is refused."""
    read = path.with_suffix(".read")
    is_refused = read.exists() and not read.read_text().startswith("outcome=0\n")
    return None if is_refused else Program.read(path.read_bytes())


def why_left_out(*solvers: str) -> str:
    """Why a test that needs these solvers is left out; nothing where all of them are there."""
    missing = [name for name in solvers if shutil.which(name) is None]
    return f"left out: {' and '.join(missing)} {'is' if len(missing) == 1 else 'are'} not installed" if missing else ""


def left_out(test: unittest.TestCase, *solvers: str) -> None:
    """Leaves a test out where a solver that it needs is missing."""
    if why_left_out(*solvers):
        test.skipTest(why_left_out(*solvers))


@contextlib.contextmanager
def with_library() -> Iterator[None]:
    """Has the desk take the library that is there, and make none."""
    with mock.patch.dict(os.environ, {"CORDBASIN_LIBRARY": os.environ.get("CORDBASIN_LIBRARY", str(PLACE))}):
        yield


def left(text: str, proposals: Sequence[int], budget: int = 1000) -> Tables:
    """The tables that a run of a text leaves, whatever its outcome."""
    program = Program.read(text)
    tables = Tables(program)
    run(program, tables, proposals, budget)
    return tables


def stopped(text: str, proposals: Sequence[int] = ()) -> Tuple[Tables, int]:
    """The state before the last statement that a run with zeros behind the proposals comes to, and its word."""
    program = Program.read(text)
    found: Optional[Tuple[Tables, int]] = None
    for count in range(20):
        tables = Tables(program)
        answer = run(program, tables, [*proposals, *[0] * count], 1000)
        if answer.outcome != Outcome.NO_PROPOSAL:
            break
        found = tables, answer.place
    assert found is not None
    return found


@dataclasses.dataclass
class Stated:
    """A statement taken apart: its word, the word behind it or behind its test, its parts, and where names stand."""

    word: int
    sort: int
    end: int = 0
    parts: List[Tuple[int, int]] = dataclasses.field(default_factory=list)
    variables: List[int] = dataclasses.field(default_factory=list)
    labels: List[int] = dataclasses.field(default_factory=list)


class Apart:
    """Takes a program apart, by document 01 and by nothing of the desk."""

    def __init__(self, words: Sequence[int]) -> None:
        self._words = words
        self.statements: List[Stated] = []
        self._block(0)

    def _block(self, at: int) -> int:
        count, at = self._words[at], at + 1
        for _ in range(count):
            at = self._statement(at)
        return at

    def _statement(self, at: int) -> int:
        stated = Stated(at, self._words[at])
        self.statements.append(stated)
        stated.end = self._inner(stated, at + 1)
        blocks = {7: 2, 8: 1}.get(stated.sort, 0)
        at = stated.end
        for _ in range(blocks):
            at = self._block(at)
        return at

    def _inner(self, stated: Stated, at: int) -> int:
        if stated.sort == 0:
            return at
        if stated.sort == 1:
            return self._expression(stated, self._path(stated, at))
        if stated.sort == 2:
            stated.variables.append(at)
            return self._fields(stated, at + 1)
        if stated.sort in (3, 4):
            return self._parts(stated, at)
        if stated.sort in (5, 6):
            return self._path(stated, self._path(stated, at))
        return self._expression(stated, at)

    def _fields(self, stated: Stated, at: int) -> int:
        count, at = self._words[at], at + 1
        for _ in range(count):
            stated.labels.append(at)
            at = self._expression(stated, at + 1)
        return at

    def _parts(self, stated: Stated, at: int) -> int:
        count, at = self._words[at], at + 1
        for _ in range(count):
            end = self._expression(stated, at + 1)
            stated.parts.append((at, end))
            at = end
        return at

    def _path(self, stated: Stated, at: int) -> int:
        end = at + 2 + self._words[at + 1]
        stated.variables.append(at)
        stated.labels += range(at + 2, end)
        return end

    def _expression(self, stated: Stated, at: int) -> int:
        sort = self._words[at]
        if sort == 25:
            return self._expression(stated, self._expression(stated, at + 2))
        if sort == 24:
            return self._path(stated, at + 1)
        if sort == 26:
            return self._path(stated, self._path(stated, at + 1))
        return at + 2 if sort == 23 else at + 1


def renumbered(words: Sequence[int], stated: Stated, start: int, end: int) -> List[int]:
    """Words of a statement with its variables and labels numbered anew, as reading them alone numbers them."""
    told = list(words)
    for places in (stated.variables, stated.labels):
        known: Dict[int, int] = {}
        for place in places:
            if start <= place < end:
                told[place] = known.setdefault(words[place], len(known))
    return told[start:end]


class Overflow(Exception):
    """A result of arithmetic that leaves 32 bits."""


def is_true(tables: Tables, words: Sequence[int]) -> bool:
    """Whether the expression of a part is true in a state, by document 01 and by nothing of the desk."""
    try:
        return _worked(tables, iter(words)) is True
    except Overflow:
        return False


def _worked(tables: Tables, words: Iterator[int]) -> Value:
    sort = next(words)
    if sort == 25:
        operator = next(words)
        return _result(operator, _worked(tables, words), _worked(tables, words))
    if sort == 24:
        return _held(tables, words)
    literals: Dict[int, Union[None, bool]] = {20: None, 21: False, 22: True}
    return literals[sort] if sort in literals else next(words)


def _held(tables: Tables, words: Iterator[int]) -> Value:
    """What a path leads to, read from the words of the tables themselves."""
    at = 2 * next(words)
    kind, payload = tables.environment[at], tables.environment[at + 1]
    for _ in range(next(words)):
        record, label = 1 + 25 * payload, next(words)
        fields = (record + 1 + 3 * place for place in range(tables.heap[record]))
        field = next(field for field in fields if tables.heap[field] == label)
        kind, payload = tables.heap[field + 1], tables.heap[field + 2]
    return {1: None, 2: payload == 1, 3: payload, 4: Reference(payload)}[kind]


def _result(operator: int, first: Value, second: Value) -> Value:
    if operator == 6:
        return first == second
    if operator == 7:
        return first != second
    assert isinstance(first, int) and isinstance(second, int)
    if operator in (10, 11):
        return bool(first and second) if operator == 10 else bool(first or second)
    if operator <= 3:
        number = {1: first + second, 2: first - second, 3: first * second}[operator]
        if not LEAST <= number <= MOST:
            raise Overflow
        return number
    return {4: first < second, 5: first <= second, 8: first >= second, 9: first > second}[operator]


def unmet(tables: Tables) -> List[str]:
    """The required parts and identities that are kept and do not hold in a state."""
    words = tables.program.words
    told = []
    for stated in Apart(words).statements:
        if stated.word in tables.kept:
            told += [
                f"part at {at}"
                for at, end in stated.parts
                if words[at] == 3 and not is_true(tables, words[at + 1 : end])
            ]
        if stated.word in tables.identities:
            sides = iter(words[stated.word + 1 : stated.end])
            left_side, right_side = _held(tables, sides), _held(tables, sides)
            if left_side != right_side or isinstance(left_side, int):
                told.append(f"identity at {stated.word}")
    return told


def structure(tables: Tables) -> List[Tuple[int, ...]]:
    """Location, label and kind of every cell, and of references the record."""
    labels = {place: label for record in range(tables.records) for label, place in tables.fields(record)}
    told: List[Tuple[int, ...]] = []
    for location in tables.locations():
        kind, payload = tables.cell(location)
        told.append((location, labels.get(location, -1), kind, payload if kind == 4 else 0))
    return told
