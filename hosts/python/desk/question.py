"""What a solver is asked about a statement, in the terms of SMT-LIB 2."""

from __future__ import annotations

import dataclasses
from typing import Dict, List, Optional, Tuple

from cordbasin import Kind, Outcome, Tables, Value, ask
from cordbasin.calls import run_words
from cordbasin.tables import value_of
from desk.pieces import (
    ALWAYS,
    ASSIGN,
    NEW,
    ONCE,
    REQUIRED,
    Expression,
    Literal,
    Operation,
    Part,
    Path,
    parts_at,
    target_at,
)

LEAST, MOST = -(2**31), 2**31 - 1
LOGIC = "QF_NIA"  # whole numbers with products, and no quantifiers
_ARITHMETIC = {1: "+", 2: "-", 3: "*"}
_SIGNS = {**_ARITHMETIC, 4: "<", 5: "<=", 6: "=", 7: "distinct", 8: ">=", 9: ">", 10: "and", 11: "or"}
_EQUAL = 6


@dataclasses.dataclass(frozen=True)
class Cell:
    """A cell that a proposal may change, with what it holds."""

    location: int
    kind: int
    payload: int

    @property
    def symbol(self) -> str:
        """Its name in the terms."""
        return f"c{self.location}"

    @property
    def sort(self) -> str:
        """Its sort in SMT-LIB 2."""
        return "Int" if self.kind == Kind.INTEGER else "Bool"

    @property
    def keeps(self) -> str:
        """That it keeps its value."""
        return f"(= {self.symbol} {_literal(value_of(self.kind, self.payload))})"


@dataclasses.dataclass(frozen=True)
class Question:
    """The cells that may change and that a part speaks of, and the parts as terms: those required, and the wishes in their order."""

    cells: Tuple[Cell, ...]
    required: Tuple[str, ...]
    medium: Tuple[str, ...]
    weak: Tuple[str, ...]

    @property
    def wishes(self) -> List[Tuple[str, str]]:
        """Every wish with its rank: medium, then weak, and last that each cell keeps its value."""
        keeps = tuple(cell.keeps for cell in self.cells)
        ranks = (("medium", self.medium), ("weak", self.weak), ("keep", keeps))
        return [(rank, term) for rank, terms in ranks for term in terms]

    @property
    def stated(self) -> str:
        """The cells, each within 32 bits, and the required parts, as commands."""
        lines = ["(set-option :produce-models true)", f"(set-logic {LOGIC})"]
        for cell in self.cells:
            lines.append(f"(declare-const {cell.symbol} {cell.sort})")
            if cell.kind == Kind.INTEGER:
                lines.append(f"(assert {_fits(cell.symbol)})")
        return "\n".join(lines + [f"(assert {term})" for term in self.required]) + "\n"


def holds(tables: Tables, part: Part) -> bool:
    """Whether a part is satisfied: the proved run is asked whether it holds once, with no change."""
    once = [1, ONCE, 1, REQUIRED, *part.words]
    state = tables.copy()
    nothing_kept = Tables(tables.program).constraints
    answer = run_words(once, state.environment, state.heap, nothing_kept, [0], 1)
    return answer[0] == Outcome.FINISHED


def after_identities(tables: Tables, word: int) -> Tables:
    """The state in which a statement's proposal is judged: the one that the statement leaves where no value constraint is kept."""
    state = tables.copy()
    if tables.program.words[word] in (ASSIGN, NEW):
        state.keep_no_values()
        ask(tables.program, state, word, [0])
        state.constraints = tables.constraints[:]
    return state


def parts_due(tables: Tables, word: int) -> List[Part]:
    """The parts of the kept constraints, in kept order, and then of the statement's own."""
    own = [word] if tables.program.words[word] in (ALWAYS, ONCE) else []
    return [part for position in tables.kept + own for part in parts_at(tables.program, position)]


def target_location(tables: Tables, word: int) -> Optional[int]:
    """The cell that the statement at a word sets, which its proposal may not change; a constraint sets none."""
    if tables.program.words[word] not in (ASSIGN, NEW):
        return None
    path = target_at(tables.program, word).numbers
    return path[0] if len(path) == 1 else tables.location(path)


def question(tables: Tables, state: Tables, word: int) -> Question:
    """The question of the statement at a word: tables are those before it, state what its identity phase leaves."""
    writer = _Writer(state, target_location(tables, word))
    terms: Dict[int, List[str]] = {3: [], 2: [], 1: []}
    for part in parts_due(tables, word):
        terms[part.priority].append(writer.part(part.expression))
    cells = tuple(writer.cells[location] for location in sorted(writer.cells))
    return Question(cells, tuple(terms[REQUIRED]), tuple(terms[2]), tuple(terms[1]))


class _Writer:
    """Writes expressions as terms. A path leads to its cell in the state; a cell that may not change is written as what it holds."""

    def __init__(self, state: Tables, target: Optional[int]) -> None:
        self._state = state
        self._target = target
        self.cells: Dict[int, Cell] = {}

    def part(self, expression: Expression) -> str:
        """That a part is satisfied: it is true, and each result on the way fits 32 bits."""
        fits: List[str] = []
        term = self._term(expression, fits)
        return f"(and {' '.join(fits)} {term})" if fits else term

    def _term(self, expression: Expression, fits: List[str]) -> str:
        if isinstance(expression, Literal):
            return _literal(expression.value)
        if isinstance(expression, Path):
            return self._cell(expression)
        return self._operation(expression, fits)

    def _operation(self, operation: Operation, fits: List[str]) -> str:
        left, right = self._term(operation.left, fits), self._term(operation.right, fits)
        if "nil" in (left, right):
            return "true" if operation.operator == _EQUAL else "false"
        term = f"({_SIGNS[operation.operator]} {left} {right})"
        if operation.operator in _ARITHMETIC:
            fits.append(_fits(term))
        return term

    def _cell(self, path: Path) -> str:
        location = self._state.location(path.numbers)
        if location is None:
            raise ValueError("a path of a constraint that reads leads to no cell")
        kind, payload = self._state.cell(location)
        if location == self._target or kind not in (Kind.INTEGER, Kind.BOOLEAN):
            return _literal(value_of(kind, payload))
        cell = self.cells.setdefault(location, Cell(location, kind, payload))
        return cell.symbol


def _literal(value: Value) -> str:
    if isinstance(value, bool):
        return "true" if value else "false"
    if isinstance(value, int):
        return str(value) if value >= 0 else f"(- {-value})"
    return "nil"


def _fits(term: str) -> str:
    return f"(<= {_literal(LEAST)} {term} {MOST})"
