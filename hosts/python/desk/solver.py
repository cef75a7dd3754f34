"""A hired solver: states a question to it and makes a proposal of its model."""

from __future__ import annotations

import dataclasses
import os
import re
import shlex
import shutil
import time
from typing import Dict, List, Optional, Sequence, Tuple, Union

from cordbasin import Kind
from desk.dialogue import Answer, Dialogue, NoAnswer, OutOfTime
from desk.question import LEAST, LOGIC, MOST, Question

KNOWN = {"z3": ("-in", "-smt2"), "cvc5": ("--lang=smt2", "--incremental")}

ONE_BY_ONE = "could not weigh all wishes at once; they were tried one by one"
UNMET = "says that no change can meet the required parts"

_PROBE = f"""(set-option :produce-models true)
(set-logic {LOGIC})
(declare-const p Bool)
(assert-soft p :weight 1 :id wish)
(check-sat)
"""

Model = Dict[int, Union[bool, int]]


@dataclasses.dataclass(frozen=True)
class Proposed:
    """What came of asking a solver: the words of a proposal, or none; and what there is to say of it, which may be nothing."""

    words: Tuple[int, ...]
    says: str


@dataclasses.dataclass(frozen=True)
class Solver:
    """A solver by the name that it is shown under, its command, its time for a question, and whether it has soft constraints."""

    name: str
    command: Tuple[str, ...]
    seconds: float
    soft: bool

    @staticmethod
    def of(typed: str, seconds: float) -> Solver:
        """The solver of a command as it is typed, which is its name too; NoAnswer where there is no such program."""
        words = _split(typed)
        if not words or shutil.which(words[0]) is None:
            raise NoAnswer("there is no such program")
        options = KNOWN.get(os.path.basename(words[0]), ()) if len(words) == 1 else ()
        command = (*words, *options)
        return Solver(typed, command, seconds, _has_soft(command, seconds))

    def propose(self, question: Question) -> Proposed:
        """Asks for a proposal. With soft constraints the solver has half of its time, and the rest to try the wishes one by one."""
        half, end = (time.monotonic() + share * self.seconds for share in (0.5, 1))
        try:
            model = self._at_once(question, half) if self.soft else None
            if model is not None:
                return Proposed(_words(question, model), "")
            proposed = self._in_steps(question, end)
            return dataclasses.replace(proposed, says=proposed.says or (ONE_BY_ONE if self.soft else ""))
        except NoAnswer as fault:
            return Proposed((), str(fault))

    def _at_once(self, question: Question, end: float) -> Optional[Model]:
        """The model with all wishes as soft constraints, ranked by their order; none where the solver does not know one in time."""
        soft = "".join(f"(assert-soft {term} :weight 1 :id {rank})\n" for rank, term in question.wishes)
        try:
            with Dialogue(self.command, end) as dialogue:
                is_sat = _is_sat(dialogue.ask(question.stated + soft + "(check-sat)\n"))
                return _model(dialogue, question) if is_sat else None
        except OutOfTime:
            return None

    def _in_steps(self, question: Question, end: float) -> Proposed:
        """The model after the wishes were tried in order, each kept where the solver finds that it can be."""
        with Dialogue(self.command, end) as dialogue:
            if not _is_sat(dialogue.ask(question.stated + "(check-sat)\n")):
                raise NoAnswer("does not know an answer")
            model, before = _model(dialogue, question), ""
            try:
                for _, term in question.wishes:
                    is_met = _is_met(dialogue.ask(f"{before}(push 1)\n(assert {term})\n(check-sat)\n"))
                    model, before = (_model(dialogue, question), "") if is_met else (model, "(pop 1)\n")
            except NoAnswer as fault:
                return Proposed(_words(question, model), f"{fault}; some wishes were not tried")
        return Proposed(_words(question, model), "")


def _split(typed: str) -> List[str]:
    try:
        return shlex.split(typed)
    except ValueError as fault:
        raise NoAnswer(f"is no command: {fault}") from fault


def solvers(commands: Sequence[str], seconds: float) -> Tuple[List[Solver], List[str]]:
    """The solvers of these commands that can be started, and what to say of the others. One that is named twice is told apart."""
    found: List[Solver] = []
    missing = []
    for command in commands:
        try:
            solver = Solver.of(command, seconds)
        except NoAnswer as fault:
            missing.append(f"{command}: {fault}")
            continue
        is_second = any(solver.name == other.name for other in found)
        found.append(dataclasses.replace(solver, name=f"{solver.name} (second)") if is_second else solver)
    return found, missing


def _has_soft(command: Sequence[str], seconds: float) -> bool:
    """Whether the solver knows soft constraints, as an example shows. One that cannot answer is told so when it is asked."""
    try:
        with Dialogue(command, time.monotonic() + seconds) as dialogue:
            return dialogue.ask(_PROBE) == "sat" and dialogue.ask("(get-value (p))\n") == [["p", "true"]]
    except NoAnswer:
        return False


def _is_sat(answer: Answer) -> bool:
    if answer == "unsat":
        raise NoAnswer(UNMET)
    return _is_met(answer)


def _is_met(answer: Answer) -> bool:
    if answer not in ("sat", "unsat", "unknown"):
        raise NoAnswer(f"said what is no answer to a check: {_shown(answer)}")
    return answer == "sat"


def _model(dialogue: Dialogue, question: Question) -> Model:
    """What the solver's model has for the cells: whatever it says of a cell, be it one that was asked about or another."""
    if not question.cells:
        return {}
    answer = dialogue.ask(f"(get-value ({' '.join(cell.symbol for cell in question.cells)}))\n")
    if not isinstance(answer, list) or not answer:
        raise NoAnswer(f"said what is no model: {_shown(answer)}")
    model: Model = {}
    for pair in answer:
        symbol = pair[0] if isinstance(pair, list) and len(pair) == 2 else None
        if (
            not isinstance(pair, list)
            or not isinstance(symbol, str)
            or not re.fullmatch(r"c(0|[1-9][0-9]{0,8})", symbol)
        ):
            raise NoAnswer(f"said what is no model: {_shown(answer)}")
        model[int(symbol[1:])] = _value(pair[1])
    return model


def _value(term: Answer) -> Union[bool, int]:
    """A boolean, or an integer such as 5 or (- 5)."""
    if term in ("true", "false"):
        return term == "true"
    minus = isinstance(term, list) and len(term) == 2 and term[0] == "-"
    digits = term[1] if minus else term
    if not isinstance(digits, str) or not re.fullmatch(r"[0-9]{1,400}", digits):
        raise NoAnswer(f"gave what is no value of a cell: {_shown(term)}")
    number = -int(digits) if minus else int(digits)
    if not LEAST <= number <= MOST:
        raise NoAnswer(f"gave a value outside 32 bits: {_shown(str(number))}")
    return number


def _words(question: Question, model: Model) -> Tuple[int, ...]:
    """The proposal of a model: each cell that it has another payload for, in rising order."""
    known = {cell.location: cell for cell in question.cells}
    changes = []
    for location in sorted(model):
        value, cell = model[location], known.get(location)
        if cell and isinstance(value, bool) != (cell.kind == Kind.BOOLEAN):
            raise NoAnswer(f"gave {_shown(str(value).lower())} for a cell of another kind, {cell.symbol}")
        if cell is None or int(value) != cell.payload:
            changes += [location, int(value)]
    return (len(changes) // 2, *changes)


def _shown(answer: Answer) -> str:
    """The beginning of an answer, on one line and in characters that can be printed."""
    text = answer if isinstance(answer, str) else "(" + " ".join(_shown(piece) for piece in answer[:4]) + ")"
    text = "".join(sign if sign.isprintable() else "?" for sign in text)
    return text if len(text) <= 60 else text[:57] + "..."
