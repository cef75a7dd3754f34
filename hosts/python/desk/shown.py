"""What a person sees, and the same for programs."""

from __future__ import annotations

from typing import Dict, Iterator, List, Sequence

from cordbasin import Outcome, Reference, Refusal, Tables
from cordbasin.program import shown_refusal
from cordbasin.tables import VARIABLES, plain_of
from desk.cells import Change, Names
from desk.pieces import PRIORITIES, Part, parts_at, statement_at
from desk.question import holds
from desk.stepping import Desk, Step, TurnedDown

_INDENT = "    "


def step_lines(step: Step) -> List[str]:
    """A step: its line and text, and below it what came of it."""
    below = [f"tied: {change}" for change in step.tied]
    below += [str(each) for each in step.turned_down]
    if step.solver is not None:
        taken = ", ".join(str(change) for change in step.changes) or "no change"
        below.append(f"{step.solver}'s proposal was taken: {taken}")
    if step.note:
        below.append(f"{step.solver} {step.note}")
    return [f"{step.statement.line:>3} {step.statement.text}"] + [_INDENT + line for line in below]


def left_lines(tables: Tables) -> List[str]:
    """What is left at the end: the records and variables by name, and what is kept, with the wishes that are not met."""
    lines = ["", "Records"] + [_INDENT + line for line in _value_lines(tables)]
    if tables.kept or tables.identities:
        lines += ["", "Kept"] + list(_kept_lines(tables))
    return lines + [""]


def closing(desk: Desk, steps: Sequence[Step]) -> str:
    """How it ended: one line, and for a refusal the typed line with a mark under the place."""
    answer = desk.answer
    if answer.outcome == Outcome.FINISHED:
        taken = [f"{solver.name} {_taken(steps, solver.name)}" for solver in desk.solvers]
        told = f"{answer.steps} steps, {answer.accepted} proposals taken ({', '.join(taken)}, no change needed {_taken(steps, None)})"
        return f"Finished: {told}; replayed to the same words"
    if answer.outcome == Outcome.NO_PROPOSAL and answer.spot:
        told = "no proposal was taken; " + "; ".join(str(each) for each in steps[-1].turned_down)
        return "Refused: " + shown_refusal(answer.outcome, told, answer.spot)
    return f"Refused: {answer}"


def as_json(desk: Desk, steps: Sequence[Step]) -> Dict[str, object]:
    """The whole run for programs."""
    answer, tables, spot = desk.answer, desk.tables, desk.answer.spot
    return {
        "outcome": answer.outcome.value,
        "says": answer.outcome.says,
        "word": answer.place,
        "line": spot.line if spot else None,
        "column": spot.column if spot else None,
        "steps": answer.steps,
        "accepted": answer.accepted,
        "statements": [_step_json(step) for step in steps],
        **tables.plain(),
        "kept": [_kept_json(tables, position) for position in tables.kept],
        "identities": [_statement_json(tables, position) for position in tables.identities],
        "proposals": desk.accepted,
    }


def refusal_json(refusal: Refusal) -> Dict[str, object]:
    """A text that is no program, for programs."""
    outcome, spot = refusal.outcome, refusal.spot
    return {"outcome": outcome.value, "says": outcome.says, "byte": spot.byte, "line": spot.line, "column": spot.column}


def lister_input(desk: Desk) -> str:
    """The run as the run lister reads it: the program, the accepted proposals, and the budget."""
    program, proposals = (" ".join(map(str, words)) for words in (desk.program.words, desk.accepted))
    return f"program={program}\nproposals={proposals}\nbudget={desk.budget}\n"


def _value_lines(tables: Tables) -> Iterator[str]:
    """A line for each variable, with the fields where it is its record's first name; then one for each other record."""
    names = Names(tables)
    told = set()
    for location in tables.locations():
        name, value = names.cells[location], tables.value(location)
        if location < VARIABLES and isinstance(value, Reference) and names.records[value.record] == name:
            told.add(value.record)
            yield _record_line(tables, names, value.record)
        elif location < VARIABLES:
            yield f"{name} = {names.held(location)}"
    for record in range(tables.records):
        if record not in told:
            yield _record_line(tables, names, record)


def _record_line(tables: Tables, names: Names, record: int) -> str:
    fields = (f"{tables.program.labels[label]}: {names.held(place)}" for label, place in tables.fields(record))
    return f"{names.records[record]} = {{{', '.join(fields)}}}"


def _kept_lines(tables: Tables) -> Iterator[str]:
    for position in sorted(tables.kept + tables.identities):
        statement = statement_at(tables.program, position)
        yield f"{statement.line:>3} {statement.text}"
        for part in _unmet(tables, position) if position in tables.kept else []:
            yield f"{_INDENT}not met: {part.text}"


def _unmet(tables: Tables, position: int) -> List[Part]:
    return [part for part in parts_at(tables.program, position) if not holds(tables, part)]


def _taken(steps: Sequence[Step], solver: object) -> int:
    return sum(1 for step in steps if step.proposal is not None and step.solver == solver)


def _kept_json(tables: Tables, position: int) -> Dict[str, object]:
    parts = parts_at(tables.program, position)
    told = [{"priority": PRIORITIES[part.priority], "text": part.text, "holds": holds(tables, part)} for part in parts]
    return {**_statement_json(tables, position), "parts": told}


def _statement_json(tables: Tables, word: int) -> Dict[str, object]:
    statement = statement_at(tables.program, word)
    return {"word": word, "line": statement.line, "text": statement.text}


def _step_json(step: Step) -> Dict[str, object]:
    return {
        "word": step.statement.word,
        "line": step.statement.line,
        "text": step.statement.text,
        "tied": [_change_json(change) for change in step.tied],
        "solver": step.solver,
        "proposal": None if step.proposal is None else list(step.proposal),
        "changes": [_change_json(change) for change in step.changes],
        "turned_down": [_turned_down_json(each) for each in step.turned_down],
        "note": step.note,
    }


def _change_json(change: Change) -> Dict[str, object]:
    before, after = plain_of(change.before), plain_of(change.after)
    return {"location": change.location, "cell": change.cell, "before": before, "after": after}


def _turned_down_json(each: TurnedDown) -> Dict[str, object]:
    return {"solver": each.solver, "outcome": each.outcome, "says": each.says, "proposal": list(each.proposal)}
