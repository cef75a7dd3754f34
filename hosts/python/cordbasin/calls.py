"""The calls: run, assign, ask and write. Program.read is the fifth."""

from __future__ import annotations

from array import array
from typing import Iterable, Sequence, Tuple

from cordbasin.answers import Answer, Asked, ListAnswer
from cordbasin.entries import Entry
from cordbasin.library import Words, call, words_of
from cordbasin.outcome import Outcome
from cordbasin.program import Program
from cordbasin.tables import Tables


def run(program: Program, tables: Tables, proposals: Words, budget: int) -> Answer:
    """Runs a program on tables, which then hold what the last accepted statement left. OverflowError for what is no 32-bit word."""
    words = words_of(proposals)
    outcome, place, steps, accepted, unread = run_words(*_state(program, tables), words, budget)
    return Answer(program, Outcome(outcome), place, steps, accepted, _last(words, unread))


def run_words(
    program: Words,
    environment: "array[int]",
    heap: "array[int]",
    constraints: "array[int]",
    proposals: Words,
    budget: int,
) -> Tuple[int, int, int, int, int]:
    """As run, on any words and on tables that the host keeps: the four numbers of the answer, and how many words are unread."""
    answer = array("i", [-1] * 4)
    unread = call(
        "cordbasin_run", words_of(program), environment, heap, constraints, words_of(proposals), _word(budget), answer
    )
    return answer[0], answer[1], answer[2], answer[3], unread


def assign(program: Program, tables: Tables, entries: Iterable[Entry], proposals: Words, budget: int) -> ListAnswer:
    """Sets cells by a list, up to the first entry that is refused. KeyError for a name that the program does not have."""
    listed, words = [word for entry in entries for word in entry.words(program)], words_of(proposals)
    outcome, place, steps, accepted, unread = assign_words(*_state(program, tables), listed, words, budget)
    return ListAnswer(program, Outcome(outcome), place, steps, accepted, _last(words, unread))


def assign_words(
    program: Words,
    environment: "array[int]",
    heap: "array[int]",
    constraints: "array[int]",
    entries: Words,
    proposals: Words,
    budget: int,
) -> Tuple[int, int, int, int, int]:
    """As assign, on any words and on tables that the host keeps: the four numbers of the answer, and how many words are unread."""
    answer, slices = array("i", [-1] * 4), (words_of(entries), words_of(proposals))
    unread = call("cordbasin_assign", words_of(program), environment, heap, constraints, *slices, _word(budget), answer)
    return answer[0], answer[1], answer[2], answer[3], unread


def ask(program: Program, tables: Tables, word: int, first: Words, second: Words = ()) -> Asked:
    """Asks two solvers about the statement at a word; the second's proposal is tried where the first's is turned down."""
    slices = (words_of(first), words_of(second))
    outcome, place, solver, count = ask_words(*_state(program, tables), word, *slices)
    accepted = tuple(slices[solver - 1][:count]) if solver else ()
    return Asked(program, word, Outcome(outcome), place, solver, accepted)


def ask_words(
    program: Words,
    environment: "array[int]",
    heap: "array[int]",
    constraints: "array[int]",
    word: int,
    first: Words,
    second: Words,
) -> Tuple[int, int, int, int]:
    """As ask, on any words and on tables that the host keeps: the three numbers of the answer, and how many words were accepted."""
    answer, slices = array("i", [-1] * 3), (words_of(first), words_of(second))
    count = call("cordbasin_ask", words_of(program), environment, heap, constraints, _word(word), *slices, answer)
    return answer[0], answer[1], answer[2], count


def write(words: Sequence[int]) -> str:
    """The text of a program's words, with v0 and f0 for names; Unwritten where there is none."""
    return Program.of_words(words).write()


def _state(program: Program, tables: Tables) -> Tuple["array[int]", "array[int]", "array[int]", "array[int]"]:
    return words_of(program.words), tables.environment, tables.heap, tables.constraints


def _word(number: int) -> int:
    return words_of([number])[0]


def _last(words: "array[int]", count: int) -> Tuple[int, ...]:
    return tuple(words[len(words) - count :])
