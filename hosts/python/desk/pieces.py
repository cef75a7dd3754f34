"""The pieces of a program: its statements, the parts of its constraints and their expressions, with the text of each."""

from __future__ import annotations

import dataclasses
import re
from typing import List, Tuple, Union

from cordbasin import Program

SKIP, ASSIGN, NEW, ALWAYS, ONCE, ALWAYS_SAME, ONCE_SAME, IF, WHILE = range(9)
PRIORITIES = {3: "required", 2: "medium", 1: "weak"}
REQUIRED = 3

_NIL, _FALSE, _TRUE, _INTEGER, _PATH, _OPERATION, _SAME = range(20, 27)


@dataclasses.dataclass(frozen=True)
class Literal:
    """nil, a boolean or an integer."""

    value: Union[None, bool, int]


@dataclasses.dataclass(frozen=True)
class Path:
    """A variable's number and then those of labels."""

    numbers: Tuple[int, ...]


@dataclasses.dataclass(frozen=True)
class Operation:
    """An operator, by its number in document 01, and its two operands."""

    operator: int
    left: Expression
    right: Expression


Expression = Union[Literal, Path, Operation]


@dataclasses.dataclass(frozen=True)
class Part:
    """A part of a constraint: its priority, its expression as words and as a tree, and its text."""

    priority: int
    words: Tuple[int, ...]
    expression: Expression
    text: str


@dataclasses.dataclass(frozen=True)
class Statement:
    """A statement as it is shown: the word it begins at, its sort, its line and its text; of an if or while the head alone."""

    word: int
    sort: int
    line: int
    text: str


def path_at(program: Program, word: int) -> Tuple[Path, int]:
    """The path that begins at a word, and the word behind it."""
    end = word + 2 + program.words[word + 1]
    return Path((program.words[word],) + program.words[word + 2 : end]), end


def expression_at(program: Program, word: int) -> Tuple[Expression, int]:
    """The expression that begins at a word, and the word behind it. Of L == L, which stands in no constraint, only the end counts."""
    sort = program.words[word]
    if sort == _OPERATION:
        left, middle = expression_at(program, word + 2)
        right, end = expression_at(program, middle)
        return Operation(program.words[word + 1], left, right), end
    if sort == _PATH:
        return path_at(program, word + 1)
    if sort == _SAME:
        return path_at(program, path_at(program, word + 1)[1])
    if sort == _INTEGER:
        return Literal(program.words[word + 1]), word + 2
    return Literal({_NIL: None, _FALSE: False, _TRUE: True}[sort]), word + 1


def parts_at(program: Program, word: int) -> List[Part]:
    """The parts of the constraint that is stated at a word."""
    parts, at = [], word + 2
    for _ in range(program.words[word + 1]):
        expression, end = expression_at(program, at + 1)
        text = _typed(program, at, end, rb"/\\|[;}]")
        parts.append(Part(program.words[at], program.words[at + 1 : end], expression, text))
        at = end
    return parts


def target_at(program: Program, word: int) -> Path:
    """The target of the assignment or new at a word."""
    if program.words[word] == NEW:
        return Path((program.words[word + 1],))
    return path_at(program, word + 1)[0]


def statement_at(program: Program, word: int) -> Statement:
    """The statement that begins at a word."""
    sort = program.words[word]
    end = _end(program, word)
    if sort in (IF, WHILE):
        text = _typed(program, word, end + 1, rb"(?<=\{)")
    else:
        text = _typed(program, word, end, rb"(?<=\})" if sort == NEW else rb"[;}]")
    return Statement(word, sort, program.spot(word).line, text)


def _end(program: Program, word: int) -> int:
    """The word behind a statement; of an if or while the word behind its test, which is its first block's."""
    sort = program.words[word]
    if sort == SKIP:
        return word + 1
    if sort == ASSIGN:
        return expression_at(program, path_at(program, word + 1)[1])[1]
    if sort == NEW:
        end = word + 3
        for _ in range(program.words[word + 2]):
            end = expression_at(program, end + 1)[1]
        return end
    if sort in (ALWAYS, ONCE):
        end = word + 2
        for _ in range(program.words[word + 1]):
            end = expression_at(program, end + 1)[1]
        return end
    if sort in (ALWAYS_SAME, ONCE_SAME):
        return path_at(program, path_at(program, word + 1)[1])[1]
    return expression_at(program, word + 1)[1]


def _typed(program: Program, word: int, end: int, mark: bytes) -> str:
    """What was typed from a word on up to the first mark behind the last token of the words, on one line."""
    first, last = program.origins[word], max(program.origins[word:end])
    found = re.compile(mark).search(program.text, last + 1 if mark.startswith(b"(?<=") else last)
    typed = program.text[first : found.start() if found else len(program.text)]
    return " ".join(typed.decode(errors="replace").split())
