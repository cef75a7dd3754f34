"""A program that was typed: its words, its names, and where each word stands in the text."""

from __future__ import annotations

import dataclasses
from array import array
from typing import Dict, List, Sequence, Tuple, Union

from cordbasin.library import call, words_of
from cordbasin.outcome import Outcome

LONGEST_PROGRAM = 4096
LONGEST_TEXT = 65536
NAMES_WORDS = 192
FIRST_LABEL = 128


@dataclasses.dataclass(frozen=True)
class Spot:
    """A place in a text. Prints the line that it is in, and a mark under it."""

    byte: int
    line: int
    column: int
    shown: str

    @staticmethod
    def of(text: bytes, byte: int) -> Spot:
        """A byte of a text, with its line and column, both from 1, the column in characters."""
        byte = min(byte, len(text))
        start = text.rfind(b"\n", 0, byte) + 1
        end = text.find(b"\n", byte)
        shown = text[start : end if end >= 0 else len(text)].decode(errors="replace")
        column = len(text[start:byte].decode(errors="ignore")) + 1
        return Spot(byte, text.count(b"\n", 0, byte) + 1, column, shown[:-1] if shown.endswith("\r") else shown)

    def __str__(self) -> str:
        before = self.shown[: self.column - 1].ljust(self.column - 1)
        return self.shown + "\n" + "".join("\t" if sign == "\t" else " " for sign in before) + "^"


class Refusal(Exception):
    """A text that is no program. Prints the number and what it says, line and column, the line, and a mark under the place."""

    def __init__(self, outcome: Outcome, spot: Spot) -> None:
        super().__init__(shown_refusal(outcome, outcome.says, spot))
        self.outcome = outcome
        self.spot = spot


class Unwritten(Exception):
    """Words that cannot be written as a text: outcome and place as cordbasin_write tells them."""

    def __init__(self, outcome: Outcome, place: int) -> None:
        super().__init__(f"{outcome.value} at place {place}: {outcome.says}")
        self.outcome = outcome
        self.place = place


def shown_refusal(outcome: Outcome, says: str, spot: Spot) -> str:
    """A refusal as a person reads it."""
    return f"{outcome.value} at line {spot.line}, column {spot.column}: {says}\n{spot}"


@dataclasses.dataclass(frozen=True)
class Program:
    """A program: what was typed, its words, for each word the byte that it comes from, and its names by their numbers.

    Prints in the papers' notation, a statement to a line; where that would be too long, as it was typed.
    """

    text: bytes
    words: Tuple[int, ...]
    origins: Tuple[int, ...]
    variables: Tuple[str, ...]
    labels: Tuple[str, ...]
    _names: Tuple[int, ...] = dataclasses.field(repr=False)

    @staticmethod
    def read(text: Union[str, bytes]) -> Program:
        """Reads a text in the papers' notation; Refusal where it is none."""
        typed = text.encode(errors="surrogatepass") if isinstance(text, str) else bytes(text)
        words, origins = array("i", bytes(4 * LONGEST_PROGRAM)), array("i", bytes(4 * LONGEST_PROGRAM))
        names, answer = array("i", bytes(4 * NAMES_WORDS)), array("i", [-1] * 4)
        count = call("cordbasin_read", bytearray(typed), words, origins, names, answer)
        outcome = Outcome(answer[0])
        if outcome != Outcome.FINISHED:
            raise Refusal(outcome, Spot.of(typed, answer[1]))
        return Program(
            typed,
            tuple(words[:count]),
            tuple(origins[:count]),
            tuple(_name(typed, names, 2 * number) for number in range(answer[2])),
            tuple(_name(typed, names, FIRST_LABEL + 2 * number) for number in range(answer[3])),
            tuple(names),
        )

    @staticmethod
    def of_words(words: Sequence[int]) -> Program:
        """The program of these words, with the text that they are written as; Unwritten where there is none."""
        return Program.read(written(words, b"", [0] * NAMES_WORDS))

    def write(self) -> str:
        """The program with its own names, in the one form that there is; Unwritten where that is longer than 65,536 bytes."""
        return written(self.words, self.text, self._names).decode()

    def spot(self, word: int) -> Spot:
        """Where the token stands that a word comes from; for the program's length the text's end."""
        return Spot.of(self.text, self.origins[word] if word < len(self.words) else len(self.text))

    def path(self, typed: str) -> List[int]:
        """The numbers of a path such as `x.bytes`: its variable, then its labels; KeyError where the program has no such name."""
        numbers = []
        for place, name in enumerate(typed.split(".")):
            known = self.labels if place else self.variables
            if name not in known:
                raise KeyError(f"{typed}: the program has no {'label' if place else 'variable'} {name}")
            numbers.append(known.index(name))
        return numbers

    def plain(self) -> Dict[str, object]:
        """The program as JSON has it."""
        return {"text": self.text.decode(errors="replace"), "words": list(self.words), "origins": list(self.origins)}

    def __str__(self) -> str:
        try:
            return self.write()
        except Unwritten:
            return self.text.decode(errors="replace")


def written(words: Sequence[int], source: bytes, names: Sequence[int]) -> bytes:
    """The text of a program's words, with names that stand in a source."""
    text, answer = bytearray(LONGEST_TEXT), array("i", [-1] * 4)
    count = call("cordbasin_write", words_of(words), bytearray(source), words_of(names), text, answer)
    if answer[0] != Outcome.FINISHED:
        raise Unwritten(Outcome(answer[0]), answer[1])
    return bytes(text[:count])


def _name(text: bytes, names: "array[int]", at: int) -> str:
    return text[names[at] : names[at] + names[at + 1]].decode()
