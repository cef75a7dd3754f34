"""The three lent tables, read by the names of a program."""

from __future__ import annotations

import dataclasses
import enum
from array import array
from typing import Dict, Iterator, List, Optional, Sequence, Tuple, Union

from cordbasin.program import Program

ENVIRONMENT_WORDS = 128
HEAP_WORDS = 1601
CONSTRAINTS_WORDS = 98
VARIABLES = 64
RECORD_WORDS = 25
RECORDS = 64
FIELDS = 8
LABELS = 32
VALUE_POSITIONS = 64


class Kind(enum.IntEnum):
    """The kind of a cell."""

    ABSENT = 0
    NIL = 1
    BOOLEAN = 2
    INTEGER = 3
    REFERENCE = 4


@dataclasses.dataclass(frozen=True)
class Reference:
    """A reference to the record of this number."""

    record: int

    def __str__(self) -> str:
        return f"record {self.record}"


Value = Union[None, bool, int, Reference]


def value_of(kind: int, payload: int) -> Value:
    """What a present cell holds: None for nil, a bool, an int or a Reference."""
    if kind == Kind.BOOLEAN:
        return payload != 0
    if kind == Kind.INTEGER:
        return payload
    return Reference(payload) if kind == Kind.REFERENCE else None


def plain_of(value: Value) -> object:
    """A value as JSON has it; a reference is {"record": 0}."""
    return {"record": value.record} if isinstance(value, Reference) else value


class Tables:
    """Environment, heap and constraints of a program, fresh at first. `tables["x.bytes"]` is what the path leads to.

    The words stand open, so that a host can store them and bring them back. Words that are unfit are refused by a run and read here as
    absent. Prints as the run lister does.
    """

    def __init__(self, program: Program) -> None:
        self.program = program
        self.environment = array("i", bytes(4 * ENVIRONMENT_WORDS))
        self.heap = array("i", bytes(4 * HEAP_WORDS))
        self.constraints = array("i", bytes(4 * CONSTRAINTS_WORDS))

    def copy(self) -> Tables:
        """Tables of their own with the same words."""
        other = Tables(self.program)
        other.environment, other.heap = self.environment[:], self.heap[:]
        other.constraints = self.constraints[:]
        return other

    def __eq__(self, other: object) -> bool:
        if not isinstance(other, Tables):
            return NotImplemented
        mine, theirs = ([each.environment, each.heap, each.constraints] for each in (self, other))
        return mine == theirs

    def cell(self, location: int) -> Tuple[int, int]:
        """Kind and payload at a location: 0 to 63 for variables, 64 + 8r + f for field place f of record r."""
        table, at = (self.environment, 2 * location) if location < VARIABLES else (self.heap, self._field(location) + 1)
        kind, payload = table[at], table[at + 1]
        payloads = (0, 1, 2, 0, self.records)[kind] if 0 <= kind <= Kind.REFERENCE else 0
        return (kind, payload) if kind == Kind.INTEGER or 0 <= payload < payloads else (Kind.ABSENT.value, 0)

    def value(self, location: int) -> Value:
        """What the present cell at a location holds."""
        return value_of(*self.cell(location))

    def locations(self) -> Iterator[int]:
        """The locations of the present cells, rising."""
        for location in range(VARIABLES + FIELDS * self.records):
            if self.cell(location)[0] != Kind.ABSENT:
                yield location

    @property
    def records(self) -> int:
        """How many records there are."""
        return _count(self.heap[0], RECORDS)

    def fields(self, record: int) -> List[Tuple[int, int]]:
        """Label and location of a record's fields, in their own order."""
        first = VARIABLES + FIELDS * record
        count = _count(self.heap[1 + RECORD_WORDS * record], FIELDS)
        fields = [(self.heap[self._field(place)], place) for place in range(first, first + count)]
        return [each for each in fields if 0 <= each[0] < LABELS and self.cell(each[1])[0] != Kind.ABSENT]

    def location(self, path: Sequence[int]) -> Optional[int]:
        """The cell that a variable and then labels lead to; none where there is none."""
        at = path[0]
        for label in path[1:]:
            kind, payload = self.cell(at)
            found = [place for other, place in self.fields(payload) if other == label] if kind == Kind.REFERENCE else []
            if not found:
                return None
            at = found[0]
        return at if self.cell(at)[0] != Kind.ABSENT else None

    @property
    def kept(self) -> List[int]:
        """The positions of the kept value constraints, in kept order."""
        return list(self.constraints[2 : 2 + _count(self.constraints[0], VALUE_POSITIONS)])

    @property
    def identities(self) -> List[int]:
        """The positions of the kept identities, in kept order."""
        first = 2 + VALUE_POSITIONS
        return list(self.constraints[first : first + max(0, self.constraints[1])])

    def keep_no_values(self) -> None:
        """Forgets the kept value constraints; identities stay kept."""
        self.constraints[0] = 0
        self.constraints[2 : 2 + VALUE_POSITIONS] = array("i", [0] * VALUE_POSITIONS)

    def __getitem__(self, path: str) -> Value:
        location = self.location(self.program.path(path))
        if location is None:
            raise KeyError(f"{path} leads to no cell")
        return self.value(location)

    def __contains__(self, path: object) -> bool:
        try:
            self[str(path)]
        except KeyError:
            return False
        return True

    def plain(self) -> Dict[str, object]:
        """The tables as JSON has them: variables and records by name, a reference as {"record": 0}, and the kept positions.

        What the program has no name for is v0 or f0.
        """
        names, labels = _all(self.program.variables, "v", VARIABLES), _all(self.program.labels, "f", LABELS)
        variables = {names[place]: self._plain(place) for place in self.locations() if place < VARIABLES}
        records = [
            {labels[label]: self._plain(place) for label, place in self.fields(record)}
            for record in range(self.records)
        ]
        return {"variables": variables, "records": records, "kept": self.kept, "identities": self.identities}

    def __str__(self) -> str:
        lines = [f"v{place}={self._listed(place)}" for place in self.locations() if place < VARIABLES]
        for record in range(self.records):
            fields = self.fields(record)
            lines.append(f"r{record}={len(fields)}")
            lines += [f"r{record}.{label}={self._listed(place)}" for label, place in fields]
        lines += [f"c{number}={position}" for number, position in enumerate(self.kept)]
        lines += [f"i{number}={position}" for number, position in enumerate(self.identities)]
        return "".join(line + "\n" for line in lines)

    def _field(self, location: int) -> int:
        """The word of the heap that has the label of a field's location."""
        record, place = divmod(location - VARIABLES, FIELDS)
        return 2 + RECORD_WORDS * record + 3 * place

    def _plain(self, location: int) -> object:
        return plain_of(self.value(location))

    def _listed(self, location: int) -> str:
        kind, payload = self.cell(location)
        word = ("", "nil", "bool", "int", "ref")[kind]
        return word if kind == Kind.NIL else f"{word} {payload}"


def _count(word: int, most: int) -> int:
    """A count word; one that is unfit is brought into its range."""
    return min(max(word, 0), most)


def _all(names: Sequence[str], letter: str, count: int) -> List[str]:
    """The names, and behind them those of the numbers that have none."""
    return [*names, *(f"{letter}{number}" for number in range(len(names), count))]
