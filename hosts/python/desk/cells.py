"""The names of cells and records, as the variables lead to them, and how values are shown."""

from __future__ import annotations

import dataclasses
from typing import Dict, List, Tuple

from cordbasin import Kind, Reference, Tables, Value
from cordbasin.tables import VARIABLES


class Names:
    """What each record is called: the first and shortest path that leads to it, variables in their order."""

    def __init__(self, tables: Tables) -> None:
        self._tables = tables
        self.records: Dict[int, str] = {}
        self.cells: Dict[int, str] = {}
        variables = [
            (location, tables.program.variables[location]) for location in tables.locations() if location < VARIABLES
        ]
        self._follow(variables)
        for record in range(tables.records):
            if record not in self.records:
                self._call(record, f"record {record}")

    def _follow(self, found: List[Tuple[int, str]]) -> None:
        """Names cells, then the records that they lead to, then those that these lead to."""
        while found:
            further: List[Tuple[int, str]] = []
            for location, name in found:
                self.cells.setdefault(location, name)
                kind, record = self._tables.cell(location)
                if kind == Kind.REFERENCE and record not in self.records:
                    further += self._call(record, name)
            found = further

    def _call(self, record: int, name: str) -> List[Tuple[int, str]]:
        """Names a record and gives its cells with their names."""
        self.records[record] = name
        fields = [
            (place, f"{name}.{self._tables.program.labels[label]}") for label, place in self._tables.fields(record)
        ]
        for place, called in fields:
            self.cells.setdefault(place, called)
        return fields

    def held(self, location: int) -> str:
        """What the cell at a location holds, as it is shown; a reference by its record's name."""
        value = self._tables.value(location)
        return self.records[value.record] if isinstance(value, Reference) else said(value)


def said(value: Value) -> str:
    """A value as it is shown; a reference by its record's number."""
    return "nil" if value is None else str(value).lower()


@dataclasses.dataclass(frozen=True)
class Change:
    """A cell that was changed, under the name by which it is shown, with what it held and holds."""

    location: int
    cell: str
    before: Value
    after: Value

    def __str__(self) -> str:
        return f"{self.cell}: {said(self.before)} -> {said(self.after)}"


def changes(before: Tables, after: Tables) -> Tuple[Change, ...]:
    """The cells that were there before and hold something else afterwards."""
    names = Names(after)
    changed = (location for location in before.locations() if before.cell(location) != after.cell(location))
    return tuple(Change(place, names.cells[place], before.value(place), after.value(place)) for place in changed)
