"""An entry of a list: a target and a literal."""

from __future__ import annotations

import dataclasses
from typing import List, Union

from cordbasin.program import Program

_NIL, _FALSE, _TRUE, _INTEGER = 20, 21, 22, 23


@dataclasses.dataclass(frozen=True)
class Entry:
    """A path such as `x.samples`, and what it is set to: None for nil, a bool or an int."""

    target: str
    value: Union[None, bool, int]

    def words(self, program: Program) -> List[int]:
        """The words of the entry; KeyError where the program has no such name."""
        path = program.path(self.target)
        return [path[0], len(path) - 1] + path[1:] + self._literal()

    def _literal(self) -> List[int]:
        if self.value is None:
            return [_NIL]
        if isinstance(self.value, bool):
            return [_TRUE if self.value else _FALSE]
        return [_INTEGER, self.value]
