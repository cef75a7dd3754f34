"""Draws that come out alike on every Python, as they rest on random() alone."""

from __future__ import annotations

import random
from typing import List, Sequence, TypeVar

Thing = TypeVar("Thing")


class Draw:
    """Draws from a seed."""

    def __init__(self, seed: int) -> None:
        self._random = random.Random(seed)

    def between(self, least: int, most: int) -> int:
        """A number of a range, both ends among it."""
        return least + int(self._random.random() * (most - least + 1))

    def chance(self, percent: int) -> bool:
        """Whether something happens that does so this often in a hundred times."""
        return self._random.random() * 100 < percent

    def one(self, things: Sequence[Thing]) -> Thing:
        """One of some things."""
        return things[self.between(0, len(things) - 1)]

    def some(self, things: Sequence[Thing], percent: int) -> List[Thing]:
        """Some of the things, in their order, each by this chance."""
        return [thing for thing in things if self.chance(percent)]

    def mixed(self, things: Sequence[Thing]) -> List[Thing]:
        """The things in another order."""
        left, order = list(things), []
        while left:
            order.append(left.pop(self.between(0, len(left) - 1)))
        return order
