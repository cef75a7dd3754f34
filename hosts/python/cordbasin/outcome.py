"""The numbers of the documents, and what each says."""

from __future__ import annotations

import enum


class Outcome(enum.IntEnum):
    """How a run, a list, an asking, a reading or a writing ended. hosts/c/cordbasin.h tells when, and what the place is then."""

    FINISHED = 0
    WRONG_SIZE = 1
    UNFIT_PROGRAM = 2
    UNFIT_TABLE = 3
    UNFIT_START = 4
    BUDGET_SPENT = 5
    NO_PROPOSAL = 6
    NO_CELL = 7
    WRONG_KIND = 8
    OUT_OF_RANGE = 9
    HEAP_FULL = 10
    NOT_IDENTICAL = 11
    IDENTITY_CLASH = 12
    PLAIN_IDENTITY = 13
    NO_ROOM = 14
    LOST_CONSTRAINT = 15
    UNFIT_PROPOSAL = 16
    UNFIT_ENTRY = 17
    NEEDLESS_CHANGE = 18
    REQUIRED_UNMET = 19
    UNFIT_TEXT = 20
    TOO_MANY_NAMES = 21
    OVER_LIMIT = 22
    UNFIT_ASSIGNMENT = 23
    UNFIT_NAMES = 24
    TEXT_TOO_LONG = 25

    @property
    def says(self) -> str:
        """What the documents say of it."""
        return _SAYS[self]


_SAYS = (
    "finished",
    "a table's length or the budget is wrong",
    "program does not read",
    "a table's content is unfit",
    "a kept constraint does not read, or a required part or identity does not hold, at the start",
    "next step would pass the budget",
    "no proposal words left",
    "absent variable, missing field, path through a non-record",
    "wrong kind",
    "range, outside C",
    "heap full",
    "identity does not hold now",
    "identity clash",
    "target of an identity given a boolean or integer",
    "no room for a position not yet kept",
    "a kept value constraint no longer reads",
    "proposal cut short, n out of range, locations not rising or outside 0 to 575",
    "an entry names a cell or payload it may not",
    "needless change",
    "a required part is not met",
    "text unfit",
    "too many names",
    "over 64 KiB or a limit",
    "an entry is no target and literal",
    "unfit names",
    "the text is too long",
)
