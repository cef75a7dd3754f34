"""Runs layout sheets: small programs that make records, assign to them and state what must always hold.

Where a value moves, a solver's proposals move the others; a proposal is taken only where every required constraint holds afterwards.
The work is done by libcordbasin.so, each function of which is proved to meet its contract; this package is not proved. It needs
nothing but Python 3.9 and that library, which `tools/native --shared cordbasin` writes.

    >>> from cordbasin import Program, Tables, run
    >>> program = Program.read("x := new {bytes: 64, samples: 16};\\nalways required x.bytes = 4 * x.samples;\\nx.samples := 32")
    >>> tables = Tables(program)
    >>> answer = run(program, tables, [0, 0, 1, 64, 128], 100)
    >>> print(answer)
    0 at the end: finished, after 3 steps and 3 proposals
    >>> tables["x.bytes"]
    128
    >>> tables.plain()["records"]
    [{'bytes': 128, 'samples': 32}]

A refusal prints with the typed line and a mark under the place:

    >>> print(run(program, Tables(program), [0, 0, 0], 100))
    19 at line 3, column 1: a required part is not met
    x.samples := 32
    ^
"""

from cordbasin.answers import Answer, Asked, ListAnswer
from cordbasin.calls import ask, assign, run, write
from cordbasin.entries import Entry
from cordbasin.library import LibraryMissing
from cordbasin.outcome import Outcome
from cordbasin.program import Program, Refusal, Spot, Unwritten
from cordbasin.tables import Kind, Reference, Tables, Value

__all__ = [
    "Answer",
    "Asked",
    "Entry",
    "Kind",
    "LibraryMissing",
    "ListAnswer",
    "Outcome",
    "Program",
    "Reference",
    "Refusal",
    "Spot",
    "Tables",
    "Unwritten",
    "Value",
    "ask",
    "assign",
    "run",
    "write",
]
