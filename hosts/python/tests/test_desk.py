"""The desk's pieces: texts of statements and of their parts, and the names of cells."""

from __future__ import annotations

import unittest
from typing import Iterator, List, Tuple

from cordbasin import Program, Reference, run
from desk.cells import Change, Names, changes, said
from desk.pieces import Expression, Literal, Path, Statement, parts_at, statement_at, target_at
from desk.shown import left_lines
from tests.common import Apart, Stated, files, left, readable, renumbered, title


def programs() -> Iterator[Tuple[str, Program]]:
    """Every text that is read, by its file."""
    for path in files("text") + files("sheet"):
        program = readable(path)
        if program is not None:
            yield title(path), program


def encoded(expression: Expression) -> List[int]:
    """The words of a tree."""
    if isinstance(expression, Path):
        return [24, expression.numbers[0], len(expression.numbers) - 1, *expression.numbers[1:]]
    if isinstance(expression, Literal):
        value = expression.value
        return [20] if value is None else [22 if value else 21] if isinstance(value, bool) else [23, value]
    return [25, expression.operator, *encoded(expression.left), *encoded(expression.right)]


class EveryStatement(unittest.TestCase):
    """Every statement of every text of the sheets."""

    def test_texts_and_lines(self) -> None:
        count = 0
        for name, program in programs():
            for stated in Apart(program.words).statements:
                with self.subTest(f"{name} at {stated.word}"):
                    self.compare(program, stated, statement_at(program, stated.word))
                count += 1
        self.assertGreater(count, 1000)

    def compare(self, program: Program, stated: Stated, shown: Statement) -> None:
        """Compares a statement with what its text alone is read to."""
        origin = program.origins[stated.word]
        self.assertEqual((shown.word, shown.sort), (stated.word, stated.sort))
        self.assertEqual(shown.line, program.text[:origin].count(b"\n") + 1)
        self.assertEqual(shown.text, " ".join(shown.text.split()))
        self.assertTrue(program.text[origin:].decode().startswith(shown.text.split()[0]))
        words = renumbered(program.words, stated, stated.word, stated.end)
        closed = {7: "} else {}", 8: "}"}.get(stated.sort, "")
        blocks = {7: [0, 0], 8: [0]}.get(stated.sort, [])
        self.assertEqual(list(Program.read(shown.text + closed).words), [1, *words, *blocks])

    def test_parts(self) -> None:
        count = 0
        for name, program in programs():
            for stated in Apart(program.words).statements:
                parts = parts_at(program, stated.word) if stated.sort in (3, 4) else []
                self.assertEqual(len(parts), len(stated.parts))
                for part, (at, end) in zip(parts, stated.parts):
                    with self.subTest(f"{name} at {at}"):
                        self.assertEqual((part.priority, part.words), (program.words[at], program.words[at + 1 : end]))
                        self.assertEqual(encoded(part.expression), list(part.words))
                        alone = list(Program.read(f"once {part.text}").words)
                        self.assertEqual(alone, [1, 4, 1, *renumbered(program.words, stated, at, end)])
                    count += 1
        self.assertGreater(count, 150)

    def test_targets(self) -> None:
        for name, program in programs():
            for stated in Apart(program.words).statements:
                if stated.sort in (1, 2):
                    path = target_at(program, stated.word).numbers
                    first = program.words[stated.word + 1]
                    count = program.words[stated.word + 2] if stated.sort == 1 else 0
                    labels = program.words[stated.word + 3 : stated.word + 3 + count]
                    self.assertEqual(path, (first, *labels), name)


class Texts(unittest.TestCase):
    """Texts of statements that were typed in an unusual way."""

    def texts(self, typed: str) -> List[str]:
        """The texts of all statements, in their order."""
        program = Program.read(typed)
        return [statement_at(program, stated.word).text for stated in Apart(program.words).statements]

    def test_white_space(self) -> None:
        typed = "x\t:=\r\n  new {\n a : 1 ,\n b:2 }\n;\n\n skip ;x . a:=( 1 +\n2 )\n"
        self.assertEqual(self.texts(typed), ["x := new { a : 1 , b:2 }", "skip", "x . a:=( 1 + 2 )"])

    def test_brackets(self) -> None:
        self.assertEqual(self.texts("x := ((1)+(2));once((x=3))"), ["x := ((1)+(2))", "once((x=3))"])
        program = Program.read("x := 1; once weak ((x)) = 1 /\\ ( (x = (2)) ) /\\ medium(true)")
        word = Apart(program.words).statements[1].word
        self.assertEqual(
            [part.text for part in parts_at(program, word)], ["weak ((x)) = 1", "( (x = (2)) )", "medium(true)"]
        )

    def test_blocks(self) -> None:
        typed = "x:=0;while x<2 do{x:=x+1;if x=1 then{y:=new{}}else{skip}};once x=2"
        heads = ["x:=0", "while x<2 do{", "x:=x+1", "if x=1 then{", "y:=new{}", "skip", "once x=2"]
        self.assertEqual(self.texts(typed), heads)

    def test_records_without_fields(self) -> None:
        self.assertEqual(
            self.texts("x := new { } ; y := new{};if true then {z := new {}} else {}")[:2],
            ["x := new { }", "y := new{}"],
        )
        self.assertEqual(self.texts("if true then {z := new {}} else {}")[1], "z := new {}")

    def test_lines(self) -> None:
        program = Program.read("\n\nskip;\r\nskip; skip;\n\n\twhile true do {\n skip }")
        lines = [statement_at(program, stated.word).line for stated in Apart(program.words).statements]
        self.assertEqual(lines, [3, 4, 4, 6, 7])


class Named(unittest.TestCase):
    """Names of records and cells."""

    def test_the_shortest_path_is_the_name(self) -> None:
        tables = left("a := new {n: 1}; b := new {a: a}; c := b; d := new {b: b, a: a}", [0] * 4)
        names = Names(tables)
        self.assertEqual(names.records, {0: "a", 1: "b", 2: "d"})
        self.assertEqual([names.cells[place] for place in (64, 72, 80, 81)], ["a.n", "b.a", "d.b", "d.a"])
        self.assertEqual([names.held(place) for place in (0, 2, 72, 64)], ["a", "b", "a", "1"])

    def test_the_first_of_two_ways(self) -> None:
        text = "x := new {n: 1}; y := new {left: x, right: x}; z := new {deep: y}; x := 5; y := nil"
        names = Names(left(text, [0] * 5))
        self.assertEqual(names.records, {2: "z", 1: "z.deep", 0: "z.deep.left"})
        self.assertEqual(names.cells[64], "z.deep.left.n")
        self.assertEqual(set(names.cells), {0, 1, 2, 64, 72, 73, 80})

    def test_cycles(self) -> None:
        tables = left("x := new {me: nil}; y := new {other: x}; x.me := y; once x.me.other == x", [0] * 4)
        names = Names(tables)
        self.assertEqual(names.records, {0: "x", 1: "y"})
        self.assertEqual((names.cells[64], names.held(64), names.held(72)), ("x.me", "y", "x"))
        alone = Names(left("x := new {me: nil}; x.me := x", [0] * 2))
        self.assertEqual((alone.records, alone.held(64)), ({0: "x"}, "x"))

    def test_records_that_nobody_leads_to(self) -> None:
        tables = left("x := new {n: 1}; y := new {x: x}; x := nil; y := nil", [0] * 4)
        names = Names(tables)
        self.assertEqual(names.records, {0: "record 0", 1: "record 1"})
        self.assertEqual((names.cells[64], names.cells[72], names.held(72)), ("record 0.n", "record 1.x", "record 0"))
        self.assertEqual(set(names.cells), set(tables.locations()))
        shown = ["x = nil", "y = nil", "record 0 = {n: 1}", "record 1 = {x: record 0}"]
        self.assertEqual([line.strip() for line in left_lines(tables) if " = " in line], shown)

    def test_every_cell_of_every_sheet_has_a_name(self) -> None:
        for name, program in programs():
            tables = left(program.text.decode(), [0] * 50)
            with self.subTest(name):
                names = Names(tables)
                self.assertEqual(set(names.cells), set(tables.locations()))
                self.assertEqual(len(set(names.cells.values())), len(names.cells))
                self.assertEqual(len(left_lines(tables)), len(left_lines(tables.copy())))

    def test_values_as_they_are_shown(self) -> None:
        self.assertEqual(
            [said(value) for value in (None, True, False, -5, Reference(3))], ["nil", "true", "false", "-5", "record 3"]
        )

    def test_changes(self) -> None:
        text = "x := new {n: 1, on: true}; y := 2"
        before, after = left(text, [0, 0]), left(text, [0, 0])
        after.heap[4], after.heap[7], after.environment[3] = 7, 0, -2
        told = [str(change) for change in changes(before, after)]
        self.assertEqual(told, ["y: 2 -> -2", "x.n: 1 -> 7", "x.on: true -> false"])
        self.assertEqual(changes(before, before), ())
        longer = left(text + "; z := 1", [0] * 3)
        self.assertEqual(changes(before, longer), ())
        self.assertEqual(str(Change(0, "x", Reference(0), None)), "x: record 0 -> nil")

    def test_changes_of_a_record_that_lost_its_name(self) -> None:
        program = Program.read("x := new {n: 1}; x := nil")
        before, after = left(program.text.decode(), [0]), left(program.text.decode(), [0])
        self.assertEqual(run(program, after, [], 0).outcome, 5)
        after.environment[0:2] = left(program.text.decode(), [0, 0]).environment[0:2]
        after.heap[4] = 2
        self.assertEqual(
            [str(change) for change in changes(before, after)], ["x: record 0 -> nil", "record 0.n: 1 -> 2"]
        )
