"""Typed programs: what texts are read to, how refusals print, and programs that are written back."""

from __future__ import annotations

import pathlib
import unittest
from typing import Dict, List, Tuple, Union

from cordbasin import Outcome, Program, Refusal, Spot, Tables, Unwritten, run, write
from cordbasin.program import written
from tests.common import MOST, P, SHEET, Listed, files, is_listed, left, named_lines, numbers, readable, title

DEFAULT = "v0 := new {f0: 64, f1: 16};\nalways required v0.f0 = 4 * v0.f1;\nv0.f1 := 32"


def refusal(text: Union[str, bytes]) -> Refusal:
    """How a text is refused."""
    try:
        Program.read(text)
    except Refusal as refused:
        return refused
    raise AssertionError("the text is a program")


class Texts(unittest.TestCase):
    """Every text of the sheets."""

    def test_every_text_of_the_notation(self) -> None:
        paths = [path for path in files("text") if path.with_suffix(".read").exists()]
        self.assertGreaterEqual(len(paths), 250)
        for path in paths:
            with self.subTest(title(path)):
                self.compare(path.read_bytes(), named_lines(path.with_suffix(".read").read_text()))

    def compare(self, text: bytes, expected: Dict[str, str]) -> None:
        """Compares a reading with what stands beside the text."""
        if expected["outcome"] != "0":
            refused = refusal(text)
            self.assertEqual(
                [refused.outcome.value, refused.spot.byte], [int(expected["outcome"]), int(expected["place"])]
            )
            return
        program = Program.read(text)
        self.assertEqual(len(text), int(expected["place"]))
        self.assertEqual(
            [len(program.variables), len(program.labels)], [int(expected["variables"]), int(expected["labels"])]
        )
        self.assertEqual(list(program.words), numbers(expected["words"]))
        self.assertEqual(list(program.origins), numbers(expected["origins"]))
        table = [0] * 192
        for letter, start, names in (("v", 0, program.variables), ("l", 128, program.labels)):
            for number, name in enumerate(names):
                first, length = numbers(expected[f"{letter}{number}"])
                self.assertEqual(name.encode(), text[first : first + length])
                table[start + 2 * number : start + 2 * number + 2] = [first, length]
        self.assertEqual(list(program._names), table)

    def test_every_text_beside_a_sheet(self) -> None:
        paths = [path for path in files("text") if path.with_suffix(".in").exists()]
        self.assertGreaterEqual(len(paths), 122)
        for path in paths:
            with self.subTest(title(path)):
                words = named_lines(path.with_suffix(".in").read_text())["program"]
                self.assertEqual(list(Program.read(path.read_bytes()).words), numbers(words))

    def test_every_refused_run_is_shown(self) -> None:
        paths = [path for path in files("text", "outcomes") if is_listed(path)]
        shown = 0
        for path in paths:
            sheet, program = Listed.of(path.with_suffix(".in")), Program.read(path.read_bytes())
            answer = run(program, Tables(program), sheet.proposals, sheet.budget)
            if answer.spot is not None:
                with self.subTest(title(path)):
                    self.assertEqual(f"{answer}\n", path.with_suffix(".shown").read_text())
                shown += 1
            else:
                self.assertIn(answer.outcome, (Outcome.FINISHED, Outcome.WRONG_SIZE))
        self.assertEqual(shown, len(files("shown", "outcomes")))
        self.assertGreaterEqual(shown, 60)

    def test_every_program_goes_round(self) -> None:
        programs = 0
        for path in files("text"):
            program = readable(path)
            if program is not None:
                with self.subTest(title(path)):
                    again, plain = Program.read(program.write()), Program.of_words(program.words)
                    self.assertEqual(again.words, program.words)
                    self.assertEqual((again.variables, again.labels), (program.variables, program.labels))
                    self.assertEqual((again.write(), str(again)), (str(program), str(program)))
                    self.assertEqual((plain.words, write(program.words)), (program.words, plain.write()))
                programs += 1
        self.assertGreaterEqual(programs, 200)


class Printed(unittest.TestCase):
    """Every sheet with a .printed."""

    def test_every_sheet(self) -> None:
        paths = [path for path in files("printed") if not path.read_text().startswith("input=")]
        self.assertGreaterEqual(len(paths), 43)
        for path in paths:
            with self.subTest(title(path)):
                self.assertEqual(self.printed(path.with_suffix(".in")), path.read_text())

    def printed(self, path: pathlib.Path) -> str:
        """What the printer prints for a sheet."""
        words = Listed.of(path).program
        try:
            return write(words) + "\n"
        except Unwritten as refused:
            return f"outcome={refused.outcome.value}\nplace={refused.place}\n"


class Read(unittest.TestCase):
    """A program that was read."""

    def test_words_and_names(self) -> None:
        program = Program.read(SHEET)
        self.assertEqual((list(program.words), program.variables, program.labels), (P, ("x",), ("bytes", "samples")))
        self.assertEqual(program, Program.read(SHEET.encode()))
        self.assertEqual(str(program), SHEET)
        self.assertEqual(Program.read(" \n").words, (0,))

    def test_paths(self) -> None:
        program = Program.read(SHEET)
        self.assertEqual((program.path("x"), program.path("x.samples.bytes")), ([0], [0, 1, 0]))
        for typed, name in (
            ("y", "variable y"),
            ("bytes", "variable bytes"),
            ("x.x", "label x"),
            ("x.", "label "),
            ("", "variable "),
        ):
            with self.subTest(typed), self.assertRaisesRegex(KeyError, f"the program has no {name}"):
                program.path(typed)

    def test_places(self) -> None:
        program = Program.read(SHEET)
        spot = program.spot(27)
        self.assertEqual((spot.line, spot.column, str(spot)), (3, 1, "x.samples := 32\n^"))
        end = program.spot(33)
        self.assertEqual((end.byte, end.line, end.column), (len(SHEET), 3, 16))

    def test_plain(self) -> None:
        plain = Program.read("x := 5").plain()
        self.assertEqual(plain, {"text": "x := 5", "words": [1, 1, 0, 0, 23, 5], "origins": [0, 0, 0, 0, 5, 5]})

    def test_the_longest_text(self) -> None:
        text = "skip".ljust(65536)
        self.assertEqual(Program.read(text).words, (1, 0))
        for more in (" ", "\n", "x", " " * 70000):
            refused = refusal(text + more)
            self.assertEqual((refused.outcome, refused.spot.byte), (Outcome.OVER_LIMIT, 65536))
        self.assertEqual((refusal(b"\xff" + text.encode()).spot.byte), 0)


class Marks(unittest.TestCase):
    """The mark under the place, whatever the text has."""

    def test_tabs_and_carriage_returns(self) -> None:
        shown = "20 at line 2, column 10: text unfit\n\ty := x +;\n\t        ^"
        for text in ("x := 1;\n\ty := x +;", "x := 1;\r\n\ty := x +;\r\nz := 1\r\n"):
            self.assertEqual(str(refusal(text)), shown)
        self.assertEqual(str(refusal("skip;\r\n")), "20 at line 2, column 1: text unfit\n\n^")
        self.assertEqual(str(refusal("skip;\r")), "20 at line 1, column 7: text unfit\nskip;\n      ^")

    def test_texts_that_are_not_ascii(self) -> None:
        self.assertEqual(str(refusal("skip /\\ é")), "20 at line 1, column 6: text unfit\nskip /\\ é\n     ^")
        self.assertEqual(str(refusal("\tx := é\t+ 1")), "20 at line 1, column 7: text unfit\n\tx := é\t+ 1\n\t     ^")

    def test_bytes_that_are_no_text(self) -> None:
        self.assertEqual(
            str(refusal(b"x\t:= \xff\xfe")), "20 at line 1, column 6: text unfit\nx\t:= \ufffd\ufffd\n \t   ^"
        )
        self.assertEqual(str(refusal(b"x := \xe2\x82\ny")), "20 at line 1, column 6: text unfit\nx := \ufffd\n     ^")
        self.assertEqual(str(refusal(b"\x00")), "20 at line 1, column 1: text unfit\n\x00\n^")
        self.assertEqual(refusal("x := \ud800").spot.column, 6)

    def test_limits(self) -> None:
        shown = "22 at line 1, column 6: over 64 KiB or a limit\nx := 2147483648\n     ^"
        self.assertEqual(str(refusal("x := 2147483648")), shown)
        many = ";\n".join(f"v{number} := 0" for number in range(65))
        self.assertEqual(str(refusal(many)), "21 at line 65, column 1: too many names\nv64 := 0\n^")

    def test_a_place_inside_a_character(self) -> None:
        spot = Spot.of("né\r\nx".encode(), 2)
        self.assertEqual((spot.line, spot.column, spot.shown), (1, 2, "né"))
        self.assertEqual(Spot.of(b"skip\nx", 99).line, 2)

    def test_a_part_among_many(self) -> None:
        text = "x := 1;\r\nalways x = 1" + " /\\\r\n\tweak x > 0" * 14 + " /\\\r\n\tmedium x\t+ 1"
        self.assertEqual(self.shown(text, [0, 0]), "8 at line 17, column 2: wrong kind\n\tmedium x\t+ 1\n\t^")
        mark = "8 at line 17, column 15: wrong kind\n\tmedium x\t+ 1 < true\n\t        \t    ^"
        self.assertEqual(self.shown(text + " < true", [0, 0]), mark)

    def test_a_kept_constraint(self) -> None:
        text = "x := new {a: 1, b: 2};\nalways x.a = 1;\nalways 0 < x.a + x.b;\nx := new {a: 1}"
        mark = f"15 at line 3, column 18: a kept value constraint no longer reads\nalways 0 < x.a + x.b;\n{' ' * 17}^"
        self.assertEqual(self.shown(text, [0] * 4), mark)
        tables = left("x := 1;\n\talways x > 0", [0, 0])
        tables.environment[1] = 0
        told = str(run(tables.program, tables, [0, 0], 100))
        self.assertTrue(told.startswith("4 at line 2, column 2: a kept constraint"), told)
        self.assertTrue(told.endswith("\n\talways x > 0\n\t^"), told)

    def shown(self, text: str, proposals: List[int]) -> str:
        """What a run of a text prints."""
        program = Program.read(text)
        return str(run(program, Tables(program), proposals, 100))


class Written(unittest.TestCase):
    """Programs that are written, and those that are not."""

    def test_one_form(self) -> None:
        untidy = "x:=new{bytes:(64),samples:016};always\tx.bytes=4*x.samples;\r\n\tx.samples:=32"
        self.assertEqual(Program.read(untidy).write(), SHEET)
        self.assertEqual((write(P), write([0])), (DEFAULT, ""))
        self.assertEqual(Program.of_words(P).text.decode(), DEFAULT)

    def test_words_that_are_refused(self) -> None:
        cases: List[Tuple[List[int], int, int]] = [
            ([], 2, 0),
            ([9, 77], 2, 1),
            ([0] * 4097, 2, 4096),
            (P[:32], 2, 32),
            ([1, 1, 1, 0, 20], 24, 1),
            ([1, 1, 0, 1, 1, 20], 24, 65),
        ]
        for words, outcome, place in cases:
            with self.subTest(f"{outcome} at {place}"), self.assertRaises(Unwritten) as raised:
                write(words)
            self.assertEqual((raised.exception.outcome, raised.exception.place), (outcome, place))
            self.assertTrue(str(raised.exception).startswith(f"{outcome} at place {place}: "))
        with self.assertRaises(OverflowError):
            write([1, 1, 0, 0, 23, MOST + 1])

    def test_names_that_are_refused(self) -> None:
        tables: List[List[int]] = [[0] * 191, [0] * 193, []]
        for names in tables:
            with self.assertRaises(Unwritten) as raised:
                written(P, b"x", names)
            self.assertEqual((raised.exception.outcome, raised.exception.place), (Outcome.WRONG_SIZE, 0))

    def test_a_program_whose_form_is_too_long(self) -> None:
        block = "while true do {" + ";".join(["skip"] * 250) + "}"
        typed = "while true do {" * 6 + ";".join([block] * 16) + "}" * 6
        program = Program.read(typed)
        with self.assertRaises(Unwritten) as raised:
            program.write()
        self.assertEqual(raised.exception.outcome, Outcome.TEXT_TOO_LONG)
        self.assertGreater(raised.exception.place, 65536)
        self.assertEqual(str(program), typed)
