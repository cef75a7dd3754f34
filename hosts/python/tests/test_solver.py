"""A solver's side: how its answers are heard and what is made of them. No solver of SMT-LIB 2 is needed."""

from __future__ import annotations

import sys
import time
import unittest
from typing import List, Tuple, Union

from desk.dialogue import LONGEST_ANSWER, Answer, Dialogue, NoAnswer
from desk.question import Cell, Question
from desk.solver import Proposed, Solver, _is_met, _is_sat, _shown, _value, _words, solvers

CELLS = (Cell(3, 2, 1), Cell(64, 3, 64), Cell(65, 3, -5))
QUESTION = Question(CELLS, ("(= c64 128)",), (), ("(= c65 7)",))


def speaking(script: str, seconds: float = 5.0) -> Dialogue:
    """A dialogue with a shell that says what a script has."""
    return Dialogue(["sh", "-c", script], time.monotonic() + seconds)


class Parser(unittest.TestCase):
    """Answers as they are heard."""

    def heard(self, *pieces: bytes) -> List[Answer]:
        """Every whole answer of what is said in pieces."""
        told = []
        with speaking("exit 0") as dialogue:
            for piece in pieces:
                dialogue._heard += piece
                answer = dialogue._parsed()
                while answer is not None:
                    told.append(answer)
                    answer = dialogue._parsed()
        return told

    def test_answers(self) -> None:
        self.assertEqual(self.heard(b"sat\n((c64 128)\n (c3 true))\n"), ["sat", [["c64", "128"], ["c3", "true"]]])
        self.assertEqual(self.heard(b"((c65 (- 5)))()unsat "), [[["c65", ["-", "5"]]], [], "unsat"])
        self.assertEqual(self.heard(b"  \r\n\t"), [])

    def test_an_answer_in_pieces(self) -> None:
        said, expected = b'; a (comment\n((c64 (- 12)) |a b| "x"" (y" )\nsat\n', [
            [["c64", ["-", "12"]], "|a b|", '"x"" (y"'],
            "sat",
        ]
        self.assertEqual(self.heard(said), expected)
        self.assertEqual(self.heard(b'"a"', b'"b"\n'), ['"a""b"'])
        for size in (1, 2, 3, 7):
            pieces = [said[start : start + size] for start in range(0, len(said), size)]
            self.assertEqual(self.heard(*pieces), expected, size)

    def test_what_is_not_whole_yet(self) -> None:
        for said in (b"", b"sa", b"sat", b"((c64 1)", b"(c64 1", b'"sat', b'"sat"', b"|s", b"; sat\n", b"; sat", b" ("):
            self.assertEqual(self.heard(said), [], said)

    def test_comments_and_strings(self) -> None:
        self.assertEqual(self.heard(b";;\n; x ) (\n sat ; unsat\n(a;b)\nc)\n"), ["sat", ["a", "c"]])
        self.assertEqual(self.heard(b'(error "no ) such ; thing")\n'), [["error", '"no ) such ; thing"']])
        self.assertEqual(self.heard(b"caf\xc3\xa9 \xff \n"), ["café", "\ufffd"])

    def test_brackets(self) -> None:
        nested = self.heard(b"(" * 60 + b")" * 60)
        self.assertEqual(str(nested).count("["), 61)
        for said in (b")", b"sat\n)\n", b"(" * 1000, b"(" * 100000 + b")" * 100000):
            with self.subTest(said[:5]), self.assertRaisesRegex(NoAnswer, "no answer of SMT-LIB 2"):
                self.heard(said)


class Process(unittest.TestCase):
    """Dialogues with a process."""

    def fails(self, script: str, seconds: float = 5.0) -> str:
        """Why a script gives no answer."""
        with self.assertRaises(NoAnswer) as raised, speaking(script, seconds) as dialogue:
            dialogue.ask("(check-sat)\n")
        return str(raised.exception)

    def test_what_is_said_and_heard(self) -> None:
        with Dialogue(["cat"], time.monotonic() + 5) as dialogue:
            self.assertEqual(dialogue.ask("sat ((c1 2))\n"), "sat")
            self.assertEqual(dialogue.ask("unsat\n"), [["c1", "2"]])
            long = f"({' '.join(['a'] * 100000)})\n"
            self.assertEqual((dialogue.ask(long), dialogue.ask("\n")), ("unsat", ["a"] * 100000))

    def test_pieces(self) -> None:
        with speaking("printf '((c1'; sleep 0.05; printf ' 2'; sleep 0.05; printf '))'") as dialogue:
            self.assertEqual(dialogue.ask("(get-value (c1))\n"), [["c1", "2"]])

    def test_no_answer(self) -> None:
        self.assertEqual(self.fails("exit 0"), "ended before it had answered")
        self.assertEqual(self.fails("printf sa; kill -9 $$"), "was ended by signal 9 before it had answered")
        self.assertEqual(self.fails("exec >&-; sleep 5", 0.3), "closed its output before it had answered")
        self.assertEqual(self.fails("sleep 5", 0.1), "gave no answer in time")
        self.assertEqual(self.fails("sleep 0.05; echo sat", 0.0), "gave no answer in time")

    def test_what_was_said_before_the_end_counts(self) -> None:
        with speaking("echo sat; echo '((c1 2))'") as dialogue:
            dialogue._process.wait()
            self.assertEqual(
                (dialogue.ask("(check-sat)\n"), dialogue.ask("(get-value (c1))\n")), ("sat", [["c1", "2"]])
            )
            with self.assertRaisesRegex(NoAnswer, "ended before it had answered"):
                dialogue.ask("(check-sat)\n")

    def test_more_than_an_answer_may_have(self) -> None:
        self.assertEqual(self.fails("yes '(('", 30), "said what is no answer of SMT-LIB 2")
        self.assertEqual(self.fails("yes ';'", 30), "said more than 1 MiB")

    def test_time_ends_for_one_that_goes_on_speaking(self) -> None:
        self.assertEqual(self.fails("while :; do echo ';'; sleep 0.01; done", 0.2), "gave no answer in time")
        self.assertEqual(self.fails("while :; do echo ';'; done", 0.1), "gave no answer in time")

    def test_nothing_is_heard_behind_the_end(self) -> None:
        with speaking("echo sat", 0.0) as dialogue:
            dialogue._process.wait()
            with self.assertRaisesRegex(NoAnswer, "gave no answer in time"):
                dialogue.ask("(check-sat)\n")

    def test_many_answers_may_be_long_together(self) -> None:
        word = "a" * (LONGEST_ANSWER // 8)
        with Dialogue(["cat"], time.monotonic() + 20) as dialogue:
            for _ in range(12):
                self.assertEqual(dialogue.ask(f"{word}\n"), word)

    def test_no_process_is_left(self) -> None:
        with speaking("sleep 60 & sleep 60") as dialogue:
            process = dialogue._process
        self.assertEqual(process.poll(), -9)
        self.assertEqual(Dialogue._live, set())
        with speaking("sleep 60") as dialogue:
            Dialogue.end_all()
            with self.assertRaisesRegex(NoAnswer, "signal 9"):
                dialogue.ask("(check-sat)\n")

    def test_no_program(self) -> None:
        with self.assertRaisesRegex(NoAnswer, "could not be started: No such file"):
            Dialogue(["/no/such/program"], 0.0)


class Answers(unittest.TestCase):
    """What is made of answers."""

    def test_values(self) -> None:
        cases: List[Tuple[Answer, Union[bool, int]]] = [
            ("true", True),
            ("false", False),
            ("0", 0),
            ("2147483647", 2147483647),
            (["-", "2147483648"], -2147483648),
            (["-", "0"], 0),
        ]
        for term, value in cases:
            self.assertEqual((_value(term), type(_value(term))), (value, type(value)))

    def test_no_values(self) -> None:
        terms: List[Answer] = [
            "nil",
            "-5",
            "1.5",
            "+5",
            "",
            "9" * 401,
            [],
            ["-"],
            ["-", "5", "5"],
            ["-", ["-", "5"]],
            ["+", "5"],
        ]
        for term in terms:
            with self.subTest(term), self.assertRaisesRegex(NoAnswer, "no value of a cell"):
                _value(term)
        past: List[Answer] = ["2147483648", ["-", "2147483649"], "9999999999", "9" * 400]
        for term in past:
            with self.subTest(term), self.assertRaisesRegex(NoAnswer, "outside 32 bits"):
                _value(term)

    def test_proposals(self) -> None:
        self.assertEqual(_words(QUESTION, {3: True, 64: 64, 65: -5}), (0,))
        self.assertEqual(_words(QUESTION, {65: 7, 64: 128, 3: False}), (3, 3, 0, 64, 128, 65, 7))
        self.assertEqual(_words(QUESTION, {65: 0}), (1, 65, 0))
        self.assertEqual(_words(QUESTION, {}), (0,))
        self.assertEqual(_words(QUESTION, {64: 64, 9: 1}), (1, 9, 1))

    def test_proposals_of_another_kind(self) -> None:
        for location, value in ((3, 1), (3, 0), (64, True), (65, False)):
            with self.subTest(location), self.assertRaisesRegex(NoAnswer, f"another kind, c{location}"):
                _words(QUESTION, {location: value})

    def test_checks(self) -> None:
        self.assertEqual([_is_met(answer) for answer in ("sat", "unsat", "unknown")], [True, False, False])
        self.assertEqual([_is_sat(answer) for answer in ("sat", "unknown")], [True, False])
        with self.assertRaisesRegex(NoAnswer, "no change can meet"):
            _is_sat("unsat")
        wrong: List[Answer] = ["yes", [], ["error", '"line 1"'], "unsupported"]
        for answer in wrong:
            with self.subTest(answer), self.assertRaisesRegex(NoAnswer, "no answer to a check"):
                _is_met(answer)

    def test_answers_as_they_are_shown(self) -> None:
        self.assertEqual(_shown(["error", '"a\x1b[2J\nb"']), '(error "a?[2J?b")')
        self.assertEqual(_shown("x" * 100), "x" * 57 + "...")
        self.assertEqual(_shown([["a"], "b", "c", "d", "e"]), "((a) b c d)")


class MadeUp(unittest.TestCase):
    """Solvers that are scripts."""

    def proposed(self, script: str, soft: bool, seconds: float = 5.0) -> Proposed:
        """What a script proposes for the question."""
        return Solver("made up", ("sh", "-c", script), seconds, soft).propose(QUESTION)

    def test_at_once(self) -> None:
        model = "((c3 true) (c64 128) (c65 (- 5)))"
        self.assertEqual(self.proposed(f"echo sat; echo '{model}'", True), Proposed((1, 64, 128), ""))
        self.assertEqual(self.proposed("echo unsat", True).says, "says that no change can meet the required parts")
        self.assertEqual(self.proposed("echo unknown", True).says, "does not know an answer")

    def test_in_steps(self) -> None:
        model = "((c3 true) (c64 128) (c65 (- 5)))"
        checks = "echo unsat; echo unsat; echo unsat; echo unsat"
        self.assertEqual(
            self.proposed(f"echo sat; echo '{model}'; {checks}; sleep 9", False), Proposed((1, 64, 128), "")
        )
        self.assertEqual(self.proposed("echo unsat", False).says, "says that no change can meet the required parts")

    def test_a_model_is_kept_where_time_ends(self) -> None:
        told = self.proposed("echo sat; echo '((c64 128))'; sleep 9", False, 0.3)
        self.assertEqual(told, Proposed((1, 64, 128), "gave no answer in time; some wishes were not tried"))

    def test_no_models(self) -> None:
        for model in ("sat", "()", "(c64)", "((c64))", "((x 5))", "((c064 5))", "(((c64) 5))", "((c64 5 5))"):
            with self.subTest(model):
                told = self.proposed(f"echo sat; echo '{model}'", True)
                self.assertEqual((told.words, told.says.startswith("said what is no model: ")), ((), True))

    def test_which_solvers_there_are(self) -> None:
        found, missing = solvers(["no-such-solver", "", "'", f"{sys.executable} -c pass"], 5.0)
        self.assertEqual([solver.command for solver in found], [(sys.executable, "-c", "pass")])
        self.assertEqual((found[0].soft, found[0].name), (False, f"{sys.executable} -c pass"))
        self.assertEqual(missing[:2], ["no-such-solver: there is no such program", ": there is no such program"])
        self.assertTrue(missing[2].startswith("': is no command: "), missing)
