"""The command: exit statuses with their one line, and every option."""

from __future__ import annotations

import contextlib
import functools
import io
import json
import os
import pathlib
import re
import subprocess
import sys
import tempfile
import unittest
from typing import Any, Dict, List, Optional, Tuple
from unittest import mock

from cordbasin import Program, Tables
from cordbasin.calls import run_words
from cordbasin.library import PLACE
from desk import __main__ as command
from desk import ready
from tests.common import ROOT, SHEETS, Listed, files, left_out, title, with_library
from tests.test_sheets import page, parted

CORE = str(SHEETS / "desk" / "core.sheet")
IDLE = ("--solver", "cat")  # answers nothing that is of use
STATEMENT = re.compile(r" *\d+ ")
KNOWN = {"CORDBASIN_LIBRARY": str(PLACE), **os.environ, "PYTHONPATH": str(ROOT / "hosts" / "python")}


FOLDER = tempfile.TemporaryDirectory()

Done = Tuple[int, str, str]


def tearDownModule() -> None:
    """Takes the files away."""
    FOLDER.cleanup()


def desk(*options: str, said: bytes = b"", known: Optional[Dict[str, str]] = None) -> Done:
    """Exit status, standard output and error of the command as a process of its own."""
    words = [sys.executable, "-m", "desk", *options]
    done = subprocess.run(
        words, input=said, stdout=subprocess.PIPE, stderr=subprocess.PIPE, env={**KNOWN, **(known or {})}
    )
    return done.returncode, done.stdout.decode(), done.stderr.decode()


def within(*options: str, said: bytes = b"") -> Done:
    """The same within this process."""
    printed, errors, typed = io.StringIO(), io.StringIO(), io.TextIOWrapper(io.BytesIO(said))
    with contextlib.redirect_stdout(printed), contextlib.redirect_stderr(errors), mock.patch("sys.stdin", typed):
        with with_library():
            return command.main(options), printed.getvalue(), errors.getvalue()


class Statuses(unittest.TestCase):
    """0 for what finished, 1 for what was refused, 2 where the desk cannot work."""

    def test_finished(self) -> None:
        status, printed, errors = desk(*IDLE, "-", said=b"x := 1;\nx := x + 1")
        self.assertEqual((status, errors), (0, ""))
        self.assertEqual(printed.splitlines()[:2], ["  1 x := 1", "  2 x := x + 1"])
        self.assertIn("\n    x = 2\n", printed)

    def test_nothing_typed(self) -> None:
        status, printed, errors = within(*IDLE, "-")
        self.assertEqual((status, " 0 steps" in printed.splitlines()[-1], errors), (0, True, ""))

    def test_refused(self) -> None:
        cases = (
            (b"x := 1;\ny := z", "7 at line 2, column 6: "),
            (b"x :=", "20 at line 1, column 5: text unfit"),
            (b"x := 1;\r\n\tx := \xff", "20 at line 2, column 7: text unfit"),
            (b"x := 1; once x = 2", "6 at line 1, column 9: "),
            (b"skip".ljust(65537), "22 at line 1, column 65537: "),
        )
        for place, (said, told) in enumerate(cases):
            with self.subTest(told):
                done = within(*IDLE, "-", said=said) if place else desk(*IDLE, "-", said=said)
                status, printed, errors = done
                self.assertEqual((status, errors), (1, ""))
                self.assertIn(told, printed)

    def cannot(self, told: str, done: Done) -> None:
        """The desk cannot work, and says why in one line."""
        self.assertEqual(done[:2], (2, ""), done)
        self.assertTrue(done[2].startswith(f"./desk: {told}"), done)
        self.assertEqual((done[2].count("\n"), done[2][-1:]), (1, "\n"))

    def test_no_sheet(self) -> None:
        self.cannot("/no/such/sheet: No such file or directory", desk("/no/such/sheet"))
        self.cannot("/: Is a directory", within("/"))
        self.cannot("the following arguments are required: SHEET; ./desk --help tells", desk())
        self.cannot("unrecognized arguments: more; ./desk --help", within(CORE, "more"))
        self.cannot("unrecognized arguments: --fast; ./desk --help", within(CORE, "--fast"))

    def test_wrong_options(self) -> None:
        for seconds in ("0", "-1", "nan", "inf", "86401"):
            self.cannot("a timeout is more than 0 seconds and at most a day", within(CORE, "--timeout", seconds))
        self.cannot("argument --timeout: invalid float value: 'soon'", within(CORE, "--timeout", "soon"))
        for steps in ("-1", "1000001"):
            self.cannot("a budget is 0 to 1000000 steps", within(CORE, "--budget", steps))
        self.cannot("argument --budget: invalid int value: '1.5'", within(CORE, "--budget", "1.5"))
        self.cannot("two solvers are asked at most", desk(CORE, *IDLE, *IDLE, *IDLE))

    def test_no_solver(self) -> None:
        told = "there is no solver to ask (no-such: there is no such program)"
        self.cannot(told, desk(CORE, "--solver", "no-such"))
        status, _, errors = within("--quiet", "--solver", "no-such", *IDLE, "-", said=b"skip")
        self.assertEqual((status, errors), (0, "./desk: no-such: there is no such program; going on without it\n"))

    def test_no_library(self) -> None:
        for place, told in (("/no/such.so", "is missing: "), (CORE, "is no library of Cordbasin's: ")):
            self.cannot(f"{place} {told}", desk(CORE, *IDLE, known={"CORDBASIN_LIBRARY": place}))

    def test_proposals_that_cannot_be_written(self) -> None:
        done = within(*IDLE, "--quiet", "--proposals", "/no/such/folder/file", "-", said=b"skip")
        self.cannot("/no/such/folder/file: No such file or directory", done)

    def shell(self, line: str) -> "subprocess.CompletedProcess[bytes]":
        """The command behind a shell that closes or turns its streams."""
        told = line.replace("DESK", f"'{sys.executable}' -m desk")
        return subprocess.run(["bash", "-c", told], stdout=subprocess.PIPE, stderr=subprocess.PIPE, env=KNOWN)

    def test_streams_that_are_closed_or_full(self) -> None:
        cases = (
            ("DESK --solver cat - <&-", b"./desk: standard input is closed\n"),
            (f"DESK --solver cat {CORE} >&-", b"./desk: standard output or error is closed\n"),
            (f"DESK --solver cat {CORE} >/dev/full", b"./desk: No space left on device\n"),
            (f"DESK --solver cat --quiet {CORE} >/dev/full", b"./desk: No space left on device\n"),
            (f"set -o pipefail; DESK --solver cat --json {CORE} | true", b""),
        )
        for line, told in cases:
            with self.subTest(line):
                if "/dev/full" in line and not os.path.exists("/dev/full"):
                    self.skipTest("left out: there is no /dev/full")
                done = self.shell(line)
                self.assertEqual((done.returncode, done.stderr), (2, told))

    def test_output_that_is_not_unicode(self) -> None:
        status, printed, errors = desk(*IDLE, "-", said="x ≤ 1".encode(), known={"PYTHONIOENCODING": "ascii"})
        self.assertEqual((status, printed.splitlines()[1:], errors), (1, ["x \\u2264 1", "  ^"], ""))

    def test_help(self) -> None:
        status, printed, errors = desk("--help")
        self.assertEqual((status, errors), (0, ""))
        for option in ("--solver", "--timeout", "--budget", "--proposals", "--json", "--quiet", "SHEET"):
            self.assertIn(option, printed)


class Options(unittest.TestCase):
    """What the options change. z3 or cvc5 is asked."""

    def setUp(self) -> None:
        self.solver = "z3"
        try:
            left_out(self, "z3")
        except unittest.SkipTest:
            self.solver = "cvc5"
            left_out(self, "cvc5")

    def page(self, name: str, *options: str) -> str:
        """What is printed for a sheet."""
        return page(SHEETS / "desk" / f"{name}.sheet", "--solver", self.solver, *options)[1]

    def test_quiet(self) -> None:
        for name in ("core", "unsatisfiable", "range"):
            whole = self.page(name)
            self.assertEqual(self.page(name, "--quiet"), parted(whole)[1].splitlines()[0] + "\n")

    def test_standard_input(self) -> None:
        said = (SHEETS / "desk" / "core.sheet").read_bytes()
        self.assertEqual(desk("--solver", self.solver, "-", said=said), (0, self.page("core"), ""))

    def test_budget(self) -> None:
        for budget in (0, 1, 2):
            printed = self.page("core", "--budget", str(budget))
            self.assertIn(f"5 at line {budget + 1}, column 1: next step would pass the budget\n", printed)
            self.assertEqual(len([line for line in printed.splitlines()[:budget] if STATEMENT.match(line)]), budget)
        self.assertEqual(parted(self.page("core", "--budget", "3")), parted(self.page("core")))

    def test_json_has_what_the_page_shows(self) -> None:
        for path in files("sheet", "desk"):
            with self.subTest(title(path)):
                told = json.loads(self.page(path.stem, "--json"))
                steps, values, kept = parted(self.page(path.stem))[0].rstrip("\n").split("\n\n")
                self.compare([self.step_facts(step) for step in told["statements"]], steps.splitlines())
                statements = sorted(told["kept"] + told["identities"], key=lambda statement: int(statement["word"]))
                self.compare([self.kept_facts(statement) for statement in statements], kept.splitlines()[1:])
                for line in self.value_lines(told):
                    self.assertRegex(values, line)

    def compare(self, told: List[List[str]], lines: List[str]) -> None:
        """Compares statements with lines of the page: each has its own, and below it one for each of its facts."""
        self.assertEqual([facts[0] for facts in told], [line for line in lines if STATEMENT.match(line)])
        self.assertEqual(len(lines), sum(len(facts) for facts in told))
        for fact, line in zip((fact for facts in told for fact in facts), lines):
            if not STATEMENT.match(line):
                self.assertRegex(line, f"^    .*{fact}")

    def step_facts(self, step: Dict[str, Any]) -> List[str]:
        """The line of a step, and patterns for those below it, made of the JSON alone."""
        facts = [f"{step['line']:>3} {step['text']}", *(self.change(change) for change in step["tied"])]
        facts += [f"{each['solver']} .*{each['says']}" for each in step["turned_down"]]
        if step["solver"]:
            facts.append(".*".join([step["solver"], *(self.change(change) for change in step["changes"])]))
        return facts

    def change(self, told: Dict[str, Any]) -> str:
        """A pattern for a change."""
        ends = (told["before"], told["after"])
        shown = [f"record {end['record']}" if isinstance(end, dict) else json.dumps(end) for end in ends]
        return ".*".join([re.escape(told["cell"]), *shown])

    def kept_facts(self, told: Dict[str, Any]) -> List[str]:
        """The line of what is kept, and patterns for the parts that are not met."""
        unmet = [re.escape(part["text"]) for part in told.get("parts", []) if not part["holds"]]
        return [f"{told['line']:>3} {told['text']}", *unmet]

    def value_lines(self, told: Dict[str, Any]) -> List[str]:
        """Every variable and record as the page has it, with any name for a record that is referred to."""
        shown = [f"{re.escape(name)} = {self.value(value)}" for name, value in told["variables"].items()]
        for record in told["records"]:
            fields = (f"{re.escape(label)}: {self.value(value)}" for label, value in record.items())
            shown.append(r"[a-z0-9. ]+ = \{" + ", ".join(fields) + r"\}")
        return [f"(?m)^    {line}$" for line in shown]

    def value(self, told: object) -> str:
        """A value as the page has it."""
        if isinstance(told, dict):
            return r"([a-z0-9. ]+|\{.*\})"
        return "nil" if told is None else re.escape(json.dumps(told))

    def test_json_of_refusals(self) -> None:
        told = json.loads(self.page("range", "--json"))
        self.assertEqual(
            [told[name] for name in ("outcome", "word", "line", "column", "steps", "accepted")], [9, 67, 6, 22, 6, 5]
        )
        told = json.loads(self.page("unsatisfiable", "--json"))
        self.assertEqual(
            [told[name] for name in ("outcome", "word", "line", "column", "steps", "accepted")], [6, 62, 5, 1, 5, 4]
        )
        refused = told["statements"][-1]["turned_down"][0]
        self.assertEqual((refused["solver"], refused["outcome"], refused["proposal"]), (self.solver, None, []))
        status, printed, _ = within("--json", *IDLE, "-", said=b"x := 1;\nx +")
        unread = {"outcome": 20, "says": "text unfit", "byte": 10, "line": 2, "column": 3}
        self.assertEqual((status, json.loads(printed)), (1, unread))

    def test_proposals_are_the_listers_input(self) -> None:
        for path, place, told in proposed(self.solver):
            with self.subTest(title(path)):
                sheet, program = Listed.of(place), Program.read(path.read_bytes())
                self.assertEqual((sheet.program, sheet.budget), (list(program.words), 500))
                self.assertEqual(sheet.proposals, told["proposals"])
                tables = Tables(program)
                lent = (tables.environment, tables.heap, tables.constraints)
                numbers = run_words(sheet.program, *lent, sheet.proposals, sheet.budget)
                head = "outcome={}\nplace={}\nsteps={}\nproposals={}\n".format(*numbers)
                self.assertEqual(head + str(tables), listing(told, program))
                self.assertEqual(numbers[4], 0)

    def test_the_lister_reads_the_proposals(self) -> None:
        if not (ROOT / "crates" / "list" / "out" / "list").exists():
            self.skipTest("left out: crates/list/out/list is not built")
        for path, place, told in proposed(self.solver):
            with self.subTest(title(path)), open(place, "rb") as typed:
                done = subprocess.run([ROOT / "tools" / "run", "list"], stdin=typed, stdout=subprocess.PIPE)
                self.assertEqual(done.stdout.decode(), listing(told, Program.read(path.read_bytes())))


@functools.lru_cache(maxsize=None)
def proposed(solver: str) -> List[Tuple[pathlib.Path, pathlib.Path, Dict[str, Any]]]:
    """Every sheet of the desk, the file with its proposals, and its run as JSON."""
    told = []
    for path in files("sheet", "desk"):
        place = pathlib.Path(FOLDER.name) / f"{path.stem}.in"
        options = ("--solver", solver, "--json", "--budget", "500", "--proposals", str(place))
        told.append((path, place, json.loads(page(path, *options)[1])))
    return told


def listing(told: Dict[str, Any], program: Program) -> str:
    """The lister's output, made of the JSON and of the program's names."""
    lines = [
        f"outcome={told['outcome']}",
        f"place={told['word']}",
        f"steps={told['steps']}",
        f"proposals={told['accepted']}",
    ]
    variables = [(program.variables.index(name), value) for name, value in told["variables"].items()]
    lines += [f"v{number}={_listed(value)}" for number, value in sorted(variables, key=lambda pair: pair[0])]
    for number, record in enumerate(told["records"]):
        lines.append(f"r{number}={len(record)}")
        lines += [f"r{number}.{program.labels.index(label)}={_listed(value)}" for label, value in record.items()]
    for letter, kept in (("c", told["kept"]), ("i", told["identities"])):
        lines += [f"{letter}{number}={statement['word']}" for number, statement in enumerate(kept)]
    return "\n".join(lines) + "\n"


def _listed(value: Any) -> str:
    if value is None or isinstance(value, bool):
        return "nil" if value is None else f"bool {int(value)}"
    return f"ref {value['record']}" if isinstance(value, dict) else f"int {value}"


class Ready(unittest.TestCase):
    """What the desk needs before it works."""

    def ready(self, script: str) -> None:
        """Has the library made by a script."""
        with tempfile.TemporaryDirectory() as folder, mock.patch.object(ready, "TOOLS", pathlib.Path(folder)):
            tool = pathlib.Path(folder) / "library"
            tool.write_text(f"#!/bin/sh\n{script}\n")
            tool.chmod(0o755)
            ready.library()

    def test_the_library_is_made(self) -> None:
        with mock.patch.dict(os.environ):
            os.environ.pop("CORDBASIN_LIBRARY", None)
            self.ready("exit 0")
            with self.assertRaisesRegex(ready.CannotWork, "could not be made"):
                self.ready("exit 3")

    def test_a_library_that_is_named_is_not_made(self) -> None:
        with mock.patch.dict(os.environ, {"CORDBASIN_LIBRARY": "any"}):
            self.ready("exit 3")

    def test_more_than_the_lister_takes(self) -> None:
        with tempfile.TemporaryDirectory() as folder, mock.patch("sys.stderr") as errors:
            place = os.path.join(folder, "file")
            command._write(place, "x" * 65536, 4096)
            self.assertEqual(errors.write.call_count, 0)
            for text, words in (("x" * 65537, 1), ("x", 4097)):
                command._write(place, text, words)
                told = "".join(call.args[0] for call in errors.write.call_args_list)
                self.assertIn(f"{place}: more than ./sheet takes", told)
                self.assertEqual(pathlib.Path(place).read_text(), text)
                errors.reset_mock()
