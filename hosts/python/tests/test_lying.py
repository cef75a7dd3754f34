"""That a lying solver costs nothing. CORDBASIN_LYING_RUNS says how many runs are made; where it is given, a table of them is printed."""

from __future__ import annotations

import concurrent.futures
import json
import multiprocessing
import os
import shlex
import signal
import subprocess
import sys
import time
import unittest
from typing import Dict, List, Sequence, Tuple

from cordbasin import Kind
from cordbasin.library import PLACE
from desk.question import Cell, Question
from desk.solver import KNOWN, Proposed, Solver, solvers
from tests.common import ROOT
from tests.liar import SORTS
from tests.runs import (
    HONEST,
    LIAR,
    MARK,
    Lied,
    Report,
    Tally,
    alone,
    carry_out,
    left_behind,
    marked,
    plans,
    sheets,
)

RUNS = int(os.environ.get("CORDBASIN_LYING_RUNS", "240"))
CORE = str(ROOT / "sheets" / "desk" / "core.sheet")

needs_solvers = unittest.skipUnless(HONEST, "left out: z3 and cvc5 are not installed")


def liar(sort: str, seed: int = 0) -> Lied:
    """A liar with little time."""
    return Lied(sort, seed, 0.3, True, (HONEST[0], *KNOWN[HONEST[0]]) if HONEST else ())


@needs_solvers
class Runs(unittest.TestCase):
    """Many runs, in processes of their own."""

    def test_honest(self) -> None:
        """The honest solvers alone get through most sheets, so that there is something to compare with."""
        refused = {"overflow": 6, "unsatisfiable": 6, "ends of 32 bits": 6, "range": 9}
        for honest in HONEST:
            ends = {sheet: alone(sheet, honest).end[0] for sheet in sheets()}
            self.assertEqual({sheet: ends[sheet] for sheet in refused}, refused)
            self.assertGreater(list(ends.values()).count(0), len(ends) // 2)

    def test_runs(self) -> None:
        """Every run keeps what tests/runs.py looks at."""
        began = time.monotonic()
        workers = 2 * (os.cpu_count() or 1)
        with concurrent.futures.ProcessPoolExecutor(workers, multiprocessing.get_context("spawn")) as pool:
            reports = list(pool.map(carry_out, plans(RUNS), chunksize=2))
        if "CORDBASIN_LYING_RUNS" in os.environ:
            print("\n" + "\n".join(table(reports, time.monotonic() - began)), flush=True)
        faults = [report.fault for report in reports if report.fault]
        self.assertEqual(len(faults), 0, f"{len(faults)} of {len(reports)} runs went wrong:\n" + "\n".join(faults[:5]))


class OneQuestion(unittest.TestCase):
    """A liar asked about one cell, which holds 5 and is required to hold 6."""

    def propose(self, sort: str, seed: int = 0, soft: bool = True, seconds: float = 0.3) -> Tuple[Proposed, float]:
        """What a liar proposes, and how long it took."""
        question = Question((Cell(64, Kind.INTEGER, 5),), ("(= c64 6)",), (), ())
        began = time.monotonic()
        proposed = Solver(sort, liar(sort, seed).command, seconds, soft).propose(question)
        return proposed, time.monotonic() - began

    def test_time(self) -> None:
        """Nobody gets more than the time that was given, however much is said: neither many small pieces nor few large ones."""
        sorts = ("busy", "busy", "flood", "flood", "huge", "huge", "silent", "drip", "mute", "deaf", "forks")
        for seed, sort in enumerate(sorts):
            with self.subTest(sort=sort, seed=seed):
                self.assertLess(self.propose(sort, seed)[1], 2.0)

    def test_length(self) -> None:
        """An answer has a length that it may not pass; a whole dialogue has none."""
        told = [self.propose("huge", seed, seconds=20)[0] for seed in range(4)]
        self.assertIn(Proposed((), "said more than 1 MiB"), told)
        question = Question(tuple(Cell(at, Kind.INTEGER, 5) for at in range(64, 74)), (), (), ())
        wordy = Solver("wordy", liar("wordy").command, 20.0, False).propose(question)
        self.assertEqual((wordy.says, wordy.words != ()), ("", True))

    def test_start(self) -> None:
        """What cannot be started is no solver, and is told so."""
        question = Question((), (), (), ())
        for command in ("/no/such/solver", str(LIAR), "/", "a\0b"):
            with self.subTest(command=command):
                proposed = Solver("none", (command,), 1.0, True).propose(question)
                self.assertEqual(proposed.words, ())
                self.assertRegex(proposed.says, "^could not be started: .")

    def test_names(self) -> None:
        """A solver that is named twice has two names, so that what was taken is counted for the right one."""
        found, _ = solvers(["true", "true"], 1.0)
        self.assertEqual([solver.name for solver in found], ["true", "true (second)"])

    def test_first_example(self) -> None:
        """A solver that lies already where it is tried is taken on as one without soft constraints, or as one with them."""
        for seed, sort in enumerate(SORTS):
            with self.subTest(sort=sort):
                command = liar(sort, seed).command
                self.assertEqual(Solver.of(shlex.join(command), 0.1).command, command)


@needs_solvers
class Commands(unittest.TestCase):
    """The whole command."""

    @property
    def mark(self) -> str:
        """What the processes of this test are known by."""
        return f"{os.getpid()}.{self.id()}"

    def environment(self, **further: str) -> Dict[str, str]:
        """What the command is started under."""
        given = {"PYTHONPATH": str(ROOT / "hosts" / "python"), MARK: self.mark}
        return {"CORDBASIN_LIBRARY": str(PLACE), **os.environ, **given, **further}

    def desk(self, commands: Sequence[Tuple[str, ...]], *options: str, **further: str) -> Tuple[int, str]:
        """Exit status and what was printed; nothing on standard error, and no process left behind."""
        named = [word for command in commands for word in ("--solver", shlex.join(command))]
        given = [sys.executable, "-m", "desk", *named, *options]
        done = subprocess.run(given, env=self.environment(**further), capture_output=True, timeout=60)
        self.assertEqual(done.stderr, b"")
        self.assertEqual(left_behind(self.mark), [])
        return done.returncode, done.stdout.decode()

    def test_liar_first(self) -> None:
        """The honest one's proposal is taken, and what the liar said is told."""
        words = {
            "wrong": "19, a required part is not met",
            "above": "16, proposal cut short",
            "kinds": "gave true for a cell of another kind, c64",
            "unsat": "says that no change can meet the required parts",
            "killed": "was ended by signal 9 before it had answered",
            "nothing": "ended before it had answered",
        }
        for number, (sort, says) in enumerate(words.items()):
            honest = HONEST[number % len(HONEST)]
            with self.subTest(honest=honest, sort=sort):
                status, printed = self.desk((liar(sort, 4).command, (honest,)), CORE)
                self.assertEqual(status, 0, printed)
                self.assertIn(says, printed)
                self.assertRegex(printed, f"{honest}.*x.bytes: 64 -> 128")
                self.assertRegex(printed, "Finished: .*\n$")

    def test_two_liars(self) -> None:
        """The sheet is refused, with words for both, and what was there before is left."""
        commands = (liar("silent", 2).command, liar("errors", 2).command)
        status, printed = self.desk(commands, "--timeout", "0.3", CORE)
        self.assertEqual(status, 1)
        self.assertIn("Refused: 6 at line 3, column 1: no proposal was taken", printed)
        self.assertIn("gave no answer in time", printed)
        self.assertIn("x = {bytes: 64, samples: 16}", printed)
        status, printed = self.desk(commands, "--timeout", "0.3", "--json", CORE)
        turned_down = json.loads(printed)["statements"][-1]["turned_down"]
        self.assertEqual((status, len(turned_down)), (1, 2))

    def test_characters(self) -> None:
        """What standard output cannot say is printed all the same."""
        for seed in range(5):
            status, _ = self.desk([liar("foreign", seed).command], CORE, PYTHONIOENCODING="ascii")
            self.assertEqual(status, 1)

    def test_ended(self) -> None:
        """Whoever ends the desk ends its solvers, while they are tried and while they are asked."""
        for seed, lines in ((2, 0), (3, 2)):
            with self.subTest(seed=seed):
                solver = shlex.join(liar("silent", seed).command)
                given = [sys.executable, "-m", "desk", "--timeout", "60", "--solver", solver, CORE]
                piped = subprocess.PIPE
                with subprocess.Popen(given, env=self.environment(), stdout=piped, stderr=piped) as desk:
                    self.wait(desk, lines)
                    desk.send_signal(signal.SIGTERM)
                    _, said = desk.communicate(timeout=10)
                self.assertEqual((desk.returncode, said), (130, b"./desk: interrupted\n"))
                self.assertEqual(left_behind(self.mark), [])

    def wait(self, desk: "subprocess.Popen[bytes]", lines: int) -> None:
        """Waits until the desk has printed so many lines and a solver is at work beside it."""
        assert desk.stdout is not None
        for _ in range(lines):
            desk.stdout.readline()
        while len(marked(self.mark)) < 2 and desk.poll() is None:
            time.sleep(0.02)
        time.sleep(0.1)


def table(reports: Sequence[Report], seconds: float) -> List[str]:
    """For every sort of lie what became of it, and the words that were said of it."""
    sorts = {sort: Tally() for sort in SORTS}
    for report in reports:
        for sort, each in report.tallies:
            sorts[sort].add(each)
    total = Tally()
    for each in sorts.values():
        total.add(each)
    total.words.clear()
    heads = ("lie", "liars", "asked", "taken", "16", "17", "18", "19", "none", "unread")
    lines = [f"{len(reports)} runs in {seconds:.0f} s", "".join(f"{head:>10}" for head in heads)]
    for sort, each in (*sorts.items(), ("all", total)):
        numbers = [each.numbers[number] for number in (16, 17, 18, 19)]
        unread = each.asked - each.taken - each.none - sum(numbers)
        row = (sort, each.runs, each.asked, each.taken, *numbers, each.none, unread)
        lines.append("".join(f"{cell:>10}" for cell in row))
        lines += [f"{count:>20} {words}" for words, count in each.words.most_common()]
    return lines
