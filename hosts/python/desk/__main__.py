"""python3 -m desk SHEET: see ./desk --help."""

from __future__ import annotations

import argparse
import io
import json
import os
import signal
import sys
from typing import List, NoReturn, Optional, Sequence

from cordbasin import LibraryMissing, Program, Refusal
from desk import ready
from desk.pieces import Statement
from desk.ready import CannotWork
from desk.shown import as_json, closing, left_lines, lister_input, refusal_json, step_lines
from desk.solver import KNOWN, Solver, solvers
from desk.stepping import Desk, DeskFault, Step

FINISHED, REFUSED, NO_WORK = 0, 1, 2
LARGEST_BUDGET = 1_000_000
LONGEST_LIST, LONGEST_INPUT = 4096, 65536  # what the run lister takes


class _Arguments(argparse.ArgumentParser):
    def error(self, message: str) -> NoReturn:
        raise CannotWork(f"{message}; ./desk --help tells how it is called")


def arguments() -> argparse.ArgumentParser:
    """What the desk takes."""
    taken = _Arguments(
        prog="./desk", description="Runs a typed sheet, asks solvers where a proposal is due, and shows what was taken."
    )
    taken.add_argument(
        "sheet", metavar="SHEET", help="the file with the sheet, in the papers' notation; - for standard input"
    )
    taken.add_argument(
        "--solver",
        metavar="COMMAND",
        action="append",
        help="a program that speaks SMT-LIB 2; twice at most (default: z3 and cvc5)",
    )
    taken.add_argument(
        "--timeout", metavar="SECONDS", type=float, default=10.0, help="a solver's time for one statement (default: 10)"
    )
    taken.add_argument(
        "--budget", metavar="STEPS", type=int, default=10_000, help="how many steps the run may take (default: 10000)"
    )
    taken.add_argument("--proposals", metavar="FILE", help="write the accepted proposals here, as the input of ./sheet")
    taken.add_argument("--json", action="store_true", help="print the run as JSON")
    taken.add_argument("--quiet", action="store_true", help="print the closing line alone")
    return taken


class Printer:
    """Prints the run as it goes, and on a terminal what is being waited for."""

    def __init__(self, speaks: bool) -> None:
        self._speaks = speaks
        self._shows = sys.stderr.isatty()

    def asking(self, statement: Statement) -> None:
        """Shows that solvers are at work."""
        self._progress(f"line {statement.line}: waiting for the solvers")

    def step(self, number: int, step: Step) -> None:
        """Prints a step; where steps are not printed, shows how many there were."""
        self.done()
        if self._speaks:
            print("\n".join(step_lines(step)), flush=True)
        if not self._speaks or not sys.stdout.isatty():
            self._progress(f"{number} steps")

    def done(self) -> None:
        """Takes away what was shown."""
        self._progress("")

    def _progress(self, words: str) -> None:
        if self._shows:
            sys.stderr.write(f"\r\x1b[K{words}")
            sys.stderr.flush()


def main(typed: Optional[Sequence[str]] = None) -> int:
    """The command; gives its exit status."""
    try:
        status = _work(arguments().parse_args(typed))
        sys.stdout.flush()
        return status
    except (CannotWork, LibraryMissing, DeskFault) as fault:
        print(f"./desk: {fault}", file=sys.stderr)
        return NO_WORK
    except KeyboardInterrupt:
        print("./desk: interrupted", file=sys.stderr)
        return 130
    except OSError as fault:
        os.dup2(os.open(os.devnull, os.O_WRONLY), sys.stdout.fileno())  # what could not be printed is left out
        if not isinstance(fault, BrokenPipeError):
            print(f"./desk: {fault.strerror or fault}", file=sys.stderr)
        return NO_WORK


def _work(given: argparse.Namespace) -> int:
    _test(given)
    text = _text(given.sheet)
    ready.library()
    try:
        program = Program.read(text)
    except Refusal as refusal:
        _print_unread(refusal, given)
        return REFUSED
    found = _solvers(given.solver, given.timeout)
    printer = Printer(not given.json and not given.quiet)
    desk = Desk(program, found, given.budget, printer.asking)
    return _carry_out(desk, given, printer)


def _print_unread(refusal: Refusal, given: argparse.Namespace) -> None:
    if given.json:
        print(json.dumps(refusal_json(refusal), indent=2))
    else:
        print(_cut(f"Refused: {refusal}", given.quiet))


def _cut(closing_lines: str, quiet: bool) -> str:
    return closing_lines.splitlines()[0] if quiet else closing_lines


def _carry_out(desk: Desk, given: argparse.Namespace, printer: Printer) -> int:
    steps: List[Step] = []
    for step in desk.steps():
        steps.append(step)
        printer.step(len(steps), step)
    printer.done()
    desk.replay()
    if given.proposals:
        _write(given.proposals, lister_input(desk), len(desk.accepted))
    if given.json:
        print(json.dumps(as_json(desk, steps), indent=2))
    elif not given.quiet:
        print("\n".join(left_lines(desk.tables)))
    if not given.json:
        print(_cut(closing(desk, steps), given.quiet))
    return REFUSED if desk.answer.outcome else FINISHED


def _solvers(named: Optional[List[str]], seconds: float) -> List[Solver]:
    """The solvers that are named, or z3 and cvc5, as far as they are there."""
    if named is None:
        ready.solvers()
    found, missing = solvers(named or list(KNOWN), seconds)
    if not found:
        raise CannotWork(f"there is no solver to ask ({'; '.join(missing)})")
    for line in missing if named else []:
        print(f"./desk: {line}; going on without it", file=sys.stderr)
    return found


def _test(given: argparse.Namespace) -> None:
    if sys.stdout is None or sys.stderr is None:
        raise CannotWork("standard output or error is closed")
    if len(given.solver or []) > 2:
        raise CannotWork("two solvers are asked at most")
    if not 0 < given.timeout <= 86400:
        raise CannotWork("a timeout is more than 0 seconds and at most a day")
    if not 0 <= given.budget <= LARGEST_BUDGET:
        raise CannotWork(f"a budget is 0 to {LARGEST_BUDGET} steps")


def _text(place: str) -> bytes:
    try:
        if place == "-" and sys.stdin is None:
            raise CannotWork("standard input is closed")
        if place == "-":
            return sys.stdin.buffer.read()
        with open(place, "rb") as file:
            return file.read()
    except OSError as fault:
        raise CannotWork(f"{place}: {fault.strerror}") from fault


def _write(place: str, text: str, words: int) -> None:
    if len(text) > LONGEST_INPUT or words > LONGEST_LIST:
        limits = f"{LONGEST_LIST} words of proposals and {LONGEST_INPUT} bytes"
        print(f"./desk: {place}: more than ./sheet takes, which is {limits}", file=sys.stderr)
    try:
        with open(place, "w", encoding="ascii") as file:
            file.write(text)
    except OSError as fault:
        raise CannotWork(f"{place}: {fault.strerror}") from fault


def _end(*_: object) -> None:
    raise KeyboardInterrupt


if __name__ == "__main__":
    signal.signal(signal.SIGTERM, _end)
    if isinstance(sys.stdout, io.TextIOWrapper):
        sys.stdout.reconfigure(errors="backslashreplace")  # a solver's words and a sheet may hold any character
    sys.exit(main())
