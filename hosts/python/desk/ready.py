"""What the desk needs before it can work: the proved library, and solvers."""

from __future__ import annotations

import os
import pathlib
import subprocess

TOOLS = pathlib.Path(__file__).resolve().parents[3] / "tools"


class CannotWork(Exception):
    """Why the desk cannot work, in one line."""


def library() -> None:
    """Has the proved library made, where that is not done yet. CORDBASIN_LIBRARY names one that is there."""
    if "CORDBASIN_LIBRARY" in os.environ:
        return
    if subprocess.run([TOOLS / "library"], stdin=subprocess.DEVNULL, stdout=2).returncode:
        raise CannotWork("the proved library could not be made")


def solvers() -> None:
    """Has z3 and cvc5 installed where that may be done. What is missing then is said, and the desk goes on with what there is."""
    subprocess.run([TOOLS / "solvers"], stdin=subprocess.DEVNULL, stdout=2)
