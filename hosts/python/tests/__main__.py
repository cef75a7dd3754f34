"""python3 -m tests in hosts/python: every test, and at the end which were left out and why."""

from __future__ import annotations

import collections
import pathlib
import sys
import unittest

HERE = pathlib.Path(__file__).resolve().parent


def main() -> int:
    """Runs them; gives the exit status."""
    found = unittest.defaultTestLoader.discover(str(HERE), top_level_dir=str(HERE.parent))
    result = unittest.TextTestRunner(stream=sys.stdout).run(found)
    for reason, count in collections.Counter(reason for _, reason in result.skipped).items():
        print(f"{count} {'test' if count == 1 else 'tests'} {reason}")
    return 0 if result.wasSuccessful() else 1


if __name__ == "__main__":
    sys.exit(main())
