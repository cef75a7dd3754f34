#!/usr/bin/env python3
"""Tests the reading lists of docs/RULES.md, that of document 01 and those of the requests that have rules of their own: that each file of `crates/rules/specs` in them has as many
lines as they say, fewer than 400 for document 01 and fewer than 100 for a request, that whatever these files use of the crate is in a file of the lists or is one of the shared
words, and that the page names these words. A line counts where it says something: neither an import, nor blank, nor a comment."""
import pathlib
import re
import sys

ROOT = pathlib.Path(__file__).resolve().parent.parent
SPECS = ROOT / "crates" / "rules" / "specs"
MOST = 400
MOST_OF_A_REQUEST = 100
ROW = re.compile(r"^\| `([A-Za-z/]+)` \| (\d+) \|", re.M)
USE = re.compile(r"^use Rattle\.rules\.specs\.([A-Za-z.]+)\.\{(.*)\}$", re.M)
faults = []


def section(page):
    """The text of the reading lists."""
    found = re.search(r"^## What an outsider believes\n(.*?)^## ", page, re.M | re.S)
    return found[1] if found else ""


def lines(text):
    """How many lines say something."""
    return sum(1 for line in text.splitlines() if line.strip() and not re.match(r"use |\s*--", line))


def names(group):
    return [name.split(" as ")[0].strip() for name in group.split(",")]


def test_total(part, number):
    """The lines of one list, the first of which is document 01's. The page has their sum."""
    total = sum(int(said) for _, said in ROW.findall(part))
    if not 0 < total < (MOST_OF_A_REQUEST if number else MOST) or f"| together | **{total}** |" not in part:
        faults.append(f"list {number} has {total} lines")
    return total


def main():
    text = section((ROOT / "docs" / "RULES.md").read_text(encoding="utf-8"))
    listed = dict(ROW.findall(text))
    shared = set(re.findall(r"`([^`]+)`", (re.search(r"^Shared words: (.*?)\n\n", text, re.M | re.S) or [""] * 2)[1]))
    totals = [test_total(part, number) for number, part in enumerate(re.split(r"^### ", text, flags=re.M))]
    for name, said in listed.items():
        source = (SPECS / f"{name}.antt").read_text(encoding="utf-8")
        if lines(source) != int(said):
            faults.append(f"{name} has {lines(source)} lines, not {said}")
        for module, group in USE.findall(source):
            if module.replace(".", "/") not in listed:
                faults.extend(f"{name} uses {module}.{used}" for used in names(group) if used not in shared)
    for claim in sorted((SPECS / "Claims").glob("*.antt")):
        if f"Claims/{claim.stem}" not in listed:
            faults.append(f"Claims/{claim.stem} is not in the list")
    print("\n".join(faults) or f"{len(listed)} files to believe, {' and '.join(map(str, totals))} lines")
    sys.exit(1 if faults else 0)


if __name__ == "__main__":
    main()
