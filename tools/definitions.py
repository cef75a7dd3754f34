#!/usr/bin/env python3
"""definitions.py SEED COUNT: compares the definitions of crates/rules with the independent program on COUNT generated sheets.

Writes a scratch repository under target/definitions: the crates up to rules, and a crate `computed` whose one claim is
that the definitions give, for each sheet, what reference/ answers (outcome, place, steps, accepted proposals, unread
words and the three tables). `rt check` in its folder lets the checker compute it. Sheets are taken so that every outcome
comes up as evenly as the generator allows; long programs and runs of many steps are passed over, since the checker
computes slowly."""
import pathlib
import re
import shutil
import subprocess
import sys

HERE = pathlib.Path(__file__).resolve().parent.parent
SCRATCH = HERE / "target" / "definitions"
REFERENCE = HERE / "reference" / "target" / "release" / "reference"
SIZES = (128, 1601, 98)
MOST_WORDS, MOST_STEPS, MOST_PROPOSALS, MOST_USED = 80, 15, 100, 60
SHEETS_TO_A_CLAIM, LONG_ONES = 1, 2


def numbers(text, size):
    return [0] * size if text == "F" else [int(x) for x in text.split()]


def word(x):
    return f"pos {x}" if x >= 0 else f"negsuc {-x - 1}"


def listed(words):
    """A list of words, with its zeros at the end put together."""
    used = len(words)
    while used and words[used - 1] == 0:
        used -= 1
    head = "".join(word(x) + " ∷ " for x in words[:used])
    return f"({head}replicate {len(words) - used} (pos 0))"


def state(tables):
    return "(tables " + " ".join(listed(t) for t in tables) + ")"


def answered(seed, count):
    """Sheets with their answers, as many of each outcome as there are, up to an even share."""
    lines = subprocess.run([REFERENCE, "generate", seed, str(30 * count)], stdout=subprocess.PIPE, text=True, check=True).stdout.splitlines()
    answers = subprocess.run([REFERENCE, "batch"], input="\n".join(lines) + "\n", stdout=subprocess.PIPE, text=True, check=True).stdout.splitlines()
    share, taken, chosen = -(-count // 20), {}, []
    for even in (True, False):
        for line, answer in zip(lines, answers):
            if len(chosen) == count:
                break
            program, *tables, proposals, budget = line.split("|")
            first, *after = answer.split("|")
            outcome, place, steps, accepted, unread = (int(x) for x in first.split())
            program, proposals = numbers(program, 0), numbers(proposals, 0)
            before = [numbers(t, n) for t, n in zip(tables, SIZES)]
            used = sum(x != 0 for t in before for x in t)
            long = len(program) > MOST_WORDS or steps > MOST_STEPS or len(proposals) > MOST_PROPOSALS or used > MOST_USED
            so_far = sum(o == outcome for o in taken.values())
            if (line, answer) in taken or (even and so_far >= share):
                continue
            if long and (outcome not in (10, 14) or so_far >= LONG_ONES or len(program) > 2 * MOST_WORDS):
                continue
            taken[(line, answer)] = outcome
            left = [b if a == "=" else numbers(a, 0) for a, b in zip(after, before)]
            told = f"told {outcome} {place} {steps} {accepted} {listed(proposals[len(proposals) - unread:])} {state(left)}"
            chosen.append((f"given (run {listed(program)} {listed(proposals)} ({word(int(budget))}) {state(before)})", told))
    print("outcomes:", {o: sum(x == o for x in taken.values()) for o in sorted(set(taken.values()))})
    return chosen


HEAD = """-- What the definitions give for generated sheets, and what the independent program answers. Assumes nothing.
use mathlib.Core.Path.{◌≡◌, refl}
use Prim.Native.Nat.{ℕ}
use mathlib.Core.List.{List, [], ◌∷◌}
use lib.IntN.{ℤ, pos, negsuc}
use lib.ListN.{replicate}
use Rattle.tables.specs.Cells.{cells}
use Rattle.rules.specs.State.{State}
use Rattle.rules.specs.Start.{Ended}
"""

KINDS = """
abbrev tables : List ℤ → List ℤ → List ℤ → State
tables e h c = record { cells = cells e h; kept = c }

record Told : Type 0 where
  outcome : ℕ
  place : ℕ
  steps : ℕ
  accepted : ℕ
  unread : List ℤ
  state : State

abbrev told : ℕ → ℕ → ℕ → ℕ → List ℤ → State → Told
told o p s a u t = record { outcome = o; place = p; steps = s; accepted = a; unread = u; state = t }

abbrev given : Ended → Told
given x = told x.outcome x.place x.steps x.accepted x.unread x.state
"""


def claim(sheets):
    uses = (HERE / "crates/rules/proofs/Sheets.antt").read_text(encoding="utf-8").split("\n")
    opened = re.sub(r" given wanted\b", "", next(u for u in uses if u.startswith("unfolding ")))
    uses = [u for u in uses if u.startswith("use Rattle.") and "specs.Sheets" not in u]
    both = [" ∷ ".join(pair[i] for pair in sheets) + " ∷ []" for i in (0, 1)]
    return HEAD + "\n".join(uses) + KINDS + f"\ncomputed : ◌≡◌ {{A = List Told}} ({both[0]}) ({both[1]})\n{opened}\ncomputed = refl\n"


def main():
    seed, count = sys.argv[1], int(sys.argv[2])
    subprocess.run(["cargo", "build", "--quiet", "--release", "--offline"], cwd=HERE / "reference", check=True)
    shutil.rmtree(SCRATCH / "crates", ignore_errors=True)
    listed_crates = dict(line.split(":") for line in (HERE / "crates.txt").read_text().splitlines() if ":" in line and not line.startswith("#"))
    known = listed_crates["rules"].split() + ["rules"]
    for name in known:
        shutil.copytree(HERE / "crates" / name, SCRATCH / "crates" / name)
    (SCRATCH / "crates.txt").write_text("".join(f"{name}:{listed_crates[name]}\n" for name in known) + f"computed: {' '.join(known)}\n")
    crate = SCRATCH / "crates" / "computed"
    for folder in ("src", "specs", "proofs"):
        (crate / folder).mkdir(parents=True)
    (crate / "src/lib.rt").write_text("// Sheets computed from the definitions.\n#![tactic(auto)]\n")
    (crate / "specs/Lib.antt").write_text("-- none\n")
    sheets = answered(seed, count)
    parts = [sheets[i : i + SHEETS_TO_A_CLAIM] for i in range(0, len(sheets), SHEETS_TO_A_CLAIM)]
    (crate / "proofs/Lib.antt").write_text("".join(f"pub mod Part{i}\n" for i in range(len(parts))))
    for i, part in enumerate(parts):
        (crate / f"proofs/Part{i}.antt").write_text(claim(part), encoding="utf-8")
    print(f"{len(sheets)} sheets in {len(parts)} claims; now the checker computes them")
    done = subprocess.run(["rt", "check"], cwd=crate)
    print("the definitions and the independent program agree" if done.returncode == 0 else "they differ, or the checker gave up: see above")
    sys.exit(done.returncode)


main()
