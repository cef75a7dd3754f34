#!/usr/bin/env python3
"""opened.py: a crate knows a lower crate by its promises and laws. Names each `unfolding` line that opens a definition of another
crate, each path of another crate that an `unfolding(..)` over a function in a .rt file opens, and each place above crates/tables that
speaks of where a word stands in a table: an offset's name, or a numeral of the heap's layout. The sheets of crates/rules, crates/lister,
crates/sheet and crates/text, which compute through definitions, are the one exception. Exit status 1 where there is one."""
import pathlib
import re
import sys

SHEETS = [pathlib.Path("crates", crate, folder, "Sheets.antt") for crate in ("rules", "lister", "sheet", "text") for folder in ("specs", "proofs")]
# the crates that know where words stand; the offsets' names, the heap's length, and its 25 words to a record
KNOWING = ("words", "tables")
OFFSETS = re.compile(r"(?<![\w-])(count_word|label_word|field_word|location_word|kept_word|first_kept|record_words|1601|25 \*)(?![\w-])")
# what an attribute opens in a source; it may stand on several lines
OPENING = re.compile(r"\bunfolding\(([^)]*)\)")
own, wrong, told, lines_seen = {}, [], [], 0


def files(crate):
    """What is written of a crate, without what the kit makes of it."""
    return [path for part in ("src", "specs", "proofs") for path in sorted((crate / part).rglob("*"))]


def lines_of(path):
    return enumerate(path.read_text(encoding="utf-8").split("\n"), 1)


for crate in sorted(pathlib.Path("crates").iterdir()):
    names = set()
    for path in files(crate):
        if path.suffix != ".antt":
            continue
        for _, line in lines_of(path):
            found = re.match(r"\s*(?:unfoldable |abbrev )?(?:pub )?(?:unfoldable |abbrev )?(\S+) :", line)
            if found:
                names.add(found.group(1))
            # a name that the crate gives a definition of its own
            if re.match(rf"use Rattle\.{crate.name}\.", line):
                names.update(re.findall(r" as (\S+?)[,}]", line))
    own[crate.name] = names
for crate, names in own.items():
    for path in files(pathlib.Path("crates", crate)):
        if path.suffix == ".rt":
            source = path.read_text(encoding="utf-8")
            for opening in OPENING.finditer(source):
                lines_seen += 1
                for place in re.finditer(r"[\w:]+", opening.group(1)):
                    first = place.group().split("::")[0]
                    # `crate` is the crate itself, and a name that no crate here has is the kit's
                    if first != crate and first in own:
                        number = source.count("\n", 0, opening.start(1) + place.start()) + 1
                        wrong.append(f"{path}:{number}: {place.group()}")
        if path in SHEETS or path.suffix != ".antt":
            continue
        for number, line in lines_of(path):
            found = re.match(r"\s*unfolding (.*)", line)
            if not found:
                continue
            lines_seen += 1
            for name in found.group(1).split():
                # a name that no crate has is the kit's
                if name not in names and any(name in theirs for theirs in own.values()):
                    wrong.append(f"{path}:{number}: {name}")
    if crate in KNOWING:
        continue
    for path in files(pathlib.Path("crates", crate)):
        if path in SHEETS or path.suffix not in (".antt", ".rt"):
            continue
        for number, line in lines_of(path):
            if not re.match(r"\s*(--|//)", line):
                told += [f"{path}:{number}: {name}" for name in OFFSETS.findall(line)]
for where in wrong:
    print("opens another crate's definition:", where)
for where in told:
    print("speaks of where a word stands in a table:", where)
print(f"{lines_seen} lines open definitions, {len(wrong)} names of them are another crate's; offsets of the tables are told in {len(told)} places above them")
sys.exit(1 if wrong or told else 0)
