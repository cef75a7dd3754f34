#!/usr/bin/env python3
"""Tests README.md, docs/OUTCOMES.md and docs/NOTATION.md: the inputs and outputs that they show are those of sheets/, the second page has a section with a sheet for every outcome
from 0 to 19, for 23 to 25 and for `input=`, and each sheet of sheets/outcomes is named after what it answers, as those of sheets/printing that are refused are. Every text of the first two
is a file, and its refusal the `.shown` beside it; 7, 8, 9, 15, 17 and 19 have such texts. Every text of the third is a file, every refusal is its `.read` as hosts/rust prints it, and 20, 21
and 22 have a section each. What is printed of a program is the `.printed` beside its sheet; the third shows that of every sheet of sheets/k. `...` on a page stands for what is left out. That
the sheets give their outputs is tested elsewhere."""
import pathlib
import re
import sys

ROOT = pathlib.Path(__file__).resolve().parent.parent
SHEETS = ROOT / "sheets"
SHOWN = re.compile(r"`sheets/([a-z0-9/-]+)` reads\n\n```\n(.*?)```\n\nand prints\n\n```\n(.*?)```", re.S)
ANSWERED = re.compile(r"`sheets/([a-z0-9/-]+)\.txt` answers\n\n```\n(.*?)```", re.S)
TYPED = re.compile(r"`sheets/([a-z0-9/-]+)` types\n\n```\n(.*?)\n```(?:\n\nand is refused:\n\n```\n(.*?)\n```)?", re.S)
TYPED_ROW = re.compile(r"^\| `([^`]+)` \| (?:(\d\d, column \d+) \| )?.* \| `([a-z0-9-]+)` \|$", re.M)
HELD = re.compile(r"`sheets/([a-z0-9/-]+)` holds\n\n```\n(.*?)```", re.S)
PRINTED = re.compile(r"`sheets/([a-z0-9/-]+)` is printed as\n\n```\n(.*?)```", re.S)
PRINTED_ALIKE = re.compile(r"`sheets/([a-z]+)/([a-z0-9-]+)` to\s`sheets/\1/([a-z0-9-]+)` are printed as\s`sheets/([a-z0-9/-]+)`")
DESKED = re.compile(r"`\./desk sheets/([a-z0-9/-]+)\.sheet` prints\n\n```\n(.*?)```", re.S)
SHOWN_IN_TEXT = ["7", "8", "9", "15", "17", "19"]
faults = []


def is_cut(shown, whole):
    """The page's text is the file's, but for what `...` leaves out."""
    return re.fullmatch(".*".join(map(re.escape, shown.split("..."))), whole, re.S)


def said(output):
    """What a sheet's output answers, as the names of sheets have it."""
    match = re.match(r"outcome=(\d+)\n|(input=\d)\n$", output)
    if not match:
        return ""
    return match[2].replace("=", "-") if match[2] else match[1].zfill(2)


def test_shown(text):
    """Every sheet that a text shows is told as it is. What they answer is given back."""
    answers = set()
    for name, reads, prints in SHOWN.findall(text):
        for shown, suffix in ((reads, ".in"), (prints, ".out")):
            file = SHEETS / (name + suffix)
            if not file.is_file() or not is_cut(shown, file.read_text()):
                faults.append(f"{name}{suffix} is not as shown")
        answers.add(said(prints))
    for name, shown in ANSWERED.findall(text):
        lines = (SHEETS / f"{name}.txt").read_text().splitlines()
        if shown.splitlines() != [line for at, line in enumerate(lines) if at % 3 != 1]:
            faults.append(f"{name}.txt is not as shown")
        answers |= {line.split()[0].zfill(2) for line in shown.splitlines()[1::2]}
    if len(SHOWN.findall(text)) != text.count("` reads\n") or len(ANSWERED.findall(text)) != text.count("` answers\n"):
        faults.append("a sheet is shown in another form")
    return answers


def test_printed(text):
    """Every sheet that a text tells to be printed is told as it is. Which ones these are, and what they answer, is given back."""
    printed = PRINTED.findall(text)
    for form, suffix in ((HELD, ".in"), (PRINTED, ".printed")):
        for name, shown in form.findall(text):
            file = SHEETS / (name + suffix)
            if not file.is_file() or not is_cut(shown, file.read_text()):
                faults.append(f"{name}{suffix} is not as shown")
    names = {name for name, _ in printed}
    for folder, first, last, like in PRINTED_ALIKE.findall(text):
        for file in sorted((SHEETS / folder).glob("*.printed")):
            if first <= file.stem <= last:
                names.add(f"{folder}/{file.stem}")
                if like not in names or file.read_text() != (SHEETS / f"{like}.printed").read_text():
                    faults.append(f"{folder}/{file.stem} is not printed as {like}")
    counts = len(HELD.findall(text)), len(printed), len(PRINTED_ALIKE.findall(text))
    if counts != (text.count("` holds\n"), text.count("` is printed as\n"), text.count("` are printed as")):
        faults.append("a sheet is held or printed in another form")
    return names, {said(shown) for _, shown in printed}


def test_refused(text):
    """Every text that a page types is its file, and is refused as its `.shown` says. How many refusals there are is given back."""
    typed = TYPED.findall(text)
    for name, shown, told in typed:
        file = SHEETS / f"{name}.text"
        if not file.is_file() or not is_cut(shown, file.read_text().removesuffix("\n")):
            faults.append(f"{name}.text is not as shown")
        display = SHEETS / f"{name}.shown"
        if told != (display.read_text().removesuffix("\n") if display.is_file() else ""):
            faults.append(f"{name}.shown is not as shown")
    if len(typed) != text.count("` types\n"):
        faults.append("a text is shown in another form")
    return sum(1 for _, _, told in typed if told)


def test_desked(page):
    """What a page tells of the desk is what the desk prints. How many sheets are shown is given back."""
    shown = DESKED.findall(page)
    for name, printed in shown:
        file = SHEETS / f"{name}.shown"
        if not file.is_file() or printed != file.read_text():
            faults.append(f"{name}.shown is not as shown")
    if len(shown) != page.count(".sheet` prints\n"):
        faults.append("a sheet of the desk is shown in another form")
    return len(shown)


def test_outcomes(page):
    sections = re.split(r"^## ", page, flags=re.M)[1:]
    headings = [section.split(":")[0] for section in sections]
    if headings != [str(number) for number in [*range(20), 23, 24, 25]] + ["`input=`"]:
        faults.append(f"the sections are {headings}")
    test_headings(page, ["24", "25"])
    for section, heading in zip(sections, headings):
        answers = test_shown(section) | test_printed(section)[1]
        wanted = {"input-1", "input-2", "input-3"} if "input" in heading else {heading.zfill(2)}
        if answers != wanted:
            faults.append(f"the section on {heading} shows {sorted(answers)}")
        if (test_refused(section) > 0) != (heading in SHOWN_IN_TEXT):
            faults.append(f"the section on {heading} shows texts or none")
    return len(sections)


def test_names(page):
    """The sheets that a page names are there, and each answers what its name says."""
    sheets = {file.stem for file in (SHEETS / "outcomes").iterdir()}
    printed = {file.stem: said(file.read_text()) for file in (SHEETS / "printing").glob("*.printed")}
    for name in sorted(set(re.findall(r"`((?:\d\d|input)-[a-z0-9-]+)`", page)) - sheets - set(printed)):
        faults.append(f"there is no sheet {name}")
    for name, answer in sorted(printed.items()):
        named = re.match(r"\d\d-|input-\d-|", name)[0].removesuffix("-")
        if named != answer:
            faults.append(f"printing/{name} answers {answer}")
    for file in sorted((SHEETS / "outcomes").glob("*.out")):
        if not file.name.startswith(said(file.read_text()) + "-"):
            faults.append(f"{file.name} answers {said(file.read_text())}")
    for file in sorted((SHEETS / "outcomes").glob("*.txt")):
        answers = {line.split()[0].zfill(2) for line in file.read_text().splitlines()[2::3]}
        if answers != {file.name[:2]}:
            faults.append(f"{file.name} answers {sorted(answers)}")
    return len(sheets)


def tellings(name, says):
    """A text's outcome, and what a page may tell of it: nothing where it is read; the refusal as hosts/rust prints it, or, in the first line, its number and column."""
    text, file = (SHEETS / f"{name}.text").read_bytes(), SHEETS / f"{name}.read"
    if not file.is_file() or file.read_text().startswith("outcome=0\n"):
        return 0, [""]
    outcome, place = re.match(r"outcome=(\d+)\nplace=(\d+)\n", file.read_text()).groups()
    before = text[: int(place)].decode().split("\n")
    line, column = len(before), len(before[-1]) + 1
    shown = text.decode().split("\n")[line - 1].removesuffix("\r") + "\n" + re.sub(r"[^\t]", " ", before[-1]) + "^"
    printed = f"{outcome} at line {line}, column {column}: {says[outcome]}\n{shown}"
    return int(outcome), [printed, f"{outcome}, column {column}"][: 2 if line == 1 else 1]


def test_headings(page, numbers):
    """From the first of these outcomes on a page has headings for these alone, in the words that hosts/rust prints. They are given back."""
    says = {number: words for number, words in re.findall(r"^## (\d\d): (.*)$", page, re.M) if number >= numbers[0]}
    printed = (ROOT / "hosts" / "rust" / "src" / "answer.rs").read_text()
    if list(says) != numbers or not all(f'"{words}"' in printed for words in says.values()):
        faults.append(f"the headings of {numbers} are {says}")
        return {}
    return says


def test_notation(page):
    """Each refusal stands in the section of its number."""
    says = test_headings(page, ["20", "21", "22"])
    if not says:
        return 0
    texts = 0
    for section in re.split(r"^## ", page, flags=re.M):
        outcomes = set()
        rows = [(f"notation/{name}", text, told) for text, told, name in TYPED_ROW.findall(section)]
        for name, text, told in TYPED.findall(section) + rows:
            file = SHEETS / f"{name}.text"
            if not file.is_file() or not is_cut(text, file.read_text().removesuffix("\n")):
                faults.append(f"{name}.text is not as shown")
                continue
            outcome, fits = tellings(name, says)
            if told not in fits:
                faults.append(f"{name}.text is not answered as told")
            outcomes.add(outcome)
            texts += 1
        if outcomes != ({int(section[:2])} if section[:2] in says else outcomes & {0}):
            faults.append(f"the section {section.splitlines()[0]!r} shows {sorted(outcomes)}")
    blocks = sum(4 if told else 2 for _, _, told in TYPED.findall(page)) + 2 * len(HELD.findall(page) + PRINTED.findall(page))
    if page.count("```") != blocks:
        faults.append("docs/NOTATION.md shows a text in another form")
    missing = {f"k/{file.stem}" for file in (SHEETS / "k").glob("*.in")} - test_printed(page)[0]
    if missing:
        faults.append(f"docs/NOTATION.md does not print {sorted(missing)}")
    return texts


def test_named():
    """The texts and the printed sheets that pages name are there: texts on the page of the notation without their folder."""
    pages = [("docs/NOTATION.md", "notation", r"`([a-z0-9]+(?:-[a-z0-9]+)+)`")]
    pages += [(page, folder, rf"`{folder}/([a-z0-9-]+)`") for page in ("docs/DECISIONS.md", "docs/NOTATION.md", "docs/OUTCOMES.md", "sheets/README.md") for folder in ("notation", "printing")]
    for page, folder, named in pages:
        files = {file.stem for file in (SHEETS / folder).iterdir()}
        for name in sorted(set(re.findall(named, (ROOT / page).read_text())) - files):
            faults.append(f"{page}: there is no {folder}/{name}")


def main():
    page = (ROOT / "docs" / "OUTCOMES.md").read_text()
    sections, sheets = test_outcomes(page), test_names(page)
    readme = (ROOT / "README.md").read_text()
    if not test_shown(readme):
        faults.append("README.md shows no sheet")
    test_refused(readme)
    test_printed(readme)
    texts = test_notation((ROOT / "docs" / "NOTATION.md").read_text())
    test_named()
    desked = test_desked(readme) + test_desked((ROOT / "docs" / "DESK.md").read_text())
    print("\n".join(faults) or f"{sections} outcomes explained, {sheets} sheets of them; {texts} texts of the notation; {desked} runs of the desk")
    sys.exit(1 if faults else 0)


if __name__ == "__main__":
    main()
