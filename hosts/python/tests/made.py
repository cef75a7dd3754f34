"""Made sheets: texts as a layout desk would write them, the same text for the same seed."""

from __future__ import annotations

from typing import List

from tests.draw import Draw
from tests.themes import THEMES, Theme

_COMPARISONS = ("<=", ">=", "=", "<", ">", "!=")


def made(seed: int) -> str:
    """The sheet of a seed."""
    draw = Draw(seed)
    size = draw.between(3, 30)
    themes: List[Theme] = []
    setup: List[str] = []
    while not themes or (len(setup) < size // 2 and len(themes) < 4):
        number = len(themes)
        theme = draw.one(THEMES)
        themes.append(theme(draw, _name(theme.__name__, number)))
        setup += themes[-1].setup
    later = [statement for theme in themes for statement in theme.later] + _across(draw, themes)
    chosen: List[str] = []
    for statement in draw.mixed(later):
        if not chosen or _count(setup + chosen + [statement]) <= size:
            chosen.append(statement)
    if draw.chance(12):
        chosen[-1] = draw.one(draw.one(themes).faults)
    return ";\n".join(setup + chosen) + "\n"


def _count(texts: List[str]) -> int:
    """How many statements these are, with those in their blocks."""
    return sum(1 + text.count(";") + text.count("{\n") for text in texts)


def _name(theme: str, number: int) -> str:
    known = {"sections": "part", "boxes": "box", "cuts": "cut", "large": "span", "once": "draft", "tied": "pair"}
    return known.get(theme, theme) + ("" if number == 0 else str(number + 1))


def _across(draw: Draw, themes: List[Theme]) -> List[str]:
    """Statements over the cells of all themes: linear comparisons, wishes, products, flags, and branches."""
    numbers = [cell for theme in themes for cell in theme.numbers]
    flags = [cell for theme in themes for cell in theme.flags]
    return [_statement(draw, numbers, flags) for _ in range(draw.between(0, 5))]


def _statement(draw: Draw, numbers: List[str], flags: List[str]) -> str:
    sort = draw.between(0, 9)
    if sort <= 3:
        return f"always {draw.one(('weak', 'weak', 'medium', 'required'))} {_comparison(draw, numbers)}"
    if sort <= 5:
        return f"once {draw.one(('required', 'medium', 'weak'))} {_comparison(draw, numbers)}"
    if sort == 6:
        product = f"{draw.one(numbers)} * {draw.one(numbers)}"
        said = draw.one(("always weak", "always medium", "once"))
        return f"{said} {product} {draw.one(('<=', '>='))} {draw.between(0, 9999)}"
    if sort == 7 and flags:
        either = f"{draw.one(flags)} or {_comparison(draw, numbers)}"
        return draw.one((f"always {either}", f"{draw.one(flags)} := {_comparison(draw, numbers)}"))
    if sort == 8:
        branch = f"  {draw.one(numbers)} := {draw.between(0, 300)}"
        return f"if {_comparison(draw, numbers)} then {{\n{branch}\n}} else {{\n  log := false\n}}"
    return f"{draw.one(numbers)} := {_linear(draw, numbers)}"


def _linear(draw: Draw, numbers: List[str]) -> str:
    """A sum of one to three cells, some of them times a number."""
    terms = []
    for _ in range(draw.between(1, 3)):
        times = draw.one((1, 1, 1, 2, 4, 10, -1))
        terms.append(draw.one(numbers) if times == 1 else f"{times} * {draw.one(numbers)}")
    return draw.one((" + ", " + ", " - ")).join(terms)


def _comparison(draw: Draw, numbers: List[str]) -> str:
    """A sum against a number, or against another cell."""
    right = draw.one(numbers) if draw.chance(40) else str(draw.between(0, draw.one((100, 1000, 5000))))
    return f"{_linear(draw, numbers)} {draw.one(_COMPARISONS)} {right}"
