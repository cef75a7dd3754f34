"""What a made sheet is about. A theme makes records, states what holds over them, and has later statements."""

from __future__ import annotations

import dataclasses
from typing import Callable, List, Sequence

from tests.draw import Draw

MOST = 2147483647


@dataclasses.dataclass
class Theme:
    """Statements that set a theme up, later ones, of which any may be left out, its cells, and its rare faults."""

    setup: List[str] = dataclasses.field(default_factory=list)
    later: List[str] = dataclasses.field(default_factory=list)
    numbers: List[str] = dataclasses.field(default_factory=list)
    flags: List[str] = dataclasses.field(default_factory=list)
    faults: List[str] = dataclasses.field(default_factory=list)


def parted(draw: Draw, parts: Sequence[str]) -> List[str]:
    """The parts as one constraint or as several."""
    if draw.chance(50):
        return ["always " + " /\\ ".join(parts)] if parts else []
    return [f"always {part}" for part in parts]


def core(draw: Draw, name: str) -> Theme:
    """A core in a file: samples of some bytes behind a header, and wishes that are seldom all met."""
    width, header, samples = draw.one((2, 4, 8, 12)), draw.one((16, 32, 64, 256)), draw.between(1, 900)
    wrong = draw.one((0, 0, 0, 4))
    theme = Theme(numbers=[f"{name}.{label}" for label in ("header", "samples", "bytes", "length")])
    made = f"header: {header}, samples: {samples}, bytes: {width * samples + wrong}, length: {header + width * samples}"
    room = header + width * samples + draw.one((0, 64, 1024, 8192))
    required = [
        f"required {name}.bytes = {width} * {name}.samples",
        f"required {name}.length = {name}.header + {name}.bytes",
    ]
    required += draw.some((f"required {name}.length <= {room}", f"{name}.samples >= 1", f"{name}.header >= 16"), 60)
    wishes = (
        f"medium {name}.header = {draw.one((16, 64, 512))}",
        f"medium {name}.samples = {draw.between(1, 2000)}",
        f"weak {name}.length = {room}",
        f"weak {name}.header = {header} /\\ weak {name}.bytes >= {width * draw.between(1, 1000)}",
    )
    theme.setup = [f"{name} := new {{{made}}}"] + parted(draw, required)
    theme.setup += [f"always {wish}" for wish in draw.some(wishes, 35)]
    theme.later = [f"{name}.samples := {draw.between(1, 1200)}" for _ in range(3)]
    theme.later += [
        f"{name}.header := {draw.one((0, 16, 64, 128, 512))}",
        f"{name}.bytes := {width * draw.between(1, 1000) + draw.one((0, 0, 0, 1))}",
        f"{name}.length := {room - draw.one((0, 0, 2, 64))}",
        f"{name}.samples := {name}.samples + {draw.between(1, 50)}",
        f"once {name}.samples >= {draw.between(1, 600)} /\\ weak {name}.header = 32",
    ]
    theme.faults = [
        f"{name}.samples := {MOST // 2}",
        f"{name} := nil",
        f"{name}.samples := {name}.sample",
        f"{name}.header := {name}.samples and true",
        f"{name}.length := {MOST} + {name}.length",
        f"{name} := new {{header: 16, samples: 4}}",
    ]
    return theme


def _links(draw: Draw, names: Sequence[str], first: str) -> List[str]:
    """How neighbours of a chain lie: without a gap, or without overlap and with a gap as a wish."""
    if draw.chance(60):
        return [f"required {above}.next.offset = {above}.offset + {above}.length" for above in names[:-1]] + [first]
    links = [f"required {above}.next.offset >= {above}.offset + {above}.length" for above in names[:-1]] + [first]
    gap = draw.one((4, 8, 16))
    wished = f"{names[0]}.next.offset >= {names[0]}.offset + {names[0]}.length + {gap}"
    return links + [f"{draw.one(('weak', 'medium'))} {wished}"]


def sections(draw: Draw, name: str) -> Theme:
    """A file with sections in a chain, each a record that leads to the next, the last to nil."""
    names, header = [f"{name}{number}" for number in range(draw.between(2, 5))], draw.one((16, 64, 128))
    lengths = [8 * draw.between(1, 40) for _ in names]
    theme = Theme(numbers=[f"{each}.{label}" for each in names for label in ("offset", "length")])
    for number in reversed(range(len(names))):
        offset = header + sum(lengths[:number])
        following = names[number + 1] if number + 1 < len(names) else "nil"
        theme.setup.append(f"{names[number]} := new {{offset: {offset}, length: {lengths[number]}, next: {following}}}")
    used = header + sum(lengths)
    room, file = used + draw.one((0, 64, 256, 4096)), name + "File"
    theme.setup.append(f"{file} := new {{header: {header}, used: {used}, first: {names[0]}}}")
    theme.setup += parted(draw, _links(draw, names, f"required {file}.first.offset = {file}.header"))
    end = f"required {file}.used = {names[-1]}.offset + {names[-1]}.length"
    theme.setup.append(f"always {end} /\\ required {file}.used <= {room}")
    theme.setup += [f"always {each}.length >= 8" for each in draw.some(names, 40)]
    theme.setup += [f"always weak {each}.length = {8 * draw.between(1, 40)}" for each in draw.some(names, 25)]
    theme.later = [f"{draw.one(names)}.length := {8 * draw.between(1, 60)}" for _ in range(3)]
    theme.later += [
        f"{file}.first.next.length := {8 * draw.between(1, 30)}",
        f"{file}.header := {draw.one((32, 64, 96, 512))}",
        f"{file}.used := {room - draw.one((0, 0, 8, 40))}",
        walk(name, file),
    ]
    theme.faults = [f"{names[-1]}.next.length := 8", f"{names[0]}.next := nil", f"{file}.first := {names[-1]}.next"]
    return theme


def walk(name: str, file: str) -> str:
    """A walk along a chain that adds up its lengths, and holds the sum against what is used."""
    at, total = name + "At", name + "Total"
    body = f"  {total} := {total} + {at}.length;\n  {at} := {at}.next"
    loop = f"while {at} == {name}None = false do {{\n{body}\n}}"
    begin = f"{name}None := nil;\n{at} := {file}.first;\n{total} := 0"
    return f"{begin};\n{loop};\nonce weak {total} = {file}.used - {file}.header"


def grain(draw: Draw, name: str) -> Theme:
    """Grain classes that add up to a whole, in order, with wishes for each."""
    labels = ("clay", "silt", "sand", "gravel")[: draw.between(2, 4)]
    whole = draw.one((100, 100, 1000))
    shares = [whole // len(labels)] * (len(labels) - 1)
    shares.append(whole - sum(shares))
    cells = [f"{name}.{label}" for label in labels]
    theme = Theme(numbers=cells)
    fields = ", ".join(f"{label}: {share}" for label, share in zip(labels, shares))
    theme.setup = [f"{name} := new {{{fields}}}", f"always required {' + '.join(cells)} = {whole}"]
    theme.setup += parted(draw, [f"required {cell} >= 0" for cell in cells])
    ordered = [f"{less} <= {more}" for less, more in zip(cells, cells[1:])]
    theme.setup += [f"always {draw.one(('required', 'medium', 'weak'))} {each}" for each in draw.some(ordered, 50)]
    wishes = [f"{draw.one(('medium', 'weak'))} {cell} = {draw.between(0, whole)}" for cell in cells]
    theme.setup += [f"always {wish}" for wish in draw.some(wishes, 40)]
    theme.setup += [f"always weak {cells[0]} = {cells[-1]} - {draw.between(1, 30)}"] if draw.chance(30) else []
    theme.later = [f"{draw.one(cells)} := {draw.between(0, whole)}" for _ in range(4)]
    theme.later += [
        f"once {draw.one(cells)} > {draw.between(0, whole // 2)}",
        f"once medium {cells[0]} = {cells[-1]} /\\ weak {cells[0]} = {draw.between(0, whole)}",
    ]
    theme.faults = [f"{cells[0]} := {whole + 1}", f"{cells[0]} := true", f"{cells[0]} := {name}.stone"]
    return theme


def boxes(draw: Draw, name: str) -> Theme:
    """A box with flags that follow from what is in it."""
    room, count = draw.between(4, 40), draw.between(0, 40)
    theme = Theme(numbers=[f"{name}.count"], flags=[f"{name}.full", f"{name}.open"])
    full = str(count >= room).lower()
    theme.setup = [f"{name} := new {{count: {count}, room: {room}, full: {full}, open: true, shelf: 1}}"]
    rules = [
        f"required {name}.full = ({name}.count >= {name}.room)",
        f"required {name}.count >= 0 /\\ required {name}.room > 0",
    ]
    more = (
        f"required {name}.open != {name}.full",
        f"required {name}.open or {name}.full and {name}.count > {room // 2}",
        f"required {name}.shelf = 1 or {name}.shelf = 2 and {name}.full",
        f"weak {name}.room = {room}",
        f"medium {name}.open = false",
        f"weak {name}.count = {draw.between(0, 50)} /\\ medium {name}.shelf = 2",
        f"medium ({name}.count > {room}) = {name}.open",
    )
    theme.setup += parted(draw, rules + draw.some(more, 45))
    theme.later = [f"{name}.count := {draw.between(0, 60)}" for _ in range(2)]
    theme.later += [
        f"{name}.full := {draw.one(('true', 'false'))}",
        f"{name}.open := {draw.one(('true', 'false'))}",
        f"{name}.shelf := {draw.between(1, 2)}",
        f"{name}.room := {draw.between(1, 50)}",
        f"if {name}.full and {name}.count < 64 then {{\n  {name}Box := 1\n}} else {{\n  {name}Box := 2\n}}",
        f"once {name}.full or {name}.open and {name}.count != {count}",
    ]
    theme.faults = [f"{name}.full := {name}.count", f"if {name}.count then {{}} else {{}}", f"{name}.shelf := 7"]
    return theme


def plate(draw: Draw, name: str) -> Theme:
    """A plate of rows and columns: products of two cells."""
    rows, columns, width = draw.between(1, 24), draw.between(1, 24), draw.one((1, 4, 16))
    theme = Theme(numbers=[f"{name}.{label}" for label in ("rows", "columns", "cells")])
    fields = f"rows: {rows}, columns: {columns}, cells: {rows * columns}, bytes: {width * rows * columns}"
    theme.setup = [f"{name} := new {{{fields}}}", f"always required {name}.cells = {name}.rows * {name}.columns"]
    most = draw.one((24, 96, 1000))
    more = (
        f"required {name}.bytes = {width} * {name}.cells",
        f"required {name}.rows >= 1 /\\ required {name}.columns >= 1",
        f"required {name}.rows <= {most} /\\ required {name}.columns <= {most}",
        f"medium {name}.rows = {name}.columns",
        f"weak {name}.columns = {draw.between(1, 30)} /\\ weak {name}.rows = {draw.between(1, 30)}",
        f"weak {name}.cells = {draw.between(1, 600)}",
        f"weak {name}.rows * {name}.rows <= {draw.between(4, 900)}",
    )
    theme.setup += [f"always {each}" for each in draw.some(more, 55)]
    theme.later = [f"{name}.rows := {draw.between(1, 24)}", f"{name}.columns := {draw.between(1, 24)}"]
    theme.later += [
        f"{name}.cells := {draw.between(1, 20) * draw.between(1, 20)}",
        f"{name}.cells := {draw.one((7, 96, 384, 1536))}",
        f"once medium {name}.rows = {draw.between(1, 12)} /\\ {name}.cells >= {draw.between(1, 100)}",
        f"{name}.rows := {name}.rows + 1",
    ]
    theme.faults = [f"{name}.cells := {MOST}", f"{name}.rows := 65536 * 65536", f"{name}.columns := 1000000000"]
    return theme


def cuts(draw: Draw, name: str) -> Theme:
    """A loop down the depths, with the offset and the section of each cut found on the way."""
    header, width, length, by = draw.one((0, 64)), draw.one((2, 4, 8)), draw.one((40, 50, 100)), draw.between(10, 45)
    down = by * draw.between(1, 5)
    theme = Theme(numbers=[f"{name}.offset"])
    offset = f"required {name}.offset = {header} + {width} * {name}.depth"
    if draw.chance(20):
        offset = f"required {name}.offset = {header} + {name}.width * {name}.depth /\\ {name}.width = {width}"
    within = f"{length} * {name}.section <= {name}.depth /\\ {name}.depth < {length} * {name}.section + {length}"
    theme.setup = [
        f"{name} := new {{depth: 0, section: 0, offset: {header}, width: {width}}}",
        f"{name}Deep := 0",
        f"always {offset}",
        f"always {within}",
    ]
    counted = f"if {name}.section > 1 then {{\n    {name}Deep := {name}Deep + 1\n  }} else {{}}"
    body = f"  {name}.depth := {name}.depth + {by};\n  {counted}"
    theme.later = [
        f"{name}.depth := 0;\nwhile {name}.depth < {down} do {{\n{body}\n}}",
        f"{name}.depth := {draw.between(0, 900)}",
        f"{name}.section := {draw.between(0, 6)}",
        f"{name}.offset := {header + width * draw.between(0, 500)}",
        f"once weak {name}.section = {draw.between(0, 4)}",
    ]
    theme.faults = [
        f"{name}.depth := {MOST}",
        f"{name}.offset := {header + 1}",
        f"{name}.depth := {name}.section.depth",
    ]
    return theme


def tied(draw: Draw, name: str) -> Theme:
    """A log and its core that stay tied, with new cores, and with sets through either."""
    log, spare, extra = name + "Log", name + "Spare", draw.one((8, 16, 48))
    samples = draw.between(1, 200)
    theme = Theme(numbers=[f"{name}.samples", f"{log}.bytes"])
    theme.setup = [
        f"{name} := new {{samples: {samples}, bytes: {4 * samples}}}",
        f"{log} := new {{core: {name}, bytes: {4 * samples + extra}}}",
        f"always {log}.core == {name}",
        f"always required {name}.bytes = 4 * {name}.samples /\\ required {log}.bytes = {extra} + {log}.core.bytes",
    ]
    more = (
        f"required {name}.samples > 0",
        f"weak {name}.samples = {draw.between(1, 99)}",
        f"medium {log}.bytes <= 256",
    )
    theme.setup += [f"always {each}" for each in draw.some(more, 50)]
    theme.later = [
        f"{name} := new {{samples: {draw.between(0, 200)}, bytes: 0}}",
        f"{log}.core.samples := {draw.between(1, 300)}",
        f"{name}.bytes := {4 * draw.between(1, 300)}",
        f"{spare} := new {{samples: {draw.between(1, 99)}, bytes: 64}};\n{log}.core := {spare}",
        f"once {log}.core == {name}",
        f"{name} := {log}.core",
        f"{log}.bytes := {extra + 4 * draw.between(1, 99)}",
    ]
    theme.faults = [
        f"{name} := 5",
        f"{log}.core := true",
        f"{name} := new {{samples: 4}}",
        f"{name}Other := {name};\nalways {name}Other == {log}.core;\n{log} := new {{core: nil, bytes: 0}}",
        f"{log} := nil",
        f"{log}.bytes := {extra + 1}",
        f"{spare}Not := new {{samples: 0, bytes: 0}};\nonce {spare}Not == {name}",
    ]
    return theme


def large(draw: Draw, name: str) -> Theme:
    """Positions near the end of 32 bits."""
    length = draw.one((1000000000, 1073741824, 2000000000))
    offset = draw.between(0, MOST - length)
    theme = Theme(numbers=[f"{name}.offset", f"{name}.end"])
    theme.setup = [
        f"{name} := new {{offset: {offset}, length: {length}, end: {offset + length}}}",
        f"always required {name}.end = {name}.offset + {name}.length",
    ]
    more = (
        f"required {name}.offset >= 0",
        f"required {name}.length >= {draw.one((1, 100000000))}",
        f"weak {name}.end = {MOST}",
        f"medium {name}.length = {draw.between(1000000000, MOST)}",
        f"weak 3 * {name}.offset <= {MOST}",
        f"required {name}.offset - {name}.end <= -1",
    )
    theme.setup += [f"always {each}" for each in draw.some(more, 50)]
    theme.later = [
        f"{name}.offset := {draw.between(0, MOST)}",
        f"{name}.length := {draw.between(0, MOST)}",
        f"{name}.end := {MOST - draw.between(0, 1000)}",
        f"{name}.offset := -{draw.between(1, MOST)}",
        f"once {name}.offset > {draw.between(MOST // 2, MOST)}",
    ]
    theme.faults = [
        f"{name}.end := {name}.end + {MOST}",
        f"{name}.length := {MOST} * 2",
        f"{name}.offset := {name}.length.end",
    ]
    return theme


def once(draw: Draw, name: str) -> Theme:
    """A record of zeros that single constraints put in order."""
    labels = ("header", "samples", "bytes", "offset")
    cells = [f"{name}.{label}" for label in labels]
    header, samples, filled, offset = cells
    theme = Theme(numbers=cells)
    theme.setup = [f"{name} := new {{{', '.join(f'{label}: 0' for label in labels)}, ready: false}}"]
    theme.later = [
        f"once {header} = {draw.one((16, 64))} /\\ {filled} = 4 * {samples}"
        f" /\\ medium {samples} = {draw.between(1, 500)}",
        f"once {name}.ready = ({samples} > {draw.between(0, 50)} and {filled} >= {samples})",
        f"once {offset} >= {header} + {filled} /\\ weak {offset} = 0",
        f"once {samples} * {header} = {draw.between(1, 40) * draw.between(1, 40)} /\\ {samples} > 0",
        f"once weak {samples} = 7 /\\ weak {samples} = 9 /\\ medium {samples} > 8",
        f"once {name}.ready or {samples} > 100",
        f"{samples} := {draw.between(0, 300)}",
        f"once {filled} - {offset} = {draw.between(-100, 100)} /\\ {filled} + {offset} <= {draw.between(0, 300)}",
    ]
    theme.faults = [f"once {header} > 5 /\\ {header} < 6", f"once {header}", f"once {name}.ready = {header}"]
    return theme


THEMES: Sequence[Callable[[Draw, str], Theme]] = (core, sections, grain, boxes, plate, cuts, tied, large, once)
