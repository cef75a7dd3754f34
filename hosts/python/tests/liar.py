"""Plays a solver that does not do its work: python3 liar.py SORT SEED [COMMAND...], COMMAND being a real solver to pass questions on to.

The same seed and the same question give the same lie. With an odd seed the first example, by which the desk tries a solver, is
answered rightly. Little is imported, so that it starts quickly.
"""

from __future__ import annotations

import os
import random
import sys
import time

LEAST, MOST = -(2**31), 2**31 - 1
LOCATIONS = 576
KILL = 9
MEGABYTE = 1_000_000


def written(number: int) -> str:
    """A number as SMT-LIB 2 has it."""
    return str(number) if number >= 0 else f"(- {-number})"


def model(pairs: list[tuple[str, str]]) -> str:
    """Cells and their values as an answer to get-value."""
    return "(" + "\n ".join(f"({cell} {value})" for cell, value in pairs) + ")"


def sleep() -> str:
    """Never comes back."""
    while True:
        time.sleep(1000)


class Lie:
    """Says sat to every check, and draws a value for every cell that it is asked about. The other lies change some of this."""

    def __init__(self, seed: str, real: list[str]) -> None:
        self.seed = seed
        self.real = real
        self.draw = random.Random(seed)
        self.heard = seed
        self.kinds: dict[str, str] = {}
        self.held: dict[str, str] = {}

    def talk(self) -> None:
        """Answers what comes in, until the input ends."""
        self.begin()
        for line in sys.stdin:
            self.hear(line)
            if line.startswith("(check-sat)"):
                self.draw.seed(self.heard)
                self.say("sat" if self.is_first_example() else self.check())
            elif line.startswith("(get-value"):
                cells = [word.strip("()") for word in line.split()[1:]]
                self.say("((p true))" if self.is_first_example() else self.values(cells))

    def begin(self) -> None:
        """What is done before anything is read."""

    def hear(self, line: str) -> None:
        """Remembers what a cell is, and what the last term that compares it with a value says."""
        self.heard += line
        words = line.replace("(", " ").replace(")", " ").split()
        if words[0] == "declare-const":
            self.kinds[words[1]] = words[2]
        elif words[0] in ("assert", "assert-soft") and words[1] == "=" and words[2] in self.kinds:
            value = words[4] if words[3] == "-" else words[3]
            if value in ("true", "false") or value.isdigit():
                self.held[words[2]] = f"(- {value})" if words[3] == "-" else value

    def is_first_example(self) -> bool:
        """Whether this is the desk's example, and is to be answered rightly."""
        return "p" in self.kinds and int(self.seed) % 2 == 1

    def check(self) -> str:
        """The answer to a check."""
        return "sat"

    def values(self, cells: list[str]) -> str:
        """The answer to get-value."""
        return model([(cell, self.value(cell)) for cell in cells])

    def value(self, cell: str) -> str:
        """What is said of one cell."""
        return self.boolean() if self.kinds.get(cell) == "Bool" else written(self.number())

    def boolean(self) -> str:
        """One of the two."""
        return self.draw.choice(("true", "false"))

    def number(self) -> int:
        """Small or large, or at an end of 32 bits."""
        ranges = ((0, 9), (-1000, 1000), (LEAST, MOST), (MOST, MOST), (LEAST, LEAST))
        return self.draw.randint(*self.draw.choice(ranges))

    def say(self, answer: str) -> None:
        """Writes an answer, each character as one byte."""
        self.write(answer.encode("latin-1") + b"\n")

    @staticmethod
    def write(unsaid: bytes) -> None:
        """Writes all of it, however little the pipe takes at a time."""
        left = memoryview(unsaid)
        while left:
            left = left[os.write(1, left) :]


class Unasked(Lie):
    """Beside the cells asked about, some near them and the first variables: the statement's target is often among them."""

    def values(self, cells: list[str]) -> str:
        return model([(cell, self.value(cell)) for cell in cells] + self.further(cells))

    def further(self, cells: list[str]) -> list[tuple[str, str]]:
        """Cells that were not asked about, with values."""
        asked = {int(cell[1:]) for cell in cells if cell != "p"}
        near = ({abs(at + way) for at in asked for way in (-1, 1)} | {0, 1, 2}) - asked
        chosen = self.draw.choices(sorted(near), k=self.draw.choice((1, 1, 2)))
        return [(f"c{at}", self.draw.choice((self.boolean(), written(self.number())))) for at in chosen]


class Absent(Lie):
    """Beside the cells asked about, locations anywhere, most of which are absent."""

    def values(self, cells: list[str]) -> str:
        others = [f"c{self.draw.randrange(LOCATIONS)}" for _ in range(self.draw.randint(1, 5))]
        return super().values(cells + others)


class Above(Lie):
    """Locations above 575."""

    def values(self, cells: list[str]) -> str:
        return super().values(cells + self.draw.choices(("c576", "c577", "c4096", "c21474836", "c999999999"), k=2))


class Names(Lie):
    """Names that are none of a cell's, or a model that is no list of pairs."""

    def values(self, cells: list[str]) -> str:
        names = (
            "c2147483648",
            "c99999999999999999999",
            "c-1",
            "c",
            "d64",
            "C64",
            "c064",
            "|c64|",
            "(c64)",
            "c64 c65",
            "",
        )
        return super().values(cells + [self.draw.choice(names)])


class Doubled(Lie):
    """Every cell several times, in no order."""

    def values(self, cells: list[str]) -> str:
        return super().values(self.draw.choices(cells, k=3 * len(cells)))


class Kinds(Lie):
    """A value of the other kind for every cell."""

    def value(self, cell: str) -> str:
        return "7" if self.kinds.get(cell) == "Bool" else "true"


class Wide(Lie):
    """Values that no cell can hold."""

    def value(self, cell: str) -> str:
        near = ("2147483648", "(- 2147483649)", "4294967296", "9999999999", "99999999999", "9" * 5000)
        odd = (
            "-5",
            "(- 0 5)",
            "(- (- 5))",
            "1.5",
            "(/ 1 2)",
            "#x0000000f",
            "nil",
            "()",
            "(- true)",
            '"5"',
            "|5|",
            "\xd9\xa3",
        )
        return self.draw.choice(near if self.draw.random() < 0.5 else odd)


class Rubbish(Lie):
    """Bytes at random, in the place of a check's answer or of a model."""

    def check(self) -> str:
        return "sat" if self.draw.random() < 0.5 else self.bytes()

    def values(self, cells: list[str]) -> str:
        return self.bytes()

    def bytes(self) -> str:
        """Bytes of any value, or printable ones."""
        first, last = self.draw.choice(((0, 255), (32, 126), (128, 255)))
        return "".join(chr(self.draw.randint(first, last)) for _ in range(self.draw.randint(1, 3000)))


class Brackets(Lie):
    """Brackets that do not match, or that are too deep."""

    def check(self) -> str:
        return self.draw.choice(
            (")", "(((", "())(", "()", "(sat", "sat)", "(" * 100_000, "(" * 60 + ")" * 60, "(" * 9999 + ")" * 9999)
        )


class Unclosed(Lie):
    """What begins and never ends: a string, a symbol, a comment."""

    def check(self) -> str:
        return self.draw.choice(
            ('"sat', '"sat""', "|sat", "; sat", ";\n" * 5000 + "; sat", '"' + '""' * 40_000, "(sat |)")
        )


class Errors(Lie):
    """Errors of many forms, where a check's answer is due or a model."""

    def check(self) -> str:
        return "sat" if self.draw.random() < 0.4 else self.error()

    def values(self, cells: list[str]) -> str:
        return self.error()

    def error(self) -> str:
        """An error that a terminal should not see as it is."""
        told = (
            "no such logic",
            "\x1b[2J\x1b]0;title\x07",
            "two\nlines\r\n",
            "\xe2\x80\xae\xcc\x81\xc3\xa9",
            'say ""no""',
            "long " * 9000,
        )
        return self.draw.choice(('(error "{}")', '"{}"', "|{}|", '(error (("{}")))', 'unsupported "{}"')).format(
            self.draw.choice(told)
        )


class Foreign(Lie):
    """Letters, digits and marks beyond ASCII, in UTF-8 or broken, where a check's answer is due, a name or a value."""

    signs = ("\xc3\xa9", "\xd9\xa3", "\xe2\x80\xae", "e\xcc\x81", "\xff\xfe", "\xef\xbc\x91", "\xf0\x9f\xaa\xa8")

    def check(self) -> str:
        return (
            "sat" if self.draw.random() < 0.5 else self.draw.choice(('(error "{}")', "sat{}", "{}")).format(self.sign())
        )

    def values(self, cells: list[str]) -> str:
        return self.draw.choice(("((c6{} 1))", "((c64 {}))", "(({} 1))", "{}", '(error "{}")')).format(self.sign())

    def sign(self) -> str:
        """One of them."""
        return self.draw.choice(self.signs)


class Nothing(Lie):
    """Ends without an answer, with some exit status."""

    def check(self) -> str:
        os._exit(self.draw.choice((0, 1, 255)))


class Silent(Lie):
    """Keeps everything open and never answers, from the check on or from the model on."""

    def check(self) -> str:
        return "sat" if self.draw.random() < 0.3 else sleep()

    def values(self, cells: list[str]) -> str:
        return sleep()


class Drip(Lie):
    """Says a byte now and then."""

    def say(self, answer: str) -> None:
        for sign in answer + "\n":
            time.sleep(self.draw.uniform(0.02, 0.08))
            self.write(sign.encode())


class Busy(Lie):
    """Says a little all the time, and never comes to an end."""

    def check(self) -> str:
        self.write(self.draw.choice((b"(", b"sat (", b'"', b"(sat ", b"")))
        piece = self.draw.choice((b"a ", b"a", b"() ", b" "))
        while True:
            self.write(piece)
            end = time.perf_counter() + 0.00002
            while time.perf_counter() < end:
                pass


class Killed(Lie):
    """Is killed before, within or behind the check's answer, or within a model."""

    def check(self) -> str:
        said = self.draw.choice((b"", b"s", b"sa", b"sat", b"sat\n", b"sat\n(", b"sat\n((c64 1", b""))
        if said:
            self.write(said)
            self.end()
        return "sat"

    def values(self, cells: list[str]) -> str:
        answer = super().values(cells).encode()
        self.write(answer[: self.draw.randrange(len(answer))])
        return self.end()

    @staticmethod
    def end() -> str:
        """Dies as from outside."""
        os.kill(os.getpid(), KILL)
        return sleep()


class Deaf(Lie):
    """Closes its input at once, and then ends, waits, or speaks all the same."""

    def talk(self) -> None:
        os.close(0)
        self.say(self.draw.choice(("", "sat", "sat\n((c64 1))\nsat\n((c64 2))", "unsat")))
        if self.draw.random() < 0.5:
            sleep()


class Mute(Lie):
    """Closes its output at once, and works on."""

    def talk(self) -> None:
        os.close(1)
        sleep()


class Flood(Lie):
    """Ten megabytes of rubbish, in the place of a check's answer or of a model."""

    def check(self) -> str:
        return "sat" if self.draw.random() < 0.3 else self.flood()

    def values(self, cells: list[str]) -> str:
        return self.flood()

    def flood(self) -> str:
        """Much of something."""
        pieces = ("(a b) ", "(", "\x00\xff ", '"', "a", "\n", ";\n", "|", "(a ")
        piece = self.draw.choice(pieces)
        return self.draw.choice(("", "(", '"')) + piece * (10 * MEGABYTE // len(piece))


class Huge(Lie):
    """One well-formed model of ten megabytes, or of just below one."""

    def values(self, cells: list[str]) -> str:
        size = self.draw.choice((10 * MEGABYTE, MEGABYTE - 1000))
        apart = [f"(c{at} {self.draw.randrange(10)})" for at in range(LOCATIONS)]
        piece = " ".join(self.draw.choice((apart, [f"({cell} 1)" for cell in cells]))) + "\n"
        return f"({piece * (size // len(piece))})"


class Unsat(Lie):
    """Says that there is no answer."""

    def check(self) -> str:
        return "unsat"


class Unknown(Lie):
    """Says that it does not know, always or now and then."""

    def check(self) -> str:
        return "unknown" if self.draw.random() < 0.8 else "sat"


class Lazy(Lie):
    """Says that every cell keeps its value, as far as it was told that."""

    def value(self, cell: str) -> str:
        return self.held.get(cell, "false" if self.kinds.get(cell) == "Bool" else "0")


class Early(Lie):
    """Answers before it is asked, and then more."""

    def begin(self) -> None:
        cells = self.draw.sample(range(LOCATIONS), 3) if self.draw.random() < 0.3 else [64, 65]
        self.say("sat\n" + model([(f"c{at}", self.value("")) for at in cells]))


class Forks(Lie):
    """Leaves a child, which may keep the output open, and ends, or lies on."""

    def check(self) -> str:
        if os.fork() == 0:
            if self.draw.random() < 0.5:
                os.close(1)
            sleep()
        if self.draw.random() < 0.7:
            os._exit(0)
        return "sat"


class Echo(Lie):
    """Says back what it is told."""

    def talk(self) -> None:
        for line in sys.stdin:
            self.write(line.encode())


class Twice(Lie):
    """Says every answer twice, so that the second is taken for the next one."""

    def say(self, answer: str) -> None:
        super().say(answer + "\n" + answer)


class Wordy(Lie):
    """Says much around every model, which takes no harm from it."""

    def values(self, cells: list[str]) -> str:
        around = self.draw.choice((" ", "\n", "; so it is\n"))
        return around * (MEGABYTE // 5 // len(around)) + "\n" + super().values(cells)


class Real(Lie):
    """Passes everything on to a real solver, and its answers back."""

    def begin(self) -> None:
        theirs, mine = os.pipe(), os.pipe()
        if os.fork() == 0:
            os.dup2(theirs[0], 0)
            os.dup2(mine[1], 1)
            os.execvp(self.real[0], self.real)
        os.close(mine[1])
        self.to, self.of = os.fdopen(theirs[1], "w"), os.fdopen(mine[0])

    def hear(self, line: str) -> None:
        super().hear(line)
        self.to.write(line)
        self.to.flush()

    def check(self) -> str:
        return self.of.readline().strip()

    def values(self, cells: list[str]) -> str:
        return model(self.pairs())

    def pairs(self) -> list[tuple[str, str]]:
        """The real model."""
        text = ""
        while not text or text.count("(") != text.count(")"):
            line = self.of.readline()
            if not line:
                os._exit(1)
            text += line
        words = text.replace("(", " ").replace(")", " ").replace("- ", "-").split()
        return [
            (cell, value.replace("-", "(- ") + ")" * value.count("-")) for cell, value in zip(words[::2], words[1::2])
        ]

    def is_first_example(self) -> bool:
        return False


class Mixed(Real):
    """The right model, with one value changed by one."""

    def values(self, cells: list[str]) -> str:
        pairs = self.pairs()
        at = self.draw.randrange(len(pairs))
        cell, value = pairs[at]
        if value in ("true", "false"):
            changed = "false" if value == "true" else "true"
        else:
            number = int(value.strip("()").replace(" ", ""))
            changed = written(number + self.draw.choice((-1, 1)))
        pairs[at] = (cell, changed if cell != "p" else value)
        return model(pairs)


class Extra(Real, Unasked):
    """The right model, and beside it cells that were not asked about."""

    def values(self, cells: list[str]) -> str:
        return model(self.pairs() + (self.further(cells) if "p" not in cells else []))


class Turns(Real):
    """Right up to some answer, and then no more: it dies, ends, waits or speaks rubbish."""

    answers = 0

    def say(self, answer: str) -> None:
        self.answers += 1
        if self.answers <= random.Random(self.seed).choice((1, 2, 3, 5, 8)):
            return super().say(answer)
        end = self.draw.choice(
            (Killed.end, sleep, lambda: os._exit(3), lambda: "rubbish", lambda: ")", lambda: answer * 2)
        )
        return super().say(end())


_FURTHER = """
    Unasked Absent Above Names Doubled Kinds Wide Rubbish Brackets Unclosed Errors Foreign Nothing Silent Drip Busy
    Killed Deaf Mute Flood Huge Unsat Unknown Lazy Early Forks Echo Twice Wordy Mixed Extra Turns
"""
SORTS: dict[str, type[Lie]] = {"wrong": Lie, **{name.lower(): globals()[name] for name in _FURTHER.split()}}

if __name__ == "__main__":
    try:
        SORTS[sys.argv[1]](sys.argv[2], sys.argv[3:]).talk()
    except BrokenPipeError:
        pass
