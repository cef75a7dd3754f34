#!/usr/bin/env python3
"""port_names.py: respells the names of this repository's definitions and lemmas as the installed Rattle spells its own.

Run once, at the top, on what the kit's port.py left. A word in camel case becomes one in snake case, and so does a word
with a dash that a file of specs/ declares: a definition, a constructor or a field. A lemma whose name would fall together
with a definition's gets `_lem`, and a constructor keeps its dash. Functions, strings, inputs and outputs keep their names."""
import collections
import glob
import re

TOKEN = re.compile(r"[^\s(){}.;,@\"«»\[\]\\`|]+")
CAMEL = re.compile(r"^[a-z][A-Za-z0-9]*(['₀-₉])*(-[a-z0-9-]*)?$")
DECLARED = re.compile(r"^\s*(?:unfoldable |abbrev |pub |data |record )*([^\s:(){}.]+) (?:\{[^}]*\} )?(?:\([^)]*\) )*:")
# Words of the kit and of Rattle's generated proofs.
NOT_OURS = re.compile(r"^b'|Inv-loop|Reads$")


def snake(word):
    return re.sub(r"(?<=[a-z0-9])([A-Z])", lambda m: "_" + m.group(1).lower(), word)


def files(pattern):
    return sorted(glob.glob(f"crates/{pattern}", recursive=True))


def lines_of(path):
    with open(path, encoding="utf-8") as it:
        for line in it:
            yield line.split("//")[0] if path.endswith(".rt") else line


def main():
    specs = files("*/specs/**/*.antt")
    proofs = files("*/proofs/**/*.antt")
    sources = files("*/src/**/*.rt")
    seen = collections.defaultdict(set)
    declared = collections.defaultdict(set)
    imported = set()
    for path in specs + proofs + sources:
        for line in lines_of(path):
            for word in TOKEN.findall(line):
                seen[word].add(path)
            if path.endswith(".antt"):
                found = DECLARED.match(line)
                if found:
                    declared[found.group(1)].add(path)
            foreign = re.match(r"\s*(?:ghost )?(?:pub )?use (?!Rattle\.(?!std\b))\S*?\{(.*)\}", line)
            if foreign:
                imported.update(foreign.group(1).replace(",", " ").split())
    turned = {}
    for word in seen:
        if CAMEL.match(word) and re.search("[A-Z]", word) and not NOT_OURS.search(word) and word not in imported:
            turned[word] = snake(word)
    for word, where in declared.items():
        if "-" in word and re.match("[a-z]", word) and word not in imported and any("/specs/" in path for path in where):
            plain = snake(word).replace("-", "_")
            # Two words that differ in a dash alone stay apart by it.
            if plain not in turned.values():
                turned[word] = plain
    lemmas = {}
    for word in set(turned.values()):
        if word in declared and word not in turned:
            in_specs = any("/specs/" in path for path in declared[word])
            lemmas[word] = word.replace("_", "-") if in_specs else word + "_lem"
    twice = [word for word, n in collections.Counter([*turned.values(), *lemmas.values()]).items() if n > 1 or "-" not in word and word in lemmas.values() and word in seen]
    if twice:
        raise SystemExit(f"names that fall together: {twice}")

    def turn(match):
        word = match.group(0)
        before = match.string[: match.start()]
        if word in turned:
            return turned[word]
        if word in lemmas and not before.endswith("."):
            return lemmas[word]
        return word

    for path in specs + proofs + sources:
        with open(path, encoding="utf-8") as it:
            text = it.read()
        if path.endswith(".rt"):
            new = TOKEN.sub(lambda m: turned.get(m.group(0), m.group(0)), text)
        else:
            new = TOKEN.sub(turn, text)
        if new != text:
            with open(path, "w", encoding="utf-8") as it:
                it.write(new)
    for old, new in sorted({**turned, **lemmas}.items()):
        print(f"{old}\t{new}")


if __name__ == "__main__":
    main()
