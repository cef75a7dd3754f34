#!/usr/bin/env python3
"""promises.py [DIR]: names the public functions of the Rattle sources below DIR (default crates/) that promise nothing
of their answer, and those that ask something of their caller. Exit status 1 where a promise is missing, or where
docs/PROMISES.md does not argue for a `requires`."""
import pathlib
import re
import sys

root = pathlib.Path(sys.argv[1] if len(sys.argv) > 1 else "crates")
argued = pathlib.Path("docs/PROMISES.md").read_text(encoding="utf-8")
bare, asking, count = [], [], 0
for path in sorted(root.glob("*/src/**/*.rt")):
    lines = path.read_text(encoding="utf-8").split("\n")
    for number, line in enumerate(lines):
        found = re.match(r'(\s*)pub (?:extern "C" )?fn (\w+)', line)
        if not found:
            continue
        count += 1
        head = []
        for later in lines[number:]:
            head.append(later)
            if later == found.group(1) + "{":
                break
        text = "\n".join(head)
        where = f"{path}:{number + 1}: {found.group(2)}"
        if not re.search(r"^\s*ensures\b", text, re.M):
            bare.append(where)
        if re.search(r"^\s*requires\b", text, re.M) and f"`{found.group(2)}` asks" not in argued:
            asking.append(where)
for where in bare:
    print("promises nothing:", where)
for where in asking:
    print("asks its caller, and docs/PROMISES.md does not argue for it:", where)
print(f"{count} public functions, {len(bare)} promise nothing, {len(asking)} ask their caller without a reason")
sys.exit(1 if bare or asking else 0)
