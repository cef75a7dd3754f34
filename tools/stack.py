#!/usr/bin/env python3
"""tools/stack.py [ARCHIVE]: the most stack that each call can take, from the frames of the machine code.

Reads what objdump says of the archive (target/native/libcordbasin.a if none is named): each function's frame and its calls. A function that
calls itself, straight or through others, is counted as often as its nesting allows: blocks nest 8 deep, expressions 16; one more call of each
meets the limit and turns back; a number has at most 20 digits. Ends with 1 where a call takes more than CALLS says, where a function's nesting
is not known, and where a call goes to a function that is not in the archive, other than the four that move memory.
"""

import re
import shutil
import subprocess
import sys

# How often each function that can call itself is open at most.
NESTING = {
    "run_block": 9,
    "read_block": 9,
    "read_statement": 9,
    "spot_block": 9,
    "spot_statement": 9,
    "mark_block": 9,
    "mark_statement": 9,
    "read_expression": 17,
    "evaluate_at": 17,
    "operand": 17,
    "climb": 17,
    "joined": 16,
    "onwards": 16,
    "block": 9,
    "conditional": 8,
    "repeated": 8,
    "statement": 8,
    "statements": 8,
    "steps": 9,
    "expression": 17,
    "operation": 16,
    "operands": 16,
    "put_digits": 20,
}
# The calls, and how many bytes fail.
CALLS = {"cordbasin_run": 18432, "cordbasin_assign": 12288, "cordbasin_ask": 12288, "cordbasin_write": 65536, "cordbasin_read": 131072}
MEMORY = {"memcpy", "memmove", "memset", "memcmp"}
# A large frame is taken a page at a time, in a loop that ends at an address worked out here. On x86-64 %r11 is so far below %rsp, or a copy of
# %rsp from which so much is taken.
PAGED = re.compile(r"\bsub\s+x\d+, sp, #(?P<pages>0x[0-9a-f]+), lsl #12|\b(?:lea\s+-0x(?P<far>[0-9a-f]+)\(%rsp\)|sub\s+\$0x(?P<less>[0-9a-f]+)),%r11")


def disassembled(archive):
    """What the first objdump that knows the archive's machine says of it."""
    for tool in ["objdump", "x86_64-linux-gnu-objdump"]:
        if shutil.which(tool):
            said = subprocess.run([tool, "-dr", "--no-show-raw-insn", archive], capture_output=True, text=True)
            if said.returncode == 0:
                return said.stdout
    sys.exit(f"no objdump here reads {archive}")


def functions(archive):
    """Each function's frame in bytes and the functions that it calls."""
    said = disassembled(archive)
    # a call stores the address to return to, on AArch64 in the frame
    entry = 8 if "x86-64" in said else 0
    found, name, calls_itself, probed, before = {}, None, False, False, ""
    for line in said.splitlines():
        head = re.match(r"^[0-9a-f]+ <(.+)>:$", line)
        if head:
            name = head.group(1)
            found[name] = [entry, set()]
            continue
        if name is None:
            continue
        frame, calls = found[name]
        paged = PAGED.search(line)
        if paged and paged["less"] and not before.endswith("%rsp,%r11"):
            paged = None
        before = line.rstrip()
        grown = re.search(r"\bsub\s+sp, sp, #(0x[0-9a-f]+|\d+)(, lsl #12)?|\[sp, #-(\d+)\]!|\bsub\s+\$0x([0-9a-f]+),%rsp", line)
        if paged:
            found[name][0] = frame + (int(paged["pages"], 0) << 12 if paged["pages"] else int(paged["far"] or paged["less"], 16))
            probed = True
        elif grown and probed:
            probed = False
        elif grown:
            size, shifted, stored, wide = grown.groups()
            size = int(size, 0) if size else int(stored) if stored else int(wide, 16)
            found[name][0] = frame + (size << 12 if shifted else size)
        elif re.search(r"\bpush\s+%r", line):
            found[name][0] = frame + 8
        called = re.search(r"R_\w+(?:CALL26|JUMP26|PLT32)\s+(\S+?)(?:[-+]0x[0-9a-f]+)?$", line)
        if called:
            calls.add(called.group(1).removeprefix(".text."))
            calls_itself = False
        # a call without a line that names another section is one of the function itself, which has its section alone
        if calls_itself:
            calls.add(name)
        calls_itself = bool(re.search(r"\b(?:bl|call)\s+[0-9a-f]+ <", line))
    return found


def short(name):
    return name.rsplit("::", 1)[-1]


def deepest(found, name, opened):
    """The most bytes below a call of a function, and the chain that takes them."""
    frame, calls = found[name]
    best, chain = 0, []
    for called in sorted(calls):
        if called not in found:
            if called not in MEMORY:
                sys.exit(f"{name} calls {called}, which is not in the archive")
            continue
        times = opened.get(called, 0)
        if times and short(called) not in NESTING:
            sys.exit(f"{called} can be open twice, and its nesting is not known")
        if times >= NESTING.get(short(called), 1):
            continue
        below, way = deepest(found, called, {**opened, called: times + 1})
        if below > best:
            best, chain = below, way
    return frame + best, [(name, frame)] + chain


def told(found, call):
    """Prints the deepest chain of a call; whether it is too deep."""
    most, chain = deepest(found, call, {call: 1})
    print(f"{call}: {most} bytes at most, in {len(chain)} calls:")
    for name, frame in dict.fromkeys(chain):
        print(f"{chain.count((name, frame)):4} x {frame:5}  {name}")
    return most >= CALLS[call]


def main():
    archive = sys.argv[1] if len(sys.argv) > 1 else "target/native/libcordbasin.a"
    found = functions(archive)
    sys.exit(any([told(found, call) for call in CALLS]))


main()
