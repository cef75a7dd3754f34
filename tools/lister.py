#!/usr/bin/env python3
"""Tests the programs `list` and `print` by what they print. The lister: every sheet of sheets/ gives its output; texts of 0, 65,536 and 65,537 bytes, binary rubbish and
texts that come one byte at a time are answered as the independent program answers them. The second program: every sheet with a `.printed` beside it gives that, and whatever does not read
is refused as the lister refuses it."""
import pathlib
import random
import subprocess
import sys
import time

ROOT = pathlib.Path(__file__).resolve().parent.parent
REFERENCE = ROOT / "reference" / "target" / "release" / "reference"
FIRST = (ROOT / "sheets" / "k" / "k01.in").read_bytes()
FIRST_PRINTED = (ROOT / "sheets" / "k" / "k01.printed").read_bytes()
faults = []


def printed(program, text):
    return subprocess.run([ROOT / "tools" / "run", program], input=text, capture_output=True, check=True).stdout


def expected(text):
    return subprocess.run([REFERENCE, "list"], input=text, capture_output=True, check=True).stdout


def slowly(program, text):
    """The output for a text that is handed over byte by byte, each in a write of its own."""
    process = subprocess.Popen([ROOT / "tools" / "run", program], stdin=subprocess.PIPE, stdout=subprocess.PIPE, bufsize=0)
    try:
        for at in range(len(text)):
            process.stdin.write(text[at : at + 1])
            time.sleep(0.001)
        process.stdin.close()
    except BrokenPipeError:
        pass  # it has read as much as it looks at
    output = process.stdout.read()
    process.wait()
    return output


def test(name, output, wanted):
    if output != wanted:
        faults.append(f"{name}: printed\n{output[:400]!r}\nin place of\n{wanted[:400]!r}")


def padded(size):
    """A text of three lines and of this many bytes, each number a 32-bit word."""
    head = b"program=" + b" ".join([b"-1000000000"] * (2000 if size > 60000 else 1)) + b"\nproposals="
    tail = b"\nbudget=0"
    room = size - len(head) - len(tail)
    numbers = [b"-1000000000"] * ((room + 1) // 12)
    left = room - 12 * len(numbers) + 1
    if left == 1:
        numbers[-1] = b"1 1000000000"
    if left > 1:
        numbers.append(b"1" * (left - 1))
    return head + b" ".join(numbers) + tail


def unread(listed):
    """What the second program prints where the lister tells that a text or its program does not read; nothing is known elsewhere."""
    return b"".join(listed.splitlines(True)[:2]) if listed.startswith((b"input=", b"outcome=2\n")) else None


def test_sheets():
    """How many sheets there are is given back, and of how many it is known what the second program prints."""
    sheets, back = 0, 0
    for file in sorted((ROOT / "sheets").rglob("*.in")):
        text, listed, beside = file.read_bytes(), file.with_suffix(".out").read_bytes(), file.with_suffix(".printed")
        test(file, printed("list", text), listed)
        sheets += 1
        wanted = beside.read_bytes() if beside.is_file() else unread(listed)
        if wanted:
            test(f"{file}, printed back", printed("print", text), wanted)
            back += 1
    return sheets, back


def test_texts():
    """How many texts there are is given back."""
    chance = random.Random(7)
    texts = {"no bytes": b"", "a newline": b"\n"}
    for size in (65535, 65536, 65537, 65538, 200000):
        texts[f"{size} bytes of numbers"] = padded(size)
        texts[f"{size} zero bytes"] = bytes(size)
        texts[f"{size} newlines"] = b"\n" * size
    for number in range(30):
        size = chance.choice((1, 7, 80, 4096, 65536, 65537))
        texts[f"rubbish {number}"] = bytes(chance.randrange(256) for _ in range(size))
        at = chance.randrange(len(FIRST))
        texts[f"one byte of K1 is rubbish, {number}"] = FIRST[:at] + bytes([chance.randrange(256)]) + FIRST[at + 1 :]
    for name, text in texts.items():
        listed = expected(text)
        test(name, printed("list", text), listed)
        if unread(listed):
            test(f"{name}, printed back", printed("print", text), unread(listed))
    return len(texts)


def test_slowly():
    """How many texts come a byte at a time is given back."""
    texts = {"K1": FIRST, "numbers": padded(1000), "rubbish": bytes(range(256)), "no bytes": b""}
    for name, text in texts.items():
        listed = expected(text)
        test(f"{name}, a byte at a time", slowly("list", text), listed)
        test(f"{name}, a byte at a time, printed back", slowly("print", text), unread(listed) or FIRST_PRINTED)
    return len(texts)


def main():
    sheets, back = test_sheets()
    count = sheets + test_texts() + test_slowly()
    print("\n".join(map(str, faults)) or f"{count} texts, listed as expected; {back} sheets, printed back as expected")
    sys.exit(1 if faults else 0)


if __name__ == "__main__":
    main()
