#!/usr/bin/env python3
"""Shows that the acceptance test can fail: flips single bits of the library's code in the linked test, one at a time, and runs it.
A flip is noticed where the test does not end with its line PASS. One in an instruction that no call can reach, or that leaves
its meaning, cannot be noticed. usage: tools/flip_bits.py TEST [COUNT]"""
import os
import random
import re
import subprocess
import sys
import tempfile

SEED = 1
LEAST = 0.6  # the part that must be noticed
SECONDS = 5


def code(test):
    """Address and length of each instruction of the library."""
    text = subprocess.run(["objdump", "-d", "--no-show-raw-insn", test], capture_output=True, text=True, check=True).stdout
    found, inside = [], False
    for line in text.splitlines():
        if symbol := re.fullmatch(r"[0-9a-f]+ <(.*)>:", line):
            inside = "::" in symbol[1] or symbol[1].startswith("pelchunda_")
        elif inside and (at := re.match(r" +([0-9a-f]+):\t(\S+)", line)):
            found.append((int(at[1], 16), at[2]))
    pairs = zip(found, found[1:])
    return [(at, following - at) for (at, name), (following, _) in pairs if name not in ("nop", "nopw", "nopl", "data16", "xchg")]


def section(test):
    """Address and offset in the file of the code."""
    text = subprocess.run(["readelf", "-SW", test], capture_output=True, text=True, check=True).stdout
    return [int(n, 16) for n in re.search(r"\] \.text +PROGBITS +(\w+) (\w+)", text).groups()]


def noticed(data, path):
    """Whether the altered test does not pass."""
    with open(path, "wb") as file:
        file.write(data)
    os.chmod(path, 0o700)
    try:
        done = subprocess.run([path], capture_output=True, timeout=SECONDS)
    except subprocess.TimeoutExpired:
        return True
    return done.returncode != 0 or not done.stdout.startswith(b"PASS ")


def main():
    test, count = sys.argv[1], int(sys.argv[2]) if len(sys.argv) > 2 else 100
    data, instructions, (address, offset) = open(test, "rb").read(), code(test), section(test)
    draw, seen = random.Random(SEED), 0
    with tempfile.TemporaryDirectory() as folder:
        for _ in range(count):
            at, length = draw.choice(instructions)
            place, flipped = at - address + offset + draw.randrange(min(length, 15)), bytearray(data)
            flipped[place] ^= 1 << draw.randrange(8)
            seen += noticed(flipped, os.path.join(folder, "test"))
    print(f"of {count} single bits flipped in the library's code the acceptance test notices {seen}")
    return 0 if seen >= LEAST * count else 1


sys.exit(main())
