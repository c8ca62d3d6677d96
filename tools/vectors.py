#!/usr/bin/env python3
"""Prints what the program `vectors` must write, by Python's own SHA-256: tools/vectors.py > crates/vectors/stdout"""
import hashlib

EXAMPLES = [
    b"",
    b"abc",
    b"abcdbcdecdefdefgefghfghighijhijkijkljklmklmnlmnomnopnopq",
    b"abcdefghbcdefghicdefghijdefghijkefghijklfghijklmghijklmnhijklmnoijklmnopjklmnopqklmnopqrlmnopqrsmnopqrstnopqrstu",
]
TEXT = bytes((i * 7 + 3) % 256 for i in range(258))
LENGTHS = [range(0, 4), range(54, 67), range(118, 131), range(190, 195), range(255, 259)]
EVENTS = [191, 192, 193]
FULL = bytes((i * 7 + i // 192 * 11 + 3) % 256 for i in range(9 * 192))
SHORT = bytes(FULL[i] if i % 192 < 128 or i // 192 == 4 else 0 for i in range(9 * 192))


def line(message):
    return f"{len(message)} {hashlib.sha256(message).hexdigest()}"


for message in EXAMPLES:
    print(line(message))
for lengths in LENGTHS:
    for n in lengths:
        print(line(TEXT[:n]))
for n in EVENTS:
    print("event", line(TEXT[:n]))


def table(events, n):
    for i in range(n):
        print("ids", n, hashlib.sha256(events[i * 192 : (i + 1) * 192]).hexdigest())
    print("ids", n, bytes(32).hex())


for n in range(10):
    table(FULL, n)
table(FULL[:1060], 9)
table(SHORT, 9)
