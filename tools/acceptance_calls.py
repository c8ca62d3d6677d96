#!/usr/bin/env python3
"""Writes the recorded calls of the acceptance test as C: tools/acceptance_calls.py > target/acceptance_calls.h

They are taken from the script of `replay` and the lines that other implementations give for it; the ids of events are Python's
own SHA-256. Of the script's parts, which begin with a reset, those are chosen that together have every number, verdict and text
that occurs in the whole, in few bytes. It fails where a function, a number or a verdict is left out."""
import hashlib
import re
import struct
import sys

from replay_script import DOCUMENT_TABLE, ROOT, records

EVENT, LONGEST_FILE = 192, 65536
UNSET = 165  # what a number shows that a refused call leaves
OUT_FILL = b"\xee"  # what an output has before a call
VALUES = 7

# Which functions a call of the table makes. A take and a bundle are made with the tally and, as `t` and `b`, without it.
MADE_BY = {
    "S": "start", "T": "take_counted", "t": "take", "B": "take_bundle_counted", "b": "take_bundle", "L": "look_up",
    "O": "order", "V": "verdict", "M": "map", "W": "write_out", "R": "first_event text", "I": "id", "J": "ids",
    "k": "document_table", "v": "version",
}
NUMBERS, VERDICTS = {*range(1, 11), 12}, set(range(4))
TALLIED, OUTPUTS, SETTINGS = "TB", "OMW", "CPNYKZ"


def parts():
    """The script's parts, each a list of records with their lines. A print needs no other record, so each is a part; a file
    that is too long is refused by the printing program alone. A digest (D) of any bytes is no call of the library."""
    prints, others = [], [[]]
    for letter, payload, line in records():
        if letter == "R" and len(payload) <= LONGEST_FILE:
            prints.append([(letter, payload, line)])
        elif letter == "Z":
            others.append([])
        elif letter not in "DR":
            others[-1].append((letter, payload, line))
    return [part for part in prints + others if part]


def printed(line):
    """What a print's line has: the number of a refusal, or 0; and the text."""
    text = bytes.fromhex(line.split()[1])
    refusal = re.fullmatch(rb"REFUSED (\d+)\n", text)
    return int(refusal[1]) if refusal else 0, text


def answer(letter, line):
    """The answer that a line has: a refusal, a verdict, a text, or that there is a value."""
    words = line.split()
    if letter == "R":
        return printed(line)
    if "refused" in words:
        return words[words.index("refused") + 1]
    return words[1] if letter in "STV" else "value"


def answers(part):
    return {(letter, answer(letter, line)) for letter, _, line in part if letter not in SETTINGS}


def chosen(all_parts):
    """Again and again the part with the most answers for its bytes, of those that are still wanted."""
    wanted, found = set().union(*map(answers, all_parts)), []
    while wanted:
        best = max(all_parts, key=lambda p: len(wanted & answers(p)) / sum(len(payload) + 64 for _, payload, _ in p))
        found.append(best)
        wanted -= answers(best)
    return found


def digest(data):
    return hashlib.sha256(data).digest()


def values(*numbers):
    return [int(n) for n in numbers]


def expected(letter, line):
    """Number, values and digest that a call must show, from its line. A refusal leaves the values."""
    if letter == "R":
        number, text = printed(line)
        return (number, [UNSET], None) if number else (0, [len(text)], digest(text))
    words = line.split()
    refused = "refused" in words
    number = int(words[words.index("refused") + 1]) if refused else 0
    rest = words[3:] if refused else words[1:]
    if letter == "V":
        return number, [UNSET] if refused else values(rest[0]), None
    if letter == "L":
        return number, [UNSET] if refused else values(rest[1]), None if refused else bytes.fromhex(rest[0])
    if letter in OUTPUTS:
        count = 3 if letter == "M" else 1
        return number, [UNSET] * count if refused else values(*rest[:count]), bytes.fromhex(rest[-1])
    if letter == "S":
        rest = rest if refused else rest[1:]
        return number, values(rest[0]), bytes.fromhex(rest[1])
    shown = 3 if letter == "B" else 1
    first = [UNSET] * shown if refused else values(*rest[1:4]) if letter == "B" else [int(rest[0] == "repeat")]
    count, store, *tally = rest if refused else rest[4:] if letter == "B" else rest[1:]
    return number, [int(count), *first, *values(*tally)], bytes.fromhex(store)


def calls_of(part):
    """The calls of a part, behind a reset. Every second take is made without the tally, which is set right before the next."""
    yield "Z", b"", (0, [], None)
    yield "K", DOCUMENT_TABLE, (0, [], None)
    tally, due, plain = [0, 0, 0], False, False
    for letter, payload, line in part:
        if letter in SETTINGS:
            if letter == "Y":
                tally, due = list(struct.unpack(">III", payload)), False
            yield letter, payload, (0, [], None)
            continue
        number, shown, out = expected(letter, line)
        if letter not in TALLIED:
            yield letter, payload, (number, shown, out)
            continue
        if plain:
            yield letter.lower(), payload, (number, shown[:-3], out)
        else:
            if due:
                yield "Y", struct.pack(">III", *tally), (0, [], None)
            yield letter, payload, (number, shown, out)
        tally, due, plain = shown[-3:], plain, not plain


def id_calls(found):
    """The ids of the events that are taken singly: one by one for the first of them, and all at once."""
    events = list(dict.fromkeys(p for part in found for letter, p, _ in part if letter == "T" and len(p) == EVENT))
    for event in events[:8]:
        yield "I", event, (0, [], digest(event))
    yield "I", events[0][:-1], (1, [], None)
    for n in (1, 5, min(len(events), 256)):
        yield "J", b"".join(events[:n]), (0, [], digest(b"".join(map(digest, events[:n]))))
    yield "J", events[0] + events[1][:-1], (1, [], None)


def table_calls():
    """Document 01's cord table: to an output as long as it is, longer, too short, and empty."""
    for n in (512, 600, 511, 0):
        fits = n >= len(DOCUMENT_TABLE)
        out = DOCUMENT_TABLE + OUT_FILL * (n - len(DOCUMENT_TABLE)) if fits else OUT_FILL * n
        yield "k", struct.pack(">I", n), (0 if fits else 10, [], digest(out))


def left_out(calls):
    """The functions, numbers and verdicts that no call has."""
    functions = {f for letter, _, _ in calls for f in MADE_BY.get(letter, "").split()}
    header = (ROOT / "include/pelchunda.h").read_text(encoding="utf-8")
    declared = set(re.findall(r"^\w+ pelchunda_(\w+)\([^;{]*\);", header, re.M))
    numbers = {number for letter, _, (number, _, _) in calls}
    verdicts = {shown[0] for letter, _, (number, shown, _) in calls if letter == "V" and number == 0}
    return declared - functions, NUMBERS - numbers, VERDICTS - verdicts


def table(calls):
    """The payloads as one array, each payload once, and a row for each call."""
    data, places, rows = bytearray(), {}, []
    for letter, payload, (number, shown, out) in calls:
        at = places.get(payload)
        if at is None:
            at = places[payload] = len(data)
            data += payload
        numbers = ", ".join(f"{n}u" for n in shown + [0] * (VALUES - len(shown)))
        bytes_out = ", ".join(map(str, out or bytes(1)))
        rows.append(f"    {{'{letter}', {at}u, {len(payload)}u, {{{number}, {{{numbers}}}, {{{bytes_out}}}}}}},")
    return data, rows


def main():
    found = chosen(parts())
    calls = [("v", b"", (0, [], None)), *table_calls()]
    calls += [*(call for part in found for call in calls_of(part)), *id_calls(found)]
    missing = [name for names in left_out(calls) for name in sorted(names)]
    if missing:
        sys.exit(f"left out: {missing}")
    data, rows = table(calls)
    print("/* Recorded calls and their answers, written by tools/acceptance_calls.py from the answers of other implementations. */")
    print("static const uint8_t payloads[] = {")
    for at in range(0, len(data), 32):
        print("    " + ", ".join(map(str, data[at : at + 32])) + ",")
    print("};\n\nstatic const struct recorded calls[] = {")
    print("\n".join(rows))
    print("};")
    made = sum(letter in MADE_BY for letter, _, _ in calls)
    print(f"{made} calls in {len(found)} parts, {len(data)} bytes of payload", file=sys.stderr)


main()
