#!/usr/bin/env python3
"""Checks that the library's functions are declared alike in three places that no compiler compares: the header for C, the
comparison's declarations in Rust, and the contracts in crates/unit_c/src. Names, parameters in their order, types and
results must be the same; the header's attributes, sizes, numbers and version must fit the code. It prints a line per finding,
and its status is 1 where there is one. It then alters each text by a word, and each alteration must be a finding."""
import re
import sys
from pathlib import Path

ROOT = Path(__file__).resolve().parent.parent
HEADER = ROOT / "include/pelchunda.h"
RUST = ROOT / "compare/src/unit.rs"
RATTLE = ROOT / "crates/unit_c/src/lib.rt"

C_TYPES = {"uint8_t": "u8", "uint16_t": "u16", "uint32_t": "u32", "size_t": "usize"}

# Sizes and numbers that the header has from the code: macro, crate, constant.
CONSTANTS = [
    ("VERSION_NUMBER", "unit_c", "VERSION"),
    ("FORMAT_NUMBER", "event", "FORMAT"),
    ("EVENT_BYTES", "event", "EVENT_BYTES"),
    ("ID_BYTES", "event", "ID_BYTES"),
    ("PLACES", "store", "PLACES"),
    ("STORE_BYTES", "store", "STORE_BYTES"),
    ("TABLE_BYTES", "cords", "TABLE_BYTES"),
    ("ORDER_ROW_BYTES", "order_rows", "ROW_BYTES"),
    ("MAP_ROW_BYTES", "cabling", "ROW_BYTES"),
    ("TRAILER_BYTES", "bundles", "TRAILER_BYTES"),
]

# Alterations that must be found: a text, what stands there, what is put in its place.
ALTERED = [
    ("header", "size_t *ended, size_t *joins", "size_t *joins, size_t *ended"),
    ("header", "uint16_t *place", "uint8_t *place"),
    ("header", "pelchunda_order(const uint8_t *store", "pelchunda_order(uint8_t *store"),
    ("header", "pelchunda_text(const", "pelchunda_texts(const"),
    ("header", "PELCHUNDA_NONNULL(8, 9, 10)", "PELCHUNDA_NONNULL(8, 9)"),
    ("header", "PELCHUNDA_OTHER_ROOM = 4", "PELCHUNDA_OTHER_ROOM = 5"),
    ("header", "PELCHUNDA_BAD_TABLE = 12", "PELCHUNDA_BAD_TABLE = 11"),
    ("header", "PELCHUNDA_TABLE_BYTES 512", "PELCHUNDA_TABLE_BYTES 256"),
    ("header", "PELCHUNDA_MAP_ROW_BYTES 8", "PELCHUNDA_MAP_ROW_BYTES 10"),
    ("header", "uint8_t pelchunda_unit_text(", "uint8_t pelchunda_unit_texts("),
    ("rust", "repeat: *mut u8", "repeat: *mut u16"),
    ("rust", "fn pelchunda_id(", "fn pelchunda_idd("),
    ("rust", "tally: *mut [u32; 3],\n    ) -> u8", "tally: *mut [u32; 4],\n    ) -> u8"),
    ("rattle", "count: &mut usize,\n    table: &[u8],", "table: &[u8],\n    count: &mut usize,"),
    ("rattle", "bytes: &mut usize,\n) -> u8", "bytes: &mut usize,\n) -> u16"),
    ("rattle", "const VERSION: u32 = ", "const VERSION: u32 = 1"),
]


def parts(parameters):
    """The parameters between commas; a comma within brackets does not part them."""
    found = re.split(r",(?![^\[]*\])", re.sub(r"\s+", " ", parameters))
    return [part.strip() for part in found if part.strip() not in ("", "void")]


def from_c(parameter):
    """Name and type of a parameter in C."""
    const, base, star, name, array = re.fullmatch(r"(const )?(\w+) (\*?)(\w+)(\[\d+\])?", parameter).groups()
    kind = C_TYPES[base]
    if array:
        return name, f"*mut [{kind}; {array[1:-1]}]"
    return name, (("*const " if const else "*mut ") if star else "") + kind


def from_rust(parameter):
    name, kind = parameter.split(": ")
    return name, kind


def from_rattle(parameter):
    """Names and types as C sees them: a slice is a pointer and a length."""
    name, kind = parameter.split(": ")
    if kind in ("&[u8]", "&mut [u8]"):
        return [(name, "*mut u8" if "mut" in kind else "*const u8"), (f"{name}_len", "usize")]
    return [(name, kind.replace("&mut ", "*mut ").replace("&", "*const "))]


def c_functions(header):
    """The library's functions; those of the header alone have a body and are left out."""
    found = re.finditer(r"^(\w+) (pelchunda_\w+)\(([^;{]*)\);", header, re.M)
    return {m[2]: ([from_c(p) for p in parts(m[3])], C_TYPES[m[1]]) for m in found}


def rust_functions(text):
    block = re.search(r'extern "C" \{(.*?)\n\}', text, re.S)[1]
    found = re.finditer(r"fn (\w+)\(([^)]*)\) -> (\w+);", block)
    return {m[1]: ([from_rust(p) for p in parts(m[2])], m[3]) for m in found}


def rattle_functions(text):
    found = re.finditer(r'#\[unsafe\(no_mangle\)\]\s*pub extern "C" fn (\w+)\(([^)]*)\) -> (\w+)', text)
    return {m[1]: ([c for p in parts(m[2]) for c in from_rattle(p)], m[3]) for m in found}


def differences(place, functions, contracts):
    for name in sorted(set(functions) ^ set(contracts)):
        yield f"{name} stands in {place if name in functions else 'unit_c'} alone"
    for name in sorted(set(functions) & set(contracts)):
        if functions[name] != contracts[name]:
            yield f"{name} in {place}: {functions[name]}; in unit_c: {contracts[name]}"


def to_numbers(parameters):
    """The places, from 1 on, of the pointers to numbers, which must not be null; a slice's pointer may be."""
    names = {name for name, _ in parameters}
    return [i for i, (name, kind) in enumerate(parameters, 1) if kind[0] == "*" and f"{name}_len" not in names]


def attributes(header, contracts):
    for name, (parameters, _) in contracts.items():
        want = to_numbers(parameters)
        marks = "PELCHUNDA_MUST_USE" + (f" PELCHUNDA_NONNULL({', '.join(map(str, want))})" if want else "")
        if parameters and not re.search(rf"^{re.escape(marks)}\nuint8_t {name}\(", header, re.M):
            yield f"{name}: the header's attributes are not {marks}"


def wrappers(header, contracts):
    for name, (parameters, _) in contracts.items():
        wrapper = name.replace("pelchunda_", "pelchunda_unit_")
        if parameters[:1] and parameters[0][0] == "store" and f" {wrapper}(struct" not in header.replace("const struct", "struct"):
            yield f"{name} has no {wrapper}"


def constants(header, texts):
    for macro, crate, name in CONSTANTS:
        here = re.search(rf"#define PELCHUNDA_{macro} (\d+)", header)
        there = re.search(rf"\bconst {name}: \w+ = (\d+);", texts[crate])
        if not (here and there and here[1] == there[1]):
            yield f"PELCHUNDA_{macro} is not {name} of {crate}"


def numbers(header, texts):
    """The enum of the header against the enum `Refusal` of `event`."""
    cases = re.search(r"enum Refusal \{(.*?)\}", texts["event"], re.S)[1]
    code = {m[1].lower(): m[2] for m in re.finditer(r"(\w+) = (\d+),", cases)}
    enum = re.search(r"enum pelchunda_number \{(.*?)\}", header, re.S)[1]
    shown = {m[1].replace("_", "").lower(): m[2] for m in re.finditer(r"PELCHUNDA_(\w+) = (\d+)", enum) if m[1] != "OK"}
    if not code or code != shown:
        yield f"the numbers differ: {sorted(code.items())} in event, {sorted(shown.items())} in the header"


def findings(header, rust, rattle):
    contracts = rattle_functions(rattle)
    texts = {crate: (ROOT / f"crates/{crate}/src/lib.rt").read_text(encoding="utf-8") for _, crate, _ in CONSTANTS}
    texts["unit_c"] = rattle
    return [
        *differences("the header", c_functions(header), contracts),
        *differences("compare/src/unit.rs", rust_functions(rust), contracts),
        *attributes(header, contracts),
        *wrappers(header, contracts),
        *constants(header, texts),
        *numbers(header, texts),
    ]


def overlooked(texts):
    """The alterations that are no finding, or that no longer stand in their text."""
    for place, old, new in ALTERED:
        altered = dict(texts, **{place: texts[place].replace(old, new)})
        if altered == texts or not findings(**altered):
            yield f"overlooked: {old!r} altered to {new!r} in {place}"


def main():
    texts = {"header": HEADER, "rust": RUST, "rattle": RATTLE}
    texts = {place: path.read_text(encoding="utf-8") for place, path in texts.items()}
    found = findings(**texts) or list(overlooked(texts))
    for line in found:
        print(line)
    if not found:
        count = len(rattle_functions(texts["rattle"]))
        print(f"{count} functions are declared alike in header, comparison and contracts; {len(ALTERED)} alterations found")
    return 1 if found else 0


sys.exit(main())
