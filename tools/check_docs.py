#!/usr/bin/env python3
"""Checks README.md and docs/*.md against the repository: names in backquotes, must-fail edits, counts, bytes of stack, the
version, the lines that docs/TRUST.md says are to be read, and links. It needs no build. It prints a line per finding, and its
status is 1 where there is one."""
import re
import subprocess
import sys
from pathlib import Path

ROOT = Path(__file__).resolve().parent.parent
CRATES = ROOT / "crates"
DOCS = [ROOT / "README.md"] + sorted((ROOT / "docs").glob("*.md"))
PAST = {"PORT.md", "DESIGN-PASS.md", "LOOK-BACK.md"}  # tell of what was before: their names and counts are not looked for
SOURCES = {".rt", ".antt", ".h", ".c", ".rs", ".py", ".sh", ".toml", ".txt"}

# Words in backquotes that stand in no source: the toolchain's and the C library's, what is built, stand-ins for a name.
ALLOWED = set("""
    fmt --data --only --allow-holes --start rattle-kit-13f dac8208d650f15bf
    logic proved axioms logic-built libraries-built statements incremental trusted nat
    libc libc::lseek os::c::__xpg_strerror_r os::c::rattle_errno
    target/ out/ out/NAME out/libunit_c.a crates/NAME/out/ compare/target/differences target/delivery/pelchunda-VERSION
    crates/a/must-fail/b.edit crate/specs/File.name crate/proofs/File.name proofs/F/Invariants.antt proofs/F/Answers.antt
    lib/libpelchunda.a lib/pkgconfig/pelchunda.pc share/pelchunda/sample share/pelchunda/acceptance
    share/doc/pelchunda share/pelchunda/sample/room.txt contracts/unit_c.rt
""".split())

findings = []


def report(document, text):
    findings.append(f"{document.relative_to(ROOT)}: {text}")


def read(path):
    return path.read_text(encoding="utf-8")


def number(digits):
    return int(digits.replace(",", ""))


def spans(document):
    """The texts in backquotes, outside indented code."""
    for line in read(document).split("\n"):
        if not line.startswith("    "):
            yield from re.findall(r"`([^`]+)`", line)


def all_words():
    """Every word of the sources but this one, and the name of every file, with and without its ending, and folder. What is built,
    in target/ and out/, is left out."""
    words = set()
    for path in ROOT.rglob("*"):
        parts = path.relative_to(ROOT).parts
        if path.is_file() and not {"target", "out", ".git"} & set(parts):
            words.update(parts)
            words.add(path.stem)
            if path.suffix in SOURCES and path != Path(__file__).resolve():
                words.update(re.split(r"[\s(){}\[\],;.:\"'`|&*!=<>+/]+", read(path)))
    return words


def declares(path, name):
    """Whether a file of specifications or proofs has a declaration, a field or a case of that name."""
    name = re.escape(name)
    return bool(re.search(rf"(?m)^\s*(?:\w+ )*{name}(?: \{{[^}}]*\}})? :|\b(?:record|data) {name} ", read(path)))


def in_code(crate, name):
    """Whether a crate's code has a function, a constant or a type of that name, or passes one on."""
    code = "".join(read(path) for path in (CRATES / crate / "src").glob("*.rt"))
    passed_on = re.findall(r"use \w+::(?:(\w+);|\{([^}]*)\})", code)
    return bool(re.search(rf"\b(?:fn|const|struct|enum|mod) {name}\b", code)) or any(
        name in re.findall(r"\w+", one + several) for one, several in passed_on
    )


def path_known(piece):
    """A path from the root, from crates/ or a crate, or from the comparison's sources; an edit; a name in a file."""
    pattern = piece.replace("NAME", "*").rstrip("/")
    for start in ("", "crates/", "crates/*/", "compare/src/"):
        if any(any(ROOT.glob(start + pattern + ending)) for ending in ("", ".antt")):
            return True
    crate, _, edit = pattern.partition("/")
    file, _, name = pattern.rpartition(".")
    path = CRATES / f"{file}.antt"
    return (CRATES / crate / "must-fail" / f"{edit}.edit").exists() or path.is_file() and declares(path, name)


def known(piece, words):
    """Whether a word in backquotes names something. Words of fewer than three letters are not tested."""
    if piece in ALLOWED or piece in words or len(re.findall(r"[^\W\d_]", piece)) < 3:
        return True
    if re.fullmatch(r"pelchunda-[\d.]+", piece):  # the delivery's folder: check_version compares it
        return True
    if "::" in piece:
        crate, _, name = piece.rpartition("::")
        return in_code(crate, name) if (CRATES / crate).is_dir() else name in words
    if "/" in piece:
        return path_known(piece)
    if piece.startswith("-"):
        return any(word.endswith(piece) for word in words)
    file, _, name = piece.partition(".")
    files = [path for folder in ("specs", "proofs") for path in CRATES.glob(f"*/{folder}/{file}.antt")] if name else []
    if files:
        return any(declares(path, name) for path in files)
    parts = re.split(r"[.=&*<>+%^|]", piece)
    return len(parts) > 1 and all(known(part, words) for part in parts)


def check_names(document, words):
    for span in spans(document):
        for piece in re.split(r"[\s()\[\]{},;]+", span):
            piece = piece.strip("\"'&*!:").rstrip(".")
            stands_in = document.name == "REPLAY.md" and piece.isupper()
            if not stands_in and not known(piece, words):
                report(document, f"no such name: `{piece}`")
    header = re.findall(r"\w+", read(ROOT / "include/pelchunda.h"))
    for name in sorted(set(re.findall(r"(?i)\bpelchunda_\w+", read(document))) - set(header)):
        report(document, f"include/pelchunda.h has no {name}")


def check_edits():
    """Every edit is named in CONTRACTS or TRACEABILITY: as crate/edit, or as edit behind another one of its crate."""
    edits = {(path.parent.parent.name, path.stem) for path in CRATES.glob("*/must-fail/*.edit")}
    named = set()
    for name in ("CONTRACTS", "TRACEABILITY"):
        last = ""
        for span in spans(ROOT / f"docs/{name}.md"):
            crate, _, edit = span.rpartition("/")
            last = crate if (crate, edit) in edits else last
            named |= {(last, edit)} if (last, edit) in edits else {(c, e) for c, e in edits if e == span}
    for crate, edit in sorted(edits - named):
        findings.append(f"crates/{crate}/must-fail/{edit}.edit: named neither in CONTRACTS nor in TRACEABILITY")


def recorded_calls():
    """How many calls the acceptance test makes."""
    script = [sys.executable, str(ROOT / "tools/acceptance_calls.py")]
    return int(subprocess.run(script, capture_output=True, text=True, check=True).stderr.split()[0])


def check_counts(document, recorded):
    """Numbers of crates, of must-fail edits, of programs and of recorded calls, where a document states them in digits."""
    counts = {
        "recorded calls": recorded,
        "crates": len(re.findall(r"(?m)^\w[^:#\n]*:", read(ROOT / "crates.txt"))),
        "must-fail edits": len(list(CRATES.glob("*/must-fail/*.edit"))),
        "programs": len(list(CRATES.glob("*/src/main.rt"))),
    }
    for thing, count in counts.items():
        for said in re.findall(rf"\b(\d+)\s+{thing}\b", read(document)):
            if int(said) != count:
                report(document, f"says {said} {thing}, and there are {count}")


def check_stack():
    """The bounds of docs/PERFORMANCE.md are the header's figures."""
    document = ROOT / "docs/PERFORMANCE.md"
    figures = re.findall(r" \* stack +([\d,]+) bytes\n \*/\n(?:PELCHUNDA.*\n)?\w+ (\w+)\(", read(ROOT / "include/pelchunda.h"))
    rows = re.findall(r"(?m)^\| `(pelchunda_\w+)` \|.*\| ([\d,]+) \|$", read(document))
    if {name: bytes_ for bytes_, name in figures} != dict(rows):
        report(document, "the bounds of the stack are not the header's figures")


def check_version(document):
    """The version, where a document names the delivery's folder."""
    version = re.search(r'#define PELCHUNDA_VERSION "(.*)"', read(ROOT / "include/pelchunda.h"))[1]
    for said in re.findall(r"pelchunda-(\d+\.\d+\.\d+)", read(document)):
        if said != version:
            report(document, f"says version {said}, and it is {version}")


def check_links(document):
    for target in re.findall(r"\]\(([^)#\s]+)", read(document)):
        if ":" not in target and not (document.parent / target).exists():
            report(document, f"link to {target}, which is not there")


def imports(text):
    """Name -> (file, name there), by `use Rattle.crate.specs.File.{..}`."""
    found = {}
    for crate, file, names in re.findall(r"use Rattle\.(\w+)\.specs\.(\w+)\.\{([^}]*)\}", text):
        for entry in filter(None, (name.strip() for name in names.split(","))):
            name, _, alias = entry.partition(" as ")
            found[alias or name] = (f"{crate}/specs/{file}", name)
    return found


def names_in(text):
    """The words of a text, and as names of infix operators. Of what a field is read of, as `u.calls`, the field is left out."""
    words = {word.split(".")[0] for word in re.split(r"[\s(){},;\[\]λ]+", text)} - {""}
    return words | {f"◌{word}◌" for word in words}


class Specs:
    """A file of specifications: its imports, and the lines of each declaration without comments and blank lines."""

    def __init__(self, path):
        text = re.sub(r"(?m)(^|\s)--.*$", "", read(path))
        self.imports, self.lines, self.owner = imports(text), {}, {}
        text = re.sub(r"(?m)^(pub )?use [^{\n]*(\{[^}]*\})?|^infix.*|^pub mod .*", "", text)
        base, current, cases = 0, None, False
        for line in filter(str.strip, text.split("\n")):
            indent = len(line) - len(line.lstrip())
            base = base if indent else 2 * line.startswith("module")
            head = re.match(r"\s*(?:(?:pub|abbrev|unfoldable) )*(data |record )?(\S+)(?: \{[^}]*\})?( :)?", line)
            if line.startswith("module"):
                continue
            if indent == base and (head[1] or head[3]):
                current, cases = head[2], head[1] == "data "
                self.lines[current], self.owner[current] = [], current
            elif cases and head[3]:
                self.owner.setdefault(head[2], current)
            if current:
                self.lines[current].append(line)


def reached(specs, roots):
    """The declarations that the roots rest on, as (file, name), down to the language's library."""
    seen, rest = set(), set(roots)
    while rest:
        file, name = rest.pop()
        spec = specs.get(file)
        if spec and name not in spec.owner and name in spec.imports:
            rest.add(spec.imports[name])
        if spec and name in spec.owner and (file, spec.owner[name]) not in seen:
            name = spec.owner[name]
            seen.add((file, name))
            for word in names_in(" ".join(spec.lines[name])):
                rest |= {(file, word)} if word in spec.owner else {spec.imports[word]} if word in spec.imports else set()
    return seen


def promised(crate, functions):
    """What the `ensures` clauses of a crate's functions name. A clause ends with the brace that closes it."""
    roots = set()
    for path in (CRATES / crate / "src").glob("*.rt"):
        names, function, open_braces = imports(read(path)), "", 0
        for line in read(path).split("\n"):
            head = re.match(r"(?:pub )?(?:extern \"C\" )?fn (\w+)", line)
            function = head[1] if head else function
            if open_braces or line.startswith("    ensures"):
                open_braces += line.count("{") - line.count("}")
                if re.fullmatch(functions, function):
                    roots |= {names[word] for word in names_in(line) if word in names}
    return roots


def count(specs, found, file):
    return sum(len(specs[f].lines[name]) for f, name in found if f == file)


def check_table(document, specs, found):
    """The table of lines to read: each row, the files that it lacks, the sums."""
    rows = re.findall(r"(?m)^\| `(\w+/specs/\w+)` \|[^|]*\| ([\d,]+) \| ([\d,]+) \|$", read(document))
    said = {file: (number(some), number(whole)) for file, some, whole in rows}
    for file in sorted(set(said) | {f for f, _ in found}):
        path = CRATES / f"{file}.antt"
        right = (count(specs, found, file), read(path).count("\n")) if path.exists() else (0, 0)
        if said.get(file) != right:
            report(document, f"{file}: says {said.get(file)}, and it is {right} (lines to read, lines of the file)")
    last = re.search(r"\| all (\d+) files \| \| ([\d,]+) \| ([\d,]+) \|", read(document))
    stated = tuple(number(digits) for digits in last.groups()) if last else None
    sums = (len(said), *(sum(column) for column in zip(*said.values())))
    if stated != sums:
        report(document, f"last row of the table: says {stated}, and the rows give {sums}")


def check_sentence(document, specs, opening, found):
    """A sentence 'OPENING N lines ..: n of `file`, ..': each number, and that no file is left out."""
    text = " ".join(read(document).split())
    match = re.search(rf"{opening} (\d+) lines[^:]*: ((?:[^`;.]*\d+ of `[^`]+`)+)", text)
    said = {file: int(n) for n, file in re.findall(r"(\d+) of `([^`]+)`", match[2])} if match else {}
    right = {file: count(specs, found, file) for file in {f for f, _ in found}}
    if not match or said != right or int(match[1]) != sum(right.values()):
        report(document, f"'{opening} N lines': says {said}, and it is {right}, {sum(right.values())} in all")


def check_trust():
    document = ROOT / "docs/TRUST.md"
    specs = {str(path.relative_to(CRATES))[:-5]: Specs(path) for path in CRATES.glob("*/specs/*.antt")}
    roots = promised("takes", "start|take|take_bundle") | promised("reports", "order|verdict|map|write_out")
    demand = reached(specs, roots | {("claims/specs/ThirdDemand", "ThirdDemand")})
    text = reached(specs, promised("text", "text") | promised("text_format", "refusal_line")) - demand
    for_c = reached(specs, promised("unit_c", r"pelchunda_\w+")) - demand - text
    check_table(document, specs, demand)
    check_sentence(document, specs, "Its contract adds", text)
    check_sentence(document, specs, "Their contracts add", for_c)


def main():
    words, recorded = all_words(), recorded_calls()
    for document in DOCS:
        if document.name not in PAST:
            check_names(document, words)
            check_counts(document, recorded)
        check_links(document)
        check_version(document)
    check_edits()
    check_stack()
    check_trust()
    print("\n".join(findings + [f"documents: {len(findings)} findings in {len(DOCS)} files"]))
    return 1 if findings else 0


if __name__ == "__main__":
    sys.exit(main())
