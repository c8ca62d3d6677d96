#!/usr/bin/env python3
"""Brings the repository's own definitions and lemmas to one spelling.

usage: respell.py [--check] table      writes tools/respell.tsv: old name, tab, new name
       respell.py [--check] turn PATH..   turns the names of the table in .antt, .rt, .edit and .md files below the paths

A word is in snake case. A dash stays where it joins two definitions, as in length-chunks; a plain word is added with _.
A name that a file imports from the library keeps its spelling, and so does a name of src/.
"""
import collections
import os
import re
import sys

HERE = os.path.dirname(os.path.realpath(__file__))
TABLE = os.path.join(HERE, "respell.tsv")
ROOT = os.path.dirname(HERE)
CRATES = os.path.join(ROOT, "crates")
LIBRARY = set("length take drop map append reverse flatten get_or set replicate cons nil add sub mul div mod not and or cond eqb ltb leb".split())
WORD = re.compile(r"[^\s(){}\[\].;,@\"«»`:=|]+")
DECLARED = re.compile(r"^\s*((?:unfoldable |abbrev |pub |ruleset )*)([^\s:({\[\]]+)(?:\s*\{[^}]*\})?\s*:\s")


def files(paths, endings):
    for top in paths:
        if os.path.isfile(top):
            if top.endswith(endings):
                yield top
            continue
        for folder, dirs, names in os.walk(top):
            dirs[:] = sorted(d for d in dirs if d not in ("out", ".git", "target"))
            for n in sorted(names):
                if n.endswith(endings):
                    yield os.path.join(folder, n)


def read(path):
    with open(path, encoding="utf-8") as f:
        return f.read()


def snake(word):
    return re.sub(r"(?<=[a-z0-9])([A-Z])", lambda m: "_" + m[1].lower(), word)


def table():
    own = {line.split(":")[0].split()[0] for line in read(os.path.join(ROOT, "crates.txt")).splitlines() if ":" in line and not line.startswith("#")}
    functions, lemmas, library, tokens = set(), set(), set(), collections.defaultdict(set)
    for path in files([CRATES], (".antt",)):
        text = read(path)
        for m in re.finditer(r"^use ([^\s{;]+?)(?:\.\{([^}]*)\})?\s*$", text, re.M):
            root = m[1].split(".")
            if not (root[0] == "Rattle" and len(root) > 1 and root[1] in own):
                for n in (m[2] or "").split(","):
                    library.update(n.strip().split(" as "))
        if path.endswith("/Proof.antt"):
            continue
        for line in text.splitlines():
            tokens[path].update(WORD.findall(line.split("--")[0]))
            m = DECLARED.match(line.split(" -- ")[0])
            if m and re.match(r"[a-z]", m[2]) and m[2] not in ("goal",):
                (functions if "abbrev" in m[1] or "unfoldable" in m[1] else lemmas).add(m[2])
    known = LIBRARY | {snake(f) for f in functions if "-" not in f} | {f for f in functions if "-" not in f}
    turned = {}
    for name in functions | lemmas:
        if name in library or name.startswith("Rattle"):
            continue
        parts = [snake(p) if re.match(r"[a-z]", p) else p for p in name.split("-")]
        new = parts[0]
        for before, part in zip(parts, parts[1:]):
            both = before in known and part in known or re.match(r"[A-Z]\w", before) or re.match(r"[A-Z]\w", part)
            new += ("-" if both else "_") + part
        if new != name:
            turned[name] = new
    # These read a field of a struct of src/ that has the plain name.
    turned.update({n: snake(n) + "_of" for n in ("kindA", "kindB", "portA", "portB") if n in functions})
    # A lemma that would have its function's name gets _lem.
    for name in sorted(functions | lemmas):
        new = turned.get(name, name)
        if name in lemmas - functions and any(turned.get(f, f) == new for f in functions if f != name):
            turned[name] = new + "_lem"
    final = collections.defaultdict(list)
    for name in sorted(functions | lemmas | library):
        final[turned.get(name, name)].append(name)
    for new, names in sorted(final.items()):
        if len(names) > 1:
            print(f"falls together: {names} -> {new}; they stay")
            for n in names:
                turned.pop(n, None)
    bound = set().union(*tokens.values())
    for name, new in sorted(turned.items()):
        if new in bound and new not in turned:
            print(f"look: {name} -> {new}, which a file has already: " + ", ".join(sorted(os.path.relpath(p, CRATES) for p, t in tokens.items() if new in t and name in t)[:4]))
    return turned


def plain(name):
    return "-" not in name and not re.search("[A-Z]", name)


def turn_words(text, names, rust=False):
    def one(m):
        bare = m[0].rstrip("'")
        new = names.get(m[0]) or (names[bare] + m[0][len(bare):] if bare in names else None)
        # A name that is a function's of src/ too stands behind a dot there, or before one.
        beside = text[m.start() - 1 : m.start()] == "." or text[m.end() : m.end() + 1] == "."
        return m[0] if new is None or (plain(bare) and (beside or rust)) else new

    return WORD.sub(one, text)


def camel_only(names):
    return {o: n for o, n in names.items() if "-" not in o and not plain(o)}


def turn_comment(text, names):
    spans = re.sub(r"`[^`\n]*`", lambda m: turn_words(m[0], names, True), text)
    return turn_words(spans, camel_only(names), True)


def turn_code(text, names, mark, rust=False):
    out = []
    for line in text.splitlines(keepends=True):
        m = re.search(r'(?:(?<=\s)|^)' + re.escape(mark) + r'(?=\s|$)', line)
        if m and line[: m.start()].count('"') % 2 == 0:
            out.append(turn_words(line[: m.start()], names, rust) + turn_comment(line[m.start():], names))
        else:
            out.append(turn_words(line, names, rust))
    return "".join(out)


def turn_rust(text, names):
    """Strings keep their words."""
    parts = re.split(r'(b?"(?:\\.|[^"\\\n])*")', text)
    return "".join(p if i % 2 else turn_code(p, names, "//", True) for i, p in enumerate(parts))


def main(argv):
    check = "--check" in argv
    argv = [a for a in argv if a != "--check"]
    if argv and argv[0] == "table":
        names = table()
        if not check:
            with open(TABLE, "w", encoding="utf-8") as f:
                f.writelines(f"{o}\t{n}\n" for o, n in sorted(names.items()))
        print(len(names), "names")
        return 0
    if len(argv) < 2 or argv[0] != "turn":
        print(__doc__)
        return 2
    names = dict(l.split("\t") for l in read(TABLE).splitlines())
    n = 0
    for path in files(argv[1:], (".antt", ".rt", ".edit", ".md")):
        text = read(path)
        if path.endswith(".md"):
            new = re.sub(r"`[^`\n]*`", lambda m: turn_words(m[0], names, True), text)
        elif path.endswith(".rt"):
            new = turn_rust(text, names)
        elif path.endswith(".edit"):
            new = turn_words(text, names)
        else:
            new = turn_code(text, names, "--")
        if new != text:
            n += 1
            if not check:
                with open(path, "w", encoding="utf-8") as f:
                    f.write(new)
    print(n, "files")
    return 0


if __name__ == "__main__":
    raise SystemExit(main(sys.argv[1:]))
