#!/usr/bin/env python3
"""Runs every program as compiled in three ways: as proved, without optimisation (by Rattle's own compiler, since LLVM always does all
of it) and by LLVM at -O3, which `rt run` builds; and with checks as it runs, by `rt try`, which proves nothing. Each must end with
status 0 and write what its `stdout` has. Those that read nothing and take few steps run on the interpreter too, by `rt try`. With no
names it runs all of them. Its status is 1 where a run differs. usage: tools/three_ways.py [NAME..]"""
import shutil
import subprocess
import sys
import tempfile
from pathlib import Path

from replay_script import ROOT, records

BUILDS = {"without optimisation": ["--backend", "rattle", "--opt-level", "0"], "at -O3": ["--backend", "llvm"]}
CHECKED = "with checks"
WAYS = [*BUILDS, CHECKED]
ON_INTERPRETER = {"vectors", "drawn_room"}  # the others read input or files, or take too many steps
SECONDS = "900"  # for a checked run: of replay's script it takes 2 to 4 minutes


def programs():
    return [p.parent.parent.name for p in sorted((ROOT / "crates").glob("*/src/main.rt"))]


def contents(path):
    return path.read_bytes() if path.is_file() else b""


def lines_of(output):
    return output.decode("utf-8", "replace").splitlines()


def ran(crate, words, folder):
    """Runs a command on the program's input: whether it ended with status 0 and wrote what it must, and what is to be said of it."""
    done = subprocess.run(words, cwd=folder, input=contents(crate / "stdin"), capture_output=True)
    want, got = contents(crate / "stdout").split(b"\n"), done.stdout.split(b"\n")
    differs = next((f"from line {n} on" for n, (a, b) in enumerate(zip(want, got), 1) if a != b), "" if want == got else "in length")
    said = [f"status {done.returncode}", *lines_of(done.stderr), *([f"output differs {differs}"] if differs else [])]
    return done.returncode == 0 and not differs, said


def as_built(crate, flags):
    """Builds the proved program, and runs it in a copy of its data: whether it does what it must, and what is to be said."""
    program = crate / "out" / crate.name
    program.unlink(missing_ok=True)
    built = subprocess.run(["rt", "run", *flags], cwd=crate, stdin=subprocess.DEVNULL, capture_output=True)
    if not program.exists():
        return False, lines_of(built.stdout + built.stderr)
    with tempfile.TemporaryDirectory() as folder:
        place = Path(folder, "data")
        shutil.copytree(crate / "data", place) if (crate / "data").is_dir() else place.mkdir()
        shutil.copy(program, folder)
        return ran(crate, ["timeout", "120", f"{folder}/{crate.name}"], place)


def as_tried(crate):
    """Whether a program does what it must with checks, whether on the interpreter, and what is to be said."""
    files = sorted(path.relative_to(crate / "data") for path in (crate / "data").rglob("*") if path.is_file())
    data = [word for name in files for word in ("--data", f"{name}=data/{name}")]
    good, said = ran(crate, ["rt", "try", "--seconds", SECONDS, *data], crate)
    return good and "checked: ended status=0" in said, good and "interpreter: ended status=0" in said, said


def right(name):
    """Runs a program, and says where it does not do what it must."""
    crate, wrong = ROOT / "crates" / name, []
    for way, flags in BUILDS.items():
        good, said = as_built(crate, flags)
        wrong += [] if good else [f"{name}, {way}: NOT as expected", *said]
    checked, interpreted, said = as_tried(crate)
    if not (checked and (interpreted or name not in ON_INTERPRETER)):
        wrong += [f"{name}, {CHECKED} or on the interpreter: NOT as expected", *said]
    print("\n    ".join(wrong) or f"{name}: as expected {', '.join(WAYS)}{', on the interpreter' * interpreted}", flush=True)
    return not wrong


def main():
    names = sys.argv[1:] or programs()
    good = [right(name) for name in names]
    if all(good):
        print(f"the programs {', '.join(names)} are as expected {', '.join(WAYS)}")
        print(f"on the interpreter too: {', '.join(sorted(ON_INTERPRETER & set(names))) or 'none'}")
        if "replay" in names:
            print(f"replay: {len(list(records()))} records are answered alike in each way")
    return 0 if all(good) else 1


sys.exit(main())
