#!/usr/bin/env python3
"""Builds programs, and puts a copy of each to bin/, where the gate doesn't touch it.

    python3 tools/build.py NAME ..
    python3 tools/build.py --of-gate NAME ..

Only a proved program is built: `rt ci` proves, over a copy of the programs' crates and those below without their wrong bodies: each crate
once, and as many at a time as there are processors and memory for. A program whose crates are as they were when it was built is left as it is.
Right after the gate has passed this tree, `--of-gate` builds it of the crates that it built here. The program that is handed out is compiled once more,
for every x86-64 processor; others are taken as the gate built them, for processors that have x86-64-v2.
"""

import sys
import tempfile
from pathlib import Path

import built
from crates import TOP, copy_crates
from kit import program
from progress import run_watched

# The programs that are handed out: they run on every x86-64 processor.
HANDED_OUT = ("timeweave",)


def prove(copy, *words):
    """Runs the gate over the copy, shows how far it is, and writes what it says with the paths of this tree into log/build.log; returns its status."""
    return run_watched(["rt", "ci", *words], copy, "build", lambda line: line.replace(str(copy), str(TOP)))


def put(name, copy):
    """Builds a program of the crates that were built in the copy, and puts it to bin/."""
    made = program(copy, name) if name in HANDED_OUT else copy / "crates" / name / "out" / name
    built.put(made, TOP / "bin" / name, built.sum_of([name]))


def main():
    if sys.argv[1:] == ["--help"]:
        print(Path(__file__).name, __doc__)
        return 0
    is_of_gate = sys.argv[1:2] == ["--of-gate"]
    names = sys.argv[1 + is_of_gate :]
    if not names or names[0].startswith("-"):
        sys.exit(__doc__)
    if is_of_gate:
        for name in names:
            put(name, TOP)
        return 0
    if all(built.is_built(TOP / "bin" / name, built.sum_of([name])) for name in names):
        print(f"built already: {' '.join(names)}")
        return 0
    with tempfile.TemporaryDirectory(prefix="timeweave_build_") as folder:
        copy = Path(folder) / "tree"
        copy_crates(names, copy, without=("must-fail", "wrong-bodies.txt"))
        status = prove(copy)
        if status:
            return status
        for name in names:
            put(name, copy)
    return 0


if __name__ == "__main__":
    sys.exit(main())
