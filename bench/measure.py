#!/usr/bin/env python3
"""Measures the built program, writes what it found into bench/results.json, and makes bench/RESULTS.md and its pictures of that.

    python3 bench/measure.py PROGRAM [PART ..] [--folder FOLDER]      `make bench` measures all parts
    python3 bench/measure.py PROGRAM [PART ..] --try FILE             a few runs on small stores, to try the scripts; writes into that file alone

Each part can be measured alone, and the others stay as they were. What isn't installed is left out: sqlite3, git, openssl, strace, valgrind, a C compiler, the library
(`make lib`), LMDB and SQLite for C, Python's `lmdb` and `distributed`. `--parts` tells the parts, and some minutes that each takes."""

import argparse
import importlib
import sys
from pathlib import Path
from typing import Callable, Dict

from measuring import RESULTS, TOP, Bench, Found, measure_parts

from command_line import run_script

# The module and function of each part, and about how many minutes it takes on a machine with nothing else to do.
PARTS = {
    "commands": ("commands.compare_commands", 1), "growth": ("commands.grow", 1), "hashes": ("commands.count_hashes", 1),
    "histories": ("histories.measure_histories", 4), "exports": ("histories.measure_exports", 1), "trees": ("trees.measure_trees", 1),
    "receiving": ("receiving.measure_receiving", 5), "in_process": ("in_process.measure_in_process", 5),
    "durable": ("durable.measure_durable", 5), "recording": ("recording.measure_recording", 5), "sizes": ("sizes.measure_sizes", 10),
    "memory": ("commands_cost.measure_memory", 5), "cold": ("commands_cost.measure_cold", 5), "startup": ("commands_cost.measure_startup", 2), "spread": ("scale.simulate", 20),
    "many": ("many_workers.measure_many", 5), "nights": ("nights.measure_nights", 15), "million": ("million.measure_million", 15),
}  # fmt: skip


def part_named(name: str) -> Callable[[Bench], Found]:
    """The function of a part."""
    module, _, function = PARTS[name][0].partition(".")
    found: Callable[[Bench], Found] = getattr(importlib.import_module(module), function)
    return found


def main() -> int:
    """Measures what is asked for."""
    words = argparse.ArgumentParser(description=__doc__, formatter_class=argparse.RawDescriptionHelpFormatter)
    words.add_argument("program", metavar="PROGRAM", nargs="?", default=TOP / "bin/timeweave")
    words.add_argument("parts", metavar="PART", nargs="*", help=f"of {', '.join(PARTS)}; else all")
    words.add_argument("--parts", dest="is_asked", action="store_true", help="tells the parts, and measures nothing")
    words.add_argument("--folder", help="where files are made, on the disk that is measured; else where temporary files lie")
    words.add_argument("--try", dest="trial", metavar="FILE", type=Path, help="a trial, which writes into this file")
    given = words.parse_args()
    if set(given.parts) - set(PARTS):
        words.error(f"parts are {', '.join(PARTS)}")
    if given.is_asked:
        print("\n".join(f"{name:12} some {minutes} minutes" for name, (_, minutes) in PARTS.items()))
        return 0
    parts: Dict[str, Callable[[Bench], Found]] = {name: part_named(name) for name in given.parts or PARTS}
    measure_parts(parts, str(given.program), given.trial is not None, given.folder, given.trial or RESULTS)
    if given.trial is None:
        import page

        sys.argv[1:] = []
        return page.main()
    return 0


if __name__ == "__main__":
    run_script(main)
