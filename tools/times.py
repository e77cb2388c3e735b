#!/usr/bin/env python3
"""How much work the proofs of each crate are, from nothing, as a table.

    python3 tools/times.py check [NAME..]      times `rt check` of each crate, or of these, one after another in a clone of the last
                                               commit, and prints the table; the crates below each are proved before, and not timed
    python3 tools/times.py check --write       the same of all crates, and writes the table into docs/times.md

The seconds are those of a processor. It says nothing where another clone on the machine has checked the crates already, since `rt check` begins with
what that one kept.
"""

import os
import re
import resource
import subprocess
import sys
import tempfile
from pathlib import Path

from command_line import reader_of_words, run_script
from crates import TOP, below_all, height, read_crates

PAGE = TOP / "docs/times.md"
MARKED = re.compile(r"(<!-- times, by tools/times.py -->\n).*?(<!-- end of times -->)", re.S)


def spend(words, folder):
    """Runs a command, which has to end well; answers the processor seconds that it took."""
    before = resource.getrusage(resource.RUSAGE_CHILDREN)
    done = subprocess.run(words, cwd=folder, capture_output=True, text=True, check=False)
    if done.returncode:
        sys.exit(f"{' '.join(words)} ended with status {done.returncode}\n{done.stdout[-2000:]}{done.stderr[-2000:]}")
    after = resource.getrusage(resource.RUSAGE_CHILDREN)
    return after.ru_utime + after.ru_stime - before.ru_utime - before.ru_stime


def check_crates(wanted):
    """Each wanted crate with the seconds that its code took, and then its tests; lower crates first."""
    known = read_crates()
    needed = set(wanted or known).union(*(below_all(name, known) for name in wanted))
    with tempfile.TemporaryDirectory() as folder:
        subprocess.run(["git", "clone", "-q", str(TOP), f"{folder}/clone"], check=True)
        for name in sorted(needed, key=lambda name: (height(name, known), name)):
            place = Path(folder) / "clone/crates" / name
            is_wanted = not wanted or name in wanted
            code = spend(["rt", "check"], place)
            tests = spend(["rt", "check", "--test"], place) if is_wanted else 0
            if (place / "src/lib.rt").exists():
                spend(["rt", "lib"], place)
            if is_wanted:
                print(f"{name}: {code:.0f} processor seconds, its tests {tests:.0f}", file=sys.stderr)
                yield name, code, tests


def main():
    """Prints the table, and writes it where that is asked for."""
    words = reader_of_words(__doc__)
    words.add_argument("what", choices=("check",))
    words.add_argument("names", nargs="*", metavar="NAME", help="a crate; all of them if none is named")
    words.add_argument("--write", action="store_true", help="write the table into docs/times.md")
    told = words.parse_intermixed_args()
    if told.write and told.names:
        words.error("the table in docs/times.md is of all crates")
    rows = [f"| `{name}` | {code:.0f} | {tests:.0f} |" for name, code, tests in check_crates(told.names)]
    table = "\n".join(["| crate | its code | its tests after it |", "|---|---|---|", *rows])
    print(table)
    if told.write:
        text = f"Processor seconds from nothing, on a machine of {os.cpu_count()} processors.\n\n{table}\n"
        PAGE.write_text(MARKED.sub(lambda marks: marks[1] + text + marks[2], PAGE.read_text()))


if __name__ == "__main__":
    run_script(main)
