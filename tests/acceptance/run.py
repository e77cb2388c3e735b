#!/usr/bin/env python3
"""The acceptance run: each case runs the built program over real files, and compares its status and output with what the reference says.

    python3 tests/acceptance/run.py [PROGRAM]      `make check` calls it so
        -k PATTERN      the cases alone in whose names, MODULE/NAME, the pattern stands; with = before it, the one of that whole name
        -j N            so many at a time; as many as there are processors if it isn't said
        --list          tells the names, and runs nothing
        --texts         documents and sources alone, but for the tutorial; it needs no built program

The cases stand in cases/, one module a subject, each of which says what its cases are of; cases/found/ has those that the fuzzer found. What checks
documents and sources stands in tests/texts/cases. They run as they are made. A case that fails is told with the command that runs it again. The last line is `N passed, N failed`; before it each case that
was skipped, since what it needs isn't there, is told with what that is.
"""

import os
import shlex
import sys
import traceback
from concurrent.futures import FIRST_COMPLETED, ThreadPoolExecutor, wait
from importlib import import_module

from harness import judged, rooms, seen
from harness.making import LEAST
from harness.places import TOP
from harness.running import difference

from command_line import reader_of_words, run_script

# The modules of cases/, in the order in which they run; and those whose cases come once all others have run.
MODULES = (
    "data", "generated", "archives", "precedence", "forks", "atlases", "audits", "adoptions", "maps", "reaching", "steps", "worked", "pages", "failing", "messages",
    "exported", "mapped", "played", "stacks", "followers", "damaged", "receiving", "tree_runs", "edges", "beside", "guarded", "power", "faults", "fuzz", "found", "tables", "refused",
    "documents", "prose", "cited", "promised", "reference", "small_worlds", "vectors", "installed", "released", "shown", "unproved", "entries", "operated", "weft", "said", "progress", "sources", "scripts",
)
LATER = ("contradictions", "library", "web", "bindings")

# Those of them that stand in tests/texts; and all that `--texts` runs, of which some try the reference.
OF_TEXTS = ("documents", "prose", "cited", "promised", "said", "progress", "sources", "scripts")
WITHOUT_PROGRAM = ("documents", "vectors", "prose", "cited", "promised", "reference", "small_worlds", "said", "progress", "sources", "scripts")

# How many cases wait for one that runs.
AHEAD = 4

SEEN = "seen/each status and text that the manual page names is among the answers"


class Wanted:
    """Which cases are to run, by a pattern or none."""

    def __init__(self, pattern):
        self.is_whole = pattern is not None and pattern.startswith("=")
        self.text = (pattern or "").removeprefix("=")
        self.module, slash, front = self.text.partition("/")
        self.is_of_module = bool(slash) and self.module in MODULES + LATER
        # (groups of other names needn't be made)
        judged.LOOKED_FOR[:] = [front] if self.is_of_module and front else []

    def has_module(self, module):
        return not self.is_of_module or module == self.module

    def has(self, name):
        return name == self.text if self.is_whole else self.text in name


def load(module):
    """A module of cases."""
    return import_module(f"{'texts.' * (module in OF_TEXTS)}cases.{module}")


def cases_of(modules, wanted, begin=lambda module: None):
    """The cases of modules, each with its whole name, as they are made; before the first one of a module that begins."""
    for module in modules:
        if wanted.has_module(module):
            has_begun = False
            for case in load(module).cases():
                if wanted.has(f"{module}/{case['name']}"):
                    if not has_begun:
                        begin(module)
                    has_begun = True
                    yield f"{module}/{case['name']}", case


def texts():
    """The cases of documents and sources that need no program."""
    for module in WITHOUT_PROGRAM:
        it = load(module)
        yield from ((f"{module}/{case['name']}", case) for case in getattr(it, "without_program", it.cases)())


class Tally:
    """What became of the cases so far, told as it comes."""

    def __init__(self, program):
        self.program, self.count, self.failed, self.module = program, 0, 0, ""

    def begin(self, module):
        """The cases of a module begin, which is told: `make test` shows by these lines how far the run is."""
        self.module = f"{module}, part {(MODULES + LATER).index(module) + 1} of {len(MODULES + LATER)}"
        if sys.stderr.isatty():
            self.show()
        else:
            print(f"cases: {self.module}, {self.count - self.failed} passed, {self.failed} failed", flush=True)

    def clear(self):
        """Takes away the line that goes on."""
        if sys.stderr.isatty():
            print("\r\x1b[K", end="", file=sys.stderr, flush=True)

    def show(self):
        """How far the run is, in one line that goes on."""
        print(f"\r\x1b[K{self.count - self.failed} passed, {self.failed} failed: {self.module}", end="", file=sys.stderr, flush=True)

    def add(self, name, wrong):
        self.count += 1
        if wrong:
            self.failed += 1
            self.clear()
            again = shlex.join(["python3", os.path.relpath(__file__), *([self.program] if self.program else []), "-k", f"={name}"])
            print(f"FAILED {name}\n{wrong}\n  again: {again}", flush=True)
        elif self.count % 50 == 0 and sys.stderr.isatty():
            self.show()

    def print_summary(self):
        """Tells what was skipped, and how many passed; answers the status."""
        self.clear()
        for name in sorted(rooms.SKIPPED):
            print(f"skipped {name}")
        print(f"{len(rooms.SKIPPED)} skipped")
        print(f"{self.count - self.failed - len(rooms.SKIPPED)} passed, {self.failed} failed")
        return 1 if self.failed or not self.count else 0


def run(program, cases, tally, workers):
    """Runs cases as they are made, so many at a time."""
    running = {}
    with ThreadPoolExecutor(workers) as pool:
        for name, case in cases:
            running[pool.submit(wrong_with, program, case)] = name
            if len(running) >= AHEAD * workers:
                collect(running, tally)
        while running:
            collect(running, tally)


def wrong_with(program, case):
    """What was wrong with a case, or None."""
    try:
        return difference(program, case)
    except Exception:
        # (a case that can't be run to its end tells nothing of the program, and has failed)
        return f"  it couldn't be run to its end\n{traceback.format_exc()}"


def collect(running, tally):
    """Waits for one case at least."""
    for done in wait(running, return_when=FIRST_COMPLETED).done:
        tally.add(running.pop(done), done.result())


def read_words():
    words = reader_of_words(__doc__)
    words.add_argument("program", nargs="?", default=TOP / "bin/timeweave", metavar="PROGRAM", help="the built program")
    words.add_argument("-k", dest="pattern", metavar="PATTERN", help="these cases alone")
    words.add_argument("-j", dest="workers", type=int, default=os.cpu_count(), metavar="N", help="so many at a time")
    words.add_argument("--list", action="store_true", help="tell the names")
    words.add_argument("--texts", action="store_true", help="documents and sources alone")
    return words.parse_args()


def main():
    words = read_words()
    if words.texts:
        tally = Tally(None)
        run(None, texts(), tally, 1)
        return tally.print_summary()
    # (what is among all answers is seen of all cases)
    wanted = Wanted(None if words.pattern in (SEEN, f"={SEEN}") else words.pattern)
    if words.list:
        for name, _ in cases_of(MODULES + LATER, wanted):
            print(name)
        return 0
    program = os.path.abspath(words.program)
    tally = Tally(program)
    if not os.access(program, os.X_OK):
        tally.add("program", f"  {program} isn't there: `make build` builds it")
        return tally.print_summary()
    if (TOP / "crates/timeweave/data/p").read_bytes() != LEAST:
        tally.add("least proof", "  crates/timeweave/data/p isn't the least proof of the reference")
        return tally.print_summary()
    run(program, cases_of(MODULES, wanted, tally.begin), tally, words.workers)
    run(program, cases_of(LATER, wanted, tally.begin), tally, 1)
    if wanted.text == "":
        tally.add(SEEN, "\n".join(seen.missing()) or None)
    return tally.print_summary()


if __name__ == "__main__":
    run_script(main)
