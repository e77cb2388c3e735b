#!/usr/bin/env python3
"""Runs the built program beside the reference on trials drawn by chance, for so many seconds; the acceptance run does 2,000 of them.

    python3 tests/acceptance/fuzz.py PROGRAM [SECONDS] [SEED]       `make fuzz SECONDS=60 SEED=1` calls it so
    python3 tests/acceptance/fuzz.py PROGRAM --again FILE           runs a trial of a file once more

A trial is one command or a session of several, over files and stores, most of which were changed (harness/drawn.py). Status, output and
stores have to be what the reference says. The first trial that differs is shrunk, to the least sequence of commands and the least bytes that
still differ, and written into cases/found/, where the acceptance run runs it from then on. At the end the seed, the time and the forms of
commands that were run are told, each with how often and with which statuses.
"""

import hashlib
import json
import os
import sys
import time
from collections import Counter
from concurrent.futures import ThreadPoolExecutor
from itertools import count
from pathlib import Path

from harness import kept
from harness.drawn import drawn
from harness.places import FOUND
from harness.shrinking import shrunk
from harness.trials import Difference, describe_trial, difference, ran, wanted

from command_line import reader_of_words, run_script
from timeweave_reference.words import kinds_of, kinds_of_forms

# How many trials are drawn before the time is looked at, and the seconds that shrinking takes at most.
AT_ONCE, SHRINKING = 64, 120


def tried(program, trial):
    """The form and the status of each command of a trial, and where program and reference differ first, or None."""
    met = []
    for number, (said, found) in enumerate(zip(wanted(trial), ran(program, trial)), 1):
        kinds = kinds_of(trial.commands[number - 1].words)
        met.append((None if isinstance(kinds, int) else form_of(kinds), found.status))
        if not said.allows(found):
            return met, Difference(number, said, found)
    return met, None


def form_of(kinds):
    """The form of words of these kinds, as it is told: those of one kind that come again and again are two."""
    return " ".join(kinds[:5] + [".."] * (len(kinds) > 5) if kinds[0] in ("join", "audit", "adopt", "atlas") else kinds)


class Coverage:
    """How often each form of commands was run, and with which statuses it answered."""

    def __init__(self):
        self.runs = Counter()

    def add(self, met):
        self.runs.update(met)

    def describe_runs(self):
        forms = {}
        for (form, status), number in self.runs.items():
            first = (form or "(no form)").split()
            name = " ".join([first[0], *[word for word in first[1:] if word.islower()]]) if form else "(no form)"
            forms.setdefault(name, Counter())[status] += number
        known = {" ".join([kinds[0], *[kind for kind in kinds[1:] if kind.islower()]]) for kinds in kinds_of_forms()}
        for name, statuses in sorted(forms.items()):
            yield f"  {name:<14}{sum(statuses.values()):>7}  status {', '.join(f'{status}: {statuses[status]}' for status in sorted(statuses, key=str))}"
        missing = sorted(known - forms.keys())
        yield f"{len(known) - len(missing)} of {len(known)} forms were run" + (f"; not {', '.join(missing)}" if missing else "")


def keep(program, trial, seed, number):
    """Shrinks a trial that differs, writes it, and tells it."""
    print(f"trial {number} of seed {seed} differs; it is being shrunk, for {SHRINKING} seconds at most", flush=True)
    trial, differs = shrunk(program, trial, SHRINKING)
    name = hashlib.sha256(json.dumps(kept.to_json(trial)).encode()).hexdigest()[:8]
    path = FOUND / f"{trial.commands[-1].words[0] if trial.commands[-1].words else 'words'}-{name}.json"
    FOUND.mkdir(exist_ok=True)
    kept.write(path, trial, differs, seed=seed, number=number)
    print(f"{describe_trial(trial, differs)}\n  of {len(trial.commands)} commands and {sum(map(len, trial.files.values()))} bytes of files, in {os.path.relpath(path)}")
    print(f"  again: python3 {os.path.relpath(__file__)} {program} --again {os.path.relpath(path)}")


def fuzz(program, seconds, seed):
    """Runs trials for so many seconds, up to the first that differs."""
    begun, coverage, found, runs = time.monotonic(), Coverage(), None, 0
    with ThreadPoolExecutor(os.cpu_count()) as pool:
        for first in count(0, AT_ONCE):
            trials = [drawn(seed, number) for number in range(first, first + AT_ONCE)]
            for number, (met, differs) in enumerate(pool.map(lambda trial: tried(program, trial), trials), first):
                coverage.add(met)
                found = found if found is not None or not differs else number
            runs = first + AT_ONCE
            if found is not None or time.monotonic() > begun + seconds:
                break
            if sys.stderr.isatty():
                print(f"\r{runs} trials", end="", file=sys.stderr, flush=True)
    if found is not None:
        keep(program, drawn(seed, found), seed, found)
    print("\n".join(coverage.describe_runs()))
    print(f"seed {seed}: {runs} trials in {time.monotonic() - begun:.0f} seconds, {'one of which differs' if found is not None else 'each as the reference says'}")
    return 1 if found is not None else 0


def again(program, path):
    """Runs the trial of a file once more, and tells where it differs."""
    trial = kept.read(Path(path))
    differs = difference(program, trial)
    print(describe_trial(trial, differs) if differs else "each command answers as the reference says")
    return 1 if differs else 0


def main():
    words = reader_of_words(__doc__)
    words.add_argument("program", metavar="PROGRAM")
    words.add_argument("seconds", metavar="SECONDS", type=float, nargs="?", default=60)
    words.add_argument("seed", metavar="SEED", nargs="?", default="1")
    words.add_argument("--again", metavar="FILE")
    asked = words.parse_args()
    program = os.path.abspath(asked.program)
    if not os.access(program, os.X_OK):
        print(f"{program} isn't there: `make build` builds it")
        return 1
    return again(program, asked.again) if asked.again else fuzz(program, asked.seconds, asked.seed)


if __name__ == "__main__":
    run_script(main)
