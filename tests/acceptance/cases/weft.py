"""Cases of weft, the companion of the program; those of each subject stand in the modules weft_backups, weft_bundles, weft_clerk, weft_deciding, weft_keys, weft_lines, weft_judging, weft_liars,
weft_misled, weft_readers, weft_logs, weft_parts, weft_exchange, weft_signed, weft_peers, weft_files, weft_network, weft_search, weft_stamps, weft_standing, weft_stores, weft_texts and weft_words.

Each run of weft is forked from the process that has loaded it, with faults put in where a case wants them. So the acceptance run, which has threads,
runs each of these cases in a process of its own (weft_cases.py)."""

import subprocess
import sys

from cases import (
    weft_backups, weft_bundles, weft_clerk, weft_deciding, weft_exchange, weft_files, weft_judging, weft_keys, weft_liars, weft_lines, weft_logs, weft_misled, weft_network, weft_parts,
    weft_peers, weft_readers, weft_recording, weft_roads, weft_search, weft_signed, weft_stamps, weft_standing, weft_stores, weft_texts, weft_words,
)  # fmt: skip
from harness.places import ACCEPTANCE
from harness.rooms import SKIPPED

MODULES = (
    weft_bundles, weft_clerk, weft_deciding, weft_lines, weft_judging, weft_liars, weft_misled, weft_readers, weft_logs, weft_parts, weft_exchange, weft_signed, weft_peers, weft_files, weft_network, weft_recording,
    weft_roads, weft_search, weft_stamps, weft_standing, weft_stores, weft_texts, weft_words, weft_backups, weft_keys,
)  # fmt: skip
MOST_SECONDS = 1800


def own_cases():
    """All cases, to be run in this process."""
    return [it for module in MODULES for it in module.cases()]


def apart(name):
    """The case of this name, run in a process of its own."""

    def check(program):
        words = [sys.executable, ACCEPTANCE / "weft_cases.py", program, f"={name}"]
        try:
            done = subprocess.run(words, capture_output=True, text=True, timeout=MOST_SECONDS)
        except subprocess.TimeoutExpired:
            return f"  it ran for longer than {MOST_SECONDS} seconds"
        SKIPPED.extend(line.removeprefix("skipped ") for line in done.stdout.splitlines() if line.startswith("skipped "))
        return None if done.returncode == 0 else f"{done.stdout[-3000:]}{done.stderr[-3000:]}"

    return {"name": name, "check": check}


def cases():
    """All cases, each in a process of its own."""
    return [apart(it["name"]) for it in own_cases()]
