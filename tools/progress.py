#!/usr/bin/env python3
"""Shows how far a build or the gate is: how many crates are proved, or cases passed, and the minutes that it took, beside those of the last run here.

    python3 tools/progress.py NAME COMMAND ..     runs the command in this tree; `make test` calls it

All that the command says stands in log/NAME.log, each line behind the seconds since the start. What failed is shown as it comes: the crate with the functions that
aren't proved, an edit that is still proved, a test, a case. The status is that of the command; where that is 0, log/NAME.minutes has how long it took.
"""

import argparse
import os
import queue
import re
import shutil
import subprocess
import sys
import threading
import time
from pathlib import Path
from typing import Callable, List, Optional, Set, TextIO

from command_line import reader_of_words, run_script
from crates import TOP, read_graph

# The most lines of a failed crate that are shown, and columns of each.
SHOWN, WIDTH = 12, 200

PROVED = re.compile(r"rt: (\w+) (?:is kept: |proved$)")
CASES = re.compile(r"cases: (\w+), (part \d+ of \d+), (\d+) passed, \d+ failed$")
FAILED = re.compile(r"rt: .*(?:NOT PROVED|NOT REFUSED|NOT TRIED|BAD EDIT)|rt: \w+(?: \(built by [^)]*\))?: (?:its tests FAILED|the program |what the program |the file )|rt: \w+ was not run|FAILED ")
LACKS = re.compile(r"(?:fn|impl|struct|enum|trait) \S+: (?:not proved|no proof|could not tell)|note: \S+: it is not proved that|\S+:\d+:\d+: error")


class Run:
    """What a run over so many crates has said so far."""

    def __init__(self, crates: int) -> None:
        self.crates, self.part, self.failures = crates, "", 0
        self.proved: Set[str] = set()
        self.said: List[str] = []

    def read(self, line: str) -> List[str]:
        """Takes a line in; answers what of it, and of those before it, is to be shown at once."""
        proved, cases = PROVED.match(line), CASES.match(line)
        if proved:
            self.proved.add(proved[1])
        elif cases:
            self.part = f", {int(cases[3]):,} cases passed, {cases[2]}: {cases[1]}"
        elif line.startswith("== "):
            self.said = []
        elif FAILED.match(line):
            self.failures += 1
            before, self.said = self.said, []
            return [line, *(f"  {it[:WIDTH]}" for it in before if LACKS.match(it))][:SHOWN]
        elif line.startswith("  again: "):
            return [line]
        else:
            self.said.append(line)
        return []

    def describe(self, seconds: float, last: Optional[int]) -> str:
        """How far it is, in words."""
        failed, before = f", {self.failures} failed" * bool(self.failures), f" (the last run took {last})" * (last is not None)
        return f"{len(self.proved)} of {self.crates} crates proved{self.part}{failed}, {seconds / 60:.0f} min{before}"


def read_minutes(name: str) -> Optional[int]:
    """How many minutes the last run of this name took on this machine, where that is known."""
    path = TOP / f"log/{name}.minutes"
    return int(path.read_text()) if path.exists() else None


def show(line: str, is_to_stay: bool = True) -> None:
    """Shows a line on a terminal in the place of one that goes on, or elsewhere; one that is to go on is shown on a terminal alone."""
    if sys.stderr.isatty():
        print(f"\r\x1b[K{line[: shutil.get_terminal_size().columns - 1]}", end="\n" * is_to_stay, file=sys.stderr, flush=True)
    elif is_to_stay:
        print(line, file=sys.stderr, flush=True)


def hand_on(source: TextIO, lines: "queue.Queue[Optional[str]]") -> None:
    """Hands on each line of a command, and then that it has ended."""
    for line in source:
        lines.put(line.rstrip("\n"))
    lines.put(None)


def next_line(lines: "queue.Queue[Optional[str]]") -> Optional[str]:
    """The next line, an empty one where none has come within a second; None at the end."""
    try:
        return lines.get(timeout=1)
    except (queue.Empty, KeyboardInterrupt):
        # (where it is stopped, the command is told so too)
        return ""


def run_watched(words: List[str], folder: Path, name: str, change: Callable[[str], str] = str) -> int:
    """Runs a command in a folder that has crates, shows how far it is, and writes each line, as `change` has it, into a log of this name; answers the status."""
    run, last, began = Run(len(read_graph((folder / "crates.txt").read_text()))), read_minutes(name), time.monotonic()
    log, lines, front = TOP / f"log/{name}.log", queue.Queue(), ""  # type: Path, queue.Queue[Optional[str]], str
    log.parent.mkdir(exist_ok=True)
    show(f"all that it says stands in {os.path.relpath(log)}")
    with open(log, "w") as file, subprocess.Popen(words, cwd=folder, stdout=subprocess.PIPE, stderr=subprocess.STDOUT, text=True, errors="replace") as command:
        threading.Thread(target=hand_on, args=(command.stdout, lines), daemon=True).start()
        while (line := next_line(lines)) is not None:
            if line:
                file.write(f"{time.monotonic() - began:9.1f} {change(line)}\n")
                file.flush()
                for told in run.read(change(line)):
                    show(told)
            before, front = front, run.describe(0, None)
            show(run.describe(time.monotonic() - began, last), is_to_stay=not sys.stderr.isatty() and front != before)
    if command.returncode == 0:
        log.with_suffix(".minutes").write_text(f"{(time.monotonic() - began) / 60:.0f}\n")
    elif not run.failures:
        # (it ended before a crate was proved, or behind the last case)
        for line in run.said[-SHOWN:]:
            show(line[:WIDTH])
    show(f"{run.describe(time.monotonic() - began, None)}; the log is {os.path.relpath(log)}")
    return command.returncode if command.returncode >= 0 else 128 - command.returncode


def main() -> int:
    words = reader_of_words(__doc__)
    words.add_argument("name", metavar="NAME", help="what the log is called")
    words.add_argument("command", nargs=argparse.REMAINDER, metavar="COMMAND", help="what is run, with its words")
    told = words.parse_args()
    return run_watched(told.command, TOP, told.name)


if __name__ == "__main__":
    run_script(main)
