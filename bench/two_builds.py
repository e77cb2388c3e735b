#!/usr/bin/env python3
"""Holds two builds of the program against each other: what each command tells, the system calls that it makes, in their order, and its instructions, over the same
stores and files.

    python3 bench/two_builds.py BEFORE AFTER TABLE [--steps N ..] [--most PERCENT] [--only COMMAND ..] [--write WHAT]

Stores have so many steps (1,000 and 10,000); BEFORE makes the files. It needs strace and valgrind. Status 1: a command tells something else, makes other calls, or takes
more than PERCENT (1) more instructions, and is printed; `python3 bench/instructions.py COMMAND ..` tells by which functions."""

import argparse
import os
import re
import shutil
import subprocess
import sys
import tempfile
from pathlib import Path
from typing import NamedTuple

HERE = Path(__file__).resolve().parent
TOP = HERE.parent
sys.path[:0] = [str(TOP / "reference"), str(TOP / "tools")]

import example_files  # noqa: E402
import measuring  # noqa: E402
from calls import BEGINNING  # noqa: E402

from timeweave_reference.events_files import events_to_bytes  # noqa: E402
from timeweave_reference.fields import big_endian as be  # noqa: E402
from timeweave_reference.services import service_of  # noqa: E402

STEPS = (1_000, 10_000)
MOST = 1.0
SAME = "the same"

# The commands whose figures are written, besides those that grew.
TOLD = ("append a events", "receive b message", "prove a event 1 0", "verify chain lines", "export a")

# The commands, in words in which N is the last step of the stores, M the one before, and P and Q the next ones; those behind + write.
COMMANDS = (
    "+init new new", "+append a events", "+append a events 4000000000", "+receive b message", "+watch new a", "+offer followed message",
    "prove a event 1 0", "prove a event N 0", "prove a link 1", "prove b2 thread P a N", "prove b2 absent 1 a 1", "map b2 low P a", "map a2 high P b", "export a",
    "show a.history 1 0", "thread a 0", "thread a M", "heads followed", "verify event a2.line", "verify link a2.line", "verify thread b2.line", "verify absent b2.line",
    "verify chain lines", "strict chain lines", "join later thread link old", "audit chain lines b2.history a2.history", "adopt a2.history lines thread", "checkmap low high lines",
    "atlas a 1 receipt receipt2", "accuse fork/first fork/second fork/link", "checkfork fork/evidence fork/lines", "replay script", "generate 7 20",
    "verify event wrong.line", "verify nothing a2.line", "+append nothing events", "+append a nothing", "+receive a message", "prove a event N 9", "+init a a", "show a.history 1 9",
    "heads a", "verify event", "heads nothing",
)  # fmt: skip

# What the files of a room are made by, in this order; behind + the name of the file.
MADE = (
    "thread early 0+first.message", "thread a M+message", "watch followed a+told", "offer followed first.message+told", "receive b first.message+receipt",
    "receive b2 first.message+told", "receive b2 message+receipt2", "append b2 events+b2.line", "thread b2 0+reply", "receive a2 reply+told", "append a2 events+a2.line",
    "export a+a.history", "export a2+a2.history", "export b2+b2.history", "prove a2 event 1 0+event", "prove a2 event 1 0 N+old", "prove a2 link 1+link1", "prove a2 link N+link", "prove b2 thread P a N+thread",
    "prove b2 absent 1 a 1+absent", "prove b2 event Q 0+later", "map b2 low P a+low", "map a2 high P b+high", "join later thread link old+chain",
    "accuse fork/first fork/second fork/link+fork/evidence",
)  # fmt: skip

# What differs from run to run: addresses, and numbers that the C library draws.
DRAWN = re.compile(r"0x[0-9a-f]+|(?<=getrandom\()\".*?\"")


class Seen(NamedTuple):
    """What was seen of a run: its status, what it told, its system calls, and the files that it left."""

    status: int
    told: bytes
    calls: list[str]
    left: dict[str, bytes]


class Room:
    """A folder with services of so many steps, and files of theirs, which is put back before each run that writes."""

    def __init__(self, folder, program, steps):
        self.kept, self.folder, self.program, self.steps = Path(folder) / "kept", Path(folder) / "room", program, steps
        self.names = {"N": str(steps), "M": str(steps - 1), "P": str(steps + 1), "Q": str(steps + 2)}
        events = [[be(step, 8)] for step in range(1, steps + 1)]
        for name, service, count in (("a", "a", steps), ("a2", "a", steps), ("early", "a", steps - 1), ("b", "b", steps - 1), ("b2", "b", steps - 1)):
            self.put(f"{name}/timeline.tw", service_of(service, events[:count]).file())
        self.put("new/other", b"")
        self.put("followed/other", b"")
        self.put("events", events_to_bytes([b"bench"]))
        self.put("script", (TOP / "examples/world_script").read_bytes())
        for name, data in example_files.fork_evidence().items():
            self.put(f"fork/{name}", data)
        for made in MADE:
            words, _, name = made.partition("+")
            self.put(name, subprocess.run([program, *self.words(words)], cwd=self.kept, check=True, stdout=subprocess.PIPE).stdout)
        self.put("lines", (self.kept / "a2.line").read_bytes() + (self.kept / "b2.line").read_bytes())
        self.put("wrong.line", f"a {steps + 1} {'ab' * 32}\n".encode())
        self.put_back()

    def put(self, name, data):
        """A file of these bytes."""
        (self.kept / name).parent.mkdir(parents=True, exist_ok=True)
        (self.kept / name).write_bytes(data)

    def words(self, command):
        """The words of a command."""
        return [self.names.get(word, word) for word in command.removeprefix("+").split()]

    def put_back(self):
        """The room as it was."""
        shutil.rmtree(self.folder, ignore_errors=True)
        shutil.copytree(self.kept, self.folder)
        os.sync()

    def seen(self, program, command):
        """A run of a command, traced."""
        log = f"{self.folder}.strace"
        done = subprocess.run(["strace", "-o", log, program, *self.words(command)], cwd=self.folder, stdout=subprocess.PIPE, check=False)
        lines = [DRAWN.sub("..", line) for line in Path(log).read_text().splitlines()]
        begun = next((place for place, line in enumerate(lines) if line.startswith(BEGINNING)), 0)
        left = {path.name: path.read_bytes() for path in self.folder.glob("*/timeline.tw")} if command.startswith("+") else {}
        if command.startswith("+"):
            self.put_back()
        return Seen(done.returncode, done.stdout, lines[begun:], left)

    def instructions(self, program, command):
        """The instructions of a run of a command, those of the loader and the C library too, which are the same of both programs."""
        out = f"{self.folder}.callgrind"
        words = ["valgrind", "--tool=callgrind", f"--callgrind-out-file={out}", program, *self.words(command)]
        subprocess.run(words, cwd=self.folder, check=True, capture_output=True)
        if command.startswith("+"):
            self.put_back()
        return int(re.search(r"^(?:summary|totals): (\d+)", Path(out).read_text(), re.M)[1])


def differences(one, other):
    """In what two runs differ, apart from instructions."""
    yield from [f"status {one.status}, then {other.status}"] if one.status != other.status else []
    yield from ["it tells something else"] if one.told != other.told else []
    yield from ["it leaves another store"] if one.left != other.left else []
    if one.calls != other.calls:
        place = next((it for it, pair in enumerate(zip(one.calls, other.calls)) if pair[0] != pair[1]), min(len(one.calls), len(other.calls)))
        yield f"{len(one.calls)} calls, then {len(other.calls)}; first: {one.calls[place : place + 1]}, then {other.calls[place : place + 1]}"


class Row(NamedTuple):
    """A command beside itself: steps, words, status, how many system calls, what differs, and both instructions, which are 0 where it ended with another status than 0."""

    steps: int
    command: str
    status: int
    calls: int
    differs: str
    before: int
    after: int

    @property
    def more(self):
        """How many percent more instructions it takes."""
        return 100 * (self.after - self.before) / self.before if self.before else 0.0

    @property
    def line(self):
        """As a line of the table."""
        return f"| {self.steps} | `{self.command}` | {self.status} | {self.calls} | {self.differs} | {self.before} | {self.after} | {self.more:+.2f} % |"


def read_row(line):
    """The row of a line of the table."""
    steps, command, status, calls, differs, before, after, _ = (it.strip() for it in line.strip(" |\n").split("|"))
    return Row(int(steps), command.strip("`"), int(status), int(calls), differs, int(before), int(after))


def read_table(path):
    """The rows of a table that was begun."""
    return [read_row(line) for line in path.read_text().splitlines()] if path.exists() else []


def compared(room, programs, command):
    """The row of a command."""
    first, second = (room.seen(program, command) for program in programs)
    counts = [0, 0] if first.status or second.status else [room.instructions(program, command) for program in programs]
    return Row(room.steps, command.removeprefix("+"), first.status, len(first.calls), "; ".join(differences(first, second)).replace("|", "/") or SAME, *counts)


def all_rows(options, held):
    """The rows of all commands; those that are held already aren't measured again."""
    for steps in options.steps:
        wanted = [it for it in COMMANDS if not options.only or it.removeprefix("+").split()[0] in options.only]
        with tempfile.TemporaryDirectory(prefix="two_builds_") as folder:
            room = None
            for command in wanted:
                row = next((it for it in held if (it.steps, it.command) == (steps, command.removeprefix("+"))), None)
                room = room or (Room(folder, options.before, steps) if row is None else None)
                yield row or compared(room, (options.before, options.after), command)


def write_results(what, rows, most):
    """Writes the part of bench/results.json."""
    counted, same = [it for it in rows if it.before], sum(it.differs == SAME for it in rows)
    columns = ("steps", "command", "system calls", "instructions before", "after")
    told = [dict(zip(columns, (it.steps, f"`{it.command}`", it.calls, it.before, it.after))) for it in counted if it.command in TOLD or it.more > most]
    changed = {"least": round(min(it.more for it in counted), 2), "most": round(max(it.more for it in counted), 2)}
    values = {"what": what, "steps": " and ".join(f"{it:,}" for it in sorted({it.steps for it in rows})), "runs": len(rows), "same": same, **changed}
    found = {"tables": {"runs": measuring.table(dict.fromkeys(columns, 0), told)}, "values": values}
    measuring.write_part("two_builds", {**measuring.describe_run("bench/two_builds.py BEFORE AFTER TABLE --write WHAT", tempfile.gettempdir(), measuring.load()), **found})


def read_words():
    """The words of the command line."""
    words = argparse.ArgumentParser(description=__doc__, formatter_class=argparse.RawDescriptionHelpFormatter)
    words.add_argument("before", metavar="BEFORE", type=os.path.abspath)
    words.add_argument("after", metavar="AFTER", type=os.path.abspath)
    words.add_argument("table", metavar="TABLE", type=Path, help="the rows; those that stand there already aren't measured again")
    words.add_argument("--steps", metavar="N", type=int, nargs="+", default=STEPS)
    words.add_argument("--most", metavar="PERCENT", type=float, default=MOST)
    words.add_argument("--only", metavar="COMMAND", nargs="+", default=[])
    words.add_argument("--write", metavar="WHAT", help="writes a part of bench/results.json, which says what both builds are in these words")
    return words.parse_args()


def main():
    """Compares, and tells what differs."""
    options = read_words()
    held = read_table(options.table)
    for row in all_rows(options, held):
        if row not in held:
            with open(options.table, "a") as file:
                file.write(f"{row.line}\n")
    rows = read_table(options.table)
    wrong = [row for row in rows if row.differs != SAME or row.more > options.most]
    print("\n".join([*(row.line for row in wrong), f"{len(rows)} runs, {len(wrong)} of them not as before"]))
    if options.write:
        write_results(options.write, rows, options.most)
    return 1 if wrong else 0


if __name__ == "__main__":
    sys.exit(main())
