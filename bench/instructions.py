"""The instructions of a run, as valgrind's callgrind counts them, where it is installed; and where they go, function by function.

    python3 bench/instructions.py COMMAND [WORD ..]     prints the functions of the command that take the most, and what one calls how often
"""

import argparse
import os
import re
import shutil
import subprocess
import sys
import tempfile
from functools import lru_cache
from typing import NamedTuple

COMPRESS = "sha2::block256::compress"
HEADINGS = {"fn": "function", "ob": "object", "cfn": "called"}
SHOWN = 25

# An instruction that fills or copies memory, which callgrind counts once for each byte or word.
STRING = re.compile(r"^\s*([0-9a-f]+):\s+rep[a-z]* (?:stos|movs)", re.M)
COST = re.compile(r"(0x[0-9a-f]+) \d+ (\d+)$")


class Counted(NamedTuple):
    """The instructions of a run: of all, of the program's own code without the loader and the C library, inside the compression function of SHA-256, and how often that was
    called. In all of these one that fills or copies memory is counted once for each byte or word; how many these are stands beside them."""

    total: int
    own: int
    inside: int
    blocks: int
    filled: int


class Line(NamedTuple):
    """What a line of the profile says: what an instruction cost, in which object and function; or how often it called another."""

    object: str
    function: str
    place: int
    cost: int
    called: str
    calls: int


def profile(words, folder, text):
    """The lines of callgrind's profile of a run on this input."""
    out = f"{folder}/callgrind"
    command = ["valgrind", "--tool=callgrind", "--dump-instr=yes", "--compress-strings=no", "--compress-pos=no", f"--callgrind-out-file={out}"]
    subprocess.run([*command, *words], input=text, check=True, capture_output=True)
    with open(out) as file:
        yield from file


def read(lines):
    """The costs and calls of a profile."""
    at, calls = dict.fromkeys(HEADINGS.values(), ""), 0
    for line in lines:
        key, _, value = line.rstrip("\n").partition("=")
        cost = COST.match(line)
        if key in HEADINGS:
            at[HEADINGS[key]] = value
        elif key == "calls":
            calls = int(value.split()[0])
        elif cost and calls:
            # (the line after `calls` is what the called function and all below it cost)
            yield Line(at["object"], at["function"], int(cost[1], 16), 0, at["called"], calls)
            calls = 0
        elif cost:
            yield Line(at["object"], at["function"], int(cost[1], 16), int(cost[2]), "", 0)


@lru_cache(maxsize=None)
def fillings(path):
    """The places of the instructions of a program or library that fill or copy memory; none where objdump isn't installed."""
    if not (shutil.which("objdump") and os.path.isfile(path)):
        return frozenset()
    listed = subprocess.run(["objdump", "-d", "--no-show-raw-insn", path], check=True, capture_output=True, text=True).stdout
    return frozenset(int(place, 16) for place in STRING.findall(listed))


def count_instructions(words, folder, text=b""):
    """The instructions of a run on this input; None where valgrind isn't installed, or can't run the program."""
    try:
        return add_up(os.path.realpath(words[0]), profile(words, folder, text))
    except (OSError, subprocess.CalledProcessError) as failure:
        print(f"instructions weren't counted: {failure}"[:200], file=sys.stderr)
        return None


def add_up(program, lines):
    """The instructions of a profile."""
    total = own = inside = blocks = filled = 0
    for line in read(lines):
        total += line.cost
        own += line.cost if line.object == program else 0
        inside += line.cost if COMPRESS in line.function else 0
        blocks += line.calls if COMPRESS in line.called else 0
        filled += line.cost if line.cost and line.place in fillings(line.object) else 0
    return Counted(total, own, inside, blocks, filled)


def functions(words, folder, text=b""):
    """The functions of a run, each with its instructions, those among them that fill or copy memory, and how often it was called; the dearest first."""
    costs, fills, calls = {}, {}, {}
    for line in read(profile(words, folder, text)):
        costs[line.function] = costs.get(line.function, 0) + line.cost
        if line.cost and line.place in fillings(line.object):
            fills[line.function] = fills.get(line.function, 0) + line.cost
        if line.calls:
            calls[line.called] = calls.get(line.called, 0) + line.calls
    return [(cost, fills.get(name, 0), calls.get(name, 0), name) for name, cost in sorted(costs.items(), key=lambda pair: -pair[1])]


def main():
    """Prints the functions of a command."""
    words = argparse.ArgumentParser(description=__doc__, formatter_class=argparse.RawDescriptionHelpFormatter)
    words.add_argument("command", metavar="COMMAND", help="the command")
    words.add_argument("words", nargs=argparse.REMAINDER, metavar="WORD", help="its words")
    told = words.parse_args()
    with tempfile.TemporaryDirectory() as folder:
        found = functions([os.path.realpath(shutil.which(told.command) or told.command), *told.words], folder)
    total, filled = sum(cost for cost, *_ in found), sum(fill for _, fill, *_ in found)
    print(f"{total:,} in all, {filled:,} of them to fill or copy memory")
    for cost, fill, calls, name in found[:SHOWN]:
        print(f"{cost:14,} {cost / total:6.1%}  {fill:12,} fill or copy  {calls:10,} calls  {name}")


if __name__ == "__main__":
    main()
