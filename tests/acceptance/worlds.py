#!/usr/bin/env python3
"""Shows that the list of rules that two files show broken is whole, over all sound histories of a few steps; it needs no built program.

    python3 tests/acceptance/worlds.py [STEPS]      of at most 4 steps if it isn't said, as the acceptance run does

All sound histories of two services are made over a small alphabet, and what files can say of such a service: proofs that a thread was received or that none was,
map files, openings, and lines of two histories (harness/small_worlds.py). Of each pair that no sound history has, a rule of the reference must be broken, and of no
other pair. What else a history can break is named in harness/elsewhere.py. It tells how many histories and pairs there were, how many pairs each rule alone tells, and
the first pairs that are told wrongly. Five steps are a million histories, and take some minutes.
"""

from harness.small_worlds import SERVICES, Files, Worlds, tallied, told_of_two

from command_line import reader_of_words, run_script
from timeweave_reference.broken_rules import RULES

# How many pairs that are told wrongly are shown.
SHOWN = 3


def describe_tally(service, worlds, tally):
    """What is told of the pairs of one service."""
    yield f"{service}: {worlds.number} sound histories of up to {worlds.most} steps; {tally.pairs} pairs of files, of which no sound history has {tally.unsound}"
    yield from (f"  {tally.alone[number]:>7} by rule {number} {rule.word} alone" for number, rule in enumerate(RULES, 1))
    yield f"  {len(tally.wrong)} told wrongly"
    yield from (f"  {broken or 'no rule'}\n    {one}\n    {other}" for one, other, broken in tally.wrong[:SHOWN])


def main():
    words = reader_of_words(__doc__)
    words.add_argument("steps", metavar="STEPS", type=int, nargs="?", default=4)
    asked = words.parse_args()
    kinds, wrong = [], 0
    for service in SERVICES:
        worlds = Worlds(service, asked.steps)
        kinds.append(Files(worlds))
        tally = tallied(kinds[-1])
        print("\n".join(describe_tally(service, worlds, tally)), flush=True)
        wrong += len(tally.wrong)
    mixed = told_of_two(*kinds)
    print(f"of files of two services {mixed} pairs are told as broken rules")
    return 1 if wrong or mixed else 0


if __name__ == "__main__":
    run_script(main)
