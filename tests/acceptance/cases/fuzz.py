"""Cases of trials drawn by chance, each as the reference says; `make fuzz` runs more of them."""

from functools import partial

from harness.drawn import drawn
from harness.rooms import Wrong, case
from harness.trials import describe_trial, difference

# So many cases of so many trials.
CASES, CASE_RUNS, CASE_SEED = 4, 500, "acceptance"


def by_chance(first, room):
    """Trials from this number on."""
    for number in range(first, first + CASE_RUNS):
        trial = drawn(CASE_SEED, number)
        differs = difference(room.program, trial)
        if differs:
            raise Wrong(f"  trial {number}; `make fuzz SEED={CASE_SEED}` shrinks it, and writes it into a file\n{describe_trial(trial, differs)}")


def cases():
    for first in range(0, CASES * CASE_RUNS, CASE_RUNS):
        yield {**case(partial(by_chance, first)), "name": f"fuzz: {CASE_RUNS} runs by chance, from {first} on"}
