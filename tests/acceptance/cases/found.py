"""Cases that the fuzzer found once: the trials of cases/found/, each as the reference says now. harness/kept.py tells their form."""

from functools import partial

from harness import kept
from harness.places import FOUND
from harness.rooms import Wrong, case
from harness.trials import describe_trial, difference


def as_now(path, room):
    """The trial of a file."""
    trial = kept.read(path)
    differs = difference(room.program, trial)
    if differs:
        raise Wrong(describe_trial(trial, differs))


def cases():
    for path in sorted(FOUND.glob("*.json")):
        yield {**case(partial(as_now, path)), "name": f"found: {path.stem}"}
