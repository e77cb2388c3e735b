"""Acceptance cases of refused memory: of runs of each command each allocation is refused in turn, by refused_memory.c, which is preloaded. The run then ends
as it would have, or with status 6, and of a service's store nothing was written."""

import os
import random
import subprocess
from functools import partial
from pathlib import Path

from harness.drawn import KINDS, a_session
from harness.places import HARNESS, LONGEST
from harness.rooms import Wrong, case, needs
from harness.trials import Answer, Difference, describe_trial, ran, wanted

# The most allocations of a run that are refused, evenly among all.
MOST = 40


def with_refused(room, trial, shim, call):
    """What the program answers where this allocation is refused, 0 for none, and how many it asked for."""
    count = Path(room.folder) / "count"
    environment = {**os.environ, "LD_PRELOAD": shim, "REFUSED_CALL": str(call), "REFUSED_COUNT": str(count)}
    return next(ran(room.program, trial, env=environment)), int(count.read_text())


def refused_memory(kind, room):
    """Refuses each allocation of some good runs of a kind."""
    compiler, shim = needs("cc", "gcc"), str(room.folder / "refused_memory.so")
    subprocess.run([compiler, "-shared", "-fPIC", "-O1", "-o", shim, HARNESS / "refused_memory.c"], check=True, timeout=LONGEST)
    for seed in range(3):
        trial = kind(random.Random(f"refused {seed}"))
        said = next(wanted(trial))
        without = Answer(6, b"no memory\n", trial.image("d") if said.store is not None else b"")
        found, count = with_refused(room, trial, shim, 0)
        calls = range(1, count + 1, 1 + count // MOST) if said.allows(found) else ()
        if not calls:
            raise Wrong(describe_trial(trial, Difference(1, said, found)))
        for call in calls:
            found, _ = with_refused(room, trial, shim, call)
            if found != without and not said.allows(found):
                raise Wrong(f"{describe_trial(trial, Difference(1, said, found))}\n  where allocation {call} of {count} was refused")


def cases():
    for kind in dict.fromkeys(KINDS):
        if kind is not a_session:
            yield {**case(partial(refused_memory, kind)), "name": f"refused memory: {kind.__name__}"}
