"""What a build and the gate show of how far they are is what they said: gate.log is a recorded gate over three crates, of which one isn't proved, one edit is
still proved and one case fails."""

from pathlib import Path

import progress
from harness.rooms import checked

RECORDED = Path(__file__).with_name("gate.log").read_text()

# What is shown by the end of these seconds.
FRONTS = {
    39.0: "0 of 3 crates proved, 1 min (the last run took 4)",
    40.1: "1 of 3 crates proved, 1 min (the last run took 4)",
    77.9: "2 of 3 crates proved, 1 min (the last run took 4)",
    85.4: "2 of 3 crates proved, 1 failed, 1 min (the last run took 4)",
    127.1: "2 of 3 crates proved, 2 failed, 2 min (the last run took 4)",
    150.0: "2 of 3 crates proved, 1,203 cases passed, part 15 of 44: exported, 3 failed, 2 min (the last run took 4)",
    171.0: "2 of 3 crates proved, 4,011 cases passed, part 43 of 44: web, 3 failed, 3 min (the last run took 4)",
}

SHOWN = [
    "rt: high NOT PROVED",
    "  note: src/lib.rt:9:1: it is not proved that what the function ensures holds when it returns",
    "  fn high::seven: no proof",
    "rt: must-fail low/still.edit: NOT REFUSED: the crate is still proved with this edit",
    "FAILED exported/a history of one step",
    "  again: python3 tests/acceptance/run.py bin/timeweave -k '=exported/a history of one step'",
]


def lines_recorded():
    """The recorded lines, each with the seconds at which it came."""
    return [(float(line[:9]), line[10:]) for line in RECORDED.splitlines()]


def compare_fronts(program):
    """How far it is, from line to line."""
    run, wrong, lines = progress.Run(3), [], lines_recorded()
    for number, (seconds, line) in enumerate(lines):
        run.read(line)
        is_last = number + 1 == len(lines) or lines[number + 1][0] > seconds
        told = run.describe(seconds, 4)
        if is_last and told != FRONTS.get(seconds, told):
            wrong.append(f"  after {seconds} s wanted {FRONTS[seconds]!r}\n  got {told!r}")
    return "\n".join(wrong) or None


def compare_shown(program):
    """What failed is shown at once: a crate with why it isn't proved, an edit, a case with the command that runs it again; and nothing else is."""
    run = progress.Run(3)
    told = [shown for _, line in lines_recorded() for shown in run.read(line)]
    return None if len(told) == len(SHOWN) and all(map(str.startswith, told, SHOWN)) else f"  got {told}"


def count_kept(program):
    """What an earlier run proved counts as proved; a crate's tests count for nothing."""
    run = progress.Run(3)
    for line in ("rt: low is kept: an earlier run on this machine proved the same files over the same libraries", "rt: side proved", "rt: side: its tests are proved"):
        run.read(line)
    return None if run.describe(0, None) == "2 of 3 crates proved, 0 min" else f"  got {run.describe(0, None)}"


def cases():
    checks = {"how far a gate is": compare_fronts, "what is shown of it": compare_shown, "what was proved before": count_kept}
    yield from checked("progress", checks)
