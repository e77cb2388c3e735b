"""Checks whether two files show that a service broke a rule, and says which.

    python3 examples/broken_rule.py FIRST LINES SECOND LINES [LINK]

The files are proofs that a service received a thread or that it didn't, or map files, each with the lines under which it is accepted; a link
is a proof of the authenticator of an earlier step of the service.
"""

import sys
from pathlib import Path

sys.path.insert(0, str(Path(__file__).resolve().parent.parent / "bindings/python"))

import timeweave  # noqa: E402


NOTED = {"line": "the line has the authenticator", "before": "the step behind goes on from the authenticator", "root": "the root of the events is"}


def words_of(shown):
    """What a file says that shows a rule broken, in words."""
    if isinstance(shown, timeweave.Received):
        thread = shown.thread
        of = f"step {thread.step} of {thread.service}, {thread.authenticator.hex()}"
        return f"the archive of its step {shown.step} has {of}, received by step {shown.archived}"
    if isinstance(shown, timeweave.Absent):
        return f"up to its step {shown.step} it received no step {shown.of_step} of {shown.of_service}"
    if isinstance(shown, timeweave.ShownStep):
        time = "no time" if shown.time is None else f"time {shown.time}"
        return f"its step {shown.step} has {shown.count} events and {time}, and the authenticator {shown.authenticator.hex()}"
    return f"of its step {shown.step}, {NOTED[shown.what]} {shown.digest.hex()}" if isinstance(shown, timeweave.Noted) else shown


def sentences(found):
    """Which rule two files show broken, and what they say."""
    yield f"of service {found.service} they say:"
    yield from (f"  {words_of(shown)}" for shown in found.said)
    yield f"rule {found.number}, {found.rule}, is broken by that"
    yield "so it broke a rule" if found.is_joined else "so it broke a rule, or showed two histories"


def main():
    try:
        print("\n".join(sentences(timeweave.contradict(*(Path(name).read_bytes() for name in sys.argv[1:])))))
    except timeweave.Rejected as reason:
        print(f"no contradiction: {reason}")
        return 1
    return 0


if __name__ == "__main__":
    sys.exit(main())
