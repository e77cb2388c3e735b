"""Checks a proof in this process, and says what it claims.

    python3 examples/verify.py PROOF ANCHORS

A proof that carries threads is refused: the service that received one could have made it up.
"""

import sys
from pathlib import Path

sys.path.insert(0, str(Path(__file__).resolve().parent.parent / "bindings/python"))

import timeweave  # noqa: E402


def sentences(report):
    """What an accepted proof says, whatever its kind."""
    for event in report.events:
        yield f"service {event.service} recorded {event.data!r} at step {event.step}"
    for hop in report.hops:
        yield f"service {hop.by} received step {hop.step} of {hop.service} at its step {hop.archived}"
    if report.received:
        thread = report.received.thread
        yield f"service {report.received.service} received step {thread.step} of {thread.service} at its step {report.received.archived}"
    if report.absent:
        yield f"service {report.absent.service} received no step {report.absent.of_step} of {report.absent.of_service} up to its step {report.absent.step}"
    if report.link:
        yield f"step {report.link.thread.step} of {report.link.thread.service} has {report.link.thread.authenticator.hex()}"


def main():
    proof, anchors = (Path(name).read_bytes() for name in sys.argv[1:3])
    try:
        report = timeweave.strict(proof, anchors)
    except timeweave.Rejected as reason:
        print(f"rejected for reason {reason.number}, {reason.name}, fields {reason.fields}")
        return 1
    print("\n".join(sentences(report)))
    return 0


if __name__ == "__main__":
    sys.exit(main())
