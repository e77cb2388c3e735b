"""How long a run waits for another one that is at work."""

from __future__ import annotations

import argparse

WAIT = 30


def seconds(text: str) -> float:
    """A number of seconds, 0 at least; raises ValueError of what is none, as of `nan`, behind which no moment comes."""
    found = float(text)
    if not found >= 0:
        raise ValueError
    return found


def add_wait(parser: argparse.ArgumentParser) -> None:
    """The word that says it."""
    parser.add_argument("--wait", metavar="SECONDS", type=seconds, default=WAIT, help=f"waits so long for another run that is at work (else {WAIT})")
