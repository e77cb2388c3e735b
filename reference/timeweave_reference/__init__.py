"""Timeweave's formats and judgements once more, in plain Python over hashlib, written from docs/definitions.md and docs/formats.md; what
services refuse, and the words and texts of commands, from docs/operating.md and the manual page, docs/timeweave.1.

It is tested against the proved program, on tens of thousands of cases, and is itself not proved. With it proofs are judged without the
program, and in years when nothing else of Timeweave runs:

    from timeweave_reference import strict

    answer = strict(proof, anchors)         # bytes of both files
    print(answer.status, answer.text)       # 0 b'accepted exists\\nevent shop 1 0 6d696c6b\\n'

Each function takes the bytes of files and gives the status and the text with which the command of the same name answers. Each format has
a module with its reader, which raises `Malformed` where the bytes are not of the format; docs/formats.md tells the formats, and this
package's README which module has which.
"""

from __future__ import annotations

from typing import Dict, Sequence

from .answers import Answer
from .fields import Malformed

__all__ = ["Answer", "Malformed", "adopt", "audit", "checkfork", "checkmap", "contradict", "receiver", "show", "strict", "verify"]


def _answer(words: Sequence[str], files: Dict[str, bytes]) -> Answer:
    """What a command answers. (What judges is loaded where it is asked: who reads a format alone loads that.)"""
    from . import commands

    return commands.answer(words, files)


def verify(proof: bytes, anchors: bytes) -> Answer:
    """Judges a proof under the lines of an anchors file; carried threads are accepted, and told.

    Status 0 with the report, 1 with the reason, or 9 where the lines are none; they are told as those of the file `anchors`.
    """
    return _answer(["verify", "proof", "anchors"], {"proof": proof, "anchors": anchors})


def strict(proof: bytes, anchors: bytes) -> Answer:
    """The same, but refuses carried threads."""
    return _answer(["strict", "proof", "anchors"], {"proof": proof, "anchors": anchors})


def checkmap(low: bytes, high: bytes, anchors: bytes) -> Answer:
    """Bounds a step of a service by steps of another one. In texts the files are `low`, `high` and `anchors`."""
    return _answer(["checkmap", "low", "high", "anchors"], {"low": low, "high": high, "anchors": anchors})


def checkfork(evidence: bytes, anchors: bytes) -> Answer:
    """Judges evidence that no history of a service has both of two threads."""
    return _answer(["checkfork", "evidence", "anchors"], {"evidence": evidence, "anchors": anchors})


def contradict(first: bytes, first_anchors: bytes, second: bytes, second_anchors: bytes, link: bytes = b"") -> Answer:
    """Tells whether two files, each judged under its own lines, show that a service broke a rule of histories, and which; the link leads from the
    later line of the service down to the earlier one, or has no bytes. In texts the lines are `first_anchors` and `second_anchors`. The program has
    no such command."""
    from . import contradictions

    return contradictions.contradict(first, first_anchors, second, second_anchors, link)


def receiver(evidence: bytes, anchors: bytes, link: bytes = b"") -> Answer:
    """Tells the same of both proofs of evidence of a fork, under one list of lines: whether one service that received both threads broke a rule
    by it. In texts the lines are `anchors`. The program has no such command."""
    from . import contradictions

    return contradictions.receiver(evidence, anchors, link)


def audit(proof: bytes, anchors: bytes, histories: Sequence[bytes]) -> Answer:
    """Holds an accepted proof against whole histories, 1 to 64 of them. In texts they are `history1`, `history2` and so on."""
    files = {f"history{number}": data for number, data in enumerate(histories, 1)}
    return _answer(["audit", "proof", "anchors", *files], {"proof": proof, "anchors": anchors, **files})


def adopt(history: bytes, anchors: bytes, proofs: Sequence[bytes]) -> Answer:
    """Takes a lost service's history over as far as proofs of others, 1 to 64, show it received: its first steps, as a history file."""
    files = {f"proof{number}": data for number, data in enumerate(proofs, 1)}
    return _answer(["adopt", "history", "anchors", *files], {"history": history, "anchors": anchors, **files})


def show(history: bytes, step: int, index: int) -> Answer:
    """The proof of an event of a history's file, by its step, from 1, and its index there, from 0, under the history's last step."""
    return _answer(["show", "history", str(step), str(index)], {"history": history})
