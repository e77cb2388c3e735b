"""The words of the command line: its forms, and which words are one.

The manual page of `timeweave`, docs/timeweave.1, tells what each form does.
"""

from __future__ import annotations

import re
from typing import Dict, List, Sequence, Tuple

from .fields import LAST_STEP, LAST_TIME, NAME
from .receipts import MOST_FILES

FORMS = (
    "verify PROOF NAME POS HEX",
    "verify PROOF ANCHORS",
    "strict PROOF ANCHORS",
    "join FILE FILE ..",
    "show HISTORY STEP INDEX",
    "checkmap LOW HIGH ANCHORS",
    "audit PROOF ANCHORS HISTORY ..",
    "adopt HISTORY ANCHORS PROOF ..",
    "accuse PROOF PROOF [LINK]",
    "checkfork FILE ANCHORS",
    "atlas NAME POS FILE ..",
    "init DIR NAME",
    "append DIR FILE [TIME]",
    "prove DIR event STEP INDEX [TOP]",
    "prove DIR thread STEP PEER K [TOP]",
    "prove DIR absent STEP PEER K [TOP]",
    "prove DIR link STEP [TOP]",
    "map DIR low STEP PEER [TOP]",
    "map DIR high POS PEER [TOP]",
    "export DIR",
    "thread DIR SINCE",
    "receive DIR FILE [TIME]",
    "watch DIR NAME",
    "offer DIR FILE",
    "heads DIR",
    "replay FILE",
    "generate NUMBER STEPS",
)
"""The forms. A word in small letters stands for itself, one in capitals for a word of this kind; one in brackets may be left out; `..`
stands for more words of the kind before it."""

FILES = {"PROOF", "ANCHORS", "FILE", "HISTORY", "LINK", "LOW", "HIGH"}
"""The kinds of words that name a file."""

FOLDER = "DIR"
"""The kind of a word that names a folder."""

NUMBERS: Dict[str, Tuple[int, int]] = {"POS": (1, LAST_STEP), "K": (1, LAST_STEP), "TIME": (0, LAST_TIME), "STEPS": (1, 10_000)}
"""The least and the greatest number of a kind; of the others it is from 0 to 2^64 - 1."""

_HEX = re.compile("[0-9a-fA-F]{64}")
_NUMBER = re.compile("0|[1-9][0-9]{0,19}")
_NOT_UTF8 = re.compile("[\ud800-\udfff]")


def kinds_of_forms() -> List[List[str]]:
    """The kinds of the words of each form, those with a word in brackets once without it and once with it."""
    found = []
    for form in FORMS:
        needed, _, optional = form.partition("[")
        found.append(needed.split())
        if optional:
            found.append([*needed.split(), optional.rstrip("]")])
    return found


def fits(word: str, kind: str) -> bool:
    """Whether the word is one of this kind. A byte of the word that is of no UTF-8 stands in it as `os.fsdecode` gives it."""
    if kind in FILES or kind == FOLDER:
        return word != "" and not _NOT_UTF8.search(word)
    if kind in ("NAME", "PEER"):
        return NAME.fullmatch(word) is not None
    if kind == "HEX":
        return _HEX.fullmatch(word) is not None
    if kind.isupper():
        least, most = NUMBERS.get(kind, (0, 2**64 - 1))
        return _NUMBER.fullmatch(word) is not None and least <= int(word) <= most
    return word == kind


def kinds_of(words: Sequence[str]) -> List[str] | int:
    """The kinds of the words of a form; or the number of the first word, from 1, at which no form goes on."""
    furthest = 0
    for kinds in kinds_of_forms():
        if kinds[-1] == "..":
            more = len(words) - len(kinds) + 1
            kinds = kinds[:-1] + [kinds[-2]] * (more if kinds[0] == "join" else min(more, MOST_FILES - 1))
        bad = [place for place, (word, kind) in enumerate(zip(words, kinds)) if not fits(word, kind)]
        at = bad[0] if bad else min(len(words), len(kinds))
        if not bad and len(words) == len(kinds):
            return kinds
        furthest = max(furthest, at)
    return furthest + 1
