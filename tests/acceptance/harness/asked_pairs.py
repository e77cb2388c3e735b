"""What the library and the reference answer to a pair of files, or to evidence that one service received, and pairs that once differed."""

import json
from pathlib import Path

import timeweave

import timeweave_reference
from harness.drawn_pairs import Pair
from harness.library import row_difference
from harness.places import CASES

FOUND_PAIRS = CASES / "found_pairs"


def wanted(pair):
    """The status and the text of the reference."""
    return tuple(getattr(timeweave_reference, pair.function)(*pair.parts))


def row_of_pair(pair):
    """What the library is asked of a pair, and what it has to answer; the forms' letters are the first ones of their functions."""
    status, text = wanted(pair)
    return pair.function[0], status, pair.parts, text


def difference(pair):
    """What the library answers else than the reference, or what the module for Python makes of it else, or None."""
    return row_difference(row_of_pair(pair))


def names_innocent(recipe, pair):
    """Whether the reference says of files of a history that keeps the rules that it broke one."""
    return recipe.is_sound and wanted(pair)[0] == timeweave.ACCEPTED


def head(pair):
    """What a pair is told, in short: the function, the first words, and the rule."""
    status, text = wanted(pair)
    first, *others = text.decode().split("\n")
    rule = others[0] if others[0].startswith("rule ") else "rule 1 Denied" if status == timeweave.ACCEPTED else ""
    words = first.split(" ")
    return " ".join(filter(None, (pair.function, *words[: 2 if status == timeweave.ACCEPTED else 3], rule)))


def can_ask():
    """Whether the library has both functions."""
    return all(timeweave.library().has(f"timeweave_{function}") for function in ("contradict", "receiver"))


def read_pair(path):
    """The pair of a file."""
    row = json.loads(Path(path).read_text())
    return Pair(row["function"], [bytes.fromhex(part) for part in row["parts"]])
