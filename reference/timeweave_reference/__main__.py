"""Answers as the program `timeweave` does, by the second implementation: NOT PROVED, tested against the proved one.

    python3 -I FOLDER/timeweave_reference judge PROOF ANCHORS           what `verify` answers
    python3 -I FOLDER/timeweave_reference judge PROOF ANCHORS strict    what `strict` answers
    python3 -I FOLDER/timeweave_reference COMMAND ..                    all commands of the program, with its words, texts and statuses; a store
                                                                        is byte for byte a store of the program

FOLDER is the one that the package lies in. Where it is installed, `python3 -I -m timeweave_reference` does the same. By -I, Python takes no module
from the folder that it is run in, where somebody's files may lie.

It is written apart from the program and tested against it, and is itself not proved. Status 0: accepted; 1: rejected; 2: no such words; 3: a
file can't be read; 4: the answer can't be written; 7: a history has no such event; 9: a file isn't what it should be.
"""

from __future__ import annotations

import importlib.util
import sys
from importlib.machinery import ModuleSpec
from pathlib import Path
from typing import Dict, List, Sequence


def begin_package() -> str:
    """Where the package is run as a folder: takes it from this folder, and no module of another name with it. Its name."""
    here = Path(__file__).resolve().parent
    spec = importlib.util.spec_from_file_location(here.name, here / "__init__.py", submodule_search_locations=[str(here)])
    assert spec is not None and spec.loader is not None
    sys.path[:] = [place for place in sys.path if Path(place).resolve() != here]
    package = sys.modules[here.name] = importlib.util.module_from_spec(spec)
    spec.loader.exec_module(package)
    return here.name


if not __package__:
    __package__ = begin_package()
    # (Python from 3.12 on warns where the two differ)
    __spec__ = ModuleSpec(f"{__package__}.__main__", None)

from . import directories  # noqa: E402
from .answers import ACCEPTED, NO_OUTPUT, USAGE, Answer  # noqa: E402
from .commands import MOST_BYTES, NO_FILE, answer, named_files, usage  # noqa: E402
from .words import FOLDER, kinds_of  # noqa: E402


NOT_PROVED = "NOT PROVED: second implementation"
"""What is told first, on standard error, to whoever runs a command."""

JUDGE = "usage: python3 -I FOLDER/timeweave_reference judge PROOF ANCHORS [strict]"


def meant(words: Sequence[str]) -> List[str] | None:
    """The words of the program that the words mean: `judge` stands for `verify`, or with `strict` behind its files for that; None where it has
    other words."""
    if list(words[:1]) != ["judge"]:
        return list(words)
    form = {(): "verify", ("strict",): "strict"}.get(tuple(words[3:]))
    return [form, *words[1:3]] if form and len(words) >= 3 else None


def answered(words: Sequence[str]) -> Answer:
    """What is answered of the words, with the files that they name."""
    kinds = kinds_of(words)
    if isinstance(kinds, int):
        return usage(kinds)
    most = max(MOST_BYTES.get(words[0], 0), MOST_BYTES["join"]) + 1
    files: Dict[str, bytes] = {}
    for name in named_files(words, kinds):
        try:
            with open(name, "rb") as file:
                files[name] = file.read(most)
        except OSError:
            return NO_FILE
    return directories.answer(words, files) if FOLDER in kinds else answer(words, files)


def main() -> int:
    """Answers the words that the system gave; the status to end with."""
    words = meant(sys.argv[1:])
    if words is None:
        print(JUDGE, file=sys.stderr)
        return USAGE
    if words in (["--help"], ["-h"]):
        print(__doc__, end="")
        return ACCEPTED
    print(NOT_PROVED, file=sys.stderr)
    found = answered(words)
    try:
        sys.stdout.buffer.write(found.text)
        sys.stdout.buffer.flush()
    except OSError:
        return NO_OUTPUT
    return found.status


if __name__ == "__main__":
    sys.exit(main())
