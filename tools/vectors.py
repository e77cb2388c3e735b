#!/usr/bin/env python3
"""Writes vectors/: cases by which whoever writes a verifier tries it, one file a kind. They are made by the reference, without the program, and are
the same bytes each time; vectors/README.md tells what stands in them.

    python3 tools/vectors.py
    python3 tools/vectors.py --check    tells which files are others, and writes nothing
"""

from __future__ import annotations

import json
from pathlib import Path
from typing import Callable, Dict, Iterator, List, Tuple

import vectors_of_contradictions as of_contradictions
import vectors_of_files as of_files
import vectors_of_proofs as of_proofs
import vectors_of_rules as of_rules
from command_line import reader_of_words, run_script
from vector import TOP, Vector

from timeweave_reference.fields import LAST_STEP
from timeweave_reference.paths import greedy_steps

FOLDER = TOP / "vectors"


def contradictions() -> Iterator[Vector]:
    """Those of two files of which one denies what the other shows, and those of all other rules."""
    yield from of_contradictions.contradictions()
    yield from of_rules.rules()


FILES: Dict[str, Tuple[str, Tuple[Callable[[], Iterator[Vector]], ...]]] = {
    "event": ("Proofs of kind 1: an event stands in a step.", (of_proofs.events,)),
    "link": ("Proofs of kind 5: a step has an authenticator.", (of_proofs.links,)),
    "anchors": ("Lines, judged with a proof of kind 1.", (of_proofs.anchors,)),
    "thread": ("Proofs of kind 3: a service received a thread.", (of_proofs.threads,)),
    "absent": ("Proofs of kind 4: a service received no such thread.", (of_proofs.absences,)),
    "precedes": ("Proofs of kind 2: an event precedes another; and proofs that are joined to such.", (of_proofs.ways, of_files.joins)),
    "map": ("Map files, kinds 6 and 7: between which steps of a peer a step lies.", (of_files.maps,)),
    "fork": ("Evidence that no history has both of two threads, and how it is made.", (of_files.forks, of_files.accusations)),
    "contradict": ("Files that show a rule of histories broken, as the library tells; the program has no such command.", (contradictions,)),
    "history": ("Files of histories: events that are shown, and what breaks a rule.", (of_files.shows,)),
    "audit": ("Proofs that are held against histories, and histories that are taken over.", (of_files.audits, of_files.adoptions)),
    "atlas": ("Where receipts lead.", (of_files.atlases,)),
}
"""The files of vectors, each with what it is about and what makes it."""

STEPS = (
    "Histories with the labels of archives and the datums of their steps, from step 1 on, and their authenticators, from step 0 on; and the "
    "steps of greedy paths."
)
"""What the file steps.json is about."""

PATHS = (
    (1, 0), (13, 5), (13, 0), (12, 8), (12, 9), (16, 0), (16, 1), (15, 0), (17, 16), (1000, 1), (1024, 1023), (LAST_STEP, 0), (LAST_STEP, 2**39),
    (2**39, 1), (5, 5), (5, 6),
)
"""The upper and the lower steps of those paths."""


def vectors_of(name: str) -> List[Vector]:
    """The vectors of a file; those of several makers have the name of theirs before their own."""
    makers = FILES[name][1]
    return [vector if len(makers) == 1 else vector.named(vector.words[0]) for make in makers for vector in make()]


def listed(rows: "List[Dict[str, object]]") -> str:
    """JSON of rows, one a line."""
    return "[\n" + ",\n".join(f"    {json.dumps(row)}" for row in rows) + "\n  ]"


def contents() -> Iterator[Tuple[Path, str]]:
    """The files, each with what stands in it."""
    for name, (about, _) in FILES.items():
        found = [vector.to_json() for vector in vectors_of(name)]
        assert len({row["name"] for row in found}) == len(found), f"two vectors of {name} have one name"
        yield FOLDER / f"{name}.json", f'{{\n  "about": {json.dumps(about)},\n  "vectors": {listed(found)}\n}}\n'
    paths: "List[Dict[str, object]]" = [{"top": top, "step": step, "steps": greedy_steps(top, step)} for top, step in PATHS]
    rows = f'"histories": {listed(of_files.histories())},\n  "paths": {listed(paths)}'
    yield FOLDER / "steps.json", f'{{\n  "about": {json.dumps(STEPS)},\n  {rows}\n}}\n'


def main() -> int:
    """Writes the files, or tells which are others."""
    words = reader_of_words(__doc__)
    words.add_argument("--check", action="store_true", help="tell which files are others, and write nothing")
    is_check, status = words.parse_args().check, 0
    for path, text in contents():
        if not is_check:
            path.write_text(text)
        elif not path.exists() or path.read_text() != text:
            print(f"{path.relative_to(TOP)} is another one: python3 tools/vectors.py")
            status = 1
    return status


if __name__ == "__main__":
    run_script(main)
