#!/usr/bin/env python3
"""Counts what stands twice: the pairs of source files (a file with itself too) that share six lines in a row.

Lines of imports, comments, blank ones and those of brackets alone are passed over, and white space is folded. A run that stands in more
than eight places is a common shape, and no twin. `python3 tools/twins.py [-n MOST]` prints the pairs, those that share most first.
"""

import argparse
import collections
import itertools
import re
import shutil
import subprocess
from pathlib import Path

TOP = Path(__file__).resolve().parent.parent

# The lines that make a run, and the places in which a run may stand.
RUN, COMMON = 6, 8

FOLDERS = ("crates/", "tests/", "tools/", "bench/", "examples/")
ENDINGS = (".rt", ".antt", ".py")

PASSED_OVER = re.compile(r"$|--|//|#|(unfoldable )?(pub )?(ghost )?use |import |from \S+ import |(pub )?mod \S+;?$|[^\w]*$")


def names(top):
    """The source files of the repository: where it is a checkout, those that git keeps."""
    git = shutil.which("git")
    listed = subprocess.run([git, "ls-files", "-z"], cwd=top, capture_output=True, text=True, check=False) if git else None
    is_checkout = listed and listed.returncode == 0
    found = listed.stdout.split("\0") if is_checkout else [str(path.relative_to(top)) for path in top.rglob("*")]
    return sorted(name for name in found if name.startswith(FOLDERS) and name.endswith(ENDINGS) and "/out/" not in name)


def runs(text):
    """Each six lines in a row of a text, with the number of the first."""
    kept = [(at, " ".join(line.split())) for at, line in enumerate(text.splitlines(), 1)]
    kept = [(at, line) for at, line in kept if not PASSED_OVER.match(line)]
    for first in range(len(kept) - RUN + 1):
        yield kept[first][0], tuple(line for _, line in kept[first : first + RUN])


def pairs(top=TOP):
    """The pairs of files that share a run: how many runs each shares, and where the first stands."""
    places = collections.defaultdict(list)
    for name in names(top):
        path = top / name
        if path.is_file():
            for at, run in runs(path.read_text(encoding="utf-8", errors="replace")):
                places[run].append((name, at))
    found = {}
    for where in places.values():
        if not 2 <= len(where) <= COMMON:
            continue
        for one, other in itertools.combinations(where, 2):
            shared, begins = found.get((one[0], other[0]), (0, (one[1], other[1])))
            found[one[0], other[0]] = (shared + 1, min(begins, (one[1], other[1])))
    return found


def main():
    """Prints the pairs and how many they are."""
    asked = argparse.ArgumentParser(description=__doc__)
    asked.add_argument("-n", type=int, default=20, metavar="MOST", help="how many pairs are printed (20)")
    most = asked.parse_args().n
    found = pairs()
    for (one, other), (shared, (first, second)) in sorted(found.items(), key=lambda it: (-it[1][0], it[0]))[:most]:
        print(f"{shared:4} {one}:{first} ~ {other}:{second}")
    print(f"{len(found)} pairs")


if __name__ == "__main__":
    main()
