"""The crates and what they stand on, by crates.txt; which files are theirs; and a copy of some of them, over which `rt` works while the tree may change."""

import re
import shutil
import subprocess
from pathlib import Path
from typing import Dict, List, Sequence, Set, Tuple

TOP = Path(__file__).resolve().parent.parent

LINE = re.compile(r"(\w+)[^:]*:")

Graph = Dict[str, List[str]]
"""Each crate with those of this repository that it stands on."""


def read_lines(text: str) -> List[Tuple[str, List[str]]]:
    """Each line of a list of crates: a name, and what it stands on."""
    pairs = [line.split(":") for line in text.splitlines() if not line.startswith("#")]
    return [(name.split()[0], uses.split()) for name, uses in pairs]


def read_graph(text: str) -> Graph:
    """The crates of a list with those of it that each stands on."""
    lines = read_lines(text)
    names = {name for name, _ in lines}
    return {name: [below for below in uses if below in names] for name, uses in lines}


def read_crates() -> Graph:
    """The crates of this tree."""
    return read_graph((TOP / "crates.txt").read_text())


def height(name: str, known: Graph) -> int:
    """How many crates the longest chain down from a crate has."""
    return 1 + max((height(below, known) for below in known[name]), default=0)


def below_all(name: str, known: Graph) -> Set[str]:
    """The crates that a crate reaches."""
    return {reached for below in known[name] for reached in {below} | below_all(below, known)}


def list_files(*folders: str) -> List[str]:
    """The files below these folders of the tree that git keeps or would."""
    listed = subprocess.run(["git", "ls-files", "-coz", "--exclude-standard", *folders], cwd=TOP, check=True, capture_output=True, text=True).stdout
    return [name for name in listed.split("\0") if name and (TOP / name).is_file()]


def copy_crates(names: Sequence[str], into: Path, without: Sequence[str] = ()) -> Set[str]:
    """Copies these crates with those below them, but for the folders of each that are named in without, and writes a crates.txt of them alone."""
    known = read_crates()
    needed = set(names).union(*(below_all(name, known) for name in names))
    lines = [line for line in (TOP / "crates.txt").read_text().splitlines() if (said := LINE.match(line)) and said[1] in needed]
    into.mkdir(parents=True)
    (into / "crates.txt").write_text("\n".join(lines) + "\n")
    for name in ["HANDLES", *list_files(*(f"crates/{name}" for name in sorted(needed)))]:
        if not any(part in without for part in Path(name).parts[2:3]):
            (into / name).parent.mkdir(parents=True, exist_ok=True)
            shutil.copy2(TOP / name, into / name)
    return needed
