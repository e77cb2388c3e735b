"""When the wrong bodies of each crate were last tried: docs/wrong-bodies-tried.txt has a line a crate, with the digest of what the prover's verdict on them
depends on. `make wrong-bodies` tries those of the crates whose line doesn't fit, and `make package` packs none of these.

The verdict depends on the crate's own code, definitions, proofs and wrong bodies, and on what it sees of the crates below: a check reads a library's interface
alone, so the bodies of functions there have no say, nor the proofs of these; contracts, types, constants, definitions and lemmas have.
"""

import hashlib
import io
import re
import subprocess
import tarfile
from typing import NamedTuple, Optional

from crates import TOP, below_all, list_files, read_graph
from leave_out import functions_of

TRIED = TOP / "docs/wrong-bodies-tried.txt"
HEAD = """\
# When the wrong bodies of each crate were last tried: the crate, the digest of what the verdict depends on, the day, the commit, how many. `make wrong-bodies`
# tries those of the crates whose line doesn't fit, and writes it where the prover refused each.
"""

# The files of a tree by their paths, and the folders and files that are read.
Sources = dict[str, bytes]
READ = ("crates", "crates.txt", "KIT")
OWN = ("src", "specs", "proofs", "must-fail", "wrong-bodies.txt")
PROOFS_OF_FUNCTIONS = ("Answers.antt", "Invariants.antt", "Proof.antt")


class Trial(NamedTuple):
    """A trial of all wrong bodies of a crate."""

    digest: str
    day: str
    commit: str
    bodies: int


def git(*words: str) -> str:
    """What a command of git writes."""
    return subprocess.run(["git", *words], cwd=TOP, check=True, capture_output=True, text=True).stdout.strip()


def sources_here() -> Sources:
    """The files of the tree that lies here."""
    return {path: (TOP / path).read_bytes() for path in list_files(*READ)}


def sources_of(commit: str) -> Sources:
    """The files of a commit."""
    there = git("ls-tree", "--name-only", commit, *READ).split()
    packed = subprocess.run(["git", "archive", "--format=tar", commit, *there], cwd=TOP, check=True, capture_output=True).stdout
    with tarfile.open(fileobj=io.BytesIO(packed)) as tar:
        return {info.name: file.read() for info in tar if (file := tar.extractfile(info))}


def without_bodies(text: str) -> str:
    """A file of code without comments' lines and without the bodies of functions, but for those that may be read at a constant, and for a trait's own."""
    lines = text.split("\n")
    for it in functions_of((), text):
        if "const fn" not in it.head and not re.match(r"(pub(\([a-z]+\))? )?trait\b", it.block):
            lines[it.body + 1 : it.span[2]] = [""] * (it.span[2] - it.body - 1)
    return "\n".join(line for line in lines if line.strip() and not line.lstrip().startswith("//"))


def seen_from_above(path: str, data: bytes) -> bytes:
    """What the crates above see of a file of a crate."""
    part, name = path.split("/")[2], path.rpartition("/")[2]
    if part == "src":
        return without_bodies(data.decode()).encode()
    return data if part == "specs" or part == "proofs" and name not in PROOFS_OF_FUNCTIONS else b""


def digests(sources: Sources) -> dict[str, str]:
    """The digest of each crate that has wrong bodies: of what the prover's verdict on them depends on."""
    listed = sources["crates.txt"].decode()
    lines = {re.split(r"[ :]", line)[0]: line for line in listed.splitlines()}
    known = read_graph(listed)
    own = {path: data for path, data in sources.items() if path.count("/") > 1 and path.split("/")[2] in OWN}
    seen = {path: seen_from_above(path, data) for path, data in own.items()}
    found = {}
    for name in sorted({path.split("/")[1] for path in own if path.split("/")[2] in ("must-fail", "wrong-bodies.txt")}):
        below = below_all(name, known)
        parts = {f"crates.txt: {it}": lines[it].encode() for it in {name} | below} | {"KIT": sources.get("KIT", b"")}
        parts |= {path: data for path, data in own.items() if path.split("/")[1] == name}
        parts |= {path: data for path, data in seen.items() if data and path.split("/")[1] in below}
        found[name] = hashlib.sha256(b"".join(f"{path}\0{len(parts[path])}\0".encode() + parts[path] for path in sorted(parts))).hexdigest()
    return found


# ---- the file of trials


def trials(text: str) -> dict[str, Trial]:
    """The trials that the file tells of, by crate."""
    rows = [line.split() for line in text.splitlines() if line and not line.startswith("#")]
    return {name: Trial(digest, day, commit, int(bodies)) for name, digest, day, commit, bodies in rows}


def text_of(told: dict[str, Trial]) -> str:
    """The file that tells of these trials."""
    return HEAD + "".join(f"{name} {told[name].digest} {told[name].day} {told[name].commit} {told[name].bodies}\n" for name in sorted(told))


def note(name: str, trial: Trial) -> None:
    """Writes the line of a crate, and leaves the others."""
    TRIED.write_text(text_of(trials(TRIED.read_text()) | {name: trial}))


def unfit_trials(text: str, wanted: dict[str, str]) -> list[str]:
    """The crates of which the file doesn't tell that their wrong bodies were tried with these digests."""
    told = trials(text)
    return [name for name, digest in wanted.items() if name not in told or told[name].digest != digest]


def untried(text: str, wanted: dict[str, str]) -> Optional[str]:
    """What is to be done where the wrong bodies of some crates weren't tried as these crates are; or nothing."""
    names = unfit_trials(text, wanted)
    if not names:
        return None
    return (
        f"the wrong bodies of {', '.join(names)} weren't tried as these crates are now; `make wrong-bodies` tries them, "
        "and writes docs/wrong-bodies-tried.txt, which is to be committed"
    )
