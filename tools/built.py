"""What a built file was built of. Beside it stands a stamp, `.NAME.sum`, with two digests: of the sources and the kit, and of the file itself. Where both are
as they were, the file is what a build would make anew: `make build` leaves it, and `make package` takes no other."""

import hashlib
import shutil

from crates import TOP, below_all, list_files, read_crates
from kit import kit_line


def sum_of(names, more=()):
    """The digest of the sources of these crates and of all below them, of more files of the tree, and of the kit's line."""
    known = read_crates()
    needed = set(names).union(*(below_all(name, known) for name in names))
    paths = [path for path in list_files(*(f"crates/{name}" for name in sorted(needed))) if path.split("/")[2] not in ("must-fail", "wrong-bodies.txt")]
    total = hashlib.sha256(kit_line().encode())
    for path in sorted([*paths, *more, "crates.txt", "HANDLES", "tools/kit.py"]):
        data = (TOP / path).read_bytes()
        total.update(f"{path}\0{len(data)}\0".encode() + data)
    return total.hexdigest()


def stamp_of(path):
    """Where the stamp of a built file stands."""
    return path.with_name(f".{path.name}.sum")


def told_of(path, total):
    """What the stamp of a file says that was built of sources with this sum."""
    return f"{total} {hashlib.sha256(path.read_bytes()).hexdigest()}\n"


def put(made, path, total):
    """Puts a file there that was built of sources with this sum: beside and renamed, so that a program that runs meanwhile stays whole."""
    path.parent.mkdir(exist_ok=True)
    beside = path.with_name(f".{path.name}.new")
    shutil.copy(made, beside)
    beside.replace(path)
    stamp_of(path).write_text(told_of(path, total))


def is_built(path, total):
    """Whether the file that lies there was built of sources with this sum."""
    return path.exists() and stamp_of(path).exists() and stamp_of(path).read_text() == told_of(path, total)
