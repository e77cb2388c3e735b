"""Finds the Python packages that weft stands on: those that Python finds by itself, as Debian installs them; else those of weft's own checkout, or where
`make install` puts them. Whoever sends files may have put a folder of the same name beside a weft that was copied there. So what lies beside is taken only
where it is byte for byte what this weft was made with, of which it has the digest (`known.py`). The binding loads the library that was built beside it: so it
is taken only where the user has named that place."""

from __future__ import annotations

import functools
import hashlib
import importlib.util
import os
import sys
from pathlib import Path

from weft import known, program

HERE = Path(__file__).resolve().parent
ABOVE = HERE.parent
IS_INSTALLED = ABOVE.parts[-2:] == ("share", "timeweave")
BASE = ABOVE.parent.parent if IS_INSTALLED else ABOVE
STANDARD = ("/usr/share/timeweave", "/usr/local/share/timeweave")
BELOW = {"timeweave_reference": "reference", "timeweave": "bindings/python"}
# The package that is one file.
SINGLE = "timeweave"
MOST_FILES = 1_000


def place_of(package: str) -> Path:
    """The folder beside weft in which a package would be."""
    return ABOVE if IS_INSTALLED else ABOVE / BELOW[package]


def digest_of(package: str) -> str:
    """The digest of the package that lies beside weft: of all files that Python could run there, each by its path and bytes; but for what Python keeps in
    `__pycache__`, which isn't read (see `take`). Where there is none, or too much, that of nothing."""
    place = place_of(package)
    all_below = [path for path in (place / package).rglob("*") if path.is_file() and path.parent.name != "__pycache__"]
    found = [path for path in (place / f"{package}.py",) if path.is_file()] if package == SINGLE else all_below
    whole = hashlib.sha256()
    for path in sorted(found) if len(found) <= MOST_FILES else ():
        whole.update(f"{path.relative_to(place)}\0".encode("utf-8", "surrogateescape") + hashlib.sha256(path.read_bytes()).digest())
    return whole.hexdigest()


def is_named() -> bool:
    """Whether the user has named the place in which weft lies: it is a standard one; or the program that he named, by PATH or by TIMEWEAVE_PROGRAM, is the one
    of that place; or he has named the library."""
    path = program.find_program()
    is_own = path is not None and Path(path) == (BASE / "bin/timeweave").resolve()
    return str(ABOVE) in STANDARD or is_own or bool(os.environ.get("TIMEWEAVE_LIBRARY"))


def take(package: str) -> None:
    """Loads a package from beside weft, and lets nothing else be found there. What Python compiles of it is kept in weft's own folder, and what lies compiled
    beside the sources isn't read: it needn't be what they say."""
    if str(ABOVE) not in STANDARD:
        sys.pycache_prefix = str(HERE / "__pycache__")
    place, below = place_of(package), place_of(package) / package
    source = place / f"{package}.py" if package == SINGLE else below / "__init__.py"
    spec = importlib.util.spec_from_file_location(package, source, submodule_search_locations=None if package == SINGLE else [str(below)])
    if spec is None or spec.loader is None:
        raise ImportError(f"{package} can't be loaded")
    sys.modules[package] = importlib.util.module_from_spec(spec)
    spec.loader.exec_module(sys.modules[package])


@functools.lru_cache(maxsize=None)
def ready(package: str) -> bool:
    """Whether the package can be imported; its folder is put behind the others of the path where it is beside, and what it has to be."""
    if importlib.util.find_spec(package) is not None:
        return True
    if digest_of(package) != known.DIGESTS[package] or (package == "timeweave" and not is_named()):
        return False
    take(package)
    return True


HAS_REFERENCE = ready("timeweave_reference")


@functools.lru_cache(maxsize=None)
def digest() -> str:
    """The SHA-256 digest of the code that chooses lines and reads files: the sources of weft and of the reference."""
    whole = hashlib.sha256()
    for package in ("weft", "timeweave_reference"):
        spec = importlib.util.find_spec(package)
        for place in (spec.submodule_search_locations or ()) if spec else ():
            for path in sorted(Path(place).rglob("*.py")):
                whole.update(f"{package}/{path.relative_to(place)}\0".encode() + hashlib.sha256(path.read_bytes()).digest())
    return whole.hexdigest()


def known_text() -> str:
    """The text of `known.py`, of the packages that lie beside this weft now."""
    lines = "".join(f'    "{package}": "{digest_of(package)}",\n' for package in BELOW)
    return f'"""The digests of the packages that this weft was made with; python3 -m weft.packages notes them anew."""\n\nDIGESTS = {{\n{lines}}}\n'


if __name__ == "__main__":
    (HERE / "known.py").write_text(known_text(), encoding="utf-8")
