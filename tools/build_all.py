#!/usr/bin/env python3
"""Builds all that packages are made of, of one proof of the crates: the programs, the library, and the page with its module where the tools for it are there.

    python3 tools/build_all.py              proves the crates over a copy
    python3 tools/build_all.py --anew       the same, and takes nothing that an earlier proof left
    python3 tools/build_all.py --of-gate    takes the crates that the gate has built here, right after it has passed this tree
"""

import shutil
import sys
import tempfile
from pathlib import Path

import build_library
import build_page
from build import prove, put
from crates import TOP, copy_crates
from kit import anew, archive

PROGRAMS = ("timeweave", "tree_pages")


def build_parts(copy):
    """Builds all of the crates that were built in the copy."""
    for name in PROGRAMS:
        put(name, copy)
    try:
        found = build_page.check_tools()
    except build_page.Stopped as why:
        print(f"the page is left out: {why}", file=sys.stderr)
        if shutil.which("cc"):
            build_library.join(archive(copy, build_library.NAME))
    else:
        build_page.build_module(copy, found)
        build_page.PAGE.write_text(build_page.page(build_page.MODULE.read_bytes()))


def main():
    if sys.argv[1:] == ["--help"]:
        print(Path(__file__).name, __doc__)
        return 0
    words = sys.argv[1:]
    if words == ["--of-gate"]:
        build_parts(TOP)
        return 0
    if words not in ([], ["--anew"]):
        sys.exit(__doc__)
    with tempfile.TemporaryDirectory(prefix="timeweave_build_") as folder:
        copy = Path(folder) / "tree"
        copy_crates([*PROGRAMS, build_library.NAME], copy, without=("must-fail", "wrong-bodies.txt"))
        status = prove(copy, *(anew() if words else []))
        if status:
            return status
        build_parts(copy)
    return 0


if __name__ == "__main__":
    sys.exit(main())
