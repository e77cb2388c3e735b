#!/usr/bin/env python3
"""Builds the proved library for C and Python: lib/libtimeweave.a, which needs no other library but the C library, and lib/libtimeweave.so,
which shows the functions of include/timeweave.h alone. It needs a C compiler and `ar` besides the kit.

    python3 tools/build_library.py
    python3 tools/build_library.py --of-gate

The gate proves static libraries, and builds none. So the crates are proved over a copy, as for programs (build.py), and the archive is
built there of the crates that it built. Right after the gate has passed this tree, `--of-gate` builds it of those that it built here.
"""

import sys
import tempfile
from pathlib import Path

import built
from build import prove
from crates import TOP, copy_crates
from kit import KIT, archive, run

NAME = "timeweave_c"
INTO = TOP / "lib"
STATIC, SHARED = INTO / "libtimeweave.a", INTO / "libtimeweave.so"

# Programs ask for the shared library by this name: it has the first number of the version, which rises where a program that was linked with it would no longer run.
SONAME = f"libtimeweave.so.{(TOP / 'VERSION').read_text().split('.')[0]}"


def library_sum():
    """The sum of what the libraries are built of."""
    return built.sum_of([NAME], ["tools/build_library.py", "include/timeweave.map", "VERSION"])


def join(made):
    """Makes both libraries of the archive and the kit's allocator."""
    with tempfile.TemporaryDirectory() as folder:
        for parts in (made, KIT / "c/liblibc_c.a"):
            run("ar", "x", parts, cwd=folder)
        objects = sorted(path.name for path in Path(folder).glob("*.o"))
        shown = [f"-Wl,-soname,{SONAME}", f"-Wl,--version-script={TOP / 'include/timeweave.map'}", "-Wl,-z,relro,-z,now,-z,noexecstack"]
        run("ar", "rcsD", "static", *objects, cwd=folder)
        run("cc", "-shared", "-o", "shared", *shown, *objects, cwd=folder)
        built.put(Path(folder) / "static", STATIC, library_sum())
        built.put(Path(folder) / "shared", SHARED, library_sum())
    (INTO / SONAME).unlink(missing_ok=True)
    (INTO / SONAME).symlink_to(SHARED.name)


def main():
    if sys.argv[1:] == ["--help"]:
        print(Path(__file__).name, __doc__)
        return 0
    if sys.argv[1:] == ["--of-gate"]:
        join(archive(TOP, NAME))
        return 0
    if sys.argv[1:]:
        sys.exit(__doc__)
    with tempfile.TemporaryDirectory(prefix="timeweave_build_") as folder:
        copy = Path(folder) / "tree"
        copy_crates([NAME], copy, without=("must-fail", "wrong-bodies.txt"))
        status = prove(copy)
        if status:
            return status
        join(archive(copy, NAME))
    return 0


if __name__ == "__main__":
    sys.exit(main())
