"""Packages for Debian of the tree that lies here, for the cases that look into them, made by Debian's own tools. For what isn't built another file of its kind stands in."""

import atexit
import functools
import re
import shutil
import subprocess
import tempfile
import threading
from pathlib import Path

from harness.places import TOP
from harness.rooms import needs

FOLDER = Path(tempfile.mkdtemp(prefix="timeweave-packed-"))
atexit.register(shutil.rmtree, FOLDER, ignore_errors=True)
ONE_AT_A_TIME = threading.Lock()


def can_pack():
    """What packing needs is here; where it isn't, the case is skipped."""
    for program, package in (("rt", "the kit"), ("dh", "debhelper"), ("dh_python3", "dh-python"), ("dpkg-buildpackage", "dpkg-dev"), ("cc", "gcc"), ("git", "git")):
        needs(program, package)


def is_program(path):
    """Whether a program is a built one, and not the second implementation."""
    return Path(path).read_bytes()[:4] == b"\x7fELF"


def stand_ins(program):
    """For each part that is packed the file to pack: the built one, or where that isn't there one of its kind that does nothing."""
    import release

    header = (TOP / "include/timeweave.h").read_text()
    lines = [f"int {name}(void) {{ return 0; }}" for name in re.findall(r"^\w+ (timeweave_\w+)\(", header, re.M)]
    (FOLDER / "library.c").write_text("\n".join(lines))
    shown = ["-Wl,-soname,libtimeweave.so.1", f"-Wl,--version-script={TOP / 'include/timeweave.map'}", "-Wl,-z,relro,-z,now"]
    subprocess.run(["cc", "-shared", "-fPIC", *shown, "-o", FOLDER / "library.so", FOLDER / "library.c"], check=True)
    for name in ("library.a", "page.wasm", "page.html"):
        (FOLDER / name).write_bytes(b"!<arch>\n" if name == "library.a" else b"page")
    found = dict(zip(release.PARTS, (Path("/bin/true"), FOLDER / "library.a", FOLDER / "library.so", FOLDER / "page.wasm", FOLDER / "page.html")))
    built = {part: TOP / part for part in release.PARTS if (TOP / part).exists()}
    return {**found, **built, **({"bin/timeweave": Path(program)} if is_program(program) else {})}


@functools.lru_cache(maxsize=None)
def packed_once(program, version):
    """A folder with the packages of this version, which are made once."""
    import release

    into = FOLDER / version
    into.mkdir()
    release.pack(into, stand_ins(program), version)
    return into


def packed(program, version):
    """The same, for cases that run at one time."""
    can_pack()
    with ONE_AT_A_TIME:
        return packed_once(program, version)


def unpacked(program, package, into):
    """Lays the files of a package of the tree's version into a folder."""
    version = (TOP / "VERSION").read_text().strip()
    subprocess.run(["dpkg-deb", "-x", next(packed(program, version).glob(f"{package}_*.deb")), into], check=True)
