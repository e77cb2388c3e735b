"""What the kit's compiler makes of a crate whose libraries the gate has built: the archive of a static library, or a program. Both run on every x86-64 processor;
the kit's own default is x86-64-v2, of which an older one lacks a part."""

import re
import subprocess
from pathlib import Path

from crates import TOP, below_all, read_crates, read_lines

# Where the kit lies.
KIT = Path(subprocess.run(["rt", "doc"], check=True, capture_output=True, text=True).stdout.strip()).parent
CPU = "x86-64"


def kit_line():
    """The kit's one line, by which its proofs are told apart."""
    return subprocess.run(["rt", "version"], check=True, capture_output=True, text=True).stdout


def anew():
    """The word by which the gate takes nothing that an earlier run kept; none where the kit's gate keeps nothing, and so doesn't know it."""
    told = subprocess.run(["rt"], capture_output=True, text=True, check=False)
    return ["--anew"] if "--anew" in told.stdout + told.stderr else []


def run(*words, **settings):
    """Runs a tool, which has to end with 0."""
    subprocess.run(words, check=True, **settings)


def words_for(copy, name, kit, jobs=2):
    """The words with which the compiler finds the crates below this one, as the gate has built them."""
    known, uses = read_crates(), dict(read_lines((TOP / "crates.txt").read_text()))[name]
    rlib = lambda it: copy / "crates" / it / f"out/rlib/{it}.rlib" if it in known else kit / f"rlibs/{it}.rlib"  # noqa: E731
    words = ["--crate-name", name, "--extern", f"std={kit}/rlibs/std.rlib", "-L", f"dependency={kit}/rlibs"]
    for it in sorted(uses):
        words += ["--extern", f"{it}={rlib(it)}"]
    for it in sorted(below_all(name, known)):
        words += ["-L", f"dependency={rlib(it).parent}"]
    return [*words, "--antt-project", kit / "rattle/logic/antt-project.json", "--logic-built", kit / "logic_built", "--jobs", str(jobs)]


def check(copy, name, folder, kept):
    """Checks a crate that lies in a folder over what a check of it kept, and over the crates below as they are built in the copy; answers the status, and
    what was said."""
    root = next(path for path in ("src/main.rt", "src/lib.rt") if (folder / path).exists())
    kind = ["--crate-type", "staticlib"] if re.search(rf"^{name} [^:]*staticlib", (copy / "crates.txt").read_text(), re.M) else []
    words = [KIT / "bin/rattle", "check", *words_for(copy, name, KIT, 1), root, *kind, "--incremental", kept]
    done = subprocess.run(words, cwd=folder, stdin=subprocess.DEVNULL, stdout=subprocess.PIPE, stderr=subprocess.STDOUT, errors="replace", check=False)
    return done.returncode, done.stdout


def compiled(copy, name, made, *more, kit=KIT):
    """Checks the crate once more, and compiles it: only a proved crate is compiled."""
    folder = copy / "crates" / name
    (folder / "out").mkdir(exist_ok=True)
    words = [*words_for(copy, name, kit), *more, "--cpu", CPU, "--toolchain", kit / "toolchain", "--backend", "llvm", "-o", made]
    run(kit / "bin/rattle", "build", *words, cwd=folder)
    return folder / made


def archive(copy, name, kit=KIT):
    """The archive of a static library."""
    return compiled(copy, name, f"out/lib{name}.a", "src/lib.rt", "--crate-type", "staticlib", kit=kit)


def program(copy, name):
    """A program, linked with the kit's C code and the C library."""
    made = compiled(copy, name, f"out/{name}.plain.o", "src/main.rt")
    linked = made.with_name(f"{name}.plain")
    words = ["--target", "x86_64-unknown-linux-gnu", "--toolchain", KIT / "toolchain", "-o", linked, made]
    run(KIT / "bin/rattle-link", *words, KIT / "c/libos_c.a", KIT / "c/liblibc_c.a")
    return linked
