"""The library in C, Rust, Go, JavaScript and Python, by the examples of examples/bindings/: each is built here and judges all vectors that ask for a verdict on a
proof, and answers each as it stands there; a report that can't be written ends each with 4. Where a compiler is missing, or the library or the module isn't built, that is told as skipped."""

import os
import subprocess
import sys

import timeweave

from cases.vectors import vectors
from harness.library import ARCHIVE, SHARED, built_library, checked_run
from harness.places import HARNESS, LONGEST, TOP
from harness.rooms import Skipped, Wrong, case, needs
from harness.web import MODULE, built

FOLDER = TOP / "examples/bindings"
FLAGS = ["-std=c11", "-Wall", "-Wextra", "-Werror", "-I", TOP / "include"]

# What the examples take, by the number of files.
FORMS = {"verify": 2, "strict": 2, "checkmap": 3, "checkfork": 2, "contradict": 5, "receiver": 3}


def list_questions(forms=tuple(FORMS)):
    """The vectors that the examples judge, each with the name of its file; a line in words is left out."""
    return [(name, vector) for name, vector in vectors() if vector["words"][0] in forms and len(vector["words"]) == 1 + FORMS[vector["words"][0]]]


def whole_library():
    """The library is built, and has the functions of all forms."""
    built_library()
    missing = [form for form in FORMS if f"timeweave_{form}".encode() not in SHARED.read_bytes()]
    if missing:
        raise Skipped(f"the library that is built doesn't have timeweave_{missing[0]}: `make lib`")


def some(rows):
    """One of them of each file, form and kind of answer."""
    return list({(name, vector["words"][0], *vector["text"].split()[:3]): (name, vector) for name, vector in rows}.values())


def judge_all(room, run, rows):
    """Judges vectors by a call, which takes words and gives status, output and errors, and tells what is answered otherwise; then what no file is, and words that are
    none, which have no status of a verdict."""
    for name, vector in rows:
        for file, digits in vector["files"].items():
            room.put(file, bytes.fromhex(digits))
        found = run(vector["words"])
        if found[:2] != (vector["status"], vector["text"]):
            raise Wrong(f"  {name}: {vector['name']}\n  wanted {vector['status']} {vector['text']!r}\n  got    {found}")
    for words, wanted in ((["verify", "missing", "anchors"], 3), (["verify", "proof", "missing"], 3), (["frob", "proof", "anchors"], 2), (["strict"], 2)):
        status, output, errors = run(words)
        if status != wanted or output or not errors:
            raise Wrong(f"  {' '.join(words)}: wanted status {wanted}, got {status} {output!r} {errors!r}")
    accepted = next(vector for _, vector in reversed(rows) if vector["status"] == 0)
    for file, digits in accepted["files"].items():
        room.put(file, bytes.fromhex(digits))
    with open("/dev/full", "wb") as full:
        status, _, errors = run(accepted["words"], full)
    if status != 4 or not errors:
        raise Wrong(f"  a full output: wanted status 4, got {status} {errors!r}")


def by(room, *command):
    """The call that runs a command in the room's folder."""

    def run(words, out=subprocess.PIPE):
        done = subprocess.run([*command, *words], cwd=room.folder, stdout=out, stderr=subprocess.PIPE, text=True, timeout=LONGEST)
        return done.returncode, done.stdout, done.stderr

    return run


def in_c(room):
    """all vectors, by the example in C"""
    whole_library()
    checked_run([needs("cc", "gcc"), *FLAGS, "-o", room.folder / "judge", FOLDER / "judge.c", ARCHIVE])
    judge_all(room, by(room, room.folder / "judge"), list_questions())


def in_rust(room):
    """all vectors, by the example in Rust"""
    whole_library()
    checked_run([needs("rustc", "rustc"), "-D", "warnings", "-L", ARCHIVE.parent, "-l", "static=timeweave", "-o", room.folder / "judge", FOLDER / "judge.rs"])
    judge_all(room, by(room, room.folder / "judge"), list_questions())


def in_go(room):
    """all vectors, by the example in Go"""
    whole_library()
    needs("cc", "gcc")
    environment = {**os.environ, "GOCACHE": str(room.folder / "cache"), "GOFLAGS": "", "GOPROXY": "off", "GOTOOLCHAIN": "local", "CGO_ENABLED": "1"}
    checked_run([needs("go", "golang-go"), "build", "-o", room.folder / "judge", FOLDER / "judge.go"], env=environment)
    judge_all(room, by(room, room.folder / "judge"), list_questions())


def in_javascript(room):
    """all vectors, by the module for JavaScript, and some by its example"""
    built()
    node, forms = needs("node", "nodejs"), [form for form in FORMS if f"timeweave_{form}".encode() in MODULE.read_bytes()]
    rows = list_questions(forms)
    wanted, told = f"{len(rows)} tried\n", checked_run([node, HARNESS / "vectors.mjs", TOP / "vectors", *forms])
    if told != wanted:
        raise Wrong(told)
    judge_all(room, by(room, node, FOLDER / "judge.mjs"), some(rows))


def in_python(room):
    """all vectors, by the module for Python, and some by its example"""
    whole_library()
    for name, vector in list_questions():
        try:
            call = getattr(timeweave, vector["words"][0])
            found = timeweave.ACCEPTED, call(*(bytes.fromhex(vector["files"][file]) for file in vector["words"][1:])).text
        except timeweave.Rejected as reason:
            found = timeweave.REJECTED, f"rejected {reason}\n"
        except timeweave.BadAnchors as bad:
            found = timeweave.UNREADABLE, f"unreadable {bad.file} line {bad.line}\n"
        except timeweave.BadFile as bad:
            found = timeweave.UNREADABLE, f"unreadable {bad}\n"
        if found != (vector["status"], vector["text"]):
            raise Wrong(f"  {name}: {vector['name']}\n  wanted {vector['status']} {vector['text']!r}\n  got    {found}")
    judge_all(room, by(room, sys.executable, FOLDER / "judge.py"), some(list_questions()))


def cases():
    return [case(work, "bindings") for work in (in_c, in_rust, in_go, in_javascript, in_python)]
