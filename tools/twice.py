#!/usr/bin/env python3
"""Builds all that is packed twice, in two folders, each with nothing that an earlier build left, and compares the files of dist/. `make twice` calls it.

    python3 tools/twice.py           of the last commit
    python3 tools/twice.py --packs   makes only the packages twice, of the files that are built here
    python3 tools/twice.py --beside  builds once, of the commit that dist/BUILD names, and compares with the dist/ that lies here

With --processors N it takes so many processors, and it gives way to other work (--nice N, 15 if it isn't said).

Run as root, it works as two users of the machine; else two names are told to the tools, and both folders are of one user. Folders, times, languages and the
modes of new files differ as well. Nothing is to get into the files by which one could tell who made them, or where. It takes twice as long as `make build`
from nothing, beside a dist/ as long, and lists each file of dist/ with its digest. The status is 1 where one differs.
"""

import argparse
import hashlib
import os
import re
import shutil
import subprocess
import sys
import tempfile
from pathlib import Path
from typing import NamedTuple

import body_trials
from crates import TOP
from judge_release import OF_TRIAL

BUILT = ("bin", "lib", "web")
DIST = TOP / "dist"


class Place(NamedTuple):
    """A folder below the room, the user who builds there, and what else differs for him."""

    folder: str
    user: str
    language: str
    zone: str
    umask: int


PLACES = (Place("a", "daemon", "C", "UTC", 0o022), Place("another/folder", "nobody", "C.UTF-8", "Asia/Tokyo", 0o077))


def settings(place, room):
    """How a command is run for the user of a place."""
    home = room / f"home-{place.user}"
    names = {"HOME": str(home), "USER": place.user, "LOGNAME": place.user, "LC_ALL": place.language, "TZ": place.zone, "TMPDIR": str(home), "PYTHONDONTWRITEBYTECODE": "1"}
    # (git works for another user's folder where it is told to)
    names |= {"GIT_CONFIG_COUNT": "1", "GIT_CONFIG_KEY_0": "safe.directory", "GIT_CONFIG_VALUE_0": "*"}
    as_user = {"user": place.user, "group": "nogroup", "extra_groups": []} if os.geteuid() == 0 else {}
    return {"env": {"PATH": os.environ["PATH"], **names}, "umask": place.umask, **as_user}


def give(path, place):
    """Makes a folder the user's, with all that is in it."""
    for each in [path, *path.rglob("*")] if os.geteuid() == 0 else ():
        if not each.is_symlink():
            shutil.chown(each, place.user, "nogroup")


def prepare(place, room, commit):
    """A clone with this commit, and a home, both of the user."""
    folder, home = room / place.folder, room / f"home-{place.user}"
    home.mkdir()
    subprocess.run(["git", "clone", "--quiet", "--no-hardlinks", TOP, folder], check=True)
    subprocess.run(["git", "checkout", "--quiet", "--detach", commit], cwd=folder, check=True)
    return folder, home


def make(place, room, commit="HEAD", is_packs=False, log=None):
    """Builds and packs a commit at a place, and makes a release of it where a gate's log is named; answers its dist/."""
    folder, home = prepare(place, room, commit)
    if log:
        shutil.copyfile(log, home / "gate.log")
    packing = ["tools/release.py", "--gate", str(home / "gate.log"), *["--trial"] * is_trial()] if log else ["tools/release.py", "--packages"]
    if is_packs:
        for name in BUILT:
            shutil.copytree(TOP / name, folder / name, symlinks=True, dirs_exist_ok=True)
    for path in (folder, home):
        give(path, place)
    for words in ([] if is_packs else [["tools/build_all.py", "--anew"]]) + [packing]:
        print(f"{' '.join(words)} in {folder}, as {place.user}", flush=True)
        subprocess.run(["python3", *words], cwd=folder, check=True, **settings(place, room))
    return folder / "dist"


def compare(one, other):
    """Tells each file with its digest; answers whether all are the same. A signature is made once, and so is a log's proof."""
    names = sorted({path.name for folder in (one, other) for path in folder.iterdir() if path.suffix not in (".sig", ".proof", ".line")})
    digests = [[hashlib.sha256((folder / name).read_bytes()).hexdigest() if (folder / name).exists() else "-" for folder in (one, other)] for name in names]
    for name, (first, second) in zip(names, digests):
        print(f"same {first} {name}" if first == second else f"DIFFERENT {first} {second} {name}")
    return all(first == second for first, second in digests)


def commit_of(dist):
    """The commit that a release is of, by its own word."""
    told = re.search(r"^commit (\w+)$", (dist / "BUILD").read_text(), re.M) if (dist / "BUILD").exists() else None
    if not told:
        sys.exit(f"twice: {dist}/BUILD isn't there, or names no commit; `make package` writes it, or put the files of a release there")
    if subprocess.run(["git", "cat-file", "-e", f"{told[1]}^{{commit}}"], cwd=TOP, capture_output=True).returncode:
        sys.exit(f"twice: {dist}/BUILD is of the commit {told[1]}, which isn't in this repository")
    return told[1]


def is_trial():
    """Whether what lies in dist/ is a trial, and no release."""
    return (DIST / "BUILD").exists() and (DIST / "BUILD").read_text().startswith(OF_TRIAL)


def why_not_packed(commit):
    """Why `make package` would take nothing of a commit, after hours; or nothing. (Before tools/body_trials.py it asked for no trial of each crate.)"""
    if subprocess.run(["git", "cat-file", "-e", f"{commit}:tools/body_trials.py"], cwd=TOP, capture_output=True).returncode:
        return None
    return body_trials.untried(body_trials.git("show", f"{commit}:{body_trials.TRIED.relative_to(TOP)}"), body_trials.digests(body_trials.sources_of(commit)))


def read_words():
    words = argparse.ArgumentParser(description=__doc__, formatter_class=argparse.RawDescriptionHelpFormatter)
    which = words.add_mutually_exclusive_group()
    which.add_argument("--packs", action="store_true", help="the packages alone")
    which.add_argument("--beside", action="store_true", help="once, beside the dist/ that lies here")
    words.add_argument("--processors", type=int, metavar="N", help="so many of the processors; all if it isn't said")
    words.add_argument("--nice", type=int, default=15, metavar="N", help="how far it gives way to other work")
    return words.parse_args()


def main():
    words = read_words()
    os.nice(words.nice)
    if words.processors:
        os.sched_setaffinity(0, sorted(os.sched_getaffinity(0))[: words.processors])
    commit = commit_of(DIST) if words.beside else "HEAD"
    if (why := why_not_packed(commit)) and not (words.beside and is_trial()):
        sys.exit(f"twice: {why}")
    log = DIST / "gate.log" if words.beside and (DIST / "gate.log").exists() else None
    with tempfile.TemporaryDirectory(prefix="timeweave_twice_") as name:
        room = Path(name)
        room.chmod(0o755)
        try:
            made = [make(place, room, commit, words.packs, log) for place in (PLACES[1:] if words.beside else PLACES)]
        except subprocess.CalledProcessError as failed:
            return failed.returncode
        return 0 if compare(*([DIST] if words.beside else []), *made) else 1


if __name__ == "__main__":
    sys.exit(main())
