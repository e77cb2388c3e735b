"""Each script of tools, bench and tests can be asked what it does, which changes nothing, and ends in silence where nobody reads on."""

import hashlib
import os
import re
import shutil
import subprocess
import sys
from concurrent.futures import ThreadPoolExecutor

from texts.cases.sources import files

from harness.places import LONGEST, TOP
from harness.rooms import Wrong, case, needs

FOLDERS = ("tools", "bench", "tests")


def is_script(path):
    """Whether a file of the tree is run by itself; a module of cases is run by what runs the cases, one of tests by unittest."""
    place = path.relative_to(TOP)
    if place.parts[0] not in FOLDERS or "cases" in place.parts or path.name.startswith("test_"):
        return False
    return path.suffix == ".sh" or path.suffix == ".py" and re.search(r"^if __name__ ==", path.read_text(), re.M) is not None


def copy_tree(folder):
    """A copy of the files of the tree, but for the crates, which aren't written to; the scripts of it."""
    scripts = []
    for path in files("*"):
        place = path.relative_to(TOP)
        if place.parts[0] != "crates":
            (folder / place).parent.mkdir(parents=True, exist_ok=True)
            shutil.copy2(path, folder / place)
            scripts += [str(place)] * is_script(path)
    (folder / "crates").symlink_to(TOP / "crates")
    return sorted(scripts)


def sums_of(folder):
    """The files of a folder, each with its digest."""
    names = [f"{place}/{name}" for place, _, found in os.walk(folder) for name in found]
    return {name: hashlib.sha256(open(name, "rb").read()).hexdigest() for name in names}


def ask(folder, script, *more):
    """Asks a script of a folder what it does."""
    starter = ["bash"] if script.endswith(".sh") else [sys.executable, "-B"]
    return subprocess.run([*starter, script, "--help", *more], cwd=folder, stdin=subprocess.DEVNULL, capture_output=True, text=True, timeout=LONGEST)


def helps(room):
    """each script of tools, bench and tests has a help, and to ask for it changes nothing"""
    needs("rt", "the kit")
    tree = room.folder / "tree"
    scripts = copy_tree(tree)
    before = sums_of(tree)
    with ThreadPoolExecutor(2) as pool:
        done = dict(zip(scripts, pool.map(lambda script: ask(tree, script), scripts)))
    wrong = [f"  {script} --help: status {it.returncode}, {it.stderr[-300:]}" for script, it in done.items() if it.returncode or script.split("/")[-1] not in it.stdout]
    after = sums_of(tree)
    wrong += [f"  {name} is another one" for name in sorted(before.keys() | after.keys()) if before.get(name) != after.get(name)]
    if wrong or len(scripts) < 25:
        raise Wrong("\n".join(wrong or scripts))


def silent_ends(room):
    """a script whose output nobody reads on ends in silence"""
    for script in (f"{sys.executable} tools/claims.py", f"{sys.executable} tests/acceptance/run.py --list -k data/", f"{sys.executable} tools/definitions.py"):
        done = subprocess.run(["bash", "-c", f"{script} | true; echo ${{PIPESTATUS[0]}}"], cwd=TOP, capture_output=True, text=True, timeout=LONGEST)
        if done.stderr or done.stdout not in ("141\n", "0\n"):
            raise Wrong(f"  {script}: {done.stdout}{done.stderr}")


def cases():
    yield from (case(work, "scripts") for work in (helps, silent_ends))
