#!/usr/bin/env python3
"""Tries wrong bodies, over a copy of this tree: those that the gate tries, crates/*/must-fail, and those that it doesn't, crates/*/wrong-bodies.txt. The prover
has to refuse each. The file wrong-bodies.txt has a line `edit: NAME` before what a file NAME.edit of must-fail would say.

    python3 tools/wrong_bodies.py              those of each crate whose line of docs/wrong-bodies-tried.txt doesn't fit (tools/body_trials.py)
    python3 tools/wrong_bodies.py --anew       those of all crates
    python3 tools/wrong_bodies.py NAME ..      those of these crates

Edits of different functions are tried by one check (tools/body_batches.py), and what isn't refused so is tried alone, by `rt must-fail`. Each crate has to
be proved without a wrong body too, also with what its wrong body of the gate leaves out: so it is the wrong body that is refused. A crate's line is written
as soon as all of its wrong bodies are refused; `make package` goes by it.
"""

import argparse
import os
import re
import shutil
import subprocess
import tempfile
from concurrent.futures import ThreadPoolExecutor
from contextlib import contextmanager
from datetime import date
from pathlib import Path
from typing import Callable, Iterator, Optional

import body_trials
from body_batches import Batch, batches, changed, changes_of, halves, refused, texts_of
from body_trials import TRIED, Trial, git
from command_line import reader_of_words, run_script
from crates import TOP, copy_crates, read_crates
from leave_out import BEGINS, CHANGE, Crate, body_of
from leave_out import edits as edits_of_gate

EDIT = re.compile(r"^edit: (\w+)\n((?:(?!edit: ).*\n?)*)", re.M)
REFUSED = re.compile(r"(?:rt: )?must-fail (\w+)/(\w+)\.edit: refused, as it must be")


def wrong_bodies(path):
    """The edits of a file, by their names."""
    edits = EDIT.findall(path.read_text()) if path.exists() else []
    return {name: text.strip("\n") + "\n" for name, text in edits}


def bodies_of_gate(name):
    """The edits of a crate that the gate tries, by their names."""
    return {path.stem: path.read_text() for path in edits_of_gate(name)}


def all_bodies(name):
    """All edits of a crate, by their names."""
    return bodies_of_gate(name) | wrong_bodies(TOP / "crates" / name / "wrong-bodies.txt")


def unfit(crate, text):
    """What of an edit doesn't fit the crate's sources, if anything: each old text has to stand once in its file."""
    source = None
    for word, said in CHANGE.findall(text):
        if word == "file":
            source = (crate / said).read_text() if (crate / said).exists() else None
        if source is None:
            return "no such file"
        if word == "old":
            old = said
        if word == "new":
            if source.count(old) != 1:
                return f"`{old}` stands there {source.count(old)} times"
            source = source.replace(old, said)
    return None


def unfit_bodies(names):
    """The edits of these crates that don't fit the sources, each with the reason."""
    edits = [(TOP / "crates" / name, edit, text) for name in names for edit, text in all_bodies(name).items()]
    return [f"crates/{crate.name}: {edit}: {why}" for crate, edit, text in edits if (why := unfit(crate, text))]


def counts(names):
    """How many wrong bodies of these crates the gate tries, and how many it doesn't."""
    of_gate = sum(len(bodies_of_gate(name)) for name in names)
    return of_gate, sum(len(all_bodies(name)) for name in names) - of_gate


def listed(names):
    """Counts the edits of these crates, and tells those that don't fit."""
    wrong, (of_gate, others) = unfit_bodies(names), counts(names)
    print(*wrong, f"{of_gate} wrong bodies that the gate tries and {others} others, of which {len(wrong)} don't fit", sep="\n")
    return 1 if wrong else 0


# ---- trying them


class Plan:
    """How the wrong bodies of a crate are tried: in batches, or alone; and the crate without them, also as its wrong bodies of the gate leave it."""

    def __init__(self, name: str, digest: str) -> None:
        self.name, self.digest, self.crate = name, digest, Crate(name)
        self.bodies = {edit: body_of(text) for edit, text in all_bodies(name).items()}
        self.batches, self.count = batches(self.crate, self.bodies)[0], len(self.bodies)
        self.alone = list(self.bodies)
        texts = texts_of(self.crate)
        made = {edit: changed(texts, changes_of(text)) for edit, text in left_out(name).items()}
        self.right = {"as it stands": texts} | {f"with what {edit} leaves out": found[0] for edit, found in made.items() if found}
        self.unfit = [edit for edit, found in made.items() if not found]


def checked(copy: Path, name: str, texts: dict[str, str]) -> tuple[int, str]:
    """Checks a crate of the copy with these files, over what the copy's own check of it kept; answers the status, and what was said."""
    from kit import check  # (who counts edits needs no kit)

    with tempfile.TemporaryDirectory(prefix="timeweave_wrong_body_") as folder:
        crate, room = copy / "crates" / name, Path(folder)
        for part in ("src", "specs", "proofs"):
            if (crate / part).is_dir():
                shutil.copytree(crate / part, room / part)
        shutil.copytree(crate / "out/incremental", room / "kept")
        for path, text in texts.items():
            (room / path).write_text(text)
        return check(copy, name, room, room / "kept")


def tried(copy: Path, crate: Crate, batch: Batch) -> dict[str, str]:
    """The edits of a batch that the prover refuses, each with its reason; where a check counts for none of them, each half is tried."""
    found = refused(crate, batch, checked(copy, crate.name, batch.texts)[1])
    if found is None:
        parts = halves(crate, batch) if len(batch.edits) > 1 else []
        return {edit: why for part in parts for edit, why in tried(copy, crate, part).items()}
    return found


def tried_alone(copy: Path, plans: list[Plan]) -> dict[str, set[str]]:
    """The edits that the prover refuses, of those that are left to be tried alone: each over its crate, by `rt must-fail`."""
    for plan in plans:
        folder = copy / "crates" / plan.name / "must-fail"
        folder.mkdir()
        for edit in plan.alone:
            (folder / f"{edit}.edit").write_text(plan.bodies[edit])
    found: dict[str, set[str]] = {plan.name: set() for plan in plans}
    with subprocess.Popen(["rt", "must-fail", *found], cwd=copy, stdout=subprocess.PIPE, text=True) as ran:
        for line in ran.stdout or []:
            print(line, end="", flush=True)
            if told := REFUSED.match(line):
                found[told[1]].add(told[2])
    return found


def is_right(copy: Path, plan: Plan) -> bool:
    """Whether a crate is proved with no wrong body, as it stands and as each of the gate leaves it: so it is the wrong body that is refused."""
    wrong = [f"what {edit} leaves out doesn't fit" for edit in plan.unfit]
    wrong += [f"it isn't proved {how}" for how, texts in plan.right.items() if checked(copy, plan.name, texts)[0]]
    print(*(f"{plan.name}: {why}" for why in wrong), sep="\n", end="\n" * bool(wrong), flush=True)
    return not wrong


def try_batches(copy: Path, plan: Plan, pool: ThreadPoolExecutor) -> Callable[[], bool]:
    """Begins to try the batches of a crate; what is returned waits for them, tells what was refused, leaves the others to be tried alone, and answers
    whether the crate is proved without them."""
    right = pool.submit(is_right, copy, plan)
    begun = [pool.submit(tried, copy, plan.crate, batch) for batch in plan.batches]

    def ended() -> bool:
        found = {edit: why for work in begun for edit, why in work.result().items()}
        print(*(f"must-fail {plan.name}/{edit}: refused, as it must be: {why[:160]}\n" for edit, why in found.items()), sep="", end="", flush=True)
        plan.alone = [edit for edit in plan.bodies if edit not in found]
        print(f"{plan.name}: {len(found)} of {plan.count} refused in {len(begun)} batches", flush=True)
        return right.result()

    return ended


@contextmanager
def proved_copy(names: list[str], jobs: int) -> Iterator[Optional[Path]]:
    """A copy of these crates and those below without wrong bodies, proved; or nothing, where it isn't."""
    with tempfile.TemporaryDirectory(prefix="timeweave_wrong_bodies_") as folder:
        copy = Path(folder) / "tree"
        copy_crates(names, copy, without=("must-fail", "wrong-bodies.txt"))
        subprocess.run(["git", "init", "-q"], cwd=copy, check=True)
        # What another copy on this machine has checked isn't checked anew.
        yield None if subprocess.run(["rt", "all", "check", "--jobs", str(jobs)], cwd=copy, check=False).returncode else copy


def left_out(name: str) -> dict[str, str]:
    """What each wrong body of the gate leaves out, alone."""
    return {edit: text.partition(BEGINS)[2] for edit, text in bodies_of_gate(name).items() if BEGINS in text}


def kept(names: list[str], jobs: int) -> bool:
    """Whether each crate is proved with what its wrong bodies leave out and no wrong body."""
    with proved_copy(names, jobs) as copy, ThreadPoolExecutor(jobs) as pool:
        return bool(copy) and all(list(pool.map(is_right, [copy] * len(names), [Plan(name, "") for name in names])))


def commit_of_crates() -> Optional[str]:
    """The commit of which the crates that lie here are, or nothing where they differ from it."""
    return None if git("status", "--porcelain", *body_trials.READ) else git("rev-parse", "HEAD")


def settled(plan: Plan, commit: Optional[str]) -> bool:
    """Writes that all wrong bodies of a crate were refused; where the crates that lay here are those of no commit, it is told."""
    if commit is None:
        print(f"{plan.name}: all refused; {TRIED.relative_to(TOP)} stays as it was, since the crates are those of no commit")
        return True
    body_trials.note(plan.name, Trial(plan.digest, date.today().isoformat(), commit, plan.count))
    return True


def try_all(names: list[str], digests: dict[str, str], jobs: int) -> int:
    """Tries all wrong bodies of these crates, and writes the line of each as soon as all of its own are refused; answers the status."""
    commit, plans = commit_of_crates(), [Plan(name, digests[name]) for name in names]
    with proved_copy(names, jobs) as copy:
        if copy is None:
            return 1
        with ThreadPoolExecutor(jobs) as pool:
            begun = [(plan, try_batches(copy, plan, pool)) for plan in plans]
            right = [plan for plan, ended in begun if ended() and (plan.alone or settled(plan, commit))]
        alone = [plan for plan in right if plan.alone]
        found = tried_alone(copy, alone) if alone else {}
    good = [plan for plan in right if set(plan.alone) <= found.get(plan.name, set()) and (not plan.alone or settled(plan, commit))]
    print(f"all wrong bodies of {len(good)} of {len(plans)} crates are refused")
    return 0 if len(good) == len(plans) else 1


def read_words() -> argparse.Namespace:
    """The words of the command line."""
    words = reader_of_words(__doc__)
    words.add_argument("names", nargs="*", metavar="NAME", help="a crate; those whose line doesn't fit if none is said")
    words.add_argument("--anew", action="store_true", help="all crates")
    words.add_argument("--list", action="store_true", help="tries none: counts them, and tells those that don't fit the sources")
    words.add_argument("--kept", action="store_true", help="tries none: proves the crates with what is left out alone")
    words.add_argument("--jobs", type=int, default=os.cpu_count(), metavar="N", help="so many checks at a time; one a processor if it isn't said")
    return words.parse_args()


def main() -> int:
    """Does what the words say; answers the status to end with."""
    words = read_words()
    names = [name for name in words.names or read_crates() if all_bodies(name)]
    if words.list:
        return listed(names)
    if words.kept:
        return 0 if kept(names, words.jobs) else 1
    digests = body_trials.digests(body_trials.sources_here())
    if not words.names and not words.anew:
        unfit = body_trials.unfit_trials(TRIED.read_text(), digests)
        names = [name for name in names if name in unfit]
    if not names:
        print("no wrong bodies to be tried")
        return 0
    return try_all(names, digests, words.jobs)


if __name__ == "__main__":
    run_script(main)
