#!/usr/bin/env python3
"""Searches for what weft does wrong: three services, their carrier, a liar, a thief, backups and a reader, each step drawn by chance, held against what is true.

    python3 tests/acceptance/search_weft.py [TURNS] [SEED]     20,000 turns of seed 1, if they aren't said; `make search-weft` calls it so
    python3 tests/acceptance/search_weft.py --planted [SEED]   plants each fault of harness/weft_planted.py, and tells at which turn it is found
    python3 tests/acceptance/search_weft.py --again FILE       plays a script of a file once more

A turn is a step of a script: a service's night, a file that is carried, damaged, brought again or made up, a second history, a stolen key, a backup that is put back, a
run that is killed, a proof that is judged (harness/weft_machine.py). After each run of weft it is asked whether what has to hold does (harness/weft_model.py), and each
script ends with quiet nights. weft runs in this process, over the second implementation (harness/weft_inside.py): what is tried is weft, and not the program. The first
script that breaks a rule is shrunk and written into cases/found_search/, where the acceptance run plays it from then on.
"""

import hashlib
import json
import os
import random
import re
import shutil
import subprocess
import sys
import tempfile
import time
from collections import Counter
from pathlib import Path

from harness import weft_planted
from harness.places import CASES

PLANT = "--plant"
if sys.argv[1:2] == [PLANT]:  # (before weft is loaded)
    weft_planted.plant(int(sys.argv[2]))

from harness import weft_machine, weft_scenes  # noqa: E402
from harness.shrinking import without_parts  # noqa: E402
from harness.weft_inside import Inside  # noqa: E402
from harness.weft_machine import Machine  # noqa: E402
from harness.weft_model import Broken  # noqa: E402
from harness.weft_room import reseal  # noqa: E402

from command_line import reader_of_words, run_script  # noqa: E402

FOUND_SEARCH = CASES / "found_search"

# How often each action is drawn.
WEIGHTS = {
    "turn": 30, "carry": 22, "record": 6, "write": 6, "log": 6, "replay": 5, "lose": 3, "damage": 5, "swap": 3, "forge": 3, "hinder": 2, "lie": 3, "steal": 1, "take_out": 1,
    "backup": 5, "restore": 4, "repair": 2, "look": 1, "adopt": 1, "fault": 5, "keep": 6, "judge": 8, "many": 2, "accuse": 2, "chain": 1, "prove": 3, "check": 2,
}  # fmt: skip
# What befalls somebody in about half of the scripts: so the others show what stands without it.
SOMETIMES = ("lie", "steal", "restore", "damage", "fault", "swap", "replay", "hinder")
STEPS = 100
# One draw of so many is a whole scene.
SCENE = 10
# A planted fault is to be found in so many turns.
MOST_PLANTED = 5_000
SHRINKING = 120


def drawn(seed, number):
    """The script of this number."""
    rand = random.Random(f"{seed} {number}")
    left_out = {name for name in SOMETIMES if rand.randrange(2)}
    names = [name for name in WEIGHTS if name not in left_out]
    weights, script = [WEIGHTS[name] for name in names], []
    while len(script) < STEPS:
        drawn_now = [weft_scenes.free(rand, *rand.choices(names, weights))] if rand.randrange(SCENE) else rand.choice(weft_scenes.SCENES)(rand)
        script += [] if left_out & {name for name, *_ in drawn_now} else drawn_now
    return script[:STEPS]


class Search:
    """A place in which scripts are played, each from the same beginning."""

    def __init__(self, folder):
        self.folder = Path(folder)
        (self.folder / "world/tmp").mkdir(parents=True)
        program = self.folder / "program"
        program.write_text("# rattle logic=0123456789abcdef\n")
        self.inside = Inside(self.folder / "world", program)
        with self.inside.installed():
            weft_machine.begin(self.inside)
        shutil.copytree(self.folder / "world", self.folder / "begun")
        self.done = Counter()

    def renew(self):
        """Puts the beginning there."""
        world = self.folder / "world"
        for path in world.iterdir():
            shutil.rmtree(path) if path.is_dir() and not path.is_symlink() else path.unlink()
        shutil.copytree(self.folder / "begun", world, dirs_exist_ok=True)
        reseal(world)
        self.inside.came.clear()

    def play(self, script, is_calm=True):
        """Plays a script, mostly with quiet nights behind it; how many of its steps were done and the rule that is broken, or None."""
        self.renew()
        with self.inside.installed():
            self.inside.moment = weft_machine.BEGAN
            machine, place = Machine(self.inside), 0
            try:
                for place, step in enumerate(script, 1):
                    machine.do(step)
                    self.done[step[0]] += 1
                if is_calm:
                    machine.calm()
            except Broken as broken:
                return place, broken
        return None


def simpler(script):
    """Scripts with fewer steps, and then such with smaller numbers."""
    yield from without_parts(script)
    for place, (name, *numbers) in enumerate(script):
        for which, number in enumerate(numbers):
            for less in dict.fromkeys((0, 1, 2, 3, number // 2, number - 1)):
                if 0 <= less < number:
                    yield [*script[:place], (name, *numbers[:which], less, *numbers[which + 1 :]), *script[place + 1 :]]


def shrunk(search, script, broken):
    """The least script that was found in which the same rule is broken."""
    end, is_done = time.monotonic() + SHRINKING, False
    while not is_done:
        is_done = True
        for less in simpler(script):
            found = search.play(less) if time.monotonic() < end else None
            if found and found[1].rule == broken.rule:
                script, broken, is_done = less[: found[0]], found[1], False
                break
    return script, broken


def keep(script, broken, seed, number):
    """Writes a script, and tells it."""
    FOUND_SEARCH.mkdir(exist_ok=True)
    path = FOUND_SEARCH / f"{hashlib.sha256(json.dumps(script).encode()).hexdigest()[:8]}.json"
    path.write_text(json.dumps({"script": script, "rule": broken.rule, "told": broken.told, "seed": seed, "number": number}, indent=1) + "\n")
    print(f"{broken}\n  by {json.dumps(script)}\n  in {os.path.relpath(path)}")


def place_of_search():
    """A folder in memory where there is one: then no disk is waited for."""
    return tempfile.TemporaryDirectory(dir="/dev/shm" if os.access("/dev/shm", os.W_OK) else None)


def search_for(turns, seed, is_whole=True):
    """Plays so many turns, up to the first script that breaks a rule: that script, the number of it, how many turns were played, and the rule. Of a search that isn't
    whole it is neither shrunk nor kept, and there are no quiet nights."""
    begun = time.monotonic()
    with place_of_search() as folder:
        search = Search(folder)
        for number in range(-(-turns // STEPS)):
            script = drawn(seed, number)
            found = search.play(script, is_whole)
            if sys.stderr.isatty():
                print(f"\r{number * STEPS} turns", end="", file=sys.stderr, flush=True)
            if found and is_whole:
                print(f"script {number} of seed {seed} breaks a rule, and is being shrunk: {found[1]}", flush=True)
                keep(*shrunk(search, script[: found[0]], found[1]), seed, number)
            if found:
                return number * STEPS + found[0], found[1]
        if is_whole:
            print("\n".join(f"{count:>8}  {name}" for name, count in sorted(search.done.items())))
            print(f"seed {seed}: {turns} turns with {search.inside.runs} runs of weft in {time.monotonic() - begun:.0f} seconds, 0 wrong")
    return None


def planted(seed):
    """Plants each fault in a process of its own, and tells at which turn it was found: by a script that breaks no rule where nothing is planted."""
    missed = 0
    with place_of_search() as folder:
        search = Search(folder)
        for number, fault in enumerate(weft_planted.FAULTS):
            done = subprocess.run([sys.executable, __file__, PLANT, str(number), seed], capture_output=True, text=True)
            at = re.match("at turn ([0-9]+)", done.stdout)
            is_found = at is not None and search.play(drawn(seed, (int(at[1]) - 1) // STEPS), False) is None
            missed += not is_found
            print(f"{'found' if is_found else 'NOT FOUND'}: {fault.what}\n  {done.stdout.strip()[:200]}{done.stderr.strip()[-500:]}", flush=True)
    print(f"seed {seed}: {len(weft_planted.FAULTS) - missed} of {len(weft_planted.FAULTS)} planted faults found, each in {MOST_PLANTED} turns at most")
    return 1 if missed else 0


def find_planted(seed):
    """Searches for the fault that is planted in this process; the status is 0 where it is found."""
    found = search_for(MOST_PLANTED, seed, False)
    print(f"at turn {found[0]}, by the rule '{found[1].rule}'" if found else f"in none of {MOST_PLANTED} turns")
    return 0 if found else 1


def again(path):
    """Plays the script of a file once more."""
    with place_of_search() as folder:
        found = Search(folder).play([tuple(step) for step in json.loads(Path(path).read_text())["script"]])
    print(found[1] if found else "no rule is broken")
    return 1 if found else 0


def main():
    if sys.argv[1:2] == [PLANT]:
        return find_planted(sys.argv[3])
    words = reader_of_words(__doc__)
    words.add_argument("turns", metavar="TURNS", type=int, nargs="?", default=20_000)
    words.add_argument("seed", metavar="SEED", nargs="?", default="1")
    words.add_argument("--planted", metavar="SEED", nargs="?", const="1")
    words.add_argument("--again", metavar="FILE")
    asked = words.parse_args()
    if asked.again:
        return again(asked.again)
    if asked.planted:
        return planted(asked.planted)
    return 1 if search_for(asked.turns, asked.seed) else 0


if __name__ == "__main__":
    run_script(main)
