#!/usr/bin/env python3
"""Kills what records at so many drawn moments, under four writers at once, with keys and then without, and records on a full device and on one that can't be written; an auditor of its own holds all
that the writers were told against the store. The acceptance run does a few of these kills (harness/recorders.py).

    python3 tests/acceptance/kill_recording.py [PROGRAM [KILLS [SEED]]]      `make crash-recording` calls it so
"""

import os
import tempfile
import time

from harness.places import TOP
from harness.recorders import killed_often, on_a_full_device
from harness.rooms import Skipped, Wrong

from command_line import reader_of_words, run_script


def main():
    """Does all, and tells what the auditor counted."""
    words = reader_of_words(__doc__)
    words.add_argument("program", nargs="?", default=TOP / "bin/timeweave", metavar="PROGRAM", help="the built program")
    words.add_argument("kills", nargs="?", type=int, default=500, metavar="KILLS", help="how many moments are drawn")
    words.add_argument("seed", nargs="?", default="1", metavar="SEED", help="by what they are drawn")
    told = words.parse_args()
    program, kills, seed, began = os.path.abspath(told.program), told.kills, told.seed, time.monotonic()
    try:
        with tempfile.TemporaryDirectory(prefix="device-") as folder:
            try:
                print("full, then with room again:", *on_a_full_device(folder, program), flush=True)
            except Skipped as missing:
                print(f"skipped: {missing}", flush=True)
        for have_keys in (True, False):
            with tempfile.TemporaryDirectory(prefix="kills-") as folder:
                killed, found = killed_often(folder, program, kills, seed, lambda text: print(text, flush=True), have_keys)
            told = f"{sum(killed.values())} killed, {'three of four events with keys' if have_keys else 'without keys'}, {killed}: {found}"
            print(f"{told}, nothing lost, nothing twice ({time.monotonic() - began:.0f} s)", flush=True)
    except Wrong as wrong:
        print(f"WRONG\n{wrong}")
        return 1
    return 0


if __name__ == "__main__":
    run_script(main)
