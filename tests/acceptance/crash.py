#!/usr/bin/env python3
"""Tries all that a loss of power may leave of a store on the built program, of which the acceptance run tries some (harness/power.py).

    python3 tests/acceptance/crash.py [PROGRAM]      `make crash` calls it so
"""

import os
import random
from concurrent.futures import ThreadPoolExecutor

from harness.places import TOP
from harness.power import SIZES, name_of, recorded, tried
from harness.rooms import Skipped

from command_line import reader_of_words, run_script


def main():
    """Tries all images, and tells how many there are of each run."""
    words = reader_of_words(__doc__)
    words.add_argument("program", nargs="?", default=TOP / "bin/timeweave", metavar="PROGRAM", help="the built program")
    program = os.path.abspath(words.parse_args().program)
    failed, workers = 0, os.cpu_count()
    for size in (None, *SIZES):
        try:
            histories, device = recorded(program, size)
        except Skipped as missing:
            print(f"skipped: {missing}")
            return 1
        images = list(device.images(random.Random(f"power {size}")))
        with ThreadPoolExecutor(workers) as pool:
            found = pool.map(lambda part: list(tried(program, histories, part)), [images[k::workers] for k in range(workers)])
        wrong = [it for part in found for it in part]
        print(f"{name_of(size)}: {len(images)} images, {len(wrong)} wrong", *wrong[:1], sep="\n", flush=True)
        failed += bool(wrong)
    return 1 if failed else 0


if __name__ == "__main__":
    run_script(main)
