#!/usr/bin/env python3
"""Asks the built library and the reference which rules pairs of files show broken, of keepers who break one or none; the acceptance run asks for 4,000 pairs.

    python3 tests/acceptance/fuzz_pairs.py [COUNT] [SEED]           100,000 pairs of seed 1, if they aren't said, take a minute or two
    python3 tests/acceptance/fuzz_pairs.py --again FILE             asks for a pair of a file once more
    python3 tests/acceptance/fuzz_pairs.py --reference              asks the reference alone, and tells what it answers: nothing need be built

Histories are drawn by chance, most of which break a rule; of each, files are asked for, some of which are then changed or put into evidence (harness/drawn_pairs.py). Status
and text of the library have to be what the reference says, and the module for Python has to read them. The first pair that differs is shrunk, to the least steps, entries
and changes that still differ, and written into cases/found_pairs/, where the acceptance run asks for it from then on. At the end it is told how many pairs were told what,
and the seed.
"""

import hashlib
import json
import os
import time
from collections import Counter
from concurrent.futures import ProcessPoolExecutor
from functools import partial

from harness.asked_pairs import FOUND_PAIRS, can_ask, difference, head, names_innocent, read_pair, wanted
from harness.drawn_pairs import OF_ONE, drawn_recipe, pair_of, recipe_to_json, shrunk

from command_line import reader_of_words, run_script

# How many pairs a process asks for at once; it is of whole histories.
AT_ONCE = 10 * OF_ONE


def tried(seed, is_alone, numbers):
    """What the pairs of these numbers are told, and the first of them that differs, or None."""
    told = Counter()
    for number in numbers:
        recipe = drawn_recipe(seed, number)
        pair = pair_of(recipe)
        if pair:
            told[("sound: " if recipe.is_sound else "") + head(pair)] += 1
            if names_innocent(recipe, pair):
                raise SystemExit(f"pair {number} of seed {seed} is of a history that keeps the rules, and the reference says that it broke one: {recipe}")
            if not is_alone and difference(pair):
                return told, number
    return told, None


def keep(seed, number):
    """Shrinks a pair that differs, writes it, and tells it."""
    recipe = shrunk(drawn_recipe(seed, number), difference)
    pair = pair_of(recipe)
    row = {**pair.to_json(), "recipe": recipe_to_json(recipe), "seed": seed, "number": number, "wanted": wanted(pair)[1].decode(), "differs": difference(pair)}
    FOUND_PAIRS.mkdir(exist_ok=True)
    path = FOUND_PAIRS / f"{pair.function}-{hashlib.sha256(b''.join(pair.parts)).hexdigest()[:8]}.json"
    path.write_text(json.dumps(row, indent=1) + "\n")
    print(f"pair {number} of seed {seed} differs\n{row['differs']}\n  it is in {os.path.relpath(path)}, as the least recipe that was found:")
    print(json.dumps(row["recipe"]))


def fuzz(count, seed, is_alone):
    """Asks for so many pairs, up to the first that differs."""
    begun, told, found = time.monotonic(), Counter(), None
    numbers = [range(first, min(first + AT_ONCE, count)) for first in range(0, count, AT_ONCE)]
    with ProcessPoolExecutor(os.cpu_count()) as pool:
        for heads, differs in pool.map(partial(tried, seed, is_alone), numbers):
            told += heads
            found = differs if found is None else found
    print("\n".join(f"{number:>8}  {words}" for words, number in sorted(told.items())))
    if found is not None:
        keep(seed, found)
    with_what = "of the reference alone" if is_alone else "one of which differs" if found is not None else "each as the reference says"
    print(f"seed {seed}: {sum(told.values())} pairs of {count} drawn in {time.monotonic() - begun:.0f} seconds, {with_what}")
    return 1 if found is not None else 0


def again(path):
    """Asks for the pair of a file once more, and tells where it differs."""
    differs = difference(read_pair(path))
    print(differs or "the library answers as the reference says")
    return 1 if differs else 0


def main():
    words = reader_of_words(__doc__)
    words.add_argument("count", metavar="COUNT", type=int, nargs="?", default=100_000)
    words.add_argument("seed", metavar="SEED", nargs="?", default="1")
    words.add_argument("--again", metavar="FILE")
    words.add_argument("--reference", action="store_true")
    asked = words.parse_args()
    if not asked.reference and not can_ask():
        print("the library that is built doesn't have these functions: `make lib` builds it")
        return 1
    return again(asked.again) if asked.again else fuzz(asked.count, asked.seed, asked.reference)


if __name__ == "__main__":
    run_script(main)
