#!/usr/bin/env python3
"""Runs the cases of weft in this process, one at a time; the acceptance run runs each in a process of its own.

    python3 tests/acceptance/weft_cases.py PROGRAM [PATTERN]    runs those whose name has the pattern; with = before it, the one of that whole name
"""

import time

from cases.weft import own_cases
from harness.rooms import SKIPPED

from command_line import reader_of_words, run_script


def main():
    """Runs the cases; answers the status: 1 where one failed, or none has the pattern."""
    words = reader_of_words(__doc__)
    words.add_argument("program", metavar="PROGRAM", help="the built program")
    words.add_argument("pattern", nargs="?", default="", metavar="PATTERN", help="what stands in the name of a case")
    told = words.parse_args()
    program, pattern, failed, found = told.program, told.pattern, 0, 0
    for it in own_cases():
        if it["name"] != pattern.removeprefix("=") if pattern.startswith("=") else pattern not in it["name"]:
            continue
        began = time.monotonic()
        wrong = it["check"](program)
        found += 1
        failed += wrong is not None
        print(f"{'FAILED' if wrong else 'ok'} {it['name']} ({time.monotonic() - began:.1f} s)" + (f"\n{wrong}" if wrong else ""), flush=True)
    for name in SKIPPED:
        print(f"skipped {name}")
    return 1 if failed or not found else 0


if __name__ == "__main__":
    run_script(main)
