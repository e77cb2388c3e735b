#!/usr/bin/env python3
"""Shows the README's examples by the second implementation at once, proves and builds the program, and shows that it says the same.

    python3 tools/demo.py       `make demo` calls it so

Where the kit isn't there, which proves and builds, it ends behind the first part, and says what is missing. How long the building took
last time is told before it. Status 0: all that could be shown was.
"""

import os
import shutil
import subprocess
import sys
import tempfile
from pathlib import Path

from command_line import reader_of_words, run_script
import look
import progress
import proved_by

TOP = Path(__file__).resolve().parent.parent
PROGRAM = TOP / "bin/timeweave"
EXAMPLES = ("two_services", "archived_threads", "chain_of_three", "event_chain", "audited_chain")


def describe_minutes():
    """How long the building took here last time, as a sentence."""
    minutes = progress.read_minutes("build")
    if minutes is None:
        return "How long that takes here isn't known yet: mostly half an hour to an hour."
    return f"Here it took {minutes} minutes last time; where nothing has changed since, it takes none."


def said_by(commands, settings):
    """What the commands print, run one after another in a folder of their own."""
    with tempfile.TemporaryDirectory(prefix="timeweave-demo-") as folder:
        return [look.plain(look.run(command, Path(folder), settings(Path(folder)))[1]) for command in commands]


def proved_environment(folder):
    """The variables that the commands are run with by the proved program."""
    return {**look.environment(folder), "TIMEWEAVE_PROGRAM": str(PROGRAM), "PATH": f"{PROGRAM.parent}:{TOP / 'weft/bin'}:/usr/local/bin:/usr/bin:/bin"}


def compare():
    """Shows the README's examples by the proved program; whether it says what the second implementation said."""
    commands = look.examples()
    proved = said_by(commands, proved_environment)
    second = said_by([look.unproved(command) for command in commands], look.environment)
    for command, output in zip(commands, proved):
        print(f"$ {command}\n{output}", end="" if output else "\n", flush=True)
    other = [command for command, one, two in zip(commands, proved, second) if one != two]
    for command in other:
        print(f"The two differ in: {command}", file=sys.stderr)
    print("" if other else "\nThe proved program and the second implementation said the same of all of it.")
    return not other


def main():
    """Shows all of it; the status to end with."""
    reader_of_words(__doc__).parse_args()
    print(f"First, by the second implementation.\n{look.MARK}.\n", flush=True)
    if not look.show(is_quiet=False):
        return 1
    if shutil.which("rt") is None:
        print(f"\nThat was all: to prove and build the program takes the kit {proved_by.proved_by().name}, the command `rt`, which isn't on the path.")
        return 0
    print(f"\nNow the program is proved and built: every proof below it is checked. {describe_minutes()}", flush=True)
    status = subprocess.run([sys.executable, TOP / "tools/build.py", "timeweave"], check=False).returncode
    if status:
        return status
    print("\nThe same by the proved program.\n", flush=True)
    is_same = compare()
    for name in EXAMPLES:
        print(flush=True)
        status = status or subprocess.run([TOP / f"examples/{name}.sh", PROGRAM], env={**os.environ}, check=False).returncode
    return status or (0 if is_same else 1)


if __name__ == "__main__":
    run_script(main)
