#!/usr/bin/env python3
"""The README's examples by the second implementation, in some seconds, on a machine that has Python alone.

    python3 tools/look.py           shows each command with what it prints; `make look` calls it so
    python3 tools/look.py --quiet   prints the outputs alone, which `make demo` compares with those of the proved program

Nothing is built and nothing is installed; what it makes goes into a folder that is deleted at the end. Status 0: all ended as they had to.
"""

import os
import re
import shutil
import subprocess
import tempfile
from pathlib import Path

from command_line import reader_of_words, run_script

TOP = Path(__file__).resolve().parent.parent
PROGRAM = TOP / "reference/bin/timeweave-unproved"
MARK = "NOT PROVED: second implementation"

# What differs by day, by folder and by who judged.
VARYING = ((r"kept \d{4}-\d\d-\d\d", "kept DAY"), (r"judged by: .*", "judged by: .."))


def examples():
    """The commands of the README's examples that work in a folder of their own, in their order."""
    text = (TOP / "README.md").read_text(encoding="utf-8").split("\n## Five minutes\n")[1].split("\n## When a command fails")[0]
    blocks = re.findall(r"(?:^    .*\n)+", text, re.M)
    commands = [line[6:] for block in blocks for line in block.splitlines() if line.startswith("    $ ")]
    return [command for command in commands if not command.startswith(("export ", "cd "))]


def unproved(command):
    """A command of the README as the second implementation is asked."""
    command = re.sub(r"\btimeweave (?=\w)", "timeweave-unproved ", command)
    return re.sub(r"\bweft log\b", "weft log --unproved", command)


def environment(folder):
    """The variables that the commands are run with: the second implementation for the program, lines kept in the folder."""
    return {
        "PATH": f"{TOP / 'reference/bin'}:{TOP / 'weft/bin'}:/usr/local/bin:/usr/bin:/bin",
        "TIMEWEAVE_PROGRAM": str(PROGRAM),
        "WEFT_KEPT": str(folder / "kept"),
        "HOME": str(folder),
        "LC_ALL": "C.UTF-8",
    }


def run(command, folder, settings):
    """Runs a command, by a shell; its status and what it printed, the mark of the second implementation left out."""
    done = subprocess.run(["/bin/sh", "-c", command], cwd=folder, env=settings, stdout=subprocess.PIPE, stderr=subprocess.PIPE, text=True, check=False)
    told = [line for line in done.stderr.splitlines() if line != MARK]
    return done.returncode, done.stdout + "".join(f"{line}\n" for line in told)


def plain(text):
    """A text without what differs from run to run."""
    for pattern, to in VARYING:
        text = re.sub(pattern, to, text)
    return text


def show(is_quiet):
    """Runs all commands; answers whether each ended with a status that means done, shown or not shown."""
    folder = Path(tempfile.mkdtemp(prefix="timeweave-look-"))
    is_good = True
    try:
        settings = environment(folder)
        for command in [*map(unproved, examples()), "weft judge chain --svg way.svg > told; test -s way.svg && echo 'way.svg: a picture of the way'"]:
            status, output = run(command, folder, settings)
            is_good = is_good and status in (0, 20, 21)
            print(plain(output) if is_quiet else f"$ {command}\n{output}", end="" if is_quiet else "\n", flush=True)
        picture = folder / "way.svg"
        if not is_quiet and picture.exists():
            kept = Path(tempfile.gettempdir()) / f"timeweave-way-{os.getpid()}.svg"
            shutil.copyfile(picture, kept)
            print(f"The picture of the way: {kept}")
    finally:
        shutil.rmtree(folder, ignore_errors=True)
    return is_good


def main():
    """Shows the examples; the status to end with."""
    parser = reader_of_words(__doc__)
    parser.add_argument("--quiet", action="store_true", help="prints the outputs alone")
    options = parser.parse_args()
    if not options.quiet:
        print(f"{MARK}. It answers as the proved program does, and shows what that does; `make demo` builds that one.\n")
    return 0 if show(options.quiet) else 1


if __name__ == "__main__":
    run_script(main)
