"""The scripts of examples/, run beside the program."""

import os
import subprocess

from harness.places import LONGEST, TOP


def with_program(program):
    """The environment in which the program and weft are found by their names."""
    return {**os.environ, "PATH": f"{os.path.dirname(program)}:{TOP / 'weft/bin'}:{os.environ['PATH']}"}


def script(room, name, *words, errors=False):
    """Runs a script of examples/; answers its status and its output, and with `errors` what it told on standard error too."""
    command = ["sh", TOP / "examples" / name, *words]
    done = subprocess.run(command, cwd=room.folder, env=with_program(room.program), capture_output=True, text=True, timeout=LONGEST)
    return (done.returncode, done.stdout, done.stderr) if errors else (done.returncode, done.stdout)


def linked(room):
    """The program under its own name, in the room's folder."""
    (room.folder / "bin").mkdir()
    (room.folder / "bin/timeweave").symlink_to(room.program)
    room.program = str(room.folder / "bin/timeweave")
