"""An acceptance case of a reader of proofs who has no program: the reference judges as the program does."""

import subprocess
import sys

from example_files import archived_threads

from harness.places import LONGEST, TOP
from harness.rooms import Wrong, case
from harness.samples import flipped
from harness.ways import ways, with_carried


def write_threads(room):
    """A history with threads, proofs over it, and its anchors."""
    for name, data in archived_threads().items():
        room.put(name, data)


def without_the_program(room):
    """proofs are judged without the program as the program judges them"""
    write_threads(room)
    files = [(name, "anchors") for name in ("thread", "absent", "link")]
    for number, way in enumerate(ways()[::16]):
        lines = "".join(f"{name} {step} {auth.hex()}\n" for name, (step, auth) in way.anchors().items())
        loose = with_carried(way, {0}).to_bytes()
        for name, data in (("whole", way.to_bytes()), ("loose", loose), ("event", way.part_bytes()[0]), ("changed", flipped(loose, 99))):
            room.put(f"{name} {number}", data)
            room.put(f"lines {number}", lines.encode())
            files.append((f"{name} {number}", f"lines {number}"))
    for proof, lines in files:
        for form in ("verify", "strict"):
            status, output, _ = room.run(form, proof, lines)
            command = [sys.executable, "-I", TOP / "reference/timeweave_reference", "judge", proof, lines, *["strict"] * (form == "strict")]
            done = subprocess.run(command, cwd=room.folder, capture_output=True, timeout=LONGEST)
            if (done.returncode, done.stdout) != (status, output):
                raise Wrong(f"  python3 -I reference/timeweave_reference judge {proof!r} {lines!r} {form}\n  wanted {status} {output!r}\n  got    {done}")


def cases():
    return [case(without_the_program, "entries")]
