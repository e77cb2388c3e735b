"""Acceptance cases of what weft decides, the folder weft/deciding: its tests, and that each place of it that is turned is refused by one of them."""

import subprocess
import sys

from harness.places import TOP
from harness.rooms import Wrong, case


def run_python(*words):
    """Runs Python from the top."""
    done = subprocess.run([sys.executable, *words], cwd=TOP, capture_output=True, text=True, timeout=900)
    if done.returncode:
        raise Wrong(f"  {' '.join(words)}: {done.returncode}\n{done.stdout[-3000:]}{done.stderr[-3000:]}")


def tested(room):
    """each rule of weft/deciding passes its tests"""
    del room
    run_python("-m", "unittest", "discover", "-s", "tests/deciding")


def turned(room):
    """each place of weft/deciding that decides something is turned, one at a time, and a test refuses it"""
    del room
    run_python("tests/deciding/mutate.py")


def cases():
    return [case(work, "weft decides") for work in (tested, turned)]
