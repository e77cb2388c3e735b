"""Where things are in the repository, and how long a run may take; importing this module makes weft, the reference, the tools and the network importable."""

import sys
from pathlib import Path

HARNESS = Path(__file__).resolve().parent
ACCEPTANCE = HARNESS.parent
CASES = ACCEPTANCE / "cases"
FOUND = CASES / "found"
TOP = ACCEPTANCE.parent.parent
MANUAL = TOP / "docs/timeweave.1"

for folder in (TOP, TOP / "reference", TOP / "tools", TOP / "bindings/python", TOP / "tests"):
    if str(folder) not in sys.path:
        sys.path.insert(0, str(folder))

# The seconds that a run may take; one that takes longer has failed.
LONGEST = 300
