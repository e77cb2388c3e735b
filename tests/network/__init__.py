"""A network of services that weave themselves, which is played beside the truth; and how a run of weft is forked, and stopped by a fault.

    python3 tests/play_network.py PROGRAM [SERVICES [NIGHTS [SEED]]]"""

import sys
from pathlib import Path

TOP = Path(__file__).resolve().parents[2]

for place in (TOP, TOP / "reference", TOP / "bench"):
    if str(place) not in sys.path:
        sys.path.insert(0, str(place))
