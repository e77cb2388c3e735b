"""Cases that stand in files beside this one: the examples of the papers and of other implementations, and words, files and outputs at their
limits, with what is to be told of each. The cases of FILE.json are named `FILE: ..`."""

import json

from harness.places import CASES


def cases():
    for path in sorted(CASES.glob("*.json")):
        for case in json.loads(path.read_text()):
            yield {**case, "name": f"{path.stem}: {case['name']}"}
