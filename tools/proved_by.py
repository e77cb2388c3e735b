#!/usr/bin/env python3
"""By which kit and logic this tree was last proved: the file KIT names them, and README.md, NOTICE and the kit at hand are held against it.

    python3 tools/proved_by.py            says how the documents and the kit at hand stand to it; status 1 where a document names
                                          another kit, or the logic is another
    python3 tools/proved_by.py --write    names the kit at hand in KIT, README.md and NOTICE, once the gate has passed by it
"""

import re
import shutil
import subprocess
import sys
from pathlib import Path
from typing import List, NamedTuple, Optional

from command_line import reader_of_words, run_script

TOP = Path(__file__).resolve().parent.parent
FILE = TOP / "KIT"

# The documents that name the kit.
NAMING = ("README.md", "NOTICE")
NAME = re.compile(r"rattle-kit-\w+")


class Kit(NamedTuple):
    """A kit's name, and the first digits of the digest of the logic that its proofs are of."""

    name: str
    logic: str


def proved_by() -> Kit:
    """The kit that KIT names."""
    told = dict(line.split(" ", 1) for line in FILE.read_text().splitlines())
    return Kit(told["kit"], told["logic"])


def at_hand() -> Optional[Kit]:
    """The kit of this machine; None where there is none."""
    if shutil.which("rt") is None:
        return None
    found = re.match(r"(\S+) logic (\w+)", subprocess.run(["rt", "version"], check=True, capture_output=True, text=True).stdout)
    return Kit(found[1], found[2]) if found else Kit("a kit that doesn't say its name", "-")


def otherwise(documents: "dict[str, str]", kit: Kit) -> List[str]:
    """What the documents say otherwise than KIT, or don't say."""
    wrong = []
    for name, text in documents.items():
        found = set(NAME.findall(text))
        if found != {kit.name}:
            wrong.append(f"{name} names {', '.join(sorted(found)) or 'no kit'}, and KIT {kit.name}")
    return wrong


def same_logic(found: Kit, kit: Kit) -> bool:
    """Whether proofs by both kits are of one logic."""
    return found.logic == kit.logic


def compared(found: Kit, kit: Kit) -> str:
    """How a kit at hand stands to the one by which the tree was proved, as a sentence."""
    if found == kit:
        return f"The kit at hand is the one by which this tree was proved: {kit.name}, logic {kit.logic}."
    if same_logic(found, kit):
        return f"The kit at hand is {found.name}, and this tree was proved by {kit.name}: both have the logic {kit.logic}."
    proved = f"by that this tree wasn't proved, but by {kit.name} with the logic {kit.logic}"
    return f"The kit at hand is {found.name} with the logic {found.logic}: {proved}."


def documents() -> "dict[str, str]":
    """The documents that name the kit, by their names."""
    return {name: (TOP / name).read_text(encoding="utf-8") for name in NAMING}


def write(kit: Kit) -> None:
    """Names a kit in KIT and in the documents."""
    FILE.write_text(f"kit {kit.name}\nlogic {kit.logic}\n")
    for name, text in documents().items():
        (TOP / name).write_text(NAME.sub(kit.name, text), encoding="utf-8")


def main() -> int:
    """Says how they stand; the status to end with."""
    words = reader_of_words(__doc__)
    words.add_argument("--write", action="store_true", help="names the kit at hand in all three")
    found = at_hand()
    if words.parse_args().write:
        if found is None:
            sys.exit("proved_by: there is no kit at hand: `rt` isn't on the path")
        write(found)
    kit = proved_by()
    wrong = otherwise(documents(), kit)
    told = compared(found, kit) if found else f"There is no kit at hand; this tree was proved by {kit.name}, logic {kit.logic}."
    print(*wrong, told, sep="\n")
    return 1 if wrong or (found and not same_logic(found, kit)) else 0


if __name__ == "__main__":
    run_script(main)
