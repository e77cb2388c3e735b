#!/usr/bin/env python3
"""Plants the faults of the acceptance run in copies of a release, for whoever judges them; or tells which were found.

    python3 tests/packages/plant.py DIST INTO      INTO/NUMBER is a copy of DIST with a fault; a file INTO/NUMBER.careful lies beside one without signature
    python3 tests/packages/plant.py DIST --found INTO    INTO/NUMBER.told is what the judge said of it: tells each fault, and how many were found

tests/packages/empty_debian.sh does both.
"""

import sys
from pathlib import Path

sys.path.insert(0, str(Path(__file__).resolve().parent.parent / "acceptance"))

import harness.places  # noqa: E402, F401
from cases import released  # noqa: E402
from command_line import reader_of_words, run_script  # noqa: E402


def plant(dist, into):
    """Writes the copies."""
    for number, (fault, is_careful) in enumerate(released.faults_of(dist)):
        released.planted(dist, into / str(number), fault, is_careful)
        if is_careful:
            (into / f"{number}.careful").touch()


def tell(dist, into):
    """Tells of each fault what the judge said first of it; the status to end with."""
    faults, count = released.faults_of(dist), 0
    for number, (fault, _) in enumerate(faults):
        said = (into / f"{number}.told").read_text().splitlines()
        bad = [line for line in said if line.startswith("BAD")]
        is_found = released.found_by(fault, said)
        count += is_found
        print(f"{'found' if is_found else 'NOT FOUND'}: {fault[0]}: {bad[0][:150] if bad else '-'}")
    print(f"{count} of {len(faults)} planted faults found")
    return 0 if count == len(faults) else 1


def main():
    """Plants or tells; the status to end with."""
    words = reader_of_words(__doc__)
    words.add_argument("dist", type=Path, metavar="DIST", help="the release")
    words.add_argument("into", type=Path, metavar="INTO", help="the folder of the copies")
    words.add_argument("--found", action="store_true", help="tell which faults were found")
    told = words.parse_args()
    return (tell if told.found else plant)(told.dist, told.into) or 0


if __name__ == "__main__":
    run_script(main)
