#!/usr/bin/env python3
"""Ten cases as a clerk and an expert meet them: what was sent, the lines got another way, the document, and what `weft judge` and the web page say of it. With a
report of each for a file of a court.

    examples/ten_cases.py PROGRAM FOLDER     makes the files of all cases in the folder, and in each case's own the report.html by weft judge, and evidence.zip, the
                                             bundle that has what was sent in one file

A registry logs deeds, by name and digest; a notary receives its lines, and logs a case of its own. A seller shows one history to a bank and another one to a port.
"""

from __future__ import annotations

import hashlib
import os
import subprocess
import sys
from pathlib import Path
from typing import NamedTuple

TOP = Path(__file__).resolve().parents[1]
FIRST, SECOND, FORGED = b"The house is sold to Ann.\n", b"The house is sold to Ann and Bob.\n", b"The house is sold to Eve.\n"
LETTER, TODAY = "2026-03-02T09:40:00Z letter from the notary", "2026-11-30T16:05:00Z mail from the registry"


class Case(NamedTuple):
    """A case: its name, what it is in words, the proof, what else was sent, the lines that the reader holds, the document, and what is said first."""

    name: str
    what: str
    proof: str
    sent: tuple[str, ...]
    own: tuple[str, ...]
    document: bytes | None
    headline: str


CASES = (
    Case("1-true", "a deed that was recorded before the notary's case", "order", (), ("registry 3", "notary 3"), FIRST, "shown"),
    Case("2-forged-deed", "the same proof, and a forged deed", "order", (), ("registry 3", "notary 3"), FORGED, "not shown: recorded, but not this file"),
    Case("3-other-version", "the proof of a deed, and a later version of it", "deed", (), ("registry 3",), SECOND, "not shown: recorded, but not this file"),
    Case("4-carried-way", "a way on which only the notary vouches for the registry's line", "carried", (), ("notary 3",), FIRST, "shown in part: on somebody's word"),
    Case("5-missing-lines", "a proof of which the reader holds no line", "order", (), (), FIRST, "not judged"),
    Case("6-senders-own-lines", "a proof with lines that its sender gave", "order", ("registry 3", "notary 3"), (), FIRST, "not judged"),
    Case("7-contradicting-letter", "two letters with two lines of one step", "deed", (), ("registry 3", "anew 3"), FIRST, "not judged"),
    Case("8-absence", "that the notary hadn't received a line by then", "absence", (), ("notary 3",), None, "shown"),
    Case("9-fork", "evidence that a seller showed two histories", "evidence", (), ("bank 2", "port 2"), None, "shown"),
    Case("10-rewritten-history", "a proof of a history that was made anew", "rewritten", (), ("registry 1", "anew 4"), FORGED, "not shown: two of your lines contradict each other"),
)  # fmt: skip


class World:
    """The services of all cases in a folder, and the files that they hand out."""

    def __init__(self, program: str, folder: Path):
        self.program, self.folder, self.lines = os.path.abspath(program), folder, dict[str, str]()
        folder.mkdir(parents=True)

    def run(self, *words: str) -> bytes:
        """Runs the program; its output."""
        return subprocess.run([self.program, *words], cwd=self.folder, check=True, capture_output=True).stdout

    def put(self, name: str, data: bytes) -> None:
        """Writes a file."""
        (self.folder / name).write_bytes(data)

    def begin(self, folder: str, name: str) -> None:
        """Makes a service."""
        (self.folder / folder).mkdir()
        self.run("init", folder, name)

    def append(self, folder: str, *events: bytes) -> None:
        """Records events, and keeps the line of the step as that of the folder."""
        number = lambda value: value.to_bytes(4, "big")  # noqa: E731
        self.put("events", b"TWE1" + number(len(events)) + b"".join(number(len(event)) + event for event in events))
        self.note(folder, self.run("append", folder, "events").decode())

    def receive(self, folder: str, other: str) -> None:
        """Receives a service's line."""
        self.put("message", self.run("thread", other, "0"))
        self.run("receive", folder, "message")

    def note(self, folder: str, line: str) -> None:
        """Notes a line by the folder and its step."""
        self.lines[f"{folder} {line.split()[1]}"] = line

    def make(self, **files: str) -> None:
        """Makes files of what the program tells."""
        for name, words in files.items():
            self.put(name, self.run(*words.split()))


def logged(name: str, data: bytes) -> bytes:
    """The event that a log of files makes of a file."""
    return f"{hashlib.sha256(data).hexdigest()}  ./{name}".encode()


def make_world(program: str, folder: Path) -> World:
    """All services, and the proofs of the cases."""
    world = World(program, folder)
    for place, name in (("registry", "registry"), ("anew", "registry"), ("notary", "notary"), ("seller", "seller"), ("other", "seller"), ("bank", "bank"), ("port", "port")):
        world.begin(place, name)
    for place, deed in (("registry", FIRST), ("anew", FORGED)):
        world.append(place, logged("deed.txt", deed))
        if place == "registry":
            world.append("notary", b"opened")
            world.receive("notary", place)
        world.append(place, logged("deed.txt", SECOND if place == "registry" else FORGED))
        world.append(place, b"closed for the year")
    world.append("anew", b"opened again")
    world.append("notary", b"case 17 was opened")
    for place, receiver in (("seller", "bank"), ("other", "port")):
        world.append(place, f"sold by {place}".encode())
        world.receive(receiver, place)
        world.append(receiver, b"closed")
    world.make(
        later="prove notary event 3 0", received="prove notary thread 2 registry 1", link="prove registry link 1 3", earlier="prove registry event 1 0 1",
        deed="prove registry event 1 0", absence="prove notary absent 3 registry 3", rewritten="prove anew event 1 0",
        first="prove bank thread 2 seller 1", second="prove port thread 2 seller 1",
    )  # fmt: skip
    world.make(order="join later received link earlier", carried="join later received earlier", evidence="accuse first second")
    return world


def make_case(world: World, case: Case, folder: Path) -> list[str]:
    """Puts the files of a case into its folder; the words of weft judge, in that folder."""
    folder.mkdir()
    (folder / case.proof).write_bytes((world.folder / case.proof).read_bytes())
    (folder / "my.lines").write_text("".join(f"{world.lines[name].strip()} {TODAY if name.startswith('anew') else LETTER}\n" for name in case.own))
    if case.sent:
        (folder / "sent.lines").write_text("".join(world.lines[name] for name in case.sent))
    if case.document is not None:
        (folder / "deed.txt").write_bytes(case.document)
    carried = ["--carried"] if case.proof == "carried" else []
    return [case.proof, "--kept", "my.lines", *carried, *(["--file", "deed.txt"] if case.document is not None else [])]


def make_bundle(world: World, case: Case, folder: Path) -> None:
    """Puts what was sent in a case into one file, as whoever sent it makes it under his own lines: of the history that was made anew under those of that."""
    others = ("other", "registry" if case.proof == "rewritten" else "anew")
    world.put(f"{case.name}.lines", "".join(line for name, line in world.lines.items() if name.split()[0] not in others).encode())
    record = ["--file", "deed.txt"] if case.document is not None else []
    run_weft(world, folder, "bundle", "evidence.zip", case.proof, *record, "--kept", world.folder / f"{case.name}.lines").check_returncode()


def run_weft(world: World, folder: Path, *words: str | Path) -> subprocess.CompletedProcess[str]:
    """Runs weft in a folder."""
    environment = {**os.environ, "TIMEWEAVE_PROGRAM": world.program}
    return subprocess.run([sys.executable, TOP / "weft/bin/weft", *words], cwd=folder, capture_output=True, text=True, env=environment, check=False)


def main(program: str, place: str) -> int:
    """Makes all cases and their reports, and says what is said of each."""
    whole = Path(place).resolve()
    world = make_world(program, whole / "world")
    for case in CASES:
        words = make_case(world, case, whole / case.name)
        make_bundle(world, case, whole / case.name)
        done = run_weft(world, whole / case.name, "judge", *words, "--report", "report.html")
        said = next((line for line in done.stdout.splitlines() if line.startswith(f"{case.proof}: ")), done.stderr.strip())
        print(f"{case.name}: {case.what}\n  {said}")
    return 0


if __name__ == "__main__":
    sys.exit(main(*sys.argv[1:3]))
