"""Trials: commands that are run one after another in a folder, and what the reference says of each.

Of a store whose bytes were changed the reference can't say what is found there: then a command with its folder may answer with a status of
these and a text of these, and one that only reads leaves the store as it is.
"""

import subprocess
import tempfile
from dataclasses import dataclass, field
from pathlib import Path
from typing import Dict, List, NamedTuple, Optional

from harness.rooms import Room
from timeweave_reference.folders import Folders, Store
from timeweave_reference.followers import Follower
from timeweave_reference.services import Service
from timeweave_reference.words import FOLDER, kinds_of

# What a command may answer that met a store whose bytes were changed: the status, and what its text begins with.
OF_CHANGED_STORES = {0: b"", 5: b"fault disk\n", 7: b"refused ", 8: b"store "}

# The commands that write a store.
WRITING = ("init", "append", "receive", "watch", "offer")

# The file of a store in its folder, and the most bytes of it that are compared.
STORE, MOST_STORE = "timeline.tw", 1 << 26


class Command(NamedTuple):
    """The words, and the file that the output of status 0 is kept in, for later commands, or None."""

    words: List[str]
    kept: Optional[str] = None


@dataclass(frozen=True)
class Trial:
    """Commands, in their order; files by their names; folders by their names, each with its service, its follower or None; and the bytes of
    stores that were changed, by their folders."""

    commands: List[Command]
    files: Dict[str, bytes] = field(default_factory=dict)
    stores: Dict[str, Store] = field(default_factory=lambda: {"d": None})
    changed: Dict[str, bytes] = field(default_factory=dict)

    def image(self, folder):
        """The bytes of a folder's store at first; none where there is none."""
        store = self.stores[folder]
        return self.changed[folder] if folder in self.changed else store.file() if store else b""


def one(words, files, store=None, changed=None):
    """The trial of one command, over a store in the folder `d` or none, whose bytes may be others."""
    return Trial([Command(list(words))], files, {"d": store}, {} if changed is None else {"d": changed})


class Answer(NamedTuple):
    """A status, the output, and the bytes of the store in the command's folder then. Of one that is wanted, None stands for whatever may be."""

    status: Optional[int]
    output: Optional[bytes]
    store: Optional[bytes]

    def allows(self, found):
        """Whether a command may answer so."""
        if self.status is None:
            begun = OF_CHANGED_STORES.get(found.status)
            return begun is not None and found.output.startswith(begun) and self.store in (None, found.store)
        return (self.status, self.output) == found[:2] and self.store in (None, found.store)


def folder_of(words, trial):
    """The folder of a command, where it is one of the trial."""
    kinds = kinds_of(words)
    if isinstance(kinds, list) and FOLDER in kinds:
        return words[kinds.index(FOLDER)] if words[kinds.index(FOLDER)] in trial.stores else None
    return None


def copied(store):
    """The store, which may be changed then."""
    return store.copied() if isinstance(store, Service) else Follower(store.name, store.heads) if store else None


def wanted(trial):
    """What the reference says of each command. Of a trial with a changed store only the first command is told rightly."""
    folders, files = Folders({name: copied(store) for name, store in trial.stores.items()}), dict(trial.files)
    for words, kept in trial.commands:
        folder = folder_of(words, trial)
        if folder in trial.changed and not is_told_before(words, files):
            found = Answer(None, None, None if words[0] in WRITING else trial.image(folder))
        else:
            status, output = folders.answer(words, files)
            store = trial.image(folder) if folder in trial.changed else file_of(folders.stores[folder]) if folder else None
            found = Answer(status, output, store)
        yield found
        if kept and found.status == 0:
            files[kept] = found.output
        elif kept:
            files.pop(kept, None)


def file_of(store):
    return store.file() if store else b""


def is_told_before(words, files):
    """Whether a command with a folder is answered before the folder is looked at."""
    return Folders({}).answer(words, files) != (5, b"fault disk\n")


def ran(program, trial, **settings):
    """What the program answers to each command, in a folder of its own."""
    with tempfile.TemporaryDirectory() as place:
        room = Room(program, place)
        for name in trial.stores:
            (room.folder / name).mkdir()
            if trial.image(name):
                room.put(f"{name}/{STORE}", trial.image(name))
        for name, data in trial.files.items():
            room.put(name, data)
        for words, kept in trial.commands:
            try:
                status, output, errors = room.run(*words, **settings)
            except subprocess.TimeoutExpired:
                status, output, errors = None, b"", b"it ran for too long"
            if kept and status == 0:
                room.put(kept, output)
            elif kept:
                (room.folder / kept).unlink(missing_ok=True)
            yield Answer(status, output + errors, stored(room.folder, folder_of(words, trial)))


def stored(place, folder):
    """The bytes of the store of a folder, none where there is none, or far too many."""
    path = Path(place) / (folder or "") / STORE
    # (from a changed store the program may take it that pages stand far behind its end)
    return path.read_bytes() if folder and path.exists() and path.stat().st_size <= MOST_STORE else b""


class Difference(NamedTuple):
    """The number of the first command, from 1, whose answer isn't as it may be; what is wanted, and what was found."""

    number: int
    said: Answer
    found: Answer


def difference(program, trial):
    """Runs the trial, and tells where the program and the reference differ first, or None."""
    for number, (said, found) in enumerate(zip(wanted(trial), ran(program, trial)), 1):
        if not said.allows(found):
            return Difference(number, said, found)
    return None


def describe_trial(trial, differs):
    """The commands up to the one that differs, what is wanted there and what was found."""
    number, said, found = differs
    lines = [f"  $ timeweave {' '.join(map(repr, words))}" + (f" > {kept}" if kept else "") for words, kept in trial.commands[:number]]
    store = "" if said.store in (None, found.store) else "\n  the store is another one"
    return "\n".join([*lines, f"  wanted {said[:2]}", f"  got    {found[:2]}{store}"])
