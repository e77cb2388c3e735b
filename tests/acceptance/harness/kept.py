"""Trials as files: what the fuzzer found, to be run again.

A file is JSON: `commands`, each its words and the file that its output is kept in, or null; `files`, hexadecimal; `stores`, for each folder null, a
service by its name, its steps' events and their times, or a follower by its name and its heads; and `changed`, for each folder whose store has
other bytes than those, how many, and at which places which. What else it has is for readers: the seed and the number of the trial, which
command differed, what the reference wanted then, and what the program answered.
"""

import json

from harness.trials import Command, Trial
from timeweave_reference.followers import Follower
from timeweave_reference.services import Service, service_of


def store_to_json(store):
    """A service that received nothing, a follower, or none."""
    if isinstance(store, Service):
        steps = [[event.hex() for event in events] for events in store.line.steps]
        return {"service": store.name, "steps": steps, "times": store.line.times}
    return {"follower": store.name, "heads": [[step, auth.hex()] for step, auth in store.heads]} if store else None


def store_of_json(row):
    if row is None:
        return None
    if "service" in row:
        return service_of(row["service"], [[bytes.fromhex(event) for event in events] for events in row["steps"]], row["times"])
    return Follower(row["follower"], [(step, bytes.fromhex(auth)) for step, auth in row["heads"]])


def edits(before, after):
    """The places at which bytes differ, each with what stands there then."""
    found, at = [], 0
    while at < len(after):
        end = at
        while end < len(after) and after[end : end + 1] != before[end : end + 1]:
            end += 1
        if end > at:
            found.append([at, after[at:end].hex()])
        at = end + 1
    return found


def edited(before, size, places):
    data = bytearray(before[:size].ljust(size, b"\0"))
    for place, text in places:
        data[place : place + len(text) // 2] = bytes.fromhex(text)
    return bytes(data)


def to_json(trial):
    """The trial as a file has it."""
    changed = {}
    for folder, data in trial.changed.items():
        before = trial.stores[folder].file() if trial.stores[folder] else b""
        changed[folder] = {"size": len(data), "edits": edits(before, data)}
    return {
        "commands": [[words, kept] for words, kept in trial.commands], "files": {name: data.hex() for name, data in trial.files.items()},
        "stores": {folder: store_to_json(store) for folder, store in trial.stores.items()}, "changed": changed,
    }


def of_json(row):
    """The trial that a file has so."""
    stores = {folder: store_of_json(store) for folder, store in row["stores"].items()}
    changed = {}
    for folder, change in row["changed"].items():
        changed[folder] = edited(stores[folder].file() if stores[folder] else b"", change["size"], change["edits"])
    commands = [Command(words, kept) for words, kept in row["commands"]]
    return Trial(commands, {name: bytes.fromhex(data) for name, data in row["files"].items()}, stores, changed)


def read(path):
    """The trial of a file."""
    return of_json(json.loads(path.read_text()))


def answer_to_json(answer):
    return {"status": answer.status, "output": None if answer.output is None else answer.output.hex()}


def write(path, trial, differs, **told):
    """Writes a trial that differed, with what else is told of it."""
    number, said, found = differs
    row = {**told, "differs": number, "wanted": answer_to_json(said), "found": answer_to_json(found), **to_json(trial)}
    path.write_text(json.dumps(row, indent=1) + "\n")
