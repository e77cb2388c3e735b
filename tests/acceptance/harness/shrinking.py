"""Shrinks a trial in which the program and the reference differ: to the least sequence of commands, and then to the least bytes, such that they
still differ somewhere."""

import time
from dataclasses import replace

from harness.trials import difference
from timeweave_reference.followers import Follower
from timeweave_reference.services import Service, service_of


def without_parts(sequence):
    """The sequence without a part of it, of large parts first, from the last one on."""
    size = len(sequence)
    while size:
        for start in range((len(sequence) - 1) // size * size, -1, -size):
            yield sequence[:start] + sequence[start + size :]
        size //= 2


def plainer(data):
    """The bytes with some of them zero."""
    size = len(data)
    while size:
        for start in range(0, len(data), size):
            part = data[start : start + size]
            if part.strip(b"\0"):
                yield data[:start] + bytes(len(part)) + data[start + len(part) :]
        size //= 2


def simpler_stores(store):
    """A store with less behind it."""
    if isinstance(store, Service):
        events, times = list(store.line.steps), store.line.times
        for steps in without_parts(list(range(len(events)))):
            yield service_of(store.name, [events[step] for step in steps], [times[step] for step in steps])
        for step, own in enumerate(events):
            for left in without_parts(list(own)):
                yield service_of(store.name, [*events[:step], left, *events[step + 1 :]], times)
    elif store:
        for heads in without_parts(store.heads):
            yield Follower(store.name, heads)


def simpler(trial):
    """Trials that are each a little simpler than this one, those that are much simpler first."""
    for commands in without_parts(trial.commands):
        yield replace(trial, commands=commands)
    for name in trial.files:
        yield replace(trial, files={other: data for other, data in trial.files.items() if other != name})
    for folder in trial.changed:
        yield replace(trial, changed={})
    for folder, store in trial.stores.items():
        if not trial.changed:
            others = {other: kept for other, kept in trial.stores.items() if other != folder}
            yield replace(trial, stores=others)
            for less in [None, *simpler_stores(store)] if store else ():
                yield replace(trial, stores={**trial.stores, folder: less})
    for name, data in trial.files.items():
        for less in without_parts(data):
            yield replace(trial, files={**trial.files, name: less})
    for folder, data in trial.changed.items():
        yield from (replace(trial, changed={folder: less}) for less in nearer(trial.stores[folder].file() if trial.stores[folder] else b"", data))
    for place, command in enumerate(trial.commands):
        for words in simpler_words(command.words):
            yield replace(trial, commands=[*trial.commands[:place], command._replace(words=words), *trial.commands[place + 1 :]])
        if command.kept:
            yield replace(trial, commands=[*trial.commands[:place], command._replace(kept=None), *trial.commands[place + 1 :]])
    for name, data in trial.files.items():
        for plain in plainer(data):
            yield replace(trial, files={**trial.files, name: plain})


def nearer(before, changed):
    """A changed store with fewer of its changes."""
    if len(changed) != len(before):
        yield (changed + before[len(changed) :])[: len(before)]
    places = [place for place in range(min(len(before), len(changed))) if before[place] != changed[place]]
    size = len(places)
    while size:
        for start in range(0, len(places), size):
            data = bytearray(changed)
            for place in places[start : start + size]:
                data[place] = before[place]
            yield bytes(data)
        size //= 2


def simpler_words(words):
    """The words with a number of them that is smaller."""
    for place, word in enumerate(words):
        for number in ("0", "1", str(int(word) // 2)) if word.isdecimal() and word.isascii() and len(word) < 21 else ():
            if number != word and int(number) < int(word):
                yield [*words[:place], number, *words[place + 1 :]]


def shrunk(program, trial, seconds):
    """The simplest trial that was found in so many seconds, and where it differs. Each round takes the first simpler one that differs, until
    none does."""
    end, differs = time.monotonic() + seconds, difference(program, trial)
    trial = replace(trial, commands=trial.commands[: differs.number])
    is_done = False
    while not is_done and time.monotonic() < end:
        is_done = True
        for less in simpler(trial):
            found = differs_in(program, less) if time.monotonic() < end else None
            if found:
                trial, differs, is_done = replace(less, commands=less.commands[: found.number]), found, False
                break
    return trial, differs


def differs_in(program, trial):
    """Where a simpler trial differs; None where it doesn't, or where there is none of its kind."""
    try:
        return difference(program, trial) if trial.commands and "" not in trial.files else None
    except (ValueError, KeyError):
        # (what was left out is needed for a trial of this kind)
        return None
