"""Acceptance cases of a search for what weft does wrong: some scripts of its state machine (harness/weft_machine.py), those that were found, and that each fault that the
search is to find can be planted; `make search-weft` plays more of them, and `make search-planted` plants the faults."""

import json

import search_weft
from harness import weft_planted
from harness.rooms import Wrong, case, checked

# So many scripts of this seed are played: they take some seconds.
SCRIPTS, SEED = 3, "acceptance"


def by_chance(room):
    """turns drawn by chance: a carrier, a liar, a thief, backups and killed runs; nothing bad is called good, nothing is lost in silence, nobody honest is accused"""
    del room
    with search_weft.place_of_search() as folder:
        search = search_weft.Search(folder)
        for number in range(SCRIPTS):
            found = search.play(search_weft.drawn(SEED, number))
            if found:
                raise Wrong(f"  script {number}, step {found[0]}: {found[1]}; `make search-weft SEED={SEED}` shrinks it, and writes it into a file")


def found_before(room):
    """scripts that broke a rule once break none"""
    del room
    with search_weft.place_of_search() as folder:
        search = search_weft.Search(folder)
        for path in sorted(search_weft.FOUND_SEARCH.glob("*.json")):
            found = search.play([tuple(step) for step in json.loads(path.read_text())["script"]])
            if found:
                raise Wrong(f"  {path.name}, step {found[0]}: {found[1]}")


def plantable():
    """each fault that the search is to find stands in weft once, where it is planted"""
    wrong = [fault.what for fault in weft_planted.FAULTS if weft_planted.source_of(fault).read_text().count(fault.old) != 1]
    return f"  can't be planted: {wrong}" if wrong else None


def cases():
    return [*checked("weft search", {plantable.__doc__: lambda program: plantable()}), *(case(work, "weft search") for work in (by_chance, found_before))]
