"""The words of weft, a module each: its name, details, the statuses that it may end with besides those of any word, example, words and run."""

from __future__ import annotations

import importlib
from types import ModuleType

# Each with its summary: they stand here, so that the list of them loads none.
WORDS = {
    "line": "prints the line of a service's last step, and signs it",
    "keep": "keeps a line that came from somebody, with how it came and when",
    "tell": "says what files are and what they say, unjudged",
    "list": "lists what a history holds: each step with its claimed time, its events or the line that it received",
    "judge": "judges proofs, map files, evidence and histories under the lines that you kept",
    "log": "logs the files of a folder in steps of a service",
    "record": "records events in a service: words, files, or what standard input has",
    "find": "tells where a file, a digest or a text was recorded, and makes the proofs",
    "prove": "makes the proof of a file that weft log logged",
    "exchange": "makes a service's turn with its peers, over the web or over folders that anything may carry",
    "fetch": "fetches what a peer has published for this service into its folder `in`",
    "publish": "writes what a service puts out into a folder that any web server hands out",
    "accept": "confirms a new peer of a box: its name, its line and its key",
    "chain": "makes the proof that one event precedes another",
    "check": "checks a store: each step, and each line that was kept of it",
    "backup": "makes a backup of a service, in one file",
    "restore": "puts a backup back, where no service is",
    "status": "tells the state of a service, for monitoring",
    "stamp": "has a line stamped with a day by a time-stamping authority",
    "bundle": "puts a proof with all that it takes to judge it into one file",
}


def module_of(word: str) -> ModuleType:
    """The module of a word. Each is loaded only where it is needed, so that weft starts quickly."""
    return importlib.import_module(f"weft.words.{word}")
