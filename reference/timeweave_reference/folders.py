"""The commands with a folder: what services and followers, each in a folder of its own, answer, and the bytes of their stores then.

The manual page of `timeweave`, docs/timeweave.1. A folder has the store of a service, or of a follower, or none. The words of a form come
first, then the files that they name, then the folder, and then what is asked.
"""

from __future__ import annotations

from typing import Callable, Dict, List, Mapping, Sequence, Union

from . import commands, histories
from .answers import ACCEPTED, BAD_STORE, NO_DISK, Answer, answer_text
from .commands import BadFile, Files, read_as
from .events_files import read_events
from .followers import Follower
from .messages import read_message
from .services import Refused, Service, refuse_unless
from .words import FOLDER, kinds_of

Store = Union[Service, Follower, None]
"""Whose store a folder has."""

NO_FOLDER = answer_text(NO_DISK, "fault disk\n")
"""There is no such folder."""

BLANK = answer_text(BAD_STORE, "store Blank\n")
"""There is no store in the folder."""

OF_FOLLOWERS = ("offer", "heads")
"""The commands that ask a follower; the others ask a service."""


class Folders:
    """Folders by their names, each with the store that it has."""

    def __init__(self, stores: Mapping[str, Store]) -> None:
        self.stores: Dict[str, Store] = dict(stores)

    def answer(self, words: Sequence[str], files: Files) -> Answer:
        """What is answered of any words; the stores are then as the command leaves them."""
        kinds = kinds_of(words)
        if isinstance(kinds, int):
            return commands.usage(kinds)
        if FOLDER not in kinds:
            return commands.answer(words, files)
        if any(name not in files for name in commands.named_files(words, kinds)):
            return commands.NO_FILE
        try:
            return self._asked(words[0], words[1], list(words[2:]), files)
        except BadFile as bad:
            return bad.answer
        except Refused as refusal:
            return refusal.answer()

    def _asked(self, command: str, folder: str, words: List[str], files: Files) -> Answer:
        """What is answered of a command, once its files are there."""
        if command == "append":
            read_as(read_events, files, words[0])
        if command in ("receive", "offer"):
            read_as(read_message, files, words[0])
        if folder not in self.stores:
            return NO_FOLDER
        store = self.stores[folder]
        if command in ("init", "watch"):
            refuse_unless(store is None, "Taken")
            made = self.stores[folder] = Service(words[0]) if command == "init" else Follower(words[0])
            return Answer(ACCEPTED, made.anchor(0) if isinstance(made, Service) else made.head())
        if store is None:
            return BLANK
        if isinstance(store, Follower) != (command in OF_FOLLOWERS):
            return answer_text(BAD_STORE, f"store NotAStore {store.slot()}\n")
        if isinstance(store, Follower):
            return Answer(ACCEPTED, store.lines() if command == "heads" else store.offer(files[words[0]]))
        return Answer(ACCEPTED, self._of_service(command, store, words, files))

    def _of_service(self, command: str, service: Service, words: List[str], files: Files) -> bytes:
        """What a service answers; raises `Refused`."""
        if command in ("append", "receive"):
            time = int(words[1]) if len(words) > 1 else None
            data = files[words[0]]
            return service.append(read_events(data), time) if command == "append" else service.receive(data, time)
        if command == "export":
            history = service.history()
            refuse_unless(len(history) <= histories.MOST_BYTES, f"TooLong {len(history)}")
            return history
        if command == "thread":
            return service.message(int(words[0]))
        return _PROVED[f"{command} {words[0]}"](service, words[1:])


def _top(service: Service, words: Sequence[str], place: int) -> int:
    """The top, where it is told; else the last step."""
    return int(words[place]) if len(words) > place else service.steps


_PROVED: Dict[str, Callable[[Service, Sequence[str]], bytes]] = {
    "prove event": lambda service, words: service.event_proof(int(words[0]), int(words[1]), _top(service, words, 2)),
    "prove link": lambda service, words: service.link_proof(int(words[0]), _top(service, words, 1)),
    "prove thread": lambda service, words: service.thread_proof(int(words[0]), words[1], int(words[2]), _top(service, words, 3)),
    "prove absent": lambda service, words: service.absent_proof(int(words[0]), words[1], int(words[2]), _top(service, words, 3)),
    "map low": lambda service, words: service.low_map(int(words[0]), words[1], _top(service, words, 2)),
    "map high": lambda service, words: service.high_map(int(words[0]), words[1], _top(service, words, 2)),
}
"""What a service writes, by the words of the form, of the words behind them."""
