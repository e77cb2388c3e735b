"""Which services and further parts of them were made here: noted among the user's own files, in KEPT.made beside his kept lines, since what lies beside a store is gone with it
where its device isn't mounted. The rule stands in weft.deciding.made."""

from __future__ import annotations

import os
from pathlib import Path
from typing import Optional

from weft import files, lines, locks
from weft.deciding.going_on import is_name_of_part
from weft.deciding.made import Known, Made, TakeOut, list_names, list_to_add, made_in, may_make, read_made, take_out, weigh_taking_out
from weft.lines import KeptLines
from weft.output import complain
from weft.statuses import Status
from weft.stores import Store
from weft.texts import beside, name_of, now, typed
from weft.trouble import Trouble

MOST_BYTES = 1 << 24
# What stands beside a service's folder and tells that it was there.
ENDS = (".lines", ".anchor", ".seal", ".backup", ".told", ".records", ".entries")


def place() -> Optional[Path]:
    """Where it is noted; None where the system knows of no folder of this user's own."""
    try:
        return beside(lines.default_kept(), ".made")
    except Trouble as trouble:
        if trouble.status is not Status.DISK:
            raise
        return None


def text_of(path: Path) -> str:
    """What the file says."""
    return (files.read_if_there(path, MOST_BYTES) or b"").decode("ascii", "replace")


def noted_in(path: Path) -> set[Made]:
    """What is noted there."""
    return read_made(text_of(path))


def made_of(folder: Path, name: str) -> Made:
    """A service, or a part of one, in its folder."""
    return made_in(name, os.fsencode(os.path.realpath(folder)))


def names_at(folder: Path) -> set[str]:
    """The names under which something was made in this folder before."""
    path = place()
    return set() if path is None else list_names(noted_in(path), os.fsencode(os.path.realpath(folder)))


def is_noted(folder: Path, name: str) -> bool:
    """Whether a service or part of this name was made in this folder before."""
    path = place()
    return path is not None and not may_make(noted_in(path), made_of(folder, name))


def expect_unmade(folder: Path, name: str) -> None:
    """Raises Trouble where a service of this name was made in this folder before, whose store isn't there."""
    path = place()
    if path is None or not is_noted(folder, name):
        return
    told = f"{name} was made in {name_of(folder)} before, as {name_of(path)} tells, and there is no store: another one would be a second history. Nothing was made"
    never_sent = f"weft keep --never-sent {name} {typed(folder)}"
    raise Trouble(Status.OLD_STORE, told, f"Is its device mounted? If it is lost, go on under a new name. Was no line of it ever handed out: {never_sent}")


def note(folder: Path, name: str) -> None:
    """Notes that it was made, each once. (Where that can't be, it is told, and the run that made it goes on: the store is whole.)"""
    path, made = place(), made_of(folder, name)
    unnoted = f"it isn't noted that {name} was made in {name_of(folder)}: while its device isn't mounted, another one may be made there."
    if path is None:
        complain(f"The system knows of no folder of your own (HOME), so {unnoted}")
        return
    if made in noted_in(path):
        return
    try:
        files.make_folder(path.parent)
        files.add(path, made.text)
    except Trouble as trouble:
        complain(f"{trouble.describe()} So {unnoted}")


def put_back(path: Path, backed_up: bytes) -> int:
    """Adds what a backup has as made and isn't noted here; answers how much that is."""
    files.make_folder(path.parent)
    with locks.held(beside(path, ".lock"), 30, path):
        added = list_to_add(text_of(path), backed_up.decode("ascii", "replace"))
        for made in added:
            files.add(path, made.text)
    return len(added)


def never_sent(name: str, folder: Path, kept: Path) -> str:
    """Takes out, on a person's word, that a service was made there, so that it can be made anew; answers that in a sentence. Raises Trouble where something here tells
    that it went out."""
    path, made = beside(kept, ".made"), made_of(folder, name)
    files.make_folder(path.parent)
    with locks.held(beside(path, ".lock"), 30, path):
        own = KeptLines([kept])
        has_line = any(it not in own.others and (it == name or is_name_of_part(name, it)) for it in own.services())
        has_beside = any(files.is_there(it) and os.stat(it).st_size for it in (beside(folder, end) for end in ENDS))
        found = weigh_taking_out(Known(not may_make(noted_in(path), made), files.is_there(Store(folder).file), has_beside, has_line))
        if found is not TakeOut.YES:
            raise refused(found, name, folder, path)
        files.renew(path, take_out(text_of(path), made, now()).encode("ascii"))
    return f"By your word no line of {name} ever went out: it can be made in {name_of(folder)} anew. If one did, that is a second history, which whoever holds it can show."


def refused(found: TakeOut, name: str, folder: Path, path: Path) -> Trouble:
    """Why it isn't taken out that a service was made."""
    if found is TakeOut.UNNOTED:
        return Trouble(Status.MISSING, f"{name_of(path)} doesn't tell that {name} was made in {name_of(folder)}", "Is it the name and the folder that weft told?")
    if found is TakeOut.STORE_THERE:
        return Trouble(Status.REFUSED, f"the store of {name} is in {name_of(folder)}", "Nothing has to be taken out: it goes on.")
    if found is TakeOut.BESIDE:
        return Trouble(Status.REFUSED, f"files of a service stand beside {name_of(folder)}", "Was its folder moved? Put it back, or a backup (weft restore).")
    return Trouble(Status.OLD_STORE, f"you keep a line of {name}, so one was handed out", "Put its backup back (weft restore), or go on under a new name.")
