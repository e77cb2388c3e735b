"""What an event says, for people: that of a log of files by the file that it is of, any other one by its bytes."""

from __future__ import annotations

from typing import NamedTuple, Optional

from weft.deciding.matching import UNNAMED, read_recorded
from weft.sentences import fill
from weft.texts import quoted, shown_event

HERE = "./"
# So many digits of a digest stand in a picture, as of a line.
FRONT = 16


class LoggedFile(NamedTuple):
    """A file that an event is of: its path from the logged folder on, and the SHA-256 digest that was logged."""

    path: str
    digest: str

    def describe(self, digest: str) -> str:
        """The file with its digest, or the first digits of that; by no name where the digest was recorded alone."""
        return fill("unnamed file", digest=digest) if self.path.encode() == UNNAMED else fill("file", path=quoted(self.path), digest=digest)


def logged_file(event: bytes) -> Optional[LoggedFile]:
    """The file of an event; None of another event, and of one whose path can't be shown as it stands."""
    found = read_recorded(event)
    try:
        path = found.path.decode("utf-8") if found is not None else ""
    except UnicodeDecodeError:
        return None
    return LoggedFile(path.removeprefix(HERE), found.digest) if found is not None and path.removeprefix(HERE) and path.isprintable() else None


def told_event(event: bytes) -> str:
    """An event, as a sentence has it: the file with its whole digest, or the event itself."""
    file = logged_file(event)
    return shown_event(event) if file is None else file.describe(file.digest)


def drawn_event(event: bytes) -> str:
    """The same in a picture, where a digest has its first digits alone."""
    file = logged_file(event)
    return shown_event(event) if file is None else file.describe(f"{file.digest[:FRONT]}..")
