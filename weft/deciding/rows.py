"""When a row of an earlier table of verdicts stands for a file that is read now.

A table, and the times of files, may come from whoever sent the files. So a row stands for bytes, and not for a name or a time: it has the
SHA-256 digest of what was judged. And rows are read from a file of this user's own alone, which begins with what they were judged by."""

from __future__ import annotations

import hashlib
import re
from typing import Collection, NamedTuple, Optional

SIZE, DIGEST, STATUS = re.compile(r"[0-9]{1,12}"), re.compile(r"[0-9a-f]{64}"), re.compile(r"[0-9]{1,3}")
NO_DIGEST = "-"
KIND, REGULAR, WRITABLE_BY_OTHERS = 0o170000, 0o100000, 0o022
FORMULA, QUOTE = ("=", "+", "-", "@"), "\\x22"
HEAD = "file\tbytes\tsha256\tverdict\tstatus\treason\tlines\ttold\tarchive\tday"


def read_as_table(text: str, front: str) -> str:
    """A text as each program reads it that reads tables: no quotes stand in it, between which many take tabs and line ends for text, and so one row for many;
    and one that begins as a formula does, which a program for tables would work out, has something else in front of it."""
    return (front if text.startswith(FORMULA) else "") + text.replace('"', QUOTE)


class Row(NamedTuple):
    """A row of a table: the path within the folder, how many bytes were read and their SHA-256 digest (- where none could be read), the
    verdict, the status of this file by itself, why, the lines that it rests on, and where it is shown all lines that it tells, what it tells of an archive, or by whose
    word it tells what others recorded, and by which day its lines stood, as stamps say now: a row that is read again has none. Its texts are printable, so none has a tab."""

    file: str
    bytes: int
    sha256: str
    verdict: str
    status: int
    reason: str
    lines: str
    told: str = ""
    archive: str = ""
    day: str = ""

    @property
    def text(self) -> str:
        """Its line in a table."""
        return "\t".join(map(str, self))


def digest_of(data: bytes) -> str:
    """What was read is known again by its SHA-256 digest, in hexadecimal."""
    return hashlib.sha256(data).hexdigest()


def title_of(judges: str, code: str, lines: bytes, allow_carried: bool) -> str:
    """Rows hold only for what they were judged by, all of which stands in one line: the judges with their digests, the digest of the code
    that chose the lines, the digest of the kept lines, and whether carried lines were accepted."""
    carried = "accepted" if allow_carried else "refused"
    return f"# {judges}; weft and reference, SHA-256 {code}; kept lines, SHA-256 {digest_of(lines)}; carried lines {carried}"


def name_state(table: bytes) -> str:
    """The rows of each table, which is named by its whole path, are kept in a file of their own, whose name is made of nothing but a
    digest."""
    return f"{digest_of(table)}.rows"


def is_own_state(owner: int, mode: int, user: int) -> bool:
    """Rows are read only from a regular file that this user owns, and that nobody else may write."""
    return mode & KIND == REGULAR and owner == user and not mode & WRITABLE_BY_OTHERS


def read_row(text: str) -> Optional[Row]:
    """A row has ten fields, whose second and fifth are numbers and whose third is a digest; of another text, and of a row without
    digest, the answer is None."""
    fields = text.split("\t")
    if len(fields) != 10 or not SIZE.fullmatch(fields[1]) or not DIGEST.fullmatch(fields[2]) or not STATUS.fullmatch(fields[4]):
        return None
    return Row(fields[0], int(fields[1]), fields[2], fields[3], int(fields[4]), *fields[5:9])


def read_rows(text: str, title: str) -> dict[str, Row]:
    """The rows of a state count only where it begins with this title and the head; what stands behind its last line end was never
    finished, and counts for nothing."""
    first, *lines = text.split("\n")
    if first != title or lines[:1] != [HEAD]:
        return {}
    rows = (read_row(line) for line in lines[1:-1])
    return {row.file: row for row in rows if row is not None}


def may_take_row(row: Optional[Row], digest: str, passing: Collection[int]) -> bool:
    """A row stands for a file where it has the SHA-256 digest of the bytes that were read of it now, whatever its name and times are;
    never where two judges differed or the machine failed, which the statuses `passing` tell."""
    return row is not None and row.sha256 == digest and row.status not in passing
