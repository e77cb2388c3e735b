"""The commands over files: what is answered of any words, in which order the files are read, and which fault of theirs is told first.

The manual page of `timeweave`, docs/timeweave.1. All files that the words name are read before one of them is judged; then the first that
isn't of its format is told, in the order of the words, but that the anchors come before a proof or evidence that is judged under them.
"""

from __future__ import annotations

from functools import partial
from typing import Callable, Dict, List, Sequence, TypeVar

from . import adoptions, anchors, atlases, audits, events_files, evidence, histories, joining
from . import map_files, messages, precedence, proofs, receipts, scripts, worlds
from .answers import ACCEPTED, NO_INPUT, USAGE, Answer, answer_text, unreadable
from .fields import Malformed
from .verdicts import read_proof, verdict
from .words import FILES, FOLDER, kinds_of

Files = Dict[str, bytes]
"""The bytes of the files that the words name, by their names."""

MOST_BYTES: Dict[str, int] = {
    "verify": precedence.MOST_BYTES,
    "strict": precedence.MOST_BYTES,
    "join": precedence.MOST_BYTES,
    "show": histories.MOST_BYTES,
    "checkmap": map_files.MOST_LOW,
    "audit": histories.MOST_BYTES,
    "adopt": histories.MOST_BYTES,
    "accuse": proofs.MOST_BYTES,
    "checkfork": evidence.MOST_BYTES,
    "atlas": receipts.MOST_RECEIPTS * receipts.SIZE,
    "append": events_files.MOST_BYTES,
    "receive": messages.MOST_BYTES,
    "offer": messages.MOST_BYTES,
    "replay": scripts.MOST_BYTES,
}
"""For each command the most bytes that a file of one of its formats has; one byte more is enough to tell that a file is too long."""

Read = TypeVar("Read")


class BadFile(Exception):
    """A file isn't of its format; `answer` tells it."""

    def __init__(self, answer: Answer) -> None:
        super().__init__(answer)
        self.answer = answer


def read_as(reader: Callable[[bytes], Read], files: Files, name: str, unit: str = "byte") -> Read:
    """What the reader makes of the file of this name; raises `BadFile` where it is none."""
    try:
        return reader(files[name])
    except Malformed as bad:
        raise BadFile(unreadable(name, unit, bad.place)) from bad


def read_lines(files: Files, name: str) -> Dict[str, anchors.Anchor]:
    """The anchors of the file of this name."""
    return read_as(anchors.read_anchors, files, name, "line")


def _verify(files: Files, words: Sequence[str]) -> Answer:
    proof, *rest = words
    if len(rest) == 1:
        return verdict(files[proof], read_lines(files, rest[0]))
    name, step, auth = rest
    return verdict(files[proof], {name: anchors.Anchor(int(step), bytes.fromhex(auth))})


def _strict(files: Files, words: Sequence[str]) -> Answer:
    return verdict(files[words[0]], read_lines(files, words[1]), is_strict=True)


def _join(files: Files, words: Sequence[str]) -> Answer:
    return joining.join([read_as(read_proof, files, name) for name in words])


def _show(files: Files, words: Sequence[str]) -> Answer:
    return histories.show(words[0], files[words[0]], int(words[1]), int(words[2]))


def _accuse(files: Files, words: Sequence[str]) -> Answer:
    first, second = (read_as(proofs.read_thread_proof, files, name) for name in words[:2])
    return evidence.accuse(first, second, read_as(proofs.read_link_proof, files, words[2]) if len(words) == 3 else None)


def _checkfork(files: Files, words: Sequence[str]) -> Answer:
    return evidence.check_fork(files[words[0]], read_lines(files, words[1]))


def _audit(files: Files, words: Sequence[str]) -> Answer:
    proof, lines, *names = words
    return audits.audit(files[proof], read_lines(files, lines), [(name, files[name]) for name in names])


def _adopt(files: Files, words: Sequence[str]) -> Answer:
    name, lines, *names = words
    line = histories.sound_history(name, files[name])
    if isinstance(line, Answer):
        return line
    return adoptions.adopt(name, files[name], read_lines(files, lines), [files[proof] for proof in names])


def _atlas(files: Files, words: Sequence[str]) -> Answer:
    service, step, *names = words
    found: List[receipts.Receipt] = []
    for name in names:
        left = receipts.MOST_RECEIPTS - len(found)
        found += read_as(partial(receipts.read_receipts, most=left), files, name)
    return answer_text(ACCEPTED, atlases.atlas_text(map(atlases.hop_of, found), service, int(step)))


def _checkmap(files: Files, words: Sequence[str]) -> Answer:
    low, high = read_as(map_files.read_low, files, words[0]), read_as(map_files.read_high, files, words[1])
    return map_files.check_map(low, high, read_lines(files, words[2]))


def _replay(files: Files, words: Sequence[str]) -> Answer:
    return worlds.replay(words[0], files[words[0]])


def _generate(files: Files, words: Sequence[str]) -> Answer:
    return answer_text(ACCEPTED, worlds.generated(int(words[1])))


OVER_FILES: Dict[str, Callable[[Files, Sequence[str]], Answer]] = {
    "verify": _verify,
    "strict": _strict,
    "join": _join,
    "show": _show,
    "checkmap": _checkmap,
    "audit": _audit,
    "adopt": _adopt,
    "accuse": _accuse,
    "checkfork": _checkfork,
    "atlas": _atlas,
    "replay": _replay,
    "generate": _generate,
}
"""What each command over files answers, of the files and the words behind its own."""


def usage(word: int) -> Answer:
    """No form goes on at this word, counted from 1."""
    return answer_text(USAGE, f"usage {word}\n")


NO_FILE = answer_text(NO_INPUT, "fault input\n")
"""A file that the words name can't be read."""


def named_files(words: Sequence[str], kinds: Sequence[str]) -> List[str]:
    """The files that the words of these kinds name."""
    return [word for word, kind in zip(words, kinds) if kind in FILES]


def answer(words: Sequence[str], files: Files) -> Answer:
    """What is answered of the words over files. A command with a folder isn't answered here."""
    kinds = kinds_of(words)
    if isinstance(kinds, int):
        return usage(kinds)
    if FOLDER in kinds:
        raise ValueError(f"{words[0]} is a command with a folder")
    if any(name not in files for name in named_files(words, kinds)):
        return NO_FILE
    try:
        return OVER_FILES[words[0]](files, words[1:])
    except BadFile as bad:
        return bad.answer
