"""Scripts: what happens among several services, line after line; which lines a file has, or the line that is told where it is none.

docs/formats.md, "Script". What is played of the lines is in `worlds`.
"""

from __future__ import annotations

import re
from typing import Callable, Dict, List, NamedTuple, Sequence, Set, Tuple

from .fields import LAST_STEP, Malformed
from .messages import read_message

MOST_BYTES = 1_048_576
"""The most bytes of a script."""

MOST_NAMES = 64
"""The most names, of services and hostile ones together."""

_NAME = re.compile(rb"[a-z0-9-]{1,16}")
_NUMBER = re.compile(rb"0|[1-9][0-9]{0,19}")
_BYTES = re.compile(rb"([0-9a-fA-F]{2})+")


def is_name(word: bytes) -> bool:
    """A name of 1 to 16 letters."""
    return _NAME.fullmatch(word) is not None


def is_number(word: bytes, least: int = 0, most: int = 2**64 - 1) -> bool:
    """A decimal number of this range."""
    return _NUMBER.fullmatch(word) is not None and least <= int(word) <= most


def is_bytes(word: bytes) -> bool:
    """Two hexadecimal digits a byte, or `-` for none."""
    return word == b"-" or _BYTES.fullmatch(word) is not None


def is_position(word: bytes) -> bool:
    """The number of a step from 1 on."""
    return is_number(word, 1, LAST_STEP)


def is_call(word: bytes) -> bool:
    """The number of a device call, from 1."""
    return is_number(word, 1)


def is_choice(word: bytes) -> bool:
    """What a crash leaves of a page: 0 to 3."""
    return word in (b"0", b"1", b"2", b"3")


Part = Callable[[bytes], bool]


class Form(NamedTuple):
    """The words behind the first one of a line: so many of these parts, and then any number of `more`, or none where it is None."""

    parts: Tuple[Part, ...]
    more: Part | None = None


def _exactly(word: bytes) -> Part:
    """This word alone."""
    return lambda found: found == word


def _proofs() -> List[Form]:
    """The forms of `prove`, each without a top and with one."""
    kinds: Tuple[Tuple[bytes, Tuple[Part, ...]], ...] = (
        (b"event", (is_number, is_number)),
        (b"thread", (is_number, is_name, is_position)),
        (b"absent", (is_number, is_name, is_position)),
        (b"link", (is_number,)),
    )
    tops: Tuple[Tuple[Part, ...], ...] = ((), (is_number,))
    return [Form((is_name, _exactly(kind), *parts, *top)) for kind, parts in kinds for top in tops]


FORMS: Dict[bytes, List[Form]] = {
    b"service": [Form((is_name,))],
    b"hostile": [Form((is_name,))],
    b"append": [Form((is_name,), is_bytes)],
    b"send": [Form((is_name, is_number))],
    b"inject": [Form((is_name, is_bytes))],
    b"deliver": [Form((is_number, is_name))],
    b"drop": [Form((is_number,))],
    b"crash": [Form((is_name, is_call, is_choice))],
    b"prove": _proofs(),
    b"join": [Form((is_number, is_number), is_number)],
    b"anchor": [Form((is_name, is_position))],
    b"verify": [Form((is_number,))],
}
"""The forms of lines by their first word."""


def fits(words: Sequence[bytes], form: Form) -> bool:
    """Whether the words behind the first one are those of the form."""
    count = len(form.parts)
    if len(words) < count or len(words) > count and form.more is None:
        return False
    more = form.more
    return all(part(word) for part, word in zip(form.parts, words)) and (more is None or all(more(word) for word in words[count:]))


def decoded(word: bytes) -> bytes:
    """The bytes that a word of digits spells."""
    return b"" if word == b"-" else bytes.fromhex(word.decode())


class Made:
    """What the lines so far have made: names, messages, each with whether it isn't dropped, and how many files."""

    def __init__(self) -> None:
        self.services: Set[bytes] = set()
        self.hostile: Set[bytes] = set()
        self.messages: List[bool] = []
        self.files = 0

    def is_free(self, name: bytes) -> bool:
        """Whether a line may make this name."""
        return name not in self.services and name not in self.hostile and len(self.services) + len(self.hostile) < MOST_NAMES

    def has_message(self, number: bytes) -> bool:
        """Whether the message of this number was made, and wasn't dropped."""
        return 1 <= int(number) <= len(self.messages) and self.messages[int(number) - 1]

    def has_file(self, number: bytes) -> bool:
        """Whether the file of this number was made."""
        return 1 <= int(number) <= self.files

    def may_inject(self, name: bytes, data: bytes) -> bool:
        """Whether a hostile name may send these bytes: those of its own message, or of none."""
        if name not in self.hostile:
            return False
        try:
            return read_message(data).service.encode() == name
        except Malformed:
            return True

    def may_follow(self, form: bytes, words: Sequence[bytes]) -> bool:
        """Whether the line of this first word and of others that fit it may follow."""
        if form in (b"service", b"hostile"):
            return self.is_free(words[0])
        if form == b"inject":
            return self.may_inject(words[0], decoded(words[1]))
        if form == b"deliver":
            return self.has_message(words[0]) and words[1] in self.services
        if form == b"drop":
            return self.has_message(words[0])
        if form in (b"join", b"verify"):
            return all(map(self.has_file, words))
        return words[0] in self.services

    def add(self, form: bytes, words: Sequence[bytes]) -> None:
        """The line follows."""
        if form == b"service":
            self.services.add(words[0])
        elif form == b"hostile":
            self.hostile.add(words[0])
        elif form in (b"send", b"inject"):
            self.messages.append(True)
        elif form == b"drop":
            self.messages[int(words[0]) - 1] = False
        elif form in (b"prove", b"join"):
            self.files += 1


class Line(NamedTuple):
    """A line that isn't skipped: its number, from 1, its first word, and those behind it."""

    number: int
    form: bytes
    words: List[bytes]


def read_script(data: bytes) -> List[Line]:
    """The lines of a script that aren't skipped.

    Raises `Malformed` with the number of the first line, from 1, that has no form or may not follow; of a file that is too long with that
    of the line in which the first byte past the limit stands.
    """
    if len(data) > MOST_BYTES:
        raise Malformed(1 + data[:MOST_BYTES].count(b"\n"))
    made = Made()
    lines: List[Line] = []
    for number, text in enumerate(data.split(b"\n"), 1):
        if not text or text.startswith(b"#"):
            continue
        form, *words = text.split(b" ")
        if not any(fits(words, one) for one in FORMS.get(form, ())) or not made.may_follow(form, words):
            raise Malformed(number)
        made.add(form, words)
        lines.append(Line(number, form, words))
    return lines
