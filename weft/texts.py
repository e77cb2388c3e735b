"""Texts as people can read them. Nothing that came from elsewhere reaches a terminal or a picture but through `printable`."""

from __future__ import annotations

import os
import re
from datetime import datetime, timezone
from pathlib import Path
from typing import Sequence, Union

from weft.deciding.commands import type_name
from weft.statuses import Status
from weft.trouble import Trouble

MOST_SHOWN = 4096

# Letters that Python calls printable and that nobody sees: those that Unicode lets be ignored by default, and the blank of Braille.
UNSEEN = re.compile("[\u034f\u115f\u1160\u17b4\u17b5\u180b-\u180d\u180f\u2800\u3164\ufe00-\ufe0f\uffa0\U000e0100-\U000e01ef]")

# Letters beyond ASCII that stand in foreign texts as they are: those of the Latin, Greek and Cyrillic scripts, of Chinese, Japanese and Korean, and few signs.
# None of them looks like quotes, is written from right to left, or is a mark on the letter before.
PLAIN = re.compile(
    "[\u00c0-\u01bf\u01c4-\u024f\u1e00-\u1eff\u0386\u0388-\u0390\u0391-\u03ce\u0400-\u0481\u048a-\u052f\u3041-\u3096\u30a1-\u30fa\u3400-\u9fff\uac00-\ud7a3"
    "…’‘«»‹›·•§°©®™¿¡±–—€£¥、。・「」『』（）！？：；，]"
)

# What stands in quotes as an escape: quotes and a backslash; an apostrophe behind another one, or behind a letter that ends as one; each blank behind two
# others, since many could fill a line; and letters that aren't plain.
AS_APOSTROPHE = "'`‘’ďťľĽŉ"
IN_QUOTES = re.compile(rf"[\"\\]|(?<=[{AS_APOSTROPHE}])['`‘’]|(?<=  ) |[^\x00-\x7f]")

# A file's name of these letters alone can't be read as a part of a sentence.
NAME_LETTERS = re.compile(r"[A-Za-z0-9_./+=@%~^-]")


def escape(letter: str) -> str:
    """A letter as an escape of Python's."""
    if letter in "\"\\'`":
        return f"\\{letter}"
    return f"\\x{ord(letter):02x}" if letter == " " else letter.encode("unicode_escape", "surrogatepass").decode("ascii")


def escaped(text: str) -> str:
    """The text with each letter that isn't printable (control characters, bidirectional marks, line ends, bytes that are no UTF-8), or that nobody
    sees, in an escape of Python's."""
    if text.isprintable() and (text.isascii() or not UNSEEN.search(text)):
        return text
    return "".join(c if c.isprintable() and not UNSEEN.match(c) else escape(c) for c in text)


def printable(text: str) -> str:
    """The same, cut where it is longer than 4,096."""
    return escaped(text[:MOST_SHOWN]) + "…" if len(text) > MOST_SHOWN else escaped(text)


def quoted(text: str) -> str:
    """A foreign text in quotes, in which nothing looks as if the quotes had ended."""

    def show_letter(found: re.Match[str]) -> str:
        letter, before = found[0], text[max(0, found.start() - 1) : found.start()]
        is_second = letter in "‘’" and before != "" and before in AS_APOSTROPHE
        return letter if PLAIN.match(letter) and not is_second else escape(letter)

    return '"' + escaped(IN_QUOTES.sub(show_letter, text)) + '"'


def name_of(path: Union[str, os.PathLike[str]]) -> str:
    """The path as it is told in a sentence. A name that could be read as a part of the sentence stands in quotes: whoever sends files chooses their names."""
    text = os.fspath(path)
    front = text[:MOST_SHOWN]
    if all(NAME_LETTERS.match(letter) or (letter.isalpha() and PLAIN.match(letter)) for letter in front):
        return printable(text)
    return quoted(front) + ("…" if len(text) > MOST_SHOWN else "")


def typed(path: Union[str, os.PathLike[str]], else_told: str = "FILE") -> str:
    """The path as it stands in a command that a person is told to type; the word for it where it can't be typed."""
    return type_name(os.fspath(path)) or else_told


def shown_event(data: bytes) -> str:
    """An event: its text in quotes where all of it is printable UTF-8, else its bytes in hexadecimal, - for none."""
    try:
        text = data.decode("utf-8")
    except UnicodeDecodeError:
        return data.hex()
    return quoted(text) if text and text.isprintable() else data.hex() or "-"


def date_of(seconds: int) -> str:
    """A claimed time, in seconds since the beginning of 1970, as a date too; where Python knows no such date the number alone."""
    try:
        return datetime.fromtimestamp(seconds, timezone.utc).strftime("%Y-%m-%d %H:%M:%S UTC")
    except (OverflowError, ValueError, OSError):
        return f"second {seconds} since 1970"


def now() -> str:
    """This moment, as a kept line has it."""
    return datetime.now(timezone.utc).strftime("%Y-%m-%dT%H:%M:%SZ")


def count_of(number: int, one: str, many: str = "") -> str:
    """A number with its word: `1 file`, `2,484 files`."""
    return f"{number:,} {one if number == 1 else many or one + 's'}"


def steps_of(numbers: Sequence[int]) -> str:
    """Steps that follow one another: `step 4`, `steps 4 and 5`, `steps 4 to 6`."""
    first, last = numbers[0], numbers[-1]
    if first == last:
        return f"step {first}"
    return f"steps {first} {'and' if last == first + 1 else 'to'} {last}"


def listed(parts: Sequence[str]) -> str:
    """Words as a sentence lists them."""
    return parts[0] if len(parts) == 1 else f"{', '.join(parts[:-1])} and {parts[-1]}" if parts else ""


def beside(path: Union[str, os.PathLike[str]], suffix: str) -> Path:
    """The path with a suffix behind its whole name, without a slash at its end. `.` and `..` lead to their own name; raises Trouble of the root, which has
    none."""
    whole = Path(path)
    if whole.name in ("", ".."):
        whole = Path(os.path.realpath(whole))
    if not whole.name:
        raise Trouble(Status.USAGE, f"{name_of(path)} is the root, and nothing can stand beside it", "Name a folder below it.")
    return whole.with_name(whole.name + suffix)
