"""How a file's name stands in a command that a person is told to type, and in which order the words of a command that was typed are read. Whoever sends files, or writes a
folder that is logged, chooses their names: no shell runs anything by one, and no program takes one for an option."""

from __future__ import annotations

import re
from typing import Mapping, Optional, Sequence

MOST_TYPED = 1_024
UNREAD = re.compile(r"[A-Za-z0-9_./+=@%:,^~\u00c0-\u024f-]+")
IN_SINGLE_QUOTES = re.compile(r"[A-Za-z0-9_./+=@%:,^~\u00c0-\u024f !?#$&*()\[\]{}<>|;`-]+")
MISTAKEN = ("-", "~", "=")


def in_its_folder(path: str) -> str:
    """In front of a name that an option, or a user's folder, begins like, stands the folder that it is in: then a command takes it for a file."""
    return f"./{path}" if path.startswith(MISTAKEN) else path


def type_name(path: str) -> Optional[str]:
    """A name of letters that no shell reads is typed as it is; one that has others, but no quotes and no backslash, between single quotes, in which no shell reads any; and
    another one, which nobody would type rightly, not at all (None)."""
    whole = in_its_folder(path)
    if len(path) > MOST_TYPED or "   " in path:
        return None
    if UNREAD.fullmatch(whole):
        return whole
    return f"'{whole}'" if IN_SINGLE_QUOTES.fullmatch(whole) else None


def order_words(words: Sequence[str], counts: Mapping[str, int]) -> list[str]:
    """Options may stand anywhere between the other words: they are put in front, each with the words that it has (`counts`), in their order. What stands behind -- is no
    option; and where one isn't known, or lacks a word, all stays as it was typed."""
    options, others, at = list[str](), list[str](), 0
    while at < len(words) and words[at] != "--":
        name, equals, _ = words[at].partition("=")
        is_option = name.startswith("-") and name != "-"
        count = 1 + (counts.get(name, 0) if is_option and not equals else 0)
        if (is_option and name not in counts) or at + count > len(words):
            return [*words]
        (options if is_option else others).extend(words[at : at + count])
        at += count
    return [*options, *others, *words[at:]]
