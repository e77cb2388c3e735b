"""Whose a box is, and which of the folders in it may be meant for a peer."""

from __future__ import annotations

from typing import Optional


def is_of_another(noted: Optional[str], name: str) -> bool:
    """A box is of the service that made the first turn with it, by the name of its first part; another one makes none, and changes nothing there."""
    return noted is not None and noted != name


def may_be_meant(is_link: bool, has_incoming: bool) -> bool:
    """What stands in a box under a name that no peer can have needs a look where it is a link, or has a folder `in`: a peer may be meant by it, and nothing of
    it is read."""
    return is_link or has_incoming
