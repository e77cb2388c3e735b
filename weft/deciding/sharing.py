"""Which signed lines of its peers a service hands on tonight, where there are more than one file takes: by turns, so that each peer's line goes round. And
which receipts."""

from __future__ import annotations

import hashlib
from collections import OrderedDict
from itertools import chain, islice, zip_longest
from typing import Collection, Hashable, Iterable, Optional, Sequence, TypeVar

from weft.deciding.lines import Line

Handed = TypeVar("Handed")
Piece = TypeVar("Piece", bound=Hashable)


def count_nights(count: int, room: int) -> int:
    """Within so many turns in a row each peer's line is handed on, of so many peers, where so many fit into a night: 1 of as many as fit, 3 of 300 and 8 of
    1,000 where 128 fit. (An eighth of a night is left over in each round.)"""
    return 1 if count <= room else (count + room // 8) // room + 1


def choose_names(names: Sequence[str], room: int, cursor: int) -> list[str]:
    """Of names in a circle those are handed on that stand from the cursor on, as many as there is room for; where there is room for all, all."""
    if len(names) <= room:
        return list(names)
    place = cursor % len(names)
    return [*names[place:], *names[:place]][:room]


def move_cursor(cursor: int, count: int, room: int, turn: int) -> int:
    """The cursor moves on by as much as the room, or by less as far as room is left over, drawn by the number of the turn: so each name is handed on within
    `count_nights` turns, and somebody who makes three turns for each one that is carried doesn't hand on the same names each time."""
    nights = count_nights(count, room)
    if nights == 1:
        return 0
    least = -(-(count - room) // (nights - 1))
    drawn = int.from_bytes(hashlib.sha256(str(turn).encode()).digest()[:4], "big") % (room - least + 1)
    return (cursor + least + drawn) % count


def order_lines(lines: Sequence[Sequence[Handed]], room: int) -> list[Handed]:
    """Of lists of lines, each with its newest first, first the newest of each is handed on, then the second of each, and so on, as long as there is room."""
    rows: chain[Optional[Handed]] = chain.from_iterable(zip_longest(*lines))
    return list(islice((it for it in rows if it is not None), room))


def choose_handed_back(taken: Optional[Line], signed: Optional[Line]) -> Optional[Line]:
    """A peer is handed back the later one of its line that was recorded and of its latest one that is held with a good signature: of that the message may have been
    lost on its way, and a store that was put back before it would make that step a second time."""
    if taken is None or signed is None:
        return taken or signed
    return signed if signed.step > taken.step else taken


def place_end(lines: Sequence[Handed], end: Optional[Handed], turn: int) -> list[Handed]:
    """The line by which the part before ended is handed on behind the newest one of a peer, and in each fourth turn before it, so that it goes round too where
    each peer has room for one: by it a service is found that ends in two ways."""
    if end is None:
        return list(lines)
    place = 0 if turn % 4 == 3 else 1
    return [*lines[:place], end, *lines[place:]]


def is_first_hand(tellers: Collection[str], parties: Collection[str]) -> bool:
    """A receipt that was heard is handed on where one of both whom it is of told it, the recorder or the service that was recorded, each by all names of its
    parts. So each goes round once, to the peers of their peers, and one that somebody has made up for others ends where it was heard."""
    return any(teller in parties for teller in tellers)


def keep_latest(pieces: Iterable[Piece], room: int) -> list[Piece]:
    """Of receipts that are told one after another the last so many different ones, each where it was told last: no more than these are held, however many are
    told. Where a peer gets so many, and told no more than so many itself, twice as many are enough for all."""
    found: OrderedDict[Piece, None] = OrderedDict()
    for piece in pieces:
        found[piece] = None
        found.move_to_end(piece)
        if len(found) > room:
            found.popitem(last=False)
    return list(found)


def choose_receipts(known: Sequence[Handed], told: Collection[Handed], room: int) -> list[Handed]:
    """A peer gets the last receipts that are known, but for those that it told itself: handed back to it they would look as if this service told them, and
    whoever told a receipt that fails is doubted."""
    return list(islice((it for it in reversed(known) if it not in told), room))[::-1]
