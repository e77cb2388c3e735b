"""Followers: who keeps heads of a service's one history, the bytes of their store, and what they answer.

docs/formats.md, "The root record of a follower" and "Head pages"; docs/operating.md tells what becomes of a message.
"""

from __future__ import annotations

from typing import List, Sequence

from .anchors import Anchor
from .hashed_texts import genesis
from .messages import read_message
from .services import refuse_unless
from .stores import Body, FollowerRoot, HeadPage, slot_of, store_file
from .tree_pages import FIRST


class Follower:
    """A follower of the service of a name after these heads, whose steps rise."""

    def __init__(self, name: str, heads: Sequence[Anchor] = ()) -> None:
        self.name = name
        self.heads: List[Anchor] = [Anchor(*head) for head in heads]

    def last(self) -> Anchor:
        """The last head; before the first one step 0, and the name's own authenticator."""
        return self.heads[-1] if self.heads else Anchor(0, genesis(self.name))

    def anchor(self, step: int, auth: bytes) -> bytes:
        """The line of a step of its service."""
        return f"{self.name} {step} {auth.hex()}\n".encode()

    def head(self) -> bytes:
        """The line of the last head."""
        return self.anchor(*self.last())

    def lines(self) -> bytes:
        """The lines of all heads."""
        return b"".join(self.anchor(*head) for head in self.heads)

    def offer(self, data: bytes) -> bytes:
        """The line of the last head, once a message was offered; raises `Refused`, or `Malformed`."""
        message = read_message(data)
        last, kept = self.last()
        step, auth = message.step, message.authenticator
        refuse_unless(message.service == self.name, f"Other {message.service}")
        refuse_unless(step >= last, f"Stale {last}")
        if step == last:
            refuse_unless(auth == kept, f"Forked {last} {kept.hex()} {auth.hex()}")
            return self.head()
        refuse_unless(message.since == last and message.leads_from(kept), f"BadLink {last} {kept.hex()}")
        self.heads.append(Anchor(step, auth))
        return self.head()

    def moved(self, step: int, auth: bytes) -> Follower:
        """One that has one more head."""
        return Follower(self.name, [*self.heads, Anchor(step, auth)])

    # ---- the store

    def slot(self) -> int:
        """The slot of its store that counts."""
        return slot_of(len(self.heads))

    def _body(self, generation: int, count: int) -> Body:
        step, auth = Follower(self.name, self.heads[:count]).last()
        return Body(generation, FIRST + count, FollowerRoot(self.name, step, auth, FIRST + count - 1 if count else 0).to_bytes())

    def file(self) -> bytes:
        """The whole file of its store."""
        count = len(self.heads)
        pages = [HeadPage(step, auth, FIRST + k - 1 if k else 0).to_bytes() for k, (step, auth) in enumerate(self.heads)]
        return store_file(self._body(count + 1, count), self._body(count, max(count - 1, 0)), count, pages)
