"""What was heard of each peer, turn by turn, and what is told of those that are silent. The rule stands in `weft.deciding.silence`.

    kept/silence    of the peer's signed lines, of its messages that were recorded, and of lines of others that it hands on: in how many turns nothing new
                    came, and what came last
    kept/handed     of each service the latest line that the peer handed on with a good signature, with the key that signed it"""

from __future__ import annotations

from typing import Callable, Collection, NamedTuple, Optional

from weft import formats
from weft.box import Peer
from weft.deciding.signatures import Signed
from weft.deciding.silence import (
    Handed, Heard, Silence, begin_handed_on, describe_silence, hear, hear_handed_on, is_handed_on_due, is_silent, list_later, read_handed, read_silence,
)  # fmt: skip
from weft.texts import name_of, now

LINES, MESSAGES, HANDED_ON = "signed line", "message", "line of others that it hands on"
# So many lines that a peer hands on are looked at in a turn whose signature isn't good.
MOST_BAD = 8


class Keys(NamedTuple):
    """By which key that is noted now a line is signed, and the fingerprints of the keys that are noted of a service."""

    key_of: Callable[[Signed], Optional[str]]
    noted: Callable[[str], Collection[str]]


class Others(NamedTuple):
    """What a turn heard of the lines of others that a peer hands on: the latest good one of each service, with those of before; whether one of them is new;
    and whether some were due."""

    handed: dict[str, Handed]
    is_new: bool
    is_due: bool


def read_kept_silence(peer: Peer) -> dict[str, Silence]:
    """What is kept of a peer's silence."""
    texts = dict(text.split(": ", 1) for text in peer.read("silence").decode("ascii", "replace").splitlines() if ": " in text)
    return {what: read_silence(texts.get(what, "")) for what in (LINES, MESSAGES, HANDED_ON)}


def last_taken_step(peer: Peer) -> int:
    """The last step of a peer that was recorded, 0 for none."""
    taken = peer.taken_line()
    return taken.step if taken else 0


def note_silence(peer: Peer, found: dict[str, Silence]) -> None:
    """Keeps what was heard of a peer, for the next turn."""
    peer.renew("silence", "".join(f"{what}: {silence.text}\n" for what, silence in found.items()).encode())


def hear_others(peer: Peer, keys: Keys, names: Collection[str], heard: Collection[str]) -> Others:
    """What a peer handed on in this turn of others of these names, of whom some were heard."""
    kept = (read_handed(text) for text in peer.read("handed").decode("ascii", "replace").splitlines())
    before = {it.service: it for it in kept if it and it.fingerprint in keys.noted(it.service)}
    found: dict[str, Handed] = {}
    bad = 0
    for signed in list_later((it for it in peer.seen if it.line.service in names), {name: it.step for name, it in before.items()}):
        if signed.line.service in found or bad == MOST_BAD:
            continue
        key = keys.key_of(signed)
        bad += key is None
        if key is not None:
            found[signed.line.service] = Handed(signed.line.service, signed.line.step, key.split()[-1])
    recorded = set[str]() if found else recorded_by(peer)
    is_due = peer.line_heard is Heard.NEW and is_handed_on_due(read_kept_silence(peer)[HANDED_ON], bool(peer.seen), heard, before, recorded)
    return Others(before | found, bool(found), is_due)


def recorded_by(peer: Peer) -> set[str]:
    """The services of which a peer's receipts tell that it recorded them."""
    parties = (formats.parties_of(piece) for piece in formats.receipt_pieces(peer.read("heard")))
    return {service for recorder, service in (it for it in parties if it) if recorder == peer.name}


def listen(peer: Peer, is_line_due: bool, is_message_due: bool, others: Others, own: int, day: str) -> None:
    """Notes what was heard of a peer in this turn, by the limit of its box tells its silence, and that counts. Signed lines are due of a peer whose key is
    known, messages of one that a person accepted."""
    before = read_kept_silence(peer)
    after = dict(before)
    if is_line_due:
        after[LINES] = hear(before[LINES], peer.line_heard, peer.line_came or peer.line_had, own, day)
    if is_message_due:
        after[MESSAGES] = hear(before[MESSAGES], peer.message_heard, last_taken_step(peer), own, day)
    if peer.is_seen_read:
        after[HANDED_ON] = hear_handed_on(before[HANDED_ON], others.is_new, others.is_due, own, day)
    note_silence(peer, after)
    peer.renew("handed", "".join(f"{others.handed[name].text}\n" for name in sorted(others.handed)).encode())
    limit = peer.settings.silent
    if is_line_due and is_silent(after[LINES], limit):
        peer.need(sentence(peer, describe_silence(after[LINES], LINES)) + earlier_line(peer))
    elif is_message_due and is_silent(after[MESSAGES], limit):
        peer.need(sentence(peer, f"{describe_silence(after[MESSAGES], MESSAGES)}{', though its signed lines come' if is_line_due else ''}"))
    elif is_silent(after[HANDED_ON], limit):
        peer.need(without_others(peer, after[HANDED_ON]))


def without_others(peer: Peer, found: Silence) -> str:
    """What is known of a peer whose own lines come, and none that it hands on, and what to do."""
    last = f"the last such one came on {found.day}" if found.step else "none came before, though by its receipts it recorded steps of others"
    return (
        f"its own lines come, and in {found.turns:,} turns no line of others that it hands on was new and signed by a key that is noted here; {last}. By these "
        f"two histories of one service are found: look whether the carrier leaves out its file `seen`, or brings an old one, and ask {peer.name}. If it hands "
        f"none on any more: weft accept {name_of(peer.folder.parent)} {peer.name}, which begins anew"
    )


def earlier_line(peer: Peer) -> str:
    """What is known, and what to do, where a line of an earlier step came than the last one that was heard."""
    if not 0 < peer.line_came < peer.line_had:
        return ""
    return (
        f". Its line of step {peer.line_came} came, and one of step {peer.line_had} was signed by its key before. If somebody else signed that one, take the "
        f"key out of allowed_signers; to go on from the line that it waits with: weft accept {name_of(peer.folder.parent)} {peer.name}"
    )


def begin_anew(peer: Peer, step: int) -> None:
    """A person has accepted a peer by its line of this step: what comes of a later one is new from now on."""
    others = begin_handed_on(peer.accepted() is not None, now()[:10])
    note_silence(peer, {LINES: Silence(0, step), MESSAGES: read_kept_silence(peer)[MESSAGES], HANDED_ON: others})


def go_on(ended: Peer, part: Peer) -> None:
    """A peer goes on in a new part: of its lines and messages nothing was heard yet; what it hands on of others is what it was."""
    note_silence(part, {LINES: Silence(), MESSAGES: Silence(), HANDED_ON: read_kept_silence(ended)[HANDED_ON]})
    part.renew("handed", ended.read("handed"))


def sentence(peer: Peer, told: str) -> str:
    """What is known of a silent peer, and what to do."""
    has = peer.has()
    known = f"it has your step {has.step}" if has is not None else "nothing tells that it has a step of yours"
    return f"{told}; {known}. Look whether the carrier runs, and ask {peer.name} whether its turns do; if it is gone for good, move its folder out of the box"
