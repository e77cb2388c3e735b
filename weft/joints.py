"""How a service that exchanges goes on in parts: what shows it to its peers, and how a peer's next part is taken for that. The rules stand in
`weft.deciding.going_on`.

    out/line, out/goes-on     of a part that has ended: its last line, signed, and the proof of the event there, which names the next part
    out/PART/came-from        of a further part: the proof that its first step received that line, under the signed line beside it
    kept/next                 of a peer's part that has ended: the name of the next one, and its last line
    kept/part-line            of one that hasn't, as far as is taken: the signed line of its next part by which links to lines that the user keeps of that are asked for
    kept/part-joined          that line, and those of his which a link joined to it

Both lines are signed by one key, which is noted of the peer. The key is noted of the next part then, and nobody has to accept that. A part that has ended
puts nothing else out, and is asked nothing: the last one answers for all."""

from __future__ import annotations

from pathlib import Path
from typing import Callable, Collection, NamedTuple, Optional

from weft import asking, formats, hearing, own, signatures
from weft.box import Peer
from weft.deciding.going_on import Fault, Joint, is_behind_end, is_next, named_in, weigh_name
from weft.deciding.linking import Meaning, list_unheld, pair_of, weigh_all, weigh_answer
from weft.deciding.signatures import PublicKey, Signed, may_count_for_part, read_noted_key, read_signed_line
from weft.judges import Bench
from weft.lines import Kept, Line, anchors, kept_now, read_line
from weft.links import line_given
from weft.parts import Part, first_received
from weft.trouble import Trouble

MOST_SIGNED = 8_192
# So many further parts of a peer are taken in a turn.
MOST_FOLLOWED = 3


# ---- what is put out


def came_from(part: Part, earlier: Line) -> bytes:
    """The proof that the first step of a part received the last line of the one before it, under its own last line."""
    return part.store.done("prove", "thread", "1", earlier.service, str(earlier.step), str(part.last.step))


def goes_on(part: Part) -> bytes:
    """The proof of the event in the last step of a part, which names the next one."""
    return part.store.done("prove", "event", str(part.last.step), "0", str(part.last.step))


def receipt_of(judge: Bench, part: Part, earlier: Line) -> bytes:
    """The receipt of the last line of a part by the next one, by which others find the way from one to the other."""
    first = own.line_at(part.store, judge, 1, part.last)
    theirs, ours = bytes.fromhex(earlier.authenticator), bytes.fromhex(first.authenticator)
    return formats.Receipt(part.last.service, 1, ours, earlier.service, earlier.step, theirs).to_bytes()


# ---- what came


class Ended(NamedTuple):
    """The line in the folder of a peer's part that may have ended, and its signature, which only a box that takes unsigned ones can be without."""

    line: Line
    signed: Optional[Signed]


class Follower:
    """How peers' next parts are taken in a turn: who judges, where keys are noted, whether unsigned lines are taken, by which key a line is signed, what keeps
    a signed line of a peer, what tells that something didn't fit, which other line of its step its user keeps, and which lines he keeps of a service."""

    def __init__(
        self, judge: Bench, signers: Path, is_unsigned: bool, key_of: Callable[[Signed], Optional[str]], note: Callable[[Peer, Signed, str], None],
        unfit: Callable[[Peer, str], None], other_kept: Callable[[Line], Optional[str]], kept_of: Callable[[str], list[Kept]],
    ):  # fmt: skip
        self.judge, self.signers, self.is_unsigned = judge, signers, is_unsigned
        self.key_of, self.note, self.unfit, self.other_kept, self.kept_of = key_of, note, unfit, other_kept, kept_of

    def follow(self, peer: Peer, taken: Collection[str]) -> list[Peer]:
        """The further parts in which a peer goes on, as far as it is shown: each is taken for that, in their order, and so many in a turn. These names others have."""
        found: list[Peer] = []
        while len(found) < MOST_FOLLOWED and peer.accepted() and (proof := peer.take("goes-on", formats.MOST_PROOF)) is not None:
            part = self.taken(peer, proof, {*taken, *peer.names})
            if part is None:
                break
            found.append(part)
            peer = part
        return found

    def taken(self, peer: Peer, proof: bytes, taken: Collection[str]) -> Optional[Peer]:
        """The part in which a peer goes on, once it is shown; else None, and why not is told."""
        end = self.last_line(peer)
        named = named_by(self.judge, proof, end.line) if end is not None else None
        fault = weigh_name(named, peer.first.name, taken)
        if end is None or named is None or fault is not None:
            self.tell(peer, named, fault)
            return None
        part, key = peer.part(named), self.key_noted(peer, end)
        begun = self.first_line(part, key)
        came = part.take("came-from", formats.MOST_PROOF) or b""
        received = first_received(self.judge, came, begun) if begun is not None else None
        if begun is None or not is_next(Joint(end.line, named, begun.service, received)):
            what = f"it goes on as {named}, as its last step says, and what shows that {named} begins with that step hasn't come, or doesn't fit: not taken yet"
            self.unfit(peer, what)
            for text in part.told:
                peer.need(text)
            return None
        shown = [begun, *(line for way in formats.ways_in(came) for line in way.lines(True) if line.service == begun.service)]
        other = next((it for it in map(self.other_kept, shown) if it is not None), None)
        if other is None and list_unheld((it.line for it in self.kept_of(named)), shown):
            begun = self.waiting_line(peer, part, begun, key)
            other = self.unjoined(peer, part, begun)
        if other is not None:
            peer.need(f"it goes on as {named}, and that isn't taken: {other}")
            return None
        return self.noted(peer, part, end, begun, key)

    def waiting_line(self, peer: Peer, part: Peer, begun: Line, key: Optional[PublicKey]) -> Line:
        """The line of a part by which links are asked for: the first one that was shown to be of it, as long as it is signed by this key; so an answer fits, however many
        steps the part makes until it comes."""
        noted = self.line_in(peer.read("part-line"), part.name, key)
        if noted is None:
            peer.renew("part-line", part.take_once("line", MOST_SIGNED) or b"")
        return noted or begun

    def unjoined(self, peer: Peer, part: Peer, begun: Line) -> Optional[str]:
        """That a line which the user keeps of a part isn't of its history, or that no link has shown yet that it is; None once each is joined. What is missing is asked
        for."""
        base, *joined = [read_line(text) for text in peer.read("part-joined").decode("ascii", "replace").splitlines()] or [None]
        known = {*joined} if base == begun else set()
        meanings = {it: Meaning.JOINS if it.line in known else self.meaning_of(peer, part, begun, it.line) for it in self.kept_of(begun.service) if it.line.step}
        peer.renew("part-joined", anchors([begun, *(it.line for it, meaning in meanings.items() if meaning is Meaning.JOINS)]))
        found = weigh_all(meanings.values())
        if found is Meaning.JOINS:
            return None
        kept = next(it for it, meaning in meanings.items() if meaning is found)
        told = f"you keep its line of step {kept.line.step} ({kept.told})"
        if found is Meaning.PARTS:
            return (
                f"{told}, and the history of the line in its folder, of step {begun.step}, has another one: that service has shown two histories, or one of both isn't "
                f"its own, or two services have one name. Ask {peer.name} by another way"
            )
        return f"{told}, and no link has shown yet that it is of that history; it is asked for each night"

    def meaning_of(self, peer: Peer, part: Peer, begun: Line, kept: Line) -> Meaning:
        """What is known of a line of a part and one that the user keeps of it: by themselves where they are of one step, else by the link, which is asked for."""
        if kept.step == begun.step:
            return Meaning.JOINS if kept == begun else Meaning.PARTS
        pair = pair_of(kept, begun)
        request = f"of {begun.service} {pair.request}"
        answer = part.take(f"answers/{asking.id_of(request)}", asking.MOST_ANSWER)
        meaning = Meaning.NOTHING if answer is None else weigh_answer(pair, line_given(self.judge, pair, answer))
        asking.forget_answer(peer, request)
        if meaning is Meaning.NOTHING:
            asking.ask(peer, request)
        return meaning

    def tell(self, peer: Peer, named: Optional[str], fault: Optional[Fault]) -> None:
        """Tells why what a peer names isn't looked for."""
        if fault is Fault.FOREIGN or fault is Fault.TAKEN:
            peer.need(f"its last step names {named} as the part in which it goes on, and {fault.value}: not taken. Ask {peer.name} by another way")
        else:
            self.unfit(peer, "its file goes-on doesn't show, under the signed line beside it, that its last step names a next part: not taken")

    def last_line(self, peer: Peer) -> Optional[Ended]:
        """The line in a peer's folder, as it counts here."""
        data = peer.take_once("line", MOST_SIGNED) or b""
        signed = read_signed_line(data)
        if signed is not None and signed.line.service == peer.name and (self.is_unsigned or self.key_of(signed) is not None):
            return Ended(signed.line, signed)
        line = read_line(data.decode("ascii", "replace").removesuffix("\n")) if self.is_unsigned else None
        return Ended(line, None) if line is not None and line.service == peer.name else None

    def key_noted(self, peer: Peer, end: Ended) -> Optional[PublicKey]:
        """The key by which a peer's line is signed, as it is noted of it; None in a box that takes unsigned ones."""
        key = self.key_of(end.signed) if end.signed is not None else None
        if key is None:
            return None
        noted = (read_noted_key(line) for line in signatures.key_lines(self.signers, peer.name))
        return next((it for it in noted if it is not None and it.fingerprint == key.split()[-1]), None)

    def first_line(self, part: Peer, key: Optional[PublicKey]) -> Optional[Line]:
        """The line in the folder of what may be a part, where it is signed by this key of the part before it."""
        return self.line_in(part.take_once("line", MOST_SIGNED) or b"", part.name, key)

    def line_in(self, data: bytes, name: str, key: Optional[PublicKey]) -> Optional[Line]:
        """The line of a service of this name in these bytes, where it is signed by this key, or unsigned ones are taken."""
        signed = read_signed_line(data)
        if key is not None and signed is not None and signed.line.service == name and signatures.checked_by(signed, key) is not None:
            return signed.line
        line = signed.line if signed is not None else read_line(data.decode("ascii", "replace").removesuffix("\n"))
        return line if self.is_unsigned and line is not None and line.service == name else None

    def noted(self, peer: Peer, part: Peer, end: Ended, begun: Line, key: Optional[PublicKey]) -> Optional[Peer]:
        """Takes a part for the next one of a peer. That it is so is written last: a turn that was stopped before does all anew."""
        if end.signed is not None and key is not None:
            self.note(peer, end.signed, f"signed by {self.key_of(end.signed)}, by exchange")
        part.make()
        if key is not None:
            try:
                signatures.add_signer(self.signers, part.name, key)
            except Trouble as trouble:
                peer.need(f"it goes on as {part.name}, and that wasn't taken: {trouble.sentence}")
                return None
            part.renew("key", f"{key.fingerprint}\n".encode())
        hearing.go_on(peer, part)
        part.renew("sent", peer.read("sent"))
        part.renew("accepted", f"{kept_now(begun, f'the part in which {peer.name} goes on, as its last step says').text}\n".encode())
        peer.remove("unjoined")
        peer.remove("part-line")
        peer.remove("part-joined")
        peer.renew("next", f"{part.name} {end.line.text}\n".encode())
        part.say(f"{peer.name} goes on so: its last step names {part.name}, whose first step received it, both proved")
        return peer.goes_on_in(part)

    def watch(self, ended: Peer) -> None:
        """Tells a signed line of a part that has ended which is behind its last one, and holds another one of that step against it."""
        end = ended.end()
        signed = read_signed_line(ended.take_once("line", MOST_SIGNED) or b"")
        if end is None or signed is None or signed.line.service != ended.name or signed.line == end.line or self.key_of(signed) is None:
            return
        if is_behind_end(end.line, signed.line):
            ended.need(
                f"its key signed a line of step {signed.line.step}, and with step {end.line.step} it went on as {end.name}: somebody else may have its key, "
                f"or it goes on beside that part. Nothing of it is taken. Ask {ended.last.name}"
            )
        else:
            self.note(ended, signed, f"signed by {self.key_of(signed)}, by exchange")


def counting_keys(signers: Path, peer: Peer) -> set[str]:
    """The fingerprints of the keys that count for a peer now: those that are noted of it, and of a further part by itself only while they count for the part
    before."""
    noted = signatures.fingerprints(signers, peer.name)
    if peer.earlier is None or not peer.read("key"):
        return noted
    by_itself, earlier = peer.read("key").decode("ascii", "replace").strip(), counting_keys(signers, peer.earlier)
    return {key for key in noted if may_count_for_part(key, by_itself, earlier)}


def named_by(judge: Bench, data: bytes, end: Line) -> Optional[str]:
    """The name of the next part that a proof shows in the step of a line, where that step has no other event; else None."""
    proof = formats.read_proof(data)
    if not isinstance(proof, formats.proofs.ExistenceProof) or (proof.service, proof.step, proof.top) != (end.service, end.step, end.step):
        return None
    is_only = proof.opening.count == 1 and judge.judge("strict", data, anchors([end])).is_accepted
    return named_in([proof.event.event]) if is_only else None


def end_of(ended: Optional[Peer]) -> Optional[Signed]:
    """The last line of a peer's part that has ended, with its signature; None where it wasn't signed, or none has ended."""
    end = ended.end() if ended is not None else None
    return next((it for it in ended.signed_at(end.line.step) if it.line == end.line), None) if ended is not None and end is not None else None
