"""What the proofs that peers handed out show of their services: two of one service that break a rule of histories between them, or one that does alone. They
are held against each other each night, where names meet; which may break a rule stands in `weft.deciding.contradicting`.

    kept/shown      of each of these proofs that was accepted its SHA-256 digest, and what it tells"""

from __future__ import annotations

import os
from typing import Callable, Mapping, NamedTuple, Optional, Sequence

from weft import asking, choosing, files, formats, judges, reports
from weft.box import Peer
from weft.deciding.contradicting import Told, find_pairs, read_told
from weft.deciding.rows import digest_of
from weft.deciding.signatures import Signed
from weft.judges import Bench, Verdict
from weft.kinds import ARCHIVE_KINDS
from weft.lines import Line, anchors
from weft.sentences import fill
from weft.statuses import Status
from weft.texts import name_of

# So many pairs of a service are told.
MOST_TOLD = 4


class Answer(NamedTuple):
    """A proof that was handed out, where it is kept, and what it tells of whose service under a line that is signed by that one's key."""

    path: str
    data: bytes
    of: Peer
    told: Told


class Answers:
    """The answers of peers: who judges them, and by which key a line is signed now."""

    def __init__(self, peers: Sequence[Peer], judge: Bench, key_of: Callable[[Signed], Optional[str]]):
        self.judge, self.key_of = judge, key_of
        self.peers = peers
        self.named = {peer.name: peer for peer in peers}

    def hold(self) -> None:
        """Holds all answers against each other, and tells of each service what they show of it."""
        found, links = list[Answer](), list[bytes]()
        for peer in self.peers:
            kept = kept_answers(peer)
            links += [data for _, data in kept if formats.kind_of(data) == "link"]
            found += self.note(peer, kept)
        if not found:
            return
        seat, counts = judges.for_contradictions(self.judge), dict[str, int]()
        for first, second in [*((it, it) for it in found), *((found[one], found[other]) for one, other in find_pairs([it.told for it in found]))]:
            verdict = contradiction_of(seat, first, second, links)
            counts[first.of.name] = counts.get(first.of.name, 0) + verdict.is_accepted
            if verdict.is_accepted and counts[first.of.name] <= MOST_TOLD:
                first.of.need(told_of(verdict, first, second), Status.CONTRADICTION)

    def note(self, holder: Peer, kept: Sequence[tuple[str, bytes]]) -> list[Answer]:
        """Those of the answers that a peer handed out which are accepted. What they were found to tell is noted, and they aren't judged again."""
        noted = noted_of(holder)
        found = [answer for path, data in kept for answer in self.accepted(path, data, noted)]
        holder.renew("shown", "".join(f"{digest_of(it.data)} {it.told.text}\n" for it in found).encode())
        return found

    def accepted(self, path: str, data: bytes, noted: Mapping[tuple[str, str], Told]) -> list[Answer]:
        """The answer, where it tells what a service received, and is accepted under a line that is signed by that one's key now."""
        proof = formats.read_proof(data) if formats.kind_of(data) in ARCHIVE_KINDS else None
        of = self.named.get(proof.service) if proof is not None else None
        if proof is None or of is None:
            return []
        lines = self.signed_lines(of, proof.top)
        told = next((it for line in lines if (it := noted.get((digest_of(data), line.text)) or self.judge_line(data, line)) is not None), None)
        return [] if told is None else [Answer(path, data, of, told)]

    def signed_lines(self, peer: Peer, step: int) -> list[Line]:
        """The lines of a peer's step that are signed by a key that is noted of it now."""
        return [signed.line for signed in peer.signed_at(step) if self.key_of(signed) is not None]

    def judge_line(self, data: bytes, line: Line) -> Optional[Told]:
        """What an answer tells under a line; None where it isn't accepted."""
        return formats.told_by(data, [line]) if self.judge.judge("strict", data, anchors([line])).is_accepted else None


def kept_answers(peer: Peer) -> list[tuple[str, bytes]]:
    """The answers of a peer, by their paths."""
    folder = peer.kept / "answers"
    try:
        names = sorted(name for name in os.listdir(folder) if not name.endswith(".new"))
    except FileNotFoundError:
        return []
    except OSError as failure:
        raise files.unread(folder, failure) from None
    return [(str(folder / name), files.read(folder / name, asking.MOST_ANSWER)) for name in names]


def noted_of(peer: Peer) -> dict[tuple[str, str], Told]:
    """What answers were found to tell, by their digests and the lines that they were accepted under."""
    found = {}
    for text in peer.read("shown").decode("ascii", "replace").splitlines():
        digest, _, words = text.partition(" ")
        told = read_told(words)
        if told is not None:
            found[digest, told.under.text] = told
    return found


def contradiction_of(judge: Bench, first: Answer, second: Answer, links: Sequence[bytes]) -> Verdict:
    """The verdict on two answers, or on one by itself."""
    parts = first.data, anchors([first.told.under]), second.data, anchors([second.told.under])
    return choosing.judge_contradiction(judge, parts, links)


def told_of(verdict: Verdict, first: Answer, second: Answer) -> str:
    """What answers show of a service: which rule, and that its key signed the lines. Nothing is said of others."""
    rule = reports.broken_rule(verdict)
    paths = " and ".join(map(name_of, dict.fromkeys([first.path, second.path])))
    whose = "it broke its rules, or somebody else has its key"
    if verdict.lines[0][-1] != "broken-rule":
        whose = "it broke its rules, or has two histories, or somebody else has its key"
    said = reports.refuted_sentences(verdict)[0] if first.path == second.path else reports.broken_sentence(rule)
    return (
        f"EVIDENCE: {paths}, accepted under lines that its key signed: {said} So {whose}. {fill('nobody else')} Show that to all who hold its lines; each turn "
        "ends with 11 until you take it out of the box"
    )
