"""Links between signed lines of a peer whose steps differ: asked for, judged, and told. The rules stand in `weft.deciding.linking`.

    kept/joined     the peer's lines that are known to be of one history: those that were recorded here, and those that a link joins to them
    kept/bound      the part of one's own that recorded one of these: what it records further is of that history too
    kept/links      which links are open, of which lines
    kept/loose      those lines of them that aren't known to be of that history, with their signatures
    kept/forks      two signed lines, and the link by which the later one's history isn't the earlier one's"""

from __future__ import annotations

from typing import Callable, NamedTuple, Optional, Sequence

from weft import asking, files
from weft.box import Peer
from weft.deciding.forks import name_fork_file
from weft.deciding.linking import MOST_OPEN, Meaning, Open, Pair, choose_base, count_night, is_evidence, list_loose, must_tell, read_open, weigh_answer
from weft.deciding.signatures import Signed, read_signed_lines
from weft.deciding.silence import Heard
from weft.judges import Bench
from weft.lines import Line, anchors, read_line
from weft.texts import name_of

MOST_JOINED = 256
# Of a peer's signed lines so many of the last ones are joined by links; each was one of these when it came.
MOST_HELD = 48


class Held(NamedTuple):
    """What is held of a peer: the lines that are known to be of one history, in the order in which that became known; and each signed line by its line."""

    joined: list[Line]
    signed: dict[Line, Signed]


class Links:
    """The links of a turn: who judges them, by which key a line is signed, what keeps a signed line of a peer, after how many nights it is told that none
    came, and the number of the turn."""

    def __init__(self, judge: Bench, key_of: Callable[[Signed], Optional[str]], note: Callable[[Peer, Signed], None], limit: int, turn: int):
        self.judge, self.key_of, self.note, self.limit, self.turn = judge, key_of, note, limit, turn

    def settle(self, peer: Peer, handed_on: Sequence[Sequence[Signed]]) -> None:
        """Takes the answers of a peer to what was asked of it, tells those that don't fit or never came, and asks for further links. Others have handed on
        these signed lines of the peer, whose signatures weren't checked."""
        held = held_of(peer)
        if not held.joined:
            return
        opened = [it for it in (read_open(text) for text in peer.read("links").decode("utf-8", "replace").splitlines()) if it]
        left = [it for it in (self.answered(peer, held, one) for one in opened) if it]
        left += self.new(peer, held, handed_on, left)
        for it in left:
            asking.ask(peer, it.pair.request)
        self.tell(peer, left)
        if peer.taken_line() in held.joined:
            peer.renew("bound", f"{peer.taken_by()}\n".encode())
        peer.renew("joined", "".join(f"{line.text}\n" for line in held.joined[-MOST_JOINED:]).encode())
        peer.renew("loose", b"".join(held.signed[it.loose].data for it in left if it.loose in held.signed))
        peer.renew("links", "".join(f"{it.text}\n" for it in left).encode())

    def answered(self, peer: Peer, held: Held, one: Open) -> Optional[Open]:
        """An open link, after what came of it in this turn; None where nothing is left to be asked."""
        if one.loose in held.joined or not self.is_good(held, one.loose):
            return None
        answer = asking.known(peer, one.pair.request)
        if answer is None:
            return count_night(one, peer.last.line_heard is Heard.NEW, self.limit)
        meaning = weigh_answer(one.pair, line_given(self.judge, one.pair, answer))
        asking.forget_answer(peer, one.pair.request)
        if meaning is Meaning.JOINS:
            held.joined.append(one.loose)
            self.note(peer, held.signed[one.loose])  # (another line of that step that is handed on later is held against it)
        elif meaning is Meaning.PARTS:
            self.note_parting(peer, held, one.pair, answer)
        else:
            base = choose_base([line for line in held.joined if line.step != one.loose.step]) or one.joined
            return one._replace(joined=base, is_unfit=True, nights=0)
        return None

    def is_good(self, held: Held, line: Line) -> bool:
        """Whether a line is signed by a key that is noted of its service now."""
        signed = held.signed.get(line)
        return signed is not None and self.key_of(signed) is not None

    def new(self, peer: Peer, held: Held, handed_on: Sequence[Sequence[Signed]], opened: Sequence[Open]) -> list[Open]:
        """The links that are asked for in this turn, each of a line that is signed by the peer's key."""
        base, found = choose_base(held.joined), list[Open]()
        by_line = {it.line: it for signed in reversed(handed_on) for it in signed} | held.signed
        sources = [list(held.signed), *([it.line for it in signed] for signed in handed_on)]
        for line in list_loose(sources, held.joined, opened, self.turn):
            if base is None or len(opened) + len(found) >= MOST_OPEN:
                break
            held.signed.setdefault(line, by_line[line])
            if self.is_good(held, line):
                found.append(Open(line, base))
        return found

    def tell(self, peer: Peer, opened: Sequence[Open]) -> None:
        """Tells one of those links that it is time to tell, and how many more there are: one whose answer doesn't fit, else the newest. What is told is what is
        known."""
        late = sorted((it for it in opened if must_tell(it, self.limit)), key=lambda it: (not it.is_unfit, -it.loose.step))
        if not late:
            return
        pair, unfit = late[0].pair, late[0].is_unfit
        what = "its last answer shows no link between them" if unfit else f"in {self.limit} nights no link between them came"
        more = f" (and so of {len(late) - 1} more)" if len(late) > 1 else ""
        peer.need(
            f"it signed a line of step {pair.earlier.step} and one of step {pair.later.step}; whether both are of one history isn't known: {what}{more}. "
            f"Both are kept, and it is asked again each night. Ask {peer.name} by another way for the link: timeweave prove DIR {pair.request}"
        )

    def note_parting(self, peer: Peer, held: Held, pair: Pair, link: bytes) -> None:
        """Keeps the two lines and the link by which the later one's history has another line of the earlier step, and tells it, as evidence, where both are
        signed by a key that is noted of the peer now. Else that is told, and nothing kept."""
        steps = f"step {pair.earlier.step} and one of step {pair.later.step}"
        shown = f"by the link that it gave itself, the history of the later one has another step {pair.earlier.step}"
        if not is_evidence(Meaning.PARTS, [self.is_good(held, line) for line in pair]):
            told = f"there are a line of its {steps}, and {shown}; not both are signed by the key that is noted of it now"
            peer.need(f"{told}: that shows nothing against it. Ask {peer.name} for both lines")
            return
        folder = peer.kept / "forks"
        for line in pair:
            files.renew(folder / name_fork_file(line), held.signed[line].data)
        files.renew(folder / pair.file_name, link)
        told = f"EVIDENCE: there are a line of its {steps}, both signed by its key, and {shown}: it has shown two histories, or somebody else has its key"
        peer.accuse(f"{told}. All three are kept in {name_of(folder)}; show them to all who hold its lines")


def line_given(judge: Bench, pair: Pair, answer: bytes) -> Optional[Line]:
    """The line that a link gives, judged strictly under the later line of the pair; None where it isn't accepted, or is no link."""
    if not answer.startswith(b"TWP1"):
        return None
    verdict = judge.judge("strict", answer, anchors([pair.later]))
    words = verdict.lines[1] if verdict.is_accepted and len(verdict.lines) > 1 else []
    return Line(words[1], int(words[2]), words[4]) if words[:1] == ["link"] else None


def held_of(peer: Peer) -> Held:
    """What is held of a peer. The line that was recorded last is of the history of those before it that the same part of one's own recorded: that refuses it
    else. What a new part records first is of that history once a link joins it."""
    lines = [line for line in map(read_line, peer.read("joined").decode("utf-8", "replace").splitlines()) if line]
    taken, bound = peer.taken_line(), peer.read("bound").decode("ascii", "replace").removesuffix("\n")
    is_bound = not lines or bound == peer.taken_by()
    joined = [*lines, *([taken] if taken and taken not in lines and is_bound else [])]
    return Held(joined, {it.line: it for it in [*read_signed_lines(peer.read("loose"), [peer.name]), *peer.signed_lines()[-MOST_HELD:]]})
