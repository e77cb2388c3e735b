"""One service's turn with its peers: what came is taken, and what is to go is put out. A turn that was stopped anywhere is made good by the next.

Once the service's history has its share of what a file may have, the turn goes on in a new part, behind what it took and before what it puts out."""

from __future__ import annotations

import functools
import os
import re
from itertools import chain
from pathlib import Path
from typing import Collection, Iterator, NamedTuple, Optional, Sequence

from weft import asking, files, formats, hearing, joints, looking, own, parts, publishing, signatures
from weft.box import Peer, Settings, has_incoming, peers_of
from weft.deciding.boxes import may_be_meant
from weft.deciding.choosing import Beside, hold_line
from weft.deciding.forks import FILE_NAME, MOST_AT_STEP, Finding, Fork, find_contradicting, may_write_fork, name_fork_file, read_forks, weigh_contradiction
from weft.deciding.going_on import is_name_of_part, must_go_on
from weft.deciding.keeping import Outcome, list_counting, standing_of
from weft.deciding.lines import can_be
from weft.deciding.linking import Meaning, is_evidence, read_link_files
from weft.deciding.recording import choose_other_start, may_note_recorded
from weft.deciding.restoring import DAY, Begun, Go, Look, Told, Word, judge_turn, must_begin_anew, must_look, when_begun
from weft.deciding.sharing import choose_handed_back, choose_names, choose_receipts, is_first_hand, keep_latest, move_cursor, order_lines, place_end
from weft.deciding.signatures import PublicKey, Signed, read_signed_line, read_signed_lines
from weft.deciding.standing import Against, Command
from weft.deciding.silence import Heard, choose_last_heard, weigh_heard
from weft.deciding.told import By, Row, choose_told
from weft.deciding.worst import worst_of
from weft.formats import Message
from weft.joints import Follower
from weft.judges import Bench
from weft.lines import Kept, KeptLines, Line, keep, kept_now, read_line
from weft.links import Links
from weft.looking import Note, Notes
from weft.own import OwnLines, ToldLines
from weft.parts import Part
from weft.recorded import is_log, strange_steps
from weft.shown import Answers
from weft.standing import Standing
from weft.statuses import Status
from weft.texts import beside, name_of, now, printable
from weft.trouble import Trouble

MOST_SEEN = 128
MOST_RECEIPTS = 1024
OWN_RECEIPTS = 256
UNFIT_TURNS = 3
# Of a peer's signed lines so many are looked at for the last one whose key is noted now.
MOST_LOOKED_AT = 64
# So many bytes of a peer's lines and signed lines are kept in one file.
MOST_LINES, MOST_SIGNED = 32 << 20, 128 << 20
SIGNED_BYTES = 8_192
REFUSAL = re.compile(r"refused BadLink ([0-9]{1,13}) ([0-9a-f]{64})\nmessage ([0-9]{1,13}) since ([0-9]{1,13})(?: of ([a-z0-9-]{1,16}))?\n")
SEEN_NAME = re.compile(rb"^([a-z0-9-]{1,16}) [0-9]{1,13} [0-9a-f]{64}$", re.M)
# So many seconds after a look began a peer's word counts.
SETTLED = DAY


class Refusal(NamedTuple):
    """A peer's refusal of a message: the line of this service that it recorded last, and the step since which the refused message was made."""

    line: Line
    since: int


class OwnReceipt(NamedTuple):
    """A peer's receipt: the line of this service that it tells, its bytes, and which part of the peer gave it."""

    line: Line
    data: bytes
    by: str


class HeardReceipts(NamedTuple):
    """Of the receipts that peers told the last ones that were heard of whom they are of, and those of the names that they are of which a part of this service
    could get."""

    first_hand: list[bytes]
    names: set[str]


class Turn:
    """A turn of a service, in its last part, with the peers of a box, which goes on despite lines that some of them hand back; where the part behind that is
    being made already, that is made first."""

    def __init__(self, standing: Standing, box: Path, settings: Settings, judge: Bench, despite: list[str], named: Optional[Line]):
        self.box, self.settings, self.judge, self.despite, self.named = box, settings, judge, despite, named
        self.standing, self.new, self.kept, found = standing, standing.new, standing.kept, standing.made
        self.signers = box / "allowed_signers"
        self.all_peers, self.strange = peers_of(box, [part.last.service for part in found], settings)
        self.notes = Notes(box)
        self.note = self.notes.read()
        self.returned: dict[str, Line] = {}
        self.claims: dict[str, tuple[Line, ...]] = {}
        self.heard_names: set[str] = set()
        self.known: dict[tuple[str, int], Line] = {}
        self.messages: dict[tuple[str, int], bytes] = {}
        self.own_lines: dict[str, OwnLines] = {}
        self.keys: dict[Signed, Optional[str]] = {}
        self.handed: dict[Signed, Signed] = {}  # (each line is held once, however many peers hand it on)
        self.own: dict[Signed, bool] = {}
        self.signed_now: dict[Line, Signed] = {}
        self.status = Status.DONE
        self.is_made = True
        self.told: list[str] = []
        self.service, self.former = found[0].folder, list(found[:-1])
        self.enter(found[-1])

    def enter(self, part: Part) -> None:
        """Goes on in a part of the service."""
        self.store, self.last = part.store, part.last
        for peer in self.peers:
            peer.enter(self.place_of(part))

    @property
    def peers(self) -> list[Peer]:
        """The peers, each in its last part; those before it have ended."""
        return [peer for peer in self.all_peers if peer.later is None]

    @property
    def part(self) -> Part:
        """The part of the service in which it goes on."""
        return Part(len(self.former) + 1, self.store.folder, self.last)

    @property
    def parts(self) -> list[Part]:
        """All parts of the service."""
        return [*self.former, self.part]

    @property
    def first_name(self) -> str:
        """The name of the service's first part."""
        return self.parts[0].last.service

    @property
    def lines(self) -> OwnLines:
        """The lines of the last part."""
        return self.lines_of(self.part)

    def lines_of(self, part: Part) -> OwnLines:
        """The lines beside a part, which are read once."""
        return self.own_lines.setdefault(part.last.service, OwnLines(part.folder))

    @staticmethod
    def place_of(part: Part) -> str:
        """The folder within `out` in which a part puts out: the first one in `out` itself."""
        return "" if part.number == 1 else part.last.service

    def look(self, status: Status = Status.LOOK) -> None:
        """Something needs a look; what is worst counts."""
        self.status = worst_of([self.status, status])

    # ---- the own service

    def begin(self, is_look: bool) -> bool:
        """Whether the turn may be made: it waits for peers' words where somebody looks, and where the store or the box may come from a backup. Raises Trouble
        where the store isn't the one whose lines went out."""
        if self.named is not None:
            self.lines.expect_named(self.store, self.judge, self.last, self.named)
        _ = self.own_key  # (a key without a public half ends the turn before anything is made)
        returned = []
        for peer in self.peers:
            peer.make()
        self.follow_peers()
        for peer in self.peers:
            told_by = self.told_by(peer)
            returned += self.passed_over(peer, told_by) if peer.names & {*self.despite} else [(peer, told) for told in told_by]
        published = self.published()
        self.note_told(returned, published)
        self.expect_own_look()
        since = self.begin_look(is_look)
        accepted = [peer for peer in self.peers if peer.accepted() and not peer.names & {*self.despite}]
        words: list[Word] = [] if since is None else [looking.word_of(it, self.has(it), self.returned.get(it.name), self.claims[it.name]) for it in accepted]
        told = [*(it for _, it in returned), *published]
        to_prove = [*told, *(Told(line, "") for word in words for line in word.claims)]
        proved = own.proved_lines(self.store, self.judge, self.last, to_prove)
        answer = judge_turn(self.last, proved, told, words, None if since is None else Look(since, looking.now(), SETTLED))
        if answer.lacking is not None:
            raise self.old_store(answer.lacking, next((peer for peer, it in returned if it is answer.lacking), None))
        if is_look or answer.go is Go.WAIT:
            self.tell_look(accepted, answer.waiting, since)
        if since is not None and answer.go is Go.ON:
            if not accepted:
                self.standing.expect(Command.ALONE, but={Against.LOOK})
            self.lines.end_look(self.last)
        if self.named is not None and answer.go is Go.ON and not is_look:
            self.lines.adopt(self.last)  # (once no peer tells that it is an old one)
        return answer.go is Go.ON and not is_look

    def note_told(self, returned: Sequence[tuple[Peer, Told]], published: Sequence[Told]) -> None:
        """Notes beside the store which lines that it lacks this turn saw, before the turn ends by them: so each word that comes after it knows them."""
        by = {True: By.UNSIGNED, False: By.SIGNED}
        seen = [Row(told.line, by[told.whence.endswith("unsigned")], peer.name) for peer, told in returned]
        seen += [Row(told.line, By.PUBLISHED) for told in published]
        stands = [row for row in self.standing.told if self.is_lacking(row.line)]
        ToldLines(self.service).put(choose_told(stands, seen))

    def passed_over(self, peer: Peer, told: Sequence[Told]) -> list[tuple[Peer, Told]]:
        """Nothing of what a peer tells of this service counts, which a person has named for that; what the store lacks of it is told, and counts."""
        claimed = [*(it.line for it in told), *self.claims[peer.name]]
        self.claims[peer.name] = ()
        self.returned.pop(peer.name, None)
        if claimed:
            peer.need(f"it tells a line of your step {claimed[0].step} that this store lacks: passed over, by --despite {peer.name}")
        return []

    def tell_despite(self) -> None:
        """Tells a name that was to be passed over, and that no peer has: it may be mistyped."""
        for name in {*self.despite}.difference(*(peer.names for peer in self.all_peers)):
            self.told.append(f"{printable(name)}, named by --despite, is no peer of {name_of(self.box)}.")
            self.look()

    def begin_look(self, is_look: bool) -> Optional[int]:
        """Since when peers' words are waited for; None where they aren't."""
        moment, begun = looking.now(), self.begun_look()
        why = None if begun is None else self.why_anew(begun, moment)
        if not is_look and why is None and (begun is not None or not self.may_be_old(moment)):
            return begun.since if begun is not None else None
        if why is not None:
            self.told.append(why)
        since = when_begun(moment, (peer.came(name) for peer in self.peers for name in ("yours", "line")))
        self.lines.begin_look(since, self.notes.renew(moment))
        return since

    def begun_look(self) -> Optional[Begun]:
        """The look that goes on; a person who names the last line ends it."""
        return self.lines.begun_look() if self.named is None else None

    def expect_own_look(self) -> None:
        """Raises Trouble where a look of another box goes on, or one from before a restore, and no peer of this one can tell anything."""
        begun = self.begun_look()
        if begun is not None and self.lines.is_look_copied(begun, self.notes.identity()) and not any(peer.accepted() for peer in self.peers):
            self.standing.expect(Command.ALONE)

    def why_anew(self, begun: Begun, moment: int) -> Optional[str]:
        """Why the look that goes on begins anew; None where it doesn't."""
        if self.lines.is_look_copied(begun, self.notes.identity()):
            return looking.RESTORED
        return looking.CLOCK if must_begin_anew(begun.since, self.note.moment, moment) else None

    def may_be_old(self, moment: int) -> bool:
        """Whether the store or the box may come from a backup, and nobody has said that the store is the right one."""
        if self.named is not None:
            return False
        is_copy = self.notes.is_copy()
        if is_copy and self.notes.is_changed():
            self.told.append(f"{name_of(self.notes.path)} {looking.CHANGED}")
        return is_copy or self.lines.is_copy(self.last) or must_look(False, self.note.moment, moment)

    def tell_look(self, accepted: list[Peer], waiting: tuple[str, ...], since: Optional[int]) -> None:
        """Tells of each peer what it says of this service, and for whose word is waited."""
        for peer in accepted:
            peer.say(looking.describe_word(self.has(peer), self.returned.get(peer.name)))
            if peer.name in waiting and since is not None:
                claimed = next(iter(self.claims[peer.name]), None)
                peer.need(looking.describe_claim(peer, claimed, self.last) if claimed else looking.describe_waiting(peer, since))
        self.told.append("No step was made, and nothing was put out.")

    def told_by(self, peer: Peer) -> list[Told]:
        """The lines of this service that a peer's folder tells and the store lacks: those signed by its own key, handed back or put out before; in a box that
        takes unsigned messages also what an accepted peer claims. In another one such claims are noted."""
        returned, seen = peer.take("yours", SIGNED_BYTES) or b"", peer.take("seen", SIGNED_BYTES * MOST_SEEN) or b""
        peer.seen = [self.handed.setdefault(it, it) for it in read_signed_lines(seen, self.known_names)[:MOST_SEEN]]
        peer.is_seen_read = True
        self.heard_names.update(it.decode() for it in SEEN_NAME.findall(seen))
        put_out = files.read_if_there(peer.out / "line", SIGNED_BYTES) or b""
        signed = [(read_signed_line(returned), f"handed back by {peer.name}"), (read_signed_line(put_out), f"put out for {peer.name} before")]
        signed += [(it, f"handed back by {peer.name}") for it in peer.seen]
        found = [Told(it.line, f"signed by its key, and {whence}") for it, whence in signed if it and self.is_lacking(it.line) and self.is_own(it)]
        claims = self.claims_of(peer, returned)
        self.claims[peer.name] = () if self.settings.is_unsigned else tuple(claims)
        return found + [Told(line, f"as {peer.name} says, unsigned") for line in claims if self.settings.is_unsigned]

    def claims_of(self, peer: Peer, returned: bytes) -> list[Line]:
        """The lines of this service that an accepted peer tells, that the store lacks, and that this service hasn't signed: what is handed back, and of later
        steps than the store has its receipt and its refusal. Somebody on the way can make them up, and a file may be damaged."""
        line = read_line(returned.decode("utf-8", "replace").split("\n")[0])
        if line is not None and line.service == self.last.service:
            self.returned[peer.name] = line
        if not peer.accepted():
            return []
        receipt, refusal = self.receipt_of(peer), self.refused(peer)
        told = [it.line for it in (receipt, refusal) if it is not None]
        later = [it for it in told if it.service == self.last.service and it.step > self.last.step]
        return [it for it in dict.fromkeys([*([line] if line is not None else []), *later]) if self.is_lacking(it)]

    def is_lacking(self, line: Line) -> bool:
        """Whether a line is of this service, and not of the store: of a part that isn't here, whose name nobody else has, too."""
        is_missing = is_name_of_part(self.first_name, line.service) and line.service not in self.known_names
        return is_missing or (self.part_named(line.service) is not None and not self.is_of_store(line))

    @functools.cached_property
    def known_names(self) -> set[str]:
        """The names of the service's parts and of its peers with all theirs, as the turn began."""
        return {*(part.last.service for part in self.parts), *(peer.name for peer in self.all_peers)}

    def part_named(self, name: str) -> Optional[Part]:
        """The part of the service that has this name."""
        return next((part for part in self.parts if part.last.service == name), None)

    def published(self) -> list[Told]:
        """The last lines that were published of the service, signed by its key, that the store lacks."""
        out = self.settings.publish
        found = [it for it in publishing.last_published(out) if self.is_lacking(it.line)] if out is not None else []
        keys = publishing.own_keys(self.box, self.settings) if found else []
        return [Told(it.line, f"signed by its key, and published in {name_of(out or '')}") for it in found if publishing.is_signed_by(it, keys)]

    def old_store(self, lacking: Told, peer: Optional[Peer]) -> Trouble:
        """The store lacks a line that was told of it."""
        part = self.part_named(lacking.line.service)
        if part is not None:
            trouble = own.lacking(part.store.path, part.last, lacking)
        else:
            trouble = own.old_store(str(self.service), lacking.line, f"no part of it is called {lacking.line.service}", lacking.whence)
        if peer is None or not lacking.whence.endswith("unsigned"):
            return trouble
        advice = f"{trouble.advice} Ask {peer.name} by another way; if it is wrong: weft exchange --despite {peer.name} .."
        return Trouble(trouble.status, trouble.sentence, advice)

    def is_of_store(self, line: Line) -> bool:
        """Whether the store, or that of an earlier part, has this line, as its own. One that was noted beside it is: each was noted behind the one before, and
        the last of them is held against the store first."""
        part = self.part_named(line.service)
        if part is None or line.step > part.last.step:
            return False
        if line.step == 0:
            return can_be(line, formats.genesis(line.service).hex())
        if line in self.lines_of(part).known:
            return True
        if line.step == part.last.step or part.last.step == 0:
            return line == part.last
        if line[:2] not in self.known:
            self.known[line[:2]] = own.line_at(part.store, self.judge, line.step, part.last)
        return self.known[line[:2]] == line

    def has(self, peer: Peer) -> Optional[Line]:
        """The last line of the part in which the service goes on that a peer is known to have recorded."""
        has = peer.has()
        return has if has is not None and has.service == self.last.service else None

    def is_own(self, signed: Signed) -> bool:
        """Whether the line is signed by the key of this box; checked once a turn."""
        if signed not in self.own:
            self.own[signed] = self.own_key is not None and signatures.checked_by(signed, self.own_key) is not None
        return self.own[signed]

    @functools.cached_property
    def own_key(self) -> Optional[PublicKey]:
        """The public key of this box, None where the box has no key; raises Trouble where the key has no public half."""
        return signatures.public_half(self.settings.key) if self.settings.key is not None else None

    # ---- parts

    def follow_peers(self) -> None:
        """Takes the further parts in which peers go on, as far as that is shown."""
        unfit = functools.partial(self.unfit, count="unjoined")
        follower = Follower(self.judge, self.signers, self.settings.is_unsigned, self.key_of, self.note_signed, unfit, self.other_kept, self.kept_of)
        names = {*(part.last.service for part in self.parts), *(peer.name for peer in self.all_peers)}
        found: list[Peer] = []
        for peer in self.all_peers:
            found.append(peer)
            end = peer.noted_end() if peer.later is None else None
            if end is not None:
                peer.need(
                    f"it went on as {end.name}, by its line of step {end.line.step}, which no key signed that is noted of it now: {end.name} isn't taken for its part any more. "
                    f"If it is: weft accept {name_of(self.box)} {end.name} --key KEY.pub"
                )
            if peer.later is None:
                new = follower.follow(peer, names)
                found += new
                names.update(it.name for it in new)
        self.all_peers = found
        for peer in found:
            if peer.later is not None and peer.later.later is None:
                follower.watch(peer)

    def go_on(self) -> None:
        """Goes on in a new part, where one is being made, or this one has its share of what the file of a history may have."""
        is_full = self.new is not None or (self.last.step > 1 and must_go_on(parts.size_of(self.store), 0, parts.MOST_PART))
        if not is_full:
            return
        if files.is_there(beside(self.store.folder, ".pending")):
            self.told.append(f"{self.last.service} is to go on in a new part, and a run of weft log or weft record was stopped amid a step: run that, and then this again.")
            self.look()
            return
        new = self.new or parts.name_next(self.service, self.parts, self.kept)
        parts.begin_next(self.service, new)
        made = parts.make_next(self.service, self.judge, self.part, new)
        ended = self.part._replace(last=self.store.last().line)
        self.former.append(ended)
        self.enter(made)
        for peer in self.peers:
            peer.make()
        self.new = None
        self.told.append(f"{ended.last.service} goes on as {new.name}, in {name_of(made.folder)}: its history would have outgrown its file.")

    def hand_on(self, peer: Peer) -> None:
        """Puts out what shows how the service went on, for a peer that hasn't recorded a step of the last part yet."""
        recorded = self.has(peer)
        if not self.former or (recorded is not None and recorded.step > 0):
            return
        for part in self.former:
            has = peer.has()
            since = has.step if has is not None and has.service == part.last.service and self.is_of_store(has) else 0
            peer.put_as(self.place_of(part), "message", self.message(part, since))
        for place, name, data in self.joints:
            peer.put_as(place, name, data)

    @functools.cached_property
    def joints(self) -> list[tuple[str, str, bytes]]:
        """What shows how the service went on, as files of its parts."""
        found: list[tuple[str, str, bytes]] = []
        for part in self.former:
            signed = self.signed(part)
            line = signed.data if signed else f"{part.last.text}\n".encode()
            found += [(self.place_of(part), "line", line), (self.place_of(part), "goes-on", joints.goes_on(part))]
        return found + [(self.place_of(part), "came-from", joints.came_from(part, before.last)) for before, part in zip(self.former, self.parts[1:])]

    # ---- what came

    def take(self, peer: Peer) -> None:
        """Takes what a peer put out."""
        if not self.settings.is_unsigned and not self.has_key(peer):
            peer.say(f"{name_of(self.signers)} has no key of {peer.name}: weft accept {name_of(self.box)} {peer.name} --key KEY.pub")
            self.look()
        for line in self.claims.get(peer.name, ())[:1]:
            peer.need(looking.describe_claim(peer, line, self.last))
        self.take_receipt(peer)
        self.take_refusal(peer)
        self.compare_seen(peer)
        before, had = hearing.read_kept_silence(peer), (self.last_heard(peer), hearing.last_taken_step(peer))
        signed = self.take_signed(peer)
        self.take_message(peer, signed)
        peer.line_came, peer.line_had = signed.line.step if signed is not None else 0, had[0]
        peer.line_heard = weigh_heard(had[0], peer.line_came, signed is not None)
        noted, taken = before[hearing.MESSAGES].step, hearing.last_taken_step(peer)
        peer.message_heard = weigh_heard(choose_last_heard(noted, noted <= taken, had[1]), taken, peer.has_message)
        self.take_receipts(peer)
        asking.take_answers(peer)

    def last_heard(self, peer: Peer) -> int:
        """The last step of a peer that was heard, by a line whose key is noted of it now or by a person's word; 0 for none. (Lines are looked at from the last
        step on, and mostly the first one is good.)"""
        noted, accepted = hearing.read_kept_silence(peer)[hearing.LINES].step, peer.accepted()
        is_good = (accepted is not None and accepted.line.step == noted) or any(self.key_of(it) is not None for it in peer.signed_at(noted))
        last = None if is_good else self.last_signed(peer)
        return choose_last_heard(noted, is_good, last.line.step if last else 0)

    def last_signed(self, peer: Peer) -> Optional[Signed]:
        """The latest line of a peer that is kept and whose signature is good now."""
        falling = sorted(peer.signed_lines(), key=lambda it: -it.line.step)[:MOST_LOOKED_AT]
        return next((it for it in falling if self.key_of(it) is not None), None)

    def has_key(self, peer: Peer) -> bool:
        """Whether a key of the peer is known, without which nothing that it signs is taken."""
        return bool(signatures.key_lines(self.signers, peer.name))

    def receipt_of(self, peer: Peer) -> Optional[OwnReceipt]:
        """The peer's receipt of a line of this service."""
        data = peer.take_once("receipt", formats.RECEIPT_SIZE)
        receipt = formats.read_receipt(data) if data is not None else None
        if receipt is None or receipt.recorder not in peer.names or self.part_named(receipt.service) is None:
            return None
        return OwnReceipt(Line(receipt.service, receipt.step, receipt.authenticator.hex()), receipt.to_bytes(), receipt.recorder)

    def take_receipt(self, peer: Peer) -> None:
        """Takes its receipt of a step of this service: it says since which step the next message is to be."""
        receipt, has = self.receipt_of(peer), self.has(peer)
        if receipt is None:
            return
        line = receipt.line
        if not self.is_of_store(line):
            if line not in self.claims.get(peer.name, ()):
                peer.say(f"its receipt is of step {line.step}, which this store doesn't have so; nothing is concluded from that")
            return
        is_of_last = line.service == self.last.service and receipt.by == peer.name
        if is_of_last and may_note_recorded(has.step if has else None, line.step, None):
            peer.renew("has", f"{line.text}\n".encode())
        self.add_receipt(peer, "got", receipt.data)

    def add_receipt(self, peer: Peer, name: str, receipt: bytes) -> None:
        """Keeps a receipt behind all others, each once."""
        if receipt not in formats.receipt_pieces(peer.read(name)):
            peer.add(name, receipt, formats.RECEIPT_SIZE)

    def take_receipts(self, peer: Peer) -> None:
        """Takes receipts that it heard of, where the file has nothing else. Those that are kept already aren't read once more."""
        heard = peer.take("receipts", formats.RECEIPT_SIZE * MOST_RECEIPTS)
        if not heard or len(heard) % formats.RECEIPT_SIZE:
            return
        known = set(formats.receipt_pieces(peer.read("heard")))
        if all(piece in known or formats.read_receipt(piece) for piece in formats.receipt_pieces(heard)):
            peer.renew("heard", heard)

    def refused(self, peer: Peer) -> Optional[Refusal]:
        """The peer's refusal of a message."""
        text = (peer.take_once("refusal", 2_048) or b"").decode("ascii", "replace")
        found = REFUSAL.match(text)
        line = read_line(f"{found[5] or self.first_name} {found[1]} {found[2]}") if found else None
        return Refusal(line, int(found[4])) if found and line and line.service == self.last.service else None

    def take_refusal(self, peer: Peer) -> None:
        """Takes its refusal of a message: it says what it has recorded."""
        refusal, has = self.refused(peer), self.has(peer)
        if refusal is None or not may_note_recorded(has.step if has else None, refusal.line.step, refusal.since):
            return
        line = refusal.line
        if self.is_of_store(line):
            peer.renew("has", f"{line.text}\n".encode())
        else:
            peer.say(
                f"it recorded another step {line.step} under the name {line.service} than this store has, by its refusal, which nobody signs: that was made up "
                f"on its way, somebody gave it a line in your name, or an old store was put back here. Hand {peer.name} your line by another way, and ask "
                "whether it has another one, and from whom"
            )
            self.look()

    def take_signed(self, peer: Peer) -> Optional[Signed]:
        """Takes its signed line, and holds it against those that it signed before; None where it is none or not signed by the key that is kept."""
        data = peer.take_once("line", SIGNED_BYTES)
        signed = read_signed_line(data or b"")
        if signed is None:
            if data and read_line(data.decode("ascii", "replace").removesuffix("\n")) is None:
                self.unfit(peer, "what is in its folder as its line is no line with one signature and nothing behind it: not taken")
            return None
        if signed.line.service != peer.name:
            self.unfit(peer, f"the line in its folder is of {signed.line.service}: not taken")
            return None
        key = self.key_of(signed)
        if key is None:
            if self.has_key(peer):
                new = f"weft accept {name_of(self.box)} {peer.name} LINE --introduced FILE notes a new key that the old one introduced"
                self.unfit(peer, f"the line in its folder isn't signed by the key that {name_of(self.signers)} has for it: not taken ({new})")
            return None
        peer.remove("unfit")
        self.note_signed(peer, signed, f"signed by {key}, by exchange")
        other = self.other_kept(signed.line)
        if other is not None:
            peer.say(other)
            self.look(Status.CONTRADICTION)
        return signed

    def other_kept(self, line: Line) -> Optional[str]:
        """That the user keeps another line of its step, where he does."""
        held = self.kept.at(line.service, line.step)
        if hold_line(line, (it.line for it in held)) is not Beside.OTHER:
            return None
        came = "; ".join(it.told for it in held if it.line != line)
        return (
            f"TWO LINES: the line of step {line.step} of {line.service} that you keep ({came}) is another one than {line.authenticator[:16]}.., which its key signed: "
            f"that service has shown two histories, or one of both isn't its own, or two services have one name. Keep both, and ask {line.service} by another way"
        )

    def kept_of(self, service: str) -> list[Kept]:
        """The lines that the user keeps of a service, and that count."""
        return [it for step in self.kept.steps(service) for it in self.kept.at(service, step)]

    def key_of(self, signed: Signed) -> Optional[str]:
        """The key that is noted now for the line's service, and by which it is signed, checked once a turn; None where it isn't so. A key that counts on some days alone
        had to count when the line was kept, and where it wasn't yet, now."""
        if signed not in self.keys:
            key = signatures.checked(signed, self.signers, self.when_kept(signed) if signatures.has_days(self.signers, signed.line.service) else None)
            part = self.further.get(signed.line.service)
            self.keys[signed] = None if key is None or (part is not None and not self.counts(part, key.split()[-1])) else key
        return self.keys[signed]

    def when_kept(self, signed: Signed) -> Optional[str]:
        """When a line of a peer was kept first as signed, by the clock here; None where it wasn't."""
        peer = next((it for it in self.all_peers if it.name == signed.line.service), None)
        return peer.when_kept(signed.line) if peer is not None else None

    @property
    def further(self) -> dict[str, Peer]:
        """The further parts of peers, by name."""
        return {it.name: it for it in self.all_peers if it.earlier is not None}

    def counts(self, part: Peer, key: str) -> bool:
        """Whether a key that is noted of a further part of a peer counts; where it was taken out at the part before, that is told."""
        if key in joints.counting_keys(self.signers, part):
            return True
        assert part.earlier is not None
        part.need(
            f"{key} was noted of {part.name} by itself, and {name_of(self.signers)} has it no more of {part.earlier.name}: nothing counts that it signs. Take it out of "
            f"that file here too; or if it isn't stolen: weft accept {name_of(self.box)} {part.name} --key KEY.pub"
        )
        return False

    def unfit(self, peer: Peer, text: str, count: str = "unfit") -> None:
        """Something of the peer didn't fit; after some turns in a row, which are counted under this name, it needs a look."""
        turns = len(peer.read(count)) + 1
        peer.renew(count, b"x" * min(turns, 99))
        peer.say(f"{text}; ask {peer.name}" if turns >= UNFIT_TURNS else f"{text}; a file may have been damaged on its way")
        if turns >= UNFIT_TURNS:
            self.look()

    def note_signed(self, peer: Peer, signed: Signed, how: str) -> None:
        """Keeps a line of a peer whose signature is good, and holds it against those that it signed for the same step. Its place among the signed ones is
        written last: a turn that was stopped before does all anew."""
        held = peer.signed_at(signed.line.step)
        good = [it for it in held if self.key_of(it) is not None]
        if any(it.line == signed.line for it in good) or len(good) >= MOST_AT_STEP or self.is_full(peer, "signed", MOST_SIGNED):
            return
        found = [self.weigh(peer, it, signed) for it in find_contradicting(signed.line, held)]
        self.keep(peer, kept_now(signed.line, how), found)
        peer.add_signed(signed)

    def is_full(self, peer: Peer, name: str, most: int) -> bool:
        """Whether a file of a peer's lines has so many bytes that none is added; that is told once a turn, and counts."""
        path = peer.kept / name
        if not files.is_there(path) or os.stat(path).st_size < most:
            return False
        told = f"{name_of(path)} has {most:,} bytes or more, and no line is added to it: move it out of the box, and keep it; the next turn begins a new one"
        if told not in peer.told:
            peer.need(told)
        return True

    def keep(self, peer: Peer, kept: Kept, found: Collection[Finding] = ()) -> None:
        """Keeps a line of a peer among its lines; that it contradicts others is told, where it wasn't yet, as it was by what was found of signed ones."""
        if self.is_full(peer, "lines", MOST_LINES):
            return
        for placed in keep(peer.kept / "lines", [kept]):
            if placed.trouble is None:
                continue
            if Finding.EVIDENCE in found or placed.outcome is Outcome.NOT_CHOSEN or self.is_disputed(peer, kept.line.step):
                self.look(Status.CONTRADICTION)
                if Finding.EVIDENCE not in found:
                    peer.say(placed.trouble.describe())
            elif Finding.DIFFERENT not in found:
                self.tell_different(peer, kept.line.step)

    def is_disputed(self, peer: Peer, step: int) -> bool:
        """Whether lines of a peer's step contradict that count by the keys that are noted of it now, and none was chosen."""
        known = KeptLines([peer.kept / "lines"])
        kept, keys = known.all_at(peer.name, step), joints.counting_keys(self.signers, peer)
        counting = list_counting(kept, known.marks_at(peer.name, step), keys, signatures.late_of(self.signers, peer.name, kept))
        return standing_of(counting.kept, counting.marks).is_disputed

    def weigh(self, peer: Peer, held: Signed, new: Signed) -> Finding:
        """What two lines of a peer show that contradict: they are remembered where both signatures are good now; that the held one's isn't is told."""
        found = weigh_contradiction(held.line, new.line, self.key_of(held) is not None, self.key_of(new) is not None)
        if found is Finding.EVIDENCE:
            for signed in (held, new):
                self.remember(peer, signed)
        elif found is Finding.DIFFERENT:
            self.tell_different(peer, new.line.step)
        return found

    def tell_different(self, peer: Peer, step: int) -> None:
        """Tells that a line of a peer came in the place of one that doesn't count any more."""
        peer.say(
            f"its line of step {step} is another one than that which was kept as signed, whose signature isn't good by a key that "
            f"{name_of(self.signers)} has now: that shows nothing against it"
        )
        self.look()

    def remember(self, peer: Peer, signed: Signed) -> None:
        """Keeps one of two signed lines that contradict, for good."""
        path = peer.kept / "forks" / name_fork_file(signed.line)
        found = files.read_if_there(path, signatures.MOST_BYTES)
        before = read_signed_line(found or b"")
        if may_write_fork(found, signed, before is not None and self.key_of(before) is not None, len(peer.fork_names())):
            files.renew(path, signed.data)

    def tell_forks(self, peer: Peer) -> None:
        """Tells that a peer signed two lines of a step, each night while both are remembered; before it says so it has both signatures checked."""
        folder = peer.kept / "forks"
        found = [(path.name, files.read(path, signatures.MOST_BYTES)) for path in sorted(folder.iterdir()) if FILE_NAME.fullmatch(path.name)]
        forks = read_forks(peer.name, found)
        proved = next((it for it in forks if sum(self.key_of(signed) is not None for signed in it.lines) > 1), None)
        if proved is not None:
            self.tell_evidence(peer, proved, len(forks))
        elif forks:
            peer.say(
                f"{name_of(folder)} has different lines of its step {forks[0].step}, of which not two are signed by a key that {name_of(self.signers)} "
                f"has now: that shows nothing against it. Ask {peer.name}"
            )
            self.look()

    def tell_evidence(self, peer: Peer, fork: Fork, steps: int) -> None:
        """Tells two lines of a step whose signatures are good."""
        others = f", with those of {steps - 1} more of its steps" if steps > 1 else ""
        peer.accuse(
            f"EVIDENCE: there are two lines of its step {fork.step}, both signed by its key: it has shown two histories, or somebody else has its key. "
            f"Both are kept in {name_of(peer.kept / 'forks')}{others}; show them to all who hold its lines"
        )

    def compare_seen(self, peer: Peer) -> None:
        """Holds signed lines of other peers, which a peer hands on, against those that were kept, and against those that others hand on tonight."""
        for signed in peer.seen:
            other = self.by_name.get(signed.line.service)
            if other is None:
                continue
            handed_on = find_contradicting(signed.line, self.handed_on.get(signed.line[:2], ()))
            held = find_contradicting(signed.line, other.signed_at(signed.line.step))
            if sum(self.key_of(it) is not None for it in held) >= MOST_AT_STEP:
                continue
            if (held or any(self.key_of(it) is not None for it in handed_on)) and self.key_of(signed) is not None:
                self.note_signed(other, signed, f"signed by {self.key_of(signed)}, handed on by {peer.name}")

    @functools.cached_property
    def by_name(self) -> dict[str, Peer]:
        """The peers, with all their parts, by name."""
        return {it.name: it for it in self.all_peers}

    @functools.cached_property
    def handed_on(self) -> dict[tuple[str, int], dict[Signed, None]]:
        """The lines that peers hand on tonight, by service and step, each once, however many hand it on."""
        found: dict[tuple[str, int], dict[Signed, None]] = {}
        for peer in self.peers:
            for signed in peer.seen:
                found.setdefault(signed.line[:2], {})[signed] = None
        return found

    # ---- messages

    def take_message(self, peer: Peer, signed: Optional[Signed]) -> None:
        """Takes its message, where it is one of the peer's that may be taken."""
        accepted = peer.accepted()
        first = peer.read("first") if accepted else b""
        if first and not self.may_take_first(peer):
            peer.remove("first")
            first = b""
        data = first or peer.take("message", formats.MOST_MESSAGE)
        if data is None:
            return
        message = formats.read_message(data)
        peer.has_message = message is not None and message.service == peer.name
        if message is None:
            peer.say("its message is damaged: not taken")
        elif message.service != peer.name:
            peer.say(f"the message in its folder is of {message.service}: not taken")
            self.look()
        elif accepted is None:
            line = formats.line_of(message)
            peer.say(
                f"it is new: its message tells the line {line.text}. Ask {peer.name} by another way whether that is its line, then: "
                f"weft accept {name_of(self.box)} {peer.name}"
            )
            self.look()
        elif first or self.may_take(peer, message, signed):
            self.receive(peer, message, data, None if first else peer.take("next", formats.MOST_MESSAGE))

    def may_take_first(self, peer: Peer) -> bool:
        """Whether the message by which a person accepted a peer may be taken: where its line was signed then, that has to be so by a key that is noted now."""
        signed = read_signed_line(peer.read("first-line"))
        if signed is None or self.settings.is_unsigned:
            return True
        key = self.key_of(signed)
        if key is not None:
            self.note_signed(peer, signed, f"signed by {key}, when it was accepted")
            return True
        peer.need(f"the message by which it was accepted isn't taken: its line isn't signed by a key that {name_of(self.signers)} has now. Its next one may be")
        return False

    def may_take(self, peer: Peer, message: Message, signed: Optional[Signed]) -> bool:
        """Whether the message's line is signed, by a key that is noted now, or the box takes unsigned ones."""
        line = formats.line_of(message)
        same = [it for it in [*([signed] if signed else []), *peer.signed_at(line.step)] if it.line == line]
        if self.settings.is_unsigned or any(self.key_of(it) is not None for it in same):
            return True
        if same:
            peer.say(f"its message of step {line.step} rests on a line that isn't signed by a key that {name_of(self.signers)} has now: not taken")
            self.look()
        elif signed is not None and signed.line.step == line.step:
            peer.say(f"its message tells another authenticator of step {line.step} than the line that it signed: not taken")
            self.look()
        else:
            peer.say(f"its message of step {line.step} waits for its signed line")
        return False

    def receive(self, peer: Peer, message: Message, data: bytes, other: Optional[bytes]) -> None:
        """Has the service receive a message, and puts out the receipt or the refusal. The other one is of the same line since a later step: it is taken
        where the first wasn't made since the step that is recorded."""
        line = formats.line_of(message)
        answer = self.store.receive(data)
        if answer.words[:2] == ["refused", "BadLink"] and other is not None:
            later = formats.read_message(other)
            if later is not None and formats.line_of(later) == line:
                second = self.store.receive(other)
                answer = second if second.status == 0 else answer
        words = answer.words
        if answer.status == 0:
            self.note_step(answer.output)
            before = peer.taken_line()
            if before is not None and line.step < before.step:
                # an old message came again: what is handed back stays the last line, by which an old store that was put back there is found
                peer.remove("first")
                return
            peer.renew("taken", "".join(f"{text}\n" for text in (line.text, self.place_of(self.part)) if text).encode())
            self.add_receipt(peer, "given", answer.output)
            peer.put("receipt", answer.output)
            files.remove(peer.out / "refusal")
            if before != line:
                peer.say(f"its step {line.step} is recorded")
            if self.settings.is_unsigned and not any(it.line == line for it in peer.signed_at(line.step)):
                self.keep(peer, kept_now(line, "unsigned, by exchange"))
        elif words[:1] == ["refused"]:
            self.refuse(peer, message, words[1], words[2:])
        else:
            raise self.store.trouble(answer)
        peer.remove("first")

    def note_step(self, data: bytes) -> None:
        """Notes the step of this service that a receipt tells, where it is a new one."""
        receipt = formats.read_receipt(data)
        if receipt is None:
            raise Trouble(Status.BUG, f"timeweave told no receipt of {name_of(self.store.path)}")
        if receipt.archived > self.last.step:
            self.last = Line(receipt.recorder, receipt.archived, receipt.recorder_authenticator.hex())

    def refuse(self, peer: Peer, message: Message, name: str, fields: list[str]) -> None:
        """Tells a refusal, here and there, in words that accuse nobody."""
        text, is_grave = refusal_text(peer.name, message, name, fields)
        if name == "BadLink":
            of_part = "" if peer.earlier is None else f" of {peer.name}"
            said = f"refused BadLink {fields[0]} {fields[1]}\nmessage {message.step} since {message.since}{of_part}\nYour message of step {message.step} was "
            said += f"made since step {message.since}; we recorded your step {fields[0]} last. Please send one since that step.\n"
            peer.put("refusal", said.encode())
        peer.say(text)
        if is_grave:
            self.look()

    # ---- what goes out

    def put(self, peer: Peer, signed: Optional[Signed]) -> None:
        """Puts out what a peer is to get."""
        has = self.has(peer)
        since = has.step if has is not None and self.is_of_store(has) else 0
        self.hand_on(peer)
        peer.put("message", self.message(self.part, since))
        self.put_next(peer, since)
        peer.put("line", signed.data if signed else f"{self.last.text}\n".encode())
        latest = self.last_signed(peer)
        back = choose_handed_back(peer.taken_line(), latest.line if latest else None)
        if back is not None:
            returned = next((it.data for it in peer.signed_at(back.step) if it.line == back), f"{back.text}\n".encode())
            peer.put("yours", returned)
        peer.put("seen", self.seen_by(peer))
        peer.put("receipts", self.receipts_for(peer))
        peer.put("requests", peer.read("asked"))

    def message(self, part: Part, since: int) -> bytes:
        """The message of the last step of a part since another one."""
        place = (part.last.service, since)
        if place not in self.messages:
            self.messages[place] = part.store.done("thread", str(since))
        return self.messages[place]

    @functools.cached_property
    def shared(self) -> dict[str, list[Signed]]:
        """The signed lines that are handed on in this turn: of each peer whose turn it is, the newest first, and with them that by which its part before
        ended."""
        holders = [peer for peer in self.peers if peer.signed_lines()]
        chosen = set(choose_names([peer.name for peer in holders], MOST_SEEN, self.note.cursor))
        newest = {peer: sorted(peer.signed_lines(), key=lambda it: -it.line.step)[:MOST_SEEN] for peer in holders if peer.name in chosen}
        return {peer.name: place_end(lines, joints.end_of(peer.earlier), self.note.turn) for peer, lines in newest.items()}

    def seen_by(self, peer: Peer) -> bytes:
        """The signed lines of other peers that are handed on to a peer."""
        return b"".join(it.data for it in order_lines([lines for name, lines in self.shared.items() if name != peer.name], MOST_SEEN))

    def put_next(self, peer: Peer, since: int) -> None:
        """Puts out another message of the last step, since another one than the first, which the peer may have recorded in truth."""
        part, *words = peer.read("sent").decode("ascii", "replace").split() or [""]
        sent = [int(word) for word in words if word.isdigit()] if part == self.last.service else []
        if self.last.step not in sent:
            sent = [*sent, self.last.step][-2:]
            peer.renew("sent", f"{self.last.service} {' '.join(map(str, sent))}\n".encode())
        returned = self.returned.get(peer.name)
        step = choose_other_start(since, returned.step if returned is not None and self.is_of_store(returned) else None, sent[0], self.last.step)
        if step is not None:
            peer.put("next", self.message(self.part, step))
        else:
            files.remove(peer.out / "next")

    @functools.cached_property
    def known_receipts(self) -> list[bytes]:
        """The last receipts that are known, each once: those that were heard of whom they are of, and those that were made here or came here."""
        most = OWN_RECEIPTS * formats.RECEIPT_SIZE
        own_ones = (it for name in ("given", "got") for peer in self.all_peers for it in formats.receipt_pieces(peer.read(name)[-most:]))
        joined = (joints.receipt_of(self.judge, part, before.last) for before, part in zip(self.former, self.parts[1:]))
        return keep_latest(chain(self.heard_receipts.first_hand, own_ones, joined), 2 * MOST_RECEIPTS)

    @functools.cached_property
    def heard_receipts(self) -> HeardReceipts:
        """What the receipts tell that peers told; they are read once."""
        names = set[str]()
        first_hand = chain.from_iterable(self.first_hand(peer, names) for peer in self.all_peers)
        return HeardReceipts(keep_latest(first_hand, 2 * MOST_RECEIPTS), names)

    def first_hand(self, peer: Peer, names: set[str]) -> Iterator[bytes]:
        """The receipts that were heard of a peer, and are of it; those of the names of all that it told which a part of this service could get are added."""
        tellers = peer.names
        for piece in formats.receipt_pieces(peer.read("heard")):
            parties = formats.parties_of(piece)
            names.update(name for name in parties if is_name_of_part(self.first_name, name))
            if is_first_hand(tellers, parties):
                yield piece

    def receipts_for(self, peer: Peer) -> bytes:
        """The receipts that a peer gets."""
        return b"".join(choose_receipts(self.known_receipts, set(formats.receipt_pieces(peer.read("heard"))), MOST_RECEIPTS))

    def run(self, is_look: bool = False) -> Status:
        """The whole turn, or where somebody only looks, or peers' words are waited for, what is known of the store."""
        self.tell_strange()
        self.tell_despite()
        if self.begin(is_look):
            self.notes.begin()
            self.make_turn()
            self.notes.end(self.next_note())
        else:
            self.is_made = False
        return self.ended(None)

    def ended(self, trouble: Optional[Trouble]) -> Status:
        """How the turn ends: by the worst of what was found, and of what ended it early."""
        return worst_of([self.status, *(peer.status for peer in self.all_peers), *([trouble.status] if trouble else [])])

    def make_turn(self) -> None:
        """Takes what came, and puts out what is to go."""
        if self.new is not None:
            self.go_on()
        if self.last.step == 0:
            self.last = self.store.append(formats.events_file([]), None)
        self.tell_strange_steps()
        self.lines.note(self.last)
        for peer in self.peers:
            self.take(peer)
        for peer in self.all_peers:
            self.tell_forks(peer)
        self.lines.note(self.last)
        self.settle_links()
        Answers(self.all_peers, self.judge, self.key_of).hold()
        self.listen()
        self.let_go()
        parts.note_others(self.service, [part.last.service for part in self.parts], self.names_like_parts(self.known_names), self.names_like_parts({*self.heard_names, *self.heard_receipts.names}))
        self.go_on()
        self.put_all()
        self.told += self.unsigned()

    def tell_strange_steps(self) -> None:
        """Tells the steps with events of a log that no run of weft log made."""
        told = strange_steps(self.part, self.lines.last()) if is_log(self.parts[0]) else None
        if told is not None:
            self.told.append(told)
            self.look()

    def put_all(self) -> None:
        """Puts out what is to go, and answers what is asked."""
        parts.hand_out(self.service, self.parts)
        self.put_own_lines()
        signed, asked = self.signed(self.part), asking.Asked({part.last.service: part.store for part in self.parts}, self.all_peers)
        for peer in self.peers:
            asking.answer_peer(asked, peer, peer.take("requests", asking.MOST_BYTES) if peer.accepted() else None)
            self.put(peer, signed)
        for peer in self.all_peers:
            self.recall_links(peer)
            self.tell_end(peer)
            peer.renew("accused", b"yes\n" if peer.is_accused else b"")

    def put_own_lines(self) -> None:
        """Puts the last line of each part, signed, where it is published from."""
        signed = [it for it in map(self.signed, self.parts) if it is not None]
        if signed:
            files.renew_if_other(self.box / ".line", b"".join(it.data for it in signed), files.PRIVATE)

    def names_like_parts(self, names: Collection[str]) -> set[str]:
        """Those of these names that a part of this service could get, and that none has."""
        names = {*names}
        return {name for name in names - {part.last.service for part in self.parts} if is_name_of_part(self.first_name, name)}

    def listen(self) -> None:
        """Notes what was heard of each peer, by its own lines and messages, and by what it hands on of others that were heard too."""
        keys = hearing.Keys(self.key_of, functools.lru_cache(None)(self.noted_of))
        names = {peer.name for peer in self.peers if self.has_key(peer)}
        heard = {peer.name for peer in self.peers if peer.line_heard is Heard.NEW}
        for peer in self.peers:
            others = hearing.hear_others(peer, keys, names - {peer.name}, heard - {peer.name})
            own_steps = sum(part.last.step for part in self.parts)
            hearing.listen(peer, not self.settings.is_unsigned and peer.name in names, peer.accepted() is not None, others, own_steps, now()[:10])

    def let_go(self) -> None:
        """Lets go what peers hand on, which nothing in the rest of a turn asks for."""
        for peer in self.peers:
            peer.seen = []
        for held in ("handed", "handed_on", "handed_on_of"):
            vars(self).pop(held, None)

    def noted_of(self, service: str) -> set[str]:
        """The fingerprints of the keys that count for a service now."""
        part = self.further.get(service)
        return signatures.fingerprints(self.signers, service) if part is None else joints.counting_keys(self.signers, part)

    def next_note(self) -> Note:
        """What this turn leaves to the next one."""
        holders = sum(bool(peer.signed_lines()) for peer in self.peers)
        return Note(self.note.turn + 1, move_cursor(self.note.cursor, holders, MOST_SEEN, self.note.turn), looking.now())

    def settle_links(self) -> None:
        """Asks peers for the links between their lines that were kept here or handed on by others, and takes their answers."""
        links = Links(self.judge, self.key_of, self.note_joined, self.settings.silent, self.note.turn)
        for peer in self.all_peers:
            others = self.handed_on_of.get(peer.name, {})
            if peer.later is not None and not others and not peer.read("links"):
                continue
            if peer.accepted() and not peer.fork_names():
                links.settle(peer, [signed for name, signed in others.items() if name != peer.name])

    @functools.cached_property
    def handed_on_of(self) -> dict[str, dict[str, list[Signed]]]:
        """The lines of each service that peers hand on tonight, by the peer that does."""
        found: dict[str, dict[str, list[Signed]]] = {}
        for peer in self.peers:
            for signed in peer.seen:
                found.setdefault(signed.line.service, {}).setdefault(peer.name, []).append(signed)
        return found

    def note_joined(self, peer: Peer, signed: Signed) -> None:
        """Keeps a line of a peer that others handed on, and that a link joined to its history."""
        self.note_signed(peer, signed, f"signed by {self.key_of(signed)}, handed on, and joined by a link")

    def recall_links(self, peer: Peer) -> None:
        """Tells again that a link showed two histories of a peer: what was seen once isn't forgotten. Before it says so it has both signatures checked."""
        links = read_link_files(peer.fork_names())
        if not links or peer.is_accused:
            return
        folder, (earlier, later) = peer.kept / "forks", links[-1]
        found = [read_signed_line(files.read(folder / name, signatures.MOST_BYTES)) for name in peer.fork_names() if FILE_NAME.fullmatch(name)]
        good = {it.line.step for it in found if it and it.line.service == peer.name and self.key_of(it) is not None}
        kept = f"of two histories of it, by its lines of step {earlier} and of step {later} and the link that it gave, is kept in {name_of(folder)}"
        if is_evidence(Meaning.PARTS, [step in good for step in (earlier, later)]):
            peer.accuse(f"EVIDENCE {kept}: show that to all who hold its lines")
        else:
            peer.need(f"a sign {kept}; not both lines are signed by a key that is noted of it now: that shows nothing against it. Ask {peer.name}")

    def tell_end(self, peer: Peer) -> None:
        """Tells until when two histories that were found count."""
        if peer.is_accused:
            peer.say(f"each turn ends with 11 until you move {name_of(peer.kept / 'forks')} out of the box")

    def tell_strange(self) -> None:
        """Tells what stands in the box and is no peer's folder; what may be meant for a peer counts."""
        for name in self.strange:
            is_link = (self.box / name).is_symlink()
            is_meant = may_be_meant(is_link, has_incoming(self.box / name))
            why = "is a link, and no link is followed there" if is_link else f"is no peer's folder{', and nothing of it was read' if is_meant else ''}"
            self.told.append(f"{name_of(name)} in {name_of(self.box)} {why}.")
            if is_meant:
                self.look()

    def unsigned(self) -> list[str]:
        """That nothing signs the lines that go out, where the box has neither a key nor takes unsigned ones: then no peer takes them."""
        if self.settings.key is not None or self.settings.is_unsigned:
            return []
        self.look()
        return [f"Nothing signs your lines: set key = FILE in {name_of(self.box / 'box.conf')}."]

    @functools.cached_property
    def own_signed(self) -> list[Signed]:
        """The last lines of the parts, as they were signed for the last turn."""
        return read_signed_lines(files.read_if_there(self.box / ".line", MOST_SIGNED) or b"")

    def signed(self, part: Part) -> Optional[Signed]:
        """The last line of a part, signed, where the box has a key."""
        if self.settings.key is None:
            return None
        if part.last in self.signed_now:
            return self.signed_now[part.last]
        put_out = (read_signed_line(files.read_if_there(peer.of_own(self.place_of(part)) / "line", SIGNED_BYTES) or b"") for peer in self.peers)
        for signed in chain(self.own_signed, put_out):
            if signed is not None and signed.line == part.last and self.is_own(signed):
                return self.signed_now.setdefault(part.last, signed)
        made = signatures.sign(part.last, self.settings.key)
        if not self.is_own(made):
            told = f"the public key beside {name_of(self.settings.key)} isn't that of the key"
            raise Trouble(Status.UNREADABLE, told, "Put the right one there: by it lines of your own that peers hand back are known again. Nothing was signed.")
        return self.signed_now.setdefault(part.last, made)


def refusal_text(name: str, message: Message, refusal: str, fields: list[str]) -> tuple[str, bool]:
    """A refusal in a sentence, and whether it needs a look."""
    if refusal == "Stale":
        return f"its message of step {message.step} is older than its step {fields[0]}, which is recorded: nothing to do", False
    if refusal == "BadLink" and message.since == int(fields[0]):
        text = (
            f"its message since step {message.since} doesn't lead up from that step as it is recorded here: the message was changed, or one of both isn't "
            f"{name}'s, or {name} has two histories. Ask {name}, by another way, for its line of step {fields[0]}"
        )
        return text, True
    if refusal == "BadLink":
        return f"its message was made since step {message.since}, and step {fields[0]} is what is recorded: asked for another", False
    if refusal == "Forked":
        text = (
            f"its message tells another authenticator of step {fields[0]} than the one that is recorded: one of both isn't {name}'s, or {name} has two "
            f"histories. Ask {name}, by another way, for its line of that step"
        )
        return text, True
    return f"its message wasn't taken: {printable(' '.join([refusal, *fields]))}", True
