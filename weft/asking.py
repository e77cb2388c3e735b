"""What a service asks its peer for, and how the peer answers: one request a line, as the words behind `timeweave prove DIR` are.

    thread STEP PEER K TOP      link STEP TOP      event STEP INDEX TOP

Without more it is of the first part of the service that is asked; with `of NAME` in front of the part of this name. Where the service has none, a thread or a
link is to be passed on to a peer of this name, whose answer is handed back. An answer is a file whose name is made of the request; it has the proof, or one
line that begins with `refused`."""

from __future__ import annotations

import hashlib
import re
from typing import NamedTuple, Optional, Sequence

from weft import files
from weft.box import Peer
from weft.deciding.answering import Fate, Kind, choose_pending, digest_of, kind_of_answer, settle_answer
from weft.stores import Store
from weft.texts import now, printable, quoted

NUMBER = "(?:0|[1-9][0-9]{0,12})"
NAME = "[a-z0-9-]{1,16}"
REQUEST = re.compile(f"(?:of {NAME} )?(?:thread {NUMBER} {NAME} {NUMBER} {NUMBER}|link {NUMBER} {NUMBER}|event {NUMBER} {NUMBER} {NUMBER})")
MOST_REQUESTS = 32
MOST_PASSED_ON = 16
MOST_BYTES = MOST_REQUESTS * 96
MOST_ANSWER = 70_000
MOST_DOUBTED = 256
MOST_TOLD = 80


def id_of(request: str) -> str:
    """The name of the file that answers a request."""
    return hashlib.sha256(request.encode()).hexdigest()[:16]


def read_requests(data: bytes) -> list[str]:
    """The requests of a file, each once; what is none is left out."""
    lines = data.decode("ascii", "replace").splitlines()
    return list(dict.fromkeys(line for line in lines if REQUEST.fullmatch(line)))[:MOST_REQUESTS]


class Asked(NamedTuple):
    """Who is asked: the parts of the service, in their order, each by its name and store; and its peers with all their parts."""

    parts: dict[str, Store]
    peers: Sequence[Peer]

    def listed(self, name: str) -> str:
        """A part as the list made by hand has it: the first one without a name."""
        return "" if name == next(iter(self.parts)) else name


def answer_of(asked: Asked, name: str, peer: Peer, request: str) -> bytes:
    """The answer of a part to a request: threads and links for each peer, events for those on the list made by hand."""
    words, store = request.split(" "), asked.parts[name]
    if words[0] == "event" and not peer.may_ask(asked.listed(name), words[1], words[2]):
        return b"refused: proofs of events are handed out by hand here\n"
    answer = store.ask("prove", *words)
    if answer.status in (0, 7):
        return answer.output
    if answer.status == 2:
        return b"refused: no service has such a step\n"
    if answer.status == 8:
        peer.say(f"what it asked for can't be proved ({printable(answer.text.strip())}): a page of the store may be damaged; weft check")
        return b"refused: it can't be proved now\n"
    raise store.trouble(answer)


def answer_any(asked: Asked, peer: Peer, request: str) -> Optional[bytes]:
    """The answer to a request of whatever part, and of a peer to one that is passed on to it; None while there is none."""
    if not request.startswith("of "):
        return answer_of(asked, next(iter(asked.parts)), peer, request)
    _, name, inner = request.split(" ", 2)
    return answer_of(asked, name, peer, inner) if name in asked.parts else passed_on(asked.peers, peer, name, inner)


def passed_on(peers: Sequence[Peer], peer: Peer, name: str, request: str) -> Optional[bytes]:
    """The answer of another peer, or of an earlier part of one, to a request that is passed on to it, or None while there is none."""
    if request.startswith("event"):
        return b"refused: nothing is passed on that asks for an event\n"
    other = next((it for it in peers if it.name == name and it.last is not peer and it.accepted()), None)
    if other is None:
        return b"refused: no peer of that name here\n"
    answer = known(other, request)
    if answer is None and len(pending_of(other.last)) - len(answered_of(other.last)) < MOST_PASSED_ON:
        ask(other, request)
    return answer


def answer_peer(asked: Asked, peer: Peer, data: Optional[bytes]) -> int:
    """Answers the requests that came, and takes away answers to those that no longer come, and to those that nothing answers any more; answers how many are
    new."""
    if data is None:
        return 0
    requests = read_requests(data)
    names = {id_of(request): request for request in requests}
    for path in (peer.out / "answers").iterdir():
        if path.name not in names:
            files.remove(path)
    new = 0
    for name, request in names.items():
        answer = answer_any(asked, peer, request)
        path = peer.out / "answers" / name
        if answer is None:
            files.remove(path)
        elif files.read_if_there(path, MOST_ANSWER) != answer:
            what = f"{len(answer)} bytes" if answer.startswith(b"TWP1") else printable(answer.decode("ascii", "replace").strip())
            files.add(peer.kept / "answered", f"{now()} {request}: {what}")
            peer.put(f"answers/{name}", answer)
            new += 1
    return new


def pending_of(peer: Peer) -> list[str]:
    """The requests that are put out for a peer."""
    return read_requests(peer.read("asked"))


def answered_of(peer: Peer) -> list[str]:
    """Those of them to which there is an answer, a refusal or a proof that is doubted."""
    return [request for request in pending_of(peer) if kind_of_answer(kept_answer(peer, request)) is not Kind.NOTHING]


def note_pending(peer: Peer, requests: Sequence[str]) -> None:
    """Notes the requests that are put out."""
    peer.renew("asked", "".join(f"{it}\n" for it in requests).encode())


class Addressed(NamedTuple):
    """Whom a request is put out for, and how it reads there."""

    peer: Peer
    request: str


def addressed(peer: Peer, request: str) -> Addressed:
    """Of any part but the first one a request says which it is of; the last one answers for all."""
    return Addressed(peer.last, request if peer.earlier is None or request.startswith("of ") else f"of {peer.name} {request}")


def ask(peer: Peer, request: str) -> None:
    """Notes a request, which the next turn puts out. One for which there is no room any more is forgotten, with its answer."""
    peer, request = addressed(peer, request)
    pending = pending_of(peer)
    if request in pending:
        return
    chosen = choose_pending([*pending, request], answered_of(peer), MOST_REQUESTS)
    for left_out in pending:
        if left_out not in chosen:
            files.remove(peer.kept / "answers" / id_of(left_out))
    note_pending(peer, chosen)


def known(peer: Peer, request: str) -> Optional[bytes]:
    """The answer to a request, or None while it isn't there; of a part that has ended also one that came before."""
    last, request = addressed(peer, request)
    found = kept_answer(last, request)
    return found if found is not None or last is peer else kept_answer(peer, request)


def kept_answer(peer: Peer, request: str) -> Optional[bytes]:
    """The answer to a request as it is put out, or None while it isn't there."""
    return files.read_if_there(peer.kept / "answers" / id_of(request), MOST_ANSWER)


def forget_answer(peer: Peer, request: str) -> None:
    """Takes an answer away that is of no use, with its request, so that another one is taken in its place where it is asked for again."""
    ended, (peer, request) = peer, addressed(peer, request)
    files.remove(ended.kept / "answers" / id_of(request))
    files.remove(peer.kept / "answers" / id_of(request))
    if request in pending_of(peer):
        note_pending(peer, [it for it in pending_of(peer) if it != request])


def doubted_of(peer: Peer) -> list[str]:
    """The digests of answers that are doubted."""
    return peer.read("doubted").decode("ascii", "replace").splitlines()


def ask_anew(peer: Peer, request: str, data: bytes) -> None:
    """Asks once more for what was answered by a proof of which nothing could be joined; the proof is kept as long as no other one comes."""
    peer, request = addressed(peer, request)
    lines = [it for it in doubted_of(peer) if it != digest_of(data)]
    peer.renew("doubted", "".join(f"{it}\n" for it in [*lines, digest_of(data)][-MOST_DOUBTED:]).encode())
    ask(peer, request)


def take_answers(peer: Peer) -> int:
    """Takes the answers that came to what was asked; answers how many aren't asked for any more."""
    pending = pending_of(peer)
    left = [request for request in pending if take_answer(peer, request) is not Fate.TAKEN]
    if len(left) < len(pending):
        note_pending(peer, left)
    return len(pending) - len(left)


def told_refusal(data: bytes) -> str:
    """A refusal as it is told, in quotes: whoever carried it may have made it up."""
    text = data.decode("ascii", "replace").strip()
    return quoted(text[:MOST_TOLD]) + ("…" if len(text) > MOST_TOLD else "")


def take_answer(peer: Peer, request: str) -> Fate:
    """Takes the answer to one request, as far as there is one; a refusal is told once."""
    data, before = peer.take(f"answers/{id_of(request)}", MOST_ANSWER), kept_answer(peer, request)
    fate = settle_answer(kind_of_answer(before), kind_of_answer(data, doubted_of(peer)))
    path = peer.kept / "answers" / id_of(request)
    if fate is Fate.FORGOTTEN:
        files.remove(path)
    elif data is not None and fate in (Fate.TAKEN, Fate.NOTED) and data != before:
        files.renew(path, data)
        if kind_of_answer(data) is Kind.REFUSAL:
            peer.say(f"it didn't answer {request!r}: {told_refusal(data)}. It is asked again each night")
    return fate
