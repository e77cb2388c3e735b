"""What a file says, in sentences, unjudged."""

from __future__ import annotations

import io
import itertools
from typing import Any, Iterable, Iterator

from weft import formats, reports, signatures
from weft.deciding.bundles import Unfit, read_bundle
from weft.deciding.letters import is_taken_out
from weft.events import told_event
from weft.judges import Verdict
from weft.lines import Kept, KeptLines, read_kept, read_line, read_mark
from weft.progress import with_progress
from weft.sentences import fill
from weft.texts import count_of, date_of, printable, quoted
from weft.trouble import Trouble

from timeweave_reference import events_files, evidence, fields, histories, map_files, messages, precedence, proofs, receipts, verdicts

MOST_EVENTS = 20
MOST_LINES = 20

# The most bytes of a line that is looked at, and of a report: the longest one has two events, 64 hops and 64 carried lines.
MOST_FIRST, MOST_REPORT = 8_192, 65_536

# The most bytes of a file of lines in which those that contradict are looked for.
MOST_COMPARED = 1 << 20
NO_FORMAT = "it is of no format of Timeweave"


def several(items: Iterable[str], count: int, what: str, most: int) -> Iterator[str]:
    """The first of so many sentences, and how many more there are."""
    yield from itertools.islice(items, most)
    if count > most:
        yield f"and {count - most:,} more {what}"


def time_of(time: Any) -> str:
    """The claimed time of a step, as a sentence's end."""
    return "" if time is None else f", which claims the time {date_of(time)}"


def tell_proof(data: bytes) -> tuple[str, list[str]]:
    """A proof of a kind from 1 to 5."""
    kind, proof = formats.kind_of(data), verdicts.read_proof(data)
    under = f"it is to be judged under the line of step {proof.top} of {proof.service}"
    if isinstance(proof, precedence.PrecedenceProof):
        return "proof that one event precedes another", [*tell_chain(proof), under]
    if isinstance(proof, proofs.ExistenceProof):
        claimed = f"that {proof.service} recorded in its step {proof.step}{time_of(proof.opening.time)}, as event {proof.event.index} of "
        return "proof of an event", [f"{claimed}{proof.opening.count}: {told_event(proof.event.event)}", under]
    if isinstance(proof, proofs.ThreadProof):
        entry = proof.entry
        told = f"that {proof.service} had received step {entry.step} of {entry.service}, authenticator {entry.authenticator.hex()}, by its step "
        return "proof that a line was received", [f"{told}{proof.step}, at its step {entry.archived}", under]
    if isinstance(proof, proofs.AbsenceProof):
        told = f"that {proof.service} had received no step {proof.absent_step} of {proof.absent_service} by its step {proof.step}"
        return "proof that a line wasn't received", [told, under]
    assert isinstance(proof, proofs.LinkProof), kind
    return "proof of a link", [f"that step {proof.step} of {proof.service} has the authenticator {proof.authenticator.hex()}", under]


def tell_chain(proof: precedence.PrecedenceProof) -> Iterator[str]:
    """The events and hops of a proof of precedence, from the first event to the second."""
    first, second = proof.first_event, proof.event
    yield f"first event: {proof.first_service}, step {proof.first_step}{time_of(proof.first_opening.time)}, event {first.index}: {told_event(first.event)}"
    recorders = [proof.service, *(hop.entry.service for hop in proof.hops)]
    for hop, by in reversed(list(zip(proof.hops, recorders))):
        bound = f"bound by the line of step {hop.bind} of {hop.entry.service}" if hop.bind else "carried: no line binds it"
        yield f"hop: {by} received step {hop.entry.step} of {hop.entry.service} at its step {hop.entry.archived}; {bound}"
    yield f"second event: {proof.service}, step {proof.step}{time_of(proof.opening.time)}, event {second.index}: {told_event(second.event)}"


def tell_map(data: bytes) -> tuple[str, list[str]]:
    """A map file."""
    if formats.kind_of(data) == "low map":
        low = map_files.read_low(data)
        known = f"that {low.service}, before its step {low.step}, had received step {low.low()} of {low.peer} last (0: none)"
        return "low map file", [known, f"it is to be judged under the line of step {low.top} of {low.service}"]
    high = map_files.read_high(data)
    received = high.high()
    known = f"that {high.peer} first received step {high.step} of {high.service} or a later one at its step {received}"
    if received is None:
        known = f"that {high.peer} received step {high.step} of {high.service} or a later one at none of its steps up to {high.top}"
    return "high map file", [known, f"it is to be judged under the line of step {high.top} of {high.peer}"]


def tell_message(data: bytes) -> tuple[str, list[str]]:
    """A message."""
    message = messages.read_message(data)
    line = formats.line_of(message)
    return "message of a service's last step", [f"line: {line.text}", f"for whoever recorded its step {message.since} last"]


def tell_receipts(data: bytes) -> tuple[str, list[str]]:
    """Receipts."""
    found = receipts.read_receipts(data)
    told = (
        f"{it.recorder} recorded step {it.step} of {it.service}, authenticator {it.authenticator.hex()}, at its step {it.archived}, "
        f"authenticator {it.recorder_authenticator.hex()}"
        for it in found
    )
    return "receipt" if len(found) == 1 else count_of(len(found), "receipt"), list(several(told, len(found), "receipts", MOST_LINES))


def tell_evidence(data: bytes) -> tuple[str, list[str]]:
    """Evidence of a fork."""
    found = evidence.read_evidence(data)
    told = [
        f"{proof.service} received step {proof.entry.step} of {proof.entry.service}, authenticator {proof.entry.authenticator.hex()}, at its step "
        f"{proof.entry.archived}; judged under the line of step {proof.top} of {proof.service}"
        for proof in (found.first, found.second)
    ]
    return f"evidence that no history of {found.first.entry.service} has two lines", told


def tell_history(data: bytes) -> tuple[str, list[str]]:
    """A history, whose steps are read one after another."""
    share = 100 * len(data) / formats.MOST_HISTORY
    size = f"{len(data):,} bytes, {share:.1f} % of what a history's file may have"
    read = fields.Reader(data, formats.MOST_HISTORY)
    name, steps, events, threads = histories.take_name(read), 0, 0, 0
    first, last = None, None
    for step in with_progress(histories.take_steps(read), "reading steps:"):
        steps, events, threads = steps + 1, events + len(step.events), threads + (step.thread is not None)
        first, last = step.time if first is None else first, last if step.time is None else step.time
    read.end()
    told = [f"of {name}: {count_of(steps, 'step')}, {count_of(events, 'event')}, {count_of(threads, 'received line')}"]
    if first is not None and last is not None:
        told.append(f"claimed times from {date_of(first)} to {date_of(last)}")
    return "history", [*told, size]


def tell_events(data: bytes) -> tuple[str, list[str]]:
    """An events file."""
    found = events_files.read_events(data)
    told = (f"event {index}: {told_event(event)}" for index, event in enumerate(found))
    return f"events file of {count_of(len(found), 'event')}", list(several(told, len(found), "events", MOST_EVENTS))


REPORTS = ("accepted ", "rejected ", "refused ", "stands", "unheld ", "unreadable ", "unsound ", "clash", "fault ", "store ", "usage ", "no memory")


def tell_text(data: bytes) -> tuple[str, list[str]]:
    """Lines, signed lines, kept lines, or the text of a command; raises Trouble where it is none of these."""
    signed = signatures.read_signed_line(data)
    if signed:
        return "signed line", [f"line: {signed.line.text}", "its signature isn't checked here: weft keep does"]
    first = data[:MOST_FIRST].decode("utf-8", "replace").split("\n", 1)[0]
    if first.startswith(signatures.BEGIN):
        return "signature by ssh-keygen", ["it is of the line in the file without .sig: weft keep checks it"]
    if first.startswith("accepted ") and first != "accepted map":
        return tell_report(data)
    if first.startswith(REPORTS):
        told = data[:MOST_REPORT].decode("utf-8", "replace").split("\n")
        return "text of a command of timeweave", list(several(map(printable, told), data.rstrip(b"\n").count(b"\n") + 1, "lines", MOST_LINES))
    return tell_lines(data)


def tell_report(data: bytes) -> tuple[str, list[str]]:
    """A report of the program: names, numbers and digits as they are, and nothing else."""
    try:
        if len(data) > MOST_REPORT:
            raise ValueError("it is longer than a report")
        return "report of timeweave", reports.sentences(reports.read_report(Verdict(0, data.decode("ascii"))))
    except (ValueError, IndexError):
        raise ValueError("it begins as a report of timeweave, and a line of it is none") from None


def tell_lines(data: bytes) -> tuple[str, list[str]]:
    """A file of lines, which are read one after another."""
    shown, beside = list[str](), list[str]()
    count = marks = behind = 0
    for line in io.BytesIO(data):
        text = line[:MOST_FIRST].decode("utf-8", "replace").rstrip("\r\n")
        if not text.strip() or is_taken_out(text):
            continue
        if text.startswith("#"):
            behind += 1
            beside += [f"words behind #: {quoted(text.lstrip('#').strip())}"] if behind <= MOST_LINES else []
            continue
        if read_mark(text) is not None:
            marks += 1
            continue
        it = read_kept(text)
        if it is None:
            raise ValueError(NO_FORMAT)
        count += 1
        if count <= MOST_LINES:
            shown.append(f"{it.line.text}{kept_words(it)}")
    if not count and not marks:
        raise ValueError(NO_FORMAT)
    more = disputes_in(data)
    what = "line" if count == 1 else count_of(count, "line") if count else f"{count_of(marks, 'note')} of lines that contradicted, and no line"
    words = several(beside, behind, "rows of such words", MOST_LINES)
    return what, [*several(shown, count, "lines", MOST_LINES), *words, *several(more, len(more), "such steps", MOST_LINES)]


def kept_words(it: Kept) -> str:
    """When a line of somebody's file was kept, and in quotes how it came, since whoever wrote the file chose these words."""
    if not it.date:
        return ""
    return f" (kept {it.date[:10]}, {quoted(it.how) if it.how else 'nothing is told of how it came'})"


def disputes_in(data: bytes) -> list[str]:
    """The steps of which a file of lines has some that contradict; of a long file, that they aren't looked for here."""
    if len(data) > MOST_COMPARED:
        return ["whether some of them contradict isn't looked at here in so long a file: weft keep does"]
    kept = KeptLines()
    kept.add_text("it", data.decode("utf-8", "replace"))
    return [f"of step {step} of {service} there are lines that contradict, and none was chosen" for service, step in kept.disputes()]


def tell_bundle(data: bytes) -> tuple[str, list[str]]:
    """What a bundle has."""
    found = read_bundle(data)
    if isinstance(found, Unfit):
        raise ValueError(fill("no bundle", file="It", why=fill(found.value)))
    return "a bundle", [f"{name} ({count_of(len(part), 'byte')})" for name, part in found.items()]


TELLERS = {
    "event": tell_proof, "precedence": tell_proof, "thread": tell_proof, "absence": tell_proof, "link": tell_proof, "low map": tell_map,
    "high map": tell_map, "message": tell_message, "receipts": tell_receipts, "evidence": tell_evidence, "history": tell_history,
    "events": tell_events, "text": tell_text, "bundle": tell_bundle,
}  # fmt: skip


def tell(data: bytes) -> tuple[str, list[str]]:
    """What the bytes are, and what they say; raises ValueError with the place of the first byte at which they are nothing."""
    kind = formats.kind_of(data)
    if not data:
        raise ValueError("It is empty: ask for it again")
    try:
        if kind == "proof" or (kind == "text" and read_line(data[:96].decode("ascii", "replace").split("\n")[0]) is None and b"\0" in data):
            raise ValueError(NO_FORMAT)
        return TELLERS[kind](data)
    except formats.Malformed as bad:
        raise ValueError(f"it begins as {kind}, and at byte {bad.place} none goes on: it was cut short or changed") from None
    except Trouble:
        raise ValueError(NO_FORMAT) from None
