"""What a verdict says, in typed values and in sentences. All of it comes from the text of the judge, and nothing from a proof."""

from __future__ import annotations

import re
from dataclasses import dataclass
from typing import Collection, NamedTuple, Optional

from weft.events import told_event
from weft.judges import Verdict
from weft.lines import Line
from weft.sentences import REASONS, RULES, Reason, fill
from weft.texts import date_of, listed


@dataclass(frozen=True)
class Event:
    """An event of a service's step, by its index from 0, and the time in seconds that the step claims, or None."""

    service: str
    step: int
    index: int
    data: bytes
    time: Optional[int]


class Hop(NamedTuple):
    """A step of a service that another one received, at a step of its own; and whether only the receiver says that it is the service's."""

    service: str
    step: int
    by: str
    archived: int
    is_carried: bool


class Report(NamedTuple):
    """What an accepted verdict says: its kind, the word behind `accepted`; events, hops, and the words of its other lines; and the lines that it carries,
    which their receivers alone vouch for."""

    kind: str
    events: list[Event]
    hops: list[Hop]
    others: list[list[str]]
    carried: tuple[Line, ...] = ()

    def other(self, word: str) -> list[str]:
        """The words behind the first line of this word."""
        return next((line[1:] for line in self.others if line[0] == word), [])


# What stands in the lines of a report, by their first words.
NAME, NUMBER, DIGEST, WORD = "[a-z0-9-]{1,16}", "(?:0|[1-9][0-9]{0,19})", "[0-9a-f]{64}", "[A-Za-z0-9-]{1,64}"
LINES = {
    "event": f"{NAME} {NUMBER} {NUMBER} (?:-|(?:[0-9a-f]{{2}}){{1,1024}})",
    "time": f"{NAME} {NUMBER} {NUMBER}",
    "hop": f"{NAME} {NUMBER} {NAME} {NUMBER}",
    "carried": f"{NAME} {NUMBER} {DIGEST}",
    "thread": f"{NAME} {NUMBER} {NAME} {NUMBER} {DIGEST} {NUMBER}",
    "absent": f"{NAME} {NUMBER} {NAME} {NUMBER}",
    "link": f"{NAME} {NUMBER} {NUMBER} {DIGEST}",
    "low": NUMBER,
    "high": f"(?:{NUMBER}|none)",
    "upto": NUMBER,
    "first": f"{NAME} {NUMBER} {DIGEST} {NAME} {NUMBER}",
    "second": f"{NAME} {NUMBER} {DIGEST} {NAME} {NUMBER}",
}


def is_line(words: list[str]) -> bool:
    """Whether these are the words of a line of a report: names, numbers and hexadecimal digits where they belong."""
    return bool(words) and words[0] in LINES and re.fullmatch(LINES[words[0]], " ".join(words[1:])) is not None


def read_report(verdict: Verdict) -> Report:
    """The report of an accepted verdict; raises ValueError where a line of it is none."""
    head, *lines = verdict.lines
    if head[:1] != ["accepted"] or len(head) != 2 or not all(map(is_line, lines)):
        raise ValueError("a line of the report is none")
    times = {(words[1], words[2]): int(words[3]) for words in lines if words[0] == "time"}
    carried = tuple(Line(words[1], int(words[2]), words[3]) for words in lines if words[0] == "carried")
    loose = {(line.service, line.step) for line in carried}
    events = [
        Event(words[1], int(words[2]), int(words[3]), b"" if words[4] == "-" else bytes.fromhex(words[4]), times.get((words[1], words[2])))
        for words in lines
        if words[0] == "event"
    ]
    hops = [
        Hop(words[1], int(words[2]), words[3], int(words[4]), (words[1], int(words[2])) in loose) for words in lines if words[0] == "hop"
    ]
    others = [words for words in lines if words[0] not in ("event", "hop", "time", "carried")]
    return Report(head[1], events, hops, others, carried)


def without_held(report: Report, held: Collection[Line]) -> Report:
    """The report where these of the lines that it carries are kept ones: each of them binds its hop as any other line does."""
    bound = {(line.service, line.step) for line in held}
    hops = [hop._replace(is_carried=hop.is_carried and (hop.service, hop.step) not in bound) for hop in report.hops]
    return report._replace(hops=hops, carried=tuple(line for line in report.carried if line not in held))


def told_lines(report: Report) -> list[Line]:
    """The lines of other steps than those that it is judged under, which it tells: that of a link, of a received thread, and those that it carries."""
    link, thread = report.other("link"), report.other("thread")
    found = list(report.carried)
    if link:
        found.append(Line(link[0], int(link[1]), link[3]))
    if thread:
        found.append(Line(thread[2], int(thread[3]), thread[4]))
    return found


def event_sentences(event: Event) -> list[str]:
    """What the report says of an event."""
    told = [fill("event", service=event.service, step=event.step, index=event.index, event=told_event(event.data))]
    return told if event.time is None else [*told, fill("time", service=event.service, step=event.step, time=date_of(event.time))]


def order_sentences(report: Report) -> list[str]:
    """Two events, and the way from the first one to the second."""
    first, second = report.events
    told = [*event_sentences(first), *event_sentences(second)]
    if not report.hops:
        return [*told, fill("order in one history", first=first.step, second=second.step)]
    carried = [hop for hop in report.hops if hop.is_carried]
    if carried:
        return word_sentences(report, carried)
    return [*told, f"{fill('order')}, by this way:", *way_sentences(report), fill("bound")]


def way_sentences(report: Report) -> list[str]:
    """The hops, each as a row of its own."""
    return [f"  {fill('hop', **hop._asdict())}{'; CARRIED' if hop.is_carried else ''}" for hop in report.hops]


def whose_word(report: Report) -> str:
    """On whose word it rests: of those who received what is carried, each of whom could have made it up."""
    return listed([f"{by}'s" for by in dict.fromkeys(hop.by for hop in report.hops if hop.is_carried)])


def is_on_word(report: Report, place: int) -> bool:
    """Whether an event of a proof is on somebody's word: the first one, where the first hop is carried."""
    return place == 0 and bool(report.hops) and report.hops[0].is_carried


def word_sentences(report: Report, carried: list[Hop]) -> list[str]:
    """The same where it rests on somebody's word: what is so by that alone, what is shown by lines, what isn't, and what to do."""
    (first, second), whose = report.events, whose_word(report)
    if is_on_word(report, 0):
        told = [fill("by word", whose=whose, told=text) for text in event_sentences(first)]
        told += [f"{fill('word order', service=second.service, step=second.step)}, by this way:", *way_sentences(report)]
        told += [fill("shown by lines", told=text) for text in event_sentences(second)]
    else:
        told = [*event_sentences(first), *event_sentences(second), f"{fill('by word', whose=whose, told=fill('order'))}, by this way:"]
        told += [*way_sentences(report), fill("both by lines")]
    told += [fill("account", **hop._asdict()) for hop, after in zip(report.hops, [*report.hops[1:], None]) if hop.is_carried and (after is None or not after.is_carried)]
    told += [fill("carried", **hop._asdict()) for hop in carried]
    steps = listed([f"step {hop.step} of {hop.service}" for hop in carried])
    return [*told, f"What to do: {fill('ask for links', steps=steps, by=listed(list(dict.fromkeys(hop.by for hop in carried))))}"]


def thread_sentences(words: list[str]) -> list[str]:
    """What it says that a line was received."""
    _, service, step, peer, received, authenticator, archived = words
    told = fill("thread", service=service, step=step, peer=peer, received=received, authenticator=authenticator, archived=archived)
    return [told, fill("maker", peer=peer)]


def other_sentences(words: list[str]) -> list[str]:
    """What another line of a report says."""
    if words[0] == "thread":
        return thread_sentences(words)
    if words[0] == "absent":
        return [fill("absent", service=words[1], step=words[2], peer=words[3], absent=words[4])]
    if words[0] == "link":
        return [fill("link", service=words[1], step=words[2], top=words[3], authenticator=words[4])]
    if words[0] in ("first", "second"):
        return [fill("received", service=words[1], step=words[2], authenticator=words[3], by=words[4], archived=words[5])]
    return [" ".join(words)]


def map_sentences(report: Report, service: str, step: str, peer: str) -> list[str]:
    """What two accepted map files say of a step of a service among those of its peer."""
    low, high, upto = report.other("low")[0], report.other("high")[0], report.other("upto")[0]
    of = {"service": service, "step": step, "peer": peer, "low": low, "high": high, "upto": upto}
    before, after = "none before" if low == "0" else "last before", "none after" if high == "none" else "first after"
    return [fill("map", before=fill(before, **of), after=fill(after, **of), **of), fill("behind", **of)]


def fork_sentences(report: Report, broken: Optional[Verdict] = None) -> list[str]:
    """What accepted evidence says, and who may have broken a rule. Of a receiver of both the judge has said which rule it broke by that, where it broke one."""
    first, second = report.other("first"), report.other("second")
    told = [*other_sentences(["first", *first]), *other_sentences(["second", *second]), fill("no history", service=first[0])]
    if first[3] != second[3]:
        return [*told, fill("two receivers", service=first[0], first=first[3], second=second[3])]
    if broken is None or not broken.is_accepted:
        return [*told, fill("one receiver", service=first[0], by=first[3])]
    rule = broken_rule(broken)
    return [*told, fill("broken receiver", service=first[0], by=first[3], rule=rule.meaning)]


class BrokenRule(NamedTuple):
    """A rule of histories that two files show broken: whose, its number and name as the judge has them, and the judge's lines of what each file says."""

    service: str
    number: str
    name: str
    said: list[list[str]]

    @property
    def meaning(self) -> str:
        """What it means that it is broken; of a rule that isn't known here its name."""
        return RULES[self.name].format(service=self.service) if self.name in RULES else f"rule {self.number}, {self.name}"


# The rule of files of which the one denies what the other shows has no line of its own.
DENIED = ["rule", "1", "Denied"]


def broken_rule(verdict: Verdict) -> BrokenRule:
    """Which service's rule two files show broken; raises ValueError where a line of it is none."""
    _, *lines = verdict.lines
    rule, said = (lines[0], lines[1:]) if lines[:1] and lines[0][:1] == ["rule"] else (DENIED, lines)
    if len(rule) != 3 or not said or not all(len(words) > 1 and all(re.fullmatch(WORD, word) for word in words) for words in (rule, *said)):
        raise ValueError("a line of the broken rule is none")
    return BrokenRule(said[0][1], rule[1], rule[2], said)


def broken_sentence(rule: BrokenRule) -> str:
    """What two files show of a broken rule."""
    if rule.name == "Denied":
        _, service, _, peer, step, _, archived = rule.said[0]
        return fill("denied", service=service, peer=peer, step=step, archived=archived, upto=rule.said[1][2])
    said = "; ".join(" ".join(words) for words in rule.said)
    known = f"{rule.meaning} (" if rule.name in RULES else ""
    return fill("broken rule", number=rule.number, name=rule.name, said=f"{known}{said}{')' if known else ''}")


def refuted_sentences(verdict: Verdict) -> list[str]:
    """What it says that an accepted file contradicts itself."""
    rule = broken_rule(verdict)
    said = f"{rule.meaning} ({'; '.join(dict.fromkeys(' '.join(words) for words in rule.said))})"
    return [fill("broken by itself", number=rule.number, name=rule.name, said=said), fill("one file", service=rule.service)]


def contradiction_sentences(verdict: Verdict, first: str, second: str) -> list[str]:
    """What it says that two files, told by these names, contradict each other: whose rule is broken, whether that is shown, and that nobody else is meant."""
    rule = broken_rule(verdict)
    is_shown = verdict.lines[0][-1] == "broken-rule"
    whose = fill("one line" if is_shown else "two lines", service=rule.service)
    return [f"{first} and {second} CONTRADICT EACH OTHER: {broken_sentence(rule)}", whose, fill("nobody else"), fill("keep files")]


def sentences(report: Report, broken: Optional[Verdict] = None) -> list[str]:
    """What an accepted proof says; of evidence, with what the judge says of who received both."""
    if report.kind == "fork":
        return fork_sentences(report, broken)
    if report.kind == "precedes":
        return order_sentences(report)
    told = [sentence for event in report.events for sentence in event_sentences(event)]
    return told + [sentence for words in report.others for sentence in other_sentences(words)]


def reason_sentence(verdict: Verdict) -> tuple[str, str]:
    """Why a verdict isn't an acceptance, and what to do."""
    words = verdict.reason
    if verdict.text.startswith("unsound"):
        _, _, _, step, _, rule = verdict.text.split()
        return f"The history breaks rule {rule} at its step {step}: no service that keeps the rules has it.", "Ask its service for another."
    if not words:
        return f"The judge can't read it ({' '.join(verdict.text.split())}).", "Is it the right file?"
    name, fields = (words[0], words[1:]) if words[0] == "Gap" else (words[1], words[2:])
    reason = REASONS.get(name, Reason(f"The judge doesn't accept it ({' '.join(words)}).", ""))
    filled = [*fields, "?", "?", "?", "?"]
    return reason.sentence.format(*filled), reason.todo.format(*filled)
