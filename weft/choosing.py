"""The verdict on a file under the kept lines that it needs. Which these are stands in `weft.deciding.choosing`; the judge says which line
it lacks."""

from __future__ import annotations

from typing import Iterable, NamedTuple, Optional, Sequence

from weft import formats, reports
from weft.deciding import choosing
from weft.deciding.choosing import Beside, Extent, HeldHistory
from weft.deciding.signatures import find_signing_key
from weft.files import AnyPath
from weft.formats import Needed, ReadHistory
from weft.judges import Bench, Verdict
from weft.lines import MOST_ANCHORS, Kept, KeptLines, Line, anchors
from weft.sentences import capital, fill
from weft.statuses import Status
from weft.texts import count_of, listed, name_of
from weft.trouble import Trouble

# Of how many kept lines that differ from a history the program is asked as well.
MOST_AUDITED = 8
# So many services, steps and keys are told of whose kept lines don't count.
MOST_UNCOUNTED = 8


class BoundHistory(NamedTuple):
    """A history beside the kept lines of its service, the step up to which it is asked about, its last step, and its own lines of the steps of which kept ones
    differ."""

    service: str
    held: HeldHistory
    wanted: int
    last: int
    own: list[Line]

    @property
    def extent(self) -> Extent:
        """How far it is bound."""
        return choosing.measure_extent(self.held, self.wanted)


class Judgement(NamedTuple):
    """A verdict, the call that it is of, and the lines that it rests on; where lines are missing, which, and where they can't be held
    together, why not; then there is no verdict. Of a history how far it is bound; and of what a proof carries those that are kept lines (`held`)."""

    call: str
    verdict: Optional[Verdict]
    lines: list[Line]
    missing: list[Needed]
    hindrance: str = ""
    history: Optional[BoundHistory] = None
    held: tuple[Line, ...] = ()

    @property
    def counting(self) -> list[Line]:
        """All lines that it rests on: those that it was judged under, and the kept ones that the file carries."""
        return [*self.lines, *self.held]

    @property
    def is_shown(self) -> bool:
        """Whether it is accepted, a history as far as is asked."""
        is_whole = self.history is None or self.history.extent is Extent.WHOLE
        return self.verdict is not None and self.verdict.is_accepted and is_whole


def kept_for(needed: Iterable[Needed], kept: KeptLines) -> dict[Needed, Line]:
    """The kept lines of these steps; raises Trouble where two of one step contradict."""
    found = {it: kept.one(*it) for it in needed}
    return {it: line for it, line in found.items() if line is not None}


def ask_judge(judge: Bench, call: str, parts: tuple[bytes, ...], kept: KeptLines, needed: list[Needed]) -> Judgement:
    """The judgement under the kept ones of the lines that a file says it needs. The judge has the last word on what it lacks."""
    chosen = choosing.choose_lines(needed, kept_for(needed, kept))
    lines = {line.service: line for line in chosen.lines[:MOST_ANCHORS]}
    while True:
        verdict = judge.judge(call, *parts, anchors(lines.values()))
        if verdict.reason[:2] != ["3", "NotHeld"]:
            return Judgement(call, verdict, list(lines.values()), [])
        lacked = Needed(verdict.reason[2], int(verdict.reason[3]))
        held, line = lines.get(lacked.service), kept.one(*lacked)
        if held is not None:
            return Judgement(call, None, list(lines.values()), [], two_steps(lacked.service))
        if line is None:
            return Judgement(call, None, list(lines.values()), list(dict.fromkeys([*chosen.missing, lacked])))
        if len(lines) == MOST_ANCHORS:
            return Judgement(call, None, list(lines.values()), [], f"it needs more than {MOST_ANCHORS} lines")
        lines[lacked.service] = line


def two_steps(service: str) -> str:
    """Why a file can't be judged that needs two lines of one service."""
    return f"it needs the lines of two steps of {service}, and is judged under one a service"


def judge_proof(judge: Bench, data: bytes, kept: KeptLines, allow_carried: bool) -> Judgement:
    """That of a proof of a kind from 1 to 5."""
    return ask_judge(judge, "verify" if allow_carried else "strict", (data,), kept, formats.needed_by_proof(data))


def with_held(judge: Bench, data: bytes, kept: KeptLines, found: Judgement) -> Judgement:
    """The judgement of a proof beside the lines that it carries: one that was kept binds its hop as any other line does, and where each was, nothing rests on a word."""
    verdict = found.verdict
    if found.history is not None or found.call not in ("strict", "verify") or verdict is None:
        return found
    if verdict.reason[1:2] == ["Carried"]:
        verdict = judge.judge("verify", data, anchors(found.lines))
    carried = reports.read_report(verdict).carried if verdict.is_accepted else ()
    held = tuple(line for line in carried if choosing.hold_line(line, (it.line for it in kept.at(line.service, line.step))) is Beside.SAME)
    if len(held) < len(carried) or not held:
        return found._replace(held=held)
    return found._replace(call="verify", verdict=verdict, held=held)


def judge_map(judge: Bench, low: bytes, high: bytes, kept: KeptLines) -> Judgement:
    """That of two map files."""
    return ask_judge(judge, "checkmap", (low, high), kept, formats.needed_by_maps(low, high))


def judge_evidence(judge: Bench, data: bytes, kept: KeptLines) -> Judgement:
    """That of evidence of a fork, whose judge doesn't say which lines it lacks."""
    needed = formats.needed_by_evidence(data)
    chosen = choosing.choose_lines(needed, kept_for(needed, kept))
    if chosen.clashing is not None:
        return Judgement("checkfork", None, chosen.lines, [], two_steps(chosen.clashing))
    if chosen.missing:
        return Judgement("checkfork", None, chosen.lines, chosen.missing)
    return Judgement("checkfork", judge.judge("checkfork", data, anchors(chosen.lines)), chosen.lines, [])


def judge_contradiction(judge: Bench, parts: tuple[bytes, bytes, bytes, bytes], links: Iterable[bytes] = ()) -> Verdict:
    """The verdict on two files, each with its anchors; where they are under two lines of one service, by a link of these that joins
    both."""
    verdict = judge.judge("contradict", *parts, b"")
    if verdict.text.startswith("accepted broken-rule-or-fork"):
        joined = (judge.judge("contradict", *parts, link) for link in links)
        return next((it for it in joined if it.is_accepted), verdict)
    return verdict


def judge_receiver(judge: Bench, data: bytes, lines: Iterable[Line]) -> Verdict:
    """The verdict on whether the receiver of both lines of accepted evidence broke a rule by that."""
    return judge.judge("receiver", data, anchors(lines), b"")


def judge_alone(judge: Bench, data: bytes, lines: Iterable[Line]) -> Verdict:
    """The verdict on whether an accepted file on what a service received contradicts itself, as a map may that is accepted."""
    return judge.judge("contradict", data, anchors(lines), data, anchors(lines), b"")


# ---- histories


def judge_history(judge: Bench, data: bytes, kept: KeptLines, top: Optional[int] = None) -> Judgement:
    """That of a history's file, up to its last step or to the step `top`. Its authenticators are computed from the file itself, and every
    kept line of its service is held against them; each that counts for the verdict is held against the file by the program as well."""
    history = formats.timeline_of(data)
    if history is None:
        shown = judge.show(data, 1, 0)
        return Judgement("audit", Verdict(shown.status, shown.data.decode("ascii", "replace")), [], [])
    if not history.last:
        raise Trouble(Status.UNREADABLE, "it is a history without steps, so there is nothing to judge", "weft tell says what it has.")
    if top is not None and not 1 <= top <= history.last:
        raise Trouble(Status.USAGE, f"the history's last step is {history.last}, and --top is {top}", f"Name a step from 1 to {history.last}.")
    held = choosing.hold_history(history.authenticators, lines_of(kept, history.service))
    return judge_bound(judge, data, history, bound_history(history, held, top or history.last))


def bound_history(history: ReadHistory, held: HeldHistory, wanted: int) -> BoundHistory:
    """A history that was held against kept lines, and is asked about up to a step."""
    own = [Line(history.service, line.step, history.authenticators[line.step]) for line in held.differing]
    return BoundHistory(history.service, held, wanted, history.last, own)


def lines_of(kept: KeptLines, service: str) -> list[Line]:
    """The kept lines of a service, of each step those that count; of a step of which lines contradict, and none was chosen, all that were
    ever seen."""
    found: list[Line] = []
    for step in sorted({*kept.steps(service), *(step for name, step in kept.marks if name == service)}):
        standing = kept.standing(service, step)
        if standing.is_disputed:
            found += [Line(service, step, one) for one in standing.authenticators]
        elif standing.line is not None:
            found.append(standing.line)
    return found


def judge_bound(judge: Bench, data: bytes, history: ReadHistory, bound: BoundHistory) -> Judgement:
    """The judgement of a sound history of which it is known which kept lines agree and which differ."""
    refused = [audit(judge, data, line, False) for line in bound.held.differing[:MOST_AUDITED] if line.step]
    line = bound.held.bound
    if bound.extent is Extent.CONTRADICTED:
        return Judgement("audit", next(iter(refused), Verdict(1, "")), [], [], history=bound)
    missing = [] if bound.extent is Extent.WHOLE else [Needed(bound.service, bound.wanted)]
    if line is None or bound.extent is Extent.UNBOUND:
        return Judgement("audit", None, [], missing, history=bound)
    audit(judge, data, line, True)
    verdict = judge.judge("strict", formats.proof_under(history, line.step), anchors([line]))
    return Judgement("strict", verdict, [line], missing, history=bound)


def audit(judge: Bench, data: bytes, line: Line, is_same: bool) -> Verdict:
    """Has the judge hold a line against a history's file; raises Trouble where it doesn't find what the reference computed: the same, or
    another one."""
    verdict = judge.audit(formats.link_to_itself(line), anchors([line]), data)
    if verdict.is_accepted == is_same and verdict.text.startswith("stands" if is_same else "unheld "):
        return verdict
    told = f"the reference computes that the line of step {line.step} of {line.service} is {'' if is_same else 'not '}of this history"
    raise Trouble(Status.DIFFER, f"two judges differ: {told}, and {judge.name_judges('audit')} says otherwise", "This is a bug: trust neither, and report it.")


# ---- what is told of lines


def told_kept(paths: Optional[Sequence[AnyPath]]) -> list[str]:
    """Which files of kept lines were named in the place of the user's own one."""
    return [f"Under the lines of {listed([name_of(path) for path in paths])} (--kept), and not under those of your own file:"] if paths else []


def missing_sentences(missing: list[Needed], kept: KeptLines, proof: bytes = b"") -> list[str]:
    """Which lines are missing, all of them, what would do in their place, and who may have them."""
    told = [missing_sentence(needed, kept, proof) for needed in missing]
    return [*told, fill("only now")] if told else []


def missing_sentence(needed: Needed, kept: KeptLines, proof: bytes = b"") -> str:
    """That a line is missing: which ones are held, under which of these the same can be proved, else who may have kept it."""
    steps = [step for step in kept.steps(needed.service) if not kept.is_disputed(needed.service, step)]
    is_uncounted = any(it.line.step == needed.step for it in kept.uncounted.get(needed.service, []))
    doubted = ", and keep one that doesn't count: see below" if is_uncounted else ""
    have = f"{fill('missing', service=needed.service, step=needed.step)} {told_held(needed.service, steps)}{doubted}"
    older, later = older_ask(needed, steps, proof), choosing.choose_later_step(steps, needed.step)
    if older:
        return f"{have}: {older}."
    asked = ask_others(needed.service, proof, kept)
    if later is not None:
        return f"{have}: ask for the proof under its step {later}, which its keeper may make: that line binds him. Or {asked}."
    return f"{have}. {capital(asked)}."


def told_held(service: str, steps: list[int]) -> str:
    """Of which steps of a service lines are held."""
    if not steps:
        return f"You hold none of {service}"
    if len(steps) > 4:
        return f"You hold {count_of(len(steps), 'line')} of it, of the steps {steps[0]} to {steps[-1]}, and not this one"
    return f"You hold its {'line of step' if len(steps) == 1 else 'lines of the steps'} {', '.join(map(str, steps))} alone"


def ask_others(service: str, proof: bytes, kept: KeptLines) -> str:
    """Whom to ask for a line: never the service itself, nor who sent the file, nor whom that names alone."""
    recorders, known = formats.recorders_in(proof, service), kept.services()
    names, unknown = choosing.choose_whom_to_ask(service, recorders, known), choosing.choose_unknown(service, recorders, known)
    named = f"{listed(names)}, which received it by this file; " if names else ""
    told = f"{fill('ask others', service=service)}: {named}a notary, another reader of {service}"
    if not unknown:
        return told
    which = "that one" if len(unknown) == 1 else "these"
    aside = f"you keep no line of {which}, and the file isn't judged: whoever made it may keep {which} too"
    return f"{told}. (The file names {listed(unknown)}, which received it by this file; {aside})"


def older_ask(needed: Needed, steps: list[int], proof: bytes) -> str:
    """The advice to ask for the proof under a line that was kept before it was made, where that can be; else nothing."""
    found = formats.read_proof(proof)
    if found is None or (found.service, found.top) != needed:
        return ""
    step = choosing.choose_older_step(steps, found.step, needed.step)
    if step is None:
        return ""
    command = f"weft prove .. --top {step}, then weft chain" if formats.kind_of(proof) == "precedence" else f"timeweave prove DIR .. {step}"
    if isinstance(found, formats.proofs.ExistenceProof):
        command = f"weft prove SERVICE FILE --top {step}"
    return f"ask {needed.service} for the proof under its step {step} ({command}), which you hold"


def uncounted(kept: KeptLines, services: Iterable[str]) -> list[Kept]:
    """The kept lines of these services that don't count, since a key signed them that isn't noted of their service."""
    return [it for service in dict.fromkeys(services) for it in kept.uncounted.get(service, [])]


def uncounted_sentences(kept: KeptLines, services: Iterable[str]) -> list[str]:
    """That kept lines of these services don't count, by whose keys, and what lets them count."""
    told = []
    for service in [it for it in dict.fromkeys(services) if kept.uncounted.get(it)][:MOST_UNCOUNTED]:
        lines = kept.uncounted[service]
        steps = [str(step) for step in sorted({it.line.step for it in lines})]
        of_steps = f"step {steps[0]}" if len(steps) == 1 else f"the steps {', '.join(steps[:MOST_UNCOUNTED])}{', ..' if len(steps) > MOST_UNCOUNTED else ''}"
        keys = listed(sorted({find_signing_key(it.how) or "" for it in lines})[:MOST_UNCOUNTED])
        told.append(
            f"DOESN'T COUNT: {count_of(len(lines), 'line')} of {service} that you kept, of {of_steps}, signed by {keys}, which isn't noted of {service} in the file "
            "of signers, or not for the day when you kept it. Was that key taken out since it was stolen, or is it at its end, leave it so. Else note it "
            f"(weft keep --signer {service} KEY.pub), name the file that has it (--signers, or WEFT_SIGNERS), or say how the line came besides (weft keep FILE --by ..)."
        )
    return told


def resting(judgement: Judgement, kept: KeptLines) -> list[str]:
    """On whose lines a verdict rests, and how each came."""
    if not judgement.counting:
        return []
    told = ["It rests on these lines:" if judgement.is_shown else "It was judged under these lines:"]
    for line in judgement.counting:
        came = "; ".join(it.told for it in kept.at(line.service, line.step))
        told.append(f"  {line.service}, step {line.step}, {line.authenticator[:16]}..: {came}")
    return told
