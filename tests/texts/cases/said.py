"""What weft and the page say of an answer is one set of sentences, and each says no more than the clause of the answer that it stands for: what hangs on a
service that keeps the rules says so, what its receiver alone vouches for does, and nothing is said against whom nothing is shown."""

import json
import re
import subprocess
import sys
from typing import NamedTuple

from harness.places import TOP
from harness.rooms import Skipped, checked, needs
from timeweave_reference.broken_rules import RULES

sys.path[:0] = [str(TOP)]

from weft import reports, sentences  # noqa: E402
from weft.judges import Verdict  # noqa: E402


class Claim(NamedTuple):
    """What a sentence stands for: the words of the document on what is proved, or, of what no clause says, of the document on lines; what it may be filled with;
    and which words have to stand in it."""

    clause: str
    fields: str
    words: tuple = ()


AN_EVENT = "it stands in the history of that service at that step and index"
HOPS = "Hops *lead* where each of them is a thread that its receiver received at the step that is told"
CARRIED = "those that it tells as carried"
A_THREAD = "the service received it at the step that is told"
NO_THREAD = "no step of the service up to the one that is named received a thread of that service and step"
A_LINK = "the service has that authenticator at that step"
MAPS = "the bounds written are those of any sound histories that have both tops' anchors"
FORKS = "no sound history has both threads"
RULE = "two accepted files of one service break"
JOINED = "Under lines that are one or joined, no sound history has the later line"
RECEIVER = "where one service received both authenticators of one step of a fork"
TIME = "that a time is true"
WHOSE = "whose a line is"
THEOREM = "in every list of logs that keep the rules and have your lines"
KEEPERS = "has no sound history, and then these sentences say nothing of it"
KEPT_RULES = "kept the rules"

CLAIMS = {
    "event": Claim(AN_EVENT, "service step index event"),
    "file": Claim(AN_EVENT, "path digest"),
    "unnamed file": Claim(AN_EVENT, "digest"),
    "time": Claim(TIME, "service step time", ("claims", "isn't shown")),
    "order": Claim(HOPS, ""),
    "order in one history": Claim(HOPS, "first second", ("in one history",)),
    "hop": Claim(HOPS, "by step service archived"),
    "bound": Claim(CARRIED, "", ("by a line that you hold",)),
    "carried": Claim(CARRIED, "by step service", ("Not shown: only {by} says", "could have made it up")),
    "on a word": Claim(CARRIED, ""),
    "by word": Claim(CARRIED, "whose told", ("By {whose} word alone",)),
    "word order": Claim(HOPS, "step service", ("By that word",)),
    "shown by lines": Claim(AN_EVENT, "told", ("by the lines that counted",)),
    "both by lines": Claim(AN_EVENT, "", ("by the lines that counted",)),
    "account": Claim(A_THREAD, "by step service archived", ("this account",)),
    "ask for links": Claim(CARRIED, "steps by", ("neither that service, nor {by}, nor the sender",)),
    "thread": Claim(A_THREAD, "service received peer authenticator step archived"),
    "maker": Claim(WHOSE, "peer", ("isn't shown",)),
    "absent": Claim(NO_THREAD, "service absent peer step", (f"if it {KEPT_RULES}", "an audit", "whether it did")),
    "link": Claim(A_LINK, "step service top authenticator"),
    "map": Claim(MAPS, "service peer step before after", (f"If {{service}} and {{peer}} {KEPT_RULES}", "whether they did")),
    "none before": Claim(MAPS, "peer"),
    "last before": Claim(MAPS, "peer low"),
    "first after": Claim(MAPS, "high peer step service"),
    "none after": Claim(MAPS, "upto peer step service"),
    "behind": Claim(MAPS, "peer upto", ("nothing is shown",)),
    "same file": Claim(AN_EVENT, "file", ("by its digest and name",)),
    "same file as": Claim(AN_EVENT, "file which", ("by its digest and name",)),
    "renamed file": Claim(AN_EVENT, "file names", ("under the name",)),
    "renamed file as": Claim(AN_EVENT, "file which names", ("under the name",)),
    "earlier event": Claim(AN_EVENT, ""),
    "later event": Claim(AN_EVENT, ""),
    "not this file": Claim(AN_EVENT, "", ("not this file",)),
    "other file": Claim(AN_EVENT, "file", ("another file",)),
    "namesake": Claim(AN_EVENT, "file", ("another file", "another digest")),
    "other file than both": Claim(AN_EVENT, "file", ("another file", "neither")),
    "digest recorded": Claim(AN_EVENT, "digest"),
    "digest given": Claim(AN_EVENT, "digest"),
    "other version": Claim(AN_EVENT, ""),
    "as no file": Claim(AN_EVENT, "", ("as no file",)),
    "no file": Claim(AN_EVENT, "told", ("is no entry",)),
    "no files": Claim(AN_EVENT, "told", ("Neither event",)),
    "unread file": Claim(AN_EVENT, "file", ("isn't seen",)),
    "no event": Claim(AN_EVENT, "file", ("isn't compared with it",)),
    "no document": Claim(AN_EVENT, "", ("no document",)),
    "document not given": Claim(AN_EVENT, "names", ("You gave no document", "isn't judged")),
    "no format": Claim(AN_EVENT, "file", ("nothing of it is judged",)),
    "is it the document": Claim(AN_EVENT, "", ("its proof is missing",)),
    "without proof": Claim(AN_EVENT, "file", ("isn't compared with anything",)),
    "proof not judged": Claim(AN_EVENT, "file", ("isn't compared", "isn't judged")),
    "proof not accepted": Claim(AN_EVENT, "file", ("isn't compared", "accepted")),
    "received": Claim(FORKS, "by step service authenticator archived"),
    "no history": Claim(FORKS, "service", ("No history of {service} has both", "or a receiver made one up")),
    "two receivers": Claim(FORKS, "service first second", ("isn't shown", "may have", "or one of both")),
    "one receiver": Claim(FORKS, "by service", ("could have made up both", "against {service} nothing is shown")),
    "broken receiver": Claim(RECEIVER, "by rule service", ("{by}", "broke a rule", "Against {service} nothing is shown")),
    "denied": Claim(RULE, "service step peer archived upto", ("By one", "by the other")),
    "broken rule": Claim(RULE, "number name said", ("Between them",)),
    "one line": Claim(JOINED, "service", ("under one line", "broke its rules")),
    "two lines": Claim(JOINED, "service", ("or it has two histories", "or one of both lines isn't its own")),
    "nobody else": Claim(RULE, "", ("nothing is shown",)),
    "keep files": Claim(JOINED, "", ("whoever holds these lines to be its own",)),
    "broken by itself": Claim(RULE, "number name said", ("CONTRADICTS ITSELF",)),
    "one file": Claim(JOINED, "service", ("broke its rules", "nothing is shown")),
    "same line": Claim(A_LINK, "step service"),
    "other line": Claim(WHOSE, "step service came told", ("has shown two histories, or one of both isn't",)),
    "own lines": Claim(WHOSE, ""),
    "line and file": Claim(WHOSE, ""),
    "own lines told": Claim(A_LINK, "service other step"),
    "two histories": Claim(WHOSE, "service", ("has shown two histories, or one of both lines isn't",)),
    "in doubt": Claim(WHOSE, "service"),
    "keep both": Claim(WHOSE, "service"),
    "told twice": Claim(WHOSE, "first one step service second other", ("has shown two histories, or one of both isn't",)),
    "theorem": Claim(THEOREM, "", ("sound histories", "Or two different texts")),
    "assume lines": Claim(WHOSE, "", ("as the way on which it came",)),
    "assume rules": Claim(THEOREM, "", ("kept the rules", "an audit")),
    "assume digests": Claim(THEOREM, "", ("SHA-256",)),
    "assume proved": Claim(THEOREM, "", ("are trusted",)),
    "assume tested": Claim(THEOREM, "", ("not proved",)),
    "not who": Claim(WHOSE, "", ("isn't judged",)),
    "not the day": Claim(TIME, "", ("own claim",)),
    "no bundle": Claim(WHOSE, "file why", ("no bundle",)),
    **{f"unfit {why}": Claim(WHOSE, "") for why in ("long", "end", "place", "name", "twice", "packed", "changed", "lacks")},
    "ask for bundle": Claim(WHOSE, ""),
    "bundle apart": Claim(WHOSE, "file"),
    "bundle many lines": Claim(WHOSE, "file count most"),
    "bundle yours": Claim(WHOSE, "step service", ("that you kept",)),
    "bundle key": Claim(WHOSE, "step service by", ("that you noted",)),
    "bundle stamp": Claim(WHOSE, "step service", ("only the sender says", "not whose it is")),
    "bundle sender": Claim(WHOSE, "step service", ("sender's alone", "nothing is judged")),
    "stood by": Claim(TIME, "step service day authority", ("says {authority}", "not proved")),
    "renewed": Claim(TIME, ""),
    "event stood by": Claim(TIME, "index step service day authority", ("not after", "if {authority} is right")),
    "history stood by": Claim(TIME, "service step day authority", ("not after", "if {authority} is right")),
    "whose stamp": Claim(WHOSE, "", ("doesn't say whose",)),
    "stamp of": Claim(TIME, "step service told", ("gives no day",)),
    "stamp foreign": Claim(TIME, "", ("you trust", "not whoever sent")),
    "stamp expired": Claim(TIME, "authority day", ("could have made it",)),
    "stamp revoked": Claim(TIME, "authority", ("could have made it",)),
    "stamp other": Claim(TIME, ""),
    "stamp weak": Claim(TIME, "said"),
    "stamp changed": Claim(TIME, "said"),
    "stamp unchecked": Claim(TIME, "said", ("nothing is said of it",)),
    "event not before": Claim(TIME, "index step service day file", ("not before", "if nobody knew", "not proved")),
    "beacon unmet": Claim(TIME, "file", ("no day",)),
    "beacon unshown": Claim(TIME, "", ("no day",)),
    "days crossed": Claim(TIME, "index step service", ("clock is wrong",)),
    "not of broken rules": Claim(KEEPERS, "", ("Nothing of a keeper who broke the rules",)),
    "not what else": Claim(AN_EVENT, "", ("isn't told",)),
    "digits short": Claim(WHOSE, "step service count said", ("ends short",)),
    "digits long": Claim(WHOSE, "step service count said"),
    "digit wrong": Claim(WHOSE, "step service said"),
    "row check": Claim(WHOSE, "row step service", ("Typed rightly?", "compare")),
    "row guess": Claim(WHOSE, "said", ("If one digit is wrong",)),
    "whole check": Claim(WHOSE, "step service", ("Typed rightly?", "compare")),
    "digits alone": Claim(WHOSE, "number count"),
    "amid words": Claim(WHOSE, "step service digits", ("may say anything of it",)),
    "typed rightly": Claim(WHOSE, ""),
    "slip": Claim(WHOSE, "right wrong where step service", ("Typed rightly?", "compare")),
    "slip between": Claim(WHOSE, "step service where one other", ("Typed rightly?", "compare")),
    "missing": Claim(WHOSE, "step service"),
    "ask others": Claim(WHOSE, "service", ("is neither {service} nor whoever sent you this file",)),
    "only now": Claim(WHOSE, "", ("nothing about the time before",)),
}

# What no sentence says: that is more than any clause does.
MORE = re.compile(r"\bis true\b|\bproves\b|\bmust have\b|\bis genuine\b|\bcertainly\b|\bguarantee|\bwas made by\b|\bis a liar\b|\bforger\b|\bis honest\b")
FIELD = re.compile(r"\{(\w+)\}")


def by_clauses(program):
    """The sentences that stand for no clause, that say more than theirs, or leave out a condition; and clauses that are told nowhere."""
    del program
    document = " ".join((TOP / "docs/claims.md").read_text(encoding="utf-8").split())
    wrong = [f"  {key!r} has no claim, or is none" for key in sorted(set(CLAIMS) ^ set(sentences.SENTENCES))]
    for key, claim in CLAIMS.items():
        text = sentences.SENTENCES.get(key, "")
        wrong += [f"  {key!r} is filled with {name}, which its answer doesn't tell" for name in FIELD.findall(text) if name not in claim.fields.split()]
        wrong += [f"  {key!r} lacks {word!r}" for word in claim.words if word not in text]
        wrong += [f"  {key!r}: docs/claims.md doesn't say {claim.clause!r}"] if claim.clause not in document else []
    every = [*sentences.SENTENCES.values(), *sentences.RULES.values(), *(text for reason in sentences.REASONS.values() for text in reason)]
    if " ".join((TOP / "docs/theorem.md").read_text(encoding="utf-8").split()).find(f"*{sentences.SENTENCES['theorem']}*") < 0:
        wrong.append("  the theorem isn't the sentence of docs/theorem.md")
    return "\n".join([*wrong, *(f"  says more than any clause: {text}" for text in every if MORE.search(text))]) or None


def each_rule(program):
    """The judge's rules that have no words, and words of rules that it hasn't; no word of them names anybody but the service."""
    del program
    wrong = [f"  {name}" for name in sorted({rule.word for rule in RULES} ^ set(sentences.RULES))]
    return "\n".join([*wrong, *(f"  {name}: {text}" for name, text in sentences.RULES.items() if set(FIELD.findall(text)) != {"service"})]) or None


def for_the_page(program):
    """Whether the page has the very sentences of weft."""
    del program
    is_same = (TOP / "web/page/sentences.mjs").read_text(encoding="utf-8") == sentences.module()
    return None if is_same else "  web/page/sentences.mjs isn't what weft/sentences.py says: `python3 -m weft.sentences > web/page/sentences.mjs`"


# ---- the same answers, by weft and by the page

OF = {"verify": "proof", "strict": "proof", "checkmap": "map", "checkfork": "fork", "contradict": "contradiction"}
A_MAP = {"service": "shop", "step": 3, "peer": "bank"}


def answers():
    """The texts of the vectors that both are asked about, each once; those of maps are said to be of one step."""
    found = {}
    for path in sorted((TOP / "vectors").glob("*.json")):
        for it in json.loads(path.read_text(encoding="utf-8")).get("vectors", ()):
            of = OF.get(it.get("words", [""])[0])
            if of is None or it["status"] not in (0, 1):
                continue
            if it["status"] == 1:
                of = "reason" if of in ("proof", "fork") else None
            if of and is_plain(it["text"]):
                found[of, it["text"]] = {"of": of, "text": it["text"], **(A_MAP if of == "map" else {})}
    return list(found.values())


def is_plain(text):
    """Whether each event is a text that both show alike: of few letters, without quotes, backslashes and blanks in a row."""
    for line in text.splitlines():
        words = line.split(" ")
        if words[0] == "event" and not re.fullmatch(r"[A-Za-z0-9,:;()-]{1,16}( [A-Za-z0-9,:;()-]{1,16}){0,3}", bytes.fromhex(words[4].replace("-", "")).decode("utf-8", "replace")):
            return False
    return True


def by_weft(answer):
    """What weft says of an answer."""
    verdict = Verdict(1 if answer["of"] == "reason" else 0, answer["text"])
    if answer["of"] == "reason":
        return [text for text in reports.reason_sentence(verdict) if text]
    if answer["of"] == "contradiction":
        return [text.partition("CONTRADICT EACH OTHER: ")[2] or text for text in reports.contradiction_sentences(verdict, "a", "b")]
    report = reports.read_report(verdict)
    if answer["of"] == "map":
        return reports.map_sentences(report, answer["service"], str(answer["step"]), answer["peer"])
    return [text.replace(", by this way:", ".").removeprefix("What to do: ") for text in reports.sentences(report) if not text.startswith("  ")]


def apart(texts):
    """The sentences of texts, in the order of their letters."""
    joined = " ".join(texts).replace("“", '"').replace("”", '"')
    return sorted(re.split(r"(?<=[.?]) ", joined))


def said_alike(program):
    """Answers of which weft and the page say something else."""
    del program
    asked = answers()
    text = "".join(f"{json.dumps(it)}\n" for it in asked)
    try:
        words = [needs("node", "nodejs"), TOP / "tests/acceptance/harness/said.mjs"]
    except Skipped:
        return None
    done = subprocess.run(words, input=text, capture_output=True, text=True, timeout=300, check=False)
    told = [json.loads(line) for line in done.stdout.splitlines()]
    if done.returncode or len(told) != len(asked):
        return f"  {done.stderr[-2000:]}"
    if len({it["of"] for it in asked}) < 5 or len(asked) < 100:
        return f"  only {len(asked)} answers"
    wrong = [(it, apart(by_weft(it)), apart(page)) for it, page in zip(asked, told) if apart(by_weft(it)) != apart(page)]
    return "\n".join(f"  {it['of']} {it['text'][:300]!r}\n  weft {weft}\n  page {page}" for it, weft, page in wrong[:3]) or None


def headlines(program):
    """What is said first, where it isn't one of the few: what is shown, shown in part, or nothing, since it isn't, or wasn't judged."""
    del program
    found = list(sentences.HEADLINES.values())
    return None if found == ["shown", "shown in part", "not shown", "not judged"] else f"  {found}"


def cases():
    checks = {
        "each sentence by its clause": by_clauses, "each rule": each_rule, "the page has weft's": for_the_page, "weft and the page say the same": said_alike,
        "what is said first": headlines,
    }  # fmt: skip
    yield from checked("said", checks)
