"""What weft and the page say of an answer: each sentence stands here once, and tests/texts/cases/said.py has the claim that each stands for.

    python3 -m weft.sentences > web/page/sentences.mjs    hands them to the page

What stands in braces is filled with names, numbers and digits of the answer; an event is set apart where it is shown. No sentence says more than the clause of
its answer: what hangs on a service that keeps the rules says so, and what its receiver alone vouches for does."""

from __future__ import annotations

import json
from typing import NamedTuple

from weft.deciding.choosing import Headline
from weft.output import say_whole

# What is said first. Of what isn't shown, and of what isn't judged, nothing is shown.
HEADLINES = {it.name: it.value for it in Headline}

SENTENCES = {
    # what an accepted file shows
    "event": "{service} recorded in its step {step}, as event {index}: {event}.",
    "file": "the file {path} (SHA-256 {digest})",
    "unnamed file": "a file (SHA-256 {digest})",
    "time": "{service} claims the time {time} for its step {step}; whether that is right isn't shown.",
    "order": "The first came before the second",
    "order in one history": "The first came before the second: step {first} is before step {second} in one history.",
    "hop": "{by} received step {step} of {service} at its step {archived}",
    "bound": "Every hop is bound by a line that you hold.",
    "carried": "Not shown: only {by} says that step {step} of {service} was so, and could have made it up.",
    "on a word": "on somebody's word",
    "by word": "By {whose} word alone: {told}",
    "word order": "By that word, too, it came before step {step} of {service}",
    "shown by lines": "Shown by the lines that counted: {told}",
    "both by lines": "Shown by the lines that counted: both events, each in its own service's history.",
    "account": "Shown by them, too: {by} received this account of step {step} of {service} at its step {archived}.",
    "ask for links": "Ask whoever sent it for the same proof with links from {steps}, each to a line of that service that you hold, of the same step or a later one. Such a line "
    "you get from somebody who kept it, and is neither that service, nor {by}, nor the sender.",
    "thread": "{service} had received step {received} of {peer}, authenticator {authenticator}, by its step {step}, at its step {archived}.",
    "maker": "Whether {peer} made that line isn't shown.",
    "absent": "{service} had received no step {absent} of {peer} up to its step {step}, if it kept the rules; an audit of its history shows whether it did.",
    "link": "Step {step} of {service}, seen from its step {top}, has the authenticator {authenticator}: both lines are of one history.",
    "map": "If {service} and {peer} kept the rules: before its step {step}, {service} {before}. {after} An audit of their histories shows whether they did.",
    "none before": "had received no step of {peer}",
    "last before": "had received step {low} of {peer}, and no later one",
    "first after": "Step {high} of {peer} is the first that received step {step} of {service} or a later one.",
    "none after": "Up to its step {upto}, {peer} received neither step {step} of {service} nor a later one.",
    "behind": "Of steps of {peer} behind {upto} nothing is shown.",
    # a file that is compared with the events
    "same file": "{file} is that file, by its digest and name.",
    "same file as": "{file} is the file that was logged as {which}, by its digest and name.",
    "renamed file": "{file} has the digest that was logged, under the name {names}.",
    "renamed file as": "{file} has the digest that was logged as {which}, under the name {names}.",
    "earlier event": "the earlier event",
    "later event": "the later event",
    "not this file": "recorded, but not this file",
    "other file": "{file} is another file than the one that was recorded.",
    "namesake": "{file} is another file of the same name: the one that was recorded has another digest.",
    "other file than both": "{file} is another file: neither that of the earlier event nor that of the later one.",
    "digest recorded": "recorded: {digest}",
    "digest given": "yours:    {digest}",
    "other version": "Another version of a file, or one that was saved anew, has another digest: ask for the very file that was logged.",
    "as no file": "recorded, but as no file",
    "no file": "The event is no entry of a log of files: {told}.",
    "no files": "Neither event is an entry of a log of files: {told}.",
    "unread file": "{file} can't be read, so whether it is the file that was logged isn't seen.",
    "no event": "It is no proof of an event, so {file} isn't compared with it.",
    "no document": "no document compared",
    "document not given": "You gave no document: whether your {names} is the file that was recorded isn't judged.",
    # what isn't judged
    "no format": "{file} is no file of Timeweave, so nothing of it is judged.",
    "is it the document": "Is it the document itself? Then its proof is missing, by which it is compared with what was recorded: ask whoever sent it for that.",
    "without proof": "{file} isn't compared with anything: no proof of an event is here.",
    "proof not judged": "{file} isn't compared with anything yet: the proof above isn't judged.",
    "proof not accepted": "{file} isn't compared with anything: no proof of an event above is accepted.",
    # evidence of two histories
    "received": "{by} received step {step} of {service}, authenticator {authenticator}, at its step {archived}.",
    "no history": "No history of {service} has both: two were shown in its name, or a receiver made one up.",
    "two receivers": "Who broke a rule isn't shown: {service} may have, or whoever gave {first} and {second} these lines, or one of both. Ask both.",
    "one receiver": "Both were received by {by} alone, who could have made up both: against {service} nothing is shown. Ask for evidence of two receivers.",
    "broken receiver": "{by}, which received both, broke a rule by that, whoever made them: {rule}. Against {service} nothing is shown.",
    # files that contradict each other
    "denied": "By one {service} received step {step} of {peer} at its step {archived}, by the other it had received no such step up to its step {upto}.",
    "broken rule": "Between them they show rule {number} of histories, {name}, broken: {said}.",
    "one line": "Both are under one line of {service}, or a link joins their lines: whoever keeps {service} broke its rules.",
    "two lines": "They are under two lines of {service}: it broke its rules, or it has two histories, or one of both lines isn't its own. Ask it for the link between "
    "these lines, and name that beside them.",
    "nobody else": "Against the others that they name nothing is shown.",
    "keep files": "Keep both files and the lines: they are the evidence for whoever holds these lines to be its own.",
    # a file that contradicts itself
    "broken by itself": "It CONTRADICTS ITSELF, as it shows rule {number} of histories, {name}, broken: {said}.",
    "one file": "Whoever keeps {service} broke its rules, so nothing is shown. Keep the file and the lines: they are the evidence.",
    # lines beside those that were kept
    "same line": "That is the line of step {step} of {service} that you kept: one history.",
    "other line": "the line of step {step} of {service} that you kept{came} is another one than {told}.. of this file: {service} has shown two histories, or one of both "
    "isn't {service}'s.",
    "own lines": "two of your lines contradict each other",
    "line and file": "a line of yours contradicts the file",
    "own lines told": "Two of your lines of {service} contradict each other: this file goes with the one of step {other}, and against the one of step {step}.",
    "two histories": "{service} has shown two histories, or one of both lines isn't its own.",
    "in doubt": "Until that is settled, other verdicts that rest on lines of {service} are in doubt too.",
    "keep both": "Keep what you were sent and both lines, and show them to others who hold lines of {service}: which of both do they have? Ask {service} too.",
    "told twice": "{first} tells {one}.. of step {step} of {service}, and {second} {other}..: {service} has shown two histories, or one of both isn't its own.",
    # what a verdict rests on, and what it doesn't show
    "theorem": "What the program prints of an accepted proof is so in every list of sound histories that has each of your lines of a service that it names, and each thread that it tells "
    "as carried. Or two different texts of a named list have one SHA-256 digest.",
    "assume lines": "Each line that is named here is its service's own. Whoever judged has it as it is said beside it; it is worth as much as the way on which it came.",
    "assume rules": "Each of these services kept the rules that histories have. Of one that broke them nothing is said; an audit of its whole history shows whether it did.",
    "assume digests": "Nobody has found two different texts with one SHA-256 digest. Nobody is known to have.",
    "assume proved": "The judge is the one of the digest below. That what it accepts is so is proved of its source; its compiler, the system and the machine are trusted.",
    "assume tested": "The judge is a second implementation, which is tested and not proved.",
    "not who": "Not who. A service's name is a word that it chose. Who keeps it, who recorded an event, and who sent a file, isn't judged.",
    "not the day": "Not the day by a clock. Steps stand in an order. A time that is told is its service's own claim, and the day of a stamp its authority's.",
    "not of broken rules": "Nothing of a keeper who broke the rules that histories have, such as that a time isn't below an earlier one.",
    "not what else": "Not what else there is. What a service recorded besides, and whether an event's content is so, isn't told.",
    # stamps of lines by time-stamping authorities
    "stood by": "The line of step {step} of {service} stood by {day}, says {authority} (checked by openssl, not proved).",
    "renewed": "Its own certificate counts no more, and the stamp was renewed while it did.",
    "event stood by": "Event {index} of step {step} of {service} was recorded not after {day}, if {authority} is right.",
    "history stood by": "What {service} recorded up to its step {step} was there not after {day}, if {authority} is right.",
    "whose stamp": "A stamp doesn't say whose a line is: anybody can have any line stamped, and several that contradict each other.",
    "stamp of": "A stamp of the line of step {step} of {service} gives no day: {told}",
    "stamp foreign": "it is of no authority whose certificate you trust. Ask the authority for that, and not whoever sent the stamp: weft keep --authority NAME FILE.",
    "stamp expired": "the certificate of {authority} has expired. It tells {day}, and whoever has its key by now could have made it; renewed in time, it would count.",
    "stamp revoked": "the certificate of {authority} was revoked: whoever has its key could have made it.",
    "stamp other": "it is of another text.",
    "stamp weak": "it names its text by a digest that is too weak ({said}).",
    "stamp changed": "it was changed, or isn't one that counts ({said}).",
    "stamp unchecked": "it couldn't be checked, and nothing is said of it ({said}).",
    # values that nobody knew before a day
    "event not before": "Event {index} of step {step} of {service} was recorded not before {day}, if nobody knew what is in {file} earlier (not proved).",
    "beacon unmet": "{file} is no event of this proof, so it tells no day.",
    "beacon unshown": "What isn't shown by your lines alone has no day by a beacon.",
    "days crossed": "Event {index} of step {step} of {service} would have been there before it could be: the authority's clock is wrong, or the beacon's day.",
    # lines that came in one file with a proof
    "no bundle": "{file} is no bundle of weft: {why}",
    "unfit long": "it is longer than a bundle may be",
    "unfit end": "its end isn't that of a zip file, or something stands behind it, as a comment",
    "unfit place": "its directory doesn't stand behind its files, or something stands before or between them",
    "unfit name": "it has a name that no bundle has, as a path",
    "unfit twice": "it has a name twice",
    "unfit packed": "a file in it is packed, locked, a link, or not as weft bundle writes it",
    "unfit changed": "a file in it was changed or cut",
    "unfit lacks": "it lacks a proof, lines or the text for its reader",
    "ask for bundle": "Ask for it again, as weft bundle wrote it.",
    "bundle apart": "{file} has two files that aren't judged together",
    "bundle many lines": "{file} has {count} lines, and {most} are read",
    "bundle yours": "The line of step {step} of {service} in the file is the one that you kept.",
    "bundle key": "The line of step {step} of {service} in the file is signed by a key that you noted of {service}: {by}.",
    "bundle stamp": "That the line of step {step} of {service} in the file is {service}'s only the sender says: an authority says that it was there, and not whose it is.",
    "bundle sender": "The line of step {step} of {service} in the file is the sender's alone: nothing is judged under it.",
    # lines that somebody typed
    "digits short": "The line of step {step} of {service} ends short, after {count} of 64 digits: {said}.",
    "digits long": "The line of step {step} of {service} has {count} digits, and not 64: {said}.",
    "digit wrong": "The line of step {step} of {service} has {said}, and its digits are 0 to 9 and a to f.",
    "row check": "Typed rightly? Row {row} of the line of step {step} of {service} and its two letters don't fit: compare them with what you have them from.",
    "row guess": "If one digit is wrong, it is in that row {said}.",
    "whole check": "Typed rightly? The line of step {step} of {service} and its last four letters don't fit: compare its name, its step and each row.",
    "digits alone": "In line {number} of it {count} digits stand behind no name and step of a service.",
    "amid words": "Other words stand beside the line of step {step} of {service}, which may say anything of it: {digits}.",
    "typed rightly": "typed rightly?",
    "slip": "Typed rightly? With {right} in the place of {wrong} at {where} the line of step {step} of {service} that you hold would be the one that this file needs: compare it with what "
    "you have it from.",
    "slip between": "Typed rightly? Two lines of step {step} of {service} differ at {where} alone ({one} and {other}): compare each with what you have it from, before you think of two histories.",
    # lines that are missing
    "missing": "The line of step {step} of {service} is missing.",
    "ask others": "ask somebody who kept it, and is neither {service} nor whoever sent you this file",
    "only now": "A line that you get only now shows nothing about the time before.",
}


class Reason(NamedTuple):
    """Why something isn't accepted, and what to do."""

    sentence: str
    todo: str


# By the names of the judge's reasons; a number in braces stands for a field behind the name.
REASONS = {
    "Malformed": Reason("The file is no proof: it is cut short or was changed at byte {0}.", "Ask for it again, packed or attached as it is."),
    "BadOrder": Reason("Its steps aren't in order: what it claims to come first doesn't.", "Ask for it again."),
    "NotHeld": Reason(
        "You hold no line of {0} at step {1}.",
        "Ask for the proof under a step of which you do, or for that line somebody who is neither {0} nor the sender.",
    ),
    "BadPath": Reason(
        "It isn't of the history of your lines (part {0}): it was changed, or a line isn't its service's, or the service has two histories.",
        "Ask others who hold lines of that service which line of that step they have, and ask for the proof again.",
    ),
    "BadOpening": Reason("It was changed, or its store is damaged (part {0}).", "Ask for it again."),
    "BadEvent": Reason("The event isn't the one of that step (part {0}): it was changed, or its store is damaged.", "Ask for it again."),
    "BadTree": Reason("What it tells of received lines isn't so (part {0}): it was changed, or its store is damaged.", "Ask for it again."),
    "Carried": Reason(
        "{0} of its hops are carried: in this proof only the receiver says that the step is the other service's.",
        "Ask for links, or judge with --carried.",
    ),
    "Part": Reason("The proof of thread {0} in it isn't accepted (reason {1}).", "Ask for the evidence again."),
    "NoConflict": Reason("The two lines in it aren't shown to contradict each other: nothing is shown against anybody.", ""),
    "BadLink": Reason("Its link isn't of the history with the later thread.", "Ask for another link."),
    "Gap": Reason("The files aren't of one step, one service and one peer.", "Ask for the other file of the same step."),
}

# What it means that a rule of histories is broken, by the names of the judge's rules.
RULES = {
    "Denied": "{service} received a step by the one file, and by the other it hadn't by then",
    "OwnThread": "{service} received a line of its own",
    "ReceivedLater": "the archive of a step of {service} has what a later step received",
    "TwoEntries": "{service} received one step of a peer twice, or with two authenticators",
    "TwoAtOneStep": "one step of {service} received two lines",
    "StepsFall": "{service} received a lower step of a peer behind a higher one",
    "EventsToo": "a step of {service} that received a line has events",
    "ClockBack": "a later step of {service} claims an earlier time",
    "TwoAuthenticators": "one step of {service} has two authenticators",
    "OtherThanLine": "a step of {service} has another authenticator than its line",
    "TwoLines": "there are two lines of one step of {service}",
    "OtherBefore": "a step of {service} doesn't go on from the step before it",
    "OtherBeforeLine": "a step of {service} doesn't go on from the line of the step before it",
    "OtherGenesis": "the first step of {service} doesn't go on from its name",
    "OtherEmptyRoot": "a step of {service} has a root of events that doesn't fit their number",
}


def fill(key: str, **values: object) -> str:
    """A sentence with what is filled in."""
    return SENTENCES[key].format(**values)


def capital(text: str) -> str:
    """A text that begins with a capital letter."""
    return text[:1].upper() + text[1:]


def module() -> str:
    """The module of JavaScript that hands all of them to the page."""
    tables = {"HEADLINES": HEADLINES, "SENTENCES": SENTENCES, "REASONS": {name: it._asdict() for name, it in REASONS.items()}, "RULES": RULES}
    head = "/** What weft and the page say of an answer, made by `python3 -m weft.sentences` of the one source, weft/sentences.py. */\n"
    return head + "".join(f"\nexport const {name} = {json.dumps(table, indent=4, ensure_ascii=False)};\n" for name, table in tables.items())


if __name__ == "__main__":
    for line in module().splitlines():
        say_whole(line)
