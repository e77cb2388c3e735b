"""The library for C and Python, asked in this very process for each proof that a case has the program judge."""

import subprocess
import timeweave

from harness.places import TOP
from harness.rooms import Skipped, Wrong

ARCHIVE, SHARED = TOP / "lib/libtimeweave.a", TOP / "lib/libtimeweave.so"
# The statuses with which the program has judged a proof, or its anchors.
JUDGED = (timeweave.ACCEPTED, timeweave.REJECTED, timeweave.BAD_ANCHORS)

# What C tries: at most so many questions, some of each status and text.
MOST = 400

# By the form of a record for C the function of the library that it is for.
FUNCTIONS = {
    "v": "timeweave_verify", "s": "timeweave_strict", "m": "timeweave_checkmap", "f": "timeweave_checkfork", "c": "timeweave_contradict",
    "r": "timeweave_receiver",
}

# The commands that the library knows besides, each with its form and the names that texts of the library have for its files.
REACHING = {"checkmap": ("m", ("low", "high", "anchors")), "checkfork": ("f", ("evidence", "anchors"))}


def is_built():
    return ARCHIVE.exists() and SHARED.exists()


# ---- what the library is asked, as rows: the form, the status and the text that it has to answer, and the files


def asked_of(words, files):
    """The form and the files of words that ask for a verdict; the anchors of one line are that line."""
    if words[:1] == ["verify"] and len(words) == 5:
        return "v", [files.get(words[1]), " ".join(words[2:]).encode(errors="surrogateescape")]
    if words[:1] in (["verify"], ["strict"]) and len(words) == 3:
        return words[0][0], [files.get(word) for word in words[1:]]
    if words[:1] and words[0] in REACHING and len(words) == 1 + len(REACHING[words[0]][1]):
        return REACHING[words[0]][0], [files.get(word) for word in words[1:]]
    return None, [None]


def row_of(words, files, status, output):
    """What the library is asked where the program is asked so, and what it has to answer; or None. In the library's text the files have names of their own."""
    form, given = asked_of(words, files)
    if form is None or None in given or status not in JUDGED:
        return None
    if status == timeweave.BAD_ANCHORS and form in "vs":
        output = b"unreadable anchors line " + output.split(b" ")[-1]
    elif status == timeweave.BAD_ANCHORS:
        told = output.split(b" ")
        own = [name for name, word in zip(REACHING[words[0]][1], words[1:]) if word.encode(errors="surrogateescape") == told[1]]
        if len(own) != 1:
            return None
        output = b" ".join([told[0], own[0].encode(), *told[2:]])
    return form, status, given, output


def judge(form, files):
    """What the library answers to the files of a form."""
    return timeweave.library().judge(*files, form == "s") if form in "vs" else timeweave.library().ask(FUNCTIONS[form], *files)


def written(report):
    """The lines of a report, made of what the module for Python has taken out of them."""
    lines = [f"accepted {report.kind}"]
    for event in report.events:
        lines.append(f"event {event.service} {event.step} {event.index} {event.data.hex() or '-'}")
        if event.time is not None:
            lines.append(f"time {event.service} {event.step} {event.time}")
    if report.received:
        at, thread = report.received, report.received.thread
        lines.append(f"thread {at.service} {at.step} {thread.service} {thread.step} {thread.authenticator.hex()} {at.archived}")
    if report.absent:
        lines.append(f"absent {report.absent.service} {report.absent.step} {report.absent.of_service} {report.absent.of_step}")
    if report.link:
        thread = report.link.thread
        lines.append(f"link {thread.service} {thread.step} {report.link.top} {thread.authenticator.hex()}")
    lines += [f"hop {hop.service} {hop.step} {hop.by} {hop.archived}" for hop in report.hops]
    lines += [f"carried {thread.service} {thread.step} {thread.authenticator.hex()}" for thread in report.carried]
    return "".join(f"{line}\n" for line in lines)


def taken_apart(status, text):
    """The text, made of what the module for Python makes of it."""
    try:
        return written(timeweave.answer_of(status, text))
    except timeweave.Rejected as reason:
        return " ".join(["rejected", str(reason.number), reason.name, *reason.fields]) + "\n"
    except timeweave.BadAnchors as bad:
        return f"unreadable anchors line {bad.line}\n"
    except ValueError as wrong:
        return str(wrong)


def taken_apart_of(function, status, text):
    """The text of an answer on maps, evidence or a contradiction, made of what the module for Python makes of it."""
    try:
        return written_reached(timeweave.read_answer(function, status, text))
    except (timeweave.Rejected, timeweave.BadAnchors, timeweave.BadFile) as reason:
        head = "rejected" if isinstance(reason, timeweave.Rejected) else "unreadable"
        return f"{head} {'anchors ' if vars(reason).get('file') == 'anchors' else ''}{reason}\n"


def written_reached(made):
    """The lines of what the module for Python has taken out of the text of maps, of evidence or of a contradiction."""
    if isinstance(made, timeweave.Bounds):
        return f"accepted map\nlow {made.low}\nhigh {'none' if made.high is None else made.high}\nupto {made.upto}\n"
    if isinstance(made, timeweave.Fork):
        lines = [(head, it.thread, it) for head, it in (("first", made.first), ("second", made.second))]
        told = [f"{head} {thread.service} {thread.step} {thread.authenticator.hex()} {it.by} {it.archived}\n" for head, thread, it in lines]
        return "accepted fork\n" + "".join(told)
    head = "broken-rule" if made.is_joined else "broken-rule-or-fork"
    rule = "" if made.rule == timeweave.DENIED else f"rule {made.number} {made.rule}\n"
    return f"accepted {head}\n{rule}" + "".join(map(written_said, made.said))


def written_said(said):
    """The line of what a file says that breaks a rule, as the module for Python has taken it apart."""
    if isinstance(said, timeweave.Received):
        thread = said.thread
        return f"thread {said.service} {said.step} {thread.service} {thread.step} {thread.authenticator.hex()} {said.archived}\n"
    if isinstance(said, timeweave.Absent):
        return f"absent {said.service} {said.step} {said.of_service} {said.of_step}\n"
    if isinstance(said, timeweave.ShownStep):
        time = "-" if said.time is None else said.time
        return f"step {said.service} {said.step} {said.authenticator.hex()} {said.count} {time}\n"
    return f"{said.what} {said.service} {said.step} {said.digest.hex()}\n"


def row_difference(row):
    """What the library answers else than it has to, or the module for Python makes else of it, or None."""
    form, status, files, text = row
    found = judge(form, files)
    if found != (status, text):
        return f"  wanted {status} {text!r}\n  the library answers {found}"
    again = taken_apart(status, text.decode()) if form in "vs" else taken_apart_of(FUNCTIONS[form], status, text.decode())
    return None if again == text.decode() else f"  of {text!r}\n  the module for Python makes {again!r}"


def difference(words, files, status, output):
    """What the library answers else than the program did, or None."""
    row = row_of(words, files, status, output) if is_built() else None
    return row_difference(row) if row else None


# ---- in C


def chosen(rows):
    """Some of these rows, most of them of different texts, as the file that library_calls.c reads."""
    groups = {}
    for form, status, files, text in rows:
        groups.setdefault((form, status, *text.split(b" ")[:3]), []).append((form, status, *files, text))
    least = [row for group in groups.values() for row in group[: max(2, MOST // len(groups))]][:MOST]
    spans = lambda row: b"".join(len(data).to_bytes(4, "big") + data for data in row[2:])  # noqa: E731
    return b"".join(row[0].encode() + bytes([row[1]]) + spans(row) for row in least)


def wanted_version():
    return (TOP / "VERSION").read_text().strip()


def built_library():
    if not is_built():
        raise Skipped("the library isn't built: `make lib`")


def checked_run(command, **settings):
    done = subprocess.run(command, capture_output=True, text=True, timeout=600, **settings)
    if done.returncode:
        raise Wrong(f"  {' '.join(map(str, command))}\n  status {done.returncode}\n{done.stdout[-3000:]}{done.stderr[-3000:]}")
    return done.stdout
