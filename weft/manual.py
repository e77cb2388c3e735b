"""The manual page, made of what the code says: the words with their help, and the statuses.

    python3 -m weft.manual > weft/weft.1"""

from __future__ import annotations

import argparse
import os
import textwrap
from typing import Iterator

from weft import __version__
from weft.main import ABOUT
from weft.output import say_whole
from weft.statuses import MEANINGS
from weft.words import WORDS, module_of

DESCRIPTION = """The program judges where the library can't be loaded or doesn't judge what is asked. The Python reference, which is tested and not proved, judges as well where it is there, and a difference ends with a status of its own. A verdict names its judge: as proved where its file has the prover's mark, and by a digest to compare with the release's. With
.B \\-\\-reference
it judges alone.
.PP
Sentences go to standard output, troubles with what to do to standard error; with
.B \\-\\-json
there is JSON in their place. On a terminal long work shows how far it is. At each moment a file that is written is the old one or the new one, whole; one that only grows may end amid what was added last, which counts for nothing.
Runs on one service or one box wait for one another by a lock, 30 seconds or those of
.BR \\-\\-wait .
What a stopped run left undone, the next one does. No file is read that isn't
regular, and none before its size was looked at. Names and events that can't be printed are told in escapes.
.PP
In examples
.I ..
stands for what is left out."""

BOX = """A box has a folder for each peer, named as its service:
.TP
.I BOX/PEER/in
What the peer put out, as it was carried here: what stands in the peer's own
.IR out .
It may be lost, late, repeated or damaged. No link in it is followed, and at most 64 files of 4 MiB together are read a turn. What is there and can't be
read is told, and counts.
.TP
.I BOX/PEER/out
What is to be carried to the peer's
.IR in .
The last step stands in
.IR message ,
since the step that the peer recorded, in
.IR next ,
since that of the message before, and in
.IR line ,
signed. Of the peer's last message there is the
.I receipt
or the
.IR refusal .
By
.IR yours ,
its last line that is recorded here, it finds an old store that was put back; by
.IR seen ,
signed lines of others, services with two histories are found; and by
.I receipts
the ways for proofs. There are also
.I requests
and
.IR answers .
.TP
.I BOX/PEER/kept
What is kept of it: its lines, all that it signed, receipts, answers. In
.I forks
are two signed lines that no one history has, with the link that shows it where their steps differ: evidence, while both signatures are good by a key that is noted. In
.I answered
stands what it was answered, and when.
.TP
.I BOX/PEER/events
Made by hand: the events whose proofs the peer may ask for, as
.B STEP INDEX
or
.BR "STEP *" ;
without it none. Proofs of received lines and links are handed out to each accepted peer; one that asks for those of another peer gets them once that one
has answered.
.TP
.I BOX/box.conf
Settings, as
.BR "key = FILE" ,
the key by which lines are signed;
.BR "unsigned = yes" ,
messages without a signed line are taken. So much is read of a peer in a turn:
.B files = 64
and
.BR "bytes = 4194304" .
After so many turns in which nothing new came of a peer that is told, 0 for never:
.BR "silent = 3" .
Over the web:
.B url PEER = URL
says where a peer publishes for you,
.B seconds = 120
how long it is asked a night,
.B publish = OUT
where you publish, and
.B open = PEER ..
(or *) for whom openly. Before anything is published
.B backup = FILE
is made, without the key, and before that an authority stamps the line:
.BR "stamp = URL" .
.TP
.I BOX/allowed_signers
Whose keys are whose, as of
.BR ssh\\-keygen (1);
.B weft accept \\-\\-key
adds to it."""

PUBLISHED = """What
.B weft publish
wrote into a folder
.IR OUT .
Nothing but its lines is signed, and nothing of it shows anything before a turn, or
.BR "weft judge" ,
has looked at it.
.TP
.I OUT/lines/NAME\\-STEP.line
A line that went out, its line end, and its signature by the service's key. It is never changed, and never taken away.
.TP
.I OUT/lines/index
These lines in the order in which they went out. What lacks in it shows nothing.
.TP
.I OUT/peers/PLACE/index
What the last turn put out for a peer: a line `timeweave-road 1 SERVICE PEER FILES`, and a line `SIZE SHA256 NAME` for each file, in the order of names. PLACE is 32 digits that were drawn,
or where that is open the peer's name. One that isn't whole is none. An old one brings what an earlier turn put out.
.TP
.I OUT/peers/PLACE/SHA256
The bytes of a file, written before the index that lists it, and taken away once neither that one nor the one before does.
.TP
.IR OUT/service ", " key.pub ", " index.html ", " timeweave.html
The service's name and public key, a page for people, and a copy of the page that checks proofs."""

KEPT = """Plain text: a line of a service, the day on which it was kept, and how it came. Empty lines and those that begin with # are skipped; a line with nothing
behind it counts as well. Of a step of which lines differ the file has marks, which name the authenticators: all that were seen, and where one was chosen, that one
first, when, and how it was found.
.PP
.nf
shop 2 5585fc74c8b89378088d61ce37d82efe4c25f9ab0bbeb79b20a4618dce62a486 2026\\-11\\-29T09:40:00Z by letter
contradiction: shop 2 5585fc74.. 16b1a2c0.. 2026\\-11\\-30T10:12:00Z
chosen: shop 2 5585fc74.. 16b1a2c0.. 2026\\-12\\-01T08:30:00Z asked shop by telephone
.fi
.PP
Stamps of lines stand in
.IR KEPT.stamps/SERVICE :
an authority's answer, and behind it those by which it was renewed, each of the line and all before it.
.PP
A signature of a line is made by
.B ssh\\-keygen \\-Y sign \\-n timeweave\\-line
over its exact text with its line end, and checked by
.BR "ssh\\-keygen \\-Y verify" ,
the principal being the service's name. In one file the line stands in front, and behind the signature's end nothing. A public key is read of a file of one
line, type, key and comment. A key whose line in the file of signers ends with
.B introduced\\-by=SHA256:..
counts while that one is noted there.
.PP
A file whose name begins with \\- is named as
.I ./\\-FILE
or behind
.BR \\-\\- ."""

# The options that several words have; the description tells them.
COMMON = {"--json", "--reference", "--wait"}

ANY = """Each word may end with 0, 2 to 9, 13, 14, 70 and 130; what else one ends with stands with it."""

VARIABLES = (
    ("TIMEWEAVE_PROGRAM", "The program timeweave, where it isn't the one on the path."),
    ("TIMEWEAVE_LIBRARY", "The library libtimeweave.so, where it isn't the installed one."),
    ("WEFT_KEPT", "The file of kept lines, where it isn't ~/.local/share/weft/kept (or under XDG_DATA_HOME)."),
    ("WEFT_AUTHORITIES", "The folder of time-stamping authorities, NAME.pem each, where it isn't ~/.config/weft/authorities (or under XDG_CONFIG_HOME)."),
    ("WEFT_SIGNERS", "The file of signers, where it isn't ~/.config/weft/allowed_signers (or under XDG_CONFIG_HOME)."),
)


def plain(text: str) -> str:
    """A text as troff prints it."""
    escaped = text.replace("\\", "\\e").replace("-", "\\-")
    return "\n".join("\\&" + line if line.startswith((".", "'")) else line for line in escaped.split("\n"))


def sentence(text: str) -> str:
    """A help text as a sentence."""
    return f"{text[:1].upper()}{text[1:]}."


def option_lines(action: argparse.Action) -> Iterator[str]:
    """A word or option of a command, with its help."""
    names = ", ".join(action.option_strings)
    metavar = action.metavar if isinstance(action.metavar, str) else " ".join(action.metavar or ())
    shown = f"{names} {metavar if action.nargs != 0 else ''}".strip()
    yield ".TP"
    yield f".B {plain(shown)}"
    yield plain(sentence(action.help or ""))


def usage(parser: argparse.ArgumentParser) -> str:
    """How a command is typed, in one line, without its options, which stand below."""
    taken = argparse.ArgumentParser(prog=parser.prog, add_help=False)
    for action in parser._actions:
        if not action.option_strings:
            taken._add_action(action)
    return " ".join(taken.format_usage().removeprefix("usage: ").split())


def word_lines(word: str) -> Iterator[str]:
    """The section of a word."""
    module = module_of(word)
    parser = argparse.ArgumentParser(prog=f"weft {word}", add_help=False)
    module.add(parser)
    yield f".SS {plain(usage(parser))}"
    yield plain(f"{sentence(WORDS[module.NAME])} {module.DETAILS}")
    yield from [".br", f"Status: {' '.join(str(int(status)) for status in module.STATUSES)}."] if module.STATUSES else []
    for action in parser._actions:
        if not COMMON.intersection(action.option_strings):
            yield from option_lines(action)
    yield ".PP"
    yield ".nf"
    for line in module.EXAMPLE.splitlines():
        yield f"$ {plain(line)}"
    yield ".fi"


def status_lines() -> Iterator[str]:
    """The table of statuses."""
    for status, meaning in MEANINGS.items():
        yield ".TP"
        yield f".B {int(status)}"
        yield plain(meaning)


def wrapped(lines: list[str]) -> Iterator[str]:
    """The lines of the page, its text filled to 120 columns; what is shown as it is stays."""
    is_shown = False
    text: list[str] = []
    for line in [*"\n".join(lines).split("\n"), "."]:
        is_shown = line == ".nf" or (is_shown and line != ".fi")
        if is_shown or line[:1] in ("", ".", "'"):
            yield from textwrap.wrap(" ".join(text), 120, break_long_words=False, break_on_hyphens=False)
            yield line
            text = []
        else:
            text.append(line)


def page() -> str:
    """The manual page."""
    os.environ["COLUMNS"] = "400"
    lines = [f'.TH WEFT 1 "" "weft {__version__}" "Timeweave"', ".SH NAME", "weft \\- lines, proofs, logs and exchanges of timeweave, in sentences"]
    lines += [".SH SYNOPSIS", ".B weft", ".I WORD ..", ".SH DESCRIPTION", plain(ABOUT), DESCRIPTION, ".SH WORDS"]
    for word in WORDS:
        lines += word_lines(word)
    lines += [".SH EXIT STATUS", ANY, *status_lines(), ".SH THE FILE OF KEPT LINES", KEPT, ".SH A BOX", BOX, ".SH A PUBLISHED FOLDER", PUBLISHED, ".SH ENVIRONMENT"]
    for name, meaning in VARIABLES:
        lines += [".TP", f".B {name}", plain(meaning)]
    lines += [".SH SEE ALSO", ".BR timeweave (1),", ".BR ssh\\-keygen (1),", ".BR flock (2)", ""]
    return "\n".join(list(wrapped(lines))[:-1])


if __name__ == "__main__":
    for line in page().splitlines():
        say_whole(line)
