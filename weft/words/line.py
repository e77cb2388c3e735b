"""`weft line`: the line of a service's last step."""

from __future__ import annotations

import argparse
from pathlib import Path
from typing import NamedTuple, Optional

from weft import cameras, files, introducing, judges, locks, parts, program, signatures
from weft.deciding import letters
from weft.deciding.signatures import PublicKey
from weft.deciding.standing import Command
from weft.deciding.worst import worst_of
from weft.lines import Line
from weft.output import say, say_json
from weft.own import OwnLines
from weft.recorded import is_log, strange_steps
from weft.standing import Going, Standing
from weft.statuses import Status
from weft.texts import beside, name_of, typed
from weft.trouble import Trouble
from weft.waiting import add_wait

NAME = "line"
DETAILS = (
    "The line is what others keep of the service: its name, the number of the step and its authenticator. Of a service without steps it is that "
    "of step 0. With --sign the line stands in a file, and beside it in a file .sig its signature by ssh-keygen: hand out both. What is printed is noted "
    "in DIR.lines, where that stands, as weft log and weft exchange note theirs, so that an old store that is put back is found."
)
STATUSES = (Status.LOOK, Status.BUSY, Status.OLD_STORE)
EXAMPLE = "weft line /srv/log > line\nweft line /srv/log --sign ~/.ssh/id_ed25519 --out log.line\nweft line /srv/log --letter letter.txt"


def add(parser: argparse.ArgumentParser) -> None:
    """The words."""
    parser.add_argument("folder", metavar="DIR", type=Path, help="the folder of the service")
    parser.add_argument("--sign", metavar="KEY", help="signs the line with this private key, or the public one of a key that ssh-agent has")
    introduces = "makes a step that names this new key, and beside the line in a file .key its introduction, signed by the old key, which --sign names"
    parser.add_argument("--introduce", metavar="KEY.pub", help=introduces)
    parser.add_argument("--out", metavar="FILE", help="writes the line to this file; with --sign it is NAME-STEP.line where none is named")
    parser.add_argument("--letter", metavar="FILE", help="writes it for a letter: in groups, with letters that check them; in FILE.svg as a code for cameras (Debian: python3-qrcode)")
    add_wait(parser)
    parser.add_argument("--json", action="store_true", help="writes JSON")


def run(options: argparse.Namespace) -> Status:
    """Notes the line, and prints it."""
    folder = files.folder_named(options.folder)
    files.expect_folder(folder, "the folder of the service")
    parts.expect_whole(folder)
    key = introduced_key(options) if options.introduce else None
    expect_beside(options, options.out)
    with locks.held(beside(folder, ".lock"), options.wait, folder):
        named = introducing.name_key(folder, key) if key is not None else None
        line, going = noted_line(folder)
    text = f"{line.text}\n".encode()
    out = options.out or (files.unchosen(f"{line.service}-{line.step}.line", text) if options.sign else None)
    written = []
    expect_beside(options, out)
    signed = signatures.sign(line, options.sign) if options.sign else None
    introduction = introducing.introduction_of(named, key, options.sign) if named is not None and key is not None else None
    # The line comes first: where a run is stopped behind it, the next one knows by it that what stands beside it is its own.
    if out:
        files.hand_out(Path(out), text)
        written.append(out)
    if signed is not None:
        files.hand_out(f"{out}.sig", signed.signature)
        written.append(f"{out}.sig")
    if introduction is not None:
        files.hand_out(f"{out}.key", introduction)
        written.append(f"{out}.key")
    drawn = write_letter(line, options.letter) if options.letter else False
    written += [options.letter, *([f"{options.letter}.svg"] if drawn else [])] if options.letter else []
    if options.json:
        say_json({**line._asdict(), "files": [str(path) for path in written], "doubt": going.doubt, "status": int(going.status)})
    else:
        say(line.text)
        if options.letter:
            say(f"{name_of(options.letter)} has it for a letter{f', {name_of(options.letter)}.svg as a code for cameras' if drawn else f', and {cameras.NONE}'}.")
        if named is not None:
            say(f"Hand out {name_of(written[0])} with .sig and .key; who has your old key notes the new one by: weft keep {typed(written[0])} --introduced {typed(written[2])}")
            say("With peers: weft accept BOX NAME LINE --introduced FILE. From now on sign by the new key: key = FILE in box.conf.")
        elif options.sign:
            say(f"Hand out {name_of(written[0])} and {name_of(written[1])}; who has your key for {line.service} keeps it by: weft keep {typed(written[0])}")
    going.tell()
    return going.status


def expect_beside(options: argparse.Namespace, out: Optional[str]) -> None:
    """Raises Trouble where what comes beside a file that is handed out would be written over what isn't its own."""
    named = [(out, ".sig", options.sign), (out, ".key", options.introduce), (options.letter, ".svg", options.letter)]
    for path, end, is_wanted in named:
        if path and is_wanted:
            files.expect_beside(path, end)


def introduced_key(options: argparse.Namespace) -> PublicKey:
    """The new key; raises Trouble where no old one is named, or the new one is that."""
    program.refuse_second(False)
    if not options.sign:
        raise Trouble(Status.USAGE, "--introduce is signed by the old key", "Name that by --sign.")
    key = signatures.public_key(options.introduce)
    if signatures.public_half(Path(options.sign)) == key:
        raise Trouble(Status.USAGE, f"{name_of(options.introduce)} is the key of --sign itself", "Name the new one: ssh-keygen -t ed25519 -f FILE makes it.")
    return key


def write_letter(line: Line, path: str) -> bool:
    """Writes a line as a letter has it, and its code for cameras where that can be drawn; answers whether it was."""
    head, tail = letters.ABOVE.format(step=line.step, service=line.service), letters.BELOW
    files.hand_out(path, "\n".join([head, "", *letters.write_letter(line), "", tail, ""]).encode())
    code = cameras.code_of(line.text)
    if code is not None:
        files.hand_out(f"{path}.svg", code)
    return code is not None


class Noted(NamedTuple):
    """The last line of a service, and how this word goes on by what is known against it."""

    line: Line
    going: Going


def noted_line(folder: Path) -> Noted:
    """The last line of a service, noted among those that stand beside it as one that may have gone out; raises Trouble where the store isn't the one of these
    lines, or of those that its user keeps. Where none stands there, none is noted: a store that was copied alone stays one that nobody has named. That of step 0, which
    the name alone makes, isn't noted either."""
    standing = Standing(folder, judges.bench())
    going, last = standing.expect(Command.LINE, "No line was printed"), standing.last
    own = OwnLines(last.folder)
    strange = strange_steps(last, own.last()) if is_log(standing.parts[0]) else None
    if strange is not None:
        going = going._replace(status=worst_of([going.status, Status.LOOK]), told=[*going.told, strange])
    if last.last.step and own.is_there:
        own.note(last.last)
    return Noted(last.last, going)
