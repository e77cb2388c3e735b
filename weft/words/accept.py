"""`weft accept`: a person confirms a new peer."""

from __future__ import annotations

import argparse
import re
import sys
from pathlib import Path
from typing import NamedTuple, Optional

from weft import box as boxes
from weft import files, formats, hearing, lines, locks, signatures
from weft.box import Peer, Settings
from weft.deciding.forks import contradicts
from weft.deciding.going_on import is_name_of_part
from weft.deciding.signatures import Signed, read_signed_line
from weft.lines import Line
from weft.output import collect, finish_quietly, say
from weft.statuses import Status
from weft.texts import name_of
from weft.trouble import Trouble
from weft.words import keep

NAME = "accept"
DETAILS = (
    "Makes the peer's folders, notes its public key (--key), and accepts it by the line that its waiting message tells. Compare that line with what "
    "the peer gave you by another way (by telephone, on paper, on its page), or name a file that has it: then both have to be the same. Where a key of "
    "the peer is noted, its line has to be signed by it too, unless the box takes unsigned messages. Further parts of a peer need no word; another key is noted "
    "of the last one."
)
STATUSES = (Status.NOT_SHOWN, Status.LOOK, Status.CONTRADICTION, Status.MISSING, Status.BUSY)
EXAMPLE = "weft accept /srv/box bank --key bank_key.pub\nweft accept /srv/box bank bank.line"
AUTHENTICATOR = re.compile("[0-9a-fA-F]{64}")


def add(parser: argparse.ArgumentParser) -> None:
    """The words."""
    parser.add_argument("box", metavar="BOX", type=Path, help="the box")
    parser.add_argument("peer", metavar="PEER", help="the peer's name, as its service has it")
    parser.add_argument("line", metavar="LINE", nargs="?", help="a file with its line, which came by another way")
    parser.add_argument("--key", metavar="KEY.pub", help="its public key, which came by another way")
    signatures.add_beside(parser)
    keep.add_introduced(parser)
    parser.add_argument(
        "--yes", metavar="HEX", help="the 64 digits of the line that was shown, and was compared already; another one that waits by now isn't accepted"
    )
    parser.add_argument("--json", action="store_true", help="writes JSON")


def run(options: argparse.Namespace) -> Status:
    """Accepts the peer."""
    if options.json:
        collect()
    name = lines.checked_name(options.peer)
    if options.yes is not None and not AUTHENTICATOR.fullmatch(options.yes):
        raise Trouble(Status.USAGE, "--yes takes the 64 hexadecimal digits of the line that was compared", "Run weft accept without it: it shows the line.")
    own = signatures.public_key(options.key) if options.key else None
    given = one_line(options.line, name) if options.line else None
    if options.introduced:
        return introduced(options, name)
    is_new = not files.is_there(options.box)
    files.make_folder(options.box)
    settings = boxes.read_settings(options.box)
    with locks.held(options.box / ".lock", 30, options.box):
        peer = boxes.find_peer(options.box, name, settings)
        tell_name(options.box, name)
        if is_new:
            say(f"{name_of(options.box)} wasn't there: it is a new box now.")
        peer.make()
        if own is not None:
            signatures.add_signer(signers_of(options.box), name, own, options.beside)
            if peer.read("key").decode("ascii", "replace").strip() == own.fingerprint:
                peer.remove("key")
            say(f"{own.fingerprint} is noted as the key of {name}.")
        if own is not None and peer.earlier is not None:
            return Status.DONE
        if peer.later is not None:
            raise Trouble(Status.LOOK, f"{name} has ended, and goes on as {peer.last.name}", f"To note another key of it: weft accept .. {peer.last.name} --key.")
        data = peer.take("message", formats.MOST_MESSAGE)
        for text in peer.told:
            say(f"{name}: {text}.")
        message = formats.read_message(data) if data is not None else None
        if data is None or message is None or message.service != name:
            say(f"No message of {name} is waiting in {name_of(peer.incoming)}: run weft accept again once one came.")
            return Status.LOOK
        line = formats.line_of(message)
        if given is not None:
            compare(given, line)
        good = signed_by(options.box, peer, settings, line, given.signed if given is not None else None)
        accept(options, peer, line, good, data)
    return Status.DONE


def introduced(options: argparse.Namespace, name: str) -> Status:
    """Notes the key that a line of the peer introduces, which its noted key signed."""
    if not options.line or options.key:
        raise Trouble(Status.USAGE, "--introduced goes with the file of the line, and without --key", "weft accept BOX PEER LINE --introduced FILE")
    files.expect_folder(options.box, "the box")
    signers = signers_of(options.box)
    with locks.held(options.box / ".lock", 30, options.box):
        line, how = keep.signed_line(options.line, files.read(options.line, signatures.MOST_BYTES), signers, None)
        if line.service != name:
            raise Trouble(Status.UNREADABLE, f"{name_of(options.line)} has a line of {line.service}, and not of {name}", "Name its line.")
        say(keep.introduce(signers, line, how.split()[-1], options.introduced))
    return Status.DONE


def tell_name(box: Path, name: str) -> None:
    """Tells that a peer is called as a further part of the box's own service would be, which the next turn notes; raises Trouble where it is called as that service."""
    own = (files.read_if_there(box / ".own", boxes.MOST_OWN) or b"").decode("ascii", "replace").strip()
    if own == name:
        raise Trouble(Status.USAGE, f"{name} is the service whose box {name_of(box)} is, and no peer of its own", "Name a peer.")
    if own and is_name_of_part(own, name):
        say(f"{name} is called as a further part of {own} would be: run weft exchange before weft log, so that no part takes that name.")


def signers_of(box: Path) -> Path:
    """Whose keys count in a box."""
    return box / "allowed_signers"


class Given(NamedTuple):
    """The line of a file that was named, and where it is signed there, with its signature."""

    path: str
    line: Line
    signed: Optional[Signed]


def one_line(path: str, name: str) -> Given:
    """The line of a file that has one of the peer."""
    data = files.read(path, signatures.MOST_BYTES)
    both = read_signed_line(data)
    found = [both.line] if both else lines.lines_of(data, name_of(path))
    if len(found) != 1 or found[0].service != name:
        raise Trouble(Status.UNREADABLE, f"{name_of(path)} has no single line of {name}", "Name a file with the one line that you got.")
    return Given(path, found[0], both)


def compare(given: Given, line: Line) -> None:
    """Raises Trouble where the line of the named file isn't the one that the waiting message tells."""
    advice = f"Ask {line.service}, by another way, for its line of step {line.step}; nothing was accepted."
    if contradicts(given.line, line):
        told = f"the waiting message tells {line.text}, and {name_of(given.path)} has {given.line.text}"
        raise Trouble(Status.CONTRADICTION, told, advice)
    if given.line != line:
        told = f"the waiting message tells {line.service}'s line of step {line.step}, and {name_of(given.path)} has that of step {given.line.step}"
        raise Trouble(Status.MISSING, told, advice)


class Good(NamedTuple):
    """A signed line, and the key by which it is."""

    signed: Signed
    key: str


def signed_by(box: Path, peer: Peer, settings: Settings, line: Line, given: Optional[Signed]) -> Optional[Good]:
    """The line as it is signed, in the peer's folder or in the file that was named; None where the box has no key of the peer, or takes unsigned messages.
    Raises Trouble where it isn't signed."""
    signers = signers_of(box)
    if settings.is_unsigned or not signatures.key_lines(signers, peer.name):
        return None
    waiting = read_signed_line(peer.take("line", signatures.MOST_BYTES) or b"")
    both = [(it, signatures.checked(it, signers)) for it in (given, waiting) if it is not None and it.line == line]
    good = next((Good(it, key) for it, key in both if key is not None), None)
    if good is None:
        told = f"the line of step {line.step} of {peer.name}'s waiting message isn't signed by the key that {name_of(signers)} has for it"
        raise Trouble(
            Status.LOOK,
            f"{told}, and {peer.name} wasn't accepted",
            f"The signed line may be on its way: run weft accept again once {name_of(peer.incoming / 'line')} came anew. If it is there, ask {peer.name} for its key.",
        )
    return good


def accept(options: argparse.Namespace, peer: Peer, line: Line, good: Optional[Good], message: bytes) -> None:
    """Notes that the peer was accepted by this line."""
    say(f"{peer.name}: the line of its waiting message is")
    say(f"  {line.text}")
    if options.yes is not None and options.yes.lower() != line.authenticator:
        told = f"the line that waits now isn't the one of --yes, and {peer.name} wasn't accepted"
        raise Trouble(Status.LOOK, told, "Compare the one that is shown now, and name that.")
    is_compared = options.line is not None or options.yes is not None
    if not is_compared and (options.json or not is_confirmed(peer.name)):
        raise Trouble(
            Status.LOOK, f"{peer.name} wasn't accepted", f"Ask it for its line by another way, and if it is this one: weft accept .. --yes {line.authenticator}"
        )
    how = f"compared with {options.line}" if options.line is not None else "compared by a person"
    files.renew(peer.kept / "first-line", good.signed.data if good else b"")
    files.renew(peer.kept / "first", message)
    hearing.begin_anew(peer, line.step)
    files.renew(peer.kept / "accepted", f"{lines.kept_now(line, f'{how}, signed by {good.key}' if good else how).text}\n".encode())
    say(f"{peer.name} is accepted: the next weft exchange takes its messages.")


def is_confirmed(name: str) -> bool:
    """Whether a person at the terminal says that the line is the peer's."""
    if not sys.stdin or not sys.stdin.isatty():
        return False
    say(f"Is that the line that {name} gave you by another way? Type yes:")
    finish_quietly()
    return sys.stdin.readline().strip() == "yes"
