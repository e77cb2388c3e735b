"""`weft keep`: keeps lines that came from somebody."""

from __future__ import annotations

import argparse
import functools
import os
import sys
from pathlib import Path
from typing import NamedTuple, Optional

from weft import files, kinds, lines, locks, made, signatures, stamps
from weft.deciding.keeping import Outcome
from weft.deciding.signatures import BEGIN, PublicKey, Signed, read_armour, read_signed_line
from weft.deciding.stamps import Fault, Placing
from weft.deciding.worst import worst_of
from weft.files import AnyPath
from weft.lines import Kept, Line, Placed
from weft.output import complain, say, say_json
from weft.statuses import Status
from weft.texts import beside, listed, name_of, typed
from weft.trouble import Trouble

NAME = "keep"
DETAILS = (
    "A line with a signature (FILE.sig beside it, or in the same file) is checked by ssh-keygen against the key that the file of signers has for "
    "the service's name. Lines without one are kept with the words of --by, also as they are typed from a letter; what was typed wrong is "
    "told. Of two lines of one step that differ both are kept, and marked; nothing is "
    "judged under either until one is chosen (--choose), and that they differed is told for good."
)
STATUSES = (Status.NOT_SHOWN, Status.LOOK, Status.CONTRADICTION, Status.MISSING, Status.BUSY)
EXAMPLE = (
    "weft keep --signer shop shop_key.pub\nweft keep shop.line\nweft keep letter.txt --by 'by letter from the notary, 3 May'\n"
    "weft keep --choose letter.txt --by 'asked the notary by telephone, 5 May'\nweft keep --authority tsa tsa.pem\nweft keep shop.line --stamp shop.stamp"
)
MOST_BYTES = 1 << 20


def add(parser: argparse.ArgumentParser) -> None:
    """The words."""
    parser.add_argument("file", metavar="FILE", nargs="?", help="a file of a line, or with --by of several; - for standard input")
    parser.add_argument("--by", metavar="HOW", help="how the lines came, in words, where they aren't signed")
    parser.add_argument("--signer", nargs=2, metavar=("NAME", "KEY.pub"), help="notes that this public key is the service's of this name; with FILE, once its signature is good by it")
    signatures.add_beside(parser)
    add_introduced(parser)
    parser.add_argument("--choose", action="store_true", help="of lines of one step that differ, lets that of FILE count from now on, and not the others")
    parser.add_argument("--found", action="store_true", help="keeps lines amid other words too, once you have read these")
    add_stamps(parser)
    text = "says that no line of NAME, made in DIR, ever went out: it can be made anew, where nothing here tells otherwise"
    parser.add_argument("--never-sent", nargs=2, metavar=("NAME", "DIR"), help=text)
    add_places(parser)
    parser.add_argument("--json", action="store_true", help="writes JSON")


def add_introduced(parser: argparse.ArgumentParser) -> None:
    """The word by which a key is noted that the noted one introduced."""
    text = "notes the new key that this file introduces at the signed line (weft line --introduce); it counts while the old one is noted"
    parser.add_argument("--introduced", metavar="FILE", help=text)


def add_stamps(parser: argparse.ArgumentParser) -> None:
    """The words of stamps."""
    parser.add_argument("--stamp", metavar="STAMP", help="keeps a good stamp of the line, which is kept already")
    text = "notes the certificates (PEM) of a time-stamping authority that you trust; never take them from who sent a stamp"
    parser.add_argument("--authority", nargs=2, metavar=("NAME", "FILE"), help=text)
    stamps.add_authorities(parser)


def add_places(parser: argparse.ArgumentParser) -> None:
    """Where lines and keys are kept."""
    parser.add_argument("--kept", metavar="FILE", type=Path, default=None, help="the file of kept lines (else WEFT_KEPT, else ~/.local/share/weft/kept)")
    parser.add_argument(
        "--signers", metavar="FILE", type=Path, default=None, help="the file of signers (else WEFT_SIGNERS, else ~/.config/weft/allowed_signers)"
    )


def given(path: str) -> bytes:
    """The bytes of the file, or of standard input."""
    if path != "-":
        return files.read(path, MOST_BYTES)
    data = sys.stdin.buffer.read(MOST_BYTES + 1)
    if len(data) > MOST_BYTES:
        raise Trouble(Status.UNREADABLE, f"standard input has more than {MOST_BYTES:,} bytes")
    return data


class Signer(NamedTuple):
    """Whose key --signer names, its file, and the key itself, as it was read there."""

    service: str
    path: str
    key: PublicKey


def read_both(path: str, data: bytes) -> Signed:
    """The line of a file with its signature, which stands behind it or in FILE.sig; raises Trouble where there is more or less than that."""
    both = read_signed_line(data)
    if both is not None:
        return both
    advice = "One line and one signature are read, with nothing behind the signature's end: ask for it again."
    if BEGIN in data:
        raise Trouble(Status.UNREADABLE, f"{name_of(path)} has a signature, and is no signed line", advice)
    found = lines.lines_of(data, name_of(path))
    if len(found) > 1:
        raise Trouble(Status.UNREADABLE, f"{name_of(path)} has {len(found)} lines, and a signature is of one", "Keep each by itself.")
    armour = read_armour(files.read(f"{path}.sig", signatures.MOST_BYTES))
    if armour is None:
        raise Trouble(Status.UNREADABLE, f"{name_of(path)}.sig is no signature by ssh-keygen", advice)
    return Signed(found[0], armour)


def signed_line(path: str, data: bytes, signers: AnyPath, signer: Optional[Signer]) -> tuple[Line, str]:
    """The line of a file with its signature, and how it came; the key that --signer names counts in place of those of the file of signers. Raises Trouble
    where the signature isn't good."""
    both = read_both(path, data)
    service = both.line.service
    if signer is not None and signer.service != service:
        raise Trouble(Status.USAGE, f"the line of {name_of(path)} is of {service}, and --signer names {signer.service}", "Nothing was noted or kept.")
    if signer is None and not signatures.key_lines(signers, service):
        advice = f"Ask {service} for its key by another way, then: weft keep --signer {service} KEY.pub. Or keep the line without its signature: --by."
        raise Trouble(Status.MISSING, f"no key of {service} is noted in {name_of(signers)}, so the signature of {name_of(path)} wasn't checked", advice)
    key = signatures.checked(both, signers) if signer is None else signatures.checked_by(both, signer.key)
    if key is None and signer is not None:
        raise Trouble(
            Status.NOT_SHOWN,
            f"the signature of {name_of(path)} isn't good by the key of {name_of(signer.path)}, and that key wasn't noted",
            f"Ask {service} for its key, and for the line with its signature, by another way.",
        )
    if key is None:
        raise Trouble(
            Status.NOT_SHOWN,
            f"the signature of {name_of(path)} isn't good by a key that {name_of(signers)} has for {service}",
            f"Ask {service} for its line and its key by another way. Has it another key by now: weft keep --signer {service} KEY.pub.",
        )
    return both.line, f"signed by {key}"


def run(options: argparse.Namespace) -> Status:
    """Keeps the lines, or chooses one, and notes a key that --signer names once the signature is good by it."""
    kept, signers = options.kept or lines.default_kept(), options.signers or signatures.default_signers()
    for path in (kept, signers):
        files.expect_no_own(path)
    if options.never_sent:
        return take_out_made(options, kept)
    if options.authority or options.stamp:
        return keep_stamped(options, kept)
    signer = named_signer(*options.signer) if options.signer else None
    if signer is not None:
        signatures.is_noted(signers, signer.service, signer.key, options.beside)
    if options.file is None:
        if signer is None or options.choose:
            raise Trouble(Status.USAGE, "no file is named", "See weft keep --help.")
        note_signer(options, signers, signer)
        return Status.DONE
    if signer is not None and options.by is not None:
        raise Trouble(Status.USAGE, "--by is for lines without a signature, and --signer for a signed one", "Leave one of both out.")
    if options.introduced and (signer is not None or options.by is not None or options.choose):
        raise Trouble(Status.USAGE, "--introduced is for a line that a noted key signed", "Leave --signer, --by and --choose out.")
    new = named_lines(options, given(options.file), signers, signer)
    for it in new:
        expect_possible(it.line)
    introduced = introduce(signers, new[0].line, new[0].how.split()[-1], options.introduced) if options.introduced else None
    noted = functools.partial(counting_keys, signers, signer)
    placed = [choose(options.file, kept, new)] if options.choose else lines.keep(kept, new, noted, functools.partial(signatures.late_of, signers))
    if signer is not None:
        note_signer(options, signers, signer)
    status = status_of(options.choose, placed)
    tell(options, kept, placed, introduced, status)
    return status


def keep_stamped(options: argparse.Namespace, kept: Path) -> Status:
    """Notes an authority, or keeps a stamp of a kept line: each is a command by itself."""
    others = (options.by, options.signer, options.introduced, options.choose, options.found, options.beside)
    if any(others) or (options.authority and (options.file or options.stamp)):
        raise Trouble(Status.USAGE, "--authority, and --stamp with a file of a line, go without other words", "See weft keep --help.")
    if options.authority:
        return note_authority(options)
    if options.file is None:
        raise Trouble(Status.USAGE, "no file of a line is named", "Name the line beside its stamp: weft keep LINE --stamp STAMP.")
    return keep_stamp(options, kept)


def take_out_made(options: argparse.Namespace, kept: Path) -> Status:
    """Lets a service be made anew of which no line ever went out, by a person's word: a command by itself."""
    if any((options.file, options.by, options.signer, options.introduced, options.choose, options.found, options.beside, options.authority, options.stamp)):
        raise Trouble(Status.USAGE, "--never-sent goes without other words", "See weft keep --help.")
    name, folder = options.never_sent
    told = made.never_sent(lines.checked_name(name), files.folder_named(folder), kept)
    say_json({"never_sent": name, "folder": folder, "status": int(Status.DONE), "says": [told]}) if options.json else say(told)
    return Status.DONE


def note_authority(options: argparse.Namespace) -> Status:
    """Notes the certificates of an authority, and says their digests, by which they can be compared."""
    folder = options.authorities or stamps.default_authorities()
    authority = stamps.note_authority(folder, *options.authority)
    digests = authority.certificates.fingerprints
    if options.json:
        say_json({"authority": authority.name, "folder": str(folder), "sha256": digests, "status": int(Status.DONE)})
        return Status.DONE
    say(f"{authority.name} is noted as a time-stamping authority that you trust, in {name_of(folder)}. Compare the SHA-256 digests of its certificates with what it tells of them:")
    for digest in digests:
        say(f"  {digest}")
    return Status.DONE


def keep_stamp(options: argparse.Namespace, kept: Path) -> Status:
    """Keeps a stamp beside its line, where it is good, or was at its time; and says what it gives."""
    line, data = stamps.line_of(options.file, given(options.file)), stamps.read_file(options.stamp)
    with stamps.Bench(stamps.read_authorities(options.authorities)) as bench:
        weighed = bench.weigh(line, data)
    told = stamps.stamp_told(line, weighed)
    if weighed.fault not in (None, Fault.EXPIRED):
        status = Status.DISK if weighed.fault is Fault.UNCHECKED else Status.NOT_SHOWN
        raise Trouble(status, f"{name_of(options.stamp)} isn't kept. {told}".removesuffix("."))
    with locks.held(beside(kept, ".lock"), 30, kept):
        if not any(it.line == line for it in lines.KeptLines([kept]).all_at(line.service, line.step)):
            raise Trouble(Status.MISSING, f"the line of step {line.step} of {line.service} isn't kept in {name_of(kept)}", f"Keep it first: weft keep {typed(options.file)} ..")
        placing = stamps.keep_stamp(kept, line, data)
    status = Status.DONE if weighed.fault is None else Status.LOOK
    if options.json:
        say_json({"line": line._asdict(), "kept": placing.value, **stamps.as_json(weighed), "status": int(status), "says": [told]})
        return status
    say(f"{told} The stamp is kept beside it{': that was kept already' if placing is Placing.KNOWN else ''}.")
    return status


def counting_keys(signers: AnyPath, signer: Optional[Signer], service: str) -> set[str]:
    """The fingerprints of the keys by which kept lines of a service count, once the key that --signer names is noted."""
    named = {signer.key.fingerprint} if signer is not None and signer.service == service else set()
    return {*signatures.counting_fingerprints(signers, service), *named}


def named_signer(name: str, path: str) -> Signer:
    """Whose key --signer names."""
    return Signer(lines.checked_name(name), path, signatures.public_key(path))


def expect_possible(line: Line) -> None:
    """Raises Trouble where no service can have the line, which of step 0 alone is known."""
    if line.step == 0:
        from weft import formats  # (the reference isn't read for other lines)

        formats.expect_possible(line)


def choose(path: str, kept: Path, new: list[Kept]) -> Placed:
    """Chooses the line of a file over the others of its step."""
    if len(new) > 1:
        raise Trouble(Status.USAGE, f"{name_of(path)} has {len(new)} lines, and one is chosen at a time", "Put the right one in a file of its own.")
    return lines.choose(kept, new[0])


def named_lines(options: argparse.Namespace, data: bytes, signers: AnyPath, signer: Optional[Signer]) -> list[Kept]:
    """The lines of the named file, each with how it came."""
    both, kind = read_signed_line(data), kinds.kind_of(data)
    if kind != "text":
        advice = f"weft {'tell' if kind in ('message', 'receipts', 'events') else 'judge'} {typed(options.file)}"
        raise Trouble(Status.UNREADABLE, f"{name_of(options.file)} is {kinds.NAMES[kind]}, no line: {advice}")
    has_signature = BEGIN in data or (options.file != "-" and os.path.lexists(f"{options.file}.sig"))
    if options.by is not None:
        found = [both.line] if both else lines.typed_lines(data, name_of(options.file), options.found)
        return [lines.kept_now(line, options.by) for line in found]
    if not data:
        raise Trouble(Status.UNREADABLE, f"{name_of(options.file)} is empty", "Ask for it again.")
    if not has_signature:
        lines.typed_lines(data, name_of(options.file), is_found=True)
        advice = "Say how it came: --by 'by letter from the notary'." + ("" if options.file == "-" else f" Or put {name_of(options.file)}.sig beside it.")
        raise Trouble(Status.USAGE, f"{name_of(options.file)} has no signature beside it", advice)
    line, how = signed_line(options.file, data, signers, signer)
    return [lines.kept_now(line, how)]


def introduce(signers: Path, line: Line, by: str, proof: str) -> str:
    """Notes the key that a signed line introduces; answers that in a sentence."""
    from weft import introducing  # (the reference isn't read for other lines)

    key = introducing.note_introduced(signers, line, by, proof)
    return f"{key.fingerprint} is noted as the key of {line.service} too, in {name_of(signers)}: {by} introduced it in step {line.step}."


def note_signer(options: argparse.Namespace, signers: Path, signer: Signer) -> None:
    """Notes the key of a service, and says so."""
    signatures.add_signer(signers, signer.service, signer.key, options.beside)
    if options.json:
        say_json({"file": str(signers), "signer": signer.service, "key": signer.key.fingerprint, "status": int(Status.DONE)})
    else:
        say(f"{signer.key.fingerprint} is noted as the key of {signer.service}, in {name_of(signers)}.")


def status_of(is_choice: bool, placed: list[Placed]) -> Status:
    """How a run ends that kept these lines."""
    troubles = [it.trouble.status for it in placed if it.trouble is not None]
    if troubles:
        return worst_of(troubles)
    return Status.LOOK if is_choice and not placed[0].others else Status.DONE


def tell(options: argparse.Namespace, path: Path, placed: list[Placed], introduced: Optional[str], status: Status) -> None:
    """Says which key was noted, what was kept, what contradicts, and what was chosen."""
    if introduced is not None and not options.json:
        say(introduced)
    for it in placed:
        line = it.kept.line
        if not options.json:
            known = ": that was kept already" if it.outcome is Outcome.KNOWN else ""
            say(f"The line of step {line.step} of {line.service} is kept in {name_of(path)}, {it.kept.how}{known}.")
        if it.trouble is not None:
            complain(it.trouble.describe())
        elif options.choose and not options.json:
            say(f"It counts, and of that step no longer {listed(it.others)}." if it.others else "No other line of that step was kept: nothing had to be chosen.")
    if options.json:
        key = {"introduced": introduced} if introduced is not None else {}
        say_json({"file": str(path), "kept": [as_json(it) for it in placed], **key, "status": int(status)})


def as_json(placed: Placed) -> dict[str, object]:
    """What became of a line, as JSON has it."""
    kept, outcome = placed.kept, placed.outcome
    contradicts = outcome in (Outcome.CONTRADICTING, Outcome.NOT_CHOSEN) or placed.trouble is not None
    return {**kept.line._asdict(), "date": kept.date, "how": kept.how, "new": outcome is not Outcome.KNOWN, "contradicts": contradicts, "over": list(placed.others)}
