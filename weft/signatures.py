"""Signatures of lines, by `ssh-keygen -Y`. Nothing here signs or checks anything itself.

A line is signed over its exact text with its line end, in the namespace `timeweave-line`. Whose key is whose stands in a file
`allowed_signers`, as ssh-keygen(1) has it, whose principals are the names of services."""

from __future__ import annotations

import argparse
import functools
import os
import re
import subprocess
import tempfile
from datetime import datetime, timezone
from pathlib import Path
from typing import Iterator, NamedTuple, Optional, Sequence

from weft import files, locks
from weft.deciding import signatures as deciding
from weft.deciding.introducing import introduced_line, list_standing
from weft.deciding.keeping import may_be_mistyped
from weft.deciding.signatures import MOST_BYTES as MOST_BYTES
from weft.deciding.signatures import NAMESPACE as NAMESPACE
from weft.deciding.signatures import Addition, KeyFault, Moment, PublicKey, read_armour, read_check, read_public_key
from weft.deciding.signatures import Signed as Signed
from weft.deciding.signatures import read_signed_line as read_signed_line
from weft.files import AnyPath
from weft.lines import Kept, KeptLines, Line
from weft.output import complain
from weft.statuses import Status
from weft.texts import beside, name_of, printable
from weft.trouble import Trouble

BEGIN, END = deciding.BEGIN.decode(), deciding.END.decode()
split = read_signed_line
MOST_SIGNERS = 1 << 24
MOST_SECONDS = 120
PATTERN = re.compile(rb"[*?!]")
HALF_ADVICE = "No step was made: by the public key, in a file beside it that ends in .pub, lines of your own that peers hand back are known again."


def default_signers() -> Path:
    """Whose keys count, where nothing else is named: by the variable WEFT_SIGNERS, else among the user's own settings."""
    named = files.named_by("WEFT_SIGNERS")
    if named is not None:
        return named
    settings = os.environ.get("XDG_CONFIG_HOME", "")
    return (Path(settings) if os.path.isabs(settings) else files.home() / ".config") / "weft/allowed_signers"


def keygen(*words: str, given: bytes = b"") -> tuple[int, str, bytes]:
    """Runs ssh-keygen; answers its status, what it told, and its output."""
    path = files.which("ssh-keygen")
    if path is None:
        raise Trouble(Status.DISK, "there is no ssh-keygen on the path", "Install OpenSSH: signatures are made and checked by it.")
    try:
        done = subprocess.run([path, *words], input=given, capture_output=True, timeout=MOST_SECONDS, check=False, env=plain_environment())
    except subprocess.TimeoutExpired:
        raise Trouble(Status.DISK, "ssh-keygen didn't answer", "A key with a passphrase needs ssh-agent: name its public file.") from None
    return done.returncode, printable(done.stderr.decode("utf-8", "replace").strip()), done.stdout


def plain_environment() -> dict[str, str]:
    """The environment in which ssh-keygen asks nobody for a passphrase by a window."""
    return {name: value for name, value in os.environ.items() if name not in ("DISPLAY", "WAYLAND_DISPLAY")} | {"SSH_ASKPASS_REQUIRE": "never"}


def sign(line: Line, key: AnyPath) -> Signed:
    """The line, signed with this key, a private one or the public one of a key that an agent has."""
    return Signed(line, sign_text(f"{line.text}\n".encode(), key, NAMESPACE))


def sign_text(text: bytes, key: AnyPath, namespace: str) -> bytes:
    """The armour of the signature of a text in a namespace."""
    if not os.path.exists(key):
        raise Trouble(Status.NO_INPUT, f"there is no key {name_of(key)}", "Make one: ssh-keygen -t ed25519 -f FILE.")
    files.read(key, MOST_BYTES)  # ssh-keygen would read a file of any size to its end
    status, told, output = keygen("-Y", "sign", "-q", "-n", namespace, "-f", os.fspath(key), given=text)
    armour = read_armour(output)
    if status or armour is None:
        raise Trouble(Status.NO_INPUT, f"ssh-keygen couldn't sign with {name_of(key)}: {told}")
    return armour


# ---- what is checked


def checked(signed: Signed, signers: AnyPath, when: Optional[str] = None) -> Optional[str]:
    """The key, as ssh-keygen tells it, by which the line is signed, where the file of signers has that key for the line's service, and it counted at a moment, as
    `2026-11-29T09:40:00Z`, else now; None where it isn't so. What is handed to ssh-keygen is the line and the signature that are kept, byte for byte. Raises Trouble
    where that couldn't be checked."""
    noted = files.read_if_there(signers, MOST_SIGNERS)
    if noted is None:
        return None
    what = f"the signature of {signed.line.service}'s line of step {signed.line.step}"
    key = verified(signed.text, signed.signature, signed.line.service, noted, NAMESPACE, what, when)
    return key if key is not None and key.split()[-1] in counting_fingerprints(signers, signed.line.service) else None


def verified(text: bytes, armour: bytes, service: str, noted: bytes, namespace: str, what: str, when: Optional[str] = None) -> Optional[str]:
    """The key by which a text is signed in a namespace, where the lines of a file of signers have it for a service; else None. Raises Trouble where that couldn't be
    checked."""
    at = [] if when is None else ["-O", f"verify-time={re.sub('[^0-9Z]', '', when)}"]
    with tempfile.NamedTemporaryFile(prefix="weft-", suffix=".sig") as file, tempfile.NamedTemporaryFile(prefix="weft-", suffix=".signers") as keys:
        for written, data in ((file, armour), (keys, noted)):
            written.write(data)
            written.flush()
        status, why, told = keygen("-Y", "verify", *at, "-n", namespace, "-f", keys.name, "-I", service, "-s", file.name, given=text)
    found = read_check(status, told)
    if found.is_good is None:
        end = f"was ended by signal {-status}" if status < 0 else f"ended with {status}"
        advice = "Look whether it runs, and whether there is memory; then run this again."
        raise Trouble(Status.DISK, f"{what} couldn't be checked, and nothing is said of it: ssh-keygen {end}{f' ({why})' if why else ''}", advice)
    return found.key if found.is_good else None


def signed_by_noted(text: bytes, armour: bytes, service: str, by: str, signers: AnyPath, namespace: str) -> bool:
    """Whether a text is signed in a namespace by the noted key of a service that has this fingerprint."""
    found = (deciding.read_any_key(line) for line in key_lines(signers, service))
    key = next((it for it in found if it is not None and it.fingerprint == by), None)
    if key is None:
        return False
    noted = f'{service} namespaces="{namespace}" {key.text}\n'.encode()
    return verified(text, armour, service, noted, namespace, f"the signature of an introduction of {service}'s") is not None


def signing_key(signed: Signed) -> str:
    """The key by which a line is signed, as ssh-keygen tells it, whosever it is; raises Trouble where the signature isn't of that line."""
    with tempfile.NamedTemporaryFile(prefix="weft-", suffix=".sig") as file:
        file.write(signed.signature)
        file.flush()
        status, why, told = keygen("-Y", "check-novalidate", "-n", NAMESPACE, "-s", file.name, given=signed.text)
    key = deciding.GOOD_BY.search(told)
    if status or key is None:
        raise Trouble(Status.NOT_SHOWN, f"the signature of {signed.line.service}'s line of step {signed.line.step} isn't of that line: {why}", "Ask for it again.")
    return f"{key[1].decode()} {key[2].decode()}"


def checked_by(signed: Signed, key: PublicKey) -> Optional[str]:
    """The same, of this public key alone."""
    with tempfile.NamedTemporaryFile(prefix="weft-", suffix=".signers") as file:
        file.write(key.signers_line(signed.line.service))
        file.flush()
        return checked(signed, file.name)


def public_key(path: AnyPath) -> PublicKey:
    """The public key of a file, which is read once; raises Trouble where the file has none, or ssh-keygen doesn't take it, or takes it for another one."""
    found = read_public_key(files.read(path, MOST_BYTES))
    if isinstance(found, KeyFault):
        raise Trouble(Status.UNREADABLE, f"{name_of(path)} has no public key: {found.value}", "Name the file that ends in .pub, of one line: type key comment.")
    status, told, output = keygen("-l", "-f", "-", given=f"{found.text}\n".encode())
    if status or output.split()[1:2] != [found.fingerprint.encode()]:
        raise Trouble(Status.UNREADABLE, f"{name_of(path)} has no public key that ssh-keygen takes: {told}", "Ask for it again.")
    return found


def public_half(key: Path) -> PublicKey:
    """The public key of one's own key: of the file itself where it is one, as of a key that an agent has; else as ssh-keygen tells it of the private one, and
    where that needs a passphrase the file beside it. Raises Trouble where there is none, or another one is beside it: then nothing that the key signed can be
    known again."""
    beside_it = key if key.suffix == ".pub" else beside(key, ".pub")
    public = public_key(beside_it) if beside_it.exists() else None
    if public is not None and beside_it == key:
        return public
    status, told, output = keygen("-y", "-P", "", "-f", os.fspath(key)) if key.exists() else (1, "there is no such file", b"")
    found = read_public_key(output) if status == 0 else KeyFault.EMPTY
    if isinstance(found, PublicKey) and public is not None and public.blob != found.blob:
        told = f"{name_of(beside_it)} isn't the public key of {name_of(key)}"
        raise Trouble(Status.UNREADABLE, told, f"{HALF_ADVICE} ssh-keygen -y -f {name_of(key)} tells the right one.")
    if isinstance(found, PublicKey):
        return found
    if public is None:
        raise Trouble(Status.NO_INPUT, f"the key {name_of(key)} has no public half beside it, and ssh-keygen tells none: {told}", HALF_ADVICE)
    return public


# ---- the file of signers


def add_beside(parser: argparse.ArgumentParser) -> None:
    """The word by which a person adds a second key of a service."""
    text = "adds the key beside the noted one, which was replaced: both count"
    parser.add_argument("--beside", action="store_true", help=text)


def key_lines(signers: AnyPath, service: str) -> list[bytes]:
    """The lines of a file of signers whose principals, which may be patterns, have the service's name; none where the file isn't there. A key that another one
    introduced is left out where that isn't noted any more."""
    return list_standing(of_principal(files.read_if_there(signers, MOST_SIGNERS) or b"", service.encode()))


def has_days(signers: AnyPath, service: str) -> bool:
    """Whether a key of a service counts on some days alone."""
    return any(map(deciding.has_days, key_lines(signers, service)))


def of_principal(data: bytes, name: bytes) -> Iterator[bytes]:
    """The lines of a file of signers that have a name among their principals, in their order."""
    principals = read_principals(data)
    places = {*principals.places.get(name, ()), *(place for place, patterns in principals.patterns if deciding.is_principal(patterns, name))}
    return (principals.lines[place] for place in sorted(places))


class Principals(NamedTuple):
    """The lines of a file of signers; of each principal that is a name its lines, by their places; and the lists of principals that have patterns, with theirs."""

    lines: list[bytes]
    places: dict[bytes, list[int]]
    patterns: list[tuple[int, bytes]]


@functools.lru_cache(maxsize=4)
def read_principals(data: bytes) -> Principals:
    """Those of the bytes of a file, which are read once: a box with many peers asks for each of them."""
    found = Principals([line for line in data.splitlines() if line.strip()], {}, [])
    for place, line in enumerate(found.lines):
        listed = line.split()[0].strip(b'"')
        if PATTERN.search(listed):
            found.patterns.append((place, listed))
            continue
        for principal in listed.split(b","):
            found.places.setdefault(principal, []).append(place)
    return found


def fingerprints(signers: AnyPath, service: str) -> set[str]:
    """The fingerprints of the keys that the file of signers has for the service's name."""
    return {key.fingerprint for key in map(deciding.read_noted_key, key_lines(signers, service)) if key is not None}


def counting_fingerprints(signers: AnyPath, service: str) -> set[str]:
    """The fingerprints of the keys by which kept lines of a service count: those that are noted of it, with whatever options."""
    return {key.fingerprint for key in map(deciding.read_any_key, key_lines(signers, service)) if key is not None}


def counted(kept: KeptLines, named: Optional[Path]) -> KeptLines:
    """The kept lines, of which one that came by a signature counts while its key is noted of its service, with whatever options it was noted: in the file of
    signers that was named, which has to be there, or else in the user's own. That WEFT_SIGNERS names none that is there is told, and stands in their status."""
    if named is not None:
        files.read(named, MOST_SIGNERS)
    signed = [service for service in kept.services() if any(deciding.find_signing_key(it.how) is not None for it in kept.of(service))]
    if not signed:
        return kept
    signers = named or default_signers()
    if may_be_mistyped(bool(os.environ.get("WEFT_SIGNERS")) and named is None, files.is_there(signers)):
        complain(f"there is no file {name_of(signers)}, which WEFT_SIGNERS names: is that its name? No signed line counts without it.")
        kept.status = Status.LOOK
    for service in signed:
        kept.count_by(service, counting_fingerprints(signers, service), late_of(signers, service, kept.of(service)))
    return kept


def late_of(signers: AnyPath, service: str, kept: Sequence[Kept]) -> set[Kept]:
    """Those of the kept lines of a service that came by the signature of a key which, by each line of the file of signers that has it, didn't count when they were kept."""
    noted = key_lines(signers, service)
    keys: dict[str, list[bytes]] = {}
    for line in noted if any(map(deciding.has_days, noted)) else ():
        key = deciding.read_any_key(line)
        keys.setdefault(key.fingerprint if key is not None else "", []).append(line)
    signed = [(it, keys.get(deciding.find_signing_key(it.how) or "", [])) for it in kept] if keys else []
    return {it for it, own in signed if own and not any(deciding.counts_at(line, moment_of(it.date)) for line in own)}


def moment_of(date: str) -> Optional[Moment]:
    """The moment of a date, as `2026-11-29T09:40:00Z`; None of another text."""
    try:
        at = datetime.strptime(date, "%Y-%m-%dT%H:%M:%SZ").replace(tzinfo=timezone.utc)
    except ValueError:
        return None
    return Moment(at.strftime("%Y%m%d%H%M%S"), at.astimezone().strftime("%Y%m%d%H%M%S"))


def add_signers(parser: argparse.ArgumentParser) -> None:
    """The word by which a person names the file of signers."""
    text = "the file of signers, by whose keys signed lines count (else WEFT_SIGNERS, ..)"
    parser.add_argument("--signers", metavar="FILE", type=Path, help=text)


def is_noted(signers: AnyPath, service: str, key: PublicKey, is_beside: bool = False) -> bool:
    """Whether the file of signers has this key for the service's name. Raises Trouble where it has others alone: a second one is only added where a person
    says that it stands beside them; and where it has this one with options under which it may not count."""
    found = deciding.place_key(key, key_lines(signers, service), is_beside)
    if found is Addition.LIMITED:
        raise Trouble(
            Status.LOOK,
            f"{name_of(signers)} has {key.fingerprint} as the key of {service}, with options (cert-authority, valid-.., namespaces) under which it may not count",
            f"Nothing was noted. Look at its line there: to have it count for lines, take the options or the line out of {name_of(signers)}.",
        )
    if found is Addition.OTHER:
        raise Trouble(
            Status.LOOK,
            f"{name_of(signers)} has another key of {service} already, and {key.fingerprint} wasn't noted",
            f"Ask {service}, by another way, which one is its own. Was the old one replaced, and not stolen, add the new one by --beside: what the old one "
            f"signed counts on. Was it stolen, take its line out of {name_of(signers)}, and run this again: then nothing counts that it signed.",
        )
    return found is Addition.KNOWN


def add_signer(signers: Path, service: str, key: PublicKey, is_beside: bool = False, by: Optional[str] = None) -> None:
    """Adds a public key as that of a service, under the lock of the file: of several that are added at one time none is lost. It may have been introduced by a noted
    one, of this fingerprint. Raises Trouble where the file has another one of that name, beside which it isn't wanted."""
    files.make_folder(signers.parent)
    with locks.held(beside(signers, ".lock"), 30, signers):
        if not is_noted(signers, service, key, is_beside):
            old = files.read_if_there(signers, MOST_SIGNERS) or b""
            line = key.signers_line(service) if by is None else introduced_line(service, key, by)
            files.renew(signers, old + (b"" if not old or old.endswith(b"\n") else b"\n") + line)
