"""A service takes a new key: the step that names it, what is handed out of that, and how those note it who have the old key. The rule stands in
`weft.deciding.introducing`."""

from __future__ import annotations

from pathlib import Path
from typing import NamedTuple, Optional

from weft import files, formats, judges, own, parts
from weft.deciding.introducing import NAMESPACE, Introduction, Shown, find_introduced, introduction_text, key_event, read_introduced, read_introduction, write_introduction
from weft.deciding.signatures import PublicKey
from weft.deciding.standing import Command
from weft.files import AnyPath
from weft.formats import events_file
from weft.judges import Bench
from weft.lines import Line, anchors
from weft.own import OwnLines
from weft.parts import Part
from weft.signatures import add_signer, sign_text, signed_by_noted
from weft.standing import Standing
from weft.statuses import Status
from weft.stores import Store
from weft.texts import beside, name_of
from weft.trouble import Trouble

MOST_FILE = 8 << 20


class Named(NamedTuple):
    """A step that names a new key: its line, and the proof of its event under that."""

    line: Line
    proof: bytes


def name_key(folder: Path, key: PublicKey) -> Named:
    """Makes the step that names a new key, where the last one isn't that already. Raises Trouble where no step may be made."""
    judge = judges.bench()
    part = open_part(folder, judge)
    if not names_key(part, key, judge):
        part = part._replace(last=part.store.append(events_file([key_event(key)]), None))
    OwnLines(part.folder).note(part.last)
    parts.hand_out(folder, [*parts.parts_of(folder, judge)[:-1], part])
    step = str(part.last.step)
    return Named(part.last, part.store.done("prove", "event", step, "0", step))


def open_part(folder: Path, judge: Bench) -> Part:
    """The part in which a step may be made by hand."""
    standing = Standing(folder, judge)
    standing.expect(Command.RECORD).tell()
    part = standing.last
    if standing.new is not None or files.is_there(beside(part.folder, ".pending")):
        raise Trouble(Status.LOOK, f"a run on {name_of(folder)} was stopped amid a step", "Run weft log, weft record or weft exchange first, and then this again.")
    return part


def names_key(part: Part, key: PublicKey, judge: Bench) -> bool:
    """Whether the last step names this key already, as one that was made before a run was stopped."""
    store: Store = part.store
    step = part.last.step
    return step > 0 and store.count(step, step) == 1 and own.event_at(store, judge, step, 0, part.last) == key_event(key)


def introduction_of(named: Named, key: PublicKey, old: AnyPath) -> bytes:
    """The file that introduces a key, signed by the old one."""
    text = introduction_text(named.line, key)
    return write_introduction(text, Introduction(sign_text(text, old, NAMESPACE), named.proof))


def note_introduced(signers: Path, line: Line, by: str, path: AnyPath) -> PublicKey:
    """Notes the key that a file introduces at a line, which a noted key of this fingerprint has signed. Raises Trouble where that key hasn't signed the introduction, or
    the step of the line doesn't name the key."""
    data = files.read(path, MOST_FILE)
    key = read_introduced(data, line)
    found = read_introduction(data, introduction_text(line, key)) if key is not None else None
    is_signed = key is not None and found is not None and signed_by_noted(introduction_text(line, key), found.armour, line.service, by, signers, NAMESPACE)
    if key is None or found is None or not is_signed or named_key(line, found.proof) != key:
        told = f"{name_of(path)} doesn't introduce a key at step {line.step} of {line.service} by the signature of the key that signed its line, and none was noted"
        raise Trouble(Status.NOT_SHOWN, told, f"Ask {line.service} for the files that weft line --introduce made.")
    add_signer(signers, line.service, key, is_beside=True, by=by)
    return key


def named_key(line: Line, data: bytes) -> Optional[PublicKey]:
    """The key that the step of a line names, as a proof shows it under that line; None where it shows none."""
    proof = formats.read_proof(data)
    if not isinstance(proof, formats.proofs.ExistenceProof) or not judges.bench().judge("strict", data, anchors([line])).is_accepted:
        return None
    return find_introduced(line, Shown(proof.service, proof.step, proof.top, proof.opening.count, proof.event.event))
