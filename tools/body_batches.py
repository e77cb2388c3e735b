"""Which wrong bodies of a crate stand in one copy of it together, and of which the prover says there that it refuses them.

A function is proved by its own contract and the contracts of what it calls, and the prover goes on behind a function that it refuses: so edits of the
bodies of different functions are tried by one check. An edit counts as refused there where a function whose body it changes is refused for a reason of its
own; of one that only calls such a function the prover says just that, `no proof: it calls ..`, which counts for nothing. A check that refuses a function
which no edit changes counts for nothing either. An edit of anything else than bodies, as a constant, a type, a contract, a definition or a proof, is tried
alone.
"""

import re
from dataclasses import dataclass, field
from typing import Optional

from leave_out import CHANGE, GENERIC, Crate, Function

# A file's path in its crate, what stands there once, and what stands there instead.
Change = tuple[str, str, str]

TOLD = re.compile(r"^fn (\S+): (.*)$", re.M)
PROOF = re.compile(r"(?:\./)?proofs/(\S+)/\w+\.antt:\d+:\d+: error: ")
NOTE = re.compile(r"note: (?:\./)?(src/\S+?):(\d+):\d+: .*not proved")

# A file of proof that names what an edit took away says little of the contract.
LITTLE = re.compile(r"has no field|is not in scope|has no `|was not admitted")


def changes_of(text: str) -> list[Change]:
    """What an edit changes, in its order."""
    found, path, old = [], "", ""
    for word, said in CHANGE.findall(text):
        path = said if word == "file" else path
        old = said if word == "old" else old
        if word == "new":
            found.append((path, old, said))
    return found


def changed(texts: dict[str, str], changes: list[Change]) -> Optional[tuple[dict[str, str], list[tuple[str, int]]]]:
    """The files with these changes, and the line of each; nothing where an old text doesn't stand there once."""
    texts, lines = dict(texts), []
    for path, old, new in changes:
        before, found, behind = texts.get(path, "").partition(old)
        if not found or old in behind:
            return None
        lines.append((path, before.count("\n")))
        texts[path] = before + new + behind
    return texts, lines


def texts_of(crate: Crate) -> dict[str, str]:
    """The files of a crate's code, by their paths in it."""
    return {str(path.relative_to(crate.folder)): path.read_text() for path in crate.files.values()}


def function_at(crate: Crate, path: str, line: int) -> Optional[Function]:
    """The function in whose body a line stands; none for one that may be read at a constant or a type."""
    inside = [it for it in crate.functions if crate.files[it.module] == crate.folder / path and it.body < line <= it.span[2]]
    return inside[0] if inside and "const fn" not in inside[0].head else None


@dataclass
class Batch:
    """Edits of different functions in one copy of a crate: its files, and of each edit its changes and the functions whose bodies it changes."""

    texts: dict[str, str]
    edits: dict[str, tuple[list[Change], list[Function]]] = field(default_factory=dict)

    def takes(self, edit: str, changes: list[Change], functions: list[Function], lines: list[tuple[str, int]]) -> bool:
        """Puts an edit there, if its functions are those of no other, and its old texts stand where they do in the crate."""
        made = changed(self.texts, changes)
        if made is None or made[1] != lines or any(it in others for _, others in self.edits.values() for it in functions):
            return False
        self.texts, self.edits[edit] = made[0], (changes, functions)
        return True


def batches(crate: Crate, bodies: dict[str, str]) -> tuple[list[Batch], list[str]]:
    """The edits of a crate in as few batches as their order gives, and those that are tried alone."""
    found: list[Batch] = []
    alone, texts = [], texts_of(crate)
    for edit, text in bodies.items():
        changes = changes_of(text)
        made = changed(texts, changes)
        lines = made[1] if made else []
        functions = [it for line in lines if (it := function_at(crate, *line))]
        if not lines or len(functions) < len(lines):
            alone.append(edit)
        elif not any(batch.takes(edit, changes, functions, lines) for batch in found):
            found.append(Batch(texts))
            found[-1].takes(edit, changes, functions, lines)
    return found, alone


def halves(crate: Crate, batch: Batch) -> list[Batch]:
    """A batch as two of half as many edits."""
    edits, made = list(batch.edits.items()), []
    for part in (edits[: len(edits) // 2], edits[len(edits) // 2 :]):
        made.append(Batch(texts_of(crate)))
        for edit, (changes, functions) in part:
            lines = (changed(made[-1].texts, changes) or ({}, []))[1]
            made[-1].takes(edit, changes, functions, lines)
    return made


# ---- what the prover says


def names_of(crate: Crate, function: Function, told: dict[str, str]) -> list[str]:
    """The names, of those that the prover told, that are a function's and its closures'; none where it isn't clear which is the function's. A method is told
    below its type, which may stand in another module, with the name of the trait and of what that is for."""
    front, of_trait = "::".join([crate.name, *function.module]), re.match(r"(.*) for ", GENERIC.sub("", function.block))
    found = [f"{front}::{function.name}"] if f"{front}::{function.name}" in told else []
    if function.block.startswith("impl"):
        what = re.sub(r"\W", "", re.sub(r"\w+::", "", of_trait[1])) if of_trait else ""
        found = [name for name in told if re.fullmatch(rf"{crate.name}::(\w+::)*{function.kind}{what}::{function.name}", name)]
        found = [name for name in found if name.startswith(f"{front}::")] or found
    return found + [name for name in told if name.startswith(f"{front}::fn::{function.name}::")] if len(found) == 1 else []


def is_refused(told: str) -> bool:
    """Whether the prover refuses a function for a reason of its own, by what it tells of it."""
    return told.startswith("not proved") or told.startswith("no proof") and "`search` did not prove" in told


def reasons(crate: Crate, function: Function, names: list[str], said: str) -> list[str]:
    """The lines in which the prover says why it refuses a function, but for those that say little of its contract."""
    path, found = crate.files[function.module].relative_to(crate.folder), []
    for line in said.splitlines():
        proof, note = PROOF.match(line), NOTE.match(line)
        is_of_proof = proof and "::".join([crate.name, *proof[1].replace("+", "").split("/")]) in names
        is_of_code = note and note[1] == str(path) and function.span[0] < int(note[2]) <= function.span[2] + 1
        if is_of_code or is_of_proof and not LITTLE.search(line):
            found.append(line)
    return found


def refused(crate: Crate, batch: Batch, said: str) -> Optional[dict[str, str]]:
    """The edits of a batch that the prover refuses, each with its reason; nothing where what it said counts for none of them."""
    told = dict(TOLD.findall(said))
    own = {name for name, words in told.items() if is_refused(words)}
    if not said.rstrip("\n").rpartition("\n")[2].startswith("logic=not-proved"):
        return None
    found, changed_names = {}, set()
    for edit, (_, functions) in batch.edits.items():
        for function in functions:
            names = names_of(crate, function, told)
            changed_names.update(names)
            why = reasons(crate, function, names, said) if own & set(names) else []
            found.update({edit: why[0]} if why and edit not in found else {})
    return found if own <= changed_names else None
