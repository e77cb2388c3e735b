"""What the services of a network find out of those that don't keep the rules, and whether they accuse somebody who does."""

from collections import defaultdict
from pathlib import Path
from typing import NamedTuple, Optional

from network import turns
from network.files import Dropped
from network.plan import Plan
from network.truth import Histories
from network.turns import Turn
from timeweave_reference.histories import timeline_of

from weft import formats, judges
from weft.lines import anchors

OLD_STORE = 17


class Count(NamedTuple):
    """Of a part how many had it, how many of them were found, and why the others weren't."""

    part: str
    played: int
    found: int
    why: str = ""


class Found:
    """What was told in the nights."""

    def __init__(self, plan: Plan):
        self.plan = plan
        self.evidence: dict[str, int] = {}
        self.old: set[str] = set()
        self.held_back = 0
        self.untold: set[tuple[int, str]] = set()
        self.taken_over: set[str] = set()
        self.floods: set[str] = set()
        self.other: dict[str, int] = defaultdict(int)
        self.dropped: dict[str, Optional[Dropped]] = {}

    def note_other(self, name: str, lines: list[str]) -> None:
        """Notes that a liar's other history has gone on."""
        self.other[name] += len(lines)

    def note(self, night: int, turn: Turn) -> list[str]:
        """Notes what a turn told; answers what of it is wrong."""
        plan, wrong = self.plan, []
        for line in turn.told.splitlines():
            name = line.split(":")[0]
            if "EVIDENCE" in line and name in plan.liars:
                self.evidence.setdefault(name, night)
            elif "EVIDENCE" in line:
                wrong.append(f"{turn.name} accuses {name}: {turn.told}")
        wrong += self.note_floods(night, turn)
        if turn.status == OLD_STORE and plan.is_old(night, turn.name):
            self.old.add(turn.name)
        elif turn.status == OLD_STORE and "unsigned" in turn.told:
            self.held_back += 1  # (a receipt that was damaged on its way told a later step; the next night's tells the true one)
        elif turn.fault is None and not plan.is_lying(night, turn.name):
            if plan.is_old(night, turn.name):
                wrong.append(f"{turn.name} wasn't told that its store is old: {turn}")
            elif turn.status not in turns.DONE:
                wrong.append(f"{turn.name}: {turn.status} {turn.told}")
        return [f"night {night}: {it}" for it in wrong]

    def note_floods(self, night: int, turn: Turn) -> list[str]:
        """Notes that a flood was told in the night after it; that it wasn't is wrong."""
        wrong = []
        for name, begin in self.plan.flooders.items():
            if night == begin + 1 and name in self.plan.peers[turn.name] and turn.status in turns.DONE:
                is_told = any(line.startswith(f"{name}: ") and ("wasn't taken" in line or "weren't fetched" in line) for line in turn.told.splitlines())
                self.floods |= {name} if is_told else set()
                wrong += [] if is_told else [f"{turn.name} didn't tell the flood of {name}: {turn.told}"]
        return wrong

    # ---- the end

    def counted(self, folder: Path, program: str, histories: Histories) -> tuple[list[Count], list[str]]:
        """How many of each part were found, and what of it is wrong."""
        plan, made_up = self.plan, made_up_lines(histories)
        wrong = [f"nobody found that {name} shows two histories" for name in plan.forkers if name not in self.evidence]
        wrong += [f"nobody found that {name} shows two histories to {plan.victim(name)}" for name in plan.hiders if name not in self.evidence and plan.can_be_found(name)]
        wrong += [f"nobody found that {name} shows a history of other steps to {plan.victim(name)}" for name in plan.skippers if name not in self.evidence and plan.can_be_found(name)]
        could = {name for name, begin in plan.old.items() if any((night, name) not in self.untold for night in range(begin, begin + plan.old_nights))}
        wrong += [f"the old store of {name} wasn't told" for name in could if name not in self.old]
        wrong += [f"a line that nobody made was received: {it}" for it in made_up]
        wrong += [f"{name} made no other history" for name in plan.liars if not self.other[name]]
        by_proofs, by_audit = self.keepers_found(folder, program)
        if len(by_proofs) < len(self.keepers) or len(by_audit) < len(self.keepers):
            wrong.append(f"of the keepers {self.keepers} two proofs show {by_proofs}, and an audit {by_audit}")
        counts = [
            Count("another history shown to one peer for six nights, then to all", len(plan.forkers), self.count(plan.forkers)),
            Count("another history shown to one peer for good", len(plan.hiders), self.count(plan.hiders), "that peer exchanges with no other peer of the liar"),
            Count("another history, of other step numbers, shown to one peer for good", len(plan.skippers), self.count(plan.skippers), "that peer exchanges with no other peer of the liar"),
            Count("an old store put back: no step was made", len(plan.old), len(self.old), "no peer handed back a later line that wasn't damaged on its way"),
            Count("a message made up in somebody's name: held back", len(plan.squatted), len(plan.squatted) - len(made_up)),
            Count("a peer's folder flooded: told, and the turn went on", len(plan.flooders), len(self.floods)),
            Count("gone for good: its history taken over", len(plan.gone), len(self.taken_over), "nobody who keeps the rules received its lines"),
            Count("a thread dropped from an archive: by two proofs that contradict", len(self.keepers), len(by_proofs)),
            Count("the same: by an audit of the whole history", len(self.keepers), len(by_audit)),
            Count("the same: by nightly turns alone", len(self.keepers), 0, "no turn asks for the proof that a line was not received"),
        ]  # fmt: skip
        return [count for count in counts if count.played], wrong

    def count(self, liars: dict[str, int]) -> int:
        """Of how many of these there is evidence."""
        return sum(name in self.evidence for name in liars)

    @property
    def keepers(self) -> list[str]:
        """Those that dropped a thread."""
        return [name for name, dropped in self.dropped.items() if dropped]

    def keepers_found(self, folder: Path, program: str) -> tuple[list[str], list[str]]:
        """Of which keepers two of their proofs contradict each other, and of which an audit of the history tells it."""
        by_proofs, by_audit = [], []
        for name, dropped in self.dropped.items():
            if dropped is None:
                continue
            message = formats.read_message(ask_program(folder, program, "thread", name, "0"))
            assert message is not None, f"{name} has steps"
            held, thread = anchors([formats.line_of(message)]), (dropped.peer, str(dropped.step), str(message.step))
            first = ask_program(folder, program, "prove", name, "thread", str(dropped.received), *thread)
            second = ask_program(folder, program, "prove", name, "absent", str(dropped.gone), *thread)
            bench = judges.bench()
            bench = bench if bench.has("contradict") else judges.bench(is_by_reference=True)
            if bench.judge("contradict", first, held, second, held, b"").is_accepted:
                by_proofs.append(name)
            (folder / "tmp/kept.history").write_bytes(ask_program(folder, program, "export", name))
            status, text = turns.run_program(str(folder), program, "show", "tmp/kept.history", "1", "0")
            if status == judges.UNREADABLE and text.startswith(b"unsound"):
                by_audit.append(name)
        return by_proofs, by_audit


def ask_program(folder: Path, program: str, *words: str) -> bytes:
    """What the program answers of a store."""
    return turns.run_program(str(folder), program, *words)[1]


def made_up_lines(histories: Histories) -> list[str]:
    """The lines of honest services in honest archives that those services never had."""
    auths = {name: timeline_of(name, steps).auths for name, steps in histories.items()}
    found = []
    for name, steps in histories.items():
        for step in steps:
            thread = step.thread
            if thread and thread.service in auths and auths[thread.service][thread.step : thread.step + 1] != [thread.authenticator]:
                found.append(f"{name} received step {thread.step} of {thread.service}")
    return found
