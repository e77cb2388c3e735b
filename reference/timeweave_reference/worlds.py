"""Scripts played: what `replay` tells of the lines of a script, by services of this library on disks in memory.

docs/formats.md, "What is told" under "Script". A service's append, or its receiving of a message that makes a step, writes its pages and a
body, then a barrier, a gate, and a barrier ("A commit" there); where its spare gate is open, a write that closes it and a barrier come
first. A crash at one of these calls leaves the step where the gate is open then, and else the steps before.
"""

from __future__ import annotations

import json
from typing import Callable, Dict, List, NamedTuple, Sequence

from .anchors import Anchor
from .answers import ACCEPTED, Answer, answer_text, unreadable
from .fields import Malformed
from .joining import joined
from .proofs import Reason
from .scripts import decoded, read_script
from .services import Refused, Service
from .verdicts import judge_proof, read_proof

OLD, NEW, ZEROS, ONES = range(4)
"""What a crash leaves of a page that was written since the last good barrier: its old bytes, the new ones, zeros, or bytes of the value 1."""


class Crash(NamedTuple):
    """A crash that waits: the device call, from 1, at which the service's next work is stopped, and what it leaves of each page."""

    call: int
    choice: int


class Host:
    """A service of a script on a disk in memory: whether its spare gate is open, and the crash that waits, or None."""

    def __init__(self, name: str) -> None:
        self.service = Service(name)
        self.is_open = True
        self.crash: Crash | None = None

    def took(self, work: Callable[[Service], str]) -> str:
        """The answer of a work that may make a step, which a crash that waits may stop."""
        crash, self.crash = self.crash, None
        after = self.service.copied() if crash else self.service
        first = after.archive.next_page()
        answer = answered(lambda: work(after))
        pages = after.archive.next_page() - first
        closing = 2 if self.is_open else 0
        calls = closing + pages + 4 if pages else 0
        if crash and crash.call <= calls:
            return self._stopped(after, crash, closing, calls)
        self.service, self.is_open = after, self.is_open or pages > 0
        return f"{answer} reopened {after.steps}" if crash else answer

    def _stopped(self, after: Service, crash: Crash, closing: int, calls: int) -> str:
        """The answer where the work was stopped at a call of so many, of which the first ones may close the gate."""
        if crash.call <= closing:
            self.is_open = crash.choice in (OLD, ONES)
        else:
            self.is_open = crash.call >= calls - 1 and crash.choice in (NEW, ONES)
            self.service = after if self.is_open else self.service
        return f"stopped reopened {self.service.steps}"


def answered(work: Callable[[], str]) -> str:
    """What the work answers, or the name of the refusal that it comes to."""
    try:
        return work()
    except Refused as refusal:
        return f"refused {str(refusal).split()[0]}"
    except Malformed:
        return "refused Malformed"


def _appended(service: Service, events: Sequence[bytes]) -> str:
    service.append(events)
    return f"step {service.steps}"


def _received(service: Service, message: bytes) -> str:
    receipt = service.receive(message)
    return f"receipt {int.from_bytes(receipt[20:28], 'big')}"


def _proved(service: Service, kind: str, words: Sequence[str]) -> bytes:
    """The bytes of the proof that the words of a line ask for; raises `Refused`."""
    step, *rest = words
    count = {"event": 1, "thread": 2, "absent": 2, "link": 0}[kind]
    asked, top = rest[:count], int(rest[count]) if len(rest) > count else service.steps
    if kind == "link":
        return service.link_proof(int(step), top)
    if kind == "event":
        return service.event_proof(int(step), int(asked[0]), top)
    if kind == "thread":
        return service.thread_proof(int(step), asked[0], int(asked[1]), top)
    return service.absent_proof(int(step), asked[0], int(asked[1]), top)


class World:
    """What the lines so far made: services, messages and files, which are None where they weren't made, and the anchors that are held.

    A method of the name of a line's first word plays such a line, of the words behind it, and gives its answer.
    """

    def __init__(self) -> None:
        self.hosts: Dict[str, Host] = {}
        self.messages: List[bytes | None] = []
        self.files: List[bytes | None] = []
        self.anchors: Dict[str, Anchor] = {}

    def play(self, form: str, words: Sequence[str]) -> str:
        """The answer of a line."""
        forms: Dict[str, Callable[[Sequence[str]], str]] = {
            "service": self.make_service, "hostile": lambda _: "ok", "append": self.append, "send": self.send, "inject": self.inject,
            "deliver": self.deliver, "drop": self.drop, "crash": self.wait_to_crash, "prove": self.prove, "join": self.join,
            "anchor": self.hold, "verify": self.verify,
        }
        return forms[form](words)

    def make_service(self, words: Sequence[str]) -> str:
        """There is a service of this name."""
        self.hosts[words[0]] = Host(words[0])
        return "ok"

    def append(self, words: Sequence[str]) -> str:
        """A service appends a step."""
        events = [decoded(word.encode()) for word in words[1:]]
        return self.hosts[words[0]].took(lambda service: _appended(service, events))

    def send(self, words: Sequence[str]) -> str:
        """The next message is a service's."""
        service, since = self.hosts[words[0]].service, int(words[1])
        return _made(self.messages, "message", lambda: service.message(since))

    def inject(self, words: Sequence[str]) -> str:
        """The next message is these bytes."""
        return _made(self.messages, "message", lambda: decoded(words[1].encode()))

    def deliver(self, words: Sequence[str]) -> str:
        """A message is given to a service."""
        message = self.messages[int(words[0]) - 1]
        if message is None:
            return "none"
        data = message
        return self.hosts[words[1]].took(lambda service: _received(service, data))

    def drop(self, words: Sequence[str]) -> str:
        """A message is lost."""
        return "none" if self.messages[int(words[0]) - 1] is None else "ok"

    def wait_to_crash(self, words: Sequence[str]) -> str:
        """A service's next work is stopped."""
        self.hosts[words[0]].crash = Crash(int(words[1]), int(words[2]))
        return "ok"

    def prove(self, words: Sequence[str]) -> str:
        """The next file is a proof."""
        service = self.hosts[words[0]].service
        return _made(self.files, "file", lambda: _proved(service, words[1], words[2:]))

    def join(self, words: Sequence[str]) -> str:
        """The next file is what files join to."""
        parts = [self.files[int(word) - 1] for word in words]
        self.files.append(None)
        if None in parts:
            return "none"
        made = joined([read_proof(part) for part in parts if part is not None])
        if isinstance(made, int):
            return f"rejected Gap {made}"
        self.files[-1] = made.to_bytes()
        return f"file {len(self.files)}"

    def hold(self, words: Sequence[str]) -> str:
        """A service's authenticator of a step is held."""
        auths, step = self.hosts[words[0]].service.line.auths, int(words[1])
        if step >= len(auths):
            return "refused NoStep"
        self.anchors[words[0]] = Anchor(step, auths[step])
        return "ok"

    def verify(self, words: Sequence[str]) -> str:
        """A file is judged under the anchors held."""
        file = self.files[int(words[0]) - 1]
        if file is None:
            return "none"
        found = judge_proof(file, self.anchors)
        return f"rejected {found.number}" if isinstance(found, Reason) else "accepted"

    def steps(self) -> Dict[str, int]:
        """The last step of each service, by name."""
        return {name: host.service.steps for name, host in sorted(self.hosts.items())}


def _made(into: List[bytes | None], what: str, work: Callable[[], bytes]) -> str:
    """Puts what the work makes behind the others, or None where it is refused."""
    into.append(None)

    def number() -> str:
        into[-1] = work()
        return f"{what} {len(into)}"

    return answered(number)


def played(data: bytes) -> str:
    """What is told of a script's bytes; raises `Malformed` with the number of a line."""
    world, lines, answers = World(), [], []
    for number, form, words in read_script(data):
        answers.append(world.play(form.decode(), [word.decode() for word in words]))
        lines.append(f"{number} {answers[-1]}\n")
    counts = {word: sum(answer.split()[0] == word for answer in answers) for word in ("accepted", "none", "refused", "rejected")}
    return "".join(lines) + json.dumps({**counts, "services": world.steps()}, separators=(",", ":")) + "\n"


def replay(file: str, data: bytes) -> Answer:
    """What is answered of the script of a file of this name."""
    try:
        return answer_text(ACCEPTED, played(data))
    except Malformed as bad:
        return unreadable(file, "line", bad.place)


def generated(rounds: int) -> str:
    """What `generate` writes of so many rounds, from 1 to 10,000: which events are recorded is the number's, and how many steps there are
    isn't. In each fiftieth round a service receives both others; alpha has gamma's step last that gamma made by receiving beta in the
    round before."""
    told_rounds = rounds // 50
    steps, last = rounds + 2 * told_rounds + 1, 52 * told_rounds
    hops = 2 if told_rounds else 0
    found = {"audit": "stands", "high": None, "hops": hops, "low": last, "steps": [steps] * 3, "threads": 6 * told_rounds, "verdict": "accepted"}
    return json.dumps(found, separators=(",", ":")) + "\n"
