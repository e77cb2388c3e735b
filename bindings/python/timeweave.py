"""Judges proofs, maps and evidence of Timeweave in this process, over the proved library; Python's standard library alone, from 3.9 on.

    import timeweave

    report = timeweave.verify(proof, anchors)       # bytes of a proof, lines of an anchors file; raises Rejected
    print(report.kind, report.events[0].data)

The library is the file that the variable TIMEWEAVE_LIBRARY names; else that of the repository (`make lib`) or of the `make install` to which
this file belongs; else the one that the system has. A copy of this file in another folder takes none that lies around it.
What the library answers is proved; this file, which hands bytes to it and takes its text apart, is tested alone.
"""

import ctypes
import os
from dataclasses import dataclass, field
from pathlib import Path
from typing import TYPE_CHECKING, Any, Callable, Dict, List, NoReturn, Optional, Tuple, Union

if TYPE_CHECKING:
    from timeweave_recording import Receipt as Receipt
    from timeweave_recording import RefusedEvent as RefusedEvent
    from timeweave_recording import Service as Service
    from timeweave_recording import Unknown as Unknown

ACCEPTED, REJECTED, NO_MEMORY, UNREADABLE = 0, 1, 6, 9
BAD_ANCHORS = UNREADABLE
HERE = Path(__file__).resolve().parent
# The last two folders of a place that this file may belong to, and what else lies there then.
PLACES = {("bindings", "python"): "crates.txt", ("share", "timeweave"): "share/timeweave/weft/__init__.py"}
FIRST_ROOM = 1024
DENIED = "Denied"
"""The rule whose lines have none of its name: that a received thread wasn't received."""

# What is taken for the bytes of a file, and for the lines of an anchors file.
Data = Union[bytes, bytearray, memoryview]
Lines = Union[str, bytes, bytearray, memoryview]


class Rejected(Exception):
    """The file isn't accepted: the number, the name and the fields of the reason, as (6, "BadEvent", ["0"]). Map files that don't fit each
    other have a reason without a number, (None, "Gap", ["2"])."""

    def __init__(self, number: Optional[int], name: str, fields: List[str]) -> None:
        super().__init__(" ".join([*([] if number is None else [str(number)]), name, *fields]))
        self.number, self.name, self.fields = number, name, fields


class BadAnchors(ValueError):
    """The anchors have a bad line: this one, counted from 1, is the first. `file` says which anchors, where there are several."""

    def __init__(self, line: int, file: str = "anchors") -> None:
        super().__init__(f"line {line}" if file == "anchors" else f"{file} line {line}")
        self.line, self.file = line, file


class BadFile(ValueError):
    """The bytes are no map file of their kind, `low` or `high`: at this place, counted from 0, stands the first byte at which none goes on."""

    def __init__(self, file: str, place: int) -> None:
        super().__init__(f"{file} byte {place}")
        self.file, self.place = file, place


@dataclass(frozen=True)
class Thread:
    """A service, a step of it, and the authenticator there."""

    service: str
    step: int
    authenticator: bytes


@dataclass(frozen=True)
class Event:
    """An event: its service, its step, its index there, its bytes, and the time that the step's maker claims, if there is one."""

    service: str
    step: int
    index: int
    data: bytes
    time: Optional[int] = None


@dataclass(frozen=True)
class Hop:
    """The step of a service whose thread another service received, and the step of that one which received it."""

    service: str
    step: int
    by: str
    archived: int


@dataclass(frozen=True)
class Received:
    """The service's archive has the thread at this step; it received it at the step `archived`."""

    service: str
    step: int
    thread: Thread
    archived: int


@dataclass(frozen=True)
class Absent:
    """The service received no thread of that service and step up to this step of its own."""

    service: str
    step: int
    of_service: str
    of_step: int


@dataclass(frozen=True)
class Link:
    """The service's authenticator at a step, linked from a step above, the top."""

    thread: Thread
    top: int


@dataclass
class Report:
    """What an accepted proof claims. The kind is `exists` (one event), `precedes` (the first event precedes the second, by the hops),
    `thread` (received), `absent` or `link`. Threads that are carried are bound by no anchor: the claim rests on them too."""

    kind: str
    text: str
    events: List[Event] = field(default_factory=list)
    hops: List[Hop] = field(default_factory=list)
    carried: List[Thread] = field(default_factory=list)
    received: Optional[Received] = None
    absent: Optional[Absent] = None
    link: Optional[Link] = None


@dataclass(frozen=True)
class Bounds:
    """What two accepted map files show: the greatest step of the peer that the service had received before its step, 0 where there is none; and
    the least step of the peer, up to its step `upto`, that received the service's step or a later one, None where none did."""

    low: int
    high: Optional[int]
    upto: int
    text: str


@dataclass(frozen=True)
class Accused:
    """A thread of evidence, the service that received it, and the step that did."""

    thread: Thread
    by: str
    archived: int


@dataclass(frozen=True)
class Fork:
    """What accepted evidence of a fork shows: two threads of one service, both received, which no sound history both has."""

    first: Accused
    second: Accused
    text: str


@dataclass(frozen=True)
class ShownStep:
    """A step of a service as a file shows it: its authenticator, its count of events, and the time that its maker claims, None where it has none."""

    service: str
    step: int
    authenticator: bytes
    count: int
    time: Optional[int]


@dataclass(frozen=True)
class Noted:
    """A digest of a step of a service: of a `line` its authenticator, of a step `before` the one that the next step has of it, of a `root` that of its
    events."""

    what: str
    service: str
    step: int
    digest: bytes


Said = Union[Received, Absent, ShownStep, Noted, str]
"""What one of two files says that breaks a rule with what the other says; a line that isn't known here stands as it is."""


@dataclass(frozen=True)
class Contradiction:
    """The rule of sound histories that two accepted files of one service break, by its number and name, and what they say that breaks it, in the order in
    which the rule speaks of it. The rule 1, `Denied`, is that a thread was received, and that none of its service and step was received up to a step that
    isn't before. Where `is_joined`, the service of the archives broke the rule: no sound history has the later of its lines. Else it broke the rule or
    showed two histories: no sound history has both lines. A rule whose number you don't know is broken too."""

    is_joined: bool
    number: int
    rule: str
    said: Tuple[Said, ...]
    text: str

    @property
    def service(self) -> str:
        """The service that broke the rule, or showed two histories."""
        said = self.said[0]
        return said.split(" ")[1] if isinstance(said, str) else said.service


# ---- texts


def unhexed(word: str) -> bytes:
    """The bytes of a word of hexadecimal digits; `-` stands for none."""
    return b"" if word == "-" else bytes.fromhex(word)


def words_of(line: str, head: str, count: int) -> List[str]:
    """The words of a line behind its head, so many. Raises ValueError where it is another line."""
    words = line.split(" ")
    if words[0] != head or len(words) != count + 1:
        raise ValueError(f"no line of a report: {line}")
    return words[1:]


def read_event(line: str) -> Event:
    """The event of a line `event`."""
    service, step, index, data = words_of(line, "event", 4)
    return Event(service, int(step), int(index), unhexed(data))


def timed(event: Event, line: str) -> Event:
    """The event with the time of a line `time`."""
    _, _, time = words_of(line, "time", 3)
    return Event(event.service, event.step, event.index, event.data, int(time))


def read_hop(line: str) -> Hop:
    """The hop of a line `hop`."""
    service, step, by, archived = words_of(line, "hop", 4)
    return Hop(service, int(step), by, int(archived))


def read_carried(line: str) -> Thread:
    """The thread of a line `carried`."""
    service, step, authenticator = words_of(line, "carried", 3)
    return Thread(service, int(step), unhexed(authenticator))


def read_received(line: str) -> Received:
    """What a line `thread` says."""
    service, step, of, at, authenticator, archived = words_of(line, "thread", 6)
    return Received(service, int(step), Thread(of, int(at), unhexed(authenticator)), int(archived))


def read_absent(line: str) -> Absent:
    """What a line `absent` says."""
    service, step, of, at = words_of(line, "absent", 4)
    return Absent(service, int(step), of, int(at))


def read_link(line: str) -> Link:
    """What a line `link` says."""
    service, step, top, authenticator = words_of(line, "link", 4)
    return Link(Thread(service, int(step), unhexed(authenticator)), int(top))


def read_line(report: Report, line: str) -> None:
    """Adds what a line of the report says."""
    head = line.split(" ")[0]
    if head == "event":
        report.events.append(read_event(line))
    elif head == "time" and report.events:
        report.events[-1] = timed(report.events[-1], line)
    elif head == "hop":
        report.hops.append(read_hop(line))
    elif head == "carried":
        report.carried.append(read_carried(line))
    elif head == "thread":
        report.received = read_received(line)
    elif head == "absent":
        report.absent = read_absent(line)
    elif head == "link":
        report.link = read_link(line)
    else:
        raise ValueError(f"no line of a report: {line}")


def read_report(text: str) -> Report:
    """The report of an accepted proof, of its text."""
    head, *lines = text.splitlines()
    report = Report(head.removeprefix("accepted "), text)
    for line in lines:
        read_line(report, line)
    return report


def read_bounds(text: str) -> Bounds:
    """The bounds of accepted map files, of their text."""
    _, low, high, upto = text.splitlines()
    (least,), (most,), (last,) = words_of(low, "low", 1), words_of(high, "high", 1), words_of(upto, "upto", 1)
    return Bounds(int(least), None if most == "none" else int(most), int(last), text)


def read_accused(line: str, head: str) -> Accused:
    """The thread of a line of accepted evidence."""
    service, step, authenticator, by, archived = words_of(line, head, 5)
    return Accused(Thread(service, int(step), unhexed(authenticator)), by, int(archived))


def read_fork(text: str) -> Fork:
    """What accepted evidence shows, of its text."""
    _, first, second = text.splitlines()
    return Fork(read_accused(first, "first"), read_accused(second, "second"), text)


def read_step(line: str) -> ShownStep:
    """What a line `step` says."""
    service, step, authenticator, count, time = words_of(line, "step", 5)
    return ShownStep(service, int(step), unhexed(authenticator), int(count), None if time == "-" else int(time))


def read_said(line: str) -> Said:
    """What a line says that breaks a rule."""
    what = line.split(" ")[0]
    if what == "thread":
        return read_received(line)
    if what == "absent":
        return read_absent(line)
    if what == "step":
        return read_step(line)
    if what not in ("line", "before", "root"):
        return line
    service, step, digest = words_of(line, what, 3)
    return Noted(what, service, int(step), unhexed(digest))


def read_contradiction(text: str) -> Contradiction:
    """The rule that two files break, of their text."""
    head, *lines = text.splitlines()
    number, rule = "1", DENIED
    if lines[0].startswith("rule "):
        number, rule = words_of(lines.pop(0), "rule", 2)
    said = tuple(read_said(line) for line in lines)
    return Contradiction(head == "accepted broken-rule", int(number), rule, said, text)


def raise_refusal(status: int, text: str) -> NoReturn:
    """Raises what a status and a text say of files that aren't accepted."""
    words = text.split()
    if status == REJECTED and words[1].isdigit():
        raise Rejected(int(words[1]), words[2], words[3:])
    if status == REJECTED:
        raise Rejected(None, words[1], words[2:])
    if status == UNREADABLE and words[2] == "line":
        raise BadAnchors(int(words[3]), words[1])
    if status == UNREADABLE:
        raise BadFile(words[1], int(words[3]))
    raise MemoryError(text)


def answer_of(status: int, text: str) -> Report:
    """The report of a status and a text that were told of a proof, or what is raised for them."""
    return read_report(text) if status == ACCEPTED else raise_refusal(status, text)


# What each function of the library tells of files that are accepted.
READ: Dict[str, Callable[[str], Union[Report, Bounds, Fork, Contradiction]]] = {
    "timeweave_verify": read_report,
    "timeweave_strict": read_report,
    "timeweave_checkmap": read_bounds,
    "timeweave_checkfork": read_fork,
    "timeweave_contradict": read_contradiction,
    "timeweave_receiver": read_contradiction,
}


def read_answer(name: str, status: int, text: str) -> Union[Report, Bounds, Fork, Contradiction]:
    """What the function of this name told by a status and a text, or what is raised for them."""
    return READ[name](text) if status == ACCEPTED else raise_refusal(status, text)


# ---- the library


class Library:
    """The loaded library."""

    # The functions that judge, each with the number of files whose bytes it takes. A library that was built earlier may lack some.
    TAKES = {
        "timeweave_verify": 2,
        "timeweave_strict": 2,
        "timeweave_checkmap": 3,
        "timeweave_checkfork": 2,
        "timeweave_contradict": 5,
        "timeweave_receiver": 3,
    }

    def __init__(self, path: Union[str, Path]) -> None:
        self.functions: Any = ctypes.CDLL(str(path))
        size = ctypes.c_size_t
        for name, count in self.TAKES.items():
            if not self.has(name):
                continue
            function = getattr(self.functions, name)
            function.restype = ctypes.c_uint32
            function.argtypes = [ctypes.c_char_p, size] * (count + 1) + [ctypes.POINTER(size)]
        self.functions.timeweave_version.restype = size
        self.functions.timeweave_version.argtypes = [ctypes.c_char_p, size]

    def has(self, name: str) -> bool:
        """Whether it has the function of this name."""
        return hasattr(self.functions, name)

    def ask(self, name: str, *files: bytes) -> Tuple[int, bytes]:
        """The status and the text that the function of this name answers to the bytes of these files."""
        function, room, size = getattr(self.functions, name), FIRST_ROOM, ctypes.c_size_t()
        given = [part for data in files for part in (data, len(data))]
        while True:
            out = ctypes.create_string_buffer(room)
            status = function(*given, out, room, ctypes.byref(size))
            if size.value <= room:
                return int(status), out.raw[: size.value]
            room = size.value

    def judge(self, proof: bytes, anchors: bytes, is_strict: bool) -> Tuple[int, bytes]:
        """The status of the program, and its text, for the bytes of a proof and of an anchors file."""
        return self.ask("timeweave_strict" if is_strict else "timeweave_verify", proof, anchors)

    def version(self) -> str:
        """The version of the library."""
        out = ctypes.create_string_buffer(64)
        size: int = self.functions.timeweave_version(out, 64)
        return out.raw[:size].decode()


LOADED: List[Library] = []


def library_of(folder: Path) -> Optional[Path]:
    """The library of the repository or of the installation of which a folder has this file; None of another folder, whoever put what around it."""
    mark = PLACES.get((folder.parent.name, folder.name))
    top = folder.parent.parent
    path = top / "lib/libtimeweave.so"
    return path if mark is not None and (top / mark).is_file() and path.is_file() else None


def library_named() -> Optional[str]:
    """What TIMEWEAVE_LIBRARY names, where it is set; raises OSError where it names a file from the current folder on: that may be somebody else's, who sent the folder."""
    named = os.environ.get("TIMEWEAVE_LIBRARY")
    if named and os.path.dirname(named) and not os.path.isabs(named):
        raise OSError(f"TIMEWEAVE_LIBRARY names {named} from the current folder on; name it from the root on")
    return named


def library() -> Library:
    """The library, loaded once."""
    if not LOADED:
        LOADED.append(Library(library_named() or library_of(HERE) or "libtimeweave.so.1"))
    return LOADED[0]


def bytes_of(lines: Lines) -> bytes:
    """The bytes of the lines of an anchors file."""
    return lines.encode() if isinstance(lines, str) else bytes(lines)


def asked(name: str, *files: bytes) -> str:
    """The text that a function of the library answers to files that are accepted. Raises what it says of others."""
    status, data = library().ask(name, *files)
    text = data.decode("ascii")
    return text if status == ACCEPTED else raise_refusal(status, text)


def verify(proof: Data, anchors: Lines) -> Report:
    """The report of a proof that is accepted under the anchors, which are the lines of an anchors file, as text or as bytes. Raises
    Rejected, BadAnchors or MemoryError."""
    return read_report(asked("timeweave_verify", bytes(proof), bytes_of(anchors)))


def strict(proof: Data, anchors: Lines) -> Report:
    """The same in the strict form: a proof that carries threads, which no anchor binds, is rejected."""
    return read_report(asked("timeweave_strict", bytes(proof), bytes_of(anchors)))


def checkmap(low: Data, high: Data, anchors: Lines) -> Bounds:
    """The bounds that a low and a high map file show, which are accepted under the anchors. Raises Rejected, BadFile, BadAnchors or
    MemoryError."""
    return read_bounds(asked("timeweave_checkmap", bytes(low), bytes(high), bytes_of(anchors)))


def checkfork(evidence: Data, anchors: Lines) -> Fork:
    """What the evidence of a fork shows that is accepted under the anchors. Raises Rejected, BadAnchors or MemoryError."""
    return read_fork(asked("timeweave_checkfork", bytes(evidence), bytes_of(anchors)))


def contradict(first: Data, first_anchors: Lines, second: Data, second_anchors: Lines, link: Data = b"") -> Contradiction:
    """The rule that two files break, each accepted under its own anchors: proofs that a thread was received or that none was, or map files. One file may
    be given twice. The link is a proof of a step's authenticator, which joins the earlier line of the service to the later one; none is needed where both
    files are accepted under one line. Raises Rejected, with the reason NoConflict where they are of two services or break none of the rules, BadAnchors
    or MemoryError."""
    files = (bytes(first), bytes_of(first_anchors), bytes(second), bytes_of(second_anchors), bytes(link))
    return read_contradiction(asked("timeweave_contradict", *files))


def receiver(evidence: Data, anchors: Lines, link: Data = b"") -> Contradiction:
    """The rule that the service broke which received both threads of the evidence of a fork, by its two proofs as two files, each accepted under the
    anchors; the link is as with `contradict`. Whether the evidence shows a fork isn't asked. Raises Rejected, with the reason NoConflict where two services
    received them, or one that broke no rule by it, and Malformed where the bytes are no evidence, BadAnchors or MemoryError."""
    return read_contradiction(asked("timeweave_receiver", bytes(evidence), bytes_of(anchors), bytes(link)))


def version() -> str:
    """The version of the library."""
    return library().version()


# ---- recording


def __getattr__(name: str) -> Any:
    """What records events stands in a file of its own, `timeweave_recording.py`, which is loaded where it is asked for."""
    if name in ("Receipt", "RefusedEvent", "Service", "Unknown"):
        import timeweave_recording

        return getattr(timeweave_recording, name)
    raise AttributeError(f"module {__name__!r} has no attribute {name!r}")
