"""Who judges: the proved library, the proved program, and the Python reference. weft itself judges nothing.

Where the library has a call, it is asked, else the program. The reference is asked as well, and both have to say the same; with `--reference`
it is asked alone, and the statuses tell that."""

from __future__ import annotations

import functools
import importlib
import os
import tempfile
from contextlib import ExitStack, contextmanager
from pathlib import Path
from typing import Any, Iterator, NamedTuple, Optional, Protocol, Union

from weft import packages, program
from weft.statuses import Status
from weft.texts import printable, quoted
from weft.trouble import Trouble

ACCEPTED, REJECTED, UNREADABLE = 0, 1, 9
MOST_WHY = 400
REFERENCE = "Python reference, tested, not proved"
LOW, HIGH, HISTORY = "low", "high", "history"


class Verdict(NamedTuple):
    """What a judge answered: the status and the text of the program."""

    status: int
    text: str

    @property
    def is_accepted(self) -> bool:
        """Whether it is shown."""
        return self.status == ACCEPTED

    @property
    def reason(self) -> list[str]:
        """The words behind `rejected`, of what isn't."""
        return self.text.split()[1:] if self.status == REJECTED else []

    @property
    def lines(self) -> list[list[str]]:
        """The words of each line."""
        return [line.split(" ") for line in self.text.splitlines()]


class Shown(NamedTuple):
    """The proof that was made from a history's file; of one that is none, or breaks a rule, the status 9 and its text."""

    status: int
    data: bytes


class Judge(Protocol):
    """One that judges the bytes of files."""

    name: str

    def has(self, call: str) -> bool:
        """Whether it judges this: `verify`, `strict`, `checkmap`, `checkfork`, `contradict` or `receiver`."""

    def judge(self, call: str, files: tuple[bytes, ...]) -> Verdict:
        """The verdict on the bytes of files, which stand as the library's function of this name takes them: last an anchors file; of `contradict`
        the first file with its anchors, the second with its own, and a link, which may be empty; of `receiver` evidence, its anchors and such a link."""


class LibraryJudge:
    """The proved library, in this process."""

    def __init__(self, binding: Any, library: Any):
        self.binding, self.library = binding, library
        self.name = program.judge_name("library", library_path())

    def has(self, call: str) -> bool:
        """Whether the library has the call."""
        if call == "audit":
            return False
        return call in ("verify", "strict") or (hasattr(self.library, "ask") and hasattr(self.library.functions, f"timeweave_{call}"))

    def judge(self, call: str, files: tuple[bytes, ...]) -> Verdict:
        """Asks the library."""
        if call in ("verify", "strict"):
            status, text = self.library.judge(*files, call == "strict")
        else:
            status, text = self.library.ask(f"timeweave_{call}", *files)
        if status == Status.NO_MEMORY:
            raise Trouble(Status.NO_MEMORY, "the library had no memory")
        return Verdict(status, text.decode("ascii"))


class ProgramJudge:
    """The proved program, run on files in a folder of its own."""

    def __init__(self, path: str):
        self.name = program.judge_name("program", path)
        self.folder: Optional[str] = None

    @contextmanager
    def working(self) -> Iterator[str]:
        """The folder: one for all judgements within the outermost of these."""
        if self.folder is not None:
            yield self.folder
            return
        with tempfile.TemporaryDirectory(prefix="weft-") as folder:
            self.folder = folder
            try:
                yield folder
            finally:
                self.folder = None

    def has(self, call: str) -> bool:
        """The program has these commands."""
        return call in ("verify", "strict", "checkmap", "checkfork", "audit")

    def judge(self, call: str, files: tuple[bytes, ...]) -> Verdict:
        """Runs the program; what fails otherwise than by a verdict is trouble."""
        with self.working() as folder:
            paths = [Path(folder) / name for name in (*(LOW, HIGH)[: len(files) - 1], "anchors")]
            for path, data in zip(paths, files):
                path.write_bytes(data)
            answer = program.run(call, *map(str, paths))
            if answer.status not in (ACCEPTED, REJECTED, UNREADABLE):
                raise program.trouble(answer, folder)
            return Verdict(answer.status, answer.text.replace(folder + "/", ""))

    def audit(self, proof: bytes, anchors: bytes, *histories: bytes) -> Verdict:
        """Has the program hold a proof against the files of histories."""
        with self.working() as folder:
            names = {LOW: proof, "anchors": anchors, **{f"{HISTORY}{number or ''}": data for number, data in enumerate(histories)}}
            for name, data in names.items():
                (Path(folder) / name).write_bytes(data)
            answer = program.run("audit", *(str(Path(folder) / name) for name in names))
            if answer.status not in (ACCEPTED, REJECTED, UNREADABLE):
                raise program.trouble(answer, folder)
            return Verdict(answer.status, answer.text.replace(folder + "/", ""))

    def show(self, history: bytes, step: int, index: int) -> Shown:
        """Has the program make the proof of an event of a history's file."""
        with self.working() as folder:
            path = Path(folder) / HISTORY
            path.write_bytes(history)
            answer = program.run("show", str(path), str(step), str(index))
            if answer.status not in (ACCEPTED, UNREADABLE):
                raise program.trouble(answer, folder)
            return Shown(answer.status, answer.output.replace(f"{folder}/".encode(), b"") if answer.status else answer.output)


class ReferenceJudge:
    """The second implementation, in Python."""

    name = REFERENCE

    def has(self, call: str) -> bool:
        """Whether the reference has the call."""
        return hasattr(importlib.import_module("timeweave_reference"), call)

    def judge(self, call: str, files: tuple[bytes, ...]) -> Verdict:
        """Asks the reference."""
        answer = getattr(importlib.import_module("timeweave_reference"), call)(*files)
        return Verdict(answer.status, answer.text.decode("ascii"))

    def audit(self, proof: bytes, anchors: bytes, *histories: bytes) -> Verdict:
        """Has the reference hold a proof against the files of histories."""
        answer = importlib.import_module("timeweave_reference").audit(proof, anchors, histories)
        return Verdict(answer.status, answer.text.decode("ascii"))

    def show(self, history: bytes, step: int, index: int) -> Shown:
        """Has the reference make the proof of an event of a history's file."""
        answer = importlib.import_module("timeweave_reference").show(history, step, index)
        return Shown(answer.status, answer.text)


class Bench:
    """The judges at hand, the first of which that has a call counts; the others have to say the same."""

    def __init__(self, proved: list[Judge], reference: Optional[ReferenceJudge], is_by_reference: bool = False):
        self.proved, self.reference, self.is_by_reference = proved, reference, is_by_reference

    def seated(self, call: str) -> list[Judge]:
        """Who judges this call; raises Trouble where nobody does."""
        proved = [] if self.is_by_reference else [judge for judge in self.proved if judge.has(call)][:1]
        also = [self.reference] if self.reference and self.reference.has(call) else []
        if not proved and not (self.is_by_reference and also):
            raise nobody(self.is_by_reference)
        return [*proved, *also]

    @contextmanager
    def working(self) -> Iterator[None]:
        """Within it many judgements take less time."""
        with ExitStack() as stack:
            for judge in self.proved:
                if isinstance(judge, ProgramJudge):
                    stack.enter_context(judge.working())
            yield

    def has(self, call: str) -> bool:
        """Whether somebody judges this call."""
        judges: list[Optional[Judge]] = [self.reference] if self.is_by_reference else list(self.proved)
        return any(judge is not None and judge.has(call) for judge in judges)

    def judge(self, call: str, *files: bytes) -> Verdict:
        """The verdict; raises Trouble where two judges differ."""
        judges = self.seated(call)
        verdicts = [judge.judge(call, files) for judge in judges]
        for judge, verdict in zip(judges[1:], verdicts[1:]):
            if verdict != verdicts[0]:
                first, other = printable(verdicts[0].text.strip()), printable(verdict.text.strip())
                raise Trouble(
                    Status.DIFFER,
                    f"two judges differ: {judges[0].name} says {first!r}, and {judge.name} says {other!r}",
                    "This is a bug: trust neither, keep the files, and report it.",
                )
        return verdicts[0]

    def show(self, history: bytes, step: int, index: int) -> Shown:
        """The proof of an event of a history's file, by the program, and the same by the reference; raises Trouble where they differ, or nobody makes it."""
        makers: list[Union[ProgramJudge, ReferenceJudge]] = [judge for judge in self.proved if isinstance(judge, ProgramJudge)]
        if self.reference is not None:
            makers.append(self.reference)
        if not self.is_by_reference:
            program.needed()
        if not makers:
            raise nobody(self.is_by_reference)
        found = [maker.show(history, step, index) for maker in makers]
        if any(it != found[0] for it in found):
            raise Trouble(Status.DIFFER, "the program and the reference make two proofs of one event of this history", "This is a bug: keep it, and report it.")
        return found[0]

    def audit(self, proof: bytes, anchors: bytes, *histories: bytes) -> Verdict:
        """A proof held against the files of histories by the first judge that does it."""
        if not self.is_by_reference:
            program.needed()
        first = self.seated("audit")[0]
        if not isinstance(first, (ProgramJudge, ReferenceJudge)):
            raise nobody(self.is_by_reference)
        return first.audit(proof, anchors, *histories)

    def name_judges(self, call: str) -> str:
        """The line behind a verdict."""
        names = [judge.name for judge in self.seated(call)]
        return f"judged by: {names[0]}" + "".join(f"; the same by: {name}" for name in names[1:])

    def status(self, is_shown: bool) -> Status:
        """The status of a verdict."""
        if self.is_by_reference:
            return Status.SHOWN_BY_REFERENCE if is_shown else Status.NOT_SHOWN_BY_REFERENCE
        return Status.DONE if is_shown else Status.NOT_SHOWN


def for_contradictions(judge: Bench, call: str = "contradict") -> Bench:
    """Who judges whether files show a rule broken: the library, and where it isn't there the reference alone, rather than nobody."""
    return judge if judge.has(call) else bench(True)


def nobody(is_by_reference: bool) -> Trouble:
    """Nobody judges."""
    if is_by_reference:
        return Trouble(Status.NO_JUDGE, "the Python package timeweave_reference isn't there, or doesn't judge this", "Install it.")
    return Trouble(
        Status.NO_JUDGE,
        "there is neither the proved library nor the proved program, so nothing is judged",
        "Install timeweave, or name the program by TIMEWEAVE_PROGRAM or the library by TIMEWEAVE_LIBRARY; "
        "--reference judges by the Python reference, which is tested and not proved.",
    )


class Unloaded:
    """Why the library couldn't be loaded, where it was tried."""

    why = ""


@functools.lru_cache(maxsize=None)
def library() -> Optional[LibraryJudge]:
    """The library, or None where it can't be loaded."""
    if not packages.ready("timeweave"):
        Unloaded.why = "the module timeweave isn't there, or isn't the one that this weft was made with"
        return None
    try:
        binding = importlib.import_module("timeweave")
        return LibraryJudge(binding, binding.library())
    except (OSError, SyntaxError, AttributeError, TypeError, ImportError) as failure:
        Unloaded.why = quoted(str(failure)[:MOST_WHY])
        return None


def library_digest() -> str:
    """The SHA-256 digest of the file that the process has loaded as the library."""
    path = library_path()
    return program.digest_of(path) if path else "not known"


def library_path() -> Optional[str]:
    """The path of the loaded library, as the system tells it."""
    try:
        maps = Path("/proc/self/maps").read_text(encoding="utf-8", errors="surrogateescape")
    except OSError:
        named = os.environ.get("TIMEWEAVE_LIBRARY")
        return named if named and os.path.exists(named) else None
    paths = {line.split(None, 5)[5] for line in maps.splitlines() if "libtimeweave" in line and len(line.split(None, 5)) == 6}
    named = os.environ.get("TIMEWEAVE_LIBRARY")
    if not paths and named and os.path.exists(named):
        return named
    return min(paths, default=None)


def bench(is_by_reference: bool = False) -> Bench:
    """The judges at hand."""
    proved: list[Judge] = []
    is_by_reference = is_by_reference or program.is_second(program.find_program())
    if not is_by_reference:
        own = library()
        if own:
            proved.append(own)
        path = program.find_program()
        if path:
            proved.append(ProgramJudge(path))
    return Bench(proved, ReferenceJudge() if packages.HAS_REFERENCE else None, is_by_reference)
