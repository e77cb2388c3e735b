"""Many proofs judged into a table, over all processors. A run that was stopped is gone on with.

The table is text, its fields apart by tabs; `weft.deciding.rows` has its fields, and when a row of an earlier run stands for a file. Rows
of earlier runs are read from the user's own files alone, and not from the table, which may lie beside what somebody sent."""

from __future__ import annotations

import argparse
import functools
import itertools
import os
from collections import Counter
from concurrent.futures import Executor, ProcessPoolExecutor, as_completed
from concurrent.futures.process import BrokenProcessPool
from pathlib import Path
from typing import Collection, Iterator, Mapping, NamedTuple, Optional, Sequence

from weft import choosing, clusters, dated, files, formats, judges, lines, locks, many_bundles, outcomes, packages, signatures
from weft.choosing import Judgement
from weft.deciding import rows
from weft.deciding.choosing import Extent, Headline, list_received
from weft.deciding.contradicting import find_pairs, find_two_lines, may_count, read_by, read_told, write_by
from weft.deciding.rows import HEAD, NO_DIGEST, Row
from weft.deciding.worst import worst_of
from weft.judges import Bench
from weft.lines import KeptLines, Line
from weft.outcomes import Named
from weft.output import say, say_json
from weft.progress import Progress
from weft.sentences import fill
from weft.stamps import Days
from weft.statuses import Status
from weft.table_rows import reason_of, row_of_trouble, shown_path, shown_reason
from weft.texts import beside, count_of, name_of, now
from weft.trouble import Trouble, of_machine

PIECE, PIECES = 500, 64
MOST_ROUNDS = 4
MOST_ROWS = 1 << 32
# What may be otherwise at the next run, of the same bytes.
PASSING = (Status.DIFFER, Status.NO_MEMORY, Status.DISK)
APART = "CONTRADICTS "
# In front of a kept line that doesn't count, for a worker.
UNCOUNTED = "doesn't count: "
# Why a worker judges no bundle.
BUNDLE = "a bundle, which is judged where its reader's keys are"
# Behind the lines that the row of a history tells: it has those of its other steps too.
WHOLE = "; and its history"


class Task(NamedTuple):
    """What a worker needs to judge some files of a folder: their names, and the rows that earlier runs made under these names."""

    folder: str
    files: list[str]
    known: dict[str, Row]
    kept: bytes
    allow_carried: bool
    is_by_reference: bool
    by: str


class Made(NamedTuple):
    """The row of a file, and whether an earlier run made it."""

    row: Row
    is_taken: bool


@functools.lru_cache(maxsize=2)
def kept_of(text: bytes) -> KeptLines:
    """The kept lines of their text, once a process."""
    kept, all_lines = KeptLines(), text.decode().splitlines(True)
    kept.add_text("kept lines", "".join(it for it in all_lines if not it.startswith(UNCOUNTED)))
    for it in (lines.read_kept(line.removeprefix(UNCOUNTED).rstrip("\n")) for line in all_lines if line.startswith(UNCOUNTED)):
        if it is not None:
            kept.uncounted.setdefault(it.line.service, []).append(it)
    return kept


def text_of(kept: KeptLines) -> bytes:
    """What a worker has to know of the kept lines, as text: those that count, and those that don't."""
    return (kept.text + "".join(f"{UNCOUNTED}{it.text}\n" for of_service in kept.uncounted.values() for it in sorted(of_service))).encode()


@functools.lru_cache(maxsize=2)
def bench_of(is_by_reference: bool) -> Bench:
    """The judges, once a process."""
    return judges.bench(is_by_reference)


def worked(task: Task) -> list[Made]:
    """Judges the files of a task, in their order; what a worker does."""
    kept, judge = kept_of(task.kept), bench_of(task.is_by_reference)
    by = told_by(judge, task.allow_carried)
    if by != task.by:
        raise Trouble(Status.NO_JUDGE, f"a worker has other judges than this machine ({by})", "Give all the same program and library.")
    with judge.working():
        return [row_of(task, name, kept, judge) for name in task.files]


def row_of(task: Task, name: str, kept: KeptLines, judge: Bench) -> Made:
    """The row of a file, which is read once: its digest and its verdict are of the same bytes."""
    try:
        data = formats.read_file(os.path.join(task.folder, name), follow=False)
    except Trouble as trouble:
        return Made(row_of_trouble(name, 0, NO_DIGEST, trouble), False)
    digest, known = rows.digest_of(data), task.known.get(shown_path(name))
    if known is not None and rows.may_take_row(known, digest, PASSING):
        return Made(known, True)
    if formats.kind_of(data) == "bundle":
        return Made(row_of_trouble(name, len(data), digest, Trouble(Status.UNREADABLE, BUNDLE)), False)
    try:
        named = Named(name, data, formats.kind_of(data))
        with of_machine(name):
            judgement = choosing.with_held(judge, data, kept, outcomes.judgement_of(judge, kept, [named], task.allow_carried))
            outcome = outcomes.outcome_of(judge, kept, [named], judgement)
    except Trouble as trouble:
        return Made(row_of_trouble(name, len(data), digest, trouble), False)
    resting = "; ".join(f"{line.service} {line.step}" for line in judgement.lines)
    uncompared = [fill("no document")] if outcomes.documents_of(judge, outcome, judgement, [named]) else []
    reason = shown_reason(" | ".join([reason_of(judgement, outcome), *uncompared]))
    row = Row(shown_path(name), len(data), digest, outcome.headline.value, int(outcome.status), reason, resting)
    if judgement.is_shown or (judgement.history is not None and judgement.history.extent is Extent.PART):
        archive = formats.told_by(data, judgement.lines)
        told = "" if outcome.is_refuted else "; ".join(line.text for line in outcomes.all_lines(judge, kept, [named], judgement, is_whole=False))
        told += WHOLE if judgement.history is not None else ""
        row = row._replace(told=told, archive=archive.text if archive is not None else write_by(formats.tellers_in(data)))
    return Made(row, False)


def found_files(folder: Path) -> list[str]:
    """The paths of all files in the folder and those below it, as they stand there, and of what can't be looked into: folders that can't be read, and links
    to folders, none of which is followed. Each gets a row, so nothing is passed over, however deep it lies."""
    if not folder.is_dir():
        raise Trouble(Status.NO_INPUT, f"{name_of(folder)} is no folder", "Name the folder of the proofs.")
    found, waiting = [], [""]
    while waiting:
        below = list_folder(folder, waiting.pop())
        found += below.others
        waiting += below.folders
    return sorted(found)


class Below(NamedTuple):
    """What a folder has: the paths of folders, and of all else."""

    folders: list[str]
    others: list[str]


def list_folder(top: Path, place: str) -> Below:
    """What a folder below the top one has; of one that can't be read that it is there."""
    try:
        with os.scandir(top / place) as entries:
            kinds = [(os.path.join(place, entry.name), entry.is_dir(follow_symlinks=False)) for entry in entries]
    except OSError:
        return Below([], [place or "."])
    return Below([path for path, is_folder in kinds if is_folder], [path for path, is_folder in kinds if not is_folder])


def told_by(judge: Bench, allow_carried: bool) -> str:
    """By whom rows are judged."""
    return judge.name_judges("verify" if allow_carried else "strict")


def state_of(table: Path) -> Path:
    """The file of the user's own in which the rows of this table are kept."""
    return lines.own_files() / "judged" / rows.name_state(os.fsencode(os.path.abspath(table)))


def earlier(state: Path, title: str) -> dict[str, Row]:
    """The rows that earlier runs of this user made by the same judges under the same lines."""
    if not files.is_there(state):
        return {}
    number = files.opened(state, follow=False)
    try:
        about = os.fstat(number)
        if not rows.is_own_state(about.st_uid, about.st_mode, os.geteuid()):
            raise Trouble(Status.DISK, f"{name_of(state)} isn't your own, or others may write it", "Remove it: all files are judged anew then.")
        data = files.read_up_to(number, MOST_ROWS)
    finally:
        os.close(number)
    return rows.read_rows(data.decode("utf-8", "replace"), title)


def judged_rows(tasks: list[Task], workers: int, executor: Optional[Executor] = None) -> Iterator[dict[str, Made]]:
    """The rows of the tasks by their files, as they come: over an executor of concurrent.futures, else over so many processes. What an
    executor loses, since a worker of it died, is done again."""
    if workers == 1 and executor is None:
        yield from (dict(zip(task.files, worked(task))) for task in tasks)
        return
    own, left = executor or ProcessPoolExecutor(workers), tasks
    try:
        for _ in range(MOST_ROUNDS):
            work, left = {own.submit(worked, task): task for task in left}, []
            for future in as_completed(work):
                try:
                    made = future.result()
                except Exception as failure:  # noqa: BLE001 - what a cluster loses it tells in many ways
                    if executor is None or isinstance(failure, Trouble):
                        raise
                    left.append(work[future])
                else:
                    yield dict(zip(work[future].files, made))
            if not left:
                return
        raise Trouble(Status.NO_MEMORY, "workers of the cluster ended early, again and again", "Run it again: it goes on.")
    except BrokenProcessPool:
        raise Trouble(Status.NO_MEMORY, "a process that judged ended early", "Run it again: it goes on; --workers 1 takes less memory.") from None
    finally:
        if executor is None:
            own.shutdown(cancel_futures=True)


def run(options: argparse.Namespace, kept: KeptLines, judge: Bench) -> Status:
    """Judges all files of a folder into a table, over the processes of this machine, or over a cluster."""
    if options.dask is None:
        return judge_many(options, kept, judge, None)
    with clusters.executor(options.dask, options.tls) as executor:
        return judge_many(options, kept, judge, executor)


def judge_many(options: argparse.Namespace, kept: KeptLines, judge: Bench, executor: Optional[Executor]) -> Status:
    """Judges them, over an executor where one is given."""
    folder = Path(options.many).absolute()
    table = Path(options.table) if options.table else beside(Path(options.many), ".verdicts.tsv")
    top, above = (Path(os.path.realpath(it)) for it in (folder, table.absolute().parent))
    if top in (above, *above.parents):
        told = f"the table {name_of(table)} would lie in the folder that is judged, and be judged as a proof at the next run"
        raise Trouble(Status.USAGE, told, "Name a file elsewhere by --table.")
    workers = len(os.sched_getaffinity(0)) if options.workers is None else options.workers
    if workers < 1:
        raise Trouble(Status.USAGE, "--workers is 1 at least", "Leave it out for one a processor.")
    text = text_of(kept)
    title, names = rows.title_of(told_by(judge, options.carried), packages.digest(), text, options.carried), found_files(folder)
    if not names:
        raise Trouble(Status.FEWER, f"{name_of(options.many)} has no files, so nothing was judged", "Is it mounted?")
    files.make_folder(state_of(table).parent)
    with locks.held(beside(state_of(table), ".lock"), 0, table):
        made = judge_folder(options, judge, executor, Folder(folder, names, text, title, state_of(table), workers))
        opened = judge_bundles(options, judge, kept, folder, [name for name in names if made[name].row.reason == BUNDLE])
        made.update({name: Made(it.row, False) for name, it in opened.items()})
        beside_others = held_together([made[name] for name in names], names, folder, kept, judge, opened)
        made_rows = [with_day(it.row, kept, options.days) if name not in opened else it.row for name, it in zip(names, beside_others)]
        files.hand_out(table, table_of(f"{title}; table made on {now()[:10]}. {fill('theorem')}", made_rows))
    return tell(options, table, beside_others, judge, kept)


def judge_bundles(options: argparse.Namespace, judge: Bench, kept: KeptLines, folder: Path, names: list[str]) -> dict[str, many_bundles.Judged]:
    """The rows of bundles, by their files."""
    reader = many_bundles.Reader(kept, options.authorities, options.signers or signatures.default_signers(), options.carried)
    return {name: many_bundles.judge_bundle(judge, folder, name, reader) for name in names}


def with_day(row: Row, kept: KeptLines, days: Days) -> Row:
    """The row, and where something is shown by when the lines that it rests on stood, as stamps of them say."""
    if not row.verdict.startswith(Headline.SHOWN.value):
        return row
    return row._replace(day=dated.told_in_row(days, resting_of(row, kept)))


def resting_of(row: Row, kept: KeptLines) -> list[Line]:
    """The kept lines that a row rests on."""
    places = [it.split(" ") for it in row.lines.split("; ") if it]
    return [line for service, step in places if (line := kept.one(service, int(step))) is not None]


def held_together(made: list[Made], names: list[str], folder: Path, kept: KeptLines, judge: Bench, opened: Mapping[str, many_bundles.Judged]) -> list[Made]:
    """The rows, in which files that are shown and contradict each other are marked; of a bundle what it has counts."""
    judge = judges.for_contradictions(judge)
    archives = [(place, found) for place, it in enumerate(made) if (found := read_told(it.row.archive)) is not None]
    told = [(place, found) for place, found in archives if made[place].row.told]
    marked, broken = list(made), {found.service for place, found in archives if not made[place].row.told}

    def parts_of(name: str, row: Row) -> Sequence[bytes]:
        return opened[name].parts if name in opened else file_and_anchors(folder / name, row, kept)

    def mark(first: int, second: int) -> None:
        for place, other in ((first, second), (second, first)):
            marked[place] = Made(contradicted(marked[place].row, made[other].row.file), made[place].is_taken)

    for pair in find_pairs([found for _, found in told]):
        places = [told[it][0] for it in pair]
        parts = [part for place in places for part in parts_of(names[place], made[place].row)]
        if len(parts) == 4 and choosing.judge_contradiction(judge, (parts[0], parts[1], parts[2], parts[3])).is_accepted:
            broken.add(told[pair.first][1].service)
            mark(*places)
    for differing in find_two_lines(all_told(made, names, folder, broken)):
        mark(differing.first, differing.second)
    return marked


def all_told(made: list[Made], names: list[str], folder: Path, broken: Collection[str]) -> Iterator[tuple[int, Line]]:
    """The lines that files tell, each with the place of its file; of a history behind all others those that it received, and those of the steps that others tell."""
    steps: dict[str, set[int]] = {}
    histories = [place for place, it in enumerate(made) if it.row.told.endswith(WHOLE)]
    doubted = {place: doubted_in(folder / names[place], it.row, broken) for place, it in enumerate(made) if not read_by(it.row.archive).isdisjoint(broken)}
    told = [(place, line) for place, it in enumerate(made) for line in lines_of_row(it.row, broken) if line not in doubted.get(place, ())]
    received = ((place, line) for place in histories for line in received_in(made[place].row, bytes_of(folder / names[place], made[place].row), broken))
    for place, line in itertools.chain(told, received):
        steps.setdefault(line.service, set()).add(line.step)
        yield place, line
    for place in histories:
        service, bound = made[place].row.lines.split(" ")
        wanted = steps[service] - {line.step for line in lines_of_row(made[place].row, broken)}
        history = formats.timeline_of(bytes_of(folder / names[place], made[place].row)) if wanted else None
        if history is not None:
            yield from ((place, Line(service, step, history.authenticators[step])) for step in sorted(wanted) if step <= int(bound))


def doubted_in(path: Path, row: Row, broken: Collection[str]) -> set[Line]:
    """The lines that a chain or evidence tells by the word of a service that broke a rule alone; all of a file that isn't the same any more."""
    data = bytes_of(path, row)
    return {*formats.doubted_in(data, broken)} if data else {*lines_of_row(row, broken)}


def received_in(row: Row, data: bytes, broken: Collection[str]) -> list[Line]:
    """The lines that a history shows as received, up to the step of the line that its row rests on; none of a service that broke a rule."""
    service, step = row.lines.split(" ")
    return [line for line in list_received(formats.threads_of(data), int(step)) if may_count(line, service, broken)]


def bytes_of(path: Path, row: Row) -> bytes:
    """The bytes that a row is of; none where the file isn't the same any more."""
    data = formats.read_file(path, follow=False)
    return data if rows.digest_of(data) == row.sha256 else b""


def lines_of_row(row: Row, broken: Collection[str]) -> list[Line]:
    """The lines that a file tells, as its row has them, but for what services that broke a rule received."""
    found, told = (lines.read_line(text) for text in row.told.removesuffix(WHOLE).split("; ")), read_told(row.archive)
    return [line for line in found if line is not None and may_count(line, told.service if told is not None else None, broken)]


def contradicted(row: Row, other: str) -> Row:
    """The row of a file that contradicts another one: the first such is named."""
    if row.status == Status.CONTRADICTION:
        return row
    return row._replace(status=int(Status.CONTRADICTION), reason=f"{APART}{other}: {row.reason}")


def file_and_anchors(path: Path, row: Row, kept: KeptLines) -> list[bytes]:
    """The bytes that the row is of, and those of the lines that it rests on; nothing where the file isn't the same any more."""
    data = bytes_of(path, row)
    found = resting_of(row, kept)
    return [data, lines.anchors(found)] if data and found and len(found) == len(row.lines.split("; ")) else []


class Folder(NamedTuple):
    """A folder that is judged: the paths of its files within it; the text of the kept lines; the title of the table; the file of its rows;
    and by how many processes."""

    path: Path
    names: list[str]
    kept: bytes
    title: str
    state: Path
    workers: int


def table_of(title: str, made: list[Row]) -> bytes:
    """The bytes of a table."""
    return ("\n".join([title, HEAD, *(row.text for row in made)]) + "\n").encode()


def judge_folder(options: argparse.Namespace, judge: Bench, executor: Optional[Executor], it: Folder) -> dict[str, Made]:
    """The rows of all files, which are noted in the state as they come."""
    known = earlier(it.state, it.title)
    present = {shown_path(name) for name in it.names}
    files.renew(it.state, table_of(it.title, [row for name, row in known.items() if name in present]), follow=False)
    size = max(1, min(PIECE, len(it.names) // PIECES))  # (few files are spread over many workers too)
    pieces = [it.names[at : at + size] for at in range(0, len(it.names), size)]
    fixed = it.kept, options.carried, options.reference, told_by(judge, options.carried)
    tasks = [Task(str(it.path), piece, {name: known[name] for name in map(shown_path, piece) if name in known}, *fixed) for piece in pieces]
    made: dict[str, Made] = {}
    progress = Progress("judging", len(it.names))
    try:
        for new in judged_rows(tasks, it.workers, executor):
            fresh = [each.row.text for each in new.values() if not each.is_taken]
            if fresh:
                files.add(it.state, "\n".join(fresh))
            made.update(new)
            progress.add(len(new))
    finally:
        progress.end()
    return made


def tell(options: argparse.Namespace, table: Path, made: list[Made], judge: Bench, kept: KeptLines) -> Status:
    """Says what came of it; the worst status counts."""
    status = worst_of([judge.status(True), kept.status, *(Status(it.row.status) for it in made)])
    counts = Counter(it.row.verdict for it in made)
    lacking = sum(it.row.status == Status.MISSING for it in made)
    apart = sum(it.row.reason.startswith(APART) for it in made)
    two = sum(it.row.status == Status.CONTRADICTION for it in made) - apart
    taken, uncompared = sum(it.is_taken for it in made), sum(it.row.reason.endswith(f" | {fill('no document')}") for it in made)
    if options.json:
        found = {verdict.replace(" ", "_"): count for verdict, count in counts.items()}
        told: dict[str, object] = {"lacking_a_line": lacking, "two_lines": two, "contradicting_each_other": apart, "no_document_compared": uncompared}
        told |= {"status": int(status), "judged_by": told_by(judge, options.carried)}
        say_json({"table": str(table), "files": len(made), "taken": taken, **found, **told, "not_counting": len(choosing.uncounted(kept, kept.uncounted))})
        return status
    parts = [f"{count:,} {verdict}" for verdict, count in counts.most_common()]
    say(f"{count_of(len(made), 'file')}: {', '.join(parts) or 'nothing'}; the table is {name_of(table)}.")
    if uncompared:
        say(f"{count_of(uncompared, 'file')}: {fill('no document')}. weft judge PROOF --file FILE compares one.")
    if lacking:
        say(f"{count_of(lacking, 'file')} {'lacks' if lacking == 1 else 'lack'} a line that you don't hold: the table says which. {fill('only now')}")
    if two:
        say(f"TWO LINES: {count_of(two, 'file')} {'contradicts' if two == 1 else 'contradict'} a line that you kept: weft judge tells which, of that file.")
    if apart:
        say(f"{count_of(apart, 'file')} CONTRADICT EACH OTHER: the table says which, and weft judge of both what a service did.")
    if taken:
        say(f"{count_of(taken, 'row')} of an earlier run {'was' if taken == 1 else 'were'} taken over, of files with the same SHA-256 digest.")
    for text in choosing.uncounted_sentences(kept, kept.uncounted):
        say(text)
    say(told_by(judge, options.carried))
    return status
