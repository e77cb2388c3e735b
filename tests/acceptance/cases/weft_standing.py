"""Acceptance cases of what may be known against a store: each state of the table of weft/deciding/standing.py, made on real stores, under each command."""

import os
import shutil

from cases.weft_parts import in_parts
from harness.rooms import Wrong, case
from harness.weft_room import Loom, copied

from weft.deciding.standing import BY_KEPT_LINES, ENDED_BY_A_PERSON, STATUSES, Against, Command, May, may_do

FALSE = "0" * 64
PART, END = "log/part-2", "log/part-2."
# A chain is judged under the lines of whoever asks for it: it ends by what these are, and not by what is known against the store.
# (What has no entries is taken for a service of weft record, and has no records either.)
JUDGED = {
    (Against.UNFOUND, Command.CHAIN): 10, (Against.DISPUTED, Command.CHAIN): 11, (Against.OTHER_KEPT, Command.CHAIN): 11, (Against.NO_ENTRIES, Command.RECORD): 17,
}  # fmt: skip
# Into a log of files nothing is recorded by hand, whatever is known of its store.
OF_FILES = 2


def log_of_two_parts(room):
    """A log that went on in a second part, with its user's kept lines, a box of an accepted peer and one without."""
    loom = Loom(room)
    loom.put("src/first", "first")
    in_parts(loom, 2)
    for number in range(2):
        loom.put(f"src/{number}", f"of {number}")
        loom.expect("log src log", 0)
    loom.put("signers", "")
    loom.put("box/box.conf", "unsigned = yes\n")
    loom.put("alone/box.conf", "unsigned = yes\n")
    for folder in ("in", "out", "kept/forks"):
        (loom.folder / "box/bank" / folder).mkdir(parents=True)
    loom.put("box/bank/kept/accepted", f"bank 1 {FALSE} 2026-11-29T09:40:00Z compared by a person\n")
    return loom


def commands_of(loom):
    """The words of each command; the box of a turn is new each time, so that nothing but the store can be old."""
    first = next(line for line in loom.read("log.entries").decode().splitlines() if line.endswith("./first")).split(" ")
    last = loom.read(f"{END}entries").decode().splitlines()[-1].split(" ")
    words = {
        Command.LOG: "log src log", Command.EXCHANGE: "exchange log box", Command.ALONE: "exchange log alone", Command.LINE: "line log",
        Command.PROVE: "prove log first --out proof", Command.STEP: f"prove log first --step {first[0]} --out proof", Command.LIST: "list log", Command.CHECK: "check log",
        Command.ENTRIES: "check log --entries", Command.CHAIN: f"chain data:{first[0]}:{first[1]} data-2:{last[0]}:0 --store log --out chain",
        Command.STATUS: "status log", Command.BACKUP: "backup log tmp/backup", Command.RESTORE: "restore before.backup restored",
        Command.RECORD: "record log src/first", Command.FIND: "find log src/first",
    }  # fmt: skip
    return {command: text.split() for command, text in words.items()}


def keep(loom, *lines):
    """Puts lines among those that the user keeps."""
    loom.put("kept", "".join(f"{line}\n" for line in lines))


def states_of(loom):
    """What makes each state of the table, with what is named by the environment then."""
    line = loom.read(f"{END}anchor").decode().split()
    first = next(it for it in loom.read("log.lines").decode().splitlines() if it.startswith("data 1 ")).split()
    how = "2026-11-29T09:40:00Z by letter"

    def unjoined():
        shutil.rmtree(loom.folder / PART)
        loom.service("data-2", [b"another's"], folder=PART)

    def missing_part():
        for path in (loom.folder / "log").glob("part-2*"):
            shutil.rmtree(path) if path.is_dir() else path.unlink()

    def copied_seal():
        shutil.copy2(loom.folder / f"{END}seal", loom.folder / "tmp/seal")
        os.replace(loom.folder / "tmp/seal", loom.folder / f"{END}seal")

    def without(*ends):
        for end in ends:
            (loom.folder / f"{END}{end}").unlink()

    def behind(name, text):
        loom.put(name, loom.read(name) + text.encode())

    return {
        Against.UNJOINED: unjoined,
        Against.MISSING_PART: missing_part,
        Against.OTHER_PART: lambda: behind("log.anchor", f"data-2 1 {FALSE}\n"),
        Against.UNFOUND: lambda: (loom.folder / "kept").unlink(),
        Against.UNCOUNTED: lambda: keep(loom, f"data-3 1 {FALSE} 2026-11-29T09:40:00Z signed by ED25519 SHA256:{'x' * 43}"),
        Against.DISPUTED: lambda: keep(loom, f"{' '.join(first)} {how}", f"data 1 {FALSE} {how}", f"{' '.join(line)} {how}"),
        Against.OTHER_KEPT: lambda: keep(loom, f"data 1 {FALSE} {how}", f"{' '.join(line)} {how}"),
        Against.LATER_PART: lambda: keep(loom, f"data-3 1 {FALSE} {how}"),
        Against.OTHER_LINE: lambda: behind(f"{END}lines", f"data-2 {int(line[1]) + 5} {FALSE}\n"),
        Against.TOLD: lambda: loom.put("log.told", f"data-2 {int(line[1]) + 5} {FALSE} signed bank\n"),
        Against.LOOK: lambda: loom.put(f"{END}look", "1800000000\n"),
        Against.NO_LINES: lambda: without("lines", "anchor", "seal"),
        Against.COPY: copied_seal,
        Against.NO_ENTRIES: lambda: without("entries"),
    }


def table(room):
    """under each state that may be known against a store each command ends as the table says, and one that may make no step makes none; a person who names the last
    line ends what only a person can tell"""
    loom = log_of_two_parts(room)
    loom.expect("backup log before.backup", 0)
    commands, states, back = commands_of(loom), states_of(loom), copied(loom)
    if set(commands) != set(Command) or set(states) | {None} != {*Against, None}:
        raise Wrong("  a state or a command isn't tried")
    last = loom.read(f"{END}anchor").decode().strip()
    for command, words in commands.items():
        back()
        loom.expect(words, 0 if command is not Command.RECORD else OF_FILES)
    wrong = []
    for against, make in states.items():
        # (what is put back is the store of before: nothing but the lines that its user keeps is known against that)
        for command, words in ((command, words) for command, words in commands.items() if command is not Command.RESTORE or against in BY_KEPT_LINES):
            named = command in (Command.LOG, Command.EXCHANGE) and against in ENDED_BY_A_PERSON
            for is_named in (False, True)[: 1 + named]:
                back()
                make()
                (loom.folder / "tmp/backup").unlink(missing_ok=True)
                before = [path.read_bytes() for path in sorted((loom.folder / "log").rglob("timeline.tw"))]
                done = loom.run(*words, *(["--adopt-store", last] if is_named else []))
                may = may_do(against, command, is_named)
                wanted = OF_FILES if command is Command.RECORD and may is not May.END else int(STATUSES[may])
                wanted = JUDGED.get((against, command), wanted)
                told = f"{against.name}, {command.value}{' --adopt-store' if is_named else ''}: {done.status}, and not {wanted}: {done.out} {done.err}"
                if done.status != wanted:
                    wrong.append(told)
                after = [path.read_bytes() for path in sorted((loom.folder / "log").rglob("timeline.tw"))]
                if may in (May.END, May.WAIT) and after != before:
                    wrong.append(f"{told}\n  a step was made")
                if may is not May.GO_ON and not done.err + done.out:
                    wrong.append(f"{told}\n  and nothing was told")
    if wrong:
        raise Wrong("  " + "\n  ".join(wrong))


def cases():
    """All cases of this module."""
    return [case(work, "weft standing") for work in (table,)]
