"""Acceptance cases of weft word by word: for each word the case in which it meets something forged behind something good, a store whose history is longer than a file may
be, a file that can't be read, a name that begins with -, a second writer, a closed pipe, Ctrl-C, and bad input where JSON is asked for."""

import errno
import fcntl
import json
import os
import shutil
import subprocess
import sys
from importlib import import_module

from cases.weft_files import with_files
from harness.rooms import Wrong, case, checked
from harness.weft_room import SHARE, expect_plain, weft_words
from weft.deciding.worst import worst_of
from weft.statuses import Status

FORGED, BEYOND, UNREAD, DASH, SECOND, PIPE, STOPPED, JSON = SITUATIONS = (
    "forged behind good", "beyond a file", "unread", "name with -", "second writer", "closed pipe", "Ctrl-C", "JSON of bad input",
)  # fmt: skip

# For each word the case of each situation, or in words why there is none; and what is the same of all others.
TABLE = {
    "accept": {FORGED: "weft_words.forged_behind", BEYOND: "it reads no store", DASH: "weft_signed.dashes"},
    "backup": {FORGED: "weft_backups.old_store_backed_up", BEYOND: "it reads no history", DASH: "weft_signed.dashes", SECOND: "weft_backups.at_once"},
    "bundle": {FORGED: "weft_bundles.refused", BEYOND: "it reads no history", DASH: "weft_signed.dashes"},
    "chain": {FORGED: "weft_peers.made_up_answers", BEYOND: "weft_parts.chained_over", DASH: "weft_stores.odd_folders", SECOND: "weft_peers.chain_and_turn"},
    "check": {FORGED: "weft_words.forged_behind", BEYOND: "weft_stores.beyond_a_file", DASH: "weft_signed.dashes"},
    "exchange": {FORGED: "weft_signed.appended", BEYOND: "weft_parts.with_peers", DASH: "weft_stores.odd_folders"},
    "fetch": {FORGED: "weft_roads.hostile_indexes", BEYOND: "it reads no store", DASH: "weft_signed.dashes"},
    "find": {FORGED: "weft_recording.told_apart", BEYOND: "weft_recording.in_parts", DASH: "weft_signed.dashes"},
    "judge": {FORGED: "weft_misled.hidden", BEYOND: "weft_parts.audited", DASH: "weft_signed.dashes"},
    "keep": {FORGED: "weft_signed.behind_the_end", BEYOND: "it reads no store", DASH: "weft_signed.dashes"},
    "line": {FORGED: "weft_words.forged_behind", BEYOND: "weft_parts.five_parts", DASH: "weft_signed.dashes"},
    "list": {FORGED: "weft_clerk.listed", BEYOND: "weft_clerk.listed_beyond_a_file", DASH: "weft_clerk.listed"},
    "log": {FORGED: "weft_logs.entries_written_over", BEYOND: "weft_parts.five_parts", DASH: "weft_signed.dashes"},
    "prove": {FORGED: "weft_words.forged_behind", BEYOND: "weft_parts.five_parts", DASH: "weft_signed.dashes"},
    "publish": {FORGED: "weft_roads.not_published", BEYOND: "it reads no store", DASH: "weft_signed.dashes"},
    "record": {FORGED: "weft_recording.told_apart", BEYOND: "weft_recording.in_parts", DASH: "weft_signed.dashes"},
    "restore": {FORGED: "weft_backups.made_up", BEYOND: "it reads no history", DASH: "weft_signed.dashes"},
    "stamp": {FORGED: "weft_stamps.from_elsewhere", BEYOND: "it reads no history", DASH: "weft_signed.dashes"},
    "status": {FORGED: "weft_backups.watched", BEYOND: "weft_backups.watched", DASH: "weft_signed.dashes"},
    "tell": {FORGED: "weft_misled.hidden", BEYOND: "it reads no store", DASH: "weft_signed.dashes"},
}
OF_ALL = {
    UNREAD: "weft_files.each_word", SECOND: "weft_words.second_writer", PIPE: "weft_words.closed_pipe", STOPPED: "weft_words.interrupted",
    JSON: "weft_words.bad_input_in_json",
}  # fmt: skip

# Each word with good input, and the status with which it ends; and with bad input.
GOOD = {
    "accept": ("accept box peer", 10), "backup": ("backup shop box bu", 0), "bundle": ("bundle z p", 0), "chain": ("chain shop:1:0 shop:2:0 --store shop --out c", 0),
    "check": ("check shop --workers 1", 0), "exchange": ("exchange shop box", 10), "fetch": ("fetch https://127.0.0.1:1/ box/peer", 10), "judge": ("judge p", 0), "keep": ("keep l --by again", 0),
    "line": ("line shop --out f", 0), "list": ("list shop", 0), "log": ("log src log --no-time", 0), "prove": ("prove log a --out pr", 0),
    "find": ("find log src/a", 0), "publish": ("publish box www", 0), "record": ("record reg --name reg --event again --no-time", 0),
    "restore": ("restore old new", 0), "stamp": ("stamp l --url http://127.0.0.1:1/", 10), "status": ("status shop box", 10), "tell": ("tell p", 0),
}  # fmt: skip
BAD = {
    "accept": ("accept box NAME", 2), "backup": ("backup nothing bu", 5), "bundle": ("bundle z nothing", 3), "chain": ("chain shop:1:0 nothing", 2), "check": ("check nothing", 5),
    "exchange": ("exchange nothing box", 5), "fetch": ("fetch nothing box/peer", 2), "judge": ("judge nothing", 3), "keep": ("keep nothing --by mail", 3), "line": ("line nothing", 5), "list": ("list nothing", 3),
    "log": ("log nothing log", 3), "prove": ("prove log nothing", 7), "publish": ("publish nothing www", 5), "restore": ("restore nothing new", 3), "stamp": ("stamp nothing --url http://127.0.0.1:1/", 3), "status": ("status nothing", 5),
    "find": ("find log nothing", 3), "record": ("record reg nothing", 3), "tell": ("tell nothing", 3),
}  # fmt: skip


def places(room):
    """A service whose lines are noted, its line kept, a proof, a log, and a box with a message."""
    loom = with_files(room)
    loom.put("shop.lines", loom.read("l"))
    loom.expect("log src log data --no-time", 0)
    last = loom.run("line", "shop").out.strip()
    loom.expect(["exchange", "shop", "box", "--adopt-store", last], 10)
    (loom.folder / "old").unlink()
    loom.expect("backup log old", 0)
    (loom.folder / "www").mkdir()
    loom.put(".config/weft/authorities/tsa.pem", "-----BEGIN CERTIFICATE-----\nMAA=\n-----END CERTIFICATE-----\n")
    return loom


def begin_anew(loom):
    """Takes away what was put back, so that it can be put back once more."""
    for path in loom.folder.glob("new*"):
        shutil.rmtree(path) if path.is_dir() else path.unlink()


def table():
    """each word has a case of each situation, and each case that the table names is there"""
    missing = [f"{word}: {situation}" for word in weft_words.WORDS for situation in SITUATIONS if situation not in {**OF_ALL, **TABLE.get(word, {})}]
    named = {it for row in [*TABLE.values(), OF_ALL] for it in row.values() if " " not in it}
    lost = [it for it in sorted(named) if not has_case(*it.split("."))]
    return f"  without a case: {missing}, no such case: {lost}" if missing or lost else None


def has_case(module, name):
    """Whether a module of cases has a function of this name, and makes a case of it."""
    found = import_module(f"cases.{module}")
    work = getattr(found, name, None)
    return work is not None and any(it["name"].endswith((work.__doc__ or name).splitlines()[0]) for it in found.cases())


def forged_behind(room):
    """a made-up line behind a good one, and a made-up entry behind the true ones, are told by each word that reads them, and nothing is taken by them"""
    loom = places(room)
    made_up = f"shop 2 {'ab' * 32}\n".encode()
    loom.put("two", loom.read("l") + made_up)
    loom.expect("accept box shop two", 9, "has no single line of shop")
    loom.expect("check shop --kept two --workers 1", 17, "two lines of step 2 of shop")
    lines = loom.read("shop.lines")
    loom.put("shop.lines", lines + f"shop 9 {'ab' * 32}\n".encode())
    loom.expect("line shop", 17, "isn't the store of shop's line of step 9", "shop.lines")
    loom.put("shop.lines", lines)
    entries = loom.read("log.entries")
    loom.put("log.entries", entries + b"1 0 " + b"0" * 64 + b"  ./a\n")
    loom.expect("prove log a --out pr", 8, "another event there than log.entries")
    if (loom.folder / "pr").exists():
        raise Wrong("  a proof was made of a made-up entry")


def second_writer(room):
    """while another run is at work on what a word writes, the word ends with 15 and changes nothing; a word that only reads goes on"""
    loom = places(room)
    own = {"accept": "box/.lock", "check": "shop.lock", "exchange": "box/.lock", "fetch": "box/.lock", "publish": "box/.lock", "keep": "kept.lock", "line": "shop.lock", "log": "log.lock", "record": "reg.lock", "backup": "shop.lock", "restore": "new.lock"}

    def at_once():
        from weft import locks

        held = locks.held
        locks.held = lambda path, wait, of: held(path, 0, of)

    for word, (words, status) in GOOD.items():
        with open(loom.folder / own.get(word, "none.lock"), "a") as file:
            fcntl.flock(file, fcntl.LOCK_EX)
            before = loom.read("kept"), loom.read("shop.lines"), loom.read("log.entries"), loom.read("shop/timeline.tw")
            done = loom.expect(words, 15 if word in own else status, *(["another run of weft is at work"] if word in own else []), patch=at_once)
            if (loom.read("kept"), loom.read("shop.lines"), loom.read("log.entries"), loom.read("shop/timeline.tw")) != before:
                raise Wrong(f"  {words} changed something: {done}")


def closed_pipe(room):
    """whoever reads what a word says goes away: it ends with 4 and a sentence, and what was done stands"""
    loom = places(room)

    def close():
        read, write = os.pipe()
        os.close(read)
        os.dup2(write, 1)
        sys.stdout = open(1, "w", closefd=False)

    for word, (words, _) in GOOD.items():
        done = loom.run(*words.split(), patch=close)
        expect_plain(done, words.split())
        if done.status != 4 or "standard output failed: Broken pipe" not in done.err:
            raise Wrong(f"  {words}: {done}")
    for name in ("c", "f", "pr"):
        if not (loom.folder / name).exists():
            raise Wrong(f"  {name} wasn't written")


CALLS = ("open", "write", "replace", "fsync")


def stopping(at, counter):
    """What interrupts a run at its call of this number of those that open and write files and run the program, as Ctrl-C does; their number goes to a file."""
    count = [0]

    def patch():
        real = {name: getattr(os, name) for name in CALLS}

        def reach(call):
            def reached(*words, **more):
                if call is not real["write"] or words[0] not in (1, 2):
                    count[0] += 1
                    counter.write_text(str(count[0]))
                    if count[0] == at:
                        raise KeyboardInterrupt
                return call(*words, **more)

            return reached

        for name in CALLS:
            setattr(os, name, reach(real[name]))
        subprocess.run = reach(subprocess.run)

    return patch


def interrupted(room):
    """each word that is interrupted by Ctrl-C, anywhere, ends with 130 and a sentence, leaves nothing half written, and does its work when it is run again"""
    loom = places(room)
    for word, (words, status) in GOOD.items():
        counter = loom.folder / "tmp/count"
        counter.write_text("0")
        loom.run(*words.split(), patch=stopping(0, counter))
        number = int(counter.read_text())
        if not number:
            raise Wrong(f"  {words} calls nothing")
        for at in range(1, number + 1, max(1, SHARE * number // 12)):
            begin_anew(loom)
            done = loom.run(*words.split(), patch=stopping(at, counter))
            expect_plain(done, words.split())
            is_late = done.status == status  # (it had done its work, or could do without what was interrupted)
            if not is_late and (done.status != 130 or "interrupted; the next run goes on" not in done.err):
                raise Wrong(f"  {words}, interrupted at call {at}: {done}")
            if list(loom.folder.rglob("*.new")):
                raise Wrong(f"  {words}, interrupted at call {at}, left {list(loom.folder.rglob('*.new'))}")
            if is_late:
                begin_anew(loom)
            loom.expect(words, status)


def bad_input_in_json(room):
    """each word writes JSON where it is asked for, and nothing else to standard output: of good input, of bad input with the status and the sentence, and of words that are
    none"""
    loom = places(room)
    for word in weft_words.WORDS:
        begin_anew(loom)
        words, status = GOOD[word]
        found = rows(loom.expect(f"{words} --json", status))
        if not found:
            raise Wrong(f"  {words} --json says nothing")
        words, status = BAD[word]
        done = loom.expect(f"{words} --json", status)
        if not any(row.get("status") == status and row.get("says") for row in rows(done)):
            raise Wrong(f"  {words} --json: {done}")
        done = loom.expect(f"{word} --json --nothing", 2)
        if not any(row.get("status") == 2 for row in rows(done)):
            raise Wrong(f"  {word} --json --nothing: {done}")
        for option in ("--js", "--jso"):
            loom.expect(f"{word} {option} nothing", 2, absent=("{",))
    done = loom.run("tell", "--json", "l", patch=lambda: failing_reads("l"))
    if done.status != 3 or not any("can't be read" in str(row) for row in rows(done)):
        raise Wrong(f"  a file that can't be read: {done}")


def one_status_in_json(room):
    """with --json the worst status that a run writes is the one with which it ends, and one that writes none ends with 0: each word with good and with bad input, with
    several files, and where it asks for a look or what it writes fails"""
    loom = places(room)
    for word, good in GOOD.items():
        for words, status in (good, BAD[word]):
            begin_anew(loom)
            expect_one_status(loom.expect(f"{words} --json", status), words)
    shutil.copytree(loom.folder / "log", loom.folder / "copy")
    for path in loom.folder.glob("log.*"):
        shutil.copy2(path, loom.folder / f"copy{path.suffix}")
    for word in ("line", "list"):
        expect_one_status(loom.expect(f"{word} copy --json", 10), f"{word} of a copy")
    loom.put("other", f"shop 2 {'ab' * 32}\n")
    loom.put("many/p", loom.read("p"))
    loom.put("many/l", loom.read("l"))
    loom.put("many.table", "")
    loom.key("k")
    for words, status in (
        ("judge p l nothing", 9), ("judge --many many --table t", 9), ("judge p --kept other", 1), ("tell p l nothing", 3), ("keep other --by mail", 11),
        ("keep other --choose --by mail", 0), ("keep --signer shop k.key.pub", 0), ("check shop --kept other --workers 1", 17),
    ):  # fmt: skip
        expect_one_status(loom.expect(f"{words} --json", status), words)
    for path in (loom.folder / "src").iterdir():
        path.unlink()
    expect_one_status(loom.expect("log src log --json", 16), "log of a folder without files")
    expect_one_status(loom.expect("line log --out f2 --json", 5, "No space left", patch=full_disk), "line with a full disk")


def full_disk():
    """Lets no file be replaced."""

    def replaced(*words, **more):
        raise OSError(errno.ENOSPC, os.strerror(errno.ENOSPC))

    os.replace = replaced


def expect_one_status(done, told):
    """The run ended with the worst of the statuses that it wrote, and with 0 if it wrote none."""
    found = [row["status"] for row in rows(done) if "status" in row]
    if worst_of(map(Status, found)) != done.status:
        raise Wrong(f"  weft {told}: the statuses {found} in JSON, and the run ended with {done.status}\n  {done}")


def failing_reads(name):
    """Lets no file of this name be opened."""
    real = os.open

    def opened(path, *words, **more):
        if os.path.basename(os.fspath(path)) == name:
            raise OSError(errno.EIO, os.strerror(errno.EIO))
        return real(path, *words, **more)

    os.open = opened


def rows(done):
    """The values of the lines of standard output, each of which is JSON."""
    try:
        return [json.loads(line) for line in done.out.splitlines()]
    except ValueError:
        raise Wrong(f"  something else than JSON: {done}") from None


def cases():
    works = (forged_behind, second_writer, closed_pipe, interrupted, bad_input_in_json, one_status_in_json)
    return [*checked("weft words", {table.__doc__: lambda program: table()}), *(case(work, "weft words") for work in works)]
