"""Acceptance cases of logs that grow: what a run reads and writes, what is known of files, and the parts in which a log goes on."""

import hashlib
import json
import mmap
import os
import shutil
import time
from pathlib import Path
from types import SimpleNamespace

from cases.weft_exchange import Net, pair
from cases.weft_logs import digest, entries_of, expect_log, folder_of
from cases.weft_signed import signed
from cases.weft_stores import long_history
from harness.rooms import Wrong, case
from harness.weft_room import SHARE, Loom, copied, each_fault, faulty, reseal
from timeweave_reference.histories import read_history, timeline_of
from timeweave_reference.receipts import SIZE as RECEIPT_SIZE
from timeweave_reference.receipts import Receipt, read_receipt
from timeweave_reference.tree_pages import PAGE

from weft import formats


def counted_steps(most):
    """What makes steps hold so many events."""

    def patch():
        from weft import logs

        logs.MOST_EVENTS = most

    return patch


def at_rest(patch=None):
    """What makes a run two minutes later than it is: what it reads has come to rest."""

    def change():
        from weft import walking

        time = walking.time
        walking.time = SimpleNamespace(sleep=time.sleep, time_ns=lambda: time.time_ns() + 120 * 10**9)
        if patch:
            patch()

    return change


def counts_of(loom, *words, status=0, patch=None):
    """What a run of weft log counted, minutes after the files were changed."""
    return json.loads(loom.expect(["log", "src", "log", *words, "--json"], status, patch=at_rest(patch)).out)


def no_reading():
    """No file of the logged folder may be read."""
    from weft import walking

    def read(file):
        raise AssertionError(f"{file.path} was read")

    walking.read = read


def all_one_mark():
    """Each state of a file has the same mark, as if what changes contents changed nothing else."""
    from weft.deciding import known

    known.mark_of = lambda state: b"m" * 16


def days_later(days):
    """What sets the clock of a run ahead."""

    def patch():
        from weft import days as runs

        real = runs.time.time
        runs.time = type("time", (), {"time": staticmethod(lambda: real() + days * 86400)})
        all_one_mark()

    return patch


def unread(room):
    """a run over files that didn't change reads no content; one that changed is read, also where its size and its old time are as before; a file that is new,
    renamed, or of other rights is read too"""
    loom = Loom(room)
    folder_of(loom, *"abcdefg", "sub/h", "sub/x/i", "sub-y")
    first = counts_of(loom, "data")
    if first["read"] != 10 or first["new"] != 10:
        raise Wrong(f"  {first}")
    again = counts_of(loom, patch=no_reading)
    if (again["read"], again["same"], again["all_read"]) != (0, 10, first["all_read"]):
        raise Wrong(f"  {again}")
    loom.expect("log src log", 0, "0 files read; all were last read on 20", patch=no_reading)
    before = os.stat(loom.folder / "src/a")
    loom.put("src/a", "OF A\n")
    os.utime(loom.folder / "src/a", ns=(before.st_atime_ns, before.st_mtime_ns))
    loom.put("src/new", "new")
    os.chmod(loom.folder / "src/b", 0o600)
    (loom.folder / "src/c").rename(loom.folder / "src/c2")
    found = counts_of(loom)
    if (found["read"], found["new"], found["changed"], found["gone"], found["same"]) != (4, 2, 1, 1, 8):
        raise Wrong(f"  {found}")
    expect_log(loom)
    if counts_of(loom, patch=no_reading)["same"] != 11:
        raise Wrong("  not all is known")


def changed_through_a_mapping(room):
    """a file that is logged within a minute of its last change is read once more by the next run, though nothing tells that it was changed since: what is
    written through a mapping may leave its times as they are for so long"""
    loom = Loom(room)
    loom.put("src/deed", b"honest" + bytes(8186))
    with open(loom.folder / "src/deed", "r+b") as file, mmap.mmap(file.fileno(), 0) as mapped:
        mapped[7000] = 1
        time.sleep(0.3)
        loom.expect("log src log data", 0, "1 file new")
        mapped[:6] = b"forged"
        found = json.loads(loom.expect("log src log --json", 0).out)
        if (found["read"], found["changed"]) != (1, 1) or digest(loom.read("src/deed")) not in loom.read("log.entries"):
            raise Wrong(f"  {found}")
    if counts_of(loom)["read"] != 1 or counts_of(loom, patch=no_reading)["same"] != 1:
        raise Wrong("  what is at rest isn't known")


def read_each_week(room):
    """all files are read after seven days, or as many as are named, and what changed without a trace is found then; the day is told"""
    loom = Loom(room)
    folder_of(loom, "a", "b", "c")
    counts_of(loom, "data", "--no-time", patch=all_one_mark)
    loom.put("src/b", "other")
    for days in (0, 3, 6.9):
        found = counts_of(loom, "--no-time", patch=days_later(days))
        if (found["read"], found["changed"]) != (0, 0):
            raise Wrong(f"  after {days} days: {found}")
    found = counts_of(loom, "--no-time", patch=days_later(7))
    if (found["read"], found["changed"], found["same"]) != (3, 1, 2):
        raise Wrong(f"  after seven days: {found}")
    loom.put("src/c", "other too")
    if counts_of(loom, "--no-time", patch=days_later(9))["changed"] or counts_of(loom, "--no-time", "--all-read", "2", patch=days_later(9))["changed"] != 1:
        raise Wrong("  the days that are named don't count")
    loom.put("src/a", "at last")
    loom.expect("log src log --no-time --all-read 0", 0, "1 changed", "3 files read: all that can be", patch=all_one_mark)
    loom.expect("log src log --all-read -1", 2, "--all-read is 0 at least")
    loom.expect("log src log --workers 0", 2, "--workers 1")
    expect_log(loom)


def known_lost(room):
    """what is known of files may be lost, damaged in any byte, older than the entries, or of another log: nothing is logged twice or left out by that"""
    loom = Loom(room)
    folder_of(loom, *"abcde", "sub/f")
    counts_of(loom, "data")
    older = loom.read("log.known")
    loom.put("src/b", "other")
    (loom.folder / "src/c").unlink()
    folder_of(loom, "g")
    counts_of(loom)
    whole = loom.read("log.known")

    def same(told, data):
        if data is None:
            (loom.folder / "log.known").unlink()
        else:
            loom.put("log.known", data)
        found = counts_of(loom)
        if (found["new"], found["changed"], found["gone"], found["same"]) != (0, 0, 0, 6):
            raise Wrong(f"  {told}: {found}")
        if counts_of(loom, patch=no_reading)["same"] != 6:
            raise Wrong(f"  {told}: it isn't known again")

    same("lost", None)
    same("older", older)
    same("empty", b"")
    loom.put("of/x", "x")
    loom.expect("log of other other", 0)
    same("another one's", loom.read("other.known"))
    for place in [*range(0, len(whole), 97), len(whole) - 1]:
        same(f"byte {place}", whole[:place] + bytes([whole[place] ^ 1]) + whole[place + 1 :])
        same(f"cut at {place}", whole[:place])
    expect_log(loom)


def added(room):
    """entries and lines are added, not rewritten: of many files in many steps less than three times the bytes of the entries are written beside the store"""
    loom = Loom(room)
    for number in range(1500):
        loom.put(f"src/{number % 20:02}/{number:04}", str(number))
    written = loom.folder / "tmp/written"

    def counting():
        counted_steps(20)()
        real, total = os.write, [0]

        def write(number, data):
            done = real(number, data)
            if number > 2 and not os.readlink(f"/proc/self/fd/{number}").startswith("/memfd"):
                total[0] += done
                written.write_text(str(total[0]))
            return done

        os.write = write

    counts_of(loom, "data", patch=counting)
    entries, known = len(loom.read("log.entries")), len(loom.read("log.known"))
    if len(entries_of(loom)) != 75 or int(written.read_text()) + known > 3 * entries:
        raise Wrong(f"  {written.read_text()} and {known} bytes were written for {entries} of the entries")
    size = known
    before = os.stat(loom.folder / "log.known")
    counts_of(loom)
    behind = os.stat(loom.folder / "log.known")
    if (before.st_ino, before.st_mtime_ns) != (behind.st_ino, behind.st_mtime_ns) or len(loom.read("log.known")) != size:
        raise Wrong("  what is known was written again though nothing changed")


def by_many(room):
    """files are read by as many at a time as are asked for, and what is logged is the same, in the same order; more folders than may be open are no trouble"""
    loom = Loom(room)
    for number in range(400):
        loom.put(f"src/{number:03}/{'d/' * (number % 7)}f", str(number) * 100)
    found = []
    for workers in ("1", "4", "32"):
        for path in [*loom.folder.glob("log*"), *loom.folder.glob("kept.made")]:
            shutil.rmtree(path) if path.is_dir() else path.unlink()

        def few_handles():
            import resource

            resource.setrlimit(resource.RLIMIT_NOFILE, (256, 256))

        counts = counts_of(loom, "data", "--workers", workers, patch=few_handles)
        found.append((counts["new"], loom.read("log.entries")))
    if found[0][0] != 400 or len({it[1] for it in found}) != 1:
        raise Wrong(f"  {[it[0] for it in found]}")
    if digest(b"7" * 100) + b"  ./007/f" not in found[0][1]:
        raise Wrong("  a digest isn't that of its file")


def entries_lost(room):
    """entries that were lost, all or their end, aren't replaced by logging all again: the log makes no step and ends with 17, until weft check --entries has
    made them anew of the store; of a damaged store, or of one without its lines, none are made"""
    loom = Loom(room)
    folder_of(loom, "a", "b\nc", "d")
    counts_of(loom, "data")
    loom.put("src/a", "other")
    (loom.folder / "src/d").unlink()
    counts_of(loom)
    loom.append("log", b"by hand")
    loom.expect("log src log", 10)
    whole = loom.read("log.entries")
    ends = [at + 1 for at, byte in enumerate(whole) if byte == 10]
    for cut in (None, 0, *ends[:-1], ends[1] - 7, ends[-1] - 1):
        for name in ("log.known", None):
            (loom.folder / "log.entries").unlink() if cut is None else loom.put("log.entries", whole[:cut])
            if name:
                (loom.folder / name).unlink(missing_ok=True)
            before = loom.read("log/timeline.tw")
            loom.expect("log src log", 17, "weft check --entries log", "No step was made")
            if loom.read("log/timeline.tw") != before:
                raise Wrong(f"  cut at {cut}: a step was made")
            loom.expect("check log --entries", 0, "log.entries was made anew, of the store: 5 entries")
            if loom.read("log.entries") != whole:
                raise Wrong(f"  cut at {cut}: {loom.read('log.entries')}")
            if counts_of(loom)["same"] != 2:
                raise Wrong(f"  cut at {cut}: not all is as it was")
    lines = loom.read("log.lines")
    for name in ("log.lines", "log.anchor", "log.seal", "log.entries"):
        (loom.folder / name).unlink()
    loom.expect("check log --entries", 17, "neither log.lines nor log.anchor stands beside it")
    loom.put("log.lines", lines)
    loom.put("log/timeline.tw", loom.read("log/timeline.tw")[:-5000])
    loom.expect("check log --entries", 8)
    if (loom.folder / "log.entries").exists():
        raise Wrong("  entries were made")


def entries_taken_out(room):
    """entries that are taken away amid the file, or all but one of a step that never was, aren't logged again as new, and weft check tells them; made anew of
    the store, the log goes on, and logs as gone what is"""
    loom = Loom(room)
    for name in "abc":
        folder_of(loom, name)
        loom.expect("log src log data", 0)
    whole = loom.read("log.entries")
    (loom.folder / "src/a").unlink()
    ends = whole.splitlines(True)
    for data in (ends[2], ends[0] + ends[2], b"999999 0 " + ends[1][4:], b""):
        loom.put("log.entries", data)
        (loom.folder / "log.known").unlink(missing_ok=True)
        loom.expect("log src log", 17, "weft check --entries log", "No step was made")
        loom.expect("check log --all", 8, "log.entries")
    loom.expect("check log --entries", 0, "log.entries was made anew")
    if loom.read("log.entries") != whole:
        raise Wrong(f"  {loom.read('log.entries')}")
    loom.expect("log src log", 0, "0 files new", "1 gone, 2 as they were")


def older_content(room):
    """where entries behind that of an older content were taken away or changed, amid the file, no proof is made of that content as the last one, nor is a file
    called one that never was logged, or one that isn't gone: weft prove tells what is missing; with --step it proves the entry that was named"""
    loom = Loom(room)
    for name, data in (("sold", "one"), ("sold", "two"), ("more", "of more")):
        loom.put(f"src/{name}", data)
        loom.expect(f"log src log{' data' * (data == 'one')}", 0)
    (loom.folder / "src/more").unlink()
    loom.expect("log src log --gone", 0)
    loom.put("src/end", "of end")
    loom.expect("log src log", 0)
    whole = loom.read("log.entries")
    lines = whole.splitlines(True)
    faults = {
        "sold": [b"".join(it for it in lines if not it.startswith(b"2 ")), whole.replace(lines[1], lines[1].replace(b"sold", b"told"))],
        "more": [b"".join(it for it in lines if not it.startswith(b"4 ")), b"".join(it for it in lines if b"./more" not in it)],
    }
    for name, changes in faults.items():
        for number, data in enumerate(changes):
            loom.put("log.entries", data)
            loom.expect(f"prove log {name} --out p{number}", 17, "log.entries", "No proof was made", absent=("no entries of", "No step was made"))
            if (loom.folder / f"p{number}").exists():
                raise Wrong(f"  a proof of {name} was made")
    loom.put("log.entries", faults["sold"][0])
    loom.expect("prove log sold --step 1 --out older", 0, "in step 1 of data")
    loom.put("log.entries", whole)
    loom.expect("prove log sold", 0, "in step 2 of data")
    loom.expect("prove log more", 10, "step 4 of data logged later that more is gone")
    loom.expect("prove log nothing", 7, "no entries of nothing")


def older_part(room):
    """the same where the entry that was taken away is in a later part than the older content"""
    loom = Loom(room)
    loom.put("src/sold", "one")
    in_parts(loom, 2)
    loom.put("src/sold", "two")
    loom.expect("log src log", 0, patch=at_rest(small_parts()))
    loom.put("src/more", "three")
    loom.expect("log src log", 0, patch=at_rest(small_parts()))
    whole = loom.read("log/part-2.entries")
    loom.expect("prove log sold --out last", 0, "of data-2")
    loom.put("log/part-2.entries", b"".join(it for it in whole.splitlines(True) if b"./sold" not in it))
    loom.expect("prove log sold --out older", 17, "part-2.entries", "No proof was made")
    if (loom.folder / "older").exists():
        raise Wrong("  a proof of the older content was made")


def put_back_together(room):
    """entries and what is known of files, both put back as they were before, let nothing be logged twice: the log makes no step and ends with 17"""
    loom = Loom(room)
    folder_of(loom, "a", "b")
    counts_of(loom, "data")
    older = {name: loom.read(f"log.{name}") for name in ("entries", "known")}
    (loom.folder / "src/a").unlink()
    counts_of(loom)
    whole = loom.read("log.entries")
    counts_of(loom)
    for name, data in older.items():
        loom.put(f"log.{name}", data)
    before = loom.read("log/timeline.tw")
    loom.expect("log src log", 17, "weft check --entries log", "No step was made", patch=at_rest())
    loom.expect("check log --entries", 0, "log.entries was made anew")
    if loom.read("log/timeline.tw") != before or loom.read("log.entries") != whole:
        raise Wrong(f"  {loom.read('log.entries')}")
    if counts_of(loom)["gone"]:
        raise Wrong("  it is logged as gone twice")


def checked_amid_a_step(room):
    """entries of a step that a stopped run hadn't made yet aren't told as changed: weft check says that weft log has to be run again, and ends with 10"""
    loom = Loom(room)
    folder_of(loom, "a")
    loom.expect("log src log data", 0)
    entries = loom.read("log.entries")
    loom.put("log.entries", entries + b"2 0 " + digest(b"b") + b"  ./b\n")
    loom.put("log.pending", b"2 %d\n" % len(entries))
    loom.expect("check log --all", 10, "a run of weft log was stopped amid a step", absent=("was changed",))
    loom.expect("log src log", 0, "0 files new")
    loom.expect("check log --all", 0)
    if loom.read("log.entries") != entries:
        raise Wrong(f"  {loom.read('log.entries')}")


def chained_over(room):
    """weft chain finds the hops of stores whose history is longer than a file may be, over two of them and past lines of one service that were received since;
    a receipt of such a store's service doesn't count beside it, and a way that isn't there isn't made up"""
    loom = Loom(room)
    for name in ("shop", "bank", "port"):
        loom.service(name, [f"first of {name}".encode()])
    whole = long_history(loom)

    def hand(sender, receiver):
        loom.put("message", loom.timeweave("thread", sender, str(recorded.get((sender, receiver), 0))))
        receipt = loom.timeweave("receive", receiver, "message")
        recorded[sender, receiver] = read_receipt(receipt).step
        return read_receipt(receipt).archived

    recorded = {}
    for number in range(5):
        loom.append("shop", b"sale %d" % number)
        hand("shop", "bank")
        hand("bank", "port")
    loom.append("port", b"sent")
    last = int(loom.run("line", "port").out.split()[1])
    stores = ["--store", "shop", "--store", "bank", "--store", "port", "--out", "c"]
    for step in (1, 2, 4, 6):
        loom.expect(["chain", f"shop:{step}:0", f"port:{last}:0", *stores], 0, f"bank received step {max(step, 2)} of shop", "port received step", **whole)
    loom.put("false", Receipt("port", 2, bytes(32), "shop", 2, bytes(32)).to_bytes())
    loom.expect(["chain", "shop:2:0", f"port:{last}:0", *stores, "--hand", "false"], 0, "bank received step 2 of shop", **whole)
    loom.append("shop", b"after all")
    loom.expect(["chain", "shop:7:0", f"port:{last}:0", *stores], 12, "no way is known", **whole)
    loom.expect(["chain", "port:1:0", "shop:6:0", *stores], 12, "no way is known", **whole)
    loom.expect(["chain", "shop:2:0", f"port:{last}:0", *stores, "--svg", "c.svg"], 0, "Every hop is bound")


def many_receipts(room):
    """receipts of more than 256 nights a peer stay, each once, and one that was cut goes; to others the last 256 go"""
    net = pair(room)
    loom, size = net.loom, RECEIPT_SIZE
    net.night()
    net.night()
    for name in ("got", "given"):
        old = b"".join(Receipt("bank", 1000 + number, bytes(32), "shop", 1000 + number, bytes(32)).to_bytes() for number in range(400))
        loom.put(f"box-shop/bank/kept/{name}", old + loom.read(f"box-shop/bank/kept/{name}") + b"TWR1 cut")
    before = loom.read("box-shop/bank/kept/got")
    for _ in range(3):
        for name in ("shop", "bank"):
            loom.append(name, b"more")
        net.night()
    for name in ("got", "given"):
        found = loom.read(f"box-shop/bank/kept/{name}")
        pieces = [found[at : at + size] for at in range(0, len(found), size)]
        old = [before[at : at + size] for at in range(0, 400 * size, size)]
        if len(found) % size or len(set(pieces)) != len(pieces) or len(pieces) < 402 or pieces[:400] != old:
            raise Wrong(f"  {name} has {len(found)} bytes, {len(pieces)} receipts")
    if len(loom.read("box-shop/bank/out/receipts")) > 2 * 256 * size:
        raise Wrong("  more than the last receipts are handed on")


def many_kept_lines(room):
    """lines of a peer beyond 64 MiB are read, and kept lines of one's own too"""
    loom = Loom(room)
    loom.service("shop", [b"bread"])
    loom.service("bank", [b"x"])
    loom.put("message", loom.timeweave("thread", "shop", "0"))
    loom.timeweave("receive", "bank", "message")
    loom.append("bank", b"paid")
    with open(loom.folder / "kept", "w") as file:
        for step in range(10, 450_010):
            file.write(f"bank {step} {step:064x} 2026-11-29T09:40:00Z signed by ED25519 SHA256:0123456789012345678901234567890123456789, by exchange\n")
        file.write(loom.run("line", "bank").out)
    if os.stat(loom.folder / "kept").st_size < 1 << 26:
        raise Wrong("  the file is too small")
    loom.expect("chain shop:1:0 bank:3:0 --store shop --store bank --out c", 0, "c: shown")


def small_parts(most=6_000, patch=None):
    """What makes parts of a log end soon: with so many bytes of the history's file."""

    def change():
        from weft import logs, parts

        parts.MOST_PART, logs.MOST_EVENTS = most, 20
        if patch:
            patch()

    return change


def in_parts(loom, number, name="data"):
    """Logs files until the log has so many parts; the names of these, in their order."""
    done = 0
    while not (loom.folder / f"log/part-{number}").exists():
        for _ in range(20):
            loom.put(f"src/{done:04}", str(done))
            done += 1
        loom.expect(f"log src log {name}", 0, patch=at_rest(small_parts()))
        if done > 2000:
            raise Wrong("  no part ends")
    return [line.split()[0] for line in loom.read("log.anchor").decode().splitlines()]


def part_folders(number, service="log"):
    """The folders of the parts of a service."""
    return [service, *(f"{service}/part-{it}" for it in range(2, number + 1))]


def expect_joints(loom, folder, names, told=""):
    """Each part of a service can be exported, ends with the name of the next one, and begins with its last line; none was made twice. Their steps."""
    found, end = [], None
    for place, (path, name) in enumerate(zip(part_folders(len(names), folder), names)):
        read_name, steps = read_history(loom.timeweave("export", path))
        if read_name != name or (place and (steps[0].thread.service, steps[0].thread.authenticator) != (names[place - 1], end)):
            raise Wrong(f"{told}\n  {path}: {read_name}, begins with {steps[0]}")
        if place + 1 < len(names) and list(steps[-1].events) != [b"goes on as " + names[place + 1].encode()]:
            raise Wrong(f"{told}\n  {path} ends with {steps[-1].events}")
        end = timeline_of(read_name, steps).auths[-1]
        found.append(steps)
    if (loom.folder / folder / f"part-{len(names) + 1}").exists() or (loom.folder / f"{folder}.next").exists():
        raise Wrong(f"{told}\n  there is more than {names}")
    return found

def expect_parts(loom, names, told=""):
    """Each part can be exported and is bound to the one before; all files are in the entries, each once."""
    entries = []
    for folder, steps in zip(part_folders(len(names)), expect_joints(loom, "log", names, told)):
        recorded = [event for step in steps for event in step.events if not event.startswith(b"goes on as ")]
        kept = [text.split(b" ", 2)[2] for text in loom.read(f"{folder}.entries").split(b"\n")[:-1]]
        if recorded != kept:
            raise Wrong(f"{told}\n  {folder}: {len(recorded)} events, {len(kept)} entries")
        entries += kept
    if len(set(entries)) != len(entries):
        raise Wrong(f"{told}\n  {len(entries)} entries, {len(set(entries))} different ones")
    return entries


def five_parts(room):
    """a log goes on in parts by itself: each can be exported, ends with the name of the next one, and begins with its last line; a file of the first one is
    proved under today's line of the last one by a chain that strict accepts, and judged with the file; check looks at each part; a changed byte in any ends it
    with 8"""
    loom = Loom(room)
    names = in_parts(loom, 5)
    if names != ["data", "data-2", "data-3", "data-4", "data-5"]:
        raise Wrong(f"  {names}")
    count = len(expect_parts(loom, names))
    found = counts_of(loom, patch=small_parts(patch=no_reading))
    if (found["same"], found["new"], found["line"]["service"]) != (count, 0, "data-5"):
        raise Wrong(f"  {found}")
    loom.put("src/last", "last")
    loom.expect("log src log", 0, "1 file new", f"{count} as they were", "Hand out log.anchor: data-5", patch=small_parts())
    loom.expect(["keep", "log.anchor", "--by", "mail"], 0)
    loom.expect("line log", 0, "data-5 ")
    loom.expect("prove log 0000 --out c", 0, "in step 1 of data, before step", "of data-5, for whoever holds data-5", "judged by: proved")
    if not loom.timeweave("strict", "c", "log.anchor").startswith(b"accepted precedes"):
        raise Wrong("  strict refuses it")
    loom.expect("judge c --file src/0000", 0, "0000 is the file that was logged", "data-2 received step", "data-5 received step")
    loom.expect("judge c --file src/0001", 1, "another file")
    loom.expect("tell c", 0, "0000", "data-5")
    loom.expect("prove log last --out p", 0, "of data-5")
    loom.expect("judge p --file src/last", 0, "last is that file")
    loom.expect("prove log 0000 --top 1 --out q", 0, "in step 1 of data, for whoever holds its line of step 1")
    loom.expect("chain data:1:0 data-4:2:0 --store log --out d", 0, "data-4 received step")
    loom.expect("check log --all", 0, *(f"{name}: " for name in names), absent=("Not looked at",))
    histories = []
    for folder, name in zip(part_folders(5), names):
        loom.put(f"{name}.history", loom.timeweave("export", folder))
        histories += ["--audit", f"{name}.history"]
    loom.expect(["judge", "c", *histories], 0, "audited by: proved program")
    store = loom.read("log/part-3/timeline.tw")
    page = next((at for at in range(4 * PAGE, len(store), PAGE) if store[at] == 2), None)
    if page is not None:
        loom.put("log/part-3/timeline.tw", store[: page + 700] + bytes([store[page + 700] ^ 1]) + store[page + 701 :])
        loom.expect("check log --all --workers 1", 8, "log/part-3")
        loom.put("log/part-3/timeline.tw", store)
    shutil.rmtree(loom.folder / "log/part-5")
    loom.expect("log src log", 17, "data-4 has ended, and goes on as data-5", patch=small_parts())


def strangers(room):
    """a stranger who calls himself as the next part is never taken for it: neither where his store is put into its place, nor where his lines are kept: whether
    it is a stranger is asked, and then his name is passed over; a long name is cut; and an event of a file can't name a part"""
    loom = Loom(room)
    loom.service("data-2", [b"a stranger"])
    loom.put("line", loom.run("line", "data-2").out)
    loom.expect(["keep", "line", "--by", "mail"], 0)
    loom.put("src/goes on as evil", "x")
    loom.expect("log src log data", 2, "you keep a line of another service that is called data-2", "Choose another name")
    loom.put("kept.others", "data-2\n")
    names = in_parts(loom, 3)
    if names != ["data", "data-3", "data-4"]:
        raise Wrong(f"  {names}")
    expect_parts(loom, names)
    shutil.copytree(loom.folder / "log/part-2", loom.folder / "kept-part")
    loom.timeweave("init", "data-2", "data-2", status=None)
    for of in ("data-2", "log/part-3"):
        shutil.rmtree(loom.folder / "log/part-2")
        shutil.copytree(loom.folder / of, loom.folder / "log/part-2")
        for words in ("log src log", "prove log 0000", "line log", "check log", "chain data:1:0 data-3:2:0 --store log"):
            loom.expect(words, 17, "isn't the part in which data goes on", patch=small_parts())
    shutil.rmtree(loom.folder / "log/part-2")
    (loom.folder / "kept-part").rename(loom.folder / "log/part-2")
    loom.expect("log src log", 0, patch=small_parts())
    shutil.rmtree(loom.folder / "src")
    for path in loom.folder.glob("log*"):
        shutil.rmtree(path) if path.is_dir() else path.unlink()
    names = in_parts(loom, 2, "a-name-of-16-let")
    if names != ["a-name-of-16-let", "a-name-of-16-l-2"]:
        raise Wrong(f"  {names}")
    expect_parts(loom, names)


def true_stranger(room):
    """a stranger's service that is called as the next part and received the true last line isn't taken for that part, while a line of it was handed out or is
    kept by its user; who writes beside it alone, its lines, entries and seal, has nothing made, proved or called good"""
    loom = Loom(room)
    in_parts(loom, 2)
    handed_out = loom.read("log.anchor")
    (loom.folder / "evil").mkdir()
    loom.timeweave("init", "evil", "data-2")
    loom.put("message", loom.timeweave("thread", "log", "0"))
    loom.timeweave("receive", "evil", "message")
    event = digest(b"forged") + b"  ./contract"
    loom.append("evil", event)
    line = loom.run("line", "evil").out
    shutil.rmtree(loom.folder / "log/part-2")
    (loom.folder / "evil").rename(loom.folder / "log/part-2")
    for name, data in (("lines", line), ("anchor", line), ("entries", b"2 0 " + event + b"\n"), ("seal", f"1.1 {line}")):
        loom.put(f"log/part-2.{name}", data)
    reseal(loom.folder / "log")
    words = ("log src log", "line log", "prove log contract", "check log --all", "chain data:1:0 data-2:2:0 --store log")
    for word in words:
        loom.expect(word, 17, "part-2", patch=small_parts())
    loom.put("log.anchor", handed_out.split(b"\n")[0] + b"\n")
    loom.put("kept", handed_out)
    before = loom.read("log/part-2/timeline.tw")
    loom.expect(words[0], 17, "among the lines that you keep", patch=small_parts(), WEFT_KEPT=str(loom.folder / "kept"))
    loom.expect(words[3], 17, "log/part-2", WEFT_KEPT=str(loom.folder / "kept"))
    if loom.read("log/part-2/timeline.tw") != before:
        raise Wrong("  a step was made")


def part_destroyed(room):
    """a part that was destroyed, with all that stood beside it or without, is missed by each word, and isn't made a second time, whatever SERVICE.next says, nor
    where the seal beside the first part was made anew"""
    loom = Loom(room)
    in_parts(loom, 2)
    ended, next_made_up = "data has ended, and goes on as data-2", b"2 data-2\n"
    for note, is_noted, *told in ((None, True, ended), (next_made_up, True, ended), (next_made_up, False, "log.anchor has a line of step", "of data-2")):
        if not is_noted:
            (loom.folder / "kept.made").unlink()
        if note:
            loom.put("log.next", note)
            loom.put("log.seal", loom.read("log.seal").split(b"\n")[0] + b"\n")
        for path in loom.folder.glob("log/part-2*"):
            shutil.rmtree(path) if path.is_dir() else path.unlink()
        for word in ("log src log", "line log", "prove log 0000", "check log --all", "chain data:1:0 data:1:1 --store log"):
            loom.expect(word, 17, *told, patch=small_parts())
    (loom.folder / "log.next").unlink()
    (loom.folder / "log.anchor").unlink()
    loom.expect("check log --all", 17, "data has ended, and goes on as data-2")
    loom.expect("log src log", 17, "data has ended, and goes on as data-2", patch=small_parts())


def not_full_by_a_fault(room):
    """where the export of a service, by which weft sees how large its history is, is killed, has no memory or finds a damaged page, no part is made, in a log or a
    turn: that is told with a status of its own, and a sound run goes on in the same part"""
    loom = Loom(room)
    loom.put("box/box.conf", "unsigned = yes\n")
    for number in range(4):
        loom.put(f"src/{number}", str(number))
        loom.expect("log src log data", 0)
    small = small_parts(30_000)
    for end, status in (("kill -9 $$", 130), ('echo "no memory"; exit 6', 6), ('echo "store BadPage 4"; exit 8', 8), ('echo "fault disk"; exit 5', 5)):
        wrapped = loom.put("wrapped", f'#!/bin/sh\n[ "$1" = export ] && {{ {end}; }}\nexec {loom.program} "$@"\n')
        wrapped.chmod(0o755)
        loom.put("src/more", end)
        for words in ("log src log", "exchange log box"):
            loom.expect(words, status, absent=("goes on as",), patch=small, TIMEWEAVE_PROGRAM=str(wrapped))
            loom.expect(words, 0, absent=("goes on as",), patch=small)
    if (loom.folder / "log/part-2").exists() or (loom.folder / "log.next").exists():
        raise Wrong("  a part was made, or begun")


def ended_by_hand(room):
    """a service that somebody ended by hand, as the documents say, is read with the next one in its folder; where that lies elsewhere, each word says where it
    belongs"""
    loom = Loom(room)
    loom.put("src/a", "a")
    loom.expect("log src shop shop", 0)
    loom.append("shop", b"goes on as shop-2")
    (loom.folder / "elsewhere").mkdir()
    loom.timeweave("init", "elsewhere", "shop-2")
    loom.put("last", loom.timeweave("thread", "shop", "0"))
    loom.timeweave("receive", "elsewhere", "last")
    words = ("check shop", "line shop", "prove shop a", "log src shop")
    for word in words:
        loom.expect(word, 17, "shop has ended, and goes on as shop-2", "appended by hand", "belongs into shop/part-2")
    shutil.move(loom.folder / "elsewhere", loom.folder / "shop/part-2")
    for word in words[:2]:
        loom.expect(word, 0)
    loom.expect(words[3], 17, "--adopt-store")
    loom.expect([*words[3].split(), "--adopt-store", loom.run("line", "shop").out.strip()], 0)
    for word in words:
        loom.expect(word, 0)


def next_made_up(room):
    """what stands in SERVICE.next by somebody's hand, or since its removal was lost, makes no part and no step: an old part that was put back is found as
    without it, and a good one goes on, and settles what was pending"""
    loom = Loom(room)
    names = in_parts(loom, 2)
    shutil.copytree(loom.folder / "log/part-2", loom.folder / "old")
    loom.put("src/later", "later")
    loom.expect("log src log", 0, patch=small_parts())
    shutil.copytree(loom.folder / "log/part-2", loom.folder / "good")
    for note in (b"2 data-2\n", b"3 data-3\n", b"3 evil\n", b"9 evil\n", b"1 data\n"):
        loom.put("log.next", note)
        shutil.rmtree(loom.folder / "log/part-2")
        shutil.copytree(loom.folder / "old", loom.folder / "log/part-2")
        loom.put("log.anchor", loom.read("log.anchor").split(b"\n")[0] + b"\n")
        loom.expect("log src log", 17, "isn't the store of data-2's line", patch=small_parts())
        shutil.rmtree(loom.folder / "log/part-2")
        shutil.copytree(loom.folder / "good", loom.folder / "log/part-2")
        loom.put("log.next", note)
        entries = loom.read("log/part-2.entries")
        loom.put("log/part-2.entries", entries + b"99 0 " + digest(b"never") + b"  ./never\n")
        loom.put("log/part-2.pending", b"99 %d\n" % len(entries))
        step = json.loads(loom.expect("log src log --json", 0, patch=small_parts()).out)["line"]
        if step["service"] != "data-2" or (loom.folder / "log.next").exists() or (loom.folder / "log/part-2.pending").exists():
            raise Wrong(f"  {note!r}: {step}")
        expect_parts(loom, names, f"  {note!r}")
        shutil.rmtree(loom.folder / "good")
        shutil.copytree(loom.folder / "log/part-2", loom.folder / "good")


def part_made_again(room):
    """a part that was destroyed isn't made again where SERVICE.next is made up and its line is cut out of SERVICE.anchor, whether a store of its name stands in
    its place or none, with the true first step: the seal beside the first part has it, and where it is cut out of that too, what is noted among the user's own files"""
    loom = Loom(room)
    in_parts(loom, 2)
    loom.put("m", loom.timeweave("thread", "log", "0"))
    (loom.folder / "made").mkdir()
    loom.timeweave("init", "made", "data-2")
    loom.timeweave("receive", "made", "m")
    for path in loom.folder.glob("log/part-2*"):
        shutil.rmtree(path) if path.is_dir() else path.unlink()
    loom.put("src/new", "new")
    for is_there, is_sealed in ((False, True), (False, False), (True, False), (True, True)):
        if is_there and not is_sealed:
            shutil.copytree(loom.folder / "made", loom.folder / "log/part-2")
        if not is_sealed:
            loom.put("tmp/seal", loom.read("log.seal"))
            loom.put("log.seal", loom.read("log.seal").split(b"\n")[0] + b"\n")
        elif is_there:
            loom.put("log.seal", loom.read("tmp/seal"))
        loom.put("log.anchor", loom.read("log.anchor").split(b"\n")[0] + b"\n")
        loom.put("log.next", b"2 data-2\n")
        (loom.folder / "log.known").unlink(missing_ok=True)
        told = ("stands beside it" if is_sealed else "it may be an old one") if is_there else "data has ended, and goes on as data-2"
        loom.expect("log src log", 17, told, patch=small_parts())
    if b"data-2" in loom.read("log.anchor") or (loom.folder / "log/part-2.lines").exists():
        raise Wrong("  it was made again")


def part_behind_an_older_backup(room):
    """where a backup of before a part is put back, once all that told of it was lost, the next part has another name: of that one a history is out; a run that is killed while it
    makes the new one is brought to its end"""
    loom = Loom(room)
    loom.put("src/first", "first")
    loom.expect("log src log data", 0)
    loom.expect("backup log old.backup", 0)
    for number in range(2):
        loom.put(f"src/{number}", f"of {number}")
        loom.expect("log src log", 0, patch=small_parts(1))
    if b"data-2 " not in loom.read("kept.made"):
        raise Wrong(f"  {loom.read('kept.made')!r}")
    for path in loom.folder.glob("log*"):
        shutil.rmtree(path) if path.is_dir() else path.unlink()
    loom.expect("restore old.backup log", 0)
    line = loom.expect("line log", 10).out.strip()
    for number in range(2, 4):
        loom.put(f"src/{number}", f"of {number}")
        loom.expect(["log", "src", "log", *(["--adopt-store", line] if number == 2 else [])], 0)
    loom.put("src/last", "last")
    back = copied(loom)

    def check(done, told):
        loom.run("log", "src", "log", patch=small_parts(1))
        loom.run("log", "src", "log", patch=small_parts(1))
        if not loom.read("log.anchor").split(b"\n")[-2].startswith((b"data-3 ", b"data-4 ")) or loom.run("check", "log").status:
            raise Wrong(f"  {told}: {done}: {loom.read('log.anchor')!r}")

    loom.expect("log src log", 0, "data goes on as data-3", patch=small_parts(1))
    for at in range(1, 60, max(3, SHARE // 4)):
        back()
        done = loom.run("log", "src", "log", patch=lambda at=at: (small_parts(1)(), faulty(at, "before")()))
        check(done, f"killed at call {at}")


def part_alone(room):
    """a part of a log isn't logged, checked or exchanged by itself, nor is its line noted: nothing is made, under no second lock"""
    loom = Loom(room)
    in_parts(loom, 2)
    (loom.folder / "box").mkdir()
    before = sorted(loom.folder.rglob("*"))
    for words in ("log src log/part-2", "log src log/part-3 more", "line log/part-2", "check log/part-2", "check --entries log/part-2", "exchange log/part-2 box"):
        loom.expect(words, 2, "is a part of log, and isn't named by itself", "Name the folder of the whole log: log")
    if [path for path in sorted(loom.folder.rglob("*")) if path not in before]:
        raise Wrong("  something was made")
    loom.put("src/last", "last")
    loom.expect("log src log", 0, "1 file new")
    shutil.copytree(loom.folder / "log/part-2", loom.folder / "part-2")
    shutil.copy2(loom.folder / "log/part-2.entries", loom.folder / "part-2.entries")
    loom.expect("check part-2", 0)


def name_of_anothers_line(room):
    """no service is made under a name of which its user keeps somebody else's line: that is told, and the folder can still be made under another one"""
    loom = Loom(room)
    loom.put("letter", f"data 9 {'a' * 64}\n")
    loom.expect(["keep", "letter", "--by", "letter from a stranger"], 0)
    loom.put("src/a", "a")
    loom.expect("log src mine data", 2, "you keep a line of another service that is called data", "Choose another name")
    if (loom.folder / "mine").exists():
        raise Wrong("  its folder was made")
    loom.expect("log src mine data2", 0, "1 file new")


def expect_one_status(loom, words, status, told):
    """Each value of JSON that weft check writes has the status with which the run ends, and what is told of the whole log."""
    found = [json.loads(line) for line in loom.expect(words, status).out.splitlines()]
    if not found or any(it["status"] != status or told not in " ".join(it["told"]) for it in found):
        raise Wrong(f"  {found}")


def logs_of_years(room):
    """a log whose name ends in a year, or has that of another one before its year, isn't called old, and is made, while a line of another year's log is kept; a part
    that was handed out and isn't there is told in one JSON of each part, with the status of the run"""
    loom = Loom(room)
    loom.put("src/a", "a")
    for place, name in enumerate(("finance-log-2026", "finance-log-2025", "data-2026", "data")):
        loom.expect(f"log src y{place} {name}", 0)
        loom.expect(["keep", f"y{place}.anchor", "--by", "my own"], 0)
    for words in ("log src y1", "check y1", "log src y3", "check y3", "log src y4 finance-log-2024"):
        loom.expect(words, 0, absent=("as a further part",))
    in_parts(loom, 2, "shop")
    loom.put("log.anchor", loom.read("log.anchor") + f"shop-3 5 {'a' * 64}\n".encode())
    loom.expect("check log", 17, "shop-3, and no part of log is called so", "good")
    expect_one_status(loom, "check log --json", 17, "shop-3, and no part of log is called so")


def old_whole_log_put_back(room):
    """an old log, put back whole from before it went on in a next part, makes no step, in a log or a turn, while its user keeps a line of that part, also where he
    names its last line; weft check tells it; once he says that the part is another's service, it goes on"""
    loom = Loom(room)
    loom.put("src/a", "a")
    loom.put("box/box.conf", "unsigned = yes\n")
    loom.expect("log src log data", 0)
    put_back = copied(loom)
    in_parts(loom, 2)
    loom.put("src/b", "b")
    loom.expect("log src log", 0)
    later = loom.read("log.anchor").splitlines(True)[-1]
    put_back()
    loom.put("letter", later)
    loom.expect(["keep", "letter", "--by", "my own"], 0)
    old, told = loom.read("log/timeline.tw"), ("you keep a line of step", "of data-2", "as a further part of data would be called", "echo data-2 >> ", "kept.others")
    for words in (["log", "src", "log"], ["exchange", "log", "box"], ["log", "src", "log", "--adopt-store", loom.read("log.anchor").decode().strip()]):
        loom.expect(words, 17, *told, "No step was made")
    loom.expect("check log --all", 10, *told, "1 of 1 step good")
    expect_one_status(loom, "check log --json", 10, "of data-2")
    if loom.read("log/timeline.tw") != old:
        raise Wrong("  a step was made")
    loom.put("log.others", "data-2\n")  # (whoever wrote over the store can write that too)
    for words, status in (("log src log", 17), ("exchange log box", 17), ("prove log a --out p", 17), ("check log --all", 10)):
        loom.expect(words, status, *told)
    loom.put("kept.others", "data-2\n")
    for words in ("log src log", "check log --all", "exchange log box"):
        loom.expect(words, 0, absent=told)


def parts_with_faults(room):
    """weft log killed, and failing with a full or a bad device, at each of its calls while it goes on in a new part: the next run goes on, no part is made
    twice, and nothing is lost or logged twice"""
    loom = Loom(room)
    for number in range(20):
        loom.put(f"src/{number:04}", str(number))
    loom.expect("log src log data", 0, patch=small_parts(3_000))
    for number in range(20, 60):
        loom.put(f"src/{number:04}", str(number))

    def check(told):
        done = loom.run("log", "src", "log", patch=small_parts(3_000))
        if done.status != 0 or "Traceback" in done.err:
            raise Wrong(f"{told}\n  the next run: {done}")
        names = [line.split()[0] for line in loom.read("log.anchor").decode().splitlines()]
        if names != ["data", "data-2"] or len(expect_parts(loom, names, told)) != 60:
            raise Wrong(f"{told}\n  {names}")

    class Small(Loom):
        """The same, with small parts."""

        def run(self, *words, patch=None, **env):
            return super().run(*words, patch=small_parts(3_000, patch), **env)

    small = Small(room)
    small.env = loom.env
    if each_fault(small, ["log", "src", "log"], check) < 60 // SHARE:
        raise Wrong("  there were fewer than 60 faults")


class Growing(Net):
    """Services that exchange, and whose parts end soon."""

    most = 600

    def turn(self, name, status=0, *texts, **more):
        """A turn of a service, in small parts."""
        return super().turn(name, status, *texts, **{"patch": small_parts(self.most), **more})

    def parts(self, name):
        """The names of a service's parts."""
        return [line.split()[0] for line in self.loom.read(f"{name}.anchor").decode().splitlines()]

    def folder(self, name):
        """The folder of its last part."""
        return part_folders(len(self.parts(name)), name)[-1]

    def record(self, name, *events):
        """Lets a service record a step; its line."""
        return self.loom.append(self.folder(name), *events)

    def grown(self, name, number):
        """Nights until a service has so many parts; in each of them each service records an event."""
        for night in range(30):
            if len(self.parts(name)) >= number:
                return
            for it in self.peers:
                self.record(it, b"%s in night %d" % (it.encode(), night))
            self.night()
        raise Wrong(f"  no part ends: {self.parts(name)}")


def part_of(net, name, peer):
    """The part in which a peer goes on, as a box has it."""
    found, place = peer, f"box-{name}/{peer}/kept/"
    while (net.loom.folder / place / "next").exists():
        found = net.loom.read(f"{place}next").split()[0].decode()
        place = f"box-{name}/{peer}/kept/{found}/"
    return found


def growing(room, peers=None):
    """Services that know one another, and whose parts end soon."""
    return Growing(room, peers or {"shop": ["bank"], "bank": ["shop"]}).begun()


def take_part(net, name, peer, part, told=""):
    """The other one's next turn, in which it takes a part of a peer."""
    net.turn(name, 0, f"{part}: ", "both proved")
    if part_of(net, name, peer) != part:
        raise Wrong(f"{told}  {name} knows {part_of(net, name, peer)}")


def gone_on(net, name, *others):
    """A turn in which a service goes on, and its files are carried."""
    net.turn(name, 0, " goes on as ", patch=small_parts(1))
    for other in others:
        net.carry(name, other)


def exchanged_in_parts(room):
    """three services that exchange go on in parts by themselves, one in five, several of them in one night: each part names the next one and is received by it;
    the chain over all five parts, and that from an event of a peer's first part, are accepted by strict; check looks at each part; nobody has to accept
    anything"""
    net = growing(room, {"shop": ["bank"], "bank": ["shop", "port"], "port": ["bank"]})
    loom = net.loom
    sold, taken = net.record("shop", b"sold").split(), net.record("bank", b"taken").split()
    net.grown("bank", 5)
    net.most = 1 << 26
    net.night()
    net.night()
    for name, others in net.peers.items():
        expect_joints(loom, name, net.parts(name))
        if [part_of(net, name, it) for it in others] != [net.parts(it)[-1] for it in others]:
            raise Wrong(f"  {name} knows {[part_of(net, name, it) for it in others]}, and not {[net.parts(it)[-1] for it in others]}")
    if min(len(net.parts(name)) for name in net.peers) < 2:
        raise Wrong("  not all went on")
    loom.expect("check bank --all", 0, *(f"{part}: " for part in net.parts("bank")))
    paid = net.record("bank", b"paid").split()
    later, *between = reversed(net.parts("bank"))
    for first, stores, told in ((taken, ["bank"], [later, *between[:-1]]), (sold, ["shop", "bank"], [later])):
        words = ["chain", f"{first[0]}:{first[1]}:0", f"{later}:{paid[1]}:0", *(it for store in stores for it in ("--store", store)), "--out", "c"]
        loom.expect(words, 0, "Every hop is bound", *(f"{name} received step" for name in told))
        expect_strict(loom, "c", " ".join(paid))


def expect_strict(loom, proof, last):
    """A proof is accepted by strict, under lines that stand beside services, and this one."""
    noted = [last, *(line for path in loom.folder.rglob("*.lines") for line in path.read_text().splitlines())]
    needed = [f"{it.service} {it.step} " for it in formats.needed_by_proof(loom.read(proof))]
    loom.put("anchors", "".join(f"{next(line for line in noted if line.startswith(front))}\n" for front in needed))
    if len(needed) < 2 or not loom.timeweave("strict", proof, "anchors").startswith(b"accepted precedes"):
        raise Wrong(f"  strict refuses {proof}: {needed}")


def chained_over_peers_parts(room):
    """from one's own store and box alone the chain from an event of one's first part to one of a peer's last part is made, after both went on twice: what parts
    that have ended are asked for the last one answers; an event is handed out only where the list has it with the name of its part"""
    net = pair(room)
    loom = net.loom
    sold = loom.append("shop", b"sold").split()
    net.night()
    for _ in range(2):
        for name, other in (("shop", "bank"), ("bank", "shop")):
            gone_on(net, name, other)
        net.night()
        net.night()
    if (part_of(net, "shop", "bank"), part_of(net, "bank", "shop")) != ("bank-3", "shop-3"):
        raise Wrong(f"  {part_of(net, 'shop', 'bank')}")
    paid = loom.append("bank/part-3", b"paid").split()
    loom.put("box-bank/shop/events", f"{paid[1]} 0\nbank-2 * *\n")
    words = ["chain", f"shop:{sold[1]}:0", f"bank-3:{paid[1]}:0", "--store", "shop", "--box", "box-shop", "--out", "c"]
    for night in range(9):
        net.turn("shop", 0)
        net.turn("bank", 0)
        net.carry_all()
        done = loom.run(*words)
        if done.status == 0:
            break
        if night == 4:
            if "are handed out by hand here" not in done.out:
                raise Wrong(f"  {done}")
            loom.put("box-bank/shop/events", "bank-3 * *\n")
    if done.status or "Every hop is bound" not in done.out or "bank-3" not in done.out:
        raise Wrong(f"  {done}")


def exchange_with_faults(room):
    """weft exchange killed, and failing with a full or a bad device, at each of its calls in a night in which it goes on and takes its peer's next part: the next
    turns go on, no part is made twice, and both know and record the other's"""
    net = pair(room)
    loom = net.loom
    loom.append("shop", b"last")
    gone_on(net, "bank", "shop")

    class Small(Loom):
        """The same, with parts that end at once."""

        def run(self, *words, patch=None, **env):
            return super().run(*words, patch=small_parts(1, patch), **env)

    small = Small(room)
    small.env = loom.env

    def check(told):
        for name, other in (("shop", "bank"), ("bank", "shop")):
            # A note alone, of which no step tells, is dropped: the turn looks anew whether the part has its share.
            is_begun = b"goes on as" in loom.timeweave("export", "shop")
            again = small if name == "shop" and not is_begun else loom
            done = again.run("exchange", name, f"box-{name}")
            if done.status or "Traceback" in done.err or "EVIDENCE" in done.out:
                raise Wrong(f"{told}\n  the next turn of {name}: {done}")
            net.carry(name, other)
        for name in net.peers:
            expect_joints(loom, name, [name, f"{name}-2"], told)
            if f"\n{name}-2 1 ".encode() not in loom.read(f"{name}.seal"):
                raise Wrong(f"{told}\n  that {name}-2 was made isn't noted")
        if (part_of(net, "shop", "bank"), part_of(net, "bank", "shop")) != ("bank-2", "shop-2"):
            raise Wrong(f"{told}\n  {part_of(net, 'shop', 'bank')}, {part_of(net, 'bank', 'shop')}")
        if not loom.read("box-bank/shop/kept/shop-2/taken").startswith(b"shop-2 "):
            raise Wrong(f"{told}\n  bank didn't record it")

    if each_fault(small, ["exchange", "shop", "box-shop"], check) < 200 // SHARE:
        raise Wrong("  there were fewer than 200 faults")


def strangers_at_peers(room):
    """a stranger who calls himself as a peer's next part is never taken for it: the service passes over his name where its peers tell of it; where it couldn't
    know, its part isn't taken at a box that has the name, which is told; and a peer can't take another name than that of a part of its own"""
    net = Net(room, {"shop": ["bank"], "bank": ["shop", "shop-2", "evil"], "shop-2": ["bank"], "evil": ["bank"]}).begun()
    loom = net.loom
    net.night()
    shutil.copytree(loom.folder / "box-bank/shop-2", loom.folder / "stranger")
    gone_on(net, "shop", "bank")
    take_part(net, "bank", "shop", "shop-3")
    for name in ("shop-4", "bank-2", "evil"):
        line = loom.append("evil", f"goes on as {name}".encode())
        loom.put("box-bank/evil/in/line", signed(loom, "evil", line.encode()))
        loom.put("box-bank/evil/in/goes-on", loom.timeweave("prove", "evil", "event", line.split()[1], "0", line.split()[1]))
        net.turn("bank", 10, f"evil: its last step names {name} as the part in which it goes on, and a part of it can't have the name")
    (loom.folder / "box-bank/evil/in/goes-on").unlink()
    shutil.copytree(loom.folder / "stranger", loom.folder / "box-bank/shop-4")
    loom.append("shop/part-2", b"more")
    gone_on(net, "shop", "bank")
    net.turn("bank", 10, "shop-3: its last step names shop-4 as the part in which it goes on, and another service has the name: not taken")
    keys = loom.read("box-bank/allowed_signers")
    if part_of(net, "bank", "shop") != "shop-3" or any(f"\n{name} ".encode() in keys for name in ("shop-4", "bank-2", "evil-2")):
        raise Wrong(f"  {part_of(net, 'bank', 'shop')}: {keys}")


def kept_of_another(room):
    """a peer's next part isn't taken where the user keeps another line of its step, which two services of one name have, or two histories; nor is a line that a peer signs
    passed over where he keeps another one of its step: both lines are told"""
    net = pair(room)
    loom = net.loom
    net.night()
    gone_on(net, "shop", "bank")
    own = loom.run("line", "shop").out.split()
    kept = loom.put("bank.kept", f"{own[0]} {own[1]} {'0' * 64} 2026-11-29T09:40:00Z by letter from shop-2\n")
    keys = loom.read("box-bank/allowed_signers")
    told = (f"TWO LINES: the line of step {own[1]} of shop-2 that you keep", "by letter from shop-2", "or two services have one name")
    net.turn("bank", 10, "it goes on as shop-2, and that isn't taken", *told, absent=("both proved",), WEFT_KEPT=kept)
    if loom.read("box-bank/allowed_signers") != keys or part_of(net, "bank", "shop") != "shop":
        raise Wrong("  the part was taken")
    for _ in range(2):
        loom.append("shop/part-2", b"more")
    net.turn("shop", 0)
    net.carry("shop", "bank")
    net.turn("bank", 10, "it goes on as shop-2, and that isn't taken", *told, absent=("both proved",), WEFT_KEPT=kept)  # (its line is of a later step by now)
    take_part(net, "bank", "shop", "shop-2")
    own = loom.run("line", "shop").out.split()
    kept = loom.put("bank.kept", f"{own[0]} {own[1]} {'0' * 64} 2026-11-29T09:40:00Z by letter from shop-2\n")
    net.turn("bank", 11, f"TWO LINES: the line of step {own[1]} of shop-2 that you keep", WEFT_KEPT=kept)


def kept_of_another_step(room):
    """where the user keeps a line of a peer's next part of a step of which what came shows nothing, the part is taken once a link shows that the line is of its history, and not
    before, however many steps it makes until then; where the link shows another line of that step it isn't taken"""
    net = pair(room)
    loom = net.loom
    net.night()
    gone_on(net, "shop")
    lines = [loom.append("shop/part-2", b"%d" % number).strip() for number in range(9)]
    net.turn("shop", 0)
    net.carry("shop", "bank")
    back, how, kept = copied(loom), "2026-11-29T09:40:00Z by letter from shop-2", loom.folder / "tmp/kept"
    waits = "no link has shown yet that it is of that history"

    def is_unseen(line):
        back()
        kept.write_text(f"{line.rpartition(' ')[0]} {'0' * 64} {how}\n")
        done = net.turn("bank", 10, "it goes on as shop-2, and that isn't taken", absent=("both proved",), WEFT_KEPT=kept)
        return waits in done.out

    unseen = next(line for line in lines if is_unseen(line))
    name = unseen.rpartition(" ")[0]
    for line, told in ((unseen, "both proved"), (f"{name} {'0' * 64}", "and the history of the line in its folder, of step ")):
        back()
        kept.write_text(f"{line} {how}\n")
        for number in range(2):
            net.turn("bank", 10, f"you keep its line of step {unseen.split()[1]} (", waits, absent=("both proved",), WEFT_KEPT=kept)
            net.carry("bank", "shop")
            loom.append("shop/part-2", b"more %d" % number)
            if number:
                loom.run("exchange", "shop", "box-shop")
                net.carry("shop", "bank")
        is_true = line == unseen
        net.turn("bank", 0 if is_true else 10, told, absent=(waits,), WEFT_KEPT=kept)
        if part_of(net, "bank", "shop") != ("shop-2" if is_true else "shop"):
            raise Wrong(f"  bank knows {part_of(net, 'bank', 'shop')}")
    net.turn("bank", 10, "it goes on as shop-2, and that isn't taken", "has another one", WEFT_KEPT=kept)


def carried_wrongly(room):
    """a carrier who holds back what shows a peer's next part, brings it of before, changed or made up, or puts his own service there, has nothing taken for it,
    and nobody accused; after some turns that counts; once all is brought the part is taken"""
    net = pair(room)
    loom = net.loom
    line = loom.append("shop", b"goes on as shop-2", b"not alone")
    not_alone = loom.timeweave("prove", "shop", "event", line.split()[1], "0", line.split()[1]), signed(loom, "shop", line.encode())
    net.night()
    gone_on(net, "shop")
    net.turn("shop", 0)
    older = {name: loom.read(f"box-shop/bank/out/{name}") for name in ("shop-2/line", "shop-2/came-from")}
    loom.append("shop/part-2", b"more")
    net.turn("shop", 0)
    whole = {name: loom.read(f"box-shop/bank/out/{name}") for name in ("line", "goes-on", "shop-2/line", "shop-2/came-from", "shop-2/message")}
    loom.service("evil", folder="evil")
    loom.key("evil")
    (loom.folder / "stranger").mkdir()
    loom.timeweave("init", "stranger", "shop-2")
    loom.put("m", loom.timeweave("thread", "shop", "0"))
    loom.timeweave("receive", "stranger", "m")
    own = signed(loom, "evil", loom.run("line", "stranger").out.encode())
    received = loom.timeweave("prove", "stranger", "thread", "1", "shop", str(len(read_history(loom.timeweave("export", "shop"))[1])), "1")
    changed = whole["goes-on"][:-3] + bytes([whole["goes-on"][-3] ^ 1]) + whole["goes-on"][-2:]
    wrongs = [
        {"goes-on": None}, {"shop-2/line": None}, {"shop-2/came-from": None}, {"goes-on": changed}, {"goes-on": b"goes on as shop-2"},
        {"shop-2/came-from": older["shop-2/came-from"]}, {"shop-2/line": older["shop-2/line"]}, {"shop-2/line": whole["line"]}, {"line": whole["shop-2/line"]},
        {"goes-on": not_alone[0], "line": not_alone[1]}, {"shop-2/line": own, "shop-2/came-from": received}, {"goes-on": whole["shop-2/came-from"]},
    ]  # fmt: skip
    back = copied(loom)
    for wrong in wrongs:
        back()
        for turn in range(4):
            for name, data in {**whole, **wrong}.items():
                if data is not None:
                    loom.put(f"box-bank/shop/in/{name}", data)
            loom.append("bank", b"x")
            done = loom.run("exchange", "bank", "box-bank")
            if part_of(net, "bank", "shop") != "shop" or b"\nshop-2 " in loom.read("box-bank/allowed_signers") or "EVIDENCE" in done.out:
                raise Wrong(f"  {list(wrong)}, turn {turn}: {done}")
        if done.status != 10:
            raise Wrong(f"  {list(wrong)}: {done}")
        net.carry("shop", "bank")
        take_part(net, "bank", "shop", "shop-2", f"  {list(wrong)}\n")


def stolen_after_the_end(room):
    """who has the key of a part that has ended, which its service doesn't use any more, has nothing taken: no line behind the end, which is told, no other next
    part, and no line of the part that goes on"""
    net = pair(room)
    loom = net.loom
    gone_on(net, "shop", "bank")
    take_part(net, "bank", "shop", "shop-2")
    net.carry("bank", "shop")
    (loom.folder / "shop.key").rename(loom.folder / "old.key")
    (loom.folder / "shop.key.pub").rename(loom.folder / "old.key.pub")
    loom.key("shop")
    signers = loom.read("box-bank/allowed_signers").decode().splitlines(True)
    loom.put("box-bank/allowed_signers", "".join(line for line in signers if not line.startswith("shop-2 ")))
    loom.expect("accept box-bank shop-2 --key shop.key.pub", 0, "is noted as the key of shop-2")
    loom.append("shop/part-2", b"more")
    net.turn("shop", 0)
    net.carry("shop", "bank")
    net.turn("bank", 0, "shop-2: its step")
    (loom.folder / "false").mkdir()
    loom.timeweave("init", "false", "shop")
    for _ in range(9):
        line = loom.append("false", b"goes on as shop-3").encode()
    (loom.folder / "false-3").mkdir()
    loom.timeweave("init", "false-3", "shop-3")
    loom.put("m", loom.timeweave("thread", "false", "0"))
    loom.timeweave("receive", "false-3", "m")
    into = "box-bank/shop/in"
    loom.put(f"{into}/line", signed(loom, "old", line))
    loom.put(f"{into}/goes-on", loom.timeweave("prove", "false", "event", "9", "0", "9"))
    loom.put(f"{into}/shop-3/line", signed(loom, "old", loom.run("line", "false-3").out.encode()))
    loom.put(f"{into}/shop-3/came-from", loom.timeweave("prove", "false-3", "thread", "1", "shop", "9", "1"))
    loom.put(f"{into}/shop-2/line", signed(loom, "old", f"shop-2 99 {'a' * 64}\n".encode()))
    before = loom.read("bank/timeline.tw")
    net.turn("bank", 10, "shop: its key signed a line of step 9, and with step", "the line in its folder isn't signed by the key", absent=("EVIDENCE",))
    if part_of(net, "bank", "shop") != "shop-2" or loom.read("bank/timeline.tw") != before or b"\nshop-3 " in loom.read("box-bank/allowed_signers"):
        raise Wrong(f"  {part_of(net, 'bank', 'shop')}")


def revoked_at_the_part_before(room):
    """a key that was noted of a peer's next part by itself counts no more once a person takes it out at the part before: nothing that it signs is taken, which is
    told, and weft chain rests on none of it; it counts again once it is noted there by a person, or at the part before"""
    net = pair(room)
    loom = net.loom
    gone_on(net, "shop", "bank")
    take_part(net, "bank", "shop", "shop-2")
    whole = loom.read("box-bank/allowed_signers")
    left = b"".join(line for line in whole.splitlines(True) if not line.startswith(b"shop "))
    told = ("it went on as shop-2", "shop-2 isn't taken for its part any more", "weft accept box-bank shop-2 --key")
    for again in (lambda: loom.put("box-bank/allowed_signers", whole), lambda: loom.expect("accept box-bank shop-2 --key shop.key.pub", 0)):
        loom.put("box-bank/allowed_signers", left)
        loom.append("shop/part-2", b"by the thief")
        net.turn("shop", 0)
        net.carry("shop", "bank")
        before = loom.read("bank/timeline.tw")
        for _ in range(2):
            net.turn("bank", 10, *told, absent=("is recorded", "EVIDENCE"))
        if loom.read("bank/timeline.tw") != before:
            raise Wrong("  what a key signed that was taken out was received")
        again()
        net.turn("bank", 0, "shop-2: its step", absent=told)
        net.carry("bank", "shop")


def ended_by_a_thief(room):
    """who stole a peer's key ends it by a part of his own: once the key is taken out, and another one noted, that end counts no more, which is told, and the true service
    is received again"""
    net = pair(room)
    loom = net.loom
    net.night()
    shutil.copytree(loom.folder / "shop", loom.folder / "thief")
    line = loom.append("thief", b"goes on as shop-2")
    step = line.split()[1]
    (loom.folder / "thief-2").mkdir()
    loom.timeweave("init", "thief-2", "shop-2")
    loom.put("m", loom.timeweave("thread", "thief", "0"))
    loom.timeweave("receive", "thief-2", "m")
    into = "box-bank/shop/in"
    loom.put(f"{into}/line", signed(loom, "shop", line.encode()))
    loom.put(f"{into}/goes-on", loom.timeweave("prove", "thief", "event", step, "0", step))
    loom.put(f"{into}/shop-2/line", signed(loom, "shop", loom.run("line", "thief-2").out.encode()))
    loom.put(f"{into}/shop-2/came-from", loom.timeweave("prove", "thief-2", "thread", "1", "shop", step, "1"))
    loom.run("exchange", "bank", "box-bank")
    if part_of(net, "bank", "shop") != "shop-2":
        raise Wrong("  the thief's part wasn't taken while his key counts")
    keys = loom.read("box-bank/allowed_signers")
    loom.put("box-bank/allowed_signers", b"".join(one for one in keys.splitlines(True) if not one.startswith(b"shop ")))
    loom.key("new")
    loom.expect("accept box-bank shop --key new.key.pub", 10, "is noted as the key of shop", absent=("has ended",))
    loom.put("box-shop/box.conf", "key = ../new.key\n")
    for _ in range(2):
        loom.append("shop", b"true")
        loom.run("exchange", "shop", "box-shop")
        net.carry("shop", "bank")
        shutil.rmtree(loom.folder / into / "shop-2", ignore_errors=True)
        (loom.folder / into / "goes-on").unlink(missing_ok=True)
        net.turn("bank", 10, "shop: it went on as shop-2", "isn't taken for its part any more", "shop: its step", absent=("shop-2: no new",))
        net.carry("bank", "shop")


def away_for_parts(room):
    """a peer that made no turn while a service went on three times catches up in one, and a new peer does, which accepts the first part alone"""
    net = Net(room, {"shop": ["bank", "port"], "bank": ["shop"], "port": ["shop"]})
    loom = net.loom
    loom.put("box-shop/box.conf", "key = ../shop.key\nsilent = 0\n")
    for name in ("shop", "bank"):
        loom.run("exchange", name, f"box-{name}")
    net.carry_all()
    for name, other in (("shop", "bank"), ("bank", "shop")):
        loom.expect(f"accept box-{name} {other} --yes {net.waiting(name, other)}", 0)
    for _ in range(2):
        for name in ("shop", "bank"):
            loom.run("exchange", name, f"box-{name}")
        net.carry_all()
    for number in range(3):
        loom.append(part_folders(number + 1, "shop")[-1], b"x")
        gone_on(net, "shop")
    net.carry_all()
    net.turn("bank", 0, "shop-2: shop goes on so", "shop-3: shop-2 goes on so", "shop-4: shop-3 goes on so", "shop-4: its step 1 is recorded")
    net.carry_all()
    net.turn("shop", 0)
    if not loom.read("box-shop/bank/kept/has").startswith(b"shop-4 "):
        raise Wrong(f"  {loom.read('box-shop/bank/kept/has')}")
    net.turn("port", 10, "shop: it is new")
    loom.expect(f"accept box-port shop --yes {net.waiting('port', 'shop')}", 0)
    net.turn("port", 0, "shop-4: its step")
    expect_joints(loom, "shop", [f"shop-{it}" if it > 1 else "shop" for it in range(1, 5)])


def old_part_put_back(room):
    """a store that was put back as it was before it went on is found by the signed line of the next part that a peer hands back: the turn ends with 17, and makes
    no step"""
    net = pair(room)
    loom = net.loom
    back = copied(loom, "shop", "box-shop")
    gone_on(net, "shop", "bank")
    take_part(net, "bank", "shop", "shop-2")
    handed = {path.name: path.read_bytes() for path in (loom.folder / "box-bank/shop/out").iterdir() if path.is_file()}
    back()
    for name, data in handed.items():
        loom.put(f"box-shop/bank/in/{name}", data)
    reseal(loom.folder)
    before = loom.read("shop/timeline.tw")
    net.turn("shop", 17, "no part of it is called shop-2", "handed back by bank")
    if loom.read("shop/timeline.tw") != before:
        raise Wrong("  a step was made")


def other_history_for_a_new_part(room):
    """a peer that shows another history to the next part of a service, which has recorded nothing of it, is found out by the link that joins it to what the part
    before recorded"""
    net = pair(room)
    loom = net.loom
    shutil.copytree(loom.folder / "bank", loom.folder / "false")
    loom.append("bank", b"one")
    net.night()
    net.night()
    gone_on(net, "shop")
    for _ in range(9):
        loom.append("false", b"another")
    into, out = "box-shop/bank/in", "box-shop/bank/out/shop-2"
    loom.put(f"{into}/message", loom.timeweave("thread", "false", "0"))
    loom.put(f"{into}/line", signed(loom, "bank", loom.run("line", "false").out.encode()))
    (loom.folder / into / "next").unlink(missing_ok=True)
    for _ in range(4):
        done = loom.run("exchange", "shop", "box-shop")
        for request in loom.read(f"{out}/requests").decode().splitlines():
            if request.startswith("link "):
                loom.put(f"{into}/answers/{hashlib.sha256(request.encode()).hexdigest()[:16]}", loom.timeweave("prove", "false", *request.split()))
        if done.status == 11:
            break
    if done.status != 11 or "EVIDENCE" not in done.out:
        raise Wrong(f"  {done}")


def with_peers(room):
    """a log that exchanges goes on by itself too, whichever of both runs ends a part; its peer takes each part, and what was logged stays proved; a part that one
    run began is made by the other, but for one that weft log began amid a step, which it brings to its end itself"""
    net = Net(room, {"log": ["bank"], "bank": ["log"]}).begun()
    loom = net.loom
    if in_parts(loom, 2, "log") != ["log", "log-2"]:
        raise Wrong("  weft log didn't go on")
    net.turn("log", 0)
    net.carry("log", "bank")
    take_part(net, "bank", "log", "log-2")
    net.carry("bank", "log")
    loom.put("src/late", "late")
    loom.expect("log src log", 0, "1 file new")
    gone_on(net, "log", "bank")
    take_part(net, "bank", "log", "log-3")
    loom.put("src/later", "later")
    loom.expect("log src log", 0, "1 file new, 0 changed, 0 gone", "log-3")
    loom.append("log/part-3", b"goes on as log-4")
    loom.put("log.next", b"4 log-4\n")
    loom.put("log/part-3.pending", b"1 0\n")
    net.turn("log", 10, "the run of weft log that makes that part was stopped", "Run weft log first")
    (loom.folder / "log/part-3.pending").unlink()
    net.turn("log", 0, "log-3 goes on as log-4")
    net.carry("log", "bank")
    take_part(net, "bank", "log", "log-4")
    loom.put("src/last", "last")
    loom.expect("log src log", 0, "1 file new, 0 changed, 0 gone", "log-4")
    expect_parts(loom, ["log", "log-2", "log-3", "log-4"])
    loom.expect("prove log 0000 --out c", 0, "of log-4", "judged by: proved")
    loom.expect("check log --all", 0, "log-4: ")


def audited(room):
    """a chain is held against whole histories: by the proved program, and by the reference, marked as not proved, where together they are longer than one may
    be; a history that is missing, another one and one that is none are told"""
    loom = Loom(room)
    loom.service("shop", [b"bread"])
    loom.service("bank", [b"x"])
    loom.service("other", [b"y"], folder="shop-of-another")
    loom.make({"message": "thread shop 0", "receipt": "receive bank message"})
    loom.append("bank", b"paid")
    loom.make({"shop.history": "export shop", "bank.history": "export bank", "other.history": "export shop-of-another"})
    for name in ("shop", "bank"):
        loom.put("line", loom.run("line", name).out)
        loom.expect("keep line --by mail", 0)
    loom.expect("chain shop:1:0 bank:3:0 --store shop --store bank --out c", 0)

    def small():
        from weft import auditing

        auditing.may_program_audit = lambda sizes, most: False

    both = "judge c --audit shop.history --audit bank.history"
    loom.expect(both, 0, "c: shown", "The histories have each line that it hangs on", "audited by: proved program")
    loom.expect(both, 20, "c: shown", "audited by: Python reference, tested, not proved, since the histories have", patch=small)
    loom.expect("judge c --audit bank.history", 1, "NOT SO: it hangs on step 1 of shop", "no history of shop has that step")
    loom.expect("judge c --audit bank.history", 21, "no history of shop has that step", patch=small)
    loom.put("false.history", loom.read("shop.history").replace(b"bread", b"BREAD"))
    loom.expect("judge c --audit false.history --audit bank.history", 11, "NOT SO: it hangs on step 1 of shop", "the history of shop has", "TWO LINES")
    loom.expect("judge c --audit bank.history --audit false.history", 11, "the history of shop has", "TWO LINES", patch=small)
    loom.expect("judge c --audit receipt --audit bank.history", 9, "no sound history")
    loom.expect("judge c --audit shop.history --audit shop.history", 9, "no sound history", patch=small)
    loom.expect("judge c --audit nothing", 3, "no file nothing")
    loom.expect("judge --many . --audit shop.history", 2, "--many takes no proofs")


def cases():
    works = (
        unread, changed_through_a_mapping, read_each_week, known_lost, added, by_many, entries_lost, entries_taken_out, older_content, older_part,
        put_back_together, checked_amid_a_step, five_parts,
        strangers, true_stranger, part_destroyed, ended_by_hand, not_full_by_a_fault, next_made_up, part_made_again, part_behind_an_older_backup, part_alone, name_of_anothers_line, old_whole_log_put_back, logs_of_years,
        parts_with_faults, with_peers,
        exchanged_in_parts, chained_over_peers_parts, exchange_with_faults, strangers_at_peers, kept_of_another, kept_of_another_step, carried_wrongly, stolen_after_the_end, revoked_at_the_part_before, ended_by_a_thief, away_for_parts,
        old_part_put_back, other_history_for_a_new_part, chained_over, many_receipts, many_kept_lines,
        audited,
    )  # fmt: skip
    return [case(work, "weft parts") for work in works]
