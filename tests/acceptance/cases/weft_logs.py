"""Acceptance cases of `weft log` and `weft prove`: what is logged, what is told, and that no stop, full device or old store costs an entry or makes a
step twice."""

import hashlib
import json
import os
import shlex
import shutil
import subprocess
from types import SimpleNamespace

from harness.limits import without_rights
from harness.places import LONGEST, TOP
from harness.rooms import Skipped, Wrong, case
from harness.weft_room import SHARE, Loom, copied, each_fault, events_file


def small_steps(patch=None):
    """Steps of two events, so that a few files make several."""

    def change():
        from weft import logs

        logs.MOST_EVENTS = 2
        if patch:
            patch()

    return change


def folder_of(loom, *names):
    """The folder that is logged."""
    (loom.folder / "src").mkdir(exist_ok=True)
    for name in names:
        loom.put(f"src/{name}", f"of {name}\n")


def digest(data):
    """A digest in hexadecimal."""
    return hashlib.sha256(data).hexdigest().encode()


def entries_of(loom):
    """The events of each step, by the entries file, whose indices have to rise."""
    steps = {}
    for line in loom.read("log.entries").split(b"\n")[:-1]:
        step, index, event = line.split(b" ", 2)
        steps.setdefault(int(step), []).append(event)
        if int(index) != len(steps[int(step)]) - 1:
            raise Wrong(f"  the entry {line!r} isn't where it has to be")
    return steps


def expect_log(loom, told=""):
    """The log is whole: each entry is the event of its step, all steps with events have their entries, and the last line is kept; nothing waits."""
    last = json.loads(loom.expect("line log --json", 0).out)
    history = loom.timeweave("export", "log")
    from timeweave_reference.histories import read_history, timeline_of

    name, steps = read_history(history)
    recorded = {number: list(step.events) for number, step in enumerate(steps, 1) if step.events}
    if recorded != entries_of(loom):
        raise Wrong(f"{told}\n  the store has {recorded}\n  the entries are {entries_of(loom)}")
    line = timeline_of(name, steps)
    lines = loom.read("log.lines").split(b"\n")[:-1]
    if any(it.encode() not in [line.line(k)[:-1] for k in range(len(steps) + 1)] for it in map(bytes.decode, lines)) or len(set(lines)) != len(lines):
        raise Wrong(f"{told}\n  the lines are {lines}")
    if loom.read("log.anchor") != line.line(len(steps)) or last["step"] != len(steps):
        raise Wrong(f"{told}\n  the anchor is {loom.read('log.anchor')}")
    if (loom.folder / "log.pending").exists():
        raise Wrong(f"{told}\n  a step is pending")
    return recorded


def each_day(room):
    """new, changed and gone files are logged with their digests; the summary counts them; the line is that of the store; --all logs all"""
    loom = Loom(room)
    folder_of(loom, "a", "b", "c")
    loom.put("src/d e/\u00fc", "umlaut")
    loom.expect("log src log data", 0, "step 1: 4 files new, 0 changed, 0 gone, 0 as they were", "Hand out log.anchor: data 1 ")
    loom.expect("log src log", 0, "step 2: 0 files new, 0 changed, 0 gone, 4 as they were")
    loom.put("src/a", "other")
    (loom.folder / "src/b").unlink()
    loom.put("src/new", "x")
    loom.expect("log src log data", 0, "step 3: 1 file new, 1 changed, 1 gone, 2 as they were")
    recorded = expect_log(loom)
    expected = [digest(b"other") + b"  ./a", b"gone  ./b", digest(b"x") + b"  ./new"]
    if sorted(recorded[3]) != sorted(expected) or recorded[1][3] != digest(b"umlaut") + "  ./d e/\u00fc".encode():
        raise Wrong(f"  {recorded}")
    loom.put("src/b", "back")
    found = json.loads(loom.expect("log src log --all --json", 0).out)
    if (found["steps"], found["new"], found["same"]) != ([4], 1, 4) or len(expect_log(loom)[4]) != 5:
        raise Wrong(f"  {found}")
    listed = subprocess.run(["sha256sum", "a", "b"], cwd=loom.folder / "src", capture_output=True).stdout.split()
    if digest(loom.read("src/a")) != listed[0]:
        raise Wrong("  digests aren't those of sha256sum")


def names_of_files(room):
    """names with line ends, backslashes, escapes and bytes that are no UTF-8 are logged as sha256sum writes them, and reach no terminal"""
    loom = Loom(room)
    (loom.folder / "src").mkdir()
    names = [b"a\nb", b"c\\d", b"e\rf", b"\x1b[31m", b"\xff\xfe", b"  g", b"-h", "\u202eevil".encode()]
    for name in names:
        with open(os.path.join(os.fsencode(loom.folder), b"src", name), "wb") as file:
            file.write(name)
    loom.expect("log src log data", 0, "8 files new")
    recorded = expect_log(loom)[1]
    done = subprocess.run(["sh", "-c", "cd src && find . -type f -exec sha256sum {} +"], cwd=loom.folder, capture_output=True)
    if sorted(recorded) != sorted(done.stdout.split(b"\n")[:-1]):
        raise Wrong(f"  {sorted(recorded)}\n  sha256sum: {sorted(done.stdout.splitlines())}")
    loom.expect("log src log", 0, "8 as they were")
    for name in names:
        os.unlink(os.path.join(os.fsencode(loom.folder), b"src", name))
    loom.put("src/one", "x")
    loom.expect("log src log", 16, "fewer than half")
    for odd in ("\x1b[31m", "a\nb", "\u202e"):
        loom.expect(["log", f"src{odd}", "log"], 3, "no folder")
        loom.expect(["log", "src", "other", odd], 2, "no name of a service")


def many_files(room):
    """more files than a step holds make several steps, and a path that is too long for an event is left out with status 10"""
    loom = Loom(room)
    (loom.folder / "src").mkdir()
    for number in range(1030):
        loom.put(f"src/{number:04}", b"x")
    loom.expect("log src log data", 0, "steps 1 and 2: 1,030 files new")
    recorded = expect_log(loom)
    sizes = [len(events) for events in recorded.values()]
    if sum(sizes) != 1030 or max(sum(map(len, events)) for events in recorded.values()) > 65536:
        raise Wrong(f"  steps of {sizes}")
    deep = "/".join(["d" * 200] * 5)
    loom.put(f"src/{deep}/f", "deep")
    loom.expect("log src log", 10, "too long for an event", "1 file or folder left out")
    expect_log(loom)


def left_out(room):
    """a file that can't be read is left out and told, isn't called gone, and the day is logged; links and pipes aren't logged"""
    loom = Loom(room)
    folder_of(loom, "a", "b", "sub/c")
    os.mkfifo(loom.folder / "src/pipe")
    os.symlink("/etc/passwd", loom.folder / "src/link")
    loom.expect("log src log data", 0, "3 files new")

    os.chmod(loom.folder / "src/b", 0)
    loom.expect("log src log", 10, "left out: ./b: b can't be read: Permission denied", "0 gone, 2 as they were", "run weft log again", patch=without_rights)
    os.chmod(loom.folder / "src/b", 0o644)
    os.chmod(loom.folder / "src/sub", 0)
    loom.expect("log src log", 10, "left out: ./sub: it can't be read: Permission denied", "0 gone, 2 as they were", patch=without_rights)
    os.chmod(loom.folder / "src/sub", 0o755)
    loom.expect("log src log", 0, "0 gone, 3 as they were", absent=("left out",))
    expect_log(loom)


def made_amid(room):
    """a step that somebody else makes while weft log is at work, or between, is told, counts, and its line is noted, whichever word notes it; entries with a line that is
    none are told as changed"""
    loom = Loom(room)
    folder_of(loom, "a")
    loom.expect("log src log data", 0)
    loom.put("event", events_file(b"somebody else's"))
    wrapped = loom.put("wrapped", f'#!/bin/sh\n[ "$1" = append ] && {loom.program} append log {loom.folder}/event > made\nexec {loom.program} "$@"\n')
    wrapped.chmod(0o755)
    folder_of(loom, "b")
    loom.expect("log src log", 10, "step 3: 1 file new", "step 2 of data came while this run was at work", TIMEWEAVE_PROGRAM=str(wrapped))
    if loom.read("made").strip() not in loom.read("log.lines").splitlines():
        raise Wrong(f"  {loom.read('log.lines')}")
    loom.expect("log src log", 0, "2 as they were")
    loom.put("box/box.conf", "unsigned = yes\n")
    for words in ("line log", "exchange log box", "log src log"):
        step = loom.append("log", b"by hand").split()[1]
        told = f"step {step} of data: no run of weft log made such a step with events"
        loom.expect(words, 10, told)
        loom.expect(words, 0, absent=(told,))
    whole = loom.read("log.entries")
    for line in (b"9" * 5000 + b" 0 x\n", b"junk\n", digest(b"a") + b"  ./a\n"):
        loom.put("log.entries", whole + line)
        for words, status in (("log src log --all-read 0", 17), ("prove log a --out p", 17), ("check log", 8), ("check log --entries", 0)):
            loom.expect(words, status, *(["was changed: it has a line that is no entry"] if status else []), absent=("bug",))
        if loom.read("log.entries") != whole:
            raise Wrong(f"  {loom.read('log.entries')}")


def no_entries_by_hand(room):
    """an event that somebody appended by hand and that reads like an entry of a log, and isn't written as a log writes one, is none: entries that are made anew
    don't have it, nothing is logged as gone by it, and all runs go on"""
    loom = Loom(room)
    folder_of(loom, "a")
    loom.expect("log src log data", 0)
    entries = loom.read("log.entries")
    loom.service("register", [b"%b  f/a" % digest(b"a"), b"%b  b" % digest(b"b")])
    loom.expect("check register --all", 0, absent=("entries of a log",))
    for event in (b"%b  x" % digest(b"x"), b"%b  ./x\ny" % digest(b"x"), b"\\%b  ./x" % digest(b"x"), b"%b  ./x\\y" % digest(b"x"), b"gone  ./a\r"):
        loom.append("log", event)
    loom.expect("log src log", 10, "no run of weft log made such a step")
    for words in ("check log --entries", "log src log", "log src log --all-read 0", "check log --all"):
        loom.expect(words, 0, absent=("was changed", "1 gone"))
    if loom.read("log.entries") != entries:
        raise Wrong(f"  {loom.read('log.entries')}")


def entries_written_over(room):
    """an entry that somebody writes behind the others makes no changed file pass as it was, and one that is written over in its place is found by weft check and by
    the next run that reads all; made anew of the store, the log goes on"""
    loom = Loom(room)
    loom.put("files/deed", b"to Anna")
    loom.put("files/other", b"x")
    loom.expect("log --no-time files s s", 0)
    loom.put("files/deed", b"to Bert")
    forged, good = hashlib.sha256(b"to Bert").hexdigest().encode(), loom.read("s.entries")
    loom.put("s.entries", good + b"1 0 " + forged + b"  ./deed\n")
    loom.expect("log --no-time files s", 17, "s.entries was changed", "weft check --entries")
    loom.expect("check s", 8, "s.entries was changed")
    loom.put("s.entries", good.replace(hashlib.sha256(b"to Anna").hexdigest().encode(), forged))
    (loom.folder / "s.known").unlink()
    loom.expect("check s", 8, "s.entries was changed: of step 1, index 0")
    loom.expect("log --no-time files s", 17, "s.entries was changed")
    loom.expect("check s --entries", 0)
    loom.expect("check s", 0)
    loom.expect("log --no-time files s", 0, "1 changed")


def written_over_alike(room):
    """a digest that is changed alike in the store's file and in its entries hides no changed file from a run that reads all"""
    loom = Loom(room)
    for name, text in (("a", b"1"), ("deed", b"to Anna"), ("x", b"2"), ("y", b"3"), ("z", b"4")):
        loom.put(f"files/{name}", text)
    loom.expect("log --no-time files s s", 0)
    loom.put("files/deed", b"to Bert")
    good, forged = (hashlib.sha256(text).hexdigest().encode() for text in (b"to Anna", b"to Bert"))
    for name in ("s/timeline.tw", "s.entries"):
        data = loom.read(name)
        if data.count(good) != 1:
            raise Wrong(f"  {name}")
        (loom.folder / name).write_bytes(data.replace(good, forged))
    loom.expect("log --no-time --all-read 0 files s", 8, "aren't those of its own last line", "No step was made")
    loom.expect("check s", 8)


def all_closed(room):
    """weft log without standard input, output and error makes its step, and ends"""
    loom = Loom(room)
    loom.put("files/other", b"x")
    script = f"exec <&- >&- 2>&-; exec python3 {TOP}/weft/bin/weft log --no-time files s s"
    done = subprocess.run(["sh", "-c", script], cwd=loom.folder, env=loom.env, timeout=LONGEST, check=False)
    if done.returncode != 4 or not loom.read("s.entries").startswith(b"1 0 "):
        raise Wrong(f"  {done}")
    loom.expect("log --no-time files s", 0, "1 as they were")


def without_proc(room):
    """where open files have no paths, as in a bare chroot, weft log makes its steps all the same"""
    loom = Loom(room)
    loom.put("files/other", b"x")

    def bare():
        from weft import stores

        stores.OPEN_FILES = "/nowhere"

    loom.expect("log --no-time files s s", 0, "step 1", patch=bare)
    loom.expect("prove s other", 0)


def endless(room):
    """a file that says that it has more bytes than any disk is left out, told, and stops nothing else"""
    loom = Loom(room)
    loom.put("files/other", b"x")
    loom.put("files/endless", b"")
    try:
        os.truncate(loom.folder / "files/endless", (1 << 40) + 1)
    except OSError:
        raise Skipped("a file of 1 TiB without content, which the file system here doesn't have") from None
    loom.expect("log --no-time files s s", 10, "endless: it has 1,099,511,627,777 bytes", "1 file new")


def proved_and_gone(room):
    """the proof of a file that was logged as gone since is that of its last digest, and that it is gone is told; one that came back is as others"""
    loom = Loom(room)
    loom.put("files/deed", b"1")
    loom.put("files/other", b"2")
    loom.put("files/third", b"3")
    loom.expect("log --no-time files s s", 0)
    (loom.folder / "files/deed").unlink()
    loom.expect("log --no-time files s", 0, "1 gone")
    loom.expect("prove s deed", 10, "in step 1 of s", "step 2 of s logged later that deed is gone")
    loom.expect("prove s other", 0, absent=("gone",))
    loom.put("files/deed", b"1")
    loom.expect("log --no-time files s", 0)
    loom.expect("prove s deed --out again", 0, "in step 3 of s", absent=("gone",))


def deep_and_alone(room):
    """a file that lies a thousand folders deep, and is the only one, is logged or left out and told"""
    loom = Loom(room)
    loom.put("files/x", b"")
    (loom.folder / "files/x").unlink()
    at = os.getcwd()
    try:
        os.chdir(loom.folder / "files")
        for _ in range(1100):
            os.mkdir("d")
            os.chdir("d")
        with open("deep", "wb") as file:
            file.write(b"1")
    finally:
        os.chdir(at)
    try:
        loom.expect("log --no-time files s s", 10, "too long for an event")
    finally:
        subprocess.run(["rm", "-rf", loom.folder / "files"], check=True)


def there_and_not_gone(room):
    """what is there isn't logged as gone: below a folder that may be listed and not entered, or neither, or where the system fails otherwise; it is told,
    with status 10, and what is really gone beside it is logged"""
    loom = Loom(room)
    folder_of(loom, "a", "b", "c", "d", "sub/deed", "sub/x/deep")
    loom.expect("log src log data", 0, "6 files new")
    for mode in (0o444, 0, 0o600, 0o111):
        os.chmod(loom.folder / "src/sub", mode)
        loom.expect("log src log", 10, "left out: ./sub: ", "0 gone, 4 as they were", absent=("./sub/deed", "Traceback"), patch=without_rights)
    os.chmod(loom.folder / "src/sub", 0o755)

    def stale():
        real = os.stat

        def stat(path, *words, **more):
            if path == b"deed":
                raise OSError(116, "Stale file handle", path)
            return real(path, *words, **more)

        os.stat = stat

    loom.expect("log src log", 10, "left out: ./sub/deed: it can't be looked at", "0 gone, 5 as they were", patch=stale)

    def unlisted():
        real = os.listdir
        os.listdir = lambda path: [it for it in real(path) if it != "deed"]

    loom.expect("log src log", 10, "left out: ./sub/deed: it wasn't found in its folder", "0 gone, 5 as they were", patch=unlisted)
    os.chmod(loom.folder / "src/sub", 0)
    (loom.folder / "src/a").unlink()
    loom.expect("log src log", 10, "1 gone, 3 as they were", "left out: ./sub: ", patch=without_rights)
    os.chmod(loom.folder / "src/sub", 0o755)
    shutil.rmtree(loom.folder / "src/sub")
    loom.expect("log src log", 0, "2 gone, 3 as they were", absent=("left out",))
    went = {event for events in expect_log(loom).values() for event in events if event.startswith(b"gone")}
    if went != {b"gone  ./a", b"gone  ./sub/deed", b"gone  ./sub/x/deep"}:
        raise Wrong(f"  {went}")


def unreadable_whole(room):
    """a folder of which nothing can be looked at isn't called empty, and nothing of it is called gone"""
    loom = Loom(room)
    folder_of(loom, "sub/a", "sub/b")
    loom.expect("log src log data", 0, "2 files new")
    os.chmod(loom.folder / "src/sub", 0)
    loom.expect("log src log", 10, "0 gone, 0 as they were", "1 file or folder left out", absent=("mounted", "missing"), patch=without_rights)
    loom.expect("log src other other", 10, "0 files new", "1 file or folder left out", patch=without_rights)
    os.chmod(loom.folder / "src/sub", 0o755)
    loom.expect("log src log", 0, "2 as they were")
    expect_log(loom)


def replaced(room):
    """where a link, a pipe or a folder has taken the place of a file, or a link that of its folder, it is told with status 10 and isn't logged as gone,
    until a person says so"""
    loom = Loom(room)
    folder_of(loom, "a", "b", "c", "d", "e", "f", "sub/g")
    loom.expect("log src log data", 0, "7 files new")
    source = loom.folder / "src"
    for name in "abc":
        (source / name).rename(loom.folder / name)
    os.symlink(loom.folder / "a", source / "a")
    os.mkfifo(source / "b")
    loom.put("src/c/in", "in")
    (source / "sub").rename(loom.folder / "elsewhere")
    os.symlink(loom.folder / "elsewhere", source / "sub")
    told = [f"{name} was a file, and something else is in its place" for name in ("./a", "./b", "./c", "./sub/g")]
    loom.expect("log src log", 10, *told, "1 file new, 0 changed, 0 gone, 3 as they were", "weft log --gone")
    if json.loads(loom.expect("log src log --json", 10).out)["replaced"] != 4:
        raise Wrong("  the replaced files aren't counted")
    loom.expect("log src log --gone", 0, "0 files new, 0 changed, 4 gone, 4 as they were", absent=("in its place",))
    loom.expect("log src log", 0, "0 gone, 4 as they were")
    expect_log(loom)


def hollow(room):
    """a file that says to have very many bytes, and has next to none on the disk, is left out and told, and the others are logged; no word reads it to its end"""
    loom = Loom(room)
    folder_of(loom, "a", "b")
    loom.expect("log src log data", 0, "2 files new")
    for name in ("one", "two"):
        os.truncate(loom.put(f"src/{name}", b"x"), 1 << 40)
    loom.expect("log src log", 10, "left out: ./one", "left out: ./two", "next to none of them are on the disk", "2 as they were")
    loom.expect("find log src/one", 9, "it isn't read")
    loom.expect("record reg src/one --name reg", 9, "it isn't read")
    os.truncate(loom.put("src/two", b"x" * 3_000_000), (1 << 30) + 1)
    loom.expect("log src log", 10, "left out: ./one", "1 file new")


def of_another_user(room):
    """what another user put beside a service before it was made isn't gone on with, and no lock of his is taken; a time to wait that is no number is refused"""
    loom = Loom(room)
    folder_of(loom, "a")
    me = os.geteuid()

    def as_another():
        """Whoever runs weft is another user than the one whose the files are, which are the system's for none."""
        if me:
            os.geteuid = lambda: me + 1

    for end in (".entries", ".known", ".records", ".keys", ".lock"):
        path = loom.put(f"log{end}", b"")
        if not me:
            os.chown(path, 65534, 65534)
        loom.expect("log src log data", 5, f"log{end}", "another user's", patch=as_another)
        if (loom.folder / "log").exists():
            raise Wrong(f"  a service was made beside {end}")
        for path in loom.folder.glob("log.*"):
            path.unlink()
    loom.expect("log src log data", 0)
    for wait in ("nan", "-1", "x"):
        loom.expect(f"log src log --wait {wait}", 2, "--wait")


def changed_while_read(room):
    """a file that is changed while it is read is read once more, and where it is changed again it is left out and told; no digest is logged that no content
    of it had"""
    loom = Loom(room)
    folder_of(loom, "a", "big")
    loom.expect("log src log data", 0, "2 files new")
    loom.put("src/big", b"x" * 3_000_000)

    def growing(times):
        def patch():
            from weft import walking

            real, left = walking.hashlib.sha256, [times]

            class Digest:
                """A digest while which the file grows."""

                def __init__(self):
                    self.digest = real()

                def update(self, data):
                    self.digest.update(data)
                    if left[0] and len(data) > 1000:
                        left[0] -= 1
                        with open("src/big", "ab") as file:
                            file.write(b"more")

                def hexdigest(self):
                    return self.digest.hexdigest()

            walking.hashlib = type("hashlib", (), {"sha256": Digest})

        return patch

    loom.expect("log src log", 10, "left out: ./big: it was changed while it was read, twice", "0 changed, 0 gone, 1 as they were", patch=growing(99))
    loom.expect("log src log", 0, "1 changed, 0 gone, 1 as they were", patch=growing(1))
    if not any(event == digest(loom.read("src/big")) + b"  ./big" for events in expect_log(loom).values() for event in events):
        raise Wrong("  what was logged isn't the digest of the file")


def own_store(room):
    """a log isn't begun within the folder whose files it logs; one that lies there never logs itself, by whatever links the folder and the service are named; what lies beside it
    is logged, and what is put into the folder of its store is told"""
    loom = Loom(room)
    folder_of(loom, "a")
    os.symlink("src", loom.folder / "link")
    os.symlink("src/log", loom.folder / "service")
    (loom.folder / "src/below").mkdir()
    for service in ("src/log", "src/below/log", "link/log"):
        loom.expect(f"log src {service} data", 2, "would lie in src", "never be logged")
    (loom.folder / "src/below").rmdir()
    loom.expect("log link log data", 0, "1 file new")
    for name in [it.name for it in loom.folder.iterdir() if it.name.split(".")[0] == "log"]:
        (loom.folder / name).rename(loom.folder / "src" / name)
    for words in ("log link link/log", "log src service", "log link service", "log ./src/../link src/log/.", f"log {loom.folder}/link {loom.folder}/src/log/"):
        loom.expect(words, 0, "0 files new, 0 changed, 0 gone, 1 as they were")
    left = loom.put("src/.log.entries.0123456789abcdef.new", b"left by a run that was killed, or put there by somebody")
    for _ in range(2):
        loom.expect("log src src/log", 10, "0 files new, 0 changed, 0 gone, 1 as they were", "left out: ./.log.entries.0123456789abcdef.new: it is called as")
    left.unlink()
    loom.expect("log src src/log", 0, absent=("left out",))
    for name in ("secret", "below/x", "part-x", "part-2.txt"):
        strange = loom.put(f"src/log/{name}", b"x")
        top = f"src/log/{name.split('/')[0]}"
        loom.expect("log src src/log", 10, f"left out: ./{top.removeprefix('src/')}: it lies in the folder of the log itself")
        shutil.rmtree(loom.folder / top) if (loom.folder / top).is_dir() else strange.unlink()
    loom.put("src/log.txt", b"x")
    loom.expect("log src src/log", 0, "1 file new")
    loom.expect("log src src", 2, "is the logged folder itself")
    left = {it.name for it in loom.folder.iterdir()} - {"tmp", "kept", "kept.made"}
    if left != {"src", "link", "service"}:
        raise Wrong(f"  {left}")


def unmounted(room):
    """a log or register that was made under a name in a folder isn't made there once more where its store and all beside it aren't there, as where its device isn't mounted for
    a night; one of which a person says, by the command that is told, that no line of it ever went out is, once, and where nothing tells otherwise; where it can't be noted,
    that is told, also to one who has no folder of his own"""
    loom = Loom(room)
    folder_of(loom, "a")
    for words, again in (("log src srv/log data", "log src srv/log data"), ("record srv/reg --name reg --event x", "record srv/reg --name reg --event y")):
        (loom.folder / "srv").mkdir()
        loom.expect(words, 0)
        loom.expect(words, 0)
        (loom.folder / "srv").rename(loom.folder / "tmp/away")
        (loom.folder / "srv").mkdir()
        name = words.split()[-1] if words.startswith("log") else "reg"
        loom.expect(again, 17, f"{name} was made in ", "kept.made", "there is no store", "Is its device mounted?")
        if list((loom.folder / "srv").iterdir()) not in ([], [loom.folder / "srv" / f"{words.split()[2 if name == 'data' else 1][4:]}.lock"]):
            raise Wrong(f"  {list((loom.folder / 'srv').iterdir())}")
        loom.expect(again.replace(" data", " data-b").replace("--name reg", "--name reg-b"), 0)
        shutil.rmtree(loom.folder / "srv")
        (loom.folder / "tmp/away").rename(loom.folder / "srv")
        loom.expect(again, 0)
        shutil.rmtree(loom.folder / "srv")
    (loom.folder / "srv").mkdir()
    done = loom.expect("log src srv/log data", 17, "Was no line of it ever handed out: weft keep --never-sent data srv/log")
    told = shlex.split(done.err.strip().rpartition("handed out: weft ")[2])
    loom.expect("keep --never-sent data srv/other", 12, "doesn't tell that data was made in srv/other")
    loom.expect("keep --never-sent data srv/log --by me", 2, "goes without other words")
    loom.put("kept", f"data-2 1 {'a' * 64}\n")
    loom.expect(told, 17, "you keep a line of data")
    loom.put("kept.others", "data-2\n")
    loom.put("srv/log.anchor", f"data 1 {'a' * 64}\n")
    loom.expect(told, 7, "files of a service stand beside srv/log")
    (loom.folder / "srv/log.anchor").unlink()
    loom.expect(told, 0, "By your word no line of data ever went out")
    loom.expect(told, 12, "doesn't tell that data was made")
    loom.expect("log src srv/log data", 0, absent=("noted",))
    loom.expect(told, 7, "the store of data is in srv/log")
    if [row.split()[0] for row in loom.read("kept.made").decode().splitlines() if " data " in f" {row}" and not row.startswith("data-")] != ["never-sent", "data"]:
        raise Wrong(f"  {loom.read('kept.made')}")
    shutil.rmtree(loom.folder / "srv")
    (loom.folder / "srv").mkdir()
    loom.expect("log src srv/log data", 17, "--never-sent data srv/log")
    loom.expect("log src srv/other other", 0, "/proc/kept.made can't be written", "it isn't noted that other was made in srv/other", WEFT_KEPT="/proc/kept")
    loom.expect("log src srv/third third", 0, "The system knows of no folder of your own (HOME), so it isn't noted that third was made in srv/third", WEFT_KEPT=None, patch=homeless)


def homeless():
    """The system knows of no folder of this user's own."""
    from pathlib import Path

    def home():
        raise RuntimeError

    Path.home = home


def another_folder(room):
    """that a log is of another folder than at its last run is told once, and counts; by whatever link its folder is named it is the same"""
    loom = Loom(room)
    folder_of(loom, "a", "b")
    loom.expect("log src log data", 0)
    os.symlink("src", loom.folder / "link")
    loom.expect("log link log", 0, absent=("another folder",))
    shutil.copytree(loom.folder / "src", loom.folder / "other")
    loom.expect("log other log", 10, "log was the log of another folder than other at its last run")
    loom.expect("log other log", 0, absent=("another folder",))
    loom.expect("log src log", 10, "another folder than src")
    loom.expect("log src log --all-read 0", 0)


def kept_nowhere(room):
    """a file of kept lines that WEFT_KEPT names is told, and counts, where it isn't there, in a log and in a turn, once there are steps; one that can't be read
    ends both; and an old store, put back with all that stood beside it, makes no step in either while its user keeps a later line"""
    loom = Loom(room)
    folder_of(loom, "a", "b")
    loom.put("box/box.conf", "unsigned = yes\n")
    loom.expect("log src log data", 0, absent=("mistyped",), WEFT_KEPT=loom.folder / "mistyped")
    words, put_back = ("log src log", "exchange log box"), copied(loom)
    for word in words:
        loom.expect(word, 10, "/mistyped, which WEFT_KEPT names", WEFT_KEPT=loom.folder / "mistyped")
        loom.expect(word, 2, "from this folder on", WEFT_KEPT="kept")
        loom.expect(word, 0, absent=("WEFT_KEPT",))
    before = loom.read("log/timeline.tw")
    for word in words:
        loom.expect(word, 3, "src is a folder", WEFT_KEPT=loom.folder / "src")
    if loom.read("log/timeline.tw") != before:
        raise Wrong("  a step was made")
    later = loom.read("log.anchor")
    put_back()
    kept = loom.put("later", later)
    for word, unmade in (("prove log a --out p", "No proof was made"), ("line log", "No line was printed"), *((word, "No step was made") for word in words)):
        loom.expect(word, 17, "among the lines that you keep", unmade, WEFT_KEPT=kept)
        loom.expect(word, 0)


def looked_at_after_a_restore(room):
    """a log that was put back with all that stood beside it, behind a step that somebody made by hand, isn't called good by weft check, nor does weft line, which
    tells that it may be old, let it count as the right one: the log makes no step until a person names its last line"""
    loom = Loom(room)
    folder_of(loom, "a")
    (loom.folder / "srv").mkdir()
    loom.expect("log src srv/shop shop", 0)
    loom.append("srv/shop", b"by hand")
    shutil.copytree(loom.folder / "srv", loom.folder / "backup")
    folder_of(loom, "b")
    loom.expect("log src srv/shop", 10, "no run of weft log made such a step")
    shutil.rmtree(loom.folder / "srv")
    shutil.copytree(loom.folder / "backup", loom.folder / "srv")
    for _ in range(2):
        loom.expect("log src srv/shop", 17, "copy", "it may be an old one")
        loom.expect("line srv/shop", 10, "shop 2 ", "copy", "it may be an old one", "Hand out nothing")
        loom.expect("prove srv/shop a --out p", 10, "copy", "it may be an old one", "needn't be the file's last entry")
        loom.expect("prove srv/shop a --step 1 --out p", 0, absent=("copy",))
        if json.loads(loom.expect("check srv/shop --all --json", 10, "copy").out)["doubt"] is None:
            raise Wrong("  JSON says nothing of it")
        loom.expect("check srv/shop --all", 10, "2 of 2 steps good", "copy", "it may be an old one")
    loom.expect(["log", "src", "srv/shop", "--adopt-store", loom.run("line", "srv/shop").out.strip()], 0)
    for words in ("line srv/shop", "check srv/shop --all", "log src srv/shop"):
        loom.expect(words, 0, absent=("copy",))


def own_lines_changed(room):
    """where the line to hand out is written over, or a second line of a step is put among a log's own lines, no word goes on: the next run doesn't write it over in silence"""
    loom = Loom(room)
    for name in "abc":
        folder_of(loom, name)
        loom.expect(["log", "src", "log", *(["data"] if name == "a" else [])], 0)
    anchor, lines = loom.read("log.anchor"), loom.read("log.lines")
    words = ("log src log", "line log", "prove log a --out p", "check log")
    for name, data in (("log.anchor", anchor[:-9] + b"00000000\n"), ("log.lines", lines + b"data 1 " + b"0" * 64 + b"\n"), ("log.lines", b"data 2 " + b"0" * 64 + b"\n" + lines)):
        loom.put("log.anchor", anchor)
        loom.put("log.lines", lines)
        loom.put(name, data)
        for word in words:
            loom.expect(word, 17)
        if loom.read(name) != data:
            raise Wrong(f"  {name} was made anew")
    loom.put("log.lines", lines)
    for word in words:
        loom.expect(word, 0)


def read_twice(room):
    """a file that was changed just now is read twice, and left out where both readings differ, though its times are the same; one at rest is read once; a run with --all reads
    all; and no file of a service is written over by a name that --out has"""
    loom = Loom(room)
    folder_of(loom, "a", "b")

    def mixed(moment):
        def patch():
            from weft import walking

            real, count, clock = walking.read_once, [0], walking.time

            def read_once(file, pause):
                count[0] += 1
                content = real(file, pause)
                return content._replace(digest=b"%064x" % count[0])

            walking.read_once = read_once
            walking.time = SimpleNamespace(sleep=clock.sleep, time_ns=lambda: clock.time_ns() + moment * 10**9)

        return patch

    loom.expect("log src log data", 10, "left out: ./a: it was changed while it was read", "0 files new", patch=mixed(0))
    loom.expect("log src log", 0, "2 files new", patch=mixed(120))
    loom.expect("log src log --all-read 0", 0, "2 changed")
    found = json.loads(loom.expect("log src log --all --json", 0).out)
    if found["read"] != 2:
        raise Wrong(f"  {found}")
    store = loom.read("log/timeline.tw")
    loom.put("a.line", loom.read("log.anchor"))
    loom.key("a")
    for out in ("log/timeline.tw", "log.lines", "log.seal", "log/part-2", "log.told"):
        for words in ("keep a.line --by me --kept", "keep a.line --signer data a.key.pub --signers"):
            loom.expect(f"{words} {out}", 2, "is a file of a service, and isn't written over")
        loom.expect(f"backup log {out}", 2)
    loom.expect("backup log good.backup", 0)
    for words in ("restore good.backup log.told", "log src log.told other", "record log.told --name other --event x"):
        loom.expect(words, 2, "is a file of a service, and isn't written over")
        loom.expect(f"prove log a --out {out}", 2, "is a file of a service, and isn't written over")
        loom.expect(f"line log --out {out}", 2, "is a file of a service, and isn't written over")
    if loom.read("log/timeline.tw") != store:
        raise Wrong("  the store was written over")
    loom.expect("line log --out other.lines", 0)


def copied_alone(room):
    """a store without its lines, or a log's without its entries, makes no step and ends with 17, until a person names its last line; a line that isn't its
    last one is refused, and the entries are made anew of the store"""
    loom = Loom(room)
    folder_of(loom, "a", "b\nc")
    loom.expect("log src log data", 0)
    older = loom.read("log.anchor").decode().strip()
    loom.put("src/d", "d")
    loom.expect("log src log", 0)
    last, entries = loom.read("log.anchor").decode().strip(), loom.read("log.entries")
    (loom.folder / "alone").mkdir()
    shutil.copy2(loom.folder / "log/timeline.tw", loom.folder / "alone/timeline.tw")
    for words in ("log src alone", "log src alone data"):
        loom.expect(words, 17, "has 2 steps, and neither alone.lines nor alone.anchor stands beside it", "No step was made", "--adopt-store LINE")
    if (loom.folder / "alone.anchor").exists() or loom.read("alone/timeline.tw") != loom.read("log/timeline.tw"):
        raise Wrong("  something was made")
    other = last[:-1] + ("0" if last[-1] != "0" else "1")
    refused = ((older, 17, "the named one is of step 1"), (other, 17, "another step of that number"), (last.replace("data 2", "data 3"), 17, "its last step is 2"),
               (last.replace("data", "date"), 2, "is called data, and not date"), ("nothing", 2, "no line, and there is no such file"), ("src/d", 9, "no line"))  # fmt: skip
    for word, status, told in refused:
        loom.expect(["log", "src", "alone", "--adopt-store", word], status, told)
        if (loom.folder / "alone.lines").exists():
            raise Wrong(f"  {word} was taken")
    loom.put("last", last + "\n")
    loom.expect("log src alone --adopt-store last", 0, "0 files new, 0 changed, 0 gone, 3 as they were", "made anew, of the store: 3 entries")
    if loom.read("alone.entries") != entries:
        raise Wrong(f"  {loom.read('alone.entries')}")
    loom.expect("log src alone", 0)
    (loom.folder / "log.entries").unlink()
    loom.expect("log src log", 17, "log.entries doesn't stand beside it", "No step was made")
    loom.expect(["log", "src", "log", "--adopt-store", last], 0, "3 as they were", "made anew, of the store: 3 entries")
    expect_log(loom)


def waiting_for_peers(room):
    """while peers' words are waited for after a restore the log makes no step and ends with 17; a person who names the last line ends that"""
    loom = Loom(room)
    folder_of(loom, "a")
    loom.expect("log src log data", 0)
    loom.put("log.look", "1800000000\n")
    before = loom.read("log/timeline.tw")
    loom.expect("log src log", 17, "since 2027-01-15 08:00:00 UTC the words of peers", "no step was made", "weft exchange says for whom")
    loom.put("log.look", "x")
    loom.expect("log src log", 9, "log.look has no moment", "weft exchange --look")
    if loom.read("log/timeline.tw") != before:
        raise Wrong("  a step was made")
    loom.expect(["log", "src", "log", "--adopt-store", loom.read("log.anchor").decode()], 0)
    loom.expect("log src log", 0)
    if (loom.folder / "log.look").exists():
        raise Wrong("  the look goes on")


def fewer_files(room):
    """an empty folder, and one that lost more than half, end with a status of their own; what is gone isn't logged but by --gone"""
    loom = Loom(room)
    (loom.folder / "src").mkdir()
    loom.expect("log src log data", 16, "has no files", "no service was made", "Is it mounted?")
    loom.expect("log src other other --gone", 0, "0 files new")
    loom.put("file", b"")
    loom.expect("log other file data", 5, "file is a file. Name a folder for the service.")
    if {it.name for it in loom.folder.iterdir()} - {"tmp", "kept", "kept.made", "src", "file", *(f"other{end}" for end in ("", ".lock", ".lines", ".anchor", ".entries", ".seal", ".known"))}:
        raise Wrong(f"  left behind: {sorted(it.name for it in loom.folder.iterdir())}")
    folder_of(loom, "a", "b", "c", "d", "e")
    loom.expect("log src log data", 0, "5 files new")
    shutil.rmtree(loom.folder / "src")
    loom.expect("log src log", 3, "no folder that can be read")
    (loom.folder / "src").mkdir()
    loom.expect("log src log", 16, "has none of the 5 files", "0 gone, 5 missing", "The 5 that are missing weren't logged as gone", "weft log --gone")
    folder_of(loom, "a", "b")
    loom.expect("log src log", 16, "fewer than half of the 5 files", "0 gone, 3 missing", "The 3 that are missing weren't logged as gone", absent=("3 gone", "are gone."))
    counts = json.loads(loom.expect("log src log --json", 16).out)
    if (counts["gone"], counts["missing"], counts["same"]) != (0, 3, 2):
        raise Wrong(f"  {counts}")
    folder_of(loom, "a", "b", "c", "d", "e")
    loom.expect("log src log", 0, "0 files new, 0 changed, 0 gone, 5 as they were")
    for name in "abcd":
        (loom.folder / "src" / name).unlink()
    loom.expect("log src log --gone", 0, "4 gone")
    loom.expect("log src log", 0, "0 gone, 1 as they were")
    expect_log(loom)


def claimed_times(room):
    """a step claims this moment unless --no-time; where an earlier one claims a later moment, it claims none, and that is told"""
    loom = Loom(room)
    folder_of(loom, "a")
    loom.expect("log src log data", 0)
    loom.put("proof", loom.timeweave("prove", "log", "event", "1", "0"))
    loom.expect("tell proof", 0, "claims the time 20")
    loom.put("src/b", "b")
    loom.expect("log src log --no-time", 0)
    loom.put("proof", loom.timeweave("prove", "log", "event", "2", "0"))
    loom.expect("tell proof", 0, absent=("claims the time",))
    loom.put("tmp/e", events_file(b"ahead"))
    loom.timeweave("append", "log", "tmp/e", "9999999999")
    loom.put("src/c", "c")
    loom.expect("log src log", 10, "claims no time", "no run of weft log made such a step")


def refused(room):
    """a bad or other name, a service that isn't there, a store that was moved, an old one that was put back, also where steps were appended to it by
    hand: told before a step is made, and nothing is changed"""
    loom = Loom(room)
    folder_of(loom, "a", "b")
    for name in ("Data", "a-name-of-17-lett", "", "a b", "\u00fc"):
        loom.expect(["log", "src", "log", name], 2, "a name has 1 to 16")
    loom.expect("log src log", 2, "Name it: weft log FOLDER SERVICE NAME")
    loom.expect("log src nowhere/log data", 5, "no folder nowhere")
    if (loom.folder / "log").exists():
        raise Wrong("  a folder was made")
    loom.expect("log src log data", 0)
    loom.expect("log src log other", 2, "is called data, and not other")
    shutil.copytree(loom.folder / "log", loom.folder / "old")
    loom.put("src/c", "c")
    loom.expect("log src log", 0)
    loom.put("src/d", "d")
    loom.expect("log src log", 0)
    files = {path: path.read_bytes() for path in loom.folder.glob("log.*")}
    (loom.folder / "log").rename(loom.folder / "away")
    loom.expect("log src log data", 5, "no store in log", "Was it moved?")

    def put_back():
        shutil.rmtree(loom.folder / "log", ignore_errors=True)
        shutil.copytree(loom.folder / "old", loom.folder / "log")

    for appended in range(5):
        put_back()
        for number in range(appended):
            loom.append("log", b"by hand %d" % number)
        before = loom.read("log/timeline.tw")
        loom.expect("log src log", 17, "isn't the store of data's line of step 3", "No step was made")
        if loom.read("log/timeline.tw") != before or any(path.read_bytes() != data for path, data in files.items()):
            raise Wrong(f"  something was changed, after {appended} steps by hand")
    shutil.rmtree(loom.folder / "log")
    (loom.folder / "away").rename(loom.folder / "log")
    loom.expect("log src log", 0)
    expect_log(loom)
    for name in ("log.anchor", "log.lines"):
        (loom.folder / name).unlink()
        loom.expect("log src log", 0)
    whole = loom.read("log/timeline.tw")
    loom.put("log/timeline.tw", whole[: 8192] + b"X" + whole[8193:])
    loom.expect("log src log", 8, "damaged, or none of a service")


def with_others(room):
    """steps that received lines in the same store are known, and steps with events by hand are told with status 10; the log goes on"""
    loom = Loom(room)
    folder_of(loom, "a")
    loom.expect("log src log data", 0)
    loom.service("town", [b"x"])
    loom.put("message", loom.timeweave("thread", "town", "0"))
    loom.timeweave("receive", "log", "message")
    loom.expect("log src log", 0, "step 3: 0 files new", absent=("no run of weft log",))
    loom.append("log", b"by hand")
    loom.expect("log src log", 10, "step 4 of data: no run of weft log made such a step", "step 5: 0 files new")
    loom.expect("log src log", 0)
    # a log that the older script began: step 0 in its lines, all files each day
    loom.put("src/b", "b")
    loom.expect("log src log --all", 0, "1 file new", "1 as they were")


def with_faults(room):
    """weft log killed, and failing with a full or a bad device, at each of its writes, renames and runs of the program: the next run goes on, no step is
    made twice, no entry is lost, and nothing false is told; also in the run that goes on"""
    loom = Loom(room)
    folder_of(loom, "a", "b", "c")
    loom.expect("log src log data", 0, patch=small_steps())
    loom.put("src/a", "changed")
    folder_of(loom, "d", "e", "f")
    (loom.folder / "src/b").unlink()
    wanted = {b"./a": digest(b"changed"), b"./c": digest(b"of c\n"), b"./d": digest(b"of d\n"), b"./e": digest(b"of e\n"), b"./f": digest(b"of f\n")}

    def check(told):
        done = loom.run("log", "src", "log", patch=small_steps())
        if done.status != 0 or done.err:
            raise Wrong(f"{told}\n  the next run: {done}")
        recorded, state = expect_log(loom, told), {}
        for events in recorded.values():
            for event in events:
                word, _, path = event.partition(b"  ")
                if state.get(path) == word:
                    raise Wrong(f"{told}\n  {event} was logged twice")
                state[path] = word
        if {path: word for path, word in state.items() if word != b"gone"} != wanted:
            raise Wrong(f"{told}\n  logged: {state}")

    class Small(Loom):
        """The same, with small steps."""

        def run(self, *words, patch=None, **env):
            return super().run(*words, patch=small_steps(patch), **env)

    small = Small(room)
    small.env = loom.env
    if each_fault(small, ["log", "src", "log"], check) < 60 // SHARE:
        raise Wrong("  there were fewer than 60 faults")


def first_run_with_faults(room):
    """the same of the first run, which makes the service"""
    loom = Loom(room)
    folder_of(loom, "a", "b")

    def check(told):
        done = loom.run("log", "src", "log", "data")
        if done.status != 0 or done.err or expect_log(loom, told) != {1: [digest(b"of a\n") + b"  ./a", digest(b"of b\n") + b"  ./b"]}:
            raise Wrong(f"{told}\n  the next run: {done}")

    if each_fault(loom, ["log", "src", "log", "data"], check) < 30 // SHARE:
        raise Wrong("  there were fewer than 30 faults")


def two_at_once(room):
    """of two runs at once one waits for the other, or ends with a status of its own; no step is made twice"""
    loom = Loom(room)
    folder_of(loom, "a", "b")
    loom.expect("log src log data", 0)
    words = ["python3", "-m", "weft", "log", "src", "log"]
    env = loom.env | {"PYTHONPATH": str(TOP)}
    running = [subprocess.Popen(words, cwd=loom.folder, env=env, stdout=subprocess.DEVNULL, stderr=subprocess.PIPE) for _ in range(4)]
    ended = [(it.wait(300), it.stderr.read()) for it in running]
    if any(status for status, _ in ended) or max(json.loads(loom.run("line", "log", "--json").out)["step"], 5) != 5:
        raise Wrong(f"  {ended}")
    expect_log(loom)
    import fcntl

    with open(loom.folder / "log.lock", "w") as file:
        fcntl.flock(file, fcntl.LOCK_EX)
        loom.expect("log src log --wait 0.1", 15, "another run of weft is at work")


def proof_of_a_file(room):
    """weft prove makes the proof of a logged file under a line that was handed out, and who holds that line judges it there, and the file by it"""
    loom = Loom(room)
    folder_of(loom, "paid.csv", "sub/paid.csv", "other")
    loom.expect("log src log data", 0)
    loom.put("line1", loom.read("log.anchor"))
    loom.expect(["keep", "line1", "--by", "by mail"], 0)
    loom.put("src/other", "changed")
    loom.expect("log src log", 0)
    loom.expect("prove log ./paid.csv --top 1", 0, "in step 1 of data", "line of step 1", "judged by: proved")
    proof = loom.read("paid.csv.proof")
    loom.expect("prove log ./paid.csv", 7, "paid.csv.proof is there already", "--out")
    if loom.read("paid.csv.proof") != proof:
        raise Wrong("  a proof under another line was written over one that was there")
    loom.expect("prove log ./paid.csv --top 1", 0)
    loom.expect("judge paid.csv.proof --file src/paid.csv", 0, "paid.csv is that file", "by mail")
    loom.expect("judge paid.csv.proof --file src/sub/paid.csv", 1, "another file")
    loom.put("copy.csv", loom.read("src/paid.csv"))
    loom.expect("judge paid.csv.proof --file copy.csv", 10, "under the name paid.csv")
    loom.expect("prove log other --out o", 0, "in step 2")
    loom.expect("judge o", 12, "line of step 2 of data is missing", "its line of step 1 alone")
    loom.expect("prove log other --step 1 --top 1 --out o", 0, "in step 1")
    loom.expect("judge o --file src/other", 1, "another file")
    loom.expect("prove log nothing", 7, "no entries of nothing")
    loom.expect("prove log other --top 1", 7, "from 2 to 2")
    loom.expect("prove log ../other", 7)
    loom.put("log.entries", loom.read("log.entries").replace(digest(b"changed"), digest(b"x")))
    loom.expect("prove log other", 8, "another event there")


def cases():
    works = (
        each_day, names_of_files, many_files, left_out, there_and_not_gone, unreadable_whole, replaced, changed_while_read, hollow, of_another_user, own_store, kept_nowhere, unmounted, another_folder, looked_at_after_a_restore, own_lines_changed, read_twice, copied_alone,
        waiting_for_peers, fewer_files, claimed_times, refused, with_others, with_faults, first_run_with_faults, two_at_once,
        proof_of_a_file, made_amid, no_entries_by_hand, entries_written_over, written_over_alike, all_closed, without_proc, endless, proved_and_gone, deep_and_alone,
    )  # fmt: skip
    return [case(work, "weft log") for work in works]
