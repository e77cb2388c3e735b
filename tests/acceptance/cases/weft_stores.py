"""Acceptance cases of weft and what lies on the disk: who may read it, what a file that is made anew keeps, folders that are named in odd ways, and stores
that are checked whole, also those whose history is longer than a file may be."""

import errno
import itertools
import json
import os
import shutil
import stat
import threading

from harness.limits import without_rights
from harness.rooms import Skipped, Wrong, case
from harness.weft_room import Loom, events_file, expect_plain, reseal
from timeweave_reference.tree_pages import PAGE

# The program, but that its export is refused as that of a long history is; with a line behind that it answers otherwise.
STAND_IN = """#!/bin/sh
case "$1" in export) echo "refused TooLong"; exit 7;; esac
{odd}
exec {program} "$@"
"""


def mode_of(path):
    """The mode of a file or folder, without what it is."""
    return stat.S_IMODE(os.lstat(path).st_mode)


def with_umask(mask):
    """What makes a run of weft have this umask."""
    return lambda: os.umask(mask)


def net_of_two(loom):
    """Two logged services with a box each, whose files were carried, and who accepted one another."""
    for name in ("shop", "bank"):
        loom.put(f"of-{name}/a", name)
        loom.key(name)
        loom.expect(f"log of-{name} {name} {name}", 0, patch=with_umask(0o022))
    for name, other in (("shop", "bank"), ("bank", "shop")):
        loom.expect(f"accept box-{name} {other} --key {other}.key.pub", 10, patch=with_umask(0o022))
        loom.put(f"box-{name}/box.conf", f"key = ../{name}.key\n")
    for _ in range(3):
        for name in ("shop", "bank"):
            loom.run("exchange", name, f"box-{name}", patch=with_umask(0o022))
        for name, other in (("shop", "bank"), ("bank", "shop")):
            shutil.copytree(loom.folder / f"box-{name}/{other}/out", loom.folder / f"box-{other}/{name}/in", dirs_exist_ok=True)
        for name, other in (("shop", "bank"), ("bank", "shop")):
            if not (loom.folder / f"box-{name}/{other}/kept/accepted").exists():
                shown = loom.run("accept", f"box-{name}", other, patch=with_umask(0o022)).out.split()
                loom.run("accept", f"box-{name}", other, "--yes", *[word for word in shown if len(word) == 64][:1], patch=with_umask(0o022))


# ---- who may read it


def for_its_user_alone(room):
    """store, lines, entries, locks, boxes and kept lines may be read by their user alone, whatever the umask; nobody else holds a lock,
    and what is named to be handed out is made as the umask says"""
    loom = Loom(room)
    net_of_two(loom)
    loom.put("l", loom.run("line", "shop").out)
    loom.expect(["keep", "l", "--by", "mail"], 0, patch=with_umask(0))
    made = [*loom.folder.glob("shop*"), *loom.folder.glob("bank*"), *loom.folder.rglob("box-*/**/*"), *loom.folder.glob("kept*")]
    own = [path for path in made if ".key" not in path.name and path.name != "box.conf" and "in" not in path.relative_to(loom.folder).parts[:-1]]
    names = {path.name for path in own}
    if not {"shop", "timeline.tw", "shop.lines", "shop.anchor", "shop.entries", "shop.lock", "message", "line", "kept", ".lock", "allowed_signers"} <= names | {
        it.name for it in (loom.folder / "shop").iterdir()
    }:
        raise Wrong(f"  {sorted(names)}")
    for path in [*own, loom.folder / "shop/timeline.tw"]:
        if mode_of(path) & 0o077:
            raise Wrong(f"  {path} has the mode {mode_of(path):o}")
    loom.expect("prove shop a --out proof", 0, patch=with_umask(0o027))
    loom.expect("line shop --out line", 0, patch=with_umask(0o022))
    if (mode_of(loom.folder / "proof"), mode_of(loom.folder / "line")) != (0o640, 0o644):
        raise Wrong(f"  {mode_of(loom.folder / 'proof'):o} {mode_of(loom.folder / 'line'):o}")


def modes_kept(room):
    """who gives a file or a folder another mode keeps it, and its owner; in a folder to be carried that others may read they may read
    new files too"""
    loom = Loom(room)
    net_of_two(loom)
    changed = {"shop": 0o750, "shop.anchor": 0o644, "shop.entries": 0o640, "shop.lines": 0o604, "box-shop/bank/out": 0o755, "box-shop/bank/kept/lines": 0o660}
    for name, mode in changed.items():
        os.chmod(loom.folder / name, mode)
    if os.geteuid() == 0:
        os.chown(loom.folder / "shop.anchor", 12, 34)
    loom.put("of-shop/b", "b")
    loom.expect("log of-shop shop", 0)
    (loom.folder / "box-shop/bank/out/message").unlink()
    loom.run("exchange", "shop", "box-shop", patch=with_umask(0o077))
    for name, mode in changed.items():
        if mode_of(loom.folder / name) != mode:
            raise Wrong(f"  {name} has the mode {mode_of(loom.folder / name):o}, and had {mode:o}")
    owner = os.stat(loom.folder / "shop.anchor")
    if os.geteuid() == 0 and (owner.st_uid, owner.st_gid) != (12, 34):
        raise Wrong(f"  the line to hand out is now of user {owner.st_uid} and group {owner.st_gid}")
    if mode_of(loom.folder / "box-shop/bank/out/message") != 0o644:
        raise Wrong(f"  a new file in out has the mode {mode_of(loom.folder / 'box-shop/bank/out/message'):o}")


def links_kept(room):
    """a link in the place of the kept lines stays, and the file behind it gets what is written; in the place of a file that is named to be
    written it isn't followed, and told; no file of the user's own is written over, a link of somebody else's isn't touched where all may
    write, and what is no file isn't replaced"""
    loom = Loom(room)
    loom.service("shop", [b"bread"], [b"milk"])
    loom.put("l", loom.run("line", "shop").out)
    loom.put("disk/kept", b"# mine\n")
    os.chmod(loom.folder / "disk/kept", 0o640)
    (loom.folder / "kept").unlink()
    os.symlink("disk/kept", loom.folder / "kept")
    loom.put("kept.new", b"my own")
    loom.put("out.new", b"my own too")
    loom.expect(["keep", "l", "--by", "mail"], 0)
    if not (loom.folder / "kept").is_symlink() or b"shop 2 " not in loom.read("disk/kept") or mode_of(loom.folder / "disk/kept") != 0o640:
        raise Wrong("  the link was put away, or the file behind it wasn't written")
    loom.put("disk/precious", b"mine")
    loom.put("proof", loom.timeweave("prove", "shop", "event", "1", "0"))
    loom.expect("line shop --out out", 0, absent=("was a link",))
    for words in ("line shop --out linked", "judge proof --svg linked", "judge --many disk --table linked"):
        for target in ("disk/line", "disk/precious"):
            (loom.folder / "linked").unlink(missing_ok=True)
            os.symlink(target, loom.folder / "linked")
            done = loom.run(*words.split())
            if f"linked was a link to {target}, which wasn't written over" not in done.err or (loom.folder / "linked").is_symlink():
                raise Wrong(f"  weft {words}: {done}")
            if loom.read("disk/precious") != b"mine" or (loom.folder / "disk/line").exists():
                raise Wrong(f"  weft {words} followed a link")
        if words.startswith("line") and loom.read("linked") != loom.read("out"):
            raise Wrong("  something else was written")
    if loom.read("kept.new") + loom.read("out.new") != b"my ownmy own too":
        raise Wrong("  a file of the user's own was written over")
    os.symlink("loop", loom.folder / "loop")
    os.mkfifo(loom.folder / "pipe")
    (loom.folder / "folder").mkdir()
    for name, told in (("loop", "Too many levels"), ("pipe", "no regular file"), ("folder", "a folder"), ("/dev/null", "no regular file"), ("no/where", "No such file")):
        loom.expect(["line", "shop", "--out", name], 5, told)
    if not stat.S_ISCHR(os.stat("/dev/null").st_mode) or not stat.S_ISFIFO(os.stat(loom.folder / "pipe").st_mode):
        raise Wrong("  what is no file was replaced")
    if os.geteuid() == 0:
        (loom.folder / "open").mkdir()
        os.symlink("../disk/mine", loom.folder / "open/line")
        os.lchown(loom.folder / "open/line", 12, 34)
        os.chmod(loom.folder / "open", 0o1777)
        loom.expect("line shop --out open/line", 5, "Permission denied", "Look who may write there")
        if (loom.folder / "disk/mine").exists():
            raise Wrong("  somebody else's link was followed")
    if list(loom.folder.rglob(".*.new")):
        raise Wrong(f"  left behind: {list(loom.folder.rglob('.*.new'))}")


def many_writers(room):
    """of several writers of one file at one time one is whole at the end, and none fails"""
    loom = Loom(room)
    del room
    from weft import files

    path, wrong = loom.folder / "file", []

    def write(letter):
        try:
            for _ in range(40):
                files.renew(path, letter * 50_000)
                data = path.read_bytes()
                if len(data) != 50_000 or len(set(data)) != 1:
                    wrong.append("a mixture")
        except Exception as failure:  # what fails is what this case is of
            wrong.append(repr(failure))

    threads = [threading.Thread(target=write, args=(letter,)) for letter in (b"a", b"b", b"c", b"d")]
    for it in threads:
        it.start()
    for it in threads:
        it.join()
    if wrong or [it.name for it in loom.folder.iterdir() if it.name not in ("tmp", "kept")] != ["file"]:
        raise Wrong(f"  {wrong[:3]} {sorted(it.name for it in loom.folder.iterdir())}")


def not_told_as_not_there(room):
    """own lines that can't be looked up aren't taken for none, and a folder where nobody may write is told so, with what to do"""
    loom = Loom(room)
    loom.put("of-shop/a", "a")
    loom.put("above/x", b"")
    loom.expect("log of-shop above/shop shop", 0)
    os.chmod(loom.folder / "above/shop.lines", 0)
    loom.expect("log of-shop above/shop", 3, "above/shop.lines can't be read: Permission denied", patch=without_rights)
    os.chmod(loom.folder / "above/shop.lines", 0o600)
    os.chmod(loom.folder / "above", 0o500)
    loom.put("of-shop/b", "b")
    done = loom.expect("log of-shop above/shop", 5, "can't be written: Permission denied", "Look who may write there", absent=("once there is room",), patch=without_rights)
    os.chmod(loom.folder / "above", 0o755)
    loom.expect("log of-shop above/shop", 0, "1 file new")
    expect_plain(done, ["log"])


# ---- folders that are named in odd ways

# Words that name a service's folder, `{f}`, and others that name another one; `{u}` leads from where they are typed to the folder of all.
FOLDER_WORDS = (
    ("check", "--", "{f}"), ("list", "--", "{f}"), ("prove", "--out", "{u}out", "--", "{f}", "a"), ("line", "--", "{f}"), ("exchange", "--", "{f}", "{u}box"),
    ("log", "--", "{u}of-shop", "{f}"), ("chain", "--store={f}", "--out={u}out", "shop:1:0", "shop:2:0"),
)  # fmt: skip
OTHER_WORDS = (
    ("exchange", "--", "{u}shop", "{f}"), ("accept", "--", "{f}", "peer"), ("chain", "--store={u}shop", "--box={f}", "--out={u}out", "shop:1:0", "shop:2:0"),
    ("judge", "--many={f}"), ("log", "--gone", "--", "{f}", "{u}other", "other"),
)  # fmt: skip
ROOTS = ("/", "//", "/..", "/.", "///./")


def typed(loom, words, name, place="."):
    """Runs weft with a folder of this name, typed in a place below the folder of all; it ends with a sentence, and not as a bug."""
    up = "../" * (0 if place == "." else place.count("/") + 1)
    named = [word.format(f=name, u=up) for word in words]
    done = loom.run(*named, patch=lambda: os.chdir(place))
    expect_plain(done, named)
    if done.status in (70, 99) or (done.status and not done.err + done.out):
        raise Wrong(f"  weft {named} in {place}: {done}")
    return done


def with_two_steps(loom):
    """A log of two steps with a file each, and a box without peers."""
    for name in "ab":
        loom.put(f"of-shop/{name}", name)
        loom.expect("log of-shop shop shop", 0)
    loom.put("box/box.conf", "unsigned = yes\n")


def odd_folders(room):
    """each word takes the folder of its service by `.`, `..`, a slash or a dot at its end, a link, a name that begins with - or has a
    line end, and finds what stands beside it"""
    loom = Loom(room)
    with_two_steps(loom)
    (loom.folder / "shop/in").mkdir()
    os.symlink("shop", loom.folder / "link")
    for name in ("-x", "a\nb"):
        for path in loom.folder.glob("shop*"):
            copy = loom.folder / path.name.replace("shop", name, 1)
            shutil.copytree(path, copy) if path.is_dir() else shutil.copy2(path, copy)
    reseal(loom.folder)
    plain = ("shop/", "shop/.", "./shop", "box/../shop", "link", "link/", f"{loom.folder}/shop", "-x", "a\nb")
    odd = [*((name, ".") for name in plain), (".", "shop"), ("./", "shop"), ("../shop", "shop"), ("in/..", "shop"), ("..", "shop/in"), ("../.", "shop/in")]
    before = {it.name for it in loom.folder.iterdir()}
    for words in FOLDER_WORDS:
        for name, place in odd:
            done = typed(loom, words, name, place)
            if done.status not in ((0, 12) if "chain" in words else (0,)):
                raise Wrong(f"  weft {words} with {name!r} in {place}: {done}")
    left = {it.name for it in loom.folder.iterdir()} - before - {"out", "kept.lock"}
    inside = {it.name for it in (loom.folder / "shop").iterdir()} - {"timeline.tw", "in"}
    if left or inside or list((loom.folder / "shop/in").iterdir()):
        raise Wrong(f"  left {left}, in the store's folder {inside}")


def odd_other_folders(room):
    """boxes, logged folders and folders of files are taken by odd names too; the root, beside which nothing can stand, is told by a
    sentence"""
    loom = Loom(room)
    with_two_steps(loom)
    os.symlink("box", loom.folder / "link")
    (loom.folder / "box/peer").mkdir()
    (loom.folder / "-b").mkdir()
    for words in OTHER_WORDS:
        for name, place in ((".", "box"), ("./", "box"), ("..", "box/peer"), ("box/", "."), ("link", "."), ("-b/../box", "."), ("-b", "."), ("box/peer/..", ".")):
            typed(loom, words, name, place)
    for name in ROOTS:
        for words in FOLDER_WORDS[:-1]:
            done = typed(loom, words, name)
            if done.status != 2 or "root" not in done.err:
                raise Wrong(f"  weft {words} with {name}: {done}")


# ---- stores that are checked whole


def long_history(loom, odd=""):
    """The program, but that it refuses the export as that of a long history; with a line of a shell script before that answers
    otherwise."""
    loom.put("stand-in", STAND_IN.format(odd=odd, program=loom.program))
    os.chmod(loom.folder / "stand-in", 0o755)
    return {"TIMEWEAVE_PROGRAM": loom.folder / "stand-in", "TIMEWEAVE_LIBRARY": os.environ.get("TIMEWEAVE_LIBRARY", "")}


def beyond_a_file(room):
    """of a store whose history is longer than a file may be each event is counted and proved; one that isn't, anywhere, ends with 8;
    what wasn't looked at is told and ends with 10, and the store isn't called good"""
    loom = Loom(room)
    loom.service("shop", *[[b"event %d %d" % (step, index) for index in range(step % 4 + 40 * (step == 5))] for step in range(1, 9)])
    whole = long_history(loom)
    told = ("8 of 8 steps good", "Its history is longer than a file may be", "no authenticator was computed anew")
    loom.expect("check shop --all", 0, *told, "links and 52 of 52 events proved", absent=("Not looked at",), **whole)
    loom.expect("check shop", 0, "links and 52 of 52 events proved", **whole)

    def sample():
        from weft.words import check

        check.SAMPLE = 5

    told = ("links and 5 of 52 events proved", "Not looked at: 47 of its 52 events. So nothing is said of that.", "weft check --all shop")
    loom.expect("check shop", 10, *told, patch=sample, **whole)
    found = json.loads(loom.expect("check shop --json", 10, patch=sample, **whole).out)
    if (found["events"], found["events_proved"], found["not_looked_at"], found["exported"]) != (52, 5, ["47 of its 52 events"], False):
        raise Wrong(f"  {found}")
    for step, index in ((1, 0), (5, 40), (7, 2)):
        bad = long_history(loom, f'case "$1 $3 $4 $5" in "prove event {step} {index}") echo "store BadPage 7"; exit 8;; esac')
        loom.expect("check shop --all --workers 1", 8, f"step {step}: its event {index} isn't proved: store BadPage 7", "7 of 8 steps good", "Append nothing", **bad)
    uncounted = long_history(loom, 'case "$1 $3 $4 $5" in "prove event 6 4294967295") echo "store BadPage 9"; exit 8;; esac')
    loom.expect("check shop --all", 8, "step 6: it doesn't tell how many events it has", **uncounted)
    loom.service("town", [b"x"])
    loom.put("message", loom.timeweave("thread", "town", "0"))
    loom.timeweave("receive", "shop", "message")
    loom.expect("check shop --all", 10, "Not looked at: the archive of the threads that it received", **long_history(loom))
    loom.expect("check shop --all", 0, absent=("Not looked at",))


def flipped_anywhere(room):
    """one flipped byte in an event page, anywhere, ends weft check --all with 8, also where the history is longer than a file may be"""
    loom = Loom(room)
    loom.service("shop", *[[b"event %d %d" % (step, index) + b"." * 400 for index in range(12)] for step in range(1, 4)])
    good = loom.read("shop/timeline.tw")
    if len(good) % PAGE or good[4 * PAGE : 4 * PAGE + 1] != b"\x02":
        raise Skipped("the program that is tried keeps no pages")
    whole, pages = long_history(loom), [page for page in range(4, len(good) // PAGE) if good[page * PAGE] == 2]
    if len(pages) < 6:
        raise Wrong(f"  event pages: {pages}")
    for number, page in enumerate(pages):
        for place in (number, 11 + 37 * number, PAGE - 1 - number):
            at = page * PAGE + place
            loom.put("shop/timeline.tw", good[:at] + bytes([good[at] ^ 1]) + good[at + 1 :])
            loom.expect("check shop --all --workers 1", 8, "Append nothing", **whole)
    loom.expect("check shop --all --workers 1", 8)
    loom.put("shop/timeline.tw", good)
    loom.expect("check shop --all", 0, **whole)


def flipped_page(room):
    """one flipped byte in any page behind the first four, of events, of a step or of the archive of what was received, ends weft check --all with 8; one in the two
    that the record doesn't reach changes nothing"""
    loom = Loom(room)
    loom.service("town", [b"x"])
    loom.service("shop", [b"bread"])
    for number in range(4):
        loom.append("town", b"more")
        loom.put("message", loom.timeweave("thread", "town", str(number and number + 1)))
        loom.timeweave("receive", "shop", "message")
        loom.append("shop", *[b"event %d %d" % (number, index) + b"." * 300 for index in range(20 if number == 1 else 1)])
    good = loom.read("shop/timeline.tw")
    if len(good) % PAGE or good[4 * PAGE : 4 * PAGE + 1] != b"\x02":
        raise Skipped("the program that is tried keeps no pages")
    kinds = [good[page * PAGE] for page in range(4, len(good) // PAGE)]
    if min(kinds.count(kind) for kind in (1, 2, 3)) < 4:
        raise Wrong(f"  kinds of pages: {kinds}")
    for page, place in [*((page, place) for page in range(4, len(good) // PAGE) for place in (60, 7 * page)), (0, 60), (1, 60)]:
        at = page * PAGE + place
        loom.put("shop/timeline.tw", good[:at] + bytes([good[at] ^ 1]) + good[at + 1 :])
        loom.expect("check shop --all --workers 1", 8 if page > 3 else 0)


def flipped_for_the_next_step(room):
    """one flipped bit in what a store keeps for its next step alone, its archive's label or the greatest claimed time, is found by weft check, though each step that
    is there is good"""
    loom = Loom(room)
    loom.service("shop")
    loom.put("event", events_file(b"bread"))
    for time in (1000, 1001, 1002):
        loom.timeweave("append", "shop", "event", str(time))
    good = loom.read("shop/timeline.tw")
    slot = max((2, 3), key=lambda page: good[page * PAGE + 8 : page * PAGE + 24]) * PAGE
    at = good.find((1002).to_bytes(8, "big"), slot, slot + PAGE)
    if len(good) % PAGE or at < 0:
        raise Skipped("the program that is tried keeps no pages")
    loom.expect("check shop", 0, "3 of 3 steps good")
    whole = long_history(loom)
    for place, bit in ((slot + 98, 1), (slot + 113, 8), (slot + 129, 128), (at + 6, 2), (at + 7, 1)):
        loom.put("shop/timeline.tw", good[:place] + bytes([good[place] ^ bit]) + good[place + 1 :])
        loom.expect("check shop --workers 1", 8, "what the store keeps for its next step isn't right", "Append nothing")
        if place < at:
            loom.expect("check shop --all --workers 1", 8, "what the store keeps for its next step isn't right", **whole)
        if list((loom.folder / "tmp").glob("weft-*")):
            raise Wrong("  the copy was left")
    loom.put("shop/timeline.tw", good)
    loom.expect("check shop --all", 0)


def damaged_and_logged(room):
    """a log whose store keeps a damaged label for its next step tells that behind the first step that it makes, and neither notes nor hands out its line"""
    loom = Loom(room)
    loom.put("src/a", "a")
    loom.expect("log src log data", 0)
    good, anchor = loom.read("log/timeline.tw"), loom.read("log.anchor")
    slot = max((2, 3), key=lambda page: good[page * PAGE + 8 : page * PAGE + 24]) * PAGE
    if len(good) % PAGE:
        raise Skipped("the program that is tried keeps no pages")
    loom.put("log/timeline.tw", good[: slot + 98] + bytes([good[slot + 98] ^ 1]) + good[slot + 99 :])
    loom.put("src/b", "b")
    for _ in range(3):
        loom.expect("log src log", 8, "made step 2, which doesn't follow from its step 1", "Go back to a backup")
        if loom.read("log.anchor") != anchor or b" 2 " in loom.read("log.lines"):
            raise Wrong("  the line of that step was noted")
    loom.put("log/timeline.tw", good)
    loom.expect("log src log", 0, "step 2: 1 file new")


def failing_amid(room):
    """a fault of a call, want of room for a copy, and a step that somebody makes meanwhile let no good store be called damaged: what couldn't be looked at is told"""
    loom = Loom(room)
    loom.put("src/a", "a")
    loom.expect("log src log data", 0)
    faulty = loom.put("faulty", f'#!/bin/sh\n[ "$1 $3" = "prove absent" ] && {{ echo "no memory"; exit 6; }}\nexec {loom.program} "$@"\n')
    loom.put("event", events_file(b"somebody else's"))
    busy = loom.put("busy", f'#!/bin/sh\n[ "$1" = export ] && {loom.program} append "$2" {loom.folder}/event > made\nexec {loom.program} "$@"\n')
    for path in (faulty, busy):
        path.chmod(0o755)
    loom.put("src/b", "b")
    loom.expect("log src log", 6, absent=("damaged",), TIMEWEAVE_PROGRAM=str(faulty))
    loom.expect("log src log", 0)

    def full():
        def copy(*words):
            raise OSError(errno.ENOSPC, os.strerror(errno.ENOSPC))

        shutil.copyfileobj = copy

    loom.put("other", f"data 1 {'f' * 64} 2026-01-01T00:00:00Z letter\n")
    loom.expect("check log", 10, "steps good", "Not looked at: whether a next step follows", "No space left", patch=full)
    loom.expect("check log --kept other", 17, "two lines of step 1 of data", "Not looked at: whether a next step follows", patch=full)
    for _ in range(2):
        loom.expect("check log --workers 1", 0, absent=("isn't proved", "Append nothing"), TIMEWEAVE_PROGRAM=str(busy))
    loom.expect("check log", 0)


def flipped_archive(room):
    """one flipped byte in a page of the archive by which a received line can't be proved any more ends weft check with 8, with --all and without"""
    loom = Loom(room)
    for name in ("shop", "bank"):
        loom.service(name)
    for step in range(12):
        loom.append("shop", b"%d" % step)
        loom.put("message", loom.timeweave("thread", "shop", str(step)))
        loom.timeweave("receive", "bank", "message")
    good = loom.read("bank/timeline.tw")
    pages = [page for page in range(4, len(good) // PAGE) if good[page * PAGE] == 3]
    if len(good) % PAGE or not pages:
        raise Skipped("the program that is tried keeps no pages")
    loom.expect("check bank", 0, "12 of 12 steps good", "links, 12 received lines")

    def proofs():
        return [loom.timeweave("prove", "bank", "thread", "12", "shop", str(step), status=None) for step in range(1, 13)]

    whole, found = proofs(), 0
    for page, place in itertools.product(pages[-4:], (1, 30, 64, 300)):
        at = page * PAGE + place
        loom.put("bank/timeline.tw", good[:at] + bytes([good[at] ^ 1]) + good[at + 1 :])
        if proofs() != whole:
            found += 1
            loom.expect(f"check bank --workers 1{' --all' * (found % 2)}", 8, "Append nothing")
    if not found:
        raise Wrong("  no byte was found by which a line can't be proved")
    loom.put("bank/timeline.tw", good)
    loom.expect("check bank --all", 0)


def emptied(room):
    """a store without steps of which a line is kept isn't called good"""
    loom = Loom(room)
    loom.service("shop", [b"bread"])
    loom.put("l", loom.run("line", "shop").out)
    loom.expect(["keep", "l", "--by", "mail"], 0)
    shutil.rmtree(loom.folder / "shop")
    loom.service("shop")
    loom.expect("check shop", 17, "shop has no step yet", "The store has no such step")


def told_of_entries(room):
    """weft check tells that the entries of a log were lost, with 10, as weft log does with 17; of a service that logs nothing it wants none. Its JSON has what
    was found of them, the steps whose kept lines contradict, and the status"""
    loom = Loom(room)
    loom.service("shop", [b"bread"])
    loom.put("src/a", "a")
    loom.expect("log src log data", 0)
    entries, line = loom.read("log.entries"), loom.read("log.anchor")

    def find_with(status, name="log"):
        told = json.loads(loom.run("check", name, "--json").out)
        if told["status"] != status:
            raise Wrong(f"  {told}")
        return told["entries"], told["disputed"]

    wanted = [(0, ("good", []))]
    seen = [(0, find_with(0))]
    (loom.folder / "log.entries").unlink()
    for words in ("check log", "check log --all"):
        loom.expect(words, 10, "log.entries isn't there, and the store has entries of a log", "weft check --entries log makes it anew")
    loom.expect("log src log", 17)
    seen.append((10, find_with(10)))
    loom.put("log.entries", entries.replace(b"./a", b"./b"))
    seen.append((8, find_with(8)))
    loom.put("log.entries", entries)
    loom.put("log.pending", b"1 0\n")
    seen.append((10, find_with(10)))
    (loom.folder / "log.pending").unlink()
    loom.put("false", line[:-2] + (b"0" if line[-2:-1] != b"0" else b"1") + b"\n")
    loom.expect(["keep", "false", "--by", "letter"], 0)
    seen.append((17, find_with(17)))
    seen.append((0, find_with(0, "shop")))
    wanted += [(10, ("missing", [])), (8, ("differing", [])), (10, ("amid a step", [])), (17, ("not looked at", [1])), (0, ("none", []))]
    if seen != wanted:
        raise Wrong(f"  {seen}")
    loom.expect("check log --entries", 17)
    loom.put("kept", "")
    loom.expect("check log --entries --json", 0, '"entries": "made anew"')


def cases():
    works = (
        for_its_user_alone, modes_kept, links_kept, many_writers, not_told_as_not_there, odd_folders, odd_other_folders, beyond_a_file, flipped_anywhere,
        flipped_page, flipped_for_the_next_step, damaged_and_logged, failing_amid, flipped_archive, emptied, told_of_entries,
    )  # fmt: skip
    return [case(work, "weft stores") for work in works]
