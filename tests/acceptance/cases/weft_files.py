"""Acceptance cases of weft and bad input: every word and every file that it reads, missing, a folder, a pipe, unreadable, empty, cut, of another kind, of
10 GB, or random bytes; each is one sentence that names the file, and a status of the table; nothing is half written, nothing raw reaches a terminal."""

import os
import random
import resource
import shutil
import subprocess
import time

from harness.limits import plain_rights
from harness.places import TOP
from harness.rooms import Wrong, case, needs
from harness.weft_room import Loom, expect_plain, weft_words

WORDS = (
    "keep {} --by mail", "keep l --signer shop {}", "keep l --by mail --kept {}", "keep l --signers {}", "tell {}", "list {}", "judge {}", "judge p --kept {}",
    "judge p --file {}", "judge low {}", "judge --many {}", "line {}", "line shop --sign {}", "check {}", "check shop --kept {}", "log {} log data", "log src {}",
    "prove {} a", "exchange {} box", "exchange shop {}", "accept {} peer", "accept box peer {}", "accept box peer --key {}", "chain {} shop:2:0",
    "chain shop:1:0 {}", "chain shop:1:0 shop:2:0 --store {}", "chain shop:1:0 shop:2:0 --store shop --box {}",
    "chain shop:1:0 shop:2:0 --store shop --hand {}", "chain shop:1:0 shop:2:0 --store shop --for {}", "prove log a --for {}", "chain shop:1:0 shop:2:0 --store shop --kept {}",
    "backup {} bu", "backup shop {} bu", "restore {} new", "restore old new --held {}", "status {}", "status shop {}",
    "fetch {} box/peer", "fetch https://127.0.0.1:1/ {}", "publish {} src", "publish box {}", "record {} --event x", "find {} src/a",
    "find log --text x --proofs {}", "stamp {} --url http://127.0.0.1:1/", "stamp l --url http://127.0.0.1:1/ --renew {}", "keep l --stamp {}", "keep {} --stamp p",
    "keep --authority tsa {}", "bundle new {}", "bundle new p --line {}", "bundle new p --file {}", "judge p --authorities {}",
)  # fmt: skip
KNOWN = {0, 1, 2, 3, 4, 5, 6, 7, 8, 9, 10, 11, 12, 15, 16, 17, 20, 21}


def with_files(room):
    """A service, a proof, a line, a log, a box; and of each kind of bad file one."""
    loom = Loom(room)
    loom.service("shop", [b"bread"], [b"milk"])
    loom.put("p", loom.timeweave("prove", "shop", "event", "1", "0"))
    loom.put("low", loom.timeweave("map", "shop", "low", "2", "bank"))
    loom.put("l", loom.run("line", "shop").out)
    loom.expect(["keep", "l", "--by", "mail"], 0)
    loom.put("src/a", b"x")
    loom.put("box/box.conf", "unsigned = yes\n")
    (loom.folder / "box/peer/in").mkdir(parents=True)
    loom.put("box/peer/in/message", loom.timeweave("thread", "shop", "0"))
    loom.expect("backup shop old", 0)
    return loom


def bad_files(loom):
    """The bad files, each by a name that has to be told."""
    folder = loom.folder / "bad"
    folder.mkdir(exist_ok=True)
    (folder / "folder").mkdir(exist_ok=True)
    os.mkfifo(folder / "fifo")
    (folder / "empty").touch()
    (folder / "cut").write_bytes(loom.read("p")[:100])
    (folder / "garbage").write_bytes(random.Random(1).randbytes(3000))
    (folder / "odd\x1b[31m\n\u202e").write_bytes(b"\x1b]0;title\x07\r\n")
    with open(folder / "long", "wb") as file:
        file.truncate(10 << 30)
    os.symlink("/nowhere", folder / "dangling")
    os.symlink("loop", folder / "loop")
    return ["missing", *sorted(os.listdir(folder))]


def each_word(room):
    """each word with each bad file ends with a sentence that names it, or does its work, within a second of its own and without anything raw or half
    written"""
    loom = with_files(room)
    names = bad_files(loom)
    for words in WORDS:
        for name in names:
            began = os.times()
            done = loom.run(*[word if word != "{}" else f"bad/{name}" for word in words.split()])
            used = sum(os.times()[2:4]) - sum(began[2:4])
            told = f"  weft {words} with {name!r}: {done}"
            expect_plain(done, words.split())
            if done.status not in KNOWN or (done.status in (3, 9) and not done.err and ": not judged\n" not in done.out) or used > 2:
                raise Wrong(f"{told}\n  {used} s")
            if list(loom.folder.rglob("*.new")):
                raise Wrong(f"{told}\n  half written: {list(loom.folder.rglob('*.new'))}")
            for path in [loom.folder / "bad/missing", *loom.folder.glob("new*")]:
                shutil.rmtree(path) if path.is_dir() else path.unlink(missing_ok=True)


def unreadable_files(room):
    """files and folders that may not be read or written are told by their names, as another user"""
    loom = with_files(room)
    script = "import sys; sys.path[:0] = [sys.argv.pop(1), sys.argv.pop(1)]; from weft.main import main; sys.exit(main(sys.argv[1:]))"

    def as_user(*words):
        done = subprocess.run(
            ["python3", "-I", "-c", script, str(TOP), str(TOP / "reference"), *words], cwd=loom.folder, env=loom.env, capture_output=True, text=True,
            preexec_fn=plain_rights,
        )  # fmt: skip
        return done.returncode, done.stdout, done.stderr

    os.chmod(loom.folder / "p", 0)
    status, _, err = as_user("judge", "p")
    if status != 3 or "p can't be read: Permission denied" not in err:
        raise Wrong(f"  {status} {err}")
    os.chmod(loom.folder / "src", 0)
    status, _, err = as_user("log", "src", "log", "data")
    if status != 3 or "no folder that can be read" not in err:
        raise Wrong(f"  {status} {err}")
    os.chmod(loom.folder / "src", 0o755)
    os.chmod(loom.folder, 0o555)
    status, _, err = as_user("line", "shop", "--out", "new")
    os.chmod(loom.folder, 0o755)
    if status != 5 or "new can't be written: Permission denied" not in err:
        raise Wrong(f"  {status} {err}")


def fuzzed(room):
    """bytes drawn by chance and changed files of each kind: tell and judge end with a sentence, quickly, and with little memory"""
    loom = with_files(room)
    loom.service("town", [b"x"])
    loom.put("m", loom.timeweave("thread", "shop", "0"))
    kinds = {
        "p": loom.read("p"), "low": loom.read("low"), "m": loom.read("m"), "r": loom.timeweave("receive", "town", "m"), "h": loom.timeweave("export", "town"),
        "t": loom.timeweave("prove", "town", "thread", "2", "shop", "2"), "a": loom.timeweave("prove", "town", "absent", "2", "shop", "1"),
        "k": loom.timeweave("prove", "shop", "link", "1"), "hi": loom.timeweave("map", "town", "high", "2", "shop"), "l": loom.read("l"),
        "kept": loom.read("kept"),
    }  # fmt: skip
    rand = random.Random("weft")
    for number in range(60):
        data = bytearray(rand.choice(list(kinds.values())))
        for _ in range(rand.choice((1, 1, 2, 5))):
            place = rand.randrange(len(data))
            how = rand.randrange(5)
            if how == 0:
                data[place] ^= 1 << rand.randrange(8)
            elif how == 1:
                del data[place:]
            elif how == 2:
                data[place:place] = rand.randbytes(rand.randrange(40))
            elif how == 3:
                data[place : place + 8] = rand.choice((b"\xff" * 8, bytes(8), b"\x1b[31m\r\n\x07"))
            else:
                data += rand.choice(list(kinds.values()))
            data = data or bytearray(b"x")
        loom.put("f", bytes(data))
        for words in ("tell f", "judge f", "judge low f", "keep f --by mail --kept k2", "judge p --kept f", "chain f shop:2:0 --hand f --store shop"):
            (loom.folder / "k2").unlink(missing_ok=True)
            done = loom.run(*words.split())
            expect_plain(done, words.split())
            if done.status not in KNOWN:
                raise Wrong(f"  run {number}, weft {words}: {done}")


def large_files(room):
    """the largest files of each kind are read within 8 times their size of memory, and those that only tell great numbers at once"""
    loom = with_files(room)
    big = b"TWH1" + b"shop".ljust(16, b"\0") + (60_000).to_bytes(8, "big") + (b"\1" + (1).to_bytes(4, "big") + (1024).to_bytes(4, "big") + b"x" * 1024 + bytes(6)) * 60_000
    loom.put("history", big)

    def limited():
        resource.setrlimit(resource.RLIMIT_AS, (8 * len(big) + (300 << 20), resource.RLIM_INFINITY))

    loom.expect("tell history", 0, "60,000 steps", patch=limited)
    for kind in (b"TWE1", b"TWH1" + b"shop".ljust(16, b"\0") + b"\0" * 4, b"TWP1\x02\xff", b"TWV1"):
        loom.put("great", kind + b"\xff" * 40)
        began = time.process_time()
        loom.expect("tell great", 9)
        loom.run("judge", "great")
        if time.process_time() - began > 2:
            raise Wrong(f"  {kind} takes long")


def closed_outputs(room):
    """a full or closed standard output ends with status 4, and what was done stands"""
    loom = with_files(room)
    with open("/dev/full", "w") as full:
        done = subprocess.run(["python3", "-m", "weft", "tell", "p"], cwd=loom.folder, env=loom.env | {"PYTHONPATH": str(TOP)}, stdout=full, stderr=subprocess.PIPE)
    if done.returncode != 4 or b"standard output failed" not in done.stderr:
        raise Wrong(f"  {done}")
    script = "exec >&-; python3 -m weft line shop --out f"
    done = subprocess.run(["sh", "-c", script], cwd=loom.folder, env=loom.env | {"PYTHONPATH": str(TOP)}, stderr=subprocess.PIPE)
    if done.returncode != 4 or not (loom.folder / "f").exists():
        raise Wrong(f"  {done}")


def page(room):
    """the manual page is the one that the code makes, it has each word and each status once, and man reads it without a warning"""
    del room
    made = subprocess.run(["python3", "-m", "weft.manual"], cwd=TOP, capture_output=True, text=True, check=True).stdout
    if made != (TOP / "weft/weft.1").read_text():
        raise Wrong("  weft/weft.1 isn't what python3 -m weft.manual makes")
    if shutil.which("man"):
        done = subprocess.run(["man", "--warnings", "-l", TOP / "weft/weft.1"], capture_output=True, text=True, env=os.environ | {"MANPAGER": "cat", "LC_ALL": "C"})
        if "warning" in done.stderr or "EXIT STATUS" not in done.stdout:
            raise Wrong(f"  {done.stderr}")
    from weft.statuses import MEANINGS, Status

    if set(MEANINGS) != set(Status):
        raise Wrong("  a status has no meaning")


def completed(room):
    """the completion in bash is the one that the code makes, and offers words, options, files and folders where they may stand"""
    loom = with_files(room)
    made = subprocess.run(["python3", "-m", "weft.completion"], cwd=TOP, capture_output=True, text=True, check=True).stdout
    if made != (TOP / "weft/completion.bash").read_text():
        raise Wrong("  weft/completion.bash isn't what python3 -m weft.completion makes")
    bash = needs("bash", "bash")
    script = 'source "$0"; COMP_WORDS=("$@"); COMP_CWORD=$(($# - 1)); _weft; printf "%s\n" "${COMPREPLY[@]}"'
    files, folders = {"src", "shop", "box", "tmp", "p", "low", "l", "kept", "kept.lock", "shop.lock", "shop.backup", "old"}, {"src", "shop", "box", "tmp"}
    wanted = {
        "": {*weft_words.WORDS, "--help", "--version"}, "ju": {"judge"}, "judge ": files, "judge p ": files, "judge --many ": folders, "judge p --sv": {"--svg"},
        "judge --workers ": set(), "judge --workers 3 ": files, "log ": folders, "log src ": folders, "log src log ": set(), "keep --signer ": set(),
        "keep --signer shop ": files, "keep --signer shop l ": files, "exchange shop --": {"--help", "--despite", "--look", "--adopt-store", "--unproved", "--wait", "--json"}, "frob ": set(),
        "exchange shop box ": set(), "accept box ": set(),
    }  # fmt: skip
    for words, offers in wanted.items():
        done = subprocess.run([bash, "-c", script, TOP / "weft/completion.bash", "weft", *words.split(" ")], cwd=loom.folder, capture_output=True, text=True)
        if set(done.stdout.split()) != offers or done.stderr:
            raise Wrong(f"  behind `weft {words}`\n  wanted {sorted(offers)}\n  got    {sorted(done.stdout.split())} {done.stderr}")


def installed(room):
    """what make install-weft copies runs from there, isolated from the user's Python, beside what make install copies"""
    loom = with_files(room)
    done = subprocess.run(["make", "-s", "install-weft", f"PREFIX={loom.folder}/usr"], cwd=TOP, capture_output=True, text=True)
    if done.returncode:
        raise Wrong(f"  {done}")
    loom.put("weft.py", "raise SystemExit('the folder is on the path')")
    loom.put("random.py", "raise SystemExit('the folder is on the path')")
    env = loom.env | {"PYTHONPATH": str(loom.folder), "TIMEWEAVE_LIBRARY": ""}
    for words, text in ((["--version"], "weft 1."), (["judge", "p"], "p: shown"), (["line", "shop"], "shop 2 ")):
        done = subprocess.run([loom.folder / "usr/bin/weft", *words], cwd=loom.folder, env=env, capture_output=True, text=True)
        if done.returncode or text not in done.stdout:
            raise Wrong(f"  {words}: {done}")
    for name in ("man/man1/weft.1", "bash-completion/completions/weft"):
        if not (loom.folder / "usr/share" / name).exists():
            raise Wrong(f"  there is no {name}")


def typed(room):
    """the package is typed: mypy --strict finds nothing, for Python 3.9"""
    del room
    needs("mypy", "mypy")
    words = ["mypy", "--strict", "--python-version", "3.9", "--cache-dir", "/dev/null", "weft"]
    done = subprocess.run(words, cwd=TOP, capture_output=True, text=True, env=os.environ | {"MYPYPATH": "reference"})
    if done.returncode:
        raise Wrong(f"  {done.stdout[-1500:]}")


def cases():
    works = (each_word, unreadable_files, fuzzed, large_files, closed_outputs, page, completed, installed, typed)
    return [case(work, "weft files") for work in works]
