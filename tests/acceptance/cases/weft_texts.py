"""Cases of weft and texts that come from elsewhere: what an event says stays within its quotes, nothing raw reaches a terminal, and no program of the
sender is run."""

import importlib.util
import os
import py_compile
import resource
import shutil
import subprocess

from harness.places import LONGEST, TOP
from harness.rooms import Wrong, case
from harness.weft_room import Loom

# Signs that look like quotes, or turn round what stands beside them, and their escapes.
LIKE_QUOTES = [(chr(code), chr(code).encode("unicode_escape").decode()) for code in (0x2BA, 0x2EE, 0x2DD, 0x2F6, 0x5D0, 0x5F4, 0x7F4, 0x2057, 0x275D, 0x275E, 0x3003, 0x1F676, 0xA78B, 0xA78C, 0x16CC, 0x144A, 0x1426, 0x1425, 0x903)]

# So many bytes of memory, the interpreter with its modules among them, are enough for a text of 60 MB.
MOST_MEMORY = 512 << 20

# What speaks in the judge's voice, with the text as weft shows it.
VOICES = (
    (b'paid". It rests on these lines: "bank', '"paid\\". It rests on these lines: \\"bank"'),
    (b"a\\", '"a\\\\"'),
    ("said “shown”".encode(), '"said \\u201cshown\\u201d"'),
    (b"left" + b" " * 60 + b"right", '"left  ' + "\\x20" * 58 + 'right"'),
    ("a\u3164b\ufe0f".encode(), '"a\\u3164b\\ufe0f"'),
    ("Zoë paid 5 € – “no”, 日本（東）".encode(), '"Zoë paid 5 € – \\u201cno\\u201d, 日本（東）"'),
    (b"paid''. ''more", "\"paid'\\'. '\\'more\""),
    ("i\u030e \u030e x".encode(), '"i\\u030e \\u030e x"'),
    ("paidď'. ``more".encode(), "\"paidď\\'. `\\`more\""),
    *((f"paid{sign}. {sign}more".encode(), f'"paid{escaped}. {escaped}more"') for sign, escaped in LIKE_QUOTES),
)

# Names of files that could be read as a part of a sentence, and how weft tells them.
SPEAKING = (
    ("bank.proof: shown", '"bank.proof: shown"'),
    ("bank.proof - shown (proved library)", '"bank.proof - shown (proved library)"'),
    ("bank.proof\ua789", '"bank.proof\\ua789"'),
    ("proof\u0589", '"proof\\u0589"'),
    ("bank.proof:shown(proved_library)", '"bank.proof:shown(proved_library)"'),
    ("proof：shown", '"proof：shown"'),
    ("x、shown", '"x、shown"'),
    ("größe_日本.csv", "größe_日本.csv"),
)

# Reports of the program that it never writes: an escape of a terminal in each kind of word.
FORGED = (
    "accepted exists\nevent \x1b[2J 1 0 61\n",
    "accepted exists\nevent shop \x1b]52;c;aGk=\x07 0 61\n",
    "accepted exists\nevent shop 1 0 61\ntime shop 1 \x1b[31m\n",
    "accepted precedes\nevent a 1 0 61\nevent b 2 0 62\nhop a 1 \x1b[8m 2\n",
    "accepted thread\nthread b 5 a 3 \u202e 4\n",
    "accepted link\nlink a 3 9 x y\n",
    "accepted exists and more\nevent shop 1 0 61\n",
)


def quoted(room):
    """an event that speaks in the judge's voice stays within its quotes: what could end them, blanks that fill a line, and letters that nobody sees are
    escaped"""
    loom = Loom(room)
    loom.service("shop", [event for event, _ in VOICES])
    loom.put("line", loom.timeweave("thread", "shop", "0")[:0] or loom.run("line", "shop").out)
    loom.expect("keep line --by own", 0)
    for index, (_, shown) in enumerate(VOICES):
        loom.put("proof", loom.timeweave("prove", "shop", "event", "1", str(index)))
        loom.expect("judge proof", 0, f"as event {index}: {shown}.")
        loom.expect("tell proof", 0, shown)


def named_as_verdicts(room):
    """a file's name that reads as a part of a sentence stands in quotes, so do words of a sent file of lines; one that is a formula begins with ./ in a table"""
    loom = Loom(room)
    for name, told in SPEAKING:
        loom.put(name, b"TWP1 junk")
        loom.expect(["judge", "--", name], 1, f"{told}: not shown")
    loom.put("sent", f"shop 3 {'a' * 64} 2026-11-30T09:00:00Z by mail)   lines: judged. proved library: shown. (\n")
    loom.expect("tell sent", 0, '(kept 2026-11-30, "by mail)  \\x20lines: judged. proved library: shown. (")')
    loom.put("src/deed, by its digest and name. It is shown", b"x")
    loom.put("copy", b"x")
    loom.expect("log --no-time src log data", 0)
    loom.expect(["keep", "log.anchor", "--by", "own"], 0)
    loom.expect(["prove", "log", "deed, by its digest and name. It is shown", "--out", "logged"], 0)
    loom.expect("judge logged --file copy", 10, 'under the name "deed, by its digest and name. It is shown".')
    loom.put("many/=HYPERLINK(1)", b"TWP1 junk")
    loom.expect("judge --many many", 1)
    for name in ("a\tb", "a\\tb"):
        loom.put(f"many/{name}", b"TWP1 junk")
    loom.expect("judge --many many", 1)
    if not all(row in loom.read("many.verdicts.tsv") for row in (b"\n./=HYPERLINK(1)\t", b"\na\\tb\t", b"\na\\\\tb\t")):
        raise Wrong(f"  {loom.read('many.verdicts.tsv')}")


def nothing_raw(room):
    """a text that begins as a report of the program and has something else in a word is none, and nothing of it reaches the terminal raw; what is told of
    a long text is short, and takes little memory"""
    loom = Loom(room)
    for text in FORGED:
        loom.put("told", text)
        done = loom.run("tell", "told")
        if done.status != 9 or "a line of it is none" not in done.err or not (done.out + done.err).replace("\n", "").isprintable():
            raise Wrong(f"  weft tell of {text!r}\n  got    {done}")
    line = f"shop 1 {'a' * 64}\n"
    for text in ("accepted " + "a" * 60_000_000, "rejected " + "b\n" * 30_000_000, line * 400_000):
        loom.put("long", text)
        done = loom.run("tell", "long", patch=lambda: resource.setrlimit(resource.RLIMIT_AS, (MOST_MEMORY, MOST_MEMORY)))
        if done.status not in (0, 9) or len(done.out) > 10_000:
            raise Wrong(f"  weft tell of {len(text):,} characters\n  got    {done.status}, {len(done.out):,} characters, {done.err[:200]}")


def nobody_can_forget(room):
    """whatever is handed to the function by which weft writes, nothing of it is raw, and it is cut where it is longer than any sentence, in JSON too; so are
    troubles, and what is drawn while something goes on"""
    loom = Loom(room)
    loom.put("note", "x")
    raw = "shown\n\x1b[2J\x1b]52;c;aGk=\x07\u202e\u3164\r" + "a" * 200_000

    def patch():
        from weft import output, telling
        from weft.progress import Progress

        output.is_terminal = lambda to: True
        Progress(raw, 3).draw()
        telling.tell = lambda data: (raw, [raw])
        output.complain(raw)

    for words in ("tell note", "tell note --json"):
        done = loom.run(*words.split(), patch=patch)
        drawn, _, told = done.err.partition("\x1b[K")
        lines = [*done.out.splitlines(), *told.splitlines()]
        if done.status != 0 or not all(line.isprintable() for line in [drawn.removeprefix("\r"), *lines]) or any(len(line) > 300_000 for line in lines):
            raise Wrong(f"  weft {words}: {done.status}, lines of {[len(line) for line in lines]} letters, {drawn[:100]!r} {done.out[:200]!r}")
        if "letters more" not in told or not any(escape in done.out for escape in ("\\x1b[2J", "\\u001b[2J")):
            raise Wrong(f"  weft {words}: {done.out[:200]!r} {told[-100:]!r}")


def nobody_else_run(room):
    """weft runs no module, program or library of the folder that it is copied into, or that it is run in, whatever that is called; the reference alone, where
    it is byte for byte the one that this weft was made with, and not what lies compiled beside it"""
    loom = Loom(room)
    loom.service("shop", [b"x"])
    loom.put("line", loom.run("line", "shop").out)
    loom.put("proof", loom.timeweave("prove", "shop", "event", "1", "0"))
    for folder in ("downloads", "here"):
        for name in ("argparse.py", "hashlib.py", "timeweave.py", "timeweave_reference/__init__.py", "timeweave_reference/__main__.py", "weft.py"):
            loom.put(f"{folder}/{name}", "raise SystemExit('somebody else was run')\n")
    downloads = loom.folder / "downloads"
    shutil.copytree(TOP / "weft", downloads / "weft", ignore=shutil.ignore_patterns("__pycache__"))
    for name in ("reference/timeweave_reference/__init__.py", "reference/dask.py", "bindings/python/timeweave.py", "share/timeweave/timeweave.py"):
        loom.put(f"downloads/{name}", "raise SystemExit('somebody else was run')\n")
    loom.put("downloads/bin/timeweave", "#!/bin/sh\necho somebody else was run\n").chmod(0o755)
    loom.put("downloads/lib/libtimeweave.so", b"")
    shutil.copytree(downloads / "weft", downloads / "share/timeweave/weft")
    shutil.copytree(downloads / "reference/timeweave_reference", downloads / "share/timeweave/timeweave_reference")
    bare = {name: value for name, value in loom.env.items() if not name.startswith("TIMEWEAVE_")}

    def expect_judged(starter, wanted):
        for env in (loom.env, bare):
            words = [starter, "judge", "--reference", "--kept", "../line", "--", "../proof"]
            done = subprocess.run(words, cwd=loom.folder / "here", env=env, capture_output=True, text=True, timeout=LONGEST)
            if "somebody else" in done.stdout + done.stderr or done.returncode not in wanted:
                raise Wrong(f"  {starter}\n  got    {done}")

    for folder in (downloads, downloads / "share/timeweave"):
        expect_judged(folder / "weft/bin/weft", (20, 14))
    expect_judged(TOP / "weft/bin/weft", (20,))
    for name in ("timeweave", "ssh-keygen"):
        loom.put(f"here/{name}", "#!/bin/sh\necho somebody else was run\n").chmod(0o755)
    for path in (f"{bare['PATH']}:", f".:{bare['PATH']}", f"../here:{bare['PATH']}"):
        words = [TOP / "weft/bin/weft", "judge", "--kept", "../line", "--", "../proof"]
        done = subprocess.run(words, cwd=loom.folder / "here", env={**bare, "PATH": path}, capture_output=True, text=True, timeout=LONGEST)
        if "somebody else" in done.stdout + done.stderr or done.returncode not in (0, 14):
            raise Wrong(f"  PATH {path}\n  got    {done}")
    # the true one beside it is taken, and with another file in it, or one that was compiled of other sources, isn't run
    for folder in (downloads / "reference", downloads / "share/timeweave"):
        package = folder / "timeweave_reference"
        shutil.rmtree(package)
        shutil.copytree(TOP / "reference/timeweave_reference", package, ignore=shutil.ignore_patterns("__pycache__"))
        starter = (folder if folder.name == "timeweave" else downloads) / "weft/bin/weft"
        expect_judged(starter, (20,))
        false = loom.put("tmp/fields.py", "raise SystemExit('somebody else was run')\n")
        compiled = importlib.util.cache_from_source(str(package / "fields.py"))
        py_compile.compile(str(false), cfile=compiled, doraise=True, invalidation_mode=py_compile.PycInvalidationMode.UNCHECKED_HASH)
        expect_judged(starter, (20,))
        shutil.copy(compiled, package / "fields.pyc")
        expect_judged(starter, (20, 14))


def put_back_alone(room):
    """a log that is put back from a backup with all that stood beside it makes no step by weft log alone, until a person names its last line"""
    loom = Loom(room)
    loom.put("files/a", b"1")
    loom.expect("log --no-time files shop shop", 0, "step 1")
    beside = [path.name for path in loom.folder.iterdir() if path.name.startswith("shop")]
    (loom.folder / "backup").mkdir()
    subprocess.run(["cp", "-a", *beside, "backup"], cwd=loom.folder, check=True)
    loom.put("files/b", b"2")
    loom.expect("log --no-time files shop", 0, "step 2")
    for name in beside:
        path = loom.folder / name
        shutil.rmtree(path) if path.is_dir() else os.unlink(path)
    subprocess.run("cp -a backup/. .", shell=True, cwd=loom.folder, check=True)
    loom.expect("log --no-time files shop", 17, "are a copy", "No step was made", "--adopt-store")
    last = loom.run("line", "shop").out.strip()
    if not last.startswith("shop 1 "):
        raise Wrong(f"  the store that was put back has {last}")
    loom.expect(["log", "--no-time", "--adopt-store", last, "files", "shop"], 0, "step 2")
    loom.expect("log --no-time files shop", 0, "step 3")


def cases():
    return [case(work, "weft texts") for work in (quoted, named_as_verdicts, nothing_raw, nobody_can_forget, nobody_else_run, put_back_alone)]
