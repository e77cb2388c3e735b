"""Acceptance cases of who wants `weft judge` to mislead: whoever sends files, keeps a history, or puts a file in front of another one."""

import csv
import json
import os

from cases.weft_judging import two_services
from harness.rooms import Wrong, case, needs
from harness.weft_room import Loom

OTHER = "f" * 64


def verdicts(loom, table):
    """Of each file of a table its digest, its verdict and its status."""
    return {fields[0]: (fields[2], fields[3], fields[4]) for fields in (line.split("\t") for line in loom.read(table).decode().splitlines()[2:])}


def forged_of(loom, name):
    """A proof that was forged, of the size of the good one."""
    return loom.read(name).replace(b"bread", b"bribe")


def put_as_before(path, data):
    """Puts other bytes into a file, which keeps its times."""
    about = os.stat(path)
    path.write_bytes(data)
    os.utime(path, ns=(about.st_atime_ns, about.st_mtime_ns))


def swapped(room):
    """a forged proof in the place of a good one, of its name, size and times, isn't shown by the good one's row"""
    loom = two_services(room)
    path = loom.put("many/proof", loom.read("bread3"))
    loom.put("many/other", loom.read("bread3"))
    loom.expect("judge --many many --workers 1", 0, "2 files: 2 shown")
    put_as_before(path, forged_of(loom, "bread3"))
    loom.expect("judge --many many --workers 1", 1, "1 shown, 1 not shown", "1 row of an earlier run was taken over")
    put_as_before(path, loom.read("bread3"))
    loom.expect("judge --many many --workers 1", 0, "2 files: 2 shown", "1 row of an earlier run was taken over")
    loom.expect("judge --many many --workers 1", 0, "2 files: 2 shown", "2 rows of an earlier run were taken over")
    loom.put("more", f"maker 9 {OTHER}\n")
    loom.expect("keep more --by mail", 0)
    loom.expect("judge --many many --workers 1", 0, "2 files: 2 shown", absent=("taken over",))


def believed(room):
    """a table that came beside the sender's folder is never believed, nor is a link there written through; rows that others may write are refused"""
    loom = two_services(room)
    path = loom.put("many/proof", loom.read("bread3"))
    loom.expect("judge --many many --workers 1", 0)
    table = loom.read("many.verdicts.tsv").decode()
    state = next(loom.folder.glob(".local/share/weft/judged/*.rows"))
    rows = state.read_bytes()
    put_as_before(path, forged_of(loom, "bread3"))
    forged = verdicts(loom, "many.verdicts.tsv")["proof"][0]
    loom.expect("judge --many many --workers 1", 1)
    table = table.replace(forged, verdicts(loom, "many.verdicts.tsv")["proof"][0])
    state.unlink()
    for name in ("many.verdicts.tsv", "many.verdicts.tsv.part", "many.verdicts.tsv.rows", state.name):
        loom.put(name, table)
    loom.expect("judge --many many --workers 1", 1, "1 not shown", absent=("taken over", ": 1 shown"))
    state.write_bytes(rows)
    state.chmod(0o666)
    loom.expect("judge --many many --workers 1", 5, "isn't your own, or others may write it", "Remove it")
    state.unlink()
    (loom.folder / "many.verdicts.tsv").unlink()
    (loom.folder / "many.verdicts.tsv").symlink_to(loom.put("precious", b"mine"))
    loom.expect("judge --many many --workers 1", 1, "1 not shown")
    if loom.read("precious") != b"mine" or (loom.folder / "many.verdicts.tsv").is_symlink():
        raise Wrong("  the table was written through a link that may be the sender's")
    state.unlink()
    state.symlink_to(loom.put("elsewhere", table))
    loom.expect("judge --many many --workers 1", 3, "no link is followed")


def each_reader(room):
    """no name of a file, and no reason, takes rows of a table together for a program that reads quotes, or begins as a formula does: each such program reads a
    row for each file, with its own verdict"""
    loom = two_services(room)
    good, forged = loom.read("bread3"), forged_of(loom, "bread3")
    sent = {'"a': good, "b": forged, 'c"': good, "=1+1": b"", 'd"\\': b"", '"': b"junk", "e'": good, '-"f"': good}
    for name, data in sent.items():
        loom.put(f"sent/{name}", data)
    loom.expect("judge --many sent --workers 1", 1, "4 shown", "1 not shown", "3 not judged")
    text = loom.read("sent.verdicts.tsv").decode()
    rows = text.splitlines()[2:]
    for quoting in (csv.QUOTE_MINIMAL, csv.QUOTE_NONE):
        found = list(csv.reader(rows, delimiter="\t", quoting=quoting))
        if [fields[2:5] for fields in found] != [line.split("\t")[2:5] for line in rows] or len(found) != len(sent):
            raise Wrong(f"  {found}")
    if '"' in text.split("\n", 2)[2] or any(field[:1] in tuple("=+-@") for line in rows for field in line.split("\t") if field != "-"):
        raise Wrong(f"  {text}")
    loom.expect("judge --many sent --workers 1", 1, "rows of an earlier run were taken over")


def history_beside(room):
    """a history and a proof that tell two lines of one step are no more both shown in a table than by name: both rows tell it, and the run ends with 11"""
    loom = Loom(room)
    loom.service("shop", [b"a"], [b"b"], [b"c"])
    loom.service("shop", [b"a"], [b"x"], folder="anew")
    loom.service("bank", [b"open"])
    loom.put("message", loom.timeweave("thread", "anew", "0"))
    loom.timeweave("receive", "bank", "message")
    loom.make({"sent/history": "export shop", "sent/thread": "prove bank thread 2 shop 2", "alone/history": "export shop", "alone/thread": "prove shop event 2 0"})
    for name in ("shop", "bank"):
        loom.put("line", loom.run("line", name).out)
        loom.expect(["keep", "line", "--by", "by mail"], 0)
    for name in ("history", "thread"):
        loom.expect(f"judge sent/{name}", 0, f"sent/{name}: shown")
    loom.expect("judge sent/history sent/thread", 11, "TWO LINES")
    for _ in range(2):
        loom.expect("judge --many sent --workers 1", 11, "2 files CONTRADICT EACH OTHER")
        if [row[2] for row in verdicts(loom, "sent.verdicts.tsv").values()] != ["11", "11"]:
            raise Wrong(f"  {loom.read('sent.verdicts.tsv')}")
    loom.expect("judge --many alone --workers 1", 0, "2 files: 2 shown")


def evidence_beside(room):
    """evidence that tells another line of a receiver than the reader keeps, or of whom it accuses a third one, isn't called shown, by name and in a table; it is
    beside each of the two lines that it shows"""
    loom = Loom(room)
    for folder, name in (("shop", "shop"), ("anew", "shop"), ("bank", "bank"), ("port", "port")):
        loom.service(name, *([[folder.encode()]] if name == "shop" else []), folder=folder)
    for receiver, folder in (("bank", "shop"), ("port", "anew")):
        loom.put("message", loom.timeweave("thread", folder, "0"))
        loom.timeweave("receive", receiver, "message")
        loom.append(receiver, b"more")
        loom.put(receiver[0], loom.timeweave("prove", receiver, "thread", "1", "shop", "1"))
    loom.put("sent/evidence", loom.timeweave("accuse", "b", "p"))
    tops = "".join(loom.run("line", name).out for name in ("bank", "port"))
    lines = [loom.run("line", name).out for name in ("shop", "anew")]
    for more in ("", *lines):
        loom.put("held", (tops + more).encode())
        loom.expect("judge sent/evidence --kept held", 0, "sent/evidence: shown")
    for name in ("bank 1", "port 1", "shop 1"):
        loom.put("held", f"{tops}{name} {OTHER}\n".encode())
        told = f"TWO LINES: the line of step 1 of {name.split()[0]} that you kept"
        loom.expect("judge sent/evidence --kept held", 11, "sent/evidence: not shown", told)
        loom.expect("judge --many sent --workers 1 --kept held", 11, "1 not shown")
        loom.put("held", f"{tops}{name} {OTHER} 2026-01-01T00:00:00Z signed by ED25519 SHA256:{'x' * 43}\n".encode())
        loom.put("signers", "")
        loom.expect("judge sent/evidence --kept held", 10, "sent/evidence: not judged", "A LINE THAT DOESN'T COUNT IS ANOTHER ONE", absent=(": shown",))
        loom.expect("judge --many sent --workers 1 --kept held", 10, "1 not judged")


def passed_on_the_way(room):
    """a file whose path passes a step of which another line is kept isn't called shown, though it opens another step: a proof of an event, a link, a thread and an
    absence, by name and in a table; nor is it judged where that line doesn't count"""
    loom = Loom(room)
    loom.service("shop", [b"one"], [b"two"], folder="old")
    loom.service("shop", [b"one"], [b"anew"], [b"three"], folder="anew")
    loom.service("bank", [b"b"])
    loom.put("message", loom.timeweave("thread", "bank", "0"))
    loom.timeweave("receive", "anew", "message")
    for number in range(5):
        loom.append("anew", b"%d" % number)
    last = loom.append("anew", b"last")
    passed = {"event 1 0": 8, "link 1": 2, "thread 5 bank 1": 6, "absent 4 mill 1": 8}
    for words in passed:
        loom.put("sent/proof", loom.timeweave("prove", "anew", *words.split(), "10"))
        loom.put("held", last)
        loom.expect("judge sent/proof --kept held", 0, "shown")
        for more, status, told in (("", 11, "TWO LINES: the line of step"), (f" 2026-01-01T00:00:00Z signed by ED25519 SHA256:{'x' * 43}", 10, "not judged")):
            loom.put("signers", "")
            loom.put("held", f"{last}shop {passed[words]} {OTHER}{more}\n")
            loom.expect("judge sent/proof --kept held", status, told, absent=(": shown",))
            loom.expect("judge --many sent --workers 1 --kept held", status)


def read_once(room):
    """what is changed while it is judged has the digest of what was judged, so the next run judges it anew"""
    loom = two_services(room)
    good, forged = loom.read("bread3"), forged_of(loom, "bread3")
    path = loom.put("many/proof", good)

    def patch():
        from weft import formats

        real = formats.read_file

        def read(*words, **more):
            data = real(*words, **more)
            put_as_before(path, forged)
            return data

        formats.read_file = read

    loom.expect("judge --many many --workers 1 --table t", 0, patch=patch)
    if verdicts(loom, "t")["proof"][0] != json.loads(loom.expect("judge bread3 --json", 0).out)["sha256"][0]:
        raise Wrong("  the digest isn't that of the bytes that were judged")
    loom.expect("judge --many many --workers 1 --table t", 1, "1 not shown", absent=("taken over",))


def hidden(room):
    """the worst of what was found ends weft judge and weft tell, whatever stands in front of it or behind it"""
    loom = two_services(room)
    loom.put("forged", forged_of(loom, "bread3"))
    loom.put("message", loom.timeweave("thread", "bank", "0"))
    loom.put("junk", b"Dear Sir\n")
    for bad, status in (("forged", 21), ("message", 9), ("nowhere", 3)):
        loom.expect(f"judge --reference bread3 {bad}", status)
        loom.expect(f"judge --reference {bad} bread3", status, "bread3: shown")
    loom.expect("judge forged bread3", 1, "bread3: shown")
    loom.put("lines", "".join(line for line in loom.read("kept").decode().splitlines(True)) + f"maker 1 {OTHER}\n")
    for bad in ("junk", "nowhere", "forged", "message", "low"):
        for words in (f"{bad} link", f"link {bad}"):
            loom.expect(f"judge {words} --kept lines", 11, "TWO LINES", "link: not shown")
    for words in ("junk nowhere", "nowhere junk"):
        loom.expect(f"tell {words}", 9)


def made_anew(room):
    """a history that was made anew isn't shown, though its last line is held; a true one is shown as far as a kept line binds it"""
    loom = Loom(room)
    loom.service("registry", [b"a"], [b"b"], [b"c"])
    loom.put("letter", loom.run("line", "registry").out)
    loom.service("registry", [b"a"], [b"x"], [b"c"], [b"d"], folder="anew")
    loom.put("fresh", loom.run("line", "anew").out)
    loom.append("registry", b"d")
    loom.put("true.history", loom.timeweave("export", "registry"))
    loom.put("anew.history", loom.timeweave("export", "anew"))
    loom.expect(["keep", "letter", "--by", "letter from the notary"], 0)
    loom.expect(
        "judge true.history", 12, "true.history: shown in part", "keeps the rules, up to step 3", "of step 4, the file's word alone", "letter from the notary",
        "--top 3", "neither registry nor whoever sent", "shows nothing about the time before", absent=("ask registry",),
    )  # fmt: skip
    loom.expect("judge true.history --top 3", 0, "true.history: shown", "up to step 3", "letter from the notary", absent=("shown in part",))
    loom.expect("judge true.history --top 2", 0, "true.history: shown")
    loom.expect("judge true.history --top 4", 12, "shown in part")
    loom.expect("judge true.history --top 5", 2, "last step is 4")
    loom.expect("judge true.history --top 3 --reference", 20, "judged by: Python reference")
    loom.expect("judge anew.history", 11, "anew.history: not shown", "TWO LINES: the line of step 3", "letter from the notary")
    loom.expect(["keep", "fresh", "--by", "letter from the keeper"], 0)
    for words in ("judge anew.history", "judge anew.history --top 1", "judge anew.history --reference"):
        loom.expect(
            words, 11, "anew.history: not shown", "TWO LINES: the line of step 3 of registry", "letter from the notary", "Of this history is the line of step 4",
            "letter from the keeper", absent=(": shown",),
        )  # fmt: skip
    loom.put("two/anew", loom.read("anew.history"))
    loom.put("two/junk", b"x")
    loom.expect("judge --many two --workers 1", 11, "1 not shown", "TWO LINES: 1 file contradicts")
    loom.expect("judge true.history", 11, "true.history: not shown", "TWO LINES: the line of step 4 of registry", "letter from the keeper")
    found = json.loads(loom.expect("judge anew.history --json", 11).out)
    if found["shown"] is not False or found["contradicts"][0]["step"] != 3 or found["bound"] != 0 or "TWO LINES" not in found["says"][0]:
        raise Wrong(f"  {found}")
    loom.expect("judge true.history --kept nothing", 3)
    loom.put("nothing", b"")
    loom.expect("judge true.history --kept nothing", 12, "true.history: not judged", "You hold none of registry")
    loom.put("zero", f"registry 0 {OTHER}\n{loom.read('letter').decode()}")
    loom.expect("judge true.history --top 3 --kept zero", 0, "true.history: shown", absent=("TWO LINES",))  # (step 0 follows from the name)


def judges_of_histories_differ(room):
    """where the program finds another authenticator in a history than the reference, nothing is judged"""
    loom = two_services(room)

    def liar():
        from weft import judges

        judges.ProgramJudge.audit = lambda *_: judges.Verdict(1, f"unheld bank 3 {OTHER} {OTHER}\n")

    loom.expect("judge bank.history", 13, "two judges differ", "report it", patch=liar)


def whose_lines(room):
    """a file of the sender that is named as an option makes his lines the reader's nowhere unsaid; behind -- it is a file"""
    loom = two_services(room)
    loom.service("maker", [b"bribe"], folder="sender")
    loom.put("bribed", loom.timeweave("prove", "sender", "event", "1", "0"))
    loom.put("none", b"")  # (the sender holds no line of the reader's)
    loom.put(".lines", loom.run("line", "sender", WEFT_KEPT=loom.folder / "none").out)
    loom.put("--kept=.lines", b"")
    loom.expect("judge --kept=.lines bribed", 0, "Under the lines of .lines (--kept), and not under those of your own file:")
    loom.expect("judge --kept=.lines --many sender", 9, "Under the lines of .lines (--kept)")
    loom.expect("judge -- --kept=.lines bribed", 9, "bribed: not judged", "--kept=.lines is empty", absent=("Under the lines",))
    loom.put("-x", loom.read("bread3"))
    loom.expect("judge -- -x", 0, "-x: shown")
    loom.expect("judge -x", 2)
    if json.loads(loom.expect("judge --kept .lines bribed --json", 0).out)["kept"] != [".lines"]:
        raise Wrong("  JSON doesn't tell the file of kept lines")


def carried_lines(room):
    """a carried line that contradicts a kept one is told as two lines, with --carried and without; one that is the kept one binds its hop, so nothing rests on a word"""
    loom = two_services(room)
    true = json.loads(loom.expect("judge link --json", 0).out)["text"].split()[-1]
    loom.put("two", loom.read("kept").decode() + f"maker 1 {OTHER} 2026-01-01T00:00:00Z by letter\n")
    told = ("not shown: a line of yours contradicts the file", "TWO LINES: the line of step 1 of maker that you kept", "in doubt")
    loom.expect("judge loose --kept two", 11, *told, "only the receiver says")
    loom.expect("judge loose --carried --kept two", 11, *told)
    loom.put("two", loom.read("kept").decode() + f"maker 1 {true} 2026-01-01T00:00:00Z by letter\n")
    for words in ("judge loose --kept two", "judge loose --carried --kept two"):
        loom.expect(words, 0, "loose: shown\n", "one history", "Every hop is bound", "maker, step 1, ", absent=("CARRIED", "word alone", "by link"))
    found = json.loads(loom.expect("judge loose --kept two --json", 0).out)
    if found["shown"] is not True or [it["service"] for it in found["lines"]] != ["bank", "maker"]:
        raise Wrong(f"  {found}")


def wrong_file(room):
    """a proof beside a wrong file isn't called shown: what was recorded is another file"""
    loom = Loom(room)
    loom.put("src/deed", b"true")
    loom.put("deed", b"false")
    loom.put("copy", b"true")
    loom.expect("log src log data", 0)
    loom.expect(["keep", "log.anchor", "--by", "own"], 0)
    loom.expect("prove log deed", 0)
    loom.expect("judge deed.proof --file src/deed", 0, "deed.proof: shown", "is that file")
    loom.expect("judge deed.proof --file deed", 1, "deed.proof: not shown: recorded, but not this file", "another file", absent=(": shown",))
    loom.expect("judge deed.proof --file deed --reference", 21, "not shown: recorded, but not this file")
    loom.expect("judge deed.proof --file copy", 10, "deed.proof: shown", "under the name deed")
    found = json.loads(loom.expect("judge deed.proof --file deed --json", 1).out)
    if found["shown"] is not False or found["headline"] != "not shown: recorded, but not this file" or found["status"] != 1:
        raise Wrong(f"  {found}")


def json_says_the_same(room):
    """with --json each file has a line, what can't be judged too, and its facts are those of the sentences"""
    loom = two_services(room)
    loom.put("forged", forged_of(loom, "bread3"))
    loom.put("junk", b"Dear Sir\n")
    loom.put("empty", b"")
    wanted = {"bread3": ("shown", True, 0), "forged": ("not shown", False, 1), "junk": ("not judged", False, 9), "loose": ("shown in part: on somebody's word", False, 1)}
    told = [json.loads(line) for line in loom.expect(["judge", *wanted, "nowhere", "--json"], 1).out.splitlines()]
    found = {it["files"][0]: (it["headline"], it["shown"], it["status"]) for it in told}
    if found != {**wanted, "nowhere": ("not judged", False, 3)}:
        raise Wrong(f"  {found}")
    chain = json.loads(loom.expect("judge chain --kept empty --json", 12).out)
    if chain["headline"] != "not judged" or [it["service"] for it in chain["missing"]] != ["bank", "maker"]:
        raise Wrong(f"  {chain}")


def cut_short(room):
    """a history whose last steps were cut off is told as one that ends before a line that is held"""
    loom = Loom(room)
    loom.service("maker", [b"bread"], [b"milk"])
    loom.put("cut", loom.timeweave("export", "maker"))
    loom.put("kept", loom.run("line", "maker").out)
    done = loom.expect("judge cut", 0, "cut: shown", absent=("was cut",))
    loom.append("maker", b"fraud")
    loom.put("kept", loom.read("kept") + loom.run("line", "maker").out.encode())
    told = "You hold a line of step 3 of maker, and this file ends at step 2"
    loom.expect("judge cut", 10, "cut: shown", told, "was cut")
    if json.loads(loom.expect("judge cut --json", 10).out)["beyond"] != 3:
        raise Wrong(f"  {done}")
    loom.put("kept", loom.run("line", "maker").out)
    loom.expect("judge cut", 12, "cut: not judged", told)


def one_service(room):
    """A service, its line, which is kept, and a proof under it."""
    loom = Loom(room)
    loom.service("maker", [b"bread"])
    loom.put("kept", loom.run("line", "maker").out)
    loom.put("bread3", loom.timeweave("prove", "maker", "event", "1", "0"))
    return loom


def passed_over(room):
    """of a folder nothing is passed over in silence: a folder below it that can't be read, and a link to one, have a row each, and count"""
    loom = one_service(room)
    loom.put("many/proof", loom.read("bread3"))
    loom.put("many/closed/forged", forged_of(loom, "bread3"))

    def patch():
        real = os.scandir

        def scan(path="."):
            if str(path).endswith("closed"):
                raise PermissionError(13, "Permission denied", path)
            return real(path)

        os.scandir = scan

    loom.expect("judge --many many --workers 1", 3, "2 files: ", "1 shown", "1 not judged", patch=patch)
    if "closed" not in verdicts(loom, "many.verdicts.tsv"):
        raise Wrong(f"  {loom.read('many.verdicts.tsv')}")
    loom.put("elsewhere/forged", forged_of(loom, "bread3"))
    (loom.folder / "many/linked").symlink_to(loom.folder / "elsewhere")
    loom.expect("judge --many many --workers 1", 1, "3 files: ", "1 shown", "1 not shown", "1 not judged")


def without_a_home(room):
    """a user of whose own folder the system tells nothing is told so, and what to name"""
    loom = one_service(room)

    def patch():
        from pathlib import Path

        def none():
            raise RuntimeError("Could not determine home directory.")

        Path.home = none

    loom.expect("judge bread3", 5, "tells no folder of this user's own", "HOME", patch=patch, WEFT_KEPT=None)
    loom.expect("judge bread3 --kept kept", 0, "shown", patch=patch, WEFT_KEPT=None)


def speaking_names(room):
    """a file's name that could be read as what weft says of it stands in quotes"""
    loom = one_service(room)
    for name in ("paid: shown", "paid: shown" + " " * 70 + "It rests on", "paid. Accepted", 'paid" is shown'):
        loom.put(name, forged_of(loom, "bread3"))
        for word, status in (("judge", 1), ("tell", 0)):
            done = loom.expect([word, "--", name], status)
            if not done.out.startswith('"paid') or " " * 3 in done.out.splitlines()[0]:
                raise Wrong(f"  {done.out}")
    loom.put("my proof", loom.read("bread3"))
    loom.expect(["judge", "my proof"], 0, '"my proof": shown')


def received_amid(room):
    """A shop and a bank that received its step 2, the last lines of both, which are kept, and a chain under these; in `more` another line of that step, too."""
    loom = Loom(room)
    for name, file in (("shop", "sold"), ("shop", "next"), ("bank", "open")):
        loom.put(f"{name}.files/{file}", file)
        loom.expect(["log", f"{name}.files", name, *[name] * (file != "next")], 0)
    loom.put("message", loom.timeweave("thread", "shop", "0"))
    loom.timeweave("receive", "bank", "message")
    for name, file in (("bank", "paid"), ("shop", "later")):
        loom.put(f"{name}.files/{file}", file)
        loom.expect(f"log {name}.files {name}", 0)
        loom.expect(["keep", f"{name}.anchor", "--by", "by mail"], 0)
    loom.put("more", loom.read("kept") + f"shop 2 {OTHER} 2026-01-01T00:00:00Z by letter\n".encode())
    loom.make({
        "paid": "prove bank event 3 0", "thread": "prove bank thread 2 shop 2", "link": "prove shop link 2", "sold": "prove shop event 1 0 2",
        "good": "join paid thread link sold",
    })  # fmt: skip
    return loom


def held_against_nothing(room):
    """where what a proof is to be held against can't be read, or is of another kind, shown isn't said first: neither in words, in JSON nor as a picture"""
    loom = two_services(room)
    (loom.folder / "folder").mkdir()
    os.mkfifo(loom.folder / "pipe")
    loom.put("junk", b"no history")
    asked = [(f"bread3 --{option} {name}", 3) for option in ("file", "audit") for name in ("nothing", "folder", "pipe")]
    asked += [("thread --file junk", 2), ("link --file junk", 2), ("bread3 --audit junk", 9), ("bank.history --audit bank.history", 2)]
    for words, status in asked:
        name = words.split()[0]
        loom.expect(f"judge {words} --svg picture", status, f"{name}: not judged\n", "What was found without that:", absent=(": shown",))
        found = json.loads(loom.expect(f"judge {words} --json", status).out)
        if found["shown"] is not False or found["headline"] != "not judged" or found["status"] != status or (loom.folder / "picture").exists():
            raise Wrong(f"  {words}: {found}")
    loom.expect("judge chain --file junk", 1, "recorded, but as no file", 'Neither event is an entry of a log of files: "bread"; "paid".')
    loom.put("true.history", loom.timeweave("export", "maker"))
    loom.put("two", loom.read("kept") + f"maker 2 {OTHER}\n".encode())
    for words in ("--audit true.history --audit nothing", "--audit nothing --audit true.history"):
        loom.expect(f"judge bread3 --kept two {words}", 11, "bread3: not shown", "TWO LINES", "no file nothing", absent=(": shown",))


def audited_once(room):
    """a history that is swapped while it is audited is held against the kept lines by the bytes that were audited"""
    loom = two_services(room)
    loom.put("sent.history", loom.timeweave("export", "maker"))
    loom.put("two", loom.read("kept") + f"maker 2 {OTHER}\n".encode())

    def swap(data):
        def patch():
            from weft import judges

            audit = judges.ProgramJudge.audit

            def swapped(*given):
                loom.put("sent.history", data)
                return audit(*given)

            judges.ProgramJudge.audit = swapped

        return patch

    for data in (b"nothing", loom.read("bank.history")):
        before = loom.read("sent.history")
        loom.expect("judge bread3 --kept two --audit sent.history", 11, "bread3: not shown", "TWO LINES: the line of step 2 of maker", patch=swap(data))
        loom.put("sent.history", before)

    def count():
        from weft import files

        read, seen = files.read, []

        def once(path, *given, **more):
            if str(path).endswith(".history") and path in seen:
                raise AssertionError(f"{path} was read twice")
            seen.append(path)
            return read(path, *given, **more)

        files.read = once

    loom.expect("judge bread3 --audit sent.history", 0, "bread3: shown", patch=count)
    loom.expect("judge bread3 --audit sent.history --reference", 20, "bread3: shown", patch=count)


def either_file(room):
    """of a proof that one event precedes another the file of each event is that one, and a file of neither is neither"""
    loom = received_amid(room)
    loom.expect("judge good --file bank.files/paid", 0, "good: shown", "paid is the file that was logged as the later event, by its digest and name", absent=("another file",))
    loom.expect("judge good --file shop.files/sold", 0, "good: shown", "as the earlier event, by its digest and name")
    loom.put("copy", loom.read("bank.files/paid"))
    loom.expect("judge good --file copy", 10, "good: shown", "has the digest that was logged as the later event, under the name paid")
    told = "is another file: neither that of the earlier event nor that of the later one"
    loom.expect("judge good --file shop.files/next", 1, "good: not shown: recorded, but not this file", told)


def chain_of_two_lines(room):
    """weft chain says of what it joined what weft judge says: two lines are told with the same words and status, and nothing is written"""
    loom = received_amid(room)
    told = "TWO LINES: the line of step 2 of shop that you kept"
    words = "chain shop:1:0 bank:3:0 --store shop --store bank"
    loom.expect("judge good", 0, "good: shown")
    judged = loom.expect("judge good --kept more", 11, "good: not shown", told)
    joined = loom.expect([*words.split(), "--kept", "more", "--out", "bad", "--svg", "picture"], 11, "isn't written: not shown", absent=(": shown",))
    sentence = next(line for line in judged.out.splitlines() if told in line)
    if sentence not in joined.out.splitlines():
        raise Wrong(f"  {sentence}\n  isn't in\n  {joined.out}")
    for name in ("bad", "picture"):
        if (loom.folder / name).exists():
            raise Wrong(f"  {name} was written")


def named_and_missing(room):
    """a file of kept lines that was named and isn't there, as one whose name was mistyped, ends the run before anything is called shown or good; so does one that WEFT_KEPT
    names from the folder on that is stood in, which may be a sender's"""
    loom = received_amid(room)
    loom.put("ann", f"shop 2 {OTHER} 2026-01-01T00:00:00Z by letter\n")
    if json.loads(loom.expect("check shop --json", 10, WEFT_KEPT=loom.folder / "anm").out)["status"] != 10:
        raise Wrong("  JSON tells another status")
    chain = "chain shop:1:0 bank:3:0 --store shop --store bank --out c"
    for words, status in (("judge good", 11), ("check shop", 17), (chain, 11)):
        loom.expect(f"{words} --kept ann --kept kept", status, absent=(": shown",))
        for kept in ("--kept anm --kept kept", "--kept kept --kept anm"):
            loom.expect(f"{words} {kept}", 3, "there is no file anm", absent=(": shown", " good"))
        loom.expect(words, 12 if words == "judge good" else 10, "/anm, which WEFT_KEPT names", WEFT_KEPT=loom.folder / "anm")
        loom.expect(words, 2, "WEFT_KEPT names kept from this folder on", absent=("shown", "good"), WEFT_KEPT="kept")
        loom.expect(words, 0, absent=("(WEFT_KEPT)",))


def unchosen_names(room):
    """what is written under a name that nobody chose writes over no other file: the proof under an older line may be held by somebody"""
    loom = two_services(room)
    loom.put("chain", b"the one under older lines")
    chain = "chain maker:1:0 bank:3:0 --store maker --store bank"
    loom.expect(chain, 7, "chain is there already, and is another one", "Name a file by --out")
    if loom.read("chain") != b"the one under older lines":
        raise Wrong("  chain was written over")
    (loom.folder / "chain").unlink()
    for words in (chain, chain, f"{chain} --out chain"):
        loom.expect(words, 0, "chain: shown")
    needs("ssh-keygen", "openssh-client")
    sign = ["line", "maker", "--sign", loom.key("maker")]
    loom.put("maker-3.line", f"maker 3 {OTHER}\n")
    loom.expect(sign, 7, "maker-3.line is there already, and is another one")
    (loom.folder / "maker-3.line").unlink()
    for _ in range(2):
        loom.expect(sign, 0)


def nothing_to_judge(room):
    """a folder without files, as one that isn't mounted, isn't called judged"""
    loom = one_service(room)
    (loom.folder / "many/below").mkdir(parents=True)
    for words in ("judge --many many", "judge --many many --json"):
        done = loom.expect(words, 16, "many has no files, so nothing was judged", "Is it mounted?")
        said = json.loads(done.out)["status"] if "--json" in words else done.out
        if said not in (16, "") or (loom.folder / "many.verdicts.tsv").exists():
            raise Wrong(f"  {done}")


def cases():
    works = (
        swapped, believed, each_reader, history_beside, evidence_beside, read_once, hidden, made_anew, judges_of_histories_differ, whose_lines, carried_lines, wrong_file, json_says_the_same, cut_short,
        passed_over, without_a_home, speaking_names, held_against_nothing, audited_once, either_file, chain_of_two_lines, passed_on_the_way, named_and_missing, unchosen_names, nothing_to_judge,
    )  # fmt: skip
    return [case(work, "weft judge misled") for work in works]
