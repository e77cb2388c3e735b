"""Acceptance cases of what misleads a reader: histories that tell others' lines, letters with headings, names that are commands, words that are passed over."""

import hashlib
import os
import subprocess
import sys

from cases.weft_judging import two_services
from cases.weft_liars import SHOP, of_trees
from cases.weft_misled import verdicts
from cases.weft_stamps import Stamped
from harness.places import TOP
from harness.rooms import Wrong, case, needs
from harness.weft_room import Loom
from keepers import tree_of
from timeweave_reference.archives import EMPTY, Entry

from weft.deciding.bundles import write_bundle

OTHER = "f" * 64


def keep_lines(loom, *folders, by="by mail"):
    """Keeps the last lines of services."""
    loom.put("last", "".join(loom.run("line", folder).out for folder in folders))
    loom.expect(["keep", "last", "--by", by], 0)


def received_in_histories(room):
    """a history that received another line of a service than the reader keeps, or than a file beside it tells, isn't called shown, and neither is what is audited by it"""
    loom = Loom(room)
    loom.service("maker", [b"bread"], [b"more"])
    loom.service("maker", [b"bribe"], [b"more"], folder="anew")
    for name, source in (("bank", "anew"), ("port", "maker")):
        loom.service(name, [b"open"])
        loom.put("message", loom.timeweave("thread", source, "0"))
        loom.timeweave("receive", name, "message")
        loom.append(name, b"paid")
    loom.make({"many/bank": "export bank", "many/port": "export port", "paid": "prove bank event 3 0", "event": "prove maker event 2 0"})
    keep_lines(loom, "bank", "port")
    for words, status in (("judge many/bank", 0), ("judge many/bank --reference", 20), ("judge paid --audit many/bank", 0)):
        loom.expect(words, status, ": shown", absent=("TWO LINES",))
    loom.expect("judge many/bank many/port", 11, "many/bank: shown", "TWO LINES: many/bank tells", "of step 2 of maker")
    loom.expect("judge --many many --workers 1", 11, "2 shown", "2 files CONTRADICT EACH OTHER")
    keep_lines(loom, "maker")
    for words in ("judge many/bank", "judge many/bank --reference", "judge many/bank --top 2"):
        loom.expect(words, 11, "many/bank: not shown: a line of yours contradicts the file", "TWO LINES: the line of step 2 of maker", absent=("keeps the rules",))
    loom.expect("judge many/bank --top 1", 11)
    loom.expect("judge many/port", 0, "many/port: shown", "That is the line of step 2 of maker that you kept: one history.")
    loom.expect("judge paid --audit many/bank", 11, "paid: not shown", "TWO LINES: the line of step 2 of maker")
    loom.expect("judge many/port event", 0)
    loom.expect("judge --many many --workers 1", 11, "1 not shown, 1 shown")
    if [row[2] for row in verdicts(loom, "many.verdicts.tsv").values()] != ["11", "11"]:
        raise Wrong(f"  {loom.read('many.verdicts.tsv')}")
    held = "".join(line for line in loom.read("kept").decode().splitlines(True) if not line.startswith("maker"))
    loom.put("held", held)
    loom.put("maker.history", loom.timeweave("export", "maker"))
    for words in ("--audit many/bank --audit maker.history", "--audit maker.history --audit many/bank", "--audit many/bank --audit many/port"):
        loom.expect(f"judge paid --kept held {words}", 11, "TWO LINES: many/bank tells", "of step 2 of maker")
    loom.expect("judge paid --kept held --audit many/bank", 0, absent=("TWO LINES",))
    text, key = loom.read("kept").decode(), "ED25519 SHA256:" + "A" * 43
    loom.put("kept", "".join(f"{line.removesuffix('by mail')}signed by {key}\n" if line.startswith("maker") else f"{line}\n" for line in text.splitlines()))
    loom.put("signers", b"")
    for words in ("judge many/bank", "judge paid --audit many/bank"):
        loom.expect(words, 10, ": not judged", "A LINE THAT DOESN'T COUNT IS ANOTHER ONE")


def histories_in_part(room):
    """a history that is shown in part is held against kept lines and other files up to the step that is bound, and no further"""
    loom = Loom(room)
    loom.service("maker", [b"bread"])
    loom.service("maker", [b"bribe"], folder="anew")
    firsts = ""
    for name, source in (("bank", "anew"), ("port", "maker")):
        loom.service(name, [b"open"])
        firsts += loom.run("line", name).out
        loom.put("message", loom.timeweave("thread", source, "0"))
        loom.timeweave("receive", name, "message")
    keep_lines(loom, "bank", "port")
    loom.append("bank", b"later")
    loom.make({"both/bank": "export bank", "both/port": "export port"})
    loom.expect("judge both/bank both/port", 11, "both/bank: shown in part", "both/port: shown", "TWO LINES: both/bank tells", "of step 1 of maker")
    loom.expect("judge --many both --workers 1", 11, "1 shown in part", "2 files CONTRADICT EACH OTHER")
    loom.put("his", loom.read("kept").decode() + loom.run("line", "maker").out)
    loom.expect("judge both/bank --kept his", 11, "both/bank: not shown: ")
    loom.put("his", firsts + loom.run("line", "maker").out)
    for words in ("both/bank", "both/bank both/port"):
        loom.expect(f"judge {words} --kept his", 12, "both/bank: shown in part", "up to step 1", absent=("TWO LINES",))
    loom.expect("judge --many both --kept his --workers 1", 12, "2 shown in part", absent=("CONTRADICT",))


def headings(room):
    """a line below a heading that calls it forged isn't kept before somebody has read that, whatever ends the heading, and one beside a line that was taken out is"""
    loom, line = Loom(room), f"maker 7 {OTHER}"
    for text in ("# Forged in our name:\n", "# Forged:\x0c", "# Forged\u2028", f"# {line} is forged, and so is\n", "#\n#1\n"):
        loom.put("letter", f"{text}{line}\n")
        loom.expect("keep letter --by mail", 10, "Other words stand beside the line of step 7 of maker", "Nothing was kept")
    if loom.read("kept"):
        raise Wrong(f"  {loom.read('kept')}")
    loom.put("letter", f"# maker 6 {OTHER}\n## maker 6 {OTHER} 2026-11-29T09:40:00Z by mail\n{line}\n")
    loom.expect("keep letter --by mail", 0, "The line of step 7 of maker is kept", absent=("step 6",))


def typed_names(room):
    """in no command that is told to be typed does a shell run anything by a file's name, or a program take one for an option, on a terminal or in a report"""
    loom = two_services(room)
    for name, typed in (("$(touch pwned)", "'$(touch pwned)'"), ("`id`", "'`id`'"), ("--kept=x", "./--kept=x"), ("it's", "FILE"), ("deed.pdf", "deed.pdf")):
        loom.put(name, "a document")
        loom.expect(["judge", "--", name], 9, "not judged", f"Then: weft judge PROOF --file {typed}")
        loom.put(name, f"maker 3 {OTHER}\n")
        loom.expect(["judge", "--", name], 9, f"no proof: weft keep {typed}.")
        loom.put(name, loom.read("bread3"))
        loom.expect(["keep", "--by", "mail", "--", name], 9, f"no line: weft judge {typed}.")
    loom.put("--kept=evil", loom.read("bank.history"))
    loom.expect("judge --report report -- --kept=evil", 0)
    report = loom.read("report").decode()
    if "sha256sum ./--kept=evil" not in report or "--kept LINES ./--kept=evil" not in report or " --kept=evil" in report:
        raise Wrong(f"  {report}")
    loom.put("files/--kept=x", "a")
    loom.expect("log files log log", 0)
    loom.put("his", loom.run("line", "log").out)
    loom.expect(["prove", "--for", "his", "--out", "./-p", "log", "--", "--kept=x"], 0, "He judges it by: weft judge ./-p --file ./--kept=x")


def carried_beside(room):
    """a proof that carries a line is held against the file and the histories that are named, without --carried too: another file than the recorded one isn't shown in part"""
    loom = two_services(room)
    for name, data in (("deed", b"bread"), ("forged", b"bribe")):
        loom.put(name, data)
    for more, status, unread in (("", 1, 1), (" --carried", 0, 3)):
        loom.expect(f"judge loose{more} --file deed", status, "loose: shown in part", "deed is the file that was logged as the earlier event")
        loom.expect(f"judge loose{more} --file forged", 1, "loose: not shown: ", absent=("shown in part",))
        loom.expect(f"judge loose{more} --file nothing", unread, "loose: not judged", "there is no file nothing")
        loom.expect(f"judge loose{more} --audit nothing", unread, "loose: not judged", "there is no file nothing")
        loom.expect(f"judge loose{more} --audit bank.history", 1, "loose: not shown", "NOT SO: it hangs on step 1 of maker")


def named_from_here(room):
    """no key of a file of signers that a variable names from the current folder on counts, nor does what stands in a user's folder that is named so"""
    loom = two_services(room)
    key = loom.key("evil")
    loom.put("sent/line", f"maker 7 {OTHER}\n")
    loom.put("sent/signers", b"maker " + loom.read(f"{key}.pub"))
    subprocess.run(["ssh-keygen", "-Y", "sign", "-q", "-n", "timeweave-line", "-f", loom.folder / key, loom.folder / "sent/line"], check=True)
    loom.expect("keep sent/line", 2, "WEFT_SIGNERS names sent/signers from this folder on", absent=("is kept",), WEFT_SIGNERS="sent/signers")
    loom.expect("keep sent/line", 0, "is kept", WEFT_SIGNERS=loom.folder / "sent/signers")
    loom.put("sent/.local/share/weft/kept", loom.read("kept"))
    for name in ("sent", "."):
        loom.expect("judge bread3", 5, "from this folder on, which may be that of whoever sent it", absent=("shown",), HOME=name, WEFT_KEPT=None)


def programs_from_here(room):
    """no program or library that a variable names from the current folder on is run or loaded, by weft or by the module for Python: somebody may have sent it"""
    loom = two_services(room)
    ran = loom.folder / "ran"
    for path in ("sent/bin/timeweave", "sent/bin/ssh-keygen"):
        loom.put(path, f"#!/bin/sh\ntouch {ran}\n").chmod(0o755)
    loom.put("sent/code.c", f'#include <fcntl.h>\n__attribute__((constructor)) static void run(void) {{ open("{ran}", O_CREAT | O_WRONLY, 0600); }}\n')
    subprocess.run([needs("cc", "gcc"), "-shared", "-fPIC", "-o", loom.folder / "sent/code.so", loom.folder / "sent/code.c"], check=True)
    for named in ("sent/bin/timeweave", "./sent/bin/timeweave"):
        loom.expect("judge bread3", 2, "TIMEWEAVE_PROGRAM names", "from this folder on", TIMEWEAVE_PROGRAM=named)
    loom.expect("judge bread3", 0, TIMEWEAVE_LIBRARY="sent/code.so")
    loom.expect("--version", 0, "library: none can be loaded: ", "from the current folder on", TIMEWEAVE_LIBRARY="sent/code.so")
    words = [sys.executable, "-c", "import timeweave; timeweave.library()"]
    for named, status in (("sent/code.so", 1), (str(loom.folder / "sent/code.so"), 1)):
        if ran.exists():
            raise Wrong(f"  what somebody sent was run, before {named}")
        done = subprocess.run(words, cwd=loom.folder, env={**loom.env, "PYTHONPATH": str(TOP / "bindings/python"), "TIMEWEAVE_LIBRARY": named}, capture_output=True, check=False)
        if done.returncode != status:
            raise Wrong(f"  {done}")
    if not ran.exists():
        raise Wrong("  the library of this case does nothing")


def written_over(room):
    """nothing that a judgement read is written over by what is handed out, nor is a key; a picture that an earlier run drew isn't taken for that of this one, and no
    word that is named twice is passed over"""
    loom = two_services(room)
    key = loom.key("mine")
    loom.put("deed", b"bread")
    loom.put("many/proof", loom.read("bread3"))
    public = f"{key}.pub"
    written = ("judge bread3 --report kept", "judge bread3 --svg bread3", "judge bread3 --file deed --report deed", "judge --many many --table kept", "line maker --letter kept")
    for words in (*written, f"line maker --out {key}", f"judge bread3 --svg {key}", f"line maker --out {public}", f"line maker --sign {key} --out {public}"):
        path = words.split()[-1]
        before = loom.read(path)
        loom.expect(words, 2, path, "isn't written over")
        if loom.read(path) != before:
            raise Wrong(f"  {words}")
    loom.put("forged", loom.read("bread3").replace(b"bread", b"bribe"))
    loom.expect("judge forged --svg picture", 1, "no picture was drawn, since nothing is shown.")
    loom.expect("judge bread3 --svg picture", 0, absent=("no picture",))
    loom.expect("judge forged --svg picture", 1, "no picture was drawn", "picture, which is there, is of something else")
    loom.expect("judge bread3 --svg nowhere/picture", 5, "bread3: shown", "can't be written", absent=("not judged",))
    for words in ("bread3 --file other --file deed", "bread3 --svg a --svg b", "bank.history --top 9 --top 1", "--many many --many other"):
        loom.expect(f"judge {words}", 2, "is named twice")


def written_beside(room):
    """what comes beside a named file, under a name that nobody typed, is written over nothing but what came there so before; no file comes in the place of a link of the
    system's, or of one that leads to a pipe or a device"""
    loom = two_services(room)
    keys = loom.key("mine"), loom.key("next")
    for end, words in ((".sig", f"--sign {keys[0]} --out"), (".key", f"--sign {keys[0]} --introduce {keys[1]}.pub --out"), (".svg", "--letter")):
        for named in (None, "a thesis"):
            (loom.folder / "thesis").unlink(missing_ok=True)
            if named:
                loom.put("thesis", named)
            loom.put(f"thesis{end}", "mine")
            loom.expect(f"line maker {words} thesis", 7, f"thesis{end} is there already")
            if loom.read(f"thesis{end}") != b"mine" or (named and loom.read("thesis") != named.encode()):
                raise Wrong(f"  {end} was written over")
        (loom.folder / f"thesis{end}").unlink()
    for _ in range(2):
        loom.expect(f"line maker --sign {keys[0]} --out handed", 0)
        loom.expect("line maker --letter letter", 0)
    os.mkfifo(loom.folder / "pipe")
    for name, to in (("streams", "pipe"), ("device", "/dev/null")):
        (loom.folder / name).symlink_to(to)
        loom.expect(f"line maker --out {name}", 2, "isn't written over")
        if not (loom.folder / name).is_symlink():
            raise Wrong(f"  {name} was replaced")


def proofs_beside(room):
    """proofs whose names nobody typed come in the place of proofs alone"""
    loom = Loom(room)
    loom.expect("record reg --name reg --event one", 0)
    digest = hashlib.sha256(b"one").hexdigest()
    loom.put("list", digest)
    for words in ("find reg --text one --proofs proofs", "prove reg list --many --out many"):
        folder = loom.folder / words.split()[-1]
        for _ in range(2):
            loom.expect(words, 0)
        (path,) = folder.iterdir()
        path.write_bytes(b"mine")
        loom.expect(words, 7, "is there already, and is no proof")
        if path.read_bytes() != b"mine":
            raise Wrong(f"  {words}: it was written over")


def digests_and_files(room):
    """where a file is called as a digest, neither is looked for before somebody says which"""
    loom = Loom(room)
    loom.put("deed", b"x" * 2_000)
    digest = hashlib.sha256(b"x" * 2_000).hexdigest()
    loom.expect("record reg deed --name reg", 0)
    loom.expect(f"find reg {digest}", 0, "step 1 of reg")
    loom.put(digest, b"another")
    loom.expect(f"find reg {digest}", 2, "is a digest, and there is a file of that name too")
    loom.expect(f"find reg ./{digest}", 7, "isn't among what was recorded")


def long_names(room):
    """two files whose paths differ behind what a table shows of them have rows of two names"""
    loom = two_services(room)
    below = "/".join("\\" * 250 for _ in range(9))
    for name, data in (("good", loom.read("bread3")), ("forged", loom.read("bread3").replace(b"bread", b"bribe"))):
        loom.put(f"many/{below}/{name}", data)
    loom.expect("judge --many many --workers 1", 1, "2 files: 1 not shown, 1 shown")
    if len(verdicts(loom, "many.verdicts.tsv")) != 2:
        raise Wrong("  two rows have one name")


def broken_receivers(room):
    """what a chain tells by the word of a service that other files show to have broken a rule, or to have two histories, accuses nobody else; nor in
    a table of many"""
    loom = Loom(room)
    loom.service("maker", [b"bread"], [b"more"])
    loom.service("maker", [b"bribe"], [b"more"], folder="anew")
    loom.service("bank", [b"open"])
    loom.put("message", loom.timeweave("thread", "anew", "0"))
    loom.timeweave("receive", "bank", "message")
    loom.append("bank", b"paid")
    loom.service("bank", [b"open"], [b"x"], [b"y"], [b"z"], folder="other")
    loom.make({"paid": "prove bank event 3 0", "thread": "prove bank thread 2 maker 2", "bribe": "prove anew event 1 0 2", "absent": "prove other absent 4 maker 2"})
    loom.make({"chain": "join paid thread bribe"})
    keep_lines(loom, "bank", "other")
    loom.expect("judge --carried chain", 0, "chain: shown in part")
    loom.append("maker", b"last")
    loom.make({"true": "prove maker event 2 0"})
    keep_lines(loom, "maker")
    accused = "of step 2 of maker, and"
    loom.expect("judge --carried chain true", 11, "TWO LINES: chain tells", accused)
    loom.expect("judge --carried chain true thread absent", 11, "thread and absent CONTRADICT EACH OTHER", absent=(accused,))
    for names, apart in ((("chain", "true"), ["chain", "true"]), (("chain", "true", "thread", "absent"), ["chain", "thread"])):
        for name in names:
            loom.put(f"many/{name}", loom.read(name))
        loom.expect("judge --many many --carried --table t --workers 1", 11)
        rows = [row.split("\t") for row in loom.read("t").decode().splitlines()[2:]]
        if sorted(row[0] for row in rows if row[5].startswith("CONTRADICTS")) != apart:
            raise Wrong(f"  {rows}")


def uncompared(room):
    """that no document was compared stands in the table of many files, below it and in JSON; a table within the folder that is judged is refused; options stand between the
    other words of a command too"""
    loom = Loom(room)
    loom.put("src/deed", "sold")
    loom.expect("log src log data", 0)
    (loom.folder / "many").mkdir()
    loom.expect("prove log --out many/p deed", 0)
    loom.expect("find log src/deed --proofs found log.anchor", 7, "deed: step 1 of data")
    loom.service("bank", [b"open"])
    loom.put("many/q", loom.timeweave("prove", "bank", "event", "1", "0"))
    keep_lines(loom, "log", "bank")
    loom.expect("judge many/p --json many/q", 0, '"many/p"', '"many/q"')
    loom.expect("judge many/p --nosuch many/q", 2, "unrecognized")
    loom.expect("judge many/p --file src/deed -- many/q", 2, "--file")
    loom.expect("judge --many many --workers 1", 0, "2 files: 2 shown", "1 file: no document compared. weft judge PROOF --file FILE compares one")
    rows = {row.split("\t")[0]: row.split("\t")[5] for row in loom.read("many.verdicts.tsv").decode().splitlines()[2:]}
    if not rows["p"].endswith(" | no document compared") or "document" in rows["q"]:
        raise Wrong(f"  {rows}")
    loom.expect("judge --many many --workers 1 --json", 0, '"no_document_compared": 1')
    for table in ("many/t", "many/below/t", "./many/../many/t"):
        loom.expect(f"judge --many many --workers 1 --table {table}", 2, "would lie in the folder that is judged")
    if {path.name for path in (loom.folder / "many").iterdir()} != {"p", "q"}:
        raise Wrong("  something was written into the folder")


def readers_lines(room):
    """of two lines of one step that a reader holds, or held as a note says, he is to be asked, and not told to choose in his file; what stands behind # in a file of lines is told, and
    a file of such notes alone; of two names of one content both are told where it is proved"""
    loom = Loom(room)
    loom.put("src/a", "x")
    loom.expect("log src log data", 0)
    line = loom.run("line", "log").out.strip()
    note = f"contradiction: data 1 {line.split()[2]} {OTHER} 2026-01-01T00:00:00Z\n"
    for text in (f"{line}\ndata 1 {OTHER}\n", note):
        loom.put("his", text)
        loom.expect("prove log a --for his --out p", 11, "among the reader's lines", "Ask him which of them counts", absent=("--choose FILE",))
    loom.expect("tell his", 0, "1 note of lines that contradicted, and no line", "of step 1 of data there are lines that contradict")
    loom.put("letter", f"# Forged in our name:\n#{line}\n{line}\n" + "# more\n" * 30)
    loom.expect("tell letter", 0, "letter: line, unjudged", 'words behind #: "Forged in our name:"', "and 11 more rows of such words", absent=(f'"{line}"',))
    loom.put("empty", "# only words\n")
    loom.expect("tell empty", 9, "no format")
    loom.put("b", "content")
    loom.put("c", "content")
    loom.expect("record reg b --name reg", 0)
    loom.put("list", "b\nc\n")
    loom.expect("prove reg --many list --out proofs", 0, "b (the same content: c), step 1 of reg", "1 proof,")


def accused_by_stamps(room):
    """bundles under a made-up line of a service, which an authority stamped and nobody signed, accuse that service of nothing, though they contradict each other; under a
    line of the reader's own that is told"""
    loom = Stamped(room)
    tsa = loom.authority("tsa")
    made_up = of_trees("bank", tree_of([SHOP]), EMPTY)
    line = f"bank 2 {made_up.auths[-1].hex()}\n".encode()
    stamp = tsa.stamp(line)
    for name, proof in (("one", made_up.thread(1, 2, SHOP)), ("two", made_up.absence(2, 2, ("shop", 5)))):
        loom.put(f"{name}.zip", write_bundle({"README.txt": b"x", "proof": proof.to_bytes(), "lines": line, "stamped-1": line, "stamp-1": stamp}))
        loom.expect(f"judge {name}.zip", 1, f"{name}.zip: shown in part: on somebody's word", "only the sender says")
        loom.put(name, proof.to_bytes())
    loom.expect("judge one.zip two.zip", 1, absent=("CONTRADICT", "broke its rules"))
    own = Entry("bank", 4, made_up.auths[-1], 1)
    alone = of_trees("bank", tree_of([own]))
    line_alone = f"bank 1 {alone.auths[-1].hex()}\n".encode()
    found = {"README.txt": b"x", "proof": alone.thread(1, 1, own).to_bytes(), "lines": line_alone, "stamped-1": line_alone, "stamp-1": tsa.stamp(line_alone)}
    loom.put("self.zip", write_bundle(found))
    for words in ("self.zip", "self.zip one.zip", "self.zip --json"):
        loom.expect(f"judge {words}", 1, "and against nobody", "only the sender says", absent=("broke its rules", "hoever keeps"))
    loom.put("held", line)
    for words in ("one two", "one.zip two", "one.zip two.zip"):
        loom.expect(f"judge --kept held {words}", 11, "CONTRADICT EACH OTHER")


def cases():
    works = (received_in_histories, histories_in_part, headings, typed_names, carried_beside, named_from_here, programs_from_here, written_over, written_beside, proofs_beside, digests_and_files, long_names, broken_receivers, uncompared, readers_lines, accused_by_stamps)
    return [case(work, "weft judge readers") for work in works]
