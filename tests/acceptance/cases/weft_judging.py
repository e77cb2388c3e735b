"""Acceptance cases of `weft judge` and `weft check`: lines are picked, verdicts are told in sentences with what they rest on, nobody judges in weft itself;
tables of many proofs; pictures; stores checked whole."""

import json
import os
import shlex
import shutil
import signal
import subprocess
import sys
import time

import xml.dom.minidom

from keepers import Keeper, KeptStep, tree_of

from harness.making import absent_proof, link_proof, thread_proof
from harness.places import TOP
from harness.rooms import Skipped, Wrong, case, needs
from harness.weft_room import Loom, faulty
from timeweave_reference.archives import EMPTY, Entry, listed
from timeweave_reference.hashed_texts import digest
from timeweave_reference.histories import Step
from timeweave_reference.recording import History
from timeweave_reference.timelines import Timeline


def two_services(room):
    """A maker and a bank that received it, proofs of each kind, and all lines of both kept."""
    loom = Loom(room)
    loom.service("maker", [b"bread"])
    loom.service("bank", [b"open"])
    for name, other in (("bank", "maker"), ("maker", "bank")):
        loom.put("message", loom.timeweave("thread", other, "0"))
        loom.timeweave("receive", name, "message")
    paid = loom.append("bank", b"paid")
    last = loom.append("maker", b"more")
    loom.make({
        "paid": "prove bank event 3 0", "thread": "prove bank thread 2 maker 1", "absent": "prove bank absent 3 maker 2", "link": "prove maker link 1",
        "bread": "prove maker event 1 0 1", "bread3": "prove maker event 1 0 3", "low": "map bank low 3 maker", "high": "map maker high 2 bank",
        "low2": "map maker low 3 bank", "high2": "map bank high 3 maker", "bank.history": "export bank",
        "chain": "join paid thread link bread", "loose": "join paid thread bread",
    })  # fmt: skip
    loom.put("lines", paid + last)
    loom.expect(["keep", "lines", "--by", "by mail"], 0)
    return loom


def sentences(room):
    """what is shown is said in sentences, with the lines that it rests on, how each came, and who judged; map files are judged by twos"""
    loom = two_services(room)
    judged = "judged by: proved "
    loom.expect("judge bread3", 0, "bread3: shown", 'maker recorded in its step 1, as event 0: "bread"', "maker, step 3, ", "by mail", judged)
    loom.expect("judge thread", 0, "bank had received step 1 of maker", "at its step 2", judged)
    loom.expect("judge absent", 0, "no step 2 of maker up to its step 3", "if it kept the rules")
    loom.expect("judge link", 0, "Step 1 of maker, seen from its step 3, has the authenticator")
    loom.expect("judge chain", 0, "bank received step 1 of maker at its step 2", "Every hop is bound", "bank, step 3", "maker, step 3")
    loom.expect("judge loose", 1, "loose: shown in part", "only the receiver says", "--carried")
    loom.expect("judge loose --carried", 0, "loose: shown in part", "CARRIED", "word alone: ", "Not shown: only ", "What to do: Ask whoever sent it for the same proof with links")
    loom.expect("judge low2 high2", 0, "If maker and bank kept the rules: before its step 3, maker had received step 2 of bank", "Up to its step 3, bank received neither")
    loom.expect("judge high2 low2 bread3", 0)
    loom.expect("judge low", 12, "one of two map files", "Name the high one")
    loom.expect("judge low high2", 12)
    found = json.loads(loom.expect("judge chain --json", 0).out)
    if found["shown"] is not True or {it["service"] for it in found["lines"]} != {"bank", "maker"} or "accepted precedes" not in found["text"]:
        raise Wrong(f"  {found}")
    loom.expect("judge bank.history", 0, "a history of bank that keeps the rules, up to step 3", "bank, step 3", "by mail", judged)
    loom.expect("judge bank.history --reference", 20, "a history of bank")
    history = loom.read("bank.history")
    place = history.index(b"open")
    loom.put("other.history", history[:place] + b"shut" + history[place + 4 :])
    loom.expect("judge other.history", 11, "other.history: not shown", "TWO LINES: the line of step 3 of bank", "made anew or changed")
    loom.put("unsound.history", history[:-1] + bytes([history[-1] ^ 1]))
    loom.expect("judge unsound.history", 1, "he history breaks rule", "Ask its service")
    loom.put("cut.history", history[:-1])
    loom.expect("judge cut.history", 1, "can't read it (unreadable history byte")
    loom.append("bank", b"later")
    loom.put("later.history", loom.timeweave("export", "bank"))
    loom.expect("judge later.history", 12, "later.history: shown in part", "up to step 3", "of step 4, the file's word alone", "line of step 4 of bank is missing")
    loom.expect("judge bank.history --svg x", 0)
    loom.put("empty.history", history[:20] + bytes(8))
    loom.expect("judge empty.history", 9, "without steps")


def made_anew_below(room):
    """a proof or a chain from a history that was made anew isn't shown where a line is kept of a step that it is of, or that was received on its way"""
    loom = two_services(room)
    old = loom.run("line", "maker").out
    loom.put("kept", loom.read("lines"))
    loom.folder.joinpath("maker").rename(loom.folder / "true-maker")
    loom.service("maker", [b"brot"])
    loom.put("message", loom.timeweave("thread", "bank", "0"))
    loom.timeweave("receive", "maker", "message")
    loom.append("maker", b"more")
    new = loom.append("maker", b"later")
    loom.put("first", loom.timeweave("prove", "true-maker", "link", "1", "1")[-32:].hex().join(("maker 1 ", "\n")))
    loom.put("both", loom.read("first").decode() + new)
    loom.put("brot", loom.timeweave("prove", "maker", "event", "1", "0", "4"))
    loom.expect("judge brot --kept both", 11, "brot: not shown", "TWO LINES: the line of step 1 of maker that you kept", absent=("one history",))
    loom.put("many/brot", loom.read("brot"))
    loom.expect("judge --many many --kept both", 11, "TWO LINES: 1 file")
    loom.put("bread4", loom.timeweave("prove", "true-maker", "event", "1", "0", "3"))
    loom.put("rest", loom.read("first").decode() + old)
    loom.expect("judge bread4 --kept rest", 0, "bread4: shown", "line of step 1 of maker that you kept: one history")
    other = b"maker 1 " + b"ab" * 32 + b"\n"
    loom.put("three", loom.read("kept") + other)
    loom.expect("judge chain --kept three", 11, "chain: not shown", "TWO LINES: the line of step 1 of maker that you kept")


def audited_by_another(room):
    """a history that a kept line contradicts shows nothing of a proof that it is audited by; and one that can't be read hides no two lines"""
    loom = two_services(room)
    old = loom.run("line", "maker").out
    loom.folder.joinpath("maker").rename(loom.folder / "true-maker")
    loom.service("maker", [b"bread"])
    loom.append("maker", b"other")
    loom.append("maker", b"third")
    first = loom.timeweave("prove", "maker", "link", "1", "1")[-32:].hex().join(("maker 1 ", "\n"))
    loom.put("both", first + old)
    loom.put("p1", loom.timeweave("prove", "maker", "event", "1", "0", "1"))
    loom.put("anew", loom.timeweave("export", "maker"))
    loom.put("true", loom.timeweave("export", "true-maker"))
    loom.expect("judge p1 --kept both --audit true", 0, "The histories have each line that it hangs on")
    loom.expect("judge p1 --kept both --audit anew", 11, "p1: not shown", "TWO LINES: the line of step 3 of maker")
    loom.put("another", loom.timeweave("export", "bank"))
    loom.expect("judge p1 --kept both --audit another", 1, "p1: not shown", "NOT SO: it hangs on step 1 of maker")
    loom.expect("judge true --kept both --audit true", 2, "--audit is for proofs")
    loom.expect("judge p1 --kept both --audit nothing", 3, "p1: not judged", "no file nothing")
    loom.put("bread4", loom.timeweave("prove", "true-maker", "event", "1", "0", "3"))
    loom.put("other", f"maker 1 {'ab' * 32}\n" + old)
    loom.expect("judge bread4 --kept other --audit nothing", 11, "bread4: not shown", "TWO LINES", "no file nothing")


def two_lines_in_files(room):
    """accepted files that tell two lines of one step are told with 11, alone and in a table; so is a map file that rests on another line than the kept one"""
    loom = two_services(room)
    loom.folder.joinpath("maker").rename(loom.folder / "true-maker")
    loom.service("maker", [b"brot"])
    loom.put("message", loom.timeweave("thread", "bank", "0"))
    loom.timeweave("receive", "maker", "message")
    loom.append("maker", b"more")
    later = loom.append("maker", b"later")
    loom.put("both", loom.read("lines").decode() + later)
    loom.put("many/true", loom.timeweave("prove", "true-maker", "event", "1", "0", "3"))
    loom.put("many/false", loom.timeweave("prove", "maker", "event", "1", "0", "4"))
    for name in ("true", "false"):
        loom.expect(f"judge many/{name} --kept both", 0, f"many/{name}: shown")
    loom.expect("judge many/true many/false --kept both", 11, "TWO LINES: many/true tells", "of step 1 of maker, and many/false")
    for _ in range(2):
        loom.expect("judge --many many --kept both", 11, "2 files CONTRADICT EACH OTHER")
    loom.put("true.history", loom.timeweave("export", "true-maker"))
    loom.expect("judge true.history many/false --kept both", 11, "TWO LINES:")
    other = loom.read("lines").decode() + f"maker 1 {'ab' * 32}\n"
    loom.put("other", other)
    loom.expect("judge low2 high2 --kept lines", 0, "low2 and high2: shown")
    loom.expect("judge low high --kept lines", 12)
    loom.expect("judge thread --kept other", 11, "TWO LINES")
    loom.put("low3", loom.timeweave("map", "bank", "low", "3", "maker"))
    loom.put("high3", loom.timeweave("map", "true-maker", "high", "3", "bank"))
    loom.expect("judge low3 high3 --kept other", 11, "low3 and high3: not shown", "TWO LINES: the line of step 1 of maker")


def cut_history(room):
    """a history behind which a line is kept is told as cut, alone and in a table, and ends with a look at it"""
    loom = two_services(room)
    loom.put("many/bank.history", loom.read("bank.history"))
    loom.append("bank", b"later")
    loom.put("late", loom.run("line", "bank").out)
    loom.expect(["keep", "late", "--by", "mail"], 0)
    loom.expect("judge bank.history", 10, "bank.history: shown", "You hold a line of step 4 of bank, and this file ends at step 3")
    loom.expect("judge --many many", 10, "1 shown")
    if b"ends at step 3, and you hold a line of step 4" not in loom.read("many.verdicts.tsv"):
        raise Wrong(f"  {loom.read('many.verdicts.tsv')}")


def full_device(room):
    """a standard output that fails hides no two lines of one step"""
    loom = two_services(room)
    history = loom.read("bank.history")
    loom.put("other.history", history.replace(b"open", b"shut"))
    words = ["python3", "-m", "weft", "judge", "other.history"]
    for out in ("> /dev/full", "--json > /dev/full", ">&-"):
        script = f"{shlex.join(words)} {out}"
        done = subprocess.run(["sh", "-c", script], cwd=loom.folder, env=loom.env | {"PYTHONPATH": str(TOP)}, stderr=subprocess.PIPE, check=False)
        if done.returncode != 11 or b"standard output" not in done.stderr:
            raise Wrong(f"  {out}: {done}")


def failing_machine(room):
    """where memory is wanting, or the disk fails, for one file, the others are judged all the same, and two lines of one step are told with 11"""
    loom = two_services(room)
    loom.put("many/big", loom.read("bread3"))
    loom.put("many/forged.history", loom.read("bank.history").replace(b"open", b"shut"))

    def failing(error):
        def patch():
            from weft import outcomes

            work = outcomes.judgement_of

            def fails(judge, kept, group, *rest):
                if group[0].path.endswith("big"):
                    raise error
                return work(judge, kept, group, *rest)

            outcomes.judgement_of = fails

        return patch

    for error, told in ((MemoryError(), "there was no memory to judge"), (OSError(28, "full"), "No space left on device")):
        loom.expect("judge many/big many/forged.history", 11, told, "TWO LINES", patch=failing(error))
        loom.expect("judge --many many --workers 1", 11, "1 not judged", "1 not shown", patch=failing(error))
    loom.expect("judge --many many --workers 1", 11, "1 shown", "1 not shown")


def false_step_0(room):
    """a line of step 0 that doesn't follow from the name isn't kept, and one that was kept says nothing of a true history"""
    loom = two_services(room)
    false = b"bank 0 " + b"ab" * 32 + b"\n"
    loom.put("false", false)
    loom.expect(["keep", "false", "--by", "by letter"], 9, "step 0 follows from the name alone", "Nothing was kept")
    loom.put("lines", loom.read("lines") + false)
    loom.expect("judge bank.history --kept lines", 0, "bank.history: shown", absent=("TWO LINES",))


def deep_folders(room):
    """files in folders a thousand deep are judged, each with its row"""
    loom = two_services(room)
    loom.put("many/good", loom.read("bread3"))
    at = os.getcwd()
    try:
        os.chdir(loom.folder / "many")
        for _ in range(1100):
            os.mkdir("d")
            os.chdir("d")
        with open("paid", "wb") as file:
            file.write(loom.read("paid"))
    finally:
        os.chdir(at)
    try:
        loom.expect("judge --many many", 0, "2 files: 2 shown")
    finally:
        subprocess.run(["rm", "-rf", loom.folder / "many"], check=True)


def missing_lines(room):
    """which line is missing is said with whom to ask, and which later step would do; two kept lines that contradict stop the verdict"""
    loom = two_services(room)
    loom.put("empty", b"")
    loom.expect(
        "judge chain --kept empty", 12, "chain: not judged", "line of step 3 of bank is missing. You hold none of bank", "line of step 3 of maker is missing",
        "neither bank nor whoever sent", "(The file names bank, which received it by this file; you keep no line of that one, and the file isn't judged",
        "shows nothing about the time before", absent=("ask bank for that line", "sent you this file: bank"),
    )  # fmt: skip
    loom.put("of bank", "".join(it for it in loom.read("kept").decode().splitlines(True) if it.startswith("bank ")))
    loom.expect(["judge", "chain", "--kept", "of bank"], 12, "sent you this file: bank, which received it by this file; a notary", absent=("(The file names",))
    loom.append("bank", b"later")
    loom.put("late", loom.run("line", "bank").out)
    loom.expect(["keep", "late", "--by", "mail", "--kept", "other"], 0)
    loom.expect("judge paid --kept other", 12, "its line of step 4 alone: ask for the proof under its step 4")
    line = loom.read("late").decode()
    loom.put("bad", line + line[:-2] + ("0" if line[-2] != "0" else "1") + "\n")
    loom.put("p4", loom.timeweave("prove", "bank", "event", "3", "0", "4"))
    loom.expect("judge p4 --kept bad", 11, "at most one is of bank's history")
    loom.expect("judge p4 --kept nowhere", 3, "no file nowhere")
    loom.expect("judge p4 bread3", 12, "line of step 4 of bank", "bread3: shown")
    # an older line shows more than one that is got only now
    loom.expect(
        "judge p4 bread3", 12, "its line of step 3 alone: ask bank for the proof under its step 3 (weft prove SERVICE FILE --top 3)",
        "shows nothing about the time before", absent=("for that line",),
    )  # fmt: skip
    loom.put("t4", loom.timeweave("prove", "bank", "thread", "2", "maker", "1", "4"))
    loom.expect("judge t4", 12, "under its step 3 (timeweave prove DIR .. 3)")
    loom.put("chain4", loom.timeweave("join", "p4", "thread", "link", "bread"))
    loom.expect("judge chain4", 12, "under its step 3 (weft prove .. --top 3, then weft chain)")
    loom.put("l4", loom.timeweave("prove", "bank", "event", "4", "0"))
    loom.expect("judge l4", 12, "its line of step 3 alone. Ask somebody who kept it, and is neither bank nor whoever sent you this file", absent=("ask bank",))


def rejected(room):
    """what was changed isn't shown, whatever was changed, with a sentence that accuses nobody, and nothing else is told"""
    loom = two_services(room)
    for name in ("chain", "bread3", "thread", "link"):
        good = loom.read(name)
        for place in range(0, len(good), max(1, len(good) // 5)):
            loom.put("forged", good[:place] + bytes([good[place] ^ 1]) + good[place + 1 :])
            done = loom.run("judge", "forged")
            if done.status not in (1, 9, 12) or ": shown" in done.out:
                raise Wrong(f"  byte {place} of {name}: {done}")
        loom.put("forged", good[:-1])
        loom.expect("judge forged", 1, "cut short")
        loom.put("forged", good + b"x")
        loom.expect("judge forged", 1, f"byte {len(good)}")
    loom.put("forged", loom.read("low")[:-1])
    loom.expect("judge forged high", 12)


def other_kinds(room):
    """what is no proof is told by its kind, with what takes it; a proof that is cut or changed is told as before"""
    loom = two_services(room)
    for name, data in (("empty", b""), ("text", b"Dear Sir\n"), ("picture", b"\x89PNG\r\n\x1a\n\0\0"), ("line", loom.run("line", "bank").out)):
        loom.put(name, data)
    loom.put("message", loom.timeweave("thread", "bank", "0"))
    loom.expect("judge empty", 9, "empty is empty. Ask for it again.")
    loom.expect("tell empty", 9, "It is empty: ask for it again.")
    loom.expect("keep empty", 9, "empty is empty")
    for name in ("text", "picture"):
        loom.expect(f"judge {name}", 9, f"{name} is no file of Timeweave", "Is it the document itself? Then its proof is missing", f"weft judge PROOF --file {name}")
        loom.expect(f"tell {name}", 9, "no format of Timeweave. Is it the right file?")
        loom.expect(f"keep {name}", 9, f"line 1 of {name} is no line of a service", absent=("--by",))
    loom.expect("judge line", 9, "line is a line, no proof: weft keep line.")
    loom.expect("judge kept paid", 9, "kept is 2 lines, no proof: weft keep", "paid: shown")
    loom.expect("judge message", 9, "message is no proof: it is a message", "weft tell")
    loom.expect("keep line", 2, "no signature beside it", "--by", "Or put line.sig beside it.")
    loom.expect("keep paid", 9, "paid is a proof, no line: weft judge paid.")
    loom.expect("keep message --by mail", 9, "message is a message, no line: weft tell message.")


def forked(room):
    """evidence of a fork is judged under the lines of both receivers, with words on what it shows and what not"""
    loom = Loom(room)
    loom.service("one", [b"x"])
    loom.service("two", [b"x"])
    loom.service("bad", [b"a"])
    loom.service("bad", [b"b"], folder="bad2")
    lines = ""
    for name, folder in (("one", "bad"), ("two", "bad2")):
        loom.put("message", loom.timeweave("thread", folder, "0"))
        loom.timeweave("receive", name, "message")
        lines += loom.append(name, b"later")
        loom.put(f"by-{name}", loom.timeweave("prove", name, "thread", "2", "bad", "1"))
    loom.put("evidence", loom.timeweave("accuse", "by-one", "by-two"))
    loom.expect("judge evidence", 12, "step 3 of one is missing", "step 3 of two is missing")
    loom.put("lines", lines)
    loom.expect(["keep", "lines", "--by", "mail"], 0)
    loom.expect("judge evidence --svg e.svg", 0, "No history of bad has both", "Who broke a rule isn't shown: bad may have", "Ask both")
    loom.expect("judge evidence --reference", 20, "judged by: Python reference, tested, not proved")


def files_held(room):
    """an event is held against a file, by its digest and its name, the file's size being no matter"""
    loom = Loom(room)
    loom.put("src/big", b"")
    with open(loom.folder / "src/big", "wb") as file:
        file.truncate(64 << 20)
    loom.put("src/a\\b", b"odd")
    loom.expect("log src log data", 0)
    loom.expect(["keep", "log.anchor", "--by", "own"], 0)
    loom.expect("prove log big", 0)
    loom.expect(["prove", "log", "a\\b"], 0)
    loom.expect("judge big.proof --file src/big", 0, "is that file")
    loom.expect(["judge", "a\\b.proof", "--file", "src/a\\b"], 0, "is that file")
    loom.expect("judge big.proof --file src", 3, "a folder")
    loom.append("log", b"no entry")
    loom.put("last", loom.run("line", "log").out)
    loom.expect(["keep", "last", "--by", "own"], 0)
    loom.put("p", loom.timeweave("prove", "log", "event", "2", "0"))
    loom.expect("judge p --file src/big", 1, "no entry of a log of files")
    loom.expect("judge p big.proof --file src/big", 2, "of one proof")


def judges_differ(room):
    """where both are there both judge, a difference ends with a status of its own; without either nothing is judged; the reference alone has its own
    statuses"""
    loom = two_services(room)
    loom.expect("judge bread3", 0, "the same by: Python reference, tested, not proved")
    loom.expect("judge bread3 --reference", 20, "judged by: Python reference, tested, not proved", absent=("proved library", "proved program"))
    loom.put("forged", loom.read("bread3").replace(b"bread", b"bribe"))
    loom.expect("judge forged --reference", 21, "not shown")
    none = {"TIMEWEAVE_PROGRAM": "/nowhere", "TIMEWEAVE_LIBRARY": "/nowhere"}
    loom.expect("judge bread3", 14, "nothing is judged", "--reference", **none)
    loom.expect("judge bread3 --reference", 20, **none)

    def liar():
        from weft import judges

        judges.ReferenceJudge.judge = lambda *_: judges.Verdict(0, "accepted exists\nevent maker 1 0 00\n")

    loom.expect("judge bread3", 13, "two judges differ", "This is a bug", patch=liar)
    loom.expect("judge forged", 13, "two judges differ", patch=liar)
    loom.expect("judge bread3", 0, "judged by: proved program", TIMEWEAVE_LIBRARY="/nowhere")
    loom.put("other", f'#!/bin/sh\nexec {shlex.quote(loom.program)} "$@"\n').chmod(0o755)
    other = {"TIMEWEAVE_LIBRARY": "/nowhere", "TIMEWEAVE_PROGRAM": str(loom.folder / "other")}
    loom.expect("judge bread3", 0, "judged by: program, not known to be proved, SHA-256 ", **other)


def contradictions(room):
    """two accepted files that contradict each other are told, with the link between their lines where it is named, if a judge has that"""
    loom = two_services(room)
    told = f"thread bank 2 maker 1 {'0' * 64} 2\nabsent bank 3 maker 1\n"

    def judges(first, _, second, other, link):
        from timeweave_reference import Answer

        if {first[4], second[4]} != {3, 4} or not other:
            return Answer(1, b"rejected 11 NoConflict\n")
        return Answer(0, f"accepted broken-rule{'' if link else '-or-fork'}\n{told}".encode())

    def patch():
        import timeweave_reference

        timeweave_reference.contradict = judges

    words = ["judge", "--reference", "thread", "absent"]
    loom.expect(words, 11, "thread and absent CONTRADICT EACH OTHER", "received step 1 of maker at its step 2", "or it has two histories", patch=patch)
    loom.expect([*words, "link"], 11, "whoever keeps bank broke its rules", "judged by: Python reference", patch=patch)
    loom.expect("judge --reference thread bread3", 20, absent=("CONTRADICT",), patch=patch)
    loom.expect("judge thread absent", 0, absent=("CONTRADICT",))


def dropped(room):
    """a service that left a received line out of its archive is told by its own two proofs, under one line and under two"""
    import timeweave_reference

    if not hasattr(timeweave_reference, "contradict"):
        raise Skipped("no judge of contradictions is there")
    loom, shop, notary = Loom(room), Timeline("shop", [[b"x"]] * 5), History("notary")
    notary.receive("shop", 5, shop.auths[5])
    had = notary.trees[1]
    notary.add(Step([]), EMPTY)
    notary.add(Step([]), EMPTY)
    line = notary.line()
    for name, data in (
        ("has", thread_proof(line, had, 1, 1, listed(had)[0])), ("has3", thread_proof(line, had, 1, 3, listed(had)[0])),
        ("not", absent_proof(line, notary.trees[2], 2, 3, ("shop", 5))), ("link", link_proof(line, 1, 3)),
    ):  # fmt: skip
        loom.put(name, data)
    loom.put("lines", "".join(f"notary {step} {line.auths[step].hex()}\n" for step in (1, 3)))
    loom.expect("keep lines --by mail", 0)
    told = ("CONTRADICT EACH OTHER", "notary received step 5 of shop at its step 1", "up to its step 2")
    loom.expect("judge --reference has3 not", 11, *told, "whoever keeps notary broke its rules")
    loom.expect("judge --reference has not", 11, *told, "or it has two histories")
    loom.expect("judge --reference has not link", 11, *told, "whoever keeps notary broke its rules")
    loom.expect("judge --reference has has3", 20, absent=("CONTRADICT",))
    loom.expect("judge has3 not", 11, *told)  # (with a library or without one)
    for number in range(40):
        loom.put(f"copy{number}", loom.read("has3"))
    copies = [f"copy{number}" for number in range(40)]
    loom.expect(["judge", "--reference", *copies, "not"], 11, "copy0 and not CONTRADICT", absent=("copy1 and",))
    for name in ("has", "has3"):
        loom.put(f"many/{name}", loom.read(name))
    loom.expect("judge --reference --many many", 20, absent=("CONTRADICT",))
    loom.put("many/not", loom.read("not"))
    for _ in range(2):
        loom.expect("judge --reference --many many", 11, "3 files CONTRADICT EACH OTHER", absent=("TWO LINES",))
    if b"\tCONTRADICTS has: absent notary 2 shop 5" not in loom.read("many.verdicts.tsv"):
        raise Wrong(f"  {loom.read('many.verdicts.tsv')}")


def broken_rules(room):
    """two accepted files that show another rule broken are told with the rule, and a rule that weft doesn't know is told as broken too"""
    loom, threads = Loom(room), [Entry("bank", 3, digest(b"bank"), 1), Entry("shop", 5, digest(b"shop"), 1)]
    notary = Keeper("notary").add(KeptStep(tree=tree_of(threads)))
    for name, entry in zip(("one", "other"), threads):
        loom.put(name, notary.thread(1, 1, entry).to_bytes())
    loom.put("kept", f"notary 1 {notary.auths[1].hex()}\n")
    told = "CONTRADICT EACH OTHER: Between them they show rule"
    loom.expect("judge --reference one other --kept kept", 11, f"{told} 5 of histories, TwoAtOneStep, broken", "thread notary 1 bank 3", "whoever keeps notary broke its rules")

    def patch():
        import timeweave_reference

        later = timeweave_reference.Answer(0, b"accepted broken-rule-or-fork\nrule 99 Later\nnovel notary 7\n")
        none = timeweave_reference.Answer(1, b"rejected 11 NoConflict\n")
        timeweave_reference.contradict = lambda first, _, second, *more: none if first == second else later

    loom.expect("judge --reference one other --kept kept", 11, f"{told} 99 of histories, Later, broken: novel notary 7.", "or it has two histories", patch=patch)


def same_history(room):
    """a link under the newer of two kept lines tells whether the older one is of the same history; what isn't accepted is never told as two lines"""
    loom = Loom(room)
    loom.service("s", *[[b"%d" % step] for step in range(1, 13)])
    loom.service("s", *[[b"%d" % step if step != 5 else b"other"] for step in range(1, 13)], folder="fork")
    (loom.folder / "kept").unlink(missing_ok=True)

    def line(folder, step):
        loom.put("tmp/l", loom.timeweave("prove", folder, "link", str(step), "12"))
        loom.put("tmp/k", loom.run("line", folder).out)
        return f"s {step} {loom.timeweave('verify', 'tmp/l', 'tmp/k').split()[-1].decode()}\n"

    for step in (0, 1, 4, 5, 9, 11):
        loom.put("link", loom.timeweave("prove", "s", "link", str(step), "12"))
        for folder in ("s", "fork"):
            loom.put("two", line(folder, step) + line("s", 12))
            is_one = line(folder, step) == line("s", step)
            told = f"the line of step {step} of s that you kept: one history" if is_one else "TWO LINES"
            loom.expect("judge link --kept two", 0 if is_one else 11, told)
    loom.put("two", line("fork", 11) + line("fork", 12))
    loom.expect("judge link --kept two", 1, absent=("TWO LINES", "one history"))
    loom.put("two", line("fork", 11) + line("s", 11))
    loom.expect("judge link --kept two", 12, absent=("TWO LINES", "one history"))


def tables(room):
    """--many makes a table of all files, goes on where it was stopped, takes rows of unchanged files over, and is the same with any number of processes"""
    loom = two_services(room)
    good, forged = loom.read("bread3"), loom.read("bread3").replace(b"bread", b"bribe")
    for number in range(450):
        loom.put(f"many/{number:03}", good if number % 3 else forged)
    loom.put("many/sub/chain", loom.read("chain"))
    loom.put("many/odd\x1b[31m\tname\n", good)
    loom.put("many/none", b"\0")
    os.mkfifo(loom.folder / "many/pipe")
    loom.put("many/other", loom.timeweave("prove", "maker", "event", "1", "0", "2"))
    loom.put("many/history", loom.read("bank.history"))
    loom.expect("judge --many many --workers 1 --table t1", 1, "456 files", "303 shown", "150 not shown", "3 not judged", "1 file lacks a line")
    loom.expect("judge --many many --workers 4 --table t4", 1, "judged by: proved")
    if loom.read("t1") != loom.read("t4") or loom.read("t1").count(b"\n") != 458:
        raise Wrong(f"  the tables differ, or have {loom.read('t1').count(10)} lines")
    table = loom.read("t1").decode()
    rows = {line.split("\t")[0]: line.split("\t")[3] for line in table.splitlines()[2:]}
    if rows["000"] != "not shown" or rows["001"] != "shown" or rows["pipe"] != "not judged" or rows["none"] != "not judged" or "\x1b" in table:
        raise Wrong(f"  {table[:2000]}")
    loom.expect("judge --many many --table t1", 1, "455 rows of an earlier run were taken over")
    # stopped amid, and gone on with
    for at in (2, 5, 8, 11, 14, 17):
        for kind in ("before", "half"):
            (loom.folder / "t5").unlink(missing_ok=True)
            shutil.rmtree(loom.folder / ".local", ignore_errors=True)
            done = loom.run("judge", "--many", "many", "--workers", "1", "--table", "t5", patch=faulty(at, kind))
            if done.status not in (-signal.SIGKILL, 1):
                raise Wrong(f"  {kind} {at}: {done}")
            loom.expect("judge --many many --workers 1 --table t5", 1)
            if loom.read("t5") != loom.read("t1"):
                raise Wrong(f"  {kind} at call {at}: another table")
    loom.expect("judge --many many --table t1", 1)
    loom.put("many/002", forged)
    loom.expect("judge --many many --table t1", 1, "302 shown", "454 rows")
    loom.expect("judge --many nowhere", 3, "no folder")
    loom.expect("judge bread3 --many many", 2)
    loom.expect("judge --many many --workers 0", 2)
    found = json.loads(loom.run("judge", "--many", "many", "--table", "t1", "--json").out)
    if found["files"] != 456 or found["shown"] != 302:
        raise Wrong(f"  {found}")


def cluster(room):
    """--many over a Dask cluster of three workers, by TLS, makes the same table, each row once, also where a worker is killed amid; without TLS no other
    machine is asked"""
    loom = two_services(room)
    for number in range(60):
        loom.put(f"many/{number:03}", loom.read("bread3") if number % 3 else loom.read("bread3").replace(b"bread", b"bribe"))
    for address in ("tcp://example.org:8786", "tls://example.org:8786", "127.0.0.1:8786", "tcp://127.0.0.1", "\x1b"):
        loom.expect(["judge", "--many", "many", "--dask", address], 2)
    loom.expect("judge bread3 --dask tcp://127.0.0.1:1", 2)
    python, env = python_with("distributed"), loom.env | {"PYTHONPATH": f"{TOP}:{TOP / 'reference'}"}
    small = "import weft.bulk, weft.main, sys; weft.bulk.PIECE = 5; sys.exit(weft.main.main(sys.argv[1:]))"
    port = str(20_000 + os.getpid() % 20_000)
    own = [needs("openssl", "openssl"), "req", "-x509", "-newkey", "rsa:2048", "-nodes", "-keyout", "key.pem", "-out", "cert.pem", "-subj", "/CN=weft"]
    subprocess.run(own, cwd=loom.folder, check=True, capture_output=True)
    tls = ["--tls-ca-file", "cert.pem", "--tls-cert", "cert.pem", "--tls-key", "key.pem"]
    scheduler = [python, "-m", "distributed.cli.dask_scheduler", "--no-dashboard", "--host", "127.0.0.1", "--protocol", "tls", "--port", port, *tls]
    running = [subprocess.Popen(scheduler, cwd=loom.folder, env=env, stderr=subprocess.DEVNULL)]
    try:
        worker = [python, "-m", "distributed.cli.dask_worker", f"tls://127.0.0.1:{port}", "--no-dashboard", "--no-nanny", "--nthreads", "1", *tls]
        running += [subprocess.Popen(worker, cwd=loom.folder, env=env, stderr=subprocess.DEVNULL) for _ in range(3)]
        words = ["judge", "--many", "many", "--table", "t", "--dask", f"tls://127.0.0.1:{port}", "--tls", "cert.pem", "cert.pem", "key.pem"]
        whole = subprocess.Popen([python, "-c", small, *words], cwd=loom.folder, env=env, stdout=subprocess.PIPE, stderr=subprocess.STDOUT, text=True)
        until = time.monotonic() + 120
        while whole.poll() is None and time.monotonic() < until and not any(path.read_bytes().count(b"\n") > 6 for path in loom.folder.glob(".local/share/weft/judged/*.rows")):
            time.sleep(0.01)
        running[-1].kill()
        told, _ = whole.communicate(timeout=300)
    finally:
        for it in running:
            it.kill()
            it.wait()
    rows = [line.split("\t")[0] for line in (loom.folder / "t").read_text().splitlines()[2:]] if (loom.folder / "t").exists() else []
    if whole.returncode != 1 or "60 files: 40 shown, 20 not shown" not in told or told.count("\n") != 2 or rows != [f"{number:03}" for number in range(60)]:
        raise Wrong(f"  {whole.returncode} {told}, {len(rows)} rows")


def python_with(package):
    """A Python that has a package that isn't of the standard library; else the case is skipped."""
    for path in (sys.executable, "/usr/bin/python3"):
        if os.path.exists(path) and subprocess.run([path, "-c", f"import {package}"], capture_output=True).returncode == 0:
            return path
    raise Skipped(f"the Python package {package} isn't there (on Debian: python3-{package})")


def pictures(room):
    """pictures are well-formed SVG of 800 pixels with a white ground, whatever the events are, of each kind"""
    loom = two_services(room)
    odd = b"<script>alert(1)</script>&\"'" + "\u202e".encode() + b"\x1b[31m]]>"
    loom.append("maker", odd, "\u00fc<&>".encode())
    loom.put("l", loom.run("line", "maker").out)
    loom.expect(["keep", "l", "--by", "m"], 0)
    for index in (0, 1):
        loom.put(f"odd{index}", loom.timeweave("prove", "maker", "event", "4", str(index)))
    for names in (["odd0"], ["odd1"], ["bread3"], ["thread"], ["absent"], ["link"], ["chain"], ["loose", "--carried"], ["low2", "high2"]):
        loom.expect(["judge", *names, "--svg", "p.svg"], 0)
        found = xml.dom.minidom.parse(str(loom.folder / "p.svg")).documentElement
        text = loom.read("p.svg")
        if found.getAttribute("width") != "800" or b'fill="#fff"' not in text or b"<script" in text or b"\x1b" in text or b"\xe2\x80\xae" in text:
            raise Wrong(f"  the picture of {names}")
    loom.expect("judge loose --carried --svg p.svg", 0)
    if b'class="carried"' not in loom.read("p.svg"):
        raise Wrong("  a carried hop isn't dashed")
    if b"\xc3\xbc&lt;&amp;&gt;" not in (loom.expect("judge odd1 --svg q.svg", 0) and loom.read("q.svg")):
        raise Wrong("  an event isn't in its picture")


def long_chains(room):
    """a chain of 64 hops is drawn in bands, no number of a step lies on another or on an arrow's line"""
    del room
    from weft import pictures
    from weft.lines import Line
    from weft.reports import Event, Hop, Report

    for big in (1, 10**6, 2**40 - 2000):
        names = [f"service-{k % 7}-{'x' * (k % 5)}" for k in range(65)]
        steps = [big + 10 * k for k in range(66)]
        hops = [Hop(names[k], steps[k] + k % 3, names[k + 1], steps[k + 1], k % 5 == 4) for k in range(64)]
        events = [Event(names[0], steps[0], 0, b"first", None), Event(names[64], steps[64] + 1, 3, b"\xff" * 1024, 5)]
        lines = [Line(name, 2**40 - 1, "0" * 64) for name in dict.fromkeys(names)]
        report = Report("precedes", events, hops, [])
        xml.dom.minidom.parseString(pictures.verdict(report, lines, None))
        scenes = pictures.chain(report, pictures.tops(lines))
        if sum(len(scene.arrows) for scene in scenes) != 64:
            raise Wrong("  a hop isn't drawn")
        for scene in scenes:
            expect_apart(pictures.Band(scene, 0))


def expect_apart(band):
    """The numbers of a band's steps lie apart from one another, and within the picture."""
    from weft import pictures

    boxes = []
    for number, node in enumerate(band.scene.nodes):
        x, y = band.place(number)
        x, y = x + 9, y + 21 if band.is_below(number) else y - 10
        boxes.append((x, y - 11, x + pictures.wide(node.step), y + 3))
        if boxes[-1][2] > pictures.WIDTH - 5:
            raise Wrong(f"  the number {node.step} leaves the picture")
    for place, (left, top, right, bottom) in enumerate(boxes):
        for other in boxes[place + 1 :]:
            if left < other[2] and other[0] < right and top < other[3] and other[1] < bottom:
                raise Wrong(f"  numbers lie on one another: {boxes}")


# ---- stores checked whole


def checked(room):
    """weft check finds a good store good, with each kept line; and of a store with a damaged page which steps are bad, and how many are good"""
    loom = Loom(room)
    loom.service("shop", *[[b"event %d" % k] * (k % 4) for k in range(1, 40)])
    loom.put("town.message", b"")
    loom.expect("check shop", 0, "39 of 39 steps good", "Python reference, tested, not proved, from the export")
    line = loom.run("line", "shop").out
    loom.put("l", line)
    loom.expect(["keep", "l", "--by", "own"], 0)
    loom.expect("check shop --all", 0, "1 kept line agrees")
    found = json.loads(loom.expect("check shop --json", 0).out)
    if (found["steps"], found["bad"], found["events_proved"]) != (39, [], found["events"]):
        raise Wrong(f"  {found}")
    whole = loom.read("shop/timeline.tw")
    bad_steps = set()
    for page in range(4, len(whole) // 4096, 9):
        place = page * 4096 + 40
        loom.put("shop/timeline.tw", whole[:place] + bytes([whole[place] ^ 1]) + whole[place + 1 :])
        done = loom.run("check", "shop", "--all", "--workers", "1")
        if done.status not in (0, 8, 17) or "Traceback" in done.err:
            raise Wrong(f"  page {page}: {done}")
        bad_steps.add(done.status)
    if not bad_steps & {8, 17}:
        raise Wrong("  no damage was found")
    loom.put("shop/timeline.tw", whole)
    other = line[:-2] + ("0" if line[-2] != "0" else "1") + "\n"
    loom.put("kept2", other.replace(" 39 ", " 30 "))
    loom.expect("check shop --kept kept2", 17, "another step of that number")
    loom.put("kept2", other.replace(" 39 ", " 50 "))
    loom.expect("check shop --kept kept2", 17, "no such step")
    loom.service("empty")
    loom.expect("check empty", 0, "no step yet")
    loom.expect("check nowhere", 5)


def cases():
    works = (
        sentences, made_anew_below, audited_by_another, two_lines_in_files, cut_history, full_device, failing_machine, false_step_0, deep_folders, missing_lines, rejected, other_kinds, forked, files_held, judges_differ, contradictions, dropped, broken_rules, same_history, tables, cluster, pictures, long_chains, checked,
    )  # fmt: skip
    return [case(work, "weft judge") for work in works]


