"""Acceptance cases of what a clerk and an expert need: what a history holds, step by step."""

import html
import json
import os
import re
import subprocess
import sys
from pathlib import Path

from cases.weft_parts import in_parts
from cases.weft_stores import long_history
from harness.places import LONGEST, TOP
from harness.rooms import Wrong, case, needs
from harness.weft_room import Loom
from timeweave_reference.receipts import Receipt

sys.path.append(str(TOP / "examples"))

from ten_cases import CASES, make_bundle, make_case, make_world  # noqa: E402

DIGEST = "f942d248a81932a858edb9a38e425ccf6042e8323587c4f74272765e4d131234"


def with_history(room):
    """A shop that logged a file, received a line, made a step without events, and logged a file at a time; and its history."""
    loom = Loom(room)
    loom.service("shop", [f"{DIGEST}  ./a b/sold".encode(), b"said \xe2\x80\x9cshown\xe2\x80\x9d"])
    loom.service("bank", [b"open"])
    loom.put("message", loom.timeweave("thread", "bank", "0"))
    loom.timeweave("receive", "shop", "message")
    loom.append("shop")
    loom.put("tmp/events", b"TWE1" + bytes(3) + b"\x01" + bytes(3) + b"\x03" + b"\xff\x00\n")
    loom.timeweave("append", "shop", "tmp/events", "1700000000")
    loom.put("shop.history", loom.timeweave("export", "shop"))
    return loom


def listed(room):
    """each step of a folder or a history's file is listed with its claimed time, and with its events or the line that it received; some are by ranges; what is no
    history, was cut, or has no such step is told"""
    loom = with_history(room)
    file = f'event 0: the file "a b/sold" (SHA-256 {DIGEST})'
    whole = (
        "shop: 4 steps, unjudged", "step 1: 2 events", file, 'event 1: "said \\u201cshown\\u201d"', "step 2: received bank 1 ", "step 3: no events",
        "step 4, which claims the time 2023-11-14 22:13:20 UTC: 1 event", "event 0: ff000a",
    )  # fmt: skip
    told = [loom.expect(["list", name], 0, *whole).out for name in ("shop", "shop.history")]
    if told[0] != told[1]:
        raise Wrong(f"  {told}")
    loom.expect("list shop 2-3", 0, "step 2:", "step 3:", absent=("step 1", "step 4,"))
    loom.expect("list shop.history 4 1", 0, "step 1:", "step 4,", absent=("step 2", "step 3"))
    loom.expect("list shop 3-", 0, "step 3:", "step 4,", absent=("step 2:",))
    loom.expect("list shop 2 5", 7, "step 2:", "shop has no step 5: its last one is 4")
    for word in ("0", "3-2", "x", "1\x1b[2J"):
        loom.expect(["list", "shop", word], 2, "names no steps")
    rows = [json.loads(line) for line in loom.expect("list shop --json", 0).out.splitlines()]
    if [row["step"] for row in rows] != [1, 2, 3, 4] or rows[0]["events"][0]["sha256"] != DIGEST or rows[1]["received"]["service"] != "bank":
        raise Wrong(f"  {rows}")
    data = loom.read("shop.history")
    loom.put("cut", data[:-3])
    loom.expect("list cut", 9, "step 3: no events", "cut begins as a history, and at byte", "cut short or changed")
    loom.put("forged", data + b"x")
    loom.expect("list forged", 9, "step 4, ", "at byte", "cut short or changed")
    loom.expect("list message", 9, "message is no history", "weft tell")
    os.rename(loom.folder / "shop", loom.folder / "-shop")
    loom.expect("list -- -shop 1", 0, file)
    loom.expect("list ./-shop 1", 0, file)


def listed_without_a_part(room):
    """what is there of a log whose next part was taken away is listed, and then that it isn't all of it"""
    loom = Loom(room)
    names = in_parts(loom, 2)
    loom.expect("list log", 0, *(f"{name}: " for name in names), 'the file "0000"')
    os.rename(loom.folder / "log/part-2", loom.folder / "away")
    done = loom.run("list", "log")
    if done.status != 17 or 'the file "0000"' not in done.out or names[1] not in done.err:
        raise Wrong(f"  {done}")


def listed_beyond_a_file(room):
    """a store whose history is longer than a file may be is listed by its pages, just as another one by its export; one that is damaged there is told"""
    loom = with_history(room)
    loom.append("shop", *(b"%d " % number * 300 for number in range(40)))
    plain = loom.expect("list shop", 0, "step 5: 40 events").out
    if loom.expect("list shop", 0, **long_history(loom)).out != plain:
        raise Wrong("  by its pages another list comes than by its export")
    path = loom.folder / "shop/timeline.tw"
    pages = path.read_bytes()
    path.write_bytes(pages[:-4096] + b"\x07" * 4096)
    done = loom.run("list", "shop", **long_history(loom))
    if done.status != 8 or "damaged" not in done.err:
        raise Wrong(f"  {done}")


# ---- lines in letters


def letters(room):
    """a line is written as a letter has it; it is read from a mail that quotes that, and what was typed wrong is told by its place, of a proof under such a line
    and of two such lines too, before anything is said against the service"""
    loom = Loom(room)
    loom.service("shop", [b"a"], [b"b"])
    line = loom.run("line", "shop").out
    done = loom.expect("line shop --letter letter", 0, "letter has it for a letter", line.strip())
    if ("letter.svg as a code" in done.out) != (loom.folder / "letter.svg").exists() or ("python3-qrcode" in done.out) == (loom.folder / "letter.svg").exists():
        raise Wrong(f"  {done}")
    letter = loom.read("letter").decode()
    loom.put("mail", "".join(f"> {text}\n" for text in f"Dear Sir,\n{letter}\nYours".splitlines()))
    amid = "Other words stand beside the line of step 2 of shop, which may say anything of it: " + " ".join(line.split()[2][at : at + 4] for at in range(0, 64, 4))
    loom.expect(["keep", "mail", "--by", "letter from the shop"], 10, amid, "Nothing was kept", "--found")
    if loom.read("kept"):
        raise Wrong(f"  {loom.read('kept')}")
    loom.expect(["keep", "mail", "--by", "letter from the shop", "--found"], 0, "The line of step 2 of shop is kept")
    if line.split()[2] not in loom.read("kept").decode():
        raise Wrong(f"  {loom.read('kept')}")
    loom.expect("keep letter --by mail --kept k1", 0, "The line of step 2 of shop is kept")
    loom.put("out", f"# {line}chosen: {line}")
    loom.expect("keep out --by mail --kept k1", 9, "stand behind no name and step of a service", "Nothing was kept")
    digits = line.split()[2]
    wrong = "0" if digits[5] != "0" else "1"
    slip = f"digit 2 of group 2: {digits[5]}, and not {wrong}"
    other = f"shop 2 {digits[:5]}{wrong}{digits[6:]}\n"
    loom.put("typed", letter.replace(digits[4:8], digits[4] + wrong + digits[6:8], 1))
    loom.expect("keep typed --by letter", 9, "Typed rightly? Row 1 of the line of step 2 of shop", slip, "Nothing was kept")
    loom.put("short", f"shop 2 {digits[:-1]}")
    loom.expect("keep short --by letter", 9, "ends short, after 63 of 64 digits: group 16 has 3")
    loom.put("odd", f"shop 2 {digits[:8]}o{digits[9:]}")
    loom.expect("keep odd --by letter", 9, "has o as digit 1 of group 3 (is it 0?)")
    loom.put("wrong", other)
    loom.expect("keep wrong --by letter --kept k2", 0)
    loom.put("p", loom.timeweave("prove", "shop", "event", "1", "0"))
    typed = f"Typed rightly? With {digits[5]} in the place of {wrong} at digit 2 of group 2 the line of step 2 of shop"
    done = loom.expect("judge p --kept k2", 1, "p: not shown: typed rightly?", typed)
    if done.out.index("Typed rightly?") > done.out.index("It isn't of the history"):
        raise Wrong(f"  {done}")
    loom.put("h", loom.timeweave("export", "shop"))
    loom.expect("judge h --kept k2", 11, "h: not shown: typed rightly?", f"Two lines of step 2 of shop differ at digit 2 of group 2 alone ({digits[5]} and {wrong})")
    loom.append("shop", b"c")
    loom.put("k", loom.timeweave("prove", "shop", "link", "2"))
    loom.put("k3", loom.run("line", "shop").out + other)
    loom.expect("judge k --kept k3", 11, "k: not shown: typed rightly?", "Two lines of step 2 of shop differ")
    loom.expect("keep wrong --by letter", 11, "Typed rightly? Two lines of step 2 of shop differ")


# ---- for whose lines


def line_at(loom, name, step):
    """The line of a step of a service."""
    return f"{name} {step} {loom.timeweave('prove', name, 'link', str(step), str(step))[-32:].hex()}\n"


def for_reader(room):
    """weft chain and weft prove make for a reader what his lines bind, of earlier steps than the last ones; what he lacks is told at once, with who received it, and never
    its keeper alone; a line of his that isn't of this history is told"""
    loom = Loom(room)
    loom.put("files/sold", b"bread")
    loom.expect("log files shop shop --no-time", 0)
    for name in ("bank", "port"):
        loom.service(name, [b"open"])
    receipts = b""
    for by, of in (("bank", "shop"), ("port", "shop"), ("port", "bank")):
        loom.put("message", loom.timeweave("thread", of, "0"))
        receipts += loom.timeweave("receive", by, "message")
    loom.append("bank", b"paid")
    for name in ("shop", "bank", "port"):
        loom.append(name, b"more")
        loom.append(name, b"and more")
    loom.put("receipts", receipts)
    words = "chain shop:1:0 bank:3:0 --store shop --store bank --hand receipts --out c --for his"
    loom.put("his", line_at(loom, "shop", 2) + line_at(loom, "bank", 4))
    loom.expect(words, 0, "For the reader who holds the lines of his:", "c: shown", "shop, step 2", "bank, step 4", "He judges it by: weft judge c", absent=("step 5",))
    loom.expect("judge c --kept his", 0, "c: shown", "The first came before the second")
    loom.put("late", loom.timeweave("prove", "bank", "event", "3", "0", "5"))
    loom.expect(words.replace("bank:3:0", "late"), 0, "bank, step 4")
    loom.put("his", line_at(loom, "port", 3))
    missing = "the reader holds no line of bank from step 3 on and shop from step 1 on"
    done = loom.expect(words, 12, missing, "not its service alone: of shop bank and port, which received one; a notary", "Then name them by --for")
    if "of bank port" in done.err:
        raise Wrong(f"  port received step 2 of bank, which is before what is needed: {done}")
    loom.put("receipts", receipts + Receipt("evil", 1, bytes(32), "shop", 2, bytes(32)).to_bytes())
    loom.expect(words, 12, missing, absent=("evil",))
    loom.put("receipts", receipts)
    loom.put("his", line_at(loom, "shop", 2) + line_at(loom, "bank", 2))
    loom.expect(words, 12, "no line of bank from step 3 on (but of step 2 and before)", absent=("shop from",))
    loom.put("his", line_at(loom, "shop", 2)[:-9] + "00000000\n" + line_at(loom, "bank", 4))
    loom.expect(words, 11, "TWO LINES: the reader's line of step 2 of shop", "No proof of this history is accepted under that line")
    loom.expect("prove shop sold --for his", 11, "TWO LINES: the reader's line of step 2 of shop")
    loom.put("his", line_at(loom, "shop", 2))
    loom.expect("prove shop sold --for his --out p", 0, "for whoever holds its line of step 2", "He judges it by: weft judge p --file sold")
    loom.expect("judge p --kept his --file files/sold", 0, "p: shown", "files/sold is that file")
    loom.put("his", line_at(loom, "bank", 4))
    loom.expect("prove shop sold --for his", 12, "the reader holds no line of shop that has sold, of one of the steps 1 to 3", "weft chain --for")
    loom.put("his", line_at(loom, "shop", 2) + f"shop 9 {'ab' * 32}\n" + line_at(loom, "bank", 4))
    for typed in (words, "prove shop sold --for his --out p2"):
        loom.expect(typed, 17, "isn't the store of shop's line of step 9 (of the reader): its last step is 3", "No proof was made")
    loom.put("his", line_at(loom, "shop", 2) + f"shop-2 9 {'ab' * 32}\n")
    loom.expect("prove shop sold --for his --out p2", 17, "you keep a line of step 9 of shop-2", "No proof was made")
    loom.put("his", line_at(loom, "bank", 4))
    loom.expect("prove shop sold --for his --top 2", 2)
    loom.expect(f"{words} --kept his", 2)
    loom.expect("prove shop sold --for nothing", 3)


# ---- a report for a file of a court


def reported(room):
    """weft judge writes a report as one file of HTML without a script: the headline, what was shown, by which lines and how each came, what it rests on, what isn't shown,
    all digests, and the commands that repeat it; it has the facts of JSON, and nothing foreign stands raw in it"""
    loom = Loom(room)
    evil = b"</pre><script>alert(1)</script><img src=x>"
    loom.put("files/sold", b"bread\n")
    loom.expect("log files shop shop --no-time", 0)
    loom.append("shop", evil)
    loom.put("line", loom.run("line", "shop").out)
    loom.expect(["keep", "line", "--by", "letter <b>of</b> the notary"], 0)
    name = "a <i>\u202e.proof"
    loom.put("p", loom.timeweave("prove", "shop", "event", "1", "0"))
    loom.put(name, loom.timeweave("prove", "shop", "event", "2", "0"))
    loom.put("h", loom.timeweave("export", "shop"))
    loom.expect("judge p --file files/sold --report r.html", 0, "p: shown")
    text = loom.read("r.html").decode()
    known = json.loads(loom.expect("judge p --file files/sold --json", 0).out)
    for wanted in (*(it["sha256"] for it in known["inputs"]), *known["assumed"], *known["not_shown"], known["theorem"], known["weft"]["sha256"], *known["again"], "<svg "):
        if html.escape(wanted).replace("&lt;svg", "<svg") not in text:
            raise Wrong(f"  not in the report: {wanted}\n{text}")
    if [it["what"] for it in known["inputs"]] != ["event", "document", "kept lines"] or not text.index("Shown") < text.index("that file, by its digest") < text.index("theorem"):
        raise Wrong(f"  {known['inputs']}\n{text}")
    loom.expect(["judge", name, "h", "p", "nothing", "--report", "r.html"], 3, "p: shown")
    text = loom.read("r.html").decode()
    raw = [it for it in ("<script", "<img", "<i>.", "<b>of", "\u202e", "javascript:") if it in text]
    if raw or not all(it in text for it in ("letter &lt;b&gt;of", "The history of shop, bound up to step 2", "Not judged", "&lt;script&gt;")):
        raise Wrong(f"  raw: {raw}\n{text}")
    loom.put("forged/sold", b"bribe\n")
    loom.expect("judge p --file forged/sold --report r.html", 1, "p: not shown: recorded, but not this file")
    text = loom.read("r.html").decode()
    if "Not shown: recorded, but not this file" not in text or "What is called shown" in text or "<svg" in text:
        raise Wrong(f"  {text}")
    loom.put("many/p", loom.read("p"))
    loom.expect("judge --many many --workers 1 --report r", 2)
    loom.expect("judge --many many --workers 1", 0)
    if f"table made on {known['judged_on'][:8]}" not in loom.read("many.verdicts.tsv").decode().splitlines()[0]:
        raise Wrong(f"  {loom.read('many.verdicts.tsv')}")


# ---- ten cases


REPORTS = TOP / "examples/reports"


def plain_report(text):
    """A report without what another day, and another build of library, program and code, tell otherwise: where no library is built, the program judges."""
    text = re.sub(r"\d{4}-\d\d-\d\d \d\d:\d\d:\d\d UTC", "DAY", text)
    text = re.sub(r"(?:proved )?(?:program|library)(?:, not known to be proved)?, SHA-256 [0-9a-f]{64}", "JUDGE", text)
    return re.sub(r"(with its reference), SHA-256 [0-9a-f]{64}", r"\1", text).replace("<li>JUDGE</li>\n", "").replace("<li>JUDGE</li>", "")


def by_page(loom, folder, asked):
    """What the page says first of each of these cases."""
    words = [needs("node", "nodejs"), TOP / "tests/acceptance/harness/ten_cases.mjs", loom.program, folder]
    done = subprocess.run(words, input="".join(f"{json.dumps(it)}\n" for it in asked), capture_output=True, text=True, timeout=LONGEST, check=False)
    found = [json.loads(line) for line in done.stdout.splitlines()]
    if len(found) != len(asked):
        raise Wrong(f"  {done}")
    return found


def ten_cases(room):
    """ten cases as a clerk and an expert meet them get one answer each, by weft and by the page, and their reports are those in examples/reports"""
    loom = Loom(room)
    folder = loom.folder / "ten"
    done = subprocess.run([sys.executable, TOP / "examples/ten_cases.py", loom.program, folder], env=loom.env, capture_output=True, text=True, check=False)
    if done.returncode:
        raise Wrong(f"  {done}")
    told = {line.split(":")[0]: said for line, said in zip(*[iter(done.stdout.splitlines())] * 2)}
    wrong = [f"  weft says of {case.name}:{told[case.name]}" for case in CASES if told[case.name].strip() != f"{case.proof}: {case.headline}"]
    asked = [
        {"folder": str(folder / it.name), "proof": it.proof, "sent": ["sent.lines"] * bool(it.sent), "own": [], "document": it.document and "deed.txt"} for it in CASES
    ]  # fmt: skip
    for it in asked:
        it["own"] = ["my.lines"] * bool((Path(it["folder"]) / "my.lines").stat().st_size)
    wrong += [f"  the page says of {it.name}: {page}" for it, page in zip(CASES, by_page(loom, folder, asked)) if page["title"] != it.headline[0].upper() + it.headline[1:]]
    for case in CASES:
        made, kept = plain_report((folder / case.name / "report.html").read_text()), REPORTS / f"{case.name}.html"
        if not kept.exists() or plain_report(kept.read_text()) != made:
            wrong.append(f"  examples/reports/{case.name}.html isn't the report that examples/ten_cases.py makes")
    if wrong:
        raise Wrong("\n".join(wrong))


def from_one_file(room):
    """the same ten cases, each with what was sent in one bundle, get the answer that they get from loose files: the same headline, status and text of the judge"""
    loom = Loom(room)
    world = make_world(loom.program, loom.folder / "world")
    loom.put("none", "")
    for case in CASES:
        folder = loom.folder / case.name
        words = make_case(world, case, folder)
        make_bundle(world, case, folder)
        carried = ["--carried"] * ("--carried" in words)
        lines = str(folder / "my.lines")
        loose = ["judge", f"{case.name}/{case.proof}", "--kept", lines, *carried, *(["--file", f"{case.name}/deed.txt"] if case.document is not None else [])]
        said = []
        for told in (loose, ["judge", f"{case.name}/evidence.zip", "--kept", lines, *carried]):
            done = loom.run(*told, "--json", WEFT_SIGNERS=loom.folder / "none")
            row = json.loads(done.out.splitlines()[0])
            said.append((done.status, row["headline"], row.get("text"), row.get("missing"), row.get("contradicts")))
        if said[0] != said[1] or said[1][1] != case.headline:
            raise Wrong(f"  {case.name}\n  from loose files: {said[0]}\n  from one file:    {said[1]}")


def whole_histories(room):
    """a whole history isn't judged by the page, which names the command that judges it; under the letter of a step that command shows the history that has its line,
    and doesn't show one that was made anew"""
    loom = Loom(room)
    world = make_world(loom.program, loom.folder / "world")
    loom.put("my.lines", world.lines["registry 3"])
    for place, status, wanted in (("registry", 0, ("shown", "registry")), ("anew", 11, ("not shown: a line of yours contradicts the file", "TWO LINES", "other verdicts that rest on lines of registry are in doubt"))):
        name = f"{place}.history"
        loom.put(name, world.run("export", place))
        [page] = by_page(loom, loom.folder, [{"folder": str(loom.folder), "proof": name, "sent": [], "own": ["my.lines"], "document": None}])
        command = re.search(r"`weft (judge HISTORY --kept LINES)`", page["sentence"])
        if page["title"] != "Not judged" or not command:
            raise Wrong(f"  {page}")
        done = loom.expect(command[1].replace("HISTORY", name).replace("LINES", "my.lines"), status, *wanted)
        if f"\n{name}: {wanted[0]}\n" not in done.out:
            raise Wrong(f"  {done}")


def kept_files(room):
    """a file of lines as weft keeps them has one answer by weft and by the page: where its line is alone, where another one was seen of its step, and where it came by
    a key alone"""
    loom = Loom(room)
    world = make_world(loom.program, loom.folder / "world")
    loom.put("deed", (world.folder / "deed").read_bytes())
    line, other = world.lines["registry 3"].strip(), world.lines["anew 3"].split()[2]
    for text, wanted in (
        (f"{line} 2026-03-02T09:40:00Z letter\n", "Shown: no document compared"),
        (f"{line} 2026-03-02T09:40:00Z letter\ncontradiction: {line} {other} 2026-03-03T09:40:00Z\n", "Not judged"),
        (f"{line} 2026-03-02T09:40:00Z signed by registry SHA256:{'x' * 43}\n", "Not judged"),
    ):
        loom.put("my.lines", text)
        [page] = by_page(loom, loom.folder, [{"folder": str(loom.folder), "proof": "deed", "sent": [], "own": ["my.lines"], "document": None}])
        told = re.search(r"^deed: (.*)$", loom.run("judge", "deed", "--kept", "my.lines").out, re.M)
        if page["title"] != wanted or told is None or told[1].capitalize() != wanted:
            raise Wrong(f"  {text}  {page}, {told}")


def cases():
    works = (listed, listed_without_a_part, listed_beyond_a_file, letters, for_reader, reported, ten_cases, from_one_file, whole_histories, kept_files)
    return [case(work, "weft clerk") for work in works]
