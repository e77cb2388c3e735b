#!/usr/bin/env python3
"""Tries the built page in a browser without a connection, as a user meets it, and compares what it says with what the program says.

    python3 web/tests/try_page.py PROGRAM [chromium | firefox] [PICTURES]     tells each situation, and puts pictures into the folder

Each situation is a function; its docstring says what it shows.
"""

import os
import re
import shutil
import subprocess
import sys
import tempfile
import time
import zlib
from pathlib import Path

sys.path.insert(0, str(Path(__file__).resolve().parent))

from browsers import SECONDS, Chromium, Failed, Firefox, is_there  # noqa: E402
from made import MARKUP, MOST_HOPS, TOP, all_made, authenticator_of, other_line  # noqa: E402

sys.path.insert(0, str(TOP / "examples"))

from ten_cases import CASES, make_case, make_world  # noqa: E402

PAGE = TOP / "web/timeweave.html"
BROWSERS = {"chromium": Chromium, "firefox": Firefox}

# Ten times what it may take from opening the page to the first verdict, and until a file of 200 MB is told of: asserted where the machine is idle, and nowhere else.
MOST_MILLISECONDS, MOST_SECONDS = 3000, 10


class Wrong(Exception):
    """The page says or does something else."""


def check(holds, what):
    if not holds:
        raise Wrong(what)


class Page:
    """The page in a browser, and the files to try it with."""

    def __init__(self, browser, made):
        self.browser, self.made = browser, made

    def fresh(self):
        """Opens it anew."""
        self.browser.forget()
        self.browser.open(PAGE)
        return self

    def settle(self, number):
        """Waits until so many files are there, and all proofs of them are judged."""
        self.browser.wait(f"document.querySelectorAll('#digests tbody tr').length === {number} && document.querySelector('#progress').textContent === ''")
        self.browser.wait("document.querySelectorAll('.held li').length > 0 && [...document.querySelectorAll('#digests code')].every(it => it.textContent !== 'being computed')")

    def judged_after(self, work):
        """Does what has all judged anew, and waits until it is."""
        count = "performance.getEntriesByName('judged').length"
        before = self.browser.value(count)
        work()
        self.browser.wait(f"{count} > {before}")
        return self

    def give(self, place, *names):
        """Chooses files for a field, and waits for what comes of it."""
        there = self.browser.value("document.querySelectorAll('#digests tbody tr').length")
        self.judged_after(lambda: self.browser.choose(f"#{place}-files", [self.made.path(name) for name in names]))
        self.settle(there + len(names))
        return self

    def click(self, selector):
        """Clicks on what has all judged anew, and waits until it is."""
        return self.judged_after(lambda: self.browser.click(selector))

    def drop(self, selector, *names):
        """Drops files on a field, and waits for what comes of it."""
        return self.judged_after(lambda: self.browser.drop(selector, [self.made.path(name) for name in names]))

    def text(self, selector="#verdicts"):
        return self.browser.text(selector)

    def titles(self):
        return self.browser.value("[...document.querySelectorAll('.verdict h3')].map(it => it.textContent)")

    def exact(self, number=0):
        """The exact texts of a verdict: of the verifier, and of its strict form."""
        return self.browser.value(f"[...document.querySelectorAll('.verdict')[{number}].querySelectorAll('h4')].filter(it => it.textContent.startsWith('Exact')).map(it => it.nextElementSibling.textContent)")

    def says(self, *wanted, selector="#verdicts"):
        text = self.text(selector)
        for it in wanted:
            check(it in text, f"not in the text: {it!r}\n{text}")

    def is_as_told(self, file, lines):
        """The exact texts are those that the program writes."""
        told, strict = self.made.judged(file, lines), self.made.judged(file, lines, "strict")
        wanted = [told, strict] if told.startswith("accepted") and strict != told else [told]
        check(self.exact() == wanted, f"{file}: the page says {self.exact()}, the program {wanted}")


# ---- situations


def accepted_record(page):
    """a record is accepted, told in a sentence and by the program's text, with the line that counted and where it is from"""
    page.fresh().give("sent", "record.proof").give("own", "shop.lines")
    page.is_as_told("record.proof", page.made.lines["shop"])
    page.says("Shown", "shop recorded in its step 1, as event 1: milk.", "claims the time 2023-11-14 22:13:20 UTC", page.made.lines["shop"].strip(), "got another way: shop.lines, line 1")


def files_dropped(page):
    """files that are dropped are taken as chosen ones are; beside the fields they are told where to go"""
    page.fresh()
    page.drop("#sent", "bound.proof")
    page.settle(1)
    page.drop("#own", "both.lines")
    page.settle(2)
    page.is_as_told("bound.proof", page.made.lines["shop"] + page.made.lines["registry"])
    page.browser.drop("h1", [page.made.path("record.proof")])
    page.browser.wait("document.querySelector('#progress').textContent.startsWith('Drop the files on one of the three fields')")
    check(page.browser.value("document.querySelectorAll('#digests tbody tr').length") == 2, "a file that was dropped beside the fields was taken")


def one_by_one(page):
    """files come one by one; until a line is there, it is told which is needed, and what to do"""
    page.fresh().give("sent", "bound.proof")
    page.says("Not judged", "The line of step 2 of registry is missing", "is neither registry nor whoever sent you this file", "shows nothing about the time before")
    page.give("own", "shop.lines")
    page.says("Not judged", "step 2 of registry")
    page.made.put("registry.lines", page.made.lines["registry"])
    page.give("own", "registry.lines")
    check(page.titles() == ["✔ Shown"], str(page.titles()))
    page.click("[aria-label='Remove registry.lines']")
    check(page.titles() == ["? Not judged"], str(page.titles()))
    page.give("sent", "old-record.proof")
    page.says("Or ask for the proof under a step of shop that you hold a line of: 3")


def all_kinds(page):
    """each kind of proof has its sentence, its exact text and its picture"""
    both = page.made.lines["registry"], page.made.lines["shop"]
    for file, lines, sentence in (
        ("record.proof", both[1], "shop recorded in its step 1, as event 1: milk."),
        ("bound.proof", "".join(both), "registry recorded in its step 2, as event 0: entry of the registry. The first came before the second."),
        ("thread.proof", both[0], "registry had received step 2 of shop, authenticator"),
        ("absent.proof", both[0], "registry had received no step 1 of shop up to its step 1, if it kept the rules"),
        ("link.proof", both[1], "Step 2 of shop, seen from its step 3, has the authenticator"),
    ):
        page.fresh().give("sent", file).give("own", "both.lines")
        page.is_as_told(file, lines)
        page.says(sentence)
        check(page.browser.value("document.querySelectorAll('figure svg').length") > 0, f"{file} has no picture")


def on_a_word(page):
    """a thread that no line binds is told as its receiver's word, and the strict form's refusal with it"""
    page.fresh().give("sent", "word.proof").give("own", "both.lines")
    page.is_as_told("word.proof", page.made.lines["registry"])
    check("rejected 8" not in page.text("#verdicts"), "the exact text isn't folded away")
    page.browser.click(".exact button")
    page.says("rejected 8 Carried 1", "What counts is the title above")
    page.says("Shown in part: on somebody's word", "By registry's word alone: shop recorded", "Not shown: only registry says that step 2 of shop was so", "Ask whoever sent it for the same proof with links from step 2 of shop", "not bound")


def senders_lines(page):
    """the sender's lines are grey and don't count; each counts after a click, which is told"""
    page.made.put("sent.lines", page.made.lines["shop"] + page.made.lines["registry"])
    page.fresh().give("sent", "bound.proof", "sent.lines")
    page.says("From the sender, who could have made them up: they don't check him", selector="#sent-held")
    page.says("Not judged", "Only the sender gave you one", "who could have made it up: it doesn't check him")
    for _ in range(2):
        page.click(".verdict .sender button")
    check(page.titles() == ["◐ Shown in part: by the sender's own lines"], str(page.titles()))
    page.says("from the sender, in sent.lines, line 1; it counts since you said so", "2 lines that counted came from the sender, who could have made them up")
    page.is_as_told("bound.proof", "".join(page.made.lines[name] for name in ("registry", "shop")))
    page.give("own", "both.lines")
    check(page.titles() == ["✔ Shown"], str(page.titles()))


def contradicting_lines(page):
    """lines that contradict each other are told, and none counts until one is chosen; the sender's against yours are told too"""
    page.fresh().give("sent", "record.proof").give("own", "shop.lines", "other.lines")
    page.says("Your lines of step 3 of shop contradict each other", selector="#alerts")
    page.says("Not judged", "you hold 2 different ones")
    page.browser.value("document.querySelector('#alerts label:nth-of-type(1) input').focus()")
    page.click("#alerts label:nth-of-type(1) input")
    check(page.titles() == ["✔ Shown"], str(page.titles()))
    check(page.browser.value("document.activeElement.type") == "radio", "who chose a line isn't at the choice any more")
    page.click("#alerts label:nth-of-type(2) input")
    check("Not shown" in page.titles()[0], str(page.titles()))
    page.is_as_told("record.proof", other_line(page.made.lines["shop"]))
    page.says("It isn't of the history of your lines", "Ask others who hold lines of that service")
    page.fresh().give("own", "shop.lines").give("sent", "record.proof", "other.lines")
    page.says("The sender's line of step 3 of shop contradicts yours", selector="#alerts")
    check(page.titles() == ["✔ Shown"], str(page.titles()))


def shown_line_differs(page):
    """a line that a proof shows is held against yours of that step"""
    page.made.put("false.lines", page.made.lines["registry"] + other_line(page.made.lines["shop 2"]))
    page.fresh().give("sent", "thread.proof").give("own", "false.lines")
    page.says("The line of step 2 of shop that you kept is another one", "two histories")
    check(page.titles() == ["✘ Not shown: a line of yours contradicts the file"], str(page.titles()))
    page.made.put("true.lines", page.made.lines["registry"] + page.made.lines["shop 2"])
    page.fresh().give("sent", "thread.proof").give("own", "true.lines")
    page.says("That is the line of step 2 of shop that you kept")


def bundles_opened(page):
    """a bundle that is dropped is opened: its lines are the sender's until a line of the reader's meets one, its stamp counts nothing, its record is compared; what is none isn't
    judged"""
    page.fresh().drop("#sent", "milk.zip").settle(1)
    check(page.titles() == ["? Not judged"], str(page.titles()))
    page.says("The line of step 3 of shop in the file is the sender's alone: nothing is judged under it.", "This page checks no stamps, so none counts here: `weft judge BUNDLE` checks them.")
    page.give("own", "shop.lines")
    check(page.titles() == ["✔ Shown"], str(page.titles()))
    page.says("The line of step 3 of shop in the file is the one that you kept.", "milk.txt is that file")
    check("unzip -n milk.zip -d opened\ntimeweave verify opened/proof LINES" in page.browser.value("document.querySelector('#again').textContent"), "the sheet names other commands")
    page.is_as_told("record.proof", page.made.lines["shop"])
    page.fresh().give("own", "other.lines").drop("#sent", "milk.zip").settle(2)
    check(page.titles()[0].startswith("✘ Not shown"), str(page.titles()))
    page.says("is another one than", "The sender's line of step 3 of shop contradicts yours.", selector="main")
    page.fresh().give("own", "shop.lines").drop("#sent", "beer.zip").settle(2)
    check(page.titles() == ["✘ Not shown: recorded, but as no file"], str(page.titles()))
    page.fresh().drop("#sent", "cut.zip").settle(1)
    page.says("Not judged", "cut.zip is no bundle of weft: its end isn't that of a zip file")


def changed_files(page):
    """changed and cut proofs are rejected with the program's text and what to do"""
    for file, lines, wanted in (
        ("changed.proof", page.made.lines["shop"], "The event isn't the one of that step"),
        ("cut.proof", "", "it is cut short or was changed at byte 100"),
    ):
        page.fresh().give("own", "shop.lines").give("sent", file)
        page.is_as_told(file, lines)
        page.says("Not shown", wanted, "What to do:")


def the_document(page):
    """a document is held against what was recorded, by its digest and name, and the headline follows it; alone, or in a wrong field, it is told what is missing"""
    page.made.put("sold", "bread\n")
    page.made.path("forged").mkdir(exist_ok=True)
    page.made.put("forged/sold", "bribe\n")
    page.fresh().give("sent", "sold.proof").give("own", "shop.lines").give("document", "sold")
    page.says("Shown", "the file sold (SHA-256 f942d248a81932a858edb9a38e425ccf6042e8323587c4f74272765e4d131234)", "sold is that file, by its digest and name.")
    check(page.titles() == ["✔ Shown"], str(page.titles()))
    page.says("computed by the browser", selector="#document-held")
    page.fresh().give("sent", "sold.proof").give("own", "shop.lines").give("document", "forged/sold")
    check(page.titles() == ["✘ Not shown: recorded, but not this file"], str(page.titles()))
    page.says("sold is another file of the same name", "recorded: f942d248a81932a858edb9a38e425ccf6042e8323587c4f74272765e4d131234\nyours: ", "Another version of a file")
    page.fresh().give("sent", "sold")
    check(page.titles() == ["? Not judged"], str(page.titles()))
    page.says("sold is no file of Timeweave", "Is it the document itself? Then its proof is missing")
    page.click("[aria-label='It is the document: sold']")
    page.says("isn't compared with anything: no proof of an event is here")
    page.give("sent", "sold.proof", "shop.lines")
    page.click("[aria-label='You got them another way: shop.lines']")
    check(page.titles() == ["✔ Shown"], str(page.titles()))


def what_is_no_proof(page):
    """other files of Timeweave and bad lines are told, each with the command for it or what is wrong"""
    page.fresh().give("sent", "shop.history").give("own", "bad.lines")
    page.says("shop.history is a whole history, and no proof, so this page doesn't judge it: `weft judge HISTORY --kept LINES` does.")
    check(page.titles() == ["? Not judged"], str(page.titles()))
    page.says("Line 3 doesn't count: the line of step 0", "Other words stand beside the line of step 3 of shop", selector="#own-held")
    page.give("own", "record.proof")
    page.says("it was put among what you were sent", selector="#sent-held")
    check(page.titles() == ["? Not judged", "? Not judged"], str(page.titles()))
    page.click("[aria-label='Count the line of step 3 of shop']")
    check(page.titles() == ["✔ Shown", "? Not judged"], str(page.titles()))


def judges(page, call):
    """Whether the page's module has this function of the library."""
    return f"timeweave_{call}".encode() in (TOP / "web/timeweave.wasm").read_bytes()


def maps_judged(page):
    """a low and a high map file of one step are judged together, told in a sentence and by the program's text; one alone asks for the other"""
    page.fresh().give("sent", "low.map")
    if not judges(page, "checkmap"):
        return page.says("Not judged", "`timeweave checkmap LOW HIGH ANCHORS` does")
    page.says("it is the low file of a map of step 2 of registry among the steps of shop", "Ask the sender for the high file")
    page.give("sent", "high.map")
    page.says("Not judged", "The line of step 2 of registry is missing")
    page.give("own", "both.lines")
    told = page.made.judged(["low.map", "high.map"], page.made.lines["registry"] + page.made.lines["shop"], "checkmap")
    check(page.exact() == [told] and page.titles() == ["✔ Shown"], f"{page.exact()}, the program {told!r}")
    page.says("If registry and shop kept the rules: before its step 2, registry had received step 2 of shop, and no later one", "Up to its step 3, shop received neither step 2 of registry")
    check(page.browser.value("document.querySelectorAll('figure svg').length") > 0, "a map has no picture")
    page.made.put("changed.map", page.made.path("low.map").read_bytes()[:-1] + b"?")
    page.fresh().give("sent", "changed.map", "high.map").give("own", "both.lines")
    check(page.titles() == ["✘ Not shown"], str(page.titles()))


def evidence_judged(page):
    """evidence of a fork is judged under the lines of both receivers, and told by the program's text"""
    page.fresh().give("sent", "fork.evidence")
    if not judges(page, "checkfork"):
        return page.says("Not judged", "`timeweave checkfork FILE ANCHORS` does")
    page.says("Not judged", "The line of step 2 of bank is missing")
    page.give("own", "receivers.lines")
    told = page.made.judged("fork.evidence", page.made.path("receivers.lines").read_text(), "checkfork")
    check(page.exact() == [told] and page.titles() == ["✔ Shown"], f"{page.exact()}, the program {told!r}")
    page.says("bank received step 1 of liar", "gazette received step 1 of liar", "No history of liar has both", "Who broke a rule isn't shown: liar may have", "Ask both")
    page.fresh().give("sent", "changed.evidence").give("own", "receivers.lines")
    check(page.titles() != ["✔ Shown"], "changed evidence is accepted")


def conflicts_told(page):
    """two accepted files that contradict each other on what a service received are told before their verdicts"""
    page.fresh().give("sent", "has.proof", "lacks.proof").give("own", "keeper.lines")
    told = ["✘ Two accepted files contradict each other"] if judges(page, "contradict") else []
    # (the second one's path passes the step of the first one's line, and has another one there)
    check(page.titles() == [*told, "✔ Shown", "✘ Not shown: two of your lines contradict each other"], str(page.titles()))
    if told:
        page.says("By one keeper received step 3 of shop at its step 1, by the other it had received no such step up to its step 3", "it broke its rules, or it has two histories", "Against the others that they name nothing is shown", "Keep both files")


def ten_cases(page):
    """the cases of examples/ten_cases.py get the answers that weft gives"""
    folder = page.made.path("ten")
    world = make_world(page.made.program, folder / "world")
    for case in CASES:
        make_case(world, case, folder / case.name)
        page.fresh()
        if case.own:
            page.give("own", f"ten/{case.name}/my.lines")
        if case.document is not None:
            page.give("document", f"ten/{case.name}/deed.txt")
        page.give("sent", f"ten/{case.name}/{case.proof}", *[f"ten/{case.name}/sent.lines"] * bool(case.sent))
        wanted = case.headline[0].upper() + case.headline[1:]
        check(page.titles()[-1].split(" ", 1)[1] == wanted, f"{case.name}: {page.titles()}, and weft says {wanted!r}")
        if wanted == "Shown":
            page.says("got another way: my.lines, line 1, kept 2026-03-02, letter from the notary")


def is_idle():
    """Whether the machine has a processor to spare: else times say nothing."""
    return os.getloadavg()[0] < os.cpu_count() - 1


def timed(page, place, file, condition):
    """The seconds until the condition holds behind the choice of a file, of which the page tells at once that it is being read."""
    page.browser.value("(() => { window.told = []; new MutationObserver(() => window.told.push(document.querySelector('#progress').textContent)).observe(document.querySelector('#progress'), { childList: true }); return 1; })()")
    begun = time.monotonic()
    page.browser.choose(f"#{place}-files", [page.made.path(file)])
    page.browser.wait(condition)
    seconds = time.monotonic() - begun
    told = page.browser.value("window.told")
    check(f"Reading 1 of 1: {file}" in told, f"no progress is told of {file}: {told}")
    check(seconds < MOST_SECONDS or not is_idle(), f"{file} takes {seconds:.2f} seconds")


def large_files(page):
    """a proof and a file of lines of 200 MB and 10,000 lines are told with progress, soon where the machine is idle; of the lines those that are needed count"""
    page.fresh()
    timed(page, "sent", "huge.proof", "document.querySelector('.verdict')")
    check(page.exact() == [page.made.judged("huge.proof", "")], str(page.exact()))
    page.fresh()
    timed(page, "own", "huge.lines", "document.querySelector('#own-held').textContent.includes('longer than any file of lines')")
    page.fresh().give("sent", "bound.proof")
    timed(page, "own", "many.lines", "document.querySelector('.verdict h3').textContent.includes('Shown')")
    page.says("10,000 lines", selector="#own-held")
    check(page.browser.value("document.querySelectorAll('.lines-that-count li').length") == 2, "other lines count than are needed")


def markup_in_events(page):
    """events are text: markup isn't run, what turns other text around and what is no text is shown by its bytes"""
    page.fresh().give("sent", "markup.proof", "turned.proof", "binary.proof", "foreign.proof").give("own", "shop.lines")
    page.says(MARKUP, "(2 bytes that are no text)", "00ff", "Käse, גבינה")
    check(page.browser.value("document.querySelectorAll('.verdict img, .verdict script').length") == 0, "markup of an event stands in the page")
    check(page.browser.value("document.title") == "Timeweave: check a proof", "markup of an event ran")
    check("\u202e" not in page.text(), "a character that turns text around is shown as it is")


def strange_names(page):
    """a file's name is text too"""
    name = "<b>x<b> .proof"
    page.made.put(name, page.made.path("record.proof").read_bytes())
    page.fresh().give("sent", name).give("own", "shop.lines")
    page.says(name)
    check(page.browser.value("document.querySelectorAll('bdi b').length") == 0, "markup of a name stands in the page")


def most_hops(page):
    """a proof over 64 hops is told hop by hop, as a list that is as wide as the page"""
    page.fresh().give("sent", "long.proof").give("own", "long.lines")
    lines = [f"{service} {step} {hexed}\n" for service, step, hexed in (line.split() for line in page.made.path("long.lines").read_text().splitlines())]
    page.is_as_told("long.proof", "".join(lines))
    check(page.browser.value("document.querySelectorAll('.way li').length") > 2 * MOST_HOPS - 2, "the list is short")
    check(page.browser.value("document.documentElement.scrollWidth <= innerWidth"), "the list is wider than the page")
    page.says("station-63, step 1 received step 1 of station-62", "letter delivered")
    check(page.browser.asked == [], f"the page asked for or met: {page.browser.asked}")


def narrow_and_wide(page):
    """at 360, 800 and 1,600 pixels nothing is wider than the page"""
    for width in (360, 800, 1600):
        page.browser.shape(width)
        for file in ("bound.proof", "word.proof", "long.proof"):
            page.fresh().give("sent", file).give("own", "both.lines", "long.lines")
            found = page.browser.value("[document.documentElement.scrollWidth, innerWidth]")
            check(found[0] <= found[1], f"{file} at {width} pixels is {found[0]} wide")
    page.browser.shape(1040)


def examples_stay_apart(page):
    """an example is shown by itself, and the user's files are there again behind it"""
    page.fresh().give("sent", "record.proof").give("own", "shop.lines")
    for title, verdict in (("a record", "Shown"), ("what came first", "Shown"), ("on somebody's word", "Shown in part"), ("a changed proof", "Not shown")):
        number = [it.strip() for it in page.browser.value("[...document.querySelectorAll('#examples button')].map(it => it.textContent)")].index(title) + 1
        page.click(f"#examples button:nth-of-type({number})")
        page.browser.wait(f"document.querySelector('.verdict h3')?.textContent.includes('{verdict}') && document.querySelectorAll('.verdict').length === 1")
        page.says(f"Example: {title}", "Your own files are set aside", selector="#shown-example")
        check("record.proof" not in page.text("#verdicts") or title == "a record", "a file of the user stands in the example")
    page.click("#leave-example")
    check(page.browser.value("document.querySelector('#shown-example').hidden"), "the example is shown still")
    page.is_as_told("record.proof", page.made.lines["shop"])
    page.click("#examples button")
    page.browser.choose("#own-files", [page.made.path("both.lines")])
    page.browser.wait("document.querySelector('#shown-example').hidden && document.querySelectorAll('#digests tbody tr').length === 3")


def typed_lines(page):
    """lines are typed too, with where they are from"""
    page.fresh().give("sent", "record.proof")
    line = page.made.lines["shop"].strip()
    page.browser.value(f"(() => {{ document.querySelector('#typing').open = true; document.querySelector('#typed').value = '{line}'; document.querySelector('#typed-from').value = 'the gazette'; return 1; }})()")
    page.click("#add-typed")
    check(page.titles() == ["✔ Shown"], str(page.titles()))
    page.says("got another way: typed, the gazette, line 1")


def digests_shown(page):
    """the digests of all files are shown"""
    page.fresh().give("sent", "record.proof").give("own", "shop.lines")
    wanted = [subprocess.run(["sha256sum", page.made.path(name)], capture_output=True, text=True, check=True).stdout.split()[0] for name in ("record.proof", "shop.lines")]
    page.says(*wanted, selector="#digests")


def keyboard_alone(page):
    """all of it is reached by the keyboard, in the order of the page, and named for a screen reader"""
    page.fresh().give("sent", "record.proof").give("own", "shop.lines")
    page.browser.value("(document.activeElement?.blur(), window.reached = [], 1)")
    for _ in range(17):
        page.browser.press("Tab", 9)
        page.browser.value("window.reached.push(document.activeElement.id || document.activeElement.getAttribute('aria-label') || document.activeElement.textContent)")
    reached = page.browser.value("window.reached")
    order = [it for it in reached if it in ("sent-files", "own-files", "document-files", "print", "clear", "Remove record.proof", "Remove shop.lines")]
    check(order == ["sent-files", "Remove record.proof", "own-files", "Remove shop.lines", "document-files", "print", "clear"], f"the keyboard reaches {reached}")
    nameless = page.browser.value("[...document.querySelectorAll('button, input, textarea, select, svg[role=img]')].filter(it => !(it.getAttribute('aria-label') || it.labels?.length || it.textContent.trim())).map(it => it.outerHTML)")
    check(nameless == [], f"without a name: {nameless}")
    check(page.browser.value("document.querySelector('#summary').getAttribute('aria-live') === 'polite' && document.querySelector('#summary').textContent.includes('Shown')"), "the verdict isn't told to a screen reader")


def contrast(page):
    """texts stand out against what they are on by 4.5 to 1 at least, in light and in dark"""
    script = """(() => {
        const rgb = (text) => text.match(/[\\d.]+/g).map(Number), light = (c) => { const v = c / 255; return v <= 0.04045 ? v / 12.92 : ((v + 0.055) / 1.055) ** 2.4; };
        const lum = ([r, g, b]) => 0.2126 * light(r) + 0.7152 * light(g) + 0.0722 * light(b);
        const ground = (it) => { for (; it; it = it.parentElement) { const c = rgb(getComputedStyle(it).backgroundColor); if (c.length < 4 || c[3] > 0) return c; } return [255, 255, 255]; };
        return [...document.querySelectorAll('p, li, h1, h2, h3, h4, code, pre, button, span, td, th, figcaption, svg text')].filter((it) => it.textContent.trim() && it.getClientRects().length).map((it) => {
            const style = getComputedStyle(it), a = lum(rgb(it.closest('svg') ? style.fill : style.color)), b = lum(ground(it));
            return [(Math.max(a, b) + 0.05) / (Math.min(a, b) + 0.05), it.className.baseVal ?? it.className, it.textContent.slice(0, 40)];
        }).filter(([ratio]) => ratio < 4.5);
    })()"""
    for dark in (False, True):
        page.browser.shape(1040, dark=dark)
        for file in ("bound.proof", "word.proof", "changed.proof", "absent.proof"):
            page.fresh().give("sent", file, "other.lines").give("own", "both.lines", "bad.lines")
            found = page.browser.value(script)
            check(found == [], f"{file}{', dark' if dark else ''}: {found}")
    page.browser.shape(1040)


def printed(page):
    """the printed sheet has the verdict, the lines and where they are from, and the digests; and none of the fields"""
    page.fresh().give("sent", "word.proof").give("own", "both.lines")
    with tempfile.TemporaryDirectory() as folder:
        page.browser.print(f"{folder}/sheet.pdf")
        text = subprocess.run(["pdftotext", "-layout", f"{folder}/sheet.pdf", "-"], capture_output=True, text=True, check=True).stdout
    joined = re.sub(r"\s+", " ", text)
    for wanted in ("Shown in part: on somebody's word", "only registry says", "got another way: both.lines", authenticator_of(page.made.lines["registry"])[:40], "carried shop 2", "Not the day by a clock",
                   "Judged on 20", "timeweave verify word.proof LINES", "python3 reference/timeweave_reference verify word.proof LINES", "What the program prints of an accepted proof"):
        check(wanted in joined, f"not in the sheet: {wanted!r}\n{text}")
    for left in ("Choose files", "See an example", "Remove all files"):
        check(left not in joined, f"in the sheet: {left!r}")


def pages_of(data):
    """How many pages a PDF has, the parts of which may be packed."""
    packed = re.findall(rb"stream\r?\n(.*?)\r?\nendstream", data, re.S)
    return sum(len(re.findall(rb"/Type\s*/Page\b", part)) for part in (data, *map(unpacked, packed)))


def unpacked(part):
    """The bytes of a part of a PDF where it is packed in the one way that both browsers have for them."""
    try:
        return zlib.decompressobj().decompress(part)
    except zlib.error:
        return b""


def reports_printed(page):
    """a report that weft writes of each of the ten cases is printed on one page or two, and asks for nothing"""
    page.browser.forget()
    with tempfile.TemporaryDirectory() as folder:
        for path in sorted((TOP / "examples/reports").glob("*.html")):
            page.browser.value("window.isLeft = true")
            page.browser.go(path.as_uri())
            page.browser.wait("!window.isLeft && document.readyState === 'complete'")
            page.browser.print(f"{folder}/report.pdf")
            count = pages_of(Path(f"{folder}/report.pdf").read_bytes())
            check(1 <= count <= 2, f"{path.name} is printed on {count} pages")
    check(page.browser.asked == [], f"a report asked for or met: {page.browser.asked}")


def no_connection(page):
    """the page asks for nothing, its policy lets it ask for nothing, and nothing in it is refused or thrown"""
    page.fresh().give("sent", "bound.proof").give("own", "both.lines")
    check(page.browser.asked == [], f"the page asked for or met: {page.browser.asked}")
    policy = page.browser.value("document.querySelector('meta[http-equiv]').content")
    check("unsafe-inline" not in policy and all(it in policy for it in ("default-src 'none'", "'wasm-unsafe-eval'", "base-uri 'none'", "form-action 'none'")), policy)
    refused = page.browser.value("(() => { try { const it = new XMLHttpRequest(); it.open('GET', 'http://127.0.0.1:9/', false); it.send(); return 'sent'; } catch { return 'refused'; } })()")
    check(refused == "refused", "the policy lets the page ask")
    # (it is told some moments later)
    end = time.monotonic() + SECONDS
    while not page.browser.asked and time.monotonic() < end:
        time.sleep(0.05)
        page.browser.value("1")
    check(page.browser.asked != [], "what the page asks for, and what its policy refuses, isn't seen by this test")


def first_verdict(page):
    """from opening the page to the first verdict it takes little time, where the machine is idle"""
    best = min(milliseconds_to_verdict(page) for _ in range(5 if is_idle() else 1))
    check(best <= MOST_MILLISECONDS or not is_idle(), f"{best:.0f} milliseconds")


def milliseconds_to_verdict(page):
    """From the navigation until the page is ready, and from a click on an example until its verdict stands."""
    page.fresh()
    return page.browser.value("""(() => {
        const ready = performance.getEntriesByName('ready')[0].startTime, begun = performance.now();
        document.querySelector('#examples button:nth-of-type(2)').click();
        return ready + performance.getEntriesByName('judged').at(-1).startTime - begun;
    })()""")


SITUATIONS = (
    accepted_record, files_dropped, one_by_one, all_kinds, on_a_word, senders_lines, contradicting_lines, shown_line_differs, bundles_opened, changed_files, the_document, what_is_no_proof,
    maps_judged, evidence_judged, conflicts_told, ten_cases, large_files,
    markup_in_events, strange_names, most_hops, narrow_and_wide, examples_stay_apart, typed_lines, digests_shown, keyboard_alone, contrast, reports_printed, no_connection, first_verdict,
)
# What needs pdftotext besides.
ON_PAPER = (printed,)


def tried(browser, made, situations=SITUATIONS):
    """Each situation with what was wrong, or None."""
    page = Page(browser, made)
    for situation in situations:
        try:
            situation(page)
            yield situation, None
        except (Wrong, Failed) as wrong:
            yield situation, str(wrong)


PICTURED = (
    ("record.proof", "both.lines"), ("bound.proof", "both.lines"), ("word.proof", "both.lines"), ("changed.proof", "shop.lines"),
    ("long.proof", "long.lines"), ("thread.proof", "both.lines"), ("absent.proof", "both.lines"), ("link.proof", "both.lines"),
)


def pictures(page, folder):
    """Puts pictures of the page into a folder: of each kind of proof at three widths, light and dark, and printed; and those of the documents."""
    folder.mkdir(exist_ok=True)
    for file, lines in PICTURED:
        name, page_of = file.removesuffix(".proof"), page.browser
        for width in (360, 800, 1600):
            for dark in (False, True):
                page_of.shape(width, dark=dark)
                page.fresh().give("sent", file).give("own", lines)
                page_of.picture(folder / f"{name}-{width}{'-dark' if dark else ''}.png", width, dark)
        page_of.print(folder / f"{name}.pdf")
    of_documents(page, folder)


def of_documents(page, folder):
    """The pictures of docs/: what the page says of two of its examples."""
    page.browser.shape(900)
    for number, name in ((2, "page"), (3, "page-word")):
        page.fresh().click(f"#examples button:nth-of-type({number})")
        page.browser.wait("document.querySelector('.verdict')")
        page.browser.picture(folder / f"{name}.png", 900, selector=".verdict")


def main():
    if len(sys.argv) < 2:
        sys.exit(__doc__)
    program, name = os.path.abspath(sys.argv[1]), sys.argv[2] if len(sys.argv) > 2 else "chromium"
    if not is_there(BROWSERS[name]):
        sys.exit(f"{BROWSERS[name].name} isn't there")
    failed = 0
    with tempfile.TemporaryDirectory() as folder:
        made = all_made(program, folder)
        with BROWSERS[name](folder) as browser:
            if len(sys.argv) > 3:
                pictures(Page(browser, made), Path(sys.argv[3]))
            else:
                for situation, wrong in tried(browser, made, SITUATIONS + ON_PAPER * bool(shutil.which("pdftotext"))):
                    failed += wrong is not None
                    print(f"{'FAILED' if wrong else 'passed'} {situation.__doc__.strip()}" + (f"\n{wrong}" if wrong else ""), flush=True)
    return 1 if failed else 0


if __name__ == "__main__":
    sys.exit(main())
