"""A report of judgements on paper, for a file of a court: one file of HTML without a script, whose facts are those of JSON (weft.facts)."""

from __future__ import annotations

import re
from typing import Any, Iterable, Mapping, Optional, Sequence

from weft.deciding.choosing import Headline
from weft.deciding.letters import grouped
from weft.facts import DAY, Facts
from weft.output import marked
from weft.sentences import capital
from weft.statuses import MEANINGS, Status
from weft.texts import name_of

STYLE = """
@page { size: A4; margin: 18mm }
body { font: 10.5pt/1.4 serif; color: #111; background: #fff; max-width: 46rem; margin: 2rem auto; padding: 0 1rem }
h1 { font-size: 15pt; margin: 0 0 .2rem } h2 { font-size: 12pt; margin: 1.1rem 0 .3rem; border-bottom: 1px solid #999 } h3 { font-size: 11pt; margin: .8rem 0 .2rem }
p, li { margin: .25rem 0; overflow-wrap: anywhere } ul { margin: .2rem 0; padding-left: 1.2rem } code, pre, td.digits { font: 8.5pt/1.35 monospace; overflow-wrap: anywhere }
pre { white-space: pre-wrap; border: 1px solid #bbb; padding: .4rem } table { border-collapse: collapse; width: 100%; margin: .3rem 0 } th, td { text-align: left; vertical-align: top;
border: 1px solid #bbb; padding: .15rem .4rem; overflow-wrap: anywhere } th { background: #eee; white-space: nowrap } .headline { font-weight: bold; font-size: 12.5pt; border: 2px solid #111; padding: .3rem .6rem }
p.digits { font: 8.5pt/1.35 monospace; white-space: pre-wrap; margin: 0 }
svg { max-width: 100%; height: auto } tr, pre, figure { break-inside: avoid } h1, h2, h3, .headline { break-after: avoid } figure { margin: .5rem 0 }
table td:first-child, table.files td:last-child { white-space: nowrap } table.files td:nth-child(2) { min-width: 6rem }
@media print { body { margin: 0; padding: 0; max-width: none; font-size: 9.5pt; line-height: 1.3 } code, pre { font-size: 7.5pt } figure svg { max-height: 70mm } }
"""
DIGITS = re.compile(r"^  [a-z]+: +[0-9a-f]{64}$")
POLICY = "default-src 'none'; style-src 'unsafe-inline'"


def tag(name: str, *inside: str, kind: str = "") -> str:
    """An element of what is marked already."""
    return f"<{name}{f' class={chr(34)}{kind}{chr(34)}' if kind else ''}>{''.join(inside)}</{name}>"


def paragraphs(texts: Iterable[str]) -> str:
    """Sentences, one below the other."""
    return "".join(tag("p", marked(text.strip()), kind="digits" if DIGITS.search(text) else "") for text in texts)


def listing(texts: Iterable[str]) -> str:
    """Sentences as a list."""
    return tag("ul", *(tag("li", marked(text)) for text in texts))


def table(head: Sequence[str], rows: Iterable[Sequence[str]], kind: str = "") -> str:
    """A table, of marked cells."""
    return tag("table", tag("tr", *(tag("th", marked(it)) for it in head)), *(tag("tr", *(tag("td", cell) for cell in row)) for row in rows), kind=kind)


def code(text: Optional[str]) -> str:
    """Digits or a command, as they are typed."""
    return tag("code", marked(text if text is not None else "not known"))


# ---- a judgement


def write_judgement(facts: Mapping[str, Any], picture: Optional[str]) -> str:
    """The section of a judgement: its headline, what was said, by which way, on whose lines, and the exact text."""
    names = " and ".join(map(name_of, facts["files"]))
    told = [text for text in facts["says"] if not is_of_lines(text)]
    parts = [tag("h2", marked(names)), tag("p", marked(capital(facts["headline"])), kind="headline"), paragraphs(told)]
    parts += [tag("figure", picture)] if picture else []
    parts += lines_told(facts)
    if facts.get("text"):
        by = "; ".join(facts["judged_by"])
        parts += [tag("h3", "Exact text of the judge"), tag("pre", "\n".join(map(marked, facts["text"].splitlines()))), tag("p", marked(f"Judged by: {by}."))]
    return tag("section", *parts)


def is_of_lines(text: str) -> bool:
    """Whether a sentence is of the lines that a verdict rests on, which stand in a table here."""
    return text.startswith(("It rests on these lines:", "It was judged under these lines:")) or (text.startswith("  ") and "..: " in text)


def lines_told(facts: Mapping[str, Any]) -> list[str]:
    """On whose lines a verdict rests, when and how each came; and those that are missing."""
    rows = [
        [marked(it["service"]), str(it["step"]), tag("code", marked(grouped(it["authenticator"]))), came(it["kept"]), stood(it["stamps"])] for it in facts.get("lines", ())
    ]  # fmt: skip
    title = "The lines that it rests on" if facts["shown"] else "The lines under which it was judged"
    found = [tag("h3", title), table(("service", "step", "authenticator", "when and how it came", "stood by, as a stamp says"), rows)] if rows else []
    missing = [f"step {it['step']} of {it['service']}" for it in facts.get("missing", ())]
    return [*found, *([tag("p", marked(f"Missing: the line of {'; of '.join(missing)}."))] if missing else [])]


def came(ways: Iterable[Mapping[str, str]]) -> str:
    """When and how a line came, for each way on which it did."""
    told = [f"{it['date'][:DAY]}, {it['how']}" if it["date"] and it["how"] else it["date"][:DAY] or "nothing is told of how it came" for it in ways]
    return "<br>".join(map(marked, told)) or marked("nothing is told of how it came")


def stood(stamps: Iterable[Mapping[str, Any]]) -> str:
    """By which day a line stood, as each authority says; nothing is proved of that."""
    return "<br>".join(marked(f"{it['stood_by']}, {it['authority']}") for it in stamps if it["stood_by"]) or marked("no stamp gives a day")


# ---- what is the same of all


def rests(each: Sequence[Mapping[str, Any]]) -> str:
    """Under which assumptions what is shown is so, and what isn't shown."""
    assumed = dict.fromkeys(text for facts in each for text in facts["assumed"])
    theorem, unshown = each[0]["theorem"], each[0]["not_shown"]
    is_shown = any(facts["headline"].startswith(Headline.SHOWN.value) for facts in each)
    told = [tag("h2", "What it rests on"), tag("p", "What is called shown is so, if:"), listing(assumed), tag("p", "The theorem, which is proved of the program: "), tag("p", tag("i", marked(theorem)))]
    return tag("section", *(told if is_shown else []), tag("h2", "What isn't shown"), listing(unshown))


def under_one_a_service(lines: Iterable[Mapping[str, Any]]) -> list[str]:
    """The lines of a judgement, of a service the first one: the program takes no more, and needs none that the proof itself carries."""
    first: dict[str, str] = {}
    for it in lines:
        first.setdefault(it["service"], f"{it['service']} {it['step']} {it['authenticator']}")
    return list(first.values())


def origins(each: Sequence[Mapping[str, Any]]) -> str:
    """The digests of all files and judges, and the commands that judge it once more."""
    inputs = list({tuple(it.items()): it for facts in each for it in facts["inputs"]}.values())
    rows = [[marked(it["what"]), marked(it["file"]), "" if it["bytes"] is None else f"{it['bytes']:,}", code(it["sha256"])] for it in inputs]
    by = each[0]["weft"]
    judges = dict.fromkeys(name for facts in each for name in facts.get("judged_by", ()))
    used = [*judges, f"weft {by['version']} with its reference, SHA-256 {by['sha256']}", *([f"program, SHA-256 {by['program']}"] if by["program"] and not any(by["program"] in name for name in judges) else [])]
    commands = dict.fromkeys(text for facts in each for text in facts.get("again", ()))
    anchors = dict.fromkeys(text for facts in each for text in under_one_a_service(facts.get("lines", ())))
    parts = [tag("h2", "Files"), table(("what", "name", "bytes", "SHA-256"), rows, kind="files"), tag("h2", "Judges"), listing(used)]
    parts += [tag("h2", "To judge it once more"), tag("pre", "\n".join(map(marked, commands)))] if commands else []
    parts += [tag("p", "LINES is a file of these lines, each as it stands here; the web page timeweave.html takes it too:"), tag("pre", "\n".join(map(marked, anchors)))] if anchors else []
    return tag("section", *parts)


def page(each: Sequence[Facts], pictures: Sequence[Optional[str]], between: Sequence[str], status: Status) -> bytes:
    """The report of these judgements, with a picture of each where there is one, what is told of several files together, and how the run ended."""
    day = str(each[0]["judged_on"]).replace("T", " ").replace("Z", " UTC")
    head = f'<!doctype html>\n<html lang="en">\n<head>\n<meta charset="utf-8">\n<meta http-equiv="Content-Security-Policy" content="{POLICY}">\n'
    head += f"<title>{marked('Report of a judgement by Timeweave')}</title>\n<style>{STYLE}</style>\n</head>\n<body>\n"
    title = tag("h1", "Report of a judgement by Timeweave") + tag("p", marked(f"Judged on {day}, by the clock of the machine that judged."))
    title += tag("p", marked(f"It ended with status {int(status)}: {MEANINGS[status]}"))
    together = tag("section", tag("h2", "The files together"), paragraphs(between)) if between else ""
    sections = [write_judgement(facts, picture) for facts, picture in zip(each, pictures)]
    return "\n".join([head + title, together, *sections, rests(each), origins(each), "</body>\n</html>\n"]).encode()
