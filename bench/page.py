#!/usr/bin/env python3
"""Makes bench/RESULTS.md and its pictures of bench/results.json and of the remarks in bench/remarks.txt; nothing is measured.

    python3 bench/page.py [--check]      --check tells what differs, and which document quotes another figure than was measured, and writes nothing

In the remarks `{{table PART TABLE}}` and `{{measured PART}}`, each on a line of its own, and `{{goals}}` stand for what was found of a part, and `{{PART.NAME}}` for
one of its values: `{{million.first.seconds .0f}}` tells it in that form, `{{nights.of_1000.night.memory_kib*0.001024 .0f}}` times a number. What wasn't measured is `?`."""

import argparse
import re
import sys
from pathlib import Path
from typing import Any, Dict, Iterator, List, NamedTuple, Tuple

HERE = Path(__file__).resolve().parent
TOP = HERE.parent
sys.path[:0] = [str(TOP / "examples")]

import quotes  # noqa: E402
import svg  # noqa: E402
from measuring import Found, read_results  # noqa: E402

from command_line import run_script  # noqa: E402

VALUE = re.compile(r"\{\{(?P<path>\w+(?:\.\w+)+)(?:\*(?P<times>[\d.]+))?(?: (?P<form>[^}]+))?\}\}")


class Goal(NamedTuple):
    """What is measured, by which unit, the most that it is to be, or the least where more is better, and where its value stands."""

    what: str
    unit: str
    bound: float
    path: str
    is_least: bool = False


GOALS = (
    Goal("`verify` of 145 bytes", "times `/bin/true`", 1.10, "commands.verify"),
    Goal("`verify` of 14,547 bytes", "times its hashes, by instructions", 1.10, "hashes.verify.ratio"),
    Goal("`append`", "times the same calls in C", 1.05, "commands.append"),
    Goal("`thread`, since the step before", "times the same calls in C", 1.15, "commands.thread"),
    Goal("`receive`, 1,000 threads of 3 peers", "times the same calls and as many hashes in C", 1.05, "receiving.by_calls_and_hashes"),
    Goal("`export` of 16 MiB", "times the same calls in C", 1.80, "exports.by_calls"),
    Goal("`show` of the first event of 16 MiB", "times its hashes, by instructions", 1.10, "histories.show"),
    Goal("`generate`", "times its hashes, by instructions without those that fill memory", 1.50, "hashes.generate.ratio"),
    Goal("`audit` of 1 MiB of steps without events", "times its hashes, by instructions", 1.30, "histories.audit"),
    Goal("`audit` of 16 MiB of steps without events, memory", "times the file", 8, "histories.audit_memory"),
    Goal("an insert into a tree in pages", "times the hashes of its pages, by instructions", 1.30, "trees.ratio"),
    Goal("the library from C in four threads", "proofs of 145 bytes a second", 1_000_000, "in_process.four_threads", True),
    Goal("`timeweave.Service`, 1,024 calls under way", "of the program's events a second", 0.85, "recording.share", True),
    Goal("`weft help`, startup", "seconds of a processor", 0.10, "startup.help"),
)


# ---- texts


def value_of(results: Found, path: str) -> Any:
    """The value at a path; None where it wasn't measured."""
    part, *names = path.split(".")
    found: Any = results.get(part, {}).get("values")
    for name in names:
        found = found.get(name) if isinstance(found, dict) else None
    return found


def fill(text: str, results: Found) -> str:
    """The text with the values that it asks for."""

    def value(asked: "re.Match[str]") -> str:
        found = value_of(results, asked["path"])
        return "?" if found is None else format(found * float(asked["times"]) if asked["times"] else found, asked["form"] or ("," if isinstance(found, int) else ""))

    return VALUE.sub(value, text)


def cell(value: Any, places: int) -> str:
    """A cell of a table: two numbers in one are parted by a semicolon."""
    if isinstance(value, list):
        return "; ".join(cell(it, places) for it in value)
    return "?" if value is None else f"{value:,.{places}f}" if isinstance(value, float) else f"{value:,}" if isinstance(value, int) else str(value)


def table_lines(found: Found, processors: int) -> Iterator[str]:
    """The lines of a table; a row that was measured while more than half of the processors were wanted by others says so."""
    yield f"| {' | '.join(found['columns'])} |"
    yield "|---" * len(found["columns"]) + "|"
    for row in found["rows"]:
        cells = [cell(row.get(name), places) for name, places in found["columns"].items()]
        notes = [*([f"at load {row['load']}"] if row.get("load", 0) > processors / 2 else []), *([row["note"]] if "note" in row else [])]
        noted = f" ({', '.join(notes)})" if notes else ""
        yield f"| {cells[0]}{noted} | {' | '.join(cells[1:])} |"
    if "commit" in found:
        yield from ("", f"*Commit {found['commit']}*")


def measured(part: Found) -> str:
    """When, by what and where a part was measured, as far as that was noted; by `make bench` where nothing else is said."""
    about, noted = part.get("machine", {}), part.get("load")
    told = [f"*Commit {part['commit']}{', changed' if part.get('changed') else ''}", part["day"]]
    told += [f"`{part['by']}`"] if "measure.py" not in part["by"] else []
    told += [f"{about['processors']} processors, {about['processor']}"] if "processor" in about else []
    told += [f"a sync {about['sync_ms']['median']} ms"] if "sync_ms" in about else []
    return "; ".join([*told, *([f"load {' to '.join(str(it) for it in noted if it is not None)}"] if noted else [])]) + "*"


def goal_lines(results: Found) -> Iterator[str]:
    """The table of the goals; what wasn't measured stays open."""
    yield "| what | by | goal | measured | ratio |"
    yield "|---" * 5 + "|"
    for goal in GOALS:
        found = value_of(results, goal.path)
        places = 2 if goal.bound < 100 else 0
        ratio = None if found is None else goal.bound / found if goal.is_least else found / goal.bound
        bound = f"{'at least' if goal.is_least else 'at most'} {goal.bound:,.{places}f}"
        yield f"| {goal.what} | {goal.unit} | {bound} | {cell(None if found is None else float(found), places)} | {cell(ratio, 2)} |"


def page_of(remarks: str, results: Found) -> str:
    """The page."""
    lines: List[str] = []
    for line in fill(remarks, results).splitlines():
        asked = re.fullmatch(r"\{\{(goals|measured|table)(?: (\w+))?(?: ([\w ]+))?\}\}", line)
        part = results.get(asked[2], {}) if asked and asked[2] else {}
        if asked is None:
            lines.append(line)
        elif asked[1] == "goals":
            lines += goal_lines(results)
        elif asked[1] == "measured" and part:
            lines.append(measured(part))
        elif asked[1] == "table" and part.get("tables", {}).get(asked[3], {}).get("rows"):
            lines += table_lines(part["tables"][asked[3]], part.get("machine", {}).get("processors") or 1)
        else:
            lines.append("(?)")
    return "\n".join(lines) + "\n"


# ---- pictures

BAR, GAP, LEFT, WIDTH, RIGHT = 18, 8, 270, 500, 70
STYLE = "text { font: 13px sans-serif }"
# What a bar shows, by how the command's name begins, the last for all others: its colour, what that is, and where the legend tells it.
KINDS = (
    ("/bin/true", "#9aa0a6", "a program that does nothing", 8), ("the calls", "#e0a030", "the same calls on files, in C", 245),
    ("timeweave", "#2b6cb0", "timeweave", 475), ("", "#c9ced4", "another program", 595),
)  # fmt: skip


def draw_commands(tables: Dict[str, Found]) -> str:
    """The tables of commands as bars: each command's time by that of the first."""
    parts, y = [svg.text(8, 22, "Time as a multiple of that of /bin/true (dashed line); each group has a scale of its own.")], 68
    for _, colour, meaning, x in KINDS:
        parts += [svg.shape("rect", x=x, y=36, width=12, height=12, fill=colour), svg.text(x + 18, 47, meaning)]
    for title, found in tables.items():
        rows = [(row["command"].replace("`", ""), row["by `/bin/true`"]) for row in found["rows"]]
        parts.append(svg.text(8, y + 14, title, font_weight="bold"))
        top, most = y, max(ratio for _, ratio in rows)
        for label, ratio in rows:
            colour = next(colour for begin, colour, _, _ in KINDS if label.startswith(begin))
            parts += [svg.text(LEFT - 8, y + 14, label, "end"), svg.shape("rect", x=LEFT, y=y, width=WIDTH * ratio / most, height=BAR, fill=colour)]
            parts.append(svg.text(LEFT + max(WIDTH * ratio / most, WIDTH / most) + 6, y + 14, f"{ratio:.2f}"))
            y += BAR + GAP
        parts.append(svg.shape("path", d=f"M{LEFT + WIDTH / most:.1f} {top - 4}V{y - 4}", stroke="#444", stroke_dasharray="3 3"))
        y += 16
    return svg.picture(LEFT + WIDTH + RIGHT, y - 8, [svg.shape("rect", width="100%", height="100%", fill="white"), *parts], style=STYLE)


def draw_network(found: Found) -> str:
    """The share of the other services that stand behind a step, by nights."""
    left, above, width, height, shares = 60, 48, 560, 240, found["spread"]["shares"]
    last = next((night for night, share in enumerate(shares) if share >= shares[-1]), len(shares) - 1) + 1
    points = [(left + night * width / last, above + height * (1 - share)) for night, share in enumerate(shares[: last + 1])]
    title = f"Share of the other services that stand behind a step, by nights: {found['services']:,} services, {found['nights']:,} nights"
    parts = [svg.shape("rect", width="100%", height="100%", fill="white"), svg.text(left, 24, title)]
    for share, colour, dashes in (*((tenth / 10, "#dde1e6", "none") for tenth in range(0, 11, 2)), (0.99, "#e0a030", "4 3")):
        y = above + height * (1 - share)
        parts += [svg.shape("path", d=f"M{left} {y:.1f}h{width}", stroke=colour, stroke_dasharray=dashes)]
        parts.append(svg.text(left + width + 6, y + 4, "99 %") if share == 0.99 else svg.text(left - 8, y + 4, f"{share:.0%}", "end"))
    parts += [svg.text(left + night * width / last, above + height + 20, night, "middle") for night in range(0, last + 1, max(1, last // 12))]
    parts.append(svg.text(left + width / 2, above + height + 40, "nights after the one in which it was recorded", "middle"))
    parts.append(svg.shape("polyline", points=" ".join(f"{x:.1f},{y:.1f}" for x, y in points), fill="none", stroke="#2b6cb0", stroke_width=2))
    parts += [svg.shape("circle", cx=x, cy=y, r=3, fill="#2b6cb0") for x, y in points]
    return svg.picture(left + width + 48, above + height + 48, parts, style=STYLE)


# ---- files


def made_files(results: Found) -> Iterator[Tuple[str, str]]:
    """The files that are made, each with its text."""
    yield "RESULTS.md", page_of((HERE / "remarks.txt").read_text(), results)
    if "commands" in results:
        yield "RESULTS.svg", draw_commands(results["commands"]["tables"])
    if "network" in results:
        yield "NETWORK.svg", draw_network(results["network"]["values"])


def wrong_quotes(results: Found) -> Iterator[str]:
    """The documents that quote other figures than were measured: what they'd have to say."""
    for document, texts in quotes.QUOTED.items():
        said = " ".join((TOP / document).read_text().split())
        yield from (f"{document} doesn't say: {wanted}" for wanted in (" ".join(fill(text, results).split()) for text in texts) if wanted not in said)
    for document, part, name in quotes.TABLES:
        head, _, *rows = table_lines(results[part]["tables"][name], results[part]["machine"]["processors"])
        shown = (TOP / document).read_text().partition(f"{head}\n")[2].partition("\n\n")[0].splitlines()[1:]
        yield from (f"{document} has a row that wasn't measured: {row}" for row in shown or ["none at all"] if row not in rows)


def main() -> int:
    """Writes what is made, or checks it."""
    words = argparse.ArgumentParser(description=__doc__, formatter_class=argparse.RawDescriptionHelpFormatter)
    words.add_argument("--check", action="store_true", help="tells what differs, and writes nothing")
    given, results = words.parse_args(), read_results()
    wrong = list(wrong_quotes(results))
    for name, text in made_files(results):
        if not given.check:
            (HERE / name).write_text(text)
        elif (HERE / name).read_text() != text:
            wrong.append(f"bench/{name} isn't made of bench/results.json and bench/remarks.txt")
    print("".join(f"{it}\n" for it in wrong), end="")
    return 1 if wrong and given.check else 0


if __name__ == "__main__":
    run_script(main)
