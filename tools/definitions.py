#!/usr/bin/env python3
"""Tells each definition in words: what the comments of crates/*/specs say, crate by crate and module by module.

    python3 tools/definitions.py [CRATE ..]              prints those of these crates, or of all
    python3 tools/definitions.py [CRATE ..] --to FILE    writes them into a file

What a definition means is written once, as the comment above it; docs/definitions.md, by hand, says in which order to read them. A comment above one
equation of a definition, or above a field of a record, stands below the definition's own. Definitions that need no words stand at the end of their module.
"""

import re
from pathlib import Path
from typing import Iterator, List, NamedTuple

import declared
from command_line import run_script
from crates import height, read_crates

TOP = Path(__file__).resolve().parent.parent

# A definition that others may use, with its name; a field or constructor below one; the head of an equation.
DEFINITION = re.compile(r"^( *)((?:(?:pub|abbrev|unfoldable) )+)(?:(?:data|record) )?(?!use\b)([\w'-]+)(?:, [\w'-]+)* ?(:|\()?")
PART = re.compile(r"^ *(?:pub )?([\w'-]+)((?:, [\w'-]+)*) : ")
EQUATION = re.compile(r"^ *([\w'-]+)((?: .*?)?) =(?: |$)")
SECTION = re.compile(r"^ *-- ---- ?(.*)")


class Told(NamedTuple):
    """A definition, or what stands below one, with the words above it; `depth` is 0 for a definition."""

    name: str
    words: str
    depth: int


def plain(comment: List[str]) -> str:
    """The words of a comment's lines, as a sentence."""
    words = " ".join(line.strip().removeprefix("--").strip() for line in comment)
    return f"{words[:1].upper()}{words[1:]}{'' if words.endswith(('.', ':', '?')) else '.'}" if words else ""


def read_words(lines: List[str]) -> Iterator[Told]:
    """What a module tells, in its order: sections as (None, words, 0), definitions, and what has words below them."""
    comment: List[str] = []
    owner = ""
    for line in lines:
        section = SECTION.match(line)
        if section:
            yield Told("", section[1].strip(), 0)
            comment = []
        elif line.strip().startswith("--"):
            comment.append(line)
        else:
            definition, part, equation = DEFINITION.match(line), PART.match(line), EQUATION.match(line)
            if definition and (definition[4] or "record" in line or "data" in line) and ("abbrev" in line or "unfoldable" in line or not owner or not part):
                owner = definition[3]
                yield Told(owner, plain(comment), 0)
            elif comment and part:
                yield Told(part[1] + part[2], plain(comment), 1)
            elif comment and equation and equation[1] == owner:
                yield Told((equation[1] + equation[2]).replace("|", "\\|"), plain(comment), 1)
            comment = []


def module(path: Path) -> Iterator[str]:
    """A module of specs in words: its name, what it is of, and its definitions; nothing where it has none."""
    lines = path.read_text().splitlines()
    head = lines[: next((at for at, line in enumerate(lines) if not line.startswith("--")), len(lines))]
    found = list(read_words(lines[len(head) :]))
    if not any(each.name for each in found):
        return
    place = path.relative_to(TOP / "crates").with_suffix("")
    yield from [f"### {place}", "", *([plain(head), ""] if head else [])]
    bare = []
    for each, after in zip(found, [*found[1:], Told("", "", 0)]):
        if not each.name:
            yield from ["", f"*{each.words}*", ""] if each.words else [""]
        elif each.words or after.depth:
            yield f"{'  ' * each.depth}- `{each.name}`{': ' * bool(each.words)}{each.words}"
        else:
            bare.append(f"`{each.name}`")
    yield from ([f"- Without words: {', '.join(bare)}."] if bare else [])
    yield ""


def crate(name: str) -> List[str]:
    """The definitions of a crate in words."""
    modules = [line for path in sorted((TOP / "crates" / name / "specs").glob("**/*.antt")) if path.name != "Lib.antt" for line in module(path)]
    return [f"## {name}", "", declared.root_words(name), "", *modules] if modules else []


def page(names: List[str]) -> str:
    """The definitions of these crates, from above down."""
    known = read_crates()
    order = sorted(names or known, key=lambda name: (-height(name, known), name))
    lines = ["# The definitions, one by one", "", "By `python3 tools/definitions.py`, of the comments in `crates/*/specs`; docs/definitions.md says in which order to read them.", ""]
    return "\n".join(lines + [line for name in order for line in crate(name)])


if __name__ == "__main__":
    run_script(lambda: declared.print_page(page, __doc__))
