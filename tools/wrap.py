#!/usr/bin/env python3
"""Wraps the prose of documents at 120 columns; tables, code, headings, comments and pictures stay as they are.

    python3 tools/wrap.py FILE..      of Markdown, or of a manual page, whose name ends in .1
"""

import re
import textwrap
from pathlib import Path

from command_line import reader_of_words, run_script

WIDTH = 120

# The lines of Markdown that stay as they are, and what begins an item or a quotation.
KEPT = re.compile(r"\s*$|#|\||!\[|<!--|    ")
ITEM = re.compile(r"( *(?:- |\d+\. |> ))(.*)")


def filled(lines, first="", rest=""):
    """The lines of a paragraph, filled, with what stands before the first one and before the others."""
    text = " ".join(line.strip() for line in lines)
    return textwrap.wrap(text, WIDTH, initial_indent=first, subsequent_indent=rest, break_long_words=False, break_on_hyphens=False)


def of_markdown(lines):
    """The lines of Markdown, wrapped."""
    out, block, before, is_code = [], [], ("", ""), False
    for line in [*lines, "# (the end)"]:
        item, is_fence = ITEM.match(line), line.startswith("```")
        if block and (is_fence or is_code or item or KEPT.match(line)):
            out += filled(block, *before)
            block = []
        is_code ^= is_fence
        if is_code or is_fence or KEPT.match(line):
            out.append(line)
        elif item:
            block, before = [item[2]], (item[1], "" if ">" in item[1] else " " * len(item[1]))
        else:
            before = before if block else (re.match(" *", line)[0],) * 2
            block.append(line)
    return out[:-1]


def of_manual(lines):
    """The lines of a manual page, wrapped."""
    out, block, is_kept = [], [], False
    for line in [*lines, "."]:
        is_kept = is_kept or line in (".nf", ".TS")
        if is_kept or line[:1] in ("", ".", "'"):
            out += filled(block) + [line]
            block = []
        else:
            block.append(line)
        is_kept = is_kept and line not in (".fi", ".TE")
    return out[:-1]


def main():
    """Wraps the files."""
    words = reader_of_words(__doc__)
    words.add_argument("files", nargs="+", type=Path, metavar="FILE", help="a document")
    for path in words.parse_args().files:
        wrap = of_manual if path.suffix == ".1" else of_markdown
        path.write_text("\n".join(wrap(path.read_text().split("\n"))))


if __name__ == "__main__":
    run_script(main)
