"""The prose of the documents is easy to read: its lines are at most 120 columns wide, and no sentence of the README, of docs/operating.md and of the
manual pages has more than 40 words. Tables and code may be wider; theorems, which stand as quotations, may be longer."""

import re

from harness.places import MANUAL, TOP
from harness.rooms import checked
from texts.cases.documents import DOCUMENTS

WIDTH, MOST_WORDS = 120, 40

PAGES = [MANUAL, TOP / "weft/weft.1"]

# The documents whose sentences are counted.
COUNTED = [TOP / "README.md", TOP / "docs/operating.md", *PAGES]

# The documents whose lines are: all but the one that `make bench` writes.
WRAPPED = [*(path for path in DOCUMENTS if path.name != "RESULTS.md"), *PAGES]

# What stands behind a sentence: its end, and then a blank. Behind `..` and initials none ends.
END = re.compile(r"(?<=[^.][.?!])[)*\"]*\s+(?=[A-Z`*\"(0-9\[])")


def is_prose(line):
    """Whether a line of Markdown is none of a table, of code, of a heading or of a comment."""
    return not re.match(r"    |\||#|<!--|!\[", line)


def paragraphs_of_markdown(text):
    """The paragraphs, the items of lists and the cells of tables, each as one line; no code, headings, or quotations, which are theorems."""
    yield from (cell.strip() for row in re.findall(r"^\|.*", text, re.M) for cell in row.split("|"))
    text = "\n".join(line if is_prose(line) else "" for line in text.split("\n"))
    for block in re.split(r"\n\s*\n|\n(?= *(?:- |\d+\. ))", text):
        if not block.lstrip().startswith(">"):
            yield " ".join(re.sub(r"\]\([^)]*\)", "]", block).split())


def without_code(path):
    """A document's text with empty lines for what is shown as it is, and for the tables of a manual page."""
    shown = r"^\.(?:nf|TS)$.*?^\.(?:fi|TE)$" if path in PAGES else r"^```.*?^```$"
    return re.sub(shown, lambda block: "\n" * block[0].count("\n"), path.read_text(), flags=re.S | re.M)


def paragraphs_of_manual(text):
    """The paragraphs of a manual page, each as one line, without its requests."""
    text = re.sub(r"^\.TP\n.*$", ".PP", text, flags=re.M)
    for block in re.split(r"^(?:\.(?:PP|SH|SS|br|TH)\b.*)?$", text, flags=re.M):
        line = " ".join(re.sub(r'^\.[BIR]+ |\\fR|"', "", block, flags=re.M).split())
        yield re.sub(r" (?=[.,;:](?: |$))", "", line)


def words(sentence):
    """How many words a sentence has: marks alone are none."""
    return len(re.findall(r"\S*\w\S*", sentence))


def long_sentences(program):
    """The sentences of more than 40 words."""
    wrong = []
    for path in COUNTED:
        paragraphs = paragraphs_of_manual if path in PAGES else paragraphs_of_markdown
        for sentence in (part for block in paragraphs(without_code(path)) for part in END.split(block)):
            if words(sentence) > MOST_WORDS:
                wrong.append(f"  {path.relative_to(TOP)}: {words(sentence)} words: {sentence}")
    return "\n".join(wrong) or None


def wide_lines(program):
    """The lines of prose of more than 120 columns."""
    wrong = []
    for path in WRAPPED:
        for number, line in enumerate(without_code(path).split("\n"), 1):
            if len(line) > WIDTH and (not line.startswith(".") if path in PAGES else is_prose(line)):
                wrong.append(f"  {path.relative_to(TOP)}:{number}: {len(line)} columns")
    return "\n".join(wrong + ["  python3 tools/wrap.py FILE.. wraps them"] * bool(wrong)) or None


def cases():
    yield from checked("prose", {"sentences": long_sentences, "lines": wide_lines})
