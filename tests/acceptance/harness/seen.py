"""What the program answered in this run: that each status, text and reason that the manual page names was among it."""

import re
import shlex

from harness.places import MANUAL

SEEN = set()

# The statuses that no run gives: nobody knows two texts with one SHA-256 digest, and with 127 only a program ends that was built for newer processors than the machine's.
NEVER = {10, 127}


def note(status, output):
    """Keeps a status with the first line that came with it."""
    SEEN.add((status, output.split(b"\n")[0].decode(errors="replace") if len(output) < 4096 else ""))


def pattern(text):
    """The lines that a text stands for: its words in capitals are names and numbers."""
    return "".join(r"\S+" if word.isupper() and word.isalpha() else re.escape(word) for word in re.split("( )", text))


def section(name):
    """A section of the manual page."""
    return MANUAL.read_text().split(f"\n.SH {name}\n")[1].split("\n.SH ")[0]


def statuses():
    """The rows of the manual page's table of statuses: status and text, which may be none."""
    rows = section("EXIT STATUS").split("\n.TS\n")[1].split("\n.TE\n")[0].splitlines()
    for row in rows:
        if re.match(r"\d", row):
            status, text, _ = row.split("|")
            yield int(status), text


def reasons():
    """The reasons of the manual page, each with the words in capitals for its fields."""
    for entry in re.split(r"^\.TP$", section("REASONS"), flags=re.M)[1:]:
        words = shlex.split(next(line for line in entry.splitlines() if re.match(r"\.B[RI]? ", line)))[1:]
        yield "".join(words) if any(" " in word for word in words) else " ".join(words)


def named():
    """The statuses of the manual page, each with the texts that it names, and the reasons."""
    yield from ((status, text) for status, text in statuses() if status not in NEVER)
    yield from ((1, f"rejected {reason}") for reason in reasons())


def missing():
    """The statuses and texts that the manual page names and that no case met."""
    return [
        f"  {status} {text}"
        for status, text in named()
        if not any(status == found and re.match(pattern(text), line) for found, line in SEEN)
    ]
