"""Tests by the table that the page's own tests read too (web/tests): a line that a file tells is to your lines, and to those that other files tell, what it is to
the page's reader."""

import json
import unittest
from pathlib import Path

from weft.deciding.choosing import hold_line
from weft.deciding.contradicting import find_two_lines
from weft.deciding.keeping import choose_line, standing_of
from weft.deciding.lines import Kept, Line

TABLE = json.loads(Path(__file__).with_name("held_lines.json").read_text(encoding="utf-8"))


def line_of(text: str) -> Line:
    """A line of the table."""
    service, step, letter = text.split(" ")
    return Line(service, int(step), letter * 64)


class HeldLines(unittest.TestCase):
    """What the table says."""

    def test_beside_yours(self) -> None:
        for row in TABLE["beside"]:
            kept = [Kept(line_of(text), "", "") for text in row["yours"]]
            chosen = choose_line(line_of(row["chosen"]), kept, [], "2026-01-01T00:00:00Z", "") if "chosen" in row else None
            standing = standing_of(kept, [chosen] if chosen is not None else [])
            counting = [standing.line] if standing.line is not None else [it.line for it in kept if it.line.service == "shop"]
            self.assertEqual(hold_line(line_of(row["told"]), counting).value.replace("none was kept", "none"), row["is"], row)

    def test_together(self) -> None:
        for row in TABLE["together"]:
            found = find_two_lines((place, line_of(text)) for place, text in row["told"])
            self.assertEqual([[it.first, it.second] for it in found], row["pairs"], row)


if __name__ == "__main__":
    unittest.main()
