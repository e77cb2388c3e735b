"""A row of a table of verdicts, as it is made of what came of a file: its path and its reason as a table has them."""

from __future__ import annotations

import os

from weft import outcomes
from weft.choosing import Judgement
from weft.deciding import rows
from weft.deciding.choosing import Headline
from weft.deciding.rows import Row
from weft.outcomes import Outcome
from weft.texts import MOST_SHOWN, printable
from weft.trouble import Trouble


def row_of_trouble(name: str, size: int, digest: str, trouble: Trouble) -> Row:
    """The row of a file that wasn't judged."""
    return Row(shown_path(name), size, digest, Headline.NOT_JUDGED.value, int(trouble.status), shown_reason(trouble.sentence), "")


def reason_of(judgement: Judgement, outcome: Outcome) -> str:
    """Why, in short: the kept lines that it contradicts, the lines that are missing, the judge's own words of what is shown, else the
    first sentence."""
    if outcome.told and outcome.told[0].startswith(outcomes.UNCOUNTED_DIFFERS):
        return outcome.told[0]
    if outcome.contradicted:
        return "TWO LINES: " + "; ".join(f"{line.service} {line.step}" for line in outcome.contradicted)
    if judgement.missing:
        return "missing: " + "; ".join(f"{needed.service} {needed.step}" for needed in judgement.missing)
    if judgement.verdict is None or outcome.is_refuted:
        return outcome.told[0]
    if judgement.is_shown and outcome.headline is not Headline.NOT_SHOWN:
        return " | ".join([*judgement.verdict.text.splitlines()[1:3], *cut_off(judgement)])
    return f"{' '.join(judgement.verdict.reason or judgement.verdict.text.split())}: {outcome.told[0]}"


def cut_off(judgement: Judgement) -> list[str]:
    """That a line of a step behind a history's last one was kept, where one was: the file is an older one, or was cut."""
    history = judgement.history
    if history is None or history.held.beyond is None:
        return []
    return [f"ends at step {history.last}, and you hold a line of step {history.held.beyond}"]


def shown_path(name: str) -> str:
    """The path of a file as the table has it, of each file another one: a backslash is escaped, as what isn't printable is, and as quotes are. One that begins as
    a formula does begins with ./ there; behind one that is cut, since it is long, stands a digest of the whole."""
    text = name.replace("\\", "\\\\")
    end = rows.digest_of(os.fsencode(name))[:16] if len(text) > MOST_SHOWN else ""
    return rows.read_as_table(printable(text) + end, "./")


def shown_reason(text: str) -> str:
    """Why, as the table has it."""
    return rows.read_as_table(printable(text), "of ")
