"""The bundles of a folder that is judged into a table. They are judged on this machine, where the reader's keys and authorities are, and anew each time: what meets their
lines may be otherwise than at an earlier run."""

from __future__ import annotations

from pathlib import Path
from typing import NamedTuple, Optional

from weft import bundles, choosing, dated, formats, lines, outcomes
from weft.bundles import Opened
from weft.choosing import Judgement
from weft.deciding.bundles import is_on_a_word
from weft.deciding.choosing import Headline
from weft.deciding.rows import NO_DIGEST, Row, digest_of
from weft.judges import Bench
from weft.lines import KeptLines
from weft.outcomes import Named, Outcome
from weft.stamps import Days
from weft.table_rows import reason_of, row_of_trouble, shown_path, shown_reason
from weft.trouble import Trouble, of_machine


class Reader(NamedTuple):
    """Under what bundles are judged: the reader's lines, his folder of authorities, his file of keys, and whether lines that are carried are accepted."""

    kept: KeptLines
    authorities: Optional[Path]
    signers: Path
    allow_carried: bool


class Judged(NamedTuple):
    """The row of a bundle, and its files with the lines that they were judged under, where they are shown and may be held against others."""

    row: Row
    parts: tuple[bytes, ...] = ()


def judge_bundle(judge: Bench, folder: Path, name: str, reader: Reader) -> Judged:
    """The row of a bundle in a folder, which is read once."""
    data, digest = b"", NO_DIGEST
    try:
        data = formats.read_file(folder / name, follow=False)
        digest = digest_of(data)
        with of_machine(name):
            it, days = Named(name, data, "bundle"), Days(reader.kept, reader.authorities)
            opened = bundles.open_bundle(it, reader.kept, days, reader.signers)
            judgement = outcomes.judgement_of(judge, opened.kept, opened.proofs, reader.allow_carried)
            judgement = choosing.with_held(judge, opened.proofs[0].data, opened.kept, judgement)
            outcome = outcomes.outcome_of(judge, opened.kept, opened.proofs, judgement)
            outcome = bundles.with_met(bundles.with_records(judge, outcome, opened, judgement), opened, judgement, reader.kept)
            return row_of(judge, it, opened, judgement, outcome, days)
    except Trouble as trouble:
        return Judged(row_of_trouble(name, len(data), digest, trouble))


def row_of(judge: Bench, it: Named, opened: Opened, judgement: Judgement, outcome: Outcome, days: Days) -> Judged:
    """The row of a bundle that was judged. What rests on a line that only a stamp meets isn't held against other files."""
    resting, reason = "; ".join(f"{line.service} {line.step}" for line in judgement.lines), shown_reason(reason_of(judgement, outcome))
    row = Row(shown_path(it.path), len(it.data), digest_of(it.data), outcome.headline.value, int(outcome.status), reason, resting)
    if outcome.headline in (Headline.SHOWN, Headline.IN_PART):
        row = row._replace(day=dated.told_in_row(days, judgement.lines))
    if not judgement.is_shown or is_on_a_word(judgement.counting, opened.met):
        return Judged(row)
    archive, group = formats.told_by(opened.proofs[0].data, judgement.lines), opened.proofs
    told = "" if outcome.is_refuted else "; ".join(line.text for line in outcomes.all_lines(judge, opened.kept, group, judgement, is_whole=False))
    parts = (group[0].data, lines.anchors(judgement.lines)) if archive is not None else ()
    return Judged(row._replace(told=told, archive=archive.text if archive is not None else ""), parts)
