"""What a peer is taken to have recorded of the own service, since which its next message is made."""

from __future__ import annotations

from typing import Optional


def may_note_recorded(noted: Optional[int], told: int, since: Optional[int]) -> bool:
    """A step that a peer tells to have recorded is noted where none or an earlier one is. An earlier one than is noted counts only where the peer refuses
    a message that was made since the noted step (`since`, None of a receipt): then it hasn't recorded that, whoever made up the word by which it was noted."""
    return noted is None or told > noted or (told < noted and since == noted)


def choose_other_start(since: int, handed_back: Optional[int], sent: int, last: int) -> Optional[int]:
    """Beside the message since the step that is noted as recorded another one is put out: since the earlier step that the peer hands back, since the receipt
    by which a later one was noted may be made up; else since the step that was sent before, which the peer may have recorded though its receipt is still on
    its way. None where there is no such step."""
    if handed_back is not None and 0 < handed_back < since:
        return handed_back
    return sent if since < sent < last else None
