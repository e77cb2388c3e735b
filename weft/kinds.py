"""Which kind of file bytes are, by the letters that they begin with. Whether the rest is of that kind, its reader says."""

from __future__ import annotations

from typing import Optional

from weft import signatures
from weft.lines import read_kept, read_mark
from weft.texts import count_of

PROOF_KINDS = {1: "event", 2: "precedence", 3: "thread", 4: "absence", 5: "link", 6: "low map", 7: "high map"}
LETTERS = {b"TWP1": "proof", b"TWT1": "message", b"TWR1": "receipts", b"TWV1": "evidence", b"TWH1": "history", b"TWE1": "events", b"PK\x03\x04": "bundle"}
NAMES = {
    "event": "a proof", "precedence": "a proof", "thread": "a proof", "absence": "a proof", "link": "a proof", "proof": "a proof", "low map": "a map file",
    "high map": "a map file", "message": "a message", "receipts": "a receipt", "evidence": "evidence", "history": "a history", "events": "an events file", "bundle": "a zip file",
}  # fmt: skip


# The kinds of files on what a service received.
ARCHIVE_KINDS = ("thread", "absence", "low map", "high map")


def kind_of(data: bytes) -> str:
    """What the bytes begin as: `event`, `precedence`, `thread`, `absence`, `link`, `low map`, `high map`, `message`, `receipts`, `evidence`,
    `history`, `events`, `bundle`; else `text`."""
    kind = LETTERS.get(data[:4], "text")
    return PROOF_KINDS.get(data[4] if len(data) > 4 else 0, "proof") if kind == "proof" else kind


def text_named(data: bytes) -> Optional[str]:
    """What a text is, as a sentence has it: a line, some lines or a signature; None where it is none of these."""
    if signatures.read_signed_line(data):
        return "a signed line"
    if data.startswith(signatures.BEGIN.encode()):
        return "a signature"
    texts = [text for text in data.decode("utf-8", "replace").splitlines() if text.strip() and not text.startswith("#")]
    if not texts or any(read_kept(text) is None and read_mark(text) is None for text in texts):
        return None
    return "a line" if len(texts) == 1 else count_of(len(texts), "line")
