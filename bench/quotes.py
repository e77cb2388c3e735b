"""What documents quote of the figures, in the words that stand there: each has to follow from bench/results.json."""

from typing import Dict, Tuple

QUOTED: Dict[str, Tuple[str, ...]] = {
    "docs/scale.md": (
        "{{million.written_per_entry_byte .1f}} bytes were written for each of the entries, and a second run took {{million.second.seconds .0f}} seconds.",
        "{{receiving.10000_of_100.bytes*0.001 .1f}} KB a thread, in a store of 10,000 of 100 peers (measured); {{receiving.1000_of_3.bytes*0.001 .1f}} KB in one of 1,000, "
        "{{receiving.10000_of_10000.bytes*0.001 .1f}} KB where each of the 10,000 is of another peer",
        "a `receive` {{receiving.10000_of_100.us*0.001 .2f}} ms, with the start of the program (measured)",
        "of 300 events of 200 bytes a step, takes {{histories.full_64.seconds .1f}} seconds of a processor",
        "a file of 16 MiB of such steps takes {{histories.empty_16.seconds .0f}} seconds and {{histories.empty_16.memory .0f}} MiB",
        "A service's day and night with four peers took {{network.processor .2f}} s of a processor",
        "{{network.services}} services were played for a year",
    ),
    "docs/operating.md": (
        "bytes written | {{nights.of_1000.night.processor .0f}} s, {{nights.of_1000.night.memory_kib*0.001024 .0f}} MB, {{nights.of_1000.night.bytes_written*0.000001 .0f}} MB |",
    ),
}
# Tables of documents, each of whose rows is one of a table that was measured: document, part and table.
TABLES = (("docs/scale.md", "spread", "spread"),)
