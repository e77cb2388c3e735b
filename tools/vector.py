"""One vector, and how it is made: words of the program, the bytes of the files that they name, and what the reference answers of them."""

from __future__ import annotations

import sys
from dataclasses import dataclass, replace
from pathlib import Path
from typing import Callable, Dict, Iterator, List, Mapping, Sequence, Tuple

TOP = Path(__file__).resolve().parent.parent
sys.path.insert(0, str(TOP / "reference"))

from timeweave_reference import commands  # noqa: E402
from timeweave_reference.anchors import Anchor, anchors_to_bytes  # noqa: E402
from timeweave_reference.answers import Answer  # noqa: E402
from timeweave_reference.contradictions import contradict, receiver  # noqa: E402
from timeweave_reference.event_trees import event_root  # noqa: E402
from timeweave_reference.fields import big_endian  # noqa: E402
from timeweave_reference.hashed_texts import authenticator, digest, link_label, step_datum  # noqa: E402
from timeweave_reference.openings import Opening  # noqa: E402
from timeweave_reference.paths import Path as LinkPath  # noqa: E402
from timeweave_reference.paths import PathLink, greedy_steps, link_level, top_level  # noqa: E402

WRITE_BYTES = ("show", "join", "adopt", "accuse")
"""The commands that write bytes and no text where they answer with status 0."""

FUNCTIONS: Dict[str, Callable[..., Answer]] = {"contradict": contradict, "receiver": receiver}
"""What the library alone tells, and is no command of the program."""

Lines = Mapping[str, Anchor]


@dataclass(frozen=True)
class Vector:
    """Its name; the words of the program; the bytes of the files that they name; the status, and what is written."""

    name: str
    words: Tuple[str, ...]
    files: Dict[str, bytes]
    status: int
    output: bytes

    def named(self, front: str) -> "Vector":
        """The vector with words before its name."""
        return replace(self, name=f"{front}: {self.name}")

    def to_json(self) -> Dict[str, object]:
        """What stands of it in a file: bytes are hexadecimal digits, and a text stands as it is."""
        files = {name: data.hex() for name, data in self.files.items()}
        is_bytes = self.status == 0 and self.words[0] in WRITE_BYTES
        output = {"bytes": self.output.hex()} if is_bytes else {"text": self.output.decode("ascii")}
        return {"name": self.name, "words": list(self.words), "files": files, "status": self.status, **output}


def make_vector(name: str, words: Sequence[str], files: Dict[str, bytes]) -> Vector:
    """The vector of these words over files, as the reference answers them; of what is no command, as its function does."""
    function = FUNCTIONS.get(words[0])
    answer = function(*(files[word] for word in words[1:])) if function else commands.answer(words, files)
    return Vector(name, tuple(words), files, answer.status, answer.text)


def make_proof_vector(name: str, proof: bytes, lines: "Lines | bytes", form: str = "verify") -> Vector:
    """The vector of a proof under lines, in the form `verify` or `strict`."""
    data = lines if isinstance(lines, bytes) else anchors_to_bytes(lines)
    return make_vector(name, [form, "proof", "anchors"], {"proof": proof, "anchors": data})


def over(data: bytes, place: int, new: bytes) -> bytes:
    """The bytes with others over them, from a place on, which may be counted from their end."""
    place %= len(data)
    return data[:place] + new + data[place + len(new) :]


def flipped(data: bytes, place: int) -> bytes:
    """The bytes with the lowest bit of one of them changed."""
    return over(data, place, bytes([data[place] ^ 1]))


def cuts(data: bytes, lines: Lines, places: Sequence[int]) -> Iterator[Vector]:
    """The front of a proof up to some places, and the proof with a byte behind it."""
    for place in places:
        yield make_proof_vector(f"cut to {place} bytes", data[:place], lines)
    yield make_proof_vector("a byte behind it", data + b"\0", lines)


# ---- steps of long histories


class Deep:
    """A step of a history of which nothing but what a path from a top down to it shows is made: all other digests are made up. Tells the
    `path`, the `opening`, the authenticator of the step, `auth`, and that of the top, `reached`."""

    def __init__(self, step: int, top: int, archive: bytes, events: Sequence[bytes], time: "int | None" = None) -> None:
        self.made = 0
        before, *labels = self.digests(1 + max(0, top_level(step)))
        self.opening = Opening(event_root(events), archive, len(events), time, before, tuple(labels))
        self.auth = self.opening.authenticator(step) if step else before
        self.path, self.reached = self.climb(step, top)

    def climb(self, step: int, top: int) -> Tuple[LinkPath, bytes]:
        """The path, and the authenticator of the top that it computes."""
        links: List[PathLink] = []
        reached = self.auth
        for start in reversed(greedy_steps(top, step)[:-1]):
            level = link_level(start, step)
            datum, *labels = self.digests(1 + top_level(start))
            links.insert(0, PathLink(datum, tuple(labels)))
            labels.insert(level, link_label(start, level, datum, reached))
            reached = authenticator(start, labels)
        return tuple(links), reached

    def digests(self, count: int) -> List[bytes]:
        """So many digests that are made up."""
        self.made += count
        return [digest(b"made up" + big_endian(number, 8)) for number in range(self.made - count, self.made)]


def datum_of(events: Sequence[bytes], archive: bytes, time: "int | None" = None) -> bytes:
    """The datum of a step."""
    return step_datum(event_root(events), archive, len(events), time)
