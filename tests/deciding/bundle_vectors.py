"""The vectors of bundles: files that are one, and each kind of changed one, with the answer that both readers give. `python3 tests/deciding/bundle_vectors.py` writes
bundles.json, which the tests of weft and of the page read; the answers stand here and are computed by no reader.

Each vector is a base, and what is changed of it, one behind the other: [place, how many bytes go, what comes there in hexadecimal, how many times]."""

import argparse
import base64
import io
import json
import sys
import warnings
import zipfile
from pathlib import Path
from typing import NamedTuple, Sequence, Union

TOP = Path(__file__).resolve().parents[2]
sys.path[:0] = [str(TOP)]

from weft.deciding.bundles import END, LOCAL, MOST_BYTES, write_bundle  # noqa: E402

PATH = Path(__file__).with_name("bundles.json")
Change = tuple[int, int, str, int]
Answer = Union[str, Sequence[str]]

SMALL = {"README.txt": b"", "lines": b"shop 2 ..\n", "proof": b"TWP1"}
WHOLE = {
    **SMALL, "proof-2": b"", "held": b"", "keys": b"shop ED25519 SHA256:..\n", "record": b"\x00\xff\n", "record.name": b"K\xc3\xa4se.txt\n", "record-2": b"",
    "record-2.name": b"", "signed-1": b"a", "signed-1.sig": b"b", "signed-64": b"c", "signed-64.sig": b"d", "stamp-59": b"e", "stamped-59": b"f",
}  # fmt: skip

# The fields of a file, of the directory and of the end: where each begins, how many bytes it has, and why a bundle in which it is another one is none.
OF_FILE = (
    ("sign", 0, 4, "PACKED"), ("version", 4, 2, "PACKED"), ("flags", 6, 2, "PACKED"), ("method", 8, 2, "PACKED"), ("time", 10, 2, "PACKED"), ("day", 12, 2, "PACKED"),
    ("check", 14, 4, "PACKED"), ("packed size", 18, 4, "PACKED"), ("size", 22, 4, "PACKED"), ("length of the name", 26, 2, "PACKED"),
    ("length of what is added", 28, 2, "PACKED"),
)  # fmt: skip
OF_DIRECTORY = (
    ("sign", 0, 4, "PLACE"), ("maker", 4, 2, "PACKED"), ("version", 6, 2, "PACKED"), ("flags", 8, 2, "PACKED"), ("method", 10, 2, "PACKED"), ("time", 12, 2, "PACKED"),
    ("day", 14, 2, "PACKED"), ("check", 16, 4, "CHANGED"), ("packed size", 20, 4, "PACKED"), ("size", 24, 4, "PACKED"), ("length of the name", 28, 2, "PLACE"),
    ("length of what is added", 30, 2, "PLACE"), ("length of the comment", 32, 2, "PLACE"), ("disk", 34, 2, "PACKED"), ("kind", 36, 2, "PACKED"),
    ("mode", 38, 4, "PACKED"), ("place", 42, 4, "PLACE"),
)  # fmt: skip
# (what the last one claims to have besides is looked for behind the directory)
OF_LAST = tuple((field, at, size, "PACKED" if at in (30, 32) else why) for field, at, size, why in OF_DIRECTORY)
OF_END = (
    ("sign", 0, 4, "END"), ("disk", 4, 2, "PACKED"), ("disk of the directory", 6, 2, "PACKED"), ("count here", 8, 2, "PACKED"), ("count", 10, 2, "PLACE"),
    ("size of the directory", 12, 4, "PLACE"), ("place of the directory", 16, 4, "PLACE"), ("length of the comment", 20, 2, "PACKED"),
)  # fmt: skip


class Vector(NamedTuple):
    """Bytes, as a base and changes, and the answer: the names of the files that are read, or why nothing is."""

    name: str
    base: str
    changes: Sequence[Change]
    answer: Answer


def zipped(
    files: Sequence[tuple[str, bytes]], method: int = zipfile.ZIP_STORED, comment: bytes = b"", note: bytes = b"", extra: bytes = b"",
    mode: int = 0o100644, year: int = 1980,
) -> bytes:  # fmt: skip
    """A zip file as Python's own module writes it; but for what is said otherwise, as a bundle is."""
    whole = io.BytesIO()
    with zipfile.ZipFile(whole, "w") as out, warnings.catch_warnings():
        warnings.simplefilter("ignore")  # (of a name that is there twice)
        out.comment = comment
        for name, data in files:
            info = zipfile.ZipInfo(name, (year, 1, 1, 0, 0, 0))
            info.compress_type, info.create_system, info.create_version, info.extract_version = method, 3, 10, 10
            info.external_attr, info.comment, info.extra = mode << 16, note, extra
            out.writestr(info, data)
    return whole.getvalue()


def bomb() -> bytes:
    """Files that share their bytes: of one the directory says that it begins where another one does."""
    parts = {**SMALL, "record": b"twice"}
    data = write_bundle(parts)
    first, last = data.index(b"PK\x01\x02"), data.rindex(b"PK\x01\x02")
    at = data.index(b"record", 0, first) - LOCAL.size
    shared = data[:first] + data[first:last] + data[last : -END.size]
    again = bytearray(data[last : -END.size])
    again = again.replace(b"record", b"stamp-1")
    again[28:30], again[42:46] = (7).to_bytes(2, "little"), (at - 1).to_bytes(4, "little")
    size = len(shared) - first + len(again)
    return shared + bytes(again) + END.pack(b"PK\5\6", 0, 0, len(parts) + 1, len(parts) + 1, size, first, 0)


def bases() -> dict[str, bytes]:
    """The bytes that vectors begin with."""
    rows = sorted(SMALL.items())
    deep = zipped(sorted({**SMALL, "record": bytes(1 << 20)}.items()), zipfile.ZIP_DEFLATED)
    return {
        "nothing": b"", "small": write_bundle(SMALL), "whole": write_bundle(WHOLE), "packed": zipped(rows, zipfile.ZIP_DEFLATED), "bomb": deep, "shared": bomb(),
        "commented": zipped(rows, comment=b"hello"), "noted": zipped(rows, note=b"x"), "added": zipped(rows, extra=b"UT\x01\x00x"), "link": zipped(rows, mode=0o120777),
        "run": zipped(rows, mode=0o100755), "dated": zipped(rows, year=2026), "turned": zipped(rows[::-1]), "doubled": zipped([*rows, ("proof", b"other")]),
        "folder": zipped([*rows, ("proof/", b"")]), "other names": zipped([*rows, ("proof.txt", b"")]),
        **{f"name {name}": write_bundle({**SMALL, name: b"x"}) for name in NAMES},
        **{f"lacks {name}": write_bundle({key: it for key, it in SMALL.items() if key != name}) for name in SMALL}, "empty": write_bundle({}),
    }  # fmt: skip


NAMES = (
    "../up", "/root", "..", "a", "Proof", "proof ", "proof\n", "prööf", "signed-0", "signed-65", "signed-01", "stamp-1.sig", "signed-1.asc", "README", "record.names",
    "proof-1", "proof-3", "record-1", "record-3", "lines-2", "held.name", "C:\\x", "",
)  # fmt: skip


def flipped(name: str, base: str, data: bytes, front: int, fields: Sequence[tuple[str, int, int, str]]) -> list[Vector]:
    """A vector for each field, in which its lowest and its highest byte is another one."""
    found = []
    for field, at, size, why in fields:
        for place in dict.fromkeys((front + at, front + at + size - 1)):
            is_long_name = fields is OF_LAST and field == "length of the name" and place > front + at
            found.append(Vector(f"{name}: {field}, byte {place - front - at}", base, [(place, 1, f"{data[place] ^ 1:02x}", 1)], "NAME" if is_long_name else why))
    return found


def vectors() -> list[Vector]:
    """All of them."""
    known = bases()
    small = known["small"]
    first, end, size = small.index(b"PK\1\2"), len(small) - END.size, len(small)
    good = [Vector("the least", "small", [], sorted(SMALL)), Vector("one with all kinds of files", "whole", [], sorted(WHOLE))]
    other = [
        Vector(name, name, [], why)
        for name, why in (
            ("nothing", "END"), ("packed", "PACKED"), ("bomb", "PACKED"), ("shared", "PLACE"), ("commented", "END"), ("noted", "PACKED"), ("added", "PACKED"),
            ("link", "PACKED"), ("run", "PACKED"), ("dated", "PACKED"), ("turned", "PACKED"), ("doubled", "TWICE"), ("folder", "NAME"), ("other names", "NAME"),
            ("empty", "LACKS"),
            *((f"name {name}", "NAME") for name in NAMES), *((f"lacks {name}", "LACKS") for name in SMALL),
        )
    ]  # fmt: skip
    whole = small.hex()
    changed = [
        Vector("behind", "small", [(size, 0, "00", 1)], "END"), Vector("before", "small", [(0, 0, "00", 1)], "PLACE"),
        Vector("between", "small", [(first, 0, "00", 1)], "PLACE"),
        Vector("behind the directory", "small", [(end, 0, "00", 1)], "PLACE"), Vector("two bundles", "small", [(size, 0, whole, 1)], "PLACE"),
        Vector("two ends", "small", [(size, 0, small[end:].hex(), 1)], "PLACE"), Vector("two directories", "small", [(end, 0, small[first:end].hex(), 1)], "PLACE"),
        Vector("the end alone", "small", [(0, end, "", 0)], "PLACE"), Vector("no zip file", "nothing", [(0, 0, "54575031", 9)], "END"),
        Vector("as long as one may be", "nothing", [(0, 0, "00", MOST_BYTES)], "END"),
        Vector("longer than one may be", "nothing", [(0, 0, "00", MOST_BYTES + 1)], "LONG"),
        Vector("a content changed", "small", [(small.index(b"TWP1"), 1, "74", 1)], "CHANGED"),
        Vector("a name in a file changed", "small", [(small.index(b"proof"), 1, "50", 1)], "PACKED"),
        Vector("a name in the directory changed", "small", [(small.rindex(b"proof"), 1, "50", 1)], "NAME"),
        Vector("a name in the directory doubled", "small", [(small.rindex(b"proof"), 5, b"lines".hex(), 1)], "TWICE"),
    ]  # fmt: skip
    cut = [Vector(f"cut to {count} bytes", "small", [(count, size - count, "", 0)], "END") for count in (1, END.size - 1, END.size, LOCAL.size, first, end, size - 1)]
    fields = [
        *flipped("a file", "small", small, 0, OF_FILE), *flipped("the directory", "small", small, first, OF_DIRECTORY),
        *flipped("the last of the directory", "small", small, small.rindex(b"PK\1\2"), OF_LAST), *flipped("the end", "small", small, end, OF_END),
    ]  # fmt: skip
    return [*good, *other, *changed, *cut, *fields]


# What stands in a bundle as its record's name, and the name that is taken.
RECORD_NAMES = (
    (b"paid.csv\n", "paid.csv"), (b"a b", "a b"), (b"", "record"), (b"../up", "record"), (b"/x", "record"), (b"..", "record"), (b".", "record"), (b"a\0b", "record"),
    (b"a\n\n", "a\n"), (b"x" * 255, "x" * 255), (b"x" * 256, "record"), (b"\n", "record"), (b"\xef\xbb\xbfa", "\ufeffa"), (b"\xff\xe2\x82b", "\ufffd\ufffdb"),
    ("ä".encode() * 128, "record"), (b"...", "..."), (b"\xff" * 85, "\ufffd" * 85), (b"\xff" * 86, "record"),
)  # fmt: skip


def apply_changes(data: bytes, changes: Sequence[Sequence[Union[int, str]]]) -> bytes:
    """Bytes with what is changed of them."""
    for at, gone, come, times in changes:
        data = data[: int(at)] + bytes.fromhex(str(come)) * int(times) + data[int(at) + int(gone) :]
    return data


def text() -> str:
    """The file of vectors: a line for each. What is packed stays as it stands there, since it is packed otherwise elsewhere."""
    known = bases()
    if PATH.exists():
        old = json.loads(PATH.read_text(encoding="utf-8"))["bases"]
        known |= {name: base64.b64decode(old[name]) for name in ("packed", "bomb") if name in old}
    each, used = vectors(), {it.base for it in vectors()}
    rows = [f"{json.dumps(name)}: {json.dumps(base64.b64encode(data).decode())}" for name, data in known.items() if name in used]
    told = [json.dumps({"name": it.name, "base": it.base, "changes": it.changes, "answer": it.answer}) for it in each]
    names = [json.dumps({"given": given.hex(), "name": name}) for given, name in RECORD_NAMES]
    return '{"bases": {\n' + ",\n".join(rows) + '\n}, "vectors": [\n' + ",\n".join(told) + '\n], "names": [\n' + ",\n".join(names) + "\n]}\n"


if __name__ == "__main__":
    argparse.ArgumentParser(description=__doc__).parse_args()
    PATH.write_text(text(), encoding="utf-8")
