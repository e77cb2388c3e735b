"""Acceptance cases of what the commands over several files read, in which order, and what they tell first; and of changed parts of evidence.

All files are read before one is judged: anchors before the file that is judged under them, the others in the order of the words. Then the
first that isn't what the command reads is told, in the same order."""

import random

from example_files import CHAIN, Fork, high_of, least_way, low_of, receipts_of, taken_over

from cases.maps import judge_map
from harness.judged import make_case
from harness.samples import anchors_of, exchange, fork_parts, sample_fork
from harness.ways import as_way
from timeweave_reference.anchors import anchors_to_bytes

FAULT = {"status": 3, "stdout": "fault input\n"}


def missing(name, words, files, bad):
    """Each file missing in turn, where the others are good, and where they are bad."""
    for file in files:
        for how, data in (("", files), (", and bad ones", {**files, **bad})):
            held = {other: data[other] for other in files if other != file}
            yield {"name": f"{name}: {file} isn't there{how}", "files": held, "words": words, **FAULT}


def evidence_files():
    """Of `checkfork` the anchors are judged first; of `accuse` the parts in their order."""
    made = sample_fork()
    words, files = ["checkfork", "e", "k"], {"e": made.evidence().to_bytes(), "k": anchors_to_bytes(made.anchors())}
    yield from missing("checkfork", words, files, {"e": b"no", "k": b"anna 1\n"})
    for name, data in (("evidence", files["e"]), ("no evidence", b"no")):
        yield {"name": f"checkfork: a bad line, and {name}", "files": {"e": data, "k": b"anna 1\n"}, "words": words, "status": 9, "stdout": "unreadable k line 1\n"}
    names, parts = ["first", "second", "link"], fork_parts(made)
    words, files = ["accuse", *names], dict(zip(names, parts))
    yield from missing("accuse", words, files, dict.fromkeys(names, b"no"))
    for number, name in enumerate(names):
        bad = dict.fromkeys(names[number:], b"no")
        yield {"name": f"accuse: bad from {name} on", "files": {**files, **bad}, "words": words, "status": 9, "stdout": f"unreadable {name} byte 0\n"}


def changed_parts():
    """Every byte of small parts changed."""
    made, rand = Fork(0, 1, 2), random.Random("parts")
    parts = fork_parts(made)
    for number, part in enumerate(parts):
        for place in range(len(part)):
            changed = bytearray(part)
            changed[place] ^= rand.choice((1, 2, 128, 255))
            given = [*parts[:number], bytes(changed), *parts[number + 1 :]]
            words = ["accuse", "first", "second", "link"]
            yield make_case(f"accuse: byte {place} of part {number + 1} changed", words, dict(zip(words[1:], given)))


def receipt_files():
    """Of `atlas` the files in their order."""
    data = receipts_of(CHAIN)
    words, files = ["atlas", "alpha", "2", "r0", "r1"], {"r0": data, "r1": data}
    yield from missing("atlas", words, files, {"r0": b"no", "r1": b"no"})


def audited_files():
    """Of `audit` the lines of the anchors first, then each history; and then the proof."""
    way = as_way(least_way())
    words = ["audit", "p", "k", "h0", "h1"]
    files = {"p": way.to_bytes(), "k": anchors_to_bytes(way.anchors()), **dict(zip(("h0", "h1"), [history.to_bytes() for history in way.family.values()]))}
    yield from missing("audit", words, files, {"p": b"no", "k": b"beta 1\n", "h0": b"no", "h1": b"no"})
    for name, bad, told in (
        ("all bad", {"p": b"no", "k": b"beta 1\n", "h0": b"no"}, "unreadable k line 1\n"),
        ("a bad proof and bad histories", {"p": b"no", "h0": b"no", "h1": b"no"}, "unreadable h0 byte 0\n"),
        ("a bad proof and a bad history", {"p": b"no", "h1": b"no"}, "unreadable h1 byte 0\n"),
    ):
        yield {"name": f"audit: {name}", "files": {**files, **bad}, "words": words, "status": 9, "stdout": told}


def adopted_files():
    """Of `adopt` the history first, then the lines of the anchors; and then the proofs."""
    words, files = ["adopt", "lost", "k", "first", "second"], taken_over()
    files["k"] = files.pop("lines")
    bad = {"lost": b"no", "k": b"one 1\n", "first": b"no", "second": b"no"}
    yield from missing("adopt", words, {name: files[name] for name in words[1:]}, bad)
    for name, wrong, told in (
        ("all bad", bad, "unreadable lost byte 0\n"),
        ("bad lines and bad proofs", {**bad, "lost": files["lost"]}, "unreadable k line 1\n"),
        ("an unsound history and bad lines", {**bad, "lost": files["lost"][:-1] + b"\1"}, "unsound lost step 6 rule 3\n"),
    ):
        yield {"name": f"adopt: {name}", "files": {**files, **wrong}, "words": words, "status": 9, "stdout": told}
    proofs = {"first": files["first"] + bytes(5 * 2**20), "second": b""}
    yield {"name": "adopt: more than is read behind a proof", "files": {**files, **proofs}, "words": words, "status": 1, "stdout": "rejected 10 Part 1 1\n"}


def mapped_files():
    """Of `checkmap` the low file first, then the high one, then the lines of the anchors; and then whether both fit."""
    own, peer = exchange()
    words, bad = ["checkmap", "low", "high", "k"], {"low": b"no", "high": b"no", "k": b"mill 1\n"}
    files = judge_map("files", low_of(own, 5, "bank", 9), high_of(peer, 10, "mill", 5), anchors_of((own, 9), (peer, 10)))["files"]
    yield from missing("checkmap", words, files, bad)
    apart = {"high": high_of(peer, 10, "mill", 6), "k": bad["k"]}
    for name, wrong, told in (
        ("all bad", bad, "unreadable low byte 0\n"),
        ("a bad high file and bad lines", {**bad, "low": files["low"]}, "unreadable high byte 0\n"),
        ("bad lines, and files that don't fit", apart, "unreadable k line 1\n"),
        ("more than is read behind a low file", {"low": files["low"] + bytes(5 * 2**20)}, f"unreadable low byte {len(files['low'])}\n"),
    ):
        yield {"name": f"checkmap: {name}", "files": {**files, **wrong}, "words": words, "status": 9, "stdout": told}


def cases():
    for some in (evidence_files, changed_parts, receipt_files, audited_files, adopted_files, mapped_files):
        yield from some()
