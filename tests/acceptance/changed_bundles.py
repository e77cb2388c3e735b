#!/usr/bin/env python3
"""Changes bundles by chance, and has weft and the page open and judge each: both have to read the same files in it or to refuse it for the same reason, to find the same
of whose its lines are, and to say the same first; and no line of the sender's may count.

    python3 tests/acceptance/changed_bundles.py PROGRAM [--count 10000] [--seed TEXT] [--workers N]

A bundle is made of a proof, of two map files or of evidence of the vectors, with the lines that it needs, and is changed as it stands or in one of its parts, of which
it is put together anew. The reader holds nothing, these lines, or others of their steps. The page is run by Node, weft in this process and by the reference.
"""

import base64
import contextlib
import hashlib
import io
import json
import os
import random
import subprocess
import tempfile
from collections import Counter
from concurrent.futures import ProcessPoolExecutor
from functools import partial
from pathlib import Path
from unittest import mock

from harness.places import TOP
from harness.rooms import needs

from command_line import reader_of_words, run_script
from weft import main as weft
from weft.deciding.bundles import Unfit, read_bundle, write_bundle
from weft.deciding.lines import Line, read_line

SMALL, AT_ONCE, MOST_TOLD = 4000, 250, 10
FORMS = {"verify": ("proof",), "checkmap": ("low", "high"), "checkfork": ("evidence",)}
OPTIONAL = ("keys", "record", "record.name", "signed-1", "signed-1.sig", "stamped-1", "stamp-1", "held")
ARMOUR = b"-----BEGIN SSH SIGNATURE-----\nU1NIU0lHAAAAAQ==\n-----END SSH SIGNATURE-----\n"


def originals():
    """The files of bundles, of what the vectors accept, each with its lines."""
    found = []
    for path in sorted((TOP / "vectors").glob("*.json")):
        for it in json.loads(path.read_text(encoding="utf-8")).get("vectors", ()):
            names = FORMS.get(it.get("words", [""])[0])
            if names is None or it["status"] != 0 or not set(names) | {"anchors"} <= set(it["files"]):
                continue
            parts, anchors = [bytes.fromhex(it["files"][name]) for name in names], bytes.fromhex(it["files"]["anchors"])
            lines = [read_line(text) for text in anchors.decode("utf-8", "replace").splitlines()]
            if lines and all(lines) and len(lines) < 32 and sum(map(len, parts)) < SMALL:
                found.append((files_of(parts, lines, it["text"]), lines))
    return found


def files_of(parts, lines, text):
    """The files of a bundle; its signature and its stamp are of nobody."""
    event = next((words.split(" ")[4] for words in text.splitlines() if words.startswith("event ")), None)
    line = f"{lines[0].text}\n".encode()
    record = {} if event is None else {"record": bytes.fromhex(event.replace("-", "")), "record.name": b"paid.csv\n"}
    beside = {"keys": b"key\n", "signed-1": line, "signed-1.sig": ARMOUR, "stamped-1": line, "stamp-1": b"0\x03\x02\x01\x00"}
    return {"README.txt": b"read", **dict(zip(("proof", "proof-2"), parts)), "lines": "".join(f"{it.text}\n" for it in lines).encode(), **record, **beside}


# ---- changes


def changed_bytes(rand, data):
    """Bytes of which some are flipped, cut, gone, put in, doubled or swapped."""
    data = bytearray(data)
    place, size = rand.randrange(len(data) + 1), rand.randrange(1, 40)
    kind = rand.randrange(7)
    if kind == 0:
        del data[place:]
    elif kind == 1:
        del data[place : place + size]
    elif kind == 2:
        data[place:place] = rand.randbytes(size)
    elif kind == 3:
        data[place:place] = data[place : place + size]
    elif kind == 4:
        other = rand.randrange(len(data) + 1)
        data[place : place + size], data[other : other + size] = data[other : other + size], data[place : place + size]
    else:
        for _ in range(rand.choice((1, 1, 2, 5))):
            if data:
                data[rand.randrange(len(data))] ^= 1 << rand.randrange(8)
    return bytes(data)


def other_lines(rand, lines):
    """Lines of a bundle, of which one is another one: of another digit, another step or another service, doubled, or gone."""
    lines = list(lines)
    place = rand.randrange(len(lines))
    it = lines[place]
    digits = it.authenticator[:-1] + ("0" if it.authenticator[-1] != "0" else "1")
    other = it._replace(authenticator=digits)
    lines[place : place + 1] = rand.choice(([other], [it._replace(step=it.step + 1)], [it._replace(service="other")], [it, it], [it, other], []))
    return "".join(f"{line.text}\n" for line in lines).encode()


def changed_parts(rand, found, lines, others):
    """The files of a bundle of which one is another one, is of another bundle, is swapped with another one, isn't there, or is there besides."""
    found = dict(found)
    name, kind = rand.choice(sorted(found)), rand.randrange(8)
    if kind < 2:
        found[name] = changed_bytes(rand, found[name])
    elif kind < 4:
        found["lines"] = other_lines(rand, lines)
    elif kind == 4:
        other = rand.choice(sorted(found))
        found[name], found[other] = found[other], found[name]
    elif kind == 5:
        found[name] = rand.choice(others)[0].get(name, b"")
    elif kind == 6:
        del found[name]
    else:
        found[rand.choice(("held", "proof-2", "record-2", "record-2.name", "signed-2", "stamp-64", "../up", "a"))] = rand.choice((b"", found[name], found["lines"]))
    return found


def drawn(seed, number, pool):
    """The bundle of a number, and the reader's lines."""
    rand = random.Random(f"{seed} {number}")
    found, lines = rand.choice(pool)
    for name in OPTIONAL:
        if name in found and rand.randrange(3) == 0:
            found = {key: data for key, data in found.items() if key != name}
    data = changed_bytes(rand, write_bundle(found)) if number % 2 else write_bundle(changed_parts(rand, found, lines, pool))
    own = rand.choice(([], lines, [it._replace(authenticator=it.authenticator[::-1]) for it in lines]))
    return data, own


# ---- what both say


def by_weft(folder, data, own):
    """What weft reads, says first and finds of the lines; and how many lines counted that aren't the reader's."""
    found = read_bundle(data)
    read = found.name if isinstance(found, Unfit) else {name: hashlib.sha256(part).hexdigest() for name, part in found.items()}
    if data[:4] != b"PK\x03\x04":
        return {"read": read}
    (folder / "b.zip").write_bytes(data)
    (folder / "kept").write_text("".join(f"{it.text}\n" for it in own))
    out = io.StringIO()
    with contextlib.redirect_stdout(out), contextlib.redirect_stderr(io.StringIO()):
        weft.main(["judge", str(folder / "b.zip"), "--json", "--carried", "--reference", "--kept", str(folder / "kept")])
    known = json.loads(out.getvalue().splitlines()[0])
    met = [[it["service"], it["step"], it["authenticator"], f"bundle {it['met']}"] for it in known.get("bundle", ())]
    counted = [Line(it["service"], it["step"], it["authenticator"]) for it in known.get("lines", ())]
    return {"read": read, "title": known["headline"], "met": met, "sender": sum(it not in own for it in counted)}


def differ(weft_says, page_says):
    """Whether they differ in what counts: of what weft couldn't judge at all it doesn't tell whose its lines are."""
    first = [it.get("title", "").split(":")[0].lower() for it in (weft_says, page_says)]
    are_told = bool(weft_says.get("met"))
    return weft_says["read"] != page_says["read"] or first[0] != first[1] or (are_told and weft_says["met"] != page_says["met"])


def is_wrong(weft_says, page_says, own):
    """Whether they differ, or a line of the sender's counted, or something is shown to a reader who holds no line of it."""
    is_shown = any("shown" == it.get("title", "").split(":")[0].lower() for it in (weft_says, page_says))
    return differ(weft_says, page_says) or bool(weft_says.get("sender") or page_says.get("sender")) or (is_shown and not own)


def by_page(program, folder, each):
    """What the page says of bundles, each with the reader's lines; raises OSError where Node doesn't answer."""
    asked = "".join(json.dumps({"data": base64.b64encode(data).decode(), "own": "".join(f"{it.text}\n" for it in own)}) + "\n" for data, own in each)
    words = [needs("node", "nodejs"), TOP / "tests/acceptance/harness/bundles.mjs", program, folder]
    done = subprocess.run(words, input=asked, capture_output=True, text=True, check=False)
    told = [json.loads(line) for line in done.stdout.splitlines()]
    if len(told) != len(each):
        raise OSError(done.stderr[-2000:])
    return told


def tried(program, seed, numbers):
    """Tries the bundles of these numbers; answers those that are wrong, each told, and how often each answer came."""
    pool, wrong, seen = originals(), [], Counter()
    with tempfile.TemporaryDirectory(prefix="timeweave_bundles_") as name:
        folder = Path(name)
        settings = {"WEFT_SIGNERS": f"{folder}/signers", "WEFT_AUTHORITIES": f"{folder}/authorities", "TIMEWEAVE_PROGRAM": str(program)}
        each = [drawn(seed, number, pool) for number in numbers]
        for number, (data, own), page_says in zip(numbers, each, by_page(program, folder, each)):
            with mock.patch.dict(os.environ, settings):
                weft_says = by_weft(folder, data, own)
            seen[weft_says["read"] if isinstance(weft_says["read"], str) else f"opened, {weft_says['title'].split(':')[0]}"] += 1
            if is_wrong(weft_says, page_says, own):
                wrong.append(f"  {number} of seed {seed}: weft says {weft_says}\n  the page {page_says}")
    return wrong, seen


def tried_by_many(program, seed, count, workers):
    """The same of so many bundles, by so many processes."""
    lots = [range(begin, min(begin + AT_ONCE, count)) for begin in range(0, count, AT_ONCE)]
    wrong, seen = [], Counter()
    with ProcessPoolExecutor(workers) as pool:
        for of_lot in pool.map(partial(tried, program, seed), lots):
            wrong += of_lot[0]
            seen.update(of_lot[1])
    return wrong, seen


def main():
    """Tries as many as are asked for, and tells what came of them."""
    words = reader_of_words(__doc__)
    words.add_argument("program", metavar="PROGRAM", type=Path, help="the built program")
    words.add_argument("--count", metavar="N", type=int, default=10_000, help="so many bundles")
    words.add_argument("--seed", metavar="TEXT", default="bundles", help="by which they are drawn")
    words.add_argument("--workers", metavar="N", type=int, default=os.cpu_count(), help="so many processes (else one a processor)")
    options = words.parse_args()
    wrong, seen = tried_by_many(options.program.resolve(), options.seed, options.count, options.workers)
    for text in wrong[:MOST_TOLD]:
        print(text)
    print(f"{options.count:,} bundles of seed {options.seed}: {len(wrong)} wrong; {', '.join(f'{told} {number:,}' for told, number in seen.most_common())}")
    return 1 if wrong else 0


if __name__ == "__main__":
    run_script(main)
