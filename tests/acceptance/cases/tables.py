"""Acceptance cases of malformed input, counted off: of a small file of each grammar every byte changed, taken out and doubled, and each cut; the words of
each form with each word changed; and every byte of a small store that tells something.

The same of proofs of each kind, parts, histories, map files, evidence and receipts stands in generated.py, archives.py, precedence.py, maps.py, forks.py,
reaching.py and atlases.py."""

from functools import partial

from harness.making import LEAST, message_bytes
from harness.rooms import Wrong, case
from harness.trials import describe_trial, difference, one
from timeweave_reference.events_files import events_to_bytes
from timeweave_reference.services import service_of
from timeweave_reference.timelines import Timeline
from timeweave_reference.tree_pages import PAGE
from timeweave_reference.words import kinds_of_forms

# What comes in the place of a byte: another bit, and these bytes.
BITS, ENDS = (1, 128), (0, 255)
OF_LINES = (255, *b"\n 0F")

# What comes in the place of a word.
OTHER_WORDS = ("", "0", "00", "1", "-1", " ", "A", "a" * 17, "\udcff", "event", "thread", "0" * 64)

# A word of each kind; of the kinds that aren't here, a number where it has a range or is counted, else the name of a file.
NUMBERS = {"POS", "K", "INDEX", "STEP", "TOP", "SINCE", "TIME", "NUMBER", "STEPS"}
OF_KIND = {"NAME": "a", "PEER": "b", "HEX": "0" * 64, "DIR": "d", "..": "f", **dict.fromkeys(NUMBERS, "1")}

# A script with each form of line.
SCRIPT = b"""service a
service b
hostile e
# steps
append a 6869 - 0aFF
send a 0
inject e -
deliver 1 b
drop 2
crash b 1 3
prove a event 1 0 1
prove b absent 1 e 7
join 1 2 1
anchor b 1
verify 3"""

# The bytes of each page of a store's file that are changed, from its first on; the others are zero.
TOLD = {0: 2, 1: 2, 2: 140, 3: 140, 4: 24, 5: 240, 6: 24, 7: 300}


def tried(room, trial):
    """Runs the trial, which has to answer as the reference says."""
    differs = difference(room.program, trial)
    if differs:
        raise Wrong(describe_trial(trial, differs))


def changes(data, values=ENDS):
    """The bytes with each one changed, taken out and doubled, and each front of them."""
    for place, byte in enumerate(data):
        for value in {*(byte ^ bit for bit in BITS), *values} - {byte}:
            yield data[:place] + bytes([value]) + data[place + 1 :]
        yield data[:place] + data[place + 1 :]
        yield data[:place] + data[place : place + 1] + data[place:]
        yield data[:place]
    yield data + b"\0"


def anchors_files(room):
    """a file of two anchors: what it is held against, or its first bad line"""
    auths = [Timeline("a", [[b""]]).auths[1].hex(), "0F" * 32]
    lines = f"a 1 {auths[0]}\nzz-9 1099511627775 {auths[1]}\n".encode()
    for data in changes(lines, OF_LINES):
        tried(room, one(["verify", "p", "k"], {"p": LEAST, "k": data}))


def events_files(room):
    """a file of three events: the next step of a service, or the first bad byte"""
    service = service_of("shop", [[b"x"]])
    for data in changes(events_to_bytes([b"ab", b"", b"\xff"])):
        tried(room, one(["append", "d", "e"], {"e": data}, service))


def messages(room):
    """a message of a peer: what comes of it, or the first bad byte"""
    service = service_of("shop", [[b"x"]])
    for data in changes(message_bytes(Timeline("peer", [[b"y"]]), 1, 0)):
        tried(room, one(["receive", "d", "m"], {"m": data}, service))


def scripts(room):
    """a script with each form of line: what is played, or the first bad line"""
    for data in changes(SCRIPT, OF_LINES):
        tried(room, one(["replay", "s"], {"s": data}))


def words_of_forms(room):
    """the words of each form, each of them changed for others, left out and doubled: the first bad word, or what the words are then"""
    for form in kinds_of_forms():
        words = [OF_KIND.get(kind, "f" if kind.isupper() else kind) for kind in form]
        for place in range(len(words)):
            for new in ([], words[place : place + 1] * 2, *([word] for word in OTHER_WORDS)):
                tried(room, one(words[:place] + new + words[place + 1 :], {"f": b""}))


def stores(words, room):
    """each byte of a small store that tells something: an answer or a page, and a store that is only read is left as it was"""
    service = service_of("shop", [[b"x"], [b"y"]])
    data = service.file()
    for page, count in TOLD.items():
        for place in range(page * PAGE, page * PAGE + count):
            changed = data[:place] + bytes([data[place] ^ 1]) + data[place + 1 :]
            tried(room, one(words.split(), {"e": events_to_bytes([b"z"])}, service, changed))


# The commands that are asked over each changed store.
OVER_STORES = ("append d e", "thread d 0", "prove d event 2 0", "prove d link 1", "prove d absent 2 b 1")


def cases():
    for work in (anchors_files, events_files, messages, scripts, words_of_forms):
        yield case(work, "tables")
    for words in OVER_STORES:
        yield {**case(partial(stores, words)), "name": f"tables: {words}, over each changed store"}
