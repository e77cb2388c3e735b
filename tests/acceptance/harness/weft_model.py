"""What is true in a search, of which no run of weft knows more than its files tell: which lines are whose, who lied, whose key was stolen. And what has to hold after
each run: `Wrong` is raised where it doesn't."""

import os

from harness.weft_inside import read_quietly

ACCUSING = ("EVIDENCE", "has shown two histories")
ENDS = (0, 10, 11, 17)
SILENT = 3
# The files of a peer that are looked for in each turn.
LOOKED_FOR = ("line", "yours", "seen", "receipt")


class Broken(Exception):
    """A rule was broken: its name, and what was found."""

    def __init__(self, rule, told):
        super().__init__(f"{rule}: {told}")
        self.rule, self.told = rule, told


class Model:
    """Which lines are whose: of each service the authenticators of its true history, by their steps; the last of its steps of which a line left its machine; and what
    its key signed, by its bytes. And in whose name two histories are shown: by a liar, or by a thief."""

    def __init__(self, names):
        self.true = {name: [] for name in names}
        self.out = {name: 0 for name in names}
        self.signed = {name: {} for name in names}
        self.other = {name: set() for name in names}  # (lines of a liar's other history, or of a thief, that the service's key signed)
        self.stolen, self.taken_out = set(), set()
        self.heard, self.turns = {}, {}
        self.logged, self.may_be_old = {}, set()

    def is_honest(self, name):
        """Whether one history alone was ever signed in its name."""
        return not self.other[name]

    def is_true(self, name, step, authenticator):
        """Whether a line is of its service's true history, or was signed in its name all the same."""
        return (0 <= step < len(self.true[name]) and self.true[name][step] == authenticator) or (step, authenticator) in self.other[name]


def expect(holds, rule, told):
    """Raises `Broken` where something doesn't hold."""
    if not holds:
        raise Broken(rule, told)


# ---- rules of each run


def expect_told(done, words, fault, ends):
    """A run ends with a status of its word, with a sentence, and nothing raw; one that was killed says nothing. One whose disk failed says so."""
    told = f"weft {' '.join(map(str, words))}: {done.status} {done.out[-600:]!r} {done.err[-1500:]!r}"
    both = done.out + done.err
    expect(done.status not in (70, 99) and "Traceback" not in both, "a bug", told)
    expect(all(letter == "\n" or letter.isprintable() for letter in both), "something raw", told)
    failed = (3, 5, 10, 12, 16, 130) if fault.kind or fault.name else ()
    expect(done.status is None or done.status in (*ends, *failed), "an end that isn't the word's", told)
    expect(done.status in (None, 0) or both.strip() != "", "an end without a sentence", told)


def expect_one_history(model, name, before, after):
    """A service makes no second history: where its store lacks a step whose line left its machine, it makes no step."""
    expect(after[: len(before)] == before, "a step was changed", f"{name} had {len(before) - 1} steps, and has {len(after) - 1}")
    true, grown = model.true[name], len(after) > len(before)
    if not grown:
        return
    is_prefix = true[: len(before)] == before
    if not (is_prefix and len(before) - 1 >= model.out[name]):
        expect(name in model.may_be_old, "a second history", f"{name} made step {len(before)}, and the line of its step {model.out[name]} was handed out")
        model.other[name] |= {(step, auth) for step, auth in enumerate(true) if after[step : step + 1] != [auth]}
        model.out[name] = len(before) - 1
    model.true[name] = after


def expect_nothing_lost(before, after, what):
    """What was kept stays."""
    lost = [line for line in before if line not in after]
    expect(not lost, "something was lost", f"{what}: {lost[:2]}")


def expect_signed(model, what, lines):
    """What came to a peer's signed lines is of a history that was signed in its name."""
    name, _, kept = what.partition("/")
    for words in (line.decode("ascii", "replace").split() for line in lines if kept == "signed"):
        expect(model.is_true(name, int(words[1]), words[2]), "a line counts as signed that isn't", f"{' '.join(words)}")


def expect_nobody_accused(model, name, peers, status):
    """Nobody is called a liar in whose name one history alone was signed."""
    for peer, texts in peers.items():
        accusing = [text for text in texts if any(words in text for words in ACCUSING)]
        expect(not (accusing and peer in model.true and model.is_honest(peer)), "somebody honest is accused", f"{name} says of {peer}: {accusing[:1]}")
    accused = any(not model.is_honest(peer) for peer in model.true)
    expect(status != 11 or accused, "somebody honest is accused", f"{name} ended with 11, and nobody lied")


def note_heard(model, name, place, is_made, is_next_day):
    """Which signed lines lay there for a turn, and in how many turns nothing new came of each peer; those of which that has to be told."""
    silent = []
    for peer in model.true:
        if peer == name:
            continue
        found = model.signed[peer].get(read_quietly(f"{place}/box-{name}/{peer}/in/line") or b"", 0)
        last, turns = model.heard.get((name, peer), (0, 0))
        if not is_made:
            model.heard[name, peer] = last, 0
            continue
        model.heard[name, peer] = (found, 0) if found > last else (last, turns + is_next_day)
        is_due = (name, peer) not in model.taken_out and peer not in model.stolen
        if is_due and model.heard[name, peer][1] >= SILENT:
            silent.append(peer)
    return silent


def expect_silence_told(silent, name, told, status):
    """Of whom nothing new came in three turns, that is told, and counts."""
    for peer in silent:
        expect(status in (10, 11) and told.get(peer), "a silence isn't told", f"{name} ended with {status}, and said of {peer}: {told.get(peer)}")


def unreadable(place, name):
    """What lies in the folders of a service's peers, and is no file that is read, or no folder."""
    folders = [(peer, f"{place}/box-{name}/{peer}/in") for peer in os.listdir(f"{place}/box-{name}")]
    closed = [(peer, "") for peer, folder in folders if os.path.lexists(folder) and (os.path.islink(folder) or not os.path.isdir(folder))]
    return closed + [(peer, f"/{file}") for peer, folder in folders for file in LOOKED_FOR if (peer, "") not in closed and is_strange(f"{folder}/{file}")]


def is_strange(path):
    """Whether something is there that is no plain file."""
    return os.path.lexists(path) and (os.path.islink(path) or not os.path.isfile(path))


def expect_unread_told(hindered, name, told, status):
    """What is there and can't be read is told, and counts."""
    for peer, file in hindered:
        told_of = any(f"in{file}" in text for text in told.get(peer, []))
        expect(status in (10, 11) and told_of, "what can't be read isn't told", f"{name} ended with {status}, and said of {peer}/in{file}: {told.get(peer)}")


# ---- what lies in files


def kept_lines(place, name):
    """The lines that a service keeps: its own, those of peers, and what shows two histories."""
    found = {}
    for own in ("lines",):
        data = read_quietly(f"{place}/{name}.{own}") or b""
        found[f"{name}.{own}"] = data[: data.rfind(b"\n") + 1].splitlines()  # (a line that was written by half isn't kept yet)
    box = f"{place}/box-{name}"
    for peer in sorted(os.listdir(box)) if os.path.isdir(box) else ():
        for kept in ("lines", "signed"):
            data = read_quietly(f"{box}/{peer}/kept/{kept}") or b""
            whole = data[: data.rfind(b"-----END SSH" if kept == "signed" else b"\n") + 1]  # (one whose signature was written by half isn't kept yet)
            found[f"{peer}/{kept}"] = [line for line in whole.splitlines() if line.startswith(peer.encode())]
        forks = f"{box}/{peer}/kept/forks"
        found[f"{peer}/forks"] = sorted(os.listdir(forks)) if os.path.isdir(forks) else []
    return found


def put_out(place, name):
    """What a service has put out, by its path."""
    box = f"{place}/box-{name}"
    return {
        os.path.join(folder, file): read_quietly(os.path.join(folder, file))
        for peer in sorted(os.listdir(box)) if os.path.isdir(f"{box}/{peer}/out")
        for folder, _, found in os.walk(f"{box}/{peer}/out") for file in found if not file.endswith(".new")
    }  # fmt: skip
