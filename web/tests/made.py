"""Files to try the page with, made by the built program: services that record and receive, proofs of each kind, and what isn't one."""

import subprocess
import sys
from pathlib import Path

TOP = Path(__file__).resolve().parents[2]
sys.path.append(str(TOP))

from weft.deciding.bundles import write_bundle  # noqa: E402

MARKUP = "<img src=x onerror=\"document.title='fooled'\"><script>document.title='fooled'</script>"
MOST_HOPS = 64


class Made:
    """The files in a folder, and the program that makes and judges them."""

    def __init__(self, program, folder):
        self.program, self.folder = program, Path(folder)
        self.lines = {}

    def path(self, name):
        return self.folder / name

    def put(self, name, data):
        self.path(name).write_bytes(data.encode() if isinstance(data, str) else data)
        return self.path(name)

    def run(self, *words, wanted=0):
        done = subprocess.run([self.program, *map(str, words)], cwd=self.folder, capture_output=True, check=False)
        if done.returncode != wanted:
            raise RuntimeError(f"timeweave {' '.join(map(str, words))}: {done.returncode} {done.stdout[:200]!r}")
        return done.stdout

    # ---- services

    def service(self, name):
        self.path(name).mkdir()
        self.run("init", name, name)

    def append(self, name, *events, time=None):
        """Records events; answers the line."""
        data = b"TWE1" + len(events).to_bytes(4, "big") + b"".join(len(it).to_bytes(4, "big") + it for it in (event if isinstance(event, bytes) else event.encode() for event in events))
        self.put("events", data)
        self.lines[name] = self.run("append", name, "events", *([time] if time is not None else [])).decode()
        return self.lines[name]

    def receive(self, name, peer, since=0):
        self.put("message", self.run("thread", peer, since))
        self.put("receipt", self.run("receive", name, "message"))

    def prove(self, file, *words):
        return self.put(file, self.run("prove", *words))

    # ---- what is judged

    def judged(self, files, lines, form="verify"):
        """What the program says of a proof, or of several files, under these lines."""
        self.put("judged.lines", lines)
        done = subprocess.run([self.program, form, *([files] if isinstance(files, str) else files), "judged.lines"], cwd=self.folder, capture_output=True, text=True, check=False)
        return done.stdout.replace("judged.lines", "anchors")


def authenticator_of(line):
    return line.split()[2]


def other_line(line):
    """A line of the same service and step with another authenticator."""
    name, step, hexed = line.split()
    return f"{name} {step} {hexed[::-1]}\n"


def make_kinds(made):
    """A shop and a registry that received its line: proofs of each kind."""
    made.service("shop")
    made.service("registry")
    made.append("shop", "bread", "milk", time=1_700_000_000)
    made.append("shop", MARKUP, b"\x00\xff", "from right\u202eto left", "K\u00e4se, \u05d2\u05d1\u05d9\u05e0\u05d4")
    made.lines["shop 2"] = made.lines["shop"]
    made.receive("registry", "shop")
    made.append("registry", "entry of the registry")
    made.append("shop", "paid", "f942d248a81932a858edb9a38e425ccf6042e8323587c4f74272765e4d131234  ./sold")
    made.prove("sold.proof", "shop", "event", 3, 1)
    made.prove("record.proof", "shop", "event", 1, 1)
    made.prove("old-record.proof", "shop", "event", 1, 1, 2)
    for index, name in enumerate(("markup", "binary", "turned", "foreign")):
        made.prove(f"{name}.proof", "shop", "event", 2, index)
    made.prove("thread.proof", "registry", "thread", 1, "shop", 2)
    made.prove("absent.proof", "registry", "absent", 1, "shop", 1)
    made.prove("link.proof", "shop", "link", 2, 3)
    made.put("changed.proof", made.path("record.proof").read_bytes().replace(b"milk", b"beer"))
    made.put("cut.proof", made.path("record.proof").read_bytes()[:100])


def make_chain(made):
    """What came first of the shop and the registry: bound, and on the registry's word."""
    made.prove("later", "registry", "event", 2, 0)
    made.prove("received", "registry", "thread", 1, "shop", 2)
    made.prove("linked", "shop", "link", 2, 3)
    made.prove("earlier", "shop", "event", 1, 0, 2)
    made.put("bound.proof", made.run("join", "later", "received", "linked", "earlier"))
    made.put("word.proof", made.run("join", "later", "received", "earlier"))


def make_long(made, hops=MOST_HOPS):
    """A proof over so many hops; 63 services between the first and the last, of which two take turns, so that lines of 64 services suffice."""
    names = [f"station-{number:02}" for number in range(hops)]
    ways = [*names, names[0]]
    for name in names:
        made.service(name)
    made.append(names[0], "letter posted")
    steps = {name: 0 for name in names} | {names[0]: 1}
    parts = []
    for source, by in zip(ways, ways[1:]):
        made.receive(by, source)
        steps[by] += 1
        parts.append((by, steps[by], source, steps[source] if source != by else steps[source] - 1))
    made.append(names[0], "letter delivered")
    for name in names[1:]:
        made.append(name, "closed")
    words = ["end"]
    made.prove("end", names[0], "event", 3, 0, 3)
    for number, (by, at, source, step) in enumerate(reversed(parts)):
        made.prove(f"hop-{number}", by, "thread", at, source, step)
        made.prove(f"bind-{number}", source, "link", step)
        words += [f"hop-{number}", f"bind-{number}"]
    made.prove("begin", names[0], "event", 1, 0, 1)
    made.put("long.proof", made.run("join", *words, "begin"))
    made.put("long.lines", "".join(made.lines[name] for name in names))


def make_others(made):
    """Files that are no proofs, and lines of every kind."""
    made.put("low.map", made.run("map", "registry", "low", 2, "shop"))
    made.put("high.map", made.run("map", "shop", "high", 2, "registry"))
    made.put("shop.history", made.run("export", "shop"))
    made.put("shop.lines", made.lines["shop"])
    made.put("both.lines", made.lines["shop"] + made.lines["registry"])
    made.put("other.lines", other_line(made.lines["shop"]))
    # Lines of many steps and services, the ones that are needed among them.
    rest = "".join(f"shop {step} {step:064x}\n" for step in range(10, 5010)) + "".join(f"s{number} 1 {number:064x}\n" for number in range(4998))
    made.put("many.lines", made.lines["registry"] + rest + made.lines["shop"])
    made.put("bad.lines", f"shop 3\n<b>shop</b>\nshop 0 {'0' * 64}\n" + made.lines["shop"])
    made.put("junk", bytes(range(256)) * 400)
    with open(made.path("huge.proof"), "wb") as huge:
        huge.write(made.path("record.proof").read_bytes())
        huge.truncate(200_000_000)
    with open(made.path("huge.lines"), "wb") as huge:
        huge.write(made.lines["shop"].encode())
        huge.truncate(200_000_000)


def make_bundles(made):
    """A record's proof with all that belongs to it in one file, with a stamp of nobody; and what is none."""
    line, proof = made.lines["shop"].encode(), made.path("record.proof").read_bytes()
    found = {"README.txt": b"read", "proof": proof, "lines": line, "record": b"milk", "record.name": b"milk.txt\n", "stamped-1": line, "stamp-1": b"stamp"}
    made.put("milk.zip", write_bundle(found))
    made.put("beer.zip", write_bundle({**found, "record": b"beer"}))
    made.put("cut.zip", write_bundle(found)[:-1])


def make_evidence(made):
    """A liar who keeps two histories under one name, and two services each of which received one of them; and a keeper with two histories."""
    for side, receiver in (("one", "bank"), ("other", "gazette")):
        made.path(f"liar-{side}").mkdir()
        made.run("init", f"liar-{side}", "liar")
        made.append(f"liar-{side}", side)
        made.service(receiver)
        made.receive(receiver, f"liar-{side}")
        made.lines[receiver] = made.append(receiver, "closed")
        made.prove(f"{receiver}.proof", receiver, "thread", 2, "liar", 1)
    made.put("fork.evidence", made.run("accuse", "bank.proof", "gazette.proof"))
    made.put("changed.evidence", made.path("fork.evidence").read_bytes().replace(b"gazette", b"gazerte"))
    made.put("receivers.lines", made.lines["bank"] + made.lines["gazette"])
    # The keeper shows one that he received the shop's line, and another that he didn't.
    made.path("keeper-one").mkdir()
    made.run("init", "keeper-one", "keeper")
    made.receive("keeper-one", "shop")
    made.lines["keeper 2"] = made.append("keeper-one", "closed")
    made.prove("has.proof", "keeper-one", "thread", 2, "shop", 3)
    made.path("keeper-other").mkdir()
    made.run("init", "keeper-other", "keeper")
    for _ in range(3):
        made.lines["keeper 3"] = made.append("keeper-other", "nothing")
    made.prove("lacks.proof", "keeper-other", "absent", 3, "shop", 3)
    made.put("keeper.lines", made.lines["keeper 2"] + made.lines["keeper 3"])


def all_made(program, folder):
    """All files."""
    made = Made(program, folder)
    make_kinds(made)
    make_chain(made)
    make_others(made)
    make_bundles(made)
    make_evidence(made)
    make_long(made)
    return made


if __name__ == "__main__":
    all_made(Path(sys.argv[1]).resolve(), sys.argv[2])
