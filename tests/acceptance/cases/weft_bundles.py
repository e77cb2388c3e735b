"""Acceptance cases of `weft bundle`: a proof with all that it takes to judge it in one file, and whose its lines are; bundles that somebody changed."""

import io
import random
import subprocess
import zipfile
from pathlib import Path

import changed_bundles

from cases.weft_stamps import Stamped
from harness.rooms import Wrong, case, needs
from harness.weft_room import SHARE
from harness.web import MODULE

from weft.deciding.bundles import Unfit, read_bundle, write_bundle
from weft.sentences import fill

SENT, KEPT = "the sender's alone", "is the one that you kept"


class Sent(Stamped):
    """A bundle that a keeper made, with a signature and a stamp; and a reader who has nothing of his own."""

    def __init__(self, room):
        needs("ssh-keygen", "openssh-client")
        super().__init__(room)
        self.service("town", [b"bread", b"salt"])
        self.put("t", self.timeweave("prove", "town", "event", "1", "0"))
        self.put("bread", b"bread")
        self.key("town")
        self.expect("line town --sign town.key --out town.line", 0)
        self.expect("keep town.line --by own", 0)
        self.tsa = self.authority("tsa")
        self.put("s", self.tsa.stamp(self.read("town.line")))
        self.expect("keep town.line --stamp s", 0)
        self.expect("bundle b.zip t --line town.line --file bread", 0, "has the proof, the record, 1 line, 1 signature, 1 stamp", "weft judge b.zip")
        self.put("none/kept", "")
        (self.folder / "none/authorities").mkdir()
        self.env |= {"WEFT_KEPT": str(self.folder / "none/kept"), "WEFT_SIGNERS": str(self.folder / "none/signers"), "WEFT_AUTHORITIES": str(self.folder / "none/authorities")}


def whose_lines(room):
    """the lines of a bundle are the sender's for a reader who has nothing of his own; one that he kept, or that a key signed which he noted, counts, one that only a stamp
    meets shows its proof in part, and one that differs from his own is told as two lines"""
    loom = Sent(room)
    loom.expect("judge b.zip", 12, "b.zip: not judged", SENT, "The line of step 1 of town is missing", absent=("bread is that file",))
    loom.expect("judge b.zip", 1, "b.zip: shown in part: on somebody's word", "only the sender says", "stood by", "says tsa", WEFT_AUTHORITIES=loom.folder / ".config/weft/authorities")
    loom.expect("keep --signer town town.key.pub", 0)
    loom.expect("judge b.zip", 0, "b.zip: shown", "is signed by a key that you noted of town", "bread is that file")
    loom.put("none/signers", "")
    loom.expect("judge b.zip", 12, SENT)
    loom.expect("keep town.line --by mail", 0)
    loom.expect("judge b.zip", 0, "b.zip: shown", KEPT)
    loom.put("none/kept", f"town 1 {'ab' * 32} 2026-11-29T09:40:00Z by letter\n")
    loom.expect("judge b.zip", 11, "b.zip: not shown", "TWO LINES", "by letter")
    loom.expect("judge b.zip --audit bread", 2, "aren't for a bundle")
    loom.expect("tell b.zip", 0)


def by_others(room):
    """what is in a bundle can be taken out by any program that opens zip files, and checked without weft; its JSON and its report tell the bundle's own digest"""
    loom = Sent(room)
    with zipfile.ZipFile(loom.folder / "b.zip") as whole:
        if whole.testzip() is not None or sorted(whole.namelist()) != whole.namelist():
            raise Wrong(f"  {whole.namelist()}")
        whole.extractall(loom.folder / "out")
    out = loom.folder / "out"
    checks = (
        [loom.program, "strict", "proof", "lines"], ["ssh-keygen", "-Y", "check-novalidate", "-n", "timeweave-line", "-s", "signed-1.sig"],
        ["openssl", "ts", "-verify", "-data", "stamped-1", "-in", "stamp-1", "-partial_chain", "-CAfile", loom.folder / "tsa.pem"],
    )  # fmt: skip
    for words in checks:
        done = subprocess.run(words, cwd=out, input=(out / "signed-1").read_bytes(), capture_output=True, timeout=60)
        if done.returncode:
            raise Wrong(f"  {words}: {done}")
    if (out / "record").read_bytes() != b"bread" or (out / "keys").read_text().split()[0] != "town":
        raise Wrong("  another record or key")
    loom.expect("keep town.line --by mail", 0)
    done = loom.expect("judge b.zip --json --report r.html", 0)
    digest = subprocess.run(["sha256sum", "b.zip"], cwd=loom.folder, capture_output=True, text=True).stdout.split()[0]
    if digest not in done.out or digest not in loom.read("r.html").decode():
        raise Wrong(f"  {done}")


def hostile(found, data):
    """Bundles that nobody's program wrote so, each with why it is none."""
    packed = io.BytesIO()
    with zipfile.ZipFile(packed, "w", zipfile.ZIP_DEFLATED) as whole:
        for name, part in found.items():
            whole.writestr(name, part)
    other = io.BytesIO()
    with zipfile.ZipFile(other, "w") as whole:
        for name, part in found.items():
            whole.writestr(name, part)
    end = data[-22:]
    return {
        "packed": (packed.getvalue(), Unfit.PACKED), "dated": (other.getvalue(), Unfit.PACKED), "behind": (data + b"x", Unfit.END), "before": (b"x" + data, None),
        "comment": (data[:-2] + b"\x01\0x", Unfit.END), "path": (write_bundle({**found, "../up": b""}), Unfit.NAME), "two": (data[:-22] + data[-22:] + end, Unfit.PLACE),
        "lacks": (write_bundle({name: part for name, part in found.items() if name != "lines"}), Unfit.LACKS), "between": (data[:-22] + b"x" + end, Unfit.PLACE),
        "changed": (data.replace(b"bread", b"broad", 1), Unfit.CHANGED), "both": (data + data, Unfit.PLACE), "cut": (data[:-30], Unfit.END),
    }  # fmt: skip


def refused(room):
    """a bundle that is packed, has a name twice, a path, a link, a comment, bytes before, between or behind its parts, or two directories is refused with the reason, and a
    changed one never lets a line of the sender's count"""
    loom = Sent(room)
    data = loom.read("b.zip")
    found = read_bundle(data)
    if isinstance(found, Unfit):
        raise Wrong(f"  {found}")
    for name, (changed, why) in hostile(found, data).items():
        loom.put(f"{name}.zip", changed)
        loom.expect(f"judge {name}.zip", 9, "not judged", fill(why.value) if why is not None else "")
    rand = random.Random("bundles")
    for number in range(0, 400, SHARE):
        place, changed = rand.randrange(len(data)), bytearray(data)
        changed[place] ^= 1 << rand.randrange(8)
        loom.put("c.zip", bytes(changed[: rand.randrange(len(data)) if number % 4 == 0 else None]))
        done = loom.run("judge", "c.zip")
        if done.status not in (9, 12) or "shown" in done.out.replace("isn't shown", ""):
            raise Wrong(f"  changed at {place}: {done}")


def not_made(room):
    """no bundle is made of a proof that isn't accepted, without a line that it needs, of a line that isn't signed, or of what is no proof"""
    loom = Sent(room)
    loom.put("forged", loom.read("t").replace(b"bread", b"broad"))
    for words, status, told in (
        ("bundle n.zip forged --line town.line", 1, "isn't accepted"), ("bundle n.zip t", 12, "is missing"), ("bundle n.zip t --line l", 9, "has no signature"),
        ("bundle n.zip bread --line town.line", 9, "is no proof"), ("bundle n.zip nothing", 3, "there is no file"),
    ):  # fmt: skip
        loom.expect(words, status, told)
    if (loom.folder / "n.zip").exists():
        raise Wrong("  a bundle was written")


def of_each_kind(room):
    """two map files, evidence, and a chain with both its records go into a bundle and are judged as by themselves; of a chain that carries a line it is told, with how the
    reader judges that, and the line that its maker keeps goes along and binds where it meets one of the reader's; no other two files are judged together"""
    loom = Sent(room)
    loom.env |= {"WEFT_KEPT": str(loom.folder / "kept")}
    loom.service("bank", [b"opened"])
    loom.put("m", loom.timeweave("thread", "shop", "0"))
    loom.timeweave("receive", "bank", "m")
    loom.append("bank", b"paid")
    loom.append("shop", b"closed")
    for name, words in (("later", "prove bank event 3 0"), ("received", "prove bank thread 2 shop 2"), ("earlier", "prove shop event 1 0 2"), ("low", "map bank low 3 shop"), ("high", "map shop high 3 bank")):
        loom.put(name, loom.timeweave(*words.split()))
    loom.put("carried", loom.timeweave("join", "later", "received", "earlier"))
    for name in ("bank", "shop"):
        loom.put(f"{name}.line", loom.run("line", name).out)
        loom.expect(f"keep {name}.line --by mail", 0)
    loom.put("paid", b"paid")
    loom.put("bread", b"bread")
    loom.expect("bundle maps.zip low high", 0, "maps.zip has the proof, 2 lines")
    loom.expect("judge maps.zip", 0, "maps.zip: shown", absent=("and maps.zip",))
    loom.expect("judge maps.zip --json", 0)
    loom.expect("judge maps.zip", 12, "maps.zip: not judged", SENT, WEFT_KEPT=loom.folder / "none/kept")
    loom.expect("bundle c.zip carried --file bread --file paid", 0, "both records", "It carries the line of step 2 of shop", "--carried")
    if "held" not in (found := read_bundle(loom.read("c.zip"))) or found["held"] != f"{loom.read('l').decode()}".encode():
        raise Wrong(f"  {found}")
    loom.expect("judge c.zip", 0, "c.zip: shown", "bread is the file that was logged as the earlier event", "paid is the file that was logged as the later event")
    loom.put("none/kept", f"{loom.read('bank.line').decode().strip()} 2026-11-29T09:40:00Z by letter\n")
    loom.expect("judge c.zip", 1, "c.zip: shown in part", "By bank's word alone: bread", WEFT_KEPT=loom.folder / "none/kept")
    loom.expect("judge c.zip --carried", 0, "c.zip: shown in part", WEFT_KEPT=loom.folder / "none/kept")
    loom.put("c2.zip", write_bundle({**found, "record": b"broad"}))
    loom.expect("judge c2.zip", 1, "c2.zip: not shown: recorded, but as no file")
    loom.put("two.zip", write_bundle({**found, "proof-2": loom.read("high")}))
    loom.expect("judge two.zip", 9, "has two files that aren't judged together")
    for words, told in (("bundle n.zip high low", "aren't a low map file and a high one"), ("bundle n.zip carried low", "aren't a low map file"), ("bundle n.zip t --file a --file b --file c", "2 records at most")):
        loom.expect(words, 2, told)
    loom.expect("bundle n.zip low", 12, "is one of two map files")


# So many changed bundles are tried by both; as many where the page's module isn't built, in whose place the program judges, which takes long.
CHANGED, CHANGED_BY_PROGRAM = 800, 24


def by_both(room):
    """weft and the page read a changed bundle alike, and say the same of it and of whose its lines are: none of the sender's counts"""
    count = max(CHANGED // SHARE, CHANGED_BY_PROGRAM) if MODULE.exists() else CHANGED_BY_PROGRAM
    wrong, seen = changed_bundles.tried(Path(room.program).resolve(), "bundles", range(count))
    if wrong or not any(told.startswith("opened, shown") for told in seen):
        raise Wrong("\n".join([*wrong[:3], f"  {dict(seen)}"]))


def among_many(room):
    """bundles among many files are judged as by themselves, with their days, and anew each time: before and after a key is noted; two whose lines are signed by one key and
    contradict each other are told, and a record that isn't the one of the event isn't shown"""
    loom = Sent(room)
    found = read_bundle(loom.read("b.zip"))
    for name, data in (("a.zip", loom.read("b.zip")), ("b/c.zip", write_bundle({**found, "record": b"broad"})), ("t", loom.read("t")), ("cut.zip", loom.read("b.zip")[:-1])):
        loom.put(f"many/{name}", data)

    def table(status, **more):
        done = loom.expect("judge --many many --table table --workers 1", status, **more)
        rows = [line.split("\t") for line in loom.read("table").decode().splitlines()[2:]]
        return done, {row[0]: row for row in rows}

    _, rows = table(9)
    if [rows[name][3:5] for name in ("a.zip", "b/c.zip", "t", "cut.zip")] != [["not judged", "12"], ["not judged", "12"], ["not judged", "12"], ["not judged", "9"]]:
        raise Wrong(f"  {rows}")
    loom.expect("keep --signer town town.key.pub", 0)
    done, rows = table(1)
    alone = {name: loom.run("judge", f"many/{name}") for name in ("a.zip", "b/c.zip")}
    if [rows[name][3:5] for name in ("a.zip", "b/c.zip")] != [["shown", "0"], ["not shown", "1"]] or [alone[name].status for name in ("a.zip", "b/c.zip")] != [0, 1] or rows["a.zip"][9]:
        raise Wrong(f"  {rows}\n  {alone}")
    _, rows = table(1, WEFT_AUTHORITIES=loom.folder / ".config/weft/authorities")
    if not rows["a.zip"][9].startswith("town 1 by 20") or not rows["a.zip"][9].endswith("(tsa)"):
        raise Wrong(f"  {rows}")
    loom.service("town", [b"bribe"], folder="other")
    loom.put("o", loom.timeweave("prove", "other", "event", "1", "0"))
    loom.expect("line other --sign town.key --out other.line", 0)
    loom.put("nobody", "")
    loom.expect("bundle many/d.zip o --line other.line --kept nobody", 0)
    done, rows = table(11)
    if rows["d.zip"][4] != "11" or rows["a.zip"][4] != "11" or "CONTRADICT EACH OTHER" not in done.out:
        raise Wrong(f"  {done}\n  {rows}")
    loom.expect("judge many/a.zip many/d.zip", 11, "TWO LINES")


def cases():
    """All cases of this module."""
    return [case(work, "weft bundles") for work in (whose_lines, by_others, refused, not_made, of_each_kind, among_many, by_both)]
