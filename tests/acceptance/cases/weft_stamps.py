"""Acceptance cases of `weft stamp`: stamps of lines by time-stamping authorities of this machine, good ones and such as give no day; what is kept, and what is told of them."""

import hashlib
import json
import os
import time
from contextlib import contextmanager

from harness.rooms import Wrong, case, needs
from harness.weft_room import Loom
from network.authority import Authority, Served
from network.web import KINDS

YEAR = 365 * 86_400
NO_DAY = ("stood by", "not after")


class Stamped(Loom):
    """A shop whose line is kept, with a proof under it, and authorities, of which one is trusted."""

    def __init__(self, room):
        needs("openssl", "openssl")
        super().__init__(room)
        self.service("shop", [b"bread"], [b"milk"])
        self.put("p", self.timeweave("prove", "shop", "event", "1", "0"))
        self.put("l", self.run("line", "shop").out)
        self.expect("keep l --by mail", 0)

    def authority(self, name, is_trusted=True, **more):
        """Makes an authority, and trusts it."""
        made = Authority(self.folder / "authorities", name, **more)
        self.put(f"{name}.pem", made.root)
        if is_trusted:
            self.expect(f"keep --authority {name} {name}.pem", 0, f"{name} is noted as a time-stamping authority", hashlib.sha256(der_of(made.root)).hexdigest())
        return made

    @contextmanager
    def serving(self, authority):
        """Lets an authority be asked."""
        served = Served(authority)
        try:
            yield served
        finally:
            served.close()

    def stamps(self):
        """The files of stamps that are kept."""
        return sorted(path for path in self.folder.glob("kept.stamps/*/*") if path.is_file())

    def expect_none(self):
        """No stamp is kept."""
        if self.stamps():
            raise Wrong(f"  kept: {self.stamps()}")


def der_of(pem):
    """The bytes of the certificate in a PEM."""
    import ssl

    return ssl.PEM_cert_to_DER_cert(pem.decode())


def later(years):
    """What sets the clock of a run ahead."""
    real = time.time

    def patch():
        time.time = lambda: real() + int(years * YEAR)

    return patch


def days_later(days):
    """The same, by days."""
    return later(days / 365)


def stamped(room):
    """a line is stamped by an authority that its reader trusts: the stamp is kept as it came, and the day is told of the line, of the event below it and of its history, in
    words, JSON, report and table; openssl alone checks it as well"""
    loom = Stamped(room)
    with loom.serving(loom.authority("tsa")) as served:
        loom.expect("judge p", 0, absent=NO_DAY)
        loom.expect(f"stamp l --url {served.address('good')}", 0, "The line of step 2 of shop stood by", "says tsa (checked by openssl, not proved)", "is kept beside the line")
    if [path.read_bytes() for path in loom.stamps()] != [loom.read("l.stamp")]:
        raise Wrong("  something else than the answer is kept")
    told = "Event 0 of step 1 of shop was recorded not after"
    loom.expect("judge p", 0, "p: shown", "The line of step 2 of shop stood by", told, "if tsa is right", "doesn't say whose")
    row = json.loads(loom.expect("judge p --json", 0).out)
    (by,) = row["lines"][0]["stamps"]
    if by["authority"] != "tsa" or by["stood_by"] is None or row["not_after"][0]["day"] != by["stood_by"] or not any(it["what"] == "stamp" for it in row["inputs"]):
        raise Wrong(f"  {row}")
    again = next(it for it in row["again"] if it.startswith("openssl")).replace("LINE", "l").replace("CERTIFICATES", "tsa.pem")
    if os.system(f"cd {loom.folder} && {again} > tmp/out 2>&1"):
        raise Wrong(f"  {again}: {loom.read('tmp/out')}")
    loom.expect("judge p --report r.html", 0)
    if by["stood_by"].encode() not in loom.read("r.html"):
        raise Wrong("  the report has no day")
    loom.put("many/p", loom.read("p"))
    loom.expect("judge --many many --table t --workers 1", 0)
    if f"\tshop 2 by {by['stood_by']} (tsa)\n" not in loom.read("t").decode():
        raise Wrong(f"  {loom.read('t')}")
    loom.put("h", loom.timeweave("export", "shop"))
    loom.expect("judge h", 0, "What shop recorded up to its step 2 was there not after")
    loom.expect("judge p --kept l", 0, absent=NO_DAY)


def not_stamped(room):
    """an authority that answers something else, sends elsewhere, fails, is silent, doesn't end, refuses, or isn't trusted: nothing is kept, and that is told"""
    loom = Stamped(room)
    loom.expect("stamp l --url https://tsa.example/", 12, "you trust no time-stamping authority")
    authority = loom.authority("tsa")
    foreign = loom.authority("foreign", is_trusted=False)
    with loom.serving(authority) as served, loom.serving(foreign) as other:
        for way, status, told in (
            ("page", 10, "no answer of a time-stamping authority"), ("changed", 1, "it was changed"), ("other", 1, "it is of another text"), ("elsewhere", 10, "sends elsewhere"),
            ("failing", 10, "the server answered 500"), ("endless", 10, "more"), ("refused", 1, "isn't kept"), ("silent", 10, "its time was up"),
            *((kind.replace(" ", "-"), 10, "l isn't stamped") for kind in KINDS),
        ):  # fmt: skip
            loom.expect(f"stamp l --url {served.address(way)} --seconds 2", status, told)
        loom.expect(f"stamp l --url {other.address('good')}", 1, "of no authority whose certificate you trust")
        loom.expect("stamp l --url http://127.0.0.1:1/", 10, "Connection refused")
        loom.expect("stamp l --url ftp://tsa.example/", 2, "no address")
        loom.expect(f"stamp p --url {served.address('good')}", 9, "no line of a service")
        loom.expect(f"stamp l --url {served.address('good')}", 5, "there is no openssl on the path", PATH=loom.folder)
    loom.expect_none()
    if (loom.folder / "l.stamp").exists():
        raise Wrong("  a stamp was written")


def from_elsewhere(room):
    """a stamp that came from elsewhere is kept where it is good of that line by an authority that the reader trusts: one that is changed, foreign, of another line, of a weak
    digest, no stamp, or of a line that isn't kept isn't, and what lies in its place later gives no day"""
    loom = Stamped(room)
    authority, foreign = loom.authority("tsa"), loom.authority("foreign", is_trusted=False)
    line = loom.read("l")
    good = authority.stamp(line, "sha256")
    bad = {
        "changed": (good[:-1] + bytes([good[-1] ^ 1]), 1, "it was changed"), "inside": (good.replace(b"Stamps of tsa", b"Stamps of tsb"), 1, "gives no day"),
        "of-foreign": (foreign.stamp(line), 1, "of no authority whose certificate you trust"), "of-line": (authority.stamp(b"shop 3 " + line[7:]), 1, "it is of another text"),
        "no-end": (authority.stamp(line[:-1]), 1, "it is of another text"), "weak": (authority.stamp(line, "sha1"), 1, "too weak (sha1)"), "cut": (good[:-9], 9, "is no stamp"),
        "behind": (good + b"\0", 9, "is no stamp"), "twice": (good + good, 0, ""), "text": (b"stamped!", 9, "is no stamp"),
    }  # fmt: skip
    for name, (data, status, told) in bad.items():
        if status:
            loom.put(name, data)
            loom.expect(f"keep l --stamp {name}", status, told)
    loom.expect_none()
    loom.put("s", good)
    loom.put("l3", f"shop 1 {'ab' * 32}\n")
    loom.put("s3", authority.stamp(loom.read("l3")))
    loom.expect("keep l3 --stamp s3", 12, "isn't kept in")
    loom.expect("keep l --stamp s", 0, "The stamp is kept beside it")
    loom.expect("keep l --stamp s", 0, "that was kept already")
    (place,) = loom.stamps()
    loom.expect("judge p", 0, "stood by", "not after")
    for name, (data, _, _) in bad.items():
        place.write_bytes(data)
        loom.expect("judge p", 0, "p: shown", *(NO_DAY if name == "twice" else ["gives no day"]), absent=() if name == "twice" else NO_DAY)
    place.write_bytes(good)
    loom.expect("judge p", 0, "gives no day", "there is no openssl on the path", absent=NO_DAY, PATH=loom.folder)
    loom.put("empty/none", "")
    loom.expect("judge p --authorities empty", 0, "of no authority whose certificate you trust", absent=NO_DAY)
    loom.expect("judge p", 0, "of no authority whose certificate you trust", absent=NO_DAY, WEFT_AUTHORITIES=loom.folder / "empty")


def renewed(room):
    """a stamp whose certificate has expired gives no day any more, and that it was good is told; one that was renewed in time by another authority gives its day on, and not
    where what renewed it counts no more, or is of something else"""
    loom = Stamped(room)
    short, long = loom.authority("short", days=400), loom.authority("long", days=7300)
    with loom.serving(short) as first, loom.serving(long) as second:
        loom.expect(f"stamp l --url {first.address('good')}", 0, "says short")
        old = loom.read("l.stamp")
        loom.expect("judge p", 0, "stood by", patch=later(1))
        loom.expect("judge p", 0, "the certificate of short has expired", "could have made it", absent=NO_DAY, patch=later(2))
        loom.expect(f"stamp l --url {second.address('good')} --renew l.stamp", 1, "isn't renewed", "has expired", patch=later(2))
        loom.expect(f"stamp l --url {second.address('good')} --renew l.stamp", 0, "says short")
    whole = loom.read("l.stamp")
    if not whole.startswith(old) or [path.read_bytes() for path in loom.stamps()] != [whole]:
        raise Wrong("  the renewed stamp isn't the old one and another one behind it")
    loom.expect("judge p", 0, "stood by", "says short", "the stamp was renewed while it did", patch=later(10))
    loom.expect("judge p", 0, "has expired", absent=NO_DAY, patch=later(21))
    (place,) = loom.stamps()
    for wrong in (old + long.stamp(loom.read("l")), old + long.stamp(old), whole[:-1] + bytes([whole[-1] ^ 1]), long.stamp(b"other") + whole[len(old) :]):
        place.write_bytes(wrong)
        loom.expect("judge p", 0, "gives no day", absent=NO_DAY, patch=later(10))
    place.write_bytes(whole)
    loom.put("old", old)
    loom.expect("keep l --stamp old", 0, "that was kept already")
    loom.expect("keep l --stamp l.stamp", 0, "that was kept already")


def revoked(room):
    """a stamp whose certificate its authority has revoked, as its list says that stands beside its certificates, gives no day; and other certificates don't take the place of
    noted ones"""
    loom = Stamped(room)
    authority, other = loom.authority("tsa"), loom.authority("other", is_trusted=False)
    with loom.serving(authority) as served:
        loom.expect(f"stamp l --url {served.address('good')}", 0)
    loom.put("other.pem", other.root)
    loom.expect("keep --authority tsa other.pem", 10, "has other certificates of tsa already")
    loom.expect("judge p", 0, "stood by")
    loom.put(".config/weft/authorities/tsa.pem", authority.root + authority.revoke())
    loom.expect("judge p", 0, "the certificate of tsa was revoked", absent=NO_DAY)
    for name, told in (("tsa.key", "private key"), ("p", "no certificate"), ("missing", "there is no file")):
        loom.put("tsa.key", (authority.folder / "tsa.key").read_bytes())
        loom.expect(f"keep --authority third {name}", 3 if name == "missing" else 9, told)
    loom.expect("keep --authority ../up other.pem", 2, "no name of an authority")


def in_order(room):
    """of two events in order the first was recorded not after the day of the second one's line, where each hop is bound, by a link or by a kept line; on somebody's word it has the
    day of its own line alone"""
    loom = Stamped(room)
    loom.service("bank", [b"opened"])
    loom.put("m", loom.timeweave("thread", "shop", "0"))
    loom.put("r", loom.timeweave("receive", "bank", "m"))
    loom.append("bank", b"paid")
    for name, words in (("later", "bank event 3 0"), ("received", "bank thread 2 shop 2"), ("link", "shop link 2 2"), ("earlier", "shop event 1 0 2")):
        loom.put(name, loom.timeweave("prove", *words.split()))
    loom.put("bound", loom.timeweave("join", "later", "received", "link", "earlier"))
    loom.put("carried", loom.timeweave("join", "later", "received", "earlier"))
    loom.put("b", loom.run("line", "bank").out)
    loom.expect("keep b --by mail", 0)
    loom.put("s", loom.authority("tsa").stamp(loom.read("b")))
    loom.expect("keep b --stamp s", 0)
    loom.expect("judge bound", 0, "Event 0 of step 1 of shop was recorded not after", "Event 0 of step 3 of bank was recorded not after")
    loom.expect("judge carried", 0, "carried: shown", "Event 0 of step 1 of shop was recorded not after")
    loom.put("kept", "".join(f"{line}\n" for line in loom.read("kept").decode().splitlines() if not line.startswith("shop ")))
    loom.expect("judge carried --carried", 0, "Event 0 of step 3 of bank was recorded not after", absent=("Event 0 of step 1 of shop was recorded",))
    loom.expect("judge carried", 1, absent=("Event 0 of step 1 of shop was recorded",))


def each_night(room):
    """the last line of a service is stamped each night, by weft stamp and by the turn whose box.conf names an authority: once, renewed before its certificate ends, and told by
    weft status; what a backup has of it comes back; an authority that can't be asked is told with 10, and the turn and the backup stand"""
    loom = Stamped(room)
    loom.put("files/sold", b"bread")
    loom.expect("log files log log", 0)
    short, long = loom.authority("short", days=400), loom.authority("long", days=7300)
    with loom.serving(short) as first, loom.serving(long) as second:
        loom.expect(f"stamp log --url {first.address('good')} --json", 0, "stood by", "says short")
        (path,) = (loom.folder / "log/stamps/log").glob("*.stamp")
        old = path.read_bytes()
        loom.expect(f"stamp log --url {first.address('page')}", 0, "no stamp is due")
        loom.expect("status log", 0, "stamp: of step 1, ", ", short; the next renewal is due on")
        loom.expect(f"stamp log --url {first.address('good')} --renew x", 2, "are for a file of a line")
        loom.expect("log files log", 0)
        loom.expect(f"stamp log --url {first.address('page')}", 10, "the line of step 2 isn't stamped", "no answer of a time-stamping authority")
        loom.expect(f"stamp log --url {first.address('good')}", 0, "The line of step 2 of log stood by")
        ahead = {"patch": days_later(320)}
        loom.expect(f"stamp log --url {first.address('good')}", 10, "isn't renewed", "it would count no longer", **ahead)
        if path.read_bytes() != old:
            raise Wrong("  a stamp was renewed that counts no longer by that")
        done = loom.run("status", "log", "--days", "2", **ahead)
        if done.status != 10 or "a stamp is due to be renewed" not in done.err or "no line was stamped" not in done.err:
            raise Wrong(f"  {done}")
        loom.expect(f"stamp log --url {second.address('silent')} --seconds 1", 10, "counts until", "its time was up", **ahead)
        loom.expect(f"stamp log --url {second.address('good')}", 0, "2 stamps were renewed", **ahead)
        if not path.read_bytes().startswith(old) or path.read_bytes() == old:
            raise Wrong("  the renewed stamp isn't the old one and another one behind it")
        loom.put("p", loom.timeweave("prove", "log", "event", "1", "0"))
        loom.expect("judge p --kept log.lines", 0, "stood by", "says short", "the stamp was renewed", patch=later(5))
        path.write_bytes(old[:-1] + bytes([old[-1] ^ 1]))
        loom.expect(f"stamp log --url {second.address('good')}", 10, "No renewal mends that")
        path.write_bytes(old)
        loom.expect("backup log b", 0)
        os.rename(loom.folder / "log", loom.folder / "away")
        for end in ("lines", "anchor", "seal", "entries"):
            os.rename(loom.folder / f"log.{end}", loom.folder / f"away.{end}")
        loom.expect("restore b log", 0)
        if path.read_bytes() != old:
            raise Wrong("  the backup has no stamps")


def in_a_turn(room):
    """a turn has the line that it made stamped where box.conf names an authority, before the backup; that no authority is trusted, or none answers, is told, counts, and
    hinders nothing else"""
    loom = Stamped(room)
    loom.put("files/sold", b"bread")
    loom.expect("log files log log", 0)
    (loom.folder / "box").mkdir()
    loom.key("log")
    authority = loom.authority("tsa", is_trusted=False)
    with loom.serving(authority) as served:
        for settings, status, told in (
            (f"stamp = {served.address('good')}", 10, "you trust no time-stamping authority"), ("stamp = nowhere", 9, "is no setting"), ("stamp = http://127.0.0.1:1/", 10, "Connection refused"),
            (f"stamp = {served.address('good')}", 0, "stood by"),
        ):  # fmt: skip
            loom.put("box/box.conf", f"{settings}\nkey = {loom.folder}/log.key\nbackup = {loom.folder}/backed\n")
            loom.expect("exchange log box", status, told)
            if (status == 9) != (not (loom.folder / "backed").exists()) and status != 10:
                raise Wrong(f"  {settings}: the backup")
            if told.startswith("you trust"):
                loom.expect("keep --authority tsa tsa.pem", 0)
                (loom.folder / "backed").unlink()
    last = loom.run("line", "log").out.split()
    names = [path.name for path in (loom.folder / "log/stamps/log").glob("*.stamp")]
    if len(names) != 1 or not names[0].startswith(f"{last[1]}-{last[2]}-"):
        raise Wrong(f"  stamped is {names}, and the last line is {last}")
    if b"service/stamps/log/" not in loom.read("backed"):
        raise Wrong("  the backup was made before the stamp")


def not_before(room):
    """an event that has a value of a known day, and what is shown to have come after it, was recorded not before that day, as whoever names the value says; a value that no event
    has, one behind a hop on somebody's word, and a day that contradicts a stamp, tell no day and are told"""
    loom = Stamped(room)
    loom.put("files/paper.pdf", b"news of the day")
    loom.expect("log files log log", 0)
    loom.append("log", b"deed 17")
    for name, words in (("order", "event 2 0"), ("paper", "event 1 0")):
        loom.put(name, loom.timeweave("prove", "log", *words.split()))
    loom.put("log.line", loom.run("line", "log").out)
    loom.expect("keep log.line --by mail", 0)
    loom.expect("chain log:1:0 log:2:0 --store log --out c", 0)
    told = "was recorded not before 2026-11-30, if nobody knew what is in files/paper.pdf earlier (not proved)"
    loom.expect("judge c --beacon 2026-11-30 files/paper.pdf", 0, f"Event 0 of step 2 of log {told}", f"Event 0 of step 1 of log {told}")
    loom.expect("judge paper --beacon 2026-11-30 files/paper.pdf", 0, f"Event 0 of step 1 of log {told}")
    row = json.loads(loom.expect("judge c --beacon 2026-11-30 files/paper.pdf --json --report r.html", 0).out)
    if [(it["step"], it["day"]) for it in row["not_before"]] != [(1, "2026-11-30"), (2, "2026-11-30")] or not any(it["what"] == "beacon" for it in row["inputs"]):
        raise Wrong(f"  {row}")
    if told.encode() not in loom.read("r.html"):
        raise Wrong("  the report has no day")
    loom.put("other", b"other news")
    loom.expect("judge c --beacon 2026-11-30 other", 10, "other is no event of this proof", absent=("not before",))
    loom.expect("judge order --beacon 2026-11-30 files/paper.pdf", 10, "is no event of this proof", absent=("not before",))
    loom.put("deed", b"deed 17")
    loom.expect("judge c --beacon 2026-11-30 files/paper.pdf --beacon 2026-12-01 deed", 0, "step 2 of log was recorded not before 2026-12-01", f"step 1 of log {told}")
    for words, status, text in (
        ("judge c --beacon today deed", 2, "is no day"), ("judge c --beacon 2026-02-29 deed", 2, "is no day"), ("judge c --beacon 2026-11-30 nothing", 3, "there is no file"),
        ("judge c paper --beacon 2026-11-30 deed", 2, "of one proof"), ("judge --many files --beacon 2026-11-30 deed", 2, "--many takes no"),
    ):  # fmt: skip
        loom.expect(words, status, text)
    loom.put("s", loom.authority("tsa").stamp(loom.read("log.line")))
    loom.expect("keep log.line --stamp s", 0)
    loom.expect("judge c --beacon 2026-11-30 files/paper.pdf", 0, "not before", "not after", absent=("before it could be",))
    loom.expect("judge c --beacon 2226-11-30 files/paper.pdf", 10, "would have been there before it could be")
    loom.put("kept", "")
    loom.expect("judge c --beacon 2026-11-30 files/paper.pdf", 12, absent=("not before",))


def not_before_on_a_word(room):
    """of an order that only a receiver vouches for no day is told by a beacon"""
    loom = Stamped(room)
    loom.service("bank", [b"opened"])
    loom.put("m", loom.timeweave("thread", "shop", "0"))
    loom.timeweave("receive", "bank", "m")
    loom.append("bank", b"paid")
    for name, words in (("later", "bank event 3 0"), ("received", "bank thread 2 shop 2"), ("earlier", "shop event 1 0 2")):
        loom.put(name, loom.timeweave("prove", *words.split()))
    loom.put("carried", loom.timeweave("join", "later", "received", "earlier"))
    loom.put("b", loom.run("line", "bank").out)
    loom.expect("keep b --by mail", 0)
    loom.put("bread", b"bread")
    loom.expect("judge carried --beacon 2026-11-30 bread", 0, "was recorded not before 2026-11-30")
    loom.put("kept", "".join(f"{line}\n" for line in loom.read("kept").decode().splitlines() if not line.startswith("shop ")))
    for words, status in (("judge carried", 1), ("judge carried --carried", 0)):
        loom.expect(f"{words} --beacon 2026-11-30 bread", status, "has no day by a beacon", absent=("not before",))


def cases():
    """All cases of this module."""
    return [case(work, "weft stamps") for work in (stamped, not_stamped, from_elsewhere, renewed, revoked, in_order, each_night, in_a_turn, not_before, not_before_on_a_word)]
