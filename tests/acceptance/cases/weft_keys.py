"""Acceptance cases of keys that change, end, are lost or are stolen: what an old key introduces counts while that one is noted, what is made up is refused, and a key with
days counts on these."""

import base64
import json
import subprocess
import time

from cases.weft_exchange import pair
from harness.rooms import Wrong, case
from harness.weft_room import SHARE, Loom, each_fault
from weft.deciding.signatures import read_public_key


def with_old_key(room):
    """A service with two keys, and a reader who has noted the old one and keeps a line that it signed."""
    loom = Loom(room)
    loom.put("src/a", "x")
    loom.expect("log src shop shop", 0, WEFT_KEPT=loom.put("kept of the shop", ""))
    for name in ("old", "new", "thief"):
        loom.key(name)
    loom.expect("line shop --sign old.key --out before", 0, WEFT_KEPT=None)
    loom.expect("keep before --signer shop old.key.pub", 0)
    return loom


def of_shop(loom, words, status, *texts, **more):
    """Runs weft as the service's keeper, who keeps no lines."""
    return loom.expect(words, status, *texts, WEFT_KEPT=None, **more)


def fingerprint(loom, name):
    """The fingerprint of a key."""
    return read_public_key(loom.read(f"{name}.key.pub")).fingerprint


def with_introduced(room):
    """The same, whose old key has introduced the new one."""
    loom = with_old_key(room)
    of_shop(loom, "line shop --sign old.key --introduce new.key.pub --out change", 0, "weft keep change --introduced change.key", "sign by the new key")
    return loom


def changed(room):
    """a new key is introduced by a line that the old one signed, and stands in order as an event of the step; who has the old one notes it by these files, and a line that
    the new one signed is kept; once the old one is taken out nothing counts that either signed; noted by a person it counts by itself"""
    loom = with_introduced(room)
    if not loom.read("change.key").startswith(loom.read("change").strip() + b" introduces ssh-ed25519 "):
        raise Wrong(f"  {loom.read('change.key')[:200]!r}")
    loom.expect("keep change --introduced change.key", 0, f"{fingerprint(loom, 'new')} is noted as the key of shop too", f"{fingerprint(loom, 'old')} introduced it in step 2")
    loom.put("src/b", "y")
    of_shop(loom, "log src shop", 0, absent=("no run of weft log made",))
    of_shop(loom, "check shop --all", 0)
    of_shop(loom, "line shop --sign new.key --out after", 0)
    loom.expect("keep after", 0, f"signed by ED25519 {fingerprint(loom, 'new')}")
    loom.put("p", loom.timeweave("prove", "shop", "event", "3", "0"))
    loom.expect("judge p", 0, "p: shown")
    if fingerprint(loom, "new") not in json.loads(loom.expect("keep change --introduced change.key --json", 0).out)["introduced"]:
        raise Wrong("  JSON doesn't name the new key")
    noted = loom.read("signers").splitlines(True)
    if len(noted) != 2:
        raise Wrong(f"  {noted}")
    loom.put("signers", noted[1])
    loom.expect("judge p", 12, "DOESN'T COUNT", fingerprint(loom, "new"))
    loom.expect("keep after", 12, "no key of shop is noted")
    loom.expect("keep --signer shop new.key.pub", 0)
    loom.expect("judge p", 0, "p: shown", "DOESN'T COUNT: 2 lines of shop", fingerprint(loom, "old"))


def ended(room):
    """a replaced key has an end by ssh-keygen's own option: what was kept before counts on, what was kept later doesn't, what it signs now is refused, and the key that it
    introduced counts; from a day that lies ahead a key signs nothing yet"""
    loom = with_introduced(room)
    loom.expect("keep change --introduced change.key", 0)
    noted = loom.read("signers")
    of_shop(loom, "line shop --sign old.key --out by-old", 0)
    of_shop(loom, "line shop --sign new.key --out by-new", 0)
    loom.put("p", loom.timeweave("prove", "shop", "event", "1", "0", "1"))
    today, kept = time.strftime("%Y-%m-%d", time.gmtime()).encode(), loom.read("kept")
    loom.put("signers", noted.replace(b"namespaces=", b'valid-before="20260101",namespaces=', 1))
    for day in (b"2025-12-30", b"2026-01-03", b"2025-12-30"):
        loom.put("kept", kept.replace(today, day))
        if day < b"2026":
            loom.expect("judge p", 0, "p: shown", absent=("DOESN'T COUNT",))
        else:
            loom.expect("judge p", 12, "DOESN'T COUNT: 2 lines of shop", "or not for the day when you kept it")
            loom.expect("log src shop", 10, "DOESN'T COUNT")
            step = loom.read("by-old").split()[1].decode()
            loom.put("kept", loom.read("kept") + f"shop {step} {'0' * 64} 2026-01-03T00:00:00Z signed by ED25519 {fingerprint(loom, 'old')}\n".encode())
            loom.expect("keep by-new", 10, f"another line of step {step} of shop was kept", "or wasn't then", absent=("there are two lines",))
    loom.expect("keep by-old", 1, "isn't good by a key")
    loom.expect("keep by-new", 0)
    loom.put("signers", noted.replace(b"namespaces=", b'valid-after="20990101",namespaces=', 1))
    loom.expect("keep by-old", 1, "isn't good by a key")
    loom.put("signers", noted.replace(b"namespaces=", b'valid-after="20200101",namespaces=', 1))
    loom.expect("keep by-old", 0)


def made_up(room):
    """what a thief of another key, or a sender, makes up introduces no key: an unsigned line, one by a key that isn't noted, a proof of another step or service, one under
    another line, an event that names no key or has others beside it; nothing is noted or kept then"""
    loom = with_introduced(room)
    before = loom.read("signers")
    of_shop(loom, "line shop --sign thief.key --out stolen", 0)
    loom.expect("keep stolen --introduced change.key", 1, "isn't good by a key")
    loom.put("bare", loom.read("change"))
    loom.expect("keep bare --introduced change.key", 2, "has no signature beside it")
    none = ("doesn't introduce a key at step", "none was noted")
    loom.expect("keep change --introduced before", 1, *none)
    loom.expect("keep before --introduced change.key", 1, *none)
    text, end, proof = loom.read("change.key").partition(b"-----END SSH SIGNATURE-----\n")
    own = base64.b64encode(loom.timeweave("prove", "shop", "event", "1", "0")) + b"\n"
    for changed_file in (text.replace(b" introduces ", b"  introduces "), text.replace(b"shop 2 ", b"shop 1 "), text[1:]):
        loom.put("p", changed_file + end + proof)
        loom.expect("keep change --introduced p", 1, *none)
    for other in (own, b"", proof[:40] + b"\n", base64.b64encode(b"TWP1") + b"\n"):
        loom.put("p", text + end + other)
        loom.expect("keep change --introduced p", 1, *none)
    # an event that somebody handed in, and that reads as one that names his key, introduces nothing, whoever signs the line of its step
    event = b"new key " + b" ".join(loom.read("thief.key.pub").split()[:2])
    loom.append("shop", event)
    of_shop(loom, "line shop --sign old.key --out today", 10, "no run of weft log made such a step")
    handed_in = loom.timeweave("prove", "shop", "event", "3", "0")
    loom.put("p", handed_in)
    loom.expect("keep today --introduced p", 1, *none)
    thiefs = loom.read("today").strip() + b" introduces " + b" ".join(loom.read("thief.key.pub").split()[:2]) + b"\n"
    loom.put("text", thiefs)
    for key, namespace in (("thief", "timeweave-key"), ("old", "timeweave-line"), ("old", "file")):
        (loom.folder / "text.sig").unlink(missing_ok=True)
        subprocess.run(["ssh-keygen", "-q", "-Y", "sign", "-n", namespace, "-f", f"{key}.key", "text"], cwd=loom.folder, check=True, capture_output=True)
        loom.put("p", thiefs + loom.read("text.sig") + base64.b64encode(handed_in) + b"\n")
        loom.expect("keep today --introduced p", 1, *none)
    for words in ("keep change --introduced change.key --by mail", "keep change --introduced change.key --signer shop new.key.pub --beside"):
        loom.expect(words, 2, "--introduced is for a line that a noted key signed")
    if loom.read("signers") != before or b"shop 2 " in loom.read("kept"):
        raise Wrong("  something was noted or kept")


def of_peers(room):
    """a peer that takes a new key is taken again once its introduction was noted in the box; until then that its lines aren't signed by the noted key is told; an old key with
    an end signs nothing that is taken, and what it signed before stands"""
    net = pair(room)
    loom = net.loom
    loom.key("shop-new")
    loom.expect("line shop --sign shop.key --introduce shop-new.key.pub --out change", 0)
    loom.put("box-shop/box.conf", "key = ../shop-new.key\n")
    loom.append("bank", b"x")
    for night in range(3):
        net.turn("shop", 0)
        net.carry_all()
        net.turn("bank", 10 if night == 2 else 0, "isn't signed by the key that", absent=("EVIDENCE",))
    loom.expect("accept box-bank shop change --introduced change.key", 0, "is noted as the key of shop too")
    loom.expect("accept box-bank shop --introduced change.key", 2, "goes with the file of the line")
    loom.expect("accept box-bank port change --introduced change.key", 9, "has no single line of port")
    net.turn("bank", 0, "is recorded", absent=("isn't signed",))
    signers = loom.read("box-bank/allowed_signers")
    loom.put("box-bank/allowed_signers", signers.replace(b"shop namespaces=", b'shop valid-before="20270101",namespaces=', 1))
    net.turn("bank", 0, absent=("isn't signed",))
    loom.put("box-bank/allowed_signers", signers.replace(b"shop namespaces=", b'shop valid-before="20200101",namespaces=', 1))
    net.turn("bank", 0, absent=("isn't signed",))
    for _ in range(2):
        loom.append("shop", b"y")
        net.turn("shop", 0)
        net.carry_all()
        net.turn("bank", 0, "is recorded", absent=("isn't signed",))
    loom.put("box-shop/box.conf", "key = ../shop.key\n")
    loom.append("shop", b"y")
    net.turn("shop", 0)
    net.carry_all()
    net.turn("bank", 0, "isn't signed by the key that")


def with_faults(room):
    """weft line --introduce killed, and failing with a full or a bad device, at each of its writes and runs of the program: the next run hands out the same step, and makes
    no second one"""
    loom = with_old_key(room)
    loom.env["WEFT_KEPT"] = str(loom.put("none kept", ""))
    loom.put("in the way", "")

    def check(told):
        done = loom.run("line", "shop", "--sign", "old.key", "--introduce", "new.key.pub", "--out", "change")
        step = json.loads(loom.run("line", "shop", "--json").out)["step"]
        if done.status != 0 or step != 2 or not all((loom.folder / name).exists() for name in ("change", "change.sig", "change.key")):
            raise Wrong(f"{told}\n  the next run, step {step}: {done}")

    if each_fault(loom, ["line", "shop", "--sign", "old.key", "--introduce", "new.key.pub", "--out", "change"], check) < 20 // SHARE:
        raise Wrong("  there were fewer than 20 faults")


def refused(room):
    """a key is introduced by a signed line alone, and by another key than itself; on a store that may be an old one no step is made for it"""
    loom = with_old_key(room)
    of_shop(loom, "line shop --introduce new.key.pub", 2, "is signed by the old key")
    of_shop(loom, "line shop --sign old.key --introduce old.key.pub", 2, "is the key of --sign itself")
    of_shop(loom, "line shop --sign old.key --introduce new.key", 9, "has no public key")
    before = loom.read("shop/timeline.tw")
    seal = loom.read("shop.seal")
    loom.put("shop.seal", b"0.0 " + seal.partition(b" ")[2])
    of_shop(loom, "line shop --sign old.key --introduce new.key.pub", 17, "it may be an old one")
    loom.put("shop.seal", seal)
    loom.put("shop.lines", loom.read("shop.lines") + f"shop 9 {'ab' * 32}\n".encode())
    of_shop(loom, "line shop --sign old.key --introduce new.key.pub", 17, "isn't the store of shop's line of step 9")
    if loom.read("shop/timeline.tw") != before:
        raise Wrong("  a step was made")


def cases():
    return [case(work, "weft keys") for work in (changed, ended, made_up, of_peers, with_faults, refused)]
