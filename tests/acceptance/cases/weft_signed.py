"""Acceptance cases of what rests on a signature, a key or a kept line: made-up lines behind a signature's end, files of several keys, revoked keys, lines
that contradict, and what a person or a carrier types or puts down to have somebody believe, or accuse, what isn't so."""

import json
import os
import shutil
import subprocess
from concurrent.futures import ProcessPoolExecutor
from pathlib import Path

from cases.weft_exchange import Net, pair, received
from harness.places import TOP
from harness.rooms import Wrong, case
from harness.weft_room import Loom
from network.play import Ways, played
from weft import formats

BEGIN, END = b"-----BEGIN SSH SIGNATURE-----\n", b"-----END SSH SIGNATURE-----\n"
NO_SIGNATURE = BEGIN + b"AAAA\n" + END


def signature_of(loom, key, text):
    """The signature of a text by a key, as ssh-keygen makes it."""
    words = ["ssh-keygen", "-Y", "sign", "-q", "-n", "timeweave-line", "-f", loom.folder / f"{key}.key"]
    return subprocess.run(words, input=text, capture_output=True, check=True).stdout


def signed(loom, key, text):
    """A line with its signature."""
    return text + signature_of(loom, key, text)


def other_of(line):
    """Another line of the same step."""
    text = line if isinstance(line, bytes) else line.encode()
    digit = b"0" if text.rstrip()[-1:] != b"0" else b"1"
    return text.rstrip()[:-1] + digit + b"\n"


# ---- lines that contradict


def with_letters(room):
    """A service, a proof under its step 2, its true line in a letter, and a made-up one of the same step in another."""
    loom = Loom(room)
    loom.service("shop", [b"bread"], [b"milk"])
    loom.put("true", loom.run("line", "shop").out)
    loom.put("false", other_of(loom.read("true")))
    loom.put("proof", loom.timeweave("prove", "shop", "event", "1", "0"))
    return loom


def second_letter(room):
    """a second letter with another line of a step is kept beside the first, and nothing is judged under either until one is chosen, in whichever order
    they came; that they differed is told for good"""
    for first, second, number in (("true", "false", "1"), ("false", "true", "2")):
        (Path(room.folder) / number).mkdir()
        loom = with_letters(type(room)(room.program, f"{room.folder}/{number}"))
        loom.expect(["keep", first, "--by", "by letter"], 0)
        told = "at most one is of shop's history", "by letter", "by mail", "until you choose one: weft keep --choose FILE"
        loom.expect(["keep", second, "--by", "by mail"], 11, *told)
        told = "here are two lines of step 2 of shop"
        for _ in range(2):
            loom.expect("judge proof", 11, told, "weft keep --choose", absent=("shown",))
        for name in ("true", "false"):
            loom.expect(["keep", name, "--by", "by letter"], 11, told)
        loom.expect("chain shop:1:0 shop:2:0 --hand proof", 11, told)
        loom.expect("tell kept", 0, "of step 2 of shop there are lines that contradict")
        if loom.read("kept").count(b"\ncontradiction: shop 2 ") != 1 or any(loom.read(name).strip() not in loom.read("kept") for name in ("true", "false")):
            raise Wrong(f"  {loom.read('kept')}")
        loom.expect(["keep", "--choose", "true", "--by", "asked shop by telephone"], 0, "It counts, and of that step no longer")
        loom.expect("judge proof", 0, "shown", "chosen over another line of that step", "asked shop by telephone")
        loom.expect(["keep", "--choose", "true", "--by", "asked shop by telephone"], 0, "kept already")
        loom.expect(["keep", "false", "--by", "by mail again"], 11, "one over which you chose another", "doesn't count")
        loom.expect("judge proof", 0, "shown")
        loom.expect(["keep", "--choose", "false", "--by", "asked again"], 0)
        loom.expect("judge proof", 1, "not shown")
        loom.expect(["keep", "--choose", "true", "--by", "asked a third time"], 0)
        loom.expect("judge proof", 0, "shown")
        # a line that is taken out by hand isn't forgotten, and a third one opens it again
        false = loom.read("false").strip()
        loom.put("kept", b"".join(line for line in loom.read("kept").splitlines(True) if b"chosen" not in line and not line.startswith(false)))
        loom.expect("judge proof", 11, told, "was seen, and is no more in the file")
        loom.expect(["keep", "--choose", "true", "--by", "asked shop by telephone"], 0)
        loom.put("third", b"shop 2 " + b"7" * 64 + b"\n")
        loom.expect(["keep", "third", "--by", "by mail"], 11, "here are 3 lines of step 2 of shop")
        loom.expect("judge proof", 11, "here are 3 lines")


def choices(room):
    """what is chosen is a single line, where there is another one; nothing is chosen in silence, and JSON has all of it"""
    loom = with_letters(room)
    loom.expect(["keep", "--choose", "true", "--by", "by letter"], 10, "nothing had to be chosen")
    loom.expect("judge proof", 0, "shown")
    loom.expect("keep --choose", 2, "no file is named")
    loom.expect("keep --choose true", 2, "no signature beside it", "--by")
    loom.put("both", loom.read("true") + loom.read("false"))
    loom.expect(["keep", "--choose", "both", "--by", "by mail"], 2, "one is chosen at a time")
    done = loom.expect(["keep", "both", "--by", "by mail", "--json"], 11, '"contradicts": true', '"new": true')
    if done.out.count("\n") != 1:
        raise Wrong(f"  {done}")
    loom.expect(["keep", "--choose", "true", "--by", "by mail", "--json"], 0, '"over": ["')
    # lines that were put there by hand contradict as well, in one file or in two
    loom.put("kept", loom.read("true") + loom.read("false"))
    loom.expect("judge proof", 11, "two lines of step 2")
    loom.expect("judge proof --kept true --kept false", 11, "two lines of step 2")
    loom.key("shop")
    loom.expect("keep --signer shop shop.key.pub", 0)
    loom.put("good", signed(loom, "shop", loom.read("true")))
    loom.expect("keep --choose good", 0, "It counts", "signed by ED25519")
    loom.expect("judge proof", 0, "shown", "signed by ED25519")


def clock_set_back(room):
    """a choice that is made after the clock was set back isn't told as one that counts: the earlier one stands, and that is said; of two within one second
    the second one counts"""
    loom = with_letters(room)

    def at(date):
        def patch():
            from weft import lines

            lines.now = lambda: date

        return patch

    loom.expect(["keep", "true", "--by", "by letter"], 0)
    loom.expect(["keep", "false", "--by", "by mail"], 11)
    loom.expect(["keep", "--choose", "true", "--by", "asked"], 0, "It counts", patch=at("2099-01-01T00:00:00Z"))
    before = loom.read("kept")
    loom.expect(["keep", "--choose", "false", "--by", "asked"], 10, "the date 2099-01-01T00:00:00Z", "Nothing was chosen", absent=("It counts",))
    if loom.read("kept") != before:
        raise Wrong("  something was written")
    loom.expect("judge proof", 0, "shown")
    loom.put("kept", before.replace(b"2099", b"2019"))
    for name, status in (("false", 1), ("true", 0), ("false", 1)):
        loom.expect(["keep", "--choose", name, "--by", "asked"], 0, "It counts")
        loom.expect("judge proof", status)


def checked_store(room):
    """weft check of a store of whose step there are two lines ends with 17, says where both came from, and both what it may mean and what to do; it goes on
    by the one that was chosen"""
    loom = with_letters(room)
    loom.expect(["keep", "true", "--by", "by letter"], 0)
    loom.expect("check shop", 0, "agree")
    loom.expect(["keep", "false", "--by", "by mail"], 11)
    told = "Append nothing until you know who made the other one", "set back and gone on with", "If somebody made it up, choose this store's"
    loom.expect("check shop", 17, "two lines of step 2 of shop", "by mail", "--choose", *told, absent=("go back to a backup",))
    loom.expect(["keep", "--choose", "true", "--by", "own"], 0)
    loom.expect("check shop", 0, "agree")
    loom.expect(["keep", "--choose", "false", "--by", "own"], 0)
    loom.expect("check shop", 17, "has another step of that number")
    # the line of step 0 follows from the name: a true one binds nothing, and a false one isn't passed over
    loom.service("new")
    loom.put("zero", loom.run("line", "new").out)
    loom.expect("check new --kept zero", 0)
    loom.put("zero", other_of(loom.read("zero")))
    loom.expect("check new --kept zero", 17, "has another step of that number as the line of step 0")
    loom.append("new", b"x")
    loom.expect("check new --kept zero", 17, "has another step of that number as the line of step 0")


def handed_out(room):
    """a line that weft line hands out is noted: with an older store put back in its place no step is made, and no line is handed out any more"""
    loom = Loom(room)
    loom.put("src/a", b"x")
    loom.expect("log --no-time src shop shop", 0)
    shutil.copytree(loom.folder / "shop", loom.folder / "tmp/old")
    loom.append("shop", b"by hand")
    line = loom.expect("line shop", 10, "no run of weft log made such a step").out
    if line.encode() not in loom.read("shop.lines"):
        raise Wrong(f"  {line} {loom.read('shop.lines')}")
    shutil.rmtree(loom.folder / "shop")
    shutil.copytree(loom.folder / "tmp/old", loom.folder / "shop")
    loom.put("src/b", b"y")
    before = loom.read("shop/timeline.tw")
    loom.expect("log --no-time src shop", 17, "No step was made")
    loom.expect("line shop", 17, "isn't the store of shop's line of step 2")
    loom.expect("line shop --out out", 17)
    if loom.read("shop/timeline.tw") != before or (loom.folder / "out").exists():
        raise Wrong("  a step was made, or a line handed out")
    loom.service("new")
    loom.expect("line new", 0, "new 0 ")
    if (loom.folder / "new.lines").exists():
        raise Wrong("  the line of step 0 was noted")


# ---- keys and names


def three_lines(room):
    """a file of several lines, whose words are one key and whose first whole line is another, is no public key: none is told, and none noted"""
    loom = Loom(room)
    for name in ("good", "evil", "shop"):
        loom.key(name)
    kind, good = loom.read("good.key.pub").split()[:2]
    evil = loom.read("evil.key.pub").split()[1]
    loom.service("shop", [b"x"])
    line = loom.run("line", "shop").out.encode()
    loom.put("signed", signed(loom, "evil", line))
    for number, data in enumerate((
        kind + b"\n" + evil + b"\n" + kind + b" " + good + b"\n", kind + b" " + good + b"\n" + kind + b" " + evil + b"\n", b"\n" + kind + b" " + good,
        kind + b" " + evil + b"\r" + kind + b" " + good, b"ssh-rsa " + evil, kind + b" " + evil[:-4], kind, b"", loom.read("evil.key"),
        b"ecdsa-sha2-nistp256 " + evil, kind + b" AAAAC3NzaC1lZDI1NTE5AAAAIJ",
    )):  # fmt: skip
        loom.put("key.pub", data)
        for words in ("keep --signer shop key.pub", "keep signed --signer shop key.pub", "accept box shop --key key.pub"):
            done = loom.expect(words, 9, "no public key")
            if "SHA256:" in done.out + done.err:
                raise Wrong(f"  file {number}: a fingerprint is told: {done}")
    if (loom.folder / "signers").exists() or (loom.folder / "box/allowed_signers").exists() or loom.read("kept"):
        raise Wrong("  a key was noted, or a line kept")


def changed_amid(room):
    """a key's file that is changed after it was read changes nothing: the key that is noted is the one that was told, and by which the signature was checked"""
    loom = Loom(room)
    for name in ("shop", "evil"):
        loom.key(name)
    evil, good = loom.read("evil.key.pub"), loom.read("shop.key.pub")
    loom.service("shop", [b"x"])
    loom.put("signed", signed(loom, "shop", loom.run("line", "shop").out.encode()))

    def change():
        from weft import signatures

        real = signatures.keygen

        def keygen(*words, **more):
            (loom.folder / "key.pub").write_bytes(evil)
            return real(*words, **more)

        signatures.keygen = keygen

    for words, signers in (("keep signed --signer shop key.pub", "signers"), ("accept box shop --key key.pub", "box/allowed_signers")):
        loom.put("key.pub", good)
        done = loom.run(*words.split(), patch=change)
        fingerprint = subprocess.run(["ssh-keygen", "-lf", loom.folder / "shop.key.pub"], capture_output=True, text=True).stdout.split()[1]
        if fingerprint not in done.out or good.split()[1] not in loom.read(signers) or evil.split()[1] in loom.read(signers):
            raise Wrong(f"  {done} {loom.read(signers)}")


def noted_with_options(room):
    """a key that the file of signers has with options under which it doesn't count for lines isn't told as noted"""
    loom = Loom(room)
    loom.key("shop")
    bare = b" ".join(loom.read("shop.key.pub").split()[:2]) + b"\n"
    for options in ('cert-authority', 'valid-before="20200101"', 'namespaces="git"'):
        noted = loom.put("signers", f"shop {options} ".encode() + bare).read_bytes()
        loom.expect("keep --signer shop shop.key.pub", 10, "with options", "Nothing was noted", absent=("is noted as",))
        if loom.read("signers") != noted:
            raise Wrong("  the file of signers was changed")
    loom.put("signers", b'shop namespaces="file,timeweave-line" ' + bare)
    loom.expect("keep --signer shop shop.key.pub", 0, "is noted as the key of shop")


def many_keys(room):
    """of keys that are noted at one time none is lost, and none is noted twice"""
    loom = Loom(room)
    names = [f"s{number}" for number in range(8)]
    for name in names:
        loom.key(name)
    env = loom.env | {"PYTHONPATH": str(TOP)}
    words = [["python3", "-m", "weft", "keep", "--signer", name, f"{name}.key.pub"] for name in [*names, *names]]
    running = [subprocess.Popen(it, cwd=loom.folder, env=env, stdout=subprocess.DEVNULL) for it in words]
    if any(it.wait(300) for it in running):
        raise Wrong("  one of several at once failed")
    if sorted(line.split()[0].decode() for line in loom.read("signers").splitlines()) != names:
        raise Wrong(f"  {loom.read('signers')}")


def dashes(room):
    """files whose names begin with - are taken behind -- and by ./ in front, and told so else; no service or peer is made or noted by such a name"""
    loom = with_letters(room)
    loom.key("-k")
    shutil.copytree(loom.folder / "shop", loom.folder / "-shop")
    for name in ("true", "proof"):
        loom.put(f"-{name}", loom.read(name))
    loom.put("-src/a", b"x")
    for words in (
        ["keep", "--by", "mail", "--", "-true"], ["keep", "--by", "mail", "./-true"], ["tell", "--", "-proof", "-true"], ["judge", "--", "-proof"], ["bundle", "--", "-z", "-proof"],
        ["line", "--", "-shop"], ["line", "--sign=-k.key", "--out=-out", "--", "-shop"], ["keep", "--signer", "shop", "./-k.key.pub", "--", "-out"],
        ["check", "--", "-shop"], ["log", "--no-time", "--", "-src", "-log", "data"], ["prove", "--out=-paid", "--", "-log", "a"],
        ["backup", "--", "-log", "-backup"], ["restore", "--", "-backup", "-again"], ["status", "--", "-log"],
        ["record", "--name", "reg", "--event=-x", "--", "-reg", "-src/a"], ["find", "--text=-x", "--", "-reg", "-src/a"], ["find", "--", "-reg", "./-src/a"],
    ):  # fmt: skip
        loom.expect(words, 0)
    loom.expect(["accept", "--key=-k.key.pub", "--", "-box", "bank"], 10, "is noted as the key of bank")
    (loom.folder / "-www").mkdir()
    loom.expect(["publish", "--", "-box", "-www"], 7, "-box is a box without a turn")
    loom.expect(["stamp", "--url", "http://127.0.0.1:1/", "--", "-out"], 12, "you trust no time-stamping authority")
    loom.expect(["fetch", "--", "https://127.0.0.1:1/", "-box/bank"], 10, "bank: 0 files came")
    told = "name a file as ./-FILE, or put -- in front"
    for words in (["keep", "--by", "mail", "-true"], ["line", "--out", "-x", "shop"], ["keep", "--signer", "-x", "./-k.key.pub"], ["judge", "-proof"]):
        loom.expect(words, 2, told)
    for words in (["log", "src", "log", "--", "-x"], ["accept", "box", "--", "-x"], ["log", "--", "-src", "other", "-"]):
        loom.expect(words, 2, "no name of a service", "none that begins with -")
    if (loom.folder / "other").exists() or (loom.folder / "box/-x").exists():
        raise Wrong("  something was made")


def behind_the_end(room):
    """a signed line with something behind its signature's end, or a second signature, isn't kept; nor is one beside such a signature"""
    loom = with_letters(room)
    loom.key("shop")
    loom.expect("keep --signer shop shop.key.pub", 0)
    good = signed(loom, "shop", loom.read("true"))
    false = loom.read("false") + NO_SIGNATURE
    for bad in (good + false, good + b"\n", good + b"x", false + good, loom.read("true") + NO_SIGNATURE + good.split(b"\n", 1)[1], good.replace(END, b"")):
        loom.put("bad", bad)
        loom.expect("keep bad", 9, "bad has a signature, and is no signed line", "nothing behind the signature's end")
        loom.put("line", loom.read("true"))
        loom.put("line.sig", bad.split(b"\n", 1)[1])
        loom.expect("keep line", 9, "no signature by ssh-keygen")
    loom.put("bad", loom.read("true") + NO_SIGNATURE)
    loom.expect("keep bad", 1, "isn't good by a key")
    if loom.read("kept"):
        raise Wrong("  something was kept")
    loom.put("good", good.replace(b"\n", b"\r\n")[:-2])
    loom.expect("keep good", 0, "signed by ED25519")


# ---- peers


def quiet_pair(room):
    """Two services that know one another, of which shop isn't told when bank is silent."""
    net = pair(room)
    net.loom.put("box-shop/box.conf", net.loom.read("box-shop/box.conf") + b"silent = 0\n")
    return net


def forged(net):
    """A step that nobody made behind the one of bank that shop recorded last: its line, and the message that leads up to it, which shop's store would
    receive."""
    loom = net.loom
    net.turn("shop", 0)
    shutil.copytree(loom.folder / "bank", loom.folder / "tmp/forged")
    step = loom.read("box-shop/bank/kept/taken").split()[1].decode()
    line = loom.append("tmp/forged", b"made up").encode()
    if step != str(net.last("bank")):
        raise Wrong(f"  shop hasn't recorded the last step of bank: {step}")
    return line, loom.timeweave("thread", "tmp/forged", step)


def bring_true_step(net):
    """The step that bank makes in truth, of the same number, as a carrier brings it."""
    loom = net.loom
    since = str(net.last("bank"))
    line = loom.append("bank", b"true").encode()
    loom.put("box-shop/bank/in/line", signed(loom, "bank", line))
    loom.put("box-shop/bank/in/message", loom.timeweave("thread", "bank", since))
    loom.put("right", line)


def forks_of(net, name, peer):
    """What is remembered of two lines of a peer."""
    return sorted(it.name for it in (net.loom.folder / f"box-{name}/{peer}/kept/forks").iterdir())


def appended(room):
    """whoever carries files, and has no key, appends a made-up line and a made-up signature to a signed line: it isn't taken, no message that tells it is
    recorded, and when the true line of that step comes nobody is accused"""
    net = quiet_pair(room)
    loom = net.loom
    net.night()
    line, message = forged(net)
    into = "box-shop/bank/in"
    before = received(loom, "shop")
    loom.put(f"{into}/line", loom.read(f"{into}/line") + line + NO_SIGNATURE)
    net.turn("shop", 0, "no line with one signature and nothing behind it: not taken")
    loom.put(f"{into}/message", message)
    net.turn("shop", 0, "waits for its signed line")
    net.turn("shop", 10, "ask bank")
    loom.put(f"{into}/line", line + NO_SIGNATURE)
    net.turn("shop", 10, "isn't signed by the key", absent=("is recorded",))
    if received(loom, "shop") != before:
        raise Wrong(f"  a made-up line was received: {received(loom, 'shop')}")
    bring_true_step(net)
    net.turn("shop", 0, "is recorded", absent=("EVIDENCE", "another"))
    if forks_of(net, "shop", "bank"):
        raise Wrong("  somebody is accused")


def false_record(room):
    """made-up lines that stand in a box among the signed ones, and two of them as if they had been signed for one step, bring no message and accuse nobody"""
    net = quiet_pair(room)
    loom = net.loom
    net.night()
    line, message = forged(net)
    kept = "box-shop/bank/kept"
    other = other_of(loom.read(f"{kept}/taken"))
    loom.put(f"{kept}/signed", loom.read(f"{kept}/signed") + line + NO_SIGNATURE + other + NO_SIGNATURE + b"shop 1 " + b"a" * 64 + b"\n" + NO_SIGNATURE)
    loom.put("box-shop/bank/in/message", message)
    before = received(loom, "shop")
    net.turn("shop", 10, "rests on a line that isn't signed by a key", absent=("EVIDENCE",))
    if received(loom, "shop") != before:
        raise Wrong("  a made-up line was received")
    bring_true_step(net)
    net.turn("shop", 10, "is recorded", "whose signature isn't good", "shows nothing against it", absent=("EVIDENCE",))
    net.turn("shop", 0, absent=("EVIDENCE",))
    true = loom.read(f"{kept}/taken")
    step = true.split()[1].decode()
    for text in (true, other_of(true)):
        loom.put(f"{kept}/forks/{step}-{text.split()[2].decode()}", text + NO_SIGNATURE)
    net.turn("shop", 10, f"of its step {step}", "not two are signed", "shows nothing against it", absent=("EVIDENCE",))


def revoked(room):
    """a key that was taken out of the file of signers brings no message any more, not by lines that it signed before for steps to come; the new key's do"""
    net = quiet_pair(room)
    loom = net.loom
    net.night()
    line, message = forged(net)
    loom.put("box-shop/bank/in/line", signed(loom, "bank", line))
    net.turn("shop", 0)
    (loom.folder / "box-shop/allowed_signers").unlink()
    os.rename(loom.folder / "bank.key", loom.folder / "old.key")
    os.unlink(loom.folder / "bank.key.pub")
    loom.key("bank")
    loom.expect("accept box-shop bank --key bank.key.pub", 10)
    loom.put("box-shop/bank/in/message", message)
    before = received(loom, "shop")
    loom.put("box-shop/bank/in/line", signed(loom, "old", line))
    net.turn("shop", 10, "rests on a line that isn't signed by a key", "isn't signed by the key")
    if received(loom, "shop") != before:
        raise Wrong("  a revoked key brought a message")
    bring_true_step(net)
    done = net.turn("shop", 10, "is recorded", "shows nothing against it", absent=("EVIDENCE", "two lines of step"))
    if received(loom, "shop") == before or forks_of(net, "shop", "bank"):
        raise Wrong(f"  {done}")
    loom.expect(["keep", "--choose", "right", "--by", "by telephone", "--kept", "box-shop/bank/kept/lines"], 0, "It counts")
    net.turn("shop", 0)


def replace_key(net, room_name="bank"):
    """The key of bank is taken out where shop has noted it, and a new one noted; the old one goes on as old.key."""
    loom = net.loom
    (loom.folder / "box-shop/allowed_signers").unlink()
    os.rename(loom.folder / f"{room_name}.key", loom.folder / "old.key")
    os.unlink(loom.folder / f"{room_name}.key.pub")
    loom.key(room_name)
    loom.expect(f"accept box-shop {room_name} --key {room_name}.key.pub", 10)


def revoked_first(room):
    """a message by which a peer was accepted isn't received where the key that signed its line was taken out before the next turn; the true one then is"""
    net = Net(room, {"shop": ["bank"], "bank": ["shop"]})
    loom = net.loom
    net.night()
    loom.service("bank", [b"made up"], folder="forged")
    line = loom.run("line", "forged").out.encode()
    loom.put("box-shop/bank/in/message", loom.timeweave("thread", "forged", "0"))
    loom.put("letter", signed(loom, "bank", line))
    loom.expect("accept box-shop bank letter", 0, "is accepted")
    replace_key(net)
    net.turn("shop", 10, "the message by which it was accepted isn't taken", absent=("is recorded",))
    if received(loom, "shop"):
        raise Wrong(f"  {received(loom, 'shop')}")
    net.turn("bank", 10)
    net.carry("bank", "shop")
    net.turn("shop", 0, "is recorded")


def revoked_links(room):
    """a line of a later step that a thief signed before the key was taken out has nobody accused once the service comes to that step: no link is asked for it,
    nothing of two histories or of two lines of a step is told, and the turn in which the service's own line of that step comes ends with 10"""
    net = quiet_pair(room)
    loom = net.loom
    net.night()
    ahead = net.last("bank") + 4
    loom.put("box-shop/bank/in/line", signed(loom, "bank", f"bank {ahead} {'ab' * 32}\n".encode()))
    net.turn("shop", 0)
    replace_key(net)
    for _ in range(6):
        loom.append("bank", b"x")
        net.turn("bank", 0)
        net.carry("bank", "shop")
        step = int(loom.read("box-shop/bank/in/line").split()[1])
        # (of the step itself there are two kept lines then, of which the thief's doesn't count: that is told once)
        wanted = (10, "is another one than that which was kept as signed", "shows nothing against it") if step == ahead else (0,)
        net.turn("shop", *wanted, absent=("EVIDENCE", "it signed a line", "two lines of step", "Ask bank"))
        net.carry("shop", "bank")
    if forks_of(net, "shop", "bank"):
        raise Wrong(f"  {forks_of(net, 'shop', 'bank')}")


def revoked_chain(room):
    """a line that a thief signed and that was kept while the key was noted carries no chain once the key is taken out; one that the new key signs does"""
    net = quiet_pair(room)
    loom = net.loom
    sold = int(loom.append("shop", b"sold").split()[1])
    for _ in range(3):
        net.turn("shop", 0)
        net.carry("shop", "bank")
        net.turn("bank", 0)
        net.carry("bank", "shop")
    shutil.copytree(loom.folder / "bank", loom.folder / "forged")
    false = loom.append("forged", b"made up")
    step = false.split()[1]
    loom.put("later", loom.timeweave("prove", "forged", "event", step, "0", step))
    loom.put("box-shop/bank/in/line", signed(loom, "bank", false.encode()))
    net.turn("shop", 0)
    (loom.folder / "hand").mkdir()
    words = ["chain", f"shop:{sold}:0", "later", "--store", "shop", "--hand", "hand", "--box", "box-shop", "--out", "c"]
    loom.expect(words, 12, "bank is asked for it")
    for number, request in enumerate(loom.read("box-shop/bank/kept/asked").decode().splitlines()):
        loom.put(f"hand/{number}", loom.timeweave("prove", "forged", *request.split(), status=None))
    loom.expect(words, 0, "shown", f"bank, step {step}")
    replace_key(net)
    loom.expect(words, 12, "whose line you don't hold", absent=("shown\n",))
    loom.put("box-shop/bank/in/line", signed(loom, "bank", false.encode()))
    net.turn("shop", 0)
    loom.expect(words, 0, "shown")


def far_ahead(room):
    """a line that a thief signed for the last step that there is has the peer told as silent only until the key is taken out, or a person accepts the peer
    anew by the line that waits; the sentence says so"""
    net = pair(room)
    loom = net.loom
    net.night()
    false = f"bank {2**40 - 1} {'a' * 64}\n".encode()
    loom.put("box-shop/bank/in/line", signed(loom, "bank", false))
    net.turn("shop", 0)

    def nights(count):
        for _ in range(count):
            loom.append("bank", b"x")
            loom.append("shop", b"x")
            net.loom.run("exchange", "bank", "box-bank")
            net.carry("bank", "shop")
            done = loom.run("exchange", "shop", "box-shop")
        return done

    done = nights(4)
    if done.status != 10 or "no new signed line of it came" not in done.out or f"one of step {2**40 - 1} was signed by its key before" not in done.out:
        raise Wrong(f"  {done}")
    if "weft accept box-shop bank" not in done.out:
        raise Wrong(f"  {done}")
    loom.expect(f"accept box-shop bank --yes {net.waiting('shop', 'bank')}", 0)
    done = nights(4)
    if "no new signed line" in done.out:
        raise Wrong(f"  {done}")
    loom.put("box-shop/bank/in/line", signed(loom, "bank", false.replace(b"a" * 64, b"b" * 64)))
    loom.run("exchange", "shop", "box-shop")
    shutil.rmtree(loom.folder / "box-shop/bank/kept/forks")
    replace_key(net)
    done = nights(4)
    if "no new signed line" in done.out or "EVIDENCE" in done.out:
        raise Wrong(f"  {done}")


def full_of_lines(room):
    """a peer's file of lines that is full is told, and counts, with what to do, and ends no turn; of a step for which a peer signs line after line so many are
    kept as show it, and no more"""
    net = quiet_pair(room)
    loom = net.loom
    net.night()
    for number in range(12):
        loom.put("box-shop/bank/in/line", signed(loom, "bank", b"bank 900 %064x\n" % number))
        net.turn("shop", 11 if number else 0, *(["EVIDENCE"] if number else []))
    if loom.read("box-shop/bank/kept/signed").count(b"bank 900 ") != 8 or loom.read("box-shop/bank/kept/lines").count(b"\nbank 900 ") != 8:
        raise Wrong(f"  {loom.read('box-shop/bank/kept/lines')}")
    shutil.rmtree(loom.folder / "box-shop/bank/kept/forks")
    whole = loom.read("box-shop/bank/kept/lines")
    bring_true_step(net)
    with open(loom.folder / "box-shop/bank/kept/lines", "ab") as file:
        file.truncate(65 << 20)
    net.turn("shop", 10, "kept/lines has 33,554,432 bytes or more, and no line is added to it: move it out of the box", "is recorded")
    loom.put("box-shop/bank/kept/lines", whole)
    net.turn("shop", 0)


def resigned(room):
    """a peer whose key was changed signs its last line anew, and its message is taken though the line had been kept with the old signature"""
    net = pair(room)
    loom = net.loom
    loom.append("bank", b"new")
    net.turn("bank", 0)
    loom.put("box-shop/bank/in/line", loom.read("box-bank/shop/out/line"))
    net.turn("shop", 0)
    for path in ("bank.key", "bank.key.pub", "box-shop/allowed_signers"):
        (loom.folder / path).unlink()
    loom.key("bank")
    loom.expect("accept box-shop bank --key bank.key.pub", 10)
    net.turn("bank", 0)
    net.carry("bank", "shop")
    net.turn("shop", 0, "is recorded", absent=("isn't signed",))


def long_ago(room):
    """another line of a step that was signed long ago, behind many others, is evidence; it is told each night while both are remembered"""
    net = quiet_pair(room)
    loom = net.loom
    old = b"bank 3 " + b"c" * 64 + b"\n"
    many = [signed(loom, "bank", b"bank %d %064x\n" % (step, step)) for step in range(100, 160)]
    loom.put("box-shop/bank/kept/signed", loom.read("box-shop/bank/kept/signed") + signed(loom, "bank", old) + b"".join(many))
    true = loom.read("box-shop/bank/in/line")
    loom.put("box-shop/bank/in/line", signed(loom, "bank", other_of(old)))
    net.turn("shop", 11, "EVIDENCE", "two lines of its step 3, both signed by its key", "kept/forks")
    loom.put("box-shop/bank/in/line", true)
    found = forks_of(net, "shop", "bank")
    for _ in range(2):
        net.turn("shop", 11, "EVIDENCE", "two lines of its step 3")
    if len(found) != 2 or forks_of(net, "shop", "bank") != found or loom.read("box-shop/bank/kept/signed").count(b"bank 3 ") != 2:
        raise Wrong(f"  {found} {forks_of(net, 'shop', 'bank')}")


def told_though_ended(room):
    """where trouble ends a turn, what it had found is told all the same, evidence too, in JSON as well; the status is the worst of both"""
    net = quiet_pair(room)
    loom = net.loom
    for text in (loom.run("line", "bank").out.encode(), other_of(loom.run("line", "bank").out)):
        loom.put("box-shop/bank/in/line", signed(loom, "bank", text))
        done = loom.run("exchange", "shop", "box-shop")
    if done.status != 11:
        raise Wrong(f"  {done}")

    def full():
        from weft.exchange import Turn
        from weft.statuses import Status
        from weft.trouble import Trouble

        def put(self, peer, signed):
            raise Trouble(Status.DISK, "the device is full")

        Turn.put = put

    def broken():
        from weft.exchange import Turn

        Turn.put = None

    net.turn("shop", 11, "bank: EVIDENCE", "weft: the device is full.", patch=full)
    done = loom.expect("exchange shop box-shop --json", 11, "weft: the device is full.", patch=full)
    told = json.loads(done.out)
    if told["status"] != 11 or "EVIDENCE" not in " ".join(told["peers"]["bank"]):
        raise Wrong(f"  {told}")
    done = loom.run("exchange", "shop", "box-shop", "--json", patch=broken)
    told = json.loads(done.out)
    if done.status != 70 or told["status"] is not None or "EVIDENCE" not in " ".join(told["peers"]["bank"]):
        raise Wrong(f"  {done}")


def liars_own(room):
    """a liar that appends to its own lines what would make its accuser look false is found out by both of its lines, whose signatures were checked"""
    net = quiet_pair(room)
    loom = net.loom
    true = loom.run("line", "bank").out.encode()
    other = other_of(true)
    for text in (true, other):
        loom.put("box-shop/bank/in/line", signed(loom, "bank", text) + other_of(other) + NO_SIGNATURE)
        net.turn("shop", 0, "nothing behind it: not taken", absent=("EVIDENCE",))
    for text, status in ((true, 0), (other, 11)):
        loom.put("box-shop/bank/in/line", signed(loom, "bank", text))
        net.turn("shop", status)
    for name in forks_of(net, "shop", "bank"):
        loom.expect(["keep", f"box-shop/bank/kept/forks/{name}", "--kept", f"k{name}", "--signers", "box-shop/allowed_signers"], 0, "signed by")


def confirmed(room):
    """weft accept takes the line that was compared, and no other that waits by then; where a key is noted the line has to be signed by it; and a true line of
    another step is no contradiction"""
    net = Net(room, {"shop": ["bank"], "bank": ["shop"]})
    loom = net.loom
    net.night()
    shown = net.waiting("bank", "shop")
    loom.append("shop", b"meanwhile")
    net.turn("shop", 10)
    net.carry("shop", "bank")
    loom.expect("accept box-bank shop --yes", 2, "expected one argument")
    for bad in ("yes", shown[:-1], shown + "0", ""):
        loom.expect(["accept", "box-bank", "shop", "--yes", bad], 2, "64 hexadecimal digits")
    loom.expect(f"accept box-bank shop --yes {shown}", 10, "the line that waits now isn't the one of --yes", "shop 2 ")
    loom.put("first", b"shop 1 " + shown.encode() + b"\n")
    loom.expect("accept box-bank shop first", 12, "that of step 1", "for its line of step 2", absent=("contradict",))
    loom.put("other", other_of(loom.read("shop.anchor")))
    loom.expect("accept box-bank shop other", 11, "for its line of step 2")
    # a key is noted: without a signed line, or with another's, nobody is accepted
    good, now = loom.read("box-bank/shop/in/line"), net.waiting("bank", "shop")
    loom.key("thief")
    text = good.split(b"\n")[0] + b"\n"
    for bad in (None, text, text + NO_SIGNATURE, signed(loom, "thief", text), good + other_of(text) + NO_SIGNATURE, signed(loom, "shop", other_of(text))):
        (loom.folder / "box-bank/shop/in/line").unlink(missing_ok=True)
        if bad is not None:
            loom.put("box-bank/shop/in/line", bad)
        loom.expect(f"accept box-bank shop --yes {now}", 10, "isn't signed by the key that box-bank/allowed_signers has for it", "wasn't accepted")
        loom.expect("accept box-bank shop shop.anchor", 10, "isn't signed by the key")
    if (loom.folder / "box-bank/shop/kept/accepted").exists():
        raise Wrong("  it was accepted")
    loom.put("letter", good)
    loom.expect("accept box-bank shop letter", 0, "shop is accepted")
    if b"signed by ED25519" not in loom.read("box-bank/shop/kept/accepted"):
        raise Wrong(f"  {loom.read('box-bank/shop/kept/accepted')}")


def unchecked(room):
    """a check of a signature that couldn't be made, since ssh-keygen was killed amid it or the file of signers can't be read, is told as that: no line is called
    unsigned, no key another one, and evidence that was kept isn't called nothing"""
    net = pair(room)
    loom = net.loom
    real = shutil.which("ssh-keygen")
    loom.put("bin/ssh-keygen", f'#!/bin/sh\ncase "$*" in *"-Y verify"*) kill -9 $$;; esac\nexec {real} "$@"\n').chmod(0o755)
    killed = f"{loom.folder}/bin:{loom.env['PATH']}"
    loom.expect("line shop --sign shop.key --out shop.line", 0)
    loom.expect("keep --signer shop shop.key.pub", 0)
    told = "couldn't be checked, and nothing is said of it: ssh-keygen was ended by signal 9"
    loom.expect("keep shop.line", 5, told, absent=("isn't good",), PATH=killed)
    loom.expect("keep shop.line --signer shop shop.key.pub", 5, told, absent=("isn't good",), PATH=killed)
    (loom.folder / "folder").mkdir()
    loom.expect("keep shop.line", 3, "folder is a folder", WEFT_SIGNERS=loom.folder / "folder")
    loom.expect("keep shop.line", 0)
    loom.append("bank", b"x")
    net.turn("bank", 0)
    net.carry("bank", "shop")
    for _ in range(3):
        net.turn("shop", 5, told, absent=("isn't signed", "isn't that of the key", "is recorded"), PATH=killed)
    net.turn("shop", 0, "is recorded")
    line = loom.read("box-bank/shop/out/line").split(b"\n")[0] + b"\n"
    loom.put("box-shop/bank/in/line", signed(loom, "bank", other_of(line)))
    net.turn("shop", 11, "EVIDENCE")
    net.turn("shop", 5, told, absent=("shows nothing against it",), PATH=killed)
    net.turn("shop", 11, "EVIDENCE")


def second_key(room):
    """a peer's new key is noted beside one that was replaced only where a person says so: then what both signed counts, and parts of before are still found;
    without that word both cases are told, and nothing is noted"""
    net = pair(room)
    loom = net.loom
    loom.key("new")
    both = "Was the old one replaced, and not stolen, add the new one by --beside", "Was it stolen, take its line out of"
    loom.expect("accept box-shop bank --key new.key.pub", 10, "another key of bank already", *both)
    loom.expect("accept box-shop bank --key new.key.pub --beside", 10, "is noted as the key of bank", absent=("another key",))
    loom.append("bank", b"x")
    loom.put("box-bank/box.conf", "key = ../new.key\n")
    net.turn("bank", 0)
    net.carry("bank", "shop")
    before = loom.read("box-shop/bank/kept/signed")
    net.turn("shop", 0, "is recorded", absent=("isn't signed",))
    if loom.read("box-shop/allowed_signers").count(b"bank ") != 2 or not loom.read("box-shop/bank/kept/signed").startswith(before):
        raise Wrong(f"  {loom.read('box-shop/allowed_signers')}")
    loom.put("signers", b"")
    loom.expect("keep --signer bank bank.key.pub", 0)
    loom.expect("keep --signer bank new.key.pub", 10, "another key of bank already", *both)
    loom.expect("keep --signer bank new.key.pub --beside", 0)
    for key in ("bank", "new"):
        loom.expect(f"line bank --sign {key}.key --out {key}.line", 0)
        loom.expect(f"keep {key}.line", 0, "signed by ED25519")


def appending_carrier(room):
    """eight services weave for twenty-four nights (tests/play_network.py), and to one signed line in ten whoever carries it appends a made-up one: nobody is
    accused but who shows two histories, and all else is as it has to be"""
    folder = Path(room.folder) / "network"
    folder.mkdir()
    with ProcessPoolExecutor(len(os.sched_getaffinity(0))) as executor:
        wrong, figures = played(folder, room.program, 8, 24, 1, executor, Ways(appended=0.1))
    if wrong or not figures.shown:
        raise Wrong(f"  {wrong[:5]}\n  {figures}")


def revoked_and_judged(room):
    """what a key signed that was taken out of the file of signers counts no more with weft judge, for one file and for many, nor with weft chain, and contradicts no
    other line: that is told, in JSON too; it counts again once the key is noted, in another file of signers too, or where its line came otherwise besides"""
    loom = Loom(room)
    for folder, event in (("shop", b"true"), ("anew", b"forged")):
        loom.service("shop", [b"a"], [event], folder=folder)
        loom.put(f"many/{folder}", loom.timeweave("prove", folder, "event", "2", "0"))
    for name in ("old", "new"):
        loom.key(name)
    loom.expect("line anew --sign old.key --out forged", 0)
    loom.expect("keep forged --signer shop old.key.pub", 0)
    loom.expect("judge many/anew", 0, "many/anew: shown", absent=("DOESN'T COUNT",))
    signers = loom.put("before", loom.read("signers"))
    loom.put("src/a", "a")
    loom.put("signers", "")
    told = ("DOESN'T COUNT: 1 line of shop", "of step 2, signed by SHA256:", "isn't noted of shop")
    loom.expect("judge many/anew", 12, "many/anew: not judged", "line of step 2 of shop is missing", *told)
    for words in ("check shop --all", "line shop", "log src shop"):
        loom.expect(words, 17 if words == "log src shop" else 10, *told, absent=("among the lines",))
    loom.expect("judge many/anew", 12, "You hold none of shop, and keep one that doesn't count: see below")
    loom.expect("judge many/anew --signers nowhere", 3, "there is no file nowhere")
    loom.expect("judge many/anew", 12, "/nowhere, which WEFT_SIGNERS names", *told, WEFT_SIGNERS=loom.folder / "nowhere")
    loom.expect("judge many/anew", 2, "WEFT_SIGNERS names signers from this folder on", WEFT_SIGNERS="signers")
    loom.put("limited", loom.read("before").replace(b"namespaces=", b'valid-after="20200101",namespaces='))
    loom.expect("judge many/anew --signers limited", 0, "many/anew: shown", absent=told)
    found = json.loads(loom.expect("judge many/anew --json", 12).out)
    if found["shown"] or [it["step"] for it in found["not_counting"]] != [2]:
        raise Wrong(f"  {found}")
    loom.expect("judge --many many --workers 1", 12, "2 files: 2 not judged", *told)
    loom.expect("chain shop:1:0 many/anew --store anew --out c", 0, *told)
    for words in ("judge many/anew --signers before", "judge many/anew"):
        loom.expect(words, 0, "many/anew: shown", absent=told, WEFT_SIGNERS=signers)
    loom.expect("line shop --sign new.key --out true", 0, WEFT_KEPT=loom.put("of the shop", ""))
    uncounted = ("another line of step 2 of shop was kept", "and doesn't count, since that key isn't noted of shop")
    loom.expect("keep true --signer shop new.key.pub", 10, *uncounted, absent=("two lines of step",))
    if not json.loads(loom.expect("keep true --json", 10).out)["kept"][0]["contradicts"]:
        raise Wrong("  JSON doesn't say that it contradicts")
    another = "A LINE THAT DOESN'T COUNT IS ANOTHER ONE: that of step 2 of shop"
    loom.put("history", loom.timeweave("export", "shop"))
    for words in ("judge many/shop", "judge history", "chain shop:1:0 many/shop --store shop --out d"):
        loom.expect(words, 10, "not judged", another, *told, absent=(": shown", "TWO LINES"))
    loom.put("p1", loom.timeweave("prove", "shop", "event", "1", "0", "1"))
    loom.put("first", f"shop 1 {formats.timeline_of(loom.read('history')).authenticators[1]}\n")
    loom.expect(["keep", "first", "--by", "letter"], 0)
    loom.expect("judge p1", 0, "p1: shown")
    loom.expect("judge p1 --audit history", 10, "p1: not judged", another)
    loom.put("with history/one", loom.read("history"))
    loom.expect(["judge", "--many", "with history", "--workers", "1"], 12 if b"shop 2" not in loom.read("kept") else 10)
    if another.encode() not in loom.read("with history.verdicts.tsv"):
        raise Wrong("  the row doesn't say it")
    loom.expect("judge many/anew", 1, "many/anew: not shown", *told)
    loom.expect("judge --many many --workers 1", 1, "1 not judged", "1 not shown")
    loom.put("without", "".join(it for it in loom.read("kept").decode().splitlines(True) if "old" not in it and loom.read("forged").decode().strip() not in it))
    for words in ("judge many/shop --kept without", "judge history --kept without"):
        loom.expect(words, 0, ": shown", absent=told)
    loom.expect("keep --signer shop old.key.pub --beside", 0)
    loom.expect("judge many/shop", 11, "two lines of step 2", absent=told)
    loom.put("signers", b"".join(it for it in loom.read("signers").splitlines(True) if it not in loom.read("before")))
    loom.expect("judge many/shop", 10, another, *told)
    loom.expect(["keep", "forged", "--by", "letter from the shop"], 11, "two lines of step 2")
    loom.expect("judge many/shop", 11, "two lines of step 2")


def chosen_and_lost(room):
    """a line that was chosen over another one counts on once the other one's key is taken out, with nothing more to be said; and two lines by one key that is noted
    contradict each other as they are kept, whatever options it is noted with, and where it is noted with the second one"""
    loom = Loom(room)
    for folder, event in (("shop", b"true"), ("anew", b"forged")):
        loom.service("shop", [event], folder=folder)
        loom.put(f"many/{folder}", loom.timeweave("prove", folder, "event", "1", "0"))
    loom.key("shop")
    for folder in ("shop", "anew"):
        loom.expect(f"line {folder} --sign shop.key --out {folder}.line", 0, WEFT_KEPT=loom.put("of the shop", ""))
    loom.expect("keep anew.line --signer shop shop.key.pub", 0)
    noted, kept = loom.read("signers"), loom.read("kept")
    loom.expect(["keep", "shop.line", "--by", "letter"], 11, "two lines of step 1")
    loom.expect(["keep", "--choose", "shop.line", "--by", "asked"], 0, "It counts")
    loom.put("signers", "")
    loom.expect("judge many/shop", 0, "many/shop: shown", absent=("ANOTHER ONE",))
    loom.expect(["keep", "shop.line", "--by", "a second letter"], 0)
    loom.expect("judge many/anew", 1, "many/anew: not shown")
    two = ("there are two lines of step 1 of shop",)
    loom.put("kept", kept)
    loom.expect("keep shop.line --signer shop shop.key.pub", 11, *two)
    for options in (b'valid-after="20200101",namespaces=', b"namespaces="):
        loom.put("kept", kept)
        loom.put("signers", noted.replace(b"namespaces=", options))
        loom.expect("keep shop.line", 11, *two)
        if b"contradiction: shop 1 " not in loom.read("kept"):
            raise Wrong(f"  no mark: {loom.read('kept')!r}")


def cases():
    works = (
        second_letter, choices, clock_set_back, checked_store, handed_out, three_lines, changed_amid, noted_with_options, many_keys, dashes, behind_the_end,
        appended, false_record, unchecked, second_key, revoked, revoked_and_judged, chosen_and_lost,
        revoked_first, revoked_links, revoked_chain, far_ahead, full_of_lines, resigned, long_ago, told_though_ended, liars_own, confirmed, appending_carrier,
    )  # fmt: skip
    return [case(work, "weft signed") for work in works]
