"""Acceptance cases of `weft exchange`, `accept` and `chain`: services and their boxes, a carrier, hostile files, and faults at each write."""

import dataclasses
import os
import shutil
import subprocess

from harness.places import TOP
from harness.rooms import Wrong, case
from harness.weft_room import SHARE, Loom, each_fault, reseal
from timeweave_reference.messages import read_message
from timeweave_reference.receipts import Receipt, read_receipts


class Net:
    """Services with a store, a key and a box each, and what carries files between their boxes."""

    def __init__(self, room, peers, unsigned=()):
        self.loom, self.peers = Loom(room), peers
        for name in peers:
            self.loom.service(name)
            self.loom.key(name)
            self.loom.put(f"box-{name}/box.conf", "unsigned = yes\n" if name in unsigned else f"key = ../{name}.key\n")
        for name, others in peers.items():
            for other in others:
                self.loom.expect(f"accept box-{name} {other} --key {other}.key.pub", 10, "No message")

    def carried(self, sender, receiver):
        """The files that the sender has put out, with where they are to come to."""
        out, into = (self.loom.folder / f"box-{sender}/{receiver}/out", self.loom.folder / f"box-{receiver}/{sender}/in")
        return [(path, into / path.relative_to(out)) for path in sorted(out.rglob("*")) if path.is_file() and not path.name.endswith(".new")]

    def carry(self, sender, receiver):
        """Carries all files."""
        for path, to in self.carried(sender, receiver):
            to.parent.mkdir(parents=True, exist_ok=True)
            to.write_bytes(path.read_bytes())

    def carry_all(self):
        """Carries all files of all."""
        for name, others in self.peers.items():
            for other in others:
                self.carry(name, other)

    def turn(self, name, status=0, *texts, **more):
        """A turn of a service."""
        return self.loom.expect(f"exchange {name} box-{name}", status, *texts, **more)

    def night(self, status=0):
        """A turn of each, and then all is carried."""
        for name in self.peers:
            self.turn(name, status)
        self.carry_all()

    def accept_all(self):
        """Each accepts the others, whose messages wait."""
        for name, others in self.peers.items():
            for other in others:
                self.loom.expect(f"accept box-{name} {other} --yes {self.waiting(name, other)}", 0, f"{other} is accepted")

    def waiting(self, name, other):
        """The authenticator of the line that the waiting message of a peer tells, as a person compares it."""
        return read_message(self.loom.read(f"box-{name}/{other}/in/message")).authenticator.hex()

    def begun(self):
        """All know one another."""
        self.night()
        self.accept_all()
        self.night()
        return self

    def last(self, name):
        """The number of the last step."""
        return int(self.loom.run("line", name).out.split()[1])


def pair(room, **more):
    """Two services that know one another."""
    return Net(room, {"shop": ["bank"], "bank": ["shop"]}, **more).begun()


def with_message(room):
    """Two services, of which one was carried the other's message of a new step."""
    net = pair(room)
    net.loom.append("bank", b"new")
    net.turn("bank", 0)
    net.carry("bank", "shop")
    return net


def two_services(room):
    """two services exchange: a store without steps gets a first one, messages are recorded, receipts and lines go back, and each night connects anew"""
    net = Net(room, {"shop": ["bank"], "bank": ["shop"]})
    net.night()
    if net.last("shop") != 1:
        raise Wrong("  no first step was made")
    net.turn("shop", 10, "bank: it is new", "weft accept box-shop bank", "bank 1 ")
    net.accept_all()
    for night in range(5):
        net.loom.append("shop", b"night %d" % night)
        net.night()
    steps = net.last("shop"), net.last("bank")
    net.loom.expect("tell box-shop/bank/in/receipt", 0, "bank recorded step")
    for name in ("shop", "bank"):
        net.turn(name, 0)
    if net.last("shop") > steps[0] + 1:
        raise Wrong("  steps were made without need")
    kept = net.loom.read("box-shop/bank/kept/lines").decode()
    if "signed by ED25519" not in kept or kept.count("\n") < 4:
        raise Wrong(f"  {kept}")


def carrier(room):
    """files that are lost, late, repeated, cut or exchanged, and lost receipts: nothing is told that accuses, no line is recorded twice, and it goes on"""
    net = pair(room)
    loom = net.loom
    for name in net.peers:
        loom.put(f"box-{name}/box.conf", f"key = ../{name}.key\nsilent = 20\n")
    late = {}
    for night in range(12):
        loom.append("shop", b"night %d" % night)
        for name in net.peers:
            net.turn(name, 0, absent=("EVIDENCE", "another authenticator"))
        for sender, receiver in (("shop", "bank"), ("bank", "shop")):
            for number, (path, to) in enumerate(net.carried(sender, receiver)):
                how = (night * 7 + number * 3 + len(sender)) % 5
                data = path.read_bytes()
                if how == 1:
                    late[to] = data
                elif how == 2 and to in late:
                    to.write_bytes(late[to])
                elif how == 3 and night % 4 == 1 and path.name != "line":
                    to.write_bytes(data[: len(data) // 2])
                else:
                    to.parent.mkdir(exist_ok=True, parents=True)
                    to.write_bytes(data)
    net.carry_all()
    net.night()
    net.night()
    net.night()
    from timeweave_reference.histories import read_history

    for name in net.peers:
        _, steps = read_history(loom.timeweave("export", name))
        threads = [step.thread[:2] for step in steps if step.thread]
        if len(set(threads)) != len(threads) or len(threads) < 4:
            raise Wrong(f"  {name} received {threads}")


def old_message(room):
    """an old message of a peer that comes again, with the signed line of then, isn't taken for its last one: what is handed back to it, and its receipt, stay
    those of its last step, by which an old store that was put back there is found"""
    net = pair(room)
    loom = net.loom
    old = {name: loom.read(f"box-shop/bank/in/{name}") for name in ("message", "line")}
    net.turn("shop", 0)
    for _ in range(2):
        loom.append("bank", b"x")
        net.turn("bank", 0)
        net.carry("bank", "shop")
        net.turn("shop", 0, "is recorded")
    kept = {name: loom.read(f"box-shop/bank/{name}") for name in ("kept/taken", "out/yours", "out/receipt")}
    recorded = received(loom, "shop")
    for _ in range(2):
        for name, data in old.items():
            loom.put(f"box-shop/bank/in/{name}", data)
        net.turn("shop", 0, absent=("is recorded",))
        if any(loom.read(f"box-shop/bank/{name}") != data for name, data in kept.items()) or received(loom, "shop") != recorded:
            raise Wrong(f"  something was set back: {loom.read('box-shop/bank/kept/taken')}")


def first_contact(room):
    """a new peer waits until a person confirmed its line: by a file that has it, and not by one that has another"""
    net = Net(room, {"shop": ["bank"], "bank": ["shop"]})
    loom = net.loom
    net.night()
    net.turn("bank", 10, "shop: it is new")
    if net.last("bank") != 1:
        raise Wrong("  it was received")
    line = loom.run("line", "shop").out
    loom.put("other", line[:-2] + ("0" if line[-2] != "0" else "1") + "\n")
    loom.expect("accept mistyped shop --key shop.key.pub", 10, "mistyped wasn't there: it is a new box now")
    loom.expect("accept box-bank shop other", 11, "nothing was accepted", absent=("new box",))
    loom.expect("accept box-bank shop", 10, "wasn't accepted")
    loom.put("mine", line)
    loom.expect("accept box-bank shop mine", 0, "shop is accepted")
    net.loom.append("shop", b"meanwhile")
    net.turn("shop", 10)
    net.carry("shop", "bank")
    net.turn("bank", 0, "its step 1 is recorded")
    loom.expect("accept box-bank NAME", 2, "no name of a service")
    loom.expect("accept box-bank new --key mine", 9, "no public key")


def squatter(room):
    """a made-up message in a peer's name isn't taken, whoever signed it, and the true one is later; a box that takes unsigned ones says so each night"""
    net = pair(room)
    loom = net.loom
    loom.service("thief", *[[b"x"]] * 9)
    (loom.folder / "thief").rename(loom.folder / "tmp/thief")
    loom.service("shop", *[[b"x"]] * 40, folder="forged")
    message = loom.timeweave("thread", "forged", "0")
    before = net.last("bank")
    loom.put("box-bank/shop/in/message", message)
    net.turn("bank", 0, "waits for its signed line")
    loom.key("thief")
    loom.expect("line forged --sign thief.key --out forged.line", 0)
    loom.put("box-bank/shop/in/line", loom.read("forged.line") + loom.read("forged.line.sig"))
    for status in (0, 0, 10):
        net.turn("bank", status, "isn't signed by the key", "not taken")
    if net.last("bank") != before:
        raise Wrong("  a squatter's message was received")
    loom.put("box-bank/shop/in/message", loom.timeweave("thread", "tmp/thief", "0"))
    net.turn("bank", 10, "is of thief: not taken")
    loom.append("shop", b"true")
    net.turn("shop", 0)
    net.carry("shop", "bank")
    net.turn("bank", 0, "is recorded")
    # unsigned
    loom.put("box-bank/box.conf", "unsigned = yes\n")
    loom.append("shop", b"more")
    net.turn("shop", 0)
    net.carry("shop", "bank")
    (loom.folder / "box-bank/shop/in/line").unlink()
    net.turn("bank", 0, "is recorded", "Unsigned messages are taken here")


def without_keys(room):
    """a box without a key of its own says each night that nothing signs its lines, and one without a peer's key that it has none; an unsigned one doesn't"""
    loom = Loom(room)
    for name in ("shop", "bank"):
        loom.service(name)
        loom.key(name)
    loom.expect("accept box-shop bank --key bank.key.pub", 10)
    for _ in range(2):
        loom.expect("exchange shop box-shop", 10, "Nothing signs your lines: set key = FILE in box-shop/box.conf.", absent=("has no key",))
    loom.put("box-shop/box.conf", "key = ../shop.key\nsilent = 0\n")
    loom.expect("exchange shop box-shop", 0, absent=("Nothing signs",))
    loom.put("box-bank/box.conf", "key = ../bank.key\n")
    loom.expect("accept box-bank shop", 10)
    shutil.copytree(loom.folder / "box-shop/bank/out", loom.folder / "box-bank/shop/in", dirs_exist_ok=True)
    told = "box-bank/allowed_signers has no key of shop: weft accept box-bank shop --key KEY.pub"
    for _ in range(4):
        loom.expect("exchange bank box-bank", 10, told, absent=("Nothing signs", "not taken"))
    shown = loom.expect("accept box-bank shop --key shop.key.pub", 10, "wasn't accepted", "--yes").out.split()[-1]
    loom.expect(f"accept box-bank shop --yes {shown}", 0)
    loom.expect("exchange bank box-bank", 0, "is recorded", absent=("has no key",))
    loom.put("box-bank/box.conf", "unsigned = yes\n")
    loom.put("box-bank/allowed_signers", b"")
    loom.expect("exchange bank box-bank", 0, "Unsigned messages are taken", absent=("has no key", "Nothing signs"))


def old_store(room):
    """an old store that was put back is found by the lines beside it, and where these were put back too by its own signed line that a peer hands back;
    also where steps were appended to it; no step is made and nothing is put out"""
    net = pair(room)
    loom = net.loom
    net.night()
    for name in ("shop", "shop.lines", "shop.anchor", "shop.seal"):
        (shutil.copytree if os.path.isdir(loom.folder / name) else shutil.copy2)(loom.folder / name, loom.folder / f"tmp/{name}")
    for night in range(3):
        loom.append("shop", b"n%d" % night)
        net.night()

    def put_back(*names):
        for name in names:
            path = loom.folder / name
            shutil.rmtree(path) if path.is_dir() else path.unlink()
            (shutil.copytree if os.path.isdir(loom.folder / f"tmp/{name}") else shutil.copy2)(loom.folder / f"tmp/{name}", path)

    shutil.copytree(loom.folder / "shop", loom.folder / "tmp/good")
    lines = loom.read("shop.lines"), loom.read("shop.anchor")
    out = {path: path.read_bytes() for path in (loom.folder / "box-shop/bank/out").rglob("*") if path.is_file()}
    put_back("shop")
    net.turn("shop", 17, "kept in shop.lines", "No step was made")
    put_back("shop.lines", "shop.anchor", "shop.seal")
    net.turn("shop", 17, "signed by its key, and handed back by bank")
    for number in range(12):
        loom.append("shop", b"by hand %d" % number)
    before = loom.read("shop/timeline.tw")
    net.turn("shop", 17, "it has another step of that number", "handed back by bank")
    if loom.read("shop/timeline.tw") != before or any(path.read_bytes() != data for path, data in out.items()):
        raise Wrong("  something was made or put out")
    shutil.rmtree(loom.folder / "shop")
    shutil.copytree(loom.folder / "tmp/good", loom.folder / "shop")
    loom.put("shop.lines", lines[0])
    loom.put("shop.anchor", lines[1])
    reseal(loom.folder)
    (loom.folder / "shop.look").unlink(missing_ok=True)
    net.turn("shop", 0)


def unsigned_old_store(room):
    """in a box that takes unsigned messages a peer's word of a later line holds the turn back, and one may go on despite it"""
    net = Net(room, {"shop": ["bank"], "bank": ["shop"]}, unsigned=("shop", "bank")).begun()
    loom = net.loom
    net.night()
    loom.put("box-shop/bank/in/yours", f"shop {net.last('shop') + 5} {'a' * 64}\n")
    before = loom.read("shop/timeline.tw")
    net.turn("shop", 17, "as bank says, unsigned", "--despite bank")
    loom.expect("line shop", 17, "as bank told, unsigned; noted in shop.told")
    if loom.read("shop/timeline.tw") != before:
        raise Wrong("  a step was made")
    loom.expect("exchange shop box-shop --despite bank", 10, "bank: it tells a line of your step", "passed over, by --despite bank")


def fork_shown(room):
    """a service that signs two lines of one step is found out where two peers hand on what they hold, or one gets both: kept as evidence and called so"""
    net = Net(room, {"liar": ["one", "two"], "one": ["liar", "two"], "two": ["liar", "one"]}).begun()
    loom = net.loom
    net.night()
    for name in ("liar", "liar.lines", "liar.anchor", "liar.seal", "box-liar"):
        (shutil.copytree if os.path.isdir(loom.folder / name) else shutil.copy2)(loom.folder / name, loom.folder / name.replace("liar", "false"))
    reseal(loom.folder)
    loom.put("box-false/box.conf", "key = ../liar.key\n")
    loom.append("liar", b"to one")
    loom.append("false", b"to two")
    net.turn("liar", 0)
    loom.expect("exchange false box-false", 0)
    net.carry("liar", "one")
    for path in (loom.folder / "box-false/two/out").iterdir():
        if path.is_file():
            shutil.copy2(path, loom.folder / "box-two/liar/in" / path.name)
    for name in ("one", "two"):
        net.turn(name, 0)
    net.carry("one", "two")
    loom.expect("exchange two box-two --despite oen --despite one", 11, "EVIDENCE", "oen, named by --despite, is no peer of box-two")
    net.turn("two", 11, "EVIDENCE", "liar: ", "both signed by its key", "kept/forks")
    forks = sorted((loom.folder / "box-two/liar/kept/forks").iterdir())
    if len(forks) != 2:
        raise Wrong(f"  {forks}")
    for path in forks:
        loom.expect(["keep", path.relative_to(loom.folder), "--kept", f"k{path.name}", "--signers", "box-two/allowed_signers"], 0, "signed by")
    # the same peer gets both
    for path in (loom.folder / "box-false/two/out").iterdir():
        if path.is_file():
            shutil.copy2(path, loom.folder / "box-one/liar/in" / path.name)
    net.turn("one", 11, "EVIDENCE")


def hostile_folders(room):
    """links, pipes, folders, devices and long files in `in` are passed over and told, no share of a night is exceeded, and what is in a folder above
    isn't reached"""
    net = pair(room)
    loom = net.loom
    into = loom.folder / "box-bank/shop/in"
    secret = loom.put("secret", b"TWT1" + b"s" * 100)
    for name in ("message", "line", "receipt", "refusal", "yours", "seen", "receipts", "requests"):
        (into / name).unlink(missing_ok=True)
    os.symlink(secret, into / "message")
    os.mkfifo(into / "receipt")
    (into / "refusal").mkdir()
    os.symlink("/dev/zero", into / "yours")
    with open(into / "seen", "wb") as file:
        file.truncate(10 << 30)
    loom.put("box-bank/shop/in/requests", b"\xff" * 3000 + b"\nlink 1 1\n" + b"thread 1 ../../x 1 1\n" + "\u202e\x1b[31m".encode())
    done = net.turn("bank", 10, "no link is followed", "a pipe", "a folder", "10,737,418,240 bytes")
    if "secret" in done.out:
        raise Wrong(f"  {done}")
    shutil.rmtree(into)
    os.symlink(loom.folder / "box-shop/bank/out", into)
    net.turn("bank", 10, "shop: nothing of box-bank/shop/in was read: it is a link", absent=("recorded",))
    into.unlink()
    into.mkdir()
    loom.put("box-bank/box.conf", "key = ../bank.key\nfiles = 2\n")
    net.carry("shop", "bank")
    net.turn("bank", 10, "its share of tonight is used up")
    for bad in ("key", "unsigned = maybe", "files = 0", "x = y", "\x1b[31m"):
        loom.put("box-bank/box.conf", bad)
        net.turn("bank", 9, "no setting")
    loom.expect("exchange bank nowhere", 5, "no folder")


def requests(room):
    """requests of peers are answered for threads and links, for events only where the list made by hand has them; each answer is logged once"""
    net = pair(room)
    loom = net.loom
    net.night()
    loom.append("bank", b"secret")
    step = net.last("bank")
    asked = [f"link 1 {step}", f"event {step} 0 {step}", f"thread {step} shop 1 {step}", "link 99 99", "verify a b", "link 1 1; rm x", "event 1 0"]
    loom.put("box-bank/shop/in/requests", "\n".join(asked) + "\n")
    net.turn("bank", 0)
    answers = {path.name: path.read_bytes() for path in (loom.folder / "box-bank/shop/out/answers").iterdir()}
    kinds = sorted(data[:4] for data in answers.values())
    if kinds != [b"TWP1", b"TWP1", b"refu", b"refu"] or any(b"secret" in data for data in answers.values()):
        raise Wrong(f"  {answers}")
    net.turn("bank", 0)
    if loom.read("box-bank/shop/kept/answered").count(b"\n") != 4:
        raise Wrong(f"  {loom.read('box-bank/shop/kept/answered')}")
    loom.put("box-bank/shop/events", f"# by hand\n{step} 0\n")
    net.turn("bank", 0)
    if not any(b"secret" in path.read_bytes() for path in (loom.folder / "box-bank/shop/out/answers").iterdir()):
        raise Wrong("  an event on the list wasn't handed out")
    loom.put("box-bank/shop/in/requests", b"")
    net.turn("bank", 0)
    if list((loom.folder / "box-bank/shop/out/answers").iterdir()):
        raise Wrong("  answers stay")


def chained(room):
    """weft chain: between two services, by requests over their boxes, over a third one, within one service; and what is missing is said with whom to ask"""
    net = Net(room, {"maker": ["bank"], "bank": ["maker", "port"], "port": ["bank"]}).begun()
    loom = net.loom
    made = int(loom.append("maker", b"bread").split()[1])
    for _ in range(4):
        net.night()
    paid, shipped = (int(loom.append(name, text).split()[1]) for name, text in (("bank", b"paid"), ("port", b"shipped")))
    net.night()
    net.night()
    earlier, later = f"maker:{made}:0", f"bank:{paid}:0"
    words = ["chain", earlier, later, "--store", "maker", "--box", "box-maker", "--out", "c1", "--svg", "c1.svg"]
    loom.expect(words, 12, "over 1 hop", "bank is asked for it")
    loom.put("box-bank/maker/events", "* *\n")
    net.night()
    net.night()
    net.turn("maker", 0)
    loom.expect(words, 0, "c1: shown", '"bread"', '"paid"', "Every hop is bound by a line that you hold", "judged by: proved", "signed by ED25519")
    loom.put("anchors", b"".join(sorted(lines_for(loom, "c1"))))
    if not loom.timeweave("strict", "c1", "anchors").startswith(b"accepted precedes"):
        raise Wrong("  strict refuses it")
    stores = ["--store", "maker", "--store", "bank", "--store", "port"]
    loom.expect(["chain", earlier, f"port:{shipped}:0", *stores, "--out", "c2"], 0, "over" if False else "shown", "bank received step", "port received step")
    made_up = Receipt("port", 1, bytes(32), "maker", made + 1, bytes(32))
    loom.put("false", made_up.to_bytes())
    loom.expect(["chain", earlier, f"port:{shipped}:0", *stores, "--hand", "false", "--out", "c2"], 0, "port received step", absent=(f"port received step {made + 1} of maker",))
    early = [dataclasses.replace(it, archived=1) for it in read_receipts(loom.read("box-maker/bank/kept/got"))]
    loom.put("early", b"".join(it.to_bytes() for it in early))
    loom.expect(["chain", earlier, f"port:{shipped}:0", *stores, "--hand", "early", "--out", "c2"], 0, "port received step")
    loom.expect(["chain", f"port:{shipped}:0", earlier, *stores], 12, "no way is known")
    again = int(loom.append("maker", b"again").split()[1])
    loom.expect(["chain", earlier, f"maker:{again}:0", "--store", "maker"], 0, "is before step")
    # without the other's store or box: whom to ask, and then by files
    loom.put("later", loom.timeweave("prove", "bank", "event", str(paid), "0", str(paid + 1)))
    loom.put("k", net.loom.timeweave("prove", "bank", "link", str(paid + 1)) and line_of(loom, "bank", paid + 1))
    loom.put("receipts", loom.read("box-maker/bank/kept/got"))
    alone = ["chain", earlier, "later", "--store", "maker", "--hand", "receipts", "--kept", "k", "--out", "c3"]
    done = loom.expect(alone, 12, "ask bank for timeweave prove DIR thread")
    asked = done.out.split("prove DIR ")[1].split(",")[0].split()
    loom.put("thread", loom.timeweave("prove", "bank", *asked))
    loom.expect([*alone, "--hand", "thread"], 0, "c3: shown")
    (loom.folder / "k").write_bytes(line_of(loom, "bank", paid))
    missing = f"the later event is proved under step {paid + 1} of bank, whose line you don't hold"
    under = "Ask bank for the proof under a line that you hold (weft prove .. --top"
    loom.expect(alone, 12, missing, f"{under} {paid})", "shows nothing about the time before", absent=("parts", "DIR thread"))
    (loom.folder / "k").write_bytes(line_of(loom, "bank", 1))
    loom.expect(["chain", earlier, "later", "--store", "maker", "--kept", "k", "--out", "c3"], 12, missing, f"{under} N)", absent=("no way",))
    for bad in ("x", "maker:0:0", "maker:1", "later:1:0:0", f"maker:{2**40}:0", "\x1b"):
        loom.expect(["chain", bad, later], 2, "names no event")
    loom.expect(["chain", "thread", later], 9, "no proof of an event")


def shipped_later(net):
    """The step at which port appends an event after four nights, with a night after it: its proof and its line are held as shipped and k."""
    for _ in range(4):
        net.night()
    step = int(net.loom.append("port", b"shipped").split()[1])
    net.night()
    net.loom.put("shipped", net.loom.timeweave("prove", "port", "event", str(step), "0", str(step)))
    net.loom.put("k", line_of(net.loom, "port", step))
    return step


def passed_on(room):
    """weft chain asks a service that its own peer exchanges with, over that peer: a chain over it is made from one's own store and box alone; events are
    never asked for so, and nothing is passed on to who isn't a peer"""
    net = Net(room, {"maker": ["bank"], "bank": ["maker", "port"], "port": ["bank"]}).begun()
    loom = net.loom
    made = int(loom.append("maker", b"bread").split()[1])
    shipped = shipped_later(net)
    words = ["chain", f"maker:{made}:0", "shipped", "--store", "maker", "--box", "box-maker", "--kept", "k", "--out", "c"]
    loom.expect(words, 12, "port is asked for it over bank")
    for _ in range(6):
        net.night()
        done = loom.run(*words)
        if done.status == 0:
            break
    if done.status or "port received step" not in done.out or "Every hop is bound" not in done.out:
        raise Wrong(f"  {done}")
    step = net.last("port")
    loom.put("box-bank/maker/in/requests", f"of port event {shipped} 0 {step}\nof maker link 1 1\nof nobody link 1 1\nof port link 1 {step}\n")
    net.turn("bank", 0)
    answers = sorted(path.read_bytes()[:30] for path in (loom.folder / "box-bank/maker/out/answers").iterdir())
    if answers != [*[b"refused: no peer of that name "] * 2, b"refused: nothing is passed on "] or f"link 1 {step}\n".encode() not in loom.read("box-bank/port/out/requests"):
        raise Wrong(f"  {answers} {loom.read('box-bank/port/out/requests')}")
    if b"event" in loom.read("box-bank/port/out/requests"):
        raise Wrong("  an event is asked for in another's name")


def line_of(loom, name, step):
    """The line of a step, by a link."""
    loom.put("tmp/l", loom.run("line", name).out)
    loom.put("tmp/p", loom.timeweave("prove", name, "link", str(step)))
    return f"{name} {step} ".encode() + loom.timeweave("verify", "tmp/p", "tmp/l").split()[-1] + b"\n"


def lines_for(loom, proof):
    """The lines that a proof needs, each by its service's own link."""
    from timeweave_reference.verdicts import read_proof

    found = read_proof(loom.read(proof))
    needed = {found.service: found.top} | {hop.entry.service: hop.bind for hop in found.hops}
    return [line_of(loom, name, step) for name, step in needed.items()]


def with_faults(room):
    """weft exchange killed, and failing, at each of its writes, renames and runs: the next run goes on; no line is recorded twice, nothing false is told,
    what is put out is whole"""
    from weft import formats, signatures

    net = with_message(room)
    loom = net.loom
    loom.append("shop", b"new")
    step = net.last("bank")
    loom.put("box-shop/bank/in/requests", "link 1 2\nthread 2 bank 1 2\n")
    threads = received(loom, "shop")

    def check(told):
        done = net.loom.run("exchange", "shop", "box-shop")
        if done.status != 0 or done.err or received(loom, "shop") != [*threads, ("bank", step)]:
            raise Wrong(f"{told}\n  the next run: {done}\n  received: {received(loom, 'shop')}")
        out = [loom.read(f"box-shop/bank/out/{name}") for name in ("message", "receipt", "yours", "line")]
        if not (formats.read_message(out[0]) and formats.read_receipt(out[1]) and signatures.read_signed_line(out[2]) and signatures.read_signed_line(out[3])):
            raise Wrong(f"{told}\n  what is put out: {out}")
        if len(list((loom.folder / "box-shop/bank/out/answers").iterdir())) != 2:
            raise Wrong(f"{told}\n  the answers aren't there")

    if each_fault(loom, ["exchange", "shop", "box-shop"], check) < 100 // SHARE:
        raise Wrong("  there were fewer than 40 faults")


def received(loom, name):
    """The lines that a service received."""
    from timeweave_reference.histories import read_history

    return [tuple(step.thread[:2]) for step in read_history(loom.timeweave("export", name))[1] if step.thread]


def two_at_once(room):
    """of turns at once one waits for the other; beside them the log goes on; nothing is recorded twice"""
    net = with_message(room)
    loom = net.loom
    loom.put("src/a", b"x")
    env = loom.env | {"PYTHONPATH": str(TOP)}
    turns = [["exchange", "shop", "box-shop"]] * 3 + [["log", "src", "shop"]] * 2
    running = [subprocess.Popen(["python3", "-m", "weft", *words], cwd=loom.folder, env=env, stdout=subprocess.PIPE, stderr=subprocess.PIPE) for words in turns]
    ended = [(it.wait(300), it.communicate()) for it in running]
    if any(status for status, _ in ended):
        raise Wrong(f"  {ended}")
    found = received(loom, "shop")
    if len(set(found)) != len(found):
        raise Wrong(f"  {found}")
    net.turn("shop", 0)


def cases():
    works = (
        two_services, carrier, old_message, first_contact, squatter, without_keys, old_store, unsigned_old_store, fork_shown, hostile_folders, requests, chained, passed_on, with_faults,
        two_at_once,
    )  # fmt: skip
    return [case(work, "weft exchange") for work in works]
