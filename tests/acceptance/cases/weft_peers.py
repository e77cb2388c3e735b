"""Acceptance cases of what `weft exchange` reads of its peers, asks them and tells of them: what can't be read, peers that are cut off, two histories whose
steps never meet, lines of many peers, stores and boxes that were put back."""

import errno
import fcntl
import itertools
import os
import shutil
import subprocess
import time
from pathlib import Path

from cases.weft_exchange import Net, pair, shipped_later
from cases.weft_signed import NO_SIGNATURE, signed
from harness.rooms import Room, Skipped, Wrong, case
from harness.weft_room import SHARE, Loom, copied, reseal
from timeweave_reference.receipts import Receipt
from weft import files
from weft.asking import id_of

NOBODY = 65_534
MADE_UP = 40
TEN_YEARS = 10 * 365 * 86_400


# ---- what can't be read


def as_nobody():
    """Lets the process be another user than the one whose folders it meets."""
    if os.geteuid() == 0:
        os.setgroups([])
        os.setgid(NOBODY)
        os.setuid(NOBODY)


def unreadable_in(room):
    """a folder `in` of another user, one that is a link or a file, and one file there that can't be read, are told and count, each night; the turn goes on
    with the others; what isn't there is no such thing"""
    net = Net(room, {"shop": ["bank", "port"], "bank": ["shop"], "port": ["shop"]}).begun()
    loom = net.loom
    into = loom.folder / "box-shop/bank/in"
    kept = loom.folder / "tmp/in"
    net.turn("shop", 0)
    shutil.move(into, kept)
    os.symlink(kept, into)
    for _ in range(2):
        loom.append("port", b"x")
        net.turn("port", 0)
        net.carry("port", "shop")
        net.turn("shop", 10, "bank: nothing of box-shop/bank/in was read: it is a link", "port: its step")
    into.unlink()
    into.write_bytes(b"")
    net.turn("shop", 10, "bank: nothing of box-shop/bank/in was read: it can't be opened: Not a directory")
    into.unlink()
    shutil.move(kept, into)
    loom.append("bank", b"x")
    net.turn("bank", 0)
    net.carry("bank", "shop")
    net.turn("shop", 0, "bank: its step")
    shutil.move(loom.folder / "box-shop/bank", loom.folder / "tmp/bank")
    os.symlink(loom.folder / "tmp/bank", loom.folder / "box-shop/bank")
    net.turn("shop", 10, "bank in box-shop is a link, and no link is followed there")


def of_another_user(room):
    """a folder `in`, or a file in it, that belongs to another user and is closed to this one, is told and counts"""
    net = pair(room)
    loom = net.loom
    if os.geteuid() == 0:
        for path in [loom.folder, *loom.folder.rglob("*")]:
            os.lchown(path, NOBODY, NOBODY)
        closed = 0o700
    else:
        closed = 0
    into = loom.folder / "box-shop/bank/in"
    done = loom.run("exchange", "shop", "box-shop", patch=as_nobody)
    if done.status == 5 or "can't be started" in done.err:
        raise Skipped("another user can't run the program here")
    loom.expect("exchange shop box-shop", 0, patch=as_nobody)
    os.chown(into / "line", os.geteuid(), -1)
    (into / "line").chmod(closed)
    loom.expect("exchange shop box-shop", 10, "bank: in/line wasn't taken", "Permission denied", patch=as_nobody)
    os.chown(into, os.geteuid(), -1)
    into.chmod(closed)
    loom.expect("exchange shop box-shop", 10, "bank: nothing of box-shop/bank/in was read: it can't be opened: Permission denied", patch=as_nobody)
    into.chmod(0o755)


# ---- peers that are cut off


def cut_off(room):
    """a peer whose files don't come any more is told from the third turn on, and counts, and so is one whose message is damaged each night, though its lines
    come; turns that are made once more in one night count for nothing; with `silent = 0` it is never told"""
    net = pair(room)
    loom = net.loom
    into, told = loom.folder / "box-shop/bank/in", "bank: no new signed line of it came in"
    net.night()
    net.turn("shop", 0)
    last = int(loom.read("box-shop/bank/in/line").split()[1])
    # the carrier stands still: what came before lies there
    for status in (0, 0, 10, 10):
        loom.append("shop", b"x")
        done = net.turn("shop", status)
        for _ in range(2):
            net.turn("shop", status)
    if f"{told} 4 turns; the last was of its step {last}, on 20" not in done.out or "; it has your step " not in done.out:
        raise Wrong(f"  {done}")
    # nothing is there
    loom.append("bank", b"x")
    net.turn("bank", 0)
    net.carry("bank", "shop")
    net.turn("shop", 0, "is recorded", absent=(told,))
    shutil.rmtree(into)
    for number in range(12):
        net.turn("shop", 0 if number < 2 else 10, *([f"{told} {number + 1} turns"] if number > 1 else []))
    # its lines come, and its message is damaged
    loom.append("bank", b"x")
    loom.run("exchange", "bank", "box-bank")
    net.carry("bank", "shop")
    net.turn("shop", 0, "is recorded")
    for number in range(5):
        loom.append("bank", b"x")
        loom.run("exchange", "bank", "box-bank")
        net.carry("bank", "shop")
        (into / "message").write_bytes(b"TWT1")
        texts = ["bank: no new message of it came in", "though its signed lines come"] if number > 1 else []
        net.turn("shop", 10 if number > 1 else 0, "its message is damaged", *texts, absent=(told,))
    conf = loom.read("box-shop/box.conf")
    loom.put("box-shop/box.conf", conf + b"silent = 0\n")
    loom.append("shop", b"x")
    net.turn("shop", 0, absent=("came in",))
    loom.put("box-shop/box.conf", conf + b"silent = 9999\n")
    net.turn("shop", 0, absent=("came in",))
    for bad in ("-1", "x", "03", "10000", ""):
        loom.put("box-shop/box.conf", conf + f"silent = {bad}\n".encode())
        net.turn("shop", 9, "no setting", "silent = 3")


def quiet_days(room):
    """a service that makes no step itself counts days, and one day once; a peer of which nothing ever came is told too"""
    net = pair(room)
    loom = net.loom
    net.night()
    net.turn("shop", 0)

    def day(number):
        from weft import exchange

        exchange.now = lambda: f"2027-01-{number:02}T02:00:00Z"

    for number, status in ((1, 0), (1, 0), (2, 0), (2, 0), (3, 10), (3, 10), (4, 10)):
        net.turn("shop", status, patch=lambda: day(number))
    loom.expect("accept box-shop port --key bank.key.pub", 10)
    for status in (0, 0, 10):
        (loom.folder / "box-shop/bank/kept/silence").unlink(missing_ok=True)
        done = net.turn("shop", status)
    if "port: no signed line of it came in 3 turns, and none before; nothing tells that it has a step of yours" not in done.out:
        raise Wrong(f"  {done}")


def seen_held_back(room):
    """a carrier who holds back alone the file of lines that a peer hands on, by which two histories of others are found, is told of after three turns in which
    the peer's own lines came, and counts; a person who knows that the peer has no others ends that"""
    net = Net(room, {"ann": ["bob", "port"], "bob": ["ann", "port"], "port": ["ann", "bob"]}).begun()
    loom = net.loom
    net.night()
    for turn in range(4):
        for name in net.peers:
            loom.append(name, b"x")
            done = loom.run("exchange", name, f"box-{name}")
            told = "bob: its own lines come, and in 3 turns no line of others" in done.out
            if name == "ann" and (told, done.status) != ((True, 10) if turn == 3 else (False, 0)):
                raise Wrong(f"  {turn}: {done}")
        net.carry_all()
        seen = loom.folder / "box-ann/bob/in/seen"
        seen.unlink() if turn % 2 else seen.write_bytes(b"")
    loom.expect(f"accept box-ann bob --yes {net.waiting('ann', 'bob')}", 0)
    loom.expect("exchange ann box-ann", 0, absent=("no line of others",))


def seen_in_its_place(room):
    """a carrier who brings an old file of lines that a peer hands on, or one with a line that nobody signed, in the place of the new one, or who leaves it out
    from the first night on, so that two histories of one step are never seen, is told of after three turns in which the peer's own lines came"""
    for how in ("old", "made up", "never"):
        folder = Path(room.folder) / how.replace(" ", "-")
        folder.mkdir()
        liar = Liar(Room(room.program, folder))
        if how == "never":
            liar.forget_seen()
        told = [liar.night_without_seen(how) for _ in range(6)]
        for peer in ("ann", "bob"):
            statuses = [done[peer].status for done in told]
            if statuses[0] or statuses[-1] != 10 or {*statuses} != {0, 10} or "no line of others that it hands on was new" not in told[-1][peer].out:
                raise Wrong(f"  {how}, {peer}: {statuses}\n{told[-1][peer]}")


# ---- two histories whose steps never meet


class Liar:
    """A service with two histories from a night on, one for each of two peers that exchange with each other: the even steps of the one, the odd ones of the
    other are shown."""

    def __init__(self, room):
        self.net = Net(room, {"liar": ["ann", "bob"], "ann": ["liar", "bob"], "bob": ["liar", "ann"]}).begun()
        self.loom = self.net.loom
        self.net.night()
        for name in ("liar", "liar.lines", "liar.anchor", "liar.seal", "box-liar"):
            path, to = self.loom.folder / name, self.loom.folder / name.replace("liar", "false")
            (shutil.copytree if path.is_dir() else shutil.copy2)(path, to)
        reseal(self.loom.folder)
        self.loom.put("box-false/box.conf", "key = ../liar.key\n")

    def step(self, folder, odd):
        """Goes on to a step of this kind, and puts it out."""
        while True:
            number = int(self.loom.append(folder, f"{folder}".encode()).split()[1])
            if number % 2 == odd:
                break
        self.loom.run("exchange", folder, f"box-{folder}", "--despite", "ann", "--despite", "bob")
        if int(self.loom.run("line", folder).out.split()[1]) % 2 != odd:
            self.step(folder, odd)

    def forget_seen(self):
        """Nothing was handed on between both peers yet."""
        for path in ("box-ann/bob", "box-bob/ann"):
            for name in ("kept/silence", "kept/handed", "in/seen"):
                (self.loom.folder / path / name).unlink()

    def night_without_seen(self, how):
        """A night, in which each peer is shown another line of the same step, and what both hand on is replaced; answers what both were told."""
        loom = self.loom
        for folder, peer in (("liar", "ann"), ("false", "bob")):
            line = loom.append(folder, folder.encode()).split()
            loom.run("exchange", folder, f"box-{folder}", "--despite", "ann", "--despite", "bob")
            shutil.copytree(loom.folder / f"box-{folder}/{peer}/out", loom.folder / f"box-{peer}/liar/in", dirs_exist_ok=True)
        for peer in ("ann", "bob"):
            loom.append(peer, b"x")
        done = {peer: loom.run("exchange", peer, f"box-{peer}") for peer in ("ann", "bob")}
        for sender, receiver in (("ann", "bob"), ("bob", "ann")):
            seen = loom.folder / f"box-{receiver}/{sender}/in/seen"
            before = seen.read_bytes() if seen.exists() else b""
            self.net.carry(sender, receiver)
            armour = loom.read("box-ann/liar/in/line").split(b"\n", 1)[1]
            seen.write_bytes(before if how == "old" else f"liar {line[1]} {'cd' * 32}\n".encode() + armour)
            if how == "never":
                seen.unlink()
        return done

    def night(self, answers=True):
        """A night, in which the liar answers each peer of the history that it shows it, or not at all; answers what both peers were told."""
        loom, done = self.loom, {}
        self.step("liar", 0)
        self.step("false", 1)
        for folder, peer in (("liar", "ann"), ("false", "bob")):
            out, into = loom.folder / f"box-{folder}/{peer}/out", loom.folder / f"box-{peer}/liar/in"
            shutil.copytree(out, into, dirs_exist_ok=True)
            if not answers:
                shutil.rmtree(into / "answers", ignore_errors=True)
        for peer in ("ann", "bob"):
            done[peer] = loom.run("exchange", peer, f"box-{peer}")
        self.net.carry("ann", "bob")
        self.net.carry("bob", "ann")
        for folder, peer in (("liar", "ann"), ("false", "bob")):
            shutil.copytree(loom.folder / f"box-{peer}/liar/out", loom.folder / f"box-{folder}/{peer}/in", dirs_exist_ok=True)
        for folder, peer in (("false", "ann"), ("liar", "bob")):  # (each history hands on the lines of the other peer as well)
            loom.put(f"box-{folder}/{peer}/in/line", loom.read(f"box-{peer}/liar/out/line"))
        return done


def even_and_odd(room):
    """a service that shows its even steps to one peer, and the odd ones of another history to another one, is found by the links that they ask it for: by its
    own answer there is evidence, which is kept, and told again in each later turn until it is moved out of the box; nobody else is accused"""
    liar, found = Liar(room), {}
    loom = liar.loom
    for number in range(8):
        for peer, done in liar.night().items():
            if done.err or done.status not in (0, 10, 11):
                raise Wrong(f"  {done}")
            if any(("EVIDENCE" in line or "isn't known" in line) and not line.startswith("liar: ") for line in done.out.splitlines()):
                raise Wrong(f"  somebody else is accused: {done}")
            if "EVIDENCE" in done.out:
                found.setdefault(peer, number)
            if (peer in found) != (done.status == 11):
                raise Wrong(f"  night {number}, {peer}: {done}")
    if not found:
        raise Wrong("  nobody found two histories")
    peer = min(found)
    forks = loom.folder / f"box-{peer}/liar/kept/forks"
    names = sorted(path.name for path in forks.iterdir())
    link = next(name for name in names if name.startswith("link-"))
    earlier, later = (int(word) for word in link.split("-")[1:])
    files = {int(name.split("-")[0]): name for name in names if name != link}
    if sorted(files) != [earlier, later]:
        raise Wrong(f"  {names}")
    for step in (earlier, later):
        loom.expect(["keep", forks / files[step], "--kept", f"k{step}", "--signers", f"box-{peer}/allowed_signers"], 0, "signed by")
    loom.put("under", loom.read(f"box-{peer}/liar/kept/forks/{files[later]}").split(b"\n")[0] + b"\n")
    shown = loom.timeweave("strict", str(forks / link), "under").decode().split()
    if shown[:2] != ["accepted", "link"] or (forks / files[earlier]).read_text().split()[2] == shown[-1]:
        raise Wrong(f"  the kept link shows nothing: {shown}")
    loom.expect(f"exchange {peer} box-{peer}", 11, "liar: EVIDENCE of two histories of it, by its lines", "liar: each turn ends with 11 until you move")
    shutil.move(forks, loom.folder / "tmp/evidence")
    for name in (f"box-{peer}/liar/in", *(f"box-{peer}/{other}/in" for other in ("ann", "bob") if other != peer)):
        shutil.rmtree(loom.folder / name)
    for name in ("links", "answers"):
        path = loom.folder / f"box-{peer}/liar/kept/{name}"
        shutil.rmtree(path) if path.is_dir() else path.unlink()
    loom.expect(f"exchange {peer} box-{peer}", 0, absent=("EVIDENCE",))


def without_links(room):
    """such a service that answers nothing is told after three nights, one that answers what shows nothing at once, both without a word of two histories"""
    liar = Liar(room)
    loom, told = liar.loom, []
    for _ in range(7):
        done = liar.night(answers=False)["ann"]
        told.append("isn't known: in 3 nights no link between them came" in done.out)
        if "EVIDENCE" in done.out or told[-1] and done.status != 10:
            raise Wrong(f"  {done}")
    if told[:3] != [False] * 3 or not all(told[5:]):
        raise Wrong(f"  {told}")
    request = requests_of(loom)[0]
    for answer in (b"refused: no service has such a step\n", b"TWP1 none", loom.timeweave("prove", "bob", "link", "1", "1")):
        loom.put(f"box-ann/liar/in/answers/{id_of(request)}", answer)
        done = loom.expect("exchange ann box-ann", 10, "its last answer shows no link between them", absent=("EVIDENCE",))
        # the same line is asked for again, from the newest line on that is known by now; what is told is what is asked
        request = next(it for it in requests_of(loom) if it.split()[:2] == request.split()[:2])
        if f"timeweave prove DIR {request}." not in done.out:
            raise Wrong(f"  {request} isn't told: {done}")


def requests_of(loom):
    """What ann asks the liar for."""
    return loom.read("box-ann/liar/out/requests").decode().splitlines()


def a_line_that_was_lost(room):
    """an honest service one of whose lines was lost on its way to one of two peers is asked for the link, gives it, and nothing is told of it"""
    net = Net(room, {"s": ["ann", "bob"], "ann": ["s", "bob"], "bob": ["s", "ann"]}).begun()
    loom = net.loom
    for number in range(6):
        loom.append("s", b"%d" % number)
        for name in net.peers:
            net.turn(name, 0, absent=("isn't known", "EVIDENCE"))
        for sender, receiver in ((a, b) for a, others in net.peers.items() for b in others):
            if (sender, receiver, number) != ("s", "ann", 1):
                net.carry(sender, receiver)
    asked = loom.read("box-ann/s/kept/answered") if (loom.folder / "box-ann/s/kept/answered").exists() else b""
    given = loom.read("box-s/ann/kept/answered")
    if b" link " not in given:
        raise Wrong(f"  no link was asked for: {asked} {given}")
    if loom.read("box-ann/s/kept/links") or loom.read("box-ann/s/kept/loose"):
        raise Wrong("  a link is open still")


# ---- many peers


def many_peers(room):
    """of 300 peers each one's signed lines are handed on within three nights, the last ones by name too"""
    net = pair(room)
    loom = net.loom
    net.night()
    armour = b"".join(loom.read("box-shop/bank/kept/signed").partition(b"\n")[1:])
    armour = armour[1 : armour.index(b"-----END SSH SIGNATURE-----\n") + len(b"-----END SSH SIGNATURE-----\n")]
    names = [f"p{number:03}" for number in range(298)] + ["zz-liar"]
    for name in names:
        lines = b"".join(b"%s %d %s\n" % (name.encode(), step, b"a" * 64) + armour for step in (3, 4))
        loom.put(f"box-shop/{name}/kept/signed", lines)
    handed_on = set()
    for _ in range(3):
        net.turn("shop", 0, patch=told_of_no_new_peer)
        words = [line.split() for line in loom.read("box-shop/bank/out/seen").splitlines()]
        lines = [(word[0].decode(), int(word[1])) for word in words if len(word) == 3 and len(word[2]) == 64]
        newest = [name for name, step in lines if step == 4]
        if len(lines) > 128 or len(newest) < 127 or newest != [name for name, _ in lines[: len(newest)]]:
            raise Wrong(f"  {lines}")
        handed_on |= set(newest)
    if handed_on != set(names):
        raise Wrong(f"  {sorted(set(names) - handed_on)} were never handed on")


def told_of_no_new_peer():
    """Lets a box have peers without keys, as one that takes unsigned messages has."""
    from weft import exchange

    exchange.Turn.has_key = lambda self, peer: True
    exchange.hearing.listen = lambda *words: None


def made_up_receipts(room):
    """forty made-up receipts of a peer, of which each would lead on sooner than the true one, don't keep weft chain from being done: several ways are asked for
    in a night, and once one receipt failed its teller's others come last"""
    net = Net(room, {"maker": ["bank"], "bank": ["maker", "port"], "port": ["bank"]}).begun()
    loom = net.loom
    made = int(loom.append("maker", b"bread").split()[1])
    for _ in range(MADE_UP):
        loom.append("maker", b"x")
    shipped_later(net)
    false = b"".join(Receipt("port", 1, bytes(32), "maker", made + number, bytes(32)).to_bytes() for number in range(MADE_UP))
    loom.put("box-maker/liar/kept/heard", false)
    words = ["chain", f"maker:{made}:0", "shipped", "--store", "maker", "--box", "box-maker", "--kept", "k", "--out", "c"]
    loom.expect(words, 12, "of further ways are asked for too: a receipt may be made up.")
    for _ in range(9):
        for name in net.peers:
            net.loom.run("exchange", name, f"box-{name}")
        net.carry_all()
        done = loom.run(*words)
        if done.status == 0:
            break
    if done.status or "port received step" not in done.out:
        raise Wrong(f"  {done}")


# ---- stores and boxes that were put back

PARTS = ("shop", "shop.lines", "shop.anchor", "shop.entries", "shop.look", "shop.seal", "box-shop")


class Backup:
    """A service that logs, and its backup, with the words that its keeper types."""

    def __init__(self, room):
        self.net = Net(room, {"shop": ["bank"], "bank": ["shop"]})
        self.loom = self.net.loom
        shutil.rmtree(self.loom.folder / "shop")
        self.loom.put("src/a", "0")
        self.loom.expect("log src shop shop", 0)
        self.net.night()
        self.net.accept_all()
        self.net.night()
        self.lines = {}
        self.count = 0
        self.backup()
        self.log()
        self.exchange()

    def backup(self):
        """All of the service and its box is copied. (It stands among what is kept and brought back: it is of the same past.)"""
        shutil.rmtree(self.loom.folder / "backup", ignore_errors=True)
        for name in PARTS:
            path = self.loom.folder / name
            if path.exists():
                to = self.loom.folder / "backup" / name
                to.parent.mkdir(exist_ok=True)
                (shutil.copytree if path.is_dir() else shutil.copy2)(path, to)

    def restore(self):
        """The copy is put in the place of what is there."""
        for name in PARTS:
            path, copied = self.loom.folder / name, self.loom.folder / "backup" / name
            if path.exists():
                shutil.rmtree(path) if path.is_dir() else path.unlink()
            if copied.exists():
                (shutil.copytree if copied.is_dir() else shutil.copy2)(copied, path)

    def log(self):
        """The files are logged."""
        self.count += 1
        self.loom.put("src/a", f"{self.count}")
        self.went_out(self.loom.run("log", "src", "shop"), (0, 17))

    def exchange(self, settled=None):
        """A turn, after which the carrier comes, the peer makes its turn, and the carrier comes again."""

        def patch():
            from weft import exchange

            exchange.SETTLED = exchange.SETTLED if settled is None else settled

        self.went_out(self.loom.run("exchange", "shop", "box-shop", patch=patch), (0, 10, 17))
        self.net.carry("shop", "bank")
        done = self.loom.run("exchange", "bank", "box-bank")
        if done.status not in (0, 10) or "EVIDENCE" in done.out or "another authenticator" in done.out or "doesn't lead up" in done.out:
            raise Wrong(f"  the peer was shown two histories: {done}")
        self.net.carry("bank", "shop")

    def went_out(self, done, statuses):
        """Holds the signed line that lies in `out` against all that lay there before."""
        if done.status not in statuses:
            raise Wrong(f"  {done}")
        path = self.loom.folder / "box-shop/bank/out/line"
        name, step, authenticator = path.read_text().split("\n")[0].split()
        if self.lines.setdefault(step, authenticator) != authenticator:
            raise Wrong(f"  two lines of step {step} of {name} went out")


def put_back(room):
    """a service whose store and box are put back from a backup shows nobody a second history, in whichever order its keeper types backup, restore, exchange
    and log, and whichever he leaves out: it waits for its peers' words, and ends with 17 once they tell a later step"""
    words = ("backup", "restore", "exchange", "log")
    orders = [order for count in (3, 4) for order in itertools.permutations(words, count)]
    state = Backup(room)
    state.exchange()
    for number, order in enumerate(orders[::SHARE]):
        lines, count = dict(state.lines), state.count
        saved = state.loom.folder / f"tmp/order{number}"
        keep_all(state.loom, saved)
        try:
            for word in order:
                getattr(state, word)()
            for settled in (None, None, 0, 0):
                state.exchange(settled)
                state.log()
        except Wrong as wrong:
            raise Wrong(f"  {' '.join(order)}\n{wrong}") from None
        bring_back(state.loom, saved)
        state.lines, state.count = lines, count
        state.exchange()


def keep_all(loom, saved):
    """Moves nothing: copies all files, so that they can be brought back."""
    saved.mkdir()
    for path in loom.folder.iterdir():
        if path.name != "tmp":
            (shutil.copytree if path.is_dir() else shutil.copy2)(path, saved / path.name)


def bring_back(loom, saved):
    """Brings all files back, as if they had never been copied: a box notes itself anew."""
    for path in loom.folder.iterdir():
        if path.name != "tmp":
            shutil.rmtree(path) if path.is_dir() else path.unlink()
    for path in saved.iterdir():
        shutil.move(path, loom.folder / path.name)
    reseal(loom.folder)


def named_too_soon(room):
    """an old store that was put back isn't taken for the right one by a turn that ends since a peer hands back a later line, though a person named its last line; and a look
    isn't ended by a turn with another box, which has no peer"""
    net = pair(room)
    loom = net.loom
    net.night()
    shutil.copytree(loom.folder / "shop", loom.folder / "tmp/old")
    beside = {path.name: path.read_bytes() for path in loom.folder.glob("shop.*") if path.suffix != ".key" and ".key" not in path.name}
    old = loom.run("line", "shop").out.strip()
    for _ in range(2):
        loom.append("shop", b"more")
        net.turn("shop", 0)
        net.carry_all()
        net.turn("bank", 0)
        net.carry_all()
    shutil.rmtree(loom.folder / "shop")
    shutil.copytree(loom.folder / "tmp/old", loom.folder / "shop")
    for path in loom.folder.glob("shop.*"):
        if path.name in beside:
            path.unlink()
            path.write_bytes(beside[path.name])
    store = loom.read("shop/timeline.tw")
    for _ in range(2):
        loom.expect(["exchange", "shop", "box-shop", "--adopt-store", old], 17, "handed back by bank", "No step was made")
        loom.expect("line shop", 17, "noted in shop.told", "Is it an old one")
    loom.expect("exchange shop box-shop --look", 17)
    loom.put("box-two/box.conf", "key = ../shop.key\n")
    loom.expect(["exchange", "shop", "box-two"], 17)
    if loom.read("shop/timeline.tw") != store:
        raise Wrong("  a step was made")
    loom.put("bank.look.before", b"")
    loom.expect("exchange bank box-bank --look", 10)
    before = loom.read("bank/timeline.tw")
    loom.put("box-three/box.conf", "key = ../bank.key\n")
    for _ in range(2):
        loom.expect("exchange bank box-three", 17, "the words of peers", "--adopt-store")
        loom.expect("line bank", 10, "are waited for")
    if loom.read("bank/timeline.tw") != before:
        raise Wrong("  a step was made")


def seen_by_a_turn(room):
    """what a turn saw of a later line that its own key signed stands for each word behind it, whoever names the last line, until the store has that line or a person
    passes over the peer that told it; in a box that takes unsigned messages, and of what is published, until a turn doesn't see it any more"""
    net = pair(room)
    loom = net.loom
    loom.put("src/a", "a")
    loom.put("shop.entries", "")
    net.night()
    old = copied(loom)
    for number in range(2):
        loom.append("shop", b"later %d" % number)
        net.night()
    later = {path: path.read_bytes() for path in (loom.folder / "box-shop/bank/in").rglob("*") if path.is_file()}
    new = {name: loom.read(name) for name in ("shop/timeline.tw", "shop.lines", "shop.anchor")}
    step = int(loom.read("box-shop/bank/in/yours").split()[1])
    old()
    for path, data in later.items():
        path.write_bytes(data)
    last, before = loom.expect("line shop", 0).out.strip(), loom.read("shop/timeline.tw")
    loom.expect("backup shop before.backup", 0)
    told = f"isn't the store of shop's line of step {step}"
    net.turn("shop", 17, told, "signed by its key, and handed back by bank")
    (loom.folder / "box-shop/bank/in/yours").unlink()
    stands = (told, "signed by its key, and handed back by bank or put out for it before; noted in shop.told", "weft exchange shop BOX --despite bank")
    for words in (["exchange", "shop", "box-shop"], ["log", "src", "shop"], ["record", "shop", "--event", "x"]):
        for more in ([], ["--adopt-store", last]):
            loom.expect([*words, *more], 17, *stands)
    for words in ("line shop", "check shop", "status shop", "list shop", "find shop src/a", "backup shop after.backup", "exchange shop box-shop --look"):
        loom.expect(words, 17, *stands)
    if loom.read("shop/timeline.tw") != before:
        raise Wrong("  a step was made")
    shutil.rmtree(loom.folder / "shop")
    loom.expect("restore before.backup shop", 17, f"lacks the line of step {step} of shop", "handed back by bank")
    (loom.folder / "shop").mkdir()
    back = copied(loom)
    loom.put("shop.told", loom.read("shop.told")[:-1])
    loom.put("shop/timeline.tw", before)
    loom.expect("log src shop", 9, "shop.told", "was changed: one of its rows is none")
    back()
    # the right store is put back
    for name, data in new.items():
        loom.put(name, data)
    reseal(loom.folder)
    loom.expect("log src shop", 0)
    net.turn("shop", 0)
    if (loom.folder / "shop.told").exists():
        raise Wrong("  what the store has stands as told")
    # a person passes over who told it
    back()
    loom.put("shop/timeline.tw", before)
    loom.expect("log src shop", 17, *stands)
    loom.expect("exchange shop box-shop --despite bank", 10, "passed over, by --despite bank")
    loom.expect("log src shop", 0)


def seen_for_a_turn(room):
    """what nobody signed, in a box that takes that, and what is published, ends each word behind the turn that saw it, until a turn doesn't see it any more"""
    net = Net(room, {"shop": ["bank"], "bank": ["shop"]}, unsigned=("shop", "bank")).begun()
    loom = net.loom
    loom.put("src/a", "a")
    loom.put("shop.entries", "")
    returned = loom.read("box-shop/bank/in/yours")
    loom.put("box-shop/bank/in/yours", f"shop {net.last('shop') + 5} {'a' * 64}\n")
    net.turn("shop", 17, "as bank says, unsigned")
    loom.expect("log src shop", 17, "as bank told, unsigned")
    loom.put("box-shop/bank/in/yours", returned)
    net.turn("shop", 0)
    loom.expect("log src shop", 0)
    loom.put("shop.told", f"shop {net.last('shop') + 5} {'a' * 64} published\n")
    loom.expect("log src shop", 17, "signed by its key, and published", "move its file out of the published folder")
    net.turn("shop", 0)
    loom.expect("log src shop", 0)


def accepted_name(room):
    """a peer that is called as a further part of the box's own service would be is told where it is accepted, so that a turn notes the name before a log goes on"""
    loom = Loom(room)
    loom.service("shop")
    loom.key("shop")
    loom.put("box/box.conf", "key = ../shop.key\n")
    loom.expect("exchange shop box", 0)
    loom.key("other")
    told = "is called as a further part of shop would be"
    loom.expect("accept box shop-2 --key other.key.pub", 10, f"shop-2 {told}")
    loom.expect("accept box bank --key other.key.pub", 10, absent=(told,))
    loom.expect("accept box shop --key other.key.pub", 2, "shop is the service whose box box is")
    if (loom.folder / "box/shop").exists() or b"shop " in loom.read("box/allowed_signers"):
        raise Wrong("  the service is its own peer")


def made_up_names(room):
    """names that somebody on the way makes up, as others' that a part of the service would get, fill no file without end, and end no turn: those that a next part
    could get soon are noted, however many come, and those of peers each"""
    loom = Loom(room)
    loom.service("shop")
    loom.key("shop")
    loom.put("box/box.conf", "key = ../shop.key\nsilent = 0\n")
    (loom.folder / "box/shop-999/in").mkdir(parents=True)
    for turn in range(3):
        names = (f"shop-{number}" for number in range(2 + turn * 900, 2 + turn * 900 + 900))
        loom.put("box/shop-999/in/seen", "".join(f"{name} 1 {'a' * 64}\n" for name in names))
        loom.expect("exchange shop box", 10)
    names = loom.read("shop.others").decode().split()
    if sorted(names) != sorted([*(f"shop-{number}" for number in range(2, 101)), "shop-999"]):
        raise Wrong(f"  {names}")


def look(room):
    """weft exchange --look makes no step and puts nothing out, tells what each peer hands back, and lets weft log make none; turns wait for each peer's word of
    a day later, and then go on; a store that lacks what a peer tells ends with 17"""
    net = pair(room)
    loom = net.loom
    net.night()
    net.turn("shop", 0)
    step = net.last("shop")
    out = {path: path.read_bytes() for path in (loom.folder / "box-shop/bank/out").rglob("*") if path.is_file()}
    loom.append("bank", b"x")
    net.turn("bank", 0)
    net.carry("bank", "shop")
    waits = ("bank: it hands back your step", "it has your step", "its word is waited for", "No step was made, and nothing was put out.", "--despite bank")
    loom.expect("exchange shop box-shop --look", 10, *waits)
    net.turn("shop", 10, *waits)
    if net.last("shop") != step or any(path.read_bytes() != data for path, data in out.items()):
        raise Wrong("  something was made or put out")
    loom.put("src/a", "x")
    loom.expect("log src shop", 17)

    def settled():
        from weft import exchange

        exchange.SETTLED = 0

    net.carry("bank", "shop")
    net.turn("shop", 0, "is recorded", absent=("waited for",), patch=settled)
    loom.expect("log src shop", 0)
    # of a peer that has recorded this service only what it hands back is its word, and none older than it has recorded
    old, last = loom.read("box-shop/bank/in/yours"), loom.read("box-bank/shop/out/yours")
    loom.expect("exchange shop box-shop --look", 10, "its word is waited for")
    has = loom.read("box-shop/bank/kept/has").split()
    (loom.folder / "box-shop/bank/in/yours").unlink()
    for older in (None, b"", b"shop", b"bank 9 " + b"a" * 64 + b"\n", loom.read("shop.lines").splitlines(True)[0]):
        if older is not None:
            loom.put("box-shop/bank/in/yours", older)
        for name in ("line", "message"):
            loom.put(f"box-shop/bank/in/{name}", loom.read(f"box-bank/shop/out/{name}"))
        net.turn("shop", 10, "its word is waited for", "No step was made", patch=settled)
    loom.put("box-shop/bank/in/yours", last)
    if int(has[1]) > int(last.split()[1]) or old.split()[0] != b"shop":
        raise Wrong(f"  {has} {last}")
    net.turn("shop", 0, absent=("waited for",), patch=settled)
    # one that is gone for good is passed over
    loom.expect("exchange shop box-shop --look", 10, "its word is waited for")
    shutil.rmtree(loom.folder / "box-shop/bank/in")
    net.turn("shop", 10, "it hands back no line of yours", "its word is waited for", patch=settled)
    loom.expect("exchange shop box-shop --despite bank", 0, absent=("waited for",))


def a_copied_box(room):
    """a box that is a copy, as one from a backup is, waits for peers' words by itself; one whose turn was stopped isn't one, and a copy of that is"""
    net = pair(room)
    loom = net.loom
    net.night()
    net.turn("shop", 0)
    (loom.folder / "box-shop").rename(loom.folder / "tmp/box")
    shutil.copytree(loom.folder / "tmp/box", loom.folder / "box-shop")
    net.turn("shop", 10, "its word is waited for")
    shutil.rmtree(loom.folder / "box-shop")
    (loom.folder / "tmp/box").rename(loom.folder / "box-shop")
    (loom.folder / "shop.look").unlink()
    net.turn("shop", 0)
    loom.append("bank", b"x")
    net.turn("bank", 0)
    net.carry("bank", "shop")

    def killed():
        import signal

        from weft.looking import Notes

        Notes.end = lambda self, note: os.kill(os.getpid(), signal.SIGKILL)

    net.turn("shop", -9, patch=killed)
    shutil.copytree(loom.folder / "box-shop", loom.folder / "tmp/killed")
    net.turn("shop", 0)
    shutil.rmtree(loom.folder / "box-shop")
    (loom.folder / "tmp/killed").rename(loom.folder / "box-shop")
    net.turn("shop", 10, "its word is waited for")


def clock_at(seconds, settled=None):
    """What sets the clock of a run so many seconds on, and of a look how long behind its beginning a word counts."""

    def patch():
        from weft import exchange, looking

        real = looking.now
        looking.now = lambda: real() + seconds
        exchange.SETTLED = exchange.SETTLED if settled is None else settled

    return patch


def clock_set(room):
    """after a restore words are waited for while the clock stands ten years back, once it is right again, and until one comes a day after that"""
    state = Backup(room)
    loom = state.loom
    state.exchange()
    state.log()
    state.restore()
    before, moments = loom.read("shop/timeline.tw"), (-TEN_YEARS, -TEN_YEARS, 0, 0)
    for seconds in moments:
        loom.expect("exchange shop box-shop", 10, "its word is waited for", "No step was made", patch=clock_at(seconds))
        loom.expect("log src shop", 17, patch=clock_at(seconds))
    state.net.carry("bank", "shop")
    loom.expect("exchange shop box-shop", 17, "handed back by bank")
    if loom.read("shop/timeline.tw") != before:
        raise Wrong("  a step was made")


def clock_ahead(room):
    """a look that began while the clock stood a year ahead begins anew once it is right, which is told, and ends once words come after that"""
    net = pair(room)
    loom = net.loom
    net.night()
    net.turn("shop", 0)
    net.turn("shop", 10, "its word is waited for", patch=clock_at(TEN_YEARS))
    net.turn("shop", 10, "its word is waited for", "they are waited for anew", patch=clock_at(0, 1))
    net.turn("shop", 10, "its word is waited for", absent=("anew",))
    time.sleep(1.1)
    net.carry("bank", "shop")
    time.sleep(1.1)
    net.turn("shop", 0, absent=("waited for",), patch=clock_at(0, 1))
    # a word that lies ahead hasn't come, and is waited for until it comes anew
    loom.expect("exchange shop box-shop --look", 10, patch=clock_at(-TEN_YEARS))
    net.turn("shop", 10, "its word is waited for", patch=clock_at(-TEN_YEARS, 0))
    net.turn("shop", 10, "they are waited for anew", patch=clock_at(0, 60))


def other_rights(room):
    """chmod -R, chown -R and a backup by hard links make no box and no store a copy; where the file system tells a file from an earlier one of its number by
    its time alone, they do a minute after a turn, and that they may have done so is told"""
    net = pair(room)
    loom = net.loom
    loom.put("box-shop/box.conf", "key = ../shop.key\nsilent = 0\n")
    loom.put("src/a", "a")
    loom.expect("log src shop", 0)
    net.turn("shop", 0)
    for number, words in enumerate((["chmod", "-R", "g+rX"], ["chown", "-R", f"{os.geteuid()}"], ["cp", "-al"])):
        paths = ["shop", "shop.seal", "shop.lines", "box-shop"] + ([str(loom.folder / "tmp")] if number == 2 else [])
        subprocess.run([*words, *paths], cwd=loom.folder, check=True)
        net.turn("shop", 0, absent=("waited for",))
        loom.expect("log src shop", 0)

    def without_generation():
        def fails(*_):
            raise OSError(errno.ENOTTY, "")

        files.fcntl.ioctl = fails

    for path in (loom.folder / "box-shop/.seal", loom.folder / "shop.seal"):
        path.unlink()
    loom.expect(["log", "src", "shop", "--adopt-store", loom.run("line", "shop").out.strip()], 0, patch=without_generation)
    (loom.folder / "box-shop/.turn").unlink()
    net.turn("shop", 0, patch=without_generation)
    for name in ("box-shop/.seal", "shop.seal"):
        identity, space, line = loom.read(name).decode().partition(" ")
        number, generation, moment = identity.strip().split(".")
        loom.put(name, f"{number}.{generation}.{int(moment) - 61}{space}{line}" if space else f"{number}.{generation}.{int(moment) - 61}\n")
    loom.expect("log src shop", 17, "shop.seal was changed after it was made, as `chmod` or a link changes it too", patch=without_generation)
    net.turn("shop", 10, "box-shop/.turn was changed since its turn", "`cp -al` change it too", "its word is waited for", patch=without_generation)


def box_of_another(room):
    """a box is the service's that made its first turn: another one that is named with it makes nothing, puts nothing out and notes nothing there"""
    net = Net(room, {"shop": ["bank"], "bank": ["shop", "port"], "port": ["bank"]}).begun()
    loom = net.loom
    before = {path: path.read_bytes() for path in loom.folder.rglob("*") if path.is_file() and path.suffix != ".lock" and path.name != ".lock"}
    for words in ("exchange port box-shop", "exchange port box-shop --look", "exchange bank box-shop"):
        loom.expect(words, 2, 'box-shop is the box of "shop", and not of', "nothing was made or put out")
    changed = [path for path in loom.folder.rglob("*") if path.is_file() and path.suffix != ".lock" and path.name != ".lock" and before.get(path) != path.read_bytes()]
    if changed:
        raise Wrong(f"  {changed}")
    net.turn("shop", 0)
    loom.put("box-shop/.own", b"\xff" * 65)
    net.turn("shop", 9, "box-shop/.own")
    loom.put("box-shop/.own", b"\xff\n")
    net.turn("shop", 2, "is the box of")
    (loom.folder / "box-shop/.own").unlink()
    net.turn("shop", 0)


def no_peers_folders(room):
    """a folder in a box under a name that no peer has is told and counts where something is carried to it, and is only told where nothing is"""
    net = pair(room)
    loom = net.loom
    net.turn("shop", 0)
    (loom.folder / "box-shop/Notes").mkdir()
    net.turn("shop", 0, "Notes in box-shop is no peer's folder.")
    for name in ("Bank", "bank_two", "shop"):
        (loom.folder / f"box-shop/{name}/in").mkdir(parents=True)
        net.turn("shop", 10, f"{name} in box-shop is no peer's folder, and nothing of it was read")
        shutil.rmtree(loom.folder / f"box-shop/{name}")
    os.symlink("Loop", loom.folder / "box-shop/Loop")
    net.turn("shop", 10, "Loop in box-shop is a link")
    (loom.folder / "box-shop/Loop").unlink()
    net.turn("shop", 0)


def two_handed_on(room):
    """two signed lines of one step of a service, of which one peer hands on the one and another peer the other, are evidence, though neither came from the
    service itself; made-up ones beside them aren't"""
    net = Net(room, {"ann": ["liar", "bob", "carol"], "liar": ["ann"], "bob": ["ann"], "carol": ["ann"]}).begun()
    loom = net.loom
    net.turn("ann", 0)
    one, two, three = (b"liar 9 " + letter * 64 + b"\n" for letter in (b"a", b"b", b"c"))
    loom.put("box-ann/bob/in/seen", signed(loom, "liar", one) + three + NO_SIGNATURE)
    loom.put("box-ann/carol/in/seen", three + NO_SIGNATURE + signed(loom, "bob", two))
    loom.expect("exchange ann box-ann", 0, absent=("EVIDENCE", "contradict"))
    loom.put("box-ann/carol/in/seen", three + NO_SIGNATURE + signed(loom, "liar", two))
    told = "liar: EVIDENCE: there are two lines of its step 9, both signed by its key"
    loom.expect("exchange ann box-ann", 11, told, absent=("bob: EVIDENCE", "carol: EVIDENCE"))
    names = sorted(path.name for path in (loom.folder / "box-ann/liar/kept/forks").iterdir())
    if names != ["9-" + "a" * 64, "9-" + "b" * 64]:
        raise Wrong(f"  {names}")


def joined_and_other(room):
    """a line of a service that a peer handed on, and that a link joined to the history that is recorded here, is kept with its signature: another line of that
    step that is handed on nights later is evidence"""
    net = Net(room, {"s": ["ann", "bob"], "ann": ["s", "bob"], "bob": ["s", "ann"]}).begun()
    loom = net.loom
    for name in net.peers:
        loom.put(f"box-{name}/box.conf", loom.read(f"box-{name}/box.conf") + b"silent = 0\n")
    lost = None
    for number in range(6):
        loom.append("s", b"%d" % number)
        for name in net.peers:
            net.turn(name, 0, absent=("EVIDENCE",))
        if number == 1:
            lost = loom.read("box-s/ann/out/line").split()[1]
        for sender, receiver in ((a, b) for a, others in net.peers.items() for b in others):
            if (sender, receiver, number) != ("s", "ann", 1):
                net.carry(sender, receiver)
    net.turn("ann", 0)
    if b"s %s " % lost not in loom.read("box-ann/s/kept/signed"):
        raise Wrong(f"  the line of step {lost} isn't kept: {loom.read('box-ann/s/kept/joined')}")
    loom.put("box-ann/bob/in/seen", signed(loom, "s", b"s %s %s\n" % (lost, b"e" * 64)))
    net.turn("ann", 11, f"s: EVIDENCE: there are two lines of its step {lost.decode()}, both signed by its key")


def without_public_half(room):
    """a key whose public half isn't beside it tells it itself; another key's there, or no key at all, ends the turn before anything is made: lines of one's own
    that peers hand back couldn't be known again"""
    net = pair(room)
    loom = net.loom
    net.night()
    good = loom.read("shop.key.pub")
    (loom.folder / "shop.key.pub").unlink()
    step = net.last("shop")
    loom.put("box-shop/bank/in/yours", signed(loom, "shop", f"shop {step + 3} {'a' * 64}\n".encode()))
    net.turn("shop", 17, "signed by its key, and handed back by bank")
    (loom.folder / "shop.told").unlink()
    loom.put("box-shop/box.conf", "key = ../none.key\n")
    net.turn("shop", 3, "none.key has no public half beside it", "No step was made")
    loom.put("shop.key.pub", loom.read("bank.key.pub"))
    loom.put("box-shop/box.conf", "key = ../shop.key\n")
    loom.put("box-shop/bank/in/yours", b"")
    loom.append("bank", b"x")
    net.turn("bank", 0)
    net.carry("bank", "shop")
    net.turn("shop", 9, "shop.key.pub isn't the public key of box-shop/../shop.key", "No step was made", absent=("is recorded",))
    loom.put("shop.key.pub", good)
    net.turn("shop", 0)


def told_by_a_receipt(room):
    """a receipt, a refusal and a handed-back line of a later own step than the store has, which nobody signed, are told each night, count, and stop no turn;
    after a restore they keep the look open, until they are gone or somebody who knows better goes on despite them"""
    net = pair(room)
    loom = net.loom
    loom.put("box-bank/box.conf", loom.read("box-bank/box.conf") + b"silent = 0\n")
    net.night()
    net.turn("shop", 0)
    false = {
        "receipt": lambda step: Receipt("bank", 9, b"b" * 32, "shop", step, b"a" * 32).to_bytes(),
        "refusal": lambda step: f"refused BadLink {step} {'a' * 64}\nmessage 1 since 1\n".encode(),
        "yours": lambda step: f"shop {step} {'a' * 64}\n".encode(),
    }
    for name, made_up in false.items():
        for _ in range(2):
            step = net.last("shop")
            loom.append("bank", b"x")
            net.turn("bank", 0)
            net.carry("bank", "shop")
            loom.put(f"box-shop/bank/in/{name}", made_up(step + 7))
            told = f"bank: a file of it tells your step {step + 7} of shop, not signed by your key, and the store's last one is {step}"
            net.turn("shop", 10, told, "bank: its step", "is recorded", "It stops no turn", absent=("No step was made",))
            if net.last("shop") != step + 1:
                raise Wrong("  no step was made")
        net.carry("bank", "shop")
        (loom.folder / f"box-shop/bank/in/{name}").unlink()
    net.carry("bank", "shop")
    net.turn("shop", 0, absent=("not signed by your key",))

    def settled():
        from weft import exchange

        exchange.SETTLED = 0

    # after a restore
    step = net.last("shop")
    loom.expect("exchange shop box-shop --look", 10, "its word is waited for")
    net.carry("bank", "shop")
    for name, made_up in false.items():
        true = loom.read(f"box-shop/bank/in/{name}") if (loom.folder / f"box-shop/bank/in/{name}").exists() else b""
        loom.put(f"box-shop/bank/in/{name}", made_up(step + 7))
        net.turn("shop", 10, f"tells your step {step + 7}", "No step was made, and nothing was put out.", "weft exchange --despite bank", patch=settled)
        loom.put(f"box-shop/bank/in/{name}", true)
    if net.last("shop") != step:
        raise Wrong("  a step was made")
    saved = (loom.folder / "shop.look").read_bytes()
    net.turn("shop", 0, absent=("No step was made",), patch=settled)
    loom.put("shop.look", saved)
    loom.put("box-shop/bank/in/receipt", false["receipt"](net.last("shop") + 7))
    net.turn("shop", 10, "keeps a look after a restore open", patch=settled)
    loom.expect("exchange shop box-shop --despite bank", 10, "bank: it tells a line of your step", "passed over, by --despite bank", absent=("No step was made",))
    loom.put("box-shop/bank/in/receipt", Receipt("bank", 9, b"b" * 32, "shop", net.last("shop"), b"a" * 32).to_bytes())
    net.turn("shop", 0, "nothing is concluded from that")


def made_up_receipt(room):
    """whoever carries files, and has no key, puts a made-up receipt of the last own step there: the peer's refusal corrects it, and once the files are carried
    as they are messages are recorded again"""
    net = pair(room)
    loom = net.loom
    loom.append("shop", b"one")
    net.turn("shop", 0)
    line = loom.run("line", "shop").out.split()
    loom.put("box-shop/bank/in/receipt", Receipt("bank", 99, b"b" * 32, "shop", int(line[1]), bytes.fromhex(line[2])).to_bytes())
    net.turn("shop", 0)
    for night in range(3):
        loom.append("shop", b"night %d" % night)
        net.turn("shop", 0)
        net.carry("shop", "bank")
        done = net.turn("bank", 0)
        net.carry("bank", "shop")
    if "is recorded" not in done.out:
        raise Wrong(f"  {done.out}")


def chain_to_ask(room):
    """Two services, and the words of a chain over them whose parts are asked for by bank's box."""
    net = pair(room)
    loom = net.loom
    loom.append("shop", b"sold")
    sold = net.last("shop")
    for _ in range(3):
        net.night()
    loom.append("bank", b"paid")
    words = f"chain shop:{sold}:0 bank:{net.last('bank')}:0 --store bank --box box-bank --out c"
    net.turn("bank", 0)
    for folder in ("box-bank/shop", "box-shop/bank"):
        loom.put(f"{folder}/events", "* *\n")
    loom.expect(words, 12, "is asked")
    return net, words


def made_up_refusals(room):
    """whoever carries files, and has no key, answers what was asked by a made-up refusal: weft chain tells it, and ends with a sentence; it is asked again, and
    once the peer's own answer comes, or the refusal is gone, it is forgotten"""
    net, words = chain_to_ask(room)
    loom = net.loom
    for _ in range(2):
        asked = loom.read("box-bank/shop/kept/asked").decode().splitlines()
        for request in asked:
            loom.put(f"box-bank/shop/in/answers/{id_of(request)}", b"refused NoThread\n")
        for absent in ((), ("it didn't answer",)):
            net.turn("bank", 0, absent=absent)
        loom.expect(words, 12, 'answered "refused NoThread", which nobody signs: it is asked again each night')
    # what speaks in weft's voice stays within its quotes, and decides nothing
    speaking = b"refused" + b" " * 90 + b"shop: EVIDENCE: there are two lines of its step 5, both signed by its key" + b" " * 90
    for request in asked:
        loom.put(f"box-bank/shop/in/answers/{id_of(request)}", speaking)
    net.turn("bank", 0, absent=("EVIDENCE", "each turn ends with 11", "   "))
    loom.expect(words, 12, absent=("EVIDENCE", "   "))
    shutil.rmtree(loom.folder / "box-bank/shop/in/answers")
    net.turn("bank", 0)
    loom.expect(words, 12, "is asked for it by the next weft exchange", absent=("refused",))
    for request in asked:
        loom.put(f"box-bank/shop/in/answers/{id_of(request)}", b"refused NoThread\n")
    net.turn("bank", 0)
    for _ in range(2):
        net.carry("bank", "shop")
        net.turn("shop", 0)
        net.carry("shop", "bank")
        net.turn("bank", 0)
    loom.expect(words, 0, "shown")


def made_up_answers(room):
    """whoever carries files, and has no key, answers what was asked by proofs of a made-up history: weft chain refuses what it joined, and asks again, and
    once the peer's own come it is done"""
    net, words = chain_to_ask(room)
    loom = net.loom
    loom.service("shop", *[[b"sold"]] * (net.last("shop") + 1), folder="forged")
    for _ in range(3):
        for request in loom.read("box-bank/shop/kept/asked").decode().splitlines():
            loom.put(f"box-bank/shop/in/answers/{id_of(request)}", loom.timeweave("prove", "forged", *request.split()))
        net.turn("bank", 0)
        done = loom.run(*words.split())
        if done.status == 1:
            break
    if "The answers of shop, which nobody signs, are asked for again" not in done.err:
        raise Wrong(f"  {done}")
    for _ in range(3):
        net.carry("bank", "shop")
        net.turn("shop", 0)
        net.carry("shop", "bank")
        net.turn("bank", 0)
        done = loom.run(*words.split())
    if done.status:
        raise Wrong(f"  {done}")


def chain_and_turn(room):
    """weft chain notes what it asks for under the lock of the box, as a turn does: while another run has it, it waits, and ends with 15"""
    net, words = chain_to_ask(room)
    loom = net.loom
    (loom.folder / "box-bank/shop/kept/asked").unlink()

    def at_once():
        from weft.words import chain

        chain.WAIT = 0

    with open(loom.folder / "box-bank/.lock", "w") as file:
        fcntl.flock(file, fcntl.LOCK_EX)
        loom.expect(words, 15, "another run of weft is at work", patch=at_once)
        if (loom.folder / "box-bank/shop/kept/asked").exists():
            raise Wrong("  it wrote without the lock")
    loom.expect(words, 12, "is asked", patch=at_once)


def cases():
    works = (
        two_handed_on, joined_and_other, seen_held_back, seen_in_its_place, without_public_half, unreadable_in, of_another_user, cut_off, quiet_days,
        even_and_odd, without_links, a_line_that_was_lost, many_peers, made_up_receipts, put_back, look, a_copied_box, clock_set, clock_ahead,
        other_rights, box_of_another, no_peers_folders, made_up_names, named_too_soon, accepted_name, seen_by_a_turn, seen_for_a_turn,
        told_by_a_receipt, made_up_receipt, made_up_refusals, made_up_answers, chain_and_turn,
    )  # fmt: skip
    return [case(work, "weft peers") for work in works]
