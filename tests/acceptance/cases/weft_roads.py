"""Acceptance cases of `weft publish` and `weft fetch`: what a service puts out as a folder for any web server, what comes from one, honest or hostile, and one command
a night."""

import os
import re
import resource
import shutil
import signal
import socket
import ssl
import subprocess
import time
from pathlib import Path

from cases.weft_exchange import Net, received
from cases.weft_parts import small_parts
from harness.rooms import Wrong, case, needs
from harness.weft_room import SHARE, copied, each_fault, reseal
from network.web import KINDS, Web
from weft.deciding.roads import Index, Listed, read_index, read_lines

# A hostile server costs so many seconds, and no run takes so many.
SECONDS, MOST_SECONDS = 4, 60
# So many bytes more than before a run of weft has at most.
MOST_MEMORY = 64 << 20
PRIVATE = (b"PRIVATE KEY", b"TWSTORE1")


class Roads(Net):
    """Services whose files go over the web alone: each publishes, and fetches from where its peers do."""

    def __init__(self, room, peers, **more):
        super().__init__(room, peers, **more)
        self.web = Web(self.loom.folder / "web")
        for name in peers:
            (self.loom.folder / f"web/{name}").mkdir()
            self.configure(name)

    def configure(self, name, *lines, openly=True):
        """Writes the settings of a service's box: these lines, and those that each has where none of these is in its place."""
        own = [f"key = ../{name}.key", f"publish = ../web/{name}", *(["open = *"] if openly else []), "seconds = 30"]
        own += [f"url {other} = {self.web.address(f'{other}/peers/{name}')}" for other in self.peers[name]]
        given = {line.partition(" =")[0] for line in lines}
        self.loom.put(f"box-{name}/box.conf", "".join(f"{line}\n" for line in [*(it for it in own if it.partition(" =")[0] not in given), *lines]))

    def carry(self, sender, receiver):
        """What a service put out is fetched by its peer."""
        self.fetch(receiver, sender)

    def fetch(self, name, other, status=0, *texts, **more):
        """Fetches by hand."""
        return self.loom.expect(f"fetch {self.web.address(f'{other}/peers/{name}')} box-{name}/{other}", status, *texts, **more)


def roads(room, names=("shop", "bank"), accept=True, **more):
    """Services that know one another, over the web alone; and the server, which ends with the case."""
    net = Roads(room, {name: [it for it in names if it != name] for name in names}, **more)
    try:
        if accept:
            for name in names:
                net.loom.run("exchange", name, f"box-{name}")
            net.carry_all()
            net.accept_all()
            for _ in range(2):
                for name in names:
                    net.turn(name, 0)
    except BaseException:
        net.web.close()
        raise
    return net


def over_the_web(room, work):
    """Does the work over services that know one another, and ends the server."""
    net = roads(room)
    try:
        work(net)
    finally:
        net.web.close()


def one_command(room):
    """two services whose files go over the web alone: `weft exchange` fetches, takes its turn and publishes; each step is recorded by the next night, what is the same
    isn't fetched again, an answer to a request comes, and a night asks a bounded number of times"""

    def work(net):
        loom = net.loom
        for night in range(3):
            loom.append("shop", b"night %d" % night)
            net.web.take_asked()
            net.turn("shop", 0)
            net.turn("bank", 0, "shop: its step", "is recorded")
            if not 2 <= len(net.web.take_asked()) <= 30:
                raise Wrong("  too many were asked")
        for name in net.peers:
            threads = received(loom, name)
            if len(set(threads)) != len(threads) or len(threads) < 3:
                raise Wrong(f"  {name} received {threads}")
        net.turn("shop", 0)
        net.web.take_asked()
        net.fetch("shop", "bank")
        net.web.take_asked()
        net.fetch("shop", "bank", 0, "0 files came")
        if net.web.take_asked() != ["/bank/peers/shop/index"]:
            raise Wrong("  what is the same was fetched again")
        loom.put("box-bank/shop/events", "* *\n")
        sent = loom.append("bank", b"sent").split()[1]
        for name in ("bank", "shop"):
            net.turn(name, 0)
        words = f"chain bank:{sent}:0 shop:{loom.append('shop', b'after').split()[1]}:0 --store shop --box box-shop --out chain"
        for _ in range(4):
            if loom.run(*words.split()).status == 0:
                return
            for name in ("shop", "bank", "shop"):
                net.turn(name, 0)
        loom.expect(words, 0)

    over_the_web(room, work)


def settings(room):
    """what stands in box.conf of the web is read, and a line that isn't understood is refused, an address by http:// to another machine too"""
    net = Net(room, {"shop": ["bank"], "bank": ["shop"]})
    bad = ("url bank = http://bank.example/", "url bank = bank.example", "url = https://a/", "url Bank = https://a/", "url bank = https://u@a/", "seconds = 0", "open = A", "publish =")
    for line in bad:
        net.loom.put("box-shop/box.conf", f"key = ../shop.key\n{line}\n")
        net.turn("shop", 9, "line 2 of box-shop/box.conf is no setting", "url PEER = https://HOST/PATH/")
    for first, second in (("seconds = 9", "seconds = 9"), ("url bank = https://a/", "url  bank = https://b/"), ("open = bank", "open = port")):
        net.loom.put("box-shop/box.conf", f"key = ../shop.key\n{first}\n# x\n{second}\n")
        net.turn("shop", 9, "lines 2 and 4 of box-shop/box.conf both set", "Keep the one that is meant")
    net.loom.put("box-shop/box.conf", "key = ../shop.key\nopen = bank, port\nseconds = 9\npublish = www\n")
    net.turn("shop", 5, "box-shop/www is no folder", "in box.conf the folder to publish into")
    for url, told in (("http://bank.example/x", "whoever is between reads"), ("bank", "no address like https://"), ("https://a/?x", "no address like")):
        net.loom.expect(["fetch", url, "box-shop/bank"], 2, told)
    net.loom.expect("fetch https://bank.example/ box-shop/none", 5, "is no folder")
    net.loom.expect("fetch https://bank.example/ box-shop", 2, "no peer's folder of a box")
    net.loom.put("box-shop/box.conf", "key = ../shop.key\nurl port = https://127.0.0.1:1/\nurl bank = https://127.0.0.1:1/\nseconds = 5\n")
    net.turn("shop", 10, "the box no folder port", "bank: nothing was fetched of 127.0.0.1: its index didn't come: Connection refused")


def hostile_servers(room):
    """of a server that answers without an end, slowly, never, with other bytes, cut short or packed, or sends elsewhere or round and round, nothing is taken that isn't as
    it is listed, nothing is followed to another host; it is told, counts, and ends by the caps of time, bytes and memory; the turn goes on, and accuses nobody"""

    def work(net):
        loom = net.loom
        for way in KINDS:
            loom.append("bank", way.encode())
            net.turn("bank", 0)
            before, last = inside(loom, "box-shop/bank/in"), net.last("shop")
            net.configure("shop", f"seconds = {SECONDS}")
            net.web.be_hostile({"bank/": way})
            net.web.take_asked()
            began = time.monotonic()
            done = net.turn("shop", 10, "bank: ", "127.0.0.1", absent=("EVIDENCE", "another authenticator"), patch=limited)
            taken = time.monotonic() - began
            if taken > MOST_SECONDS:
                raise Wrong(f"  {way}: {taken:.0f} seconds")
            if way != "wrong" and "nothing was fetched of 127.0.0.1: " not in done.out or way == "wrong" and "of 127.0.0.1 came 0 of" not in done.out:
                raise Wrong(f"  {way}: {done.out}")
            asked = net.web.take_asked()
            if any(it.startswith("/elsewhere") for it in asked) or len(asked) > 80:
                raise Wrong(f"  {way}: {asked}")
            if inside(loom, "box-shop/bank/in") != before or net.last("shop") != last:
                raise Wrong(f"  {way}: something was taken")
            net.web.be_hostile({})
            net.configure("shop")
            net.turn("shop", 0, "is recorded")

    over_the_web(room, work)


def limited():
    """Lets this process have little more memory than it has."""
    used = int(Path("/proc/self/statm").read_text().split()[0]) * os.sysconf("SC_PAGESIZE")
    # (each thread that fetches has a stack of its own, which is reserved and not used)
    most = used + MOST_MEMORY + 17 * (8 << 20) + (64 << 20)
    resource.setrlimit(resource.RLIMIT_AS, (most, most))


def inside(loom, folder):
    """The files below a folder, with their bytes."""
    place = loom.folder / folder
    return {str(path.relative_to(place)): path.read_bytes() for path in sorted(place.rglob("*")) if path.is_file()}


def hostile_indexes(room):
    """an index that isn't whole, is another peer's, has too many rows, climbs out of the folder or lists what no service puts out: nothing of it is taken but what a turn
    may take; a flood of files and of bytes is told, and hides neither line nor message; an answer that wasn't asked for isn't fetched"""

    def work(net):
        loom = net.loom
        net.configure("shop", "files = 6", "bytes = 100000")
        place = loom.folder / "web/bank/peers/shop"
        whole = read_index((place / "index").read_bytes())
        before = inside(loom, ".")
        bad = {
            b"": "isn't whole", (place / "index").read_bytes()[:-5]: "isn't whole", b"<html>": "isn't whole", Index("bank", "port", whole.files).data: "it is for another peer",
            Index("port", "shop", whole.files).data: "it is of another service", b"x" * 200_000: "at most 131,072 are read",
            Index("bank", "shop", (Listed("../../../shop.key", 1, "a" * 64),)).data: "isn't whole",
            Index("bank", "shop", (Listed("/etc/passwd", 1, "a" * 64),)).data: "isn't whole",
            Index("bank", "shop", tuple(Listed(f"answers/{number:016x}", 1, "a" * 64) for number in range(1_001))).data: "isn't whole",
        }  # fmt: skip
        for data, told in bad.items():
            loom.put("web/bank/peers/shop/index", data)
            net.fetch("shop", "bank", 10, "nothing was fetched of 127.0.0.1", told)
        if {name: data for name, data in inside(loom, ".").items() if not name.startswith("web/")} != {name: data for name, data in before.items() if not name.startswith("web/")}:
            raise Wrong("  something was taken")
        large = Listed("seen", 1 << 30, "b" * 64)
        answers = [Listed(f"answers/{number:016x}", 3, "c" * 64) for number in range(300)]
        parts = [Listed(f"bank-{number}/line", 3, "d" * 64) for number in range(200, 260)]
        net.web.take_asked()
        loom.append("bank", b"flooded")
        net.turn("bank", 0)
        whole = read_index((place / "index").read_bytes())
        flooded = [*(it for it in whole.files if it.name != "seen"), large, *answers, *parts, Listed("box-conf", 3, "e" * 64)]
        loom.put("web/bank/peers/shop/index", Index("bank", "shop", tuple(sorted(flooded))).data)
        net.web.take_asked()
        net.turn("shop", 10, "bank: its share of tonight is used up", "seen with 1,073,741,824 bytes", "61 names that no service puts out", "bank: its step", "is recorded")
        if len(net.web.take_asked()) > 8 or any("000" in name for name in inside(loom, "box-shop/bank/in")):
            raise Wrong("  the flood was fetched")

    over_the_web(room, work)


def hindered(room):
    """what can't be put down, since a link, a file or a folder has its place, is told and counts, and nothing is written through it; the next night all comes"""

    def work(net):
        loom = net.loom
        loom.append("bank", b"more")
        net.turn("bank", 0)
        into = loom.folder / "box-shop/bank/in"
        shutil.move(into, loom.folder / "tmp/in")
        (loom.folder / "tmp/other").mkdir()
        into.symlink_to(loom.folder / "tmp/other")
        net.fetch("shop", "bank", 10, "line wasn't put down", "no link is followed there")
        if list((loom.folder / "tmp/other").iterdir()):
            raise Wrong("  it was written through a link")
        into.unlink()
        shutil.move(loom.folder / "tmp/in", into)
        (into / "line").unlink()
        (into / "line").symlink_to(loom.folder / "tmp/written")
        (into / "message").unlink()
        (into / "message").mkdir()
        net.fetch("shop", "bank", 10, "message wasn't put down", "is a folder, and isn't written over")
        if (into / "line").is_symlink() or (loom.folder / "tmp/written").exists():
            raise Wrong("  a link was followed")
        (into / "message").rmdir()
        net.turn("shop", 0, "is recorded")

    over_the_web(room, work)


def old_files(room):
    """a server that hands out the files of an earlier night, once or for good, delays, and has nobody accused; after three nights the peer's silence is told"""

    def work(net):
        loom = net.loom
        kept = loom.folder / "tmp/old"
        shutil.copytree(loom.folder / "web/bank/peers/shop", kept)
        for night in range(2):
            loom.append("bank", b"night %d" % night)
            net.turn("bank", 0)
            net.turn("shop", 0, "is recorded")
        shutil.move(loom.folder / "web/bank/peers/shop", loom.folder / "tmp/new")
        shutil.copytree(kept, loom.folder / "web/bank/peers/shop")
        for night in range(4):
            loom.append("shop", b"night %d" % night)
            done = loom.run("exchange", "shop", "box-shop")
            if done.status != (0 if night < 2 else 10) or "EVIDENCE" in done.out or night > 1 and "no new signed line of it came in" not in done.out:
                raise Wrong(f"  night {night}: {done}")
        shutil.rmtree(loom.folder / "web/bank/peers/shop")
        shutil.move(loom.folder / "tmp/new", loom.folder / "web/bank/peers/shop")
        loom.append("bank", b"again")
        net.turn("bank", 0)
        net.turn("shop", 0, "is recorded")

    over_the_web(room, work)


def other_files_for_others(room):
    """a service that publishes one history for one peer and another one for the other is found by what these hand on, over the web alone, and nobody else is accused"""
    net = roads(room, ("bank", "port", "shop"))
    try:
        loom = net.loom
        net.turn("bank", 0)
        shutil.copytree(loom.folder / "bank", loom.folder / "tmp/other/bank")
        for name in ("bank.lines", "bank.anchor", "bank.seal"):
            shutil.copy2(loom.folder / name, loom.folder / "tmp/other" / name)
        shutil.copytree(loom.folder / "box-bank", loom.folder / "tmp/other/box-bank")
        (loom.folder / "tmp/www").mkdir()
        reseal(loom.folder / "tmp/other")
        loom.put("tmp/other/box-bank/box.conf", f"key = {loom.folder}/bank.key\npublish = {loom.folder}/tmp/www\nopen = *\n")
        loom.append("bank", b"one")
        loom.append("tmp/other/bank", b"other")
        net.turn("bank", 0)
        loom.expect("exchange tmp/other/bank tmp/other/box-bank", 0)
        shutil.rmtree(loom.folder / "web/bank/peers/port")
        shutil.copytree(loom.folder / "tmp/www/peers/port", loom.folder / "web/bank/peers/port")
        told = ""
        for _ in range(4):
            for name in ("shop", "port"):
                done = loom.run("exchange", name, f"box-{name}")
                told += done.out
                if any("EVIDENCE" in line and not line.startswith("bank: ") for line in done.out.splitlines()):
                    raise Wrong(f"  {done}")
        if "bank: EVIDENCE" not in told:
            raise Wrong(f"  it wasn't found: {told}")
    finally:
        net.web.close()


def by_tls(room):
    """by https a certificate that no authority of this machine signed isn't taken, nor one of another host; one that is good is"""
    needs("openssl", "openssl")
    net = roads(room)
    try:
        loom = net.loom
        words = ["openssl", "req", "-x509", "-newkey", "rsa:2048", "-nodes", "-keyout", "key.pem", "-out", "cert.pem", "-days", "2", "-subj", "/CN=localhost"]
        subprocess.run([*words, "-addext", "subjectAltName=DNS:localhost"], cwd=loom.folder, capture_output=True, check=True)
        port, child = tls_before(net.web.port, loom.folder)
        try:
            place = f"{port}/bank/peers/shop/ box-shop/bank"
            loom.append("bank", b"by tls")
            net.turn("bank", 0)
            loom.expect(f"fetch https://localhost:{place}", 10, "nothing was fetched of localhost", "its certificate isn't good")
            loom.expect(f"fetch https://127.0.0.1:{place}", 10, "its certificate isn't good", SSL_CERT_FILE=loom.folder / "cert.pem")
            loom.expect(f"fetch http://127.0.0.1:{place}", 10, "nothing was fetched")
            loom.expect(f"fetch https://localhost:{place}", 0, "files came", SSL_CERT_FILE=loom.folder / "cert.pem")
        finally:
            os.kill(child, signal.SIGKILL)
            os.waitpid(child, 0)
    finally:
        net.web.close()


def tls_before(port, folder):
    """A process that speaks TLS and hands on to the server of this port, one asker at a time; its port and number."""
    context = ssl.SSLContext(ssl.PROTOCOL_TLS_SERVER)
    context.load_cert_chain(folder / "cert.pem", folder / "key.pem")
    listening = socket.create_server(("127.0.0.1", 0))
    child = os.fork()
    if child:
        found = listening.getsockname()[1]
        listening.close()
        return found, child
    while True:
        try:
            with context.wrap_socket(listening.accept()[0], server_side=True) as near, socket.create_connection(("127.0.0.1", port)) as far:
                near.settimeout(20)
                while data := near.recv(65_536):
                    far.sendall(data)
                    head = b""
                    while b"\r\n\r\n" not in head:
                        head += far.recv(65_536)
                    size = int(re.search(rb"Content-Length: (\d+)", head)[1])
                    while len(head.split(b"\r\n\r\n", 1)[1]) < size:
                        head += far.recv(65_536)
                    near.sendall(head)
        except OSError:
            continue


# ---- what is published


def layout(room):
    """a published folder has each signed line for good, with an index, a folder for each peer whose name can't be guessed unless it is open, and a page without a script;
    nothing of a store, a key or the box stands there; what changed alone is written, and may be read as the folder may; that a peer's address is another one, or that nothing is
    there any more, as where two boxes publish into one folder, is told"""

    def work(net):
        loom, out = net.loom, net.loom.folder / "web/shop"
        net.configure("shop", openly=False)
        os.chmod(out, 0o755)
        net.turn("shop", 0)
        place = loom.read("box-shop/bank/kept/place").decode().strip()
        done = loom.expect("publish box-shop web/shop", 0, "web/shop has all already", f"bank: peers/{place}/ below your address: tell that to nobody else")
        if not re.fullmatch("[0-9a-f]{32}", place) or {it.name for it in (out / "peers").iterdir()} != {place, "index.html"} or "open" in done.out:
            raise Wrong(f"  {place}: {sorted(out.rglob('*'))}")
        lines = read_lines((out / "lines/index").read_bytes()).lines
        if [line.step for line in lines] != sorted({line.step for line in lines}) or len(lines) < 3:
            raise Wrong(f"  {lines}")
        for line in lines:
            loom.expect(f"keep --signer shop shop.key.pub web/shop/lines/shop-{line.step}.line", 0)
        page = (out / "index.html").read_text()
        if "<script" in page or "bank" in page or lines[-1].text not in page or "http" in page.replace("http-equiv", ""):
            raise Wrong(f"  {page}")
        for path in out.rglob("*"):
            if path.stat().st_mode & 0o777 not in ((0o755, 0o700) if path.is_dir() else (0o644, 0o600)) or path.is_file() and any(it in path.read_bytes() for it in PRIVATE):
                raise Wrong(f"  {path} {oct(path.stat().st_mode)}")
        if path_modes(out / "peers" / place) != 0o755:
            raise Wrong("  a folder can't be read as the published one can")
        (loom.folder / "box-shop/bank/kept/place").unlink()
        net.turn("shop", 10, f"bank asked at box-shop/../web/shop/peers/{place}/, and has ", "tell it that new address, by a way of your own")
        net.turn("shop", 0, absent=("asked at",))
        place = loom.read("box-shop/bank/kept/place").decode().strip()
        loom.put("box-two/box.conf", "key = ../shop.key\npublish = ../web/shop\n")
        loom.expect("exchange shop box-two", 10, f"peers/{place}/ is taken away: bank is no peer of box-two", "let each have a folder of its own")
        shutil.rmtree(loom.folder / "box-two")
        net.turn("shop", 0)
        net.configure("shop")
        moved = {path: path.stat().st_ino for path in (out / "lines").iterdir()}
        loom.expect("publish box-shop web/shop", 0, "bank: open, peers/bank/")
        if (out / "peers" / place).exists() or {path: path.stat().st_ino for path in (out / "lines").iterdir()} != moved:
            raise Wrong("  the old folder stands there, or what is the same was written anew")
        if "bank, at its step" not in (out / "index.html").read_text():
            raise Wrong("  who received the line isn't told")

    over_the_web(room, work)


def kept_of_a_part(room):
    """where the user keeps a line of a peer's next part, of a step of which what came shows nothing, the link that joins it is asked for and fetched over the web too, and
    then the part is taken"""

    def work(net):
        loom = net.loom
        net.turn("shop", 0, " goes on as ", patch=small_parts(1))
        lines = [loom.append("shop/part-2", b"%d" % number).strip() for number in range(9)]
        net.turn("shop", 0)
        back, kept = copied(loom), loom.folder / "tmp/kept"

        def is_unseen(line):
            back()
            kept.write_text(f"{line} 2026-11-29T09:40:00Z by letter from shop-2\n")
            return "no link has shown yet" in loom.run("exchange", "bank", "box-bank", WEFT_KEPT=kept).out

        next(line for line in lines if is_unseen(line))
        for _ in range(3):
            loom.run("exchange", "shop", "box-shop")
            done = loom.run("exchange", "bank", "box-bank", WEFT_KEPT=kept)
            if "both proved" in done.out:
                return
        raise Wrong(f"  the part wasn't taken: {done}")

    over_the_web(room, work)


def path_modes(path):
    """The mode of a file or folder."""
    return path.stat().st_mode & 0o777


def not_published(room):
    """nothing is published into another service's folder, one with somebody else's files, or one that holds the box, its key or the store, or lies in them; nor where a later
    line, or another one of a step, was published, whichever key of the service signed it; what was taken away of lines, or put there, is told, and they are put back"""

    def work(net):
        loom = net.loom
        loom.expect("publish box-shop web/bank", 2, 'has what "bank" publishes', "nothing was published")
        loom.put("site/index.html", "mine")
        loom.expect("publish box-shop site", 2, "has files, and none of shop", "Name an empty folder")
        (loom.folder / "box-shop/www").mkdir()
        for out in (".", "box-shop", "box-shop/www"):
            loom.expect(f"publish box-shop {out}", 2, "lie one in the other")
        (loom.folder / "box-shop/www").rmdir()
        (loom.folder / "shop/www").mkdir()
        net.configure("shop", "publish = ../shop/www")
        net.turn("shop", 2, "lie one in the other")
        (loom.folder / "shop/www").rmdir()
        loom.expect("publish box-shop nowhere", 5, "is no folder")
        net.configure("shop")
        back = copied(loom)
        loom.append("shop", b"later")
        net.turn("shop", 0)
        shutil.copytree(loom.folder / "web/shop", loom.folder / "tmp/published")
        back()
        shutil.rmtree(loom.folder / "web/shop")
        shutil.copytree(loom.folder / "tmp/published", loom.folder / "web/shop")
        before = inside(loom, "web/shop")
        told = ("was published", "lacks it", "Nothing was published", "Was an old box or store put back?")
        loom.expect("publish box-shop web/shop", 17, *told)
        loom.key("new")
        net.configure("shop", "key = ../new.key")
        loom.expect("publish box-shop web/shop", 17, *told)
        net.configure("shop")
        loom.append("shop", b"another")
        store = loom.read("shop/timeline.tw")
        loom.expect("exchange shop box-shop --despite bank", 17, "signed by its key, and published in box-shop/../web/shop", "No step was made")
        if loom.read("shop/timeline.tw") != store:
            raise Wrong("  a step was made")
        if inside(loom, "web/shop") != before:
            raise Wrong("  something was published")
        back()
        loom.expect("publish box-shop web/shop", 0)
        true, lines = loom.read("web/shop/lines/index"), inside(loom, "web/shop/lines")
        for made_up in (true + f"shop 999 {'ab' * 32}\n".encode(), true.replace(true.splitlines(True)[1], b"")):
            loom.put("web/shop/lines/index", made_up)
            loom.expect("publish box-shop web/shop", 10, "web/shop/lines/index was changed, and is put back")
        (loom.folder / "web/shop/lines/shop-2.line").unlink()
        loom.put("web/shop/lines/shop-1.line", lines["shop-2.line"])
        loom.expect("publish box-shop web/shop", 10, "2 published lines in web/shop/lines were taken away or changed, and put back")
        shutil.rmtree(loom.folder / "web/shop/lines")
        loom.expect("publish box-shop web/shop", 10, "were taken away or changed, and put back")
        loom.key("thief")
        loom.put("forged", f"shop 99 {'ab' * 32}\n")
        loom.put("web/shop/lines/shop-99.line", loom.read("forged") + signature(loom, "thief", loom.read("forged")))
        loom.expect("publish box-shop web/shop", 10, "a line of step 99 of shop that no key of this service signed")
        (loom.folder / "web/shop/lines/shop-99.line").unlink()
        loom.put("web/shop/backup", "x")
        loom.expect("publish box-shop web/shop", 10, "backup in web/shop wasn't published by weft")
        (loom.folder / "web/shop/backup").unlink()
        loom.expect("publish box-shop web/shop", 0, "has all already")
        if inside(loom, "web/shop/lines") != lines:
            raise Wrong("  the lines aren't put back")
        net.configure("shop", "backup = ../web/shop/backup")
        loom.expect("publish box-shop web/shop", 2, "lie one in the other")
        (loom.folder / "shop/www").mkdir()
        loom.expect("publish box-shop shop/www", 2, "lie one in the other")

    over_the_web(room, work)


def backed_up_first(room):
    """where box.conf names a backup, it is made before anything is published: what can't be backed up isn't published, and the turn stands; the backup has the line that
    went out"""

    def work(net):
        loom = net.loom
        net.configure("shop", "backup = ../tmp/none/backup")
        before = inside(loom, "web/shop")
        loom.append("shop", b"more")
        last = net.last("shop")
        net.turn("shop", 5, "tmp/none/backup can't be written")
        if net.last("shop") < last or inside(loom, "web/shop") != before:
            raise Wrong("  something was published, or the turn doesn't stand")
        net.configure("shop", "backup = ../tmp/backup")
        net.turn("shop", 0)
        lines = read_lines(loom.read("web/shop/lines/index")).lines
        if lines[-1].step != net.last("shop"):
            raise Wrong(f"  {lines[-1]}")
        loom.expect("restore tmp/backup tmp/again tmp/box", 10, f"put back up to step {lines[-1].step}")

    over_the_web(room, work)


def signature(loom, key, text):
    """The signature of a line's text by a key."""
    words = ["ssh-keygen", "-Y", "sign", "-q", "-n", "timeweave-line", "-f", loom.folder / f"{key}.key"]
    return subprocess.run(words, input=text, capture_output=True, check=True).stdout


def consistent(loom):
    """Each index that stands in the published folder is whole, and what it lists is there."""
    for path in (loom.folder / "web/shop/peers").glob("*/index"):
        index = read_index(path.read_bytes())
        if index is None or any(not (path.parent / it.digest).exists() or len((path.parent / it.digest).read_bytes()) != it.size for it in index.files):
            return False
    lines = loom.folder / "web/shop/lines/index"
    listed = read_lines(lines.read_bytes()) if lines.exists() else ()
    return listed is not None and all((lines.parent / f"{it.service}-{it.step}.line").exists() for it in (listed.lines if listed else ()))


def stopped(room):
    """`weft publish` and `weft fetch` are killed, or fail, at each of their writes: what is published is whole at each moment, what was fetched is whole or what it was, and
    the next run makes all good"""

    def work(net):
        loom = net.loom
        loom.append("shop", b"more")
        net.configure("shop", "publish = ../tmp/none")
        loom.run("exchange", "shop", "box-shop")
        net.configure("shop")
        whole = {}

        def published(told):
            if not consistent(loom):
                raise Wrong(f"{told}\n  it isn't whole")
            loom.expect("publish box-shop web/shop", 0)
            found = {name: data for name, data in inside(loom, "web/shop").items() if not name.endswith(".new")}
            indexes = {name: data for name, data in found.items() if name.endswith(("index", ".html", ".line"))}
            if whole.setdefault("published", indexes) != indexes or not consistent(loom):
                raise Wrong(f"{told}\n  {sorted(found)}")

        if each_fault(loom, ["publish", "box-shop", "web/shop"], published, ("before", "ENOSPC")) < 20 // SHARE:
            raise Wrong("  too few calls")
        loom.expect("publish box-shop web/shop", 0)
        old, words = inside(loom, "box-bank/shop/in"), f"fetch {net.web.address('shop/peers/bank')} box-bank/shop"

        def fetched(told):
            found = {name: data for name, data in inside(loom, "box-bank/shop/in").items() if not name.endswith(".new")}
            loom.expect(words, 0)
            new = {name: data for name, data in inside(loom, "box-bank/shop/in").items() if not name.endswith(".new")}
            if any(data not in (old.get(name), new[name]) for name, data in found.items()) or whole.setdefault("fetched", new) != new:
                raise Wrong(f"{told}\n  a file isn't whole")

        if each_fault(loom, words.split(), fetched, ("before", "ENOSPC")) < 8 // SHARE:
            raise Wrong("  too few calls")

    over_the_web(room, work)


def after_a_restore(room):
    """a peer's word that came again as it was has come, as by any carrier: so that nobody has to empty a folder after a restore"""

    def work(net):
        loom = net.loom
        net.fetch("shop", "bank")
        word = loom.folder / "box-shop/bank/in/yours"
        before = word.stat().st_ctime_ns
        net.fetch("shop", "bank", 0, "0 files came")
        if word.stat().st_ctime_ns <= before:
            raise Wrong("  the word didn't come anew")

    over_the_web(room, work)


def cases():
    works = (
        one_command, settings, hostile_servers, hostile_indexes, hindered, old_files, other_files_for_others, by_tls, layout, not_published, backed_up_first, stopped,
        after_a_restore, kept_of_a_part,
    )  # fmt: skip
    return [case(work, "weft roads") for work in works]
