"""Acceptance cases of what docs/operating.md says of users who are hurried or lied to: a made-up message takes a name, one service alone can make
evidence and have a history taken over, a service that breaks the rules proves both a thread and its absence, a service goes on under a new
name; and the commands that it gives do what it says."""

import functools
import re
import shutil
import subprocess
import sys
from typing import List

from example_files import high_of, low_of

from cases.shown import verdicts
from harness.examples import linked, with_program
from harness.making import absent_proof, link_proof, message_bytes, proof_bytes, thread_proof
from harness.places import LONGEST, TOP
from harness.rooms import SKIPPED, Room, Wrong, case, needs
from timeweave_reference.archives import EMPTY, listed
from timeweave_reference.events_files import events_to_bytes
from timeweave_reference.histories import Step
from timeweave_reference.messages import read_message
from timeweave_reference.recording import History
from timeweave_reference.timelines import Timeline


def line_of(history: History) -> str:
    """The line of a history's last step."""
    line = history.line()
    return f"{line.name} {len(line.steps)} {line.auths[-1].hex()}\n"


def expect_told(room: Room, words: str, status: int, text: str) -> bytes:
    """The program ends with this status, and its output begins with this text; answers the output."""
    found = room.run(*words.split())
    if found[0] != status or not found[1].startswith(text.encode()):
        raise Wrong(f"  timeweave {words}\n  wanted {status} {text!r}\n  got    {found}")
    return found[1]


def refused_after(room: Room, forged: bytes, true: bytes, refusal: str) -> None:
    """Behind a made-up message of `bank` the true service's is refused so, by a follower and by a receiver; in another folder it is taken."""
    room.put("forged", forged)
    room.put("true", true)
    for folder in ("seen", "shop", "again"):
        (room.folder / folder).mkdir()
    for words in ("watch seen bank", "init shop shop", "watch again bank", "offer seen forged", "receive shop forged", "offer again true"):
        expect_told(room, words, 0, "")
    expect_told(room, "offer seen true", 7, refusal)
    expect_told(room, "receive shop true", 7, refusal)


def made_up_message(room: Room) -> None:
    """a made-up message stops a follower and a receiver for its service's name: BadLink; the true one is taken in another folder, and under another name"""
    true, false = Timeline("bank", [[b"a"]] * 2), Timeline("bank", [[b"b"]])
    kept = false.auths[1].hex()
    refused_after(room, message_bytes(false, 1, 0), message_bytes(true, 2, 0), f"refused BadLink 1 {kept}\n")
    room.put("true", message_bytes(true, 2, 1))
    expect_told(room, "offer seen true", 7, f"refused BadLink 1 {kept}\n")
    expect_told(room, "receive shop true", 7, f"refused BadLink 1 {kept}\n")
    # The service's link tells its own authenticator of step 1, which isn't the one that is kept.
    room.put("link", link_proof(true, 1, 2))
    expect_told(room, f"verify link bank 2 {true.auths[2].hex()}", 0, f"accepted link\nlink bank 1 2 {true.auths[1].hex()}\n")
    room.put("renamed", message_bytes(Timeline("bank-2", [[b"a"]]), 1, 0))
    expect_told(room, "receive shop renamed", 0, "TWR1")


def made_up_far_step(room: Room) -> None:
    """a made-up message of a far step makes the true service's messages stale"""
    true, false = Timeline("bank", [[b"a"]]), Timeline("bank", [[b"b"]] * 100)
    refused_after(room, message_bytes(false, 100, 0), message_bytes(true, 1, 0), "refused Stale 100\n")


def shell(room: Room, command: str, **words: str) -> str:
    """What a command of docs/operating.md answers in a shell: its output, its status and what it told on standard error. Such words stand in
    place of those of the document."""
    if command not in (TOP / "docs/operating.md").read_text():
        raise Wrong(f"  docs/operating.md hasn't the command\n  {command}")
    for word, other in words.items():
        command = command.replace(word, other)
    return shell_of(room, command)


def waiting(room: Room, name: str, peer: str) -> str:
    """The authenticator of the line that a peer's waiting message tells, as a person compares it."""
    return read_message((room.folder / f"box-{name}/{peer}/in/message").read_bytes()).authenticator.hex()


def shell_of(room: Room, command: str) -> str:
    """The same of any command."""
    done = subprocess.run(["bash", "-c", command], cwd=room.folder, env=with_program(room.program), capture_output=True, text=True, timeout=LONGEST)
    return f"{done.stdout}{done.returncode} {done.stderr}"


def expect_shell(room: Room, command: str, wanted: str, **words: str) -> None:
    """The command of docs/operating.md answers this."""
    found = shell(room, command, **words)
    if found != wanted:
        raise Wrong(f"  {command}\n  wanted {wanted!r}\n  got    {found!r}")


def another_old_head(room: Room) -> None:
    """a follower tells another authenticator of an older head as stale, and its heads have the line to compare with the message's; of a service it is a fork"""
    linked(room)
    true, false = Timeline("bank", [[b"a"]] * 2), Timeline("bank", [[b"b"]])
    for folder in ("seen", "shop"):
        (room.folder / folder).mkdir()
    room.put("first", message_bytes(true, 1, 0))
    room.put("second", message_bytes(true, 2, 1))
    room.put("message", message_bytes(false, 1, 0))
    for words in ("watch seen bank", "init shop shop", "offer seen first", "offer seen second", "receive shop first", "receive shop second"):
        expect_told(room, words, 0, "")
    expect_told(room, "offer seen message", 7, "refused Stale 2\n")
    expect_told(room, "receive shop message", 7, f"refused Forked 1 {true.auths[1].hex()} {false.auths[1].hex()}\n")
    expect_told(room, "heads seen", 0, f"bank 1 {true.auths[1].hex()}\n")
    found = shell(room, "weft tell message")
    if f"line: bank 1 {false.auths[1].hex()}\n" not in found:
        raise Wrong(f"  weft tell message\n  got    {found!r}")


# What stands for the programs of a machine on which systemd runs: of `systemctl start` the night is made.
SYSTEM = {
    "systemd-sysusers": "exit 0", "setfacl": "exit 0", "runuser": 'shift 3; exec "$@"', "install": 'shift 5; mkdir -p "$@"',
    "systemctl": 'case $1 in start) exec "{night}" "{conf}";; esac',
}  # fmt: skip


def main_path(room: Room) -> None:
    """the main path is typed as it is written: settings, a night that logs and backs up, its state, and a restore that is tried; where systemd doesn't run, stand-ins
    take its programs' place"""
    linked(room)
    text = (TOP / "docs/operating.md").read_text()
    first, second = text.split("**As Debian runs a service.**")[1].split("**By cron**")[0], text.split("**Try it once a year**")[1].split("\n\n")[1]
    places = {"/srv": f"{room.folder}/srv", "/var/lib/timeweave": f"{room.folder}/var", "/backup": f"{room.folder}/backup", "/tmp": f"{room.folder}/tmp"}

    def placed(line: str) -> str:
        return re.sub("(?<![A-Za-z])(" + "|".join(places) + ")(?=/| |$)", lambda found: places[found[1]], line.strip(), flags=re.M)

    lines = [placed(line) for line in first.splitlines() if line.startswith("    ")]
    for folder in ("bin", "srv/data", "var", "tmp"):
        (room.folder / folder).mkdir(parents=True, exist_ok=True)
    for name, script in SYSTEM.items():
        room.put(f"bin/{name}", f"#!/bin/sh\n{script.format(night=TOP / 'weft/service/night', conf=room.folder / 'conf')}\n".encode())
        (room.folder / f"bin/{name}").chmod(0o755)
    SKIPPED.append(f"operated: {', '.join(SYSTEM)} aren't run: stand-ins take their place, since systemd doesn't run here")
    room.put("srv/data/paid.csv", b"1\n")
    path = f"export HOME={room.folder}/var PATH={room.folder}/bin:$PATH; "
    room.put("conf", "".join(f"{line}\n" for line in lines if re.match("[A-Z]+=", line)).encode())
    typed = [shell_of(room, path + line) for line in lines if not re.match("[A-Z]+=", line)]
    if not all(found.split("\n")[-1] == "0 " for found in typed):
        raise Wrong(f"  {typed}")
    if "data: step 2, of" not in typed[-1] or "backup: up to step 2 of data" not in typed[-1] or len(typed) != 7:
        raise Wrong(f"  {typed}")
    drill = shell_of(room, path + placed(second))
    if "data is put back up to step 2" not in drill or "2 of 2 steps good" not in drill or "\n10 " not in drill:
        raise Wrong(f"  {drill}")


def looked_at(room: Room) -> None:
    """the size of a history's file is told; where export fails the file of before stays, and the status is its own"""
    linked(room)
    command = "timeweave export /srv/shop > new && mv new shop.history && wc -c < shop.history"
    (room.folder / "store").mkdir()
    expect_told(room, "init store shop", 0, "shop 0 ")
    room.put("e", events_to_bytes([b"x"]))
    expect_told(room, "append store e", 0, "shop 1 ")
    history = expect_told(room, "export store", 0, "TWH1")
    expect_shell(room, command, f"{len(history)}\n0 ", **{"/srv/shop": "store"})
    expect_shell(room, command, "5 ", **{"/srv/shop": "nowhere"})
    if (room.folder / "shop.history").read_bytes() != history or (room.folder / "new").read_text() != "fault disk\n":
        raise Wrong("  a failed export took the file of before")


def fooled_receiver(room: Room) -> None:
    """a service that took a made-up message receives the true peer by another service of its own, and a chain goes over one hop more"""
    for name in ("shop", "shop-b", "bank"):
        (room.folder / name).mkdir()
        expect_told(room, f"init {name} {name}", 0, f"{name} 0 ")
    room.put("e", events_to_bytes([b"x"]))
    room.put("m", message_bytes(Timeline("bank", [[b"made up"]]), 1, 0))
    for words in ("receive shop m", "append bank e", "append bank e"):
        expect_told(room, words, 0, "")
    room.put("m", expect_told(room, "thread bank 0", 0, "TWT1"))
    expect_told(room, "receive shop m", 7, "refused BadLink 1 ")
    expect_told(room, "receive shop-b m", 0, "TWR1")
    room.put("m", expect_told(room, "thread shop-b 0", 0, "TWT1"))
    expect_told(room, "receive shop m", 0, "TWR1")
    room.put("lines", b"".join(expect_told(room, f"append {name} e", 0, f"{name} ") for name in ("shop", "shop-b", "bank")))
    for name, words in {
        "second": "shop event 3 0", "over": "shop thread 2 shop-b 1", "bind": "shop-b link 1", "hop": "shop-b thread 1 bank 2",
        "link": "bank link 2", "first": "bank event 1 0 2",
    }.items():
        room.put(name, expect_told(room, f"prove {words}", 0, "TWP1"))
    room.put("chain", expect_told(room, "join second over bind hop link first", 0, "TWP1"))
    expect_told(room, "strict chain lines", 0, "accepted precedes\n")


def one_accuser(room: Room) -> None:
    """one service that received two made-up threads makes evidence of a fork, which is accepted under its line alone"""
    first, second, eve = Timeline("bank", [[b"a"]]), Timeline("bank", [[b"b"]] * 2), History("eve")
    eve.receive("bank", 1, first.auths[1])
    eve.receive("bank", 2, second.auths[2])
    tree = eve.trees[2]
    for name, entry in zip(("first", "second"), listed(tree)):
        room.put(name, thread_proof(eve.line(), tree, 2, 2, entry))
    room.put("link", link_proof(second, 1, 2))
    room.put("evidence", expect_told(room, "accuse first second link", 0, ""))
    room.put("lines", line_of(eve).encode())
    texts = [f"{which} bank {step} {line.auths[step].hex()} eve {step}\n" for which, step, line in (("first", 1, first), ("second", 2, second))]
    expect_told(room, "checkfork evidence lines", 0, f"accepted fork\n{''.join(texts)}")
    # Its history is sound: an audit of the thread's proof stands.
    room.put("history", eve.to_bytes())
    expect_told(room, "audit second lines history", 0, "stands\n")


def one_receiver(room: Room) -> None:
    """a made-up history is taken over whole by the proof of one receiver; an honest one's proof is refused beside it, in each order, and alone"""
    linked(room)
    for folder, name in (("false", "bank"), ("eve", "eve")):
        (room.folder / folder).mkdir()
        expect_told(room, f"init {folder} {name}", 0, f"{name} 0 ")
    room.put("e", events_to_bytes([b"made up"]))
    found = expect_told(room, "append false e", 0, "bank 1 ").decode().split()[2]
    room.put("m", expect_told(room, "thread false 0", 0, ""))
    expect_told(room, "receive eve m", 0, "TWR1")
    room.put("lines", expect_told(room, "append eve e", 0, "eve 2 "))
    room.put("proof", expect_told(room, "prove eve thread 1 bank 1", 0, "TWP1"))
    room.put("history", expect_told(room, "export false", 0, "TWH1"))
    history = (room.folder / "history").read_bytes()
    room.expect("adopt history lines proof", 0, history)
    # Beside it the proof of an honest receiver, of the true history, is the one that is told, in each order; and each is tried alone.
    true, honest = Timeline("bank", [[b"true"]]), History("honest")
    honest.receive("bank", 1, true.auths[1])
    room.put("honest", thread_proof(honest.line(), honest.trees[1], 1, 1, listed(honest.trees[1])[0]))
    room.put("lines", (room.folder / "lines").read_bytes() + line_of(honest).encode())
    differs = f"1 {true.auths[1].hex()} {found}\n"
    expect_told(room, "adopt history lines honest proof", 1, f"rejected 14 Differs 1 {differs}")
    expect_told(room, "adopt history lines proof honest", 1, f"rejected 14 Differs 2 {differs}")
    alone = "for proof in first second third; do timeweave adopt lost.history lines $proof > kept.$proof && wc -c kept.$proof || cat kept.$proof; done"
    expect_shell(
        room, alone, f"{len(history)} kept.proof\nrejected 14 Differs 1 {differs}0 ", **{"first second third": "proof honest", "lost.history": "history"},
    )


def thread_left_out(room: Room) -> None:
    """a service that leaves a received thread out of its archive has the thread, its absence and a false map accepted under one line, and an audit tells it"""
    shop, notary = History("shop"), History("notary")
    for step in range(5):
        shop.append([b"%d" % step])
    notary.receive("shop", 5, shop.line().auths[5])
    notary.add(Step([]), EMPTY)
    line = notary.line()
    room.put("has", thread_proof(line, notary.trees[1], 1, 2, listed(notary.trees[1])[0]))
    room.put("has not", absent_proof(line, notary.trees[2], 2, 2, ("shop", 5)))
    room.put("low", low_of(shop, 5, "notary", 5))
    room.put("high", high_of(notary, 2, "shop", 5))
    room.put("lines", (line_of(shop) + line_of(notary)).encode())
    room.put("history", notary.to_bytes())
    room.expect("strict has lines", 0, f"accepted thread\nthread notary 1 shop 5 {shop.line().auths[5].hex()} 1\n".encode())
    found = room.run("strict", "has not", "lines")
    if found != (0, b"accepted absent\nabsent notary 2 shop 5\n", b""):
        raise Wrong(f"  timeweave strict 'has not' lines\n  got    {found}")
    room.expect("checkmap low high lines", 0, b"accepted map\nlow 0\nhigh none\nupto 2\n")
    room.expect("audit has lines history", 9, b"unsound history step 2 rule 3\n")


def goes_on(room: Room) -> None:
    """a service goes on under a new name, which its last step tells and whose first step received its last line, as the example shows it"""
    needs("perl", "perl-base")
    needs("cmp", "diffutils")
    verdicts(room, "goes_on.sh", ["accepted exists", "accepted thread", "accepted precedes", "stands"])


def woven_by_cron(room: Room) -> None:
    """three services in a row are woven by the document's lines for cron, and a chain over all three is made by what it says to type at the end"""
    needs("ssh-keygen", "openssh-client")
    linked(room)
    text = (TOP / "docs/operating.md").read_text().split("**Three services on one machine")[1].split("Between machines")[0]
    backup = room.folder.with_name(f"{room.folder.name}-backup")
    backup.mkdir()
    places = (("/backup/", f"{backup}/"), ("/srv", str(room.folder)))
    night = [functools.reduce(lambda words, place: words.replace(*place), places, line.split(None, 5)[5]) for line in text.splitlines() if line.startswith("    0 ")]
    first = "mkdir /srv/box-shop && echo 'key = /srv/shop.key' > /srv/box-shop/box.conf"
    key, peers = "ssh-keygen -t ed25519 -N '' -f /srv/shop.key", {"shop": ["bank"], "bank": ["shop", "port"], "port": ["bank"]}
    pairs = [(name, peer) for name, others in peers.items() for peer in others]
    for name in peers:
        (room.folder / f"files-{name}").mkdir()
        for command in (first, key):
            shell(room, command, **{"/srv": str(room.folder), "shop": name})
    for name, peer in pairs:
        words = {"/srv/box-shop": f"{room.folder}/box-{name}", "bank.key.pub": f"{room.folder}/PEER.key.pub", " bank ": f" {peer} ", "PEER": peer}
        shell(room, "weft accept /srv/box-shop bank --key bank.key.pub", **words)
    for number in range(6):
        for name in peers:
            (room.folder / f"files-{name}/of-{name}").write_text(f"{number}\n")
        for name, file in {0: [("shop", "sold")], 5: [("port", "sent")]}.get(number, []):
            (room.folder / f"files-{name}/{file}").write_text(f"{file}\n")
        for name in peers if number == 0 else ():
            shell(room, "weft log /srv/files-shop /srv/shop shop", **{"/srv": str(room.folder), "shop": name})
        found = [shell_of(room, command) for command in night]
        if number == 0:
            for name, peer in pairs:
                shell(room, "weft accept /srv/box-shop bank", **{"/srv/box-shop": f"{room.folder}/box-{name}", " bank": f" {peer} --yes {waiting(room, name, peer)}"})
        elif number > 2 and found != ["0 "] * 4:
            raise Wrong(f"  night {number}: {found}")
    shutil.rmtree(backup)
    typed = [shell_of(room, line.strip().replace("/srv", str(room.folder))) for line in text.splitlines() if line.startswith("    weft ")]
    wanted = ("bank received step", "port received step", "Every hop is bound by a line that you hold")
    if len(typed) != 2 or not all(words in typed[1] for words in wanted):
        raise Wrong(f"  no chain: {typed}")


def judge(room: Room, *words: str) -> "subprocess.CompletedProcess[bytes]":
    """What `judge` of the reference answers of these words, in the room's folder."""
    command = [sys.executable, "-I", TOP / "reference/timeweave_reference", "judge", *words]
    return subprocess.run(command, cwd=room.folder, capture_output=True, timeout=LONGEST)


def usage_of_judge(room: Room) -> None:
    """the reference's judge without its words ends with 2 and its usage"""
    done = judge(room)
    if (done.returncode, done.stdout) != (2, b"") or not done.stderr.startswith(b"usage: "):
        raise Wrong(f"  judge\n  wanted 2 and its usage\n  got    {done}")


def judged_beside(room: Room) -> None:
    """the reference's judge ends as the program does where a file isn't there or a line is none, but for what it says of itself"""
    line = Timeline("a", [[b"x"]])
    room.put("proof", proof_bytes(line, 1, 0, 1))
    room.put("line", f"a 1 {line.auths[1].hex()}\n".encode())
    room.put("bad", f"a 1 {line.auths[1].hex()}\n".encode() * 2)
    for proof in ("proof", "none", "bad"):
        for lines in ("line", "none", "bad"):
            for form, words in (("verify", ()), ("strict", ("strict",))):
                done = judge(room, proof, lines, *words)
                said = done.stderr.replace(b"NOT PROVED: second implementation\n", b"", 1)
                if (done.returncode, done.stdout, said) != room.run(form, proof, lines):
                    raise Wrong(f"  judge {' '.join((proof, lines, *words))}\n  got    {done}")


def cases() -> List[dict]:
    works = (
        made_up_message, made_up_far_step, another_old_head, main_path, looked_at, fooled_receiver, one_accuser, one_receiver,
        thread_left_out, goes_on, woven_by_cron, usage_of_judge, judged_beside,
    )
    return [case(work, "operated") for work in works]
