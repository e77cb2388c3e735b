"""The examples that an operator would copy do what they say: the scripts of examples/, and the commands of the manual page."""

import json
import re
import subprocess
import sys
import time
from collections import Counter
from xml.etree import ElementTree

from example_files import CHAIN
import example_files

from cases.atlases import CIRCLE
from harness.examples import linked, script, with_program
from harness.making import proof_bytes
from harness.places import LONGEST, TOP
from harness.played import script_by_chance
from harness.rooms import Wrong, case, needs
from timeweave_reference.adoptions import adopt
from timeweave_reference.anchors import read_anchors
from timeweave_reference.atlases import Hop, atlas_text
from timeweave_reference.audits import audit
from timeweave_reference.timelines import Timeline
from timeweave_reference.worlds import played


def plain(text):
    """Lines of a manual page as they are typed."""
    return text.replace("\\-", "-").replace("\\e", "\\")


def manual_examples(room):
    """the commands of the manual page give what it shows"""
    for name, package in (("perl", "perl-base"), ("xxd", "xxd"), ("flock", "util-linux"), ("bash", "bash")):
        needs(name, package)
    linked(room)
    section = (TOP / "docs/timeweave.1").read_text().split("\n.SH COMMANDS\n")[1].split("\n.SH ")[0]
    blocks = re.findall(r"^\.nf\n(\$ .*?)^\.fi$", section, re.M | re.S)
    steps = [step.partition("\n")[::2] for step in re.split(r"^\$ ", plain("".join(blocks)), flags=re.M)[1:]]
    run = "".join(f"{command}\necho '=== end of step'\n" for command, _ in steps)
    done = subprocess.run(["bash", "-c", run], cwd=room.folder, env=with_program(room.program), capture_output=True, text=True, timeout=LONGEST)
    found = done.stdout.split("=== end of step\n")
    wrong = [f"  $ {command}\n  shown {output!r}\n  got   {got!r}" for (command, output), got in zip(steps, found) if output.strip() != got.strip()]
    if wrong or done.stderr or len(found) != len(steps) + 1:
        raise Wrong("\n".join([*wrong, done.stderr]))


def exemplified(program):
    """The commands of the manual page that have no example of their own."""
    section = (TOP / "docs/timeweave.1").read_text().split("\n.SH COMMANDS\n")[1].split("\n.SH ")[0]
    wrong = []
    for headings, text in re.findall(r"((?:^\.SS .*\n)+)((?:(?!\.SS ).*\n?)*)", section, re.M):
        examples = plain("".join(re.findall(r"^\.nf\n(\$ .*?)^\.fi$", text, re.M | re.S)))
        for form in re.findall(r"^\.SS (.*)$", headings, re.M):
            command, _, word = (part for part in (form.split() + ["", ""])[:3])
            used = rf"timeweave {command} \S+ {word}\b" if word.islower() else rf"timeweave {command} "
            wrong += [f"  {form}"] * (not re.search(used, examples))
    return "\n".join(wrong) or None


# What stands before the examples of a word of weft, in the order in which they are run: what they take for granted. The service of /srv/log is `data`.
BEFORE = {
    "log": "mkdir -p /srv/data /srv/sent && echo 7 > /srv/data/paid.csv && echo 8 > /srv/sent/sent && cp /srv/data/paid.csv .",
    "line": "mkdir ~/.ssh && ssh-keygen -q -t ed25519 -N '' -f ~/.ssh/id_ed25519",
    "list": "timeweave export /srv/log > log.history",
    "prove": "weft keep line --by own && cp line his.lines",
    "keep": "for name in shop notary bank; do weft log /srv/sent /srv/$name $name && ssh-keygen -q -t ed25519 -N '' -f $name.key; done; "
    "weft line /srv/shop --sign shop.key --out shop.line; mv shop.key.pub shop_key.pub; mv bank.key.pub bank_key.pub; cp /srv/notary.anchor letter.txt; "
    "openssl req -x509 -newkey ec -pkeyopt ec_paramgen_curve:prime256v1 -nodes -keyout tsa.key -out tsa.pem -days 9 -subj /CN=tsa -addext extendedKeyUsage=critical,timeStamping; "
    "echo 01 > serial; printf '%s\\n' [t] serial=serial default_policy=1.2.3 digests=sha512 signer_digest=sha256 signer_cert=tsa.pem signer_key=tsa.key > tsa.cnf; "
    "openssl ts -query -data shop.line -sha512 -cert -out query; openssl ts -reply -config tsa.cnf -section t -queryfile query -out shop.stamp",
    "tell": "timeweave thread /srv/shop 0 > message && timeweave receive /srv/notary message > receipt && cp paid.proof proof",
    "exchange": "mkdir /srv/box /srv/box-bank && echo key = ~/.ssh/id_ed25519 > /srv/box/box.conf && echo key = $PWD/bank.key > /srv/box-bank/box.conf; "
    "weft accept /srv/box-bank data --key ~/.ssh/id_ed25519.pub",
    "accept": "weft exchange /srv/bank /srv/box-bank; mkdir -p /srv/box/bank/in && cp -r /srv/box-bank/data/out/. /srv/box/bank/in && cp /srv/bank.anchor bank.line",
    "chain": "weft exchange /srv/log /srv/box; timeweave thread /srv/log 0 > message && timeweave receive /srv/bank message > receipt; "
    "echo 9 > /srv/sent/more && weft log /srv/sent /srv/bank; weft keep /srv/bank.anchor --by own; weft prove /srv/bank more --out sent.proof; "
    "weft keep /srv/log.anchor --by own; weft line /srv/log > last; weft keep last --by own; cat last /srv/bank.anchor > his.lines",
    "judge": "timeweave map /srv/log low 2 bank > low; timeweave map /srv/bank high 2 data > high; mkdir proofs && cp proof proofs; "
    "mkdir sent && cp paid.proof sent.proof sent && timeweave export /srv/log > log.history",
    "check": "cp /srv/log.lines ~/lines",
    "record": "echo deed > deed.pdf",
    "find": "true",
    "publish": "mkdir -p /srv/www/log",
    "fetch": "true",
    "backup": "mkdir /backup",
    "status": "true",
    "bundle": "true",
    "stamp": "weft line /srv/log > line; openssl ts -query -data line -sha512 -cert -out query; openssl ts -reply -config tsa.cnf -section t -queryfile query -out line.stamp",
    "restore": "mkdir lost && mv /srv/log /srv/log.* /srv/box lost",
}


def examples_of_weft(room):
    """the examples of weft's manual page can be typed as they stand there"""
    needs("ssh-keygen", "openssh-client")
    needs("openssl", "openssl")
    linked(room)
    words = re.findall(r"^\.SS weft (\w+).*?^\.nf\n(.*?)^\.fi$", (TOP / "weft/weft.1").read_text(), re.M | re.S)
    examples = {word: re.findall(r"^\$ (weft .*)$", plain(text), re.M) for word, text in words}
    environment = {**with_program(room.program), "HOME": str(room.folder), "XDG_DATA_HOME": "", "XDG_CONFIG_HOME": ""}

    def typed(command):
        for place in ("/srv", "/backup"):
            command = command.replace(f" {place}", f" {room.folder}{place}")
        return subprocess.run(["bash", "-c", command], cwd=room.folder, env=environment, capture_output=True, text=True, timeout=LONGEST)

    wrong = [f"  {word} has no example that is run" for word in examples if word not in BEFORE or not examples[word]]
    for word, before in BEFORE.items():
        prepared = typed(before)
        for command in examples[word]:
            done = typed(command)
            wrong += [f"  {command}: status {done.returncode}\n{done.stdout}{done.stderr}{prepared.stderr}"] * (done.returncode not in (0, 10))
    if wrong:
        raise Wrong("\n".join(wrong))


VERDICTS = ("accepted ", "rejected ", "stands", "unheld ", "unreadable ")


def verdicts(room, name, wanted):
    """Runs a script of examples/ that shows what it runs; its verdicts have to be these."""
    linked(room)
    status, shown = script(room, name, room.program)
    found = [line for line in shown.splitlines() if line.startswith(VERDICTS)]
    if (status, found) != (0, wanted):
        raise Wrong(f"  {name}\n  wanted {wanted}\n  got    {status} {shown!r}")


def archived_threads(room):
    """the proofs of what a history recorded of other services are judged as the demo shows them"""
    verdicts(room, "archived_threads.sh", ["accepted thread", "accepted absent", "accepted link", "rejected 7 BadTree 0"])


def two_peers(room):
    """two services that exchange messages prove to each other's friends what they received"""
    needs("cmp", "diffutils")
    verdicts(room, "two_peers.sh", ["accepted thread", "accepted thread", "accepted absent"])


def chain_of_three(room):
    """a chain over three services is made by commands alone, bound and carried"""
    verdicts(room, "chain_of_three.sh", [*["accepted precedes"] * 3, "rejected 8 Carried 1"])


def event_chain(room):
    """the proof that an event of one service precedes one of another is joined and judged as the demo shows it"""
    precedes = ["accepted precedes"]
    carried = [*precedes, "rejected 8 Carried 1"]
    refused = ["rejected Gap 2", "rejected 6 BadEvent 2", "rejected 3 NotHeld bank 3"]
    verdicts(room, "event_chain.sh", [*precedes, *precedes, *carried, *refused])


def fork_evidence(room):
    """the evidence of a fork is made and judged as the example shows it"""
    proofs = ["accepted thread"] * 2
    refused = ["rejected Gap 2", "rejected 10 Part 2 3", "rejected 10 Part 2 3", "rejected 11 NoConflict"]
    verdicts(room, "fork_evidence.sh", [*proofs, "accepted fork", *refused])


def between_steps(room):
    """an entry's place between two steps of a notary is shown as the example shows it"""
    refused = ["rejected Gap 2", "rejected 7 BadTree 0", "rejected 3 NotHeld notary 5"]
    verdicts(room, "between_steps.sh", ["accepted exists", "accepted map", "accepted exists", "accepted exists", *refused])


def audited_chain(room):
    """a proof is held against histories, good ones and others, as the example shows it"""
    files = example_files.audited_chain()
    files["cut"] = files["beta"][:100]
    anchors = read_anchors(files["lines"])
    held = (
        ("alpha", "beta", "gamma"), ("alpha", "changed", "gamma"), ("alpha", "gamma"), ("alpha", "cut", "gamma"), ("alpha", "beta", "gamma", "changed"),
    )
    told = [audit(files["proof"], anchors, [(name, files[name]) for name in names]).text.decode().split("\n")[0] for names in held]
    verdicts(room, "audited_chain.sh", ["accepted precedes", *told, "rejected 6 BadEvent 3"])


def taken_over(room):
    """a lost service's history is taken over as the example shows it"""
    files = example_files.taken_over()
    anchors = read_anchors(files["lines"])
    less = adopt("lost", files["lost"], anchors, [files["first"]]).text
    told = [
        adopt("lost", data, anchors, [files[name] for name in names]).text.decode().rstrip()
        for data, names in ((files["altered"], ("first", "second")), (less, ("second",)))
    ]
    verdicts(room, "taken_over.sh", ["accepted thread"] * 2 + told)


def reached_steps(room):
    """the picture of an atlas has a row for each service, a line for each leg, and a filled stop for each arrival"""
    linked(room)
    status, output = script(room, "reached_steps.sh", room.program)
    wanted = atlas_text(CHAIN, "alpha", 2) + "$ python3 atlas_picture.py < atlas > atlas.svg\n$ grep -c '<line' atlas.svg\n2\n"
    if status or wanted not in output or not output.endswith(atlas_text(CHAIN, "alpha", 4)):
        raise Wrong(f"  reached_steps.sh\n  wanted {wanted!r}\n  got    {status} {output!r}")
    grid = [Hop(f"g{row}", column, f"g{row + 1}", column) for row in range(9) for column in range(1, 9)]
    for hops, service, step in ((CHAIN, "alpha", 2), (CIRCLE, "a", 5), (grid, "g0", 1), ([], "alone", 7)):
        told = atlas_text(hops, service, step)
        ran = subprocess.run([sys.executable, TOP / "examples/atlas_picture.py"], input=told, capture_output=True, text=True, timeout=LONGEST)
        kinds = Counter((part.tag.rpartition("}")[2], part.get("class")) for part in ElementTree.fromstring(ran.stdout).iter())
        legs, arrivals = told.count("\nleg "), told.count("\narrive ")
        found = kinds["line", None], kinds["circle", "first"], kinds["circle", "later"], kinds["text", "service"]
        # (the title is a text of that kind too)
        if found != (legs, arrivals, legs + 1 - arrivals, arrivals + 1):
            raise Wrong(f"  atlas_picture.py of\n{told}\n  found {found}")


def played_world(room):
    """the script of the example is told as the reference plays it, and its picture is that of docs/world.svg: a dot a step, an arrow a thread, a cross a crash"""
    script_file, picture = TOP / "examples/world_script", TOP / "examples/world_picture.py"
    room.put("s", script_file.read_bytes())
    told = played(script_file.read_bytes())
    room.expect("replay s", 0, told.encode())
    ran = subprocess.run([sys.executable, picture, script_file], input=told, capture_output=True, text=True, timeout=LONGEST)
    if (ran.stdout, ran.stderr) != ((TOP / "docs/world.svg").read_text(), ""):
        raise Wrong(f"  world_picture.py of examples/world_script isn't docs/world.svg\n{ran.stderr}")
    for seed in range(20):
        data = script_by_chance(seed, 60)
        room.put("s", data)
        told = played(data)
        ran = subprocess.run([sys.executable, picture, room.folder / "s"], input=told, capture_output=True, text=True, timeout=LONGEST)
        kinds = Counter(part.tag.rpartition("}")[2] for part in ElementTree.fromstring(ran.stdout).iter())
        found, wanted = kinds["circle"], sum(json.loads(told.splitlines()[-1])["services"].values())
        if found != wanted:
            raise Wrong(f"  world_picture.py draws {found} steps of {wanted} of\n{data.decode()}")


def old_copy(room):
    """a store that was set back and gone on with is found by the lines beside it, by a peer, by lines kept elsewhere, and by its peer's evidence"""
    needs("ssh-keygen", "openssh-client")
    linked(room)
    status, output = script(room, "old_copy.sh", room.program)
    statuses = re.findall(r"^\(status (\d+)\)$", output, re.M)
    if (status, statuses) != (0, ["10", "17", "17", "17", "17", "17", "11"]) or not output.endswith("shop: 6 of 6 steps good; 6 kept lines agree.\n"):
        raise Wrong(f"  old_copy.sh\n  got    {status} {output}")


def ten_years(room):
    """a box for ten years is opened in an empty folder by what stands in it alone, and what was changed in it is told; its lines have days by a stamp that was renewed before its
    certificate ended"""
    needs("ssh-keygen", "openssh-client")
    needs("openssl", "openssl")
    linked(room)
    box = room.folder / "opened"
    box.mkdir()
    status, output = script(room, "ten_years.sh", room.program, str(box))
    told = output.partition("$ mkdir later")[2]
    good = ("accepted precedes", "./deed: OK", 'Good "timeweave-line" signature for keeper', "deed: OK", "chain: OK", "lines: OK", "register.history: OK")
    stamped = told.count("Verification: OK") == 4 and len(re.findall("^Time stamp: ", told, re.M)) == 2 and "of register was recorded not after" in output
    if status or any(text not in told for text in good) or "(status" in told or not stamped:
        raise Wrong(f"  ten_years.sh\n  got    {status} {output}")
    commands = re.findall(r"^    \$ (.*)$", (box / "README.txt").read_text(), re.M)

    def opened(number):
        words = ["env", "-i", "PATH=/usr/local/bin:/usr/bin:/bin", f"NOW={int(time.time()) + 10 * 31_536_000}", "sh", "-c", commands[number]]
        done = subprocess.run(words, cwd=box, capture_output=True, text=True, timeout=LONGEST)
        return done.stdout + done.stderr

    changes = (
        ("chain", 0, b"\x00\x00", b"\x00\x01", "rejected "), ("deed", 1, b"Ann", b"Bob", "FAILED"), ("register.line", 2, b"register 1 ", b"register 2 ", "Could not verify"),
        ("register.history", 3, b"deed", b"need", "register.history: FAILED"), ("register.line", 5, b"register 1 ", b"register 2 ", "message imprint mismatch"),
        ("notary.stamp.1", 4, b"first", b"third", "message imprint mismatch"), ("notary.stamp.2", 4, b"second", b"thirds", "Verification: FAILED"),
    )  # fmt: skip
    for name, number, old, new, text in changes:
        data = (box / name).read_bytes()
        place = data.rindex(old)
        (box / name).write_bytes(data[:place] + new + data[place + len(old) :])
        if text not in opened(number):
            raise Wrong(f"  {name} was changed\n  got    {opened(number)}")
        (box / name).write_bytes(data)
    commands.append(re.sub(r"-attime .*\)", "-attime $NOW", commands[5]))
    if "certificate has expired" not in opened(-1):
        raise Wrong(f"  the first stamp alone counts ten years later: {opened(-1)}")


def cases():
    shown = (
        archived_threads, two_peers, chain_of_three, event_chain, fork_evidence, between_steps, audited_chain, taken_over, reached_steps,
        played_world, old_copy, ten_years, manual_examples, examples_of_weft,
    )
    return [*(case(work, "shown") for work in shown), {"name": "shown: each command of the manual page has an example", "check": exemplified}]
