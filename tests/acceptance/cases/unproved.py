"""The second implementation under a name of its own: tools/look.py, `make look` and `make demo` show the README's examples by it, and over
folders it answers as the program does and leaves the same files. tests/packages/empty_debian.sh holds the first by `hold_look` in an empty
Debian."""

import os
import random
import re
import subprocess
import time
from pathlib import Path

from harness.places import LONGEST, TOP
from harness.rooms import Skipped, Wrong, case, needs
from texts.cases.documents import is_shown, read_examples
from timeweave_reference.__main__ import answered
from timeweave_reference.events_files import events_to_bytes
from timeweave_reference.followers import Follower
from timeweave_reference.services import Service
from timeweave_reference.tree_pages import PAGE

STARTER = TOP / "reference/bin/timeweave-unproved"
MARK = "NOT PROVED: second implementation"

# An environment in which there are Python 3 and sh, and the kit isn't; the seconds of a processor that the first look may take, and how often it is tried
# for them. On a machine with other work the same instructions take several times as long: so much longer as a loop of so many steps takes then than the
# seconds of a processor that it takes by itself.
BARE, MOST_SECONDS, TRIES = "/usr/bin:/bin", 10, 3
LOOP, LOOP_SECONDS = 10**7, 0.4

# What README tells to type for it.
LOOK = ["python3", "tools/look.py"]


# ---- what is shown


def bare(room):
    """The variables of an environment that has Python and sh alone."""
    return {"PATH": BARE, "TMPDIR": str(room.folder)}


def looked(room):
    """What the first look prints in such an environment, and the seconds of a processor that it took."""
    with subprocess.Popen(LOOK, cwd=TOP, env=bare(room), stdout=subprocess.PIPE, stderr=subprocess.STDOUT) as running:
        output = running.stdout.read().decode()
        _, status, used = os.wait4(running.pid, 0)
        running.returncode = os.waitstatus_to_exitcode(status)
    if running.returncode:
        raise Wrong(f"  {' '.join(LOOK)} ended with {running.returncode}\n{output}")
    return output, used.ru_utime + used.ru_stime


def slowed():
    """How many times longer than by itself this processor takes now for a loop, and once at least."""
    begun = time.process_time()
    for _ in range(LOOP):
        pass
    return max(1.0, (time.process_time() - begun) / LOOP_SECONDS)


def wanted_of_look():
    """The README's examples as the second implementation answers them: each command with what it prints."""
    import look

    commands = set(look.examples())
    for command, output in read_examples((TOP / "README.md").read_text().split("\n## Five minutes\n")[1]):
        if command in commands:
            yield look.unproved(command), output.replace("judged by: proved ..", "judged by: Python reference, tested, not proved")


def hold_look(output):
    """Raises Wrong where what the first look printed isn't what README shows, or doesn't say first that it isn't proved."""
    first, *steps = re.split(r"^\$ ", output, flags=re.M)
    found = [step.partition("\n")[::2] for step in steps]
    wanted = list(wanted_of_look())
    wrong = []
    for (command, text), (at, got) in zip(wanted, found):
        if command != at or not is_shown(text, got.rstrip("\n") + "\n" * bool(got.strip())):
            wrong.append(f"  $ {command}\n  wanted {text!r}\n  got    {got!r}")
    if not first.startswith(f"{MARK}. ") or len(found) != len(wanted) + 1 or wrong:
        raise Wrong("\n".join(wrong) or f"  {' '.join(LOOK)}\n{output}")
    if "way.svg: a picture of the way\n" not in found[-1][1]:
        raise Wrong(f"  no picture is made\n{found[-1]}")


def look_shows(room):
    """what README tells to type shows its examples with Python and sh alone, in ten seconds of a processor; first, that it isn't proved"""
    if f"`{' '.join(LOOK)}`" not in " ".join((TOP / "README.md").read_text().split()):
        raise Wrong(f"  README doesn't name {' '.join(LOOK)}")
    taken = []
    while len(taken) < TRIES and (not taken or min(taken) > MOST_SECONDS):
        before = slowed()
        output, seconds = looked(room)
        hold_look(output)
        taken.append(seconds / max(before, slowed()))
    if not list(room.folder.glob("timeweave-way-*.svg")):
        raise Wrong("  no picture is left")
    if min(taken) > MOST_SECONDS:
        raise Wrong(f"  it took {', '.join(f'{seconds:.1f}' for seconds in taken)} seconds of a processor")


def make_looks(room):
    """make look runs what README tells to type"""
    done = subprocess.run([needs("make", "make"), "-n", "look"], cwd=TOP, env=bare(room), capture_output=True, text=True, timeout=LONGEST)
    if done.returncode or done.stdout != f"{' '.join(LOOK)}\n":
        raise Wrong(f"  make -n look\n{done}")


def demo_without_kit(room):
    """make demo ends behind its first part where the kit isn't there, and says what is missing"""
    make = needs("make", "make")
    if any((Path(folder) / "rt").exists() for folder in BARE.split(":")):
        raise Skipped(f"the kit lies in {BARE}")
    done = subprocess.run([make, "-s", "demo"], cwd=TOP, env=bare(room), capture_output=True, text=True, timeout=LONGEST)
    told = re.search(r"takes the kit \S+, the command `rt`, which isn't on the path\.\n\Z", done.stdout)
    if done.returncode or not told or MARK not in done.stdout or "$ weft judge chain\n" not in done.stdout:
        raise Wrong(f"  make demo\n{done}")


def starter(room):
    """the second implementation, by its starter, says first what it is; weft makes no step by it unless it is asked"""
    (room.folder / "files").mkdir()
    room.put("files/one", b"1")
    settings = {"cwd": room.folder, "capture_output": True, "text": True, "timeout": LONGEST}
    done = subprocess.run([STARTER, "frob"], **settings)
    if (done.returncode, done.stdout, done.stderr) != (2, "usage 1\n", f"{MARK}\n"):
        raise Wrong(f"  timeweave-unproved frob: {done}")
    environment = {"PATH": f"{STARTER.parent}:{BARE}", "TIMEWEAVE_PROGRAM": str(STARTER), "HOME": str(room.folder)}
    for words, status, text in ((["log"], 14, "isn't proved"), (["log", "--unproved"], 0, "")):
        done = subprocess.run([TOP / "weft/bin/weft", *words, "files", "d", "shop"], env=environment, **settings)
        if done.returncode != status or text not in done.stderr or (room.folder / "d").exists() != (status == 0):
            raise Wrong(f"  weft {' '.join(words)}: {done}")


def warns_of_nothing(room):
    """Python warns of nothing where the second implementation is run as a folder and by its starter, of what later versions show either"""
    for words in (["-I", TOP / "reference/timeweave_reference", "judge"], ["-I", STARTER, "verify"]):
        files = [TOP / "web/examples/bound.proof", TOP / "web/examples/three.lines"]
        done = subprocess.run(["python3", "-W", "error", *words, *files], capture_output=True, text=True, timeout=LONGEST)
        if done.returncode or done.stderr != f"{MARK}\n":
            raise Wrong(f"  {done}")


# ---- over folders


class Both:
    """A folder for the program and one for the second implementation, with the same files."""

    def __init__(self, room):
        self.room, self.roots = room, [room.folder / name for name in ("first", "second")]
        for root in self.roots:
            root.mkdir()

    def put(self, name, data):
        """Puts a file into both."""
        for root in self.roots:
            (root / name).parent.mkdir(exist_ok=True)
            (root / name).write_bytes(data)

    def files(self, root):
        """What lies below a folder: each file with its bytes."""
        return {str(path.relative_to(root)): path.read_bytes() for path in root.rglob("*") if path.is_file()}

    def placed(self, words, root):
        """The words with the names of folders and files as paths below a folder."""
        return [str(root / word) if (root / word).exists() or word.startswith("no-") else word for word in words]

    def ask(self, *words):
        """Asks both; raises Wrong where status, text or the files then aren't the same. Answers status and text."""
        first, second = self.roots
        done = subprocess.run([self.room.program, *self.placed(words, first)], capture_output=True, timeout=LONGEST)
        told = answered(self.placed(words, second))
        found = [(done.returncode, done.stdout.replace(bytes(first), b"")), (told.status, told.text.replace(bytes(second), b""))]
        if found[0] != found[1]:
            raise Wrong(f"  timeweave {' '.join(words)}\n  the program          {found[0]}\n  second implementation {found[1]}")
        one, other = self.files(first), self.files(second)
        if one != other:
            names = sorted(name for name in {*one, *other} if one.get(name) != other.get(name))
            raise Wrong(f"  timeweave {' '.join(words)}: {found[0]}\n  leaves other files: {names}")
        return found[0]


FOLDERS = ("a", "b", "c")
NAMES = ("shop", "bank", "port")


def drawn_words(rand, files):
    """The words of a command by chance, over three folders and these files."""
    folder = rand.choice(FOLDERS) if rand.random() < 0.97 else "no-folder"
    file = rand.choice(sorted(files)) if rand.random() < 0.97 else "no-file"
    number = lambda: str(rand.choice((0, 1, 1, 2, 2, 3, 4, 5, 9)))  # noqa: E731
    top = [number()] if rand.random() < 0.5 else []
    time = [str(rand.randrange(50))] if rand.random() < 0.3 else []
    peer = rand.choice(NAMES)
    forms = (
        (["init", folder, peer], 1), (["watch", folder, peer], 1), (["append", folder, file, *time], 4),
        (["receive", folder, file, *time], 6),
        (["thread", folder, number()], 4), (["offer", folder, file], 3), (["heads", folder], 1), (["export", folder], 1),
        (["prove", folder, "event", number(), number(), *top], 1), (["prove", folder, "link", number(), *top], 1),
        (["prove", folder, "thread", number(), peer, number(), *top], 1), (["prove", folder, "absent", number(), peer, number(), *top], 1),
        (["map", folder, "low", number(), peer, *top], 1), (["map", folder, "high", number(), peer, *top], 1),
    )  # fmt: skip
    return rand.choices([words for words, _ in forms], [weight for _, weight in forms])[0]


def by_chance(room):
    """sequences of commands over three folders are answered as the program answers them, and leave the same files, byte for byte"""
    for seed in range(6):
        rand, both = random.Random(f"folders {seed}"), Both(Apart(room, f"seed-{seed}"))
        events = {count: [rand.randbytes(rand.choice((0, 1, 40, 1000))) for _ in range(count)] for count in (0, 1, 3, 30)}
        files = {f"e{count}": events_to_bytes(these) for count, these in events.items()}
        files["bad"] = b"\x00\x00\x00\x09short"
        for name, data in files.items():
            both.put(name, data)
        for root in both.roots:
            for folder in FOLDERS:
                (root / folder).mkdir()
        for folder, name in zip(FOLDERS, NAMES):
            if rand.random() < 0.8:
                both.ask("init", folder, name)
        for number in range(40):
            words = drawn_words(rand, files)
            status, text = both.ask(*words)
            if status == 0 and words[0] in ("thread", "receive"):
                files[f"m{number}"] = text
                both.put(f"m{number}", text)


class Apart:
    """A folder of a room's, with the room's program."""

    def __init__(self, room, name):
        self.program, self.folder = room.program, room.folder / name
        self.folder.mkdir()


def store_of_steps():
    """A service's store of steps with events, large ones among them, and with received lines."""
    service, rand = Service("shop"), random.Random("damaged")
    for number in range(9):
        service.append([rand.randbytes(900) for _ in range(number % 4)])
        peer = Service(f"peer-{number}")
        peer.append([bytes([number])])
        service.receive(peer.message(0))
    return service


def damaged(room):
    """a store that was changed is told as the program tells it: Blank where it is empty, NotAStore by its head, BadPage with its number"""
    service = store_of_steps()
    good, noise = service.file(), random.Random("noise")
    heads = {"empty": b"", "zeros": bytes(len(good)), "short": good[: 3 * PAGE], "noise": noise.randbytes(len(good)), "cut": good[:-PAGE]}
    for place in range(4):
        heads[f"head-{place}"] = good[: place * PAGE + 40] + bytes([good[place * PAGE + 40] ^ 1]) + good[place * PAGE + 41 :]
    follower = Follower("shop", [(1, service.line.auths[1])]).file()
    for name, data in {**heads, "good": good, "follower": follower}.items():
        both = Both(Apart(room, name))
        both.put("d/timeline.tw", data)
        both.put("m", service.message(0))
        for words in ("export d", "heads d", "thread d 0", "append d m", "offer d m", "init d shop", "watch d shop"):
            both.ask(*words.split())
    for page in range(4, len(good) // PAGE):
        both = Both(Apart(room, f"page-{page}"))
        both.put("d/timeline.tw", good[: page * PAGE + 2] + bytes([good[page * PAGE + 2] ^ 1]) + good[page * PAGE + 3 :])
        both.ask("export", "d")


def refused_first(room):
    """a command that is refused before the disk's turn makes no file"""
    both = Both(room)
    both.put("bad", b"\x00\x00\x00\x09short")
    for root in both.roots:
        (root / "d").mkdir()
    for words in ("append d bad", "append d no-file", "receive d bad", "offer d bad", "init d A", "export d", "heads d"):
        both.ask(*words.split())
        if any((root / "d/timeline.tw").exists() for root in both.roots):
            raise Wrong(f"  {words} makes a file")


def cases():
    return [case(work, "unproved") for work in (look_shows, make_looks, demo_without_kit, starter, warns_of_nothing, by_chance, damaged, refused_first)]
