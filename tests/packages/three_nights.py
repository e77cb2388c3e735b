#!/usr/bin/env python3
"""Two services and a static web server in an empty Debian, by what docs/operating.md says and nothing else: the package's timer keeps one as a user of its own, the
other is kept by hand; three nights, a new key, a disk that is lost, and the packages are taken away again. It needs root, `debootstrap` and a mirror of Debian.

    python3 tests/packages/three_nights.py [--dist DIST | --program PROGRAM] [--debian FOLDER] [--mirror URL]

The packages are those of DIST, of dist where nothing is said. With --program they are made here of the tree, of this built program, and of the library and the page
that are built here. --debian names an empty Debian that was made before, as by `debootstrap --variant=minbase --include=systemd,acl`; a copy of it is used.

Each command of the main path is typed as it is written there, with names of this place for some of its words. What doesn't run without systemd is skipped by name,
and what the timer's service would start is typed as its unit has it. It ends with 0 where all is as the document says, and where it can't be tried here: then it
says `skipped`, and why."""

import argparse
import contextlib
import json
import os
import re
import shutil
import subprocess
import sys
import tempfile
import time
from pathlib import Path
from typing import Iterator, List, Mapping, Optional, Tuple

TOP = Path(__file__).resolve().parents[2]
OPERATING = (TOP / "docs/operating.md").read_text()
# (a command in the midst of a paragraph may be broken over two lines)
FLAT = " ".join(OPERATING.split())
LONGEST = 1800
# Beyond what debootstrap calls the least: what a Debian that runs services has.
BESIDE = "systemd,acl"
ROOT_PATH = "PATH=/usr/sbin:/usr/bin:/sbin:/bin"
UNIT = "usr/lib/systemd/system/timeweave.service"
# Of these parts of the document each command is typed, or skipped by name.
PARTS = (
    ("**As Debian runs a service.**", "**By cron**"),
    ("    ssh-keygen -t ed25519 -N '' -f /srv/shop.key", "When the peer's first message"),
    ("    weft backup /srv/log", "That ends with 10, since it is a copy"),
)
SYSTEMD = "systemd doesn't run in a chroot"
NIGHT = "systemctl start timeweave.service"


class Wrong(Exception):
    """Something isn't as the document says."""


def hindrance() -> str:
    """Why it can't be tried here; empty where it can."""
    if os.geteuid():
        return "an empty Debian is made by root alone"
    return next((f"{name} isn't installed" for name in ("debootstrap", "dpkg-deb", "chroot", "mount") if shutil.which(name) is None), "")


def commands_of(part: Tuple[str, str]) -> List[str]:
    """The commands between two places of the document: lines set in, in paragraphs of which none is a file's text (`NAME=VALUE`)."""
    begin = OPERATING.index(part[0])
    lines = OPERATING[begin : OPERATING.index(part[1], begin)].splitlines()
    return [line[4:] for line in lines if line.startswith("    ") and not re.fullmatch(r"    [A-Z]+=.*", line)]


class Debian:
    """An empty Debian in a folder, in which commands of the document are typed."""

    def __init__(self, root: Path):
        self.root, self.left = root, [command for part in PARTS for command in commands_of(part)]

    def run(self, command: str, user: str = "") -> "subprocess.CompletedProcess[str]":
        """Runs a command there, in a shell of root or of this user."""
        words = ["env", "-i", ROOT_PATH, "LC_ALL=C.UTF-8", "DEBIAN_FRONTEND=noninteractive", "HOME=/root", "chroot", str(self.root)]
        words += ["runuser", "-u", user, "--"] if user else []
        return subprocess.run([*words, "sh", "-c", command], stdin=subprocess.DEVNULL, capture_output=True, text=True, timeout=LONGEST)

    def do(self, command: str, *says: str, status: int = 0, user: str = "") -> str:
        """Runs a command that isn't of the document; raises Wrong where it ends otherwise, or doesn't say this."""
        done = self.run(command, user)
        told = done.stdout + done.stderr
        if done.returncode != status or not all(it in told for it in says):
            raise Wrong(f"{command}\n  wanted {status}, and {says}\n  got    {done.returncode}: {told[-3000:]}")
        return told

    def type(self, command: str, *says: str, status: int = 0, user: str = "", names: Mapping[str, str] = {}) -> str:
        """Types a command of the document, with other names for some of its words."""
        if command not in FLAT:
            raise Wrong(f"docs/operating.md hasn't the command {command}")
        self.left = [it for it in self.left if it != command]
        typed = command
        for word, other in names.items():
            typed = typed.replace(word, other)
        began = time.monotonic()
        told = self.do(typed, *says, status=status, user=user)
        print(f"typed, status {status}, {time.monotonic() - began:.1f} s: {user + ': ' if user else ''}{typed}", flush=True)
        return told

    def skip(self, command: str, why: str) -> None:
        """Notes that a command of the document can't be typed here."""
        if command not in FLAT:
            raise Wrong(f"docs/operating.md hasn't the command {command}")
        self.left = [it for it in self.left if it != command]
        print(f"skipped: {command}: {why}", flush=True)

    def put(self, path: str, text: str) -> None:
        """Writes a file there, whose owner and mode stay where it is there."""
        with open(self.root / path.lstrip("/"), "w") as file:
            file.write(text)

    def read(self, path: str) -> bytes:
        """The bytes of a file there."""
        return (self.root / path.lstrip("/")).read_bytes()


# ---- the empty Debian, and the packages


@contextlib.contextmanager
def empty(place: Path, ready: Optional[Path], mirror: str) -> Iterator[Debian]:
    """An empty Debian in a folder, with /proc, until the end."""
    root = place / "debian"
    if ready is not None:
        subprocess.run(["cp", "-a", ready, root], check=True)
    else:
        suite = re.search(r"VERSION_CODENAME=(\w+)", Path("/etc/os-release").read_text())
        words = ["debootstrap", "--variant=minbase", f"--include={BESIDE}", suite[1] if suite else "stable", str(root), mirror]
        done = subprocess.run(words, capture_output=True, text=True, timeout=LONGEST)
        if done.returncode:
            raise Wrong(f"{' '.join(words)}\n{done.stdout[-2000:]}{done.stderr[-2000:]}")
    shutil.copyfile("/etc/resolv.conf", root / "etc/resolv.conf")
    os.chmod(place, 0o755)
    subprocess.run(["mount", "-t", "proc", "proc", root / "proc"], check=True)
    try:
        yield Debian(root)
    finally:
        subprocess.run(["umount", "-q", root / "proc"], check=False)


def make_packages(into: Path, program: Path) -> None:
    """Makes the packages of the tree, of this program, and of the library and the page that are built here."""
    sys.path[:0] = [str(TOP / "tools")]
    import release

    missing = [part for part in release.PARTS if part != "bin/timeweave" and not (TOP / part).exists()]
    if missing:
        raise Wrong(f"{missing[0]} isn't built")
    release.pack(into, {"bin/timeweave": program}, f"{release.VERSION}~trial")


def install(debian: Debian, dist: Path) -> None:
    """Installs the packages by apt, with what they depend on and recommend."""
    names = sorted(path.name for path in dist.glob("*.deb") if "-dev_" not in path.name)
    if not names:
        raise Wrong(f"{dist} has no packages")
    (debian.root / "root/dist").mkdir()
    for name in names:
        shutil.copy2(dist / name, debian.root / "root/dist" / name)
    debian.do("apt-get -qq update")
    debian.do(f"cd /root/dist && apt-get -qq install {' '.join(f'./{name}' for name in names)}")
    print(f"installed: {', '.join(names)}", flush=True)


# ---- what is typed


def as_started(debian: Debian, status: int, *says: str) -> str:
    """Does what systemd does when the timer's service is started: the command of the unit, as its user, in its folder, with its umask."""
    unit = dict(line.split("=", 1) for line in debian.read(UNIT).decode().splitlines() if "=" in line and not line.startswith("#"))
    state = f"/var/lib/{unit['StateDirectory']}"
    debian.do(f"test -d {state} || install -d -o {unit['User']} -g {unit['Group']} -m {unit['StateDirectoryMode']} {state}")
    command = f"umask {unit['UMask']}; cd {unit['WorkingDirectory']}; export {unit['Environment']}; exec {unit['ExecStart']}"
    began = time.monotonic()
    told = debian.do(command, *says, status=status, user=unit["User"])
    print(f"typed for `{NIGHT}`, status {status}, {time.monotonic() - began:.1f} s: {unit['User']}: {unit['ExecStart']}", flush=True)
    return told


def first_night(debian: Debian) -> None:
    """The main path up to the first night, for a service without peers."""
    debian.do("mkdir -p /srv/data && echo paid > /srv/data/paid.csv && chmod 700 /srv/data")
    debian.type("systemd-sysusers")
    for command in commands_of(PARTS[0]):
        if command.startswith("install -d"):
            debian.type(command)
    debian.type("setfacl -R -m u:timeweave:rX /srv/data")
    debian.put("/etc/timeweave.conf", settings_in_document())
    debian.type("runuser -u timeweave -- weft log /srv/data /var/lib/timeweave/log data", "data 1 ")
    debian.skip("systemctl enable --now timeweave.timer", SYSTEMD)
    debian.skip(NIGHT, f"{SYSTEMD}; its ExecStart is typed")
    as_started(debian, 0)
    debian.type("runuser -u timeweave -- weft status /var/lib/timeweave/log", "data")


def settings_in_document() -> str:
    """The settings that the document has for /etc/timeweave.conf."""
    begin = OPERATING.index(PARTS[0][0])
    return "".join(f"{line[4:]}\n" for line in OPERATING[begin : OPERATING.index(PARTS[0][1])].splitlines() if re.fullmatch(r"    [A-Z]+=.*", line))


def two_boxes(debian: Debian) -> None:
    """The second service, by hand, and a box of each, with the other one's key."""
    debian.do("mkdir -p /srv/files-shop && echo sold > /srv/files-shop/sold && mkdir /srv/www")
    debian.type("weft log /srv/files-shop /srv/shop shop", "shop 1 ")
    debian.type("ssh-keygen -t ed25519 -N '' -f /srv/shop.key")
    debian.type("mkdir /srv/box-shop && echo 'key = /srv/shop.key' > /srv/box-shop/box.conf")
    here = {"/srv/shop.key": "/var/lib/timeweave/key", "/srv/box-shop": "/var/lib/timeweave/box"}
    debian.type("ssh-keygen -t ed25519 -N '' -f /srv/shop.key", user="timeweave", names=here)
    debian.type("mkdir /srv/box-shop && echo 'key = /srv/shop.key' > /srv/box-shop/box.conf", user="timeweave", names=here)
    debian.do("install -m 644 /var/lib/timeweave/key.pub /srv/data.key.pub")
    debian.type("weft accept /srv/box-shop bank --key bank.key.pub", status=10, names={"bank.key.pub": "/srv/data.key.pub", "bank": "data"})
    debian.type("weft accept /srv/box-shop bank --key bank.key.pub", status=10, user="timeweave", names={**here, "bank.key.pub": "/srv/shop.key.pub", "bank": "shop"})
    debian.type("mkdir -m 755 /srv/www/shop")
    debian.do("install -d -o timeweave -m 755 /srv/www/data")
    debian.do("echo 'backup = /backup/shop' >> /srv/box-shop/box.conf && echo 'publish = /srv/www/shop' >> /srv/box-shop/box.conf")
    debian.put("/etc/timeweave.conf", settings_in_document().replace("BOX=\n", "BOX=/var/lib/timeweave/box\nPUBLISH=/srv/www/data\n"))


def place_of(debian: Debian, box: str, out: str, peer: str, user: str = "") -> str:
    """The address of a peer's folder below the server's, as publishing tells it."""
    told = debian.type("weft publish BOX OUT", f"{peer}: peers/", user=user, names={"BOX": box, "OUT": out})
    found = re.search(rf"{peer}: (peers/[0-9a-f]{{32}}/)", told)
    if found is None:
        raise Wrong(f"no address is told: {told}")
    return found[1]


def night_of_both(debian: Debian, number: int, statuses: Tuple[int, int]) -> Tuple[str, str]:
    """A night: both have new files, the timer's service is started, and the other one logs and exchanges by hand."""
    debian.do(f"echo {number} > /srv/data/of-{number} && echo {number} > /srv/files-shop/of-{number} && setfacl -R -m u:timeweave:rX /srv/data")
    first = as_started(debian, statuses[0])
    debian.do("weft log /srv/files-shop /srv/shop", "shop ")
    second = debian.type("weft exchange /srv/shop /srv/box-shop", status=statuses[1])
    return first, second


def over_the_web(debian: Debian, port: int) -> None:
    """Three nights over the web server: each other's first message is accepted, and then each step is received."""
    as_started(debian, 0)
    debian.type("weft exchange /srv/shop /srv/box-shop", "shop ", status=0)
    own = place_of(debian, "/var/lib/timeweave/box", "/srv/www/data", "shop", "timeweave")
    other = place_of(debian, "/srv/box-shop", "/srv/www/shop", "data")
    debian.do(f"echo 'url data = http://127.0.0.1:{port}/data/{own}' >> /srv/box-shop/box.conf")
    debian.do(f"echo 'url shop = http://127.0.0.1:{port}/shop/{other}' >> /var/lib/timeweave/box/box.conf", user="timeweave")
    print("the first night is over: both are published", flush=True)
    first, second = night_of_both(debian, 1, (10, 10))
    accept_both(debian, first, second)
    night_of_both(debian, 2, (0, 0))
    night_of_both(debian, 3, (0, 0))
    for words, peer, user in (("/var/lib/timeweave/log /var/lib/timeweave/box", "shop", "timeweave"), ("/srv/shop /srv/box-shop", "data", "")):
        found = json.loads(debian.do(f"weft status {words} --json", user=user))["peers"][peer]
        if not found["accepted"] or not found["has"] or found["forks"] or found["silent"]:
            raise Wrong(f"after three nights {peer} is so: {found}")
        print(f"after three nights {peer} has step {found['has']}", flush=True)


def accept_both(debian: Debian, first: str, second: str) -> None:
    """Each accepts the other one's line, which was compared by another way."""
    for told, box, peer, user in ((first, "/var/lib/timeweave/box", "shop", "timeweave"), (second, "/srv/box-shop", "data", "")):
        found = re.search(rf"{peer} \d+ ([0-9a-f]{{64}})", told)
        if found is None:
            raise Wrong(f"no line of {peer} is told: {told}")
        debian.type("weft accept /srv/box-shop bank", user=user, names={"/srv/box-shop bank": f"{box} {peer} --yes {found[1]}"})


def new_key(debian: Debian) -> None:
    """The timer's service goes on by a new key, which the old one introduces."""
    here = {"/srv/shop.key": "/var/lib/timeweave/new"}
    debian.type("ssh-keygen -t ed25519 -N '' -f /srv/shop.key", user="timeweave", names=here)
    words = {"DIR": "/var/lib/timeweave/log", "OLD": "/var/lib/timeweave/key", "NEW.pub": "/var/lib/timeweave/new.pub", "change": "/var/lib/timeweave/change"}
    debian.type("weft line DIR --sign OLD --introduce NEW.pub --out change", user="timeweave", names=words)
    debian.do("sed -i 's,^key = .*,key = /var/lib/timeweave/new,' /var/lib/timeweave/box/box.conf", user="timeweave")
    debian.do("install -m 644 /var/lib/timeweave/change /var/lib/timeweave/change.sig /var/lib/timeweave/change.key /srv/")
    debian.type("weft accept BOX PEER change --introduced change.key", names={"BOX": "/srv/box-shop", "PEER": "data", "change": "/srv/change"})
    night_of_both(debian, 4, (0, 0))
    night_of_both(debian, 5, (0, 0))
    signers = debian.read("/srv/box-shop/allowed_signers").decode()
    new = debian.read("/var/lib/timeweave/new.pub").decode().split()[1]
    if new not in signers:
        raise Wrong(f"the new key isn't noted: {signers}")


def restore_drill(debian: Debian) -> None:
    """The backup is tried; then the disk with the service and its box is lost, and the backup is put back: the next turn looks, and waits for the peer's word, for a
    day. Asked by another way, the peer has the last line that is there: by that the service goes on."""
    log, box = "/var/lib/timeweave/log", "/var/lib/timeweave/box"
    there = {"/srv/log": log, "/srv/box": box}
    debian.type("weft backup /srv/log /srv/box /backup/log", user="timeweave", names=there)
    debian.type("weft restore /backup/log /tmp/log && weft check /tmp/log --all", status=10, user="timeweave")
    debian.do("rm -rf /tmp/log /tmp/log.*")
    last = debian.do(f"weft line {log}", user="timeweave").splitlines()[-1]
    debian.do(f"rm -rf {log} {log}.* {box}", user="timeweave")
    debian.type("weft restore /backup/log /srv/log /srv/box", user="timeweave", names=there)
    debian.type("weft exchange --look DIR BOX", "No step was made", status=10, user="timeweave", names={"DIR": log, "BOX": box})
    debian.do("weft exchange /srv/shop /srv/box-shop", status=0)
    debian.do(f"weft exchange {log} {box}", "shop: its word is waited for", status=10, user="timeweave")
    kept = " ".join(debian.read("/srv/box-shop/data/kept/lines").decode().splitlines()[-1].split()[:3])
    if kept != last:
        raise Wrong(f"shop has {kept}, and the last line before the loss was {last}")
    debian.do(f"weft exchange {log} {box} --adopt-store '{kept}'", "data ", user="timeweave")
    night_of_both(debian, 6, (0, 0))


def purged(debian: Debian) -> None:
    """An upgrade runs nothing, and a purge takes the settings and no data."""
    data = [path for front in ("var/lib/timeweave", "backup", "srv") for path in sorted((debian.root / front).rglob("*")) if path.is_file()]
    before = {path: path.read_bytes() for path in data}
    debian.do("cd /root/dist && apt-get -qq install --reinstall ./timeweave_*.deb")
    debian.do("apt-get -qq purge timeweave python3-timeweave libtimeweave1")
    changed = [str(path) for path in data if not path.exists() or path.read_bytes() != before[path]]
    if changed:
        raise Wrong(f"the purge touched data: {changed[:5]}")
    left = debian.do("find /usr /etc -xdev -path '*timeweave*' -not -path '/usr/local/*'").split()
    if left:
        raise Wrong(f"left behind: {left}")
    print(f"purged: {len(before)} files of data are as before, and none of the packages is left", flush=True)


@contextlib.contextmanager
def server(debian: Debian) -> Iterator[int]:
    """A static web server on this machine, below /srv/www, which is Python's own."""
    words = ["chroot", str(debian.root), "python3", "-u", "-m", "http.server", "--bind", "127.0.0.1", "--directory", "/srv/www", "0"]
    child = subprocess.Popen(words, stdout=subprocess.PIPE, stderr=subprocess.DEVNULL, text=True)
    try:
        assert child.stdout is not None
        found = re.search(r"port (\d+)", child.stdout.readline())
        if found is None:
            raise Wrong("the web server didn't start")
        yield int(found[1])
    finally:
        child.kill()
        child.wait()


def main() -> int:
    """Tries all of it."""
    words = argparse.ArgumentParser(description=__doc__, formatter_class=argparse.RawDescriptionHelpFormatter)
    words.add_argument("--dist", metavar="DIST", type=Path, default=TOP / "dist", help="the folder of the packages; else dist")
    words.add_argument("--program", metavar="PROGRAM", type=Path, help="makes the packages here, with this built program")
    words.add_argument("--debian", metavar="FOLDER", type=Path, help="an empty Debian that was made before")
    words.add_argument("--mirror", metavar="URL", default="http://deb.debian.org/debian", help="the mirror of Debian")
    given = words.parse_args()
    why = hindrance()
    if why:
        print(f"skipped: {why}")
        return 0
    with tempfile.TemporaryDirectory(prefix="debian-") as folder, contextlib.ExitStack() as stack:
        dist = given.dist
        if given.program is not None:
            dist = Path(folder) / "dist"
            dist.mkdir()
            make_packages(dist, given.program.absolute())
        try:
            debian = stack.enter_context(empty(Path(folder), given.debian, given.mirror))
            install(debian, dist)
            first_night(debian)
            two_boxes(debian)
            over_the_web(debian, stack.enter_context(server(debian)))
            new_key(debian)
            restore_drill(debian)
            purged(debian)
            if debian.left:
                raise Wrong(f"commands of docs/operating.md that weren't typed: {debian.left}")
        except Wrong as wrong:
            print(f"wrong: {wrong}")
            return 1
    print("passed")
    return 0


if __name__ == "__main__":
    sys.exit(main())
