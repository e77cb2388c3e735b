"""What the system has to offer for some cases, and the system calls that the program makes on its files, as strace tells them."""

import ctypes
import functools
import os
import re
import shutil
import subprocess
from pathlib import Path

from harness.places import LONGEST
from harness.rooms import Skipped, needs

LIBC = ctypes.CDLL(None, use_errno=True)
NEW_MOUNTS, NEW_USER = 0x00020000, 0x10000000
READ_ONLY, REMOUNT, BIND, BELOW, PRIVATE = 1, 32, 4096, 0x4000, 0x40000

CALL = re.compile(r"^(\w+)\((.*)\)\s+= (-?\d+)(<.*?>)?(.*)$")
PLACE = re.compile(r"^(?:AT_FDCWD|(\d+))<([^>]*)>")


@functools.cache
def needs_tracing():
    """The path of strace; skips the case where strace isn't there or may not trace."""
    strace = needs("strace", "strace")
    done = subprocess.run([strace, "-o", "/dev/null", "-e", "inject=write:retval=0:when=9999", "true"], capture_output=True, timeout=LONGEST)
    if done.returncode:
        raise Skipped("strace may not trace here")
    return strace


def plain(text):
    """A text of strace, in which each byte may stand in hexadecimal."""
    return re.sub(r"\\x([0-9a-f]{2})", lambda found: chr(int(found[1], 16)), text)


class Call:
    """A system call: its name, the path of its file, its words, its result, and whether the system really made it."""

    def __init__(self, line):
        found = CALL.match(line)
        self.name, words, self.result = found[1], found[2], int(found[3])
        self.is_made = "INJECTED" not in found[5]
        place = PLACE.match(words)
        self.number = place[1] if place else None
        self.path = plain(place[2]) if place else ""
        texts = re.findall(r'"((?:\\x[0-9a-f]{2})*)"', words)
        self.data = bytes.fromhex(texts[0].replace("\\x", "")) if texts else b""
        if self.name in ("openat", "statx", "newfstatat", "readlink") and self.data:
            self.path = os.path.normpath(os.path.join(self.path, os.fsdecode(self.data)))
        self.words = words.split(", ")


def calls_of(program, words, folder, *, inject=(), **settings):
    """Runs the program under strace; answers its status, its output and all its calls in their order."""
    strace = needs_tracing()
    record = Path(folder) / "calls"
    command = [strace, "-o", record, "-y", "-xx", "-s", "70000"]
    for fault in inject:
        command += ["-e", f"inject={fault}"]
    done = subprocess.run([*command, program, *words], cwd=folder, capture_output=True, stdin=subprocess.DEVNULL, timeout=LONGEST, **settings)
    lines = [line for line in record.read_text().splitlines() if CALL.match(line)]
    record.unlink()
    return done.returncode, done.stdout, [Call(line) for line in lines]


def own_calls(calls):
    """The calls after those that load the program: from its first call on a standard stream or a file of its own on."""
    begin = max((i for i, call in enumerate(calls) if re.search(r"\.so[.\d]*$|ld\.so\.cache$", call.path)), default=-1)
    return calls[begin + 1 :]


def apart(flags):
    """Gives the program namespaces of its own, as a plain user too where the system lets one."""
    if LIBC.unshare(flags) and LIBC.unshare(flags | NEW_USER):
        raise OSError("no namespace can be had here")


def in_root(folder):
    """Runs the program with this folder as the root of all files."""

    def change():
        try:
            os.chroot(folder)
        except PermissionError:
            apart(NEW_USER)
            os.chroot(folder)
        os.chdir("/")

    return change


def under_read_only(folder):
    """Runs the program where this folder is mounted to be read only."""
    path = os.fsencode(folder)

    def mount():
        apart(NEW_MOUNTS)
        steps = (
            (None, b"/", BELOW | PRIVATE),
            (path, path, BIND),
            (None, path, BIND | REMOUNT | READ_ONLY),
        )
        for source, target, flags in steps:
            if LIBC.mount(source, target, None, flags, None):
                raise OSError("no folder can be mounted here")

    return mount


def bare_root(program, folder):
    """Makes the folder one that the program can run in as the root: with its libraries and no device. Answers its path there."""
    listed = subprocess.run([needs("ldd", "libc-bin"), program], capture_output=True, text=True, timeout=LONGEST).stdout
    for path in [program, *re.findall(r"(/\S+) \(0x", listed)]:
        target = Path(folder) / (path.lstrip("/") if path != program else "timeweave")
        target.parent.mkdir(parents=True, exist_ok=True)
        shutil.copy(path, target)
    return "/timeweave"
