"""Small devices: a process goes on while a folder lies on a file system of a few pages, in a mount namespace of its own."""

import contextlib
import ctypes
import os
import shutil
import sys
import tempfile
from pathlib import Path
from typing import Optional

from weft import files

LIBC = ctypes.CDLL(None, use_errno=True)
NEW_MOUNTS = 0x00020000
REMOUNT, BIND, BELOW, PRIVATE = 0x20, 0x1000, 0x4000, 0x40000
PAGE = 4096


def mount(source: Optional[str], target: str, kind: Optional[str], flags: int, more: Optional[str] = None) -> None:
    """Mounts; raises OSError where the system doesn't let this process."""
    words = [None if word is None else os.fsencode(word) for word in (source, target, kind)]
    if LIBC.mount(*words, ctypes.c_ulong(flags), None if more is None else more.encode()):
        raise OSError(ctypes.get_errno(), f"{target} can't be mounted: {os.strerror(ctypes.get_errno())}")


def apart() -> None:
    """Gives this process mounts of its own, which end with it; raises OSError where it may not."""
    if sys.platform != "linux" or LIBC.unshare(NEW_MOUNTS):
        raise OSError(ctypes.get_errno(), "no mount namespace is to be had here")
    mount(None, "/", None, BELOW | PRIVATE)


def hindrance() -> str:
    """Why no small device can be made here; empty where one can."""
    with tempfile.TemporaryDirectory() as folder:
        child = os.fork()
        if child == 0:
            try:
                apart()
                mount("tmpfs", folder, "tmpfs", 0, f"size={PAGE}")
            except OSError:
                os._exit(1)
            os._exit(0)
        status = os.waitpid(child, 0)[1]
    return "small file systems need root, who may have mounts of his own" if status else ""


def copied(source: str, target: str, left_out: str) -> None:
    """Puts what is in one folder into another, which then has nothing else but folders of the name that is left out."""
    names = set(os.listdir(source))
    for name in set(os.listdir(target)) - names:
        path = os.path.join(target, name)
        shutil.rmtree(path) if os.path.isdir(path) else os.unlink(path)
    for name in names:
        one, other = os.path.join(source, name), os.path.join(target, name)
        if name == left_out:
            os.makedirs(other, exist_ok=True)
        elif os.path.isdir(one):
            os.makedirs(other, exist_ok=True)
            copied(one, other, left_out)
        else:
            shutil.copyfile(one, other)


def reseal(folder: str) -> None:
    """Lets services that were copied into a folder count as being where they were written."""
    for path in Path(folder).glob("*.seal"):
        _, _, line = path.read_text().partition(" ")
        files.renew(path, lambda identity, line=line: f"{identity} {line}".encode())


def unseal(folder: str) -> None:
    """Takes away what tells that a box, or a service beside it, is a copy: here it is to be the same one."""
    for name in (".turn", ".seal"):
        with contextlib.suppress(FileNotFoundError):
            os.unlink(os.path.join(folder, name))
    reseal(folder)


def move_to(folder: Path, pages: int, left_out: str = "") -> None:
    """From here on the process goes on as a child, for which the folder lies on a file system that has so many free pages; folders of the name that is left
    out stay where they are. This one waits, puts back what is there then, and ends with the child's status, or with 99 where that ended otherwise."""
    apart()
    under = os.open(folder, os.O_RDONLY | os.O_DIRECTORY)
    below = f"/proc/self/fd/{under}"
    mount("tmpfs", str(folder), "tmpfs", 0)
    copied(below, str(folder), left_out)
    unseal(str(folder))
    for place, names, _ in os.walk(folder):
        for name in [name for name in names if name == left_out]:
            path = os.path.join(place, name)
            mount(os.path.join(below, os.path.relpath(path, folder)), path, None, BIND)
            names.remove(name)
    about = os.statvfs(folder)
    used = (about.f_blocks - about.f_bfree) * about.f_frsize
    mount(None, str(folder), None, REMOUNT, f"size={used + pages * PAGE}")
    child = os.fork()
    if child == 0:
        os.close(under)
        return
    status = os.waitpid(child, 0)[1]
    copied(str(folder), below, left_out)
    unseal(below)
    os._exit(os.WEXITSTATUS(status) if os.WIFEXITED(status) else 99)
