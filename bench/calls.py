"""The same system calls in C: what strace sees of a command, as words for same_calls.c."""

import re
import subprocess
from pathlib import Path

# The program's first calls of its own see whether the standard streams are open.
BEGINNING = "fcntl(0, F_DUPFD_CLOEXEC"


def named(name):
    """How a call is told by its name and its numbers."""
    return lambda *numbers: " ".join([name, *filter(None, numbers)])


# The calls on files as strace writes them, each with how it is told to same_calls.c.
CALLS = (
    (r'openat\(AT_FDCWD, "(.*)", (\S+?)[,)].*= (\d+)$', lambda path, flags, number: f"open {number} {'w' if 'O_RDWR' in flags else 'r'} {path}"),
    (r"fcntl\((\d+), F_DUPFD_CLOEXEC, 3\) += (\d+)$", lambda number, copy: f"copy {copy} {number}"),
    (r"flock\((\d+), LOCK_(SH|EX)\)", lambda number, kind: f"lock {number} {'x' if kind == 'EX' else 's'}"),
    (r'(?:lstat|newfstatat|statx)\((?:AT_FDCWD, )?"(.+?)",', lambda path: f"look 0 {path}"),
    (r"lseek\((\d+), (\d+), SEEK_SET\)", named("seek")),
    (r"read\((\d+), .*, (\d+)\) += \d+$", named("read")),
    (r"write\((\d+), .*, (\d+)\) += \d+$", named("write")),
    (r"pread64\((\d+), .*, (\d+), (\d+)\) += \d+$", named("get")),
    (r"pwrite64\((\d+), .*, (\d+), (\d+)\) += \d+$", named("put")),
    (r"(?:fstat|newfstatat|statx)\((\d+)", named("stat")),
    (r"(?:fsync|fdatasync)\((\d+)\)", named("sync")),
    (r"close\((\d+)\)", named("close")),
)


def traced(words, folder):
    """The calls on files that the command makes from its own beginning on, as strace writes them."""
    log = f"{folder}/strace"
    subprocess.run(["strace", "-s", "0", "-o", log, *words], check=True, capture_output=True)
    lines = Path(log).read_text().splitlines()
    return lines[next(i for i, line in enumerate(lines) if line.startswith(BEGINNING)) :]


def word(line):
    """The word of a line of strace, or None for a call that isn't on a file."""
    for pattern, told in CALLS:
        found = re.match(pattern, line)
        if found:
            return told(*found.groups())
    return None


def same_calls(program, words, folder):
    """The command that makes the same calls on files as the one of these words."""
    return [program, *filter(None, map(word, traced(words, folder)))]


def pages_read(words, folder):
    """How many whole pages the command reads; only the store is read by pages."""
    return sum(bool(re.search(r"^pread64\(.*= 4096$", line)) for line in traced(words, folder))
