"""What a loss of power leaves of the files that a process writes: of what wasn't synced any part may be gone."""

import os
import random
from pathlib import Path
from typing import Optional


class Power:
    """Stands between a process and its files, and knows what of them isn't durable yet. (The store is the program's, which syncs it before it answers.)"""

    def __init__(self, seed: int):
        self.drawn = random.Random(seed)
        self.paths: dict[int, str] = {}
        self.grown: dict[str, int] = {}
        self.named: list[tuple[str, Optional[bytes]]] = []
        self.real = {name: getattr(os, name) for name in ("open", "fsync", "replace", "unlink")}
        os.open, os.fsync, os.replace, os.unlink = self.open, self.fsync, self.replace, self.unlink

    def open(self, path: object, flags: int, *more: object, **named: object) -> int:
        """Opens a file; one that is opened to be written holds what it had until it is synced."""
        whole = os.path.abspath(os.fspath(path)) if isinstance(path, (str, os.PathLike)) and "dir_fd" not in named else ""
        size = os.path.getsize(whole) if os.path.isfile(whole) else 0
        number = self.real["open"](path, flags, *more, **named)
        self.paths[number] = whole
        if whole and flags & (os.O_WRONLY | os.O_RDWR) and not whole.endswith(".lock"):
            self.grown[whole] = 0 if flags & os.O_TRUNC else size
        return number

    def fsync(self, number: int) -> None:
        """Makes a file durable, or the names in a folder."""
        self.real["fsync"](number)
        path = self.paths.get(number, "")
        self.grown.pop(path, None)
        if os.path.isdir(path):
            self.named = [(it, before) for it, before in self.named if os.path.dirname(it) != path]

    def replace(self, source: object, target: object) -> None:
        """Renames a file over another one, which may come back."""
        whole = os.path.abspath(os.fspath(target))
        self.named.append((whole, Path(whole).read_bytes() if os.path.exists(whole) else None))
        self.real["replace"](source, target)

    def unlink(self, path: object, **named: object) -> None:
        """Removes a file, which may come back."""
        whole = os.path.abspath(os.fspath(path)) if "dir_fd" not in named else ""
        before = Path(whole).read_bytes() if whole and os.path.isfile(whole) else None
        self.real["unlink"](path, **named)
        if before is not None:
            self.named.append((whole, before))

    def lose(self) -> None:
        """Leaves what a loss of power may leave now: of each change that isn't durable it is drawn whether it is gone."""
        for path, size in self.grown.items():
            if os.path.isfile(path) and self.drawn.random() < 0.7:
                os.truncate(path, min(size, os.path.getsize(path)))
        for path, before in reversed(self.named):
            if self.drawn.random() < 0.7:
                if before is not None:
                    Path(path).write_bytes(before)
                elif os.path.isfile(path):
                    self.real["unlink"](path)
