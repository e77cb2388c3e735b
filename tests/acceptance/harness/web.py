"""The module of WebAssembly, asked by one process of Node for each proof, map and evidence that a case has the program judge."""

import functools
import os
import subprocess
import threading

from harness import library
from harness.places import TOP
from harness.rooms import Skipped, Wrong, needs

WEB = TOP / "web"
MODULE, PAGE = WEB / "timeweave.wasm", WEB / "timeweave.html"


# The functions of the library by the letters that the process takes.
FUNCTIONS = {"v": "verify", "s": "strict", "m": "checkmap", "f": "checkfork", "c": "contradict", "r": "receiver"}


class Asked:
    """One process of Node that judges what it is given."""

    def __init__(self):
        self.lock, self.count = threading.Lock(), 0
        self.child = subprocess.Popen(["node", WEB / "tests/ask.mjs"], stdin=subprocess.PIPE, stdout=subprocess.PIPE)

    def judge(self, questions):
        """The status and the text for each letter of a function with its files."""
        span = lambda data: len(data).to_bytes(4, "big") + data  # noqa: E731
        with self.lock:
            self.count += len(questions)
            self.child.stdin.write(b"".join(form.encode() + b"".join(map(span, files)) for form, *files in questions))
            self.child.stdin.flush()
            return [self.answer() for _ in questions]

    def answer(self):
        head = self.child.stdout.read(5)
        if len(head) < 5:
            raise Wrong(f"  the module's process ended with status {self.child.wait()}")
        return head[0], self.child.stdout.read(int.from_bytes(head[1:], "big"))


ASKED, STARTING = [], threading.Lock()


def is_built():
    return MODULE.exists() and library.is_built() and any(os.access(f"{folder}/node", os.X_OK) for folder in os.get_exec_path())


@functools.lru_cache(maxsize=None)
def has(form):
    """Whether the module has the function of this letter."""
    return f"timeweave_{FUNCTIONS[form]}".encode() in MODULE.read_bytes()


def start_node():
    """The process, begun once."""
    with STARTING:
        if not ASKED:
            ASKED.append(Asked())
    return ASKED[0]


def difference(words, files, status, output):
    """What the module answers else than the program did, or None."""
    row = library.row_of(words, files, status, output) if is_built() else None
    if row is None or not has(row[0]):
        return None
    form, _, given, wanted = row
    found = start_node().judge([(form, *given)])[0]
    return None if found == (status, wanted) else f"  the program answers {status} {output!r}\n  the module   {found}"


def built():
    """Whether it is built, and what tries it is here; the case is skipped where it isn't."""
    needs("node", "nodejs")
    if not is_built():
        raise Skipped("the page isn't built: `make page`")
