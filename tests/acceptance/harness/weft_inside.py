"""weft within this process, so that thousands of its runs take minutes: the reference answers as the program does, what ssh-keygen answers of the same files is
asked once, nothing waits for a disk, and each service has a clock of its own. A run can be killed or fail at any of its writes, and a name can't be opened where a
test says so."""

import base64
import contextlib
import errno
import functools
import hashlib
import io
import os
import subprocess
import sys
import tempfile
import time
import traceback
from datetime import datetime, timezone
from types import SimpleNamespace
from typing import NamedTuple, Optional

from harness.places import TOP

sys.path[:0] = [place for place in (str(TOP),) if place not in sys.path]

from timeweave_reference import __main__ as reference  # noqa: E402
from timeweave_reference import directories, fields  # noqa: E402
from timeweave_reference import words as reference_words  # noqa: E402

from weft import judges, lines, program, signatures, texts, walking  # noqa: E402
from weft import main as weft_main  # noqa: E402
from weft.box import Peer  # noqa: E402
from weft.signatures import NAMESPACE  # noqa: E402

MOST_KEPT = 96
KIND = b"ssh-ed25519"
FORMS = reference_words.kinds_of_forms()
CALLS = ("write", "replace", "unlink", "mkdir")
REAL = {name: getattr(os, name) for name in (*CALLS, "open", "fsync")}


class Killed(BaseException):
    """The run was killed: nothing more of it comes to a file."""


class Fault(NamedTuple):
    """What befalls a run: at which of its calls that change files or run the program, and how: killed `before` it or amid it (`half`), interrupted (`ctrl-c`), or the
    errno by which it fails. Where a name is given, that can't be opened in the whole run."""

    at: int = 0
    kind: str = ""
    name: Optional[str] = None


NO_FAULT = Fault()


class Done(NamedTuple):
    """How a run ended: its status, None where it was killed, and what it wrote."""

    status: Optional[int]
    out: str
    err: str


class Inside:
    """What weft runs in: its environment, its clock, and the fault of the run at hand."""

    def __init__(self, folder, program_path):
        self.folder, self.moment, self.came = str(folder), 0, {}
        self.fault, self.count, self.is_dead, self.is_apart, self.is_unopened = NO_FAULT, 0, False, True, False
        self.runs = 0
        self.stores, self.answers, self.keys, self.written = {}, {}, {}, None
        self.env = {
            "PATH": os.environ["PATH"], "TIMEWEAVE_PROGRAM": str(program_path), "HOME": self.folder, "WEFT_SIGNERS": f"{self.folder}/signers", "LC_ALL": "C.UTF-8",
            "TMPDIR": f"{self.folder}/tmp",
        }  # fmt: skip

    # ---- a run

    def run(self, *words, fault=NO_FAULT, kept="kept"):
        """Runs weft, of a user who keeps lines in this file, or in none."""
        os.environ.pop("WEFT_KEPT", None)
        os.environ.update({"WEFT_KEPT": f"{self.folder}/{kept}"} if kept else {})
        streams = sys.stdin, sys.stdout, sys.stderr
        out, err = io.StringIO(), io.StringIO()
        sys.stdin, sys.stdout, sys.stderr = io.StringIO(), out, err
        self.fault, self.count, self.is_dead, self.is_apart, self.is_unopened = fault, 0, False, False, False
        self.runs += 1
        try:
            status = weft_main.main([str(word) for word in words])
        except Killed:
            status = None
        except BaseException:
            status = 99
            err.write(traceback.format_exc())
        finally:
            sys.stdin, sys.stdout, sys.stderr = streams
            self.fault, self.is_dead, self.is_apart = NO_FAULT, False, True
        return Done(status, out.getvalue(), err.getvalue())

    @contextlib.contextmanager
    def apart(self):
        """What is done within isn't weft's own, and has no faults."""
        before, self.is_apart = self.is_apart, True
        try:
            yield
        finally:
            self.is_apart = before

    def reach(self, do=None):
        """Counts a call; answers whether the fault is that of a write that is made by half."""
        if self.is_apart:
            return False
        if self.is_dead:
            raise Killed
        self.count += 1
        if self.count != self.fault.at:
            return False
        if self.fault.kind == "ctrl-c":
            raise KeyboardInterrupt
        if self.fault.kind in ("before", "half"):
            self.is_dead = True
            if self.fault.kind == "half" and do is not None:
                do()
            raise Killed
        raise OSError(getattr(errno, self.fault.kind), os.strerror(getattr(errno, self.fault.kind)))

    # ---- what stands in for the outside

    @contextlib.contextmanager
    def installed(self):
        """Puts it in the place of what weft asks, and takes it away again. Files that are logged have come to rest: what they are has a mark."""
        moment = time.time_ns
        changes = [
            (program, "run", self.answer), (program, "counted", self.counted), (program, "find_program", lambda: self.env["TIMEWEAVE_PROGRAM"]),
            (judges, "bench", self.bench), (signatures, "keygen", functools.partial(self.keygen, signatures.keygen)), (directories, "read_file", self.read_store),
            (directories, "renew_if_other", self.renew_store), (time, "time", lambda: self.moment), (texts, "datetime", self.dated()), (lines, "ONE_SECOND", 0.0),
            (reference_words, "kinds_of_forms", lambda: FORMS),
            (walking, "time", SimpleNamespace(sleep=time.sleep, time_ns=lambda: moment() + 120 * 10**9)),
            (Peer, "came", self.came_to(Peer.came)), (os, "fsync", lambda number: None), (fields.Reader, "zeros", read_zeros), (os, "open", self.open), *((os, name, self.counting(name)) for name in CALLS),
        ]  # fmt: skip
        kept = [(of, name, getattr(of, name)) for of, name, _ in changes]
        environment, place = dict(os.environ), os.getcwd()
        os.chdir(self.folder)
        os.environ.clear()
        os.environ.update(self.env)
        tempfile.tempdir = None
        for of, name, new in changes:
            setattr(of, name, new)
        try:
            yield self
        finally:
            for of, name, old in kept:
                setattr(of, name, old)
            os.environ.clear()
            os.environ.update(environment)
            tempfile.tempdir = None
            os.chdir(place)

    def counting(self, name):
        """A call of the system that is counted."""

        def call(*words, **more):
            if name == "write" and words[0] in (1, 2):
                return REAL[name](*words, **more)
            self.reach((lambda: REAL["write"](words[0], bytes(words[1])[: len(words[1]) // 2])) if name == "write" else None)
            return REAL[name](*words, **more)

        return call

    def open(self, path, *words, **more):
        """Opens a file, but one of the name that can't be opened."""
        if not self.is_apart and self.fault.name is not None and os.path.basename(os.fsdecode(path)) == self.fault.name:
            self.is_unopened = True
            raise OSError(errno.EIO, os.strerror(errno.EIO))
        return REAL["open"](path, *words, **more)

    def dated(self):
        """The class by which weft tells the day."""

        class Dated(datetime):
            @classmethod
            def now(cls, tz=None):
                return datetime.fromtimestamp(self.moment, timezone.utc)

        return Dated

    def came_to(self, real):
        """When a file came to a box, by the clock of its service."""

        def came(peer, name):
            found = real(peer, name)
            return None if found is None else self.came.get(f"{peer.incoming}/{name}", self.moment)

        return came

    # ---- the program

    def answer(self, *words, handles=()):
        """What the program answers, by the reference. A store that was read is kept, with the bytes of its file then."""
        self.reach()
        self.written = None
        with self.apart():
            found = reference.answered(list(words))
            if self.written is not None:
                self.keep_store(*self.written)
        return program.Answer(found.status, found.text)

    def counted(self, *words):
        """The same, with the size of its output."""
        found = self.answer(*words)
        return found, len(found.output)

    def bench(self, is_by_reference=False):
        """Who judges: the program."""
        return judges.Bench([judges.ProgramJudge(self.env["TIMEWEAVE_PROGRAM"])], judges.ReferenceJudge() if is_by_reference else None, is_by_reference)

    def read_store(self, path, command):
        """The store of a file. One that is to be written isn't kept as it was."""
        data = path.read_bytes()
        kept = self.stores.pop(data, None)
        store = kept if kept is not None else self.read_anew(path, command)
        self.written = data, store
        return store

    read_anew = staticmethod(directories.read_file)

    def keep_store(self, data, store):
        """Keeps a store that was read."""
        if store is not None:
            while len(self.stores) >= MOST_KEPT:
                self.stores.pop(next(iter(self.stores)))
            self.stores[data] = store
        return store

    def renew_store(self, path, data):
        """Puts a new file in the place of the old one."""
        self.written = data, self.written[1]
        if path.read_bytes() == data:
            return
        number, name = tempfile.mkstemp(dir=path.parent)
        with os.fdopen(number, "wb") as file:
            file.write(data)
        os.replace(name, path)

    def keygen(self, real, *words, given=b""):
        """What ssh-keygen answers: of signing and checking a stand-in, and of all else itself, once of the same files."""
        with self.apart():
            if words[:2] == ("-Y", "sign"):
                return 0, "", self.sign(words[words.index("-f") + 1], given)
            if words[:2] == ("-Y", "verify"):
                return self.verify(*(words[words.index(word) + 1] for word in ("-f", "-I", "-s")), given)
            key = (tuple(read_quietly(word) or word for word in words), given)
            if key not in self.answers:
                self.answers[key] = real(*words, given=given)
            return self.answers[key]

    def sign(self, key, text):
        """A signature in the form of ssh-keygen's, which whoever has no such key can't make: the digest of the key and the text."""
        own = read_quietly(key)
        public = base64.b64decode(read_quietly(f"{key}.pub").split()[1])
        self.keys[public] = own
        blob = b"SSHSIG" + (1).to_bytes(4, "big") + b"".join(map(sized, (public, NAMESPACE.encode(), b"", b"sha512", sized(KIND) + sized(stamp(own, text)))))
        body = base64.encodebytes(blob).replace(b"\n", b"")
        return b"\n".join([signatures.BEGIN.encode(), *(body[at : at + 70] for at in range(0, len(body), 70)), signatures.END.encode(), b""])

    def verify(self, signers, name, path, text):
        """Whether a key of this name in a file of signers made the signature of a file."""
        found = read_sig(read_quietly(path) or b"")
        lines = [line.split() for line in (read_quietly(signers) or b"").splitlines()]
        noted = {base64.b64decode(words[words.index(KIND) + 1]) for words in lines if words[:1] == [name.encode()] and KIND in words[:-1]}
        if found is None or found[0] not in noted or found[1] != stamp(self.keys.get(found[0], b"none"), text):
            return 255, "Signature verification failed", b"Could not verify signature.\n"
        shown = base64.b64encode(hashlib.sha256(found[0]).digest()).rstrip(b"=")
        return 0, "", b'Good "%s" signature for %s with ED25519 key SHA256:%s\n' % (NAMESPACE.encode(), name.encode(), shown)


def sized(data):
    """Bytes behind their number."""
    return len(data).to_bytes(4, "big") + data


def stamp(key, text):
    """What stands for a signature of a text by a key."""
    return hashlib.sha512(key + text).digest()


def read_sig(data):
    """The public key and the signature of a file of the form of ssh-keygen's; None of another one."""
    try:
        blob, at, fields = base64.b64decode(b"".join(data.splitlines()[1:-1]), validate=True), 10, []
        while at < len(blob):
            size = int.from_bytes(blob[at : at + 4], "big")
            fields.append(blob[at + 4 : at + 4 + size])
            at += 4 + size
        return (fields[0], fields[4][19:]) if blob[:6] == b"SSHSIG" and len(fields) == 5 and fields[1] == NAMESPACE.encode() else None
    except (ValueError, IndexError):
        return None


def read_quietly(path):
    """The bytes of a plain file; None where there is none."""
    if not os.path.isfile(path):
        return None
    try:
        with open(path, "rb") as file:
            return file.read()
    except OSError:
        return None


def read_zeros(reader, size, real=fields.Reader.zeros):
    """Reads zeros, many at a time."""
    if reader.data[reader.at : size].strip(b"\0") == b"" and len(reader.data) >= size:
        reader.at = max(reader.at, size)
    real(reader, size)


def make_key(path):
    """Makes a key."""
    subprocess.run(["ssh-keygen", "-q", "-t", "ed25519", "-N", "", "-C", path.name, "-f", path], check=True)
